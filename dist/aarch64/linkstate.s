	.file	"rattle"
	.section	.text.core.str.utf8.from_utf8,"ax",@progbits
	.p2align	2
	.type	core.str.utf8.from_utf8,@function
core.str.utf8.from_utf8:
	sub	sp, sp, #64
	stp	x22, x21, [sp, #32]
	mov	x21, x1
	stp	x20, x19, [sp, #48]
	mov	x20, x2
	mov	x19, x0
	stp	x29, x30, [sp, #16]
	add	x29, sp, #16
	cbz	x2, .LBB0_51
	mov	x9, xzr
	sub	x22, x20, #8
	b	.LBB0_6
.LBB0_2:
	and	w11, w11, #0xff
	tbnz	w11, #7, .LBB0_23
.LBB0_3:
	mov	w12, #1
.LBB0_4:
	add	x8, x12, x9
.LBB0_5:
	cmp	x8, x20
	mov	x9, x8
	b.hs	.LBB0_51
.LBB0_6:
	add	x8, x21, x9
	sub	x10, x20, x9
	ldrsb	w11, [x8]
	cmp	x10, #2
	b.lo	.LBB0_2
	tbnz	w11, #31, .LBB0_2
	ldrsb	w11, [x8, #1]
	tbnz	w11, #31, .LBB0_3
	cmp	x10, #7
	stp	x21, x20, [sp]
	b.hi	.LBB0_28
	ldrsb	w8, [x21, x9]
	tbnz	w8, #31, .LBB0_43
	add	x8, x9, #1
	cmp	x8, x20
	b.eq	.LBB0_51
	ldrsb	w10, [x21, x8]
	tbnz	w10, #31, .LBB0_5
	add	x8, x9, #2
	cmp	x8, x20
	b.eq	.LBB0_51
	ldrsb	w10, [x21, x8]
	tbnz	w10, #31, .LBB0_5
	add	x8, x9, #3
	cmp	x8, x20
	b.eq	.LBB0_51
	ldrsb	w10, [x21, x8]
	tbnz	w10, #31, .LBB0_5
	add	x8, x9, #4
	cmp	x8, x20
	b.eq	.LBB0_51
	ldrsb	w10, [x21, x8]
	tbnz	w10, #31, .LBB0_5
	add	x8, x9, #5
	cmp	x8, x20
	b.eq	.LBB0_51
	ldrsb	w10, [x21, x8]
	tbnz	w10, #31, .LBB0_5
	add	x8, x9, #6
	cmp	x8, x20
	b.eq	.LBB0_51
	ldrsb	w9, [x21, x8]
	tbnz	w9, #31, .LBB0_5
	b	.LBB0_51
.LBB0_23:
	cmp	w11, #194
	b.lo	.LBB0_59
	cmp	w11, #223
	b.hi	.LBB0_36
	cmp	x10, #2
	b.lo	.LBB0_58
	ldrsb	w12, [x8, #1]
	cmn	w12, #65
	b.gt	.LBB0_55
	mov	w12, #2
	b	.LBB0_4
.LBB0_28:
	ldr	x8, [x8]
	mov	w10, #8
	ands	x8, x8, #0x8080808080808080
	rbit	x8, x8
	clz	x8, x8
	lsr	x8, x8, #3
	csel	x8, x10, x8, eq
	add	x8, x8, x9
	add	x9, x9, #8
	cmp	x8, x9
	b.lo	.LBB0_5
	sub	x9, x20, x8
	cmp	x9, #32
	b.lo	.LBB0_32
.LBB0_30:
	add	x9, x21, x8
	ldp	q1, q0, [x9]
	orr	v0.16b, v1.16b, v0.16b
	ext	v1.16b, v0.16b, v0.16b, #8
	orr	v0.8b, v0.8b, v1.8b
	fmov	x9, d0
	tst	x9, #0x8080808080808080
	b.ne	.LBB0_32
	mov	x0, sp
	add	x1, x8, #32
	mov	x2, x20
	bl	core.slice.words.skip_far.52f9edcae2f82f51
	sub	x9, x20, x0
	mov	x8, x0
	cmp	x9, #31
	b.hi	.LBB0_30
.LBB0_32:
	sub	x9, x20, x8
.LBB0_33:
	cmp	x9, #9
	b.lo	.LBB0_50
	ldr	x10, [x21, x8]
	mov	w11, #8
	sub	x9, x9, #8
	ands	x10, x10, #0x8080808080808080
	rbit	x10, x10
	clz	x10, x10
	lsr	x10, x10, #3
	csel	x10, x11, x10, eq
	add	x11, x10, x8
	add	x8, x8, #8
	cmp	x11, x8
	b.hs	.LBB0_33
	add	x8, x10, x8
	sub	x8, x8, #8
	b	.LBB0_5
.LBB0_36:
	cmp	w11, #239
	b.hi	.LBB0_44
	cmp	x10, #3
	b.lo	.LBB0_53
	ldrsb	w12, [x8, #1]
	cmn	w12, #65
	b.gt	.LBB0_55
	ldrsb	w13, [x8, #2]
	cmn	w13, #65
	b.gt	.LBB0_55
	and	w13, w12, #0xff
	mov	w14, #-14464
	add	w13, w13, w11, lsl #6
	add	w13, w13, w14
	cmp	w13, #32
	b.lo	.LBB0_55
	cmp	w13, #896
	mov	w12, #3
	csel	x14, xzr, x12, lo
	cmp	w13, #864
	b.lo	.LBB0_4
	mov	x12, x14
	b	.LBB0_49
.LBB0_43:
	mov	x8, x9
	b	.LBB0_5
.LBB0_44:
	cmp	x10, #4
	b.lo	.LBB0_52
	ldrsb	w12, [x8, #1]
	cmn	w12, #65
	b.gt	.LBB0_52
	ldrsb	w13, [x8, #2]
	cmn	w13, #65
	b.gt	.LBB0_52
	ldrsb	w13, [x8, #3]
	cmn	w13, #65
	b.gt	.LBB0_52
	and	w12, w12, #0xff
	mov	w13, #-15488
	add	w12, w12, w11, lsl #6
	add	w13, w12, w13
	mov	w12, #4
	cmp	w13, #272
	csel	x12, x12, xzr, lo
	cmp	w13, #16
	b.lo	.LBB0_52
.LBB0_49:
	cbnz	x12, .LBB0_4
	b	.LBB0_52
.LBB0_50:
	ldr	x8, [x21, x22]
	mov	w9, #8
	ands	x8, x8, #0x8080808080808080
	rbit	x8, x8
	clz	x8, x8
	lsr	x8, x8, #3
	csel	x8, x9, x8, eq
	add	x8, x8, x22
	b	.LBB0_5
.LBB0_51:
	stp	xzr, x21, [x19]
	str	x20, [x19, #16]
	ldp	x20, x19, [sp, #48]
	ldp	x22, x21, [sp, #32]
	ldp	x29, x30, [sp, #16]
	add	sp, sp, #64
	ret
.LBB0_52:
	cmp	w11, #244
	b.hi	.LBB0_59
.LBB0_53:
	cmp	x10, #2
	b.lo	.LBB0_58
	ldrb	w12, [x8, #1]
.LBB0_55:
	cmp	w11, #240
	mov	w13, #-128
	mov	w14, #-112
	mov	w15, #-96
	csel	w13, w14, w13, eq
	cmp	w11, #224
	mov	w14, #-65
	csel	w13, w15, w13, eq
	mov	w15, #-113
	cmp	w11, #244
	and	w16, w13, #0xf0
	csel	w13, w15, w14, eq
	cmp	w11, #237
	mov	w11, #-97
	csel	w13, w11, w13, eq
	cmp	w16, w12, uxtb
	mov	w11, #257
	b.hi	.LBB0_60
	and	w12, w12, #0xff
	cmp	w12, w13, uxtb
	b.hi	.LBB0_60
	cmp	x10, #2
	b.ne	.LBB0_61
.LBB0_58:
	mov	x11, xzr
	b	.LBB0_60
.LBB0_59:
	mov	w11, #257
.LBB0_60:
	mov	w8, #1
	str	x11, [x19, #16]
	stp	x8, x9, [x19]
	ldp	x20, x19, [sp, #48]
	ldp	x22, x21, [sp, #32]
	ldp	x29, x30, [sp, #16]
	add	sp, sp, #64
	ret
.LBB0_61:
	ldrsb	w8, [x8, #2]
	cmn	w8, #65
	b.gt	.LBB0_63
	cmp	x10, #3
	mov	w8, #769
	csel	x11, x8, xzr, hi
	b	.LBB0_60
.LBB0_63:
	mov	w11, #513
	b	.LBB0_60
.Lfunc_end0:
	.size	core.str.utf8.from_utf8, .Lfunc_end0-core.str.utf8.from_utf8

	.section	.text.core.slice.words.skip_far.52f9edcae2f82f51,"ax",@progbits
	.p2align	2
	.type	core.slice.words.skip_far.52f9edcae2f82f51,@function
core.slice.words.skip_far.52f9edcae2f82f51:
	sub	x8, x2, x1
	cmp	x8, #64
	b.lo	.LBB1_4
	ldr	x9, [x0]
.LBB1_2:
	add	x10, x9, x1
	ldp	q0, q1, [x10, #32]
	ldp	q2, q3, [x10]
	orr	v1.16b, v3.16b, v1.16b
	orr	v0.16b, v2.16b, v0.16b
	orr	v0.16b, v0.16b, v1.16b
	ext	v1.16b, v0.16b, v0.16b, #8
	orr	v0.8b, v0.8b, v1.8b
	fmov	x10, d0
	tst	x10, #0x8080808080808080
	b.ne	.LBB1_4
	sub	x8, x8, #64
	add	x1, x1, #64
	cmp	x8, #63
	b.hi	.LBB1_2
.LBB1_4:
	mov	x0, x1
	ret
.Lfunc_end1:
	.size	core.slice.words.skip_far.52f9edcae2f82f51, .Lfunc_end1-core.slice.words.skip_far.52f9edcae2f82f51

	.section	.text.unlikely.std_alloc.vec.Vec.grow_amortized.4412fee896cf261c,"ax",@progbits
	.p2align	2
	.type	std_alloc.vec.Vec.grow_amortized.4412fee896cf261c,@function
std_alloc.vec.Vec.grow_amortized.4412fee896cf261c:
	ldr	x8, [x0, #8]
	cmn	x8, #1
	b.eq	.LBB2_5
	stp	x29, x30, [sp, #-32]!
	ldr	x9, [x0, #16]
	cmp	x8, #3
	mov	w10, #3
	csel	x11, x8, x10, hi
	stp	x20, x19, [sp, #16]
	mov	x29, sp
	lsl	x10, x9, #1
	add	x12, x11, #1
	lsr	x13, x9, #62
	cmp	x12, x10
	csinc	x10, x10, x11, ls
	cmp	x13, #0
	csinc	x19, x10, x11, eq
	mov	x11, #6148914691236517205
	movk	x11, #1365, lsl #48
	cmp	x19, x11
	b.hi	.LBB2_7
	cbz	x9, .LBB2_6
	add	x8, x8, x8, lsl #1
	add	x9, x19, x19, lsl #1
	mov	x20, x0
	ldr	x0, [x0]
	mov	w3, #8
	lsl	x1, x8, #3
	lsl	x2, x9, #3
	bl	rattle_realloc
	tbz	w0, #0, .LBB2_7
.LBB2_4:
	mov	w0, #1
	str	x1, [x20]
	str	x19, [x20, #16]
	ldp	x20, x19, [sp, #16]
	ldp	x29, x30, [sp], #32
	ret
.LBB2_5:
	mov	w0, wzr
	ret
.LBB2_6:
	add	x8, x10, x10, lsl #1
	mov	x20, x0
	mov	w1, #8
	lsl	x0, x8, #3
	bl	rattle_alloc
	tbnz	w0, #0, .LBB2_4
.LBB2_7:
	mov	w0, wzr
	ldp	x20, x19, [sp, #16]
	ldp	x29, x30, [sp], #32
	ret
.Lfunc_end2:
	.size	std_alloc.vec.Vec.grow_amortized.4412fee896cf261c, .Lfunc_end2-std_alloc.vec.Vec.grow_amortized.4412fee896cf261c

	.section	.rodata.cst16,"aM",@progbits,16
	.p2align	4, 0x0
.LCPI3_0:
	.xword	8458358670138239095
	.xword	3327647951695996518
.LCPI3_1:
	.xword	8367798494427701606
	.xword	2334399978102268015
	.section	.rodata.cst8,"aM",@progbits,8
	.p2align	3, 0x0
.LCPI3_2:
	.hword	2
	.hword	23
	.hword	28
	.hword	0
.LCPI3_3:
	.hword	0
	.hword	35
	.hword	0
	.hword	0
	.section	.text.std_io.io.buffer.Buffer.flush,"ax",@progbits
	.p2align	2
	.type	std_io.io.buffer.Buffer.flush,@function
std_io.io.buffer.Buffer.flush:
	sub	sp, sp, #224
	stp	x22, x21, [sp, #192]
	ldr	x22, [x0, #1032]
	stp	x29, x30, [sp, #144]
	add	x29, sp, #144
	cmp	x22, #1025
	str	x25, [sp, #160]
	stp	x24, x23, [sp, #176]
	stp	x20, x19, [sp, #208]
	str	xzr, [x0, #1032]
	b.lo	.LBB3_2
	mov	w0, wzr
	b	.LBB3_15
.LBB3_2:
	mov	x24, x0
	mov	x19, x0
	mov	x23, xzr
	ldr	w20, [x24], #4
	add	x25, x22, #64
	b	.LBB3_5
.LBB3_3:
	bl	rattle_errno
	cmp	w0, #4
	b.ne	.LBB3_13
	subs	x25, x25, #1
	b.eq	.LBB3_9
.LBB3_5:
	subs	x21, x22, x23
	b.ls	.LBB3_11
	add	x1, x24, x23
	mov	w0, w20
	mov	x2, x21
	bl	write
	tbnz	x0, #63, .LBB3_3
	cbz	x0, .LBB3_12
	cmp	x0, x21
	csel	x8, x0, x21, lo
	add	x23, x8, x23
	subs	x25, x25, #1
	b.ne	.LBB3_5
.LBB3_9:
	cmp	x22, x23
	b.ls	.LBB3_11
	movi	v0.2d, #0000000000000000
	movi	v1.2d, #0000000000000000
	adrp	x8, .LCPI3_3
	ldr	d2, [x8, :lo12:.LCPI3_3]
	mov	w8, #4
	stp	q0, q0, [sp, #16]
	str	q0, [sp]
	b	.LBB3_14
.LBB3_11:
	mov	w0, #1
	b	.LBB3_15
.LBB3_12:
	movi	v3.16b, #46
	adrp	x9, .LCPI3_0
	adrp	x10, .LCPI3_1
	adrp	x11, .LCPI3_2
	ldr	q1, [x9, :lo12:.LCPI3_0]
	ldr	q0, [x10, :lo12:.LCPI3_1]
	ldr	d2, [x11, :lo12:.LCPI3_2]
	mov	w8, wzr
	stp	q3, q3, [sp, #16]
	str	q3, [sp]
	b	.LBB3_14
.LBB3_13:
	mov	w1, w0
	add	x0, sp, #56
	bl	std_io.io.error.Error.from_raw_os_error
	ldp	q1, q3, [sp, #96]
	ldr	s0, [sp, #56]
	ldur	q4, [sp, #128]
	ldr	w8, [sp, #60]
	ushll	v2.8h, v0.8b, #0
	stp	q1, q3, [sp]
	ldp	q0, q1, [sp, #64]
	str	q4, [sp, #32]
.LBB3_14:
	uzp1	v2.8b, v2.8b, v0.8b
	str	q0, [x19, #1056]
	mov	w0, wzr
	str	q1, [x19, #1072]
	ldp	q0, q1, [sp]
	str	w8, [x19, #1052]
	mov	w8, #1
	str	x8, [x19, #1040]
	str	q0, [x19, #1088]
	ldr	q0, [sp, #32]
	str	s2, [x19, #1048]
	str	q1, [x19, #1104]
	str	q0, [x19, #1120]
.LBB3_15:
	ldp	x20, x19, [sp, #208]
	ldr	x25, [sp, #160]
	ldp	x22, x21, [sp, #192]
	ldp	x24, x23, [sp, #176]
	ldp	x29, x30, [sp, #144]
	add	sp, sp, #224
	ret
.Lfunc_end3:
	.size	std_io.io.buffer.Buffer.flush, .Lfunc_end3-std_io.io.buffer.Buffer.flush

	.section	.text.std_io.io.error.Error.from_raw_os_error,"ax",@progbits
	.p2align	2
	.type	std_io.io.error.Error.from_raw_os_error,@function
std_io.io.error.Error.from_raw_os_error:
	tbnz	w1, #31, .LBB4_4
	sub	w8, w1, #1
	cmp	w8, #121
	b.hi	.LBB4_4
	adrp	x9, .LJTI4_0
	add	x9, x9, :lo12:.LJTI4_0
	adr	x10, .LBB4_3
	ldrb	w11, [x9, x8]
	add	x10, x10, x11, lsl #2
	mov	w8, #1
	br	x10
.LBB4_3:
	mov	w8, #36
	b	.LBB4_5
.LBB4_4:
	mov	w8, #41
.LBB4_5:
	movi	v0.2d, #0000000000000000
	strb	wzr, [x0]
	strb	w8, [x0, #1]
	strh	wzr, [x0, #2]
	str	w1, [x0, #4]
	stur	q0, [x0, #8]
	stur	q0, [x0, #24]
	stur	q0, [x0, #40]
	stur	q0, [x0, #56]
	stur	q0, [x0, #72]
	ret
.LBB4_6:
	mov	w8, #4
	b	.LBB4_5
.LBB4_7:
	mov	w8, #7
	b	.LBB4_5
.LBB4_8:
	mov	w8, #26
	b	.LBB4_5
.LBB4_9:
	mov	w8, #39
	b	.LBB4_5
.LBB4_10:
	mov	w8, #9
	b	.LBB4_5
.LBB4_11:
	mov	w8, #8
	b	.LBB4_5
.LBB4_12:
	mov	w8, #30
	b	.LBB4_5
.LBB4_13:
	mov	w8, #25
	b	.LBB4_5
.LBB4_14:
	mov	w8, #32
	b	.LBB4_5
.LBB4_15:
	mov	w8, #33
	b	.LBB4_5
.LBB4_16:
	mov	w8, #22
	b	.LBB4_5
.LBB4_17:
	mov	w8, #31
	b	.LBB4_5
.LBB4_18:
	mov	w8, #29
	b	.LBB4_5
.LBB4_19:
	mov	w8, #18
	b	.LBB4_5
.LBB4_20:
	mov	w8, #10
	b	.LBB4_5
.LBB4_21:
	mov	w8, #28
	b	.LBB4_5
.LBB4_22:
	mov	w8, #14
	b	.LBB4_5
.LBB4_23:
	mov	w8, #12
	b	.LBB4_5
.LBB4_24:
	mov	w8, #5
	b	.LBB4_5
.LBB4_25:
	mov	w8, #3
	b	.LBB4_5
.LBB4_26:
	mov	w8, wzr
	b	.LBB4_5
.LBB4_27:
	mov	w8, #13
	b	.LBB4_5
.LBB4_28:
	mov	w8, #38
	b	.LBB4_5
.LBB4_29:
	mov	w8, #11
	b	.LBB4_5
.LBB4_30:
	mov	w8, #35
	b	.LBB4_5
.LBB4_31:
	mov	w8, #34
	b	.LBB4_5
.LBB4_32:
	mov	w8, #20
	b	.LBB4_5
.LBB4_33:
	mov	w8, #15
	b	.LBB4_5
.LBB4_34:
	mov	w8, #19
	b	.LBB4_5
.LBB4_35:
	mov	w8, #16
	b	.LBB4_5
.LBB4_36:
	mov	w8, #6
	b	.LBB4_5
.LBB4_37:
	mov	w8, #27
	b	.LBB4_5
.LBB4_38:
	mov	w8, #24
	b	.LBB4_5
.LBB4_39:
	mov	w8, #2
	b	.LBB4_5
.LBB4_40:
	mov	w8, #17
	b	.LBB4_5
.Lfunc_end4:
	.size	std_io.io.error.Error.from_raw_os_error, .Lfunc_end4-std_io.io.error.Error.from_raw_os_error
	.section	.rodata.std_io.io.error.Error.from_raw_os_error,"a",@progbits
.LJTI4_0:
	.byte	(.LBB4_5-.LBB4_3)>>2
	.byte	(.LBB4_26-.LBB4_3)>>2
	.byte	(.LBB4_4-.LBB4_3)>>2
	.byte	(.LBB4_30-.LBB4_3)>>2
	.byte	(.LBB4_4-.LBB4_3)>>2
	.byte	(.LBB4_4-.LBB4_3)>>2
	.byte	(.LBB4_31-.LBB4_3)>>2
	.byte	(.LBB4_4-.LBB4_3)>>2
	.byte	(.LBB4_4-.LBB4_3)>>2
	.byte	(.LBB4_4-.LBB4_3)>>2
	.byte	(.LBB4_27-.LBB4_3)>>2
	.byte	(.LBB4_28-.LBB4_3)>>2
	.byte	(.LBB4_5-.LBB4_3)>>2
	.byte	(.LBB4_4-.LBB4_3)>>2
	.byte	(.LBB4_4-.LBB4_3)>>2
	.byte	(.LBB4_21-.LBB4_3)>>2
	.byte	(.LBB4_23-.LBB4_3)>>2
	.byte	(.LBB4_17-.LBB4_3)>>2
	.byte	(.LBB4_4-.LBB4_3)>>2
	.byte	(.LBB4_22-.LBB4_3)>>2
	.byte	(.LBB4_33-.LBB4_3)>>2
	.byte	(.LBB4_32-.LBB4_3)>>2
	.byte	(.LBB4_4-.LBB4_3)>>2
	.byte	(.LBB4_4-.LBB4_3)>>2
	.byte	(.LBB4_4-.LBB4_3)>>2
	.byte	(.LBB4_18-.LBB4_3)>>2
	.byte	(.LBB4_37-.LBB4_3)>>2
	.byte	(.LBB4_38-.LBB4_3)>>2
	.byte	(.LBB4_13-.LBB4_3)>>2
	.byte	(.LBB4_40-.LBB4_3)>>2
	.byte	(.LBB4_14-.LBB4_3)>>2
	.byte	(.LBB4_29-.LBB4_3)>>2
	.byte	(.LBB4_4-.LBB4_3)>>2
	.byte	(.LBB4_4-.LBB4_3)>>2
	.byte	(.LBB4_12-.LBB4_3)>>2
	.byte	(.LBB4_15-.LBB4_3)>>2
	.byte	(.LBB4_4-.LBB4_3)>>2
	.byte	(.LBB4_3-.LBB4_3)>>2
	.byte	(.LBB4_35-.LBB4_3)>>2
	.byte	(.LBB4_19-.LBB4_3)>>2
	.byte	(.LBB4_4-.LBB4_3)>>2
	.byte	(.LBB4_4-.LBB4_3)>>2
	.byte	(.LBB4_4-.LBB4_3)>>2
	.byte	(.LBB4_4-.LBB4_3)>>2
	.byte	(.LBB4_4-.LBB4_3)>>2
	.byte	(.LBB4_4-.LBB4_3)>>2
	.byte	(.LBB4_4-.LBB4_3)>>2
	.byte	(.LBB4_4-.LBB4_3)>>2
	.byte	(.LBB4_4-.LBB4_3)>>2
	.byte	(.LBB4_4-.LBB4_3)>>2
	.byte	(.LBB4_4-.LBB4_3)>>2
	.byte	(.LBB4_4-.LBB4_3)>>2
	.byte	(.LBB4_4-.LBB4_3)>>2
	.byte	(.LBB4_4-.LBB4_3)>>2
	.byte	(.LBB4_4-.LBB4_3)>>2
	.byte	(.LBB4_4-.LBB4_3)>>2
	.byte	(.LBB4_4-.LBB4_3)>>2
	.byte	(.LBB4_4-.LBB4_3)>>2
	.byte	(.LBB4_4-.LBB4_3)>>2
	.byte	(.LBB4_4-.LBB4_3)>>2
	.byte	(.LBB4_4-.LBB4_3)>>2
	.byte	(.LBB4_4-.LBB4_3)>>2
	.byte	(.LBB4_4-.LBB4_3)>>2
	.byte	(.LBB4_4-.LBB4_3)>>2
	.byte	(.LBB4_4-.LBB4_3)>>2
	.byte	(.LBB4_4-.LBB4_3)>>2
	.byte	(.LBB4_4-.LBB4_3)>>2
	.byte	(.LBB4_4-.LBB4_3)>>2
	.byte	(.LBB4_4-.LBB4_3)>>2
	.byte	(.LBB4_4-.LBB4_3)>>2
	.byte	(.LBB4_4-.LBB4_3)>>2
	.byte	(.LBB4_4-.LBB4_3)>>2
	.byte	(.LBB4_4-.LBB4_3)>>2
	.byte	(.LBB4_4-.LBB4_3)>>2
	.byte	(.LBB4_4-.LBB4_3)>>2
	.byte	(.LBB4_4-.LBB4_3)>>2
	.byte	(.LBB4_4-.LBB4_3)>>2
	.byte	(.LBB4_4-.LBB4_3)>>2
	.byte	(.LBB4_4-.LBB4_3)>>2
	.byte	(.LBB4_4-.LBB4_3)>>2
	.byte	(.LBB4_4-.LBB4_3)>>2
	.byte	(.LBB4_4-.LBB4_3)>>2
	.byte	(.LBB4_4-.LBB4_3)>>2
	.byte	(.LBB4_4-.LBB4_3)>>2
	.byte	(.LBB4_4-.LBB4_3)>>2
	.byte	(.LBB4_4-.LBB4_3)>>2
	.byte	(.LBB4_4-.LBB4_3)>>2
	.byte	(.LBB4_4-.LBB4_3)>>2
	.byte	(.LBB4_4-.LBB4_3)>>2
	.byte	(.LBB4_4-.LBB4_3)>>2
	.byte	(.LBB4_4-.LBB4_3)>>2
	.byte	(.LBB4_4-.LBB4_3)>>2
	.byte	(.LBB4_4-.LBB4_3)>>2
	.byte	(.LBB4_4-.LBB4_3)>>2
	.byte	(.LBB4_3-.LBB4_3)>>2
	.byte	(.LBB4_4-.LBB4_3)>>2
	.byte	(.LBB4_4-.LBB4_3)>>2
	.byte	(.LBB4_11-.LBB4_3)>>2
	.byte	(.LBB4_10-.LBB4_3)>>2
	.byte	(.LBB4_20-.LBB4_3)>>2
	.byte	(.LBB4_24-.LBB4_3)>>2
	.byte	(.LBB4_4-.LBB4_3)>>2
	.byte	(.LBB4_36-.LBB4_3)>>2
	.byte	(.LBB4_25-.LBB4_3)>>2
	.byte	(.LBB4_4-.LBB4_3)>>2
	.byte	(.LBB4_4-.LBB4_3)>>2
	.byte	(.LBB4_7-.LBB4_3)>>2
	.byte	(.LBB4_4-.LBB4_3)>>2
	.byte	(.LBB4_4-.LBB4_3)>>2
	.byte	(.LBB4_16-.LBB4_3)>>2
	.byte	(.LBB4_39-.LBB4_3)>>2
	.byte	(.LBB4_4-.LBB4_3)>>2
	.byte	(.LBB4_6-.LBB4_3)>>2
	.byte	(.LBB4_4-.LBB4_3)>>2
	.byte	(.LBB4_9-.LBB4_3)>>2
	.byte	(.LBB4_34-.LBB4_3)>>2
	.byte	(.LBB4_4-.LBB4_3)>>2
	.byte	(.LBB4_4-.LBB4_3)>>2
	.byte	(.LBB4_4-.LBB4_3)>>2
	.byte	(.LBB4_4-.LBB4_3)>>2
	.byte	(.LBB4_4-.LBB4_3)>>2
	.byte	(.LBB4_8-.LBB4_3)>>2

	.section	.text.unlikely.core.fmt.formatter.Formatter.write_indented.bf264aed5fa78656,"ax",@progbits
	.p2align	2
	.type	core.fmt.formatter.Formatter.write_indented.bf264aed5fa78656,@function
core.fmt.formatter.Formatter.write_indented.bf264aed5fa78656:
	stp	x29, x30, [sp, #-80]!
	str	x25, [sp, #16]
	mov	x29, sp
	stp	x24, x23, [sp, #32]
	stp	x22, x21, [sp, #48]
	stp	x20, x19, [sp, #64]
	cbz	x2, .LBB5_16
	mov	x21, x2
	mov	x20, x1
	mov	x19, x0
	mov	x8, xzr
	mov	x24, xzr
	b	.LBB5_4
.LBB5_2:
	mov	w23, #1
	add	x1, x20, x25
	mov	x0, x19
	mov	x2, x22
	strb	w23, [x19, #1168]
	bl	core.fmt.formatter.Formatter.write_raw.bf264aed5fa78656
	and	w9, w0, #0xff
	mov	x8, x24
	tbnz	w9, #0, .LBB5_18
.LBB5_3:
	cmp	x24, x21
	b.eq	.LBB5_10
.LBB5_4:
	ldrb	w10, [x20, x24]
	mov	x9, x24
	add	x24, x24, #1
	cmp	w10, #10
	b.ne	.LBB5_3
	subs	x22, x24, x8
	csel	x25, xzr, x8, lo
	cmp	x8, x9
	mov	x8, x24
	b.hi	.LBB5_3
	ldrb	w8, [x19, #1168]
	cmp	w8, #1
	b.ne	.LBB5_2
	ldr	x23, [x19, #1160]
	cbz	x23, .LBB5_2
.LBB5_8:
	adrp	x1, .Lstatic.10
	add	x1, x1, :lo12:.Lstatic.10
	mov	x0, x19
	mov	w2, #4
	bl	core.fmt.formatter.Formatter.write_raw.bf264aed5fa78656
	and	w8, w0, #0xff
	tbnz	w8, #0, .LBB5_17
	subs	x23, x23, #1
	b.ne	.LBB5_8
	b	.LBB5_2
.LBB5_10:
	cmp	x8, x21
	csel	x22, xzr, x8, hi
	subs	x8, x21, x8
	csel	x21, xzr, x8, lo
	b.ls	.LBB5_16
	ldrb	w8, [x19, #1168]
	cmp	w8, #1
	b.ne	.LBB5_15
	ldr	x23, [x19, #1160]
	cbz	x23, .LBB5_15
.LBB5_13:
	adrp	x1, .Lstatic.10
	add	x1, x1, :lo12:.Lstatic.10
	mov	x0, x19
	mov	w2, #4
	bl	core.fmt.formatter.Formatter.write_raw.bf264aed5fa78656
	and	w8, w0, #0xff
	tbnz	w8, #0, .LBB5_17
	subs	x23, x23, #1
	b.ne	.LBB5_13
.LBB5_15:
	add	x1, x20, x22
	mov	x0, x19
	mov	x2, x21
	strb	wzr, [x19, #1168]
	ldp	x20, x19, [sp, #64]
	ldp	x22, x21, [sp, #48]
	ldr	x25, [sp, #16]
	ldp	x24, x23, [sp, #32]
	ldp	x29, x30, [sp], #80
	b	core.fmt.formatter.Formatter.write_raw.bf264aed5fa78656
.LBB5_16:
	mov	w23, wzr
	b	.LBB5_18
.LBB5_17:
	mov	w23, #1
.LBB5_18:
	mov	w0, w23
	ldp	x20, x19, [sp, #64]
	ldp	x22, x21, [sp, #48]
	ldr	x25, [sp, #16]
	ldp	x24, x23, [sp, #32]
	ldp	x29, x30, [sp], #80
	ret
.Lfunc_end5:
	.size	core.fmt.formatter.Formatter.write_indented.bf264aed5fa78656, .Lfunc_end5-core.fmt.formatter.Formatter.write_indented.bf264aed5fa78656

	.section	.text.core.fmt.formatter.Formatter.write_raw.bf264aed5fa78656,"ax",@progbits
	.p2align	2
	.type	core.fmt.formatter.Formatter.write_raw.bf264aed5fa78656,@function
core.fmt.formatter.Formatter.write_raw.bf264aed5fa78656:
	cbz	x2, .LBB6_21
	stp	x29, x30, [sp, #-64]!
	stp	x22, x21, [sp, #32]
	mov	x21, x0
	mov	x8, xzr
	stp	x20, x19, [sp, #48]
	mov	x19, x2
	mov	x20, x1
	str	x23, [sp, #16]
	mov	x29, sp
	b	.LBB6_4
.LBB6_2:
	mov	w10, #1
.LBB6_3:
	add	x8, x10, x8
	cmp	x8, x19
	b.hs	.LBB6_22
.LBB6_4:
	ldrsb	w9, [x20, x8]
	tbz	w9, #31, .LBB6_2
	add	x10, x8, #1
	cmp	x19, x10
	b.ls	.LBB6_29
	ldrsb	w10, [x20, x10]
	tbz	w10, #31, .LBB6_29
	and	w9, w9, #0xff
	cmn	w10, #64
	mov	w11, #-64
	csel	w10, w10, w11, lo
	cmp	w9, #194
	mov	w0, #1
	b.lo	.LBB6_28
	and	w10, w10, #0x7f
	cmp	w10, #63
	b.hi	.LBB6_28
	cmp	w9, #224
	b.hs	.LBB6_11
	mov	w10, #2
	b	.LBB6_3
.LBB6_11:
	add	x11, x8, #2
	cmp	x19, x11
	b.ls	.LBB6_28
	ldrsb	w11, [x20, x11]
	cmn	w11, #65
	b.gt	.LBB6_28
	cmp	w9, #239
	b.hi	.LBB6_17
	lsl	w11, w9, #12
	add	w10, w11, w10, lsl #6
	sub	w10, w10, #224, lsl #12
	cmp	w10, #2048
	b.lo	.LBB6_28
	lsr	w10, w10, #11
	cmp	w10, #27
	mov	w10, #3
	b.lo	.LBB6_3
	cmp	w9, #238
	b.hs	.LBB6_3
	b	.LBB6_28
.LBB6_17:
	add	x11, x8, #3
	cmp	x19, x11
	b.ls	.LBB6_28
	ldrsb	w11, [x20, x11]
	cmn	w11, #65
	b.gt	.LBB6_28
	lsl	w9, w9, #18
	add	w9, w9, w10, lsl #12
	mov	w10, #-62980096
	add	w9, w9, w10
	lsr	w9, w9, #20
	cbnz	w9, .LBB6_28
	mov	w10, #4
	b	.LBB6_3
.LBB6_21:
	mov	w0, wzr
	ret
.LBB6_22:
	ldr	x8, [x21, #1032]
	add	x22, x21, #4
	b	.LBB6_24
.LBB6_23:
	sub	x19, x19, #1
	strb	w23, [x22, x8]
	add	x8, x8, #1
	str	x8, [x21, #1032]
	cbz	x19, .LBB6_30
.LBB6_24:
	ldrb	w23, [x20], #1
	cmp	x8, #1024
	b.lo	.LBB6_23
	mov	x0, x21
	bl	std_io.io.buffer.Buffer.flush
	cbz	w0, .LBB6_29
	ldr	x8, [x21, #1032]
	cmp	x8, #1023
	b.ls	.LBB6_23
	mov	w0, #1
.LBB6_28:
	ldp	x20, x19, [sp, #48]
	ldr	x23, [sp, #16]
	ldp	x22, x21, [sp, #32]
	ldp	x29, x30, [sp], #64
	ret
.LBB6_29:
	mov	w0, #1
	ldp	x20, x19, [sp, #48]
	ldr	x23, [sp, #16]
	ldp	x22, x21, [sp, #32]
	ldp	x29, x30, [sp], #64
	ret
.LBB6_30:
	mov	w0, wzr
	ldp	x20, x19, [sp, #48]
	ldr	x23, [sp, #16]
	ldp	x22, x21, [sp, #32]
	ldp	x29, x30, [sp], #64
	ret
.Lfunc_end6:
	.size	core.fmt.formatter.Formatter.write_raw.bf264aed5fa78656, .Lfunc_end6-core.fmt.formatter.Formatter.write_raw.bf264aed5fa78656

	.section	.rodata.cst16,"aM",@progbits,16
	.p2align	4, 0x0
.LCPI7_0:
	.xword	7310596056926023526
	.xword	3346860010425884786
	.section	.rodata.cst8,"aM",@progbits,8
	.p2align	3, 0x0
.LCPI7_1:
	.hword	2
	.hword	41
	.hword	15
	.hword	0
	.section	.text.std_io.io.LibcRuntimeEprint.eprintln.27a8a20715d85f24,"ax",@progbits
	.p2align	2
	.type	std_io.io.LibcRuntimeEprint.eprintln.27a8a20715d85f24,@function
std_io.io.LibcRuntimeEprint.eprintln.27a8a20715d85f24:
	stp	x29, x30, [sp, #-96]!
	stp	x28, x27, [sp, #16]
	mov	x29, sp
	stp	x26, x25, [sp, #32]
	stp	x24, x23, [sp, #48]
	stp	x22, x21, [sp, #64]
	stp	x20, x19, [sp, #80]
	sub	sp, sp, #2576
	movi	v0.2d, #0000000000000000
	str	xzr, [sp]
	add	x23, sp, #136
	ldp	x25, x26, [x1]
	mov	x19, x0
	ldp	x22, x21, [x1, #16]
	mov	w8, #2
	orr	x0, x23, #0x4
	mov	w1, wzr
	mov	w2, #1132
	stp	q0, q0, [sp]
	orr	x20, x23, #0x4
	stp	q0, q0, [sp, #32]
	stp	q0, q0, [sp, #64]
	stp	q0, q0, [sp, #96]
	str	q0, [sp, #1312]
	str	q0, [sp, #1328]
	str	q0, [sp, #1344]
	str	w8, [sp, #136]
	str	q0, [sp, #1360]
	bl	memset
	movi	v0.2d, #0000000000000000
	mov	w8, #32
	add	x24, x23, #1140
	add	x9, x23, #1160
	str	w8, [sp, #1272]
	mov	x10, #-1
	str	xzr, [x24]
	add	x23, x23, #1136
	str	wzr, [sp, #1284]
	str	q0, [x9]
	add	x9, sp, #1017
	ldur	q0, [x9, #255]
	str	w8, [sp, #1272]
	mov	x8, xzr
	str	x10, [sp, #1288]
	str	q0, [sp, #1440]
	str	x10, [sp, #1456]
	str	xzr, [x24]
	str	wzr, [sp, #1284]
	cbnz	x26, .LBB7_2
	b	.LBB7_6
.LBB7_1:
	sub	x26, x26, #1
	strb	w27, [x20, x8]
	add	x8, x8, #1
	str	x8, [sp, #1168]
	cbz	x26, .LBB7_5
.LBB7_2:
	ldrb	w27, [x25], #1
	cmp	x8, #1024
	b.lo	.LBB7_1
	add	x0, sp, #136
	bl	std_io.io.buffer.Buffer.flush
	cbz	w0, .LBB7_17
	ldr	x8, [sp, #1168]
	cmp	x8, #1023
	b.ls	.LBB7_1
	b	.LBB7_17
.LBB7_5:
	mov	w9, #32
	ldr	x10, [sp, #1296]
	str	xzr, [x24]
	str	w9, [sp, #1272]
	mov	x9, #-1
	str	wzr, [x24, #8]
	str	x9, [sp, #1288]
	cbnz	x10, .LBB7_28
.LBB7_6:
	cbnz	x21, .LBB7_14
.LBB7_7:
	ldr	q0, [sp, #1440]
	ldr	x8, [sp, #1456]
	str	q0, [x23]
	str	x8, [x23, #16]
.LBB7_8:
	mov	w8, #32
	ldr	x9, [x23, #16]
	ldr	q0, [x23]
	str	w8, [sp, #1272]
	ldr	x8, [sp, #1296]
	str	x9, [sp, #1456]
	mov	x9, #-1
	str	q0, [sp, #1440]
	str	xzr, [x24]
	str	wzr, [x24, #8]
	str	x9, [sp, #1288]
	cbnz	x8, .LBB7_27
	ldr	x8, [sp, #1168]
	cmp	x8, #1024
	b.lo	.LBB7_12
	add	x0, sp, #136
	bl	std_io.io.buffer.Buffer.flush
	mov	w21, wzr
	cbz	w0, .LBB7_18
	ldr	x8, [sp, #1168]
	cmp	x8, #1023
	b.hi	.LBB7_18
.LBB7_12:
	mov	w9, #10
	strb	w9, [x20, x8]
	add	x8, x8, #1
	str	x8, [sp, #1168]
	mov	w21, #1
	b	.LBB7_18
.LBB7_13:
	sub	x21, x21, #1
	strb	w25, [x20, x8]
	add	x8, x8, #1
	str	x8, [sp, #1168]
	cbz	x21, .LBB7_7
.LBB7_14:
	ldrb	w25, [x22], #1
	cmp	x8, #1024
	b.lo	.LBB7_13
	add	x0, sp, #136
	bl	std_io.io.buffer.Buffer.flush
	cbz	w0, .LBB7_17
	ldr	x8, [sp, #1168]
	cmp	x8, #1023
	b.ls	.LBB7_13
.LBB7_17:
	mov	w21, wzr
.LBB7_18:
	ldr	q0, [sp, #1440]
	ldr	x8, [sp, #1456]
	str	q0, [x23]
	str	x8, [x23, #16]
.LBB7_19:
	ldr	w8, [sp, #136]
	mov	x1, x20
	mov	w2, #1132
	str	w8, [sp, #1440]
	add	x8, sp, #1440
	orr	x0, x8, #0x4
	bl	memcpy
	add	x0, sp, #1440
	bl	std_io.io.buffer.Buffer.flush
	cbz	w21, .LBB7_22
	cbz	w0, .LBB7_22
	movi	v2.2d, #0000000000000000
	mov	w9, wzr
	mov	w8, wzr
	movi	v1.2d, #0000000000000000
	movi	v0.2d, #0000000000000000
	str	q2, [sp, #1360]
	str	q2, [sp, #1344]
	str	q2, [sp, #1328]
	str	q2, [sp, #1312]
	b	.LBB7_26
.LBB7_22:
	ldrb	w8, [sp, #2480]
	cmp	w8, #1
	b.ne	.LBB7_24
	ldr	q2, [sp, #2528]
	ldr	q0, [sp, #2512]
	ldr	s1, [sp, #2488]
	ldr	q3, [sp, #2544]
	ldr	w8, [sp, #2492]
	str	q2, [sp, #1392]
	ushll	v1.8h, v1.8b, #0
	ldr	q2, [sp, #2560]
	str	q0, [sp, #1376]
	ldr	q0, [sp, #2496]
	str	q3, [sp, #1408]
	str	q2, [sp, #1424]
	b	.LBB7_25
.LBB7_24:
	movi	v2.16b, #46
	adrp	x9, .LCPI7_0
	adrp	x10, .LCPI7_1
	ldr	q0, [x9, :lo12:.LCPI7_0]
	ldr	d1, [x10, :lo12:.LCPI7_1]
	mov	w8, wzr
	str	q2, [sp, #1424]
	str	q2, [sp, #1408]
	str	q2, [sp, #1392]
	str	q2, [sp, #1376]
.LBB7_25:
	ldr	q2, [sp, #1376]
	ldr	q3, [sp, #1392]
	mov	w9, #1
	ldr	q4, [sp, #1424]
	str	q2, [sp, #1312]
	ldr	q2, [sp, #1408]
	str	q3, [sp, #1328]
	str	q2, [sp, #1344]
	str	q4, [sp, #1360]
.LBB7_26:
	ldr	q2, [sp, #1360]
	ldr	q3, [sp, #1344]
	uzp1	v1.8b, v1.8b, v0.8b
	ldr	q4, [sp, #1312]
	strb	w9, [x19]
	stp	q3, q2, [sp, #32]
	ldr	q2, [sp, #1328]
	str	w8, [x19, #12]
	stp	q4, q2, [sp]
	str	s1, [x19, #8]
	ldp	q1, q2, [sp]
	stp	q0, q1, [x19, #16]
	ldp	q0, q1, [sp, #32]
	stp	q2, q0, [x19, #48]
	str	q1, [x19, #80]
	add	sp, sp, #2576
	ldp	x20, x19, [sp, #80]
	ldp	x22, x21, [sp, #64]
	ldp	x24, x23, [sp, #48]
	ldp	x26, x25, [sp, #32]
	ldp	x28, x27, [sp, #16]
	ldp	x29, x30, [sp], #96
	ret
.LBB7_27:
	adrp	x1, .Lstatic.8
	add	x1, x1, :lo12:.Lstatic.8
	add	x0, sp, #136
	mov	w2, #1
	bl	core.fmt.formatter.Formatter.write_indented.bf264aed5fa78656
	tst	w0, #0xff
	cset	w21, eq
	b	.LBB7_18
.LBB7_28:
	add	x0, sp, #136
	mov	x1, x22
	mov	x2, x21
	bl	core.fmt.formatter.Formatter.write_indented.bf264aed5fa78656
	ldr	q0, [sp, #1440]
	ldr	x8, [sp, #1456]
	and	w9, w0, #0xff
	str	q0, [x23]
	str	x8, [x23, #16]
	tbz	w9, #0, .LBB7_8
	mov	w21, wzr
	b	.LBB7_19
.Lfunc_end7:
	.size	std_io.io.LibcRuntimeEprint.eprintln.27a8a20715d85f24, .Lfunc_end7-std_io.io.LibcRuntimeEprint.eprintln.27a8a20715d85f24

	.section	.text.unlikely.std_alloc.vec.Vec.grow_amortized.05fa32d921161499,"ax",@progbits
	.p2align	2
	.type	std_alloc.vec.Vec.grow_amortized.05fa32d921161499,@function
std_alloc.vec.Vec.grow_amortized.05fa32d921161499:
	ldr	x8, [x0, #8]
	cmn	x8, x1
	b.lo	.LBB8_2
	mov	w0, wzr
	ret
.LBB8_2:
	stp	x29, x30, [sp, #-32]!
	ldr	x10, [x0, #16]
	add	x9, x8, x1
	mov	w11, #8
	cmp	x9, #8
	stp	x20, x19, [sp, #16]
	mov	x29, sp
	lsl	x12, x10, #1
	csel	x11, x9, x11, hi
	lsr	x13, x10, #62
	cmp	x11, x12
	csel	x9, x11, x12, hi
	cmp	x13, #0
	csel	x19, x9, x11, eq
	tbnz	x19, #63, .LBB8_7
	cbz	x10, .LBB8_6
	mov	x20, x0
	ldr	x0, [x0]
	mov	x1, x8
	mov	x2, x19
	mov	w3, #1
	bl	rattle_realloc
	tbz	w0, #0, .LBB8_7
.LBB8_5:
	mov	w0, #1
	str	x1, [x20]
	str	x19, [x20, #16]
	ldp	x20, x19, [sp, #16]
	ldp	x29, x30, [sp], #32
	ret
.LBB8_6:
	mov	x20, x0
	mov	x0, x9
	mov	w1, #1
	bl	rattle_alloc
	tbnz	w0, #0, .LBB8_5
.LBB8_7:
	mov	w0, wzr
	ldp	x20, x19, [sp, #16]
	ldp	x29, x30, [sp], #32
	ret
.Lfunc_end8:
	.size	std_alloc.vec.Vec.grow_amortized.05fa32d921161499, .Lfunc_end8-std_alloc.vec.Vec.grow_amortized.05fa32d921161499

	.section	.rodata.cst16,"aM",@progbits,16
	.p2align	4, 0x0
.LCPI9_0:
	.byte	1
	.byte	2
	.byte	4
	.byte	8
	.byte	16
	.byte	32
	.byte	64
	.byte	128
	.byte	1
	.byte	2
	.byte	4
	.byte	8
	.byte	16
	.byte	32
	.byte	64
	.byte	128
	.section	.rodata.cst8,"aM",@progbits,8
	.p2align	3, 0x0
.LCPI9_1:
	.byte	101
	.byte	109
	.byte	112
	.byte	116
	.byte	121
	.byte	45
	.byte	112
	.byte	111
.LCPI9_2:
	.byte	114
	.byte	116
	.byte	115
	.byte	10
	.zero	1
	.zero	1
	.zero	1
	.zero	1
.LCPI9_3:
	.byte	117
	.byte	110
	.byte	102
	.byte	105
	.zero	1
	.zero	1
	.zero	1
	.zero	1
.LCPI9_4:
	.byte	110
	.byte	111
	.byte	116
	.byte	104
	.zero	1
	.zero	1
	.zero	1
	.zero	1
	.section	.text.line_filter.answers.AnsweringTake.take.19f4c77da892a4d9,"ax",@progbits
	.p2align	2
	.type	line_filter.answers.AnsweringTake.take.19f4c77da892a4d9,@function
line_filter.answers.AnsweringTake.take.19f4c77da892a4d9:
	sub	sp, sp, #160
	stp	x22, x21, [sp, #128]
	mov	x21, x1
	stp	x20, x19, [sp, #144]
	mov	x20, x0
	mov	x0, x1
	mov	x1, x2
	stp	x29, x30, [sp, #64]
	add	x29, sp, #64
	str	x27, [sp, #80]
	mov	x19, x3
	stp	x26, x25, [sp, #96]
	stp	x24, x23, [sp, #112]
	mov	x23, x2
	bl	line_filter.words.words_len
	mov	x22, x0
	sub	x23, x23, x0
	cbz	x0, .LBB9_10
	mov	x24, x19
	ldp	x8, x25, [x24, #8]!
	sub	x9, x25, x8
	cmp	x22, x9
	b.hi	.LBB9_60
.LBB9_2:
	ldr	x26, [x19]
	add	x27, x8, x22
	stp	xzr, xzr, [x24]
	add	x0, x26, x8
	sub	x9, x0, x21
	cmp	x9, x22
	b.hs	.LBB9_8
	cmp	x22, #8
	b.lo	.LBB9_5
	add	x9, x8, x26
	sub	x9, x9, x21
	cmp	x9, #32
	b.hs	.LBB9_47
.LBB9_5:
	mov	x9, xzr
.LBB9_6:
	add	x10, x9, x8
	sub	x8, x22, x9
	add	x9, x21, x9
	add	x10, x26, x10
.LBB9_7:
	ldrb	w11, [x9], #1
	subs	x8, x8, #1
	strb	w11, [x10], #1
	b.ne	.LBB9_7
	b	.LBB9_9
.LBB9_8:
	mov	x1, x21
	mov	x2, x22
	bl	memmove
.LBB9_9:
	stp	x26, x27, [x19]
	str	x25, [x19, #16]
	cbz	x23, .LBB9_34
.LBB9_10:
	subs	x8, x23, #3
	add	x22, x21, x22
	b.lo	.LBB9_12
	ldrb	w9, [x22]
	ldrb	w10, [x22, #1]
	mov	w11, #107
	cmp	w9, #111
	ldrb	w9, [x22, #2]
	ccmp	w10, w11, #0, eq
	mov	w10, #32
	ccmp	w9, w10, #0, eq
	mov	w9, #3
	csel	x9, xzr, x9, ne
	csel	x23, x23, x8, ne
	add	x22, x22, x9
.LBB9_12:
	lsr	x8, x23, #1
	ldr	x2, [x20, #8]
	subs	x21, x8, x2
	b.ls	.LBB9_17
	ldr	x24, [x20, #16]
	sub	x8, x24, x2
	cmp	x21, x8
	b.hi	.LBB9_67
	add	x25, x2, x21
	ldr	x26, [x20]
	cmp	x2, x25
	b.hs	.LBB9_16
.LBB9_15:
	add	x0, x26, x2
	mov	w1, wzr
	mov	x2, x21
	bl	memset
.LBB9_16:
	mov	x2, x25
	stp	x26, x25, [x20]
	str	x24, [x20, #16]
	b	.LBB9_19
.LBB9_17:
	b.hs	.LBB9_19
	str	x8, [x20, #8]
	mov	x2, x8
.LBB9_19:
	tbnz	w23, #0, .LBB9_22
	ldr	x1, [x20]
	cmp	x23, #2
	adrp	x8, .Lstatic.15
	add	x8, x8, :lo12:.Lstatic.15
	b.lo	.LBB9_25
	ldrb	w9, [x22]
	ldrb	w9, [x8, x9]
	cmp	w9, #15
	b.ls	.LBB9_25
.LBB9_22:
	ldp	x10, x8, [x19, #8]
	sub	x9, x8, x10
	cmp	x9, #6
	b.ls	.LBB9_65
.LBB9_23:
	ldr	x9, [x19]
	adrp	x12, .Lstatic.14
	add	x12, x12, :lo12:.Lstatic.14
	add	x11, x9, x10
	add	x10, x10, #7
	sub	x12, x11, x12
	cmp	x12, #6
	b.hi	.LBB9_30
	adrp	x12, .LCPI9_4
	mov	w13, #30821
	ldr	d0, [x12, :lo12:.LCPI9_4]
	mov	w12, #10
	strh	w13, [x11, #4]
	strb	w12, [x11, #6]
	str	s0, [x11]
	b	.LBB9_32
.LBB9_25:
	cmp	x2, #16
	b.lo	.LBB9_36
	mov	x9, xzr
	mov	x10, x22
	mov	x11, x2
.LBB9_27:
	movi	v0.16b, #32
	movi	v3.16b, #159
	adrp	x12, .LCPI9_0
	ldp	q2, q1, [x10], #32
	movi	v5.16b, #208
	movi	v6.16b, #6
	movi	v7.16b, #169
	movi	v17.16b, #10
	orr	v4.16b, v1.16b, v0.16b
	orr	v0.16b, v2.16b, v0.16b
	add	v2.16b, v2.16b, v5.16b
	add	v1.16b, v1.16b, v5.16b
	add	v16.16b, v4.16b, v3.16b
	add	v3.16b, v0.16b, v3.16b
	add	v4.16b, v4.16b, v7.16b
	add	v0.16b, v0.16b, v7.16b
	cmhi	v5.16b, v17.16b, v2.16b
	cmhs	v16.16b, v16.16b, v6.16b
	cmhs	v3.16b, v3.16b, v6.16b
	orr	v4.16b, v16.16b, v4.16b
	orr	v0.16b, v3.16b, v0.16b
	cmhi	v3.16b, v17.16b, v1.16b
	bit	v0.16b, v2.16b, v5.16b
	bif	v1.16b, v4.16b, v3.16b
	movi	v2.16b, #15
	ldr	q4, [x12, :lo12:.LCPI9_0]
	cmhi	v3.16b, v1.16b, v2.16b
	cmhi	v2.16b, v0.16b, v2.16b
	and	v2.16b, v2.16b, v4.16b
	and	v3.16b, v3.16b, v4.16b
	addp	v2.16b, v2.16b, v3.16b
	addp	v2.16b, v2.16b, v2.16b
	addp	v2.16b, v2.16b, v2.16b
	fmov	w12, s2
	cbnz	w12, .LBB9_29
	uzp1	v2.16b, v0.16b, v1.16b
	uzp2	v0.16b, v0.16b, v1.16b
	sub	x11, x11, #16
	cmp	x11, #15
	shl	v1.16b, v2.16b, #4
	orr	v0.16b, v1.16b, v0.16b
	str	q0, [x1, x9]
	add	x9, x9, #16
	b.hi	.LBB9_27
.LBB9_29:
	subs	x10, x2, x9
	b.hi	.LBB9_37
	b	.LBB9_40
.LBB9_30:
	mov	w12, #25960
	mov	w13, #28526
	movk	w12, #2680, lsl #16
	movk	w13, #26740, lsl #16
	stur	w12, [x11, #3]
.LBB9_31:
	str	w13, [x11]
.LBB9_32:
	mov	w0, wzr
	stp	x9, x10, [x19]
.LBB9_33:
	str	x8, [x19, #16]
	b	.LBB9_80
.LBB9_34:
	cmp	x25, x27
	b.eq	.LBB9_71
.LBB9_35:
	mov	w8, #10
	strb	w8, [x26, x27]
	mov	w0, wzr
	add	x8, x27, #1
	str	x8, [x24]
	b	.LBB9_80
.LBB9_36:
	mov	x9, xzr
	subs	x10, x2, xzr
	b.ls	.LBB9_40
.LBB9_37:
	add	x11, x22, x9, lsl #1
	add	x9, x1, x9
	add	x11, x11, #1
.LBB9_38:
	ldurb	w12, [x11, #-1]
	ldrb	w13, [x11], #2
	ldrb	w12, [x8, x12]
	ldrb	w13, [x8, x13]
	orr	w14, w13, w12
	cmp	w14, #15
	b.hi	.LBB9_22
	orr	w12, w13, w12, lsl #4
	subs	x10, x10, #1
	strb	w12, [x9], #1
	b.ne	.LBB9_38
.LBB9_40:
	movi	v0.2d, #0000000000000000
	mov	x0, sp
	str	xzr, [sp, #48]
	stp	q0, q0, [sp, #16]
	str	q0, [sp]
	bl	link_msg.encoding.canonical
	ldrb	w8, [sp]
	ldr	x20, [sp, #8]
	cbz	w8, .LBB9_45
	and	w8, w20, #0xff
	cmp	w8, #1
	b.gt	.LBB9_49
	cbnz	w8, .LBB9_62
	ldp	x9, x8, [x19, #8]
	sub	x10, x8, x9
	cmp	x10, #7
	b.ls	.LBB9_73
.LBB9_44:
	mov	x11, #25970
	ldr	x10, [x19]
	mov	w0, wzr
	movk	x11, #30054, lsl #16
	movk	x11, #25971, lsl #32
	movk	x11, #2660, lsl #48
	str	x11, [x10, x9]
	add	x9, x9, #8
	stp	x10, x9, [x19]
	b	.LBB9_33
.LBB9_45:
	ldp	x21, x22, [sp, #16]
	mov	x0, x20
	mov	x1, x21
	bl	link_state.state_encoding.clear_message
	mov	x0, x19
	mov	x1, x20
	mov	x2, x21
	bl	message_lines.answers.push_text
	and	w0, w0, #0xff
	cbz	x22, .LBB9_80
	mov	x19, x0
	mov	x0, x20
	bl	rattle_dealloc
	mov	x0, x19
	b	.LBB9_80
.LBB9_47:
	cmp	x22, #32
	b.hs	.LBB9_53
	mov	x9, xzr
	b	.LBB9_57
.LBB9_49:
	cmp	w8, #2
	b.ne	.LBB9_79
	ldp	x10, x8, [x19, #8]
	sub	x9, x8, x10
	cmp	x9, #11
	b.ls	.LBB9_75
.LBB9_51:
	ldr	x9, [x19]
	adrp	x12, .Lstatic.18
	add	x12, x12, :lo12:.Lstatic.18
	add	x11, x9, x10
	add	x10, x10, #12
	sub	x13, x11, x12
	cmp	x13, #11
	b.hi	.LBB9_69
	adrp	x12, .LCPI9_1
	adrp	x13, .LCPI9_2
	ldr	d0, [x12, :lo12:.LCPI9_1]
	ldr	d1, [x13, :lo12:.LCPI9_2]
	str	d0, [x11]
	str	s1, [x11, #8]
	b	.LBB9_32
.LBB9_53:
	add	x12, x8, x26
	and	x10, x22, #0x18
	and	x9, x22, #0xffffffffffffffe0
	add	x11, x21, #16
	add	x12, x12, #16
	and	x13, x22, #0xffffffffffffffe0
.LBB9_54:
	ldp	q0, q1, [x11, #-16]
	subs	x13, x13, #32
	add	x11, x11, #32
	stp	q0, q1, [x12, #-16]
	add	x12, x12, #32
	b.ne	.LBB9_54
	cmp	x22, x9
	b.eq	.LBB9_9
	cbz	x10, .LBB9_6
.LBB9_57:
	mov	x11, x9
	and	x9, x22, #0xfffffffffffffff8
	add	x12, x8, x11
	sub	x10, x11, x9
	add	x11, x21, x11
	add	x12, x26, x12
.LBB9_58:
	ldr	d0, [x11], #8
	adds	x10, x10, #8
	str	d0, [x12], #8
	b.ne	.LBB9_58
	cmp	x22, x9
	b.eq	.LBB9_9
	b	.LBB9_6
.LBB9_60:
	mov	x0, x19
	mov	x1, x22
	bl	std_alloc.vec.Vec.grow_amortized.05fa32d921161499
	cbz	w0, .LBB9_79
	ldp	x8, x25, [x19, #8]
	b	.LBB9_2
.LBB9_62:
	ldp	x10, x8, [x19, #8]
	sub	x9, x8, x10
	cmp	x9, #5
	b.ls	.LBB9_77
.LBB9_63:
	ldr	x9, [x19]
	adrp	x12, .Lstatic.17
	add	x12, x12, :lo12:.Lstatic.17
	add	x11, x9, x10
	add	x10, x10, #6
	sub	x12, x11, x12
	cmp	x12, #5
	b.hi	.LBB9_70
	adrp	x12, .LCPI9_3
	ldr	d0, [x12, :lo12:.LCPI9_3]
	mov	w12, #2676
	strh	w12, [x11, #4]
	str	s0, [x11]
	b	.LBB9_32
.LBB9_65:
	mov	x0, x19
	mov	w1, #7
	bl	std_alloc.vec.Vec.grow_amortized.05fa32d921161499
	cbz	w0, .LBB9_79
	ldp	x10, x8, [x19, #8]
	b	.LBB9_23
.LBB9_67:
	mov	x0, x20
	mov	x1, x21
	bl	std_alloc.vec.Vec.grow_amortized.05fa32d921161499
	cbz	w0, .LBB9_79
	ldp	x2, x24, [x20, #8]
	add	x25, x2, x21
	ldr	x26, [x20]
	cmp	x2, x25
	b.lo	.LBB9_15
	b	.LBB9_16
.LBB9_69:
	mov	w13, #29810
	ldr	x12, [x12]
	movk	w13, #2675, lsl #16
	str	w13, [x11, #8]
	str	x12, [x11]
	b	.LBB9_32
.LBB9_70:
	mov	w13, #28277
	mov	w12, #2676
	movk	w13, #26982, lsl #16
	strh	w12, [x11, #4]
	b	.LBB9_31
.LBB9_71:
	mov	x0, x19
	mov	w1, #1
	bl	std_alloc.vec.Vec.grow_amortized.05fa32d921161499
	mov	w8, w0
	mov	w0, #1
	cbz	w8, .LBB9_80
	ldp	x26, x27, [x19]
	b	.LBB9_35
.LBB9_73:
	mov	x0, x19
	mov	w1, #8
	bl	std_alloc.vec.Vec.grow_amortized.05fa32d921161499
	cbz	w0, .LBB9_79
	ldp	x9, x8, [x19, #8]
	b	.LBB9_44
.LBB9_75:
	mov	x0, x19
	mov	w1, #12
	bl	std_alloc.vec.Vec.grow_amortized.05fa32d921161499
	cbz	w0, .LBB9_79
	ldp	x10, x8, [x19, #8]
	b	.LBB9_51
.LBB9_77:
	mov	x0, x19
	mov	w1, #6
	bl	std_alloc.vec.Vec.grow_amortized.05fa32d921161499
	cbz	w0, .LBB9_79
	ldp	x10, x8, [x19, #8]
	b	.LBB9_63
.LBB9_79:
	mov	w0, #1
.LBB9_80:
	ldp	x20, x19, [sp, #144]
	ldr	x27, [sp, #80]
	ldp	x22, x21, [sp, #128]
	ldp	x24, x23, [sp, #112]
	ldp	x26, x25, [sp, #96]
	ldp	x29, x30, [sp, #64]
	add	sp, sp, #160
	ret
.Lfunc_end9:
	.size	line_filter.answers.AnsweringTake.take.19f4c77da892a4d9, .Lfunc_end9-line_filter.answers.AnsweringTake.take.19f4c77da892a4d9

	.section	.rodata.cst16,"aM",@progbits,16
	.p2align	4, 0x0
.LCPI10_0:
	.byte	1
	.byte	2
	.byte	4
	.byte	8
	.byte	16
	.byte	32
	.byte	64
	.byte	128
	.byte	1
	.byte	2
	.byte	4
	.byte	8
	.byte	16
	.byte	32
	.byte	64
	.byte	128
	.section	.text.line_filter.words.words_len,"ax",@progbits
	.p2align	2
	.type	line_filter.words.words_len,@function
line_filter.words.words_len:
	stp	x29, x30, [sp, #-64]!
	stp	x22, x21, [sp, #32]
	mov	x21, x0
	mov	w0, #61
	stp	x20, x19, [sp, #48]
	mov	x19, x1
	mov	x1, x21
	mov	x2, x19
	stp	x24, x23, [sp, #16]
	mov	x29, sp
	bl	memchr.bytes.memchr
	mov	x20, xzr
	tbz	w0, #0, .LBB10_56
	add	x24, x21, x19
	mov	x23, x19
	mov	x22, x21
	b	.LBB10_4
.LBB10_2:
	mov	x8, x9
.LBB10_3:
	add	x9, x11, x20
	mov	w0, #61
	add	x20, x9, x8
	add	x22, x21, x20
	sub	x23, x19, x20
	mov	x1, x22
	mov	x2, x23
	bl	memchr.bytes.memchr
	tbz	w0, #0, .LBB10_56
.LBB10_4:
	cmp	x23, #32
	b.hs	.LBB10_18
	cbz	x23, .LBB10_56
	mov	x11, xzr
.LBB10_7:
	ldrb	w8, [x22, x11]
	cmp	w8, #9
	b.eq	.LBB10_11
	cmp	w8, #32
	b.eq	.LBB10_11
	add	x11, x11, #1
	cmp	x23, x11
	b.ne	.LBB10_7
.LBB10_10:
	mov	x11, x23
.LBB10_11:
	cbz	x1, .LBB10_56
	cmp	x11, x1
	b.ls	.LBB10_56
	mov	x8, xzr
	subs	x9, x23, x11
	b.eq	.LBB10_3
	add	x10, x22, x11
	b	.LBB10_16
.LBB10_15:
	add	x8, x8, #1
	cmp	x9, x8
	b.eq	.LBB10_2
.LBB10_16:
	ldrb	w12, [x10, x8]
	cmp	w12, #32
	b.eq	.LBB10_15
	cmp	w12, #9
	b.eq	.LBB10_15
	b	.LBB10_3
.LBB10_18:
	mov	x12, xzr
	sub	x8, x23, #64
	add	x9, x22, #96
	add	x10, x22, #160
.LBB10_19:
	sub	x13, x23, x12
	adrp	x11, .LCPI10_0
	cmp	x13, #191
	b.ls	.LBB10_26
	movi	v0.16b, #32
	add	x13, x22, x12
	movi	v1.16b, #9
	ldp	q3, q2, [x13]
	ldp	q4, q5, [x13, #32]
	add	x13, x12, #64
	cmeq	v6.16b, v3.16b, v0.16b
	cmeq	v7.16b, v2.16b, v0.16b
	cmeq	v3.16b, v3.16b, v1.16b
	cmeq	v2.16b, v2.16b, v1.16b
	cmeq	v16.16b, v4.16b, v0.16b
	cmeq	v17.16b, v5.16b, v0.16b
	cmeq	v4.16b, v4.16b, v1.16b
	cmeq	v1.16b, v5.16b, v1.16b
	ldr	q0, [x11, :lo12:.LCPI10_0]
	orr	v3.16b, v6.16b, v3.16b
	orr	v2.16b, v7.16b, v2.16b
	orr	v1.16b, v17.16b, v1.16b
	orr	v4.16b, v16.16b, v4.16b
	and	v3.16b, v3.16b, v0.16b
	and	v2.16b, v2.16b, v0.16b
	and	v4.16b, v4.16b, v0.16b
	and	v1.16b, v1.16b, v0.16b
	addp	v2.16b, v3.16b, v2.16b
	addp	v1.16b, v4.16b, v1.16b
	addp	v1.16b, v2.16b, v1.16b
	addp	v1.16b, v1.16b, v1.16b
	fmov	x14, d1
	cbnz	x14, .LBB10_48
	sub	x14, x23, x13
	cmp	x14, #128
	b.lo	.LBB10_35
	add	x11, x12, #192
	add	x12, x10, x12
.LBB10_23:
	movi	v5.16b, #32
	movi	v6.16b, #9
	ldp	q2, q1, [x12, #-32]
	ldp	q4, q3, [x12]
	ldp	q18, q17, [x12, #-96]
	cmeq	v16.16b, v1.16b, v5.16b
	cmeq	v1.16b, v1.16b, v6.16b
	cmeq	v7.16b, v2.16b, v5.16b
	cmeq	v2.16b, v2.16b, v6.16b
	cmeq	v19.16b, v3.16b, v5.16b
	cmeq	v3.16b, v3.16b, v6.16b
	cmeq	v21.16b, v4.16b, v5.16b
	cmeq	v4.16b, v4.16b, v6.16b
	cmeq	v22.16b, v17.16b, v5.16b
	orr	v1.16b, v16.16b, v1.16b
	ldp	q16, q20, [x12, #-64]
	orr	v2.16b, v7.16b, v2.16b
	orr	v3.16b, v19.16b, v3.16b
	cmeq	v17.16b, v17.16b, v6.16b
	orr	v4.16b, v21.16b, v4.16b
	cmeq	v21.16b, v18.16b, v5.16b
	cmeq	v18.16b, v18.16b, v6.16b
	cmeq	v7.16b, v20.16b, v5.16b
	cmeq	v20.16b, v20.16b, v6.16b
	cmeq	v19.16b, v16.16b, v5.16b
	cmeq	v16.16b, v16.16b, v6.16b
	orr	v6.16b, v7.16b, v20.16b
	orr	v20.16b, v2.16b, v4.16b
	orr	v7.16b, v21.16b, v18.16b
	orr	v5.16b, v19.16b, v16.16b
	orr	v19.16b, v1.16b, v3.16b
	orr	v16.16b, v22.16b, v17.16b
	orr	v17.16b, v5.16b, v20.16b
	orr	v18.16b, v6.16b, v19.16b
	orr	v18.16b, v16.16b, v18.16b
	orr	v17.16b, v7.16b, v17.16b
	and	v17.16b, v17.16b, v0.16b
	and	v18.16b, v18.16b, v0.16b
	addp	v17.16b, v17.16b, v18.16b
	addp	v17.16b, v17.16b, v17.16b
	addp	v17.16b, v17.16b, v17.16b
	fmov	w13, s17
	cbnz	w13, .LBB10_52
	sub	x14, x14, #128
	add	x11, x11, #128
	add	x12, x12, #128
	cmp	x14, #127
	b.hi	.LBB10_23
	sub	x12, x11, #128
	cmp	x14, #32
	b.hs	.LBB10_36
	b	.LBB10_39
.LBB10_26:
	cmp	x13, #64
	b.lo	.LBB10_41
.LBB10_27:
	movi	v0.16b, #32
	add	x14, x22, x12
	movi	v5.16b, #9
	ldp	q1, q2, [x14]
	ldp	q4, q3, [x14, #32]
	cmeq	v6.16b, v2.16b, v0.16b
	cmeq	v7.16b, v1.16b, v0.16b
	cmeq	v16.16b, v2.16b, v5.16b
	cmeq	v17.16b, v1.16b, v5.16b
	cmeq	v18.16b, v3.16b, v0.16b
	cmeq	v0.16b, v4.16b, v0.16b
	cmeq	v19.16b, v3.16b, v5.16b
	cmeq	v5.16b, v4.16b, v5.16b
	orr	v6.16b, v6.16b, v16.16b
	orr	v7.16b, v7.16b, v17.16b
	orr	v0.16b, v0.16b, v5.16b
	orr	v5.16b, v18.16b, v19.16b
	orr	v5.16b, v6.16b, v5.16b
	orr	v6.16b, v7.16b, v0.16b
	ldr	q0, [x11, :lo12:.LCPI10_0]
	and	v6.16b, v6.16b, v0.16b
	and	v5.16b, v5.16b, v0.16b
	addp	v5.16b, v6.16b, v5.16b
	addp	v5.16b, v5.16b, v5.16b
	addp	v5.16b, v5.16b, v5.16b
	fmov	w14, s5
	cbnz	w14, .LBB10_29
	sub	x13, x13, #64
	add	x12, x12, #64
	cmp	x13, #63
	b.hi	.LBB10_27
	b	.LBB10_41
.LBB10_29:
	cmp	x13, #64
	b.lo	.LBB10_41
.LBB10_30:
	movi	v5.16b, #32
	movi	v6.16b, #9
	cmeq	v7.16b, v1.16b, v5.16b
	cmeq	v16.16b, v2.16b, v5.16b
	cmeq	v1.16b, v1.16b, v6.16b
	cmeq	v2.16b, v2.16b, v6.16b
	cmeq	v17.16b, v4.16b, v5.16b
	cmeq	v5.16b, v3.16b, v5.16b
	cmeq	v4.16b, v4.16b, v6.16b
	cmeq	v3.16b, v3.16b, v6.16b
	orr	v1.16b, v7.16b, v1.16b
	orr	v2.16b, v16.16b, v2.16b
	orr	v3.16b, v5.16b, v3.16b
	orr	v4.16b, v17.16b, v4.16b
	and	v1.16b, v1.16b, v0.16b
	and	v2.16b, v2.16b, v0.16b
	and	v4.16b, v4.16b, v0.16b
	and	v3.16b, v3.16b, v0.16b
	addp	v1.16b, v1.16b, v2.16b
	addp	v2.16b, v4.16b, v3.16b
	addp	v1.16b, v1.16b, v2.16b
	addp	v1.16b, v1.16b, v1.16b
	fmov	x14, d1
	cbnz	x14, .LBB10_55
	sub	x13, x8, x12
	neg	x14, x12
	add	x12, x9, x12
.LBB10_32:
	subs	x15, x13, #64
	b.lo	.LBB10_40
	movi	v5.16b, #32
	movi	v6.16b, #9
	sub	x14, x14, #64
	ldp	q1, q2, [x12, #-32]
	mov	x13, x15
	ldp	q4, q3, [x12], #64
	cmeq	v7.16b, v2.16b, v5.16b
	cmeq	v16.16b, v1.16b, v5.16b
	cmeq	v17.16b, v2.16b, v6.16b
	cmeq	v18.16b, v1.16b, v6.16b
	cmeq	v19.16b, v3.16b, v5.16b
	cmeq	v5.16b, v4.16b, v5.16b
	cmeq	v20.16b, v3.16b, v6.16b
	cmeq	v6.16b, v4.16b, v6.16b
	orr	v7.16b, v7.16b, v17.16b
	orr	v16.16b, v16.16b, v18.16b
	orr	v5.16b, v5.16b, v6.16b
	orr	v6.16b, v19.16b, v20.16b
	orr	v6.16b, v7.16b, v6.16b
	orr	v5.16b, v16.16b, v5.16b
	and	v5.16b, v5.16b, v0.16b
	and	v6.16b, v6.16b, v0.16b
	addp	v5.16b, v5.16b, v6.16b
	addp	v5.16b, v5.16b, v5.16b
	addp	v5.16b, v5.16b, v5.16b
	fmov	w16, s5
	cbz	w16, .LBB10_32
	neg	x12, x14
	b	.LBB10_30
.LBB10_35:
	mov	x12, x13
	cmp	x14, #32
	b.lo	.LBB10_39
.LBB10_36:
	sub	x11, x23, x12
.LBB10_37:
	movi	v1.16b, #32
	add	x13, x22, x12
	movi	v2.16b, #9
	ldp	q3, q4, [x13]
	cmeq	v5.16b, v3.16b, v1.16b
	cmeq	v1.16b, v4.16b, v1.16b
	cmeq	v3.16b, v3.16b, v2.16b
	cmeq	v2.16b, v4.16b, v2.16b
	orr	v1.16b, v1.16b, v2.16b
	orr	v2.16b, v5.16b, v3.16b
	and	v2.16b, v2.16b, v0.16b
	and	v1.16b, v1.16b, v0.16b
	addp	v1.16b, v2.16b, v1.16b
	addp	v1.16b, v1.16b, v1.16b
	addp	v1.16b, v1.16b, v1.16b
	fmov	w14, s1
	cbnz	w14, .LBB10_47
	sub	x11, x11, #32
	add	x12, x12, #32
	cmp	x11, #31
	b.hi	.LBB10_37
.LBB10_39:
	movi	v1.16b, #32
	movi	v2.16b, #9
	ldp	q3, q4, [x24, #-32]
	cmeq	v5.16b, v3.16b, v1.16b
	cmeq	v1.16b, v4.16b, v1.16b
	cmeq	v3.16b, v3.16b, v2.16b
	cmeq	v2.16b, v4.16b, v2.16b
	orr	v1.16b, v1.16b, v2.16b
	orr	v2.16b, v5.16b, v3.16b
	and	v2.16b, v2.16b, v0.16b
	and	v0.16b, v1.16b, v0.16b
	addp	v0.16b, v2.16b, v0.16b
	b	.LBB10_46
.LBB10_40:
	mov	w12, #64
	sub	x12, x12, x14
.LBB10_41:
	cmp	x13, #32
	b.lo	.LBB10_45
	sub	x13, x23, x12
.LBB10_43:
	movi	v0.16b, #32
	add	x14, x22, x12
	movi	v1.16b, #9
	ldp	q2, q3, [x14]
	cmeq	v4.16b, v2.16b, v0.16b
	cmeq	v0.16b, v3.16b, v0.16b
	cmeq	v2.16b, v2.16b, v1.16b
	cmeq	v1.16b, v3.16b, v1.16b
	orr	v0.16b, v0.16b, v1.16b
	orr	v1.16b, v4.16b, v2.16b
	ldr	q2, [x11, :lo12:.LCPI10_0]
	and	v1.16b, v1.16b, v2.16b
	and	v0.16b, v0.16b, v2.16b
	addp	v0.16b, v1.16b, v0.16b
	addp	v0.16b, v0.16b, v0.16b
	addp	v0.16b, v0.16b, v0.16b
	fmov	w14, s0
	cbnz	w14, .LBB10_47
	sub	x13, x13, #32
	add	x12, x12, #32
	cmp	x13, #31
	b.hi	.LBB10_43
.LBB10_45:
	movi	v0.16b, #32
	movi	v1.16b, #9
	ldp	q2, q3, [x24, #-32]
	cmeq	v4.16b, v2.16b, v0.16b
	cmeq	v0.16b, v3.16b, v0.16b
	cmeq	v2.16b, v2.16b, v1.16b
	cmeq	v1.16b, v3.16b, v1.16b
	orr	v0.16b, v0.16b, v1.16b
	orr	v1.16b, v4.16b, v2.16b
	ldr	q2, [x11, :lo12:.LCPI10_0]
	and	v1.16b, v1.16b, v2.16b
	and	v0.16b, v0.16b, v2.16b
	addp	v0.16b, v1.16b, v0.16b
.LBB10_46:
	addp	v0.16b, v0.16b, v0.16b
	sub	x13, x12, x23
	add	x13, x13, #32
	addp	v0.16b, v0.16b, v0.16b
	fmov	w11, s0
	lsr	x14, x11, x13
	mov	x11, x23
	mov	x13, x11
	cbnz	x14, .LBB10_48
	b	.LBB10_51
.LBB10_47:
	add	x13, x12, #32
.LBB10_48:
	rbit	x11, x14
	clz	x15, x11
	add	x11, x15, x12
	ldrb	w16, [x22, x11]
	cmp	w16, #9
	b.eq	.LBB10_11
	cmp	w16, #32
	b.eq	.LBB10_11
	mov	w11, #1
	lsl	x11, x11, x15
	bics	x14, x14, x11
	b.ne	.LBB10_48
.LBB10_51:
	cmp	x13, x23
	mov	x12, x13
	b.lo	.LBB10_19
	b	.LBB10_10
.LBB10_52:
	umov	w13, v16.b[0]
	umov	w18, v7.b[0]
	umov	w16, v6.b[0]
	umov	w14, v5.b[0]
	umov	w17, v16.b[1]
	umov	w15, v7.b[1]
	umov	w12, v6.b[1]
	fmov	s17, w13
	umov	w13, v5.b[1]
	fmov	s18, w18
	fmov	s19, w16
	fmov	s20, w14
	umov	w14, v16.b[3]
	mov	v17.b[1], w17
	umov	w17, v16.b[2]
	mov	v18.b[1], w15
	umov	w15, v7.b[2]
	mov	v19.b[1], w12
	umov	w12, v6.b[2]
	mov	v20.b[1], w13
	umov	w13, v5.b[2]
	mov	v17.b[2], w17
	mov	v18.b[2], w15
	umov	w15, v7.b[3]
	mov	v19.b[2], w12
	umov	w12, v6.b[3]
	mov	v20.b[2], w13
	umov	w13, v5.b[3]
	mov	v17.b[3], w14
	umov	w14, v16.b[4]
	mov	v18.b[3], w15
	umov	w15, v7.b[4]
	mov	v19.b[3], w12
	umov	w12, v6.b[4]
	mov	v20.b[3], w13
	umov	w13, v5.b[4]
	mov	v17.b[4], w14
	umov	w14, v16.b[5]
	mov	v18.b[4], w15
	umov	w15, v7.b[5]
	mov	v19.b[4], w12
	umov	w12, v6.b[5]
	mov	v20.b[4], w13
	umov	w13, v5.b[5]
	mov	v17.b[5], w14
	umov	w14, v16.b[6]
	mov	v18.b[5], w15
	umov	w15, v7.b[6]
	mov	v19.b[5], w12
	umov	w12, v6.b[6]
	mov	v20.b[5], w13
	umov	w13, v5.b[6]
	mov	v17.b[6], w14
	umov	w14, v16.b[7]
	mov	v18.b[6], w15
	umov	w15, v7.b[7]
	mov	v19.b[6], w12
	umov	w12, v6.b[7]
	mov	v20.b[6], w13
	umov	w13, v5.b[7]
	mov	v17.b[7], w14
	umov	w14, v16.b[8]
	mov	v18.b[7], w15
	umov	w15, v7.b[8]
	mov	v19.b[7], w12
	umov	w12, v6.b[8]
	mov	v20.b[7], w13
	umov	w13, v5.b[8]
	mov	v17.b[8], w14
	umov	w14, v16.b[9]
	mov	v18.b[8], w15
	umov	w15, v7.b[9]
	mov	v19.b[8], w12
	umov	w12, v6.b[9]
	mov	v20.b[8], w13
	umov	w13, v5.b[9]
	mov	v17.b[9], w14
	umov	w14, v16.b[10]
	mov	v18.b[9], w15
	umov	w15, v7.b[10]
	mov	v19.b[9], w12
	umov	w12, v6.b[10]
	mov	v20.b[9], w13
	umov	w13, v5.b[10]
	mov	v17.b[10], w14
	umov	w14, v16.b[11]
	mov	v18.b[10], w15
	umov	w15, v7.b[11]
	mov	v19.b[10], w12
	umov	w12, v6.b[11]
	mov	v20.b[10], w13
	umov	w13, v5.b[11]
	mov	v17.b[11], w14
	umov	w14, v16.b[12]
	mov	v18.b[11], w15
	umov	w15, v7.b[12]
	mov	v19.b[11], w12
	umov	w12, v6.b[12]
	mov	v20.b[11], w13
	umov	w13, v5.b[12]
	mov	v17.b[12], w14
	umov	w14, v16.b[13]
	mov	v18.b[12], w15
	umov	w15, v7.b[13]
	mov	v19.b[12], w12
	umov	w12, v6.b[13]
	mov	v20.b[12], w13
	umov	w13, v5.b[13]
	mov	v17.b[13], w14
	umov	w14, v16.b[14]
	mov	v18.b[13], w15
	umov	w15, v7.b[14]
	mov	v19.b[13], w12
	umov	w12, v6.b[14]
	mov	v20.b[13], w13
	umov	w13, v5.b[14]
	mov	v17.b[14], w14
	umov	w14, v16.b[15]
	mov	v18.b[14], w15
	umov	w15, v7.b[15]
	mov	v19.b[14], w12
	umov	w12, v6.b[15]
	mov	v20.b[14], w13
	umov	w13, v5.b[15]
	mov	v17.b[15], w14
	mov	v18.b[15], w15
	mov	v19.b[15], w12
	mov	v20.b[15], w13
	sub	x13, x11, #64
	shl	v6.16b, v17.16b, #7
	shl	v5.16b, v18.16b, #7
	shl	v7.16b, v19.16b, #7
	shl	v16.16b, v20.16b, #7
	cmlt	v6.16b, v6.16b, #0
	cmlt	v5.16b, v5.16b, #0
	cmlt	v7.16b, v7.16b, #0
	cmlt	v16.16b, v16.16b, #0
	and	v6.16b, v6.16b, v0.16b
	and	v5.16b, v5.16b, v0.16b
	and	v7.16b, v7.16b, v0.16b
	and	v16.16b, v16.16b, v0.16b
	addp	v5.16b, v5.16b, v6.16b
	addp	v6.16b, v16.16b, v7.16b
	addp	v5.16b, v5.16b, v6.16b
	addp	v5.16b, v5.16b, v5.16b
	fmov	x14, d5
	cbz	x14, .LBB10_54
	sub	x12, x11, #128
	b	.LBB10_48
.LBB10_54:
	umov	w14, v1.b[0]
	umov	w0, v2.b[0]
	umov	w17, v3.b[0]
	umov	w15, v4.b[0]
	umov	w18, v1.b[1]
	umov	w16, v2.b[1]
	umov	w12, v3.b[1]
	fmov	s5, w14
	umov	w14, v4.b[1]
	fmov	s6, w0
	fmov	s7, w17
	fmov	s16, w15
	umov	w15, v1.b[3]
	mov	v5.b[1], w18
	umov	w18, v1.b[2]
	mov	v6.b[1], w16
	umov	w16, v2.b[2]
	mov	v7.b[1], w12
	umov	w12, v3.b[2]
	mov	v16.b[1], w14
	umov	w14, v4.b[2]
	mov	v5.b[2], w18
	mov	v6.b[2], w16
	umov	w16, v2.b[3]
	mov	v7.b[2], w12
	umov	w12, v3.b[3]
	mov	v16.b[2], w14
	umov	w14, v4.b[3]
	mov	v5.b[3], w15
	umov	w15, v1.b[4]
	mov	v6.b[3], w16
	umov	w16, v2.b[4]
	mov	v7.b[3], w12
	umov	w12, v3.b[4]
	mov	v16.b[3], w14
	umov	w14, v4.b[4]
	mov	v5.b[4], w15
	umov	w15, v1.b[5]
	mov	v6.b[4], w16
	umov	w16, v2.b[5]
	mov	v7.b[4], w12
	umov	w12, v3.b[5]
	mov	v16.b[4], w14
	umov	w14, v4.b[5]
	mov	v5.b[5], w15
	umov	w15, v1.b[6]
	mov	v6.b[5], w16
	umov	w16, v2.b[6]
	mov	v7.b[5], w12
	umov	w12, v3.b[6]
	mov	v16.b[5], w14
	umov	w14, v4.b[6]
	mov	v5.b[6], w15
	umov	w15, v1.b[7]
	mov	v6.b[6], w16
	umov	w16, v2.b[7]
	mov	v7.b[6], w12
	umov	w12, v3.b[7]
	mov	v16.b[6], w14
	umov	w14, v4.b[7]
	mov	v5.b[7], w15
	umov	w15, v1.b[8]
	mov	v6.b[7], w16
	umov	w16, v2.b[8]
	mov	v7.b[7], w12
	umov	w12, v3.b[8]
	mov	v16.b[7], w14
	umov	w14, v4.b[8]
	mov	v5.b[8], w15
	umov	w15, v1.b[9]
	mov	v6.b[8], w16
	umov	w16, v2.b[9]
	mov	v7.b[8], w12
	umov	w12, v3.b[9]
	mov	v16.b[8], w14
	umov	w14, v4.b[9]
	mov	v5.b[9], w15
	umov	w15, v1.b[10]
	mov	v6.b[9], w16
	umov	w16, v2.b[10]
	mov	v7.b[9], w12
	umov	w12, v3.b[10]
	mov	v16.b[9], w14
	umov	w14, v4.b[10]
	mov	v5.b[10], w15
	umov	w15, v1.b[11]
	mov	v6.b[10], w16
	umov	w16, v2.b[11]
	mov	v7.b[10], w12
	umov	w12, v3.b[11]
	mov	v16.b[10], w14
	umov	w14, v4.b[11]
	mov	v5.b[11], w15
	umov	w15, v1.b[12]
	mov	v6.b[11], w16
	umov	w16, v2.b[12]
	mov	v7.b[11], w12
	umov	w12, v3.b[12]
	mov	v16.b[11], w14
	umov	w14, v4.b[12]
	mov	v5.b[12], w15
	umov	w15, v1.b[13]
	mov	v6.b[12], w16
	umov	w16, v2.b[13]
	mov	v7.b[12], w12
	umov	w12, v3.b[13]
	mov	v16.b[12], w14
	umov	w14, v4.b[13]
	mov	v5.b[13], w15
	umov	w15, v1.b[14]
	mov	v6.b[13], w16
	umov	w16, v2.b[14]
	mov	v7.b[13], w12
	umov	w12, v3.b[14]
	mov	v16.b[13], w14
	umov	w14, v4.b[14]
	mov	v5.b[14], w15
	umov	w15, v1.b[15]
	mov	v6.b[14], w16
	umov	w16, v2.b[15]
	mov	v7.b[14], w12
	umov	w12, v3.b[15]
	mov	v16.b[14], w14
	umov	w14, v4.b[15]
	mov	v5.b[15], w15
	mov	v6.b[15], w16
	mov	v7.b[15], w12
	mov	v16.b[15], w14
	shl	v2.16b, v5.16b, #7
	shl	v1.16b, v6.16b, #7
	shl	v3.16b, v7.16b, #7
	shl	v4.16b, v16.16b, #7
	cmlt	v2.16b, v2.16b, #0
	cmlt	v1.16b, v1.16b, #0
	cmlt	v3.16b, v3.16b, #0
	cmlt	v4.16b, v4.16b, #0
	and	v2.16b, v2.16b, v0.16b
	and	v1.16b, v1.16b, v0.16b
	and	v4.16b, v4.16b, v0.16b
	and	v0.16b, v3.16b, v0.16b
	addp	v1.16b, v1.16b, v2.16b
	addp	v0.16b, v4.16b, v0.16b
	addp	v0.16b, v1.16b, v0.16b
	addp	v0.16b, v0.16b, v0.16b
	fmov	x14, d0
	mov	x12, x13
	mov	x13, x11
	cbnz	x14, .LBB10_48
	b	.LBB10_51
.LBB10_55:
	add	x13, x12, #64
	b	.LBB10_48
.LBB10_56:
	mov	x0, x20
	ldp	x20, x19, [sp, #48]
	ldp	x22, x21, [sp, #32]
	ldp	x24, x23, [sp, #16]
	ldp	x29, x30, [sp], #64
	ret
.Lfunc_end10:
	.size	line_filter.words.words_len, .Lfunc_end10-line_filter.words.words_len

	.section	.rodata.cst16,"aM",@progbits,16
	.p2align	4, 0x0
.LCPI11_0:
	.byte	1
	.byte	2
	.byte	4
	.byte	8
	.byte	16
	.byte	32
	.byte	64
	.byte	128
	.byte	1
	.byte	2
	.byte	4
	.byte	8
	.byte	16
	.byte	32
	.byte	64
	.byte	128
	.section	.text.memchr.bytes.memchr,"ax",@progbits
	.p2align	2
	.type	memchr.bytes.memchr,@function
memchr.bytes.memchr:
	cmp	x2, #32
	b.hs	.LBB11_6
	cbz	x2, .LBB11_5
	mov	x8, xzr
.LBB11_3:
	ldrb	w9, [x1, x8]
	cmp	w9, w0, uxtb
	b.eq	.LBB11_42
	add	x8, x8, #1
	cmp	x2, x8
	b.ne	.LBB11_3
.LBB11_5:
	mov	w0, wzr
	mov	x1, xzr
	ret
.LBB11_6:
	dup	v0.16b, w0
	mov	x13, xzr
	add	x9, x1, x2
	add	x10, x1, #96
	sub	x11, x2, #64
	add	x12, x1, #160
.LBB11_7:
	sub	x14, x2, x13
	adrp	x8, .LCPI11_0
	cmp	x14, #191
	b.ls	.LBB11_14
	add	x14, x1, x13
	ldr	q1, [x8, :lo12:.LCPI11_0]
	ldp	q2, q3, [x14]
	ldp	q4, q5, [x14, #32]
	add	x14, x13, #64
	cmeq	v2.16b, v2.16b, v0.16b
	cmeq	v3.16b, v3.16b, v0.16b
	cmeq	v5.16b, v5.16b, v0.16b
	cmeq	v4.16b, v4.16b, v0.16b
	and	v2.16b, v2.16b, v1.16b
	and	v3.16b, v3.16b, v1.16b
	and	v4.16b, v4.16b, v1.16b
	and	v5.16b, v5.16b, v1.16b
	addp	v2.16b, v2.16b, v3.16b
	addp	v3.16b, v4.16b, v5.16b
	addp	v2.16b, v2.16b, v3.16b
	addp	v2.16b, v2.16b, v2.16b
	fmov	x15, d2
	cbnz	x15, .LBB11_35
	sub	x15, x2, x14
	cmp	x15, #128
	b.lo	.LBB11_22
	add	x8, x13, #192
	add	x13, x12, x13
.LBB11_11:
	ldp	q2, q3, [x13, #-96]
	ldp	q4, q5, [x13, #-64]
	ldp	q19, q17, [x13, #-32]
	ldp	q20, q18, [x13], #128
	cmeq	v6.16b, v2.16b, v0.16b
	cmeq	v7.16b, v3.16b, v0.16b
	cmeq	v16.16b, v5.16b, v0.16b
	cmeq	v2.16b, v17.16b, v0.16b
	cmeq	v17.16b, v4.16b, v0.16b
	cmeq	v5.16b, v19.16b, v0.16b
	cmeq	v3.16b, v18.16b, v0.16b
	cmeq	v4.16b, v20.16b, v0.16b
	orr	v20.16b, v16.16b, v7.16b
	orr	v21.16b, v17.16b, v6.16b
	orr	v18.16b, v2.16b, v3.16b
	orr	v19.16b, v5.16b, v4.16b
	orr	v18.16b, v20.16b, v18.16b
	orr	v19.16b, v21.16b, v19.16b
	and	v19.16b, v19.16b, v1.16b
	and	v18.16b, v18.16b, v1.16b
	addp	v18.16b, v19.16b, v18.16b
	addp	v18.16b, v18.16b, v18.16b
	addp	v18.16b, v18.16b, v18.16b
	fmov	w14, s18
	cbnz	w14, .LBB11_38
	sub	x15, x15, #128
	add	x8, x8, #128
	cmp	x15, #127
	b.hi	.LBB11_11
	sub	x13, x8, #128
	cmp	x15, #32
	b.hs	.LBB11_23
	b	.LBB11_26
.LBB11_14:
	cmp	x14, #64
	b.lo	.LBB11_28
.LBB11_15:
	add	x15, x1, x13
	ldp	q1, q2, [x15]
	ldp	q4, q3, [x15, #32]
	cmeq	v1.16b, v1.16b, v0.16b
	cmeq	v2.16b, v2.16b, v0.16b
	cmeq	v4.16b, v4.16b, v0.16b
	cmeq	v3.16b, v3.16b, v0.16b
	orr	v2.16b, v2.16b, v3.16b
	orr	v3.16b, v1.16b, v4.16b
	ldr	q1, [x8, :lo12:.LCPI11_0]
	and	v3.16b, v3.16b, v1.16b
	and	v2.16b, v2.16b, v1.16b
	addp	v2.16b, v3.16b, v2.16b
	addp	v2.16b, v2.16b, v2.16b
	addp	v2.16b, v2.16b, v2.16b
	fmov	w15, s2
	cbnz	w15, .LBB11_17
	sub	x14, x14, #64
	add	x13, x13, #64
	cmp	x14, #63
	b.hi	.LBB11_15
	b	.LBB11_28
.LBB11_17:
	cmp	x14, #64
	b.lo	.LBB11_28
.LBB11_18:
	add	x14, x1, x13
	ldp	q2, q3, [x14]
	ldp	q4, q5, [x14, #32]
	cmeq	v2.16b, v2.16b, v0.16b
	cmeq	v3.16b, v3.16b, v0.16b
	cmeq	v5.16b, v5.16b, v0.16b
	cmeq	v4.16b, v4.16b, v0.16b
	and	v2.16b, v2.16b, v1.16b
	and	v3.16b, v3.16b, v1.16b
	and	v4.16b, v4.16b, v1.16b
	and	v5.16b, v5.16b, v1.16b
	addp	v2.16b, v2.16b, v3.16b
	addp	v3.16b, v4.16b, v5.16b
	addp	v2.16b, v2.16b, v3.16b
	addp	v2.16b, v2.16b, v2.16b
	fmov	x15, d2
	cbnz	x15, .LBB11_41
	add	x15, x10, x13
	sub	x14, x11, x13
.LBB11_20:
	subs	x16, x14, #64
	b.lo	.LBB11_27
	ldp	q2, q3, [x15, #-32]
	add	x13, x13, #64
	ldp	q5, q4, [x15], #64
	mov	x14, x16
	cmeq	v2.16b, v2.16b, v0.16b
	cmeq	v3.16b, v3.16b, v0.16b
	cmeq	v5.16b, v5.16b, v0.16b
	cmeq	v4.16b, v4.16b, v0.16b
	orr	v3.16b, v3.16b, v4.16b
	orr	v2.16b, v2.16b, v5.16b
	and	v2.16b, v2.16b, v1.16b
	and	v3.16b, v3.16b, v1.16b
	addp	v2.16b, v2.16b, v3.16b
	addp	v2.16b, v2.16b, v2.16b
	addp	v2.16b, v2.16b, v2.16b
	fmov	w17, s2
	cbz	w17, .LBB11_20
	b	.LBB11_18
.LBB11_22:
	mov	x13, x14
	cmp	x15, #32
	b.lo	.LBB11_26
.LBB11_23:
	sub	x8, x2, x13
.LBB11_24:
	add	x14, x1, x13
	ldp	q2, q3, [x14]
	cmeq	v3.16b, v3.16b, v0.16b
	cmeq	v2.16b, v2.16b, v0.16b
	and	v2.16b, v2.16b, v1.16b
	and	v3.16b, v3.16b, v1.16b
	addp	v2.16b, v2.16b, v3.16b
	addp	v2.16b, v2.16b, v2.16b
	addp	v2.16b, v2.16b, v2.16b
	fmov	w15, s2
	cbnz	w15, .LBB11_34
	sub	x8, x8, #32
	add	x13, x13, #32
	cmp	x8, #31
	b.hi	.LBB11_24
.LBB11_26:
	ldp	q2, q3, [x9, #-32]
	cmeq	v3.16b, v3.16b, v0.16b
	cmeq	v2.16b, v2.16b, v0.16b
	and	v2.16b, v2.16b, v1.16b
	and	v1.16b, v3.16b, v1.16b
	addp	v1.16b, v2.16b, v1.16b
	b	.LBB11_33
.LBB11_27:
	add	x13, x13, #64
.LBB11_28:
	cmp	x14, #32
	b.lo	.LBB11_32
	sub	x14, x2, x13
.LBB11_30:
	add	x15, x1, x13
	ldr	q3, [x8, :lo12:.LCPI11_0]
	ldp	q1, q2, [x15]
	cmeq	v2.16b, v2.16b, v0.16b
	cmeq	v1.16b, v1.16b, v0.16b
	and	v1.16b, v1.16b, v3.16b
	and	v2.16b, v2.16b, v3.16b
	addp	v1.16b, v1.16b, v2.16b
	addp	v1.16b, v1.16b, v1.16b
	addp	v1.16b, v1.16b, v1.16b
	fmov	w15, s1
	cbnz	w15, .LBB11_34
	sub	x14, x14, #32
	add	x13, x13, #32
	cmp	x14, #31
	b.hi	.LBB11_30
.LBB11_32:
	ldp	q1, q2, [x9, #-32]
	ldr	q3, [x8, :lo12:.LCPI11_0]
	cmeq	v2.16b, v2.16b, v0.16b
	cmeq	v1.16b, v1.16b, v0.16b
	and	v1.16b, v1.16b, v3.16b
	and	v2.16b, v2.16b, v3.16b
	addp	v1.16b, v1.16b, v2.16b
.LBB11_33:
	addp	v1.16b, v1.16b, v1.16b
	sub	x14, x13, x2
	add	x14, x14, #32
	addp	v1.16b, v1.16b, v1.16b
	fmov	w8, s1
	lsr	x15, x8, x14
	mov	x8, x2
	mov	x14, x8
	cbnz	x15, .LBB11_35
	b	.LBB11_37
.LBB11_34:
	add	x14, x13, #32
.LBB11_35:
	rbit	x8, x15
	clz	x16, x8
	add	x8, x16, x13
	ldrb	w17, [x1, x8]
	cmp	w17, w0, uxtb
	b.eq	.LBB11_42
	mov	w8, #1
	lsl	x8, x8, x16
	bics	x15, x15, x8
	b.ne	.LBB11_35
.LBB11_37:
	cmp	x14, x2
	mov	x13, x14
	b.lo	.LBB11_7
	b	.LBB11_5
.LBB11_38:
	and	v6.16b, v6.16b, v1.16b
	and	v7.16b, v7.16b, v1.16b
	sub	x14, x8, #64
	and	v17.16b, v17.16b, v1.16b
	and	v16.16b, v16.16b, v1.16b
	addp	v6.16b, v6.16b, v7.16b
	addp	v7.16b, v17.16b, v16.16b
	addp	v6.16b, v6.16b, v7.16b
	addp	v6.16b, v6.16b, v6.16b
	fmov	x15, d6
	cbz	x15, .LBB11_40
	sub	x13, x8, #128
	b	.LBB11_35
.LBB11_40:
	and	v5.16b, v5.16b, v1.16b
	and	v2.16b, v2.16b, v1.16b
	and	v4.16b, v4.16b, v1.16b
	and	v1.16b, v3.16b, v1.16b
	addp	v2.16b, v5.16b, v2.16b
	addp	v1.16b, v4.16b, v1.16b
	addp	v1.16b, v2.16b, v1.16b
	addp	v1.16b, v1.16b, v1.16b
	fmov	x15, d1
	mov	x13, x14
	mov	x14, x8
	cbnz	x15, .LBB11_35
	b	.LBB11_37
.LBB11_41:
	add	x14, x13, #64
	b	.LBB11_35
.LBB11_42:
	mov	w0, #1
	mov	x1, x8
	ret
.Lfunc_end11:
	.size	memchr.bytes.memchr, .Lfunc_end11-memchr.bytes.memchr

	.section	.rodata.cst16,"aM",@progbits,16
	.p2align	4, 0x0
.LCPI12_0:
	.xword	1
	.xword	3
	.section	.text.link_msg.encoding.canonical,"ax",@progbits
	.p2align	2
	.type	link_msg.encoding.canonical,@function
link_msg.encoding.canonical:
	sub	sp, sp, #224
	stp	x28, x27, [sp, #144]
	subs	x27, x2, #16
	stp	x26, x25, [sp, #160]
	mov	x25, x0
	str	d8, [sp, #112]
	stp	x29, x30, [sp, #128]
	add	x29, sp, #128
	stp	x24, x23, [sp, #176]
	stp	x22, x21, [sp, #192]
	stp	x20, x19, [sp, #208]
	b.hs	.LBB12_2
	mov	x9, xzr
	mov	x8, xzr
	mov	w19, #16
	adrp	x21, .Lstatic.19
	add	x21, x21, :lo12:.Lstatic.19
	mov	w20, #6
	b	.LBB12_167
.LBB12_2:
	mov	x20, x1
	ldrb	w28, [x20], #16
	cmp	w28, #6
	b.le	.LBB12_7
	cmp	w28, #7
	b.eq	.LBB12_10
	cmp	w28, #10
	b.eq	.LBB12_14
	cmp	w28, #45
	b.ne	.LBB12_18
	mov	w28, #4
	ldrh	w0, [x1, #2]
	ldr	w8, [x1, #4]
	cmp	w0, #32
	str	w8, [sp, #20]
	b.ls	.LBB12_16
	b	.LBB12_11
.LBB12_7:
	cbz	w28, .LBB12_15
	cmp	w28, #2
	b.ne	.LBB12_18
	mov	w28, #1
	ldrh	w0, [x1, #2]
	ldr	w8, [x1, #4]
	cmp	w0, #32
	str	w8, [sp, #20]
	b.ls	.LBB12_16
	b	.LBB12_11
.LBB12_10:
	mov	w28, #2
	ldrh	w0, [x1, #2]
	ldr	w8, [x1, #4]
	cmp	w0, #32
	str	w8, [sp, #20]
	b.ls	.LBB12_16
.LBB12_11:
	sub	w8, w0, #256
	cmp	w8, #34
	b.hi	.LBB12_32
	adrp	x9, .LJTI12_1
	add	x9, x9, :lo12:.LJTI12_1
	adr	x10, .LBB12_13
	ldrb	w11, [x9, x8]
	add	x10, x10, x11, lsl #2
	br	x10
.LBB12_13:
	mov	w0, #15
	b	.LBB12_43
.LBB12_14:
	mov	w28, #3
.LBB12_15:
	ldrh	w0, [x1, #2]
	ldr	w8, [x1, #4]
	cmp	w0, #32
	str	w8, [sp, #20]
	b.hi	.LBB12_11
.LBB12_16:
	adrp	x8, .LJTI12_0
	add	x8, x8, :lo12:.LJTI12_0
	adr	x9, .LBB12_17
	ldrb	w10, [x8, x0]
	add	x9, x9, x10, lsl #2
	br	x9
.LBB12_17:
	mov	w0, #1
	b	.LBB12_43
.LBB12_18:
	mov	w8, #5
	orr	x28, x8, x28, lsl #8
	ldrh	w0, [x1, #2]
	ldr	w8, [x1, #4]
	cmp	w0, #32
	str	w8, [sp, #20]
	b.ls	.LBB12_16
	b	.LBB12_11
.LBB12_19:
	mov	w0, #14
	b	.LBB12_43
.LBB12_20:
	mov	w0, #11
	b	.LBB12_43
.LBB12_21:
	mov	w0, #7
	b	.LBB12_43
.LBB12_22:
	mov	w0, #13
	b	.LBB12_43
.LBB12_23:
	mov	w0, #5
	b	.LBB12_43
.LBB12_24:
	mov	w0, #3
	b	.LBB12_43
.LBB12_25:
	mov	w0, #9
	b	.LBB12_43
.LBB12_26:
	mov	w0, #10
	b	.LBB12_43
.LBB12_27:
	mov	w0, #2
	b	.LBB12_43
.LBB12_28:
	mov	w0, #4
	b	.LBB12_43
.LBB12_29:
	mov	w0, #6
	b	.LBB12_43
.LBB12_30:
	mov	w0, #8
	b	.LBB12_43
.LBB12_31:
	mov	w0, #12
	b	.LBB12_43
.LBB12_32:
	mov	x19, x1
	bl	link_vals.link_layer_type.high
	mov	x1, x19
	and	x0, x0, #0xff
	b	.LBB12_43
.LBB12_33:
	mov	w0, #23
	b	.LBB12_43
.LBB12_34:
	mov	w0, #22
	b	.LBB12_43
.LBB12_35:
	mov	w0, #18
	b	.LBB12_43
.LBB12_36:
	mov	w0, #20
	b	.LBB12_43
.LBB12_37:
	mov	w0, #21
	b	.LBB12_43
.LBB12_38:
	mov	w0, #16
	b	.LBB12_43
.LBB12_39:
	mov	w0, #25
	b	.LBB12_43
.LBB12_40:
	mov	w0, #17
	b	.LBB12_43
.LBB12_41:
	mov	w0, #24
	b	.LBB12_43
.LBB12_42:
	mov	w0, #19
.LBB12_43:
	ldr	d8, [x1, #8]
	mov	x23, xzr
	str	x0, [sp, #8]
	stur	x25, [x29, #-8]
	str	x1, [sp, #24]
	cbz	x27, .LBB12_76
	mov	x24, xzr
	and	w19, w28, #0xfffe
	mov	x21, x27
	mov	x22, x20
.LBB12_45:
	sub	x21, x21, x24
	cmp	x21, #4
	b.lo	.LBB12_76
	add	x22, x22, x24
	ldrh	w25, [x22]
	cmp	w25, #4
	b.lo	.LBB12_76
	cmp	x21, x25
	b.lo	.LBB12_76
	add	w8, w25, #3
	and	x24, x8, #0x1fffc
	sub	x8, x27, x23
	cmp	x24, x8
	b.hi	.LBB12_76
	ldrb	w8, [x22, #2]
	sub	x11, x24, x25
	ldrb	w9, [x22, #3]
	add	x10, x20, x23
	cmp	x11, #3
	add	x10, x10, x25
	b.eq	.LBB12_55
	cmp	x11, #2
	b.eq	.LBB12_53
	cmp	x11, #1
	b.ne	.LBB12_58
	ldrb	w10, [x10]
	cbz	w10, .LBB12_58
	b	.LBB12_76
.LBB12_53:
	ldrb	w11, [x10]
	cbnz	w11, .LBB12_76
	ldrb	w10, [x10, #1]
	cbz	w10, .LBB12_58
	b	.LBB12_76
.LBB12_55:
	ldrb	w11, [x10]
	cbnz	w11, .LBB12_76
	ldrb	w11, [x10, #1]
	cbnz	w11, .LBB12_76
	ldrb	w10, [x10, #2]
	cbnz	w10, .LBB12_76
.LBB12_58:
	cmp	w9, #63
	b.hi	.LBB12_76
	lsl	w9, w9, #8
	sub	x1, x25, #4
	sub	x26, x25, #4
	and	w9, w9, #0x3f00
	orr	w8, w9, w8
	cbnz	x1, .LBB12_61
	cmp	w8, #24
	b.eq	.LBB12_76
.LBB12_61:
	sub	w8, w8, #1
	cmp	w8, #68
	b.hi	.LBB12_66
	adrp	x9, .LJTI12_2
	add	x9, x9, :lo12:.LJTI12_2
	adr	x10, .LBB12_63
	ldrb	w11, [x9, x8]
	add	x10, x10, x11, lsl #2
	mov	w8, #1
	br	x10
.LBB12_63:
	cmp	x26, #4
	cset	w8, eq
	csel	x1, x26, xzr, eq
.LBB12_64:
	cbz	w8, .LBB12_76
	cmp	x1, x26
	b.ne	.LBB12_76
.LBB12_66:
	sub	x8, x25, #1
	cmp	x21, x24
	and	x8, x8, #0xfffffffffffffffc
	add	x8, x23, x8
	add	x23, x8, #4
	b.hi	.LBB12_45
	b	.LBB12_76
.LBB12_67:
	add	x0, x22, #4
	sub	x1, x25, #4
	bl	nla_wire.payload.measure_text
	and	w8, w0, #0xff
	cmp	w8, #1
	cset	w8, eq
	b	.LBB12_64
.LBB12_68:
	cmp	x26, #1
	cset	w8, eq
	mov	x1, x8
	b	.LBB12_64
.LBB12_69:
	cmp	x26, #2
	b.ne	.LBB12_66
	mov	w8, #1
	mov	w1, #2
	b	.LBB12_64
.LBB12_71:
	and	w9, w28, #0xff
	sub	w8, w9, #3
	cmp	w8, #3
	mov	w8, #1
	b.lo	.LBB12_64
	cmp	w9, #1
	b.eq	.LBB12_64
	b	.LBB12_76
.LBB12_73:
	and	w8, w19, #0xff
	cmp	w8, #2
	b.ne	.LBB12_66
	b	.LBB12_76
.LBB12_74:
	mov	w8, #1
	mov	w1, #200
	b	.LBB12_64
.LBB12_75:
	mov	w8, #1
	mov	w1, #96
	b	.LBB12_64
.LBB12_76:
	subs	x24, x27, x23
	str	x28, [sp, #32]
	str	x24, [sp]
	b.eq	.LBB12_116
	mov	w28, wzr
	mov	x21, xzr
	mov	x8, xzr
	add	x25, x20, x23
.LBB12_78:
	sub	x24, x24, x8
	cmp	x24, #4
	b.lo	.LBB12_118
	add	x25, x25, x8
	ldrh	w22, [x25]
	cmp	w22, #4
	b.lo	.LBB12_118
	cmp	x24, x22
	b.lo	.LBB12_118
	ldrb	w19, [x25, #2]
	ldrb	w8, [x25, #3]
	sub	x1, x22, #4
	bfi	w19, w8, #8, #6
	sub	w8, w19, #3
	cmp	w8, #66
	b.hi	.LBB12_113
	adrp	x9, .LJTI12_3
	add	x9, x9, :lo12:.LJTI12_3
	adr	x10, .LBB12_83
	ldrb	w11, [x9, x8]
	add	x10, x10, x11, lsl #2
	br	x10
.LBB12_83:
	cmp	x1, #4
	b.eq	.LBB12_113
	b	.LBB12_118
.LBB12_84:
	add	x0, x25, #4
	sub	x1, x22, #4
	bl	nla_wire.payload.measure_text
	and	w8, w0, #0xff
	cmp	w8, #1
	b.eq	.LBB12_113
	b	.LBB12_118
.LBB12_85:
	cmp	x1, #1
	b.eq	.LBB12_113
	b	.LBB12_118
.LBB12_86:
	cmp	x1, #2
	b.ne	.LBB12_113
	mov	w1, #2
	b	.LBB12_113
.LBB12_88:
	cmp	x1, #32
	mov	w8, #32
	csel	x1, x1, x8, lo
	b	.LBB12_113
.LBB12_89:
	add	x0, x25, #4
	sub	x1, x22, #4
	bl	nla_wire.members.measure_each.5fa77b269143286c
	and	w8, w0, #0xff
	cmp	w8, #1
	b.eq	.LBB12_112
	b	.LBB12_118
.LBB12_90:
	add	x0, x25, #4
	sub	x1, x22, #4
	bl	nla_wire.members.measure_each.f7f30aae703aa44d
	and	w8, w0, #0xff
	cmp	w8, #1
	b.eq	.LBB12_112
	b	.LBB12_118
.LBB12_91:
	cbz	x1, .LBB12_118
	add	x0, x25, #4
	sub	x1, x22, #4
	bl	nla_wire.members.measure_each.79503c7a397af21a
	and	w8, w0, #0xff
	cmp	w8, #1
	b.eq	.LBB12_112
	b	.LBB12_118
.LBB12_93:
	add	x0, x25, #4
	sub	x1, x22, #4
	bl	nla_wire.members.measure_each.3bb4c8661a1029f4
	and	w8, w0, #0xff
	cmp	w8, #1
	b.eq	.LBB12_112
	b	.LBB12_118
.LBB12_94:
	cbz	x1, .LBB12_118
	add	x0, x25, #4
	sub	x1, x22, #4
	bl	nla_wire.members.measure_each.49064c0641319ce4
	and	w8, w0, #0xff
	cmp	w8, #1
	b.eq	.LBB12_112
	b	.LBB12_118
.LBB12_96:
	cmp	w22, #11
	b.hi	.LBB12_113
	b	.LBB12_118
.LBB12_97:
	mov	w1, #200
	b	.LBB12_113
.LBB12_98:
	ldr	x8, [sp, #32]
	and	w8, w8, #0xff
	cmp	w8, #2
	b.gt	.LBB12_113
	cbz	w8, .LBB12_115
	cmp	w8, #1
	b.eq	.LBB12_113
	b	.LBB12_108
.LBB12_101:
	add	x0, x25, #4
	sub	x1, x22, #4
	bl	nla_wire.members.measure_each.16a873d75d6df2a1
	and	w8, w0, #0xff
	cmp	w8, #1
	b.eq	.LBB12_112
	b	.LBB12_118
.LBB12_102:
	cbz	x1, .LBB12_118
	add	x0, x25, #4
	sub	x1, x22, #4
	bl	nla_wire.members.measure_each.8ba1f663fcd59a5e
	and	w8, w0, #0xff
	cmp	w8, #1
	b.eq	.LBB12_112
	b	.LBB12_118
.LBB12_104:
	cmp	w22, #35
	b.ls	.LBB12_118
	mov	w1, #32
	b	.LBB12_113
.LBB12_106:
	ldr	x8, [sp, #32]
	mov	w9, #1
	mov	w10, #51
	and	w8, w8, #0xff
	lsl	w9, w9, w8
	tst	w9, w10
	b.ne	.LBB12_113
	cmp	w8, #2
.LBB12_108:
	cbz	x1, .LBB12_118
	add	x0, x25, #4
	sub	x1, x22, #4
	bl	nla_wire.members.measure_each.1f0cb788f492ced5
	and	w8, w0, #0xff
	cmp	w8, #1
	b.eq	.LBB12_112
	b	.LBB12_118
.LBB12_110:
	mov	w1, #96
	b	.LBB12_113
.LBB12_111:
	add	x0, x25, #4
	sub	x1, x22, #4
	bl	nla_wire.members.measure_each.b30b196c481b950e
	and	w8, w0, #0xff
	cmp	w8, #1
	b.ne	.LBB12_118
.LBB12_112:
	mov	w8, #65532
	cmp	x1, x8
	b.hs	.LBB12_118
.LBB12_113:
	add	x8, x1, #3
	and	x8, x8, #0xfffffffffffffffc
	add	x8, x21, x8
	add	x26, x8, #4
	cmp	x26, x21
	b.lo	.LBB12_118
	cmp	w19, #24
	add	w8, w22, #3
	mov	x21, x26
	ccmp	x1, #0, #0, eq
	and	x8, x8, #0x1fffc
	cset	w9, eq
	cmp	x24, x8
	orr	w28, w9, w28
	b.hi	.LBB12_78
	b	.LBB12_117
.LBB12_115:
	add	x0, x25, #4
	sub	x1, x22, #4
	bl	nla_wire.members.measure_each.6cf1decf0b22dc4b
	and	w8, w0, #0xff
	cmp	w8, #1
	b.eq	.LBB12_112
	b	.LBB12_118
.LBB12_116:
	mov	x26, xzr
	mov	w28, wzr
.LBB12_117:
	adds	x8, x26, x23
	b.lo	.LBB12_152
.LBB12_118:
	movi	v0.2d, #0000000000000000
	ldur	x25, [x29, #-8]
	ldr	x26, [sp, #32]
	stp	q0, q0, [sp, #64]
	str	q0, [sp, #96]
	cbz	x27, .LBB12_154
	add	x9, sp, #40
	mov	x8, xzr
	orr	x19, x9, #0x2
	b	.LBB12_122
.LBB12_120:
	add	x0, sp, #64
	add	x2, sp, #40
	mov	w1, w26
	strh	w22, [sp, #40]
	str	wzr, [x19]
	strh	wzr, [x19, #4]
	stp	x23, x24, [sp, #48]
	bl	nla_wire.place.check_one.c4c48bc1b6cb0726
	ldrb	w8, [sp, #64]
	cbnz	w8, .LBB12_175
.LBB12_121:
	add	w8, w21, #3
	and	x8, x8, #0x1fffc
	cmp	x27, x8
	b.ls	.LBB12_154
.LBB12_122:
	sub	x27, x27, x8
	cmp	x27, #4
	b.lo	.LBB12_157
	add	x20, x20, x8
	ldrh	w21, [x20]
	cmp	x27, x21
	b.lo	.LBB12_158
	cmp	w21, #3
	b.ls	.LBB12_159
	ldrh	w22, [x20, #2]
	and	w8, w22, #0x3fff
	sub	w8, w8, #3
	cmp	w8, #64
	b.hi	.LBB12_121
	adrp	x9, .LJTI12_4
	add	x9, x9, :lo12:.LJTI12_4
	add	x23, x20, #4
	adr	x10, .LBB12_121
	ldrb	w11, [x9, x8]
	add	x10, x10, x11, lsl #2
	sub	x24, x21, #4
	br	x10
.LBB12_127:
	cmp	x24, #4
	b.eq	.LBB12_121
	b	.LBB12_120
.LBB12_128:
	add	x0, x20, #4
	sub	x1, x21, #4
	bl	nla_wire.payload.measure_text
	and	w8, w0, #0xff
	cmp	w8, #1
	b.ne	.LBB12_120
	b	.LBB12_121
.LBB12_129:
	cmp	x24, #1
	b.ne	.LBB12_120
	b	.LBB12_121
.LBB12_130:
	add	x0, x20, #4
	sub	x1, x21, #4
	bl	nla_wire.members.measure_each.f7f30aae703aa44d
	and	w8, w0, #0xff
	cmp	w8, #1
	b.eq	.LBB12_150
	b	.LBB12_120
.LBB12_131:
	add	x0, x20, #4
	sub	x1, x21, #4
	bl	nla_wire.members.measure_each.b30b196c481b950e
	and	w8, w0, #0xff
	cmp	w8, #1
	b.eq	.LBB12_150
	b	.LBB12_120
.LBB12_132:
	add	x0, x20, #4
	sub	x1, x21, #4
	bl	nla_wire.members.measure_each.5fa77b269143286c
	and	w8, w0, #0xff
	cmp	w8, #1
	b.eq	.LBB12_150
	b	.LBB12_120
.LBB12_133:
	cbz	x24, .LBB12_120
	add	x0, x20, #4
	sub	x1, x21, #4
	bl	nla_wire.members.measure_each.8ba1f663fcd59a5e
	and	w8, w0, #0xff
	cmp	w8, #1
	b.eq	.LBB12_150
	b	.LBB12_120
.LBB12_135:
	cmp	w21, #35
	b.ls	.LBB12_120
	b	.LBB12_121
.LBB12_136:
	cmp	w21, #11
	b.ls	.LBB12_120
	b	.LBB12_121
.LBB12_137:
	cbz	x24, .LBB12_120
	add	x0, x20, #4
	sub	x1, x21, #4
	bl	nla_wire.members.measure_each.49064c0641319ce4
	and	w8, w0, #0xff
	cmp	w8, #1
	b.eq	.LBB12_150
	b	.LBB12_120
.LBB12_139:
	and	w8, w26, #0xff
	cmp	w8, #2
	b.gt	.LBB12_121
	cbz	w8, .LBB12_151
	cmp	w8, #1
	b.eq	.LBB12_121
	b	.LBB12_145
.LBB12_142:
	add	x0, x20, #4
	sub	x1, x21, #4
	bl	nla_wire.members.measure_each.3bb4c8661a1029f4
	and	w8, w0, #0xff
	cmp	w8, #1
	b.eq	.LBB12_150
	b	.LBB12_120
.LBB12_143:
	and	w8, w26, #0xff
	mov	w9, #1
	mov	w10, #51
	lsl	w9, w9, w8
	tst	w9, w10
	b.ne	.LBB12_121
	cmp	w8, #2
.LBB12_145:
	cbz	x24, .LBB12_120
	add	x0, x20, #4
	sub	x1, x21, #4
	bl	nla_wire.members.measure_each.1f0cb788f492ced5
	and	w8, w0, #0xff
	cmp	w8, #1
	b.eq	.LBB12_150
	b	.LBB12_120
.LBB12_147:
	cbz	x24, .LBB12_120
	add	x0, x20, #4
	sub	x1, x21, #4
	bl	nla_wire.members.measure_each.79503c7a397af21a
	and	w8, w0, #0xff
	cmp	w8, #1
	b.eq	.LBB12_150
	b	.LBB12_120
.LBB12_149:
	add	x0, x20, #4
	sub	x1, x21, #4
	bl	nla_wire.members.measure_each.16a873d75d6df2a1
	and	w8, w0, #0xff
	cmp	w8, #1
	b.ne	.LBB12_120
.LBB12_150:
	mov	w8, #65532
	cmp	x1, x8
	b.lo	.LBB12_121
	b	.LBB12_120
.LBB12_151:
	add	x0, x20, #4
	sub	x1, x21, #4
	bl	nla_wire.members.measure_each.6cf1decf0b22dc4b
	and	w8, w0, #0xff
	cmp	w8, #1
	b.eq	.LBB12_150
	b	.LBB12_120
.LBB12_152:
	cmn	x8, #17
	b.ls	.LBB12_155
	ldur	x25, [x29, #-8]
.LBB12_154:
	mov	x21, xzr
	mov	x20, xzr
	mov	x8, xzr
	mov	x2, xzr
	mov	x19, xzr
	mov	w9, #1
	b	.LBB12_167
.LBB12_155:
	ldur	x25, [x29, #-8]
	tbz	w28, #0, .LBB12_169
	mov	x21, xzr
	mov	x20, xzr
	mov	x8, xzr
	mov	x2, xzr
	mov	x19, xzr
	mov	w9, #2
	b	.LBB12_167
.LBB12_157:
	mov	w22, #1
	b	.LBB12_161
.LBB12_158:
	mov	w8, #2
	b	.LBB12_160
.LBB12_159:
	mov	w8, #3
	mov	x27, xzr
.LBB12_160:
	orr	x22, x8, x21, lsl #16
.LBB12_161:
	adrp	x9, .Lstatic.20
	add	x9, x9, :lo12:.Lstatic.20
	mov	x19, xzr
	lsr	x8, x9, #16
	ubfx	w10, w9, #8, #8
	mov	w20, #7
.LBB12_162:
	mov	w10, w10
	adrp	x2, .Lstatic.20
	add	x2, x2, :lo12:.Lstatic.20
	and	x9, x9, #0xff
	mov	x1, x20
	mov	w3, #7
	orr	x9, x9, x10, lsl #8
	orr	x21, x9, x8, lsl #16
	mov	x0, x21
	bl	core.cmp.text.RefStrPartialEq.eq
	cbz	w0, .LBB12_165
	mov	x10, xzr
	mov	x8, xzr
	mov	w20, #7
	adrp	x21, .Lstatic.21
	add	x21, x21, :lo12:.Lstatic.21
	and	x9, x22, #0xff
	cmp	x9, #8
	b.eq	.LBB12_166
.LBB12_164:
	and	x11, x22, #0xffffffff
	and	x10, x10, #0xff00
	mov	x2, x27
	and	x11, x11, #0xffffffffffff00ff
	mov	x9, xzr
	orr	x10, x10, x11
	orr	x8, x10, x8
	b	.LBB12_167
.LBB12_165:
	and	x8, x22, #0xffffffff00000000
	mov	x10, x22
	and	x9, x22, #0xff
	cmp	x9, #8
	b.ne	.LBB12_164
.LBB12_166:
	mov	x21, xzr
	mov	x20, xzr
	mov	x8, xzr
	mov	x2, xzr
	mov	x19, xzr
	mov	w9, #3
.LBB12_167:
	mov	w10, #1
	stp	x21, x20, [x25, #16]
	stp	x10, x9, [x25]
	stp	x8, x2, [x25, #32]
	str	x19, [x25, #48]
.LBB12_168:
	ldp	x20, x19, [sp, #208]
	ldr	d8, [sp, #112]
	ldp	x22, x21, [sp, #192]
	ldp	x24, x23, [sp, #176]
	ldp	x26, x25, [sp, #160]
	ldp	x28, x27, [sp, #144]
	ldp	x29, x30, [sp, #128]
	add	sp, sp, #224
	ret
.LBB12_169:
	adds	x28, x8, #16
	b.mi	.LBB12_176
	mov	x0, x28
	mov	w1, #1
	bl	rattle_alloc
	tbz	w0, #0, .LBB12_176
	ldr	x22, [sp, #32]
	mov	x27, x1
	and	w9, w22, #0xff
	cmp	w9, #2
	b.gt	.LBB12_177
	ldp	x24, x10, [sp]
	mov	w8, w22
	ldr	x13, [sp, #24]
	ldr	w11, [sp, #20]
	cbz	w9, .LBB12_183
	cmp	w9, #1
	b.ne	.LBB12_181
	mov	w8, #2
	b	.LBB12_183
.LBB12_175:
	ldrh	w8, [sp, #78]
	ldur	w11, [sp, #74]
	ldrb	w9, [sp, #72]
	ldp	x20, x22, [sp, #80]
	ldrb	w10, [sp, #73]
	orr	x8, x11, x8, lsl #32
	ldp	x27, x19, [sp, #96]
	b	.LBB12_162
.LBB12_176:
	movi	v0.2d, #0000000000000000
	adrp	x8, .LCPI12_0
	str	xzr, [x25, #48]
	ldr	q1, [x8, :lo12:.LCPI12_0]
	stp	q1, q0, [x25]
	str	q0, [x25, #32]
	b	.LBB12_168
.LBB12_177:
	ldp	x24, x10, [sp]
	cmp	w9, #3
	ldr	x13, [sp, #24]
	ldr	w11, [sp, #20]
	b.eq	.LBB12_180
	cmp	w9, #4
	b.ne	.LBB12_182
	mov	w8, #45
	b	.LBB12_183
.LBB12_180:
	mov	w8, #10
	b	.LBB12_183
.LBB12_181:
	mov	w8, #7
	b	.LBB12_183
.LBB12_182:
	lsr	x8, x22, #8
.LBB12_183:
	adrp	x9, .Lswitch.table.line_filter.answers.AnsweringTake.take.d1b9b744fe2e7f64
	add	x9, x9, :lo12:.Lswitch.table.line_filter.answers.AnsweringTake.take.d1b9b744fe2e7f64
	and	w8, w8, #0xff
	ldrh	w9, [x9, x10, lsl #1]
	add	x10, x27, #16
	strh	w8, [x27]
	sub	x8, x10, x20
	add	x19, x23, #16
	str	w11, [x27, #4]
	cmp	x8, x23
	strh	w9, [x27, #2]
	str	d8, [x27, #8]
	b.hs	.LBB12_188
	cmp	x23, #8
	mov	x8, xzr
	b.lo	.LBB12_196
	sub	x9, x27, x13
	cmp	x9, #32
	b.lo	.LBB12_196
	cmp	x23, #32
	b.hs	.LBB12_189
	mov	x8, xzr
	b	.LBB12_193
.LBB12_188:
	add	x0, x27, #16
	mov	x1, x20
	mov	x2, x23
	bl	memmove
	b	.LBB12_198
.LBB12_189:
	and	x9, x23, #0x18
	and	x8, x23, #0xffffffffffffffe0
	add	x10, x13, #32
	add	x11, x27, #32
	and	x12, x23, #0xffffffffffffffe0
.LBB12_190:
	ldp	q0, q1, [x10, #-16]
	subs	x12, x12, #32
	add	x10, x10, #32
	stp	q0, q1, [x11, #-16]
	add	x11, x11, #32
	b.ne	.LBB12_190
	cmp	x23, x8
	b.eq	.LBB12_198
	cbz	x9, .LBB12_196
.LBB12_193:
	mov	x9, x8
	and	x8, x23, #0xfffffffffffffff8
	add	x11, x9, #16
	sub	x9, x9, x8
	add	x10, x13, x11
	add	x11, x27, x11
.LBB12_194:
	ldr	d0, [x10], #8
	adds	x9, x9, #8
	str	d0, [x11], #8
	b.ne	.LBB12_194
	cmp	x23, x8
	b.eq	.LBB12_198
.LBB12_196:
	add	x10, x8, #16
	sub	x8, x23, x8
	add	x9, x13, x10
	add	x10, x27, x10
.LBB12_197:
	ldrb	w11, [x9], #1
	subs	x8, x8, #1
	strb	w11, [x10], #1
	b.ne	.LBB12_197
.LBB12_198:
	cmp	x28, x19
	mov	x21, x28
	b.ls	.LBB12_201
	add	x21, x19, x26
	cmp	x19, x21
	b.hs	.LBB12_201
	add	x0, x27, x19
	mov	w1, wzr
	mov	x2, x26
	bl	memset
.LBB12_201:
	sub	x4, x21, x19
	add	x1, x20, x23
	add	x3, x27, x19
	mov	w0, w22
	mov	x2, x24
	bl	nla_wire.members.write_each.c4c48bc1b6cb0726
	stp	xzr, x27, [x25]
	stp	x21, x28, [x25, #16]
	stp	xzr, xzr, [x25, #40]
	str	xzr, [x25, #32]
	b	.LBB12_168
.Lfunc_end12:
	.size	link_msg.encoding.canonical, .Lfunc_end12-link_msg.encoding.canonical
	.section	.rodata.link_msg.encoding.canonical,"a",@progbits
.LJTI12_0:
	.byte	(.LBB12_43-.LBB12_17)>>2
	.byte	(.LBB12_17-.LBB12_17)>>2
	.byte	(.LBB12_27-.LBB12_17)>>2
	.byte	(.LBB12_24-.LBB12_17)>>2
	.byte	(.LBB12_28-.LBB12_17)>>2
	.byte	(.LBB12_23-.LBB12_17)>>2
	.byte	(.LBB12_29-.LBB12_17)>>2
	.byte	(.LBB12_21-.LBB12_17)>>2
	.byte	(.LBB12_30-.LBB12_17)>>2
	.byte	(.LBB12_32-.LBB12_17)>>2
	.byte	(.LBB12_32-.LBB12_17)>>2
	.byte	(.LBB12_32-.LBB12_17)>>2
	.byte	(.LBB12_32-.LBB12_17)>>2
	.byte	(.LBB12_32-.LBB12_17)>>2
	.byte	(.LBB12_32-.LBB12_17)>>2
	.byte	(.LBB12_25-.LBB12_17)>>2
	.byte	(.LBB12_32-.LBB12_17)>>2
	.byte	(.LBB12_32-.LBB12_17)>>2
	.byte	(.LBB12_32-.LBB12_17)>>2
	.byte	(.LBB12_26-.LBB12_17)>>2
	.byte	(.LBB12_32-.LBB12_17)>>2
	.byte	(.LBB12_32-.LBB12_17)>>2
	.byte	(.LBB12_32-.LBB12_17)>>2
	.byte	(.LBB12_20-.LBB12_17)>>2
	.byte	(.LBB12_31-.LBB12_17)>>2
	.byte	(.LBB12_32-.LBB12_17)>>2
	.byte	(.LBB12_32-.LBB12_17)>>2
	.byte	(.LBB12_22-.LBB12_17)>>2
	.byte	(.LBB12_32-.LBB12_17)>>2
	.byte	(.LBB12_32-.LBB12_17)>>2
	.byte	(.LBB12_32-.LBB12_17)>>2
	.byte	(.LBB12_32-.LBB12_17)>>2
	.byte	(.LBB12_19-.LBB12_17)>>2
.LJTI12_1:
	.byte	(.LBB12_13-.LBB12_13)>>2
	.byte	(.LBB12_38-.LBB12_13)>>2
	.byte	(.LBB12_40-.LBB12_13)>>2
	.byte	(.LBB12_35-.LBB12_13)>>2
	.byte	(.LBB12_42-.LBB12_13)>>2
	.byte	(.LBB12_32-.LBB12_13)>>2
	.byte	(.LBB12_32-.LBB12_13)>>2
	.byte	(.LBB12_32-.LBB12_13)>>2
	.byte	(.LBB12_36-.LBB12_13)>>2
	.byte	(.LBB12_32-.LBB12_13)>>2
	.byte	(.LBB12_32-.LBB12_13)>>2
	.byte	(.LBB12_32-.LBB12_13)>>2
	.byte	(.LBB12_32-.LBB12_13)>>2
	.byte	(.LBB12_32-.LBB12_13)>>2
	.byte	(.LBB12_37-.LBB12_13)>>2
	.byte	(.LBB12_34-.LBB12_13)>>2
	.byte	(.LBB12_33-.LBB12_13)>>2
	.byte	(.LBB12_32-.LBB12_13)>>2
	.byte	(.LBB12_32-.LBB12_13)>>2
	.byte	(.LBB12_32-.LBB12_13)>>2
	.byte	(.LBB12_32-.LBB12_13)>>2
	.byte	(.LBB12_32-.LBB12_13)>>2
	.byte	(.LBB12_32-.LBB12_13)>>2
	.byte	(.LBB12_32-.LBB12_13)>>2
	.byte	(.LBB12_41-.LBB12_13)>>2
	.byte	(.LBB12_32-.LBB12_13)>>2
	.byte	(.LBB12_32-.LBB12_13)>>2
	.byte	(.LBB12_32-.LBB12_13)>>2
	.byte	(.LBB12_32-.LBB12_13)>>2
	.byte	(.LBB12_32-.LBB12_13)>>2
	.byte	(.LBB12_32-.LBB12_13)>>2
	.byte	(.LBB12_32-.LBB12_13)>>2
	.byte	(.LBB12_32-.LBB12_13)>>2
	.byte	(.LBB12_32-.LBB12_13)>>2
	.byte	(.LBB12_39-.LBB12_13)>>2
.LJTI12_2:
	.byte	(.LBB12_64-.LBB12_63)>>2
	.byte	(.LBB12_64-.LBB12_63)>>2
	.byte	(.LBB12_67-.LBB12_63)>>2
	.byte	(.LBB12_63-.LBB12_63)>>2
	.byte	(.LBB12_63-.LBB12_63)>>2
	.byte	(.LBB12_67-.LBB12_63)>>2
	.byte	(.LBB12_75-.LBB12_63)>>2
	.byte	(.LBB12_66-.LBB12_63)>>2
	.byte	(.LBB12_66-.LBB12_63)>>2
	.byte	(.LBB12_63-.LBB12_63)>>2
	.byte	(.LBB12_76-.LBB12_63)>>2
	.byte	(.LBB12_73-.LBB12_63)>>2
	.byte	(.LBB12_63-.LBB12_63)>>2
	.byte	(.LBB12_76-.LBB12_63)>>2
	.byte	(.LBB12_66-.LBB12_63)>>2
	.byte	(.LBB12_68-.LBB12_63)>>2
	.byte	(.LBB12_68-.LBB12_63)>>2
	.byte	(.LBB12_76-.LBB12_63)>>2
	.byte	(.LBB12_63-.LBB12_63)>>2
	.byte	(.LBB12_67-.LBB12_63)>>2
	.byte	(.LBB12_63-.LBB12_63)>>2
	.byte	(.LBB12_76-.LBB12_63)>>2
	.byte	(.LBB12_74-.LBB12_63)>>2
	.byte	(.LBB12_76-.LBB12_63)>>2
	.byte	(.LBB12_76-.LBB12_63)>>2
	.byte	(.LBB12_71-.LBB12_63)>>2
	.byte	(.LBB12_63-.LBB12_63)>>2
	.byte	(.LBB12_63-.LBB12_63)>>2
	.byte	(.LBB12_63-.LBB12_63)>>2
	.byte	(.LBB12_63-.LBB12_63)>>2
	.byte	(.LBB12_63-.LBB12_63)>>2
	.byte	(.LBB12_63-.LBB12_63)>>2
	.byte	(.LBB12_68-.LBB12_63)>>2
	.byte	(.LBB12_76-.LBB12_63)>>2
	.byte	(.LBB12_63-.LBB12_63)>>2
	.byte	(.LBB12_76-.LBB12_63)>>2
	.byte	(.LBB12_63-.LBB12_63)>>2
	.byte	(.LBB12_67-.LBB12_63)>>2
	.byte	(.LBB12_68-.LBB12_63)>>2
	.byte	(.LBB12_63-.LBB12_63)>>2
	.byte	(.LBB12_63-.LBB12_63)>>2
	.byte	(.LBB12_66-.LBB12_63)>>2
	.byte	(.LBB12_76-.LBB12_63)>>2
	.byte	(.LBB12_63-.LBB12_63)>>2
	.byte	(.LBB12_63-.LBB12_63)>>2
	.byte	(.LBB12_63-.LBB12_63)>>2
	.byte	(.LBB12_63-.LBB12_63)>>2
	.byte	(.LBB12_63-.LBB12_63)>>2
	.byte	(.LBB12_63-.LBB12_63)>>2
	.byte	(.LBB12_63-.LBB12_63)>>2
	.byte	(.LBB12_63-.LBB12_63)>>2
	.byte	(.LBB12_76-.LBB12_63)>>2
	.byte	(.LBB12_66-.LBB12_63)>>2
	.byte	(.LBB12_64-.LBB12_63)>>2
	.byte	(.LBB12_76-.LBB12_63)>>2
	.byte	(.LBB12_67-.LBB12_63)>>2
	.byte	(.LBB12_67-.LBB12_63)>>2
	.byte	(.LBB12_63-.LBB12_63)>>2
	.byte	(.LBB12_63-.LBB12_63)>>2
	.byte	(.LBB12_63-.LBB12_63)>>2
	.byte	(.LBB12_63-.LBB12_63)>>2
	.byte	(.LBB12_76-.LBB12_63)>>2
	.byte	(.LBB12_63-.LBB12_63)>>2
	.byte	(.LBB12_63-.LBB12_63)>>2
	.byte	(.LBB12_76-.LBB12_63)>>2
	.byte	(.LBB12_66-.LBB12_63)>>2
	.byte	(.LBB12_76-.LBB12_63)>>2
	.byte	(.LBB12_69-.LBB12_63)>>2
	.byte	(.LBB12_69-.LBB12_63)>>2
.LJTI12_3:
	.byte	(.LBB12_84-.LBB12_83)>>2
	.byte	(.LBB12_83-.LBB12_83)>>2
	.byte	(.LBB12_83-.LBB12_83)>>2
	.byte	(.LBB12_84-.LBB12_83)>>2
	.byte	(.LBB12_110-.LBB12_83)>>2
	.byte	(.LBB12_113-.LBB12_83)>>2
	.byte	(.LBB12_113-.LBB12_83)>>2
	.byte	(.LBB12_83-.LBB12_83)>>2
	.byte	(.LBB12_96-.LBB12_83)>>2
	.byte	(.LBB12_106-.LBB12_83)>>2
	.byte	(.LBB12_83-.LBB12_83)>>2
	.byte	(.LBB12_104-.LBB12_83)>>2
	.byte	(.LBB12_113-.LBB12_83)>>2
	.byte	(.LBB12_85-.LBB12_83)>>2
	.byte	(.LBB12_85-.LBB12_83)>>2
	.byte	(.LBB12_94-.LBB12_83)>>2
	.byte	(.LBB12_83-.LBB12_83)>>2
	.byte	(.LBB12_84-.LBB12_83)>>2
	.byte	(.LBB12_83-.LBB12_83)>>2
	.byte	(.LBB12_93-.LBB12_83)>>2
	.byte	(.LBB12_97-.LBB12_83)>>2
	.byte	(.LBB12_91-.LBB12_83)>>2
	.byte	(.LBB12_108-.LBB12_83)>>2
	.byte	(.LBB12_98-.LBB12_83)>>2
	.byte	(.LBB12_83-.LBB12_83)>>2
	.byte	(.LBB12_83-.LBB12_83)>>2
	.byte	(.LBB12_83-.LBB12_83)>>2
	.byte	(.LBB12_83-.LBB12_83)>>2
	.byte	(.LBB12_83-.LBB12_83)>>2
	.byte	(.LBB12_83-.LBB12_83)>>2
	.byte	(.LBB12_85-.LBB12_83)>>2
	.byte	(.LBB12_88-.LBB12_83)>>2
	.byte	(.LBB12_83-.LBB12_83)>>2
	.byte	(.LBB12_88-.LBB12_83)>>2
	.byte	(.LBB12_83-.LBB12_83)>>2
	.byte	(.LBB12_84-.LBB12_83)>>2
	.byte	(.LBB12_85-.LBB12_83)>>2
	.byte	(.LBB12_83-.LBB12_83)>>2
	.byte	(.LBB12_83-.LBB12_83)>>2
	.byte	(.LBB12_113-.LBB12_83)>>2
	.byte	(.LBB12_102-.LBB12_83)>>2
	.byte	(.LBB12_83-.LBB12_83)>>2
	.byte	(.LBB12_83-.LBB12_83)>>2
	.byte	(.LBB12_83-.LBB12_83)>>2
	.byte	(.LBB12_83-.LBB12_83)>>2
	.byte	(.LBB12_83-.LBB12_83)>>2
	.byte	(.LBB12_83-.LBB12_83)>>2
	.byte	(.LBB12_83-.LBB12_83)>>2
	.byte	(.LBB12_83-.LBB12_83)>>2
	.byte	(.LBB12_111-.LBB12_83)>>2
	.byte	(.LBB12_113-.LBB12_83)>>2
	.byte	(.LBB12_113-.LBB12_83)>>2
	.byte	(.LBB12_90-.LBB12_83)>>2
	.byte	(.LBB12_84-.LBB12_83)>>2
	.byte	(.LBB12_84-.LBB12_83)>>2
	.byte	(.LBB12_83-.LBB12_83)>>2
	.byte	(.LBB12_83-.LBB12_83)>>2
	.byte	(.LBB12_83-.LBB12_83)>>2
	.byte	(.LBB12_83-.LBB12_83)>>2
	.byte	(.LBB12_101-.LBB12_83)>>2
	.byte	(.LBB12_83-.LBB12_83)>>2
	.byte	(.LBB12_83-.LBB12_83)>>2
	.byte	(.LBB12_89-.LBB12_83)>>2
	.byte	(.LBB12_113-.LBB12_83)>>2
	.byte	(.LBB12_85-.LBB12_83)>>2
	.byte	(.LBB12_86-.LBB12_83)>>2
	.byte	(.LBB12_86-.LBB12_83)>>2
.LJTI12_4:
	.byte	(.LBB12_128-.LBB12_121)>>2
	.byte	(.LBB12_127-.LBB12_121)>>2
	.byte	(.LBB12_127-.LBB12_121)>>2
	.byte	(.LBB12_128-.LBB12_121)>>2
	.byte	(.LBB12_121-.LBB12_121)>>2
	.byte	(.LBB12_121-.LBB12_121)>>2
	.byte	(.LBB12_121-.LBB12_121)>>2
	.byte	(.LBB12_127-.LBB12_121)>>2
	.byte	(.LBB12_136-.LBB12_121)>>2
	.byte	(.LBB12_143-.LBB12_121)>>2
	.byte	(.LBB12_127-.LBB12_121)>>2
	.byte	(.LBB12_135-.LBB12_121)>>2
	.byte	(.LBB12_121-.LBB12_121)>>2
	.byte	(.LBB12_129-.LBB12_121)>>2
	.byte	(.LBB12_129-.LBB12_121)>>2
	.byte	(.LBB12_137-.LBB12_121)>>2
	.byte	(.LBB12_127-.LBB12_121)>>2
	.byte	(.LBB12_128-.LBB12_121)>>2
	.byte	(.LBB12_127-.LBB12_121)>>2
	.byte	(.LBB12_142-.LBB12_121)>>2
	.byte	(.LBB12_121-.LBB12_121)>>2
	.byte	(.LBB12_147-.LBB12_121)>>2
	.byte	(.LBB12_145-.LBB12_121)>>2
	.byte	(.LBB12_139-.LBB12_121)>>2
	.byte	(.LBB12_127-.LBB12_121)>>2
	.byte	(.LBB12_127-.LBB12_121)>>2
	.byte	(.LBB12_127-.LBB12_121)>>2
	.byte	(.LBB12_127-.LBB12_121)>>2
	.byte	(.LBB12_127-.LBB12_121)>>2
	.byte	(.LBB12_127-.LBB12_121)>>2
	.byte	(.LBB12_129-.LBB12_121)>>2
	.byte	(.LBB12_121-.LBB12_121)>>2
	.byte	(.LBB12_127-.LBB12_121)>>2
	.byte	(.LBB12_121-.LBB12_121)>>2
	.byte	(.LBB12_127-.LBB12_121)>>2
	.byte	(.LBB12_128-.LBB12_121)>>2
	.byte	(.LBB12_129-.LBB12_121)>>2
	.byte	(.LBB12_127-.LBB12_121)>>2
	.byte	(.LBB12_127-.LBB12_121)>>2
	.byte	(.LBB12_121-.LBB12_121)>>2
	.byte	(.LBB12_133-.LBB12_121)>>2
	.byte	(.LBB12_127-.LBB12_121)>>2
	.byte	(.LBB12_127-.LBB12_121)>>2
	.byte	(.LBB12_127-.LBB12_121)>>2
	.byte	(.LBB12_127-.LBB12_121)>>2
	.byte	(.LBB12_127-.LBB12_121)>>2
	.byte	(.LBB12_127-.LBB12_121)>>2
	.byte	(.LBB12_127-.LBB12_121)>>2
	.byte	(.LBB12_127-.LBB12_121)>>2
	.byte	(.LBB12_131-.LBB12_121)>>2
	.byte	(.LBB12_121-.LBB12_121)>>2
	.byte	(.LBB12_121-.LBB12_121)>>2
	.byte	(.LBB12_130-.LBB12_121)>>2
	.byte	(.LBB12_128-.LBB12_121)>>2
	.byte	(.LBB12_128-.LBB12_121)>>2
	.byte	(.LBB12_127-.LBB12_121)>>2
	.byte	(.LBB12_127-.LBB12_121)>>2
	.byte	(.LBB12_127-.LBB12_121)>>2
	.byte	(.LBB12_127-.LBB12_121)>>2
	.byte	(.LBB12_149-.LBB12_121)>>2
	.byte	(.LBB12_127-.LBB12_121)>>2
	.byte	(.LBB12_127-.LBB12_121)>>2
	.byte	(.LBB12_132-.LBB12_121)>>2
	.byte	(.LBB12_121-.LBB12_121)>>2
	.byte	(.LBB12_129-.LBB12_121)>>2

	.section	.rodata.cst16,"aM",@progbits,16
	.p2align	4, 0x0
.LCPI13_0:
	.byte	1
	.byte	2
	.byte	4
	.byte	8
	.byte	16
	.byte	32
	.byte	64
	.byte	128
	.byte	1
	.byte	2
	.byte	4
	.byte	8
	.byte	16
	.byte	32
	.byte	64
	.byte	128
	.section	.text.core.cmp.text.RefStrPartialEq.eq,"ax",@progbits
	.p2align	2
	.type	core.cmp.text.RefStrPartialEq.eq,@function
core.cmp.text.RefStrPartialEq.eq:
	cmp	x1, x3
	b.ne	.LBB13_4
	cmp	x1, #7
	b.hi	.LBB13_5
	subs	x8, x1, #4
	b.lo	.LBB13_7
	ldr	w9, [x0]
	ldr	w10, [x0, x8]
	ldr	w11, [x2]
	ldr	w8, [x2, x8]
	orr	x9, x9, x10, lsl #32
	orr	x10, x11, x8, lsl #32
	rev	x8, x9
	rev	x9, x10
	cmp	x8, x9
	cset	w0, eq
	ret
.LBB13_4:
	mov	w0, wzr
	ret
.LBB13_5:
	cmp	x1, #32
	b.hi	.LBB13_9
	sub	x8, x1, #8
	mov	w11, #8
	ldr	x9, [x0]
	cmp	x8, #8
	ldr	x10, [x2]
	mov	w12, #16
	csel	x11, x8, x11, lo
	cmp	x8, #16
	csel	x12, x8, x12, lo
	ldr	x13, [x0, x11]
	ldr	x11, [x2, x11]
	cmp	x9, x10
	ldr	x9, [x0, x12]
	ldr	x10, [x2, x12]
	ccmp	x13, x11, #0, eq
	ldr	x11, [x0, x8]
	ldr	x8, [x2, x8]
	ccmp	x9, x10, #0, eq
	ccmp	x11, x8, #0, eq
	cset	w0, eq
	ret
.LBB13_7:
	cbz	x1, .LBB13_14
	ldrb	w8, [x0]
	lsr	x9, x1, #1
	ldrb	w10, [x2]
	sub	x12, x1, #1
	ldrb	w11, [x0, x9]
	lsl	x8, x8, #16
	ldrb	w9, [x2, x9]
	lsl	x10, x10, #16
	orr	x8, x8, x11, lsl #8
	ldrb	w11, [x0, x12]
	orr	x9, x10, x9, lsl #8
	ldrb	w10, [x2, x12]
	orr	x8, x8, x11
	orr	x9, x9, x10
	cmp	x8, x9
	cset	w0, eq
	ret
.LBB13_9:
	cmp	x1, #65
	mov	x8, x0
	mov	x9, x2
	mov	x10, x1
	b.hs	.LBB13_11
	ldp	q0, q2, [x0]
	sub	x8, x1, #16
	ldp	q1, q3, [x2]
	adrp	x9, .LCPI13_0
	mov	w10, #32
	cmp	x8, #32
	ldr	q5, [x2, x8]
	cmeq	v0.16b, v0.16b, v1.16b
	ldr	q1, [x9, :lo12:.LCPI13_0]
	cmeq	v2.16b, v2.16b, v3.16b
	csel	x9, x8, x10, lo
	ldr	q3, [x0, x9]
	ldr	q4, [x2, x9]
	bic	v0.16b, v1.16b, v0.16b
	bic	v2.16b, v1.16b, v2.16b
	cmeq	v3.16b, v3.16b, v4.16b
	ldr	q4, [x0, x8]
	addp	v0.16b, v0.16b, v0.16b
	cmeq	v4.16b, v4.16b, v5.16b
	addp	v2.16b, v2.16b, v2.16b
	bic	v3.16b, v1.16b, v3.16b
	addp	v0.16b, v0.16b, v0.16b
	bic	v1.16b, v1.16b, v4.16b
	addp	v2.16b, v2.16b, v2.16b
	addp	v3.16b, v3.16b, v3.16b
	addp	v0.16b, v0.16b, v0.16b
	addp	v2.16b, v2.16b, v2.16b
	addp	v1.16b, v1.16b, v1.16b
	addp	v3.16b, v3.16b, v3.16b
	orr	v0.16b, v2.16b, v0.16b
	addp	v1.16b, v1.16b, v1.16b
	addp	v2.16b, v3.16b, v3.16b
	addp	v1.16b, v1.16b, v1.16b
	orr	v0.16b, v0.16b, v2.16b
	orr	v0.16b, v0.16b, v1.16b
	umov	w8, v0.h[0]
	tst	w8, #0xffff
	cset	w8, ne
	eor	w0, w8, #0x1
	ret
.LBB13_11:
	ldp	q0, q6, [x8]
	adrp	x11, .LCPI13_0
	ldp	q1, q2, [x8, #32]
	ldp	q3, q7, [x9]
	ldp	q5, q4, [x9, #32]
	cmeq	v3.16b, v0.16b, v3.16b
	ldr	q0, [x11, :lo12:.LCPI13_0]
	cmeq	v2.16b, v2.16b, v4.16b
	cmeq	v1.16b, v1.16b, v5.16b
	cmeq	v4.16b, v6.16b, v7.16b
	bic	v3.16b, v0.16b, v3.16b
	bic	v4.16b, v0.16b, v4.16b
	bic	v1.16b, v0.16b, v1.16b
	bic	v2.16b, v0.16b, v2.16b
	addp	v3.16b, v3.16b, v4.16b
	addp	v1.16b, v1.16b, v2.16b
	addp	v1.16b, v3.16b, v1.16b
	addp	v1.16b, v1.16b, v1.16b
	fmov	x11, d1
	cbnz	x11, .LBB13_15
	sub	x10, x10, #64
	add	x9, x9, #64
	add	x8, x8, #64
	cmp	x10, #65
	b.hs	.LBB13_11
	sub	x8, x1, #64
	add	x9, x0, x8
	add	x8, x2, x8
	ldp	q1, q2, [x9]
	ldp	q3, q4, [x9, #32]
	ldp	q5, q6, [x8]
	ldp	q7, q16, [x8, #32]
	cmeq	v1.16b, v1.16b, v5.16b
	cmeq	v2.16b, v2.16b, v6.16b
	cmeq	v4.16b, v4.16b, v16.16b
	cmeq	v3.16b, v3.16b, v7.16b
	bic	v1.16b, v0.16b, v1.16b
	bic	v2.16b, v0.16b, v2.16b
	bic	v3.16b, v0.16b, v3.16b
	bic	v0.16b, v0.16b, v4.16b
	addp	v1.16b, v1.16b, v2.16b
	addp	v0.16b, v3.16b, v0.16b
	addp	v0.16b, v1.16b, v0.16b
	addp	v0.16b, v0.16b, v0.16b
	fmov	x8, d0
	cmp	x8, #0
	cset	w8, ne
	eor	w0, w8, #0x1
	ret
.LBB13_14:
	cmp	xzr, xzr
	cset	w0, eq
	ret
.LBB13_15:
	mov	w8, #1
	eor	w0, w8, #0x1
	ret
.Lfunc_end13:
	.size	core.cmp.text.RefStrPartialEq.eq, .Lfunc_end13-core.cmp.text.RefStrPartialEq.eq

	.section	.text.link_vals.link_layer_type.high,"ax",@progbits
	.p2align	2
	.type	link_vals.link_layer_type.high,@function
link_vals.link_layer_type.high:
	and	w9, w0, #0xffff
	sub	w8, w9, #512
	cmp	w8, #314
	b.hi	.LBB14_3
	adrp	x9, .LJTI14_0
	add	x9, x9, :lo12:.LJTI14_0
	mov	w0, #26
	adr	x10, .LBB14_2
	ldrb	w11, [x9, x8]
	add	x10, x10, x11, lsl #2
	br	x10
.LBB14_2:
	mov	w0, #27
	ret
.LBB14_3:
	mov	w8, #65534
	cmp	w9, w8
	b.ne	.LBB14_5
	mov	w0, #65
	ret
.LBB14_5:
	mov	w0, #66
.LBB14_6:
	ret
.LBB14_7:
	mov	w0, #61
	ret
.LBB14_8:
	mov	w0, #53
	ret
.LBB14_9:
	mov	w0, #56
	ret
.LBB14_10:
	mov	w0, #55
	ret
.LBB14_11:
	mov	w0, #48
	ret
.LBB14_12:
	mov	w0, #52
	ret
.LBB14_13:
	mov	w0, #64
	ret
.LBB14_14:
	mov	w0, #54
	ret
.LBB14_15:
	mov	w0, #51
	ret
.LBB14_16:
	mov	w0, #62
	ret
.LBB14_17:
	mov	w0, #46
	ret
.LBB14_18:
	mov	w0, #47
	ret
.LBB14_19:
	mov	w0, #39
	ret
.LBB14_20:
	mov	w0, #63
	ret
.LBB14_21:
	mov	w0, #35
	ret
.LBB14_22:
	mov	w0, #60
	ret
.LBB14_23:
	mov	w0, #36
	ret
.LBB14_24:
	mov	w0, #58
	ret
.LBB14_25:
	mov	w0, #33
	ret
.LBB14_26:
	mov	w0, #38
	ret
.LBB14_27:
	mov	w0, #37
	ret
.LBB14_28:
	mov	w0, #30
	ret
.LBB14_29:
	mov	w0, #34
	ret
.LBB14_30:
	mov	w0, #29
	ret
.LBB14_31:
	mov	w0, #28
	ret
.LBB14_32:
	mov	w0, #32
	ret
.LBB14_33:
	mov	w0, #31
	ret
.LBB14_34:
	mov	w0, #41
	ret
.LBB14_35:
	mov	w0, #43
	ret
.LBB14_36:
	mov	w0, #45
	ret
.LBB14_37:
	mov	w0, #44
	ret
.LBB14_38:
	mov	w0, #40
	ret
.LBB14_39:
	mov	w0, #50
	ret
.LBB14_40:
	mov	w0, #42
	ret
.LBB14_41:
	mov	w0, #49
	ret
.LBB14_42:
	mov	w0, #57
	ret
.LBB14_43:
	mov	w0, #59
	ret
.Lfunc_end14:
	.size	link_vals.link_layer_type.high, .Lfunc_end14-link_vals.link_layer_type.high
	.section	.rodata.link_vals.link_layer_type.high,"a",@progbits
.LJTI14_0:
	.byte	(.LBB14_6-.LBB14_2)>>2
	.byte	(.LBB14_2-.LBB14_2)>>2
	.byte	(.LBB14_5-.LBB14_2)>>2
	.byte	(.LBB14_5-.LBB14_2)>>2
	.byte	(.LBB14_31-.LBB14_2)>>2
	.byte	(.LBB14_30-.LBB14_2)>>2
	.byte	(.LBB14_28-.LBB14_2)>>2
	.byte	(.LBB14_33-.LBB14_2)>>2
	.byte	(.LBB14_5-.LBB14_2)>>2
	.byte	(.LBB14_5-.LBB14_2)>>2
	.byte	(.LBB14_5-.LBB14_2)>>2
	.byte	(.LBB14_5-.LBB14_2)>>2
	.byte	(.LBB14_5-.LBB14_2)>>2
	.byte	(.LBB14_5-.LBB14_2)>>2
	.byte	(.LBB14_5-.LBB14_2)>>2
	.byte	(.LBB14_5-.LBB14_2)>>2
	.byte	(.LBB14_5-.LBB14_2)>>2
	.byte	(.LBB14_5-.LBB14_2)>>2
	.byte	(.LBB14_5-.LBB14_2)>>2
	.byte	(.LBB14_5-.LBB14_2)>>2
	.byte	(.LBB14_5-.LBB14_2)>>2
	.byte	(.LBB14_5-.LBB14_2)>>2
	.byte	(.LBB14_5-.LBB14_2)>>2
	.byte	(.LBB14_5-.LBB14_2)>>2
	.byte	(.LBB14_5-.LBB14_2)>>2
	.byte	(.LBB14_5-.LBB14_2)>>2
	.byte	(.LBB14_5-.LBB14_2)>>2
	.byte	(.LBB14_5-.LBB14_2)>>2
	.byte	(.LBB14_5-.LBB14_2)>>2
	.byte	(.LBB14_5-.LBB14_2)>>2
	.byte	(.LBB14_5-.LBB14_2)>>2
	.byte	(.LBB14_5-.LBB14_2)>>2
	.byte	(.LBB14_5-.LBB14_2)>>2
	.byte	(.LBB14_5-.LBB14_2)>>2
	.byte	(.LBB14_5-.LBB14_2)>>2
	.byte	(.LBB14_5-.LBB14_2)>>2
	.byte	(.LBB14_5-.LBB14_2)>>2
	.byte	(.LBB14_5-.LBB14_2)>>2
	.byte	(.LBB14_5-.LBB14_2)>>2
	.byte	(.LBB14_5-.LBB14_2)>>2
	.byte	(.LBB14_5-.LBB14_2)>>2
	.byte	(.LBB14_5-.LBB14_2)>>2
	.byte	(.LBB14_5-.LBB14_2)>>2
	.byte	(.LBB14_5-.LBB14_2)>>2
	.byte	(.LBB14_5-.LBB14_2)>>2
	.byte	(.LBB14_5-.LBB14_2)>>2
	.byte	(.LBB14_5-.LBB14_2)>>2
	.byte	(.LBB14_5-.LBB14_2)>>2
	.byte	(.LBB14_5-.LBB14_2)>>2
	.byte	(.LBB14_5-.LBB14_2)>>2
	.byte	(.LBB14_5-.LBB14_2)>>2
	.byte	(.LBB14_5-.LBB14_2)>>2
	.byte	(.LBB14_5-.LBB14_2)>>2
	.byte	(.LBB14_5-.LBB14_2)>>2
	.byte	(.LBB14_5-.LBB14_2)>>2
	.byte	(.LBB14_5-.LBB14_2)>>2
	.byte	(.LBB14_5-.LBB14_2)>>2
	.byte	(.LBB14_5-.LBB14_2)>>2
	.byte	(.LBB14_5-.LBB14_2)>>2
	.byte	(.LBB14_5-.LBB14_2)>>2
	.byte	(.LBB14_5-.LBB14_2)>>2
	.byte	(.LBB14_5-.LBB14_2)>>2
	.byte	(.LBB14_5-.LBB14_2)>>2
	.byte	(.LBB14_5-.LBB14_2)>>2
	.byte	(.LBB14_5-.LBB14_2)>>2
	.byte	(.LBB14_5-.LBB14_2)>>2
	.byte	(.LBB14_5-.LBB14_2)>>2
	.byte	(.LBB14_5-.LBB14_2)>>2
	.byte	(.LBB14_5-.LBB14_2)>>2
	.byte	(.LBB14_5-.LBB14_2)>>2
	.byte	(.LBB14_5-.LBB14_2)>>2
	.byte	(.LBB14_5-.LBB14_2)>>2
	.byte	(.LBB14_5-.LBB14_2)>>2
	.byte	(.LBB14_5-.LBB14_2)>>2
	.byte	(.LBB14_5-.LBB14_2)>>2
	.byte	(.LBB14_5-.LBB14_2)>>2
	.byte	(.LBB14_5-.LBB14_2)>>2
	.byte	(.LBB14_5-.LBB14_2)>>2
	.byte	(.LBB14_5-.LBB14_2)>>2
	.byte	(.LBB14_5-.LBB14_2)>>2
	.byte	(.LBB14_5-.LBB14_2)>>2
	.byte	(.LBB14_5-.LBB14_2)>>2
	.byte	(.LBB14_5-.LBB14_2)>>2
	.byte	(.LBB14_5-.LBB14_2)>>2
	.byte	(.LBB14_5-.LBB14_2)>>2
	.byte	(.LBB14_5-.LBB14_2)>>2
	.byte	(.LBB14_5-.LBB14_2)>>2
	.byte	(.LBB14_5-.LBB14_2)>>2
	.byte	(.LBB14_5-.LBB14_2)>>2
	.byte	(.LBB14_5-.LBB14_2)>>2
	.byte	(.LBB14_5-.LBB14_2)>>2
	.byte	(.LBB14_5-.LBB14_2)>>2
	.byte	(.LBB14_5-.LBB14_2)>>2
	.byte	(.LBB14_5-.LBB14_2)>>2
	.byte	(.LBB14_5-.LBB14_2)>>2
	.byte	(.LBB14_5-.LBB14_2)>>2
	.byte	(.LBB14_5-.LBB14_2)>>2
	.byte	(.LBB14_5-.LBB14_2)>>2
	.byte	(.LBB14_5-.LBB14_2)>>2
	.byte	(.LBB14_5-.LBB14_2)>>2
	.byte	(.LBB14_5-.LBB14_2)>>2
	.byte	(.LBB14_5-.LBB14_2)>>2
	.byte	(.LBB14_5-.LBB14_2)>>2
	.byte	(.LBB14_5-.LBB14_2)>>2
	.byte	(.LBB14_5-.LBB14_2)>>2
	.byte	(.LBB14_5-.LBB14_2)>>2
	.byte	(.LBB14_5-.LBB14_2)>>2
	.byte	(.LBB14_5-.LBB14_2)>>2
	.byte	(.LBB14_5-.LBB14_2)>>2
	.byte	(.LBB14_5-.LBB14_2)>>2
	.byte	(.LBB14_5-.LBB14_2)>>2
	.byte	(.LBB14_5-.LBB14_2)>>2
	.byte	(.LBB14_5-.LBB14_2)>>2
	.byte	(.LBB14_5-.LBB14_2)>>2
	.byte	(.LBB14_5-.LBB14_2)>>2
	.byte	(.LBB14_5-.LBB14_2)>>2
	.byte	(.LBB14_5-.LBB14_2)>>2
	.byte	(.LBB14_5-.LBB14_2)>>2
	.byte	(.LBB14_5-.LBB14_2)>>2
	.byte	(.LBB14_5-.LBB14_2)>>2
	.byte	(.LBB14_5-.LBB14_2)>>2
	.byte	(.LBB14_5-.LBB14_2)>>2
	.byte	(.LBB14_5-.LBB14_2)>>2
	.byte	(.LBB14_5-.LBB14_2)>>2
	.byte	(.LBB14_5-.LBB14_2)>>2
	.byte	(.LBB14_5-.LBB14_2)>>2
	.byte	(.LBB14_5-.LBB14_2)>>2
	.byte	(.LBB14_5-.LBB14_2)>>2
	.byte	(.LBB14_5-.LBB14_2)>>2
	.byte	(.LBB14_5-.LBB14_2)>>2
	.byte	(.LBB14_5-.LBB14_2)>>2
	.byte	(.LBB14_5-.LBB14_2)>>2
	.byte	(.LBB14_5-.LBB14_2)>>2
	.byte	(.LBB14_5-.LBB14_2)>>2
	.byte	(.LBB14_5-.LBB14_2)>>2
	.byte	(.LBB14_5-.LBB14_2)>>2
	.byte	(.LBB14_5-.LBB14_2)>>2
	.byte	(.LBB14_5-.LBB14_2)>>2
	.byte	(.LBB14_5-.LBB14_2)>>2
	.byte	(.LBB14_5-.LBB14_2)>>2
	.byte	(.LBB14_5-.LBB14_2)>>2
	.byte	(.LBB14_5-.LBB14_2)>>2
	.byte	(.LBB14_5-.LBB14_2)>>2
	.byte	(.LBB14_5-.LBB14_2)>>2
	.byte	(.LBB14_5-.LBB14_2)>>2
	.byte	(.LBB14_5-.LBB14_2)>>2
	.byte	(.LBB14_5-.LBB14_2)>>2
	.byte	(.LBB14_5-.LBB14_2)>>2
	.byte	(.LBB14_5-.LBB14_2)>>2
	.byte	(.LBB14_5-.LBB14_2)>>2
	.byte	(.LBB14_5-.LBB14_2)>>2
	.byte	(.LBB14_5-.LBB14_2)>>2
	.byte	(.LBB14_5-.LBB14_2)>>2
	.byte	(.LBB14_5-.LBB14_2)>>2
	.byte	(.LBB14_5-.LBB14_2)>>2
	.byte	(.LBB14_5-.LBB14_2)>>2
	.byte	(.LBB14_5-.LBB14_2)>>2
	.byte	(.LBB14_5-.LBB14_2)>>2
	.byte	(.LBB14_5-.LBB14_2)>>2
	.byte	(.LBB14_5-.LBB14_2)>>2
	.byte	(.LBB14_5-.LBB14_2)>>2
	.byte	(.LBB14_5-.LBB14_2)>>2
	.byte	(.LBB14_5-.LBB14_2)>>2
	.byte	(.LBB14_5-.LBB14_2)>>2
	.byte	(.LBB14_5-.LBB14_2)>>2
	.byte	(.LBB14_5-.LBB14_2)>>2
	.byte	(.LBB14_5-.LBB14_2)>>2
	.byte	(.LBB14_5-.LBB14_2)>>2
	.byte	(.LBB14_5-.LBB14_2)>>2
	.byte	(.LBB14_5-.LBB14_2)>>2
	.byte	(.LBB14_5-.LBB14_2)>>2
	.byte	(.LBB14_5-.LBB14_2)>>2
	.byte	(.LBB14_5-.LBB14_2)>>2
	.byte	(.LBB14_5-.LBB14_2)>>2
	.byte	(.LBB14_5-.LBB14_2)>>2
	.byte	(.LBB14_5-.LBB14_2)>>2
	.byte	(.LBB14_5-.LBB14_2)>>2
	.byte	(.LBB14_5-.LBB14_2)>>2
	.byte	(.LBB14_5-.LBB14_2)>>2
	.byte	(.LBB14_5-.LBB14_2)>>2
	.byte	(.LBB14_5-.LBB14_2)>>2
	.byte	(.LBB14_5-.LBB14_2)>>2
	.byte	(.LBB14_5-.LBB14_2)>>2
	.byte	(.LBB14_5-.LBB14_2)>>2
	.byte	(.LBB14_5-.LBB14_2)>>2
	.byte	(.LBB14_5-.LBB14_2)>>2
	.byte	(.LBB14_5-.LBB14_2)>>2
	.byte	(.LBB14_5-.LBB14_2)>>2
	.byte	(.LBB14_5-.LBB14_2)>>2
	.byte	(.LBB14_5-.LBB14_2)>>2
	.byte	(.LBB14_5-.LBB14_2)>>2
	.byte	(.LBB14_5-.LBB14_2)>>2
	.byte	(.LBB14_5-.LBB14_2)>>2
	.byte	(.LBB14_5-.LBB14_2)>>2
	.byte	(.LBB14_5-.LBB14_2)>>2
	.byte	(.LBB14_5-.LBB14_2)>>2
	.byte	(.LBB14_5-.LBB14_2)>>2
	.byte	(.LBB14_5-.LBB14_2)>>2
	.byte	(.LBB14_5-.LBB14_2)>>2
	.byte	(.LBB14_5-.LBB14_2)>>2
	.byte	(.LBB14_5-.LBB14_2)>>2
	.byte	(.LBB14_5-.LBB14_2)>>2
	.byte	(.LBB14_5-.LBB14_2)>>2
	.byte	(.LBB14_5-.LBB14_2)>>2
	.byte	(.LBB14_5-.LBB14_2)>>2
	.byte	(.LBB14_5-.LBB14_2)>>2
	.byte	(.LBB14_5-.LBB14_2)>>2
	.byte	(.LBB14_5-.LBB14_2)>>2
	.byte	(.LBB14_5-.LBB14_2)>>2
	.byte	(.LBB14_5-.LBB14_2)>>2
	.byte	(.LBB14_5-.LBB14_2)>>2
	.byte	(.LBB14_5-.LBB14_2)>>2
	.byte	(.LBB14_5-.LBB14_2)>>2
	.byte	(.LBB14_5-.LBB14_2)>>2
	.byte	(.LBB14_5-.LBB14_2)>>2
	.byte	(.LBB14_5-.LBB14_2)>>2
	.byte	(.LBB14_5-.LBB14_2)>>2
	.byte	(.LBB14_5-.LBB14_2)>>2
	.byte	(.LBB14_5-.LBB14_2)>>2
	.byte	(.LBB14_5-.LBB14_2)>>2
	.byte	(.LBB14_5-.LBB14_2)>>2
	.byte	(.LBB14_5-.LBB14_2)>>2
	.byte	(.LBB14_5-.LBB14_2)>>2
	.byte	(.LBB14_5-.LBB14_2)>>2
	.byte	(.LBB14_5-.LBB14_2)>>2
	.byte	(.LBB14_5-.LBB14_2)>>2
	.byte	(.LBB14_5-.LBB14_2)>>2
	.byte	(.LBB14_5-.LBB14_2)>>2
	.byte	(.LBB14_5-.LBB14_2)>>2
	.byte	(.LBB14_5-.LBB14_2)>>2
	.byte	(.LBB14_5-.LBB14_2)>>2
	.byte	(.LBB14_5-.LBB14_2)>>2
	.byte	(.LBB14_5-.LBB14_2)>>2
	.byte	(.LBB14_5-.LBB14_2)>>2
	.byte	(.LBB14_5-.LBB14_2)>>2
	.byte	(.LBB14_5-.LBB14_2)>>2
	.byte	(.LBB14_5-.LBB14_2)>>2
	.byte	(.LBB14_5-.LBB14_2)>>2
	.byte	(.LBB14_5-.LBB14_2)>>2
	.byte	(.LBB14_5-.LBB14_2)>>2
	.byte	(.LBB14_5-.LBB14_2)>>2
	.byte	(.LBB14_5-.LBB14_2)>>2
	.byte	(.LBB14_5-.LBB14_2)>>2
	.byte	(.LBB14_5-.LBB14_2)>>2
	.byte	(.LBB14_5-.LBB14_2)>>2
	.byte	(.LBB14_5-.LBB14_2)>>2
	.byte	(.LBB14_5-.LBB14_2)>>2
	.byte	(.LBB14_5-.LBB14_2)>>2
	.byte	(.LBB14_5-.LBB14_2)>>2
	.byte	(.LBB14_5-.LBB14_2)>>2
	.byte	(.LBB14_5-.LBB14_2)>>2
	.byte	(.LBB14_5-.LBB14_2)>>2
	.byte	(.LBB14_5-.LBB14_2)>>2
	.byte	(.LBB14_5-.LBB14_2)>>2
	.byte	(.LBB14_5-.LBB14_2)>>2
	.byte	(.LBB14_5-.LBB14_2)>>2
	.byte	(.LBB14_32-.LBB14_2)>>2
	.byte	(.LBB14_25-.LBB14_2)>>2
	.byte	(.LBB14_29-.LBB14_2)>>2
	.byte	(.LBB14_21-.LBB14_2)>>2
	.byte	(.LBB14_23-.LBB14_2)>>2
	.byte	(.LBB14_27-.LBB14_2)>>2
	.byte	(.LBB14_26-.LBB14_2)>>2
	.byte	(.LBB14_19-.LBB14_2)>>2
	.byte	(.LBB14_38-.LBB14_2)>>2
	.byte	(.LBB14_34-.LBB14_2)>>2
	.byte	(.LBB14_40-.LBB14_2)>>2
	.byte	(.LBB14_35-.LBB14_2)>>2
	.byte	(.LBB14_37-.LBB14_2)>>2
	.byte	(.LBB14_36-.LBB14_2)>>2
	.byte	(.LBB14_17-.LBB14_2)>>2
	.byte	(.LBB14_18-.LBB14_2)>>2
	.byte	(.LBB14_11-.LBB14_2)>>2
	.byte	(.LBB14_41-.LBB14_2)>>2
	.byte	(.LBB14_39-.LBB14_2)>>2
	.byte	(.LBB14_15-.LBB14_2)>>2
	.byte	(.LBB14_5-.LBB14_2)>>2
	.byte	(.LBB14_5-.LBB14_2)>>2
	.byte	(.LBB14_5-.LBB14_2)>>2
	.byte	(.LBB14_5-.LBB14_2)>>2
	.byte	(.LBB14_5-.LBB14_2)>>2
	.byte	(.LBB14_5-.LBB14_2)>>2
	.byte	(.LBB14_5-.LBB14_2)>>2
	.byte	(.LBB14_5-.LBB14_2)>>2
	.byte	(.LBB14_5-.LBB14_2)>>2
	.byte	(.LBB14_5-.LBB14_2)>>2
	.byte	(.LBB14_5-.LBB14_2)>>2
	.byte	(.LBB14_5-.LBB14_2)>>2
	.byte	(.LBB14_12-.LBB14_2)>>2
	.byte	(.LBB14_8-.LBB14_2)>>2
	.byte	(.LBB14_14-.LBB14_2)>>2
	.byte	(.LBB14_10-.LBB14_2)>>2
	.byte	(.LBB14_9-.LBB14_2)>>2
	.byte	(.LBB14_42-.LBB14_2)>>2
	.byte	(.LBB14_5-.LBB14_2)>>2
	.byte	(.LBB14_5-.LBB14_2)>>2
	.byte	(.LBB14_5-.LBB14_2)>>2
	.byte	(.LBB14_5-.LBB14_2)>>2
	.byte	(.LBB14_5-.LBB14_2)>>2
	.byte	(.LBB14_5-.LBB14_2)>>2
	.byte	(.LBB14_5-.LBB14_2)>>2
	.byte	(.LBB14_5-.LBB14_2)>>2
	.byte	(.LBB14_5-.LBB14_2)>>2
	.byte	(.LBB14_5-.LBB14_2)>>2
	.byte	(.LBB14_5-.LBB14_2)>>2
	.byte	(.LBB14_5-.LBB14_2)>>2
	.byte	(.LBB14_5-.LBB14_2)>>2
	.byte	(.LBB14_5-.LBB14_2)>>2
	.byte	(.LBB14_24-.LBB14_2)>>2
	.byte	(.LBB14_43-.LBB14_2)>>2
	.byte	(.LBB14_22-.LBB14_2)>>2
	.byte	(.LBB14_7-.LBB14_2)>>2
	.byte	(.LBB14_16-.LBB14_2)>>2
	.byte	(.LBB14_20-.LBB14_2)>>2
	.byte	(.LBB14_13-.LBB14_2)>>2

	.section	.text.nla_wire.payload.measure_text,"ax",@progbits
	.p2align	2
	.type	nla_wire.payload.measure_text,@function
nla_wire.payload.measure_text:
	cbz	x1, .LBB15_2
	sub	x8, x1, #1
	ldrb	w9, [x0, x8]
	cbz	w9, .LBB15_4
.LBB15_2:
	mov	w8, #65530
	cmp	x1, x8
	b.ls	.LBB15_5
.LBB15_3:
	mov	x1, xzr
	mov	w0, wzr
	ret
.LBB15_4:
	mov	x1, x8
	mov	w8, #65530
	cmp	x1, x8
	b.hi	.LBB15_3
.LBB15_5:
	stp	x29, x30, [sp, #-32]!
	str	x19, [sp, #16]
	mov	x29, sp
	cbz	x1, .LBB15_24
	cmp	x1, #3
	b.hi	.LBB15_10
	ldrsb	w8, [x0]
	tbnz	w8, #31, .LBB15_25
	lsr	x8, x1, #1
	ldrsb	w8, [x0, x8]
	tbnz	w8, #31, .LBB15_25
	add	x8, x0, x1
	ldursb	w8, [x8, #-1]
	tbz	w8, #31, .LBB15_24
	b	.LBB15_25
.LBB15_10:
	cmp	x1, #7
	b.hi	.LBB15_13
	ldr	w8, [x0]
	tst	w8, #0x80808080
	b.ne	.LBB15_25
	add	x8, x0, x1
	mov	w9, #-2139062144
	ldur	w8, [x8, #-4]
	tst	w8, w9
	b.ne	.LBB15_25
	b	.LBB15_24
.LBB15_13:
	cmp	x1, #16
	b.hi	.LBB15_16
	ldr	x8, [x0]
	tst	x8, #0x8080808080808080
	b.ne	.LBB15_25
	add	x8, x0, x1
	ldur	x8, [x8, #-8]
	tst	x8, #0x8080808080808080
	b.ne	.LBB15_25
	b	.LBB15_24
.LBB15_16:
	cmp	x1, #31
	b.hi	.LBB15_19
	ldr	q0, [x0]
	umaxv	b0, v0.16b
	fmov	w8, s0
	tbnz	w8, #7, .LBB15_25
	add	x8, x0, x1
	ldur	q0, [x8, #-16]
	b	.LBB15_23
.LBB15_19:
	movi	v0.2d, #0000000000000000
	movi	v1.2d, #0000000000000000
	and	x8, x1, #0xffe0
	add	x9, x0, #16
.LBB15_20:
	ldp	q2, q3, [x9, #-16]
	subs	x8, x8, #32
	add	x9, x9, #32
	umax	v0.16b, v0.16b, v2.16b
	umax	v1.16b, v1.16b, v3.16b
	b.ne	.LBB15_20
	umax	v0.16b, v0.16b, v1.16b
	umaxv	b0, v0.16b
	fmov	w8, s0
	tbnz	w8, #7, .LBB15_25
	add	x8, x0, x1
	ldp	q1, q0, [x8, #-32]
	umax	v0.16b, v1.16b, v0.16b
.LBB15_23:
	umaxv	b0, v0.16b
	fmov	w8, s0
	tbnz	w8, #7, .LBB15_25
.LBB15_24:
	add	x1, x1, #1
	mov	w0, #1
	ldr	x19, [sp, #16]
	ldp	x29, x30, [sp], #32
	ret
.LBB15_25:
	mov	x19, x1
	bl	nla_wire.text.is_decoded
	cmp	w0, #0
	csinc	x1, xzr, x19, eq
	ldr	x19, [sp, #16]
	ldp	x29, x30, [sp], #32
	ret
.Lfunc_end15:
	.size	nla_wire.payload.measure_text, .Lfunc_end15-nla_wire.payload.measure_text

	.section	.text.nla_wire.text.is_decoded,"ax",@progbits
	.p2align	2
	.type	nla_wire.text.is_decoded,@function
nla_wire.text.is_decoded:
	sub	sp, sp, #48
	mov	x2, x1
	mov	x1, x0
	add	x0, sp, #8
	stp	x29, x30, [sp, #32]
	add	x29, sp, #32
	stp	xzr, xzr, [sp, #8]
	str	xzr, [sp, #24]
	bl	core.str.utf8.from_utf8
	ldrb	w8, [sp, #8]
	ldp	x29, x30, [sp, #32]
	cmp	w8, #0
	cset	w0, eq
	add	sp, sp, #48
	ret
.Lfunc_end16:
	.size	nla_wire.text.is_decoded, .Lfunc_end16-nla_wire.text.is_decoded

	.section	.text.nla_wire.members.measure_each.49064c0641319ce4,"ax",@progbits
	.p2align	2
	.type	nla_wire.members.measure_each.49064c0641319ce4,@function
nla_wire.members.measure_each.49064c0641319ce4:
	stp	x29, x30, [sp, #-48]!
	stp	x22, x21, [sp, #16]
	mov	x8, xzr
	mov	x21, xzr
	stp	x20, x19, [sp, #32]
	mov	x19, x1
	mov	x20, x0
	mov	x29, sp
.LBB17_1:
	subs	x19, x19, x8
	b.ls	.LBB17_11
	cmp	x19, #4
	b.lo	.LBB17_9
	add	x20, x20, x8
	mov	w0, wzr
	mov	x1, xzr
	ldrh	w22, [x20]
	cmp	w22, #4
	b.lo	.LBB17_10
	cmp	x19, x22
	b.lo	.LBB17_10
	ldrb	w8, [x20, #2]
	ldrb	w9, [x20, #3]
	sub	x1, x22, #4
	bfi	w8, w9, #8, #6
	cmp	w8, #1
	b.ne	.LBB17_7
	add	x0, x20, #4
	sub	x1, x22, #4
	bl	nla_wire.payload.measure_text
	and	w8, w0, #0xff
	cmp	w8, #1
	b.eq	.LBB17_8
	b	.LBB17_9
.LBB17_7:
	mov	w0, #1
	and	w8, w0, #0xff
	cmp	w8, #1
	b.ne	.LBB17_9
.LBB17_8:
	add	x8, x1, #3
	and	x8, x8, #0xfffffffffffffffc
	add	x8, x21, x8
	add	x9, x8, #4
	add	w8, w22, #3
	cmp	x9, x21
	and	x8, x8, #0x1fffc
	mov	x21, x9
	b.hs	.LBB17_1
.LBB17_9:
	mov	x1, xzr
	mov	w0, wzr
.LBB17_10:
	ldp	x20, x19, [sp, #32]
	ldp	x22, x21, [sp, #16]
	ldp	x29, x30, [sp], #48
	ret
.LBB17_11:
	mov	w0, #1
	mov	x1, x21
	ldp	x20, x19, [sp, #32]
	ldp	x22, x21, [sp, #16]
	ldp	x29, x30, [sp], #48
	ret
.Lfunc_end17:
	.size	nla_wire.members.measure_each.49064c0641319ce4, .Lfunc_end17-nla_wire.members.measure_each.49064c0641319ce4

	.section	.text.nla_wire.members.measure_each.3bb4c8661a1029f4,"ax",@progbits
	.p2align	2
	.type	nla_wire.members.measure_each.3bb4c8661a1029f4,@function
nla_wire.members.measure_each.3bb4c8661a1029f4:
	cbz	x1, .LBB18_13
	stp	x29, x30, [sp, #-48]!
	stp	x22, x21, [sp, #16]
	mov	x21, xzr
	mov	x8, xzr
	stp	x20, x19, [sp, #32]
	mov	x19, x1
	mov	x20, x0
	mov	x29, sp
	b	.LBB18_3
.LBB18_2:
	add	w8, w22, #3
	and	x8, x8, #0x1fffc
	cmp	x19, x8
	b.ls	.LBB18_14
.LBB18_3:
	sub	x19, x19, x8
	cmp	x19, #4
	b.lo	.LBB18_11
	add	x20, x20, x8
	mov	w0, wzr
	mov	x1, xzr
	ldrh	w22, [x20]
	cmp	w22, #4
	b.lo	.LBB18_12
	cmp	x19, x22
	b.lo	.LBB18_12
	ldrb	w8, [x20, #2]
	ldrb	w9, [x20, #3]
	bfi	w8, w9, #8, #6
	cmp	w8, #1
	b.ne	.LBB18_2
	sub	x8, x22, #4
	cbz	x8, .LBB18_11
	add	x0, x20, #4
	sub	x1, x22, #4
	bl	nla_wire.members.measure_each.41ac5f0caeaa9df8
	mov	w9, w0
	mov	x8, x1
	mov	w0, wzr
	and	w9, w9, #0xff
	mov	x1, xzr
	cmp	w9, #1
	b.ne	.LBB18_12
	mov	w9, #65531
	cmp	x8, x9
	b.hi	.LBB18_12
	add	w8, w8, #3
	and	x8, x8, #0x1fffc
	add	x8, x21, x8
	add	x8, x8, #4
	cmp	x8, x21
	mov	x21, x8
	b.hs	.LBB18_2
.LBB18_11:
	mov	x1, xzr
	mov	w0, wzr
.LBB18_12:
	ldp	x20, x19, [sp, #32]
	ldp	x22, x21, [sp, #16]
	ldp	x29, x30, [sp], #48
	ret
.LBB18_13:
	mov	w0, #1
	ret
.LBB18_14:
	mov	w0, #1
	mov	x1, x21
	ldp	x20, x19, [sp, #32]
	ldp	x22, x21, [sp, #16]
	ldp	x29, x30, [sp], #48
	ret
.Lfunc_end18:
	.size	nla_wire.members.measure_each.3bb4c8661a1029f4, .Lfunc_end18-nla_wire.members.measure_each.3bb4c8661a1029f4

	.section	.text.nla_wire.members.measure_each.41ac5f0caeaa9df8,"ax",@progbits
	.p2align	2
	.type	nla_wire.members.measure_each.41ac5f0caeaa9df8,@function
nla_wire.members.measure_each.41ac5f0caeaa9df8:
	stp	x29, x30, [sp, #-48]!
	stp	x22, x21, [sp, #16]
	mov	x8, xzr
	mov	x21, xzr
	stp	x20, x19, [sp, #32]
	mov	x19, x1
	mov	x20, x0
	mov	x29, sp
	b	.LBB19_4
.LBB19_1:
	cmp	w22, #40
	b.lo	.LBB19_22
	mov	w1, #36
.LBB19_3:
	add	x8, x1, #3
	and	x8, x8, #0xfffffffffffffffc
	add	x8, x21, x8
	add	x9, x8, #4
	add	w8, w22, #3
	cmp	x9, x21
	and	x8, x8, #0x1fffc
	mov	x21, x9
	b.lo	.LBB19_22
.LBB19_4:
	subs	x19, x19, x8
	b.ls	.LBB19_24
	cmp	x19, #4
	b.lo	.LBB19_22
	add	x20, x20, x8
	mov	w0, wzr
	mov	x2, xzr
	ldrh	w22, [x20]
	cmp	w22, #4
	b.lo	.LBB19_23
	cmp	x19, x22
	b.lo	.LBB19_23
	ldrb	w8, [x20, #2]
	ldrb	w9, [x20, #3]
	sub	x1, x22, #4
	bfi	w8, w9, #8, #6
	sub	w8, w8, #1
	cmp	w8, #12
	b.hi	.LBB19_3
	adrp	x9, .LJTI19_0
	add	x9, x9, :lo12:.LJTI19_0
	adr	x10, .LBB19_1
	ldrb	w11, [x9, x8]
	add	x10, x10, x11, lsl #2
	br	x10
.LBB19_10:
	cmp	w22, #11
	b.ls	.LBB19_22
	mov	w1, #8
	b	.LBB19_3
.LBB19_12:
	cmp	w22, #19
	b.ls	.LBB19_22
	mov	w1, #16
	b	.LBB19_3
.LBB19_14:
	cmp	w22, #15
	b.ls	.LBB19_22
	mov	w1, #12
	b	.LBB19_3
.LBB19_16:
	add	x0, x20, #4
	sub	x1, x22, #4
	bl	nla_wire.members.measure_each.9a0187163d44de3c
	b	.LBB19_20
.LBB19_17:
	cmp	w22, #35
	b.ls	.LBB19_22
	mov	w1, #32
	b	.LBB19_3
.LBB19_19:
	add	x0, x20, #4
	sub	x1, x22, #4
	bl	nla_wire.members.measure_each.5361511d0f913a98
.LBB19_20:
	mov	w8, w0
	mov	w0, wzr
	mov	x2, xzr
	and	w8, w8, #0xff
	cmp	w8, #1
	b.ne	.LBB19_23
	mov	w8, #65532
	cmp	x1, x8
	b.lo	.LBB19_3
	b	.LBB19_23
.LBB19_22:
	mov	x2, xzr
	mov	w0, wzr
.LBB19_23:
	ldp	x20, x19, [sp, #32]
	mov	x1, x2
	ldp	x22, x21, [sp, #16]
	ldp	x29, x30, [sp], #48
	ret
.LBB19_24:
	mov	w0, #1
	mov	x2, x21
	ldp	x20, x19, [sp, #32]
	mov	x1, x2
	ldp	x22, x21, [sp, #16]
	ldp	x29, x30, [sp], #48
	ret
.Lfunc_end19:
	.size	nla_wire.members.measure_each.41ac5f0caeaa9df8, .Lfunc_end19-nla_wire.members.measure_each.41ac5f0caeaa9df8
	.section	.rodata.nla_wire.members.measure_each.41ac5f0caeaa9df8,"a",@progbits
.LJTI19_0:
	.byte	(.LBB19_1-.LBB19_1)>>2
	.byte	(.LBB19_14-.LBB19_1)>>2
	.byte	(.LBB19_10-.LBB19_1)>>2
	.byte	(.LBB19_10-.LBB19_1)>>2
	.byte	(.LBB19_10-.LBB19_1)>>2
	.byte	(.LBB19_14-.LBB19_1)>>2
	.byte	(.LBB19_10-.LBB19_1)>>2
	.byte	(.LBB19_19-.LBB19_1)>>2
	.byte	(.LBB19_10-.LBB19_1)>>2
	.byte	(.LBB19_12-.LBB19_1)>>2
	.byte	(.LBB19_12-.LBB19_1)>>2
	.byte	(.LBB19_16-.LBB19_1)>>2
	.byte	(.LBB19_17-.LBB19_1)>>2

	.section	.text.nla_wire.members.measure_each.5361511d0f913a98,"ax",@progbits
	.p2align	2
	.type	nla_wire.members.measure_each.5361511d0f913a98,@function
nla_wire.members.measure_each.5361511d0f913a98:
	mov	x10, xzr
	mov	x9, xzr
.LBB20_1:
	subs	x1, x1, x10
	b.ls	.LBB20_20
	cmp	x1, #4
	b.lo	.LBB20_18
	add	x0, x0, x10
	mov	w8, wzr
	mov	x2, xzr
	ldrh	w10, [x0]
	cmp	w10, #4
	b.lo	.LBB20_19
	cmp	x1, x10
	b.lo	.LBB20_19
	ldrb	w11, [x0, #2]
	ldrb	w8, [x0, #3]
	bfi	w11, w8, #8, #6
	sub	x8, x10, #4
	cmp	w11, #3
	b.gt	.LBB20_9
	cmp	w11, #1
	b.gt	.LBB20_12
	cbz	w11, .LBB20_16
	cmp	w11, #1
	b.eq	.LBB20_16
	b	.LBB20_17
.LBB20_9:
	cmp	w11, #6
	b.gt	.LBB20_14
	cmp	w11, #4
	b.eq	.LBB20_16
	cmp	w11, #5
	b.eq	.LBB20_16
	b	.LBB20_17
.LBB20_12:
	cmp	w11, #2
	b.eq	.LBB20_16
	cmp	w11, #3
	b.eq	.LBB20_16
	b	.LBB20_17
.LBB20_14:
	cmp	w11, #7
	b.eq	.LBB20_16
	cmp	w11, #8
	b.ne	.LBB20_17
.LBB20_16:
	cmp	x8, #8
	b.ne	.LBB20_18
.LBB20_17:
	add	x8, x8, #3
	add	w10, w10, #3
	and	x8, x8, #0xfffffffffffffffc
	and	x10, x10, #0x1fffc
	add	x8, x9, x8
	add	x8, x8, #4
	cmp	x8, x9
	mov	x9, x8
	b.hs	.LBB20_1
.LBB20_18:
	mov	x2, xzr
	mov	w8, wzr
.LBB20_19:
	mov	w0, w8
	mov	x1, x2
	ret
.LBB20_20:
	mov	w8, #1
	mov	x2, x9
	mov	w0, w8
	mov	x1, x2
	ret
.Lfunc_end20:
	.size	nla_wire.members.measure_each.5361511d0f913a98, .Lfunc_end20-nla_wire.members.measure_each.5361511d0f913a98

	.section	.text.nla_wire.members.measure_each.9a0187163d44de3c,"ax",@progbits
	.p2align	2
	.type	nla_wire.members.measure_each.9a0187163d44de3c,@function
nla_wire.members.measure_each.9a0187163d44de3c:
	mov	x10, xzr
	mov	x9, xzr
	b	.LBB21_2
.LBB21_1:
	cmp	w10, #20
	mov	w11, #16
	sub	x12, x10, #4
	csel	x11, xzr, x11, lo
	cmp	w8, #1
	add	w10, w10, #3
	csel	x8, x11, x12, eq
	and	x10, x10, #0x1fffc
	add	x8, x8, #3
	and	x8, x8, #0xfffffffffffffffc
	add	x8, x9, x8
	add	x8, x8, #4
	cmp	x8, x9
	mov	x9, x8
	b.lo	.LBB21_8
.LBB21_2:
	subs	x1, x1, x10
	b.ls	.LBB21_10
	cmp	x1, #4
	b.lo	.LBB21_8
	add	x0, x0, x10
	mov	w8, wzr
	mov	x2, xzr
	ldrh	w10, [x0]
	cmp	w10, #4
	b.lo	.LBB21_9
	cmp	x1, x10
	b.lo	.LBB21_9
	ldrb	w8, [x0, #2]
	ldrb	w11, [x0, #3]
	bfi	w8, w11, #8, #6
	cmp	w8, #1
	b.ne	.LBB21_1
	cmp	w10, #20
	b.hs	.LBB21_1
.LBB21_8:
	mov	x2, xzr
	mov	w8, wzr
.LBB21_9:
	mov	w0, w8
	mov	x1, x2
	ret
.LBB21_10:
	mov	w8, #1
	mov	x2, x9
	mov	w0, w8
	mov	x1, x2
	ret
.Lfunc_end21:
	.size	nla_wire.members.measure_each.9a0187163d44de3c, .Lfunc_end21-nla_wire.members.measure_each.9a0187163d44de3c

	.section	.text.nla_wire.members.measure_each.79503c7a397af21a,"ax",@progbits
	.p2align	2
	.type	nla_wire.members.measure_each.79503c7a397af21a,@function
nla_wire.members.measure_each.79503c7a397af21a:
	cbz	x1, .LBB22_13
	stp	x29, x30, [sp, #-48]!
	stp	x22, x21, [sp, #16]
	mov	x21, xzr
	mov	x8, xzr
	stp	x20, x19, [sp, #32]
	mov	x19, x1
	mov	x20, x0
	mov	x29, sp
	b	.LBB22_3
.LBB22_2:
	add	w8, w22, #3
	and	x8, x8, #0x1fffc
	cmp	x19, x8
	b.ls	.LBB22_14
.LBB22_3:
	sub	x19, x19, x8
	cmp	x19, #4
	b.lo	.LBB22_11
	add	x20, x20, x8
	mov	w0, wzr
	mov	x1, xzr
	ldrh	w22, [x20]
	cmp	w22, #4
	b.lo	.LBB22_12
	cmp	x19, x22
	b.lo	.LBB22_12
	ldrb	w8, [x20, #2]
	ldrb	w9, [x20, #3]
	bfi	w8, w9, #8, #6
	cmp	w8, #1
	b.ne	.LBB22_2
	sub	x8, x22, #4
	cbz	x8, .LBB22_11
	add	x0, x20, #4
	sub	x1, x22, #4
	bl	nla_wire.members.measure_each.1f0cb788f492ced5
	mov	w9, w0
	mov	x8, x1
	mov	w0, wzr
	and	w9, w9, #0xff
	mov	x1, xzr
	cmp	w9, #1
	b.ne	.LBB22_12
	mov	w9, #65531
	cmp	x8, x9
	b.hi	.LBB22_12
	add	w8, w8, #3
	and	x8, x8, #0x1fffc
	add	x8, x21, x8
	add	x8, x8, #4
	cmp	x8, x21
	mov	x21, x8
	b.hs	.LBB22_2
.LBB22_11:
	mov	x1, xzr
	mov	w0, wzr
.LBB22_12:
	ldp	x20, x19, [sp, #32]
	ldp	x22, x21, [sp, #16]
	ldp	x29, x30, [sp], #48
	ret
.LBB22_13:
	mov	w0, #1
	ret
.LBB22_14:
	mov	w0, #1
	mov	x1, x21
	ldp	x20, x19, [sp, #32]
	ldp	x22, x21, [sp, #16]
	ldp	x29, x30, [sp], #48
	ret
.Lfunc_end22:
	.size	nla_wire.members.measure_each.79503c7a397af21a, .Lfunc_end22-nla_wire.members.measure_each.79503c7a397af21a

	.section	.text.nla_wire.members.measure_each.8ba1f663fcd59a5e,"ax",@progbits
	.p2align	2
	.type	nla_wire.members.measure_each.8ba1f663fcd59a5e,@function
nla_wire.members.measure_each.8ba1f663fcd59a5e:
	mov	x10, xzr
	mov	x9, xzr
.LBB23_1:
	subs	x1, x1, x10
	b.ls	.LBB23_21
	cmp	x1, #4
	b.lo	.LBB23_19
	add	x0, x0, x10
	mov	w8, wzr
	mov	x2, xzr
	ldrh	w10, [x0]
	cmp	w10, #4
	b.lo	.LBB23_20
	cmp	x1, x10
	b.lo	.LBB23_20
	ldrb	w11, [x0, #2]
	ldrb	w8, [x0, #3]
	bfi	w11, w8, #8, #6
	sub	x8, x10, #4
	cmp	w11, #4
	b.gt	.LBB23_10
	cmp	w11, #2
	b.gt	.LBB23_13
	cmp	w11, #1
	b.eq	.LBB23_17
	cmp	w11, #2
	b.ne	.LBB23_18
	cmp	x8, #1
	b.eq	.LBB23_18
	b	.LBB23_19
.LBB23_10:
	cmp	w11, #6
	b.gt	.LBB23_15
	cmp	w11, #5
	b.eq	.LBB23_17
	cmp	w11, #6
	b.eq	.LBB23_17
	b	.LBB23_18
.LBB23_13:
	cmp	w11, #3
	b.eq	.LBB23_17
	cmp	w11, #4
	b.eq	.LBB23_17
	b	.LBB23_18
.LBB23_15:
	cmp	w11, #7
	b.eq	.LBB23_17
	cmp	w11, #8
	b.ne	.LBB23_18
.LBB23_17:
	cmp	x8, #4
	b.ne	.LBB23_19
.LBB23_18:
	add	x8, x8, #3
	add	w10, w10, #3
	and	x8, x8, #0xfffffffffffffffc
	and	x10, x10, #0x1fffc
	add	x8, x9, x8
	add	x8, x8, #4
	cmp	x8, x9
	mov	x9, x8
	b.hs	.LBB23_1
.LBB23_19:
	mov	x2, xzr
	mov	w8, wzr
.LBB23_20:
	mov	w0, w8
	mov	x1, x2
	ret
.LBB23_21:
	mov	w8, #1
	mov	x2, x9
	mov	w0, w8
	mov	x1, x2
	ret
.Lfunc_end23:
	.size	nla_wire.members.measure_each.8ba1f663fcd59a5e, .Lfunc_end23-nla_wire.members.measure_each.8ba1f663fcd59a5e

	.section	.text.nla_wire.members.measure_each.b30b196c481b950e,"ax",@progbits
	.p2align	2
	.type	nla_wire.members.measure_each.b30b196c481b950e,@function
nla_wire.members.measure_each.b30b196c481b950e:
	stp	x29, x30, [sp, #-48]!
	stp	x22, x21, [sp, #16]
	mov	x8, xzr
	mov	x21, xzr
	stp	x20, x19, [sp, #32]
	mov	x19, x1
	mov	x20, x0
	mov	x29, sp
.LBB24_1:
	subs	x19, x19, x8
	b.ls	.LBB24_11
	cmp	x19, #4
	b.lo	.LBB24_9
	add	x20, x20, x8
	mov	w0, wzr
	mov	x1, xzr
	ldrh	w22, [x20]
	cmp	w22, #4
	b.lo	.LBB24_10
	cmp	x19, x22
	b.lo	.LBB24_10
	ldrb	w8, [x20, #2]
	ldrb	w9, [x20, #3]
	sub	x1, x22, #4
	bfi	w8, w9, #8, #6
	cmp	w8, #53
	b.ne	.LBB24_7
	add	x0, x20, #4
	sub	x1, x22, #4
	bl	nla_wire.payload.measure_text
	and	w8, w0, #0xff
	cmp	w8, #1
	b.eq	.LBB24_8
	b	.LBB24_9
.LBB24_7:
	mov	w0, #1
	and	w8, w0, #0xff
	cmp	w8, #1
	b.ne	.LBB24_9
.LBB24_8:
	add	x8, x1, #3
	and	x8, x8, #0xfffffffffffffffc
	add	x8, x21, x8
	add	x9, x8, #4
	add	w8, w22, #3
	cmp	x9, x21
	and	x8, x8, #0x1fffc
	mov	x21, x9
	b.hs	.LBB24_1
.LBB24_9:
	mov	x1, xzr
	mov	w0, wzr
.LBB24_10:
	ldp	x20, x19, [sp, #32]
	ldp	x22, x21, [sp, #16]
	ldp	x29, x30, [sp], #48
	ret
.LBB24_11:
	mov	w0, #1
	mov	x1, x21
	ldp	x20, x19, [sp, #32]
	ldp	x22, x21, [sp, #16]
	ldp	x29, x30, [sp], #48
	ret
.Lfunc_end24:
	.size	nla_wire.members.measure_each.b30b196c481b950e, .Lfunc_end24-nla_wire.members.measure_each.b30b196c481b950e

	.section	.text.nla_wire.members.measure_each.f7f30aae703aa44d,"ax",@progbits
	.p2align	2
	.type	nla_wire.members.measure_each.f7f30aae703aa44d,@function
nla_wire.members.measure_each.f7f30aae703aa44d:
	mov	x10, xzr
	mov	x9, xzr
	b	.LBB25_3
.LBB25_1:
	cmp	x8, #4
	b.ne	.LBB25_9
.LBB25_2:
	add	x8, x8, #3
	add	w10, w10, #3
	and	x8, x8, #0xfffffffffffffffc
	and	x10, x10, #0x1fffc
	add	x8, x9, x8
	add	x8, x8, #4
	cmp	x8, x9
	mov	x9, x8
	b.lo	.LBB25_9
.LBB25_3:
	subs	x1, x1, x10
	b.ls	.LBB25_11
	cmp	x1, #4
	b.lo	.LBB25_9
	add	x0, x0, x10
	mov	w8, wzr
	mov	x2, xzr
	ldrh	w10, [x0]
	cmp	w10, #4
	b.lo	.LBB25_10
	cmp	x1, x10
	b.lo	.LBB25_10
	ldrb	w11, [x0, #2]
	ldrb	w8, [x0, #3]
	bfi	w11, w8, #8, #6
	sub	x8, x10, #4
	cmp	w11, #1
	b.eq	.LBB25_1
	cmp	w11, #2
	b.eq	.LBB25_1
	b	.LBB25_2
.LBB25_9:
	mov	x2, xzr
	mov	w8, wzr
.LBB25_10:
	mov	w0, w8
	mov	x1, x2
	ret
.LBB25_11:
	mov	w8, #1
	mov	x2, x9
	mov	w0, w8
	mov	x1, x2
	ret
.Lfunc_end25:
	.size	nla_wire.members.measure_each.f7f30aae703aa44d, .Lfunc_end25-nla_wire.members.measure_each.f7f30aae703aa44d

	.section	.text.nla_wire.members.measure_each.16a873d75d6df2a1,"ax",@progbits
	.p2align	2
	.type	nla_wire.members.measure_each.16a873d75d6df2a1,@function
nla_wire.members.measure_each.16a873d75d6df2a1:
	stp	x29, x30, [sp, #-48]!
	stp	x22, x21, [sp, #16]
	mov	x8, xzr
	mov	x21, xzr
	stp	x20, x19, [sp, #32]
	mov	x19, x1
	mov	x20, x0
	mov	x29, sp
.LBB26_1:
	subs	x19, x19, x8
	b.ls	.LBB26_14
	cmp	x19, #4
	b.lo	.LBB26_12
	add	x20, x20, x8
	mov	w0, wzr
	mov	x1, xzr
	ldrh	w22, [x20]
	cmp	w22, #4
	b.lo	.LBB26_13
	cmp	x19, x22
	b.lo	.LBB26_13
	ldrb	w8, [x20, #2]
	ldrb	w9, [x20, #3]
	sub	x1, x22, #4
	bfi	w8, w9, #8, #6
	cmp	w8, #3
	b.eq	.LBB26_9
	cmp	w8, #2
	b.eq	.LBB26_8
	cmp	w8, #1
	b.ne	.LBB26_10
.LBB26_8:
	add	x0, x20, #4
	sub	x1, x22, #4
	bl	nla_wire.payload.measure_text
	and	w8, w0, #0xff
	cmp	w8, #1
	b.eq	.LBB26_11
	b	.LBB26_12
.LBB26_9:
	cmp	x1, #4
	cset	w0, eq
	csel	x1, x1, xzr, eq
	and	w8, w0, #0xff
	cmp	w8, #1
	b.eq	.LBB26_11
	b	.LBB26_12
.LBB26_10:
	mov	w0, #1
	and	w8, w0, #0xff
	cmp	w8, #1
	b.ne	.LBB26_12
.LBB26_11:
	add	x8, x1, #3
	and	x8, x8, #0xfffffffffffffffc
	add	x8, x21, x8
	add	x9, x8, #4
	add	w8, w22, #3
	cmp	x9, x21
	and	x8, x8, #0x1fffc
	mov	x21, x9
	b.hs	.LBB26_1
.LBB26_12:
	mov	x1, xzr
	mov	w0, wzr
.LBB26_13:
	ldp	x20, x19, [sp, #32]
	ldp	x22, x21, [sp, #16]
	ldp	x29, x30, [sp], #48
	ret
.LBB26_14:
	mov	w0, #1
	mov	x1, x21
	ldp	x20, x19, [sp, #32]
	ldp	x22, x21, [sp, #16]
	ldp	x29, x30, [sp], #48
	ret
.Lfunc_end26:
	.size	nla_wire.members.measure_each.16a873d75d6df2a1, .Lfunc_end26-nla_wire.members.measure_each.16a873d75d6df2a1

	.section	.text.nla_wire.members.measure_each.5fa77b269143286c,"ax",@progbits
	.p2align	2
	.type	nla_wire.members.measure_each.5fa77b269143286c,@function
nla_wire.members.measure_each.5fa77b269143286c:
	mov	x10, xzr
	mov	x9, xzr
	b	.LBB27_2
.LBB27_1:
	cmp	x11, #4
	add	w10, w10, #3
	csel	x12, xzr, x11, ne
	cmp	w8, #1
	and	x10, x10, #0x1fffc
	csel	x8, x12, x11, eq
	add	x8, x8, #3
	and	x8, x8, #0xfffffffffffffffc
	add	x8, x9, x8
	add	x8, x8, #4
	cmp	x8, x9
	mov	x9, x8
	b.lo	.LBB27_8
.LBB27_2:
	subs	x1, x1, x10
	b.ls	.LBB27_10
	cmp	x1, #4
	b.lo	.LBB27_8
	add	x0, x0, x10
	mov	w8, wzr
	mov	x2, xzr
	ldrh	w10, [x0]
	cmp	w10, #4
	b.lo	.LBB27_9
	cmp	x1, x10
	b.lo	.LBB27_9
	ldrb	w8, [x0, #2]
	ldrb	w11, [x0, #3]
	bfi	w8, w11, #8, #6
	sub	x11, x10, #4
	cmp	w8, #1
	b.ne	.LBB27_1
	cmp	x11, #4
	b.eq	.LBB27_1
.LBB27_8:
	mov	x2, xzr
	mov	w8, wzr
.LBB27_9:
	mov	w0, w8
	mov	x1, x2
	ret
.LBB27_10:
	mov	w8, #1
	mov	x2, x9
	mov	w0, w8
	mov	x1, x2
	ret
.Lfunc_end27:
	.size	nla_wire.members.measure_each.5fa77b269143286c, .Lfunc_end27-nla_wire.members.measure_each.5fa77b269143286c

	.section	.text.nla_wire.members.measure_each.1f0cb788f492ced5,"ax",@progbits
	.p2align	2
	.type	nla_wire.members.measure_each.1f0cb788f492ced5,@function
nla_wire.members.measure_each.1f0cb788f492ced5:
	mov	x10, xzr
	mov	x9, xzr
.LBB28_1:
	subs	x1, x1, x10
	b.ls	.LBB28_8
	cmp	x1, #4
	b.lo	.LBB28_6
	add	x0, x0, x10
	mov	w8, wzr
	mov	x2, xzr
	ldrh	w10, [x0]
	cmp	w10, #4
	b.lo	.LBB28_7
	cmp	x1, x10
	b.lo	.LBB28_7
	sub	x8, x10, #1
	add	w10, w10, #3
	and	x8, x8, #0xfffffffffffffffc
	and	x10, x10, #0x1fffc
	add	x8, x9, x8
	add	x8, x8, #4
	cmp	x8, x9
	mov	x9, x8
	b.hs	.LBB28_1
.LBB28_6:
	mov	x2, xzr
	mov	w8, wzr
.LBB28_7:
	mov	w0, w8
	mov	x1, x2
	ret
.LBB28_8:
	mov	w8, #1
	mov	x2, x9
	mov	w0, w8
	mov	x1, x2
	ret
.Lfunc_end28:
	.size	nla_wire.members.measure_each.1f0cb788f492ced5, .Lfunc_end28-nla_wire.members.measure_each.1f0cb788f492ced5

	.section	.text.nla_wire.members.measure_each.6cf1decf0b22dc4b,"ax",@progbits
	.p2align	2
	.type	nla_wire.members.measure_each.6cf1decf0b22dc4b,@function
nla_wire.members.measure_each.6cf1decf0b22dc4b:
	stp	x29, x30, [sp, #-48]!
	stp	x22, x21, [sp, #16]
	mov	x8, xzr
	mov	x21, xzr
	stp	x20, x19, [sp, #32]
	mov	x19, x1
	mov	x20, x0
	mov	x29, sp
	b	.LBB29_2
.LBB29_1:
	add	x8, x1, #3
	and	x8, x8, #0xfffffffffffffffc
	add	x8, x21, x8
	add	x9, x8, #4
	add	w8, w22, #3
	cmp	x9, x21
	and	x8, x8, #0x1fffc
	mov	x21, x9
	b.lo	.LBB29_18
.LBB29_2:
	subs	x19, x19, x8
	b.ls	.LBB29_19
	cmp	x19, #4
	b.lo	.LBB29_18
	add	x20, x20, x8
	mov	w0, wzr
	mov	x2, xzr
	ldrh	w22, [x20]
	cmp	w22, #4
	b.lo	.LBB29_17
	cmp	x19, x22
	b.lo	.LBB29_17
	ldrb	w8, [x20, #2]
	ldrb	w9, [x20, #3]
	sub	x1, x22, #4
	bfi	w8, w9, #8, #6
	cmp	w8, #45
	b.eq	.LBB29_14
	cmp	w8, #10
	b.eq	.LBB29_11
	cmp	w8, #2
	b.ne	.LBB29_1
	cbz	x1, .LBB29_18
	add	x0, x20, #4
	sub	x1, x22, #4
	bl	nla_wire.members.measure_each.d7cac04ae1e23078
	mov	w8, w0
	mov	w0, wzr
	mov	x2, xzr
	and	w8, w8, #0xff
	cmp	w8, #1
	b.eq	.LBB29_13
	b	.LBB29_17
.LBB29_11:
	cbz	x1, .LBB29_18
	add	x0, x20, #4
	sub	x1, x22, #4
	bl	nla_wire.members.measure_each.97809315b2b26985
	mov	w8, w0
	mov	w0, wzr
	mov	x2, xzr
	and	w8, w8, #0xff
	cmp	w8, #1
	b.ne	.LBB29_17
.LBB29_13:
	mov	w8, #65532
	cmp	x1, x8
	b.lo	.LBB29_1
	b	.LBB29_17
.LBB29_14:
	cbz	x1, .LBB29_18
	add	x0, x20, #4
	sub	x1, x22, #4
	bl	nla_wire.members.measure_each.7562298f77a88fdb
	mov	w8, w0
	mov	w0, wzr
	mov	x2, xzr
	and	w8, w8, #0xff
	cmp	w8, #1
	b.ne	.LBB29_17
	mov	w8, #65531
	cmp	x1, x8
	b.ls	.LBB29_1
.LBB29_17:
	ldp	x20, x19, [sp, #32]
	mov	x1, x2
	ldp	x22, x21, [sp, #16]
	ldp	x29, x30, [sp], #48
	ret
.LBB29_18:
	mov	x2, xzr
	mov	w0, wzr
	ldp	x20, x19, [sp, #32]
	mov	x1, x2
	ldp	x22, x21, [sp, #16]
	ldp	x29, x30, [sp], #48
	ret
.LBB29_19:
	mov	w0, #1
	mov	x2, x21
	ldp	x20, x19, [sp, #32]
	mov	x1, x2
	ldp	x22, x21, [sp, #16]
	ldp	x29, x30, [sp], #48
	ret
.Lfunc_end29:
	.size	nla_wire.members.measure_each.6cf1decf0b22dc4b, .Lfunc_end29-nla_wire.members.measure_each.6cf1decf0b22dc4b

	.section	.text.nla_wire.members.measure_each.d7cac04ae1e23078,"ax",@progbits
	.p2align	2
	.type	nla_wire.members.measure_each.d7cac04ae1e23078,@function
nla_wire.members.measure_each.d7cac04ae1e23078:
	mov	x10, xzr
	mov	x9, xzr
.LBB30_1:
	subs	x1, x1, x10
	b.ls	.LBB30_8
	cmp	x1, #4
	b.lo	.LBB30_6
	add	x0, x0, x10
	mov	w8, wzr
	mov	x2, xzr
	ldrh	w10, [x0]
	cmp	w10, #4
	b.lo	.LBB30_7
	cmp	x1, x10
	b.lo	.LBB30_7
	ldrb	w8, [x0, #2]
	ldrb	w11, [x0, #3]
	bfi	w8, w11, #8, #6
	sub	x11, x10, #1
	add	w10, w10, #3
	and	x11, x11, #0xfffffffffffffffc
	and	x10, x10, #0x1fffc
	add	x11, x11, #4
	cmp	w8, #1
	mov	w8, #140
	csel	x8, x8, x11, eq
	adds	x9, x8, x9
	b.lo	.LBB30_1
.LBB30_6:
	mov	x2, xzr
	mov	w8, wzr
.LBB30_7:
	mov	w0, w8
	mov	x1, x2
	ret
.LBB30_8:
	mov	w8, #1
	mov	x2, x9
	mov	w0, w8
	mov	x1, x2
	ret
.Lfunc_end30:
	.size	nla_wire.members.measure_each.d7cac04ae1e23078, .Lfunc_end30-nla_wire.members.measure_each.d7cac04ae1e23078

	.section	.text.nla_wire.members.measure_each.97809315b2b26985,"ax",@progbits
	.p2align	2
	.type	nla_wire.members.measure_each.97809315b2b26985,@function
nla_wire.members.measure_each.97809315b2b26985:
	mov	x10, xzr
	mov	x9, xzr
	b	.LBB31_5
.LBB31_1:
	cmp	w11, #8
	b.eq	.LBB31_22
	cmp	w11, #9
	b.ne	.LBB31_4
.LBB31_3:
	cmp	x8, #4
	b.ne	.LBB31_25
.LBB31_4:
	add	x8, x8, #3
	add	w10, w10, #3
	and	x8, x8, #0xfffffffffffffffc
	and	x10, x10, #0x1fffc
	add	x8, x9, x8
	add	x8, x8, #4
	cmp	x8, x9
	mov	x9, x8
	b.lo	.LBB31_25
.LBB31_5:
	subs	x1, x1, x10
	b.ls	.LBB31_27
	cmp	x1, #4
	b.lo	.LBB31_25
	add	x0, x0, x10
	mov	w8, wzr
	mov	x2, xzr
	ldrh	w10, [x0]
	cmp	w10, #4
	b.lo	.LBB31_26
	cmp	x1, x10
	b.lo	.LBB31_26
	ldrb	w11, [x0, #2]
	ldrb	w8, [x0, #3]
	bfi	w11, w8, #8, #6
	sub	x8, x10, #4
	cmp	w11, #5
	b.gt	.LBB31_14
	cmp	w11, #2
	b.gt	.LBB31_18
	cmp	w11, #1
	b.eq	.LBB31_3
	cmp	w11, #2
	b.ne	.LBB31_4
	mov	w8, #240
	b	.LBB31_4
.LBB31_14:
	cmp	w11, #7
	b.gt	.LBB31_1
	cmp	w11, #6
	b.eq	.LBB31_23
	cmp	w11, #7
	b.ne	.LBB31_4
	cmp	x8, #16
	b.eq	.LBB31_4
	b	.LBB31_25
.LBB31_18:
	cmp	w11, #3
	b.eq	.LBB31_24
	cmp	w11, #5
	b.ne	.LBB31_4
	cmp	w10, #19
	b.ls	.LBB31_25
	mov	w8, #16
	b	.LBB31_4
.LBB31_22:
	cmp	x8, #1
	b.eq	.LBB31_4
	b	.LBB31_25
.LBB31_23:
	mov	w8, #56
	b	.LBB31_4
.LBB31_24:
	mov	w8, #312
	b	.LBB31_4
.LBB31_25:
	mov	x2, xzr
	mov	w8, wzr
.LBB31_26:
	mov	w0, w8
	mov	x1, x2
	ret
.LBB31_27:
	mov	w8, #1
	mov	x2, x9
	mov	w0, w8
	mov	x1, x2
	ret
.Lfunc_end31:
	.size	nla_wire.members.measure_each.97809315b2b26985, .Lfunc_end31-nla_wire.members.measure_each.97809315b2b26985

	.section	.text.nla_wire.members.measure_each.7562298f77a88fdb,"ax",@progbits
	.p2align	2
	.type	nla_wire.members.measure_each.7562298f77a88fdb,@function
nla_wire.members.measure_each.7562298f77a88fdb:
	mov	x10, xzr
	mov	x9, xzr
	b	.LBB32_3
.LBB32_1:
	cmp	x8, #4
	b.ne	.LBB32_10
.LBB32_2:
	add	x8, x8, #3
	add	w10, w10, #3
	and	x8, x8, #0xfffffffffffffffc
	and	x10, x10, #0x1fffc
	add	x8, x9, x8
	add	x8, x8, #4
	cmp	x8, x9
	mov	x9, x8
	b.lo	.LBB32_10
.LBB32_3:
	subs	x1, x1, x10
	b.ls	.LBB32_12
	cmp	x1, #4
	b.lo	.LBB32_10
	add	x0, x0, x10
	mov	w8, wzr
	mov	x2, xzr
	ldrh	w10, [x0]
	cmp	w10, #4
	b.lo	.LBB32_11
	cmp	x1, x10
	b.lo	.LBB32_11
	ldrb	w11, [x0, #2]
	ldrb	w8, [x0, #3]
	bfi	w11, w8, #8, #6
	sub	x8, x10, #4
	cmp	w11, #1
	b.eq	.LBB32_1
	cmp	w11, #2
	b.ne	.LBB32_2
	cmp	x8, #1
	b.eq	.LBB32_2
.LBB32_10:
	mov	x2, xzr
	mov	w8, wzr
.LBB32_11:
	mov	w0, w8
	mov	x1, x2
	ret
.LBB32_12:
	mov	w8, #1
	mov	x2, x9
	mov	w0, w8
	mov	x1, x2
	ret
.Lfunc_end32:
	.size	nla_wire.members.measure_each.7562298f77a88fdb, .Lfunc_end32-nla_wire.members.measure_each.7562298f77a88fdb

	.section	.text.nla_wire.place.check_one.c4c48bc1b6cb0726,"ax",@progbits
	.p2align	2
	.type	nla_wire.place.check_one.c4c48bc1b6cb0726,@function
nla_wire.place.check_one.c4c48bc1b6cb0726:
	sub	sp, sp, #160
	ldrh	w9, [x2]
	movi	v0.2d, #0000000000000000
	stp	x20, x19, [sp, #144]
	mov	x19, x0
	stp	x29, x30, [sp, #64]
	add	x29, sp, #64
	and	w9, w9, #0x3fff
	stp	x28, x27, [sp, #80]
	sub	w9, w9, #1
	stp	x26, x25, [sp, #96]
	cmp	w9, #68
	stp	x24, x23, [sp, #112]
	stp	x22, x21, [sp, #128]
	stp	q0, q0, [sp, #32]
	str	q0, [sp, #16]
	b.hi	.LBB33_18
	mov	x20, x2
	adrp	x10, .LJTI33_0
	add	x10, x10, :lo12:.LJTI33_0
	ldr	x2, [x2, #8]
	ldr	x3, [x20, #16]
	adr	x11, .LBB33_2
	ldrb	w12, [x10, x9]
	add	x11, x11, x12, lsl #2
	mov	w8, w1
	mov	w1, wzr
	br	x11
.LBB33_2:
	mov	w1, #4
.LBB33_3:
	add	x0, sp, #16
	bl	link_msg.shape.Shape.check
	ldrb	w24, [sp, #16]
	cbz	w24, .LBB33_19
	ldrh	w8, [sp, #42]
	ldp	x21, x22, [sp, #24]
	ldp	x28, x26, [sp, #48]
	ldrh	w25, [sp, #40]
	str	w8, [sp, #12]
	ldrh	w8, [x20]
	ldr	w27, [sp, #44]
	and	w0, w8, #0x3fff
	bl	link_msg.numbers.kind_name
	mov	x23, x0
	mov	x20, x1
	adrp	x2, .Lstatic.20
	add	x2, x2, :lo12:.Lstatic.20
	mov	x0, x21
	mov	x1, x22
	mov	w3, #7
	bl	core.cmp.text.RefStrPartialEq.eq
	cbz	w0, .LBB33_7
	cbz	x20, .LBB33_7
	mov	w27, wzr
	and	w25, w25, #0xff
	mov	x21, x23
	b	.LBB33_8
.LBB33_7:
	mov	x20, x22
.LBB33_8:
	ldr	w8, [sp, #12]
	b	.LBB33_20
.LBB33_9:
	mov	w1, #1
	b	.LBB33_3
.LBB33_10:
	mov	w1, #2
	b	.LBB33_3
.LBB33_11:
	mov	w1, #6
	b	.LBB33_3
.LBB33_12:
	cmp	x3, #2
	b.ne	.LBB33_18
	mov	w1, #3
	b	.LBB33_3
.LBB33_14:
	mov	w1, #8
	b	.LBB33_3
.LBB33_15:
	mov	w1, #16
	b	.LBB33_3
.LBB33_16:
	mov	w1, #10
	b	.LBB33_3
.LBB33_17:
	and	w8, w8, #0xff
	mov	w9, #1
	mov	w10, #51
	lsl	w9, w9, w8
	mov	w1, #21
	tst	w9, w10
	b.eq	.LBB33_33
.LBB33_18:
	mov	w24, wzr
.LBB33_19:
	mov	x21, xzr
	mov	x20, xzr
	mov	w25, wzr
	mov	w8, wzr
	mov	w27, wzr
	mov	x28, xzr
	mov	x26, xzr
.LBB33_20:
	strb	w24, [x19]
	ldp	x24, x23, [sp, #112]
	stp	x21, x20, [x19, #8]
	ldp	x22, x21, [sp, #128]
	strh	w25, [x19, #24]
	ldp	x29, x30, [sp, #64]
	strh	w8, [x19, #26]
	str	w27, [x19, #28]
	stp	x28, x26, [x19, #32]
	ldp	x20, x19, [sp, #144]
	ldp	x26, x25, [sp, #96]
	ldp	x28, x27, [sp, #80]
	add	sp, sp, #160
	ret
.LBB33_21:
	mov	w1, #13
	b	.LBB33_3
.LBB33_22:
	mov	w1, #9
	b	.LBB33_3
.LBB33_23:
	mov	w1, #15
	b	.LBB33_3
.LBB33_24:
	mov	w1, #18
	b	.LBB33_3
.LBB33_25:
	mov	w1, #17
	b	.LBB33_3
.LBB33_26:
	ubfiz	x8, x8, #3, #8
	mov	w9, #23
	movk	w9, #22, lsl #16
	lsr	x1, x9, x8
	b	.LBB33_3
.LBB33_27:
	mov	w1, #12
	b	.LBB33_3
.LBB33_28:
	mov	w1, #5
	b	.LBB33_3
.LBB33_29:
	mov	w1, #11
	b	.LBB33_3
.LBB33_30:
	mov	w1, #7
	b	.LBB33_3
.LBB33_31:
	mov	w1, #19
	b	.LBB33_3
.LBB33_32:
	mov	w1, #14
	b	.LBB33_3
.LBB33_33:
	cmp	w8, #2
	b.ne	.LBB33_3
	mov	w1, #20
	b	.LBB33_3
.Lfunc_end33:
	.size	nla_wire.place.check_one.c4c48bc1b6cb0726, .Lfunc_end33-nla_wire.place.check_one.c4c48bc1b6cb0726
	.section	.rodata.nla_wire.place.check_one.c4c48bc1b6cb0726,"a",@progbits
.LJTI33_0:
	.byte	(.LBB33_3-.LBB33_2)>>2
	.byte	(.LBB33_3-.LBB33_2)>>2
	.byte	(.LBB33_9-.LBB33_2)>>2
	.byte	(.LBB33_2-.LBB33_2)>>2
	.byte	(.LBB33_2-.LBB33_2)>>2
	.byte	(.LBB33_9-.LBB33_2)>>2
	.byte	(.LBB33_30-.LBB33_2)>>2
	.byte	(.LBB33_18-.LBB33_2)>>2
	.byte	(.LBB33_18-.LBB33_2)>>2
	.byte	(.LBB33_2-.LBB33_2)>>2
	.byte	(.LBB33_16-.LBB33_2)>>2
	.byte	(.LBB33_17-.LBB33_2)>>2
	.byte	(.LBB33_2-.LBB33_2)>>2
	.byte	(.LBB33_22-.LBB33_2)>>2
	.byte	(.LBB33_18-.LBB33_2)>>2
	.byte	(.LBB33_10-.LBB33_2)>>2
	.byte	(.LBB33_10-.LBB33_2)>>2
	.byte	(.LBB33_27-.LBB33_2)>>2
	.byte	(.LBB33_2-.LBB33_2)>>2
	.byte	(.LBB33_9-.LBB33_2)>>2
	.byte	(.LBB33_2-.LBB33_2)>>2
	.byte	(.LBB33_21-.LBB33_2)>>2
	.byte	(.LBB33_14-.LBB33_2)>>2
	.byte	(.LBB33_32-.LBB33_2)>>2
	.byte	(.LBB33_29-.LBB33_2)>>2
	.byte	(.LBB33_26-.LBB33_2)>>2
	.byte	(.LBB33_2-.LBB33_2)>>2
	.byte	(.LBB33_2-.LBB33_2)>>2
	.byte	(.LBB33_2-.LBB33_2)>>2
	.byte	(.LBB33_2-.LBB33_2)>>2
	.byte	(.LBB33_2-.LBB33_2)>>2
	.byte	(.LBB33_2-.LBB33_2)>>2
	.byte	(.LBB33_10-.LBB33_2)>>2
	.byte	(.LBB33_11-.LBB33_2)>>2
	.byte	(.LBB33_2-.LBB33_2)>>2
	.byte	(.LBB33_11-.LBB33_2)>>2
	.byte	(.LBB33_2-.LBB33_2)>>2
	.byte	(.LBB33_9-.LBB33_2)>>2
	.byte	(.LBB33_10-.LBB33_2)>>2
	.byte	(.LBB33_2-.LBB33_2)>>2
	.byte	(.LBB33_2-.LBB33_2)>>2
	.byte	(.LBB33_18-.LBB33_2)>>2
	.byte	(.LBB33_23-.LBB33_2)>>2
	.byte	(.LBB33_2-.LBB33_2)>>2
	.byte	(.LBB33_2-.LBB33_2)>>2
	.byte	(.LBB33_2-.LBB33_2)>>2
	.byte	(.LBB33_2-.LBB33_2)>>2
	.byte	(.LBB33_2-.LBB33_2)>>2
	.byte	(.LBB33_2-.LBB33_2)>>2
	.byte	(.LBB33_2-.LBB33_2)>>2
	.byte	(.LBB33_2-.LBB33_2)>>2
	.byte	(.LBB33_15-.LBB33_2)>>2
	.byte	(.LBB33_18-.LBB33_2)>>2
	.byte	(.LBB33_3-.LBB33_2)>>2
	.byte	(.LBB33_25-.LBB33_2)>>2
	.byte	(.LBB33_9-.LBB33_2)>>2
	.byte	(.LBB33_9-.LBB33_2)>>2
	.byte	(.LBB33_2-.LBB33_2)>>2
	.byte	(.LBB33_2-.LBB33_2)>>2
	.byte	(.LBB33_2-.LBB33_2)>>2
	.byte	(.LBB33_2-.LBB33_2)>>2
	.byte	(.LBB33_24-.LBB33_2)>>2
	.byte	(.LBB33_2-.LBB33_2)>>2
	.byte	(.LBB33_2-.LBB33_2)>>2
	.byte	(.LBB33_31-.LBB33_2)>>2
	.byte	(.LBB33_18-.LBB33_2)>>2
	.byte	(.LBB33_28-.LBB33_2)>>2
	.byte	(.LBB33_12-.LBB33_2)>>2
	.byte	(.LBB33_12-.LBB33_2)>>2

	.section	.rodata.cst16,"aM",@progbits,16
	.p2align	4, 0x0
.LCPI34_0:
	.xword	7
	.xword	4
.LCPI34_1:
	.xword	7
	.xword	0
	.section	.text.link_msg.shape.Shape.check,"ax",@progbits
	.p2align	2
	.type	link_msg.shape.Shape.check,@function
link_msg.shape.Shape.check:
	sub	sp, sp, #208
	movi	v0.2d, #0000000000000000
	and	x9, x1, #0xff
	adrp	x10, .LJTI34_0
	add	x10, x10, :lo12:.LJTI34_0
	stp	x29, x30, [sp, #128]
	add	x29, sp, #128
	stp	x26, x25, [sp, #144]
	mov	w8, wzr
	stp	x24, x23, [sp, #160]
	stp	x22, x21, [sp, #176]
	mov	x21, x2
	stp	x20, x19, [sp, #192]
	mov	x20, x3
	mov	x19, x0
	stp	q0, q0, [sp, #16]
	str	q0, [sp]
	adr	x11, .LBB34_1
	ldrh	w12, [x10, x9, lsl #1]
	add	x11, x11, x12, lsl #2
	br	x11
.LBB34_1:
	mov	x0, sp
	mov	x1, x21
	mov	x2, x20
	bl	nla_wire.text.check_string
	ldrb	w8, [sp]
	b	.LBB34_185
.LBB34_2:
	cmp	x20, #31
	b.hi	.LBB34_39
	adrp	x9, .LCPI34_1
	adrp	x8, .Lstatic.20
	add	x8, x8, :lo12:.Lstatic.20
	ldr	q0, [x9, :lo12:.LCPI34_1]
	stur	xzr, [x29, #-48]
	mov	w10, #32
	stur	x8, [x29, #-41]
	sub	x8, x29, #48
	stur	x20, [x29, #-17]
	stur	q0, [x29, #-33]
	b	.LBB34_164
.LBB34_4:
	cbz	x20, .LBB34_104
	add	x9, sp, #56
	mov	x8, xzr
	stp	q0, q0, [x29, #-48]
	orr	x22, x9, #0x2
	stur	q0, [x29, #-16]
	b	.LBB34_8
.LBB34_6:
	sub	x0, x29, #48
	add	x1, sp, #56
	strh	w24, [sp, #56]
	str	wzr, [x22]
	strh	wzr, [x22, #4]
	stp	x25, x26, [sp, #64]
	bl	nla_wire.place.check_one.49064c0641319ce4
	ldurb	w8, [x29, #-48]
	cbnz	w8, .LBB34_179
.LBB34_7:
	add	w8, w23, #3
	and	x8, x8, #0x1fffc
	cmp	x20, x8
	b.ls	.LBB34_171
.LBB34_8:
	sub	x20, x20, x8
	cmp	x20, #4
	b.lo	.LBB34_170
	add	x21, x21, x8
	ldrh	w23, [x21]
	cmp	x20, x23
	b.lo	.LBB34_172
	cmp	w23, #3
	b.ls	.LBB34_174
	ldrh	w24, [x21, #2]
	add	x25, x21, #4
	sub	x26, x23, #4
	and	w8, w24, #0x3fff
	cmp	w8, #1
	b.ne	.LBB34_13
	add	x0, x21, #4
	sub	x1, x23, #4
	bl	nla_wire.payload.measure_text
	and	w8, w0, #0xff
	cmp	w8, #1
	b.eq	.LBB34_7
	b	.LBB34_6
.LBB34_13:
	mov	w0, #1
	and	w8, w0, #0xff
	cmp	w8, #1
	b.eq	.LBB34_7
	b	.LBB34_6
.LBB34_14:
	cmp	x20, #4
	b.eq	.LBB34_39
	adrp	x8, .Lstatic.20
	add	x8, x8, :lo12:.Lstatic.20
	stur	xzr, [x29, #-48]
	stur	x8, [x29, #-41]
	mov	w8, #7
	mov	w10, #4
	b	.LBB34_163
.LBB34_16:
	cbz	x20, .LBB34_104
	mov	x8, xzr
	stp	q0, q0, [x29, #-32]
	stur	q0, [x29, #-48]
	b	.LBB34_20
.LBB34_18:
	sub	x0, x29, #48
	sub	x2, x22, #4
	bl	nla_wire.place.check_one.8ba1f663fcd59a5e
	ldurb	w8, [x29, #-48]
	cbnz	w8, .LBB34_179
.LBB34_19:
	add	w8, w22, #3
	and	x8, x8, #0x1fffc
	cmp	x20, x8
	b.ls	.LBB34_171
.LBB34_20:
	sub	x20, x20, x8
	cmp	x20, #4
	b.lo	.LBB34_170
	add	x21, x21, x8
	ldrh	w22, [x21]
	cmp	x20, x22
	b.lo	.LBB34_180
	cmp	w22, #3
	b.ls	.LBB34_181
	ldrh	w1, [x21, #2]
	sub	x8, x22, #4
	and	w9, w1, #0x3fff
	cmp	w9, #4
	b.gt	.LBB34_28
	cmp	w9, #2
	b.gt	.LBB34_31
	cmp	w9, #1
	b.eq	.LBB34_35
	cmp	w9, #2
	b.ne	.LBB34_19
	cmp	x8, #1
	b.ne	.LBB34_18
	b	.LBB34_19
.LBB34_28:
	cmp	w9, #6
	b.gt	.LBB34_33
	cmp	w9, #5
	b.eq	.LBB34_35
	cmp	w9, #6
	b.eq	.LBB34_35
	b	.LBB34_19
.LBB34_31:
	cmp	w9, #3
	b.eq	.LBB34_35
	cmp	w9, #4
	b.eq	.LBB34_35
	b	.LBB34_19
.LBB34_33:
	cmp	w9, #7
	b.eq	.LBB34_35
	cmp	w9, #8
	b.ne	.LBB34_19
.LBB34_35:
	cmp	x8, #4
	b.ne	.LBB34_18
	b	.LBB34_19
.LBB34_36:
	cmp	x20, #1
	b.eq	.LBB34_39
	adrp	x8, .Lstatic.20
	add	x8, x8, :lo12:.Lstatic.20
	stur	xzr, [x29, #-48]
	stur	x8, [x29, #-41]
	mov	w8, #7
	sub	x9, x29, #48
	stur	x8, [x29, #-33]
	mov	w8, #5
	orr	x9, x9, #0x7
	stur	x8, [x29, #-25]
	mov	w8, #1
	stur	x20, [x29, #-17]
	stur	x8, [x29, #-9]
	b	.LBB34_165
.LBB34_38:
	cmp	x20, #2
	b.ne	.LBB34_162
.LBB34_39:
	sub	x9, x29, #48
	mov	w8, wzr
	stur	q0, [x29, #-17]
	orr	x9, x9, #0x7
	stp	q0, q0, [x29, #-48]
	b	.LBB34_165
.LBB34_40:
	cmp	x20, #8
	b.hs	.LBB34_166
	adrp	x9, .Lstatic.20
	add	x9, x9, :lo12:.Lstatic.20
	mov	w8, #1
	mov	w10, #8
	mov	w11, #7
	b	.LBB34_167
.LBB34_42:
	cmp	x20, #1
	b.ne	.LBB34_168
	mov	x10, xzr
	mov	w13, wzr
	mov	x12, xzr
	mov	w11, wzr
	mov	x20, xzr
	mov	x9, xzr
	mov	w8, wzr
	b	.LBB34_169
.LBB34_44:
	stp	q0, q0, [x29, #-48]
	stur	q0, [x29, #-16]
	cbz	x20, .LBB34_136
	add	x9, sp, #56
	mov	x8, xzr
	orr	x22, x9, #0x2
	b	.LBB34_48
.LBB34_46:
	sub	x0, x29, #48
	add	x1, sp, #56
	strh	w24, [sp, #56]
	str	wzr, [x22]
	strh	wzr, [x22, #4]
	stp	x26, x25, [sp, #64]
	bl	nla_wire.place.check_one.3bb4c8661a1029f4
	ldurb	w8, [x29, #-48]
	cbnz	w8, .LBB34_123
.LBB34_47:
	add	w8, w23, #3
	and	x8, x8, #0x1fffc
	cmp	x20, x8
	b.ls	.LBB34_154
.LBB34_48:
	sub	x20, x20, x8
	cmp	x20, #4
	b.lo	.LBB34_153
	add	x21, x21, x8
	ldrh	w23, [x21]
	cmp	x20, x23
	b.lo	.LBB34_160
	cmp	w23, #3
	b.ls	.LBB34_161
	ldrh	w24, [x21, #2]
	and	w8, w24, #0x3fff
	cmp	w8, #1
	b.ne	.LBB34_47
	sub	x25, x23, #4
	add	x26, x21, #4
	cbz	x25, .LBB34_46
	add	x0, x21, #4
	sub	x1, x23, #4
	bl	nla_wire.members.measure_each.41ac5f0caeaa9df8
	and	w8, w0, #0xff
	cmp	w8, #1
	b.ne	.LBB34_46
	mov	w8, #65532
	cmp	x1, x8
	b.lo	.LBB34_47
	b	.LBB34_46
.LBB34_55:
	stp	q0, q0, [x29, #-32]
	stur	q0, [x29, #-48]
	cbz	x20, .LBB34_136
	mov	x8, xzr
	b	.LBB34_58
.LBB34_57:
	add	w8, w22, #3
	and	x8, x8, #0x1fffc
	cmp	x20, x8
	b.ls	.LBB34_154
.LBB34_58:
	sub	x20, x20, x8
	cmp	x20, #4
	b.lo	.LBB34_153
	add	x21, x21, x8
	ldrh	w22, [x21]
	cmp	x20, x22
	b.lo	.LBB34_173
	cmp	w22, #3
	b.ls	.LBB34_175
	ldrh	w1, [x21, #2]
	and	w8, w1, #0x3fff
	sub	w8, w8, #3
	cmn	w8, #2
	b.lo	.LBB34_57
	sub	x8, x22, #4
	cmp	x8, #4
	b.eq	.LBB34_57
	sub	x0, x29, #48
	sub	x2, x22, #4
	bl	nla_wire.place.check_one.f7f30aae703aa44d
	ldurb	w8, [x29, #-48]
	cbz	w8, .LBB34_57
	b	.LBB34_123
.LBB34_64:
	cbz	x20, .LBB34_104
	mov	x8, xzr
.LBB34_66:
	sub	x20, x20, x8
	cmp	x20, #4
	b.lo	.LBB34_155
	add	x21, x21, x8
	ldrh	w8, [x21]
	cmp	x20, x8
	b.lo	.LBB34_156
	cmp	w8, #3
	b.ls	.LBB34_157
	add	w8, w8, #3
	and	x8, x8, #0x1fffc
	cmp	x20, x8
	b.hi	.LBB34_66
	b	.LBB34_101
.LBB34_70:
	cbz	x20, .LBB34_104
	mov	x8, xzr
.LBB34_72:
	sub	x20, x20, x8
	cmp	x20, #4
	b.lo	.LBB34_155
	add	x21, x21, x8
	ldrh	w8, [x21]
	cmp	x20, x8
	b.lo	.LBB34_156
	cmp	w8, #3
	b.ls	.LBB34_157
	add	w8, w8, #3
	and	x8, x8, #0x1fffc
	cmp	x20, x8
	b.hi	.LBB34_72
	b	.LBB34_101
.LBB34_76:
	stp	q0, q0, [x29, #-48]
	stur	q0, [x29, #-16]
	cbz	x20, .LBB34_136
	add	x9, sp, #56
	mov	x8, xzr
	orr	x22, x9, #0x2
	b	.LBB34_80
.LBB34_78:
	sub	x0, x29, #48
	add	x1, sp, #56
	strh	w24, [sp, #56]
	str	wzr, [x22]
	strh	wzr, [x22, #4]
	stp	x25, x26, [sp, #64]
	bl	nla_wire.place.check_one.16a873d75d6df2a1
	ldurb	w8, [x29, #-48]
	cbnz	w8, .LBB34_123
.LBB34_79:
	add	w8, w23, #3
	and	x8, x8, #0x1fffc
	cmp	x20, x8
	b.ls	.LBB34_154
.LBB34_80:
	sub	x20, x20, x8
	cmp	x20, #4
	b.lo	.LBB34_153
	add	x21, x21, x8
	ldrh	w23, [x21]
	cmp	x20, x23
	b.lo	.LBB34_160
	cmp	w23, #3
	b.ls	.LBB34_161
	ldrh	w24, [x21, #2]
	add	x25, x21, #4
	sub	x26, x23, #4
	and	w8, w24, #0x3fff
	cmp	w8, #3
	b.eq	.LBB34_87
	cmp	w8, #2
	b.eq	.LBB34_86
	cmp	w8, #1
	b.ne	.LBB34_88
.LBB34_86:
	add	x0, x21, #4
	sub	x1, x23, #4
	bl	nla_wire.payload.measure_text
	and	w8, w0, #0xff
	cmp	w8, #1
	b.eq	.LBB34_79
	b	.LBB34_78
.LBB34_87:
	cmp	x26, #4
	cset	w0, eq
	and	w8, w0, #0xff
	cmp	w8, #1
	b.ne	.LBB34_78
	b	.LBB34_79
.LBB34_88:
	mov	w0, #1
	and	w8, w0, #0xff
	cmp	w8, #1
	b.eq	.LBB34_79
	b	.LBB34_78
.LBB34_89:
	cbz	x20, .LBB34_104
	mov	x8, xzr
.LBB34_91:
	sub	x20, x20, x8
	cmp	x20, #4
	b.lo	.LBB34_155
	add	x21, x21, x8
	ldrh	w8, [x21]
	cmp	x20, x8
	b.lo	.LBB34_156
	cmp	w8, #3
	b.ls	.LBB34_157
	add	w8, w8, #3
	and	x8, x8, #0x1fffc
	cmp	x20, x8
	b.hi	.LBB34_91
	b	.LBB34_101
.LBB34_95:
	cbz	x20, .LBB34_104
	mov	x8, xzr
.LBB34_97:
	sub	x20, x20, x8
	cmp	x20, #4
	b.lo	.LBB34_155
	add	x21, x21, x8
	ldrh	w8, [x21]
	cmp	x20, x8
	b.lo	.LBB34_156
	cmp	w8, #3
	b.ls	.LBB34_157
	add	w8, w8, #3
	and	x8, x8, #0x1fffc
	cmp	x20, x8
	b.hi	.LBB34_97
.LBB34_101:
	mov	w8, wzr
	mov	x10, xzr
	mov	x9, xzr
	mov	x20, xzr
	mov	x11, xzr
	b	.LBB34_159
.LBB34_102:
	cbz	x20, .LBB34_104
	add	x9, sp, #56
	mov	x8, xzr
	stp	q0, q0, [x29, #-48]
	orr	x22, x9, #0x2
	stur	q0, [x29, #-16]
	b	.LBB34_107
.LBB34_104:
	adrp	x8, .LCPI34_0
	stp	xzr, xzr, [sp, #32]
	ldr	q0, [x8, :lo12:.LCPI34_0]
	adrp	x8, .Lstatic.20
	add	x8, x8, :lo12:.Lstatic.20
	str	x8, [sp, #8]
	mov	w8, #1
	str	q0, [sp, #16]
	b	.LBB34_185
.LBB34_105:
	sub	x0, x29, #48
	add	x1, sp, #56
	strh	w24, [sp, #56]
	str	wzr, [x22]
	strh	wzr, [x22, #4]
	stp	x26, x25, [sp, #64]
	bl	nla_wire.place.check_one.79503c7a397af21a
	ldurb	w8, [x29, #-48]
	cbnz	w8, .LBB34_179
.LBB34_106:
	add	w8, w23, #3
	and	x8, x8, #0x1fffc
	cmp	x20, x8
	b.ls	.LBB34_171
.LBB34_107:
	sub	x20, x20, x8
	cmp	x20, #4
	b.lo	.LBB34_170
	add	x21, x21, x8
	ldrh	w23, [x21]
	cmp	x20, x23
	b.lo	.LBB34_172
	cmp	w23, #3
	b.ls	.LBB34_174
	ldrh	w24, [x21, #2]
	and	w8, w24, #0x3fff
	cmp	w8, #1
	b.ne	.LBB34_106
	sub	x25, x23, #4
	add	x26, x21, #4
	cbz	x25, .LBB34_105
	add	x0, x21, #4
	sub	x1, x23, #4
	bl	nla_wire.members.measure_each.1f0cb788f492ced5
	and	w8, w0, #0xff
	cmp	w8, #1
	b.ne	.LBB34_105
	mov	w8, #65532
	cmp	x1, x8
	b.lo	.LBB34_106
	b	.LBB34_105
.LBB34_114:
	stp	q0, q0, [x29, #-32]
	stur	q0, [x29, #-48]
	cbz	x20, .LBB34_136
	mov	x8, xzr
	b	.LBB34_117
.LBB34_116:
	add	w8, w22, #3
	and	x8, x8, #0x1fffc
	cmp	x20, x8
	b.ls	.LBB34_154
.LBB34_117:
	sub	x20, x20, x8
	cmp	x20, #4
	b.lo	.LBB34_153
	add	x21, x21, x8
	ldrh	w22, [x21]
	cmp	x20, x22
	b.lo	.LBB34_173
	cmp	w22, #3
	b.ls	.LBB34_175
	ldrh	w1, [x21, #2]
	and	w8, w1, #0x3fff
	cmp	w8, #1
	b.ne	.LBB34_116
	sub	x8, x22, #4
	cmp	x8, #4
	b.eq	.LBB34_116
	sub	x0, x29, #48
	sub	x2, x22, #4
	bl	nla_wire.place.check_one.5fa77b269143286c
	ldurb	w8, [x29, #-48]
	cbz	w8, .LBB34_116
.LBB34_123:
	ldurh	w8, [x29, #-34]
	ldur	w9, [x29, #-38]
	ldurb	w10, [x29, #-40]
	ldp	x20, x13, [x29, #-16]
	ldurb	w12, [x29, #-39]
	orr	x11, x9, x8, lsl #32
	mov	w8, #1
	ldp	x14, x9, [x29, #-32]
	b	.LBB34_178
.LBB34_124:
	stp	q0, q0, [x29, #-48]
	stur	q0, [x29, #-16]
	cbz	x20, .LBB34_136
	add	x9, sp, #56
	mov	x8, xzr
	orr	x22, x9, #0x2
	b	.LBB34_128
.LBB34_126:
	sub	x0, x29, #48
	add	x1, sp, #56
	strh	w24, [sp, #56]
	str	wzr, [x22]
	strh	wzr, [x22, #4]
	stp	x25, x26, [sp, #64]
	bl	nla_wire.place.check_one.b30b196c481b950e
	ldurb	w8, [x29, #-48]
	cbnz	w8, .LBB34_123
.LBB34_127:
	add	w8, w23, #3
	and	x8, x8, #0x1fffc
	cmp	x20, x8
	b.ls	.LBB34_154
.LBB34_128:
	sub	x20, x20, x8
	cmp	x20, #4
	b.lo	.LBB34_153
	add	x21, x21, x8
	ldrh	w23, [x21]
	cmp	x20, x23
	b.lo	.LBB34_160
	cmp	w23, #3
	b.ls	.LBB34_161
	ldrh	w24, [x21, #2]
	add	x25, x21, #4
	sub	x26, x23, #4
	and	w8, w24, #0x3fff
	cmp	w8, #53
	b.ne	.LBB34_133
	add	x0, x21, #4
	sub	x1, x23, #4
	bl	nla_wire.payload.measure_text
	and	w8, w0, #0xff
	cmp	w8, #1
	b.eq	.LBB34_127
	b	.LBB34_126
.LBB34_133:
	mov	w0, #1
	and	w8, w0, #0xff
	cmp	w8, #1
	b.eq	.LBB34_127
	b	.LBB34_126
.LBB34_134:
	stp	q0, q0, [x29, #-48]
	stur	q0, [x29, #-16]
	cbz	x20, .LBB34_136
	add	x9, sp, #56
	mov	x8, xzr
	orr	x22, x9, #0x2
	b	.LBB34_139
.LBB34_136:
	mov	w10, wzr
	mov	w12, wzr
	mov	w8, wzr
	mov	x11, xzr
	mov	x14, xzr
	mov	x9, xzr
	mov	x13, xzr
	b	.LBB34_178
.LBB34_137:
	sub	x0, x29, #48
	add	x1, sp, #56
	strh	w24, [sp, #56]
	str	wzr, [x22]
	strh	wzr, [x22, #4]
	stp	x25, x26, [sp, #64]
	bl	nla_wire.place.check_one.6cf1decf0b22dc4b
	ldurb	w8, [x29, #-48]
	cbnz	w8, .LBB34_123
.LBB34_138:
	add	w8, w23, #3
	and	x8, x8, #0x1fffc
	cmp	x20, x8
	b.ls	.LBB34_154
.LBB34_139:
	sub	x20, x20, x8
	cmp	x20, #4
	b.lo	.LBB34_153
	add	x21, x21, x8
	ldrh	w23, [x21]
	cmp	x20, x23
	b.lo	.LBB34_160
	cmp	w23, #3
	b.ls	.LBB34_161
	ldrh	w24, [x21, #2]
	add	x25, x21, #4
	sub	x26, x23, #4
	and	w8, w24, #0x3fff
	cmp	w8, #45
	b.eq	.LBB34_149
	cmp	w8, #10
	b.eq	.LBB34_147
	cmp	w8, #2
	b.ne	.LBB34_138
	cbz	x26, .LBB34_137
	add	x0, x21, #4
	sub	x1, x23, #4
	bl	nla_wire.members.measure_each.d7cac04ae1e23078
	b	.LBB34_151
.LBB34_147:
	cbz	x26, .LBB34_137
	add	x0, x21, #4
	sub	x1, x23, #4
	bl	nla_wire.members.measure_each.97809315b2b26985
	b	.LBB34_151
.LBB34_149:
	cbz	x26, .LBB34_137
	add	x0, x21, #4
	sub	x1, x23, #4
	bl	nla_wire.members.measure_each.7562298f77a88fdb
.LBB34_151:
	and	w8, w0, #0xff
	cmp	w8, #1
	b.ne	.LBB34_137
	mov	w8, #65532
	cmp	x1, x8
	b.lo	.LBB34_138
	b	.LBB34_137
.LBB34_153:
	mov	w9, #1
	b	.LBB34_177
.LBB34_154:
	mov	w10, wzr
	mov	w12, wzr
	mov	w8, wzr
	mov	x11, xzr
	mov	x14, xzr
	mov	x9, xzr
	mov	x20, xzr
	mov	x13, xzr
	b	.LBB34_178
.LBB34_155:
	mov	w9, #1
	b	.LBB34_158
.LBB34_156:
	mov	w9, #2
	orr	x9, x9, x8, lsl #16
	b	.LBB34_158
.LBB34_157:
	mov	w9, #3
	mov	x20, xzr
	orr	x9, x9, x8, lsl #16
.LBB34_158:
	adrp	x11, .Lstatic.20
	add	x11, x11, :lo12:.Lstatic.20
	mov	w8, #1
	mov	w10, #7
.LBB34_159:
	stp	x11, x10, [sp, #8]
	stp	x9, x20, [sp, #24]
	str	xzr, [sp, #40]
	b	.LBB34_185
.LBB34_160:
	mov	w8, #2
	orr	x9, x8, x23, lsl #16
	b	.LBB34_177
.LBB34_161:
	mov	w8, #3
	orr	x9, x8, x23, lsl #16
	b	.LBB34_176
.LBB34_162:
	adrp	x8, .Lstatic.20
	add	x8, x8, :lo12:.Lstatic.20
	stur	xzr, [x29, #-48]
	stur	x8, [x29, #-41]
	mov	w8, #7
	mov	w10, #2
.LBB34_163:
	stur	x8, [x29, #-33]
	mov	w8, #5
	stur	x8, [x29, #-25]
	sub	x8, x29, #48
	stur	x20, [x29, #-17]
.LBB34_164:
	orr	x9, x8, #0x7
	mov	w8, #1
	stur	x10, [x29, #-9]
.LBB34_165:
	ldp	q0, q1, [x9]
	ldr	x9, [x9, #32]
	str	x9, [sp, #40]
	stur	q0, [sp, #8]
	stur	q1, [sp, #24]
	b	.LBB34_185
.LBB34_166:
	mov	w8, wzr
	mov	x9, xzr
	mov	x11, xzr
	mov	x20, xzr
	mov	x10, xzr
.LBB34_167:
	stp	x9, x11, [sp, #8]
	stp	xzr, x20, [sp, #24]
	str	x10, [sp, #40]
	b	.LBB34_185
.LBB34_168:
	adrp	x13, .Lstatic.20
	add	x13, x13, :lo12:.Lstatic.20
	mov	w9, #1
	lsr	x10, x13, #8
	mov	w11, #5
	mov	w12, #7
	mov	w8, w9
.LBB34_169:
	strb	w13, [sp, #8]
	lsr	x13, x10, #48
	stur	w10, [sp, #9]
	lsr	x10, x10, #32
	strb	w13, [sp, #15]
	sturh	w10, [sp, #13]
	str	x12, [sp, #16]
	strh	w11, [sp, #24]
	strh	wzr, [sp, #26]
	str	wzr, [sp, #28]
	stp	x20, x9, [sp, #32]
	b	.LBB34_185
.LBB34_170:
	mov	w9, #1
	b	.LBB34_183
.LBB34_171:
	mov	w10, wzr
	mov	w13, wzr
	mov	w8, wzr
	mov	x11, xzr
	mov	x14, xzr
	mov	x9, xzr
	mov	x20, xzr
	mov	x12, xzr
	b	.LBB34_184
.LBB34_172:
	mov	w8, #2
	orr	x9, x8, x23, lsl #16
	b	.LBB34_183
.LBB34_173:
	mov	w8, #2
	orr	x9, x8, x22, lsl #16
	b	.LBB34_177
.LBB34_174:
	mov	w8, #3
	orr	x9, x8, x23, lsl #16
	b	.LBB34_182
.LBB34_175:
	mov	w8, #3
	orr	x9, x8, x22, lsl #16
.LBB34_176:
	mov	x20, xzr
.LBB34_177:
	adrp	x10, .Lstatic.20
	add	x10, x10, :lo12:.Lstatic.20
	mov	x13, xzr
	lsr	x11, x10, #16
	ubfx	w12, w10, #8, #8
	mov	w8, #1
	mov	w14, #7
.LBB34_178:
	strb	w10, [sp, #8]
	lsr	x10, x11, #32
	strb	w12, [sp, #9]
	stur	w11, [sp, #10]
	strh	w10, [sp, #14]
	stp	x14, x9, [sp, #16]
	stp	x20, x13, [sp, #32]
	b	.LBB34_185
.LBB34_179:
	ldurh	w8, [x29, #-34]
	ldur	w9, [x29, #-38]
	ldurb	w10, [x29, #-40]
	ldp	x20, x12, [x29, #-16]
	ldurb	w13, [x29, #-39]
	orr	x11, x9, x8, lsl #32
	mov	w8, #1
	ldp	x14, x9, [x29, #-32]
	b	.LBB34_184
.LBB34_180:
	mov	w8, #2
	orr	x9, x8, x22, lsl #16
	b	.LBB34_183
.LBB34_181:
	mov	w8, #3
	orr	x9, x8, x22, lsl #16
.LBB34_182:
	mov	x20, xzr
.LBB34_183:
	adrp	x10, .Lstatic.20
	add	x10, x10, :lo12:.Lstatic.20
	mov	x12, xzr
	lsr	x11, x10, #16
	ubfx	w13, w10, #8, #8
	mov	w8, #1
	mov	w14, #7
.LBB34_184:
	mov	w13, w13
	stp	x9, x20, [sp, #24]
	and	x10, x10, #0xff
	str	x12, [sp, #40]
	orr	x10, x10, x13, lsl #8
	orr	x10, x10, x11, lsl #16
	stp	x10, x14, [sp, #8]
.LBB34_185:
	ldur	q0, [sp, #8]
	strb	w8, [x19]
	ldur	q1, [sp, #24]
	ldr	x8, [sp, #40]
	ldp	x22, x21, [sp, #176]
	stur	q0, [x19, #8]
	ldp	x24, x23, [sp, #160]
	stur	q1, [x19, #24]
	ldp	x26, x25, [sp, #144]
	str	x8, [x19, #40]
	ldp	x20, x19, [sp, #192]
	ldp	x29, x30, [sp, #128]
	add	sp, sp, #208
	ret
.Lfunc_end34:
	.size	link_msg.shape.Shape.check, .Lfunc_end34-link_msg.shape.Shape.check
	.section	.rodata.link_msg.shape.Shape.check,"a",@progbits
	.p2align	1, 0x0
.LJTI34_0:
	.hword	(.LBB34_185-.LBB34_1)>>2
	.hword	(.LBB34_1-.LBB34_1)>>2
	.hword	(.LBB34_36-.LBB34_1)>>2
	.hword	(.LBB34_38-.LBB34_1)>>2
	.hword	(.LBB34_14-.LBB34_1)>>2
	.hword	(.LBB34_42-.LBB34_1)>>2
	.hword	(.LBB34_185-.LBB34_1)>>2
	.hword	(.LBB34_185-.LBB34_1)>>2
	.hword	(.LBB34_185-.LBB34_1)>>2
	.hword	(.LBB34_2-.LBB34_1)>>2
	.hword	(.LBB34_40-.LBB34_1)>>2
	.hword	(.LBB34_89-.LBB34_1)>>2
	.hword	(.LBB34_4-.LBB34_1)>>2
	.hword	(.LBB34_44-.LBB34_1)>>2
	.hword	(.LBB34_102-.LBB34_1)>>2
	.hword	(.LBB34_16-.LBB34_1)>>2
	.hword	(.LBB34_124-.LBB34_1)>>2
	.hword	(.LBB34_55-.LBB34_1)>>2
	.hword	(.LBB34_76-.LBB34_1)>>2
	.hword	(.LBB34_114-.LBB34_1)>>2
	.hword	(.LBB34_64-.LBB34_1)>>2
	.hword	(.LBB34_70-.LBB34_1)>>2
	.hword	(.LBB34_95-.LBB34_1)>>2
	.hword	(.LBB34_134-.LBB34_1)>>2

	.section	.text.nla_wire.text.check_string,"ax",@progbits
	.p2align	2
	.type	nla_wire.text.check_string,@function
nla_wire.text.check_string:
	sub	sp, sp, #64
	str	x19, [sp, #48]
	mov	x19, x0
	stp	x29, x30, [sp, #32]
	add	x29, sp, #32
	cbz	x2, .LBB35_2
	sub	x8, x2, #1
	ldrb	w9, [x1, x8]
	cbz	w9, .LBB35_10
.LBB35_2:
	cbz	x2, .LBB35_23
.LBB35_3:
	cmp	x2, #3
	b.hi	.LBB35_7
	ldrsb	w8, [x1]
	tbnz	w8, #31, .LBB35_22
	lsr	x8, x2, #1
	ldrsb	w8, [x1, x8]
	tbnz	w8, #31, .LBB35_22
	add	x8, x1, x2
	ldursb	w8, [x8, #-1]
	tbz	w8, #31, .LBB35_23
	b	.LBB35_22
.LBB35_7:
	cmp	x2, #7
	b.hi	.LBB35_11
	ldr	w8, [x1]
	tst	w8, #0x80808080
	b.ne	.LBB35_22
	add	x8, x1, x2
	mov	w9, #-2139062144
	ldur	w8, [x8, #-4]
	tst	w8, w9
	b.ne	.LBB35_22
	b	.LBB35_23
.LBB35_10:
	mov	x2, x8
	cbnz	x8, .LBB35_3
	b	.LBB35_23
.LBB35_11:
	cmp	x2, #16
	b.hi	.LBB35_14
	ldr	x8, [x1]
	tst	x8, #0x8080808080808080
	b.ne	.LBB35_22
	add	x8, x1, x2
	ldur	x8, [x8, #-8]
	tst	x8, #0x8080808080808080
	b.ne	.LBB35_22
	b	.LBB35_23
.LBB35_14:
	cmp	x2, #31
	b.hi	.LBB35_17
	ldr	q0, [x1]
	umaxv	b0, v0.16b
	fmov	w8, s0
	tbnz	w8, #7, .LBB35_22
	add	x8, x1, x2
	ldur	q0, [x8, #-16]
	b	.LBB35_21
.LBB35_17:
	movi	v0.2d, #0000000000000000
	movi	v1.2d, #0000000000000000
	and	x8, x2, #0xffffffffffffffe0
	add	x9, x1, #16
.LBB35_18:
	ldp	q2, q3, [x9, #-16]
	subs	x8, x8, #32
	add	x9, x9, #32
	umax	v0.16b, v0.16b, v2.16b
	umax	v1.16b, v1.16b, v3.16b
	b.ne	.LBB35_18
	umax	v0.16b, v0.16b, v1.16b
	umaxv	b0, v0.16b
	fmov	w8, s0
	tbnz	w8, #7, .LBB35_22
	add	x8, x1, x2
	ldp	q1, q0, [x8, #-32]
	umax	v0.16b, v1.16b, v0.16b
.LBB35_21:
	umaxv	b0, v0.16b
	fmov	w8, s0
	tbz	w8, #7, .LBB35_23
.LBB35_22:
	mov	x0, x1
	mov	x1, x2
	bl	nla_wire.text.is_decoded
	cbz	w0, .LBB35_24
.LBB35_23:
	mov	w10, wzr
	mov	x9, xzr
	mov	x11, xzr
	mov	w8, wzr
	b	.LBB35_25
.LBB35_24:
	mov	w8, #6
	adrp	x9, .Lstatic.20
	add	x9, x9, :lo12:.Lstatic.20
	mov	w10, #1
	mov	w11, #7
.LBB35_25:
	stp	xzr, xzr, [sp, #8]
	stur	xzr, [sp, #22]
	ldp	x29, x30, [sp, #32]
	ldur	q0, [sp, #8]
	strh	w8, [x19, #24]
	strb	w10, [x19]
	stp	x9, x11, [x19, #8]
	stur	q0, [x19, #26]
	str	xzr, [x19, #40]
	ldr	x19, [sp, #48]
	add	sp, sp, #64
	ret
.Lfunc_end35:
	.size	nla_wire.text.check_string, .Lfunc_end35-nla_wire.text.check_string

	.section	.text.nla_wire.place.check_one.49064c0641319ce4,"ax",@progbits
	.p2align	2
	.type	nla_wire.place.check_one.49064c0641319ce4,@function
nla_wire.place.check_one.49064c0641319ce4:
	sub	sp, sp, #144
	movi	v0.2d, #0000000000000000
	ldrh	w8, [x1]
	stp	x20, x19, [sp, #128]
	mov	x19, x0
	stp	x29, x30, [sp, #48]
	add	x29, sp, #48
	and	w8, w8, #0x3fff
	stp	x28, x27, [sp, #64]
	cmp	w8, #1
	stp	x26, x25, [sp, #80]
	stp	x24, x23, [sp, #96]
	stp	x22, x21, [sp, #112]
	stp	q0, q0, [sp, #16]
	str	q0, [sp]
	b.ne	.LBB36_5
	mov	x22, x1
	ldr	x1, [x1, #8]
	mov	x0, sp
	ldr	x2, [x22, #16]
	bl	nla_wire.text.check_string
	ldrb	w23, [sp]
	cbz	w23, .LBB36_6
	ldp	x20, x21, [sp, #8]
	adrp	x2, .Lstatic.20
	add	x2, x2, :lo12:.Lstatic.20
	ldp	x27, x28, [sp, #32]
	ldrh	w24, [sp, #24]
	ldrh	w25, [sp, #26]
	mov	w3, #7
	ldr	w26, [sp, #28]
	ldrh	w22, [x22]
	mov	x0, x20
	mov	x1, x21
	bl	core.cmp.text.RefStrPartialEq.eq
	cbz	w0, .LBB36_7
	and	w8, w22, #0x3fff
	cmp	w8, #1
	b.ne	.LBB36_7
	mov	w26, wzr
	and	w24, w24, #0xff
	adrp	x20, .Lstatic.22
	add	x20, x20, :lo12:.Lstatic.22
	mov	w21, #14
	b	.LBB36_7
.LBB36_5:
	mov	w23, wzr
.LBB36_6:
	mov	x20, xzr
	mov	x21, xzr
	mov	w24, wzr
	mov	w25, wzr
	mov	w26, wzr
	mov	x27, xzr
	mov	x28, xzr
.LBB36_7:
	strb	w23, [x19]
	ldp	x29, x30, [sp, #48]
	stp	x20, x21, [x19, #8]
	ldp	x22, x21, [sp, #112]
	strh	w24, [x19, #24]
	ldp	x24, x23, [sp, #96]
	strh	w25, [x19, #26]
	str	w26, [x19, #28]
	ldp	x26, x25, [sp, #80]
	stp	x27, x28, [x19, #32]
	ldp	x20, x19, [sp, #128]
	ldp	x28, x27, [sp, #64]
	add	sp, sp, #144
	ret
.Lfunc_end36:
	.size	nla_wire.place.check_one.49064c0641319ce4, .Lfunc_end36-nla_wire.place.check_one.49064c0641319ce4

	.section	.text.nla_wire.place.check_one.3bb4c8661a1029f4,"ax",@progbits
	.p2align	2
	.type	nla_wire.place.check_one.3bb4c8661a1029f4,@function
nla_wire.place.check_one.3bb4c8661a1029f4:
	sub	sp, sp, #176
	stp	x24, x23, [sp, #128]
	ldr	x23, [x1, #16]
	stp	x22, x21, [sp, #144]
	mov	x21, x1
	stp	x20, x19, [sp, #160]
	mov	x19, x0
	adrp	x20, .Lstatic.20
	add	x20, x20, :lo12:.Lstatic.20
	stp	x29, x30, [sp, #80]
	add	x29, sp, #80
	stp	x28, x27, [sp, #96]
	stp	x26, x25, [sp, #112]
	cbz	x23, .LBB37_17
	movi	v0.2d, #0000000000000000
	ldr	x22, [x21, #8]
	add	x9, sp, #8
	mov	x8, xzr
	orr	x24, x9, #0x2
	stp	q0, q0, [sp, #32]
	str	q0, [sp, #64]
	b	.LBB37_4
.LBB37_2:
	add	x0, sp, #32
	add	x1, sp, #8
	strh	w26, [sp, #8]
	str	wzr, [x24]
	strh	wzr, [x24, #4]
	stp	x27, x28, [sp, #16]
	bl	nla_wire.place.check_one.41ac5f0caeaa9df8
	ldrb	w8, [sp, #32]
	cbnz	w8, .LBB37_29
.LBB37_3:
	add	w8, w25, #3
	and	x8, x8, #0x1fffc
	cmp	x23, x8
	b.ls	.LBB37_27
.LBB37_4:
	sub	x23, x23, x8
	cmp	x23, #4
	b.lo	.LBB37_18
	add	x22, x22, x8
	ldrh	w25, [x22]
	cmp	x23, x25
	b.lo	.LBB37_19
	cmp	w25, #3
	b.ls	.LBB37_20
	ldrh	w26, [x22, #2]
	and	w8, w26, #0x3fff
	sub	w8, w8, #1
	cmp	w8, #12
	b.hi	.LBB37_3
	adrp	x9, .LJTI37_0
	add	x9, x9, :lo12:.LJTI37_0
	add	x27, x22, #4
	adr	x10, .LBB37_9
	ldrb	w11, [x9, x8]
	add	x10, x10, x11, lsl #2
	sub	x28, x25, #4
	br	x10
.LBB37_9:
	cmp	w25, #11
	b.hi	.LBB37_3
	b	.LBB37_2
.LBB37_10:
	cmp	w25, #15
	b.ls	.LBB37_2
	b	.LBB37_3
.LBB37_11:
	cmp	w25, #19
	b.ls	.LBB37_2
	b	.LBB37_3
.LBB37_12:
	add	x0, x22, #4
	sub	x1, x25, #4
	bl	nla_wire.members.measure_each.9a0187163d44de3c
	and	w8, w0, #0xff
	cmp	w8, #1
	b.eq	.LBB37_16
	b	.LBB37_2
.LBB37_13:
	cmp	w25, #35
	b.ls	.LBB37_2
	b	.LBB37_3
.LBB37_14:
	cmp	w25, #39
	b.ls	.LBB37_2
	b	.LBB37_3
.LBB37_15:
	add	x0, x22, #4
	sub	x1, x25, #4
	bl	nla_wire.members.measure_each.5361511d0f913a98
	and	w8, w0, #0xff
	cmp	w8, #1
	b.ne	.LBB37_2
.LBB37_16:
	mov	w8, #65532
	cmp	x1, x8
	b.lo	.LBB37_3
	b	.LBB37_2
.LBB37_17:
	mov	x25, xzr
	mov	w22, #7
	mov	w24, #4
	b	.LBB37_24
.LBB37_18:
	mov	w24, #1
	b	.LBB37_22
.LBB37_19:
	mov	w8, #2
	b	.LBB37_21
.LBB37_20:
	mov	w8, #3
	mov	x23, xzr
.LBB37_21:
	orr	x24, x8, x25, lsl #16
.LBB37_22:
	mov	x25, xzr
	lsr	x8, x20, #16
	ubfx	w9, w20, #8, #8
	mov	w22, #7
.LBB37_23:
	and	x10, x20, #0xff
	mov	w9, w9
	orr	x9, x10, x9, lsl #8
	orr	x20, x9, x8, lsl #16
.LBB37_24:
	ldrh	w21, [x21]
	adrp	x2, .Lstatic.20
	add	x2, x2, :lo12:.Lstatic.20
	mov	x0, x20
	mov	x1, x22
	mov	w3, #7
	lsr	x26, x24, #16
	lsr	x27, x24, #32
	bl	core.cmp.text.RefStrPartialEq.eq
	mov	w8, #1
	cbz	w0, .LBB37_28
	and	w9, w21, #0x3fff
	cmp	w9, #1
	b.ne	.LBB37_28
	mov	w27, wzr
	adrp	x20, .Lstatic.45
	add	x20, x20, :lo12:.Lstatic.45
	and	w24, w24, #0xff
	mov	w22, #12
	b	.LBB37_28
.LBB37_27:
	mov	w8, wzr
	mov	x20, xzr
	mov	x22, xzr
	mov	w24, wzr
	mov	w26, wzr
	mov	w27, wzr
	mov	x23, xzr
	mov	x25, xzr
.LBB37_28:
	strb	w8, [x19]
	ldp	x29, x30, [sp, #80]
	stp	x20, x22, [x19, #8]
	ldp	x22, x21, [sp, #144]
	strh	w24, [x19, #24]
	strh	w26, [x19, #26]
	str	w27, [x19, #28]
	ldp	x28, x27, [sp, #96]
	stp	x23, x25, [x19, #32]
	ldp	x20, x19, [sp, #160]
	ldp	x24, x23, [sp, #128]
	ldp	x26, x25, [sp, #112]
	add	sp, sp, #176
	ret
.LBB37_29:
	ldrh	w8, [sp, #46]
	ldur	w10, [sp, #42]
	ldrb	w20, [sp, #40]
	ldp	x22, x24, [sp, #48]
	ldrb	w9, [sp, #41]
	orr	x8, x10, x8, lsl #32
	ldp	x23, x25, [sp, #64]
	b	.LBB37_23
.Lfunc_end37:
	.size	nla_wire.place.check_one.3bb4c8661a1029f4, .Lfunc_end37-nla_wire.place.check_one.3bb4c8661a1029f4
	.section	.rodata.nla_wire.place.check_one.3bb4c8661a1029f4,"a",@progbits
.LJTI37_0:
	.byte	(.LBB37_14-.LBB37_9)>>2
	.byte	(.LBB37_10-.LBB37_9)>>2
	.byte	(.LBB37_9-.LBB37_9)>>2
	.byte	(.LBB37_9-.LBB37_9)>>2
	.byte	(.LBB37_9-.LBB37_9)>>2
	.byte	(.LBB37_10-.LBB37_9)>>2
	.byte	(.LBB37_9-.LBB37_9)>>2
	.byte	(.LBB37_15-.LBB37_9)>>2
	.byte	(.LBB37_9-.LBB37_9)>>2
	.byte	(.LBB37_11-.LBB37_9)>>2
	.byte	(.LBB37_11-.LBB37_9)>>2
	.byte	(.LBB37_12-.LBB37_9)>>2
	.byte	(.LBB37_13-.LBB37_9)>>2

	.section	.text.nla_wire.place.check_one.41ac5f0caeaa9df8,"ax",@progbits
	.p2align	2
	.type	nla_wire.place.check_one.41ac5f0caeaa9df8,@function
nla_wire.place.check_one.41ac5f0caeaa9df8:
	sub	sp, sp, #144
	ldrh	w8, [x1]
	stp	x28, x27, [sp, #64]
	stp	x20, x19, [sp, #128]
	mov	x19, x0
	and	w8, w8, #0x3fff
	stp	x29, x30, [sp, #48]
	add	x29, sp, #48
	sub	w27, w8, #1
	stp	x26, x25, [sp, #80]
	cmp	w27, #12
	stp	x24, x23, [sp, #96]
	stp	x22, x21, [sp, #112]
	b.hi	.LBB38_51
	ldp	x20, x22, [x1, #8]
	adrp	x8, .LJTI38_0
	add	x8, x8, :lo12:.LJTI38_0
	adr	x9, .LBB38_2
	ldrb	w10, [x8, x27]
	add	x9, x9, x10, lsl #2
	br	x9
.LBB38_2:
	cmp	x22, #36
	b.hs	.LBB38_51
	mov	w23, wzr
	mov	w25, wzr
	mov	w26, wzr
	adrp	x27, .Lstatic.32
	add	x27, x27, :lo12:.Lstatic.32
	adrp	x21, .Lstatic.20
	add	x21, x21, :lo12:.Lstatic.20
	mov	w28, #11
	mov	w24, #36
	b	.LBB38_48
.LBB38_4:
	movi	v0.2d, #0000000000000000
	stp	q0, q0, [sp, #16]
	str	q0, [sp]
	cbz	x22, .LBB38_53
	mov	x8, xzr
	b	.LBB38_7
.LBB38_6:
	add	w8, w21, #3
	and	x8, x8, #0x1fffc
	cmp	x22, x8
	b.ls	.LBB38_58
.LBB38_7:
	sub	x22, x22, x8
	cmp	x22, #4
	b.lo	.LBB38_54
	add	x20, x20, x8
	ldrh	w21, [x20]
	cmp	x22, x21
	b.lo	.LBB38_55
	cmp	w21, #3
	b.ls	.LBB38_56
	cmp	w21, #19
	b.hi	.LBB38_6
	ldrh	w1, [x20, #2]
	and	w8, w1, #0x3fff
	cmp	w8, #1
	b.ne	.LBB38_6
	mov	x0, sp
	sub	x2, x21, #4
	bl	nla_wire.place.check_one.9a0187163d44de3c
	ldrb	w8, [sp]
	cbz	w8, .LBB38_6
	b	.LBB38_33
.LBB38_13:
	cmp	x22, #7
	b.hi	.LBB38_51
	mov	w23, wzr
	mov	w25, wzr
	mov	w26, wzr
	adrp	x21, .Lstatic.20
	add	x21, x21, :lo12:.Lstatic.20
	adrp	x27, .Lstatic.36
	add	x27, x27, :lo12:.Lstatic.36
	mov	w28, #18
	b	.LBB38_47
.LBB38_15:
	cmp	x22, #32
	b.hs	.LBB38_51
	mov	w23, wzr
	mov	w25, wzr
	mov	w26, wzr
	adrp	x27, .Lstatic.44
	add	x27, x27, :lo12:.Lstatic.44
	adrp	x21, .Lstatic.20
	add	x21, x21, :lo12:.Lstatic.20
	mov	w28, #17
	mov	w24, #32
	b	.LBB38_48
.LBB38_17:
	cmp	x22, #15
	b.hi	.LBB38_51
	mov	w23, wzr
	mov	w25, wzr
	mov	w26, wzr
	adrp	x21, .Lstatic.20
	add	x21, x21, :lo12:.Lstatic.20
	adrp	x27, .Lstatic.41
	add	x27, x27, :lo12:.Lstatic.41
	b	.LBB38_44
.LBB38_19:
	cmp	x22, #7
	b.hi	.LBB38_51
	mov	w23, wzr
	mov	w25, wzr
	mov	w26, wzr
	adrp	x21, .Lstatic.20
	add	x21, x21, :lo12:.Lstatic.20
	adrp	x27, .Lstatic.34
	add	x27, x27, :lo12:.Lstatic.34
	mov	w28, #15
	b	.LBB38_47
.LBB38_21:
	cmp	x22, #7
	b.hi	.LBB38_51
	mov	w23, wzr
	mov	w25, wzr
	mov	w26, wzr
	adrp	x21, .Lstatic.20
	add	x21, x21, :lo12:.Lstatic.20
	adrp	x27, .Lstatic.35
	add	x27, x27, :lo12:.Lstatic.35
	mov	w28, #16
	b	.LBB38_47
.LBB38_23:
	movi	v0.2d, #0000000000000000
	stp	q0, q0, [sp, #16]
	str	q0, [sp]
	cbz	x22, .LBB38_53
	mov	x8, xzr
	b	.LBB38_26
.LBB38_25:
	add	w8, w21, #3
	and	x8, x8, #0x1fffc
	cmp	x22, x8
	b.ls	.LBB38_58
.LBB38_26:
	sub	x22, x22, x8
	cmp	x22, #4
	b.lo	.LBB38_54
	add	x20, x20, x8
	ldrh	w21, [x20]
	cmp	x22, x21
	b.lo	.LBB38_55
	cmp	w21, #3
	b.ls	.LBB38_56
	ldrh	w1, [x20, #2]
	and	w8, w1, #0x3fff
	cmp	w8, #6
	b.lo	.LBB38_31
	sub	w8, w8, #7
	cmp	w8, #1
	b.hi	.LBB38_25
.LBB38_31:
	sub	x8, x21, #4
	cmp	x8, #8
	b.eq	.LBB38_25
	mov	x0, sp
	sub	x2, x21, #4
	bl	nla_wire.place.check_one.5361511d0f913a98
	ldrb	w8, [sp]
	cbz	w8, .LBB38_25
.LBB38_33:
	ldrh	w8, [sp, #14]
	ldur	w10, [sp, #10]
	ldrb	w11, [sp, #8]
	ldp	x20, x23, [sp, #16]
	ldrb	w9, [sp, #9]
	orr	x10, x10, x8, lsl #32
	mov	w8, #1
	ldp	x22, x24, [sp, #32]
	and	x11, x11, #0xff
	mov	w9, w9
	orr	x9, x11, x9, lsl #8
	orr	x21, x9, x10, lsl #16
	cbnz	w8, .LBB38_60
	b	.LBB38_52
.LBB38_34:
	cmp	x22, #12
	b.hs	.LBB38_51
	mov	w23, wzr
	mov	w25, wzr
	mov	w26, wzr
	adrp	x27, .Lstatic.33
	add	x27, x27, :lo12:.Lstatic.33
	b	.LBB38_38
.LBB38_36:
	cmp	x22, #12
	b.hs	.LBB38_51
	mov	w23, wzr
	mov	w25, wzr
	mov	w26, wzr
	adrp	x27, .Lstatic.37
	add	x27, x27, :lo12:.Lstatic.37
.LBB38_38:
	adrp	x21, .Lstatic.20
	add	x21, x21, :lo12:.Lstatic.20
	mov	w24, #12
	mov	w20, #7
.LBB38_39:
	mov	w28, #12
	b	.LBB38_49
.LBB38_40:
	cmp	x22, #7
	b.hi	.LBB38_51
	mov	w23, wzr
	mov	w25, wzr
	mov	w26, wzr
	adrp	x21, .Lstatic.20
	add	x21, x21, :lo12:.Lstatic.20
	adrp	x27, .Lstatic.38
	add	x27, x27, :lo12:.Lstatic.38
	mov	w28, #20
	b	.LBB38_47
.LBB38_42:
	cmp	x22, #15
	b.hi	.LBB38_51
	mov	w23, wzr
	mov	w25, wzr
	mov	w26, wzr
	adrp	x21, .Lstatic.20
	add	x21, x21, :lo12:.Lstatic.20
	adrp	x27, .Lstatic.42
	add	x27, x27, :lo12:.Lstatic.42
.LBB38_44:
	mov	w28, #20
	mov	w24, #16
	b	.LBB38_48
.LBB38_45:
	cmp	x22, #7
	b.hi	.LBB38_51
	mov	w23, wzr
	mov	w25, wzr
	mov	w26, wzr
	adrp	x21, .Lstatic.20
	add	x21, x21, :lo12:.Lstatic.20
	adrp	x27, .Lstatic.40
	add	x27, x27, :lo12:.Lstatic.40
	mov	w28, #13
.LBB38_47:
	mov	w24, #8
.LBB38_48:
	mov	w20, #7
.LBB38_49:
	adrp	x2, .Lstatic.20
	add	x2, x2, :lo12:.Lstatic.20
	mov	x0, x21
	mov	x1, x20
	mov	w3, #7
	bl	core.cmp.text.RefStrPartialEq.eq
	cbz	w0, .LBB38_72
	mov	w26, wzr
	and	w23, w23, #0xff
	mov	w8, #1
	mov	x21, x27
	mov	x20, x28
	b	.LBB38_73
.LBB38_51:
	mov	w8, wzr
.LBB38_52:
	mov	x21, xzr
	mov	x20, xzr
	mov	w23, wzr
	mov	w25, wzr
	mov	w26, wzr
	mov	x22, xzr
	mov	x24, xzr
	b	.LBB38_73
.LBB38_53:
	mov	w11, wzr
	mov	w9, wzr
	mov	w8, wzr
	mov	x10, xzr
	mov	x20, xzr
	mov	x23, xzr
	b	.LBB38_59
.LBB38_54:
	mov	w23, #1
	b	.LBB38_57
.LBB38_55:
	mov	w8, #2
	orr	x23, x8, x21, lsl #16
	b	.LBB38_57
.LBB38_56:
	mov	w8, #3
	mov	x22, xzr
	orr	x23, x8, x21, lsl #16
.LBB38_57:
	adrp	x11, .Lstatic.20
	add	x11, x11, :lo12:.Lstatic.20
	mov	x24, xzr
	lsr	x10, x11, #16
	ubfx	w9, w11, #8, #8
	mov	w8, #1
	mov	w20, #7
	and	x11, x11, #0xff
	mov	w9, w9
	orr	x9, x11, x9, lsl #8
	orr	x21, x9, x10, lsl #16
	cbnz	w8, .LBB38_60
	b	.LBB38_52
.LBB38_58:
	mov	w11, wzr
	mov	w9, wzr
	mov	w8, wzr
	mov	x10, xzr
	mov	x20, xzr
	mov	x23, xzr
	mov	x22, xzr
.LBB38_59:
	mov	x24, xzr
	and	x11, x11, #0xff
	mov	w9, w9
	orr	x9, x11, x9, lsl #8
	orr	x21, x9, x10, lsl #16
	cbz	w8, .LBB38_52
.LBB38_60:
	lsr	x25, x23, #16
	lsr	x26, x23, #32
	cmp	w27, #12
	b.hi	.LBB38_71
	adrp	x8, .LJTI38_1
	add	x8, x8, :lo12:.LJTI38_1
	mov	w28, #11
	adr	x9, .LBB38_49
	ldrb	w10, [x8, x27]
	add	x9, x9, x10, lsl #2
	adrp	x27, .Lstatic.32
	add	x27, x27, :lo12:.Lstatic.32
	br	x9
.LBB38_62:
	adrp	x27, .Lstatic.33
	add	x27, x27, :lo12:.Lstatic.33
	b	.LBB38_39
.LBB38_63:
	adrp	x27, .Lstatic.43
	add	x27, x27, :lo12:.Lstatic.43
	mov	w28, #17
	b	.LBB38_49
.LBB38_64:
	adrp	x27, .Lstatic.36
	add	x27, x27, :lo12:.Lstatic.36
	mov	w28, #18
	b	.LBB38_49
.LBB38_65:
	adrp	x27, .Lstatic.44
	add	x27, x27, :lo12:.Lstatic.44
	mov	w28, #17
	b	.LBB38_49
.LBB38_66:
	adrp	x27, .Lstatic.41
	add	x27, x27, :lo12:.Lstatic.41
	mov	w28, #20
	b	.LBB38_49
.LBB38_67:
	adrp	x27, .Lstatic.34
	add	x27, x27, :lo12:.Lstatic.34
	mov	w28, #15
	b	.LBB38_49
.LBB38_68:
	adrp	x27, .Lstatic.35
	add	x27, x27, :lo12:.Lstatic.35
	mov	w28, #16
	b	.LBB38_49
.LBB38_69:
	adrp	x27, .Lstatic.39
	add	x27, x27, :lo12:.Lstatic.39
	mov	w28, #13
	b	.LBB38_49
.LBB38_70:
	adrp	x27, .Lstatic.37
	add	x27, x27, :lo12:.Lstatic.37
	b	.LBB38_39
.LBB38_71:
	adrp	x2, .Lstatic.20
	add	x2, x2, :lo12:.Lstatic.20
	mov	x0, x21
	mov	x1, x20
	mov	w3, #7
	bl	core.cmp.text.RefStrPartialEq.eq
.LBB38_72:
	mov	w8, #1
.LBB38_73:
	strb	w8, [x19]
	ldp	x28, x27, [sp, #64]
	stp	x21, x20, [x19, #8]
	ldp	x29, x30, [sp, #48]
	strh	w23, [x19, #24]
	strh	w25, [x19, #26]
	str	w26, [x19, #28]
	ldp	x26, x25, [sp, #80]
	stp	x22, x24, [x19, #32]
	ldp	x20, x19, [sp, #128]
	ldp	x22, x21, [sp, #112]
	ldp	x24, x23, [sp, #96]
	add	sp, sp, #144
	ret
.LBB38_74:
	adrp	x27, .Lstatic.38
	add	x27, x27, :lo12:.Lstatic.38
	mov	w28, #20
	b	.LBB38_49
.LBB38_75:
	adrp	x27, .Lstatic.42
	add	x27, x27, :lo12:.Lstatic.42
	mov	w28, #20
	b	.LBB38_49
.LBB38_76:
	adrp	x27, .Lstatic.40
	add	x27, x27, :lo12:.Lstatic.40
	mov	w28, #13
	b	.LBB38_49
.Lfunc_end38:
	.size	nla_wire.place.check_one.41ac5f0caeaa9df8, .Lfunc_end38-nla_wire.place.check_one.41ac5f0caeaa9df8
	.section	.rodata.nla_wire.place.check_one.41ac5f0caeaa9df8,"a",@progbits
.LJTI38_0:
	.byte	(.LBB38_2-.LBB38_2)>>2
	.byte	(.LBB38_34-.LBB38_2)>>2
	.byte	(.LBB38_19-.LBB38_2)>>2
	.byte	(.LBB38_21-.LBB38_2)>>2
	.byte	(.LBB38_13-.LBB38_2)>>2
	.byte	(.LBB38_36-.LBB38_2)>>2
	.byte	(.LBB38_40-.LBB38_2)>>2
	.byte	(.LBB38_23-.LBB38_2)>>2
	.byte	(.LBB38_45-.LBB38_2)>>2
	.byte	(.LBB38_17-.LBB38_2)>>2
	.byte	(.LBB38_42-.LBB38_2)>>2
	.byte	(.LBB38_4-.LBB38_2)>>2
	.byte	(.LBB38_15-.LBB38_2)>>2
.LJTI38_1:
	.byte	(.LBB38_49-.LBB38_49)>>2
	.byte	(.LBB38_62-.LBB38_49)>>2
	.byte	(.LBB38_67-.LBB38_49)>>2
	.byte	(.LBB38_68-.LBB38_49)>>2
	.byte	(.LBB38_64-.LBB38_49)>>2
	.byte	(.LBB38_70-.LBB38_49)>>2
	.byte	(.LBB38_74-.LBB38_49)>>2
	.byte	(.LBB38_69-.LBB38_49)>>2
	.byte	(.LBB38_76-.LBB38_49)>>2
	.byte	(.LBB38_66-.LBB38_49)>>2
	.byte	(.LBB38_75-.LBB38_49)>>2
	.byte	(.LBB38_63-.LBB38_49)>>2
	.byte	(.LBB38_65-.LBB38_49)>>2

	.section	.text.nla_wire.place.check_one.5361511d0f913a98,"ax",@progbits
	.p2align	2
	.type	nla_wire.place.check_one.5361511d0f913a98,@function
nla_wire.place.check_one.5361511d0f913a98:
	stp	x29, x30, [sp, #-64]!
	and	w10, w1, #0x3fff
	stp	x20, x19, [sp, #48]
	mov	x20, x2
	mov	x19, x0
	mov	w8, wzr
	cmp	w10, #3
	mov	x9, xzr
	stp	x24, x23, [sp, #16]
	mov	x29, sp
	stp	x22, x21, [sp, #32]
	b.gt	.LBB39_6
	cmp	w10, #1
	b.gt	.LBB39_11
	cbz	w10, .LBB39_19
	cmp	w10, #1
	mov	x10, x9
	mov	w11, w8
	mov	x12, x9
	mov	x13, x9
	b.ne	.LBB39_30
	cmp	x20, #8
	b.eq	.LBB39_26
	adrp	x22, .Lstatic.24
	add	x22, x22, :lo12:.Lstatic.24
	b	.LBB39_28
.LBB39_6:
	cmp	w10, #6
	b.gt	.LBB39_15
	cmp	w10, #4
	b.eq	.LBB39_21
	cmp	w10, #5
	mov	x10, x9
	mov	w11, w8
	mov	x12, x9
	mov	x13, x9
	b.ne	.LBB39_30
	cmp	x20, #8
	b.eq	.LBB39_26
	adrp	x22, .Lstatic.28
	add	x22, x22, :lo12:.Lstatic.28
	mov	w23, #23
	b	.LBB39_29
.LBB39_11:
	cmp	w10, #2
	b.eq	.LBB39_23
	cmp	w10, #3
	mov	x10, x9
	mov	w11, w8
	mov	x12, x9
	mov	x13, x9
	b.ne	.LBB39_30
	cmp	x20, #8
	b.eq	.LBB39_26
	adrp	x22, .Lstatic.26
	add	x22, x22, :lo12:.Lstatic.26
	mov	w23, #22
	b	.LBB39_29
.LBB39_15:
	cmp	w10, #7
	b.eq	.LBB39_25
	cmp	w10, #8
	mov	x10, x9
	mov	w11, w8
	mov	x12, x9
	mov	x13, x9
	b.ne	.LBB39_30
	cmp	x20, #8
	b.eq	.LBB39_26
	adrp	x22, .Lstatic.30
	add	x22, x22, :lo12:.Lstatic.30
	b	.LBB39_28
.LBB39_19:
	cmp	x20, #8
	b.eq	.LBB39_26
	adrp	x22, .Lstatic.23
	add	x22, x22, :lo12:.Lstatic.23
	b	.LBB39_28
.LBB39_21:
	cmp	x20, #8
	b.eq	.LBB39_26
	adrp	x22, .Lstatic.27
	add	x22, x22, :lo12:.Lstatic.27
	mov	w23, #23
	b	.LBB39_29
.LBB39_23:
	cmp	x20, #8
	b.eq	.LBB39_26
	adrp	x22, .Lstatic.25
	add	x22, x22, :lo12:.Lstatic.25
	mov	w23, #22
	b	.LBB39_29
.LBB39_25:
	cmp	x20, #8
	b.ne	.LBB39_27
.LBB39_26:
	mov	w8, wzr
	mov	x9, xzr
	mov	x10, xzr
	mov	w11, wzr
	mov	x12, xzr
	mov	x13, xzr
	b	.LBB39_30
.LBB39_27:
	adrp	x22, .Lstatic.29
	add	x22, x22, :lo12:.Lstatic.29
.LBB39_28:
	mov	w23, #24
.LBB39_29:
	adrp	x21, .Lstatic.20
	add	x21, x21, :lo12:.Lstatic.20
	mov	w1, #7
	mov	x0, x21
	mov	x2, x21
	mov	w3, #7
	mov	w24, #7
	bl	core.cmp.text.RefStrPartialEq.eq
	cmp	w0, #0
	mov	w11, #5
	mov	w8, #1
	csel	x9, x22, x21, ne
	csel	x10, x23, x24, ne
	mov	w13, #8
	mov	x12, x20
.LBB39_30:
	strb	w8, [x19]
	ldp	x22, x21, [sp, #32]
	stp	x9, x10, [x19, #8]
	ldp	x24, x23, [sp, #16]
	strh	w11, [x19, #24]
	strh	wzr, [x19, #26]
	str	wzr, [x19, #28]
	stp	x12, x13, [x19, #32]
	ldp	x20, x19, [sp, #48]
	ldp	x29, x30, [sp], #64
	ret
.Lfunc_end39:
	.size	nla_wire.place.check_one.5361511d0f913a98, .Lfunc_end39-nla_wire.place.check_one.5361511d0f913a98

	.section	.text.nla_wire.place.check_one.9a0187163d44de3c,"ax",@progbits
	.p2align	2
	.type	nla_wire.place.check_one.9a0187163d44de3c,@function
nla_wire.place.check_one.9a0187163d44de3c:
	stp	x29, x30, [sp, #-48]!
	and	w9, w1, #0x3fff
	stp	x20, x19, [sp, #32]
	mov	x19, x0
	mov	x8, xzr
	cmp	w9, #1
	mov	w9, wzr
	stp	x22, x21, [sp, #16]
	mov	x29, sp
	b.ne	.LBB40_3
	mov	x20, x2
	cmp	x2, #15
	mov	x10, x8
	mov	x12, x8
	mov	x11, x8
	b.hi	.LBB40_4
	adrp	x21, .Lstatic.20
	add	x21, x21, :lo12:.Lstatic.20
	mov	w1, #7
	mov	x0, x21
	mov	x2, x21
	mov	w3, #7
	mov	w22, #7
	bl	core.cmp.text.RefStrPartialEq.eq
	adrp	x8, .Lstatic.31
	add	x8, x8, :lo12:.Lstatic.31
	mov	w9, #17
	cmp	w0, #0
	mov	w11, #16
	mov	x12, x20
	csel	x8, x8, x21, ne
	csel	x10, x9, x22, ne
	mov	w9, #1
	b	.LBB40_4
.LBB40_3:
	mov	x10, x8
	mov	x12, x8
	mov	x11, x8
.LBB40_4:
	strb	w9, [x19]
	ldp	x22, x21, [sp, #16]
	stp	x8, x10, [x19, #8]
	stp	xzr, x12, [x19, #24]
	str	x11, [x19, #40]
	ldp	x20, x19, [sp, #32]
	ldp	x29, x30, [sp], #48
	ret
.Lfunc_end40:
	.size	nla_wire.place.check_one.9a0187163d44de3c, .Lfunc_end40-nla_wire.place.check_one.9a0187163d44de3c

	.section	.text.nla_wire.place.check_one.79503c7a397af21a,"ax",@progbits
	.p2align	2
	.type	nla_wire.place.check_one.79503c7a397af21a,@function
nla_wire.place.check_one.79503c7a397af21a:
	stp	x29, x30, [sp, #-80]!
	stp	x22, x21, [sp, #48]
	ldr	x21, [x1, #16]
	mov	x29, sp
	stp	x20, x19, [sp, #64]
	mov	x19, x0
	str	x25, [sp, #16]
	stp	x24, x23, [sp, #32]
	cbz	x21, .LBB41_7
	ldr	x8, [x1, #8]
	mov	x9, xzr
.LBB41_2:
	sub	x21, x21, x9
	cmp	x21, #4
	b.lo	.LBB41_8
	add	x8, x8, x9
	ldrh	w9, [x8]
	cmp	x21, x9
	b.lo	.LBB41_9
	cmp	w9, #3
	b.ls	.LBB41_10
	add	w9, w9, #3
	and	x9, x9, #0x1fffc
	cmp	x21, x9
	b.hi	.LBB41_2
	mov	w8, wzr
	mov	x20, xzr
	mov	x24, xzr
	mov	w22, wzr
	mov	w23, wzr
	mov	x21, xzr
	b	.LBB41_16
.LBB41_7:
	adrp	x20, .Lstatic.20
	add	x20, x20, :lo12:.Lstatic.20
	mov	w22, #4
	b	.LBB41_13
.LBB41_8:
	mov	w22, #1
	b	.LBB41_12
.LBB41_9:
	mov	w8, #2
	b	.LBB41_11
.LBB41_10:
	mov	w8, #3
	mov	x21, xzr
.LBB41_11:
	orr	x22, x8, x9, lsl #16
.LBB41_12:
	adrp	x20, .Lstatic.20
	add	x20, x20, :lo12:.Lstatic.20
.LBB41_13:
	ldrh	w25, [x1]
	adrp	x2, .Lstatic.20
	add	x2, x2, :lo12:.Lstatic.20
	mov	x0, x20
	mov	w1, #7
	mov	w3, #7
	lsr	x23, x22, #16
	mov	w24, #7
	bl	core.cmp.text.RefStrPartialEq.eq
	mov	w8, #1
	cbz	w0, .LBB41_16
	and	w9, w25, #0x3fff
	cmp	w9, #1
	b.ne	.LBB41_16
	adrp	x20, .Lstatic.46
	add	x20, x20, :lo12:.Lstatic.46
	and	w22, w22, #0xff
	mov	w24, #12
.LBB41_16:
	strb	w8, [x19]
	ldr	x25, [sp, #16]
	stp	x20, x24, [x19, #8]
	strh	w22, [x19, #24]
	strh	w23, [x19, #26]
	ldp	x24, x23, [sp, #32]
	str	wzr, [x19, #28]
	stp	x21, xzr, [x19, #32]
	ldp	x20, x19, [sp, #64]
	ldp	x22, x21, [sp, #48]
	ldp	x29, x30, [sp], #80
	ret
.Lfunc_end41:
	.size	nla_wire.place.check_one.79503c7a397af21a, .Lfunc_end41-nla_wire.place.check_one.79503c7a397af21a

	.section	.text.nla_wire.place.check_one.8ba1f663fcd59a5e,"ax",@progbits
	.p2align	2
	.type	nla_wire.place.check_one.8ba1f663fcd59a5e,@function
nla_wire.place.check_one.8ba1f663fcd59a5e:
	stp	x29, x30, [sp, #-80]!
	and	w10, w1, #0x3fff
	stp	x20, x19, [sp, #64]
	mov	x20, x2
	mov	x19, x0
	mov	w8, wzr
	cmp	w10, #4
	mov	x9, xzr
	str	x25, [sp, #16]
	mov	x29, sp
	stp	x24, x23, [sp, #32]
	stp	x22, x21, [sp, #48]
	b.gt	.LBB42_6
	cmp	w10, #2
	b.gt	.LBB42_11
	cmp	w10, #1
	b.eq	.LBB42_19
	cmp	w10, #2
	mov	x10, x9
	mov	w11, w8
	mov	x12, x9
	mov	x22, x9
	b.ne	.LBB42_30
	cmp	x20, #1
	b.eq	.LBB42_26
	adrp	x23, .Lstatic.48
	add	x23, x23, :lo12:.Lstatic.48
	mov	w24, #17
	mov	w22, #1
	b	.LBB42_29
.LBB42_6:
	cmp	w10, #6
	b.gt	.LBB42_15
	cmp	w10, #5
	b.eq	.LBB42_21
	cmp	w10, #6
	mov	x10, x9
	mov	w11, w8
	mov	x12, x9
	mov	x22, x9
	b.ne	.LBB42_30
	cmp	x20, #4
	b.eq	.LBB42_26
	adrp	x23, .Lstatic.52
	add	x23, x23, :lo12:.Lstatic.52
	mov	w24, #20
	b	.LBB42_28
.LBB42_11:
	cmp	w10, #3
	b.eq	.LBB42_23
	cmp	w10, #4
	mov	x10, x9
	mov	w11, w8
	mov	x12, x9
	mov	x22, x9
	b.ne	.LBB42_30
	cmp	x20, #4
	b.eq	.LBB42_26
	adrp	x23, .Lstatic.50
	add	x23, x23, :lo12:.Lstatic.50
	mov	w24, #16
	b	.LBB42_28
.LBB42_15:
	cmp	w10, #7
	b.eq	.LBB42_25
	cmp	w10, #8
	mov	x10, x9
	mov	w11, w8
	mov	x12, x9
	mov	x22, x9
	b.ne	.LBB42_30
	cmp	x20, #4
	b.eq	.LBB42_26
	adrp	x23, .Lstatic.54
	add	x23, x23, :lo12:.Lstatic.54
	mov	w24, #20
	b	.LBB42_28
.LBB42_19:
	cmp	x20, #4
	b.eq	.LBB42_26
	adrp	x23, .Lstatic.47
	add	x23, x23, :lo12:.Lstatic.47
	mov	w24, #11
	b	.LBB42_28
.LBB42_21:
	cmp	x20, #4
	b.eq	.LBB42_26
	adrp	x23, .Lstatic.51
	add	x23, x23, :lo12:.Lstatic.51
	mov	w24, #20
	b	.LBB42_28
.LBB42_23:
	cmp	x20, #4
	b.eq	.LBB42_26
	adrp	x23, .Lstatic.49
	add	x23, x23, :lo12:.Lstatic.49
	mov	w24, #14
	b	.LBB42_28
.LBB42_25:
	cmp	x20, #4
	b.ne	.LBB42_27
.LBB42_26:
	mov	w8, wzr
	mov	x9, xzr
	mov	x10, xzr
	mov	w11, wzr
	mov	x12, xzr
	mov	x22, xzr
	b	.LBB42_30
.LBB42_27:
	adrp	x23, .Lstatic.53
	add	x23, x23, :lo12:.Lstatic.53
	mov	w24, #19
.LBB42_28:
	mov	w22, #4
.LBB42_29:
	adrp	x21, .Lstatic.20
	add	x21, x21, :lo12:.Lstatic.20
	mov	w1, #7
	mov	x0, x21
	mov	x2, x21
	mov	w3, #7
	mov	w25, #7
	bl	core.cmp.text.RefStrPartialEq.eq
	cmp	w0, #0
	mov	w11, #5
	mov	w8, #1
	csel	x9, x23, x21, ne
	csel	x10, x24, x25, ne
	mov	x12, x20
.LBB42_30:
	strb	w8, [x19]
	ldp	x24, x23, [sp, #32]
	stp	x9, x10, [x19, #8]
	ldr	x25, [sp, #16]
	strh	w11, [x19, #24]
	strh	wzr, [x19, #26]
	str	wzr, [x19, #28]
	stp	x12, x22, [x19, #32]
	ldp	x20, x19, [sp, #64]
	ldp	x22, x21, [sp, #48]
	ldp	x29, x30, [sp], #80
	ret
.Lfunc_end42:
	.size	nla_wire.place.check_one.8ba1f663fcd59a5e, .Lfunc_end42-nla_wire.place.check_one.8ba1f663fcd59a5e

	.section	.text.nla_wire.place.check_one.b30b196c481b950e,"ax",@progbits
	.p2align	2
	.type	nla_wire.place.check_one.b30b196c481b950e,@function
nla_wire.place.check_one.b30b196c481b950e:
	sub	sp, sp, #144
	movi	v0.2d, #0000000000000000
	ldrh	w8, [x1]
	stp	x20, x19, [sp, #128]
	mov	x19, x0
	stp	x29, x30, [sp, #48]
	add	x29, sp, #48
	and	w8, w8, #0x3fff
	stp	x28, x27, [sp, #64]
	cmp	w8, #53
	stp	x26, x25, [sp, #80]
	stp	x24, x23, [sp, #96]
	stp	x22, x21, [sp, #112]
	stp	q0, q0, [sp, #16]
	str	q0, [sp]
	b.ne	.LBB43_5
	mov	x22, x1
	ldr	x1, [x1, #8]
	mov	x0, sp
	ldr	x2, [x22, #16]
	bl	nla_wire.text.check_string
	ldrb	w23, [sp]
	cbz	w23, .LBB43_6
	ldp	x20, x21, [sp, #8]
	adrp	x2, .Lstatic.20
	add	x2, x2, :lo12:.Lstatic.20
	ldp	x27, x28, [sp, #32]
	ldrh	w24, [sp, #24]
	ldrh	w25, [sp, #26]
	mov	w3, #7
	ldr	w26, [sp, #28]
	ldrh	w22, [x22]
	mov	x0, x20
	mov	x1, x21
	bl	core.cmp.text.RefStrPartialEq.eq
	cbz	w0, .LBB43_7
	and	w8, w22, #0x3fff
	cmp	w8, #53
	b.ne	.LBB43_7
	mov	w26, wzr
	and	w24, w24, #0xff
	adrp	x20, .Lstatic.55
	add	x20, x20, :lo12:.Lstatic.55
	mov	w21, #15
	b	.LBB43_7
.LBB43_5:
	mov	w23, wzr
.LBB43_6:
	mov	x20, xzr
	mov	x21, xzr
	mov	w24, wzr
	mov	w25, wzr
	mov	w26, wzr
	mov	x27, xzr
	mov	x28, xzr
.LBB43_7:
	strb	w23, [x19]
	ldp	x29, x30, [sp, #48]
	stp	x20, x21, [x19, #8]
	ldp	x22, x21, [sp, #112]
	strh	w24, [x19, #24]
	ldp	x24, x23, [sp, #96]
	strh	w25, [x19, #26]
	str	w26, [x19, #28]
	ldp	x26, x25, [sp, #80]
	stp	x27, x28, [x19, #32]
	ldp	x20, x19, [sp, #128]
	ldp	x28, x27, [sp, #64]
	add	sp, sp, #144
	ret
.Lfunc_end43:
	.size	nla_wire.place.check_one.b30b196c481b950e, .Lfunc_end43-nla_wire.place.check_one.b30b196c481b950e

	.section	.text.nla_wire.place.check_one.f7f30aae703aa44d,"ax",@progbits
	.p2align	2
	.type	nla_wire.place.check_one.f7f30aae703aa44d,@function
nla_wire.place.check_one.f7f30aae703aa44d:
	stp	x29, x30, [sp, #-64]!
	str	x23, [sp, #16]
	and	w23, w1, #0x3fff
	mov	x29, sp
	cmp	w23, #2
	stp	x22, x21, [sp, #32]
	stp	x20, x19, [sp, #48]
	b.eq	.LBB44_2
	cmp	w23, #1
	b.ne	.LBB44_3
.LBB44_2:
	cmp	x2, #4
	b.ne	.LBB44_4
.LBB44_3:
	mov	w8, wzr
	mov	x19, xzr
	mov	x20, xzr
	mov	w9, wzr
	mov	x21, xzr
	mov	x10, xzr
	b	.LBB44_7
.LBB44_4:
	adrp	x19, .Lstatic.20
	add	x19, x19, :lo12:.Lstatic.20
	mov	x21, x2
	mov	x22, x0
	mov	x0, x19
	mov	w1, #7
	mov	x2, x19
	mov	w3, #7
	mov	w20, #7
	bl	core.cmp.text.RefStrPartialEq.eq
	cbz	w0, .LBB44_6
	cmp	w23, #1
	mov	w8, #27
	adrp	x9, .Lstatic.57
	add	x9, x9, :lo12:.Lstatic.57
	cinc	x20, x8, ne
	adrp	x8, .Lstatic.56
	add	x8, x8, :lo12:.Lstatic.56
	csel	x19, x8, x9, eq
.LBB44_6:
	mov	w9, #5
	mov	w8, #1
	mov	w10, #4
	mov	x0, x22
.LBB44_7:
	stp	x19, x20, [x0, #8]
	ldp	x20, x19, [sp, #48]
	stp	x21, x10, [x0, #32]
	ldr	x23, [sp, #16]
	ldp	x22, x21, [sp, #32]
	strb	w8, [x0]
	strh	w9, [x0, #24]
	strh	wzr, [x0, #26]
	str	wzr, [x0, #28]
	ldp	x29, x30, [sp], #64
	ret
.Lfunc_end44:
	.size	nla_wire.place.check_one.f7f30aae703aa44d, .Lfunc_end44-nla_wire.place.check_one.f7f30aae703aa44d

	.section	.text.nla_wire.place.check_one.16a873d75d6df2a1,"ax",@progbits
	.p2align	2
	.type	nla_wire.place.check_one.16a873d75d6df2a1,@function
nla_wire.place.check_one.16a873d75d6df2a1:
	sub	sp, sp, #192
	movi	v0.2d, #0000000000000000
	ldrh	w8, [x1]
	ldr	x2, [x1, #16]
	stp	x20, x19, [sp, #176]
	mov	x20, x1
	mov	x19, x0
	and	w8, w8, #0x3fff
	stp	x29, x30, [sp, #96]
	add	x29, sp, #96
	cmp	w8, #3
	stp	x28, x27, [sp, #112]
	stp	x26, x25, [sp, #128]
	stp	x24, x23, [sp, #144]
	stp	x22, x21, [sp, #160]
	stp	q0, q0, [sp, #16]
	str	q0, [sp]
	b.eq	.LBB45_8
	ldr	x1, [x20, #8]
	cmp	w8, #2
	b.eq	.LBB45_3
	cmp	w8, #1
	b.ne	.LBB45_4
.LBB45_3:
	mov	x0, sp
	bl	nla_wire.text.check_string
.LBB45_4:
	ldrb	w23, [sp]
	cbz	w23, .LBB45_12
.LBB45_5:
	ldp	x21, x22, [sp, #8]
	adrp	x2, .Lstatic.20
	add	x2, x2, :lo12:.Lstatic.20
	ldrh	w8, [x20]
	ldrh	w20, [sp, #24]
	ldp	x26, x27, [sp, #32]
	mov	w3, #7
	ldrh	w24, [sp, #26]
	ldr	w25, [sp, #28]
	and	w8, w8, #0x3fff
	mov	x0, x21
	mov	x1, x22
	sub	w28, w8, #1
	bl	core.cmp.text.RefStrPartialEq.eq
	cmp	w28, #2
	b.hi	.LBB45_13
	cbz	w0, .LBB45_13
	adrp	x8, .Lswitch.table.nla_wire.place.check_one.16a873d75d6df2a1..390.rel
	add	x8, x8, :lo12:.Lswitch.table.nla_wire.place.check_one.16a873d75d6df2a1..390.rel
	adrp	x10, .Lswitch.table.nla_wire.place.check_one.16a873d75d6df2a1
	add	x10, x10, :lo12:.Lswitch.table.nla_wire.place.check_one.16a873d75d6df2a1
	ldrsw	x9, [x8, w28, sxtw #2]
	mov	w25, wzr
	ldr	x22, [x10, w28, sxtw #3]
	and	w20, w20, #0xff
	add	x21, x8, x9
	b	.LBB45_13
.LBB45_8:
	cmp	x2, #4
	b.ne	.LBB45_10
	add	x8, sp, #48
	mov	w23, wzr
	stur	q0, [sp, #79]
	orr	x8, x8, #0x7
	stp	q0, q0, [sp, #48]
	b	.LBB45_11
.LBB45_10:
	adrp	x8, .Lstatic.20
	add	x8, x8, :lo12:.Lstatic.20
	str	xzr, [sp, #48]
	stur	x8, [sp, #55]
	mov	w8, #7
	mov	w9, #4
	stur	x8, [sp, #63]
	mov	w8, #5
	mov	w23, #1
	stur	x8, [sp, #71]
	add	x8, sp, #48
	stur	x2, [sp, #79]
	orr	x8, x8, #0x7
	stur	x9, [sp, #87]
.LBB45_11:
	ldp	q0, q1, [x8]
	ldr	x8, [x8, #32]
	str	x8, [sp, #40]
	stur	q0, [sp, #8]
	stur	q1, [sp, #24]
	cbnz	w23, .LBB45_5
.LBB45_12:
	mov	x21, xzr
	mov	x22, xzr
	mov	w20, wzr
	mov	w24, wzr
	mov	w25, wzr
	mov	x26, xzr
	mov	x27, xzr
.LBB45_13:
	strb	w23, [x19]
	ldp	x29, x30, [sp, #96]
	stp	x21, x22, [x19, #8]
	ldp	x22, x21, [sp, #160]
	strh	w20, [x19, #24]
	strh	w24, [x19, #26]
	ldp	x24, x23, [sp, #144]
	str	w25, [x19, #28]
	stp	x26, x27, [x19, #32]
	ldp	x20, x19, [sp, #176]
	ldp	x26, x25, [sp, #128]
	ldp	x28, x27, [sp, #112]
	add	sp, sp, #192
	ret
.Lfunc_end45:
	.size	nla_wire.place.check_one.16a873d75d6df2a1, .Lfunc_end45-nla_wire.place.check_one.16a873d75d6df2a1

	.section	.text.nla_wire.place.check_one.5fa77b269143286c,"ax",@progbits
	.p2align	2
	.type	nla_wire.place.check_one.5fa77b269143286c,@function
nla_wire.place.check_one.5fa77b269143286c:
	stp	x29, x30, [sp, #-48]!
	and	w9, w1, #0x3fff
	stp	x20, x19, [sp, #32]
	mov	x19, x0
	mov	w8, wzr
	cmp	w9, #1
	mov	x9, xzr
	stp	x22, x21, [sp, #16]
	mov	x29, sp
	b.ne	.LBB46_3
	mov	x20, x2
	cmp	x2, #4
	mov	x11, x9
	mov	w10, w8
	mov	x13, x9
	mov	x12, x9
	b.eq	.LBB46_4
	adrp	x21, .Lstatic.20
	add	x21, x21, :lo12:.Lstatic.20
	mov	w1, #7
	mov	x0, x21
	mov	x2, x21
	mov	w3, #7
	mov	w22, #7
	bl	core.cmp.text.RefStrPartialEq.eq
	adrp	x8, .Lstatic.61
	add	x8, x8, :lo12:.Lstatic.61
	mov	w11, #13
	cmp	w0, #0
	mov	w10, #5
	mov	w12, #4
	csel	x9, x8, x21, ne
	csel	x11, x11, x22, ne
	mov	w8, #1
	mov	x13, x20
	b	.LBB46_4
.LBB46_3:
	mov	x11, x9
	mov	w10, w8
	mov	x13, x9
	mov	x12, x9
.LBB46_4:
	strb	w8, [x19]
	ldp	x22, x21, [sp, #16]
	stp	x9, x11, [x19, #8]
	strh	w10, [x19, #24]
	strh	wzr, [x19, #26]
	str	wzr, [x19, #28]
	stp	x13, x12, [x19, #32]
	ldp	x20, x19, [sp, #32]
	ldp	x29, x30, [sp], #48
	ret
.Lfunc_end46:
	.size	nla_wire.place.check_one.5fa77b269143286c, .Lfunc_end46-nla_wire.place.check_one.5fa77b269143286c

	.section	.text.nla_wire.place.check_one.6cf1decf0b22dc4b,"ax",@progbits
	.p2align	2
	.type	nla_wire.place.check_one.6cf1decf0b22dc4b,@function
nla_wire.place.check_one.6cf1decf0b22dc4b:
	sub	sp, sp, #144
	ldrh	w8, [x1]
	stp	x22, x21, [sp, #112]
	ldp	x21, x22, [x1, #8]
	stp	x24, x23, [sp, #96]
	and	w23, w8, #0x3fff
	stp	x20, x19, [sp, #128]
	mov	x19, x0
	cmp	w23, #45
	stp	x29, x30, [sp, #48]
	add	x29, sp, #48
	stp	x28, x27, [sp, #64]
	stp	x26, x25, [sp, #80]
	b.eq	.LBB47_27
	cmp	w23, #10
	b.eq	.LBB47_10
	cmp	w23, #2
	b.ne	.LBB47_9
	cbz	x22, .LBB47_40
	mov	x8, xzr
.LBB47_5:
	sub	x22, x22, x8
	cmp	x22, #4
	b.lo	.LBB47_54
	add	x21, x21, x8
	ldrh	w8, [x21]
	cmp	x22, x8
	b.lo	.LBB47_55
	cmp	w8, #3
	b.ls	.LBB47_56
	add	w8, w8, #3
	and	x8, x8, #0x1fffc
	cmp	x22, x8
	b.hi	.LBB47_5
.LBB47_9:
	mov	w8, wzr
	b	.LBB47_53
.LBB47_10:
	adrp	x20, .Lstatic.20
	add	x20, x20, :lo12:.Lstatic.20
	cbz	x22, .LBB47_38
	movi	v0.2d, #0000000000000000
	mov	x8, xzr
	stp	q0, q0, [sp, #16]
	str	q0, [sp]
	b	.LBB47_14
.LBB47_12:
	mov	x0, sp
	sub	x2, x24, #4
	bl	nla_wire.place.check_one.97809315b2b26985
	ldrb	w8, [sp]
	cbnz	w8, .LBB47_65
.LBB47_13:
	add	w8, w24, #3
	and	x8, x8, #0x1fffc
	cmp	x22, x8
	b.ls	.LBB47_52
.LBB47_14:
	sub	x22, x22, x8
	cmp	x22, #4
	b.lo	.LBB47_42
	add	x21, x21, x8
	ldrh	w24, [x21]
	cmp	x22, x24
	b.lo	.LBB47_43
	cmp	w24, #3
	b.ls	.LBB47_44
	ldrh	w1, [x21, #2]
	sub	x8, x24, #4
	and	w9, w1, #0x3fff
	cmp	w9, #6
	b.le	.LBB47_21
	cmp	w9, #7
	b.eq	.LBB47_25
	cmp	w9, #8
	b.eq	.LBB47_26
	cmp	w9, #9
	b.eq	.LBB47_24
	b	.LBB47_13
.LBB47_21:
	cmp	w9, #1
	b.eq	.LBB47_24
	cmp	w9, #5
	b.ne	.LBB47_13
	cmp	w24, #19
	b.ls	.LBB47_12
	b	.LBB47_13
.LBB47_24:
	cmp	x8, #4
	b.ne	.LBB47_12
	b	.LBB47_13
.LBB47_25:
	cmp	x8, #16
	b.eq	.LBB47_13
	b	.LBB47_12
.LBB47_26:
	cmp	x8, #1
	b.ne	.LBB47_12
	b	.LBB47_13
.LBB47_27:
	adrp	x20, .Lstatic.20
	add	x20, x20, :lo12:.Lstatic.20
	cbz	x22, .LBB47_39
	movi	v0.2d, #0000000000000000
	mov	x8, xzr
	stp	q0, q0, [sp, #16]
	str	q0, [sp]
	b	.LBB47_31
.LBB47_29:
	mov	x0, sp
	sub	x2, x24, #4
	bl	nla_wire.place.check_one.7562298f77a88fdb
	ldrb	w8, [sp]
	cbnz	w8, .LBB47_65
.LBB47_30:
	add	w8, w24, #3
	and	x8, x8, #0x1fffc
	cmp	x22, x8
	b.ls	.LBB47_52
.LBB47_31:
	sub	x22, x22, x8
	cmp	x22, #4
	b.lo	.LBB47_42
	add	x21, x21, x8
	ldrh	w24, [x21]
	cmp	x22, x24
	b.lo	.LBB47_43
	cmp	w24, #3
	b.ls	.LBB47_44
	ldrh	w1, [x21, #2]
	sub	x8, x24, #4
	and	w9, w1, #0x3fff
	cmp	w9, #1
	b.eq	.LBB47_37
	cmp	w9, #2
	b.ne	.LBB47_30
	cmp	x8, #1
	b.ne	.LBB47_29
	b	.LBB47_30
.LBB47_37:
	cmp	x8, #4
	b.eq	.LBB47_30
	b	.LBB47_29
.LBB47_38:
	mov	w27, wzr
	mov	x25, xzr
	mov	w26, wzr
	adrp	x23, .Lstatic.74
	add	x23, x23, :lo12:.Lstatic.74
	mov	w24, #4
	mov	w28, #8
	mov	w21, #7
	b	.LBB47_61
.LBB47_39:
	mov	w27, wzr
	mov	x25, xzr
	mov	w26, wzr
	adrp	x23, .Lstatic.75
	add	x23, x23, :lo12:.Lstatic.75
	b	.LBB47_41
.LBB47_40:
	mov	w27, wzr
	mov	x25, xzr
	mov	w26, wzr
	adrp	x23, .Lstatic.73
	add	x23, x23, :lo12:.Lstatic.73
	adrp	x20, .Lstatic.20
	add	x20, x20, :lo12:.Lstatic.20
.LBB47_41:
	mov	w24, #4
	mov	w21, #7
	b	.LBB47_60
.LBB47_42:
	mov	w24, #1
	b	.LBB47_45
.LBB47_43:
	mov	w8, #2
	orr	x24, x8, x24, lsl #16
	b	.LBB47_45
.LBB47_44:
	mov	w8, #3
	mov	x22, xzr
	orr	x24, x8, x24, lsl #16
.LBB47_45:
	mov	x25, xzr
	lsr	x9, x20, #16
	ubfx	w10, w20, #8, #8
	mov	w8, #1
	mov	w21, #7
	and	x11, x20, #0xff
	mov	w10, w10
	orr	x10, x11, x10, lsl #8
	orr	x20, x10, x9, lsl #16
	cbz	w8, .LBB47_53
.LBB47_46:
	lsr	x26, x24, #32
	lsr	x27, x24, #16
	cmp	w23, #2
	b.eq	.LBB47_59
.LBB47_47:
	cmp	w23, #45
	b.eq	.LBB47_50
	cmp	w23, #10
	b.ne	.LBB47_51
	adrp	x23, .Lstatic.74
	add	x23, x23, :lo12:.Lstatic.74
	mov	w28, #8
	b	.LBB47_61
.LBB47_50:
	adrp	x23, .Lstatic.75
	add	x23, x23, :lo12:.Lstatic.75
	b	.LBB47_60
.LBB47_51:
	adrp	x2, .Lstatic.20
	add	x2, x2, :lo12:.Lstatic.20
	mov	x0, x20
	mov	x1, x21
	mov	w3, #7
	bl	core.cmp.text.RefStrPartialEq.eq
	mov	w8, #1
	b	.LBB47_64
.LBB47_52:
	mov	w20, wzr
	mov	w8, wzr
	mov	x21, xzr
	mov	x24, xzr
	mov	x22, xzr
	mov	x25, xzr
	and	x11, x20, #0xff
	mov	w10, wzr
	orr	x10, x11, x10, lsl #8
	orr	x20, x10, xzr, lsl #16
.LBB47_53:
	mov	x20, xzr
	mov	x21, xzr
	mov	w24, wzr
	mov	w27, wzr
	mov	w26, wzr
	mov	x22, xzr
	mov	x25, xzr
	b	.LBB47_64
.LBB47_54:
	mov	w24, #1
	b	.LBB47_58
.LBB47_55:
	mov	w9, #2
	b	.LBB47_57
.LBB47_56:
	mov	w9, #3
	mov	x22, xzr
.LBB47_57:
	orr	x24, x9, x8, lsl #16
.LBB47_58:
	mov	w26, wzr
	mov	x25, xzr
	mov	w21, #7
	adrp	x20, .Lstatic.20
	add	x20, x20, :lo12:.Lstatic.20
	lsr	x27, x24, #16
	cmp	w23, #2
	b.ne	.LBB47_47
.LBB47_59:
	adrp	x23, .Lstatic.73
	add	x23, x23, :lo12:.Lstatic.73
.LBB47_60:
	mov	w28, #7
.LBB47_61:
	adrp	x2, .Lstatic.20
	add	x2, x2, :lo12:.Lstatic.20
	mov	x0, x20
	mov	x1, x21
	mov	w3, #7
	bl	core.cmp.text.RefStrPartialEq.eq
	cbz	w0, .LBB47_63
	mov	w26, wzr
	and	w24, w24, #0xff
	mov	w8, #1
	mov	x20, x23
	mov	x21, x28
	b	.LBB47_64
.LBB47_63:
	mov	w8, #1
.LBB47_64:
	strb	w8, [x19]
	ldp	x29, x30, [sp, #48]
	stp	x20, x21, [x19, #8]
	strh	w24, [x19, #24]
	ldp	x24, x23, [sp, #96]
	strh	w27, [x19, #26]
	ldp	x28, x27, [sp, #64]
	str	w26, [x19, #28]
	stp	x22, x25, [x19, #32]
	ldp	x20, x19, [sp, #128]
	ldp	x22, x21, [sp, #112]
	ldp	x26, x25, [sp, #80]
	add	sp, sp, #144
	ret
.LBB47_65:
	ldrh	w8, [sp, #14]
	ldur	w9, [sp, #10]
	ldrb	w20, [sp, #8]
	ldp	x21, x24, [sp, #16]
	ldrb	w10, [sp, #9]
	orr	x9, x9, x8, lsl #32
	mov	w8, #1
	ldp	x22, x25, [sp, #32]
	and	x11, x20, #0xff
	mov	w10, w10
	orr	x10, x11, x10, lsl #8
	orr	x20, x10, x9, lsl #16
	cbnz	w8, .LBB47_46
	b	.LBB47_53
.Lfunc_end47:
	.size	nla_wire.place.check_one.6cf1decf0b22dc4b, .Lfunc_end47-nla_wire.place.check_one.6cf1decf0b22dc4b

	.section	.text.nla_wire.place.check_one.97809315b2b26985,"ax",@progbits
	.p2align	2
	.type	nla_wire.place.check_one.97809315b2b26985,@function
nla_wire.place.check_one.97809315b2b26985:
	stp	x29, x30, [sp, #-80]!
	and	w10, w1, #0x3fff
	stp	x20, x19, [sp, #64]
	mov	x20, x2
	mov	x19, x0
	mov	w8, wzr
	cmp	w10, #6
	mov	x9, xzr
	stp	x26, x25, [sp, #16]
	mov	x29, sp
	stp	x24, x23, [sp, #32]
	stp	x22, x21, [sp, #48]
	b.le	.LBB48_6
	cmp	w10, #7
	b.eq	.LBB48_10
	cmp	w10, #8
	b.eq	.LBB48_12
	cmp	w10, #9
	mov	x10, x9
	mov	w22, w8
	mov	x11, x9
	mov	x23, x9
	b.ne	.LBB48_19
	cmp	x20, #4
	b.eq	.LBB48_15
	adrp	x24, .Lstatic.70
	add	x24, x24, :lo12:.Lstatic.70
	mov	w22, #5
	mov	w25, #17
	b	.LBB48_17
.LBB48_6:
	cmp	w10, #1
	b.eq	.LBB48_14
	cmp	w10, #5
	mov	x10, x9
	mov	w22, w8
	mov	x11, x9
	mov	x23, x9
	b.ne	.LBB48_19
	cmp	x20, #16
	b.hs	.LBB48_15
	mov	w22, wzr
	adrp	x24, .Lstatic.64
	add	x24, x24, :lo12:.Lstatic.64
	mov	w25, #20
	mov	w23, #16
	b	.LBB48_18
.LBB48_10:
	cmp	x20, #16
	b.eq	.LBB48_15
	adrp	x24, .Lstatic.68
	add	x24, x24, :lo12:.Lstatic.68
	mov	w22, #5
	mov	w23, #16
	mov	w25, #16
	b	.LBB48_18
.LBB48_12:
	cmp	x20, #1
	b.eq	.LBB48_15
	adrp	x24, .Lstatic.69
	add	x24, x24, :lo12:.Lstatic.69
	mov	w22, #5
	mov	w25, #24
	mov	w23, #1
	b	.LBB48_18
.LBB48_14:
	cmp	x20, #4
	b.ne	.LBB48_16
.LBB48_15:
	mov	w8, wzr
	mov	x9, xzr
	mov	x10, xzr
	mov	w22, wzr
	mov	x11, xzr
	mov	x23, xzr
	b	.LBB48_19
.LBB48_16:
	adrp	x24, .Lstatic.63
	add	x24, x24, :lo12:.Lstatic.63
	mov	w22, #5
	mov	w25, #16
.LBB48_17:
	mov	w23, #4
.LBB48_18:
	adrp	x21, .Lstatic.20
	add	x21, x21, :lo12:.Lstatic.20
	mov	w1, #7
	mov	x0, x21
	mov	x2, x21
	mov	w3, #7
	mov	w26, #7
	bl	core.cmp.text.RefStrPartialEq.eq
	cmp	w0, #0
	mov	w8, #1
	mov	x11, x20
	csel	x9, x24, x21, ne
	csel	x10, x25, x26, ne
.LBB48_19:
	strb	w8, [x19]
	ldp	x26, x25, [sp, #16]
	stp	x9, x10, [x19, #8]
	strh	w22, [x19, #24]
	ldp	x22, x21, [sp, #48]
	strh	wzr, [x19, #26]
	str	wzr, [x19, #28]
	stp	x11, x23, [x19, #32]
	ldp	x20, x19, [sp, #64]
	ldp	x24, x23, [sp, #32]
	ldp	x29, x30, [sp], #80
	ret
.Lfunc_end48:
	.size	nla_wire.place.check_one.97809315b2b26985, .Lfunc_end48-nla_wire.place.check_one.97809315b2b26985

	.section	.text.nla_wire.place.check_one.7562298f77a88fdb,"ax",@progbits
	.p2align	2
	.type	nla_wire.place.check_one.7562298f77a88fdb,@function
nla_wire.place.check_one.7562298f77a88fdb:
	stp	x29, x30, [sp, #-64]!
	stp	x24, x23, [sp, #16]
	and	w24, w1, #0x3fff
	mov	x29, sp
	cmp	w24, #2
	stp	x22, x21, [sp, #32]
	stp	x20, x19, [sp, #48]
	b.eq	.LBB49_4
	cmp	w24, #1
	b.ne	.LBB49_5
	cmp	x2, #4
	b.eq	.LBB49_5
	mov	x21, x2
	mov	x22, x0
	mov	w20, #4
	b	.LBB49_7
.LBB49_4:
	cmp	x2, #1
	b.ne	.LBB49_6
.LBB49_5:
	mov	w8, wzr
	mov	x19, xzr
	mov	x23, xzr
	mov	w9, wzr
	mov	x21, xzr
	mov	x20, xzr
	b	.LBB49_10
.LBB49_6:
	mov	x21, x2
	mov	x22, x0
	mov	w20, #1
.LBB49_7:
	adrp	x19, .Lstatic.20
	add	x19, x19, :lo12:.Lstatic.20
	mov	w1, #7
	mov	x0, x19
	mov	x2, x19
	mov	w3, #7
	mov	w23, #7
	bl	core.cmp.text.RefStrPartialEq.eq
	cbz	w0, .LBB49_9
	cmp	w24, #1
	mov	w8, #22
	mov	w9, #13
	adrp	x10, .Lstatic.72
	add	x10, x10, :lo12:.Lstatic.72
	csel	x23, x9, x8, eq
	adrp	x8, .Lstatic.71
	add	x8, x8, :lo12:.Lstatic.71
	csel	x19, x8, x10, eq
.LBB49_9:
	mov	w9, #5
	mov	w8, #1
	mov	x0, x22
.LBB49_10:
	stp	x19, x23, [x0, #8]
	ldp	x24, x23, [sp, #16]
	stp	x21, x20, [x0, #32]
	ldp	x20, x19, [sp, #48]
	strb	w8, [x0]
	ldp	x22, x21, [sp, #32]
	strh	w9, [x0, #24]
	strh	wzr, [x0, #26]
	str	wzr, [x0, #28]
	ldp	x29, x30, [sp], #64
	ret
.Lfunc_end49:
	.size	nla_wire.place.check_one.7562298f77a88fdb, .Lfunc_end49-nla_wire.place.check_one.7562298f77a88fdb

	.section	.text.link_msg.numbers.kind_name,"ax",@progbits
	.p2align	2
	.type	link_msg.numbers.kind_name,@function
link_msg.numbers.kind_name:
	sub	w8, w0, #1
	and	w9, w8, #0xffff
	cmp	w9, #68
	b.hi	.LBB50_2
	and	x8, x8, #0xffff
	adrp	x9, .Lswitch.table.link_msg.numbers.kind_name.391.rel
	add	x9, x9, :lo12:.Lswitch.table.link_msg.numbers.kind_name.391.rel
	ldrsw	x10, [x9, x8, lsl #2]
	adrp	x11, .Lswitch.table.link_msg.numbers.kind_name
	add	x11, x11, :lo12:.Lswitch.table.link_msg.numbers.kind_name
	ldr	x1, [x11, x8, lsl #3]
	add	x0, x9, x10
	ret
.LBB50_2:
	mov	x1, xzr
	adrp	x0, .Lstatic.3
	add	x0, x0, :lo12:.Lstatic.3
	ret
.Lfunc_end50:
	.size	link_msg.numbers.kind_name, .Lfunc_end50-link_msg.numbers.kind_name

	.section	.text.nla_wire.members.write_each.c4c48bc1b6cb0726,"ax",@progbits
	.p2align	2
	.type	nla_wire.members.write_each.c4c48bc1b6cb0726,@function
nla_wire.members.write_each.c4c48bc1b6cb0726:
	sub	sp, sp, #144
	stp	x29, x30, [sp, #48]
	add	x29, sp, #48
	stp	x28, x27, [sp, #64]
	stp	x26, x25, [sp, #80]
	stp	x24, x23, [sp, #96]
	stp	x22, x21, [sp, #112]
	stp	x20, x19, [sp, #128]
	str	w0, [sp, #20]
	cbz	x2, .LBB51_192
	add	x8, x3, #4
	mov	x21, x2
	mov	x23, x1
	mov	x27, xzr
	mov	x28, xzr
	str	x8, [sp, #24]
	add	x8, x3, #20
	stp	x3, x4, [x29, #-16]
	str	x8, [sp, #8]
	b	.LBB51_4
.LBB51_2:
	ldrb	w8, [x10]
	mov	w9, #5
	strh	w19, [x22, #2]
	strh	w9, [x22]
	mov	w0, #8
	strb	w8, [x22, #4]
	sturh	wzr, [x22, #5]
	strb	wzr, [x22, #7]
.LBB51_3:
	cmp	x21, x28
	add	x27, x0, x27
	b.ls	.LBB51_192
.LBB51_4:
	sub	x21, x21, x28
	cmp	x21, #4
	b.lo	.LBB51_192
	mov	x8, x23
	add	x23, x23, x28
	mov	x9, x28
	ldrh	w26, [x23]
	cmp	w26, #4
	b.lo	.LBB51_192
	cmp	x21, x26
	b.lo	.LBB51_192
	ldrb	w24, [x23, #2]
	ldrb	w20, [x23, #3]
	add	w12, w26, #3
	add	x10, x23, #4
	sub	x25, x26, #4
	and	x28, x12, #0x1fffc
	mov	w19, w24
	add	x22, x3, x27
	bfi	w19, w20, #8, #6
	sub	w11, w19, #1
	cmp	w11, #68
	b.hi	.LBB51_52
	adrp	x12, .LJTI51_0
	add	x12, x12, :lo12:.LJTI51_0
	adr	x13, .LBB51_2
	ldrh	w14, [x12, x11, lsl #1]
	add	x13, x13, x14, lsl #2
	sub	x11, x4, x27
	br	x13
.LBB51_9:
	add	x8, x22, #4
	sub	x9, x8, x10
	cmp	x9, #3
	b.hi	.LBB51_11
	ldrb	w8, [x23, #4]
	strb	w8, [x22, #4]
	ldrb	w8, [x23, #5]
	strb	w8, [x22, #5]
	ldrb	w8, [x23, #6]
	strb	w8, [x22, #6]
	ldrb	w8, [x23, #7]
	strb	w8, [x22, #7]
	b	.LBB51_12
.LBB51_11:
	ldr	w9, [x10]
	str	w9, [x8]
.LBB51_12:
	mov	w0, #8
.LBB51_13:
	strh	w0, [x22]
	strh	w19, [x22, #2]
	b	.LBB51_3
.LBB51_14:
	cbz	x25, .LBB51_16
	sub	x11, x26, #5
	ldrb	w12, [x10, x11]
	cbz	w12, .LBB51_33
.LBB51_16:
	cmp	x25, #4
	add	x26, x22, #4
	b.hs	.LBB51_34
.LBB51_17:
	sub	x10, x26, x10
	cmp	x10, x25
	b.hs	.LBB51_32
	cmp	x25, #8
	b.lo	.LBB51_20
	add	x10, x27, x3
	add	x11, x9, x8
	sub	x10, x10, x11
	cmp	x10, #32
	b.hs	.LBB51_108
.LBB51_20:
	mov	x10, xzr
.LBB51_21:
	add	x9, x10, x9
	add	x11, x10, x27
	add	x9, x8, x9
	sub	x8, x25, x10
	ldr	x10, [sp, #24]
	add	x9, x9, #4
	add	x10, x10, x11
.LBB51_22:
	ldrb	w11, [x9], #1
	subs	x8, x8, #1
	strb	w11, [x10], #1
	b.ne	.LBB51_22
	b	.LBB51_146
.LBB51_23:
	cmp	x25, #32
	mov	w11, #32
	add	x12, x22, #4
	csel	x26, x25, x11, lo
	sub	x11, x12, x10
	cmp	x11, x26
	b.hs	.LBB51_62
	cmp	x25, #4
	b.lo	.LBB51_26
	add	x11, x27, x3
	add	x13, x9, x8
	sub	x11, x11, x13
	cmp	x11, #16
	b.hs	.LBB51_130
.LBB51_26:
	mov	x11, xzr
.LBB51_27:
	add	x9, x11, x9
	add	x10, x11, x27
	add	x9, x8, x9
	sub	x8, x11, x26
	ldr	x11, [sp, #24]
	add	x9, x9, #4
	add	x10, x11, x10
.LBB51_28:
	ldrb	w11, [x9], #1
	adds	x8, x8, #1
	strb	w11, [x10], #1
	b.lo	.LBB51_28
	b	.LBB51_63
.LBB51_29:
	cmp	x25, #2
	b.ne	.LBB51_52
	add	x8, x22, #4
	sub	x9, x8, x10
	cmp	x9, #1
	b.hi	.LBB51_104
	ldrb	w8, [x23, #4]
	strb	w8, [x22, #4]
	ldrb	w8, [x23, #5]
	strb	w8, [x22, #5]
	b	.LBB51_105
.LBB51_32:
	add	x0, x22, #4
	add	x1, x23, #4
	mov	x2, x25
	bl	memmove
	ldp	x3, x4, [x29, #-16]
	b	.LBB51_146
.LBB51_33:
	mov	x25, x11
	cmp	x11, #4
	add	x26, x22, #4
	b.lo	.LBB51_17
.LBB51_34:
	cmp	x25, #7
	b.hi	.LBB51_38
	sub	x8, x26, x10
	cmp	x8, #3
	b.hi	.LBB51_98
	ldrb	w8, [x23, #4]
	strb	w8, [x22, #4]
	ldrb	w8, [x23, #5]
	strb	w8, [x22, #5]
	ldrb	w8, [x23, #6]
	strb	w8, [x22, #6]
	ldrb	w8, [x23, #7]
	strb	w8, [x22, #7]
	add	x8, x22, x25
	add	x9, x23, x25
	sub	x10, x8, x9
	cmp	x10, #3
	b.ls	.LBB51_99
.LBB51_37:
	ldr	w9, [x9]
	str	w9, [x8]
	b	.LBB51_146
.LBB51_38:
	cmp	x25, #16
	b.hi	.LBB51_17
	sub	x8, x26, x10
	cmp	x8, #7
	b.hi	.LBB51_112
	ldrb	w8, [x23, #4]
	strb	w8, [x22, #4]
	ldrb	w8, [x23, #5]
	strb	w8, [x22, #5]
	ldrb	w8, [x23, #6]
	strb	w8, [x22, #6]
	ldrb	w8, [x23, #7]
	strb	w8, [x22, #7]
	ldrb	w8, [x23, #8]
	strb	w8, [x22, #8]
	ldrb	w8, [x23, #9]
	strb	w8, [x22, #9]
	ldrb	w8, [x23, #10]
	strb	w8, [x22, #10]
	ldrb	w8, [x23, #11]
	strb	w8, [x22, #11]
	sub	x9, x25, #8
	add	x8, x26, x9
	add	x9, x10, x9
	sub	x10, x8, x9
	cmp	x10, #7
	b.ls	.LBB51_113
.LBB51_41:
	ldr	x9, [x9]
	str	x9, [x8]
	b	.LBB51_146
.LBB51_42:
	add	x11, x22, #4
	cmp	w26, #204
	sub	x12, x11, x10
	b.hs	.LBB51_100
	cmp	x12, x25
	b.hs	.LBB51_124
	cmp	x25, #8
	b.lo	.LBB51_46
	add	x10, x27, x3
	add	x11, x9, x8
	sub	x10, x10, x11
	cmp	x10, #32
	b.hs	.LBB51_174
.LBB51_46:
	mov	x10, xzr
.LBB51_47:
	add	x9, x10, x9
	sub	x11, x26, x10
	add	x10, x10, x27
	add	x9, x8, x9
	sub	x8, x11, #4
	ldr	x11, [sp, #24]
	add	x9, x9, #4
	add	x10, x11, x10
.LBB51_48:
	ldrb	w11, [x9], #1
	subs	x8, x8, #1
	strb	w11, [x10], #1
	b.ne	.LBB51_48
	b	.LBB51_125
.LBB51_49:
	add	x0, x23, #4
	add	x2, x22, #4
	mov	x1, x25
	orr	w19, w19, #0x8000
	bl	nla_wire.members.write_each.b30b196c481b950e
	b	.LBB51_116
.LBB51_50:
	ldur	x8, [x29, #-16]
	add	x1, x23, #4
	mov	w0, w19
	mov	x2, x25
	add	x3, x8, x27
	bl	link_msg.payload.write_event
	ldur	x3, [x29, #-16]
	b	.LBB51_137
.LBB51_51:
	ldr	w11, [sp, #20]
	mov	w12, #1
	mov	w13, #51
	and	w11, w11, #0xff
	lsl	w12, w12, w11
	tst	w12, w13
	b.eq	.LBB51_114
.LBB51_52:
	add	x11, x22, #4
	sub	x10, x11, x10
	cmp	x10, x25
	b.hs	.LBB51_58
	cmp	x25, #8
	b.lo	.LBB51_55
	add	x10, x27, x3
	add	x11, x9, x8
	sub	x10, x10, x11
	cmp	x10, #32
	b.hs	.LBB51_122
.LBB51_55:
	mov	x10, xzr
.LBB51_56:
	add	x9, x10, x9
	sub	x11, x26, x10
	add	x10, x10, x27
	add	x9, x8, x9
	sub	x8, x11, #4
	ldr	x11, [sp, #24]
	add	x9, x9, #4
	add	x10, x11, x10
.LBB51_57:
	ldrb	w11, [x9], #1
	subs	x8, x8, #1
	strb	w11, [x10], #1
	b.ne	.LBB51_57
	b	.LBB51_59
.LBB51_58:
	add	x0, x22, #4
	add	x1, x23, #4
	sub	x2, x26, #4
	bl	memmove
	ldur	x3, [x29, #-16]
.LBB51_59:
	lsl	w8, w20, #8
	sub	x9, x28, x26
	strh	w26, [x22]
	cmp	x9, #3
	orr	w8, w8, w24
	strh	w8, [x22, #2]
	add	x8, x22, x26
	b.ne	.LBB51_82
.LBB51_60:
	mov	x0, x28
	b	.LBB51_66
.LBB51_61:
	sub	x3, x11, #4
	add	x0, x23, #4
	add	x2, x22, #4
	mov	x1, x25
	bl	nla_wire.members.write_each.3bb4c8661a1029f4
	b	.LBB51_116
.LBB51_62:
	add	x0, x22, #4
	add	x1, x23, #4
	mov	x2, x26
	bl	memmove
	ldur	x3, [x29, #-16]
.LBB51_63:
	add	w8, w26, #7
	add	x10, x26, #4
	strh	w19, [x22, #2]
	and	x0, x8, #0x7c
	add	x8, x22, x10
	strh	w10, [x22]
	sub	x9, x0, x10
	cmp	x9, #3
	b.eq	.LBB51_66
	ldur	x4, [x29, #-8]
	cmp	x9, #2
	b.ne	.LBB51_148
.LBB51_65:
	strh	wzr, [x8]
	b	.LBB51_3
.LBB51_66:
	strh	wzr, [x8]
	strb	wzr, [x8, #2]
	b	.LBB51_137
.LBB51_67:
	ldur	q0, [x23, #4]
	ldur	x8, [x23, #20]
	mov	w0, #36
	ldr	w9, [x23, #28]
	stur	q0, [x22, #4]
	stur	x8, [x22, #20]
	stp	w9, wzr, [x22, #28]
	b	.LBB51_13
.LBB51_68:
	add	x0, x23, #4
	add	x2, x22, #4
	mov	x1, x25
	bl	nla_wire.members.write_each.8ba1f663fcd59a5e
	b	.LBB51_116
.LBB51_69:
	add	x0, x23, #4
	add	x2, x22, #4
	mov	x1, x25
	orr	w19, w19, #0x8000
	bl	nla_wire.members.write_each.16a873d75d6df2a1
	b	.LBB51_116
.LBB51_70:
	add	x0, x23, #4
	add	x2, x22, #4
	mov	x1, x25
	bl	nla_wire.members.write_each.f7f30aae703aa44d
	b	.LBB51_116
.LBB51_71:
	ldr	w12, [sp, #20]
	and	w12, w12, #0xff
	cmp	w12, #2
	b.gt	.LBB51_74
	cbz	w12, .LBB51_165
	cmp	w12, #1
	b.ne	.LBB51_86
.LBB51_74:
	add	x11, x22, #4
	sub	x10, x11, x10
	cmp	x10, x25
	b.hs	.LBB51_80
	cmp	x25, #8
	b.lo	.LBB51_77
	add	x10, x27, x3
	add	x11, x9, x8
	sub	x10, x10, x11
	cmp	x10, #32
	b.hs	.LBB51_110
.LBB51_77:
	mov	x10, xzr
.LBB51_78:
	add	x9, x10, x9
	sub	x11, x26, x10
	add	x10, x10, x27
	add	x9, x8, x9
	sub	x8, x11, #4
	ldr	x11, [sp, #24]
	add	x9, x9, #4
	add	x10, x11, x10
.LBB51_79:
	ldrb	w11, [x9], #1
	subs	x8, x8, #1
	strb	w11, [x10], #1
	b.ne	.LBB51_79
	b	.LBB51_81
.LBB51_80:
	add	x0, x22, #4
	add	x1, x23, #4
	sub	x2, x26, #4
	bl	memmove
	ldur	x3, [x29, #-16]
.LBB51_81:
	sub	x9, x28, x26
	strh	w26, [x22]
	cmp	x9, #3
	strh	w19, [x22, #2]
	add	x8, x22, x26
	b.eq	.LBB51_60
.LBB51_82:
	ldur	x4, [x29, #-8]
	cmp	x9, #2
	b.eq	.LBB51_85
	cmp	x9, #1
	mov	x0, x28
	b.ne	.LBB51_3
	strb	wzr, [x8]
	mov	x0, x28
	b	.LBB51_3
.LBB51_85:
	strh	wzr, [x8]
	mov	x0, x28
	b	.LBB51_3
.LBB51_86:
	add	x0, x23, #4
	add	x2, x22, #4
	mov	x1, x25
	b	.LBB51_115
.LBB51_87:
	add	x0, x23, #4
	add	x2, x22, #4
	mov	x1, x25
	bl	nla_wire.members.write_each.49064c0641319ce4
	b	.LBB51_116
.LBB51_88:
	ldrb	w8, [x10]
	mov	w9, #5
	strh	w19, [x22, #2]
	sturh	wzr, [x22, #5]
	mov	w0, #8
	cmp	w8, #0
	strh	w9, [x22]
	cset	w8, ne
	strb	wzr, [x22, #7]
	strb	w8, [x22, #4]
	b	.LBB51_3
.LBB51_89:
	add	x11, x22, #4
	cmp	w26, #100
	sub	x12, x11, x10
	b.hs	.LBB51_106
	cmp	x12, x25
	b.hs	.LBB51_132
	cmp	x25, #8
	b.lo	.LBB51_93
	add	x10, x27, x3
	add	x11, x9, x8
	sub	x10, x10, x11
	cmp	x10, #32
	b.hs	.LBB51_176
.LBB51_93:
	mov	x10, xzr
.LBB51_94:
	add	x9, x10, x9
	sub	x11, x26, x10
	add	x10, x10, x27
	add	x9, x8, x9
	sub	x8, x11, #4
	ldr	x11, [sp, #24]
	add	x9, x9, #4
	add	x10, x11, x10
.LBB51_95:
	ldrb	w11, [x9], #1
	subs	x8, x8, #1
	strb	w11, [x10], #1
	b.ne	.LBB51_95
	b	.LBB51_133
.LBB51_96:
	add	x0, x23, #4
	add	x2, x22, #4
	mov	x1, x25
	orr	w19, w19, #0x8000
	bl	nla_wire.members.write_each.5fa77b269143286c
	b	.LBB51_116
.LBB51_97:
	sub	x3, x11, #4
	add	x0, x23, #4
	add	x2, x22, #4
	mov	x1, x25
	bl	nla_wire.members.write_each.79503c7a397af21a
	b	.LBB51_116
.LBB51_98:
	ldr	w8, [x10]
	str	w8, [x26]
	add	x8, x22, x25
	add	x9, x23, x25
	sub	x10, x8, x9
	cmp	x10, #3
	b.hi	.LBB51_37
.LBB51_99:
	ldrb	w10, [x9]
	strb	w10, [x8]
	ldrb	w10, [x9, #1]
	strb	w10, [x8, #1]
	ldrb	w10, [x9, #2]
	strb	w10, [x8, #2]
	ldrb	w9, [x9, #3]
	strb	w9, [x8, #3]
	b	.LBB51_146
.LBB51_100:
	cmp	x12, #199
	b.hi	.LBB51_128
	add	x10, x27, x3
	add	x8, x9, x8
	sub	x8, x10, x8
	cmp	x8, #31
	b.hi	.LBB51_166
	mov	w8, #4
.LBB51_103:
	ldrb	w9, [x23, x8]
	strb	w9, [x22, x8]
	add	x8, x8, #1
	cmp	x8, #204
	b.ne	.LBB51_103
	b	.LBB51_129
.LBB51_104:
	ldrh	w9, [x10]
	strh	w9, [x8]
.LBB51_105:
	mov	w8, #6
	strh	w19, [x22, #2]
	mov	w0, #8
	strh	w8, [x22]
	strh	wzr, [x22, #6]
	b	.LBB51_3
.LBB51_106:
	cmp	x12, #95
	b.hi	.LBB51_138
	ldrb	w8, [x23, #4]
	mov	w0, #100
	strb	w8, [x22, #4]
	ldrb	w8, [x23, #5]
	strb	w8, [x22, #5]
	ldrb	w8, [x23, #6]
	strb	w8, [x22, #6]
	ldrb	w8, [x23, #7]
	strb	w8, [x22, #7]
	ldrb	w8, [x23, #8]
	strb	w8, [x22, #8]
	ldrb	w8, [x23, #9]
	strb	w8, [x22, #9]
	ldrb	w8, [x23, #10]
	strb	w8, [x22, #10]
	ldrb	w8, [x23, #11]
	strb	w8, [x22, #11]
	ldrb	w8, [x23, #12]
	strb	w8, [x22, #12]
	ldrb	w8, [x23, #13]
	strb	w8, [x22, #13]
	ldrb	w8, [x23, #14]
	strb	w8, [x22, #14]
	ldrb	w8, [x23, #15]
	strb	w8, [x22, #15]
	ldrb	w8, [x23, #16]
	strb	w8, [x22, #16]
	ldrb	w8, [x23, #17]
	strb	w8, [x22, #17]
	ldrb	w8, [x23, #18]
	strb	w8, [x22, #18]
	ldrb	w8, [x23, #19]
	strb	w8, [x22, #19]
	ldrb	w8, [x23, #20]
	strb	w8, [x22, #20]
	ldrb	w8, [x23, #21]
	strb	w8, [x22, #21]
	ldrb	w8, [x23, #22]
	strb	w8, [x22, #22]
	ldrb	w8, [x23, #23]
	strb	w8, [x22, #23]
	ldrb	w8, [x23, #24]
	strb	w8, [x22, #24]
	ldrb	w8, [x23, #25]
	strb	w8, [x22, #25]
	ldrb	w8, [x23, #26]
	strb	w8, [x22, #26]
	ldrb	w8, [x23, #27]
	strb	w8, [x22, #27]
	ldrb	w8, [x23, #28]
	strb	w8, [x22, #28]
	ldrb	w8, [x23, #29]
	strb	w8, [x22, #29]
	ldrb	w8, [x23, #30]
	strb	w8, [x22, #30]
	ldrb	w8, [x23, #31]
	strb	w8, [x22, #31]
	ldrb	w8, [x23, #32]
	strb	w8, [x22, #32]
	ldrb	w8, [x23, #33]
	strb	w8, [x22, #33]
	ldrb	w8, [x23, #34]
	strb	w8, [x22, #34]
	ldrb	w8, [x23, #35]
	strb	w8, [x22, #35]
	ldrb	w8, [x23, #36]
	strb	w8, [x22, #36]
	ldrb	w8, [x23, #37]
	strb	w8, [x22, #37]
	ldrb	w8, [x23, #38]
	strb	w8, [x22, #38]
	ldrb	w8, [x23, #39]
	strb	w8, [x22, #39]
	ldrb	w8, [x23, #40]
	strb	w8, [x22, #40]
	ldrb	w8, [x23, #41]
	strb	w8, [x22, #41]
	ldrb	w8, [x23, #42]
	strb	w8, [x22, #42]
	ldrb	w8, [x23, #43]
	strb	w8, [x22, #43]
	ldrb	w8, [x23, #44]
	strb	w8, [x22, #44]
	ldrb	w8, [x23, #45]
	strb	w8, [x22, #45]
	ldrb	w8, [x23, #46]
	strb	w8, [x22, #46]
	ldrb	w8, [x23, #47]
	strb	w8, [x22, #47]
	ldrb	w8, [x23, #48]
	strb	w8, [x22, #48]
	ldrb	w8, [x23, #49]
	strb	w8, [x22, #49]
	ldrb	w8, [x23, #50]
	strb	w8, [x22, #50]
	ldrb	w8, [x23, #51]
	strb	w8, [x22, #51]
	ldrb	w8, [x23, #52]
	strb	w8, [x22, #52]
	ldrb	w8, [x23, #53]
	strb	w8, [x22, #53]
	ldrb	w8, [x23, #54]
	strb	w8, [x22, #54]
	ldrb	w8, [x23, #55]
	strb	w8, [x22, #55]
	ldrb	w8, [x23, #56]
	strb	w8, [x22, #56]
	ldrb	w8, [x23, #57]
	strb	w8, [x22, #57]
	ldrb	w8, [x23, #58]
	strb	w8, [x22, #58]
	ldrb	w8, [x23, #59]
	strb	w8, [x22, #59]
	ldrb	w8, [x23, #60]
	strb	w8, [x22, #60]
	ldrb	w8, [x23, #61]
	strb	w8, [x22, #61]
	ldrb	w8, [x23, #62]
	strb	w8, [x22, #62]
	ldrb	w8, [x23, #63]
	strb	w8, [x22, #63]
	ldrb	w8, [x23, #64]
	strb	w8, [x22, #64]
	ldrb	w8, [x23, #65]
	strb	w8, [x22, #65]
	ldrb	w8, [x23, #66]
	strb	w8, [x22, #66]
	ldrb	w8, [x23, #67]
	strb	w8, [x22, #67]
	ldrb	w8, [x23, #68]
	strb	w8, [x22, #68]
	ldrb	w8, [x23, #69]
	strb	w8, [x22, #69]
	ldrb	w8, [x23, #70]
	strb	w8, [x22, #70]
	ldrb	w8, [x23, #71]
	strb	w8, [x22, #71]
	ldrb	w8, [x23, #72]
	strb	w8, [x22, #72]
	ldrb	w8, [x23, #73]
	strb	w8, [x22, #73]
	ldrb	w8, [x23, #74]
	strb	w8, [x22, #74]
	ldrb	w8, [x23, #75]
	strb	w8, [x22, #75]
	ldrb	w8, [x23, #76]
	strb	w8, [x22, #76]
	ldrb	w8, [x23, #77]
	strb	w8, [x22, #77]
	ldrb	w8, [x23, #78]
	strb	w8, [x22, #78]
	ldrb	w8, [x23, #79]
	strb	w8, [x22, #79]
	ldrb	w8, [x23, #80]
	strb	w8, [x22, #80]
	ldrb	w8, [x23, #81]
	strb	w8, [x22, #81]
	ldrb	w8, [x23, #82]
	strb	w8, [x22, #82]
	ldrb	w8, [x23, #83]
	strb	w8, [x22, #83]
	ldrb	w8, [x23, #84]
	strb	w8, [x22, #84]
	ldrb	w8, [x23, #85]
	strb	w8, [x22, #85]
	ldrb	w8, [x23, #86]
	strb	w8, [x22, #86]
	ldrb	w8, [x23, #87]
	strb	w8, [x22, #87]
	ldrb	w8, [x23, #88]
	strb	w8, [x22, #88]
	ldrb	w8, [x23, #89]
	strb	w8, [x22, #89]
	ldrb	w8, [x23, #90]
	strb	w8, [x22, #90]
	ldrb	w8, [x23, #91]
	strb	w8, [x22, #91]
	ldrb	w8, [x23, #92]
	strb	w8, [x22, #92]
	ldrb	w8, [x23, #93]
	strb	w8, [x22, #93]
	ldrb	w8, [x23, #94]
	strb	w8, [x22, #94]
	ldrb	w8, [x23, #95]
	strb	w8, [x22, #95]
	ldrb	w8, [x23, #96]
	strb	w8, [x22, #96]
	ldrb	w8, [x23, #97]
	strb	w8, [x22, #97]
	ldrb	w8, [x23, #98]
	strb	w8, [x22, #98]
	ldrb	w8, [x23, #99]
	strb	w8, [x22, #99]
	b	.LBB51_13
.LBB51_108:
	cmp	x25, #32
	b.hs	.LBB51_139
	mov	x10, xzr
	b	.LBB51_143
.LBB51_110:
	cmp	x25, #32
	b.hs	.LBB51_151
	mov	x10, xzr
	b	.LBB51_155
.LBB51_112:
	ldr	x8, [x10]
	str	x8, [x26]
	sub	x9, x25, #8
	add	x8, x26, x9
	add	x9, x10, x9
	sub	x10, x8, x9
	cmp	x10, #7
	b.hi	.LBB51_41
.LBB51_113:
	ldrb	w10, [x9]
	strb	w10, [x8]
	ldrb	w10, [x9, #1]
	strb	w10, [x8, #1]
	ldrb	w10, [x9, #2]
	strb	w10, [x8, #2]
	ldrb	w10, [x9, #3]
	strb	w10, [x8, #3]
	ldrb	w10, [x9, #4]
	strb	w10, [x8, #4]
	ldrb	w10, [x9, #5]
	strb	w10, [x8, #5]
	ldrb	w10, [x9, #6]
	strb	w10, [x8, #6]
	ldrb	w9, [x9, #7]
	strb	w9, [x8, #7]
	b	.LBB51_146
.LBB51_114:
	orr	w19, w19, #0x8000
	add	x0, x23, #4
	add	x2, x22, #4
	mov	x1, x25
	cmp	w11, #2
.LBB51_115:
	bl	nla_wire.members.write_each.1f0cb788f492ced5
.LBB51_116:
	add	x8, x0, #7
	add	x10, x0, #4
	strh	w19, [x22, #2]
	and	x0, x8, #0xfffffffffffffffc
	add	x8, x22, x10
	strh	w10, [x22]
	sub	x9, x0, x10
	cmp	x9, #3
	b.eq	.LBB51_120
	cmp	x9, #2
	b.eq	.LBB51_119
	ldp	x3, x4, [x29, #-16]
	cmp	x9, #1
	b.ne	.LBB51_3
	b	.LBB51_149
.LBB51_119:
	strh	wzr, [x8]
	b	.LBB51_121
.LBB51_120:
	strh	wzr, [x8]
	strb	wzr, [x8, #2]
.LBB51_121:
	ldp	x3, x4, [x29, #-16]
	b	.LBB51_3
.LBB51_122:
	cmp	x25, #32
	b.hs	.LBB51_158
	mov	x10, xzr
	b	.LBB51_162
.LBB51_124:
	add	x0, x22, #4
	add	x1, x23, #4
	sub	x2, x26, #4
	bl	memmove
	ldur	x3, [x29, #-16]
.LBB51_125:
	cmp	w26, #203
	b.eq	.LBB51_127
	mov	w8, #203
	add	x0, x22, x26
	mov	w1, wzr
	sub	x2, x8, x26
	bl	memset
	ldur	x3, [x29, #-16]
.LBB51_127:
	strb	wzr, [x22, #203]
	mov	w0, #204
	b	.LBB51_136
.LBB51_128:
	ldp	q0, q1, [x10]
	ldr	x8, [x10, #192]
	ldp	q2, q3, [x10, #32]
	ldp	q4, q5, [x10, #64]
	ldp	q6, q7, [x10, #96]
	ldp	q16, q17, [x10, #160]
	ldp	q18, q19, [x10, #128]
	str	x8, [x11, #192]
	stp	q0, q1, [x11]
	stp	q2, q3, [x11, #32]
	stp	q4, q5, [x11, #64]
	stp	q6, q7, [x11, #96]
	stp	q18, q19, [x11, #128]
	stp	q16, q17, [x11, #160]
.LBB51_129:
	mov	w0, #204
	b	.LBB51_13
.LBB51_130:
	cmp	x25, #16
	b.hs	.LBB51_167
	mov	x11, xzr
	b	.LBB51_171
.LBB51_132:
	add	x0, x22, #4
	add	x1, x23, #4
	sub	x2, x26, #4
	bl	memmove
	ldur	x3, [x29, #-16]
.LBB51_133:
	cmp	w26, #99
	b.eq	.LBB51_135
	mov	w8, #99
	add	x0, x22, x26
	mov	w1, wzr
	sub	x2, x8, x26
	bl	memset
	ldur	x3, [x29, #-16]
.LBB51_135:
	mov	w0, #100
	strb	wzr, [x22, #99]
.LBB51_136:
	strh	w0, [x22]
	strh	w19, [x22, #2]
.LBB51_137:
	ldur	x4, [x29, #-8]
	b	.LBB51_3
.LBB51_138:
	ldp	q1, q0, [x10, #64]
	mov	w0, #100
	ldp	q2, q3, [x10]
	ldp	q4, q5, [x10, #32]
	stp	q1, q0, [x11, #64]
	stp	q2, q3, [x11]
	stp	q4, q5, [x11, #32]
	b	.LBB51_13
.LBB51_139:
	ldr	x13, [sp, #8]
	add	x12, x8, x9
	and	x11, x25, #0x18
	and	x10, x25, #0xffffffffffffffe0
	add	x12, x12, #20
	and	x14, x25, #0xffffffffffffffe0
	add	x13, x13, x27
.LBB51_140:
	ldp	q0, q1, [x12, #-16]
	subs	x14, x14, #32
	add	x12, x12, #32
	stp	q0, q1, [x13, #-16]
	add	x13, x13, #32
	b.ne	.LBB51_140
	cmp	x25, x10
	b.eq	.LBB51_146
	cbz	x11, .LBB51_21
.LBB51_143:
	mov	x11, x10
	ldr	x14, [sp, #24]
	and	x10, x25, #0xfffffffffffffff8
	add	x12, x9, x11
	add	x13, x11, x27
	sub	x11, x11, x10
	add	x12, x8, x12
	add	x13, x14, x13
	add	x12, x12, #4
.LBB51_144:
	ldr	d0, [x12], #8
	adds	x11, x11, #8
	str	d0, [x13], #8
	b.ne	.LBB51_144
	cmp	x25, x10
	b.ne	.LBB51_21
.LBB51_146:
	and	x8, x25, #0xfffffffffffffffc
	add	x10, x25, #5
	strb	wzr, [x26, x25]
	add	x0, x8, #8
	add	x8, x22, x10
	strh	w10, [x22]
	sub	x9, x0, x10
	strh	w19, [x22, #2]
	cmp	x9, #3
	b.eq	.LBB51_150
	cmp	x9, #2
	b.eq	.LBB51_65
.LBB51_148:
	cmp	x9, #1
	b.ne	.LBB51_3
.LBB51_149:
	strb	wzr, [x8]
	b	.LBB51_3
.LBB51_150:
	strh	wzr, [x8]
	strb	wzr, [x8, #2]
	b	.LBB51_3
.LBB51_151:
	ldr	x12, [sp, #8]
	add	x13, x8, x9
	and	x11, x25, #0x18
	and	x10, x25, #0xffffffffffffffe0
	add	x13, x13, #20
	and	x14, x25, #0xffffffffffffffe0
	add	x12, x12, x27
.LBB51_152:
	ldp	q0, q1, [x13, #-16]
	subs	x14, x14, #32
	add	x13, x13, #32
	stp	q0, q1, [x12, #-16]
	add	x12, x12, #32
	b.ne	.LBB51_152
	cmp	x25, x10
	b.eq	.LBB51_81
	cbz	x11, .LBB51_78
.LBB51_155:
	mov	x11, x10
	ldr	x14, [sp, #24]
	and	x10, x25, #0xfffffffffffffff8
	add	x12, x9, x11
	add	x13, x11, x27
	sub	x11, x11, x10
	add	x12, x8, x12
	add	x13, x14, x13
	add	x12, x12, #4
.LBB51_156:
	ldr	d0, [x12], #8
	adds	x11, x11, #8
	str	d0, [x13], #8
	b.ne	.LBB51_156
	cmp	x25, x10
	b.eq	.LBB51_81
	b	.LBB51_78
.LBB51_158:
	ldr	x12, [sp, #8]
	add	x13, x8, x9
	and	x11, x25, #0x18
	and	x10, x25, #0xffffffffffffffe0
	add	x13, x13, #20
	and	x14, x25, #0xffffffffffffffe0
	add	x12, x12, x27
.LBB51_159:
	ldp	q0, q1, [x13, #-16]
	subs	x14, x14, #32
	add	x13, x13, #32
	stp	q0, q1, [x12, #-16]
	add	x12, x12, #32
	b.ne	.LBB51_159
	cmp	x25, x10
	b.eq	.LBB51_59
	cbz	x11, .LBB51_56
.LBB51_162:
	mov	x11, x10
	ldr	x14, [sp, #24]
	and	x10, x25, #0xfffffffffffffff8
	add	x12, x9, x11
	add	x13, x11, x27
	sub	x11, x11, x10
	add	x12, x8, x12
	add	x13, x14, x13
	add	x12, x12, #4
.LBB51_163:
	ldr	d0, [x12], #8
	adds	x11, x11, #8
	str	d0, [x13], #8
	b.ne	.LBB51_163
	cmp	x25, x10
	b.eq	.LBB51_59
	b	.LBB51_56
.LBB51_165:
	sub	x3, x11, #4
	add	x0, x23, #4
	add	x2, x22, #4
	mov	x1, x25
	bl	nla_wire.members.write_each.6cf1decf0b22dc4b
	b	.LBB51_116
.LBB51_166:
	ldur	q0, [x23, #4]
	ldur	q1, [x23, #20]
	mov	w0, #204
	stur	q0, [x22, #4]
	stur	q1, [x22, #20]
	ldur	q0, [x23, #36]
	ldur	q1, [x23, #52]
	stur	q0, [x22, #36]
	stur	q1, [x22, #52]
	ldur	q0, [x23, #68]
	ldur	q1, [x23, #84]
	stur	q0, [x22, #68]
	stur	q1, [x22, #84]
	ldur	q0, [x23, #100]
	ldur	q1, [x23, #116]
	stur	q0, [x22, #100]
	stur	q1, [x22, #116]
	ldur	q0, [x23, #132]
	ldur	q1, [x23, #148]
	stur	q0, [x22, #132]
	stur	q1, [x22, #148]
	ldur	q0, [x23, #164]
	ldur	q1, [x23, #180]
	stur	q0, [x22, #164]
	stur	q1, [x22, #180]
	ldur	d0, [x23, #196]
	stur	d0, [x22, #196]
	b	.LBB51_13
.LBB51_167:
	and	x13, x26, #0xc
	and	x11, x26, #0x30
	and	x14, x26, #0x30
.LBB51_168:
	ldr	q0, [x10], #16
	subs	x14, x14, #16
	str	q0, [x12], #16
	b.ne	.LBB51_168
	cmp	x26, x11
	b.eq	.LBB51_63
	cbz	x13, .LBB51_27
.LBB51_171:
	mov	x10, x11
	ldr	x14, [sp, #24]
	and	x11, x26, #0x3c
	add	x12, x9, x10
	add	x13, x10, x27
	sub	x10, x10, x11
	add	x12, x8, x12
	add	x13, x14, x13
	add	x12, x12, #4
.LBB51_172:
	ldr	w14, [x12], #4
	adds	x10, x10, #4
	str	w14, [x13], #4
	b.ne	.LBB51_172
	cmp	x26, x11
	b.eq	.LBB51_63
	b	.LBB51_27
.LBB51_174:
	cmp	x25, #32
	b.hs	.LBB51_178
	mov	x10, xzr
	b	.LBB51_182
.LBB51_176:
	cmp	x25, #32
	b.hs	.LBB51_185
	mov	x10, xzr
	b	.LBB51_189
.LBB51_178:
	ldr	x12, [sp, #8]
	add	x13, x8, x9
	and	x11, x25, #0x18
	and	x10, x25, #0xffffffffffffffe0
	add	x13, x13, #20
	and	x14, x25, #0xffffffffffffffe0
	add	x12, x12, x27
.LBB51_179:
	ldp	q0, q1, [x13, #-16]
	subs	x14, x14, #32
	add	x13, x13, #32
	stp	q0, q1, [x12, #-16]
	add	x12, x12, #32
	b.ne	.LBB51_179
	cmp	x25, x10
	b.eq	.LBB51_125
	cbz	x11, .LBB51_47
.LBB51_182:
	mov	x11, x10
	ldr	x14, [sp, #24]
	and	x10, x25, #0xfffffffffffffff8
	add	x12, x9, x11
	add	x13, x11, x27
	sub	x11, x11, x10
	add	x12, x8, x12
	add	x13, x14, x13
	add	x12, x12, #4
.LBB51_183:
	ldr	d0, [x12], #8
	adds	x11, x11, #8
	str	d0, [x13], #8
	b.ne	.LBB51_183
	cmp	x25, x10
	b.eq	.LBB51_125
	b	.LBB51_47
.LBB51_185:
	ldr	x12, [sp, #8]
	add	x13, x8, x9
	and	x11, x25, #0x18
	and	x10, x25, #0xffffffffffffffe0
	add	x13, x13, #20
	and	x14, x25, #0xffffffffffffffe0
	add	x12, x12, x27
.LBB51_186:
	ldp	q0, q1, [x13, #-16]
	subs	x14, x14, #32
	add	x13, x13, #32
	stp	q0, q1, [x12, #-16]
	add	x12, x12, #32
	b.ne	.LBB51_186
	cmp	x25, x10
	b.eq	.LBB51_133
	cbz	x11, .LBB51_94
.LBB51_189:
	mov	x11, x10
	ldr	x14, [sp, #24]
	and	x10, x25, #0xfffffffffffffff8
	add	x12, x9, x11
	add	x13, x11, x27
	sub	x11, x11, x10
	add	x12, x8, x12
	add	x13, x14, x13
	add	x12, x12, #4
.LBB51_190:
	ldr	d0, [x12], #8
	adds	x11, x11, #8
	str	d0, [x13], #8
	b.ne	.LBB51_190
	cmp	x25, x10
	b.eq	.LBB51_133
	b	.LBB51_94
.LBB51_192:
	ldp	x20, x19, [sp, #128]
	ldp	x22, x21, [sp, #112]
	ldp	x24, x23, [sp, #96]
	ldp	x26, x25, [sp, #80]
	ldp	x28, x27, [sp, #64]
	ldp	x29, x30, [sp, #48]
	add	sp, sp, #144
	ret
.Lfunc_end51:
	.size	nla_wire.members.write_each.c4c48bc1b6cb0726, .Lfunc_end51-nla_wire.members.write_each.c4c48bc1b6cb0726
	.section	.rodata.nla_wire.members.write_each.c4c48bc1b6cb0726,"a",@progbits
	.p2align	1, 0x0
.LJTI51_0:
	.hword	(.LBB51_74-.LBB51_2)>>2
	.hword	(.LBB51_74-.LBB51_2)>>2
	.hword	(.LBB51_14-.LBB51_2)>>2
	.hword	(.LBB51_9-.LBB51_2)>>2
	.hword	(.LBB51_9-.LBB51_2)>>2
	.hword	(.LBB51_14-.LBB51_2)>>2
	.hword	(.LBB51_89-.LBB51_2)>>2
	.hword	(.LBB51_52-.LBB51_2)>>2
	.hword	(.LBB51_52-.LBB51_2)>>2
	.hword	(.LBB51_9-.LBB51_2)>>2
	.hword	(.LBB51_50-.LBB51_2)>>2
	.hword	(.LBB51_51-.LBB51_2)>>2
	.hword	(.LBB51_9-.LBB51_2)>>2
	.hword	(.LBB51_67-.LBB51_2)>>2
	.hword	(.LBB51_52-.LBB51_2)>>2
	.hword	(.LBB51_2-.LBB51_2)>>2
	.hword	(.LBB51_2-.LBB51_2)>>2
	.hword	(.LBB51_87-.LBB51_2)>>2
	.hword	(.LBB51_9-.LBB51_2)>>2
	.hword	(.LBB51_14-.LBB51_2)>>2
	.hword	(.LBB51_9-.LBB51_2)>>2
	.hword	(.LBB51_61-.LBB51_2)>>2
	.hword	(.LBB51_42-.LBB51_2)>>2
	.hword	(.LBB51_97-.LBB51_2)>>2
	.hword	(.LBB51_86-.LBB51_2)>>2
	.hword	(.LBB51_71-.LBB51_2)>>2
	.hword	(.LBB51_9-.LBB51_2)>>2
	.hword	(.LBB51_9-.LBB51_2)>>2
	.hword	(.LBB51_9-.LBB51_2)>>2
	.hword	(.LBB51_9-.LBB51_2)>>2
	.hword	(.LBB51_9-.LBB51_2)>>2
	.hword	(.LBB51_9-.LBB51_2)>>2
	.hword	(.LBB51_2-.LBB51_2)>>2
	.hword	(.LBB51_23-.LBB51_2)>>2
	.hword	(.LBB51_9-.LBB51_2)>>2
	.hword	(.LBB51_23-.LBB51_2)>>2
	.hword	(.LBB51_9-.LBB51_2)>>2
	.hword	(.LBB51_14-.LBB51_2)>>2
	.hword	(.LBB51_2-.LBB51_2)>>2
	.hword	(.LBB51_9-.LBB51_2)>>2
	.hword	(.LBB51_9-.LBB51_2)>>2
	.hword	(.LBB51_52-.LBB51_2)>>2
	.hword	(.LBB51_68-.LBB51_2)>>2
	.hword	(.LBB51_9-.LBB51_2)>>2
	.hword	(.LBB51_9-.LBB51_2)>>2
	.hword	(.LBB51_9-.LBB51_2)>>2
	.hword	(.LBB51_9-.LBB51_2)>>2
	.hword	(.LBB51_9-.LBB51_2)>>2
	.hword	(.LBB51_9-.LBB51_2)>>2
	.hword	(.LBB51_9-.LBB51_2)>>2
	.hword	(.LBB51_9-.LBB51_2)>>2
	.hword	(.LBB51_49-.LBB51_2)>>2
	.hword	(.LBB51_52-.LBB51_2)>>2
	.hword	(.LBB51_74-.LBB51_2)>>2
	.hword	(.LBB51_70-.LBB51_2)>>2
	.hword	(.LBB51_14-.LBB51_2)>>2
	.hword	(.LBB51_14-.LBB51_2)>>2
	.hword	(.LBB51_9-.LBB51_2)>>2
	.hword	(.LBB51_9-.LBB51_2)>>2
	.hword	(.LBB51_9-.LBB51_2)>>2
	.hword	(.LBB51_9-.LBB51_2)>>2
	.hword	(.LBB51_69-.LBB51_2)>>2
	.hword	(.LBB51_9-.LBB51_2)>>2
	.hword	(.LBB51_9-.LBB51_2)>>2
	.hword	(.LBB51_96-.LBB51_2)>>2
	.hword	(.LBB51_52-.LBB51_2)>>2
	.hword	(.LBB51_88-.LBB51_2)>>2
	.hword	(.LBB51_29-.LBB51_2)>>2
	.hword	(.LBB51_29-.LBB51_2)>>2

	.section	.text.link_msg.payload.write_event,"ax",@progbits
	.p2align	2
	.type	link_msg.payload.write_event,@function
link_msg.payload.write_event:
	stp	x29, x30, [sp, #-48]!
	str	x21, [sp, #16]
	mov	x21, x2
	cmp	x2, #3
	stp	x20, x19, [sp, #32]
	mov	x19, x3
	mov	w20, w0
	mov	x29, sp
	b.lo	.LBB52_3
	ldrb	w8, [x1, #2]
	cmp	x21, #3
	b.ne	.LBB52_17
	orr	w8, w8, wzr, lsl #8
	mov	w9, #35848
	cmp	w8, w9
	b.ne	.LBB52_4
	b	.LBB52_18
.LBB52_3:
	orr	w8, wzr, wzr, lsl #8
	mov	w9, #35848
	cmp	w8, w9
	b.eq	.LBB52_18
.LBB52_4:
	mov	w9, #35847
	cmp	w8, w9
	b.ne	.LBB52_11
	add	x8, x1, #8
	mov	w10, #-1945698304
	add	x11, x19, #12
	sub	x9, x21, #8
	bfxil	x10, x21, #0, #16
	sub	x11, x11, x8
	cmp	x11, x9
	stur	x10, [x19, #4]
	b.hs	.LBB52_24
	cmp	x9, #8
	b.lo	.LBB52_8
	sub	x8, x19, x1
	add	x8, x8, #4
	cmp	x8, #32
	b.hs	.LBB52_33
.LBB52_8:
	mov	x8, xzr
.LBB52_9:
	sub	x9, x21, x8
	add	x10, x8, x1
	add	x11, x8, x19
	sub	x8, x9, #8
	add	x9, x10, #8
	add	x10, x11, #12
.LBB52_10:
	ldrb	w11, [x9], #1
	subs	x8, x8, #1
	strb	w11, [x10], #1
	b.ne	.LBB52_10
	b	.LBB52_26
.LBB52_11:
	add	x8, x19, #4
	sub	x8, x8, x1
	cmp	x8, x21
	b.hs	.LBB52_25
	cmp	x21, #8
	b.lo	.LBB52_14
	sub	x8, x19, x1
	add	x8, x8, #4
	cmp	x8, #32
	b.hs	.LBB52_37
.LBB52_14:
	mov	x8, xzr
.LBB52_15:
	add	x10, x8, x19
	sub	x9, x21, x8
	add	x8, x1, x8
	add	x10, x10, #4
.LBB52_16:
	ldrb	w11, [x8], #1
	subs	x9, x9, #1
	strb	w11, [x10], #1
	b.ne	.LBB52_16
	b	.LBB52_26
.LBB52_17:
	ldrb	w9, [x1, #3]
	orr	w8, w8, w9, lsl #8
	mov	w9, #35848
	cmp	w8, w9
	b.ne	.LBB52_4
.LBB52_18:
	add	x8, x1, #8
	mov	w10, #-1945632768
	add	x11, x19, #12
	sub	x9, x21, #8
	bfxil	x10, x21, #0, #16
	sub	x11, x11, x8
	cmp	x11, x9
	stur	x10, [x19, #4]
	b.hs	.LBB52_24
	cmp	x9, #8
	b.lo	.LBB52_21
	sub	x8, x19, x1
	add	x8, x8, #4
	cmp	x8, #32
	b.hs	.LBB52_35
.LBB52_21:
	mov	x8, xzr
.LBB52_22:
	sub	x9, x21, x8
	add	x10, x8, x1
	add	x11, x8, x19
	sub	x8, x9, #8
	add	x9, x10, #8
	add	x10, x11, #12
.LBB52_23:
	ldrb	w11, [x9], #1
	subs	x8, x8, #1
	strb	w11, [x10], #1
	b.ne	.LBB52_23
	b	.LBB52_26
.LBB52_24:
	add	x0, x19, #12
	sub	x2, x21, #8
	mov	x1, x8
	bl	memmove
	b	.LBB52_26
.LBB52_25:
	add	x0, x19, #4
	mov	x2, x21
	bl	memmove
.LBB52_26:
	add	x8, x21, #7
	add	x10, x21, #4
	strh	w20, [x19, #2]
	and	x0, x8, #0xfffffffffffffffc
	add	x8, x19, x10
	strh	w10, [x19]
	sub	x9, x0, x10
	cmp	x9, #3
	b.eq	.LBB52_32
	cmp	x9, #2
	b.eq	.LBB52_31
	cmp	x9, #1
	b.ne	.LBB52_30
	strb	wzr, [x8]
.LBB52_30:
	ldp	x20, x19, [sp, #32]
	ldr	x21, [sp, #16]
	ldp	x29, x30, [sp], #48
	ret
.LBB52_31:
	strh	wzr, [x8]
	ldp	x20, x19, [sp, #32]
	ldr	x21, [sp, #16]
	ldp	x29, x30, [sp], #48
	ret
.LBB52_32:
	strh	wzr, [x8]
	strb	wzr, [x8, #2]
	ldp	x20, x19, [sp, #32]
	ldr	x21, [sp, #16]
	ldp	x29, x30, [sp], #48
	ret
.LBB52_33:
	cmp	x9, #32
	b.hs	.LBB52_39
	mov	x8, xzr
	b	.LBB52_43
.LBB52_35:
	cmp	x9, #32
	b.hs	.LBB52_46
	mov	x8, xzr
	b	.LBB52_50
.LBB52_37:
	cmp	x21, #32
	b.hs	.LBB52_53
	mov	x8, xzr
	b	.LBB52_57
.LBB52_39:
	and	x10, x9, #0x18
	and	x8, x9, #0xffffffffffffffe0
	add	x11, x1, #24
	add	x12, x19, #28
	and	x13, x9, #0xffffffffffffffe0
.LBB52_40:
	ldp	q0, q1, [x11, #-16]
	subs	x13, x13, #32
	add	x11, x11, #32
	stp	q0, q1, [x12, #-16]
	add	x12, x12, #32
	b.ne	.LBB52_40
	cmp	x9, x8
	b.eq	.LBB52_26
	cbz	x10, .LBB52_9
.LBB52_43:
	mov	x10, x8
	and	x8, x9, #0xfffffffffffffff8
	add	x11, x10, x1
	add	x12, x10, x19
	sub	x10, x10, x8
	add	x11, x11, #8
	add	x12, x12, #12
.LBB52_44:
	ldr	d0, [x11], #8
	adds	x10, x10, #8
	str	d0, [x12], #8
	b.ne	.LBB52_44
	cmp	x9, x8
	b.eq	.LBB52_26
	b	.LBB52_9
.LBB52_46:
	and	x10, x9, #0x18
	and	x8, x9, #0xffffffffffffffe0
	add	x11, x1, #24
	add	x12, x19, #28
	and	x13, x9, #0xffffffffffffffe0
.LBB52_47:
	ldp	q0, q1, [x11, #-16]
	subs	x13, x13, #32
	add	x11, x11, #32
	stp	q0, q1, [x12, #-16]
	add	x12, x12, #32
	b.ne	.LBB52_47
	cmp	x9, x8
	b.eq	.LBB52_26
	cbz	x10, .LBB52_22
.LBB52_50:
	mov	x10, x8
	and	x8, x9, #0xfffffffffffffff8
	add	x11, x10, x1
	add	x12, x10, x19
	sub	x10, x10, x8
	add	x11, x11, #8
	add	x12, x12, #12
.LBB52_51:
	ldr	d0, [x11], #8
	adds	x10, x10, #8
	str	d0, [x12], #8
	b.ne	.LBB52_51
	cmp	x9, x8
	b.eq	.LBB52_26
	b	.LBB52_22
.LBB52_53:
	and	x9, x21, #0x18
	and	x8, x21, #0xffffffffffffffe0
	add	x10, x1, #16
	add	x11, x19, #20
	and	x12, x21, #0xffffffffffffffe0
.LBB52_54:
	ldp	q0, q1, [x10, #-16]
	subs	x12, x12, #32
	add	x10, x10, #32
	stp	q0, q1, [x11, #-16]
	add	x11, x11, #32
	b.ne	.LBB52_54
	cmp	x21, x8
	b.eq	.LBB52_26
	cbz	x9, .LBB52_15
.LBB52_57:
	mov	x10, x8
	and	x8, x21, #0xfffffffffffffff8
	add	x11, x10, x19
	sub	x9, x10, x8
	add	x10, x1, x10
	add	x11, x11, #4
.LBB52_58:
	ldr	d0, [x10], #8
	adds	x9, x9, #8
	str	d0, [x11], #8
	b.ne	.LBB52_58
	cmp	x21, x8
	b.eq	.LBB52_26
	b	.LBB52_15
.Lfunc_end52:
	.size	link_msg.payload.write_event, .Lfunc_end52-link_msg.payload.write_event

	.section	.text.nla_wire.members.write_each.49064c0641319ce4,"ax",@progbits
	.p2align	2
	.type	nla_wire.members.write_each.49064c0641319ce4,@function
nla_wire.members.write_each.49064c0641319ce4:
	stp	x29, x30, [sp, #-96]!
	stp	x28, x27, [sp, #16]
	mov	x29, sp
	stp	x26, x25, [sp, #32]
	stp	x24, x23, [sp, #48]
	stp	x22, x21, [sp, #64]
	stp	x20, x19, [sp, #80]
	cbz	x1, .LBB53_68
	mov	x20, x2
	mov	x21, x1
	mov	x22, x0
	mov	x19, xzr
	mov	x26, xzr
	add	x25, x2, #4
	b	.LBB53_5
.LBB53_2:
	mov	x8, x26
.LBB53_3:
	strh	wzr, [x9]
	strb	wzr, [x9, #2]
.LBB53_4:
	cmp	x21, x26
	add	x19, x8, x19
	b.ls	.LBB53_69
.LBB53_5:
	sub	x21, x21, x26
	cmp	x21, #4
	b.lo	.LBB53_69
	mov	x9, x22
	add	x22, x22, x26
	mov	x8, x26
	ldrh	w28, [x22]
	cmp	w28, #4
	b.lo	.LBB53_69
	cmp	x21, x28
	b.lo	.LBB53_69
	ldrh	w24, [x22, #2]
	add	w12, w28, #3
	add	x10, x22, #4
	sub	x23, x28, #4
	and	x26, x12, #0x1fffc
	add	x27, x20, x19
	and	w11, w24, #0x3fff
	cmp	w11, #1
	b.ne	.LBB53_18
	cbz	x23, .LBB53_11
	sub	x11, x28, #5
	ldrb	w12, [x10, x11]
	cbz	w12, .LBB53_32
.LBB53_11:
	cmp	x23, #4
	add	x28, x27, #4
	b.hs	.LBB53_33
.LBB53_12:
	sub	x10, x28, x10
	cmp	x10, x23
	b.hs	.LBB53_29
	cmp	x23, #8
	b.lo	.LBB53_15
	add	x10, x19, x20
	add	x11, x8, x9
	sub	x10, x10, x11
	cmp	x10, #32
	b.hs	.LBB53_45
.LBB53_15:
	mov	x10, xzr
.LBB53_16:
	add	x8, x10, x8
	add	x11, x10, x19
	add	x9, x9, x8
	sub	x8, x23, x10
	add	x10, x25, x11
	add	x9, x9, #4
.LBB53_17:
	ldrb	w11, [x9], #1
	subs	x8, x8, #1
	strb	w11, [x10], #1
	b.ne	.LBB53_17
	b	.LBB53_63
.LBB53_18:
	add	x11, x27, #4
	sub	x10, x11, x10
	cmp	x10, x23
	b.hs	.LBB53_24
	cmp	x23, #8
	b.lo	.LBB53_21
	add	x10, x19, x20
	add	x11, x8, x9
	sub	x10, x10, x11
	cmp	x10, #32
	b.hs	.LBB53_41
.LBB53_21:
	mov	x10, xzr
.LBB53_22:
	add	x8, x10, x8
	sub	x11, x28, x10
	add	x10, x10, x19
	add	x9, x9, x8
	sub	x8, x11, #4
	add	x10, x25, x10
	add	x9, x9, #4
.LBB53_23:
	ldrb	w11, [x9], #1
	subs	x8, x8, #1
	strb	w11, [x10], #1
	b.ne	.LBB53_23
	b	.LBB53_25
.LBB53_24:
	add	x0, x27, #4
	add	x1, x22, #4
	sub	x2, x28, #4
	bl	memmove
.LBB53_25:
	sub	x8, x26, x28
	add	x9, x27, x28
	strh	w28, [x27]
	cmp	x8, #3
	strh	w24, [x27, #2]
	b.eq	.LBB53_2
	cmp	x8, #2
	b.eq	.LBB53_30
	cmp	x8, #1
	mov	x8, x26
	b.ne	.LBB53_4
	strb	wzr, [x9]
	b	.LBB53_31
.LBB53_29:
	add	x0, x27, #4
	add	x1, x22, #4
	mov	x2, x23
	bl	memmove
	b	.LBB53_63
.LBB53_30:
	strh	wzr, [x9]
.LBB53_31:
	mov	x8, x26
	b	.LBB53_4
.LBB53_32:
	mov	x23, x11
	cmp	x11, #4
	add	x28, x27, #4
	b.lo	.LBB53_12
.LBB53_33:
	cmp	x23, #7
	b.hi	.LBB53_37
	sub	x8, x28, x10
	cmp	x8, #3
	b.hi	.LBB53_43
	ldrb	w8, [x22, #4]
	strb	w8, [x27, #4]
	ldrb	w8, [x22, #5]
	strb	w8, [x27, #5]
	ldrb	w8, [x22, #6]
	strb	w8, [x27, #6]
	ldrb	w8, [x22, #7]
	strb	w8, [x27, #7]
	add	x9, x10, x23
	add	x8, x27, x23
	sub	x10, x9, #4
	sub	x11, x8, x10
	cmp	x11, #3
	b.ls	.LBB53_44
.LBB53_36:
	ldr	w9, [x10]
	str	w9, [x8]
	b	.LBB53_63
.LBB53_37:
	cmp	x23, #16
	b.hi	.LBB53_12
	sub	x8, x28, x10
	cmp	x8, #7
	b.hi	.LBB53_47
	ldrb	w8, [x22, #4]
	strb	w8, [x27, #4]
	ldrb	w8, [x22, #5]
	strb	w8, [x27, #5]
	ldrb	w8, [x22, #6]
	strb	w8, [x27, #6]
	ldrb	w8, [x22, #7]
	strb	w8, [x27, #7]
	ldrb	w8, [x22, #8]
	strb	w8, [x27, #8]
	ldrb	w8, [x22, #9]
	strb	w8, [x27, #9]
	ldrb	w8, [x22, #10]
	strb	w8, [x27, #10]
	ldrb	w8, [x22, #11]
	strb	w8, [x27, #11]
	sub	x9, x23, #8
	add	x8, x28, x9
	add	x9, x10, x9
	sub	x10, x8, x9
	cmp	x10, #7
	b.ls	.LBB53_48
.LBB53_40:
	ldr	x9, [x9]
	str	x9, [x8]
	b	.LBB53_63
.LBB53_41:
	cmp	x23, #32
	b.hs	.LBB53_49
	mov	x10, xzr
	b	.LBB53_53
.LBB53_43:
	ldr	w8, [x10]
	str	w8, [x28]
	add	x9, x10, x23
	add	x8, x27, x23
	sub	x10, x9, #4
	sub	x11, x8, x10
	cmp	x11, #3
	b.hi	.LBB53_36
.LBB53_44:
	ldurb	w10, [x9, #-4]
	strb	w10, [x8]
	ldurb	w10, [x9, #-3]
	strb	w10, [x8, #1]
	ldurb	w10, [x9, #-2]
	strb	w10, [x8, #2]
	ldurb	w9, [x9, #-1]
	strb	w9, [x8, #3]
	b	.LBB53_63
.LBB53_45:
	cmp	x23, #32
	b.hs	.LBB53_56
	mov	x10, xzr
	b	.LBB53_60
.LBB53_47:
	ldr	x8, [x10]
	str	x8, [x28]
	sub	x9, x23, #8
	add	x8, x28, x9
	add	x9, x10, x9
	sub	x10, x8, x9
	cmp	x10, #7
	b.hi	.LBB53_40
.LBB53_48:
	ldrb	w10, [x9]
	strb	w10, [x8]
	ldrb	w10, [x9, #1]
	strb	w10, [x8, #1]
	ldrb	w10, [x9, #2]
	strb	w10, [x8, #2]
	ldrb	w10, [x9, #3]
	strb	w10, [x8, #3]
	ldrb	w10, [x9, #4]
	strb	w10, [x8, #4]
	ldrb	w10, [x9, #5]
	strb	w10, [x8, #5]
	ldrb	w10, [x9, #6]
	strb	w10, [x8, #6]
	ldrb	w9, [x9, #7]
	strb	w9, [x8, #7]
	b	.LBB53_63
.LBB53_49:
	add	x13, x9, x8
	add	x12, x20, #20
	and	x11, x23, #0x18
	and	x10, x23, #0xffffffffffffffe0
	add	x12, x12, x19
	add	x13, x13, #20
	and	x14, x23, #0xffffffffffffffe0
.LBB53_50:
	ldp	q0, q1, [x13, #-16]
	subs	x14, x14, #32
	add	x13, x13, #32
	stp	q0, q1, [x12, #-16]
	add	x12, x12, #32
	b.ne	.LBB53_50
	cmp	x23, x10
	b.eq	.LBB53_25
	cbz	x11, .LBB53_22
.LBB53_53:
	mov	x11, x10
	and	x10, x23, #0xfffffffffffffff8
	add	x12, x8, x11
	add	x13, x11, x19
	sub	x11, x11, x10
	add	x12, x9, x12
	add	x13, x25, x13
	add	x12, x12, #4
.LBB53_54:
	ldr	d0, [x12], #8
	adds	x11, x11, #8
	str	d0, [x13], #8
	b.ne	.LBB53_54
	cmp	x23, x10
	b.eq	.LBB53_25
	b	.LBB53_22
.LBB53_56:
	add	x12, x9, x8
	add	x13, x20, #20
	and	x11, x23, #0x18
	and	x10, x23, #0xffffffffffffffe0
	add	x12, x12, #20
	add	x13, x13, x19
	and	x14, x23, #0xffffffffffffffe0
.LBB53_57:
	ldp	q0, q1, [x12, #-16]
	subs	x14, x14, #32
	add	x12, x12, #32
	stp	q0, q1, [x13, #-16]
	add	x13, x13, #32
	b.ne	.LBB53_57
	cmp	x23, x10
	b.eq	.LBB53_63
	cbz	x11, .LBB53_16
.LBB53_60:
	mov	x11, x10
	and	x10, x23, #0xfffffffffffffff8
	add	x12, x8, x11
	add	x13, x11, x19
	sub	x11, x11, x10
	add	x12, x9, x12
	add	x13, x25, x13
	add	x12, x12, #4
.LBB53_61:
	ldr	d0, [x12], #8
	adds	x11, x11, #8
	str	d0, [x13], #8
	b.ne	.LBB53_61
	cmp	x23, x10
	b.ne	.LBB53_16
.LBB53_63:
	and	x8, x23, #0xfffffffffffffffc
	add	x9, x23, #5
	mov	w11, #1
	add	x8, x8, #8
	strh	w9, [x27]
	sub	x10, x8, x9
	add	x9, x27, x9
	strb	wzr, [x28, x23]
	cmp	x10, #3
	strh	w11, [x27, #2]
	b.eq	.LBB53_3
	cmp	x10, #2
	b.eq	.LBB53_67
	cmp	x10, #1
	b.ne	.LBB53_4
	strb	wzr, [x9]
	b	.LBB53_4
.LBB53_67:
	strh	wzr, [x9]
	b	.LBB53_4
.LBB53_68:
	mov	x19, xzr
.LBB53_69:
	mov	x0, x19
	ldp	x20, x19, [sp, #80]
	ldp	x22, x21, [sp, #64]
	ldp	x24, x23, [sp, #48]
	ldp	x26, x25, [sp, #32]
	ldp	x28, x27, [sp, #16]
	ldp	x29, x30, [sp], #96
	ret
.Lfunc_end53:
	.size	nla_wire.members.write_each.49064c0641319ce4, .Lfunc_end53-nla_wire.members.write_each.49064c0641319ce4

	.section	.text.nla_wire.members.write_each.3bb4c8661a1029f4,"ax",@progbits
	.p2align	2
	.type	nla_wire.members.write_each.3bb4c8661a1029f4,@function
nla_wire.members.write_each.3bb4c8661a1029f4:
	stp	x29, x30, [sp, #-80]!
	str	x25, [sp, #16]
	mov	x29, sp
	stp	x24, x23, [sp, #32]
	stp	x22, x21, [sp, #48]
	stp	x20, x19, [sp, #64]
	cbz	x1, .LBB54_14
	mov	x20, x2
	mov	x21, x1
	mov	x22, x0
	mov	x19, xzr
	mov	x8, xzr
	sub	x23, x3, #4
	b	.LBB54_5
.LBB54_2:
	strh	wzr, [x9]
.LBB54_3:
	add	x19, x8, x19
.LBB54_4:
	add	w8, w24, #3
	and	x8, x8, #0x1fffc
	cmp	x21, x8
	b.ls	.LBB54_15
.LBB54_5:
	sub	x21, x21, x8
	cmp	x21, #4
	b.lo	.LBB54_15
	add	x22, x22, x8
	ldrh	w24, [x22]
	cmp	w24, #4
	b.lo	.LBB54_15
	cmp	x21, x24
	b.lo	.LBB54_15
	ldrb	w8, [x22, #2]
	ldrb	w9, [x22, #3]
	bfi	w8, w9, #8, #6
	cmp	w8, #1
	b.ne	.LBB54_4
	add	x25, x20, x19
	add	x0, x22, #4
	sub	x1, x24, #4
	add	x2, x25, #4
	sub	x3, x23, x19
	bl	nla_wire.members.write_each.41ac5f0caeaa9df8
	add	x8, x0, #7
	add	x11, x0, #4
	mov	w9, #1
	and	x8, x8, #0xfffffffffffffffc
	strh	w9, [x25, #2]
	add	x9, x25, x11
	sub	x10, x8, x11
	strh	w11, [x25]
	cmp	x10, #3
	b.eq	.LBB54_13
	cmp	x10, #2
	b.eq	.LBB54_2
	cmp	x10, #1
	b.ne	.LBB54_3
	strb	wzr, [x9]
	b	.LBB54_3
.LBB54_13:
	strh	wzr, [x9]
	strb	wzr, [x9, #2]
	b	.LBB54_3
.LBB54_14:
	mov	x19, xzr
.LBB54_15:
	mov	x0, x19
	ldp	x20, x19, [sp, #64]
	ldp	x22, x21, [sp, #48]
	ldr	x25, [sp, #16]
	ldp	x24, x23, [sp, #32]
	ldp	x29, x30, [sp], #80
	ret
.Lfunc_end54:
	.size	nla_wire.members.write_each.3bb4c8661a1029f4, .Lfunc_end54-nla_wire.members.write_each.3bb4c8661a1029f4

	.section	.text.nla_wire.members.write_each.41ac5f0caeaa9df8,"ax",@progbits
	.p2align	2
	.type	nla_wire.members.write_each.41ac5f0caeaa9df8,@function
nla_wire.members.write_each.41ac5f0caeaa9df8:
	sub	sp, sp, #176
	stp	x29, x30, [sp, #80]
	add	x29, sp, #80
	stp	x28, x27, [sp, #96]
	stp	x26, x25, [sp, #112]
	stp	x24, x23, [sp, #128]
	stp	x22, x21, [sp, #144]
	stp	x20, x19, [sp, #160]
	cbz	x1, .LBB55_65
	add	x8, sp, #32
	mov	x20, x2
	mov	x21, x1
	mov	x22, x0
	mov	x19, xzr
	mov	x26, xzr
	add	x23, x8, #4
	add	x25, x2, #4
	b	.LBB55_6
.LBB55_2:
	ldr	w8, [x22, #8]
	sub	w8, w8, #1
	cmn	w8, #2
	ldr	w8, [x22, #4]
	cset	w9, lo
	str	w9, [x27, #8]
	mov	w9, #12
	movk	w9, #4, lsl #16
.LBB55_3:
	stp	w9, w8, [x27]
.LBB55_4:
	mov	w8, #12
.LBB55_5:
	cmp	x21, x26
	add	x19, x8, x19
	b.ls	.LBB55_66
.LBB55_6:
	sub	x21, x21, x26
	cmp	x21, #4
	b.lo	.LBB55_66
	mov	x9, x22
	add	x22, x22, x26
	mov	x8, x26
	ldrh	w28, [x22]
	cmp	w28, #4
	b.lo	.LBB55_66
	cmp	x21, x28
	b.lo	.LBB55_66
	ldrh	w24, [x22, #2]
	add	w12, w28, #3
	sub	x1, x28, #4
	and	x26, x12, #0x1fffc
	add	x27, x20, x19
	and	w10, w24, #0x3fff
	sub	w11, w10, #1
	add	x10, x22, #4
	cmp	w11, #12
	b.hi	.LBB55_30
	adrp	x8, .LJTI55_0
	add	x8, x8, :lo12:.LJTI55_0
	adr	x9, .LBB55_2
	ldrb	w12, [x8, x11]
	add	x9, x9, x12, lsl #2
	br	x9
.LBB55_11:
	add	x8, x27, #8
	ldur	q0, [x22, #8]
	ldur	q1, [x22, #24]
	ldr	w9, [x22, #4]
	sub	x10, x8, x23
	cmp	x10, #31
	stp	q0, q1, [sp]
	stp	q0, q1, [x23]
	str	w9, [x27, #4]
	b.hi	.LBB55_46
	ldur	q0, [sp, #36]
	ldur	q1, [sp, #52]
	stur	q0, [x27, #8]
	stur	q1, [x27, #24]
	b	.LBB55_47
.LBB55_13:
	add	x0, x22, #4
	add	x2, x27, #4
	bl	nla_wire.members.write_each.9a0187163d44de3c
	add	x8, x0, #7
	add	x11, x0, #4
	mov	w9, #12
	and	x8, x8, #0xfffffffffffffffc
	strh	w9, [x27, #2]
	add	x9, x27, x11
	sub	x10, x8, x11
	strh	w11, [x27]
	cmp	x10, #3
	b.eq	.LBB55_55
	cmp	x10, #2
	b.eq	.LBB55_26
.LBB55_15:
	cmp	x10, #1
	b.ne	.LBB55_5
	strb	wzr, [x9]
	b	.LBB55_5
.LBB55_17:
	ldp	w10, w9, [x22, #4]
	mov	w8, #3
	cmp	w9, #3
	str	w10, [x27, #4]
	csel	w8, w9, w8, lo
	cmp	w8, #1
	b.gt	.LBB55_40
	cbz	w8, .LBB55_42
	mov	w8, #1
	b	.LBB55_42
.LBB55_20:
	add	x8, x27, #4
	add	x9, sp, #32
	ldp	q0, q1, [x10]
	sub	x9, x8, x9
	cmp	x9, #31
	stp	q0, q1, [sp, #32]
	b.hi	.LBB55_44
	ldp	q0, q1, [sp, #32]
	stur	q0, [x27, #4]
	stur	q1, [x27, #20]
	b	.LBB55_45
.LBB55_22:
	ldr	w8, [x22, #4]
	ldur	x9, [x22, #12]
	mov	w10, #20
	movk	w10, #10, lsl #16
	str	wzr, [x27, #8]
	b	.LBB55_38
.LBB55_23:
	ldr	d0, [x10]
	mov	w8, #12
	movk	w8, #3, lsl #16
	stur	d0, [x27, #4]
	b	.LBB55_43
.LBB55_24:
	add	x0, x22, #4
	add	x2, x27, #4
	bl	nla_wire.members.write_each.5361511d0f913a98
	add	x8, x0, #7
	add	x11, x0, #4
	mov	w9, #8
	and	x8, x8, #0xfffffffffffffffc
	strh	w9, [x27, #2]
	add	x9, x27, x11
	sub	x10, x8, x11
	strh	w11, [x27]
	cmp	x10, #3
	b.eq	.LBB55_55
	cmp	x10, #2
	b.ne	.LBB55_15
.LBB55_26:
	strh	wzr, [x9]
	b	.LBB55_5
.LBB55_27:
	ldur	d0, [x22, #4]
	ldr	w8, [x22, #12]
	mov	w9, #16
	movk	w9, #2, lsl #16
	b	.LBB55_29
.LBB55_28:
	ldur	d0, [x22, #4]
	ldr	w8, [x22, #12]
	mov	w9, #16
	movk	w9, #6, lsl #16
.LBB55_29:
	stur	d0, [x27, #4]
	str	w8, [x27, #12]
	mov	w8, #16
	str	w9, [x27]
	b	.LBB55_5
.LBB55_30:
	add	x11, x27, #4
	sub	x10, x11, x10
	cmp	x10, x1
	b.hs	.LBB55_48
	cmp	x1, #8
	b.lo	.LBB55_33
	add	x10, x19, x20
	add	x11, x8, x9
	sub	x10, x10, x11
	cmp	x10, #32
	b.hs	.LBB55_56
.LBB55_33:
	mov	x10, xzr
.LBB55_34:
	add	x8, x10, x8
	sub	x11, x28, x10
	add	x10, x10, x19
	add	x9, x9, x8
	sub	x8, x11, #4
	add	x10, x25, x10
	add	x9, x9, #4
.LBB55_35:
	ldrb	w11, [x9], #1
	subs	x8, x8, #1
	strb	w11, [x10], #1
	b.ne	.LBB55_35
	b	.LBB55_49
.LBB55_36:
	ldr	w8, [x22, #8]
	sub	w8, w8, #1
	cmn	w8, #2
	ldr	w8, [x22, #4]
	cset	w9, lo
	str	w9, [x27, #8]
	mov	w9, #12
	movk	w9, #7, lsl #16
	b	.LBB55_3
.LBB55_37:
	ldr	w8, [x22, #4]
	ldur	x9, [x22, #12]
	mov	w10, #20
	str	wzr, [x27, #8]
	movk	w10, #11, lsl #16
.LBB55_38:
	stp	w10, w8, [x27]
	mov	w8, #20
	stur	x9, [x27, #12]
	b	.LBB55_5
.LBB55_39:
	ldr	w8, [x22, #8]
	sub	w8, w8, #1
	cmn	w8, #2
	ldr	w8, [x22, #4]
	cset	w9, lo
	str	w9, [x27, #8]
	mov	w9, #12
	movk	w9, #9, lsl #16
	b	.LBB55_3
.LBB55_40:
	cmp	w8, #2
	mov	w8, w9
	b.ne	.LBB55_42
	mov	w8, #2
.LBB55_42:
	str	w8, [x27, #8]
	mov	w8, #12
	movk	w8, #5, lsl #16
.LBB55_43:
	str	w8, [x27]
	b	.LBB55_4
.LBB55_44:
	ldp	q1, q0, [x10]
	stp	q1, q0, [x8]
.LBB55_45:
	mov	w8, #36
	movk	w8, #13, lsl #16
	str	w8, [x27]
	mov	w8, #36
	b	.LBB55_5
.LBB55_46:
	ldp	q0, q1, [sp]
	stp	q0, q1, [x8]
.LBB55_47:
	mov	w8, #40
	movk	w8, #1, lsl #16
	str	w8, [x27]
	mov	w8, #40
	b	.LBB55_5
.LBB55_48:
	add	x0, x27, #4
	add	x1, x22, #4
	sub	x2, x28, #4
	bl	memmove
.LBB55_49:
	sub	x8, x26, x28
	add	x9, x27, x28
	strh	w28, [x27]
	cmp	x8, #3
	strh	w24, [x27, #2]
	b.eq	.LBB55_54
	cmp	x8, #2
	b.eq	.LBB55_53
	cmp	x8, #1
	mov	x8, x26
	b.ne	.LBB55_5
	strb	wzr, [x9]
	mov	x8, x26
	b	.LBB55_5
.LBB55_53:
	strh	wzr, [x9]
	mov	x8, x26
	b	.LBB55_5
.LBB55_54:
	mov	x8, x26
.LBB55_55:
	strh	wzr, [x9]
	strb	wzr, [x9, #2]
	b	.LBB55_5
.LBB55_56:
	cmp	x1, #32
	b.hs	.LBB55_58
	mov	x10, xzr
	b	.LBB55_62
.LBB55_58:
	add	x13, x9, x8
	add	x12, x20, #20
	and	x11, x1, #0x18
	and	x10, x1, #0xffffffffffffffe0
	add	x12, x12, x19
	add	x13, x13, #20
	and	x14, x1, #0xffffffffffffffe0
.LBB55_59:
	ldp	q0, q1, [x13, #-16]
	subs	x14, x14, #32
	add	x13, x13, #32
	stp	q0, q1, [x12, #-16]
	add	x12, x12, #32
	b.ne	.LBB55_59
	cmp	x1, x10
	b.eq	.LBB55_49
	cbz	x11, .LBB55_34
.LBB55_62:
	mov	x11, x10
	and	x10, x1, #0xfffffffffffffff8
	add	x12, x11, x8
	add	x13, x11, x19
	sub	x11, x11, x10
	add	x12, x9, x12
	add	x13, x25, x13
	add	x12, x12, #4
.LBB55_63:
	ldr	d0, [x12], #8
	adds	x11, x11, #8
	str	d0, [x13], #8
	b.ne	.LBB55_63
	cmp	x1, x10
	b.eq	.LBB55_49
	b	.LBB55_34
.LBB55_65:
	mov	x19, xzr
.LBB55_66:
	mov	x0, x19
	ldp	x20, x19, [sp, #160]
	ldp	x22, x21, [sp, #144]
	ldp	x24, x23, [sp, #128]
	ldp	x26, x25, [sp, #112]
	ldp	x28, x27, [sp, #96]
	ldp	x29, x30, [sp, #80]
	add	sp, sp, #176
	ret
.Lfunc_end55:
	.size	nla_wire.members.write_each.41ac5f0caeaa9df8, .Lfunc_end55-nla_wire.members.write_each.41ac5f0caeaa9df8
	.section	.rodata.nla_wire.members.write_each.41ac5f0caeaa9df8,"a",@progbits
.LJTI55_0:
	.byte	(.LBB55_11-.LBB55_2)>>2
	.byte	(.LBB55_27-.LBB55_2)>>2
	.byte	(.LBB55_23-.LBB55_2)>>2
	.byte	(.LBB55_2-.LBB55_2)>>2
	.byte	(.LBB55_17-.LBB55_2)>>2
	.byte	(.LBB55_28-.LBB55_2)>>2
	.byte	(.LBB55_36-.LBB55_2)>>2
	.byte	(.LBB55_24-.LBB55_2)>>2
	.byte	(.LBB55_39-.LBB55_2)>>2
	.byte	(.LBB55_22-.LBB55_2)>>2
	.byte	(.LBB55_37-.LBB55_2)>>2
	.byte	(.LBB55_13-.LBB55_2)>>2
	.byte	(.LBB55_20-.LBB55_2)>>2

	.section	.text.nla_wire.members.write_each.5361511d0f913a98,"ax",@progbits
	.p2align	2
	.type	nla_wire.members.write_each.5361511d0f913a98,@function
nla_wire.members.write_each.5361511d0f913a98:
	cbz	x1, .LBB56_2
	stp	x29, x30, [sp, #-96]!
	stp	x22, x21, [sp, #64]
	mov	x22, xzr
	add	x21, x2, #4
	stp	x20, x19, [sp, #80]
	mov	x19, x0
	mov	x0, xzr
	add	x20, x2, #20
	stp	x28, x27, [sp, #16]
	mov	x29, sp
	stp	x26, x25, [sp, #32]
	stp	x24, x23, [sp, #48]
	b	.LBB56_7
.LBB56_2:
	mov	x0, xzr
	ret
.LBB56_3:
	ldrb	w8, [x19, #4]
	strb	w8, [x23, #4]
	ldrb	w8, [x19, #5]
	strb	w8, [x23, #5]
	ldrb	w8, [x19, #6]
	strb	w8, [x23, #6]
	ldrb	w8, [x19, #7]
	strb	w8, [x23, #7]
	ldrb	w8, [x19, #8]
	strb	w8, [x23, #8]
	ldrb	w8, [x19, #9]
	strb	w8, [x23, #9]
	ldrb	w8, [x19, #10]
	strb	w8, [x23, #10]
	ldrb	w8, [x19, #11]
	strb	w8, [x23, #11]
.LBB56_4:
	mov	w8, #12
	movk	w8, #2, lsl #16
.LBB56_5:
	str	w8, [x23]
	mov	w8, #12
.LBB56_6:
	cmp	x1, x22
	add	x0, x8, x0
	b.ls	.LBB56_68
.LBB56_7:
	sub	x1, x1, x22
	cmp	x1, #4
	b.lo	.LBB56_68
	mov	x9, x19
	add	x19, x19, x22
	mov	x8, x22
	ldrh	w24, [x19]
	cmp	w24, #4
	b.lo	.LBB56_68
	cmp	x1, x24
	b.lo	.LBB56_68
	ldrh	w25, [x19, #2]
	add	x23, x2, x0
	add	x10, x19, #4
	add	w12, w24, #3
	add	x11, x23, #4
	and	w13, w25, #0x3fff
	and	x22, x12, #0x1fffc
	sub	x12, x11, x10
	cmp	w13, #3
	b.gt	.LBB56_16
	cmp	w13, #1
	b.gt	.LBB56_21
	cbz	w13, .LBB56_29
	cmp	w13, #1
	b.ne	.LBB56_37
	cmp	x12, #7
	b.hi	.LBB56_47
	ldrb	w8, [x19, #4]
	strb	w8, [x23, #4]
	ldrb	w8, [x19, #5]
	strb	w8, [x23, #5]
	ldrb	w8, [x19, #6]
	strb	w8, [x23, #6]
	ldrb	w8, [x19, #7]
	strb	w8, [x23, #7]
	ldrb	w8, [x19, #8]
	strb	w8, [x23, #8]
	ldrb	w8, [x19, #9]
	strb	w8, [x23, #9]
	ldrb	w8, [x19, #10]
	strb	w8, [x23, #10]
	ldrb	w8, [x19, #11]
	strb	w8, [x23, #11]
	b	.LBB56_48
.LBB56_16:
	cmp	w13, #6
	b.gt	.LBB56_25
	cmp	w13, #4
	b.eq	.LBB56_31
	cmp	w13, #5
	b.ne	.LBB56_37
	cmp	x12, #7
	b.hi	.LBB56_49
	ldrb	w8, [x19, #4]
	strb	w8, [x23, #4]
	ldrb	w8, [x19, #5]
	strb	w8, [x23, #5]
	ldrb	w8, [x19, #6]
	strb	w8, [x23, #6]
	ldrb	w8, [x19, #7]
	strb	w8, [x23, #7]
	ldrb	w8, [x19, #8]
	strb	w8, [x23, #8]
	ldrb	w8, [x19, #9]
	strb	w8, [x23, #9]
	ldrb	w8, [x19, #10]
	strb	w8, [x23, #10]
	ldrb	w8, [x19, #11]
	strb	w8, [x23, #11]
	mov	w8, #12
	movk	w8, #5, lsl #16
	b	.LBB56_5
.LBB56_21:
	cmp	w13, #2
	b.eq	.LBB56_33
	cmp	w13, #3
	b.ne	.LBB56_37
	cmp	x12, #7
	b.hi	.LBB56_50
	ldrb	w8, [x19, #4]
	strb	w8, [x23, #4]
	ldrb	w8, [x19, #5]
	strb	w8, [x23, #5]
	ldrb	w8, [x19, #6]
	strb	w8, [x23, #6]
	ldrb	w8, [x19, #7]
	strb	w8, [x23, #7]
	ldrb	w8, [x19, #8]
	strb	w8, [x23, #8]
	ldrb	w8, [x19, #9]
	strb	w8, [x23, #9]
	ldrb	w8, [x19, #10]
	strb	w8, [x23, #10]
	ldrb	w8, [x19, #11]
	strb	w8, [x23, #11]
	mov	w8, #12
	movk	w8, #3, lsl #16
	b	.LBB56_5
.LBB56_25:
	cmp	w13, #7
	b.eq	.LBB56_35
	cmp	w13, #8
	b.ne	.LBB56_37
	cmp	x12, #7
	b.hi	.LBB56_51
	ldrb	w8, [x19, #4]
	strb	w8, [x23, #4]
	ldrb	w8, [x19, #5]
	strb	w8, [x23, #5]
	ldrb	w8, [x19, #6]
	strb	w8, [x23, #6]
	ldrb	w8, [x19, #7]
	strb	w8, [x23, #7]
	ldrb	w8, [x19, #8]
	strb	w8, [x23, #8]
	ldrb	w8, [x19, #9]
	strb	w8, [x23, #9]
	ldrb	w8, [x19, #10]
	strb	w8, [x23, #10]
	ldrb	w8, [x19, #11]
	strb	w8, [x23, #11]
	mov	w8, #12
	movk	w8, #8, lsl #16
	b	.LBB56_5
.LBB56_29:
	cmp	x12, #7
	b.hi	.LBB56_43
	ldrb	w8, [x19, #4]
	strb	w8, [x23, #4]
	ldrb	w8, [x19, #5]
	strb	w8, [x23, #5]
	ldrb	w8, [x19, #6]
	strb	w8, [x23, #6]
	ldrb	w8, [x19, #7]
	strb	w8, [x23, #7]
	ldrb	w8, [x19, #8]
	strb	w8, [x23, #8]
	ldrb	w8, [x19, #9]
	strb	w8, [x23, #9]
	ldrb	w8, [x19, #10]
	strb	w8, [x23, #10]
	ldrb	w8, [x19, #11]
	strb	w8, [x23, #11]
	b	.LBB56_44
.LBB56_31:
	cmp	x12, #7
	b.hi	.LBB56_45
	ldrb	w8, [x19, #4]
	strb	w8, [x23, #4]
	ldrb	w8, [x19, #5]
	strb	w8, [x23, #5]
	ldrb	w8, [x19, #6]
	strb	w8, [x23, #6]
	ldrb	w8, [x19, #7]
	strb	w8, [x23, #7]
	ldrb	w8, [x19, #8]
	strb	w8, [x23, #8]
	ldrb	w8, [x19, #9]
	strb	w8, [x23, #9]
	ldrb	w8, [x19, #10]
	strb	w8, [x23, #10]
	ldrb	w8, [x19, #11]
	strb	w8, [x23, #11]
	mov	w8, #12
	movk	w8, #4, lsl #16
	b	.LBB56_5
.LBB56_33:
	cmp	x12, #7
	b.ls	.LBB56_3
	ldr	x8, [x10]
	str	x8, [x11]
	b	.LBB56_4
.LBB56_35:
	cmp	x12, #7
	b.hi	.LBB56_46
	ldrb	w8, [x19, #4]
	strb	w8, [x23, #4]
	ldrb	w8, [x19, #5]
	strb	w8, [x23, #5]
	ldrb	w8, [x19, #6]
	strb	w8, [x23, #6]
	ldrb	w8, [x19, #7]
	strb	w8, [x23, #7]
	ldrb	w8, [x19, #8]
	strb	w8, [x23, #8]
	ldrb	w8, [x19, #9]
	strb	w8, [x23, #9]
	ldrb	w8, [x19, #10]
	strb	w8, [x23, #10]
	ldrb	w8, [x19, #11]
	strb	w8, [x23, #11]
	mov	w8, #12
	movk	w8, #7, lsl #16
	b	.LBB56_5
.LBB56_37:
	sub	x10, x24, #4
	cmp	x12, x10
	b.hs	.LBB56_52
	cmp	x10, #8
	b.lo	.LBB56_40
	add	x11, x0, x2
	add	x12, x8, x9
	sub	x11, x11, x12
	cmp	x11, #32
	b.hs	.LBB56_59
.LBB56_40:
	mov	x11, xzr
.LBB56_41:
	add	x8, x11, x8
	sub	x10, x24, x11
	add	x11, x11, x0
	add	x9, x9, x8
	sub	x8, x10, #4
	add	x10, x21, x11
	add	x9, x9, #4
.LBB56_42:
	ldrb	w11, [x9], #1
	subs	x8, x8, #1
	strb	w11, [x10], #1
	b.ne	.LBB56_42
	b	.LBB56_53
.LBB56_43:
	ldr	x8, [x10]
	str	x8, [x11]
.LBB56_44:
	mov	w8, #12
	str	w8, [x23]
	b	.LBB56_6
.LBB56_45:
	ldr	x8, [x10]
	str	x8, [x11]
	mov	w8, #12
	movk	w8, #4, lsl #16
	b	.LBB56_5
.LBB56_46:
	ldr	x8, [x10]
	str	x8, [x11]
	mov	w8, #12
	movk	w8, #7, lsl #16
	b	.LBB56_5
.LBB56_47:
	ldr	x8, [x10]
	str	x8, [x11]
.LBB56_48:
	mov	w8, #12
	movk	w8, #1, lsl #16
	b	.LBB56_5
.LBB56_49:
	ldr	x8, [x10]
	str	x8, [x11]
	mov	w8, #12
	movk	w8, #5, lsl #16
	b	.LBB56_5
.LBB56_50:
	ldr	x8, [x10]
	str	x8, [x11]
	mov	w8, #12
	movk	w8, #3, lsl #16
	b	.LBB56_5
.LBB56_51:
	ldr	x8, [x10]
	str	x8, [x11]
	mov	w8, #12
	movk	w8, #8, lsl #16
	b	.LBB56_5
.LBB56_52:
	mov	x26, x0
	add	x0, x23, #4
	mov	x27, x1
	add	x1, x19, #4
	mov	x28, x2
	sub	x2, x24, #4
	bl	memmove
	mov	x1, x27
	mov	x2, x28
	mov	x0, x26
.LBB56_53:
	sub	x8, x22, x24
	add	x9, x23, x24
	strh	w24, [x23]
	cmp	x8, #3
	strh	w25, [x23, #2]
	b.eq	.LBB56_58
	cmp	x8, #2
	b.eq	.LBB56_57
	cmp	x8, #1
	mov	x8, x22
	b.ne	.LBB56_6
	strb	wzr, [x9]
	mov	x8, x22
	b	.LBB56_6
.LBB56_57:
	strh	wzr, [x9]
	mov	x8, x22
	b	.LBB56_6
.LBB56_58:
	mov	x8, x22
	strh	wzr, [x9]
	strb	wzr, [x9, #2]
	b	.LBB56_6
.LBB56_59:
	cmp	x10, #32
	b.hs	.LBB56_61
	mov	x11, xzr
	b	.LBB56_65
.LBB56_61:
	add	x14, x9, x8
	and	x12, x10, #0x18
	and	x11, x10, #0xffffffffffffffe0
	add	x13, x20, x0
	add	x14, x14, #20
	and	x15, x10, #0xffffffffffffffe0
.LBB56_62:
	ldp	q0, q1, [x14, #-16]
	subs	x15, x15, #32
	add	x14, x14, #32
	stp	q0, q1, [x13, #-16]
	add	x13, x13, #32
	b.ne	.LBB56_62
	cmp	x10, x11
	b.eq	.LBB56_53
	cbz	x12, .LBB56_41
.LBB56_65:
	mov	x12, x11
	and	x11, x10, #0xfffffffffffffff8
	add	x13, x8, x12
	add	x14, x12, x0
	sub	x12, x12, x11
	add	x13, x9, x13
	add	x14, x21, x14
	add	x13, x13, #4
.LBB56_66:
	ldr	d0, [x13], #8
	adds	x12, x12, #8
	str	d0, [x14], #8
	b.ne	.LBB56_66
	cmp	x10, x11
	b.eq	.LBB56_53
	b	.LBB56_41
.LBB56_68:
	ldp	x20, x19, [sp, #80]
	ldp	x22, x21, [sp, #64]
	ldp	x24, x23, [sp, #48]
	ldp	x26, x25, [sp, #32]
	ldp	x28, x27, [sp, #16]
	ldp	x29, x30, [sp], #96
	ret
.Lfunc_end56:
	.size	nla_wire.members.write_each.5361511d0f913a98, .Lfunc_end56-nla_wire.members.write_each.5361511d0f913a98

	.section	.text.nla_wire.members.write_each.9a0187163d44de3c,"ax",@progbits
	.p2align	2
	.type	nla_wire.members.write_each.9a0187163d44de3c,@function
nla_wire.members.write_each.9a0187163d44de3c:
	stp	x29, x30, [sp, #-96]!
	stp	x28, x27, [sp, #16]
	mov	x29, sp
	stp	x26, x25, [sp, #32]
	stp	x24, x23, [sp, #48]
	stp	x22, x21, [sp, #64]
	stp	x20, x19, [sp, #80]
	cbz	x1, .LBB57_30
	mov	x20, x2
	mov	x21, x1
	mov	x22, x0
	mov	x19, xzr
	mov	x25, xzr
	add	x23, x2, #20
	add	x24, x2, #4
	b	.LBB57_4
.LBB57_2:
	ldrh	w8, [x22, #16]
	ldr	w9, [x22, #12]
	mov	w10, #34984
	ldur	d0, [x22, #4]
	strh	wzr, [x26, #18]
	rev	w8, w8
	str	w9, [x26, #12]
	mov	w9, #-22392
	cmp	w10, w8, lsr #16
	mov	w8, #129
	stur	d0, [x26, #4]
	csel	w8, w9, w8, eq
	mov	w9, #20
	movk	w9, #1, lsl #16
	strh	w8, [x26, #16]
	str	w9, [x26]
	mov	w9, #20
.LBB57_3:
	cmp	x21, x25
	add	x19, x9, x19
	b.ls	.LBB57_31
.LBB57_4:
	sub	x21, x21, x25
	cmp	x21, #4
	b.lo	.LBB57_31
	mov	x9, x22
	add	x22, x22, x25
	mov	x8, x25
	ldrh	w27, [x22]
	cmp	w27, #4
	b.lo	.LBB57_31
	cmp	x21, x27
	b.lo	.LBB57_31
	ldrh	w28, [x22, #2]
	add	w11, w27, #3
	add	x26, x20, x19
	and	x25, x11, #0x1fffc
	and	w10, w28, #0x3fff
	cmp	w10, #1
	b.eq	.LBB57_2
	add	x11, x22, #4
	add	x12, x26, #4
	sub	x10, x27, #4
	sub	x11, x12, x11
	cmp	x11, x10
	b.hs	.LBB57_14
	cmp	x10, #8
	b.lo	.LBB57_11
	add	x11, x19, x20
	add	x12, x8, x9
	sub	x11, x11, x12
	cmp	x11, #32
	b.hs	.LBB57_21
.LBB57_11:
	mov	x11, xzr
.LBB57_12:
	add	x8, x11, x8
	sub	x10, x27, x11
	add	x11, x11, x19
	add	x9, x9, x8
	sub	x8, x10, #4
	add	x10, x24, x11
	add	x9, x9, #4
.LBB57_13:
	ldrb	w11, [x9], #1
	subs	x8, x8, #1
	strb	w11, [x10], #1
	b.ne	.LBB57_13
	b	.LBB57_15
.LBB57_14:
	add	x0, x26, #4
	add	x1, x22, #4
	sub	x2, x27, #4
	bl	memmove
.LBB57_15:
	sub	x9, x25, x27
	add	x8, x26, x27
	strh	w27, [x26]
	cmp	x9, #3
	strh	w28, [x26, #2]
	b.eq	.LBB57_20
	cmp	x9, #2
	b.eq	.LBB57_19
	cmp	x9, #1
	mov	x9, x25
	b.ne	.LBB57_3
	strb	wzr, [x8]
	mov	x9, x25
	b	.LBB57_3
.LBB57_19:
	strh	wzr, [x8]
	mov	x9, x25
	b	.LBB57_3
.LBB57_20:
	mov	x9, x25
	strh	wzr, [x8]
	strb	wzr, [x8, #2]
	b	.LBB57_3
.LBB57_21:
	cmp	x10, #32
	b.hs	.LBB57_23
	mov	x11, xzr
	b	.LBB57_27
.LBB57_23:
	add	x14, x9, x8
	and	x12, x10, #0x18
	and	x11, x10, #0xffffffffffffffe0
	add	x13, x23, x19
	add	x14, x14, #20
	and	x15, x10, #0xffffffffffffffe0
.LBB57_24:
	ldp	q0, q1, [x14, #-16]
	subs	x15, x15, #32
	add	x14, x14, #32
	stp	q0, q1, [x13, #-16]
	add	x13, x13, #32
	b.ne	.LBB57_24
	cmp	x10, x11
	b.eq	.LBB57_15
	cbz	x12, .LBB57_12
.LBB57_27:
	mov	x12, x11
	and	x11, x10, #0xfffffffffffffff8
	add	x13, x8, x12
	add	x14, x12, x19
	sub	x12, x12, x11
	add	x13, x9, x13
	add	x14, x24, x14
	add	x13, x13, #4
.LBB57_28:
	ldr	d0, [x13], #8
	adds	x12, x12, #8
	str	d0, [x14], #8
	b.ne	.LBB57_28
	cmp	x10, x11
	b.eq	.LBB57_15
	b	.LBB57_12
.LBB57_30:
	mov	x19, xzr
.LBB57_31:
	mov	x0, x19
	ldp	x20, x19, [sp, #80]
	ldp	x22, x21, [sp, #64]
	ldp	x24, x23, [sp, #48]
	ldp	x26, x25, [sp, #32]
	ldp	x28, x27, [sp, #16]
	ldp	x29, x30, [sp], #96
	ret
.Lfunc_end57:
	.size	nla_wire.members.write_each.9a0187163d44de3c, .Lfunc_end57-nla_wire.members.write_each.9a0187163d44de3c

	.section	.text.nla_wire.members.write_each.79503c7a397af21a,"ax",@progbits
	.p2align	2
	.type	nla_wire.members.write_each.79503c7a397af21a,@function
nla_wire.members.write_each.79503c7a397af21a:
	stp	x29, x30, [sp, #-64]!
	stp	x24, x23, [sp, #16]
	mov	x29, sp
	stp	x22, x21, [sp, #32]
	stp	x20, x19, [sp, #48]
	cbz	x1, .LBB58_14
	mov	x20, x2
	mov	x21, x1
	mov	x22, x0
	mov	x19, xzr
	mov	x8, xzr
	b	.LBB58_5
.LBB58_2:
	strh	wzr, [x9]
.LBB58_3:
	add	x19, x8, x19
.LBB58_4:
	add	w8, w23, #3
	and	x8, x8, #0x1fffc
	cmp	x21, x8
	b.ls	.LBB58_15
.LBB58_5:
	sub	x21, x21, x8
	cmp	x21, #4
	b.lo	.LBB58_15
	add	x22, x22, x8
	ldrh	w23, [x22]
	cmp	w23, #4
	b.lo	.LBB58_15
	cmp	x21, x23
	b.lo	.LBB58_15
	ldrb	w8, [x22, #2]
	ldrb	w9, [x22, #3]
	bfi	w8, w9, #8, #6
	cmp	w8, #1
	b.ne	.LBB58_4
	add	x24, x20, x19
	add	x0, x22, #4
	sub	x1, x23, #4
	add	x2, x24, #4
	bl	nla_wire.members.write_each.1f0cb788f492ced5
	add	x8, x0, #7
	add	x11, x0, #4
	mov	w9, #1
	and	x8, x8, #0xfffffffffffffffc
	strh	w9, [x24, #2]
	add	x9, x24, x11
	sub	x10, x8, x11
	strh	w11, [x24]
	cmp	x10, #3
	b.eq	.LBB58_13
	cmp	x10, #2
	b.eq	.LBB58_2
	cmp	x10, #1
	b.ne	.LBB58_3
	strb	wzr, [x9]
	b	.LBB58_3
.LBB58_13:
	strh	wzr, [x9]
	strb	wzr, [x9, #2]
	b	.LBB58_3
.LBB58_14:
	mov	x19, xzr
.LBB58_15:
	mov	x0, x19
	ldp	x20, x19, [sp, #48]
	ldp	x22, x21, [sp, #32]
	ldp	x24, x23, [sp, #16]
	ldp	x29, x30, [sp], #64
	ret
.Lfunc_end58:
	.size	nla_wire.members.write_each.79503c7a397af21a, .Lfunc_end58-nla_wire.members.write_each.79503c7a397af21a

	.section	.text.nla_wire.members.write_each.8ba1f663fcd59a5e,"ax",@progbits
	.p2align	2
	.type	nla_wire.members.write_each.8ba1f663fcd59a5e,@function
nla_wire.members.write_each.8ba1f663fcd59a5e:
	cbz	x1, .LBB59_65
	stp	x29, x30, [sp, #-96]!
	stp	x22, x21, [sp, #64]
	mov	x22, xzr
	add	x21, x2, #4
	stp	x20, x19, [sp, #80]
	mov	x19, x0
	mov	x0, xzr
	add	x20, x2, #20
	stp	x28, x27, [sp, #16]
	mov	x29, sp
	stp	x26, x25, [sp, #32]
	stp	x24, x23, [sp, #48]
.LBB59_2:
	sub	x1, x1, x22
	cmp	x1, #4
	b.lo	.LBB59_64
	mov	x9, x19
	add	x19, x19, x22
	mov	x8, x22
	ldrh	w24, [x19]
	cmp	w24, #4
	b.lo	.LBB59_64
	cmp	x1, x24
	b.lo	.LBB59_64
	ldrh	w25, [x19, #2]
	add	w11, w24, #3
	add	x23, x2, x0
	add	x12, x19, #4
	and	x22, x11, #0x1fffc
	add	x11, x23, #4
	and	w10, w25, #0x3fff
	cmp	w10, #4
	b.gt	.LBB59_10
	cmp	w10, #2
	b.gt	.LBB59_15
	cmp	w10, #1
	b.eq	.LBB59_23
	cmp	w10, #2
	b.ne	.LBB59_31
	ldrb	w8, [x12]
	mov	w9, #5
	sturh	wzr, [x23, #5]
	movk	w9, #2, lsl #16
	strb	wzr, [x23, #7]
	str	w9, [x23]
	strb	w8, [x23, #4]
	b	.LBB59_46
.LBB59_10:
	cmp	w10, #6
	b.gt	.LBB59_19
	cmp	w10, #5
	b.eq	.LBB59_25
	cmp	w10, #6
	b.ne	.LBB59_31
	sub	x8, x11, x12
	cmp	x8, #3
	b.hi	.LBB59_42
	ldrb	w8, [x19, #4]
	strb	w8, [x23, #4]
	ldrb	w8, [x19, #5]
	strb	w8, [x23, #5]
	ldrb	w8, [x19, #6]
	strb	w8, [x23, #6]
	ldrb	w8, [x19, #7]
	strb	w8, [x23, #7]
	mov	w8, #8
	movk	w8, #6, lsl #16
	b	.LBB59_45
.LBB59_15:
	cmp	w10, #3
	b.eq	.LBB59_27
	cmp	w10, #4
	b.ne	.LBB59_31
	sub	x8, x11, x12
	cmp	x8, #3
	b.hi	.LBB59_43
	ldrb	w8, [x19, #4]
	strb	w8, [x23, #4]
	ldrb	w8, [x19, #5]
	strb	w8, [x23, #5]
	ldrb	w8, [x19, #6]
	strb	w8, [x23, #6]
	ldrb	w8, [x19, #7]
	strb	w8, [x23, #7]
	mov	w8, #8
	movk	w8, #4, lsl #16
	b	.LBB59_45
.LBB59_19:
	cmp	w10, #7
	b.eq	.LBB59_29
	cmp	w10, #8
	b.ne	.LBB59_31
	sub	x8, x11, x12
	cmp	x8, #3
	b.hi	.LBB59_44
	ldrb	w8, [x19, #4]
	strb	w8, [x23, #4]
	ldrb	w8, [x19, #5]
	strb	w8, [x23, #5]
	ldrb	w8, [x19, #6]
	strb	w8, [x23, #6]
	ldrb	w8, [x19, #7]
	strb	w8, [x23, #7]
	mov	w8, #524296
	b	.LBB59_45
.LBB59_23:
	sub	x8, x11, x12
	cmp	x8, #3
	b.hi	.LBB59_37
	ldrb	w8, [x19, #4]
	strb	w8, [x23, #4]
	ldrb	w8, [x19, #5]
	strb	w8, [x23, #5]
	ldrb	w8, [x19, #6]
	strb	w8, [x23, #6]
	ldrb	w8, [x19, #7]
	strb	w8, [x23, #7]
	b	.LBB59_38
.LBB59_25:
	sub	x8, x11, x12
	cmp	x8, #3
	b.hi	.LBB59_39
	ldrb	w8, [x19, #4]
	strb	w8, [x23, #4]
	ldrb	w8, [x19, #5]
	strb	w8, [x23, #5]
	ldrb	w8, [x19, #6]
	strb	w8, [x23, #6]
	ldrb	w8, [x19, #7]
	strb	w8, [x23, #7]
	mov	w8, #8
	movk	w8, #5, lsl #16
	b	.LBB59_45
.LBB59_27:
	sub	x8, x11, x12
	cmp	x8, #3
	b.hi	.LBB59_40
	ldrb	w8, [x19, #4]
	strb	w8, [x23, #4]
	ldrb	w8, [x19, #5]
	strb	w8, [x23, #5]
	ldrb	w8, [x19, #6]
	strb	w8, [x23, #6]
	ldrb	w8, [x19, #7]
	strb	w8, [x23, #7]
	mov	w8, #8
	movk	w8, #3, lsl #16
	b	.LBB59_45
.LBB59_29:
	sub	x8, x11, x12
	cmp	x8, #3
	b.hi	.LBB59_41
	ldrb	w8, [x19, #4]
	strb	w8, [x23, #4]
	ldrb	w8, [x19, #5]
	strb	w8, [x23, #5]
	ldrb	w8, [x19, #6]
	strb	w8, [x23, #6]
	ldrb	w8, [x19, #7]
	strb	w8, [x23, #7]
	mov	w8, #8
	movk	w8, #7, lsl #16
	b	.LBB59_45
.LBB59_31:
	sub	x10, x24, #4
	sub	x11, x11, x12
	cmp	x11, x10
	b.hs	.LBB59_48
	cmp	x10, #8
	b.lo	.LBB59_34
	add	x11, x0, x2
	add	x12, x8, x9
	sub	x11, x11, x12
	cmp	x11, #32
	b.hs	.LBB59_55
.LBB59_34:
	mov	x11, xzr
.LBB59_35:
	add	x8, x11, x8
	sub	x10, x24, x11
	add	x11, x11, x0
	add	x9, x9, x8
	sub	x8, x10, #4
	add	x10, x21, x11
	add	x9, x9, #4
.LBB59_36:
	ldrb	w11, [x9], #1
	subs	x8, x8, #1
	strb	w11, [x10], #1
	b.ne	.LBB59_36
	b	.LBB59_49
.LBB59_37:
	ldr	w8, [x12]
	str	w8, [x11]
.LBB59_38:
	mov	w8, #8
	movk	w8, #1, lsl #16
	b	.LBB59_45
.LBB59_39:
	ldr	w8, [x12]
	str	w8, [x11]
	mov	w8, #8
	movk	w8, #5, lsl #16
	b	.LBB59_45
.LBB59_40:
	ldr	w8, [x12]
	str	w8, [x11]
	mov	w8, #8
	movk	w8, #3, lsl #16
	b	.LBB59_45
.LBB59_41:
	ldr	w8, [x12]
	str	w8, [x11]
	mov	w8, #8
	movk	w8, #7, lsl #16
	b	.LBB59_45
.LBB59_42:
	ldr	w8, [x12]
	str	w8, [x11]
	mov	w8, #8
	movk	w8, #6, lsl #16
	b	.LBB59_45
.LBB59_43:
	ldr	w8, [x12]
	str	w8, [x11]
	mov	w8, #8
	movk	w8, #4, lsl #16
	b	.LBB59_45
.LBB59_44:
	ldr	w8, [x12]
	str	w8, [x11]
	mov	w8, #524296
.LBB59_45:
	str	w8, [x23]
.LBB59_46:
	mov	w8, #8
.LBB59_47:
	cmp	x1, x22
	add	x0, x8, x0
	b.hi	.LBB59_2
	b	.LBB59_64
.LBB59_48:
	mov	x26, x0
	add	x0, x23, #4
	mov	x27, x1
	add	x1, x19, #4
	mov	x28, x2
	sub	x2, x24, #4
	bl	memmove
	mov	x1, x27
	mov	x2, x28
	mov	x0, x26
.LBB59_49:
	sub	x8, x22, x24
	add	x9, x23, x24
	strh	w24, [x23]
	cmp	x8, #3
	strh	w25, [x23, #2]
	b.eq	.LBB59_54
	cmp	x8, #2
	b.eq	.LBB59_53
	cmp	x8, #1
	mov	x8, x22
	b.ne	.LBB59_47
	strb	wzr, [x9]
	mov	x8, x22
	b	.LBB59_47
.LBB59_53:
	strh	wzr, [x9]
	mov	x8, x22
	b	.LBB59_47
.LBB59_54:
	mov	x8, x22
	strh	wzr, [x9]
	strb	wzr, [x9, #2]
	b	.LBB59_47
.LBB59_55:
	cmp	x10, #32
	b.hs	.LBB59_57
	mov	x11, xzr
	b	.LBB59_61
.LBB59_57:
	add	x14, x9, x8
	and	x12, x10, #0x18
	and	x11, x10, #0xffffffffffffffe0
	add	x13, x20, x0
	add	x14, x14, #20
	and	x15, x10, #0xffffffffffffffe0
.LBB59_58:
	ldp	q0, q1, [x14, #-16]
	subs	x15, x15, #32
	add	x14, x14, #32
	stp	q0, q1, [x13, #-16]
	add	x13, x13, #32
	b.ne	.LBB59_58
	cmp	x10, x11
	b.eq	.LBB59_49
	cbz	x12, .LBB59_35
.LBB59_61:
	mov	x12, x11
	and	x11, x10, #0xfffffffffffffff8
	add	x13, x8, x12
	add	x14, x12, x0
	sub	x12, x12, x11
	add	x13, x9, x13
	add	x14, x21, x14
	add	x13, x13, #4
.LBB59_62:
	ldr	d0, [x13], #8
	adds	x12, x12, #8
	str	d0, [x14], #8
	b.ne	.LBB59_62
	cmp	x10, x11
	b.eq	.LBB59_49
	b	.LBB59_35
.LBB59_64:
	ldp	x20, x19, [sp, #80]
	ldp	x22, x21, [sp, #64]
	ldp	x24, x23, [sp, #48]
	ldp	x26, x25, [sp, #32]
	ldp	x28, x27, [sp, #16]
	ldp	x29, x30, [sp], #96
	ret
.LBB59_65:
	mov	x0, xzr
	ret
.Lfunc_end59:
	.size	nla_wire.members.write_each.8ba1f663fcd59a5e, .Lfunc_end59-nla_wire.members.write_each.8ba1f663fcd59a5e

	.section	.text.nla_wire.members.write_each.b30b196c481b950e,"ax",@progbits
	.p2align	2
	.type	nla_wire.members.write_each.b30b196c481b950e,@function
nla_wire.members.write_each.b30b196c481b950e:
	stp	x29, x30, [sp, #-96]!
	stp	x28, x27, [sp, #16]
	mov	x29, sp
	stp	x26, x25, [sp, #32]
	stp	x24, x23, [sp, #48]
	stp	x22, x21, [sp, #64]
	stp	x20, x19, [sp, #80]
	cbz	x1, .LBB60_68
	mov	x20, x2
	mov	x21, x1
	mov	x22, x0
	mov	x19, xzr
	mov	x26, xzr
	add	x25, x2, #4
	b	.LBB60_5
.LBB60_2:
	mov	x8, x26
.LBB60_3:
	strh	wzr, [x9]
	strb	wzr, [x9, #2]
.LBB60_4:
	cmp	x21, x26
	add	x19, x8, x19
	b.ls	.LBB60_69
.LBB60_5:
	sub	x21, x21, x26
	cmp	x21, #4
	b.lo	.LBB60_69
	mov	x9, x22
	add	x22, x22, x26
	mov	x8, x26
	ldrh	w28, [x22]
	cmp	w28, #4
	b.lo	.LBB60_69
	cmp	x21, x28
	b.lo	.LBB60_69
	ldrh	w24, [x22, #2]
	add	w12, w28, #3
	add	x10, x22, #4
	sub	x23, x28, #4
	and	x26, x12, #0x1fffc
	add	x27, x20, x19
	and	w11, w24, #0x3fff
	cmp	w11, #53
	b.ne	.LBB60_18
	cbz	x23, .LBB60_11
	sub	x11, x28, #5
	ldrb	w12, [x10, x11]
	cbz	w12, .LBB60_32
.LBB60_11:
	cmp	x23, #4
	add	x28, x27, #4
	b.hs	.LBB60_33
.LBB60_12:
	sub	x10, x28, x10
	cmp	x10, x23
	b.hs	.LBB60_29
	cmp	x23, #8
	b.lo	.LBB60_15
	add	x10, x19, x20
	add	x11, x8, x9
	sub	x10, x10, x11
	cmp	x10, #32
	b.hs	.LBB60_45
.LBB60_15:
	mov	x10, xzr
.LBB60_16:
	add	x8, x10, x8
	add	x11, x10, x19
	add	x9, x9, x8
	sub	x8, x23, x10
	add	x10, x25, x11
	add	x9, x9, #4
.LBB60_17:
	ldrb	w11, [x9], #1
	subs	x8, x8, #1
	strb	w11, [x10], #1
	b.ne	.LBB60_17
	b	.LBB60_63
.LBB60_18:
	add	x11, x27, #4
	sub	x10, x11, x10
	cmp	x10, x23
	b.hs	.LBB60_24
	cmp	x23, #8
	b.lo	.LBB60_21
	add	x10, x19, x20
	add	x11, x8, x9
	sub	x10, x10, x11
	cmp	x10, #32
	b.hs	.LBB60_41
.LBB60_21:
	mov	x10, xzr
.LBB60_22:
	add	x8, x10, x8
	sub	x11, x28, x10
	add	x10, x10, x19
	add	x9, x9, x8
	sub	x8, x11, #4
	add	x10, x25, x10
	add	x9, x9, #4
.LBB60_23:
	ldrb	w11, [x9], #1
	subs	x8, x8, #1
	strb	w11, [x10], #1
	b.ne	.LBB60_23
	b	.LBB60_25
.LBB60_24:
	add	x0, x27, #4
	add	x1, x22, #4
	sub	x2, x28, #4
	bl	memmove
.LBB60_25:
	sub	x8, x26, x28
	add	x9, x27, x28
	strh	w28, [x27]
	cmp	x8, #3
	strh	w24, [x27, #2]
	b.eq	.LBB60_2
	cmp	x8, #2
	b.eq	.LBB60_30
	cmp	x8, #1
	mov	x8, x26
	b.ne	.LBB60_4
	strb	wzr, [x9]
	b	.LBB60_31
.LBB60_29:
	add	x0, x27, #4
	add	x1, x22, #4
	mov	x2, x23
	bl	memmove
	b	.LBB60_63
.LBB60_30:
	strh	wzr, [x9]
.LBB60_31:
	mov	x8, x26
	b	.LBB60_4
.LBB60_32:
	mov	x23, x11
	cmp	x11, #4
	add	x28, x27, #4
	b.lo	.LBB60_12
.LBB60_33:
	cmp	x23, #7
	b.hi	.LBB60_37
	sub	x8, x28, x10
	cmp	x8, #3
	b.hi	.LBB60_43
	ldrb	w8, [x22, #4]
	strb	w8, [x27, #4]
	ldrb	w8, [x22, #5]
	strb	w8, [x27, #5]
	ldrb	w8, [x22, #6]
	strb	w8, [x27, #6]
	ldrb	w8, [x22, #7]
	strb	w8, [x27, #7]
	add	x9, x10, x23
	add	x8, x27, x23
	sub	x10, x9, #4
	sub	x11, x8, x10
	cmp	x11, #3
	b.ls	.LBB60_44
.LBB60_36:
	ldr	w9, [x10]
	str	w9, [x8]
	b	.LBB60_63
.LBB60_37:
	cmp	x23, #16
	b.hi	.LBB60_12
	sub	x8, x28, x10
	cmp	x8, #7
	b.hi	.LBB60_47
	ldrb	w8, [x22, #4]
	strb	w8, [x27, #4]
	ldrb	w8, [x22, #5]
	strb	w8, [x27, #5]
	ldrb	w8, [x22, #6]
	strb	w8, [x27, #6]
	ldrb	w8, [x22, #7]
	strb	w8, [x27, #7]
	ldrb	w8, [x22, #8]
	strb	w8, [x27, #8]
	ldrb	w8, [x22, #9]
	strb	w8, [x27, #9]
	ldrb	w8, [x22, #10]
	strb	w8, [x27, #10]
	ldrb	w8, [x22, #11]
	strb	w8, [x27, #11]
	sub	x9, x23, #8
	add	x8, x28, x9
	add	x9, x10, x9
	sub	x10, x8, x9
	cmp	x10, #7
	b.ls	.LBB60_48
.LBB60_40:
	ldr	x9, [x9]
	str	x9, [x8]
	b	.LBB60_63
.LBB60_41:
	cmp	x23, #32
	b.hs	.LBB60_49
	mov	x10, xzr
	b	.LBB60_53
.LBB60_43:
	ldr	w8, [x10]
	str	w8, [x28]
	add	x9, x10, x23
	add	x8, x27, x23
	sub	x10, x9, #4
	sub	x11, x8, x10
	cmp	x11, #3
	b.hi	.LBB60_36
.LBB60_44:
	ldurb	w10, [x9, #-4]
	strb	w10, [x8]
	ldurb	w10, [x9, #-3]
	strb	w10, [x8, #1]
	ldurb	w10, [x9, #-2]
	strb	w10, [x8, #2]
	ldurb	w9, [x9, #-1]
	strb	w9, [x8, #3]
	b	.LBB60_63
.LBB60_45:
	cmp	x23, #32
	b.hs	.LBB60_56
	mov	x10, xzr
	b	.LBB60_60
.LBB60_47:
	ldr	x8, [x10]
	str	x8, [x28]
	sub	x9, x23, #8
	add	x8, x28, x9
	add	x9, x10, x9
	sub	x10, x8, x9
	cmp	x10, #7
	b.hi	.LBB60_40
.LBB60_48:
	ldrb	w10, [x9]
	strb	w10, [x8]
	ldrb	w10, [x9, #1]
	strb	w10, [x8, #1]
	ldrb	w10, [x9, #2]
	strb	w10, [x8, #2]
	ldrb	w10, [x9, #3]
	strb	w10, [x8, #3]
	ldrb	w10, [x9, #4]
	strb	w10, [x8, #4]
	ldrb	w10, [x9, #5]
	strb	w10, [x8, #5]
	ldrb	w10, [x9, #6]
	strb	w10, [x8, #6]
	ldrb	w9, [x9, #7]
	strb	w9, [x8, #7]
	b	.LBB60_63
.LBB60_49:
	add	x13, x9, x8
	add	x12, x20, #20
	and	x11, x23, #0x18
	and	x10, x23, #0xffffffffffffffe0
	add	x12, x12, x19
	add	x13, x13, #20
	and	x14, x23, #0xffffffffffffffe0
.LBB60_50:
	ldp	q0, q1, [x13, #-16]
	subs	x14, x14, #32
	add	x13, x13, #32
	stp	q0, q1, [x12, #-16]
	add	x12, x12, #32
	b.ne	.LBB60_50
	cmp	x23, x10
	b.eq	.LBB60_25
	cbz	x11, .LBB60_22
.LBB60_53:
	mov	x11, x10
	and	x10, x23, #0xfffffffffffffff8
	add	x12, x8, x11
	add	x13, x11, x19
	sub	x11, x11, x10
	add	x12, x9, x12
	add	x13, x25, x13
	add	x12, x12, #4
.LBB60_54:
	ldr	d0, [x12], #8
	adds	x11, x11, #8
	str	d0, [x13], #8
	b.ne	.LBB60_54
	cmp	x23, x10
	b.eq	.LBB60_25
	b	.LBB60_22
.LBB60_56:
	add	x12, x9, x8
	add	x13, x20, #20
	and	x11, x23, #0x18
	and	x10, x23, #0xffffffffffffffe0
	add	x12, x12, #20
	add	x13, x13, x19
	and	x14, x23, #0xffffffffffffffe0
.LBB60_57:
	ldp	q0, q1, [x12, #-16]
	subs	x14, x14, #32
	add	x12, x12, #32
	stp	q0, q1, [x13, #-16]
	add	x13, x13, #32
	b.ne	.LBB60_57
	cmp	x23, x10
	b.eq	.LBB60_63
	cbz	x11, .LBB60_16
.LBB60_60:
	mov	x11, x10
	and	x10, x23, #0xfffffffffffffff8
	add	x12, x8, x11
	add	x13, x11, x19
	sub	x11, x11, x10
	add	x12, x9, x12
	add	x13, x25, x13
	add	x12, x12, #4
.LBB60_61:
	ldr	d0, [x12], #8
	adds	x11, x11, #8
	str	d0, [x13], #8
	b.ne	.LBB60_61
	cmp	x23, x10
	b.ne	.LBB60_16
.LBB60_63:
	and	x8, x23, #0xfffffffffffffffc
	add	x9, x23, #5
	mov	w11, #53
	add	x8, x8, #8
	strh	w9, [x27]
	sub	x10, x8, x9
	add	x9, x27, x9
	strb	wzr, [x28, x23]
	cmp	x10, #3
	strh	w11, [x27, #2]
	b.eq	.LBB60_3
	cmp	x10, #2
	b.eq	.LBB60_67
	cmp	x10, #1
	b.ne	.LBB60_4
	strb	wzr, [x9]
	b	.LBB60_4
.LBB60_67:
	strh	wzr, [x9]
	b	.LBB60_4
.LBB60_68:
	mov	x19, xzr
.LBB60_69:
	mov	x0, x19
	ldp	x20, x19, [sp, #80]
	ldp	x22, x21, [sp, #64]
	ldp	x24, x23, [sp, #48]
	ldp	x26, x25, [sp, #32]
	ldp	x28, x27, [sp, #16]
	ldp	x29, x30, [sp], #96
	ret
.Lfunc_end60:
	.size	nla_wire.members.write_each.b30b196c481b950e, .Lfunc_end60-nla_wire.members.write_each.b30b196c481b950e

	.section	.text.nla_wire.members.write_each.f7f30aae703aa44d,"ax",@progbits
	.p2align	2
	.type	nla_wire.members.write_each.f7f30aae703aa44d,@function
nla_wire.members.write_each.f7f30aae703aa44d:
	stp	x29, x30, [sp, #-96]!
	stp	x28, x27, [sp, #16]
	mov	x29, sp
	stp	x26, x25, [sp, #32]
	stp	x24, x23, [sp, #48]
	stp	x22, x21, [sp, #64]
	stp	x20, x19, [sp, #80]
	cbz	x1, .LBB61_38
	mov	x20, x2
	mov	x21, x1
	mov	x22, x0
	mov	x19, xzr
	mov	x25, xzr
	add	x23, x2, #20
	add	x24, x2, #4
	b	.LBB61_6
.LBB61_2:
	ldr	w8, [x10]
	str	w8, [x11]
.LBB61_3:
	mov	w8, #8
	movk	w8, #1, lsl #16
.LBB61_4:
	str	w8, [x26]
	mov	w8, #8
.LBB61_5:
	cmp	x21, x25
	add	x19, x8, x19
	b.ls	.LBB61_39
.LBB61_6:
	sub	x21, x21, x25
	cmp	x21, #4
	b.lo	.LBB61_39
	mov	x9, x22
	add	x22, x22, x25
	mov	x8, x25
	ldrh	w27, [x22]
	cmp	w27, #4
	b.lo	.LBB61_39
	cmp	x21, x27
	b.lo	.LBB61_39
	ldrh	w28, [x22, #2]
	add	x26, x20, x19
	add	x10, x22, #4
	add	w12, w27, #3
	add	x11, x26, #4
	and	w13, w28, #0x3fff
	and	x25, x12, #0x1fffc
	sub	x12, x11, x10
	cmp	w13, #2
	b.eq	.LBB61_13
	cmp	w13, #1
	b.ne	.LBB61_15
	cmp	x12, #3
	b.hi	.LBB61_2
	ldrb	w8, [x22, #4]
	strb	w8, [x26, #4]
	ldrb	w8, [x22, #5]
	strb	w8, [x26, #5]
	ldrb	w8, [x22, #6]
	strb	w8, [x26, #6]
	ldrb	w8, [x22, #7]
	strb	w8, [x26, #7]
	b	.LBB61_3
.LBB61_13:
	cmp	x12, #3
	b.hi	.LBB61_21
	ldrb	w8, [x22, #4]
	strb	w8, [x26, #4]
	ldrb	w8, [x22, #5]
	strb	w8, [x26, #5]
	ldrb	w8, [x22, #6]
	strb	w8, [x26, #6]
	ldrb	w8, [x22, #7]
	strb	w8, [x26, #7]
	mov	w8, #8
	movk	w8, #2, lsl #16
	b	.LBB61_4
.LBB61_15:
	sub	x10, x27, #4
	cmp	x12, x10
	b.hs	.LBB61_22
	cmp	x10, #8
	b.lo	.LBB61_18
	add	x11, x19, x20
	add	x12, x8, x9
	sub	x11, x11, x12
	cmp	x11, #32
	b.hs	.LBB61_29
.LBB61_18:
	mov	x11, xzr
.LBB61_19:
	add	x8, x11, x8
	sub	x10, x27, x11
	add	x11, x11, x19
	add	x9, x9, x8
	sub	x8, x10, #4
	add	x10, x24, x11
	add	x9, x9, #4
.LBB61_20:
	ldrb	w11, [x9], #1
	subs	x8, x8, #1
	strb	w11, [x10], #1
	b.ne	.LBB61_20
	b	.LBB61_23
.LBB61_21:
	ldr	w8, [x10]
	str	w8, [x11]
	mov	w8, #8
	movk	w8, #2, lsl #16
	b	.LBB61_4
.LBB61_22:
	add	x0, x26, #4
	add	x1, x22, #4
	sub	x2, x27, #4
	bl	memmove
.LBB61_23:
	sub	x8, x25, x27
	add	x9, x26, x27
	strh	w27, [x26]
	cmp	x8, #3
	strh	w28, [x26, #2]
	b.eq	.LBB61_28
	cmp	x8, #2
	b.eq	.LBB61_27
	cmp	x8, #1
	mov	x8, x25
	b.ne	.LBB61_5
	strb	wzr, [x9]
	mov	x8, x25
	b	.LBB61_5
.LBB61_27:
	strh	wzr, [x9]
	mov	x8, x25
	b	.LBB61_5
.LBB61_28:
	mov	x8, x25
	strh	wzr, [x9]
	strb	wzr, [x9, #2]
	b	.LBB61_5
.LBB61_29:
	cmp	x10, #32
	b.hs	.LBB61_31
	mov	x11, xzr
	b	.LBB61_35
.LBB61_31:
	add	x14, x9, x8
	and	x12, x10, #0x18
	and	x11, x10, #0xffffffffffffffe0
	add	x13, x23, x19
	add	x14, x14, #20
	and	x15, x10, #0xffffffffffffffe0
.LBB61_32:
	ldp	q0, q1, [x14, #-16]
	subs	x15, x15, #32
	add	x14, x14, #32
	stp	q0, q1, [x13, #-16]
	add	x13, x13, #32
	b.ne	.LBB61_32
	cmp	x10, x11
	b.eq	.LBB61_23
	cbz	x12, .LBB61_19
.LBB61_35:
	mov	x12, x11
	and	x11, x10, #0xfffffffffffffff8
	add	x13, x8, x12
	add	x14, x12, x19
	sub	x12, x12, x11
	add	x13, x9, x13
	add	x14, x24, x14
	add	x13, x13, #4
.LBB61_36:
	ldr	d0, [x13], #8
	adds	x12, x12, #8
	str	d0, [x14], #8
	b.ne	.LBB61_36
	cmp	x10, x11
	b.eq	.LBB61_23
	b	.LBB61_19
.LBB61_38:
	mov	x19, xzr
.LBB61_39:
	mov	x0, x19
	ldp	x20, x19, [sp, #80]
	ldp	x22, x21, [sp, #64]
	ldp	x24, x23, [sp, #48]
	ldp	x26, x25, [sp, #32]
	ldp	x28, x27, [sp, #16]
	ldp	x29, x30, [sp], #96
	ret
.Lfunc_end61:
	.size	nla_wire.members.write_each.f7f30aae703aa44d, .Lfunc_end61-nla_wire.members.write_each.f7f30aae703aa44d

	.section	.text.nla_wire.members.write_each.16a873d75d6df2a1,"ax",@progbits
	.p2align	2
	.type	nla_wire.members.write_each.16a873d75d6df2a1,@function
nla_wire.members.write_each.16a873d75d6df2a1:
	stp	x29, x30, [sp, #-96]!
	stp	x28, x27, [sp, #16]
	mov	x29, sp
	stp	x26, x25, [sp, #32]
	stp	x24, x23, [sp, #48]
	stp	x22, x21, [sp, #64]
	stp	x20, x19, [sp, #80]
	cbz	x1, .LBB62_107
	mov	x20, x2
	mov	x21, x1
	mov	x22, x0
	mov	x19, xzr
	mov	x26, xzr
	add	x25, x2, #4
	b	.LBB62_5
.LBB62_2:
	mov	x8, x26
.LBB62_3:
	strh	wzr, [x9]
	strb	wzr, [x9, #2]
.LBB62_4:
	cmp	x21, x26
	add	x19, x8, x19
	b.ls	.LBB62_108
.LBB62_5:
	sub	x21, x21, x26
	cmp	x21, #4
	b.lo	.LBB62_108
	mov	x9, x22
	add	x22, x22, x26
	mov	x8, x26
	ldrh	w28, [x22]
	cmp	w28, #4
	b.lo	.LBB62_108
	cmp	x21, x28
	b.lo	.LBB62_108
	ldrh	w24, [x22, #2]
	add	w12, w28, #3
	add	x10, x22, #4
	and	x26, x12, #0x1fffc
	add	x27, x20, x19
	and	w11, w24, #0x3fff
	cmp	w11, #3
	b.eq	.LBB62_29
	cmp	w11, #2
	sub	x23, x28, #4
	b.eq	.LBB62_20
	cmp	w11, #1
	b.ne	.LBB62_31
	cbz	x23, .LBB62_13
	sub	x11, x28, #5
	ldrb	w12, [x10, x11]
	cbz	w12, .LBB62_56
.LBB62_13:
	cmp	x23, #4
	add	x28, x27, #4
	b.hs	.LBB62_57
.LBB62_14:
	sub	x10, x28, x10
	cmp	x10, x23
	b.hs	.LBB62_45
	cmp	x23, #8
	b.lo	.LBB62_17
	add	x10, x19, x20
	add	x11, x8, x9
	sub	x10, x10, x11
	cmp	x10, #32
	b.hs	.LBB62_73
.LBB62_17:
	mov	x10, xzr
.LBB62_18:
	add	x8, x10, x8
	add	x11, x10, x19
	add	x9, x9, x8
	sub	x8, x23, x10
	add	x10, x25, x11
	add	x9, x9, #4
.LBB62_19:
	ldrb	w11, [x9], #1
	subs	x8, x8, #1
	strb	w11, [x10], #1
	b.ne	.LBB62_19
	b	.LBB62_104
.LBB62_20:
	cbz	x23, .LBB62_22
	sub	x11, x28, #5
	ldrb	w12, [x10, x11]
	cbz	w12, .LBB62_47
.LBB62_22:
	cmp	x23, #4
	add	x28, x27, #4
	b.hs	.LBB62_48
.LBB62_23:
	sub	x10, x28, x10
	cmp	x10, x23
	b.hs	.LBB62_44
	cmp	x23, #8
	b.lo	.LBB62_26
	add	x10, x19, x20
	add	x11, x8, x9
	sub	x10, x10, x11
	cmp	x10, #32
	b.hs	.LBB62_71
.LBB62_26:
	mov	x10, xzr
.LBB62_27:
	add	x8, x10, x8
	add	x11, x10, x19
	add	x9, x9, x8
	sub	x8, x23, x10
	add	x10, x25, x11
	add	x9, x9, #4
.LBB62_28:
	ldrb	w11, [x9], #1
	subs	x8, x8, #1
	strb	w11, [x10], #1
	b.ne	.LBB62_28
	b	.LBB62_93
.LBB62_29:
	add	x8, x27, #4
	sub	x9, x8, x10
	cmp	x9, #3
	b.hi	.LBB62_37
	ldrb	w8, [x22, #4]
	strb	w8, [x27, #4]
	ldrb	w8, [x22, #5]
	strb	w8, [x27, #5]
	ldrb	w8, [x22, #6]
	strb	w8, [x27, #6]
	ldrb	w8, [x22, #7]
	strb	w8, [x27, #7]
	b	.LBB62_38
.LBB62_31:
	add	x11, x27, #4
	sub	x10, x11, x10
	cmp	x10, x23
	b.hs	.LBB62_39
	cmp	x23, #8
	b.lo	.LBB62_34
	add	x10, x19, x20
	add	x11, x8, x9
	sub	x10, x10, x11
	cmp	x10, #32
	b.hs	.LBB62_67
.LBB62_34:
	mov	x10, xzr
.LBB62_35:
	add	x8, x10, x8
	sub	x11, x28, x10
	add	x10, x10, x19
	add	x9, x9, x8
	sub	x8, x11, #4
	add	x10, x25, x10
	add	x9, x9, #4
.LBB62_36:
	ldrb	w11, [x9], #1
	subs	x8, x8, #1
	strb	w11, [x10], #1
	b.ne	.LBB62_36
	b	.LBB62_40
.LBB62_37:
	ldr	w9, [x10]
	str	w9, [x8]
.LBB62_38:
	mov	w8, #8
	movk	w8, #3, lsl #16
	str	w8, [x27]
	mov	w8, #8
	b	.LBB62_4
.LBB62_39:
	add	x0, x27, #4
	add	x1, x22, #4
	sub	x2, x28, #4
	bl	memmove
.LBB62_40:
	sub	x8, x26, x28
	add	x9, x27, x28
	strh	w28, [x27]
	cmp	x8, #3
	strh	w24, [x27, #2]
	b.eq	.LBB62_2
	cmp	x8, #2
	b.eq	.LBB62_46
	cmp	x8, #1
	mov	x8, x26
	b.ne	.LBB62_4
	strb	wzr, [x9]
	mov	x8, x26
	b	.LBB62_4
.LBB62_44:
	add	x0, x27, #4
	add	x1, x22, #4
	mov	x2, x23
	bl	memmove
	b	.LBB62_93
.LBB62_45:
	add	x0, x27, #4
	add	x1, x22, #4
	mov	x2, x23
	bl	memmove
	b	.LBB62_104
.LBB62_46:
	strh	wzr, [x9]
	mov	x8, x26
	b	.LBB62_4
.LBB62_47:
	mov	x23, x11
	cmp	x11, #4
	add	x28, x27, #4
	b.lo	.LBB62_23
.LBB62_48:
	cmp	x23, #7
	b.hi	.LBB62_52
	sub	x8, x28, x10
	cmp	x8, #3
	b.hi	.LBB62_65
	ldrb	w8, [x22, #4]
	strb	w8, [x27, #4]
	ldrb	w8, [x22, #5]
	strb	w8, [x27, #5]
	ldrb	w8, [x22, #6]
	strb	w8, [x27, #6]
	ldrb	w8, [x22, #7]
	strb	w8, [x27, #7]
	add	x9, x10, x23
	add	x8, x27, x23
	sub	x10, x9, #4
	sub	x11, x8, x10
	cmp	x11, #3
	b.ls	.LBB62_66
.LBB62_51:
	ldr	w9, [x10]
	str	w9, [x8]
	b	.LBB62_93
.LBB62_52:
	cmp	x23, #16
	b.hi	.LBB62_23
	sub	x8, x28, x10
	cmp	x8, #7
	b.hi	.LBB62_75
	ldrb	w8, [x22, #4]
	strb	w8, [x27, #4]
	ldrb	w8, [x22, #5]
	strb	w8, [x27, #5]
	ldrb	w8, [x22, #6]
	strb	w8, [x27, #6]
	ldrb	w8, [x22, #7]
	strb	w8, [x27, #7]
	ldrb	w8, [x22, #8]
	strb	w8, [x27, #8]
	ldrb	w8, [x22, #9]
	strb	w8, [x27, #9]
	ldrb	w8, [x22, #10]
	strb	w8, [x27, #10]
	ldrb	w8, [x22, #11]
	strb	w8, [x27, #11]
	sub	x9, x23, #8
	add	x8, x28, x9
	add	x9, x10, x9
	sub	x10, x8, x9
	cmp	x10, #7
	b.ls	.LBB62_76
.LBB62_55:
	ldr	x9, [x9]
	str	x9, [x8]
	b	.LBB62_93
.LBB62_56:
	mov	x23, x11
	cmp	x11, #4
	add	x28, x27, #4
	b.lo	.LBB62_14
.LBB62_57:
	cmp	x23, #7
	b.hi	.LBB62_61
	sub	x8, x28, x10
	cmp	x8, #3
	b.hi	.LBB62_69
	ldrb	w8, [x22, #4]
	strb	w8, [x27, #4]
	ldrb	w8, [x22, #5]
	strb	w8, [x27, #5]
	ldrb	w8, [x22, #6]
	strb	w8, [x27, #6]
	ldrb	w8, [x22, #7]
	strb	w8, [x27, #7]
	add	x9, x10, x23
	add	x8, x27, x23
	sub	x10, x9, #4
	sub	x11, x8, x10
	cmp	x11, #3
	b.ls	.LBB62_70
.LBB62_60:
	ldr	w9, [x10]
	str	w9, [x8]
	b	.LBB62_104
.LBB62_61:
	cmp	x23, #16
	b.hi	.LBB62_14
	sub	x8, x28, x10
	cmp	x8, #7
	b.hi	.LBB62_77
	ldrb	w8, [x22, #4]
	strb	w8, [x27, #4]
	ldrb	w8, [x22, #5]
	strb	w8, [x27, #5]
	ldrb	w8, [x22, #6]
	strb	w8, [x27, #6]
	ldrb	w8, [x22, #7]
	strb	w8, [x27, #7]
	ldrb	w8, [x22, #8]
	strb	w8, [x27, #8]
	ldrb	w8, [x22, #9]
	strb	w8, [x27, #9]
	ldrb	w8, [x22, #10]
	strb	w8, [x27, #10]
	ldrb	w8, [x22, #11]
	strb	w8, [x27, #11]
	sub	x9, x23, #8
	add	x8, x28, x9
	add	x9, x10, x9
	sub	x10, x8, x9
	cmp	x10, #7
	b.ls	.LBB62_78
.LBB62_64:
	ldr	x9, [x9]
	str	x9, [x8]
	b	.LBB62_104
.LBB62_65:
	ldr	w8, [x10]
	str	w8, [x28]
	add	x9, x10, x23
	add	x8, x27, x23
	sub	x10, x9, #4
	sub	x11, x8, x10
	cmp	x11, #3
	b.hi	.LBB62_51
.LBB62_66:
	ldurb	w10, [x9, #-4]
	strb	w10, [x8]
	ldurb	w10, [x9, #-3]
	strb	w10, [x8, #1]
	ldurb	w10, [x9, #-2]
	strb	w10, [x8, #2]
	ldurb	w9, [x9, #-1]
	strb	w9, [x8, #3]
	b	.LBB62_93
.LBB62_67:
	cmp	x23, #32
	b.hs	.LBB62_79
	mov	x10, xzr
	b	.LBB62_83
.LBB62_69:
	ldr	w8, [x10]
	str	w8, [x28]
	add	x9, x10, x23
	add	x8, x27, x23
	sub	x10, x9, #4
	sub	x11, x8, x10
	cmp	x11, #3
	b.hi	.LBB62_60
.LBB62_70:
	ldurb	w10, [x9, #-4]
	strb	w10, [x8]
	ldurb	w10, [x9, #-3]
	strb	w10, [x8, #1]
	ldurb	w10, [x9, #-2]
	strb	w10, [x8, #2]
	ldurb	w9, [x9, #-1]
	strb	w9, [x8, #3]
	b	.LBB62_104
.LBB62_71:
	cmp	x23, #32
	b.hs	.LBB62_86
	mov	x10, xzr
	b	.LBB62_90
.LBB62_73:
	cmp	x23, #32
	b.hs	.LBB62_97
	mov	x10, xzr
	b	.LBB62_101
.LBB62_75:
	ldr	x8, [x10]
	str	x8, [x28]
	sub	x9, x23, #8
	add	x8, x28, x9
	add	x9, x10, x9
	sub	x10, x8, x9
	cmp	x10, #7
	b.hi	.LBB62_55
.LBB62_76:
	ldrb	w10, [x9]
	strb	w10, [x8]
	ldrb	w10, [x9, #1]
	strb	w10, [x8, #1]
	ldrb	w10, [x9, #2]
	strb	w10, [x8, #2]
	ldrb	w10, [x9, #3]
	strb	w10, [x8, #3]
	ldrb	w10, [x9, #4]
	strb	w10, [x8, #4]
	ldrb	w10, [x9, #5]
	strb	w10, [x8, #5]
	ldrb	w10, [x9, #6]
	strb	w10, [x8, #6]
	ldrb	w9, [x9, #7]
	strb	w9, [x8, #7]
	b	.LBB62_93
.LBB62_77:
	ldr	x8, [x10]
	str	x8, [x28]
	sub	x9, x23, #8
	add	x8, x28, x9
	add	x9, x10, x9
	sub	x10, x8, x9
	cmp	x10, #7
	b.hi	.LBB62_64
.LBB62_78:
	ldrb	w10, [x9]
	strb	w10, [x8]
	ldrb	w10, [x9, #1]
	strb	w10, [x8, #1]
	ldrb	w10, [x9, #2]
	strb	w10, [x8, #2]
	ldrb	w10, [x9, #3]
	strb	w10, [x8, #3]
	ldrb	w10, [x9, #4]
	strb	w10, [x8, #4]
	ldrb	w10, [x9, #5]
	strb	w10, [x8, #5]
	ldrb	w10, [x9, #6]
	strb	w10, [x8, #6]
	ldrb	w9, [x9, #7]
	strb	w9, [x8, #7]
	b	.LBB62_104
.LBB62_79:
	add	x13, x9, x8
	add	x12, x20, #20
	and	x11, x23, #0x18
	and	x10, x23, #0xffffffffffffffe0
	add	x12, x12, x19
	add	x13, x13, #20
	and	x14, x23, #0xffffffffffffffe0
.LBB62_80:
	ldp	q0, q1, [x13, #-16]
	subs	x14, x14, #32
	add	x13, x13, #32
	stp	q0, q1, [x12, #-16]
	add	x12, x12, #32
	b.ne	.LBB62_80
	cmp	x23, x10
	b.eq	.LBB62_40
	cbz	x11, .LBB62_35
.LBB62_83:
	mov	x11, x10
	and	x10, x23, #0xfffffffffffffff8
	add	x12, x8, x11
	add	x13, x11, x19
	sub	x11, x11, x10
	add	x12, x9, x12
	add	x13, x25, x13
	add	x12, x12, #4
.LBB62_84:
	ldr	d0, [x12], #8
	adds	x11, x11, #8
	str	d0, [x13], #8
	b.ne	.LBB62_84
	cmp	x23, x10
	b.eq	.LBB62_40
	b	.LBB62_35
.LBB62_86:
	add	x12, x9, x8
	add	x13, x20, #20
	and	x11, x23, #0x18
	and	x10, x23, #0xffffffffffffffe0
	add	x12, x12, #20
	add	x13, x13, x19
	and	x14, x23, #0xffffffffffffffe0
.LBB62_87:
	ldp	q0, q1, [x12, #-16]
	subs	x14, x14, #32
	add	x12, x12, #32
	stp	q0, q1, [x13, #-16]
	add	x13, x13, #32
	b.ne	.LBB62_87
	cmp	x23, x10
	b.eq	.LBB62_93
	cbz	x11, .LBB62_27
.LBB62_90:
	mov	x11, x10
	and	x10, x23, #0xfffffffffffffff8
	add	x12, x8, x11
	add	x13, x11, x19
	sub	x11, x11, x10
	add	x12, x9, x12
	add	x13, x25, x13
	add	x12, x12, #4
.LBB62_91:
	ldr	d0, [x12], #8
	adds	x11, x11, #8
	str	d0, [x13], #8
	b.ne	.LBB62_91
	cmp	x23, x10
	b.ne	.LBB62_27
.LBB62_93:
	and	x8, x23, #0xfffffffffffffffc
	add	x9, x23, #5
	mov	w11, #2
	add	x8, x8, #8
	strh	w9, [x27]
	sub	x10, x8, x9
	add	x9, x27, x9
	strb	wzr, [x28, x23]
	cmp	x10, #3
	strh	w11, [x27, #2]
	b.eq	.LBB62_3
	cmp	x10, #2
	b.eq	.LBB62_106
.LBB62_95:
	cmp	x10, #1
	b.ne	.LBB62_4
	strb	wzr, [x9]
	b	.LBB62_4
.LBB62_97:
	add	x12, x9, x8
	add	x13, x20, #20
	and	x11, x23, #0x18
	and	x10, x23, #0xffffffffffffffe0
	add	x12, x12, #20
	add	x13, x13, x19
	and	x14, x23, #0xffffffffffffffe0
.LBB62_98:
	ldp	q0, q1, [x12, #-16]
	subs	x14, x14, #32
	add	x12, x12, #32
	stp	q0, q1, [x13, #-16]
	add	x13, x13, #32
	b.ne	.LBB62_98
	cmp	x23, x10
	b.eq	.LBB62_104
	cbz	x11, .LBB62_18
.LBB62_101:
	mov	x11, x10
	and	x10, x23, #0xfffffffffffffff8
	add	x12, x8, x11
	add	x13, x11, x19
	sub	x11, x11, x10
	add	x12, x9, x12
	add	x13, x25, x13
	add	x12, x12, #4
.LBB62_102:
	ldr	d0, [x12], #8
	adds	x11, x11, #8
	str	d0, [x13], #8
	b.ne	.LBB62_102
	cmp	x23, x10
	b.ne	.LBB62_18
.LBB62_104:
	and	x8, x23, #0xfffffffffffffffc
	add	x9, x23, #5
	mov	w11, #1
	add	x8, x8, #8
	strh	w9, [x27]
	sub	x10, x8, x9
	add	x9, x27, x9
	strb	wzr, [x28, x23]
	cmp	x10, #3
	strh	w11, [x27, #2]
	b.eq	.LBB62_3
	cmp	x10, #2
	b.ne	.LBB62_95
.LBB62_106:
	strh	wzr, [x9]
	b	.LBB62_4
.LBB62_107:
	mov	x19, xzr
.LBB62_108:
	mov	x0, x19
	ldp	x20, x19, [sp, #80]
	ldp	x22, x21, [sp, #64]
	ldp	x24, x23, [sp, #48]
	ldp	x26, x25, [sp, #32]
	ldp	x28, x27, [sp, #16]
	ldp	x29, x30, [sp], #96
	ret
.Lfunc_end62:
	.size	nla_wire.members.write_each.16a873d75d6df2a1, .Lfunc_end62-nla_wire.members.write_each.16a873d75d6df2a1

	.section	.text.nla_wire.members.write_each.5fa77b269143286c,"ax",@progbits
	.p2align	2
	.type	nla_wire.members.write_each.5fa77b269143286c,@function
nla_wire.members.write_each.5fa77b269143286c:
	stp	x29, x30, [sp, #-96]!
	stp	x28, x27, [sp, #16]
	mov	x29, sp
	stp	x26, x25, [sp, #32]
	stp	x24, x23, [sp, #48]
	stp	x22, x21, [sp, #64]
	stp	x20, x19, [sp, #80]
	cbz	x1, .LBB63_33
	mov	x20, x2
	mov	x21, x1
	mov	x22, x0
	mov	x19, xzr
	mov	x25, xzr
	add	x23, x2, #20
	add	x24, x2, #4
	b	.LBB63_5
.LBB63_2:
	ldr	w8, [x10]
	str	w8, [x11]
.LBB63_3:
	mov	w8, #8
	mov	w9, #8
	movk	w8, #1, lsl #16
	str	w8, [x26]
.LBB63_4:
	cmp	x21, x25
	add	x19, x9, x19
	b.ls	.LBB63_34
.LBB63_5:
	sub	x21, x21, x25
	cmp	x21, #4
	b.lo	.LBB63_34
	mov	x9, x22
	add	x22, x22, x25
	mov	x8, x25
	ldrh	w27, [x22]
	cmp	w27, #4
	b.lo	.LBB63_34
	cmp	x21, x27
	b.lo	.LBB63_34
	ldrh	w28, [x22, #2]
	add	x26, x20, x19
	add	x10, x22, #4
	add	w13, w27, #3
	add	x11, x26, #4
	and	w12, w28, #0x3fff
	and	x25, x13, #0x1fffc
	cmp	w12, #1
	sub	x12, x11, x10
	b.ne	.LBB63_11
	cmp	x12, #3
	b.hi	.LBB63_2
	ldrb	w8, [x22, #4]
	strb	w8, [x26, #4]
	ldrb	w8, [x22, #5]
	strb	w8, [x26, #5]
	ldrb	w8, [x22, #6]
	strb	w8, [x26, #6]
	ldrb	w8, [x22, #7]
	strb	w8, [x26, #7]
	b	.LBB63_3
.LBB63_11:
	sub	x10, x27, #4
	cmp	x12, x10
	b.hs	.LBB63_17
	cmp	x10, #8
	b.lo	.LBB63_14
	add	x11, x19, x20
	add	x12, x8, x9
	sub	x11, x11, x12
	cmp	x11, #32
	b.hs	.LBB63_24
.LBB63_14:
	mov	x11, xzr
.LBB63_15:
	add	x8, x11, x8
	sub	x10, x27, x11
	add	x11, x11, x19
	add	x9, x9, x8
	sub	x8, x10, #4
	add	x10, x24, x11
	add	x9, x9, #4
.LBB63_16:
	ldrb	w11, [x9], #1
	subs	x8, x8, #1
	strb	w11, [x10], #1
	b.ne	.LBB63_16
	b	.LBB63_18
.LBB63_17:
	add	x0, x26, #4
	add	x1, x22, #4
	sub	x2, x27, #4
	bl	memmove
.LBB63_18:
	sub	x9, x25, x27
	add	x8, x26, x27
	strh	w27, [x26]
	cmp	x9, #3
	strh	w28, [x26, #2]
	b.eq	.LBB63_23
	cmp	x9, #2
	b.eq	.LBB63_22
	cmp	x9, #1
	mov	x9, x25
	b.ne	.LBB63_4
	strb	wzr, [x8]
	mov	x9, x25
	b	.LBB63_4
.LBB63_22:
	strh	wzr, [x8]
	mov	x9, x25
	b	.LBB63_4
.LBB63_23:
	mov	x9, x25
	strh	wzr, [x8]
	strb	wzr, [x8, #2]
	b	.LBB63_4
.LBB63_24:
	cmp	x10, #32
	b.hs	.LBB63_26
	mov	x11, xzr
	b	.LBB63_30
.LBB63_26:
	add	x14, x9, x8
	and	x12, x10, #0x18
	and	x11, x10, #0xffffffffffffffe0
	add	x13, x23, x19
	add	x14, x14, #20
	and	x15, x10, #0xffffffffffffffe0
.LBB63_27:
	ldp	q0, q1, [x14, #-16]
	subs	x15, x15, #32
	add	x14, x14, #32
	stp	q0, q1, [x13, #-16]
	add	x13, x13, #32
	b.ne	.LBB63_27
	cmp	x10, x11
	b.eq	.LBB63_18
	cbz	x12, .LBB63_15
.LBB63_30:
	mov	x12, x11
	and	x11, x10, #0xfffffffffffffff8
	add	x13, x8, x12
	add	x14, x12, x19
	sub	x12, x12, x11
	add	x13, x9, x13
	add	x14, x24, x14
	add	x13, x13, #4
.LBB63_31:
	ldr	d0, [x13], #8
	adds	x12, x12, #8
	str	d0, [x14], #8
	b.ne	.LBB63_31
	cmp	x10, x11
	b.eq	.LBB63_18
	b	.LBB63_15
.LBB63_33:
	mov	x19, xzr
.LBB63_34:
	mov	x0, x19
	ldp	x20, x19, [sp, #80]
	ldp	x22, x21, [sp, #64]
	ldp	x24, x23, [sp, #48]
	ldp	x26, x25, [sp, #32]
	ldp	x28, x27, [sp, #16]
	ldp	x29, x30, [sp], #96
	ret
.Lfunc_end63:
	.size	nla_wire.members.write_each.5fa77b269143286c, .Lfunc_end63-nla_wire.members.write_each.5fa77b269143286c

	.section	.text.nla_wire.members.write_each.1f0cb788f492ced5,"ax",@progbits
	.p2align	2
	.type	nla_wire.members.write_each.1f0cb788f492ced5,@function
nla_wire.members.write_each.1f0cb788f492ced5:
	stp	x29, x30, [sp, #-96]!
	str	x27, [sp, #16]
	mov	x29, sp
	stp	x26, x25, [sp, #32]
	stp	x24, x23, [sp, #48]
	stp	x22, x21, [sp, #64]
	stp	x20, x19, [sp, #80]
	cbz	x1, .LBB64_28
	mov	x20, x2
	mov	x21, x1
	mov	x22, x0
	mov	x19, xzr
	mov	x8, xzr
	add	x23, x2, #20
	add	x24, x2, #4
	b	.LBB64_4
.LBB64_2:
	strh	wzr, [x9]
.LBB64_3:
	cmp	x21, x8
	add	x19, x8, x19
	b.ls	.LBB64_29
.LBB64_4:
	sub	x21, x21, x8
	cmp	x21, #4
	b.lo	.LBB64_29
	mov	x9, x22
	add	x22, x22, x8
	ldrh	w25, [x22]
	cmp	w25, #4
	b.lo	.LBB64_29
	cmp	x21, x25
	b.lo	.LBB64_29
	add	x26, x20, x19
	add	x11, x22, #4
	sub	x10, x25, #4
	add	x12, x26, #4
	ldrh	w27, [x22, #2]
	sub	x11, x12, x11
	cmp	x11, x10
	b.hs	.LBB64_13
	cmp	x10, #8
	b.lo	.LBB64_10
	add	x11, x19, x20
	add	x12, x8, x9
	sub	x11, x11, x12
	cmp	x11, #32
	b.hs	.LBB64_19
.LBB64_10:
	mov	x11, xzr
.LBB64_11:
	add	x8, x11, x8
	sub	x10, x25, x11
	add	x11, x11, x19
	add	x9, x9, x8
	sub	x8, x10, #4
	add	x10, x24, x11
	add	x9, x9, #4
.LBB64_12:
	ldrb	w11, [x9], #1
	subs	x8, x8, #1
	strb	w11, [x10], #1
	b.ne	.LBB64_12
	b	.LBB64_14
.LBB64_13:
	add	x0, x26, #4
	add	x1, x22, #4
	sub	x2, x25, #4
	bl	memmove
.LBB64_14:
	add	w8, w25, #3
	add	x9, x26, x25
	strh	w25, [x26]
	and	x8, x8, #0x1fffc
	strh	w27, [x26, #2]
	sub	x10, x8, x25
	cmp	x10, #3
	b.eq	.LBB64_18
	cmp	x10, #2
	b.eq	.LBB64_2
	cmp	x10, #1
	b.ne	.LBB64_3
	strb	wzr, [x9]
	b	.LBB64_3
.LBB64_18:
	strh	wzr, [x9]
	strb	wzr, [x9, #2]
	b	.LBB64_3
.LBB64_19:
	cmp	x10, #32
	b.hs	.LBB64_21
	mov	x11, xzr
	b	.LBB64_25
.LBB64_21:
	add	x14, x9, x8
	and	x12, x10, #0x18
	and	x11, x10, #0xffffffffffffffe0
	add	x13, x23, x19
	add	x14, x14, #20
	and	x15, x10, #0xffffffffffffffe0
.LBB64_22:
	ldp	q0, q1, [x14, #-16]
	subs	x15, x15, #32
	add	x14, x14, #32
	stp	q0, q1, [x13, #-16]
	add	x13, x13, #32
	b.ne	.LBB64_22
	cmp	x10, x11
	b.eq	.LBB64_14
	cbz	x12, .LBB64_11
.LBB64_25:
	mov	x12, x11
	and	x11, x10, #0xfffffffffffffff8
	add	x13, x8, x12
	add	x14, x12, x19
	sub	x12, x12, x11
	add	x13, x9, x13
	add	x14, x24, x14
	add	x13, x13, #4
.LBB64_26:
	ldr	d0, [x13], #8
	adds	x12, x12, #8
	str	d0, [x14], #8
	b.ne	.LBB64_26
	cmp	x10, x11
	b.eq	.LBB64_14
	b	.LBB64_11
.LBB64_28:
	mov	x19, xzr
.LBB64_29:
	mov	x0, x19
	ldp	x20, x19, [sp, #80]
	ldp	x22, x21, [sp, #64]
	ldr	x27, [sp, #16]
	ldp	x24, x23, [sp, #48]
	ldp	x26, x25, [sp, #32]
	ldp	x29, x30, [sp], #96
	ret
.Lfunc_end64:
	.size	nla_wire.members.write_each.1f0cb788f492ced5, .Lfunc_end64-nla_wire.members.write_each.1f0cb788f492ced5

	.section	.text.nla_wire.members.write_each.6cf1decf0b22dc4b,"ax",@progbits
	.p2align	2
	.type	nla_wire.members.write_each.6cf1decf0b22dc4b,@function
nla_wire.members.write_each.6cf1decf0b22dc4b:
	stp	x29, x30, [sp, #-96]!
	stp	x28, x27, [sp, #16]
	mov	x29, sp
	stp	x26, x25, [sp, #32]
	stp	x24, x23, [sp, #48]
	stp	x22, x21, [sp, #64]
	stp	x20, x19, [sp, #80]
	cbz	x1, .LBB65_40
	mov	x20, x2
	mov	x21, x1
	mov	x22, x0
	mov	x19, xzr
	mov	x25, xzr
	add	x23, x2, #20
	add	x24, x2, #4
	b	.LBB65_5
.LBB65_2:
	mov	x8, x25
.LBB65_3:
	strh	wzr, [x9]
	strb	wzr, [x9, #2]
.LBB65_4:
	cmp	x21, x25
	add	x19, x8, x19
	b.ls	.LBB65_41
.LBB65_5:
	sub	x21, x21, x25
	cmp	x21, #4
	b.lo	.LBB65_41
	mov	x9, x22
	add	x22, x22, x25
	mov	x8, x25
	ldrh	w27, [x22]
	cmp	w27, #4
	b.lo	.LBB65_41
	cmp	x21, x27
	b.lo	.LBB65_41
	ldrh	w28, [x22, #2]
	add	w12, w27, #3
	add	x26, x20, x19
	add	x10, x22, #4
	sub	x1, x27, #4
	and	x25, x12, #0x1fffc
	and	w11, w28, #0x3fff
	add	x12, x26, #4
	cmp	w11, #45
	b.eq	.LBB65_13
	cmp	w11, #10
	b.eq	.LBB65_12
	cmp	w11, #2
	b.ne	.LBB65_18
	add	x0, x22, #4
	add	x2, x26, #4
	bl	nla_wire.members.write_each.d7cac04ae1e23078
	add	x8, x0, #7
	add	x11, x0, #4
	mov	w9, #2
	b	.LBB65_14
.LBB65_12:
	add	x0, x22, #4
	add	x2, x26, #4
	bl	nla_wire.members.write_each.97809315b2b26985
	add	x8, x0, #7
	add	x11, x0, #4
	mov	w9, #10
	b	.LBB65_14
.LBB65_13:
	add	x0, x22, #4
	add	x2, x26, #4
	bl	nla_wire.members.write_each.7562298f77a88fdb
	add	x8, x0, #7
	add	x11, x0, #4
	mov	w9, #45
.LBB65_14:
	and	x8, x8, #0xfffffffffffffffc
	strh	w9, [x26, #2]
	add	x9, x26, x11
	sub	x10, x8, x11
	strh	w11, [x26]
	cmp	x10, #3
	b.eq	.LBB65_3
	cmp	x10, #2
	b.eq	.LBB65_24
	cmp	x10, #1
	b.ne	.LBB65_4
	strb	wzr, [x9]
	b	.LBB65_4
.LBB65_18:
	sub	x10, x12, x10
	cmp	x10, x1
	b.hs	.LBB65_25
	cmp	x1, #8
	b.lo	.LBB65_21
	add	x10, x19, x20
	add	x11, x8, x9
	sub	x10, x10, x11
	cmp	x10, #32
	b.hs	.LBB65_31
.LBB65_21:
	mov	x10, xzr
.LBB65_22:
	add	x8, x10, x8
	sub	x11, x27, x10
	add	x10, x10, x19
	add	x9, x9, x8
	sub	x8, x11, #4
	add	x10, x24, x10
	add	x9, x9, #4
.LBB65_23:
	ldrb	w11, [x9], #1
	subs	x8, x8, #1
	strb	w11, [x10], #1
	b.ne	.LBB65_23
	b	.LBB65_26
.LBB65_24:
	strh	wzr, [x9]
	b	.LBB65_4
.LBB65_25:
	add	x0, x26, #4
	add	x1, x22, #4
	sub	x2, x27, #4
	bl	memmove
.LBB65_26:
	sub	x8, x25, x27
	add	x9, x26, x27
	strh	w27, [x26]
	cmp	x8, #3
	strh	w28, [x26, #2]
	b.eq	.LBB65_2
	cmp	x8, #2
	b.eq	.LBB65_30
	cmp	x8, #1
	mov	x8, x25
	b.ne	.LBB65_4
	strb	wzr, [x9]
	mov	x8, x25
	b	.LBB65_4
.LBB65_30:
	strh	wzr, [x9]
	mov	x8, x25
	b	.LBB65_4
.LBB65_31:
	cmp	x1, #32
	b.hs	.LBB65_33
	mov	x10, xzr
	b	.LBB65_37
.LBB65_33:
	add	x13, x9, x8
	and	x11, x1, #0x18
	and	x10, x1, #0xffffffffffffffe0
	add	x12, x23, x19
	add	x13, x13, #20
	and	x14, x1, #0xffffffffffffffe0
.LBB65_34:
	ldp	q0, q1, [x13, #-16]
	subs	x14, x14, #32
	add	x13, x13, #32
	stp	q0, q1, [x12, #-16]
	add	x12, x12, #32
	b.ne	.LBB65_34
	cmp	x1, x10
	b.eq	.LBB65_26
	cbz	x11, .LBB65_22
.LBB65_37:
	mov	x11, x10
	and	x10, x1, #0xfffffffffffffff8
	add	x12, x8, x11
	add	x13, x11, x19
	sub	x11, x11, x10
	add	x12, x9, x12
	add	x13, x24, x13
	add	x12, x12, #4
.LBB65_38:
	ldr	d0, [x12], #8
	adds	x11, x11, #8
	str	d0, [x13], #8
	b.ne	.LBB65_38
	cmp	x1, x10
	b.eq	.LBB65_26
	b	.LBB65_22
.LBB65_40:
	mov	x19, xzr
.LBB65_41:
	mov	x0, x19
	ldp	x20, x19, [sp, #80]
	ldp	x22, x21, [sp, #64]
	ldp	x24, x23, [sp, #48]
	ldp	x26, x25, [sp, #32]
	ldp	x28, x27, [sp, #16]
	ldp	x29, x30, [sp], #96
	ret
.Lfunc_end65:
	.size	nla_wire.members.write_each.6cf1decf0b22dc4b, .Lfunc_end65-nla_wire.members.write_each.6cf1decf0b22dc4b

	.section	.text.nla_wire.members.write_each.d7cac04ae1e23078,"ax",@progbits
	.p2align	2
	.type	nla_wire.members.write_each.d7cac04ae1e23078,@function
nla_wire.members.write_each.d7cac04ae1e23078:
	stp	x29, x30, [sp, #-96]!
	stp	x28, x27, [sp, #16]
	mov	x29, sp
	stp	x26, x25, [sp, #32]
	stp	x24, x23, [sp, #48]
	stp	x22, x21, [sp, #64]
	stp	x20, x19, [sp, #80]
	cbz	x1, .LBB66_56
	mov	x20, x2
	mov	x21, x1
	mov	x22, x0
	mov	x19, xzr
	mov	x25, xzr
	add	x24, x2, #4
	b	.LBB66_5
.LBB66_2:
	strb	wzr, [x26, #139]
.LBB66_3:
	mov	w8, #140
	movk	w8, #1, lsl #16
	str	w8, [x26]
	mov	w8, #140
.LBB66_4:
	cmp	x21, x25
	add	x19, x8, x19
	b.ls	.LBB66_57
.LBB66_5:
	sub	x21, x21, x25
	cmp	x21, #4
	b.lo	.LBB66_57
	mov	x9, x22
	add	x22, x22, x25
	mov	x8, x25
	ldrh	w27, [x22]
	cmp	w27, #4
	b.lo	.LBB66_57
	cmp	x21, x27
	b.lo	.LBB66_57
	ldrh	w23, [x22, #2]
	add	w12, w27, #3
	add	x26, x20, x19
	add	x10, x22, #4
	sub	x28, x27, #4
	and	x25, x12, #0x1fffc
	and	w11, w23, #0x3fff
	cmp	w11, #1
	add	x11, x26, #4
	b.ne	.LBB66_16
	cmp	w27, #140
	sub	x12, x11, x10
	b.hs	.LBB66_22
	cmp	x12, x28
	b.hs	.LBB66_32
	cmp	x28, #8
	b.lo	.LBB66_13
	add	x10, x19, x20
	add	x11, x8, x9
	sub	x10, x10, x11
	cmp	x10, #32
	b.hs	.LBB66_40
.LBB66_13:
	mov	x10, xzr
.LBB66_14:
	add	x8, x10, x8
	sub	x11, x27, x10
	add	x10, x10, x19
	add	x9, x9, x8
	sub	x8, x11, #4
	add	x10, x24, x10
	add	x9, x9, #4
.LBB66_15:
	ldrb	w11, [x9], #1
	subs	x8, x8, #1
	strb	w11, [x10], #1
	b.ne	.LBB66_15
	b	.LBB66_33
.LBB66_16:
	sub	x10, x11, x10
	cmp	x10, x28
	b.hs	.LBB66_26
	cmp	x28, #8
	b.lo	.LBB66_19
	add	x10, x19, x20
	add	x11, x8, x9
	sub	x10, x10, x11
	cmp	x10, #32
	b.hs	.LBB66_37
.LBB66_19:
	mov	x10, xzr
.LBB66_20:
	add	x8, x10, x8
	sub	x11, x27, x10
	add	x10, x10, x19
	add	x9, x9, x8
	sub	x8, x11, #4
	add	x10, x24, x10
	add	x9, x9, #4
.LBB66_21:
	ldrb	w11, [x9], #1
	subs	x8, x8, #1
	strb	w11, [x10], #1
	b.ne	.LBB66_21
	b	.LBB66_27
.LBB66_22:
	cmp	x12, #135
	b.hi	.LBB66_35
	add	x10, x19, x20
	add	x8, x8, x9
	sub	x8, x10, x8
	cmp	x8, #15
	b.hi	.LBB66_39
	mov	w8, #4
.LBB66_25:
	ldrb	w9, [x22, x8]
	strb	w9, [x26, x8]
	add	x8, x8, #1
	cmp	x8, #140
	b.ne	.LBB66_25
	b	.LBB66_3
.LBB66_26:
	add	x0, x26, #4
	add	x1, x22, #4
	sub	x2, x27, #4
	bl	memmove
.LBB66_27:
	sub	x8, x25, x27
	add	x9, x26, x27
	strh	w27, [x26]
	cmp	x8, #3
	strh	w23, [x26, #2]
	b.eq	.LBB66_36
	cmp	x8, #2
	b.eq	.LBB66_31
	cmp	x8, #1
	mov	x8, x25
	b.ne	.LBB66_4
	strb	wzr, [x9]
	mov	x8, x25
	b	.LBB66_4
.LBB66_31:
	strh	wzr, [x9]
	mov	x8, x25
	b	.LBB66_4
.LBB66_32:
	add	x0, x26, #4
	add	x1, x22, #4
	sub	x2, x27, #4
	bl	memmove
.LBB66_33:
	cmp	x28, #135
	b.eq	.LBB66_2
	mov	w8, #139
	add	x0, x26, x27
	mov	w1, wzr
	sub	x2, x8, x27
	bl	memset
	b	.LBB66_2
.LBB66_35:
	ldp	q0, q1, [x10]
	ldr	x8, [x10, #128]
	ldp	q2, q3, [x10, #32]
	ldp	q4, q5, [x10, #96]
	ldp	q6, q7, [x10, #64]
	str	x8, [x11, #128]
	stp	q0, q1, [x11]
	stp	q2, q3, [x11, #32]
	stp	q6, q7, [x11, #64]
	stp	q4, q5, [x11, #96]
	b	.LBB66_3
.LBB66_36:
	mov	x8, x25
	strh	wzr, [x9]
	strb	wzr, [x9, #2]
	b	.LBB66_4
.LBB66_37:
	cmp	x28, #32
	b.hs	.LBB66_42
	mov	x10, xzr
	b	.LBB66_46
.LBB66_39:
	ldur	d0, [x22, #4]
	ldur	d1, [x22, #12]
	stur	d0, [x26, #4]
	stur	d1, [x26, #12]
	ldur	d0, [x22, #20]
	ldur	d1, [x22, #28]
	stur	d0, [x26, #20]
	stur	d1, [x26, #28]
	ldur	d0, [x22, #36]
	ldur	d1, [x22, #44]
	stur	d0, [x26, #36]
	stur	d1, [x26, #44]
	ldur	d0, [x22, #52]
	ldur	d1, [x22, #60]
	stur	d0, [x26, #52]
	stur	d1, [x26, #60]
	ldur	d0, [x22, #68]
	ldur	d1, [x22, #76]
	stur	d0, [x26, #68]
	stur	d1, [x26, #76]
	ldur	d0, [x22, #84]
	ldur	d1, [x22, #92]
	stur	d0, [x26, #84]
	stur	d1, [x26, #92]
	ldur	d0, [x22, #100]
	ldur	d1, [x22, #108]
	stur	d0, [x26, #100]
	stur	d1, [x26, #108]
	ldur	d0, [x22, #116]
	ldur	d1, [x22, #124]
	stur	d0, [x26, #116]
	stur	d1, [x26, #124]
	ldur	d0, [x22, #132]
	stur	d0, [x26, #132]
	b	.LBB66_3
.LBB66_40:
	cmp	x28, #32
	b.hs	.LBB66_49
	mov	x10, xzr
	b	.LBB66_53
.LBB66_42:
	add	x13, x9, x8
	add	x12, x20, #20
	and	x11, x28, #0x18
	and	x10, x28, #0xffffffffffffffe0
	add	x12, x12, x19
	add	x13, x13, #20
	and	x14, x28, #0xffffffffffffffe0
.LBB66_43:
	ldp	q0, q1, [x13, #-16]
	subs	x14, x14, #32
	add	x13, x13, #32
	stp	q0, q1, [x12, #-16]
	add	x12, x12, #32
	b.ne	.LBB66_43
	cmp	x28, x10
	b.eq	.LBB66_27
	cbz	x11, .LBB66_20
.LBB66_46:
	mov	x11, x10
	and	x10, x28, #0xfffffffffffffff8
	add	x12, x8, x11
	add	x13, x11, x19
	sub	x11, x11, x10
	add	x12, x9, x12
	add	x13, x24, x13
	add	x12, x12, #4
.LBB66_47:
	ldr	d0, [x12], #8
	adds	x11, x11, #8
	str	d0, [x13], #8
	b.ne	.LBB66_47
	cmp	x28, x10
	b.eq	.LBB66_27
	b	.LBB66_20
.LBB66_49:
	add	x13, x9, x8
	add	x12, x20, #20
	and	x11, x28, #0x18
	and	x10, x28, #0xffffffffffffffe0
	add	x12, x12, x19
	add	x13, x13, #20
	and	x14, x28, #0xffffffffffffffe0
.LBB66_50:
	ldp	q0, q1, [x13, #-16]
	subs	x14, x14, #32
	add	x13, x13, #32
	stp	q0, q1, [x12, #-16]
	add	x12, x12, #32
	b.ne	.LBB66_50
	cmp	x28, x10
	b.eq	.LBB66_33
	cbz	x11, .LBB66_14
.LBB66_53:
	mov	x11, x10
	and	x10, x28, #0xfffffffffffffff8
	add	x12, x8, x11
	add	x13, x11, x19
	sub	x11, x11, x10
	add	x12, x9, x12
	add	x13, x24, x13
	add	x12, x12, #4
.LBB66_54:
	ldr	d0, [x12], #8
	adds	x11, x11, #8
	str	d0, [x13], #8
	b.ne	.LBB66_54
	cmp	x28, x10
	b.eq	.LBB66_33
	b	.LBB66_14
.LBB66_56:
	mov	x19, xzr
.LBB66_57:
	mov	x0, x19
	ldp	x20, x19, [sp, #80]
	ldp	x22, x21, [sp, #64]
	ldp	x24, x23, [sp, #48]
	ldp	x26, x25, [sp, #32]
	ldp	x28, x27, [sp, #16]
	ldp	x29, x30, [sp], #96
	ret
.Lfunc_end66:
	.size	nla_wire.members.write_each.d7cac04ae1e23078, .Lfunc_end66-nla_wire.members.write_each.d7cac04ae1e23078

	.section	.text.nla_wire.members.write_each.97809315b2b26985,"ax",@progbits
	.p2align	2
	.type	nla_wire.members.write_each.97809315b2b26985,@function
nla_wire.members.write_each.97809315b2b26985:
	stp	x29, x30, [sp, #-96]!
	stp	x28, x27, [sp, #16]
	mov	x29, sp
	stp	x26, x25, [sp, #32]
	stp	x24, x23, [sp, #48]
	stp	x22, x21, [sp, #64]
	stp	x20, x19, [sp, #80]
	cbz	x1, .LBB67_156
	mov	x20, x2
	mov	x21, x1
	mov	x22, x0
	mov	x19, xzr
	mov	x25, xzr
	add	x24, x2, #4
	b	.LBB67_5
.LBB67_2:
	ldrb	w8, [x10]
	mov	w9, #5
	sturh	wzr, [x26, #5]
	movk	w9, #8, lsl #16
	strb	wzr, [x26, #7]
	str	w9, [x26]
	strb	w8, [x26, #4]
.LBB67_3:
	mov	w8, #8
.LBB67_4:
	cmp	x21, x25
	add	x19, x8, x19
	b.ls	.LBB67_157
.LBB67_5:
	sub	x21, x21, x25
	cmp	x21, #4
	b.lo	.LBB67_157
	mov	x8, x22
	add	x22, x22, x25
	mov	x9, x25
	ldrh	w27, [x22]
	cmp	w27, #4
	b.lo	.LBB67_157
	cmp	x21, x27
	b.lo	.LBB67_157
	ldrh	w23, [x22, #2]
	add	w12, w27, #3
	add	x10, x22, #4
	sub	x28, x27, #4
	and	x25, x12, #0x1fffc
	add	x26, x20, x19
	and	w11, w23, #0x3fff
	cmp	w11, #5
	b.gt	.LBB67_19
	cmp	w11, #2
	b.gt	.LBB67_24
	cmp	w11, #1
	b.eq	.LBB67_37
	cmp	w11, #2
	b.ne	.LBB67_53
	add	x11, x26, #4
	cmp	w27, #244
	sub	x12, x11, x10
	b.hs	.LBB67_67
	cmp	x12, x28
	b.hs	.LBB67_93
	cmp	x28, #8
	b.lo	.LBB67_16
	add	x10, x19, x20
	add	x11, x9, x8
	sub	x10, x10, x11
	cmp	x10, #32
	b.hs	.LBB67_117
.LBB67_16:
	mov	x10, xzr
.LBB67_17:
	add	x9, x10, x9
	sub	x11, x27, x10
	add	x10, x10, x19
	add	x9, x8, x9
	sub	x8, x11, #4
	add	x10, x24, x10
	add	x9, x9, #4
.LBB67_18:
	ldrb	w11, [x9], #1
	subs	x8, x8, #1
	strb	w11, [x10], #1
	b.ne	.LBB67_18
	b	.LBB67_94
.LBB67_19:
	cmp	w11, #7
	b.gt	.LBB67_33
	cmp	w11, #6
	b.eq	.LBB67_39
	cmp	w11, #7
	b.ne	.LBB67_53
	add	x8, x26, #4
	sub	x9, x8, x10
	cmp	x9, #15
	b.hi	.LBB67_71
	ldrb	w8, [x22, #4]
	strb	w8, [x26, #4]
	ldrb	w8, [x22, #5]
	strb	w8, [x26, #5]
	ldrb	w8, [x22, #6]
	strb	w8, [x26, #6]
	ldrb	w8, [x22, #7]
	strb	w8, [x26, #7]
	ldrb	w8, [x22, #8]
	strb	w8, [x26, #8]
	ldrb	w8, [x22, #9]
	strb	w8, [x26, #9]
	ldrb	w8, [x22, #10]
	strb	w8, [x26, #10]
	ldrb	w8, [x22, #11]
	strb	w8, [x26, #11]
	ldrb	w8, [x22, #12]
	strb	w8, [x26, #12]
	ldrb	w8, [x22, #13]
	strb	w8, [x26, #13]
	ldrb	w8, [x22, #14]
	strb	w8, [x26, #14]
	ldrb	w8, [x22, #15]
	strb	w8, [x26, #15]
	ldrb	w8, [x22, #16]
	strb	w8, [x26, #16]
	ldrb	w8, [x22, #17]
	strb	w8, [x26, #17]
	ldrb	w8, [x22, #18]
	strb	w8, [x26, #18]
	ldrb	w8, [x22, #19]
	strb	w8, [x26, #19]
	mov	w8, #20
	movk	w8, #7, lsl #16
	b	.LBB67_104
.LBB67_24:
	cmp	w11, #3
	b.eq	.LBB67_46
	cmp	w11, #5
	b.ne	.LBB67_53
	add	x11, x26, #4
	cmp	w27, #20
	sub	x12, x11, x10
	b.hs	.LBB67_72
	cmp	x12, x28
	b.hs	.LBB67_97
	cmp	x28, #8
	b.lo	.LBB67_30
	add	x10, x19, x20
	add	x11, x9, x8
	sub	x10, x10, x11
	cmp	x10, #32
	b.hs	.LBB67_119
.LBB67_30:
	mov	x10, xzr
.LBB67_31:
	add	x9, x10, x9
	sub	x11, x27, x10
	add	x10, x10, x19
	add	x9, x8, x9
	sub	x8, x11, #4
	add	x10, x24, x10
	add	x9, x9, #4
.LBB67_32:
	ldrb	w11, [x9], #1
	subs	x8, x8, #1
	strb	w11, [x10], #1
	b.ne	.LBB67_32
	b	.LBB67_98
.LBB67_33:
	cmp	w11, #8
	b.eq	.LBB67_2
	cmp	w11, #9
	b.ne	.LBB67_53
	add	x8, x26, #4
	sub	x9, x8, x10
	cmp	x9, #3
	b.hi	.LBB67_74
	ldrb	w8, [x22, #4]
	strb	w8, [x26, #4]
	ldrb	w8, [x22, #5]
	strb	w8, [x26, #5]
	ldrb	w8, [x22, #6]
	strb	w8, [x26, #6]
	ldrb	w8, [x22, #7]
	strb	w8, [x26, #7]
	b	.LBB67_75
.LBB67_37:
	add	x8, x26, #4
	sub	x9, x8, x10
	cmp	x9, #3
	b.hi	.LBB67_59
	ldrb	w8, [x22, #4]
	strb	w8, [x26, #4]
	ldrb	w8, [x22, #5]
	strb	w8, [x26, #5]
	ldrb	w8, [x22, #6]
	strb	w8, [x26, #6]
	ldrb	w8, [x22, #7]
	strb	w8, [x26, #7]
	b	.LBB67_60
.LBB67_39:
	add	x11, x26, #4
	cmp	w27, #60
	sub	x12, x11, x10
	b.hs	.LBB67_61
	cmp	x12, x28
	b.hs	.LBB67_82
	cmp	x28, #8
	b.lo	.LBB67_43
	add	x10, x19, x20
	add	x11, x9, x8
	sub	x10, x10, x11
	cmp	x10, #32
	b.hs	.LBB67_113
.LBB67_43:
	mov	x10, xzr
.LBB67_44:
	add	x9, x10, x9
	sub	x11, x27, x10
	add	x10, x10, x19
	add	x9, x8, x9
	sub	x8, x11, #4
	add	x10, x24, x10
	add	x9, x9, #4
.LBB67_45:
	ldrb	w11, [x9], #1
	subs	x8, x8, #1
	strb	w11, [x10], #1
	b.ne	.LBB67_45
	b	.LBB67_83
.LBB67_46:
	add	x11, x26, #4
	cmp	w27, #316
	sub	x10, x11, x10
	b.hs	.LBB67_63
	cmp	x10, x28
	b.hs	.LBB67_86
	cmp	x28, #8
	b.lo	.LBB67_50
	add	x10, x19, x20
	add	x11, x9, x8
	sub	x10, x10, x11
	cmp	x10, #32
	b.hs	.LBB67_115
.LBB67_50:
	mov	x10, xzr
.LBB67_51:
	add	x9, x10, x9
	sub	x11, x27, x10
	add	x10, x10, x19
	add	x9, x8, x9
	sub	x8, x11, #4
	add	x10, x24, x10
	add	x9, x9, #4
.LBB67_52:
	ldrb	w11, [x9], #1
	subs	x8, x8, #1
	strb	w11, [x10], #1
	b.ne	.LBB67_52
	b	.LBB67_87
.LBB67_53:
	add	x11, x26, #4
	sub	x10, x11, x10
	cmp	x10, x28
	b.hs	.LBB67_77
	cmp	x28, #8
	b.lo	.LBB67_56
	add	x10, x19, x20
	add	x11, x9, x8
	sub	x10, x10, x11
	cmp	x10, #32
	b.hs	.LBB67_111
.LBB67_56:
	mov	x10, xzr
.LBB67_57:
	add	x9, x10, x9
	sub	x11, x27, x10
	add	x10, x10, x19
	add	x9, x8, x9
	sub	x8, x11, #4
	add	x10, x24, x10
	add	x9, x9, #4
.LBB67_58:
	ldrb	w11, [x9], #1
	subs	x8, x8, #1
	strb	w11, [x10], #1
	b.ne	.LBB67_58
	b	.LBB67_78
.LBB67_59:
	ldr	w9, [x10]
	str	w9, [x8]
.LBB67_60:
	mov	w8, #8
	movk	w8, #1, lsl #16
	b	.LBB67_76
.LBB67_61:
	cmp	x12, #55
	b.hi	.LBB67_90
	ldrb	w8, [x22, #4]
	strb	w8, [x26, #4]
	ldrb	w8, [x22, #5]
	strb	w8, [x26, #5]
	ldrb	w8, [x22, #6]
	strb	w8, [x26, #6]
	ldrb	w8, [x22, #7]
	strb	w8, [x26, #7]
	ldrb	w8, [x22, #8]
	strb	w8, [x26, #8]
	ldrb	w8, [x22, #9]
	strb	w8, [x26, #9]
	ldrb	w8, [x22, #10]
	strb	w8, [x26, #10]
	ldrb	w8, [x22, #11]
	strb	w8, [x26, #11]
	ldrb	w8, [x22, #12]
	strb	w8, [x26, #12]
	ldrb	w8, [x22, #13]
	strb	w8, [x26, #13]
	ldrb	w8, [x22, #14]
	strb	w8, [x26, #14]
	ldrb	w8, [x22, #15]
	strb	w8, [x26, #15]
	ldrb	w8, [x22, #16]
	strb	w8, [x26, #16]
	ldrb	w8, [x22, #17]
	strb	w8, [x26, #17]
	ldrb	w8, [x22, #18]
	strb	w8, [x26, #18]
	ldrb	w8, [x22, #19]
	strb	w8, [x26, #19]
	ldrb	w8, [x22, #20]
	strb	w8, [x26, #20]
	ldrb	w8, [x22, #21]
	strb	w8, [x26, #21]
	ldrb	w8, [x22, #22]
	strb	w8, [x26, #22]
	ldrb	w8, [x22, #23]
	strb	w8, [x26, #23]
	ldrb	w8, [x22, #24]
	strb	w8, [x26, #24]
	ldrb	w8, [x22, #25]
	strb	w8, [x26, #25]
	ldrb	w8, [x22, #26]
	strb	w8, [x26, #26]
	ldrb	w8, [x22, #27]
	strb	w8, [x26, #27]
	ldrb	w8, [x22, #28]
	strb	w8, [x26, #28]
	ldrb	w8, [x22, #29]
	strb	w8, [x26, #29]
	ldrb	w8, [x22, #30]
	strb	w8, [x26, #30]
	ldrb	w8, [x22, #31]
	strb	w8, [x26, #31]
	ldrb	w8, [x22, #32]
	strb	w8, [x26, #32]
	ldrb	w8, [x22, #33]
	strb	w8, [x26, #33]
	ldrb	w8, [x22, #34]
	strb	w8, [x26, #34]
	ldrb	w8, [x22, #35]
	strb	w8, [x26, #35]
	ldrb	w8, [x22, #36]
	strb	w8, [x26, #36]
	ldrb	w8, [x22, #37]
	strb	w8, [x26, #37]
	ldrb	w8, [x22, #38]
	strb	w8, [x26, #38]
	ldrb	w8, [x22, #39]
	strb	w8, [x26, #39]
	ldrb	w8, [x22, #40]
	strb	w8, [x26, #40]
	ldrb	w8, [x22, #41]
	strb	w8, [x26, #41]
	ldrb	w8, [x22, #42]
	strb	w8, [x26, #42]
	ldrb	w8, [x22, #43]
	strb	w8, [x26, #43]
	ldrb	w8, [x22, #44]
	strb	w8, [x26, #44]
	ldrb	w8, [x22, #45]
	strb	w8, [x26, #45]
	ldrb	w8, [x22, #46]
	strb	w8, [x26, #46]
	ldrb	w8, [x22, #47]
	strb	w8, [x26, #47]
	ldrb	w8, [x22, #48]
	strb	w8, [x26, #48]
	ldrb	w8, [x22, #49]
	strb	w8, [x26, #49]
	ldrb	w8, [x22, #50]
	strb	w8, [x26, #50]
	ldrb	w8, [x22, #51]
	strb	w8, [x26, #51]
	ldrb	w8, [x22, #52]
	strb	w8, [x26, #52]
	ldrb	w8, [x22, #53]
	strb	w8, [x26, #53]
	ldrb	w8, [x22, #54]
	strb	w8, [x26, #54]
	ldrb	w8, [x22, #55]
	strb	w8, [x26, #55]
	ldrb	w8, [x22, #56]
	strb	w8, [x26, #56]
	ldrb	w8, [x22, #57]
	strb	w8, [x26, #57]
	ldrb	w8, [x22, #58]
	strb	w8, [x26, #58]
	ldrb	w8, [x22, #59]
	strb	w8, [x26, #59]
	b	.LBB67_91
.LBB67_63:
	cmp	x10, #311
	b.hi	.LBB67_92
	add	x10, x19, x20
	add	x8, x9, x8
	sub	x8, x10, x8
	cmp	x8, #31
	b.hi	.LBB67_107
	mov	w8, #4
.LBB67_66:
	ldrb	w9, [x22, x8]
	strb	w9, [x26, x8]
	add	x8, x8, #1
	cmp	x8, #316
	b.ne	.LBB67_66
	b	.LBB67_108
.LBB67_67:
	cmp	x12, #239
	b.hi	.LBB67_101
	add	x10, x19, x20
	add	x8, x9, x8
	sub	x8, x10, x8
	cmp	x8, #31
	b.hi	.LBB67_109
	mov	w8, #4
.LBB67_70:
	ldrb	w9, [x22, x8]
	strb	w9, [x26, x8]
	add	x8, x8, #1
	cmp	x8, #244
	b.ne	.LBB67_70
	b	.LBB67_110
.LBB67_71:
	ldr	q0, [x10]
	str	q0, [x8]
	mov	w8, #20
	movk	w8, #7, lsl #16
	b	.LBB67_104
.LBB67_72:
	cmp	x12, #15
	b.hi	.LBB67_102
	ldrb	w8, [x22, #4]
	strb	w8, [x26, #4]
	ldrb	w8, [x22, #5]
	strb	w8, [x26, #5]
	ldrb	w8, [x22, #6]
	strb	w8, [x26, #6]
	ldrb	w8, [x22, #7]
	strb	w8, [x26, #7]
	ldrb	w8, [x22, #8]
	strb	w8, [x26, #8]
	ldrb	w8, [x22, #9]
	strb	w8, [x26, #9]
	ldrb	w8, [x22, #10]
	strb	w8, [x26, #10]
	ldrb	w8, [x22, #11]
	strb	w8, [x26, #11]
	ldrb	w8, [x22, #12]
	strb	w8, [x26, #12]
	ldrb	w8, [x22, #13]
	strb	w8, [x26, #13]
	ldrb	w8, [x22, #14]
	strb	w8, [x26, #14]
	ldrb	w8, [x22, #15]
	strb	w8, [x26, #15]
	ldrb	w8, [x22, #16]
	strb	w8, [x26, #16]
	ldrb	w8, [x22, #17]
	strb	w8, [x26, #17]
	ldrb	w8, [x22, #18]
	strb	w8, [x26, #18]
	ldrb	w8, [x22, #19]
	strb	w8, [x26, #19]
	b	.LBB67_103
.LBB67_74:
	ldr	w9, [x10]
	str	w9, [x8]
.LBB67_75:
	mov	w8, #8
	movk	w8, #9, lsl #16
.LBB67_76:
	str	w8, [x26]
	b	.LBB67_3
.LBB67_77:
	add	x0, x26, #4
	add	x1, x22, #4
	sub	x2, x27, #4
	bl	memmove
.LBB67_78:
	sub	x8, x25, x27
	add	x9, x26, x27
	strh	w27, [x26]
	cmp	x8, #3
	strh	w23, [x26, #2]
	b.eq	.LBB67_106
	cmp	x8, #2
	b.eq	.LBB67_105
	cmp	x8, #1
	mov	x8, x25
	b.ne	.LBB67_4
	strb	wzr, [x9]
	mov	x8, x25
	b	.LBB67_4
.LBB67_82:
	add	x0, x26, #4
	add	x1, x22, #4
	sub	x2, x27, #4
	bl	memmove
.LBB67_83:
	cmp	x28, #55
	b.eq	.LBB67_85
	mov	w8, #59
	add	x0, x26, x27
	mov	w1, wzr
	sub	x2, x8, x27
	bl	memset
.LBB67_85:
	strb	wzr, [x26, #59]
	b	.LBB67_91
.LBB67_86:
	add	x0, x26, #4
	add	x1, x22, #4
	sub	x2, x27, #4
	bl	memmove
.LBB67_87:
	cmp	x28, #311
	b.eq	.LBB67_89
	mov	w8, #315
	add	x0, x26, x27
	mov	w1, wzr
	sub	x2, x8, x27
	bl	memset
.LBB67_89:
	strb	wzr, [x26, #315]
	b	.LBB67_108
.LBB67_90:
	ldp	q2, q0, [x10, #16]
	ldr	x8, [x10, #48]
	ldr	q1, [x10]
	str	x8, [x11, #48]
	stp	q2, q0, [x11, #16]
	str	q1, [x11]
.LBB67_91:
	mov	w8, #60
	movk	w8, #6, lsl #16
	str	w8, [x26]
	mov	w8, #60
	b	.LBB67_4
.LBB67_92:
	add	x0, x26, #4
	add	x1, x22, #4
	mov	w2, #312
	bl	memmove
	b	.LBB67_108
.LBB67_93:
	add	x0, x26, #4
	add	x1, x22, #4
	sub	x2, x27, #4
	bl	memmove
.LBB67_94:
	cmp	x28, #239
	b.eq	.LBB67_96
	mov	w8, #243
	add	x0, x26, x27
	mov	w1, wzr
	sub	x2, x8, x27
	bl	memset
.LBB67_96:
	strb	wzr, [x26, #243]
	b	.LBB67_110
.LBB67_97:
	add	x0, x26, #4
	add	x1, x22, #4
	sub	x2, x27, #4
	bl	memmove
.LBB67_98:
	cmp	x28, #15
	b.eq	.LBB67_100
	mov	w8, #19
	add	x0, x26, x27
	mov	w1, wzr
	sub	x2, x8, x27
	bl	memset
.LBB67_100:
	strb	wzr, [x26, #19]
	b	.LBB67_103
.LBB67_101:
	ldp	q0, q1, [x10]
	ldr	q21, [x10, #160]
	ldp	q2, q3, [x10, #32]
	ldp	q4, q5, [x10, #64]
	ldp	q6, q7, [x10, #96]
	ldp	q20, q16, [x10, #208]
	ldp	q17, q18, [x10, #128]
	ldp	q22, q19, [x10, #176]
	stp	q1, q2, [x11, #16]
	stp	q3, q4, [x11, #48]
	stp	q5, q6, [x11, #80]
	stp	q7, q17, [x11, #112]
	stp	q18, q21, [x11, #144]
	stp	q22, q19, [x11, #176]
	stp	q20, q16, [x11, #208]
	str	q0, [x11]
	b	.LBB67_110
.LBB67_102:
	ldr	q0, [x10]
	str	q0, [x11]
.LBB67_103:
	mov	w8, #20
	movk	w8, #5, lsl #16
.LBB67_104:
	str	w8, [x26]
	mov	w8, #20
	b	.LBB67_4
.LBB67_105:
	strh	wzr, [x9]
	mov	x8, x25
	b	.LBB67_4
.LBB67_106:
	mov	x8, x25
	strh	wzr, [x9]
	strb	wzr, [x9, #2]
	b	.LBB67_4
.LBB67_107:
	ldur	q0, [x22, #4]
	ldur	q1, [x22, #20]
	add	x8, x22, #260
	add	x9, x22, #276
	stur	q0, [x26, #4]
	stur	q1, [x26, #20]
	ldur	q0, [x22, #36]
	ldur	q1, [x22, #52]
	stur	q0, [x26, #36]
	stur	q1, [x26, #52]
	ldur	q0, [x22, #68]
	ldur	q1, [x22, #84]
	stur	q0, [x26, #68]
	stur	q1, [x26, #84]
	ldur	q0, [x22, #100]
	ldur	q1, [x22, #116]
	stur	q0, [x26, #100]
	stur	q1, [x26, #116]
	ldur	q0, [x22, #132]
	ldur	q1, [x22, #148]
	stur	q0, [x26, #132]
	stur	q1, [x26, #148]
	ldur	q0, [x22, #164]
	ldur	q1, [x22, #180]
	stur	q0, [x26, #164]
	stur	q1, [x26, #180]
	ldur	q0, [x22, #196]
	ldur	q1, [x22, #212]
	stur	q0, [x26, #196]
	stur	q1, [x26, #212]
	ldur	q0, [x22, #228]
	ldur	q1, [x22, #244]
	stur	q0, [x26, #228]
	stur	q1, [x26, #244]
	ldr	q0, [x8]
	ldr	q1, [x9]
	add	x8, x26, #260
	add	x9, x26, #276
	str	q0, [x8]
	add	x8, x22, #292
	str	q1, [x9]
	ldr	d0, [x8]
	add	x8, x26, #292
	str	d0, [x8]
	add	x8, x22, #300
	ldr	d0, [x8]
	add	x8, x26, #300
	str	d0, [x8]
	add	x8, x22, #308
	ldr	d0, [x8]
	add	x8, x26, #308
	str	d0, [x8]
.LBB67_108:
	mov	w8, #316
	movk	w8, #3, lsl #16
	str	w8, [x26]
	mov	w8, #316
	b	.LBB67_4
.LBB67_109:
	ldur	q0, [x22, #4]
	ldur	q1, [x22, #20]
	stur	q0, [x26, #4]
	stur	q1, [x26, #20]
	ldur	q0, [x22, #36]
	ldur	q1, [x22, #52]
	stur	q0, [x26, #36]
	stur	q1, [x26, #52]
	ldur	q0, [x22, #68]
	ldur	q1, [x22, #84]
	stur	q0, [x26, #68]
	stur	q1, [x26, #84]
	ldur	q0, [x22, #100]
	ldur	q1, [x22, #116]
	stur	q0, [x26, #100]
	stur	q1, [x26, #116]
	ldur	q0, [x22, #132]
	ldur	q1, [x22, #148]
	stur	q0, [x26, #132]
	stur	q1, [x26, #148]
	ldur	q0, [x22, #164]
	ldur	q1, [x22, #180]
	stur	q0, [x26, #164]
	stur	q1, [x26, #180]
	ldur	q0, [x22, #196]
	ldur	q1, [x22, #212]
	stur	q0, [x26, #196]
	stur	q1, [x26, #212]
	ldur	q0, [x22, #228]
	stur	q0, [x26, #228]
.LBB67_110:
	mov	w8, #244
	movk	w8, #2, lsl #16
	str	w8, [x26]
	mov	w8, #244
	b	.LBB67_4
.LBB67_111:
	cmp	x28, #32
	b.hs	.LBB67_121
	mov	x10, xzr
	b	.LBB67_125
.LBB67_113:
	cmp	x28, #32
	b.hs	.LBB67_128
	mov	x10, xzr
	b	.LBB67_132
.LBB67_115:
	cmp	x28, #32
	b.hs	.LBB67_135
	mov	x10, xzr
	b	.LBB67_139
.LBB67_117:
	cmp	x28, #32
	b.hs	.LBB67_142
	mov	x10, xzr
	b	.LBB67_146
.LBB67_119:
	cmp	x28, #32
	b.hs	.LBB67_149
	mov	x10, xzr
	b	.LBB67_153
.LBB67_121:
	add	x13, x8, x9
	add	x12, x20, #20
	and	x11, x28, #0x18
	and	x10, x28, #0xffffffffffffffe0
	add	x12, x12, x19
	add	x13, x13, #20
	and	x14, x28, #0xffffffffffffffe0
.LBB67_122:
	ldp	q0, q1, [x13, #-16]
	subs	x14, x14, #32
	add	x13, x13, #32
	stp	q0, q1, [x12, #-16]
	add	x12, x12, #32
	b.ne	.LBB67_122
	cmp	x28, x10
	b.eq	.LBB67_78
	cbz	x11, .LBB67_57
.LBB67_125:
	mov	x11, x10
	and	x10, x28, #0xfffffffffffffff8
	add	x12, x9, x11
	add	x13, x11, x19
	sub	x11, x11, x10
	add	x12, x8, x12
	add	x13, x24, x13
	add	x12, x12, #4
.LBB67_126:
	ldr	d0, [x12], #8
	adds	x11, x11, #8
	str	d0, [x13], #8
	b.ne	.LBB67_126
	cmp	x28, x10
	b.eq	.LBB67_78
	b	.LBB67_57
.LBB67_128:
	add	x13, x8, x9
	add	x12, x20, #20
	and	x11, x28, #0x18
	and	x10, x28, #0xffffffffffffffe0
	add	x12, x12, x19
	add	x13, x13, #20
	and	x14, x28, #0xffffffffffffffe0
.LBB67_129:
	ldp	q0, q1, [x13, #-16]
	subs	x14, x14, #32
	add	x13, x13, #32
	stp	q0, q1, [x12, #-16]
	add	x12, x12, #32
	b.ne	.LBB67_129
	cmp	x28, x10
	b.eq	.LBB67_83
	cbz	x11, .LBB67_44
.LBB67_132:
	mov	x11, x10
	and	x10, x28, #0xfffffffffffffff8
	add	x12, x9, x11
	add	x13, x11, x19
	sub	x11, x11, x10
	add	x12, x8, x12
	add	x13, x24, x13
	add	x12, x12, #4
.LBB67_133:
	ldr	d0, [x12], #8
	adds	x11, x11, #8
	str	d0, [x13], #8
	b.ne	.LBB67_133
	cmp	x28, x10
	b.eq	.LBB67_83
	b	.LBB67_44
.LBB67_135:
	add	x13, x8, x9
	add	x12, x20, #20
	and	x11, x28, #0x18
	and	x10, x28, #0xffffffffffffffe0
	add	x12, x12, x19
	add	x13, x13, #20
	and	x14, x28, #0xffffffffffffffe0
.LBB67_136:
	ldp	q0, q1, [x13, #-16]
	subs	x14, x14, #32
	add	x13, x13, #32
	stp	q0, q1, [x12, #-16]
	add	x12, x12, #32
	b.ne	.LBB67_136
	cmp	x28, x10
	b.eq	.LBB67_87
	cbz	x11, .LBB67_51
.LBB67_139:
	mov	x11, x10
	and	x10, x28, #0xfffffffffffffff8
	add	x12, x9, x11
	add	x13, x11, x19
	sub	x11, x11, x10
	add	x12, x8, x12
	add	x13, x24, x13
	add	x12, x12, #4
.LBB67_140:
	ldr	d0, [x12], #8
	adds	x11, x11, #8
	str	d0, [x13], #8
	b.ne	.LBB67_140
	cmp	x28, x10
	b.eq	.LBB67_87
	b	.LBB67_51
.LBB67_142:
	add	x13, x8, x9
	add	x12, x20, #20
	and	x11, x28, #0x18
	and	x10, x28, #0xffffffffffffffe0
	add	x12, x12, x19
	add	x13, x13, #20
	and	x14, x28, #0xffffffffffffffe0
.LBB67_143:
	ldp	q0, q1, [x13, #-16]
	subs	x14, x14, #32
	add	x13, x13, #32
	stp	q0, q1, [x12, #-16]
	add	x12, x12, #32
	b.ne	.LBB67_143
	cmp	x28, x10
	b.eq	.LBB67_94
	cbz	x11, .LBB67_17
.LBB67_146:
	mov	x11, x10
	and	x10, x28, #0xfffffffffffffff8
	add	x12, x9, x11
	add	x13, x11, x19
	sub	x11, x11, x10
	add	x12, x8, x12
	add	x13, x24, x13
	add	x12, x12, #4
.LBB67_147:
	ldr	d0, [x12], #8
	adds	x11, x11, #8
	str	d0, [x13], #8
	b.ne	.LBB67_147
	cmp	x28, x10
	b.eq	.LBB67_94
	b	.LBB67_17
.LBB67_149:
	add	x13, x8, x9
	add	x12, x20, #20
	and	x11, x28, #0x18
	and	x10, x28, #0xffffffffffffffe0
	add	x12, x12, x19
	add	x13, x13, #20
	and	x14, x28, #0xffffffffffffffe0
.LBB67_150:
	ldp	q0, q1, [x13, #-16]
	subs	x14, x14, #32
	add	x13, x13, #32
	stp	q0, q1, [x12, #-16]
	add	x12, x12, #32
	b.ne	.LBB67_150
	cmp	x28, x10
	b.eq	.LBB67_98
	cbz	x11, .LBB67_31
.LBB67_153:
	mov	x11, x10
	and	x10, x28, #0xfffffffffffffff8
	add	x12, x9, x11
	add	x13, x11, x19
	sub	x11, x11, x10
	add	x12, x8, x12
	add	x13, x24, x13
	add	x12, x12, #4
.LBB67_154:
	ldr	d0, [x12], #8
	adds	x11, x11, #8
	str	d0, [x13], #8
	b.ne	.LBB67_154
	cmp	x28, x10
	b.eq	.LBB67_98
	b	.LBB67_31
.LBB67_156:
	mov	x19, xzr
.LBB67_157:
	mov	x0, x19
	ldp	x20, x19, [sp, #80]
	ldp	x22, x21, [sp, #64]
	ldp	x24, x23, [sp, #48]
	ldp	x26, x25, [sp, #32]
	ldp	x28, x27, [sp, #16]
	ldp	x29, x30, [sp], #96
	ret
.Lfunc_end67:
	.size	nla_wire.members.write_each.97809315b2b26985, .Lfunc_end67-nla_wire.members.write_each.97809315b2b26985

	.section	.text.nla_wire.members.write_each.7562298f77a88fdb,"ax",@progbits
	.p2align	2
	.type	nla_wire.members.write_each.7562298f77a88fdb,@function
nla_wire.members.write_each.7562298f77a88fdb:
	stp	x29, x30, [sp, #-96]!
	stp	x28, x27, [sp, #16]
	mov	x29, sp
	stp	x26, x25, [sp, #32]
	stp	x24, x23, [sp, #48]
	stp	x22, x21, [sp, #64]
	stp	x20, x19, [sp, #80]
	cbz	x1, .LBB68_36
	mov	x20, x2
	mov	x21, x1
	mov	x22, x0
	mov	x19, xzr
	mov	x25, xzr
	add	x23, x2, #20
	add	x24, x2, #4
	b	.LBB68_5
.LBB68_2:
	ldrb	w8, [x11]
	mov	w9, #5
	sturh	wzr, [x26, #5]
	movk	w9, #2, lsl #16
	strb	wzr, [x26, #7]
	str	w9, [x26]
	strb	w8, [x26, #4]
.LBB68_3:
	mov	w8, #8
.LBB68_4:
	cmp	x21, x25
	add	x19, x8, x19
	b.ls	.LBB68_37
.LBB68_5:
	sub	x21, x21, x25
	cmp	x21, #4
	b.lo	.LBB68_37
	mov	x9, x22
	add	x22, x22, x25
	mov	x8, x25
	ldrh	w27, [x22]
	cmp	w27, #4
	b.lo	.LBB68_37
	cmp	x21, x27
	b.lo	.LBB68_37
	ldrh	w28, [x22, #2]
	add	w12, w27, #3
	add	x11, x22, #4
	and	x25, x12, #0x1fffc
	add	x26, x20, x19
	and	w10, w28, #0x3fff
	cmp	w10, #2
	b.eq	.LBB68_2
	cmp	w10, #1
	add	x12, x26, #4
	b.ne	.LBB68_12
	sub	x8, x12, x11
	cmp	x8, #3
	b.hi	.LBB68_18
	ldrb	w8, [x22, #4]
	strb	w8, [x26, #4]
	ldrb	w8, [x22, #5]
	strb	w8, [x26, #5]
	ldrb	w8, [x22, #6]
	strb	w8, [x26, #6]
	ldrb	w8, [x22, #7]
	strb	w8, [x26, #7]
	b	.LBB68_19
.LBB68_12:
	sub	x10, x27, #4
	sub	x11, x12, x11
	cmp	x11, x10
	b.hs	.LBB68_20
	cmp	x10, #8
	b.lo	.LBB68_15
	add	x11, x19, x20
	add	x12, x8, x9
	sub	x11, x11, x12
	cmp	x11, #32
	b.hs	.LBB68_27
.LBB68_15:
	mov	x11, xzr
.LBB68_16:
	add	x8, x11, x8
	sub	x10, x27, x11
	add	x11, x11, x19
	add	x9, x9, x8
	sub	x8, x10, #4
	add	x10, x24, x11
	add	x9, x9, #4
.LBB68_17:
	ldrb	w11, [x9], #1
	subs	x8, x8, #1
	strb	w11, [x10], #1
	b.ne	.LBB68_17
	b	.LBB68_21
.LBB68_18:
	ldr	w8, [x11]
	str	w8, [x12]
.LBB68_19:
	mov	w8, #8
	movk	w8, #1, lsl #16
	str	w8, [x26]
	b	.LBB68_3
.LBB68_20:
	add	x0, x26, #4
	add	x1, x22, #4
	sub	x2, x27, #4
	bl	memmove
.LBB68_21:
	sub	x8, x25, x27
	add	x9, x26, x27
	strh	w27, [x26]
	cmp	x8, #3
	strh	w28, [x26, #2]
	b.eq	.LBB68_26
	cmp	x8, #2
	b.eq	.LBB68_25
	cmp	x8, #1
	mov	x8, x25
	b.ne	.LBB68_4
	strb	wzr, [x9]
	mov	x8, x25
	b	.LBB68_4
.LBB68_25:
	strh	wzr, [x9]
	mov	x8, x25
	b	.LBB68_4
.LBB68_26:
	mov	x8, x25
	strh	wzr, [x9]
	strb	wzr, [x9, #2]
	b	.LBB68_4
.LBB68_27:
	cmp	x10, #32
	b.hs	.LBB68_29
	mov	x11, xzr
	b	.LBB68_33
.LBB68_29:
	add	x14, x9, x8
	and	x12, x10, #0x18
	and	x11, x10, #0xffffffffffffffe0
	add	x13, x23, x19
	add	x14, x14, #20
	and	x15, x10, #0xffffffffffffffe0
.LBB68_30:
	ldp	q0, q1, [x14, #-16]
	subs	x15, x15, #32
	add	x14, x14, #32
	stp	q0, q1, [x13, #-16]
	add	x13, x13, #32
	b.ne	.LBB68_30
	cmp	x10, x11
	b.eq	.LBB68_21
	cbz	x12, .LBB68_16
.LBB68_33:
	mov	x12, x11
	and	x11, x10, #0xfffffffffffffff8
	add	x13, x8, x12
	add	x14, x12, x19
	sub	x12, x12, x11
	add	x13, x9, x13
	add	x14, x24, x14
	add	x13, x13, #4
.LBB68_34:
	ldr	d0, [x13], #8
	adds	x12, x12, #8
	str	d0, [x14], #8
	b.ne	.LBB68_34
	cmp	x10, x11
	b.eq	.LBB68_21
	b	.LBB68_16
.LBB68_36:
	mov	x19, xzr
.LBB68_37:
	mov	x0, x19
	ldp	x20, x19, [sp, #80]
	ldp	x22, x21, [sp, #64]
	ldp	x24, x23, [sp, #48]
	ldp	x26, x25, [sp, #32]
	ldp	x28, x27, [sp, #16]
	ldp	x29, x30, [sp], #96
	ret
.Lfunc_end68:
	.size	nla_wire.members.write_each.7562298f77a88fdb, .Lfunc_end68-nla_wire.members.write_each.7562298f77a88fdb

	.section	.text.link_state.state_encoding.clear_message,"ax",@progbits
	.p2align	2
	.type	link_state.state_encoding.clear_message,@function
link_state.state_encoding.clear_message:
	sub	sp, sp, #112
	ldrb	w8, [x0]
	stp	x29, x30, [sp, #16]
	add	x29, sp, #16
	stp	x28, x27, [sp, #32]
	cmp	w8, #6
	stp	x26, x25, [sp, #48]
	stp	x24, x23, [sp, #64]
	stp	x22, x21, [sp, #80]
	stp	x20, x19, [sp, #96]
	b.le	.LBB69_5
	cmp	w8, #7
	b.eq	.LBB69_8
	cmp	w8, #10
	b.eq	.LBB69_9
	cmp	w8, #45
	b.ne	.LBB69_11
	mov	w8, wzr
	mov	w24, #4
	b	.LBB69_12
.LBB69_5:
	cbz	w8, .LBB69_10
	cmp	w8, #2
	b.ne	.LBB69_11
	mov	w9, #1
	mov	w8, wzr
	mov	w24, #1
	b	.LBB69_13
.LBB69_8:
	mov	w8, wzr
	mov	w24, #2
	b	.LBB69_12
.LBB69_9:
	mov	w8, wzr
	mov	w24, #3
	b	.LBB69_12
.LBB69_10:
	str	wzr, [sp, #8]
	mov	w24, w8
	subs	x19, x1, #16
	str	wzr, [x0, #12]
	sturb	w8, [x29, #-4]
	sturb	w8, [x29, #-3]
	b.ne	.LBB69_14
	b	.LBB69_56
.LBB69_11:
	mov	w24, #5
.LBB69_12:
	mov	w9, #1
.LBB69_13:
	str	w9, [sp, #8]
	subs	x19, x1, #16
	str	wzr, [x0, #12]
	sturb	w24, [x29, #-4]
	sturb	w8, [x29, #-3]
	b.eq	.LBB69_56
.LBB69_14:
	mov	x21, xzr
	add	x20, x0, #16
	b	.LBB69_17
.LBB69_15:
	sub	x3, x29, #4
	mov	x0, x20
	mov	x1, x19
	mov	x2, x21
	bl	link_state.walk.fill_last.9e3a67d5997cd6a9
	mov	x21, x0
.LBB69_16:
	cmp	x21, x19
	b.hs	.LBB69_56
.LBB69_17:
	sub	x9, x19, x21
	cmp	x9, #7
	b.ls	.LBB69_15
	add	x8, x20, x21
	ldrh	w26, [x8]
	sub	w10, w26, #9
	cmn	w10, #4
	b.lo	.LBB69_21
	ldrb	w11, [x8, #3]
	ldrb	w10, [x8, #2]
	bfi	w10, w11, #8, #6
	cmp	w10, #48
	b.hi	.LBB69_53
	mov	w11, #1
	lsl	x10, x11, x10
	mov	x11, #4224
	movk	x11, #1220, lsl #16
	movk	x11, #36872, lsl #32
	movk	x11, #1, lsl #48
	tst	x10, x11
	b.eq	.LBB69_53
.LBB69_21:
	cmp	w26, #4
	b.lo	.LBB69_56
	cmp	x9, x26
	b.lo	.LBB69_56
	ldrb	w9, [x8, #2]
	ldrb	w10, [x8, #3]
	sub	x27, x26, #4
	bfi	w9, w10, #8, #6
	sub	w9, w9, #7
	cmp	w9, #41
	b.hi	.LBB69_55
	adrp	x10, .LJTI69_0
	add	x10, x10, :lo12:.LJTI69_0
	add	x22, x8, #4
	adr	x11, .LBB69_25
	ldrb	w12, [x10, x9]
	add	x11, x11, x12, lsl #2
	br	x11
.LBB69_25:
	cmp	w26, #4
	b.eq	.LBB69_55
	cmp	w26, #8
	b.ne	.LBB69_28
	str	wzr, [x22]
	b	.LBB69_55
.LBB69_28:
	subs	x23, x26, #5
	b.eq	.LBB69_30
	mov	x0, x22
	mov	w1, wzr
	mov	x2, x23
	bl	memset
.LBB69_30:
	strb	wzr, [x22, x23]
	b	.LBB69_55
.LBB69_31:
	sub	x1, x26, #4
	mov	x0, x22
	bl	link_state.level.info.fill_link_info.0
	b	.LBB69_55
.LBB69_32:
	ldr	w8, [sp, #8]
	cmp	x27, #0
	csinc	w8, w8, wzr, ne
	tbnz	w8, #0, .LBB69_55
	mov	x23, xzr
	b	.LBB69_35
.LBB69_34:
	sub	x1, x26, #4
	mov	x0, x22
	mov	x2, x23
	bl	link_state.walk.fill_last.7ca78b2c7e6ecc17
	mov	x23, x0
	cmp	x0, x27
	b.hs	.LBB69_55
.LBB69_35:
	sub	x9, x27, x23
	cmp	x9, #7
	b.ls	.LBB69_34
	add	x8, x22, x23
	ldrh	w28, [x8]
	cmp	w28, #4
	b.lo	.LBB69_55
	cmp	x9, x28
	b.lo	.LBB69_55
	ldrb	w9, [x8, #2]
	ldrb	w10, [x8, #3]
	sub	x25, x28, #4
	bfi	w9, w10, #8, #6
	cmp	w9, #10
	b.ne	.LBB69_40
	add	x0, x8, #4
	sub	x1, x28, #4
	bl	link_state.walk.fill_list.3c634cd01f519dfb
.LBB69_40:
	sub	x8, x28, #1
	sub	x9, x27, x23
	and	x8, x8, #0xfffffffffffffffc
	sub	x9, x9, x28
	sub	x10, x8, x25
	add	x8, x23, x8
	add	x8, x8, #4
	cmp	x10, x9
	csel	x23, x8, x27, lo
	cmp	x23, x27
	b.lo	.LBB69_35
	b	.LBB69_55
.LBB69_41:
	mov	w8, #1
	mov	w9, #51
	lsl	w8, w8, w24
	tst	w8, w9
	b.ne	.LBB69_55
	sub	x1, x26, #4
	mov	x0, x22
	cmp	w24, #2
	b.ne	.LBB69_54
	bl	link_state.walk.fill_list.7c7781c0b5effb6b
	b	.LBB69_55
.LBB69_44:
	cbz	x27, .LBB69_55
	mov	x23, xzr
	b	.LBB69_47
.LBB69_46:
	sub	x1, x26, #4
	mov	x0, x22
	mov	x2, x23
	bl	link_state.walk.fill_last.ef36a0c61422138b
	mov	x23, x0
	cmp	x0, x27
	b.hs	.LBB69_55
.LBB69_47:
	sub	x9, x27, x23
	cmp	x9, #7
	b.ls	.LBB69_46
	add	x8, x22, x23
	ldrh	w28, [x8]
	cmp	w28, #4
	b.lo	.LBB69_55
	cmp	x9, x28
	b.lo	.LBB69_55
	ldrb	w9, [x8, #2]
	ldrb	w10, [x8, #3]
	sub	x25, x28, #4
	bfi	w9, w10, #8, #6
	cmp	w9, #1
	b.ne	.LBB69_52
	add	x0, x8, #4
	sub	x1, x28, #4
	bl	link_state.walk.fill_list.50feb428cb3580bb
.LBB69_52:
	sub	x8, x28, #1
	sub	x9, x27, x23
	and	x8, x8, #0xfffffffffffffffc
	sub	x9, x9, x28
	sub	x10, x8, x25
	add	x8, x23, x8
	add	x8, x8, #4
	cmp	x10, x9
	csel	x23, x8, x27, lo
	cmp	x23, x27
	b.lo	.LBB69_47
	b	.LBB69_55
.LBB69_53:
	add	x21, x21, #8
	b	.LBB69_16
.LBB69_54:
	bl	link_state.walk.fill_list.3c634cd01f519dfb
.LBB69_55:
	sub	x8, x26, #1
	add	x9, x21, x26
	and	x8, x8, #0xfffffffffffffffc
	sub	x9, x19, x9
	sub	x10, x8, x27
	add	x8, x21, x8
	add	x8, x8, #4
	cmp	x10, x9
	csel	x21, x8, x19, lo
	b	.LBB69_16
.LBB69_56:
	ldp	x20, x19, [sp, #96]
	ldp	x22, x21, [sp, #80]
	ldp	x24, x23, [sp, #64]
	ldp	x26, x25, [sp, #48]
	ldp	x28, x27, [sp, #32]
	ldp	x29, x30, [sp, #16]
	add	sp, sp, #112
	ret
.Lfunc_end69:
	.size	link_state.state_encoding.clear_message, .Lfunc_end69-link_state.state_encoding.clear_message
	.section	.rodata.link_state.state_encoding.clear_message,"a",@progbits
.LJTI69_0:
	.byte	(.LBB69_25-.LBB69_25)>>2
	.byte	(.LBB69_55-.LBB69_25)>>2
	.byte	(.LBB69_55-.LBB69_25)>>2
	.byte	(.LBB69_55-.LBB69_25)>>2
	.byte	(.LBB69_55-.LBB69_25)>>2
	.byte	(.LBB69_41-.LBB69_25)>>2
	.byte	(.LBB69_55-.LBB69_25)>>2
	.byte	(.LBB69_55-.LBB69_25)>>2
	.byte	(.LBB69_55-.LBB69_25)>>2
	.byte	(.LBB69_55-.LBB69_25)>>2
	.byte	(.LBB69_55-.LBB69_25)>>2
	.byte	(.LBB69_31-.LBB69_25)>>2
	.byte	(.LBB69_55-.LBB69_25)>>2
	.byte	(.LBB69_55-.LBB69_25)>>2
	.byte	(.LBB69_55-.LBB69_25)>>2
	.byte	(.LBB69_44-.LBB69_25)>>2
	.byte	(.LBB69_25-.LBB69_25)>>2
	.byte	(.LBB69_55-.LBB69_25)>>2
	.byte	(.LBB69_55-.LBB69_25)>>2
	.byte	(.LBB69_32-.LBB69_25)>>2
	.byte	(.LBB69_55-.LBB69_25)>>2
	.byte	(.LBB69_55-.LBB69_25)>>2
	.byte	(.LBB69_55-.LBB69_25)>>2
	.byte	(.LBB69_55-.LBB69_25)>>2
	.byte	(.LBB69_55-.LBB69_25)>>2
	.byte	(.LBB69_55-.LBB69_25)>>2
	.byte	(.LBB69_55-.LBB69_25)>>2
	.byte	(.LBB69_55-.LBB69_25)>>2
	.byte	(.LBB69_25-.LBB69_25)>>2
	.byte	(.LBB69_55-.LBB69_25)>>2
	.byte	(.LBB69_55-.LBB69_25)>>2
	.byte	(.LBB69_55-.LBB69_25)>>2
	.byte	(.LBB69_55-.LBB69_25)>>2
	.byte	(.LBB69_55-.LBB69_25)>>2
	.byte	(.LBB69_55-.LBB69_25)>>2
	.byte	(.LBB69_55-.LBB69_25)>>2
	.byte	(.LBB69_55-.LBB69_25)>>2
	.byte	(.LBB69_25-.LBB69_25)>>2
	.byte	(.LBB69_55-.LBB69_25)>>2
	.byte	(.LBB69_55-.LBB69_25)>>2
	.byte	(.LBB69_25-.LBB69_25)>>2
	.byte	(.LBB69_25-.LBB69_25)>>2

	.section	.text.link_state.walk.fill_last.9e3a67d5997cd6a9,"ax",@progbits
	.p2align	2
	.type	link_state.walk.fill_last.9e3a67d5997cd6a9,@function
link_state.walk.fill_last.9e3a67d5997cd6a9:
	stp	x29, x30, [sp, #-80]!
	sub	x10, x1, x2
	stp	x20, x19, [sp, #64]
	mov	x19, x1
	cmp	x10, #4
	str	x25, [sp, #16]
	mov	x29, sp
	stp	x24, x23, [sp, #32]
	stp	x22, x21, [sp, #48]
	b.lo	.LBB70_39
	add	x9, x0, x2
	mov	x20, x2
	ldrh	w8, [x9]
	cmp	w8, #4
	b.lo	.LBB70_39
	cmp	x10, x8
	b.lo	.LBB70_39
	ldrb	w10, [x9, #2]
	ldrb	w11, [x9, #3]
	sub	x21, x8, #4
	bfi	w10, w11, #8, #6
	sub	w10, w10, #7
	cmp	w10, #41
	b.hi	.LBB70_38
	adrp	x11, .LJTI70_0
	add	x11, x11, :lo12:.LJTI70_0
	add	x22, x9, #4
	adr	x12, .LBB70_5
	ldrb	w13, [x11, x10]
	add	x12, x12, x13, lsl #2
	br	x12
.LBB70_5:
	cmp	w8, #4
	b.eq	.LBB70_9
	cmp	w8, #8
	b.ne	.LBB70_10
	add	x8, x29, #28
	str	wzr, [x29, #28]
	sub	x8, x22, x8
	cmp	x8, #3
	b.hi	.LBB70_24
	ldr	w8, [x29, #28]
	mov	w21, #4
	str	w8, [x22]
	b	.LBB70_38
.LBB70_9:
	mov	x21, xzr
	b	.LBB70_38
.LBB70_10:
	subs	x23, x8, #5
	b.eq	.LBB70_12
	mov	x0, x22
	mov	w1, wzr
	mov	x2, x23
	bl	memset
.LBB70_12:
	strb	wzr, [x22, x23]
	b	.LBB70_38
.LBB70_13:
	mov	x0, x22
	mov	x1, x21
	bl	link_state.level.info.fill_link_info.0
	b	.LBB70_38
.LBB70_14:
	cbz	x21, .LBB70_38
	ldrb	w8, [x3]
	cbnz	w8, .LBB70_38
	mov	x23, xzr
	b	.LBB70_18
.LBB70_17:
	mov	x0, x22
	mov	x1, x21
	mov	x2, x23
	bl	link_state.walk.fill_last.7ca78b2c7e6ecc17
	mov	x23, x0
	cmp	x0, x21
	b.hs	.LBB70_38
.LBB70_18:
	sub	x9, x21, x23
	cmp	x9, #7
	b.ls	.LBB70_17
	add	x8, x22, x23
	ldrh	w24, [x8]
	cmp	w24, #4
	b.lo	.LBB70_38
	cmp	x9, x24
	b.lo	.LBB70_38
	ldrb	w9, [x8, #2]
	ldrb	w10, [x8, #3]
	sub	x25, x24, #4
	bfi	w9, w10, #8, #6
	cmp	w9, #10
	b.ne	.LBB70_23
	add	x0, x8, #4
	sub	x1, x24, #4
	bl	link_state.walk.fill_list.3c634cd01f519dfb
.LBB70_23:
	sub	x8, x24, #1
	add	x9, x23, x24
	and	x8, x8, #0xfffffffffffffffc
	sub	x9, x21, x9
	sub	x10, x8, x25
	add	x8, x23, x8
	add	x8, x8, #4
	cmp	x10, x9
	csel	x23, x8, x21, lo
	cmp	x23, x21
	b.lo	.LBB70_18
	b	.LBB70_38
.LBB70_24:
	str	wzr, [x22]
	mov	w21, #4
	b	.LBB70_38
.LBB70_25:
	ldrb	w8, [x3]
	mov	w9, #1
	mov	w10, #51
	lsl	w9, w9, w8
	tst	w9, w10
	b.ne	.LBB70_38
	mov	x0, x22
	mov	x1, x21
	cmp	w8, #2
	b.ne	.LBB70_37
	bl	link_state.walk.fill_list.7c7781c0b5effb6b
	b	.LBB70_38
.LBB70_28:
	cbz	x21, .LBB70_38
	mov	x23, xzr
	b	.LBB70_31
.LBB70_30:
	mov	x0, x22
	mov	x1, x21
	mov	x2, x23
	bl	link_state.walk.fill_last.ef36a0c61422138b
	mov	x23, x0
	cmp	x0, x21
	b.hs	.LBB70_38
.LBB70_31:
	sub	x9, x21, x23
	cmp	x9, #7
	b.ls	.LBB70_30
	add	x8, x22, x23
	ldrh	w24, [x8]
	cmp	w24, #4
	b.lo	.LBB70_38
	cmp	x9, x24
	b.lo	.LBB70_38
	ldrb	w9, [x8, #2]
	ldrb	w10, [x8, #3]
	sub	x25, x24, #4
	bfi	w9, w10, #8, #6
	cmp	w9, #1
	b.ne	.LBB70_36
	add	x0, x8, #4
	sub	x1, x24, #4
	bl	link_state.walk.fill_list.50feb428cb3580bb
.LBB70_36:
	sub	x8, x24, #1
	add	x9, x23, x24
	and	x8, x8, #0xfffffffffffffffc
	sub	x9, x21, x9
	sub	x10, x8, x25
	add	x8, x23, x8
	add	x8, x8, #4
	cmp	x10, x9
	csel	x23, x8, x21, lo
	cmp	x23, x21
	b.lo	.LBB70_31
	b	.LBB70_38
.LBB70_37:
	bl	link_state.walk.fill_list.3c634cd01f519dfb
.LBB70_38:
	add	x8, x21, #3
	add	x9, x20, x21
	and	x8, x8, #0xfffffffffffffffc
	sub	x9, x19, x9
	sub	x10, x8, x21
	add	x8, x20, x8
	sub	x9, x9, #4
	add	x8, x8, #4
	cmp	x10, x9
	csel	x19, x8, x19, lo
.LBB70_39:
	mov	x0, x19
	ldp	x20, x19, [sp, #64]
	ldp	x22, x21, [sp, #48]
	ldr	x25, [sp, #16]
	ldp	x24, x23, [sp, #32]
	ldp	x29, x30, [sp], #80
	ret
.Lfunc_end70:
	.size	link_state.walk.fill_last.9e3a67d5997cd6a9, .Lfunc_end70-link_state.walk.fill_last.9e3a67d5997cd6a9
	.section	.rodata.link_state.walk.fill_last.9e3a67d5997cd6a9,"a",@progbits
.LJTI70_0:
	.byte	(.LBB70_5-.LBB70_5)>>2
	.byte	(.LBB70_38-.LBB70_5)>>2
	.byte	(.LBB70_38-.LBB70_5)>>2
	.byte	(.LBB70_38-.LBB70_5)>>2
	.byte	(.LBB70_38-.LBB70_5)>>2
	.byte	(.LBB70_25-.LBB70_5)>>2
	.byte	(.LBB70_38-.LBB70_5)>>2
	.byte	(.LBB70_38-.LBB70_5)>>2
	.byte	(.LBB70_38-.LBB70_5)>>2
	.byte	(.LBB70_38-.LBB70_5)>>2
	.byte	(.LBB70_38-.LBB70_5)>>2
	.byte	(.LBB70_13-.LBB70_5)>>2
	.byte	(.LBB70_38-.LBB70_5)>>2
	.byte	(.LBB70_38-.LBB70_5)>>2
	.byte	(.LBB70_38-.LBB70_5)>>2
	.byte	(.LBB70_28-.LBB70_5)>>2
	.byte	(.LBB70_5-.LBB70_5)>>2
	.byte	(.LBB70_38-.LBB70_5)>>2
	.byte	(.LBB70_38-.LBB70_5)>>2
	.byte	(.LBB70_14-.LBB70_5)>>2
	.byte	(.LBB70_38-.LBB70_5)>>2
	.byte	(.LBB70_38-.LBB70_5)>>2
	.byte	(.LBB70_38-.LBB70_5)>>2
	.byte	(.LBB70_38-.LBB70_5)>>2
	.byte	(.LBB70_38-.LBB70_5)>>2
	.byte	(.LBB70_38-.LBB70_5)>>2
	.byte	(.LBB70_38-.LBB70_5)>>2
	.byte	(.LBB70_38-.LBB70_5)>>2
	.byte	(.LBB70_5-.LBB70_5)>>2
	.byte	(.LBB70_38-.LBB70_5)>>2
	.byte	(.LBB70_38-.LBB70_5)>>2
	.byte	(.LBB70_38-.LBB70_5)>>2
	.byte	(.LBB70_38-.LBB70_5)>>2
	.byte	(.LBB70_38-.LBB70_5)>>2
	.byte	(.LBB70_38-.LBB70_5)>>2
	.byte	(.LBB70_38-.LBB70_5)>>2
	.byte	(.LBB70_38-.LBB70_5)>>2
	.byte	(.LBB70_5-.LBB70_5)>>2
	.byte	(.LBB70_38-.LBB70_5)>>2
	.byte	(.LBB70_38-.LBB70_5)>>2
	.byte	(.LBB70_5-.LBB70_5)>>2
	.byte	(.LBB70_5-.LBB70_5)>>2

	.section	.text.link_state.level.info.fill_link_info.0,"ax",@progbits
	.p2align	2
	.type	link_state.level.info.fill_link_info.0,@function
link_state.level.info.fill_link_info.0:
	sub	sp, sp, #112
	stp	x20, x19, [sp, #96]
	mov	x19, x1
	mov	x20, x0
	stp	x29, x30, [sp, #16]
	add	x29, sp, #16
	stp	x28, x27, [sp, #32]
	stp	x26, x25, [sp, #48]
	stp	x24, x23, [sp, #64]
	stp	x22, x21, [sp, #80]
	cbz	x1, .LBB71_40
	mov	w21, wzr
	mov	w22, wzr
	mov	w23, wzr
	mov	w24, wzr
	mov	x8, xzr
	mov	x26, x19
	mov	x27, x20
	b	.LBB71_5
.LBB71_2:
	mov	w25, #4
.LBB71_3:
	tst	w24, #0x1
	mov	w24, #1
	csel	w23, w23, w25, ne
.LBB71_4:
	add	w8, w28, #3
	and	x8, x8, #0x1fffc
	cmp	x26, x8
	b.ls	.LBB71_39
.LBB71_5:
	sub	x26, x26, x8
	cmp	x26, #4
	b.lo	.LBB71_39
	add	x27, x27, x8
	ldrh	w28, [x27]
	cmp	w28, #4
	b.lo	.LBB71_39
	cmp	x26, x28
	b.lo	.LBB71_39
	ldrb	w10, [x27, #2]
	ldrb	w8, [x27, #3]
	sub	x9, x28, #4
	bfi	w10, w8, #8, #6
	add	x8, x27, #4
	cmp	w10, #4
	b.eq	.LBB71_19
	cmp	w10, #1
	b.ne	.LBB71_4
	cbz	x9, .LBB71_12
	sub	x10, x28, #5
	ldrb	w10, [x8, x10]
	cbz	w10, .LBB71_27
.LBB71_12:
	cmp	x9, #6
	b.eq	.LBB71_28
.LBB71_13:
	cmp	x9, #4
	b.eq	.LBB71_25
	cmp	x9, #3
	b.ne	.LBB71_2
	ldrb	w8, [x8]
	cmp	w8, #99
	b.eq	.LBB71_36
	cmp	w8, #104
	b.ne	.LBB71_2
	ldrb	w8, [x27, #5]
	cmp	w8, #115
	b.ne	.LBB71_2
	ldrb	w8, [x27, #6]
	cmp	w8, #114
	mov	w8, #3
	cinc	w25, w8, ne
	b	.LBB71_3
.LBB71_19:
	cbz	x9, .LBB71_21
	sub	x10, x28, #5
	ldrb	w10, [x8, x10]
	cbz	w10, .LBB71_30
.LBB71_21:
	cmp	x9, #6
	b.eq	.LBB71_31
.LBB71_22:
	cmp	x9, #4
	b.ne	.LBB71_34
	ldr	w8, [x8]
	mov	w9, #28514
	movk	w9, #25710, lsl #16
	cmp	w8, w9
	b.ne	.LBB71_34
	adrp	x2, .Lstatic.145
	add	x2, x2, :lo12:.Lstatic.145
	add	x0, x27, #4
	mov	w1, #4
	mov	w25, #4
	bl	core.cmp.slices.groups_equal.i8.31.core.cmp.numbers.U8PartialEq
	cmp	w0, #0
	csinc	w8, w25, wzr, eq
	b	.LBB71_35
.LBB71_25:
	ldr	w8, [x8]
	mov	w9, #25462
	mov	w25, #4
	movk	w9, #28257, lsl #16
	cmp	w8, w9
	b.ne	.LBB71_3
	adrp	x2, .Lstatic.143
	add	x2, x2, :lo12:.Lstatic.143
	add	x0, x27, #4
	mov	w1, #4
	bl	core.cmp.slices.groups_equal.i8.31.core.cmp.numbers.U8PartialEq
	mov	w8, #2
	cmp	w0, #0
	csel	w25, w8, w25, ne
	b	.LBB71_3
.LBB71_27:
	sub	x9, x28, #5
	cmp	x9, #6
	b.ne	.LBB71_13
.LBB71_28:
	ldr	w8, [x8]
	mov	w9, #29282
	mov	w25, #4
	movk	w9, #25705, lsl #16
	cmp	w8, w9
	b.ne	.LBB71_3
	adrp	x2, .Lstatic.141
	add	x2, x2, :lo12:.Lstatic.141
	add	x0, x27, #4
	mov	w1, #6
	bl	core.cmp.slices.groups_equal.i8.31.core.cmp.numbers.U8PartialEq
	cmp	w0, #0
	csel	w25, wzr, w25, ne
	b	.LBB71_3
.LBB71_30:
	sub	x9, x28, #5
	cmp	x9, #6
	b.ne	.LBB71_22
.LBB71_31:
	ldr	w8, [x8]
	mov	w9, #29282
	movk	w9, #25705, lsl #16
	cmp	w8, w9
	b.ne	.LBB71_34
	adrp	x2, .Lstatic.141
	add	x2, x2, :lo12:.Lstatic.141
	add	x0, x27, #4
	mov	w1, #6
	bl	core.cmp.slices.groups_equal.i8.31.core.cmp.numbers.U8PartialEq
	tbz	w0, #0, .LBB71_34
	mov	w8, wzr
	b	.LBB71_35
.LBB71_34:
	mov	w8, #4
.LBB71_35:
	tst	w22, #0x1
	mov	w22, #1
	csel	w21, w21, w8, ne
	b	.LBB71_4
.LBB71_36:
	ldrb	w8, [x27, #5]
	cmp	w8, #97
	b.ne	.LBB71_2
	ldrb	w8, [x27, #6]
	cmp	w8, #110
	b.ne	.LBB71_2
	mov	w25, #2
	b	.LBB71_3
.LBB71_39:
	tst	w24, #0x1
	mov	w9, #4
	csel	w8, w23, w9, ne
	tst	w22, #0x1
	csel	w9, w21, w9, ne
	b	.LBB71_41
.LBB71_40:
	mov	w8, #4
	mov	w9, #4
.LBB71_41:
	sub	x2, x29, #4
	mov	x0, x20
	mov	x1, x19
	sturb	w8, [x29, #-4]
	sturb	w9, [x29, #-3]
	bl	link_state.walk.fill_list.9d96636e1df08d27
	ldp	x20, x19, [sp, #96]
	ldp	x22, x21, [sp, #80]
	ldp	x24, x23, [sp, #64]
	ldp	x26, x25, [sp, #48]
	ldp	x28, x27, [sp, #32]
	ldp	x29, x30, [sp, #16]
	add	sp, sp, #112
	ret
.Lfunc_end71:
	.size	link_state.level.info.fill_link_info.0, .Lfunc_end71-link_state.level.info.fill_link_info.0

	.section	.rodata.cst16,"aM",@progbits,16
	.p2align	4, 0x0
.LCPI72_0:
	.byte	1
	.byte	2
	.byte	4
	.byte	8
	.byte	16
	.byte	32
	.byte	64
	.byte	128
	.byte	1
	.byte	2
	.byte	4
	.byte	8
	.byte	16
	.byte	32
	.byte	64
	.byte	128
	.section	.text.core.cmp.slices.groups_equal.i8.31.core.cmp.numbers.U8PartialEq,"ax",@progbits
	.p2align	2
	.type	core.cmp.slices.groups_equal.i8.31.core.cmp.numbers.U8PartialEq,@function
core.cmp.slices.groups_equal.i8.31.core.cmp.numbers.U8PartialEq:
	subs	x9, x1, #8
	b.hi	.LBB72_2
	sub	x8, x1, #4
	ldr	s0, [x0]
	ldr	s1, [x2]
	add	x9, x0, x8
	add	x8, x2, x8
	ld1	{ v0.s }[1], [x9]
	ld1	{ v1.s }[1], [x8]
	fmov	x8, d0
	fmov	x9, d1
	cmp	x8, x9
	cset	w8, ne
	eor	w0, w8, #0x1
	ret
.LBB72_2:
	subs	x8, x1, #32
	b.hi	.LBB72_4
	cmp	x9, #8
	mov	w8, #8
	mov	w10, #16
	csel	x8, x9, x8, lo
	cmp	x9, #16
	ldr	d0, [x0]
	ldr	d1, [x2]
	ldr	d2, [x0, x8]
	ldr	d3, [x2, x8]
	csel	x8, x9, x10, lo
	ldr	d5, [x2, x9]
	ldr	d4, [x0, x8]
	mov	v0.d[1], v2.d[0]
	mov	v1.d[1], v3.d[0]
	ldr	d2, [x2, x8]
	ldr	d3, [x0, x9]
	mov	v4.d[1], v3.d[0]
	mov	v2.d[1], v5.d[0]
	cmeq	v0.16b, v0.16b, v1.16b
	cmeq	v1.16b, v4.16b, v2.16b
	b	.LBB72_17
.LBB72_4:
	cmp	x1, #65
	b.hs	.LBB72_6
	ldp	q1, q0, [x0]
	add	x9, x2, x8
	ldp	q3, q2, [x2]
	add	x8, x0, x8
	ldp	q4, q5, [x9]
	cmeq	v1.16b, v1.16b, v3.16b
	cmeq	v0.16b, v0.16b, v2.16b
	ldp	q2, q3, [x8]
	mvn	v1.16b, v1.16b
	mvn	v0.16b, v0.16b
	cmeq	v2.16b, v2.16b, v4.16b
	cmeq	v3.16b, v3.16b, v5.16b
	orn	v0.16b, v0.16b, v3.16b
	orn	v1.16b, v1.16b, v2.16b
	orr	v0.16b, v1.16b, v0.16b
	umaxv	b0, v0.16b
	fmov	w8, s0
	and	w8, w8, #0x1
	eor	w0, w8, #0x1
	ret
.LBB72_6:
	and	x9, x1, #0xffffffffffffffc0
	add	x10, x0, #32
	add	x12, x2, #32
	mov	w11, #32
	mov	x13, x1
.LBB72_7:
	ldp	q0, q3, [x12, #-32]
	ldp	q1, q2, [x10, #-32]
	ldp	q4, q5, [x12], #64
	cmeq	v0.16b, v1.16b, v0.16b
	cmeq	v1.16b, v2.16b, v3.16b
	ldp	q2, q3, [x10], #64
	mvn	v0.16b, v0.16b
	mvn	v1.16b, v1.16b
	cmeq	v2.16b, v2.16b, v4.16b
	cmeq	v3.16b, v3.16b, v5.16b
	orn	v0.16b, v0.16b, v2.16b
	orn	v1.16b, v1.16b, v3.16b
	orr	v0.16b, v1.16b, v0.16b
	umaxv	b0, v0.16b
	fmov	w14, s0
	tbnz	w14, #0, .LBB72_10
	sub	x13, x13, #64
	add	x11, x11, #64
	cmp	x13, #63
	b.hi	.LBB72_7
	sub	x10, x1, x9
	cmp	x10, #32
	b.hs	.LBB72_11
	b	.LBB72_16
.LBB72_10:
	sub	x9, x11, #32
	sub	x10, x1, x9
	cmp	x10, #32
	b.lo	.LBB72_16
.LBB72_11:
	add	x11, x0, x9
	add	x9, x2, x9
.LBB72_12:
	ldp	q0, q1, [x11], #32
	ldp	q2, q3, [x9], #32
	adrp	x12, .LCPI72_0
	cmeq	v1.16b, v1.16b, v3.16b
	cmeq	v0.16b, v0.16b, v2.16b
	ldr	q2, [x12, :lo12:.LCPI72_0]
	bic	v1.16b, v2.16b, v1.16b
	bic	v0.16b, v2.16b, v0.16b
	ext	v2.16b, v1.16b, v1.16b, #8
	ext	v3.16b, v0.16b, v0.16b, #8
	zip1	v1.16b, v1.16b, v2.16b
	zip1	v0.16b, v0.16b, v3.16b
	addv	h1, v1.8h
	addv	h0, v0.8h
	fmov	w12, s1
	fmov	w13, s0
	orr	w12, w13, w12
	tst	w12, #0xffff
	b.ne	.LBB72_14
	sub	x10, x10, #32
	cmp	x10, #31
	b.hi	.LBB72_12
	b	.LBB72_16
.LBB72_14:
	cmp	x10, #31
	b.ls	.LBB72_16
	mov	w8, #1
	eor	w0, w8, #0x1
	ret
.LBB72_16:
	add	x9, x0, x8
	add	x8, x2, x8
	ldp	q0, q3, [x8]
	ldp	q1, q2, [x9]
	cmeq	v0.16b, v1.16b, v0.16b
	cmeq	v1.16b, v2.16b, v3.16b
.LBB72_17:
	mvn	v0.16b, v0.16b
	orn	v0.16b, v0.16b, v1.16b
	umaxv	b0, v0.16b
	fmov	w8, s0
	and	w8, w8, #0x1
	eor	w0, w8, #0x1
	ret
.Lfunc_end72:
	.size	core.cmp.slices.groups_equal.i8.31.core.cmp.numbers.U8PartialEq, .Lfunc_end72-core.cmp.slices.groups_equal.i8.31.core.cmp.numbers.U8PartialEq

	.section	.text.link_state.walk.fill_last.7ca78b2c7e6ecc17,"ax",@progbits
	.p2align	2
	.type	link_state.walk.fill_last.7ca78b2c7e6ecc17,@function
link_state.walk.fill_last.7ca78b2c7e6ecc17:
	stp	x29, x30, [sp, #-48]!
	sub	x9, x1, x2
	stp	x20, x19, [sp, #32]
	mov	x19, x1
	cmp	x9, #4
	stp	x22, x21, [sp, #16]
	mov	x29, sp
	b.lo	.LBB73_6
	add	x8, x0, x2
	ldrh	w20, [x8]
	cmp	w20, #4
	b.lo	.LBB73_6
	cmp	x9, x20
	b.lo	.LBB73_6
	ldrb	w9, [x8, #2]
	ldrb	w10, [x8, #3]
	sub	x21, x20, #4
	bfi	w9, w10, #8, #6
	cmp	w9, #10
	b.ne	.LBB73_5
	add	x0, x8, #4
	sub	x1, x20, #4
	mov	x22, x2
	bl	link_state.walk.fill_list.3c634cd01f519dfb
	mov	x2, x22
.LBB73_5:
	sub	x8, x20, #1
	sub	x9, x19, x2
	and	x8, x8, #0xfffffffffffffffc
	sub	x9, x9, x20
	sub	x10, x8, x21
	add	x8, x2, x8
	add	x8, x8, #4
	cmp	x10, x9
	csel	x19, x8, x19, lo
.LBB73_6:
	mov	x0, x19
	ldp	x20, x19, [sp, #32]
	ldp	x22, x21, [sp, #16]
	ldp	x29, x30, [sp], #48
	ret
.Lfunc_end73:
	.size	link_state.walk.fill_last.7ca78b2c7e6ecc17, .Lfunc_end73-link_state.walk.fill_last.7ca78b2c7e6ecc17

	.section	.text.link_state.walk.fill_list.3c634cd01f519dfb,"ax",@progbits
	.p2align	2
	.type	link_state.walk.fill_list.3c634cd01f519dfb,@function
link_state.walk.fill_list.3c634cd01f519dfb:
	cbz	x1, .LBB74_26
	stp	x29, x30, [sp, #-80]!
	stp	x22, x21, [sp, #48]
	mov	x21, xzr
	mov	x29, sp
	stp	x20, x19, [sp, #64]
	mov	x19, x1
	mov	x20, x0
	str	x25, [sp, #16]
	stp	x24, x23, [sp, #32]
	b	.LBB74_3
.LBB74_2:
	mov	x0, x20
	mov	x1, x19
	mov	x2, x21
	bl	link_state.walk.fill_last.3c634cd01f519dfb
	mov	x21, x0
	cmp	x0, x19
	b.hs	.LBB74_25
.LBB74_3:
	sub	x9, x19, x21
	cmp	x9, #7
	b.ls	.LBB74_2
	add	x8, x20, x21
	ldrh	w24, [x8]
	cmp	w24, #4
	b.lo	.LBB74_25
	cmp	x9, x24
	b.lo	.LBB74_25
	ldrb	w9, [x8, #2]
	ldrb	w10, [x8, #3]
	sub	x25, x24, #4
	add	x22, x8, #4
	bfi	w9, w10, #8, #6
	cmp	w9, #6
	b.eq	.LBB74_16
	cmp	w9, #5
	b.eq	.LBB74_13
	cmp	w9, #3
	b.ne	.LBB74_24
	cmp	w24, #4
	b.eq	.LBB74_24
	cmp	w24, #8
	b.ne	.LBB74_21
	add	x8, x29, #28
	str	wzr, [x29, #28]
	sub	x8, x22, x8
	cmp	x8, #3
	b.hi	.LBB74_20
	ldr	w8, [x29, #28]
	str	w8, [x22]
	b	.LBB74_24
.LBB74_13:
	cmp	x25, #12
	mov	w8, #12
	mov	w9, #4
	csel	x8, x25, x8, lo
	cmp	x25, #4
	csel	x9, x25, x9, lo
	subs	x8, x8, x9
	b.eq	.LBB74_24
	cmp	x8, #4
	add	x22, x22, x9
	b.eq	.LBB74_20
	subs	x23, x8, #1
	b.ne	.LBB74_22
	b	.LBB74_23
.LBB74_16:
	cmp	w24, #4
	b.eq	.LBB74_24
	cmp	w24, #8
	b.ne	.LBB74_21
	add	x8, x29, #24
	str	wzr, [x29, #24]
	sub	x8, x22, x8
	cmp	x8, #3
	b.hi	.LBB74_20
	ldr	w8, [x29, #24]
	str	w8, [x22]
	b	.LBB74_24
.LBB74_20:
	str	wzr, [x22]
	b	.LBB74_24
.LBB74_21:
	subs	x23, x24, #5
	b.eq	.LBB74_23
.LBB74_22:
	mov	x0, x22
	mov	w1, wzr
	mov	x2, x23
	bl	memset
.LBB74_23:
	strb	wzr, [x22, x23]
.LBB74_24:
	sub	x8, x24, #1
	sub	x9, x19, x21
	and	x8, x8, #0xfffffffffffffffc
	sub	x9, x9, x24
	sub	x10, x8, x25
	add	x8, x21, x8
	add	x8, x8, #4
	cmp	x10, x9
	csel	x21, x8, x19, lo
	cmp	x21, x19
	b.lo	.LBB74_3
.LBB74_25:
	ldp	x20, x19, [sp, #64]
	ldr	x25, [sp, #16]
	ldp	x22, x21, [sp, #48]
	ldp	x24, x23, [sp, #32]
	ldp	x29, x30, [sp], #80
.LBB74_26:
	ret
.Lfunc_end74:
	.size	link_state.walk.fill_list.3c634cd01f519dfb, .Lfunc_end74-link_state.walk.fill_list.3c634cd01f519dfb

	.section	.text.link_state.walk.fill_last.3c634cd01f519dfb,"ax",@progbits
	.p2align	2
	.type	link_state.walk.fill_last.3c634cd01f519dfb,@function
link_state.walk.fill_last.3c634cd01f519dfb:
	stp	x29, x30, [sp, #-64]!
	sub	x10, x1, x2
	stp	x20, x19, [sp, #48]
	mov	x19, x1
	cmp	x10, #4
	str	x23, [sp, #16]
	mov	x29, sp
	stp	x22, x21, [sp, #32]
	b.lo	.LBB75_24
	add	x9, x0, x2
	ldrh	w8, [x9]
	cmp	w8, #4
	b.lo	.LBB75_24
	cmp	x10, x8
	b.lo	.LBB75_24
	ldrb	w10, [x9, #2]
	ldrb	w11, [x9, #3]
	sub	x22, x8, #4
	add	x20, x9, #4
	bfi	w10, w11, #8, #6
	cmp	w10, #6
	b.eq	.LBB75_13
	cmp	w10, #5
	b.eq	.LBB75_10
	cmp	w10, #3
	b.ne	.LBB75_23
	cmp	w8, #4
	b.eq	.LBB75_18
	cmp	w8, #8
	b.ne	.LBB75_19
	add	x8, x29, #28
	str	wzr, [x29, #28]
	sub	x8, x20, x8
	cmp	x8, #3
	b.hi	.LBB75_22
	ldr	w8, [x29, #28]
	b	.LBB75_17
.LBB75_10:
	cmp	x22, #12
	mov	w8, #12
	mov	w9, #4
	csel	x8, x22, x8, lo
	cmp	x22, #4
	csel	x9, x22, x9, lo
	subs	x8, x8, x9
	b.eq	.LBB75_23
	cmp	x8, #4
	add	x20, x20, x9
	b.ne	.LBB75_25
	str	wzr, [x20]
	b	.LBB75_23
.LBB75_13:
	cmp	w8, #4
	b.eq	.LBB75_18
	cmp	w8, #8
	b.ne	.LBB75_19
	add	x8, x29, #24
	str	wzr, [x29, #24]
	sub	x8, x20, x8
	cmp	x8, #3
	b.hi	.LBB75_22
	ldr	w8, [x29, #24]
.LBB75_17:
	str	w8, [x20]
	mov	w22, #4
	b	.LBB75_23
.LBB75_18:
	mov	x22, xzr
	b	.LBB75_23
.LBB75_19:
	subs	x21, x8, #5
	b.eq	.LBB75_21
.LBB75_20:
	mov	x0, x20
	mov	w1, wzr
	mov	x23, x2
	mov	x2, x21
	bl	memset
	mov	x2, x23
.LBB75_21:
	strb	wzr, [x20, x21]
	b	.LBB75_23
.LBB75_22:
	str	wzr, [x20]
	mov	w22, #4
.LBB75_23:
	add	x8, x22, #3
	sub	x9, x19, x2
	and	x8, x8, #0xfffffffffffffffc
	sub	x9, x9, x22
	sub	x10, x8, x22
	add	x8, x2, x8
	sub	x9, x9, #4
	add	x8, x8, #4
	cmp	x10, x9
	csel	x19, x8, x19, lo
.LBB75_24:
	mov	x0, x19
	ldp	x20, x19, [sp, #48]
	ldp	x22, x21, [sp, #32]
	ldr	x23, [sp, #16]
	ldp	x29, x30, [sp], #64
	ret
.LBB75_25:
	subs	x21, x8, #1
	b.ne	.LBB75_20
	b	.LBB75_21
.Lfunc_end75:
	.size	link_state.walk.fill_last.3c634cd01f519dfb, .Lfunc_end75-link_state.walk.fill_last.3c634cd01f519dfb

	.section	.text.link_state.walk.fill_last.ef36a0c61422138b,"ax",@progbits
	.p2align	2
	.type	link_state.walk.fill_last.ef36a0c61422138b,@function
link_state.walk.fill_last.ef36a0c61422138b:
	stp	x29, x30, [sp, #-48]!
	sub	x9, x1, x2
	stp	x20, x19, [sp, #32]
	mov	x19, x1
	cmp	x9, #4
	stp	x22, x21, [sp, #16]
	mov	x29, sp
	b.lo	.LBB76_6
	add	x8, x0, x2
	ldrh	w20, [x8]
	cmp	w20, #4
	b.lo	.LBB76_6
	cmp	x9, x20
	b.lo	.LBB76_6
	ldrb	w9, [x8, #2]
	ldrb	w10, [x8, #3]
	sub	x21, x20, #4
	bfi	w9, w10, #8, #6
	cmp	w9, #1
	b.ne	.LBB76_5
	add	x0, x8, #4
	sub	x1, x20, #4
	mov	x22, x2
	bl	link_state.walk.fill_list.50feb428cb3580bb
	mov	x2, x22
.LBB76_5:
	sub	x8, x20, #1
	sub	x9, x19, x2
	and	x8, x8, #0xfffffffffffffffc
	sub	x9, x9, x20
	sub	x10, x8, x21
	add	x8, x2, x8
	add	x8, x8, #4
	cmp	x10, x9
	csel	x19, x8, x19, lo
.LBB76_6:
	mov	x0, x19
	ldp	x20, x19, [sp, #32]
	ldp	x22, x21, [sp, #16]
	ldp	x29, x30, [sp], #48
	ret
.Lfunc_end76:
	.size	link_state.walk.fill_last.ef36a0c61422138b, .Lfunc_end76-link_state.walk.fill_last.ef36a0c61422138b

	.section	.text.link_state.walk.fill_list.50feb428cb3580bb,"ax",@progbits
	.p2align	2
	.type	link_state.walk.fill_list.50feb428cb3580bb,@function
link_state.walk.fill_list.50feb428cb3580bb:
	cbz	x1, .LBB77_19
	stp	x29, x30, [sp, #-80]!
	stp	x22, x21, [sp, #48]
	mov	x21, xzr
	mov	x29, sp
	stp	x20, x19, [sp, #64]
	mov	x19, x1
	mov	x20, x0
	str	x25, [sp, #16]
	stp	x24, x23, [sp, #32]
	b	.LBB77_3
.LBB77_2:
	mov	x0, x20
	mov	x1, x19
	mov	x2, x21
	bl	link_state.walk.fill_last.50feb428cb3580bb
	mov	x21, x0
	cmp	x0, x19
	b.hs	.LBB77_18
.LBB77_3:
	sub	x9, x19, x21
	cmp	x9, #7
	b.ls	.LBB77_2
	add	x8, x20, x21
	ldrh	w24, [x8]
	cmp	w24, #4
	b.lo	.LBB77_18
	cmp	x9, x24
	b.lo	.LBB77_18
	ldrb	w9, [x8, #2]
	ldrb	w10, [x8, #3]
	sub	x25, x24, #4
	add	x0, x8, #4
	bfi	w9, w10, #8, #6
	cmp	w9, #13
	b.eq	.LBB77_9
	cmp	w9, #8
	b.ne	.LBB77_17
	sub	x1, x24, #4
	bl	link_state.walk.fill_list.2d7ef8befde9b8dc
	b	.LBB77_17
.LBB77_9:
	cmp	w24, #4
	b.eq	.LBB77_17
	cmp	w24, #8
	b.ne	.LBB77_13
	add	x8, x29, #28
	str	wzr, [x29, #28]
	sub	x8, x0, x8
	cmp	x8, #3
	b.hi	.LBB77_16
	ldr	w8, [x29, #28]
	str	w8, [x0]
	b	.LBB77_17
.LBB77_13:
	subs	x22, x24, #5
	b.eq	.LBB77_15
	mov	w1, wzr
	mov	x2, x22
	mov	x23, x0
	bl	memset
	mov	x0, x23
.LBB77_15:
	strb	wzr, [x0, x22]
	b	.LBB77_17
.LBB77_16:
	str	wzr, [x0]
.LBB77_17:
	sub	x8, x24, #1
	sub	x9, x19, x21
	and	x8, x8, #0xfffffffffffffffc
	sub	x9, x9, x24
	sub	x10, x8, x25
	add	x8, x21, x8
	add	x8, x8, #4
	cmp	x10, x9
	csel	x21, x8, x19, lo
	cmp	x21, x19
	b.lo	.LBB77_3
.LBB77_18:
	ldp	x20, x19, [sp, #64]
	ldr	x25, [sp, #16]
	ldp	x22, x21, [sp, #48]
	ldp	x24, x23, [sp, #32]
	ldp	x29, x30, [sp], #80
.LBB77_19:
	ret
.Lfunc_end77:
	.size	link_state.walk.fill_list.50feb428cb3580bb, .Lfunc_end77-link_state.walk.fill_list.50feb428cb3580bb

	.section	.text.link_state.walk.fill_last.50feb428cb3580bb,"ax",@progbits
	.p2align	2
	.type	link_state.walk.fill_last.50feb428cb3580bb,@function
link_state.walk.fill_last.50feb428cb3580bb:
	stp	x29, x30, [sp, #-64]!
	sub	x10, x1, x2
	stp	x20, x19, [sp, #48]
	mov	x19, x1
	cmp	x10, #4
	str	x23, [sp, #16]
	mov	x29, sp
	stp	x22, x21, [sp, #32]
	b.lo	.LBB78_16
	add	x9, x0, x2
	ldrh	w8, [x9]
	cmp	w8, #4
	b.lo	.LBB78_16
	cmp	x10, x8
	b.lo	.LBB78_16
	ldrb	w10, [x9, #2]
	ldrb	w11, [x9, #3]
	sub	x20, x8, #4
	add	x0, x9, #4
	bfi	w10, w11, #8, #6
	cmp	w10, #13
	b.eq	.LBB78_6
	cmp	w10, #8
	b.ne	.LBB78_15
	mov	x1, x20
	mov	x21, x2
	bl	link_state.walk.fill_list.2d7ef8befde9b8dc
	mov	x2, x21
	b	.LBB78_15
.LBB78_6:
	cmp	w8, #4
	b.eq	.LBB78_10
	cmp	w8, #8
	b.ne	.LBB78_11
	add	x8, x29, #28
	str	wzr, [x29, #28]
	sub	x8, x0, x8
	cmp	x8, #3
	b.hi	.LBB78_14
	ldr	w8, [x29, #28]
	mov	w20, #4
	str	w8, [x0]
	b	.LBB78_15
.LBB78_10:
	mov	x20, xzr
	b	.LBB78_15
.LBB78_11:
	subs	x21, x8, #5
	b.eq	.LBB78_13
	mov	w1, wzr
	mov	x23, x2
	mov	x2, x21
	mov	x22, x0
	bl	memset
	mov	x0, x22
	mov	x2, x23
.LBB78_13:
	strb	wzr, [x0, x21]
	b	.LBB78_15
.LBB78_14:
	str	wzr, [x0]
	mov	w20, #4
.LBB78_15:
	add	x8, x20, #3
	sub	x9, x19, x2
	and	x8, x8, #0xfffffffffffffffc
	sub	x9, x9, x20
	sub	x10, x8, x20
	add	x8, x2, x8
	sub	x9, x9, #4
	add	x8, x8, #4
	cmp	x10, x9
	csel	x19, x8, x19, lo
.LBB78_16:
	mov	x0, x19
	ldp	x20, x19, [sp, #48]
	ldp	x22, x21, [sp, #32]
	ldr	x23, [sp, #16]
	ldp	x29, x30, [sp], #64
	ret
.Lfunc_end78:
	.size	link_state.walk.fill_last.50feb428cb3580bb, .Lfunc_end78-link_state.walk.fill_last.50feb428cb3580bb

	.section	.text.link_state.walk.fill_list.2d7ef8befde9b8dc,"ax",@progbits
	.p2align	2
	.type	link_state.walk.fill_list.2d7ef8befde9b8dc,@function
link_state.walk.fill_list.2d7ef8befde9b8dc:
	cbz	x1, .LBB79_27
	sub	sp, sp, #80
	stp	x22, x21, [sp, #48]
	mov	x21, xzr
	stp	x20, x19, [sp, #64]
	mov	x19, x1
	mov	x20, x0
	stp	x29, x30, [sp, #16]
	add	x29, sp, #16
	stp	x24, x23, [sp, #32]
	b	.LBB79_3
.LBB79_2:
	mov	x0, x20
	mov	x1, x19
	mov	x2, x21
	bl	link_state.walk.fill_last.2d7ef8befde9b8dc
	mov	x21, x0
	cmp	x0, x19
	b.hs	.LBB79_26
.LBB79_3:
	sub	x8, x19, x21
	cmp	x8, #7
	b.ls	.LBB79_2
	add	x9, x20, x21
	ldrh	w24, [x9]
	cmp	w24, #4
	b.lo	.LBB79_26
	cmp	x8, x24
	b.lo	.LBB79_26
	ldrb	w8, [x9, #2]
	ldrb	w10, [x9, #3]
	add	x22, x9, #4
	bfi	w8, w10, #8, #6
	cmp	w8, #3
	b.gt	.LBB79_10
	cmp	w8, #1
	b.gt	.LBB79_13
	cbz	w8, .LBB79_17
	cmp	w8, #1
	b.eq	.LBB79_17
	b	.LBB79_25
.LBB79_10:
	cmp	w8, #6
	b.gt	.LBB79_15
	cmp	w8, #4
	b.eq	.LBB79_17
	cmp	w8, #5
	b.eq	.LBB79_17
	b	.LBB79_25
.LBB79_13:
	cmp	w8, #2
	b.eq	.LBB79_17
	cmp	w8, #3
	b.eq	.LBB79_17
	b	.LBB79_25
.LBB79_15:
	cmp	w8, #7
	b.eq	.LBB79_17
	cmp	w8, #8
	b.ne	.LBB79_25
.LBB79_17:
	cmp	w24, #4
	b.eq	.LBB79_25
	cmp	w24, #8
	b.ne	.LBB79_21
	sub	x8, x29, #4
	stur	wzr, [x29, #-4]
	sub	x8, x22, x8
	cmp	x8, #3
	b.hi	.LBB79_24
	ldur	w8, [x29, #-4]
	str	w8, [x22]
	b	.LBB79_25
.LBB79_21:
	subs	x23, x24, #5
	b.eq	.LBB79_23
	mov	x0, x22
	mov	w1, wzr
	mov	x2, x23
	bl	memset
.LBB79_23:
	strb	wzr, [x22, x23]
	b	.LBB79_25
.LBB79_24:
	str	wzr, [x22]
.LBB79_25:
	sub	x8, x24, #1
	sub	x10, x19, x21
	and	x8, x8, #0xfffffffffffffffc
	sub	x10, x10, x24
	sub	x9, x8, x24
	add	x8, x21, x8
	add	x9, x9, #4
	add	x8, x8, #4
	cmp	x9, x10
	csel	x21, x8, x19, lo
	cmp	x21, x19
	b.lo	.LBB79_3
.LBB79_26:
	ldp	x20, x19, [sp, #64]
	ldp	x22, x21, [sp, #48]
	ldp	x24, x23, [sp, #32]
	ldp	x29, x30, [sp, #16]
	add	sp, sp, #80
.LBB79_27:
	ret
.Lfunc_end79:
	.size	link_state.walk.fill_list.2d7ef8befde9b8dc, .Lfunc_end79-link_state.walk.fill_list.2d7ef8befde9b8dc

	.section	.text.link_state.walk.fill_last.2d7ef8befde9b8dc,"ax",@progbits
	.p2align	2
	.type	link_state.walk.fill_last.2d7ef8befde9b8dc,@function
link_state.walk.fill_last.2d7ef8befde9b8dc:
	stp	x29, x30, [sp, #-64]!
	sub	x9, x1, x2
	stp	x20, x19, [sp, #48]
	mov	x19, x1
	cmp	x9, #4
	str	x23, [sp, #16]
	mov	x29, sp
	stp	x22, x21, [sp, #32]
	b.lo	.LBB80_24
	add	x10, x0, x2
	ldrh	w8, [x10]
	cmp	w8, #4
	b.lo	.LBB80_24
	cmp	x9, x8
	b.lo	.LBB80_24
	ldrb	w9, [x10, #2]
	ldrb	w11, [x10, #3]
	sub	x22, x8, #4
	add	x20, x10, #4
	bfi	w9, w11, #8, #6
	cmp	w9, #3
	b.gt	.LBB80_7
	cmp	w9, #1
	b.gt	.LBB80_10
	cbz	w9, .LBB80_14
	cmp	w9, #1
	b.eq	.LBB80_14
	b	.LBB80_23
.LBB80_7:
	cmp	w9, #6
	b.gt	.LBB80_12
	cmp	w9, #4
	b.eq	.LBB80_14
	cmp	w9, #5
	b.eq	.LBB80_14
	b	.LBB80_23
.LBB80_10:
	cmp	w9, #2
	b.eq	.LBB80_14
	cmp	w9, #3
	b.eq	.LBB80_14
	b	.LBB80_23
.LBB80_12:
	cmp	w9, #7
	b.eq	.LBB80_14
	cmp	w9, #8
	b.ne	.LBB80_23
.LBB80_14:
	cmp	w8, #4
	b.eq	.LBB80_18
	cmp	w8, #8
	b.ne	.LBB80_19
	add	x8, x29, #28
	str	wzr, [x29, #28]
	sub	x8, x20, x8
	cmp	x8, #3
	b.hi	.LBB80_22
	ldr	w8, [x29, #28]
	mov	w22, #4
	str	w8, [x20]
	b	.LBB80_23
.LBB80_18:
	mov	x22, xzr
	b	.LBB80_23
.LBB80_19:
	subs	x21, x8, #5
	b.eq	.LBB80_21
	mov	x0, x20
	mov	w1, wzr
	mov	x23, x2
	mov	x2, x21
	bl	memset
	mov	x2, x23
.LBB80_21:
	strb	wzr, [x20, x21]
	b	.LBB80_23
.LBB80_22:
	str	wzr, [x20]
	mov	w22, #4
.LBB80_23:
	add	x8, x22, #3
	sub	x9, x19, x2
	and	x8, x8, #0xfffffffffffffffc
	sub	x9, x9, x22
	sub	x10, x8, x22
	add	x8, x2, x8
	sub	x9, x9, #4
	add	x8, x8, #4
	cmp	x10, x9
	csel	x19, x8, x19, lo
.LBB80_24:
	mov	x0, x19
	ldp	x20, x19, [sp, #48]
	ldp	x22, x21, [sp, #32]
	ldr	x23, [sp, #16]
	ldp	x29, x30, [sp], #64
	ret
.Lfunc_end80:
	.size	link_state.walk.fill_last.2d7ef8befde9b8dc, .Lfunc_end80-link_state.walk.fill_last.2d7ef8befde9b8dc

	.section	.text.link_state.walk.fill_list.9d96636e1df08d27,"ax",@progbits
	.p2align	2
	.type	link_state.walk.fill_list.9d96636e1df08d27,@function
link_state.walk.fill_list.9d96636e1df08d27:
	cbz	x1, .LBB81_30
	sub	sp, sp, #96
	stp	x22, x21, [sp, #64]
	mov	x21, x0
	mov	x22, xzr
	stp	x20, x19, [sp, #80]
	mov	x19, x2
	mov	x20, x1
	stp	x29, x30, [sp, #16]
	add	x29, sp, #16
	stp	x26, x25, [sp, #32]
	stp	x24, x23, [sp, #48]
	b	.LBB81_3
.LBB81_2:
	mov	x0, x21
	mov	x1, x20
	mov	x2, x22
	mov	x3, x19
	bl	link_state.walk.fill_last.9d96636e1df08d27
	mov	x22, x0
	cmp	x0, x20
	b.hs	.LBB81_29
.LBB81_3:
	sub	x9, x20, x22
	cmp	x9, #7
	b.ls	.LBB81_2
	add	x8, x21, x22
	ldrh	w25, [x8]
	cmp	w25, #4
	b.lo	.LBB81_29
	cmp	x9, x25
	b.lo	.LBB81_29
	ldrb	w9, [x8, #2]
	ldrb	w10, [x8, #3]
	sub	x26, x25, #4
	add	x0, x8, #4
	bfi	w9, w10, #8, #6
	cmp	w9, #5
	b.eq	.LBB81_17
	cmp	w9, #3
	b.eq	.LBB81_13
	cmp	w9, #2
	b.ne	.LBB81_28
	ldrb	w8, [x19]
	cmp	w8, #1
	b.le	.LBB81_20
	cmp	w8, #2
	b.eq	.LBB81_25
	cmp	w8, #3
	b.ne	.LBB81_28
	sub	x1, x25, #4
	bl	link_state.walk.fill_list.56d093dd984761dd
	b	.LBB81_28
.LBB81_13:
	cmp	w25, #4
	b.eq	.LBB81_28
	cmp	w25, #8
	b.ne	.LBB81_22
	sub	x8, x29, #4
	stur	wzr, [x29, #-4]
	sub	x8, x0, x8
	cmp	x8, #3
	b.hi	.LBB81_27
	ldur	w8, [x29, #-4]
	str	w8, [x0]
	b	.LBB81_28
.LBB81_17:
	ldrb	w8, [x19, #1]
	sub	w9, w8, #2
	cmp	w9, #3
	b.lo	.LBB81_28
	sub	x1, x25, #4
	cmp	w8, #1
	b.ne	.LBB81_26
	bl	link_state.walk.fill_list.cc05a3b9406ebc1a
	b	.LBB81_28
.LBB81_20:
	cbnz	w8, .LBB81_28
	sub	x1, x25, #4
	bl	link_state.walk.fill_list.912baa29ef1db3d8
	b	.LBB81_28
.LBB81_22:
	subs	x23, x25, #5
	b.eq	.LBB81_24
	mov	w1, wzr
	mov	x2, x23
	mov	x24, x0
	bl	memset
	mov	x0, x24
.LBB81_24:
	strb	wzr, [x0, x23]
	b	.LBB81_28
.LBB81_25:
	sub	x1, x25, #4
	bl	link_state.walk.fill_list.d502f879263cb481
	b	.LBB81_28
.LBB81_26:
	bl	link_state.walk.fill_list.7c7781c0b5effb6b
	b	.LBB81_28
.LBB81_27:
	str	wzr, [x0]
.LBB81_28:
	sub	x8, x25, #1
	sub	x9, x20, x22
	and	x8, x8, #0xfffffffffffffffc
	sub	x9, x9, x25
	sub	x10, x8, x26
	add	x8, x22, x8
	add	x8, x8, #4
	cmp	x10, x9
	csel	x22, x8, x20, lo
	cmp	x22, x20
	b.lo	.LBB81_3
.LBB81_29:
	ldp	x20, x19, [sp, #80]
	ldp	x22, x21, [sp, #64]
	ldp	x24, x23, [sp, #48]
	ldp	x26, x25, [sp, #32]
	ldp	x29, x30, [sp, #16]
	add	sp, sp, #96
.LBB81_30:
	ret
.Lfunc_end81:
	.size	link_state.walk.fill_list.9d96636e1df08d27, .Lfunc_end81-link_state.walk.fill_list.9d96636e1df08d27

	.section	.text.link_state.walk.fill_last.9d96636e1df08d27,"ax",@progbits
	.p2align	2
	.type	link_state.walk.fill_last.9d96636e1df08d27,@function
link_state.walk.fill_last.9d96636e1df08d27:
	stp	x29, x30, [sp, #-64]!
	sub	x10, x1, x2
	stp	x20, x19, [sp, #48]
	mov	x19, x1
	cmp	x10, #4
	str	x23, [sp, #16]
	mov	x29, sp
	stp	x22, x21, [sp, #32]
	b.lo	.LBB82_27
	add	x9, x0, x2
	ldrh	w8, [x9]
	cmp	w8, #4
	b.lo	.LBB82_27
	cmp	x10, x8
	b.lo	.LBB82_27
	ldrb	w10, [x9, #2]
	ldrb	w11, [x9, #3]
	sub	x20, x8, #4
	add	x0, x9, #4
	bfi	w10, w11, #8, #6
	cmp	w10, #5
	b.eq	.LBB82_14
	cmp	w10, #3
	b.eq	.LBB82_10
	cmp	w10, #2
	b.ne	.LBB82_26
	ldrb	w8, [x3]
	cmp	w8, #1
	b.le	.LBB82_17
	cmp	w8, #2
	b.eq	.LBB82_23
	cmp	w8, #3
	b.ne	.LBB82_26
	mov	x1, x20
	mov	x21, x2
	bl	link_state.walk.fill_list.56d093dd984761dd
	b	.LBB82_25
.LBB82_10:
	cmp	w8, #4
	b.eq	.LBB82_19
	cmp	w8, #8
	b.ne	.LBB82_20
	add	x8, x29, #28
	str	wzr, [x29, #28]
	sub	x8, x0, x8
	cmp	x8, #3
	b.hi	.LBB82_28
	ldr	w8, [x29, #28]
	mov	w20, #4
	str	w8, [x0]
	b	.LBB82_26
.LBB82_14:
	ldrb	w8, [x3, #1]
	sub	w9, w8, #2
	cmp	w9, #3
	b.lo	.LBB82_26
	cmp	w8, #1
	b.ne	.LBB82_24
	mov	x1, x20
	mov	x21, x2
	bl	link_state.walk.fill_list.cc05a3b9406ebc1a
	b	.LBB82_25
.LBB82_17:
	cbnz	w8, .LBB82_26
	mov	x1, x20
	mov	x21, x2
	bl	link_state.walk.fill_list.912baa29ef1db3d8
	b	.LBB82_25
.LBB82_19:
	mov	x20, xzr
	b	.LBB82_26
.LBB82_20:
	subs	x21, x8, #5
	b.eq	.LBB82_22
	mov	w1, wzr
	mov	x23, x2
	mov	x2, x21
	mov	x22, x0
	bl	memset
	mov	x0, x22
	mov	x2, x23
.LBB82_22:
	strb	wzr, [x0, x21]
	b	.LBB82_26
.LBB82_23:
	mov	x1, x20
	mov	x21, x2
	bl	link_state.walk.fill_list.d502f879263cb481
	b	.LBB82_25
.LBB82_24:
	mov	x1, x20
	mov	x21, x2
	bl	link_state.walk.fill_list.7c7781c0b5effb6b
.LBB82_25:
	mov	x2, x21
.LBB82_26:
	add	x8, x20, #3
	sub	x9, x19, x2
	and	x8, x8, #0xfffffffffffffffc
	sub	x9, x9, x20
	sub	x10, x8, x20
	add	x8, x2, x8
	sub	x9, x9, #4
	add	x8, x8, #4
	cmp	x10, x9
	csel	x19, x8, x19, lo
.LBB82_27:
	mov	x0, x19
	ldp	x20, x19, [sp, #48]
	ldp	x22, x21, [sp, #32]
	ldr	x23, [sp, #16]
	ldp	x29, x30, [sp], #64
	ret
.LBB82_28:
	str	wzr, [x0]
	mov	w20, #4
	b	.LBB82_26
.Lfunc_end82:
	.size	link_state.walk.fill_last.9d96636e1df08d27, .Lfunc_end82-link_state.walk.fill_last.9d96636e1df08d27

	.section	.text.link_state.walk.fill_list.912baa29ef1db3d8,"ax",@progbits
	.p2align	2
	.type	link_state.walk.fill_list.912baa29ef1db3d8,@function
link_state.walk.fill_list.912baa29ef1db3d8:
	cbz	x1, .LBB83_24
	stp	x29, x30, [sp, #-80]!
	stp	x22, x21, [sp, #48]
	mov	x21, xzr
	mov	x29, sp
	stp	x20, x19, [sp, #64]
	mov	x19, x1
	mov	x20, x0
	str	x25, [sp, #16]
	stp	x24, x23, [sp, #32]
	b	.LBB83_3
.LBB83_2:
	mov	x0, x20
	mov	x1, x19
	mov	x2, x21
	bl	link_state.walk.fill_last.912baa29ef1db3d8
	mov	x21, x0
	cmp	x0, x19
	b.hs	.LBB83_23
.LBB83_3:
	sub	x8, x19, x21
	cmp	x8, #7
	b.ls	.LBB83_2
	add	x9, x20, x21
	ldrh	w24, [x9]
	cmp	w24, #4
	b.lo	.LBB83_23
	cmp	x8, x24
	b.lo	.LBB83_23
	ldrb	w8, [x9, #2]
	ldrb	w10, [x9, #3]
	sub	x25, x24, #4
	add	x22, x9, #4
	bfi	w8, w10, #8, #6
	cmp	w8, #18
	b.gt	.LBB83_10
	cmp	w8, #16
	b.eq	.LBB83_13
	cmp	w8, #17
	b.eq	.LBB83_13
	cmp	w8, #18
	b.eq	.LBB83_13
	b	.LBB83_22
.LBB83_10:
	cmp	w8, #19
	b.eq	.LBB83_13
	cmp	w8, #47
	b.eq	.LBB83_20
	cmp	w8, #48
	b.ne	.LBB83_22
.LBB83_13:
	cmp	w24, #4
	b.eq	.LBB83_22
	cmp	w24, #8
	b.ne	.LBB83_17
	add	x8, x29, #28
	str	wzr, [x29, #28]
	sub	x8, x22, x8
	cmp	x8, #3
	b.hi	.LBB83_21
	ldr	w8, [x29, #28]
	str	w8, [x22]
	b	.LBB83_22
.LBB83_17:
	subs	x23, x24, #5
	b.eq	.LBB83_19
	mov	x0, x22
	mov	w1, wzr
	mov	x2, x23
	bl	memset
.LBB83_19:
	strb	wzr, [x22, x23]
	b	.LBB83_22
.LBB83_20:
	sub	x1, x24, #4
	mov	x0, x22
	bl	link_state.walk.fill_list.ab630e45b336543c
	b	.LBB83_22
.LBB83_21:
	str	wzr, [x22]
.LBB83_22:
	sub	x8, x24, #1
	sub	x9, x19, x21
	and	x8, x8, #0xfffffffffffffffc
	sub	x9, x9, x24
	sub	x10, x8, x25
	add	x8, x21, x8
	add	x8, x8, #4
	cmp	x10, x9
	csel	x21, x8, x19, lo
	cmp	x21, x19
	b.lo	.LBB83_3
.LBB83_23:
	ldp	x20, x19, [sp, #64]
	ldr	x25, [sp, #16]
	ldp	x22, x21, [sp, #48]
	ldp	x24, x23, [sp, #32]
	ldp	x29, x30, [sp], #80
.LBB83_24:
	ret
.Lfunc_end83:
	.size	link_state.walk.fill_list.912baa29ef1db3d8, .Lfunc_end83-link_state.walk.fill_list.912baa29ef1db3d8

	.section	.text.link_state.walk.fill_last.912baa29ef1db3d8,"ax",@progbits
	.p2align	2
	.type	link_state.walk.fill_last.912baa29ef1db3d8,@function
link_state.walk.fill_last.912baa29ef1db3d8:
	stp	x29, x30, [sp, #-64]!
	sub	x9, x1, x2
	stp	x20, x19, [sp, #48]
	mov	x19, x1
	cmp	x9, #4
	str	x23, [sp, #16]
	mov	x29, sp
	stp	x22, x21, [sp, #32]
	b.lo	.LBB84_21
	add	x10, x0, x2
	ldrh	w8, [x10]
	cmp	w8, #4
	b.lo	.LBB84_21
	cmp	x9, x8
	b.lo	.LBB84_21
	ldrb	w9, [x10, #2]
	ldrb	w11, [x10, #3]
	sub	x20, x8, #4
	add	x21, x10, #4
	bfi	w9, w11, #8, #6
	cmp	w9, #18
	b.gt	.LBB84_7
	cmp	w9, #16
	b.eq	.LBB84_10
	cmp	w9, #17
	b.eq	.LBB84_10
	cmp	w9, #18
	b.eq	.LBB84_10
	b	.LBB84_20
.LBB84_7:
	cmp	w9, #19
	b.eq	.LBB84_10
	cmp	w9, #47
	b.eq	.LBB84_18
	cmp	w9, #48
	b.ne	.LBB84_20
.LBB84_10:
	cmp	w8, #4
	b.eq	.LBB84_14
	cmp	w8, #8
	b.ne	.LBB84_15
	add	x8, x29, #28
	str	wzr, [x29, #28]
	sub	x8, x21, x8
	cmp	x8, #3
	b.hi	.LBB84_19
	ldr	w8, [x29, #28]
	mov	w20, #4
	str	w8, [x21]
	b	.LBB84_20
.LBB84_14:
	mov	x20, xzr
	b	.LBB84_20
.LBB84_15:
	subs	x22, x8, #5
	b.eq	.LBB84_17
	mov	x0, x21
	mov	w1, wzr
	mov	x23, x2
	mov	x2, x22
	bl	memset
	mov	x2, x23
.LBB84_17:
	strb	wzr, [x21, x22]
	b	.LBB84_20
.LBB84_18:
	mov	x0, x21
	mov	x1, x20
	mov	x21, x2
	bl	link_state.walk.fill_list.ab630e45b336543c
	mov	x2, x21
	b	.LBB84_20
.LBB84_19:
	str	wzr, [x21]
	mov	w20, #4
.LBB84_20:
	add	x8, x20, #3
	sub	x9, x19, x2
	and	x8, x8, #0xfffffffffffffffc
	sub	x9, x9, x20
	sub	x10, x8, x20
	add	x8, x2, x8
	sub	x9, x9, #4
	add	x8, x8, #4
	cmp	x10, x9
	csel	x19, x8, x19, lo
.LBB84_21:
	mov	x0, x19
	ldp	x20, x19, [sp, #48]
	ldp	x22, x21, [sp, #32]
	ldr	x23, [sp, #16]
	ldp	x29, x30, [sp], #64
	ret
.Lfunc_end84:
	.size	link_state.walk.fill_last.912baa29ef1db3d8, .Lfunc_end84-link_state.walk.fill_last.912baa29ef1db3d8

	.section	.text.link_state.walk.fill_list.ab630e45b336543c,"ax",@progbits
	.p2align	2
	.type	link_state.walk.fill_list.ab630e45b336543c,@function
link_state.walk.fill_list.ab630e45b336543c:
	cbz	x1, .LBB85_22
	sub	sp, sp, #80
	stp	x22, x21, [sp, #48]
	mov	x21, xzr
	stp	x20, x19, [sp, #64]
	mov	x19, x1
	mov	x20, x0
	stp	x29, x30, [sp, #16]
	add	x29, sp, #16
	stp	x24, x23, [sp, #32]
	b	.LBB85_3
.LBB85_2:
	mov	x0, x20
	mov	x1, x19
	mov	x2, x21
	bl	link_state.walk.fill_last.ab630e45b336543c
	mov	x21, x0
	cmp	x0, x19
	b.hs	.LBB85_21
.LBB85_3:
	sub	x9, x19, x21
	cmp	x9, #7
	b.ls	.LBB85_2
	add	x8, x20, x21
	ldrh	w24, [x8]
	cmp	w24, #4
	b.lo	.LBB85_21
	cmp	x9, x24
	b.lo	.LBB85_21
	ldrb	w9, [x8, #2]
	ldrb	w10, [x8, #3]
	add	x22, x8, #4
	bfi	w9, w10, #8, #6
	cmp	w9, #7
	b.eq	.LBB85_12
	cmp	w9, #3
	b.ne	.LBB85_20
	cmp	w24, #4
	b.eq	.LBB85_20
	cmp	w24, #8
	b.ne	.LBB85_16
	sub	x8, x29, #4
	stur	wzr, [x29, #-4]
	sub	x8, x22, x8
	cmp	x8, #3
	b.hi	.LBB85_19
	ldur	w8, [x29, #-4]
	str	w8, [x22]
	b	.LBB85_20
.LBB85_12:
	cmp	w24, #4
	b.eq	.LBB85_20
	cmp	w24, #8
	b.ne	.LBB85_16
	add	x8, sp, #8
	str	wzr, [sp, #8]
	sub	x8, x22, x8
	cmp	x8, #3
	b.hi	.LBB85_19
	ldr	w8, [sp, #8]
	str	w8, [x22]
	b	.LBB85_20
.LBB85_16:
	subs	x23, x24, #5
	b.eq	.LBB85_18
	mov	x0, x22
	mov	w1, wzr
	mov	x2, x23
	bl	memset
.LBB85_18:
	strb	wzr, [x22, x23]
	b	.LBB85_20
.LBB85_19:
	str	wzr, [x22]
.LBB85_20:
	sub	x8, x24, #1
	sub	x10, x19, x21
	and	x8, x8, #0xfffffffffffffffc
	sub	x10, x10, x24
	sub	x9, x8, x24
	add	x8, x21, x8
	add	x9, x9, #4
	add	x8, x8, #4
	cmp	x9, x10
	csel	x21, x8, x19, lo
	cmp	x21, x19
	b.lo	.LBB85_3
.LBB85_21:
	ldp	x20, x19, [sp, #64]
	ldp	x22, x21, [sp, #48]
	ldp	x24, x23, [sp, #32]
	ldp	x29, x30, [sp, #16]
	add	sp, sp, #80
.LBB85_22:
	ret
.Lfunc_end85:
	.size	link_state.walk.fill_list.ab630e45b336543c, .Lfunc_end85-link_state.walk.fill_list.ab630e45b336543c

	.section	.text.link_state.walk.fill_last.ab630e45b336543c,"ax",@progbits
	.p2align	2
	.type	link_state.walk.fill_last.ab630e45b336543c,@function
link_state.walk.fill_last.ab630e45b336543c:
	stp	x29, x30, [sp, #-64]!
	sub	x10, x1, x2
	stp	x20, x19, [sp, #48]
	mov	x19, x1
	cmp	x10, #4
	str	x23, [sp, #16]
	mov	x29, sp
	stp	x22, x21, [sp, #32]
	b.lo	.LBB86_20
	add	x9, x0, x2
	ldrh	w8, [x9]
	cmp	w8, #4
	b.lo	.LBB86_20
	cmp	x10, x8
	b.lo	.LBB86_20
	ldrb	w10, [x9, #2]
	ldrb	w11, [x9, #3]
	sub	x22, x8, #4
	add	x20, x9, #4
	bfi	w10, w11, #8, #6
	cmp	w10, #7
	b.eq	.LBB86_9
	cmp	w10, #3
	b.ne	.LBB86_19
	cmp	w8, #4
	b.eq	.LBB86_14
	cmp	w8, #8
	b.ne	.LBB86_15
	add	x8, x29, #28
	str	wzr, [x29, #28]
	sub	x8, x20, x8
	cmp	x8, #3
	b.hi	.LBB86_18
	ldr	w8, [x29, #28]
	b	.LBB86_13
.LBB86_9:
	cmp	w8, #4
	b.eq	.LBB86_14
	cmp	w8, #8
	b.ne	.LBB86_15
	add	x8, x29, #24
	str	wzr, [x29, #24]
	sub	x8, x20, x8
	cmp	x8, #3
	b.hi	.LBB86_18
	ldr	w8, [x29, #24]
.LBB86_13:
	str	w8, [x20]
	mov	w22, #4
	b	.LBB86_19
.LBB86_14:
	mov	x22, xzr
	b	.LBB86_19
.LBB86_15:
	subs	x21, x8, #5
	b.eq	.LBB86_17
	mov	x0, x20
	mov	w1, wzr
	mov	x23, x2
	mov	x2, x21
	bl	memset
	mov	x2, x23
.LBB86_17:
	strb	wzr, [x20, x21]
	b	.LBB86_19
.LBB86_18:
	str	wzr, [x20]
	mov	w22, #4
.LBB86_19:
	add	x8, x22, #3
	sub	x9, x19, x2
	and	x8, x8, #0xfffffffffffffffc
	sub	x9, x9, x22
	sub	x10, x8, x22
	add	x8, x2, x8
	sub	x9, x9, #4
	add	x8, x8, #4
	cmp	x10, x9
	csel	x19, x8, x19, lo
.LBB86_20:
	mov	x0, x19
	ldp	x20, x19, [sp, #48]
	ldp	x22, x21, [sp, #32]
	ldr	x23, [sp, #16]
	ldp	x29, x30, [sp], #64
	ret
.Lfunc_end86:
	.size	link_state.walk.fill_last.ab630e45b336543c, .Lfunc_end86-link_state.walk.fill_last.ab630e45b336543c

	.section	.text.link_state.walk.fill_list.7c7781c0b5effb6b,"ax",@progbits
	.p2align	2
	.type	link_state.walk.fill_list.7c7781c0b5effb6b,@function
link_state.walk.fill_list.7c7781c0b5effb6b:
	cbz	x1, .LBB87_25
	sub	sp, sp, #80
	stp	x22, x21, [sp, #48]
	mov	x21, xzr
	stp	x20, x19, [sp, #64]
	mov	x19, x1
	mov	x20, x0
	stp	x29, x30, [sp, #16]
	add	x29, sp, #16
	stp	x24, x23, [sp, #32]
	b	.LBB87_3
.LBB87_2:
	mov	x0, x20
	mov	x1, x19
	mov	x2, x21
	bl	link_state.walk.fill_last.7c7781c0b5effb6b
	mov	x21, x0
	cmp	x0, x19
	b.hs	.LBB87_24
.LBB87_3:
	sub	x8, x19, x21
	cmp	x8, #7
	b.ls	.LBB87_2
	add	x9, x20, x21
	ldrh	w24, [x9]
	cmp	w24, #4
	b.lo	.LBB87_24
	cmp	x8, x24
	b.lo	.LBB87_24
	ldrb	w8, [x9, #2]
	ldrb	w10, [x9, #3]
	add	x22, x9, #4
	bfi	w8, w10, #8, #6
	cmp	w8, #21
	b.le	.LBB87_10
	cmp	w8, #37
	b.gt	.LBB87_13
	cmp	w8, #22
	b.eq	.LBB87_15
	cmp	w8, #23
	b.eq	.LBB87_15
	b	.LBB87_23
.LBB87_10:
	cmp	w8, #19
	b.eq	.LBB87_15
	cmp	w8, #20
	b.eq	.LBB87_15
	cmp	w8, #21
	b.eq	.LBB87_15
	b	.LBB87_23
.LBB87_13:
	cmp	w8, #38
	b.eq	.LBB87_15
	cmp	w8, #41
	b.ne	.LBB87_23
.LBB87_15:
	cmp	w24, #4
	b.eq	.LBB87_23
	cmp	w24, #8
	b.ne	.LBB87_19
	sub	x8, x29, #4
	stur	wzr, [x29, #-4]
	sub	x8, x22, x8
	cmp	x8, #3
	b.hi	.LBB87_22
	ldur	w8, [x29, #-4]
	str	w8, [x22]
	b	.LBB87_23
.LBB87_19:
	subs	x23, x24, #5
	b.eq	.LBB87_21
	mov	x0, x22
	mov	w1, wzr
	mov	x2, x23
	bl	memset
.LBB87_21:
	strb	wzr, [x22, x23]
	b	.LBB87_23
.LBB87_22:
	str	wzr, [x22]
.LBB87_23:
	sub	x8, x24, #1
	sub	x10, x19, x21
	and	x8, x8, #0xfffffffffffffffc
	sub	x10, x10, x24
	sub	x9, x8, x24
	add	x8, x21, x8
	add	x9, x9, #4
	add	x8, x8, #4
	cmp	x9, x10
	csel	x21, x8, x19, lo
	cmp	x21, x19
	b.lo	.LBB87_3
.LBB87_24:
	ldp	x20, x19, [sp, #64]
	ldp	x22, x21, [sp, #48]
	ldp	x24, x23, [sp, #32]
	ldp	x29, x30, [sp, #16]
	add	sp, sp, #80
.LBB87_25:
	ret
.Lfunc_end87:
	.size	link_state.walk.fill_list.7c7781c0b5effb6b, .Lfunc_end87-link_state.walk.fill_list.7c7781c0b5effb6b

	.section	.text.link_state.walk.fill_last.7c7781c0b5effb6b,"ax",@progbits
	.p2align	2
	.type	link_state.walk.fill_last.7c7781c0b5effb6b,@function
link_state.walk.fill_last.7c7781c0b5effb6b:
	stp	x29, x30, [sp, #-64]!
	sub	x9, x1, x2
	stp	x20, x19, [sp, #48]
	mov	x19, x1
	cmp	x9, #4
	str	x23, [sp, #16]
	mov	x29, sp
	stp	x22, x21, [sp, #32]
	b.lo	.LBB88_22
	add	x10, x0, x2
	ldrh	w8, [x10]
	cmp	w8, #4
	b.lo	.LBB88_22
	cmp	x9, x8
	b.lo	.LBB88_22
	ldrb	w9, [x10, #2]
	ldrb	w11, [x10, #3]
	sub	x22, x8, #4
	add	x20, x10, #4
	bfi	w9, w11, #8, #6
	cmp	w9, #21
	b.le	.LBB88_7
	cmp	w9, #37
	b.gt	.LBB88_10
	cmp	w9, #22
	b.eq	.LBB88_12
	cmp	w9, #23
	b.eq	.LBB88_12
	b	.LBB88_21
.LBB88_7:
	cmp	w9, #19
	b.eq	.LBB88_12
	cmp	w9, #20
	b.eq	.LBB88_12
	cmp	w9, #21
	b.eq	.LBB88_12
	b	.LBB88_21
.LBB88_10:
	cmp	w9, #38
	b.eq	.LBB88_12
	cmp	w9, #41
	b.ne	.LBB88_21
.LBB88_12:
	cmp	w8, #4
	b.eq	.LBB88_16
	cmp	w8, #8
	b.ne	.LBB88_17
	add	x8, x29, #28
	str	wzr, [x29, #28]
	sub	x8, x20, x8
	cmp	x8, #3
	b.hi	.LBB88_20
	ldr	w8, [x29, #28]
	mov	w22, #4
	str	w8, [x20]
	b	.LBB88_21
.LBB88_16:
	mov	x22, xzr
	b	.LBB88_21
.LBB88_17:
	subs	x21, x8, #5
	b.eq	.LBB88_19
	mov	x0, x20
	mov	w1, wzr
	mov	x23, x2
	mov	x2, x21
	bl	memset
	mov	x2, x23
.LBB88_19:
	strb	wzr, [x20, x21]
	b	.LBB88_21
.LBB88_20:
	str	wzr, [x20]
	mov	w22, #4
.LBB88_21:
	add	x8, x22, #3
	sub	x9, x19, x2
	and	x8, x8, #0xfffffffffffffffc
	sub	x9, x9, x22
	sub	x10, x8, x22
	add	x8, x2, x8
	sub	x9, x9, #4
	add	x8, x8, #4
	cmp	x10, x9
	csel	x19, x8, x19, lo
.LBB88_22:
	mov	x0, x19
	ldp	x20, x19, [sp, #48]
	ldp	x22, x21, [sp, #32]
	ldr	x23, [sp, #16]
	ldp	x29, x30, [sp], #64
	ret
.Lfunc_end88:
	.size	link_state.walk.fill_last.7c7781c0b5effb6b, .Lfunc_end88-link_state.walk.fill_last.7c7781c0b5effb6b

	.section	.text.link_state.walk.fill_list.cc05a3b9406ebc1a,"ax",@progbits
	.p2align	2
	.type	link_state.walk.fill_list.cc05a3b9406ebc1a,@function
link_state.walk.fill_list.cc05a3b9406ebc1a:
	cbz	x1, .LBB89_17
	sub	sp, sp, #80
	stp	x22, x21, [sp, #48]
	mov	x21, xzr
	stp	x20, x19, [sp, #64]
	mov	x19, x1
	mov	x20, x0
	stp	x29, x30, [sp, #16]
	add	x29, sp, #16
	stp	x24, x23, [sp, #32]
	b	.LBB89_3
.LBB89_2:
	mov	x0, x20
	mov	x1, x19
	mov	x2, x21
	bl	link_state.walk.fill_last.cc05a3b9406ebc1a
	mov	x21, x0
	cmp	x0, x19
	b.hs	.LBB89_16
.LBB89_3:
	sub	x9, x19, x21
	cmp	x9, #7
	b.ls	.LBB89_2
	add	x8, x20, x21
	ldrh	w24, [x8]
	cmp	w24, #4
	b.lo	.LBB89_16
	cmp	x9, x24
	b.lo	.LBB89_16
	ldrb	w9, [x8, #2]
	ldrb	w10, [x8, #3]
	bfi	w9, w10, #8, #6
	cmp	w9, #3
	b.ne	.LBB89_15
	cmp	w24, #4
	b.eq	.LBB89_15
	cmp	w24, #8
	add	x22, x8, #4
	b.ne	.LBB89_11
	sub	x8, x29, #4
	stur	wzr, [x29, #-4]
	sub	x8, x22, x8
	cmp	x8, #3
	b.hi	.LBB89_14
	ldur	w8, [x29, #-4]
	str	w8, [x22]
	b	.LBB89_15
.LBB89_11:
	subs	x23, x24, #5
	b.eq	.LBB89_13
	mov	x0, x22
	mov	w1, wzr
	mov	x2, x23
	bl	memset
.LBB89_13:
	strb	wzr, [x22, x23]
	b	.LBB89_15
.LBB89_14:
	str	wzr, [x22]
.LBB89_15:
	sub	x8, x24, #1
	sub	x10, x19, x21
	and	x8, x8, #0xfffffffffffffffc
	sub	x10, x10, x24
	sub	x9, x8, x24
	add	x8, x21, x8
	add	x9, x9, #4
	add	x8, x8, #4
	cmp	x9, x10
	csel	x21, x8, x19, lo
	cmp	x21, x19
	b.lo	.LBB89_3
.LBB89_16:
	ldp	x20, x19, [sp, #64]
	ldp	x22, x21, [sp, #48]
	ldp	x24, x23, [sp, #32]
	ldp	x29, x30, [sp, #16]
	add	sp, sp, #80
.LBB89_17:
	ret
.Lfunc_end89:
	.size	link_state.walk.fill_list.cc05a3b9406ebc1a, .Lfunc_end89-link_state.walk.fill_list.cc05a3b9406ebc1a

	.section	.text.link_state.walk.fill_last.cc05a3b9406ebc1a,"ax",@progbits
	.p2align	2
	.type	link_state.walk.fill_last.cc05a3b9406ebc1a,@function
link_state.walk.fill_last.cc05a3b9406ebc1a:
	stp	x29, x30, [sp, #-64]!
	sub	x10, x1, x2
	stp	x20, x19, [sp, #48]
	mov	x19, x1
	cmp	x10, #4
	str	x23, [sp, #16]
	mov	x29, sp
	stp	x22, x21, [sp, #32]
	b.lo	.LBB90_14
	add	x9, x0, x2
	ldrh	w8, [x9]
	cmp	w8, #4
	b.lo	.LBB90_14
	cmp	x10, x8
	b.lo	.LBB90_14
	ldrb	w10, [x9, #2]
	ldrb	w11, [x9, #3]
	sub	x22, x8, #4
	bfi	w10, w11, #8, #6
	cmp	w10, #3
	b.ne	.LBB90_13
	cmp	w8, #4
	b.eq	.LBB90_8
	cmp	w8, #8
	add	x20, x9, #4
	b.ne	.LBB90_9
	add	x8, x29, #28
	str	wzr, [x29, #28]
	sub	x8, x20, x8
	cmp	x8, #3
	b.hi	.LBB90_12
	ldr	w8, [x29, #28]
	mov	w22, #4
	str	w8, [x20]
	b	.LBB90_13
.LBB90_8:
	mov	x22, xzr
	b	.LBB90_13
.LBB90_9:
	subs	x21, x8, #5
	b.eq	.LBB90_11
	mov	x0, x20
	mov	w1, wzr
	mov	x23, x2
	mov	x2, x21
	bl	memset
	mov	x2, x23
.LBB90_11:
	strb	wzr, [x20, x21]
	b	.LBB90_13
.LBB90_12:
	str	wzr, [x20]
	mov	w22, #4
.LBB90_13:
	add	x8, x22, #3
	sub	x9, x19, x2
	and	x8, x8, #0xfffffffffffffffc
	sub	x9, x9, x22
	sub	x10, x8, x22
	add	x8, x2, x8
	sub	x9, x9, #4
	add	x8, x8, #4
	cmp	x10, x9
	csel	x19, x8, x19, lo
.LBB90_14:
	mov	x0, x19
	ldp	x20, x19, [sp, #48]
	ldp	x22, x21, [sp, #32]
	ldr	x23, [sp, #16]
	ldp	x29, x30, [sp], #64
	ret
.Lfunc_end90:
	.size	link_state.walk.fill_last.cc05a3b9406ebc1a, .Lfunc_end90-link_state.walk.fill_last.cc05a3b9406ebc1a

	.section	.text.link_state.walk.fill_list.d502f879263cb481,"ax",@progbits
	.p2align	2
	.type	link_state.walk.fill_list.d502f879263cb481,@function
link_state.walk.fill_list.d502f879263cb481:
	cbz	x1, .LBB91_17
	sub	sp, sp, #80
	stp	x22, x21, [sp, #48]
	mov	x21, xzr
	stp	x20, x19, [sp, #64]
	mov	x19, x1
	mov	x20, x0
	stp	x29, x30, [sp, #16]
	add	x29, sp, #16
	stp	x24, x23, [sp, #32]
	b	.LBB91_3
.LBB91_2:
	mov	x0, x20
	mov	x1, x19
	mov	x2, x21
	bl	link_state.walk.fill_last.d502f879263cb481
	mov	x21, x0
	cmp	x0, x19
	b.hs	.LBB91_16
.LBB91_3:
	sub	x9, x19, x21
	cmp	x9, #7
	b.ls	.LBB91_2
	add	x8, x20, x21
	ldrh	w24, [x8]
	cmp	w24, #4
	b.lo	.LBB91_16
	cmp	x9, x24
	b.lo	.LBB91_16
	ldrb	w9, [x8, #2]
	ldrb	w10, [x8, #3]
	bfi	w9, w10, #8, #6
	cmp	w9, #8
	b.ne	.LBB91_15
	cmp	w24, #4
	b.eq	.LBB91_15
	cmp	w24, #8
	add	x22, x8, #4
	b.ne	.LBB91_11
	sub	x8, x29, #4
	stur	wzr, [x29, #-4]
	sub	x8, x22, x8
	cmp	x8, #3
	b.hi	.LBB91_14
	ldur	w8, [x29, #-4]
	str	w8, [x22]
	b	.LBB91_15
.LBB91_11:
	subs	x23, x24, #5
	b.eq	.LBB91_13
	mov	x0, x22
	mov	w1, wzr
	mov	x2, x23
	bl	memset
.LBB91_13:
	strb	wzr, [x22, x23]
	b	.LBB91_15
.LBB91_14:
	str	wzr, [x22]
.LBB91_15:
	sub	x8, x24, #1
	sub	x10, x19, x21
	and	x8, x8, #0xfffffffffffffffc
	sub	x10, x10, x24
	sub	x9, x8, x24
	add	x8, x21, x8
	add	x9, x9, #4
	add	x8, x8, #4
	cmp	x9, x10
	csel	x21, x8, x19, lo
	cmp	x21, x19
	b.lo	.LBB91_3
.LBB91_16:
	ldp	x20, x19, [sp, #64]
	ldp	x22, x21, [sp, #48]
	ldp	x24, x23, [sp, #32]
	ldp	x29, x30, [sp, #16]
	add	sp, sp, #80
.LBB91_17:
	ret
.Lfunc_end91:
	.size	link_state.walk.fill_list.d502f879263cb481, .Lfunc_end91-link_state.walk.fill_list.d502f879263cb481

	.section	.text.link_state.walk.fill_last.d502f879263cb481,"ax",@progbits
	.p2align	2
	.type	link_state.walk.fill_last.d502f879263cb481,@function
link_state.walk.fill_last.d502f879263cb481:
	stp	x29, x30, [sp, #-64]!
	sub	x10, x1, x2
	stp	x20, x19, [sp, #48]
	mov	x19, x1
	cmp	x10, #4
	str	x23, [sp, #16]
	mov	x29, sp
	stp	x22, x21, [sp, #32]
	b.lo	.LBB92_14
	add	x9, x0, x2
	ldrh	w8, [x9]
	cmp	w8, #4
	b.lo	.LBB92_14
	cmp	x10, x8
	b.lo	.LBB92_14
	ldrb	w10, [x9, #2]
	ldrb	w11, [x9, #3]
	sub	x22, x8, #4
	bfi	w10, w11, #8, #6
	cmp	w10, #8
	b.ne	.LBB92_13
	cmp	w8, #4
	b.eq	.LBB92_8
	cmp	w8, #8
	add	x20, x9, #4
	b.ne	.LBB92_9
	add	x8, x29, #28
	str	wzr, [x29, #28]
	sub	x8, x20, x8
	cmp	x8, #3
	b.hi	.LBB92_12
	ldr	w8, [x29, #28]
	mov	w22, #4
	str	w8, [x20]
	b	.LBB92_13
.LBB92_8:
	mov	x22, xzr
	b	.LBB92_13
.LBB92_9:
	subs	x21, x8, #5
	b.eq	.LBB92_11
	mov	x0, x20
	mov	w1, wzr
	mov	x23, x2
	mov	x2, x21
	bl	memset
	mov	x2, x23
.LBB92_11:
	strb	wzr, [x20, x21]
	b	.LBB92_13
.LBB92_12:
	str	wzr, [x20]
	mov	w22, #4
.LBB92_13:
	add	x8, x22, #3
	sub	x9, x19, x2
	and	x8, x8, #0xfffffffffffffffc
	sub	x9, x9, x22
	sub	x10, x8, x22
	add	x8, x2, x8
	sub	x9, x9, #4
	add	x8, x8, #4
	cmp	x10, x9
	csel	x19, x8, x19, lo
.LBB92_14:
	mov	x0, x19
	ldp	x20, x19, [sp, #48]
	ldp	x22, x21, [sp, #32]
	ldr	x23, [sp, #16]
	ldp	x29, x30, [sp], #64
	ret
.Lfunc_end92:
	.size	link_state.walk.fill_last.d502f879263cb481, .Lfunc_end92-link_state.walk.fill_last.d502f879263cb481

	.section	.text.link_state.walk.fill_list.56d093dd984761dd,"ax",@progbits
	.p2align	2
	.type	link_state.walk.fill_list.56d093dd984761dd,@function
link_state.walk.fill_list.56d093dd984761dd:
	cbz	x1, .LBB93_17
	sub	sp, sp, #80
	stp	x22, x21, [sp, #48]
	mov	x21, xzr
	stp	x20, x19, [sp, #64]
	mov	x19, x1
	mov	x20, x0
	stp	x29, x30, [sp, #16]
	add	x29, sp, #16
	stp	x24, x23, [sp, #32]
	b	.LBB93_3
.LBB93_2:
	mov	x0, x20
	mov	x1, x19
	mov	x2, x21
	bl	link_state.walk.fill_last.56d093dd984761dd
	mov	x21, x0
	cmp	x0, x19
	b.hs	.LBB93_16
.LBB93_3:
	sub	x9, x19, x21
	cmp	x9, #7
	b.ls	.LBB93_2
	add	x8, x20, x21
	ldrh	w24, [x8]
	cmp	w24, #4
	b.lo	.LBB93_16
	cmp	x9, x24
	b.lo	.LBB93_16
	ldrb	w9, [x8, #2]
	ldrb	w10, [x8, #3]
	bfi	w9, w10, #8, #6
	cmp	w9, #5
	b.ne	.LBB93_15
	cmp	w24, #4
	b.eq	.LBB93_15
	cmp	w24, #8
	add	x22, x8, #4
	b.ne	.LBB93_11
	sub	x8, x29, #4
	stur	wzr, [x29, #-4]
	sub	x8, x22, x8
	cmp	x8, #3
	b.hi	.LBB93_14
	ldur	w8, [x29, #-4]
	str	w8, [x22]
	b	.LBB93_15
.LBB93_11:
	subs	x23, x24, #5
	b.eq	.LBB93_13
	mov	x0, x22
	mov	w1, wzr
	mov	x2, x23
	bl	memset
.LBB93_13:
	strb	wzr, [x22, x23]
	b	.LBB93_15
.LBB93_14:
	str	wzr, [x22]
.LBB93_15:
	sub	x8, x24, #1
	sub	x10, x19, x21
	and	x8, x8, #0xfffffffffffffffc
	sub	x10, x10, x24
	sub	x9, x8, x24
	add	x8, x21, x8
	add	x9, x9, #4
	add	x8, x8, #4
	cmp	x9, x10
	csel	x21, x8, x19, lo
	cmp	x21, x19
	b.lo	.LBB93_3
.LBB93_16:
	ldp	x20, x19, [sp, #64]
	ldp	x22, x21, [sp, #48]
	ldp	x24, x23, [sp, #32]
	ldp	x29, x30, [sp, #16]
	add	sp, sp, #80
.LBB93_17:
	ret
.Lfunc_end93:
	.size	link_state.walk.fill_list.56d093dd984761dd, .Lfunc_end93-link_state.walk.fill_list.56d093dd984761dd

	.section	.text.link_state.walk.fill_last.56d093dd984761dd,"ax",@progbits
	.p2align	2
	.type	link_state.walk.fill_last.56d093dd984761dd,@function
link_state.walk.fill_last.56d093dd984761dd:
	stp	x29, x30, [sp, #-64]!
	sub	x10, x1, x2
	stp	x20, x19, [sp, #48]
	mov	x19, x1
	cmp	x10, #4
	str	x23, [sp, #16]
	mov	x29, sp
	stp	x22, x21, [sp, #32]
	b.lo	.LBB94_14
	add	x9, x0, x2
	ldrh	w8, [x9]
	cmp	w8, #4
	b.lo	.LBB94_14
	cmp	x10, x8
	b.lo	.LBB94_14
	ldrb	w10, [x9, #2]
	ldrb	w11, [x9, #3]
	sub	x22, x8, #4
	bfi	w10, w11, #8, #6
	cmp	w10, #5
	b.ne	.LBB94_13
	cmp	w8, #4
	b.eq	.LBB94_8
	cmp	w8, #8
	add	x20, x9, #4
	b.ne	.LBB94_9
	add	x8, x29, #28
	str	wzr, [x29, #28]
	sub	x8, x20, x8
	cmp	x8, #3
	b.hi	.LBB94_12
	ldr	w8, [x29, #28]
	mov	w22, #4
	str	w8, [x20]
	b	.LBB94_13
.LBB94_8:
	mov	x22, xzr
	b	.LBB94_13
.LBB94_9:
	subs	x21, x8, #5
	b.eq	.LBB94_11
	mov	x0, x20
	mov	w1, wzr
	mov	x23, x2
	mov	x2, x21
	bl	memset
	mov	x2, x23
.LBB94_11:
	strb	wzr, [x20, x21]
	b	.LBB94_13
.LBB94_12:
	str	wzr, [x20]
	mov	w22, #4
.LBB94_13:
	add	x8, x22, #3
	sub	x9, x19, x2
	and	x8, x8, #0xfffffffffffffffc
	sub	x9, x9, x22
	sub	x10, x8, x22
	add	x8, x2, x8
	sub	x9, x9, #4
	add	x8, x8, #4
	cmp	x10, x9
	csel	x19, x8, x19, lo
.LBB94_14:
	mov	x0, x19
	ldp	x20, x19, [sp, #48]
	ldp	x22, x21, [sp, #32]
	ldr	x23, [sp, #16]
	ldp	x29, x30, [sp], #64
	ret
.Lfunc_end94:
	.size	link_state.walk.fill_last.56d093dd984761dd, .Lfunc_end94-link_state.walk.fill_last.56d093dd984761dd

	.section	.text.message_lines.answers.push_text,"ax",@progbits
	.p2align	2
	.type	message_lines.answers.push_text,@function
message_lines.answers.push_text:
	stp	x29, x30, [sp, #-80]!
	stp	x22, x21, [sp, #48]
	mov	x29, sp
	stp	x20, x19, [sp, #64]
	ldp	x20, x22, [x0, #8]
	stp	x26, x25, [sp, #16]
	stp	x24, x23, [sp, #32]
	sub	x8, x22, x20
	cmp	x8, #2
	b.ls	.LBB95_22
.LBB95_1:
	ldr	x21, [x0]
	adrp	x8, .Lstatic.13
	add	x8, x8, :lo12:.Lstatic.13
	add	x9, x21, x20
	sub	x8, x9, x8
	cmp	x8, #2
	add	x8, x20, #3
	b.hi	.LBB95_3
	mov	w10, #27503
	mov	w11, #32
	strh	w10, [x9]
	strb	w11, [x9, #2]
	lsl	x19, x2, #1
	stp	x21, x8, [x0]
	str	x22, [x0, #16]
	adds	x9, x19, x8
	b.hs	.LBB95_4
	b	.LBB95_5
.LBB95_3:
	mov	w10, #32
	mov	w11, #27503
	strb	w10, [x9, #2]
	strh	w11, [x9]
	lsl	x19, x2, #1
	stp	x21, x8, [x0]
	str	x22, [x0, #16]
	adds	x9, x19, x8
	b.lo	.LBB95_5
.LBB95_4:
	mov	w19, #1
	b	.LBB95_21
.LBB95_5:
	cmp	x9, x8
	b.ls	.LBB95_10
	sub	x9, x22, x8
	cmp	x19, x9
	b.hi	.LBB95_26
	add	x23, x8, x19
	cmp	x8, x23
	b.hs	.LBB95_9
.LBB95_8:
	mov	x24, x0
	add	x0, x21, x8
	mov	x25, x1
	mov	w1, wzr
	mov	x26, x2
	mov	x2, x19
	bl	memset
	mov	x2, x26
	mov	x1, x25
	mov	x0, x24
.LBB95_9:
	stp	x21, x23, [x0]
	str	x22, [x0, #16]
	b	.LBB95_12
.LBB95_10:
	cmp	x8, x9
	b.ls	.LBB95_12
	str	x9, [x0, #8]
.LBB95_12:
	cmp	x2, #16
	b.lo	.LBB95_16
	add	x9, x20, x21
	mov	x8, xzr
	mov	x10, x2
	add	x9, x9, #19
.LBB95_14:
	movi	v0.16b, #15
	ldr	q1, [x1, x8]
	movi	v2.16b, #160
	movi	v3.16b, #10
	movi	v4.16b, #87
	sub	x10, x10, #16
	movi	v5.16b, #48
	sub	x11, x9, #16
	cmp	x10, #15
	add	x8, x8, #16
	and	v0.16b, v1.16b, v0.16b
	cmhi	v2.16b, v2.16b, v1.16b
	cmhi	v3.16b, v3.16b, v0.16b
	mov	v6.16b, v2.16b
	mov	v2.16b, v3.16b
	bsl	v6.16b, v5.16b, v4.16b
	bsl	v2.16b, v5.16b, v4.16b
	usra	v6.16b, v1.16b, #4
	add	v7.16b, v2.16b, v0.16b
	zip2	v0.16b, v6.16b, v7.16b
	st2	{ v6.8b, v7.8b }, [x11]
	str	q0, [x9], #32
	b.hi	.LBB95_14
	subs	x9, x2, x8
	b.hi	.LBB95_17
	b	.LBB95_19
.LBB95_16:
	mov	x8, xzr
	subs	x9, x2, xzr
	b.ls	.LBB95_19
.LBB95_17:
	add	x10, x20, x8, lsl #1
	add	x8, x1, x8
	add	x10, x10, x21
	add	x10, x10, #4
.LBB95_18:
	ldrb	w11, [x8]
	adrp	x12, .Lstatic.146
	add	x12, x12, :lo12:.Lstatic.146
	subs	x9, x9, #1
	lsr	x11, x11, #4
	ldrb	w11, [x12, x11]
	sturb	w11, [x10, #-1]
	ldrb	w11, [x8], #1
	and	x11, x11, #0xf
	ldrb	w11, [x12, x11]
	strb	w11, [x10], #2
	b.ne	.LBB95_18
.LBB95_19:
	ldp	x8, x9, [x0, #8]
	cmp	x9, x8
	b.eq	.LBB95_24
.LBB95_20:
	ldr	x9, [x0]
	mov	w19, wzr
	add	x11, x8, #1
	mov	w10, #10
	strb	w10, [x9, x8]
	str	x11, [x0, #8]
.LBB95_21:
	mov	w0, w19
	ldp	x20, x19, [sp, #64]
	ldp	x22, x21, [sp, #48]
	ldp	x24, x23, [sp, #32]
	ldp	x26, x25, [sp, #16]
	ldp	x29, x30, [sp], #80
	ret
.LBB95_22:
	mov	x21, x1
	mov	w1, #3
	mov	x19, x2
	mov	x20, x0
	bl	std_alloc.vec.Vec.grow_amortized.05fa32d921161499
	cbz	w0, .LBB95_4
	mov	x0, x20
	ldr	x20, [x20, #8]
	mov	x1, x21
	ldr	x22, [x0, #16]
	mov	x2, x19
	b	.LBB95_1
.LBB95_24:
	mov	w1, #1
	mov	x20, x0
	mov	w19, #1
	bl	std_alloc.vec.Vec.grow_amortized.05fa32d921161499
	cbz	w0, .LBB95_21
	ldr	x8, [x20, #8]
	mov	x0, x20
	b	.LBB95_20
.LBB95_26:
	mov	x24, x1
	mov	x1, x19
	mov	x23, x2
	mov	x21, x0
	bl	std_alloc.vec.Vec.grow_amortized.05fa32d921161499
	cbz	w0, .LBB95_4
	ldp	x8, x22, [x21, #8]
	mov	x0, x21
	ldr	x21, [x21]
	mov	x1, x24
	mov	x2, x23
	add	x23, x8, x19
	cmp	x8, x23
	b.lo	.LBB95_8
	b	.LBB95_9
.Lfunc_end95:
	.size	message_lines.answers.push_text, .Lfunc_end95-message_lines.answers.push_text

	.section	.rodata.cst16,"aM",@progbits,16
	.p2align	4, 0x0
.LCPI96_0:
	.byte	0
	.byte	1
	.byte	2
	.byte	3
	.byte	4
	.byte	5
	.byte	6
	.byte	7
	.byte	8
	.byte	9
	.byte	10
	.byte	11
	.byte	12
	.byte	13
	.byte	14
	.byte	15
.LCPI96_1:
	.byte	16
	.byte	17
	.byte	18
	.byte	19
	.byte	20
	.byte	21
	.byte	22
	.byte	23
	.byte	24
	.byte	25
	.byte	26
	.byte	27
	.byte	28
	.byte	29
	.byte	30
	.byte	31
	.section	.rodata.cst8,"aM",@progbits,8
	.p2align	3, 0x0
.LCPI96_2:
	.byte	32
	.byte	33
	.byte	34
	.byte	35
	.byte	36
	.byte	37
	.byte	38
	.byte	39
	.section	.text.line_filter.write.write_out.df9e9f1468b30f79,"ax",@progbits
	.p2align	2
	.type	line_filter.write.write_out.df9e9f1468b30f79,@function
line_filter.write.write_out.df9e9f1468b30f79:
	sub	sp, sp, #160
	stp	x22, x21, [sp, #128]
	mov	x22, #-1
	stp	x20, x19, [sp, #144]
	ldp	x21, x20, [x0]
	mov	x19, x0
	stp	x29, x30, [sp, #96]
	add	x29, sp, #96
	str	x23, [sp, #112]
	b	.LBB96_2
.LBB96_1:
	subs	x22, x22, #1
	b.eq	.LBB96_10
.LBB96_2:
	cbz	x20, .LBB96_9
	mov	w0, #1
	mov	x1, x21
	mov	x2, x20
	bl	write
	tbnz	x0, #63, .LBB96_6
	cbz	x0, .LBB96_8
	cmp	x0, x20
	csel	x8, x0, x20, lo
	add	x21, x21, x8
	sub	x20, x20, x8
	b	.LBB96_1
.LBB96_6:
	bl	rattle_errno
	mov	w1, w0
	mov	x0, sp
	mov	x23, sp
	bl	std_io.io.error.Error.from_raw_os_error
	adrp	x9, .LCPI96_0
	ldr	x8, [sp]
	adrp	x10, .LCPI96_1
	ldr	q0, [x9, :lo12:.LCPI96_0]
	adrp	x9, .LCPI96_2
	ldr	q1, [x10, :lo12:.LCPI96_1]
	ldr	d2, [x9, :lo12:.LCPI96_2]
	ubfx	w9, w8, #8, #8
	mov	w10, #40
	stp	q0, q1, [sp]
	cmp	w9, #41
	str	d2, [sp, #32]
	strb	w10, [sp, #40]
	b.hs	.LBB96_8
	ubfx	x8, x8, #8, #6
	ldrb	w8, [x23, x8]
	cmp	w8, #35
	b.eq	.LBB96_1
.LBB96_8:
	mov	w0, #1
	b	.LBB96_11
.LBB96_9:
	mov	w0, wzr
	b	.LBB96_12
.LBB96_10:
	cmp	x20, #0
	cset	w0, ne
	cbz	x20, .LBB96_12
.LBB96_11:
	mov	w1, #1
	ldp	x20, x19, [sp, #144]
	ldr	x23, [sp, #112]
	ldp	x22, x21, [sp, #128]
	ldp	x29, x30, [sp, #96]
	add	sp, sp, #160
	ret
.LBB96_12:
	ldr	x8, [x19, #8]
	cbz	x8, .LBB96_14
	mov	w1, wzr
	str	xzr, [x19, #8]
	ldp	x20, x19, [sp, #144]
	ldr	x23, [sp, #112]
	ldp	x22, x21, [sp, #128]
	ldp	x29, x30, [sp, #96]
	add	sp, sp, #160
	ret
.LBB96_14:
	mov	w1, wzr
	ldp	x20, x19, [sp, #144]
	ldr	x23, [sp, #112]
	ldp	x22, x21, [sp, #128]
	ldp	x29, x30, [sp, #96]
	add	sp, sp, #160
	ret
.Lfunc_end96:
	.size	line_filter.write.write_out.df9e9f1468b30f79, .Lfunc_end96-line_filter.write.write_out.df9e9f1468b30f79

	.section	.rodata.cst8,"aM",@progbits,8
	.p2align	3, 0x0
.LCPI97_0:
	.byte	108
	.byte	105
	.byte	110
	.byte	107
	.byte	115
	.byte	116
	.byte	97
	.byte	116
.LCPI97_1:
	.byte	111
	.byte	117
	.byte	116
	.byte	32
	.byte	111
	.byte	102
	.byte	32
	.byte	109
.LCPI97_2:
	.byte	101
	.byte	109
	.byte	111
	.byte	114
	.zero	1
	.zero	1
	.zero	1
	.zero	1
.LCPI97_3:
	.byte	119
	.byte	114
	.byte	105
	.byte	116
	.byte	101
	.byte	32
	.byte	102
	.byte	97
.LCPI97_4:
	.byte	105
	.byte	108
	.byte	101
	.byte	100
	.zero	1
	.zero	1
	.zero	1
	.zero	1
.LCPI97_5:
	.byte	114
	.byte	101
	.byte	97
	.byte	100
	.byte	32
	.byte	102
	.byte	97
	.byte	105
	.section	.text.line_filter.program.ended,"ax",@progbits
	.p2align	2
	.type	line_filter.program.ended,@function
line_filter.program.ended:
	tbz	w0, #0, .LBB97_4
	stp	x29, x30, [sp, #-64]!
	str	x28, [sp, #16]
	mov	x29, sp
	stp	x22, x21, [sp, #32]
	stp	x20, x19, [sp, #48]
	sub	sp, sp, #2352
	add	x22, sp, #8
	mov	w20, w1
	mov	w8, #2
	add	x0, x22, #12
	mov	w1, wzr
	mov	w2, #1124
	str	xzr, [sp]
	add	x21, sp, #1216
	orr	x19, x22, #0x4
	str	w8, [sp, #8]
	bl	memset
	movi	v0.2d, #0000000000000000
	mov	w8, #32
	add	x10, x22, #1140
	add	x9, x22, #1160
	str	wzr, [sp, #1156]
	mov	x11, #-1
	str	w8, [sp, #1144]
	str	xzr, [x10]
	str	q0, [x9]
	add	x9, sp, #889
	ldur	q0, [x9, #255]
	adrp	x9, .LCPI97_0
	strb	w8, [sp, #22]
	str	w8, [sp, #1144]
	add	x8, x22, #1136
	str	q0, [x21]
	ldr	d0, [x9, :lo12:.LCPI97_0]
	mov	w9, #14949
	strh	w9, [sp, #20]
	and	w9, w20, #0xff
	cmp	w9, #2
	str	x11, [sp, #1160]
	str	x11, [sp, #1232]
	stur	d0, [sp, #12]
	str	xzr, [x10]
	str	wzr, [sp, #1156]
	b.eq	.LBB97_5
	cmp	w9, #1
	b.ne	.LBB97_6
	adrp	x9, .LCPI97_3
	adrp	x11, .LCPI97_4
	mov	w10, #20
	ldr	d0, [x9, :lo12:.LCPI97_3]
	ldr	d1, [x11, :lo12:.LCPI97_4]
	str	x10, [sp, #1040]
	mov	w9, #23
	stur	d0, [sp, #23]
	stur	s1, [sp, #31]
	b	.LBB97_7
.LBB97_4:
	mov	w0, wzr
	ret
.LBB97_5:
	adrp	x9, .LCPI97_1
	adrp	x11, .LCPI97_2
	mov	w10, #21
	ldr	d0, [x9, :lo12:.LCPI97_1]
	ldr	d1, [x11, :lo12:.LCPI97_2]
	mov	w9, #121
	strb	w9, [sp, #35]
	mov	w9, #24
	str	x10, [sp, #1040]
	stur	d0, [sp, #23]
	stur	s1, [sp, #31]
	b	.LBB97_7
.LBB97_6:
	adrp	x9, .LCPI97_5
	mov	w10, #19
	mov	w11, #25964
	ldr	d0, [x9, :lo12:.LCPI97_5]
	mov	w9, #100
	str	x10, [sp, #1040]
	sturh	w11, [sp, #31]
	stur	d0, [sp, #23]
	strb	w9, [sp, #33]
	mov	w9, #22
.LBB97_7:
	ldr	q0, [x21]
	ldr	x10, [sp, #1232]
	mov	w11, #10
	strb	w11, [x19, x9]
	ldr	w11, [sp, #8]
	add	x9, x9, #1
	str	q0, [x8]
	mov	x1, x19
	mov	w2, #1132
	str	x10, [x8, #16]
	add	x8, sp, #1216
	orr	x0, x8, #0x4
	str	x9, [sp, #1040]
	str	w11, [sp, #1216]
	bl	memcpy
	add	x0, sp, #1216
	bl	std_io.io.buffer.Buffer.flush
	mov	w0, #1
	add	sp, sp, #2352
	ldp	x20, x19, [sp, #48]
	ldr	x28, [sp, #16]
	ldp	x22, x21, [sp, #32]
	ldp	x29, x30, [sp], #64
	ret
.Lfunc_end97:
	.size	line_filter.program.ended, .Lfunc_end97-line_filter.program.ended

	.section	.text.line_filter.program.write_text,"ax",@progbits
	.p2align	2
	.type	line_filter.program.write_text,@function
line_filter.program.write_text:
	stp	x29, x30, [sp, #-80]!
	str	x28, [sp, #16]
	mov	x29, sp
	stp	x24, x23, [sp, #32]
	stp	x22, x21, [sp, #48]
	stp	x20, x19, [sp, #64]
	sub	sp, sp, #2448
	movi	v0.2d, #0000000000000000
	add	x22, sp, #136
	mov	x20, x1
	mov	x21, x0
	mov	w8, #1
	orr	x0, x22, #0x4
	mov	w1, wzr
	mov	w2, #1132
	str	xzr, [sp]
	str	w8, [sp, #136]
	orr	x19, x22, #0x4
	stp	q0, q0, [sp]
	bl	memset
	movi	v0.2d, #0000000000000000
	mov	w9, #32
	add	x23, x22, #1140
	str	w9, [sp, #1272]
	add	x10, x22, #1160
	add	x11, sp, #1017
	str	xzr, [x23]
	mov	x8, xzr
	add	x22, x22, #1136
	str	wzr, [sp, #1284]
	str	q0, [x10]
	ldur	q0, [x11, #255]
	mov	x10, #-1
	str	x10, [sp, #1288]
	str	q0, [sp, #1312]
	str	x10, [sp, #1328]
	str	w9, [sp, #1272]
	str	xzr, [x23]
	str	wzr, [sp, #1284]
	b	.LBB98_2
.LBB98_1:
	sub	x20, x20, #1
	strb	w24, [x19, x8]
	add	x8, x8, #1
	str	x8, [sp, #1168]
	cbz	x20, .LBB98_6
.LBB98_2:
	ldrb	w24, [x21], #1
	cmp	x8, #1024
	b.lo	.LBB98_1
	add	x0, sp, #136
	bl	std_io.io.buffer.Buffer.flush
	cbz	w0, .LBB98_5
	ldr	x8, [sp, #1168]
	cmp	x8, #1023
	b.ls	.LBB98_1
.LBB98_5:
	mov	w20, wzr
	b	.LBB98_8
.LBB98_6:
	ldr	q0, [sp, #1312]
	ldr	x8, [sp, #1328]
	mov	w9, #32
	str	q0, [x22]
	str	x8, [x22, #16]
	ldr	q0, [x22]
	str	w9, [sp, #1272]
	ldr	x9, [sp, #1296]
	str	x8, [sp, #1328]
	mov	x8, #-1
	str	xzr, [x23]
	str	q0, [sp, #1312]
	str	wzr, [x23, #8]
	str	x8, [sp, #1288]
	cbnz	x9, .LBB98_11
	mov	w20, #1
.LBB98_8:
	ldr	x8, [sp, #1328]
	ldr	q0, [sp, #1312]
	mov	x1, x19
	mov	w2, #1132
	str	x8, [x22, #16]
	ldr	w8, [sp, #136]
	str	q0, [x22]
	str	w8, [sp, #1312]
	add	x8, sp, #1312
	orr	x0, x8, #0x4
	bl	memcpy
	add	x0, sp, #1312
	bl	std_io.io.buffer.Buffer.flush
	and	w19, w20, w0
	tbnz	w19, #0, .LBB98_10
	adrp	x8, .Lstatic.0
	add	x8, x8, :lo12:.Lstatic.0
	mov	w9, #9
	stp	x8, x9, [sp]
	adrp	x8, .Lstatic.155
	add	x8, x8, :lo12:.Lstatic.155
	mov	w9, #14
	add	x0, sp, #40
	mov	x1, sp
	stp	x8, x9, [sp, #16]
	bl	std_io.io.LibcRuntimeEprint.eprintln.27a8a20715d85f24
.LBB98_10:
	eor	w0, w19, #0x1
	add	sp, sp, #2448
	ldp	x20, x19, [sp, #64]
	ldr	x28, [sp, #16]
	ldp	x22, x21, [sp, #48]
	ldp	x24, x23, [sp, #32]
	ldp	x29, x30, [sp], #80
	ret
.LBB98_11:
	adrp	x1, .Lstatic.3
	add	x1, x1, :lo12:.Lstatic.3
	add	x0, sp, #136
	mov	x2, xzr
	bl	core.fmt.formatter.Formatter.write_indented.bf264aed5fa78656
	tst	w0, #0xff
	cset	w20, eq
	b	.LBB98_8
.Lfunc_end98:
	.size	line_filter.program.write_text, .Lfunc_end98-line_filter.program.write_text

	.section	.rodata.cst16,"aM",@progbits,16
	.p2align	4, 0x0
.LCPI99_0:
	.byte	1
	.byte	2
	.byte	4
	.byte	8
	.byte	16
	.byte	32
	.byte	64
	.byte	128
	.byte	1
	.byte	2
	.byte	4
	.byte	8
	.byte	16
	.byte	32
	.byte	64
	.byte	128
	.section	.rodata.cst8,"aM",@progbits,8
	.p2align	3, 0x0
.LCPI99_1:
	.byte	101
	.byte	109
	.byte	112
	.byte	116
	.byte	121
	.byte	45
	.byte	112
	.byte	111
.LCPI99_2:
	.byte	114
	.byte	116
	.byte	115
	.byte	10
	.zero	1
	.zero	1
	.zero	1
	.zero	1
.LCPI99_3:
	.byte	117
	.byte	110
	.byte	102
	.byte	105
	.zero	1
	.zero	1
	.zero	1
	.zero	1
.LCPI99_4:
	.byte	110
	.byte	111
	.byte	116
	.byte	104
	.zero	1
	.zero	1
	.zero	1
	.zero	1
	.section	.text.line_filter.answers.AnsweringTake.take.d1b9b744fe2e7f64,"ax",@progbits
	.p2align	2
	.type	line_filter.answers.AnsweringTake.take.d1b9b744fe2e7f64,@function
line_filter.answers.AnsweringTake.take.d1b9b744fe2e7f64:
	sub	sp, sp, #288
	stp	x22, x21, [sp, #256]
	mov	x21, x1
	stp	x20, x19, [sp, #272]
	mov	x20, x0
	mov	x0, x1
	mov	x1, x2
	str	d8, [sp, #176]
	mov	x19, x3
	stp	x29, x30, [sp, #192]
	add	x29, sp, #192
	stp	x28, x27, [sp, #208]
	stp	x26, x25, [sp, #224]
	stp	x24, x23, [sp, #240]
	mov	x23, x2
	bl	line_filter.words.words_len
	mov	x22, x0
	sub	x24, x23, x0
	cbz	x0, .LBB99_10
	mov	x23, x19
	ldp	x8, x25, [x23, #8]!
	sub	x9, x25, x8
	cmp	x22, x9
	b.hi	.LBB99_62
.LBB99_2:
	ldr	x26, [x19]
	add	x27, x8, x22
	stp	xzr, xzr, [x23]
	add	x0, x26, x8
	sub	x9, x0, x21
	cmp	x9, x22
	b.hs	.LBB99_8
	cmp	x22, #8
	b.lo	.LBB99_5
	add	x9, x8, x26
	sub	x9, x9, x21
	cmp	x9, #32
	b.hs	.LBB99_49
.LBB99_5:
	mov	x9, xzr
.LBB99_6:
	add	x10, x9, x8
	sub	x8, x22, x9
	add	x9, x21, x9
	add	x10, x26, x10
.LBB99_7:
	ldrb	w11, [x9], #1
	subs	x8, x8, #1
	strb	w11, [x10], #1
	b.ne	.LBB99_7
	b	.LBB99_9
.LBB99_8:
	mov	x1, x21
	mov	x2, x22
	bl	memmove
.LBB99_9:
	stp	x26, x27, [x19]
	str	x25, [x19, #16]
	cbz	x24, .LBB99_34
.LBB99_10:
	subs	x8, x24, #3
	add	x22, x21, x22
	b.lo	.LBB99_12
	ldrb	w9, [x22]
	ldrb	w10, [x22, #1]
	mov	w11, #107
	cmp	w9, #111
	ldrb	w9, [x22, #2]
	ccmp	w10, w11, #0, eq
	mov	w10, #32
	ccmp	w9, w10, #0, eq
	mov	w9, #3
	csel	x9, xzr, x9, ne
	csel	x24, x24, x8, ne
	add	x22, x22, x9
.LBB99_12:
	lsr	x8, x24, #1
	ldr	x21, [x20, #8]
	subs	x2, x8, x21
	b.ls	.LBB99_17
	ldr	x23, [x20, #16]
	sub	x8, x23, x21
	cmp	x2, x8
	b.hi	.LBB99_66
	add	x25, x21, x2
	ldr	x26, [x20]
	cmp	x21, x25
	b.hs	.LBB99_16
.LBB99_15:
	add	x0, x26, x21
	mov	w1, wzr
	bl	memset
.LBB99_16:
	mov	x21, x25
	stp	x26, x25, [x20]
	str	x23, [x20, #16]
	b	.LBB99_19
.LBB99_17:
	b.hs	.LBB99_19
	str	x8, [x20, #8]
	mov	x21, x8
.LBB99_19:
	tbnz	w24, #0, .LBB99_22
	ldr	x23, [x20]
	cmp	x24, #2
	adrp	x8, .Lstatic.15
	add	x8, x8, :lo12:.Lstatic.15
	b.lo	.LBB99_25
	ldrb	w9, [x22]
	ldrb	w9, [x8, x9]
	cmp	w9, #15
	b.ls	.LBB99_25
.LBB99_22:
	ldp	x10, x8, [x19, #8]
	sub	x9, x8, x10
	cmp	x9, #6
	b.ls	.LBB99_64
.LBB99_23:
	ldr	x9, [x19]
	adrp	x12, .Lstatic.14
	add	x12, x12, :lo12:.Lstatic.14
	add	x11, x9, x10
	add	x10, x10, #7
	sub	x12, x11, x12
	cmp	x12, #6
	b.hi	.LBB99_30
	adrp	x12, .LCPI99_4
	mov	w13, #30821
	ldr	d0, [x12, :lo12:.LCPI99_4]
	mov	w12, #10
	strh	w13, [x11, #4]
	strb	w12, [x11, #6]
	str	s0, [x11]
	b	.LBB99_32
.LBB99_25:
	cmp	x21, #16
	b.lo	.LBB99_36
	mov	x9, xzr
	mov	x10, x22
	mov	x11, x21
.LBB99_27:
	movi	v0.16b, #32
	movi	v3.16b, #159
	adrp	x12, .LCPI99_0
	ldp	q2, q1, [x10], #32
	movi	v5.16b, #208
	movi	v6.16b, #6
	movi	v7.16b, #169
	movi	v17.16b, #10
	orr	v4.16b, v1.16b, v0.16b
	orr	v0.16b, v2.16b, v0.16b
	add	v2.16b, v2.16b, v5.16b
	add	v1.16b, v1.16b, v5.16b
	add	v16.16b, v4.16b, v3.16b
	add	v3.16b, v0.16b, v3.16b
	add	v4.16b, v4.16b, v7.16b
	add	v0.16b, v0.16b, v7.16b
	cmhi	v5.16b, v17.16b, v2.16b
	cmhs	v16.16b, v16.16b, v6.16b
	cmhs	v3.16b, v3.16b, v6.16b
	orr	v4.16b, v16.16b, v4.16b
	orr	v0.16b, v3.16b, v0.16b
	cmhi	v3.16b, v17.16b, v1.16b
	bit	v0.16b, v2.16b, v5.16b
	bif	v1.16b, v4.16b, v3.16b
	movi	v2.16b, #15
	ldr	q4, [x12, :lo12:.LCPI99_0]
	cmhi	v3.16b, v1.16b, v2.16b
	cmhi	v2.16b, v0.16b, v2.16b
	and	v2.16b, v2.16b, v4.16b
	and	v3.16b, v3.16b, v4.16b
	addp	v2.16b, v2.16b, v3.16b
	addp	v2.16b, v2.16b, v2.16b
	addp	v2.16b, v2.16b, v2.16b
	fmov	w12, s2
	cbnz	w12, .LBB99_29
	uzp1	v2.16b, v0.16b, v1.16b
	uzp2	v0.16b, v0.16b, v1.16b
	sub	x11, x11, #16
	cmp	x11, #15
	shl	v1.16b, v2.16b, #4
	orr	v0.16b, v1.16b, v0.16b
	str	q0, [x23, x9]
	add	x9, x9, #16
	b.hi	.LBB99_27
.LBB99_29:
	subs	x10, x21, x9
	b.hi	.LBB99_37
	b	.LBB99_40
.LBB99_30:
	mov	w12, #25960
	mov	w13, #28526
	movk	w12, #2680, lsl #16
	movk	w13, #26740, lsl #16
	stur	w12, [x11, #3]
.LBB99_31:
	str	w13, [x11]
.LBB99_32:
	mov	w0, wzr
	stp	x9, x10, [x19]
.LBB99_33:
	str	x8, [x19, #16]
	b	.LBB99_234
.LBB99_34:
	cmp	x25, x27
	b.eq	.LBB99_74
.LBB99_35:
	mov	w8, #10
	strb	w8, [x26, x27]
	mov	w0, wzr
	add	x8, x27, #1
	str	x8, [x23]
	b	.LBB99_234
.LBB99_36:
	mov	x9, xzr
	subs	x10, x21, xzr
	b.ls	.LBB99_40
.LBB99_37:
	add	x11, x22, x9, lsl #1
	add	x9, x23, x9
	add	x11, x11, #1
.LBB99_38:
	ldurb	w12, [x11, #-1]
	ldrb	w13, [x11], #2
	ldrb	w12, [x8, x12]
	ldrb	w13, [x8, x13]
	orr	w14, w13, w12
	cmp	w14, #15
	b.hi	.LBB99_22
	orr	w12, w13, w12, lsl #4
	subs	x10, x10, #1
	strb	w12, [x9], #1
	b.ne	.LBB99_38
.LBB99_40:
	movi	v0.2d, #0000000000000000
	mov	x0, sp
	mov	x1, x23
	mov	x2, x21
	str	xzr, [sp, #48]
	stp	q0, q0, [sp, #16]
	str	q0, [sp]
	bl	link_msg.encoding.canonical
	ldrb	w8, [sp]
	cbz	w8, .LBB99_46
	ldrb	w8, [sp, #8]
	cmp	w8, #1
	b.gt	.LBB99_51
	cbnz	w8, .LBB99_131
	subs	x20, x21, #16
	b.hs	.LBB99_68
.LBB99_44:
	ldp	x9, x8, [x19, #8]
	sub	x10, x8, x9
	cmp	x10, #8
	b.lo	.LBB99_90
.LBB99_45:
	mov	x11, #25970
	ldr	x10, [x19]
	mov	w0, wzr
	movk	x11, #30054, lsl #16
	movk	x11, #25971, lsl #32
	movk	x11, #2660, lsl #48
	str	x11, [x10, x9]
	add	x9, x9, #8
	stp	x10, x9, [x19]
	b	.LBB99_33
.LBB99_46:
	ldp	x25, x8, [sp, #16]
	ldr	x26, [sp, #8]
	cmp	x8, #0
	cset	w20, eq
.LBB99_47:
	mov	x0, x26
	mov	x1, x25
	bl	link_state.state_encoding.clear_message
	mov	x0, x19
	mov	x1, x26
	mov	x2, x25
	bl	message_lines.answers.push_text
	and	w0, w0, #0xff
	tbnz	w20, #0, .LBB99_234
	mov	x19, x0
	mov	x0, x26
	bl	rattle_dealloc
	mov	x0, x19
	b	.LBB99_234
.LBB99_49:
	cmp	x22, #32
	b.hs	.LBB99_55
	mov	x9, xzr
	b	.LBB99_59
.LBB99_51:
	cmp	w8, #2
	b.ne	.LBB99_233
.LBB99_52:
	ldp	x10, x8, [x19, #8]
	sub	x9, x8, x10
	cmp	x9, #11
	b.ls	.LBB99_88
.LBB99_53:
	ldr	x9, [x19]
	adrp	x12, .Lstatic.18
	add	x12, x12, :lo12:.Lstatic.18
	add	x11, x9, x10
	add	x10, x10, #12
	sub	x13, x11, x12
	cmp	x13, #11
	b.hi	.LBB99_73
	adrp	x12, .LCPI99_1
	adrp	x13, .LCPI99_2
	ldr	d0, [x12, :lo12:.LCPI99_1]
	ldr	d1, [x13, :lo12:.LCPI99_2]
	str	d0, [x11]
	str	s1, [x11, #8]
	b	.LBB99_32
.LBB99_55:
	add	x12, x8, x26
	and	x10, x22, #0x18
	and	x9, x22, #0xffffffffffffffe0
	add	x11, x21, #16
	add	x12, x12, #16
	and	x13, x22, #0xffffffffffffffe0
.LBB99_56:
	ldp	q0, q1, [x11, #-16]
	subs	x13, x13, #32
	add	x11, x11, #32
	stp	q0, q1, [x12, #-16]
	add	x12, x12, #32
	b.ne	.LBB99_56
	cmp	x22, x9
	b.eq	.LBB99_9
	cbz	x10, .LBB99_6
.LBB99_59:
	mov	x11, x9
	and	x9, x22, #0xfffffffffffffff8
	add	x12, x8, x11
	sub	x10, x11, x9
	add	x11, x21, x11
	add	x12, x26, x12
.LBB99_60:
	ldr	d0, [x11], #8
	adds	x10, x10, #8
	str	d0, [x12], #8
	b.ne	.LBB99_60
	cmp	x22, x9
	b.eq	.LBB99_9
	b	.LBB99_6
.LBB99_62:
	mov	x0, x19
	mov	x1, x22
	bl	std_alloc.vec.Vec.grow_amortized.05fa32d921161499
	cbz	w0, .LBB99_233
	ldp	x8, x25, [x19, #8]
	b	.LBB99_2
.LBB99_64:
	mov	x0, x19
	mov	w1, #7
	bl	std_alloc.vec.Vec.grow_amortized.05fa32d921161499
	cbz	w0, .LBB99_233
	ldp	x10, x8, [x19, #8]
	b	.LBB99_23
.LBB99_66:
	mov	x0, x20
	mov	x1, x2
	mov	x25, x2
	bl	std_alloc.vec.Vec.grow_amortized.05fa32d921161499
	cbz	w0, .LBB99_233
	ldp	x21, x23, [x20, #8]
	mov	x2, x25
	add	x25, x21, x25
	ldr	x26, [x20]
	cmp	x21, x25
	b.lo	.LBB99_15
	b	.LBB99_16
.LBB99_68:
	mov	x21, x23
	ldrb	w22, [x21], #16
	cmp	w22, #6
	b.le	.LBB99_76
	cmp	w22, #7
	b.eq	.LBB99_79
	cmp	w22, #10
	b.eq	.LBB99_80
	cmp	w22, #45
	b.ne	.LBB99_81
	mov	w22, #4
	b	.LBB99_82
.LBB99_73:
	mov	w13, #29810
	ldr	x12, [x12]
	movk	w13, #2675, lsl #16
	str	w13, [x11, #8]
	str	x12, [x11]
	b	.LBB99_32
.LBB99_74:
	mov	x0, x19
	mov	w1, #1
	bl	std_alloc.vec.Vec.grow_amortized.05fa32d921161499
	mov	w8, w0
	mov	w0, #1
	cbz	w8, .LBB99_234
	ldp	x26, x27, [x19]
	b	.LBB99_35
.LBB99_76:
	cbz	w22, .LBB99_82
	cmp	w22, #2
	b.ne	.LBB99_81
	mov	w22, #1
	b	.LBB99_82
.LBB99_79:
	mov	w22, #2
	b	.LBB99_82
.LBB99_80:
	mov	w22, #3
	b	.LBB99_82
.LBB99_81:
	mov	w8, #5
	orr	x22, x8, x22, lsl #8
.LBB99_82:
	ldrh	w24, [x23, #2]
	ldr	w27, [x23, #4]
	cmp	w24, #32
	b.hi	.LBB99_85
	adrp	x8, .LJTI99_0
	add	x8, x8, :lo12:.LJTI99_0
	adr	x9, .LBB99_84
	ldrb	w10, [x8, x24]
	add	x9, x9, x10, lsl #2
	br	x9
.LBB99_84:
	mov	w24, #1
	b	.LBB99_116
.LBB99_85:
	sub	w8, w24, #256
	cmp	w8, #34
	b.hi	.LBB99_105
	adrp	x9, .LJTI99_1
	add	x9, x9, :lo12:.LJTI99_1
	adr	x10, .LBB99_87
	ldrb	w11, [x9, x8]
	add	x10, x10, x11, lsl #2
	br	x10
.LBB99_87:
	mov	w24, #15
	b	.LBB99_116
.LBB99_88:
	mov	x0, x19
	mov	w1, #12
	bl	std_alloc.vec.Vec.grow_amortized.05fa32d921161499
	cbz	w0, .LBB99_233
	ldp	x10, x8, [x19, #8]
	b	.LBB99_53
.LBB99_90:
	mov	x0, x19
	mov	w1, #8
	bl	std_alloc.vec.Vec.grow_amortized.05fa32d921161499
	cbz	w0, .LBB99_233
	ldp	x9, x8, [x19, #8]
	b	.LBB99_45
.LBB99_92:
	mov	w24, #14
	b	.LBB99_116
.LBB99_93:
	mov	w24, #11
	b	.LBB99_116
.LBB99_94:
	mov	w24, #7
	b	.LBB99_116
.LBB99_95:
	mov	w24, #13
	b	.LBB99_116
.LBB99_96:
	mov	w24, #5
	b	.LBB99_116
.LBB99_97:
	mov	w24, #3
	b	.LBB99_116
.LBB99_98:
	mov	w24, #9
	b	.LBB99_116
.LBB99_99:
	mov	w24, #10
	b	.LBB99_116
.LBB99_100:
	mov	w24, #2
	b	.LBB99_116
.LBB99_101:
	mov	w24, #4
	b	.LBB99_116
.LBB99_102:
	mov	w24, #6
	b	.LBB99_116
.LBB99_103:
	mov	w24, #8
	b	.LBB99_116
.LBB99_104:
	mov	w24, #12
	b	.LBB99_116
.LBB99_105:
	mov	w0, w24
	bl	link_vals.link_layer_type.high
	and	x24, x0, #0xff
	b	.LBB99_116
.LBB99_106:
	mov	w24, #23
	b	.LBB99_116
.LBB99_107:
	mov	w24, #22
	b	.LBB99_116
.LBB99_108:
	mov	w24, #18
	b	.LBB99_116
.LBB99_109:
	mov	w24, #20
	b	.LBB99_116
.LBB99_110:
	mov	w24, #21
	b	.LBB99_116
.LBB99_111:
	mov	w24, #16
	b	.LBB99_116
.LBB99_112:
	mov	w24, #25
	b	.LBB99_116
.LBB99_113:
	mov	w24, #17
	b	.LBB99_116
.LBB99_114:
	mov	w24, #24
	b	.LBB99_116
.LBB99_115:
	mov	w24, #19
.LBB99_116:
	ldr	d8, [x23, #8]
	mov	w0, w22
	mov	x1, x21
	mov	x2, x20
	bl	nla_wire.members.measure_each.73a2e5797a03d2f8
	and	w8, w0, #0xff
	cmp	w8, #1
	b.ne	.LBB99_128
	mov	x23, x1
	cbz	x20, .LBB99_130
	mov	x8, xzr
	mov	x25, x20
	mov	x26, x21
	b	.LBB99_120
.LBB99_119:
	add	w8, w28, #3
	and	x8, x8, #0x1fffc
	cmp	x25, x8
	b.ls	.LBB99_130
.LBB99_120:
	sub	x25, x25, x8
	cmp	x25, #4
	b.lo	.LBB99_130
	add	x26, x26, x8
	ldrh	w28, [x26]
	cmp	w28, #4
	b.lo	.LBB99_130
	cmp	x25, x28
	b.lo	.LBB99_130
	ldrb	w8, [x26, #2]
	ldrb	w9, [x26, #3]
	bfi	w8, w9, #8, #6
	cmp	w8, #24
	b.ne	.LBB99_119
	sub	x8, x28, #4
	cbz	x8, .LBB99_119
	add	x0, x26, #4
	sub	x1, x28, #4
	bl	nla_wire.members.measure_each.79503c7a397af21a
	and	w8, w0, #0xff
	cmp	w8, #1
	b.ne	.LBB99_119
	cbnz	x1, .LBB99_119
	cmn	x23, #16
	b.lo	.LBB99_52
	b	.LBB99_131
.LBB99_128:
	movi	v0.2d, #0000000000000000
	stp	q0, q0, [sp, #80]
	str	q0, [sp, #64]
	cbz	x20, .LBB99_131
	ubfiz	x8, x22, #3, #8
	mov	w9, #23
	movk	w9, #22, lsl #16
	lsr	x23, x9, x8
	mov	x8, xzr
	b	.LBB99_145
.LBB99_130:
	cmn	x23, #17
	b.ls	.LBB99_135
.LBB99_131:
	ldp	x10, x8, [x19, #8]
	sub	x9, x8, x10
	cmp	x9, #5
	b.ls	.LBB99_141
.LBB99_132:
	ldr	x9, [x19]
	adrp	x12, .Lstatic.17
	add	x12, x12, :lo12:.Lstatic.17
	add	x11, x9, x10
	add	x10, x10, #6
	sub	x12, x11, x12
	cmp	x12, #5
	b.hi	.LBB99_134
	adrp	x12, .LCPI99_3
	ldr	d0, [x12, :lo12:.LCPI99_3]
	mov	w12, #2676
	strh	w12, [x11, #4]
	str	s0, [x11]
	b	.LBB99_32
.LBB99_134:
	mov	w13, #28277
	mov	w12, #2676
	movk	w13, #26982, lsl #16
	strh	w12, [x11, #4]
	b	.LBB99_31
.LBB99_135:
	adds	x25, x23, #16
	b.mi	.LBB99_233
	mov	x0, x25
	mov	w1, #1
	bl	rattle_alloc
	tbz	w0, #0, .LBB99_233
	mov	x26, x1
	mov	x0, x1
	mov	w1, wzr
	mov	x2, x25
	bl	memset
	and	w9, w22, #0xff
	cmp	w9, #2
	b.gt	.LBB99_235
	mov	w8, w22
	cbz	w9, .LBB99_242
	cmp	w9, #1
	b.ne	.LBB99_240
	mov	w8, #2
	b	.LBB99_242
.LBB99_141:
	mov	x0, x19
	mov	w1, #6
	bl	std_alloc.vec.Vec.grow_amortized.05fa32d921161499
	cbz	w0, .LBB99_233
	ldp	x10, x8, [x19, #8]
	b	.LBB99_132
.LBB99_143:
	and	w9, w22, #0xff
	mov	w10, #1
	mov	w11, #51
	lsl	w10, w10, w9
	tst	w10, w11
	b.eq	.LBB99_215
.LBB99_144:
	add	w8, w24, #3
	and	x8, x8, #0x1fffc
	cmp	x20, x8
	b.ls	.LBB99_131
.LBB99_145:
	sub	x20, x20, x8
	cmp	x20, #4
	b.lo	.LBB99_227
	add	x21, x21, x8
	ldrh	w24, [x21]
	cmp	x20, x24
	b.lo	.LBB99_228
	cmp	w24, #3
	b.ls	.LBB99_229
	ldrb	w8, [x21, #2]
	ldrb	w9, [x21, #3]
	bfi	w8, w9, #8, #6
	sub	w25, w8, #3
	cmp	w25, #64
	b.hi	.LBB99_144
	adrp	x8, .LJTI99_2
	add	x8, x8, :lo12:.LJTI99_2
	adr	x9, .LBB99_143
	ldrb	w10, [x8, x25]
	add	x9, x9, x10, lsl #2
	sub	x8, x24, #4
	br	x9
.LBB99_150:
	cmp	x8, #4
	b.eq	.LBB99_144
.LBB99_151:
	movi	v0.2d, #0000000000000000
	cmp	w25, #61
	stp	q0, q0, [x29, #-64]
	stur	q0, [x29, #-80]
	b.hi	.LBB99_155
	adrp	x8, .LJTI99_3
	add	x8, x8, :lo12:.LJTI99_3
	mov	w1, wzr
	adr	x9, .LBB99_153
	ldrb	w10, [x8, x25]
	add	x9, x9, x10, lsl #2
	br	x9
.LBB99_153:
	mov	w1, #4
.LBB99_154:
	sub	x0, x29, #80
	add	x2, x21, #4
	sub	x3, x24, #4
	bl	link_msg.shape.Shape.check
	ldurb	w8, [x29, #-80]
	cmp	w8, #1
	b.eq	.LBB99_144
.LBB99_155:
	add	x0, sp, #64
	bl	nla_wire.place.check_one.73a2e5797a03d2f8
	ldrb	w8, [sp, #64]
	cbz	w8, .LBB99_144
	b	.LBB99_238
.LBB99_156:
	add	x0, x21, #4
	sub	x1, x24, #4
	bl	nla_wire.payload.measure_text
	and	w8, w0, #0xff
	cmp	w8, #1
	b.eq	.LBB99_144
	b	.LBB99_151
.LBB99_157:
	cmp	x8, #1
	b.eq	.LBB99_144
	b	.LBB99_151
.LBB99_158:
	mov	w1, #1
	b	.LBB99_154
.LBB99_159:
	mov	w1, #2
	b	.LBB99_154
.LBB99_160:
	and	w9, w22, #0xff
	cmp	w9, #2
	b.gt	.LBB99_144
	cbz	w9, .LBB99_222
	cmp	w9, #1
	b.eq	.LBB99_144
	cbz	x8, .LBB99_225
	add	x0, x21, #4
	sub	x1, x24, #4
	bl	nla_wire.members.measure_each.1f0cb788f492ced5
	b	.LBB99_223
.LBB99_165:
	add	x0, x21, #4
	sub	x1, x24, #4
	bl	nla_wire.members.measure_each.16a873d75d6df2a1
	and	w8, w0, #0xff
	cmp	w8, #1
	b.ne	.LBB99_167
	mov	w8, #65532
	cmp	x1, x8
	b.lo	.LBB99_144
.LBB99_167:
	movi	v0.2d, #0000000000000000
	stp	q0, q0, [x29, #-64]
	stur	q0, [x29, #-80]
.LBB99_168:
	mov	w1, #18
	b	.LBB99_154
.LBB99_169:
	cbz	x8, .LBB99_172
	add	x0, x21, #4
	sub	x1, x24, #4
	bl	nla_wire.members.measure_each.49064c0641319ce4
	and	w8, w0, #0xff
	cmp	w8, #1
	b.ne	.LBB99_172
	mov	w8, #65532
	cmp	x1, x8
	b.lo	.LBB99_144
.LBB99_172:
	movi	v0.2d, #0000000000000000
	stp	q0, q0, [x29, #-64]
	stur	q0, [x29, #-80]
.LBB99_173:
	mov	w1, #12
	b	.LBB99_154
.LBB99_174:
	add	x0, x21, #4
	sub	x1, x24, #4
	bl	nla_wire.members.measure_each.f7f30aae703aa44d
	and	w8, w0, #0xff
	cmp	w8, #1
	b.ne	.LBB99_176
	mov	w8, #65532
	cmp	x1, x8
	b.lo	.LBB99_144
.LBB99_176:
	movi	v0.2d, #0000000000000000
	stp	q0, q0, [x29, #-64]
	stur	q0, [x29, #-80]
.LBB99_177:
	mov	w1, #17
	b	.LBB99_154
.LBB99_178:
	cmp	x8, #1
	b.eq	.LBB99_144
	movi	v0.2d, #0000000000000000
	mov	w1, #5
	stp	q0, q0, [x29, #-64]
	stur	q0, [x29, #-80]
	b	.LBB99_154
.LBB99_180:
	add	x0, x21, #4
	sub	x1, x24, #4
	bl	nla_wire.members.measure_each.b30b196c481b950e
	and	w8, w0, #0xff
	cmp	w8, #1
	b.ne	.LBB99_182
	mov	w8, #65532
	cmp	x1, x8
	b.lo	.LBB99_144
.LBB99_182:
	movi	v0.2d, #0000000000000000
	stp	q0, q0, [x29, #-64]
	stur	q0, [x29, #-80]
.LBB99_183:
	mov	w1, #16
	b	.LBB99_154
.LBB99_184:
	cmp	w24, #35
	b.hi	.LBB99_144
	movi	v0.2d, #0000000000000000
	stp	q0, q0, [x29, #-64]
	stur	q0, [x29, #-80]
.LBB99_186:
	mov	w1, #9
	b	.LBB99_154
.LBB99_187:
	cmp	w24, #11
	b.hi	.LBB99_144
	movi	v0.2d, #0000000000000000
	stp	q0, q0, [x29, #-64]
	stur	q0, [x29, #-80]
.LBB99_189:
	mov	w1, #10
	b	.LBB99_154
.LBB99_190:
	add	x0, x21, #4
	sub	x1, x24, #4
	bl	nla_wire.members.measure_each.3bb4c8661a1029f4
	and	w8, w0, #0xff
	cmp	w8, #1
	b.ne	.LBB99_192
	mov	w8, #65532
	cmp	x1, x8
	b.lo	.LBB99_144
.LBB99_192:
	movi	v0.2d, #0000000000000000
	stp	q0, q0, [x29, #-64]
	stur	q0, [x29, #-80]
.LBB99_193:
	mov	w1, #13
	b	.LBB99_154
.LBB99_194:
	cbz	x8, .LBB99_197
	add	x0, x21, #4
	sub	x1, x24, #4
	bl	nla_wire.members.measure_each.8ba1f663fcd59a5e
	and	w8, w0, #0xff
	cmp	w8, #1
	b.ne	.LBB99_197
	mov	w8, #65532
	cmp	x1, x8
	b.lo	.LBB99_144
.LBB99_197:
	movi	v0.2d, #0000000000000000
	stp	q0, q0, [x29, #-64]
	stur	q0, [x29, #-80]
.LBB99_198:
	mov	w1, #15
	b	.LBB99_154
.LBB99_199:
	cbz	x8, .LBB99_202
	add	x0, x21, #4
	sub	x1, x24, #4
	bl	nla_wire.members.measure_each.79503c7a397af21a
	and	w8, w0, #0xff
	cmp	w8, #1
	b.ne	.LBB99_202
	mov	w8, #65532
	cmp	x1, x8
	b.lo	.LBB99_144
.LBB99_202:
	movi	v0.2d, #0000000000000000
	stp	q0, q0, [x29, #-64]
	stur	q0, [x29, #-80]
.LBB99_203:
	mov	w1, #14
	b	.LBB99_154
.LBB99_204:
	cbz	x8, .LBB99_207
	add	x0, x21, #4
	sub	x1, x24, #4
	bl	nla_wire.members.measure_each.1f0cb788f492ced5
	and	w8, w0, #0xff
	cmp	w8, #1
	b.ne	.LBB99_207
	mov	w8, #65532
	cmp	x1, x8
	b.lo	.LBB99_144
.LBB99_207:
	movi	v0.2d, #0000000000000000
	stp	q0, q0, [x29, #-64]
	stur	q0, [x29, #-80]
.LBB99_208:
	mov	w1, #11
	b	.LBB99_154
.LBB99_209:
	add	x0, x21, #4
	sub	x1, x24, #4
	bl	nla_wire.members.measure_each.5fa77b269143286c
	and	w8, w0, #0xff
	cmp	w8, #1
	b.ne	.LBB99_211
	mov	w8, #65532
	cmp	x1, x8
	b.lo	.LBB99_144
.LBB99_211:
	movi	v0.2d, #0000000000000000
	mov	w1, #19
	stp	q0, q0, [x29, #-64]
	stur	q0, [x29, #-80]
	b	.LBB99_154
.LBB99_212:
	mov	w1, #6
	b	.LBB99_154
.LBB99_213:
	mov	w1, #8
	b	.LBB99_154
.LBB99_214:
	mov	w1, #7
	b	.LBB99_154
.LBB99_215:
	cmp	w9, #2
	cbz	x8, .LBB99_218
	add	x0, x21, #4
	sub	x1, x24, #4
	bl	nla_wire.members.measure_each.1f0cb788f492ced5
	and	w8, w0, #0xff
	cmp	w8, #1
	b.ne	.LBB99_218
	mov	w8, #65532
	cmp	x1, x8
	b.lo	.LBB99_144
.LBB99_218:
	movi	v0.2d, #0000000000000000
	stp	q0, q0, [x29, #-64]
	stur	q0, [x29, #-80]
.LBB99_219:
	and	w8, w22, #0xff
	mov	w9, #1
	mov	w10, #51
	lsl	w9, w9, w8
	mov	w1, #21
	tst	w9, w10
	b.ne	.LBB99_155
	cmp	w8, #2
	b.ne	.LBB99_154
	mov	w1, #20
	b	.LBB99_154
.LBB99_222:
	add	x0, x21, #4
	sub	x1, x24, #4
	bl	nla_wire.members.measure_each.6cf1decf0b22dc4b
.LBB99_223:
	and	w8, w0, #0xff
	cmp	w8, #1
	b.ne	.LBB99_225
	mov	w8, #65532
	cmp	x1, x8
	b.lo	.LBB99_144
.LBB99_225:
	movi	v0.2d, #0000000000000000
	stp	q0, q0, [x29, #-64]
	stur	q0, [x29, #-80]
.LBB99_226:
	mov	w1, w23
	b	.LBB99_154
.LBB99_227:
	mov	w20, #1
	b	.LBB99_231
.LBB99_228:
	mov	w8, #2
	b	.LBB99_230
.LBB99_229:
	mov	w8, #3
.LBB99_230:
	orr	x20, x8, x24, lsl #16
.LBB99_231:
	adrp	x0, .Lstatic.20
	add	x0, x0, :lo12:.Lstatic.20
	mov	w1, #7
.LBB99_232:
	adrp	x2, .Lstatic.20
	add	x2, x2, :lo12:.Lstatic.20
	mov	w3, #7
	bl	core.cmp.text.RefStrPartialEq.eq
	and	x8, x20, #0xff
	cmp	x8, #8
	b.ne	.LBB99_44
.LBB99_233:
	mov	w0, #1
.LBB99_234:
	ldp	x20, x19, [sp, #272]
	ldr	d8, [sp, #176]
	ldp	x22, x21, [sp, #256]
	ldp	x24, x23, [sp, #240]
	ldp	x26, x25, [sp, #224]
	ldp	x28, x27, [sp, #208]
	ldp	x29, x30, [sp, #192]
	add	sp, sp, #288
	ret
.LBB99_235:
	cmp	w9, #3
	b.eq	.LBB99_239
	cmp	w9, #4
	b.ne	.LBB99_241
	mov	w8, #45
	b	.LBB99_242
.LBB99_238:
	ldp	x0, x1, [sp, #72]
	ldrb	w20, [sp, #88]
	b	.LBB99_232
.LBB99_239:
	mov	w8, #10
	b	.LBB99_242
.LBB99_240:
	mov	w8, #7
	b	.LBB99_242
.LBB99_241:
	lsr	x8, x22, #8
.LBB99_242:
	and	w8, w8, #0xff
	add	x3, x26, #16
	mov	w0, w22
	strh	w8, [x26]
	adrp	x8, .Lswitch.table.line_filter.answers.AnsweringTake.take.d1b9b744fe2e7f64
	add	x8, x8, :lo12:.Lswitch.table.line_filter.answers.AnsweringTake.take.d1b9b744fe2e7f64
	ldrh	w8, [x8, x24, lsl #1]
	mov	x1, x21
	mov	x2, x20
	mov	x4, x23
	str	w27, [x26, #4]
	strh	w8, [x26, #2]
	str	d8, [x26, #8]
	bl	nla_wire.members.write_each.73a2e5797a03d2f8
	mov	w20, wzr
	b	.LBB99_47
.Lfunc_end99:
	.size	line_filter.answers.AnsweringTake.take.d1b9b744fe2e7f64, .Lfunc_end99-line_filter.answers.AnsweringTake.take.d1b9b744fe2e7f64
	.section	.rodata.line_filter.answers.AnsweringTake.take.d1b9b744fe2e7f64,"a",@progbits
.LJTI99_0:
	.byte	(.LBB99_116-.LBB99_84)>>2
	.byte	(.LBB99_84-.LBB99_84)>>2
	.byte	(.LBB99_100-.LBB99_84)>>2
	.byte	(.LBB99_97-.LBB99_84)>>2
	.byte	(.LBB99_101-.LBB99_84)>>2
	.byte	(.LBB99_96-.LBB99_84)>>2
	.byte	(.LBB99_102-.LBB99_84)>>2
	.byte	(.LBB99_94-.LBB99_84)>>2
	.byte	(.LBB99_103-.LBB99_84)>>2
	.byte	(.LBB99_105-.LBB99_84)>>2
	.byte	(.LBB99_105-.LBB99_84)>>2
	.byte	(.LBB99_105-.LBB99_84)>>2
	.byte	(.LBB99_105-.LBB99_84)>>2
	.byte	(.LBB99_105-.LBB99_84)>>2
	.byte	(.LBB99_105-.LBB99_84)>>2
	.byte	(.LBB99_98-.LBB99_84)>>2
	.byte	(.LBB99_105-.LBB99_84)>>2
	.byte	(.LBB99_105-.LBB99_84)>>2
	.byte	(.LBB99_105-.LBB99_84)>>2
	.byte	(.LBB99_99-.LBB99_84)>>2
	.byte	(.LBB99_105-.LBB99_84)>>2
	.byte	(.LBB99_105-.LBB99_84)>>2
	.byte	(.LBB99_105-.LBB99_84)>>2
	.byte	(.LBB99_93-.LBB99_84)>>2
	.byte	(.LBB99_104-.LBB99_84)>>2
	.byte	(.LBB99_105-.LBB99_84)>>2
	.byte	(.LBB99_105-.LBB99_84)>>2
	.byte	(.LBB99_95-.LBB99_84)>>2
	.byte	(.LBB99_105-.LBB99_84)>>2
	.byte	(.LBB99_105-.LBB99_84)>>2
	.byte	(.LBB99_105-.LBB99_84)>>2
	.byte	(.LBB99_105-.LBB99_84)>>2
	.byte	(.LBB99_92-.LBB99_84)>>2
.LJTI99_1:
	.byte	(.LBB99_87-.LBB99_87)>>2
	.byte	(.LBB99_111-.LBB99_87)>>2
	.byte	(.LBB99_113-.LBB99_87)>>2
	.byte	(.LBB99_108-.LBB99_87)>>2
	.byte	(.LBB99_115-.LBB99_87)>>2
	.byte	(.LBB99_105-.LBB99_87)>>2
	.byte	(.LBB99_105-.LBB99_87)>>2
	.byte	(.LBB99_105-.LBB99_87)>>2
	.byte	(.LBB99_109-.LBB99_87)>>2
	.byte	(.LBB99_105-.LBB99_87)>>2
	.byte	(.LBB99_105-.LBB99_87)>>2
	.byte	(.LBB99_105-.LBB99_87)>>2
	.byte	(.LBB99_105-.LBB99_87)>>2
	.byte	(.LBB99_105-.LBB99_87)>>2
	.byte	(.LBB99_110-.LBB99_87)>>2
	.byte	(.LBB99_107-.LBB99_87)>>2
	.byte	(.LBB99_106-.LBB99_87)>>2
	.byte	(.LBB99_105-.LBB99_87)>>2
	.byte	(.LBB99_105-.LBB99_87)>>2
	.byte	(.LBB99_105-.LBB99_87)>>2
	.byte	(.LBB99_105-.LBB99_87)>>2
	.byte	(.LBB99_105-.LBB99_87)>>2
	.byte	(.LBB99_105-.LBB99_87)>>2
	.byte	(.LBB99_105-.LBB99_87)>>2
	.byte	(.LBB99_114-.LBB99_87)>>2
	.byte	(.LBB99_105-.LBB99_87)>>2
	.byte	(.LBB99_105-.LBB99_87)>>2
	.byte	(.LBB99_105-.LBB99_87)>>2
	.byte	(.LBB99_105-.LBB99_87)>>2
	.byte	(.LBB99_105-.LBB99_87)>>2
	.byte	(.LBB99_105-.LBB99_87)>>2
	.byte	(.LBB99_105-.LBB99_87)>>2
	.byte	(.LBB99_105-.LBB99_87)>>2
	.byte	(.LBB99_105-.LBB99_87)>>2
	.byte	(.LBB99_112-.LBB99_87)>>2
.LJTI99_2:
	.byte	(.LBB99_156-.LBB99_143)>>2
	.byte	(.LBB99_150-.LBB99_143)>>2
	.byte	(.LBB99_150-.LBB99_143)>>2
	.byte	(.LBB99_156-.LBB99_143)>>2
	.byte	(.LBB99_144-.LBB99_143)>>2
	.byte	(.LBB99_144-.LBB99_143)>>2
	.byte	(.LBB99_144-.LBB99_143)>>2
	.byte	(.LBB99_150-.LBB99_143)>>2
	.byte	(.LBB99_187-.LBB99_143)>>2
	.byte	(.LBB99_143-.LBB99_143)>>2
	.byte	(.LBB99_150-.LBB99_143)>>2
	.byte	(.LBB99_184-.LBB99_143)>>2
	.byte	(.LBB99_144-.LBB99_143)>>2
	.byte	(.LBB99_157-.LBB99_143)>>2
	.byte	(.LBB99_157-.LBB99_143)>>2
	.byte	(.LBB99_169-.LBB99_143)>>2
	.byte	(.LBB99_150-.LBB99_143)>>2
	.byte	(.LBB99_156-.LBB99_143)>>2
	.byte	(.LBB99_150-.LBB99_143)>>2
	.byte	(.LBB99_190-.LBB99_143)>>2
	.byte	(.LBB99_144-.LBB99_143)>>2
	.byte	(.LBB99_199-.LBB99_143)>>2
	.byte	(.LBB99_204-.LBB99_143)>>2
	.byte	(.LBB99_160-.LBB99_143)>>2
	.byte	(.LBB99_150-.LBB99_143)>>2
	.byte	(.LBB99_150-.LBB99_143)>>2
	.byte	(.LBB99_150-.LBB99_143)>>2
	.byte	(.LBB99_150-.LBB99_143)>>2
	.byte	(.LBB99_150-.LBB99_143)>>2
	.byte	(.LBB99_150-.LBB99_143)>>2
	.byte	(.LBB99_157-.LBB99_143)>>2
	.byte	(.LBB99_144-.LBB99_143)>>2
	.byte	(.LBB99_150-.LBB99_143)>>2
	.byte	(.LBB99_144-.LBB99_143)>>2
	.byte	(.LBB99_150-.LBB99_143)>>2
	.byte	(.LBB99_156-.LBB99_143)>>2
	.byte	(.LBB99_157-.LBB99_143)>>2
	.byte	(.LBB99_150-.LBB99_143)>>2
	.byte	(.LBB99_150-.LBB99_143)>>2
	.byte	(.LBB99_144-.LBB99_143)>>2
	.byte	(.LBB99_194-.LBB99_143)>>2
	.byte	(.LBB99_150-.LBB99_143)>>2
	.byte	(.LBB99_150-.LBB99_143)>>2
	.byte	(.LBB99_150-.LBB99_143)>>2
	.byte	(.LBB99_150-.LBB99_143)>>2
	.byte	(.LBB99_150-.LBB99_143)>>2
	.byte	(.LBB99_150-.LBB99_143)>>2
	.byte	(.LBB99_150-.LBB99_143)>>2
	.byte	(.LBB99_150-.LBB99_143)>>2
	.byte	(.LBB99_180-.LBB99_143)>>2
	.byte	(.LBB99_144-.LBB99_143)>>2
	.byte	(.LBB99_144-.LBB99_143)>>2
	.byte	(.LBB99_174-.LBB99_143)>>2
	.byte	(.LBB99_156-.LBB99_143)>>2
	.byte	(.LBB99_156-.LBB99_143)>>2
	.byte	(.LBB99_150-.LBB99_143)>>2
	.byte	(.LBB99_150-.LBB99_143)>>2
	.byte	(.LBB99_150-.LBB99_143)>>2
	.byte	(.LBB99_150-.LBB99_143)>>2
	.byte	(.LBB99_165-.LBB99_143)>>2
	.byte	(.LBB99_150-.LBB99_143)>>2
	.byte	(.LBB99_150-.LBB99_143)>>2
	.byte	(.LBB99_209-.LBB99_143)>>2
	.byte	(.LBB99_144-.LBB99_143)>>2
	.byte	(.LBB99_178-.LBB99_143)>>2
.LJTI99_3:
	.byte	(.LBB99_158-.LBB99_153)>>2
	.byte	(.LBB99_153-.LBB99_153)>>2
	.byte	(.LBB99_153-.LBB99_153)>>2
	.byte	(.LBB99_158-.LBB99_153)>>2
	.byte	(.LBB99_214-.LBB99_153)>>2
	.byte	(.LBB99_155-.LBB99_153)>>2
	.byte	(.LBB99_155-.LBB99_153)>>2
	.byte	(.LBB99_153-.LBB99_153)>>2
	.byte	(.LBB99_189-.LBB99_153)>>2
	.byte	(.LBB99_219-.LBB99_153)>>2
	.byte	(.LBB99_153-.LBB99_153)>>2
	.byte	(.LBB99_186-.LBB99_153)>>2
	.byte	(.LBB99_155-.LBB99_153)>>2
	.byte	(.LBB99_159-.LBB99_153)>>2
	.byte	(.LBB99_159-.LBB99_153)>>2
	.byte	(.LBB99_173-.LBB99_153)>>2
	.byte	(.LBB99_153-.LBB99_153)>>2
	.byte	(.LBB99_158-.LBB99_153)>>2
	.byte	(.LBB99_153-.LBB99_153)>>2
	.byte	(.LBB99_193-.LBB99_153)>>2
	.byte	(.LBB99_213-.LBB99_153)>>2
	.byte	(.LBB99_203-.LBB99_153)>>2
	.byte	(.LBB99_208-.LBB99_153)>>2
	.byte	(.LBB99_226-.LBB99_153)>>2
	.byte	(.LBB99_153-.LBB99_153)>>2
	.byte	(.LBB99_153-.LBB99_153)>>2
	.byte	(.LBB99_153-.LBB99_153)>>2
	.byte	(.LBB99_153-.LBB99_153)>>2
	.byte	(.LBB99_153-.LBB99_153)>>2
	.byte	(.LBB99_153-.LBB99_153)>>2
	.byte	(.LBB99_159-.LBB99_153)>>2
	.byte	(.LBB99_212-.LBB99_153)>>2
	.byte	(.LBB99_153-.LBB99_153)>>2
	.byte	(.LBB99_212-.LBB99_153)>>2
	.byte	(.LBB99_153-.LBB99_153)>>2
	.byte	(.LBB99_158-.LBB99_153)>>2
	.byte	(.LBB99_159-.LBB99_153)>>2
	.byte	(.LBB99_153-.LBB99_153)>>2
	.byte	(.LBB99_153-.LBB99_153)>>2
	.byte	(.LBB99_155-.LBB99_153)>>2
	.byte	(.LBB99_198-.LBB99_153)>>2
	.byte	(.LBB99_153-.LBB99_153)>>2
	.byte	(.LBB99_153-.LBB99_153)>>2
	.byte	(.LBB99_153-.LBB99_153)>>2
	.byte	(.LBB99_153-.LBB99_153)>>2
	.byte	(.LBB99_153-.LBB99_153)>>2
	.byte	(.LBB99_153-.LBB99_153)>>2
	.byte	(.LBB99_153-.LBB99_153)>>2
	.byte	(.LBB99_153-.LBB99_153)>>2
	.byte	(.LBB99_183-.LBB99_153)>>2
	.byte	(.LBB99_155-.LBB99_153)>>2
	.byte	(.LBB99_154-.LBB99_153)>>2
	.byte	(.LBB99_177-.LBB99_153)>>2
	.byte	(.LBB99_158-.LBB99_153)>>2
	.byte	(.LBB99_158-.LBB99_153)>>2
	.byte	(.LBB99_153-.LBB99_153)>>2
	.byte	(.LBB99_153-.LBB99_153)>>2
	.byte	(.LBB99_153-.LBB99_153)>>2
	.byte	(.LBB99_153-.LBB99_153)>>2
	.byte	(.LBB99_168-.LBB99_153)>>2
	.byte	(.LBB99_153-.LBB99_153)>>2
	.byte	(.LBB99_153-.LBB99_153)>>2

	.section	.text.nla_wire.members.measure_each.73a2e5797a03d2f8,"ax",@progbits
	.p2align	2
	.type	nla_wire.members.measure_each.73a2e5797a03d2f8,@function
nla_wire.members.measure_each.73a2e5797a03d2f8:
	sub	sp, sp, #128
	stp	x22, x21, [sp, #96]
	mov	w21, w0
	mov	w10, #23
	ubfiz	x9, x21, #3, #8
	movk	w10, #22, lsl #16
	stp	x24, x23, [sp, #80]
	stp	x20, x19, [sp, #112]
	mov	x19, x2
	mov	x20, x1
	lsr	x22, x10, x9
	mov	x8, xzr
	mov	x23, xzr
	stp	x29, x30, [sp, #48]
	add	x29, sp, #48
	stp	x26, x25, [sp, #64]
	b	.LBB100_4
.LBB100_1:
	mov	w1, #4
.LBB100_2:
	mov	x0, sp
	add	x2, x20, #4
	sub	x3, x24, #4
	bl	link_msg.shape.Shape.check
	ldrb	w8, [sp]
	cmp	w8, #1
	b.ne	.LBB100_67
.LBB100_3:
	add	x8, x25, #3
	and	x8, x8, #0xfffffffffffffffc
	add	x8, x23, x8
	add	x9, x8, #4
	add	w8, w24, #3
	cmp	x9, x23
	and	x8, x8, #0x1fffc
	mov	x23, x9
	b.lo	.LBB100_67
.LBB100_4:
	subs	x19, x19, x8
	b.ls	.LBB100_68
	cmp	x19, #4
	b.lo	.LBB100_67
	add	x20, x20, x8
	mov	w0, wzr
	mov	x1, xzr
	ldrh	w24, [x20]
	cmp	w24, #4
	b.lo	.LBB100_69
	cmp	x19, x24
	b.lo	.LBB100_69
	ldrb	w8, [x20, #2]
	ldrb	w9, [x20, #3]
	sub	x25, x24, #4
	bfi	w8, w9, #8, #6
	sub	w26, w8, #3
	cmp	w26, #66
	b.hi	.LBB100_3
	adrp	x8, .LJTI100_0
	add	x8, x8, :lo12:.LJTI100_0
	adr	x9, .LBB100_3
	ldrb	w10, [x8, x26]
	add	x9, x9, x10, lsl #2
	br	x9
.LBB100_10:
	cmp	x25, #4
	b.eq	.LBB100_3
.LBB100_11:
	movi	v0.2d, #0000000000000000
	cmp	w26, #66
	stp	q0, q0, [sp, #16]
	str	q0, [sp]
	b.hi	.LBB100_67
	adrp	x8, .LJTI100_1
	add	x8, x8, :lo12:.LJTI100_1
	mov	w1, wzr
	adr	x9, .LBB100_1
	ldrb	w10, [x8, x26]
	add	x9, x9, x10, lsl #2
	br	x9
.LBB100_13:
	mov	w1, #1
	b	.LBB100_2
.LBB100_14:
	add	x0, x20, #4
	sub	x1, x24, #4
	bl	nla_wire.payload.measure_text
	and	w8, w0, #0xff
	cmp	w8, #1
	b.ne	.LBB100_11
	b	.LBB100_43
.LBB100_15:
	cmp	x25, #1
	b.eq	.LBB100_3
	b	.LBB100_11
.LBB100_16:
	cmp	x25, #2
	b.ne	.LBB100_3
	mov	w25, #2
	b	.LBB100_3
.LBB100_18:
	cmp	x25, #32
	mov	w8, #32
	csel	x25, x25, x8, lo
	b	.LBB100_3
.LBB100_19:
	mov	w1, #2
	b	.LBB100_2
.LBB100_20:
	cbz	x25, .LBB100_11
	add	x0, x20, #4
	sub	x1, x24, #4
	bl	nla_wire.members.measure_each.8ba1f663fcd59a5e
	and	w8, w0, #0xff
	cmp	w8, #1
	b.eq	.LBB100_42
	b	.LBB100_11
.LBB100_22:
	and	w8, w21, #0xff
	cmp	w8, #2
	b.gt	.LBB100_3
	cbz	w8, .LBB100_66
	cmp	w8, #1
	b.eq	.LBB100_3
	b	.LBB100_40
.LBB100_25:
	add	x0, x20, #4
	sub	x1, x24, #4
	bl	nla_wire.members.measure_each.5fa77b269143286c
	and	w8, w0, #0xff
	cmp	w8, #1
	b.eq	.LBB100_42
	b	.LBB100_11
.LBB100_26:
	cbz	x25, .LBB100_11
	add	x0, x20, #4
	sub	x1, x24, #4
	bl	nla_wire.members.measure_each.49064c0641319ce4
	and	w8, w0, #0xff
	cmp	w8, #1
	b.eq	.LBB100_42
	b	.LBB100_11
.LBB100_28:
	add	x0, x20, #4
	sub	x1, x24, #4
	bl	nla_wire.members.measure_each.3bb4c8661a1029f4
	and	w8, w0, #0xff
	cmp	w8, #1
	b.eq	.LBB100_42
	b	.LBB100_11
.LBB100_29:
	mov	w25, #200
	b	.LBB100_3
.LBB100_30:
	add	x0, x20, #4
	sub	x1, x24, #4
	bl	nla_wire.members.measure_each.16a873d75d6df2a1
	and	w8, w0, #0xff
	cmp	w8, #1
	b.eq	.LBB100_42
	b	.LBB100_11
.LBB100_31:
	cmp	w24, #11
	b.hi	.LBB100_3
	b	.LBB100_11
.LBB100_32:
	add	x0, x20, #4
	sub	x1, x24, #4
	bl	nla_wire.members.measure_each.f7f30aae703aa44d
	and	w8, w0, #0xff
	cmp	w8, #1
	b.eq	.LBB100_42
	b	.LBB100_11
.LBB100_33:
	cbz	x25, .LBB100_11
	add	x0, x20, #4
	sub	x1, x24, #4
	bl	nla_wire.members.measure_each.79503c7a397af21a
	and	w8, w0, #0xff
	cmp	w8, #1
	b.eq	.LBB100_42
	b	.LBB100_11
.LBB100_35:
	add	x0, x20, #4
	sub	x1, x24, #4
	bl	nla_wire.members.measure_each.b30b196c481b950e
	and	w8, w0, #0xff
	cmp	w8, #1
	b.eq	.LBB100_42
	b	.LBB100_11
.LBB100_36:
	cmp	w24, #35
	b.ls	.LBB100_11
	mov	w25, #32
	b	.LBB100_3
.LBB100_38:
	and	w8, w21, #0xff
	mov	w9, #1
	mov	w10, #51
	lsl	w9, w9, w8
	tst	w9, w10
	b.ne	.LBB100_3
	cmp	w8, #2
.LBB100_40:
	cbz	x25, .LBB100_11
	add	x0, x20, #4
	sub	x1, x24, #4
	bl	nla_wire.members.measure_each.1f0cb788f492ced5
	and	w8, w0, #0xff
	cmp	w8, #1
	b.ne	.LBB100_11
.LBB100_42:
	mov	w8, #65532
	cmp	x1, x8
	b.hs	.LBB100_11
.LBB100_43:
	mov	x25, x1
	b	.LBB100_3
.LBB100_44:
	mov	w25, #96
	b	.LBB100_3
.LBB100_45:
	mov	w1, #6
	b	.LBB100_2
.LBB100_46:
	cmp	x25, #2
	b.ne	.LBB100_67
	mov	w1, #3
	b	.LBB100_2
.LBB100_48:
	mov	w1, #17
	b	.LBB100_2
.LBB100_49:
	mov	w1, #19
	b	.LBB100_2
.LBB100_50:
	mov	w1, #14
	b	.LBB100_2
.LBB100_51:
	mov	w1, #11
	b	.LBB100_2
.LBB100_52:
	mov	w1, #12
	b	.LBB100_2
.LBB100_53:
	and	w8, w21, #0xff
	mov	w1, #21
	cmp	w8, #2
	b.eq	.LBB100_65
	cmp	w8, #3
	b.eq	.LBB100_2
	b	.LBB100_67
.LBB100_55:
	mov	w1, #18
	b	.LBB100_2
.LBB100_56:
	mov	w1, #13
	b	.LBB100_2
.LBB100_57:
	mov	w1, w22
	b	.LBB100_2
.LBB100_58:
	mov	w1, #7
	b	.LBB100_2
.LBB100_59:
	mov	w1, #15
	b	.LBB100_2
.LBB100_60:
	mov	w1, #9
	b	.LBB100_2
.LBB100_61:
	mov	w1, #10
	b	.LBB100_2
.LBB100_62:
	mov	w1, #8
	b	.LBB100_2
.LBB100_63:
	mov	w1, #16
	b	.LBB100_2
.LBB100_64:
	mov	w1, #5
	b	.LBB100_2
.LBB100_65:
	mov	w1, #20
	b	.LBB100_2
.LBB100_66:
	add	x0, x20, #4
	sub	x1, x24, #4
	bl	nla_wire.members.measure_each.6cf1decf0b22dc4b
	and	w8, w0, #0xff
	cmp	w8, #1
	b.eq	.LBB100_42
	b	.LBB100_11
.LBB100_67:
	mov	x1, xzr
	mov	w0, wzr
	b	.LBB100_69
.LBB100_68:
	mov	w0, #1
	mov	x1, x23
.LBB100_69:
	ldp	x20, x19, [sp, #112]
	ldp	x22, x21, [sp, #96]
	ldp	x24, x23, [sp, #80]
	ldp	x26, x25, [sp, #64]
	ldp	x29, x30, [sp, #48]
	add	sp, sp, #128
	ret
.Lfunc_end100:
	.size	nla_wire.members.measure_each.73a2e5797a03d2f8, .Lfunc_end100-nla_wire.members.measure_each.73a2e5797a03d2f8
	.section	.rodata.nla_wire.members.measure_each.73a2e5797a03d2f8,"a",@progbits
.LJTI100_0:
	.byte	(.LBB100_14-.LBB100_3)>>2
	.byte	(.LBB100_10-.LBB100_3)>>2
	.byte	(.LBB100_10-.LBB100_3)>>2
	.byte	(.LBB100_14-.LBB100_3)>>2
	.byte	(.LBB100_44-.LBB100_3)>>2
	.byte	(.LBB100_3-.LBB100_3)>>2
	.byte	(.LBB100_3-.LBB100_3)>>2
	.byte	(.LBB100_10-.LBB100_3)>>2
	.byte	(.LBB100_31-.LBB100_3)>>2
	.byte	(.LBB100_38-.LBB100_3)>>2
	.byte	(.LBB100_10-.LBB100_3)>>2
	.byte	(.LBB100_36-.LBB100_3)>>2
	.byte	(.LBB100_3-.LBB100_3)>>2
	.byte	(.LBB100_15-.LBB100_3)>>2
	.byte	(.LBB100_15-.LBB100_3)>>2
	.byte	(.LBB100_26-.LBB100_3)>>2
	.byte	(.LBB100_10-.LBB100_3)>>2
	.byte	(.LBB100_14-.LBB100_3)>>2
	.byte	(.LBB100_10-.LBB100_3)>>2
	.byte	(.LBB100_28-.LBB100_3)>>2
	.byte	(.LBB100_29-.LBB100_3)>>2
	.byte	(.LBB100_33-.LBB100_3)>>2
	.byte	(.LBB100_40-.LBB100_3)>>2
	.byte	(.LBB100_22-.LBB100_3)>>2
	.byte	(.LBB100_10-.LBB100_3)>>2
	.byte	(.LBB100_10-.LBB100_3)>>2
	.byte	(.LBB100_10-.LBB100_3)>>2
	.byte	(.LBB100_10-.LBB100_3)>>2
	.byte	(.LBB100_10-.LBB100_3)>>2
	.byte	(.LBB100_10-.LBB100_3)>>2
	.byte	(.LBB100_15-.LBB100_3)>>2
	.byte	(.LBB100_18-.LBB100_3)>>2
	.byte	(.LBB100_10-.LBB100_3)>>2
	.byte	(.LBB100_18-.LBB100_3)>>2
	.byte	(.LBB100_10-.LBB100_3)>>2
	.byte	(.LBB100_14-.LBB100_3)>>2
	.byte	(.LBB100_15-.LBB100_3)>>2
	.byte	(.LBB100_10-.LBB100_3)>>2
	.byte	(.LBB100_10-.LBB100_3)>>2
	.byte	(.LBB100_3-.LBB100_3)>>2
	.byte	(.LBB100_20-.LBB100_3)>>2
	.byte	(.LBB100_10-.LBB100_3)>>2
	.byte	(.LBB100_10-.LBB100_3)>>2
	.byte	(.LBB100_10-.LBB100_3)>>2
	.byte	(.LBB100_10-.LBB100_3)>>2
	.byte	(.LBB100_10-.LBB100_3)>>2
	.byte	(.LBB100_10-.LBB100_3)>>2
	.byte	(.LBB100_10-.LBB100_3)>>2
	.byte	(.LBB100_10-.LBB100_3)>>2
	.byte	(.LBB100_35-.LBB100_3)>>2
	.byte	(.LBB100_3-.LBB100_3)>>2
	.byte	(.LBB100_3-.LBB100_3)>>2
	.byte	(.LBB100_32-.LBB100_3)>>2
	.byte	(.LBB100_14-.LBB100_3)>>2
	.byte	(.LBB100_14-.LBB100_3)>>2
	.byte	(.LBB100_10-.LBB100_3)>>2
	.byte	(.LBB100_10-.LBB100_3)>>2
	.byte	(.LBB100_10-.LBB100_3)>>2
	.byte	(.LBB100_10-.LBB100_3)>>2
	.byte	(.LBB100_30-.LBB100_3)>>2
	.byte	(.LBB100_10-.LBB100_3)>>2
	.byte	(.LBB100_10-.LBB100_3)>>2
	.byte	(.LBB100_25-.LBB100_3)>>2
	.byte	(.LBB100_3-.LBB100_3)>>2
	.byte	(.LBB100_15-.LBB100_3)>>2
	.byte	(.LBB100_16-.LBB100_3)>>2
	.byte	(.LBB100_16-.LBB100_3)>>2
.LJTI100_1:
	.byte	(.LBB100_13-.LBB100_1)>>2
	.byte	(.LBB100_1-.LBB100_1)>>2
	.byte	(.LBB100_1-.LBB100_1)>>2
	.byte	(.LBB100_13-.LBB100_1)>>2
	.byte	(.LBB100_58-.LBB100_1)>>2
	.byte	(.LBB100_67-.LBB100_1)>>2
	.byte	(.LBB100_67-.LBB100_1)>>2
	.byte	(.LBB100_1-.LBB100_1)>>2
	.byte	(.LBB100_61-.LBB100_1)>>2
	.byte	(.LBB100_53-.LBB100_1)>>2
	.byte	(.LBB100_1-.LBB100_1)>>2
	.byte	(.LBB100_60-.LBB100_1)>>2
	.byte	(.LBB100_67-.LBB100_1)>>2
	.byte	(.LBB100_19-.LBB100_1)>>2
	.byte	(.LBB100_19-.LBB100_1)>>2
	.byte	(.LBB100_52-.LBB100_1)>>2
	.byte	(.LBB100_1-.LBB100_1)>>2
	.byte	(.LBB100_13-.LBB100_1)>>2
	.byte	(.LBB100_1-.LBB100_1)>>2
	.byte	(.LBB100_56-.LBB100_1)>>2
	.byte	(.LBB100_62-.LBB100_1)>>2
	.byte	(.LBB100_50-.LBB100_1)>>2
	.byte	(.LBB100_51-.LBB100_1)>>2
	.byte	(.LBB100_57-.LBB100_1)>>2
	.byte	(.LBB100_1-.LBB100_1)>>2
	.byte	(.LBB100_1-.LBB100_1)>>2
	.byte	(.LBB100_1-.LBB100_1)>>2
	.byte	(.LBB100_1-.LBB100_1)>>2
	.byte	(.LBB100_1-.LBB100_1)>>2
	.byte	(.LBB100_1-.LBB100_1)>>2
	.byte	(.LBB100_19-.LBB100_1)>>2
	.byte	(.LBB100_45-.LBB100_1)>>2
	.byte	(.LBB100_1-.LBB100_1)>>2
	.byte	(.LBB100_45-.LBB100_1)>>2
	.byte	(.LBB100_1-.LBB100_1)>>2
	.byte	(.LBB100_13-.LBB100_1)>>2
	.byte	(.LBB100_19-.LBB100_1)>>2
	.byte	(.LBB100_1-.LBB100_1)>>2
	.byte	(.LBB100_1-.LBB100_1)>>2
	.byte	(.LBB100_67-.LBB100_1)>>2
	.byte	(.LBB100_59-.LBB100_1)>>2
	.byte	(.LBB100_1-.LBB100_1)>>2
	.byte	(.LBB100_1-.LBB100_1)>>2
	.byte	(.LBB100_1-.LBB100_1)>>2
	.byte	(.LBB100_1-.LBB100_1)>>2
	.byte	(.LBB100_1-.LBB100_1)>>2
	.byte	(.LBB100_1-.LBB100_1)>>2
	.byte	(.LBB100_1-.LBB100_1)>>2
	.byte	(.LBB100_1-.LBB100_1)>>2
	.byte	(.LBB100_63-.LBB100_1)>>2
	.byte	(.LBB100_67-.LBB100_1)>>2
	.byte	(.LBB100_2-.LBB100_1)>>2
	.byte	(.LBB100_48-.LBB100_1)>>2
	.byte	(.LBB100_13-.LBB100_1)>>2
	.byte	(.LBB100_13-.LBB100_1)>>2
	.byte	(.LBB100_1-.LBB100_1)>>2
	.byte	(.LBB100_1-.LBB100_1)>>2
	.byte	(.LBB100_1-.LBB100_1)>>2
	.byte	(.LBB100_1-.LBB100_1)>>2
	.byte	(.LBB100_55-.LBB100_1)>>2
	.byte	(.LBB100_1-.LBB100_1)>>2
	.byte	(.LBB100_1-.LBB100_1)>>2
	.byte	(.LBB100_49-.LBB100_1)>>2
	.byte	(.LBB100_67-.LBB100_1)>>2
	.byte	(.LBB100_64-.LBB100_1)>>2
	.byte	(.LBB100_46-.LBB100_1)>>2
	.byte	(.LBB100_46-.LBB100_1)>>2

	.section	.text.nla_wire.place.check_one.73a2e5797a03d2f8,"ax",@progbits
	.p2align	2
	.type	nla_wire.place.check_one.73a2e5797a03d2f8,@function
nla_wire.place.check_one.73a2e5797a03d2f8:
	movi	v0.2d, #0000000000000000
	strb	wzr, [x0]
	str	xzr, [x0, #40]
	stur	q0, [x0, #8]
	stur	q0, [x0, #24]
	ret
.Lfunc_end101:
	.size	nla_wire.place.check_one.73a2e5797a03d2f8, .Lfunc_end101-nla_wire.place.check_one.73a2e5797a03d2f8

	.section	.text.nla_wire.members.write_each.73a2e5797a03d2f8,"ax",@progbits
	.p2align	2
	.type	nla_wire.members.write_each.73a2e5797a03d2f8,@function
nla_wire.members.write_each.73a2e5797a03d2f8:
	sub	sp, sp, #160
	stp	x29, x30, [sp, #64]
	add	x29, sp, #64
	stp	x28, x27, [sp, #80]
	stp	x26, x25, [sp, #96]
	stp	x24, x23, [sp, #112]
	stp	x22, x21, [sp, #128]
	stp	x20, x19, [sp, #144]
	stur	x4, [x29, #-8]
	str	w0, [sp, #28]
	cbz	x2, .LBB102_253
	add	x8, x3, #20
	mov	x21, x2
	mov	x20, x1
	mov	x27, xzr
	mov	x28, xzr
	str	x8, [sp, #16]
	add	x8, x3, #4
	stp	x8, x3, [x29, #-24]
	b	.LBB102_4
.LBB102_2:
	strh	wzr, [x8]
.LBB102_3:
	cmp	x21, x13
	add	x27, x0, x27
	mov	x28, x13
	b.ls	.LBB102_253
.LBB102_4:
	sub	x21, x21, x28
	cmp	x21, #4
	b.lo	.LBB102_253
	mov	x23, x20
	add	x20, x20, x28
	ldrh	w8, [x20]
	cmp	w8, #4
	b.lo	.LBB102_253
	cmp	x21, x8
	b.lo	.LBB102_253
	ldrh	w19, [x20, #2]
	add	w10, w8, #3
	add	x15, x20, #4
	and	x13, x10, #0x1fffc
	ldur	x10, [x29, #-8]
	sub	x24, x8, #4
	and	w25, w19, #0x3fff
	add	x14, x3, x27
	sub	w9, w25, #3
	sub	x22, x10, x27
	cmp	w9, #66
	b.hi	.LBB102_11
	adrp	x10, .LJTI102_0
	add	x10, x10, :lo12:.LJTI102_0
	adr	x11, .LBB102_9
	ldrh	w12, [x10, x9, lsl #1]
	add	x11, x11, x12, lsl #2
	br	x11
.LBB102_9:
	cmp	x24, #4
.LBB102_10:
	mov	x26, x24
	b.ne	.LBB102_156
.LBB102_11:
	sub	w8, w25, #1
	cmp	w8, #68
	b.hi	.LBB102_58
	adrp	x9, .LJTI102_1
	add	x9, x9, :lo12:.LJTI102_1
	adr	x10, .LBB102_13
	ldrh	w11, [x9, x8, lsl #1]
	add	x10, x10, x11, lsl #2
	br	x10
.LBB102_13:
	add	x8, x14, #4
	sub	x9, x8, x15
	cmp	x9, #3
	b.hi	.LBB102_16
	ldrb	w8, [x20, #4]
	strb	w8, [x14, #4]
	ldrb	w8, [x20, #5]
	strb	w8, [x14, #5]
	ldrb	w8, [x20, #6]
	strb	w8, [x14, #6]
	ldrb	w8, [x20, #7]
	strb	w8, [x14, #7]
	b	.LBB102_17
.LBB102_15:
	add	x0, x20, #4
	mov	x1, x24
	mov	x26, x13
	mov	x25, x14
	bl	nla_wire.payload.measure_text
	ldur	x3, [x29, #-16]
	and	w8, w0, #0xff
	add	x15, x20, #4
	mov	x14, x25
	and	w25, w19, #0x3fff
	mov	x13, x26
	cmp	w8, #1
	b	.LBB102_10
.LBB102_16:
	ldr	w9, [x15]
	str	w9, [x8]
.LBB102_17:
	mov	w0, #8
.LBB102_18:
	strh	w0, [x14]
	strh	w25, [x14, #2]
	b	.LBB102_3
.LBB102_19:
	cmp	x24, #1
	b	.LBB102_10
.LBB102_20:
	cmp	x24, #2
	b.ne	.LBB102_58
	add	x8, x14, #4
	sub	x9, x8, x15
	cmp	x9, #1
	b.hi	.LBB102_96
	ldrb	w8, [x20, #4]
	strb	w8, [x14, #4]
	ldrb	w8, [x20, #5]
	strb	w8, [x14, #5]
	b	.LBB102_97
.LBB102_23:
	cbz	x24, .LBB102_25
	sub	x8, x24, #1
	ldrb	w9, [x15, x8]
	cbz	w9, .LBB102_105
.LBB102_25:
	cmp	x24, #4
	add	x19, x14, #4
	b.hs	.LBB102_106
.LBB102_26:
	sub	x8, x19, x15
	cmp	x8, x24
	b.hs	.LBB102_104
	cmp	x24, #8
	b.lo	.LBB102_29
	add	x8, x27, x3
	add	x9, x28, x23
	sub	x8, x8, x9
	cmp	x8, #32
	b.hs	.LBB102_182
.LBB102_29:
	mov	x8, xzr
.LBB102_30:
	add	x9, x8, x28
	ldur	x11, [x29, #-24]
	add	x10, x8, x27
	add	x9, x23, x9
	sub	x8, x24, x8
	add	x9, x9, #4
	add	x10, x11, x10
.LBB102_31:
	ldrb	w11, [x9], #1
	subs	x8, x8, #1
	strb	w11, [x10], #1
	b.ne	.LBB102_31
	b	.LBB102_223
.LBB102_32:
	ldrb	w8, [x15]
	mov	w9, #5
	strh	w25, [x14, #2]
	strh	w9, [x14]
	mov	w0, #8
	strb	w8, [x14, #4]
	sturh	wzr, [x14, #5]
	strb	wzr, [x14, #7]
	b	.LBB102_3
.LBB102_33:
	cbz	x24, .LBB102_89
	add	x0, x20, #4
	mov	x1, x24
	str	x14, [sp, #32]
	mov	x22, x13
	bl	nla_wire.members.measure_each.8ba1f663fcd59a5e
	and	w8, w0, #0xff
	cmp	w8, #1
	b.ne	.LBB102_117
	mov	w8, #65532
	ldur	x3, [x29, #-16]
	ldr	x14, [sp, #32]
	cmp	x1, x8
	mov	x26, x24
	mov	x13, x22
	add	x15, x20, #4
	b.hs	.LBB102_156
.LBB102_36:
	add	x0, x20, #4
	add	x2, x14, #4
	mov	x1, x24
	mov	x19, x13
	mov	x22, x14
	bl	nla_wire.members.write_each.8ba1f663fcd59a5e
	b	.LBB102_150
.LBB102_37:
	add	x0, x20, #4
	mov	x1, x24
	str	x14, [sp, #32]
	mov	x22, x13
	bl	nla_wire.members.measure_each.16a873d75d6df2a1
	and	w8, w0, #0xff
	cmp	w8, #1
	b.ne	.LBB102_117
	mov	w8, #65532
	ldur	x3, [x29, #-16]
	ldr	x14, [sp, #32]
	cmp	x1, x8
	mov	x26, x24
	mov	x13, x22
	add	x15, x20, #4
	b.hs	.LBB102_156
.LBB102_39:
	add	x0, x20, #4
	add	x2, x14, #4
	mov	x1, x24
	mov	x22, x13
	orr	w19, w25, #0x8000
	mov	x23, x14
	bl	nla_wire.members.write_each.16a873d75d6df2a1
	b	.LBB102_121
.LBB102_40:
	ldr	w8, [sp, #28]
	and	w8, w8, #0xff
	cmp	w8, #2
	b.gt	.LBB102_43
	cbz	w8, .LBB102_147
	cmp	w8, #1
	b.ne	.LBB102_52
.LBB102_43:
	ldr	w8, [sp, #28]
	and	w8, w8, #0xff
	cmp	w8, #2
	b.gt	.LBB102_46
	cbz	w8, .LBB102_149
	cmp	w8, #1
	b.ne	.LBB102_55
.LBB102_46:
	add	x8, x14, #4
	sub	x8, x8, x15
	cmp	x8, x24
	b.hs	.LBB102_94
	cmp	x24, #8
	b.lo	.LBB102_49
	add	x8, x27, x3
	add	x9, x28, x23
	sub	x8, x8, x9
	cmp	x8, #32
	b.hs	.LBB102_145
.LBB102_49:
	mov	x8, xzr
.LBB102_50:
	add	x9, x8, x28
	ldur	x11, [x29, #-24]
	add	x10, x8, x27
	add	x9, x23, x9
	sub	x8, x24, x8
	add	x9, x9, #4
	add	x10, x11, x10
.LBB102_51:
	ldrb	w11, [x9], #1
	subs	x8, x8, #1
	strb	w11, [x10], #1
	b.ne	.LBB102_51
	b	.LBB102_95
.LBB102_52:
	cbz	x24, .LBB102_89
	add	x0, x20, #4
	mov	x1, x24
	str	x14, [sp, #32]
	mov	x22, x13
	bl	nla_wire.members.measure_each.1f0cb788f492ced5
	and	w8, w0, #0xff
	cmp	w8, #1
	b.ne	.LBB102_117
	mov	w8, #65532
	ldur	x3, [x29, #-16]
	ldr	x14, [sp, #32]
	cmp	x1, x8
	mov	x26, x24
	mov	x13, x22
	add	x15, x20, #4
	b.hs	.LBB102_156
.LBB102_55:
	add	x0, x20, #4
	add	x2, x14, #4
	mov	x1, x24
	mov	x19, x13
	mov	x22, x14
	bl	nla_wire.members.write_each.1f0cb788f492ced5
	b	.LBB102_150
.LBB102_56:
	ldr	w8, [sp, #28]
	mov	w9, #1
	mov	w10, #51
	and	w8, w8, #0xff
	lsl	w9, w9, w8
	tst	w9, w10
	b.eq	.LBB102_113
.LBB102_57:
	ldr	w8, [sp, #28]
	mov	w9, #1
	mov	w10, #51
	and	w8, w8, #0xff
	lsl	w9, w9, w8
	tst	w9, w10
	b.eq	.LBB102_119
.LBB102_58:
	add	x8, x14, #4
	sub	x8, x8, x15
	cmp	x8, x24
	b.hs	.LBB102_64
	cmp	x24, #8
	b.lo	.LBB102_61
	add	x8, x27, x3
	add	x9, x28, x23
	sub	x8, x8, x9
	cmp	x8, #32
	b.hs	.LBB102_141
.LBB102_61:
	mov	x8, xzr
.LBB102_62:
	add	x9, x8, x28
	ldur	x11, [x29, #-24]
	add	x10, x8, x27
	add	x9, x23, x9
	sub	x8, x24, x8
	add	x9, x9, #4
	add	x10, x11, x10
.LBB102_63:
	ldrb	w11, [x9], #1
	subs	x8, x8, #1
	strb	w11, [x10], #1
	b.ne	.LBB102_63
	b	.LBB102_65
.LBB102_64:
	add	x0, x14, #4
	add	x1, x20, #4
	mov	x2, x24
	mov	x22, x13
	mov	x23, x14
	bl	memmove
	ldur	x3, [x29, #-16]
	mov	x14, x23
	mov	x13, x22
.LBB102_65:
	add	x8, x24, #7
	add	x10, x24, #4
	b	.LBB102_163
.LBB102_66:
	cmp	w8, #11
	mov	x26, x24
	b.ls	.LBB102_156
.LBB102_67:
	ldur	x8, [x29, #-16]
	add	x1, x20, #4
	mov	w0, w25
	mov	x2, x24
	mov	x19, x13
	add	x3, x8, x27
	bl	link_msg.payload.write_event
	ldur	x3, [x29, #-16]
	mov	x13, x19
	b	.LBB102_3
.LBB102_68:
	cmp	w8, #35
	mov	x26, x24
	b.ls	.LBB102_156
.LBB102_69:
	ldur	q0, [x20, #4]
	ldur	x8, [x20, #20]
	mov	w0, #36
	ldr	w9, [x20, #28]
	stur	q0, [x14, #4]
	stur	x8, [x14, #20]
	stp	w9, wzr, [x14, #28]
	b	.LBB102_18
.LBB102_70:
	cbz	x24, .LBB102_89
	add	x0, x20, #4
	mov	x1, x24
	str	x14, [sp, #32]
	mov	x22, x13
	bl	nla_wire.members.measure_each.49064c0641319ce4
	and	w8, w0, #0xff
	cmp	w8, #1
	b.ne	.LBB102_117
	mov	w8, #65532
	ldur	x3, [x29, #-16]
	ldr	x14, [sp, #32]
	cmp	x1, x8
	mov	x26, x24
	mov	x13, x22
	add	x15, x20, #4
	b.hs	.LBB102_156
.LBB102_73:
	add	x0, x20, #4
	add	x2, x14, #4
	mov	x1, x24
	mov	x19, x13
	mov	x22, x14
	bl	nla_wire.members.write_each.49064c0641319ce4
	b	.LBB102_150
.LBB102_74:
	add	x0, x20, #4
	mov	x1, x24
	str	x14, [sp, #32]
	str	x13, [sp, #8]
	bl	nla_wire.members.measure_each.3bb4c8661a1029f4
	and	w8, w0, #0xff
	cmp	w8, #1
	b.ne	.LBB102_154
	mov	w8, #65532
	ldur	x3, [x29, #-16]
	ldr	x13, [sp, #8]
	ldr	x14, [sp, #32]
	cmp	x1, x8
	mov	x26, x24
	add	x15, x20, #4
	b.hs	.LBB102_156
.LBB102_76:
	sub	x3, x22, #4
	add	x0, x20, #4
	add	x2, x14, #4
	mov	x1, x24
	mov	x19, x13
	mov	x22, x14
	bl	nla_wire.members.write_each.3bb4c8661a1029f4
	b	.LBB102_150
.LBB102_77:
	add	x0, x20, #4
	mov	x1, x24
	str	x14, [sp, #32]
	mov	x22, x13
	bl	nla_wire.members.measure_each.5fa77b269143286c
	and	w8, w0, #0xff
	cmp	w8, #1
	b.ne	.LBB102_117
	mov	w8, #65532
	ldur	x3, [x29, #-16]
	ldr	x14, [sp, #32]
	cmp	x1, x8
	mov	x26, x24
	mov	x13, x22
	add	x15, x20, #4
	b.hs	.LBB102_156
.LBB102_79:
	add	x0, x20, #4
	add	x2, x14, #4
	mov	x1, x24
	mov	x22, x13
	orr	w19, w25, #0x8000
	mov	x23, x14
	bl	nla_wire.members.write_each.5fa77b269143286c
	b	.LBB102_121
.LBB102_80:
	cmp	x24, #1
	mov	x26, x24
	b.ne	.LBB102_156
.LBB102_81:
	ldrb	w8, [x15]
	mov	w9, #5
	strh	w25, [x14, #2]
	sturh	wzr, [x14, #5]
	mov	w0, #8
	cmp	w8, #0
	strh	w9, [x14]
	cset	w8, ne
	strb	wzr, [x14, #7]
	strb	w8, [x14, #4]
	b	.LBB102_3
.LBB102_82:
	add	x0, x20, #4
	mov	x1, x24
	str	x14, [sp, #32]
	mov	x22, x13
	bl	nla_wire.members.measure_each.f7f30aae703aa44d
	and	w8, w0, #0xff
	cmp	w8, #1
	b.ne	.LBB102_117
	mov	w8, #65532
	ldur	x3, [x29, #-16]
	ldr	x14, [sp, #32]
	cmp	x1, x8
	mov	x26, x24
	mov	x13, x22
	add	x15, x20, #4
	b.hs	.LBB102_156
.LBB102_84:
	add	x0, x20, #4
	add	x2, x14, #4
	mov	x1, x24
	mov	x19, x13
	mov	x22, x14
	bl	nla_wire.members.write_each.f7f30aae703aa44d
	b	.LBB102_150
.LBB102_85:
	cbz	x24, .LBB102_89
	add	x0, x20, #4
	mov	x1, x24
	str	x14, [sp, #32]
	str	x13, [sp, #8]
	bl	nla_wire.members.measure_each.79503c7a397af21a
	and	w8, w0, #0xff
	cmp	w8, #1
	b.ne	.LBB102_154
	mov	w8, #65532
	ldur	x3, [x29, #-16]
	ldr	x13, [sp, #8]
	ldr	x14, [sp, #32]
	cmp	x1, x8
	mov	x26, x24
	add	x15, x20, #4
	b.hs	.LBB102_156
.LBB102_88:
	sub	x3, x22, #4
	add	x0, x20, #4
	add	x2, x14, #4
	mov	x1, x24
	mov	x19, x13
	mov	x22, x14
	bl	nla_wire.members.write_each.79503c7a397af21a
	b	.LBB102_150
.LBB102_89:
	mov	x26, xzr
	add	x8, x14, #4
	sub	x8, x8, x15
	cmp	x8, x24
	b.lo	.LBB102_157
.LBB102_90:
	add	x0, x14, #4
	add	x1, x20, #4
	mov	x2, x26
	mov	x22, x13
	mov	x23, x14
	bl	memmove
	ldur	x3, [x29, #-16]
	mov	x14, x23
	mov	x13, x22
	b	.LBB102_162
.LBB102_91:
	add	x0, x20, #4
	mov	x1, x24
	str	x14, [sp, #32]
	mov	x22, x13
	bl	nla_wire.members.measure_each.b30b196c481b950e
	and	w8, w0, #0xff
	cmp	w8, #1
	b.ne	.LBB102_117
	mov	w8, #65532
	ldur	x3, [x29, #-16]
	ldr	x14, [sp, #32]
	cmp	x1, x8
	mov	x26, x24
	mov	x13, x22
	add	x15, x20, #4
	b.hs	.LBB102_156
.LBB102_93:
	add	x0, x20, #4
	add	x2, x14, #4
	mov	x1, x24
	mov	x22, x13
	orr	w19, w25, #0x8000
	mov	x23, x14
	bl	nla_wire.members.write_each.b30b196c481b950e
	b	.LBB102_121
.LBB102_94:
	add	x0, x14, #4
	add	x1, x20, #4
	mov	x2, x24
	mov	x19, x13
	mov	x22, x14
	bl	memmove
	ldur	x3, [x29, #-16]
	mov	x14, x22
	mov	x13, x19
.LBB102_95:
	add	x8, x24, #7
	add	x10, x24, #4
	strh	w25, [x14, #2]
	and	x0, x8, #0xfffffffffffffffc
	add	x8, x14, x10
	strh	w10, [x14]
	sub	x9, x0, x10
	cmp	x9, #3
	b.ne	.LBB102_164
	b	.LBB102_224
.LBB102_96:
	ldrh	w9, [x15]
	strh	w9, [x8]
.LBB102_97:
	mov	w8, #6
	strh	w25, [x14, #2]
	mov	w0, #8
	strh	w8, [x14]
	strh	wzr, [x14, #6]
	b	.LBB102_3
.LBB102_98:
	cmp	x24, #32
	mov	w8, #32
	add	x9, x14, #4
	csel	x26, x24, x8, lo
	sub	x8, x9, x15
	cmp	x8, x26
	b.hs	.LBB102_132
	cmp	x24, #4
	b.lo	.LBB102_101
	add	x8, x27, x3
	add	x10, x28, x23
	sub	x8, x8, x10
	cmp	x8, #16
	b.hs	.LBB102_208
.LBB102_101:
	mov	x8, xzr
.LBB102_102:
	add	x9, x8, x28
	ldur	x11, [x29, #-24]
	add	x10, x8, x27
	add	x9, x23, x9
	sub	x8, x26, x8
	add	x9, x9, #4
	add	x10, x11, x10
.LBB102_103:
	ldrb	w11, [x9], #1
	subs	x8, x8, #1
	strb	w11, [x10], #1
	b.ne	.LBB102_103
	b	.LBB102_133
.LBB102_104:
	add	x0, x14, #4
	add	x1, x20, #4
	mov	x2, x24
	mov	x22, x13
	mov	x23, x14
	bl	memmove
	ldur	x3, [x29, #-16]
	mov	x14, x23
	mov	x13, x22
	b	.LBB102_223
.LBB102_105:
	mov	x24, x8
	cmp	x8, #4
	add	x19, x14, #4
	b.lo	.LBB102_26
.LBB102_106:
	cmp	x24, #7
	b.hi	.LBB102_110
	sub	x8, x19, x15
	cmp	x8, #3
	b.hi	.LBB102_143
	ldrb	w8, [x20, #4]
	strb	w8, [x14, #4]
	ldrb	w8, [x20, #5]
	strb	w8, [x14, #5]
	ldrb	w8, [x20, #6]
	strb	w8, [x14, #6]
	ldrb	w8, [x20, #7]
	strb	w8, [x14, #7]
	add	x9, x15, x24
	add	x8, x14, x24
	sub	x10, x9, #4
	sub	x11, x8, x10
	cmp	x11, #3
	b.ls	.LBB102_144
.LBB102_109:
	ldr	w9, [x10]
	str	w9, [x8]
	b	.LBB102_223
.LBB102_110:
	cmp	x24, #16
	b.hi	.LBB102_26
	sub	x8, x19, x15
	cmp	x8, #7
	b.hi	.LBB102_192
	ldrb	w8, [x20, #4]
	strb	w8, [x14, #4]
	ldrb	w8, [x20, #5]
	strb	w8, [x14, #5]
	ldrb	w8, [x20, #6]
	strb	w8, [x14, #6]
	ldrb	w8, [x20, #7]
	strb	w8, [x14, #7]
	ldrb	w8, [x20, #8]
	strb	w8, [x14, #8]
	ldrb	w8, [x20, #9]
	strb	w8, [x14, #9]
	ldrb	w8, [x20, #10]
	strb	w8, [x14, #10]
	ldrb	w8, [x20, #11]
	strb	w8, [x14, #11]
	b	.LBB102_193
.LBB102_113:
	mov	x22, x13
	cmp	w8, #2
	str	x14, [sp, #32]
	cbz	x24, .LBB102_191
	add	x0, x20, #4
	mov	x1, x24
	bl	nla_wire.members.measure_each.1f0cb788f492ced5
	and	w8, w0, #0xff
	cmp	w8, #1
	b.ne	.LBB102_117
	mov	w8, #65532
	ldur	x3, [x29, #-16]
	ldr	x14, [sp, #32]
	cmp	x1, x8
	mov	x26, x24
	mov	x13, x22
	add	x15, x20, #4
	b.lo	.LBB102_120
	b	.LBB102_156
.LBB102_117:
	mov	x26, x24
.LBB102_118:
	ldur	x3, [x29, #-16]
	mov	x13, x22
	b	.LBB102_155
.LBB102_119:
	cmp	w8, #2
.LBB102_120:
	add	x0, x20, #4
	add	x2, x14, #4
	mov	x1, x24
	mov	x22, x13
	orr	w19, w25, #0x8000
	mov	x23, x14
	bl	nla_wire.members.write_each.1f0cb788f492ced5
.LBB102_121:
	add	x8, x0, #7
	add	x10, x0, #4
	strh	w19, [x23, #2]
	and	x0, x8, #0xfffffffffffffffc
	add	x8, x23, x10
	strh	w10, [x23]
	sub	x9, x0, x10
	cmp	x9, #3
	b.eq	.LBB102_124
	cmp	x9, #2
	mov	x13, x22
	b.ne	.LBB102_152
.LBB102_123:
	ldur	x3, [x29, #-16]
	strh	wzr, [x8]
	b	.LBB102_3
.LBB102_124:
	ldur	x3, [x29, #-16]
	strh	wzr, [x8]
	mov	x13, x22
	b	.LBB102_225
.LBB102_125:
	add	x19, x14, #4
	cmp	x24, #200
	sub	x8, x19, x15
	b.hs	.LBB102_176
	cmp	x8, x24
	b.hs	.LBB102_203
	cmp	x24, #8
	b.lo	.LBB102_129
	add	x8, x27, x3
	add	x9, x28, x23
	sub	x8, x8, x9
	cmp	x8, #32
	b.hs	.LBB102_235
.LBB102_129:
	mov	x25, x14
	mov	x22, x13
	mov	x8, xzr
.LBB102_130:
	add	x9, x8, x28
	ldur	x11, [x29, #-24]
	add	x10, x8, x27
	add	x9, x23, x9
	sub	x8, x24, x8
	add	x9, x9, #4
	add	x10, x11, x10
.LBB102_131:
	ldrb	w11, [x9], #1
	subs	x8, x8, #1
	strb	w11, [x10], #1
	b.ne	.LBB102_131
	b	.LBB102_204
.LBB102_132:
	add	x0, x14, #4
	add	x1, x20, #4
	mov	x2, x26
	mov	x19, x13
	mov	x22, x14
	bl	memmove
	ldur	x3, [x29, #-16]
	mov	x14, x22
	mov	x13, x19
.LBB102_133:
	add	w8, w26, #7
	add	x10, x26, #4
	strh	w25, [x14, #2]
	and	x0, x8, #0x7c
	add	x8, x14, x10
	strh	w10, [x14]
	sub	x9, x0, x10
	cmp	x9, #3
	b.ne	.LBB102_164
	b	.LBB102_224
.LBB102_134:
	add	x19, x14, #4
	cmp	x24, #96
	sub	x8, x19, x15
	b.hs	.LBB102_180
	cmp	x8, x24
	b.hs	.LBB102_210
	cmp	x24, #8
	b.lo	.LBB102_138
	add	x8, x27, x3
	add	x9, x28, x23
	sub	x8, x8, x9
	cmp	x8, #32
	b.hs	.LBB102_237
.LBB102_138:
	mov	x25, x14
	mov	x22, x13
	mov	x8, xzr
.LBB102_139:
	add	x9, x8, x28
	ldur	x11, [x29, #-24]
	add	x10, x8, x27
	add	x9, x23, x9
	sub	x8, x24, x8
	add	x9, x9, #4
	add	x10, x11, x10
.LBB102_140:
	ldrb	w11, [x9], #1
	subs	x8, x8, #1
	strb	w11, [x10], #1
	b.ne	.LBB102_140
	b	.LBB102_211
.LBB102_141:
	cmp	x24, #32
	b.hs	.LBB102_184
	mov	x8, xzr
	b	.LBB102_188
.LBB102_143:
	ldr	w8, [x15]
	str	w8, [x19]
	add	x9, x15, x24
	add	x8, x14, x24
	sub	x10, x9, #4
	sub	x11, x8, x10
	cmp	x11, #3
	b.hi	.LBB102_109
.LBB102_144:
	ldurb	w10, [x9, #-4]
	strb	w10, [x8]
	ldurb	w10, [x9, #-3]
	strb	w10, [x8, #1]
	ldurb	w10, [x9, #-2]
	strb	w10, [x8, #2]
	ldurb	w9, [x9, #-1]
	strb	w9, [x8, #3]
	b	.LBB102_223
.LBB102_145:
	cmp	x24, #32
	b.hs	.LBB102_196
	mov	x8, xzr
	b	.LBB102_200
.LBB102_147:
	add	x0, x20, #4
	mov	x1, x24
	str	x14, [sp, #32]
	str	x13, [sp, #8]
	bl	nla_wire.members.measure_each.6cf1decf0b22dc4b
	and	w8, w0, #0xff
	cmp	w8, #1
	b.ne	.LBB102_154
	mov	w8, #65532
	ldur	x3, [x29, #-16]
	ldr	x13, [sp, #8]
	ldr	x14, [sp, #32]
	cmp	x1, x8
	mov	x26, x24
	add	x15, x20, #4
	b.hs	.LBB102_156
.LBB102_149:
	sub	x3, x22, #4
	add	x0, x20, #4
	add	x2, x14, #4
	mov	x1, x24
	mov	x19, x13
	mov	x22, x14
	bl	nla_wire.members.write_each.6cf1decf0b22dc4b
.LBB102_150:
	add	x8, x0, #7
	add	x10, x0, #4
	strh	w25, [x22, #2]
	and	x0, x8, #0xfffffffffffffffc
	add	x8, x22, x10
	strh	w10, [x22]
	sub	x9, x0, x10
	cmp	x9, #3
	b.eq	.LBB102_153
	cmp	x9, #2
	mov	x13, x19
	b.eq	.LBB102_123
.LBB102_152:
	ldur	x3, [x29, #-16]
	cmp	x9, #1
	b.ne	.LBB102_3
	b	.LBB102_166
.LBB102_153:
	ldur	x3, [x29, #-16]
	strh	wzr, [x8]
	mov	x13, x19
	b	.LBB102_225
.LBB102_154:
	ldur	x3, [x29, #-16]
	ldr	x13, [sp, #8]
	mov	x26, x24
.LBB102_155:
	ldr	x14, [sp, #32]
	add	x15, x20, #4
.LBB102_156:
	add	x8, x14, #4
	sub	x8, x8, x15
	cmp	x8, x24
	b.hs	.LBB102_90
.LBB102_157:
	cmp	x26, #8
	b.lo	.LBB102_159
	add	x8, x27, x3
	add	x9, x28, x23
	sub	x8, x8, x9
	cmp	x8, #32
	b.hs	.LBB102_167
.LBB102_159:
	mov	x8, xzr
.LBB102_160:
	add	x9, x8, x28
	ldur	x11, [x29, #-24]
	add	x10, x8, x27
	add	x9, x23, x9
	sub	x8, x26, x8
	add	x9, x9, #4
	add	x10, x11, x10
.LBB102_161:
	ldrb	w11, [x9], #1
	subs	x8, x8, #1
	strb	w11, [x10], #1
	b.ne	.LBB102_161
.LBB102_162:
	add	x8, x26, #7
	add	x10, x26, #4
.LBB102_163:
	strh	w19, [x14, #2]
	and	x0, x8, #0xfffffffffffffffc
	add	x8, x14, x10
	strh	w10, [x14]
	sub	x9, x0, x10
	cmp	x9, #3
	b.eq	.LBB102_224
.LBB102_164:
	cmp	x9, #2
	b.eq	.LBB102_2
	cmp	x9, #1
	b.ne	.LBB102_3
.LBB102_166:
	strb	wzr, [x8]
	b	.LBB102_3
.LBB102_167:
	cmp	x26, #32
	b.hs	.LBB102_169
	mov	x8, xzr
	b	.LBB102_173
.LBB102_169:
	ldr	x11, [sp, #16]
	add	x10, x23, x28
	and	x9, x26, #0x18
	and	x8, x26, #0xffffffffffffffe0
	add	x10, x10, #20
	and	x12, x26, #0xffffffffffffffe0
	add	x11, x11, x27
.LBB102_170:
	ldp	q0, q1, [x10, #-16]
	subs	x12, x12, #32
	add	x10, x10, #32
	stp	q0, q1, [x11, #-16]
	add	x11, x11, #32
	b.ne	.LBB102_170
	cmp	x26, x8
	b.eq	.LBB102_162
	cbz	x9, .LBB102_160
.LBB102_173:
	mov	x9, x8
	ldur	x12, [x29, #-24]
	and	x8, x26, #0xfffffffffffffff8
	add	x10, x28, x9
	add	x11, x9, x27
	sub	x9, x9, x8
	add	x10, x23, x10
	add	x11, x12, x11
	add	x10, x10, #4
.LBB102_174:
	ldr	d0, [x10], #8
	adds	x9, x9, #8
	str	d0, [x11], #8
	b.ne	.LBB102_174
	cmp	x26, x8
	b.eq	.LBB102_162
	b	.LBB102_160
.LBB102_176:
	cmp	x8, #199
	b.hi	.LBB102_207
	add	x8, x27, x3
	add	x9, x28, x23
	sub	x8, x8, x9
	cmp	x8, #31
	b.hi	.LBB102_226
	mov	w8, #4
.LBB102_179:
	ldrb	w9, [x20, x8]
	strb	w9, [x14, x8]
	add	x8, x8, #1
	cmp	x8, #204
	b.ne	.LBB102_179
	b	.LBB102_227
.LBB102_180:
	cmp	x8, #95
	b.hi	.LBB102_214
	ldrb	w8, [x20, #4]
	strb	w8, [x14, #4]
	ldrb	w8, [x20, #5]
	strb	w8, [x14, #5]
	ldrb	w8, [x20, #6]
	strb	w8, [x14, #6]
	ldrb	w8, [x20, #7]
	strb	w8, [x14, #7]
	ldrb	w8, [x20, #8]
	strb	w8, [x14, #8]
	ldrb	w8, [x20, #9]
	strb	w8, [x14, #9]
	ldrb	w8, [x20, #10]
	strb	w8, [x14, #10]
	ldrb	w8, [x20, #11]
	strb	w8, [x14, #11]
	ldrb	w8, [x20, #12]
	strb	w8, [x14, #12]
	ldrb	w8, [x20, #13]
	strb	w8, [x14, #13]
	ldrb	w8, [x20, #14]
	strb	w8, [x14, #14]
	ldrb	w8, [x20, #15]
	strb	w8, [x14, #15]
	ldrb	w8, [x20, #16]
	strb	w8, [x14, #16]
	ldrb	w8, [x20, #17]
	strb	w8, [x14, #17]
	ldrb	w8, [x20, #18]
	strb	w8, [x14, #18]
	ldrb	w8, [x20, #19]
	strb	w8, [x14, #19]
	ldrb	w8, [x20, #20]
	strb	w8, [x14, #20]
	ldrb	w8, [x20, #21]
	strb	w8, [x14, #21]
	ldrb	w8, [x20, #22]
	strb	w8, [x14, #22]
	ldrb	w8, [x20, #23]
	strb	w8, [x14, #23]
	ldrb	w8, [x20, #24]
	strb	w8, [x14, #24]
	ldrb	w8, [x20, #25]
	strb	w8, [x14, #25]
	ldrb	w8, [x20, #26]
	strb	w8, [x14, #26]
	ldrb	w8, [x20, #27]
	strb	w8, [x14, #27]
	ldrb	w8, [x20, #28]
	strb	w8, [x14, #28]
	ldrb	w8, [x20, #29]
	strb	w8, [x14, #29]
	ldrb	w8, [x20, #30]
	strb	w8, [x14, #30]
	ldrb	w8, [x20, #31]
	strb	w8, [x14, #31]
	ldrb	w8, [x20, #32]
	strb	w8, [x14, #32]
	ldrb	w8, [x20, #33]
	strb	w8, [x14, #33]
	ldrb	w8, [x20, #34]
	strb	w8, [x14, #34]
	ldrb	w8, [x20, #35]
	strb	w8, [x14, #35]
	ldrb	w8, [x20, #36]
	strb	w8, [x14, #36]
	ldrb	w8, [x20, #37]
	strb	w8, [x14, #37]
	ldrb	w8, [x20, #38]
	strb	w8, [x14, #38]
	ldrb	w8, [x20, #39]
	strb	w8, [x14, #39]
	ldrb	w8, [x20, #40]
	strb	w8, [x14, #40]
	ldrb	w8, [x20, #41]
	strb	w8, [x14, #41]
	ldrb	w8, [x20, #42]
	strb	w8, [x14, #42]
	ldrb	w8, [x20, #43]
	strb	w8, [x14, #43]
	ldrb	w8, [x20, #44]
	strb	w8, [x14, #44]
	ldrb	w8, [x20, #45]
	strb	w8, [x14, #45]
	ldrb	w8, [x20, #46]
	strb	w8, [x14, #46]
	ldrb	w8, [x20, #47]
	strb	w8, [x14, #47]
	ldrb	w8, [x20, #48]
	strb	w8, [x14, #48]
	ldrb	w8, [x20, #49]
	strb	w8, [x14, #49]
	ldrb	w8, [x20, #50]
	strb	w8, [x14, #50]
	ldrb	w8, [x20, #51]
	strb	w8, [x14, #51]
	ldrb	w8, [x20, #52]
	strb	w8, [x14, #52]
	ldrb	w8, [x20, #53]
	strb	w8, [x14, #53]
	ldrb	w8, [x20, #54]
	strb	w8, [x14, #54]
	ldrb	w8, [x20, #55]
	strb	w8, [x14, #55]
	ldrb	w8, [x20, #56]
	strb	w8, [x14, #56]
	ldrb	w8, [x20, #57]
	strb	w8, [x14, #57]
	ldrb	w8, [x20, #58]
	strb	w8, [x14, #58]
	ldrb	w8, [x20, #59]
	strb	w8, [x14, #59]
	ldrb	w8, [x20, #60]
	strb	w8, [x14, #60]
	ldrb	w8, [x20, #61]
	strb	w8, [x14, #61]
	ldrb	w8, [x20, #62]
	strb	w8, [x14, #62]
	ldrb	w8, [x20, #63]
	strb	w8, [x14, #63]
	ldrb	w8, [x20, #64]
	strb	w8, [x14, #64]
	ldrb	w8, [x20, #65]
	strb	w8, [x14, #65]
	ldrb	w8, [x20, #66]
	strb	w8, [x14, #66]
	ldrb	w8, [x20, #67]
	strb	w8, [x14, #67]
	ldrb	w8, [x20, #68]
	strb	w8, [x14, #68]
	ldrb	w8, [x20, #69]
	strb	w8, [x14, #69]
	ldrb	w8, [x20, #70]
	strb	w8, [x14, #70]
	ldrb	w8, [x20, #71]
	strb	w8, [x14, #71]
	ldrb	w8, [x20, #72]
	strb	w8, [x14, #72]
	ldrb	w8, [x20, #73]
	strb	w8, [x14, #73]
	ldrb	w8, [x20, #74]
	strb	w8, [x14, #74]
	ldrb	w8, [x20, #75]
	strb	w8, [x14, #75]
	ldrb	w8, [x20, #76]
	strb	w8, [x14, #76]
	ldrb	w8, [x20, #77]
	strb	w8, [x14, #77]
	ldrb	w8, [x20, #78]
	strb	w8, [x14, #78]
	ldrb	w8, [x20, #79]
	strb	w8, [x14, #79]
	ldrb	w8, [x20, #80]
	strb	w8, [x14, #80]
	ldrb	w8, [x20, #81]
	strb	w8, [x14, #81]
	ldrb	w8, [x20, #82]
	strb	w8, [x14, #82]
	ldrb	w8, [x20, #83]
	strb	w8, [x14, #83]
	ldrb	w8, [x20, #84]
	strb	w8, [x14, #84]
	ldrb	w8, [x20, #85]
	strb	w8, [x14, #85]
	ldrb	w8, [x20, #86]
	strb	w8, [x14, #86]
	ldrb	w8, [x20, #87]
	strb	w8, [x14, #87]
	ldrb	w8, [x20, #88]
	strb	w8, [x14, #88]
	ldrb	w8, [x20, #89]
	strb	w8, [x14, #89]
	ldrb	w8, [x20, #90]
	strb	w8, [x14, #90]
	ldrb	w8, [x20, #91]
	strb	w8, [x14, #91]
	ldrb	w8, [x20, #92]
	strb	w8, [x14, #92]
	ldrb	w8, [x20, #93]
	strb	w8, [x14, #93]
	ldrb	w8, [x20, #94]
	strb	w8, [x14, #94]
	ldrb	w8, [x20, #95]
	strb	w8, [x14, #95]
	ldrb	w8, [x20, #96]
	strb	w8, [x14, #96]
	ldrb	w8, [x20, #97]
	strb	w8, [x14, #97]
	ldrb	w8, [x20, #98]
	strb	w8, [x14, #98]
	ldrb	w8, [x20, #99]
	strb	w8, [x14, #99]
	b	.LBB102_215
.LBB102_182:
	cmp	x24, #32
	b.hs	.LBB102_216
	mov	x8, xzr
	b	.LBB102_220
.LBB102_184:
	ldr	x11, [sp, #16]
	add	x10, x23, x28
	and	x9, x24, #0x18
	and	x8, x24, #0xffffffffffffffe0
	add	x10, x10, #20
	and	x12, x24, #0xffffffffffffffe0
	add	x11, x11, x27
.LBB102_185:
	ldp	q0, q1, [x10, #-16]
	subs	x12, x12, #32
	add	x10, x10, #32
	stp	q0, q1, [x11, #-16]
	add	x11, x11, #32
	b.ne	.LBB102_185
	cmp	x24, x8
	b.eq	.LBB102_65
	cbz	x9, .LBB102_62
.LBB102_188:
	mov	x9, x8
	ldur	x12, [x29, #-24]
	and	x8, x24, #0xfffffffffffffff8
	add	x10, x28, x9
	add	x11, x9, x27
	sub	x9, x9, x8
	add	x10, x23, x10
	add	x11, x12, x11
	add	x10, x10, #4
.LBB102_189:
	ldr	d0, [x10], #8
	adds	x9, x9, #8
	str	d0, [x11], #8
	b.ne	.LBB102_189
	cmp	x24, x8
	b.eq	.LBB102_65
	b	.LBB102_62
.LBB102_191:
	mov	x26, xzr
	b	.LBB102_118
.LBB102_192:
	ldr	x8, [x15]
	str	x8, [x19]
.LBB102_193:
	sub	x9, x24, #8
	add	x8, x19, x9
	add	x9, x15, x9
	sub	x10, x8, x9
	cmp	x10, #7
	b.hi	.LBB102_195
	ldrb	w10, [x9]
	strb	w10, [x8]
	ldrb	w10, [x9, #1]
	strb	w10, [x8, #1]
	ldrb	w10, [x9, #2]
	strb	w10, [x8, #2]
	ldrb	w10, [x9, #3]
	strb	w10, [x8, #3]
	ldrb	w10, [x9, #4]
	strb	w10, [x8, #4]
	ldrb	w10, [x9, #5]
	strb	w10, [x8, #5]
	ldrb	w10, [x9, #6]
	strb	w10, [x8, #6]
	ldrb	w9, [x9, #7]
	strb	w9, [x8, #7]
	b	.LBB102_223
.LBB102_195:
	ldr	x9, [x9]
	str	x9, [x8]
	b	.LBB102_223
.LBB102_196:
	ldr	x11, [sp, #16]
	add	x10, x23, x28
	and	x9, x24, #0x18
	and	x8, x24, #0xffffffffffffffe0
	add	x10, x10, #20
	and	x12, x24, #0xffffffffffffffe0
	add	x11, x11, x27
.LBB102_197:
	ldp	q0, q1, [x10, #-16]
	subs	x12, x12, #32
	add	x10, x10, #32
	stp	q0, q1, [x11, #-16]
	add	x11, x11, #32
	b.ne	.LBB102_197
	cmp	x24, x8
	b.eq	.LBB102_95
	cbz	x9, .LBB102_50
.LBB102_200:
	mov	x9, x8
	ldur	x12, [x29, #-24]
	and	x8, x24, #0xfffffffffffffff8
	add	x10, x28, x9
	add	x11, x9, x27
	sub	x9, x9, x8
	add	x10, x23, x10
	add	x11, x12, x11
	add	x10, x10, #4
.LBB102_201:
	ldr	d0, [x10], #8
	adds	x9, x9, #8
	str	d0, [x11], #8
	b.ne	.LBB102_201
	cmp	x24, x8
	b.eq	.LBB102_95
	b	.LBB102_50
.LBB102_203:
	add	x0, x14, #4
	add	x1, x20, #4
	mov	x2, x24
	mov	x22, x13
	mov	x25, x14
	bl	memmove
	ldur	x3, [x29, #-16]
.LBB102_204:
	cmp	x24, #199
	b.eq	.LBB102_206
	mov	w8, #199
	add	x0, x19, x24
	mov	w1, wzr
	sub	x2, x8, x24
	bl	memset
	ldur	x3, [x29, #-16]
.LBB102_206:
	mov	w8, #204
	strb	wzr, [x25, #203]
	mov	w0, #204
	movk	w8, #23, lsl #16
	mov	x13, x22
	str	w8, [x25]
	b	.LBB102_3
.LBB102_207:
	ldp	q0, q1, [x15]
	ldr	x8, [x15, #192]
	ldp	q2, q3, [x15, #32]
	ldp	q4, q5, [x15, #64]
	ldp	q6, q7, [x15, #96]
	ldp	q16, q17, [x15, #160]
	ldp	q18, q19, [x15, #128]
	str	x8, [x19, #192]
	stp	q0, q1, [x19]
	stp	q2, q3, [x19, #32]
	stp	q4, q5, [x19, #64]
	stp	q6, q7, [x19, #96]
	stp	q18, q19, [x19, #128]
	stp	q16, q17, [x19, #160]
	b	.LBB102_227
.LBB102_208:
	cmp	x24, #16
	b.hs	.LBB102_228
	mov	x8, xzr
	b	.LBB102_232
.LBB102_210:
	add	x0, x14, #4
	add	x1, x20, #4
	mov	x2, x24
	mov	x22, x13
	mov	x25, x14
	bl	memmove
	ldur	x3, [x29, #-16]
.LBB102_211:
	cmp	x24, #95
	b.eq	.LBB102_213
	mov	w8, #95
	add	x0, x19, x24
	mov	w1, wzr
	sub	x2, x8, x24
	bl	memset
	ldur	x3, [x29, #-16]
.LBB102_213:
	mov	w8, #100
	strb	wzr, [x25, #99]
	mov	w0, #100
	movk	w8, #7, lsl #16
	mov	x13, x22
	str	w8, [x25]
	b	.LBB102_3
.LBB102_214:
	ldp	q1, q0, [x15, #64]
	ldp	q2, q3, [x15]
	ldp	q4, q5, [x15, #32]
	stp	q1, q0, [x19, #64]
	stp	q2, q3, [x19]
	stp	q4, q5, [x19, #32]
.LBB102_215:
	mov	w8, #100
	mov	w0, #100
	movk	w8, #7, lsl #16
	str	w8, [x14]
	b	.LBB102_3
.LBB102_216:
	ldr	x11, [sp, #16]
	add	x10, x23, x28
	and	x9, x24, #0x18
	and	x8, x24, #0xffffffffffffffe0
	add	x10, x10, #20
	and	x12, x24, #0xffffffffffffffe0
	add	x11, x11, x27
.LBB102_217:
	ldp	q0, q1, [x10, #-16]
	subs	x12, x12, #32
	add	x10, x10, #32
	stp	q0, q1, [x11, #-16]
	add	x11, x11, #32
	b.ne	.LBB102_217
	cmp	x24, x8
	b.eq	.LBB102_223
	cbz	x9, .LBB102_30
.LBB102_220:
	mov	x9, x8
	ldur	x12, [x29, #-24]
	and	x8, x24, #0xfffffffffffffff8
	add	x10, x28, x9
	add	x11, x9, x27
	sub	x9, x9, x8
	add	x10, x23, x10
	add	x11, x12, x11
	add	x10, x10, #4
.LBB102_221:
	ldr	d0, [x10], #8
	adds	x9, x9, #8
	str	d0, [x11], #8
	b.ne	.LBB102_221
	cmp	x24, x8
	b.ne	.LBB102_30
.LBB102_223:
	and	x8, x24, #0xfffffffffffffffc
	add	x10, x24, #5
	strb	wzr, [x19, x24]
	add	x0, x8, #8
	add	x8, x14, x10
	strh	w10, [x14]
	sub	x9, x0, x10
	strh	w25, [x14, #2]
	cmp	x9, #3
	b.ne	.LBB102_164
.LBB102_224:
	strh	wzr, [x8]
.LBB102_225:
	strb	wzr, [x8, #2]
	b	.LBB102_3
.LBB102_226:
	ldur	q0, [x20, #4]
	ldur	q1, [x20, #20]
	stur	q0, [x14, #4]
	stur	q1, [x14, #20]
	ldur	q0, [x20, #36]
	ldur	q1, [x20, #52]
	stur	q0, [x14, #36]
	stur	q1, [x14, #52]
	ldur	q0, [x20, #68]
	ldur	q1, [x20, #84]
	stur	q0, [x14, #68]
	stur	q1, [x14, #84]
	ldur	q0, [x20, #100]
	ldur	q1, [x20, #116]
	stur	q0, [x14, #100]
	stur	q1, [x14, #116]
	ldur	q0, [x20, #132]
	ldur	q1, [x20, #148]
	stur	q0, [x14, #132]
	stur	q1, [x14, #148]
	ldur	q0, [x20, #164]
	ldur	q1, [x20, #180]
	stur	q0, [x14, #164]
	stur	q1, [x14, #180]
	ldur	d0, [x20, #196]
	stur	d0, [x14, #196]
.LBB102_227:
	mov	w8, #204
	mov	w0, #204
	movk	w8, #23, lsl #16
	str	w8, [x14]
	b	.LBB102_3
.LBB102_228:
	and	x8, x26, #0x30
	ldr	q0, [x15]
	cmp	x8, #16
	str	q0, [x9]
	b.eq	.LBB102_230
	ldur	q0, [x20, #20]
	stur	q0, [x14, #20]
.LBB102_230:
	cmp	x26, x8
	b.eq	.LBB102_133
	and	x9, x26, #0xc
	cbz	x9, .LBB102_102
.LBB102_232:
	mov	x9, x8
	ldur	x12, [x29, #-24]
	and	x8, x26, #0x3c
	add	x10, x28, x9
	add	x11, x9, x27
	sub	x9, x9, x8
	add	x10, x23, x10
	add	x11, x12, x11
	add	x10, x10, #4
.LBB102_233:
	ldr	w12, [x10], #4
	adds	x9, x9, #4
	str	w12, [x11], #4
	b.ne	.LBB102_233
	cmp	x26, x8
	b.eq	.LBB102_133
	b	.LBB102_102
.LBB102_235:
	mov	x25, x14
	cmp	x24, #32
	b.hs	.LBB102_239
	mov	x22, x13
	mov	x8, xzr
	b	.LBB102_243
.LBB102_237:
	mov	x25, x14
	cmp	x24, #32
	b.hs	.LBB102_246
	mov	x22, x13
	mov	x8, xzr
	b	.LBB102_250
.LBB102_239:
	ldr	x11, [sp, #16]
	add	x10, x23, x28
	and	x9, x24, #0x18
	and	x8, x24, #0xe0
	add	x10, x10, #20
	and	x12, x24, #0xe0
	add	x11, x11, x27
.LBB102_240:
	ldp	q0, q1, [x10, #-16]
	subs	x12, x12, #32
	add	x10, x10, #32
	stp	q0, q1, [x11, #-16]
	add	x11, x11, #32
	b.ne	.LBB102_240
	mov	x22, x13
	cmp	x24, x8
	b.eq	.LBB102_204
	cbz	x9, .LBB102_130
.LBB102_243:
	mov	x9, x8
	ldur	x12, [x29, #-24]
	and	x8, x24, #0xf8
	add	x10, x28, x9
	add	x11, x9, x27
	sub	x9, x9, x8
	add	x10, x23, x10
	add	x11, x12, x11
	add	x10, x10, #4
.LBB102_244:
	ldr	d0, [x10], #8
	adds	x9, x9, #8
	str	d0, [x11], #8
	b.ne	.LBB102_244
	cmp	x24, x8
	b.ne	.LBB102_130
	b	.LBB102_204
.LBB102_246:
	ldr	x11, [sp, #16]
	add	x10, x23, x28
	and	x9, x24, #0x18
	and	x8, x24, #0x60
	add	x10, x10, #20
	and	x12, x24, #0x60
	add	x11, x11, x27
.LBB102_247:
	ldp	q0, q1, [x10, #-16]
	subs	x12, x12, #32
	add	x10, x10, #32
	stp	q0, q1, [x11, #-16]
	add	x11, x11, #32
	b.ne	.LBB102_247
	mov	x22, x13
	cmp	x24, x8
	b.eq	.LBB102_211
	cbz	x9, .LBB102_139
.LBB102_250:
	mov	x9, x8
	ldur	x12, [x29, #-24]
	and	x8, x24, #0x78
	add	x10, x28, x9
	add	x11, x9, x27
	sub	x9, x9, x8
	add	x10, x23, x10
	add	x11, x12, x11
	add	x10, x10, #4
.LBB102_251:
	ldr	d0, [x10], #8
	adds	x9, x9, #8
	str	d0, [x11], #8
	b.ne	.LBB102_251
	cmp	x24, x8
	b.ne	.LBB102_139
	b	.LBB102_211
.LBB102_253:
	ldp	x20, x19, [sp, #144]
	ldp	x22, x21, [sp, #128]
	ldp	x24, x23, [sp, #112]
	ldp	x26, x25, [sp, #96]
	ldp	x28, x27, [sp, #80]
	ldp	x29, x30, [sp, #64]
	add	sp, sp, #160
	ret
.Lfunc_end102:
	.size	nla_wire.members.write_each.73a2e5797a03d2f8, .Lfunc_end102-nla_wire.members.write_each.73a2e5797a03d2f8
	.section	.rodata.nla_wire.members.write_each.73a2e5797a03d2f8,"a",@progbits
	.p2align	1, 0x0
.LJTI102_0:
	.hword	(.LBB102_15-.LBB102_9)>>2
	.hword	(.LBB102_9-.LBB102_9)>>2
	.hword	(.LBB102_9-.LBB102_9)>>2
	.hword	(.LBB102_15-.LBB102_9)>>2
	.hword	(.LBB102_11-.LBB102_9)>>2
	.hword	(.LBB102_11-.LBB102_9)>>2
	.hword	(.LBB102_11-.LBB102_9)>>2
	.hword	(.LBB102_9-.LBB102_9)>>2
	.hword	(.LBB102_66-.LBB102_9)>>2
	.hword	(.LBB102_56-.LBB102_9)>>2
	.hword	(.LBB102_9-.LBB102_9)>>2
	.hword	(.LBB102_68-.LBB102_9)>>2
	.hword	(.LBB102_11-.LBB102_9)>>2
	.hword	(.LBB102_19-.LBB102_9)>>2
	.hword	(.LBB102_19-.LBB102_9)>>2
	.hword	(.LBB102_70-.LBB102_9)>>2
	.hword	(.LBB102_9-.LBB102_9)>>2
	.hword	(.LBB102_15-.LBB102_9)>>2
	.hword	(.LBB102_9-.LBB102_9)>>2
	.hword	(.LBB102_74-.LBB102_9)>>2
	.hword	(.LBB102_11-.LBB102_9)>>2
	.hword	(.LBB102_85-.LBB102_9)>>2
	.hword	(.LBB102_52-.LBB102_9)>>2
	.hword	(.LBB102_40-.LBB102_9)>>2
	.hword	(.LBB102_9-.LBB102_9)>>2
	.hword	(.LBB102_9-.LBB102_9)>>2
	.hword	(.LBB102_9-.LBB102_9)>>2
	.hword	(.LBB102_9-.LBB102_9)>>2
	.hword	(.LBB102_9-.LBB102_9)>>2
	.hword	(.LBB102_9-.LBB102_9)>>2
	.hword	(.LBB102_19-.LBB102_9)>>2
	.hword	(.LBB102_11-.LBB102_9)>>2
	.hword	(.LBB102_9-.LBB102_9)>>2
	.hword	(.LBB102_11-.LBB102_9)>>2
	.hword	(.LBB102_9-.LBB102_9)>>2
	.hword	(.LBB102_15-.LBB102_9)>>2
	.hword	(.LBB102_19-.LBB102_9)>>2
	.hword	(.LBB102_9-.LBB102_9)>>2
	.hword	(.LBB102_9-.LBB102_9)>>2
	.hword	(.LBB102_11-.LBB102_9)>>2
	.hword	(.LBB102_33-.LBB102_9)>>2
	.hword	(.LBB102_9-.LBB102_9)>>2
	.hword	(.LBB102_9-.LBB102_9)>>2
	.hword	(.LBB102_9-.LBB102_9)>>2
	.hword	(.LBB102_9-.LBB102_9)>>2
	.hword	(.LBB102_9-.LBB102_9)>>2
	.hword	(.LBB102_9-.LBB102_9)>>2
	.hword	(.LBB102_9-.LBB102_9)>>2
	.hword	(.LBB102_9-.LBB102_9)>>2
	.hword	(.LBB102_91-.LBB102_9)>>2
	.hword	(.LBB102_11-.LBB102_9)>>2
	.hword	(.LBB102_11-.LBB102_9)>>2
	.hword	(.LBB102_82-.LBB102_9)>>2
	.hword	(.LBB102_15-.LBB102_9)>>2
	.hword	(.LBB102_15-.LBB102_9)>>2
	.hword	(.LBB102_9-.LBB102_9)>>2
	.hword	(.LBB102_9-.LBB102_9)>>2
	.hword	(.LBB102_9-.LBB102_9)>>2
	.hword	(.LBB102_9-.LBB102_9)>>2
	.hword	(.LBB102_37-.LBB102_9)>>2
	.hword	(.LBB102_9-.LBB102_9)>>2
	.hword	(.LBB102_9-.LBB102_9)>>2
	.hword	(.LBB102_77-.LBB102_9)>>2
	.hword	(.LBB102_11-.LBB102_9)>>2
	.hword	(.LBB102_80-.LBB102_9)>>2
	.hword	(.LBB102_20-.LBB102_9)>>2
	.hword	(.LBB102_20-.LBB102_9)>>2
	.p2align	1, 0x0
.LJTI102_1:
	.hword	(.LBB102_46-.LBB102_13)>>2
	.hword	(.LBB102_46-.LBB102_13)>>2
	.hword	(.LBB102_23-.LBB102_13)>>2
	.hword	(.LBB102_13-.LBB102_13)>>2
	.hword	(.LBB102_13-.LBB102_13)>>2
	.hword	(.LBB102_23-.LBB102_13)>>2
	.hword	(.LBB102_134-.LBB102_13)>>2
	.hword	(.LBB102_58-.LBB102_13)>>2
	.hword	(.LBB102_58-.LBB102_13)>>2
	.hword	(.LBB102_13-.LBB102_13)>>2
	.hword	(.LBB102_67-.LBB102_13)>>2
	.hword	(.LBB102_57-.LBB102_13)>>2
	.hword	(.LBB102_13-.LBB102_13)>>2
	.hword	(.LBB102_69-.LBB102_13)>>2
	.hword	(.LBB102_58-.LBB102_13)>>2
	.hword	(.LBB102_32-.LBB102_13)>>2
	.hword	(.LBB102_32-.LBB102_13)>>2
	.hword	(.LBB102_73-.LBB102_13)>>2
	.hword	(.LBB102_13-.LBB102_13)>>2
	.hword	(.LBB102_23-.LBB102_13)>>2
	.hword	(.LBB102_13-.LBB102_13)>>2
	.hword	(.LBB102_76-.LBB102_13)>>2
	.hword	(.LBB102_125-.LBB102_13)>>2
	.hword	(.LBB102_88-.LBB102_13)>>2
	.hword	(.LBB102_55-.LBB102_13)>>2
	.hword	(.LBB102_43-.LBB102_13)>>2
	.hword	(.LBB102_13-.LBB102_13)>>2
	.hword	(.LBB102_13-.LBB102_13)>>2
	.hword	(.LBB102_13-.LBB102_13)>>2
	.hword	(.LBB102_13-.LBB102_13)>>2
	.hword	(.LBB102_13-.LBB102_13)>>2
	.hword	(.LBB102_13-.LBB102_13)>>2
	.hword	(.LBB102_32-.LBB102_13)>>2
	.hword	(.LBB102_98-.LBB102_13)>>2
	.hword	(.LBB102_13-.LBB102_13)>>2
	.hword	(.LBB102_98-.LBB102_13)>>2
	.hword	(.LBB102_13-.LBB102_13)>>2
	.hword	(.LBB102_23-.LBB102_13)>>2
	.hword	(.LBB102_32-.LBB102_13)>>2
	.hword	(.LBB102_13-.LBB102_13)>>2
	.hword	(.LBB102_13-.LBB102_13)>>2
	.hword	(.LBB102_58-.LBB102_13)>>2
	.hword	(.LBB102_36-.LBB102_13)>>2
	.hword	(.LBB102_13-.LBB102_13)>>2
	.hword	(.LBB102_13-.LBB102_13)>>2
	.hword	(.LBB102_13-.LBB102_13)>>2
	.hword	(.LBB102_13-.LBB102_13)>>2
	.hword	(.LBB102_13-.LBB102_13)>>2
	.hword	(.LBB102_13-.LBB102_13)>>2
	.hword	(.LBB102_13-.LBB102_13)>>2
	.hword	(.LBB102_13-.LBB102_13)>>2
	.hword	(.LBB102_93-.LBB102_13)>>2
	.hword	(.LBB102_58-.LBB102_13)>>2
	.hword	(.LBB102_46-.LBB102_13)>>2
	.hword	(.LBB102_84-.LBB102_13)>>2
	.hword	(.LBB102_23-.LBB102_13)>>2
	.hword	(.LBB102_23-.LBB102_13)>>2
	.hword	(.LBB102_13-.LBB102_13)>>2
	.hword	(.LBB102_13-.LBB102_13)>>2
	.hword	(.LBB102_13-.LBB102_13)>>2
	.hword	(.LBB102_13-.LBB102_13)>>2
	.hword	(.LBB102_39-.LBB102_13)>>2
	.hword	(.LBB102_13-.LBB102_13)>>2
	.hword	(.LBB102_13-.LBB102_13)>>2
	.hword	(.LBB102_79-.LBB102_13)>>2
	.hword	(.LBB102_58-.LBB102_13)>>2
	.hword	(.LBB102_81-.LBB102_13)>>2
	.hword	(.LBB102_20-.LBB102_13)>>2
	.hword	(.LBB102_20-.LBB102_13)>>2

	.section	.rodata.cst16,"aM",@progbits,16
	.p2align	4, 0x0
.LCPI103_0:
	.byte	108
	.byte	105
	.byte	110
	.byte	107
	.byte	115
	.byte	116
	.byte	97
	.byte	116
	.byte	101
	.byte	58
	.byte	32
	.byte	110
	.byte	111
	.byte	116
	.byte	32
	.byte	117
	.section	.rodata.cst8,"aM",@progbits,8
	.p2align	3, 0x0
.LCPI103_1:
	.byte	110
	.byte	100
	.byte	101
	.byte	114
	.byte	115
	.byte	116
	.byte	111
	.byte	111
	.section	.text.line_filter.program.refuse,"ax",@progbits
	.p2align	2
	.type	line_filter.program.refuse,@function
line_filter.program.refuse:
	stp	x29, x30, [sp, #-80]!
	stp	x28, x25, [sp, #16]
	mov	x29, sp
	stp	x24, x23, [sp, #32]
	stp	x22, x21, [sp, #48]
	stp	x20, x19, [sp, #64]
	sub	sp, sp, #2560
	movi	v0.4s, #48
	str	xzr, [sp]
	movi	v1.2s, #48
	mov	w8, #257
	add	x23, sp, #88
	mov	x20, x1
	mov	x21, x0
	stp	x0, x1, [sp, #8]
	add	x0, x23, #28
	strh	w8, [sp, #80]
	mov	w8, #2
	mov	w1, wzr
	stur	q0, [sp, #24]
	mov	w2, #1108
	add	x22, sp, #1264
	stur	q0, [sp, #40]
	movi	v0.2d, #0000000000000000
	add	x25, sp, #8
	str	d1, [sp, #56]
	orr	x19, x23, #0x4
	stur	wzr, [sp, #82]
	str	w8, [sp, #88]
	stur	q0, [sp, #64]
	strh	wzr, [sp, #86]
	bl	memset
	movi	v1.2d, #0000000000000000
	mov	w8, #32
	add	x24, x23, #1140
	str	w8, [sp, #1224]
	add	x10, sp, #969
	add	x9, x23, #1160
	str	xzr, [x24]
	add	x0, x25, #16
	add	x1, sp, #88
	str	wzr, [sp, #1236]
	add	x23, x23, #1136
	ldur	q0, [x10, #255]
	str	q1, [x9]
	adrp	x9, .LCPI103_0
	mov	x10, #-1
	strb	w8, [sp, #118]
	str	q0, [x22]
	ldr	q0, [x9, :lo12:.LCPI103_0]
	adrp	x9, .LCPI103_1
	str	x10, [sp, #1240]
	stur	q0, [sp, #92]
	ldr	d0, [x9, :lo12:.LCPI103_1]
	mov	w9, #14948
	strh	w9, [sp, #116]
	mov	w9, #27
	str	x10, [sp, #1280]
	stur	d0, [sp, #108]
	str	x9, [sp, #1120]
	str	w8, [sp, #1224]
	str	xzr, [x24]
	str	wzr, [sp, #1236]
	bl	core.char.escape.EscapeDisplay.fmt.bf264aed5fa78656
	and	w8, w0, #0xff
	tbz	w8, #0, .LBB103_4
.LBB103_1:
	ldr	q0, [x22]
	ldr	x8, [sp, #1280]
.LBB103_2:
	str	q0, [x23]
	str	x8, [x23, #16]
.LBB103_3:
	ldr	w8, [sp, #88]
	mov	x1, x19
	mov	w2, #1132
	str	w8, [sp, #1424]
	add	x8, sp, #1424
	orr	x0, x8, #0x4
	bl	memcpy
	add	x0, sp, #1424
	bl	std_io.io.buffer.Buffer.flush
	add	sp, sp, #2560
	ldp	x20, x19, [sp, #64]
	ldp	x22, x21, [sp, #48]
	ldp	x24, x23, [sp, #32]
	ldp	x28, x25, [sp, #16]
	ldp	x29, x30, [sp], #80
	ret
.LBB103_4:
	mov	w8, #1
.LBB103_5:
	cbz	x20, .LBB103_22
	ldrsb	w9, [x21]
	and	w1, w9, #0xff
	tbnz	w9, #31, .LBB103_8
	mov	w25, #1
	movi	v0.2d, #0000000000000000
	str	xzr, [sp, #1472]
	stp	q0, q0, [x22, #176]
	str	q0, [x22, #160]
	tbz	w8, #0, .LBB103_13
	b	.LBB103_19
.LBB103_8:
	ldrb	w9, [x21, #1]
	cmp	w1, #223
	and	w9, w9, #0x3f
	b.hi	.LBB103_10
	bfi	w9, w1, #6, #5
	mov	w25, #2
	mov	w1, w9
	movi	v0.2d, #0000000000000000
	str	xzr, [sp, #1472]
	stp	q0, q0, [x22, #176]
	str	q0, [x22, #160]
	tbz	w8, #0, .LBB103_13
	b	.LBB103_19
.LBB103_10:
	ldrb	w10, [x21, #2]
	cmp	w1, #239
	and	w10, w10, #0x3f
	b.hi	.LBB103_12
	ubfiz	w11, w1, #12, #4
	mov	w25, #3
	orr	w9, w11, w9, lsl #6
	orr	w1, w9, w10
	movi	v0.2d, #0000000000000000
	str	xzr, [sp, #1472]
	stp	q0, q0, [x22, #176]
	str	q0, [x22, #160]
	tbz	w8, #0, .LBB103_13
	b	.LBB103_19
.LBB103_12:
	ubfiz	w11, w1, #18, #3
	mov	w25, #4
	orr	w9, w11, w9, lsl #12
	ldrb	w11, [x21, #3]
	orr	w1, w9, w10, lsl #6
	bfxil	w1, w11, #0, #6
	movi	v0.2d, #0000000000000000
	str	xzr, [sp, #1472]
	stp	q0, q0, [x22, #176]
	str	q0, [x22, #160]
	tbnz	w8, #0, .LBB103_19
.LBB103_13:
	cmp	w1, #128
	b.lo	.LBB103_19
	mov	x8, xzr
	mov	w9, #774
	b	.LBB103_16
.LBB103_15:
	cmp	x8, x10
	mov	x9, x10
	b.hs	.LBB103_18
.LBB103_16:
	sub	x10, x9, x8
	adrp	x12, .Lstatic.157
	add	x12, x12, :lo12:.Lstatic.157
	add	x10, x8, x10, lsr #1
	add	x11, x10, x10, lsl #1
	add	x11, x12, x11
	ldrb	w12, [x11]
	ldrb	w13, [x11, #1]
	ldrb	w11, [x11, #2]
	lsl	w12, w12, #16
	orr	w12, w12, w13, lsl #8
	orr	w11, w12, w11
	cmp	w11, w1
	b.hi	.LBB103_15
	add	x8, x10, #1
	mov	x10, x9
	b	.LBB103_15
.LBB103_18:
	tbnz	w8, #0, .LBB103_21
.LBB103_19:
	add	x0, sp, #1424
	bl	core.char.escape.escape_debug
	ldp	q0, q1, [x22, #160]
	ldr	q2, [x22, #192]
	ldr	x8, [sp, #1472]
	str	q2, [x22, #128]
	stp	q0, q1, [x22, #96]
	str	x8, [sp, #1408]
.LBB103_20:
	ldp	q0, q1, [x22, #96]
	add	x0, sp, #1296
	ldr	q2, [x22, #128]
	ldr	x8, [sp, #1408]
	add	x1, sp, #88
	add	x21, x21, x25
	sub	x20, x20, x25
	stp	q0, q1, [x22, #32]
	str	q2, [x22, #64]
	str	x8, [sp, #1344]
	bl	core.char.escape.EscapeDisplay.fmt.bf264aed5fa78656
	tst	w0, #0xff
	mov	w8, wzr
	b.eq	.LBB103_5
	b	.LBB103_1
.LBB103_21:
	dup	v0.4s, w1
	str	w1, [sp, #1456]
	mov	w8, #1
	str	w1, [sp, #1460]
	str	x8, [sp, #1472]
	stp	q0, q0, [x22, #160]
	ldr	q0, [x22, #192]
	str	x8, [sp, #1408]
	str	q0, [x22, #128]
	ldp	q1, q0, [x22, #160]
	stp	q1, q0, [x22, #96]
	b	.LBB103_20
.LBB103_22:
	mov	w8, #32
	ldr	x9, [sp, #1248]
	str	xzr, [x24]
	str	w8, [sp, #1224]
	mov	x8, #-1
	str	wzr, [x24, #8]
	str	x8, [sp, #1240]
	cbnz	x9, .LBB103_71
	ldr	x9, [sp, #1120]
	cmp	x9, #1024
	b.lo	.LBB103_26
	add	x0, sp, #88
	bl	std_io.io.buffer.Buffer.flush
	cbz	w0, .LBB103_1
	ldr	x9, [sp, #1120]
	cmp	x9, #1023
	b.hi	.LBB103_1
.LBB103_26:
	mov	w8, #59
	strb	w8, [x19, x9]
	cmp	x9, #1023
	add	x8, x9, #1
	str	x8, [sp, #1120]
	b.lo	.LBB103_29
	add	x0, sp, #88
	bl	std_io.io.buffer.Buffer.flush
	cbz	w0, .LBB103_1
	ldr	x8, [sp, #1120]
	cmp	x8, #1023
	b.hi	.LBB103_1
.LBB103_29:
	mov	w9, #32
	strb	w9, [x19, x8]
	cmp	x8, #1023
	add	x9, x8, #1
	str	x9, [sp, #1120]
	b.lo	.LBB103_32
	add	x0, sp, #88
	bl	std_io.io.buffer.Buffer.flush
	cbz	w0, .LBB103_1
	ldr	x9, [sp, #1120]
	cmp	x9, #1023
	b.hi	.LBB103_1
.LBB103_32:
	mov	w8, #115
	strb	w8, [x19, x9]
	cmp	x9, #1023
	add	x8, x9, #1
	str	x8, [sp, #1120]
	b.lo	.LBB103_35
	add	x0, sp, #88
	bl	std_io.io.buffer.Buffer.flush
	cbz	w0, .LBB103_1
	ldr	x8, [sp, #1120]
	cmp	x8, #1023
	b.hi	.LBB103_1
.LBB103_35:
	mov	w20, #101
	add	x9, x8, #1
	cmp	x8, #1023
	strb	w20, [x19, x8]
	str	x9, [sp, #1120]
	b.lo	.LBB103_38
	add	x0, sp, #88
	bl	std_io.io.buffer.Buffer.flush
	cbz	w0, .LBB103_1
	ldr	x9, [sp, #1120]
	cmp	x9, #1023
	b.hi	.LBB103_1
.LBB103_38:
	add	x8, x9, #1
	cmp	x9, #1023
	strb	w20, [x19, x9]
	str	x8, [sp, #1120]
	b.lo	.LBB103_41
	add	x0, sp, #88
	bl	std_io.io.buffer.Buffer.flush
	cbz	w0, .LBB103_1
	ldr	x8, [sp, #1120]
	cmp	x8, #1023
	b.hi	.LBB103_1
.LBB103_41:
	mov	w9, #32
	strb	w9, [x19, x8]
	add	x8, x8, #1
	str	x8, [sp, #1120]
.LBB103_42:
	mov	w8, #32
	ldr	x9, [sp, #1248]
	str	xzr, [x24]
	str	w8, [sp, #1224]
	mov	x8, #-1
	str	wzr, [x24, #8]
	str	x8, [sp, #1240]
	cbnz	x9, .LBB103_72
	ldr	x9, [sp, #1120]
	cmp	x9, #1024
	b.lo	.LBB103_46
	add	x0, sp, #88
	bl	std_io.io.buffer.Buffer.flush
	cbz	w0, .LBB103_1
	ldr	x9, [sp, #1120]
	cmp	x9, #1023
	b.hi	.LBB103_1
.LBB103_46:
	mov	w8, #108
	strb	w8, [x19, x9]
	cmp	x9, #1023
	add	x8, x9, #1
	str	x8, [sp, #1120]
	b.lo	.LBB103_49
	add	x0, sp, #88
	bl	std_io.io.buffer.Buffer.flush
	cbz	w0, .LBB103_1
	ldr	x8, [sp, #1120]
	cmp	x8, #1023
	b.hi	.LBB103_1
.LBB103_49:
	mov	w9, #105
	strb	w9, [x19, x8]
	cmp	x8, #1023
	add	x9, x8, #1
	str	x9, [sp, #1120]
	b.lo	.LBB103_52
	add	x0, sp, #88
	bl	std_io.io.buffer.Buffer.flush
	cbz	w0, .LBB103_1
	ldr	x9, [sp, #1120]
	cmp	x9, #1023
	b.hi	.LBB103_1
.LBB103_52:
	mov	w8, #110
	strb	w8, [x19, x9]
	cmp	x9, #1023
	add	x8, x9, #1
	str	x8, [sp, #1120]
	b.lo	.LBB103_55
	add	x0, sp, #88
	bl	std_io.io.buffer.Buffer.flush
	cbz	w0, .LBB103_1
	ldr	x8, [sp, #1120]
	cmp	x8, #1023
	b.hi	.LBB103_1
.LBB103_55:
	mov	w9, #107
	strb	w9, [x19, x8]
	cmp	x8, #1023
	add	x9, x8, #1
	str	x9, [sp, #1120]
	b.lo	.LBB103_58
	add	x0, sp, #88
	bl	std_io.io.buffer.Buffer.flush
	cbz	w0, .LBB103_1
	ldr	x9, [sp, #1120]
	cmp	x9, #1023
	b.hi	.LBB103_1
.LBB103_58:
	mov	w8, #115
	strb	w8, [x19, x9]
	cmp	x9, #1023
	add	x8, x9, #1
	str	x8, [sp, #1120]
	b.lo	.LBB103_61
	add	x0, sp, #88
	bl	std_io.io.buffer.Buffer.flush
	cbz	w0, .LBB103_1
	ldr	x8, [sp, #1120]
	cmp	x8, #1023
	b.hi	.LBB103_1
.LBB103_61:
	mov	w9, #116
	strb	w9, [x19, x8]
	cmp	x8, #1023
	add	x9, x8, #1
	str	x9, [sp, #1120]
	b.lo	.LBB103_64
	add	x0, sp, #88
	bl	std_io.io.buffer.Buffer.flush
	cbz	w0, .LBB103_1
	ldr	x9, [sp, #1120]
	cmp	x9, #1023
	b.hi	.LBB103_1
.LBB103_64:
	mov	w8, #97
	strb	w8, [x19, x9]
	cmp	x9, #1023
	add	x8, x9, #1
	str	x8, [sp, #1120]
	b.lo	.LBB103_67
	add	x0, sp, #88
	bl	std_io.io.buffer.Buffer.flush
	cbz	w0, .LBB103_1
	ldr	x8, [sp, #1120]
	cmp	x8, #1023
	b.hi	.LBB103_1
.LBB103_67:
	mov	w9, #116
	strb	w9, [x19, x8]
	cmp	x8, #1023
	add	x9, x8, #1
	str	x9, [sp, #1120]
	b.lo	.LBB103_70
	add	x0, sp, #88
	bl	std_io.io.buffer.Buffer.flush
	cbz	w0, .LBB103_1
	ldr	x9, [sp, #1120]
	cmp	x9, #1023
	b.hi	.LBB103_1
.LBB103_70:
	mov	w8, #101
	strb	w8, [x19, x9]
	add	x8, x9, #1
	str	x8, [sp, #1120]
	b	.LBB103_73
.LBB103_71:
	adrp	x1, .Lstatic.6
	add	x1, x1, :lo12:.Lstatic.6
	add	x0, sp, #88
	mov	w2, #6
	bl	core.fmt.formatter.Formatter.write_indented.bf264aed5fa78656
	and	w8, w0, #0xff
	tbnz	w8, #0, .LBB103_1
	b	.LBB103_42
.LBB103_72:
	adrp	x1, .Lstatic.0
	add	x1, x1, :lo12:.Lstatic.0
	add	x0, sp, #88
	mov	w2, #9
	bl	core.fmt.formatter.Formatter.write_indented.bf264aed5fa78656
	and	w8, w0, #0xff
	tbnz	w8, #0, .LBB103_1
.LBB103_73:
	mov	w8, #32
	ldr	x9, [sp, #1248]
	str	xzr, [x24]
	str	w8, [sp, #1224]
	mov	x8, #-1
	str	wzr, [x24, #8]
	str	x8, [sp, #1240]
	cbnz	x9, .LBB103_102
	ldr	x9, [sp, #1120]
	cmp	x9, #1024
	b.lo	.LBB103_77
	add	x0, sp, #88
	bl	std_io.io.buffer.Buffer.flush
	cbz	w0, .LBB103_1
	ldr	x9, [sp, #1120]
	cmp	x9, #1023
	b.hi	.LBB103_1
.LBB103_77:
	mov	w8, #32
	strb	w8, [x19, x9]
	cmp	x9, #1023
	add	x8, x9, #1
	str	x8, [sp, #1120]
	b.lo	.LBB103_80
	add	x0, sp, #88
	bl	std_io.io.buffer.Buffer.flush
	cbz	w0, .LBB103_1
	ldr	x8, [sp, #1120]
	cmp	x8, #1023
	b.hi	.LBB103_1
.LBB103_80:
	mov	w20, #45
	add	x9, x8, #1
	cmp	x8, #1023
	strb	w20, [x19, x8]
	str	x9, [sp, #1120]
	b.lo	.LBB103_83
	add	x0, sp, #88
	bl	std_io.io.buffer.Buffer.flush
	cbz	w0, .LBB103_1
	ldr	x9, [sp, #1120]
	cmp	x9, #1023
	b.hi	.LBB103_1
.LBB103_83:
	add	x8, x9, #1
	cmp	x9, #1023
	strb	w20, [x19, x9]
	str	x8, [sp, #1120]
	b.lo	.LBB103_86
	add	x0, sp, #88
	bl	std_io.io.buffer.Buffer.flush
	cbz	w0, .LBB103_1
	ldr	x8, [sp, #1120]
	cmp	x8, #1023
	b.hi	.LBB103_1
.LBB103_86:
	mov	w9, #104
	strb	w9, [x19, x8]
	cmp	x8, #1023
	add	x9, x8, #1
	str	x9, [sp, #1120]
	b.lo	.LBB103_89
	add	x0, sp, #88
	bl	std_io.io.buffer.Buffer.flush
	cbz	w0, .LBB103_1
	ldr	x9, [sp, #1120]
	cmp	x9, #1023
	b.hi	.LBB103_1
.LBB103_89:
	mov	w8, #101
	strb	w8, [x19, x9]
	cmp	x9, #1023
	add	x8, x9, #1
	str	x8, [sp, #1120]
	b.lo	.LBB103_92
	add	x0, sp, #88
	bl	std_io.io.buffer.Buffer.flush
	cbz	w0, .LBB103_1
	ldr	x8, [sp, #1120]
	cmp	x8, #1023
	b.hi	.LBB103_1
.LBB103_92:
	mov	w9, #108
	strb	w9, [x19, x8]
	cmp	x8, #1023
	add	x9, x8, #1
	str	x9, [sp, #1120]
	b.lo	.LBB103_95
	add	x0, sp, #88
	bl	std_io.io.buffer.Buffer.flush
	cbz	w0, .LBB103_1
	ldr	x9, [sp, #1120]
	cmp	x9, #1023
	b.hi	.LBB103_1
.LBB103_95:
	mov	w8, #112
	strb	w8, [x19, x9]
	ldr	q0, [x22]
	add	x8, x9, #1
	ldr	x9, [sp, #1280]
	str	x8, [sp, #1120]
	str	q0, [x23]
	str	x9, [x23, #16]
.LBB103_96:
	mov	w8, #32
	ldr	x9, [x23, #16]
	ldr	q0, [x23]
	str	w8, [sp, #1224]
	ldr	x8, [sp, #1248]
	str	x9, [sp, #1440]
	mov	x9, #-1
	str	q0, [x22, #160]
	str	xzr, [x24]
	str	wzr, [x24, #8]
	str	x9, [sp, #1240]
	cbnz	x8, .LBB103_103
	ldr	x8, [sp, #1120]
	cmp	x8, #1024
	b.lo	.LBB103_100
	add	x0, sp, #88
	bl	std_io.io.buffer.Buffer.flush
	cbz	w0, .LBB103_101
	ldr	x8, [sp, #1120]
	cmp	x8, #1023
	b.hi	.LBB103_101
.LBB103_100:
	mov	w9, #10
	strb	w9, [x19, x8]
	add	x8, x8, #1
	str	x8, [sp, #1120]
.LBB103_101:
	ldr	q0, [x22, #160]
	ldr	x8, [sp, #1440]
	b	.LBB103_2
.LBB103_102:
	adrp	x1, .Lstatic.7
	add	x1, x1, :lo12:.Lstatic.7
	add	x0, sp, #88
	mov	w2, #7
	bl	core.fmt.formatter.Formatter.write_indented.bf264aed5fa78656
	ldr	q0, [x22]
	ldr	x8, [sp, #1280]
	and	w9, w0, #0xff
	str	q0, [x23]
	str	x8, [x23, #16]
	tbnz	w9, #0, .LBB103_3
	b	.LBB103_96
.LBB103_103:
	adrp	x1, .Lstatic.8
	add	x1, x1, :lo12:.Lstatic.8
	add	x0, sp, #88
	mov	w2, #1
	bl	core.fmt.formatter.Formatter.write_indented.bf264aed5fa78656
	b	.LBB103_101
.Lfunc_end103:
	.size	line_filter.program.refuse, .Lfunc_end103-line_filter.program.refuse

	.section	.rodata.cst16,"aM",@progbits,16
	.p2align	4, 0x0
.LCPI104_0:
	.xword	0
	.xword	2
.LCPI104_1:
	.word	4294967280
	.word	4294967284
	.word	4294967288
	.word	4294967292
.LCPI104_2:
	.word	4294967284
	.word	4294967288
	.word	4294967292
	.word	0
.LCPI104_4:
	.xword	0
	.xword	1
	.section	.rodata.cst8,"aM",@progbits,8
	.p2align	3, 0x0
.LCPI104_3:
	.word	92
	.word	117
	.section	.text.core.char.escape.escape_default,"ax",@progbits
	.p2align	2
	.type	core.char.escape.escape_default,@function
core.char.escape.escape_default:
	cmp	w1, #33
	b.gt	.LBB104_5
	cmp	w1, #9
	b.eq	.LBB104_10
	cmp	w1, #10
	b.eq	.LBB104_11
	cmp	w1, #13
	b.ne	.LBB104_8
	mov	w1, #114
	b	.LBB104_12
.LBB104_5:
	cmp	w1, #34
	b.eq	.LBB104_12
	cmp	w1, #39
	b.eq	.LBB104_12
	cmp	w1, #92
	b.eq	.LBB104_12
.LBB104_8:
	cmp	w1, #31
	b.hi	.LBB104_13
	adrp	x11, .LCPI104_3
	and	w8, w1, #0xf
	lsr	w10, w1, #4
	ldr	d0, [x11, :lo12:.LCPI104_3]
	orr	w9, w1, #0x30
	cmp	w8, #10
	add	w8, w8, #87
	mov	w11, #125
	str	d0, [x0]
	movi	v0.4s, #125
	csel	w8, w9, w8, lo
	orr	w9, w10, #0x30
	cmp	w1, #16
	mov	w10, #123
	csel	w9, w8, w9, lo
	csel	w8, w11, w8, lo
	str	w11, [x0, #36]
	str	w8, [x0, #16]
	mov	w8, #5
	stp	w10, w9, [x0, #8]
	cinc	x8, x8, hs
	stur	q0, [x0, #20]
	stp	xzr, x8, [x0, #40]
	ret
.LBB104_10:
	mov	w1, #116
	b	.LBB104_12
.LBB104_11:
	mov	w1, #110
.LBB104_12:
	dup	v0.4s, w1
	adrp	x9, .LCPI104_0
	mov	w8, #92
	ldr	q1, [x9, :lo12:.LCPI104_0]
	str	w1, [x0, #36]
	str	w8, [x0]
	stur	q0, [x0, #4]
	stur	q0, [x0, #20]
	stur	q1, [x0, #40]
	ret
.LBB104_13:
	dup	v2.4s, w1
	cmp	w1, #126
	b.hi	.LBB104_15
	adrp	x8, .LCPI104_4
	stp	q2, q2, [x0]
	ldr	q0, [x8, :lo12:.LCPI104_4]
	stp	w1, w1, [x0, #32]
	stur	q0, [x0, #40]
	ret
.LBB104_15:
	adrp	x8, .LCPI104_2
	movi	v3.4s, #15
	movi	v4.4s, #10
	ldr	q0, [x8, :lo12:.LCPI104_2]
	movi	v6.4s, #87
	tst	w1, #0xfff00000
	mov	w8, #48
	ushl	v0.4s, v2.4s, v0.4s
	cinc	w8, w8, ne
	cmp	w1, #256
	and	v5.16b, v0.16b, v3.16b
	mov	v0.16b, v5.16b
	cmhi	v1.4s, v4.4s, v5.4s
	add	v7.4s, v5.4s, v6.4s
	orr	v0.4s, #48
	bif	v0.16b, v7.16b, v1.16b
	movi	v7.4s, #125
	movi	v1.2s, #125
	b.hs	.LBB104_17
	zip2	v0.2d, v0.2d, v7.2d
	mov	w8, #6
	b	.LBB104_25
.LBB104_17:
	cmp	w1, #1, lsl #12
	b.hs	.LBB104_19
	ext	v2.16b, v7.16b, v0.16b, #12
	mov	w8, #7
	ext	v0.16b, v0.16b, v2.16b, #4
	b	.LBB104_25
.LBB104_19:
	cmp	w1, #16, lsl #12
	b.hs	.LBB104_21
	mov	w8, #8
	b	.LBB104_25
.LBB104_21:
	adrp	x9, .LCPI104_1
	cmp	w1, #256, lsl #12
	ldr	q1, [x9, :lo12:.LCPI104_1]
	ushl	v1.4s, v2.4s, v1.4s
	ext	v2.16b, v1.16b, v1.16b, #4
	and	v1.16b, v1.16b, v3.16b
	cmhi	v3.4s, v4.4s, v1.4s
	add	v1.4s, v1.4s, v6.4s
	ext	v2.16b, v2.16b, v5.16b, #12
	orr	v2.4s, #48
	bif	v2.16b, v1.16b, v3.16b
	b.hs	.LBB104_23
	dup	v1.2s, v0.s[3]
	mov	w8, #125
	mov	v1.s[1], w8
	mov	w8, #9
	b	.LBB104_24
.LBB104_23:
	fmov	s1, w8
	mov	w8, #10
	ext	v1.16b, v1.16b, v1.16b, #4
	ext	v2.16b, v1.16b, v2.16b, #12
	ext	v1.16b, v0.16b, v0.16b, #8
.LBB104_24:
	mov	v0.16b, v2.16b
.LBB104_25:
	adrp	x9, .LCPI104_3
	stur	q0, [x0, #12]
	mov	w10, #123
	ldr	d0, [x9, :lo12:.LCPI104_3]
	mov	w9, #125
	stur	d1, [x0, #28]
	str	w10, [x0, #8]
	str	d0, [x0]
	str	w9, [x0, #36]
	stp	xzr, x8, [x0, #40]
	ret
.Lfunc_end104:
	.size	core.char.escape.escape_default, .Lfunc_end104-core.char.escape.escape_default

	.section	.rodata.cst16,"aM",@progbits,16
	.p2align	4, 0x0
.LCPI105_0:
	.xword	650849315673211139
	.xword	1946435769346364208
.LCPI105_1:
	.xword	3387291878090480389
	.xword	651364986291029007
.LCPI105_2:
	.xword	866420798758783239
	.xword	1874934515760313865
.LCPI105_3:
	.xword	3690499027717850119
	.xword	2739888470662525709
.LCPI105_4:
	.xword	3026735402817427464
	.xword	144403328875495683
.LCPI105_5:
	.xword	651638795372928773
	.xword	1662985112008266262
.LCPI105_6:
	.xword	2162861482956620041
	.xword	145295015608975873
.LCPI105_7:
	.xword	722573813203665410
	.xword	2524287421022282761
.LCPI105_8:
	.xword	576743366319604481
	.xword	1300154912222544388
.LCPI105_9:
	.xword	144403277335960577
	.xword	1081149787903952703
.LCPI105_10:
	.xword	724238418695293697
	.xword	1585832226535309832
.LCPI105_11:
	.xword	72907520854787841
	.xword	144680345709641985
.LCPI105_12:
	.xword	72350184508227843
	.xword	144397767496761602
.LCPI105_13:
	.xword	216455369520644367
	.xword	72904253293134337
.LCPI105_14:
	.xword	3467212065968559361
	.xword	72341272350032385
.LCPI105_15:
	.xword	3433442795459838210
	.xword	1946119097146540545
.LCPI105_16:
	.xword	288794429945819940
	.xword	72386429837511179
.LCPI105_17:
	.xword	1442851751538983425
	.xword	73185697279974172
.LCPI105_18:
	.xword	72621682958341897
	.xword	577024810493432676
.LCPI105_19:
	.xword	144402165308391937
	.xword	596175034494551046
.LCPI105_20:
	.xword	79661820818237954
	.xword	74599682135173130
.LCPI105_21:
	.xword	649082452412924422
	.xword	72903488031901965
.LCPI105_22:
	.xword	650218252023628033
	.xword	2092491578249455105
.LCPI105_23:
	.xword	72621673586171907
	.xword	78010354319296331
.LCPI105_24:
	.xword	2666414657799326217
	.xword	722547369039692292
.LCPI105_25:
	.xword	1436086460922211334
	.xword	146406574855357442
.LCPI105_26:
	.xword	-140400973350299901
	.xword	-140659429897797890
.LCPI105_27:
	.xword	-72605824937164999
	.xword	-72311555165192450
.LCPI105_28:
	.xword	408137612407013118
	.xword	-72339069026435330
.LCPI105_29:
	.xword	-72609535939043651
	.xword	4467288062572822270
.LCPI105_30:
	.xword	720946493145554695
	.xword	1082887054930943494
.LCPI105_31:
	.xword	1370524755760843274
	.xword	-65014827894263042
.LCPI105_32:
	.xword	939906542624053506
	.xword	-1060772117440
.LCPI105_33:
	.xword	6855082144465616638
	.xword	3679046166575451507
.LCPI105_34:
	.xword	-72340172838010881
	.xword	72621673584798206
.LCPI105_35:
	.xword	72623967097662462
	.xword	504121197924386062
.LCPI105_36:
	.xword	146937673130247531
	.xword	-72340172837944831
.LCPI105_37:
	.xword	-5260762927698346242
	.xword	8381798174783772422
.LCPI105_38:
	.xword	217646136939968060
	.xword	73064764372615702
.LCPI105_39:
	.xword	1459201467968784397
	.xword	6162922142985622540
.LCPI105_40:
	.xword	144679246164477697
	.xword	504685737250194434
.LCPI105_41:
	.xword	504693437992354049
	.xword	72344570934926337
.LCPI105_42:
	.xword	2809684694961030915
	.xword	590539136331349506
.LCPI105_43:
	.xword	-72588159820427775
	.xword	3473179141568915966
.LCPI105_44:
	.xword	291047355177603646
	.xword	721750296614862338
.LCPI105_45:
	.xword	-3023599677980409595
	.xword	80994428911288862
.LCPI105_46:
	.xword	649927950329839875
	.xword	72621660700139522
.LCPI105_47:
	.xword	523596271941124367
	.xword	-1090853927935
.LCPI105_48:
	.xword	-4450317001428107522
	.xword	144397771172675844
.LCPI105_49:
	.xword	72340185723568385
	.xword	72340172888409601
.LCPI105_50:
	.xword	144397771171102977
	.xword	72340172838076673
.LCPI105_51:
	.xword	73185697279901953
	.xword	72340185723175175
.LCPI105_52:
	.xword	73466081403011338
	.xword	7206933755192292369
.LCPI105_53:
	.xword	2666428951601221388
	.xword	649692681084579594
.LCPI105_54:
	.xword	-72340606511349241
	.xword	350158225448960736
.LCPI105_55:
	.xword	435169350674809868
	.xword	1009373716106053672
.LCPI105_56:
	.xword	937327101495617289
	.xword	937050001580836611
.LCPI105_57:
	.xword	-72507287532139517
	.xword	-15859970
.LCPI105_58:
	.xword	-1
	.xword	-72057594037927937
.LCPI105_59:
	.xword	-62789814839214338
	.xword	-72339073290600705
.LCPI105_60:
	.xword	-278610250367234
	.xword	1097751305348120319
.LCPI105_61:
	.xword	-72439128876974338
	.xword	-5349128380940766
.LCPI105_62:
	.xword	-275625248096513
	.xword	-3540058113
.LCPI105_63:
	.xword	-32370726145097729
	.xword	-72340172821233665
.LCPI105_67:
	.xword	0
	.xword	10
.LCPI105_68:
	.xword	0
	.xword	9
.LCPI105_69:
	.xword	0
	.xword	8
.LCPI105_70:
	.xword	0
	.xword	7
.LCPI105_71:
	.xword	0
	.xword	6
.LCPI105_72:
	.xword	0
	.xword	1
.LCPI105_73:
	.word	92
	.word	48
	.word	48
	.word	48
	.section	.rodata.cst8,"aM",@progbits,8
	.p2align	3, 0x0
.LCPI105_64:
	.word	4294967292
	.word	0
.LCPI105_65:
	.word	4294967284
	.word	4294967288
.LCPI105_66:
	.word	92
	.word	117
	.section	.text.core.char.escape.escape_debug,"ax",@progbits
	.p2align	2
	.type	core.char.escape.escape_debug,@function
core.char.escape.escape_debug:
	sub	sp, sp, #368
	movi	v0.2d, #0000000000000000
	stp	x20, x19, [sp, #352]
	mov	x19, x0
	stp	x29, x30, [sp, #320]
	add	x29, sp, #320
	str	x28, [sp, #336]
	str	xzr, [sp, #48]
	stp	q0, q0, [sp, #16]
	str	q0, [sp]
	cbz	w1, .LBB105_3
	cmp	w1, #127
	b.hi	.LBB105_4
	mov	x0, sp
	bl	core.char.escape.escape_default
	b	.LBB105_28
.LBB105_3:
	movi	v0.2s, #48
	movi	v1.4s, #48
	adrp	x8, .LCPI105_73
	str	d0, [sp, #32]
	ldr	q0, [x8, :lo12:.LCPI105_73]
	mov	w8, #2
	str	x8, [sp, #48]
	stp	q0, q1, [sp]
	ldp	q1, q0, [sp, #16]
	str	x8, [x19, #48]
	stp	q1, q0, [x19, #16]
	ldr	q0, [sp]
	str	q0, [x19]
	ldp	x20, x19, [sp, #352]
	ldr	x28, [sp, #336]
	ldp	x29, x30, [sp, #320]
	add	sp, sp, #368
	ret
.LBB105_4:
	mov	w8, #13434
	movk	w8, #3, lsl #16
	cmp	w1, w8
	b.lo	.LBB105_6
	mov	x8, #-1
	adrp	x9, .LCPI105_63
	mov	w20, w1
	ldr	q0, [x9, :lo12:.LCPI105_63]
	stp	x8, x8, [sp, #64]
	mov	x8, #-184
	str	x8, [sp, #96]
	sub	w8, w1, #51, lsl #12
	add	x0, sp, #64
	str	q0, [sp, #80]
	sub	w2, w8, #1146
	mov	w1, #5
	b	.LBB105_14
.LBB105_6:
	lsr	w8, w1, #5
	cmp	w8, #3914
	b.ls	.LBB105_8
	adrp	x8, .LCPI105_48
	mov	w20, w1
	add	x0, sp, #64
	ldr	q0, [x8, :lo12:.LCPI105_48]
	adrp	x8, .LCPI105_49
	ldr	q1, [x8, :lo12:.LCPI105_49]
	adrp	x8, .LCPI105_50
	ldr	q2, [x8, :lo12:.LCPI105_50]
	adrp	x8, .LCPI105_51
	stp	q0, q1, [sp, #64]
	ldr	q0, [x8, :lo12:.LCPI105_51]
	adrp	x8, .LCPI105_52
	ldr	q1, [x8, :lo12:.LCPI105_52]
	adrp	x8, .LCPI105_53
	stp	q2, q0, [sp, #96]
	ldr	q0, [x8, :lo12:.LCPI105_53]
	adrp	x8, .LCPI105_54
	ldr	q2, [x8, :lo12:.LCPI105_54]
	adrp	x8, .LCPI105_55
	stp	q1, q0, [sp, #128]
	ldr	q0, [x8, :lo12:.LCPI105_55]
	adrp	x8, .LCPI105_56
	ldr	q1, [x8, :lo12:.LCPI105_56]
	adrp	x8, .LCPI105_57
	stp	q2, q0, [sp, #160]
	ldr	q0, [x8, :lo12:.LCPI105_57]
	adrp	x8, .LCPI105_58
	ldr	q2, [x8, :lo12:.LCPI105_58]
	adrp	x8, .LCPI105_59
	stp	q1, q0, [sp, #192]
	ldr	q0, [x8, :lo12:.LCPI105_59]
	adrp	x8, .LCPI105_60
	ldr	q1, [x8, :lo12:.LCPI105_60]
	adrp	x8, .LCPI105_61
	stp	q2, q0, [sp, #224]
	ldr	q0, [x8, :lo12:.LCPI105_61]
	adrp	x8, .LCPI105_62
	ldr	q2, [x8, :lo12:.LCPI105_62]
	sub	w8, w1, #30, lsl #12
	mov	w1, #30
	sub	w2, w8, #2400
	stp	q1, q0, [sp, #256]
	str	q2, [sp, #288]
	b	.LBB105_14
.LBB105_8:
	mov	w8, #28345
	movk	w8, #1, lsl #16
	cmp	w1, w8
	b.lo	.LBB105_10
	adrp	x8, .LCPI105_32
	mov	w20, w1
	add	x0, sp, #64
	ldr	q0, [x8, :lo12:.LCPI105_32]
	adrp	x8, .LCPI105_33
	ldr	q1, [x8, :lo12:.LCPI105_33]
	adrp	x8, .LCPI105_34
	ldr	q2, [x8, :lo12:.LCPI105_34]
	adrp	x8, .LCPI105_35
	stp	q0, q1, [sp, #64]
	ldr	q0, [x8, :lo12:.LCPI105_35]
	adrp	x8, .LCPI105_36
	ldr	q1, [x8, :lo12:.LCPI105_36]
	adrp	x8, .LCPI105_37
	stp	q2, q0, [sp, #96]
	ldr	q0, [x8, :lo12:.LCPI105_37]
	adrp	x8, .LCPI105_38
	ldr	q2, [x8, :lo12:.LCPI105_38]
	adrp	x8, .LCPI105_39
	stp	q1, q0, [sp, #128]
	ldr	q0, [x8, :lo12:.LCPI105_39]
	adrp	x8, .LCPI105_40
	ldr	q1, [x8, :lo12:.LCPI105_40]
	adrp	x8, .LCPI105_41
	stp	q2, q0, [sp, #160]
	ldr	q0, [x8, :lo12:.LCPI105_41]
	adrp	x8, .LCPI105_42
	ldr	q2, [x8, :lo12:.LCPI105_42]
	adrp	x8, .LCPI105_43
	stp	q1, q0, [sp, #192]
	ldr	q0, [x8, :lo12:.LCPI105_43]
	adrp	x8, .LCPI105_44
	ldr	q1, [x8, :lo12:.LCPI105_44]
	adrp	x8, .LCPI105_45
	stp	q2, q0, [sp, #224]
	ldr	q0, [x8, :lo12:.LCPI105_45]
	adrp	x8, .LCPI105_46
	ldr	q2, [x8, :lo12:.LCPI105_46]
	adrp	x8, .LCPI105_47
	stp	q1, q0, [sp, #256]
	ldr	q0, [x8, :lo12:.LCPI105_47]
	sub	w8, w1, #22, lsl #12
	sub	w2, w8, #3769
	mov	w1, #32
	stp	q2, q0, [sp, #288]
	b	.LBB105_14
.LBB105_10:
	mov	w8, #2104
	movk	w8, #1, lsl #16
	add	w9, w8, #3491
	cmp	w1, w9
	b.ls	.LBB105_12
	adrp	x8, .LCPI105_16
	mov	w20, w1
	add	x0, sp, #64
	ldr	q0, [x8, :lo12:.LCPI105_16]
	adrp	x8, .LCPI105_17
	ldr	q1, [x8, :lo12:.LCPI105_17]
	adrp	x8, .LCPI105_18
	ldr	q2, [x8, :lo12:.LCPI105_18]
	adrp	x8, .LCPI105_19
	stp	q0, q1, [sp, #64]
	ldr	q0, [x8, :lo12:.LCPI105_19]
	adrp	x8, .LCPI105_20
	ldr	q1, [x8, :lo12:.LCPI105_20]
	adrp	x8, .LCPI105_21
	stp	q2, q0, [sp, #96]
	ldr	q0, [x8, :lo12:.LCPI105_21]
	adrp	x8, .LCPI105_22
	ldr	q2, [x8, :lo12:.LCPI105_22]
	adrp	x8, .LCPI105_23
	stp	q1, q0, [sp, #128]
	ldr	q0, [x8, :lo12:.LCPI105_23]
	adrp	x8, .LCPI105_24
	ldr	q1, [x8, :lo12:.LCPI105_24]
	adrp	x8, .LCPI105_25
	stp	q2, q0, [sp, #160]
	ldr	q0, [x8, :lo12:.LCPI105_25]
	adrp	x8, .LCPI105_26
	ldr	q2, [x8, :lo12:.LCPI105_26]
	adrp	x8, .LCPI105_27
	stp	q1, q0, [sp, #192]
	ldr	q0, [x8, :lo12:.LCPI105_27]
	adrp	x8, .LCPI105_28
	ldr	q1, [x8, :lo12:.LCPI105_28]
	adrp	x8, .LCPI105_29
	stp	q2, q0, [sp, #224]
	ldr	q0, [x8, :lo12:.LCPI105_29]
	adrp	x8, .LCPI105_30
	ldr	q2, [x8, :lo12:.LCPI105_30]
	adrp	x8, .LCPI105_31
	stp	q1, q0, [sp, #256]
	ldr	q0, [x8, :lo12:.LCPI105_31]
	sub	w8, w1, #17, lsl #12
	sub	w2, w8, #1500
	mov	w1, #32
	stp	q2, q0, [sp, #288]
	b	.LBB105_14
.LBB105_12:
	cmp	w1, w8
	b.ls	.LBB105_16
	adrp	x8, .LCPI105_0
	adrp	x9, .LCPI105_1
	mov	w20, w1
	ldr	q0, [x8, :lo12:.LCPI105_0]
	ldr	q1, [x9, :lo12:.LCPI105_1]
	adrp	x8, .LCPI105_2
	adrp	x9, .LCPI105_3
	ldr	q2, [x8, :lo12:.LCPI105_2]
	adrp	x8, .LCPI105_4
	stp	q0, q1, [sp, #64]
	ldr	q0, [x9, :lo12:.LCPI105_3]
	ldr	q1, [x8, :lo12:.LCPI105_4]
	adrp	x8, .LCPI105_5
	add	x0, sp, #64
	stp	q2, q0, [sp, #96]
	ldr	q0, [x8, :lo12:.LCPI105_5]
	adrp	x8, .LCPI105_6
	ldr	q2, [x8, :lo12:.LCPI105_6]
	adrp	x8, .LCPI105_7
	stp	q1, q0, [sp, #128]
	ldr	q0, [x8, :lo12:.LCPI105_7]
	adrp	x8, .LCPI105_8
	ldr	q1, [x8, :lo12:.LCPI105_8]
	adrp	x8, .LCPI105_9
	stp	q2, q0, [sp, #160]
	ldr	q0, [x8, :lo12:.LCPI105_9]
	adrp	x8, .LCPI105_10
	ldr	q2, [x8, :lo12:.LCPI105_10]
	adrp	x8, .LCPI105_11
	stp	q1, q0, [sp, #192]
	ldr	q0, [x8, :lo12:.LCPI105_11]
	adrp	x8, .LCPI105_12
	ldr	q1, [x8, :lo12:.LCPI105_12]
	adrp	x8, .LCPI105_13
	stp	q2, q0, [sp, #224]
	ldr	q0, [x8, :lo12:.LCPI105_13]
	adrp	x8, .LCPI105_14
	ldr	q2, [x8, :lo12:.LCPI105_14]
	adrp	x8, .LCPI105_15
	stp	q1, q0, [sp, #256]
	ldr	q0, [x8, :lo12:.LCPI105_15]
	sub	w8, w1, #17, lsl #12
	sub	w8, w8, #1500
	mov	w1, #32
	stp	q2, q0, [sp, #288]
	add	w2, w8, #3491
.LBB105_14:
	bl	core.fmt.unicode.is_in_odd_run
	tbz	w0, #0, .LBB105_18
.LBB105_15:
	dup	v0.4s, w20
	adrp	x8, .LCPI105_72
	stp	w20, w20, [sp, #32]
	ldr	q1, [x8, :lo12:.LCPI105_72]
	stp	q0, q0, [sp]
	stur	q1, [sp, #40]
	b	.LBB105_28
.LBB105_16:
	mov	w8, #43066
	cmp	w1, w8
	b.lo	.LBB105_29
	mov	w8, #-43066
	mov	w20, w1
	add	w0, w1, w8
	bl	core.fmt.unicode.from_a83a
	tbz	w0, #0, .LBB105_15
.LBB105_18:
	dup	v1.2s, w20
	adrp	x8, .LCPI105_64
	movi	v2.2s, #15
	ldr	d0, [x8, :lo12:.LCPI105_64]
	movi	v3.2s, #10
	movi	v4.2s, #87
	lsr	w10, w20, #16
	ubfx	w8, w20, #16, #4
	ushl	v0.2s, v1.2s, v0.2s
	orr	w9, w10, #0x30
	add	w11, w8, #87
	cmp	w8, #10
	csel	w8, w9, w11, lo
	tst	w20, #0xfff00000
	mov	w9, #48
	and	v0.8b, v0.8b, v2.8b
	cinc	w9, w9, ne
	cmp	w20, #255
	cmhi	v5.2s, v3.2s, v0.2s
	add	v6.2s, v0.2s, v4.2s
	orr	v0.2s, #48
	bif	v0.8b, v6.8b, v5.8b
	b.hi	.LBB105_20
	mov	w9, #123
	stur	d0, [sp, #12]
	movi	v0.4s, #125
	adrp	x8, .LCPI105_66
	str	w9, [sp, #8]
	adrp	x9, .LCPI105_71
	ldr	d1, [x8, :lo12:.LCPI105_66]
	ldr	q2, [x9, :lo12:.LCPI105_71]
	mov	w8, #125
	str	w8, [sp, #36]
	str	d1, [sp]
	stur	q0, [sp, #20]
	stur	q2, [sp, #40]
	b	.LBB105_28
.LBB105_20:
	adrp	x11, .LCPI105_65
	cmp	w20, #4095
	ldr	d5, [x11, :lo12:.LCPI105_65]
	ushl	v1.2s, v1.2s, v5.2s
	and	v1.8b, v1.8b, v2.8b
	cmhi	v2.2s, v3.2s, v1.2s
	add	v3.2s, v1.2s, v4.2s
	orr	v1.2s, #48
	bif	v1.8b, v3.8b, v2.8b
	b.hi	.LBB105_22
	adrp	x8, .LCPI105_66
	mov	x10, sp
	movi	v2.4s, #125
	ldr	d3, [x8, :lo12:.LCPI105_66]
	orr	x8, x10, #0xc
	mov	w9, #123
	st1	{ v1.s }[1], [x8]
	adrp	x8, .LCPI105_70
	str	d0, [sp, #16]
	ldr	q0, [x8, :lo12:.LCPI105_70]
	str	w9, [sp, #8]
	str	d3, [sp]
	stur	q2, [sp, #24]
	b	.LBB105_27
.LBB105_22:
	cbnz	w10, .LBB105_24
	adrp	x8, .LCPI105_66
	stur	d1, [sp, #12]
	movi	v1.2s, #125
	stur	d0, [sp, #20]
	ldr	d0, [x8, :lo12:.LCPI105_66]
	mov	w9, #123
	adrp	x8, .LCPI105_69
	str	w9, [sp, #8]
	mov	w9, #125
	str	d0, [sp]
	ldr	q0, [x8, :lo12:.LCPI105_69]
	stur	d1, [sp, #28]
	str	w9, [sp, #36]
	b	.LBB105_27
.LBB105_24:
	mov	v1.d[1], v0.d[0]
	adrp	x10, .LCPI105_66
	mov	w11, #123
	ldr	d2, [x10, :lo12:.LCPI105_66]
	lsr	w10, w20, #20
	str	w11, [sp, #8]
	str	d2, [sp]
	cbnz	w10, .LBB105_26
	movi	v0.2s, #125
	str	w8, [sp, #12]
	adrp	x8, .LCPI105_68
	ldr	q2, [x8, :lo12:.LCPI105_68]
	str	q1, [sp, #16]
	stur	q2, [sp, #40]
	str	d0, [sp, #32]
	b	.LBB105_28
.LBB105_26:
	stp	w9, w8, [sp, #12]
	adrp	x9, .LCPI105_67
	mov	w8, #125
	ldr	q0, [x9, :lo12:.LCPI105_67]
	str	w8, [sp, #36]
	stur	q1, [sp, #20]
.LBB105_27:
	stur	q0, [sp, #40]
.LBB105_28:
	ldp	q0, q1, [sp]
	ldr	q2, [sp, #32]
	ldr	x8, [sp, #48]
	stp	q0, q1, [x19]
	str	q2, [x19, #32]
	str	x8, [x19, #48]
	ldp	x20, x19, [sp, #352]
	ldr	x28, [sp, #336]
	ldp	x29, x30, [sp, #320]
	add	sp, sp, #368
	ret
.LBB105_29:
	mov	w8, #6431
	cmp	w1, w8
	b.lo	.LBB105_31
	mov	w8, #-6431
	mov	w20, w1
	add	w0, w1, w8
	bl	core.fmt.unicode.from_191f
	tbz	w0, #0, .LBB105_15
	b	.LBB105_18
.LBB105_31:
	subs	w0, w1, #3130
	b.lo	.LBB105_33
	mov	w20, w1
	bl	core.fmt.unicode.from_c3a
	tbz	w0, #0, .LBB105_15
	b	.LBB105_18
.LBB105_33:
	sub	w0, w1, #128
	mov	w20, w1
	bl	core.fmt.unicode.from_80
	tbz	w0, #0, .LBB105_15
	b	.LBB105_18
.Lfunc_end105:
	.size	core.char.escape.escape_debug, .Lfunc_end105-core.char.escape.escape_debug

	.section	.text.core.fmt.unicode.is_in_odd_run,"ax",@progbits
	.p2align	2
	.type	core.fmt.unicode.is_in_odd_run,@function
core.fmt.unicode.is_in_odd_run:
	mov	w8, wzr
	mov	w10, w2
.LBB106_1:
	ldr	x9, [x0], #8
	mov	w11, #2048
	and	x12, x9, #0xff
	cmp	x12, #255
	csel	x11, x11, x12, eq
	subs	x10, x10, x11
	b.lo	.LBB106_10
	ubfx	x11, x9, #8, #8
	cmp	x12, #254
	mov	w12, #2048
	cset	w13, lo
	cmp	x11, #255
	eor	w8, w8, w13
	csel	x12, x12, x11, eq
	subs	x12, x10, x12
	b.lo	.LBB106_10
	ubfx	x10, x9, #16, #8
	cmp	x11, #254
	mov	w11, #2048
	cset	w13, lo
	cmp	x10, #255
	eor	w8, w8, w13
	csel	x11, x11, x10, eq
	subs	x11, x12, x11
	b.lo	.LBB106_10
	lsr	w12, w9, #24
	cmp	x10, #254
	mov	w13, #2048
	cset	w10, lo
	cmp	x12, #255
	eor	w8, w8, w10
	csel	x13, x13, x12, eq
	subs	x11, x11, x13
	b.lo	.LBB106_10
	ubfx	x10, x9, #32, #8
	cmp	x12, #254
	mov	w12, #2048
	cset	w13, lo
	cmp	x10, #255
	eor	w8, w8, w13
	csel	x12, x12, x10, eq
	subs	x12, x11, x12
	b.lo	.LBB106_10
	ubfx	x11, x9, #40, #8
	cmp	x10, #254
	mov	w13, #2048
	cset	w10, lo
	cmp	x11, #255
	eor	w8, w8, w10
	csel	x13, x13, x11, eq
	subs	x12, x12, x13
	b.lo	.LBB106_10
	ubfx	x10, x9, #48, #8
	cmp	x11, #254
	mov	w11, #2048
	cset	w13, lo
	cmp	x10, #255
	eor	w8, w8, w13
	csel	x11, x11, x10, eq
	subs	x11, x12, x11
	b.lo	.LBB106_10
	lsr	x12, x9, #56
	cmp	x10, #254
	mov	w10, #2048
	cset	w13, lo
	cmp	x12, #255
	eor	w8, w8, w13
	csel	x10, x10, x12, eq
	subs	x10, x11, x10
	b.lo	.LBB106_10
	lsr	x9, x9, #57
	cmp	x9, #127
	cset	w9, lo
	subs	x1, x1, #1
	eor	w8, w8, w9
	b.ne	.LBB106_1
.LBB106_10:
	and	w0, w8, #0x1
	ret
.Lfunc_end106:
	.size	core.fmt.unicode.is_in_odd_run, .Lfunc_end106-core.fmt.unicode.is_in_odd_run

	.section	.rodata.cst16,"aM",@progbits,16
	.p2align	4, 0x0
.LCPI107_0:
	.xword	943517360164714502
	.xword	2165106668034598401
.LCPI107_1:
	.xword	144680354266034182
	.xword	1801729039870790913
.LCPI107_2:
	.xword	219271214504749313
	.xword	2306416962890172417
.LCPI107_3:
	.xword	360853132068074241
	.xword	577042497050575106
.LCPI107_4:
	.xword	506943038816388619
	.xword	144525315543205633
.LCPI107_5:
	.xword	-1073573854207
	.xword	1660890374769410047
.LCPI107_6:
	.xword	504121683288731908
	.xword	363673531478864126
.LCPI107_7:
	.xword	72344571270463749
	.xword	-8142791795957235199
.LCPI107_8:
	.xword	1369414339262418976
	.xword	-7132427471399156735
.LCPI107_9:
	.xword	432915119941558018
	.xword	147782063767094018
.LCPI107_10:
	.xword	144417558504737794
	.xword	217715543191457537
.LCPI107_11:
	.xword	72916318390791428
	.xword	1950112528101223727
.LCPI107_12:
	.xword	2164584374325552132
	.xword	721312793793668353
.LCPI107_13:
	.xword	3749290688035169286
	.xword	144404364180655115
.LCPI107_14:
	.xword	144404364180654849
	.xword	726778534546912259
.LCPI107_15:
	.xword	4615627948018767880
	.xword	-71493355577474554
	.section	.text.core.fmt.unicode.from_a83a,"ax",@progbits
	.p2align	2
	.type	core.fmt.unicode.from_a83a,@function
core.fmt.unicode.from_a83a:
	sub	sp, sp, #288
	adrp	x8, .LCPI107_0
	mov	w2, w0
	mov	x0, sp
	ldr	q0, [x8, :lo12:.LCPI107_0]
	adrp	x8, .LCPI107_1
	mov	w1, #32
	ldr	q1, [x8, :lo12:.LCPI107_1]
	adrp	x8, .LCPI107_2
	stp	x29, x30, [sp, #256]
	ldr	q2, [x8, :lo12:.LCPI107_2]
	adrp	x8, .LCPI107_3
	str	x28, [sp, #272]
	stp	q0, q1, [sp]
	ldr	q0, [x8, :lo12:.LCPI107_3]
	adrp	x8, .LCPI107_4
	ldr	q1, [x8, :lo12:.LCPI107_4]
	adrp	x8, .LCPI107_5
	add	x29, sp, #256
	stp	q2, q0, [sp, #32]
	ldr	q0, [x8, :lo12:.LCPI107_5]
	adrp	x8, .LCPI107_6
	ldr	q2, [x8, :lo12:.LCPI107_6]
	adrp	x8, .LCPI107_7
	stp	q1, q0, [sp, #64]
	ldr	q0, [x8, :lo12:.LCPI107_7]
	adrp	x8, .LCPI107_8
	ldr	q1, [x8, :lo12:.LCPI107_8]
	adrp	x8, .LCPI107_9
	stp	q2, q0, [sp, #96]
	ldr	q0, [x8, :lo12:.LCPI107_9]
	adrp	x8, .LCPI107_10
	ldr	q2, [x8, :lo12:.LCPI107_10]
	adrp	x8, .LCPI107_11
	stp	q1, q0, [sp, #128]
	ldr	q0, [x8, :lo12:.LCPI107_11]
	adrp	x8, .LCPI107_12
	ldr	q1, [x8, :lo12:.LCPI107_12]
	adrp	x8, .LCPI107_13
	stp	q2, q0, [sp, #160]
	ldr	q0, [x8, :lo12:.LCPI107_13]
	adrp	x8, .LCPI107_14
	ldr	q2, [x8, :lo12:.LCPI107_14]
	adrp	x8, .LCPI107_15
	stp	q1, q0, [sp, #192]
	ldr	q0, [x8, :lo12:.LCPI107_15]
	stp	q2, q0, [sp, #224]
	bl	core.fmt.unicode.is_in_odd_run
	ldp	x29, x30, [sp, #256]
	eor	w0, w0, #0x1
	ldr	x28, [sp, #272]
	add	sp, sp, #288
	ret
.Lfunc_end107:
	.size	core.fmt.unicode.from_a83a, .Lfunc_end107-core.fmt.unicode.from_a83a

	.section	.rodata.cst16,"aM",@progbits,16
	.p2align	4, 0x0
.LCPI108_0:
	.xword	432629255457866756
	.xword	3173635869265559815
.LCPI108_1:
	.xword	144740823261911556
	.xword	144397801235757059
.LCPI108_2:
	.xword	1010506187445962248
	.xword	2089960511122321494
.LCPI108_3:
	.xword	4036916332724358153
	.xword	3462424792374837505
.LCPI108_4:
	.xword	3099952101372264968
	.xword	290201856352389890
.LCPI108_5:
	.xword	-4610277535391873535
	.xword	154813462019112512
.LCPI108_6:
	.xword	72340172838535686
	.xword	76281045869068545
.LCPI108_7:
	.xword	72904299612865038
	.xword	144697031726207241
.LCPI108_8:
	.xword	1630020482106145617
	.xword	-72340172838136565
.LCPI108_9:
	.xword	360854751220474622
	.xword	520167960363467053
.LCPI108_10:
	.xword	74029048603807490
	.xword	74029048468537607
.LCPI108_11:
	.xword	2018741136273113351
	.xword	76590700297781530
.LCPI108_12:
	.xword	388721710268941865
	.xword	85578657914814763
.LCPI108_13:
	.xword	-1
	.xword	-72339069014638593
.LCPI108_14:
	.xword	3392440864486130545
	.xword	432996484238672132
.LCPI108_15:
	.xword	216473008934805000
	.xword	721707346853692417
	.section	.text.core.fmt.unicode.from_191f,"ax",@progbits
	.p2align	2
	.type	core.fmt.unicode.from_191f,@function
core.fmt.unicode.from_191f:
	sub	sp, sp, #288
	adrp	x8, .LCPI108_0
	mov	w2, w0
	mov	x0, sp
	ldr	q0, [x8, :lo12:.LCPI108_0]
	adrp	x8, .LCPI108_1
	mov	w1, #32
	ldr	q1, [x8, :lo12:.LCPI108_1]
	adrp	x8, .LCPI108_2
	stp	x29, x30, [sp, #256]
	ldr	q2, [x8, :lo12:.LCPI108_2]
	adrp	x8, .LCPI108_3
	str	x28, [sp, #272]
	stp	q0, q1, [sp]
	ldr	q0, [x8, :lo12:.LCPI108_3]
	adrp	x8, .LCPI108_4
	ldr	q1, [x8, :lo12:.LCPI108_4]
	adrp	x8, .LCPI108_5
	add	x29, sp, #256
	stp	q2, q0, [sp, #32]
	ldr	q0, [x8, :lo12:.LCPI108_5]
	adrp	x8, .LCPI108_6
	ldr	q2, [x8, :lo12:.LCPI108_6]
	adrp	x8, .LCPI108_7
	stp	q1, q0, [sp, #64]
	ldr	q0, [x8, :lo12:.LCPI108_7]
	adrp	x8, .LCPI108_8
	ldr	q1, [x8, :lo12:.LCPI108_8]
	adrp	x8, .LCPI108_9
	stp	q2, q0, [sp, #96]
	ldr	q0, [x8, :lo12:.LCPI108_9]
	adrp	x8, .LCPI108_10
	ldr	q2, [x8, :lo12:.LCPI108_10]
	adrp	x8, .LCPI108_11
	stp	q1, q0, [sp, #128]
	ldr	q0, [x8, :lo12:.LCPI108_11]
	adrp	x8, .LCPI108_12
	ldr	q1, [x8, :lo12:.LCPI108_12]
	adrp	x8, .LCPI108_13
	stp	q2, q0, [sp, #160]
	ldr	q0, [x8, :lo12:.LCPI108_13]
	adrp	x8, .LCPI108_14
	ldr	q2, [x8, :lo12:.LCPI108_14]
	adrp	x8, .LCPI108_15
	stp	q1, q0, [sp, #192]
	ldr	q0, [x8, :lo12:.LCPI108_15]
	stp	q2, q0, [sp, #224]
	bl	core.fmt.unicode.is_in_odd_run
	ldp	x29, x30, [sp, #256]
	eor	w0, w0, #0x1
	ldr	x28, [sp, #272]
	add	sp, sp, #288
	ret
.Lfunc_end108:
	.size	core.fmt.unicode.from_191f, .Lfunc_end108-core.fmt.unicode.from_191f

	.section	.rodata.cst16,"aM",@progbits,16
	.p2align	4, 0x0
.LCPI109_0:
	.xword	144400043259134211
	.xword	792926034743001602
.LCPI109_1:
	.xword	360580444963537665
	.xword	222648909913260547
.LCPI109_2:
	.xword	796577487089041921
	.xword	144397771842061057
.LCPI109_3:
	.xword	217300885389247237
	.xword	1297320375709075969
.LCPI109_4:
	.xword	504967212176578563
	.xword	216746757366088201
.LCPI109_5:
	.xword	939009365678043148
	.xword	1729669233756930597
.LCPI109_6:
	.xword	74593072314384641
	.xword	288804359892960514
.LCPI109_7:
	.xword	72340173274355744
	.xword	73466146346569217
.LCPI109_8:
	.xword	937036798971938050
	.xword	144679263327759653
.LCPI109_9:
	.xword	937892227538098434
	.xword	2882601733564006913
.LCPI109_10:
	.xword	106958300733833473
	.xword	145242191806530052
.LCPI109_11:
	.xword	145242329262063913
	.xword	76281934908555527
.LCPI109_12:
	.xword	224341341793157433
	.xword	-72618319159097830
.LCPI109_13:
	.xword	941823350959505796
	.xword	75732239358493459
.LCPI109_14:
	.xword	74317094764941059
	.xword	435166954065038082
.LCPI109_15:
	.xword	145530641894212875
	.xword	-63320573911957214
	.section	.text.core.fmt.unicode.from_c3a,"ax",@progbits
	.p2align	2
	.type	core.fmt.unicode.from_c3a,@function
core.fmt.unicode.from_c3a:
	sub	sp, sp, #288
	adrp	x8, .LCPI109_0
	mov	w2, w0
	mov	x0, sp
	ldr	q0, [x8, :lo12:.LCPI109_0]
	adrp	x8, .LCPI109_1
	mov	w1, #32
	ldr	q1, [x8, :lo12:.LCPI109_1]
	adrp	x8, .LCPI109_2
	stp	x29, x30, [sp, #256]
	ldr	q2, [x8, :lo12:.LCPI109_2]
	adrp	x8, .LCPI109_3
	str	x28, [sp, #272]
	stp	q0, q1, [sp]
	ldr	q0, [x8, :lo12:.LCPI109_3]
	adrp	x8, .LCPI109_4
	ldr	q1, [x8, :lo12:.LCPI109_4]
	adrp	x8, .LCPI109_5
	add	x29, sp, #256
	stp	q2, q0, [sp, #32]
	ldr	q0, [x8, :lo12:.LCPI109_5]
	adrp	x8, .LCPI109_6
	ldr	q2, [x8, :lo12:.LCPI109_6]
	adrp	x8, .LCPI109_7
	stp	q1, q0, [sp, #64]
	ldr	q0, [x8, :lo12:.LCPI109_7]
	adrp	x8, .LCPI109_8
	ldr	q1, [x8, :lo12:.LCPI109_8]
	adrp	x8, .LCPI109_9
	stp	q2, q0, [sp, #96]
	ldr	q0, [x8, :lo12:.LCPI109_9]
	adrp	x8, .LCPI109_10
	ldr	q2, [x8, :lo12:.LCPI109_10]
	adrp	x8, .LCPI109_11
	stp	q1, q0, [sp, #128]
	ldr	q0, [x8, :lo12:.LCPI109_11]
	adrp	x8, .LCPI109_12
	ldr	q1, [x8, :lo12:.LCPI109_12]
	adrp	x8, .LCPI109_13
	stp	q2, q0, [sp, #160]
	ldr	q0, [x8, :lo12:.LCPI109_13]
	adrp	x8, .LCPI109_14
	ldr	q2, [x8, :lo12:.LCPI109_14]
	adrp	x8, .LCPI109_15
	stp	q1, q0, [sp, #192]
	ldr	q0, [x8, :lo12:.LCPI109_15]
	stp	q2, q0, [sp, #224]
	bl	core.fmt.unicode.is_in_odd_run
	ldp	x29, x30, [sp, #256]
	eor	w0, w0, #0x1
	ldr	x28, [sp, #272]
	add	sp, sp, #288
	ret
.Lfunc_end109:
	.size	core.fmt.unicode.from_c3a, .Lfunc_end109-core.fmt.unicode.from_c3a

	.section	.rodata.cst16,"aM",@progbits,16
	.p2align	4, 0x0
.LCPI110_0:
	.xword	608081602878180385
	.xword	1441434459659568642
.LCPI110_1:
	.xword	4035548529623031809
	.xword	72621652109754670
.LCPI110_2:
	.xword	75164887013399305
	.xword	74420449090809345
.LCPI110_3:
	.xword	72655745560216070
	.xword	3102418341556198913
.LCPI110_4:
	.xword	74591985922672393
	.xword	73492461259260163
.LCPI110_5:
	.xword	3979257994503588609
	.xword	216458689563918593
.LCPI110_6:
	.xword	576744431085029895
	.xword	72346770260230658
.LCPI110_7:
	.xword	145806241271317507
	.xword	216456511965168130
.LCPI110_8:
	.xword	145247689364543492
	.xword	144398866488301058
.LCPI110_9:
	.xword	72343570190959105
	.xword	75436397615516167
.LCPI110_10:
	.xword	504708826843384065
	.xword	74313804866978305
.LCPI110_11:
	.xword	865819291826717185
	.xword	144686938451345671
.LCPI110_12:
	.xword	360571648602084866
	.xword	144680362839245059
.LCPI110_13:
	.xword	75173627221312015
	.xword	144964015397996033
.LCPI110_14:
	.xword	217019418985693441
	.xword	217019410379246595
.LCPI110_15:
	.xword	217884811929518849
	.xword	1153228272696363009
	.section	.text.core.fmt.unicode.from_80,"ax",@progbits
	.p2align	2
	.type	core.fmt.unicode.from_80,@function
core.fmt.unicode.from_80:
	sub	sp, sp, #288
	adrp	x8, .LCPI110_0
	mov	w2, w0
	mov	x0, sp
	ldr	q0, [x8, :lo12:.LCPI110_0]
	adrp	x8, .LCPI110_1
	mov	w1, #32
	ldr	q1, [x8, :lo12:.LCPI110_1]
	adrp	x8, .LCPI110_2
	stp	x29, x30, [sp, #256]
	ldr	q2, [x8, :lo12:.LCPI110_2]
	adrp	x8, .LCPI110_3
	str	x28, [sp, #272]
	stp	q0, q1, [sp]
	ldr	q0, [x8, :lo12:.LCPI110_3]
	adrp	x8, .LCPI110_4
	ldr	q1, [x8, :lo12:.LCPI110_4]
	adrp	x8, .LCPI110_5
	add	x29, sp, #256
	stp	q2, q0, [sp, #32]
	ldr	q0, [x8, :lo12:.LCPI110_5]
	adrp	x8, .LCPI110_6
	ldr	q2, [x8, :lo12:.LCPI110_6]
	adrp	x8, .LCPI110_7
	stp	q1, q0, [sp, #64]
	ldr	q0, [x8, :lo12:.LCPI110_7]
	adrp	x8, .LCPI110_8
	ldr	q1, [x8, :lo12:.LCPI110_8]
	adrp	x8, .LCPI110_9
	stp	q2, q0, [sp, #96]
	ldr	q0, [x8, :lo12:.LCPI110_9]
	adrp	x8, .LCPI110_10
	ldr	q2, [x8, :lo12:.LCPI110_10]
	adrp	x8, .LCPI110_11
	stp	q1, q0, [sp, #128]
	ldr	q0, [x8, :lo12:.LCPI110_11]
	adrp	x8, .LCPI110_12
	ldr	q1, [x8, :lo12:.LCPI110_12]
	adrp	x8, .LCPI110_13
	stp	q2, q0, [sp, #160]
	ldr	q0, [x8, :lo12:.LCPI110_13]
	adrp	x8, .LCPI110_14
	ldr	q2, [x8, :lo12:.LCPI110_14]
	adrp	x8, .LCPI110_15
	stp	q1, q0, [sp, #192]
	ldr	q0, [x8, :lo12:.LCPI110_15]
	stp	q2, q0, [sp, #224]
	bl	core.fmt.unicode.is_in_odd_run
	ldp	x29, x30, [sp, #256]
	eor	w0, w0, #0x1
	ldr	x28, [sp, #272]
	add	sp, sp, #288
	ret
.Lfunc_end110:
	.size	core.fmt.unicode.from_80, .Lfunc_end110-core.fmt.unicode.from_80

	.section	.rodata.cst16,"aM",@progbits,16
	.p2align	4, 0x0
.LCPI111_0:
	.word	4294967278
	.word	4294967284
	.word	4294967290
	.word	0
	.section	.rodata.cst8,"aM",@progbits,8
	.p2align	3, 0x0
.LCPI111_1:
	.hword	255
	.hword	63
	.hword	63
	.hword	63
.LCPI111_2:
	.hword	240
	.hword	128
	.hword	128
	.hword	128
	.section	.text.core.char.escape.EscapeDisplay.fmt.bf264aed5fa78656,"ax",@progbits
	.p2align	2
	.type	core.char.escape.EscapeDisplay.fmt.bf264aed5fa78656,@function
core.char.escape.EscapeDisplay.fmt.bf264aed5fa78656:
	stp	x29, x30, [sp, #-64]!
	stp	x20, x19, [sp, #48]
	ldp	x9, x20, [x0, #40]
	mov	x19, x1
	str	x23, [sp, #16]
	mov	x29, sp
	stp	x22, x21, [sp, #32]
	cbz	x9, .LBB111_4
	cmp	x20, #10
	mov	w8, #10
	sub	x10, x9, #1
	csel	x8, x20, x8, lo
	cmp	x8, x10
	csel	x10, x8, x10, lo
	cmp	x8, x10
	b.ne	.LBB111_7
	mov	w8, wzr
.LBB111_3:
	ldp	x20, x19, [sp, #48]
	mov	w0, w8
	ldp	x22, x21, [sp, #32]
	ldr	x23, [sp, #16]
	ldp	x29, x30, [sp], #64
	ret
.LBB111_4:
	cbz	x20, .LBB111_12
	mov	w22, #10
	ldr	w8, [x0]
	str	wzr, [x29, #28]
	cmp	w8, #128
	b.hs	.LBB111_10
.LBB111_6:
	mov	w2, #1
	strb	w8, [x29, #28]
	b	.LBB111_19
.LBB111_7:
	sub	x20, x20, x9
	mov	w8, wzr
	cbz	x20, .LBB111_3
	cmp	x9, #10
	b.eq	.LBB111_3
	mov	w8, #10
	add	x0, x0, x9, lsl #2
	sub	x22, x8, x9
	ldr	w8, [x0]
	str	wzr, [x29, #28]
	cmp	w8, #128
	b.lo	.LBB111_6
.LBB111_10:
	cmp	w8, #2048
	b.hs	.LBB111_13
	lsr	w9, w8, #6
	mov	w10, #128
	mov	w2, #2
	bfxil	w10, w8, #0, #6
	orr	w8, w9, #0xc0
	strb	w8, [x29, #28]
	strb	w10, [x29, #29]
	b	.LBB111_19
.LBB111_12:
	mov	w8, wzr
	ldp	x20, x19, [sp, #48]
	mov	w0, w8
	ldp	x22, x21, [sp, #32]
	ldr	x23, [sp, #16]
	ldp	x29, x30, [sp], #64
	ret
.LBB111_13:
	lsr	w9, w8, #11
	cmp	w9, #27
	b.lo	.LBB111_16
	mov	w10, #8192
	sub	w9, w8, #14, lsl #12
	movk	w10, #16, lsl #16
	cmp	w9, w10
	b.lo	.LBB111_16
	mov	w8, #49135
	mov	w9, #189
	mov	w2, #3
	strh	w8, [x29, #28]
	strb	w9, [x29, #30]
	b	.LBB111_19
.LBB111_16:
	cmp	w8, #16, lsl #12
	b.hs	.LBB111_18
	lsr	w9, w8, #12
	mov	w10, #128
	mov	w11, #128
	bfxil	w10, w8, #6, #6
	bfxil	w11, w8, #0, #6
	mov	w2, #3
	orr	w9, w9, #0xe0
	strb	w9, [x29, #28]
	strb	w10, [x29, #29]
	strb	w11, [x29, #30]
	b	.LBB111_19
.LBB111_18:
	dup	v0.4s, w8
	adrp	x8, .LCPI111_0
	mov	w2, #4
	ldr	q1, [x8, :lo12:.LCPI111_0]
	adrp	x8, .LCPI111_1
	ushl	v0.4s, v0.4s, v1.4s
	ldr	d1, [x8, :lo12:.LCPI111_1]
	adrp	x8, .LCPI111_2
	xtn	v0.4h, v0.4s
	and	v0.8b, v0.8b, v1.8b
	ldr	d1, [x8, :lo12:.LCPI111_2]
	orr	v0.8b, v0.8b, v1.8b
	uzp1	v0.8b, v0.8b, v0.8b
	str	s0, [x29, #28]
.LBB111_19:
	ldr	x8, [x19, #1160]
	mov	x21, x0
	cbnz	x8, .LBB111_22
	add	x1, x29, #28
	mov	x0, x19
	bl	core.fmt.formatter.Formatter.write_raw.bf264aed5fa78656
	and	w8, w0, #0xff
	tbz	w8, #0, .LBB111_23
.LBB111_21:
	mov	w8, #1
	ldp	x20, x19, [sp, #48]
	mov	w0, w8
	ldp	x22, x21, [sp, #32]
	ldr	x23, [sp, #16]
	ldp	x29, x30, [sp], #64
	ret
.LBB111_22:
	add	x1, x29, #28
	mov	x0, x19
	bl	core.fmt.formatter.Formatter.write_indented.bf264aed5fa78656
	and	w8, w0, #0xff
	tbnz	w8, #0, .LBB111_21
.LBB111_23:
	cmp	x20, #1
	mov	w8, wzr
	b.eq	.LBB111_3
	sub	x10, x22, #1
	cbz	x10, .LBB111_3
	mov	x9, x21
	mov	w21, #8192
	sub	x20, x20, #2
	movk	w21, #16, lsl #16
	add	x23, x9, #4
	sub	x9, x22, #2
.LBB111_26:
	ldr	w8, [x23], #4
	mov	x22, x9
	str	wzr, [x29, #28]
	cmp	w8, #127
	b.hi	.LBB111_28
	strb	w8, [x29, #28]
	mov	w2, #1
	b	.LBB111_36
.LBB111_28:
	cmp	w8, #2047
	b.hi	.LBB111_30
	lsr	w9, w8, #6
	mov	w10, #128
	mov	w2, #2
	bfxil	w10, w8, #0, #6
	orr	w8, w9, #0xc0
	strb	w8, [x29, #28]
	strb	w10, [x29, #29]
	b	.LBB111_36
.LBB111_30:
	lsr	w9, w8, #11
	cmp	w9, #27
	b.lo	.LBB111_33
	sub	w9, w8, #14, lsl #12
	cmp	w9, w21
	b.lo	.LBB111_33
	mov	w8, #49135
	mov	w9, #189
	mov	w2, #3
	strh	w8, [x29, #28]
	strb	w9, [x29, #30]
	b	.LBB111_36
.LBB111_33:
	lsr	w9, w8, #16
	cbnz	w9, .LBB111_35
	lsr	w9, w8, #12
	mov	w10, #128
	mov	w11, #128
	bfxil	w10, w8, #6, #6
	bfxil	w11, w8, #0, #6
	mov	w2, #3
	orr	w9, w9, #0xe0
	strb	w9, [x29, #28]
	strb	w10, [x29, #29]
	strb	w11, [x29, #30]
	b	.LBB111_36
.LBB111_35:
	dup	v0.4s, w8
	adrp	x8, .LCPI111_0
	mov	w2, #4
	ldr	q1, [x8, :lo12:.LCPI111_0]
	adrp	x8, .LCPI111_1
	ushl	v0.4s, v0.4s, v1.4s
	ldr	d1, [x8, :lo12:.LCPI111_1]
	adrp	x8, .LCPI111_2
	xtn	v0.4h, v0.4s
	and	v0.8b, v0.8b, v1.8b
	ldr	d1, [x8, :lo12:.LCPI111_2]
	orr	v0.8b, v0.8b, v1.8b
	uzp1	v0.8b, v0.8b, v0.8b
	str	s0, [x29, #28]
.LBB111_36:
	ldr	x8, [x19, #1160]
	cbnz	x8, .LBB111_40
	add	x1, x29, #28
	mov	x0, x19
	bl	core.fmt.formatter.Formatter.write_raw.bf264aed5fa78656
	and	w8, w0, #0xff
	tbnz	w8, #0, .LBB111_21
.LBB111_38:
	mov	w8, wzr
	cbz	x20, .LBB111_3
	sub	x9, x22, #1
	sub	x20, x20, #1
	cbnz	x22, .LBB111_26
	b	.LBB111_3
.LBB111_40:
	add	x1, x29, #28
	mov	x0, x19
	bl	core.fmt.formatter.Formatter.write_indented.bf264aed5fa78656
	and	w8, w0, #0xff
	tbz	w8, #0, .LBB111_38
	b	.LBB111_21
.Lfunc_end111:
	.size	core.char.escape.EscapeDisplay.fmt.bf264aed5fa78656, .Lfunc_end111-core.char.escape.EscapeDisplay.fmt.bf264aed5fa78656

	.section	.rodata.cst8,"aM",@progbits,8
	.p2align	3, 0x0
.LCPI112_0:
	.byte	108
	.byte	105
	.byte	110
	.byte	107
	.byte	115
	.byte	116
	.byte	97
	.byte	116
	.section	.text.main,"ax",@progbits
	.globl	main
	.p2align	2
	.type	main,@function
main:
	stp	x29, x30, [sp, #-96]!
	stp	x28, x27, [sp, #16]
	mov	x29, sp
	stp	x26, x25, [sp, #32]
	stp	x24, x23, [sp, #48]
	stp	x22, x21, [sp, #64]
	stp	x20, x19, [sp, #80]
	sub	sp, sp, #2416
	mov	w0, #13
	mov	w1, #1
	str	xzr, [sp]
	add	x25, sp, #1232
	bl	__sysv_signal
	mov	x28, xzr
	mov	x20, xzr
	sub	x19, x29, #24
	add	x26, sp, #56
	str	xzr, [sp, #1248]
	str	x19, [sp, #1232]
	str	xzr, [sp, #1240]
.LBB112_1:
	mov	w27, #64
	mov	w22, #256
	b	.LBB112_3
.LBB112_2:
	adds	x8, x22, x22
	csinv	x22, x8, xzr, lo
	subs	w27, w27, #1
	b.eq	.LBB112_193
.LBB112_3:
	sub	x21, x29, #24
	stp	xzr, xzr, [x26, #8]
	str	x21, [sp, #56]
	cbnz	x22, .LBB112_8
	mov	x23, xzr
.LBB112_5:
	mov	x0, x20
	mov	x1, x21
	mov	x2, x23
	bl	rattle_arg
	mov	w8, #36
	cmn	x0, #1
	mov	w9, #22
	csel	w8, w9, w8, eq
	mov	x24, x0
	csel	w0, wzr, w8, gt
	bl	rattle_set_errno
	bl	rattle_errno
	cmp	w0, #36
	b.ne	.LBB112_11
	ldr	x8, [sp, #72]
	cbz	x8, .LBB112_2
	mov	x0, x21
	bl	rattle_dealloc
	b	.LBB112_2
.LBB112_8:
	add	x0, sp, #56
	mov	x1, x22
	bl	std_alloc.vec.Vec.grow_amortized.05fa32d921161499
	cbz	w0, .LBB112_191
	ldp	x21, x8, [sp, #56]
	add	x23, x8, x22
	cmp	x8, x23
	b.hs	.LBB112_5
	add	x0, x21, x8
	mov	w1, wzr
	mov	x2, x22
	bl	memset
	b	.LBB112_5
.LBB112_11:
	cbnz	w0, .LBB112_17
	cmp	x24, x23
	add	x0, sp, #56
	mov	x1, x21
	csel	x8, x24, x23, lo
	cmp	x24, #0
	ldr	x23, [sp, #72]
	csel	x22, x8, xzr, gt
	stp	xzr, xzr, [sp, #56]
	mov	x2, x22
	str	xzr, [sp, #72]
	bl	core.str.utf8.from_utf8
	ldrb	w8, [sp, #56]
	cmp	w8, #1
	b.eq	.LBB112_265
	ldr	x8, [sp, #1248]
	cmp	x8, x28
	b.eq	.LBB112_15
.LBB112_14:
	mov	w8, #24
	add	x20, x20, #1
	madd	x8, x28, x8, x19
	add	x28, x28, #1
	cmn	x20, #1
	stp	x21, x22, [x8]
	str	x23, [x8, #16]
	str	x28, [sp, #1240]
	b.ne	.LBB112_1
	b	.LBB112_19
.LBB112_15:
	add	x0, sp, #1232
	bl	std_alloc.vec.Vec.grow_amortized.4412fee896cf261c
	cbz	w0, .LBB112_346
	ldr	x28, [sp, #1240]
	ldr	x19, [sp, #1232]
	b	.LBB112_14
.LBB112_17:
	ldr	x8, [sp, #72]
	cbz	x8, .LBB112_19
	mov	x0, x21
	bl	rattle_dealloc
.LBB112_19:
	ldr	x20, [sp, #1232]
	ldr	x27, [sp, #1248]
	cbz	x28, .LBB112_30
	ldr	x8, [x20]
	ldr	x25, [x20, #16]
	cmp	x28, #1
	str	x8, [sp, #48]
	b.eq	.LBB112_31
	ldp	x21, x22, [x20, #24]
	adrp	x2, .Lstatic.151
	add	x2, x2, :lo12:.Lstatic.151
	ldr	x23, [x20, #40]
	mov	w3, #6
	mov	x0, x21
	mov	x1, x22
	bl	core.cmp.text.RefStrPartialEq.eq
	tbnz	w0, #0, .LBB112_23
	adrp	x2, .Lstatic.152
	add	x2, x2, :lo12:.Lstatic.152
	mov	x0, x21
	mov	x1, x22
	mov	w3, #2
	bl	core.cmp.text.RefStrPartialEq.eq
	tbz	w0, #0, .LBB112_115
.LBB112_23:
	mov	w8, wzr
.LBB112_24:
	cmp	x28, #2
	b.ne	.LBB112_101
	cmp	w8, #1
	b.gt	.LBB112_117
	cbnz	w8, .LBB112_257
	adrp	x0, .Lstatic.1
	add	x0, x0, :lo12:.Lstatic.1
	mov	w1, #838
	bl	line_filter.program.write_text
	mov	w22, w0
	cbz	x23, .LBB112_29
.LBB112_28:
	mov	x0, x21
	bl	rattle_dealloc
.LBB112_29:
	and	w21, w22, #0xff
	cbnz	x25, .LBB112_98
	b	.LBB112_99
.LBB112_30:
	mov	x25, xzr
	str	xzr, [sp, #48]
.LBB112_31:
	sub	x23, x29, #24
	mov	w0, #65536
	mov	w1, #1
	stp	xzr, xzr, [x29, #-40]
	mov	w22, #1
	stur	x23, [x29, #-48]
	bl	rattle_alloc
	tbz	w0, #0, .LBB112_94
	mov	x21, x1
	mov	x0, x1
	mov	w1, wzr
	mov	w2, #65536
	str	x20, [sp, #16]
	bl	memset
	mov	x19, xzr
	mov	x26, xzr
	mov	x20, xzr
	stp	xzr, xzr, [sp, #64]
	str	x23, [sp, #56]
	str	x23, [sp, #1232]
	str	xzr, [sp, #1248]
	str	xzr, [sp, #1240]
	stp	x27, x25, [sp, #24]
.LBB112_33:
	mov	w0, wzr
	mov	x1, x21
	mov	w2, #65536
	bl	read
	tbnz	x0, #63, .LBB112_275
	cmp	x0, #16, lsl #12
	mov	w8, #65536
	mov	x22, x0
	csel	x24, x0, x8, lo
	str	x20, [sp, #40]
	cbz	x0, .LBB112_280
	mov	w0, #10
	mov	x1, x21
	mov	x2, x24
	bl	memchr.bytes.memchr
	and	w8, w0, #0xff
	cmp	w8, #1
	b.ne	.LBB112_65
	mov	x27, x1
	cbz	x26, .LBB112_76
	mov	x19, x26
	mov	x25, x21
	b	.LBB112_39
.LBB112_38:
	add	x8, x25, x27
	mvn	x9, x27
	mov	w0, #10
	add	x25, x8, #1
	add	x24, x24, x9
	mov	x1, x25
	mov	x2, x24
	bl	memchr.bytes.memchr
	and	w8, w0, #0xff
	mov	x27, x1
	mov	x19, xzr
	cmp	w8, #1
	b.ne	.LBB112_81
.LBB112_39:
	cbz	x19, .LBB112_47
	mov	x20, x21
	ldr	x21, [sp, #72]
	sub	x8, x21, x19
	cmp	x27, x8
	b.hi	.LBB112_57
	add	x8, x23, x19
	sub	x8, x8, x25
	cmp	x8, x27
	b.hs	.LBB112_59
.LBB112_42:
	cmp	x27, #8
	b.lo	.LBB112_44
	add	x8, x19, x23
	sub	x8, x8, x25
	cmp	x8, #32
	b.hs	.LBB112_48
.LBB112_44:
	mov	x8, xzr
.LBB112_45:
	add	x10, x8, x19
	sub	x9, x27, x8
	add	x8, x25, x8
	add	x10, x23, x10
.LBB112_46:
	ldrb	w11, [x8], #1
	subs	x9, x9, #1
	strb	w11, [x10], #1
	b.ne	.LBB112_46
	b	.LBB112_60
.LBB112_47:
	sub	x0, x29, #48
	add	x3, sp, #1232
	mov	x1, x25
	mov	x2, x27
	bl	line_filter.answers.AnsweringTake.take.19f4c77da892a4d9
	and	w8, w0, #0xff
	tbz	w8, #0, .LBB112_63
	b	.LBB112_111
.LBB112_48:
	cmp	x27, #32
	b.hs	.LBB112_50
	mov	x8, xzr
	b	.LBB112_54
.LBB112_50:
	add	x11, x23, x19
	and	x9, x27, #0x18
	and	x8, x27, #0xffffffffffffffe0
	add	x10, x25, #16
	add	x11, x11, #16
	and	x12, x27, #0xffffffffffffffe0
.LBB112_51:
	ldp	q0, q1, [x10, #-16]
	subs	x12, x12, #32
	add	x10, x10, #32
	stp	q0, q1, [x11, #-16]
	add	x11, x11, #32
	b.ne	.LBB112_51
	cmp	x27, x8
	b.eq	.LBB112_60
	cbz	x9, .LBB112_45
.LBB112_54:
	mov	x10, x8
	and	x8, x27, #0xfffffffffffffff8
	add	x11, x19, x10
	sub	x9, x10, x8
	add	x10, x25, x10
	add	x11, x23, x11
.LBB112_55:
	ldr	d0, [x10], #8
	adds	x9, x9, #8
	str	d0, [x11], #8
	b.ne	.LBB112_55
	cmp	x27, x8
	b.eq	.LBB112_60
	b	.LBB112_45
.LBB112_57:
	add	x0, sp, #56
	mov	x1, x27
	bl	std_alloc.vec.Vec.grow_amortized.05fa32d921161499
	cbz	w0, .LBB112_184
	ldp	x19, x21, [sp, #64]
	ldr	x23, [sp, #56]
	add	x8, x23, x19
	sub	x8, x8, x25
	cmp	x8, x27
	b.lo	.LBB112_42
.LBB112_59:
	add	x0, x23, x19
	mov	x1, x25
	mov	x2, x27
	bl	memmove
.LBB112_60:
	add	x26, x19, x27
	sub	x0, x29, #48
	add	x3, sp, #1232
	mov	x1, x23
	mov	x2, x26
	stp	x26, x21, [sp, #64]
	bl	line_filter.answers.AnsweringTake.take.19f4c77da892a4d9
	and	w8, w0, #0xff
	tbnz	w8, #0, .LBB112_184
	mov	x21, x20
	cbz	x26, .LBB112_63
	mov	x26, xzr
	str	xzr, [sp, #64]
.LBB112_63:
	ldr	x8, [sp, #1240]
	cmp	x8, #16, lsl #12
	b.lo	.LBB112_38
	add	x0, sp, #1232
	bl	line_filter.write.write_out.df9e9f1468b30f79
	tst	w0, #0xff
	b.eq	.LBB112_38
	b	.LBB112_114
.LBB112_65:
	mov	x25, x21
.LBB112_66:
	sub	x8, x19, x26
	ldr	x27, [sp, #24]
	cmp	x24, x8
	b.hi	.LBB112_92
.LBB112_67:
	ldr	x23, [sp, #56]
	add	x8, x23, x26
	sub	x8, x8, x25
	cmp	x8, x24
	add	x8, sp, #56
	stp	xzr, xzr, [x8, #8]
	b.hs	.LBB112_73
	cmp	x24, #8
	b.lo	.LBB112_70
	add	x8, x26, x23
	sub	x8, x8, x25
	cmp	x8, #32
	b.hs	.LBB112_82
.LBB112_70:
	mov	x8, xzr
.LBB112_71:
	add	x10, x8, x26
	sub	x9, x24, x8
	add	x8, x25, x8
	add	x10, x23, x10
.LBB112_72:
	ldrb	w11, [x8], #1
	subs	x9, x9, #1
	strb	w11, [x10], #1
	b.ne	.LBB112_72
	b	.LBB112_74
.LBB112_73:
	add	x0, x23, x26
	mov	x1, x25
	mov	x2, x24
	bl	memmove
.LBB112_74:
	add	x26, x26, x24
	add	x0, sp, #1232
	stp	x26, x19, [sp, #64]
	bl	line_filter.write.write_out.df9e9f1468b30f79
	ldr	x20, [sp, #40]
	tst	w0, #0xff
	b.ne	.LBB112_291
	add	x20, x20, #1
	ldr	x25, [sp, #32]
	cmn	x20, #1
	b.ne	.LBB112_33
	b	.LBB112_292
.LBB112_76:
	mov	x25, x21
	b	.LBB112_78
.LBB112_77:
	add	x8, x25, x27
	mvn	x9, x27
	mov	w0, #10
	add	x25, x8, #1
	add	x24, x24, x9
	mov	x1, x25
	mov	x2, x24
	bl	memchr.bytes.memchr
	and	w8, w0, #0xff
	mov	x27, x1
	cmp	w8, #1
	b.ne	.LBB112_84
.LBB112_78:
	sub	x0, x29, #48
	add	x3, sp, #1232
	mov	x1, x25
	mov	x2, x27
	bl	line_filter.answers.AnsweringTake.take.19f4c77da892a4d9
	and	w8, w0, #0xff
	tbnz	w8, #0, .LBB112_111
	ldr	x8, [sp, #1240]
	cmp	x8, #16, lsl #12
	b.lo	.LBB112_77
	add	x0, sp, #1232
	bl	line_filter.write.write_out.df9e9f1468b30f79
	tst	w0, #0xff
	b.eq	.LBB112_77
	b	.LBB112_114
.LBB112_81:
	ldr	x19, [sp, #72]
	b	.LBB112_66
.LBB112_82:
	cmp	x24, #32
	b.hs	.LBB112_85
	mov	x8, xzr
	b	.LBB112_89
.LBB112_84:
	mov	x26, xzr
	b	.LBB112_66
.LBB112_85:
	add	x11, x23, x26
	and	x9, x24, #0x18
	and	x8, x24, #0xffffffffffffffe0
	add	x10, x25, #16
	add	x11, x11, #16
	and	x12, x24, #0xffffffffffffffe0
.LBB112_86:
	ldp	q0, q1, [x10, #-16]
	subs	x12, x12, #32
	add	x10, x10, #32
	stp	q0, q1, [x11, #-16]
	add	x11, x11, #32
	b.ne	.LBB112_86
	cmp	x24, x8
	b.eq	.LBB112_74
	cbz	x9, .LBB112_71
.LBB112_89:
	mov	x10, x8
	and	x8, x24, #0xfffffffffffffff8
	add	x11, x26, x10
	sub	x9, x10, x8
	add	x10, x25, x10
	add	x11, x23, x11
.LBB112_90:
	ldr	d0, [x10], #8
	adds	x9, x9, #8
	str	d0, [x11], #8
	b.ne	.LBB112_90
	cmp	x24, x8
	b.eq	.LBB112_74
	b	.LBB112_71
.LBB112_92:
	add	x0, sp, #56
	mov	x1, x24
	bl	std_alloc.vec.Vec.grow_amortized.05fa32d921161499
	cbz	w0, .LBB112_112
	ldp	x26, x19, [sp, #64]
	b	.LBB112_67
.LBB112_94:
	mov	w1, #2
	ldur	x8, [x29, #-32]
	cbz	x8, .LBB112_96
.LBB112_95:
	ldur	x0, [x29, #-48]
	mov	w19, w1
	bl	rattle_dealloc
	mov	w1, w19
.LBB112_96:
	mov	w0, w22
	bl	line_filter.program.ended
	and	w21, w0, #0xff
	cbz	x28, .LBB112_99
	cbz	x25, .LBB112_99
.LBB112_98:
	ldr	x0, [sp, #48]
	bl	rattle_dealloc
.LBB112_99:
	cbz	x27, .LBB112_287
	mov	x0, x20
	bl	rattle_dealloc
	b	.LBB112_287
.LBB112_101:
	ldp	x22, x1, [x20, #48]
	ldr	x19, [x20, #64]
	mov	x0, x22
	bl	line_filter.program.refuse
	cbz	x19, .LBB112_103
	mov	x0, x22
	bl	rattle_dealloc
.LBB112_103:
	cbz	x23, .LBB112_105
	mov	x0, x21
	bl	rattle_dealloc
.LBB112_105:
	mov	x21, x20
	cbz	x25, .LBB112_107
	ldr	x0, [sp, #48]
	bl	rattle_dealloc
.LBB112_107:
	subs	x19, x28, #3
	b.ne	.LBB112_180
.LBB112_108:
	cbz	x27, .LBB112_286
	mov	x0, x21
.LBB112_110:
	bl	rattle_dealloc
	b	.LBB112_286
.LBB112_111:
	ldr	x27, [sp, #24]
.LBB112_112:
	mov	w24, #2
.LBB112_113:
	ldr	x25, [sp, #32]
	b	.LBB112_185
.LBB112_114:
	ldp	x27, x25, [sp, #24]
	mov	w24, w1
	b	.LBB112_185
.LBB112_115:
	adrp	x2, .Lstatic.153
	add	x2, x2, :lo12:.Lstatic.153
	mov	x0, x21
	mov	x1, x22
	mov	w3, #9
	bl	core.cmp.text.RefStrPartialEq.eq
	tbz	w0, #0, .LBB112_258
	mov	w8, #1
	b	.LBB112_24
.LBB112_117:
	cmp	w8, #2
	b.ne	.LBB112_259
	sub	x24, x29, #24
	mov	w0, #65536
	mov	w1, #1
	str	x23, [sp, #40]
	mov	w23, #1
	stp	xzr, xzr, [x29, #-40]
	stur	x24, [x29, #-48]
	bl	rattle_alloc
	tbz	w0, #0, .LBB112_288
	mov	x26, x1
	mov	x0, x1
	mov	w1, wzr
	mov	w2, #65536
	stp	x20, x27, [sp, #16]
	bl	memset
	mov	x19, xzr
	mov	x27, xzr
	mov	x20, xzr
	stp	xzr, xzr, [sp, #64]
	str	x24, [sp, #56]
	str	x24, [sp, #1232]
	str	xzr, [sp, #1248]
	str	xzr, [sp, #1240]
	str	x26, [sp, #8]
	str	x25, [sp, #32]
.LBB112_120:
	mov	w0, wzr
	mov	x1, x26
	mov	w2, #65536
	bl	read
	tbnz	x0, #63, .LBB112_354
	cmp	x0, #16, lsl #12
	mov	w8, #65536
	mov	x23, x0
	csel	x25, x0, x8, lo
	cbz	x0, .LBB112_359
	mov	w0, #10
	mov	x1, x26
	mov	x2, x25
	bl	memchr.bytes.memchr
	and	w8, w0, #0xff
	cmp	w8, #1
	b.ne	.LBB112_159
	mov	x28, x1
	cbz	x27, .LBB112_152
	mov	x19, x27
	b	.LBB112_126
.LBB112_125:
	add	x8, x26, x28
	mvn	x9, x28
	mov	w0, #10
	add	x26, x8, #1
	add	x25, x25, x9
	mov	x1, x26
	mov	x2, x25
	bl	memchr.bytes.memchr
	and	w8, w0, #0xff
	mov	x28, x1
	mov	x19, xzr
	cmp	w8, #1
	b.ne	.LBB112_157
.LBB112_126:
	cbz	x19, .LBB112_134
	ldr	x27, [sp, #72]
	sub	x8, x27, x19
	cmp	x28, x8
	b.hi	.LBB112_144
	add	x8, x24, x19
	sub	x8, x8, x26
	cmp	x8, x28
	b.hs	.LBB112_146
.LBB112_129:
	cmp	x28, #8
	b.lo	.LBB112_131
	add	x8, x19, x24
	sub	x8, x8, x26
	cmp	x8, #32
	b.hs	.LBB112_135
.LBB112_131:
	mov	x8, xzr
.LBB112_132:
	add	x10, x8, x19
	sub	x9, x28, x8
	add	x8, x26, x8
	add	x10, x24, x10
.LBB112_133:
	ldrb	w11, [x8], #1
	subs	x9, x9, #1
	strb	w11, [x10], #1
	b.ne	.LBB112_133
	b	.LBB112_147
.LBB112_134:
	sub	x0, x29, #48
	add	x3, sp, #1232
	mov	x1, x26
	mov	x2, x28
	bl	line_filter.answers.AnsweringTake.take.d1b9b744fe2e7f64
	and	w8, w0, #0xff
	tbz	w8, #0, .LBB112_150
	b	.LBB112_306
.LBB112_135:
	cmp	x28, #32
	b.hs	.LBB112_137
	mov	x8, xzr
	b	.LBB112_141
.LBB112_137:
	add	x11, x24, x19
	and	x9, x28, #0x18
	and	x8, x28, #0xffffffffffffffe0
	add	x10, x26, #16
	add	x11, x11, #16
	and	x12, x28, #0xffffffffffffffe0
.LBB112_138:
	ldp	q0, q1, [x10, #-16]
	subs	x12, x12, #32
	add	x10, x10, #32
	stp	q0, q1, [x11, #-16]
	add	x11, x11, #32
	b.ne	.LBB112_138
	cmp	x28, x8
	b.eq	.LBB112_147
	cbz	x9, .LBB112_132
.LBB112_141:
	mov	x10, x8
	and	x8, x28, #0xfffffffffffffff8
	add	x11, x19, x10
	sub	x9, x10, x8
	add	x10, x26, x10
	add	x11, x24, x11
.LBB112_142:
	ldr	d0, [x10], #8
	adds	x9, x9, #8
	str	d0, [x11], #8
	b.ne	.LBB112_142
	cmp	x28, x8
	b.eq	.LBB112_147
	b	.LBB112_132
.LBB112_144:
	add	x0, sp, #56
	mov	x1, x28
	bl	std_alloc.vec.Vec.grow_amortized.05fa32d921161499
	cbz	w0, .LBB112_306
	ldp	x19, x27, [sp, #64]
	ldr	x24, [sp, #56]
	add	x8, x24, x19
	sub	x8, x8, x26
	cmp	x8, x28
	b.lo	.LBB112_129
.LBB112_146:
	add	x0, x24, x19
	mov	x1, x26
	mov	x2, x28
	bl	memmove
.LBB112_147:
	add	x22, x19, x28
	sub	x0, x29, #48
	add	x3, sp, #1232
	mov	x1, x24
	mov	x2, x22
	stp	x22, x27, [sp, #64]
	bl	line_filter.answers.AnsweringTake.take.d1b9b744fe2e7f64
	and	w8, w0, #0xff
	tbnz	w8, #0, .LBB112_306
	mov	x27, xzr
	cbz	x22, .LBB112_150
	str	xzr, [sp, #64]
.LBB112_150:
	ldr	x8, [sp, #1240]
	cmp	x8, #16, lsl #12
	b.lo	.LBB112_125
	add	x0, sp, #1232
	bl	line_filter.write.write_out.df9e9f1468b30f79
	tst	w0, #0xff
	b.eq	.LBB112_125
	b	.LBB112_307
.LBB112_152:
	ldr	x27, [sp, #24]
	b	.LBB112_154
.LBB112_153:
	add	x8, x26, x28
	mvn	x9, x28
	mov	w0, #10
	add	x26, x8, #1
	add	x25, x25, x9
	mov	x1, x26
	mov	x2, x25
	bl	memchr.bytes.memchr
	and	w8, w0, #0xff
	mov	x28, x1
	cmp	w8, #1
	b.ne	.LBB112_158
.LBB112_154:
	sub	x0, x29, #48
	add	x3, sp, #1232
	mov	x1, x26
	mov	x2, x28
	bl	line_filter.answers.AnsweringTake.take.d1b9b744fe2e7f64
	and	w8, w0, #0xff
	tbnz	w8, #0, .LBB112_338
	ldr	x8, [sp, #1240]
	cmp	x8, #16, lsl #12
	b.lo	.LBB112_153
	add	x0, sp, #1232
	bl	line_filter.write.write_out.df9e9f1468b30f79
	tst	w0, #0xff
	b.eq	.LBB112_153
	b	.LBB112_339
.LBB112_157:
	ldr	x19, [sp, #72]
	b	.LBB112_159
.LBB112_158:
	mov	x27, xzr
.LBB112_159:
	sub	x8, x19, x27
	cmp	x25, x8
	b.hi	.LBB112_178
.LBB112_160:
	ldr	x24, [sp, #56]
	add	x8, x24, x27
	sub	x8, x8, x26
	cmp	x8, x25
	add	x8, sp, #56
	stp	xzr, xzr, [x8, #8]
	b.hs	.LBB112_166
	cmp	x25, #8
	b.lo	.LBB112_163
	add	x8, x27, x24
	sub	x8, x8, x26
	cmp	x8, #32
	b.hs	.LBB112_169
.LBB112_163:
	mov	x8, xzr
.LBB112_164:
	add	x10, x8, x27
	sub	x9, x25, x8
	add	x8, x26, x8
	add	x10, x24, x10
.LBB112_165:
	ldrb	w11, [x8], #1
	subs	x9, x9, #1
	strb	w11, [x10], #1
	b.ne	.LBB112_165
	b	.LBB112_167
.LBB112_166:
	add	x0, x24, x27
	mov	x1, x26
	mov	x2, x25
	bl	memmove
.LBB112_167:
	add	x27, x27, x25
	add	x0, sp, #1232
	stp	x27, x19, [sp, #64]
	bl	line_filter.write.write_out.df9e9f1468b30f79
	tst	w0, #0xff
	b.ne	.LBB112_307
	add	x20, x20, #1
	ldr	x25, [sp, #32]
	ldr	x26, [sp, #8]
	cmn	x20, #1
	b.ne	.LBB112_120
	b	.LBB112_362
.LBB112_169:
	cmp	x25, #32
	b.hs	.LBB112_171
	mov	x8, xzr
	b	.LBB112_175
.LBB112_171:
	add	x11, x24, x27
	and	x9, x25, #0x18
	and	x8, x25, #0xffffffffffffffe0
	add	x10, x26, #16
	add	x11, x11, #16
	and	x12, x25, #0xffffffffffffffe0
.LBB112_172:
	ldp	q0, q1, [x10, #-16]
	subs	x12, x12, #32
	add	x10, x10, #32
	stp	q0, q1, [x11, #-16]
	add	x11, x11, #32
	b.ne	.LBB112_172
	cmp	x25, x8
	b.eq	.LBB112_167
	cbz	x9, .LBB112_164
.LBB112_175:
	mov	x10, x8
	and	x8, x25, #0xfffffffffffffff8
	add	x11, x27, x10
	sub	x9, x10, x8
	add	x10, x26, x10
	add	x11, x24, x11
.LBB112_176:
	ldr	d0, [x10], #8
	adds	x9, x9, #8
	str	d0, [x11], #8
	b.ne	.LBB112_176
	cmp	x25, x8
	b.eq	.LBB112_167
	b	.LBB112_164
.LBB112_178:
	add	x0, sp, #56
	mov	x1, x25
	bl	std_alloc.vec.Vec.grow_amortized.05fa32d921161499
	cbz	w0, .LBB112_306
	ldp	x27, x19, [sp, #64]
	b	.LBB112_160
.LBB112_180:
	add	x20, x21, #88
	b	.LBB112_182
.LBB112_181:
	subs	x19, x19, #1
	add	x20, x20, #24
	b.eq	.LBB112_108
.LBB112_182:
	ldr	x8, [x20]
	cbz	x8, .LBB112_181
	ldur	x0, [x20, #-16]
	bl	rattle_dealloc
	b	.LBB112_181
.LBB112_184:
	ldp	x27, x25, [sp, #24]
	mov	w24, #2
	mov	x21, x20
.LBB112_185:
	ldr	x8, [sp, #1248]
	cbz	x8, .LBB112_187
	ldr	x0, [sp, #1232]
	bl	rattle_dealloc
.LBB112_187:
	ldr	x8, [sp, #72]
	cbz	x8, .LBB112_190
	ldr	x0, [sp, #56]
.LBB112_189:
	bl	rattle_dealloc
.LBB112_190:
	mov	x0, x21
	bl	rattle_dealloc
	ldr	x20, [sp, #16]
	mov	w22, #1
	mov	w1, w24
	ldur	x8, [x29, #-32]
	cbnz	x8, .LBB112_95
	b	.LBB112_96
.LBB112_191:
	ldr	x8, [sp, #72]
	cbz	x8, .LBB112_193
	ldr	x0, [sp, #56]
	bl	rattle_dealloc
.LBB112_193:
	ldr	x20, [sp, #1248]
	cbz	x28, .LBB112_198
	add	x21, x19, #16
	b	.LBB112_196
.LBB112_195:
	subs	x28, x28, #1
	add	x21, x21, #24
	b.eq	.LBB112_198
.LBB112_196:
	ldr	x8, [x21]
	cbz	x8, .LBB112_195
	ldur	x0, [x21, #-16]
	bl	rattle_dealloc
	b	.LBB112_195
.LBB112_198:
	cbz	x20, .LBB112_200
.LBB112_199:
	mov	x0, x19
	bl	rattle_dealloc
.LBB112_200:
	add	x8, sp, #1232
.LBB112_201:
	mov	w9, #21
	mov	w10, #38
	strb	w9, [sp, #56]
	strb	w10, [sp, #1232]
	ldrb	w8, [x8]
	cmp	w8, #21
	b.ne	.LBB112_207
	add	x20, sp, #56
	mov	w8, #2
	mov	w1, wzr
	add	x0, x20, #12
	mov	w2, #1124
	str	w8, [sp, #56]
	orr	x19, x20, #0x4
	bl	memset
	movi	v0.2d, #0000000000000000
	mov	w9, #32
	add	x21, x20, #1140
	str	wzr, [sp, #1204]
	add	x8, x20, #1160
	add	x10, sp, #937
	str	w9, [sp, #1192]
	mov	x22, xzr
	add	x20, x20, #1136
	str	xzr, [x21]
	ldur	q1, [x10, #255]
	str	q0, [x8]
	mov	x8, #-1
	adrp	x10, .LCPI112_0
	str	x8, [sp, #1208]
	ldr	d0, [x10, :lo12:.LCPI112_0]
	str	x8, [sp, #1248]
	mov	w8, #14949
	strh	w8, [sp, #68]
	mov	w8, #11
	str	q1, [x25]
	stur	d0, [sp, #60]
	strb	w9, [sp, #70]
	str	x8, [sp, #1088]
	str	w9, [sp, #1192]
	str	xzr, [x21]
	str	wzr, [sp, #1204]
	b	.LBB112_204
.LBB112_203:
	add	x22, x22, #1
	add	x8, x9, #1
	strb	w23, [x19, x9]
	cmp	x22, #23
	str	x8, [sp, #1088]
	b.eq	.LBB112_208
.LBB112_204:
	adrp	x9, .Lstatic.4
	add	x9, x9, :lo12:.Lstatic.4
	cmp	x8, #1024
	ldrb	w23, [x9, x22]
	mov	x9, x8
	b.lo	.LBB112_203
	add	x0, sp, #56
	bl	std_io.io.buffer.Buffer.flush
	cbz	w0, .LBB112_284
	ldr	x9, [sp, #1088]
	cmp	x9, #1023
	b.ls	.LBB112_203
	b	.LBB112_284
.LBB112_207:
	adrp	x8, .Lstatic.0
	add	x8, x8, :lo12:.Lstatic.0
	mov	w9, #9
	str	x8, [sp, #1232]
	adrp	x8, .Lstatic.12
	add	x8, x8, :lo12:.Lstatic.12
	str	x9, [sp, #1240]
	mov	w9, #15
	add	x0, sp, #56
	add	x1, sp, #1232
	str	x8, [sp, #1248]
	str	x9, [sp, #1256]
	bl	std_io.io.LibcRuntimeEprint.eprintln.27a8a20715d85f24
	mov	w21, #1
	b	.LBB112_287
.LBB112_208:
	mov	w10, #32
	ldr	x11, [sp, #1216]
	str	xzr, [x21]
	str	w10, [sp, #1192]
	mov	x10, #-1
	str	wzr, [x21, #8]
	str	x10, [sp, #1208]
	cbnz	x11, .LBB112_283
	cmp	x9, #1023
	b.lo	.LBB112_212
	add	x0, sp, #56
	bl	std_io.io.buffer.Buffer.flush
	cbz	w0, .LBB112_284
	ldr	x8, [sp, #1088]
	cmp	x8, #1023
	b.hi	.LBB112_284
.LBB112_212:
	mov	w9, #59
	strb	w9, [x19, x8]
	cmp	x8, #1023
	add	x9, x8, #1
	str	x9, [sp, #1088]
	b.lo	.LBB112_215
	add	x0, sp, #56
	bl	std_io.io.buffer.Buffer.flush
	cbz	w0, .LBB112_284
	ldr	x9, [sp, #1088]
	cmp	x9, #1023
	b.hi	.LBB112_284
.LBB112_215:
	mov	w8, #32
	strb	w8, [x19, x9]
	cmp	x9, #1023
	add	x8, x9, #1
	str	x8, [sp, #1088]
	b.lo	.LBB112_218
	add	x0, sp, #56
	bl	std_io.io.buffer.Buffer.flush
	cbz	w0, .LBB112_284
	ldr	x8, [sp, #1088]
	cmp	x8, #1023
	b.hi	.LBB112_284
.LBB112_218:
	mov	w9, #115
	strb	w9, [x19, x8]
	cmp	x8, #1023
	add	x9, x8, #1
	str	x9, [sp, #1088]
	b.lo	.LBB112_221
	add	x0, sp, #56
	bl	std_io.io.buffer.Buffer.flush
	cbz	w0, .LBB112_284
	ldr	x9, [sp, #1088]
	cmp	x9, #1023
	b.hi	.LBB112_284
.LBB112_221:
	mov	w22, #101
	add	x8, x9, #1
	cmp	x9, #1023
	strb	w22, [x19, x9]
	str	x8, [sp, #1088]
	b.lo	.LBB112_224
	add	x0, sp, #56
	bl	std_io.io.buffer.Buffer.flush
	cbz	w0, .LBB112_284
	ldr	x8, [sp, #1088]
	cmp	x8, #1023
	b.hi	.LBB112_284
.LBB112_224:
	add	x9, x8, #1
	cmp	x8, #1023
	strb	w22, [x19, x8]
	str	x9, [sp, #1088]
	b.lo	.LBB112_227
	add	x0, sp, #56
	bl	std_io.io.buffer.Buffer.flush
	cbz	w0, .LBB112_284
	ldr	x9, [sp, #1088]
	cmp	x9, #1023
	b.hi	.LBB112_284
.LBB112_227:
	mov	w8, #32
	strb	w8, [x19, x9]
	add	x8, x9, #1
	str	x8, [sp, #1088]
.LBB112_228:
	mov	w8, #32
	ldr	x9, [sp, #1216]
	str	xzr, [x21]
	str	w8, [sp, #1192]
	mov	x8, #-1
	str	wzr, [x21, #8]
	str	x8, [sp, #1208]
	cbnz	x9, .LBB112_309
	ldr	x9, [sp, #1088]
	cmp	x9, #1024
	b.lo	.LBB112_232
	add	x0, sp, #56
	bl	std_io.io.buffer.Buffer.flush
	cbz	w0, .LBB112_284
	ldr	x9, [sp, #1088]
	cmp	x9, #1023
	b.hi	.LBB112_284
.LBB112_232:
	mov	w8, #108
	strb	w8, [x19, x9]
	cmp	x9, #1023
	add	x8, x9, #1
	str	x8, [sp, #1088]
	b.lo	.LBB112_235
	add	x0, sp, #56
	bl	std_io.io.buffer.Buffer.flush
	cbz	w0, .LBB112_284
	ldr	x8, [sp, #1088]
	cmp	x8, #1023
	b.hi	.LBB112_284
.LBB112_235:
	mov	w9, #105
	strb	w9, [x19, x8]
	cmp	x8, #1023
	add	x9, x8, #1
	str	x9, [sp, #1088]
	b.lo	.LBB112_238
	add	x0, sp, #56
	bl	std_io.io.buffer.Buffer.flush
	cbz	w0, .LBB112_284
	ldr	x9, [sp, #1088]
	cmp	x9, #1023
	b.hi	.LBB112_284
.LBB112_238:
	mov	w8, #110
	strb	w8, [x19, x9]
	cmp	x9, #1023
	add	x8, x9, #1
	str	x8, [sp, #1088]
	b.lo	.LBB112_241
	add	x0, sp, #56
	bl	std_io.io.buffer.Buffer.flush
	cbz	w0, .LBB112_284
	ldr	x8, [sp, #1088]
	cmp	x8, #1023
	b.hi	.LBB112_284
.LBB112_241:
	mov	w9, #107
	strb	w9, [x19, x8]
	cmp	x8, #1023
	add	x9, x8, #1
	str	x9, [sp, #1088]
	b.lo	.LBB112_244
	add	x0, sp, #56
	bl	std_io.io.buffer.Buffer.flush
	cbz	w0, .LBB112_284
	ldr	x9, [sp, #1088]
	cmp	x9, #1023
	b.hi	.LBB112_284
.LBB112_244:
	mov	w8, #115
	strb	w8, [x19, x9]
	cmp	x9, #1023
	add	x8, x9, #1
	str	x8, [sp, #1088]
	b.lo	.LBB112_247
	add	x0, sp, #56
	bl	std_io.io.buffer.Buffer.flush
	cbz	w0, .LBB112_284
	ldr	x8, [sp, #1088]
	cmp	x8, #1023
	b.hi	.LBB112_284
.LBB112_247:
	mov	w9, #116
	strb	w9, [x19, x8]
	cmp	x8, #1023
	add	x9, x8, #1
	str	x9, [sp, #1088]
	b.lo	.LBB112_250
	add	x0, sp, #56
	bl	std_io.io.buffer.Buffer.flush
	cbz	w0, .LBB112_284
	ldr	x9, [sp, #1088]
	cmp	x9, #1023
	b.hi	.LBB112_284
.LBB112_250:
	mov	w8, #97
	strb	w8, [x19, x9]
	cmp	x9, #1023
	add	x8, x9, #1
	str	x8, [sp, #1088]
	b.lo	.LBB112_253
	add	x0, sp, #56
	bl	std_io.io.buffer.Buffer.flush
	cbz	w0, .LBB112_284
	ldr	x8, [sp, #1088]
	cmp	x8, #1023
	b.hi	.LBB112_284
.LBB112_253:
	mov	w9, #116
	strb	w9, [x19, x8]
	cmp	x8, #1023
	add	x9, x8, #1
	str	x9, [sp, #1088]
	b.lo	.LBB112_256
	add	x0, sp, #56
	bl	std_io.io.buffer.Buffer.flush
	cbz	w0, .LBB112_284
	ldr	x9, [sp, #1088]
	cmp	x9, #1023
	b.hi	.LBB112_284
.LBB112_256:
	mov	w8, #101
	strb	w8, [x19, x9]
	add	x8, x9, #1
	str	x8, [sp, #1088]
	b	.LBB112_310
.LBB112_257:
	adrp	x0, .Lstatic.2
	add	x0, x0, :lo12:.Lstatic.2
	mov	w1, #16
	bl	line_filter.program.write_text
	mov	w22, w0
	cbnz	x23, .LBB112_28
	b	.LBB112_29
.LBB112_258:
	adrp	x2, .Lstatic.154
	add	x2, x2, :lo12:.Lstatic.154
	mov	x0, x21
	mov	x1, x22
	mov	w3, #9
	bl	core.cmp.text.RefStrPartialEq.eq
	mov	w8, #2
	cmp	w0, #0
	cinc	w8, w8, eq
	b	.LBB112_24
.LBB112_259:
	mov	x0, x21
	mov	x1, x22
	bl	line_filter.program.refuse
	cbz	x23, .LBB112_261
	mov	x0, x21
	bl	rattle_dealloc
.LBB112_261:
	cbz	x25, .LBB112_263
	ldr	x0, [sp, #48]
	bl	rattle_dealloc
.LBB112_263:
	cbz	x27, .LBB112_286
	mov	x0, x20
	b	.LBB112_110
.LBB112_265:
	cbz	x23, .LBB112_267
	mov	x0, x21
	bl	rattle_dealloc
.LBB112_267:
	ldr	x19, [sp, #1232]
	ldr	x20, [sp, #1248]
	cbz	x28, .LBB112_272
	add	x21, x19, #16
	b	.LBB112_270
.LBB112_269:
	subs	x28, x28, #1
	add	x21, x21, #24
	b.eq	.LBB112_272
.LBB112_270:
	ldr	x8, [x21]
	cbz	x8, .LBB112_269
	ldur	x0, [x21, #-16]
	bl	rattle_dealloc
	b	.LBB112_269
.LBB112_272:
	cbz	x20, .LBB112_274
	mov	x0, x19
	bl	rattle_dealloc
.LBB112_274:
	add	x8, sp, #56
	b	.LBB112_201
.LBB112_275:
	bl	rattle_errno
	ldr	x8, [sp, #1248]
	cbz	x8, .LBB112_277
	ldr	x0, [sp, #1232]
	bl	rattle_dealloc
.LBB112_277:
	cbz	x19, .LBB112_279
	mov	x0, x23
	bl	rattle_dealloc
.LBB112_279:
	mov	w24, wzr
	b	.LBB112_190
.LBB112_280:
	ldr	x20, [sp, #16]
	cbz	x26, .LBB112_303
	sub	x0, x29, #48
	add	x3, sp, #1232
	mov	x1, x23
	mov	x2, x26
	bl	line_filter.answers.AnsweringTake.take.19f4c77da892a4d9
	and	w8, w0, #0xff
	tbz	w8, #0, .LBB112_297
	mov	w24, #2
	b	.LBB112_299
.LBB112_283:
	adrp	x1, .Lstatic.6
	add	x1, x1, :lo12:.Lstatic.6
	add	x0, sp, #56
	mov	w2, #6
	bl	core.fmt.formatter.Formatter.write_indented.bf264aed5fa78656
	and	w8, w0, #0xff
	tbz	w8, #0, .LBB112_228
.LBB112_284:
	ldr	q0, [x25]
	ldr	x8, [sp, #1248]
	str	q0, [x20]
	str	x8, [x20, #16]
.LBB112_285:
	ldr	w8, [sp, #56]
	mov	x1, x19
	mov	w2, #1132
	str	w8, [sp, #1232]
	add	x8, sp, #1232
	orr	x0, x8, #0x4
	bl	memcpy
	add	x0, sp, #1232
	bl	std_io.io.buffer.Buffer.flush
.LBB112_286:
	mov	w21, #2
.LBB112_287:
	mov	w0, w21
	add	sp, sp, #2416
	ldp	x20, x19, [sp, #80]
	ldp	x22, x21, [sp, #64]
	ldp	x24, x23, [sp, #48]
	ldp	x26, x25, [sp, #32]
	ldp	x28, x27, [sp, #16]
	ldp	x29, x30, [sp], #96
	ret
.LBB112_288:
	mov	w22, #2
	ldur	x8, [x29, #-32]
	cbz	x8, .LBB112_290
.LBB112_289:
	ldur	x0, [x29, #-48]
	bl	rattle_dealloc
.LBB112_290:
	mov	w0, w23
	mov	w1, w22
	bl	line_filter.program.ended
	ldr	x8, [sp, #40]
	mov	w22, w0
	cbnz	x8, .LBB112_28
	b	.LBB112_29
.LBB112_291:
	mov	w24, w1
	b	.LBB112_113
.LBB112_292:
	ldr	x8, [sp, #1248]
	cbz	x8, .LBB112_294
	ldr	x0, [sp, #1232]
	bl	rattle_dealloc
.LBB112_294:
	ldr	x20, [sp, #16]
	cbz	x19, .LBB112_296
.LBB112_295:
	mov	x0, x23
	bl	rattle_dealloc
.LBB112_296:
	cmp	x22, #0
	mov	x0, x21
	cset	w22, ne
	bl	rattle_dealloc
	mov	w1, wzr
	ldur	x8, [x29, #-32]
	cbnz	x8, .LBB112_95
	b	.LBB112_96
.LBB112_297:
	add	x0, sp, #1232
	bl	line_filter.write.write_out.df9e9f1468b30f79
	tst	w0, #0xff
	b.eq	.LBB112_303
	mov	w24, w1
.LBB112_299:
	ldr	x8, [sp, #1248]
	cbz	x8, .LBB112_301
	ldr	x0, [sp, #1232]
	bl	rattle_dealloc
.LBB112_301:
	cbz	x19, .LBB112_190
	mov	x0, x23
	b	.LBB112_189
.LBB112_303:
	ldr	x8, [sp, #1248]
	cbz	x8, .LBB112_305
	ldr	x0, [sp, #1232]
	bl	rattle_dealloc
.LBB112_305:
	cbnz	x19, .LBB112_295
	b	.LBB112_296
.LBB112_306:
	mov	w22, #2
	b	.LBB112_308
.LBB112_307:
	mov	w22, w1
.LBB112_308:
	ldp	x20, x27, [sp, #16]
	b	.LBB112_340
.LBB112_309:
	adrp	x1, .Lstatic.0
	add	x1, x1, :lo12:.Lstatic.0
	add	x0, sp, #56
	mov	w2, #9
	bl	core.fmt.formatter.Formatter.write_indented.bf264aed5fa78656
	and	w8, w0, #0xff
	tbnz	w8, #0, .LBB112_284
.LBB112_310:
	mov	w8, #32
	ldr	x9, [sp, #1216]
	str	xzr, [x21]
	str	w8, [sp, #1192]
	mov	x8, #-1
	str	wzr, [x21, #8]
	str	x8, [sp, #1208]
	cbnz	x9, .LBB112_376
	ldr	x9, [sp, #1088]
	cmp	x9, #1024
	b.lo	.LBB112_314
	add	x0, sp, #56
	bl	std_io.io.buffer.Buffer.flush
	cbz	w0, .LBB112_284
	ldr	x9, [sp, #1088]
	cmp	x9, #1023
	b.hi	.LBB112_284
.LBB112_314:
	mov	w8, #32
	strb	w8, [x19, x9]
	cmp	x9, #1023
	add	x8, x9, #1
	str	x8, [sp, #1088]
	b.lo	.LBB112_317
	add	x0, sp, #56
	bl	std_io.io.buffer.Buffer.flush
	cbz	w0, .LBB112_284
	ldr	x8, [sp, #1088]
	cmp	x8, #1023
	b.hi	.LBB112_284
.LBB112_317:
	mov	w22, #45
	add	x9, x8, #1
	cmp	x8, #1023
	strb	w22, [x19, x8]
	str	x9, [sp, #1088]
	b.lo	.LBB112_320
	add	x0, sp, #56
	bl	std_io.io.buffer.Buffer.flush
	cbz	w0, .LBB112_284
	ldr	x9, [sp, #1088]
	cmp	x9, #1023
	b.hi	.LBB112_284
.LBB112_320:
	add	x8, x9, #1
	cmp	x9, #1023
	strb	w22, [x19, x9]
	str	x8, [sp, #1088]
	b.lo	.LBB112_323
	add	x0, sp, #56
	bl	std_io.io.buffer.Buffer.flush
	cbz	w0, .LBB112_284
	ldr	x8, [sp, #1088]
	cmp	x8, #1023
	b.hi	.LBB112_284
.LBB112_323:
	mov	w9, #104
	strb	w9, [x19, x8]
	cmp	x8, #1023
	add	x9, x8, #1
	str	x9, [sp, #1088]
	b.lo	.LBB112_326
	add	x0, sp, #56
	bl	std_io.io.buffer.Buffer.flush
	cbz	w0, .LBB112_284
	ldr	x9, [sp, #1088]
	cmp	x9, #1023
	b.hi	.LBB112_284
.LBB112_326:
	mov	w8, #101
	strb	w8, [x19, x9]
	cmp	x9, #1023
	add	x8, x9, #1
	str	x8, [sp, #1088]
	b.lo	.LBB112_329
	add	x0, sp, #56
	bl	std_io.io.buffer.Buffer.flush
	cbz	w0, .LBB112_284
	ldr	x8, [sp, #1088]
	cmp	x8, #1023
	b.hi	.LBB112_284
.LBB112_329:
	mov	w9, #108
	strb	w9, [x19, x8]
	cmp	x8, #1023
	add	x9, x8, #1
	str	x9, [sp, #1088]
	b.lo	.LBB112_332
	add	x0, sp, #56
	bl	std_io.io.buffer.Buffer.flush
	cbz	w0, .LBB112_284
	ldr	x9, [sp, #1088]
	cmp	x9, #1023
	b.hi	.LBB112_284
.LBB112_332:
	mov	w8, #112
	strb	w8, [x19, x9]
	ldr	q0, [x25]
	add	x8, x9, #1
	ldr	x9, [sp, #1248]
	str	x8, [sp, #1088]
	str	q0, [x20]
	str	x9, [x20, #16]
.LBB112_333:
	mov	w8, #32
	ldr	x9, [x20, #16]
	ldr	q0, [x20]
	str	w8, [sp, #1192]
	ldr	x8, [sp, #1216]
	str	x9, [sp, #1248]
	mov	x9, #-1
	str	q0, [x25]
	str	xzr, [x21]
	str	wzr, [x21, #8]
	str	x9, [sp, #1208]
	cbnz	x8, .LBB112_377
	ldr	x8, [sp, #1088]
	cmp	x8, #1024
	b.lo	.LBB112_337
	add	x0, sp, #56
	bl	std_io.io.buffer.Buffer.flush
	cbz	w0, .LBB112_284
	ldr	x8, [sp, #1088]
	cmp	x8, #1023
	b.hi	.LBB112_284
.LBB112_337:
	mov	w9, #10
	strb	w9, [x19, x8]
	add	x8, x8, #1
	str	x8, [sp, #1088]
	b	.LBB112_284
.LBB112_338:
	ldr	x20, [sp, #16]
	mov	w22, #2
	b	.LBB112_340
.LBB112_339:
	ldr	x20, [sp, #16]
	mov	w22, w1
.LBB112_340:
	ldr	x25, [sp, #32]
	ldr	x26, [sp, #8]
	ldr	x8, [sp, #1248]
	cbz	x8, .LBB112_342
	ldr	x0, [sp, #1232]
	bl	rattle_dealloc
.LBB112_342:
	ldr	x8, [sp, #72]
	cbz	x8, .LBB112_345
	ldr	x0, [sp, #56]
.LBB112_344:
	bl	rattle_dealloc
.LBB112_345:
	mov	x0, x26
	bl	rattle_dealloc
	mov	w23, #1
	ldur	x8, [x29, #-32]
	cbnz	x8, .LBB112_289
	b	.LBB112_290
.LBB112_346:
	cbz	x23, .LBB112_348
	mov	x0, x21
	bl	rattle_dealloc
.LBB112_348:
	ldr	x20, [sp, #1240]
	ldr	x19, [sp, #1232]
	ldr	x21, [sp, #1248]
	cbz	x20, .LBB112_353
	add	x22, x19, #16
	b	.LBB112_351
.LBB112_350:
	subs	x20, x20, #1
	add	x22, x22, #24
	b.eq	.LBB112_353
.LBB112_351:
	ldr	x8, [x22]
	cbz	x8, .LBB112_350
	ldur	x0, [x22, #-16]
	bl	rattle_dealloc
	b	.LBB112_350
.LBB112_353:
	cbnz	x21, .LBB112_199
	b	.LBB112_200
.LBB112_354:
	bl	rattle_errno
	ldr	x8, [sp, #1248]
	cbz	x8, .LBB112_356
	ldr	x0, [sp, #1232]
	bl	rattle_dealloc
.LBB112_356:
	ldp	x20, x27, [sp, #16]
	cbz	x19, .LBB112_358
	mov	x0, x24
	bl	rattle_dealloc
.LBB112_358:
	mov	w22, wzr
	mov	x0, x26
	bl	rattle_dealloc
	mov	w23, #1
	ldur	x8, [x29, #-32]
	cbnz	x8, .LBB112_289
	b	.LBB112_290
.LBB112_359:
	ldr	x20, [sp, #16]
	ldr	x25, [sp, #32]
	cbz	x27, .LBB112_371
	sub	x0, x29, #48
	add	x3, sp, #1232
	mov	x1, x24
	mov	x2, x27
	bl	line_filter.answers.AnsweringTake.take.d1b9b744fe2e7f64
	and	w8, w0, #0xff
	tbz	w8, #0, .LBB112_365
	mov	w22, #2
	b	.LBB112_367
.LBB112_362:
	ldr	x8, [sp, #1248]
	cbz	x8, .LBB112_364
	ldr	x0, [sp, #1232]
	bl	rattle_dealloc
.LBB112_364:
	ldr	x20, [sp, #16]
	b	.LBB112_373
.LBB112_365:
	add	x0, sp, #1232
	bl	line_filter.write.write_out.df9e9f1468b30f79
	tst	w0, #0xff
	b.eq	.LBB112_371
	mov	w22, w1
.LBB112_367:
	ldr	x8, [sp, #1248]
	ldr	x27, [sp, #24]
	cbz	x8, .LBB112_369
	ldr	x0, [sp, #1232]
	bl	rattle_dealloc
.LBB112_369:
	cbz	x19, .LBB112_345
	mov	x0, x24
	b	.LBB112_344
.LBB112_371:
	ldr	x8, [sp, #1248]
	cbz	x8, .LBB112_373
	ldr	x0, [sp, #1232]
	bl	rattle_dealloc
.LBB112_373:
	ldr	x27, [sp, #24]
	cbz	x19, .LBB112_375
	mov	x0, x24
	bl	rattle_dealloc
.LBB112_375:
	cmp	x23, #0
	mov	x0, x26
	cset	w23, ne
	bl	rattle_dealloc
	mov	w22, wzr
	ldur	x8, [x29, #-32]
	cbnz	x8, .LBB112_289
	b	.LBB112_290
.LBB112_376:
	adrp	x1, .Lstatic.7
	add	x1, x1, :lo12:.Lstatic.7
	add	x0, sp, #56
	mov	w2, #7
	bl	core.fmt.formatter.Formatter.write_indented.bf264aed5fa78656
	ldr	q0, [x25]
	ldr	x8, [sp, #1248]
	and	w9, w0, #0xff
	str	q0, [x20]
	str	x8, [x20, #16]
	tbnz	w9, #0, .LBB112_285
	b	.LBB112_333
.LBB112_377:
	adrp	x1, .Lstatic.8
	add	x1, x1, :lo12:.Lstatic.8
	add	x0, sp, #56
	mov	w2, #1
	bl	core.fmt.formatter.Formatter.write_indented.bf264aed5fa78656
	b	.LBB112_284
.Lfunc_end112:
	.size	main, .Lfunc_end112-main

	.type	.Lstatic.0,@object
	.section	.rodata..Lstatic.0,"a",@progbits
.Lstatic.0:
	.ascii	"linkstate"
	.size	.Lstatic.0, 9

	.type	.Lstatic.1,@object
	.section	.rodata..Lstatic.1,"a",@progbits
.Lstatic.1:
	.ascii	"usage: linkstate [--lenient | --help | --version]\n\nReads lines of hexadecimal digits from standard input, each the bytes of a link message of route netlink, and writes\nfor each line one answer: ok and the state encoding of the message, which is its canonical encoding with all that moves\nby itself at zero; nothex for a line that is no bytes; refused for bytes that are no message; unfit for a message that\ncannot be written; empty-ports for one with an empty list of ports. Words key=value in front of the digits, with blanks\nbetween, are written in front of the answer as they stand, and alone where no digits follow them. A word ok right before\nthe digits is passed over.\n\n  --lenient   bytes are a message as far as their attributes fit: one whose payload is refused is kept as it is\n  -h, --help  this text\n  --version   the version\n"
	.size	.Lstatic.1, 838

	.type	.Lstatic.2,@object
	.section	.rodata.cst16,"aM",@progbits,16
.Lstatic.2:
	.ascii	"linkstate 0.4.0\n"
	.size	.Lstatic.2, 16

	.type	.Lstatic.3,@object
	.section	.rodata..Lstatic.3,"a",@progbits
.Lstatic.3:
	.size	.Lstatic.3, 0

	.type	.Lstatic.4,@object
	.section	.rodata..Lstatic.4,"a",@progbits
.Lstatic.4:
	.ascii	"an argument is no UTF-8"
	.size	.Lstatic.4, 23

	.type	.Lstatic.6,@object
	.section	.rodata..Lstatic.6,"a",@progbits
.Lstatic.6:
	.ascii	"; see "
	.size	.Lstatic.6, 6

	.type	.Lstatic.7,@object
	.section	.rodata..Lstatic.7,"a",@progbits
.Lstatic.7:
	.ascii	" --help"
	.size	.Lstatic.7, 7

	.type	.Lstatic.8,@object
	.section	.rodata..Lstatic.8,"a",@progbits
.Lstatic.8:
	.byte	10
	.size	.Lstatic.8, 1

	.type	.Lstatic.10,@object
	.section	.rodata.cst4,"aM",@progbits,4
.Lstatic.10:
	.zero	4,32
	.size	.Lstatic.10, 4

	.type	.Lstatic.12,@object
	.section	.rodata..Lstatic.12,"a",@progbits
.Lstatic.12:
	.ascii	": out of memory"
	.size	.Lstatic.12, 15

	.type	.Lstatic.13,@object
	.section	.rodata..Lstatic.13,"a",@progbits
.Lstatic.13:
	.ascii	"ok "
	.size	.Lstatic.13, 3

	.type	.Lstatic.14,@object
	.section	.rodata..Lstatic.14,"a",@progbits
.Lstatic.14:
	.ascii	"nothex\n"
	.size	.Lstatic.14, 7

	.type	.Lstatic.15,@object
	.section	.rodata..Lstatic.15,"a",@progbits
.Lstatic.15:
	.ascii	"\377\377\377\377\377\377\377\377\377\377\377\377\377\377\377\377\377\377\377\377\377\377\377\377\377\377\377\377\377\377\377\377\377\377\377\377\377\377\377\377\377\377\377\377\377\377\377\377\000\001\002\003\004\005\006\007\b\t\377\377\377\377\377\377\377\n\013\f\r\016\017\377\377\377\377\377\377\377\377\377\377\377\377\377\377\377\377\377\377\377\377\377\377\377\377\377\377\n\013\f\r\016\017\377\377\377\377\377\377\377\377\377\377\377\377\377\377\377\377\377\377\377\377\377\377\377\377\377\377\377\377\377\377\377\377\377\377\377\377\377\377\377\377\377\377\377\377\377\377\377\377\377\377\377\377\377\377\377\377\377\377\377\377\377\377\377\377\377\377\377\377\377\377\377\377\377\377\377\377\377\377\377\377\377\377\377\377\377\377\377\377\377\377\377\377\377\377\377\377\377\377\377\377\377\377\377\377\377\377\377\377\377\377\377\377\377\377\377\377\377\377\377\377\377\377\377\377\377\377\377\377\377\377\377\377\377\377\377\377\377\377\377\377\377\377\377\377\377\377\377\377\377\377\377\377\377"
	.size	.Lstatic.15, 256

	.type	.Lstatic.17,@object
	.section	.rodata..Lstatic.17,"a",@progbits
.Lstatic.17:
	.ascii	"unfit\n"
	.size	.Lstatic.17, 6

	.type	.Lstatic.18,@object
	.section	.rodata..Lstatic.18,"a",@progbits
.Lstatic.18:
	.ascii	"empty-ports\n"
	.size	.Lstatic.18, 12

	.type	.Lstatic.19,@object
	.section	.rodata..Lstatic.19,"a",@progbits
.Lstatic.19:
	.ascii	"header"
	.size	.Lstatic.19, 6

	.type	.Lstatic.20,@object
	.section	.rodata..Lstatic.20,"a",@progbits
.Lstatic.20:
	.ascii	"payload"
	.size	.Lstatic.20, 7

	.type	.Lstatic.21,@object
	.section	.rodata..Lstatic.21,"a",@progbits
.Lstatic.21:
	.ascii	"message"
	.size	.Lstatic.21, 7

	.type	.Lstatic.22,@object
	.section	.rodata..Lstatic.22,"a",@progbits
.Lstatic.22:
	.ascii	"IFLA_INFO_KIND"
	.size	.Lstatic.22, 14

	.type	.Lstatic.23,@object
	.section	.rodata..Lstatic.23,"a",@progbits
.Lstatic.23:
	.ascii	"IFLA_VF_STATS_RX_PACKETS"
	.size	.Lstatic.23, 24

	.type	.Lstatic.24,@object
	.section	.rodata..Lstatic.24,"a",@progbits
.Lstatic.24:
	.ascii	"IFLA_VF_STATS_TX_PACKETS"
	.size	.Lstatic.24, 24

	.type	.Lstatic.25,@object
	.section	.rodata..Lstatic.25,"a",@progbits
.Lstatic.25:
	.ascii	"IFLA_VF_STATS_RX_BYTES"
	.size	.Lstatic.25, 22

	.type	.Lstatic.26,@object
	.section	.rodata..Lstatic.26,"a",@progbits
.Lstatic.26:
	.ascii	"IFLA_VF_STATS_TX_BYTES"
	.size	.Lstatic.26, 22

	.type	.Lstatic.27,@object
	.section	.rodata..Lstatic.27,"a",@progbits
.Lstatic.27:
	.ascii	"IFLA_VF_STATS_BROADCAST"
	.size	.Lstatic.27, 23

	.type	.Lstatic.28,@object
	.section	.rodata..Lstatic.28,"a",@progbits
.Lstatic.28:
	.ascii	"IFLA_VF_STATS_MULTICAST"
	.size	.Lstatic.28, 23

	.type	.Lstatic.29,@object
	.section	.rodata..Lstatic.29,"a",@progbits
.Lstatic.29:
	.ascii	"IFLA_VF_STATS_RX_DROPPED"
	.size	.Lstatic.29, 24

	.type	.Lstatic.30,@object
	.section	.rodata..Lstatic.30,"a",@progbits
.Lstatic.30:
	.ascii	"IFLA_VF_STATS_TX_DROPPED"
	.size	.Lstatic.30, 24

	.type	.Lstatic.31,@object
	.section	.rodata..Lstatic.31,"a",@progbits
.Lstatic.31:
	.ascii	"IFLA_VF_VLAN_INFO"
	.size	.Lstatic.31, 17

	.type	.Lstatic.32,@object
	.section	.rodata..Lstatic.32,"a",@progbits
.Lstatic.32:
	.ascii	"IFLA_VF_MAC"
	.size	.Lstatic.32, 11

	.type	.Lstatic.33,@object
	.section	.rodata..Lstatic.33,"a",@progbits
.Lstatic.33:
	.ascii	"IFLA_VF_VLAN"
	.size	.Lstatic.33, 12

	.type	.Lstatic.34,@object
	.section	.rodata..Lstatic.34,"a",@progbits
.Lstatic.34:
	.ascii	"IFLA_VF_TX_RATE"
	.size	.Lstatic.34, 15

	.type	.Lstatic.35,@object
	.section	.rodata.cst16,"aM",@progbits,16
.Lstatic.35:
	.ascii	"IFLA_VF_SPOOFCHK"
	.size	.Lstatic.35, 16

	.type	.Lstatic.36,@object
	.section	.rodata..Lstatic.36,"a",@progbits
.Lstatic.36:
	.ascii	"IFLA_VF_LINK_STATE"
	.size	.Lstatic.36, 18

	.type	.Lstatic.37,@object
	.section	.rodata..Lstatic.37,"a",@progbits
.Lstatic.37:
	.ascii	"IFLA_VF_RATE"
	.size	.Lstatic.37, 12

	.type	.Lstatic.38,@object
	.section	.rodata..Lstatic.38,"a",@progbits
.Lstatic.38:
	.ascii	"IFLA_VF_RSS_QUERY_EN"
	.size	.Lstatic.38, 20

	.type	.Lstatic.39,@object
	.section	.rodata..Lstatic.39,"a",@progbits
.Lstatic.39:
	.ascii	"IFLA_VF_STATS"
	.size	.Lstatic.39, 13

	.type	.Lstatic.40,@object
	.section	.rodata..Lstatic.40,"a",@progbits
.Lstatic.40:
	.ascii	"IFLA_VF_TRUST"
	.size	.Lstatic.40, 13

	.type	.Lstatic.41,@object
	.section	.rodata..Lstatic.41,"a",@progbits
.Lstatic.41:
	.ascii	"IFLA_VF_IB_NODE_GUID"
	.size	.Lstatic.41, 20

	.type	.Lstatic.42,@object
	.section	.rodata..Lstatic.42,"a",@progbits
.Lstatic.42:
	.ascii	"IFLA_VF_IB_PORT_GUID"
	.size	.Lstatic.42, 20

	.type	.Lstatic.43,@object
	.section	.rodata..Lstatic.43,"a",@progbits
.Lstatic.43:
	.ascii	"IFLA_VF_VLAN_LIST"
	.size	.Lstatic.43, 17

	.type	.Lstatic.44,@object
	.section	.rodata..Lstatic.44,"a",@progbits
.Lstatic.44:
	.ascii	"IFLA_VF_BROADCAST"
	.size	.Lstatic.44, 17

	.type	.Lstatic.45,@object
	.section	.rodata..Lstatic.45,"a",@progbits
.Lstatic.45:
	.ascii	"IFLA_VF_INFO"
	.size	.Lstatic.45, 12

	.type	.Lstatic.46,@object
	.section	.rodata..Lstatic.46,"a",@progbits
.Lstatic.46:
	.ascii	"IFLA_VF_PORT"
	.size	.Lstatic.46, 12

	.type	.Lstatic.47,@object
	.section	.rodata..Lstatic.47,"a",@progbits
.Lstatic.47:
	.ascii	"IFLA_XDP_FD"
	.size	.Lstatic.47, 11

	.type	.Lstatic.48,@object
	.section	.rodata..Lstatic.48,"a",@progbits
.Lstatic.48:
	.ascii	"IFLA_XDP_ATTACHED"
	.size	.Lstatic.48, 17

	.type	.Lstatic.49,@object
	.section	.rodata..Lstatic.49,"a",@progbits
.Lstatic.49:
	.ascii	"IFLA_XDP_FLAGS"
	.size	.Lstatic.49, 14

	.type	.Lstatic.50,@object
	.section	.rodata.cst16,"aM",@progbits,16
.Lstatic.50:
	.ascii	"IFLA_XDP_PROG_ID"
	.size	.Lstatic.50, 16

	.type	.Lstatic.51,@object
	.section	.rodata..Lstatic.51,"a",@progbits
.Lstatic.51:
	.ascii	"IFLA_XDP_DRV_PROG_ID"
	.size	.Lstatic.51, 20

	.type	.Lstatic.52,@object
	.section	.rodata..Lstatic.52,"a",@progbits
.Lstatic.52:
	.ascii	"IFLA_XDP_SKB_PROG_ID"
	.size	.Lstatic.52, 20

	.type	.Lstatic.53,@object
	.section	.rodata..Lstatic.53,"a",@progbits
.Lstatic.53:
	.ascii	"IFLA_XDP_HW_PROG_ID"
	.size	.Lstatic.53, 19

	.type	.Lstatic.54,@object
	.section	.rodata..Lstatic.54,"a",@progbits
.Lstatic.54:
	.ascii	"IFLA_XDP_EXPECTED_FD"
	.size	.Lstatic.54, 20

	.type	.Lstatic.55,@object
	.section	.rodata..Lstatic.55,"a",@progbits
.Lstatic.55:
	.ascii	"IFLA_ALT_IFNAME"
	.size	.Lstatic.55, 15

	.type	.Lstatic.56,@object
	.section	.rodata..Lstatic.56,"a",@progbits
.Lstatic.56:
	.ascii	"IFLA_PROTO_DOWN_REASON_MASK"
	.size	.Lstatic.56, 27

	.type	.Lstatic.57,@object
	.section	.rodata..Lstatic.57,"a",@progbits
.Lstatic.57:
	.ascii	"IFLA_PROTO_DOWN_REASON_VALUE"
	.size	.Lstatic.57, 28

	.type	.Lstatic.58,@object
	.section	.rodata..Lstatic.58,"a",@progbits
.Lstatic.58:
	.ascii	"DEVLINK_ATTR_BUS_NAME"
	.size	.Lstatic.58, 21

	.type	.Lstatic.59,@object
	.section	.rodata..Lstatic.59,"a",@progbits
.Lstatic.59:
	.ascii	"DEVLINK_ATTR_DEV_NAME"
	.size	.Lstatic.59, 21

	.type	.Lstatic.60,@object
	.section	.rodata..Lstatic.60,"a",@progbits
.Lstatic.60:
	.ascii	"DEVLINK_ATTR_PORT_INDEX"
	.size	.Lstatic.60, 23

	.type	.Lstatic.61,@object
	.section	.rodata..Lstatic.61,"a",@progbits
.Lstatic.61:
	.ascii	"DPLL_A_PIN_ID"
	.size	.Lstatic.61, 13

	.type	.Lstatic.63,@object
	.section	.rodata.cst16,"aM",@progbits,16
.Lstatic.63:
	.ascii	"IFLA_INET6_FLAGS"
	.size	.Lstatic.63, 16

	.type	.Lstatic.64,@object
	.section	.rodata..Lstatic.64,"a",@progbits
.Lstatic.64:
	.ascii	"IFLA_INET6_CACHEINFO"
	.size	.Lstatic.64, 20

	.type	.Lstatic.68,@object
	.section	.rodata.cst16,"aM",@progbits,16
.Lstatic.68:
	.ascii	"IFLA_INET6_TOKEN"
	.size	.Lstatic.68, 16

	.type	.Lstatic.69,@object
	.section	.rodata..Lstatic.69,"a",@progbits
.Lstatic.69:
	.ascii	"IFLA_INET6_ADDR_GEN_MODE"
	.size	.Lstatic.69, 24

	.type	.Lstatic.70,@object
	.section	.rodata..Lstatic.70,"a",@progbits
.Lstatic.70:
	.ascii	"IFLA_INET6_RA_MTU"
	.size	.Lstatic.70, 17

	.type	.Lstatic.71,@object
	.section	.rodata..Lstatic.71,"a",@progbits
.Lstatic.71:
	.ascii	"IFLA_MCTP_NET"
	.size	.Lstatic.71, 13

	.type	.Lstatic.72,@object
	.section	.rodata..Lstatic.72,"a",@progbits
.Lstatic.72:
	.ascii	"IFLA_MCTP_PHYS_BINDING"
	.size	.Lstatic.72, 22

	.type	.Lstatic.73,@object
	.section	.rodata..Lstatic.73,"a",@progbits
.Lstatic.73:
	.ascii	"AF_INET"
	.size	.Lstatic.73, 7

	.type	.Lstatic.74,@object
	.section	.rodata.cst8,"aM",@progbits,8
.Lstatic.74:
	.ascii	"AF_INET6"
	.size	.Lstatic.74, 8

	.type	.Lstatic.75,@object
	.section	.rodata..Lstatic.75,"a",@progbits
.Lstatic.75:
	.ascii	"AF_MCTP"
	.size	.Lstatic.75, 7

	.type	.Lstatic.76,@object
	.section	.rodata..Lstatic.76,"a",@progbits
.Lstatic.76:
	.ascii	"IFLA_ADDRESS"
	.size	.Lstatic.76, 12

	.type	.Lstatic.77,@object
	.section	.rodata..Lstatic.77,"a",@progbits
.Lstatic.77:
	.ascii	"IFLA_BROADCAST"
	.size	.Lstatic.77, 14

	.type	.Lstatic.78,@object
	.section	.rodata..Lstatic.78,"a",@progbits
.Lstatic.78:
	.ascii	"IFLA_IFNAME"
	.size	.Lstatic.78, 11

	.type	.Lstatic.79,@object
	.section	.rodata..Lstatic.79,"a",@progbits
.Lstatic.79:
	.ascii	"IFLA_MTU"
	.size	.Lstatic.79, 8

	.type	.Lstatic.80,@object
	.section	.rodata..Lstatic.80,"a",@progbits
.Lstatic.80:
	.ascii	"IFLA_LINK"
	.size	.Lstatic.80, 9

	.type	.Lstatic.81,@object
	.section	.rodata..Lstatic.81,"a",@progbits
.Lstatic.81:
	.ascii	"IFLA_QDISC"
	.size	.Lstatic.81, 10

	.type	.Lstatic.82,@object
	.section	.rodata..Lstatic.82,"a",@progbits
.Lstatic.82:
	.ascii	"IFLA_STATS"
	.size	.Lstatic.82, 10

	.type	.Lstatic.83,@object
	.section	.rodata..Lstatic.83,"a",@progbits
.Lstatic.83:
	.ascii	"IFLA_MASTER"
	.size	.Lstatic.83, 11

	.type	.Lstatic.84,@object
	.section	.rodata..Lstatic.84,"a",@progbits
.Lstatic.84:
	.ascii	"IFLA_WIRELESS"
	.size	.Lstatic.84, 13

	.type	.Lstatic.85,@object
	.section	.rodata..Lstatic.85,"a",@progbits
.Lstatic.85:
	.ascii	"IFLA_PROTINFO"
	.size	.Lstatic.85, 13

	.type	.Lstatic.86,@object
	.section	.rodata..Lstatic.86,"a",@progbits
.Lstatic.86:
	.ascii	"IFLA_TXQLEN"
	.size	.Lstatic.86, 11

	.type	.Lstatic.87,@object
	.section	.rodata..Lstatic.87,"a",@progbits
.Lstatic.87:
	.ascii	"IFLA_MAP"
	.size	.Lstatic.87, 8

	.type	.Lstatic.88,@object
	.section	.rodata..Lstatic.88,"a",@progbits
.Lstatic.88:
	.ascii	"IFLA_OPERSTATE"
	.size	.Lstatic.88, 14

	.type	.Lstatic.89,@object
	.section	.rodata..Lstatic.89,"a",@progbits
.Lstatic.89:
	.ascii	"IFLA_LINKMODE"
	.size	.Lstatic.89, 13

	.type	.Lstatic.90,@object
	.section	.rodata..Lstatic.90,"a",@progbits
.Lstatic.90:
	.ascii	"IFLA_LINKINFO"
	.size	.Lstatic.90, 13

	.type	.Lstatic.91,@object
	.section	.rodata..Lstatic.91,"a",@progbits
.Lstatic.91:
	.ascii	"IFLA_NET_NS_PID"
	.size	.Lstatic.91, 15

	.type	.Lstatic.92,@object
	.section	.rodata..Lstatic.92,"a",@progbits
.Lstatic.92:
	.ascii	"IFLA_IFALIAS"
	.size	.Lstatic.92, 12

	.type	.Lstatic.93,@object
	.section	.rodata..Lstatic.93,"a",@progbits
.Lstatic.93:
	.ascii	"IFLA_NUM_VF"
	.size	.Lstatic.93, 11

	.type	.Lstatic.94,@object
	.section	.rodata..Lstatic.94,"a",@progbits
.Lstatic.94:
	.ascii	"IFLA_VFINFO_LIST"
	.size	.Lstatic.94, 16

	.type	.Lstatic.95,@object
	.section	.rodata..Lstatic.95,"a",@progbits
.Lstatic.95:
	.ascii	"IFLA_STATS64"
	.size	.Lstatic.95, 12

	.type	.Lstatic.96,@object
	.section	.rodata..Lstatic.96,"a",@progbits
.Lstatic.96:
	.ascii	"IFLA_VF_PORTS"
	.size	.Lstatic.96, 13

	.type	.Lstatic.97,@object
	.section	.rodata..Lstatic.97,"a",@progbits
.Lstatic.97:
	.ascii	"IFLA_PORT_SELF"
	.size	.Lstatic.97, 14

	.type	.Lstatic.98,@object
	.section	.rodata..Lstatic.98,"a",@progbits
.Lstatic.98:
	.ascii	"IFLA_AF_SPEC"
	.size	.Lstatic.98, 12

	.type	.Lstatic.99,@object
	.section	.rodata..Lstatic.99,"a",@progbits
.Lstatic.99:
	.ascii	"IFLA_GROUP"
	.size	.Lstatic.99, 10

	.type	.Lstatic.100,@object
	.section	.rodata..Lstatic.100,"a",@progbits
.Lstatic.100:
	.ascii	"IFLA_NET_NS_FD"
	.size	.Lstatic.100, 14

	.type	.Lstatic.101,@object
	.section	.rodata..Lstatic.101,"a",@progbits
.Lstatic.101:
	.ascii	"IFLA_EXT_MASK"
	.size	.Lstatic.101, 13

	.type	.Lstatic.102,@object
	.section	.rodata..Lstatic.102,"a",@progbits
.Lstatic.102:
	.ascii	"IFLA_PROMISCUITY"
	.size	.Lstatic.102, 16

	.type	.Lstatic.103,@object
	.section	.rodata..Lstatic.103,"a",@progbits
.Lstatic.103:
	.ascii	"IFLA_NUM_TX_QUEUES"
	.size	.Lstatic.103, 18

	.type	.Lstatic.104,@object
	.section	.rodata..Lstatic.104,"a",@progbits
.Lstatic.104:
	.ascii	"IFLA_NUM_RX_QUEUES"
	.size	.Lstatic.104, 18

	.type	.Lstatic.105,@object
	.section	.rodata..Lstatic.105,"a",@progbits
.Lstatic.105:
	.ascii	"IFLA_CARRIER"
	.size	.Lstatic.105, 12

	.type	.Lstatic.106,@object
	.section	.rodata..Lstatic.106,"a",@progbits
.Lstatic.106:
	.ascii	"IFLA_PHYS_PORT_ID"
	.size	.Lstatic.106, 17

	.type	.Lstatic.107,@object
	.section	.rodata..Lstatic.107,"a",@progbits
.Lstatic.107:
	.ascii	"IFLA_CARRIER_CHANGES"
	.size	.Lstatic.107, 20

	.type	.Lstatic.108,@object
	.section	.rodata..Lstatic.108,"a",@progbits
.Lstatic.108:
	.ascii	"IFLA_PHYS_SWITCH_ID"
	.size	.Lstatic.108, 19

	.type	.Lstatic.109,@object
	.section	.rodata..Lstatic.109,"a",@progbits
.Lstatic.109:
	.ascii	"IFLA_LINK_NETNSID"
	.size	.Lstatic.109, 17

	.type	.Lstatic.110,@object
	.section	.rodata..Lstatic.110,"a",@progbits
.Lstatic.110:
	.ascii	"IFLA_PHYS_PORT_NAME"
	.size	.Lstatic.110, 19

	.type	.Lstatic.111,@object
	.section	.rodata..Lstatic.111,"a",@progbits
.Lstatic.111:
	.ascii	"IFLA_PROTO_DOWN"
	.size	.Lstatic.111, 15

	.type	.Lstatic.112,@object
	.section	.rodata..Lstatic.112,"a",@progbits
.Lstatic.112:
	.ascii	"IFLA_GSO_MAX_SEGS"
	.size	.Lstatic.112, 17

	.type	.Lstatic.113,@object
	.section	.rodata..Lstatic.113,"a",@progbits
.Lstatic.113:
	.ascii	"IFLA_GSO_MAX_SIZE"
	.size	.Lstatic.113, 17

	.type	.Lstatic.114,@object
	.section	.rodata..Lstatic.114,"a",@progbits
.Lstatic.114:
	.ascii	"IFLA_XDP"
	.size	.Lstatic.114, 8

	.type	.Lstatic.115,@object
	.section	.rodata..Lstatic.115,"a",@progbits
.Lstatic.115:
	.ascii	"IFLA_EVENT"
	.size	.Lstatic.115, 10

	.type	.Lstatic.116,@object
	.section	.rodata..Lstatic.116,"a",@progbits
.Lstatic.116:
	.ascii	"IFLA_NEW_NETNSID"
	.size	.Lstatic.116, 16

	.type	.Lstatic.117,@object
	.section	.rodata..Lstatic.117,"a",@progbits
.Lstatic.117:
	.ascii	"IFLA_IF_NETNSID"
	.size	.Lstatic.117, 15

	.type	.Lstatic.118,@object
	.section	.rodata..Lstatic.118,"a",@progbits
.Lstatic.118:
	.ascii	"IFLA_CARRIER_UP_COUNT"
	.size	.Lstatic.118, 21

	.type	.Lstatic.119,@object
	.section	.rodata..Lstatic.119,"a",@progbits
.Lstatic.119:
	.ascii	"IFLA_CARRIER_DOWN_COUNT"
	.size	.Lstatic.119, 23

	.type	.Lstatic.120,@object
	.section	.rodata..Lstatic.120,"a",@progbits
.Lstatic.120:
	.ascii	"IFLA_NEW_IFINDEX"
	.size	.Lstatic.120, 16

	.type	.Lstatic.121,@object
	.section	.rodata..Lstatic.121,"a",@progbits
.Lstatic.121:
	.ascii	"IFLA_MIN_MTU"
	.size	.Lstatic.121, 12

	.type	.Lstatic.122,@object
	.section	.rodata..Lstatic.122,"a",@progbits
.Lstatic.122:
	.ascii	"IFLA_MAX_MTU"
	.size	.Lstatic.122, 12

	.type	.Lstatic.123,@object
	.section	.rodata..Lstatic.123,"a",@progbits
.Lstatic.123:
	.ascii	"IFLA_PROP_LIST"
	.size	.Lstatic.123, 14

	.type	.Lstatic.124,@object
	.section	.rodata..Lstatic.124,"a",@progbits
.Lstatic.124:
	.ascii	"IFLA_PERM_ADDRESS"
	.size	.Lstatic.124, 17

	.type	.Lstatic.125,@object
	.section	.rodata..Lstatic.125,"a",@progbits
.Lstatic.125:
	.ascii	"IFLA_PROTO_DOWN_REASON"
	.size	.Lstatic.125, 22

	.type	.Lstatic.126,@object
	.section	.rodata..Lstatic.126,"a",@progbits
.Lstatic.126:
	.ascii	"IFLA_PARENT_DEV_NAME"
	.size	.Lstatic.126, 20

	.type	.Lstatic.127,@object
	.section	.rodata..Lstatic.127,"a",@progbits
.Lstatic.127:
	.ascii	"IFLA_PARENT_DEV_BUS_NAME"
	.size	.Lstatic.127, 24

	.type	.Lstatic.128,@object
	.section	.rodata..Lstatic.128,"a",@progbits
.Lstatic.128:
	.ascii	"IFLA_GRO_MAX_SIZE"
	.size	.Lstatic.128, 17

	.type	.Lstatic.129,@object
	.section	.rodata..Lstatic.129,"a",@progbits
.Lstatic.129:
	.ascii	"IFLA_TSO_MAX_SIZE"
	.size	.Lstatic.129, 17

	.type	.Lstatic.130,@object
	.section	.rodata..Lstatic.130,"a",@progbits
.Lstatic.130:
	.ascii	"IFLA_TSO_MAX_SEGS"
	.size	.Lstatic.130, 17

	.type	.Lstatic.131,@object
	.section	.rodata..Lstatic.131,"a",@progbits
.Lstatic.131:
	.ascii	"IFLA_ALLMULTI"
	.size	.Lstatic.131, 13

	.type	.Lstatic.132,@object
	.section	.rodata..Lstatic.132,"a",@progbits
.Lstatic.132:
	.ascii	"IFLA_DEVLINK_PORT"
	.size	.Lstatic.132, 17

	.type	.Lstatic.133,@object
	.section	.rodata..Lstatic.133,"a",@progbits
.Lstatic.133:
	.ascii	"IFLA_GSO_IPV4_MAX_SIZE"
	.size	.Lstatic.133, 22

	.type	.Lstatic.134,@object
	.section	.rodata..Lstatic.134,"a",@progbits
.Lstatic.134:
	.ascii	"IFLA_GRO_IPV4_MAX_SIZE"
	.size	.Lstatic.134, 22

	.type	.Lstatic.135,@object
	.section	.rodata..Lstatic.135,"a",@progbits
.Lstatic.135:
	.ascii	"IFLA_DPLL_PIN"
	.size	.Lstatic.135, 13

	.type	.Lstatic.136,@object
	.section	.rodata..Lstatic.136,"a",@progbits
.Lstatic.136:
	.ascii	"IFLA_NETNS_IMMUTABLE"
	.size	.Lstatic.136, 20

	.type	.Lstatic.137,@object
	.section	.rodata..Lstatic.137,"a",@progbits
.Lstatic.137:
	.ascii	"IFLA_HEADROOM"
	.size	.Lstatic.137, 13

	.type	.Lstatic.138,@object
	.section	.rodata..Lstatic.138,"a",@progbits
.Lstatic.138:
	.ascii	"IFLA_TAILROOM"
	.size	.Lstatic.138, 13

	.type	.Lstatic.141,@object
	.section	.rodata..Lstatic.141,"a",@progbits
.Lstatic.141:
	.ascii	"bridge"
	.size	.Lstatic.141, 6

	.type	.Lstatic.143,@object
	.section	.rodata.cst4,"aM",@progbits,4
.Lstatic.143:
	.ascii	"vcan"
	.size	.Lstatic.143, 4

	.type	.Lstatic.145,@object
.Lstatic.145:
	.ascii	"bond"
	.size	.Lstatic.145, 4

	.type	.Lstatic.146,@object
	.section	.rodata.cst16,"aM",@progbits,16
.Lstatic.146:
	.ascii	"0123456789abcdef"
	.size	.Lstatic.146, 16

	.type	.Lstatic.151,@object
	.section	.rodata..Lstatic.151,"a",@progbits
.Lstatic.151:
	.ascii	"--help"
	.size	.Lstatic.151, 6

	.type	.Lstatic.152,@object
	.section	.rodata..Lstatic.152,"a",@progbits
.Lstatic.152:
	.ascii	"-h"
	.size	.Lstatic.152, 2

	.type	.Lstatic.153,@object
	.section	.rodata..Lstatic.153,"a",@progbits
.Lstatic.153:
	.ascii	"--version"
	.size	.Lstatic.153, 9

	.type	.Lstatic.154,@object
	.section	.rodata..Lstatic.154,"a",@progbits
.Lstatic.154:
	.ascii	"--lenient"
	.size	.Lstatic.154, 9

	.type	.Lstatic.155,@object
	.section	.rodata..Lstatic.155,"a",@progbits
.Lstatic.155:
	.ascii	": write failed"
	.size	.Lstatic.155, 14

	.type	.Lstatic.157,@object
	.section	.rodata..Lstatic.157,"a",@progbits
.Lstatic.157:
	.ascii	"\000\003\000\000\003p\000\004\203\000\004\212\000\005\221\000\005\276\000\005\277\000\005\300\000\005\301\000\005\303\000\005\304\000\005\306\000\005\307\000\005\312\000\006\020\000\006\033\000\006K\000\006`\000\006p\000\006q\000\006\326\000\006\335\000\006\337\000\006\345\000\006\347\000\006\351\000\006\352\000\006\356\000\007\021\000\007\022\000\0070\000\007K\000\007\246\000\007\261\000\007\353\000\007\364\000\007\375\000\007\376\000\b\026\000\b\032\000\b\033\000\b$\000\b%\000\b(\000\b)\000\b.\000\bY\000\b\\\000\b\227\000\b\240\000\b\312\000\b\342\000\b\343\000\t\003\000\t:\000\t;\000\t<\000\t=\000\tA\000\tI\000\tM\000\tN\000\tQ\000\tX\000\tb\000\td\000\t\201\000\t\202\000\t\274\000\t\275\000\t\276\000\t\277\000\t\301\000\t\305\000\t\315\000\t\316\000\t\327\000\t\330\000\t\342\000\t\344\000\t\376\000\t\377\000\n\001\000\n\003\000\n<\000\n=\000\nA\000\nC\000\nG\000\nI\000\nK\000\nN\000\nQ\000\nR\000\np\000\nr\000\nu\000\nv\000\n\201\000\n\203\000\n\274\000\n\275\000\n\301\000\n\306\000\n\307\000\n\311\000\n\315\000\n\316\000\n\342\000\n\344\000\n\372\000\013\000\000\013\001\000\013\002\000\013<\000\013=\000\013>\000\013@\000\013A\000\013E\000\013M\000\013N\000\013S\000\013X\000\013b\000\013d\000\013\202\000\013\203\000\013\276\000\013\277\000\013\300\000\013\301\000\013\315\000\013\316\000\013\327\000\013\330\000\f\000\000\f\001\000\f\004\000\f\005\000\f<\000\f=\000\f>\000\fA\000\fF\000\fI\000\fJ\000\fN\000\fU\000\fW\000\fb\000\fd\000\f\201\000\f\202\000\f\274\000\f\275\000\f\277\000\f\301\000\f\302\000\f\303\000\f\306\000\f\311\000\f\312\000\f\316\000\f\325\000\f\327\000\f\342\000\f\344\000\r\000\000\r\002\000\r;\000\r=\000\r>\000\r?\000\rA\000\rE\000\rM\000\rN\000\rW\000\rX\000\rb\000\rd\000\r\201\000\r\202\000\r\312\000\r\313\000\r\317\000\r\320\000\r\322\000\r\325\000\r\326\000\r\327\000\r\337\000\r\340\000\0161\000\0162\000\0164\000\016;\000\016G\000\016O\000\016\261\000\016\262\000\016\264\000\016\275\000\016\310\000\016\317\000\017\030\000\017\032\000\0175\000\0176\000\0177\000\0178\000\0179\000\017:\000\017q\000\017\177\000\017\200\000\017\205\000\017\206\000\017\210\000\017\215\000\017\230\000\017\231\000\017\275\000\017\306\000\017\307\000\020-\000\0201\000\0202\000\0208\000\0209\000\020;\000\020=\000\020?\000\020X\000\020Z\000\020^\000\020a\000\020q\000\020u\000\020\202\000\020\203\000\020\205\000\020\207\000\020\215\000\020\216\000\020\235\000\020\236\000\023]\000\023`\000\027\022\000\027\026\000\0272\000\0275\000\027R\000\027T\000\027r\000\027t\000\027\264\000\027\266\000\027\267\000\027\276\000\027\306\000\027\307\000\027\311\000\027\324\000\027\335\000\027\336\000\030\013\000\030\016\000\030\017\000\030\020\000\030\205\000\030\207\000\030\251\000\030\252\000\031 \000\031#\000\031'\000\031)\000\0312\000\0313\000\0319\000\031<\000\032\027\000\032\031\000\032\033\000\032\034\000\032V\000\032W\000\032X\000\032_\000\032`\000\032a\000\032b\000\032c\000\032e\000\032m\000\032s\000\032}\000\032\177\000\032\200\000\032\260\000\032\361\000\033\000\000\033\004\000\0334\000\033>\000\033B\000\033E\000\033k\000\033t\000\033\200\000\033\202\000\033\242\000\033\246\000\033\250\000\033\256\000\033\346\000\033\347\000\033\350\000\033\352\000\033\355\000\033\356\000\033\357\000\033\364\000\034,\000\0344\000\0346\000\0348\000\034\320\000\034\323\000\034\324\000\034\341\000\034\342\000\034\351\000\034\355\000\034\356\000\034\364\000\034\365\000\034\370\000\034\372\000\035\300\000\036\000\000 \320\000 \361\000,\357\000,\362\000-\177\000-\200\000-\340\000.\000\0000*\00000\0000\231\0000\233\000\246o\000\246s\000\246t\000\246~\000\246\236\000\246\240\000\246\360\000\246\362\000\250\002\000\250\003\000\250\006\000\250\007\000\250\013\000\250\f\000\250%\000\250'\000\250,\000\250-\000\250\304\000\250\306\000\250\340\000\250\362\000\250\377\000\251\000\000\251&\000\251.\000\251G\000\251R\000\251S\000\251T\000\251\200\000\251\203\000\251\263\000\251\264\000\251\266\000\251\272\000\251\274\000\251\276\000\251\300\000\251\301\000\251\345\000\251\346\000\252)\000\252/\000\2521\000\2523\000\2525\000\2527\000\252C\000\252D\000\252L\000\252M\000\252|\000\252}\000\252\260\000\252\261\000\252\262\000\252\265\000\252\267\000\252\271\000\252\276\000\252\300\000\252\301\000\252\302\000\252\354\000\252\356\000\252\366\000\252\367\000\253\345\000\253\346\000\253\350\000\253\351\000\253\355\000\253\356\000\373\036\000\373\037\000\376\000\000\376\020\000\376 \000\3760\000\377\236\000\377\240\001\001\375\001\001\376\001\002\340\001\002\341\001\003v\001\003{\001\n\001\001\n\004\001\n\005\001\n\007\001\n\f\001\n\020\001\n8\001\n;\001\n?\001\n@\001\n\345\001\n\347\001\r$\001\r(\001\ri\001\rn\001\016\253\001\016\255\001\016\313\001\016\320\001\016\360\001\017\000\001\017F\001\017Q\001\017\202\001\017\206\001\020\001\001\020\002\001\0208\001\020G\001\020p\001\020q\001\020s\001\020u\001\020\177\001\020\202\001\020\263\001\020\267\001\020\271\001\020\273\001\020\302\001\020\303\001\021\000\001\021\003\001\021'\001\021,\001\021-\001\0215\001\021s\001\021t\001\021\200\001\021\202\001\021\266\001\021\277\001\021\300\001\021\301\001\021\311\001\021\315\001\021\317\001\021\320\001\022/\001\0222\001\0224\001\0228\001\022>\001\022?\001\022A\001\022B\001\022\337\001\022\340\001\022\343\001\022\353\001\023\000\001\023\002\001\023;\001\023=\001\023>\001\023?\001\023@\001\023A\001\023M\001\023N\001\023W\001\023X\001\023f\001\023m\001\023p\001\023u\001\023\270\001\023\271\001\023\273\001\023\301\001\023\302\001\023\303\001\023\305\001\023\306\001\023\307\001\023\312\001\023\316\001\023\321\001\023\322\001\023\323\001\023\341\001\023\343\001\0248\001\024@\001\024B\001\024E\001\024F\001\024G\001\024^\001\024_\001\024\260\001\024\261\001\024\263\001\024\271\001\024\272\001\024\273\001\024\275\001\024\276\001\024\277\001\024\301\001\024\302\001\024\304\001\025\257\001\025\260\001\025\262\001\025\266\001\025\274\001\025\276\001\025\277\001\025\301\001\025\334\001\025\336\001\0263\001\026;\001\026=\001\026>\001\026?\001\026A\001\026\253\001\026\254\001\026\255\001\026\256\001\026\260\001\026\270\001\027\035\001\027\036\001\027\037\001\027 \001\027\"\001\027&\001\027'\001\027,\001\030/\001\0308\001\0309\001\030;\001\0310\001\0311\001\031;\001\031?\001\031C\001\031D\001\031\324\001\031\330\001\031\332\001\031\334\001\031\340\001\031\341\001\032\001\001\032\013\001\0323\001\0329\001\032;\001\032?\001\032G\001\032H\001\032Q\001\032W\001\032Y\001\032\\\001\032\212\001\032\227\001\032\230\001\032\232\001\033`\001\033a\001\033b\001\033e\001\033f\001\033g\001\0340\001\0347\001\0348\001\034>\001\034?\001\034@\001\034\222\001\034\250\001\034\252\001\034\261\001\034\262\001\034\264\001\034\265\001\034\267\001\0351\001\0357\001\035:\001\035;\001\035<\001\035>\001\035?\001\035F\001\035G\001\035H\001\035\220\001\035\222\001\035\225\001\035\226\001\035\227\001\035\230\001\035\360\001\035\361\001\036\363\001\036\365\001\037\000\001\037\002\001\0376\001\037;\001\037@\001\037C\001\037Z\001\037[\0014@\0014A\0014G\0014V\001a\036\001a*\001a-\001a0\001j\360\001j\365\001k0\001k7\001oO\001oP\001o\217\001o\223\001o\344\001o\345\001o\360\001o\362\001\274\235\001\274\237\001\317\000\001\317.\001\3170\001\317G\001\321'\001\321)\001\321e\001\321j\001\321m\001\321s\001\321{\001\321\203\001\321\205\001\321\214\001\321\252\001\321\256\001\322B\001\322E\001\322P\001\322S\001\322[\001\322]\001\322_\001\322`\001\322\200\001\322\202\001\332\000\001\3327\001\332;\001\332m\001\332u\001\332v\001\332\204\001\332\205\001\332\233\001\332\240\001\332\241\001\332\260\001\340\000\001\340\007\001\340\b\001\340\031\001\340\033\001\340\"\001\340#\001\340%\001\340&\001\340+\001\340\217\001\340\220\001\3410\001\3417\001\342\256\001\342\257\001\342\354\001\342\360\001\344\354\001\344\360\001\345\356\001\345\360\001\346\343\001\346\344\001\346\346\001\346\347\001\346\356\001\346\360\001\346\365\001\346\366\001\350\320\001\350\327\001\351D\001\351K\016\001\000\016\001\360"
	.size	.Lstatic.157, 2322

	.type	.Lswitch.table.nla_wire.place.check_one.16a873d75d6df2a1,@object
	.section	.rodata..Lswitch.table.nla_wire.place.check_one.16a873d75d6df2a1,"a",@progbits
	.p2align	3, 0x0
.Lswitch.table.nla_wire.place.check_one.16a873d75d6df2a1:
	.xword	21
	.xword	21
	.xword	23
	.size	.Lswitch.table.nla_wire.place.check_one.16a873d75d6df2a1, 24

	.type	.Lswitch.table.nla_wire.place.check_one.16a873d75d6df2a1..390.rel,@object
	.section	.rodata..Lswitch.table.nla_wire.place.check_one.16a873d75d6df2a1..390.rel,"a",@progbits
	.p2align	2, 0x0
.Lswitch.table.nla_wire.place.check_one.16a873d75d6df2a1..390.rel:
	.word	.Lstatic.58-.Lswitch.table.nla_wire.place.check_one.16a873d75d6df2a1..390.rel
	.word	.Lstatic.59-.Lswitch.table.nla_wire.place.check_one.16a873d75d6df2a1..390.rel
	.word	.Lstatic.60-.Lswitch.table.nla_wire.place.check_one.16a873d75d6df2a1..390.rel
	.size	.Lswitch.table.nla_wire.place.check_one.16a873d75d6df2a1..390.rel, 12

	.type	.Lswitch.table.link_msg.numbers.kind_name,@object
	.section	.rodata..Lswitch.table.link_msg.numbers.kind_name,"a",@progbits
	.p2align	3, 0x0
.Lswitch.table.link_msg.numbers.kind_name:
	.xword	12
	.xword	14
	.xword	11
	.xword	8
	.xword	9
	.xword	10
	.xword	10
	.xword	0
	.xword	0
	.xword	11
	.xword	13
	.xword	13
	.xword	11
	.xword	8
	.xword	0
	.xword	14
	.xword	13
	.xword	13
	.xword	15
	.xword	12
	.xword	11
	.xword	16
	.xword	12
	.xword	13
	.xword	14
	.xword	12
	.xword	10
	.xword	14
	.xword	13
	.xword	16
	.xword	18
	.xword	18
	.xword	12
	.xword	17
	.xword	20
	.xword	19
	.xword	17
	.xword	19
	.xword	15
	.xword	17
	.xword	17
	.xword	0
	.xword	8
	.xword	10
	.xword	16
	.xword	15
	.xword	21
	.xword	23
	.xword	16
	.xword	12
	.xword	12
	.xword	14
	.xword	0
	.xword	17
	.xword	22
	.xword	20
	.xword	24
	.xword	17
	.xword	17
	.xword	17
	.xword	13
	.xword	17
	.xword	22
	.xword	22
	.xword	13
	.xword	0
	.xword	20
	.xword	13
	.xword	13
	.size	.Lswitch.table.link_msg.numbers.kind_name, 552

	.type	.Lswitch.table.link_msg.numbers.kind_name.391.rel,@object
	.section	.rodata..Lswitch.table.link_msg.numbers.kind_name.391.rel,"a",@progbits
	.p2align	2, 0x0
.Lswitch.table.link_msg.numbers.kind_name.391.rel:
	.word	.Lstatic.76-.Lswitch.table.link_msg.numbers.kind_name.391.rel
	.word	.Lstatic.77-.Lswitch.table.link_msg.numbers.kind_name.391.rel
	.word	.Lstatic.78-.Lswitch.table.link_msg.numbers.kind_name.391.rel
	.word	.Lstatic.79-.Lswitch.table.link_msg.numbers.kind_name.391.rel
	.word	.Lstatic.80-.Lswitch.table.link_msg.numbers.kind_name.391.rel
	.word	.Lstatic.81-.Lswitch.table.link_msg.numbers.kind_name.391.rel
	.word	.Lstatic.82-.Lswitch.table.link_msg.numbers.kind_name.391.rel
	.word	.Lstatic.3-.Lswitch.table.link_msg.numbers.kind_name.391.rel
	.word	.Lstatic.3-.Lswitch.table.link_msg.numbers.kind_name.391.rel
	.word	.Lstatic.83-.Lswitch.table.link_msg.numbers.kind_name.391.rel
	.word	.Lstatic.84-.Lswitch.table.link_msg.numbers.kind_name.391.rel
	.word	.Lstatic.85-.Lswitch.table.link_msg.numbers.kind_name.391.rel
	.word	.Lstatic.86-.Lswitch.table.link_msg.numbers.kind_name.391.rel
	.word	.Lstatic.87-.Lswitch.table.link_msg.numbers.kind_name.391.rel
	.word	.Lstatic.3-.Lswitch.table.link_msg.numbers.kind_name.391.rel
	.word	.Lstatic.88-.Lswitch.table.link_msg.numbers.kind_name.391.rel
	.word	.Lstatic.89-.Lswitch.table.link_msg.numbers.kind_name.391.rel
	.word	.Lstatic.90-.Lswitch.table.link_msg.numbers.kind_name.391.rel
	.word	.Lstatic.91-.Lswitch.table.link_msg.numbers.kind_name.391.rel
	.word	.Lstatic.92-.Lswitch.table.link_msg.numbers.kind_name.391.rel
	.word	.Lstatic.93-.Lswitch.table.link_msg.numbers.kind_name.391.rel
	.word	.Lstatic.94-.Lswitch.table.link_msg.numbers.kind_name.391.rel
	.word	.Lstatic.95-.Lswitch.table.link_msg.numbers.kind_name.391.rel
	.word	.Lstatic.96-.Lswitch.table.link_msg.numbers.kind_name.391.rel
	.word	.Lstatic.97-.Lswitch.table.link_msg.numbers.kind_name.391.rel
	.word	.Lstatic.98-.Lswitch.table.link_msg.numbers.kind_name.391.rel
	.word	.Lstatic.99-.Lswitch.table.link_msg.numbers.kind_name.391.rel
	.word	.Lstatic.100-.Lswitch.table.link_msg.numbers.kind_name.391.rel
	.word	.Lstatic.101-.Lswitch.table.link_msg.numbers.kind_name.391.rel
	.word	.Lstatic.102-.Lswitch.table.link_msg.numbers.kind_name.391.rel
	.word	.Lstatic.103-.Lswitch.table.link_msg.numbers.kind_name.391.rel
	.word	.Lstatic.104-.Lswitch.table.link_msg.numbers.kind_name.391.rel
	.word	.Lstatic.105-.Lswitch.table.link_msg.numbers.kind_name.391.rel
	.word	.Lstatic.106-.Lswitch.table.link_msg.numbers.kind_name.391.rel
	.word	.Lstatic.107-.Lswitch.table.link_msg.numbers.kind_name.391.rel
	.word	.Lstatic.108-.Lswitch.table.link_msg.numbers.kind_name.391.rel
	.word	.Lstatic.109-.Lswitch.table.link_msg.numbers.kind_name.391.rel
	.word	.Lstatic.110-.Lswitch.table.link_msg.numbers.kind_name.391.rel
	.word	.Lstatic.111-.Lswitch.table.link_msg.numbers.kind_name.391.rel
	.word	.Lstatic.112-.Lswitch.table.link_msg.numbers.kind_name.391.rel
	.word	.Lstatic.113-.Lswitch.table.link_msg.numbers.kind_name.391.rel
	.word	.Lstatic.3-.Lswitch.table.link_msg.numbers.kind_name.391.rel
	.word	.Lstatic.114-.Lswitch.table.link_msg.numbers.kind_name.391.rel
	.word	.Lstatic.115-.Lswitch.table.link_msg.numbers.kind_name.391.rel
	.word	.Lstatic.116-.Lswitch.table.link_msg.numbers.kind_name.391.rel
	.word	.Lstatic.117-.Lswitch.table.link_msg.numbers.kind_name.391.rel
	.word	.Lstatic.118-.Lswitch.table.link_msg.numbers.kind_name.391.rel
	.word	.Lstatic.119-.Lswitch.table.link_msg.numbers.kind_name.391.rel
	.word	.Lstatic.120-.Lswitch.table.link_msg.numbers.kind_name.391.rel
	.word	.Lstatic.121-.Lswitch.table.link_msg.numbers.kind_name.391.rel
	.word	.Lstatic.122-.Lswitch.table.link_msg.numbers.kind_name.391.rel
	.word	.Lstatic.123-.Lswitch.table.link_msg.numbers.kind_name.391.rel
	.word	.Lstatic.3-.Lswitch.table.link_msg.numbers.kind_name.391.rel
	.word	.Lstatic.124-.Lswitch.table.link_msg.numbers.kind_name.391.rel
	.word	.Lstatic.125-.Lswitch.table.link_msg.numbers.kind_name.391.rel
	.word	.Lstatic.126-.Lswitch.table.link_msg.numbers.kind_name.391.rel
	.word	.Lstatic.127-.Lswitch.table.link_msg.numbers.kind_name.391.rel
	.word	.Lstatic.128-.Lswitch.table.link_msg.numbers.kind_name.391.rel
	.word	.Lstatic.129-.Lswitch.table.link_msg.numbers.kind_name.391.rel
	.word	.Lstatic.130-.Lswitch.table.link_msg.numbers.kind_name.391.rel
	.word	.Lstatic.131-.Lswitch.table.link_msg.numbers.kind_name.391.rel
	.word	.Lstatic.132-.Lswitch.table.link_msg.numbers.kind_name.391.rel
	.word	.Lstatic.133-.Lswitch.table.link_msg.numbers.kind_name.391.rel
	.word	.Lstatic.134-.Lswitch.table.link_msg.numbers.kind_name.391.rel
	.word	.Lstatic.135-.Lswitch.table.link_msg.numbers.kind_name.391.rel
	.word	.Lstatic.3-.Lswitch.table.link_msg.numbers.kind_name.391.rel
	.word	.Lstatic.136-.Lswitch.table.link_msg.numbers.kind_name.391.rel
	.word	.Lstatic.137-.Lswitch.table.link_msg.numbers.kind_name.391.rel
	.word	.Lstatic.138-.Lswitch.table.link_msg.numbers.kind_name.391.rel
	.size	.Lswitch.table.link_msg.numbers.kind_name.391.rel, 276

	.type	.Lswitch.table.line_filter.answers.AnsweringTake.take.d1b9b744fe2e7f64,@object
	.section	.rodata..Lswitch.table.line_filter.answers.AnsweringTake.take.d1b9b744fe2e7f64,"a",@progbits
	.p2align	2, 0x0
.Lswitch.table.line_filter.answers.AnsweringTake.take.d1b9b744fe2e7f64:
	.hword	0
	.hword	1
	.hword	2
	.hword	3
	.hword	4
	.hword	5
	.hword	6
	.hword	7
	.hword	8
	.hword	15
	.hword	19
	.hword	23
	.hword	24
	.hword	27
	.hword	32
	.hword	256
	.hword	257
	.hword	258
	.hword	259
	.hword	260
	.hword	264
	.hword	270
	.hword	271
	.hword	272
	.hword	280
	.hword	290
	.hword	512
	.hword	513
	.hword	516
	.hword	517
	.hword	518
	.hword	519
	.hword	768
	.hword	769
	.hword	770
	.hword	771
	.hword	772
	.hword	773
	.hword	774
	.hword	775
	.hword	776
	.hword	777
	.hword	778
	.hword	779
	.hword	780
	.hword	781
	.hword	782
	.hword	783
	.hword	784
	.hword	785
	.hword	786
	.hword	787
	.hword	800
	.hword	801
	.hword	802
	.hword	803
	.hword	804
	.hword	805
	.hword	820
	.hword	821
	.hword	822
	.hword	823
	.hword	824
	.hword	825
	.hword	826
	.hword	65534
	.hword	65535
	.size	.Lswitch.table.line_filter.answers.AnsweringTake.take.d1b9b744fe2e7f64, 134

	.ident	"rattle logic=dac8208d650f15bf3e2dc313a14fa4c783a3acf887bdfab66e1714b038d9e11b"
	.section	".note.GNU-stack","",@progbits
