	.file	"rattle"
	.section	.text.core.str.utf8.from_utf8,"ax",@progbits
	.p2align	2
	.type	core.str.utf8.from_utf8,@function
core.str.utf8.from_utf8:
	sub	sp, sp, #64
	stp	x22, x21, [sp, #32]
	mov	x21, x1
	stp	x20, x19, [sp, #48]
	mov	x20, x2
	mov	x19, x0
	stp	x29, x30, [sp, #16]
	add	x29, sp, #16
	cbz	x2, .LBB0_51
	mov	x9, xzr
	sub	x22, x20, #8
	b	.LBB0_6
.LBB0_2:
	and	w11, w11, #0xff
	tbnz	w11, #7, .LBB0_23
.LBB0_3:
	mov	w12, #1
.LBB0_4:
	add	x8, x12, x9
.LBB0_5:
	cmp	x8, x20
	mov	x9, x8
	b.hs	.LBB0_51
.LBB0_6:
	add	x8, x21, x9
	sub	x10, x20, x9
	ldrsb	w11, [x8]
	cmp	x10, #2
	b.lo	.LBB0_2
	tbnz	w11, #31, .LBB0_2
	ldrsb	w11, [x8, #1]
	tbnz	w11, #31, .LBB0_3
	cmp	x10, #7
	stp	x21, x20, [sp]
	b.hi	.LBB0_28
	ldrsb	w8, [x21, x9]
	tbnz	w8, #31, .LBB0_43
	add	x8, x9, #1
	cmp	x8, x20
	b.eq	.LBB0_51
	ldrsb	w10, [x21, x8]
	tbnz	w10, #31, .LBB0_5
	add	x8, x9, #2
	cmp	x8, x20
	b.eq	.LBB0_51
	ldrsb	w10, [x21, x8]
	tbnz	w10, #31, .LBB0_5
	add	x8, x9, #3
	cmp	x8, x20
	b.eq	.LBB0_51
	ldrsb	w10, [x21, x8]
	tbnz	w10, #31, .LBB0_5
	add	x8, x9, #4
	cmp	x8, x20
	b.eq	.LBB0_51
	ldrsb	w10, [x21, x8]
	tbnz	w10, #31, .LBB0_5
	add	x8, x9, #5
	cmp	x8, x20
	b.eq	.LBB0_51
	ldrsb	w10, [x21, x8]
	tbnz	w10, #31, .LBB0_5
	add	x8, x9, #6
	cmp	x8, x20
	b.eq	.LBB0_51
	ldrsb	w9, [x21, x8]
	tbnz	w9, #31, .LBB0_5
	b	.LBB0_51
.LBB0_23:
	cmp	w11, #194
	b.lo	.LBB0_59
	cmp	w11, #223
	b.hi	.LBB0_36
	cmp	x10, #2
	b.lo	.LBB0_58
	ldrsb	w12, [x8, #1]
	cmn	w12, #65
	b.gt	.LBB0_55
	mov	w12, #2
	b	.LBB0_4
.LBB0_28:
	ldr	x8, [x8]
	mov	w10, #8
	ands	x8, x8, #0x8080808080808080
	rbit	x8, x8
	clz	x8, x8
	lsr	x8, x8, #3
	csel	x8, x10, x8, eq
	add	x8, x8, x9
	add	x9, x9, #8
	cmp	x8, x9
	b.lo	.LBB0_5
	sub	x9, x20, x8
	cmp	x9, #32
	b.lo	.LBB0_32
.LBB0_30:
	add	x9, x21, x8
	ldp	q1, q0, [x9]
	orr	v0.16b, v1.16b, v0.16b
	ext	v1.16b, v0.16b, v0.16b, #8
	orr	v0.8b, v0.8b, v1.8b
	fmov	x9, d0
	tst	x9, #0x8080808080808080
	b.ne	.LBB0_32
	mov	x0, sp
	add	x1, x8, #32
	mov	x2, x20
	bl	core.slice.words.skip_far.52f9edcae2f82f51
	sub	x9, x20, x0
	mov	x8, x0
	cmp	x9, #31
	b.hi	.LBB0_30
.LBB0_32:
	sub	x9, x20, x8
.LBB0_33:
	cmp	x9, #9
	b.lo	.LBB0_50
	ldr	x10, [x21, x8]
	mov	w11, #8
	sub	x9, x9, #8
	ands	x10, x10, #0x8080808080808080
	rbit	x10, x10
	clz	x10, x10
	lsr	x10, x10, #3
	csel	x10, x11, x10, eq
	add	x11, x10, x8
	add	x8, x8, #8
	cmp	x11, x8
	b.hs	.LBB0_33
	add	x8, x10, x8
	sub	x8, x8, #8
	b	.LBB0_5
.LBB0_36:
	cmp	w11, #239
	b.hi	.LBB0_44
	cmp	x10, #3
	b.lo	.LBB0_53
	ldrsb	w12, [x8, #1]
	cmn	w12, #65
	b.gt	.LBB0_55
	ldrsb	w13, [x8, #2]
	cmn	w13, #65
	b.gt	.LBB0_55
	and	w13, w12, #0xff
	mov	w14, #-14464
	add	w13, w13, w11, lsl #6
	add	w13, w13, w14
	cmp	w13, #32
	b.lo	.LBB0_55
	cmp	w13, #896
	mov	w12, #3
	csel	x14, xzr, x12, lo
	cmp	w13, #864
	b.lo	.LBB0_4
	mov	x12, x14
	b	.LBB0_49
.LBB0_43:
	mov	x8, x9
	b	.LBB0_5
.LBB0_44:
	cmp	x10, #4
	b.lo	.LBB0_52
	ldrsb	w12, [x8, #1]
	cmn	w12, #65
	b.gt	.LBB0_52
	ldrsb	w13, [x8, #2]
	cmn	w13, #65
	b.gt	.LBB0_52
	ldrsb	w13, [x8, #3]
	cmn	w13, #65
	b.gt	.LBB0_52
	and	w12, w12, #0xff
	mov	w13, #-15488
	add	w12, w12, w11, lsl #6
	add	w13, w12, w13
	mov	w12, #4
	cmp	w13, #272
	csel	x12, x12, xzr, lo
	cmp	w13, #16
	b.lo	.LBB0_52
.LBB0_49:
	cbnz	x12, .LBB0_4
	b	.LBB0_52
.LBB0_50:
	ldr	x8, [x21, x22]
	mov	w9, #8
	ands	x8, x8, #0x8080808080808080
	rbit	x8, x8
	clz	x8, x8
	lsr	x8, x8, #3
	csel	x8, x9, x8, eq
	add	x8, x8, x22
	b	.LBB0_5
.LBB0_51:
	stp	xzr, x21, [x19]
	str	x20, [x19, #16]
	ldp	x20, x19, [sp, #48]
	ldp	x22, x21, [sp, #32]
	ldp	x29, x30, [sp, #16]
	add	sp, sp, #64
	ret
.LBB0_52:
	cmp	w11, #244
	b.hi	.LBB0_59
.LBB0_53:
	cmp	x10, #2
	b.lo	.LBB0_58
	ldrb	w12, [x8, #1]
.LBB0_55:
	cmp	w11, #240
	mov	w13, #-128
	mov	w14, #-112
	mov	w15, #-96
	csel	w13, w14, w13, eq
	cmp	w11, #224
	mov	w14, #-65
	csel	w13, w15, w13, eq
	mov	w15, #-113
	cmp	w11, #244
	and	w16, w13, #0xf0
	csel	w13, w15, w14, eq
	cmp	w11, #237
	mov	w11, #-97
	csel	w13, w11, w13, eq
	cmp	w16, w12, uxtb
	mov	w11, #257
	b.hi	.LBB0_60
	and	w12, w12, #0xff
	cmp	w12, w13, uxtb
	b.hi	.LBB0_60
	cmp	x10, #2
	b.ne	.LBB0_61
.LBB0_58:
	mov	x11, xzr
	b	.LBB0_60
.LBB0_59:
	mov	w11, #257
.LBB0_60:
	mov	w8, #1
	str	x11, [x19, #16]
	stp	x8, x9, [x19]
	ldp	x20, x19, [sp, #48]
	ldp	x22, x21, [sp, #32]
	ldp	x29, x30, [sp, #16]
	add	sp, sp, #64
	ret
.LBB0_61:
	ldrsb	w8, [x8, #2]
	cmn	w8, #65
	b.gt	.LBB0_63
	cmp	x10, #3
	mov	w8, #769
	csel	x11, x8, xzr, hi
	b	.LBB0_60
.LBB0_63:
	mov	w11, #513
	b	.LBB0_60
.Lfunc_end0:
	.size	core.str.utf8.from_utf8, .Lfunc_end0-core.str.utf8.from_utf8

	.section	.text.core.slice.words.skip_far.52f9edcae2f82f51,"ax",@progbits
	.p2align	2
	.type	core.slice.words.skip_far.52f9edcae2f82f51,@function
core.slice.words.skip_far.52f9edcae2f82f51:
	sub	x8, x2, x1
	cmp	x8, #64
	b.lo	.LBB1_4
	ldr	x9, [x0]
.LBB1_2:
	add	x10, x9, x1
	ldp	q0, q1, [x10, #32]
	ldp	q2, q3, [x10]
	orr	v1.16b, v3.16b, v1.16b
	orr	v0.16b, v2.16b, v0.16b
	orr	v0.16b, v0.16b, v1.16b
	ext	v1.16b, v0.16b, v0.16b, #8
	orr	v0.8b, v0.8b, v1.8b
	fmov	x10, d0
	tst	x10, #0x8080808080808080
	b.ne	.LBB1_4
	sub	x8, x8, #64
	add	x1, x1, #64
	cmp	x8, #63
	b.hi	.LBB1_2
.LBB1_4:
	mov	x0, x1
	ret
.Lfunc_end1:
	.size	core.slice.words.skip_far.52f9edcae2f82f51, .Lfunc_end1-core.slice.words.skip_far.52f9edcae2f82f51

	.section	.text.unlikely.std_alloc.vec.Vec.grow_amortized.c2c24c8ca5cf7e6f,"ax",@progbits
	.p2align	2
	.type	std_alloc.vec.Vec.grow_amortized.c2c24c8ca5cf7e6f,@function
std_alloc.vec.Vec.grow_amortized.c2c24c8ca5cf7e6f:
	ldr	x8, [x0, #8]
	cmn	x8, #1
	b.eq	.LBB2_5
	stp	x29, x30, [sp, #-32]!
	ldr	x9, [x0, #16]
	cmp	x8, #3
	mov	w10, #3
	csel	x11, x8, x10, hi
	stp	x20, x19, [sp, #16]
	mov	x29, sp
	lsl	x10, x9, #1
	add	x12, x11, #1
	lsr	x13, x9, #62
	cmp	x12, x10
	csinc	x10, x10, x11, ls
	cmp	x13, #0
	csinc	x19, x10, x11, eq
	mov	x11, #6148914691236517205
	movk	x11, #1365, lsl #48
	cmp	x19, x11
	b.hi	.LBB2_7
	cbz	x9, .LBB2_6
	add	x8, x8, x8, lsl #1
	add	x9, x19, x19, lsl #1
	mov	x20, x0
	ldr	x0, [x0]
	mov	w3, #8
	lsl	x1, x8, #3
	lsl	x2, x9, #3
	bl	rattle_realloc
	tbz	w0, #0, .LBB2_7
.LBB2_4:
	mov	w0, #1
	str	x1, [x20]
	str	x19, [x20, #16]
	ldp	x20, x19, [sp, #16]
	ldp	x29, x30, [sp], #32
	ret
.LBB2_5:
	mov	w0, wzr
	ret
.LBB2_6:
	add	x8, x10, x10, lsl #1
	mov	x20, x0
	mov	w1, #8
	lsl	x0, x8, #3
	bl	rattle_alloc
	tbnz	w0, #0, .LBB2_4
.LBB2_7:
	mov	w0, wzr
	ldp	x20, x19, [sp, #16]
	ldp	x29, x30, [sp], #32
	ret
.Lfunc_end2:
	.size	std_alloc.vec.Vec.grow_amortized.c2c24c8ca5cf7e6f, .Lfunc_end2-std_alloc.vec.Vec.grow_amortized.c2c24c8ca5cf7e6f

	.section	.rodata.cst16,"aM",@progbits,16
	.p2align	4, 0x0
.LCPI3_0:
	.xword	7310596056926023526
	.xword	3346860010425884786
	.section	.rodata.cst8,"aM",@progbits,8
	.p2align	3, 0x0
.LCPI3_1:
	.hword	2
	.hword	41
	.hword	15
	.hword	0
	.section	.text.std_io.io.LibcRuntimeEprint.eprintln.27a8a20715d85f24,"ax",@progbits
	.p2align	2
	.type	std_io.io.LibcRuntimeEprint.eprintln.27a8a20715d85f24,@function
std_io.io.LibcRuntimeEprint.eprintln.27a8a20715d85f24:
	stp	x29, x30, [sp, #-96]!
	stp	x28, x27, [sp, #16]
	mov	x29, sp
	stp	x26, x25, [sp, #32]
	stp	x24, x23, [sp, #48]
	stp	x22, x21, [sp, #64]
	stp	x20, x19, [sp, #80]
	sub	sp, sp, #2576
	movi	v0.2d, #0000000000000000
	str	xzr, [sp]
	add	x23, sp, #136
	ldp	x25, x26, [x1]
	mov	x19, x0
	ldp	x22, x21, [x1, #16]
	mov	w8, #2
	orr	x0, x23, #0x4
	mov	w1, wzr
	mov	w2, #1132
	stp	q0, q0, [sp]
	orr	x20, x23, #0x4
	stp	q0, q0, [sp, #32]
	stp	q0, q0, [sp, #64]
	stp	q0, q0, [sp, #96]
	str	q0, [sp, #1312]
	str	q0, [sp, #1328]
	str	q0, [sp, #1344]
	str	w8, [sp, #136]
	str	q0, [sp, #1360]
	bl	memset
	movi	v0.2d, #0000000000000000
	mov	w8, #32
	add	x24, x23, #1140
	add	x9, x23, #1160
	str	w8, [sp, #1272]
	mov	x10, #-1
	str	xzr, [x24]
	add	x23, x23, #1136
	str	wzr, [sp, #1284]
	str	q0, [x9]
	add	x9, sp, #1017
	ldur	q0, [x9, #255]
	str	w8, [sp, #1272]
	mov	x8, xzr
	str	x10, [sp, #1288]
	str	q0, [sp, #1440]
	str	x10, [sp, #1456]
	str	xzr, [x24]
	str	wzr, [sp, #1284]
	cbnz	x26, .LBB3_2
	b	.LBB3_6
.LBB3_1:
	sub	x26, x26, #1
	strb	w27, [x20, x8]
	add	x8, x8, #1
	str	x8, [sp, #1168]
	cbz	x26, .LBB3_5
.LBB3_2:
	ldrb	w27, [x25], #1
	cmp	x8, #1024
	b.lo	.LBB3_1
	add	x0, sp, #136
	bl	std_io.io.buffer.Buffer.flush
	cbz	w0, .LBB3_17
	ldr	x8, [sp, #1168]
	cmp	x8, #1023
	b.ls	.LBB3_1
	b	.LBB3_17
.LBB3_5:
	mov	w9, #32
	ldr	x10, [sp, #1296]
	str	xzr, [x24]
	str	w9, [sp, #1272]
	mov	x9, #-1
	str	wzr, [x24, #8]
	str	x9, [sp, #1288]
	cbnz	x10, .LBB3_28
.LBB3_6:
	cbnz	x21, .LBB3_14
.LBB3_7:
	ldr	q0, [sp, #1440]
	ldr	x8, [sp, #1456]
	str	q0, [x23]
	str	x8, [x23, #16]
.LBB3_8:
	mov	w8, #32
	ldr	x9, [x23, #16]
	ldr	q0, [x23]
	str	w8, [sp, #1272]
	ldr	x8, [sp, #1296]
	str	x9, [sp, #1456]
	mov	x9, #-1
	str	q0, [sp, #1440]
	str	xzr, [x24]
	str	wzr, [x24, #8]
	str	x9, [sp, #1288]
	cbnz	x8, .LBB3_27
	ldr	x8, [sp, #1168]
	cmp	x8, #1024
	b.lo	.LBB3_12
	add	x0, sp, #136
	bl	std_io.io.buffer.Buffer.flush
	mov	w21, wzr
	cbz	w0, .LBB3_18
	ldr	x8, [sp, #1168]
	cmp	x8, #1023
	b.hi	.LBB3_18
.LBB3_12:
	mov	w9, #10
	strb	w9, [x20, x8]
	add	x8, x8, #1
	str	x8, [sp, #1168]
	mov	w21, #1
	b	.LBB3_18
.LBB3_13:
	sub	x21, x21, #1
	strb	w25, [x20, x8]
	add	x8, x8, #1
	str	x8, [sp, #1168]
	cbz	x21, .LBB3_7
.LBB3_14:
	ldrb	w25, [x22], #1
	cmp	x8, #1024
	b.lo	.LBB3_13
	add	x0, sp, #136
	bl	std_io.io.buffer.Buffer.flush
	cbz	w0, .LBB3_17
	ldr	x8, [sp, #1168]
	cmp	x8, #1023
	b.ls	.LBB3_13
.LBB3_17:
	mov	w21, wzr
.LBB3_18:
	ldr	q0, [sp, #1440]
	ldr	x8, [sp, #1456]
	str	q0, [x23]
	str	x8, [x23, #16]
.LBB3_19:
	ldr	w8, [sp, #136]
	mov	x1, x20
	mov	w2, #1132
	str	w8, [sp, #1440]
	add	x8, sp, #1440
	orr	x0, x8, #0x4
	bl	memcpy
	add	x0, sp, #1440
	bl	std_io.io.buffer.Buffer.flush
	cbz	w21, .LBB3_22
	cbz	w0, .LBB3_22
	movi	v2.2d, #0000000000000000
	mov	w9, wzr
	mov	w8, wzr
	movi	v1.2d, #0000000000000000
	movi	v0.2d, #0000000000000000
	str	q2, [sp, #1360]
	str	q2, [sp, #1344]
	str	q2, [sp, #1328]
	str	q2, [sp, #1312]
	b	.LBB3_26
.LBB3_22:
	ldrb	w8, [sp, #2480]
	cmp	w8, #1
	b.ne	.LBB3_24
	ldr	q2, [sp, #2528]
	ldr	q0, [sp, #2512]
	ldr	s1, [sp, #2488]
	ldr	q3, [sp, #2544]
	ldr	w8, [sp, #2492]
	str	q2, [sp, #1392]
	ushll	v1.8h, v1.8b, #0
	ldr	q2, [sp, #2560]
	str	q0, [sp, #1376]
	ldr	q0, [sp, #2496]
	str	q3, [sp, #1408]
	str	q2, [sp, #1424]
	b	.LBB3_25
.LBB3_24:
	movi	v2.16b, #46
	adrp	x9, .LCPI3_0
	adrp	x10, .LCPI3_1
	ldr	q0, [x9, :lo12:.LCPI3_0]
	ldr	d1, [x10, :lo12:.LCPI3_1]
	mov	w8, wzr
	str	q2, [sp, #1424]
	str	q2, [sp, #1408]
	str	q2, [sp, #1392]
	str	q2, [sp, #1376]
.LBB3_25:
	ldr	q2, [sp, #1376]
	ldr	q3, [sp, #1392]
	mov	w9, #1
	ldr	q4, [sp, #1424]
	str	q2, [sp, #1312]
	ldr	q2, [sp, #1408]
	str	q3, [sp, #1328]
	str	q2, [sp, #1344]
	str	q4, [sp, #1360]
.LBB3_26:
	ldr	q2, [sp, #1360]
	ldr	q3, [sp, #1344]
	uzp1	v1.8b, v1.8b, v0.8b
	ldr	q4, [sp, #1312]
	strb	w9, [x19]
	stp	q3, q2, [sp, #32]
	ldr	q2, [sp, #1328]
	str	w8, [x19, #12]
	stp	q4, q2, [sp]
	str	s1, [x19, #8]
	ldp	q1, q2, [sp]
	stp	q0, q1, [x19, #16]
	ldp	q0, q1, [sp, #32]
	stp	q2, q0, [x19, #48]
	str	q1, [x19, #80]
	add	sp, sp, #2576
	ldp	x20, x19, [sp, #80]
	ldp	x22, x21, [sp, #64]
	ldp	x24, x23, [sp, #48]
	ldp	x26, x25, [sp, #32]
	ldp	x28, x27, [sp, #16]
	ldp	x29, x30, [sp], #96
	ret
.LBB3_27:
	adrp	x1, .Lstatic.5
	add	x1, x1, :lo12:.Lstatic.5
	add	x0, sp, #136
	mov	w2, #1
	bl	core.fmt.formatter.Formatter.write_indented.bf264aed5fa78656
	tst	w0, #0xff
	cset	w21, eq
	b	.LBB3_18
.LBB3_28:
	add	x0, sp, #136
	mov	x1, x22
	mov	x2, x21
	bl	core.fmt.formatter.Formatter.write_indented.bf264aed5fa78656
	ldr	q0, [sp, #1440]
	ldr	x8, [sp, #1456]
	and	w9, w0, #0xff
	str	q0, [x23]
	str	x8, [x23, #16]
	tbz	w9, #0, .LBB3_8
	mov	w21, wzr
	b	.LBB3_19
.Lfunc_end3:
	.size	std_io.io.LibcRuntimeEprint.eprintln.27a8a20715d85f24, .Lfunc_end3-std_io.io.LibcRuntimeEprint.eprintln.27a8a20715d85f24

	.section	.rodata.cst16,"aM",@progbits,16
	.p2align	4, 0x0
.LCPI4_0:
	.xword	8458358670138239095
	.xword	3327647951695996518
.LCPI4_1:
	.xword	8367798494427701606
	.xword	2334399978102268015
	.section	.rodata.cst8,"aM",@progbits,8
	.p2align	3, 0x0
.LCPI4_2:
	.hword	2
	.hword	23
	.hword	28
	.hword	0
.LCPI4_3:
	.hword	0
	.hword	35
	.hword	0
	.hword	0
	.section	.text.std_io.io.buffer.Buffer.flush,"ax",@progbits
	.p2align	2
	.type	std_io.io.buffer.Buffer.flush,@function
std_io.io.buffer.Buffer.flush:
	sub	sp, sp, #224
	stp	x22, x21, [sp, #192]
	ldr	x22, [x0, #1032]
	stp	x29, x30, [sp, #144]
	add	x29, sp, #144
	cmp	x22, #1025
	str	x25, [sp, #160]
	stp	x24, x23, [sp, #176]
	stp	x20, x19, [sp, #208]
	str	xzr, [x0, #1032]
	b.lo	.LBB4_2
	mov	w0, wzr
	b	.LBB4_15
.LBB4_2:
	mov	x24, x0
	mov	x19, x0
	mov	x23, xzr
	ldr	w20, [x24], #4
	add	x25, x22, #64
	b	.LBB4_5
.LBB4_3:
	bl	rattle_errno
	cmp	w0, #4
	b.ne	.LBB4_13
	subs	x25, x25, #1
	b.eq	.LBB4_9
.LBB4_5:
	subs	x21, x22, x23
	b.ls	.LBB4_11
	add	x1, x24, x23
	mov	w0, w20
	mov	x2, x21
	bl	write
	tbnz	x0, #63, .LBB4_3
	cbz	x0, .LBB4_12
	cmp	x0, x21
	csel	x8, x0, x21, lo
	add	x23, x8, x23
	subs	x25, x25, #1
	b.ne	.LBB4_5
.LBB4_9:
	cmp	x22, x23
	b.ls	.LBB4_11
	movi	v0.2d, #0000000000000000
	movi	v1.2d, #0000000000000000
	adrp	x8, .LCPI4_3
	ldr	d2, [x8, :lo12:.LCPI4_3]
	mov	w8, #4
	stp	q0, q0, [sp, #16]
	str	q0, [sp]
	b	.LBB4_14
.LBB4_11:
	mov	w0, #1
	b	.LBB4_15
.LBB4_12:
	movi	v3.16b, #46
	adrp	x9, .LCPI4_0
	adrp	x10, .LCPI4_1
	adrp	x11, .LCPI4_2
	ldr	q1, [x9, :lo12:.LCPI4_0]
	ldr	q0, [x10, :lo12:.LCPI4_1]
	ldr	d2, [x11, :lo12:.LCPI4_2]
	mov	w8, wzr
	stp	q3, q3, [sp, #16]
	str	q3, [sp]
	b	.LBB4_14
.LBB4_13:
	mov	w1, w0
	add	x0, sp, #56
	bl	std_io.io.error.Error.from_raw_os_error
	ldp	q1, q3, [sp, #96]
	ldr	s0, [sp, #56]
	ldur	q4, [sp, #128]
	ldr	w8, [sp, #60]
	ushll	v2.8h, v0.8b, #0
	stp	q1, q3, [sp]
	ldp	q0, q1, [sp, #64]
	str	q4, [sp, #32]
.LBB4_14:
	uzp1	v2.8b, v2.8b, v0.8b
	str	q0, [x19, #1056]
	mov	w0, wzr
	str	q1, [x19, #1072]
	ldp	q0, q1, [sp]
	str	w8, [x19, #1052]
	mov	w8, #1
	str	x8, [x19, #1040]
	str	q0, [x19, #1088]
	ldr	q0, [sp, #32]
	str	s2, [x19, #1048]
	str	q1, [x19, #1104]
	str	q0, [x19, #1120]
.LBB4_15:
	ldp	x20, x19, [sp, #208]
	ldr	x25, [sp, #160]
	ldp	x22, x21, [sp, #192]
	ldp	x24, x23, [sp, #176]
	ldp	x29, x30, [sp, #144]
	add	sp, sp, #224
	ret
.Lfunc_end4:
	.size	std_io.io.buffer.Buffer.flush, .Lfunc_end4-std_io.io.buffer.Buffer.flush

	.section	.text.std_io.io.error.Error.from_raw_os_error,"ax",@progbits
	.p2align	2
	.type	std_io.io.error.Error.from_raw_os_error,@function
std_io.io.error.Error.from_raw_os_error:
	tbnz	w1, #31, .LBB5_4
	sub	w8, w1, #1
	cmp	w8, #121
	b.hi	.LBB5_4
	adrp	x9, .LJTI5_0
	add	x9, x9, :lo12:.LJTI5_0
	adr	x10, .LBB5_3
	ldrb	w11, [x9, x8]
	add	x10, x10, x11, lsl #2
	mov	w8, #1
	br	x10
.LBB5_3:
	mov	w8, #36
	b	.LBB5_5
.LBB5_4:
	mov	w8, #41
.LBB5_5:
	movi	v0.2d, #0000000000000000
	strb	wzr, [x0]
	strb	w8, [x0, #1]
	strh	wzr, [x0, #2]
	str	w1, [x0, #4]
	stur	q0, [x0, #8]
	stur	q0, [x0, #24]
	stur	q0, [x0, #40]
	stur	q0, [x0, #56]
	stur	q0, [x0, #72]
	ret
.LBB5_6:
	mov	w8, #4
	b	.LBB5_5
.LBB5_7:
	mov	w8, #7
	b	.LBB5_5
.LBB5_8:
	mov	w8, #26
	b	.LBB5_5
.LBB5_9:
	mov	w8, #39
	b	.LBB5_5
.LBB5_10:
	mov	w8, #9
	b	.LBB5_5
.LBB5_11:
	mov	w8, #8
	b	.LBB5_5
.LBB5_12:
	mov	w8, #30
	b	.LBB5_5
.LBB5_13:
	mov	w8, #25
	b	.LBB5_5
.LBB5_14:
	mov	w8, #32
	b	.LBB5_5
.LBB5_15:
	mov	w8, #33
	b	.LBB5_5
.LBB5_16:
	mov	w8, #22
	b	.LBB5_5
.LBB5_17:
	mov	w8, #31
	b	.LBB5_5
.LBB5_18:
	mov	w8, #29
	b	.LBB5_5
.LBB5_19:
	mov	w8, #18
	b	.LBB5_5
.LBB5_20:
	mov	w8, #10
	b	.LBB5_5
.LBB5_21:
	mov	w8, #28
	b	.LBB5_5
.LBB5_22:
	mov	w8, #14
	b	.LBB5_5
.LBB5_23:
	mov	w8, #12
	b	.LBB5_5
.LBB5_24:
	mov	w8, #5
	b	.LBB5_5
.LBB5_25:
	mov	w8, #3
	b	.LBB5_5
.LBB5_26:
	mov	w8, wzr
	b	.LBB5_5
.LBB5_27:
	mov	w8, #13
	b	.LBB5_5
.LBB5_28:
	mov	w8, #38
	b	.LBB5_5
.LBB5_29:
	mov	w8, #11
	b	.LBB5_5
.LBB5_30:
	mov	w8, #35
	b	.LBB5_5
.LBB5_31:
	mov	w8, #34
	b	.LBB5_5
.LBB5_32:
	mov	w8, #20
	b	.LBB5_5
.LBB5_33:
	mov	w8, #15
	b	.LBB5_5
.LBB5_34:
	mov	w8, #19
	b	.LBB5_5
.LBB5_35:
	mov	w8, #16
	b	.LBB5_5
.LBB5_36:
	mov	w8, #6
	b	.LBB5_5
.LBB5_37:
	mov	w8, #27
	b	.LBB5_5
.LBB5_38:
	mov	w8, #24
	b	.LBB5_5
.LBB5_39:
	mov	w8, #2
	b	.LBB5_5
.LBB5_40:
	mov	w8, #17
	b	.LBB5_5
.Lfunc_end5:
	.size	std_io.io.error.Error.from_raw_os_error, .Lfunc_end5-std_io.io.error.Error.from_raw_os_error
	.section	.rodata.std_io.io.error.Error.from_raw_os_error,"a",@progbits
.LJTI5_0:
	.byte	(.LBB5_5-.LBB5_3)>>2
	.byte	(.LBB5_26-.LBB5_3)>>2
	.byte	(.LBB5_4-.LBB5_3)>>2
	.byte	(.LBB5_30-.LBB5_3)>>2
	.byte	(.LBB5_4-.LBB5_3)>>2
	.byte	(.LBB5_4-.LBB5_3)>>2
	.byte	(.LBB5_31-.LBB5_3)>>2
	.byte	(.LBB5_4-.LBB5_3)>>2
	.byte	(.LBB5_4-.LBB5_3)>>2
	.byte	(.LBB5_4-.LBB5_3)>>2
	.byte	(.LBB5_27-.LBB5_3)>>2
	.byte	(.LBB5_28-.LBB5_3)>>2
	.byte	(.LBB5_5-.LBB5_3)>>2
	.byte	(.LBB5_4-.LBB5_3)>>2
	.byte	(.LBB5_4-.LBB5_3)>>2
	.byte	(.LBB5_21-.LBB5_3)>>2
	.byte	(.LBB5_23-.LBB5_3)>>2
	.byte	(.LBB5_17-.LBB5_3)>>2
	.byte	(.LBB5_4-.LBB5_3)>>2
	.byte	(.LBB5_22-.LBB5_3)>>2
	.byte	(.LBB5_33-.LBB5_3)>>2
	.byte	(.LBB5_32-.LBB5_3)>>2
	.byte	(.LBB5_4-.LBB5_3)>>2
	.byte	(.LBB5_4-.LBB5_3)>>2
	.byte	(.LBB5_4-.LBB5_3)>>2
	.byte	(.LBB5_18-.LBB5_3)>>2
	.byte	(.LBB5_37-.LBB5_3)>>2
	.byte	(.LBB5_38-.LBB5_3)>>2
	.byte	(.LBB5_13-.LBB5_3)>>2
	.byte	(.LBB5_40-.LBB5_3)>>2
	.byte	(.LBB5_14-.LBB5_3)>>2
	.byte	(.LBB5_29-.LBB5_3)>>2
	.byte	(.LBB5_4-.LBB5_3)>>2
	.byte	(.LBB5_4-.LBB5_3)>>2
	.byte	(.LBB5_12-.LBB5_3)>>2
	.byte	(.LBB5_15-.LBB5_3)>>2
	.byte	(.LBB5_4-.LBB5_3)>>2
	.byte	(.LBB5_3-.LBB5_3)>>2
	.byte	(.LBB5_35-.LBB5_3)>>2
	.byte	(.LBB5_19-.LBB5_3)>>2
	.byte	(.LBB5_4-.LBB5_3)>>2
	.byte	(.LBB5_4-.LBB5_3)>>2
	.byte	(.LBB5_4-.LBB5_3)>>2
	.byte	(.LBB5_4-.LBB5_3)>>2
	.byte	(.LBB5_4-.LBB5_3)>>2
	.byte	(.LBB5_4-.LBB5_3)>>2
	.byte	(.LBB5_4-.LBB5_3)>>2
	.byte	(.LBB5_4-.LBB5_3)>>2
	.byte	(.LBB5_4-.LBB5_3)>>2
	.byte	(.LBB5_4-.LBB5_3)>>2
	.byte	(.LBB5_4-.LBB5_3)>>2
	.byte	(.LBB5_4-.LBB5_3)>>2
	.byte	(.LBB5_4-.LBB5_3)>>2
	.byte	(.LBB5_4-.LBB5_3)>>2
	.byte	(.LBB5_4-.LBB5_3)>>2
	.byte	(.LBB5_4-.LBB5_3)>>2
	.byte	(.LBB5_4-.LBB5_3)>>2
	.byte	(.LBB5_4-.LBB5_3)>>2
	.byte	(.LBB5_4-.LBB5_3)>>2
	.byte	(.LBB5_4-.LBB5_3)>>2
	.byte	(.LBB5_4-.LBB5_3)>>2
	.byte	(.LBB5_4-.LBB5_3)>>2
	.byte	(.LBB5_4-.LBB5_3)>>2
	.byte	(.LBB5_4-.LBB5_3)>>2
	.byte	(.LBB5_4-.LBB5_3)>>2
	.byte	(.LBB5_4-.LBB5_3)>>2
	.byte	(.LBB5_4-.LBB5_3)>>2
	.byte	(.LBB5_4-.LBB5_3)>>2
	.byte	(.LBB5_4-.LBB5_3)>>2
	.byte	(.LBB5_4-.LBB5_3)>>2
	.byte	(.LBB5_4-.LBB5_3)>>2
	.byte	(.LBB5_4-.LBB5_3)>>2
	.byte	(.LBB5_4-.LBB5_3)>>2
	.byte	(.LBB5_4-.LBB5_3)>>2
	.byte	(.LBB5_4-.LBB5_3)>>2
	.byte	(.LBB5_4-.LBB5_3)>>2
	.byte	(.LBB5_4-.LBB5_3)>>2
	.byte	(.LBB5_4-.LBB5_3)>>2
	.byte	(.LBB5_4-.LBB5_3)>>2
	.byte	(.LBB5_4-.LBB5_3)>>2
	.byte	(.LBB5_4-.LBB5_3)>>2
	.byte	(.LBB5_4-.LBB5_3)>>2
	.byte	(.LBB5_4-.LBB5_3)>>2
	.byte	(.LBB5_4-.LBB5_3)>>2
	.byte	(.LBB5_4-.LBB5_3)>>2
	.byte	(.LBB5_4-.LBB5_3)>>2
	.byte	(.LBB5_4-.LBB5_3)>>2
	.byte	(.LBB5_4-.LBB5_3)>>2
	.byte	(.LBB5_4-.LBB5_3)>>2
	.byte	(.LBB5_4-.LBB5_3)>>2
	.byte	(.LBB5_4-.LBB5_3)>>2
	.byte	(.LBB5_4-.LBB5_3)>>2
	.byte	(.LBB5_4-.LBB5_3)>>2
	.byte	(.LBB5_4-.LBB5_3)>>2
	.byte	(.LBB5_3-.LBB5_3)>>2
	.byte	(.LBB5_4-.LBB5_3)>>2
	.byte	(.LBB5_4-.LBB5_3)>>2
	.byte	(.LBB5_11-.LBB5_3)>>2
	.byte	(.LBB5_10-.LBB5_3)>>2
	.byte	(.LBB5_20-.LBB5_3)>>2
	.byte	(.LBB5_24-.LBB5_3)>>2
	.byte	(.LBB5_4-.LBB5_3)>>2
	.byte	(.LBB5_36-.LBB5_3)>>2
	.byte	(.LBB5_25-.LBB5_3)>>2
	.byte	(.LBB5_4-.LBB5_3)>>2
	.byte	(.LBB5_4-.LBB5_3)>>2
	.byte	(.LBB5_7-.LBB5_3)>>2
	.byte	(.LBB5_4-.LBB5_3)>>2
	.byte	(.LBB5_4-.LBB5_3)>>2
	.byte	(.LBB5_16-.LBB5_3)>>2
	.byte	(.LBB5_39-.LBB5_3)>>2
	.byte	(.LBB5_4-.LBB5_3)>>2
	.byte	(.LBB5_6-.LBB5_3)>>2
	.byte	(.LBB5_4-.LBB5_3)>>2
	.byte	(.LBB5_9-.LBB5_3)>>2
	.byte	(.LBB5_34-.LBB5_3)>>2
	.byte	(.LBB5_4-.LBB5_3)>>2
	.byte	(.LBB5_4-.LBB5_3)>>2
	.byte	(.LBB5_4-.LBB5_3)>>2
	.byte	(.LBB5_4-.LBB5_3)>>2
	.byte	(.LBB5_4-.LBB5_3)>>2
	.byte	(.LBB5_8-.LBB5_3)>>2

	.section	.text.unlikely.core.fmt.formatter.Formatter.write_indented.bf264aed5fa78656,"ax",@progbits
	.p2align	2
	.type	core.fmt.formatter.Formatter.write_indented.bf264aed5fa78656,@function
core.fmt.formatter.Formatter.write_indented.bf264aed5fa78656:
	stp	x29, x30, [sp, #-80]!
	str	x25, [sp, #16]
	mov	x29, sp
	stp	x24, x23, [sp, #32]
	stp	x22, x21, [sp, #48]
	stp	x20, x19, [sp, #64]
	cbz	x2, .LBB6_16
	mov	x21, x2
	mov	x20, x1
	mov	x19, x0
	mov	x8, xzr
	mov	x24, xzr
	b	.LBB6_4
.LBB6_2:
	mov	w23, #1
	add	x1, x20, x25
	mov	x0, x19
	mov	x2, x22
	strb	w23, [x19, #1168]
	bl	core.fmt.formatter.Formatter.write_raw.bf264aed5fa78656
	and	w9, w0, #0xff
	mov	x8, x24
	tbnz	w9, #0, .LBB6_18
.LBB6_3:
	cmp	x24, x21
	b.eq	.LBB6_10
.LBB6_4:
	ldrb	w10, [x20, x24]
	mov	x9, x24
	add	x24, x24, #1
	cmp	w10, #10
	b.ne	.LBB6_3
	subs	x22, x24, x8
	csel	x25, xzr, x8, lo
	cmp	x8, x9
	mov	x8, x24
	b.hi	.LBB6_3
	ldrb	w8, [x19, #1168]
	cmp	w8, #1
	b.ne	.LBB6_2
	ldr	x23, [x19, #1160]
	cbz	x23, .LBB6_2
.LBB6_8:
	adrp	x1, .Lstatic.7
	add	x1, x1, :lo12:.Lstatic.7
	mov	x0, x19
	mov	w2, #4
	bl	core.fmt.formatter.Formatter.write_raw.bf264aed5fa78656
	and	w8, w0, #0xff
	tbnz	w8, #0, .LBB6_17
	subs	x23, x23, #1
	b.ne	.LBB6_8
	b	.LBB6_2
.LBB6_10:
	cmp	x8, x21
	csel	x22, xzr, x8, hi
	subs	x8, x21, x8
	csel	x21, xzr, x8, lo
	b.ls	.LBB6_16
	ldrb	w8, [x19, #1168]
	cmp	w8, #1
	b.ne	.LBB6_15
	ldr	x23, [x19, #1160]
	cbz	x23, .LBB6_15
.LBB6_13:
	adrp	x1, .Lstatic.7
	add	x1, x1, :lo12:.Lstatic.7
	mov	x0, x19
	mov	w2, #4
	bl	core.fmt.formatter.Formatter.write_raw.bf264aed5fa78656
	and	w8, w0, #0xff
	tbnz	w8, #0, .LBB6_17
	subs	x23, x23, #1
	b.ne	.LBB6_13
.LBB6_15:
	add	x1, x20, x22
	mov	x0, x19
	mov	x2, x21
	strb	wzr, [x19, #1168]
	ldp	x20, x19, [sp, #64]
	ldp	x22, x21, [sp, #48]
	ldr	x25, [sp, #16]
	ldp	x24, x23, [sp, #32]
	ldp	x29, x30, [sp], #80
	b	core.fmt.formatter.Formatter.write_raw.bf264aed5fa78656
.LBB6_16:
	mov	w23, wzr
	b	.LBB6_18
.LBB6_17:
	mov	w23, #1
.LBB6_18:
	mov	w0, w23
	ldp	x20, x19, [sp, #64]
	ldp	x22, x21, [sp, #48]
	ldr	x25, [sp, #16]
	ldp	x24, x23, [sp, #32]
	ldp	x29, x30, [sp], #80
	ret
.Lfunc_end6:
	.size	core.fmt.formatter.Formatter.write_indented.bf264aed5fa78656, .Lfunc_end6-core.fmt.formatter.Formatter.write_indented.bf264aed5fa78656

	.section	.text.core.fmt.formatter.Formatter.write_raw.bf264aed5fa78656,"ax",@progbits
	.p2align	2
	.type	core.fmt.formatter.Formatter.write_raw.bf264aed5fa78656,@function
core.fmt.formatter.Formatter.write_raw.bf264aed5fa78656:
	cbz	x2, .LBB7_21
	stp	x29, x30, [sp, #-64]!
	stp	x22, x21, [sp, #32]
	mov	x21, x0
	mov	x8, xzr
	stp	x20, x19, [sp, #48]
	mov	x19, x2
	mov	x20, x1
	str	x23, [sp, #16]
	mov	x29, sp
	b	.LBB7_4
.LBB7_2:
	mov	w10, #1
.LBB7_3:
	add	x8, x10, x8
	cmp	x8, x19
	b.hs	.LBB7_22
.LBB7_4:
	ldrsb	w9, [x20, x8]
	tbz	w9, #31, .LBB7_2
	add	x10, x8, #1
	cmp	x19, x10
	b.ls	.LBB7_29
	ldrsb	w10, [x20, x10]
	tbz	w10, #31, .LBB7_29
	and	w9, w9, #0xff
	cmn	w10, #64
	mov	w11, #-64
	csel	w10, w10, w11, lo
	cmp	w9, #194
	mov	w0, #1
	b.lo	.LBB7_28
	and	w10, w10, #0x7f
	cmp	w10, #63
	b.hi	.LBB7_28
	cmp	w9, #224
	b.hs	.LBB7_11
	mov	w10, #2
	b	.LBB7_3
.LBB7_11:
	add	x11, x8, #2
	cmp	x19, x11
	b.ls	.LBB7_28
	ldrsb	w11, [x20, x11]
	cmn	w11, #65
	b.gt	.LBB7_28
	cmp	w9, #239
	b.hi	.LBB7_17
	lsl	w11, w9, #12
	add	w10, w11, w10, lsl #6
	sub	w10, w10, #224, lsl #12
	cmp	w10, #2048
	b.lo	.LBB7_28
	lsr	w10, w10, #11
	cmp	w10, #27
	mov	w10, #3
	b.lo	.LBB7_3
	cmp	w9, #238
	b.hs	.LBB7_3
	b	.LBB7_28
.LBB7_17:
	add	x11, x8, #3
	cmp	x19, x11
	b.ls	.LBB7_28
	ldrsb	w11, [x20, x11]
	cmn	w11, #65
	b.gt	.LBB7_28
	lsl	w9, w9, #18
	add	w9, w9, w10, lsl #12
	mov	w10, #-62980096
	add	w9, w9, w10
	lsr	w9, w9, #20
	cbnz	w9, .LBB7_28
	mov	w10, #4
	b	.LBB7_3
.LBB7_21:
	mov	w0, wzr
	ret
.LBB7_22:
	ldr	x8, [x21, #1032]
	add	x22, x21, #4
	b	.LBB7_24
.LBB7_23:
	sub	x19, x19, #1
	strb	w23, [x22, x8]
	add	x8, x8, #1
	str	x8, [x21, #1032]
	cbz	x19, .LBB7_30
.LBB7_24:
	ldrb	w23, [x20], #1
	cmp	x8, #1024
	b.lo	.LBB7_23
	mov	x0, x21
	bl	std_io.io.buffer.Buffer.flush
	cbz	w0, .LBB7_29
	ldr	x8, [x21, #1032]
	cmp	x8, #1023
	b.ls	.LBB7_23
	mov	w0, #1
.LBB7_28:
	ldp	x20, x19, [sp, #48]
	ldr	x23, [sp, #16]
	ldp	x22, x21, [sp, #32]
	ldp	x29, x30, [sp], #64
	ret
.LBB7_29:
	mov	w0, #1
	ldp	x20, x19, [sp, #48]
	ldr	x23, [sp, #16]
	ldp	x22, x21, [sp, #32]
	ldp	x29, x30, [sp], #64
	ret
.LBB7_30:
	mov	w0, wzr
	ldp	x20, x19, [sp, #48]
	ldr	x23, [sp, #16]
	ldp	x22, x21, [sp, #32]
	ldp	x29, x30, [sp], #64
	ret
.Lfunc_end7:
	.size	core.fmt.formatter.Formatter.write_raw.bf264aed5fa78656, .Lfunc_end7-core.fmt.formatter.Formatter.write_raw.bf264aed5fa78656

	.section	.rodata.cst16,"aM",@progbits,16
	.p2align	4, 0x0
.LCPI8_0:
	.byte	1
	.byte	2
	.byte	4
	.byte	8
	.byte	16
	.byte	32
	.byte	64
	.byte	128
	.byte	1
	.byte	2
	.byte	4
	.byte	8
	.byte	16
	.byte	32
	.byte	64
	.byte	128
	.section	.text.core.cmp.text.RefStrPartialEq.eq,"ax",@progbits
	.p2align	2
	.type	core.cmp.text.RefStrPartialEq.eq,@function
core.cmp.text.RefStrPartialEq.eq:
	cmp	x1, x3
	b.ne	.LBB8_4
	cmp	x1, #7
	b.hi	.LBB8_5
	subs	x8, x1, #4
	b.lo	.LBB8_7
	ldr	w9, [x0]
	ldr	w10, [x0, x8]
	ldr	w11, [x2]
	ldr	w8, [x2, x8]
	orr	x9, x9, x10, lsl #32
	orr	x10, x11, x8, lsl #32
	rev	x8, x9
	rev	x9, x10
	cmp	x8, x9
	cset	w0, eq
	ret
.LBB8_4:
	mov	w0, wzr
	ret
.LBB8_5:
	cmp	x1, #32
	b.hi	.LBB8_9
	sub	x8, x1, #8
	mov	w11, #8
	ldr	x9, [x0]
	cmp	x8, #8
	ldr	x10, [x2]
	mov	w12, #16
	csel	x11, x8, x11, lo
	cmp	x8, #16
	csel	x12, x8, x12, lo
	ldr	x13, [x0, x11]
	ldr	x11, [x2, x11]
	cmp	x9, x10
	ldr	x9, [x0, x12]
	ldr	x10, [x2, x12]
	ccmp	x13, x11, #0, eq
	ldr	x11, [x0, x8]
	ldr	x8, [x2, x8]
	ccmp	x9, x10, #0, eq
	ccmp	x11, x8, #0, eq
	cset	w0, eq
	ret
.LBB8_7:
	cbz	x1, .LBB8_14
	ldrb	w8, [x0]
	lsr	x9, x1, #1
	ldrb	w10, [x2]
	sub	x12, x1, #1
	ldrb	w11, [x0, x9]
	lsl	x8, x8, #16
	ldrb	w9, [x2, x9]
	lsl	x10, x10, #16
	orr	x8, x8, x11, lsl #8
	ldrb	w11, [x0, x12]
	orr	x9, x10, x9, lsl #8
	ldrb	w10, [x2, x12]
	orr	x8, x8, x11
	orr	x9, x9, x10
	cmp	x8, x9
	cset	w0, eq
	ret
.LBB8_9:
	cmp	x1, #65
	mov	x8, x0
	mov	x9, x2
	mov	x10, x1
	b.hs	.LBB8_11
	ldp	q0, q2, [x0]
	sub	x8, x1, #16
	ldp	q1, q3, [x2]
	adrp	x9, .LCPI8_0
	mov	w10, #32
	cmp	x8, #32
	ldr	q5, [x2, x8]
	cmeq	v0.16b, v0.16b, v1.16b
	ldr	q1, [x9, :lo12:.LCPI8_0]
	cmeq	v2.16b, v2.16b, v3.16b
	csel	x9, x8, x10, lo
	ldr	q3, [x0, x9]
	ldr	q4, [x2, x9]
	bic	v0.16b, v1.16b, v0.16b
	bic	v2.16b, v1.16b, v2.16b
	cmeq	v3.16b, v3.16b, v4.16b
	ldr	q4, [x0, x8]
	addp	v0.16b, v0.16b, v0.16b
	cmeq	v4.16b, v4.16b, v5.16b
	addp	v2.16b, v2.16b, v2.16b
	bic	v3.16b, v1.16b, v3.16b
	addp	v0.16b, v0.16b, v0.16b
	bic	v1.16b, v1.16b, v4.16b
	addp	v2.16b, v2.16b, v2.16b
	addp	v3.16b, v3.16b, v3.16b
	addp	v0.16b, v0.16b, v0.16b
	addp	v2.16b, v2.16b, v2.16b
	addp	v1.16b, v1.16b, v1.16b
	addp	v3.16b, v3.16b, v3.16b
	orr	v0.16b, v2.16b, v0.16b
	addp	v1.16b, v1.16b, v1.16b
	addp	v2.16b, v3.16b, v3.16b
	addp	v1.16b, v1.16b, v1.16b
	orr	v0.16b, v0.16b, v2.16b
	orr	v0.16b, v0.16b, v1.16b
	umov	w8, v0.h[0]
	tst	w8, #0xffff
	cset	w8, ne
	eor	w0, w8, #0x1
	ret
.LBB8_11:
	ldp	q0, q6, [x8]
	adrp	x11, .LCPI8_0
	ldp	q1, q2, [x8, #32]
	ldp	q3, q7, [x9]
	ldp	q5, q4, [x9, #32]
	cmeq	v3.16b, v0.16b, v3.16b
	ldr	q0, [x11, :lo12:.LCPI8_0]
	cmeq	v2.16b, v2.16b, v4.16b
	cmeq	v1.16b, v1.16b, v5.16b
	cmeq	v4.16b, v6.16b, v7.16b
	bic	v3.16b, v0.16b, v3.16b
	bic	v4.16b, v0.16b, v4.16b
	bic	v1.16b, v0.16b, v1.16b
	bic	v2.16b, v0.16b, v2.16b
	addp	v3.16b, v3.16b, v4.16b
	addp	v1.16b, v1.16b, v2.16b
	addp	v1.16b, v3.16b, v1.16b
	addp	v1.16b, v1.16b, v1.16b
	fmov	x11, d1
	cbnz	x11, .LBB8_15
	sub	x10, x10, #64
	add	x9, x9, #64
	add	x8, x8, #64
	cmp	x10, #65
	b.hs	.LBB8_11
	sub	x8, x1, #64
	add	x9, x0, x8
	add	x8, x2, x8
	ldp	q1, q2, [x9]
	ldp	q3, q4, [x9, #32]
	ldp	q5, q6, [x8]
	ldp	q7, q16, [x8, #32]
	cmeq	v1.16b, v1.16b, v5.16b
	cmeq	v2.16b, v2.16b, v6.16b
	cmeq	v4.16b, v4.16b, v16.16b
	cmeq	v3.16b, v3.16b, v7.16b
	bic	v1.16b, v0.16b, v1.16b
	bic	v2.16b, v0.16b, v2.16b
	bic	v3.16b, v0.16b, v3.16b
	bic	v0.16b, v0.16b, v4.16b
	addp	v1.16b, v1.16b, v2.16b
	addp	v0.16b, v3.16b, v0.16b
	addp	v0.16b, v1.16b, v0.16b
	addp	v0.16b, v0.16b, v0.16b
	fmov	x8, d0
	cmp	x8, #0
	cset	w8, ne
	eor	w0, w8, #0x1
	ret
.LBB8_14:
	cmp	xzr, xzr
	cset	w0, eq
	ret
.LBB8_15:
	mov	w8, #1
	eor	w0, w8, #0x1
	ret
.Lfunc_end8:
	.size	core.cmp.text.RefStrPartialEq.eq, .Lfunc_end8-core.cmp.text.RefStrPartialEq.eq

	.section	.text.line_filter.program.write_text,"ax",@progbits
	.p2align	2
	.type	line_filter.program.write_text,@function
line_filter.program.write_text:
	stp	x29, x30, [sp, #-80]!
	str	x28, [sp, #16]
	mov	x29, sp
	stp	x24, x23, [sp, #32]
	stp	x22, x21, [sp, #48]
	stp	x20, x19, [sp, #64]
	sub	sp, sp, #2448
	movi	v0.2d, #0000000000000000
	add	x22, sp, #136
	mov	x20, x1
	mov	x21, x0
	mov	w8, #1
	orr	x0, x22, #0x4
	mov	w1, wzr
	mov	w2, #1132
	str	xzr, [sp]
	str	w8, [sp, #136]
	orr	x19, x22, #0x4
	stp	q0, q0, [sp]
	bl	memset
	movi	v0.2d, #0000000000000000
	mov	w9, #32
	add	x23, x22, #1140
	str	w9, [sp, #1272]
	add	x10, x22, #1160
	add	x11, sp, #1017
	str	xzr, [x23]
	mov	x8, xzr
	add	x22, x22, #1136
	str	wzr, [sp, #1284]
	str	q0, [x10]
	ldur	q0, [x11, #255]
	mov	x10, #-1
	str	x10, [sp, #1288]
	str	q0, [sp, #1312]
	str	x10, [sp, #1328]
	str	w9, [sp, #1272]
	str	xzr, [x23]
	str	wzr, [sp, #1284]
	b	.LBB9_2
.LBB9_1:
	sub	x20, x20, #1
	strb	w24, [x19, x8]
	add	x8, x8, #1
	str	x8, [sp, #1168]
	cbz	x20, .LBB9_6
.LBB9_2:
	ldrb	w24, [x21], #1
	cmp	x8, #1024
	b.lo	.LBB9_1
	add	x0, sp, #136
	bl	std_io.io.buffer.Buffer.flush
	cbz	w0, .LBB9_5
	ldr	x8, [sp, #1168]
	cmp	x8, #1023
	b.ls	.LBB9_1
.LBB9_5:
	mov	w20, wzr
	b	.LBB9_8
.LBB9_6:
	ldr	q0, [sp, #1312]
	ldr	x8, [sp, #1328]
	mov	w9, #32
	str	q0, [x22]
	str	x8, [x22, #16]
	ldr	q0, [x22]
	str	w9, [sp, #1272]
	ldr	x9, [sp, #1296]
	str	x8, [sp, #1328]
	mov	x8, #-1
	str	xzr, [x23]
	str	q0, [sp, #1312]
	str	wzr, [x23, #8]
	str	x8, [sp, #1288]
	cbnz	x9, .LBB9_11
	mov	w20, #1
.LBB9_8:
	ldr	x8, [sp, #1328]
	ldr	q0, [sp, #1312]
	mov	x1, x19
	mov	w2, #1132
	str	x8, [x22, #16]
	ldr	w8, [sp, #136]
	str	q0, [x22]
	str	w8, [sp, #1312]
	add	x8, sp, #1312
	orr	x0, x8, #0x4
	bl	memcpy
	add	x0, sp, #1312
	bl	std_io.io.buffer.Buffer.flush
	and	w19, w20, w0
	tbnz	w19, #0, .LBB9_10
	adrp	x8, .Lstatic.0
	add	x8, x8, :lo12:.Lstatic.0
	mov	w9, #8
	stp	x8, x9, [sp]
	adrp	x8, .Lstatic.12
	add	x8, x8, :lo12:.Lstatic.12
	mov	w9, #14
	add	x0, sp, #40
	mov	x1, sp
	stp	x8, x9, [sp, #16]
	bl	std_io.io.LibcRuntimeEprint.eprintln.27a8a20715d85f24
.LBB9_10:
	eor	w0, w19, #0x1
	add	sp, sp, #2448
	ldp	x20, x19, [sp, #64]
	ldr	x28, [sp, #16]
	ldp	x22, x21, [sp, #48]
	ldp	x24, x23, [sp, #32]
	ldp	x29, x30, [sp], #80
	ret
.LBB9_11:
	adrp	x1, .Lstatic.3
	add	x1, x1, :lo12:.Lstatic.3
	add	x0, sp, #136
	mov	x2, xzr
	bl	core.fmt.formatter.Formatter.write_indented.bf264aed5fa78656
	tst	w0, #0xff
	cset	w20, eq
	b	.LBB9_8
.Lfunc_end9:
	.size	line_filter.program.write_text, .Lfunc_end9-line_filter.program.write_text

	.section	.text.unlikely.std_alloc.vec.Vec.grow_amortized.05fa32d921161499,"ax",@progbits
	.p2align	2
	.type	std_alloc.vec.Vec.grow_amortized.05fa32d921161499,@function
std_alloc.vec.Vec.grow_amortized.05fa32d921161499:
	ldr	x8, [x0, #8]
	cmn	x8, x1
	b.lo	.LBB10_2
	mov	w0, wzr
	ret
.LBB10_2:
	stp	x29, x30, [sp, #-32]!
	ldr	x10, [x0, #16]
	add	x9, x8, x1
	mov	w11, #8
	cmp	x9, #8
	stp	x20, x19, [sp, #16]
	mov	x29, sp
	lsl	x12, x10, #1
	csel	x11, x9, x11, hi
	lsr	x13, x10, #62
	cmp	x11, x12
	csel	x9, x11, x12, hi
	cmp	x13, #0
	csel	x19, x9, x11, eq
	tbnz	x19, #63, .LBB10_7
	cbz	x10, .LBB10_6
	mov	x20, x0
	ldr	x0, [x0]
	mov	x1, x8
	mov	x2, x19
	mov	w3, #1
	bl	rattle_realloc
	tbz	w0, #0, .LBB10_7
.LBB10_5:
	mov	w0, #1
	str	x1, [x20]
	str	x19, [x20, #16]
	ldp	x20, x19, [sp, #16]
	ldp	x29, x30, [sp], #32
	ret
.LBB10_6:
	mov	x20, x0
	mov	x0, x9
	mov	w1, #1
	bl	rattle_alloc
	tbnz	w0, #0, .LBB10_5
.LBB10_7:
	mov	w0, wzr
	ldp	x20, x19, [sp, #16]
	ldp	x29, x30, [sp], #32
	ret
.Lfunc_end10:
	.size	std_alloc.vec.Vec.grow_amortized.05fa32d921161499, .Lfunc_end10-std_alloc.vec.Vec.grow_amortized.05fa32d921161499

	.section	.rodata.cst16,"aM",@progbits,16
	.p2align	4, 0x0
.LCPI11_0:
	.byte	1
	.byte	2
	.byte	4
	.byte	8
	.byte	16
	.byte	32
	.byte	64
	.byte	128
	.byte	1
	.byte	2
	.byte	4
	.byte	8
	.byte	16
	.byte	32
	.byte	64
	.byte	128
	.section	.rodata.cst8,"aM",@progbits,8
	.p2align	3, 0x0
.LCPI11_1:
	.byte	101
	.byte	109
	.byte	112
	.byte	116
	.byte	121
	.byte	45
	.byte	112
	.byte	111
.LCPI11_2:
	.byte	114
	.byte	116
	.byte	115
	.byte	10
	.zero	1
	.zero	1
	.zero	1
	.zero	1
.LCPI11_3:
	.byte	117
	.byte	110
	.byte	102
	.byte	105
	.zero	1
	.zero	1
	.zero	1
	.zero	1
.LCPI11_4:
	.byte	110
	.byte	111
	.byte	116
	.byte	104
	.zero	1
	.zero	1
	.zero	1
	.zero	1
	.section	.text.line_filter.answers.AnsweringTake.take.460d80f9416d9dfa,"ax",@progbits
	.p2align	2
	.type	line_filter.answers.AnsweringTake.take.460d80f9416d9dfa,@function
line_filter.answers.AnsweringTake.take.460d80f9416d9dfa:
	sub	sp, sp, #224
	lsr	x9, x2, #1
	ldr	x8, [x0, #8]
	stp	x28, x27, [sp, #144]
	stp	x20, x19, [sp, #208]
	mov	x28, x3
	subs	x20, x9, x8
	str	d8, [sp, #112]
	stp	x29, x30, [sp, #128]
	add	x29, sp, #128
	stp	x26, x25, [sp, #160]
	stp	x24, x23, [sp, #176]
	stp	x22, x21, [sp, #192]
	b.ls	.LBB11_5
	ldr	x19, [x0, #16]
	sub	x9, x19, x8
	cmp	x20, x9
	b.hi	.LBB11_39
	add	x21, x8, x20
	ldr	x22, [x0]
	cmp	x8, x21
	b.hs	.LBB11_4
.LBB11_3:
	mov	x23, x0
	add	x0, x22, x8
	mov	x24, x1
	mov	w1, wzr
	mov	x25, x2
	mov	x2, x20
	bl	memset
	mov	x0, x23
	mov	x2, x25
	mov	x1, x24
.LBB11_4:
	mov	x8, x21
	stp	x22, x21, [x0]
	str	x19, [x0, #16]
	b	.LBB11_7
.LBB11_5:
	b.hs	.LBB11_7
	str	x9, [x0, #8]
	mov	x8, x9
.LBB11_7:
	tbnz	w2, #0, .LBB11_10
	ldr	x27, [x0]
	cmp	x2, #2
	adrp	x9, .Lstatic.14
	add	x9, x9, :lo12:.Lstatic.14
	b.lo	.LBB11_13
	ldrb	w10, [x1]
	ldrb	w10, [x9, x10]
	cmp	w10, #15
	b.ls	.LBB11_13
.LBB11_10:
	ldp	x10, x8, [x28, #8]
	sub	x9, x8, x10
	cmp	x9, #6
	b.ls	.LBB11_37
.LBB11_11:
	ldr	x9, [x28]
	adrp	x12, .Lstatic.13
	add	x12, x12, :lo12:.Lstatic.13
	add	x11, x9, x10
	add	x10, x10, #7
	sub	x12, x11, x12
	cmp	x12, #6
	b.hi	.LBB11_18
	adrp	x12, .LCPI11_4
	mov	w13, #30821
	ldr	d0, [x12, :lo12:.LCPI11_4]
	mov	w12, #10
	strh	w13, [x11, #4]
	strb	w12, [x11, #6]
	str	s0, [x11]
	b	.LBB11_19
.LBB11_13:
	cmp	x8, #16
	b.lo	.LBB11_22
	mov	x10, xzr
	mov	x11, x1
	mov	x12, x8
.LBB11_15:
	movi	v0.16b, #32
	movi	v3.16b, #159
	adrp	x13, .LCPI11_0
	ldp	q2, q1, [x11], #32
	movi	v5.16b, #208
	movi	v6.16b, #6
	movi	v7.16b, #169
	movi	v17.16b, #10
	orr	v4.16b, v1.16b, v0.16b
	orr	v0.16b, v2.16b, v0.16b
	add	v2.16b, v2.16b, v5.16b
	add	v1.16b, v1.16b, v5.16b
	add	v16.16b, v4.16b, v3.16b
	add	v3.16b, v0.16b, v3.16b
	add	v4.16b, v4.16b, v7.16b
	add	v0.16b, v0.16b, v7.16b
	cmhi	v5.16b, v17.16b, v2.16b
	cmhs	v16.16b, v16.16b, v6.16b
	cmhs	v3.16b, v3.16b, v6.16b
	orr	v4.16b, v16.16b, v4.16b
	orr	v0.16b, v3.16b, v0.16b
	cmhi	v3.16b, v17.16b, v1.16b
	bit	v0.16b, v2.16b, v5.16b
	bif	v1.16b, v4.16b, v3.16b
	movi	v2.16b, #15
	ldr	q4, [x13, :lo12:.LCPI11_0]
	cmhi	v3.16b, v1.16b, v2.16b
	cmhi	v2.16b, v0.16b, v2.16b
	and	v2.16b, v2.16b, v4.16b
	and	v3.16b, v3.16b, v4.16b
	addp	v2.16b, v2.16b, v3.16b
	addp	v2.16b, v2.16b, v2.16b
	addp	v2.16b, v2.16b, v2.16b
	fmov	w13, s2
	cbnz	w13, .LBB11_17
	uzp1	v2.16b, v0.16b, v1.16b
	uzp2	v0.16b, v0.16b, v1.16b
	sub	x12, x12, #16
	cmp	x12, #15
	shl	v1.16b, v2.16b, #4
	orr	v0.16b, v1.16b, v0.16b
	str	q0, [x27, x10]
	add	x10, x10, #16
	b.hi	.LBB11_15
.LBB11_17:
	subs	x11, x8, x10
	b.hi	.LBB11_23
	b	.LBB11_26
.LBB11_18:
	mov	w12, #25960
	mov	w13, #28526
	movk	w12, #2680, lsl #16
	movk	w13, #26740, lsl #16
	stur	w12, [x11, #3]
	str	w13, [x11]
.LBB11_19:
	mov	w0, wzr
	stp	x9, x10, [x28]
.LBB11_20:
	str	x8, [x28, #16]
.LBB11_21:
	ldp	x20, x19, [sp, #208]
	ldr	d8, [sp, #112]
	ldp	x22, x21, [sp, #192]
	ldp	x24, x23, [sp, #176]
	ldp	x26, x25, [sp, #160]
	ldp	x28, x27, [sp, #144]
	ldp	x29, x30, [sp, #128]
	add	sp, sp, #224
	ret
.LBB11_22:
	mov	x10, xzr
	subs	x11, x8, xzr
	b.ls	.LBB11_26
.LBB11_23:
	add	x12, x1, x10, lsl #1
	add	x10, x27, x10
	add	x12, x12, #1
.LBB11_24:
	ldurb	w13, [x12, #-1]
	ldrb	w14, [x12], #2
	ldrb	w13, [x9, x13]
	ldrb	w14, [x9, x14]
	orr	w15, w14, w13
	cmp	w15, #15
	b.hi	.LBB11_10
	orr	w13, w14, w13, lsl #4
	subs	x11, x11, #1
	strb	w13, [x10], #1
	b.ne	.LBB11_24
.LBB11_26:
	subs	x24, x8, #16
	b.hs	.LBB11_29
.LBB11_27:
	ldp	x9, x8, [x28, #8]
	sub	x10, x8, x9
	cmp	x10, #7
	b.ls	.LBB11_50
.LBB11_28:
	mov	x11, #25970
	ldr	x10, [x28]
	mov	w0, wzr
	movk	x11, #30054, lsl #16
	movk	x11, #25971, lsl #32
	movk	x11, #2660, lsl #48
	str	x11, [x10, x9]
	add	x9, x9, #8
	stp	x10, x9, [x28]
	b	.LBB11_20
.LBB11_29:
	mov	x20, x27
	ldrb	w12, [x20], #16
	cmp	w12, #6
	b.le	.LBB11_34
	cmp	w12, #7
	b.eq	.LBB11_41
	cmp	w12, #10
	b.eq	.LBB11_42
	cmp	w12, #45
	b.ne	.LBB11_43
	mov	w12, #4
	b	.LBB11_44
.LBB11_34:
	cbz	w12, .LBB11_44
	cmp	w12, #2
	b.ne	.LBB11_43
	mov	w12, #1
	b	.LBB11_44
.LBB11_37:
	mov	x0, x28
	mov	w1, #7
	bl	std_alloc.vec.Vec.grow_amortized.05fa32d921161499
	cbz	w0, .LBB11_203
	ldp	x10, x8, [x28, #8]
	b	.LBB11_11
.LBB11_39:
	mov	x22, x1
	mov	x1, x20
	mov	x21, x2
	mov	x19, x0
	bl	std_alloc.vec.Vec.grow_amortized.05fa32d921161499
	cbz	w0, .LBB11_203
	mov	x0, x19
	ldp	x8, x19, [x19, #8]
	mov	x1, x22
	mov	x2, x21
	add	x21, x8, x20
	ldr	x22, [x0]
	cmp	x8, x21
	b.lo	.LBB11_3
	b	.LBB11_4
.LBB11_41:
	mov	w12, #2
	b	.LBB11_44
.LBB11_42:
	mov	w12, #3
	b	.LBB11_44
.LBB11_43:
	mov	w8, #5
	orr	x12, x8, x12, lsl #8
.LBB11_44:
	ldrh	w13, [x27, #2]
	ldr	w8, [x27, #4]
	cmp	w13, #32
	str	w8, [sp, #20]
	b.hi	.LBB11_47
	adrp	x8, .LJTI11_0
	add	x8, x8, :lo12:.LJTI11_0
	adr	x9, .LBB11_46
	ldrb	w10, [x8, x13]
	add	x9, x9, x10, lsl #2
	br	x9
.LBB11_46:
	mov	w13, #1
	b	.LBB11_78
.LBB11_47:
	sub	w8, w13, #256
	cmp	w8, #34
	b.hi	.LBB11_65
	adrp	x9, .LJTI11_1
	add	x9, x9, :lo12:.LJTI11_1
	adr	x10, .LBB11_49
	ldrb	w11, [x9, x8]
	add	x10, x10, x11, lsl #2
	br	x10
.LBB11_49:
	mov	w13, #15
	b	.LBB11_78
.LBB11_50:
	mov	x0, x28
	mov	w1, #8
	bl	std_alloc.vec.Vec.grow_amortized.05fa32d921161499
	cbz	w0, .LBB11_203
	ldp	x9, x8, [x28, #8]
	b	.LBB11_28
.LBB11_52:
	mov	w13, #14
	b	.LBB11_78
.LBB11_53:
	mov	w13, #11
	b	.LBB11_78
.LBB11_54:
	mov	w13, #7
	b	.LBB11_78
.LBB11_55:
	mov	w13, #13
	b	.LBB11_78
.LBB11_56:
	mov	w13, #5
	b	.LBB11_78
.LBB11_57:
	mov	w13, #3
	b	.LBB11_78
.LBB11_58:
	mov	w13, #9
	b	.LBB11_78
.LBB11_59:
	mov	w13, #10
	b	.LBB11_78
.LBB11_60:
	mov	w13, #2
	b	.LBB11_78
.LBB11_61:
	mov	w13, #4
	b	.LBB11_78
.LBB11_62:
	mov	w13, #6
	b	.LBB11_78
.LBB11_63:
	mov	w13, #8
	b	.LBB11_78
.LBB11_64:
	mov	w13, #12
	b	.LBB11_78
.LBB11_65:
	sub	w8, w13, #512
	cmp	w8, #314
	b.hi	.LBB11_263
	adrp	x9, .LJTI11_2
	add	x9, x9, :lo12:.LJTI11_2
	mov	w13, #26
	adr	x10, .LBB11_67
	ldrh	w11, [x9, x8, lsl #1]
	add	x10, x10, x11, lsl #2
	br	x10
.LBB11_67:
	mov	w13, #27
	b	.LBB11_78
.LBB11_68:
	mov	w13, #23
	b	.LBB11_78
.LBB11_69:
	mov	w13, #22
	b	.LBB11_78
.LBB11_70:
	mov	w13, #18
	b	.LBB11_78
.LBB11_71:
	mov	w13, #20
	b	.LBB11_78
.LBB11_72:
	mov	w13, #21
	b	.LBB11_78
.LBB11_73:
	mov	w13, #16
	b	.LBB11_78
.LBB11_74:
	mov	w13, #25
	b	.LBB11_78
.LBB11_75:
	mov	w13, #17
	b	.LBB11_78
.LBB11_76:
	mov	w13, #24
	b	.LBB11_78
.LBB11_77:
	mov	w13, #19
.LBB11_78:
	ldr	d8, [x27, #8]
	str	x13, [sp, #8]
	mov	x13, xzr
	str	x12, [sp, #24]
	cbz	x24, .LBB11_111
	mov	x23, xzr
	and	w12, w12, #0xfffe
	mov	x21, x24
	mov	x22, x20
.LBB11_80:
	sub	x21, x21, x23
	cmp	x21, #4
	b.lo	.LBB11_111
	add	x22, x22, x23
	ldrh	w25, [x22]
	cmp	w25, #4
	b.lo	.LBB11_111
	cmp	x21, x25
	b.lo	.LBB11_111
	add	w8, w25, #3
	and	x23, x8, #0x1fffc
	sub	x8, x24, x13
	cmp	x23, x8
	b.hi	.LBB11_111
	ldrb	w8, [x22, #2]
	sub	x11, x23, x25
	ldrb	w9, [x22, #3]
	add	x10, x20, x13
	cmp	x11, #3
	add	x10, x10, x25
	b.eq	.LBB11_90
	cmp	x11, #2
	b.eq	.LBB11_88
	cmp	x11, #1
	b.ne	.LBB11_93
	ldrb	w10, [x10]
	cbz	w10, .LBB11_93
	b	.LBB11_111
.LBB11_88:
	ldrb	w11, [x10]
	cbnz	w11, .LBB11_111
	ldrb	w10, [x10, #1]
	cbz	w10, .LBB11_93
	b	.LBB11_111
.LBB11_90:
	ldrb	w11, [x10]
	cbnz	w11, .LBB11_111
	ldrb	w11, [x10, #1]
	cbnz	w11, .LBB11_111
	ldrb	w10, [x10, #2]
	cbnz	w10, .LBB11_111
.LBB11_93:
	cmp	w9, #63
	b.hi	.LBB11_111
	lsl	w9, w9, #8
	sub	x1, x25, #4
	sub	x26, x25, #4
	and	w9, w9, #0x3f00
	orr	w8, w9, w8
	cbnz	x1, .LBB11_96
	cmp	w8, #24
	b.eq	.LBB11_111
.LBB11_96:
	sub	w8, w8, #1
	cmp	w8, #68
	b.hi	.LBB11_101
	adrp	x9, .LJTI11_3
	add	x9, x9, :lo12:.LJTI11_3
	adr	x10, .LBB11_98
	ldrb	w11, [x9, x8]
	add	x10, x10, x11, lsl #2
	mov	w8, #1
	br	x10
.LBB11_98:
	cmp	x26, #4
	cset	w8, eq
	csel	x1, x26, xzr, eq
.LBB11_99:
	cbz	w8, .LBB11_111
	cmp	x1, x26
	b.ne	.LBB11_111
.LBB11_101:
	sub	x8, x25, #1
	cmp	x21, x23
	and	x8, x8, #0xfffffffffffffffc
	add	x8, x13, x8
	add	x13, x8, #4
	b.hi	.LBB11_80
	b	.LBB11_111
.LBB11_102:
	add	x0, x22, #4
	sub	x1, x25, #4
	mov	x19, x13
	stur	x27, [x29, #-8]
	mov	w27, w12
	bl	nla_wire.payload.measure_text
	and	w8, w0, #0xff
	mov	w12, w27
	ldur	x27, [x29, #-8]
	cmp	w8, #1
	mov	x13, x19
	cset	w8, eq
	b	.LBB11_99
.LBB11_103:
	cmp	x26, #1
	cset	w8, eq
	mov	x1, x8
	b	.LBB11_99
.LBB11_104:
	cmp	x26, #2
	b.ne	.LBB11_101
	mov	w8, #1
	mov	w1, #2
	b	.LBB11_99
.LBB11_106:
	ldr	x8, [sp, #24]
	and	w9, w8, #0xff
	sub	w8, w9, #3
	cmp	w8, #3
	mov	w8, #1
	b.lo	.LBB11_99
	cmp	w9, #1
	b.eq	.LBB11_99
	b	.LBB11_111
.LBB11_108:
	and	w8, w12, #0xff
	cmp	w8, #2
	b.ne	.LBB11_101
	b	.LBB11_111
.LBB11_109:
	mov	w8, #1
	mov	w1, #200
	b	.LBB11_99
.LBB11_110:
	mov	w8, #1
	mov	w1, #96
	b	.LBB11_99
.LBB11_111:
	subs	x25, x24, x13
	stur	x28, [x29, #-8]
	str	x13, [sp, #32]
	str	x25, [sp]
	b.eq	.LBB11_151
	mov	w28, wzr
	mov	x21, xzr
	mov	x8, xzr
	add	x23, x20, x13
.LBB11_113:
	sub	x25, x25, x8
	cmp	x25, #4
	b.lo	.LBB11_153
	add	x23, x23, x8
	ldrh	w22, [x23]
	cmp	w22, #4
	b.lo	.LBB11_153
	cmp	x25, x22
	b.lo	.LBB11_153
	ldrb	w19, [x23, #2]
	ldrb	w8, [x23, #3]
	sub	x1, x22, #4
	bfi	w19, w8, #8, #6
	sub	w8, w19, #3
	cmp	w8, #66
	b.hi	.LBB11_148
	adrp	x9, .LJTI11_4
	add	x9, x9, :lo12:.LJTI11_4
	adr	x10, .LBB11_118
	ldrb	w11, [x9, x8]
	add	x10, x10, x11, lsl #2
	br	x10
.LBB11_118:
	cmp	x1, #4
	b.eq	.LBB11_148
	b	.LBB11_153
.LBB11_119:
	add	x0, x23, #4
	sub	x1, x22, #4
	bl	nla_wire.payload.measure_text
	ldr	x13, [sp, #32]
	and	w8, w0, #0xff
	cmp	w8, #1
	b.eq	.LBB11_148
	b	.LBB11_153
.LBB11_120:
	cmp	x1, #1
	b.eq	.LBB11_148
	b	.LBB11_153
.LBB11_121:
	cmp	x1, #2
	b.ne	.LBB11_148
	mov	w1, #2
	b	.LBB11_148
.LBB11_123:
	cmp	x1, #32
	mov	w8, #32
	csel	x1, x1, x8, lo
	b	.LBB11_148
.LBB11_124:
	add	x0, x23, #4
	sub	x1, x22, #4
	bl	nla_wire.members.measure_each.5fa77b269143286c
	ldr	x13, [sp, #32]
	and	w8, w0, #0xff
	cmp	w8, #1
	b.eq	.LBB11_147
	b	.LBB11_153
.LBB11_125:
	add	x0, x23, #4
	sub	x1, x22, #4
	bl	nla_wire.members.measure_each.f7f30aae703aa44d
	ldr	x13, [sp, #32]
	and	w8, w0, #0xff
	cmp	w8, #1
	b.eq	.LBB11_147
	b	.LBB11_153
.LBB11_126:
	cbz	x1, .LBB11_153
	add	x0, x23, #4
	sub	x1, x22, #4
	bl	nla_wire.members.measure_each.79503c7a397af21a
	ldr	x13, [sp, #32]
	and	w8, w0, #0xff
	cmp	w8, #1
	b.eq	.LBB11_147
	b	.LBB11_153
.LBB11_128:
	add	x0, x23, #4
	sub	x1, x22, #4
	bl	nla_wire.members.measure_each.3bb4c8661a1029f4
	ldr	x13, [sp, #32]
	and	w8, w0, #0xff
	cmp	w8, #1
	b.eq	.LBB11_147
	b	.LBB11_153
.LBB11_129:
	cbz	x1, .LBB11_153
	add	x0, x23, #4
	sub	x1, x22, #4
	bl	nla_wire.members.measure_each.49064c0641319ce4
	ldr	x13, [sp, #32]
	and	w8, w0, #0xff
	cmp	w8, #1
	b.eq	.LBB11_147
	b	.LBB11_153
.LBB11_131:
	cmp	w22, #11
	b.hi	.LBB11_148
	b	.LBB11_153
.LBB11_132:
	mov	w1, #200
	b	.LBB11_148
.LBB11_133:
	ldr	x8, [sp, #24]
	and	w8, w8, #0xff
	cmp	w8, #2
	b.gt	.LBB11_148
	cbz	w8, .LBB11_150
	cmp	w8, #1
	b.eq	.LBB11_148
	b	.LBB11_143
.LBB11_136:
	add	x0, x23, #4
	sub	x1, x22, #4
	bl	nla_wire.members.measure_each.16a873d75d6df2a1
	ldr	x13, [sp, #32]
	and	w8, w0, #0xff
	cmp	w8, #1
	b.eq	.LBB11_147
	b	.LBB11_153
.LBB11_137:
	cbz	x1, .LBB11_153
	add	x0, x23, #4
	sub	x1, x22, #4
	bl	nla_wire.members.measure_each.8ba1f663fcd59a5e
	ldr	x13, [sp, #32]
	and	w8, w0, #0xff
	cmp	w8, #1
	b.eq	.LBB11_147
	b	.LBB11_153
.LBB11_139:
	cmp	w22, #35
	b.ls	.LBB11_153
	mov	w1, #32
	b	.LBB11_148
.LBB11_141:
	ldr	x8, [sp, #24]
	mov	w9, #1
	mov	w10, #51
	and	w8, w8, #0xff
	lsl	w9, w9, w8
	tst	w9, w10
	b.ne	.LBB11_148
	cmp	w8, #2
.LBB11_143:
	cbz	x1, .LBB11_153
	add	x0, x23, #4
	sub	x1, x22, #4
	bl	nla_wire.members.measure_each.1f0cb788f492ced5
	ldr	x13, [sp, #32]
	and	w8, w0, #0xff
	cmp	w8, #1
	b.eq	.LBB11_147
	b	.LBB11_153
.LBB11_145:
	mov	w1, #96
	b	.LBB11_148
.LBB11_146:
	add	x0, x23, #4
	sub	x1, x22, #4
	bl	nla_wire.members.measure_each.b30b196c481b950e
	ldr	x13, [sp, #32]
	and	w8, w0, #0xff
	cmp	w8, #1
	b.ne	.LBB11_153
.LBB11_147:
	mov	w8, #65532
	cmp	x1, x8
	b.hs	.LBB11_153
.LBB11_148:
	add	x8, x1, #3
	and	x8, x8, #0xfffffffffffffffc
	add	x8, x21, x8
	add	x26, x8, #4
	cmp	x26, x21
	b.lo	.LBB11_153
	cmp	w19, #24
	add	w8, w22, #3
	mov	x21, x26
	ccmp	x1, #0, #0, eq
	and	x8, x8, #0x1fffc
	cset	w9, eq
	cmp	x25, x8
	orr	w28, w9, w28
	b.hi	.LBB11_113
	b	.LBB11_152
.LBB11_150:
	add	x0, x23, #4
	sub	x1, x22, #4
	bl	nla_wire.members.measure_each.6cf1decf0b22dc4b
	ldr	x13, [sp, #32]
	and	w8, w0, #0xff
	cmp	w8, #1
	b.eq	.LBB11_147
	b	.LBB11_153
.LBB11_151:
	mov	x26, xzr
	mov	w28, wzr
.LBB11_152:
	adds	x8, x26, x13
	b.lo	.LBB11_187
.LBB11_153:
	movi	v0.2d, #0000000000000000
	ldur	x28, [x29, #-8]
	ldr	x26, [sp, #24]
	stp	q0, q0, [sp, #64]
	str	q0, [sp, #96]
	cbz	x24, .LBB11_188
	add	x9, sp, #40
	mov	x8, xzr
	orr	x19, x9, #0x2
	b	.LBB11_157
.LBB11_155:
	add	x0, sp, #64
	add	x2, sp, #40
	mov	w1, w26
	strh	w22, [sp, #40]
	str	wzr, [x19]
	strh	wzr, [x19, #4]
	stp	x23, x25, [sp, #48]
	bl	nla_wire.place.check_one.c4c48bc1b6cb0726
	ldrb	w8, [sp, #64]
	cbnz	w8, .LBB11_210
.LBB11_156:
	add	w8, w21, #3
	and	x8, x8, #0x1fffc
	cmp	x24, x8
	b.ls	.LBB11_188
.LBB11_157:
	sub	x24, x24, x8
	cmp	x24, #4
	b.lo	.LBB11_197
	add	x20, x20, x8
	ldrh	w21, [x20]
	cmp	x24, x21
	b.lo	.LBB11_198
	cmp	w21, #3
	b.ls	.LBB11_199
	ldrh	w22, [x20, #2]
	and	w8, w22, #0x3fff
	sub	w8, w8, #3
	cmp	w8, #64
	b.hi	.LBB11_156
	adrp	x9, .LJTI11_5
	add	x9, x9, :lo12:.LJTI11_5
	add	x23, x20, #4
	adr	x10, .LBB11_156
	ldrb	w11, [x9, x8]
	add	x10, x10, x11, lsl #2
	sub	x25, x21, #4
	br	x10
.LBB11_162:
	cmp	x25, #4
	b.eq	.LBB11_156
	b	.LBB11_155
.LBB11_163:
	add	x0, x20, #4
	sub	x1, x21, #4
	bl	nla_wire.payload.measure_text
	and	w8, w0, #0xff
	cmp	w8, #1
	b.ne	.LBB11_155
	b	.LBB11_156
.LBB11_164:
	cmp	x25, #1
	b.ne	.LBB11_155
	b	.LBB11_156
.LBB11_165:
	add	x0, x20, #4
	sub	x1, x21, #4
	bl	nla_wire.members.measure_each.f7f30aae703aa44d
	and	w8, w0, #0xff
	cmp	w8, #1
	b.eq	.LBB11_185
	b	.LBB11_155
.LBB11_166:
	add	x0, x20, #4
	sub	x1, x21, #4
	bl	nla_wire.members.measure_each.b30b196c481b950e
	and	w8, w0, #0xff
	cmp	w8, #1
	b.eq	.LBB11_185
	b	.LBB11_155
.LBB11_167:
	add	x0, x20, #4
	sub	x1, x21, #4
	bl	nla_wire.members.measure_each.5fa77b269143286c
	and	w8, w0, #0xff
	cmp	w8, #1
	b.eq	.LBB11_185
	b	.LBB11_155
.LBB11_168:
	cbz	x25, .LBB11_155
	add	x0, x20, #4
	sub	x1, x21, #4
	bl	nla_wire.members.measure_each.8ba1f663fcd59a5e
	and	w8, w0, #0xff
	cmp	w8, #1
	b.eq	.LBB11_185
	b	.LBB11_155
.LBB11_170:
	cmp	w21, #35
	b.ls	.LBB11_155
	b	.LBB11_156
.LBB11_171:
	cmp	w21, #11
	b.ls	.LBB11_155
	b	.LBB11_156
.LBB11_172:
	cbz	x25, .LBB11_155
	add	x0, x20, #4
	sub	x1, x21, #4
	bl	nla_wire.members.measure_each.49064c0641319ce4
	and	w8, w0, #0xff
	cmp	w8, #1
	b.eq	.LBB11_185
	b	.LBB11_155
.LBB11_174:
	and	w8, w26, #0xff
	cmp	w8, #2
	b.gt	.LBB11_156
	cbz	w8, .LBB11_186
	cmp	w8, #1
	b.eq	.LBB11_156
	b	.LBB11_180
.LBB11_177:
	add	x0, x20, #4
	sub	x1, x21, #4
	bl	nla_wire.members.measure_each.3bb4c8661a1029f4
	and	w8, w0, #0xff
	cmp	w8, #1
	b.eq	.LBB11_185
	b	.LBB11_155
.LBB11_178:
	and	w8, w26, #0xff
	mov	w9, #1
	mov	w10, #51
	lsl	w9, w9, w8
	tst	w9, w10
	b.ne	.LBB11_156
	cmp	w8, #2
.LBB11_180:
	cbz	x25, .LBB11_155
	add	x0, x20, #4
	sub	x1, x21, #4
	bl	nla_wire.members.measure_each.1f0cb788f492ced5
	and	w8, w0, #0xff
	cmp	w8, #1
	b.eq	.LBB11_185
	b	.LBB11_155
.LBB11_182:
	cbz	x25, .LBB11_155
	add	x0, x20, #4
	sub	x1, x21, #4
	bl	nla_wire.members.measure_each.79503c7a397af21a
	and	w8, w0, #0xff
	cmp	w8, #1
	b.eq	.LBB11_185
	b	.LBB11_155
.LBB11_184:
	add	x0, x20, #4
	sub	x1, x21, #4
	bl	nla_wire.members.measure_each.16a873d75d6df2a1
	and	w8, w0, #0xff
	cmp	w8, #1
	b.ne	.LBB11_155
.LBB11_185:
	mov	w8, #65532
	cmp	x1, x8
	b.lo	.LBB11_156
	b	.LBB11_155
.LBB11_186:
	add	x0, x20, #4
	sub	x1, x21, #4
	bl	nla_wire.members.measure_each.6cf1decf0b22dc4b
	and	w8, w0, #0xff
	cmp	w8, #1
	b.eq	.LBB11_185
	b	.LBB11_155
.LBB11_187:
	cmn	x8, #17
	b.ls	.LBB11_193
.LBB11_188:
	ldur	x19, [x29, #-8]
	ldp	x10, x8, [x19, #8]
	sub	x9, x8, x10
	cmp	x9, #5
	b.ls	.LBB11_212
.LBB11_189:
	ldr	x9, [x19]
	adrp	x12, .Lstatic.16
	add	x12, x12, :lo12:.Lstatic.16
	add	x11, x9, x10
	add	x10, x10, #6
	sub	x12, x11, x12
	cmp	x12, #5
	b.hi	.LBB11_191
	adrp	x12, .LCPI11_3
	ldr	d0, [x12, :lo12:.LCPI11_3]
	mov	w12, #2676
	strh	w12, [x11, #4]
	str	s0, [x11]
	b	.LBB11_192
.LBB11_191:
	mov	w13, #28277
	mov	w12, #2676
	movk	w13, #26982, lsl #16
	strh	w12, [x11, #4]
	str	w13, [x11]
.LBB11_192:
	mov	w0, wzr
	stp	x9, x10, [x19]
	str	x8, [x19, #16]
	b	.LBB11_21
.LBB11_193:
	tbz	w28, #0, .LBB11_204
	ldur	x19, [x29, #-8]
	ldp	x10, x8, [x19, #8]
	sub	x9, x8, x10
	cmp	x9, #11
	b.ls	.LBB11_217
.LBB11_195:
	ldr	x9, [x19]
	adrp	x12, .Lstatic.17
	add	x12, x12, :lo12:.Lstatic.17
	add	x11, x9, x10
	add	x10, x10, #12
	sub	x13, x11, x12
	cmp	x13, #11
	b.hi	.LBB11_211
	adrp	x12, .LCPI11_1
	adrp	x13, .LCPI11_2
	ldr	d0, [x12, :lo12:.LCPI11_1]
	ldr	d1, [x13, :lo12:.LCPI11_2]
	str	d0, [x11]
	str	s1, [x11, #8]
	b	.LBB11_192
.LBB11_197:
	mov	w19, #1
	b	.LBB11_201
.LBB11_198:
	mov	w8, #2
	b	.LBB11_200
.LBB11_199:
	mov	w8, #3
.LBB11_200:
	orr	x19, x8, x21, lsl #16
.LBB11_201:
	adrp	x9, .Lstatic.19
	add	x9, x9, :lo12:.Lstatic.19
	mov	w1, #7
	lsr	x8, x9, #16
	ubfx	w10, w9, #8, #8
.LBB11_202:
	mov	w10, w10
	adrp	x2, .Lstatic.19
	add	x2, x2, :lo12:.Lstatic.19
	and	x9, x9, #0xff
	mov	w3, #7
	orr	x9, x9, x10, lsl #8
	orr	x0, x9, x8, lsl #16
	bl	core.cmp.text.RefStrPartialEq.eq
	and	x8, x19, #0xff
	cmp	x8, #8
	b.ne	.LBB11_27
.LBB11_203:
	mov	w0, #1
	b	.LBB11_21
.LBB11_204:
	adds	x25, x8, #16
	b.mi	.LBB11_203
	mov	x0, x25
	mov	w1, #1
	bl	rattle_alloc
	mov	x8, x0
	mov	w0, #1
	tbz	w8, #0, .LBB11_21
	ldr	x8, [sp, #24]
	mov	x24, x1
	and	w9, w8, #0xff
	cmp	w9, #2
	b.gt	.LBB11_214
	ldp	x22, x10, [sp]
	mov	x21, x8
	ldur	x23, [x29, #-8]
	ldr	w11, [sp, #20]
	ldr	x13, [sp, #32]
	cbz	w9, .LBB11_222
	cmp	w9, #1
	b.ne	.LBB11_220
	mov	w8, #2
	b	.LBB11_222
.LBB11_210:
	ldrh	w8, [sp, #78]
	ldur	w11, [sp, #74]
	ldrb	w9, [sp, #72]
	ldrb	w10, [sp, #73]
	ldr	x1, [sp, #80]
	ldrb	w19, [sp, #88]
	orr	x8, x11, x8, lsl #32
	b	.LBB11_202
.LBB11_211:
	mov	w13, #29810
	ldr	x12, [x12]
	movk	w13, #2675, lsl #16
	str	w13, [x11, #8]
	str	x12, [x11]
	b	.LBB11_192
.LBB11_212:
	mov	x0, x19
	mov	w1, #6
	bl	std_alloc.vec.Vec.grow_amortized.05fa32d921161499
	cbz	w0, .LBB11_203
	ldp	x10, x8, [x19, #8]
	b	.LBB11_189
.LBB11_214:
	ldp	x22, x10, [sp]
	mov	x21, x8
	ldur	x23, [x29, #-8]
	ldr	w11, [sp, #20]
	cmp	w9, #3
	ldr	x13, [sp, #32]
	b.eq	.LBB11_219
	cmp	w9, #4
	b.ne	.LBB11_221
	mov	w8, #45
	b	.LBB11_222
.LBB11_217:
	mov	x0, x19
	mov	w1, #12
	bl	std_alloc.vec.Vec.grow_amortized.05fa32d921161499
	cbz	w0, .LBB11_203
	ldp	x10, x8, [x19, #8]
	b	.LBB11_195
.LBB11_219:
	mov	w8, #10
	b	.LBB11_222
.LBB11_220:
	mov	w8, #7
	b	.LBB11_222
.LBB11_221:
	lsr	x8, x21, #8
.LBB11_222:
	adrp	x9, .Lswitch.table.line_filter.answers.AnsweringTake.take.460d80f9416d9dfa
	add	x9, x9, :lo12:.Lswitch.table.line_filter.answers.AnsweringTake.take.460d80f9416d9dfa
	and	w8, w8, #0xff
	ldrh	w9, [x9, x10, lsl #1]
	add	x10, x24, #16
	strh	w8, [x24]
	sub	x8, x10, x20
	add	x19, x13, #16
	str	w11, [x24, #4]
	cmp	x8, x13
	strh	w9, [x24, #2]
	str	d8, [x24, #8]
	b.hs	.LBB11_227
	cmp	x13, #8
	mov	x8, xzr
	b.lo	.LBB11_235
	sub	x9, x24, x27
	cmp	x9, #32
	b.lo	.LBB11_235
	cmp	x13, #32
	b.hs	.LBB11_228
	mov	x8, xzr
	b	.LBB11_232
.LBB11_227:
	ldr	x2, [sp, #32]
	add	x0, x24, #16
	mov	x1, x20
	bl	memmove
	ldr	x13, [sp, #32]
	b	.LBB11_237
.LBB11_228:
	and	x9, x13, #0x18
	and	x8, x13, #0xffffffffffffffe0
	add	x10, x27, #32
	add	x11, x24, #32
	and	x12, x13, #0xffffffffffffffe0
.LBB11_229:
	ldp	q0, q1, [x10, #-16]
	subs	x12, x12, #32
	add	x10, x10, #32
	stp	q0, q1, [x11, #-16]
	add	x11, x11, #32
	b.ne	.LBB11_229
	cmp	x13, x8
	b.eq	.LBB11_237
	cbz	x9, .LBB11_235
.LBB11_232:
	mov	x9, x8
	and	x8, x13, #0xfffffffffffffff8
	add	x11, x9, #16
	sub	x9, x9, x8
	add	x10, x27, x11
	add	x11, x24, x11
.LBB11_233:
	ldr	d0, [x10], #8
	adds	x9, x9, #8
	str	d0, [x11], #8
	b.ne	.LBB11_233
	cmp	x13, x8
	b.eq	.LBB11_237
.LBB11_235:
	add	x10, x8, #16
	sub	x8, x13, x8
	add	x9, x27, x10
	add	x10, x24, x10
.LBB11_236:
	ldrb	w11, [x9], #1
	subs	x8, x8, #1
	strb	w11, [x10], #1
	b.ne	.LBB11_236
.LBB11_237:
	cmp	x25, x19
	b.ls	.LBB11_240
	add	x25, x26, x19
	cmp	x19, x25
	b.hs	.LBB11_240
	add	x0, x24, x19
	mov	w1, wzr
	mov	x2, x26
	bl	memset
	ldr	x13, [sp, #32]
.LBB11_240:
	sub	x4, x25, x19
	add	x1, x20, x13
	add	x3, x24, x19
	mov	w0, w21
	mov	x2, x22
	bl	nla_wire.members.write_each.c4c48bc1b6cb0726
	ldp	x19, x21, [x23, #8]
	sub	x8, x21, x19
	cmp	x8, #2
	b.ls	.LBB11_265
.LBB11_241:
	ldr	x20, [x23]
	adrp	x8, .Lstatic.140
	add	x8, x8, :lo12:.Lstatic.140
	add	x9, x20, x19
	sub	x8, x9, x8
	cmp	x8, #2
	add	x8, x19, #3
	b.hi	.LBB11_243
	mov	w10, #27503
	mov	w11, #32
	strh	w10, [x9]
	strb	w11, [x9, #2]
	b	.LBB11_244
.LBB11_243:
	mov	w10, #32
	mov	w11, #27503
	strb	w10, [x9, #2]
	strh	w11, [x9]
.LBB11_244:
	lsl	x2, x25, #1
	stp	x20, x8, [x23]
	str	x21, [x23, #16]
	adds	x22, x2, x8
	b.lo	.LBB11_246
.LBB11_245:
	mov	w19, #1
	b	.LBB11_262
.LBB11_246:
	cmp	x22, x8
	b.ls	.LBB11_251
	sub	x9, x21, x8
	cmp	x2, x9
	b.hi	.LBB11_307
	cmp	x8, x22
	b.hs	.LBB11_250
.LBB11_249:
	add	x0, x20, x8
	mov	w1, wzr
	bl	memset
.LBB11_250:
	stp	x20, x22, [x23]
	str	x21, [x23, #16]
	b	.LBB11_253
.LBB11_251:
	cmp	x8, x22
	b.ls	.LBB11_253
	str	x22, [x23, #8]
.LBB11_253:
	cmp	x25, #16
	b.lo	.LBB11_256
	add	x9, x19, x20
	mov	x8, xzr
	mov	x10, x25
	add	x9, x9, #19
.LBB11_255:
	movi	v0.16b, #15
	ldr	q1, [x24, x8]
	movi	v2.16b, #160
	movi	v3.16b, #10
	movi	v4.16b, #87
	sub	x10, x10, #16
	movi	v5.16b, #48
	sub	x11, x9, #16
	cmp	x10, #15
	add	x8, x8, #16
	and	v0.16b, v1.16b, v0.16b
	cmhi	v2.16b, v2.16b, v1.16b
	cmhi	v3.16b, v3.16b, v0.16b
	mov	v6.16b, v2.16b
	mov	v2.16b, v3.16b
	bsl	v6.16b, v5.16b, v4.16b
	bsl	v2.16b, v5.16b, v4.16b
	usra	v6.16b, v1.16b, #4
	add	v7.16b, v2.16b, v0.16b
	zip2	v0.16b, v6.16b, v7.16b
	st2	{ v6.8b, v7.8b }, [x11]
	str	q0, [x9], #32
	b.hi	.LBB11_255
	b	.LBB11_257
.LBB11_256:
	mov	x8, xzr
.LBB11_257:
	subs	x9, x25, x8
	b.ls	.LBB11_260
	add	x10, x19, x8, lsl #1
	add	x8, x24, x8
	add	x10, x10, x20
	add	x10, x10, #4
.LBB11_259:
	ldrb	w11, [x8]
	adrp	x12, .Lstatic.141
	add	x12, x12, :lo12:.Lstatic.141
	subs	x9, x9, #1
	lsr	x11, x11, #4
	ldrb	w11, [x12, x11]
	sturb	w11, [x10, #-1]
	ldrb	w11, [x8], #1
	and	x11, x11, #0xf
	ldrb	w11, [x12, x11]
	strb	w11, [x10], #2
	b.ne	.LBB11_259
.LBB11_260:
	ldp	x8, x9, [x23, #8]
	cmp	x9, x8
	b.eq	.LBB11_305
.LBB11_261:
	ldr	x9, [x23]
	mov	w19, wzr
	add	x11, x8, #1
	mov	w10, #10
	strb	w10, [x9, x8]
	str	x11, [x23, #8]
.LBB11_262:
	mov	x0, x24
	bl	rattle_dealloc
	mov	x0, x19
	b	.LBB11_21
.LBB11_263:
	mov	w8, #65534
	cmp	w13, w8
	b.ne	.LBB11_267
	mov	w13, #65
	b	.LBB11_78
.LBB11_265:
	mov	x0, x23
	mov	w1, #3
	bl	std_alloc.vec.Vec.grow_amortized.05fa32d921161499
	cbz	w0, .LBB11_245
	ldp	x19, x21, [x23, #8]
	b	.LBB11_241
.LBB11_267:
	mov	w13, #66
	b	.LBB11_78
.LBB11_268:
	mov	w13, #61
	b	.LBB11_78
.LBB11_269:
	mov	w13, #53
	b	.LBB11_78
.LBB11_270:
	mov	w13, #56
	b	.LBB11_78
.LBB11_271:
	mov	w13, #55
	b	.LBB11_78
.LBB11_272:
	mov	w13, #48
	b	.LBB11_78
.LBB11_273:
	mov	w13, #52
	b	.LBB11_78
.LBB11_274:
	mov	w13, #64
	b	.LBB11_78
.LBB11_275:
	mov	w13, #54
	b	.LBB11_78
.LBB11_276:
	mov	w13, #51
	b	.LBB11_78
.LBB11_277:
	mov	w13, #62
	b	.LBB11_78
.LBB11_278:
	mov	w13, #46
	b	.LBB11_78
.LBB11_279:
	mov	w13, #47
	b	.LBB11_78
.LBB11_280:
	mov	w13, #39
	b	.LBB11_78
.LBB11_281:
	mov	w13, #63
	b	.LBB11_78
.LBB11_282:
	mov	w13, #35
	b	.LBB11_78
.LBB11_283:
	mov	w13, #60
	b	.LBB11_78
.LBB11_284:
	mov	w13, #36
	b	.LBB11_78
.LBB11_285:
	mov	w13, #58
	b	.LBB11_78
.LBB11_286:
	mov	w13, #33
	b	.LBB11_78
.LBB11_287:
	mov	w13, #38
	b	.LBB11_78
.LBB11_288:
	mov	w13, #37
	b	.LBB11_78
.LBB11_289:
	mov	w13, #30
	b	.LBB11_78
.LBB11_290:
	mov	w13, #34
	b	.LBB11_78
.LBB11_291:
	mov	w13, #29
	b	.LBB11_78
.LBB11_292:
	mov	w13, #28
	b	.LBB11_78
.LBB11_293:
	mov	w13, #32
	b	.LBB11_78
.LBB11_294:
	mov	w13, #31
	b	.LBB11_78
.LBB11_295:
	mov	w13, #41
	b	.LBB11_78
.LBB11_296:
	mov	w13, #43
	b	.LBB11_78
.LBB11_297:
	mov	w13, #45
	b	.LBB11_78
.LBB11_298:
	mov	w13, #44
	b	.LBB11_78
.LBB11_299:
	mov	w13, #40
	b	.LBB11_78
.LBB11_300:
	mov	w13, #50
	b	.LBB11_78
.LBB11_301:
	mov	w13, #42
	b	.LBB11_78
.LBB11_302:
	mov	w13, #49
	b	.LBB11_78
.LBB11_303:
	mov	w13, #57
	b	.LBB11_78
.LBB11_304:
	mov	w13, #59
	b	.LBB11_78
.LBB11_305:
	mov	x0, x23
	mov	w1, #1
	mov	w19, #1
	bl	std_alloc.vec.Vec.grow_amortized.05fa32d921161499
	cbz	w0, .LBB11_262
	ldur	x23, [x29, #-8]
	ldr	x8, [x23, #8]
	b	.LBB11_261
.LBB11_307:
	mov	x0, x23
	mov	x1, x2
	mov	x22, x2
	bl	std_alloc.vec.Vec.grow_amortized.05fa32d921161499
	cbz	w0, .LBB11_245
	ldur	x23, [x29, #-8]
	mov	x2, x22
	ldp	x8, x21, [x23, #8]
	ldr	x20, [x23]
	add	x22, x8, x22
	cmp	x8, x22
	b.lo	.LBB11_249
	b	.LBB11_250
.Lfunc_end11:
	.size	line_filter.answers.AnsweringTake.take.460d80f9416d9dfa, .Lfunc_end11-line_filter.answers.AnsweringTake.take.460d80f9416d9dfa
	.section	.rodata.line_filter.answers.AnsweringTake.take.460d80f9416d9dfa,"a",@progbits
.LJTI11_0:
	.byte	(.LBB11_78-.LBB11_46)>>2
	.byte	(.LBB11_46-.LBB11_46)>>2
	.byte	(.LBB11_60-.LBB11_46)>>2
	.byte	(.LBB11_57-.LBB11_46)>>2
	.byte	(.LBB11_61-.LBB11_46)>>2
	.byte	(.LBB11_56-.LBB11_46)>>2
	.byte	(.LBB11_62-.LBB11_46)>>2
	.byte	(.LBB11_54-.LBB11_46)>>2
	.byte	(.LBB11_63-.LBB11_46)>>2
	.byte	(.LBB11_65-.LBB11_46)>>2
	.byte	(.LBB11_65-.LBB11_46)>>2
	.byte	(.LBB11_65-.LBB11_46)>>2
	.byte	(.LBB11_65-.LBB11_46)>>2
	.byte	(.LBB11_65-.LBB11_46)>>2
	.byte	(.LBB11_65-.LBB11_46)>>2
	.byte	(.LBB11_58-.LBB11_46)>>2
	.byte	(.LBB11_65-.LBB11_46)>>2
	.byte	(.LBB11_65-.LBB11_46)>>2
	.byte	(.LBB11_65-.LBB11_46)>>2
	.byte	(.LBB11_59-.LBB11_46)>>2
	.byte	(.LBB11_65-.LBB11_46)>>2
	.byte	(.LBB11_65-.LBB11_46)>>2
	.byte	(.LBB11_65-.LBB11_46)>>2
	.byte	(.LBB11_53-.LBB11_46)>>2
	.byte	(.LBB11_64-.LBB11_46)>>2
	.byte	(.LBB11_65-.LBB11_46)>>2
	.byte	(.LBB11_65-.LBB11_46)>>2
	.byte	(.LBB11_55-.LBB11_46)>>2
	.byte	(.LBB11_65-.LBB11_46)>>2
	.byte	(.LBB11_65-.LBB11_46)>>2
	.byte	(.LBB11_65-.LBB11_46)>>2
	.byte	(.LBB11_65-.LBB11_46)>>2
	.byte	(.LBB11_52-.LBB11_46)>>2
.LJTI11_1:
	.byte	(.LBB11_49-.LBB11_49)>>2
	.byte	(.LBB11_73-.LBB11_49)>>2
	.byte	(.LBB11_75-.LBB11_49)>>2
	.byte	(.LBB11_70-.LBB11_49)>>2
	.byte	(.LBB11_77-.LBB11_49)>>2
	.byte	(.LBB11_65-.LBB11_49)>>2
	.byte	(.LBB11_65-.LBB11_49)>>2
	.byte	(.LBB11_65-.LBB11_49)>>2
	.byte	(.LBB11_71-.LBB11_49)>>2
	.byte	(.LBB11_65-.LBB11_49)>>2
	.byte	(.LBB11_65-.LBB11_49)>>2
	.byte	(.LBB11_65-.LBB11_49)>>2
	.byte	(.LBB11_65-.LBB11_49)>>2
	.byte	(.LBB11_65-.LBB11_49)>>2
	.byte	(.LBB11_72-.LBB11_49)>>2
	.byte	(.LBB11_69-.LBB11_49)>>2
	.byte	(.LBB11_68-.LBB11_49)>>2
	.byte	(.LBB11_65-.LBB11_49)>>2
	.byte	(.LBB11_65-.LBB11_49)>>2
	.byte	(.LBB11_65-.LBB11_49)>>2
	.byte	(.LBB11_65-.LBB11_49)>>2
	.byte	(.LBB11_65-.LBB11_49)>>2
	.byte	(.LBB11_65-.LBB11_49)>>2
	.byte	(.LBB11_65-.LBB11_49)>>2
	.byte	(.LBB11_76-.LBB11_49)>>2
	.byte	(.LBB11_65-.LBB11_49)>>2
	.byte	(.LBB11_65-.LBB11_49)>>2
	.byte	(.LBB11_65-.LBB11_49)>>2
	.byte	(.LBB11_65-.LBB11_49)>>2
	.byte	(.LBB11_65-.LBB11_49)>>2
	.byte	(.LBB11_65-.LBB11_49)>>2
	.byte	(.LBB11_65-.LBB11_49)>>2
	.byte	(.LBB11_65-.LBB11_49)>>2
	.byte	(.LBB11_65-.LBB11_49)>>2
	.byte	(.LBB11_74-.LBB11_49)>>2
	.p2align	1, 0x0
.LJTI11_2:
	.hword	(.LBB11_78-.LBB11_67)>>2
	.hword	(.LBB11_67-.LBB11_67)>>2
	.hword	(.LBB11_267-.LBB11_67)>>2
	.hword	(.LBB11_267-.LBB11_67)>>2
	.hword	(.LBB11_292-.LBB11_67)>>2
	.hword	(.LBB11_291-.LBB11_67)>>2
	.hword	(.LBB11_289-.LBB11_67)>>2
	.hword	(.LBB11_294-.LBB11_67)>>2
	.hword	(.LBB11_267-.LBB11_67)>>2
	.hword	(.LBB11_267-.LBB11_67)>>2
	.hword	(.LBB11_267-.LBB11_67)>>2
	.hword	(.LBB11_267-.LBB11_67)>>2
	.hword	(.LBB11_267-.LBB11_67)>>2
	.hword	(.LBB11_267-.LBB11_67)>>2
	.hword	(.LBB11_267-.LBB11_67)>>2
	.hword	(.LBB11_267-.LBB11_67)>>2
	.hword	(.LBB11_267-.LBB11_67)>>2
	.hword	(.LBB11_267-.LBB11_67)>>2
	.hword	(.LBB11_267-.LBB11_67)>>2
	.hword	(.LBB11_267-.LBB11_67)>>2
	.hword	(.LBB11_267-.LBB11_67)>>2
	.hword	(.LBB11_267-.LBB11_67)>>2
	.hword	(.LBB11_267-.LBB11_67)>>2
	.hword	(.LBB11_267-.LBB11_67)>>2
	.hword	(.LBB11_267-.LBB11_67)>>2
	.hword	(.LBB11_267-.LBB11_67)>>2
	.hword	(.LBB11_267-.LBB11_67)>>2
	.hword	(.LBB11_267-.LBB11_67)>>2
	.hword	(.LBB11_267-.LBB11_67)>>2
	.hword	(.LBB11_267-.LBB11_67)>>2
	.hword	(.LBB11_267-.LBB11_67)>>2
	.hword	(.LBB11_267-.LBB11_67)>>2
	.hword	(.LBB11_267-.LBB11_67)>>2
	.hword	(.LBB11_267-.LBB11_67)>>2
	.hword	(.LBB11_267-.LBB11_67)>>2
	.hword	(.LBB11_267-.LBB11_67)>>2
	.hword	(.LBB11_267-.LBB11_67)>>2
	.hword	(.LBB11_267-.LBB11_67)>>2
	.hword	(.LBB11_267-.LBB11_67)>>2
	.hword	(.LBB11_267-.LBB11_67)>>2
	.hword	(.LBB11_267-.LBB11_67)>>2
	.hword	(.LBB11_267-.LBB11_67)>>2
	.hword	(.LBB11_267-.LBB11_67)>>2
	.hword	(.LBB11_267-.LBB11_67)>>2
	.hword	(.LBB11_267-.LBB11_67)>>2
	.hword	(.LBB11_267-.LBB11_67)>>2
	.hword	(.LBB11_267-.LBB11_67)>>2
	.hword	(.LBB11_267-.LBB11_67)>>2
	.hword	(.LBB11_267-.LBB11_67)>>2
	.hword	(.LBB11_267-.LBB11_67)>>2
	.hword	(.LBB11_267-.LBB11_67)>>2
	.hword	(.LBB11_267-.LBB11_67)>>2
	.hword	(.LBB11_267-.LBB11_67)>>2
	.hword	(.LBB11_267-.LBB11_67)>>2
	.hword	(.LBB11_267-.LBB11_67)>>2
	.hword	(.LBB11_267-.LBB11_67)>>2
	.hword	(.LBB11_267-.LBB11_67)>>2
	.hword	(.LBB11_267-.LBB11_67)>>2
	.hword	(.LBB11_267-.LBB11_67)>>2
	.hword	(.LBB11_267-.LBB11_67)>>2
	.hword	(.LBB11_267-.LBB11_67)>>2
	.hword	(.LBB11_267-.LBB11_67)>>2
	.hword	(.LBB11_267-.LBB11_67)>>2
	.hword	(.LBB11_267-.LBB11_67)>>2
	.hword	(.LBB11_267-.LBB11_67)>>2
	.hword	(.LBB11_267-.LBB11_67)>>2
	.hword	(.LBB11_267-.LBB11_67)>>2
	.hword	(.LBB11_267-.LBB11_67)>>2
	.hword	(.LBB11_267-.LBB11_67)>>2
	.hword	(.LBB11_267-.LBB11_67)>>2
	.hword	(.LBB11_267-.LBB11_67)>>2
	.hword	(.LBB11_267-.LBB11_67)>>2
	.hword	(.LBB11_267-.LBB11_67)>>2
	.hword	(.LBB11_267-.LBB11_67)>>2
	.hword	(.LBB11_267-.LBB11_67)>>2
	.hword	(.LBB11_267-.LBB11_67)>>2
	.hword	(.LBB11_267-.LBB11_67)>>2
	.hword	(.LBB11_267-.LBB11_67)>>2
	.hword	(.LBB11_267-.LBB11_67)>>2
	.hword	(.LBB11_267-.LBB11_67)>>2
	.hword	(.LBB11_267-.LBB11_67)>>2
	.hword	(.LBB11_267-.LBB11_67)>>2
	.hword	(.LBB11_267-.LBB11_67)>>2
	.hword	(.LBB11_267-.LBB11_67)>>2
	.hword	(.LBB11_267-.LBB11_67)>>2
	.hword	(.LBB11_267-.LBB11_67)>>2
	.hword	(.LBB11_267-.LBB11_67)>>2
	.hword	(.LBB11_267-.LBB11_67)>>2
	.hword	(.LBB11_267-.LBB11_67)>>2
	.hword	(.LBB11_267-.LBB11_67)>>2
	.hword	(.LBB11_267-.LBB11_67)>>2
	.hword	(.LBB11_267-.LBB11_67)>>2
	.hword	(.LBB11_267-.LBB11_67)>>2
	.hword	(.LBB11_267-.LBB11_67)>>2
	.hword	(.LBB11_267-.LBB11_67)>>2
	.hword	(.LBB11_267-.LBB11_67)>>2
	.hword	(.LBB11_267-.LBB11_67)>>2
	.hword	(.LBB11_267-.LBB11_67)>>2
	.hword	(.LBB11_267-.LBB11_67)>>2
	.hword	(.LBB11_267-.LBB11_67)>>2
	.hword	(.LBB11_267-.LBB11_67)>>2
	.hword	(.LBB11_267-.LBB11_67)>>2
	.hword	(.LBB11_267-.LBB11_67)>>2
	.hword	(.LBB11_267-.LBB11_67)>>2
	.hword	(.LBB11_267-.LBB11_67)>>2
	.hword	(.LBB11_267-.LBB11_67)>>2
	.hword	(.LBB11_267-.LBB11_67)>>2
	.hword	(.LBB11_267-.LBB11_67)>>2
	.hword	(.LBB11_267-.LBB11_67)>>2
	.hword	(.LBB11_267-.LBB11_67)>>2
	.hword	(.LBB11_267-.LBB11_67)>>2
	.hword	(.LBB11_267-.LBB11_67)>>2
	.hword	(.LBB11_267-.LBB11_67)>>2
	.hword	(.LBB11_267-.LBB11_67)>>2
	.hword	(.LBB11_267-.LBB11_67)>>2
	.hword	(.LBB11_267-.LBB11_67)>>2
	.hword	(.LBB11_267-.LBB11_67)>>2
	.hword	(.LBB11_267-.LBB11_67)>>2
	.hword	(.LBB11_267-.LBB11_67)>>2
	.hword	(.LBB11_267-.LBB11_67)>>2
	.hword	(.LBB11_267-.LBB11_67)>>2
	.hword	(.LBB11_267-.LBB11_67)>>2
	.hword	(.LBB11_267-.LBB11_67)>>2
	.hword	(.LBB11_267-.LBB11_67)>>2
	.hword	(.LBB11_267-.LBB11_67)>>2
	.hword	(.LBB11_267-.LBB11_67)>>2
	.hword	(.LBB11_267-.LBB11_67)>>2
	.hword	(.LBB11_267-.LBB11_67)>>2
	.hword	(.LBB11_267-.LBB11_67)>>2
	.hword	(.LBB11_267-.LBB11_67)>>2
	.hword	(.LBB11_267-.LBB11_67)>>2
	.hword	(.LBB11_267-.LBB11_67)>>2
	.hword	(.LBB11_267-.LBB11_67)>>2
	.hword	(.LBB11_267-.LBB11_67)>>2
	.hword	(.LBB11_267-.LBB11_67)>>2
	.hword	(.LBB11_267-.LBB11_67)>>2
	.hword	(.LBB11_267-.LBB11_67)>>2
	.hword	(.LBB11_267-.LBB11_67)>>2
	.hword	(.LBB11_267-.LBB11_67)>>2
	.hword	(.LBB11_267-.LBB11_67)>>2
	.hword	(.LBB11_267-.LBB11_67)>>2
	.hword	(.LBB11_267-.LBB11_67)>>2
	.hword	(.LBB11_267-.LBB11_67)>>2
	.hword	(.LBB11_267-.LBB11_67)>>2
	.hword	(.LBB11_267-.LBB11_67)>>2
	.hword	(.LBB11_267-.LBB11_67)>>2
	.hword	(.LBB11_267-.LBB11_67)>>2
	.hword	(.LBB11_267-.LBB11_67)>>2
	.hword	(.LBB11_267-.LBB11_67)>>2
	.hword	(.LBB11_267-.LBB11_67)>>2
	.hword	(.LBB11_267-.LBB11_67)>>2
	.hword	(.LBB11_267-.LBB11_67)>>2
	.hword	(.LBB11_267-.LBB11_67)>>2
	.hword	(.LBB11_267-.LBB11_67)>>2
	.hword	(.LBB11_267-.LBB11_67)>>2
	.hword	(.LBB11_267-.LBB11_67)>>2
	.hword	(.LBB11_267-.LBB11_67)>>2
	.hword	(.LBB11_267-.LBB11_67)>>2
	.hword	(.LBB11_267-.LBB11_67)>>2
	.hword	(.LBB11_267-.LBB11_67)>>2
	.hword	(.LBB11_267-.LBB11_67)>>2
	.hword	(.LBB11_267-.LBB11_67)>>2
	.hword	(.LBB11_267-.LBB11_67)>>2
	.hword	(.LBB11_267-.LBB11_67)>>2
	.hword	(.LBB11_267-.LBB11_67)>>2
	.hword	(.LBB11_267-.LBB11_67)>>2
	.hword	(.LBB11_267-.LBB11_67)>>2
	.hword	(.LBB11_267-.LBB11_67)>>2
	.hword	(.LBB11_267-.LBB11_67)>>2
	.hword	(.LBB11_267-.LBB11_67)>>2
	.hword	(.LBB11_267-.LBB11_67)>>2
	.hword	(.LBB11_267-.LBB11_67)>>2
	.hword	(.LBB11_267-.LBB11_67)>>2
	.hword	(.LBB11_267-.LBB11_67)>>2
	.hword	(.LBB11_267-.LBB11_67)>>2
	.hword	(.LBB11_267-.LBB11_67)>>2
	.hword	(.LBB11_267-.LBB11_67)>>2
	.hword	(.LBB11_267-.LBB11_67)>>2
	.hword	(.LBB11_267-.LBB11_67)>>2
	.hword	(.LBB11_267-.LBB11_67)>>2
	.hword	(.LBB11_267-.LBB11_67)>>2
	.hword	(.LBB11_267-.LBB11_67)>>2
	.hword	(.LBB11_267-.LBB11_67)>>2
	.hword	(.LBB11_267-.LBB11_67)>>2
	.hword	(.LBB11_267-.LBB11_67)>>2
	.hword	(.LBB11_267-.LBB11_67)>>2
	.hword	(.LBB11_267-.LBB11_67)>>2
	.hword	(.LBB11_267-.LBB11_67)>>2
	.hword	(.LBB11_267-.LBB11_67)>>2
	.hword	(.LBB11_267-.LBB11_67)>>2
	.hword	(.LBB11_267-.LBB11_67)>>2
	.hword	(.LBB11_267-.LBB11_67)>>2
	.hword	(.LBB11_267-.LBB11_67)>>2
	.hword	(.LBB11_267-.LBB11_67)>>2
	.hword	(.LBB11_267-.LBB11_67)>>2
	.hword	(.LBB11_267-.LBB11_67)>>2
	.hword	(.LBB11_267-.LBB11_67)>>2
	.hword	(.LBB11_267-.LBB11_67)>>2
	.hword	(.LBB11_267-.LBB11_67)>>2
	.hword	(.LBB11_267-.LBB11_67)>>2
	.hword	(.LBB11_267-.LBB11_67)>>2
	.hword	(.LBB11_267-.LBB11_67)>>2
	.hword	(.LBB11_267-.LBB11_67)>>2
	.hword	(.LBB11_267-.LBB11_67)>>2
	.hword	(.LBB11_267-.LBB11_67)>>2
	.hword	(.LBB11_267-.LBB11_67)>>2
	.hword	(.LBB11_267-.LBB11_67)>>2
	.hword	(.LBB11_267-.LBB11_67)>>2
	.hword	(.LBB11_267-.LBB11_67)>>2
	.hword	(.LBB11_267-.LBB11_67)>>2
	.hword	(.LBB11_267-.LBB11_67)>>2
	.hword	(.LBB11_267-.LBB11_67)>>2
	.hword	(.LBB11_267-.LBB11_67)>>2
	.hword	(.LBB11_267-.LBB11_67)>>2
	.hword	(.LBB11_267-.LBB11_67)>>2
	.hword	(.LBB11_267-.LBB11_67)>>2
	.hword	(.LBB11_267-.LBB11_67)>>2
	.hword	(.LBB11_267-.LBB11_67)>>2
	.hword	(.LBB11_267-.LBB11_67)>>2
	.hword	(.LBB11_267-.LBB11_67)>>2
	.hword	(.LBB11_267-.LBB11_67)>>2
	.hword	(.LBB11_267-.LBB11_67)>>2
	.hword	(.LBB11_267-.LBB11_67)>>2
	.hword	(.LBB11_267-.LBB11_67)>>2
	.hword	(.LBB11_267-.LBB11_67)>>2
	.hword	(.LBB11_267-.LBB11_67)>>2
	.hword	(.LBB11_267-.LBB11_67)>>2
	.hword	(.LBB11_267-.LBB11_67)>>2
	.hword	(.LBB11_267-.LBB11_67)>>2
	.hword	(.LBB11_267-.LBB11_67)>>2
	.hword	(.LBB11_267-.LBB11_67)>>2
	.hword	(.LBB11_267-.LBB11_67)>>2
	.hword	(.LBB11_267-.LBB11_67)>>2
	.hword	(.LBB11_267-.LBB11_67)>>2
	.hword	(.LBB11_267-.LBB11_67)>>2
	.hword	(.LBB11_267-.LBB11_67)>>2
	.hword	(.LBB11_267-.LBB11_67)>>2
	.hword	(.LBB11_267-.LBB11_67)>>2
	.hword	(.LBB11_267-.LBB11_67)>>2
	.hword	(.LBB11_267-.LBB11_67)>>2
	.hword	(.LBB11_267-.LBB11_67)>>2
	.hword	(.LBB11_267-.LBB11_67)>>2
	.hword	(.LBB11_267-.LBB11_67)>>2
	.hword	(.LBB11_267-.LBB11_67)>>2
	.hword	(.LBB11_267-.LBB11_67)>>2
	.hword	(.LBB11_267-.LBB11_67)>>2
	.hword	(.LBB11_267-.LBB11_67)>>2
	.hword	(.LBB11_267-.LBB11_67)>>2
	.hword	(.LBB11_267-.LBB11_67)>>2
	.hword	(.LBB11_267-.LBB11_67)>>2
	.hword	(.LBB11_267-.LBB11_67)>>2
	.hword	(.LBB11_267-.LBB11_67)>>2
	.hword	(.LBB11_267-.LBB11_67)>>2
	.hword	(.LBB11_267-.LBB11_67)>>2
	.hword	(.LBB11_267-.LBB11_67)>>2
	.hword	(.LBB11_267-.LBB11_67)>>2
	.hword	(.LBB11_293-.LBB11_67)>>2
	.hword	(.LBB11_286-.LBB11_67)>>2
	.hword	(.LBB11_290-.LBB11_67)>>2
	.hword	(.LBB11_282-.LBB11_67)>>2
	.hword	(.LBB11_284-.LBB11_67)>>2
	.hword	(.LBB11_288-.LBB11_67)>>2
	.hword	(.LBB11_287-.LBB11_67)>>2
	.hword	(.LBB11_280-.LBB11_67)>>2
	.hword	(.LBB11_299-.LBB11_67)>>2
	.hword	(.LBB11_295-.LBB11_67)>>2
	.hword	(.LBB11_301-.LBB11_67)>>2
	.hword	(.LBB11_296-.LBB11_67)>>2
	.hword	(.LBB11_298-.LBB11_67)>>2
	.hword	(.LBB11_297-.LBB11_67)>>2
	.hword	(.LBB11_278-.LBB11_67)>>2
	.hword	(.LBB11_279-.LBB11_67)>>2
	.hword	(.LBB11_272-.LBB11_67)>>2
	.hword	(.LBB11_302-.LBB11_67)>>2
	.hword	(.LBB11_300-.LBB11_67)>>2
	.hword	(.LBB11_276-.LBB11_67)>>2
	.hword	(.LBB11_267-.LBB11_67)>>2
	.hword	(.LBB11_267-.LBB11_67)>>2
	.hword	(.LBB11_267-.LBB11_67)>>2
	.hword	(.LBB11_267-.LBB11_67)>>2
	.hword	(.LBB11_267-.LBB11_67)>>2
	.hword	(.LBB11_267-.LBB11_67)>>2
	.hword	(.LBB11_267-.LBB11_67)>>2
	.hword	(.LBB11_267-.LBB11_67)>>2
	.hword	(.LBB11_267-.LBB11_67)>>2
	.hword	(.LBB11_267-.LBB11_67)>>2
	.hword	(.LBB11_267-.LBB11_67)>>2
	.hword	(.LBB11_267-.LBB11_67)>>2
	.hword	(.LBB11_273-.LBB11_67)>>2
	.hword	(.LBB11_269-.LBB11_67)>>2
	.hword	(.LBB11_275-.LBB11_67)>>2
	.hword	(.LBB11_271-.LBB11_67)>>2
	.hword	(.LBB11_270-.LBB11_67)>>2
	.hword	(.LBB11_303-.LBB11_67)>>2
	.hword	(.LBB11_267-.LBB11_67)>>2
	.hword	(.LBB11_267-.LBB11_67)>>2
	.hword	(.LBB11_267-.LBB11_67)>>2
	.hword	(.LBB11_267-.LBB11_67)>>2
	.hword	(.LBB11_267-.LBB11_67)>>2
	.hword	(.LBB11_267-.LBB11_67)>>2
	.hword	(.LBB11_267-.LBB11_67)>>2
	.hword	(.LBB11_267-.LBB11_67)>>2
	.hword	(.LBB11_267-.LBB11_67)>>2
	.hword	(.LBB11_267-.LBB11_67)>>2
	.hword	(.LBB11_267-.LBB11_67)>>2
	.hword	(.LBB11_267-.LBB11_67)>>2
	.hword	(.LBB11_267-.LBB11_67)>>2
	.hword	(.LBB11_267-.LBB11_67)>>2
	.hword	(.LBB11_285-.LBB11_67)>>2
	.hword	(.LBB11_304-.LBB11_67)>>2
	.hword	(.LBB11_283-.LBB11_67)>>2
	.hword	(.LBB11_268-.LBB11_67)>>2
	.hword	(.LBB11_277-.LBB11_67)>>2
	.hword	(.LBB11_281-.LBB11_67)>>2
	.hword	(.LBB11_274-.LBB11_67)>>2
.LJTI11_3:
	.byte	(.LBB11_99-.LBB11_98)>>2
	.byte	(.LBB11_99-.LBB11_98)>>2
	.byte	(.LBB11_102-.LBB11_98)>>2
	.byte	(.LBB11_98-.LBB11_98)>>2
	.byte	(.LBB11_98-.LBB11_98)>>2
	.byte	(.LBB11_102-.LBB11_98)>>2
	.byte	(.LBB11_110-.LBB11_98)>>2
	.byte	(.LBB11_101-.LBB11_98)>>2
	.byte	(.LBB11_101-.LBB11_98)>>2
	.byte	(.LBB11_98-.LBB11_98)>>2
	.byte	(.LBB11_111-.LBB11_98)>>2
	.byte	(.LBB11_108-.LBB11_98)>>2
	.byte	(.LBB11_98-.LBB11_98)>>2
	.byte	(.LBB11_111-.LBB11_98)>>2
	.byte	(.LBB11_101-.LBB11_98)>>2
	.byte	(.LBB11_103-.LBB11_98)>>2
	.byte	(.LBB11_103-.LBB11_98)>>2
	.byte	(.LBB11_111-.LBB11_98)>>2
	.byte	(.LBB11_98-.LBB11_98)>>2
	.byte	(.LBB11_102-.LBB11_98)>>2
	.byte	(.LBB11_98-.LBB11_98)>>2
	.byte	(.LBB11_111-.LBB11_98)>>2
	.byte	(.LBB11_109-.LBB11_98)>>2
	.byte	(.LBB11_111-.LBB11_98)>>2
	.byte	(.LBB11_111-.LBB11_98)>>2
	.byte	(.LBB11_106-.LBB11_98)>>2
	.byte	(.LBB11_98-.LBB11_98)>>2
	.byte	(.LBB11_98-.LBB11_98)>>2
	.byte	(.LBB11_98-.LBB11_98)>>2
	.byte	(.LBB11_98-.LBB11_98)>>2
	.byte	(.LBB11_98-.LBB11_98)>>2
	.byte	(.LBB11_98-.LBB11_98)>>2
	.byte	(.LBB11_103-.LBB11_98)>>2
	.byte	(.LBB11_111-.LBB11_98)>>2
	.byte	(.LBB11_98-.LBB11_98)>>2
	.byte	(.LBB11_111-.LBB11_98)>>2
	.byte	(.LBB11_98-.LBB11_98)>>2
	.byte	(.LBB11_102-.LBB11_98)>>2
	.byte	(.LBB11_103-.LBB11_98)>>2
	.byte	(.LBB11_98-.LBB11_98)>>2
	.byte	(.LBB11_98-.LBB11_98)>>2
	.byte	(.LBB11_101-.LBB11_98)>>2
	.byte	(.LBB11_111-.LBB11_98)>>2
	.byte	(.LBB11_98-.LBB11_98)>>2
	.byte	(.LBB11_98-.LBB11_98)>>2
	.byte	(.LBB11_98-.LBB11_98)>>2
	.byte	(.LBB11_98-.LBB11_98)>>2
	.byte	(.LBB11_98-.LBB11_98)>>2
	.byte	(.LBB11_98-.LBB11_98)>>2
	.byte	(.LBB11_98-.LBB11_98)>>2
	.byte	(.LBB11_98-.LBB11_98)>>2
	.byte	(.LBB11_111-.LBB11_98)>>2
	.byte	(.LBB11_101-.LBB11_98)>>2
	.byte	(.LBB11_99-.LBB11_98)>>2
	.byte	(.LBB11_111-.LBB11_98)>>2
	.byte	(.LBB11_102-.LBB11_98)>>2
	.byte	(.LBB11_102-.LBB11_98)>>2
	.byte	(.LBB11_98-.LBB11_98)>>2
	.byte	(.LBB11_98-.LBB11_98)>>2
	.byte	(.LBB11_98-.LBB11_98)>>2
	.byte	(.LBB11_98-.LBB11_98)>>2
	.byte	(.LBB11_111-.LBB11_98)>>2
	.byte	(.LBB11_98-.LBB11_98)>>2
	.byte	(.LBB11_98-.LBB11_98)>>2
	.byte	(.LBB11_111-.LBB11_98)>>2
	.byte	(.LBB11_101-.LBB11_98)>>2
	.byte	(.LBB11_111-.LBB11_98)>>2
	.byte	(.LBB11_104-.LBB11_98)>>2
	.byte	(.LBB11_104-.LBB11_98)>>2
.LJTI11_4:
	.byte	(.LBB11_119-.LBB11_118)>>2
	.byte	(.LBB11_118-.LBB11_118)>>2
	.byte	(.LBB11_118-.LBB11_118)>>2
	.byte	(.LBB11_119-.LBB11_118)>>2
	.byte	(.LBB11_145-.LBB11_118)>>2
	.byte	(.LBB11_148-.LBB11_118)>>2
	.byte	(.LBB11_148-.LBB11_118)>>2
	.byte	(.LBB11_118-.LBB11_118)>>2
	.byte	(.LBB11_131-.LBB11_118)>>2
	.byte	(.LBB11_141-.LBB11_118)>>2
	.byte	(.LBB11_118-.LBB11_118)>>2
	.byte	(.LBB11_139-.LBB11_118)>>2
	.byte	(.LBB11_148-.LBB11_118)>>2
	.byte	(.LBB11_120-.LBB11_118)>>2
	.byte	(.LBB11_120-.LBB11_118)>>2
	.byte	(.LBB11_129-.LBB11_118)>>2
	.byte	(.LBB11_118-.LBB11_118)>>2
	.byte	(.LBB11_119-.LBB11_118)>>2
	.byte	(.LBB11_118-.LBB11_118)>>2
	.byte	(.LBB11_128-.LBB11_118)>>2
	.byte	(.LBB11_132-.LBB11_118)>>2
	.byte	(.LBB11_126-.LBB11_118)>>2
	.byte	(.LBB11_143-.LBB11_118)>>2
	.byte	(.LBB11_133-.LBB11_118)>>2
	.byte	(.LBB11_118-.LBB11_118)>>2
	.byte	(.LBB11_118-.LBB11_118)>>2
	.byte	(.LBB11_118-.LBB11_118)>>2
	.byte	(.LBB11_118-.LBB11_118)>>2
	.byte	(.LBB11_118-.LBB11_118)>>2
	.byte	(.LBB11_118-.LBB11_118)>>2
	.byte	(.LBB11_120-.LBB11_118)>>2
	.byte	(.LBB11_123-.LBB11_118)>>2
	.byte	(.LBB11_118-.LBB11_118)>>2
	.byte	(.LBB11_123-.LBB11_118)>>2
	.byte	(.LBB11_118-.LBB11_118)>>2
	.byte	(.LBB11_119-.LBB11_118)>>2
	.byte	(.LBB11_120-.LBB11_118)>>2
	.byte	(.LBB11_118-.LBB11_118)>>2
	.byte	(.LBB11_118-.LBB11_118)>>2
	.byte	(.LBB11_148-.LBB11_118)>>2
	.byte	(.LBB11_137-.LBB11_118)>>2
	.byte	(.LBB11_118-.LBB11_118)>>2
	.byte	(.LBB11_118-.LBB11_118)>>2
	.byte	(.LBB11_118-.LBB11_118)>>2
	.byte	(.LBB11_118-.LBB11_118)>>2
	.byte	(.LBB11_118-.LBB11_118)>>2
	.byte	(.LBB11_118-.LBB11_118)>>2
	.byte	(.LBB11_118-.LBB11_118)>>2
	.byte	(.LBB11_118-.LBB11_118)>>2
	.byte	(.LBB11_146-.LBB11_118)>>2
	.byte	(.LBB11_148-.LBB11_118)>>2
	.byte	(.LBB11_148-.LBB11_118)>>2
	.byte	(.LBB11_125-.LBB11_118)>>2
	.byte	(.LBB11_119-.LBB11_118)>>2
	.byte	(.LBB11_119-.LBB11_118)>>2
	.byte	(.LBB11_118-.LBB11_118)>>2
	.byte	(.LBB11_118-.LBB11_118)>>2
	.byte	(.LBB11_118-.LBB11_118)>>2
	.byte	(.LBB11_118-.LBB11_118)>>2
	.byte	(.LBB11_136-.LBB11_118)>>2
	.byte	(.LBB11_118-.LBB11_118)>>2
	.byte	(.LBB11_118-.LBB11_118)>>2
	.byte	(.LBB11_124-.LBB11_118)>>2
	.byte	(.LBB11_148-.LBB11_118)>>2
	.byte	(.LBB11_120-.LBB11_118)>>2
	.byte	(.LBB11_121-.LBB11_118)>>2
	.byte	(.LBB11_121-.LBB11_118)>>2
.LJTI11_5:
	.byte	(.LBB11_163-.LBB11_156)>>2
	.byte	(.LBB11_162-.LBB11_156)>>2
	.byte	(.LBB11_162-.LBB11_156)>>2
	.byte	(.LBB11_163-.LBB11_156)>>2
	.byte	(.LBB11_156-.LBB11_156)>>2
	.byte	(.LBB11_156-.LBB11_156)>>2
	.byte	(.LBB11_156-.LBB11_156)>>2
	.byte	(.LBB11_162-.LBB11_156)>>2
	.byte	(.LBB11_171-.LBB11_156)>>2
	.byte	(.LBB11_178-.LBB11_156)>>2
	.byte	(.LBB11_162-.LBB11_156)>>2
	.byte	(.LBB11_170-.LBB11_156)>>2
	.byte	(.LBB11_156-.LBB11_156)>>2
	.byte	(.LBB11_164-.LBB11_156)>>2
	.byte	(.LBB11_164-.LBB11_156)>>2
	.byte	(.LBB11_172-.LBB11_156)>>2
	.byte	(.LBB11_162-.LBB11_156)>>2
	.byte	(.LBB11_163-.LBB11_156)>>2
	.byte	(.LBB11_162-.LBB11_156)>>2
	.byte	(.LBB11_177-.LBB11_156)>>2
	.byte	(.LBB11_156-.LBB11_156)>>2
	.byte	(.LBB11_182-.LBB11_156)>>2
	.byte	(.LBB11_180-.LBB11_156)>>2
	.byte	(.LBB11_174-.LBB11_156)>>2
	.byte	(.LBB11_162-.LBB11_156)>>2
	.byte	(.LBB11_162-.LBB11_156)>>2
	.byte	(.LBB11_162-.LBB11_156)>>2
	.byte	(.LBB11_162-.LBB11_156)>>2
	.byte	(.LBB11_162-.LBB11_156)>>2
	.byte	(.LBB11_162-.LBB11_156)>>2
	.byte	(.LBB11_164-.LBB11_156)>>2
	.byte	(.LBB11_156-.LBB11_156)>>2
	.byte	(.LBB11_162-.LBB11_156)>>2
	.byte	(.LBB11_156-.LBB11_156)>>2
	.byte	(.LBB11_162-.LBB11_156)>>2
	.byte	(.LBB11_163-.LBB11_156)>>2
	.byte	(.LBB11_164-.LBB11_156)>>2
	.byte	(.LBB11_162-.LBB11_156)>>2
	.byte	(.LBB11_162-.LBB11_156)>>2
	.byte	(.LBB11_156-.LBB11_156)>>2
	.byte	(.LBB11_168-.LBB11_156)>>2
	.byte	(.LBB11_162-.LBB11_156)>>2
	.byte	(.LBB11_162-.LBB11_156)>>2
	.byte	(.LBB11_162-.LBB11_156)>>2
	.byte	(.LBB11_162-.LBB11_156)>>2
	.byte	(.LBB11_162-.LBB11_156)>>2
	.byte	(.LBB11_162-.LBB11_156)>>2
	.byte	(.LBB11_162-.LBB11_156)>>2
	.byte	(.LBB11_162-.LBB11_156)>>2
	.byte	(.LBB11_166-.LBB11_156)>>2
	.byte	(.LBB11_156-.LBB11_156)>>2
	.byte	(.LBB11_156-.LBB11_156)>>2
	.byte	(.LBB11_165-.LBB11_156)>>2
	.byte	(.LBB11_163-.LBB11_156)>>2
	.byte	(.LBB11_163-.LBB11_156)>>2
	.byte	(.LBB11_162-.LBB11_156)>>2
	.byte	(.LBB11_162-.LBB11_156)>>2
	.byte	(.LBB11_162-.LBB11_156)>>2
	.byte	(.LBB11_162-.LBB11_156)>>2
	.byte	(.LBB11_184-.LBB11_156)>>2
	.byte	(.LBB11_162-.LBB11_156)>>2
	.byte	(.LBB11_162-.LBB11_156)>>2
	.byte	(.LBB11_167-.LBB11_156)>>2
	.byte	(.LBB11_156-.LBB11_156)>>2
	.byte	(.LBB11_164-.LBB11_156)>>2

	.section	.text.nla_wire.payload.measure_text,"ax",@progbits
	.p2align	2
	.type	nla_wire.payload.measure_text,@function
nla_wire.payload.measure_text:
	cbz	x1, .LBB12_2
	sub	x8, x1, #1
	ldrb	w9, [x0, x8]
	cbz	w9, .LBB12_4
.LBB12_2:
	mov	w8, #65530
	cmp	x1, x8
	b.ls	.LBB12_5
.LBB12_3:
	mov	x1, xzr
	mov	w0, wzr
	ret
.LBB12_4:
	mov	x1, x8
	mov	w8, #65530
	cmp	x1, x8
	b.hi	.LBB12_3
.LBB12_5:
	stp	x29, x30, [sp, #-32]!
	str	x19, [sp, #16]
	mov	x29, sp
	cbz	x1, .LBB12_24
	cmp	x1, #3
	b.hi	.LBB12_10
	ldrsb	w8, [x0]
	tbnz	w8, #31, .LBB12_25
	lsr	x8, x1, #1
	ldrsb	w8, [x0, x8]
	tbnz	w8, #31, .LBB12_25
	add	x8, x0, x1
	ldursb	w8, [x8, #-1]
	tbz	w8, #31, .LBB12_24
	b	.LBB12_25
.LBB12_10:
	cmp	x1, #7
	b.hi	.LBB12_13
	ldr	w8, [x0]
	tst	w8, #0x80808080
	b.ne	.LBB12_25
	add	x8, x0, x1
	mov	w9, #-2139062144
	ldur	w8, [x8, #-4]
	tst	w8, w9
	b.ne	.LBB12_25
	b	.LBB12_24
.LBB12_13:
	cmp	x1, #16
	b.hi	.LBB12_16
	ldr	x8, [x0]
	tst	x8, #0x8080808080808080
	b.ne	.LBB12_25
	add	x8, x0, x1
	ldur	x8, [x8, #-8]
	tst	x8, #0x8080808080808080
	b.ne	.LBB12_25
	b	.LBB12_24
.LBB12_16:
	cmp	x1, #31
	b.hi	.LBB12_19
	ldr	q0, [x0]
	umaxv	b0, v0.16b
	fmov	w8, s0
	tbnz	w8, #7, .LBB12_25
	add	x8, x0, x1
	ldur	q0, [x8, #-16]
	b	.LBB12_23
.LBB12_19:
	movi	v0.2d, #0000000000000000
	movi	v1.2d, #0000000000000000
	and	x8, x1, #0xffe0
	add	x9, x0, #16
.LBB12_20:
	ldp	q2, q3, [x9, #-16]
	subs	x8, x8, #32
	add	x9, x9, #32
	umax	v0.16b, v0.16b, v2.16b
	umax	v1.16b, v1.16b, v3.16b
	b.ne	.LBB12_20
	umax	v0.16b, v0.16b, v1.16b
	umaxv	b0, v0.16b
	fmov	w8, s0
	tbnz	w8, #7, .LBB12_25
	add	x8, x0, x1
	ldp	q1, q0, [x8, #-32]
	umax	v0.16b, v1.16b, v0.16b
.LBB12_23:
	umaxv	b0, v0.16b
	fmov	w8, s0
	tbnz	w8, #7, .LBB12_25
.LBB12_24:
	add	x1, x1, #1
	mov	w0, #1
	ldr	x19, [sp, #16]
	ldp	x29, x30, [sp], #32
	ret
.LBB12_25:
	mov	x19, x1
	bl	nla_wire.text.is_decoded
	cmp	w0, #0
	csinc	x1, xzr, x19, eq
	ldr	x19, [sp, #16]
	ldp	x29, x30, [sp], #32
	ret
.Lfunc_end12:
	.size	nla_wire.payload.measure_text, .Lfunc_end12-nla_wire.payload.measure_text

	.section	.text.nla_wire.text.is_decoded,"ax",@progbits
	.p2align	2
	.type	nla_wire.text.is_decoded,@function
nla_wire.text.is_decoded:
	sub	sp, sp, #48
	mov	x2, x1
	mov	x1, x0
	add	x0, sp, #8
	stp	x29, x30, [sp, #32]
	add	x29, sp, #32
	stp	xzr, xzr, [sp, #8]
	str	xzr, [sp, #24]
	bl	core.str.utf8.from_utf8
	ldrb	w8, [sp, #8]
	ldp	x29, x30, [sp, #32]
	cmp	w8, #0
	cset	w0, eq
	add	sp, sp, #48
	ret
.Lfunc_end13:
	.size	nla_wire.text.is_decoded, .Lfunc_end13-nla_wire.text.is_decoded

	.section	.text.nla_wire.members.measure_each.49064c0641319ce4,"ax",@progbits
	.p2align	2
	.type	nla_wire.members.measure_each.49064c0641319ce4,@function
nla_wire.members.measure_each.49064c0641319ce4:
	stp	x29, x30, [sp, #-48]!
	stp	x22, x21, [sp, #16]
	mov	x8, xzr
	mov	x21, xzr
	stp	x20, x19, [sp, #32]
	mov	x19, x1
	mov	x20, x0
	mov	x29, sp
.LBB14_1:
	subs	x19, x19, x8
	b.ls	.LBB14_11
	cmp	x19, #4
	b.lo	.LBB14_9
	add	x20, x20, x8
	mov	w0, wzr
	mov	x1, xzr
	ldrh	w22, [x20]
	cmp	w22, #4
	b.lo	.LBB14_10
	cmp	x19, x22
	b.lo	.LBB14_10
	ldrb	w8, [x20, #2]
	ldrb	w9, [x20, #3]
	sub	x1, x22, #4
	bfi	w8, w9, #8, #6
	cmp	w8, #1
	b.ne	.LBB14_7
	add	x0, x20, #4
	sub	x1, x22, #4
	bl	nla_wire.payload.measure_text
	and	w8, w0, #0xff
	cmp	w8, #1
	b.eq	.LBB14_8
	b	.LBB14_9
.LBB14_7:
	mov	w0, #1
	and	w8, w0, #0xff
	cmp	w8, #1
	b.ne	.LBB14_9
.LBB14_8:
	add	x8, x1, #3
	and	x8, x8, #0xfffffffffffffffc
	add	x8, x21, x8
	add	x9, x8, #4
	add	w8, w22, #3
	cmp	x9, x21
	and	x8, x8, #0x1fffc
	mov	x21, x9
	b.hs	.LBB14_1
.LBB14_9:
	mov	x1, xzr
	mov	w0, wzr
.LBB14_10:
	ldp	x20, x19, [sp, #32]
	ldp	x22, x21, [sp, #16]
	ldp	x29, x30, [sp], #48
	ret
.LBB14_11:
	mov	w0, #1
	mov	x1, x21
	ldp	x20, x19, [sp, #32]
	ldp	x22, x21, [sp, #16]
	ldp	x29, x30, [sp], #48
	ret
.Lfunc_end14:
	.size	nla_wire.members.measure_each.49064c0641319ce4, .Lfunc_end14-nla_wire.members.measure_each.49064c0641319ce4

	.section	.text.nla_wire.members.measure_each.3bb4c8661a1029f4,"ax",@progbits
	.p2align	2
	.type	nla_wire.members.measure_each.3bb4c8661a1029f4,@function
nla_wire.members.measure_each.3bb4c8661a1029f4:
	cbz	x1, .LBB15_13
	stp	x29, x30, [sp, #-48]!
	stp	x22, x21, [sp, #16]
	mov	x21, xzr
	mov	x8, xzr
	stp	x20, x19, [sp, #32]
	mov	x19, x1
	mov	x20, x0
	mov	x29, sp
	b	.LBB15_3
.LBB15_2:
	add	w8, w22, #3
	and	x8, x8, #0x1fffc
	cmp	x19, x8
	b.ls	.LBB15_14
.LBB15_3:
	sub	x19, x19, x8
	cmp	x19, #4
	b.lo	.LBB15_11
	add	x20, x20, x8
	mov	w0, wzr
	mov	x1, xzr
	ldrh	w22, [x20]
	cmp	w22, #4
	b.lo	.LBB15_12
	cmp	x19, x22
	b.lo	.LBB15_12
	ldrb	w8, [x20, #2]
	ldrb	w9, [x20, #3]
	bfi	w8, w9, #8, #6
	cmp	w8, #1
	b.ne	.LBB15_2
	sub	x8, x22, #4
	cbz	x8, .LBB15_11
	add	x0, x20, #4
	sub	x1, x22, #4
	bl	nla_wire.members.measure_each.41ac5f0caeaa9df8
	mov	w9, w0
	mov	x8, x1
	mov	w0, wzr
	and	w9, w9, #0xff
	mov	x1, xzr
	cmp	w9, #1
	b.ne	.LBB15_12
	mov	w9, #65531
	cmp	x8, x9
	b.hi	.LBB15_12
	add	w8, w8, #3
	and	x8, x8, #0x1fffc
	add	x8, x21, x8
	add	x8, x8, #4
	cmp	x8, x21
	mov	x21, x8
	b.hs	.LBB15_2
.LBB15_11:
	mov	x1, xzr
	mov	w0, wzr
.LBB15_12:
	ldp	x20, x19, [sp, #32]
	ldp	x22, x21, [sp, #16]
	ldp	x29, x30, [sp], #48
	ret
.LBB15_13:
	mov	w0, #1
	ret
.LBB15_14:
	mov	w0, #1
	mov	x1, x21
	ldp	x20, x19, [sp, #32]
	ldp	x22, x21, [sp, #16]
	ldp	x29, x30, [sp], #48
	ret
.Lfunc_end15:
	.size	nla_wire.members.measure_each.3bb4c8661a1029f4, .Lfunc_end15-nla_wire.members.measure_each.3bb4c8661a1029f4

	.section	.text.nla_wire.members.measure_each.41ac5f0caeaa9df8,"ax",@progbits
	.p2align	2
	.type	nla_wire.members.measure_each.41ac5f0caeaa9df8,@function
nla_wire.members.measure_each.41ac5f0caeaa9df8:
	stp	x29, x30, [sp, #-48]!
	stp	x22, x21, [sp, #16]
	mov	x8, xzr
	mov	x21, xzr
	stp	x20, x19, [sp, #32]
	mov	x19, x1
	mov	x20, x0
	mov	x29, sp
	b	.LBB16_4
.LBB16_1:
	cmp	w22, #40
	b.lo	.LBB16_22
	mov	w1, #36
.LBB16_3:
	add	x8, x1, #3
	and	x8, x8, #0xfffffffffffffffc
	add	x8, x21, x8
	add	x9, x8, #4
	add	w8, w22, #3
	cmp	x9, x21
	and	x8, x8, #0x1fffc
	mov	x21, x9
	b.lo	.LBB16_22
.LBB16_4:
	subs	x19, x19, x8
	b.ls	.LBB16_24
	cmp	x19, #4
	b.lo	.LBB16_22
	add	x20, x20, x8
	mov	w0, wzr
	mov	x2, xzr
	ldrh	w22, [x20]
	cmp	w22, #4
	b.lo	.LBB16_23
	cmp	x19, x22
	b.lo	.LBB16_23
	ldrb	w8, [x20, #2]
	ldrb	w9, [x20, #3]
	sub	x1, x22, #4
	bfi	w8, w9, #8, #6
	sub	w8, w8, #1
	cmp	w8, #12
	b.hi	.LBB16_3
	adrp	x9, .LJTI16_0
	add	x9, x9, :lo12:.LJTI16_0
	adr	x10, .LBB16_1
	ldrb	w11, [x9, x8]
	add	x10, x10, x11, lsl #2
	br	x10
.LBB16_10:
	cmp	w22, #11
	b.ls	.LBB16_22
	mov	w1, #8
	b	.LBB16_3
.LBB16_12:
	cmp	w22, #19
	b.ls	.LBB16_22
	mov	w1, #16
	b	.LBB16_3
.LBB16_14:
	cmp	w22, #15
	b.ls	.LBB16_22
	mov	w1, #12
	b	.LBB16_3
.LBB16_16:
	add	x0, x20, #4
	sub	x1, x22, #4
	bl	nla_wire.members.measure_each.9a0187163d44de3c
	b	.LBB16_20
.LBB16_17:
	cmp	w22, #35
	b.ls	.LBB16_22
	mov	w1, #32
	b	.LBB16_3
.LBB16_19:
	add	x0, x20, #4
	sub	x1, x22, #4
	bl	nla_wire.members.measure_each.5361511d0f913a98
.LBB16_20:
	mov	w8, w0
	mov	w0, wzr
	mov	x2, xzr
	and	w8, w8, #0xff
	cmp	w8, #1
	b.ne	.LBB16_23
	mov	w8, #65532
	cmp	x1, x8
	b.lo	.LBB16_3
	b	.LBB16_23
.LBB16_22:
	mov	x2, xzr
	mov	w0, wzr
.LBB16_23:
	ldp	x20, x19, [sp, #32]
	mov	x1, x2
	ldp	x22, x21, [sp, #16]
	ldp	x29, x30, [sp], #48
	ret
.LBB16_24:
	mov	w0, #1
	mov	x2, x21
	ldp	x20, x19, [sp, #32]
	mov	x1, x2
	ldp	x22, x21, [sp, #16]
	ldp	x29, x30, [sp], #48
	ret
.Lfunc_end16:
	.size	nla_wire.members.measure_each.41ac5f0caeaa9df8, .Lfunc_end16-nla_wire.members.measure_each.41ac5f0caeaa9df8
	.section	.rodata.nla_wire.members.measure_each.41ac5f0caeaa9df8,"a",@progbits
.LJTI16_0:
	.byte	(.LBB16_1-.LBB16_1)>>2
	.byte	(.LBB16_14-.LBB16_1)>>2
	.byte	(.LBB16_10-.LBB16_1)>>2
	.byte	(.LBB16_10-.LBB16_1)>>2
	.byte	(.LBB16_10-.LBB16_1)>>2
	.byte	(.LBB16_14-.LBB16_1)>>2
	.byte	(.LBB16_10-.LBB16_1)>>2
	.byte	(.LBB16_19-.LBB16_1)>>2
	.byte	(.LBB16_10-.LBB16_1)>>2
	.byte	(.LBB16_12-.LBB16_1)>>2
	.byte	(.LBB16_12-.LBB16_1)>>2
	.byte	(.LBB16_16-.LBB16_1)>>2
	.byte	(.LBB16_17-.LBB16_1)>>2

	.section	.text.nla_wire.members.measure_each.5361511d0f913a98,"ax",@progbits
	.p2align	2
	.type	nla_wire.members.measure_each.5361511d0f913a98,@function
nla_wire.members.measure_each.5361511d0f913a98:
	mov	x10, xzr
	mov	x9, xzr
.LBB17_1:
	subs	x1, x1, x10
	b.ls	.LBB17_20
	cmp	x1, #4
	b.lo	.LBB17_18
	add	x0, x0, x10
	mov	w8, wzr
	mov	x2, xzr
	ldrh	w10, [x0]
	cmp	w10, #4
	b.lo	.LBB17_19
	cmp	x1, x10
	b.lo	.LBB17_19
	ldrb	w11, [x0, #2]
	ldrb	w8, [x0, #3]
	bfi	w11, w8, #8, #6
	sub	x8, x10, #4
	cmp	w11, #3
	b.gt	.LBB17_9
	cmp	w11, #1
	b.gt	.LBB17_12
	cbz	w11, .LBB17_16
	cmp	w11, #1
	b.eq	.LBB17_16
	b	.LBB17_17
.LBB17_9:
	cmp	w11, #6
	b.gt	.LBB17_14
	cmp	w11, #4
	b.eq	.LBB17_16
	cmp	w11, #5
	b.eq	.LBB17_16
	b	.LBB17_17
.LBB17_12:
	cmp	w11, #2
	b.eq	.LBB17_16
	cmp	w11, #3
	b.eq	.LBB17_16
	b	.LBB17_17
.LBB17_14:
	cmp	w11, #7
	b.eq	.LBB17_16
	cmp	w11, #8
	b.ne	.LBB17_17
.LBB17_16:
	cmp	x8, #8
	b.ne	.LBB17_18
.LBB17_17:
	add	x8, x8, #3
	add	w10, w10, #3
	and	x8, x8, #0xfffffffffffffffc
	and	x10, x10, #0x1fffc
	add	x8, x9, x8
	add	x8, x8, #4
	cmp	x8, x9
	mov	x9, x8
	b.hs	.LBB17_1
.LBB17_18:
	mov	x2, xzr
	mov	w8, wzr
.LBB17_19:
	mov	w0, w8
	mov	x1, x2
	ret
.LBB17_20:
	mov	w8, #1
	mov	x2, x9
	mov	w0, w8
	mov	x1, x2
	ret
.Lfunc_end17:
	.size	nla_wire.members.measure_each.5361511d0f913a98, .Lfunc_end17-nla_wire.members.measure_each.5361511d0f913a98

	.section	.text.nla_wire.members.measure_each.9a0187163d44de3c,"ax",@progbits
	.p2align	2
	.type	nla_wire.members.measure_each.9a0187163d44de3c,@function
nla_wire.members.measure_each.9a0187163d44de3c:
	mov	x10, xzr
	mov	x9, xzr
	b	.LBB18_2
.LBB18_1:
	cmp	w10, #20
	mov	w11, #16
	sub	x12, x10, #4
	csel	x11, xzr, x11, lo
	cmp	w8, #1
	add	w10, w10, #3
	csel	x8, x11, x12, eq
	and	x10, x10, #0x1fffc
	add	x8, x8, #3
	and	x8, x8, #0xfffffffffffffffc
	add	x8, x9, x8
	add	x8, x8, #4
	cmp	x8, x9
	mov	x9, x8
	b.lo	.LBB18_8
.LBB18_2:
	subs	x1, x1, x10
	b.ls	.LBB18_10
	cmp	x1, #4
	b.lo	.LBB18_8
	add	x0, x0, x10
	mov	w8, wzr
	mov	x2, xzr
	ldrh	w10, [x0]
	cmp	w10, #4
	b.lo	.LBB18_9
	cmp	x1, x10
	b.lo	.LBB18_9
	ldrb	w8, [x0, #2]
	ldrb	w11, [x0, #3]
	bfi	w8, w11, #8, #6
	cmp	w8, #1
	b.ne	.LBB18_1
	cmp	w10, #20
	b.hs	.LBB18_1
.LBB18_8:
	mov	x2, xzr
	mov	w8, wzr
.LBB18_9:
	mov	w0, w8
	mov	x1, x2
	ret
.LBB18_10:
	mov	w8, #1
	mov	x2, x9
	mov	w0, w8
	mov	x1, x2
	ret
.Lfunc_end18:
	.size	nla_wire.members.measure_each.9a0187163d44de3c, .Lfunc_end18-nla_wire.members.measure_each.9a0187163d44de3c

	.section	.text.nla_wire.members.measure_each.79503c7a397af21a,"ax",@progbits
	.p2align	2
	.type	nla_wire.members.measure_each.79503c7a397af21a,@function
nla_wire.members.measure_each.79503c7a397af21a:
	cbz	x1, .LBB19_13
	stp	x29, x30, [sp, #-48]!
	stp	x22, x21, [sp, #16]
	mov	x21, xzr
	mov	x8, xzr
	stp	x20, x19, [sp, #32]
	mov	x19, x1
	mov	x20, x0
	mov	x29, sp
	b	.LBB19_3
.LBB19_2:
	add	w8, w22, #3
	and	x8, x8, #0x1fffc
	cmp	x19, x8
	b.ls	.LBB19_14
.LBB19_3:
	sub	x19, x19, x8
	cmp	x19, #4
	b.lo	.LBB19_11
	add	x20, x20, x8
	mov	w0, wzr
	mov	x1, xzr
	ldrh	w22, [x20]
	cmp	w22, #4
	b.lo	.LBB19_12
	cmp	x19, x22
	b.lo	.LBB19_12
	ldrb	w8, [x20, #2]
	ldrb	w9, [x20, #3]
	bfi	w8, w9, #8, #6
	cmp	w8, #1
	b.ne	.LBB19_2
	sub	x8, x22, #4
	cbz	x8, .LBB19_11
	add	x0, x20, #4
	sub	x1, x22, #4
	bl	nla_wire.members.measure_each.1f0cb788f492ced5
	mov	w9, w0
	mov	x8, x1
	mov	w0, wzr
	and	w9, w9, #0xff
	mov	x1, xzr
	cmp	w9, #1
	b.ne	.LBB19_12
	mov	w9, #65531
	cmp	x8, x9
	b.hi	.LBB19_12
	add	w8, w8, #3
	and	x8, x8, #0x1fffc
	add	x8, x21, x8
	add	x8, x8, #4
	cmp	x8, x21
	mov	x21, x8
	b.hs	.LBB19_2
.LBB19_11:
	mov	x1, xzr
	mov	w0, wzr
.LBB19_12:
	ldp	x20, x19, [sp, #32]
	ldp	x22, x21, [sp, #16]
	ldp	x29, x30, [sp], #48
	ret
.LBB19_13:
	mov	w0, #1
	ret
.LBB19_14:
	mov	w0, #1
	mov	x1, x21
	ldp	x20, x19, [sp, #32]
	ldp	x22, x21, [sp, #16]
	ldp	x29, x30, [sp], #48
	ret
.Lfunc_end19:
	.size	nla_wire.members.measure_each.79503c7a397af21a, .Lfunc_end19-nla_wire.members.measure_each.79503c7a397af21a

	.section	.text.nla_wire.members.measure_each.8ba1f663fcd59a5e,"ax",@progbits
	.p2align	2
	.type	nla_wire.members.measure_each.8ba1f663fcd59a5e,@function
nla_wire.members.measure_each.8ba1f663fcd59a5e:
	mov	x10, xzr
	mov	x9, xzr
.LBB20_1:
	subs	x1, x1, x10
	b.ls	.LBB20_21
	cmp	x1, #4
	b.lo	.LBB20_19
	add	x0, x0, x10
	mov	w8, wzr
	mov	x2, xzr
	ldrh	w10, [x0]
	cmp	w10, #4
	b.lo	.LBB20_20
	cmp	x1, x10
	b.lo	.LBB20_20
	ldrb	w11, [x0, #2]
	ldrb	w8, [x0, #3]
	bfi	w11, w8, #8, #6
	sub	x8, x10, #4
	cmp	w11, #4
	b.gt	.LBB20_10
	cmp	w11, #2
	b.gt	.LBB20_13
	cmp	w11, #1
	b.eq	.LBB20_17
	cmp	w11, #2
	b.ne	.LBB20_18
	cmp	x8, #1
	b.eq	.LBB20_18
	b	.LBB20_19
.LBB20_10:
	cmp	w11, #6
	b.gt	.LBB20_15
	cmp	w11, #5
	b.eq	.LBB20_17
	cmp	w11, #6
	b.eq	.LBB20_17
	b	.LBB20_18
.LBB20_13:
	cmp	w11, #3
	b.eq	.LBB20_17
	cmp	w11, #4
	b.eq	.LBB20_17
	b	.LBB20_18
.LBB20_15:
	cmp	w11, #7
	b.eq	.LBB20_17
	cmp	w11, #8
	b.ne	.LBB20_18
.LBB20_17:
	cmp	x8, #4
	b.ne	.LBB20_19
.LBB20_18:
	add	x8, x8, #3
	add	w10, w10, #3
	and	x8, x8, #0xfffffffffffffffc
	and	x10, x10, #0x1fffc
	add	x8, x9, x8
	add	x8, x8, #4
	cmp	x8, x9
	mov	x9, x8
	b.hs	.LBB20_1
.LBB20_19:
	mov	x2, xzr
	mov	w8, wzr
.LBB20_20:
	mov	w0, w8
	mov	x1, x2
	ret
.LBB20_21:
	mov	w8, #1
	mov	x2, x9
	mov	w0, w8
	mov	x1, x2
	ret
.Lfunc_end20:
	.size	nla_wire.members.measure_each.8ba1f663fcd59a5e, .Lfunc_end20-nla_wire.members.measure_each.8ba1f663fcd59a5e

	.section	.text.nla_wire.members.measure_each.b30b196c481b950e,"ax",@progbits
	.p2align	2
	.type	nla_wire.members.measure_each.b30b196c481b950e,@function
nla_wire.members.measure_each.b30b196c481b950e:
	stp	x29, x30, [sp, #-48]!
	stp	x22, x21, [sp, #16]
	mov	x8, xzr
	mov	x21, xzr
	stp	x20, x19, [sp, #32]
	mov	x19, x1
	mov	x20, x0
	mov	x29, sp
.LBB21_1:
	subs	x19, x19, x8
	b.ls	.LBB21_11
	cmp	x19, #4
	b.lo	.LBB21_9
	add	x20, x20, x8
	mov	w0, wzr
	mov	x1, xzr
	ldrh	w22, [x20]
	cmp	w22, #4
	b.lo	.LBB21_10
	cmp	x19, x22
	b.lo	.LBB21_10
	ldrb	w8, [x20, #2]
	ldrb	w9, [x20, #3]
	sub	x1, x22, #4
	bfi	w8, w9, #8, #6
	cmp	w8, #53
	b.ne	.LBB21_7
	add	x0, x20, #4
	sub	x1, x22, #4
	bl	nla_wire.payload.measure_text
	and	w8, w0, #0xff
	cmp	w8, #1
	b.eq	.LBB21_8
	b	.LBB21_9
.LBB21_7:
	mov	w0, #1
	and	w8, w0, #0xff
	cmp	w8, #1
	b.ne	.LBB21_9
.LBB21_8:
	add	x8, x1, #3
	and	x8, x8, #0xfffffffffffffffc
	add	x8, x21, x8
	add	x9, x8, #4
	add	w8, w22, #3
	cmp	x9, x21
	and	x8, x8, #0x1fffc
	mov	x21, x9
	b.hs	.LBB21_1
.LBB21_9:
	mov	x1, xzr
	mov	w0, wzr
.LBB21_10:
	ldp	x20, x19, [sp, #32]
	ldp	x22, x21, [sp, #16]
	ldp	x29, x30, [sp], #48
	ret
.LBB21_11:
	mov	w0, #1
	mov	x1, x21
	ldp	x20, x19, [sp, #32]
	ldp	x22, x21, [sp, #16]
	ldp	x29, x30, [sp], #48
	ret
.Lfunc_end21:
	.size	nla_wire.members.measure_each.b30b196c481b950e, .Lfunc_end21-nla_wire.members.measure_each.b30b196c481b950e

	.section	.text.nla_wire.members.measure_each.f7f30aae703aa44d,"ax",@progbits
	.p2align	2
	.type	nla_wire.members.measure_each.f7f30aae703aa44d,@function
nla_wire.members.measure_each.f7f30aae703aa44d:
	mov	x10, xzr
	mov	x9, xzr
	b	.LBB22_3
.LBB22_1:
	cmp	x8, #4
	b.ne	.LBB22_9
.LBB22_2:
	add	x8, x8, #3
	add	w10, w10, #3
	and	x8, x8, #0xfffffffffffffffc
	and	x10, x10, #0x1fffc
	add	x8, x9, x8
	add	x8, x8, #4
	cmp	x8, x9
	mov	x9, x8
	b.lo	.LBB22_9
.LBB22_3:
	subs	x1, x1, x10
	b.ls	.LBB22_11
	cmp	x1, #4
	b.lo	.LBB22_9
	add	x0, x0, x10
	mov	w8, wzr
	mov	x2, xzr
	ldrh	w10, [x0]
	cmp	w10, #4
	b.lo	.LBB22_10
	cmp	x1, x10
	b.lo	.LBB22_10
	ldrb	w11, [x0, #2]
	ldrb	w8, [x0, #3]
	bfi	w11, w8, #8, #6
	sub	x8, x10, #4
	cmp	w11, #1
	b.eq	.LBB22_1
	cmp	w11, #2
	b.eq	.LBB22_1
	b	.LBB22_2
.LBB22_9:
	mov	x2, xzr
	mov	w8, wzr
.LBB22_10:
	mov	w0, w8
	mov	x1, x2
	ret
.LBB22_11:
	mov	w8, #1
	mov	x2, x9
	mov	w0, w8
	mov	x1, x2
	ret
.Lfunc_end22:
	.size	nla_wire.members.measure_each.f7f30aae703aa44d, .Lfunc_end22-nla_wire.members.measure_each.f7f30aae703aa44d

	.section	.text.nla_wire.members.measure_each.16a873d75d6df2a1,"ax",@progbits
	.p2align	2
	.type	nla_wire.members.measure_each.16a873d75d6df2a1,@function
nla_wire.members.measure_each.16a873d75d6df2a1:
	stp	x29, x30, [sp, #-48]!
	stp	x22, x21, [sp, #16]
	mov	x8, xzr
	mov	x21, xzr
	stp	x20, x19, [sp, #32]
	mov	x19, x1
	mov	x20, x0
	mov	x29, sp
.LBB23_1:
	subs	x19, x19, x8
	b.ls	.LBB23_14
	cmp	x19, #4
	b.lo	.LBB23_12
	add	x20, x20, x8
	mov	w0, wzr
	mov	x1, xzr
	ldrh	w22, [x20]
	cmp	w22, #4
	b.lo	.LBB23_13
	cmp	x19, x22
	b.lo	.LBB23_13
	ldrb	w8, [x20, #2]
	ldrb	w9, [x20, #3]
	sub	x1, x22, #4
	bfi	w8, w9, #8, #6
	cmp	w8, #3
	b.eq	.LBB23_9
	cmp	w8, #2
	b.eq	.LBB23_8
	cmp	w8, #1
	b.ne	.LBB23_10
.LBB23_8:
	add	x0, x20, #4
	sub	x1, x22, #4
	bl	nla_wire.payload.measure_text
	and	w8, w0, #0xff
	cmp	w8, #1
	b.eq	.LBB23_11
	b	.LBB23_12
.LBB23_9:
	cmp	x1, #4
	cset	w0, eq
	csel	x1, x1, xzr, eq
	and	w8, w0, #0xff
	cmp	w8, #1
	b.eq	.LBB23_11
	b	.LBB23_12
.LBB23_10:
	mov	w0, #1
	and	w8, w0, #0xff
	cmp	w8, #1
	b.ne	.LBB23_12
.LBB23_11:
	add	x8, x1, #3
	and	x8, x8, #0xfffffffffffffffc
	add	x8, x21, x8
	add	x9, x8, #4
	add	w8, w22, #3
	cmp	x9, x21
	and	x8, x8, #0x1fffc
	mov	x21, x9
	b.hs	.LBB23_1
.LBB23_12:
	mov	x1, xzr
	mov	w0, wzr
.LBB23_13:
	ldp	x20, x19, [sp, #32]
	ldp	x22, x21, [sp, #16]
	ldp	x29, x30, [sp], #48
	ret
.LBB23_14:
	mov	w0, #1
	mov	x1, x21
	ldp	x20, x19, [sp, #32]
	ldp	x22, x21, [sp, #16]
	ldp	x29, x30, [sp], #48
	ret
.Lfunc_end23:
	.size	nla_wire.members.measure_each.16a873d75d6df2a1, .Lfunc_end23-nla_wire.members.measure_each.16a873d75d6df2a1

	.section	.text.nla_wire.members.measure_each.5fa77b269143286c,"ax",@progbits
	.p2align	2
	.type	nla_wire.members.measure_each.5fa77b269143286c,@function
nla_wire.members.measure_each.5fa77b269143286c:
	mov	x10, xzr
	mov	x9, xzr
	b	.LBB24_2
.LBB24_1:
	cmp	x11, #4
	add	w10, w10, #3
	csel	x12, xzr, x11, ne
	cmp	w8, #1
	and	x10, x10, #0x1fffc
	csel	x8, x12, x11, eq
	add	x8, x8, #3
	and	x8, x8, #0xfffffffffffffffc
	add	x8, x9, x8
	add	x8, x8, #4
	cmp	x8, x9
	mov	x9, x8
	b.lo	.LBB24_8
.LBB24_2:
	subs	x1, x1, x10
	b.ls	.LBB24_10
	cmp	x1, #4
	b.lo	.LBB24_8
	add	x0, x0, x10
	mov	w8, wzr
	mov	x2, xzr
	ldrh	w10, [x0]
	cmp	w10, #4
	b.lo	.LBB24_9
	cmp	x1, x10
	b.lo	.LBB24_9
	ldrb	w8, [x0, #2]
	ldrb	w11, [x0, #3]
	bfi	w8, w11, #8, #6
	sub	x11, x10, #4
	cmp	w8, #1
	b.ne	.LBB24_1
	cmp	x11, #4
	b.eq	.LBB24_1
.LBB24_8:
	mov	x2, xzr
	mov	w8, wzr
.LBB24_9:
	mov	w0, w8
	mov	x1, x2
	ret
.LBB24_10:
	mov	w8, #1
	mov	x2, x9
	mov	w0, w8
	mov	x1, x2
	ret
.Lfunc_end24:
	.size	nla_wire.members.measure_each.5fa77b269143286c, .Lfunc_end24-nla_wire.members.measure_each.5fa77b269143286c

	.section	.text.nla_wire.members.measure_each.1f0cb788f492ced5,"ax",@progbits
	.p2align	2
	.type	nla_wire.members.measure_each.1f0cb788f492ced5,@function
nla_wire.members.measure_each.1f0cb788f492ced5:
	mov	x10, xzr
	mov	x9, xzr
.LBB25_1:
	subs	x1, x1, x10
	b.ls	.LBB25_8
	cmp	x1, #4
	b.lo	.LBB25_6
	add	x0, x0, x10
	mov	w8, wzr
	mov	x2, xzr
	ldrh	w10, [x0]
	cmp	w10, #4
	b.lo	.LBB25_7
	cmp	x1, x10
	b.lo	.LBB25_7
	sub	x8, x10, #1
	add	w10, w10, #3
	and	x8, x8, #0xfffffffffffffffc
	and	x10, x10, #0x1fffc
	add	x8, x9, x8
	add	x8, x8, #4
	cmp	x8, x9
	mov	x9, x8
	b.hs	.LBB25_1
.LBB25_6:
	mov	x2, xzr
	mov	w8, wzr
.LBB25_7:
	mov	w0, w8
	mov	x1, x2
	ret
.LBB25_8:
	mov	w8, #1
	mov	x2, x9
	mov	w0, w8
	mov	x1, x2
	ret
.Lfunc_end25:
	.size	nla_wire.members.measure_each.1f0cb788f492ced5, .Lfunc_end25-nla_wire.members.measure_each.1f0cb788f492ced5

	.section	.text.nla_wire.members.measure_each.6cf1decf0b22dc4b,"ax",@progbits
	.p2align	2
	.type	nla_wire.members.measure_each.6cf1decf0b22dc4b,@function
nla_wire.members.measure_each.6cf1decf0b22dc4b:
	stp	x29, x30, [sp, #-48]!
	stp	x22, x21, [sp, #16]
	mov	x8, xzr
	mov	x21, xzr
	stp	x20, x19, [sp, #32]
	mov	x19, x1
	mov	x20, x0
	mov	x29, sp
	b	.LBB26_2
.LBB26_1:
	add	x8, x1, #3
	and	x8, x8, #0xfffffffffffffffc
	add	x8, x21, x8
	add	x9, x8, #4
	add	w8, w22, #3
	cmp	x9, x21
	and	x8, x8, #0x1fffc
	mov	x21, x9
	b.lo	.LBB26_18
.LBB26_2:
	subs	x19, x19, x8
	b.ls	.LBB26_19
	cmp	x19, #4
	b.lo	.LBB26_18
	add	x20, x20, x8
	mov	w0, wzr
	mov	x2, xzr
	ldrh	w22, [x20]
	cmp	w22, #4
	b.lo	.LBB26_17
	cmp	x19, x22
	b.lo	.LBB26_17
	ldrb	w8, [x20, #2]
	ldrb	w9, [x20, #3]
	sub	x1, x22, #4
	bfi	w8, w9, #8, #6
	cmp	w8, #45
	b.eq	.LBB26_14
	cmp	w8, #10
	b.eq	.LBB26_11
	cmp	w8, #2
	b.ne	.LBB26_1
	cbz	x1, .LBB26_18
	add	x0, x20, #4
	sub	x1, x22, #4
	bl	nla_wire.members.measure_each.d7cac04ae1e23078
	mov	w8, w0
	mov	w0, wzr
	mov	x2, xzr
	and	w8, w8, #0xff
	cmp	w8, #1
	b.eq	.LBB26_13
	b	.LBB26_17
.LBB26_11:
	cbz	x1, .LBB26_18
	add	x0, x20, #4
	sub	x1, x22, #4
	bl	nla_wire.members.measure_each.97809315b2b26985
	mov	w8, w0
	mov	w0, wzr
	mov	x2, xzr
	and	w8, w8, #0xff
	cmp	w8, #1
	b.ne	.LBB26_17
.LBB26_13:
	mov	w8, #65532
	cmp	x1, x8
	b.lo	.LBB26_1
	b	.LBB26_17
.LBB26_14:
	cbz	x1, .LBB26_18
	add	x0, x20, #4
	sub	x1, x22, #4
	bl	nla_wire.members.measure_each.7562298f77a88fdb
	mov	w8, w0
	mov	w0, wzr
	mov	x2, xzr
	and	w8, w8, #0xff
	cmp	w8, #1
	b.ne	.LBB26_17
	mov	w8, #65531
	cmp	x1, x8
	b.ls	.LBB26_1
.LBB26_17:
	ldp	x20, x19, [sp, #32]
	mov	x1, x2
	ldp	x22, x21, [sp, #16]
	ldp	x29, x30, [sp], #48
	ret
.LBB26_18:
	mov	x2, xzr
	mov	w0, wzr
	ldp	x20, x19, [sp, #32]
	mov	x1, x2
	ldp	x22, x21, [sp, #16]
	ldp	x29, x30, [sp], #48
	ret
.LBB26_19:
	mov	w0, #1
	mov	x2, x21
	ldp	x20, x19, [sp, #32]
	mov	x1, x2
	ldp	x22, x21, [sp, #16]
	ldp	x29, x30, [sp], #48
	ret
.Lfunc_end26:
	.size	nla_wire.members.measure_each.6cf1decf0b22dc4b, .Lfunc_end26-nla_wire.members.measure_each.6cf1decf0b22dc4b

	.section	.text.nla_wire.members.measure_each.d7cac04ae1e23078,"ax",@progbits
	.p2align	2
	.type	nla_wire.members.measure_each.d7cac04ae1e23078,@function
nla_wire.members.measure_each.d7cac04ae1e23078:
	mov	x10, xzr
	mov	x9, xzr
.LBB27_1:
	subs	x1, x1, x10
	b.ls	.LBB27_8
	cmp	x1, #4
	b.lo	.LBB27_6
	add	x0, x0, x10
	mov	w8, wzr
	mov	x2, xzr
	ldrh	w10, [x0]
	cmp	w10, #4
	b.lo	.LBB27_7
	cmp	x1, x10
	b.lo	.LBB27_7
	ldrb	w8, [x0, #2]
	ldrb	w11, [x0, #3]
	bfi	w8, w11, #8, #6
	sub	x11, x10, #1
	add	w10, w10, #3
	and	x11, x11, #0xfffffffffffffffc
	and	x10, x10, #0x1fffc
	add	x11, x11, #4
	cmp	w8, #1
	mov	w8, #140
	csel	x8, x8, x11, eq
	adds	x9, x8, x9
	b.lo	.LBB27_1
.LBB27_6:
	mov	x2, xzr
	mov	w8, wzr
.LBB27_7:
	mov	w0, w8
	mov	x1, x2
	ret
.LBB27_8:
	mov	w8, #1
	mov	x2, x9
	mov	w0, w8
	mov	x1, x2
	ret
.Lfunc_end27:
	.size	nla_wire.members.measure_each.d7cac04ae1e23078, .Lfunc_end27-nla_wire.members.measure_each.d7cac04ae1e23078

	.section	.text.nla_wire.members.measure_each.97809315b2b26985,"ax",@progbits
	.p2align	2
	.type	nla_wire.members.measure_each.97809315b2b26985,@function
nla_wire.members.measure_each.97809315b2b26985:
	mov	x10, xzr
	mov	x9, xzr
	b	.LBB28_5
.LBB28_1:
	cmp	w11, #8
	b.eq	.LBB28_22
	cmp	w11, #9
	b.ne	.LBB28_4
.LBB28_3:
	cmp	x8, #4
	b.ne	.LBB28_25
.LBB28_4:
	add	x8, x8, #3
	add	w10, w10, #3
	and	x8, x8, #0xfffffffffffffffc
	and	x10, x10, #0x1fffc
	add	x8, x9, x8
	add	x8, x8, #4
	cmp	x8, x9
	mov	x9, x8
	b.lo	.LBB28_25
.LBB28_5:
	subs	x1, x1, x10
	b.ls	.LBB28_27
	cmp	x1, #4
	b.lo	.LBB28_25
	add	x0, x0, x10
	mov	w8, wzr
	mov	x2, xzr
	ldrh	w10, [x0]
	cmp	w10, #4
	b.lo	.LBB28_26
	cmp	x1, x10
	b.lo	.LBB28_26
	ldrb	w11, [x0, #2]
	ldrb	w8, [x0, #3]
	bfi	w11, w8, #8, #6
	sub	x8, x10, #4
	cmp	w11, #5
	b.gt	.LBB28_14
	cmp	w11, #2
	b.gt	.LBB28_18
	cmp	w11, #1
	b.eq	.LBB28_3
	cmp	w11, #2
	b.ne	.LBB28_4
	mov	w8, #240
	b	.LBB28_4
.LBB28_14:
	cmp	w11, #7
	b.gt	.LBB28_1
	cmp	w11, #6
	b.eq	.LBB28_23
	cmp	w11, #7
	b.ne	.LBB28_4
	cmp	x8, #16
	b.eq	.LBB28_4
	b	.LBB28_25
.LBB28_18:
	cmp	w11, #3
	b.eq	.LBB28_24
	cmp	w11, #5
	b.ne	.LBB28_4
	cmp	w10, #19
	b.ls	.LBB28_25
	mov	w8, #16
	b	.LBB28_4
.LBB28_22:
	cmp	x8, #1
	b.eq	.LBB28_4
	b	.LBB28_25
.LBB28_23:
	mov	w8, #56
	b	.LBB28_4
.LBB28_24:
	mov	w8, #312
	b	.LBB28_4
.LBB28_25:
	mov	x2, xzr
	mov	w8, wzr
.LBB28_26:
	mov	w0, w8
	mov	x1, x2
	ret
.LBB28_27:
	mov	w8, #1
	mov	x2, x9
	mov	w0, w8
	mov	x1, x2
	ret
.Lfunc_end28:
	.size	nla_wire.members.measure_each.97809315b2b26985, .Lfunc_end28-nla_wire.members.measure_each.97809315b2b26985

	.section	.text.nla_wire.members.measure_each.7562298f77a88fdb,"ax",@progbits
	.p2align	2
	.type	nla_wire.members.measure_each.7562298f77a88fdb,@function
nla_wire.members.measure_each.7562298f77a88fdb:
	mov	x10, xzr
	mov	x9, xzr
	b	.LBB29_3
.LBB29_1:
	cmp	x8, #4
	b.ne	.LBB29_10
.LBB29_2:
	add	x8, x8, #3
	add	w10, w10, #3
	and	x8, x8, #0xfffffffffffffffc
	and	x10, x10, #0x1fffc
	add	x8, x9, x8
	add	x8, x8, #4
	cmp	x8, x9
	mov	x9, x8
	b.lo	.LBB29_10
.LBB29_3:
	subs	x1, x1, x10
	b.ls	.LBB29_12
	cmp	x1, #4
	b.lo	.LBB29_10
	add	x0, x0, x10
	mov	w8, wzr
	mov	x2, xzr
	ldrh	w10, [x0]
	cmp	w10, #4
	b.lo	.LBB29_11
	cmp	x1, x10
	b.lo	.LBB29_11
	ldrb	w11, [x0, #2]
	ldrb	w8, [x0, #3]
	bfi	w11, w8, #8, #6
	sub	x8, x10, #4
	cmp	w11, #1
	b.eq	.LBB29_1
	cmp	w11, #2
	b.ne	.LBB29_2
	cmp	x8, #1
	b.eq	.LBB29_2
.LBB29_10:
	mov	x2, xzr
	mov	w8, wzr
.LBB29_11:
	mov	w0, w8
	mov	x1, x2
	ret
.LBB29_12:
	mov	w8, #1
	mov	x2, x9
	mov	w0, w8
	mov	x1, x2
	ret
.Lfunc_end29:
	.size	nla_wire.members.measure_each.7562298f77a88fdb, .Lfunc_end29-nla_wire.members.measure_each.7562298f77a88fdb

	.section	.rodata.cst16,"aM",@progbits,16
	.p2align	4, 0x0
.LCPI30_0:
	.xword	7
	.xword	4
.LCPI30_1:
	.xword	7
	.xword	0
	.section	.text.nla_wire.place.check_one.c4c48bc1b6cb0726,"ax",@progbits
	.p2align	2
	.type	nla_wire.place.check_one.c4c48bc1b6cb0726,@function
nla_wire.place.check_one.c4c48bc1b6cb0726:
	sub	sp, sp, #240
	ldrh	w8, [x2]
	stp	x26, x25, [sp, #176]
	mov	w25, wzr
	stp	x24, x23, [sp, #192]
	mov	x23, xzr
	and	w8, w8, #0x3fff
	stp	x29, x30, [sp, #144]
	add	x29, sp, #144
	sub	w8, w8, #1
	stp	x28, x27, [sp, #160]
	cmp	w8, #68
	stp	x22, x21, [sp, #208]
	stp	x20, x19, [sp, #224]
	str	x0, [sp, #8]
	b.hi	.LBB30_214
	ldp	x22, x21, [x2, #8]
	adrp	x9, .LJTI30_0
	add	x9, x9, :lo12:.LJTI30_0
	mov	x24, x23
	mov	w26, w25
	adr	x10, .LBB30_2
	ldrh	w11, [x9, x8, lsl #1]
	add	x10, x10, x11, lsl #2
	mov	w27, w25
	mov	w28, w25
	mov	x20, x23
	mov	x19, x23
	br	x10
.LBB30_2:
	cmp	x21, #4
	b.ne	.LBB30_4
.LBB30_3:
	movi	v0.2d, #0000000000000000
	sub	x8, x29, #48
	mov	w25, wzr
	orr	x8, x8, #0x7
	stur	q0, [x29, #-17]
	stp	q0, q0, [x29, #-48]
	b	.LBB30_6
.LBB30_4:
	adrp	x8, .Lstatic.19
	add	x8, x8, :lo12:.Lstatic.19
	stur	xzr, [x29, #-48]
	stur	x8, [x29, #-41]
	mov	w8, #7
	mov	w9, #4
	stur	x8, [x29, #-33]
	mov	w8, #5
	stur	x8, [x29, #-25]
	sub	x8, x29, #48
	stur	x21, [x29, #-17]
.LBB30_5:
	orr	x8, x8, #0x7
	mov	w25, #1
	stur	x9, [x29, #-9]
.LBB30_6:
	ldp	q0, q1, [x8]
	ldr	x8, [x8, #32]
	str	x8, [sp, #56]
	stur	q0, [sp, #24]
	stur	q1, [sp, #40]
.LBB30_7:
	cbz	w25, .LBB30_90
	ldrh	w8, [x2]
	ldp	x23, x24, [sp, #24]
	ldp	x20, x19, [sp, #48]
	ldrh	w26, [sp, #40]
	and	w8, w8, #0x3fff
	ldrh	w27, [sp, #42]
	ldr	w28, [sp, #44]
	sub	w8, w8, #1
	cmp	w8, #68
	b.hi	.LBB30_174
	adrp	x9, .LJTI30_1
	add	x9, x9, :lo12:.LJTI30_1
	adrp	x21, .Lstatic.75
	add	x21, x21, :lo12:.Lstatic.75
	adr	x10, .LBB30_10
	ldrh	w11, [x9, x8, lsl #1]
	add	x10, x10, x11, lsl #2
	mov	w22, #12
	br	x10
.LBB30_10:
	adrp	x21, .Lstatic.76
	add	x21, x21, :lo12:.Lstatic.76
	b	.LBB30_206
.LBB30_11:
	movi	v0.2d, #0000000000000000
	mov	w25, wzr
	stp	q0, q0, [sp, #32]
	str	q0, [sp, #16]
	b	.LBB30_7
.LBB30_12:
	movi	v0.2d, #0000000000000000
	add	x0, sp, #16
	mov	x1, x22
	mov	x19, x2
	mov	x2, x21
	stp	q0, q0, [sp, #32]
	str	q0, [sp, #16]
	bl	nla_wire.text.check_string
	ldrb	w25, [sp, #16]
	mov	x2, x19
	b	.LBB30_7
.LBB30_13:
	cmp	x21, #1
	b.eq	.LBB30_3
	adrp	x8, .Lstatic.19
	add	x8, x8, :lo12:.Lstatic.19
	stur	xzr, [x29, #-48]
	stur	x8, [x29, #-41]
	mov	w8, #7
	mov	w25, #1
	stur	x8, [x29, #-33]
	mov	w8, #5
	stur	x8, [x29, #-25]
	sub	x8, x29, #48
	stur	x21, [x29, #-17]
	orr	x8, x8, #0x7
	stur	x25, [x29, #-9]
	b	.LBB30_6
.LBB30_15:
	cmp	x21, #2
	b.ne	.LBB30_89
	movi	v0.2d, #0000000000000000
	mov	w25, wzr
	str	xzr, [sp, #56]
	stur	q0, [sp, #40]
	stur	q0, [sp, #24]
	b	.LBB30_7
.LBB30_17:
	movi	v0.2d, #0000000000000000
	stp	q0, q0, [sp, #32]
	str	q0, [sp, #16]
	stp	q0, q0, [x29, #-48]
	stur	q0, [x29, #-16]
	cbz	x21, .LBB30_239
	add	x9, sp, #72
	mov	x8, xzr
	orr	x19, x9, #0x2
	b	.LBB30_20
.LBB30_19:
	add	w8, w20, #3
	mov	x2, x26
	and	x8, x8, #0x1fffc
	cmp	x21, x8
	b.ls	.LBB30_257
.LBB30_20:
	sub	x21, x21, x8
	cmp	x21, #4
	b.lo	.LBB30_256
	add	x22, x22, x8
	ldrh	w20, [x22]
	cmp	x21, x20
	b.lo	.LBB30_258
	cmp	w20, #3
	b.ls	.LBB30_259
	ldrh	w23, [x22, #2]
	add	x24, x22, #4
	sub	x25, x20, #4
	mov	x26, x2
	and	w8, w23, #0x3fff
	cmp	w8, #53
	b.ne	.LBB30_25
	add	x0, x22, #4
	sub	x1, x20, #4
	bl	nla_wire.payload.measure_text
	b	.LBB30_26
.LBB30_25:
	mov	w0, #1
.LBB30_26:
	and	w8, w0, #0xff
	cmp	w8, #1
	b.eq	.LBB30_19
	sub	x0, x29, #48
	add	x1, sp, #72
	strh	w23, [sp, #72]
	str	wzr, [x19]
	strh	wzr, [x19, #4]
	stp	x24, x25, [sp, #80]
	bl	nla_wire.place.check_one.b30b196c481b950e
	ldurb	w8, [x29, #-48]
	cbz	w8, .LBB30_19
	ldurh	w8, [x29, #-34]
	ldur	w10, [x29, #-38]
	mov	w25, #1
	ldp	x21, x12, [x29, #-16]
	mov	x2, x26
	orr	x10, x10, x8, lsl #32
	ldp	x13, x8, [x29, #-32]
	ldurb	w9, [x29, #-40]
	ldurb	w11, [x29, #-39]
	b	.LBB30_262
.LBB30_29:
	movi	v0.2d, #0000000000000000
	stp	q0, q0, [sp, #32]
	str	q0, [sp, #16]
	cbz	x21, .LBB30_231
	mov	x8, xzr
.LBB30_31:
	sub	x21, x21, x8
	cmp	x21, #4
	b.lo	.LBB30_232
	add	x22, x22, x8
	ldrh	w8, [x22]
	cmp	x21, x8
	b.lo	.LBB30_233
	cmp	w8, #3
	b.ls	.LBB30_234
	add	w8, w8, #3
	and	x8, x8, #0x1fffc
	cmp	x21, x8
	b.hi	.LBB30_31
.LBB30_35:
	mov	w25, wzr
	mov	x9, xzr
	mov	x8, xzr
	mov	x21, xzr
	mov	x10, xzr
	b	.LBB30_236
.LBB30_36:
	and	w8, w1, #0xff
	mov	w9, #1
	mov	w10, #51
	lsl	w9, w9, w8
	mov	w25, wzr
	mov	x23, xzr
	mov	x24, xzr
	mov	w26, wzr
	mov	w27, wzr
	tst	w9, w10
	mov	w28, wzr
	mov	x20, xzr
	mov	x19, xzr
	b.ne	.LBB30_209
	movi	v0.2d, #0000000000000000
	cmp	w8, #2
	b.ne	.LBB30_225
	stp	q0, q0, [sp, #32]
	str	q0, [sp, #16]
	cbz	x21, .LBB30_231
	mov	x8, xzr
.LBB30_40:
	sub	x21, x21, x8
	cmp	x21, #4
	b.lo	.LBB30_232
	add	x22, x22, x8
	ldrh	w8, [x22]
	cmp	x21, x8
	b.lo	.LBB30_233
	cmp	w8, #3
	b.ls	.LBB30_234
	add	w8, w8, #3
	and	x8, x8, #0x1fffc
	cmp	x21, x8
	b.hi	.LBB30_40
	b	.LBB30_35
.LBB30_44:
	cmp	x21, #31
	b.hi	.LBB30_3
	adrp	x9, .LCPI30_1
	adrp	x8, .Lstatic.19
	add	x8, x8, :lo12:.Lstatic.19
	ldr	q0, [x9, :lo12:.LCPI30_1]
	stur	xzr, [x29, #-48]
	mov	w9, #32
	stur	x8, [x29, #-41]
	sub	x8, x29, #48
	stur	x21, [x29, #-17]
	stur	q0, [x29, #-33]
	b	.LBB30_5
.LBB30_46:
	movi	v0.2d, #0000000000000000
	and	w8, w1, #0xff
	mov	w25, wzr
	cmp	w8, #2
	stp	q0, q0, [sp, #32]
	str	q0, [sp, #16]
	b.gt	.LBB30_7
	cbz	w8, .LBB30_237
	cmp	w8, #1
	b.eq	.LBB30_7
	cbz	x21, .LBB30_231
	mov	x8, xzr
.LBB30_51:
	sub	x21, x21, x8
	cmp	x21, #4
	b.lo	.LBB30_232
	add	x22, x22, x8
	ldrh	w8, [x22]
	cmp	x21, x8
	b.lo	.LBB30_233
	cmp	w8, #3
	b.ls	.LBB30_234
	add	w8, w8, #3
	and	x8, x8, #0x1fffc
	cmp	x21, x8
	b.hi	.LBB30_51
	b	.LBB30_35
.LBB30_55:
	movi	v0.2d, #0000000000000000
	stp	q0, q0, [sp, #32]
	str	q0, [sp, #16]
	cbz	x21, .LBB30_231
	mov	x8, xzr
	stp	q0, q0, [x29, #-32]
	stur	q0, [x29, #-48]
	b	.LBB30_59
.LBB30_57:
	sub	x0, x29, #48
	mov	x20, x2
	sub	x2, x19, #4
	bl	nla_wire.place.check_one.8ba1f663fcd59a5e
	ldurb	w8, [x29, #-48]
	mov	x2, x20
	cbnz	w8, .LBB30_147
.LBB30_58:
	add	w8, w19, #3
	and	x8, x8, #0x1fffc
	cmp	x21, x8
	b.ls	.LBB30_220
.LBB30_59:
	sub	x21, x21, x8
	cmp	x21, #4
	b.lo	.LBB30_219
	add	x22, x22, x8
	ldrh	w19, [x22]
	cmp	x21, x19
	b.lo	.LBB30_263
	cmp	w19, #3
	b.ls	.LBB30_264
	ldrh	w1, [x22, #2]
	sub	x8, x19, #4
	and	w9, w1, #0x3fff
	cmp	w9, #4
	b.gt	.LBB30_67
	cmp	w9, #2
	b.gt	.LBB30_70
	cmp	w9, #1
	b.eq	.LBB30_74
	cmp	w9, #2
	b.ne	.LBB30_58
	cmp	x8, #1
	b.ne	.LBB30_57
	b	.LBB30_58
.LBB30_67:
	cmp	w9, #6
	b.gt	.LBB30_72
	cmp	w9, #5
	b.eq	.LBB30_74
	cmp	w9, #6
	b.eq	.LBB30_74
	b	.LBB30_58
.LBB30_70:
	cmp	w9, #3
	b.eq	.LBB30_74
	cmp	w9, #4
	b.eq	.LBB30_74
	b	.LBB30_58
.LBB30_72:
	cmp	w9, #7
	b.eq	.LBB30_74
	cmp	w9, #8
	b.ne	.LBB30_58
.LBB30_74:
	cmp	x8, #4
	b.ne	.LBB30_57
	b	.LBB30_58
.LBB30_75:
	movi	v0.2d, #0000000000000000
	stp	q0, q0, [sp, #32]
	str	q0, [sp, #16]
	stp	q0, q0, [x29, #-48]
	stur	q0, [x29, #-16]
	cbz	x21, .LBB30_239
	add	x9, sp, #72
	mov	x8, xzr
	orr	x19, x9, #0x2
	b	.LBB30_78
.LBB30_77:
	add	w8, w20, #3
	and	x8, x8, #0x1fffc
	cmp	x21, x8
	b.ls	.LBB30_257
.LBB30_78:
	sub	x21, x21, x8
	cmp	x21, #4
	b.lo	.LBB30_256
	add	x22, x22, x8
	ldrh	w20, [x22]
	cmp	x21, x20
	b.lo	.LBB30_258
	cmp	w20, #3
	b.ls	.LBB30_259
	ldrh	w23, [x22, #2]
	add	x24, x22, #4
	sub	x25, x20, #4
	and	w8, w23, #0x3fff
	cmp	w8, #3
	b.eq	.LBB30_85
	cmp	w8, #2
	b.eq	.LBB30_84
	cmp	w8, #1
	b.ne	.LBB30_86
.LBB30_84:
	add	x0, x22, #4
	sub	x1, x20, #4
	mov	x26, x2
	bl	nla_wire.payload.measure_text
	mov	x2, x26
	b	.LBB30_87
.LBB30_85:
	cmp	x25, #4
	cset	w0, eq
	b	.LBB30_87
.LBB30_86:
	mov	w0, #1
.LBB30_87:
	and	w8, w0, #0xff
	cmp	w8, #1
	b.eq	.LBB30_77
	sub	x0, x29, #48
	add	x1, sp, #72
	strh	w23, [sp, #72]
	str	wzr, [x19]
	mov	x23, x2
	strh	wzr, [x19, #4]
	stp	x24, x25, [sp, #80]
	bl	nla_wire.place.check_one.16a873d75d6df2a1
	ldurb	w8, [x29, #-48]
	mov	x2, x23
	cbz	w8, .LBB30_77
	b	.LBB30_135
.LBB30_89:
	mov	w25, wzr
.LBB30_90:
	mov	x23, xzr
	mov	x24, xzr
	mov	w26, wzr
	mov	w27, wzr
	mov	w28, wzr
	mov	x20, xzr
	mov	x19, xzr
	b	.LBB30_209
.LBB30_91:
	movi	v0.2d, #0000000000000000
	stp	q0, q0, [sp, #32]
	str	q0, [sp, #16]
	stp	q0, q0, [x29, #-32]
	stur	q0, [x29, #-48]
	cbz	x21, .LBB30_239
	mov	x8, xzr
	b	.LBB30_94
.LBB30_93:
	add	w8, w19, #3
	and	x8, x8, #0x1fffc
	cmp	x21, x8
	b.ls	.LBB30_257
.LBB30_94:
	sub	x21, x21, x8
	cmp	x21, #4
	b.lo	.LBB30_256
	add	x22, x22, x8
	ldrh	w19, [x22]
	cmp	x21, x19
	b.lo	.LBB30_222
	cmp	w19, #3
	b.ls	.LBB30_224
	ldrh	w1, [x22, #2]
	and	w8, w1, #0x3fff
	sub	w8, w8, #3
	cmn	w8, #2
	b.lo	.LBB30_93
	sub	x8, x19, #4
	cmp	x8, #4
	b.eq	.LBB30_93
	sub	x0, x29, #48
	mov	x20, x2
	sub	x2, x19, #4
	bl	nla_wire.place.check_one.f7f30aae703aa44d
	ldurb	w8, [x29, #-48]
	mov	x2, x20
	cbz	w8, .LBB30_93
	b	.LBB30_135
.LBB30_100:
	movi	v0.2d, #0000000000000000
	stp	q0, q0, [sp, #32]
	str	q0, [sp, #16]
	cbz	x21, .LBB30_231
	add	x9, sp, #72
	mov	x8, xzr
	stp	q0, q0, [x29, #-48]
	orr	x19, x9, #0x2
	stur	q0, [x29, #-16]
	b	.LBB30_104
.LBB30_102:
	sub	x0, x29, #48
	add	x1, sp, #72
	strh	w23, [sp, #72]
	str	wzr, [x19]
	mov	x23, x2
	strh	wzr, [x19, #4]
	stp	x25, x24, [sp, #80]
	bl	nla_wire.place.check_one.79503c7a397af21a
	ldurb	w8, [x29, #-48]
	mov	x2, x23
	cbnz	w8, .LBB30_147
.LBB30_103:
	add	w8, w20, #3
	and	x8, x8, #0x1fffc
	cmp	x21, x8
	b.ls	.LBB30_220
.LBB30_104:
	sub	x21, x21, x8
	cmp	x21, #4
	b.lo	.LBB30_219
	add	x22, x22, x8
	ldrh	w20, [x22]
	cmp	x21, x20
	b.lo	.LBB30_221
	cmp	w20, #3
	b.ls	.LBB30_223
	ldrh	w23, [x22, #2]
	and	w8, w23, #0x3fff
	cmp	w8, #1
	b.ne	.LBB30_103
	sub	x24, x20, #4
	add	x25, x22, #4
	cbz	x24, .LBB30_102
	add	x0, x22, #4
	sub	x1, x20, #4
	mov	x26, x2
	bl	nla_wire.members.measure_each.1f0cb788f492ced5
	and	w8, w0, #0xff
	mov	x2, x26
	cmp	w8, #1
	b.ne	.LBB30_102
	mov	w8, #65532
	cmp	x1, x8
	b.lo	.LBB30_103
	b	.LBB30_102
.LBB30_111:
	cmp	x21, #1
	b.ne	.LBB30_215
	mov	x9, xzr
	mov	w12, wzr
	mov	x11, xzr
	mov	w10, wzr
	mov	x21, xzr
	mov	x8, xzr
	mov	w25, wzr
	b	.LBB30_216
.LBB30_113:
	cmp	x21, #8
	b.hs	.LBB30_217
	adrp	x8, .Lstatic.19
	add	x8, x8, :lo12:.Lstatic.19
	mov	w25, #1
	mov	w9, #8
	mov	w10, #7
	b	.LBB30_218
.LBB30_115:
	movi	v0.2d, #0000000000000000
	stp	q0, q0, [sp, #32]
	str	q0, [sp, #16]
	stp	q0, q0, [x29, #-48]
	stur	q0, [x29, #-16]
	cbz	x21, .LBB30_239
	add	x9, sp, #72
	mov	x8, xzr
	orr	x19, x9, #0x2
	b	.LBB30_119
.LBB30_117:
	sub	x0, x29, #48
	add	x1, sp, #72
	strh	w23, [sp, #72]
	str	wzr, [x19]
	mov	x23, x2
	strh	wzr, [x19, #4]
	stp	x25, x24, [sp, #80]
	bl	nla_wire.place.check_one.3bb4c8661a1029f4
	ldurb	w8, [x29, #-48]
	mov	x2, x23
	cbnz	w8, .LBB30_135
.LBB30_118:
	add	w8, w20, #3
	and	x8, x8, #0x1fffc
	cmp	x21, x8
	b.ls	.LBB30_257
.LBB30_119:
	sub	x21, x21, x8
	cmp	x21, #4
	b.lo	.LBB30_256
	add	x22, x22, x8
	ldrh	w20, [x22]
	cmp	x21, x20
	b.lo	.LBB30_258
	cmp	w20, #3
	b.ls	.LBB30_259
	ldrh	w23, [x22, #2]
	and	w8, w23, #0x3fff
	cmp	w8, #1
	b.ne	.LBB30_118
	sub	x24, x20, #4
	add	x25, x22, #4
	cbz	x24, .LBB30_117
	add	x0, x22, #4
	sub	x1, x20, #4
	mov	x26, x2
	bl	nla_wire.members.measure_each.41ac5f0caeaa9df8
	and	w8, w0, #0xff
	mov	x2, x26
	cmp	w8, #1
	b.ne	.LBB30_117
	mov	w8, #65532
	cmp	x1, x8
	b.lo	.LBB30_118
	b	.LBB30_117
.LBB30_126:
	movi	v0.2d, #0000000000000000
	stp	q0, q0, [sp, #32]
	str	q0, [sp, #16]
	stp	q0, q0, [x29, #-32]
	stur	q0, [x29, #-48]
	cbz	x21, .LBB30_239
	mov	x8, xzr
	b	.LBB30_129
.LBB30_128:
	add	w8, w19, #3
	and	x8, x8, #0x1fffc
	cmp	x21, x8
	b.ls	.LBB30_257
.LBB30_129:
	sub	x21, x21, x8
	cmp	x21, #4
	b.lo	.LBB30_256
	add	x22, x22, x8
	ldrh	w19, [x22]
	cmp	x21, x19
	b.lo	.LBB30_222
	cmp	w19, #3
	b.ls	.LBB30_224
	ldrh	w1, [x22, #2]
	and	w8, w1, #0x3fff
	cmp	w8, #1
	b.ne	.LBB30_128
	sub	x8, x19, #4
	cmp	x8, #4
	b.eq	.LBB30_128
	sub	x0, x29, #48
	mov	x20, x2
	sub	x2, x19, #4
	bl	nla_wire.place.check_one.5fa77b269143286c
	ldurb	w8, [x29, #-48]
	mov	x2, x20
	cbz	w8, .LBB30_128
.LBB30_135:
	ldurh	w8, [x29, #-34]
	ldur	w10, [x29, #-38]
	mov	w25, #1
	ldp	x21, x12, [x29, #-16]
	ldurb	w9, [x29, #-40]
	orr	x10, x10, x8, lsl #32
	ldp	x13, x8, [x29, #-32]
	ldurb	w11, [x29, #-39]
	b	.LBB30_262
.LBB30_136:
	movi	v0.2d, #0000000000000000
	stp	q0, q0, [sp, #32]
	str	q0, [sp, #16]
	cbz	x21, .LBB30_231
	add	x9, sp, #72
	mov	x8, xzr
	stp	q0, q0, [x29, #-48]
	orr	x19, x9, #0x2
	stur	q0, [x29, #-16]
	b	.LBB30_139
.LBB30_138:
	add	w8, w20, #3
	and	x8, x8, #0x1fffc
	cmp	x21, x8
	b.ls	.LBB30_220
.LBB30_139:
	sub	x21, x21, x8
	cmp	x21, #4
	b.lo	.LBB30_219
	add	x22, x22, x8
	ldrh	w20, [x22]
	cmp	x21, x20
	b.lo	.LBB30_221
	cmp	w20, #3
	b.ls	.LBB30_223
	ldrh	w23, [x22, #2]
	add	x24, x22, #4
	sub	x25, x20, #4
	and	w8, w23, #0x3fff
	cmp	w8, #1
	b.ne	.LBB30_144
	add	x0, x22, #4
	sub	x1, x20, #4
	mov	x26, x2
	bl	nla_wire.payload.measure_text
	mov	x2, x26
	b	.LBB30_145
.LBB30_144:
	mov	w0, #1
.LBB30_145:
	and	w8, w0, #0xff
	cmp	w8, #1
	b.eq	.LBB30_138
	sub	x0, x29, #48
	add	x1, sp, #72
	strh	w23, [sp, #72]
	str	wzr, [x19]
	mov	x23, x2
	strh	wzr, [x19, #4]
	stp	x24, x25, [sp, #80]
	bl	nla_wire.place.check_one.49064c0641319ce4
	ldurb	w8, [x29, #-48]
	mov	x2, x23
	cbz	w8, .LBB30_138
.LBB30_147:
	ldurh	w8, [x29, #-34]
	ldur	w10, [x29, #-38]
	mov	w25, #1
	ldp	x21, x11, [x29, #-16]
	ldurb	w9, [x29, #-40]
	orr	x10, x10, x8, lsl #32
	ldp	x13, x8, [x29, #-32]
	ldurb	w12, [x29, #-39]
	b	.LBB30_267
.LBB30_148:
	adrp	x21, .Lstatic.118
	add	x21, x21, :lo12:.Lstatic.118
	mov	w22, #23
	b	.LBB30_207
.LBB30_149:
	adrp	x21, .Lstatic.125
	add	x21, x21, :lo12:.Lstatic.125
	mov	w22, #20
	b	.LBB30_207
.LBB30_150:
	adrp	x21, .Lstatic.131
	add	x21, x21, :lo12:.Lstatic.131
	mov	w22, #17
	b	.LBB30_207
.LBB30_151:
	adrp	x21, .Lstatic.128
	add	x21, x21, :lo12:.Lstatic.128
	mov	w22, #17
	b	.LBB30_207
.LBB30_152:
	adrp	x21, .Lstatic.124
	add	x21, x21, :lo12:.Lstatic.124
	mov	w22, #22
	b	.LBB30_207
.LBB30_153:
	adrp	x21, .Lstatic.114
	add	x21, x21, :lo12:.Lstatic.114
	mov	w22, #10
	b	.LBB30_207
.LBB30_154:
	adrp	x21, .Lstatic.113
	add	x21, x21, :lo12:.Lstatic.113
	mov	w22, #8
	b	.LBB30_207
.LBB30_155:
	adrp	x21, .Lstatic.111
	add	x21, x21, :lo12:.Lstatic.111
	mov	w22, #17
	b	.LBB30_207
.LBB30_156:
	adrp	x21, .Lstatic.119
	add	x21, x21, :lo12:.Lstatic.119
	mov	w22, #16
	b	.LBB30_207
.LBB30_157:
	adrp	x21, .Lstatic.93
	add	x21, x21, :lo12:.Lstatic.93
	mov	w22, #16
	b	.LBB30_207
.LBB30_158:
	adrp	x21, .Lstatic.96
	add	x21, x21, :lo12:.Lstatic.96
	b	.LBB30_206
.LBB30_159:
	adrp	x21, .Lstatic.88
	add	x21, x21, :lo12:.Lstatic.88
	mov	w22, #13
	b	.LBB30_207
.LBB30_160:
	adrp	x21, .Lstatic.100
	add	x21, x21, :lo12:.Lstatic.100
	mov	w22, #13
	b	.LBB30_207
.LBB30_161:
	adrp	x21, .Lstatic.98
	add	x21, x21, :lo12:.Lstatic.98
	mov	w22, #10
	b	.LBB30_207
.LBB30_162:
	adrp	x21, .Lstatic.85
	add	x21, x21, :lo12:.Lstatic.85
	mov	w22, #11
	b	.LBB30_207
.LBB30_163:
	adrp	x21, .Lstatic.108
	add	x21, x21, :lo12:.Lstatic.108
	mov	w22, #17
	b	.LBB30_207
.LBB30_164:
	adrp	x21, .Lstatic.103
	add	x21, x21, :lo12:.Lstatic.103
	mov	w22, #18
	b	.LBB30_207
.LBB30_165:
	adrp	x21, .Lstatic.115
	add	x21, x21, :lo12:.Lstatic.115
	mov	w22, #16
	b	.LBB30_207
.LBB30_166:
	adrp	x21, .Lstatic.97
	add	x21, x21, :lo12:.Lstatic.97
	mov	w22, #12
	b	.LBB30_207
.LBB30_167:
	adrp	x21, .Lstatic.87
	add	x21, x21, :lo12:.Lstatic.87
	b	.LBB30_206
.LBB30_168:
	adrp	x21, .Lstatic.94
	add	x21, x21, :lo12:.Lstatic.94
	mov	w22, #12
	b	.LBB30_207
.LBB30_169:
	adrp	x21, .Lstatic.77
	add	x21, x21, :lo12:.Lstatic.77
	mov	w22, #11
	b	.LBB30_207
.LBB30_170:
	adrp	x21, .Lstatic.104
	add	x21, x21, :lo12:.Lstatic.104
	mov	w22, #12
	b	.LBB30_207
.LBB30_171:
	adrp	x21, .Lstatic.106
	add	x21, x21, :lo12:.Lstatic.106
	mov	w22, #20
	b	.LBB30_207
.LBB30_172:
	adrp	x21, .Lstatic.80
	add	x21, x21, :lo12:.Lstatic.80
	mov	w22, #10
	b	.LBB30_207
.LBB30_173:
	adrp	x21, .Lstatic.86
	add	x21, x21, :lo12:.Lstatic.86
	mov	w22, #8
	b	.LBB30_207
.LBB30_174:
	adrp	x2, .Lstatic.19
	add	x2, x2, :lo12:.Lstatic.19
	mov	x0, x23
	mov	x1, x24
	mov	w3, #7
	bl	core.cmp.text.RefStrPartialEq.eq
	b	.LBB30_209
.LBB30_175:
	adrp	x21, .Lstatic.99
	add	x21, x21, :lo12:.Lstatic.99
	b	.LBB30_206
.LBB30_176:
	adrp	x21, .Lstatic.116
	add	x21, x21, :lo12:.Lstatic.116
	mov	w22, #15
	b	.LBB30_207
.LBB30_177:
	adrp	x21, .Lstatic.81
	add	x21, x21, :lo12:.Lstatic.81
	mov	w22, #10
	b	.LBB30_207
.LBB30_178:
	adrp	x21, .Lstatic.82
	add	x21, x21, :lo12:.Lstatic.82
	mov	w22, #11
	b	.LBB30_207
.LBB30_179:
	adrp	x21, .Lstatic.120
	add	x21, x21, :lo12:.Lstatic.120
	mov	w22, #12
	b	.LBB30_207
.LBB30_180:
	adrp	x21, .Lstatic.89
	add	x21, x21, :lo12:.Lstatic.89
	mov	w22, #13
	b	.LBB30_207
.LBB30_181:
	adrp	x21, .Lstatic.90
	add	x21, x21, :lo12:.Lstatic.90
	mov	w22, #15
	b	.LBB30_207
.LBB30_182:
	adrp	x21, .Lstatic.123
	add	x21, x21, :lo12:.Lstatic.123
	mov	w22, #17
	b	.LBB30_207
.LBB30_183:
	adrp	x21, .Lstatic.105
	add	x21, x21, :lo12:.Lstatic.105
	mov	w22, #17
	b	.LBB30_207
.LBB30_184:
	adrp	x21, .Lstatic.78
	add	x21, x21, :lo12:.Lstatic.78
	mov	w22, #8
	b	.LBB30_207
.LBB30_185:
	adrp	x21, .Lstatic.121
	add	x21, x21, :lo12:.Lstatic.121
	mov	w22, #12
	b	.LBB30_207
.LBB30_186:
	adrp	x21, .Lstatic.79
	add	x21, x21, :lo12:.Lstatic.79
	mov	w22, #9
	b	.LBB30_207
.LBB30_187:
	adrp	x21, .Lstatic.112
	add	x21, x21, :lo12:.Lstatic.112
	mov	w22, #17
	b	.LBB30_207
.LBB30_188:
	adrp	x21, .Lstatic.84
	add	x21, x21, :lo12:.Lstatic.84
	mov	w22, #13
	b	.LBB30_207
.LBB30_189:
	adrp	x21, .Lstatic.129
	add	x21, x21, :lo12:.Lstatic.129
	mov	w22, #17
	b	.LBB30_207
.LBB30_190:
	adrp	x21, .Lstatic.83
	add	x21, x21, :lo12:.Lstatic.83
	mov	w22, #13
	b	.LBB30_207
.LBB30_191:
	adrp	x21, .Lstatic.92
	add	x21, x21, :lo12:.Lstatic.92
	mov	w22, #11
	b	.LBB30_207
.LBB30_192:
	adrp	x21, .Lstatic.109
	add	x21, x21, :lo12:.Lstatic.109
	mov	w22, #19
	b	.LBB30_207
.LBB30_193:
	adrp	x21, .Lstatic.91
	add	x21, x21, :lo12:.Lstatic.91
	mov	w22, #12
	b	.LBB30_207
.LBB30_194:
	adrp	x21, .Lstatic.130
	add	x21, x21, :lo12:.Lstatic.130
	mov	w22, #13
	b	.LBB30_207
.LBB30_195:
	adrp	x21, .Lstatic.117
	add	x21, x21, :lo12:.Lstatic.117
	mov	w22, #21
	b	.LBB30_207
.LBB30_196:
	adrp	x21, .Lstatic.95
	add	x21, x21, :lo12:.Lstatic.95
	mov	w22, #13
	b	.LBB30_207
.LBB30_197:
	adrp	x21, .Lstatic.133
	add	x21, x21, :lo12:.Lstatic.133
	mov	w22, #22
	b	.LBB30_207
.LBB30_198:
	adrp	x21, .Lstatic.137
	add	x21, x21, :lo12:.Lstatic.137
	mov	w22, #13
	b	.LBB30_207
.LBB30_199:
	adrp	x21, .Lstatic.132
	add	x21, x21, :lo12:.Lstatic.132
	mov	w22, #22
	b	.LBB30_207
.LBB30_200:
	adrp	x21, .Lstatic.102
	add	x21, x21, :lo12:.Lstatic.102
	mov	w22, #18
	b	.LBB30_207
.LBB30_201:
	adrp	x21, .Lstatic.101
	add	x21, x21, :lo12:.Lstatic.101
	mov	w22, #16
	b	.LBB30_207
.LBB30_202:
	adrp	x21, .Lstatic.127
	add	x21, x21, :lo12:.Lstatic.127
	mov	w22, #17
	b	.LBB30_207
.LBB30_203:
	adrp	x21, .Lstatic.110
	add	x21, x21, :lo12:.Lstatic.110
	mov	w22, #15
	b	.LBB30_207
.LBB30_204:
	adrp	x21, .Lstatic.107
	add	x21, x21, :lo12:.Lstatic.107
	mov	w22, #19
	b	.LBB30_207
.LBB30_205:
	adrp	x21, .Lstatic.122
	add	x21, x21, :lo12:.Lstatic.122
.LBB30_206:
	mov	w22, #14
.LBB30_207:
	adrp	x2, .Lstatic.19
	add	x2, x2, :lo12:.Lstatic.19
	mov	x0, x23
	mov	x1, x24
	mov	w3, #7
	bl	core.cmp.text.RefStrPartialEq.eq
	cbz	w0, .LBB30_209
	mov	w28, wzr
	and	w26, w26, #0xff
	mov	x23, x21
	mov	x24, x22
.LBB30_209:
	ldr	x8, [sp, #8]
	ldp	x22, x21, [sp, #208]
	ldp	x29, x30, [sp, #144]
	strb	w25, [x8]
	stp	x23, x24, [x8, #8]
	ldp	x24, x23, [sp, #192]
	strh	w26, [x8, #24]
	ldp	x26, x25, [sp, #176]
	strh	w27, [x8, #26]
	str	w28, [x8, #28]
	ldp	x28, x27, [sp, #160]
	stp	x20, x19, [x8, #32]
	ldp	x20, x19, [sp, #224]
	add	sp, sp, #240
	ret
.LBB30_210:
	adrp	x21, .Lstatic.135
	add	x21, x21, :lo12:.Lstatic.135
	mov	w22, #20
	b	.LBB30_207
.LBB30_211:
	adrp	x21, .Lstatic.126
	add	x21, x21, :lo12:.Lstatic.126
	mov	w22, #24
	b	.LBB30_207
.LBB30_212:
	adrp	x21, .Lstatic.136
	add	x21, x21, :lo12:.Lstatic.136
	mov	w22, #13
	b	.LBB30_207
.LBB30_213:
	adrp	x21, .Lstatic.134
	add	x21, x21, :lo12:.Lstatic.134
	mov	w22, #13
	b	.LBB30_207
.LBB30_214:
	mov	x24, x23
	mov	w26, w25
	mov	w27, w25
	mov	w28, w25
	mov	x20, x23
	mov	x19, x23
	b	.LBB30_209
.LBB30_215:
	adrp	x9, .Lstatic.19
	add	x9, x9, :lo12:.Lstatic.19
	mov	w8, #1
	mov	w10, #5
	mov	w11, #7
	mov	w12, w9
	mov	w25, w8
.LBB30_216:
	lsr	x13, x9, #56
	strb	w12, [sp, #24]
	lsr	x12, x9, #40
	lsr	x9, x9, #8
	str	x11, [sp, #32]
	strb	w13, [sp, #31]
	sturh	w12, [sp, #29]
	stur	w9, [sp, #25]
	strh	w10, [sp, #40]
	strh	wzr, [sp, #42]
	str	wzr, [sp, #44]
	stp	x21, x8, [sp, #48]
	b	.LBB30_7
.LBB30_217:
	mov	w25, wzr
	mov	x8, xzr
	mov	x10, xzr
	mov	x21, xzr
	mov	x9, xzr
.LBB30_218:
	stp	x8, x10, [sp, #24]
	stp	xzr, x21, [sp, #40]
	str	x9, [sp, #56]
	b	.LBB30_7
.LBB30_219:
	mov	w8, #1
	b	.LBB30_266
.LBB30_220:
	mov	w9, wzr
	mov	w12, wzr
	mov	w25, wzr
	mov	x10, xzr
	mov	x13, xzr
	mov	x8, xzr
	mov	x21, xzr
	mov	x11, xzr
	b	.LBB30_267
.LBB30_221:
	mov	w8, #2
	orr	x8, x8, x20, lsl #16
	b	.LBB30_266
.LBB30_222:
	mov	w8, #2
	orr	x8, x8, x19, lsl #16
	b	.LBB30_261
.LBB30_223:
	mov	w8, #3
	orr	x8, x8, x20, lsl #16
	b	.LBB30_265
.LBB30_224:
	mov	w8, #3
	orr	x8, x8, x19, lsl #16
	b	.LBB30_260
.LBB30_225:
	stp	q0, q0, [sp, #32]
	str	q0, [sp, #16]
	cbz	x21, .LBB30_231
	mov	x8, xzr
.LBB30_227:
	sub	x21, x21, x8
	cmp	x21, #4
	b.lo	.LBB30_232
	add	x22, x22, x8
	ldrh	w8, [x22]
	cmp	x21, x8
	b.lo	.LBB30_233
	cmp	w8, #3
	b.ls	.LBB30_234
	add	w8, w8, #3
	and	x8, x8, #0x1fffc
	cmp	x21, x8
	b.hi	.LBB30_227
	b	.LBB30_35
.LBB30_231:
	adrp	x8, .LCPI30_0
	stp	xzr, xzr, [sp, #48]
	mov	w25, #1
	ldr	q0, [x8, :lo12:.LCPI30_0]
	adrp	x8, .Lstatic.19
	add	x8, x8, :lo12:.Lstatic.19
	str	x8, [sp, #24]
	str	q0, [sp, #32]
	b	.LBB30_7
.LBB30_232:
	mov	w8, #1
	b	.LBB30_235
.LBB30_233:
	mov	w9, #2
	orr	x8, x9, x8, lsl #16
	b	.LBB30_235
.LBB30_234:
	mov	w9, #3
	mov	x21, xzr
	orr	x8, x9, x8, lsl #16
.LBB30_235:
	adrp	x10, .Lstatic.19
	add	x10, x10, :lo12:.Lstatic.19
	mov	w25, #1
	mov	w9, #7
.LBB30_236:
	stp	x10, x9, [sp, #24]
	stp	x8, x21, [sp, #40]
	str	xzr, [sp, #56]
	b	.LBB30_7
.LBB30_237:
	stp	q0, q0, [x29, #-48]
	stur	q0, [x29, #-16]
	cbz	x21, .LBB30_239
	add	x9, sp, #72
	mov	x8, xzr
	orr	x19, x9, #0x2
	b	.LBB30_242
.LBB30_239:
	mov	w9, wzr
	mov	w11, wzr
	mov	w25, wzr
	mov	x10, xzr
	mov	x13, xzr
	mov	x8, xzr
	mov	x12, xzr
	b	.LBB30_262
.LBB30_240:
	sub	x0, x29, #48
	add	x1, sp, #72
	strh	w23, [sp, #72]
	str	wzr, [x19]
	mov	x23, x2
	strh	wzr, [x19, #4]
	stp	x24, x25, [sp, #80]
	bl	nla_wire.place.check_one.6cf1decf0b22dc4b
	ldurb	w8, [x29, #-48]
	mov	x2, x23
	cbnz	w8, .LBB30_135
.LBB30_241:
	add	w8, w20, #3
	and	x8, x8, #0x1fffc
	cmp	x21, x8
	b.ls	.LBB30_257
.LBB30_242:
	sub	x21, x21, x8
	cmp	x21, #4
	b.lo	.LBB30_256
	add	x22, x22, x8
	ldrh	w20, [x22]
	cmp	x21, x20
	b.lo	.LBB30_258
	cmp	w20, #3
	b.ls	.LBB30_259
	ldrh	w23, [x22, #2]
	add	x24, x22, #4
	sub	x25, x20, #4
	and	w8, w23, #0x3fff
	cmp	w8, #45
	b.eq	.LBB30_252
	cmp	w8, #10
	b.eq	.LBB30_250
	cmp	w8, #2
	b.ne	.LBB30_241
	cbz	x25, .LBB30_240
	add	x0, x22, #4
	sub	x1, x20, #4
	mov	x26, x2
	bl	nla_wire.members.measure_each.d7cac04ae1e23078
	b	.LBB30_254
.LBB30_250:
	cbz	x25, .LBB30_240
	add	x0, x22, #4
	sub	x1, x20, #4
	mov	x26, x2
	bl	nla_wire.members.measure_each.97809315b2b26985
	b	.LBB30_254
.LBB30_252:
	cbz	x25, .LBB30_240
	add	x0, x22, #4
	sub	x1, x20, #4
	mov	x26, x2
	bl	nla_wire.members.measure_each.7562298f77a88fdb
.LBB30_254:
	and	w8, w0, #0xff
	mov	x2, x26
	cmp	w8, #1
	b.ne	.LBB30_240
	mov	w8, #65532
	cmp	x1, x8
	b.lo	.LBB30_241
	b	.LBB30_240
.LBB30_256:
	mov	w8, #1
	b	.LBB30_261
.LBB30_257:
	mov	w9, wzr
	mov	w11, wzr
	mov	w25, wzr
	mov	x10, xzr
	mov	x13, xzr
	mov	x8, xzr
	mov	x21, xzr
	mov	x12, xzr
	b	.LBB30_262
.LBB30_258:
	mov	w8, #2
	orr	x8, x8, x20, lsl #16
	b	.LBB30_261
.LBB30_259:
	mov	w8, #3
	orr	x8, x8, x20, lsl #16
.LBB30_260:
	mov	x21, xzr
.LBB30_261:
	adrp	x9, .Lstatic.19
	add	x9, x9, :lo12:.Lstatic.19
	mov	x12, xzr
	lsr	x10, x9, #16
	ubfx	w11, w9, #8, #8
	mov	w25, #1
	mov	w13, #7
.LBB30_262:
	strb	w9, [sp, #24]
	lsr	x9, x10, #32
	strb	w11, [sp, #25]
	stur	w10, [sp, #26]
	strh	w9, [sp, #30]
	stp	x13, x8, [sp, #32]
	stp	x21, x12, [sp, #48]
	b	.LBB30_7
.LBB30_263:
	mov	w8, #2
	orr	x8, x8, x19, lsl #16
	b	.LBB30_266
.LBB30_264:
	mov	w8, #3
	orr	x8, x8, x19, lsl #16
.LBB30_265:
	mov	x21, xzr
.LBB30_266:
	adrp	x9, .Lstatic.19
	add	x9, x9, :lo12:.Lstatic.19
	mov	x11, xzr
	lsr	x10, x9, #16
	ubfx	w12, w9, #8, #8
	mov	w25, #1
	mov	w13, #7
.LBB30_267:
	mov	w12, w12
	stp	x8, x21, [sp, #40]
	and	x9, x9, #0xff
	str	x11, [sp, #56]
	orr	x9, x9, x12, lsl #8
	orr	x9, x9, x10, lsl #16
	stp	x9, x13, [sp, #24]
	b	.LBB30_7
.Lfunc_end30:
	.size	nla_wire.place.check_one.c4c48bc1b6cb0726, .Lfunc_end30-nla_wire.place.check_one.c4c48bc1b6cb0726
	.section	.rodata.nla_wire.place.check_one.c4c48bc1b6cb0726,"a",@progbits
	.p2align	1, 0x0
.LJTI30_0:
	.hword	(.LBB30_11-.LBB30_2)>>2
	.hword	(.LBB30_11-.LBB30_2)>>2
	.hword	(.LBB30_12-.LBB30_2)>>2
	.hword	(.LBB30_2-.LBB30_2)>>2
	.hword	(.LBB30_2-.LBB30_2)>>2
	.hword	(.LBB30_12-.LBB30_2)>>2
	.hword	(.LBB30_11-.LBB30_2)>>2
	.hword	(.LBB30_209-.LBB30_2)>>2
	.hword	(.LBB30_209-.LBB30_2)>>2
	.hword	(.LBB30_2-.LBB30_2)>>2
	.hword	(.LBB30_113-.LBB30_2)>>2
	.hword	(.LBB30_36-.LBB30_2)>>2
	.hword	(.LBB30_2-.LBB30_2)>>2
	.hword	(.LBB30_44-.LBB30_2)>>2
	.hword	(.LBB30_209-.LBB30_2)>>2
	.hword	(.LBB30_13-.LBB30_2)>>2
	.hword	(.LBB30_13-.LBB30_2)>>2
	.hword	(.LBB30_136-.LBB30_2)>>2
	.hword	(.LBB30_2-.LBB30_2)>>2
	.hword	(.LBB30_12-.LBB30_2)>>2
	.hword	(.LBB30_2-.LBB30_2)>>2
	.hword	(.LBB30_115-.LBB30_2)>>2
	.hword	(.LBB30_11-.LBB30_2)>>2
	.hword	(.LBB30_100-.LBB30_2)>>2
	.hword	(.LBB30_29-.LBB30_2)>>2
	.hword	(.LBB30_46-.LBB30_2)>>2
	.hword	(.LBB30_2-.LBB30_2)>>2
	.hword	(.LBB30_2-.LBB30_2)>>2
	.hword	(.LBB30_2-.LBB30_2)>>2
	.hword	(.LBB30_2-.LBB30_2)>>2
	.hword	(.LBB30_2-.LBB30_2)>>2
	.hword	(.LBB30_2-.LBB30_2)>>2
	.hword	(.LBB30_13-.LBB30_2)>>2
	.hword	(.LBB30_11-.LBB30_2)>>2
	.hword	(.LBB30_2-.LBB30_2)>>2
	.hword	(.LBB30_11-.LBB30_2)>>2
	.hword	(.LBB30_2-.LBB30_2)>>2
	.hword	(.LBB30_12-.LBB30_2)>>2
	.hword	(.LBB30_13-.LBB30_2)>>2
	.hword	(.LBB30_2-.LBB30_2)>>2
	.hword	(.LBB30_2-.LBB30_2)>>2
	.hword	(.LBB30_209-.LBB30_2)>>2
	.hword	(.LBB30_55-.LBB30_2)>>2
	.hword	(.LBB30_2-.LBB30_2)>>2
	.hword	(.LBB30_2-.LBB30_2)>>2
	.hword	(.LBB30_2-.LBB30_2)>>2
	.hword	(.LBB30_2-.LBB30_2)>>2
	.hword	(.LBB30_2-.LBB30_2)>>2
	.hword	(.LBB30_2-.LBB30_2)>>2
	.hword	(.LBB30_2-.LBB30_2)>>2
	.hword	(.LBB30_2-.LBB30_2)>>2
	.hword	(.LBB30_17-.LBB30_2)>>2
	.hword	(.LBB30_209-.LBB30_2)>>2
	.hword	(.LBB30_11-.LBB30_2)>>2
	.hword	(.LBB30_91-.LBB30_2)>>2
	.hword	(.LBB30_12-.LBB30_2)>>2
	.hword	(.LBB30_12-.LBB30_2)>>2
	.hword	(.LBB30_2-.LBB30_2)>>2
	.hword	(.LBB30_2-.LBB30_2)>>2
	.hword	(.LBB30_2-.LBB30_2)>>2
	.hword	(.LBB30_2-.LBB30_2)>>2
	.hword	(.LBB30_75-.LBB30_2)>>2
	.hword	(.LBB30_2-.LBB30_2)>>2
	.hword	(.LBB30_2-.LBB30_2)>>2
	.hword	(.LBB30_126-.LBB30_2)>>2
	.hword	(.LBB30_209-.LBB30_2)>>2
	.hword	(.LBB30_111-.LBB30_2)>>2
	.hword	(.LBB30_15-.LBB30_2)>>2
	.hword	(.LBB30_15-.LBB30_2)>>2
	.p2align	1, 0x0
.LJTI30_1:
	.hword	(.LBB30_207-.LBB30_10)>>2
	.hword	(.LBB30_10-.LBB30_10)>>2
	.hword	(.LBB30_169-.LBB30_10)>>2
	.hword	(.LBB30_184-.LBB30_10)>>2
	.hword	(.LBB30_186-.LBB30_10)>>2
	.hword	(.LBB30_172-.LBB30_10)>>2
	.hword	(.LBB30_177-.LBB30_10)>>2
	.hword	(.LBB30_174-.LBB30_10)>>2
	.hword	(.LBB30_174-.LBB30_10)>>2
	.hword	(.LBB30_178-.LBB30_10)>>2
	.hword	(.LBB30_190-.LBB30_10)>>2
	.hword	(.LBB30_188-.LBB30_10)>>2
	.hword	(.LBB30_162-.LBB30_10)>>2
	.hword	(.LBB30_173-.LBB30_10)>>2
	.hword	(.LBB30_174-.LBB30_10)>>2
	.hword	(.LBB30_167-.LBB30_10)>>2
	.hword	(.LBB30_159-.LBB30_10)>>2
	.hword	(.LBB30_180-.LBB30_10)>>2
	.hword	(.LBB30_181-.LBB30_10)>>2
	.hword	(.LBB30_193-.LBB30_10)>>2
	.hword	(.LBB30_191-.LBB30_10)>>2
	.hword	(.LBB30_157-.LBB30_10)>>2
	.hword	(.LBB30_168-.LBB30_10)>>2
	.hword	(.LBB30_196-.LBB30_10)>>2
	.hword	(.LBB30_158-.LBB30_10)>>2
	.hword	(.LBB30_166-.LBB30_10)>>2
	.hword	(.LBB30_161-.LBB30_10)>>2
	.hword	(.LBB30_175-.LBB30_10)>>2
	.hword	(.LBB30_160-.LBB30_10)>>2
	.hword	(.LBB30_201-.LBB30_10)>>2
	.hword	(.LBB30_200-.LBB30_10)>>2
	.hword	(.LBB30_164-.LBB30_10)>>2
	.hword	(.LBB30_170-.LBB30_10)>>2
	.hword	(.LBB30_183-.LBB30_10)>>2
	.hword	(.LBB30_171-.LBB30_10)>>2
	.hword	(.LBB30_204-.LBB30_10)>>2
	.hword	(.LBB30_163-.LBB30_10)>>2
	.hword	(.LBB30_192-.LBB30_10)>>2
	.hword	(.LBB30_203-.LBB30_10)>>2
	.hword	(.LBB30_155-.LBB30_10)>>2
	.hword	(.LBB30_187-.LBB30_10)>>2
	.hword	(.LBB30_174-.LBB30_10)>>2
	.hword	(.LBB30_154-.LBB30_10)>>2
	.hword	(.LBB30_153-.LBB30_10)>>2
	.hword	(.LBB30_165-.LBB30_10)>>2
	.hword	(.LBB30_176-.LBB30_10)>>2
	.hword	(.LBB30_195-.LBB30_10)>>2
	.hword	(.LBB30_148-.LBB30_10)>>2
	.hword	(.LBB30_156-.LBB30_10)>>2
	.hword	(.LBB30_179-.LBB30_10)>>2
	.hword	(.LBB30_185-.LBB30_10)>>2
	.hword	(.LBB30_205-.LBB30_10)>>2
	.hword	(.LBB30_174-.LBB30_10)>>2
	.hword	(.LBB30_182-.LBB30_10)>>2
	.hword	(.LBB30_152-.LBB30_10)>>2
	.hword	(.LBB30_149-.LBB30_10)>>2
	.hword	(.LBB30_211-.LBB30_10)>>2
	.hword	(.LBB30_202-.LBB30_10)>>2
	.hword	(.LBB30_151-.LBB30_10)>>2
	.hword	(.LBB30_189-.LBB30_10)>>2
	.hword	(.LBB30_194-.LBB30_10)>>2
	.hword	(.LBB30_150-.LBB30_10)>>2
	.hword	(.LBB30_199-.LBB30_10)>>2
	.hword	(.LBB30_197-.LBB30_10)>>2
	.hword	(.LBB30_213-.LBB30_10)>>2
	.hword	(.LBB30_174-.LBB30_10)>>2
	.hword	(.LBB30_210-.LBB30_10)>>2
	.hword	(.LBB30_212-.LBB30_10)>>2
	.hword	(.LBB30_198-.LBB30_10)>>2

	.section	.text.nla_wire.text.check_string,"ax",@progbits
	.p2align	2
	.type	nla_wire.text.check_string,@function
nla_wire.text.check_string:
	sub	sp, sp, #64
	str	x19, [sp, #48]
	mov	x19, x0
	stp	x29, x30, [sp, #32]
	add	x29, sp, #32
	cbz	x2, .LBB31_2
	sub	x8, x2, #1
	ldrb	w9, [x1, x8]
	cbz	w9, .LBB31_10
.LBB31_2:
	cbz	x2, .LBB31_23
.LBB31_3:
	cmp	x2, #3
	b.hi	.LBB31_7
	ldrsb	w8, [x1]
	tbnz	w8, #31, .LBB31_22
	lsr	x8, x2, #1
	ldrsb	w8, [x1, x8]
	tbnz	w8, #31, .LBB31_22
	add	x8, x1, x2
	ldursb	w8, [x8, #-1]
	tbz	w8, #31, .LBB31_23
	b	.LBB31_22
.LBB31_7:
	cmp	x2, #7
	b.hi	.LBB31_11
	ldr	w8, [x1]
	tst	w8, #0x80808080
	b.ne	.LBB31_22
	add	x8, x1, x2
	mov	w9, #-2139062144
	ldur	w8, [x8, #-4]
	tst	w8, w9
	b.ne	.LBB31_22
	b	.LBB31_23
.LBB31_10:
	mov	x2, x8
	cbnz	x8, .LBB31_3
	b	.LBB31_23
.LBB31_11:
	cmp	x2, #16
	b.hi	.LBB31_14
	ldr	x8, [x1]
	tst	x8, #0x8080808080808080
	b.ne	.LBB31_22
	add	x8, x1, x2
	ldur	x8, [x8, #-8]
	tst	x8, #0x8080808080808080
	b.ne	.LBB31_22
	b	.LBB31_23
.LBB31_14:
	cmp	x2, #31
	b.hi	.LBB31_17
	ldr	q0, [x1]
	umaxv	b0, v0.16b
	fmov	w8, s0
	tbnz	w8, #7, .LBB31_22
	add	x8, x1, x2
	ldur	q0, [x8, #-16]
	b	.LBB31_21
.LBB31_17:
	movi	v0.2d, #0000000000000000
	movi	v1.2d, #0000000000000000
	and	x8, x2, #0xffffffffffffffe0
	add	x9, x1, #16
.LBB31_18:
	ldp	q2, q3, [x9, #-16]
	subs	x8, x8, #32
	add	x9, x9, #32
	umax	v0.16b, v0.16b, v2.16b
	umax	v1.16b, v1.16b, v3.16b
	b.ne	.LBB31_18
	umax	v0.16b, v0.16b, v1.16b
	umaxv	b0, v0.16b
	fmov	w8, s0
	tbnz	w8, #7, .LBB31_22
	add	x8, x1, x2
	ldp	q1, q0, [x8, #-32]
	umax	v0.16b, v1.16b, v0.16b
.LBB31_21:
	umaxv	b0, v0.16b
	fmov	w8, s0
	tbz	w8, #7, .LBB31_23
.LBB31_22:
	mov	x0, x1
	mov	x1, x2
	bl	nla_wire.text.is_decoded
	cbz	w0, .LBB31_24
.LBB31_23:
	mov	w10, wzr
	mov	x9, xzr
	mov	x11, xzr
	mov	w8, wzr
	b	.LBB31_25
.LBB31_24:
	mov	w8, #6
	adrp	x9, .Lstatic.19
	add	x9, x9, :lo12:.Lstatic.19
	mov	w10, #1
	mov	w11, #7
.LBB31_25:
	stp	xzr, xzr, [sp, #8]
	stur	xzr, [sp, #22]
	ldp	x29, x30, [sp, #32]
	ldur	q0, [sp, #8]
	strh	w8, [x19, #24]
	strb	w10, [x19]
	stp	x9, x11, [x19, #8]
	stur	q0, [x19, #26]
	str	xzr, [x19, #40]
	ldr	x19, [sp, #48]
	add	sp, sp, #64
	ret
.Lfunc_end31:
	.size	nla_wire.text.check_string, .Lfunc_end31-nla_wire.text.check_string

	.section	.text.nla_wire.place.check_one.49064c0641319ce4,"ax",@progbits
	.p2align	2
	.type	nla_wire.place.check_one.49064c0641319ce4,@function
nla_wire.place.check_one.49064c0641319ce4:
	sub	sp, sp, #144
	movi	v0.2d, #0000000000000000
	ldrh	w8, [x1]
	stp	x20, x19, [sp, #128]
	mov	x19, x0
	stp	x29, x30, [sp, #48]
	add	x29, sp, #48
	and	w8, w8, #0x3fff
	stp	x28, x27, [sp, #64]
	cmp	w8, #1
	stp	x26, x25, [sp, #80]
	stp	x24, x23, [sp, #96]
	stp	x22, x21, [sp, #112]
	stp	q0, q0, [sp, #16]
	str	q0, [sp]
	b.ne	.LBB32_5
	mov	x22, x1
	ldr	x1, [x1, #8]
	mov	x0, sp
	ldr	x2, [x22, #16]
	bl	nla_wire.text.check_string
	ldrb	w23, [sp]
	cbz	w23, .LBB32_6
	ldp	x20, x21, [sp, #8]
	adrp	x2, .Lstatic.19
	add	x2, x2, :lo12:.Lstatic.19
	ldp	x27, x28, [sp, #32]
	ldrh	w24, [sp, #24]
	ldrh	w25, [sp, #26]
	mov	w3, #7
	ldr	w26, [sp, #28]
	ldrh	w22, [x22]
	mov	x0, x20
	mov	x1, x21
	bl	core.cmp.text.RefStrPartialEq.eq
	cbz	w0, .LBB32_7
	and	w8, w22, #0x3fff
	cmp	w8, #1
	b.ne	.LBB32_7
	mov	w26, wzr
	and	w24, w24, #0xff
	adrp	x20, .Lstatic.21
	add	x20, x20, :lo12:.Lstatic.21
	mov	w21, #14
	b	.LBB32_7
.LBB32_5:
	mov	w23, wzr
.LBB32_6:
	mov	x20, xzr
	mov	x21, xzr
	mov	w24, wzr
	mov	w25, wzr
	mov	w26, wzr
	mov	x27, xzr
	mov	x28, xzr
.LBB32_7:
	strb	w23, [x19]
	ldp	x29, x30, [sp, #48]
	stp	x20, x21, [x19, #8]
	ldp	x22, x21, [sp, #112]
	strh	w24, [x19, #24]
	ldp	x24, x23, [sp, #96]
	strh	w25, [x19, #26]
	str	w26, [x19, #28]
	ldp	x26, x25, [sp, #80]
	stp	x27, x28, [x19, #32]
	ldp	x20, x19, [sp, #128]
	ldp	x28, x27, [sp, #64]
	add	sp, sp, #144
	ret
.Lfunc_end32:
	.size	nla_wire.place.check_one.49064c0641319ce4, .Lfunc_end32-nla_wire.place.check_one.49064c0641319ce4

	.section	.text.nla_wire.place.check_one.3bb4c8661a1029f4,"ax",@progbits
	.p2align	2
	.type	nla_wire.place.check_one.3bb4c8661a1029f4,@function
nla_wire.place.check_one.3bb4c8661a1029f4:
	sub	sp, sp, #176
	stp	x24, x23, [sp, #128]
	ldr	x23, [x1, #16]
	stp	x22, x21, [sp, #144]
	mov	x21, x1
	stp	x20, x19, [sp, #160]
	mov	x19, x0
	adrp	x20, .Lstatic.19
	add	x20, x20, :lo12:.Lstatic.19
	stp	x29, x30, [sp, #80]
	add	x29, sp, #80
	stp	x28, x27, [sp, #96]
	stp	x26, x25, [sp, #112]
	cbz	x23, .LBB33_17
	movi	v0.2d, #0000000000000000
	ldr	x22, [x21, #8]
	add	x9, sp, #8
	mov	x8, xzr
	orr	x24, x9, #0x2
	stp	q0, q0, [sp, #32]
	str	q0, [sp, #64]
	b	.LBB33_4
.LBB33_2:
	add	x0, sp, #32
	add	x1, sp, #8
	strh	w26, [sp, #8]
	str	wzr, [x24]
	strh	wzr, [x24, #4]
	stp	x27, x28, [sp, #16]
	bl	nla_wire.place.check_one.41ac5f0caeaa9df8
	ldrb	w8, [sp, #32]
	cbnz	w8, .LBB33_29
.LBB33_3:
	add	w8, w25, #3
	and	x8, x8, #0x1fffc
	cmp	x23, x8
	b.ls	.LBB33_27
.LBB33_4:
	sub	x23, x23, x8
	cmp	x23, #4
	b.lo	.LBB33_18
	add	x22, x22, x8
	ldrh	w25, [x22]
	cmp	x23, x25
	b.lo	.LBB33_19
	cmp	w25, #3
	b.ls	.LBB33_20
	ldrh	w26, [x22, #2]
	and	w8, w26, #0x3fff
	sub	w8, w8, #1
	cmp	w8, #12
	b.hi	.LBB33_3
	adrp	x9, .LJTI33_0
	add	x9, x9, :lo12:.LJTI33_0
	add	x27, x22, #4
	adr	x10, .LBB33_9
	ldrb	w11, [x9, x8]
	add	x10, x10, x11, lsl #2
	sub	x28, x25, #4
	br	x10
.LBB33_9:
	cmp	w25, #11
	b.hi	.LBB33_3
	b	.LBB33_2
.LBB33_10:
	cmp	w25, #15
	b.ls	.LBB33_2
	b	.LBB33_3
.LBB33_11:
	cmp	w25, #19
	b.ls	.LBB33_2
	b	.LBB33_3
.LBB33_12:
	add	x0, x22, #4
	sub	x1, x25, #4
	bl	nla_wire.members.measure_each.9a0187163d44de3c
	and	w8, w0, #0xff
	cmp	w8, #1
	b.eq	.LBB33_16
	b	.LBB33_2
.LBB33_13:
	cmp	w25, #35
	b.ls	.LBB33_2
	b	.LBB33_3
.LBB33_14:
	cmp	w25, #39
	b.ls	.LBB33_2
	b	.LBB33_3
.LBB33_15:
	add	x0, x22, #4
	sub	x1, x25, #4
	bl	nla_wire.members.measure_each.5361511d0f913a98
	and	w8, w0, #0xff
	cmp	w8, #1
	b.ne	.LBB33_2
.LBB33_16:
	mov	w8, #65532
	cmp	x1, x8
	b.lo	.LBB33_3
	b	.LBB33_2
.LBB33_17:
	mov	x25, xzr
	mov	w22, #7
	mov	w24, #4
	b	.LBB33_24
.LBB33_18:
	mov	w24, #1
	b	.LBB33_22
.LBB33_19:
	mov	w8, #2
	b	.LBB33_21
.LBB33_20:
	mov	w8, #3
	mov	x23, xzr
.LBB33_21:
	orr	x24, x8, x25, lsl #16
.LBB33_22:
	mov	x25, xzr
	lsr	x8, x20, #16
	ubfx	w9, w20, #8, #8
	mov	w22, #7
.LBB33_23:
	and	x10, x20, #0xff
	mov	w9, w9
	orr	x9, x10, x9, lsl #8
	orr	x20, x9, x8, lsl #16
.LBB33_24:
	ldrh	w21, [x21]
	adrp	x2, .Lstatic.19
	add	x2, x2, :lo12:.Lstatic.19
	mov	x0, x20
	mov	x1, x22
	mov	w3, #7
	lsr	x26, x24, #16
	lsr	x27, x24, #32
	bl	core.cmp.text.RefStrPartialEq.eq
	mov	w8, #1
	cbz	w0, .LBB33_28
	and	w9, w21, #0x3fff
	cmp	w9, #1
	b.ne	.LBB33_28
	mov	w27, wzr
	adrp	x20, .Lstatic.44
	add	x20, x20, :lo12:.Lstatic.44
	and	w24, w24, #0xff
	mov	w22, #12
	b	.LBB33_28
.LBB33_27:
	mov	w8, wzr
	mov	x20, xzr
	mov	x22, xzr
	mov	w24, wzr
	mov	w26, wzr
	mov	w27, wzr
	mov	x23, xzr
	mov	x25, xzr
.LBB33_28:
	strb	w8, [x19]
	ldp	x29, x30, [sp, #80]
	stp	x20, x22, [x19, #8]
	ldp	x22, x21, [sp, #144]
	strh	w24, [x19, #24]
	strh	w26, [x19, #26]
	str	w27, [x19, #28]
	ldp	x28, x27, [sp, #96]
	stp	x23, x25, [x19, #32]
	ldp	x20, x19, [sp, #160]
	ldp	x24, x23, [sp, #128]
	ldp	x26, x25, [sp, #112]
	add	sp, sp, #176
	ret
.LBB33_29:
	ldrh	w8, [sp, #46]
	ldur	w10, [sp, #42]
	ldrb	w20, [sp, #40]
	ldp	x22, x24, [sp, #48]
	ldrb	w9, [sp, #41]
	orr	x8, x10, x8, lsl #32
	ldp	x23, x25, [sp, #64]
	b	.LBB33_23
.Lfunc_end33:
	.size	nla_wire.place.check_one.3bb4c8661a1029f4, .Lfunc_end33-nla_wire.place.check_one.3bb4c8661a1029f4
	.section	.rodata.nla_wire.place.check_one.3bb4c8661a1029f4,"a",@progbits
.LJTI33_0:
	.byte	(.LBB33_14-.LBB33_9)>>2
	.byte	(.LBB33_10-.LBB33_9)>>2
	.byte	(.LBB33_9-.LBB33_9)>>2
	.byte	(.LBB33_9-.LBB33_9)>>2
	.byte	(.LBB33_9-.LBB33_9)>>2
	.byte	(.LBB33_10-.LBB33_9)>>2
	.byte	(.LBB33_9-.LBB33_9)>>2
	.byte	(.LBB33_15-.LBB33_9)>>2
	.byte	(.LBB33_9-.LBB33_9)>>2
	.byte	(.LBB33_11-.LBB33_9)>>2
	.byte	(.LBB33_11-.LBB33_9)>>2
	.byte	(.LBB33_12-.LBB33_9)>>2
	.byte	(.LBB33_13-.LBB33_9)>>2

	.section	.text.nla_wire.place.check_one.41ac5f0caeaa9df8,"ax",@progbits
	.p2align	2
	.type	nla_wire.place.check_one.41ac5f0caeaa9df8,@function
nla_wire.place.check_one.41ac5f0caeaa9df8:
	sub	sp, sp, #144
	ldrh	w8, [x1]
	stp	x28, x27, [sp, #64]
	stp	x20, x19, [sp, #128]
	mov	x19, x0
	and	w8, w8, #0x3fff
	stp	x29, x30, [sp, #48]
	add	x29, sp, #48
	sub	w27, w8, #1
	stp	x26, x25, [sp, #80]
	cmp	w27, #12
	stp	x24, x23, [sp, #96]
	stp	x22, x21, [sp, #112]
	b.hi	.LBB34_51
	ldp	x20, x22, [x1, #8]
	adrp	x8, .LJTI34_0
	add	x8, x8, :lo12:.LJTI34_0
	adr	x9, .LBB34_2
	ldrb	w10, [x8, x27]
	add	x9, x9, x10, lsl #2
	br	x9
.LBB34_2:
	cmp	x22, #36
	b.hs	.LBB34_51
	mov	w23, wzr
	mov	w25, wzr
	mov	w26, wzr
	adrp	x27, .Lstatic.31
	add	x27, x27, :lo12:.Lstatic.31
	adrp	x21, .Lstatic.19
	add	x21, x21, :lo12:.Lstatic.19
	mov	w28, #11
	mov	w24, #36
	b	.LBB34_48
.LBB34_4:
	movi	v0.2d, #0000000000000000
	stp	q0, q0, [sp, #16]
	str	q0, [sp]
	cbz	x22, .LBB34_53
	mov	x8, xzr
	b	.LBB34_7
.LBB34_6:
	add	w8, w21, #3
	and	x8, x8, #0x1fffc
	cmp	x22, x8
	b.ls	.LBB34_58
.LBB34_7:
	sub	x22, x22, x8
	cmp	x22, #4
	b.lo	.LBB34_54
	add	x20, x20, x8
	ldrh	w21, [x20]
	cmp	x22, x21
	b.lo	.LBB34_55
	cmp	w21, #3
	b.ls	.LBB34_56
	cmp	w21, #19
	b.hi	.LBB34_6
	ldrh	w1, [x20, #2]
	and	w8, w1, #0x3fff
	cmp	w8, #1
	b.ne	.LBB34_6
	mov	x0, sp
	sub	x2, x21, #4
	bl	nla_wire.place.check_one.9a0187163d44de3c
	ldrb	w8, [sp]
	cbz	w8, .LBB34_6
	b	.LBB34_33
.LBB34_13:
	cmp	x22, #7
	b.hi	.LBB34_51
	mov	w23, wzr
	mov	w25, wzr
	mov	w26, wzr
	adrp	x21, .Lstatic.19
	add	x21, x21, :lo12:.Lstatic.19
	adrp	x27, .Lstatic.35
	add	x27, x27, :lo12:.Lstatic.35
	mov	w28, #18
	b	.LBB34_47
.LBB34_15:
	cmp	x22, #32
	b.hs	.LBB34_51
	mov	w23, wzr
	mov	w25, wzr
	mov	w26, wzr
	adrp	x27, .Lstatic.43
	add	x27, x27, :lo12:.Lstatic.43
	adrp	x21, .Lstatic.19
	add	x21, x21, :lo12:.Lstatic.19
	mov	w28, #17
	mov	w24, #32
	b	.LBB34_48
.LBB34_17:
	cmp	x22, #15
	b.hi	.LBB34_51
	mov	w23, wzr
	mov	w25, wzr
	mov	w26, wzr
	adrp	x21, .Lstatic.19
	add	x21, x21, :lo12:.Lstatic.19
	adrp	x27, .Lstatic.40
	add	x27, x27, :lo12:.Lstatic.40
	b	.LBB34_44
.LBB34_19:
	cmp	x22, #7
	b.hi	.LBB34_51
	mov	w23, wzr
	mov	w25, wzr
	mov	w26, wzr
	adrp	x21, .Lstatic.19
	add	x21, x21, :lo12:.Lstatic.19
	adrp	x27, .Lstatic.33
	add	x27, x27, :lo12:.Lstatic.33
	mov	w28, #15
	b	.LBB34_47
.LBB34_21:
	cmp	x22, #7
	b.hi	.LBB34_51
	mov	w23, wzr
	mov	w25, wzr
	mov	w26, wzr
	adrp	x21, .Lstatic.19
	add	x21, x21, :lo12:.Lstatic.19
	adrp	x27, .Lstatic.34
	add	x27, x27, :lo12:.Lstatic.34
	mov	w28, #16
	b	.LBB34_47
.LBB34_23:
	movi	v0.2d, #0000000000000000
	stp	q0, q0, [sp, #16]
	str	q0, [sp]
	cbz	x22, .LBB34_53
	mov	x8, xzr
	b	.LBB34_26
.LBB34_25:
	add	w8, w21, #3
	and	x8, x8, #0x1fffc
	cmp	x22, x8
	b.ls	.LBB34_58
.LBB34_26:
	sub	x22, x22, x8
	cmp	x22, #4
	b.lo	.LBB34_54
	add	x20, x20, x8
	ldrh	w21, [x20]
	cmp	x22, x21
	b.lo	.LBB34_55
	cmp	w21, #3
	b.ls	.LBB34_56
	ldrh	w1, [x20, #2]
	and	w8, w1, #0x3fff
	cmp	w8, #6
	b.lo	.LBB34_31
	sub	w8, w8, #7
	cmp	w8, #1
	b.hi	.LBB34_25
.LBB34_31:
	sub	x8, x21, #4
	cmp	x8, #8
	b.eq	.LBB34_25
	mov	x0, sp
	sub	x2, x21, #4
	bl	nla_wire.place.check_one.5361511d0f913a98
	ldrb	w8, [sp]
	cbz	w8, .LBB34_25
.LBB34_33:
	ldrh	w8, [sp, #14]
	ldur	w10, [sp, #10]
	ldrb	w11, [sp, #8]
	ldp	x20, x23, [sp, #16]
	ldrb	w9, [sp, #9]
	orr	x10, x10, x8, lsl #32
	mov	w8, #1
	ldp	x22, x24, [sp, #32]
	and	x11, x11, #0xff
	mov	w9, w9
	orr	x9, x11, x9, lsl #8
	orr	x21, x9, x10, lsl #16
	cbnz	w8, .LBB34_60
	b	.LBB34_52
.LBB34_34:
	cmp	x22, #12
	b.hs	.LBB34_51
	mov	w23, wzr
	mov	w25, wzr
	mov	w26, wzr
	adrp	x27, .Lstatic.32
	add	x27, x27, :lo12:.Lstatic.32
	b	.LBB34_38
.LBB34_36:
	cmp	x22, #12
	b.hs	.LBB34_51
	mov	w23, wzr
	mov	w25, wzr
	mov	w26, wzr
	adrp	x27, .Lstatic.36
	add	x27, x27, :lo12:.Lstatic.36
.LBB34_38:
	adrp	x21, .Lstatic.19
	add	x21, x21, :lo12:.Lstatic.19
	mov	w24, #12
	mov	w20, #7
.LBB34_39:
	mov	w28, #12
	b	.LBB34_49
.LBB34_40:
	cmp	x22, #7
	b.hi	.LBB34_51
	mov	w23, wzr
	mov	w25, wzr
	mov	w26, wzr
	adrp	x21, .Lstatic.19
	add	x21, x21, :lo12:.Lstatic.19
	adrp	x27, .Lstatic.37
	add	x27, x27, :lo12:.Lstatic.37
	mov	w28, #20
	b	.LBB34_47
.LBB34_42:
	cmp	x22, #15
	b.hi	.LBB34_51
	mov	w23, wzr
	mov	w25, wzr
	mov	w26, wzr
	adrp	x21, .Lstatic.19
	add	x21, x21, :lo12:.Lstatic.19
	adrp	x27, .Lstatic.41
	add	x27, x27, :lo12:.Lstatic.41
.LBB34_44:
	mov	w28, #20
	mov	w24, #16
	b	.LBB34_48
.LBB34_45:
	cmp	x22, #7
	b.hi	.LBB34_51
	mov	w23, wzr
	mov	w25, wzr
	mov	w26, wzr
	adrp	x21, .Lstatic.19
	add	x21, x21, :lo12:.Lstatic.19
	adrp	x27, .Lstatic.39
	add	x27, x27, :lo12:.Lstatic.39
	mov	w28, #13
.LBB34_47:
	mov	w24, #8
.LBB34_48:
	mov	w20, #7
.LBB34_49:
	adrp	x2, .Lstatic.19
	add	x2, x2, :lo12:.Lstatic.19
	mov	x0, x21
	mov	x1, x20
	mov	w3, #7
	bl	core.cmp.text.RefStrPartialEq.eq
	cbz	w0, .LBB34_72
	mov	w26, wzr
	and	w23, w23, #0xff
	mov	w8, #1
	mov	x21, x27
	mov	x20, x28
	b	.LBB34_73
.LBB34_51:
	mov	w8, wzr
.LBB34_52:
	mov	x21, xzr
	mov	x20, xzr
	mov	w23, wzr
	mov	w25, wzr
	mov	w26, wzr
	mov	x22, xzr
	mov	x24, xzr
	b	.LBB34_73
.LBB34_53:
	mov	w11, wzr
	mov	w9, wzr
	mov	w8, wzr
	mov	x10, xzr
	mov	x20, xzr
	mov	x23, xzr
	b	.LBB34_59
.LBB34_54:
	mov	w23, #1
	b	.LBB34_57
.LBB34_55:
	mov	w8, #2
	orr	x23, x8, x21, lsl #16
	b	.LBB34_57
.LBB34_56:
	mov	w8, #3
	mov	x22, xzr
	orr	x23, x8, x21, lsl #16
.LBB34_57:
	adrp	x11, .Lstatic.19
	add	x11, x11, :lo12:.Lstatic.19
	mov	x24, xzr
	lsr	x10, x11, #16
	ubfx	w9, w11, #8, #8
	mov	w8, #1
	mov	w20, #7
	and	x11, x11, #0xff
	mov	w9, w9
	orr	x9, x11, x9, lsl #8
	orr	x21, x9, x10, lsl #16
	cbnz	w8, .LBB34_60
	b	.LBB34_52
.LBB34_58:
	mov	w11, wzr
	mov	w9, wzr
	mov	w8, wzr
	mov	x10, xzr
	mov	x20, xzr
	mov	x23, xzr
	mov	x22, xzr
.LBB34_59:
	mov	x24, xzr
	and	x11, x11, #0xff
	mov	w9, w9
	orr	x9, x11, x9, lsl #8
	orr	x21, x9, x10, lsl #16
	cbz	w8, .LBB34_52
.LBB34_60:
	lsr	x25, x23, #16
	lsr	x26, x23, #32
	cmp	w27, #12
	b.hi	.LBB34_71
	adrp	x8, .LJTI34_1
	add	x8, x8, :lo12:.LJTI34_1
	mov	w28, #11
	adr	x9, .LBB34_49
	ldrb	w10, [x8, x27]
	add	x9, x9, x10, lsl #2
	adrp	x27, .Lstatic.31
	add	x27, x27, :lo12:.Lstatic.31
	br	x9
.LBB34_62:
	adrp	x27, .Lstatic.32
	add	x27, x27, :lo12:.Lstatic.32
	b	.LBB34_39
.LBB34_63:
	adrp	x27, .Lstatic.42
	add	x27, x27, :lo12:.Lstatic.42
	mov	w28, #17
	b	.LBB34_49
.LBB34_64:
	adrp	x27, .Lstatic.35
	add	x27, x27, :lo12:.Lstatic.35
	mov	w28, #18
	b	.LBB34_49
.LBB34_65:
	adrp	x27, .Lstatic.43
	add	x27, x27, :lo12:.Lstatic.43
	mov	w28, #17
	b	.LBB34_49
.LBB34_66:
	adrp	x27, .Lstatic.40
	add	x27, x27, :lo12:.Lstatic.40
	mov	w28, #20
	b	.LBB34_49
.LBB34_67:
	adrp	x27, .Lstatic.33
	add	x27, x27, :lo12:.Lstatic.33
	mov	w28, #15
	b	.LBB34_49
.LBB34_68:
	adrp	x27, .Lstatic.34
	add	x27, x27, :lo12:.Lstatic.34
	mov	w28, #16
	b	.LBB34_49
.LBB34_69:
	adrp	x27, .Lstatic.38
	add	x27, x27, :lo12:.Lstatic.38
	mov	w28, #13
	b	.LBB34_49
.LBB34_70:
	adrp	x27, .Lstatic.36
	add	x27, x27, :lo12:.Lstatic.36
	b	.LBB34_39
.LBB34_71:
	adrp	x2, .Lstatic.19
	add	x2, x2, :lo12:.Lstatic.19
	mov	x0, x21
	mov	x1, x20
	mov	w3, #7
	bl	core.cmp.text.RefStrPartialEq.eq
.LBB34_72:
	mov	w8, #1
.LBB34_73:
	strb	w8, [x19]
	ldp	x28, x27, [sp, #64]
	stp	x21, x20, [x19, #8]
	ldp	x29, x30, [sp, #48]
	strh	w23, [x19, #24]
	strh	w25, [x19, #26]
	str	w26, [x19, #28]
	ldp	x26, x25, [sp, #80]
	stp	x22, x24, [x19, #32]
	ldp	x20, x19, [sp, #128]
	ldp	x22, x21, [sp, #112]
	ldp	x24, x23, [sp, #96]
	add	sp, sp, #144
	ret
.LBB34_74:
	adrp	x27, .Lstatic.37
	add	x27, x27, :lo12:.Lstatic.37
	mov	w28, #20
	b	.LBB34_49
.LBB34_75:
	adrp	x27, .Lstatic.41
	add	x27, x27, :lo12:.Lstatic.41
	mov	w28, #20
	b	.LBB34_49
.LBB34_76:
	adrp	x27, .Lstatic.39
	add	x27, x27, :lo12:.Lstatic.39
	mov	w28, #13
	b	.LBB34_49
.Lfunc_end34:
	.size	nla_wire.place.check_one.41ac5f0caeaa9df8, .Lfunc_end34-nla_wire.place.check_one.41ac5f0caeaa9df8
	.section	.rodata.nla_wire.place.check_one.41ac5f0caeaa9df8,"a",@progbits
.LJTI34_0:
	.byte	(.LBB34_2-.LBB34_2)>>2
	.byte	(.LBB34_34-.LBB34_2)>>2
	.byte	(.LBB34_19-.LBB34_2)>>2
	.byte	(.LBB34_21-.LBB34_2)>>2
	.byte	(.LBB34_13-.LBB34_2)>>2
	.byte	(.LBB34_36-.LBB34_2)>>2
	.byte	(.LBB34_40-.LBB34_2)>>2
	.byte	(.LBB34_23-.LBB34_2)>>2
	.byte	(.LBB34_45-.LBB34_2)>>2
	.byte	(.LBB34_17-.LBB34_2)>>2
	.byte	(.LBB34_42-.LBB34_2)>>2
	.byte	(.LBB34_4-.LBB34_2)>>2
	.byte	(.LBB34_15-.LBB34_2)>>2
.LJTI34_1:
	.byte	(.LBB34_49-.LBB34_49)>>2
	.byte	(.LBB34_62-.LBB34_49)>>2
	.byte	(.LBB34_67-.LBB34_49)>>2
	.byte	(.LBB34_68-.LBB34_49)>>2
	.byte	(.LBB34_64-.LBB34_49)>>2
	.byte	(.LBB34_70-.LBB34_49)>>2
	.byte	(.LBB34_74-.LBB34_49)>>2
	.byte	(.LBB34_69-.LBB34_49)>>2
	.byte	(.LBB34_76-.LBB34_49)>>2
	.byte	(.LBB34_66-.LBB34_49)>>2
	.byte	(.LBB34_75-.LBB34_49)>>2
	.byte	(.LBB34_63-.LBB34_49)>>2
	.byte	(.LBB34_65-.LBB34_49)>>2

	.section	.text.nla_wire.place.check_one.5361511d0f913a98,"ax",@progbits
	.p2align	2
	.type	nla_wire.place.check_one.5361511d0f913a98,@function
nla_wire.place.check_one.5361511d0f913a98:
	stp	x29, x30, [sp, #-64]!
	and	w10, w1, #0x3fff
	stp	x20, x19, [sp, #48]
	mov	x20, x2
	mov	x19, x0
	mov	w8, wzr
	cmp	w10, #3
	mov	x9, xzr
	stp	x24, x23, [sp, #16]
	mov	x29, sp
	stp	x22, x21, [sp, #32]
	b.gt	.LBB35_6
	cmp	w10, #1
	b.gt	.LBB35_11
	cbz	w10, .LBB35_19
	cmp	w10, #1
	mov	x10, x9
	mov	w11, w8
	mov	x12, x9
	mov	x13, x9
	b.ne	.LBB35_30
	cmp	x20, #8
	b.eq	.LBB35_26
	adrp	x22, .Lstatic.23
	add	x22, x22, :lo12:.Lstatic.23
	b	.LBB35_28
.LBB35_6:
	cmp	w10, #6
	b.gt	.LBB35_15
	cmp	w10, #4
	b.eq	.LBB35_21
	cmp	w10, #5
	mov	x10, x9
	mov	w11, w8
	mov	x12, x9
	mov	x13, x9
	b.ne	.LBB35_30
	cmp	x20, #8
	b.eq	.LBB35_26
	adrp	x22, .Lstatic.27
	add	x22, x22, :lo12:.Lstatic.27
	mov	w23, #23
	b	.LBB35_29
.LBB35_11:
	cmp	w10, #2
	b.eq	.LBB35_23
	cmp	w10, #3
	mov	x10, x9
	mov	w11, w8
	mov	x12, x9
	mov	x13, x9
	b.ne	.LBB35_30
	cmp	x20, #8
	b.eq	.LBB35_26
	adrp	x22, .Lstatic.25
	add	x22, x22, :lo12:.Lstatic.25
	mov	w23, #22
	b	.LBB35_29
.LBB35_15:
	cmp	w10, #7
	b.eq	.LBB35_25
	cmp	w10, #8
	mov	x10, x9
	mov	w11, w8
	mov	x12, x9
	mov	x13, x9
	b.ne	.LBB35_30
	cmp	x20, #8
	b.eq	.LBB35_26
	adrp	x22, .Lstatic.29
	add	x22, x22, :lo12:.Lstatic.29
	b	.LBB35_28
.LBB35_19:
	cmp	x20, #8
	b.eq	.LBB35_26
	adrp	x22, .Lstatic.22
	add	x22, x22, :lo12:.Lstatic.22
	b	.LBB35_28
.LBB35_21:
	cmp	x20, #8
	b.eq	.LBB35_26
	adrp	x22, .Lstatic.26
	add	x22, x22, :lo12:.Lstatic.26
	mov	w23, #23
	b	.LBB35_29
.LBB35_23:
	cmp	x20, #8
	b.eq	.LBB35_26
	adrp	x22, .Lstatic.24
	add	x22, x22, :lo12:.Lstatic.24
	mov	w23, #22
	b	.LBB35_29
.LBB35_25:
	cmp	x20, #8
	b.ne	.LBB35_27
.LBB35_26:
	mov	w8, wzr
	mov	x9, xzr
	mov	x10, xzr
	mov	w11, wzr
	mov	x12, xzr
	mov	x13, xzr
	b	.LBB35_30
.LBB35_27:
	adrp	x22, .Lstatic.28
	add	x22, x22, :lo12:.Lstatic.28
.LBB35_28:
	mov	w23, #24
.LBB35_29:
	adrp	x21, .Lstatic.19
	add	x21, x21, :lo12:.Lstatic.19
	mov	w1, #7
	mov	x0, x21
	mov	x2, x21
	mov	w3, #7
	mov	w24, #7
	bl	core.cmp.text.RefStrPartialEq.eq
	cmp	w0, #0
	mov	w11, #5
	mov	w8, #1
	csel	x9, x22, x21, ne
	csel	x10, x23, x24, ne
	mov	w13, #8
	mov	x12, x20
.LBB35_30:
	strb	w8, [x19]
	ldp	x22, x21, [sp, #32]
	stp	x9, x10, [x19, #8]
	ldp	x24, x23, [sp, #16]
	strh	w11, [x19, #24]
	strh	wzr, [x19, #26]
	str	wzr, [x19, #28]
	stp	x12, x13, [x19, #32]
	ldp	x20, x19, [sp, #48]
	ldp	x29, x30, [sp], #64
	ret
.Lfunc_end35:
	.size	nla_wire.place.check_one.5361511d0f913a98, .Lfunc_end35-nla_wire.place.check_one.5361511d0f913a98

	.section	.text.nla_wire.place.check_one.9a0187163d44de3c,"ax",@progbits
	.p2align	2
	.type	nla_wire.place.check_one.9a0187163d44de3c,@function
nla_wire.place.check_one.9a0187163d44de3c:
	stp	x29, x30, [sp, #-48]!
	and	w9, w1, #0x3fff
	stp	x20, x19, [sp, #32]
	mov	x19, x0
	mov	x8, xzr
	cmp	w9, #1
	mov	w9, wzr
	stp	x22, x21, [sp, #16]
	mov	x29, sp
	b.ne	.LBB36_3
	mov	x20, x2
	cmp	x2, #15
	mov	x10, x8
	mov	x12, x8
	mov	x11, x8
	b.hi	.LBB36_4
	adrp	x21, .Lstatic.19
	add	x21, x21, :lo12:.Lstatic.19
	mov	w1, #7
	mov	x0, x21
	mov	x2, x21
	mov	w3, #7
	mov	w22, #7
	bl	core.cmp.text.RefStrPartialEq.eq
	adrp	x8, .Lstatic.30
	add	x8, x8, :lo12:.Lstatic.30
	mov	w9, #17
	cmp	w0, #0
	mov	w11, #16
	mov	x12, x20
	csel	x8, x8, x21, ne
	csel	x10, x9, x22, ne
	mov	w9, #1
	b	.LBB36_4
.LBB36_3:
	mov	x10, x8
	mov	x12, x8
	mov	x11, x8
.LBB36_4:
	strb	w9, [x19]
	ldp	x22, x21, [sp, #16]
	stp	x8, x10, [x19, #8]
	stp	xzr, x12, [x19, #24]
	str	x11, [x19, #40]
	ldp	x20, x19, [sp, #32]
	ldp	x29, x30, [sp], #48
	ret
.Lfunc_end36:
	.size	nla_wire.place.check_one.9a0187163d44de3c, .Lfunc_end36-nla_wire.place.check_one.9a0187163d44de3c

	.section	.text.nla_wire.place.check_one.79503c7a397af21a,"ax",@progbits
	.p2align	2
	.type	nla_wire.place.check_one.79503c7a397af21a,@function
nla_wire.place.check_one.79503c7a397af21a:
	stp	x29, x30, [sp, #-80]!
	stp	x22, x21, [sp, #48]
	ldr	x21, [x1, #16]
	mov	x29, sp
	stp	x20, x19, [sp, #64]
	mov	x19, x0
	str	x25, [sp, #16]
	stp	x24, x23, [sp, #32]
	cbz	x21, .LBB37_7
	ldr	x8, [x1, #8]
	mov	x9, xzr
.LBB37_2:
	sub	x21, x21, x9
	cmp	x21, #4
	b.lo	.LBB37_8
	add	x8, x8, x9
	ldrh	w9, [x8]
	cmp	x21, x9
	b.lo	.LBB37_9
	cmp	w9, #3
	b.ls	.LBB37_10
	add	w9, w9, #3
	and	x9, x9, #0x1fffc
	cmp	x21, x9
	b.hi	.LBB37_2
	mov	w8, wzr
	mov	x20, xzr
	mov	x24, xzr
	mov	w22, wzr
	mov	w23, wzr
	mov	x21, xzr
	b	.LBB37_16
.LBB37_7:
	adrp	x20, .Lstatic.19
	add	x20, x20, :lo12:.Lstatic.19
	mov	w22, #4
	b	.LBB37_13
.LBB37_8:
	mov	w22, #1
	b	.LBB37_12
.LBB37_9:
	mov	w8, #2
	b	.LBB37_11
.LBB37_10:
	mov	w8, #3
	mov	x21, xzr
.LBB37_11:
	orr	x22, x8, x9, lsl #16
.LBB37_12:
	adrp	x20, .Lstatic.19
	add	x20, x20, :lo12:.Lstatic.19
.LBB37_13:
	ldrh	w25, [x1]
	adrp	x2, .Lstatic.19
	add	x2, x2, :lo12:.Lstatic.19
	mov	x0, x20
	mov	w1, #7
	mov	w3, #7
	lsr	x23, x22, #16
	mov	w24, #7
	bl	core.cmp.text.RefStrPartialEq.eq
	mov	w8, #1
	cbz	w0, .LBB37_16
	and	w9, w25, #0x3fff
	cmp	w9, #1
	b.ne	.LBB37_16
	adrp	x20, .Lstatic.45
	add	x20, x20, :lo12:.Lstatic.45
	and	w22, w22, #0xff
	mov	w24, #12
.LBB37_16:
	strb	w8, [x19]
	ldr	x25, [sp, #16]
	stp	x20, x24, [x19, #8]
	strh	w22, [x19, #24]
	strh	w23, [x19, #26]
	ldp	x24, x23, [sp, #32]
	str	wzr, [x19, #28]
	stp	x21, xzr, [x19, #32]
	ldp	x20, x19, [sp, #64]
	ldp	x22, x21, [sp, #48]
	ldp	x29, x30, [sp], #80
	ret
.Lfunc_end37:
	.size	nla_wire.place.check_one.79503c7a397af21a, .Lfunc_end37-nla_wire.place.check_one.79503c7a397af21a

	.section	.text.nla_wire.place.check_one.8ba1f663fcd59a5e,"ax",@progbits
	.p2align	2
	.type	nla_wire.place.check_one.8ba1f663fcd59a5e,@function
nla_wire.place.check_one.8ba1f663fcd59a5e:
	stp	x29, x30, [sp, #-80]!
	and	w10, w1, #0x3fff
	stp	x20, x19, [sp, #64]
	mov	x20, x2
	mov	x19, x0
	mov	w8, wzr
	cmp	w10, #4
	mov	x9, xzr
	str	x25, [sp, #16]
	mov	x29, sp
	stp	x24, x23, [sp, #32]
	stp	x22, x21, [sp, #48]
	b.gt	.LBB38_6
	cmp	w10, #2
	b.gt	.LBB38_11
	cmp	w10, #1
	b.eq	.LBB38_19
	cmp	w10, #2
	mov	x10, x9
	mov	w11, w8
	mov	x12, x9
	mov	x22, x9
	b.ne	.LBB38_30
	cmp	x20, #1
	b.eq	.LBB38_26
	adrp	x23, .Lstatic.47
	add	x23, x23, :lo12:.Lstatic.47
	mov	w24, #17
	mov	w22, #1
	b	.LBB38_29
.LBB38_6:
	cmp	w10, #6
	b.gt	.LBB38_15
	cmp	w10, #5
	b.eq	.LBB38_21
	cmp	w10, #6
	mov	x10, x9
	mov	w11, w8
	mov	x12, x9
	mov	x22, x9
	b.ne	.LBB38_30
	cmp	x20, #4
	b.eq	.LBB38_26
	adrp	x23, .Lstatic.51
	add	x23, x23, :lo12:.Lstatic.51
	mov	w24, #20
	b	.LBB38_28
.LBB38_11:
	cmp	w10, #3
	b.eq	.LBB38_23
	cmp	w10, #4
	mov	x10, x9
	mov	w11, w8
	mov	x12, x9
	mov	x22, x9
	b.ne	.LBB38_30
	cmp	x20, #4
	b.eq	.LBB38_26
	adrp	x23, .Lstatic.49
	add	x23, x23, :lo12:.Lstatic.49
	mov	w24, #16
	b	.LBB38_28
.LBB38_15:
	cmp	w10, #7
	b.eq	.LBB38_25
	cmp	w10, #8
	mov	x10, x9
	mov	w11, w8
	mov	x12, x9
	mov	x22, x9
	b.ne	.LBB38_30
	cmp	x20, #4
	b.eq	.LBB38_26
	adrp	x23, .Lstatic.53
	add	x23, x23, :lo12:.Lstatic.53
	mov	w24, #20
	b	.LBB38_28
.LBB38_19:
	cmp	x20, #4
	b.eq	.LBB38_26
	adrp	x23, .Lstatic.46
	add	x23, x23, :lo12:.Lstatic.46
	mov	w24, #11
	b	.LBB38_28
.LBB38_21:
	cmp	x20, #4
	b.eq	.LBB38_26
	adrp	x23, .Lstatic.50
	add	x23, x23, :lo12:.Lstatic.50
	mov	w24, #20
	b	.LBB38_28
.LBB38_23:
	cmp	x20, #4
	b.eq	.LBB38_26
	adrp	x23, .Lstatic.48
	add	x23, x23, :lo12:.Lstatic.48
	mov	w24, #14
	b	.LBB38_28
.LBB38_25:
	cmp	x20, #4
	b.ne	.LBB38_27
.LBB38_26:
	mov	w8, wzr
	mov	x9, xzr
	mov	x10, xzr
	mov	w11, wzr
	mov	x12, xzr
	mov	x22, xzr
	b	.LBB38_30
.LBB38_27:
	adrp	x23, .Lstatic.52
	add	x23, x23, :lo12:.Lstatic.52
	mov	w24, #19
.LBB38_28:
	mov	w22, #4
.LBB38_29:
	adrp	x21, .Lstatic.19
	add	x21, x21, :lo12:.Lstatic.19
	mov	w1, #7
	mov	x0, x21
	mov	x2, x21
	mov	w3, #7
	mov	w25, #7
	bl	core.cmp.text.RefStrPartialEq.eq
	cmp	w0, #0
	mov	w11, #5
	mov	w8, #1
	csel	x9, x23, x21, ne
	csel	x10, x24, x25, ne
	mov	x12, x20
.LBB38_30:
	strb	w8, [x19]
	ldp	x24, x23, [sp, #32]
	stp	x9, x10, [x19, #8]
	ldr	x25, [sp, #16]
	strh	w11, [x19, #24]
	strh	wzr, [x19, #26]
	str	wzr, [x19, #28]
	stp	x12, x22, [x19, #32]
	ldp	x20, x19, [sp, #64]
	ldp	x22, x21, [sp, #48]
	ldp	x29, x30, [sp], #80
	ret
.Lfunc_end38:
	.size	nla_wire.place.check_one.8ba1f663fcd59a5e, .Lfunc_end38-nla_wire.place.check_one.8ba1f663fcd59a5e

	.section	.text.nla_wire.place.check_one.b30b196c481b950e,"ax",@progbits
	.p2align	2
	.type	nla_wire.place.check_one.b30b196c481b950e,@function
nla_wire.place.check_one.b30b196c481b950e:
	sub	sp, sp, #144
	movi	v0.2d, #0000000000000000
	ldrh	w8, [x1]
	stp	x20, x19, [sp, #128]
	mov	x19, x0
	stp	x29, x30, [sp, #48]
	add	x29, sp, #48
	and	w8, w8, #0x3fff
	stp	x28, x27, [sp, #64]
	cmp	w8, #53
	stp	x26, x25, [sp, #80]
	stp	x24, x23, [sp, #96]
	stp	x22, x21, [sp, #112]
	stp	q0, q0, [sp, #16]
	str	q0, [sp]
	b.ne	.LBB39_5
	mov	x22, x1
	ldr	x1, [x1, #8]
	mov	x0, sp
	ldr	x2, [x22, #16]
	bl	nla_wire.text.check_string
	ldrb	w23, [sp]
	cbz	w23, .LBB39_6
	ldp	x20, x21, [sp, #8]
	adrp	x2, .Lstatic.19
	add	x2, x2, :lo12:.Lstatic.19
	ldp	x27, x28, [sp, #32]
	ldrh	w24, [sp, #24]
	ldrh	w25, [sp, #26]
	mov	w3, #7
	ldr	w26, [sp, #28]
	ldrh	w22, [x22]
	mov	x0, x20
	mov	x1, x21
	bl	core.cmp.text.RefStrPartialEq.eq
	cbz	w0, .LBB39_7
	and	w8, w22, #0x3fff
	cmp	w8, #53
	b.ne	.LBB39_7
	mov	w26, wzr
	and	w24, w24, #0xff
	adrp	x20, .Lstatic.54
	add	x20, x20, :lo12:.Lstatic.54
	mov	w21, #15
	b	.LBB39_7
.LBB39_5:
	mov	w23, wzr
.LBB39_6:
	mov	x20, xzr
	mov	x21, xzr
	mov	w24, wzr
	mov	w25, wzr
	mov	w26, wzr
	mov	x27, xzr
	mov	x28, xzr
.LBB39_7:
	strb	w23, [x19]
	ldp	x29, x30, [sp, #48]
	stp	x20, x21, [x19, #8]
	ldp	x22, x21, [sp, #112]
	strh	w24, [x19, #24]
	ldp	x24, x23, [sp, #96]
	strh	w25, [x19, #26]
	str	w26, [x19, #28]
	ldp	x26, x25, [sp, #80]
	stp	x27, x28, [x19, #32]
	ldp	x20, x19, [sp, #128]
	ldp	x28, x27, [sp, #64]
	add	sp, sp, #144
	ret
.Lfunc_end39:
	.size	nla_wire.place.check_one.b30b196c481b950e, .Lfunc_end39-nla_wire.place.check_one.b30b196c481b950e

	.section	.text.nla_wire.place.check_one.f7f30aae703aa44d,"ax",@progbits
	.p2align	2
	.type	nla_wire.place.check_one.f7f30aae703aa44d,@function
nla_wire.place.check_one.f7f30aae703aa44d:
	stp	x29, x30, [sp, #-64]!
	str	x23, [sp, #16]
	and	w23, w1, #0x3fff
	mov	x29, sp
	cmp	w23, #2
	stp	x22, x21, [sp, #32]
	stp	x20, x19, [sp, #48]
	b.eq	.LBB40_2
	cmp	w23, #1
	b.ne	.LBB40_3
.LBB40_2:
	cmp	x2, #4
	b.ne	.LBB40_4
.LBB40_3:
	mov	w8, wzr
	mov	x19, xzr
	mov	x20, xzr
	mov	w9, wzr
	mov	x21, xzr
	mov	x10, xzr
	b	.LBB40_7
.LBB40_4:
	adrp	x19, .Lstatic.19
	add	x19, x19, :lo12:.Lstatic.19
	mov	x21, x2
	mov	x22, x0
	mov	x0, x19
	mov	w1, #7
	mov	x2, x19
	mov	w3, #7
	mov	w20, #7
	bl	core.cmp.text.RefStrPartialEq.eq
	cbz	w0, .LBB40_6
	cmp	w23, #1
	mov	w8, #27
	adrp	x9, .Lstatic.56
	add	x9, x9, :lo12:.Lstatic.56
	cinc	x20, x8, ne
	adrp	x8, .Lstatic.55
	add	x8, x8, :lo12:.Lstatic.55
	csel	x19, x8, x9, eq
.LBB40_6:
	mov	w9, #5
	mov	w8, #1
	mov	w10, #4
	mov	x0, x22
.LBB40_7:
	stp	x19, x20, [x0, #8]
	ldp	x20, x19, [sp, #48]
	stp	x21, x10, [x0, #32]
	ldr	x23, [sp, #16]
	ldp	x22, x21, [sp, #32]
	strb	w8, [x0]
	strh	w9, [x0, #24]
	strh	wzr, [x0, #26]
	str	wzr, [x0, #28]
	ldp	x29, x30, [sp], #64
	ret
.Lfunc_end40:
	.size	nla_wire.place.check_one.f7f30aae703aa44d, .Lfunc_end40-nla_wire.place.check_one.f7f30aae703aa44d

	.section	.text.nla_wire.place.check_one.16a873d75d6df2a1,"ax",@progbits
	.p2align	2
	.type	nla_wire.place.check_one.16a873d75d6df2a1,@function
nla_wire.place.check_one.16a873d75d6df2a1:
	sub	sp, sp, #192
	movi	v0.2d, #0000000000000000
	ldrh	w8, [x1]
	ldr	x2, [x1, #16]
	stp	x20, x19, [sp, #176]
	mov	x20, x1
	mov	x19, x0
	and	w8, w8, #0x3fff
	stp	x29, x30, [sp, #96]
	add	x29, sp, #96
	cmp	w8, #3
	stp	x28, x27, [sp, #112]
	stp	x26, x25, [sp, #128]
	stp	x24, x23, [sp, #144]
	stp	x22, x21, [sp, #160]
	stp	q0, q0, [sp, #16]
	str	q0, [sp]
	b.eq	.LBB41_8
	ldr	x1, [x20, #8]
	cmp	w8, #2
	b.eq	.LBB41_3
	cmp	w8, #1
	b.ne	.LBB41_4
.LBB41_3:
	mov	x0, sp
	bl	nla_wire.text.check_string
.LBB41_4:
	ldrb	w23, [sp]
	cbz	w23, .LBB41_12
.LBB41_5:
	ldp	x21, x22, [sp, #8]
	adrp	x2, .Lstatic.19
	add	x2, x2, :lo12:.Lstatic.19
	ldrh	w8, [x20]
	ldrh	w20, [sp, #24]
	ldp	x26, x27, [sp, #32]
	mov	w3, #7
	ldrh	w24, [sp, #26]
	ldr	w25, [sp, #28]
	and	w8, w8, #0x3fff
	mov	x0, x21
	mov	x1, x22
	sub	w28, w8, #1
	bl	core.cmp.text.RefStrPartialEq.eq
	cmp	w28, #2
	b.hi	.LBB41_13
	cbz	w0, .LBB41_13
	adrp	x8, .Lswitch.table.nla_wire.place.check_one.16a873d75d6df2a1..307.rel
	add	x8, x8, :lo12:.Lswitch.table.nla_wire.place.check_one.16a873d75d6df2a1..307.rel
	adrp	x10, .Lswitch.table.nla_wire.place.check_one.16a873d75d6df2a1
	add	x10, x10, :lo12:.Lswitch.table.nla_wire.place.check_one.16a873d75d6df2a1
	ldrsw	x9, [x8, w28, sxtw #2]
	mov	w25, wzr
	ldr	x22, [x10, w28, sxtw #3]
	and	w20, w20, #0xff
	add	x21, x8, x9
	b	.LBB41_13
.LBB41_8:
	cmp	x2, #4
	b.ne	.LBB41_10
	add	x8, sp, #48
	mov	w23, wzr
	stur	q0, [sp, #79]
	orr	x8, x8, #0x7
	stp	q0, q0, [sp, #48]
	b	.LBB41_11
.LBB41_10:
	adrp	x8, .Lstatic.19
	add	x8, x8, :lo12:.Lstatic.19
	str	xzr, [sp, #48]
	stur	x8, [sp, #55]
	mov	w8, #7
	mov	w9, #4
	stur	x8, [sp, #63]
	mov	w8, #5
	mov	w23, #1
	stur	x8, [sp, #71]
	add	x8, sp, #48
	stur	x2, [sp, #79]
	orr	x8, x8, #0x7
	stur	x9, [sp, #87]
.LBB41_11:
	ldp	q0, q1, [x8]
	ldr	x8, [x8, #32]
	str	x8, [sp, #40]
	stur	q0, [sp, #8]
	stur	q1, [sp, #24]
	cbnz	w23, .LBB41_5
.LBB41_12:
	mov	x21, xzr
	mov	x22, xzr
	mov	w20, wzr
	mov	w24, wzr
	mov	w25, wzr
	mov	x26, xzr
	mov	x27, xzr
.LBB41_13:
	strb	w23, [x19]
	ldp	x29, x30, [sp, #96]
	stp	x21, x22, [x19, #8]
	ldp	x22, x21, [sp, #160]
	strh	w20, [x19, #24]
	strh	w24, [x19, #26]
	ldp	x24, x23, [sp, #144]
	str	w25, [x19, #28]
	stp	x26, x27, [x19, #32]
	ldp	x20, x19, [sp, #176]
	ldp	x26, x25, [sp, #128]
	ldp	x28, x27, [sp, #112]
	add	sp, sp, #192
	ret
.Lfunc_end41:
	.size	nla_wire.place.check_one.16a873d75d6df2a1, .Lfunc_end41-nla_wire.place.check_one.16a873d75d6df2a1

	.section	.text.nla_wire.place.check_one.5fa77b269143286c,"ax",@progbits
	.p2align	2
	.type	nla_wire.place.check_one.5fa77b269143286c,@function
nla_wire.place.check_one.5fa77b269143286c:
	stp	x29, x30, [sp, #-48]!
	and	w9, w1, #0x3fff
	stp	x20, x19, [sp, #32]
	mov	x19, x0
	mov	w8, wzr
	cmp	w9, #1
	mov	x9, xzr
	stp	x22, x21, [sp, #16]
	mov	x29, sp
	b.ne	.LBB42_3
	mov	x20, x2
	cmp	x2, #4
	mov	x11, x9
	mov	w10, w8
	mov	x13, x9
	mov	x12, x9
	b.eq	.LBB42_4
	adrp	x21, .Lstatic.19
	add	x21, x21, :lo12:.Lstatic.19
	mov	w1, #7
	mov	x0, x21
	mov	x2, x21
	mov	w3, #7
	mov	w22, #7
	bl	core.cmp.text.RefStrPartialEq.eq
	adrp	x8, .Lstatic.60
	add	x8, x8, :lo12:.Lstatic.60
	mov	w11, #13
	cmp	w0, #0
	mov	w10, #5
	mov	w12, #4
	csel	x9, x8, x21, ne
	csel	x11, x11, x22, ne
	mov	w8, #1
	mov	x13, x20
	b	.LBB42_4
.LBB42_3:
	mov	x11, x9
	mov	w10, w8
	mov	x13, x9
	mov	x12, x9
.LBB42_4:
	strb	w8, [x19]
	ldp	x22, x21, [sp, #16]
	stp	x9, x11, [x19, #8]
	strh	w10, [x19, #24]
	strh	wzr, [x19, #26]
	str	wzr, [x19, #28]
	stp	x13, x12, [x19, #32]
	ldp	x20, x19, [sp, #32]
	ldp	x29, x30, [sp], #48
	ret
.Lfunc_end42:
	.size	nla_wire.place.check_one.5fa77b269143286c, .Lfunc_end42-nla_wire.place.check_one.5fa77b269143286c

	.section	.text.nla_wire.place.check_one.6cf1decf0b22dc4b,"ax",@progbits
	.p2align	2
	.type	nla_wire.place.check_one.6cf1decf0b22dc4b,@function
nla_wire.place.check_one.6cf1decf0b22dc4b:
	sub	sp, sp, #144
	ldrh	w8, [x1]
	stp	x22, x21, [sp, #112]
	ldp	x21, x22, [x1, #8]
	stp	x24, x23, [sp, #96]
	and	w23, w8, #0x3fff
	stp	x20, x19, [sp, #128]
	mov	x19, x0
	cmp	w23, #45
	stp	x29, x30, [sp, #48]
	add	x29, sp, #48
	stp	x28, x27, [sp, #64]
	stp	x26, x25, [sp, #80]
	b.eq	.LBB43_27
	cmp	w23, #10
	b.eq	.LBB43_10
	cmp	w23, #2
	b.ne	.LBB43_9
	cbz	x22, .LBB43_40
	mov	x8, xzr
.LBB43_5:
	sub	x22, x22, x8
	cmp	x22, #4
	b.lo	.LBB43_54
	add	x21, x21, x8
	ldrh	w8, [x21]
	cmp	x22, x8
	b.lo	.LBB43_55
	cmp	w8, #3
	b.ls	.LBB43_56
	add	w8, w8, #3
	and	x8, x8, #0x1fffc
	cmp	x22, x8
	b.hi	.LBB43_5
.LBB43_9:
	mov	w8, wzr
	b	.LBB43_53
.LBB43_10:
	adrp	x20, .Lstatic.19
	add	x20, x20, :lo12:.Lstatic.19
	cbz	x22, .LBB43_38
	movi	v0.2d, #0000000000000000
	mov	x8, xzr
	stp	q0, q0, [sp, #16]
	str	q0, [sp]
	b	.LBB43_14
.LBB43_12:
	mov	x0, sp
	sub	x2, x24, #4
	bl	nla_wire.place.check_one.97809315b2b26985
	ldrb	w8, [sp]
	cbnz	w8, .LBB43_65
.LBB43_13:
	add	w8, w24, #3
	and	x8, x8, #0x1fffc
	cmp	x22, x8
	b.ls	.LBB43_52
.LBB43_14:
	sub	x22, x22, x8
	cmp	x22, #4
	b.lo	.LBB43_42
	add	x21, x21, x8
	ldrh	w24, [x21]
	cmp	x22, x24
	b.lo	.LBB43_43
	cmp	w24, #3
	b.ls	.LBB43_44
	ldrh	w1, [x21, #2]
	sub	x8, x24, #4
	and	w9, w1, #0x3fff
	cmp	w9, #6
	b.le	.LBB43_21
	cmp	w9, #7
	b.eq	.LBB43_25
	cmp	w9, #8
	b.eq	.LBB43_26
	cmp	w9, #9
	b.eq	.LBB43_24
	b	.LBB43_13
.LBB43_21:
	cmp	w9, #1
	b.eq	.LBB43_24
	cmp	w9, #5
	b.ne	.LBB43_13
	cmp	w24, #19
	b.ls	.LBB43_12
	b	.LBB43_13
.LBB43_24:
	cmp	x8, #4
	b.ne	.LBB43_12
	b	.LBB43_13
.LBB43_25:
	cmp	x8, #16
	b.eq	.LBB43_13
	b	.LBB43_12
.LBB43_26:
	cmp	x8, #1
	b.ne	.LBB43_12
	b	.LBB43_13
.LBB43_27:
	adrp	x20, .Lstatic.19
	add	x20, x20, :lo12:.Lstatic.19
	cbz	x22, .LBB43_39
	movi	v0.2d, #0000000000000000
	mov	x8, xzr
	stp	q0, q0, [sp, #16]
	str	q0, [sp]
	b	.LBB43_31
.LBB43_29:
	mov	x0, sp
	sub	x2, x24, #4
	bl	nla_wire.place.check_one.7562298f77a88fdb
	ldrb	w8, [sp]
	cbnz	w8, .LBB43_65
.LBB43_30:
	add	w8, w24, #3
	and	x8, x8, #0x1fffc
	cmp	x22, x8
	b.ls	.LBB43_52
.LBB43_31:
	sub	x22, x22, x8
	cmp	x22, #4
	b.lo	.LBB43_42
	add	x21, x21, x8
	ldrh	w24, [x21]
	cmp	x22, x24
	b.lo	.LBB43_43
	cmp	w24, #3
	b.ls	.LBB43_44
	ldrh	w1, [x21, #2]
	sub	x8, x24, #4
	and	w9, w1, #0x3fff
	cmp	w9, #1
	b.eq	.LBB43_37
	cmp	w9, #2
	b.ne	.LBB43_30
	cmp	x8, #1
	b.ne	.LBB43_29
	b	.LBB43_30
.LBB43_37:
	cmp	x8, #4
	b.eq	.LBB43_30
	b	.LBB43_29
.LBB43_38:
	mov	w27, wzr
	mov	x25, xzr
	mov	w26, wzr
	adrp	x23, .Lstatic.73
	add	x23, x23, :lo12:.Lstatic.73
	mov	w24, #4
	mov	w28, #8
	mov	w21, #7
	b	.LBB43_61
.LBB43_39:
	mov	w27, wzr
	mov	x25, xzr
	mov	w26, wzr
	adrp	x23, .Lstatic.74
	add	x23, x23, :lo12:.Lstatic.74
	b	.LBB43_41
.LBB43_40:
	mov	w27, wzr
	mov	x25, xzr
	mov	w26, wzr
	adrp	x23, .Lstatic.72
	add	x23, x23, :lo12:.Lstatic.72
	adrp	x20, .Lstatic.19
	add	x20, x20, :lo12:.Lstatic.19
.LBB43_41:
	mov	w24, #4
	mov	w21, #7
	b	.LBB43_60
.LBB43_42:
	mov	w24, #1
	b	.LBB43_45
.LBB43_43:
	mov	w8, #2
	orr	x24, x8, x24, lsl #16
	b	.LBB43_45
.LBB43_44:
	mov	w8, #3
	mov	x22, xzr
	orr	x24, x8, x24, lsl #16
.LBB43_45:
	mov	x25, xzr
	lsr	x9, x20, #16
	ubfx	w10, w20, #8, #8
	mov	w8, #1
	mov	w21, #7
	and	x11, x20, #0xff
	mov	w10, w10
	orr	x10, x11, x10, lsl #8
	orr	x20, x10, x9, lsl #16
	cbz	w8, .LBB43_53
.LBB43_46:
	lsr	x26, x24, #32
	lsr	x27, x24, #16
	cmp	w23, #2
	b.eq	.LBB43_59
.LBB43_47:
	cmp	w23, #45
	b.eq	.LBB43_50
	cmp	w23, #10
	b.ne	.LBB43_51
	adrp	x23, .Lstatic.73
	add	x23, x23, :lo12:.Lstatic.73
	mov	w28, #8
	b	.LBB43_61
.LBB43_50:
	adrp	x23, .Lstatic.74
	add	x23, x23, :lo12:.Lstatic.74
	b	.LBB43_60
.LBB43_51:
	adrp	x2, .Lstatic.19
	add	x2, x2, :lo12:.Lstatic.19
	mov	x0, x20
	mov	x1, x21
	mov	w3, #7
	bl	core.cmp.text.RefStrPartialEq.eq
	mov	w8, #1
	b	.LBB43_64
.LBB43_52:
	mov	w20, wzr
	mov	w8, wzr
	mov	x21, xzr
	mov	x24, xzr
	mov	x22, xzr
	mov	x25, xzr
	and	x11, x20, #0xff
	mov	w10, wzr
	orr	x10, x11, x10, lsl #8
	orr	x20, x10, xzr, lsl #16
.LBB43_53:
	mov	x20, xzr
	mov	x21, xzr
	mov	w24, wzr
	mov	w27, wzr
	mov	w26, wzr
	mov	x22, xzr
	mov	x25, xzr
	b	.LBB43_64
.LBB43_54:
	mov	w24, #1
	b	.LBB43_58
.LBB43_55:
	mov	w9, #2
	b	.LBB43_57
.LBB43_56:
	mov	w9, #3
	mov	x22, xzr
.LBB43_57:
	orr	x24, x9, x8, lsl #16
.LBB43_58:
	mov	w26, wzr
	mov	x25, xzr
	mov	w21, #7
	adrp	x20, .Lstatic.19
	add	x20, x20, :lo12:.Lstatic.19
	lsr	x27, x24, #16
	cmp	w23, #2
	b.ne	.LBB43_47
.LBB43_59:
	adrp	x23, .Lstatic.72
	add	x23, x23, :lo12:.Lstatic.72
.LBB43_60:
	mov	w28, #7
.LBB43_61:
	adrp	x2, .Lstatic.19
	add	x2, x2, :lo12:.Lstatic.19
	mov	x0, x20
	mov	x1, x21
	mov	w3, #7
	bl	core.cmp.text.RefStrPartialEq.eq
	cbz	w0, .LBB43_63
	mov	w26, wzr
	and	w24, w24, #0xff
	mov	w8, #1
	mov	x20, x23
	mov	x21, x28
	b	.LBB43_64
.LBB43_63:
	mov	w8, #1
.LBB43_64:
	strb	w8, [x19]
	ldp	x29, x30, [sp, #48]
	stp	x20, x21, [x19, #8]
	strh	w24, [x19, #24]
	ldp	x24, x23, [sp, #96]
	strh	w27, [x19, #26]
	ldp	x28, x27, [sp, #64]
	str	w26, [x19, #28]
	stp	x22, x25, [x19, #32]
	ldp	x20, x19, [sp, #128]
	ldp	x22, x21, [sp, #112]
	ldp	x26, x25, [sp, #80]
	add	sp, sp, #144
	ret
.LBB43_65:
	ldrh	w8, [sp, #14]
	ldur	w9, [sp, #10]
	ldrb	w20, [sp, #8]
	ldp	x21, x24, [sp, #16]
	ldrb	w10, [sp, #9]
	orr	x9, x9, x8, lsl #32
	mov	w8, #1
	ldp	x22, x25, [sp, #32]
	and	x11, x20, #0xff
	mov	w10, w10
	orr	x10, x11, x10, lsl #8
	orr	x20, x10, x9, lsl #16
	cbnz	w8, .LBB43_46
	b	.LBB43_53
.Lfunc_end43:
	.size	nla_wire.place.check_one.6cf1decf0b22dc4b, .Lfunc_end43-nla_wire.place.check_one.6cf1decf0b22dc4b

	.section	.text.nla_wire.place.check_one.97809315b2b26985,"ax",@progbits
	.p2align	2
	.type	nla_wire.place.check_one.97809315b2b26985,@function
nla_wire.place.check_one.97809315b2b26985:
	stp	x29, x30, [sp, #-80]!
	and	w10, w1, #0x3fff
	stp	x20, x19, [sp, #64]
	mov	x20, x2
	mov	x19, x0
	mov	w8, wzr
	cmp	w10, #6
	mov	x9, xzr
	stp	x26, x25, [sp, #16]
	mov	x29, sp
	stp	x24, x23, [sp, #32]
	stp	x22, x21, [sp, #48]
	b.le	.LBB44_6
	cmp	w10, #7
	b.eq	.LBB44_10
	cmp	w10, #8
	b.eq	.LBB44_12
	cmp	w10, #9
	mov	x10, x9
	mov	w22, w8
	mov	x11, x9
	mov	x23, x9
	b.ne	.LBB44_19
	cmp	x20, #4
	b.eq	.LBB44_15
	adrp	x24, .Lstatic.69
	add	x24, x24, :lo12:.Lstatic.69
	mov	w22, #5
	mov	w25, #17
	b	.LBB44_17
.LBB44_6:
	cmp	w10, #1
	b.eq	.LBB44_14
	cmp	w10, #5
	mov	x10, x9
	mov	w22, w8
	mov	x11, x9
	mov	x23, x9
	b.ne	.LBB44_19
	cmp	x20, #16
	b.hs	.LBB44_15
	mov	w22, wzr
	adrp	x24, .Lstatic.63
	add	x24, x24, :lo12:.Lstatic.63
	mov	w25, #20
	mov	w23, #16
	b	.LBB44_18
.LBB44_10:
	cmp	x20, #16
	b.eq	.LBB44_15
	adrp	x24, .Lstatic.67
	add	x24, x24, :lo12:.Lstatic.67
	mov	w22, #5
	mov	w23, #16
	mov	w25, #16
	b	.LBB44_18
.LBB44_12:
	cmp	x20, #1
	b.eq	.LBB44_15
	adrp	x24, .Lstatic.68
	add	x24, x24, :lo12:.Lstatic.68
	mov	w22, #5
	mov	w25, #24
	mov	w23, #1
	b	.LBB44_18
.LBB44_14:
	cmp	x20, #4
	b.ne	.LBB44_16
.LBB44_15:
	mov	w8, wzr
	mov	x9, xzr
	mov	x10, xzr
	mov	w22, wzr
	mov	x11, xzr
	mov	x23, xzr
	b	.LBB44_19
.LBB44_16:
	adrp	x24, .Lstatic.62
	add	x24, x24, :lo12:.Lstatic.62
	mov	w22, #5
	mov	w25, #16
.LBB44_17:
	mov	w23, #4
.LBB44_18:
	adrp	x21, .Lstatic.19
	add	x21, x21, :lo12:.Lstatic.19
	mov	w1, #7
	mov	x0, x21
	mov	x2, x21
	mov	w3, #7
	mov	w26, #7
	bl	core.cmp.text.RefStrPartialEq.eq
	cmp	w0, #0
	mov	w8, #1
	mov	x11, x20
	csel	x9, x24, x21, ne
	csel	x10, x25, x26, ne
.LBB44_19:
	strb	w8, [x19]
	ldp	x26, x25, [sp, #16]
	stp	x9, x10, [x19, #8]
	strh	w22, [x19, #24]
	ldp	x22, x21, [sp, #48]
	strh	wzr, [x19, #26]
	str	wzr, [x19, #28]
	stp	x11, x23, [x19, #32]
	ldp	x20, x19, [sp, #64]
	ldp	x24, x23, [sp, #32]
	ldp	x29, x30, [sp], #80
	ret
.Lfunc_end44:
	.size	nla_wire.place.check_one.97809315b2b26985, .Lfunc_end44-nla_wire.place.check_one.97809315b2b26985

	.section	.text.nla_wire.place.check_one.7562298f77a88fdb,"ax",@progbits
	.p2align	2
	.type	nla_wire.place.check_one.7562298f77a88fdb,@function
nla_wire.place.check_one.7562298f77a88fdb:
	stp	x29, x30, [sp, #-64]!
	stp	x24, x23, [sp, #16]
	and	w24, w1, #0x3fff
	mov	x29, sp
	cmp	w24, #2
	stp	x22, x21, [sp, #32]
	stp	x20, x19, [sp, #48]
	b.eq	.LBB45_4
	cmp	w24, #1
	b.ne	.LBB45_5
	cmp	x2, #4
	b.eq	.LBB45_5
	mov	x21, x2
	mov	x22, x0
	mov	w20, #4
	b	.LBB45_7
.LBB45_4:
	cmp	x2, #1
	b.ne	.LBB45_6
.LBB45_5:
	mov	w8, wzr
	mov	x19, xzr
	mov	x23, xzr
	mov	w9, wzr
	mov	x21, xzr
	mov	x20, xzr
	b	.LBB45_10
.LBB45_6:
	mov	x21, x2
	mov	x22, x0
	mov	w20, #1
.LBB45_7:
	adrp	x19, .Lstatic.19
	add	x19, x19, :lo12:.Lstatic.19
	mov	w1, #7
	mov	x0, x19
	mov	x2, x19
	mov	w3, #7
	mov	w23, #7
	bl	core.cmp.text.RefStrPartialEq.eq
	cbz	w0, .LBB45_9
	cmp	w24, #1
	mov	w8, #22
	mov	w9, #13
	adrp	x10, .Lstatic.71
	add	x10, x10, :lo12:.Lstatic.71
	csel	x23, x9, x8, eq
	adrp	x8, .Lstatic.70
	add	x8, x8, :lo12:.Lstatic.70
	csel	x19, x8, x10, eq
.LBB45_9:
	mov	w9, #5
	mov	w8, #1
	mov	x0, x22
.LBB45_10:
	stp	x19, x23, [x0, #8]
	ldp	x24, x23, [sp, #16]
	stp	x21, x20, [x0, #32]
	ldp	x20, x19, [sp, #48]
	strb	w8, [x0]
	ldp	x22, x21, [sp, #32]
	strh	w9, [x0, #24]
	strh	wzr, [x0, #26]
	str	wzr, [x0, #28]
	ldp	x29, x30, [sp], #64
	ret
.Lfunc_end45:
	.size	nla_wire.place.check_one.7562298f77a88fdb, .Lfunc_end45-nla_wire.place.check_one.7562298f77a88fdb

	.section	.text.nla_wire.members.write_each.c4c48bc1b6cb0726,"ax",@progbits
	.p2align	2
	.type	nla_wire.members.write_each.c4c48bc1b6cb0726,@function
nla_wire.members.write_each.c4c48bc1b6cb0726:
	sub	sp, sp, #160
	stp	x29, x30, [sp, #64]
	add	x29, sp, #64
	stp	x28, x27, [sp, #80]
	stp	x26, x25, [sp, #96]
	stp	x24, x23, [sp, #112]
	stp	x22, x21, [sp, #128]
	stp	x20, x19, [sp, #144]
	stur	w0, [x29, #-28]
	cbz	x2, .LBB46_248
	add	x8, x3, #4
	mov	x21, x2
	mov	x23, x1
	stur	x8, [x29, #-24]
	add	x8, x3, #20
	mov	x26, xzr
	str	x8, [sp, #24]
	add	x8, x3, #28
	mov	x28, xzr
	str	x8, [sp, #8]
	add	x8, x3, #12
	str	x8, [sp, #16]
	stp	x3, x4, [x29, #-16]
	b	.LBB46_4
.LBB46_2:
	ldrb	w8, [x10]
	mov	w9, #5
	strh	w19, [x27, #2]
	strh	w9, [x27]
	strb	w8, [x27, #4]
	mov	w8, #8
	sturh	wzr, [x27, #5]
	strb	wzr, [x27, #7]
.LBB46_3:
	cmp	x21, x28
	add	x26, x8, x26
	b.ls	.LBB46_248
.LBB46_4:
	sub	x21, x21, x28
	cmp	x21, #4
	b.lo	.LBB46_248
	mov	x8, x23
	add	x23, x23, x28
	mov	x9, x28
	ldrh	w25, [x23]
	cmp	w25, #4
	b.lo	.LBB46_248
	cmp	x21, x25
	b.lo	.LBB46_248
	ldrb	w22, [x23, #2]
	ldrb	w20, [x23, #3]
	add	w12, w25, #3
	add	x10, x23, #4
	sub	x24, x25, #4
	and	x28, x12, #0x1fffc
	mov	w19, w22
	add	x27, x3, x26
	bfi	w19, w20, #8, #6
	sub	w11, w19, #1
	cmp	w11, #68
	b.hi	.LBB46_54
	adrp	x12, .LJTI46_0
	add	x12, x12, :lo12:.LJTI46_0
	adr	x13, .LBB46_2
	ldrh	w14, [x12, x11, lsl #1]
	add	x13, x13, x14, lsl #2
	sub	x11, x4, x26
	br	x13
.LBB46_9:
	add	x8, x27, #4
	sub	x9, x8, x10
	cmp	x9, #3
	b.hi	.LBB46_11
	ldrb	w8, [x23, #4]
	strb	w8, [x27, #4]
	ldrb	w8, [x23, #5]
	strb	w8, [x27, #5]
	ldrb	w8, [x23, #6]
	strb	w8, [x27, #6]
	ldrb	w8, [x23, #7]
	strb	w8, [x27, #7]
	b	.LBB46_12
.LBB46_11:
	ldr	w9, [x10]
	str	w9, [x8]
.LBB46_12:
	mov	w8, #8
.LBB46_13:
	strh	w8, [x27]
	strh	w19, [x27, #2]
	b	.LBB46_3
.LBB46_14:
	cbz	x24, .LBB46_16
	sub	x11, x25, #5
	ldrb	w12, [x10, x11]
	cbz	w12, .LBB46_33
.LBB46_16:
	cmp	x24, #4
	add	x25, x27, #4
	b.hs	.LBB46_34
.LBB46_17:
	sub	x10, x25, x10
	cmp	x10, x24
	b.hs	.LBB46_32
	cmp	x24, #8
	b.lo	.LBB46_20
	add	x10, x26, x3
	add	x11, x9, x8
	sub	x10, x10, x11
	cmp	x10, #32
	b.hs	.LBB46_117
.LBB46_20:
	mov	x10, xzr
.LBB46_21:
	add	x9, x10, x9
	add	x11, x10, x26
	add	x9, x8, x9
	sub	x8, x24, x10
	ldur	x10, [x29, #-24]
	add	x9, x9, #4
	add	x10, x10, x11
.LBB46_22:
	ldrb	w11, [x9], #1
	subs	x8, x8, #1
	strb	w11, [x10], #1
	b.ne	.LBB46_22
	b	.LBB46_169
.LBB46_23:
	cmp	x24, #32
	mov	w11, #32
	add	x12, x27, #4
	csel	x25, x24, x11, lo
	sub	x11, x12, x10
	cmp	x11, x25
	b.hs	.LBB46_64
	cmp	x24, #4
	b.lo	.LBB46_26
	add	x11, x26, x3
	add	x13, x9, x8
	sub	x11, x11, x13
	cmp	x11, #16
	b.hs	.LBB46_153
.LBB46_26:
	mov	x11, xzr
.LBB46_27:
	add	x9, x11, x9
	add	x10, x11, x26
	add	x9, x8, x9
	sub	x8, x11, x25
	ldur	x11, [x29, #-24]
	add	x9, x9, #4
	add	x10, x11, x10
.LBB46_28:
	ldrb	w11, [x9], #1
	adds	x8, x8, #1
	strb	w11, [x10], #1
	b.lo	.LBB46_28
	b	.LBB46_65
.LBB46_29:
	cmp	x24, #2
	b.ne	.LBB46_54
	add	x8, x27, #4
	sub	x9, x8, x10
	cmp	x9, #1
	b.hi	.LBB46_113
	ldrb	w8, [x23, #4]
	strb	w8, [x27, #4]
	ldrb	w8, [x23, #5]
	strb	w8, [x27, #5]
	b	.LBB46_114
.LBB46_32:
	add	x0, x27, #4
	add	x1, x23, #4
	mov	x2, x24
	bl	memmove
	ldp	x3, x4, [x29, #-16]
	b	.LBB46_169
.LBB46_33:
	mov	x24, x11
	cmp	x11, #4
	add	x25, x27, #4
	b.lo	.LBB46_17
.LBB46_34:
	cmp	x24, #7
	b.hi	.LBB46_38
	sub	x8, x25, x10
	cmp	x8, #3
	b.hi	.LBB46_99
	ldrb	w8, [x23, #4]
	strb	w8, [x27, #4]
	ldrb	w8, [x23, #5]
	strb	w8, [x27, #5]
	ldrb	w8, [x23, #6]
	strb	w8, [x27, #6]
	ldrb	w8, [x23, #7]
	strb	w8, [x27, #7]
	add	x8, x27, x24
	add	x9, x23, x24
	sub	x10, x8, x9
	cmp	x10, #3
	b.ls	.LBB46_100
.LBB46_37:
	ldr	w9, [x9]
	str	w9, [x8]
	b	.LBB46_169
.LBB46_38:
	cmp	x24, #16
	b.hi	.LBB46_17
	sub	x8, x25, x10
	cmp	x8, #7
	b.hi	.LBB46_121
	ldrb	w8, [x23, #4]
	strb	w8, [x27, #4]
	ldrb	w8, [x23, #5]
	strb	w8, [x27, #5]
	ldrb	w8, [x23, #6]
	strb	w8, [x27, #6]
	ldrb	w8, [x23, #7]
	strb	w8, [x27, #7]
	ldrb	w8, [x23, #8]
	strb	w8, [x27, #8]
	ldrb	w8, [x23, #9]
	strb	w8, [x27, #9]
	ldrb	w8, [x23, #10]
	strb	w8, [x27, #10]
	ldrb	w8, [x23, #11]
	strb	w8, [x27, #11]
	sub	x9, x24, #8
	add	x8, x25, x9
	add	x9, x10, x9
	sub	x10, x8, x9
	cmp	x10, #7
	b.ls	.LBB46_122
.LBB46_41:
	ldr	x9, [x9]
	str	x9, [x8]
	b	.LBB46_169
.LBB46_42:
	add	x11, x27, #4
	cmp	w25, #204
	sub	x12, x11, x10
	b.hs	.LBB46_101
	cmp	x12, x24
	b.hs	.LBB46_139
	cmp	x24, #8
	b.lo	.LBB46_46
	add	x10, x26, x3
	add	x11, x9, x8
	sub	x10, x10, x11
	cmp	x10, #32
	b.hs	.LBB46_203
.LBB46_46:
	mov	x10, xzr
.LBB46_47:
	add	x9, x10, x9
	sub	x11, x25, x10
	add	x10, x10, x26
	add	x9, x8, x9
	sub	x8, x11, #4
	ldur	x11, [x29, #-24]
	add	x9, x9, #4
	add	x10, x11, x10
.LBB46_48:
	ldrb	w11, [x9], #1
	subs	x8, x8, #1
	strb	w11, [x10], #1
	b.ne	.LBB46_48
	b	.LBB46_140
.LBB46_49:
	add	x0, x23, #4
	add	x2, x27, #4
	mov	x1, x24
	orr	w19, w19, #0x8000
	bl	nla_wire.members.write_each.b30b196c481b950e
	b	.LBB46_131
.LBB46_50:
	cmp	w25, #7
	b.lo	.LBB46_105
	ldrb	w11, [x23, #6]
	cmp	x24, #3
	b.ne	.LBB46_145
	orr	w11, w11, wzr, lsl #8
	mov	w12, #35848
	cmp	w11, w12
	b.ne	.LBB46_106
	b	.LBB46_146
.LBB46_53:
	ldur	w11, [x29, #-28]
	mov	w12, #1
	mov	w13, #51
	and	w11, w11, #0xff
	lsl	w12, w12, w11
	tst	w12, w13
	b.eq	.LBB46_129
.LBB46_54:
	add	x11, x27, #4
	sub	x10, x11, x10
	cmp	x10, x24
	b.hs	.LBB46_60
	cmp	x24, #8
	b.lo	.LBB46_57
	add	x10, x26, x3
	add	x11, x9, x8
	sub	x10, x10, x11
	cmp	x10, #32
	b.hs	.LBB46_137
.LBB46_57:
	mov	x10, xzr
.LBB46_58:
	add	x9, x10, x9
	sub	x11, x25, x10
	add	x10, x10, x26
	add	x9, x8, x9
	sub	x8, x11, #4
	ldur	x11, [x29, #-24]
	add	x9, x9, #4
	add	x10, x11, x10
.LBB46_59:
	ldrb	w11, [x9], #1
	subs	x8, x8, #1
	strb	w11, [x10], #1
	b.ne	.LBB46_59
	b	.LBB46_61
.LBB46_60:
	add	x0, x27, #4
	add	x1, x23, #4
	sub	x2, x25, #4
	bl	memmove
	ldur	x3, [x29, #-16]
.LBB46_61:
	lsl	w9, w20, #8
	sub	x8, x28, x25
	strh	w25, [x27]
	cmp	x8, #3
	orr	w9, w9, w22
	strh	w9, [x27, #2]
	add	x9, x27, x25
	b.ne	.LBB46_84
.LBB46_62:
	mov	x8, x28
	b	.LBB46_68
.LBB46_63:
	sub	x3, x11, #4
	add	x0, x23, #4
	add	x2, x27, #4
	mov	x1, x24
	bl	nla_wire.members.write_each.3bb4c8661a1029f4
	b	.LBB46_131
.LBB46_64:
	add	x0, x27, #4
	add	x1, x23, #4
	mov	x2, x25
	bl	memmove
	ldur	x3, [x29, #-16]
.LBB46_65:
	add	w8, w25, #7
	add	x9, x25, #4
	strh	w19, [x27, #2]
	and	x8, x8, #0x7c
	strh	w9, [x27]
	sub	x10, x8, x9
	add	x9, x27, x9
	cmp	x10, #3
	b.eq	.LBB46_68
	ldur	x4, [x29, #-8]
	cmp	x10, #2
	b.ne	.LBB46_171
.LBB46_67:
	strh	wzr, [x9]
	b	.LBB46_3
.LBB46_68:
	strh	wzr, [x9]
	strb	wzr, [x9, #2]
	b	.LBB46_160
.LBB46_69:
	ldur	q0, [x23, #4]
	ldur	x8, [x23, #20]
	ldr	w9, [x23, #28]
	stur	q0, [x27, #4]
	stur	x8, [x27, #20]
	mov	w8, #36
	stp	w9, wzr, [x27, #28]
	b	.LBB46_13
.LBB46_70:
	add	x0, x23, #4
	add	x2, x27, #4
	mov	x1, x24
	bl	nla_wire.members.write_each.8ba1f663fcd59a5e
	b	.LBB46_131
.LBB46_71:
	add	x0, x23, #4
	add	x2, x27, #4
	mov	x1, x24
	orr	w19, w19, #0x8000
	bl	nla_wire.members.write_each.16a873d75d6df2a1
	b	.LBB46_131
.LBB46_72:
	add	x0, x23, #4
	add	x2, x27, #4
	mov	x1, x24
	bl	nla_wire.members.write_each.f7f30aae703aa44d
	b	.LBB46_131
.LBB46_73:
	ldur	w12, [x29, #-28]
	and	w12, w12, #0xff
	cmp	w12, #2
	b.gt	.LBB46_76
	cbz	w12, .LBB46_194
	cmp	w12, #1
	b.ne	.LBB46_87
.LBB46_76:
	add	x11, x27, #4
	sub	x10, x11, x10
	cmp	x10, x24
	b.hs	.LBB46_82
	cmp	x24, #8
	b.lo	.LBB46_79
	add	x10, x26, x3
	add	x11, x9, x8
	sub	x10, x10, x11
	cmp	x10, #32
	b.hs	.LBB46_119
.LBB46_79:
	mov	x10, xzr
.LBB46_80:
	add	x9, x10, x9
	sub	x11, x25, x10
	add	x10, x10, x26
	add	x9, x8, x9
	sub	x8, x11, #4
	ldur	x11, [x29, #-24]
	add	x9, x9, #4
	add	x10, x11, x10
.LBB46_81:
	ldrb	w11, [x9], #1
	subs	x8, x8, #1
	strb	w11, [x10], #1
	b.ne	.LBB46_81
	b	.LBB46_83
.LBB46_82:
	add	x0, x27, #4
	add	x1, x23, #4
	sub	x2, x25, #4
	bl	memmove
	ldur	x3, [x29, #-16]
.LBB46_83:
	sub	x8, x28, x25
	strh	w25, [x27]
	cmp	x8, #3
	strh	w19, [x27, #2]
	add	x9, x27, x25
	b.eq	.LBB46_62
.LBB46_84:
	ldur	x4, [x29, #-8]
	cmp	x8, #2
	b.eq	.LBB46_185
.LBB46_85:
	cmp	x8, #1
	mov	x8, x28
	b.ne	.LBB46_3
	strb	wzr, [x9]
	mov	x8, x28
	b	.LBB46_3
.LBB46_87:
	add	x0, x23, #4
	add	x2, x27, #4
	mov	x1, x24
	b	.LBB46_130
.LBB46_88:
	add	x0, x23, #4
	add	x2, x27, #4
	mov	x1, x24
	bl	nla_wire.members.write_each.49064c0641319ce4
	b	.LBB46_131
.LBB46_89:
	ldrb	w8, [x10]
	mov	w9, #5
	strh	w19, [x27, #2]
	sturh	wzr, [x27, #5]
	cmp	w8, #0
	strh	w9, [x27]
	cset	w8, ne
	strb	wzr, [x27, #7]
	strb	w8, [x27, #4]
	mov	w8, #8
	b	.LBB46_3
.LBB46_90:
	add	x11, x27, #4
	cmp	w25, #100
	sub	x12, x11, x10
	b.hs	.LBB46_115
	cmp	x12, x24
	b.hs	.LBB46_155
	cmp	x24, #8
	b.lo	.LBB46_94
	add	x10, x26, x3
	add	x11, x9, x8
	sub	x10, x10, x11
	cmp	x10, #32
	b.hs	.LBB46_205
.LBB46_94:
	mov	x10, xzr
.LBB46_95:
	add	x9, x10, x9
	sub	x11, x25, x10
	add	x10, x10, x26
	add	x9, x8, x9
	sub	x8, x11, #4
	ldur	x11, [x29, #-24]
	add	x9, x9, #4
	add	x10, x11, x10
.LBB46_96:
	ldrb	w11, [x9], #1
	subs	x8, x8, #1
	strb	w11, [x10], #1
	b.ne	.LBB46_96
	b	.LBB46_156
.LBB46_97:
	add	x0, x23, #4
	add	x2, x27, #4
	mov	x1, x24
	orr	w19, w19, #0x8000
	bl	nla_wire.members.write_each.5fa77b269143286c
	b	.LBB46_131
.LBB46_98:
	sub	x3, x11, #4
	add	x0, x23, #4
	add	x2, x27, #4
	mov	x1, x24
	bl	nla_wire.members.write_each.79503c7a397af21a
	b	.LBB46_131
.LBB46_99:
	ldr	w8, [x10]
	str	w8, [x25]
	add	x8, x27, x24
	add	x9, x23, x24
	sub	x10, x8, x9
	cmp	x10, #3
	b.hi	.LBB46_37
.LBB46_100:
	ldrb	w10, [x9]
	strb	w10, [x8]
	ldrb	w10, [x9, #1]
	strb	w10, [x8, #1]
	ldrb	w10, [x9, #2]
	strb	w10, [x8, #2]
	ldrb	w9, [x9, #3]
	strb	w9, [x8, #3]
	b	.LBB46_169
.LBB46_101:
	cmp	x12, #199
	b.hi	.LBB46_143
	add	x10, x26, x3
	add	x8, x9, x8
	sub	x8, x10, x8
	cmp	x8, #31
	b.hi	.LBB46_195
	mov	w8, #4
.LBB46_104:
	ldrb	w9, [x23, x8]
	strb	w9, [x27, x8]
	add	x8, x8, #1
	cmp	x8, #204
	b.ne	.LBB46_104
	b	.LBB46_144
.LBB46_105:
	orr	w11, wzr, wzr, lsl #8
	mov	w12, #35848
	cmp	w11, w12
	b.eq	.LBB46_146
.LBB46_106:
	mov	w12, #35847
	cmp	w11, w12
	b.ne	.LBB46_123
	add	x11, x23, #12
	add	x12, x27, #12
	sub	x10, x25, #12
	mov	w13, #-1945698304
	sub	x11, x12, x11
	orr	x12, x24, x13
	cmp	x11, x10
	stur	x12, [x27, #4]
	b.hs	.LBB46_152
	ldur	x4, [x29, #-8]
	cmp	x10, #8
	b.lo	.LBB46_110
	add	x11, x26, x3
	add	x12, x9, x8
	sub	x11, x11, x12
	cmp	x11, #32
	b.hs	.LBB46_207
.LBB46_110:
	mov	x11, xzr
.LBB46_111:
	add	x9, x11, x9
	sub	x10, x25, x11
	add	x11, x11, x26
	add	x9, x8, x9
	sub	x8, x10, #12
	ldr	x10, [sp, #16]
	add	x9, x9, #12
	add	x10, x10, x11
.LBB46_112:
	ldrb	w11, [x9], #1
	subs	x8, x8, #1
	strb	w11, [x10], #1
	b.ne	.LBB46_112
	b	.LBB46_183
.LBB46_113:
	ldrh	w9, [x10]
	strh	w9, [x8]
.LBB46_114:
	mov	w8, #6
	strh	w19, [x27, #2]
	strh	w8, [x27]
	mov	w8, #8
	strh	wzr, [x27, #6]
	b	.LBB46_3
.LBB46_115:
	cmp	x12, #95
	b.hi	.LBB46_161
	ldrb	w8, [x23, #4]
	strb	w8, [x27, #4]
	ldrb	w8, [x23, #5]
	strb	w8, [x27, #5]
	ldrb	w8, [x23, #6]
	strb	w8, [x27, #6]
	ldrb	w8, [x23, #7]
	strb	w8, [x27, #7]
	ldrb	w8, [x23, #8]
	strb	w8, [x27, #8]
	ldrb	w8, [x23, #9]
	strb	w8, [x27, #9]
	ldrb	w8, [x23, #10]
	strb	w8, [x27, #10]
	ldrb	w8, [x23, #11]
	strb	w8, [x27, #11]
	ldrb	w8, [x23, #12]
	strb	w8, [x27, #12]
	ldrb	w8, [x23, #13]
	strb	w8, [x27, #13]
	ldrb	w8, [x23, #14]
	strb	w8, [x27, #14]
	ldrb	w8, [x23, #15]
	strb	w8, [x27, #15]
	ldrb	w8, [x23, #16]
	strb	w8, [x27, #16]
	ldrb	w8, [x23, #17]
	strb	w8, [x27, #17]
	ldrb	w8, [x23, #18]
	strb	w8, [x27, #18]
	ldrb	w8, [x23, #19]
	strb	w8, [x27, #19]
	ldrb	w8, [x23, #20]
	strb	w8, [x27, #20]
	ldrb	w8, [x23, #21]
	strb	w8, [x27, #21]
	ldrb	w8, [x23, #22]
	strb	w8, [x27, #22]
	ldrb	w8, [x23, #23]
	strb	w8, [x27, #23]
	ldrb	w8, [x23, #24]
	strb	w8, [x27, #24]
	ldrb	w8, [x23, #25]
	strb	w8, [x27, #25]
	ldrb	w8, [x23, #26]
	strb	w8, [x27, #26]
	ldrb	w8, [x23, #27]
	strb	w8, [x27, #27]
	ldrb	w8, [x23, #28]
	strb	w8, [x27, #28]
	ldrb	w8, [x23, #29]
	strb	w8, [x27, #29]
	ldrb	w8, [x23, #30]
	strb	w8, [x27, #30]
	ldrb	w8, [x23, #31]
	strb	w8, [x27, #31]
	ldrb	w8, [x23, #32]
	strb	w8, [x27, #32]
	ldrb	w8, [x23, #33]
	strb	w8, [x27, #33]
	ldrb	w8, [x23, #34]
	strb	w8, [x27, #34]
	ldrb	w8, [x23, #35]
	strb	w8, [x27, #35]
	ldrb	w8, [x23, #36]
	strb	w8, [x27, #36]
	ldrb	w8, [x23, #37]
	strb	w8, [x27, #37]
	ldrb	w8, [x23, #38]
	strb	w8, [x27, #38]
	ldrb	w8, [x23, #39]
	strb	w8, [x27, #39]
	ldrb	w8, [x23, #40]
	strb	w8, [x27, #40]
	ldrb	w8, [x23, #41]
	strb	w8, [x27, #41]
	ldrb	w8, [x23, #42]
	strb	w8, [x27, #42]
	ldrb	w8, [x23, #43]
	strb	w8, [x27, #43]
	ldrb	w8, [x23, #44]
	strb	w8, [x27, #44]
	ldrb	w8, [x23, #45]
	strb	w8, [x27, #45]
	ldrb	w8, [x23, #46]
	strb	w8, [x27, #46]
	ldrb	w8, [x23, #47]
	strb	w8, [x27, #47]
	ldrb	w8, [x23, #48]
	strb	w8, [x27, #48]
	ldrb	w8, [x23, #49]
	strb	w8, [x27, #49]
	ldrb	w8, [x23, #50]
	strb	w8, [x27, #50]
	ldrb	w8, [x23, #51]
	strb	w8, [x27, #51]
	ldrb	w8, [x23, #52]
	strb	w8, [x27, #52]
	ldrb	w8, [x23, #53]
	strb	w8, [x27, #53]
	ldrb	w8, [x23, #54]
	strb	w8, [x27, #54]
	ldrb	w8, [x23, #55]
	strb	w8, [x27, #55]
	ldrb	w8, [x23, #56]
	strb	w8, [x27, #56]
	ldrb	w8, [x23, #57]
	strb	w8, [x27, #57]
	ldrb	w8, [x23, #58]
	strb	w8, [x27, #58]
	ldrb	w8, [x23, #59]
	strb	w8, [x27, #59]
	ldrb	w8, [x23, #60]
	strb	w8, [x27, #60]
	ldrb	w8, [x23, #61]
	strb	w8, [x27, #61]
	ldrb	w8, [x23, #62]
	strb	w8, [x27, #62]
	ldrb	w8, [x23, #63]
	strb	w8, [x27, #63]
	ldrb	w8, [x23, #64]
	strb	w8, [x27, #64]
	ldrb	w8, [x23, #65]
	strb	w8, [x27, #65]
	ldrb	w8, [x23, #66]
	strb	w8, [x27, #66]
	ldrb	w8, [x23, #67]
	strb	w8, [x27, #67]
	ldrb	w8, [x23, #68]
	strb	w8, [x27, #68]
	ldrb	w8, [x23, #69]
	strb	w8, [x27, #69]
	ldrb	w8, [x23, #70]
	strb	w8, [x27, #70]
	ldrb	w8, [x23, #71]
	strb	w8, [x27, #71]
	ldrb	w8, [x23, #72]
	strb	w8, [x27, #72]
	ldrb	w8, [x23, #73]
	strb	w8, [x27, #73]
	ldrb	w8, [x23, #74]
	strb	w8, [x27, #74]
	ldrb	w8, [x23, #75]
	strb	w8, [x27, #75]
	ldrb	w8, [x23, #76]
	strb	w8, [x27, #76]
	ldrb	w8, [x23, #77]
	strb	w8, [x27, #77]
	ldrb	w8, [x23, #78]
	strb	w8, [x27, #78]
	ldrb	w8, [x23, #79]
	strb	w8, [x27, #79]
	ldrb	w8, [x23, #80]
	strb	w8, [x27, #80]
	ldrb	w8, [x23, #81]
	strb	w8, [x27, #81]
	ldrb	w8, [x23, #82]
	strb	w8, [x27, #82]
	ldrb	w8, [x23, #83]
	strb	w8, [x27, #83]
	ldrb	w8, [x23, #84]
	strb	w8, [x27, #84]
	ldrb	w8, [x23, #85]
	strb	w8, [x27, #85]
	ldrb	w8, [x23, #86]
	strb	w8, [x27, #86]
	ldrb	w8, [x23, #87]
	strb	w8, [x27, #87]
	ldrb	w8, [x23, #88]
	strb	w8, [x27, #88]
	ldrb	w8, [x23, #89]
	strb	w8, [x27, #89]
	ldrb	w8, [x23, #90]
	strb	w8, [x27, #90]
	ldrb	w8, [x23, #91]
	strb	w8, [x27, #91]
	ldrb	w8, [x23, #92]
	strb	w8, [x27, #92]
	ldrb	w8, [x23, #93]
	strb	w8, [x27, #93]
	ldrb	w8, [x23, #94]
	strb	w8, [x27, #94]
	ldrb	w8, [x23, #95]
	strb	w8, [x27, #95]
	ldrb	w8, [x23, #96]
	strb	w8, [x27, #96]
	ldrb	w8, [x23, #97]
	strb	w8, [x27, #97]
	ldrb	w8, [x23, #98]
	strb	w8, [x27, #98]
	ldrb	w8, [x23, #99]
	strb	w8, [x27, #99]
	mov	w8, #100
	b	.LBB46_13
.LBB46_117:
	cmp	x24, #32
	b.hs	.LBB46_162
	mov	x10, xzr
	b	.LBB46_166
.LBB46_119:
	cmp	x24, #32
	b.hs	.LBB46_174
	mov	x10, xzr
	b	.LBB46_178
.LBB46_121:
	ldr	x8, [x10]
	str	x8, [x25]
	sub	x9, x24, #8
	add	x8, x25, x9
	add	x9, x10, x9
	sub	x10, x8, x9
	cmp	x10, #7
	b.hi	.LBB46_41
.LBB46_122:
	ldrb	w10, [x9]
	strb	w10, [x8]
	ldrb	w10, [x9, #1]
	strb	w10, [x8, #1]
	ldrb	w10, [x9, #2]
	strb	w10, [x8, #2]
	ldrb	w10, [x9, #3]
	strb	w10, [x8, #3]
	ldrb	w10, [x9, #4]
	strb	w10, [x8, #4]
	ldrb	w10, [x9, #5]
	strb	w10, [x8, #5]
	ldrb	w10, [x9, #6]
	strb	w10, [x8, #6]
	ldrb	w9, [x9, #7]
	strb	w9, [x8, #7]
	b	.LBB46_169
.LBB46_123:
	add	x11, x27, #4
	sub	x10, x11, x10
	cmp	x10, x24
	b.hs	.LBB46_181
	ldur	x4, [x29, #-8]
	cmp	x24, #8
	b.lo	.LBB46_126
	add	x10, x26, x3
	add	x11, x9, x8
	sub	x10, x10, x11
	cmp	x10, #32
	b.hs	.LBB46_211
.LBB46_126:
	mov	x10, xzr
.LBB46_127:
	add	x9, x10, x9
	sub	x11, x25, x10
	add	x10, x10, x26
	add	x9, x8, x9
	sub	x8, x11, #4
	ldur	x11, [x29, #-24]
	add	x9, x9, #4
	add	x10, x11, x10
.LBB46_128:
	ldrb	w11, [x9], #1
	subs	x8, x8, #1
	strb	w11, [x10], #1
	b.ne	.LBB46_128
	b	.LBB46_183
.LBB46_129:
	orr	w19, w19, #0x8000
	add	x0, x23, #4
	add	x2, x27, #4
	mov	x1, x24
	cmp	w11, #2
.LBB46_130:
	bl	nla_wire.members.write_each.1f0cb788f492ced5
.LBB46_131:
	add	x8, x0, #7
	add	x9, x0, #4
	strh	w19, [x27, #2]
	and	x8, x8, #0xfffffffffffffffc
	strh	w9, [x27]
	sub	x10, x8, x9
	add	x9, x27, x9
	cmp	x10, #3
	b.eq	.LBB46_135
	cmp	x10, #2
	b.eq	.LBB46_134
	ldp	x3, x4, [x29, #-16]
	cmp	x10, #1
	b.ne	.LBB46_3
	b	.LBB46_172
.LBB46_134:
	strh	wzr, [x9]
	b	.LBB46_136
.LBB46_135:
	strh	wzr, [x9]
	strb	wzr, [x9, #2]
.LBB46_136:
	ldp	x3, x4, [x29, #-16]
	b	.LBB46_3
.LBB46_137:
	cmp	x24, #32
	b.hs	.LBB46_187
	mov	x10, xzr
	b	.LBB46_191
.LBB46_139:
	add	x0, x27, #4
	add	x1, x23, #4
	sub	x2, x25, #4
	bl	memmove
	ldur	x3, [x29, #-16]
.LBB46_140:
	cmp	w25, #203
	b.eq	.LBB46_142
	mov	w8, #203
	add	x0, x27, x25
	mov	w1, wzr
	sub	x2, x8, x25
	bl	memset
	ldur	x3, [x29, #-16]
.LBB46_142:
	strb	wzr, [x27, #203]
	mov	w8, #204
	b	.LBB46_159
.LBB46_143:
	ldp	q0, q1, [x10]
	ldr	x8, [x10, #192]
	ldp	q2, q3, [x10, #32]
	ldp	q4, q5, [x10, #64]
	ldp	q6, q7, [x10, #96]
	ldp	q16, q17, [x10, #160]
	ldp	q18, q19, [x10, #128]
	str	x8, [x11, #192]
	stp	q0, q1, [x11]
	stp	q2, q3, [x11, #32]
	stp	q4, q5, [x11, #64]
	stp	q6, q7, [x11, #96]
	stp	q18, q19, [x11, #128]
	stp	q16, q17, [x11, #160]
.LBB46_144:
	mov	w8, #204
	b	.LBB46_13
.LBB46_145:
	ldrb	w12, [x23, #7]
	orr	w11, w11, w12, lsl #8
	mov	w12, #35848
	cmp	w11, w12
	b.ne	.LBB46_106
.LBB46_146:
	add	x11, x23, #12
	add	x12, x27, #12
	sub	x10, x25, #12
	mov	w13, #-1945632768
	sub	x11, x12, x11
	orr	x12, x24, x13
	cmp	x11, x10
	stur	x12, [x27, #4]
	b.hs	.LBB46_152
	cmp	x10, #8
	b.lo	.LBB46_149
	add	x11, x26, x3
	add	x12, x9, x8
	sub	x11, x11, x12
	cmp	x11, #32
	b.hs	.LBB46_209
.LBB46_149:
	mov	x11, xzr
.LBB46_150:
	add	x9, x11, x9
	sub	x10, x25, x11
	add	x11, x11, x26
	add	x9, x8, x9
	sub	x8, x10, #12
	ldr	x10, [sp, #16]
	add	x9, x9, #12
	add	x10, x10, x11
.LBB46_151:
	ldrb	w11, [x9], #1
	subs	x8, x8, #1
	strb	w11, [x10], #1
	b.ne	.LBB46_151
	b	.LBB46_183
.LBB46_152:
	add	x0, x27, #12
	add	x1, x23, #12
	sub	x2, x25, #12
	b	.LBB46_182
.LBB46_153:
	cmp	x24, #16
	b.hs	.LBB46_196
	mov	x11, xzr
	b	.LBB46_200
.LBB46_155:
	add	x0, x27, #4
	add	x1, x23, #4
	sub	x2, x25, #4
	bl	memmove
	ldur	x3, [x29, #-16]
.LBB46_156:
	cmp	w25, #99
	b.eq	.LBB46_158
	mov	w8, #99
	add	x0, x27, x25
	mov	w1, wzr
	sub	x2, x8, x25
	bl	memset
	ldur	x3, [x29, #-16]
.LBB46_158:
	mov	w8, #100
	strb	wzr, [x27, #99]
.LBB46_159:
	strh	w8, [x27]
	strh	w19, [x27, #2]
.LBB46_160:
	ldur	x4, [x29, #-8]
	b	.LBB46_3
.LBB46_161:
	ldp	q1, q0, [x10, #64]
	mov	w8, #100
	ldp	q2, q3, [x10]
	ldp	q4, q5, [x10, #32]
	stp	q1, q0, [x11, #64]
	stp	q2, q3, [x11]
	stp	q4, q5, [x11, #32]
	b	.LBB46_13
.LBB46_162:
	ldr	x13, [sp, #24]
	add	x12, x8, x9
	and	x11, x24, #0x18
	and	x10, x24, #0xffffffffffffffe0
	add	x12, x12, #20
	and	x14, x24, #0xffffffffffffffe0
	add	x13, x13, x26
.LBB46_163:
	ldp	q0, q1, [x12, #-16]
	subs	x14, x14, #32
	add	x12, x12, #32
	stp	q0, q1, [x13, #-16]
	add	x13, x13, #32
	b.ne	.LBB46_163
	cmp	x24, x10
	b.eq	.LBB46_169
	cbz	x11, .LBB46_21
.LBB46_166:
	mov	x11, x10
	ldur	x14, [x29, #-24]
	and	x10, x24, #0xfffffffffffffff8
	add	x12, x9, x11
	add	x13, x11, x26
	sub	x11, x11, x10
	add	x12, x8, x12
	add	x13, x14, x13
	add	x12, x12, #4
.LBB46_167:
	ldr	d0, [x12], #8
	adds	x11, x11, #8
	str	d0, [x13], #8
	b.ne	.LBB46_167
	cmp	x24, x10
	b.ne	.LBB46_21
.LBB46_169:
	and	x8, x24, #0xfffffffffffffffc
	add	x9, x24, #5
	strb	wzr, [x25, x24]
	add	x8, x8, #8
	strh	w9, [x27]
	sub	x10, x8, x9
	add	x9, x27, x9
	strh	w19, [x27, #2]
	cmp	x10, #3
	b.eq	.LBB46_173
	cmp	x10, #2
	b.eq	.LBB46_67
.LBB46_171:
	cmp	x10, #1
	b.ne	.LBB46_3
.LBB46_172:
	strb	wzr, [x9]
	b	.LBB46_3
.LBB46_173:
	strh	wzr, [x9]
	strb	wzr, [x9, #2]
	b	.LBB46_3
.LBB46_174:
	ldr	x12, [sp, #24]
	add	x13, x8, x9
	and	x11, x24, #0x18
	and	x10, x24, #0xffffffffffffffe0
	add	x13, x13, #20
	and	x14, x24, #0xffffffffffffffe0
	add	x12, x12, x26
.LBB46_175:
	ldp	q0, q1, [x13, #-16]
	subs	x14, x14, #32
	add	x13, x13, #32
	stp	q0, q1, [x12, #-16]
	add	x12, x12, #32
	b.ne	.LBB46_175
	cmp	x24, x10
	b.eq	.LBB46_83
	cbz	x11, .LBB46_80
.LBB46_178:
	mov	x11, x10
	ldur	x14, [x29, #-24]
	and	x10, x24, #0xfffffffffffffff8
	add	x12, x9, x11
	add	x13, x11, x26
	sub	x11, x11, x10
	add	x12, x8, x12
	add	x13, x14, x13
	add	x12, x12, #4
.LBB46_179:
	ldr	d0, [x12], #8
	adds	x11, x11, #8
	str	d0, [x13], #8
	b.ne	.LBB46_179
	cmp	x24, x10
	b.eq	.LBB46_83
	b	.LBB46_80
.LBB46_181:
	add	x0, x27, #4
	add	x1, x23, #4
	sub	x2, x25, #4
.LBB46_182:
	bl	memmove
	ldp	x3, x4, [x29, #-16]
.LBB46_183:
	sub	x8, x28, x25
	add	x9, x27, x25
	strh	w25, [x27]
	cmp	x8, #3
	strh	w19, [x27, #2]
	b.eq	.LBB46_186
	cmp	x8, #2
	b.ne	.LBB46_85
.LBB46_185:
	strh	wzr, [x9]
	mov	x8, x28
	b	.LBB46_3
.LBB46_186:
	strh	wzr, [x9]
	mov	x8, x28
	strb	wzr, [x9, #2]
	b	.LBB46_3
.LBB46_187:
	ldr	x12, [sp, #24]
	add	x13, x8, x9
	and	x11, x24, #0x18
	and	x10, x24, #0xffffffffffffffe0
	add	x13, x13, #20
	and	x14, x24, #0xffffffffffffffe0
	add	x12, x12, x26
.LBB46_188:
	ldp	q0, q1, [x13, #-16]
	subs	x14, x14, #32
	add	x13, x13, #32
	stp	q0, q1, [x12, #-16]
	add	x12, x12, #32
	b.ne	.LBB46_188
	cmp	x24, x10
	b.eq	.LBB46_61
	cbz	x11, .LBB46_58
.LBB46_191:
	mov	x11, x10
	ldur	x14, [x29, #-24]
	and	x10, x24, #0xfffffffffffffff8
	add	x12, x9, x11
	add	x13, x11, x26
	sub	x11, x11, x10
	add	x12, x8, x12
	add	x13, x14, x13
	add	x12, x12, #4
.LBB46_192:
	ldr	d0, [x12], #8
	adds	x11, x11, #8
	str	d0, [x13], #8
	b.ne	.LBB46_192
	cmp	x24, x10
	b.eq	.LBB46_61
	b	.LBB46_58
.LBB46_194:
	sub	x3, x11, #4
	add	x0, x23, #4
	add	x2, x27, #4
	mov	x1, x24
	bl	nla_wire.members.write_each.6cf1decf0b22dc4b
	b	.LBB46_131
.LBB46_195:
	ldur	q0, [x23, #4]
	ldur	q1, [x23, #20]
	mov	w8, #204
	stur	q0, [x27, #4]
	stur	q1, [x27, #20]
	ldur	q0, [x23, #36]
	ldur	q1, [x23, #52]
	stur	q0, [x27, #36]
	stur	q1, [x27, #52]
	ldur	q0, [x23, #68]
	ldur	q1, [x23, #84]
	stur	q0, [x27, #68]
	stur	q1, [x27, #84]
	ldur	q0, [x23, #100]
	ldur	q1, [x23, #116]
	stur	q0, [x27, #100]
	stur	q1, [x27, #116]
	ldur	q0, [x23, #132]
	ldur	q1, [x23, #148]
	stur	q0, [x27, #132]
	stur	q1, [x27, #148]
	ldur	q0, [x23, #164]
	ldur	q1, [x23, #180]
	stur	q0, [x27, #164]
	stur	q1, [x27, #180]
	ldur	d0, [x23, #196]
	stur	d0, [x27, #196]
	b	.LBB46_13
.LBB46_196:
	and	x13, x25, #0xc
	and	x11, x25, #0x30
	and	x14, x25, #0x30
.LBB46_197:
	ldr	q0, [x10], #16
	subs	x14, x14, #16
	str	q0, [x12], #16
	b.ne	.LBB46_197
	cmp	x25, x11
	b.eq	.LBB46_65
	cbz	x13, .LBB46_27
.LBB46_200:
	mov	x10, x11
	ldur	x14, [x29, #-24]
	and	x11, x25, #0x3c
	add	x12, x9, x10
	add	x13, x10, x26
	sub	x10, x10, x11
	add	x12, x8, x12
	add	x13, x14, x13
	add	x12, x12, #4
.LBB46_201:
	ldr	w14, [x12], #4
	adds	x10, x10, #4
	str	w14, [x13], #4
	b.ne	.LBB46_201
	cmp	x25, x11
	b.eq	.LBB46_65
	b	.LBB46_27
.LBB46_203:
	cmp	x24, #32
	b.hs	.LBB46_213
	mov	x10, xzr
	b	.LBB46_217
.LBB46_205:
	cmp	x24, #32
	b.hs	.LBB46_220
	mov	x10, xzr
	b	.LBB46_224
.LBB46_207:
	cmp	x10, #32
	b.hs	.LBB46_227
	mov	x11, xzr
	b	.LBB46_231
.LBB46_209:
	cmp	x10, #32
	b.hs	.LBB46_234
	mov	x11, xzr
	b	.LBB46_238
.LBB46_211:
	cmp	x24, #32
	b.hs	.LBB46_241
	mov	x10, xzr
	b	.LBB46_245
.LBB46_213:
	ldr	x12, [sp, #24]
	add	x13, x8, x9
	and	x11, x24, #0x18
	and	x10, x24, #0xffffffffffffffe0
	add	x13, x13, #20
	and	x14, x24, #0xffffffffffffffe0
	add	x12, x12, x26
.LBB46_214:
	ldp	q0, q1, [x13, #-16]
	subs	x14, x14, #32
	add	x13, x13, #32
	stp	q0, q1, [x12, #-16]
	add	x12, x12, #32
	b.ne	.LBB46_214
	cmp	x24, x10
	b.eq	.LBB46_140
	cbz	x11, .LBB46_47
.LBB46_217:
	mov	x11, x10
	ldur	x14, [x29, #-24]
	and	x10, x24, #0xfffffffffffffff8
	add	x12, x9, x11
	add	x13, x11, x26
	sub	x11, x11, x10
	add	x12, x8, x12
	add	x13, x14, x13
	add	x12, x12, #4
.LBB46_218:
	ldr	d0, [x12], #8
	adds	x11, x11, #8
	str	d0, [x13], #8
	b.ne	.LBB46_218
	cmp	x24, x10
	b.eq	.LBB46_140
	b	.LBB46_47
.LBB46_220:
	ldr	x12, [sp, #24]
	add	x13, x8, x9
	and	x11, x24, #0x18
	and	x10, x24, #0xffffffffffffffe0
	add	x13, x13, #20
	and	x14, x24, #0xffffffffffffffe0
	add	x12, x12, x26
.LBB46_221:
	ldp	q0, q1, [x13, #-16]
	subs	x14, x14, #32
	add	x13, x13, #32
	stp	q0, q1, [x12, #-16]
	add	x12, x12, #32
	b.ne	.LBB46_221
	cmp	x24, x10
	b.eq	.LBB46_156
	cbz	x11, .LBB46_95
.LBB46_224:
	mov	x11, x10
	ldur	x14, [x29, #-24]
	and	x10, x24, #0xfffffffffffffff8
	add	x12, x9, x11
	add	x13, x11, x26
	sub	x11, x11, x10
	add	x12, x8, x12
	add	x13, x14, x13
	add	x12, x12, #4
.LBB46_225:
	ldr	d0, [x12], #8
	adds	x11, x11, #8
	str	d0, [x13], #8
	b.ne	.LBB46_225
	cmp	x24, x10
	b.eq	.LBB46_156
	b	.LBB46_95
.LBB46_227:
	ldr	x13, [sp, #8]
	add	x14, x8, x9
	and	x12, x10, #0x18
	and	x11, x10, #0xffffffffffffffe0
	add	x14, x14, #28
	and	x15, x10, #0xffffffffffffffe0
	add	x13, x13, x26
.LBB46_228:
	ldp	q0, q1, [x14, #-16]
	subs	x15, x15, #32
	add	x14, x14, #32
	stp	q0, q1, [x13, #-16]
	add	x13, x13, #32
	b.ne	.LBB46_228
	cmp	x10, x11
	b.eq	.LBB46_183
	cbz	x12, .LBB46_111
.LBB46_231:
	mov	x12, x11
	ldr	x15, [sp, #16]
	and	x11, x10, #0xfffffffffffffff8
	add	x13, x9, x12
	add	x14, x12, x26
	sub	x12, x12, x11
	add	x13, x8, x13
	add	x14, x15, x14
	add	x13, x13, #12
.LBB46_232:
	ldr	d0, [x13], #8
	adds	x12, x12, #8
	str	d0, [x14], #8
	b.ne	.LBB46_232
	cmp	x10, x11
	b.eq	.LBB46_183
	b	.LBB46_111
.LBB46_234:
	ldr	x13, [sp, #8]
	add	x14, x8, x9
	and	x12, x10, #0x18
	and	x11, x10, #0xffffffffffffffe0
	add	x14, x14, #28
	and	x15, x10, #0xffffffffffffffe0
	add	x13, x13, x26
.LBB46_235:
	ldp	q0, q1, [x14, #-16]
	subs	x15, x15, #32
	add	x14, x14, #32
	stp	q0, q1, [x13, #-16]
	add	x13, x13, #32
	b.ne	.LBB46_235
	cmp	x10, x11
	b.eq	.LBB46_183
	cbz	x12, .LBB46_150
.LBB46_238:
	mov	x12, x11
	ldr	x15, [sp, #16]
	and	x11, x10, #0xfffffffffffffff8
	add	x13, x9, x12
	add	x14, x12, x26
	sub	x12, x12, x11
	add	x13, x8, x13
	add	x14, x15, x14
	add	x13, x13, #12
.LBB46_239:
	ldr	d0, [x13], #8
	adds	x12, x12, #8
	str	d0, [x14], #8
	b.ne	.LBB46_239
	cmp	x10, x11
	b.eq	.LBB46_183
	b	.LBB46_150
.LBB46_241:
	ldr	x12, [sp, #24]
	add	x13, x8, x9
	and	x11, x24, #0x18
	and	x10, x24, #0xffffffffffffffe0
	add	x13, x13, #20
	and	x14, x24, #0xffffffffffffffe0
	add	x12, x12, x26
.LBB46_242:
	ldp	q0, q1, [x13, #-16]
	subs	x14, x14, #32
	add	x13, x13, #32
	stp	q0, q1, [x12, #-16]
	add	x12, x12, #32
	b.ne	.LBB46_242
	cmp	x24, x10
	b.eq	.LBB46_183
	cbz	x11, .LBB46_127
.LBB46_245:
	mov	x11, x10
	ldur	x14, [x29, #-24]
	and	x10, x24, #0xfffffffffffffff8
	add	x12, x9, x11
	add	x13, x11, x26
	sub	x11, x11, x10
	add	x12, x8, x12
	add	x13, x14, x13
	add	x12, x12, #4
.LBB46_246:
	ldr	d0, [x12], #8
	adds	x11, x11, #8
	str	d0, [x13], #8
	b.ne	.LBB46_246
	cmp	x24, x10
	b.eq	.LBB46_183
	b	.LBB46_127
.LBB46_248:
	ldp	x20, x19, [sp, #144]
	ldp	x22, x21, [sp, #128]
	ldp	x24, x23, [sp, #112]
	ldp	x26, x25, [sp, #96]
	ldp	x28, x27, [sp, #80]
	ldp	x29, x30, [sp, #64]
	add	sp, sp, #160
	ret
.Lfunc_end46:
	.size	nla_wire.members.write_each.c4c48bc1b6cb0726, .Lfunc_end46-nla_wire.members.write_each.c4c48bc1b6cb0726
	.section	.rodata.nla_wire.members.write_each.c4c48bc1b6cb0726,"a",@progbits
	.p2align	1, 0x0
.LJTI46_0:
	.hword	(.LBB46_76-.LBB46_2)>>2
	.hword	(.LBB46_76-.LBB46_2)>>2
	.hword	(.LBB46_14-.LBB46_2)>>2
	.hword	(.LBB46_9-.LBB46_2)>>2
	.hword	(.LBB46_9-.LBB46_2)>>2
	.hword	(.LBB46_14-.LBB46_2)>>2
	.hword	(.LBB46_90-.LBB46_2)>>2
	.hword	(.LBB46_54-.LBB46_2)>>2
	.hword	(.LBB46_54-.LBB46_2)>>2
	.hword	(.LBB46_9-.LBB46_2)>>2
	.hword	(.LBB46_50-.LBB46_2)>>2
	.hword	(.LBB46_53-.LBB46_2)>>2
	.hword	(.LBB46_9-.LBB46_2)>>2
	.hword	(.LBB46_69-.LBB46_2)>>2
	.hword	(.LBB46_54-.LBB46_2)>>2
	.hword	(.LBB46_2-.LBB46_2)>>2
	.hword	(.LBB46_2-.LBB46_2)>>2
	.hword	(.LBB46_88-.LBB46_2)>>2
	.hword	(.LBB46_9-.LBB46_2)>>2
	.hword	(.LBB46_14-.LBB46_2)>>2
	.hword	(.LBB46_9-.LBB46_2)>>2
	.hword	(.LBB46_63-.LBB46_2)>>2
	.hword	(.LBB46_42-.LBB46_2)>>2
	.hword	(.LBB46_98-.LBB46_2)>>2
	.hword	(.LBB46_87-.LBB46_2)>>2
	.hword	(.LBB46_73-.LBB46_2)>>2
	.hword	(.LBB46_9-.LBB46_2)>>2
	.hword	(.LBB46_9-.LBB46_2)>>2
	.hword	(.LBB46_9-.LBB46_2)>>2
	.hword	(.LBB46_9-.LBB46_2)>>2
	.hword	(.LBB46_9-.LBB46_2)>>2
	.hword	(.LBB46_9-.LBB46_2)>>2
	.hword	(.LBB46_2-.LBB46_2)>>2
	.hword	(.LBB46_23-.LBB46_2)>>2
	.hword	(.LBB46_9-.LBB46_2)>>2
	.hword	(.LBB46_23-.LBB46_2)>>2
	.hword	(.LBB46_9-.LBB46_2)>>2
	.hword	(.LBB46_14-.LBB46_2)>>2
	.hword	(.LBB46_2-.LBB46_2)>>2
	.hword	(.LBB46_9-.LBB46_2)>>2
	.hword	(.LBB46_9-.LBB46_2)>>2
	.hword	(.LBB46_54-.LBB46_2)>>2
	.hword	(.LBB46_70-.LBB46_2)>>2
	.hword	(.LBB46_9-.LBB46_2)>>2
	.hword	(.LBB46_9-.LBB46_2)>>2
	.hword	(.LBB46_9-.LBB46_2)>>2
	.hword	(.LBB46_9-.LBB46_2)>>2
	.hword	(.LBB46_9-.LBB46_2)>>2
	.hword	(.LBB46_9-.LBB46_2)>>2
	.hword	(.LBB46_9-.LBB46_2)>>2
	.hword	(.LBB46_9-.LBB46_2)>>2
	.hword	(.LBB46_49-.LBB46_2)>>2
	.hword	(.LBB46_54-.LBB46_2)>>2
	.hword	(.LBB46_76-.LBB46_2)>>2
	.hword	(.LBB46_72-.LBB46_2)>>2
	.hword	(.LBB46_14-.LBB46_2)>>2
	.hword	(.LBB46_14-.LBB46_2)>>2
	.hword	(.LBB46_9-.LBB46_2)>>2
	.hword	(.LBB46_9-.LBB46_2)>>2
	.hword	(.LBB46_9-.LBB46_2)>>2
	.hword	(.LBB46_9-.LBB46_2)>>2
	.hword	(.LBB46_71-.LBB46_2)>>2
	.hword	(.LBB46_9-.LBB46_2)>>2
	.hword	(.LBB46_9-.LBB46_2)>>2
	.hword	(.LBB46_97-.LBB46_2)>>2
	.hword	(.LBB46_54-.LBB46_2)>>2
	.hword	(.LBB46_89-.LBB46_2)>>2
	.hword	(.LBB46_29-.LBB46_2)>>2
	.hword	(.LBB46_29-.LBB46_2)>>2

	.section	.text.nla_wire.members.write_each.49064c0641319ce4,"ax",@progbits
	.p2align	2
	.type	nla_wire.members.write_each.49064c0641319ce4,@function
nla_wire.members.write_each.49064c0641319ce4:
	stp	x29, x30, [sp, #-96]!
	stp	x28, x27, [sp, #16]
	mov	x29, sp
	stp	x26, x25, [sp, #32]
	stp	x24, x23, [sp, #48]
	stp	x22, x21, [sp, #64]
	stp	x20, x19, [sp, #80]
	cbz	x1, .LBB47_68
	mov	x20, x2
	mov	x21, x1
	mov	x22, x0
	mov	x19, xzr
	mov	x26, xzr
	add	x25, x2, #4
	b	.LBB47_5
.LBB47_2:
	mov	x8, x26
.LBB47_3:
	strh	wzr, [x9]
	strb	wzr, [x9, #2]
.LBB47_4:
	cmp	x21, x26
	add	x19, x8, x19
	b.ls	.LBB47_69
.LBB47_5:
	sub	x21, x21, x26
	cmp	x21, #4
	b.lo	.LBB47_69
	mov	x9, x22
	add	x22, x22, x26
	mov	x8, x26
	ldrh	w28, [x22]
	cmp	w28, #4
	b.lo	.LBB47_69
	cmp	x21, x28
	b.lo	.LBB47_69
	ldrh	w24, [x22, #2]
	add	w12, w28, #3
	add	x10, x22, #4
	sub	x23, x28, #4
	and	x26, x12, #0x1fffc
	add	x27, x20, x19
	and	w11, w24, #0x3fff
	cmp	w11, #1
	b.ne	.LBB47_18
	cbz	x23, .LBB47_11
	sub	x11, x28, #5
	ldrb	w12, [x10, x11]
	cbz	w12, .LBB47_32
.LBB47_11:
	cmp	x23, #4
	add	x28, x27, #4
	b.hs	.LBB47_33
.LBB47_12:
	sub	x10, x28, x10
	cmp	x10, x23
	b.hs	.LBB47_29
	cmp	x23, #8
	b.lo	.LBB47_15
	add	x10, x19, x20
	add	x11, x8, x9
	sub	x10, x10, x11
	cmp	x10, #32
	b.hs	.LBB47_45
.LBB47_15:
	mov	x10, xzr
.LBB47_16:
	add	x8, x10, x8
	add	x11, x10, x19
	add	x9, x9, x8
	sub	x8, x23, x10
	add	x10, x25, x11
	add	x9, x9, #4
.LBB47_17:
	ldrb	w11, [x9], #1
	subs	x8, x8, #1
	strb	w11, [x10], #1
	b.ne	.LBB47_17
	b	.LBB47_63
.LBB47_18:
	add	x11, x27, #4
	sub	x10, x11, x10
	cmp	x10, x23
	b.hs	.LBB47_24
	cmp	x23, #8
	b.lo	.LBB47_21
	add	x10, x19, x20
	add	x11, x8, x9
	sub	x10, x10, x11
	cmp	x10, #32
	b.hs	.LBB47_41
.LBB47_21:
	mov	x10, xzr
.LBB47_22:
	add	x8, x10, x8
	sub	x11, x28, x10
	add	x10, x10, x19
	add	x9, x9, x8
	sub	x8, x11, #4
	add	x10, x25, x10
	add	x9, x9, #4
.LBB47_23:
	ldrb	w11, [x9], #1
	subs	x8, x8, #1
	strb	w11, [x10], #1
	b.ne	.LBB47_23
	b	.LBB47_25
.LBB47_24:
	add	x0, x27, #4
	add	x1, x22, #4
	sub	x2, x28, #4
	bl	memmove
.LBB47_25:
	sub	x8, x26, x28
	add	x9, x27, x28
	strh	w28, [x27]
	cmp	x8, #3
	strh	w24, [x27, #2]
	b.eq	.LBB47_2
	cmp	x8, #2
	b.eq	.LBB47_30
	cmp	x8, #1
	mov	x8, x26
	b.ne	.LBB47_4
	strb	wzr, [x9]
	b	.LBB47_31
.LBB47_29:
	add	x0, x27, #4
	add	x1, x22, #4
	mov	x2, x23
	bl	memmove
	b	.LBB47_63
.LBB47_30:
	strh	wzr, [x9]
.LBB47_31:
	mov	x8, x26
	b	.LBB47_4
.LBB47_32:
	mov	x23, x11
	cmp	x11, #4
	add	x28, x27, #4
	b.lo	.LBB47_12
.LBB47_33:
	cmp	x23, #7
	b.hi	.LBB47_37
	sub	x8, x28, x10
	cmp	x8, #3
	b.hi	.LBB47_43
	ldrb	w8, [x22, #4]
	strb	w8, [x27, #4]
	ldrb	w8, [x22, #5]
	strb	w8, [x27, #5]
	ldrb	w8, [x22, #6]
	strb	w8, [x27, #6]
	ldrb	w8, [x22, #7]
	strb	w8, [x27, #7]
	add	x9, x10, x23
	add	x8, x27, x23
	sub	x10, x9, #4
	sub	x11, x8, x10
	cmp	x11, #3
	b.ls	.LBB47_44
.LBB47_36:
	ldr	w9, [x10]
	str	w9, [x8]
	b	.LBB47_63
.LBB47_37:
	cmp	x23, #16
	b.hi	.LBB47_12
	sub	x8, x28, x10
	cmp	x8, #7
	b.hi	.LBB47_47
	ldrb	w8, [x22, #4]
	strb	w8, [x27, #4]
	ldrb	w8, [x22, #5]
	strb	w8, [x27, #5]
	ldrb	w8, [x22, #6]
	strb	w8, [x27, #6]
	ldrb	w8, [x22, #7]
	strb	w8, [x27, #7]
	ldrb	w8, [x22, #8]
	strb	w8, [x27, #8]
	ldrb	w8, [x22, #9]
	strb	w8, [x27, #9]
	ldrb	w8, [x22, #10]
	strb	w8, [x27, #10]
	ldrb	w8, [x22, #11]
	strb	w8, [x27, #11]
	sub	x9, x23, #8
	add	x8, x28, x9
	add	x9, x10, x9
	sub	x10, x8, x9
	cmp	x10, #7
	b.ls	.LBB47_48
.LBB47_40:
	ldr	x9, [x9]
	str	x9, [x8]
	b	.LBB47_63
.LBB47_41:
	cmp	x23, #32
	b.hs	.LBB47_49
	mov	x10, xzr
	b	.LBB47_53
.LBB47_43:
	ldr	w8, [x10]
	str	w8, [x28]
	add	x9, x10, x23
	add	x8, x27, x23
	sub	x10, x9, #4
	sub	x11, x8, x10
	cmp	x11, #3
	b.hi	.LBB47_36
.LBB47_44:
	ldurb	w10, [x9, #-4]
	strb	w10, [x8]
	ldurb	w10, [x9, #-3]
	strb	w10, [x8, #1]
	ldurb	w10, [x9, #-2]
	strb	w10, [x8, #2]
	ldurb	w9, [x9, #-1]
	strb	w9, [x8, #3]
	b	.LBB47_63
.LBB47_45:
	cmp	x23, #32
	b.hs	.LBB47_56
	mov	x10, xzr
	b	.LBB47_60
.LBB47_47:
	ldr	x8, [x10]
	str	x8, [x28]
	sub	x9, x23, #8
	add	x8, x28, x9
	add	x9, x10, x9
	sub	x10, x8, x9
	cmp	x10, #7
	b.hi	.LBB47_40
.LBB47_48:
	ldrb	w10, [x9]
	strb	w10, [x8]
	ldrb	w10, [x9, #1]
	strb	w10, [x8, #1]
	ldrb	w10, [x9, #2]
	strb	w10, [x8, #2]
	ldrb	w10, [x9, #3]
	strb	w10, [x8, #3]
	ldrb	w10, [x9, #4]
	strb	w10, [x8, #4]
	ldrb	w10, [x9, #5]
	strb	w10, [x8, #5]
	ldrb	w10, [x9, #6]
	strb	w10, [x8, #6]
	ldrb	w9, [x9, #7]
	strb	w9, [x8, #7]
	b	.LBB47_63
.LBB47_49:
	add	x13, x9, x8
	add	x12, x20, #20
	and	x11, x23, #0x18
	and	x10, x23, #0xffffffffffffffe0
	add	x12, x12, x19
	add	x13, x13, #20
	and	x14, x23, #0xffffffffffffffe0
.LBB47_50:
	ldp	q0, q1, [x13, #-16]
	subs	x14, x14, #32
	add	x13, x13, #32
	stp	q0, q1, [x12, #-16]
	add	x12, x12, #32
	b.ne	.LBB47_50
	cmp	x23, x10
	b.eq	.LBB47_25
	cbz	x11, .LBB47_22
.LBB47_53:
	mov	x11, x10
	and	x10, x23, #0xfffffffffffffff8
	add	x12, x8, x11
	add	x13, x11, x19
	sub	x11, x11, x10
	add	x12, x9, x12
	add	x13, x25, x13
	add	x12, x12, #4
.LBB47_54:
	ldr	d0, [x12], #8
	adds	x11, x11, #8
	str	d0, [x13], #8
	b.ne	.LBB47_54
	cmp	x23, x10
	b.eq	.LBB47_25
	b	.LBB47_22
.LBB47_56:
	add	x12, x9, x8
	add	x13, x20, #20
	and	x11, x23, #0x18
	and	x10, x23, #0xffffffffffffffe0
	add	x12, x12, #20
	add	x13, x13, x19
	and	x14, x23, #0xffffffffffffffe0
.LBB47_57:
	ldp	q0, q1, [x12, #-16]
	subs	x14, x14, #32
	add	x12, x12, #32
	stp	q0, q1, [x13, #-16]
	add	x13, x13, #32
	b.ne	.LBB47_57
	cmp	x23, x10
	b.eq	.LBB47_63
	cbz	x11, .LBB47_16
.LBB47_60:
	mov	x11, x10
	and	x10, x23, #0xfffffffffffffff8
	add	x12, x8, x11
	add	x13, x11, x19
	sub	x11, x11, x10
	add	x12, x9, x12
	add	x13, x25, x13
	add	x12, x12, #4
.LBB47_61:
	ldr	d0, [x12], #8
	adds	x11, x11, #8
	str	d0, [x13], #8
	b.ne	.LBB47_61
	cmp	x23, x10
	b.ne	.LBB47_16
.LBB47_63:
	and	x8, x23, #0xfffffffffffffffc
	add	x9, x23, #5
	mov	w11, #1
	add	x8, x8, #8
	strh	w9, [x27]
	sub	x10, x8, x9
	add	x9, x27, x9
	strb	wzr, [x28, x23]
	cmp	x10, #3
	strh	w11, [x27, #2]
	b.eq	.LBB47_3
	cmp	x10, #2
	b.eq	.LBB47_67
	cmp	x10, #1
	b.ne	.LBB47_4
	strb	wzr, [x9]
	b	.LBB47_4
.LBB47_67:
	strh	wzr, [x9]
	b	.LBB47_4
.LBB47_68:
	mov	x19, xzr
.LBB47_69:
	mov	x0, x19
	ldp	x20, x19, [sp, #80]
	ldp	x22, x21, [sp, #64]
	ldp	x24, x23, [sp, #48]
	ldp	x26, x25, [sp, #32]
	ldp	x28, x27, [sp, #16]
	ldp	x29, x30, [sp], #96
	ret
.Lfunc_end47:
	.size	nla_wire.members.write_each.49064c0641319ce4, .Lfunc_end47-nla_wire.members.write_each.49064c0641319ce4

	.section	.text.nla_wire.members.write_each.3bb4c8661a1029f4,"ax",@progbits
	.p2align	2
	.type	nla_wire.members.write_each.3bb4c8661a1029f4,@function
nla_wire.members.write_each.3bb4c8661a1029f4:
	stp	x29, x30, [sp, #-80]!
	str	x25, [sp, #16]
	mov	x29, sp
	stp	x24, x23, [sp, #32]
	stp	x22, x21, [sp, #48]
	stp	x20, x19, [sp, #64]
	cbz	x1, .LBB48_14
	mov	x20, x2
	mov	x21, x1
	mov	x22, x0
	mov	x19, xzr
	mov	x8, xzr
	sub	x23, x3, #4
	b	.LBB48_5
.LBB48_2:
	strh	wzr, [x9]
.LBB48_3:
	add	x19, x8, x19
.LBB48_4:
	add	w8, w24, #3
	and	x8, x8, #0x1fffc
	cmp	x21, x8
	b.ls	.LBB48_15
.LBB48_5:
	sub	x21, x21, x8
	cmp	x21, #4
	b.lo	.LBB48_15
	add	x22, x22, x8
	ldrh	w24, [x22]
	cmp	w24, #4
	b.lo	.LBB48_15
	cmp	x21, x24
	b.lo	.LBB48_15
	ldrb	w8, [x22, #2]
	ldrb	w9, [x22, #3]
	bfi	w8, w9, #8, #6
	cmp	w8, #1
	b.ne	.LBB48_4
	add	x25, x20, x19
	add	x0, x22, #4
	sub	x1, x24, #4
	add	x2, x25, #4
	sub	x3, x23, x19
	bl	nla_wire.members.write_each.41ac5f0caeaa9df8
	add	x8, x0, #7
	add	x11, x0, #4
	mov	w9, #1
	and	x8, x8, #0xfffffffffffffffc
	strh	w9, [x25, #2]
	add	x9, x25, x11
	sub	x10, x8, x11
	strh	w11, [x25]
	cmp	x10, #3
	b.eq	.LBB48_13
	cmp	x10, #2
	b.eq	.LBB48_2
	cmp	x10, #1
	b.ne	.LBB48_3
	strb	wzr, [x9]
	b	.LBB48_3
.LBB48_13:
	strh	wzr, [x9]
	strb	wzr, [x9, #2]
	b	.LBB48_3
.LBB48_14:
	mov	x19, xzr
.LBB48_15:
	mov	x0, x19
	ldp	x20, x19, [sp, #64]
	ldp	x22, x21, [sp, #48]
	ldr	x25, [sp, #16]
	ldp	x24, x23, [sp, #32]
	ldp	x29, x30, [sp], #80
	ret
.Lfunc_end48:
	.size	nla_wire.members.write_each.3bb4c8661a1029f4, .Lfunc_end48-nla_wire.members.write_each.3bb4c8661a1029f4

	.section	.text.nla_wire.members.write_each.41ac5f0caeaa9df8,"ax",@progbits
	.p2align	2
	.type	nla_wire.members.write_each.41ac5f0caeaa9df8,@function
nla_wire.members.write_each.41ac5f0caeaa9df8:
	sub	sp, sp, #176
	stp	x29, x30, [sp, #80]
	add	x29, sp, #80
	stp	x28, x27, [sp, #96]
	stp	x26, x25, [sp, #112]
	stp	x24, x23, [sp, #128]
	stp	x22, x21, [sp, #144]
	stp	x20, x19, [sp, #160]
	cbz	x1, .LBB49_65
	add	x8, sp, #32
	mov	x20, x2
	mov	x21, x1
	mov	x22, x0
	mov	x19, xzr
	mov	x26, xzr
	add	x23, x8, #4
	add	x25, x2, #4
	b	.LBB49_6
.LBB49_2:
	ldr	w8, [x22, #8]
	sub	w8, w8, #1
	cmn	w8, #2
	ldr	w8, [x22, #4]
	cset	w9, lo
	str	w9, [x27, #8]
	mov	w9, #12
	movk	w9, #4, lsl #16
.LBB49_3:
	stp	w9, w8, [x27]
.LBB49_4:
	mov	w8, #12
.LBB49_5:
	cmp	x21, x26
	add	x19, x8, x19
	b.ls	.LBB49_66
.LBB49_6:
	sub	x21, x21, x26
	cmp	x21, #4
	b.lo	.LBB49_66
	mov	x9, x22
	add	x22, x22, x26
	mov	x8, x26
	ldrh	w28, [x22]
	cmp	w28, #4
	b.lo	.LBB49_66
	cmp	x21, x28
	b.lo	.LBB49_66
	ldrh	w24, [x22, #2]
	add	w12, w28, #3
	sub	x1, x28, #4
	and	x26, x12, #0x1fffc
	add	x27, x20, x19
	and	w10, w24, #0x3fff
	sub	w11, w10, #1
	add	x10, x22, #4
	cmp	w11, #12
	b.hi	.LBB49_30
	adrp	x8, .LJTI49_0
	add	x8, x8, :lo12:.LJTI49_0
	adr	x9, .LBB49_2
	ldrb	w12, [x8, x11]
	add	x9, x9, x12, lsl #2
	br	x9
.LBB49_11:
	add	x8, x27, #8
	ldur	q0, [x22, #8]
	ldur	q1, [x22, #24]
	ldr	w9, [x22, #4]
	sub	x10, x8, x23
	cmp	x10, #31
	stp	q0, q1, [sp]
	stp	q0, q1, [x23]
	str	w9, [x27, #4]
	b.hi	.LBB49_46
	ldur	q0, [sp, #36]
	ldur	q1, [sp, #52]
	stur	q0, [x27, #8]
	stur	q1, [x27, #24]
	b	.LBB49_47
.LBB49_13:
	add	x0, x22, #4
	add	x2, x27, #4
	bl	nla_wire.members.write_each.9a0187163d44de3c
	add	x8, x0, #7
	add	x11, x0, #4
	mov	w9, #12
	and	x8, x8, #0xfffffffffffffffc
	strh	w9, [x27, #2]
	add	x9, x27, x11
	sub	x10, x8, x11
	strh	w11, [x27]
	cmp	x10, #3
	b.eq	.LBB49_55
	cmp	x10, #2
	b.eq	.LBB49_26
.LBB49_15:
	cmp	x10, #1
	b.ne	.LBB49_5
	strb	wzr, [x9]
	b	.LBB49_5
.LBB49_17:
	ldp	w10, w9, [x22, #4]
	mov	w8, #3
	cmp	w9, #3
	str	w10, [x27, #4]
	csel	w8, w9, w8, lo
	cmp	w8, #1
	b.gt	.LBB49_40
	cbz	w8, .LBB49_42
	mov	w8, #1
	b	.LBB49_42
.LBB49_20:
	add	x8, x27, #4
	add	x9, sp, #32
	ldp	q0, q1, [x10]
	sub	x9, x8, x9
	cmp	x9, #31
	stp	q0, q1, [sp, #32]
	b.hi	.LBB49_44
	ldp	q0, q1, [sp, #32]
	stur	q0, [x27, #4]
	stur	q1, [x27, #20]
	b	.LBB49_45
.LBB49_22:
	ldr	w8, [x22, #4]
	ldur	x9, [x22, #12]
	mov	w10, #20
	movk	w10, #10, lsl #16
	str	wzr, [x27, #8]
	b	.LBB49_38
.LBB49_23:
	ldr	d0, [x10]
	mov	w8, #12
	movk	w8, #3, lsl #16
	stur	d0, [x27, #4]
	b	.LBB49_43
.LBB49_24:
	add	x0, x22, #4
	add	x2, x27, #4
	bl	nla_wire.members.write_each.5361511d0f913a98
	add	x8, x0, #7
	add	x11, x0, #4
	mov	w9, #8
	and	x8, x8, #0xfffffffffffffffc
	strh	w9, [x27, #2]
	add	x9, x27, x11
	sub	x10, x8, x11
	strh	w11, [x27]
	cmp	x10, #3
	b.eq	.LBB49_55
	cmp	x10, #2
	b.ne	.LBB49_15
.LBB49_26:
	strh	wzr, [x9]
	b	.LBB49_5
.LBB49_27:
	ldur	d0, [x22, #4]
	ldr	w8, [x22, #12]
	mov	w9, #16
	movk	w9, #2, lsl #16
	b	.LBB49_29
.LBB49_28:
	ldur	d0, [x22, #4]
	ldr	w8, [x22, #12]
	mov	w9, #16
	movk	w9, #6, lsl #16
.LBB49_29:
	stur	d0, [x27, #4]
	str	w8, [x27, #12]
	mov	w8, #16
	str	w9, [x27]
	b	.LBB49_5
.LBB49_30:
	add	x11, x27, #4
	sub	x10, x11, x10
	cmp	x10, x1
	b.hs	.LBB49_48
	cmp	x1, #8
	b.lo	.LBB49_33
	add	x10, x19, x20
	add	x11, x8, x9
	sub	x10, x10, x11
	cmp	x10, #32
	b.hs	.LBB49_56
.LBB49_33:
	mov	x10, xzr
.LBB49_34:
	add	x8, x10, x8
	sub	x11, x28, x10
	add	x10, x10, x19
	add	x9, x9, x8
	sub	x8, x11, #4
	add	x10, x25, x10
	add	x9, x9, #4
.LBB49_35:
	ldrb	w11, [x9], #1
	subs	x8, x8, #1
	strb	w11, [x10], #1
	b.ne	.LBB49_35
	b	.LBB49_49
.LBB49_36:
	ldr	w8, [x22, #8]
	sub	w8, w8, #1
	cmn	w8, #2
	ldr	w8, [x22, #4]
	cset	w9, lo
	str	w9, [x27, #8]
	mov	w9, #12
	movk	w9, #7, lsl #16
	b	.LBB49_3
.LBB49_37:
	ldr	w8, [x22, #4]
	ldur	x9, [x22, #12]
	mov	w10, #20
	str	wzr, [x27, #8]
	movk	w10, #11, lsl #16
.LBB49_38:
	stp	w10, w8, [x27]
	mov	w8, #20
	stur	x9, [x27, #12]
	b	.LBB49_5
.LBB49_39:
	ldr	w8, [x22, #8]
	sub	w8, w8, #1
	cmn	w8, #2
	ldr	w8, [x22, #4]
	cset	w9, lo
	str	w9, [x27, #8]
	mov	w9, #12
	movk	w9, #9, lsl #16
	b	.LBB49_3
.LBB49_40:
	cmp	w8, #2
	mov	w8, w9
	b.ne	.LBB49_42
	mov	w8, #2
.LBB49_42:
	str	w8, [x27, #8]
	mov	w8, #12
	movk	w8, #5, lsl #16
.LBB49_43:
	str	w8, [x27]
	b	.LBB49_4
.LBB49_44:
	ldp	q1, q0, [x10]
	stp	q1, q0, [x8]
.LBB49_45:
	mov	w8, #36
	movk	w8, #13, lsl #16
	str	w8, [x27]
	mov	w8, #36
	b	.LBB49_5
.LBB49_46:
	ldp	q0, q1, [sp]
	stp	q0, q1, [x8]
.LBB49_47:
	mov	w8, #40
	movk	w8, #1, lsl #16
	str	w8, [x27]
	mov	w8, #40
	b	.LBB49_5
.LBB49_48:
	add	x0, x27, #4
	add	x1, x22, #4
	sub	x2, x28, #4
	bl	memmove
.LBB49_49:
	sub	x8, x26, x28
	add	x9, x27, x28
	strh	w28, [x27]
	cmp	x8, #3
	strh	w24, [x27, #2]
	b.eq	.LBB49_54
	cmp	x8, #2
	b.eq	.LBB49_53
	cmp	x8, #1
	mov	x8, x26
	b.ne	.LBB49_5
	strb	wzr, [x9]
	mov	x8, x26
	b	.LBB49_5
.LBB49_53:
	strh	wzr, [x9]
	mov	x8, x26
	b	.LBB49_5
.LBB49_54:
	mov	x8, x26
.LBB49_55:
	strh	wzr, [x9]
	strb	wzr, [x9, #2]
	b	.LBB49_5
.LBB49_56:
	cmp	x1, #32
	b.hs	.LBB49_58
	mov	x10, xzr
	b	.LBB49_62
.LBB49_58:
	add	x13, x9, x8
	add	x12, x20, #20
	and	x11, x1, #0x18
	and	x10, x1, #0xffffffffffffffe0
	add	x12, x12, x19
	add	x13, x13, #20
	and	x14, x1, #0xffffffffffffffe0
.LBB49_59:
	ldp	q0, q1, [x13, #-16]
	subs	x14, x14, #32
	add	x13, x13, #32
	stp	q0, q1, [x12, #-16]
	add	x12, x12, #32
	b.ne	.LBB49_59
	cmp	x1, x10
	b.eq	.LBB49_49
	cbz	x11, .LBB49_34
.LBB49_62:
	mov	x11, x10
	and	x10, x1, #0xfffffffffffffff8
	add	x12, x11, x8
	add	x13, x11, x19
	sub	x11, x11, x10
	add	x12, x9, x12
	add	x13, x25, x13
	add	x12, x12, #4
.LBB49_63:
	ldr	d0, [x12], #8
	adds	x11, x11, #8
	str	d0, [x13], #8
	b.ne	.LBB49_63
	cmp	x1, x10
	b.eq	.LBB49_49
	b	.LBB49_34
.LBB49_65:
	mov	x19, xzr
.LBB49_66:
	mov	x0, x19
	ldp	x20, x19, [sp, #160]
	ldp	x22, x21, [sp, #144]
	ldp	x24, x23, [sp, #128]
	ldp	x26, x25, [sp, #112]
	ldp	x28, x27, [sp, #96]
	ldp	x29, x30, [sp, #80]
	add	sp, sp, #176
	ret
.Lfunc_end49:
	.size	nla_wire.members.write_each.41ac5f0caeaa9df8, .Lfunc_end49-nla_wire.members.write_each.41ac5f0caeaa9df8
	.section	.rodata.nla_wire.members.write_each.41ac5f0caeaa9df8,"a",@progbits
.LJTI49_0:
	.byte	(.LBB49_11-.LBB49_2)>>2
	.byte	(.LBB49_27-.LBB49_2)>>2
	.byte	(.LBB49_23-.LBB49_2)>>2
	.byte	(.LBB49_2-.LBB49_2)>>2
	.byte	(.LBB49_17-.LBB49_2)>>2
	.byte	(.LBB49_28-.LBB49_2)>>2
	.byte	(.LBB49_36-.LBB49_2)>>2
	.byte	(.LBB49_24-.LBB49_2)>>2
	.byte	(.LBB49_39-.LBB49_2)>>2
	.byte	(.LBB49_22-.LBB49_2)>>2
	.byte	(.LBB49_37-.LBB49_2)>>2
	.byte	(.LBB49_13-.LBB49_2)>>2
	.byte	(.LBB49_20-.LBB49_2)>>2

	.section	.text.nla_wire.members.write_each.5361511d0f913a98,"ax",@progbits
	.p2align	2
	.type	nla_wire.members.write_each.5361511d0f913a98,@function
nla_wire.members.write_each.5361511d0f913a98:
	cbz	x1, .LBB50_2
	stp	x29, x30, [sp, #-96]!
	stp	x22, x21, [sp, #64]
	mov	x22, xzr
	add	x21, x2, #4
	stp	x20, x19, [sp, #80]
	mov	x19, x0
	mov	x0, xzr
	add	x20, x2, #20
	stp	x28, x27, [sp, #16]
	mov	x29, sp
	stp	x26, x25, [sp, #32]
	stp	x24, x23, [sp, #48]
	b	.LBB50_7
.LBB50_2:
	mov	x0, xzr
	ret
.LBB50_3:
	ldrb	w8, [x19, #4]
	strb	w8, [x23, #4]
	ldrb	w8, [x19, #5]
	strb	w8, [x23, #5]
	ldrb	w8, [x19, #6]
	strb	w8, [x23, #6]
	ldrb	w8, [x19, #7]
	strb	w8, [x23, #7]
	ldrb	w8, [x19, #8]
	strb	w8, [x23, #8]
	ldrb	w8, [x19, #9]
	strb	w8, [x23, #9]
	ldrb	w8, [x19, #10]
	strb	w8, [x23, #10]
	ldrb	w8, [x19, #11]
	strb	w8, [x23, #11]
.LBB50_4:
	mov	w8, #12
	movk	w8, #2, lsl #16
.LBB50_5:
	str	w8, [x23]
	mov	w8, #12
.LBB50_6:
	cmp	x1, x22
	add	x0, x8, x0
	b.ls	.LBB50_68
.LBB50_7:
	sub	x1, x1, x22
	cmp	x1, #4
	b.lo	.LBB50_68
	mov	x9, x19
	add	x19, x19, x22
	mov	x8, x22
	ldrh	w24, [x19]
	cmp	w24, #4
	b.lo	.LBB50_68
	cmp	x1, x24
	b.lo	.LBB50_68
	ldrh	w25, [x19, #2]
	add	x23, x2, x0
	add	x10, x19, #4
	add	w12, w24, #3
	add	x11, x23, #4
	and	w13, w25, #0x3fff
	and	x22, x12, #0x1fffc
	sub	x12, x11, x10
	cmp	w13, #3
	b.gt	.LBB50_16
	cmp	w13, #1
	b.gt	.LBB50_21
	cbz	w13, .LBB50_29
	cmp	w13, #1
	b.ne	.LBB50_37
	cmp	x12, #7
	b.hi	.LBB50_47
	ldrb	w8, [x19, #4]
	strb	w8, [x23, #4]
	ldrb	w8, [x19, #5]
	strb	w8, [x23, #5]
	ldrb	w8, [x19, #6]
	strb	w8, [x23, #6]
	ldrb	w8, [x19, #7]
	strb	w8, [x23, #7]
	ldrb	w8, [x19, #8]
	strb	w8, [x23, #8]
	ldrb	w8, [x19, #9]
	strb	w8, [x23, #9]
	ldrb	w8, [x19, #10]
	strb	w8, [x23, #10]
	ldrb	w8, [x19, #11]
	strb	w8, [x23, #11]
	b	.LBB50_48
.LBB50_16:
	cmp	w13, #6
	b.gt	.LBB50_25
	cmp	w13, #4
	b.eq	.LBB50_31
	cmp	w13, #5
	b.ne	.LBB50_37
	cmp	x12, #7
	b.hi	.LBB50_49
	ldrb	w8, [x19, #4]
	strb	w8, [x23, #4]
	ldrb	w8, [x19, #5]
	strb	w8, [x23, #5]
	ldrb	w8, [x19, #6]
	strb	w8, [x23, #6]
	ldrb	w8, [x19, #7]
	strb	w8, [x23, #7]
	ldrb	w8, [x19, #8]
	strb	w8, [x23, #8]
	ldrb	w8, [x19, #9]
	strb	w8, [x23, #9]
	ldrb	w8, [x19, #10]
	strb	w8, [x23, #10]
	ldrb	w8, [x19, #11]
	strb	w8, [x23, #11]
	mov	w8, #12
	movk	w8, #5, lsl #16
	b	.LBB50_5
.LBB50_21:
	cmp	w13, #2
	b.eq	.LBB50_33
	cmp	w13, #3
	b.ne	.LBB50_37
	cmp	x12, #7
	b.hi	.LBB50_50
	ldrb	w8, [x19, #4]
	strb	w8, [x23, #4]
	ldrb	w8, [x19, #5]
	strb	w8, [x23, #5]
	ldrb	w8, [x19, #6]
	strb	w8, [x23, #6]
	ldrb	w8, [x19, #7]
	strb	w8, [x23, #7]
	ldrb	w8, [x19, #8]
	strb	w8, [x23, #8]
	ldrb	w8, [x19, #9]
	strb	w8, [x23, #9]
	ldrb	w8, [x19, #10]
	strb	w8, [x23, #10]
	ldrb	w8, [x19, #11]
	strb	w8, [x23, #11]
	mov	w8, #12
	movk	w8, #3, lsl #16
	b	.LBB50_5
.LBB50_25:
	cmp	w13, #7
	b.eq	.LBB50_35
	cmp	w13, #8
	b.ne	.LBB50_37
	cmp	x12, #7
	b.hi	.LBB50_51
	ldrb	w8, [x19, #4]
	strb	w8, [x23, #4]
	ldrb	w8, [x19, #5]
	strb	w8, [x23, #5]
	ldrb	w8, [x19, #6]
	strb	w8, [x23, #6]
	ldrb	w8, [x19, #7]
	strb	w8, [x23, #7]
	ldrb	w8, [x19, #8]
	strb	w8, [x23, #8]
	ldrb	w8, [x19, #9]
	strb	w8, [x23, #9]
	ldrb	w8, [x19, #10]
	strb	w8, [x23, #10]
	ldrb	w8, [x19, #11]
	strb	w8, [x23, #11]
	mov	w8, #12
	movk	w8, #8, lsl #16
	b	.LBB50_5
.LBB50_29:
	cmp	x12, #7
	b.hi	.LBB50_43
	ldrb	w8, [x19, #4]
	strb	w8, [x23, #4]
	ldrb	w8, [x19, #5]
	strb	w8, [x23, #5]
	ldrb	w8, [x19, #6]
	strb	w8, [x23, #6]
	ldrb	w8, [x19, #7]
	strb	w8, [x23, #7]
	ldrb	w8, [x19, #8]
	strb	w8, [x23, #8]
	ldrb	w8, [x19, #9]
	strb	w8, [x23, #9]
	ldrb	w8, [x19, #10]
	strb	w8, [x23, #10]
	ldrb	w8, [x19, #11]
	strb	w8, [x23, #11]
	b	.LBB50_44
.LBB50_31:
	cmp	x12, #7
	b.hi	.LBB50_45
	ldrb	w8, [x19, #4]
	strb	w8, [x23, #4]
	ldrb	w8, [x19, #5]
	strb	w8, [x23, #5]
	ldrb	w8, [x19, #6]
	strb	w8, [x23, #6]
	ldrb	w8, [x19, #7]
	strb	w8, [x23, #7]
	ldrb	w8, [x19, #8]
	strb	w8, [x23, #8]
	ldrb	w8, [x19, #9]
	strb	w8, [x23, #9]
	ldrb	w8, [x19, #10]
	strb	w8, [x23, #10]
	ldrb	w8, [x19, #11]
	strb	w8, [x23, #11]
	mov	w8, #12
	movk	w8, #4, lsl #16
	b	.LBB50_5
.LBB50_33:
	cmp	x12, #7
	b.ls	.LBB50_3
	ldr	x8, [x10]
	str	x8, [x11]
	b	.LBB50_4
.LBB50_35:
	cmp	x12, #7
	b.hi	.LBB50_46
	ldrb	w8, [x19, #4]
	strb	w8, [x23, #4]
	ldrb	w8, [x19, #5]
	strb	w8, [x23, #5]
	ldrb	w8, [x19, #6]
	strb	w8, [x23, #6]
	ldrb	w8, [x19, #7]
	strb	w8, [x23, #7]
	ldrb	w8, [x19, #8]
	strb	w8, [x23, #8]
	ldrb	w8, [x19, #9]
	strb	w8, [x23, #9]
	ldrb	w8, [x19, #10]
	strb	w8, [x23, #10]
	ldrb	w8, [x19, #11]
	strb	w8, [x23, #11]
	mov	w8, #12
	movk	w8, #7, lsl #16
	b	.LBB50_5
.LBB50_37:
	sub	x10, x24, #4
	cmp	x12, x10
	b.hs	.LBB50_52
	cmp	x10, #8
	b.lo	.LBB50_40
	add	x11, x0, x2
	add	x12, x8, x9
	sub	x11, x11, x12
	cmp	x11, #32
	b.hs	.LBB50_59
.LBB50_40:
	mov	x11, xzr
.LBB50_41:
	add	x8, x11, x8
	sub	x10, x24, x11
	add	x11, x11, x0
	add	x9, x9, x8
	sub	x8, x10, #4
	add	x10, x21, x11
	add	x9, x9, #4
.LBB50_42:
	ldrb	w11, [x9], #1
	subs	x8, x8, #1
	strb	w11, [x10], #1
	b.ne	.LBB50_42
	b	.LBB50_53
.LBB50_43:
	ldr	x8, [x10]
	str	x8, [x11]
.LBB50_44:
	mov	w8, #12
	str	w8, [x23]
	b	.LBB50_6
.LBB50_45:
	ldr	x8, [x10]
	str	x8, [x11]
	mov	w8, #12
	movk	w8, #4, lsl #16
	b	.LBB50_5
.LBB50_46:
	ldr	x8, [x10]
	str	x8, [x11]
	mov	w8, #12
	movk	w8, #7, lsl #16
	b	.LBB50_5
.LBB50_47:
	ldr	x8, [x10]
	str	x8, [x11]
.LBB50_48:
	mov	w8, #12
	movk	w8, #1, lsl #16
	b	.LBB50_5
.LBB50_49:
	ldr	x8, [x10]
	str	x8, [x11]
	mov	w8, #12
	movk	w8, #5, lsl #16
	b	.LBB50_5
.LBB50_50:
	ldr	x8, [x10]
	str	x8, [x11]
	mov	w8, #12
	movk	w8, #3, lsl #16
	b	.LBB50_5
.LBB50_51:
	ldr	x8, [x10]
	str	x8, [x11]
	mov	w8, #12
	movk	w8, #8, lsl #16
	b	.LBB50_5
.LBB50_52:
	mov	x26, x0
	add	x0, x23, #4
	mov	x27, x1
	add	x1, x19, #4
	mov	x28, x2
	sub	x2, x24, #4
	bl	memmove
	mov	x1, x27
	mov	x2, x28
	mov	x0, x26
.LBB50_53:
	sub	x8, x22, x24
	add	x9, x23, x24
	strh	w24, [x23]
	cmp	x8, #3
	strh	w25, [x23, #2]
	b.eq	.LBB50_58
	cmp	x8, #2
	b.eq	.LBB50_57
	cmp	x8, #1
	mov	x8, x22
	b.ne	.LBB50_6
	strb	wzr, [x9]
	mov	x8, x22
	b	.LBB50_6
.LBB50_57:
	strh	wzr, [x9]
	mov	x8, x22
	b	.LBB50_6
.LBB50_58:
	mov	x8, x22
	strh	wzr, [x9]
	strb	wzr, [x9, #2]
	b	.LBB50_6
.LBB50_59:
	cmp	x10, #32
	b.hs	.LBB50_61
	mov	x11, xzr
	b	.LBB50_65
.LBB50_61:
	add	x14, x9, x8
	and	x12, x10, #0x18
	and	x11, x10, #0xffffffffffffffe0
	add	x13, x20, x0
	add	x14, x14, #20
	and	x15, x10, #0xffffffffffffffe0
.LBB50_62:
	ldp	q0, q1, [x14, #-16]
	subs	x15, x15, #32
	add	x14, x14, #32
	stp	q0, q1, [x13, #-16]
	add	x13, x13, #32
	b.ne	.LBB50_62
	cmp	x10, x11
	b.eq	.LBB50_53
	cbz	x12, .LBB50_41
.LBB50_65:
	mov	x12, x11
	and	x11, x10, #0xfffffffffffffff8
	add	x13, x8, x12
	add	x14, x12, x0
	sub	x12, x12, x11
	add	x13, x9, x13
	add	x14, x21, x14
	add	x13, x13, #4
.LBB50_66:
	ldr	d0, [x13], #8
	adds	x12, x12, #8
	str	d0, [x14], #8
	b.ne	.LBB50_66
	cmp	x10, x11
	b.eq	.LBB50_53
	b	.LBB50_41
.LBB50_68:
	ldp	x20, x19, [sp, #80]
	ldp	x22, x21, [sp, #64]
	ldp	x24, x23, [sp, #48]
	ldp	x26, x25, [sp, #32]
	ldp	x28, x27, [sp, #16]
	ldp	x29, x30, [sp], #96
	ret
.Lfunc_end50:
	.size	nla_wire.members.write_each.5361511d0f913a98, .Lfunc_end50-nla_wire.members.write_each.5361511d0f913a98

	.section	.text.nla_wire.members.write_each.9a0187163d44de3c,"ax",@progbits
	.p2align	2
	.type	nla_wire.members.write_each.9a0187163d44de3c,@function
nla_wire.members.write_each.9a0187163d44de3c:
	stp	x29, x30, [sp, #-96]!
	stp	x28, x27, [sp, #16]
	mov	x29, sp
	stp	x26, x25, [sp, #32]
	stp	x24, x23, [sp, #48]
	stp	x22, x21, [sp, #64]
	stp	x20, x19, [sp, #80]
	cbz	x1, .LBB51_30
	mov	x20, x2
	mov	x21, x1
	mov	x22, x0
	mov	x19, xzr
	mov	x25, xzr
	add	x23, x2, #20
	add	x24, x2, #4
	b	.LBB51_4
.LBB51_2:
	ldrh	w8, [x22, #16]
	ldr	w9, [x22, #12]
	mov	w10, #34984
	ldur	d0, [x22, #4]
	strh	wzr, [x26, #18]
	rev	w8, w8
	str	w9, [x26, #12]
	mov	w9, #-22392
	cmp	w10, w8, lsr #16
	mov	w8, #129
	stur	d0, [x26, #4]
	csel	w8, w9, w8, eq
	mov	w9, #20
	movk	w9, #1, lsl #16
	strh	w8, [x26, #16]
	str	w9, [x26]
	mov	w9, #20
.LBB51_3:
	cmp	x21, x25
	add	x19, x9, x19
	b.ls	.LBB51_31
.LBB51_4:
	sub	x21, x21, x25
	cmp	x21, #4
	b.lo	.LBB51_31
	mov	x9, x22
	add	x22, x22, x25
	mov	x8, x25
	ldrh	w27, [x22]
	cmp	w27, #4
	b.lo	.LBB51_31
	cmp	x21, x27
	b.lo	.LBB51_31
	ldrh	w28, [x22, #2]
	add	w11, w27, #3
	add	x26, x20, x19
	and	x25, x11, #0x1fffc
	and	w10, w28, #0x3fff
	cmp	w10, #1
	b.eq	.LBB51_2
	add	x11, x22, #4
	add	x12, x26, #4
	sub	x10, x27, #4
	sub	x11, x12, x11
	cmp	x11, x10
	b.hs	.LBB51_14
	cmp	x10, #8
	b.lo	.LBB51_11
	add	x11, x19, x20
	add	x12, x8, x9
	sub	x11, x11, x12
	cmp	x11, #32
	b.hs	.LBB51_21
.LBB51_11:
	mov	x11, xzr
.LBB51_12:
	add	x8, x11, x8
	sub	x10, x27, x11
	add	x11, x11, x19
	add	x9, x9, x8
	sub	x8, x10, #4
	add	x10, x24, x11
	add	x9, x9, #4
.LBB51_13:
	ldrb	w11, [x9], #1
	subs	x8, x8, #1
	strb	w11, [x10], #1
	b.ne	.LBB51_13
	b	.LBB51_15
.LBB51_14:
	add	x0, x26, #4
	add	x1, x22, #4
	sub	x2, x27, #4
	bl	memmove
.LBB51_15:
	sub	x9, x25, x27
	add	x8, x26, x27
	strh	w27, [x26]
	cmp	x9, #3
	strh	w28, [x26, #2]
	b.eq	.LBB51_20
	cmp	x9, #2
	b.eq	.LBB51_19
	cmp	x9, #1
	mov	x9, x25
	b.ne	.LBB51_3
	strb	wzr, [x8]
	mov	x9, x25
	b	.LBB51_3
.LBB51_19:
	strh	wzr, [x8]
	mov	x9, x25
	b	.LBB51_3
.LBB51_20:
	mov	x9, x25
	strh	wzr, [x8]
	strb	wzr, [x8, #2]
	b	.LBB51_3
.LBB51_21:
	cmp	x10, #32
	b.hs	.LBB51_23
	mov	x11, xzr
	b	.LBB51_27
.LBB51_23:
	add	x14, x9, x8
	and	x12, x10, #0x18
	and	x11, x10, #0xffffffffffffffe0
	add	x13, x23, x19
	add	x14, x14, #20
	and	x15, x10, #0xffffffffffffffe0
.LBB51_24:
	ldp	q0, q1, [x14, #-16]
	subs	x15, x15, #32
	add	x14, x14, #32
	stp	q0, q1, [x13, #-16]
	add	x13, x13, #32
	b.ne	.LBB51_24
	cmp	x10, x11
	b.eq	.LBB51_15
	cbz	x12, .LBB51_12
.LBB51_27:
	mov	x12, x11
	and	x11, x10, #0xfffffffffffffff8
	add	x13, x8, x12
	add	x14, x12, x19
	sub	x12, x12, x11
	add	x13, x9, x13
	add	x14, x24, x14
	add	x13, x13, #4
.LBB51_28:
	ldr	d0, [x13], #8
	adds	x12, x12, #8
	str	d0, [x14], #8
	b.ne	.LBB51_28
	cmp	x10, x11
	b.eq	.LBB51_15
	b	.LBB51_12
.LBB51_30:
	mov	x19, xzr
.LBB51_31:
	mov	x0, x19
	ldp	x20, x19, [sp, #80]
	ldp	x22, x21, [sp, #64]
	ldp	x24, x23, [sp, #48]
	ldp	x26, x25, [sp, #32]
	ldp	x28, x27, [sp, #16]
	ldp	x29, x30, [sp], #96
	ret
.Lfunc_end51:
	.size	nla_wire.members.write_each.9a0187163d44de3c, .Lfunc_end51-nla_wire.members.write_each.9a0187163d44de3c

	.section	.text.nla_wire.members.write_each.79503c7a397af21a,"ax",@progbits
	.p2align	2
	.type	nla_wire.members.write_each.79503c7a397af21a,@function
nla_wire.members.write_each.79503c7a397af21a:
	stp	x29, x30, [sp, #-64]!
	stp	x24, x23, [sp, #16]
	mov	x29, sp
	stp	x22, x21, [sp, #32]
	stp	x20, x19, [sp, #48]
	cbz	x1, .LBB52_14
	mov	x20, x2
	mov	x21, x1
	mov	x22, x0
	mov	x19, xzr
	mov	x8, xzr
	b	.LBB52_5
.LBB52_2:
	strh	wzr, [x9]
.LBB52_3:
	add	x19, x8, x19
.LBB52_4:
	add	w8, w23, #3
	and	x8, x8, #0x1fffc
	cmp	x21, x8
	b.ls	.LBB52_15
.LBB52_5:
	sub	x21, x21, x8
	cmp	x21, #4
	b.lo	.LBB52_15
	add	x22, x22, x8
	ldrh	w23, [x22]
	cmp	w23, #4
	b.lo	.LBB52_15
	cmp	x21, x23
	b.lo	.LBB52_15
	ldrb	w8, [x22, #2]
	ldrb	w9, [x22, #3]
	bfi	w8, w9, #8, #6
	cmp	w8, #1
	b.ne	.LBB52_4
	add	x24, x20, x19
	add	x0, x22, #4
	sub	x1, x23, #4
	add	x2, x24, #4
	bl	nla_wire.members.write_each.1f0cb788f492ced5
	add	x8, x0, #7
	add	x11, x0, #4
	mov	w9, #1
	and	x8, x8, #0xfffffffffffffffc
	strh	w9, [x24, #2]
	add	x9, x24, x11
	sub	x10, x8, x11
	strh	w11, [x24]
	cmp	x10, #3
	b.eq	.LBB52_13
	cmp	x10, #2
	b.eq	.LBB52_2
	cmp	x10, #1
	b.ne	.LBB52_3
	strb	wzr, [x9]
	b	.LBB52_3
.LBB52_13:
	strh	wzr, [x9]
	strb	wzr, [x9, #2]
	b	.LBB52_3
.LBB52_14:
	mov	x19, xzr
.LBB52_15:
	mov	x0, x19
	ldp	x20, x19, [sp, #48]
	ldp	x22, x21, [sp, #32]
	ldp	x24, x23, [sp, #16]
	ldp	x29, x30, [sp], #64
	ret
.Lfunc_end52:
	.size	nla_wire.members.write_each.79503c7a397af21a, .Lfunc_end52-nla_wire.members.write_each.79503c7a397af21a

	.section	.text.nla_wire.members.write_each.8ba1f663fcd59a5e,"ax",@progbits
	.p2align	2
	.type	nla_wire.members.write_each.8ba1f663fcd59a5e,@function
nla_wire.members.write_each.8ba1f663fcd59a5e:
	cbz	x1, .LBB53_65
	stp	x29, x30, [sp, #-96]!
	stp	x22, x21, [sp, #64]
	mov	x22, xzr
	add	x21, x2, #4
	stp	x20, x19, [sp, #80]
	mov	x19, x0
	mov	x0, xzr
	add	x20, x2, #20
	stp	x28, x27, [sp, #16]
	mov	x29, sp
	stp	x26, x25, [sp, #32]
	stp	x24, x23, [sp, #48]
.LBB53_2:
	sub	x1, x1, x22
	cmp	x1, #4
	b.lo	.LBB53_64
	mov	x9, x19
	add	x19, x19, x22
	mov	x8, x22
	ldrh	w24, [x19]
	cmp	w24, #4
	b.lo	.LBB53_64
	cmp	x1, x24
	b.lo	.LBB53_64
	ldrh	w25, [x19, #2]
	add	w11, w24, #3
	add	x23, x2, x0
	add	x12, x19, #4
	and	x22, x11, #0x1fffc
	add	x11, x23, #4
	and	w10, w25, #0x3fff
	cmp	w10, #4
	b.gt	.LBB53_10
	cmp	w10, #2
	b.gt	.LBB53_15
	cmp	w10, #1
	b.eq	.LBB53_23
	cmp	w10, #2
	b.ne	.LBB53_31
	ldrb	w8, [x12]
	mov	w9, #5
	sturh	wzr, [x23, #5]
	movk	w9, #2, lsl #16
	strb	wzr, [x23, #7]
	str	w9, [x23]
	strb	w8, [x23, #4]
	b	.LBB53_46
.LBB53_10:
	cmp	w10, #6
	b.gt	.LBB53_19
	cmp	w10, #5
	b.eq	.LBB53_25
	cmp	w10, #6
	b.ne	.LBB53_31
	sub	x8, x11, x12
	cmp	x8, #3
	b.hi	.LBB53_42
	ldrb	w8, [x19, #4]
	strb	w8, [x23, #4]
	ldrb	w8, [x19, #5]
	strb	w8, [x23, #5]
	ldrb	w8, [x19, #6]
	strb	w8, [x23, #6]
	ldrb	w8, [x19, #7]
	strb	w8, [x23, #7]
	mov	w8, #8
	movk	w8, #6, lsl #16
	b	.LBB53_45
.LBB53_15:
	cmp	w10, #3
	b.eq	.LBB53_27
	cmp	w10, #4
	b.ne	.LBB53_31
	sub	x8, x11, x12
	cmp	x8, #3
	b.hi	.LBB53_43
	ldrb	w8, [x19, #4]
	strb	w8, [x23, #4]
	ldrb	w8, [x19, #5]
	strb	w8, [x23, #5]
	ldrb	w8, [x19, #6]
	strb	w8, [x23, #6]
	ldrb	w8, [x19, #7]
	strb	w8, [x23, #7]
	mov	w8, #8
	movk	w8, #4, lsl #16
	b	.LBB53_45
.LBB53_19:
	cmp	w10, #7
	b.eq	.LBB53_29
	cmp	w10, #8
	b.ne	.LBB53_31
	sub	x8, x11, x12
	cmp	x8, #3
	b.hi	.LBB53_44
	ldrb	w8, [x19, #4]
	strb	w8, [x23, #4]
	ldrb	w8, [x19, #5]
	strb	w8, [x23, #5]
	ldrb	w8, [x19, #6]
	strb	w8, [x23, #6]
	ldrb	w8, [x19, #7]
	strb	w8, [x23, #7]
	mov	w8, #524296
	b	.LBB53_45
.LBB53_23:
	sub	x8, x11, x12
	cmp	x8, #3
	b.hi	.LBB53_37
	ldrb	w8, [x19, #4]
	strb	w8, [x23, #4]
	ldrb	w8, [x19, #5]
	strb	w8, [x23, #5]
	ldrb	w8, [x19, #6]
	strb	w8, [x23, #6]
	ldrb	w8, [x19, #7]
	strb	w8, [x23, #7]
	b	.LBB53_38
.LBB53_25:
	sub	x8, x11, x12
	cmp	x8, #3
	b.hi	.LBB53_39
	ldrb	w8, [x19, #4]
	strb	w8, [x23, #4]
	ldrb	w8, [x19, #5]
	strb	w8, [x23, #5]
	ldrb	w8, [x19, #6]
	strb	w8, [x23, #6]
	ldrb	w8, [x19, #7]
	strb	w8, [x23, #7]
	mov	w8, #8
	movk	w8, #5, lsl #16
	b	.LBB53_45
.LBB53_27:
	sub	x8, x11, x12
	cmp	x8, #3
	b.hi	.LBB53_40
	ldrb	w8, [x19, #4]
	strb	w8, [x23, #4]
	ldrb	w8, [x19, #5]
	strb	w8, [x23, #5]
	ldrb	w8, [x19, #6]
	strb	w8, [x23, #6]
	ldrb	w8, [x19, #7]
	strb	w8, [x23, #7]
	mov	w8, #8
	movk	w8, #3, lsl #16
	b	.LBB53_45
.LBB53_29:
	sub	x8, x11, x12
	cmp	x8, #3
	b.hi	.LBB53_41
	ldrb	w8, [x19, #4]
	strb	w8, [x23, #4]
	ldrb	w8, [x19, #5]
	strb	w8, [x23, #5]
	ldrb	w8, [x19, #6]
	strb	w8, [x23, #6]
	ldrb	w8, [x19, #7]
	strb	w8, [x23, #7]
	mov	w8, #8
	movk	w8, #7, lsl #16
	b	.LBB53_45
.LBB53_31:
	sub	x10, x24, #4
	sub	x11, x11, x12
	cmp	x11, x10
	b.hs	.LBB53_48
	cmp	x10, #8
	b.lo	.LBB53_34
	add	x11, x0, x2
	add	x12, x8, x9
	sub	x11, x11, x12
	cmp	x11, #32
	b.hs	.LBB53_55
.LBB53_34:
	mov	x11, xzr
.LBB53_35:
	add	x8, x11, x8
	sub	x10, x24, x11
	add	x11, x11, x0
	add	x9, x9, x8
	sub	x8, x10, #4
	add	x10, x21, x11
	add	x9, x9, #4
.LBB53_36:
	ldrb	w11, [x9], #1
	subs	x8, x8, #1
	strb	w11, [x10], #1
	b.ne	.LBB53_36
	b	.LBB53_49
.LBB53_37:
	ldr	w8, [x12]
	str	w8, [x11]
.LBB53_38:
	mov	w8, #8
	movk	w8, #1, lsl #16
	b	.LBB53_45
.LBB53_39:
	ldr	w8, [x12]
	str	w8, [x11]
	mov	w8, #8
	movk	w8, #5, lsl #16
	b	.LBB53_45
.LBB53_40:
	ldr	w8, [x12]
	str	w8, [x11]
	mov	w8, #8
	movk	w8, #3, lsl #16
	b	.LBB53_45
.LBB53_41:
	ldr	w8, [x12]
	str	w8, [x11]
	mov	w8, #8
	movk	w8, #7, lsl #16
	b	.LBB53_45
.LBB53_42:
	ldr	w8, [x12]
	str	w8, [x11]
	mov	w8, #8
	movk	w8, #6, lsl #16
	b	.LBB53_45
.LBB53_43:
	ldr	w8, [x12]
	str	w8, [x11]
	mov	w8, #8
	movk	w8, #4, lsl #16
	b	.LBB53_45
.LBB53_44:
	ldr	w8, [x12]
	str	w8, [x11]
	mov	w8, #524296
.LBB53_45:
	str	w8, [x23]
.LBB53_46:
	mov	w8, #8
.LBB53_47:
	cmp	x1, x22
	add	x0, x8, x0
	b.hi	.LBB53_2
	b	.LBB53_64
.LBB53_48:
	mov	x26, x0
	add	x0, x23, #4
	mov	x27, x1
	add	x1, x19, #4
	mov	x28, x2
	sub	x2, x24, #4
	bl	memmove
	mov	x1, x27
	mov	x2, x28
	mov	x0, x26
.LBB53_49:
	sub	x8, x22, x24
	add	x9, x23, x24
	strh	w24, [x23]
	cmp	x8, #3
	strh	w25, [x23, #2]
	b.eq	.LBB53_54
	cmp	x8, #2
	b.eq	.LBB53_53
	cmp	x8, #1
	mov	x8, x22
	b.ne	.LBB53_47
	strb	wzr, [x9]
	mov	x8, x22
	b	.LBB53_47
.LBB53_53:
	strh	wzr, [x9]
	mov	x8, x22
	b	.LBB53_47
.LBB53_54:
	mov	x8, x22
	strh	wzr, [x9]
	strb	wzr, [x9, #2]
	b	.LBB53_47
.LBB53_55:
	cmp	x10, #32
	b.hs	.LBB53_57
	mov	x11, xzr
	b	.LBB53_61
.LBB53_57:
	add	x14, x9, x8
	and	x12, x10, #0x18
	and	x11, x10, #0xffffffffffffffe0
	add	x13, x20, x0
	add	x14, x14, #20
	and	x15, x10, #0xffffffffffffffe0
.LBB53_58:
	ldp	q0, q1, [x14, #-16]
	subs	x15, x15, #32
	add	x14, x14, #32
	stp	q0, q1, [x13, #-16]
	add	x13, x13, #32
	b.ne	.LBB53_58
	cmp	x10, x11
	b.eq	.LBB53_49
	cbz	x12, .LBB53_35
.LBB53_61:
	mov	x12, x11
	and	x11, x10, #0xfffffffffffffff8
	add	x13, x8, x12
	add	x14, x12, x0
	sub	x12, x12, x11
	add	x13, x9, x13
	add	x14, x21, x14
	add	x13, x13, #4
.LBB53_62:
	ldr	d0, [x13], #8
	adds	x12, x12, #8
	str	d0, [x14], #8
	b.ne	.LBB53_62
	cmp	x10, x11
	b.eq	.LBB53_49
	b	.LBB53_35
.LBB53_64:
	ldp	x20, x19, [sp, #80]
	ldp	x22, x21, [sp, #64]
	ldp	x24, x23, [sp, #48]
	ldp	x26, x25, [sp, #32]
	ldp	x28, x27, [sp, #16]
	ldp	x29, x30, [sp], #96
	ret
.LBB53_65:
	mov	x0, xzr
	ret
.Lfunc_end53:
	.size	nla_wire.members.write_each.8ba1f663fcd59a5e, .Lfunc_end53-nla_wire.members.write_each.8ba1f663fcd59a5e

	.section	.text.nla_wire.members.write_each.b30b196c481b950e,"ax",@progbits
	.p2align	2
	.type	nla_wire.members.write_each.b30b196c481b950e,@function
nla_wire.members.write_each.b30b196c481b950e:
	stp	x29, x30, [sp, #-96]!
	stp	x28, x27, [sp, #16]
	mov	x29, sp
	stp	x26, x25, [sp, #32]
	stp	x24, x23, [sp, #48]
	stp	x22, x21, [sp, #64]
	stp	x20, x19, [sp, #80]
	cbz	x1, .LBB54_68
	mov	x20, x2
	mov	x21, x1
	mov	x22, x0
	mov	x19, xzr
	mov	x26, xzr
	add	x25, x2, #4
	b	.LBB54_5
.LBB54_2:
	mov	x8, x26
.LBB54_3:
	strh	wzr, [x9]
	strb	wzr, [x9, #2]
.LBB54_4:
	cmp	x21, x26
	add	x19, x8, x19
	b.ls	.LBB54_69
.LBB54_5:
	sub	x21, x21, x26
	cmp	x21, #4
	b.lo	.LBB54_69
	mov	x9, x22
	add	x22, x22, x26
	mov	x8, x26
	ldrh	w28, [x22]
	cmp	w28, #4
	b.lo	.LBB54_69
	cmp	x21, x28
	b.lo	.LBB54_69
	ldrh	w24, [x22, #2]
	add	w12, w28, #3
	add	x10, x22, #4
	sub	x23, x28, #4
	and	x26, x12, #0x1fffc
	add	x27, x20, x19
	and	w11, w24, #0x3fff
	cmp	w11, #53
	b.ne	.LBB54_18
	cbz	x23, .LBB54_11
	sub	x11, x28, #5
	ldrb	w12, [x10, x11]
	cbz	w12, .LBB54_32
.LBB54_11:
	cmp	x23, #4
	add	x28, x27, #4
	b.hs	.LBB54_33
.LBB54_12:
	sub	x10, x28, x10
	cmp	x10, x23
	b.hs	.LBB54_29
	cmp	x23, #8
	b.lo	.LBB54_15
	add	x10, x19, x20
	add	x11, x8, x9
	sub	x10, x10, x11
	cmp	x10, #32
	b.hs	.LBB54_45
.LBB54_15:
	mov	x10, xzr
.LBB54_16:
	add	x8, x10, x8
	add	x11, x10, x19
	add	x9, x9, x8
	sub	x8, x23, x10
	add	x10, x25, x11
	add	x9, x9, #4
.LBB54_17:
	ldrb	w11, [x9], #1
	subs	x8, x8, #1
	strb	w11, [x10], #1
	b.ne	.LBB54_17
	b	.LBB54_63
.LBB54_18:
	add	x11, x27, #4
	sub	x10, x11, x10
	cmp	x10, x23
	b.hs	.LBB54_24
	cmp	x23, #8
	b.lo	.LBB54_21
	add	x10, x19, x20
	add	x11, x8, x9
	sub	x10, x10, x11
	cmp	x10, #32
	b.hs	.LBB54_41
.LBB54_21:
	mov	x10, xzr
.LBB54_22:
	add	x8, x10, x8
	sub	x11, x28, x10
	add	x10, x10, x19
	add	x9, x9, x8
	sub	x8, x11, #4
	add	x10, x25, x10
	add	x9, x9, #4
.LBB54_23:
	ldrb	w11, [x9], #1
	subs	x8, x8, #1
	strb	w11, [x10], #1
	b.ne	.LBB54_23
	b	.LBB54_25
.LBB54_24:
	add	x0, x27, #4
	add	x1, x22, #4
	sub	x2, x28, #4
	bl	memmove
.LBB54_25:
	sub	x8, x26, x28
	add	x9, x27, x28
	strh	w28, [x27]
	cmp	x8, #3
	strh	w24, [x27, #2]
	b.eq	.LBB54_2
	cmp	x8, #2
	b.eq	.LBB54_30
	cmp	x8, #1
	mov	x8, x26
	b.ne	.LBB54_4
	strb	wzr, [x9]
	b	.LBB54_31
.LBB54_29:
	add	x0, x27, #4
	add	x1, x22, #4
	mov	x2, x23
	bl	memmove
	b	.LBB54_63
.LBB54_30:
	strh	wzr, [x9]
.LBB54_31:
	mov	x8, x26
	b	.LBB54_4
.LBB54_32:
	mov	x23, x11
	cmp	x11, #4
	add	x28, x27, #4
	b.lo	.LBB54_12
.LBB54_33:
	cmp	x23, #7
	b.hi	.LBB54_37
	sub	x8, x28, x10
	cmp	x8, #3
	b.hi	.LBB54_43
	ldrb	w8, [x22, #4]
	strb	w8, [x27, #4]
	ldrb	w8, [x22, #5]
	strb	w8, [x27, #5]
	ldrb	w8, [x22, #6]
	strb	w8, [x27, #6]
	ldrb	w8, [x22, #7]
	strb	w8, [x27, #7]
	add	x9, x10, x23
	add	x8, x27, x23
	sub	x10, x9, #4
	sub	x11, x8, x10
	cmp	x11, #3
	b.ls	.LBB54_44
.LBB54_36:
	ldr	w9, [x10]
	str	w9, [x8]
	b	.LBB54_63
.LBB54_37:
	cmp	x23, #16
	b.hi	.LBB54_12
	sub	x8, x28, x10
	cmp	x8, #7
	b.hi	.LBB54_47
	ldrb	w8, [x22, #4]
	strb	w8, [x27, #4]
	ldrb	w8, [x22, #5]
	strb	w8, [x27, #5]
	ldrb	w8, [x22, #6]
	strb	w8, [x27, #6]
	ldrb	w8, [x22, #7]
	strb	w8, [x27, #7]
	ldrb	w8, [x22, #8]
	strb	w8, [x27, #8]
	ldrb	w8, [x22, #9]
	strb	w8, [x27, #9]
	ldrb	w8, [x22, #10]
	strb	w8, [x27, #10]
	ldrb	w8, [x22, #11]
	strb	w8, [x27, #11]
	sub	x9, x23, #8
	add	x8, x28, x9
	add	x9, x10, x9
	sub	x10, x8, x9
	cmp	x10, #7
	b.ls	.LBB54_48
.LBB54_40:
	ldr	x9, [x9]
	str	x9, [x8]
	b	.LBB54_63
.LBB54_41:
	cmp	x23, #32
	b.hs	.LBB54_49
	mov	x10, xzr
	b	.LBB54_53
.LBB54_43:
	ldr	w8, [x10]
	str	w8, [x28]
	add	x9, x10, x23
	add	x8, x27, x23
	sub	x10, x9, #4
	sub	x11, x8, x10
	cmp	x11, #3
	b.hi	.LBB54_36
.LBB54_44:
	ldurb	w10, [x9, #-4]
	strb	w10, [x8]
	ldurb	w10, [x9, #-3]
	strb	w10, [x8, #1]
	ldurb	w10, [x9, #-2]
	strb	w10, [x8, #2]
	ldurb	w9, [x9, #-1]
	strb	w9, [x8, #3]
	b	.LBB54_63
.LBB54_45:
	cmp	x23, #32
	b.hs	.LBB54_56
	mov	x10, xzr
	b	.LBB54_60
.LBB54_47:
	ldr	x8, [x10]
	str	x8, [x28]
	sub	x9, x23, #8
	add	x8, x28, x9
	add	x9, x10, x9
	sub	x10, x8, x9
	cmp	x10, #7
	b.hi	.LBB54_40
.LBB54_48:
	ldrb	w10, [x9]
	strb	w10, [x8]
	ldrb	w10, [x9, #1]
	strb	w10, [x8, #1]
	ldrb	w10, [x9, #2]
	strb	w10, [x8, #2]
	ldrb	w10, [x9, #3]
	strb	w10, [x8, #3]
	ldrb	w10, [x9, #4]
	strb	w10, [x8, #4]
	ldrb	w10, [x9, #5]
	strb	w10, [x8, #5]
	ldrb	w10, [x9, #6]
	strb	w10, [x8, #6]
	ldrb	w9, [x9, #7]
	strb	w9, [x8, #7]
	b	.LBB54_63
.LBB54_49:
	add	x13, x9, x8
	add	x12, x20, #20
	and	x11, x23, #0x18
	and	x10, x23, #0xffffffffffffffe0
	add	x12, x12, x19
	add	x13, x13, #20
	and	x14, x23, #0xffffffffffffffe0
.LBB54_50:
	ldp	q0, q1, [x13, #-16]
	subs	x14, x14, #32
	add	x13, x13, #32
	stp	q0, q1, [x12, #-16]
	add	x12, x12, #32
	b.ne	.LBB54_50
	cmp	x23, x10
	b.eq	.LBB54_25
	cbz	x11, .LBB54_22
.LBB54_53:
	mov	x11, x10
	and	x10, x23, #0xfffffffffffffff8
	add	x12, x8, x11
	add	x13, x11, x19
	sub	x11, x11, x10
	add	x12, x9, x12
	add	x13, x25, x13
	add	x12, x12, #4
.LBB54_54:
	ldr	d0, [x12], #8
	adds	x11, x11, #8
	str	d0, [x13], #8
	b.ne	.LBB54_54
	cmp	x23, x10
	b.eq	.LBB54_25
	b	.LBB54_22
.LBB54_56:
	add	x12, x9, x8
	add	x13, x20, #20
	and	x11, x23, #0x18
	and	x10, x23, #0xffffffffffffffe0
	add	x12, x12, #20
	add	x13, x13, x19
	and	x14, x23, #0xffffffffffffffe0
.LBB54_57:
	ldp	q0, q1, [x12, #-16]
	subs	x14, x14, #32
	add	x12, x12, #32
	stp	q0, q1, [x13, #-16]
	add	x13, x13, #32
	b.ne	.LBB54_57
	cmp	x23, x10
	b.eq	.LBB54_63
	cbz	x11, .LBB54_16
.LBB54_60:
	mov	x11, x10
	and	x10, x23, #0xfffffffffffffff8
	add	x12, x8, x11
	add	x13, x11, x19
	sub	x11, x11, x10
	add	x12, x9, x12
	add	x13, x25, x13
	add	x12, x12, #4
.LBB54_61:
	ldr	d0, [x12], #8
	adds	x11, x11, #8
	str	d0, [x13], #8
	b.ne	.LBB54_61
	cmp	x23, x10
	b.ne	.LBB54_16
.LBB54_63:
	and	x8, x23, #0xfffffffffffffffc
	add	x9, x23, #5
	mov	w11, #53
	add	x8, x8, #8
	strh	w9, [x27]
	sub	x10, x8, x9
	add	x9, x27, x9
	strb	wzr, [x28, x23]
	cmp	x10, #3
	strh	w11, [x27, #2]
	b.eq	.LBB54_3
	cmp	x10, #2
	b.eq	.LBB54_67
	cmp	x10, #1
	b.ne	.LBB54_4
	strb	wzr, [x9]
	b	.LBB54_4
.LBB54_67:
	strh	wzr, [x9]
	b	.LBB54_4
.LBB54_68:
	mov	x19, xzr
.LBB54_69:
	mov	x0, x19
	ldp	x20, x19, [sp, #80]
	ldp	x22, x21, [sp, #64]
	ldp	x24, x23, [sp, #48]
	ldp	x26, x25, [sp, #32]
	ldp	x28, x27, [sp, #16]
	ldp	x29, x30, [sp], #96
	ret
.Lfunc_end54:
	.size	nla_wire.members.write_each.b30b196c481b950e, .Lfunc_end54-nla_wire.members.write_each.b30b196c481b950e

	.section	.text.nla_wire.members.write_each.f7f30aae703aa44d,"ax",@progbits
	.p2align	2
	.type	nla_wire.members.write_each.f7f30aae703aa44d,@function
nla_wire.members.write_each.f7f30aae703aa44d:
	stp	x29, x30, [sp, #-96]!
	stp	x28, x27, [sp, #16]
	mov	x29, sp
	stp	x26, x25, [sp, #32]
	stp	x24, x23, [sp, #48]
	stp	x22, x21, [sp, #64]
	stp	x20, x19, [sp, #80]
	cbz	x1, .LBB55_38
	mov	x20, x2
	mov	x21, x1
	mov	x22, x0
	mov	x19, xzr
	mov	x25, xzr
	add	x23, x2, #20
	add	x24, x2, #4
	b	.LBB55_6
.LBB55_2:
	ldr	w8, [x10]
	str	w8, [x11]
.LBB55_3:
	mov	w8, #8
	movk	w8, #1, lsl #16
.LBB55_4:
	str	w8, [x26]
	mov	w8, #8
.LBB55_5:
	cmp	x21, x25
	add	x19, x8, x19
	b.ls	.LBB55_39
.LBB55_6:
	sub	x21, x21, x25
	cmp	x21, #4
	b.lo	.LBB55_39
	mov	x9, x22
	add	x22, x22, x25
	mov	x8, x25
	ldrh	w27, [x22]
	cmp	w27, #4
	b.lo	.LBB55_39
	cmp	x21, x27
	b.lo	.LBB55_39
	ldrh	w28, [x22, #2]
	add	x26, x20, x19
	add	x10, x22, #4
	add	w12, w27, #3
	add	x11, x26, #4
	and	w13, w28, #0x3fff
	and	x25, x12, #0x1fffc
	sub	x12, x11, x10
	cmp	w13, #2
	b.eq	.LBB55_13
	cmp	w13, #1
	b.ne	.LBB55_15
	cmp	x12, #3
	b.hi	.LBB55_2
	ldrb	w8, [x22, #4]
	strb	w8, [x26, #4]
	ldrb	w8, [x22, #5]
	strb	w8, [x26, #5]
	ldrb	w8, [x22, #6]
	strb	w8, [x26, #6]
	ldrb	w8, [x22, #7]
	strb	w8, [x26, #7]
	b	.LBB55_3
.LBB55_13:
	cmp	x12, #3
	b.hi	.LBB55_21
	ldrb	w8, [x22, #4]
	strb	w8, [x26, #4]
	ldrb	w8, [x22, #5]
	strb	w8, [x26, #5]
	ldrb	w8, [x22, #6]
	strb	w8, [x26, #6]
	ldrb	w8, [x22, #7]
	strb	w8, [x26, #7]
	mov	w8, #8
	movk	w8, #2, lsl #16
	b	.LBB55_4
.LBB55_15:
	sub	x10, x27, #4
	cmp	x12, x10
	b.hs	.LBB55_22
	cmp	x10, #8
	b.lo	.LBB55_18
	add	x11, x19, x20
	add	x12, x8, x9
	sub	x11, x11, x12
	cmp	x11, #32
	b.hs	.LBB55_29
.LBB55_18:
	mov	x11, xzr
.LBB55_19:
	add	x8, x11, x8
	sub	x10, x27, x11
	add	x11, x11, x19
	add	x9, x9, x8
	sub	x8, x10, #4
	add	x10, x24, x11
	add	x9, x9, #4
.LBB55_20:
	ldrb	w11, [x9], #1
	subs	x8, x8, #1
	strb	w11, [x10], #1
	b.ne	.LBB55_20
	b	.LBB55_23
.LBB55_21:
	ldr	w8, [x10]
	str	w8, [x11]
	mov	w8, #8
	movk	w8, #2, lsl #16
	b	.LBB55_4
.LBB55_22:
	add	x0, x26, #4
	add	x1, x22, #4
	sub	x2, x27, #4
	bl	memmove
.LBB55_23:
	sub	x8, x25, x27
	add	x9, x26, x27
	strh	w27, [x26]
	cmp	x8, #3
	strh	w28, [x26, #2]
	b.eq	.LBB55_28
	cmp	x8, #2
	b.eq	.LBB55_27
	cmp	x8, #1
	mov	x8, x25
	b.ne	.LBB55_5
	strb	wzr, [x9]
	mov	x8, x25
	b	.LBB55_5
.LBB55_27:
	strh	wzr, [x9]
	mov	x8, x25
	b	.LBB55_5
.LBB55_28:
	mov	x8, x25
	strh	wzr, [x9]
	strb	wzr, [x9, #2]
	b	.LBB55_5
.LBB55_29:
	cmp	x10, #32
	b.hs	.LBB55_31
	mov	x11, xzr
	b	.LBB55_35
.LBB55_31:
	add	x14, x9, x8
	and	x12, x10, #0x18
	and	x11, x10, #0xffffffffffffffe0
	add	x13, x23, x19
	add	x14, x14, #20
	and	x15, x10, #0xffffffffffffffe0
.LBB55_32:
	ldp	q0, q1, [x14, #-16]
	subs	x15, x15, #32
	add	x14, x14, #32
	stp	q0, q1, [x13, #-16]
	add	x13, x13, #32
	b.ne	.LBB55_32
	cmp	x10, x11
	b.eq	.LBB55_23
	cbz	x12, .LBB55_19
.LBB55_35:
	mov	x12, x11
	and	x11, x10, #0xfffffffffffffff8
	add	x13, x8, x12
	add	x14, x12, x19
	sub	x12, x12, x11
	add	x13, x9, x13
	add	x14, x24, x14
	add	x13, x13, #4
.LBB55_36:
	ldr	d0, [x13], #8
	adds	x12, x12, #8
	str	d0, [x14], #8
	b.ne	.LBB55_36
	cmp	x10, x11
	b.eq	.LBB55_23
	b	.LBB55_19
.LBB55_38:
	mov	x19, xzr
.LBB55_39:
	mov	x0, x19
	ldp	x20, x19, [sp, #80]
	ldp	x22, x21, [sp, #64]
	ldp	x24, x23, [sp, #48]
	ldp	x26, x25, [sp, #32]
	ldp	x28, x27, [sp, #16]
	ldp	x29, x30, [sp], #96
	ret
.Lfunc_end55:
	.size	nla_wire.members.write_each.f7f30aae703aa44d, .Lfunc_end55-nla_wire.members.write_each.f7f30aae703aa44d

	.section	.text.nla_wire.members.write_each.16a873d75d6df2a1,"ax",@progbits
	.p2align	2
	.type	nla_wire.members.write_each.16a873d75d6df2a1,@function
nla_wire.members.write_each.16a873d75d6df2a1:
	stp	x29, x30, [sp, #-96]!
	stp	x28, x27, [sp, #16]
	mov	x29, sp
	stp	x26, x25, [sp, #32]
	stp	x24, x23, [sp, #48]
	stp	x22, x21, [sp, #64]
	stp	x20, x19, [sp, #80]
	cbz	x1, .LBB56_107
	mov	x20, x2
	mov	x21, x1
	mov	x22, x0
	mov	x19, xzr
	mov	x26, xzr
	add	x25, x2, #4
	b	.LBB56_5
.LBB56_2:
	mov	x8, x26
.LBB56_3:
	strh	wzr, [x9]
	strb	wzr, [x9, #2]
.LBB56_4:
	cmp	x21, x26
	add	x19, x8, x19
	b.ls	.LBB56_108
.LBB56_5:
	sub	x21, x21, x26
	cmp	x21, #4
	b.lo	.LBB56_108
	mov	x9, x22
	add	x22, x22, x26
	mov	x8, x26
	ldrh	w28, [x22]
	cmp	w28, #4
	b.lo	.LBB56_108
	cmp	x21, x28
	b.lo	.LBB56_108
	ldrh	w24, [x22, #2]
	add	w12, w28, #3
	add	x10, x22, #4
	and	x26, x12, #0x1fffc
	add	x27, x20, x19
	and	w11, w24, #0x3fff
	cmp	w11, #3
	b.eq	.LBB56_29
	cmp	w11, #2
	sub	x23, x28, #4
	b.eq	.LBB56_20
	cmp	w11, #1
	b.ne	.LBB56_31
	cbz	x23, .LBB56_13
	sub	x11, x28, #5
	ldrb	w12, [x10, x11]
	cbz	w12, .LBB56_56
.LBB56_13:
	cmp	x23, #4
	add	x28, x27, #4
	b.hs	.LBB56_57
.LBB56_14:
	sub	x10, x28, x10
	cmp	x10, x23
	b.hs	.LBB56_45
	cmp	x23, #8
	b.lo	.LBB56_17
	add	x10, x19, x20
	add	x11, x8, x9
	sub	x10, x10, x11
	cmp	x10, #32
	b.hs	.LBB56_73
.LBB56_17:
	mov	x10, xzr
.LBB56_18:
	add	x8, x10, x8
	add	x11, x10, x19
	add	x9, x9, x8
	sub	x8, x23, x10
	add	x10, x25, x11
	add	x9, x9, #4
.LBB56_19:
	ldrb	w11, [x9], #1
	subs	x8, x8, #1
	strb	w11, [x10], #1
	b.ne	.LBB56_19
	b	.LBB56_104
.LBB56_20:
	cbz	x23, .LBB56_22
	sub	x11, x28, #5
	ldrb	w12, [x10, x11]
	cbz	w12, .LBB56_47
.LBB56_22:
	cmp	x23, #4
	add	x28, x27, #4
	b.hs	.LBB56_48
.LBB56_23:
	sub	x10, x28, x10
	cmp	x10, x23
	b.hs	.LBB56_44
	cmp	x23, #8
	b.lo	.LBB56_26
	add	x10, x19, x20
	add	x11, x8, x9
	sub	x10, x10, x11
	cmp	x10, #32
	b.hs	.LBB56_71
.LBB56_26:
	mov	x10, xzr
.LBB56_27:
	add	x8, x10, x8
	add	x11, x10, x19
	add	x9, x9, x8
	sub	x8, x23, x10
	add	x10, x25, x11
	add	x9, x9, #4
.LBB56_28:
	ldrb	w11, [x9], #1
	subs	x8, x8, #1
	strb	w11, [x10], #1
	b.ne	.LBB56_28
	b	.LBB56_93
.LBB56_29:
	add	x8, x27, #4
	sub	x9, x8, x10
	cmp	x9, #3
	b.hi	.LBB56_37
	ldrb	w8, [x22, #4]
	strb	w8, [x27, #4]
	ldrb	w8, [x22, #5]
	strb	w8, [x27, #5]
	ldrb	w8, [x22, #6]
	strb	w8, [x27, #6]
	ldrb	w8, [x22, #7]
	strb	w8, [x27, #7]
	b	.LBB56_38
.LBB56_31:
	add	x11, x27, #4
	sub	x10, x11, x10
	cmp	x10, x23
	b.hs	.LBB56_39
	cmp	x23, #8
	b.lo	.LBB56_34
	add	x10, x19, x20
	add	x11, x8, x9
	sub	x10, x10, x11
	cmp	x10, #32
	b.hs	.LBB56_67
.LBB56_34:
	mov	x10, xzr
.LBB56_35:
	add	x8, x10, x8
	sub	x11, x28, x10
	add	x10, x10, x19
	add	x9, x9, x8
	sub	x8, x11, #4
	add	x10, x25, x10
	add	x9, x9, #4
.LBB56_36:
	ldrb	w11, [x9], #1
	subs	x8, x8, #1
	strb	w11, [x10], #1
	b.ne	.LBB56_36
	b	.LBB56_40
.LBB56_37:
	ldr	w9, [x10]
	str	w9, [x8]
.LBB56_38:
	mov	w8, #8
	movk	w8, #3, lsl #16
	str	w8, [x27]
	mov	w8, #8
	b	.LBB56_4
.LBB56_39:
	add	x0, x27, #4
	add	x1, x22, #4
	sub	x2, x28, #4
	bl	memmove
.LBB56_40:
	sub	x8, x26, x28
	add	x9, x27, x28
	strh	w28, [x27]
	cmp	x8, #3
	strh	w24, [x27, #2]
	b.eq	.LBB56_2
	cmp	x8, #2
	b.eq	.LBB56_46
	cmp	x8, #1
	mov	x8, x26
	b.ne	.LBB56_4
	strb	wzr, [x9]
	mov	x8, x26
	b	.LBB56_4
.LBB56_44:
	add	x0, x27, #4
	add	x1, x22, #4
	mov	x2, x23
	bl	memmove
	b	.LBB56_93
.LBB56_45:
	add	x0, x27, #4
	add	x1, x22, #4
	mov	x2, x23
	bl	memmove
	b	.LBB56_104
.LBB56_46:
	strh	wzr, [x9]
	mov	x8, x26
	b	.LBB56_4
.LBB56_47:
	mov	x23, x11
	cmp	x11, #4
	add	x28, x27, #4
	b.lo	.LBB56_23
.LBB56_48:
	cmp	x23, #7
	b.hi	.LBB56_52
	sub	x8, x28, x10
	cmp	x8, #3
	b.hi	.LBB56_65
	ldrb	w8, [x22, #4]
	strb	w8, [x27, #4]
	ldrb	w8, [x22, #5]
	strb	w8, [x27, #5]
	ldrb	w8, [x22, #6]
	strb	w8, [x27, #6]
	ldrb	w8, [x22, #7]
	strb	w8, [x27, #7]
	add	x9, x10, x23
	add	x8, x27, x23
	sub	x10, x9, #4
	sub	x11, x8, x10
	cmp	x11, #3
	b.ls	.LBB56_66
.LBB56_51:
	ldr	w9, [x10]
	str	w9, [x8]
	b	.LBB56_93
.LBB56_52:
	cmp	x23, #16
	b.hi	.LBB56_23
	sub	x8, x28, x10
	cmp	x8, #7
	b.hi	.LBB56_75
	ldrb	w8, [x22, #4]
	strb	w8, [x27, #4]
	ldrb	w8, [x22, #5]
	strb	w8, [x27, #5]
	ldrb	w8, [x22, #6]
	strb	w8, [x27, #6]
	ldrb	w8, [x22, #7]
	strb	w8, [x27, #7]
	ldrb	w8, [x22, #8]
	strb	w8, [x27, #8]
	ldrb	w8, [x22, #9]
	strb	w8, [x27, #9]
	ldrb	w8, [x22, #10]
	strb	w8, [x27, #10]
	ldrb	w8, [x22, #11]
	strb	w8, [x27, #11]
	sub	x9, x23, #8
	add	x8, x28, x9
	add	x9, x10, x9
	sub	x10, x8, x9
	cmp	x10, #7
	b.ls	.LBB56_76
.LBB56_55:
	ldr	x9, [x9]
	str	x9, [x8]
	b	.LBB56_93
.LBB56_56:
	mov	x23, x11
	cmp	x11, #4
	add	x28, x27, #4
	b.lo	.LBB56_14
.LBB56_57:
	cmp	x23, #7
	b.hi	.LBB56_61
	sub	x8, x28, x10
	cmp	x8, #3
	b.hi	.LBB56_69
	ldrb	w8, [x22, #4]
	strb	w8, [x27, #4]
	ldrb	w8, [x22, #5]
	strb	w8, [x27, #5]
	ldrb	w8, [x22, #6]
	strb	w8, [x27, #6]
	ldrb	w8, [x22, #7]
	strb	w8, [x27, #7]
	add	x9, x10, x23
	add	x8, x27, x23
	sub	x10, x9, #4
	sub	x11, x8, x10
	cmp	x11, #3
	b.ls	.LBB56_70
.LBB56_60:
	ldr	w9, [x10]
	str	w9, [x8]
	b	.LBB56_104
.LBB56_61:
	cmp	x23, #16
	b.hi	.LBB56_14
	sub	x8, x28, x10
	cmp	x8, #7
	b.hi	.LBB56_77
	ldrb	w8, [x22, #4]
	strb	w8, [x27, #4]
	ldrb	w8, [x22, #5]
	strb	w8, [x27, #5]
	ldrb	w8, [x22, #6]
	strb	w8, [x27, #6]
	ldrb	w8, [x22, #7]
	strb	w8, [x27, #7]
	ldrb	w8, [x22, #8]
	strb	w8, [x27, #8]
	ldrb	w8, [x22, #9]
	strb	w8, [x27, #9]
	ldrb	w8, [x22, #10]
	strb	w8, [x27, #10]
	ldrb	w8, [x22, #11]
	strb	w8, [x27, #11]
	sub	x9, x23, #8
	add	x8, x28, x9
	add	x9, x10, x9
	sub	x10, x8, x9
	cmp	x10, #7
	b.ls	.LBB56_78
.LBB56_64:
	ldr	x9, [x9]
	str	x9, [x8]
	b	.LBB56_104
.LBB56_65:
	ldr	w8, [x10]
	str	w8, [x28]
	add	x9, x10, x23
	add	x8, x27, x23
	sub	x10, x9, #4
	sub	x11, x8, x10
	cmp	x11, #3
	b.hi	.LBB56_51
.LBB56_66:
	ldurb	w10, [x9, #-4]
	strb	w10, [x8]
	ldurb	w10, [x9, #-3]
	strb	w10, [x8, #1]
	ldurb	w10, [x9, #-2]
	strb	w10, [x8, #2]
	ldurb	w9, [x9, #-1]
	strb	w9, [x8, #3]
	b	.LBB56_93
.LBB56_67:
	cmp	x23, #32
	b.hs	.LBB56_79
	mov	x10, xzr
	b	.LBB56_83
.LBB56_69:
	ldr	w8, [x10]
	str	w8, [x28]
	add	x9, x10, x23
	add	x8, x27, x23
	sub	x10, x9, #4
	sub	x11, x8, x10
	cmp	x11, #3
	b.hi	.LBB56_60
.LBB56_70:
	ldurb	w10, [x9, #-4]
	strb	w10, [x8]
	ldurb	w10, [x9, #-3]
	strb	w10, [x8, #1]
	ldurb	w10, [x9, #-2]
	strb	w10, [x8, #2]
	ldurb	w9, [x9, #-1]
	strb	w9, [x8, #3]
	b	.LBB56_104
.LBB56_71:
	cmp	x23, #32
	b.hs	.LBB56_86
	mov	x10, xzr
	b	.LBB56_90
.LBB56_73:
	cmp	x23, #32
	b.hs	.LBB56_97
	mov	x10, xzr
	b	.LBB56_101
.LBB56_75:
	ldr	x8, [x10]
	str	x8, [x28]
	sub	x9, x23, #8
	add	x8, x28, x9
	add	x9, x10, x9
	sub	x10, x8, x9
	cmp	x10, #7
	b.hi	.LBB56_55
.LBB56_76:
	ldrb	w10, [x9]
	strb	w10, [x8]
	ldrb	w10, [x9, #1]
	strb	w10, [x8, #1]
	ldrb	w10, [x9, #2]
	strb	w10, [x8, #2]
	ldrb	w10, [x9, #3]
	strb	w10, [x8, #3]
	ldrb	w10, [x9, #4]
	strb	w10, [x8, #4]
	ldrb	w10, [x9, #5]
	strb	w10, [x8, #5]
	ldrb	w10, [x9, #6]
	strb	w10, [x8, #6]
	ldrb	w9, [x9, #7]
	strb	w9, [x8, #7]
	b	.LBB56_93
.LBB56_77:
	ldr	x8, [x10]
	str	x8, [x28]
	sub	x9, x23, #8
	add	x8, x28, x9
	add	x9, x10, x9
	sub	x10, x8, x9
	cmp	x10, #7
	b.hi	.LBB56_64
.LBB56_78:
	ldrb	w10, [x9]
	strb	w10, [x8]
	ldrb	w10, [x9, #1]
	strb	w10, [x8, #1]
	ldrb	w10, [x9, #2]
	strb	w10, [x8, #2]
	ldrb	w10, [x9, #3]
	strb	w10, [x8, #3]
	ldrb	w10, [x9, #4]
	strb	w10, [x8, #4]
	ldrb	w10, [x9, #5]
	strb	w10, [x8, #5]
	ldrb	w10, [x9, #6]
	strb	w10, [x8, #6]
	ldrb	w9, [x9, #7]
	strb	w9, [x8, #7]
	b	.LBB56_104
.LBB56_79:
	add	x13, x9, x8
	add	x12, x20, #20
	and	x11, x23, #0x18
	and	x10, x23, #0xffffffffffffffe0
	add	x12, x12, x19
	add	x13, x13, #20
	and	x14, x23, #0xffffffffffffffe0
.LBB56_80:
	ldp	q0, q1, [x13, #-16]
	subs	x14, x14, #32
	add	x13, x13, #32
	stp	q0, q1, [x12, #-16]
	add	x12, x12, #32
	b.ne	.LBB56_80
	cmp	x23, x10
	b.eq	.LBB56_40
	cbz	x11, .LBB56_35
.LBB56_83:
	mov	x11, x10
	and	x10, x23, #0xfffffffffffffff8
	add	x12, x8, x11
	add	x13, x11, x19
	sub	x11, x11, x10
	add	x12, x9, x12
	add	x13, x25, x13
	add	x12, x12, #4
.LBB56_84:
	ldr	d0, [x12], #8
	adds	x11, x11, #8
	str	d0, [x13], #8
	b.ne	.LBB56_84
	cmp	x23, x10
	b.eq	.LBB56_40
	b	.LBB56_35
.LBB56_86:
	add	x12, x9, x8
	add	x13, x20, #20
	and	x11, x23, #0x18
	and	x10, x23, #0xffffffffffffffe0
	add	x12, x12, #20
	add	x13, x13, x19
	and	x14, x23, #0xffffffffffffffe0
.LBB56_87:
	ldp	q0, q1, [x12, #-16]
	subs	x14, x14, #32
	add	x12, x12, #32
	stp	q0, q1, [x13, #-16]
	add	x13, x13, #32
	b.ne	.LBB56_87
	cmp	x23, x10
	b.eq	.LBB56_93
	cbz	x11, .LBB56_27
.LBB56_90:
	mov	x11, x10
	and	x10, x23, #0xfffffffffffffff8
	add	x12, x8, x11
	add	x13, x11, x19
	sub	x11, x11, x10
	add	x12, x9, x12
	add	x13, x25, x13
	add	x12, x12, #4
.LBB56_91:
	ldr	d0, [x12], #8
	adds	x11, x11, #8
	str	d0, [x13], #8
	b.ne	.LBB56_91
	cmp	x23, x10
	b.ne	.LBB56_27
.LBB56_93:
	and	x8, x23, #0xfffffffffffffffc
	add	x9, x23, #5
	mov	w11, #2
	add	x8, x8, #8
	strh	w9, [x27]
	sub	x10, x8, x9
	add	x9, x27, x9
	strb	wzr, [x28, x23]
	cmp	x10, #3
	strh	w11, [x27, #2]
	b.eq	.LBB56_3
	cmp	x10, #2
	b.eq	.LBB56_106
.LBB56_95:
	cmp	x10, #1
	b.ne	.LBB56_4
	strb	wzr, [x9]
	b	.LBB56_4
.LBB56_97:
	add	x12, x9, x8
	add	x13, x20, #20
	and	x11, x23, #0x18
	and	x10, x23, #0xffffffffffffffe0
	add	x12, x12, #20
	add	x13, x13, x19
	and	x14, x23, #0xffffffffffffffe0
.LBB56_98:
	ldp	q0, q1, [x12, #-16]
	subs	x14, x14, #32
	add	x12, x12, #32
	stp	q0, q1, [x13, #-16]
	add	x13, x13, #32
	b.ne	.LBB56_98
	cmp	x23, x10
	b.eq	.LBB56_104
	cbz	x11, .LBB56_18
.LBB56_101:
	mov	x11, x10
	and	x10, x23, #0xfffffffffffffff8
	add	x12, x8, x11
	add	x13, x11, x19
	sub	x11, x11, x10
	add	x12, x9, x12
	add	x13, x25, x13
	add	x12, x12, #4
.LBB56_102:
	ldr	d0, [x12], #8
	adds	x11, x11, #8
	str	d0, [x13], #8
	b.ne	.LBB56_102
	cmp	x23, x10
	b.ne	.LBB56_18
.LBB56_104:
	and	x8, x23, #0xfffffffffffffffc
	add	x9, x23, #5
	mov	w11, #1
	add	x8, x8, #8
	strh	w9, [x27]
	sub	x10, x8, x9
	add	x9, x27, x9
	strb	wzr, [x28, x23]
	cmp	x10, #3
	strh	w11, [x27, #2]
	b.eq	.LBB56_3
	cmp	x10, #2
	b.ne	.LBB56_95
.LBB56_106:
	strh	wzr, [x9]
	b	.LBB56_4
.LBB56_107:
	mov	x19, xzr
.LBB56_108:
	mov	x0, x19
	ldp	x20, x19, [sp, #80]
	ldp	x22, x21, [sp, #64]
	ldp	x24, x23, [sp, #48]
	ldp	x26, x25, [sp, #32]
	ldp	x28, x27, [sp, #16]
	ldp	x29, x30, [sp], #96
	ret
.Lfunc_end56:
	.size	nla_wire.members.write_each.16a873d75d6df2a1, .Lfunc_end56-nla_wire.members.write_each.16a873d75d6df2a1

	.section	.text.nla_wire.members.write_each.5fa77b269143286c,"ax",@progbits
	.p2align	2
	.type	nla_wire.members.write_each.5fa77b269143286c,@function
nla_wire.members.write_each.5fa77b269143286c:
	stp	x29, x30, [sp, #-96]!
	stp	x28, x27, [sp, #16]
	mov	x29, sp
	stp	x26, x25, [sp, #32]
	stp	x24, x23, [sp, #48]
	stp	x22, x21, [sp, #64]
	stp	x20, x19, [sp, #80]
	cbz	x1, .LBB57_33
	mov	x20, x2
	mov	x21, x1
	mov	x22, x0
	mov	x19, xzr
	mov	x25, xzr
	add	x23, x2, #20
	add	x24, x2, #4
	b	.LBB57_5
.LBB57_2:
	ldr	w8, [x10]
	str	w8, [x11]
.LBB57_3:
	mov	w8, #8
	mov	w9, #8
	movk	w8, #1, lsl #16
	str	w8, [x26]
.LBB57_4:
	cmp	x21, x25
	add	x19, x9, x19
	b.ls	.LBB57_34
.LBB57_5:
	sub	x21, x21, x25
	cmp	x21, #4
	b.lo	.LBB57_34
	mov	x9, x22
	add	x22, x22, x25
	mov	x8, x25
	ldrh	w27, [x22]
	cmp	w27, #4
	b.lo	.LBB57_34
	cmp	x21, x27
	b.lo	.LBB57_34
	ldrh	w28, [x22, #2]
	add	x26, x20, x19
	add	x10, x22, #4
	add	w13, w27, #3
	add	x11, x26, #4
	and	w12, w28, #0x3fff
	and	x25, x13, #0x1fffc
	cmp	w12, #1
	sub	x12, x11, x10
	b.ne	.LBB57_11
	cmp	x12, #3
	b.hi	.LBB57_2
	ldrb	w8, [x22, #4]
	strb	w8, [x26, #4]
	ldrb	w8, [x22, #5]
	strb	w8, [x26, #5]
	ldrb	w8, [x22, #6]
	strb	w8, [x26, #6]
	ldrb	w8, [x22, #7]
	strb	w8, [x26, #7]
	b	.LBB57_3
.LBB57_11:
	sub	x10, x27, #4
	cmp	x12, x10
	b.hs	.LBB57_17
	cmp	x10, #8
	b.lo	.LBB57_14
	add	x11, x19, x20
	add	x12, x8, x9
	sub	x11, x11, x12
	cmp	x11, #32
	b.hs	.LBB57_24
.LBB57_14:
	mov	x11, xzr
.LBB57_15:
	add	x8, x11, x8
	sub	x10, x27, x11
	add	x11, x11, x19
	add	x9, x9, x8
	sub	x8, x10, #4
	add	x10, x24, x11
	add	x9, x9, #4
.LBB57_16:
	ldrb	w11, [x9], #1
	subs	x8, x8, #1
	strb	w11, [x10], #1
	b.ne	.LBB57_16
	b	.LBB57_18
.LBB57_17:
	add	x0, x26, #4
	add	x1, x22, #4
	sub	x2, x27, #4
	bl	memmove
.LBB57_18:
	sub	x9, x25, x27
	add	x8, x26, x27
	strh	w27, [x26]
	cmp	x9, #3
	strh	w28, [x26, #2]
	b.eq	.LBB57_23
	cmp	x9, #2
	b.eq	.LBB57_22
	cmp	x9, #1
	mov	x9, x25
	b.ne	.LBB57_4
	strb	wzr, [x8]
	mov	x9, x25
	b	.LBB57_4
.LBB57_22:
	strh	wzr, [x8]
	mov	x9, x25
	b	.LBB57_4
.LBB57_23:
	mov	x9, x25
	strh	wzr, [x8]
	strb	wzr, [x8, #2]
	b	.LBB57_4
.LBB57_24:
	cmp	x10, #32
	b.hs	.LBB57_26
	mov	x11, xzr
	b	.LBB57_30
.LBB57_26:
	add	x14, x9, x8
	and	x12, x10, #0x18
	and	x11, x10, #0xffffffffffffffe0
	add	x13, x23, x19
	add	x14, x14, #20
	and	x15, x10, #0xffffffffffffffe0
.LBB57_27:
	ldp	q0, q1, [x14, #-16]
	subs	x15, x15, #32
	add	x14, x14, #32
	stp	q0, q1, [x13, #-16]
	add	x13, x13, #32
	b.ne	.LBB57_27
	cmp	x10, x11
	b.eq	.LBB57_18
	cbz	x12, .LBB57_15
.LBB57_30:
	mov	x12, x11
	and	x11, x10, #0xfffffffffffffff8
	add	x13, x8, x12
	add	x14, x12, x19
	sub	x12, x12, x11
	add	x13, x9, x13
	add	x14, x24, x14
	add	x13, x13, #4
.LBB57_31:
	ldr	d0, [x13], #8
	adds	x12, x12, #8
	str	d0, [x14], #8
	b.ne	.LBB57_31
	cmp	x10, x11
	b.eq	.LBB57_18
	b	.LBB57_15
.LBB57_33:
	mov	x19, xzr
.LBB57_34:
	mov	x0, x19
	ldp	x20, x19, [sp, #80]
	ldp	x22, x21, [sp, #64]
	ldp	x24, x23, [sp, #48]
	ldp	x26, x25, [sp, #32]
	ldp	x28, x27, [sp, #16]
	ldp	x29, x30, [sp], #96
	ret
.Lfunc_end57:
	.size	nla_wire.members.write_each.5fa77b269143286c, .Lfunc_end57-nla_wire.members.write_each.5fa77b269143286c

	.section	.text.nla_wire.members.write_each.1f0cb788f492ced5,"ax",@progbits
	.p2align	2
	.type	nla_wire.members.write_each.1f0cb788f492ced5,@function
nla_wire.members.write_each.1f0cb788f492ced5:
	stp	x29, x30, [sp, #-96]!
	str	x27, [sp, #16]
	mov	x29, sp
	stp	x26, x25, [sp, #32]
	stp	x24, x23, [sp, #48]
	stp	x22, x21, [sp, #64]
	stp	x20, x19, [sp, #80]
	cbz	x1, .LBB58_28
	mov	x20, x2
	mov	x21, x1
	mov	x22, x0
	mov	x19, xzr
	mov	x8, xzr
	add	x23, x2, #20
	add	x24, x2, #4
	b	.LBB58_4
.LBB58_2:
	strh	wzr, [x9]
.LBB58_3:
	cmp	x21, x8
	add	x19, x8, x19
	b.ls	.LBB58_29
.LBB58_4:
	sub	x21, x21, x8
	cmp	x21, #4
	b.lo	.LBB58_29
	mov	x9, x22
	add	x22, x22, x8
	ldrh	w25, [x22]
	cmp	w25, #4
	b.lo	.LBB58_29
	cmp	x21, x25
	b.lo	.LBB58_29
	add	x26, x20, x19
	add	x11, x22, #4
	sub	x10, x25, #4
	add	x12, x26, #4
	ldrh	w27, [x22, #2]
	sub	x11, x12, x11
	cmp	x11, x10
	b.hs	.LBB58_13
	cmp	x10, #8
	b.lo	.LBB58_10
	add	x11, x19, x20
	add	x12, x8, x9
	sub	x11, x11, x12
	cmp	x11, #32
	b.hs	.LBB58_19
.LBB58_10:
	mov	x11, xzr
.LBB58_11:
	add	x8, x11, x8
	sub	x10, x25, x11
	add	x11, x11, x19
	add	x9, x9, x8
	sub	x8, x10, #4
	add	x10, x24, x11
	add	x9, x9, #4
.LBB58_12:
	ldrb	w11, [x9], #1
	subs	x8, x8, #1
	strb	w11, [x10], #1
	b.ne	.LBB58_12
	b	.LBB58_14
.LBB58_13:
	add	x0, x26, #4
	add	x1, x22, #4
	sub	x2, x25, #4
	bl	memmove
.LBB58_14:
	add	w8, w25, #3
	add	x9, x26, x25
	strh	w25, [x26]
	and	x8, x8, #0x1fffc
	strh	w27, [x26, #2]
	sub	x10, x8, x25
	cmp	x10, #3
	b.eq	.LBB58_18
	cmp	x10, #2
	b.eq	.LBB58_2
	cmp	x10, #1
	b.ne	.LBB58_3
	strb	wzr, [x9]
	b	.LBB58_3
.LBB58_18:
	strh	wzr, [x9]
	strb	wzr, [x9, #2]
	b	.LBB58_3
.LBB58_19:
	cmp	x10, #32
	b.hs	.LBB58_21
	mov	x11, xzr
	b	.LBB58_25
.LBB58_21:
	add	x14, x9, x8
	and	x12, x10, #0x18
	and	x11, x10, #0xffffffffffffffe0
	add	x13, x23, x19
	add	x14, x14, #20
	and	x15, x10, #0xffffffffffffffe0
.LBB58_22:
	ldp	q0, q1, [x14, #-16]
	subs	x15, x15, #32
	add	x14, x14, #32
	stp	q0, q1, [x13, #-16]
	add	x13, x13, #32
	b.ne	.LBB58_22
	cmp	x10, x11
	b.eq	.LBB58_14
	cbz	x12, .LBB58_11
.LBB58_25:
	mov	x12, x11
	and	x11, x10, #0xfffffffffffffff8
	add	x13, x8, x12
	add	x14, x12, x19
	sub	x12, x12, x11
	add	x13, x9, x13
	add	x14, x24, x14
	add	x13, x13, #4
.LBB58_26:
	ldr	d0, [x13], #8
	adds	x12, x12, #8
	str	d0, [x14], #8
	b.ne	.LBB58_26
	cmp	x10, x11
	b.eq	.LBB58_14
	b	.LBB58_11
.LBB58_28:
	mov	x19, xzr
.LBB58_29:
	mov	x0, x19
	ldp	x20, x19, [sp, #80]
	ldp	x22, x21, [sp, #64]
	ldr	x27, [sp, #16]
	ldp	x24, x23, [sp, #48]
	ldp	x26, x25, [sp, #32]
	ldp	x29, x30, [sp], #96
	ret
.Lfunc_end58:
	.size	nla_wire.members.write_each.1f0cb788f492ced5, .Lfunc_end58-nla_wire.members.write_each.1f0cb788f492ced5

	.section	.text.nla_wire.members.write_each.6cf1decf0b22dc4b,"ax",@progbits
	.p2align	2
	.type	nla_wire.members.write_each.6cf1decf0b22dc4b,@function
nla_wire.members.write_each.6cf1decf0b22dc4b:
	stp	x29, x30, [sp, #-96]!
	stp	x28, x27, [sp, #16]
	mov	x29, sp
	stp	x26, x25, [sp, #32]
	stp	x24, x23, [sp, #48]
	stp	x22, x21, [sp, #64]
	stp	x20, x19, [sp, #80]
	cbz	x1, .LBB59_40
	mov	x20, x2
	mov	x21, x1
	mov	x22, x0
	mov	x19, xzr
	mov	x25, xzr
	add	x23, x2, #20
	add	x24, x2, #4
	b	.LBB59_5
.LBB59_2:
	mov	x8, x25
.LBB59_3:
	strh	wzr, [x9]
	strb	wzr, [x9, #2]
.LBB59_4:
	cmp	x21, x25
	add	x19, x8, x19
	b.ls	.LBB59_41
.LBB59_5:
	sub	x21, x21, x25
	cmp	x21, #4
	b.lo	.LBB59_41
	mov	x9, x22
	add	x22, x22, x25
	mov	x8, x25
	ldrh	w27, [x22]
	cmp	w27, #4
	b.lo	.LBB59_41
	cmp	x21, x27
	b.lo	.LBB59_41
	ldrh	w28, [x22, #2]
	add	w12, w27, #3
	add	x26, x20, x19
	add	x10, x22, #4
	sub	x1, x27, #4
	and	x25, x12, #0x1fffc
	and	w11, w28, #0x3fff
	add	x12, x26, #4
	cmp	w11, #45
	b.eq	.LBB59_13
	cmp	w11, #10
	b.eq	.LBB59_12
	cmp	w11, #2
	b.ne	.LBB59_18
	add	x0, x22, #4
	add	x2, x26, #4
	bl	nla_wire.members.write_each.d7cac04ae1e23078
	add	x8, x0, #7
	add	x11, x0, #4
	mov	w9, #2
	b	.LBB59_14
.LBB59_12:
	add	x0, x22, #4
	add	x2, x26, #4
	bl	nla_wire.members.write_each.97809315b2b26985
	add	x8, x0, #7
	add	x11, x0, #4
	mov	w9, #10
	b	.LBB59_14
.LBB59_13:
	add	x0, x22, #4
	add	x2, x26, #4
	bl	nla_wire.members.write_each.7562298f77a88fdb
	add	x8, x0, #7
	add	x11, x0, #4
	mov	w9, #45
.LBB59_14:
	and	x8, x8, #0xfffffffffffffffc
	strh	w9, [x26, #2]
	add	x9, x26, x11
	sub	x10, x8, x11
	strh	w11, [x26]
	cmp	x10, #3
	b.eq	.LBB59_3
	cmp	x10, #2
	b.eq	.LBB59_24
	cmp	x10, #1
	b.ne	.LBB59_4
	strb	wzr, [x9]
	b	.LBB59_4
.LBB59_18:
	sub	x10, x12, x10
	cmp	x10, x1
	b.hs	.LBB59_25
	cmp	x1, #8
	b.lo	.LBB59_21
	add	x10, x19, x20
	add	x11, x8, x9
	sub	x10, x10, x11
	cmp	x10, #32
	b.hs	.LBB59_31
.LBB59_21:
	mov	x10, xzr
.LBB59_22:
	add	x8, x10, x8
	sub	x11, x27, x10
	add	x10, x10, x19
	add	x9, x9, x8
	sub	x8, x11, #4
	add	x10, x24, x10
	add	x9, x9, #4
.LBB59_23:
	ldrb	w11, [x9], #1
	subs	x8, x8, #1
	strb	w11, [x10], #1
	b.ne	.LBB59_23
	b	.LBB59_26
.LBB59_24:
	strh	wzr, [x9]
	b	.LBB59_4
.LBB59_25:
	add	x0, x26, #4
	add	x1, x22, #4
	sub	x2, x27, #4
	bl	memmove
.LBB59_26:
	sub	x8, x25, x27
	add	x9, x26, x27
	strh	w27, [x26]
	cmp	x8, #3
	strh	w28, [x26, #2]
	b.eq	.LBB59_2
	cmp	x8, #2
	b.eq	.LBB59_30
	cmp	x8, #1
	mov	x8, x25
	b.ne	.LBB59_4
	strb	wzr, [x9]
	mov	x8, x25
	b	.LBB59_4
.LBB59_30:
	strh	wzr, [x9]
	mov	x8, x25
	b	.LBB59_4
.LBB59_31:
	cmp	x1, #32
	b.hs	.LBB59_33
	mov	x10, xzr
	b	.LBB59_37
.LBB59_33:
	add	x13, x9, x8
	and	x11, x1, #0x18
	and	x10, x1, #0xffffffffffffffe0
	add	x12, x23, x19
	add	x13, x13, #20
	and	x14, x1, #0xffffffffffffffe0
.LBB59_34:
	ldp	q0, q1, [x13, #-16]
	subs	x14, x14, #32
	add	x13, x13, #32
	stp	q0, q1, [x12, #-16]
	add	x12, x12, #32
	b.ne	.LBB59_34
	cmp	x1, x10
	b.eq	.LBB59_26
	cbz	x11, .LBB59_22
.LBB59_37:
	mov	x11, x10
	and	x10, x1, #0xfffffffffffffff8
	add	x12, x8, x11
	add	x13, x11, x19
	sub	x11, x11, x10
	add	x12, x9, x12
	add	x13, x24, x13
	add	x12, x12, #4
.LBB59_38:
	ldr	d0, [x12], #8
	adds	x11, x11, #8
	str	d0, [x13], #8
	b.ne	.LBB59_38
	cmp	x1, x10
	b.eq	.LBB59_26
	b	.LBB59_22
.LBB59_40:
	mov	x19, xzr
.LBB59_41:
	mov	x0, x19
	ldp	x20, x19, [sp, #80]
	ldp	x22, x21, [sp, #64]
	ldp	x24, x23, [sp, #48]
	ldp	x26, x25, [sp, #32]
	ldp	x28, x27, [sp, #16]
	ldp	x29, x30, [sp], #96
	ret
.Lfunc_end59:
	.size	nla_wire.members.write_each.6cf1decf0b22dc4b, .Lfunc_end59-nla_wire.members.write_each.6cf1decf0b22dc4b

	.section	.text.nla_wire.members.write_each.d7cac04ae1e23078,"ax",@progbits
	.p2align	2
	.type	nla_wire.members.write_each.d7cac04ae1e23078,@function
nla_wire.members.write_each.d7cac04ae1e23078:
	stp	x29, x30, [sp, #-96]!
	stp	x28, x27, [sp, #16]
	mov	x29, sp
	stp	x26, x25, [sp, #32]
	stp	x24, x23, [sp, #48]
	stp	x22, x21, [sp, #64]
	stp	x20, x19, [sp, #80]
	cbz	x1, .LBB60_56
	mov	x20, x2
	mov	x21, x1
	mov	x22, x0
	mov	x19, xzr
	mov	x25, xzr
	add	x24, x2, #4
	b	.LBB60_5
.LBB60_2:
	strb	wzr, [x26, #139]
.LBB60_3:
	mov	w8, #140
	movk	w8, #1, lsl #16
	str	w8, [x26]
	mov	w8, #140
.LBB60_4:
	cmp	x21, x25
	add	x19, x8, x19
	b.ls	.LBB60_57
.LBB60_5:
	sub	x21, x21, x25
	cmp	x21, #4
	b.lo	.LBB60_57
	mov	x9, x22
	add	x22, x22, x25
	mov	x8, x25
	ldrh	w27, [x22]
	cmp	w27, #4
	b.lo	.LBB60_57
	cmp	x21, x27
	b.lo	.LBB60_57
	ldrh	w23, [x22, #2]
	add	w12, w27, #3
	add	x26, x20, x19
	add	x10, x22, #4
	sub	x28, x27, #4
	and	x25, x12, #0x1fffc
	and	w11, w23, #0x3fff
	cmp	w11, #1
	add	x11, x26, #4
	b.ne	.LBB60_16
	cmp	w27, #140
	sub	x12, x11, x10
	b.hs	.LBB60_22
	cmp	x12, x28
	b.hs	.LBB60_32
	cmp	x28, #8
	b.lo	.LBB60_13
	add	x10, x19, x20
	add	x11, x8, x9
	sub	x10, x10, x11
	cmp	x10, #32
	b.hs	.LBB60_40
.LBB60_13:
	mov	x10, xzr
.LBB60_14:
	add	x8, x10, x8
	sub	x11, x27, x10
	add	x10, x10, x19
	add	x9, x9, x8
	sub	x8, x11, #4
	add	x10, x24, x10
	add	x9, x9, #4
.LBB60_15:
	ldrb	w11, [x9], #1
	subs	x8, x8, #1
	strb	w11, [x10], #1
	b.ne	.LBB60_15
	b	.LBB60_33
.LBB60_16:
	sub	x10, x11, x10
	cmp	x10, x28
	b.hs	.LBB60_26
	cmp	x28, #8
	b.lo	.LBB60_19
	add	x10, x19, x20
	add	x11, x8, x9
	sub	x10, x10, x11
	cmp	x10, #32
	b.hs	.LBB60_37
.LBB60_19:
	mov	x10, xzr
.LBB60_20:
	add	x8, x10, x8
	sub	x11, x27, x10
	add	x10, x10, x19
	add	x9, x9, x8
	sub	x8, x11, #4
	add	x10, x24, x10
	add	x9, x9, #4
.LBB60_21:
	ldrb	w11, [x9], #1
	subs	x8, x8, #1
	strb	w11, [x10], #1
	b.ne	.LBB60_21
	b	.LBB60_27
.LBB60_22:
	cmp	x12, #135
	b.hi	.LBB60_35
	add	x10, x19, x20
	add	x8, x8, x9
	sub	x8, x10, x8
	cmp	x8, #15
	b.hi	.LBB60_39
	mov	w8, #4
.LBB60_25:
	ldrb	w9, [x22, x8]
	strb	w9, [x26, x8]
	add	x8, x8, #1
	cmp	x8, #140
	b.ne	.LBB60_25
	b	.LBB60_3
.LBB60_26:
	add	x0, x26, #4
	add	x1, x22, #4
	sub	x2, x27, #4
	bl	memmove
.LBB60_27:
	sub	x8, x25, x27
	add	x9, x26, x27
	strh	w27, [x26]
	cmp	x8, #3
	strh	w23, [x26, #2]
	b.eq	.LBB60_36
	cmp	x8, #2
	b.eq	.LBB60_31
	cmp	x8, #1
	mov	x8, x25
	b.ne	.LBB60_4
	strb	wzr, [x9]
	mov	x8, x25
	b	.LBB60_4
.LBB60_31:
	strh	wzr, [x9]
	mov	x8, x25
	b	.LBB60_4
.LBB60_32:
	add	x0, x26, #4
	add	x1, x22, #4
	sub	x2, x27, #4
	bl	memmove
.LBB60_33:
	cmp	x28, #135
	b.eq	.LBB60_2
	mov	w8, #139
	add	x0, x26, x27
	mov	w1, wzr
	sub	x2, x8, x27
	bl	memset
	b	.LBB60_2
.LBB60_35:
	ldp	q0, q1, [x10]
	ldr	x8, [x10, #128]
	ldp	q2, q3, [x10, #32]
	ldp	q4, q5, [x10, #96]
	ldp	q6, q7, [x10, #64]
	str	x8, [x11, #128]
	stp	q0, q1, [x11]
	stp	q2, q3, [x11, #32]
	stp	q6, q7, [x11, #64]
	stp	q4, q5, [x11, #96]
	b	.LBB60_3
.LBB60_36:
	mov	x8, x25
	strh	wzr, [x9]
	strb	wzr, [x9, #2]
	b	.LBB60_4
.LBB60_37:
	cmp	x28, #32
	b.hs	.LBB60_42
	mov	x10, xzr
	b	.LBB60_46
.LBB60_39:
	ldur	d0, [x22, #4]
	ldur	d1, [x22, #12]
	stur	d0, [x26, #4]
	stur	d1, [x26, #12]
	ldur	d0, [x22, #20]
	ldur	d1, [x22, #28]
	stur	d0, [x26, #20]
	stur	d1, [x26, #28]
	ldur	d0, [x22, #36]
	ldur	d1, [x22, #44]
	stur	d0, [x26, #36]
	stur	d1, [x26, #44]
	ldur	d0, [x22, #52]
	ldur	d1, [x22, #60]
	stur	d0, [x26, #52]
	stur	d1, [x26, #60]
	ldur	d0, [x22, #68]
	ldur	d1, [x22, #76]
	stur	d0, [x26, #68]
	stur	d1, [x26, #76]
	ldur	d0, [x22, #84]
	ldur	d1, [x22, #92]
	stur	d0, [x26, #84]
	stur	d1, [x26, #92]
	ldur	d0, [x22, #100]
	ldur	d1, [x22, #108]
	stur	d0, [x26, #100]
	stur	d1, [x26, #108]
	ldur	d0, [x22, #116]
	ldur	d1, [x22, #124]
	stur	d0, [x26, #116]
	stur	d1, [x26, #124]
	ldur	d0, [x22, #132]
	stur	d0, [x26, #132]
	b	.LBB60_3
.LBB60_40:
	cmp	x28, #32
	b.hs	.LBB60_49
	mov	x10, xzr
	b	.LBB60_53
.LBB60_42:
	add	x13, x9, x8
	add	x12, x20, #20
	and	x11, x28, #0x18
	and	x10, x28, #0xffffffffffffffe0
	add	x12, x12, x19
	add	x13, x13, #20
	and	x14, x28, #0xffffffffffffffe0
.LBB60_43:
	ldp	q0, q1, [x13, #-16]
	subs	x14, x14, #32
	add	x13, x13, #32
	stp	q0, q1, [x12, #-16]
	add	x12, x12, #32
	b.ne	.LBB60_43
	cmp	x28, x10
	b.eq	.LBB60_27
	cbz	x11, .LBB60_20
.LBB60_46:
	mov	x11, x10
	and	x10, x28, #0xfffffffffffffff8
	add	x12, x8, x11
	add	x13, x11, x19
	sub	x11, x11, x10
	add	x12, x9, x12
	add	x13, x24, x13
	add	x12, x12, #4
.LBB60_47:
	ldr	d0, [x12], #8
	adds	x11, x11, #8
	str	d0, [x13], #8
	b.ne	.LBB60_47
	cmp	x28, x10
	b.eq	.LBB60_27
	b	.LBB60_20
.LBB60_49:
	add	x13, x9, x8
	add	x12, x20, #20
	and	x11, x28, #0x18
	and	x10, x28, #0xffffffffffffffe0
	add	x12, x12, x19
	add	x13, x13, #20
	and	x14, x28, #0xffffffffffffffe0
.LBB60_50:
	ldp	q0, q1, [x13, #-16]
	subs	x14, x14, #32
	add	x13, x13, #32
	stp	q0, q1, [x12, #-16]
	add	x12, x12, #32
	b.ne	.LBB60_50
	cmp	x28, x10
	b.eq	.LBB60_33
	cbz	x11, .LBB60_14
.LBB60_53:
	mov	x11, x10
	and	x10, x28, #0xfffffffffffffff8
	add	x12, x8, x11
	add	x13, x11, x19
	sub	x11, x11, x10
	add	x12, x9, x12
	add	x13, x24, x13
	add	x12, x12, #4
.LBB60_54:
	ldr	d0, [x12], #8
	adds	x11, x11, #8
	str	d0, [x13], #8
	b.ne	.LBB60_54
	cmp	x28, x10
	b.eq	.LBB60_33
	b	.LBB60_14
.LBB60_56:
	mov	x19, xzr
.LBB60_57:
	mov	x0, x19
	ldp	x20, x19, [sp, #80]
	ldp	x22, x21, [sp, #64]
	ldp	x24, x23, [sp, #48]
	ldp	x26, x25, [sp, #32]
	ldp	x28, x27, [sp, #16]
	ldp	x29, x30, [sp], #96
	ret
.Lfunc_end60:
	.size	nla_wire.members.write_each.d7cac04ae1e23078, .Lfunc_end60-nla_wire.members.write_each.d7cac04ae1e23078

	.section	.text.nla_wire.members.write_each.97809315b2b26985,"ax",@progbits
	.p2align	2
	.type	nla_wire.members.write_each.97809315b2b26985,@function
nla_wire.members.write_each.97809315b2b26985:
	stp	x29, x30, [sp, #-96]!
	stp	x28, x27, [sp, #16]
	mov	x29, sp
	stp	x26, x25, [sp, #32]
	stp	x24, x23, [sp, #48]
	stp	x22, x21, [sp, #64]
	stp	x20, x19, [sp, #80]
	cbz	x1, .LBB61_156
	mov	x20, x2
	mov	x21, x1
	mov	x22, x0
	mov	x19, xzr
	mov	x25, xzr
	add	x24, x2, #4
	b	.LBB61_5
.LBB61_2:
	ldrb	w8, [x10]
	mov	w9, #5
	sturh	wzr, [x26, #5]
	movk	w9, #8, lsl #16
	strb	wzr, [x26, #7]
	str	w9, [x26]
	strb	w8, [x26, #4]
.LBB61_3:
	mov	w8, #8
.LBB61_4:
	cmp	x21, x25
	add	x19, x8, x19
	b.ls	.LBB61_157
.LBB61_5:
	sub	x21, x21, x25
	cmp	x21, #4
	b.lo	.LBB61_157
	mov	x8, x22
	add	x22, x22, x25
	mov	x9, x25
	ldrh	w27, [x22]
	cmp	w27, #4
	b.lo	.LBB61_157
	cmp	x21, x27
	b.lo	.LBB61_157
	ldrh	w23, [x22, #2]
	add	w12, w27, #3
	add	x10, x22, #4
	sub	x28, x27, #4
	and	x25, x12, #0x1fffc
	add	x26, x20, x19
	and	w11, w23, #0x3fff
	cmp	w11, #5
	b.gt	.LBB61_19
	cmp	w11, #2
	b.gt	.LBB61_24
	cmp	w11, #1
	b.eq	.LBB61_37
	cmp	w11, #2
	b.ne	.LBB61_53
	add	x11, x26, #4
	cmp	w27, #244
	sub	x12, x11, x10
	b.hs	.LBB61_67
	cmp	x12, x28
	b.hs	.LBB61_93
	cmp	x28, #8
	b.lo	.LBB61_16
	add	x10, x19, x20
	add	x11, x9, x8
	sub	x10, x10, x11
	cmp	x10, #32
	b.hs	.LBB61_117
.LBB61_16:
	mov	x10, xzr
.LBB61_17:
	add	x9, x10, x9
	sub	x11, x27, x10
	add	x10, x10, x19
	add	x9, x8, x9
	sub	x8, x11, #4
	add	x10, x24, x10
	add	x9, x9, #4
.LBB61_18:
	ldrb	w11, [x9], #1
	subs	x8, x8, #1
	strb	w11, [x10], #1
	b.ne	.LBB61_18
	b	.LBB61_94
.LBB61_19:
	cmp	w11, #7
	b.gt	.LBB61_33
	cmp	w11, #6
	b.eq	.LBB61_39
	cmp	w11, #7
	b.ne	.LBB61_53
	add	x8, x26, #4
	sub	x9, x8, x10
	cmp	x9, #15
	b.hi	.LBB61_71
	ldrb	w8, [x22, #4]
	strb	w8, [x26, #4]
	ldrb	w8, [x22, #5]
	strb	w8, [x26, #5]
	ldrb	w8, [x22, #6]
	strb	w8, [x26, #6]
	ldrb	w8, [x22, #7]
	strb	w8, [x26, #7]
	ldrb	w8, [x22, #8]
	strb	w8, [x26, #8]
	ldrb	w8, [x22, #9]
	strb	w8, [x26, #9]
	ldrb	w8, [x22, #10]
	strb	w8, [x26, #10]
	ldrb	w8, [x22, #11]
	strb	w8, [x26, #11]
	ldrb	w8, [x22, #12]
	strb	w8, [x26, #12]
	ldrb	w8, [x22, #13]
	strb	w8, [x26, #13]
	ldrb	w8, [x22, #14]
	strb	w8, [x26, #14]
	ldrb	w8, [x22, #15]
	strb	w8, [x26, #15]
	ldrb	w8, [x22, #16]
	strb	w8, [x26, #16]
	ldrb	w8, [x22, #17]
	strb	w8, [x26, #17]
	ldrb	w8, [x22, #18]
	strb	w8, [x26, #18]
	ldrb	w8, [x22, #19]
	strb	w8, [x26, #19]
	mov	w8, #20
	movk	w8, #7, lsl #16
	b	.LBB61_104
.LBB61_24:
	cmp	w11, #3
	b.eq	.LBB61_46
	cmp	w11, #5
	b.ne	.LBB61_53
	add	x11, x26, #4
	cmp	w27, #20
	sub	x12, x11, x10
	b.hs	.LBB61_72
	cmp	x12, x28
	b.hs	.LBB61_97
	cmp	x28, #8
	b.lo	.LBB61_30
	add	x10, x19, x20
	add	x11, x9, x8
	sub	x10, x10, x11
	cmp	x10, #32
	b.hs	.LBB61_119
.LBB61_30:
	mov	x10, xzr
.LBB61_31:
	add	x9, x10, x9
	sub	x11, x27, x10
	add	x10, x10, x19
	add	x9, x8, x9
	sub	x8, x11, #4
	add	x10, x24, x10
	add	x9, x9, #4
.LBB61_32:
	ldrb	w11, [x9], #1
	subs	x8, x8, #1
	strb	w11, [x10], #1
	b.ne	.LBB61_32
	b	.LBB61_98
.LBB61_33:
	cmp	w11, #8
	b.eq	.LBB61_2
	cmp	w11, #9
	b.ne	.LBB61_53
	add	x8, x26, #4
	sub	x9, x8, x10
	cmp	x9, #3
	b.hi	.LBB61_74
	ldrb	w8, [x22, #4]
	strb	w8, [x26, #4]
	ldrb	w8, [x22, #5]
	strb	w8, [x26, #5]
	ldrb	w8, [x22, #6]
	strb	w8, [x26, #6]
	ldrb	w8, [x22, #7]
	strb	w8, [x26, #7]
	b	.LBB61_75
.LBB61_37:
	add	x8, x26, #4
	sub	x9, x8, x10
	cmp	x9, #3
	b.hi	.LBB61_59
	ldrb	w8, [x22, #4]
	strb	w8, [x26, #4]
	ldrb	w8, [x22, #5]
	strb	w8, [x26, #5]
	ldrb	w8, [x22, #6]
	strb	w8, [x26, #6]
	ldrb	w8, [x22, #7]
	strb	w8, [x26, #7]
	b	.LBB61_60
.LBB61_39:
	add	x11, x26, #4
	cmp	w27, #60
	sub	x12, x11, x10
	b.hs	.LBB61_61
	cmp	x12, x28
	b.hs	.LBB61_82
	cmp	x28, #8
	b.lo	.LBB61_43
	add	x10, x19, x20
	add	x11, x9, x8
	sub	x10, x10, x11
	cmp	x10, #32
	b.hs	.LBB61_113
.LBB61_43:
	mov	x10, xzr
.LBB61_44:
	add	x9, x10, x9
	sub	x11, x27, x10
	add	x10, x10, x19
	add	x9, x8, x9
	sub	x8, x11, #4
	add	x10, x24, x10
	add	x9, x9, #4
.LBB61_45:
	ldrb	w11, [x9], #1
	subs	x8, x8, #1
	strb	w11, [x10], #1
	b.ne	.LBB61_45
	b	.LBB61_83
.LBB61_46:
	add	x11, x26, #4
	cmp	w27, #316
	sub	x10, x11, x10
	b.hs	.LBB61_63
	cmp	x10, x28
	b.hs	.LBB61_86
	cmp	x28, #8
	b.lo	.LBB61_50
	add	x10, x19, x20
	add	x11, x9, x8
	sub	x10, x10, x11
	cmp	x10, #32
	b.hs	.LBB61_115
.LBB61_50:
	mov	x10, xzr
.LBB61_51:
	add	x9, x10, x9
	sub	x11, x27, x10
	add	x10, x10, x19
	add	x9, x8, x9
	sub	x8, x11, #4
	add	x10, x24, x10
	add	x9, x9, #4
.LBB61_52:
	ldrb	w11, [x9], #1
	subs	x8, x8, #1
	strb	w11, [x10], #1
	b.ne	.LBB61_52
	b	.LBB61_87
.LBB61_53:
	add	x11, x26, #4
	sub	x10, x11, x10
	cmp	x10, x28
	b.hs	.LBB61_77
	cmp	x28, #8
	b.lo	.LBB61_56
	add	x10, x19, x20
	add	x11, x9, x8
	sub	x10, x10, x11
	cmp	x10, #32
	b.hs	.LBB61_111
.LBB61_56:
	mov	x10, xzr
.LBB61_57:
	add	x9, x10, x9
	sub	x11, x27, x10
	add	x10, x10, x19
	add	x9, x8, x9
	sub	x8, x11, #4
	add	x10, x24, x10
	add	x9, x9, #4
.LBB61_58:
	ldrb	w11, [x9], #1
	subs	x8, x8, #1
	strb	w11, [x10], #1
	b.ne	.LBB61_58
	b	.LBB61_78
.LBB61_59:
	ldr	w9, [x10]
	str	w9, [x8]
.LBB61_60:
	mov	w8, #8
	movk	w8, #1, lsl #16
	b	.LBB61_76
.LBB61_61:
	cmp	x12, #55
	b.hi	.LBB61_90
	ldrb	w8, [x22, #4]
	strb	w8, [x26, #4]
	ldrb	w8, [x22, #5]
	strb	w8, [x26, #5]
	ldrb	w8, [x22, #6]
	strb	w8, [x26, #6]
	ldrb	w8, [x22, #7]
	strb	w8, [x26, #7]
	ldrb	w8, [x22, #8]
	strb	w8, [x26, #8]
	ldrb	w8, [x22, #9]
	strb	w8, [x26, #9]
	ldrb	w8, [x22, #10]
	strb	w8, [x26, #10]
	ldrb	w8, [x22, #11]
	strb	w8, [x26, #11]
	ldrb	w8, [x22, #12]
	strb	w8, [x26, #12]
	ldrb	w8, [x22, #13]
	strb	w8, [x26, #13]
	ldrb	w8, [x22, #14]
	strb	w8, [x26, #14]
	ldrb	w8, [x22, #15]
	strb	w8, [x26, #15]
	ldrb	w8, [x22, #16]
	strb	w8, [x26, #16]
	ldrb	w8, [x22, #17]
	strb	w8, [x26, #17]
	ldrb	w8, [x22, #18]
	strb	w8, [x26, #18]
	ldrb	w8, [x22, #19]
	strb	w8, [x26, #19]
	ldrb	w8, [x22, #20]
	strb	w8, [x26, #20]
	ldrb	w8, [x22, #21]
	strb	w8, [x26, #21]
	ldrb	w8, [x22, #22]
	strb	w8, [x26, #22]
	ldrb	w8, [x22, #23]
	strb	w8, [x26, #23]
	ldrb	w8, [x22, #24]
	strb	w8, [x26, #24]
	ldrb	w8, [x22, #25]
	strb	w8, [x26, #25]
	ldrb	w8, [x22, #26]
	strb	w8, [x26, #26]
	ldrb	w8, [x22, #27]
	strb	w8, [x26, #27]
	ldrb	w8, [x22, #28]
	strb	w8, [x26, #28]
	ldrb	w8, [x22, #29]
	strb	w8, [x26, #29]
	ldrb	w8, [x22, #30]
	strb	w8, [x26, #30]
	ldrb	w8, [x22, #31]
	strb	w8, [x26, #31]
	ldrb	w8, [x22, #32]
	strb	w8, [x26, #32]
	ldrb	w8, [x22, #33]
	strb	w8, [x26, #33]
	ldrb	w8, [x22, #34]
	strb	w8, [x26, #34]
	ldrb	w8, [x22, #35]
	strb	w8, [x26, #35]
	ldrb	w8, [x22, #36]
	strb	w8, [x26, #36]
	ldrb	w8, [x22, #37]
	strb	w8, [x26, #37]
	ldrb	w8, [x22, #38]
	strb	w8, [x26, #38]
	ldrb	w8, [x22, #39]
	strb	w8, [x26, #39]
	ldrb	w8, [x22, #40]
	strb	w8, [x26, #40]
	ldrb	w8, [x22, #41]
	strb	w8, [x26, #41]
	ldrb	w8, [x22, #42]
	strb	w8, [x26, #42]
	ldrb	w8, [x22, #43]
	strb	w8, [x26, #43]
	ldrb	w8, [x22, #44]
	strb	w8, [x26, #44]
	ldrb	w8, [x22, #45]
	strb	w8, [x26, #45]
	ldrb	w8, [x22, #46]
	strb	w8, [x26, #46]
	ldrb	w8, [x22, #47]
	strb	w8, [x26, #47]
	ldrb	w8, [x22, #48]
	strb	w8, [x26, #48]
	ldrb	w8, [x22, #49]
	strb	w8, [x26, #49]
	ldrb	w8, [x22, #50]
	strb	w8, [x26, #50]
	ldrb	w8, [x22, #51]
	strb	w8, [x26, #51]
	ldrb	w8, [x22, #52]
	strb	w8, [x26, #52]
	ldrb	w8, [x22, #53]
	strb	w8, [x26, #53]
	ldrb	w8, [x22, #54]
	strb	w8, [x26, #54]
	ldrb	w8, [x22, #55]
	strb	w8, [x26, #55]
	ldrb	w8, [x22, #56]
	strb	w8, [x26, #56]
	ldrb	w8, [x22, #57]
	strb	w8, [x26, #57]
	ldrb	w8, [x22, #58]
	strb	w8, [x26, #58]
	ldrb	w8, [x22, #59]
	strb	w8, [x26, #59]
	b	.LBB61_91
.LBB61_63:
	cmp	x10, #311
	b.hi	.LBB61_92
	add	x10, x19, x20
	add	x8, x9, x8
	sub	x8, x10, x8
	cmp	x8, #31
	b.hi	.LBB61_107
	mov	w8, #4
.LBB61_66:
	ldrb	w9, [x22, x8]
	strb	w9, [x26, x8]
	add	x8, x8, #1
	cmp	x8, #316
	b.ne	.LBB61_66
	b	.LBB61_108
.LBB61_67:
	cmp	x12, #239
	b.hi	.LBB61_101
	add	x10, x19, x20
	add	x8, x9, x8
	sub	x8, x10, x8
	cmp	x8, #31
	b.hi	.LBB61_109
	mov	w8, #4
.LBB61_70:
	ldrb	w9, [x22, x8]
	strb	w9, [x26, x8]
	add	x8, x8, #1
	cmp	x8, #244
	b.ne	.LBB61_70
	b	.LBB61_110
.LBB61_71:
	ldr	q0, [x10]
	str	q0, [x8]
	mov	w8, #20
	movk	w8, #7, lsl #16
	b	.LBB61_104
.LBB61_72:
	cmp	x12, #15
	b.hi	.LBB61_102
	ldrb	w8, [x22, #4]
	strb	w8, [x26, #4]
	ldrb	w8, [x22, #5]
	strb	w8, [x26, #5]
	ldrb	w8, [x22, #6]
	strb	w8, [x26, #6]
	ldrb	w8, [x22, #7]
	strb	w8, [x26, #7]
	ldrb	w8, [x22, #8]
	strb	w8, [x26, #8]
	ldrb	w8, [x22, #9]
	strb	w8, [x26, #9]
	ldrb	w8, [x22, #10]
	strb	w8, [x26, #10]
	ldrb	w8, [x22, #11]
	strb	w8, [x26, #11]
	ldrb	w8, [x22, #12]
	strb	w8, [x26, #12]
	ldrb	w8, [x22, #13]
	strb	w8, [x26, #13]
	ldrb	w8, [x22, #14]
	strb	w8, [x26, #14]
	ldrb	w8, [x22, #15]
	strb	w8, [x26, #15]
	ldrb	w8, [x22, #16]
	strb	w8, [x26, #16]
	ldrb	w8, [x22, #17]
	strb	w8, [x26, #17]
	ldrb	w8, [x22, #18]
	strb	w8, [x26, #18]
	ldrb	w8, [x22, #19]
	strb	w8, [x26, #19]
	b	.LBB61_103
.LBB61_74:
	ldr	w9, [x10]
	str	w9, [x8]
.LBB61_75:
	mov	w8, #8
	movk	w8, #9, lsl #16
.LBB61_76:
	str	w8, [x26]
	b	.LBB61_3
.LBB61_77:
	add	x0, x26, #4
	add	x1, x22, #4
	sub	x2, x27, #4
	bl	memmove
.LBB61_78:
	sub	x8, x25, x27
	add	x9, x26, x27
	strh	w27, [x26]
	cmp	x8, #3
	strh	w23, [x26, #2]
	b.eq	.LBB61_106
	cmp	x8, #2
	b.eq	.LBB61_105
	cmp	x8, #1
	mov	x8, x25
	b.ne	.LBB61_4
	strb	wzr, [x9]
	mov	x8, x25
	b	.LBB61_4
.LBB61_82:
	add	x0, x26, #4
	add	x1, x22, #4
	sub	x2, x27, #4
	bl	memmove
.LBB61_83:
	cmp	x28, #55
	b.eq	.LBB61_85
	mov	w8, #59
	add	x0, x26, x27
	mov	w1, wzr
	sub	x2, x8, x27
	bl	memset
.LBB61_85:
	strb	wzr, [x26, #59]
	b	.LBB61_91
.LBB61_86:
	add	x0, x26, #4
	add	x1, x22, #4
	sub	x2, x27, #4
	bl	memmove
.LBB61_87:
	cmp	x28, #311
	b.eq	.LBB61_89
	mov	w8, #315
	add	x0, x26, x27
	mov	w1, wzr
	sub	x2, x8, x27
	bl	memset
.LBB61_89:
	strb	wzr, [x26, #315]
	b	.LBB61_108
.LBB61_90:
	ldp	q2, q0, [x10, #16]
	ldr	x8, [x10, #48]
	ldr	q1, [x10]
	str	x8, [x11, #48]
	stp	q2, q0, [x11, #16]
	str	q1, [x11]
.LBB61_91:
	mov	w8, #60
	movk	w8, #6, lsl #16
	str	w8, [x26]
	mov	w8, #60
	b	.LBB61_4
.LBB61_92:
	add	x0, x26, #4
	add	x1, x22, #4
	mov	w2, #312
	bl	memmove
	b	.LBB61_108
.LBB61_93:
	add	x0, x26, #4
	add	x1, x22, #4
	sub	x2, x27, #4
	bl	memmove
.LBB61_94:
	cmp	x28, #239
	b.eq	.LBB61_96
	mov	w8, #243
	add	x0, x26, x27
	mov	w1, wzr
	sub	x2, x8, x27
	bl	memset
.LBB61_96:
	strb	wzr, [x26, #243]
	b	.LBB61_110
.LBB61_97:
	add	x0, x26, #4
	add	x1, x22, #4
	sub	x2, x27, #4
	bl	memmove
.LBB61_98:
	cmp	x28, #15
	b.eq	.LBB61_100
	mov	w8, #19
	add	x0, x26, x27
	mov	w1, wzr
	sub	x2, x8, x27
	bl	memset
.LBB61_100:
	strb	wzr, [x26, #19]
	b	.LBB61_103
.LBB61_101:
	ldp	q0, q1, [x10]
	ldr	q21, [x10, #160]
	ldp	q2, q3, [x10, #32]
	ldp	q4, q5, [x10, #64]
	ldp	q6, q7, [x10, #96]
	ldp	q20, q16, [x10, #208]
	ldp	q17, q18, [x10, #128]
	ldp	q22, q19, [x10, #176]
	stp	q1, q2, [x11, #16]
	stp	q3, q4, [x11, #48]
	stp	q5, q6, [x11, #80]
	stp	q7, q17, [x11, #112]
	stp	q18, q21, [x11, #144]
	stp	q22, q19, [x11, #176]
	stp	q20, q16, [x11, #208]
	str	q0, [x11]
	b	.LBB61_110
.LBB61_102:
	ldr	q0, [x10]
	str	q0, [x11]
.LBB61_103:
	mov	w8, #20
	movk	w8, #5, lsl #16
.LBB61_104:
	str	w8, [x26]
	mov	w8, #20
	b	.LBB61_4
.LBB61_105:
	strh	wzr, [x9]
	mov	x8, x25
	b	.LBB61_4
.LBB61_106:
	mov	x8, x25
	strh	wzr, [x9]
	strb	wzr, [x9, #2]
	b	.LBB61_4
.LBB61_107:
	ldur	q0, [x22, #4]
	ldur	q1, [x22, #20]
	add	x8, x22, #260
	add	x9, x22, #276
	stur	q0, [x26, #4]
	stur	q1, [x26, #20]
	ldur	q0, [x22, #36]
	ldur	q1, [x22, #52]
	stur	q0, [x26, #36]
	stur	q1, [x26, #52]
	ldur	q0, [x22, #68]
	ldur	q1, [x22, #84]
	stur	q0, [x26, #68]
	stur	q1, [x26, #84]
	ldur	q0, [x22, #100]
	ldur	q1, [x22, #116]
	stur	q0, [x26, #100]
	stur	q1, [x26, #116]
	ldur	q0, [x22, #132]
	ldur	q1, [x22, #148]
	stur	q0, [x26, #132]
	stur	q1, [x26, #148]
	ldur	q0, [x22, #164]
	ldur	q1, [x22, #180]
	stur	q0, [x26, #164]
	stur	q1, [x26, #180]
	ldur	q0, [x22, #196]
	ldur	q1, [x22, #212]
	stur	q0, [x26, #196]
	stur	q1, [x26, #212]
	ldur	q0, [x22, #228]
	ldur	q1, [x22, #244]
	stur	q0, [x26, #228]
	stur	q1, [x26, #244]
	ldr	q0, [x8]
	ldr	q1, [x9]
	add	x8, x26, #260
	add	x9, x26, #276
	str	q0, [x8]
	add	x8, x22, #292
	str	q1, [x9]
	ldr	d0, [x8]
	add	x8, x26, #292
	str	d0, [x8]
	add	x8, x22, #300
	ldr	d0, [x8]
	add	x8, x26, #300
	str	d0, [x8]
	add	x8, x22, #308
	ldr	d0, [x8]
	add	x8, x26, #308
	str	d0, [x8]
.LBB61_108:
	mov	w8, #316
	movk	w8, #3, lsl #16
	str	w8, [x26]
	mov	w8, #316
	b	.LBB61_4
.LBB61_109:
	ldur	q0, [x22, #4]
	ldur	q1, [x22, #20]
	stur	q0, [x26, #4]
	stur	q1, [x26, #20]
	ldur	q0, [x22, #36]
	ldur	q1, [x22, #52]
	stur	q0, [x26, #36]
	stur	q1, [x26, #52]
	ldur	q0, [x22, #68]
	ldur	q1, [x22, #84]
	stur	q0, [x26, #68]
	stur	q1, [x26, #84]
	ldur	q0, [x22, #100]
	ldur	q1, [x22, #116]
	stur	q0, [x26, #100]
	stur	q1, [x26, #116]
	ldur	q0, [x22, #132]
	ldur	q1, [x22, #148]
	stur	q0, [x26, #132]
	stur	q1, [x26, #148]
	ldur	q0, [x22, #164]
	ldur	q1, [x22, #180]
	stur	q0, [x26, #164]
	stur	q1, [x26, #180]
	ldur	q0, [x22, #196]
	ldur	q1, [x22, #212]
	stur	q0, [x26, #196]
	stur	q1, [x26, #212]
	ldur	q0, [x22, #228]
	stur	q0, [x26, #228]
.LBB61_110:
	mov	w8, #244
	movk	w8, #2, lsl #16
	str	w8, [x26]
	mov	w8, #244
	b	.LBB61_4
.LBB61_111:
	cmp	x28, #32
	b.hs	.LBB61_121
	mov	x10, xzr
	b	.LBB61_125
.LBB61_113:
	cmp	x28, #32
	b.hs	.LBB61_128
	mov	x10, xzr
	b	.LBB61_132
.LBB61_115:
	cmp	x28, #32
	b.hs	.LBB61_135
	mov	x10, xzr
	b	.LBB61_139
.LBB61_117:
	cmp	x28, #32
	b.hs	.LBB61_142
	mov	x10, xzr
	b	.LBB61_146
.LBB61_119:
	cmp	x28, #32
	b.hs	.LBB61_149
	mov	x10, xzr
	b	.LBB61_153
.LBB61_121:
	add	x13, x8, x9
	add	x12, x20, #20
	and	x11, x28, #0x18
	and	x10, x28, #0xffffffffffffffe0
	add	x12, x12, x19
	add	x13, x13, #20
	and	x14, x28, #0xffffffffffffffe0
.LBB61_122:
	ldp	q0, q1, [x13, #-16]
	subs	x14, x14, #32
	add	x13, x13, #32
	stp	q0, q1, [x12, #-16]
	add	x12, x12, #32
	b.ne	.LBB61_122
	cmp	x28, x10
	b.eq	.LBB61_78
	cbz	x11, .LBB61_57
.LBB61_125:
	mov	x11, x10
	and	x10, x28, #0xfffffffffffffff8
	add	x12, x9, x11
	add	x13, x11, x19
	sub	x11, x11, x10
	add	x12, x8, x12
	add	x13, x24, x13
	add	x12, x12, #4
.LBB61_126:
	ldr	d0, [x12], #8
	adds	x11, x11, #8
	str	d0, [x13], #8
	b.ne	.LBB61_126
	cmp	x28, x10
	b.eq	.LBB61_78
	b	.LBB61_57
.LBB61_128:
	add	x13, x8, x9
	add	x12, x20, #20
	and	x11, x28, #0x18
	and	x10, x28, #0xffffffffffffffe0
	add	x12, x12, x19
	add	x13, x13, #20
	and	x14, x28, #0xffffffffffffffe0
.LBB61_129:
	ldp	q0, q1, [x13, #-16]
	subs	x14, x14, #32
	add	x13, x13, #32
	stp	q0, q1, [x12, #-16]
	add	x12, x12, #32
	b.ne	.LBB61_129
	cmp	x28, x10
	b.eq	.LBB61_83
	cbz	x11, .LBB61_44
.LBB61_132:
	mov	x11, x10
	and	x10, x28, #0xfffffffffffffff8
	add	x12, x9, x11
	add	x13, x11, x19
	sub	x11, x11, x10
	add	x12, x8, x12
	add	x13, x24, x13
	add	x12, x12, #4
.LBB61_133:
	ldr	d0, [x12], #8
	adds	x11, x11, #8
	str	d0, [x13], #8
	b.ne	.LBB61_133
	cmp	x28, x10
	b.eq	.LBB61_83
	b	.LBB61_44
.LBB61_135:
	add	x13, x8, x9
	add	x12, x20, #20
	and	x11, x28, #0x18
	and	x10, x28, #0xffffffffffffffe0
	add	x12, x12, x19
	add	x13, x13, #20
	and	x14, x28, #0xffffffffffffffe0
.LBB61_136:
	ldp	q0, q1, [x13, #-16]
	subs	x14, x14, #32
	add	x13, x13, #32
	stp	q0, q1, [x12, #-16]
	add	x12, x12, #32
	b.ne	.LBB61_136
	cmp	x28, x10
	b.eq	.LBB61_87
	cbz	x11, .LBB61_51
.LBB61_139:
	mov	x11, x10
	and	x10, x28, #0xfffffffffffffff8
	add	x12, x9, x11
	add	x13, x11, x19
	sub	x11, x11, x10
	add	x12, x8, x12
	add	x13, x24, x13
	add	x12, x12, #4
.LBB61_140:
	ldr	d0, [x12], #8
	adds	x11, x11, #8
	str	d0, [x13], #8
	b.ne	.LBB61_140
	cmp	x28, x10
	b.eq	.LBB61_87
	b	.LBB61_51
.LBB61_142:
	add	x13, x8, x9
	add	x12, x20, #20
	and	x11, x28, #0x18
	and	x10, x28, #0xffffffffffffffe0
	add	x12, x12, x19
	add	x13, x13, #20
	and	x14, x28, #0xffffffffffffffe0
.LBB61_143:
	ldp	q0, q1, [x13, #-16]
	subs	x14, x14, #32
	add	x13, x13, #32
	stp	q0, q1, [x12, #-16]
	add	x12, x12, #32
	b.ne	.LBB61_143
	cmp	x28, x10
	b.eq	.LBB61_94
	cbz	x11, .LBB61_17
.LBB61_146:
	mov	x11, x10
	and	x10, x28, #0xfffffffffffffff8
	add	x12, x9, x11
	add	x13, x11, x19
	sub	x11, x11, x10
	add	x12, x8, x12
	add	x13, x24, x13
	add	x12, x12, #4
.LBB61_147:
	ldr	d0, [x12], #8
	adds	x11, x11, #8
	str	d0, [x13], #8
	b.ne	.LBB61_147
	cmp	x28, x10
	b.eq	.LBB61_94
	b	.LBB61_17
.LBB61_149:
	add	x13, x8, x9
	add	x12, x20, #20
	and	x11, x28, #0x18
	and	x10, x28, #0xffffffffffffffe0
	add	x12, x12, x19
	add	x13, x13, #20
	and	x14, x28, #0xffffffffffffffe0
.LBB61_150:
	ldp	q0, q1, [x13, #-16]
	subs	x14, x14, #32
	add	x13, x13, #32
	stp	q0, q1, [x12, #-16]
	add	x12, x12, #32
	b.ne	.LBB61_150
	cmp	x28, x10
	b.eq	.LBB61_98
	cbz	x11, .LBB61_31
.LBB61_153:
	mov	x11, x10
	and	x10, x28, #0xfffffffffffffff8
	add	x12, x9, x11
	add	x13, x11, x19
	sub	x11, x11, x10
	add	x12, x8, x12
	add	x13, x24, x13
	add	x12, x12, #4
.LBB61_154:
	ldr	d0, [x12], #8
	adds	x11, x11, #8
	str	d0, [x13], #8
	b.ne	.LBB61_154
	cmp	x28, x10
	b.eq	.LBB61_98
	b	.LBB61_31
.LBB61_156:
	mov	x19, xzr
.LBB61_157:
	mov	x0, x19
	ldp	x20, x19, [sp, #80]
	ldp	x22, x21, [sp, #64]
	ldp	x24, x23, [sp, #48]
	ldp	x26, x25, [sp, #32]
	ldp	x28, x27, [sp, #16]
	ldp	x29, x30, [sp], #96
	ret
.Lfunc_end61:
	.size	nla_wire.members.write_each.97809315b2b26985, .Lfunc_end61-nla_wire.members.write_each.97809315b2b26985

	.section	.text.nla_wire.members.write_each.7562298f77a88fdb,"ax",@progbits
	.p2align	2
	.type	nla_wire.members.write_each.7562298f77a88fdb,@function
nla_wire.members.write_each.7562298f77a88fdb:
	stp	x29, x30, [sp, #-96]!
	stp	x28, x27, [sp, #16]
	mov	x29, sp
	stp	x26, x25, [sp, #32]
	stp	x24, x23, [sp, #48]
	stp	x22, x21, [sp, #64]
	stp	x20, x19, [sp, #80]
	cbz	x1, .LBB62_36
	mov	x20, x2
	mov	x21, x1
	mov	x22, x0
	mov	x19, xzr
	mov	x25, xzr
	add	x23, x2, #20
	add	x24, x2, #4
	b	.LBB62_5
.LBB62_2:
	ldrb	w8, [x11]
	mov	w9, #5
	sturh	wzr, [x26, #5]
	movk	w9, #2, lsl #16
	strb	wzr, [x26, #7]
	str	w9, [x26]
	strb	w8, [x26, #4]
.LBB62_3:
	mov	w8, #8
.LBB62_4:
	cmp	x21, x25
	add	x19, x8, x19
	b.ls	.LBB62_37
.LBB62_5:
	sub	x21, x21, x25
	cmp	x21, #4
	b.lo	.LBB62_37
	mov	x9, x22
	add	x22, x22, x25
	mov	x8, x25
	ldrh	w27, [x22]
	cmp	w27, #4
	b.lo	.LBB62_37
	cmp	x21, x27
	b.lo	.LBB62_37
	ldrh	w28, [x22, #2]
	add	w12, w27, #3
	add	x11, x22, #4
	and	x25, x12, #0x1fffc
	add	x26, x20, x19
	and	w10, w28, #0x3fff
	cmp	w10, #2
	b.eq	.LBB62_2
	cmp	w10, #1
	add	x12, x26, #4
	b.ne	.LBB62_12
	sub	x8, x12, x11
	cmp	x8, #3
	b.hi	.LBB62_18
	ldrb	w8, [x22, #4]
	strb	w8, [x26, #4]
	ldrb	w8, [x22, #5]
	strb	w8, [x26, #5]
	ldrb	w8, [x22, #6]
	strb	w8, [x26, #6]
	ldrb	w8, [x22, #7]
	strb	w8, [x26, #7]
	b	.LBB62_19
.LBB62_12:
	sub	x10, x27, #4
	sub	x11, x12, x11
	cmp	x11, x10
	b.hs	.LBB62_20
	cmp	x10, #8
	b.lo	.LBB62_15
	add	x11, x19, x20
	add	x12, x8, x9
	sub	x11, x11, x12
	cmp	x11, #32
	b.hs	.LBB62_27
.LBB62_15:
	mov	x11, xzr
.LBB62_16:
	add	x8, x11, x8
	sub	x10, x27, x11
	add	x11, x11, x19
	add	x9, x9, x8
	sub	x8, x10, #4
	add	x10, x24, x11
	add	x9, x9, #4
.LBB62_17:
	ldrb	w11, [x9], #1
	subs	x8, x8, #1
	strb	w11, [x10], #1
	b.ne	.LBB62_17
	b	.LBB62_21
.LBB62_18:
	ldr	w8, [x11]
	str	w8, [x12]
.LBB62_19:
	mov	w8, #8
	movk	w8, #1, lsl #16
	str	w8, [x26]
	b	.LBB62_3
.LBB62_20:
	add	x0, x26, #4
	add	x1, x22, #4
	sub	x2, x27, #4
	bl	memmove
.LBB62_21:
	sub	x8, x25, x27
	add	x9, x26, x27
	strh	w27, [x26]
	cmp	x8, #3
	strh	w28, [x26, #2]
	b.eq	.LBB62_26
	cmp	x8, #2
	b.eq	.LBB62_25
	cmp	x8, #1
	mov	x8, x25
	b.ne	.LBB62_4
	strb	wzr, [x9]
	mov	x8, x25
	b	.LBB62_4
.LBB62_25:
	strh	wzr, [x9]
	mov	x8, x25
	b	.LBB62_4
.LBB62_26:
	mov	x8, x25
	strh	wzr, [x9]
	strb	wzr, [x9, #2]
	b	.LBB62_4
.LBB62_27:
	cmp	x10, #32
	b.hs	.LBB62_29
	mov	x11, xzr
	b	.LBB62_33
.LBB62_29:
	add	x14, x9, x8
	and	x12, x10, #0x18
	and	x11, x10, #0xffffffffffffffe0
	add	x13, x23, x19
	add	x14, x14, #20
	and	x15, x10, #0xffffffffffffffe0
.LBB62_30:
	ldp	q0, q1, [x14, #-16]
	subs	x15, x15, #32
	add	x14, x14, #32
	stp	q0, q1, [x13, #-16]
	add	x13, x13, #32
	b.ne	.LBB62_30
	cmp	x10, x11
	b.eq	.LBB62_21
	cbz	x12, .LBB62_16
.LBB62_33:
	mov	x12, x11
	and	x11, x10, #0xfffffffffffffff8
	add	x13, x8, x12
	add	x14, x12, x19
	sub	x12, x12, x11
	add	x13, x9, x13
	add	x14, x24, x14
	add	x13, x13, #4
.LBB62_34:
	ldr	d0, [x13], #8
	adds	x12, x12, #8
	str	d0, [x14], #8
	b.ne	.LBB62_34
	cmp	x10, x11
	b.eq	.LBB62_21
	b	.LBB62_16
.LBB62_36:
	mov	x19, xzr
.LBB62_37:
	mov	x0, x19
	ldp	x20, x19, [sp, #80]
	ldp	x22, x21, [sp, #64]
	ldp	x24, x23, [sp, #48]
	ldp	x26, x25, [sp, #32]
	ldp	x28, x27, [sp, #16]
	ldp	x29, x30, [sp], #96
	ret
.Lfunc_end62:
	.size	nla_wire.members.write_each.7562298f77a88fdb, .Lfunc_end62-nla_wire.members.write_each.7562298f77a88fdb

	.section	.rodata.cst16,"aM",@progbits,16
	.p2align	4, 0x0
.LCPI63_0:
	.byte	0
	.byte	1
	.byte	2
	.byte	3
	.byte	4
	.byte	5
	.byte	6
	.byte	7
	.byte	8
	.byte	9
	.byte	10
	.byte	11
	.byte	12
	.byte	13
	.byte	14
	.byte	15
.LCPI63_1:
	.byte	16
	.byte	17
	.byte	18
	.byte	19
	.byte	20
	.byte	21
	.byte	22
	.byte	23
	.byte	24
	.byte	25
	.byte	26
	.byte	27
	.byte	28
	.byte	29
	.byte	30
	.byte	31
	.section	.rodata.cst8,"aM",@progbits,8
	.p2align	3, 0x0
.LCPI63_2:
	.byte	32
	.byte	33
	.byte	34
	.byte	35
	.byte	36
	.byte	37
	.byte	38
	.byte	39
	.section	.text.line_filter.write.write_out.df9e9f1468b30f79,"ax",@progbits
	.p2align	2
	.type	line_filter.write.write_out.df9e9f1468b30f79,@function
line_filter.write.write_out.df9e9f1468b30f79:
	sub	sp, sp, #160
	stp	x22, x21, [sp, #128]
	mov	x22, #-1
	stp	x20, x19, [sp, #144]
	ldp	x21, x20, [x0]
	mov	x19, x0
	stp	x29, x30, [sp, #96]
	add	x29, sp, #96
	str	x23, [sp, #112]
	b	.LBB63_2
.LBB63_1:
	subs	x22, x22, #1
	b.eq	.LBB63_10
.LBB63_2:
	cbz	x20, .LBB63_9
	mov	w0, #1
	mov	x1, x21
	mov	x2, x20
	bl	write
	tbnz	x0, #63, .LBB63_6
	cbz	x0, .LBB63_8
	cmp	x0, x20
	csel	x8, x0, x20, lo
	add	x21, x21, x8
	sub	x20, x20, x8
	b	.LBB63_1
.LBB63_6:
	bl	rattle_errno
	mov	w1, w0
	mov	x0, sp
	mov	x23, sp
	bl	std_io.io.error.Error.from_raw_os_error
	adrp	x9, .LCPI63_0
	ldr	x8, [sp]
	adrp	x10, .LCPI63_1
	ldr	q0, [x9, :lo12:.LCPI63_0]
	adrp	x9, .LCPI63_2
	ldr	q1, [x10, :lo12:.LCPI63_1]
	ldr	d2, [x9, :lo12:.LCPI63_2]
	ubfx	w9, w8, #8, #8
	mov	w10, #40
	stp	q0, q1, [sp]
	cmp	w9, #41
	str	d2, [sp, #32]
	strb	w10, [sp, #40]
	b.hs	.LBB63_8
	ubfx	x8, x8, #8, #6
	ldrb	w8, [x23, x8]
	cmp	w8, #35
	b.eq	.LBB63_1
.LBB63_8:
	mov	w0, #1
	b	.LBB63_11
.LBB63_9:
	mov	w0, wzr
	b	.LBB63_12
.LBB63_10:
	cmp	x20, #0
	cset	w0, ne
	cbz	x20, .LBB63_12
.LBB63_11:
	mov	w1, #1
	ldp	x20, x19, [sp, #144]
	ldr	x23, [sp, #112]
	ldp	x22, x21, [sp, #128]
	ldp	x29, x30, [sp, #96]
	add	sp, sp, #160
	ret
.LBB63_12:
	ldr	x8, [x19, #8]
	cbz	x8, .LBB63_14
	mov	w1, wzr
	str	xzr, [x19, #8]
	ldp	x20, x19, [sp, #144]
	ldr	x23, [sp, #112]
	ldp	x22, x21, [sp, #128]
	ldp	x29, x30, [sp, #96]
	add	sp, sp, #160
	ret
.LBB63_14:
	mov	w1, wzr
	ldp	x20, x19, [sp, #144]
	ldr	x23, [sp, #112]
	ldp	x22, x21, [sp, #128]
	ldp	x29, x30, [sp, #96]
	add	sp, sp, #160
	ret
.Lfunc_end63:
	.size	line_filter.write.write_out.df9e9f1468b30f79, .Lfunc_end63-line_filter.write.write_out.df9e9f1468b30f79

	.section	.rodata.cst16,"aM",@progbits,16
	.p2align	4, 0x0
.LCPI64_0:
	.byte	1
	.byte	2
	.byte	4
	.byte	8
	.byte	16
	.byte	32
	.byte	64
	.byte	128
	.byte	1
	.byte	2
	.byte	4
	.byte	8
	.byte	16
	.byte	32
	.byte	64
	.byte	128
	.section	.rodata.cst8,"aM",@progbits,8
	.p2align	3, 0x0
.LCPI64_1:
	.byte	108
	.byte	105
	.byte	110
	.byte	107
	.byte	119
	.byte	105
	.byte	114
	.byte	101
.LCPI64_2:
	.byte	111
	.byte	117
	.byte	116
	.byte	32
	.byte	111
	.byte	102
	.byte	32
	.byte	109
.LCPI64_3:
	.byte	101
	.byte	109
	.byte	111
	.byte	114
	.zero	1
	.zero	1
	.zero	1
	.zero	1
.LCPI64_4:
	.byte	119
	.byte	114
	.byte	105
	.byte	116
	.byte	101
	.byte	32
	.byte	102
	.byte	97
.LCPI64_5:
	.byte	105
	.byte	108
	.byte	101
	.byte	100
	.zero	1
	.zero	1
	.zero	1
	.zero	1
.LCPI64_6:
	.byte	114
	.byte	101
	.byte	97
	.byte	100
	.byte	32
	.byte	102
	.byte	97
	.byte	105
	.section	.text.main,"ax",@progbits
	.globl	main
	.p2align	2
	.type	main,@function
main:
	stp	x29, x30, [sp, #-96]!
	stp	x28, x27, [sp, #16]
	mov	x29, sp
	stp	x26, x25, [sp, #32]
	stp	x24, x23, [sp, #48]
	stp	x22, x21, [sp, #64]
	stp	x20, x19, [sp, #80]
	sub	sp, sp, #2352
	mov	w0, #13
	mov	w1, #1
	str	xzr, [sp]
	bl	__sysv_signal
	mov	x25, xzr
	mov	x20, xzr
	sub	x19, x29, #16
	add	x26, sp, #24
	str	xzr, [sp, #1216]
	str	x19, [sp, #1200]
	str	xzr, [sp, #1208]
.LBB64_1:
	mov	w27, #64
	mov	w22, #256
	b	.LBB64_3
.LBB64_2:
	adds	x8, x22, x22
	csinv	x22, x8, xzr, lo
	subs	w27, w27, #1
	b.eq	.LBB64_167
.LBB64_3:
	sub	x21, x29, #16
	stp	xzr, xzr, [x26, #8]
	str	x21, [sp, #24]
	cbnz	x22, .LBB64_8
	mov	x23, xzr
.LBB64_5:
	mov	x0, x20
	mov	x1, x21
	mov	x2, x23
	bl	rattle_arg
	mov	w8, #36
	cmn	x0, #1
	mov	w9, #22
	csel	w8, w9, w8, eq
	mov	x24, x0
	csel	w0, wzr, w8, gt
	bl	rattle_set_errno
	bl	rattle_errno
	cmp	w0, #36
	b.ne	.LBB64_11
	ldr	x8, [sp, #40]
	cbz	x8, .LBB64_2
	mov	x0, x21
	bl	rattle_dealloc
	b	.LBB64_2
.LBB64_8:
	add	x0, sp, #24
	mov	x1, x22
	bl	std_alloc.vec.Vec.grow_amortized.05fa32d921161499
	cbz	w0, .LBB64_165
	ldp	x21, x8, [sp, #24]
	add	x23, x8, x22
	cmp	x8, x23
	b.hs	.LBB64_5
	add	x0, x21, x8
	mov	w1, wzr
	mov	x2, x22
	bl	memset
	b	.LBB64_5
.LBB64_11:
	cbnz	w0, .LBB64_17
	cmp	x24, x23
	add	x0, sp, #24
	mov	x1, x21
	csel	x8, x24, x23, lo
	cmp	x24, #0
	ldr	x23, [sp, #40]
	csel	x22, x8, xzr, gt
	stp	xzr, xzr, [sp, #24]
	mov	x2, x22
	str	xzr, [sp, #40]
	bl	core.str.utf8.from_utf8
	ldrb	w8, [sp, #24]
	cmp	w8, #1
	b.eq	.LBB64_175
	ldr	x8, [sp, #1216]
	cmp	x8, x25
	b.eq	.LBB64_15
.LBB64_14:
	mov	w8, #24
	add	x20, x20, #1
	madd	x8, x25, x8, x19
	add	x25, x25, #1
	cmn	x20, #1
	stp	x21, x22, [x8]
	str	x23, [x8, #16]
	str	x25, [sp, #1208]
	b.ne	.LBB64_1
	b	.LBB64_19
.LBB64_15:
	add	x0, sp, #1200
	bl	std_alloc.vec.Vec.grow_amortized.c2c24c8ca5cf7e6f
	cbz	w0, .LBB64_198
	ldr	x25, [sp, #1208]
	ldr	x19, [sp, #1200]
	b	.LBB64_14
.LBB64_17:
	ldr	x8, [sp, #40]
	cbz	x8, .LBB64_19
	mov	x0, x21
	bl	rattle_dealloc
.LBB64_19:
	ldr	x19, [sp, #1200]
	ldr	x22, [sp, #1216]
	cbz	x25, .LBB64_23
	ldr	x8, [x19, #16]
	cbz	x8, .LBB64_22
	ldr	x0, [x19]
	bl	rattle_dealloc
.LBB64_22:
	cmp	x25, #1
	b.ne	.LBB64_128
.LBB64_23:
	cbz	x22, .LBB64_25
	mov	x0, x19
	bl	rattle_dealloc
.LBB64_25:
	sub	x20, x29, #16
	mov	w0, #65536
	mov	w1, #1
	stp	xzr, xzr, [sp, #8]
	mov	w25, #1
	str	x20, [sp]
	bl	rattle_alloc
	tbz	w0, #0, .LBB64_121
	mov	x19, x1
	mov	x0, x1
	mov	w1, wzr
	mov	w2, #65536
	bl	memset
	mov	x26, xzr
	mov	x23, xzr
	mov	x27, xzr
	stp	xzr, xzr, [sp, #32]
	str	x20, [sp, #24]
	str	xzr, [sp, #1216]
	str	x20, [sp, #1200]
	str	xzr, [sp, #1208]
.LBB64_27:
	mov	w0, wzr
	mov	x1, x19
	mov	w2, #65536
	bl	read
	tbnz	x0, #63, .LBB64_156
	cmp	x0, #0
	cset	w25, ne
	cbz	x0, .LBB64_162
	cmp	x0, #16, lsl #12
	mov	w8, #65536
	mov	x28, x23
	csel	x21, x0, x8, lo
	mov	x22, x19
	b	.LBB64_31
.LBB64_30:
	add	x8, x22, x24
	mvn	x9, x24
	mov	x28, xzr
	add	x22, x8, #1
	add	x21, x21, x9
.LBB64_31:
	cmp	x21, #32
	b.hs	.LBB64_36
	cbz	x21, .LBB64_115
	mov	x24, xzr
.LBB64_34:
	ldrb	w8, [x22, x24]
	cmp	w8, #10
	b.eq	.LBB64_73
	add	x24, x24, #1
	cmp	x21, x24
	b.ne	.LBB64_34
	b	.LBB64_99
.LBB64_36:
	mov	x12, xzr
	add	x8, x22, x21
	sub	x9, x21, #64
	add	x10, x22, #96
	add	x11, x22, #160
.LBB64_37:
	sub	x14, x21, x12
	adrp	x13, .LCPI64_0
	cmp	x14, #191
	b.ls	.LBB64_44
	movi	v0.16b, #10
	add	x14, x22, x12
	ldp	q1, q2, [x14]
	ldp	q3, q4, [x14, #32]
	add	x14, x12, #64
	cmeq	v2.16b, v2.16b, v0.16b
	cmeq	v1.16b, v1.16b, v0.16b
	cmeq	v4.16b, v4.16b, v0.16b
	cmeq	v3.16b, v3.16b, v0.16b
	ldr	q0, [x13, :lo12:.LCPI64_0]
	and	v1.16b, v1.16b, v0.16b
	and	v2.16b, v2.16b, v0.16b
	and	v3.16b, v3.16b, v0.16b
	and	v4.16b, v4.16b, v0.16b
	addp	v1.16b, v1.16b, v2.16b
	addp	v2.16b, v3.16b, v4.16b
	addp	v1.16b, v1.16b, v2.16b
	addp	v1.16b, v1.16b, v1.16b
	fmov	x15, d1
	cbnz	x15, .LBB64_66
	sub	x15, x21, x14
	cmp	x15, #128
	b.lo	.LBB64_53
	add	x13, x12, #192
	add	x12, x11, x12
.LBB64_41:
	movi	v17.16b, #10
	ldp	q6, q5, [x12, #-96]
	ldp	q16, q18, [x12, #-64]
	ldp	q2, q1, [x12, #-32]
	ldp	q3, q4, [x12], #128
	cmeq	v6.16b, v6.16b, v17.16b
	cmeq	v7.16b, v5.16b, v17.16b
	cmeq	v5.16b, v18.16b, v17.16b
	cmeq	v18.16b, v1.16b, v17.16b
	cmeq	v16.16b, v16.16b, v17.16b
	cmeq	v20.16b, v2.16b, v17.16b
	cmeq	v19.16b, v4.16b, v17.16b
	cmeq	v17.16b, v3.16b, v17.16b
	orr	v18.16b, v18.16b, v19.16b
	orr	v17.16b, v20.16b, v17.16b
	orr	v19.16b, v7.16b, v5.16b
	orr	v20.16b, v6.16b, v16.16b
	orr	v18.16b, v19.16b, v18.16b
	orr	v17.16b, v20.16b, v17.16b
	and	v18.16b, v18.16b, v0.16b
	and	v17.16b, v17.16b, v0.16b
	addp	v17.16b, v17.16b, v18.16b
	addp	v17.16b, v17.16b, v17.16b
	addp	v17.16b, v17.16b, v17.16b
	fmov	w14, s17
	cbnz	w14, .LBB64_69
	sub	x15, x15, #128
	add	x13, x13, #128
	cmp	x15, #127
	b.hi	.LBB64_41
	sub	x12, x13, #128
	cmp	x15, #32
	b.hs	.LBB64_54
	b	.LBB64_57
.LBB64_44:
	cmp	x14, #64
	b.lo	.LBB64_59
.LBB64_45:
	movi	v0.16b, #10
	add	x15, x22, x12
	ldp	q1, q2, [x15]
	ldp	q4, q3, [x15, #32]
	cmeq	v5.16b, v1.16b, v0.16b
	cmeq	v6.16b, v2.16b, v0.16b
	cmeq	v7.16b, v4.16b, v0.16b
	cmeq	v0.16b, v3.16b, v0.16b
	orr	v6.16b, v6.16b, v0.16b
	orr	v5.16b, v5.16b, v7.16b
	ldr	q0, [x13, :lo12:.LCPI64_0]
	and	v5.16b, v5.16b, v0.16b
	and	v6.16b, v6.16b, v0.16b
	addp	v5.16b, v5.16b, v6.16b
	addp	v5.16b, v5.16b, v5.16b
	addp	v5.16b, v5.16b, v5.16b
	fmov	w15, s5
	cbnz	w15, .LBB64_47
	sub	x14, x14, #64
	add	x12, x12, #64
	cmp	x14, #63
	b.hi	.LBB64_45
	b	.LBB64_59
.LBB64_47:
	cmp	x14, #64
	b.lo	.LBB64_59
.LBB64_48:
	movi	v5.16b, #10
	cmeq	v1.16b, v1.16b, v5.16b
	cmeq	v2.16b, v2.16b, v5.16b
	cmeq	v3.16b, v3.16b, v5.16b
	cmeq	v4.16b, v4.16b, v5.16b
	and	v1.16b, v1.16b, v0.16b
	and	v2.16b, v2.16b, v0.16b
	and	v3.16b, v3.16b, v0.16b
	and	v4.16b, v4.16b, v0.16b
	addp	v1.16b, v1.16b, v2.16b
	addp	v2.16b, v4.16b, v3.16b
	addp	v1.16b, v1.16b, v2.16b
	addp	v1.16b, v1.16b, v1.16b
	fmov	x15, d1
	cbnz	x15, .LBB64_72
	sub	x14, x9, x12
	neg	x15, x12
	add	x12, x10, x12
.LBB64_50:
	subs	x16, x14, #64
	b.lo	.LBB64_58
	movi	v5.16b, #10
	ldp	q1, q2, [x12, #-32]
	ldp	q4, q3, [x12], #64
	sub	x15, x15, #64
	mov	x14, x16
	cmeq	v6.16b, v1.16b, v5.16b
	cmeq	v7.16b, v2.16b, v5.16b
	cmeq	v16.16b, v4.16b, v5.16b
	cmeq	v5.16b, v3.16b, v5.16b
	orr	v6.16b, v6.16b, v16.16b
	orr	v5.16b, v7.16b, v5.16b
	and	v6.16b, v6.16b, v0.16b
	and	v5.16b, v5.16b, v0.16b
	addp	v5.16b, v6.16b, v5.16b
	addp	v5.16b, v5.16b, v5.16b
	addp	v5.16b, v5.16b, v5.16b
	fmov	w17, s5
	cbz	w17, .LBB64_50
	neg	x12, x15
	b	.LBB64_48
.LBB64_53:
	mov	x12, x14
	cmp	x15, #32
	b.lo	.LBB64_57
.LBB64_54:
	sub	x13, x21, x12
.LBB64_55:
	movi	v1.16b, #10
	add	x14, x22, x12
	ldp	q2, q3, [x14]
	cmeq	v3.16b, v3.16b, v1.16b
	cmeq	v1.16b, v2.16b, v1.16b
	and	v1.16b, v1.16b, v0.16b
	and	v2.16b, v3.16b, v0.16b
	addp	v1.16b, v1.16b, v2.16b
	addp	v1.16b, v1.16b, v1.16b
	addp	v1.16b, v1.16b, v1.16b
	fmov	w15, s1
	cbnz	w15, .LBB64_65
	sub	x13, x13, #32
	add	x12, x12, #32
	cmp	x13, #31
	b.hi	.LBB64_55
.LBB64_57:
	movi	v1.16b, #10
	ldp	q2, q3, [x8, #-32]
	cmeq	v3.16b, v3.16b, v1.16b
	cmeq	v1.16b, v2.16b, v1.16b
	and	v1.16b, v1.16b, v0.16b
	and	v0.16b, v3.16b, v0.16b
	addp	v0.16b, v1.16b, v0.16b
	b	.LBB64_64
.LBB64_58:
	mov	w12, #64
	sub	x12, x12, x15
.LBB64_59:
	cmp	x14, #32
	b.lo	.LBB64_63
	sub	x14, x21, x12
.LBB64_61:
	movi	v0.16b, #10
	add	x15, x22, x12
	ldp	q1, q2, [x15]
	cmeq	v2.16b, v2.16b, v0.16b
	cmeq	v0.16b, v1.16b, v0.16b
	ldr	q1, [x13, :lo12:.LCPI64_0]
	and	v0.16b, v0.16b, v1.16b
	and	v1.16b, v2.16b, v1.16b
	addp	v0.16b, v0.16b, v1.16b
	addp	v0.16b, v0.16b, v0.16b
	addp	v0.16b, v0.16b, v0.16b
	fmov	w15, s0
	cbnz	w15, .LBB64_65
	sub	x14, x14, #32
	add	x12, x12, #32
	cmp	x14, #31
	b.hi	.LBB64_61
.LBB64_63:
	movi	v0.16b, #10
	ldp	q1, q2, [x8, #-32]
	cmeq	v2.16b, v2.16b, v0.16b
	cmeq	v0.16b, v1.16b, v0.16b
	ldr	q1, [x13, :lo12:.LCPI64_0]
	and	v0.16b, v0.16b, v1.16b
	and	v1.16b, v2.16b, v1.16b
	addp	v0.16b, v0.16b, v1.16b
.LBB64_64:
	addp	v0.16b, v0.16b, v0.16b
	sub	x14, x12, x21
	add	x14, x14, #32
	addp	v0.16b, v0.16b, v0.16b
	fmov	w13, s0
	lsr	x15, x13, x14
	mov	x13, x21
	mov	x14, x13
	cbnz	x15, .LBB64_66
	b	.LBB64_68
.LBB64_65:
	add	x14, x12, #32
.LBB64_66:
	rbit	x13, x15
	clz	x13, x13
	add	x24, x13, x12
	ldrb	w16, [x22, x24]
	cmp	w16, #10
	b.eq	.LBB64_73
	mov	w16, #1
	lsl	x13, x16, x13
	bics	x15, x15, x13
	b.ne	.LBB64_66
.LBB64_68:
	cmp	x14, x21
	mov	x12, x14
	b.lo	.LBB64_37
	b	.LBB64_99
.LBB64_69:
	and	v6.16b, v6.16b, v0.16b
	and	v7.16b, v7.16b, v0.16b
	sub	x14, x13, #64
	and	v16.16b, v16.16b, v0.16b
	and	v5.16b, v5.16b, v0.16b
	addp	v6.16b, v6.16b, v7.16b
	addp	v5.16b, v16.16b, v5.16b
	addp	v5.16b, v6.16b, v5.16b
	addp	v5.16b, v5.16b, v5.16b
	fmov	x15, d5
	cbz	x15, .LBB64_71
	sub	x12, x13, #128
	b	.LBB64_66
.LBB64_71:
	movi	v5.16b, #10
	cmeq	v2.16b, v2.16b, v5.16b
	cmeq	v1.16b, v1.16b, v5.16b
	cmeq	v4.16b, v4.16b, v5.16b
	cmeq	v3.16b, v3.16b, v5.16b
	and	v2.16b, v2.16b, v0.16b
	and	v1.16b, v1.16b, v0.16b
	and	v3.16b, v3.16b, v0.16b
	and	v0.16b, v4.16b, v0.16b
	addp	v1.16b, v2.16b, v1.16b
	addp	v0.16b, v3.16b, v0.16b
	addp	v0.16b, v1.16b, v0.16b
	addp	v0.16b, v0.16b, v0.16b
	fmov	x15, d0
	mov	x12, x14
	mov	x14, x13
	cbnz	x15, .LBB64_66
	b	.LBB64_68
.LBB64_72:
	add	x14, x12, #64
	b	.LBB64_66
.LBB64_73:
	cbz	x28, .LBB64_81
	sub	x8, x26, x28
	cmp	x24, x8
	b.hi	.LBB64_91
	add	x8, x20, x28
	sub	x8, x8, x22
	cmp	x8, x24
	b.hs	.LBB64_93
.LBB64_76:
	cmp	x24, #8
	b.lo	.LBB64_78
	add	x8, x28, x20
	sub	x8, x8, x22
	cmp	x8, #32
	b.hs	.LBB64_82
.LBB64_78:
	mov	x8, xzr
.LBB64_79:
	add	x10, x8, x28
	sub	x9, x24, x8
	add	x8, x22, x8
	add	x10, x20, x10
.LBB64_80:
	ldrb	w11, [x8], #1
	subs	x9, x9, #1
	strb	w11, [x10], #1
	b.ne	.LBB64_80
	b	.LBB64_94
.LBB64_81:
	mov	x0, sp
	add	x3, sp, #1200
	mov	x1, x22
	mov	x2, x24
	bl	line_filter.answers.AnsweringTake.take.460d80f9416d9dfa
	and	w8, w0, #0xff
	tbz	w8, #0, .LBB64_97
	b	.LBB64_150
.LBB64_82:
	cmp	x24, #32
	b.hs	.LBB64_84
	mov	x8, xzr
	b	.LBB64_88
.LBB64_84:
	add	x11, x20, x28
	and	x9, x24, #0x18
	and	x8, x24, #0xffffffffffffffe0
	add	x10, x22, #16
	add	x11, x11, #16
	and	x12, x24, #0xffffffffffffffe0
.LBB64_85:
	ldp	q0, q1, [x10, #-16]
	subs	x12, x12, #32
	add	x10, x10, #32
	stp	q0, q1, [x11, #-16]
	add	x11, x11, #32
	b.ne	.LBB64_85
	cmp	x24, x8
	b.eq	.LBB64_94
	cbz	x9, .LBB64_79
.LBB64_88:
	mov	x10, x8
	and	x8, x24, #0xfffffffffffffff8
	add	x11, x28, x10
	sub	x9, x10, x8
	add	x10, x22, x10
	add	x11, x20, x11
.LBB64_89:
	ldr	d0, [x10], #8
	adds	x9, x9, #8
	str	d0, [x11], #8
	b.ne	.LBB64_89
	cmp	x24, x8
	b.eq	.LBB64_94
	b	.LBB64_79
.LBB64_91:
	add	x0, sp, #24
	mov	x1, x24
	bl	std_alloc.vec.Vec.grow_amortized.05fa32d921161499
	cbz	w0, .LBB64_150
	ldp	x28, x26, [sp, #32]
	ldr	x20, [sp, #24]
	add	x8, x20, x28
	sub	x8, x8, x22
	cmp	x8, x24
	b.lo	.LBB64_76
.LBB64_93:
	add	x0, x20, x28
	mov	x1, x22
	mov	x2, x24
	bl	memmove
.LBB64_94:
	add	x23, x28, x24
	mov	x0, sp
	add	x3, sp, #1200
	mov	x1, x20
	mov	x2, x23
	stp	x23, x26, [sp, #32]
	bl	line_filter.answers.AnsweringTake.take.460d80f9416d9dfa
	and	w8, w0, #0xff
	tbnz	w8, #0, .LBB64_150
	cbz	x23, .LBB64_97
	mov	x23, xzr
	str	xzr, [sp, #32]
.LBB64_97:
	ldr	x8, [sp, #1208]
	cmp	x8, #16, lsl #12
	b.lo	.LBB64_30
	add	x0, sp, #1200
	bl	line_filter.write.write_out.df9e9f1468b30f79
	tst	w0, #0xff
	b.eq	.LBB64_30
	b	.LBB64_155
.LBB64_99:
	sub	x8, x26, x28
	cmp	x21, x8
	b.hi	.LBB64_116
	add	x0, x20, x28
	add	x23, x28, x21
	sub	x8, x0, x22
	cmp	x8, x21
	b.hs	.LBB64_118
.LBB64_101:
	cmp	x21, #8
	b.lo	.LBB64_103
	add	x8, x28, x20
	sub	x8, x8, x22
	cmp	x8, #32
	b.hs	.LBB64_106
.LBB64_103:
	mov	x8, xzr
.LBB64_104:
	sub	x9, x21, x8
	add	x10, x22, x8
	add	x8, x8, x28
.LBB64_105:
	ldrb	w11, [x10], #1
	subs	x9, x9, #1
	strb	w11, [x20, x8]
	add	x8, x8, #1
	b.ne	.LBB64_105
	b	.LBB64_119
.LBB64_106:
	cmp	x21, #32
	b.hs	.LBB64_108
	mov	x8, xzr
	b	.LBB64_112
.LBB64_108:
	add	x11, x20, x28
	and	x9, x21, #0x18
	and	x8, x21, #0xffffffffffffffe0
	add	x10, x22, #16
	add	x11, x11, #16
	and	x12, x21, #0xffffffffffffffe0
.LBB64_109:
	ldp	q0, q1, [x10, #-16]
	subs	x12, x12, #32
	add	x10, x10, #32
	stp	q0, q1, [x11, #-16]
	add	x11, x11, #32
	b.ne	.LBB64_109
	cmp	x21, x8
	b.eq	.LBB64_119
	cbz	x9, .LBB64_104
.LBB64_112:
	mov	x11, x8
	and	x8, x21, #0xfffffffffffffff8
	sub	x9, x11, x8
	add	x10, x22, x11
	add	x11, x28, x11
.LBB64_113:
	ldr	d0, [x10], #8
	adds	x9, x9, #8
	str	d0, [x20, x11]
	add	x11, x11, #8
	b.ne	.LBB64_113
	cmp	x21, x8
	b.eq	.LBB64_119
	b	.LBB64_104
.LBB64_115:
	ldr	x20, [sp, #24]
	add	x0, x20, x23
	b	.LBB64_118
.LBB64_116:
	add	x0, sp, #24
	mov	x1, x21
	bl	std_alloc.vec.Vec.grow_amortized.05fa32d921161499
	cbz	w0, .LBB64_150
	ldp	x28, x26, [sp, #32]
	ldr	x20, [sp, #24]
	add	x0, x20, x28
	add	x23, x28, x21
	sub	x8, x0, x22
	cmp	x8, x21
	b.lo	.LBB64_101
.LBB64_118:
	mov	x1, x22
	mov	x2, x21
	bl	memmove
.LBB64_119:
	add	x0, sp, #1200
	stp	x20, x23, [sp, #24]
	str	x26, [sp, #40]
	bl	line_filter.write.write_out.df9e9f1468b30f79
	tst	w0, #0xff
	b.ne	.LBB64_155
	add	x27, x27, #1
	cmn	x27, #1
	b.ne	.LBB64_27
	b	.LBB64_193
.LBB64_121:
	mov	w21, #2
	ldr	x8, [sp, #16]
	cbz	x8, .LBB64_123
.LBB64_122:
	ldr	x0, [sp]
	bl	rattle_dealloc
.LBB64_123:
	cbz	w25, .LBB64_127
	add	x8, sp, #24
	mov	w1, wzr
	mov	w2, #1124
	add	x0, x8, #12
	orr	x19, x8, #0x4
	bl	memset
	adrp	x8, .LCPI64_1
	mov	w9, #8250
	ldr	d0, [x8, :lo12:.LCPI64_1]
	and	w8, w21, #0xff
	strh	w9, [sp, #36]
	cmp	w8, #2
	stur	d0, [sp, #28]
	b.eq	.LBB64_147
	cmp	w8, #1
	b.ne	.LBB64_148
	adrp	x8, .LCPI64_4
	adrp	x9, .LCPI64_5
	ldr	d0, [x8, :lo12:.LCPI64_4]
	ldr	d1, [x9, :lo12:.LCPI64_5]
	mov	w8, #22
	stur	d0, [sp, #38]
	stur	s1, [sp, #46]
	b	.LBB64_149
.LBB64_127:
	mov	w0, wzr
	b	.LBB64_186
.LBB64_128:
	ldr	x20, [x19, #24]
	ldr	x23, [x19, #40]
	cmp	x25, #2
	b.ne	.LBB64_138
	ldr	x21, [x19, #32]
	adrp	x2, .Lstatic.9
	add	x2, x2, :lo12:.Lstatic.9
	mov	x0, x20
	mov	w3, #6
	mov	x1, x21
	bl	core.cmp.text.RefStrPartialEq.eq
	tbnz	w0, #0, .LBB64_131
	adrp	x2, .Lstatic.10
	add	x2, x2, :lo12:.Lstatic.10
	mov	x0, x20
	mov	x1, x21
	mov	w3, #2
	bl	core.cmp.text.RefStrPartialEq.eq
	tbz	w0, #0, .LBB64_174
.LBB64_131:
	mov	w21, wzr
	cbz	x23, .LBB64_133
.LBB64_132:
	mov	x0, x20
	bl	rattle_dealloc
.LBB64_133:
	cbz	x22, .LBB64_135
	mov	x0, x19
	bl	rattle_dealloc
.LBB64_135:
	cbz	w21, .LBB64_172
	cmp	w21, #1
	b.ne	.LBB64_25
	adrp	x0, .Lstatic.2
	add	x0, x0, :lo12:.Lstatic.2
	mov	w1, #15
	b	.LBB64_173
.LBB64_138:
	ldr	x21, [x19, #48]
	ldr	x24, [x19, #64]
	cbz	x23, .LBB64_140
	mov	x0, x20
	bl	rattle_dealloc
.LBB64_140:
	cbz	x24, .LBB64_142
	mov	x0, x21
	bl	rattle_dealloc
.LBB64_142:
	subs	x20, x25, #3
	b.eq	.LBB64_23
	add	x21, x19, #88
	b	.LBB64_145
.LBB64_144:
	subs	x20, x20, #1
	add	x21, x21, #24
	b.eq	.LBB64_23
.LBB64_145:
	ldr	x8, [x21]
	cbz	x8, .LBB64_144
	ldur	x0, [x21, #-16]
	bl	rattle_dealloc
	b	.LBB64_144
.LBB64_147:
	adrp	x8, .LCPI64_2
	adrp	x9, .LCPI64_3
	ldr	d0, [x8, :lo12:.LCPI64_2]
	ldr	d1, [x9, :lo12:.LCPI64_3]
	mov	w8, #121
	strb	w8, [sp, #50]
	mov	w8, #23
	stur	d0, [sp, #38]
	stur	s1, [sp, #46]
	b	.LBB64_149
.LBB64_148:
	adrp	x8, .LCPI64_6
	mov	w9, #25964
	ldr	d0, [x8, :lo12:.LCPI64_6]
	mov	w8, #100
	strh	w9, [sp, #46]
	strb	w8, [sp, #48]
	mov	w8, #21
	stur	d0, [sp, #38]
.LBB64_149:
	mov	w9, #10
	strb	w9, [x19, x8]
	add	x8, x8, #1
	str	x8, [sp, #1056]
	add	x8, sp, #1200
	mov	w9, #2
	orr	x0, x8, #0x4
	mov	x1, x19
	mov	w2, #1132
	str	w9, [sp, #1200]
	bl	memcpy
	add	x0, sp, #1200
	bl	std_io.io.buffer.Buffer.flush
	b	.LBB64_185
.LBB64_150:
	mov	w21, #2
	ldr	x8, [sp, #1216]
	cbz	x8, .LBB64_152
.LBB64_151:
	ldr	x0, [sp, #1200]
	bl	rattle_dealloc
.LBB64_152:
	ldr	x8, [sp, #40]
	cbz	x8, .LBB64_161
	ldr	x0, [sp, #24]
.LBB64_154:
	bl	rattle_dealloc
	b	.LBB64_161
.LBB64_155:
	mov	w21, w1
	ldr	x8, [sp, #1216]
	cbnz	x8, .LBB64_151
	b	.LBB64_152
.LBB64_156:
	bl	rattle_errno
	ldr	x8, [sp, #1216]
	cbz	x8, .LBB64_158
	ldr	x0, [sp, #1200]
	bl	rattle_dealloc
.LBB64_158:
	cbz	x26, .LBB64_160
	mov	x0, x20
	bl	rattle_dealloc
.LBB64_160:
	mov	w21, wzr
.LBB64_161:
	mov	x0, x19
	bl	rattle_dealloc
	mov	w25, #1
	ldr	x8, [sp, #16]
	cbnz	x8, .LBB64_122
	b	.LBB64_123
.LBB64_162:
	cbz	x23, .LBB64_193
	mov	x0, sp
	add	x3, sp, #1200
	mov	x1, x20
	mov	x2, x23
	bl	line_filter.answers.AnsweringTake.take.460d80f9416d9dfa
	and	w8, w0, #0xff
	tbz	w8, #0, .LBB64_187
	mov	w21, #2
	b	.LBB64_189
.LBB64_165:
	ldr	x8, [sp, #40]
	cbz	x8, .LBB64_167
	ldr	x0, [sp, #24]
	bl	rattle_dealloc
.LBB64_167:
	ldr	x20, [sp, #1216]
	cbz	x25, .LBB64_182
	add	x21, x19, #16
	b	.LBB64_170
.LBB64_169:
	subs	x25, x25, #1
	add	x21, x21, #24
	b.eq	.LBB64_182
.LBB64_170:
	ldr	x8, [x21]
	cbz	x8, .LBB64_169
	ldur	x0, [x21, #-16]
	bl	rattle_dealloc
	b	.LBB64_169
.LBB64_172:
	adrp	x0, .Lstatic.1
	add	x0, x0, :lo12:.Lstatic.1
	mov	w1, #485
.LBB64_173:
	bl	line_filter.program.write_text
	and	w0, w0, #0xff
	b	.LBB64_186
.LBB64_174:
	adrp	x2, .Lstatic.11
	add	x2, x2, :lo12:.Lstatic.11
	mov	x0, x20
	mov	x1, x21
	mov	w3, #9
	bl	core.cmp.text.RefStrPartialEq.eq
	mov	w8, #1
	cmp	w0, #0
	cinc	w21, w8, eq
	cbnz	x23, .LBB64_132
	b	.LBB64_133
.LBB64_175:
	cbz	x23, .LBB64_177
	mov	x0, x21
	bl	rattle_dealloc
.LBB64_177:
	ldr	x19, [sp, #1200]
	ldr	x20, [sp, #1216]
	cbz	x25, .LBB64_182
	add	x21, x19, #16
	b	.LBB64_180
.LBB64_179:
	subs	x25, x25, #1
	add	x21, x21, #24
	b.eq	.LBB64_182
.LBB64_180:
	ldr	x8, [x21]
	cbz	x8, .LBB64_179
	ldur	x0, [x21, #-16]
	bl	rattle_dealloc
	b	.LBB64_179
.LBB64_182:
	cbz	x20, .LBB64_184
.LBB64_183:
	mov	x0, x19
	bl	rattle_dealloc
.LBB64_184:
	adrp	x8, .Lstatic.0
	add	x8, x8, :lo12:.Lstatic.0
	mov	w9, #8
	str	x8, [sp, #1200]
	adrp	x8, .Lstatic.4
	add	x8, x8, :lo12:.Lstatic.4
	str	x9, [sp, #1208]
	mov	w9, #15
	add	x0, sp, #24
	add	x1, sp, #1200
	str	x8, [sp, #1216]
	str	x9, [sp, #1224]
	bl	std_io.io.LibcRuntimeEprint.eprintln.27a8a20715d85f24
.LBB64_185:
	mov	w0, #1
.LBB64_186:
	add	sp, sp, #2352
	ldp	x20, x19, [sp, #80]
	ldp	x22, x21, [sp, #64]
	ldp	x24, x23, [sp, #48]
	ldp	x26, x25, [sp, #32]
	ldp	x28, x27, [sp, #16]
	ldp	x29, x30, [sp], #96
	ret
.LBB64_187:
	add	x0, sp, #1200
	str	xzr, [sp, #32]
	bl	line_filter.write.write_out.df9e9f1468b30f79
	tst	w0, #0xff
	b.eq	.LBB64_193
	mov	w21, w1
.LBB64_189:
	ldr	x8, [sp, #1216]
	cbz	x8, .LBB64_191
	ldr	x0, [sp, #1200]
	bl	rattle_dealloc
.LBB64_191:
	cbz	x26, .LBB64_161
	mov	x0, x20
	b	.LBB64_154
.LBB64_193:
	ldr	x8, [sp, #1216]
	cbz	x8, .LBB64_195
	ldr	x0, [sp, #1200]
	bl	rattle_dealloc
.LBB64_195:
	cbz	x26, .LBB64_197
	mov	x0, x20
	bl	rattle_dealloc
.LBB64_197:
	mov	x0, x19
	bl	rattle_dealloc
	mov	w21, wzr
	ldr	x8, [sp, #16]
	cbnz	x8, .LBB64_122
	b	.LBB64_123
.LBB64_198:
	cbz	x23, .LBB64_200
	mov	x0, x21
	bl	rattle_dealloc
.LBB64_200:
	ldr	x20, [sp, #1208]
	ldr	x19, [sp, #1200]
	ldr	x21, [sp, #1216]
	cbz	x20, .LBB64_205
	add	x22, x19, #16
	b	.LBB64_203
.LBB64_202:
	subs	x20, x20, #1
	add	x22, x22, #24
	b.eq	.LBB64_205
.LBB64_203:
	ldr	x8, [x22]
	cbz	x8, .LBB64_202
	ldur	x0, [x22, #-16]
	bl	rattle_dealloc
	b	.LBB64_202
.LBB64_205:
	cbnz	x21, .LBB64_183
	b	.LBB64_184
.Lfunc_end64:
	.size	main, .Lfunc_end64-main

	.type	.Lstatic.0,@object
	.section	.rodata.cst8,"aM",@progbits,8
.Lstatic.0:
	.ascii	"linkwire"
	.size	.Lstatic.0, 8

	.type	.Lstatic.1,@object
	.section	.rodata..Lstatic.1,"a",@progbits
.Lstatic.1:
	.ascii	"usage: linkwire [--help | --version]\n\nReads lines of hexadecimal digits from standard input, each the bytes of a link message of route netlink, and writes\nfor each line one answer: ok and the canonical encoding of the message; nothex for a line that is no bytes; refused for\nbytes that are no message; unfit for a message that cannot be written; empty-ports for one with an empty list of ports.\nNo words stand in front of the digits.\n\n  -h, --help  this text\n  --version   the version\n"
	.size	.Lstatic.1, 485

	.type	.Lstatic.2,@object
	.section	.rodata..Lstatic.2,"a",@progbits
.Lstatic.2:
	.ascii	"linkwire 0.4.0\n"
	.size	.Lstatic.2, 15

	.type	.Lstatic.3,@object
	.section	.rodata..Lstatic.3,"a",@progbits
.Lstatic.3:
	.size	.Lstatic.3, 0

	.type	.Lstatic.4,@object
	.section	.rodata..Lstatic.4,"a",@progbits
.Lstatic.4:
	.ascii	": out of memory"
	.size	.Lstatic.4, 15

	.type	.Lstatic.5,@object
	.section	.rodata..Lstatic.5,"a",@progbits
.Lstatic.5:
	.byte	10
	.size	.Lstatic.5, 1

	.type	.Lstatic.7,@object
	.section	.rodata.cst4,"aM",@progbits,4
.Lstatic.7:
	.zero	4,32
	.size	.Lstatic.7, 4

	.type	.Lstatic.9,@object
	.section	.rodata..Lstatic.9,"a",@progbits
.Lstatic.9:
	.ascii	"--help"
	.size	.Lstatic.9, 6

	.type	.Lstatic.10,@object
	.section	.rodata..Lstatic.10,"a",@progbits
.Lstatic.10:
	.ascii	"-h"
	.size	.Lstatic.10, 2

	.type	.Lstatic.11,@object
	.section	.rodata..Lstatic.11,"a",@progbits
.Lstatic.11:
	.ascii	"--version"
	.size	.Lstatic.11, 9

	.type	.Lstatic.12,@object
	.section	.rodata..Lstatic.12,"a",@progbits
.Lstatic.12:
	.ascii	": write failed"
	.size	.Lstatic.12, 14

	.type	.Lstatic.13,@object
	.section	.rodata..Lstatic.13,"a",@progbits
.Lstatic.13:
	.ascii	"nothex\n"
	.size	.Lstatic.13, 7

	.type	.Lstatic.14,@object
	.section	.rodata..Lstatic.14,"a",@progbits
.Lstatic.14:
	.ascii	"\377\377\377\377\377\377\377\377\377\377\377\377\377\377\377\377\377\377\377\377\377\377\377\377\377\377\377\377\377\377\377\377\377\377\377\377\377\377\377\377\377\377\377\377\377\377\377\377\000\001\002\003\004\005\006\007\b\t\377\377\377\377\377\377\377\n\013\f\r\016\017\377\377\377\377\377\377\377\377\377\377\377\377\377\377\377\377\377\377\377\377\377\377\377\377\377\377\n\013\f\r\016\017\377\377\377\377\377\377\377\377\377\377\377\377\377\377\377\377\377\377\377\377\377\377\377\377\377\377\377\377\377\377\377\377\377\377\377\377\377\377\377\377\377\377\377\377\377\377\377\377\377\377\377\377\377\377\377\377\377\377\377\377\377\377\377\377\377\377\377\377\377\377\377\377\377\377\377\377\377\377\377\377\377\377\377\377\377\377\377\377\377\377\377\377\377\377\377\377\377\377\377\377\377\377\377\377\377\377\377\377\377\377\377\377\377\377\377\377\377\377\377\377\377\377\377\377\377\377\377\377\377\377\377\377\377\377\377\377\377\377\377\377\377\377\377\377\377\377\377\377\377\377\377\377\377"
	.size	.Lstatic.14, 256

	.type	.Lstatic.16,@object
	.section	.rodata..Lstatic.16,"a",@progbits
.Lstatic.16:
	.ascii	"unfit\n"
	.size	.Lstatic.16, 6

	.type	.Lstatic.17,@object
	.section	.rodata..Lstatic.17,"a",@progbits
.Lstatic.17:
	.ascii	"empty-ports\n"
	.size	.Lstatic.17, 12

	.type	.Lstatic.19,@object
	.section	.rodata..Lstatic.19,"a",@progbits
.Lstatic.19:
	.ascii	"payload"
	.size	.Lstatic.19, 7

	.type	.Lstatic.21,@object
	.section	.rodata..Lstatic.21,"a",@progbits
.Lstatic.21:
	.ascii	"IFLA_INFO_KIND"
	.size	.Lstatic.21, 14

	.type	.Lstatic.22,@object
	.section	.rodata..Lstatic.22,"a",@progbits
.Lstatic.22:
	.ascii	"IFLA_VF_STATS_RX_PACKETS"
	.size	.Lstatic.22, 24

	.type	.Lstatic.23,@object
	.section	.rodata..Lstatic.23,"a",@progbits
.Lstatic.23:
	.ascii	"IFLA_VF_STATS_TX_PACKETS"
	.size	.Lstatic.23, 24

	.type	.Lstatic.24,@object
	.section	.rodata..Lstatic.24,"a",@progbits
.Lstatic.24:
	.ascii	"IFLA_VF_STATS_RX_BYTES"
	.size	.Lstatic.24, 22

	.type	.Lstatic.25,@object
	.section	.rodata..Lstatic.25,"a",@progbits
.Lstatic.25:
	.ascii	"IFLA_VF_STATS_TX_BYTES"
	.size	.Lstatic.25, 22

	.type	.Lstatic.26,@object
	.section	.rodata..Lstatic.26,"a",@progbits
.Lstatic.26:
	.ascii	"IFLA_VF_STATS_BROADCAST"
	.size	.Lstatic.26, 23

	.type	.Lstatic.27,@object
	.section	.rodata..Lstatic.27,"a",@progbits
.Lstatic.27:
	.ascii	"IFLA_VF_STATS_MULTICAST"
	.size	.Lstatic.27, 23

	.type	.Lstatic.28,@object
	.section	.rodata..Lstatic.28,"a",@progbits
.Lstatic.28:
	.ascii	"IFLA_VF_STATS_RX_DROPPED"
	.size	.Lstatic.28, 24

	.type	.Lstatic.29,@object
	.section	.rodata..Lstatic.29,"a",@progbits
.Lstatic.29:
	.ascii	"IFLA_VF_STATS_TX_DROPPED"
	.size	.Lstatic.29, 24

	.type	.Lstatic.30,@object
	.section	.rodata..Lstatic.30,"a",@progbits
.Lstatic.30:
	.ascii	"IFLA_VF_VLAN_INFO"
	.size	.Lstatic.30, 17

	.type	.Lstatic.31,@object
	.section	.rodata..Lstatic.31,"a",@progbits
.Lstatic.31:
	.ascii	"IFLA_VF_MAC"
	.size	.Lstatic.31, 11

	.type	.Lstatic.32,@object
	.section	.rodata..Lstatic.32,"a",@progbits
.Lstatic.32:
	.ascii	"IFLA_VF_VLAN"
	.size	.Lstatic.32, 12

	.type	.Lstatic.33,@object
	.section	.rodata..Lstatic.33,"a",@progbits
.Lstatic.33:
	.ascii	"IFLA_VF_TX_RATE"
	.size	.Lstatic.33, 15

	.type	.Lstatic.34,@object
	.section	.rodata.cst16,"aM",@progbits,16
.Lstatic.34:
	.ascii	"IFLA_VF_SPOOFCHK"
	.size	.Lstatic.34, 16

	.type	.Lstatic.35,@object
	.section	.rodata..Lstatic.35,"a",@progbits
.Lstatic.35:
	.ascii	"IFLA_VF_LINK_STATE"
	.size	.Lstatic.35, 18

	.type	.Lstatic.36,@object
	.section	.rodata..Lstatic.36,"a",@progbits
.Lstatic.36:
	.ascii	"IFLA_VF_RATE"
	.size	.Lstatic.36, 12

	.type	.Lstatic.37,@object
	.section	.rodata..Lstatic.37,"a",@progbits
.Lstatic.37:
	.ascii	"IFLA_VF_RSS_QUERY_EN"
	.size	.Lstatic.37, 20

	.type	.Lstatic.38,@object
	.section	.rodata..Lstatic.38,"a",@progbits
.Lstatic.38:
	.ascii	"IFLA_VF_STATS"
	.size	.Lstatic.38, 13

	.type	.Lstatic.39,@object
	.section	.rodata..Lstatic.39,"a",@progbits
.Lstatic.39:
	.ascii	"IFLA_VF_TRUST"
	.size	.Lstatic.39, 13

	.type	.Lstatic.40,@object
	.section	.rodata..Lstatic.40,"a",@progbits
.Lstatic.40:
	.ascii	"IFLA_VF_IB_NODE_GUID"
	.size	.Lstatic.40, 20

	.type	.Lstatic.41,@object
	.section	.rodata..Lstatic.41,"a",@progbits
.Lstatic.41:
	.ascii	"IFLA_VF_IB_PORT_GUID"
	.size	.Lstatic.41, 20

	.type	.Lstatic.42,@object
	.section	.rodata..Lstatic.42,"a",@progbits
.Lstatic.42:
	.ascii	"IFLA_VF_VLAN_LIST"
	.size	.Lstatic.42, 17

	.type	.Lstatic.43,@object
	.section	.rodata..Lstatic.43,"a",@progbits
.Lstatic.43:
	.ascii	"IFLA_VF_BROADCAST"
	.size	.Lstatic.43, 17

	.type	.Lstatic.44,@object
	.section	.rodata..Lstatic.44,"a",@progbits
.Lstatic.44:
	.ascii	"IFLA_VF_INFO"
	.size	.Lstatic.44, 12

	.type	.Lstatic.45,@object
	.section	.rodata..Lstatic.45,"a",@progbits
.Lstatic.45:
	.ascii	"IFLA_VF_PORT"
	.size	.Lstatic.45, 12

	.type	.Lstatic.46,@object
	.section	.rodata..Lstatic.46,"a",@progbits
.Lstatic.46:
	.ascii	"IFLA_XDP_FD"
	.size	.Lstatic.46, 11

	.type	.Lstatic.47,@object
	.section	.rodata..Lstatic.47,"a",@progbits
.Lstatic.47:
	.ascii	"IFLA_XDP_ATTACHED"
	.size	.Lstatic.47, 17

	.type	.Lstatic.48,@object
	.section	.rodata..Lstatic.48,"a",@progbits
.Lstatic.48:
	.ascii	"IFLA_XDP_FLAGS"
	.size	.Lstatic.48, 14

	.type	.Lstatic.49,@object
	.section	.rodata.cst16,"aM",@progbits,16
.Lstatic.49:
	.ascii	"IFLA_XDP_PROG_ID"
	.size	.Lstatic.49, 16

	.type	.Lstatic.50,@object
	.section	.rodata..Lstatic.50,"a",@progbits
.Lstatic.50:
	.ascii	"IFLA_XDP_DRV_PROG_ID"
	.size	.Lstatic.50, 20

	.type	.Lstatic.51,@object
	.section	.rodata..Lstatic.51,"a",@progbits
.Lstatic.51:
	.ascii	"IFLA_XDP_SKB_PROG_ID"
	.size	.Lstatic.51, 20

	.type	.Lstatic.52,@object
	.section	.rodata..Lstatic.52,"a",@progbits
.Lstatic.52:
	.ascii	"IFLA_XDP_HW_PROG_ID"
	.size	.Lstatic.52, 19

	.type	.Lstatic.53,@object
	.section	.rodata..Lstatic.53,"a",@progbits
.Lstatic.53:
	.ascii	"IFLA_XDP_EXPECTED_FD"
	.size	.Lstatic.53, 20

	.type	.Lstatic.54,@object
	.section	.rodata..Lstatic.54,"a",@progbits
.Lstatic.54:
	.ascii	"IFLA_ALT_IFNAME"
	.size	.Lstatic.54, 15

	.type	.Lstatic.55,@object
	.section	.rodata..Lstatic.55,"a",@progbits
.Lstatic.55:
	.ascii	"IFLA_PROTO_DOWN_REASON_MASK"
	.size	.Lstatic.55, 27

	.type	.Lstatic.56,@object
	.section	.rodata..Lstatic.56,"a",@progbits
.Lstatic.56:
	.ascii	"IFLA_PROTO_DOWN_REASON_VALUE"
	.size	.Lstatic.56, 28

	.type	.Lstatic.57,@object
	.section	.rodata..Lstatic.57,"a",@progbits
.Lstatic.57:
	.ascii	"DEVLINK_ATTR_BUS_NAME"
	.size	.Lstatic.57, 21

	.type	.Lstatic.58,@object
	.section	.rodata..Lstatic.58,"a",@progbits
.Lstatic.58:
	.ascii	"DEVLINK_ATTR_DEV_NAME"
	.size	.Lstatic.58, 21

	.type	.Lstatic.59,@object
	.section	.rodata..Lstatic.59,"a",@progbits
.Lstatic.59:
	.ascii	"DEVLINK_ATTR_PORT_INDEX"
	.size	.Lstatic.59, 23

	.type	.Lstatic.60,@object
	.section	.rodata..Lstatic.60,"a",@progbits
.Lstatic.60:
	.ascii	"DPLL_A_PIN_ID"
	.size	.Lstatic.60, 13

	.type	.Lstatic.62,@object
	.section	.rodata.cst16,"aM",@progbits,16
.Lstatic.62:
	.ascii	"IFLA_INET6_FLAGS"
	.size	.Lstatic.62, 16

	.type	.Lstatic.63,@object
	.section	.rodata..Lstatic.63,"a",@progbits
.Lstatic.63:
	.ascii	"IFLA_INET6_CACHEINFO"
	.size	.Lstatic.63, 20

	.type	.Lstatic.67,@object
	.section	.rodata.cst16,"aM",@progbits,16
.Lstatic.67:
	.ascii	"IFLA_INET6_TOKEN"
	.size	.Lstatic.67, 16

	.type	.Lstatic.68,@object
	.section	.rodata..Lstatic.68,"a",@progbits
.Lstatic.68:
	.ascii	"IFLA_INET6_ADDR_GEN_MODE"
	.size	.Lstatic.68, 24

	.type	.Lstatic.69,@object
	.section	.rodata..Lstatic.69,"a",@progbits
.Lstatic.69:
	.ascii	"IFLA_INET6_RA_MTU"
	.size	.Lstatic.69, 17

	.type	.Lstatic.70,@object
	.section	.rodata..Lstatic.70,"a",@progbits
.Lstatic.70:
	.ascii	"IFLA_MCTP_NET"
	.size	.Lstatic.70, 13

	.type	.Lstatic.71,@object
	.section	.rodata..Lstatic.71,"a",@progbits
.Lstatic.71:
	.ascii	"IFLA_MCTP_PHYS_BINDING"
	.size	.Lstatic.71, 22

	.type	.Lstatic.72,@object
	.section	.rodata..Lstatic.72,"a",@progbits
.Lstatic.72:
	.ascii	"AF_INET"
	.size	.Lstatic.72, 7

	.type	.Lstatic.73,@object
	.section	.rodata.cst8,"aM",@progbits,8
.Lstatic.73:
	.ascii	"AF_INET6"
	.size	.Lstatic.73, 8

	.type	.Lstatic.74,@object
	.section	.rodata..Lstatic.74,"a",@progbits
.Lstatic.74:
	.ascii	"AF_MCTP"
	.size	.Lstatic.74, 7

	.type	.Lstatic.75,@object
	.section	.rodata..Lstatic.75,"a",@progbits
.Lstatic.75:
	.ascii	"IFLA_ADDRESS"
	.size	.Lstatic.75, 12

	.type	.Lstatic.76,@object
	.section	.rodata..Lstatic.76,"a",@progbits
.Lstatic.76:
	.ascii	"IFLA_BROADCAST"
	.size	.Lstatic.76, 14

	.type	.Lstatic.77,@object
	.section	.rodata..Lstatic.77,"a",@progbits
.Lstatic.77:
	.ascii	"IFLA_IFNAME"
	.size	.Lstatic.77, 11

	.type	.Lstatic.78,@object
	.section	.rodata.cst8,"aM",@progbits,8
.Lstatic.78:
	.ascii	"IFLA_MTU"
	.size	.Lstatic.78, 8

	.type	.Lstatic.79,@object
	.section	.rodata..Lstatic.79,"a",@progbits
.Lstatic.79:
	.ascii	"IFLA_LINK"
	.size	.Lstatic.79, 9

	.type	.Lstatic.80,@object
	.section	.rodata..Lstatic.80,"a",@progbits
.Lstatic.80:
	.ascii	"IFLA_QDISC"
	.size	.Lstatic.80, 10

	.type	.Lstatic.81,@object
	.section	.rodata..Lstatic.81,"a",@progbits
.Lstatic.81:
	.ascii	"IFLA_STATS"
	.size	.Lstatic.81, 10

	.type	.Lstatic.82,@object
	.section	.rodata..Lstatic.82,"a",@progbits
.Lstatic.82:
	.ascii	"IFLA_MASTER"
	.size	.Lstatic.82, 11

	.type	.Lstatic.83,@object
	.section	.rodata..Lstatic.83,"a",@progbits
.Lstatic.83:
	.ascii	"IFLA_WIRELESS"
	.size	.Lstatic.83, 13

	.type	.Lstatic.84,@object
	.section	.rodata..Lstatic.84,"a",@progbits
.Lstatic.84:
	.ascii	"IFLA_PROTINFO"
	.size	.Lstatic.84, 13

	.type	.Lstatic.85,@object
	.section	.rodata..Lstatic.85,"a",@progbits
.Lstatic.85:
	.ascii	"IFLA_TXQLEN"
	.size	.Lstatic.85, 11

	.type	.Lstatic.86,@object
	.section	.rodata.cst8,"aM",@progbits,8
.Lstatic.86:
	.ascii	"IFLA_MAP"
	.size	.Lstatic.86, 8

	.type	.Lstatic.87,@object
	.section	.rodata..Lstatic.87,"a",@progbits
.Lstatic.87:
	.ascii	"IFLA_OPERSTATE"
	.size	.Lstatic.87, 14

	.type	.Lstatic.88,@object
	.section	.rodata..Lstatic.88,"a",@progbits
.Lstatic.88:
	.ascii	"IFLA_LINKMODE"
	.size	.Lstatic.88, 13

	.type	.Lstatic.89,@object
	.section	.rodata..Lstatic.89,"a",@progbits
.Lstatic.89:
	.ascii	"IFLA_LINKINFO"
	.size	.Lstatic.89, 13

	.type	.Lstatic.90,@object
	.section	.rodata..Lstatic.90,"a",@progbits
.Lstatic.90:
	.ascii	"IFLA_NET_NS_PID"
	.size	.Lstatic.90, 15

	.type	.Lstatic.91,@object
	.section	.rodata..Lstatic.91,"a",@progbits
.Lstatic.91:
	.ascii	"IFLA_IFALIAS"
	.size	.Lstatic.91, 12

	.type	.Lstatic.92,@object
	.section	.rodata..Lstatic.92,"a",@progbits
.Lstatic.92:
	.ascii	"IFLA_NUM_VF"
	.size	.Lstatic.92, 11

	.type	.Lstatic.93,@object
	.section	.rodata.cst16,"aM",@progbits,16
.Lstatic.93:
	.ascii	"IFLA_VFINFO_LIST"
	.size	.Lstatic.93, 16

	.type	.Lstatic.94,@object
	.section	.rodata..Lstatic.94,"a",@progbits
.Lstatic.94:
	.ascii	"IFLA_STATS64"
	.size	.Lstatic.94, 12

	.type	.Lstatic.95,@object
	.section	.rodata..Lstatic.95,"a",@progbits
.Lstatic.95:
	.ascii	"IFLA_VF_PORTS"
	.size	.Lstatic.95, 13

	.type	.Lstatic.96,@object
	.section	.rodata..Lstatic.96,"a",@progbits
.Lstatic.96:
	.ascii	"IFLA_PORT_SELF"
	.size	.Lstatic.96, 14

	.type	.Lstatic.97,@object
	.section	.rodata..Lstatic.97,"a",@progbits
.Lstatic.97:
	.ascii	"IFLA_AF_SPEC"
	.size	.Lstatic.97, 12

	.type	.Lstatic.98,@object
	.section	.rodata..Lstatic.98,"a",@progbits
.Lstatic.98:
	.ascii	"IFLA_GROUP"
	.size	.Lstatic.98, 10

	.type	.Lstatic.99,@object
	.section	.rodata..Lstatic.99,"a",@progbits
.Lstatic.99:
	.ascii	"IFLA_NET_NS_FD"
	.size	.Lstatic.99, 14

	.type	.Lstatic.100,@object
	.section	.rodata..Lstatic.100,"a",@progbits
.Lstatic.100:
	.ascii	"IFLA_EXT_MASK"
	.size	.Lstatic.100, 13

	.type	.Lstatic.101,@object
	.section	.rodata.cst16,"aM",@progbits,16
.Lstatic.101:
	.ascii	"IFLA_PROMISCUITY"
	.size	.Lstatic.101, 16

	.type	.Lstatic.102,@object
	.section	.rodata..Lstatic.102,"a",@progbits
.Lstatic.102:
	.ascii	"IFLA_NUM_TX_QUEUES"
	.size	.Lstatic.102, 18

	.type	.Lstatic.103,@object
	.section	.rodata..Lstatic.103,"a",@progbits
.Lstatic.103:
	.ascii	"IFLA_NUM_RX_QUEUES"
	.size	.Lstatic.103, 18

	.type	.Lstatic.104,@object
	.section	.rodata..Lstatic.104,"a",@progbits
.Lstatic.104:
	.ascii	"IFLA_CARRIER"
	.size	.Lstatic.104, 12

	.type	.Lstatic.105,@object
	.section	.rodata..Lstatic.105,"a",@progbits
.Lstatic.105:
	.ascii	"IFLA_PHYS_PORT_ID"
	.size	.Lstatic.105, 17

	.type	.Lstatic.106,@object
	.section	.rodata..Lstatic.106,"a",@progbits
.Lstatic.106:
	.ascii	"IFLA_CARRIER_CHANGES"
	.size	.Lstatic.106, 20

	.type	.Lstatic.107,@object
	.section	.rodata..Lstatic.107,"a",@progbits
.Lstatic.107:
	.ascii	"IFLA_PHYS_SWITCH_ID"
	.size	.Lstatic.107, 19

	.type	.Lstatic.108,@object
	.section	.rodata..Lstatic.108,"a",@progbits
.Lstatic.108:
	.ascii	"IFLA_LINK_NETNSID"
	.size	.Lstatic.108, 17

	.type	.Lstatic.109,@object
	.section	.rodata..Lstatic.109,"a",@progbits
.Lstatic.109:
	.ascii	"IFLA_PHYS_PORT_NAME"
	.size	.Lstatic.109, 19

	.type	.Lstatic.110,@object
	.section	.rodata..Lstatic.110,"a",@progbits
.Lstatic.110:
	.ascii	"IFLA_PROTO_DOWN"
	.size	.Lstatic.110, 15

	.type	.Lstatic.111,@object
	.section	.rodata..Lstatic.111,"a",@progbits
.Lstatic.111:
	.ascii	"IFLA_GSO_MAX_SEGS"
	.size	.Lstatic.111, 17

	.type	.Lstatic.112,@object
	.section	.rodata..Lstatic.112,"a",@progbits
.Lstatic.112:
	.ascii	"IFLA_GSO_MAX_SIZE"
	.size	.Lstatic.112, 17

	.type	.Lstatic.113,@object
	.section	.rodata.cst8,"aM",@progbits,8
.Lstatic.113:
	.ascii	"IFLA_XDP"
	.size	.Lstatic.113, 8

	.type	.Lstatic.114,@object
	.section	.rodata..Lstatic.114,"a",@progbits
.Lstatic.114:
	.ascii	"IFLA_EVENT"
	.size	.Lstatic.114, 10

	.type	.Lstatic.115,@object
	.section	.rodata.cst16,"aM",@progbits,16
.Lstatic.115:
	.ascii	"IFLA_NEW_NETNSID"
	.size	.Lstatic.115, 16

	.type	.Lstatic.116,@object
	.section	.rodata..Lstatic.116,"a",@progbits
.Lstatic.116:
	.ascii	"IFLA_IF_NETNSID"
	.size	.Lstatic.116, 15

	.type	.Lstatic.117,@object
	.section	.rodata..Lstatic.117,"a",@progbits
.Lstatic.117:
	.ascii	"IFLA_CARRIER_UP_COUNT"
	.size	.Lstatic.117, 21

	.type	.Lstatic.118,@object
	.section	.rodata..Lstatic.118,"a",@progbits
.Lstatic.118:
	.ascii	"IFLA_CARRIER_DOWN_COUNT"
	.size	.Lstatic.118, 23

	.type	.Lstatic.119,@object
	.section	.rodata.cst16,"aM",@progbits,16
.Lstatic.119:
	.ascii	"IFLA_NEW_IFINDEX"
	.size	.Lstatic.119, 16

	.type	.Lstatic.120,@object
	.section	.rodata..Lstatic.120,"a",@progbits
.Lstatic.120:
	.ascii	"IFLA_MIN_MTU"
	.size	.Lstatic.120, 12

	.type	.Lstatic.121,@object
	.section	.rodata..Lstatic.121,"a",@progbits
.Lstatic.121:
	.ascii	"IFLA_MAX_MTU"
	.size	.Lstatic.121, 12

	.type	.Lstatic.122,@object
	.section	.rodata..Lstatic.122,"a",@progbits
.Lstatic.122:
	.ascii	"IFLA_PROP_LIST"
	.size	.Lstatic.122, 14

	.type	.Lstatic.123,@object
	.section	.rodata..Lstatic.123,"a",@progbits
.Lstatic.123:
	.ascii	"IFLA_PERM_ADDRESS"
	.size	.Lstatic.123, 17

	.type	.Lstatic.124,@object
	.section	.rodata..Lstatic.124,"a",@progbits
.Lstatic.124:
	.ascii	"IFLA_PROTO_DOWN_REASON"
	.size	.Lstatic.124, 22

	.type	.Lstatic.125,@object
	.section	.rodata..Lstatic.125,"a",@progbits
.Lstatic.125:
	.ascii	"IFLA_PARENT_DEV_NAME"
	.size	.Lstatic.125, 20

	.type	.Lstatic.126,@object
	.section	.rodata..Lstatic.126,"a",@progbits
.Lstatic.126:
	.ascii	"IFLA_PARENT_DEV_BUS_NAME"
	.size	.Lstatic.126, 24

	.type	.Lstatic.127,@object
	.section	.rodata..Lstatic.127,"a",@progbits
.Lstatic.127:
	.ascii	"IFLA_GRO_MAX_SIZE"
	.size	.Lstatic.127, 17

	.type	.Lstatic.128,@object
	.section	.rodata..Lstatic.128,"a",@progbits
.Lstatic.128:
	.ascii	"IFLA_TSO_MAX_SIZE"
	.size	.Lstatic.128, 17

	.type	.Lstatic.129,@object
	.section	.rodata..Lstatic.129,"a",@progbits
.Lstatic.129:
	.ascii	"IFLA_TSO_MAX_SEGS"
	.size	.Lstatic.129, 17

	.type	.Lstatic.130,@object
	.section	.rodata..Lstatic.130,"a",@progbits
.Lstatic.130:
	.ascii	"IFLA_ALLMULTI"
	.size	.Lstatic.130, 13

	.type	.Lstatic.131,@object
	.section	.rodata..Lstatic.131,"a",@progbits
.Lstatic.131:
	.ascii	"IFLA_DEVLINK_PORT"
	.size	.Lstatic.131, 17

	.type	.Lstatic.132,@object
	.section	.rodata..Lstatic.132,"a",@progbits
.Lstatic.132:
	.ascii	"IFLA_GSO_IPV4_MAX_SIZE"
	.size	.Lstatic.132, 22

	.type	.Lstatic.133,@object
	.section	.rodata..Lstatic.133,"a",@progbits
.Lstatic.133:
	.ascii	"IFLA_GRO_IPV4_MAX_SIZE"
	.size	.Lstatic.133, 22

	.type	.Lstatic.134,@object
	.section	.rodata..Lstatic.134,"a",@progbits
.Lstatic.134:
	.ascii	"IFLA_DPLL_PIN"
	.size	.Lstatic.134, 13

	.type	.Lstatic.135,@object
	.section	.rodata..Lstatic.135,"a",@progbits
.Lstatic.135:
	.ascii	"IFLA_NETNS_IMMUTABLE"
	.size	.Lstatic.135, 20

	.type	.Lstatic.136,@object
	.section	.rodata..Lstatic.136,"a",@progbits
.Lstatic.136:
	.ascii	"IFLA_HEADROOM"
	.size	.Lstatic.136, 13

	.type	.Lstatic.137,@object
	.section	.rodata..Lstatic.137,"a",@progbits
.Lstatic.137:
	.ascii	"IFLA_TAILROOM"
	.size	.Lstatic.137, 13

	.type	.Lstatic.140,@object
	.section	.rodata..Lstatic.140,"a",@progbits
.Lstatic.140:
	.ascii	"ok "
	.size	.Lstatic.140, 3

	.type	.Lstatic.141,@object
	.section	.rodata.cst16,"aM",@progbits,16
.Lstatic.141:
	.ascii	"0123456789abcdef"
	.size	.Lstatic.141, 16

	.type	.Lswitch.table.line_filter.answers.AnsweringTake.take.460d80f9416d9dfa,@object
	.section	.rodata..Lswitch.table.line_filter.answers.AnsweringTake.take.460d80f9416d9dfa,"a",@progbits
	.p2align	2, 0x0
.Lswitch.table.line_filter.answers.AnsweringTake.take.460d80f9416d9dfa:
	.hword	0
	.hword	1
	.hword	2
	.hword	3
	.hword	4
	.hword	5
	.hword	6
	.hword	7
	.hword	8
	.hword	15
	.hword	19
	.hword	23
	.hword	24
	.hword	27
	.hword	32
	.hword	256
	.hword	257
	.hword	258
	.hword	259
	.hword	260
	.hword	264
	.hword	270
	.hword	271
	.hword	272
	.hword	280
	.hword	290
	.hword	512
	.hword	513
	.hword	516
	.hword	517
	.hword	518
	.hword	519
	.hword	768
	.hword	769
	.hword	770
	.hword	771
	.hword	772
	.hword	773
	.hword	774
	.hword	775
	.hword	776
	.hword	777
	.hword	778
	.hword	779
	.hword	780
	.hword	781
	.hword	782
	.hword	783
	.hword	784
	.hword	785
	.hword	786
	.hword	787
	.hword	800
	.hword	801
	.hword	802
	.hword	803
	.hword	804
	.hword	805
	.hword	820
	.hword	821
	.hword	822
	.hword	823
	.hword	824
	.hword	825
	.hword	826
	.hword	65534
	.hword	65535
	.size	.Lswitch.table.line_filter.answers.AnsweringTake.take.460d80f9416d9dfa, 134

	.type	.Lswitch.table.nla_wire.place.check_one.16a873d75d6df2a1,@object
	.section	.rodata..Lswitch.table.nla_wire.place.check_one.16a873d75d6df2a1,"a",@progbits
	.p2align	3, 0x0
.Lswitch.table.nla_wire.place.check_one.16a873d75d6df2a1:
	.xword	21
	.xword	21
	.xword	23
	.size	.Lswitch.table.nla_wire.place.check_one.16a873d75d6df2a1, 24

	.type	.Lswitch.table.nla_wire.place.check_one.16a873d75d6df2a1..307.rel,@object
	.section	.rodata..Lswitch.table.nla_wire.place.check_one.16a873d75d6df2a1..307.rel,"a",@progbits
	.p2align	2, 0x0
.Lswitch.table.nla_wire.place.check_one.16a873d75d6df2a1..307.rel:
	.word	.Lstatic.57-.Lswitch.table.nla_wire.place.check_one.16a873d75d6df2a1..307.rel
	.word	.Lstatic.58-.Lswitch.table.nla_wire.place.check_one.16a873d75d6df2a1..307.rel
	.word	.Lstatic.59-.Lswitch.table.nla_wire.place.check_one.16a873d75d6df2a1..307.rel
	.size	.Lswitch.table.nla_wire.place.check_one.16a873d75d6df2a1..307.rel, 12

	.ident	"rattle logic=dac8208d650f15bf3e2dc313a14fa4c783a3acf887bdfab66e1714b038d9e11b"
	.section	".note.GNU-stack","",@progbits
