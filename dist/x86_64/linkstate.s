	.file	"rattle"
	.section	.text.core.str.utf8.from_utf8,"ax",@progbits
	.p2align	4
	.type	core.str.utf8.from_utf8,@function
core.str.utf8.from_utf8:
	.cfi_startproc
	pushq	%r15
	.cfi_def_cfa_offset 16
	pushq	%r14
	.cfi_def_cfa_offset 24
	pushq	%r13
	.cfi_def_cfa_offset 32
	pushq	%r12
	.cfi_def_cfa_offset 40
	pushq	%rbx
	.cfi_def_cfa_offset 48
	subq	$16, %rsp
	.cfi_def_cfa_offset 64
	.cfi_offset %rbx, -48
	.cfi_offset %r12, -40
	.cfi_offset %r13, -32
	.cfi_offset %r14, -24
	.cfi_offset %r15, -16
	movq	%rdx, %r15
	movq	%rsi, %r14
	movq	%rdi, %rbx
	testq	%rdx, %rdx
	je	.LBB0_57
	movabsq	$-9187201950435737472, %r12
	leaq	-8(%r15), %r13
	xorl	%ecx, %ecx
	jmp	.LBB0_5
.LBB0_25:
	movl	$1, %edi
.LBB0_3:
	addq	%rcx, %rdi
.LBB0_4:
	movq	%rdi, %rcx
	cmpq	%r15, %rdi
	jae	.LBB0_57
.LBB0_5:
	movzbl	(%r14,%rcx), %esi
	testb	%sil, %sil
	sets	%dl
	movq	%r15, %rax
	subq	%rcx, %rax
	cmpq	$2, %rax
	setb	%dil
	orb	%dl, %dil
	jne	.LBB0_2
	cmpb	$0, 1(%r14,%rcx)
	js	.LBB0_25
	movq	%r14, (%rsp)
	movq	%r15, 8(%rsp)
	cmpq	$7, %rax
	ja	.LBB0_26
	cmpb	$0, (%r14,%rcx)
	js	.LBB0_36
	leaq	1(%rcx), %rdi
	cmpq	%r15, %rdi
	je	.LBB0_57
	cmpb	$0, (%r14,%rdi)
	js	.LBB0_4
	leaq	2(%rcx), %rdi
	cmpq	%r15, %rdi
	je	.LBB0_57
	cmpb	$0, (%r14,%rdi)
	js	.LBB0_4
	leaq	3(%rcx), %rdi
	cmpq	%r15, %rdi
	je	.LBB0_57
	cmpb	$0, (%r14,%rdi)
	js	.LBB0_4
	leaq	4(%rcx), %rdi
	cmpq	%r15, %rdi
	je	.LBB0_57
	cmpb	$0, (%r14,%rdi)
	js	.LBB0_4
	leaq	5(%rcx), %rdi
	cmpq	%r15, %rdi
	je	.LBB0_57
	cmpb	$0, (%r14,%rdi)
	js	.LBB0_4
	addq	$6, %rcx
	cmpq	%r15, %rcx
	je	.LBB0_57
	cmpb	$0, (%r14,%rcx)
	movq	%rcx, %rdi
	js	.LBB0_4
	jmp	.LBB0_57
	.p2align	4
.LBB0_2:
	movl	$1, %edi
	testb	%sil, %sil
	jns	.LBB0_3
	movl	$257, %edx
	cmpb	$-62, %sil
	jb	.LBB0_66
	cmpb	$-33, %sil
	ja	.LBB0_29
	cmpq	$2, %rax
	jb	.LBB0_58
	movzbl	1(%r14,%rcx), %r8d
	movl	$2, %edi
	cmpb	$-65, %r8b
	jle	.LBB0_3
	jmp	.LBB0_60
.LBB0_26:
	movq	(%r14,%rcx), %rax
	andq	%r12, %rax
	je	.LBB0_37
	rep		bsfq	%rax, %rax
	shrl	$3, %eax
	addq	%rcx, %rax
	addq	$8, %rcx
	movq	%rax, %rdi
	cmpq	%rcx, %rax
	jb	.LBB0_4
	movq	%r15, %rcx
	subq	%rax, %rcx
	cmpq	$32, %rcx
	jae	.LBB0_38
	jmp	.LBB0_40
.LBB0_29:
	cmpb	$-17, %sil
	ja	.LBB0_48
	cmpq	$3, %rax
	jb	.LBB0_55
	movzbl	1(%r14,%rcx), %r8d
	cmpb	$-65, %r8b
	jg	.LBB0_60
	cmpb	$-65, 2(%r14,%rcx)
	jg	.LBB0_60
	movzbl	%r8b, %edi
	movl	%esi, %r9d
	shll	$6, %r9d
	addl	%edi, %r9d
	addl	$-14464, %r9d
	cmpl	$32, %r9d
	jb	.LBB0_60
	xorl	%r8d, %r8d
	cmpl	$896, %r9d
	setae	%r10b
	movl	$3, %edi
	cmpl	$864, %r9d
	jb	.LBB0_3
	movb	%r10b, %r8b
	leaq	(%r8,%r8,2), %rdi
	testq	%rdi, %rdi
	jne	.LBB0_3
	jmp	.LBB0_54
.LBB0_36:
	movq	%rcx, %rdi
	jmp	.LBB0_4
.LBB0_37:
	addq	$8, %rcx
	movq	%rcx, %rax
	movq	%r15, %rcx
	subq	%rax, %rcx
	cmpq	$32, %rcx
	jb	.LBB0_40
	.p2align	4
.LBB0_38:
	movdqu	(%r14,%rax), %xmm0
	movdqu	16(%r14,%rax), %xmm1
	por	%xmm0, %xmm1
	pshufd	$238, %xmm1, %xmm0
	por	%xmm1, %xmm0
	movq	%xmm0, %rcx
	testq	%r12, %rcx
	jne	.LBB0_40
	addq	$32, %rax
	movq	%rsp, %rdi
	movq	%rax, %rsi
	movq	%r15, %rdx
	callq	core.slice.words.skip_far.52f9edcae2f82f51
	movq	%r15, %rcx
	subq	%rax, %rcx
	cmpq	$31, %rcx
	ja	.LBB0_38
.LBB0_40:
	movq	%r15, %rcx
	subq	%rax, %rcx
	jmp	.LBB0_43
	.p2align	4
.LBB0_41:
	rep		bsfq	%rdx, %rdi
	shrl	$3, %edi
	addq	%rax, %rdi
	addq	$8, %rax
	addq	$-8, %rcx
	cmpq	%rax, %rdi
	jb	.LBB0_4
.LBB0_43:
	cmpq	$9, %rcx
	jb	.LBB0_46
	movq	(%r14,%rax), %rdx
	andq	%r12, %rdx
	jne	.LBB0_41
	leaq	8(%rax), %rdi
	addq	$8, %rax
	addq	$-8, %rcx
	cmpq	%rax, %rdi
	jae	.LBB0_43
	jmp	.LBB0_4
.LBB0_46:
	movq	(%r14,%r13), %rax
	andq	%r12, %rax
	je	.LBB0_57
	rep		bsfq	%rax, %rdi
	shrl	$3, %edi
	addq	%r13, %rdi
	jmp	.LBB0_4
.LBB0_48:
	cmpq	$4, %rax
	jb	.LBB0_54
	movzbl	1(%r14,%rcx), %edi
	cmpb	$-65, %dil
	jg	.LBB0_54
	cmpb	$-65, 2(%r14,%rcx)
	jg	.LBB0_54
	cmpb	$-65, 3(%r14,%rcx)
	jg	.LBB0_54
	movl	%esi, %r8d
	shll	$6, %r8d
	leal	(%r8,%rdi), %r9d
	addl	$-15488, %r9d
	xorl	%edi, %edi
	cmpl	$272, %r9d
	setb	%r8b
	cmpl	$16, %r9d
	jb	.LBB0_54
	movb	%r8b, %dil
	shll	$2, %edi
	testq	%rdi, %rdi
	jne	.LBB0_3
.LBB0_54:
	cmpb	$-12, %sil
	ja	.LBB0_66
.LBB0_55:
	cmpq	$2, %rax
	jb	.LBB0_58
	movzbl	1(%r14,%rcx), %r8d
.LBB0_60:
	cmpl	$240, %esi
	sete	%dil
	shlb	$4, %dil
	orb	$-128, %dil
	cmpl	$224, %esi
	movzbl	%dil, %edi
	movl	$160, %r9d
	cmovnel	%edi, %r9d
	cmpl	$244, %esi
	movl	$143, %edi
	movl	$191, %r10d
	cmovel	%edi, %r10d
	cmpl	$237, %esi
	movl	$159, %esi
	cmovnel	%r10d, %esi
	cmpb	%r8b, %r9b
	ja	.LBB0_66
	cmpb	%sil, %r8b
	ja	.LBB0_66
	cmpq	$2, %rax
	jne	.LBB0_64
.LBB0_58:
	xorl	%edx, %edx
.LBB0_66:
	movq	$1, (%rbx)
	movq	%rcx, 8(%rbx)
	movq	%rdx, 16(%rbx)
	jmp	.LBB0_67
.LBB0_57:
	movq	$0, (%rbx)
	movq	%r14, 8(%rbx)
	movq	%r15, 16(%rbx)
.LBB0_67:
	addq	$16, %rsp
	.cfi_def_cfa_offset 48
	popq	%rbx
	.cfi_def_cfa_offset 40
	popq	%r12
	.cfi_def_cfa_offset 32
	popq	%r13
	.cfi_def_cfa_offset 24
	popq	%r14
	.cfi_def_cfa_offset 16
	popq	%r15
	.cfi_def_cfa_offset 8
	retq
.LBB0_64:
	.cfi_def_cfa_offset 64
	movl	$513, %edx
	cmpb	$-65, 2(%r14,%rcx)
	jg	.LBB0_66
	xorl	%esi, %esi
	cmpq	$4, %rax
	movl	$769, %edx
	cmovbq	%rsi, %rdx
	jmp	.LBB0_66
.Lfunc_end0:
	.size	core.str.utf8.from_utf8, .Lfunc_end0-core.str.utf8.from_utf8
	.cfi_endproc

	.section	.text.core.slice.words.skip_far.52f9edcae2f82f51,"ax",@progbits
	.p2align	4
	.type	core.slice.words.skip_far.52f9edcae2f82f51,@function
core.slice.words.skip_far.52f9edcae2f82f51:
	.cfi_startproc
	movq	%rsi, %rax
	subq	%rsi, %rdx
	cmpq	$64, %rdx
	jb	.LBB1_4
	movq	(%rdi), %rcx
	.p2align	4
.LBB1_2:
	movdqu	(%rcx,%rax), %xmm0
	movdqu	16(%rcx,%rax), %xmm1
	movdqu	32(%rcx,%rax), %xmm2
	por	%xmm0, %xmm2
	movdqu	48(%rcx,%rax), %xmm0
	por	%xmm1, %xmm0
	por	%xmm2, %xmm0
	pshufd	$238, %xmm0, %xmm1
	por	%xmm0, %xmm1
	movq	%xmm1, %rsi
	movabsq	$-9187201950435737472, %rdi
	testq	%rdi, %rsi
	jne	.LBB1_4
	addq	$64, %rax
	addq	$-64, %rdx
	cmpq	$63, %rdx
	ja	.LBB1_2
.LBB1_4:
	retq
.Lfunc_end1:
	.size	core.slice.words.skip_far.52f9edcae2f82f51, .Lfunc_end1-core.slice.words.skip_far.52f9edcae2f82f51
	.cfi_endproc

	.section	.text.unlikely.std_alloc.vec.Vec.grow_amortized.4412fee896cf261c,"ax",@progbits
	.p2align	4
	.type	std_alloc.vec.Vec.grow_amortized.4412fee896cf261c,@function
std_alloc.vec.Vec.grow_amortized.4412fee896cf261c:
	.cfi_startproc
	movq	8(%rdi), %rax
	cmpq	$-1, %rax
	je	.LBB2_5
	pushq	%r14
	.cfi_def_cfa_offset 16
	pushq	%rbx
	.cfi_def_cfa_offset 24
	pushq	%rax
	.cfi_def_cfa_offset 32
	.cfi_offset %rbx, -24
	.cfi_offset %r14, -16
	movq	16(%rdi), %rcx
	cmpq	$4, %rax
	movl	$3, %ebx
	cmovaeq	%rax, %rbx
	incq	%rbx
	movq	%rcx, %rsi
	shrq	$62, %rsi
	leaq	(%rcx,%rcx), %rdx
	cmpq	%rdx, %rbx
	cmovaq	%rbx, %rdx
	testq	%rsi, %rsi
	cmoveq	%rdx, %rbx
	movabsq	$384307168202282325, %rsi
	cmpq	%rsi, %rbx
	ja	.LBB2_6
	testq	%rcx, %rcx
	je	.LBB2_8
	movq	%rdi, %r14
	movq	(%rdi), %rdi
	shlq	$3, %rax
	leaq	(%rax,%rax,2), %rsi
	leaq	(,%rbx,8), %rax
	leaq	(%rax,%rax,2), %rdx
	movl	$8, %ecx
	callq	rattle_realloc@PLT
	testb	$1, %al
	je	.LBB2_6
.LBB2_9:
	movq	%rdx, (%r14)
	movq	%rbx, 16(%r14)
	movb	$1, %al
	addq	$8, %rsp
	.cfi_def_cfa_offset 24
	popq	%rbx
	.cfi_def_cfa_offset 16
	popq	%r14
	.cfi_def_cfa_offset 8
	.cfi_restore %rbx
	.cfi_restore %r14
	retq
.LBB2_5:
	xorl	%eax, %eax
	retq
.LBB2_8:
	.cfi_def_cfa_offset 32
	.cfi_offset %rbx, -24
	.cfi_offset %r14, -16
	movq	%rdi, %r14
	shlq	$3, %rdx
	leaq	(%rdx,%rdx,2), %rdi
	movl	$8, %esi
	callq	rattle_alloc@PLT
	testb	$1, %al
	jne	.LBB2_9
.LBB2_6:
	xorl	%eax, %eax
	addq	$8, %rsp
	.cfi_def_cfa_offset 24
	popq	%rbx
	.cfi_def_cfa_offset 16
	popq	%r14
	.cfi_def_cfa_offset 8
	.cfi_restore %rbx
	.cfi_restore %r14
	retq
.Lfunc_end2:
	.size	std_alloc.vec.Vec.grow_amortized.4412fee896cf261c, .Lfunc_end2-std_alloc.vec.Vec.grow_amortized.4412fee896cf261c
	.cfi_endproc

	.section	.rodata.cst16,"aM",@progbits,16
	.p2align	4, 0x0
.LCPI3_0:
	.zero	16,46
.LCPI3_1:
	.quad	8458358670138239095
	.quad	3327647951695996518
.LCPI3_2:
	.quad	8367798494427701606
	.quad	2334399978102268015
.LCPI3_3:
	.byte	2
	.byte	23
	.byte	28
	.byte	0
	.zero	1
	.zero	1
	.zero	1
	.zero	1
	.zero	1
	.zero	1
	.zero	1
	.zero	1
	.zero	1
	.zero	1
	.zero	1
	.zero	1
.LCPI3_4:
	.byte	0
	.byte	35
	.byte	0
	.byte	0
	.zero	1
	.zero	1
	.zero	1
	.zero	1
	.zero	1
	.zero	1
	.zero	1
	.zero	1
	.zero	1
	.zero	1
	.zero	1
	.zero	1
.LCPI3_5:
	.byte	0
	.byte	35
	.byte	0
	.byte	0
	.byte	0
	.byte	0
	.byte	0
	.byte	0
	.byte	0
	.byte	0
	.byte	0
	.byte	0
	.byte	0
	.byte	0
	.byte	0
	.byte	0
.LCPI3_6:
	.byte	2
	.byte	23
	.byte	28
	.byte	0
	.byte	0
	.byte	0
	.byte	0
	.byte	0
	.byte	0
	.byte	0
	.byte	0
	.byte	0
	.byte	0
	.byte	0
	.byte	0
	.byte	0
	.section	.text.std_io.io.buffer.Buffer.flush,"ax",@progbits
	.p2align	4
	.type	std_io.io.buffer.Buffer.flush,@function
std_io.io.buffer.Buffer.flush:
	.cfi_startproc
	pushq	%rbp
	.cfi_def_cfa_offset 16
	pushq	%r15
	.cfi_def_cfa_offset 24
	pushq	%r14
	.cfi_def_cfa_offset 32
	pushq	%r13
	.cfi_def_cfa_offset 40
	pushq	%r12
	.cfi_def_cfa_offset 48
	pushq	%rbx
	.cfi_def_cfa_offset 56
	subq	$136, %rsp
	.cfi_def_cfa_offset 192
	.cfi_offset %rbx, -56
	.cfi_offset %r12, -48
	.cfi_offset %r13, -40
	.cfi_offset %r14, -32
	.cfi_offset %r15, -24
	.cfi_offset %rbp, -16
	movq	1032(%rdi), %r15
	movq	$0, 1032(%rdi)
	cmpq	$1025, %r15
	jae	.LBB3_15
	movq	%rdi, %rbx
	movl	(%rdi), %ebp
	movq	$-64, %r12
	xorl	%r13d, %r13d
	jmp	.LBB3_4
	.p2align	4
.LBB3_2:
	callq	rattle_errno@PLT
	cmpl	$4, %eax
	jne	.LBB3_13
	incq	%r12
	cmpq	%r12, %r15
	je	.LBB3_8
.LBB3_4:
	movq	%r15, %r14
	subq	%r13, %r14
	jbe	.LBB3_10
	leaq	4(%rbx), %rax
	leaq	(%rax,%r13), %rsi
	movl	%ebp, %edi
	movq	%r14, %rdx
	callq	write@PLT
	testq	%rax, %rax
	js	.LBB3_2
	je	.LBB3_11
	cmpq	%r14, %rax
	cmovbq	%rax, %r14
	addq	%r14, %r13
	incq	%r12
	cmpq	%r12, %r15
	jne	.LBB3_4
.LBB3_8:
	cmpq	%r13, %r15
	jbe	.LBB3_10
	xorps	%xmm0, %xmm0
	movaps	%xmm0, 32(%rsp)
	movaps	%xmm0, 16(%rsp)
	movaps	%xmm0, (%rsp)
	movss	.LCPI3_5(%rip), %xmm1
	movl	$4, %eax
	xorps	%xmm2, %xmm2
	jmp	.LBB3_14
.LBB3_10:
	movb	$1, %al
	jmp	.LBB3_16
.LBB3_11:
	movaps	.LCPI3_0(%rip), %xmm0
	movaps	%xmm0, 32(%rsp)
	movaps	%xmm0, 16(%rsp)
	movaps	%xmm0, (%rsp)
	movaps	.LCPI3_1(%rip), %xmm2
	movaps	.LCPI3_2(%rip), %xmm0
	movss	.LCPI3_6(%rip), %xmm1
	xorl	%eax, %eax
	jmp	.LBB3_14
.LBB3_13:
	leaq	48(%rsp), %rdi
	movl	%eax, %esi
	callq	std_io.io.error.Error.from_raw_os_error
	movsd	48(%rsp), %xmm1
	movl	52(%rsp), %eax
	movups	56(%rsp), %xmm0
	movups	72(%rsp), %xmm2
	movups	88(%rsp), %xmm3
	movaps	%xmm3, (%rsp)
	movups	104(%rsp), %xmm3
	movaps	%xmm3, 16(%rsp)
	movups	120(%rsp), %xmm3
	movaps	%xmm3, 32(%rsp)
.LBB3_14:
	movq	$1, 1040(%rbx)
	movss	%xmm1, 1048(%rbx)
	movl	%eax, 1052(%rbx)
	movups	%xmm0, 1056(%rbx)
	movups	%xmm2, 1072(%rbx)
	movaps	(%rsp), %xmm0
	movaps	16(%rsp), %xmm1
	movaps	32(%rsp), %xmm2
	movups	%xmm0, 1088(%rbx)
	movups	%xmm1, 1104(%rbx)
	movups	%xmm2, 1120(%rbx)
.LBB3_15:
	xorl	%eax, %eax
.LBB3_16:
	addq	$136, %rsp
	.cfi_def_cfa_offset 56
	popq	%rbx
	.cfi_def_cfa_offset 48
	popq	%r12
	.cfi_def_cfa_offset 40
	popq	%r13
	.cfi_def_cfa_offset 32
	popq	%r14
	.cfi_def_cfa_offset 24
	popq	%r15
	.cfi_def_cfa_offset 16
	popq	%rbp
	.cfi_def_cfa_offset 8
	retq
.Lfunc_end3:
	.size	std_io.io.buffer.Buffer.flush, .Lfunc_end3-std_io.io.buffer.Buffer.flush
	.cfi_endproc

	.section	.text.std_io.io.error.Error.from_raw_os_error,"ax",@progbits
	.p2align	4
	.type	std_io.io.error.Error.from_raw_os_error,@function
std_io.io.error.Error.from_raw_os_error:
	.cfi_startproc
	movb	$41, %al
	testl	%esi, %esi
	js	.LBB4_40
	leal	-1(%rsi), %ecx
	cmpl	$121, %ecx
	ja	.LBB4_40
	leaq	.LJTI4_0(%rip), %rdx
	movslq	(%rdx,%rcx,4), %rcx
	addq	%rdx, %rcx
	jmpq	*%rcx
.LBB4_3:
	movb	$1, %al
	jmp	.LBB4_40
.LBB4_24:
	movb	$36, %al
	jmp	.LBB4_40
.LBB4_36:
	movb	$4, %al
	jmp	.LBB4_40
.LBB4_33:
	movb	$7, %al
	jmp	.LBB4_40
.LBB4_39:
	movb	$26, %al
	jmp	.LBB4_40
.LBB4_37:
	movb	$39, %al
	jmp	.LBB4_40
.LBB4_28:
	movb	$9, %al
	jmp	.LBB4_40
.LBB4_27:
	movb	$8, %al
	jmp	.LBB4_40
.LBB4_22:
	movb	$30, %al
	jmp	.LBB4_40
.LBB4_18:
	movb	$25, %al
	jmp	.LBB4_40
.LBB4_20:
	movb	$32, %al
	jmp	.LBB4_40
.LBB4_23:
	movb	$33, %al
	jmp	.LBB4_40
.LBB4_34:
	movb	$22, %al
	jmp	.LBB4_40
.LBB4_11:
	movb	$31, %al
	jmp	.LBB4_40
.LBB4_15:
	movb	$29, %al
	jmp	.LBB4_40
.LBB4_26:
	movb	$18, %al
	jmp	.LBB4_40
.LBB4_29:
	movb	$10, %al
	jmp	.LBB4_40
.LBB4_9:
	movb	$28, %al
	jmp	.LBB4_40
.LBB4_12:
	movb	$14, %al
	jmp	.LBB4_40
.LBB4_10:
	movb	$12, %al
	jmp	.LBB4_40
.LBB4_30:
	movb	$5, %al
	jmp	.LBB4_40
.LBB4_32:
	movb	$3, %al
	jmp	.LBB4_40
.LBB4_4:
	xorl	%eax, %eax
	jmp	.LBB4_40
.LBB4_7:
	movb	$13, %al
	jmp	.LBB4_40
.LBB4_8:
	movb	$38, %al
	jmp	.LBB4_40
.LBB4_21:
	movb	$11, %al
	jmp	.LBB4_40
.LBB4_5:
	movb	$35, %al
	jmp	.LBB4_40
.LBB4_6:
	movb	$34, %al
	jmp	.LBB4_40
.LBB4_14:
	movb	$20, %al
	jmp	.LBB4_40
.LBB4_13:
	movb	$15, %al
	jmp	.LBB4_40
.LBB4_38:
	movb	$19, %al
	jmp	.LBB4_40
.LBB4_25:
	movb	$16, %al
	jmp	.LBB4_40
.LBB4_31:
	movb	$6, %al
	jmp	.LBB4_40
.LBB4_16:
	movb	$27, %al
	jmp	.LBB4_40
.LBB4_17:
	movb	$24, %al
	jmp	.LBB4_40
.LBB4_35:
	movb	$2, %al
	jmp	.LBB4_40
.LBB4_19:
	movb	$17, %al
.LBB4_40:
	movb	$0, (%rdi)
	movb	%al, 1(%rdi)
	movw	$0, 2(%rdi)
	movl	%esi, 4(%rdi)
	xorps	%xmm0, %xmm0
	movups	%xmm0, 8(%rdi)
	movups	%xmm0, 24(%rdi)
	movups	%xmm0, 40(%rdi)
	movups	%xmm0, 56(%rdi)
	movups	%xmm0, 72(%rdi)
	retq
.Lfunc_end4:
	.size	std_io.io.error.Error.from_raw_os_error, .Lfunc_end4-std_io.io.error.Error.from_raw_os_error
	.cfi_endproc
	.section	.rodata.std_io.io.error.Error.from_raw_os_error,"a",@progbits
	.p2align	2, 0x0
.LJTI4_0:
	.long	.LBB4_3-.LJTI4_0
	.long	.LBB4_4-.LJTI4_0
	.long	.LBB4_40-.LJTI4_0
	.long	.LBB4_5-.LJTI4_0
	.long	.LBB4_40-.LJTI4_0
	.long	.LBB4_40-.LJTI4_0
	.long	.LBB4_6-.LJTI4_0
	.long	.LBB4_40-.LJTI4_0
	.long	.LBB4_40-.LJTI4_0
	.long	.LBB4_40-.LJTI4_0
	.long	.LBB4_7-.LJTI4_0
	.long	.LBB4_8-.LJTI4_0
	.long	.LBB4_3-.LJTI4_0
	.long	.LBB4_40-.LJTI4_0
	.long	.LBB4_40-.LJTI4_0
	.long	.LBB4_9-.LJTI4_0
	.long	.LBB4_10-.LJTI4_0
	.long	.LBB4_11-.LJTI4_0
	.long	.LBB4_40-.LJTI4_0
	.long	.LBB4_12-.LJTI4_0
	.long	.LBB4_13-.LJTI4_0
	.long	.LBB4_14-.LJTI4_0
	.long	.LBB4_40-.LJTI4_0
	.long	.LBB4_40-.LJTI4_0
	.long	.LBB4_40-.LJTI4_0
	.long	.LBB4_15-.LJTI4_0
	.long	.LBB4_16-.LJTI4_0
	.long	.LBB4_17-.LJTI4_0
	.long	.LBB4_18-.LJTI4_0
	.long	.LBB4_19-.LJTI4_0
	.long	.LBB4_20-.LJTI4_0
	.long	.LBB4_21-.LJTI4_0
	.long	.LBB4_40-.LJTI4_0
	.long	.LBB4_40-.LJTI4_0
	.long	.LBB4_22-.LJTI4_0
	.long	.LBB4_23-.LJTI4_0
	.long	.LBB4_40-.LJTI4_0
	.long	.LBB4_24-.LJTI4_0
	.long	.LBB4_25-.LJTI4_0
	.long	.LBB4_26-.LJTI4_0
	.long	.LBB4_40-.LJTI4_0
	.long	.LBB4_40-.LJTI4_0
	.long	.LBB4_40-.LJTI4_0
	.long	.LBB4_40-.LJTI4_0
	.long	.LBB4_40-.LJTI4_0
	.long	.LBB4_40-.LJTI4_0
	.long	.LBB4_40-.LJTI4_0
	.long	.LBB4_40-.LJTI4_0
	.long	.LBB4_40-.LJTI4_0
	.long	.LBB4_40-.LJTI4_0
	.long	.LBB4_40-.LJTI4_0
	.long	.LBB4_40-.LJTI4_0
	.long	.LBB4_40-.LJTI4_0
	.long	.LBB4_40-.LJTI4_0
	.long	.LBB4_40-.LJTI4_0
	.long	.LBB4_40-.LJTI4_0
	.long	.LBB4_40-.LJTI4_0
	.long	.LBB4_40-.LJTI4_0
	.long	.LBB4_40-.LJTI4_0
	.long	.LBB4_40-.LJTI4_0
	.long	.LBB4_40-.LJTI4_0
	.long	.LBB4_40-.LJTI4_0
	.long	.LBB4_40-.LJTI4_0
	.long	.LBB4_40-.LJTI4_0
	.long	.LBB4_40-.LJTI4_0
	.long	.LBB4_40-.LJTI4_0
	.long	.LBB4_40-.LJTI4_0
	.long	.LBB4_40-.LJTI4_0
	.long	.LBB4_40-.LJTI4_0
	.long	.LBB4_40-.LJTI4_0
	.long	.LBB4_40-.LJTI4_0
	.long	.LBB4_40-.LJTI4_0
	.long	.LBB4_40-.LJTI4_0
	.long	.LBB4_40-.LJTI4_0
	.long	.LBB4_40-.LJTI4_0
	.long	.LBB4_40-.LJTI4_0
	.long	.LBB4_40-.LJTI4_0
	.long	.LBB4_40-.LJTI4_0
	.long	.LBB4_40-.LJTI4_0
	.long	.LBB4_40-.LJTI4_0
	.long	.LBB4_40-.LJTI4_0
	.long	.LBB4_40-.LJTI4_0
	.long	.LBB4_40-.LJTI4_0
	.long	.LBB4_40-.LJTI4_0
	.long	.LBB4_40-.LJTI4_0
	.long	.LBB4_40-.LJTI4_0
	.long	.LBB4_40-.LJTI4_0
	.long	.LBB4_40-.LJTI4_0
	.long	.LBB4_40-.LJTI4_0
	.long	.LBB4_40-.LJTI4_0
	.long	.LBB4_40-.LJTI4_0
	.long	.LBB4_40-.LJTI4_0
	.long	.LBB4_40-.LJTI4_0
	.long	.LBB4_40-.LJTI4_0
	.long	.LBB4_24-.LJTI4_0
	.long	.LBB4_40-.LJTI4_0
	.long	.LBB4_40-.LJTI4_0
	.long	.LBB4_27-.LJTI4_0
	.long	.LBB4_28-.LJTI4_0
	.long	.LBB4_29-.LJTI4_0
	.long	.LBB4_30-.LJTI4_0
	.long	.LBB4_40-.LJTI4_0
	.long	.LBB4_31-.LJTI4_0
	.long	.LBB4_32-.LJTI4_0
	.long	.LBB4_40-.LJTI4_0
	.long	.LBB4_40-.LJTI4_0
	.long	.LBB4_33-.LJTI4_0
	.long	.LBB4_40-.LJTI4_0
	.long	.LBB4_40-.LJTI4_0
	.long	.LBB4_34-.LJTI4_0
	.long	.LBB4_35-.LJTI4_0
	.long	.LBB4_40-.LJTI4_0
	.long	.LBB4_36-.LJTI4_0
	.long	.LBB4_40-.LJTI4_0
	.long	.LBB4_37-.LJTI4_0
	.long	.LBB4_38-.LJTI4_0
	.long	.LBB4_40-.LJTI4_0
	.long	.LBB4_40-.LJTI4_0
	.long	.LBB4_40-.LJTI4_0
	.long	.LBB4_40-.LJTI4_0
	.long	.LBB4_40-.LJTI4_0
	.long	.LBB4_39-.LJTI4_0

	.section	.text.unlikely.core.fmt.formatter.Formatter.write_indented.bf264aed5fa78656,"ax",@progbits
	.p2align	4
	.type	core.fmt.formatter.Formatter.write_indented.bf264aed5fa78656,@function
core.fmt.formatter.Formatter.write_indented.bf264aed5fa78656:
	.cfi_startproc
	pushq	%rbp
	.cfi_def_cfa_offset 16
	pushq	%r15
	.cfi_def_cfa_offset 24
	pushq	%r14
	.cfi_def_cfa_offset 32
	pushq	%r13
	.cfi_def_cfa_offset 40
	pushq	%r12
	.cfi_def_cfa_offset 48
	pushq	%rbx
	.cfi_def_cfa_offset 56
	pushq	%rax
	.cfi_def_cfa_offset 64
	.cfi_offset %rbx, -56
	.cfi_offset %r12, -48
	.cfi_offset %r13, -40
	.cfi_offset %r14, -32
	.cfi_offset %r15, -24
	.cfi_offset %rbp, -16
	testq	%rdx, %rdx
	je	.LBB5_1
	movq	%rsi, %r14
	movq	%rdi, %r15
	xorl	%ecx, %ecx
	xorl	%ebp, %ebp
	movq	%rdx, (%rsp)
	jmp	.LBB5_3
	.p2align	4
.LBB5_7:
	addq	%r14, %r13
	movb	$1, 1168(%r15)
	movq	%r15, %rdi
	movq	%r13, %rsi
	movq	%r12, %rdx
	callq	core.fmt.formatter.Formatter.write_raw.bf264aed5fa78656
	movq	%rbp, %rcx
	testb	%al, %al
	movq	(%rsp), %rdx
	jne	.LBB5_17
.LBB5_8:
	cmpq	%rdx, %rbp
	je	.LBB5_9
.LBB5_3:
	movq	%rbp, %rax
	incq	%rbp
	cmpb	$10, (%r14,%rax)
	jne	.LBB5_8
	xorl	%r13d, %r13d
	movq	%rbp, %r12
	subq	%rcx, %r12
	cmovaeq	%rcx, %r13
	cmpq	%rax, %rcx
	movq	%rbp, %rcx
	ja	.LBB5_8
	cmpb	$1, 1168(%r15)
	jne	.LBB5_7
	movq	1160(%r15), %rbx
	testq	%rbx, %rbx
	je	.LBB5_7
	.p2align	4
.LBB5_14:
	leaq	.Lstatic.10(%rip), %rsi
	movl	$4, %edx
	movq	%r15, %rdi
	callq	core.fmt.formatter.Formatter.write_raw.bf264aed5fa78656
	testb	%al, %al
	jne	.LBB5_17
	decq	%rbx
	jne	.LBB5_14
	jmp	.LBB5_7
.LBB5_1:
	xorl	%eax, %eax
	jmp	.LBB5_18
.LBB5_9:
	xorl	%eax, %eax
	cmpq	%rdx, %rcx
	movq	%rcx, %r12
	cmovaq	%rax, %r12
	subq	%rcx, %rdx
	cmovbq	%rax, %rdx
	jbe	.LBB5_18
	movq	%rdx, %r13
	cmpb	$1, 1168(%r15)
	jne	.LBB5_12
	movq	1160(%r15), %rbx
	testq	%rbx, %rbx
	je	.LBB5_12
	.p2align	4
.LBB5_16:
	leaq	.Lstatic.10(%rip), %rsi
	movl	$4, %edx
	movq	%r15, %rdi
	callq	core.fmt.formatter.Formatter.write_raw.bf264aed5fa78656
	testb	%al, %al
	jne	.LBB5_17
	decq	%rbx
	jne	.LBB5_16
.LBB5_12:
	addq	%r12, %r14
	movb	$0, 1168(%r15)
	movq	%r15, %rdi
	movq	%r14, %rsi
	movq	%r13, %rdx
	addq	$8, %rsp
	.cfi_def_cfa_offset 56
	popq	%rbx
	.cfi_def_cfa_offset 48
	popq	%r12
	.cfi_def_cfa_offset 40
	popq	%r13
	.cfi_def_cfa_offset 32
	popq	%r14
	.cfi_def_cfa_offset 24
	popq	%r15
	.cfi_def_cfa_offset 16
	popq	%rbp
	.cfi_def_cfa_offset 8
	jmp	core.fmt.formatter.Formatter.write_raw.bf264aed5fa78656
.LBB5_17:
	.cfi_def_cfa_offset 64
	movb	$1, %al
.LBB5_18:
	addq	$8, %rsp
	.cfi_def_cfa_offset 56
	popq	%rbx
	.cfi_def_cfa_offset 48
	popq	%r12
	.cfi_def_cfa_offset 40
	popq	%r13
	.cfi_def_cfa_offset 32
	popq	%r14
	.cfi_def_cfa_offset 24
	popq	%r15
	.cfi_def_cfa_offset 16
	popq	%rbp
	.cfi_def_cfa_offset 8
	retq
.Lfunc_end5:
	.size	core.fmt.formatter.Formatter.write_indented.bf264aed5fa78656, .Lfunc_end5-core.fmt.formatter.Formatter.write_indented.bf264aed5fa78656
	.cfi_endproc

	.section	.text.core.fmt.formatter.Formatter.write_raw.bf264aed5fa78656,"ax",@progbits
	.p2align	4
	.type	core.fmt.formatter.Formatter.write_raw.bf264aed5fa78656,@function
core.fmt.formatter.Formatter.write_raw.bf264aed5fa78656:
	.cfi_startproc
	testq	%rdx, %rdx
	je	.LBB6_1
	pushq	%rbp
	.cfi_def_cfa_offset 16
	pushq	%r15
	.cfi_def_cfa_offset 24
	pushq	%r14
	.cfi_def_cfa_offset 32
	pushq	%r12
	.cfi_def_cfa_offset 40
	pushq	%rbx
	.cfi_def_cfa_offset 48
	.cfi_offset %rbx, -48
	.cfi_offset %r12, -40
	.cfi_offset %r14, -32
	.cfi_offset %r15, -24
	.cfi_offset %rbp, -16
	movq	%rdx, %rbx
	movq	%rsi, %r14
	movq	%rdi, %r15
	xorl	%ecx, %ecx
	jmp	.LBB6_4
	.p2align	4
.LBB6_19:
	addq	%rdi, %rcx
	cmpq	%rbx, %rcx
	jae	.LBB6_20
.LBB6_4:
	movzbl	(%r14,%rcx), %edx
	movl	$1, %edi
	testb	%dl, %dl
	jns	.LBB6_19
	leaq	1(%rcx), %rsi
	movb	$1, %al
	cmpq	%rsi, %rbx
	jbe	.LBB6_26
	movzbl	(%r14,%rsi), %esi
	testb	%sil, %sil
	jns	.LBB6_26
	movzbl	%sil, %edi
	cmpb	$-64, %sil
	movl	$192, %esi
	cmovbl	%edi, %esi
	cmpb	$-62, %dl
	jb	.LBB6_26
	movl	%esi, %edi
	andb	$127, %dil
	cmpb	$63, %dil
	ja	.LBB6_26
	movl	$2, %edi
	cmpb	$-32, %dl
	jb	.LBB6_19
	leaq	2(%rcx), %rdi
	cmpq	%rdi, %rbx
	jbe	.LBB6_26
	cmpb	$-65, (%r14,%rdi)
	jg	.LBB6_26
	andl	$127, %esi
	cmpb	$-17, %dl
	ja	.LBB6_16
	movl	%edx, %edi
	shll	$12, %edi
	shll	$6, %esi
	addl	%edi, %esi
	addl	$-917504, %esi
	cmpl	$2048, %esi
	jb	.LBB6_26
	movl	$3, %edi
	cmpl	$55296, %esi
	jb	.LBB6_19
	cmpb	$-18, %dl
	jae	.LBB6_19
	jmp	.LBB6_26
.LBB6_16:
	leaq	3(%rcx), %rdi
	cmpq	%rdi, %rbx
	jbe	.LBB6_26
	cmpb	$-65, (%r14,%rdi)
	jg	.LBB6_26
	shll	$18, %edx
	shll	$12, %esi
	addl	%esi, %edx
	addl	$-62980096, %edx
	movl	$4, %edi
	cmpl	$1048575, %edx
	jbe	.LBB6_19
	jmp	.LBB6_26
.LBB6_1:
	.cfi_def_cfa_offset 8
	.cfi_restore %rbx
	.cfi_restore %rbp
	.cfi_restore %r12
	.cfi_restore %r14
	.cfi_restore %r15
	xorl	%eax, %eax
	retq
.LBB6_20:
	.cfi_def_cfa_offset 48
	.cfi_offset %rbx, -48
	.cfi_offset %rbp, -16
	.cfi_offset %r12, -40
	.cfi_offset %r14, -32
	.cfi_offset %r15, -24
	movq	1032(%r15), %rcx
	xorl	%r12d, %r12d
	jmp	.LBB6_21
	.p2align	4
.LBB6_24:
	movb	%bpl, 4(%r15,%rcx)
	incq	%rcx
	movq	%rcx, 1032(%r15)
	incq	%r12
	cmpq	%r12, %rbx
	je	.LBB6_25
.LBB6_21:
	movzbl	(%r14,%r12), %ebp
	cmpq	$1024, %rcx
	jb	.LBB6_24
	movq	%r15, %rdi
	callq	std_io.io.buffer.Buffer.flush
	movl	%eax, %ecx
	movb	$1, %al
	testb	%cl, %cl
	je	.LBB6_26
	movq	1032(%r15), %rcx
	cmpq	$1023, %rcx
	jbe	.LBB6_24
	jmp	.LBB6_26
.LBB6_25:
	xorl	%eax, %eax
.LBB6_26:
	popq	%rbx
	.cfi_def_cfa_offset 40
	popq	%r12
	.cfi_def_cfa_offset 32
	popq	%r14
	.cfi_def_cfa_offset 24
	popq	%r15
	.cfi_def_cfa_offset 16
	popq	%rbp
	.cfi_def_cfa_offset 8
	.cfi_restore %rbx
	.cfi_restore %r12
	.cfi_restore %r14
	.cfi_restore %r15
	.cfi_restore %rbp
	retq
.Lfunc_end6:
	.size	core.fmt.formatter.Formatter.write_raw.bf264aed5fa78656, .Lfunc_end6-core.fmt.formatter.Formatter.write_raw.bf264aed5fa78656
	.cfi_endproc

	.section	.rodata.cst16,"aM",@progbits,16
	.p2align	4, 0x0
.LCPI7_0:
	.zero	16,46
.LCPI7_1:
	.quad	7310596056926023526
	.quad	3346860010425884786
.LCPI7_2:
	.byte	2
	.byte	41
	.byte	15
	.byte	0
	.zero	1
	.zero	1
	.zero	1
	.zero	1
	.zero	1
	.zero	1
	.zero	1
	.zero	1
	.zero	1
	.zero	1
	.zero	1
	.zero	1
.LCPI7_3:
	.byte	2
	.byte	41
	.byte	15
	.byte	0
	.byte	0
	.byte	0
	.byte	0
	.byte	0
	.byte	0
	.byte	0
	.byte	0
	.byte	0
	.byte	0
	.byte	0
	.byte	0
	.byte	0
	.section	.text.std_io.io.LibcRuntimeEprint.eprintln.27a8a20715d85f24,"ax",@progbits
	.p2align	4
	.type	std_io.io.LibcRuntimeEprint.eprintln.27a8a20715d85f24,@function
std_io.io.LibcRuntimeEprint.eprintln.27a8a20715d85f24:
	.cfi_startproc
	pushq	%rbp
	.cfi_def_cfa_offset 16
	pushq	%r15
	.cfi_def_cfa_offset 24
	pushq	%r14
	.cfi_def_cfa_offset 32
	pushq	%r13
	.cfi_def_cfa_offset 40
	pushq	%r12
	.cfi_def_cfa_offset 48
	pushq	%rbx
	.cfi_def_cfa_offset 56
	subq	$2600, %rsp
	.cfi_def_cfa_offset 2656
	.cfi_offset %rbx, -56
	.cfi_offset %r12, -48
	.cfi_offset %r13, -40
	.cfi_offset %r14, -32
	.cfi_offset %r15, -24
	.cfi_offset %rbp, -16
	movq	%rdi, (%rsp)
	movq	(%rsi), %rbp
	movq	8(%rsi), %r14
	movq	16(%rsi), %rax
	movq	%rax, 8(%rsp)
	movq	24(%rsi), %r12
	xorps	%xmm0, %xmm0
	movaps	%xmm0, 128(%rsp)
	movaps	%xmm0, 112(%rsp)
	movaps	%xmm0, 96(%rsp)
	movaps	%xmm0, 80(%rsp)
	movaps	%xmm0, 256(%rsp)
	movaps	%xmm0, 240(%rsp)
	movaps	%xmm0, 224(%rsp)
	movaps	%xmm0, 208(%rsp)
	movaps	%xmm0, 16(%rsp)
	movaps	%xmm0, 32(%rsp)
	movaps	%xmm0, 48(%rsp)
	movaps	%xmm0, 64(%rsp)
	movl	$2, 280(%rsp)
	leaq	284(%rsp), %rdi
	xorl	%r13d, %r13d
	movl	$1132, %edx
	xorl	%esi, %esi
	callq	memset@PLT
	movl	$32, 1416(%rsp)
	movq	$0, 1420(%rsp)
	movl	$0, 1428(%rsp)
	movq	$-1, 1432(%rsp)
	xorps	%xmm0, %xmm0
	movups	%xmm0, 1440(%rsp)
	movl	1416(%rsp), %eax
	movl	%eax, 1456(%rsp)
	movq	1420(%rsp), %rax
	movq	%rax, 1460(%rsp)
	movl	1428(%rsp), %eax
	movl	%eax, 1468(%rsp)
	movq	$-1, 1472(%rsp)
	movl	$32, 1416(%rsp)
	movq	$0, 1420(%rsp)
	movl	$0, 1428(%rsp)
	testq	%r14, %r14
	je	.LBB7_7
	xorl	%r13d, %r13d
	xorl	%ebx, %ebx
	jmp	.LBB7_2
	.p2align	4
.LBB7_5:
	movb	%r15b, 284(%rsp,%r13)
	incq	%r13
	movq	%r13, 1312(%rsp)
	incq	%rbx
	cmpq	%rbx, %r14
	je	.LBB7_6
.LBB7_2:
	movzbl	(%rbp,%rbx), %r15d
	cmpq	$1024, %r13
	jb	.LBB7_5
	leaq	280(%rsp), %rdi
	callq	std_io.io.buffer.Buffer.flush
	testb	%al, %al
	je	.LBB7_30
	movq	1312(%rsp), %r13
	cmpq	$1023, %r13
	jbe	.LBB7_5
	jmp	.LBB7_30
.LBB7_6:
	cmpq	$0, 1440(%rsp)
	movl	$32, 1416(%rsp)
	leaq	284(%rsp), %rax
	movl	$0, 1144(%rax)
	movq	$0, 1136(%rax)
	movq	$-1, 1432(%rsp)
	jne	.LBB7_18
.LBB7_7:
	testq	%r12, %r12
	je	.LBB7_13
	xorl	%r14d, %r14d
	jmp	.LBB7_9
	.p2align	4
.LBB7_12:
	movb	%bl, 284(%rsp,%r13)
	incq	%r13
	movq	%r13, 1312(%rsp)
	incq	%r14
	cmpq	%r14, %r12
	je	.LBB7_13
.LBB7_9:
	movq	8(%rsp), %rax
	movzbl	(%rax,%r14), %ebx
	cmpq	$1024, %r13
	jb	.LBB7_12
	leaq	280(%rsp), %rdi
	callq	std_io.io.buffer.Buffer.flush
	testb	%al, %al
	je	.LBB7_30
	movq	1312(%rsp), %r13
	cmpq	$1023, %r13
	jbe	.LBB7_12
.LBB7_30:
	movq	1472(%rsp), %rax
	leaq	284(%rsp), %rsi
	movq	%rax, 1148(%rsi)
	movaps	1456(%rsp), %xmm0
	movups	%xmm0, 1132(%rsi)
.LBB7_19:
	xorl	%ebp, %ebp
	movq	(%rsp), %rbx
	jmp	.LBB7_23
.LBB7_13:
	movq	1472(%rsp), %rax
	leaq	284(%rsp), %rsi
	movq	%rax, 1148(%rsi)
	movaps	1456(%rsp), %xmm0
	movups	%xmm0, 1132(%rsi)
.LBB7_14:
	movq	1148(%rsi), %rax
	movq	%rax, 1472(%rsp)
	movups	1132(%rsi), %xmm0
	movaps	%xmm0, 1456(%rsp)
	movl	$32, 1416(%rsp)
	movl	$0, 1144(%rsi)
	movq	$0, 1136(%rsi)
	movq	$-1, 1432(%rsp)
	cmpq	$0, 1440(%rsp)
	movq	(%rsp), %rbx
	jne	.LBB7_21
	movq	1312(%rsp), %rcx
	cmpq	$1024, %rcx
	jb	.LBB7_20
	leaq	280(%rsp), %rdi
	movq	%rsi, %r14
	callq	std_io.io.buffer.Buffer.flush
	movq	%r14, %rsi
	movq	1312(%rsp), %rcx
	cmpq	$1024, %rcx
	setb	%dl
	andb	%al, %dl
	cmpb	$1, %dl
	jne	.LBB7_17
.LBB7_20:
	movb	$10, 284(%rsp,%rcx)
	incq	%rcx
	movq	%rcx, 1312(%rsp)
	movb	$1, %bpl
	jmp	.LBB7_22
.LBB7_17:
	xorl	%ebp, %ebp
.LBB7_22:
	movq	1472(%rsp), %rax
	movq	%rax, 1148(%rsi)
	movaps	1456(%rsp), %xmm0
	movups	%xmm0, 1132(%rsi)
.LBB7_23:
	movl	280(%rsp), %eax
	movl	%eax, 1456(%rsp)
	leaq	1460(%rsp), %rdi
	movl	$1132, %edx
	callq	memcpy@PLT
	leaq	1456(%rsp), %rdi
	callq	std_io.io.buffer.Buffer.flush
	andb	%bpl, %al
	cmpb	$1, %al
	jne	.LBB7_25
	xorps	%xmm0, %xmm0
	movaps	%xmm0, 64(%rsp)
	movaps	%xmm0, 48(%rsp)
	movaps	%xmm0, 32(%rsp)
	movaps	%xmm0, 16(%rsp)
	xorl	%ecx, %ecx
	xorl	%eax, %eax
	xorps	%xmm1, %xmm1
	jmp	.LBB7_29
.LBB7_25:
	cmpb	$1, 2496(%rsp)
	jne	.LBB7_27
	movsd	2504(%rsp), %xmm0
	movl	2508(%rsp), %eax
	movups	2512(%rsp), %xmm1
	movups	2528(%rsp), %xmm2
	movaps	%xmm2, 144(%rsp)
	movups	2544(%rsp), %xmm2
	movaps	%xmm2, 160(%rsp)
	movups	2560(%rsp), %xmm2
	movaps	%xmm2, 176(%rsp)
	movups	2576(%rsp), %xmm2
	movaps	%xmm2, 192(%rsp)
	jmp	.LBB7_28
.LBB7_27:
	movaps	.LCPI7_0(%rip), %xmm0
	movaps	%xmm0, 192(%rsp)
	movaps	%xmm0, 176(%rsp)
	movaps	%xmm0, 160(%rsp)
	movaps	%xmm0, 144(%rsp)
	movaps	.LCPI7_1(%rip), %xmm1
	movss	.LCPI7_3(%rip), %xmm0
	xorl	%eax, %eax
.LBB7_28:
	movaps	144(%rsp), %xmm2
	movaps	160(%rsp), %xmm3
	movaps	176(%rsp), %xmm4
	movaps	192(%rsp), %xmm5
	movaps	%xmm5, 64(%rsp)
	movaps	%xmm4, 48(%rsp)
	movaps	%xmm3, 32(%rsp)
	movaps	%xmm2, 16(%rsp)
	movb	$1, %cl
.LBB7_29:
	movaps	16(%rsp), %xmm2
	movaps	32(%rsp), %xmm3
	movaps	48(%rsp), %xmm4
	movaps	64(%rsp), %xmm5
	movaps	%xmm2, 80(%rsp)
	movaps	%xmm3, 96(%rsp)
	movaps	%xmm4, 112(%rsp)
	movaps	%xmm5, 128(%rsp)
	movb	%cl, (%rbx)
	movss	%xmm0, 8(%rbx)
	movl	%eax, 12(%rbx)
	movups	%xmm1, 16(%rbx)
	movaps	80(%rsp), %xmm0
	movaps	96(%rsp), %xmm1
	movaps	112(%rsp), %xmm2
	movaps	128(%rsp), %xmm3
	movups	%xmm0, 32(%rbx)
	movups	%xmm1, 48(%rbx)
	movups	%xmm2, 64(%rbx)
	movups	%xmm3, 80(%rbx)
	addq	$2600, %rsp
	.cfi_def_cfa_offset 56
	popq	%rbx
	.cfi_def_cfa_offset 48
	popq	%r12
	.cfi_def_cfa_offset 40
	popq	%r13
	.cfi_def_cfa_offset 32
	popq	%r14
	.cfi_def_cfa_offset 24
	popq	%r15
	.cfi_def_cfa_offset 16
	popq	%rbp
	.cfi_def_cfa_offset 8
	retq
.LBB7_21:
	.cfi_def_cfa_offset 2656
	movq	%rsi, %r14
	leaq	.Lstatic.8(%rip), %rsi
	leaq	280(%rsp), %rdi
	movl	$1, %edx
	callq	core.fmt.formatter.Formatter.write_indented.bf264aed5fa78656
	movq	%r14, %rsi
	testb	%al, %al
	sete	%bpl
	jmp	.LBB7_22
.LBB7_18:
	leaq	280(%rsp), %rdi
	movq	%rax, %rbx
	movq	8(%rsp), %rsi
	movq	%r12, %rdx
	callq	core.fmt.formatter.Formatter.write_indented.bf264aed5fa78656
	movq	%rbx, %rsi
	movaps	1456(%rsp), %xmm0
	movups	%xmm0, 1132(%rbx)
	movq	1472(%rsp), %rcx
	movq	%rcx, 1148(%rbx)
	testb	%al, %al
	jne	.LBB7_19
	jmp	.LBB7_14
.Lfunc_end7:
	.size	std_io.io.LibcRuntimeEprint.eprintln.27a8a20715d85f24, .Lfunc_end7-std_io.io.LibcRuntimeEprint.eprintln.27a8a20715d85f24
	.cfi_endproc

	.section	.text.unlikely.std_alloc.vec.Vec.grow_amortized.05fa32d921161499,"ax",@progbits
	.p2align	4
	.type	std_alloc.vec.Vec.grow_amortized.05fa32d921161499,@function
std_alloc.vec.Vec.grow_amortized.05fa32d921161499:
	.cfi_startproc
	movq	%rsi, %rax
	movq	8(%rdi), %rsi
	addq	%rsi, %rax
	jae	.LBB8_2
	xorl	%eax, %eax
	retq
.LBB8_2:
	pushq	%r14
	.cfi_def_cfa_offset 16
	pushq	%rbx
	.cfi_def_cfa_offset 24
	pushq	%rax
	.cfi_def_cfa_offset 32
	.cfi_offset %rbx, -24
	.cfi_offset %r14, -16
	cmpq	$9, %rax
	movl	$8, %ebx
	cmovaeq	%rax, %rbx
	movq	16(%rdi), %rcx
	movq	%rcx, %rdx
	shrq	$62, %rdx
	leaq	(%rcx,%rcx), %rax
	cmpq	%rax, %rbx
	cmovaq	%rbx, %rax
	testq	%rdx, %rdx
	cmoveq	%rax, %rbx
	testq	%rbx, %rbx
	js	.LBB8_6
	testq	%rcx, %rcx
	je	.LBB8_8
	movq	%rdi, %r14
	movq	(%rdi), %rdi
	movl	$1, %ecx
	movq	%rbx, %rdx
	callq	rattle_realloc@PLT
	testb	$1, %al
	je	.LBB8_6
.LBB8_9:
	movq	%rdx, (%r14)
	movq	%rbx, 16(%r14)
	movb	$1, %al
	addq	$8, %rsp
	.cfi_def_cfa_offset 24
	popq	%rbx
	.cfi_def_cfa_offset 16
	popq	%r14
	.cfi_def_cfa_offset 8
	.cfi_restore %rbx
	.cfi_restore %r14
	retq
.LBB8_8:
	.cfi_def_cfa_offset 32
	.cfi_offset %rbx, -24
	.cfi_offset %r14, -16
	movq	%rdi, %r14
	movl	$1, %esi
	movq	%rax, %rdi
	callq	rattle_alloc@PLT
	testb	$1, %al
	jne	.LBB8_9
.LBB8_6:
	xorl	%eax, %eax
	addq	$8, %rsp
	.cfi_def_cfa_offset 24
	popq	%rbx
	.cfi_def_cfa_offset 16
	popq	%r14
	.cfi_def_cfa_offset 8
	.cfi_restore %rbx
	.cfi_restore %r14
	retq
.Lfunc_end8:
	.size	std_alloc.vec.Vec.grow_amortized.05fa32d921161499, .Lfunc_end8-std_alloc.vec.Vec.grow_amortized.05fa32d921161499
	.cfi_endproc

	.section	.rodata.cst16,"aM",@progbits,16
	.p2align	4, 0x0
.LCPI9_0:
	.zero	16,208
.LCPI9_1:
	.zero	16,32
.LCPI9_2:
	.zero	16,159
.LCPI9_3:
	.zero	16,6
.LCPI9_4:
	.zero	16,169
.LCPI9_5:
	.zero	16,9
.LCPI9_6:
	.zero	16,16
.LCPI9_7:
	.short	255
	.short	255
	.short	255
	.short	255
	.short	255
	.short	255
	.short	255
	.short	255
.LCPI9_8:
	.zero	16,240
	.section	.text.line_filter.answers.AnsweringTake.take.19f4c77da892a4d9,"ax",@progbits
	.p2align	4
	.type	line_filter.answers.AnsweringTake.take.19f4c77da892a4d9,@function
line_filter.answers.AnsweringTake.take.19f4c77da892a4d9:
	.cfi_startproc
	pushq	%rbp
	.cfi_def_cfa_offset 16
	pushq	%r15
	.cfi_def_cfa_offset 24
	pushq	%r14
	.cfi_def_cfa_offset 32
	pushq	%r13
	.cfi_def_cfa_offset 40
	pushq	%r12
	.cfi_def_cfa_offset 48
	pushq	%rbx
	.cfi_def_cfa_offset 56
	subq	$88, %rsp
	.cfi_def_cfa_offset 144
	.cfi_offset %rbx, -56
	.cfi_offset %r12, -48
	.cfi_offset %r13, -40
	.cfi_offset %r14, -32
	.cfi_offset %r15, -24
	.cfi_offset %rbp, -16
	movq	%rcx, %r12
	movq	%rdx, %r15
	movq	%rsi, %r14
	movq	%rdi, 8(%rsp)
	movq	%rsi, %rdi
	movq	%rdx, %rsi
	callq	line_filter.words.words_len
	subq	%rax, %r15
	testq	%rax, %rax
	je	.LBB9_24
	movq	8(%r12), %rcx
	movq	16(%r12), %rbp
	movq	%rbp, %rdx
	subq	%rcx, %rdx
	cmpq	%rdx, %rax
	ja	.LBB9_58
.LBB9_2:
	leaq	8(%r12), %rsi
	leaq	(%rcx,%rax), %rbx
	movq	(%r12), %r13
	pxor	%xmm0, %xmm0
	movdqu	%xmm0, (%rsi)
	leaq	(%rcx,%r13), %rdi
	movq	%rdi, %rdx
	subq	%r14, %rdx
	cmpq	%rax, %rdx
	movq	%rsi, 24(%rsp)
	jae	.LBB9_5
	cmpq	$4, %rax
	jb	.LBB9_4
	cmpq	$32, %rdx
	jae	.LBB9_8
.LBB9_4:
	xorl	%edx, %edx
.LBB9_17:
	movq	%rax, %r8
	movq	%rdx, %rsi
	andq	$3, %r8
	je	.LBB9_20
	movq	%rdx, %rsi
	.p2align	4
.LBB9_19:
	movzbl	(%r14,%rsi), %r9d
	movb	%r9b, (%rdi,%rsi)
	incq	%rsi
	decq	%r8
	jne	.LBB9_19
.LBB9_20:
	subq	%rax, %rdx
	cmpq	$-4, %rdx
	ja	.LBB9_23
	addq	%r13, %rcx
	addq	$3, %rcx
	.p2align	4
.LBB9_22:
	movzbl	(%r14,%rsi), %edx
	movb	%dl, -3(%rcx,%rsi)
	movzbl	1(%r14,%rsi), %edx
	movb	%dl, -2(%rcx,%rsi)
	movzbl	2(%r14,%rsi), %edx
	movb	%dl, -1(%rcx,%rsi)
	movzbl	3(%r14,%rsi), %edx
	movb	%dl, (%rcx,%rsi)
	addq	$4, %rsi
	cmpq	%rsi, %rax
	jne	.LBB9_22
	jmp	.LBB9_23
.LBB9_5:
	movq	%r14, %rsi
	movq	%rax, %rdx
	movq	%r12, 16(%rsp)
	movq	%rbx, %r12
	movq	%rax, %rbx
	callq	memmove@PLT
	movq	%rbx, %rax
	movq	%r12, %rbx
	movq	16(%rsp), %r12
.LBB9_23:
	movq	%r13, (%r12)
	movq	%rbx, 8(%r12)
	movq	%rbp, 16(%r12)
	testq	%r15, %r15
	je	.LBB9_52
.LBB9_24:
	addq	%rax, %r14
	cmpq	$3, %r15
	jb	.LBB9_26
	movzbl	(%r14), %eax
	movzbl	1(%r14), %ecx
	xorb	$111, %al
	xorb	$107, %cl
	orb	%al, %cl
	movzbl	2(%r14), %eax
	xorb	$32, %al
	leaq	-3(%r15), %rdx
	xorl	%esi, %esi
	orb	%cl, %al
	sete	%sil
	leaq	(%rsi,%rsi,2), %rax
	cmoveq	%rdx, %r15
	addq	%rax, %r14
.LBB9_26:
	movq	8(%rsp), %rdi
	movq	%r15, %rax
	shrq	%rax
	movq	8(%rdi), %rdx
	movq	%rax, %r13
	subq	%rdx, %r13
	jbe	.LBB9_31
	movq	16(%rdi), %rbp
	movq	%rbp, %rax
	subq	%rdx, %rax
	cmpq	%rax, %r13
	ja	.LBB9_67
.LBB9_28:
	movq	%r12, 16(%rsp)
	leaq	(%rdx,%r13), %rbx
	movq	(%rdi), %r12
	cmpq	%rbx, %rdx
	jae	.LBB9_30
	addq	%r12, %rdx
	movq	%rdx, %rdi
	xorl	%esi, %esi
	movq	%r13, %rdx
	callq	memset@PLT
	movq	8(%rsp), %rdi
.LBB9_30:
	movq	%r12, (%rdi)
	movq	%rbx, 8(%rdi)
	movq	%rbp, 16(%rdi)
	movq	%rbx, %rdx
	movq	16(%rsp), %r12
	jmp	.LBB9_33
.LBB9_31:
	jae	.LBB9_33
	movq	%rax, 8(%rdi)
	movq	%rax, %rdx
.LBB9_33:
	testb	$1, %r15b
	jne	.LBB9_36
	movq	(%rdi), %rsi
	leaq	.Lstatic.15(%rip), %rax
	cmpq	$2, %r15
	jb	.LBB9_39
	movzbl	(%r14), %ecx
	cmpb	$15, (%rcx,%rax)
	jbe	.LBB9_39
.LBB9_36:
	movq	8(%r12), %rax
	movq	16(%r12), %rcx
	movq	%rcx, %rdx
	subq	%rax, %rdx
	cmpq	$6, %rdx
	jbe	.LBB9_65
.LBB9_37:
	movq	(%r12), %rdx
	leaq	(%rdx,%rax), %rsi
	addq	$7, %rax
	leaq	.Lstatic.14(%rip), %rdi
	movq	%rsi, %r8
	subq	%rdi, %r8
	cmpq	$6, %r8
	ja	.LBB9_50
	movl	$1752461166, (%rsi)
	movw	$30821, 4(%rsi)
	movb	$10, 6(%rsi)
	jmp	.LBB9_51
.LBB9_39:
	xorl	%ecx, %ecx
	cmpq	$16, %rdx
	jb	.LBB9_43
	movq	%rdx, %rdi
	.p2align	4
.LBB9_41:
	movdqu	(%r14,%rcx,2), %xmm2
	movdqu	16(%r14,%rcx,2), %xmm0
	movdqa	.LCPI9_0(%rip), %xmm1
	movdqa	%xmm0, %xmm3
	paddb	%xmm1, %xmm3
	paddb	%xmm2, %xmm1
	movdqa	.LCPI9_1(%rip), %xmm4
	por	%xmm4, %xmm2
	por	%xmm4, %xmm0
	movdqa	.LCPI9_2(%rip), %xmm4
	movdqa	%xmm0, %xmm5
	paddb	%xmm4, %xmm5
	paddb	%xmm2, %xmm4
	movdqa	.LCPI9_3(%rip), %xmm6
	movdqa	.LCPI9_4(%rip), %xmm7
	paddb	%xmm7, %xmm0
	paddb	%xmm7, %xmm2
	movdqa	%xmm4, %xmm7
	pmaxub	%xmm6, %xmm7
	pcmpeqb	%xmm4, %xmm7
	por	%xmm2, %xmm7
	pmaxub	%xmm5, %xmm6
	pcmpeqb	%xmm5, %xmm6
	por	%xmm0, %xmm6
	movdqa	.LCPI9_5(%rip), %xmm2
	movdqa	%xmm1, %xmm0
	pminub	%xmm2, %xmm0
	pcmpeqb	%xmm1, %xmm0
	pminub	%xmm3, %xmm2
	pcmpeqb	%xmm3, %xmm2
	pand	%xmm2, %xmm3
	pandn	%xmm6, %xmm2
	por	%xmm3, %xmm2
	pand	%xmm0, %xmm1
	pandn	%xmm7, %xmm0
	por	%xmm1, %xmm0
	movdqa	.LCPI9_6(%rip), %xmm1
	movdqa	%xmm0, %xmm3
	pmaxub	%xmm1, %xmm3
	pcmpeqb	%xmm0, %xmm3
	pmaxub	%xmm2, %xmm1
	pcmpeqb	%xmm2, %xmm1
	por	%xmm3, %xmm1
	pmovmskb	%xmm1, %r8d
	testl	%r8d, %r8d
	jne	.LBB9_43
	movdqa	.LCPI9_7(%rip), %xmm1
	movdqa	%xmm0, %xmm3
	pand	%xmm1, %xmm3
	pand	%xmm2, %xmm1
	packuswb	%xmm1, %xmm3
	psrlw	$8, %xmm0
	psrlw	$8, %xmm2
	packuswb	%xmm2, %xmm0
	psllw	$4, %xmm3
	pand	.LCPI9_8(%rip), %xmm3
	por	%xmm0, %xmm3
	movdqu	%xmm3, (%rsi,%rcx)
	addq	$16, %rcx
	addq	$-16, %rdi
	cmpq	$15, %rdi
	ja	.LBB9_41
.LBB9_43:
	cmpq	%rdx, %rcx
	jae	.LBB9_46
	.p2align	4
.LBB9_44:
	movzbl	(%r14,%rcx,2), %edi
	movzbl	(%rdi,%rax), %edi
	movzbl	1(%r14,%rcx,2), %r8d
	movzbl	(%r8,%rax), %r8d
	movl	%r8d, %r9d
	orb	%dil, %r9b
	cmpb	$15, %r9b
	ja	.LBB9_36
	shlb	$4, %dil
	orb	%dil, %r8b
	movb	%r8b, (%rsi,%rcx)
	incq	%rcx
	cmpq	%rcx, %rdx
	jne	.LBB9_44
.LBB9_46:
	pxor	%xmm0, %xmm0
	movdqa	%xmm0, 64(%rsp)
	movdqa	%xmm0, 48(%rsp)
	movdqa	%xmm0, 32(%rsp)
	movq	$0, 80(%rsp)
	leaq	32(%rsp), %rdi
	callq	link_msg.encoding.canonical
	movq	40(%rsp), %r14
	cmpb	$0, 32(%rsp)
	je	.LBB9_56
	movb	$1, %al
	movzbl	%r14b, %ecx
	leaq	.LJTI9_0(%rip), %rdx
	movslq	(%rdx,%rcx,4), %rcx
	addq	%rdx, %rcx
	jmpq	*%rcx
.LBB9_48:
	movq	8(%r12), %rax
	movq	16(%r12), %rcx
	movq	%rcx, %rdx
	subq	%rax, %rdx
	cmpq	$7, %rdx
	jbe	.LBB9_76
.LBB9_49:
	movq	(%r12), %rdx
	movabsq	$748834984615634290, %rsi
	movq	%rsi, (%rdx,%rax)
	addq	$8, %rax
	jmp	.LBB9_51
.LBB9_50:
	movl	$175662440, 3(%rsi)
	movl	$1752461166, (%rsi)
.LBB9_51:
	movq	%rdx, (%r12)
	movq	%rax, 8(%r12)
	movq	%rcx, 16(%r12)
	jmp	.LBB9_54
.LBB9_52:
	cmpq	%rbx, %rbp
	je	.LBB9_70
.LBB9_53:
	movb	$10, (%r13,%rbx)
	incq	%rbx
	movq	24(%rsp), %rax
	movq	%rbx, (%rax)
.LBB9_54:
	xorl	%eax, %eax
.LBB9_55:
	addq	$88, %rsp
	.cfi_def_cfa_offset 56
	popq	%rbx
	.cfi_def_cfa_offset 48
	popq	%r12
	.cfi_def_cfa_offset 40
	popq	%r13
	.cfi_def_cfa_offset 32
	popq	%r14
	.cfi_def_cfa_offset 24
	popq	%r15
	.cfi_def_cfa_offset 16
	popq	%rbp
	.cfi_def_cfa_offset 8
	retq
.LBB9_56:
	.cfi_def_cfa_offset 144
	movq	48(%rsp), %r15
	movq	56(%rsp), %rbx
	movq	%r14, %rdi
	movq	%r15, %rsi
	callq	link_state.state_encoding.clear_message
	movq	%r12, %rdi
	movq	%r14, %rsi
	movq	%r15, %rdx
	callq	message_lines.answers.push_text
	testq	%rbx, %rbx
	je	.LBB9_55
	movq	%r14, %rdi
	movl	%eax, %ebx
	callq	rattle_dealloc@PLT
	movl	%ebx, %eax
	jmp	.LBB9_55
.LBB9_8:
	cmpq	$32, %rax
	jae	.LBB9_10
	xorl	%edx, %edx
	jmp	.LBB9_14
.LBB9_10:
	movq	%rax, %rdx
	andq	$-32, %rdx
	leaq	(%rcx,%r13), %rsi
	addq	$16, %rsi
	xorl	%r8d, %r8d
	.p2align	4
.LBB9_11:
	movdqu	(%r14,%r8), %xmm0
	movdqu	16(%r14,%r8), %xmm1
	movdqu	%xmm0, -16(%rsi,%r8)
	movdqu	%xmm1, (%rsi,%r8)
	addq	$32, %r8
	cmpq	%r8, %rdx
	jne	.LBB9_11
	cmpq	%rdx, %rax
	je	.LBB9_23
	testb	$28, %al
	je	.LBB9_17
.LBB9_14:
	movq	%rdx, %rsi
	movq	%rax, %rdx
	andq	$-4, %rdx
	.p2align	4
.LBB9_15:
	movl	(%r14,%rsi), %r8d
	movl	%r8d, (%rdi,%rsi)
	addq	$4, %rsi
	cmpq	%rsi, %rdx
	jne	.LBB9_15
	cmpq	%rdx, %rax
	je	.LBB9_23
	jmp	.LBB9_17
.LBB9_58:
	movq	%r12, %rdi
	movq	%rax, %rbx
	movq	%rax, %rsi
	callq	std_alloc.vec.Vec.grow_amortized.05fa32d921161499
	movl	%eax, %ecx
	movb	$1, %al
	testb	%cl, %cl
	je	.LBB9_55
	movq	8(%r12), %rcx
	movq	16(%r12), %rbp
	movq	%rbx, %rax
	jmp	.LBB9_2
.LBB9_60:
	movq	8(%r12), %rax
	movq	16(%r12), %rcx
	movq	%rcx, %rdx
	subq	%rax, %rdx
	cmpq	$5, %rdx
	jbe	.LBB9_72
.LBB9_61:
	movq	(%r12), %rdx
	leaq	(%rdx,%rax), %rsi
	addq	$6, %rax
	leaq	.Lstatic.17(%rip), %rdi
	movq	%rsi, %r8
	subq	%rdi, %r8
	cmpq	$5, %r8
	ja	.LBB9_69
	movl	$1768320629, (%rsi)
	movw	$2676, 4(%rsi)
	jmp	.LBB9_51
.LBB9_63:
	movq	8(%r12), %rax
	movq	16(%r12), %rcx
	movq	%rcx, %rdx
	subq	%rax, %rdx
	cmpq	$11, %rdx
	jbe	.LBB9_74
.LBB9_64:
	movq	(%r12), %rdx
	leaq	(%rdx,%rax), %rsi
	addq	$12, %rax
	leaq	.Lstatic.18(%rip), %rdi
	movq	%rsi, %r8
	subq	%rdi, %r8
	cmpq	$11, %r8
	movabsq	$8029968135269412197, %rdi
	movq	%rdi, (%rsi)
	movl	$175338610, 8(%rsi)
	jmp	.LBB9_51
.LBB9_65:
	movl	$7, %esi
	movq	%r12, %rdi
	callq	std_alloc.vec.Vec.grow_amortized.05fa32d921161499
	movl	%eax, %ecx
	movb	$1, %al
	testb	%cl, %cl
	je	.LBB9_55
	movq	8(%r12), %rax
	movq	16(%r12), %rcx
	jmp	.LBB9_37
.LBB9_67:
	movq	%r13, %rsi
	callq	std_alloc.vec.Vec.grow_amortized.05fa32d921161499
	movl	%eax, %ecx
	movb	$1, %al
	testb	%cl, %cl
	je	.LBB9_55
	movq	8(%rsp), %rdi
	movq	8(%rdi), %rdx
	movq	16(%rdi), %rbp
	jmp	.LBB9_28
.LBB9_69:
	movw	$2676, 4(%rsi)
	movl	$1768320629, (%rsi)
	jmp	.LBB9_51
.LBB9_70:
	movl	$1, %esi
	movq	%r12, %rdi
	callq	std_alloc.vec.Vec.grow_amortized.05fa32d921161499
	movl	%eax, %ecx
	movb	$1, %al
	testb	%cl, %cl
	je	.LBB9_55
	movq	(%r12), %r13
	movq	8(%r12), %rbx
	jmp	.LBB9_53
.LBB9_72:
	movl	$6, %esi
	movq	%r12, %rdi
	callq	std_alloc.vec.Vec.grow_amortized.05fa32d921161499
	movl	%eax, %ecx
	movb	$1, %al
	testb	%cl, %cl
	je	.LBB9_55
	movq	8(%r12), %rax
	movq	16(%r12), %rcx
	jmp	.LBB9_61
.LBB9_74:
	movl	$12, %esi
	movq	%r12, %rdi
	callq	std_alloc.vec.Vec.grow_amortized.05fa32d921161499
	movl	%eax, %ecx
	movb	$1, %al
	testb	%cl, %cl
	je	.LBB9_55
	movq	8(%r12), %rax
	movq	16(%r12), %rcx
	jmp	.LBB9_64
.LBB9_76:
	movl	$8, %esi
	movq	%r12, %rdi
	callq	std_alloc.vec.Vec.grow_amortized.05fa32d921161499
	movl	%eax, %ecx
	movb	$1, %al
	testb	%cl, %cl
	je	.LBB9_55
	movq	8(%r12), %rax
	movq	16(%r12), %rcx
	jmp	.LBB9_49
.Lfunc_end9:
	.size	line_filter.answers.AnsweringTake.take.19f4c77da892a4d9, .Lfunc_end9-line_filter.answers.AnsweringTake.take.19f4c77da892a4d9
	.cfi_endproc
	.section	.rodata.line_filter.answers.AnsweringTake.take.19f4c77da892a4d9,"a",@progbits
	.p2align	2, 0x0
.LJTI9_0:
	.long	.LBB9_48-.LJTI9_0
	.long	.LBB9_60-.LJTI9_0
	.long	.LBB9_63-.LJTI9_0
	.long	.LBB9_55-.LJTI9_0

	.section	.rodata.cst16,"aM",@progbits,16
	.p2align	4, 0x0
.LCPI10_0:
	.zero	16,32
.LCPI10_1:
	.zero	16,9
	.section	.text.line_filter.words.words_len,"ax",@progbits
	.p2align	4
	.type	line_filter.words.words_len,@function
line_filter.words.words_len:
	.cfi_startproc
	pushq	%rbp
	.cfi_def_cfa_offset 16
	pushq	%r15
	.cfi_def_cfa_offset 24
	pushq	%r14
	.cfi_def_cfa_offset 32
	pushq	%r13
	.cfi_def_cfa_offset 40
	pushq	%r12
	.cfi_def_cfa_offset 48
	pushq	%rbx
	.cfi_def_cfa_offset 56
	subq	$584, %rsp
	.cfi_def_cfa_offset 640
	.cfi_offset %rbx, -56
	.cfi_offset %r12, -48
	.cfi_offset %r13, -40
	.cfi_offset %r14, -32
	.cfi_offset %r15, -24
	.cfi_offset %rbp, -16
	movq	%rsi, %rbx
	movq	%rdi, %r14
	movl	$61, %edi
	movq	%r14, %rsi
	movq	%rbx, %rdx
	callq	memchr.bytes.memchr
	cmpb	$1, %al
	jne	.LBB10_56
	xorl	%edi, %edi
	movq	%rbx, %rbp
	movq	%r14, %r15
	movq	%rbx, 344(%rsp)
	movq	%r14, 336(%rsp)
	jmp	.LBB10_4
	.p2align	4
.LBB10_2:
	movq	%rbp, %rax
.LBB10_3:
	addq	%rdi, %r13
	addq	%rax, %r13
	leaq	(%r14,%r13), %r15
	movq	%rbx, %rbp
	subq	%r13, %rbp
	movl	$61, %edi
	movq	%r15, %rsi
	movq	%rbp, %rdx
	callq	memchr.bytes.memchr
	movq	%r13, %rdi
	cmpb	$1, %al
	jne	.LBB10_57
.LBB10_4:
	cmpq	$32, %rbp
	jae	.LBB10_18
	testq	%rbp, %rbp
	je	.LBB10_58
	xorl	%r13d, %r13d
	.p2align	4
.LBB10_7:
	movzbl	(%r15,%r13), %eax
	cmpl	$9, %eax
	je	.LBB10_11
	cmpl	$32, %eax
	je	.LBB10_11
	incq	%r13
	cmpq	%r13, %rbp
	jne	.LBB10_7
.LBB10_10:
	movq	%rbp, %r13
	.p2align	4
.LBB10_11:
	testq	%rdx, %rdx
	je	.LBB10_58
	cmpq	%rdx, %r13
	jbe	.LBB10_58
	subq	%r13, %rbp
	je	.LBB10_55
	addq	%r13, %r15
	xorl	%eax, %eax
	jmp	.LBB10_16
	.p2align	4
.LBB10_15:
	incq	%rax
	cmpq	%rax, %rbp
	je	.LBB10_2
.LBB10_16:
	movzbl	(%r15,%rax), %ecx
	cmpl	$32, %ecx
	je	.LBB10_15
	cmpl	$9, %ecx
	je	.LBB10_15
	jmp	.LBB10_3
	.p2align	4
.LBB10_18:
	leaq	-64(%rbp), %r9
	xorl	%eax, %eax
.LBB10_19:
	movq	%rbp, %rcx
	subq	%rax, %rcx
	cmpq	$191, %rcx
	jbe	.LBB10_26
	movdqa	.LCPI10_0(%rip), %xmm0
	movdqu	(%r15,%rax), %xmm4
	movdqu	16(%r15,%rax), %xmm5
	movdqu	32(%r15,%rax), %xmm3
	movdqu	48(%r15,%rax), %xmm2
	movdqa	%xmm4, %xmm6
	pcmpeqb	%xmm0, %xmm6
	movdqa	%xmm5, %xmm7
	pcmpeqb	%xmm0, %xmm7
	movdqa	.LCPI10_1(%rip), %xmm1
	pcmpeqb	%xmm1, %xmm4
	por	%xmm6, %xmm4
	pcmpeqb	%xmm1, %xmm5
	por	%xmm7, %xmm5
	movdqa	%xmm3, %xmm6
	pcmpeqb	%xmm0, %xmm6
	movdqa	%xmm2, %xmm7
	pcmpeqb	%xmm0, %xmm7
	pcmpeqb	%xmm1, %xmm3
	por	%xmm6, %xmm3
	pcmpeqb	%xmm1, %xmm2
	por	%xmm7, %xmm2
	pmovmskb	%xmm4, %ecx
	pmovmskb	%xmm5, %esi
	shll	$16, %esi
	orl	%ecx, %esi
	pmovmskb	%xmm3, %ecx
	shlq	$32, %rcx
	orq	%rsi, %rcx
	pmovmskb	%xmm2, %r8d
	shlq	$48, %r8
	leaq	64(%rax), %r10
	orq	%rcx, %r8
	jne	.LBB10_47
	movq	%rbp, %rcx
	subq	%r10, %rcx
	cmpq	$128, %rcx
	jb	.LBB10_34
	movq	%r9, 352(%rsp)
	movq	%rdx, 360(%rsp)
	movq	%rbp, 368(%rsp)
	movq	%rdi, 376(%rsp)
	subq	$-128, %rax
	movq	%r15, 384(%rsp)
	.p2align	4
.LBB10_23:
	movq	%rcx, 320(%rsp)
	movdqu	-64(%r15,%rax), %xmm3
	movdqu	-48(%r15,%rax), %xmm2
	movdqu	-32(%r15,%rax), %xmm4
	movdqu	-16(%r15,%rax), %xmm5
	movdqa	%xmm3, %xmm6
	pcmpeqb	%xmm0, %xmm6
	movdqa	%xmm2, %xmm7
	pcmpeqb	%xmm0, %xmm7
	pcmpeqb	%xmm1, %xmm3
	por	%xmm6, %xmm3
	pcmpeqb	%xmm1, %xmm2
	por	%xmm7, %xmm2
	movdqa	%xmm2, 80(%rsp)
	movdqa	%xmm3, 176(%rsp)
	movzbl	95(%rsp), %ecx
	movb	%cl, 480(%rsp)
	movzbl	94(%rsp), %ecx
	movb	%cl, 464(%rsp)
	movzbl	93(%rsp), %ecx
	movb	%cl, 448(%rsp)
	movzbl	92(%rsp), %ecx
	movb	%cl, 560(%rsp)
	movzbl	91(%rsp), %ecx
	movb	%cl, 432(%rsp)
	movzbl	90(%rsp), %ecx
	movb	%cl, 544(%rsp)
	movzbl	89(%rsp), %ecx
	movb	%cl, 63(%rsp)
	movzbl	88(%rsp), %ecx
	movb	%cl, 62(%rsp)
	movzbl	87(%rsp), %ecx
	movb	%cl, 528(%rsp)
	movzbl	86(%rsp), %ecx
	movb	%cl, 61(%rsp)
	movzbl	85(%rsp), %ecx
	movb	%cl, 60(%rsp)
	movzbl	84(%rsp), %ecx
	movb	%cl, 59(%rsp)
	movzbl	83(%rsp), %ecx
	movb	%cl, 512(%rsp)
	movzbl	82(%rsp), %ecx
	movb	%cl, 58(%rsp)
	movzbl	80(%rsp), %ecx
	movb	%cl, 56(%rsp)
	movzbl	81(%rsp), %ecx
	movb	%cl, 57(%rsp)
	movzbl	191(%rsp), %ecx
	movb	%cl, 496(%rsp)
	movdqa	%xmm4, %xmm6
	pcmpeqb	%xmm0, %xmm6
	movdqa	%xmm5, %xmm7
	pcmpeqb	%xmm0, %xmm7
	pcmpeqb	%xmm1, %xmm4
	por	%xmm6, %xmm4
	pcmpeqb	%xmm1, %xmm5
	por	%xmm7, %xmm5
	movzbl	190(%rsp), %ecx
	movb	%cl, 316(%rsp)
	movzbl	189(%rsp), %ecx
	movb	%cl, 312(%rsp)
	movzbl	188(%rsp), %ecx
	movb	%cl, 308(%rsp)
	movzbl	187(%rsp), %ecx
	movb	%cl, 416(%rsp)
	movzbl	186(%rsp), %ecx
	movb	%cl, 400(%rsp)
	movzbl	185(%rsp), %ecx
	movb	%cl, 55(%rsp)
	movzbl	184(%rsp), %ecx
	movb	%cl, 54(%rsp)
	movzbl	183(%rsp), %ecx
	movb	%cl, 53(%rsp)
	movzbl	182(%rsp), %ecx
	movb	%cl, 52(%rsp)
	movzbl	181(%rsp), %ecx
	movb	%cl, 51(%rsp)
	movzbl	180(%rsp), %ecx
	movb	%cl, 50(%rsp)
	movzbl	179(%rsp), %ecx
	movb	%cl, 49(%rsp)
	movzbl	178(%rsp), %ecx
	movb	%cl, 48(%rsp)
	movzbl	176(%rsp), %ecx
	movb	%cl, 46(%rsp)
	movzbl	177(%rsp), %ecx
	movb	%cl, 47(%rsp)
	movdqa	%xmm5, 96(%rsp)
	movdqa	%xmm4, 160(%rsp)
	movdqu	16(%r15,%rax), %xmm6
	movdqu	(%r15,%rax), %xmm7
	movdqa	%xmm7, %xmm8
	pcmpeqb	%xmm0, %xmm8
	movdqa	%xmm6, %xmm9
	pcmpeqb	%xmm0, %xmm9
	pcmpeqb	%xmm1, %xmm7
	por	%xmm8, %xmm7
	pcmpeqb	%xmm1, %xmm6
	por	%xmm9, %xmm6
	movzbl	111(%rsp), %ecx
	movb	%cl, 268(%rsp)
	movzbl	110(%rsp), %ecx
	movb	%cl, 260(%rsp)
	movzbl	109(%rsp), %ecx
	movb	%cl, 252(%rsp)
	movzbl	108(%rsp), %ecx
	movb	%cl, 244(%rsp)
	movzbl	107(%rsp), %ecx
	movb	%cl, 232(%rsp)
	movzbl	106(%rsp), %ecx
	movb	%cl, 228(%rsp)
	movq	%rax, %rcx
	movzbl	105(%rsp), %eax
	movb	%al, 224(%rsp)
	movzbl	104(%rsp), %eax
	movb	%al, 220(%rsp)
	movzbl	103(%rsp), %eax
	movb	%al, 216(%rsp)
	movzbl	102(%rsp), %eax
	movb	%al, 212(%rsp)
	movzbl	101(%rsp), %eax
	movb	%al, 208(%rsp)
	movzbl	100(%rsp), %eax
	movb	%al, 204(%rsp)
	movzbl	99(%rsp), %eax
	movb	%al, 200(%rsp)
	movzbl	98(%rsp), %eax
	movb	%al, 196(%rsp)
	movzbl	96(%rsp), %eax
	movb	%al, 192(%rsp)
	movzbl	97(%rsp), %eax
	movb	%al, 43(%rsp)
	movzbl	175(%rsp), %eax
	movb	%al, 45(%rsp)
	movzbl	174(%rsp), %eax
	movb	%al, 44(%rsp)
	movzbl	173(%rsp), %eax
	movb	%al, 304(%rsp)
	movzbl	172(%rsp), %eax
	movb	%al, 300(%rsp)
	movzbl	171(%rsp), %eax
	movb	%al, 296(%rsp)
	movzbl	170(%rsp), %eax
	movb	%al, 292(%rsp)
	movzbl	169(%rsp), %eax
	movb	%al, 288(%rsp)
	movzbl	168(%rsp), %eax
	movb	%al, 284(%rsp)
	movzbl	167(%rsp), %eax
	movb	%al, 280(%rsp)
	movzbl	166(%rsp), %eax
	movb	%al, 276(%rsp)
	movzbl	165(%rsp), %eax
	movb	%al, 272(%rsp)
	movzbl	164(%rsp), %eax
	movb	%al, 264(%rsp)
	movzbl	163(%rsp), %eax
	movb	%al, 256(%rsp)
	movzbl	162(%rsp), %eax
	movb	%al, 248(%rsp)
	movzbl	160(%rsp), %eax
	movb	%al, 236(%rsp)
	movzbl	161(%rsp), %eax
	movb	%al, 240(%rsp)
	movdqa	%xmm6, 128(%rsp)
	movdqa	%xmm7, 64(%rsp)
	movdqu	48(%r15,%rcx), %xmm8
	movq	%rcx, 392(%rsp)
	movdqu	32(%r15,%rcx), %xmm9
	movdqa	%xmm9, %xmm10
	pcmpeqb	%xmm0, %xmm10
	movdqa	%xmm8, %xmm11
	pcmpeqb	%xmm0, %xmm11
	pcmpeqb	%xmm1, %xmm9
	por	%xmm10, %xmm9
	pcmpeqb	%xmm1, %xmm8
	por	%xmm11, %xmm8
	movzbl	143(%rsp), %eax
	movb	%al, 42(%rsp)
	movzbl	142(%rsp), %eax
	movb	%al, 41(%rsp)
	movzbl	141(%rsp), %eax
	movb	%al, 40(%rsp)
	movzbl	140(%rsp), %eax
	movb	%al, 39(%rsp)
	movzbl	139(%rsp), %eax
	movb	%al, 38(%rsp)
	movzbl	138(%rsp), %eax
	movb	%al, 37(%rsp)
	movzbl	137(%rsp), %eax
	movb	%al, 36(%rsp)
	movzbl	136(%rsp), %eax
	movb	%al, 35(%rsp)
	movzbl	135(%rsp), %eax
	movb	%al, 34(%rsp)
	movzbl	134(%rsp), %eax
	movb	%al, 33(%rsp)
	movzbl	133(%rsp), %eax
	movb	%al, 32(%rsp)
	movzbl	132(%rsp), %eax
	movb	%al, 31(%rsp)
	movzbl	131(%rsp), %eax
	movb	%al, 30(%rsp)
	movzbl	130(%rsp), %eax
	movb	%al, 29(%rsp)
	movzbl	128(%rsp), %eax
	movb	%al, 27(%rsp)
	movzbl	129(%rsp), %eax
	movb	%al, 28(%rsp)
	movzbl	79(%rsp), %eax
	movb	%al, 26(%rsp)
	movzbl	78(%rsp), %eax
	movb	%al, 25(%rsp)
	movzbl	77(%rsp), %r8d
	movzbl	76(%rsp), %esi
	movzbl	75(%rsp), %ebx
	movzbl	74(%rsp), %ecx
	movzbl	73(%rsp), %r14d
	movzbl	72(%rsp), %edx
	movzbl	71(%rsp), %r15d
	movzbl	70(%rsp), %r12d
	movzbl	69(%rsp), %r9d
	movzbl	68(%rsp), %r13d
	movzbl	67(%rsp), %r10d
	movzbl	66(%rsp), %r11d
	movzbl	64(%rsp), %eax
	movzbl	65(%rsp), %ebp
	movdqa	%xmm8, 112(%rsp)
	movdqa	%xmm9, 144(%rsp)
	por	%xmm7, %xmm9
	por	%xmm6, %xmm8
	por	%xmm5, %xmm8
	por	%xmm4, %xmm9
	por	%xmm3, %xmm9
	por	%xmm2, %xmm8
	por	%xmm9, %xmm8
	pmovmskb	%xmm8, %edi
	testl	%edi, %edi
	jne	.LBB10_51
	movq	392(%rsp), %rax
	subq	$-128, %rax
	movq	320(%rsp), %rcx
	addq	$-128, %rcx
	cmpq	$127, %rcx
	movq	384(%rsp), %r15
	ja	.LBB10_23
	addq	$-64, %rax
	movq	344(%rsp), %rbx
	movq	336(%rsp), %r14
	movq	376(%rsp), %rdi
	movq	368(%rsp), %rbp
	movq	360(%rsp), %rdx
	movq	352(%rsp), %r9
	cmpq	$32, %rcx
	jae	.LBB10_35
	jmp	.LBB10_38
	.p2align	4
.LBB10_26:
	cmpq	$64, %rcx
	jb	.LBB10_40
	.p2align	4
.LBB10_27:
	movdqu	(%r15,%rax), %xmm4
	movdqu	16(%r15,%rax), %xmm5
	movdqu	32(%r15,%rax), %xmm3
	movdqu	48(%r15,%rax), %xmm2
	movdqa	.LCPI10_0(%rip), %xmm0
	movdqa	%xmm4, %xmm6
	pcmpeqb	%xmm0, %xmm6
	movdqa	%xmm5, %xmm7
	pcmpeqb	%xmm0, %xmm7
	movdqa	.LCPI10_1(%rip), %xmm1
	movdqa	%xmm4, %xmm8
	pcmpeqb	%xmm1, %xmm8
	por	%xmm6, %xmm8
	movdqa	%xmm5, %xmm6
	pcmpeqb	%xmm1, %xmm6
	por	%xmm7, %xmm6
	movdqa	%xmm3, %xmm7
	pcmpeqb	%xmm0, %xmm7
	movdqa	%xmm2, %xmm9
	pcmpeqb	%xmm0, %xmm9
	movdqa	%xmm3, %xmm10
	pcmpeqb	%xmm1, %xmm10
	por	%xmm7, %xmm10
	por	%xmm8, %xmm10
	movdqa	%xmm2, %xmm7
	pcmpeqb	%xmm1, %xmm7
	por	%xmm9, %xmm7
	por	%xmm6, %xmm7
	por	%xmm10, %xmm7
	pmovmskb	%xmm7, %esi
	testl	%esi, %esi
	jne	.LBB10_29
	addq	$64, %rax
	addq	$-64, %rcx
	cmpq	$63, %rcx
	ja	.LBB10_27
	jmp	.LBB10_40
.LBB10_29:
	cmpq	$64, %rcx
	jb	.LBB10_40
.LBB10_30:
	movdqa	%xmm4, %xmm6
	pcmpeqb	%xmm0, %xmm6
	movdqa	%xmm5, %xmm7
	pcmpeqb	%xmm0, %xmm7
	pcmpeqb	%xmm1, %xmm4
	por	%xmm6, %xmm4
	pcmpeqb	%xmm1, %xmm5
	por	%xmm7, %xmm5
	movdqa	%xmm3, %xmm6
	pcmpeqb	%xmm0, %xmm6
	movdqa	%xmm2, %xmm7
	pcmpeqb	%xmm0, %xmm7
	pcmpeqb	%xmm1, %xmm3
	por	%xmm6, %xmm3
	pcmpeqb	%xmm1, %xmm2
	por	%xmm7, %xmm2
	pmovmskb	%xmm4, %ecx
	pmovmskb	%xmm5, %esi
	shll	$16, %esi
	orl	%ecx, %esi
	pmovmskb	%xmm3, %ecx
	shlq	$32, %rcx
	orq	%rsi, %rcx
	pmovmskb	%xmm2, %r8d
	shlq	$48, %r8
	orq	%rcx, %r8
	jne	.LBB10_54
	movq	%r9, %rcx
	subq	%rax, %rcx
	.p2align	4
.LBB10_32:
	cmpq	$64, %rcx
	jb	.LBB10_39
	movdqu	64(%r15,%rax), %xmm4
	movdqu	80(%r15,%rax), %xmm5
	movdqu	96(%r15,%rax), %xmm3
	movdqu	112(%r15,%rax), %xmm2
	movdqa	%xmm4, %xmm6
	pcmpeqb	%xmm0, %xmm6
	movdqa	%xmm5, %xmm7
	pcmpeqb	%xmm0, %xmm7
	movdqa	%xmm4, %xmm8
	pcmpeqb	%xmm1, %xmm8
	por	%xmm6, %xmm8
	movdqa	%xmm5, %xmm6
	pcmpeqb	%xmm1, %xmm6
	por	%xmm7, %xmm6
	movdqa	%xmm3, %xmm7
	pcmpeqb	%xmm0, %xmm7
	movdqa	%xmm2, %xmm9
	pcmpeqb	%xmm0, %xmm9
	movdqa	%xmm3, %xmm10
	pcmpeqb	%xmm1, %xmm10
	por	%xmm7, %xmm10
	por	%xmm8, %xmm10
	movdqa	%xmm2, %xmm7
	pcmpeqb	%xmm1, %xmm7
	por	%xmm9, %xmm7
	por	%xmm6, %xmm7
	por	%xmm10, %xmm7
	pmovmskb	%xmm7, %esi
	addq	$-64, %rcx
	addq	$64, %rax
	testl	%esi, %esi
	je	.LBB10_32
	jmp	.LBB10_30
.LBB10_34:
	movq	%r10, %rax
	cmpq	$32, %rcx
	jb	.LBB10_38
.LBB10_35:
	movq	%rbp, %rcx
	subq	%rax, %rcx
	.p2align	4
.LBB10_36:
	movdqu	(%r15,%rax), %xmm2
	movdqu	16(%r15,%rax), %xmm3
	movdqa	%xmm2, %xmm4
	pcmpeqb	%xmm0, %xmm4
	movdqa	%xmm3, %xmm5
	pcmpeqb	%xmm0, %xmm5
	pcmpeqb	%xmm1, %xmm2
	por	%xmm4, %xmm2
	pcmpeqb	%xmm1, %xmm3
	por	%xmm5, %xmm3
	pmovmskb	%xmm2, %esi
	pmovmskb	%xmm3, %r8d
	shll	$16, %r8d
	orl	%esi, %r8d
	jne	.LBB10_46
	addq	$-32, %rcx
	addq	$32, %rax
	cmpq	$31, %rcx
	ja	.LBB10_36
.LBB10_38:
	movdqu	-32(%r14,%rbx), %xmm2
	movdqu	-16(%r14,%rbx), %xmm3
	movdqa	%xmm2, %xmm4
	pcmpeqb	%xmm0, %xmm4
	pcmpeqb	%xmm3, %xmm0
	pcmpeqb	%xmm1, %xmm2
	por	%xmm4, %xmm2
	pcmpeqb	%xmm1, %xmm3
	por	%xmm0, %xmm3
	pmovmskb	%xmm2, %ecx
	pmovmskb	%xmm3, %r8d
	jmp	.LBB10_45
.LBB10_39:
	addq	$64, %rax
	.p2align	4
.LBB10_40:
	cmpq	$32, %rcx
	jb	.LBB10_44
	movq	%rbp, %rcx
	subq	%rax, %rcx
	.p2align	4
.LBB10_42:
	movdqu	(%r15,%rax), %xmm0
	movdqu	16(%r15,%rax), %xmm1
	movdqa	.LCPI10_0(%rip), %xmm2
	movdqa	%xmm0, %xmm3
	pcmpeqb	%xmm2, %xmm3
	pcmpeqb	%xmm1, %xmm2
	movdqa	.LCPI10_1(%rip), %xmm4
	pcmpeqb	%xmm4, %xmm0
	por	%xmm3, %xmm0
	pcmpeqb	%xmm4, %xmm1
	por	%xmm2, %xmm1
	pmovmskb	%xmm0, %esi
	pmovmskb	%xmm1, %r8d
	shll	$16, %r8d
	orl	%esi, %r8d
	jne	.LBB10_46
	addq	$-32, %rcx
	addq	$32, %rax
	cmpq	$31, %rcx
	ja	.LBB10_42
.LBB10_44:
	movdqu	-32(%r14,%rbx), %xmm0
	movdqu	-16(%r14,%rbx), %xmm1
	movdqa	.LCPI10_0(%rip), %xmm2
	movdqa	%xmm0, %xmm3
	pcmpeqb	%xmm2, %xmm3
	pcmpeqb	%xmm1, %xmm2
	movdqa	.LCPI10_1(%rip), %xmm4
	pcmpeqb	%xmm4, %xmm0
	por	%xmm3, %xmm0
	pcmpeqb	%xmm4, %xmm1
	por	%xmm2, %xmm1
	pmovmskb	%xmm0, %ecx
	pmovmskb	%xmm1, %r8d
.LBB10_45:
	shll	$16, %r8d
	orl	%ecx, %r8d
	movl	%eax, %ecx
	subl	%ebp, %ecx
	addb	$32, %cl
	shrq	%cl, %r8
	movq	%rbp, %rcx
	movq	%rcx, %r10
	testq	%r8, %r8
	jne	.LBB10_47
	jmp	.LBB10_50
.LBB10_46:
	movl	%r8d, %r8d
	leaq	32(%rax), %r10
	.p2align	4
.LBB10_47:
	rep		bsfq	%r8, %rcx
	leaq	(%rcx,%rax), %r13
	movzbl	(%r15,%r13), %esi
	cmpl	$9, %esi
	je	.LBB10_11
	cmpl	$32, %esi
	je	.LBB10_11
	movq	$-2, %rsi
	rolq	%cl, %rsi
	andq	%rsi, %r8
	jne	.LBB10_47
.LBB10_50:
	movq	%r10, %rax
	cmpq	%rbp, %r10
	jb	.LBB10_19
	jmp	.LBB10_10
.LBB10_51:
	movb	%al, 11(%rsp)
	movb	%bpl, 12(%rsp)
	movb	%r11b, 13(%rsp)
	movb	%r10b, 14(%rsp)
	movb	%r13b, 15(%rsp)
	movb	%r9b, 16(%rsp)
	movb	%r12b, 17(%rsp)
	movb	%r15b, 18(%rsp)
	movb	%dl, 19(%rsp)
	movb	%r14b, 20(%rsp)
	movb	%cl, 21(%rsp)
	movb	%bl, 22(%rsp)
	movb	%sil, 23(%rsp)
	movb	%r8b, 24(%rsp)
	movzbl	192(%rsp), %eax
	movl	%eax, 192(%rsp)
	movzbl	43(%rsp), %eax
	movl	%eax, 320(%rsp)
	movzbl	196(%rsp), %eax
	movl	%eax, 196(%rsp)
	movzbl	200(%rsp), %eax
	movl	%eax, 200(%rsp)
	movzbl	204(%rsp), %eax
	movl	%eax, 204(%rsp)
	movzbl	208(%rsp), %eax
	movl	%eax, 208(%rsp)
	movzbl	212(%rsp), %eax
	movl	%eax, 212(%rsp)
	movzbl	216(%rsp), %eax
	movl	%eax, 216(%rsp)
	movzbl	220(%rsp), %eax
	movl	%eax, 220(%rsp)
	movzbl	224(%rsp), %eax
	movl	%eax, 224(%rsp)
	movzbl	228(%rsp), %eax
	movl	%eax, 228(%rsp)
	movzbl	232(%rsp), %eax
	movl	%eax, 232(%rsp)
	movzbl	244(%rsp), %eax
	movl	%eax, 244(%rsp)
	movzbl	252(%rsp), %eax
	movl	%eax, 252(%rsp)
	movzbl	260(%rsp), %eax
	movl	%eax, 260(%rsp)
	movzbl	268(%rsp), %eax
	movl	%eax, 268(%rsp)
	movzbl	236(%rsp), %eax
	movl	%eax, 236(%rsp)
	movzbl	240(%rsp), %eax
	movl	%eax, 240(%rsp)
	movzbl	248(%rsp), %eax
	movl	%eax, 248(%rsp)
	movzbl	256(%rsp), %eax
	movl	%eax, 256(%rsp)
	movzbl	264(%rsp), %eax
	movl	%eax, 264(%rsp)
	movzbl	272(%rsp), %eax
	movl	%eax, 272(%rsp)
	movzbl	276(%rsp), %eax
	movl	%eax, 276(%rsp)
	movzbl	280(%rsp), %eax
	movl	%eax, 280(%rsp)
	movzbl	284(%rsp), %eax
	movl	%eax, 284(%rsp)
	movzbl	288(%rsp), %eax
	movl	%eax, 288(%rsp)
	movzbl	292(%rsp), %eax
	movl	%eax, 292(%rsp)
	movzbl	296(%rsp), %eax
	movl	%eax, 296(%rsp)
	movzbl	300(%rsp), %eax
	movl	%eax, 300(%rsp)
	movzbl	304(%rsp), %eax
	movl	%eax, 304(%rsp)
	movzbl	44(%rsp), %r15d
	movzbl	45(%rsp), %r13d
	movzbl	46(%rsp), %r11d
	movzbl	47(%rsp), %ebx
	movzbl	48(%rsp), %r9d
	movzbl	49(%rsp), %r10d
	movzbl	50(%rsp), %edi
	movzbl	51(%rsp), %r8d
	movzbl	52(%rsp), %edx
	movzbl	53(%rsp), %esi
	movzbl	54(%rsp), %eax
	movzbl	55(%rsp), %ecx
	movzbl	400(%rsp), %ebp
	movzbl	416(%rsp), %r14d
	movzbl	308(%rsp), %r12d
	movl	%r12d, 308(%rsp)
	movzbl	312(%rsp), %r12d
	movl	%r12d, 312(%rsp)
	movzbl	316(%rsp), %r12d
	movl	%r12d, 316(%rsp)
	movd	192(%rsp), %xmm8
	movd	320(%rsp), %xmm1
	movd	196(%rsp), %xmm3
	movd	200(%rsp), %xmm4
	movd	204(%rsp), %xmm5
	movd	208(%rsp), %xmm9
	movd	212(%rsp), %xmm7
	movd	216(%rsp), %xmm0
	movd	220(%rsp), %xmm2
	movd	224(%rsp), %xmm15
	movd	228(%rsp), %xmm11
	movd	232(%rsp), %xmm10
	movd	244(%rsp), %xmm12
	movss	252(%rsp), %xmm6
	movaps	%xmm6, 416(%rsp)
	movd	260(%rsp), %xmm14
	movss	268(%rsp), %xmm6
	movaps	%xmm6, 400(%rsp)
	punpcklbw	%xmm1, %xmm8
	movd	236(%rsp), %xmm6
	punpcklbw	%xmm4, %xmm3
	movss	240(%rsp), %xmm1
	movaps	%xmm1, 320(%rsp)
	punpcklwd	%xmm3, %xmm8
	movd	248(%rsp), %xmm13
	punpcklbw	%xmm9, %xmm5
	movd	256(%rsp), %xmm9
	punpcklbw	%xmm0, %xmm7
	movd	264(%rsp), %xmm3
	punpcklwd	%xmm7, %xmm5
	movd	272(%rsp), %xmm4
	punpckldq	%xmm5, %xmm8
	movd	276(%rsp), %xmm5
	punpcklbw	%xmm15, %xmm2
	movd	280(%rsp), %xmm1
	punpcklbw	%xmm10, %xmm11
	movd	284(%rsp), %xmm10
	punpcklwd	%xmm11, %xmm2
	movd	288(%rsp), %xmm11
	punpcklbw	416(%rsp), %xmm12
	movd	292(%rsp), %xmm0
	punpcklbw	400(%rsp), %xmm14
	movd	296(%rsp), %xmm7
	punpcklwd	%xmm14, %xmm12
	movd	300(%rsp), %xmm15
	punpckldq	%xmm12, %xmm2
	movd	304(%rsp), %xmm12
	punpcklqdq	%xmm2, %xmm8
	movd	%r15d, %xmm14
	punpcklbw	320(%rsp), %xmm6
	movd	%r13d, %xmm2
	movdqa	%xmm2, 400(%rsp)
	punpcklbw	%xmm9, %xmm13
	movd	%r11d, %xmm2
	punpcklwd	%xmm13, %xmm6
	movd	%ebx, %xmm13
	punpcklbw	%xmm4, %xmm3
	movd	%r9d, %xmm9
	punpcklbw	%xmm1, %xmm5
	movd	%r10d, %xmm1
	punpcklwd	%xmm5, %xmm3
	movd	%edi, %xmm4
	punpckldq	%xmm3, %xmm6
	movd	%r8d, %xmm3
	movdqa	%xmm3, 320(%rsp)
	punpcklbw	%xmm11, %xmm10
	movd	%edx, %xmm5
	punpcklbw	%xmm7, %xmm0
	movd	%esi, %xmm3
	movdqa	%xmm3, 416(%rsp)
	punpcklwd	%xmm0, %xmm10
	movd	%eax, %xmm3
	movzbl	496(%rsp), %edx
	punpcklbw	%xmm12, %xmm15
	movd	%ecx, %xmm0
	movdqa	%xmm0, 496(%rsp)
	movzbl	56(%rsp), %edi
	movzbl	57(%rsp), %r12d
	punpcklbw	400(%rsp), %xmm14
	movd	%ebp, %xmm12
	movzbl	58(%rsp), %ecx
	movzbl	512(%rsp), %esi
	punpcklwd	%xmm14, %xmm15
	movd	%r14d, %xmm0
	movdqa	%xmm0, 512(%rsp)
	movzbl	59(%rsp), %r8d
	movzbl	60(%rsp), %r9d
	punpckldq	%xmm15, %xmm10
	movd	308(%rsp), %xmm15
	movzbl	61(%rsp), %r10d
	movzbl	528(%rsp), %r11d
	punpcklqdq	%xmm10, %xmm6
	movss	312(%rsp), %xmm0
	movaps	%xmm0, 528(%rsp)
	movzbl	62(%rsp), %ebx
	movzbl	63(%rsp), %ebp
	punpcklbw	%xmm13, %xmm2
	movd	316(%rsp), %xmm13
	movzbl	544(%rsp), %r14d
	movzbl	432(%rsp), %r15d
	punpcklbw	%xmm1, %xmm9
	movd	%edx, %xmm14
	movzbl	560(%rsp), %r13d
	movzbl	448(%rsp), %eax
	punpcklwd	%xmm9, %xmm2
	movd	%edi, %xmm7
	movzbl	464(%rsp), %edi
	movzbl	480(%rsp), %edx
	punpcklbw	320(%rsp), %xmm4
	movd	%r12d, %xmm11
	punpcklbw	416(%rsp), %xmm5
	movd	%ecx, %xmm9
	punpcklwd	%xmm5, %xmm4
	movd	%esi, %xmm10
	punpckldq	%xmm4, %xmm2
	movd	%r8d, %xmm0
	punpcklbw	496(%rsp), %xmm3
	movd	%r9d, %xmm5
	punpcklbw	512(%rsp), %xmm12
	movd	%r10d, %xmm1
	punpcklwd	%xmm12, %xmm3
	movd	%r11d, %xmm12
	punpcklbw	528(%rsp), %xmm15
	movd	%ebx, %xmm4
	punpcklbw	%xmm14, %xmm13
	movd	%ebp, %xmm14
	punpcklwd	%xmm13, %xmm15
	movd	%r14d, %xmm13
	punpckldq	%xmm15, %xmm3
	movd	%r15d, %xmm15
	punpcklqdq	%xmm3, %xmm2
	psllw	$7, %xmm2
	movd	%r13d, %xmm3
	pmovmskb	%xmm2, %ecx
	movd	%eax, %xmm2
	punpcklbw	%xmm11, %xmm7
	movd	%edi, %xmm11
	punpcklbw	%xmm10, %xmm9
	punpcklwd	%xmm9, %xmm7
	punpcklbw	%xmm5, %xmm0
	punpcklbw	%xmm12, %xmm1
	punpcklwd	%xmm1, %xmm0
	punpckldq	%xmm0, %xmm7
	punpcklbw	%xmm14, %xmm4
	punpcklbw	%xmm15, %xmm13
	punpcklwd	%xmm13, %xmm4
	psllw	$7, %xmm8
	psllw	$7, %xmm6
	punpcklbw	%xmm2, %xmm3
	movd	%edx, %xmm0
	punpcklbw	%xmm0, %xmm11
	punpcklwd	%xmm11, %xmm3
	punpckldq	%xmm3, %xmm4
	punpcklqdq	%xmm4, %xmm7
	psllw	$7, %xmm7
	pmovmskb	%xmm7, %eax
	shll	$16, %eax
	orl	%ecx, %eax
	pmovmskb	%xmm6, %ecx
	shlq	$32, %rcx
	orq	%rax, %rcx
	pmovmskb	%xmm8, %r8d
	shlq	$48, %r8
	orq	%rcx, %r8
	je	.LBB10_53
	movq	392(%rsp), %r10
	leaq	-64(%r10), %rax
	movq	344(%rsp), %rbx
	movq	336(%rsp), %r14
	movq	376(%rsp), %rdi
	movq	368(%rsp), %rbp
	movq	360(%rsp), %rdx
	movq	352(%rsp), %r9
	movq	384(%rsp), %r15
	jmp	.LBB10_47
.LBB10_53:
	movzbl	11(%rsp), %r8d
	movzbl	12(%rsp), %r9d
	movzbl	13(%rsp), %r10d
	movzbl	14(%rsp), %r11d
	movzbl	15(%rsp), %ebx
	movzbl	16(%rsp), %ebp
	movzbl	17(%rsp), %r14d
	movzbl	18(%rsp), %r15d
	movzbl	19(%rsp), %eax
	movzbl	20(%rsp), %r13d
	movzbl	21(%rsp), %edi
	movzbl	22(%rsp), %esi
	movzbl	23(%rsp), %edx
	movzbl	24(%rsp), %ecx
	movl	%ecx, 320(%rsp)
	movzbl	25(%rsp), %r12d
	movzbl	112(%rsp), %ecx
	movd	%ecx, %xmm12
	movzbl	113(%rsp), %ecx
	movd	%ecx, %xmm1
	movzbl	114(%rsp), %ecx
	movd	%ecx, %xmm4
	movzbl	115(%rsp), %ecx
	movd	%ecx, %xmm5
	movzbl	116(%rsp), %ecx
	movd	%ecx, %xmm6
	movzbl	117(%rsp), %ecx
	movd	%ecx, %xmm0
	movzbl	118(%rsp), %ecx
	movd	%ecx, %xmm7
	movzbl	119(%rsp), %ecx
	movd	%ecx, %xmm10
	movzbl	120(%rsp), %ecx
	movd	%ecx, %xmm2
	movzbl	121(%rsp), %ecx
	movd	%ecx, %xmm13
	movzbl	122(%rsp), %ecx
	movd	%ecx, %xmm9
	movzbl	123(%rsp), %ecx
	movd	%ecx, %xmm15
	movzbl	124(%rsp), %ecx
	movd	%ecx, %xmm3
	movzbl	125(%rsp), %ecx
	movd	%ecx, %xmm8
	movdqa	%xmm8, 448(%rsp)
	movzbl	126(%rsp), %ecx
	movd	%ecx, %xmm8
	movzbl	127(%rsp), %ecx
	movd	%ecx, %xmm14
	punpcklbw	%xmm1, %xmm12
	movzbl	144(%rsp), %ecx
	movd	%ecx, %xmm11
	punpcklbw	%xmm5, %xmm4
	movzbl	145(%rsp), %ecx
	movd	%ecx, %xmm1
	movdqa	%xmm1, 480(%rsp)
	punpcklwd	%xmm4, %xmm12
	movzbl	146(%rsp), %ecx
	movd	%ecx, %xmm4
	punpcklbw	%xmm0, %xmm6
	movzbl	147(%rsp), %ecx
	movd	%ecx, %xmm0
	movdqa	%xmm0, 464(%rsp)
	punpcklbw	%xmm10, %xmm7
	movzbl	148(%rsp), %ecx
	movd	%ecx, %xmm5
	punpcklwd	%xmm7, %xmm6
	movzbl	149(%rsp), %ecx
	movd	%ecx, %xmm0
	movdqa	%xmm0, 432(%rsp)
	punpckldq	%xmm6, %xmm12
	movzbl	150(%rsp), %ecx
	movd	%ecx, %xmm6
	punpcklbw	%xmm13, %xmm2
	movzbl	151(%rsp), %ecx
	movd	%ecx, %xmm1
	punpcklbw	%xmm15, %xmm9
	movzbl	152(%rsp), %ecx
	movd	%ecx, %xmm10
	punpcklwd	%xmm9, %xmm2
	movzbl	153(%rsp), %ecx
	movd	%ecx, %xmm9
	punpcklbw	448(%rsp), %xmm3
	movzbl	154(%rsp), %ecx
	movd	%ecx, %xmm0
	punpcklbw	%xmm14, %xmm8
	movzbl	155(%rsp), %ecx
	movd	%ecx, %xmm7
	punpcklwd	%xmm8, %xmm3
	movzbl	156(%rsp), %ecx
	movd	%ecx, %xmm14
	punpckldq	%xmm3, %xmm2
	movzbl	157(%rsp), %ecx
	movd	%ecx, %xmm8
	punpcklqdq	%xmm2, %xmm12
	movzbl	158(%rsp), %ecx
	movd	%ecx, %xmm15
	punpcklbw	480(%rsp), %xmm11
	movzbl	159(%rsp), %ecx
	movd	%ecx, %xmm13
	punpcklbw	464(%rsp), %xmm4
	movd	%r8d, %xmm2
	punpcklwd	%xmm4, %xmm11
	movd	%r9d, %xmm3
	movdqa	%xmm3, 560(%rsp)
	punpcklbw	432(%rsp), %xmm5
	movd	%r10d, %xmm3
	movdqa	%xmm3, 464(%rsp)
	punpcklbw	%xmm1, %xmm6
	movd	%r11d, %xmm1
	movdqa	%xmm1, 448(%rsp)
	punpcklwd	%xmm6, %xmm5
	movd	%ebx, %xmm4
	punpckldq	%xmm5, %xmm11
	movd	%ebp, %xmm1
	punpcklbw	%xmm9, %xmm10
	movd	%r14d, %xmm5
	punpcklbw	%xmm7, %xmm0
	movd	%r15d, %xmm6
	punpcklwd	%xmm0, %xmm10
	movd	%eax, %xmm3
	movzbl	26(%rsp), %r8d
	punpcklbw	%xmm8, %xmm14
	movd	%r13d, %xmm0
	movdqa	%xmm0, 480(%rsp)
	movzbl	27(%rsp), %r10d
	movzbl	28(%rsp), %eax
	movl	%eax, 432(%rsp)
	punpcklbw	%xmm13, %xmm15
	movd	%edi, %xmm9
	movzbl	29(%rsp), %edi
	movzbl	30(%rsp), %r9d
	punpcklwd	%xmm15, %xmm14
	movd	%esi, %xmm0
	movdqa	%xmm0, 544(%rsp)
	movzbl	31(%rsp), %esi
	movzbl	32(%rsp), %r11d
	punpckldq	%xmm14, %xmm10
	movd	%edx, %xmm14
	movzbl	33(%rsp), %edx
	movzbl	34(%rsp), %ebx
	punpcklqdq	%xmm10, %xmm11
	movss	320(%rsp), %xmm0
	movaps	%xmm0, 320(%rsp)
	movzbl	35(%rsp), %ecx
	movzbl	36(%rsp), %ebp
	punpcklbw	560(%rsp), %xmm2
	movd	%r12d, %xmm13
	movzbl	37(%rsp), %r14d
	movzbl	38(%rsp), %r15d
	movdqa	464(%rsp), %xmm0
	punpcklbw	448(%rsp), %xmm0
	movd	%r8d, %xmm15
	movzbl	39(%rsp), %r13d
	movzbl	40(%rsp), %eax
	punpcklwd	%xmm0, %xmm2
	movd	%r10d, %xmm7
	movzbl	41(%rsp), %r10d
	movzbl	42(%rsp), %r8d
	punpcklbw	%xmm1, %xmm4
	movd	432(%rsp), %xmm10
	punpcklbw	%xmm6, %xmm5
	movd	%edi, %xmm6
	punpcklwd	%xmm5, %xmm4
	movd	%r9d, %xmm8
	punpckldq	%xmm4, %xmm2
	movd	%esi, %xmm0
	punpcklbw	480(%rsp), %xmm3
	movd	%r11d, %xmm5
	punpcklbw	544(%rsp), %xmm9
	movd	%edx, %xmm1
	punpcklwd	%xmm9, %xmm3
	movd	%ebx, %xmm9
	punpcklbw	320(%rsp), %xmm14
	movd	%ecx, %xmm4
	punpcklbw	%xmm15, %xmm13
	movd	%ebp, %xmm15
	punpcklwd	%xmm13, %xmm14
	movd	%r14d, %xmm13
	punpckldq	%xmm14, %xmm3
	movd	%r15d, %xmm14
	punpcklqdq	%xmm3, %xmm2
	psllw	$7, %xmm2
	movd	%r13d, %xmm3
	pmovmskb	%xmm2, %ecx
	movd	%eax, %xmm2
	punpcklbw	%xmm10, %xmm7
	movd	%r10d, %xmm10
	punpcklbw	%xmm8, %xmm6
	punpcklwd	%xmm6, %xmm7
	punpcklbw	%xmm5, %xmm0
	punpcklbw	%xmm9, %xmm1
	punpcklwd	%xmm1, %xmm0
	punpckldq	%xmm0, %xmm7
	punpcklbw	%xmm15, %xmm4
	punpcklbw	%xmm14, %xmm13
	punpcklwd	%xmm13, %xmm4
	psllw	$7, %xmm12
	psllw	$7, %xmm11
	punpcklbw	%xmm2, %xmm3
	movd	%r8d, %xmm0
	punpcklbw	%xmm0, %xmm10
	punpcklwd	%xmm10, %xmm3
	punpckldq	%xmm3, %xmm4
	punpcklqdq	%xmm4, %xmm7
	psllw	$7, %xmm7
	pmovmskb	%xmm7, %eax
	shll	$16, %eax
	orl	%ecx, %eax
	pmovmskb	%xmm11, %ecx
	shlq	$32, %rcx
	orq	%rax, %rcx
	pmovmskb	%xmm12, %r8d
	shlq	$48, %r8
	orq	%rcx, %r8
	movq	392(%rsp), %rax
	leaq	64(%rax), %rcx
	movq	344(%rsp), %rbx
	movq	336(%rsp), %r14
	movq	376(%rsp), %rdi
	movq	368(%rsp), %rbp
	movq	360(%rsp), %rdx
	movq	352(%rsp), %r9
	movq	384(%rsp), %r15
	movq	%rcx, %r10
	testq	%r8, %r8
	jne	.LBB10_47
	jmp	.LBB10_50
.LBB10_54:
	leaq	64(%rax), %r10
	jmp	.LBB10_47
	.p2align	4
.LBB10_55:
	xorl	%eax, %eax
	jmp	.LBB10_3
.LBB10_56:
	xorl	%r13d, %r13d
	jmp	.LBB10_57
.LBB10_58:
	movq	%rdi, %r13
.LBB10_57:
	movq	%r13, %rax
	addq	$584, %rsp
	.cfi_def_cfa_offset 56
	popq	%rbx
	.cfi_def_cfa_offset 48
	popq	%r12
	.cfi_def_cfa_offset 40
	popq	%r13
	.cfi_def_cfa_offset 32
	popq	%r14
	.cfi_def_cfa_offset 24
	popq	%r15
	.cfi_def_cfa_offset 16
	popq	%rbp
	.cfi_def_cfa_offset 8
	retq
.Lfunc_end10:
	.size	line_filter.words.words_len, .Lfunc_end10-line_filter.words.words_len
	.cfi_endproc

	.section	.text.memchr.bytes.memchr,"ax",@progbits
	.p2align	4
	.type	memchr.bytes.memchr,@function
memchr.bytes.memchr:
	.cfi_startproc
	cmpq	$32, %rdx
	jae	.LBB11_6
	testq	%rdx, %rdx
	je	.LBB11_5
	xorl	%r8d, %r8d
	.p2align	4
.LBB11_3:
	cmpb	%dil, (%rsi,%r8)
	je	.LBB11_42
	incq	%r8
	cmpq	%r8, %rdx
	jne	.LBB11_3
.LBB11_5:
	xorl	%r8d, %r8d
	xorl	%eax, %eax
	movq	%r8, %rdx
	retq
.LBB11_6:
	movzbl	%dil, %eax
	movd	%eax, %xmm0
	punpcklbw	%xmm0, %xmm0
	pshuflw	$0, %xmm0, %xmm0
	pshufd	$68, %xmm0, %xmm0
	leaq	-64(%rdx), %rax
	xorl	%r9d, %r9d
.LBB11_7:
	movq	%rdx, %rcx
	subq	%r9, %rcx
	cmpq	$191, %rcx
	jbe	.LBB11_18
	movdqu	(%rsi,%r9), %xmm1
	movdqu	16(%rsi,%r9), %xmm2
	movdqu	32(%rsi,%r9), %xmm3
	movdqu	48(%rsi,%r9), %xmm4
	pcmpeqb	%xmm0, %xmm4
	pcmpeqb	%xmm0, %xmm3
	pcmpeqb	%xmm0, %xmm1
	pmovmskb	%xmm1, %ecx
	pcmpeqb	%xmm0, %xmm2
	pmovmskb	%xmm2, %r8d
	shll	$16, %r8d
	orl	%ecx, %r8d
	pmovmskb	%xmm3, %ecx
	shlq	$32, %rcx
	orq	%r8, %rcx
	pmovmskb	%xmm4, %r11d
	shlq	$48, %r11
	leaq	64(%r9), %r10
	orq	%rcx, %r11
	jne	.LBB11_34
	movq	%rdx, %rcx
	subq	%r10, %rcx
	cmpq	$128, %rcx
	jb	.LBB11_14
	subq	$-128, %r9
	movq	%r9, %r10
	.p2align	4
.LBB11_11:
	movdqu	-64(%rsi,%r10), %xmm8
	movdqu	-48(%rsi,%r10), %xmm7
	movdqu	-32(%rsi,%r10), %xmm6
	movdqu	-16(%rsi,%r10), %xmm3
	pcmpeqb	%xmm0, %xmm7
	pcmpeqb	%xmm0, %xmm8
	pcmpeqb	%xmm0, %xmm6
	pcmpeqb	%xmm0, %xmm3
	movdqu	(%rsi,%r10), %xmm5
	movdqu	16(%rsi,%r10), %xmm4
	pcmpeqb	%xmm0, %xmm4
	pcmpeqb	%xmm0, %xmm5
	movdqu	32(%rsi,%r10), %xmm2
	movdqu	48(%rsi,%r10), %xmm1
	pcmpeqb	%xmm0, %xmm1
	pcmpeqb	%xmm0, %xmm2
	movdqa	%xmm5, %xmm9
	por	%xmm2, %xmm9
	movdqa	%xmm4, %xmm10
	por	%xmm1, %xmm10
	movdqa	%xmm6, %xmm11
	por	%xmm8, %xmm11
	por	%xmm9, %xmm11
	movdqa	%xmm3, %xmm9
	por	%xmm7, %xmm9
	por	%xmm10, %xmm9
	por	%xmm11, %xmm9
	pmovmskb	%xmm9, %r8d
	testl	%r8d, %r8d
	jne	.LBB11_37
	subq	$-128, %r10
	addq	$-128, %rcx
	cmpq	$127, %rcx
	ja	.LBB11_11
	addq	$-64, %r10
.LBB11_14:
	movq	%r10, %r9
	cmpq	$32, %rcx
	jb	.LBB11_31
	movq	%rdx, %rcx
	subq	%r9, %rcx
	.p2align	4
.LBB11_16:
	movdqu	(%rsi,%r9), %xmm1
	movdqu	16(%rsi,%r9), %xmm2
	pcmpeqb	%xmm0, %xmm1
	pmovmskb	%xmm1, %r10d
	pcmpeqb	%xmm0, %xmm2
	pmovmskb	%xmm2, %r8d
	shll	$16, %r8d
	orl	%r10d, %r8d
	jne	.LBB11_33
	addq	$-32, %rcx
	addq	$32, %r9
	cmpq	$31, %rcx
	ja	.LBB11_16
	jmp	.LBB11_31
	.p2align	4
.LBB11_18:
	cmpq	$64, %rcx
	jb	.LBB11_27
	.p2align	4
.LBB11_19:
	movdqu	(%rsi,%r9), %xmm1
	movdqu	16(%rsi,%r9), %xmm2
	movdqu	32(%rsi,%r9), %xmm3
	movdqu	48(%rsi,%r9), %xmm4
	pcmpeqb	%xmm0, %xmm2
	pcmpeqb	%xmm0, %xmm1
	pcmpeqb	%xmm0, %xmm4
	por	%xmm2, %xmm4
	pcmpeqb	%xmm0, %xmm3
	por	%xmm1, %xmm3
	por	%xmm4, %xmm3
	pmovmskb	%xmm3, %r8d
	testl	%r8d, %r8d
	jne	.LBB11_21
	addq	$64, %r9
	addq	$-64, %rcx
	cmpq	$63, %rcx
	ja	.LBB11_19
	jmp	.LBB11_27
.LBB11_21:
	cmpq	$64, %rcx
	jb	.LBB11_27
.LBB11_22:
	movdqu	(%rsi,%r9), %xmm1
	movdqu	16(%rsi,%r9), %xmm2
	movdqu	32(%rsi,%r9), %xmm3
	movdqu	48(%rsi,%r9), %xmm4
	pcmpeqb	%xmm0, %xmm4
	pcmpeqb	%xmm0, %xmm3
	pcmpeqb	%xmm0, %xmm1
	pmovmskb	%xmm1, %ecx
	pcmpeqb	%xmm0, %xmm2
	pmovmskb	%xmm2, %r8d
	shll	$16, %r8d
	orl	%ecx, %r8d
	pmovmskb	%xmm3, %ecx
	shlq	$32, %rcx
	orq	%r8, %rcx
	pmovmskb	%xmm4, %r11d
	shlq	$48, %r11
	orq	%rcx, %r11
	jne	.LBB11_40
	movq	%rax, %rcx
	subq	%r9, %rcx
	.p2align	4
.LBB11_24:
	cmpq	$64, %rcx
	jb	.LBB11_26
	movdqu	64(%rsi,%r9), %xmm1
	movdqu	80(%rsi,%r9), %xmm2
	movdqu	96(%rsi,%r9), %xmm3
	movdqu	112(%rsi,%r9), %xmm4
	pcmpeqb	%xmm0, %xmm2
	pcmpeqb	%xmm0, %xmm1
	pcmpeqb	%xmm0, %xmm4
	por	%xmm2, %xmm4
	pcmpeqb	%xmm0, %xmm3
	por	%xmm1, %xmm3
	por	%xmm4, %xmm3
	pmovmskb	%xmm3, %r8d
	addq	$-64, %rcx
	addq	$64, %r9
	testl	%r8d, %r8d
	je	.LBB11_24
	jmp	.LBB11_22
.LBB11_26:
	addq	$64, %r9
	.p2align	4
.LBB11_27:
	cmpq	$32, %rcx
	jb	.LBB11_31
	movq	%rdx, %rcx
	subq	%r9, %rcx
	.p2align	4
.LBB11_29:
	movdqu	(%rsi,%r9), %xmm1
	movdqu	16(%rsi,%r9), %xmm2
	pcmpeqb	%xmm0, %xmm1
	pmovmskb	%xmm1, %r10d
	pcmpeqb	%xmm0, %xmm2
	pmovmskb	%xmm2, %r8d
	shll	$16, %r8d
	orl	%r10d, %r8d
	jne	.LBB11_33
	addq	$-32, %rcx
	addq	$32, %r9
	cmpq	$31, %rcx
	ja	.LBB11_29
.LBB11_31:
	movdqu	-32(%rsi,%rdx), %xmm1
	movdqu	-16(%rsi,%rdx), %xmm2
	pcmpeqb	%xmm0, %xmm1
	pmovmskb	%xmm1, %ecx
	pcmpeqb	%xmm0, %xmm2
	pmovmskb	%xmm2, %r11d
	shll	$16, %r11d
	orl	%ecx, %r11d
	movl	%r9d, %ecx
	subl	%edx, %ecx
	addb	$32, %cl
	shrq	%cl, %r11
	movq	%r9, %r10
	movq	%rdx, %rcx
.LBB11_32:
	movq	%r10, %r9
	movq	%rcx, %r10
	testq	%r11, %r11
	jne	.LBB11_34
	jmp	.LBB11_36
.LBB11_33:
	movl	%r8d, %r11d
	leaq	32(%r9), %r10
	.p2align	4
.LBB11_34:
	rep		bsfq	%r11, %rcx
	leaq	(%rcx,%r9), %r8
	cmpb	%dil, (%rsi,%r8)
	je	.LBB11_42
	movq	$-2, %r8
	rolq	%cl, %r8
	andq	%r8, %r11
	jne	.LBB11_34
.LBB11_36:
	movq	%r10, %r9
	cmpq	%rdx, %r10
	jb	.LBB11_7
	jmp	.LBB11_5
.LBB11_37:
	pmovmskb	%xmm8, %ecx
	pmovmskb	%xmm7, %r8d
	shll	$16, %r8d
	orl	%ecx, %r8d
	pmovmskb	%xmm6, %ecx
	shlq	$32, %rcx
	orq	%r8, %rcx
	pmovmskb	%xmm3, %r11d
	shlq	$48, %r11
	orq	%rcx, %r11
	je	.LBB11_39
	leaq	-64(%r10), %r9
	jmp	.LBB11_34
.LBB11_39:
	leaq	64(%r10), %rcx
	pmovmskb	%xmm5, %r8d
	pmovmskb	%xmm4, %r9d
	shll	$16, %r9d
	orl	%r8d, %r9d
	pmovmskb	%xmm2, %r8d
	shlq	$32, %r8
	orq	%r9, %r8
	pmovmskb	%xmm1, %r11d
	shlq	$48, %r11
	orq	%r8, %r11
	jmp	.LBB11_32
.LBB11_40:
	leaq	64(%r9), %r10
	jmp	.LBB11_34
.LBB11_42:
	movb	$1, %al
	movq	%r8, %rdx
	retq
.Lfunc_end11:
	.size	memchr.bytes.memchr, .Lfunc_end11-memchr.bytes.memchr
	.cfi_endproc

	.section	.text.link_msg.encoding.canonical,"ax",@progbits
	.p2align	4
	.type	link_msg.encoding.canonical,@function
link_msg.encoding.canonical:
	.cfi_startproc
	pushq	%rbp
	.cfi_def_cfa_offset 16
	pushq	%r15
	.cfi_def_cfa_offset 24
	pushq	%r14
	.cfi_def_cfa_offset 32
	pushq	%r13
	.cfi_def_cfa_offset 40
	pushq	%r12
	.cfi_def_cfa_offset 48
	pushq	%rbx
	.cfi_def_cfa_offset 56
	subq	$184, %rsp
	.cfi_def_cfa_offset 240
	.cfi_offset %rbx, -56
	.cfi_offset %r12, -48
	.cfi_offset %r13, -40
	.cfi_offset %r14, -32
	.cfi_offset %r15, -24
	.cfi_offset %rbp, -16
	movq	%rdx, %r10
	movq	%rdi, %rbx
	cmpq	$16, %rdx
	jb	.LBB12_4
	movzbl	(%rsi), %r14d
	cmpq	$45, %r14
	ja	.LBB12_5
	leaq	.LJTI12_0(%rip), %rax
	movslq	(%rax,%r14,4), %rcx
	addq	%rax, %rcx
	jmpq	*%rcx
.LBB12_3:
	movl	$1, %r14d
	jmp	.LBB12_9
.LBB12_4:
	movl	$16, %ecx
	movl	$6, %edx
	leaq	.Lstatic.19(%rip), %rax
	xorl	%edi, %edi
	xorl	%esi, %esi
	jmp	.LBB12_166
.LBB12_5:
	shll	$8, %r14d
	orq	$5, %r14
	jmp	.LBB12_9
.LBB12_6:
	movl	$2, %r14d
	jmp	.LBB12_9
.LBB12_7:
	movl	$3, %r14d
	jmp	.LBB12_9
.LBB12_8:
	movl	$4, %r14d
.LBB12_9:
	addq	$-16, %r10
	movl	4(%rsi), %eax
	movzwl	2(%rsi), %edi
	cmpl	$32, %edi
	movq	%r10, 8(%rsp)
	movq	%rsi, 24(%rsp)
	movl	%eax, 44(%rsp)
	ja	.LBB12_12
	leaq	.LJTI12_1(%rip), %rax
	movslq	(%rax,%rdi,4), %rcx
	addq	%rax, %rcx
	jmpq	*%rcx
.LBB12_11:
	movq	%rdi, 16(%rsp)
	jmp	.LBB12_41
.LBB12_12:
	leal	-256(%rdi), %eax
	cmpl	$34, %eax
	ja	.LBB12_29
	leaq	.LJTI12_2(%rip), %rcx
	movslq	(%rcx,%rax,4), %rax
	addq	%rcx, %rax
	jmpq	*%rax
.LBB12_14:
	movl	$15, %eax
	jmp	.LBB12_40
.LBB12_15:
	movl	$14, %eax
	jmp	.LBB12_40
.LBB12_16:
	movl	$11, %eax
	jmp	.LBB12_40
.LBB12_17:
	movl	$7, %eax
	jmp	.LBB12_40
.LBB12_18:
	movl	$13, %eax
	jmp	.LBB12_40
.LBB12_19:
	movl	$5, %eax
	jmp	.LBB12_40
.LBB12_20:
	movl	$1, %eax
	jmp	.LBB12_40
.LBB12_21:
	movl	$3, %eax
	jmp	.LBB12_40
.LBB12_22:
	movl	$9, %eax
	jmp	.LBB12_40
.LBB12_23:
	movl	$10, %eax
	jmp	.LBB12_40
.LBB12_24:
	movl	$2, %eax
	jmp	.LBB12_40
.LBB12_25:
	movl	$4, %eax
	jmp	.LBB12_40
.LBB12_26:
	movl	$6, %eax
	jmp	.LBB12_40
.LBB12_27:
	movl	$8, %eax
	jmp	.LBB12_40
.LBB12_28:
	movl	$12, %eax
	jmp	.LBB12_40
.LBB12_29:
	callq	link_vals.link_layer_type.high
	movq	24(%rsp), %rsi
	movq	8(%rsp), %r10
	movzbl	%al, %eax
	jmp	.LBB12_40
.LBB12_30:
	movl	$23, %eax
	jmp	.LBB12_40
.LBB12_31:
	movl	$22, %eax
	jmp	.LBB12_40
.LBB12_32:
	movl	$18, %eax
	jmp	.LBB12_40
.LBB12_33:
	movl	$20, %eax
	jmp	.LBB12_40
.LBB12_34:
	movl	$21, %eax
	jmp	.LBB12_40
.LBB12_35:
	movl	$16, %eax
	jmp	.LBB12_40
.LBB12_36:
	movl	$25, %eax
	jmp	.LBB12_40
.LBB12_37:
	movl	$17, %eax
	jmp	.LBB12_40
.LBB12_38:
	movl	$24, %eax
	jmp	.LBB12_40
.LBB12_39:
	movl	$19, %eax
.LBB12_40:
	movq	%rax, 16(%rsp)
.LBB12_41:
	movq	%rbx, 56(%rsp)
	leaq	16(%rsi), %r8
	movsd	8(%rsi), %xmm0
	movaps	%xmm0, 160(%rsp)
	movzbl	%r14b, %eax
	movq	%rax, 48(%rsp)
	testq	%r10, %r10
	movq	%r8, 88(%rsp)
	movq	%r14, 96(%rsp)
	je	.LBB12_75
	movl	%r14d, %esi
	andb	$-2, %sil
	xorl	%r9d, %r9d
	xorl	%r13d, %r13d
	movq	%r10, %r14
	movq	%r8, %r15
.LBB12_43:
	subq	%r13, %r14
	cmpq	$4, %r14
	jb	.LBB12_76
	addq	%r13, %r15
	movzwl	(%r15), %ebp
	cmpw	$4, %bp
	jb	.LBB12_76
	cmpq	%rbp, %r14
	jb	.LBB12_76
	leal	3(%rbp), %r13d
	andl	$-4, %r13d
	movq	%r10, %rax
	subq	%r9, %rax
	cmpq	%rax, %r13
	ja	.LBB12_76
	movzwl	2(%r15), %ecx
	leaq	(%r8,%r9), %rax
	movq	%r13, %rdx
	subq	%rbp, %rdx
	cmpq	$3, %rdx
	je	.LBB12_53
	cmpl	$2, %edx
	je	.LBB12_51
	cmpl	$1, %edx
	jne	.LBB12_56
	cmpb	$0, (%rax,%rbp)
	je	.LBB12_56
	jmp	.LBB12_76
	.p2align	4
.LBB12_51:
	cmpb	$0, (%rax,%rbp)
	jne	.LBB12_76
	cmpb	$0, 1(%rax,%rbp)
	je	.LBB12_56
	jmp	.LBB12_76
	.p2align	4
.LBB12_53:
	cmpb	$0, (%rax,%rbp)
	jne	.LBB12_76
	cmpb	$0, 1(%rax,%rbp)
	jne	.LBB12_76
	cmpb	$0, 2(%rax,%rbp)
	jne	.LBB12_76
.LBB12_56:
	cmpl	$16383, %ecx
	ja	.LBB12_76
	leaq	-4(%rbp), %r12
	andl	$16383, %ecx
	testq	%r12, %r12
	jne	.LBB12_59
	cmpw	$24, %cx
	je	.LBB12_76
.LBB12_59:
	decl	%ecx
	cmpl	$68, %ecx
	ja	.LBB12_64
	movb	$1, %al
	leaq	.LJTI12_3(%rip), %rdx
	movslq	(%rdx,%rcx,4), %rcx
	addq	%rdx, %rcx
	jmpq	*%rcx
.LBB12_61:
	xorl	%eax, %eax
	cmpl	$4, %r12d
	sete	%al
	movl	%eax, %edx
	shll	$2, %edx
.LBB12_62:
	testb	%al, %al
	je	.LBB12_76
	cmpq	%r12, %rdx
	jne	.LBB12_76
.LBB12_64:
	decq	%rbp
	andq	$-4, %rbp
	addq	%rbp, %r9
	addq	$4, %r9
	cmpq	%r13, %r14
	ja	.LBB12_43
	jmp	.LBB12_76
.LBB12_65:
	leaq	4(%r15), %rdi
	movb	%sil, 32(%rsp)
	movq	%r12, %rsi
	movq	%r9, %rbx
	callq	nla_wire.payload.measure_text
	movzbl	32(%rsp), %esi
	movq	%rbx, %r9
	movq	24(%rsp), %rcx
	leaq	16(%rcx), %r8
	movq	8(%rsp), %r10
	cmpb	$1, %al
	sete	%al
	jmp	.LBB12_62
.LBB12_66:
	xorl	%eax, %eax
	cmpl	$1, %r12d
	sete	%al
	movq	%rax, %rdx
	jmp	.LBB12_62
.LBB12_67:
	movq	%r12, %rdx
	jmp	.LBB12_62
.LBB12_68:
	movl	$2, %edx
	cmpl	$2, %r12d
	je	.LBB12_62
	jmp	.LBB12_64
.LBB12_69:
	movq	48(%rsp), %rcx
	addl	$-3, %ecx
	movq	%r12, %rdx
	cmpl	$3, %ecx
	jb	.LBB12_62
	cmpl	$1, 48(%rsp)
	je	.LBB12_62
	jmp	.LBB12_71
.LBB12_72:
	cmpb	$2, %sil
	jne	.LBB12_64
	jmp	.LBB12_76
.LBB12_73:
	movl	$200, %edx
	jmp	.LBB12_62
.LBB12_74:
	movl	$96, %edx
	jmp	.LBB12_62
.LBB12_75:
	xorl	%r9d, %r9d
.LBB12_76:
	movq	%r10, %r15
	subq	%r9, %r15
	movq	%r9, 32(%rsp)
	movq	%r15, 104(%rsp)
	je	.LBB12_118
	leaq	(%r8,%r9), %rbx
	xorl	%r13d, %r13d
	xorl	%esi, %esi
	xorl	%ebp, %ebp
	.p2align	4
.LBB12_78:
	subq	%rbp, %r15
	cmpq	$4, %r15
	jb	.LBB12_120
	addq	%rbp, %rbx
	movzwl	(%rbx), %ebp
	cmpw	$4, %bp
	jb	.LBB12_120
	cmpq	%rbp, %r15
	jb	.LBB12_120
	movzwl	2(%rbx), %r14d
	leaq	-4(%rbp), %rdx
	andl	$16383, %r14d
	leal	-3(%r14), %eax
	cmpl	$66, %eax
	ja	.LBB12_84
	leaq	4(%rbx), %rdi
	leaq	.LJTI12_4(%rip), %rcx
	movslq	(%rcx,%rax,4), %rax
	addq	%rcx, %rax
	jmpq	*%rax
.LBB12_83:
	cmpl	$4, %edx
	movl	$4, %edx
	je	.LBB12_84
	jmp	.LBB12_120
.LBB12_86:
	movq	%rsi, %r12
	movq	%rdx, %rsi
	callq	nla_wire.payload.measure_text
	movq	32(%rsp), %r9
	movq	24(%rsp), %rcx
	leaq	16(%rcx), %r8
	movq	8(%rsp), %r10
	cmpb	$1, %al
	je	.LBB12_113
	jmp	.LBB12_120
.LBB12_87:
	cmpl	$1, %edx
	movl	$1, %edx
	je	.LBB12_84
	jmp	.LBB12_120
.LBB12_88:
	cmpl	$2, %edx
	jne	.LBB12_84
	movl	$2, %edx
	jmp	.LBB12_84
.LBB12_90:
	cmpq	$32, %rdx
	movl	$32, %eax
	cmovaeq	%rax, %rdx
	jmp	.LBB12_84
.LBB12_91:
	movq	%rsi, %r12
	movq	%rdx, %rsi
	callq	nla_wire.members.measure_each.5fa77b269143286c
	jmp	.LBB12_111
.LBB12_92:
	movq	%rsi, %r12
	movq	%rdx, %rsi
	callq	nla_wire.members.measure_each.f7f30aae703aa44d
	jmp	.LBB12_111
.LBB12_93:
	testq	%rdx, %rdx
	je	.LBB12_120
	movq	%rsi, %r12
	movq	%rdx, %rsi
	callq	nla_wire.members.measure_each.79503c7a397af21a
	jmp	.LBB12_111
.LBB12_95:
	movq	%rsi, %r12
	movq	%rdx, %rsi
	callq	nla_wire.members.measure_each.3bb4c8661a1029f4
	jmp	.LBB12_111
.LBB12_96:
	testq	%rdx, %rdx
	je	.LBB12_120
	movq	%rsi, %r12
	movq	%rdx, %rsi
	callq	nla_wire.members.measure_each.49064c0641319ce4
	jmp	.LBB12_111
.LBB12_98:
	cmpw	$11, %bp
	ja	.LBB12_84
	jmp	.LBB12_120
.LBB12_99:
	movl	$200, %edx
	jmp	.LBB12_84
.LBB12_100:
	leaq	.LJTI12_5(%rip), %rax
	movq	48(%rsp), %rcx
	movslq	(%rax,%rcx,4), %rcx
	addq	%rax, %rcx
	jmpq	*%rcx
.LBB12_101:
	movq	%rsi, %r12
	movq	%rdx, %rsi
	callq	nla_wire.members.measure_each.6cf1decf0b22dc4b
	jmp	.LBB12_111
.LBB12_102:
	movq	%rsi, %r12
	movq	%rdx, %rsi
	callq	nla_wire.members.measure_each.16a873d75d6df2a1
	jmp	.LBB12_111
.LBB12_103:
	testq	%rdx, %rdx
	je	.LBB12_120
	movq	%rsi, %r12
	movq	%rdx, %rsi
	callq	nla_wire.members.measure_each.8ba1f663fcd59a5e
	jmp	.LBB12_111
.LBB12_106:
	movl	$32, %edx
	cmpw	$35, %bp
	ja	.LBB12_84
	jmp	.LBB12_120
.LBB12_107:
	movl	$51, %eax
	movq	48(%rsp), %rcx
	btl	%ecx, %eax
	jb	.LBB12_84
	cmpl	$2, 48(%rsp)
.LBB12_109:
	testq	%rdx, %rdx
	je	.LBB12_120
	movq	%rsi, %r12
	movq	%rdx, %rsi
	callq	nla_wire.members.measure_each.1f0cb788f492ced5
	jmp	.LBB12_111
.LBB12_114:
	movl	$96, %edx
	jmp	.LBB12_84
.LBB12_115:
	movq	%rsi, %r12
	movq	%rdx, %rsi
	callq	nla_wire.members.measure_each.b30b196c481b950e
.LBB12_111:
	movq	32(%rsp), %r9
	movq	24(%rsp), %rcx
	leaq	16(%rcx), %r8
	movq	8(%rsp), %r10
	cmpb	$1, %al
	jne	.LBB12_120
	cmpq	$65532, %rdx
	jae	.LBB12_120
.LBB12_113:
	movq	%r12, %rsi
.LBB12_84:
	leaq	3(%rdx), %rax
	andq	$-4, %rax
	leaq	(%rsi,%rax), %r12
	addq	$4, %r12
	cmpq	%rsi, %r12
	jb	.LBB12_120
	addl	$3, %ebp
	andl	$-4, %ebp
	testq	%rdx, %rdx
	sete	%al
	cmpw	$24, %r14w
	sete	%cl
	andb	%al, %cl
	orb	%cl, %r13b
	movq	%r12, %rsi
	cmpq	%rbp, %r15
	ja	.LBB12_78
	movq	%r12, %rbp
	addq	%r9, %rbp
	jae	.LBB12_152
.LBB12_120:
	xorps	%xmm0, %xmm0
	movaps	%xmm0, 112(%rsp)
	movaps	%xmm0, 128(%rsp)
	movaps	%xmm0, 144(%rsp)
	testq	%r10, %r10
	je	.LBB12_153
	leaq	66(%rsp), %r15
	xorl	%ebp, %ebp
	jmp	.LBB12_125
	.p2align	4
.LBB12_123:
	movw	%r14w, 64(%rsp)
	movw	$0, 4(%r15)
	movl	$0, (%r15)
	movq	%r12, 72(%rsp)
	movq	%r13, 80(%rsp)
	leaq	112(%rsp), %rdi
	leaq	64(%rsp), %rdx
	movq	48(%rsp), %rsi
	movq	%r10, %r14
	movq	%r8, %rbx
	callq	nla_wire.place.check_one.c4c48bc1b6cb0726
	movq	%rbx, %r8
	movq	%r14, %r10
	cmpb	$0, 112(%rsp)
	jne	.LBB12_172
.LBB12_124:
	addl	$3, %ebp
	andl	$-4, %ebp
	cmpq	%rbp, %r10
	jbe	.LBB12_153
.LBB12_125:
	subq	%rbp, %r10
	cmpq	$4, %r10
	jb	.LBB12_156
	addq	%rbp, %r8
	movzwl	(%r8), %ebp
	cmpq	%rbp, %r10
	jb	.LBB12_157
	cmpw	$3, %bp
	jbe	.LBB12_158
	movzwl	2(%r8), %r14d
	movl	%r14d, %eax
	andl	$16383, %eax
	addl	$-3, %eax
	cmpl	$64, %eax
	ja	.LBB12_124
	leaq	4(%r8), %r12
	leaq	-4(%rbp), %r13
	leaq	.LJTI12_7(%rip), %rcx
	movslq	(%rcx,%rax,4), %rax
	addq	%rcx, %rax
	jmpq	*%rax
.LBB12_122:
	cmpl	$4, %r13d
	je	.LBB12_124
	jmp	.LBB12_123
.LBB12_130:
	movq	%r12, %rdi
	movq	%r13, %rsi
	movq	%r10, %r15
	movq	%r8, %rbx
	callq	nla_wire.payload.measure_text
	movq	%rbx, %r8
	movq	%r15, %r10
	leaq	66(%rsp), %r15
	testb	$1, %al
	je	.LBB12_123
	jmp	.LBB12_124
.LBB12_131:
	cmpl	$1, %r13d
	jne	.LBB12_123
	jmp	.LBB12_124
.LBB12_132:
	testq	%r13, %r13
	je	.LBB12_123
	movq	%r12, %rdi
	movq	%r13, %rsi
	movq	%r10, 8(%rsp)
	movq	%r8, %r15
	callq	nla_wire.members.measure_each.79503c7a397af21a
	jmp	.LBB12_151
.LBB12_134:
	movq	%r12, %rdi
	movq	%r13, %rsi
	movq	%r10, 8(%rsp)
	movq	%r8, %r15
	callq	nla_wire.members.measure_each.f7f30aae703aa44d
	jmp	.LBB12_151
.LBB12_135:
	movq	%r12, %rdi
	movq	%r13, %rsi
	movq	%r10, 8(%rsp)
	movq	%r8, %r15
	callq	nla_wire.members.measure_each.b30b196c481b950e
	jmp	.LBB12_151
.LBB12_136:
	movq	%r12, %rdi
	movq	%r13, %rsi
	movq	%r10, 8(%rsp)
	movq	%r8, %r15
	callq	nla_wire.members.measure_each.5fa77b269143286c
	jmp	.LBB12_151
.LBB12_137:
	testq	%r13, %r13
	je	.LBB12_123
	movq	%r12, %rdi
	movq	%r13, %rsi
	movq	%r10, 8(%rsp)
	movq	%r8, %r15
	callq	nla_wire.members.measure_each.8ba1f663fcd59a5e
	jmp	.LBB12_151
.LBB12_139:
	cmpw	$35, %bp
	jbe	.LBB12_123
	jmp	.LBB12_124
.LBB12_140:
	movl	$51, %eax
	movq	48(%rsp), %rcx
	btl	%ecx, %eax
	jb	.LBB12_124
	cmpl	$2, 48(%rsp)
	jmp	.LBB12_142
.LBB12_144:
	cmpw	$11, %bp
	jbe	.LBB12_123
	jmp	.LBB12_124
.LBB12_145:
	leaq	.LJTI12_8(%rip), %rax
	movq	48(%rsp), %rcx
	movslq	(%rax,%rcx,4), %rcx
	addq	%rax, %rcx
	jmpq	*%rcx
.LBB12_146:
	movq	%r12, %rdi
	movq	%r13, %rsi
	movq	%r10, 8(%rsp)
	movq	%r8, %r15
	callq	nla_wire.members.measure_each.6cf1decf0b22dc4b
	jmp	.LBB12_151
.LBB12_142:
	testq	%r13, %r13
	je	.LBB12_123
	movq	%r12, %rdi
	movq	%r13, %rsi
	movq	%r10, 8(%rsp)
	movq	%r8, %r15
	callq	nla_wire.members.measure_each.1f0cb788f492ced5
	jmp	.LBB12_151
.LBB12_147:
	testq	%r13, %r13
	je	.LBB12_123
	movq	%r12, %rdi
	movq	%r13, %rsi
	movq	%r10, 8(%rsp)
	movq	%r8, %r15
	callq	nla_wire.members.measure_each.49064c0641319ce4
	jmp	.LBB12_151
.LBB12_149:
	movq	%r12, %rdi
	movq	%r13, %rsi
	movq	%r10, 8(%rsp)
	movq	%r8, %r15
	callq	nla_wire.members.measure_each.3bb4c8661a1029f4
	jmp	.LBB12_151
.LBB12_150:
	movq	%r12, %rdi
	movq	%r13, %rsi
	movq	%r10, 8(%rsp)
	movq	%r8, %r15
	callq	nla_wire.members.measure_each.16a873d75d6df2a1
.LBB12_151:
	movq	%r15, %r8
	leaq	66(%rsp), %r15
	movq	8(%rsp), %r10
	cmpb	$1, %al
	sete	%al
	cmpq	$65532, %rdx
	setb	%cl
	testb	%cl, %al
	je	.LBB12_123
	jmp	.LBB12_124
.LBB12_118:
	xorl	%r12d, %r12d
	xorl	%r13d, %r13d
	movq	%r12, %rbp
	addq	%r9, %rbp
	jb	.LBB12_120
.LBB12_152:
	cmpq	$-17, %rbp
	jbe	.LBB12_154
.LBB12_153:
	movl	$1, %edi
	xorl	%eax, %eax
	xorl	%edx, %edx
	xorl	%esi, %esi
	xorl	%r10d, %r10d
	xorl	%ecx, %ecx
	movq	56(%rsp), %rbx
	jmp	.LBB12_166
.LBB12_154:
	testb	$1, %r13b
	movq	56(%rsp), %rbx
	je	.LBB12_168
	movl	$2, %edi
	jmp	.LBB12_164
.LBB12_156:
	movl	$1, %ebp
	jmp	.LBB12_159
.LBB12_157:
	shll	$16, %ebp
	orq	$2, %rbp
	jmp	.LBB12_159
.LBB12_158:
	shll	$16, %ebp
	orq	$3, %rbp
	xorl	%r10d, %r10d
.LBB12_159:
	leaq	.Lstatic.20(%rip), %rax
	xorl	%edi, %edi
	xorl	%ecx, %ecx
	movq	%rbp, %rsi
	movq	56(%rsp), %rbx
.LBB12_160:
	movl	(%rax), %edx
	movl	3(%rax), %r8d
	shlq	$32, %r8
	orq	%rdx, %r8
	movl	$7, %edx
	movabsq	$7233184988000772464, %r9
	cmpq	%r9, %r8
	jne	.LBB12_162
	movzbl	%bpl, %ebp
	leaq	.Lstatic.21(%rip), %rax
	xorl	%edi, %edi
.LBB12_162:
	movzbl	%bpl, %r8d
	cmpw	$8, %r8w
	jne	.LBB12_165
	movl	$3, %edi
.LBB12_164:
	xorl	%eax, %eax
	xorl	%edx, %edx
	xorl	%esi, %esi
	xorl	%r10d, %r10d
	xorl	%ecx, %ecx
	jmp	.LBB12_166
.LBB12_165:
	andl	$65280, %ebp
	movzwl	%r8w, %r8d
	shlq	$32, %rdi
	andl	$-65536, %esi
	orq	%rbp, %rsi
	orq	%rdi, %rsi
	orq	%r8, %rsi
	xorl	%edi, %edi
.LBB12_166:
	movq	$1, (%rbx)
	movq	%rdi, 8(%rbx)
	movq	%rax, 16(%rbx)
	movq	%rdx, 24(%rbx)
	movq	%rsi, 32(%rbx)
	movq	%r10, 40(%rbx)
	movq	%rcx, 48(%rbx)
.LBB12_167:
	addq	$184, %rsp
	.cfi_def_cfa_offset 56
	popq	%rbx
	.cfi_def_cfa_offset 48
	popq	%r12
	.cfi_def_cfa_offset 40
	popq	%r13
	.cfi_def_cfa_offset 32
	popq	%r14
	.cfi_def_cfa_offset 24
	popq	%r15
	.cfi_def_cfa_offset 16
	popq	%rbp
	.cfi_def_cfa_offset 8
	retq
.LBB12_168:
	.cfi_def_cfa_offset 240
	addq	$16, %rbp
	js	.LBB12_173
	movl	$1, %esi
	movq	%rbp, %rdi
	callq	rattle_alloc@PLT
	movq	32(%rsp), %r10
	testb	$1, %al
	je	.LBB12_173
	movq	%rdx, %r14
	leaq	.LJTI12_6(%rip), %rax
	movq	48(%rsp), %rcx
	movslq	(%rax,%rcx,4), %rcx
	addq	%rax, %rcx
	jmpq	*%rcx
.LBB12_171:
	xorl	%ecx, %ecx
	jmp	.LBB12_179
.LBB12_172:
	movq	120(%rsp), %rax
	movq	128(%rsp), %rdx
	movq	136(%rsp), %rbp
	movq	144(%rsp), %r10
	movq	152(%rsp), %rcx
	movq	%rbp, %rdi
	shrq	$32, %rdi
	movq	%rbp, %rsi
	cmpq	$7, %rdx
	movq	56(%rsp), %rbx
	jne	.LBB12_162
	jmp	.LBB12_160
.LBB12_173:
	movq	$1, (%rbx)
	movq	$3, 8(%rbx)
	xorps	%xmm0, %xmm0
	movups	%xmm0, 16(%rbx)
	movups	%xmm0, 32(%rbx)
	movq	$0, 48(%rbx)
	jmp	.LBB12_167
.LBB12_174:
	movw	$45, %cx
	jmp	.LBB12_179
.LBB12_175:
	movw	$7, %cx
	jmp	.LBB12_179
.LBB12_176:
	movw	$10, %cx
	jmp	.LBB12_179
.LBB12_177:
	movw	$2, %cx
	jmp	.LBB12_179
.LBB12_178:
	movq	96(%rsp), %rcx
	shrl	$8, %ecx
.LBB12_179:
	movq	24(%rsp), %r9
	leaq	16(%r9), %rsi
	movl	44(%rsp), %edx
	movq	16(%rsp), %rdi
	leaq	.Lswitch.table.line_filter.answers.AnsweringTake.take.d1b9b744fe2e7f64(%rip), %rax
	movzwl	(%rax,%rdi,2), %eax
	movw	%cx, (%r14)
	movw	%ax, 2(%r14)
	movl	%edx, 4(%r14)
	movaps	160(%rsp), %xmm0
	movlps	%xmm0, 8(%r14)
	leaq	16(%r10), %rbx
	leaq	16(%r14), %rdi
	movq	%rdi, %rax
	subq	%rsi, %rax
	cmpq	%r10, %rax
	jae	.LBB12_184
	xorl	%eax, %eax
	cmpq	$4, %r10
	jb	.LBB12_192
	movq	%r14, %rcx
	subq	%r9, %rcx
	cmpq	$32, %rcx
	jb	.LBB12_192
	cmpq	$32, %r10
	jae	.LBB12_185
	xorl	%eax, %eax
	jmp	.LBB12_189
.LBB12_184:
	movq	%r10, %rdx
	callq	memmove@PLT
	movq	32(%rsp), %r10
	movq	88(%rsp), %rsi
	jmp	.LBB12_197
.LBB12_185:
	movq	%r10, %rax
	andq	$-32, %rax
	xorl	%ecx, %ecx
.LBB12_186:
	movups	16(%r9,%rcx), %xmm0
	movups	32(%r9,%rcx), %xmm1
	movups	%xmm0, 16(%r14,%rcx)
	movups	%xmm1, 32(%r14,%rcx)
	addq	$32, %rcx
	cmpq	%rcx, %rax
	jne	.LBB12_186
	cmpq	%rax, %r10
	je	.LBB12_197
	testb	$28, %r10b
	je	.LBB12_192
.LBB12_189:
	movq	%rax, %rcx
	movq	%r10, %rax
	andq	$-4, %rax
.LBB12_190:
	movl	(%rsi,%rcx), %edx
	movl	%edx, (%rdi,%rcx)
	addq	$4, %rcx
	cmpq	%rcx, %rax
	jne	.LBB12_190
	cmpq	%rax, %r10
	je	.LBB12_197
.LBB12_192:
	movq	%r10, %rdx
	movq	%rax, %rcx
	andq	$3, %rdx
	je	.LBB12_195
	movq	%rax, %rcx
.LBB12_194:
	movzbl	(%rsi,%rcx), %r8d
	movb	%r8b, (%rdi,%rcx)
	incq	%rcx
	decq	%rdx
	jne	.LBB12_194
.LBB12_195:
	subq	%r10, %rax
	cmpq	$-4, %rax
	ja	.LBB12_197
.LBB12_196:
	movzbl	16(%r9,%rcx), %eax
	movb	%al, 16(%r14,%rcx)
	movzbl	17(%r9,%rcx), %eax
	movb	%al, 17(%r14,%rcx)
	movzbl	18(%r9,%rcx), %eax
	movb	%al, 18(%r14,%rcx)
	movzbl	19(%r9,%rcx), %eax
	movb	%al, 19(%r14,%rcx)
	addq	$4, %rcx
	cmpq	%rcx, %r10
	jne	.LBB12_196
.LBB12_197:
	movq	%rbp, %r15
	cmpq	%rbx, %rbp
	jbe	.LBB12_200
	leaq	(%rbx,%r12), %r15
	cmpq	%r15, %rbx
	jae	.LBB12_200
	leaq	(%r14,%rbx), %rdi
	xorl	%esi, %esi
	movq	%r12, %rdx
	callq	memset@PLT
	movq	32(%rsp), %r10
	movq	88(%rsp), %rsi
.LBB12_200:
	addq	%r10, %rsi
	leaq	(%r14,%rbx), %rcx
	movq	%r15, %r8
	subq	%rbx, %r8
	movq	48(%rsp), %rdi
	movq	104(%rsp), %rdx
	callq	nla_wire.members.write_each.c4c48bc1b6cb0726
	movq	56(%rsp), %rax
	movq	$0, (%rax)
	movq	%r14, 8(%rax)
	movq	%r15, 16(%rax)
	movq	%rbp, 24(%rax)
	xorps	%xmm0, %xmm0
	movups	%xmm0, 32(%rax)
	movq	$0, 48(%rax)
	jmp	.LBB12_167
.LBB12_71:
	cmpl	$0, 48(%rsp)
	jmp	.LBB12_76
.Lfunc_end12:
	.size	link_msg.encoding.canonical, .Lfunc_end12-link_msg.encoding.canonical
	.cfi_endproc
	.section	.rodata.link_msg.encoding.canonical,"a",@progbits
	.p2align	2, 0x0
.LJTI12_0:
	.long	.LBB12_9-.LJTI12_0
	.long	.LBB12_5-.LJTI12_0
	.long	.LBB12_3-.LJTI12_0
	.long	.LBB12_5-.LJTI12_0
	.long	.LBB12_5-.LJTI12_0
	.long	.LBB12_5-.LJTI12_0
	.long	.LBB12_5-.LJTI12_0
	.long	.LBB12_6-.LJTI12_0
	.long	.LBB12_5-.LJTI12_0
	.long	.LBB12_5-.LJTI12_0
	.long	.LBB12_7-.LJTI12_0
	.long	.LBB12_5-.LJTI12_0
	.long	.LBB12_5-.LJTI12_0
	.long	.LBB12_5-.LJTI12_0
	.long	.LBB12_5-.LJTI12_0
	.long	.LBB12_5-.LJTI12_0
	.long	.LBB12_5-.LJTI12_0
	.long	.LBB12_5-.LJTI12_0
	.long	.LBB12_5-.LJTI12_0
	.long	.LBB12_5-.LJTI12_0
	.long	.LBB12_5-.LJTI12_0
	.long	.LBB12_5-.LJTI12_0
	.long	.LBB12_5-.LJTI12_0
	.long	.LBB12_5-.LJTI12_0
	.long	.LBB12_5-.LJTI12_0
	.long	.LBB12_5-.LJTI12_0
	.long	.LBB12_5-.LJTI12_0
	.long	.LBB12_5-.LJTI12_0
	.long	.LBB12_5-.LJTI12_0
	.long	.LBB12_5-.LJTI12_0
	.long	.LBB12_5-.LJTI12_0
	.long	.LBB12_5-.LJTI12_0
	.long	.LBB12_5-.LJTI12_0
	.long	.LBB12_5-.LJTI12_0
	.long	.LBB12_5-.LJTI12_0
	.long	.LBB12_5-.LJTI12_0
	.long	.LBB12_5-.LJTI12_0
	.long	.LBB12_5-.LJTI12_0
	.long	.LBB12_5-.LJTI12_0
	.long	.LBB12_5-.LJTI12_0
	.long	.LBB12_5-.LJTI12_0
	.long	.LBB12_5-.LJTI12_0
	.long	.LBB12_5-.LJTI12_0
	.long	.LBB12_5-.LJTI12_0
	.long	.LBB12_5-.LJTI12_0
	.long	.LBB12_8-.LJTI12_0
.LJTI12_1:
	.long	.LBB12_11-.LJTI12_1
	.long	.LBB12_20-.LJTI12_1
	.long	.LBB12_24-.LJTI12_1
	.long	.LBB12_21-.LJTI12_1
	.long	.LBB12_25-.LJTI12_1
	.long	.LBB12_19-.LJTI12_1
	.long	.LBB12_26-.LJTI12_1
	.long	.LBB12_17-.LJTI12_1
	.long	.LBB12_27-.LJTI12_1
	.long	.LBB12_29-.LJTI12_1
	.long	.LBB12_29-.LJTI12_1
	.long	.LBB12_29-.LJTI12_1
	.long	.LBB12_29-.LJTI12_1
	.long	.LBB12_29-.LJTI12_1
	.long	.LBB12_29-.LJTI12_1
	.long	.LBB12_22-.LJTI12_1
	.long	.LBB12_29-.LJTI12_1
	.long	.LBB12_29-.LJTI12_1
	.long	.LBB12_29-.LJTI12_1
	.long	.LBB12_23-.LJTI12_1
	.long	.LBB12_29-.LJTI12_1
	.long	.LBB12_29-.LJTI12_1
	.long	.LBB12_29-.LJTI12_1
	.long	.LBB12_16-.LJTI12_1
	.long	.LBB12_28-.LJTI12_1
	.long	.LBB12_29-.LJTI12_1
	.long	.LBB12_29-.LJTI12_1
	.long	.LBB12_18-.LJTI12_1
	.long	.LBB12_29-.LJTI12_1
	.long	.LBB12_29-.LJTI12_1
	.long	.LBB12_29-.LJTI12_1
	.long	.LBB12_29-.LJTI12_1
	.long	.LBB12_15-.LJTI12_1
.LJTI12_2:
	.long	.LBB12_14-.LJTI12_2
	.long	.LBB12_35-.LJTI12_2
	.long	.LBB12_37-.LJTI12_2
	.long	.LBB12_32-.LJTI12_2
	.long	.LBB12_39-.LJTI12_2
	.long	.LBB12_29-.LJTI12_2
	.long	.LBB12_29-.LJTI12_2
	.long	.LBB12_29-.LJTI12_2
	.long	.LBB12_33-.LJTI12_2
	.long	.LBB12_29-.LJTI12_2
	.long	.LBB12_29-.LJTI12_2
	.long	.LBB12_29-.LJTI12_2
	.long	.LBB12_29-.LJTI12_2
	.long	.LBB12_29-.LJTI12_2
	.long	.LBB12_34-.LJTI12_2
	.long	.LBB12_31-.LJTI12_2
	.long	.LBB12_30-.LJTI12_2
	.long	.LBB12_29-.LJTI12_2
	.long	.LBB12_29-.LJTI12_2
	.long	.LBB12_29-.LJTI12_2
	.long	.LBB12_29-.LJTI12_2
	.long	.LBB12_29-.LJTI12_2
	.long	.LBB12_29-.LJTI12_2
	.long	.LBB12_29-.LJTI12_2
	.long	.LBB12_38-.LJTI12_2
	.long	.LBB12_29-.LJTI12_2
	.long	.LBB12_29-.LJTI12_2
	.long	.LBB12_29-.LJTI12_2
	.long	.LBB12_29-.LJTI12_2
	.long	.LBB12_29-.LJTI12_2
	.long	.LBB12_29-.LJTI12_2
	.long	.LBB12_29-.LJTI12_2
	.long	.LBB12_29-.LJTI12_2
	.long	.LBB12_29-.LJTI12_2
	.long	.LBB12_36-.LJTI12_2
.LJTI12_3:
	.long	.LBB12_67-.LJTI12_3
	.long	.LBB12_67-.LJTI12_3
	.long	.LBB12_65-.LJTI12_3
	.long	.LBB12_61-.LJTI12_3
	.long	.LBB12_61-.LJTI12_3
	.long	.LBB12_65-.LJTI12_3
	.long	.LBB12_74-.LJTI12_3
	.long	.LBB12_64-.LJTI12_3
	.long	.LBB12_64-.LJTI12_3
	.long	.LBB12_61-.LJTI12_3
	.long	.LBB12_76-.LJTI12_3
	.long	.LBB12_72-.LJTI12_3
	.long	.LBB12_61-.LJTI12_3
	.long	.LBB12_76-.LJTI12_3
	.long	.LBB12_64-.LJTI12_3
	.long	.LBB12_66-.LJTI12_3
	.long	.LBB12_66-.LJTI12_3
	.long	.LBB12_76-.LJTI12_3
	.long	.LBB12_61-.LJTI12_3
	.long	.LBB12_65-.LJTI12_3
	.long	.LBB12_61-.LJTI12_3
	.long	.LBB12_76-.LJTI12_3
	.long	.LBB12_73-.LJTI12_3
	.long	.LBB12_76-.LJTI12_3
	.long	.LBB12_76-.LJTI12_3
	.long	.LBB12_69-.LJTI12_3
	.long	.LBB12_61-.LJTI12_3
	.long	.LBB12_61-.LJTI12_3
	.long	.LBB12_61-.LJTI12_3
	.long	.LBB12_61-.LJTI12_3
	.long	.LBB12_61-.LJTI12_3
	.long	.LBB12_61-.LJTI12_3
	.long	.LBB12_66-.LJTI12_3
	.long	.LBB12_76-.LJTI12_3
	.long	.LBB12_61-.LJTI12_3
	.long	.LBB12_76-.LJTI12_3
	.long	.LBB12_61-.LJTI12_3
	.long	.LBB12_65-.LJTI12_3
	.long	.LBB12_66-.LJTI12_3
	.long	.LBB12_61-.LJTI12_3
	.long	.LBB12_61-.LJTI12_3
	.long	.LBB12_64-.LJTI12_3
	.long	.LBB12_76-.LJTI12_3
	.long	.LBB12_61-.LJTI12_3
	.long	.LBB12_61-.LJTI12_3
	.long	.LBB12_61-.LJTI12_3
	.long	.LBB12_61-.LJTI12_3
	.long	.LBB12_61-.LJTI12_3
	.long	.LBB12_61-.LJTI12_3
	.long	.LBB12_61-.LJTI12_3
	.long	.LBB12_61-.LJTI12_3
	.long	.LBB12_76-.LJTI12_3
	.long	.LBB12_64-.LJTI12_3
	.long	.LBB12_67-.LJTI12_3
	.long	.LBB12_76-.LJTI12_3
	.long	.LBB12_65-.LJTI12_3
	.long	.LBB12_65-.LJTI12_3
	.long	.LBB12_61-.LJTI12_3
	.long	.LBB12_61-.LJTI12_3
	.long	.LBB12_61-.LJTI12_3
	.long	.LBB12_61-.LJTI12_3
	.long	.LBB12_76-.LJTI12_3
	.long	.LBB12_61-.LJTI12_3
	.long	.LBB12_61-.LJTI12_3
	.long	.LBB12_76-.LJTI12_3
	.long	.LBB12_64-.LJTI12_3
	.long	.LBB12_76-.LJTI12_3
	.long	.LBB12_68-.LJTI12_3
	.long	.LBB12_68-.LJTI12_3
.LJTI12_4:
	.long	.LBB12_86-.LJTI12_4
	.long	.LBB12_83-.LJTI12_4
	.long	.LBB12_83-.LJTI12_4
	.long	.LBB12_86-.LJTI12_4
	.long	.LBB12_114-.LJTI12_4
	.long	.LBB12_84-.LJTI12_4
	.long	.LBB12_84-.LJTI12_4
	.long	.LBB12_83-.LJTI12_4
	.long	.LBB12_98-.LJTI12_4
	.long	.LBB12_107-.LJTI12_4
	.long	.LBB12_83-.LJTI12_4
	.long	.LBB12_106-.LJTI12_4
	.long	.LBB12_84-.LJTI12_4
	.long	.LBB12_87-.LJTI12_4
	.long	.LBB12_87-.LJTI12_4
	.long	.LBB12_96-.LJTI12_4
	.long	.LBB12_83-.LJTI12_4
	.long	.LBB12_86-.LJTI12_4
	.long	.LBB12_83-.LJTI12_4
	.long	.LBB12_95-.LJTI12_4
	.long	.LBB12_99-.LJTI12_4
	.long	.LBB12_93-.LJTI12_4
	.long	.LBB12_109-.LJTI12_4
	.long	.LBB12_100-.LJTI12_4
	.long	.LBB12_83-.LJTI12_4
	.long	.LBB12_83-.LJTI12_4
	.long	.LBB12_83-.LJTI12_4
	.long	.LBB12_83-.LJTI12_4
	.long	.LBB12_83-.LJTI12_4
	.long	.LBB12_83-.LJTI12_4
	.long	.LBB12_87-.LJTI12_4
	.long	.LBB12_90-.LJTI12_4
	.long	.LBB12_83-.LJTI12_4
	.long	.LBB12_90-.LJTI12_4
	.long	.LBB12_83-.LJTI12_4
	.long	.LBB12_86-.LJTI12_4
	.long	.LBB12_87-.LJTI12_4
	.long	.LBB12_83-.LJTI12_4
	.long	.LBB12_83-.LJTI12_4
	.long	.LBB12_84-.LJTI12_4
	.long	.LBB12_103-.LJTI12_4
	.long	.LBB12_83-.LJTI12_4
	.long	.LBB12_83-.LJTI12_4
	.long	.LBB12_83-.LJTI12_4
	.long	.LBB12_83-.LJTI12_4
	.long	.LBB12_83-.LJTI12_4
	.long	.LBB12_83-.LJTI12_4
	.long	.LBB12_83-.LJTI12_4
	.long	.LBB12_83-.LJTI12_4
	.long	.LBB12_115-.LJTI12_4
	.long	.LBB12_84-.LJTI12_4
	.long	.LBB12_84-.LJTI12_4
	.long	.LBB12_92-.LJTI12_4
	.long	.LBB12_86-.LJTI12_4
	.long	.LBB12_86-.LJTI12_4
	.long	.LBB12_83-.LJTI12_4
	.long	.LBB12_83-.LJTI12_4
	.long	.LBB12_83-.LJTI12_4
	.long	.LBB12_83-.LJTI12_4
	.long	.LBB12_102-.LJTI12_4
	.long	.LBB12_83-.LJTI12_4
	.long	.LBB12_83-.LJTI12_4
	.long	.LBB12_91-.LJTI12_4
	.long	.LBB12_84-.LJTI12_4
	.long	.LBB12_87-.LJTI12_4
	.long	.LBB12_88-.LJTI12_4
	.long	.LBB12_88-.LJTI12_4
.LJTI12_5:
	.long	.LBB12_101-.LJTI12_5
	.long	.LBB12_84-.LJTI12_5
	.long	.LBB12_109-.LJTI12_5
	.long	.LBB12_84-.LJTI12_5
	.long	.LBB12_84-.LJTI12_5
	.long	.LBB12_84-.LJTI12_5
.LJTI12_6:
	.long	.LBB12_171-.LJTI12_6
	.long	.LBB12_177-.LJTI12_6
	.long	.LBB12_175-.LJTI12_6
	.long	.LBB12_176-.LJTI12_6
	.long	.LBB12_174-.LJTI12_6
	.long	.LBB12_178-.LJTI12_6
.LJTI12_7:
	.long	.LBB12_130-.LJTI12_7
	.long	.LBB12_122-.LJTI12_7
	.long	.LBB12_122-.LJTI12_7
	.long	.LBB12_130-.LJTI12_7
	.long	.LBB12_124-.LJTI12_7
	.long	.LBB12_124-.LJTI12_7
	.long	.LBB12_124-.LJTI12_7
	.long	.LBB12_122-.LJTI12_7
	.long	.LBB12_144-.LJTI12_7
	.long	.LBB12_140-.LJTI12_7
	.long	.LBB12_122-.LJTI12_7
	.long	.LBB12_139-.LJTI12_7
	.long	.LBB12_124-.LJTI12_7
	.long	.LBB12_131-.LJTI12_7
	.long	.LBB12_131-.LJTI12_7
	.long	.LBB12_147-.LJTI12_7
	.long	.LBB12_122-.LJTI12_7
	.long	.LBB12_130-.LJTI12_7
	.long	.LBB12_122-.LJTI12_7
	.long	.LBB12_149-.LJTI12_7
	.long	.LBB12_124-.LJTI12_7
	.long	.LBB12_132-.LJTI12_7
	.long	.LBB12_142-.LJTI12_7
	.long	.LBB12_145-.LJTI12_7
	.long	.LBB12_122-.LJTI12_7
	.long	.LBB12_122-.LJTI12_7
	.long	.LBB12_122-.LJTI12_7
	.long	.LBB12_122-.LJTI12_7
	.long	.LBB12_122-.LJTI12_7
	.long	.LBB12_122-.LJTI12_7
	.long	.LBB12_131-.LJTI12_7
	.long	.LBB12_124-.LJTI12_7
	.long	.LBB12_122-.LJTI12_7
	.long	.LBB12_124-.LJTI12_7
	.long	.LBB12_122-.LJTI12_7
	.long	.LBB12_130-.LJTI12_7
	.long	.LBB12_131-.LJTI12_7
	.long	.LBB12_122-.LJTI12_7
	.long	.LBB12_122-.LJTI12_7
	.long	.LBB12_124-.LJTI12_7
	.long	.LBB12_137-.LJTI12_7
	.long	.LBB12_122-.LJTI12_7
	.long	.LBB12_122-.LJTI12_7
	.long	.LBB12_122-.LJTI12_7
	.long	.LBB12_122-.LJTI12_7
	.long	.LBB12_122-.LJTI12_7
	.long	.LBB12_122-.LJTI12_7
	.long	.LBB12_122-.LJTI12_7
	.long	.LBB12_122-.LJTI12_7
	.long	.LBB12_135-.LJTI12_7
	.long	.LBB12_124-.LJTI12_7
	.long	.LBB12_124-.LJTI12_7
	.long	.LBB12_134-.LJTI12_7
	.long	.LBB12_130-.LJTI12_7
	.long	.LBB12_130-.LJTI12_7
	.long	.LBB12_122-.LJTI12_7
	.long	.LBB12_122-.LJTI12_7
	.long	.LBB12_122-.LJTI12_7
	.long	.LBB12_122-.LJTI12_7
	.long	.LBB12_150-.LJTI12_7
	.long	.LBB12_122-.LJTI12_7
	.long	.LBB12_122-.LJTI12_7
	.long	.LBB12_136-.LJTI12_7
	.long	.LBB12_124-.LJTI12_7
	.long	.LBB12_131-.LJTI12_7
.LJTI12_8:
	.long	.LBB12_146-.LJTI12_8
	.long	.LBB12_124-.LJTI12_8
	.long	.LBB12_142-.LJTI12_8
	.long	.LBB12_124-.LJTI12_8
	.long	.LBB12_124-.LJTI12_8
	.long	.LBB12_124-.LJTI12_8

	.section	.text.link_vals.link_layer_type.high,"ax",@progbits
	.p2align	4
	.type	link_vals.link_layer_type.high,@function
link_vals.link_layer_type.high:
	.cfi_startproc
	movzwl	%di, %ecx
	leal	-512(%rcx), %eax
	cmpl	$314, %eax
	ja	.LBB13_1
	leaq	.LJTI13_0(%rip), %rcx
	movslq	(%rcx,%rax,4), %rax
	addq	%rcx, %rax
	jmpq	*%rax
.LBB13_4:
	movb	$26, %al
	retq
.LBB13_1:
	cmpl	$65534, %ecx
	jne	.LBB13_43
	movb	$65, %al
	retq
.LBB13_43:
	movb	$66, %al
	retq
.LBB13_39:
	movb	$61, %al
	retq
.LBB13_31:
	movb	$53, %al
	retq
.LBB13_34:
	movb	$56, %al
	retq
.LBB13_33:
	movb	$55, %al
	retq
.LBB13_26:
	movb	$48, %al
	retq
.LBB13_30:
	movb	$52, %al
	retq
.LBB13_42:
	movb	$64, %al
	retq
.LBB13_32:
	movb	$54, %al
	retq
.LBB13_29:
	movb	$51, %al
	retq
.LBB13_40:
	movb	$62, %al
	retq
.LBB13_24:
	movb	$46, %al
	retq
.LBB13_25:
	movb	$47, %al
	retq
.LBB13_17:
	movb	$39, %al
	retq
.LBB13_41:
	movb	$63, %al
	retq
.LBB13_13:
	movb	$35, %al
	retq
.LBB13_38:
	movb	$60, %al
	retq
.LBB13_14:
	movb	$36, %al
	retq
.LBB13_36:
	movb	$58, %al
	retq
.LBB13_11:
	movb	$33, %al
	retq
.LBB13_16:
	movb	$38, %al
	retq
.LBB13_15:
	movb	$37, %al
	retq
.LBB13_8:
	movb	$30, %al
	retq
.LBB13_12:
	movb	$34, %al
	retq
.LBB13_5:
	movb	$27, %al
	retq
.LBB13_7:
	movb	$29, %al
	retq
.LBB13_6:
	movb	$28, %al
	retq
.LBB13_10:
	movb	$32, %al
	retq
.LBB13_9:
	movb	$31, %al
	retq
.LBB13_19:
	movb	$41, %al
	retq
.LBB13_21:
	movb	$43, %al
	retq
.LBB13_23:
	movb	$45, %al
	retq
.LBB13_22:
	movb	$44, %al
	retq
.LBB13_18:
	movb	$40, %al
	retq
.LBB13_28:
	movb	$50, %al
	retq
.LBB13_20:
	movb	$42, %al
	retq
.LBB13_27:
	movb	$49, %al
	retq
.LBB13_35:
	movb	$57, %al
	retq
.LBB13_37:
	movb	$59, %al
	retq
.Lfunc_end13:
	.size	link_vals.link_layer_type.high, .Lfunc_end13-link_vals.link_layer_type.high
	.cfi_endproc
	.section	.rodata.link_vals.link_layer_type.high,"a",@progbits
	.p2align	2, 0x0
.LJTI13_0:
	.long	.LBB13_4-.LJTI13_0
	.long	.LBB13_5-.LJTI13_0
	.long	.LBB13_43-.LJTI13_0
	.long	.LBB13_43-.LJTI13_0
	.long	.LBB13_6-.LJTI13_0
	.long	.LBB13_7-.LJTI13_0
	.long	.LBB13_8-.LJTI13_0
	.long	.LBB13_9-.LJTI13_0
	.long	.LBB13_43-.LJTI13_0
	.long	.LBB13_43-.LJTI13_0
	.long	.LBB13_43-.LJTI13_0
	.long	.LBB13_43-.LJTI13_0
	.long	.LBB13_43-.LJTI13_0
	.long	.LBB13_43-.LJTI13_0
	.long	.LBB13_43-.LJTI13_0
	.long	.LBB13_43-.LJTI13_0
	.long	.LBB13_43-.LJTI13_0
	.long	.LBB13_43-.LJTI13_0
	.long	.LBB13_43-.LJTI13_0
	.long	.LBB13_43-.LJTI13_0
	.long	.LBB13_43-.LJTI13_0
	.long	.LBB13_43-.LJTI13_0
	.long	.LBB13_43-.LJTI13_0
	.long	.LBB13_43-.LJTI13_0
	.long	.LBB13_43-.LJTI13_0
	.long	.LBB13_43-.LJTI13_0
	.long	.LBB13_43-.LJTI13_0
	.long	.LBB13_43-.LJTI13_0
	.long	.LBB13_43-.LJTI13_0
	.long	.LBB13_43-.LJTI13_0
	.long	.LBB13_43-.LJTI13_0
	.long	.LBB13_43-.LJTI13_0
	.long	.LBB13_43-.LJTI13_0
	.long	.LBB13_43-.LJTI13_0
	.long	.LBB13_43-.LJTI13_0
	.long	.LBB13_43-.LJTI13_0
	.long	.LBB13_43-.LJTI13_0
	.long	.LBB13_43-.LJTI13_0
	.long	.LBB13_43-.LJTI13_0
	.long	.LBB13_43-.LJTI13_0
	.long	.LBB13_43-.LJTI13_0
	.long	.LBB13_43-.LJTI13_0
	.long	.LBB13_43-.LJTI13_0
	.long	.LBB13_43-.LJTI13_0
	.long	.LBB13_43-.LJTI13_0
	.long	.LBB13_43-.LJTI13_0
	.long	.LBB13_43-.LJTI13_0
	.long	.LBB13_43-.LJTI13_0
	.long	.LBB13_43-.LJTI13_0
	.long	.LBB13_43-.LJTI13_0
	.long	.LBB13_43-.LJTI13_0
	.long	.LBB13_43-.LJTI13_0
	.long	.LBB13_43-.LJTI13_0
	.long	.LBB13_43-.LJTI13_0
	.long	.LBB13_43-.LJTI13_0
	.long	.LBB13_43-.LJTI13_0
	.long	.LBB13_43-.LJTI13_0
	.long	.LBB13_43-.LJTI13_0
	.long	.LBB13_43-.LJTI13_0
	.long	.LBB13_43-.LJTI13_0
	.long	.LBB13_43-.LJTI13_0
	.long	.LBB13_43-.LJTI13_0
	.long	.LBB13_43-.LJTI13_0
	.long	.LBB13_43-.LJTI13_0
	.long	.LBB13_43-.LJTI13_0
	.long	.LBB13_43-.LJTI13_0
	.long	.LBB13_43-.LJTI13_0
	.long	.LBB13_43-.LJTI13_0
	.long	.LBB13_43-.LJTI13_0
	.long	.LBB13_43-.LJTI13_0
	.long	.LBB13_43-.LJTI13_0
	.long	.LBB13_43-.LJTI13_0
	.long	.LBB13_43-.LJTI13_0
	.long	.LBB13_43-.LJTI13_0
	.long	.LBB13_43-.LJTI13_0
	.long	.LBB13_43-.LJTI13_0
	.long	.LBB13_43-.LJTI13_0
	.long	.LBB13_43-.LJTI13_0
	.long	.LBB13_43-.LJTI13_0
	.long	.LBB13_43-.LJTI13_0
	.long	.LBB13_43-.LJTI13_0
	.long	.LBB13_43-.LJTI13_0
	.long	.LBB13_43-.LJTI13_0
	.long	.LBB13_43-.LJTI13_0
	.long	.LBB13_43-.LJTI13_0
	.long	.LBB13_43-.LJTI13_0
	.long	.LBB13_43-.LJTI13_0
	.long	.LBB13_43-.LJTI13_0
	.long	.LBB13_43-.LJTI13_0
	.long	.LBB13_43-.LJTI13_0
	.long	.LBB13_43-.LJTI13_0
	.long	.LBB13_43-.LJTI13_0
	.long	.LBB13_43-.LJTI13_0
	.long	.LBB13_43-.LJTI13_0
	.long	.LBB13_43-.LJTI13_0
	.long	.LBB13_43-.LJTI13_0
	.long	.LBB13_43-.LJTI13_0
	.long	.LBB13_43-.LJTI13_0
	.long	.LBB13_43-.LJTI13_0
	.long	.LBB13_43-.LJTI13_0
	.long	.LBB13_43-.LJTI13_0
	.long	.LBB13_43-.LJTI13_0
	.long	.LBB13_43-.LJTI13_0
	.long	.LBB13_43-.LJTI13_0
	.long	.LBB13_43-.LJTI13_0
	.long	.LBB13_43-.LJTI13_0
	.long	.LBB13_43-.LJTI13_0
	.long	.LBB13_43-.LJTI13_0
	.long	.LBB13_43-.LJTI13_0
	.long	.LBB13_43-.LJTI13_0
	.long	.LBB13_43-.LJTI13_0
	.long	.LBB13_43-.LJTI13_0
	.long	.LBB13_43-.LJTI13_0
	.long	.LBB13_43-.LJTI13_0
	.long	.LBB13_43-.LJTI13_0
	.long	.LBB13_43-.LJTI13_0
	.long	.LBB13_43-.LJTI13_0
	.long	.LBB13_43-.LJTI13_0
	.long	.LBB13_43-.LJTI13_0
	.long	.LBB13_43-.LJTI13_0
	.long	.LBB13_43-.LJTI13_0
	.long	.LBB13_43-.LJTI13_0
	.long	.LBB13_43-.LJTI13_0
	.long	.LBB13_43-.LJTI13_0
	.long	.LBB13_43-.LJTI13_0
	.long	.LBB13_43-.LJTI13_0
	.long	.LBB13_43-.LJTI13_0
	.long	.LBB13_43-.LJTI13_0
	.long	.LBB13_43-.LJTI13_0
	.long	.LBB13_43-.LJTI13_0
	.long	.LBB13_43-.LJTI13_0
	.long	.LBB13_43-.LJTI13_0
	.long	.LBB13_43-.LJTI13_0
	.long	.LBB13_43-.LJTI13_0
	.long	.LBB13_43-.LJTI13_0
	.long	.LBB13_43-.LJTI13_0
	.long	.LBB13_43-.LJTI13_0
	.long	.LBB13_43-.LJTI13_0
	.long	.LBB13_43-.LJTI13_0
	.long	.LBB13_43-.LJTI13_0
	.long	.LBB13_43-.LJTI13_0
	.long	.LBB13_43-.LJTI13_0
	.long	.LBB13_43-.LJTI13_0
	.long	.LBB13_43-.LJTI13_0
	.long	.LBB13_43-.LJTI13_0
	.long	.LBB13_43-.LJTI13_0
	.long	.LBB13_43-.LJTI13_0
	.long	.LBB13_43-.LJTI13_0
	.long	.LBB13_43-.LJTI13_0
	.long	.LBB13_43-.LJTI13_0
	.long	.LBB13_43-.LJTI13_0
	.long	.LBB13_43-.LJTI13_0
	.long	.LBB13_43-.LJTI13_0
	.long	.LBB13_43-.LJTI13_0
	.long	.LBB13_43-.LJTI13_0
	.long	.LBB13_43-.LJTI13_0
	.long	.LBB13_43-.LJTI13_0
	.long	.LBB13_43-.LJTI13_0
	.long	.LBB13_43-.LJTI13_0
	.long	.LBB13_43-.LJTI13_0
	.long	.LBB13_43-.LJTI13_0
	.long	.LBB13_43-.LJTI13_0
	.long	.LBB13_43-.LJTI13_0
	.long	.LBB13_43-.LJTI13_0
	.long	.LBB13_43-.LJTI13_0
	.long	.LBB13_43-.LJTI13_0
	.long	.LBB13_43-.LJTI13_0
	.long	.LBB13_43-.LJTI13_0
	.long	.LBB13_43-.LJTI13_0
	.long	.LBB13_43-.LJTI13_0
	.long	.LBB13_43-.LJTI13_0
	.long	.LBB13_43-.LJTI13_0
	.long	.LBB13_43-.LJTI13_0
	.long	.LBB13_43-.LJTI13_0
	.long	.LBB13_43-.LJTI13_0
	.long	.LBB13_43-.LJTI13_0
	.long	.LBB13_43-.LJTI13_0
	.long	.LBB13_43-.LJTI13_0
	.long	.LBB13_43-.LJTI13_0
	.long	.LBB13_43-.LJTI13_0
	.long	.LBB13_43-.LJTI13_0
	.long	.LBB13_43-.LJTI13_0
	.long	.LBB13_43-.LJTI13_0
	.long	.LBB13_43-.LJTI13_0
	.long	.LBB13_43-.LJTI13_0
	.long	.LBB13_43-.LJTI13_0
	.long	.LBB13_43-.LJTI13_0
	.long	.LBB13_43-.LJTI13_0
	.long	.LBB13_43-.LJTI13_0
	.long	.LBB13_43-.LJTI13_0
	.long	.LBB13_43-.LJTI13_0
	.long	.LBB13_43-.LJTI13_0
	.long	.LBB13_43-.LJTI13_0
	.long	.LBB13_43-.LJTI13_0
	.long	.LBB13_43-.LJTI13_0
	.long	.LBB13_43-.LJTI13_0
	.long	.LBB13_43-.LJTI13_0
	.long	.LBB13_43-.LJTI13_0
	.long	.LBB13_43-.LJTI13_0
	.long	.LBB13_43-.LJTI13_0
	.long	.LBB13_43-.LJTI13_0
	.long	.LBB13_43-.LJTI13_0
	.long	.LBB13_43-.LJTI13_0
	.long	.LBB13_43-.LJTI13_0
	.long	.LBB13_43-.LJTI13_0
	.long	.LBB13_43-.LJTI13_0
	.long	.LBB13_43-.LJTI13_0
	.long	.LBB13_43-.LJTI13_0
	.long	.LBB13_43-.LJTI13_0
	.long	.LBB13_43-.LJTI13_0
	.long	.LBB13_43-.LJTI13_0
	.long	.LBB13_43-.LJTI13_0
	.long	.LBB13_43-.LJTI13_0
	.long	.LBB13_43-.LJTI13_0
	.long	.LBB13_43-.LJTI13_0
	.long	.LBB13_43-.LJTI13_0
	.long	.LBB13_43-.LJTI13_0
	.long	.LBB13_43-.LJTI13_0
	.long	.LBB13_43-.LJTI13_0
	.long	.LBB13_43-.LJTI13_0
	.long	.LBB13_43-.LJTI13_0
	.long	.LBB13_43-.LJTI13_0
	.long	.LBB13_43-.LJTI13_0
	.long	.LBB13_43-.LJTI13_0
	.long	.LBB13_43-.LJTI13_0
	.long	.LBB13_43-.LJTI13_0
	.long	.LBB13_43-.LJTI13_0
	.long	.LBB13_43-.LJTI13_0
	.long	.LBB13_43-.LJTI13_0
	.long	.LBB13_43-.LJTI13_0
	.long	.LBB13_43-.LJTI13_0
	.long	.LBB13_43-.LJTI13_0
	.long	.LBB13_43-.LJTI13_0
	.long	.LBB13_43-.LJTI13_0
	.long	.LBB13_43-.LJTI13_0
	.long	.LBB13_43-.LJTI13_0
	.long	.LBB13_43-.LJTI13_0
	.long	.LBB13_43-.LJTI13_0
	.long	.LBB13_43-.LJTI13_0
	.long	.LBB13_43-.LJTI13_0
	.long	.LBB13_43-.LJTI13_0
	.long	.LBB13_43-.LJTI13_0
	.long	.LBB13_43-.LJTI13_0
	.long	.LBB13_43-.LJTI13_0
	.long	.LBB13_43-.LJTI13_0
	.long	.LBB13_43-.LJTI13_0
	.long	.LBB13_43-.LJTI13_0
	.long	.LBB13_43-.LJTI13_0
	.long	.LBB13_43-.LJTI13_0
	.long	.LBB13_43-.LJTI13_0
	.long	.LBB13_43-.LJTI13_0
	.long	.LBB13_43-.LJTI13_0
	.long	.LBB13_43-.LJTI13_0
	.long	.LBB13_43-.LJTI13_0
	.long	.LBB13_43-.LJTI13_0
	.long	.LBB13_43-.LJTI13_0
	.long	.LBB13_10-.LJTI13_0
	.long	.LBB13_11-.LJTI13_0
	.long	.LBB13_12-.LJTI13_0
	.long	.LBB13_13-.LJTI13_0
	.long	.LBB13_14-.LJTI13_0
	.long	.LBB13_15-.LJTI13_0
	.long	.LBB13_16-.LJTI13_0
	.long	.LBB13_17-.LJTI13_0
	.long	.LBB13_18-.LJTI13_0
	.long	.LBB13_19-.LJTI13_0
	.long	.LBB13_20-.LJTI13_0
	.long	.LBB13_21-.LJTI13_0
	.long	.LBB13_22-.LJTI13_0
	.long	.LBB13_23-.LJTI13_0
	.long	.LBB13_24-.LJTI13_0
	.long	.LBB13_25-.LJTI13_0
	.long	.LBB13_26-.LJTI13_0
	.long	.LBB13_27-.LJTI13_0
	.long	.LBB13_28-.LJTI13_0
	.long	.LBB13_29-.LJTI13_0
	.long	.LBB13_43-.LJTI13_0
	.long	.LBB13_43-.LJTI13_0
	.long	.LBB13_43-.LJTI13_0
	.long	.LBB13_43-.LJTI13_0
	.long	.LBB13_43-.LJTI13_0
	.long	.LBB13_43-.LJTI13_0
	.long	.LBB13_43-.LJTI13_0
	.long	.LBB13_43-.LJTI13_0
	.long	.LBB13_43-.LJTI13_0
	.long	.LBB13_43-.LJTI13_0
	.long	.LBB13_43-.LJTI13_0
	.long	.LBB13_43-.LJTI13_0
	.long	.LBB13_30-.LJTI13_0
	.long	.LBB13_31-.LJTI13_0
	.long	.LBB13_32-.LJTI13_0
	.long	.LBB13_33-.LJTI13_0
	.long	.LBB13_34-.LJTI13_0
	.long	.LBB13_35-.LJTI13_0
	.long	.LBB13_43-.LJTI13_0
	.long	.LBB13_43-.LJTI13_0
	.long	.LBB13_43-.LJTI13_0
	.long	.LBB13_43-.LJTI13_0
	.long	.LBB13_43-.LJTI13_0
	.long	.LBB13_43-.LJTI13_0
	.long	.LBB13_43-.LJTI13_0
	.long	.LBB13_43-.LJTI13_0
	.long	.LBB13_43-.LJTI13_0
	.long	.LBB13_43-.LJTI13_0
	.long	.LBB13_43-.LJTI13_0
	.long	.LBB13_43-.LJTI13_0
	.long	.LBB13_43-.LJTI13_0
	.long	.LBB13_43-.LJTI13_0
	.long	.LBB13_36-.LJTI13_0
	.long	.LBB13_37-.LJTI13_0
	.long	.LBB13_38-.LJTI13_0
	.long	.LBB13_39-.LJTI13_0
	.long	.LBB13_40-.LJTI13_0
	.long	.LBB13_41-.LJTI13_0
	.long	.LBB13_42-.LJTI13_0

	.section	.text.nla_wire.payload.measure_text,"ax",@progbits
	.p2align	4
	.type	nla_wire.payload.measure_text,@function
nla_wire.payload.measure_text:
	.cfi_startproc
	testq	%rsi, %rsi
	je	.LBB14_3
	cmpb	$0, -1(%rdi,%rsi)
	je	.LBB14_2
.LBB14_3:
	cmpq	$65530, %rsi
	jbe	.LBB14_5
.LBB14_4:
	xorl	%edx, %edx
	xorl	%eax, %eax
	retq
.LBB14_2:
	decq	%rsi
	cmpq	$65530, %rsi
	ja	.LBB14_4
.LBB14_5:
	testq	%rsi, %rsi
	je	.LBB14_18
	cmpq	$3, %rsi
	ja	.LBB14_10
	cmpb	$0, (%rdi)
	js	.LBB14_13
	movq	%rsi, %rax
	shrq	%rax
	cmpb	$0, (%rdi,%rax)
	js	.LBB14_13
	cmpb	$0, -1(%rdi,%rsi)
	jns	.LBB14_18
	jmp	.LBB14_13
.LBB14_10:
	cmpq	$7, %rsi
	ja	.LBB14_15
	testl	$-2139062144, (%rdi)
	jne	.LBB14_13
	testl	$-2139062144, -4(%rdi,%rsi)
	jne	.LBB14_13
	jmp	.LBB14_18
.LBB14_15:
	cmpq	$16, %rsi
	ja	.LBB14_19
	movabsq	$-9187201950435737472, %rax
	testq	%rax, (%rdi)
	jne	.LBB14_13
	testq	%rax, -8(%rdi,%rsi)
	jne	.LBB14_13
	jmp	.LBB14_18
.LBB14_19:
	cmpq	$31, %rsi
	ja	.LBB14_23
	movdqu	(%rdi), %xmm0
	pshufd	$238, %xmm0, %xmm1
	pmaxub	%xmm0, %xmm1
	pshufd	$85, %xmm1, %xmm0
	pmaxub	%xmm1, %xmm0
	movdqa	%xmm0, %xmm1
	psrld	$16, %xmm1
	pmaxub	%xmm0, %xmm1
	movdqa	%xmm1, %xmm0
	psrlw	$8, %xmm0
	pmaxub	%xmm1, %xmm0
	movd	%xmm0, %eax
	testb	%al, %al
	js	.LBB14_13
	movdqu	-16(%rdi,%rsi), %xmm0
	pshufd	$238, %xmm0, %xmm1
	pmaxub	%xmm0, %xmm1
	pshufd	$85, %xmm1, %xmm0
	pmaxub	%xmm1, %xmm0
	movdqa	%xmm0, %xmm1
	psrld	$16, %xmm1
	pmaxub	%xmm0, %xmm1
	movdqa	%xmm1, %xmm0
	psrlw	$8, %xmm0
	pmaxub	%xmm1, %xmm0
	movd	%xmm0, %eax
	jmp	.LBB14_22
.LBB14_23:
	movl	%esi, %eax
	andl	$65504, %eax
	pxor	%xmm0, %xmm0
	xorl	%ecx, %ecx
	pxor	%xmm1, %xmm1
	.p2align	4
.LBB14_24:
	movdqu	(%rdi,%rcx), %xmm2
	pmaxub	%xmm2, %xmm0
	movdqu	16(%rdi,%rcx), %xmm2
	pmaxub	%xmm2, %xmm1
	addq	$32, %rcx
	cmpq	%rcx, %rax
	jne	.LBB14_24
	pmaxub	%xmm1, %xmm0
	pshufd	$238, %xmm0, %xmm1
	pmaxub	%xmm0, %xmm1
	pshufd	$85, %xmm1, %xmm0
	pmaxub	%xmm1, %xmm0
	movdqa	%xmm0, %xmm1
	psrld	$16, %xmm1
	pmaxub	%xmm0, %xmm1
	movdqa	%xmm1, %xmm0
	psrlw	$8, %xmm0
	pmaxub	%xmm1, %xmm0
	movd	%xmm0, %eax
	testb	%al, %al
	js	.LBB14_13
	movdqu	-32(%rdi,%rsi), %xmm0
	movdqu	-16(%rdi,%rsi), %xmm1
	pmaxub	%xmm0, %xmm1
	pshufd	$238, %xmm1, %xmm0
	pmaxub	%xmm1, %xmm0
	pshufd	$85, %xmm0, %xmm1
	pmaxub	%xmm0, %xmm1
	movdqa	%xmm1, %xmm0
	psrld	$16, %xmm0
	pmaxub	%xmm1, %xmm0
	movdqa	%xmm0, %xmm1
	psrlw	$8, %xmm1
	pmaxub	%xmm0, %xmm1
	movd	%xmm1, %eax
.LBB14_22:
	testb	%al, %al
	js	.LBB14_13
.LBB14_18:
	incq	%rsi
	movb	$1, %al
	movq	%rsi, %rdx
	retq
.LBB14_13:
	pushq	%rbx
	.cfi_def_cfa_offset 16
	.cfi_offset %rbx, -16
	movq	%rsi, %rbx
	callq	nla_wire.text.is_decoded
	incq	%rbx
	xorl	%edx, %edx
	testb	%al, %al
	cmovneq	%rbx, %rdx
	popq	%rbx
	.cfi_def_cfa_offset 8
	.cfi_restore %rbx
	retq
.Lfunc_end14:
	.size	nla_wire.payload.measure_text, .Lfunc_end14-nla_wire.payload.measure_text
	.cfi_endproc

	.section	.text.nla_wire.text.is_decoded,"ax",@progbits
	.p2align	4
	.type	nla_wire.text.is_decoded,@function
nla_wire.text.is_decoded:
	.cfi_startproc
	subq	$24, %rsp
	.cfi_def_cfa_offset 32
	movq	%rsi, %rdx
	movq	%rdi, %rsi
	xorps	%xmm0, %xmm0
	movaps	%xmm0, (%rsp)
	movq	$0, 16(%rsp)
	movq	%rsp, %rdi
	callq	core.str.utf8.from_utf8
	cmpb	$0, (%rsp)
	sete	%al
	addq	$24, %rsp
	.cfi_def_cfa_offset 8
	retq
.Lfunc_end15:
	.size	nla_wire.text.is_decoded, .Lfunc_end15-nla_wire.text.is_decoded
	.cfi_endproc

	.section	.text.nla_wire.members.measure_each.49064c0641319ce4,"ax",@progbits
	.p2align	4
	.type	nla_wire.members.measure_each.49064c0641319ce4,@function
nla_wire.members.measure_each.49064c0641319ce4:
	.cfi_startproc
	pushq	%r15
	.cfi_def_cfa_offset 16
	pushq	%r14
	.cfi_def_cfa_offset 24
	pushq	%r12
	.cfi_def_cfa_offset 32
	pushq	%rbx
	.cfi_def_cfa_offset 40
	pushq	%rax
	.cfi_def_cfa_offset 48
	.cfi_offset %rbx, -40
	.cfi_offset %r12, -32
	.cfi_offset %r14, -24
	.cfi_offset %r15, -16
	movq	%rsi, %rbx
	movq	%rdi, %r14
	xorl	%r15d, %r15d
	xorl	%r12d, %r12d
	.p2align	4
.LBB16_1:
	subq	%r12, %rbx
	jbe	.LBB16_2
	cmpq	$4, %rbx
	jb	.LBB16_11
	addq	%r12, %r14
	movzwl	(%r14), %r12d
	xorl	%edx, %edx
	movl	$0, %eax
	cmpw	$4, %r12w
	jb	.LBB16_12
	cmpq	%r12, %rbx
	jb	.LBB16_12
	movzwl	2(%r14), %eax
	leaq	-4(%r12), %rdx
	andl	$16383, %eax
	cmpw	$1, %ax
	jne	.LBB16_8
	leaq	4(%r14), %rdi
	movq	%rdx, %rsi
	callq	nla_wire.payload.measure_text
	cmpb	$1, %al
	je	.LBB16_10
	jmp	.LBB16_11
	.p2align	4
.LBB16_8:
	movb	$1, %al
	cmpb	$1, %al
	jne	.LBB16_11
.LBB16_10:
	addl	$3, %r12d
	andl	$-4, %r12d
	addq	$3, %rdx
	andq	$-4, %rdx
	leaq	(%r15,%rdx), %rax
	addq	$4, %rax
	cmpq	%r15, %rax
	movq	%rax, %r15
	jae	.LBB16_1
.LBB16_11:
	xorl	%edx, %edx
	xorl	%eax, %eax
	jmp	.LBB16_12
.LBB16_2:
	movb	$1, %al
	movq	%r15, %rdx
.LBB16_12:
	addq	$8, %rsp
	.cfi_def_cfa_offset 40
	popq	%rbx
	.cfi_def_cfa_offset 32
	popq	%r12
	.cfi_def_cfa_offset 24
	popq	%r14
	.cfi_def_cfa_offset 16
	popq	%r15
	.cfi_def_cfa_offset 8
	retq
.Lfunc_end16:
	.size	nla_wire.members.measure_each.49064c0641319ce4, .Lfunc_end16-nla_wire.members.measure_each.49064c0641319ce4
	.cfi_endproc

	.section	.text.nla_wire.members.measure_each.3bb4c8661a1029f4,"ax",@progbits
	.p2align	4
	.type	nla_wire.members.measure_each.3bb4c8661a1029f4,@function
nla_wire.members.measure_each.3bb4c8661a1029f4:
	.cfi_startproc
	testq	%rsi, %rsi
	je	.LBB17_1
	pushq	%r15
	.cfi_def_cfa_offset 16
	pushq	%r14
	.cfi_def_cfa_offset 24
	pushq	%r12
	.cfi_def_cfa_offset 32
	pushq	%rbx
	.cfi_def_cfa_offset 40
	pushq	%rax
	.cfi_def_cfa_offset 48
	.cfi_offset %rbx, -40
	.cfi_offset %r12, -32
	.cfi_offset %r14, -24
	.cfi_offset %r15, -16
	movq	%rsi, %rbx
	movq	%rdi, %r14
	xorl	%r15d, %r15d
	xorl	%r12d, %r12d
	jmp	.LBB17_4
	.p2align	4
.LBB17_13:
	addl	$3, %r12d
	andl	$-4, %r12d
	cmpq	%r12, %rbx
	jbe	.LBB17_14
.LBB17_4:
	subq	%r12, %rbx
	cmpq	$4, %rbx
	jb	.LBB17_5
	addq	%r12, %r14
	movzwl	(%r14), %r12d
	xorl	%edx, %edx
	movl	$0, %eax
	cmpw	$4, %r12w
	jb	.LBB17_15
	cmpq	%r12, %rbx
	jb	.LBB17_15
	movzwl	2(%r14), %eax
	andl	$16383, %eax
	cmpw	$1, %ax
	jne	.LBB17_13
	movq	%r12, %rsi
	addq	$-4, %rsi
	je	.LBB17_5
	leaq	4(%r14), %rdi
	callq	nla_wire.members.measure_each.41ac5f0caeaa9df8
	movl	%eax, %esi
	movq	%rdx, %rcx
	xorl	%edx, %edx
	movl	$0, %eax
	cmpb	$1, %sil
	jne	.LBB17_15
	cmpq	$65531, %rcx
	ja	.LBB17_15
	addl	$3, %ecx
	andl	$131068, %ecx
	leaq	(%r15,%rcx), %rax
	addq	$4, %rax
	cmpq	%r15, %rax
	movq	%rax, %r15
	jae	.LBB17_13
.LBB17_5:
	xorl	%edx, %edx
	xorl	%eax, %eax
	jmp	.LBB17_15
.LBB17_1:
	.cfi_def_cfa_offset 8
	.cfi_restore %rbx
	.cfi_restore %r12
	.cfi_restore %r14
	.cfi_restore %r15
	xorl	%edx, %edx
	movb	$1, %al
	retq
.LBB17_14:
	.cfi_def_cfa_offset 48
	.cfi_offset %rbx, -40
	.cfi_offset %r12, -32
	.cfi_offset %r14, -24
	.cfi_offset %r15, -16
	movq	%r15, %rdx
	movb	$1, %al
.LBB17_15:
	addq	$8, %rsp
	.cfi_def_cfa_offset 40
	popq	%rbx
	.cfi_def_cfa_offset 32
	popq	%r12
	.cfi_def_cfa_offset 24
	popq	%r14
	.cfi_def_cfa_offset 16
	popq	%r15
	.cfi_def_cfa_offset 8
	.cfi_restore %rbx
	.cfi_restore %r12
	.cfi_restore %r14
	.cfi_restore %r15
	retq
.Lfunc_end17:
	.size	nla_wire.members.measure_each.3bb4c8661a1029f4, .Lfunc_end17-nla_wire.members.measure_each.3bb4c8661a1029f4
	.cfi_endproc

	.section	.text.nla_wire.members.measure_each.41ac5f0caeaa9df8,"ax",@progbits
	.p2align	4
	.type	nla_wire.members.measure_each.41ac5f0caeaa9df8,@function
nla_wire.members.measure_each.41ac5f0caeaa9df8:
	.cfi_startproc
	pushq	%r15
	.cfi_def_cfa_offset 16
	pushq	%r14
	.cfi_def_cfa_offset 24
	pushq	%r12
	.cfi_def_cfa_offset 32
	pushq	%rbx
	.cfi_def_cfa_offset 40
	pushq	%rax
	.cfi_def_cfa_offset 48
	.cfi_offset %rbx, -40
	.cfi_offset %r12, -32
	.cfi_offset %r14, -24
	.cfi_offset %r15, -16
	movq	%rsi, %rbx
	movq	%rdi, %r14
	xorl	%r15d, %r15d
	xorl	%r12d, %r12d
	jmp	.LBB18_1
.LBB18_8:
	movl	$12, %esi
	cmpw	$15, %r12w
	jbe	.LBB18_18
	.p2align	4
.LBB18_17:
	addl	$3, %r12d
	andl	$-4, %r12d
	addq	$3, %rsi
	andq	$-4, %rsi
	leaq	(%r15,%rsi), %rax
	addq	$4, %rax
	cmpq	%r15, %rax
	movq	%rax, %r15
	jb	.LBB18_18
.LBB18_1:
	subq	%r12, %rbx
	jbe	.LBB18_2
	cmpq	$4, %rbx
	jb	.LBB18_18
	addq	%r12, %r14
	movzwl	(%r14), %r12d
	xorl	%edx, %edx
	movl	$0, %eax
	cmpw	$4, %r12w
	jb	.LBB18_19
	cmpq	%r12, %rbx
	jb	.LBB18_19
	movzwl	2(%r14), %eax
	leaq	-4(%r12), %rsi
	andl	$16383, %eax
	decl	%eax
	cmpl	$12, %eax
	ja	.LBB18_17
	leaq	4(%r14), %rdi
	leaq	.LJTI18_0(%rip), %rcx
	movslq	(%rcx,%rax,4), %rax
	addq	%rcx, %rax
	jmpq	*%rax
.LBB18_12:
	movl	$8, %esi
	cmpw	$11, %r12w
	ja	.LBB18_17
	jmp	.LBB18_18
.LBB18_13:
	movl	$16, %esi
	cmpw	$19, %r12w
	ja	.LBB18_17
	jmp	.LBB18_18
.LBB18_14:
	callq	nla_wire.members.measure_each.9a0187163d44de3c
	jmp	.LBB18_10
.LBB18_15:
	movl	$32, %esi
	cmpw	$35, %r12w
	ja	.LBB18_17
	jmp	.LBB18_18
.LBB18_16:
	movl	$36, %esi
	cmpw	$40, %r12w
	jae	.LBB18_17
	jmp	.LBB18_18
.LBB18_9:
	callq	nla_wire.members.measure_each.5361511d0f913a98
.LBB18_10:
	movl	%eax, %ecx
	movq	%rdx, %rsi
	xorl	%edx, %edx
	movl	$0, %eax
	cmpb	$1, %cl
	jne	.LBB18_19
	cmpq	$65532, %rsi
	jb	.LBB18_17
	jmp	.LBB18_19
.LBB18_18:
	xorl	%edx, %edx
	xorl	%eax, %eax
	jmp	.LBB18_19
.LBB18_2:
	movb	$1, %al
	movq	%r15, %rdx
.LBB18_19:
	addq	$8, %rsp
	.cfi_def_cfa_offset 40
	popq	%rbx
	.cfi_def_cfa_offset 32
	popq	%r12
	.cfi_def_cfa_offset 24
	popq	%r14
	.cfi_def_cfa_offset 16
	popq	%r15
	.cfi_def_cfa_offset 8
	retq
.Lfunc_end18:
	.size	nla_wire.members.measure_each.41ac5f0caeaa9df8, .Lfunc_end18-nla_wire.members.measure_each.41ac5f0caeaa9df8
	.cfi_endproc
	.section	.rodata.nla_wire.members.measure_each.41ac5f0caeaa9df8,"a",@progbits
	.p2align	2, 0x0
.LJTI18_0:
	.long	.LBB18_16-.LJTI18_0
	.long	.LBB18_8-.LJTI18_0
	.long	.LBB18_12-.LJTI18_0
	.long	.LBB18_12-.LJTI18_0
	.long	.LBB18_12-.LJTI18_0
	.long	.LBB18_8-.LJTI18_0
	.long	.LBB18_12-.LJTI18_0
	.long	.LBB18_9-.LJTI18_0
	.long	.LBB18_12-.LJTI18_0
	.long	.LBB18_13-.LJTI18_0
	.long	.LBB18_13-.LJTI18_0
	.long	.LBB18_14-.LJTI18_0
	.long	.LBB18_15-.LJTI18_0

	.section	.text.nla_wire.members.measure_each.5361511d0f913a98,"ax",@progbits
	.p2align	4
	.type	nla_wire.members.measure_each.5361511d0f913a98,@function
nla_wire.members.measure_each.5361511d0f913a98:
	.cfi_startproc
	xorl	%ecx, %ecx
	xorl	%r8d, %r8d
	.p2align	4
.LBB19_1:
	subq	%r8, %rsi
	jbe	.LBB19_2
	cmpq	$4, %rsi
	jb	.LBB19_10
	addq	%r8, %rdi
	movzwl	(%rdi), %r8d
	xorl	%edx, %edx
	movl	$0, %eax
	cmpw	$4, %r8w
	jb	.LBB19_11
	cmpq	%r8, %rsi
	jb	.LBB19_11
	movzwl	2(%rdi), %edx
	leaq	-4(%r8), %rax
	andl	$16383, %edx
	cmpl	$8, %edx
	ja	.LBB19_9
	leaq	.LJTI19_0(%rip), %r9
	movslq	(%r9,%rdx,4), %rdx
	addq	%r9, %rdx
	jmpq	*%rdx
.LBB19_8:
	cmpl	$8, %eax
	movl	$8, %eax
	jne	.LBB19_10
.LBB19_9:
	addl	$3, %r8d
	andl	$-4, %r8d
	addq	$3, %rax
	andq	$-4, %rax
	addq	%rcx, %rax
	addq	$4, %rax
	cmpq	%rcx, %rax
	movq	%rax, %rcx
	jae	.LBB19_1
.LBB19_10:
	xorl	%edx, %edx
	xorl	%eax, %eax
.LBB19_11:
	retq
.LBB19_2:
	movb	$1, %al
	movq	%rcx, %rdx
	retq
.Lfunc_end19:
	.size	nla_wire.members.measure_each.5361511d0f913a98, .Lfunc_end19-nla_wire.members.measure_each.5361511d0f913a98
	.cfi_endproc
	.section	.rodata.nla_wire.members.measure_each.5361511d0f913a98,"a",@progbits
	.p2align	2, 0x0
.LJTI19_0:
	.long	.LBB19_8-.LJTI19_0
	.long	.LBB19_8-.LJTI19_0
	.long	.LBB19_8-.LJTI19_0
	.long	.LBB19_8-.LJTI19_0
	.long	.LBB19_8-.LJTI19_0
	.long	.LBB19_8-.LJTI19_0
	.long	.LBB19_9-.LJTI19_0
	.long	.LBB19_8-.LJTI19_0
	.long	.LBB19_8-.LJTI19_0

	.section	.text.nla_wire.members.measure_each.9a0187163d44de3c,"ax",@progbits
	.p2align	4
	.type	nla_wire.members.measure_each.9a0187163d44de3c,@function
nla_wire.members.measure_each.9a0187163d44de3c:
	.cfi_startproc
	xorl	%ecx, %ecx
	xorl	%r8d, %r8d
	jmp	.LBB20_1
	.p2align	4
.LBB20_8:
	xorl	%edx, %edx
	cmpw	$20, %r8w
	setae	%dl
	shll	$4, %edx
	leaq	-4(%r8), %r9
	cmpw	$1, %ax
	cmovneq	%r9, %rdx
	addl	$3, %r8d
	andl	$-4, %r8d
	addq	$3, %rdx
	andq	$-4, %rdx
	leaq	(%rcx,%rdx), %rax
	addq	$4, %rax
	cmpq	%rcx, %rax
	movq	%rax, %rcx
	jb	.LBB20_9
.LBB20_1:
	subq	%r8, %rsi
	jbe	.LBB20_2
	cmpq	$4, %rsi
	jb	.LBB20_9
	addq	%r8, %rdi
	movzwl	(%rdi), %r8d
	xorl	%edx, %edx
	movl	$0, %eax
	cmpw	$4, %r8w
	jb	.LBB20_10
	cmpq	%r8, %rsi
	jb	.LBB20_10
	movzwl	2(%rdi), %eax
	andl	$16383, %eax
	cmpw	$1, %ax
	jne	.LBB20_8
	cmpw	$20, %r8w
	jae	.LBB20_8
.LBB20_9:
	xorl	%edx, %edx
	xorl	%eax, %eax
.LBB20_10:
	retq
.LBB20_2:
	movb	$1, %al
	movq	%rcx, %rdx
	retq
.Lfunc_end20:
	.size	nla_wire.members.measure_each.9a0187163d44de3c, .Lfunc_end20-nla_wire.members.measure_each.9a0187163d44de3c
	.cfi_endproc

	.section	.text.nla_wire.members.measure_each.79503c7a397af21a,"ax",@progbits
	.p2align	4
	.type	nla_wire.members.measure_each.79503c7a397af21a,@function
nla_wire.members.measure_each.79503c7a397af21a:
	.cfi_startproc
	testq	%rsi, %rsi
	je	.LBB21_1
	pushq	%r15
	.cfi_def_cfa_offset 16
	pushq	%r14
	.cfi_def_cfa_offset 24
	pushq	%r12
	.cfi_def_cfa_offset 32
	pushq	%rbx
	.cfi_def_cfa_offset 40
	pushq	%rax
	.cfi_def_cfa_offset 48
	.cfi_offset %rbx, -40
	.cfi_offset %r12, -32
	.cfi_offset %r14, -24
	.cfi_offset %r15, -16
	movq	%rsi, %rbx
	movq	%rdi, %r14
	xorl	%r15d, %r15d
	xorl	%r12d, %r12d
	jmp	.LBB21_4
	.p2align	4
.LBB21_13:
	addl	$3, %r12d
	andl	$-4, %r12d
	cmpq	%r12, %rbx
	jbe	.LBB21_14
.LBB21_4:
	subq	%r12, %rbx
	cmpq	$4, %rbx
	jb	.LBB21_5
	addq	%r12, %r14
	movzwl	(%r14), %r12d
	xorl	%edx, %edx
	movl	$0, %eax
	cmpw	$4, %r12w
	jb	.LBB21_15
	cmpq	%r12, %rbx
	jb	.LBB21_15
	movzwl	2(%r14), %eax
	andl	$16383, %eax
	cmpw	$1, %ax
	jne	.LBB21_13
	movq	%r12, %rsi
	addq	$-4, %rsi
	je	.LBB21_5
	leaq	4(%r14), %rdi
	callq	nla_wire.members.measure_each.1f0cb788f492ced5
	movl	%eax, %esi
	movq	%rdx, %rcx
	xorl	%edx, %edx
	movl	$0, %eax
	cmpb	$1, %sil
	jne	.LBB21_15
	cmpq	$65531, %rcx
	ja	.LBB21_15
	addl	$3, %ecx
	andl	$131068, %ecx
	leaq	(%r15,%rcx), %rax
	addq	$4, %rax
	cmpq	%r15, %rax
	movq	%rax, %r15
	jae	.LBB21_13
.LBB21_5:
	xorl	%edx, %edx
	xorl	%eax, %eax
	jmp	.LBB21_15
.LBB21_1:
	.cfi_def_cfa_offset 8
	.cfi_restore %rbx
	.cfi_restore %r12
	.cfi_restore %r14
	.cfi_restore %r15
	xorl	%edx, %edx
	movb	$1, %al
	retq
.LBB21_14:
	.cfi_def_cfa_offset 48
	.cfi_offset %rbx, -40
	.cfi_offset %r12, -32
	.cfi_offset %r14, -24
	.cfi_offset %r15, -16
	movq	%r15, %rdx
	movb	$1, %al
.LBB21_15:
	addq	$8, %rsp
	.cfi_def_cfa_offset 40
	popq	%rbx
	.cfi_def_cfa_offset 32
	popq	%r12
	.cfi_def_cfa_offset 24
	popq	%r14
	.cfi_def_cfa_offset 16
	popq	%r15
	.cfi_def_cfa_offset 8
	.cfi_restore %rbx
	.cfi_restore %r12
	.cfi_restore %r14
	.cfi_restore %r15
	retq
.Lfunc_end21:
	.size	nla_wire.members.measure_each.79503c7a397af21a, .Lfunc_end21-nla_wire.members.measure_each.79503c7a397af21a
	.cfi_endproc

	.section	.text.nla_wire.members.measure_each.8ba1f663fcd59a5e,"ax",@progbits
	.p2align	4
	.type	nla_wire.members.measure_each.8ba1f663fcd59a5e,@function
nla_wire.members.measure_each.8ba1f663fcd59a5e:
	.cfi_startproc
	xorl	%ecx, %ecx
	xorl	%r8d, %r8d
	.p2align	4
.LBB22_1:
	subq	%r8, %rsi
	jbe	.LBB22_2
	cmpq	$4, %rsi
	jb	.LBB22_11
	addq	%r8, %rdi
	movzwl	(%rdi), %r8d
	xorl	%edx, %edx
	movl	$0, %eax
	cmpw	$4, %r8w
	jb	.LBB22_12
	cmpq	%r8, %rsi
	jb	.LBB22_12
	movzwl	2(%rdi), %edx
	leaq	-4(%r8), %rax
	andl	$16383, %edx
	decl	%edx
	cmpl	$7, %edx
	ja	.LBB22_10
	leaq	.LJTI22_0(%rip), %r9
	movslq	(%r9,%rdx,4), %rdx
	addq	%r9, %rdx
	jmpq	*%rdx
.LBB22_9:
	cmpl	$4, %eax
	movl	$4, %eax
	jne	.LBB22_11
.LBB22_10:
	addl	$3, %r8d
	andl	$-4, %r8d
	addq	$3, %rax
	andq	$-4, %rax
	addq	%rcx, %rax
	addq	$4, %rax
	cmpq	%rcx, %rax
	movq	%rax, %rcx
	jae	.LBB22_1
	jmp	.LBB22_11
.LBB22_8:
	cmpl	$1, %eax
	movl	$1, %eax
	je	.LBB22_10
.LBB22_11:
	xorl	%edx, %edx
	xorl	%eax, %eax
.LBB22_12:
	retq
.LBB22_2:
	movb	$1, %al
	movq	%rcx, %rdx
	retq
.Lfunc_end22:
	.size	nla_wire.members.measure_each.8ba1f663fcd59a5e, .Lfunc_end22-nla_wire.members.measure_each.8ba1f663fcd59a5e
	.cfi_endproc
	.section	.rodata.nla_wire.members.measure_each.8ba1f663fcd59a5e,"a",@progbits
	.p2align	2, 0x0
.LJTI22_0:
	.long	.LBB22_9-.LJTI22_0
	.long	.LBB22_8-.LJTI22_0
	.long	.LBB22_9-.LJTI22_0
	.long	.LBB22_9-.LJTI22_0
	.long	.LBB22_9-.LJTI22_0
	.long	.LBB22_9-.LJTI22_0
	.long	.LBB22_9-.LJTI22_0
	.long	.LBB22_9-.LJTI22_0

	.section	.text.nla_wire.members.measure_each.b30b196c481b950e,"ax",@progbits
	.p2align	4
	.type	nla_wire.members.measure_each.b30b196c481b950e,@function
nla_wire.members.measure_each.b30b196c481b950e:
	.cfi_startproc
	pushq	%r15
	.cfi_def_cfa_offset 16
	pushq	%r14
	.cfi_def_cfa_offset 24
	pushq	%r12
	.cfi_def_cfa_offset 32
	pushq	%rbx
	.cfi_def_cfa_offset 40
	pushq	%rax
	.cfi_def_cfa_offset 48
	.cfi_offset %rbx, -40
	.cfi_offset %r12, -32
	.cfi_offset %r14, -24
	.cfi_offset %r15, -16
	movq	%rsi, %rbx
	movq	%rdi, %r14
	xorl	%r15d, %r15d
	xorl	%r12d, %r12d
	.p2align	4
.LBB23_1:
	subq	%r12, %rbx
	jbe	.LBB23_2
	cmpq	$4, %rbx
	jb	.LBB23_11
	addq	%r12, %r14
	movzwl	(%r14), %r12d
	xorl	%edx, %edx
	movl	$0, %eax
	cmpw	$4, %r12w
	jb	.LBB23_12
	cmpq	%r12, %rbx
	jb	.LBB23_12
	movzwl	2(%r14), %eax
	leaq	-4(%r12), %rdx
	andl	$16383, %eax
	cmpw	$53, %ax
	jne	.LBB23_8
	leaq	4(%r14), %rdi
	movq	%rdx, %rsi
	callq	nla_wire.payload.measure_text
	cmpb	$1, %al
	je	.LBB23_10
	jmp	.LBB23_11
	.p2align	4
.LBB23_8:
	movb	$1, %al
	cmpb	$1, %al
	jne	.LBB23_11
.LBB23_10:
	addl	$3, %r12d
	andl	$-4, %r12d
	addq	$3, %rdx
	andq	$-4, %rdx
	leaq	(%r15,%rdx), %rax
	addq	$4, %rax
	cmpq	%r15, %rax
	movq	%rax, %r15
	jae	.LBB23_1
.LBB23_11:
	xorl	%edx, %edx
	xorl	%eax, %eax
	jmp	.LBB23_12
.LBB23_2:
	movb	$1, %al
	movq	%r15, %rdx
.LBB23_12:
	addq	$8, %rsp
	.cfi_def_cfa_offset 40
	popq	%rbx
	.cfi_def_cfa_offset 32
	popq	%r12
	.cfi_def_cfa_offset 24
	popq	%r14
	.cfi_def_cfa_offset 16
	popq	%r15
	.cfi_def_cfa_offset 8
	retq
.Lfunc_end23:
	.size	nla_wire.members.measure_each.b30b196c481b950e, .Lfunc_end23-nla_wire.members.measure_each.b30b196c481b950e
	.cfi_endproc

	.section	.text.nla_wire.members.measure_each.f7f30aae703aa44d,"ax",@progbits
	.p2align	4
	.type	nla_wire.members.measure_each.f7f30aae703aa44d,@function
nla_wire.members.measure_each.f7f30aae703aa44d:
	.cfi_startproc
	xorl	%ecx, %ecx
	xorl	%r8d, %r8d
	jmp	.LBB24_1
	.p2align	4
.LBB24_8:
	cmpl	$4, %eax
	movl	$4, %eax
	jne	.LBB24_10
.LBB24_9:
	addl	$3, %r8d
	andl	$-4, %r8d
	addq	$3, %rax
	andq	$-4, %rax
	addq	%rcx, %rax
	addq	$4, %rax
	cmpq	%rcx, %rax
	movq	%rax, %rcx
	jb	.LBB24_10
.LBB24_1:
	subq	%r8, %rsi
	jbe	.LBB24_2
	cmpq	$4, %rsi
	jb	.LBB24_10
	addq	%r8, %rdi
	movzwl	(%rdi), %r8d
	xorl	%edx, %edx
	movl	$0, %eax
	cmpw	$4, %r8w
	jb	.LBB24_11
	cmpq	%r8, %rsi
	jb	.LBB24_11
	movzwl	2(%rdi), %edx
	leaq	-4(%r8), %rax
	andl	$16383, %edx
	cmpl	$1, %edx
	je	.LBB24_8
	cmpl	$2, %edx
	je	.LBB24_8
	jmp	.LBB24_9
.LBB24_10:
	xorl	%edx, %edx
	xorl	%eax, %eax
.LBB24_11:
	retq
.LBB24_2:
	movb	$1, %al
	movq	%rcx, %rdx
	retq
.Lfunc_end24:
	.size	nla_wire.members.measure_each.f7f30aae703aa44d, .Lfunc_end24-nla_wire.members.measure_each.f7f30aae703aa44d
	.cfi_endproc

	.section	.text.nla_wire.members.measure_each.16a873d75d6df2a1,"ax",@progbits
	.p2align	4
	.type	nla_wire.members.measure_each.16a873d75d6df2a1,@function
nla_wire.members.measure_each.16a873d75d6df2a1:
	.cfi_startproc
	pushq	%r15
	.cfi_def_cfa_offset 16
	pushq	%r14
	.cfi_def_cfa_offset 24
	pushq	%r12
	.cfi_def_cfa_offset 32
	pushq	%rbx
	.cfi_def_cfa_offset 40
	pushq	%rax
	.cfi_def_cfa_offset 48
	.cfi_offset %rbx, -40
	.cfi_offset %r12, -32
	.cfi_offset %r14, -24
	.cfi_offset %r15, -16
	movq	%rsi, %rbx
	movq	%rdi, %r14
	xorl	%r15d, %r15d
	xorl	%r12d, %r12d
	.p2align	4
.LBB25_1:
	subq	%r12, %rbx
	jbe	.LBB25_2
	cmpq	$4, %rbx
	jb	.LBB25_14
	addq	%r12, %r14
	movzwl	(%r14), %r12d
	xorl	%edx, %edx
	movl	$0, %eax
	cmpw	$4, %r12w
	jb	.LBB25_15
	cmpq	%r12, %rbx
	jb	.LBB25_15
	movzwl	2(%r14), %eax
	leaq	-4(%r12), %rdx
	andl	$16383, %eax
	cmpl	$3, %eax
	je	.LBB25_10
	leaq	4(%r14), %rdi
	cmpl	$2, %eax
	je	.LBB25_9
	cmpl	$1, %eax
	jne	.LBB25_11
.LBB25_9:
	movq	%rdx, %rsi
	callq	nla_wire.payload.measure_text
	cmpb	$1, %al
	je	.LBB25_13
	jmp	.LBB25_14
	.p2align	4
.LBB25_10:
	xorl	%eax, %eax
	cmpl	$4, %edx
	sete	%al
	movl	%eax, %edx
	shll	$2, %edx
	cmpb	$1, %al
	je	.LBB25_13
	jmp	.LBB25_14
	.p2align	4
.LBB25_11:
	movb	$1, %al
	cmpb	$1, %al
	jne	.LBB25_14
.LBB25_13:
	addl	$3, %r12d
	andl	$-4, %r12d
	addq	$3, %rdx
	andq	$-4, %rdx
	leaq	(%r15,%rdx), %rax
	addq	$4, %rax
	cmpq	%r15, %rax
	movq	%rax, %r15
	jae	.LBB25_1
.LBB25_14:
	xorl	%edx, %edx
	xorl	%eax, %eax
	jmp	.LBB25_15
.LBB25_2:
	movb	$1, %al
	movq	%r15, %rdx
.LBB25_15:
	addq	$8, %rsp
	.cfi_def_cfa_offset 40
	popq	%rbx
	.cfi_def_cfa_offset 32
	popq	%r12
	.cfi_def_cfa_offset 24
	popq	%r14
	.cfi_def_cfa_offset 16
	popq	%r15
	.cfi_def_cfa_offset 8
	retq
.Lfunc_end25:
	.size	nla_wire.members.measure_each.16a873d75d6df2a1, .Lfunc_end25-nla_wire.members.measure_each.16a873d75d6df2a1
	.cfi_endproc

	.section	.text.nla_wire.members.measure_each.5fa77b269143286c,"ax",@progbits
	.p2align	4
	.type	nla_wire.members.measure_each.5fa77b269143286c,@function
nla_wire.members.measure_each.5fa77b269143286c:
	.cfi_startproc
	xorl	%ecx, %ecx
	xorl	%r8d, %r8d
	jmp	.LBB26_1
	.p2align	4
.LBB26_8:
	xorl	%r9d, %r9d
	cmpq	$4, %rax
	sete	%r9b
	shll	$2, %r9d
	cmpw	$1, %dx
	cmovneq	%rax, %r9
	addl	$3, %r8d
	andl	$-4, %r8d
	addq	$3, %r9
	andq	$-4, %r9
	leaq	(%rcx,%r9), %rax
	addq	$4, %rax
	cmpq	%rcx, %rax
	movq	%rax, %rcx
	jb	.LBB26_9
.LBB26_1:
	subq	%r8, %rsi
	jbe	.LBB26_2
	cmpq	$4, %rsi
	jb	.LBB26_9
	addq	%r8, %rdi
	movzwl	(%rdi), %r8d
	xorl	%edx, %edx
	movl	$0, %eax
	cmpw	$4, %r8w
	jb	.LBB26_10
	cmpq	%r8, %rsi
	jb	.LBB26_10
	movzwl	2(%rdi), %edx
	leaq	-4(%r8), %rax
	andl	$16383, %edx
	cmpw	$1, %dx
	jne	.LBB26_8
	cmpl	$4, %eax
	je	.LBB26_8
.LBB26_9:
	xorl	%edx, %edx
	xorl	%eax, %eax
.LBB26_10:
	retq
.LBB26_2:
	movb	$1, %al
	movq	%rcx, %rdx
	retq
.Lfunc_end26:
	.size	nla_wire.members.measure_each.5fa77b269143286c, .Lfunc_end26-nla_wire.members.measure_each.5fa77b269143286c
	.cfi_endproc

	.section	.text.nla_wire.members.measure_each.1f0cb788f492ced5,"ax",@progbits
	.p2align	4
	.type	nla_wire.members.measure_each.1f0cb788f492ced5,@function
nla_wire.members.measure_each.1f0cb788f492ced5:
	.cfi_startproc
	xorl	%ecx, %ecx
	xorl	%eax, %eax
	.p2align	4
.LBB27_1:
	subq	%rax, %rsi
	jbe	.LBB27_2
	cmpq	$4, %rsi
	jb	.LBB27_7
	addq	%rax, %rdi
	movzwl	(%rdi), %r8d
	xorl	%edx, %edx
	movl	$0, %eax
	cmpw	$4, %r8w
	jb	.LBB27_8
	cmpq	%r8, %rsi
	jb	.LBB27_8
	leal	3(%r8), %eax
	andl	$-4, %eax
	decq	%r8
	andq	$-4, %r8
	leaq	(%rcx,%r8), %rdx
	addq	$4, %rdx
	cmpq	%rcx, %rdx
	movq	%rdx, %rcx
	jae	.LBB27_1
.LBB27_7:
	xorl	%edx, %edx
	xorl	%eax, %eax
.LBB27_8:
	retq
.LBB27_2:
	movb	$1, %al
	movq	%rcx, %rdx
	retq
.Lfunc_end27:
	.size	nla_wire.members.measure_each.1f0cb788f492ced5, .Lfunc_end27-nla_wire.members.measure_each.1f0cb788f492ced5
	.cfi_endproc

	.section	.text.nla_wire.members.measure_each.6cf1decf0b22dc4b,"ax",@progbits
	.p2align	4
	.type	nla_wire.members.measure_each.6cf1decf0b22dc4b,@function
nla_wire.members.measure_each.6cf1decf0b22dc4b:
	.cfi_startproc
	pushq	%r15
	.cfi_def_cfa_offset 16
	pushq	%r14
	.cfi_def_cfa_offset 24
	pushq	%r12
	.cfi_def_cfa_offset 32
	pushq	%rbx
	.cfi_def_cfa_offset 40
	pushq	%rax
	.cfi_def_cfa_offset 48
	.cfi_offset %rbx, -40
	.cfi_offset %r12, -32
	.cfi_offset %r14, -24
	.cfi_offset %r15, -16
	movq	%rsi, %rbx
	movq	%rdi, %r14
	xorl	%r15d, %r15d
	xorl	%r12d, %r12d
	jmp	.LBB28_1
	.p2align	4
.LBB28_18:
	addl	$3, %r12d
	andl	$-4, %r12d
	addq	$3, %rsi
	andq	$-4, %rsi
	leaq	(%r15,%rsi), %rax
	addq	$4, %rax
	cmpq	%r15, %rax
	movq	%rax, %r15
	jb	.LBB28_19
.LBB28_1:
	subq	%r12, %rbx
	jbe	.LBB28_2
	cmpq	$4, %rbx
	jb	.LBB28_19
	addq	%r12, %r14
	movzwl	(%r14), %r12d
	xorl	%edx, %edx
	movl	$0, %eax
	cmpw	$4, %r12w
	jb	.LBB28_20
	cmpq	%r12, %rbx
	jb	.LBB28_20
	movzwl	2(%r14), %eax
	leaq	4(%r14), %rdi
	leaq	-4(%r12), %rsi
	andl	$16383, %eax
	cmpl	$45, %eax
	je	.LBB28_15
	cmpl	$10, %eax
	je	.LBB28_13
	cmpl	$2, %eax
	jne	.LBB28_18
	testq	%rsi, %rsi
	je	.LBB28_19
	callq	nla_wire.members.measure_each.d7cac04ae1e23078
	jmp	.LBB28_11
	.p2align	4
.LBB28_13:
	testq	%rsi, %rsi
	je	.LBB28_19
	callq	nla_wire.members.measure_each.97809315b2b26985
.LBB28_11:
	movl	%eax, %ecx
	movq	%rdx, %rsi
	xorl	%edx, %edx
	movl	$0, %eax
	cmpb	$1, %cl
	jne	.LBB28_20
	cmpq	$65532, %rsi
	jb	.LBB28_18
	jmp	.LBB28_20
	.p2align	4
.LBB28_15:
	testq	%rsi, %rsi
	je	.LBB28_19
	callq	nla_wire.members.measure_each.7562298f77a88fdb
	movl	%eax, %ecx
	movq	%rdx, %rsi
	xorl	%edx, %edx
	movl	$0, %eax
	cmpb	$1, %cl
	jne	.LBB28_20
	cmpq	$65531, %rsi
	jbe	.LBB28_18
	jmp	.LBB28_20
.LBB28_19:
	xorl	%edx, %edx
	xorl	%eax, %eax
	jmp	.LBB28_20
.LBB28_2:
	movb	$1, %al
	movq	%r15, %rdx
.LBB28_20:
	addq	$8, %rsp
	.cfi_def_cfa_offset 40
	popq	%rbx
	.cfi_def_cfa_offset 32
	popq	%r12
	.cfi_def_cfa_offset 24
	popq	%r14
	.cfi_def_cfa_offset 16
	popq	%r15
	.cfi_def_cfa_offset 8
	retq
.Lfunc_end28:
	.size	nla_wire.members.measure_each.6cf1decf0b22dc4b, .Lfunc_end28-nla_wire.members.measure_each.6cf1decf0b22dc4b
	.cfi_endproc

	.section	.text.nla_wire.members.measure_each.d7cac04ae1e23078,"ax",@progbits
	.p2align	4
	.type	nla_wire.members.measure_each.d7cac04ae1e23078,@function
nla_wire.members.measure_each.d7cac04ae1e23078:
	.cfi_startproc
	xorl	%ecx, %ecx
	xorl	%eax, %eax
	.p2align	4
.LBB29_1:
	subq	%rax, %rsi
	jbe	.LBB29_2
	cmpq	$4, %rsi
	jb	.LBB29_7
	addq	%rax, %rdi
	movzwl	(%rdi), %r8d
	xorl	%edx, %edx
	movl	$0, %eax
	cmpw	$4, %r8w
	jb	.LBB29_8
	cmpq	%r8, %rsi
	jb	.LBB29_8
	movzwl	2(%rdi), %edx
	leal	3(%r8), %eax
	andl	$-4, %eax
	andl	$16383, %edx
	decq	%r8
	andq	$-4, %r8
	addq	$4, %r8
	cmpw	$1, %dx
	movl	$140, %edx
	cmovneq	%r8, %rdx
	addq	%rdx, %rcx
	jae	.LBB29_1
.LBB29_7:
	xorl	%edx, %edx
	xorl	%eax, %eax
.LBB29_8:
	retq
.LBB29_2:
	movb	$1, %al
	movq	%rcx, %rdx
	retq
.Lfunc_end29:
	.size	nla_wire.members.measure_each.d7cac04ae1e23078, .Lfunc_end29-nla_wire.members.measure_each.d7cac04ae1e23078
	.cfi_endproc

	.section	.text.nla_wire.members.measure_each.97809315b2b26985,"ax",@progbits
	.p2align	4
	.type	nla_wire.members.measure_each.97809315b2b26985,@function
nla_wire.members.measure_each.97809315b2b26985:
	.cfi_startproc
	xorl	%ecx, %ecx
	xorl	%r8d, %r8d
	jmp	.LBB30_1
.LBB30_10:
	movl	$56, %eax
	.p2align	4
.LBB30_15:
	addl	$3, %r8d
	andl	$-4, %r8d
	addq	$3, %rax
	andq	$-4, %rax
	addq	%rcx, %rax
	addq	$4, %rax
	cmpq	%rcx, %rax
	movq	%rax, %rcx
	jb	.LBB30_16
.LBB30_1:
	subq	%r8, %rsi
	jbe	.LBB30_2
	cmpq	$4, %rsi
	jb	.LBB30_16
	addq	%r8, %rdi
	movzwl	(%rdi), %r8d
	xorl	%edx, %edx
	movl	$0, %eax
	cmpw	$4, %r8w
	jb	.LBB30_17
	cmpq	%r8, %rsi
	jb	.LBB30_17
	movzwl	2(%rdi), %edx
	leaq	-4(%r8), %rax
	andl	$16383, %edx
	decl	%edx
	cmpl	$8, %edx
	ja	.LBB30_15
	leaq	.LJTI30_0(%rip), %r9
	movslq	(%r9,%rdx,4), %rdx
	addq	%r9, %rdx
	jmpq	*%rdx
.LBB30_13:
	cmpl	$4, %eax
	movl	$4, %eax
	je	.LBB30_15
	jmp	.LBB30_16
.LBB30_11:
	cmpl	$16, %eax
	movl	$16, %eax
	je	.LBB30_15
	jmp	.LBB30_16
.LBB30_12:
	cmpl	$1, %eax
	movl	$1, %eax
	je	.LBB30_15
	jmp	.LBB30_16
.LBB30_14:
	movl	$240, %eax
	jmp	.LBB30_15
.LBB30_9:
	movl	$312, %eax
	jmp	.LBB30_15
.LBB30_8:
	movl	$16, %eax
	cmpw	$19, %r8w
	ja	.LBB30_15
.LBB30_16:
	xorl	%edx, %edx
	xorl	%eax, %eax
.LBB30_17:
	retq
.LBB30_2:
	movb	$1, %al
	movq	%rcx, %rdx
	retq
.Lfunc_end30:
	.size	nla_wire.members.measure_each.97809315b2b26985, .Lfunc_end30-nla_wire.members.measure_each.97809315b2b26985
	.cfi_endproc
	.section	.rodata.nla_wire.members.measure_each.97809315b2b26985,"a",@progbits
	.p2align	2, 0x0
.LJTI30_0:
	.long	.LBB30_13-.LJTI30_0
	.long	.LBB30_14-.LJTI30_0
	.long	.LBB30_9-.LJTI30_0
	.long	.LBB30_15-.LJTI30_0
	.long	.LBB30_8-.LJTI30_0
	.long	.LBB30_10-.LJTI30_0
	.long	.LBB30_11-.LJTI30_0
	.long	.LBB30_12-.LJTI30_0
	.long	.LBB30_13-.LJTI30_0

	.section	.text.nla_wire.members.measure_each.7562298f77a88fdb,"ax",@progbits
	.p2align	4
	.type	nla_wire.members.measure_each.7562298f77a88fdb,@function
nla_wire.members.measure_each.7562298f77a88fdb:
	.cfi_startproc
	xorl	%ecx, %ecx
	xorl	%r8d, %r8d
	jmp	.LBB31_1
	.p2align	4
.LBB31_9:
	cmpl	$4, %eax
	movl	$4, %eax
	jne	.LBB31_11
.LBB31_10:
	addl	$3, %r8d
	andl	$-4, %r8d
	addq	$3, %rax
	andq	$-4, %rax
	addq	%rcx, %rax
	addq	$4, %rax
	cmpq	%rcx, %rax
	movq	%rax, %rcx
	jb	.LBB31_11
.LBB31_1:
	subq	%r8, %rsi
	jbe	.LBB31_2
	cmpq	$4, %rsi
	jb	.LBB31_11
	addq	%r8, %rdi
	movzwl	(%rdi), %r8d
	xorl	%edx, %edx
	movl	$0, %eax
	cmpw	$4, %r8w
	jb	.LBB31_12
	cmpq	%r8, %rsi
	jb	.LBB31_12
	movzwl	2(%rdi), %edx
	leaq	-4(%r8), %rax
	andl	$16383, %edx
	cmpl	$1, %edx
	je	.LBB31_9
	cmpl	$2, %edx
	jne	.LBB31_10
	cmpl	$1, %eax
	movl	$1, %eax
	je	.LBB31_10
.LBB31_11:
	xorl	%edx, %edx
	xorl	%eax, %eax
.LBB31_12:
	retq
.LBB31_2:
	movb	$1, %al
	movq	%rcx, %rdx
	retq
.Lfunc_end31:
	.size	nla_wire.members.measure_each.7562298f77a88fdb, .Lfunc_end31-nla_wire.members.measure_each.7562298f77a88fdb
	.cfi_endproc

	.section	.rodata.cst16,"aM",@progbits,16
	.p2align	4, 0x0
.LCPI32_0:
	.byte	255
	.byte	0
	.byte	255
	.byte	255
	.byte	0
	.byte	0
	.byte	0
	.byte	0
	.byte	0
	.byte	0
	.byte	0
	.byte	0
	.byte	0
	.byte	0
	.byte	0
	.byte	0
	.section	.text.nla_wire.place.check_one.c4c48bc1b6cb0726,"ax",@progbits
	.p2align	4
	.type	nla_wire.place.check_one.c4c48bc1b6cb0726,@function
nla_wire.place.check_one.c4c48bc1b6cb0726:
	.cfi_startproc
	pushq	%rbp
	.cfi_def_cfa_offset 16
	pushq	%r15
	.cfi_def_cfa_offset 24
	pushq	%r14
	.cfi_def_cfa_offset 32
	pushq	%r13
	.cfi_def_cfa_offset 40
	pushq	%r12
	.cfi_def_cfa_offset 48
	pushq	%rbx
	.cfi_def_cfa_offset 56
	subq	$88, %rsp
	.cfi_def_cfa_offset 144
	.cfi_offset %rbx, -56
	.cfi_offset %r12, -48
	.cfi_offset %r13, -40
	.cfi_offset %r14, -32
	.cfi_offset %r15, -24
	.cfi_offset %rbp, -16
	movq	%rdi, %rbx
	xorps	%xmm0, %xmm0
	movaps	%xmm0, 64(%rsp)
	movaps	%xmm0, 48(%rsp)
	movaps	%xmm0, 32(%rsp)
	movzwl	(%rdx), %eax
	andl	$16383, %eax
	xorl	%r8d, %r8d
	decl	%eax
	cmpl	$68, %eax
	ja	.LBB32_25
	movq	%rdx, %r14
	movq	8(%rdx), %rdx
	movq	16(%r14), %rcx
	leaq	.LJTI32_0(%rip), %rdi
	movslq	(%rdi,%rax,4), %rax
	addq	%rdi, %rax
	jmpq	*%rax
.LBB32_4:
	movb	$4, %sil
.LBB32_27:
	movzbl	%sil, %esi
	leaq	32(%rsp), %rdi
	callq	link_msg.shape.Shape.check
	movzbl	32(%rsp), %r12d
	xorl	%r8d, %r8d
	testb	%r12b, %r12b
	je	.LBB32_28
	movq	40(%rsp), %r13
	movq	48(%rsp), %rbp
	movsd	56(%rsp), %xmm0
	movaps	%xmm0, (%rsp)
	movl	60(%rsp), %r15d
	movaps	64(%rsp), %xmm0
	movaps	%xmm0, 16(%rsp)
	movzwl	(%r14), %edi
	andl	$16383, %edi
	callq	link_msg.numbers.kind_name
	cmpq	$7, %rbp
	jne	.LBB32_30
	movl	$7, %ebp
	testq	%rdx, %rdx
	je	.LBB32_30
	movl	(%r13), %ecx
	movl	3(%r13), %esi
	shlq	$32, %rsi
	orq	%rcx, %rsi
	movabsq	$7233184988000772464, %rcx
	cmpq	%rcx, %rsi
	movaps	16(%rsp), %xmm0
	movaps	(%rsp), %xmm1
	jne	.LBB32_33
	andps	.LCPI32_0(%rip), %xmm1
	movq	%rax, %r13
	movq	%rdx, %rbp
	xorl	%r8d, %r8d
	jmp	.LBB32_35
.LBB32_30:
	movl	%r15d, %r8d
	movaps	16(%rsp), %xmm0
	movaps	(%rsp), %xmm1
	jmp	.LBB32_35
.LBB32_28:
	xorps	%xmm0, %xmm0
.LBB32_25:
	xorps	%xmm1, %xmm1
	xorl	%r12d, %r12d
	xorl	%r13d, %r13d
	xorl	%ebp, %ebp
.LBB32_35:
	movb	%r12b, (%rbx)
	movq	%r13, 8(%rbx)
	movq	%rbp, 16(%rbx)
	movss	%xmm1, 24(%rbx)
	movl	%r8d, 28(%rbx)
	movups	%xmm0, 32(%rbx)
	addq	$88, %rsp
	.cfi_def_cfa_offset 56
	popq	%rbx
	.cfi_def_cfa_offset 48
	popq	%r12
	.cfi_def_cfa_offset 40
	popq	%r13
	.cfi_def_cfa_offset 32
	popq	%r14
	.cfi_def_cfa_offset 24
	popq	%r15
	.cfi_def_cfa_offset 16
	popq	%rbp
	.cfi_def_cfa_offset 8
	retq
.LBB32_3:
	.cfi_def_cfa_offset 144
	movb	$1, %sil
	jmp	.LBB32_27
.LBB32_33:
	movl	%r15d, %r8d
	jmp	.LBB32_35
.LBB32_8:
	movb	$2, %sil
	jmp	.LBB32_27
.LBB32_2:
	xorl	%esi, %esi
	jmp	.LBB32_27
.LBB32_14:
	movb	$6, %sil
	jmp	.LBB32_27
.LBB32_24:
	movb	$3, %sil
	cmpq	$2, %rcx
	je	.LBB32_27
	jmp	.LBB32_25
.LBB32_11:
	movb	$8, %sil
	jmp	.LBB32_27
.LBB32_16:
	movb	$16, %sil
	jmp	.LBB32_27
.LBB32_6:
	movb	$10, %sil
	jmp	.LBB32_27
.LBB32_21:
	movzbl	%sil, %eax
	movb	$21, %sil
	movl	$51, %edi
	btl	%eax, %edi
	jb	.LBB32_25
	cmpl	$2, %eax
	jne	.LBB32_27
	movb	$20, %sil
	jmp	.LBB32_27
.LBB32_10:
	movb	$13, %sil
	jmp	.LBB32_27
.LBB32_7:
	movb	$9, %sil
	jmp	.LBB32_27
.LBB32_15:
	movb	$15, %sil
	jmp	.LBB32_27
.LBB32_18:
	movb	$18, %sil
	jmp	.LBB32_27
.LBB32_17:
	movb	$17, %sil
	jmp	.LBB32_27
.LBB32_26:
	movzbl	%sil, %eax
	shll	$3, %eax
	movl	$1441815, %esi
	movq	%rcx, %rdi
	movl	%eax, %ecx
	shrq	%cl, %rsi
	movq	%rdi, %rcx
	jmp	.LBB32_27
.LBB32_9:
	movb	$12, %sil
	jmp	.LBB32_27
.LBB32_20:
	movb	$5, %sil
	jmp	.LBB32_27
.LBB32_13:
	movb	$11, %sil
	jmp	.LBB32_27
.LBB32_5:
	movb	$7, %sil
	jmp	.LBB32_27
.LBB32_19:
	movb	$19, %sil
	jmp	.LBB32_27
.LBB32_12:
	movb	$14, %sil
	jmp	.LBB32_27
.Lfunc_end32:
	.size	nla_wire.place.check_one.c4c48bc1b6cb0726, .Lfunc_end32-nla_wire.place.check_one.c4c48bc1b6cb0726
	.cfi_endproc
	.section	.rodata.nla_wire.place.check_one.c4c48bc1b6cb0726,"a",@progbits
	.p2align	2, 0x0
.LJTI32_0:
	.long	.LBB32_2-.LJTI32_0
	.long	.LBB32_2-.LJTI32_0
	.long	.LBB32_3-.LJTI32_0
	.long	.LBB32_4-.LJTI32_0
	.long	.LBB32_4-.LJTI32_0
	.long	.LBB32_3-.LJTI32_0
	.long	.LBB32_5-.LJTI32_0
	.long	.LBB32_25-.LJTI32_0
	.long	.LBB32_25-.LJTI32_0
	.long	.LBB32_4-.LJTI32_0
	.long	.LBB32_6-.LJTI32_0
	.long	.LBB32_21-.LJTI32_0
	.long	.LBB32_4-.LJTI32_0
	.long	.LBB32_7-.LJTI32_0
	.long	.LBB32_25-.LJTI32_0
	.long	.LBB32_8-.LJTI32_0
	.long	.LBB32_8-.LJTI32_0
	.long	.LBB32_9-.LJTI32_0
	.long	.LBB32_4-.LJTI32_0
	.long	.LBB32_3-.LJTI32_0
	.long	.LBB32_4-.LJTI32_0
	.long	.LBB32_10-.LJTI32_0
	.long	.LBB32_11-.LJTI32_0
	.long	.LBB32_12-.LJTI32_0
	.long	.LBB32_13-.LJTI32_0
	.long	.LBB32_26-.LJTI32_0
	.long	.LBB32_4-.LJTI32_0
	.long	.LBB32_4-.LJTI32_0
	.long	.LBB32_4-.LJTI32_0
	.long	.LBB32_4-.LJTI32_0
	.long	.LBB32_4-.LJTI32_0
	.long	.LBB32_4-.LJTI32_0
	.long	.LBB32_8-.LJTI32_0
	.long	.LBB32_14-.LJTI32_0
	.long	.LBB32_4-.LJTI32_0
	.long	.LBB32_14-.LJTI32_0
	.long	.LBB32_4-.LJTI32_0
	.long	.LBB32_3-.LJTI32_0
	.long	.LBB32_8-.LJTI32_0
	.long	.LBB32_4-.LJTI32_0
	.long	.LBB32_4-.LJTI32_0
	.long	.LBB32_25-.LJTI32_0
	.long	.LBB32_15-.LJTI32_0
	.long	.LBB32_4-.LJTI32_0
	.long	.LBB32_4-.LJTI32_0
	.long	.LBB32_4-.LJTI32_0
	.long	.LBB32_4-.LJTI32_0
	.long	.LBB32_4-.LJTI32_0
	.long	.LBB32_4-.LJTI32_0
	.long	.LBB32_4-.LJTI32_0
	.long	.LBB32_4-.LJTI32_0
	.long	.LBB32_16-.LJTI32_0
	.long	.LBB32_25-.LJTI32_0
	.long	.LBB32_2-.LJTI32_0
	.long	.LBB32_17-.LJTI32_0
	.long	.LBB32_3-.LJTI32_0
	.long	.LBB32_3-.LJTI32_0
	.long	.LBB32_4-.LJTI32_0
	.long	.LBB32_4-.LJTI32_0
	.long	.LBB32_4-.LJTI32_0
	.long	.LBB32_4-.LJTI32_0
	.long	.LBB32_18-.LJTI32_0
	.long	.LBB32_4-.LJTI32_0
	.long	.LBB32_4-.LJTI32_0
	.long	.LBB32_19-.LJTI32_0
	.long	.LBB32_25-.LJTI32_0
	.long	.LBB32_20-.LJTI32_0
	.long	.LBB32_24-.LJTI32_0
	.long	.LBB32_24-.LJTI32_0

	.section	.text.link_msg.shape.Shape.check,"ax",@progbits
	.p2align	4
	.type	link_msg.shape.Shape.check,@function
link_msg.shape.Shape.check:
	.cfi_startproc
	pushq	%rbp
	.cfi_def_cfa_offset 16
	pushq	%r15
	.cfi_def_cfa_offset 24
	pushq	%r14
	.cfi_def_cfa_offset 32
	pushq	%r13
	.cfi_def_cfa_offset 40
	pushq	%r12
	.cfi_def_cfa_offset 48
	pushq	%rbx
	.cfi_def_cfa_offset 56
	subq	$136, %rsp
	.cfi_def_cfa_offset 192
	.cfi_offset %rbx, -56
	.cfi_offset %r12, -48
	.cfi_offset %r13, -40
	.cfi_offset %r14, -32
	.cfi_offset %r15, -24
	.cfi_offset %rbp, -16
	movq	%rcx, %r14
	movq	%rdx, %r15
	movq	%rdi, %rbx
	xorps	%xmm0, %xmm0
	movaps	%xmm0, 32(%rsp)
	movaps	%xmm0, 16(%rsp)
	movaps	%xmm0, (%rsp)
	movzbl	%sil, %eax
	leaq	.LJTI33_0(%rip), %rcx
	movslq	(%rcx,%rax,4), %rax
	addq	%rcx, %rax
	jmpq	*%rax
.LBB33_1:
	xorl	%eax, %eax
	jmp	.LBB33_190
.LBB33_2:
	xorl	%ecx, %ecx
	xorl	%eax, %eax
	cmpq	$32, %r14
	leaq	.Lstatic.20(%rip), %rdx
	cmovaeq	%rcx, %rdx
	movl	$7, %esi
	cmovaeq	%rcx, %rsi
	cmovbq	%r14, %rcx
	setb	%al
	movl	%eax, %edi
	shll	$5, %edi
	movq	%rdx, 8(%rsp)
	movq	%rsi, 16(%rsp)
	movq	$0, 24(%rsp)
	movq	%rcx, 32(%rsp)
	jmp	.LBB33_189
.LBB33_3:
	testq	%r14, %r14
	je	.LBB33_93
	movaps	%xmm0, 48(%rsp)
	movaps	%xmm0, 64(%rsp)
	movaps	%xmm0, 80(%rsp)
	xorl	%ebp, %ebp
	movq	%rbx, 128(%rsp)
	jmp	.LBB33_6
.LBB33_12:
	movw	%r12w, 104(%rsp)
	leaq	106(%rsp), %rax
	movw	$0, 4(%rax)
	movl	$0, (%rax)
	movq	%r13, 112(%rsp)
	movq	%rbx, 120(%rsp)
	leaq	48(%rsp), %rdi
	leaq	104(%rsp), %rsi
	callq	nla_wire.place.check_one.49064c0641319ce4
	cmpb	$0, 48(%rsp)
	jne	.LBB33_13
.LBB33_5:
	addl	$3, %ebp
	andl	$-4, %ebp
	cmpq	%rbp, %r14
	movq	128(%rsp), %rbx
	jbe	.LBB33_155
.LBB33_6:
	subq	%rbp, %r14
	cmpq	$4, %r14
	jb	.LBB33_165
	addq	%rbp, %r15
	movzwl	(%r15), %ebp
	cmpq	%rbp, %r14
	jb	.LBB33_151
	cmpw	$3, %bp
	jbe	.LBB33_153
	movzwl	2(%r15), %r12d
	leaq	4(%r15), %rdi
	leaq	-4(%rbp), %rsi
	movl	%r12d, %eax
	andl	$16383, %eax
	cmpw	$1, %ax
	jne	.LBB33_11
	movq	%rdi, %r13
	movq	%rsi, %rbx
	callq	nla_wire.payload.measure_text
	testb	$1, %al
	jne	.LBB33_5
	jmp	.LBB33_12
.LBB33_11:
	movq	%rsi, %rbx
	movq	%rdi, %r13
	movb	$1, %al
	testb	$1, %al
	jne	.LBB33_5
	jmp	.LBB33_12
.LBB33_14:
	xorl	%ecx, %ecx
	xorl	%eax, %eax
	cmpq	$4, %r14
	leaq	.Lstatic.20(%rip), %rdx
	cmoveq	%rcx, %rdx
	setne	%al
	movl	$7, %esi
	cmoveq	%rcx, %rsi
	leal	(%rax,%rax,4), %edi
	cmoveq	%rcx, %r14
	movl	%eax, %ecx
	shll	$2, %ecx
	jmp	.LBB33_28
.LBB33_15:
	testq	%r14, %r14
	je	.LBB33_93
	movaps	%xmm0, 80(%rsp)
	movaps	%xmm0, 64(%rsp)
	movaps	%xmm0, 48(%rsp)
	xorl	%r12d, %r12d
	jmp	.LBB33_19
.LBB33_17:
	leaq	48(%rsp), %rdi
	callq	nla_wire.place.check_one.8ba1f663fcd59a5e
	cmpb	$0, 48(%rsp)
	jne	.LBB33_192
.LBB33_18:
	addl	$3, %r12d
	andl	$-4, %r12d
	cmpq	%r12, %r14
	jbe	.LBB33_184
.LBB33_19:
	subq	%r12, %r14
	cmpq	$4, %r14
	jb	.LBB33_164
	addq	%r12, %r15
	movzwl	(%r15), %r12d
	cmpq	%r12, %r14
	jb	.LBB33_181
	cmpw	$3, %r12w
	jbe	.LBB33_182
	movzwl	2(%r15), %esi
	movl	%esi, %eax
	andl	$16383, %eax
	decl	%eax
	cmpl	$7, %eax
	ja	.LBB33_18
	leaq	-4(%r12), %rdx
	leaq	.LJTI33_1(%rip), %rcx
	movslq	(%rcx,%rax,4), %rax
	addq	%rcx, %rax
	jmpq	*%rax
.LBB33_24:
	cmpl	$4, %edx
	je	.LBB33_18
	jmp	.LBB33_17
.LBB33_25:
	cmpl	$1, %edx
	jne	.LBB33_17
	jmp	.LBB33_18
.LBB33_26:
	xorl	%ecx, %ecx
	xorl	%eax, %eax
	cmpq	$1, %r14
	setne	%al
	leaq	.Lstatic.20(%rip), %rdx
	cmoveq	%rcx, %rdx
	movl	$7, %esi
	cmoveq	%rcx, %rsi
	cmoveq	%rcx, %r14
	leal	(%rax,%rax,4), %ecx
	movq	%rdx, 8(%rsp)
	movq	%rsi, 16(%rsp)
	movw	%cx, 24(%rsp)
	movw	$0, 26(%rsp)
	movl	$0, 28(%rsp)
	movq	%r14, 32(%rsp)
	movq	%rax, 40(%rsp)
	jmp	.LBB33_190
.LBB33_27:
	xorl	%ecx, %ecx
	xorl	%eax, %eax
	cmpq	$2, %r14
	leaq	.Lstatic.20(%rip), %rdx
	cmoveq	%rcx, %rdx
	setne	%al
	movl	$7, %esi
	cmoveq	%rcx, %rsi
	leal	(%rax,%rax,4), %edi
	cmoveq	%rcx, %r14
	movl	%eax, %ecx
	addl	%ecx, %ecx
.LBB33_28:
	movq	%rdx, 8(%rsp)
	movq	%rsi, 16(%rsp)
	movw	%di, 24(%rsp)
	movw	$0, 26(%rsp)
	movl	$0, 28(%rsp)
	jmp	.LBB33_148
.LBB33_29:
	cmpq	$8, %r14
	jae	.LBB33_146
	movl	$8, %ecx
	movl	$7, %edx
	leaq	.Lstatic.20(%rip), %rsi
	movb	$1, %al
	jmp	.LBB33_147
.LBB33_31:
	cmpq	$1, %r14
	jne	.LBB33_149
	xorl	%ecx, %ecx
	xorl	%esi, %esi
	xorl	%r14d, %r14d
	xorl	%edx, %edx
	xorl	%edi, %edi
	xorl	%eax, %eax
	jmp	.LBB33_150
.LBB33_33:
	movq	%rsp, %rdi
	movq	%r15, %rsi
	movq	%r14, %rdx
	callq	nla_wire.text.check_string
	movzbl	(%rsp), %eax
	jmp	.LBB33_190
.LBB33_34:
	movaps	%xmm0, 48(%rsp)
	movaps	%xmm0, 64(%rsp)
	movaps	%xmm0, 80(%rsp)
	testq	%r14, %r14
	je	.LBB33_141
	xorl	%ebp, %ebp
	jmp	.LBB33_38
.LBB33_36:
	movw	%r12w, 104(%rsp)
	leaq	106(%rsp), %rax
	movw	$0, 4(%rax)
	movl	$0, (%rax)
	movq	%rsi, 112(%rsp)
	movq	%r13, 120(%rsp)
	leaq	48(%rsp), %rdi
	leaq	104(%rsp), %rsi
	callq	nla_wire.place.check_one.3bb4c8661a1029f4
	cmpb	$0, 48(%rsp)
	jne	.LBB33_191
.LBB33_37:
	addl	$3, %ebp
	andl	$-4, %ebp
	cmpq	%rbp, %r14
	jbe	.LBB33_141
.LBB33_38:
	subq	%rbp, %r14
	cmpq	$4, %r14
	jb	.LBB33_176
	addq	%rbp, %r15
	movzwl	(%r15), %ebp
	cmpq	%rbp, %r14
	jb	.LBB33_144
	cmpw	$3, %bp
	jbe	.LBB33_145
	movzwl	2(%r15), %r12d
	movl	%r12d, %eax
	andl	$16383, %eax
	cmpw	$1, %ax
	jne	.LBB33_37
	leaq	4(%r15), %rsi
	movq	%rbp, %r13
	addq	$-4, %r13
	je	.LBB33_36
	leaq	4(%r15), %rdi
	movq	%r13, %rsi
	callq	nla_wire.members.measure_each.41ac5f0caeaa9df8
	leaq	4(%r15), %rsi
	cmpb	$1, %al
	sete	%al
	cmpq	$65532, %rdx
	setb	%cl
	testb	%cl, %al
	je	.LBB33_36
	jmp	.LBB33_37
.LBB33_44:
	movaps	%xmm0, 80(%rsp)
	movaps	%xmm0, 64(%rsp)
	movaps	%xmm0, 48(%rsp)
	testq	%r14, %r14
	je	.LBB33_112
	xorl	%r12d, %r12d
	jmp	.LBB33_47
.LBB33_46:
	addl	$3, %r12d
	andl	$-4, %r12d
	cmpq	%r12, %r14
	jbe	.LBB33_112
.LBB33_47:
	subq	%r12, %r14
	cmpq	$4, %r14
	jb	.LBB33_171
	addq	%r12, %r15
	movzwl	(%r15), %r12d
	cmpq	%r12, %r14
	jb	.LBB33_152
	cmpw	$3, %r12w
	jbe	.LBB33_154
	movzwl	2(%r15), %esi
	movl	%esi, %eax
	andl	$16383, %eax
	addl	$-3, %eax
	cmpw	$-2, %ax
	jb	.LBB33_46
	leaq	-4(%r12), %rdx
	cmpl	$4, %edx
	je	.LBB33_46
	leaq	48(%rsp), %rdi
	callq	nla_wire.place.check_one.f7f30aae703aa44d
	cmpb	$0, 48(%rsp)
	je	.LBB33_46
	jmp	.LBB33_111
.LBB33_53:
	testq	%r14, %r14
	je	.LBB33_93
	xorl	%ecx, %ecx
	.p2align	4
.LBB33_55:
	subq	%rcx, %r14
	cmpq	$4, %r14
	jb	.LBB33_159
	addq	%rcx, %r15
	movzwl	(%r15), %ecx
	cmpq	%rcx, %r14
	jb	.LBB33_142
	cmpw	$3, %cx
	jbe	.LBB33_143
	addl	$3, %ecx
	andl	$-4, %ecx
	cmpq	%rcx, %r14
	ja	.LBB33_55
	jmp	.LBB33_90
.LBB33_59:
	testq	%r14, %r14
	je	.LBB33_93
	xorl	%ecx, %ecx
	.p2align	4
.LBB33_61:
	subq	%rcx, %r14
	cmpq	$4, %r14
	jb	.LBB33_159
	addq	%rcx, %r15
	movzwl	(%r15), %ecx
	cmpq	%rcx, %r14
	jb	.LBB33_142
	cmpw	$3, %cx
	jbe	.LBB33_143
	addl	$3, %ecx
	andl	$-4, %ecx
	cmpq	%rcx, %r14
	ja	.LBB33_61
	jmp	.LBB33_90
.LBB33_65:
	movaps	%xmm0, 48(%rsp)
	movaps	%xmm0, 64(%rsp)
	movaps	%xmm0, 80(%rsp)
	testq	%r14, %r14
	je	.LBB33_141
	xorl	%ebp, %ebp
	movq	%rbx, 128(%rsp)
	jmp	.LBB33_68
.LBB33_77:
	movw	%r12w, 104(%rsp)
	leaq	106(%rsp), %rax
	movw	$0, 4(%rax)
	movl	$0, (%rax)
	movq	%r13, 112(%rsp)
	movq	%rbx, 120(%rsp)
	leaq	48(%rsp), %rdi
	leaq	104(%rsp), %rsi
	callq	nla_wire.place.check_one.16a873d75d6df2a1
	cmpb	$0, 48(%rsp)
	jne	.LBB33_123
.LBB33_67:
	addl	$3, %ebp
	andl	$-4, %ebp
	cmpq	%rbp, %r14
	movq	128(%rsp), %rbx
	jbe	.LBB33_141
.LBB33_68:
	subq	%rbp, %r14
	cmpq	$4, %r14
	jb	.LBB33_176
	addq	%rbp, %r15
	movzwl	(%r15), %ebp
	cmpq	%rbp, %r14
	jb	.LBB33_144
	cmpw	$3, %bp
	jbe	.LBB33_145
	movzwl	2(%r15), %r12d
	leaq	4(%r15), %rdi
	leaq	-4(%rbp), %rsi
	movl	%r12d, %eax
	andl	$16383, %eax
	cmpl	$3, %eax
	je	.LBB33_75
	cmpl	$2, %eax
	je	.LBB33_74
	cmpl	$1, %eax
	jne	.LBB33_76
.LBB33_74:
	movq	%rdi, %r13
	movq	%rsi, %rbx
	callq	nla_wire.payload.measure_text
	testb	$1, %al
	jne	.LBB33_67
	jmp	.LBB33_77
.LBB33_75:
	movq	%rdi, %r13
	movq	%rsi, %rbx
	cmpl	$4, %esi
	sete	%al
	testb	$1, %al
	je	.LBB33_77
	jmp	.LBB33_67
.LBB33_76:
	movq	%rsi, %rbx
	movq	%rdi, %r13
	movb	$1, %al
	testb	$1, %al
	jne	.LBB33_67
	jmp	.LBB33_77
.LBB33_78:
	testq	%r14, %r14
	je	.LBB33_93
	xorl	%ecx, %ecx
	.p2align	4
.LBB33_80:
	subq	%rcx, %r14
	cmpq	$4, %r14
	jb	.LBB33_159
	addq	%rcx, %r15
	movzwl	(%r15), %ecx
	cmpq	%rcx, %r14
	jb	.LBB33_142
	cmpw	$3, %cx
	jbe	.LBB33_143
	addl	$3, %ecx
	andl	$-4, %ecx
	cmpq	%rcx, %r14
	ja	.LBB33_80
	jmp	.LBB33_90
.LBB33_84:
	testq	%r14, %r14
	je	.LBB33_93
	xorl	%ecx, %ecx
	.p2align	4
.LBB33_86:
	subq	%rcx, %r14
	cmpq	$4, %r14
	jb	.LBB33_159
	addq	%rcx, %r15
	movzwl	(%r15), %ecx
	cmpq	%rcx, %r14
	jb	.LBB33_142
	cmpw	$3, %cx
	jbe	.LBB33_143
	addl	$3, %ecx
	andl	$-4, %ecx
	cmpq	%rcx, %r14
	ja	.LBB33_86
.LBB33_90:
	xorl	%eax, %eax
	xorl	%edx, %edx
	xorl	%ecx, %ecx
	xorl	%r14d, %r14d
	xorl	%esi, %esi
	jmp	.LBB33_161
.LBB33_91:
	testq	%r14, %r14
	je	.LBB33_93
	movaps	%xmm0, 48(%rsp)
	movaps	%xmm0, 64(%rsp)
	movaps	%xmm0, 80(%rsp)
	xorl	%ebp, %ebp
	jmp	.LBB33_96
.LBB33_93:
	leaq	.Lstatic.20(%rip), %rax
	movq	%rax, 8(%rsp)
	movq	$7, 16(%rsp)
	movq	$4, 24(%rsp)
	movaps	%xmm0, 32(%rsp)
	movb	$1, %al
	jmp	.LBB33_190
.LBB33_94:
	movw	%r12w, 104(%rsp)
	leaq	106(%rsp), %rax
	movw	$0, 4(%rax)
	movl	$0, (%rax)
	movq	%rsi, 112(%rsp)
	movq	%r13, 120(%rsp)
	leaq	48(%rsp), %rdi
	leaq	104(%rsp), %rsi
	callq	nla_wire.place.check_one.79503c7a397af21a
	cmpb	$0, 48(%rsp)
	jne	.LBB33_193
.LBB33_95:
	addl	$3, %ebp
	andl	$-4, %ebp
	cmpq	%rbp, %r14
	jbe	.LBB33_155
.LBB33_96:
	subq	%rbp, %r14
	cmpq	$4, %r14
	jb	.LBB33_165
	addq	%rbp, %r15
	movzwl	(%r15), %ebp
	cmpq	%rbp, %r14
	jb	.LBB33_151
	cmpw	$3, %bp
	jbe	.LBB33_153
	movzwl	2(%r15), %r12d
	movl	%r12d, %eax
	andl	$16383, %eax
	cmpw	$1, %ax
	jne	.LBB33_95
	leaq	4(%r15), %rsi
	movq	%rbp, %r13
	addq	$-4, %r13
	je	.LBB33_94
	leaq	4(%r15), %rdi
	movq	%r13, %rsi
	callq	nla_wire.members.measure_each.1f0cb788f492ced5
	leaq	4(%r15), %rsi
	cmpb	$1, %al
	sete	%al
	cmpq	$65532, %rdx
	setb	%cl
	testb	%cl, %al
	je	.LBB33_94
	jmp	.LBB33_95
.LBB33_102:
	movaps	%xmm0, 80(%rsp)
	movaps	%xmm0, 64(%rsp)
	movaps	%xmm0, 48(%rsp)
	testq	%r14, %r14
	je	.LBB33_112
	xorl	%r12d, %r12d
	jmp	.LBB33_105
.LBB33_104:
	addl	$3, %r12d
	andl	$-4, %r12d
	cmpq	%r12, %r14
	jbe	.LBB33_112
.LBB33_105:
	subq	%r12, %r14
	cmpq	$4, %r14
	jb	.LBB33_171
	addq	%r12, %r15
	movzwl	(%r15), %r12d
	cmpq	%r12, %r14
	jb	.LBB33_152
	cmpw	$3, %r12w
	jbe	.LBB33_154
	movzwl	2(%r15), %esi
	movl	%esi, %eax
	andl	$16383, %eax
	cmpw	$1, %ax
	jne	.LBB33_104
	leaq	-4(%r12), %rdx
	cmpl	$4, %edx
	je	.LBB33_104
	leaq	48(%rsp), %rdi
	callq	nla_wire.place.check_one.5fa77b269143286c
	cmpb	$0, 48(%rsp)
	je	.LBB33_104
.LBB33_111:
	movzwl	56(%rsp), %ecx
	movl	58(%rsp), %eax
	movzwl	62(%rsp), %edx
	shlq	$32, %rdx
	orq	%rax, %rdx
	movq	64(%rsp), %rsi
	movq	72(%rsp), %r12
	movq	80(%rsp), %r14
	movb	$1, %al
	movq	88(%rsp), %rdi
	jmp	.LBB33_174
.LBB33_112:
	xorl	%ecx, %ecx
	xorl	%eax, %eax
	xorl	%edx, %edx
	xorl	%esi, %esi
	xorl	%r12d, %r12d
	xorl	%r14d, %r14d
	jmp	.LBB33_173
.LBB33_113:
	movaps	%xmm0, 48(%rsp)
	movaps	%xmm0, 64(%rsp)
	movaps	%xmm0, 80(%rsp)
	testq	%r14, %r14
	je	.LBB33_141
	xorl	%ebp, %ebp
	movq	%rbx, 128(%rsp)
	jmp	.LBB33_116
.LBB33_122:
	movw	%r12w, 104(%rsp)
	leaq	106(%rsp), %rax
	movw	$0, 4(%rax)
	movl	$0, (%rax)
	movq	%r13, 112(%rsp)
	movq	%rbx, 120(%rsp)
	leaq	48(%rsp), %rdi
	leaq	104(%rsp), %rsi
	callq	nla_wire.place.check_one.b30b196c481b950e
	cmpb	$0, 48(%rsp)
	jne	.LBB33_123
.LBB33_115:
	addl	$3, %ebp
	andl	$-4, %ebp
	cmpq	%rbp, %r14
	movq	128(%rsp), %rbx
	jbe	.LBB33_141
.LBB33_116:
	subq	%rbp, %r14
	cmpq	$4, %r14
	jb	.LBB33_176
	addq	%rbp, %r15
	movzwl	(%r15), %ebp
	cmpq	%rbp, %r14
	jb	.LBB33_144
	cmpw	$3, %bp
	jbe	.LBB33_145
	movzwl	2(%r15), %r12d
	leaq	4(%r15), %rdi
	leaq	-4(%rbp), %rsi
	movl	%r12d, %eax
	andl	$16383, %eax
	cmpw	$53, %ax
	jne	.LBB33_121
	movq	%rdi, %r13
	movq	%rsi, %rbx
	callq	nla_wire.payload.measure_text
	testb	$1, %al
	jne	.LBB33_115
	jmp	.LBB33_122
.LBB33_121:
	movq	%rsi, %rbx
	movq	%rdi, %r13
	movb	$1, %al
	testb	$1, %al
	jne	.LBB33_115
	jmp	.LBB33_122
.LBB33_124:
	movaps	%xmm0, 48(%rsp)
	movaps	%xmm0, 64(%rsp)
	movaps	%xmm0, 80(%rsp)
	testq	%r14, %r14
	je	.LBB33_141
	xorl	%ebp, %ebp
	jmp	.LBB33_128
.LBB33_126:
	movw	%r12w, 104(%rsp)
	leaq	106(%rsp), %rax
	movw	$0, 4(%rax)
	movl	$0, (%rax)
	movq	%rsi, 112(%rsp)
	movq	%r13, 120(%rsp)
	leaq	48(%rsp), %rdi
	leaq	104(%rsp), %rsi
	callq	nla_wire.place.check_one.6cf1decf0b22dc4b
	cmpb	$0, 48(%rsp)
	jne	.LBB33_191
.LBB33_127:
	addl	$3, %ebp
	andl	$-4, %ebp
	cmpq	%rbp, %r14
	jbe	.LBB33_141
.LBB33_128:
	subq	%rbp, %r14
	cmpq	$4, %r14
	jb	.LBB33_176
	addq	%rbp, %r15
	movzwl	(%r15), %ebp
	cmpq	%rbp, %r14
	jb	.LBB33_144
	cmpw	$3, %bp
	jbe	.LBB33_145
	movzwl	2(%r15), %r12d
	leaq	4(%r15), %rsi
	leaq	-4(%rbp), %r13
	movl	%r12d, %eax
	andl	$16383, %eax
	cmpl	$45, %eax
	je	.LBB33_138
	cmpl	$10, %eax
	je	.LBB33_136
	cmpl	$2, %eax
	jne	.LBB33_127
	testq	%r13, %r13
	je	.LBB33_126
	leaq	4(%r15), %rdi
	movq	%r13, %rsi
	callq	nla_wire.members.measure_each.d7cac04ae1e23078
	jmp	.LBB33_140
.LBB33_136:
	testq	%r13, %r13
	je	.LBB33_126
	leaq	4(%r15), %rdi
	movq	%r13, %rsi
	callq	nla_wire.members.measure_each.97809315b2b26985
	jmp	.LBB33_140
.LBB33_138:
	testq	%r13, %r13
	je	.LBB33_126
	leaq	4(%r15), %rdi
	movq	%r13, %rsi
	callq	nla_wire.members.measure_each.7562298f77a88fdb
.LBB33_140:
	leaq	4(%r15), %rsi
	cmpb	$1, %al
	sete	%al
	cmpq	$65532, %rdx
	setb	%cl
	testb	%cl, %al
	je	.LBB33_126
	jmp	.LBB33_127
.LBB33_141:
	xorl	%ecx, %ecx
	xorl	%eax, %eax
	xorl	%edx, %edx
	xorl	%esi, %esi
	xorl	%ebp, %ebp
	xorl	%r14d, %r14d
	jmp	.LBB33_178
.LBB33_159:
	movl	$1, %ecx
	jmp	.LBB33_160
.LBB33_142:
	shll	$16, %ecx
	orq	$2, %rcx
	jmp	.LBB33_160
.LBB33_143:
	shll	$16, %ecx
	orq	$3, %rcx
	xorl	%r14d, %r14d
.LBB33_160:
	leaq	.Lstatic.20(%rip), %rsi
	movl	$7, %edx
	movb	$1, %al
.LBB33_161:
	movq	%rsi, 8(%rsp)
	movq	%rdx, 16(%rsp)
	movq	%rcx, 24(%rsp)
	movq	%r14, 32(%rsp)
	movq	$0, 40(%rsp)
	jmp	.LBB33_190
.LBB33_176:
	movl	$1, %ebp
	jmp	.LBB33_177
.LBB33_144:
	shll	$16, %ebp
	orq	$2, %rbp
	jmp	.LBB33_177
.LBB33_145:
	shll	$16, %ebp
	orq	$3, %rbp
	xorl	%r14d, %r14d
.LBB33_177:
	leaq	.Lstatic.20(%rip), %rcx
	movq	%rcx, %rdx
	shrq	$16, %rdx
	movl	$7, %esi
	movb	$1, %al
.LBB33_178:
	xorl	%edi, %edi
.LBB33_179:
	movw	%cx, 8(%rsp)
	movl	%edx, 10(%rsp)
	shrq	$32, %rdx
	movw	%dx, 14(%rsp)
	jmp	.LBB33_180
.LBB33_146:
	xorl	%eax, %eax
	xorl	%esi, %esi
	xorl	%edx, %edx
	xorl	%r14d, %r14d
	xorl	%ecx, %ecx
.LBB33_147:
	movq	%rsi, 8(%rsp)
	movq	%rdx, 16(%rsp)
	movq	$0, 24(%rsp)
.LBB33_148:
	movq	%r14, 32(%rsp)
	movq	%rcx, 40(%rsp)
	jmp	.LBB33_190
.LBB33_149:
	movb	$1, %al
	leaq	.Lstatic.20(%rip), %rdi
	movl	$1, %edx
	movw	$5, %si
	movl	$7, %ecx
.LBB33_150:
	movq	%rdi, 8(%rsp)
	movq	%rcx, 16(%rsp)
	movw	%si, 24(%rsp)
	movw	$0, 26(%rsp)
	movl	$0, 28(%rsp)
	movq	%r14, 32(%rsp)
	movq	%rdx, 40(%rsp)
	jmp	.LBB33_190
.LBB33_165:
	movl	$1, %ebp
	jmp	.LBB33_166
.LBB33_171:
	movl	$1, %r12d
	jmp	.LBB33_172
.LBB33_151:
	shll	$16, %ebp
	orq	$2, %rbp
	jmp	.LBB33_166
.LBB33_152:
	shll	$16, %r12d
	orq	$2, %r12
	jmp	.LBB33_172
.LBB33_153:
	shll	$16, %ebp
	orq	$3, %rbp
	xorl	%r14d, %r14d
.LBB33_166:
	leaq	.Lstatic.20(%rip), %rcx
	movq	%rcx, %rdx
	shrq	$16, %rdx
	movl	$7, %esi
	movb	$1, %al
	jmp	.LBB33_167
.LBB33_154:
	shll	$16, %r12d
	orq	$3, %r12
	xorl	%r14d, %r14d
.LBB33_172:
	leaq	.Lstatic.20(%rip), %rcx
	movq	%rcx, %rdx
	shrq	$16, %rdx
	movl	$7, %esi
	movb	$1, %al
.LBB33_173:
	xorl	%edi, %edi
.LBB33_174:
	movw	%cx, 8(%rsp)
	movl	%edx, 10(%rsp)
	shrq	$32, %rdx
	movw	%dx, 14(%rsp)
	jmp	.LBB33_187
.LBB33_155:
	xorl	%ecx, %ecx
	xorl	%eax, %eax
	xorl	%edx, %edx
	xorl	%esi, %esi
	xorl	%ebp, %ebp
	xorl	%r14d, %r14d
.LBB33_167:
	xorl	%edi, %edi
.LBB33_168:
	movzwl	%cx, %ecx
	shlq	$16, %rdx
	orq	%rcx, %rdx
	movq	%rdx, 8(%rsp)
.LBB33_180:
	movq	%rsi, 16(%rsp)
	movq	%rbp, 24(%rsp)
	jmp	.LBB33_188
.LBB33_164:
	movl	$1, %r12d
	jmp	.LBB33_183
.LBB33_181:
	shll	$16, %r12d
	orq	$2, %r12
	jmp	.LBB33_183
.LBB33_182:
	shll	$16, %r12d
	orq	$3, %r12
	xorl	%r14d, %r14d
.LBB33_183:
	leaq	.Lstatic.20(%rip), %rcx
	movq	%rcx, %rdx
	shrq	$16, %rdx
	movl	$7, %esi
	movb	$1, %al
	jmp	.LBB33_185
.LBB33_123:
	movzwl	56(%rsp), %ecx
	movl	58(%rsp), %eax
	movzwl	62(%rsp), %edx
	shlq	$32, %rdx
	orq	%rax, %rdx
	movq	64(%rsp), %rsi
	movq	72(%rsp), %rbp
	movq	80(%rsp), %r14
	movb	$1, %al
	movq	88(%rsp), %rdi
	movq	128(%rsp), %rbx
	jmp	.LBB33_179
.LBB33_184:
	xorl	%ecx, %ecx
	xorl	%eax, %eax
	xorl	%edx, %edx
	xorl	%esi, %esi
	xorl	%r12d, %r12d
	xorl	%r14d, %r14d
.LBB33_185:
	xorl	%edi, %edi
.LBB33_186:
	movzwl	%cx, %ecx
	shlq	$16, %rdx
	orq	%rcx, %rdx
	movq	%rdx, 8(%rsp)
.LBB33_187:
	movq	%rsi, 16(%rsp)
	movq	%r12, 24(%rsp)
.LBB33_188:
	movq	%r14, 32(%rsp)
.LBB33_189:
	movq	%rdi, 40(%rsp)
.LBB33_190:
	movb	%al, (%rbx)
	movzwl	8(%rsp), %eax
	movl	10(%rsp), %ecx
	movzwl	14(%rsp), %edx
	movq	16(%rsp), %rsi
	movzwl	24(%rsp), %edi
	movzwl	26(%rsp), %r8d
	movl	28(%rsp), %r9d
	movq	32(%rsp), %r10
	movw	%ax, 8(%rbx)
	movl	%ecx, 10(%rbx)
	movw	%dx, 14(%rbx)
	movq	%rsi, 16(%rbx)
	movw	%di, 24(%rbx)
	movw	%r8w, 26(%rbx)
	movl	%r9d, 28(%rbx)
	movq	%r10, 32(%rbx)
	movq	40(%rsp), %rax
	movq	%rax, 40(%rbx)
	addq	$136, %rsp
	.cfi_def_cfa_offset 56
	popq	%rbx
	.cfi_def_cfa_offset 48
	popq	%r12
	.cfi_def_cfa_offset 40
	popq	%r13
	.cfi_def_cfa_offset 32
	popq	%r14
	.cfi_def_cfa_offset 24
	popq	%r15
	.cfi_def_cfa_offset 16
	popq	%rbp
	.cfi_def_cfa_offset 8
	retq
.LBB33_191:
	.cfi_def_cfa_offset 192
	movzwl	56(%rsp), %ecx
	movl	58(%rsp), %eax
	movzwl	62(%rsp), %edx
	shlq	$32, %rdx
	orq	%rax, %rdx
	movq	64(%rsp), %rsi
	movq	72(%rsp), %rbp
	movq	80(%rsp), %r14
	movb	$1, %al
	movq	88(%rsp), %rdi
	jmp	.LBB33_179
.LBB33_13:
	movzwl	56(%rsp), %ecx
	movl	58(%rsp), %eax
	movzwl	62(%rsp), %edx
	shlq	$32, %rdx
	orq	%rax, %rdx
	movq	64(%rsp), %rsi
	movq	72(%rsp), %rbp
	movq	80(%rsp), %r14
	movq	88(%rsp), %rdi
	movb	$1, %al
	movq	128(%rsp), %rbx
	jmp	.LBB33_168
.LBB33_192:
	movzwl	56(%rsp), %ecx
	movl	58(%rsp), %eax
	movzwl	62(%rsp), %edx
	shlq	$32, %rdx
	orq	%rax, %rdx
	movq	64(%rsp), %rsi
	movq	72(%rsp), %r12
	movq	80(%rsp), %r14
	movq	88(%rsp), %rdi
	movb	$1, %al
	jmp	.LBB33_186
.LBB33_193:
	movzwl	56(%rsp), %ecx
	movl	58(%rsp), %eax
	movzwl	62(%rsp), %edx
	shlq	$32, %rdx
	orq	%rax, %rdx
	movq	64(%rsp), %rsi
	movq	72(%rsp), %rbp
	movq	80(%rsp), %r14
	movq	88(%rsp), %rdi
	movb	$1, %al
	jmp	.LBB33_168
.Lfunc_end33:
	.size	link_msg.shape.Shape.check, .Lfunc_end33-link_msg.shape.Shape.check
	.cfi_endproc
	.section	.rodata.link_msg.shape.Shape.check,"a",@progbits
	.p2align	2, 0x0
.LJTI33_0:
	.long	.LBB33_1-.LJTI33_0
	.long	.LBB33_33-.LJTI33_0
	.long	.LBB33_26-.LJTI33_0
	.long	.LBB33_27-.LJTI33_0
	.long	.LBB33_14-.LJTI33_0
	.long	.LBB33_31-.LJTI33_0
	.long	.LBB33_1-.LJTI33_0
	.long	.LBB33_1-.LJTI33_0
	.long	.LBB33_1-.LJTI33_0
	.long	.LBB33_2-.LJTI33_0
	.long	.LBB33_29-.LJTI33_0
	.long	.LBB33_78-.LJTI33_0
	.long	.LBB33_3-.LJTI33_0
	.long	.LBB33_34-.LJTI33_0
	.long	.LBB33_91-.LJTI33_0
	.long	.LBB33_15-.LJTI33_0
	.long	.LBB33_113-.LJTI33_0
	.long	.LBB33_44-.LJTI33_0
	.long	.LBB33_65-.LJTI33_0
	.long	.LBB33_102-.LJTI33_0
	.long	.LBB33_53-.LJTI33_0
	.long	.LBB33_59-.LJTI33_0
	.long	.LBB33_84-.LJTI33_0
	.long	.LBB33_124-.LJTI33_0
.LJTI33_1:
	.long	.LBB33_24-.LJTI33_1
	.long	.LBB33_25-.LJTI33_1
	.long	.LBB33_24-.LJTI33_1
	.long	.LBB33_24-.LJTI33_1
	.long	.LBB33_24-.LJTI33_1
	.long	.LBB33_24-.LJTI33_1
	.long	.LBB33_24-.LJTI33_1
	.long	.LBB33_24-.LJTI33_1

	.section	.text.nla_wire.text.check_string,"ax",@progbits
	.p2align	4
	.type	nla_wire.text.check_string,@function
nla_wire.text.check_string:
	.cfi_startproc
	pushq	%rbx
	.cfi_def_cfa_offset 16
	subq	$32, %rsp
	.cfi_def_cfa_offset 48
	.cfi_offset %rbx, -16
	movq	%rdi, %rbx
	testq	%rdx, %rdx
	je	.LBB34_3
	cmpb	$0, -1(%rsi,%rdx)
	je	.LBB34_2
.LBB34_3:
	testq	%rdx, %rdx
	je	.LBB34_11
.LBB34_4:
	cmpq	$3, %rdx
	ja	.LBB34_8
	cmpb	$0, (%rsi)
	js	.LBB34_15
	movq	%rdx, %rax
	shrq	%rax
	cmpb	$0, (%rsi,%rax)
	js	.LBB34_15
	cmpb	$0, -1(%rsi,%rdx)
	jns	.LBB34_11
	jmp	.LBB34_15
.LBB34_8:
	cmpq	$7, %rdx
	ja	.LBB34_12
	testl	$-2139062144, (%rsi)
	jne	.LBB34_15
	testl	$-2139062144, -4(%rsi,%rdx)
	jne	.LBB34_15
	jmp	.LBB34_11
.LBB34_2:
	decq	%rdx
	testq	%rdx, %rdx
	jne	.LBB34_4
	jmp	.LBB34_11
.LBB34_12:
	cmpq	$16, %rdx
	ja	.LBB34_18
	movabsq	$-9187201950435737472, %rax
	testq	%rax, (%rsi)
	jne	.LBB34_15
	testq	%rax, -8(%rsi,%rdx)
	jne	.LBB34_15
	jmp	.LBB34_11
.LBB34_18:
	cmpq	$31, %rdx
	ja	.LBB34_22
	movdqu	(%rsi), %xmm0
	pshufd	$238, %xmm0, %xmm1
	pmaxub	%xmm0, %xmm1
	pshufd	$85, %xmm1, %xmm0
	pmaxub	%xmm1, %xmm0
	movdqa	%xmm0, %xmm1
	psrld	$16, %xmm1
	pmaxub	%xmm0, %xmm1
	movdqa	%xmm1, %xmm0
	psrlw	$8, %xmm0
	pmaxub	%xmm1, %xmm0
	movd	%xmm0, %eax
	testb	%al, %al
	js	.LBB34_15
	movdqu	-16(%rsi,%rdx), %xmm0
	pshufd	$238, %xmm0, %xmm1
	pmaxub	%xmm0, %xmm1
	pshufd	$85, %xmm1, %xmm0
	pmaxub	%xmm1, %xmm0
	movdqa	%xmm0, %xmm1
	psrld	$16, %xmm1
	pmaxub	%xmm0, %xmm1
	movdqa	%xmm1, %xmm0
	psrlw	$8, %xmm0
	pmaxub	%xmm1, %xmm0
	movd	%xmm0, %eax
	jmp	.LBB34_21
.LBB34_22:
	movq	%rdx, %rax
	andq	$-32, %rax
	pxor	%xmm0, %xmm0
	xorl	%ecx, %ecx
	pxor	%xmm1, %xmm1
	.p2align	4
.LBB34_23:
	movdqu	(%rsi,%rcx), %xmm2
	pmaxub	%xmm2, %xmm0
	movdqu	16(%rsi,%rcx), %xmm2
	pmaxub	%xmm2, %xmm1
	addq	$32, %rcx
	cmpq	%rcx, %rax
	jne	.LBB34_23
	pmaxub	%xmm1, %xmm0
	pshufd	$238, %xmm0, %xmm1
	pmaxub	%xmm0, %xmm1
	pshufd	$85, %xmm1, %xmm0
	pmaxub	%xmm1, %xmm0
	movdqa	%xmm0, %xmm1
	psrld	$16, %xmm1
	pmaxub	%xmm0, %xmm1
	movdqa	%xmm1, %xmm0
	psrlw	$8, %xmm0
	pmaxub	%xmm1, %xmm0
	movd	%xmm0, %eax
	testb	%al, %al
	js	.LBB34_15
	movdqu	-32(%rsi,%rdx), %xmm0
	movdqu	-16(%rsi,%rdx), %xmm1
	pmaxub	%xmm0, %xmm1
	pshufd	$238, %xmm1, %xmm0
	pmaxub	%xmm1, %xmm0
	pshufd	$85, %xmm0, %xmm1
	pmaxub	%xmm0, %xmm1
	movdqa	%xmm1, %xmm0
	psrld	$16, %xmm0
	pmaxub	%xmm1, %xmm0
	movdqa	%xmm0, %xmm1
	psrlw	$8, %xmm1
	pmaxub	%xmm0, %xmm1
	movd	%xmm1, %eax
.LBB34_21:
	testb	%al, %al
	jns	.LBB34_11
.LBB34_15:
	movq	%rsi, %rdi
	movq	%rdx, %rsi
	callq	nla_wire.text.is_decoded
	testb	%al, %al
	je	.LBB34_16
.LBB34_11:
	pxor	%xmm0, %xmm0
	movdqa	%xmm0, (%rsp)
	movq	$0, 14(%rsp)
	xorl	%eax, %eax
	xorl	%esi, %esi
	xorl	%edx, %edx
	xorl	%ecx, %ecx
	jmp	.LBB34_17
.LBB34_16:
	pxor	%xmm0, %xmm0
	movdqa	%xmm0, (%rsp)
	movq	$0, 14(%rsp)
	movw	$6, %cx
	movl	$7, %edx
	leaq	.Lstatic.20(%rip), %rsi
	movb	$1, %al
.LBB34_17:
	movb	%al, (%rbx)
	movq	%rsi, 8(%rbx)
	movq	%rdx, 16(%rbx)
	movw	%cx, 24(%rbx)
	movaps	(%rsp), %xmm0
	movups	%xmm0, 26(%rbx)
	movq	14(%rsp), %rax
	movq	%rax, 40(%rbx)
	addq	$32, %rsp
	.cfi_def_cfa_offset 16
	popq	%rbx
	.cfi_def_cfa_offset 8
	retq
.Lfunc_end34:
	.size	nla_wire.text.check_string, .Lfunc_end34-nla_wire.text.check_string
	.cfi_endproc

	.section	.rodata.cst16,"aM",@progbits,16
	.p2align	4, 0x0
.LCPI35_0:
	.byte	255
	.byte	0
	.byte	255
	.byte	255
	.byte	0
	.byte	0
	.byte	0
	.byte	0
	.byte	0
	.byte	0
	.byte	0
	.byte	0
	.byte	0
	.byte	0
	.byte	0
	.byte	0
	.section	.text.nla_wire.place.check_one.49064c0641319ce4,"ax",@progbits
	.p2align	4
	.type	nla_wire.place.check_one.49064c0641319ce4,@function
nla_wire.place.check_one.49064c0641319ce4:
	.cfi_startproc
	pushq	%r14
	.cfi_def_cfa_offset 16
	pushq	%rbx
	.cfi_def_cfa_offset 24
	subq	$56, %rsp
	.cfi_def_cfa_offset 80
	.cfi_offset %rbx, -24
	.cfi_offset %r14, -16
	movq	%rdi, %rbx
	xorps	%xmm1, %xmm1
	movaps	%xmm1, 32(%rsp)
	movaps	%xmm1, 16(%rsp)
	movaps	%xmm1, (%rsp)
	movzwl	(%rsi), %eax
	andl	$16383, %eax
	cmpw	$1, %ax
	jne	.LBB35_1
	movq	%rsi, %r14
	movq	8(%rsi), %rsi
	movq	16(%r14), %rdx
	movq	%rsp, %rdi
	callq	nla_wire.text.check_string
	movzbl	(%rsp), %eax
	xorl	%ecx, %ecx
	testb	%al, %al
	je	.LBB35_3
	movq	8(%rsp), %r8
	movq	16(%rsp), %rdx
	movsd	24(%rsp), %xmm0
	movl	28(%rsp), %edi
	movaps	32(%rsp), %xmm1
	movzwl	(%r14), %r9d
	andl	$16383, %r9d
	cmpw	$1, %r9w
	leaq	.Lstatic.3(%rip), %r10
	leaq	.Lstatic.22(%rip), %rsi
	cmovneq	%r10, %rsi
	cmpq	$7, %rdx
	jne	.LBB35_5
	movl	$7, %edx
	cmpw	$1, %r9w
	jne	.LBB35_5
	movl	(%r8), %r9d
	movl	3(%r8), %r10d
	shlq	$32, %r10
	orq	%r9, %r10
	movabsq	$7233184988000772464, %r9
	cmpq	%r9, %r10
	jne	.LBB35_5
	andps	.LCPI35_0(%rip), %xmm0
	movl	$14, %edx
	jmp	.LBB35_9
.LBB35_1:
	xorps	%xmm0, %xmm0
	xorl	%eax, %eax
	xorl	%esi, %esi
	xorl	%edx, %edx
	xorl	%ecx, %ecx
	jmp	.LBB35_9
.LBB35_5:
	movq	%r8, %rsi
	movl	%edi, %ecx
	jmp	.LBB35_9
.LBB35_3:
	xorps	%xmm0, %xmm0
	xorl	%eax, %eax
	xorl	%esi, %esi
	xorl	%edx, %edx
	xorps	%xmm1, %xmm1
.LBB35_9:
	movb	%al, (%rbx)
	movq	%rsi, 8(%rbx)
	movq	%rdx, 16(%rbx)
	movss	%xmm0, 24(%rbx)
	movl	%ecx, 28(%rbx)
	movups	%xmm1, 32(%rbx)
	addq	$56, %rsp
	.cfi_def_cfa_offset 24
	popq	%rbx
	.cfi_def_cfa_offset 16
	popq	%r14
	.cfi_def_cfa_offset 8
	retq
.Lfunc_end35:
	.size	nla_wire.place.check_one.49064c0641319ce4, .Lfunc_end35-nla_wire.place.check_one.49064c0641319ce4
	.cfi_endproc

	.section	.text.nla_wire.place.check_one.3bb4c8661a1029f4,"ax",@progbits
	.p2align	4
	.type	nla_wire.place.check_one.3bb4c8661a1029f4,@function
nla_wire.place.check_one.3bb4c8661a1029f4:
	.cfi_startproc
	pushq	%rbp
	.cfi_def_cfa_offset 16
	pushq	%r15
	.cfi_def_cfa_offset 24
	pushq	%r14
	.cfi_def_cfa_offset 32
	pushq	%r13
	.cfi_def_cfa_offset 40
	pushq	%r12
	.cfi_def_cfa_offset 48
	pushq	%rbx
	.cfi_def_cfa_offset 56
	subq	$88, %rsp
	.cfi_def_cfa_offset 144
	.cfi_offset %rbx, -56
	.cfi_offset %r12, -48
	.cfi_offset %r13, -40
	.cfi_offset %r14, -32
	.cfi_offset %r15, -24
	.cfi_offset %rbp, -16
	movq	16(%rsi), %r13
	testq	%r13, %r13
	je	.LBB36_17
	movq	%rdi, (%rsp)
	movq	%rsi, 8(%rsp)
	movq	8(%rsi), %r14
	xorps	%xmm0, %xmm0
	movaps	%xmm0, 16(%rsp)
	movaps	%xmm0, 32(%rsp)
	movaps	%xmm0, 48(%rsp)
	xorl	%ebp, %ebp
	jmp	.LBB36_4
	.p2align	4
.LBB36_2:
	movw	%bx, 64(%rsp)
	leaq	66(%rsp), %rax
	movw	$0, 4(%rax)
	movl	$0, (%rax)
	movq	%r15, 72(%rsp)
	movq	%r12, 80(%rsp)
	leaq	16(%rsp), %rdi
	leaq	64(%rsp), %rsi
	callq	nla_wire.place.check_one.41ac5f0caeaa9df8
	cmpb	$0, 16(%rsp)
	jne	.LBB36_32
.LBB36_3:
	addl	$3, %ebp
	andl	$-4, %ebp
	cmpq	%rbp, %r13
	jbe	.LBB36_28
.LBB36_4:
	subq	%rbp, %r13
	cmpq	$4, %r13
	jb	.LBB36_18
	addq	%rbp, %r14
	movzwl	(%r14), %ebp
	cmpq	%rbp, %r13
	jb	.LBB36_19
	cmpw	$3, %bp
	jbe	.LBB36_20
	movzwl	2(%r14), %ebx
	movl	%ebx, %eax
	andl	$16383, %eax
	decl	%eax
	cmpl	$12, %eax
	ja	.LBB36_3
	leaq	4(%r14), %r15
	leaq	-4(%rbp), %r12
	leaq	.LJTI36_0(%rip), %rcx
	movslq	(%rcx,%rax,4), %rax
	addq	%rcx, %rax
	jmpq	*%rax
.LBB36_9:
	cmpw	$11, %bp
	ja	.LBB36_3
	jmp	.LBB36_2
.LBB36_10:
	cmpw	$15, %bp
	jbe	.LBB36_2
	jmp	.LBB36_3
.LBB36_11:
	cmpw	$19, %bp
	jbe	.LBB36_2
	jmp	.LBB36_3
.LBB36_12:
	movq	%r15, %rdi
	movq	%r12, %rsi
	callq	nla_wire.members.measure_each.9a0187163d44de3c
	jmp	.LBB36_16
.LBB36_13:
	cmpw	$35, %bp
	jbe	.LBB36_2
	jmp	.LBB36_3
.LBB36_14:
	cmpw	$39, %bp
	jbe	.LBB36_2
	jmp	.LBB36_3
.LBB36_15:
	movq	%r15, %rdi
	movq	%r12, %rsi
	callq	nla_wire.members.measure_each.5361511d0f913a98
.LBB36_16:
	cmpb	$1, %al
	sete	%al
	cmpq	$65532, %rdx
	setb	%cl
	testb	%cl, %al
	je	.LBB36_2
	jmp	.LBB36_3
.LBB36_17:
	leaq	.Lstatic.20(%rip), %rdx
	movl	$7, %ecx
	movl	$4, %ebp
	xorl	%eax, %eax
	xorl	%r13d, %r13d
	jmp	.LBB36_23
.LBB36_18:
	movl	$1, %ebp
	jmp	.LBB36_21
.LBB36_19:
	shll	$16, %ebp
	orq	$2, %rbp
	jmp	.LBB36_21
.LBB36_20:
	shll	$16, %ebp
	orq	$3, %rbp
	xorl	%r13d, %r13d
.LBB36_21:
	leaq	.Lstatic.20(%rip), %r8
	movq	%r8, %rdx
	shrq	$16, %rdx
	movl	$7, %ecx
	xorl	%eax, %eax
.LBB36_22:
	movq	(%rsp), %rdi
	movq	8(%rsp), %rsi
	movzwl	%r8w, %r8d
	shlq	$16, %rdx
	orq	%r8, %rdx
.LBB36_23:
	movl	%ebp, %r14d
	shrl	$16, %r14d
	movq	%rbp, %rbx
	shrq	$32, %rbx
	movzwl	(%rsi), %r10d
	andl	$16383, %r10d
	cmpw	$1, %r10w
	leaq	.Lstatic.3(%rip), %r8
	leaq	.Lstatic.45(%rip), %r9
	cmovneq	%r8, %r9
	movb	$1, %r8b
	cmpq	$7, %rcx
	jne	.LBB36_30
	movl	$7, %ecx
	cmpw	$1, %r10w
	jne	.LBB36_30
	movl	(%rdx), %r10d
	movl	3(%rdx), %r11d
	shlq	$32, %r11
	orq	%r10, %r11
	movabsq	$7233184988000772464, %r10
	cmpq	%r10, %r11
	jne	.LBB36_30
	movzbl	%bpl, %ebp
	xorl	%ebx, %ebx
	movl	$12, %ecx
	jmp	.LBB36_31
.LBB36_30:
	movq	%rdx, %r9
.LBB36_31:
	movb	%r8b, (%rdi)
	movq	%r9, 8(%rdi)
	movq	%rcx, 16(%rdi)
	movw	%bp, 24(%rdi)
	movw	%r14w, 26(%rdi)
	movl	%ebx, 28(%rdi)
	movq	%r13, 32(%rdi)
	movq	%rax, 40(%rdi)
	addq	$88, %rsp
	.cfi_def_cfa_offset 56
	popq	%rbx
	.cfi_def_cfa_offset 48
	popq	%r12
	.cfi_def_cfa_offset 40
	popq	%r13
	.cfi_def_cfa_offset 32
	popq	%r14
	.cfi_def_cfa_offset 24
	popq	%r15
	.cfi_def_cfa_offset 16
	popq	%rbp
	.cfi_def_cfa_offset 8
	retq
.LBB36_28:
	.cfi_def_cfa_offset 144
	xorl	%r8d, %r8d
	xorl	%r9d, %r9d
	xorl	%ecx, %ecx
	xorl	%ebp, %ebp
	xorl	%r14d, %r14d
	xorl	%ebx, %ebx
	xorl	%r13d, %r13d
	xorl	%eax, %eax
	movq	(%rsp), %rdi
	jmp	.LBB36_31
.LBB36_32:
	movzwl	24(%rsp), %r8d
	movl	26(%rsp), %eax
	movzwl	30(%rsp), %edx
	shlq	$32, %rdx
	orq	%rax, %rdx
	movq	32(%rsp), %rcx
	movq	40(%rsp), %rbp
	movq	48(%rsp), %r13
	movq	56(%rsp), %rax
	jmp	.LBB36_22
.Lfunc_end36:
	.size	nla_wire.place.check_one.3bb4c8661a1029f4, .Lfunc_end36-nla_wire.place.check_one.3bb4c8661a1029f4
	.cfi_endproc
	.section	.rodata.nla_wire.place.check_one.3bb4c8661a1029f4,"a",@progbits
	.p2align	2, 0x0
.LJTI36_0:
	.long	.LBB36_14-.LJTI36_0
	.long	.LBB36_10-.LJTI36_0
	.long	.LBB36_9-.LJTI36_0
	.long	.LBB36_9-.LJTI36_0
	.long	.LBB36_9-.LJTI36_0
	.long	.LBB36_10-.LJTI36_0
	.long	.LBB36_9-.LJTI36_0
	.long	.LBB36_15-.LJTI36_0
	.long	.LBB36_9-.LJTI36_0
	.long	.LBB36_11-.LJTI36_0
	.long	.LBB36_11-.LJTI36_0
	.long	.LBB36_12-.LJTI36_0
	.long	.LBB36_13-.LJTI36_0

	.section	.text.nla_wire.place.check_one.41ac5f0caeaa9df8,"ax",@progbits
	.p2align	4
	.type	nla_wire.place.check_one.41ac5f0caeaa9df8,@function
nla_wire.place.check_one.41ac5f0caeaa9df8:
	.cfi_startproc
	pushq	%r15
	.cfi_def_cfa_offset 16
	pushq	%r14
	.cfi_def_cfa_offset 24
	pushq	%r13
	.cfi_def_cfa_offset 32
	pushq	%r12
	.cfi_def_cfa_offset 40
	pushq	%rbx
	.cfi_def_cfa_offset 48
	subq	$48, %rsp
	.cfi_def_cfa_offset 96
	.cfi_offset %rbx, -48
	.cfi_offset %r12, -40
	.cfi_offset %r13, -32
	.cfi_offset %r14, -24
	.cfi_offset %r15, -16
	movzwl	(%rsi), %r15d
	andl	$16383, %r15d
	xorl	%r12d, %r12d
	leal	-1(%r15), %eax
	cmpl	$12, %eax
	ja	.LBB37_63
	movq	8(%rsi), %r12
	movq	16(%rsi), %rbx
	leaq	.LJTI37_0(%rip), %rcx
	movslq	(%rcx,%rax,4), %rax
	addq	%rcx, %rax
	jmpq	*%rax
.LBB37_2:
	xorl	%esi, %esi
	cmpq	$36, %rbx
	jae	.LBB37_62
	leaq	.Lstatic.20(%rip), %rax
	movl	$36, %ecx
	movl	$11, %r10d
	leaq	.Lstatic.32(%rip), %r9
	jmp	.LBB37_17
.LBB37_4:
	xorps	%xmm0, %xmm0
	movaps	%xmm0, 32(%rsp)
	movaps	%xmm0, 16(%rsp)
	movaps	%xmm0, (%rsp)
	testq	%rbx, %rbx
	je	.LBB37_35
	xorl	%r14d, %r14d
	jmp	.LBB37_7
	.p2align	4
.LBB37_6:
	addl	$3, %r14d
	andl	$-4, %r14d
	cmpq	%r14, %rbx
	jbe	.LBB37_35
.LBB37_7:
	subq	%r14, %rbx
	cmpq	$4, %rbx
	jb	.LBB37_55
	addq	%r14, %r12
	movzwl	(%r12), %r14d
	cmpq	%r14, %rbx
	jb	.LBB37_52
	cmpw	$3, %r14w
	jbe	.LBB37_53
	cmpw	$19, %r14w
	ja	.LBB37_6
	movzwl	2(%r12), %esi
	movl	%esi, %eax
	andl	$16383, %eax
	cmpw	$1, %ax
	jne	.LBB37_6
	leaq	-4(%r14), %rdx
	movq	%rsp, %rax
	movq	%rdi, %r13
	movq	%rax, %rdi
	callq	nla_wire.place.check_one.9a0187163d44de3c
	movq	%r13, %rdi
	cmpb	$0, (%rsp)
	je	.LBB37_6
	jmp	.LBB37_34
.LBB37_13:
	cmpq	$7, %rbx
	ja	.LBB37_62
	leaq	.Lstatic.20(%rip), %rax
	movl	$8, %ecx
	xorl	%r11d, %r11d
	movl	$18, %r10d
	leaq	.Lstatic.36(%rip), %r9
	jmp	.LBB37_47
.LBB37_15:
	xorl	%esi, %esi
	cmpq	$32, %rbx
	jae	.LBB37_62
	leaq	.Lstatic.20(%rip), %rax
	movl	$32, %ecx
	movl	$17, %r10d
	leaq	.Lstatic.44(%rip), %r9
.LBB37_17:
	xorl	%r11d, %r11d
	jmp	.LBB37_48
.LBB37_18:
	cmpq	$15, %rbx
	ja	.LBB37_62
	leaq	.Lstatic.20(%rip), %rax
	movl	$16, %ecx
	xorl	%r11d, %r11d
	movl	$20, %r10d
	leaq	.Lstatic.41(%rip), %r9
	jmp	.LBB37_47
.LBB37_20:
	cmpq	$7, %rbx
	ja	.LBB37_62
	leaq	.Lstatic.20(%rip), %rax
	movl	$8, %ecx
	xorl	%r11d, %r11d
	movl	$15, %r10d
	leaq	.Lstatic.34(%rip), %r9
	jmp	.LBB37_47
.LBB37_22:
	cmpq	$7, %rbx
	ja	.LBB37_62
	leaq	.Lstatic.20(%rip), %rax
	movl	$8, %ecx
	xorl	%r11d, %r11d
	movl	$16, %r10d
	leaq	.Lstatic.35(%rip), %r9
	jmp	.LBB37_47
.LBB37_24:
	xorps	%xmm0, %xmm0
	movaps	%xmm0, 32(%rsp)
	movaps	%xmm0, 16(%rsp)
	movaps	%xmm0, (%rsp)
	testq	%rbx, %rbx
	je	.LBB37_35
	xorl	%r14d, %r14d
	jmp	.LBB37_27
	.p2align	4
.LBB37_26:
	addl	$3, %r14d
	andl	$-4, %r14d
	cmpq	%r14, %rbx
	jbe	.LBB37_35
.LBB37_27:
	subq	%r14, %rbx
	cmpq	$4, %rbx
	jb	.LBB37_55
	addq	%r14, %r12
	movzwl	(%r12), %r14d
	cmpq	%r14, %rbx
	jb	.LBB37_52
	cmpw	$3, %r14w
	jbe	.LBB37_53
	movzwl	2(%r12), %esi
	movl	%esi, %eax
	andl	$16383, %eax
	cmpl	$6, %eax
	jb	.LBB37_32
	addl	$-7, %eax
	cmpl	$1, %eax
	ja	.LBB37_26
.LBB37_32:
	leaq	-4(%r14), %rdx
	cmpl	$8, %edx
	je	.LBB37_26
	movq	%rsp, %rax
	movq	%rdi, %r13
	movq	%rax, %rdi
	callq	nla_wire.place.check_one.5361511d0f913a98
	movq	%r13, %rdi
	cmpb	$0, (%rsp)
	je	.LBB37_26
.LBB37_34:
	movzwl	8(%rsp), %r8d
	movl	10(%rsp), %ecx
	movzwl	14(%rsp), %eax
	shlq	$32, %rax
	orq	%rcx, %rax
	movq	16(%rsp), %rdx
	movq	24(%rsp), %r14
	movq	32(%rsp), %rbx
	movq	40(%rsp), %rcx
	movb	$1, %sil
	jmp	.LBB37_58
.LBB37_35:
	xorl	%r8d, %r8d
	xorl	%esi, %esi
	xorl	%eax, %eax
	xorl	%edx, %edx
	xorl	%r14d, %r14d
	xorl	%ebx, %ebx
	jmp	.LBB37_57
.LBB37_36:
	xorl	%esi, %esi
	cmpq	$12, %rbx
	jae	.LBB37_62
	leaq	.Lstatic.20(%rip), %rax
	movl	$12, %r10d
	leaq	.Lstatic.33(%rip), %r9
	jmp	.LBB37_40
.LBB37_38:
	xorl	%esi, %esi
	cmpq	$12, %rbx
	jae	.LBB37_62
	leaq	.Lstatic.20(%rip), %rax
	movl	$12, %r10d
	leaq	.Lstatic.37(%rip), %r9
.LBB37_40:
	xorl	%r11d, %r11d
	xorl	%r8d, %r8d
	xorl	%r14d, %r14d
	movl	$12, %ecx
	jmp	.LBB37_49
.LBB37_41:
	cmpq	$7, %rbx
	ja	.LBB37_62
	leaq	.Lstatic.20(%rip), %rax
	movl	$8, %ecx
	xorl	%r11d, %r11d
	movl	$20, %r10d
	leaq	.Lstatic.38(%rip), %r9
	jmp	.LBB37_47
.LBB37_43:
	cmpq	$15, %rbx
	ja	.LBB37_62
	leaq	.Lstatic.20(%rip), %rax
	movl	$16, %ecx
	xorl	%r11d, %r11d
	movl	$20, %r10d
	leaq	.Lstatic.42(%rip), %r9
	jmp	.LBB37_47
.LBB37_45:
	cmpq	$7, %rbx
	ja	.LBB37_62
	leaq	.Lstatic.20(%rip), %rax
	movl	$8, %ecx
	xorl	%r11d, %r11d
	movl	$13, %r10d
	leaq	.Lstatic.40(%rip), %r9
.LBB37_47:
	xorl	%esi, %esi
.LBB37_48:
	xorl	%r8d, %r8d
	xorl	%r14d, %r14d
.LBB37_49:
	movl	$7, %edx
	movb	$1, %r12b
	testb	%r11b, %r11b
	jne	.LBB37_64
	movl	(%rax), %r11d
	movl	3(%rax), %r15d
	shlq	$32, %r15
	orq	%r11, %r15
	movabsq	$7233184988000772464, %r11
	cmpq	%r11, %r15
	jne	.LBB37_64
	movzbl	%r14b, %r14d
	movq	%r9, %rax
	movq	%r10, %rdx
	xorl	%esi, %esi
	jmp	.LBB37_64
.LBB37_55:
	movl	$1, %r14d
	jmp	.LBB37_56
.LBB37_52:
	shll	$16, %r14d
	orq	$2, %r14
	jmp	.LBB37_56
.LBB37_53:
	shll	$16, %r14d
	orq	$3, %r14
	xorl	%ebx, %ebx
.LBB37_56:
	leaq	.Lstatic.20(%rip), %r8
	movq	%r8, %rax
	shrq	$16, %rax
	movl	$7, %edx
	movb	$1, %sil
.LBB37_57:
	xorl	%ecx, %ecx
.LBB37_58:
	movzwl	%r8w, %r8d
	shlq	$16, %rax
	orq	%r8, %rax
	testb	%sil, %sil
	je	.LBB37_62
	movl	%r14d, %r8d
	shrl	$16, %r8d
	movq	%r14, %rsi
	shrq	$32, %rsi
	movzwl	%r15w, %r9d
	decl	%r9d
	cmpl	$12, %r9d
	ja	.LBB37_76
	leaq	.LJTI37_1(%rip), %r10
	movslq	(%r10,%r9,4), %r9
	addq	%r10, %r9
	jmpq	*%r9
.LBB37_61:
	leaq	.Lstatic.32(%rip), %r9
	movl	$11, %r10d
	jmp	.LBB37_82
.LBB37_62:
	xorl	%r12d, %r12d
.LBB37_63:
	xorl	%eax, %eax
	xorl	%edx, %edx
	xorl	%r14d, %r14d
	xorl	%r8d, %r8d
	xorl	%esi, %esi
	xorl	%ebx, %ebx
	xorl	%ecx, %ecx
.LBB37_64:
	movb	%r12b, (%rdi)
	movq	%rax, 8(%rdi)
	movq	%rdx, 16(%rdi)
	movw	%r14w, 24(%rdi)
	movw	%r8w, 26(%rdi)
	movl	%esi, 28(%rdi)
	movq	%rbx, 32(%rdi)
	movq	%rcx, 40(%rdi)
	addq	$48, %rsp
	.cfi_def_cfa_offset 48
	popq	%rbx
	.cfi_def_cfa_offset 40
	popq	%r12
	.cfi_def_cfa_offset 32
	popq	%r13
	.cfi_def_cfa_offset 24
	popq	%r14
	.cfi_def_cfa_offset 16
	popq	%r15
	.cfi_def_cfa_offset 8
	retq
.LBB37_65:
	.cfi_def_cfa_offset 96
	leaq	.Lstatic.43(%rip), %r9
	jmp	.LBB37_68
.LBB37_66:
	leaq	.Lstatic.36(%rip), %r9
	movl	$18, %r10d
	jmp	.LBB37_82
.LBB37_67:
	leaq	.Lstatic.44(%rip), %r9
.LBB37_68:
	movl	$17, %r10d
	jmp	.LBB37_82
.LBB37_69:
	leaq	.Lstatic.41(%rip), %r9
	jmp	.LBB37_79
.LBB37_70:
	leaq	.Lstatic.34(%rip), %r9
	movl	$15, %r10d
	jmp	.LBB37_82
.LBB37_71:
	leaq	.Lstatic.35(%rip), %r9
	movl	$16, %r10d
	jmp	.LBB37_82
.LBB37_72:
	leaq	.Lstatic.39(%rip), %r9
	jmp	.LBB37_81
.LBB37_73:
	leaq	.Lstatic.33(%rip), %r9
	jmp	.LBB37_75
.LBB37_74:
	leaq	.Lstatic.37(%rip), %r9
.LBB37_75:
	movl	$12, %r10d
	jmp	.LBB37_82
.LBB37_76:
	leaq	.Lstatic.3(%rip), %r9
	movb	$1, %r11b
	xorl	%r10d, %r10d
	jmp	.LBB37_83
.LBB37_77:
	leaq	.Lstatic.38(%rip), %r9
	jmp	.LBB37_79
.LBB37_78:
	leaq	.Lstatic.42(%rip), %r9
.LBB37_79:
	movl	$20, %r10d
	jmp	.LBB37_82
.LBB37_80:
	leaq	.Lstatic.40(%rip), %r9
.LBB37_81:
	movl	$13, %r10d
.LBB37_82:
	xorl	%r11d, %r11d
.LBB37_83:
	movb	$1, %r12b
	cmpq	$7, %rdx
	je	.LBB37_49
	jmp	.LBB37_64
.Lfunc_end37:
	.size	nla_wire.place.check_one.41ac5f0caeaa9df8, .Lfunc_end37-nla_wire.place.check_one.41ac5f0caeaa9df8
	.cfi_endproc
	.section	.rodata.nla_wire.place.check_one.41ac5f0caeaa9df8,"a",@progbits
	.p2align	2, 0x0
.LJTI37_0:
	.long	.LBB37_2-.LJTI37_0
	.long	.LBB37_36-.LJTI37_0
	.long	.LBB37_20-.LJTI37_0
	.long	.LBB37_22-.LJTI37_0
	.long	.LBB37_13-.LJTI37_0
	.long	.LBB37_38-.LJTI37_0
	.long	.LBB37_41-.LJTI37_0
	.long	.LBB37_24-.LJTI37_0
	.long	.LBB37_45-.LJTI37_0
	.long	.LBB37_18-.LJTI37_0
	.long	.LBB37_43-.LJTI37_0
	.long	.LBB37_4-.LJTI37_0
	.long	.LBB37_15-.LJTI37_0
.LJTI37_1:
	.long	.LBB37_61-.LJTI37_1
	.long	.LBB37_73-.LJTI37_1
	.long	.LBB37_70-.LJTI37_1
	.long	.LBB37_71-.LJTI37_1
	.long	.LBB37_66-.LJTI37_1
	.long	.LBB37_74-.LJTI37_1
	.long	.LBB37_77-.LJTI37_1
	.long	.LBB37_72-.LJTI37_1
	.long	.LBB37_80-.LJTI37_1
	.long	.LBB37_69-.LJTI37_1
	.long	.LBB37_78-.LJTI37_1
	.long	.LBB37_65-.LJTI37_1
	.long	.LBB37_67-.LJTI37_1

	.section	.text.nla_wire.place.check_one.5361511d0f913a98,"ax",@progbits
	.p2align	4
	.type	nla_wire.place.check_one.5361511d0f913a98,@function
nla_wire.place.check_one.5361511d0f913a98:
	.cfi_startproc
	andl	$16383, %esi
	xorl	%r8d, %r8d
	xorl	%r9d, %r9d
	xorl	%ecx, %ecx
	xorl	%eax, %eax
	cmpw	$8, %si
	ja	.LBB38_1
	leaq	.LJTI38_0(%rip), %r10
	movslq	(%r10,%rsi,4), %r11
	addq	%r10, %r11
	xorl	%esi, %esi
	xorl	%r10d, %r10d
	jmpq	*%r11
.LBB38_3:
	cmpq	$8, %rdx
	je	.LBB38_22
	leaq	.Lstatic.23(%rip), %rcx
	jmp	.LBB38_19
.LBB38_13:
	cmpq	$8, %rdx
	je	.LBB38_22
	leaq	.Lstatic.28(%rip), %rcx
	movl	$23, %r8d
	jmp	.LBB38_20
.LBB38_5:
	cmpq	$8, %rdx
	je	.LBB38_22
	leaq	.Lstatic.24(%rip), %rcx
	jmp	.LBB38_19
.LBB38_15:
	cmpq	$8, %rdx
	je	.LBB38_22
	leaq	.Lstatic.29(%rip), %rcx
	jmp	.LBB38_19
.LBB38_17:
	cmpq	$8, %rdx
	je	.LBB38_22
	leaq	.Lstatic.30(%rip), %rcx
.LBB38_19:
	movl	$24, %r8d
.LBB38_20:
	movl	$8, %r10d
	movw	$5, %r9w
	movb	$1, %al
	movq	%rdx, %rsi
	jmp	.LBB38_21
.LBB38_7:
	cmpq	$8, %rdx
	je	.LBB38_22
	leaq	.Lstatic.25(%rip), %rcx
	movl	$22, %r8d
	jmp	.LBB38_20
.LBB38_9:
	cmpq	$8, %rdx
	je	.LBB38_22
	leaq	.Lstatic.26(%rip), %rcx
	movl	$22, %r8d
	jmp	.LBB38_20
.LBB38_11:
	cmpq	$8, %rdx
	jne	.LBB38_12
.LBB38_22:
	xorl	%eax, %eax
	xorl	%ecx, %ecx
	xorl	%r8d, %r8d
	xorl	%r9d, %r9d
.LBB38_1:
	xorl	%esi, %esi
	xorl	%r10d, %r10d
.LBB38_21:
	movb	%al, (%rdi)
	movq	%rcx, 8(%rdi)
	movq	%r8, 16(%rdi)
	movw	%r9w, 24(%rdi)
	movw	$0, 26(%rdi)
	movl	$0, 28(%rdi)
	movq	%rsi, 32(%rdi)
	movq	%r10, 40(%rdi)
	retq
.LBB38_12:
	leaq	.Lstatic.27(%rip), %rcx
	movl	$23, %r8d
	jmp	.LBB38_20
.Lfunc_end38:
	.size	nla_wire.place.check_one.5361511d0f913a98, .Lfunc_end38-nla_wire.place.check_one.5361511d0f913a98
	.cfi_endproc
	.section	.rodata.nla_wire.place.check_one.5361511d0f913a98,"a",@progbits
	.p2align	2, 0x0
.LJTI38_0:
	.long	.LBB38_3-.LJTI38_0
	.long	.LBB38_5-.LJTI38_0
	.long	.LBB38_7-.LJTI38_0
	.long	.LBB38_9-.LJTI38_0
	.long	.LBB38_11-.LJTI38_0
	.long	.LBB38_13-.LJTI38_0
	.long	.LBB38_21-.LJTI38_0
	.long	.LBB38_15-.LJTI38_0
	.long	.LBB38_17-.LJTI38_0

	.section	.text.nla_wire.place.check_one.9a0187163d44de3c,"ax",@progbits
	.p2align	4
	.type	nla_wire.place.check_one.9a0187163d44de3c,@function
nla_wire.place.check_one.9a0187163d44de3c:
	.cfi_startproc
	andl	$16383, %esi
	cmpw	$1, %si
	jne	.LBB39_1
	xorl	%ecx, %ecx
	xorl	%eax, %eax
	cmpq	$16, %rdx
	leaq	.Lstatic.31(%rip), %rsi
	cmovaeq	%rcx, %rsi
	setb	%al
	movl	$17, %r8d
	cmovaeq	%rcx, %r8
	cmovbq	%rdx, %rcx
	movl	%eax, %edx
	shll	$4, %edx
	jmp	.LBB39_3
.LBB39_1:
	xorl	%eax, %eax
	xorl	%esi, %esi
	xorl	%r8d, %r8d
	xorl	%ecx, %ecx
	xorl	%edx, %edx
.LBB39_3:
	movb	%al, (%rdi)
	movq	%rsi, 8(%rdi)
	movq	%r8, 16(%rdi)
	movq	$0, 24(%rdi)
	movq	%rcx, 32(%rdi)
	movq	%rdx, 40(%rdi)
	retq
.Lfunc_end39:
	.size	nla_wire.place.check_one.9a0187163d44de3c, .Lfunc_end39-nla_wire.place.check_one.9a0187163d44de3c
	.cfi_endproc

	.section	.text.nla_wire.place.check_one.79503c7a397af21a,"ax",@progbits
	.p2align	4
	.type	nla_wire.place.check_one.79503c7a397af21a,@function
nla_wire.place.check_one.79503c7a397af21a:
	.cfi_startproc
	movq	16(%rsi), %rcx
	leaq	.Lstatic.20(%rip), %rax
	testq	%rcx, %rcx
	je	.LBB40_1
	movq	8(%rsi), %r8
	xorl	%edx, %edx
	.p2align	4
.LBB40_7:
	subq	%rdx, %rcx
	cmpq	$4, %rcx
	jb	.LBB40_8
	addq	%rdx, %r8
	movzwl	(%r8), %edx
	cmpq	%rdx, %rcx
	jb	.LBB40_10
	cmpw	$3, %dx
	jbe	.LBB40_12
	addl	$3, %edx
	andl	$-4, %edx
	cmpq	%rdx, %rcx
	ja	.LBB40_7
	xorl	%esi, %esi
	xorl	%eax, %eax
	xorl	%r9d, %r9d
	xorl	%edx, %edx
	xorl	%r8d, %r8d
	xorl	%ecx, %ecx
	jmp	.LBB40_15
.LBB40_1:
	movl	$4, %edx
	jmp	.LBB40_2
.LBB40_8:
	movl	$1, %edx
	jmp	.LBB40_3
.LBB40_10:
	shll	$16, %edx
	orq	$2, %rdx
	jmp	.LBB40_3
.LBB40_12:
	shll	$16, %edx
	orq	$3, %rdx
.LBB40_2:
	xorl	%ecx, %ecx
.LBB40_3:
	movl	%edx, %r8d
	shrl	$16, %r8d
	movzwl	(%rsi), %r10d
	andl	$16383, %r10d
	movl	$7, %r9d
	movb	$1, %sil
	cmpw	$1, %r10w
	jne	.LBB40_15
	movl	(%rax), %r10d
	movl	3(%rax), %r11d
	shlq	$32, %r11
	orq	%r10, %r11
	movabsq	$7233184988000772464, %r10
	cmpq	%r10, %r11
	jne	.LBB40_15
	movzbl	%dl, %edx
	movl	$12, %r9d
	leaq	.Lstatic.46(%rip), %rax
.LBB40_15:
	movb	%sil, (%rdi)
	movq	%rax, 8(%rdi)
	movq	%r9, 16(%rdi)
	movw	%dx, 24(%rdi)
	movw	%r8w, 26(%rdi)
	movl	$0, 28(%rdi)
	movq	%rcx, 32(%rdi)
	movq	$0, 40(%rdi)
	retq
.Lfunc_end40:
	.size	nla_wire.place.check_one.79503c7a397af21a, .Lfunc_end40-nla_wire.place.check_one.79503c7a397af21a
	.cfi_endproc

	.section	.text.nla_wire.place.check_one.8ba1f663fcd59a5e,"ax",@progbits
	.p2align	4
	.type	nla_wire.place.check_one.8ba1f663fcd59a5e,@function
nla_wire.place.check_one.8ba1f663fcd59a5e:
	.cfi_startproc
	andl	$16383, %esi
	decl	%esi
	cmpl	$7, %esi
	ja	.LBB41_1
	leaq	.LJTI41_0(%rip), %rax
	movslq	(%rax,%rsi,4), %rcx
	addq	%rax, %rcx
	jmpq	*%rcx
.LBB41_3:
	cmpq	$4, %rdx
	je	.LBB41_1
	leaq	.Lstatic.47(%rip), %rax
	movl	$11, %esi
	jmp	.LBB41_5
.LBB41_14:
	cmpq	$4, %rdx
	je	.LBB41_1
	leaq	.Lstatic.51(%rip), %rax
	movl	$20, %esi
	jmp	.LBB41_5
.LBB41_10:
	cmpq	$4, %rdx
	je	.LBB41_1
	leaq	.Lstatic.49(%rip), %rax
	movl	$14, %esi
	jmp	.LBB41_5
.LBB41_12:
	cmpq	$4, %rdx
	je	.LBB41_1
	leaq	.Lstatic.50(%rip), %rax
	movl	$16, %esi
	jmp	.LBB41_5
.LBB41_21:
	cmpq	$4, %rdx
	je	.LBB41_1
	leaq	.Lstatic.54(%rip), %rax
	movl	$20, %esi
	jmp	.LBB41_5
.LBB41_8:
	cmpq	$1, %rdx
	je	.LBB41_1
	leaq	.Lstatic.48(%rip), %rax
	movl	$17, %esi
	movl	$1, %r8d
	jmp	.LBB41_6
.LBB41_17:
	cmpq	$4, %rdx
	je	.LBB41_1
	leaq	.Lstatic.52(%rip), %rax
	movl	$20, %esi
	jmp	.LBB41_5
.LBB41_19:
	cmpq	$4, %rdx
	jne	.LBB41_20
.LBB41_1:
	xorl	%ecx, %ecx
	xorl	%eax, %eax
	xorl	%esi, %esi
	xorl	%r9d, %r9d
	xorl	%edx, %edx
	xorl	%r8d, %r8d
	jmp	.LBB41_7
.LBB41_20:
	leaq	.Lstatic.53(%rip), %rax
	movl	$19, %esi
.LBB41_5:
	movl	$4, %r8d
.LBB41_6:
	movw	$5, %r9w
	movb	$1, %cl
.LBB41_7:
	movb	%cl, (%rdi)
	movq	%rax, 8(%rdi)
	movq	%rsi, 16(%rdi)
	movw	%r9w, 24(%rdi)
	movw	$0, 26(%rdi)
	movl	$0, 28(%rdi)
	movq	%rdx, 32(%rdi)
	movq	%r8, 40(%rdi)
	retq
.Lfunc_end41:
	.size	nla_wire.place.check_one.8ba1f663fcd59a5e, .Lfunc_end41-nla_wire.place.check_one.8ba1f663fcd59a5e
	.cfi_endproc
	.section	.rodata.nla_wire.place.check_one.8ba1f663fcd59a5e,"a",@progbits
	.p2align	2, 0x0
.LJTI41_0:
	.long	.LBB41_3-.LJTI41_0
	.long	.LBB41_8-.LJTI41_0
	.long	.LBB41_10-.LJTI41_0
	.long	.LBB41_12-.LJTI41_0
	.long	.LBB41_14-.LJTI41_0
	.long	.LBB41_17-.LJTI41_0
	.long	.LBB41_19-.LJTI41_0
	.long	.LBB41_21-.LJTI41_0

	.section	.rodata.cst16,"aM",@progbits,16
	.p2align	4, 0x0
.LCPI42_0:
	.byte	255
	.byte	0
	.byte	255
	.byte	255
	.byte	0
	.byte	0
	.byte	0
	.byte	0
	.byte	0
	.byte	0
	.byte	0
	.byte	0
	.byte	0
	.byte	0
	.byte	0
	.byte	0
	.section	.text.nla_wire.place.check_one.b30b196c481b950e,"ax",@progbits
	.p2align	4
	.type	nla_wire.place.check_one.b30b196c481b950e,@function
nla_wire.place.check_one.b30b196c481b950e:
	.cfi_startproc
	pushq	%r14
	.cfi_def_cfa_offset 16
	pushq	%rbx
	.cfi_def_cfa_offset 24
	subq	$56, %rsp
	.cfi_def_cfa_offset 80
	.cfi_offset %rbx, -24
	.cfi_offset %r14, -16
	movq	%rdi, %rbx
	xorps	%xmm1, %xmm1
	movaps	%xmm1, 32(%rsp)
	movaps	%xmm1, 16(%rsp)
	movaps	%xmm1, (%rsp)
	movzwl	(%rsi), %eax
	andl	$16383, %eax
	cmpw	$53, %ax
	jne	.LBB42_1
	movq	%rsi, %r14
	movq	8(%rsi), %rsi
	movq	16(%r14), %rdx
	movq	%rsp, %rdi
	callq	nla_wire.text.check_string
	movzbl	(%rsp), %eax
	xorl	%ecx, %ecx
	testb	%al, %al
	je	.LBB42_3
	movq	8(%rsp), %r8
	movq	16(%rsp), %rdx
	movsd	24(%rsp), %xmm0
	movl	28(%rsp), %edi
	movaps	32(%rsp), %xmm1
	movzwl	(%r14), %r9d
	andl	$16383, %r9d
	cmpw	$53, %r9w
	leaq	.Lstatic.3(%rip), %r10
	leaq	.Lstatic.55(%rip), %rsi
	cmovneq	%r10, %rsi
	cmpq	$7, %rdx
	jne	.LBB42_5
	movl	$7, %edx
	cmpw	$53, %r9w
	jne	.LBB42_5
	movl	(%r8), %r9d
	movl	3(%r8), %r10d
	shlq	$32, %r10
	orq	%r9, %r10
	movabsq	$7233184988000772464, %r9
	cmpq	%r9, %r10
	jne	.LBB42_5
	andps	.LCPI42_0(%rip), %xmm0
	movl	$15, %edx
	jmp	.LBB42_9
.LBB42_1:
	xorps	%xmm0, %xmm0
	xorl	%eax, %eax
	xorl	%esi, %esi
	xorl	%edx, %edx
	xorl	%ecx, %ecx
	jmp	.LBB42_9
.LBB42_5:
	movq	%r8, %rsi
	movl	%edi, %ecx
	jmp	.LBB42_9
.LBB42_3:
	xorps	%xmm0, %xmm0
	xorl	%eax, %eax
	xorl	%esi, %esi
	xorl	%edx, %edx
	xorps	%xmm1, %xmm1
.LBB42_9:
	movb	%al, (%rbx)
	movq	%rsi, 8(%rbx)
	movq	%rdx, 16(%rbx)
	movss	%xmm0, 24(%rbx)
	movl	%ecx, 28(%rbx)
	movups	%xmm1, 32(%rbx)
	addq	$56, %rsp
	.cfi_def_cfa_offset 24
	popq	%rbx
	.cfi_def_cfa_offset 16
	popq	%r14
	.cfi_def_cfa_offset 8
	retq
.Lfunc_end42:
	.size	nla_wire.place.check_one.b30b196c481b950e, .Lfunc_end42-nla_wire.place.check_one.b30b196c481b950e
	.cfi_endproc

	.section	.text.nla_wire.place.check_one.f7f30aae703aa44d,"ax",@progbits
	.p2align	4
	.type	nla_wire.place.check_one.f7f30aae703aa44d,@function
nla_wire.place.check_one.f7f30aae703aa44d:
	.cfi_startproc
	andl	$16383, %esi
	cmpw	$2, %si
	je	.LBB43_3
	cmpl	$1, %esi
	jne	.LBB43_2
.LBB43_3:
	cmpq	$4, %rdx
	jne	.LBB43_4
.LBB43_2:
	xorl	%eax, %eax
	xorl	%esi, %esi
	xorl	%ecx, %ecx
	xorl	%r8d, %r8d
	xorl	%edx, %edx
	xorl	%r9d, %r9d
	jmp	.LBB43_5
.LBB43_4:
	xorl	%ecx, %ecx
	cmpw	$1, %si
	leaq	.Lstatic.56(%rip), %rax
	leaq	.Lstatic.57(%rip), %rsi
	cmoveq	%rax, %rsi
	setne	%cl
	addq	$27, %rcx
	movl	$4, %r9d
	movw	$5, %r8w
	movb	$1, %al
.LBB43_5:
	movb	%al, (%rdi)
	movq	%rsi, 8(%rdi)
	movq	%rcx, 16(%rdi)
	movw	%r8w, 24(%rdi)
	movw	$0, 26(%rdi)
	movl	$0, 28(%rdi)
	movq	%rdx, 32(%rdi)
	movq	%r9, 40(%rdi)
	retq
.Lfunc_end43:
	.size	nla_wire.place.check_one.f7f30aae703aa44d, .Lfunc_end43-nla_wire.place.check_one.f7f30aae703aa44d
	.cfi_endproc

	.section	.rodata.cst16,"aM",@progbits,16
	.p2align	4, 0x0
.LCPI44_0:
	.byte	255
	.byte	0
	.byte	255
	.byte	255
	.byte	0
	.byte	0
	.byte	0
	.byte	0
	.byte	0
	.byte	0
	.byte	0
	.byte	0
	.byte	0
	.byte	0
	.byte	0
	.byte	0
	.section	.text.nla_wire.place.check_one.16a873d75d6df2a1,"ax",@progbits
	.p2align	4
	.type	nla_wire.place.check_one.16a873d75d6df2a1,@function
nla_wire.place.check_one.16a873d75d6df2a1:
	.cfi_startproc
	pushq	%r14
	.cfi_def_cfa_offset 16
	pushq	%rbx
	.cfi_def_cfa_offset 24
	subq	$56, %rsp
	.cfi_def_cfa_offset 80
	.cfi_offset %rbx, -24
	.cfi_offset %r14, -16
	movq	%rsi, %r14
	movq	%rdi, %rbx
	xorps	%xmm0, %xmm0
	movaps	%xmm0, 32(%rsp)
	movaps	%xmm0, 16(%rsp)
	movaps	%xmm0, (%rsp)
	movq	16(%rsi), %rdx
	movzwl	(%rsi), %eax
	andl	$16383, %eax
	cmpl	$3, %eax
	je	.LBB44_4
	movq	8(%r14), %rsi
	cmpl	$2, %eax
	je	.LBB44_3
	cmpl	$1, %eax
	jne	.LBB44_8
.LBB44_3:
	movq	%rsp, %rdi
	callq	nla_wire.text.check_string
.LBB44_8:
	movzbl	(%rsp), %eax
	testb	%al, %al
	je	.LBB44_9
.LBB44_10:
	movq	16(%rsp), %rsi
	movzwl	(%r14), %edx
	andl	$16383, %edx
	movl	$21, %ecx
	cmpl	$1, %edx
	je	.LBB44_11
	cmpl	$3, %edx
	je	.LBB44_15
	cmpl	$2, %edx
	jne	.LBB44_16
	leaq	.Lstatic.59(%rip), %rdx
	xorl	%r8d, %r8d
	jmp	.LBB44_17
.LBB44_4:
	cmpq	$4, %rdx
	jne	.LBB44_5
	xorl	%eax, %eax
	xorl	%edi, %edi
	xorl	%esi, %esi
	xorl	%edx, %edx
	xorl	%ecx, %ecx
	xorl	%r8d, %r8d
	jmp	.LBB44_7
.LBB44_15:
	leaq	.Lstatic.60(%rip), %rdx
	movl	$23, %ecx
	xorl	%r8d, %r8d
	jmp	.LBB44_17
.LBB44_11:
	leaq	.Lstatic.58(%rip), %rdx
	xorl	%r8d, %r8d
	jmp	.LBB44_17
.LBB44_16:
	leaq	.Lstatic.3(%rip), %rdx
	movb	$1, %r8b
	xorl	%ecx, %ecx
.LBB44_17:
	movq	8(%rsp), %r9
	movsd	24(%rsp), %xmm1
	movl	28(%rsp), %edi
	movaps	32(%rsp), %xmm0
	cmpq	$7, %rsi
	jne	.LBB44_18
	movl	(%r9), %esi
	movl	3(%r9), %r10d
	shlq	$32, %r10
	orq	%rsi, %r10
	movabsq	$7233184988000772464, %rsi
	cmpq	%rsi, %r10
	setne	%sil
	orb	%sil, %r8b
	je	.LBB44_21
	movq	%r9, %rdx
	movl	$7, %ecx
	jmp	.LBB44_23
.LBB44_18:
	movq	%r9, %rdx
	movq	%rsi, %rcx
	jmp	.LBB44_23
.LBB44_21:
	andps	.LCPI44_0(%rip), %xmm1
	jmp	.LBB44_22
.LBB44_5:
	movb	$1, %r8b
	movl	$4, %ecx
	movw	$5, %si
	movl	$7, %edi
	leaq	.Lstatic.20(%rip), %rax
.LBB44_7:
	movb	%r8b, (%rsp)
	movq	%rax, 8(%rsp)
	movq	%rdi, 16(%rsp)
	movw	%si, 24(%rsp)
	movl	$0, 28(%rsp)
	movq	%rdx, 32(%rsp)
	movq	%rcx, 40(%rsp)
	movzbl	(%rsp), %eax
	testb	%al, %al
	jne	.LBB44_10
.LBB44_9:
	xorps	%xmm0, %xmm0
	xorps	%xmm1, %xmm1
	xorl	%edx, %edx
	xorl	%ecx, %ecx
.LBB44_22:
	xorl	%edi, %edi
.LBB44_23:
	movb	%al, (%rbx)
	movq	%rdx, 8(%rbx)
	movq	%rcx, 16(%rbx)
	movss	%xmm1, 24(%rbx)
	movl	%edi, 28(%rbx)
	movups	%xmm0, 32(%rbx)
	addq	$56, %rsp
	.cfi_def_cfa_offset 24
	popq	%rbx
	.cfi_def_cfa_offset 16
	popq	%r14
	.cfi_def_cfa_offset 8
	retq
.Lfunc_end44:
	.size	nla_wire.place.check_one.16a873d75d6df2a1, .Lfunc_end44-nla_wire.place.check_one.16a873d75d6df2a1
	.cfi_endproc

	.section	.text.nla_wire.place.check_one.5fa77b269143286c,"ax",@progbits
	.p2align	4
	.type	nla_wire.place.check_one.5fa77b269143286c,@function
nla_wire.place.check_one.5fa77b269143286c:
	.cfi_startproc
	andl	$16383, %esi
	cmpw	$1, %si
	jne	.LBB45_1
	xorl	%ecx, %ecx
	xorl	%eax, %eax
	cmpq	$4, %rdx
	setne	%al
	leaq	.Lstatic.61(%rip), %rsi
	cmoveq	%rcx, %rsi
	movl	$13, %r8d
	cmoveq	%rcx, %r8
	leal	(%rax,%rax,4), %r9d
	cmovneq	%rdx, %rcx
	movl	%eax, %edx
	shll	$2, %edx
	jmp	.LBB45_3
.LBB45_1:
	xorl	%eax, %eax
	xorl	%esi, %esi
	xorl	%r8d, %r8d
	xorl	%r9d, %r9d
	xorl	%ecx, %ecx
	xorl	%edx, %edx
.LBB45_3:
	movb	%al, (%rdi)
	movq	%rsi, 8(%rdi)
	movq	%r8, 16(%rdi)
	movw	%r9w, 24(%rdi)
	movw	$0, 26(%rdi)
	movl	$0, 28(%rdi)
	movq	%rcx, 32(%rdi)
	movq	%rdx, 40(%rdi)
	retq
.Lfunc_end45:
	.size	nla_wire.place.check_one.5fa77b269143286c, .Lfunc_end45-nla_wire.place.check_one.5fa77b269143286c
	.cfi_endproc

	.section	.text.nla_wire.place.check_one.6cf1decf0b22dc4b,"ax",@progbits
	.p2align	4
	.type	nla_wire.place.check_one.6cf1decf0b22dc4b,@function
nla_wire.place.check_one.6cf1decf0b22dc4b:
	.cfi_startproc
	pushq	%rbp
	.cfi_def_cfa_offset 16
	pushq	%r15
	.cfi_def_cfa_offset 24
	pushq	%r14
	.cfi_def_cfa_offset 32
	pushq	%r12
	.cfi_def_cfa_offset 40
	pushq	%rbx
	.cfi_def_cfa_offset 48
	subq	$48, %rsp
	.cfi_def_cfa_offset 96
	.cfi_offset %rbx, -48
	.cfi_offset %r12, -40
	.cfi_offset %r14, -32
	.cfi_offset %r15, -24
	.cfi_offset %rbp, -16
	movq	%rdi, %rbx
	movq	8(%rsi), %r12
	movq	16(%rsi), %r15
	movzwl	(%rsi), %ebp
	andl	$16383, %ebp
	xorl	%r9d, %r9d
	cmpl	$45, %ebp
	je	.LBB46_22
	cmpl	$10, %ebp
	je	.LBB46_9
	cmpl	$2, %ebp
	jne	.LBB46_55
	testq	%r15, %r15
	je	.LBB46_35
	xorl	%r14d, %r14d
	.p2align	4
.LBB46_5:
	subq	%r14, %r15
	cmpq	$4, %r15
	jb	.LBB46_40
	addq	%r14, %r12
	movzwl	(%r12), %r14d
	cmpq	%r14, %r15
	jb	.LBB46_41
	cmpw	$3, %r14w
	jbe	.LBB46_42
	addl	$3, %r14d
	andl	$-4, %r14d
	cmpq	%r14, %r15
	ja	.LBB46_5
	jmp	.LBB46_54
.LBB46_9:
	testq	%r15, %r15
	je	.LBB46_33
	xorps	%xmm0, %xmm0
	movaps	%xmm0, 32(%rsp)
	movaps	%xmm0, 16(%rsp)
	movaps	%xmm0, (%rsp)
	xorl	%r14d, %r14d
	jmp	.LBB46_13
	.p2align	4
.LBB46_11:
	movq	%rsp, %rdi
	callq	nla_wire.place.check_one.97809315b2b26985
	cmpb	$0, (%rsp)
	jne	.LBB46_63
.LBB46_12:
	addl	$3, %r14d
	andl	$-4, %r14d
	cmpq	%r14, %r15
	jbe	.LBB46_39
.LBB46_13:
	subq	%r14, %r15
	cmpq	$4, %r15
	jb	.LBB46_45
	addq	%r14, %r12
	movzwl	(%r12), %r14d
	cmpq	%r14, %r15
	jb	.LBB46_37
	cmpw	$3, %r14w
	jbe	.LBB46_38
	movzwl	2(%r12), %esi
	movl	%esi, %eax
	andl	$16383, %eax
	decl	%eax
	cmpl	$8, %eax
	ja	.LBB46_12
	leaq	-4(%r14), %rdx
	leaq	.LJTI46_0(%rip), %rcx
	movslq	(%rcx,%rax,4), %rax
	addq	%rcx, %rax
	jmpq	*%rax
.LBB46_18:
	cmpl	$4, %edx
	je	.LBB46_12
	jmp	.LBB46_11
.LBB46_19:
	cmpw	$19, %r14w
	jbe	.LBB46_11
	jmp	.LBB46_12
.LBB46_20:
	cmpl	$16, %edx
	jne	.LBB46_11
	jmp	.LBB46_12
.LBB46_21:
	cmpl	$1, %edx
	jne	.LBB46_11
	jmp	.LBB46_12
.LBB46_22:
	testq	%r15, %r15
	je	.LBB46_34
	xorps	%xmm0, %xmm0
	movaps	%xmm0, 32(%rsp)
	movaps	%xmm0, 16(%rsp)
	movaps	%xmm0, (%rsp)
	xorl	%r14d, %r14d
	jmp	.LBB46_26
	.p2align	4
.LBB46_24:
	movq	%rsp, %rdi
	callq	nla_wire.place.check_one.7562298f77a88fdb
	cmpb	$0, (%rsp)
	jne	.LBB46_63
.LBB46_25:
	addl	$3, %r14d
	andl	$-4, %r14d
	cmpq	%r14, %r15
	jbe	.LBB46_39
.LBB46_26:
	subq	%r14, %r15
	cmpq	$4, %r15
	jb	.LBB46_45
	addq	%r14, %r12
	movzwl	(%r12), %r14d
	cmpq	%r14, %r15
	jb	.LBB46_37
	cmpw	$3, %r14w
	jbe	.LBB46_38
	movzwl	2(%r12), %esi
	leaq	-4(%r14), %rdx
	movl	%esi, %eax
	andl	$16383, %eax
	cmpl	$1, %eax
	je	.LBB46_32
	cmpl	$2, %eax
	jne	.LBB46_25
	cmpl	$1, %edx
	jne	.LBB46_24
	jmp	.LBB46_25
	.p2align	4
.LBB46_32:
	cmpl	$4, %edx
	je	.LBB46_25
	jmp	.LBB46_24
.LBB46_33:
	movw	$4, %r14w
	leaq	.Lstatic.20(%rip), %rax
	xorl	%r11d, %r11d
	movl	$8, %r8d
	leaq	.Lstatic.74(%rip), %r10
	jmp	.LBB46_36
.LBB46_34:
	movw	$4, %r14w
	leaq	.Lstatic.20(%rip), %rax
	xorl	%r11d, %r11d
	movl	$7, %r8d
	leaq	.Lstatic.75(%rip), %r10
	jmp	.LBB46_36
.LBB46_35:
	movw	$4, %r14w
	leaq	.Lstatic.20(%rip), %rax
	xorl	%r11d, %r11d
	movl	$7, %r8d
	leaq	.Lstatic.73(%rip), %r10
.LBB46_36:
	xorl	%esi, %esi
	xorl	%ecx, %ecx
	xorl	%r15d, %r15d
	xorl	%edi, %edi
.LBB46_59:
	movl	$7, %edx
	movb	$1, %r9b
	testb	%r11b, %r11b
	jne	.LBB46_62
	movl	(%rax), %r11d
	movl	3(%rax), %r12d
	shlq	$32, %r12
	orq	%r11, %r12
	movabsq	$7233184988000772464, %r11
	cmpq	%r11, %r12
	jne	.LBB46_62
	movzbl	%r14b, %r14d
	movq	%r10, %rax
	movq	%r8, %rdx
	xorl	%esi, %esi
	jmp	.LBB46_62
.LBB46_45:
	movl	$1, %r14d
	jmp	.LBB46_46
.LBB46_37:
	shll	$16, %r14d
	orq	$2, %r14
	jmp	.LBB46_46
.LBB46_38:
	shll	$16, %r14d
	orq	$3, %r14
	xorl	%r15d, %r15d
.LBB46_46:
	leaq	.Lstatic.20(%rip), %rdi
	movq	%rdi, %rax
	shrq	$16, %rax
	movl	$7, %edx
	movb	$1, %sil
	jmp	.LBB46_47
.LBB46_39:
	xorl	%edi, %edi
	xorl	%esi, %esi
	xorl	%eax, %eax
	xorl	%edx, %edx
	xorl	%r14d, %r14d
	xorl	%r15d, %r15d
.LBB46_47:
	xorl	%ecx, %ecx
.LBB46_48:
	movzwl	%di, %edi
	shlq	$16, %rax
	orq	%rdi, %rax
	testb	%sil, %sil
	je	.LBB46_54
	movq	%r14, %rsi
	shrq	$32, %rsi
	jmp	.LBB46_50
.LBB46_54:
	xorl	%r9d, %r9d
.LBB46_55:
	xorl	%eax, %eax
	xorl	%edx, %edx
	xorl	%r14d, %r14d
	xorl	%edi, %edi
	xorl	%esi, %esi
	xorl	%r15d, %r15d
	xorl	%ecx, %ecx
.LBB46_62:
	movb	%r9b, (%rbx)
	movq	%rax, 8(%rbx)
	movq	%rdx, 16(%rbx)
	movw	%r14w, 24(%rbx)
	movw	%di, 26(%rbx)
	movl	%esi, 28(%rbx)
	movq	%r15, 32(%rbx)
	movq	%rcx, 40(%rbx)
	addq	$48, %rsp
	.cfi_def_cfa_offset 48
	popq	%rbx
	.cfi_def_cfa_offset 40
	popq	%r12
	.cfi_def_cfa_offset 32
	popq	%r14
	.cfi_def_cfa_offset 24
	popq	%r15
	.cfi_def_cfa_offset 16
	popq	%rbp
	.cfi_def_cfa_offset 8
	retq
.LBB46_40:
	.cfi_def_cfa_offset 96
	movl	$1, %r14d
	jmp	.LBB46_43
.LBB46_41:
	shll	$16, %r14d
	orq	$2, %r14
	jmp	.LBB46_43
.LBB46_42:
	shll	$16, %r14d
	orq	$3, %r14
	xorl	%r15d, %r15d
.LBB46_43:
	leaq	.Lstatic.20(%rip), %rax
	movl	$7, %edx
	xorl	%esi, %esi
	xorl	%ecx, %ecx
.LBB46_50:
	movl	%r14d, %edi
	shrl	$16, %edi
	movl	$7, %r8d
	cmpw	$2, %bp
	je	.LBB46_57
	movzwl	%bp, %r9d
	cmpl	$45, %r9d
	je	.LBB46_56
	cmpl	$10, %r9d
	jne	.LBB46_58
	leaq	.Lstatic.74(%rip), %r10
	movl	$8, %r8d
	xorl	%r11d, %r11d
	movb	$1, %r9b
	cmpq	$7, %rdx
	je	.LBB46_59
	jmp	.LBB46_62
.LBB46_56:
	leaq	.Lstatic.75(%rip), %r10
	xorl	%r11d, %r11d
	movb	$1, %r9b
	cmpq	$7, %rdx
	je	.LBB46_59
	jmp	.LBB46_62
.LBB46_57:
	leaq	.Lstatic.73(%rip), %r10
	xorl	%r11d, %r11d
	movb	$1, %r9b
	cmpq	$7, %rdx
	je	.LBB46_59
	jmp	.LBB46_62
.LBB46_58:
	leaq	.Lstatic.3(%rip), %r10
	movb	$1, %r11b
	xorl	%r8d, %r8d
	movb	$1, %r9b
	cmpq	$7, %rdx
	jne	.LBB46_62
	jmp	.LBB46_59
.LBB46_63:
	movzwl	8(%rsp), %edi
	movl	10(%rsp), %ecx
	movzwl	14(%rsp), %eax
	shlq	$32, %rax
	orq	%rcx, %rax
	movq	16(%rsp), %rdx
	movq	24(%rsp), %r14
	movq	32(%rsp), %r15
	movq	40(%rsp), %rcx
	movb	$1, %sil
	jmp	.LBB46_48
.Lfunc_end46:
	.size	nla_wire.place.check_one.6cf1decf0b22dc4b, .Lfunc_end46-nla_wire.place.check_one.6cf1decf0b22dc4b
	.cfi_endproc
	.section	.rodata.nla_wire.place.check_one.6cf1decf0b22dc4b,"a",@progbits
	.p2align	2, 0x0
.LJTI46_0:
	.long	.LBB46_18-.LJTI46_0
	.long	.LBB46_12-.LJTI46_0
	.long	.LBB46_12-.LJTI46_0
	.long	.LBB46_12-.LJTI46_0
	.long	.LBB46_19-.LJTI46_0
	.long	.LBB46_12-.LJTI46_0
	.long	.LBB46_20-.LJTI46_0
	.long	.LBB46_21-.LJTI46_0
	.long	.LBB46_18-.LJTI46_0

	.section	.text.nla_wire.place.check_one.97809315b2b26985,"ax",@progbits
	.p2align	4
	.type	nla_wire.place.check_one.97809315b2b26985,@function
nla_wire.place.check_one.97809315b2b26985:
	.cfi_startproc
	andl	$16383, %esi
	xorl	%r8d, %r8d
	xorl	%ecx, %ecx
	xorl	%eax, %eax
	xorl	%r9d, %r9d
	decl	%esi
	cmpl	$8, %esi
	ja	.LBB47_1
	leaq	.LJTI47_0(%rip), %r10
	movslq	(%r10,%rsi,4), %r11
	addq	%r10, %r11
	xorl	%r10d, %r10d
	xorl	%esi, %esi
	jmpq	*%r11
.LBB47_3:
	cmpq	$4, %rdx
	je	.LBB47_17
	leaq	.Lstatic.63(%rip), %rax
	movl	$16, %r8d
	jmp	.LBB47_5
.LBB47_11:
	cmpq	$16, %rdx
	je	.LBB47_17
	leaq	.Lstatic.68(%rip), %rax
	movw	$5, %cx
	movl	$16, %esi
	movl	$16, %r8d
	jmp	.LBB47_8
.LBB47_6:
	xorl	%ecx, %ecx
	cmpq	$16, %rdx
	jae	.LBB47_10
	leaq	.Lstatic.64(%rip), %rax
	movl	$20, %r8d
	movl	$16, %esi
	jmp	.LBB47_8
.LBB47_13:
	cmpq	$1, %rdx
	je	.LBB47_17
	leaq	.Lstatic.69(%rip), %rax
	movl	$24, %r8d
	movw	$5, %cx
	movl	$1, %esi
	jmp	.LBB47_8
.LBB47_15:
	cmpq	$4, %rdx
	jne	.LBB47_16
.LBB47_17:
	xorl	%r9d, %r9d
	xorl	%eax, %eax
	xorl	%r8d, %r8d
	xorl	%ecx, %ecx
.LBB47_1:
	xorl	%r10d, %r10d
	xorl	%esi, %esi
	jmp	.LBB47_9
.LBB47_10:
	xorl	%r9d, %r9d
	xorl	%eax, %eax
	xorl	%r8d, %r8d
	jmp	.LBB47_1
.LBB47_16:
	leaq	.Lstatic.70(%rip), %rax
	movl	$17, %r8d
.LBB47_5:
	movw	$5, %cx
	movl	$4, %esi
.LBB47_8:
	movb	$1, %r9b
	movq	%rdx, %r10
.LBB47_9:
	movb	%r9b, (%rdi)
	movq	%rax, 8(%rdi)
	movq	%r8, 16(%rdi)
	movw	%cx, 24(%rdi)
	movw	$0, 26(%rdi)
	movl	$0, 28(%rdi)
	movq	%r10, 32(%rdi)
	movq	%rsi, 40(%rdi)
	retq
.Lfunc_end47:
	.size	nla_wire.place.check_one.97809315b2b26985, .Lfunc_end47-nla_wire.place.check_one.97809315b2b26985
	.cfi_endproc
	.section	.rodata.nla_wire.place.check_one.97809315b2b26985,"a",@progbits
	.p2align	2, 0x0
.LJTI47_0:
	.long	.LBB47_3-.LJTI47_0
	.long	.LBB47_9-.LJTI47_0
	.long	.LBB47_9-.LJTI47_0
	.long	.LBB47_9-.LJTI47_0
	.long	.LBB47_6-.LJTI47_0
	.long	.LBB47_9-.LJTI47_0
	.long	.LBB47_11-.LJTI47_0
	.long	.LBB47_13-.LJTI47_0
	.long	.LBB47_15-.LJTI47_0

	.section	.text.nla_wire.place.check_one.7562298f77a88fdb,"ax",@progbits
	.p2align	4
	.type	nla_wire.place.check_one.7562298f77a88fdb,@function
nla_wire.place.check_one.7562298f77a88fdb:
	.cfi_startproc
	andl	$16383, %esi
	cmpw	$2, %si
	je	.LBB48_4
	cmpl	$1, %esi
	jne	.LBB48_2
	movl	$4, %ecx
	cmpq	$4, %rdx
	jne	.LBB48_5
.LBB48_2:
	xorl	%eax, %eax
	xorl	%esi, %esi
	xorl	%r8d, %r8d
	xorl	%r9d, %r9d
	xorl	%edx, %edx
	xorl	%ecx, %ecx
	jmp	.LBB48_6
.LBB48_4:
	movl	$1, %ecx
	cmpq	$1, %rdx
	je	.LBB48_2
.LBB48_5:
	xorl	%eax, %eax
	cmpw	$1, %si
	leaq	.Lstatic.71(%rip), %r8
	leaq	.Lstatic.72(%rip), %rsi
	cmoveq	%r8, %rsi
	setne	%al
	leaq	(%rax,%rax,8), %r8
	addq	$13, %r8
	movw	$5, %r9w
	movb	$1, %al
.LBB48_6:
	movb	%al, (%rdi)
	movq	%rsi, 8(%rdi)
	movq	%r8, 16(%rdi)
	movw	%r9w, 24(%rdi)
	movw	$0, 26(%rdi)
	movl	$0, 28(%rdi)
	movq	%rdx, 32(%rdi)
	movq	%rcx, 40(%rdi)
	retq
.Lfunc_end48:
	.size	nla_wire.place.check_one.7562298f77a88fdb, .Lfunc_end48-nla_wire.place.check_one.7562298f77a88fdb
	.cfi_endproc

	.section	.text.link_msg.numbers.kind_name,"ax",@progbits
	.p2align	4
	.type	link_msg.numbers.kind_name,@function
link_msg.numbers.kind_name:
	.cfi_startproc
	decl	%edi
	cmpw	$68, %di
	ja	.LBB49_1
	leaq	.Lswitch.table.link_msg.numbers.kind_name(%rip), %rax
	movzwl	%di, %ecx
	movq	(%rax,%rcx,8), %rdx
	leaq	.Lswitch.table.link_msg.numbers.kind_name.390.rel(%rip), %rsi
	movslq	(%rsi,%rcx,4), %rax
	addq	%rsi, %rax
	retq
.LBB49_1:
	leaq	.Lstatic.3(%rip), %rax
	xorl	%edx, %edx
	retq
.Lfunc_end49:
	.size	link_msg.numbers.kind_name, .Lfunc_end49-link_msg.numbers.kind_name
	.cfi_endproc

	.section	.text.nla_wire.members.write_each.c4c48bc1b6cb0726,"ax",@progbits
	.p2align	4
	.type	nla_wire.members.write_each.c4c48bc1b6cb0726,@function
nla_wire.members.write_each.c4c48bc1b6cb0726:
	.cfi_startproc
	pushq	%rbp
	.cfi_def_cfa_offset 16
	pushq	%r15
	.cfi_def_cfa_offset 24
	pushq	%r14
	.cfi_def_cfa_offset 32
	pushq	%r13
	.cfi_def_cfa_offset 40
	pushq	%r12
	.cfi_def_cfa_offset 48
	pushq	%rbx
	.cfi_def_cfa_offset 56
	subq	$72, %rsp
	.cfi_def_cfa_offset 128
	.cfi_offset %rbx, -56
	.cfi_offset %r12, -48
	.cfi_offset %r13, -40
	.cfi_offset %r14, -32
	.cfi_offset %r15, -24
	.cfi_offset %rbp, -16
	movl	%edi, 68(%rsp)
	testq	%rdx, %rdx
	je	.LBB50_235
	movq	%rcx, %r10
	movq	%rdx, %r15
	movq	%rsi, %r12
	leaq	7(%rcx), %rax
	movq	%rax, 48(%rsp)
	leaq	20(%rcx), %rax
	movq	%rax, 56(%rsp)
	xorl	%r11d, %r11d
	xorl	%r13d, %r13d
	movq	%r8, 24(%rsp)
	movq	%rcx, 8(%rsp)
	jmp	.LBB50_6
	.p2align	4
.LBB50_2:
	movl	(%rsi), %ecx
	movl	%ecx, (%rax)
.LBB50_3:
	movw	$8, (%rdx)
	movq	32(%rsp), %rax
	movw	%ax, 2(%rdx)
.LBB50_4:
	movl	$8, %r14d
.LBB50_5:
	addq	%r14, %r13
	cmpq	%r11, %r15
	jbe	.LBB50_235
.LBB50_6:
	subq	%r11, %r15
	cmpq	$4, %r15
	jb	.LBB50_235
	movq	%r12, %rax
	movq	%r11, %rdx
	addq	%r11, %r12
	movzwl	(%r12), %ebp
	cmpw	$4, %bp
	jb	.LBB50_235
	cmpq	%rbp, %r15
	jb	.LBB50_235
	movzwl	2(%r12), %ebx
	leaq	4(%r12), %rsi
	leaq	-4(%rbp), %r14
	leal	3(%rbp), %r11d
	andl	$-4, %r11d
	leaq	(%r10,%r13), %rcx
	movq	%rcx, 16(%rsp)
	movl	%ebx, %ecx
	andl	$16383, %ecx
	movq	%rcx, 32(%rsp)
	leal	-1(%rcx), %edi
	cmpl	$68, %edi
	ja	.LBB50_41
	movq	%r8, %rcx
	subq	%r13, %rcx
	leaq	.LJTI50_0(%rip), %r9
	movslq	(%r9,%rdi,4), %rdi
	addq	%r9, %rdi
	jmpq	*%rdi
.LBB50_11:
	leaq	(%r10,%r13), %rdx
	leaq	4(%rdx), %rax
	movq	%rax, %rcx
	subq	%rsi, %rcx
	cmpq	$3, %rcx
	ja	.LBB50_2
	movzbl	4(%r12), %eax
	movb	%al, 4(%rdx)
	movzbl	5(%r12), %eax
	movb	%al, 5(%rdx)
	movzbl	6(%r12), %eax
	movb	%al, 6(%rdx)
	movzbl	7(%r12), %eax
	movb	%al, 7(%rdx)
	jmp	.LBB50_3
.LBB50_13:
	testq	%r14, %r14
	je	.LBB50_15
	cmpb	$0, -5(%rsi,%rbp)
	je	.LBB50_27
.LBB50_15:
	leaq	(%r10,%r13), %rbp
	leaq	4(%rbp), %rdi
	cmpl	$4, %r14d
	jae	.LBB50_28
.LBB50_16:
	movq	%r11, %rbx
	movq	%rdi, %rcx
	subq	%rsi, %rcx
	cmpq	%r14, %rcx
	jae	.LBB50_26
	cmpl	$4, %r14d
	jb	.LBB50_18
	movq	%rbp, %r9
	subq	%rax, %r9
	subq	%rdx, %r9
	cmpq	$32, %r9
	jae	.LBB50_80
.LBB50_18:
	xorl	%ecx, %ecx
.LBB50_129:
	movq	%r14, %r9
	movq	%rcx, %r11
	andq	$3, %r9
	je	.LBB50_132
	movq	%rcx, %r11
	.p2align	4
.LBB50_131:
	movzbl	(%rsi,%r11), %r10d
	movb	%r10b, (%rdi,%r11)
	incq	%r11
	decq	%r9
	jne	.LBB50_131
.LBB50_132:
	subl	%r14d, %ecx
	cmpl	$-4, %ecx
	movq	8(%rsp), %r10
	ja	.LBB50_135
	addq	%rdx, %rax
	addq	$7, %rax
	movq	48(%rsp), %rcx
	addq	%r13, %rcx
	.p2align	4
.LBB50_134:
	movzbl	-3(%rax,%r11), %edx
	movb	%dl, -3(%rcx,%r11)
	movzbl	-2(%rax,%r11), %edx
	movb	%dl, -2(%rcx,%r11)
	movzbl	-1(%rax,%r11), %edx
	movb	%dl, -1(%rcx,%r11)
	movzbl	(%rax,%r11), %edx
	movb	%dl, (%rcx,%r11)
	addq	$4, %r11
	cmpq	%r11, %r14
	jne	.LBB50_134
	jmp	.LBB50_135
.LBB50_19:
	movzbl	(%rsi), %eax
	leaq	(%r10,%r13), %rcx
	movb	%al, 4(%rcx)
	movw	$5, (%rcx)
	movq	32(%rsp), %rax
	movw	%ax, 2(%rcx)
	movw	$0, 5(%rcx)
	movb	$0, 7(%rcx)
	jmp	.LBB50_4
.LBB50_20:
	cmpq	$32, %r14
	movl	$32, %ebp
	cmovbq	%r14, %rbp
	movq	16(%rsp), %rcx
	leaq	4(%rcx), %rdi
	movq	%rdi, %rcx
	subq	%rsi, %rcx
	cmpq	%rbp, %rcx
	jae	.LBB50_49
	cmpl	$4, %r14d
	jb	.LBB50_22
	movq	16(%rsp), %r8
	subq	%rax, %r8
	subq	%rdx, %r8
	cmpq	$16, %r8
	jae	.LBB50_98
.LBB50_22:
	xorl	%ecx, %ecx
.LBB50_194:
	movq	%rbp, %r9
	movq	%rcx, %r8
	andq	$3, %r9
	je	.LBB50_197
	movq	%rcx, %r8
	.p2align	4
.LBB50_196:
	movzbl	(%rsi,%r8), %r10d
	movb	%r10b, (%rdi,%r8)
	incq	%r8
	decq	%r9
	jne	.LBB50_196
.LBB50_197:
	subl	%ebp, %ecx
	cmpl	$-4, %ecx
	ja	.LBB50_200
	addq	%rdx, %rax
	addq	$7, %rax
	movq	48(%rsp), %rcx
	addq	%r13, %rcx
	.p2align	4
.LBB50_199:
	movzbl	-3(%rax,%r8), %edx
	movb	%dl, -3(%rcx,%r8)
	movzbl	-2(%rax,%r8), %edx
	movb	%dl, -2(%rcx,%r8)
	movzbl	-1(%rax,%r8), %edx
	movb	%dl, -1(%rcx,%r8)
	movzbl	(%rax,%r8), %edx
	movb	%dl, (%rcx,%r8)
	addq	$4, %r8
	cmpq	%r8, %rbp
	jne	.LBB50_199
	jmp	.LBB50_200
.LBB50_23:
	cmpl	$2, %r14d
	jne	.LBB50_41
	leaq	(%r10,%r13), %rdx
	leaq	4(%rdx), %rax
	movq	%rax, %rcx
	subq	%rsi, %rcx
	cmpq	$1, %rcx
	ja	.LBB50_100
	movzbl	4(%r12), %eax
	movb	%al, 4(%rdx)
	movzbl	5(%r12), %eax
	movb	%al, 5(%rdx)
	jmp	.LBB50_101
.LBB50_26:
	movq	%r14, %rdx
	callq	memmove@PLT
	movq	8(%rsp), %r10
	movq	24(%rsp), %r8
	jmp	.LBB50_135
.LBB50_27:
	addq	$-5, %rbp
	movq	%rbp, %r14
	leaq	(%r10,%r13), %rbp
	leaq	4(%rbp), %rdi
	cmpl	$4, %r14d
	jb	.LBB50_16
.LBB50_28:
	cmpl	$7, %r14d
	ja	.LBB50_31
	movq	%rdi, %rax
	subq	%rsi, %rax
	cmpq	$3, %rax
	ja	.LBB50_85
	movzbl	4(%r12), %eax
	movb	%al, 4(%rbp)
	movzbl	5(%r12), %eax
	movb	%al, 5(%rbp)
	movzbl	6(%r12), %eax
	movb	%al, 6(%rbp)
	movzbl	7(%r12), %eax
	movb	%al, 7(%rbp)
	jmp	.LBB50_86
.LBB50_31:
	cmpl	$16, %r14d
	ja	.LBB50_16
	movq	%rdi, %rax
	subq	%rsi, %rax
	movq	%r11, %rbx
	cmpq	$7, %rax
	ja	.LBB50_106
	movzbl	4(%r12), %eax
	movb	%al, 4(%rbp)
	movzbl	5(%r12), %eax
	movb	%al, 5(%rbp)
	movzbl	6(%r12), %eax
	movb	%al, 6(%rbp)
	movzbl	7(%r12), %eax
	movb	%al, 7(%rbp)
	movzbl	8(%r12), %eax
	movb	%al, 8(%rbp)
	movzbl	9(%r12), %eax
	movb	%al, 9(%rbp)
	movzbl	10(%r12), %eax
	movb	%al, 10(%rbp)
	movzbl	11(%r12), %eax
	movb	%al, 11(%rbp)
	jmp	.LBB50_107
.LBB50_34:
	movzwl	%bp, %ebx
	leaq	(%r10,%r13), %rcx
	leaq	4(%rcx), %rdi
	movq	%rdi, %rcx
	subq	%rsi, %rcx
	cmpl	$204, %ebx
	jae	.LBB50_93
	cmpq	%r14, %rcx
	movq	%r11, 40(%rsp)
	jae	.LBB50_115
	cmpl	$4, %r14d
	jb	.LBB50_37
	movq	16(%rsp), %r8
	subq	%rax, %r8
	subq	%rdx, %r8
	cmpq	$32, %r8
	jae	.LBB50_183
.LBB50_37:
	xorl	%ecx, %ecx
.LBB50_218:
	movq	%rbp, %r9
	movq	%rcx, %r8
	andq	$3, %r9
	je	.LBB50_221
	movq	%rcx, %r8
	.p2align	4
.LBB50_220:
	movzbl	(%rsi,%r8), %r10d
	movb	%r10b, (%rdi,%r8)
	incq	%r8
	decq	%r9
	jne	.LBB50_220
.LBB50_221:
	negq	%rcx
	addq	%rbp, %rcx
	addq	$-5, %rcx
	cmpl	$3, %ecx
	jb	.LBB50_224
	addq	%rdx, %rax
	addq	$7, %rax
	movq	48(%rsp), %rcx
	addq	%r13, %rcx
	.p2align	4
.LBB50_223:
	movzbl	-3(%rax,%r8), %edx
	movb	%dl, -3(%rcx,%r8)
	movzbl	-2(%rax,%r8), %edx
	movb	%dl, -2(%rcx,%r8)
	movzbl	-1(%rax,%r8), %edx
	movb	%dl, -1(%rcx,%r8)
	movzbl	(%rax,%r8), %edx
	movb	%dl, (%rcx,%r8)
	addq	$4, %r8
	cmpq	%r8, %r14
	jne	.LBB50_223
	jmp	.LBB50_224
.LBB50_38:
	movq	%r11, 40(%rsp)
	movzwl	32(%rsp), %ebx
	orl	$32768, %ebx
	movq	16(%rsp), %rbp
	leaq	4(%rbp), %rdx
	movq	%rsi, %rdi
	movq	%r14, %rsi
	callq	nla_wire.members.write_each.b30b196c481b950e
	jmp	.LBB50_74
.LBB50_39:
	movq	32(%rsp), %rdi
	movq	%r14, %rdx
	movq	16(%rsp), %rcx
	movq	%r11, %rbx
	callq	link_msg.payload.write_event
	movq	%rbx, %r11
	movq	8(%rsp), %r10
	movq	24(%rsp), %r8
	movq	%rax, %r14
	jmp	.LBB50_5
.LBB50_40:
	movzbl	68(%rsp), %ecx
	movl	$51, %edi
	btl	%ecx, %edi
	jae	.LBB50_110
.LBB50_41:
	movq	16(%rsp), %rcx
	leaq	4(%rcx), %rdi
	movq	%rdi, %rcx
	subq	%rsi, %rcx
	cmpq	%r14, %rcx
	jae	.LBB50_44
	cmpl	$4, %r14d
	jb	.LBB50_43
	movq	16(%rsp), %r8
	subq	%rax, %r8
	subq	%rdx, %r8
	cmpq	$32, %r8
	jae	.LBB50_91
.LBB50_43:
	xorl	%ecx, %ecx
.LBB50_170:
	movq	%rbp, %r9
	movq	%rcx, %r8
	andq	$3, %r9
	je	.LBB50_173
	movq	%rcx, %r8
	.p2align	4
.LBB50_172:
	movzbl	(%rsi,%r8), %r10d
	movb	%r10b, (%rdi,%r8)
	incq	%r8
	decq	%r9
	jne	.LBB50_172
.LBB50_173:
	negq	%rcx
	addq	%rbp, %rcx
	addq	$-5, %rcx
	cmpl	$3, %ecx
	jb	.LBB50_176
	addq	%rdx, %rax
	addq	$7, %rax
	movq	48(%rsp), %rcx
	addq	%r13, %rcx
	.p2align	4
.LBB50_175:
	movzbl	-3(%rax,%r8), %edx
	movb	%dl, -3(%rcx,%r8)
	movzbl	-2(%rax,%r8), %edx
	movb	%dl, -2(%rcx,%r8)
	movzbl	-1(%rax,%r8), %edx
	movb	%dl, -1(%rcx,%r8)
	movzbl	(%rax,%r8), %edx
	movb	%dl, (%rcx,%r8)
	addq	$4, %r8
	cmpq	%r8, %r14
	jne	.LBB50_175
	jmp	.LBB50_176
.LBB50_44:
	movq	%r14, %rdx
	movq	%r11, %r14
	callq	memmove@PLT
	movq	%r14, %r11
.LBB50_176:
	movq	16(%rsp), %rax
	movw	%bp, (%rax)
	movw	%bx, 2(%rax)
	movq	%r11, %rax
	subq	%rbp, %rax
	cmpq	$3, %rax
	jne	.LBB50_155
.LBB50_177:
	movq	16(%rsp), %rax
	movw	$0, (%rax,%rbp)
	movb	$0, 2(%rax,%rbp)
	movq	%r11, %r14
	jmp	.LBB50_206
.LBB50_45:
	movq	%r11, %rbx
	movq	16(%rsp), %rbp
	leaq	4(%rbp), %rdx
	addq	$-4, %rcx
	movq	%rsi, %rdi
	movq	%r14, %rsi
	callq	nla_wire.members.write_each.3bb4c8661a1029f4
	jmp	.LBB50_46
.LBB50_49:
	movq	%rbp, %rdx
	movq	%r11, %rbx
	callq	memmove@PLT
	movq	%rbx, %r11
.LBB50_200:
	leaq	4(%rbp), %rax
	addl	$7, %ebp
	movl	%ebp, %r14d
	andl	$124, %r14d
	movq	16(%rsp), %rdx
	movw	%ax, (%rdx)
	movq	32(%rsp), %rcx
	movw	%cx, 2(%rdx)
	movq	%r14, %rcx
	subq	%rax, %rcx
	cmpq	$3, %rcx
	je	.LBB50_205
	cmpl	$2, %ecx
	movq	24(%rsp), %r8
	movq	8(%rsp), %r10
	je	.LBB50_204
	cmpl	$1, %ecx
	jne	.LBB50_5
	movb	$0, (%rdx,%rax)
	jmp	.LBB50_5
.LBB50_50:
	movq	20(%r12), %rax
	movl	28(%r12), %ecx
	movups	4(%r12), %xmm0
	leaq	(%r10,%r13), %rdx
	movups	%xmm0, 4(%rdx)
	movq	%rax, 20(%rdx)
	movl	%ecx, 28(%rdx)
	movl	$0, 32(%rdx)
	movw	$36, (%rdx)
	movq	32(%rsp), %rax
	movw	%ax, 2(%rdx)
	movl	$36, %r14d
	jmp	.LBB50_5
.LBB50_51:
	movq	%r11, %rbx
	movq	16(%rsp), %rbp
	leaq	4(%rbp), %rdx
	movq	%rsi, %rdi
	movq	%r14, %rsi
	callq	nla_wire.members.write_each.8ba1f663fcd59a5e
	jmp	.LBB50_46
.LBB50_52:
	movq	%r11, 40(%rsp)
	movzwl	32(%rsp), %ebx
	orl	$32768, %ebx
	movq	16(%rsp), %rbp
	leaq	4(%rbp), %rdx
	movq	%rsi, %rdi
	movq	%r14, %rsi
	callq	nla_wire.members.write_each.16a873d75d6df2a1
	jmp	.LBB50_74
.LBB50_53:
	movq	%r11, %rbx
	movq	16(%rsp), %rbp
	leaq	4(%rbp), %rdx
	movq	%rsi, %rdi
	movq	%r14, %rsi
	callq	nla_wire.members.write_each.f7f30aae703aa44d
	jmp	.LBB50_46
.LBB50_54:
	movzbl	68(%rsp), %edi
	leaq	.LJTI50_1(%rip), %r8
	movslq	(%r8,%rdi,4), %rdi
	addq	%r8, %rdi
	jmpq	*%rdi
.LBB50_55:
	movq	16(%rsp), %rcx
	leaq	4(%rcx), %rdi
	movq	%rdi, %rcx
	subq	%rsi, %rcx
	cmpq	%r14, %rcx
	jae	.LBB50_58
	cmpl	$4, %r14d
	jb	.LBB50_57
	movq	16(%rsp), %r8
	subq	%rax, %r8
	subq	%rdx, %r8
	cmpq	$32, %r8
	jae	.LBB50_83
.LBB50_57:
	xorl	%ecx, %ecx
.LBB50_148:
	movq	%rbp, %r9
	movq	%rcx, %r8
	andq	$3, %r9
	je	.LBB50_151
	movq	%rcx, %r8
	.p2align	4
.LBB50_150:
	movzbl	(%rsi,%r8), %r10d
	movb	%r10b, (%rdi,%r8)
	incq	%r8
	decq	%r9
	jne	.LBB50_150
.LBB50_151:
	negq	%rcx
	addq	%rbp, %rcx
	addq	$-5, %rcx
	cmpl	$3, %ecx
	jb	.LBB50_154
	addq	%rdx, %rax
	addq	$7, %rax
	movq	48(%rsp), %rcx
	addq	%r13, %rcx
	.p2align	4
.LBB50_153:
	movzbl	-3(%rax,%r8), %edx
	movb	%dl, -3(%rcx,%r8)
	movzbl	-2(%rax,%r8), %edx
	movb	%dl, -2(%rcx,%r8)
	movzbl	-1(%rax,%r8), %edx
	movb	%dl, -1(%rcx,%r8)
	movzbl	(%rax,%r8), %edx
	movb	%dl, (%rcx,%r8)
	addq	$4, %r8
	cmpq	%r8, %r14
	jne	.LBB50_153
	jmp	.LBB50_154
.LBB50_58:
	movq	%r14, %rdx
	movq	%r11, %rbx
	callq	memmove@PLT
	movq	%rbx, %r11
.LBB50_154:
	movq	16(%rsp), %rax
	movw	%bp, (%rax)
	movq	32(%rsp), %rcx
	movw	%cx, 2(%rax)
	movq	%r11, %rax
	subq	%rbp, %rax
	cmpq	$3, %rax
	je	.LBB50_177
.LBB50_155:
	cmpl	$2, %eax
	movq	24(%rsp), %r8
	movq	8(%rsp), %r10
	je	.LBB50_158
	movq	%r11, %r14
	cmpl	$1, %eax
	jne	.LBB50_5
	movq	16(%rsp), %rax
	movb	$0, (%rax,%rbp)
	movq	%r11, %r14
	jmp	.LBB50_5
.LBB50_158:
	movq	16(%rsp), %rax
	movw	$0, (%rax,%rbp)
	movq	%r11, %r14
	jmp	.LBB50_5
.LBB50_61:
	movq	%r11, %rbx
	movq	16(%rsp), %rbp
	leaq	4(%rbp), %rdx
	movq	%rsi, %rdi
	movq	%r14, %rsi
	callq	nla_wire.members.write_each.1f0cb788f492ced5
	jmp	.LBB50_46
.LBB50_59:
	movq	%r11, %rbx
	movq	16(%rsp), %rbp
	leaq	4(%rbp), %rdx
	movq	%rsi, %rdi
	movq	%r14, %rsi
	callq	nla_wire.members.write_each.49064c0641319ce4
	jmp	.LBB50_46
.LBB50_60:
	cmpb	$0, (%rsi)
	leaq	(%r10,%r13), %rax
	setne	4(%rax)
	movw	$5, (%rax)
	movq	32(%rsp), %rcx
	movw	%cx, 2(%rax)
	movw	$0, 5(%rax)
	movb	$0, 7(%rax)
	jmp	.LBB50_4
.LBB50_62:
	leaq	(%r10,%r13), %rcx
	leaq	4(%rcx), %rdi
	movq	%rdi, %rcx
	subq	%rsi, %rcx
	cmpw	$100, %bp
	jae	.LBB50_102
	cmpq	%r14, %rcx
	jae	.LBB50_117
	cmpl	$4, %r14d
	jb	.LBB50_66
	movq	16(%rsp), %r8
	subq	%rax, %r8
	subq	%rdx, %r8
	cmpq	$32, %r8
	jae	.LBB50_209
.LBB50_66:
	movq	%r11, %rbx
	xorl	%ecx, %ecx
.LBB50_67:
	movq	%rbp, %r9
	movq	%rcx, %r8
	andq	$3, %r9
	je	.LBB50_70
	movq	%rcx, %r8
	.p2align	4
.LBB50_69:
	movzbl	(%rsi,%r8), %r10d
	movb	%r10b, (%rdi,%r8)
	incq	%r8
	decq	%r9
	jne	.LBB50_69
.LBB50_70:
	negq	%rcx
	addq	%rbp, %rcx
	addq	$-5, %rcx
	cmpl	$3, %ecx
	jb	.LBB50_118
	addq	%rdx, %rax
	addq	$7, %rax
	movq	48(%rsp), %rcx
	addq	%r13, %rcx
	.p2align	4
.LBB50_72:
	movzbl	-3(%rax,%r8), %edx
	movb	%dl, -3(%rcx,%r8)
	movzbl	-2(%rax,%r8), %edx
	movb	%dl, -2(%rcx,%r8)
	movzbl	-1(%rax,%r8), %edx
	movb	%dl, -1(%rcx,%r8)
	movzbl	(%rax,%r8), %edx
	movb	%dl, (%rcx,%r8)
	addq	$4, %r8
	cmpq	%r8, %r14
	jne	.LBB50_72
	jmp	.LBB50_118
.LBB50_73:
	movq	%r11, 40(%rsp)
	movzwl	32(%rsp), %ebx
	orl	$32768, %ebx
	movq	16(%rsp), %rbp
	leaq	4(%rbp), %rdx
	movq	%rsi, %rdi
	movq	%r14, %rsi
	callq	nla_wire.members.write_each.5fa77b269143286c
.LBB50_74:
	movq	%rax, %r14
	addq	$4, %rax
	addq	$7, %r14
	andq	$-4, %r14
	movw	%ax, (%rbp)
	movw	%bx, 2(%rbp)
	movq	%r14, %rcx
	subq	%rax, %rcx
	cmpq	$3, %rcx
	je	.LBB50_162
	cmpq	$2, %rcx
	je	.LBB50_89
	cmpq	$1, %rcx
	movq	24(%rsp), %r8
	movq	8(%rsp), %r10
	movq	40(%rsp), %r11
	jne	.LBB50_5
	movq	16(%rsp), %rcx
	movb	$0, (%rcx,%rax)
	jmp	.LBB50_5
.LBB50_78:
	movq	%r11, %rbx
	movq	16(%rsp), %rbp
	leaq	4(%rbp), %rdx
	addq	$-4, %rcx
	movq	%rsi, %rdi
	movq	%r14, %rsi
	callq	nla_wire.members.write_each.79503c7a397af21a
.LBB50_46:
	movq	%rax, %r14
	addq	$4, %rax
	addq	$7, %r14
	andq	$-4, %r14
	movw	%ax, (%rbp)
	movq	32(%rsp), %rcx
	movw	%cx, 2(%rbp)
	movq	%r14, %rcx
	subq	%rax, %rcx
	cmpq	$3, %rcx
	je	.LBB50_180
	cmpq	$2, %rcx
	je	.LBB50_236
	cmpq	$1, %rcx
	movq	24(%rsp), %r8
	movq	8(%rsp), %r10
	movq	%rbx, %r11
	jne	.LBB50_5
	jmp	.LBB50_138
.LBB50_236:
	movw	$0, (%rbp,%rax)
	jmp	.LBB50_181
.LBB50_180:
	movw	$0, (%rbp,%rax)
	movb	$0, 2(%rbp,%rax)
	jmp	.LBB50_181
.LBB50_85:
	movl	(%rsi), %eax
	movl	%eax, (%rdi)
.LBB50_86:
	movq	%r11, %rbx
	leaq	(%r14,%rbp), %rax
	leaq	(%r12,%r14), %rcx
	movq	%rax, %rdx
	subq	%rcx, %rdx
	cmpq	$3, %rdx
	ja	.LBB50_88
	movzbl	(%rcx), %edx
	movb	%dl, (%rax)
	movzbl	1(%rcx), %edx
	movb	%dl, 1(%rax)
	movzbl	2(%rcx), %edx
	movb	%dl, 2(%rax)
	movzbl	3(%rcx), %ecx
	movb	%cl, 3(%rax)
	jmp	.LBB50_135
.LBB50_88:
	movl	(%rcx), %ecx
	movl	%ecx, (%rax)
	jmp	.LBB50_135
.LBB50_89:
	movq	16(%rsp), %rcx
	movw	$0, (%rcx,%rax)
	jmp	.LBB50_227
.LBB50_93:
	cmpq	$199, %rcx
	ja	.LBB50_116
	addq	%rdx, %rax
	leaq	(%r10,%r13), %rdx
	movq	%rdx, %rcx
	subq	%rax, %rcx
	cmpq	$31, %rcx
	ja	.LBB50_185
	movl	$8, %eax
	.p2align	4
.LBB50_96:
	movzbl	-4(%r12,%rax), %ecx
	movb	%cl, -4(%rdx,%rax)
	movzbl	-3(%r12,%rax), %ecx
	movb	%cl, -3(%rdx,%rax)
	movzbl	-2(%r12,%rax), %ecx
	movb	%cl, -2(%rdx,%rax)
	movzbl	-1(%r12,%rax), %ecx
	movb	%cl, -1(%rdx,%rax)
	movzbl	(%r12,%rax), %ecx
	movb	%cl, (%rdx,%rax)
	addq	$5, %rax
	cmpq	$208, %rax
	jne	.LBB50_96
	jmp	.LBB50_186
.LBB50_204:
	movw	$0, (%rdx,%rax)
	jmp	.LBB50_5
.LBB50_205:
	movw	$0, (%rdx,%rax)
	movb	$0, 2(%rdx,%rax)
.LBB50_206:
	movq	24(%rsp), %r8
	movq	8(%rsp), %r10
	jmp	.LBB50_5
.LBB50_100:
	movzwl	(%rsi), %ecx
	movw	%cx, (%rax)
.LBB50_101:
	movw	$6, (%rdx)
	movq	32(%rsp), %rax
	movw	%ax, 2(%rdx)
	movw	$0, 6(%rdx)
	jmp	.LBB50_4
.LBB50_102:
	cmpq	$95, %rcx
	ja	.LBB50_121
	addq	%rdx, %rax
	leaq	(%r10,%r13), %rdx
	movq	%rdx, %rcx
	subq	%rax, %rcx
	cmpq	$31, %rcx
	ja	.LBB50_207
	movl	$9, %eax
	.p2align	4
.LBB50_105:
	movzbl	-5(%r12,%rax), %ecx
	movb	%cl, -5(%rdx,%rax)
	movzbl	-4(%r12,%rax), %ecx
	movb	%cl, -4(%rdx,%rax)
	movzbl	-3(%r12,%rax), %ecx
	movb	%cl, -3(%rdx,%rax)
	movzbl	-2(%r12,%rax), %ecx
	movb	%cl, -2(%rdx,%rax)
	movzbl	-1(%r12,%rax), %ecx
	movb	%cl, -1(%rdx,%rax)
	movzbl	(%r12,%rax), %ecx
	movb	%cl, (%rdx,%rax)
	addq	$6, %rax
	cmpq	$105, %rax
	jne	.LBB50_105
	jmp	.LBB50_208
.LBB50_80:
	cmpl	$32, %r14d
	jae	.LBB50_122
	xorl	%ecx, %ecx
	jmp	.LBB50_126
.LBB50_83:
	cmpl	$32, %r14d
	jae	.LBB50_141
	xorl	%ecx, %ecx
	jmp	.LBB50_145
.LBB50_106:
	movq	(%rsi), %rax
	movq	%rax, (%rdi)
.LBB50_107:
	leaq	-8(%r14), %rax
	addq	%rax, %rdi
	addq	%rax, %rsi
	movq	%rdi, %rax
	subq	%rsi, %rax
	cmpq	$7, %rax
	ja	.LBB50_109
	movzbl	(%rsi), %eax
	movb	%al, (%rdi)
	movzbl	1(%rsi), %eax
	movb	%al, 1(%rdi)
	movzbl	2(%rsi), %eax
	movb	%al, 2(%rdi)
	movzbl	3(%rsi), %eax
	movb	%al, 3(%rdi)
	movzbl	4(%rsi), %eax
	movb	%al, 4(%rdi)
	movzbl	5(%rsi), %eax
	movb	%al, 5(%rdi)
	movzbl	6(%rsi), %eax
	movb	%al, 6(%rdi)
	movzbl	7(%rsi), %eax
	movb	%al, 7(%rdi)
	jmp	.LBB50_135
.LBB50_109:
	movq	(%rsi), %rax
	movq	%rax, (%rdi)
	jmp	.LBB50_135
.LBB50_110:
	movq	%r11, 40(%rsp)
	cmpl	$2, %ecx
	jne	.LBB50_159
	movzwl	32(%rsp), %ebx
	orl	$32768, %ebx
	movq	16(%rsp), %rbp
	leaq	4(%rbp), %rdx
	movq	%rsi, %rdi
	movq	%r14, %rsi
	callq	nla_wire.members.write_each.1f0cb788f492ced5
	movq	%rax, %r14
	addq	$4, %rax
	addq	$7, %r14
	andq	$-4, %r14
	movw	%ax, (%rbp)
	movw	%bx, 2(%rbp)
	movq	%r14, %rcx
	subq	%rax, %rcx
	cmpq	$3, %rcx
	je	.LBB50_162
	cmpq	$2, %rcx
	movq	40(%rsp), %r11
	jne	.LBB50_113
.LBB50_161:
	movq	16(%rsp), %rcx
	movw	$0, (%rcx,%rax)
	jmp	.LBB50_206
.LBB50_91:
	cmpl	$32, %r14d
	jae	.LBB50_163
	xorl	%ecx, %ecx
	jmp	.LBB50_167
.LBB50_115:
	movq	%r14, %rdx
	callq	memmove@PLT
.LBB50_224:
	cmpl	$203, %ebx
	je	.LBB50_226
	movl	$203, %edx
	subq	%rbp, %rdx
	addq	16(%rsp), %rbp
	movq	%rbp, %rdi
	xorl	%esi, %esi
	callq	memset@PLT
.LBB50_226:
	movq	16(%rsp), %rax
	movb	$0, 203(%rax)
	movw	$204, (%rax)
	movq	32(%rsp), %rcx
	movw	%cx, 2(%rax)
	movl	$204, %r14d
	jmp	.LBB50_227
.LBB50_116:
	movl	$200, %edx
	movq	%r11, %rbx
	callq	memmove@PLT
	movq	%rbx, %r11
	movq	8(%rsp), %r10
	movq	24(%rsp), %r8
	movq	16(%rsp), %rdx
	jmp	.LBB50_186
.LBB50_98:
	cmpl	$16, %r14d
	jae	.LBB50_187
	xorl	%ecx, %ecx
	jmp	.LBB50_191
.LBB50_117:
	movq	%r11, %rbx
	movq	%r14, %rdx
	callq	memmove@PLT
.LBB50_118:
	cmpw	$99, %bp
	je	.LBB50_120
	movl	$99, %edx
	subq	%rbp, %rdx
	addq	16(%rsp), %rbp
	movq	%rbp, %rdi
	xorl	%esi, %esi
	callq	memset@PLT
.LBB50_120:
	movq	16(%rsp), %rax
	movb	$0, 99(%rax)
	movw	$100, (%rax)
	movq	32(%rsp), %rcx
	movw	%cx, 2(%rax)
	movl	$100, %r14d
.LBB50_181:
	movq	24(%rsp), %r8
	movq	8(%rsp), %r10
	movq	%rbx, %r11
	jmp	.LBB50_5
.LBB50_121:
	movups	(%rsi), %xmm0
	movups	16(%rsi), %xmm1
	movups	32(%rsi), %xmm2
	movups	48(%rsi), %xmm3
	movups	64(%rsi), %xmm4
	movups	80(%rsi), %xmm5
	movups	%xmm5, 80(%rdi)
	movups	%xmm4, 64(%rdi)
	movups	%xmm3, 48(%rdi)
	movups	%xmm2, 32(%rdi)
	movups	%xmm1, 16(%rdi)
	movups	%xmm0, (%rdi)
	leaq	(%r10,%r13), %rdx
	jmp	.LBB50_208
.LBB50_122:
	movq	%r14, %rcx
	andq	$-32, %rcx
	leaq	(%rax,%rdx), %r11
	addq	$20, %r11
	movq	56(%rsp), %r9
	addq	%r13, %r9
	xorl	%r10d, %r10d
	.p2align	4
.LBB50_123:
	movups	-16(%r11,%r10), %xmm0
	movups	(%r11,%r10), %xmm1
	movups	%xmm0, -16(%r9,%r10)
	movups	%xmm1, (%r9,%r10)
	addq	$32, %r10
	cmpq	%r10, %rcx
	jne	.LBB50_123
	cmpl	%ecx, %r14d
	movq	8(%rsp), %r10
	je	.LBB50_135
	testb	$28, %r14b
	je	.LBB50_129
.LBB50_126:
	movq	%rcx, %r10
	movq	%r14, %rcx
	andq	$-4, %rcx
	.p2align	4
.LBB50_127:
	movl	(%rsi,%r10), %r9d
	movl	%r9d, (%rdi,%r10)
	addq	$4, %r10
	cmpq	%r10, %rcx
	jne	.LBB50_127
	cmpl	%ecx, %r14d
	movq	8(%rsp), %r10
	jne	.LBB50_129
.LBB50_135:
	movb	$0, 4(%rbp,%r14)
	leaq	5(%r14), %rax
	andq	$-4, %r14
	addq	$8, %r14
	movw	%ax, (%rbp)
	movq	32(%rsp), %rcx
	movw	%cx, 2(%rbp)
	movq	%r14, %rcx
	subq	%rax, %rcx
	cmpq	$3, %rcx
	je	.LBB50_140
	cmpl	$2, %ecx
	movq	%rbx, %r11
	je	.LBB50_139
	cmpl	$1, %ecx
	jne	.LBB50_5
.LBB50_138:
	movb	$0, (%rbp,%rax)
	jmp	.LBB50_5
.LBB50_139:
	movw	$0, (%rbp,%rax)
	jmp	.LBB50_5
.LBB50_140:
	movw	$0, (%rbp,%rax)
	movb	$0, 2(%rbp,%rax)
	movq	%rbx, %r11
	jmp	.LBB50_5
.LBB50_141:
	movq	%r14, %rcx
	andq	$-32, %rcx
	leaq	(%rax,%rdx), %r8
	addq	$20, %r8
	movq	56(%rsp), %r9
	addq	%r13, %r9
	xorl	%r10d, %r10d
	.p2align	4
.LBB50_142:
	movups	-16(%r8,%r10), %xmm0
	movups	(%r8,%r10), %xmm1
	movups	%xmm0, -16(%r9,%r10)
	movups	%xmm1, (%r9,%r10)
	addq	$32, %r10
	cmpq	%r10, %rcx
	jne	.LBB50_142
	cmpl	%ecx, %r14d
	je	.LBB50_154
	testb	$28, %r14b
	je	.LBB50_148
.LBB50_145:
	movq	%rcx, %r8
	movq	%r14, %rcx
	andq	$-4, %rcx
	.p2align	4
.LBB50_146:
	movl	(%rsi,%r8), %r9d
	movl	%r9d, (%rdi,%r8)
	addq	$4, %r8
	cmpq	%r8, %rcx
	jne	.LBB50_146
	cmpl	%ecx, %r14d
	je	.LBB50_154
	jmp	.LBB50_148
.LBB50_159:
	movzwl	32(%rsp), %ebx
	orl	$32768, %ebx
	movq	16(%rsp), %rbp
	leaq	4(%rbp), %rdx
	movq	%rsi, %rdi
	movq	%r14, %rsi
	callq	nla_wire.members.write_each.1f0cb788f492ced5
	movq	%rax, %r14
	addq	$4, %rax
	addq	$7, %r14
	andq	$-4, %r14
	movw	%ax, (%rbp)
	movw	%bx, 2(%rbp)
	movq	%r14, %rcx
	subq	%rax, %rcx
	cmpq	$3, %rcx
	je	.LBB50_162
	cmpq	$2, %rcx
	movq	40(%rsp), %r11
	je	.LBB50_161
.LBB50_113:
	cmpq	$1, %rcx
	movq	24(%rsp), %r8
	movq	8(%rsp), %r10
	movq	16(%rsp), %rcx
	jne	.LBB50_5
	movb	$0, (%rcx,%rax)
	jmp	.LBB50_5
.LBB50_162:
	movq	16(%rsp), %rcx
	movw	$0, (%rcx,%rax)
	movb	$0, 2(%rcx,%rax)
.LBB50_227:
	movq	24(%rsp), %r8
	movq	8(%rsp), %r10
	movq	40(%rsp), %r11
	jmp	.LBB50_5
.LBB50_163:
	movq	%r14, %rcx
	andq	$-32, %rcx
	leaq	(%rax,%rdx), %r8
	addq	$20, %r8
	movq	56(%rsp), %r9
	addq	%r13, %r9
	xorl	%r10d, %r10d
	.p2align	4
.LBB50_164:
	movups	-16(%r8,%r10), %xmm0
	movups	(%r8,%r10), %xmm1
	movups	%xmm0, -16(%r9,%r10)
	movups	%xmm1, (%r9,%r10)
	addq	$32, %r10
	cmpq	%r10, %rcx
	jne	.LBB50_164
	cmpl	%ecx, %r14d
	je	.LBB50_176
	testb	$28, %r14b
	je	.LBB50_170
.LBB50_167:
	movq	%rcx, %r8
	movq	%r14, %rcx
	andq	$-4, %rcx
	.p2align	4
.LBB50_168:
	movl	(%rsi,%r8), %r9d
	movl	%r9d, (%rdi,%r8)
	addq	$4, %r8
	cmpq	%r8, %rcx
	jne	.LBB50_168
	cmpl	%ecx, %r14d
	je	.LBB50_176
	jmp	.LBB50_170
.LBB50_179:
	movq	%r11, %rbx
	movq	16(%rsp), %rbp
	leaq	4(%rbp), %rdx
	addq	$-4, %rcx
	movq	%rsi, %rdi
	movq	%r14, %rsi
	callq	nla_wire.members.write_each.6cf1decf0b22dc4b
	jmp	.LBB50_46
.LBB50_185:
	movups	4(%r12), %xmm0
	movups	20(%r12), %xmm1
	movups	%xmm0, 4(%rdx)
	movups	%xmm1, 20(%rdx)
	movups	36(%r12), %xmm0
	movups	52(%r12), %xmm1
	movups	%xmm0, 36(%rdx)
	movups	%xmm1, 52(%rdx)
	movups	68(%r12), %xmm0
	movups	84(%r12), %xmm1
	movups	%xmm0, 68(%rdx)
	movups	%xmm1, 84(%rdx)
	movups	100(%r12), %xmm0
	movups	116(%r12), %xmm1
	movups	%xmm0, 100(%rdx)
	movups	%xmm1, 116(%rdx)
	movups	132(%r12), %xmm0
	movups	148(%r12), %xmm1
	movups	%xmm0, 132(%rdx)
	movups	%xmm1, 148(%rdx)
	movups	164(%r12), %xmm0
	movups	180(%r12), %xmm1
	movups	%xmm0, 164(%rdx)
	movups	%xmm1, 180(%rdx)
	movq	196(%r12), %rax
	movq	%rax, 196(%rdx)
.LBB50_186:
	movw	$204, (%rdx)
	movq	32(%rsp), %rax
	movw	%ax, 2(%rdx)
	movl	$204, %r14d
	jmp	.LBB50_5
.LBB50_187:
	movl	%ebp, %ecx
	andl	$48, %ecx
	xorl	%r8d, %r8d
	.p2align	4
.LBB50_188:
	movups	(%rsi,%r8), %xmm0
	movups	%xmm0, (%rdi,%r8)
	addq	$16, %r8
	cmpq	%r8, %rcx
	jne	.LBB50_188
	cmpl	%ecx, %ebp
	je	.LBB50_200
	testb	$12, %bpl
	je	.LBB50_194
.LBB50_191:
	movq	%rcx, %r8
	movl	%ebp, %ecx
	andl	$60, %ecx
	.p2align	4
.LBB50_192:
	movl	(%rsi,%r8), %r9d
	movl	%r9d, (%rdi,%r8)
	addq	$4, %r8
	cmpq	%r8, %rcx
	jne	.LBB50_192
	cmpl	%ecx, %ebp
	je	.LBB50_200
	jmp	.LBB50_194
.LBB50_207:
	movups	4(%r12), %xmm0
	movups	20(%r12), %xmm1
	movups	%xmm0, 4(%rdx)
	movups	%xmm1, 20(%rdx)
	movups	36(%r12), %xmm0
	movups	52(%r12), %xmm1
	movups	%xmm0, 36(%rdx)
	movups	%xmm1, 52(%rdx)
	movups	68(%r12), %xmm0
	movups	84(%r12), %xmm1
	movups	%xmm0, 68(%rdx)
	movups	%xmm1, 84(%rdx)
.LBB50_208:
	movw	$100, (%rdx)
	movq	32(%rsp), %rax
	movw	%ax, 2(%rdx)
	movl	$100, %r14d
	jmp	.LBB50_5
.LBB50_183:
	cmpl	$32, %r14d
	jae	.LBB50_211
	xorl	%ecx, %ecx
	jmp	.LBB50_215
.LBB50_209:
	cmpl	$32, %r14d
	jae	.LBB50_228
	movq	%r11, %rbx
	xorl	%ecx, %ecx
	jmp	.LBB50_232
.LBB50_211:
	movq	%r14, %rcx
	andq	$-32, %rcx
	leaq	(%rax,%rdx), %r8
	addq	$20, %r8
	movq	56(%rsp), %r9
	addq	%r13, %r9
	xorl	%r10d, %r10d
.LBB50_212:
	movups	-16(%r8,%r10), %xmm0
	movups	(%r8,%r10), %xmm1
	movups	%xmm0, -16(%r9,%r10)
	movups	%xmm1, (%r9,%r10)
	addq	$32, %r10
	cmpq	%r10, %rcx
	jne	.LBB50_212
	cmpl	%ecx, %r14d
	je	.LBB50_224
	testb	$28, %r14b
	je	.LBB50_218
.LBB50_215:
	movq	%rcx, %r8
	movq	%r14, %rcx
	andq	$-4, %rcx
.LBB50_216:
	movl	(%rsi,%r8), %r9d
	movl	%r9d, (%rdi,%r8)
	addq	$4, %r8
	cmpq	%r8, %rcx
	jne	.LBB50_216
	cmpl	%ecx, %r14d
	je	.LBB50_224
	jmp	.LBB50_218
.LBB50_228:
	movq	%r14, %rcx
	andq	$-32, %rcx
	leaq	(%rax,%rdx), %r8
	addq	$20, %r8
	movq	56(%rsp), %r9
	addq	%r13, %r9
	xorl	%r10d, %r10d
.LBB50_229:
	movups	-16(%r8,%r10), %xmm0
	movups	(%r8,%r10), %xmm1
	movups	%xmm0, -16(%r9,%r10)
	movups	%xmm1, (%r9,%r10)
	addq	$32, %r10
	cmpq	%r10, %rcx
	jne	.LBB50_229
	movq	%r11, %rbx
	cmpl	%ecx, %r14d
	je	.LBB50_118
	testb	$28, %r14b
	je	.LBB50_67
.LBB50_232:
	movq	%rcx, %r8
	movq	%r14, %rcx
	andq	$-4, %rcx
.LBB50_233:
	movl	(%rsi,%r8), %r9d
	movl	%r9d, (%rdi,%r8)
	addq	$4, %r8
	cmpq	%r8, %rcx
	jne	.LBB50_233
	cmpl	%ecx, %r14d
	jne	.LBB50_67
	jmp	.LBB50_118
.LBB50_235:
	addq	$72, %rsp
	.cfi_def_cfa_offset 56
	popq	%rbx
	.cfi_def_cfa_offset 48
	popq	%r12
	.cfi_def_cfa_offset 40
	popq	%r13
	.cfi_def_cfa_offset 32
	popq	%r14
	.cfi_def_cfa_offset 24
	popq	%r15
	.cfi_def_cfa_offset 16
	popq	%rbp
	.cfi_def_cfa_offset 8
	retq
.Lfunc_end50:
	.size	nla_wire.members.write_each.c4c48bc1b6cb0726, .Lfunc_end50-nla_wire.members.write_each.c4c48bc1b6cb0726
	.cfi_endproc
	.section	.rodata.nla_wire.members.write_each.c4c48bc1b6cb0726,"a",@progbits
	.p2align	2, 0x0
.LJTI50_0:
	.long	.LBB50_55-.LJTI50_0
	.long	.LBB50_55-.LJTI50_0
	.long	.LBB50_13-.LJTI50_0
	.long	.LBB50_11-.LJTI50_0
	.long	.LBB50_11-.LJTI50_0
	.long	.LBB50_13-.LJTI50_0
	.long	.LBB50_62-.LJTI50_0
	.long	.LBB50_41-.LJTI50_0
	.long	.LBB50_41-.LJTI50_0
	.long	.LBB50_11-.LJTI50_0
	.long	.LBB50_39-.LJTI50_0
	.long	.LBB50_40-.LJTI50_0
	.long	.LBB50_11-.LJTI50_0
	.long	.LBB50_50-.LJTI50_0
	.long	.LBB50_41-.LJTI50_0
	.long	.LBB50_19-.LJTI50_0
	.long	.LBB50_19-.LJTI50_0
	.long	.LBB50_59-.LJTI50_0
	.long	.LBB50_11-.LJTI50_0
	.long	.LBB50_13-.LJTI50_0
	.long	.LBB50_11-.LJTI50_0
	.long	.LBB50_45-.LJTI50_0
	.long	.LBB50_34-.LJTI50_0
	.long	.LBB50_78-.LJTI50_0
	.long	.LBB50_61-.LJTI50_0
	.long	.LBB50_54-.LJTI50_0
	.long	.LBB50_11-.LJTI50_0
	.long	.LBB50_11-.LJTI50_0
	.long	.LBB50_11-.LJTI50_0
	.long	.LBB50_11-.LJTI50_0
	.long	.LBB50_11-.LJTI50_0
	.long	.LBB50_11-.LJTI50_0
	.long	.LBB50_19-.LJTI50_0
	.long	.LBB50_20-.LJTI50_0
	.long	.LBB50_11-.LJTI50_0
	.long	.LBB50_20-.LJTI50_0
	.long	.LBB50_11-.LJTI50_0
	.long	.LBB50_13-.LJTI50_0
	.long	.LBB50_19-.LJTI50_0
	.long	.LBB50_11-.LJTI50_0
	.long	.LBB50_11-.LJTI50_0
	.long	.LBB50_41-.LJTI50_0
	.long	.LBB50_51-.LJTI50_0
	.long	.LBB50_11-.LJTI50_0
	.long	.LBB50_11-.LJTI50_0
	.long	.LBB50_11-.LJTI50_0
	.long	.LBB50_11-.LJTI50_0
	.long	.LBB50_11-.LJTI50_0
	.long	.LBB50_11-.LJTI50_0
	.long	.LBB50_11-.LJTI50_0
	.long	.LBB50_11-.LJTI50_0
	.long	.LBB50_38-.LJTI50_0
	.long	.LBB50_41-.LJTI50_0
	.long	.LBB50_55-.LJTI50_0
	.long	.LBB50_53-.LJTI50_0
	.long	.LBB50_13-.LJTI50_0
	.long	.LBB50_13-.LJTI50_0
	.long	.LBB50_11-.LJTI50_0
	.long	.LBB50_11-.LJTI50_0
	.long	.LBB50_11-.LJTI50_0
	.long	.LBB50_11-.LJTI50_0
	.long	.LBB50_52-.LJTI50_0
	.long	.LBB50_11-.LJTI50_0
	.long	.LBB50_11-.LJTI50_0
	.long	.LBB50_73-.LJTI50_0
	.long	.LBB50_41-.LJTI50_0
	.long	.LBB50_60-.LJTI50_0
	.long	.LBB50_23-.LJTI50_0
	.long	.LBB50_23-.LJTI50_0
.LJTI50_1:
	.long	.LBB50_179-.LJTI50_1
	.long	.LBB50_55-.LJTI50_1
	.long	.LBB50_61-.LJTI50_1
	.long	.LBB50_55-.LJTI50_1
	.long	.LBB50_55-.LJTI50_1
	.long	.LBB50_55-.LJTI50_1

	.section	.text.link_msg.payload.write_event,"ax",@progbits
	.p2align	4
	.type	link_msg.payload.write_event,@function
link_msg.payload.write_event:
	.cfi_startproc
	pushq	%rbp
	.cfi_def_cfa_offset 16
	pushq	%r14
	.cfi_def_cfa_offset 24
	pushq	%rbx
	.cfi_def_cfa_offset 32
	.cfi_offset %rbx, -32
	.cfi_offset %r14, -24
	.cfi_offset %rbp, -16
	movq	%rcx, %r14
	movq	%rdx, %rbx
	movl	%edi, %ebp
	cmpq	$3, %rdx
	jb	.LBB51_8
	movzbl	2(%rsi), %eax
	je	.LBB51_3
	movzbl	3(%rsi), %ecx
	shll	$8, %ecx
	movzwl	%ax, %eax
	orl	%ecx, %eax
.LBB51_3:
	movzwl	%ax, %eax
	cmpl	$35848, %eax
	je	.LBB51_12
	cmpl	$35847, %eax
	jne	.LBB51_8
	leaq	8(%rsi), %rax
	leaq	-8(%rbx), %rdx
	movzwl	%bx, %ecx
	movl	$2349268992, %edi
	orq	%rcx, %rdi
	movq	%rdi, 4(%r14)
	leaq	12(%r14), %rdi
	movq	%rdi, %rcx
	subq	%rax, %rcx
	cmpq	%rdx, %rcx
	jae	.LBB51_15
	cmpq	$4, %rdx
	jb	.LBB51_7
	movq	%r14, %rcx
	subq	%rsi, %rcx
	addq	$4, %rcx
	cmpq	$32, %rcx
	jae	.LBB51_43
.LBB51_7:
	xorl	%ecx, %ecx
.LBB51_54:
	movq	%rbx, %r8
	subq	%rcx, %r8
	addq	$-9, %r8
	movq	%rbx, %r9
	andq	$3, %r9
	je	.LBB51_56
	.p2align	4
.LBB51_55:
	movzbl	(%rax,%rcx), %r10d
	movb	%r10b, (%rdi,%rcx)
	incq	%rcx
	decq	%r9
	jne	.LBB51_55
.LBB51_56:
	cmpq	$3, %r8
	jb	.LBB51_36
	.p2align	4
.LBB51_57:
	movzbl	8(%rsi,%rcx), %eax
	movb	%al, 12(%r14,%rcx)
	movzbl	9(%rsi,%rcx), %eax
	movb	%al, 13(%r14,%rcx)
	movzbl	10(%rsi,%rcx), %eax
	movb	%al, 14(%r14,%rcx)
	movzbl	11(%rsi,%rcx), %eax
	movb	%al, 15(%r14,%rcx)
	addq	$4, %rcx
	cmpq	%rcx, %rdx
	jne	.LBB51_57
	jmp	.LBB51_36
.LBB51_8:
	leaq	4(%r14), %rdi
	movq	%rdi, %rax
	subq	%rsi, %rax
	cmpq	%rbx, %rax
	jae	.LBB51_11
	cmpq	$4, %rbx
	jb	.LBB51_10
	movq	%r14, %rax
	subq	%rsi, %rax
	addq	$4, %rax
	cmpq	$32, %rax
	jae	.LBB51_18
.LBB51_10:
	xorl	%eax, %eax
.LBB51_31:
	movq	%rbx, %rdx
	movq	%rax, %rcx
	andq	$3, %rdx
	je	.LBB51_34
	movq	%rax, %rcx
	.p2align	4
.LBB51_33:
	movzbl	(%rsi,%rcx), %r8d
	movb	%r8b, (%rdi,%rcx)
	incq	%rcx
	decq	%rdx
	jne	.LBB51_33
.LBB51_34:
	subq	%rbx, %rax
	cmpq	$-4, %rax
	ja	.LBB51_36
	.p2align	4
.LBB51_35:
	movzbl	(%rsi,%rcx), %eax
	movb	%al, 4(%r14,%rcx)
	movzbl	1(%rsi,%rcx), %eax
	movb	%al, 5(%r14,%rcx)
	movzbl	2(%rsi,%rcx), %eax
	movb	%al, 6(%r14,%rcx)
	movzbl	3(%rsi,%rcx), %eax
	movb	%al, 7(%r14,%rcx)
	addq	$4, %rcx
	cmpq	%rcx, %rbx
	jne	.LBB51_35
	jmp	.LBB51_36
.LBB51_11:
	movq	%rbx, %rdx
	callq	memmove@PLT
	jmp	.LBB51_36
.LBB51_12:
	leaq	8(%rsi), %rax
	leaq	-8(%rbx), %rdx
	movzwl	%bx, %ecx
	movl	$2349268992, %edi
	addq	%rdi, %rcx
	addq	$65536, %rcx
	movq	%rcx, 4(%r14)
	leaq	12(%r14), %rdi
	movq	%rdi, %rcx
	subq	%rax, %rcx
	cmpq	%rdx, %rcx
	jae	.LBB51_15
	cmpq	$4, %rdx
	jb	.LBB51_14
	movq	%r14, %rcx
	subq	%rsi, %rcx
	addq	$4, %rcx
	cmpq	$32, %rcx
	jae	.LBB51_45
.LBB51_14:
	xorl	%ecx, %ecx
.LBB51_65:
	movq	%rbx, %r8
	subq	%rcx, %r8
	addq	$-9, %r8
	movq	%rbx, %r9
	andq	$3, %r9
	je	.LBB51_67
	.p2align	4
.LBB51_66:
	movzbl	(%rax,%rcx), %r10d
	movb	%r10b, (%rdi,%rcx)
	incq	%rcx
	decq	%r9
	jne	.LBB51_66
.LBB51_67:
	cmpq	$3, %r8
	jb	.LBB51_36
	.p2align	4
.LBB51_68:
	movzbl	8(%rsi,%rcx), %eax
	movb	%al, 12(%r14,%rcx)
	movzbl	9(%rsi,%rcx), %eax
	movb	%al, 13(%r14,%rcx)
	movzbl	10(%rsi,%rcx), %eax
	movb	%al, 14(%r14,%rcx)
	movzbl	11(%rsi,%rcx), %eax
	movb	%al, 15(%r14,%rcx)
	addq	$4, %rcx
	cmpq	%rcx, %rdx
	jne	.LBB51_68
	jmp	.LBB51_36
.LBB51_15:
	movq	%rax, %rsi
	callq	memmove@PLT
.LBB51_36:
	leaq	4(%rbx), %rax
	addq	$7, %rbx
	andq	$-4, %rbx
	movw	%ax, (%r14)
	movw	%bp, 2(%r14)
	movq	%rbx, %rcx
	subq	%rax, %rcx
	cmpq	$3, %rcx
	je	.LBB51_41
	cmpq	$2, %rcx
	je	.LBB51_40
	cmpq	$1, %rcx
	jne	.LBB51_42
	movb	$0, (%r14,%rax)
	jmp	.LBB51_42
.LBB51_40:
	movw	$0, (%r14,%rax)
	jmp	.LBB51_42
.LBB51_41:
	movw	$0, (%r14,%rax)
	movb	$0, 2(%r14,%rax)
.LBB51_42:
	movq	%rbx, %rax
	popq	%rbx
	.cfi_def_cfa_offset 24
	popq	%r14
	.cfi_def_cfa_offset 16
	popq	%rbp
	.cfi_def_cfa_offset 8
	retq
.LBB51_18:
	.cfi_def_cfa_offset 32
	cmpq	$32, %rbx
	jae	.LBB51_24
	xorl	%eax, %eax
	jmp	.LBB51_28
.LBB51_24:
	movq	%rbx, %rax
	andq	$-32, %rax
	xorl	%ecx, %ecx
	.p2align	4
.LBB51_25:
	movups	(%rsi,%rcx), %xmm0
	movups	16(%rsi,%rcx), %xmm1
	movups	%xmm0, 4(%r14,%rcx)
	movups	%xmm1, 20(%r14,%rcx)
	addq	$32, %rcx
	cmpq	%rcx, %rax
	jne	.LBB51_25
	cmpq	%rax, %rbx
	je	.LBB51_36
	testb	$28, %bl
	je	.LBB51_31
.LBB51_28:
	movq	%rax, %rcx
	movq	%rbx, %rax
	andq	$-4, %rax
	.p2align	4
.LBB51_29:
	movl	(%rsi,%rcx), %edx
	movl	%edx, (%rdi,%rcx)
	addq	$4, %rcx
	cmpq	%rcx, %rax
	jne	.LBB51_29
	cmpq	%rax, %rbx
	je	.LBB51_36
	jmp	.LBB51_31
.LBB51_43:
	cmpq	$32, %rdx
	jae	.LBB51_47
	xorl	%ecx, %ecx
	jmp	.LBB51_51
.LBB51_45:
	cmpq	$32, %rdx
	jae	.LBB51_58
	xorl	%ecx, %ecx
	jmp	.LBB51_62
.LBB51_47:
	movq	%rdx, %rcx
	andq	$-32, %rcx
	xorl	%r8d, %r8d
	.p2align	4
.LBB51_48:
	movups	8(%rsi,%r8), %xmm0
	movups	24(%rsi,%r8), %xmm1
	movups	%xmm0, 12(%r14,%r8)
	movups	%xmm1, 28(%r14,%r8)
	addq	$32, %r8
	cmpq	%r8, %rcx
	jne	.LBB51_48
	cmpq	%rcx, %rdx
	je	.LBB51_36
	testb	$28, %dl
	je	.LBB51_54
.LBB51_51:
	movq	%rcx, %r8
	movq	%rdx, %rcx
	andq	$-4, %rcx
	.p2align	4
.LBB51_52:
	movl	(%rax,%r8), %r9d
	movl	%r9d, (%rdi,%r8)
	addq	$4, %r8
	cmpq	%r8, %rcx
	jne	.LBB51_52
	cmpq	%rcx, %rdx
	je	.LBB51_36
	jmp	.LBB51_54
.LBB51_58:
	movq	%rdx, %rcx
	andq	$-32, %rcx
	xorl	%r8d, %r8d
	.p2align	4
.LBB51_59:
	movups	8(%rsi,%r8), %xmm0
	movups	24(%rsi,%r8), %xmm1
	movups	%xmm0, 12(%r14,%r8)
	movups	%xmm1, 28(%r14,%r8)
	addq	$32, %r8
	cmpq	%r8, %rcx
	jne	.LBB51_59
	cmpq	%rcx, %rdx
	je	.LBB51_36
	testb	$28, %dl
	je	.LBB51_65
.LBB51_62:
	movq	%rcx, %r8
	movq	%rdx, %rcx
	andq	$-4, %rcx
	.p2align	4
.LBB51_63:
	movl	(%rax,%r8), %r9d
	movl	%r9d, (%rdi,%r8)
	addq	$4, %r8
	cmpq	%r8, %rcx
	jne	.LBB51_63
	cmpq	%rcx, %rdx
	je	.LBB51_36
	jmp	.LBB51_65
.Lfunc_end51:
	.size	link_msg.payload.write_event, .Lfunc_end51-link_msg.payload.write_event
	.cfi_endproc

	.section	.text.nla_wire.members.write_each.49064c0641319ce4,"ax",@progbits
	.p2align	4
	.type	nla_wire.members.write_each.49064c0641319ce4,@function
nla_wire.members.write_each.49064c0641319ce4:
	.cfi_startproc
	pushq	%rbp
	.cfi_def_cfa_offset 16
	pushq	%r15
	.cfi_def_cfa_offset 24
	pushq	%r14
	.cfi_def_cfa_offset 32
	pushq	%r13
	.cfi_def_cfa_offset 40
	pushq	%r12
	.cfi_def_cfa_offset 48
	pushq	%rbx
	.cfi_def_cfa_offset 56
	subq	$40, %rsp
	.cfi_def_cfa_offset 96
	.cfi_offset %rbx, -56
	.cfi_offset %r12, -48
	.cfi_offset %r13, -40
	.cfi_offset %r14, -32
	.cfi_offset %r15, -24
	.cfi_offset %rbp, -16
	testq	%rsi, %rsi
	je	.LBB52_79
	movq	%rsi, %r15
	movq	%rdi, %r12
	leaq	20(%rdx), %rax
	movq	%rax, 8(%rsp)
	leaq	7(%rdx), %rax
	movq	%rax, 16(%rsp)
	xorl	%ebx, %ebx
	xorl	%r11d, %r11d
	movq	%rdx, (%rsp)
	jmp	.LBB52_5
.LBB52_77:
	movw	$0, (%r10,%rax)
	.p2align	4
.LBB52_4:
	addq	%rbp, %rbx
	cmpq	%r11, %r15
	jbe	.LBB52_80
.LBB52_5:
	subq	%r11, %r15
	cmpq	$4, %r15
	jb	.LBB52_80
	movq	%r12, %rax
	movq	%r11, %rcx
	addq	%r11, %r12
	movzwl	(%r12), %r13d
	cmpw	$4, %r13w
	jb	.LBB52_80
	cmpq	%r13, %r15
	jb	.LBB52_80
	movzwl	2(%r12), %r14d
	leaq	4(%r12), %rsi
	leaq	-4(%r13), %rbp
	leal	3(%r13), %r11d
	andl	$-4, %r11d
	leaq	(%rdx,%rbx), %r10
	movl	%r14d, %edi
	andl	$16383, %edi
	cmpw	$1, %di
	jne	.LBB52_22
	testq	%rbp, %rbp
	je	.LBB52_11
	cmpb	$0, -5(%rsi,%r13)
	je	.LBB52_29
.LBB52_11:
	leaq	4(%r10), %rdi
	cmpl	$4, %ebp
	jae	.LBB52_30
.LBB52_12:
	movq	%rdi, %r8
	subq	%rsi, %r8
	cmpq	%rbp, %r8
	jae	.LBB52_26
	cmpl	$4, %ebp
	jb	.LBB52_15
	movq	%r10, %r8
	subq	%rax, %r8
	subq	%rcx, %r8
	cmpq	$32, %r8
	jae	.LBB52_42
.LBB52_15:
	movq	%r11, %r14
	xorl	%r11d, %r11d
.LBB52_16:
	movq	%r10, %r13
	movq	%rbp, %r9
	movq	%r11, %r8
	andq	$3, %r9
	je	.LBB52_19
	movq	%r11, %r8
	.p2align	4
.LBB52_18:
	movzbl	(%rsi,%r8), %r10d
	movb	%r10b, (%rdi,%r8)
	incq	%r8
	decq	%r9
	jne	.LBB52_18
.LBB52_19:
	subl	%ebp, %r11d
	cmpl	$-4, %r11d
	movq	%r13, %r10
	ja	.LBB52_73
	addq	%rcx, %rax
	addq	$7, %rax
	movq	16(%rsp), %rcx
	addq	%rbx, %rcx
	.p2align	4
.LBB52_21:
	movzbl	-3(%rax,%r8), %esi
	movb	%sil, -3(%rcx,%r8)
	movzbl	-2(%rax,%r8), %esi
	movb	%sil, -2(%rcx,%r8)
	movzbl	-1(%rax,%r8), %esi
	movb	%sil, -1(%rcx,%r8)
	movzbl	(%rax,%r8), %esi
	movb	%sil, (%rcx,%r8)
	addq	$4, %r8
	cmpq	%r8, %rbp
	jne	.LBB52_21
	jmp	.LBB52_73
	.p2align	4
.LBB52_22:
	leaq	4(%r10), %rdi
	movq	%rdi, %rdx
	subq	%rsi, %rdx
	cmpq	%rbp, %rdx
	movq	%r12, 32(%rsp)
	jae	.LBB52_25
	cmpl	$4, %ebp
	movq	%r10, 24(%rsp)
	jb	.LBB52_24
	movq	%r10, %r8
	subq	%rax, %r8
	subq	%rcx, %r8
	cmpq	$32, %r8
	jae	.LBB52_36
.LBB52_24:
	xorl	%edx, %edx
.LBB52_54:
	movq	%r13, %r9
	movq	%rdx, %r8
	andq	$3, %r9
	je	.LBB52_57
	movq	%rdx, %r8
	.p2align	4
.LBB52_56:
	movzbl	(%rsi,%r8), %r10d
	movb	%r10b, (%rdi,%r8)
	incq	%r8
	decq	%r9
	jne	.LBB52_56
.LBB52_57:
	negq	%rdx
	addq	%r13, %rdx
	addq	$-5, %rdx
	cmpl	$3, %edx
	movq	24(%rsp), %r10
	jb	.LBB52_60
	addq	%rcx, %rax
	addq	$7, %rax
	movq	16(%rsp), %rcx
	addq	%rbx, %rcx
	.p2align	4
.LBB52_59:
	movzbl	-3(%rax,%r8), %edx
	movb	%dl, -3(%rcx,%r8)
	movzbl	-2(%rax,%r8), %edx
	movb	%dl, -2(%rcx,%r8)
	movzbl	-1(%rax,%r8), %edx
	movb	%dl, -1(%rcx,%r8)
	movzbl	(%rax,%r8), %edx
	movb	%dl, (%rcx,%r8)
	addq	$4, %r8
	cmpq	%r8, %rbp
	jne	.LBB52_59
	jmp	.LBB52_60
	.p2align	4
.LBB52_25:
	movq	%rbp, %rdx
	movq	%r11, %rbp
	movl	%r14d, %r12d
	movq	%rbx, %r14
	movq	%r10, %rbx
	callq	memmove@PLT
	movq	%rbx, %r10
	movq	%r14, %rbx
	movl	%r12d, %r14d
	movq	%rbp, %r11
.LBB52_60:
	movw	%r13w, (%r10)
	movw	%r14w, 2(%r10)
	movq	%r11, %rax
	subq	%r13, %rax
	cmpq	$3, %rax
	je	.LBB52_64
	cmpl	$2, %eax
	movq	(%rsp), %rdx
	movq	32(%rsp), %r12
	je	.LBB52_2
	movq	%r11, %rbp
	cmpl	$1, %eax
	jne	.LBB52_4
	movb	$0, (%r10,%r13)
	jmp	.LBB52_3
.LBB52_26:
	movq	%r11, %r14
	movq	%rbp, %rdx
	movq	%r10, %r13
	callq	memmove@PLT
	movq	%r13, %r10
	movq	(%rsp), %rdx
	jmp	.LBB52_73
.LBB52_2:
	movw	$0, (%r10,%r13)
.LBB52_3:
	movq	%r11, %rbp
	jmp	.LBB52_4
.LBB52_64:
	movw	$0, (%r10,%r13)
	movb	$0, 2(%r10,%r13)
	movq	%r11, %rbp
	movq	(%rsp), %rdx
	movq	32(%rsp), %r12
	jmp	.LBB52_4
.LBB52_29:
	addq	$-5, %r13
	movq	%r13, %rbp
	leaq	4(%r10), %rdi
	cmpl	$4, %ebp
	jb	.LBB52_12
.LBB52_30:
	cmpl	$7, %ebp
	ja	.LBB52_33
	movq	%rdi, %rax
	subq	%rsi, %rax
	movq	%r11, %r14
	cmpq	$3, %rax
	ja	.LBB52_38
	movzbl	4(%r12), %eax
	movb	%al, 4(%r10)
	movzbl	5(%r12), %eax
	movb	%al, 5(%r10)
	movzbl	6(%r12), %eax
	movb	%al, 6(%r10)
	movzbl	7(%r12), %eax
	movb	%al, 7(%r10)
	jmp	.LBB52_39
.LBB52_33:
	cmpl	$16, %ebp
	ja	.LBB52_12
	movq	%rdi, %rax
	subq	%rsi, %rax
	movq	%r11, %r14
	cmpq	$7, %rax
	ja	.LBB52_44
	movzbl	4(%r12), %eax
	movb	%al, 4(%r10)
	movzbl	5(%r12), %eax
	movb	%al, 5(%r10)
	movzbl	6(%r12), %eax
	movb	%al, 6(%r10)
	movzbl	7(%r12), %eax
	movb	%al, 7(%r10)
	movzbl	8(%r12), %eax
	movb	%al, 8(%r10)
	movzbl	9(%r12), %eax
	movb	%al, 9(%r10)
	movzbl	10(%r12), %eax
	movb	%al, 10(%r10)
	movzbl	11(%r12), %eax
	movb	%al, 11(%r10)
	jmp	.LBB52_45
.LBB52_36:
	cmpl	$32, %ebp
	jae	.LBB52_47
	xorl	%edx, %edx
	jmp	.LBB52_51
.LBB52_38:
	movl	(%rsi), %eax
	movl	%eax, (%rdi)
.LBB52_39:
	leaq	(%r10,%rbp), %rax
	leaq	(%rsi,%rbp), %rcx
	addq	$-4, %rcx
	movq	%rax, %rdi
	subq	%rcx, %rdi
	cmpq	$3, %rdi
	ja	.LBB52_41
	addq	%rbp, %rsi
	movzbl	-4(%rsi), %ecx
	movb	%cl, (%rax)
	movzbl	-3(%rsi), %ecx
	movb	%cl, 1(%rax)
	movzbl	-2(%rsi), %ecx
	movb	%cl, 2(%rax)
	movzbl	-1(%rsi), %ecx
	movb	%cl, 3(%rax)
	jmp	.LBB52_73
.LBB52_41:
	movl	(%rcx), %ecx
	movl	%ecx, (%rax)
	jmp	.LBB52_73
.LBB52_42:
	movq	%r11, %r14
	cmpl	$32, %ebp
	jae	.LBB52_66
	xorl	%r11d, %r11d
	jmp	.LBB52_70
.LBB52_44:
	movq	(%rsi), %rax
	movq	%rax, (%rdi)
.LBB52_45:
	leaq	-8(%rbp), %rax
	addq	%rax, %rdi
	addq	%rax, %rsi
	movq	%rdi, %rax
	subq	%rsi, %rax
	cmpq	$7, %rax
	ja	.LBB52_65
	movzbl	(%rsi), %eax
	movb	%al, (%rdi)
	movzbl	1(%rsi), %eax
	movb	%al, 1(%rdi)
	movzbl	2(%rsi), %eax
	movb	%al, 2(%rdi)
	movzbl	3(%rsi), %eax
	movb	%al, 3(%rdi)
	movzbl	4(%rsi), %eax
	movb	%al, 4(%rdi)
	movzbl	5(%rsi), %eax
	movb	%al, 5(%rdi)
	movzbl	6(%rsi), %eax
	movb	%al, 6(%rdi)
	movzbl	7(%rsi), %eax
	movb	%al, 7(%rdi)
	jmp	.LBB52_73
.LBB52_47:
	movq	%rbp, %rdx
	andq	$-32, %rdx
	leaq	(%rax,%rcx), %r8
	addq	$20, %r8
	movq	8(%rsp), %r9
	addq	%rbx, %r9
	xorl	%r10d, %r10d
	.p2align	4
.LBB52_48:
	movups	-16(%r8,%r10), %xmm0
	movups	(%r8,%r10), %xmm1
	movups	%xmm0, -16(%r9,%r10)
	movups	%xmm1, (%r9,%r10)
	addq	$32, %r10
	cmpq	%r10, %rdx
	jne	.LBB52_48
	cmpl	%edx, %ebp
	movq	24(%rsp), %r10
	je	.LBB52_60
	testb	$28, %bpl
	je	.LBB52_54
.LBB52_51:
	movq	%rdx, %r8
	movq	%rbp, %rdx
	andq	$-4, %rdx
	.p2align	4
.LBB52_52:
	movl	(%rsi,%r8), %r9d
	movl	%r9d, (%rdi,%r8)
	addq	$4, %r8
	cmpq	%r8, %rdx
	jne	.LBB52_52
	cmpl	%edx, %ebp
	je	.LBB52_60
	jmp	.LBB52_54
.LBB52_65:
	movq	(%rsi), %rax
	movq	%rax, (%rdi)
	jmp	.LBB52_73
.LBB52_66:
	movq	%r10, %r13
	movq	%rbp, %r11
	andq	$-32, %r11
	leaq	(%rax,%rcx), %r8
	addq	$20, %r8
	movq	8(%rsp), %r9
	addq	%rbx, %r9
	xorl	%r10d, %r10d
	.p2align	4
.LBB52_67:
	movups	-16(%r8,%r10), %xmm0
	movups	(%r8,%r10), %xmm1
	movups	%xmm0, -16(%r9,%r10)
	movups	%xmm1, (%r9,%r10)
	addq	$32, %r10
	cmpq	%r10, %r11
	jne	.LBB52_67
	cmpl	%r11d, %ebp
	movq	%r13, %r10
	je	.LBB52_73
	testb	$28, %bpl
	je	.LBB52_16
.LBB52_70:
	movq	%r11, %r8
	movq	%rbp, %r11
	andq	$-4, %r11
	.p2align	4
.LBB52_71:
	movl	(%rsi,%r8), %r9d
	movl	%r9d, (%rdi,%r8)
	addq	$4, %r8
	cmpq	%r8, %r11
	jne	.LBB52_71
	cmpl	%r11d, %ebp
	jne	.LBB52_16
	.p2align	4
.LBB52_73:
	movb	$0, 4(%r10,%rbp)
	leaq	5(%rbp), %rax
	andq	$-4, %rbp
	addq	$8, %rbp
	movw	%ax, (%r10)
	movw	$1, 2(%r10)
	movq	%rbp, %rcx
	subq	%rax, %rcx
	cmpq	$3, %rcx
	je	.LBB52_78
	cmpl	$2, %ecx
	movq	%r14, %r11
	je	.LBB52_77
	cmpl	$1, %ecx
	jne	.LBB52_4
	movb	$0, (%r10,%rax)
	jmp	.LBB52_4
.LBB52_78:
	movw	$0, (%r10,%rax)
	movb	$0, 2(%r10,%rax)
	movq	%r14, %r11
	jmp	.LBB52_4
.LBB52_79:
	xorl	%ebx, %ebx
.LBB52_80:
	movq	%rbx, %rax
	addq	$40, %rsp
	.cfi_def_cfa_offset 56
	popq	%rbx
	.cfi_def_cfa_offset 48
	popq	%r12
	.cfi_def_cfa_offset 40
	popq	%r13
	.cfi_def_cfa_offset 32
	popq	%r14
	.cfi_def_cfa_offset 24
	popq	%r15
	.cfi_def_cfa_offset 16
	popq	%rbp
	.cfi_def_cfa_offset 8
	retq
.Lfunc_end52:
	.size	nla_wire.members.write_each.49064c0641319ce4, .Lfunc_end52-nla_wire.members.write_each.49064c0641319ce4
	.cfi_endproc

	.section	.text.nla_wire.members.write_each.3bb4c8661a1029f4,"ax",@progbits
	.p2align	4
	.type	nla_wire.members.write_each.3bb4c8661a1029f4,@function
nla_wire.members.write_each.3bb4c8661a1029f4:
	.cfi_startproc
	pushq	%rbp
	.cfi_def_cfa_offset 16
	pushq	%r15
	.cfi_def_cfa_offset 24
	pushq	%r14
	.cfi_def_cfa_offset 32
	pushq	%r13
	.cfi_def_cfa_offset 40
	pushq	%r12
	.cfi_def_cfa_offset 48
	pushq	%rbx
	.cfi_def_cfa_offset 56
	pushq	%rax
	.cfi_def_cfa_offset 64
	.cfi_offset %rbx, -56
	.cfi_offset %r12, -48
	.cfi_offset %r13, -40
	.cfi_offset %r14, -32
	.cfi_offset %r15, -24
	.cfi_offset %rbp, -16
	testq	%rsi, %rsi
	je	.LBB53_1
	movq	%rdx, %r15
	movq	%rsi, %r12
	movq	%rdi, %r13
	addq	$-4, %rcx
	xorl	%ebx, %ebx
	xorl	%ebp, %ebp
	jmp	.LBB53_3
.LBB53_11:
	leaq	(%r15,%rbx), %rdx
	movw	$0, (%rdx,%rcx)
.LBB53_13:
	addq	%rax, %rbx
	movq	%r14, %rcx
.LBB53_14:
	addl	$3, %ebp
	andl	$-4, %ebp
	cmpq	%rbp, %r12
	jbe	.LBB53_15
.LBB53_3:
	subq	%rbp, %r12
	cmpq	$4, %r12
	jb	.LBB53_15
	addq	%rbp, %r13
	movzwl	(%r13), %ebp
	cmpw	$4, %bp
	jb	.LBB53_15
	cmpq	%rbp, %r12
	jb	.LBB53_15
	movzwl	2(%r13), %eax
	andl	$16383, %eax
	cmpw	$1, %ax
	jne	.LBB53_14
	leaq	-4(%rbp), %rsi
	leaq	4(%r13), %rdi
	leaq	(%r15,%rbx), %rdx
	addq	$4, %rdx
	movq	%rcx, %r14
	subq	%rbx, %rcx
	callq	nla_wire.members.write_each.41ac5f0caeaa9df8
	leaq	4(%rax), %rcx
	addq	$7, %rax
	andq	$-4, %rax
	movw	%cx, (%r15,%rbx)
	movw	$1, 2(%r15,%rbx)
	movq	%rax, %rdx
	subq	%rcx, %rdx
	cmpq	$3, %rdx
	je	.LBB53_12
	cmpq	$2, %rdx
	je	.LBB53_11
	cmpq	$1, %rdx
	jne	.LBB53_13
	leaq	(%r15,%rbx), %rdx
	movb	$0, (%rdx,%rcx)
	jmp	.LBB53_13
.LBB53_12:
	leaq	(%r15,%rbx), %rdx
	movw	$0, (%rdx,%rcx)
	movb	$0, 2(%rdx,%rcx)
	jmp	.LBB53_13
.LBB53_1:
	xorl	%ebx, %ebx
.LBB53_15:
	movq	%rbx, %rax
	addq	$8, %rsp
	.cfi_def_cfa_offset 56
	popq	%rbx
	.cfi_def_cfa_offset 48
	popq	%r12
	.cfi_def_cfa_offset 40
	popq	%r13
	.cfi_def_cfa_offset 32
	popq	%r14
	.cfi_def_cfa_offset 24
	popq	%r15
	.cfi_def_cfa_offset 16
	popq	%rbp
	.cfi_def_cfa_offset 8
	retq
.Lfunc_end53:
	.size	nla_wire.members.write_each.3bb4c8661a1029f4, .Lfunc_end53-nla_wire.members.write_each.3bb4c8661a1029f4
	.cfi_endproc

	.section	.text.nla_wire.members.write_each.41ac5f0caeaa9df8,"ax",@progbits
	.p2align	4
	.type	nla_wire.members.write_each.41ac5f0caeaa9df8,@function
nla_wire.members.write_each.41ac5f0caeaa9df8:
	.cfi_startproc
	pushq	%rbp
	.cfi_def_cfa_offset 16
	pushq	%r15
	.cfi_def_cfa_offset 24
	pushq	%r14
	.cfi_def_cfa_offset 32
	pushq	%r13
	.cfi_def_cfa_offset 40
	pushq	%r12
	.cfi_def_cfa_offset 48
	pushq	%rbx
	.cfi_def_cfa_offset 56
	subq	$136, %rsp
	.cfi_def_cfa_offset 192
	.cfi_offset %rbx, -56
	.cfi_offset %r12, -48
	.cfi_offset %r13, -40
	.cfi_offset %r14, -32
	.cfi_offset %r15, -24
	.cfi_offset %rbp, -16
	testq	%rsi, %rsi
	je	.LBB54_66
	movq	%rsi, %r15
	movq	%rdi, %r12
	leaq	20(%rdx), %rax
	movq	%rax, 24(%rsp)
	leaq	7(%rdx), %rax
	movq	%rax, 32(%rsp)
	xorl	%ebx, %ebx
	xorl	%r11d, %r11d
	movq	%rdx, 8(%rsp)
	jmp	.LBB54_5
.LBB54_19:
	movq	(%rsi), %rax
	movq	%rax, 4(%r9)
	movl	$196620, (%r9)
	movl	$12, %eax
	.p2align	4
.LBB54_4:
	addq	%rax, %rbx
	cmpq	%r11, %r15
	jbe	.LBB54_67
.LBB54_5:
	subq	%r11, %r15
	cmpq	$4, %r15
	jb	.LBB54_67
	movq	%r12, %rcx
	movq	%r11, %rbp
	addq	%r11, %r12
	movzwl	(%r12), %r14d
	cmpw	$4, %r14w
	jb	.LBB54_67
	cmpq	%r14, %r15
	jb	.LBB54_67
	movzwl	2(%r12), %r13d
	leaq	4(%r12), %rsi
	leaq	-4(%r14), %rax
	leal	3(%r14), %r11d
	andl	$-4, %r11d
	leaq	(%rdx,%rbx), %r9
	movl	%r13d, %edi
	andl	$16383, %edi
	decl	%edi
	cmpl	$12, %edi
	ja	.LBB54_27
	leaq	.LJTI54_0(%rip), %rcx
	movslq	(%rcx,%rdi,4), %rdi
	addq	%rcx, %rdi
	jmpq	*%rdi
.LBB54_10:
	movl	4(%r12), %eax
	movups	24(%r12), %xmm0
	movaps	%xmm0, 112(%rsp)
	movups	8(%r12), %xmm0
	movaps	%xmm0, 96(%rsp)
	movups	8(%r12), %xmm0
	movups	24(%r12), %xmm1
	leaq	52(%rsp), %rsi
	movups	%xmm1, 16(%rsi)
	movups	%xmm0, (%rsi)
	movl	%eax, 4(%r9)
	leaq	8(%r9), %rax
	movq	%rax, %rcx
	subq	%rsi, %rcx
	cmpq	$31, %rcx
	ja	.LBB54_37
	movups	52(%rsp), %xmm0
	movups	%xmm0, 8(%r9)
	movups	68(%rsp), %xmm0
	movups	%xmm0, 24(%r9)
	jmp	.LBB54_38
.LBB54_12:
	movq	%r11, %r14
	leaq	4(%r9), %rdx
	movq	%rsi, %rdi
	movq	%rax, %rsi
	movq	%r9, %r13
	callq	nla_wire.members.write_each.9a0187163d44de3c
	movq	%r13, %rsi
	leaq	4(%rax), %rcx
	addq	$7, %rax
	andq	$-4, %rax
	movw	%cx, (%r13)
	movw	$12, 2(%r13)
	movq	%rax, %rdx
	subq	%rcx, %rdx
	cmpq	$3, %rdx
	je	.LBB54_36
	cmpq	$2, %rdx
	movq	%r14, %r11
	je	.LBB54_33
.LBB54_14:
	cmpq	$1, %rdx
	movq	8(%rsp), %rdx
	jne	.LBB54_4
	movb	$0, (%rsi,%rcx)
	jmp	.LBB54_4
.LBB54_15:
	movl	4(%r12), %esi
	movl	8(%r12), %ecx
	cmpl	$3, %ecx
	movl	$3, %eax
	cmovbl	%ecx, %eax
	movl	%esi, 4(%r9)
	leaq	.LJTI54_1(%rip), %rdi
	movslq	(%rdi,%rax,4), %rsi
	addq	%rdi, %rsi
	jmpq	*%rsi
.LBB54_16:
	movl	$1, %eax
	jmp	.LBB54_42
.LBB54_17:
	movups	(%rsi), %xmm0
	movups	16(%rsi), %xmm1
	movaps	%xmm1, 64(%rsp)
	movaps	%xmm0, 48(%rsp)
	leaq	4(%r9), %rax
	leaq	48(%rsp), %rcx
	movq	%rax, %rdi
	subq	%rcx, %rdi
	cmpq	$31, %rdi
	ja	.LBB54_34
	movaps	48(%rsp), %xmm0
	movups	%xmm0, 4(%r9)
	movaps	64(%rsp), %xmm0
	movups	%xmm0, 20(%r9)
	jmp	.LBB54_35
.LBB54_2:
	movl	4(%r12), %eax
	movq	12(%r12), %rcx
	movl	%eax, 4(%r9)
	movl	$0, 8(%r9)
	movq	%rcx, 12(%r9)
	movl	$655380, (%r9)
	jmp	.LBB54_3
.LBB54_20:
	movl	4(%r12), %eax
	movl	8(%r12), %ecx
	decl	%ecx
	xorl	%esi, %esi
	cmpl	$-2, %ecx
	setb	%sil
	movl	%eax, 4(%r9)
	movl	%esi, 8(%r9)
	movl	$262156, (%r9)
	movl	$12, %eax
	jmp	.LBB54_4
.LBB54_21:
	movq	%r11, %r14
	leaq	4(%r9), %rdx
	movq	%rsi, %rdi
	movq	%rax, %rsi
	movq	%r9, %r13
	callq	nla_wire.members.write_each.5361511d0f913a98
	movq	%r13, %rsi
	leaq	4(%rax), %rcx
	addq	$7, %rax
	andq	$-4, %rax
	movw	%cx, (%r13)
	movw	$8, 2(%r13)
	movq	%rax, %rdx
	subq	%rcx, %rdx
	cmpq	$3, %rdx
	je	.LBB54_36
	cmpq	$2, %rdx
	movq	%r14, %r11
	jne	.LBB54_14
.LBB54_33:
	movw	$0, (%rsi,%rcx)
	jmp	.LBB54_65
.LBB54_25:
	movl	12(%r12), %eax
	movq	4(%r12), %rcx
	movq	%rcx, 4(%r9)
	movl	%eax, 12(%r9)
	movl	$131088, (%r9)
	movl	$16, %eax
	jmp	.LBB54_4
.LBB54_26:
	movl	12(%r12), %eax
	movq	4(%r12), %rcx
	movq	%rcx, 4(%r9)
	movl	%eax, 12(%r9)
	movl	$393232, (%r9)
	movl	$16, %eax
	jmp	.LBB54_4
.LBB54_27:
	leaq	4(%r9), %rdi
	movq	%rdi, %r8
	subq	%rsi, %r8
	cmpq	%rax, %r8
	movq	%r9, 40(%rsp)
	jae	.LBB54_39
	cmpl	$4, %eax
	jb	.LBB54_29
	subq	%rcx, %r9
	subq	%rbp, %r9
	cmpq	$32, %r9
	jae	.LBB54_44
.LBB54_29:
	xorl	%r8d, %r8d
.LBB54_53:
	movq	%r11, %rdx
	movq	%r14, %r10
	movq	%r8, %r9
	andq	$3, %r10
	je	.LBB54_56
	movq	%r8, %r9
	.p2align	4
.LBB54_55:
	movzbl	(%rsi,%r9), %r11d
	movb	%r11b, (%rdi,%r9)
	incq	%r9
	decq	%r10
	jne	.LBB54_55
.LBB54_56:
	negq	%r8
	leaq	(%r14,%r8), %rsi
	addq	$-5, %rsi
	cmpl	$3, %esi
	movq	%rdx, %r11
	jb	.LBB54_59
	addq	%rbp, %rcx
	addq	$7, %rcx
	movq	32(%rsp), %rdx
	addq	%rbx, %rdx
	.p2align	4
.LBB54_58:
	movzbl	-3(%rcx,%r9), %esi
	movb	%sil, -3(%rdx,%r9)
	movzbl	-2(%rcx,%r9), %esi
	movb	%sil, -2(%rdx,%r9)
	movzbl	-1(%rcx,%r9), %esi
	movb	%sil, -1(%rdx,%r9)
	movzbl	(%rcx,%r9), %esi
	movb	%sil, (%rdx,%r9)
	addq	$4, %r9
	cmpq	%r9, %rax
	jne	.LBB54_58
	jmp	.LBB54_59
.LBB54_30:
	movl	4(%r12), %eax
	movl	8(%r12), %ecx
	decl	%ecx
	xorl	%esi, %esi
	cmpl	$-2, %ecx
	setb	%sil
	movl	%eax, 4(%r9)
	movl	%esi, 8(%r9)
	movl	$458764, (%r9)
	movl	$12, %eax
	jmp	.LBB54_4
.LBB54_31:
	movl	4(%r12), %eax
	movq	12(%r12), %rcx
	movl	%eax, 4(%r9)
	movl	$0, 8(%r9)
	movq	%rcx, 12(%r9)
	movl	$720916, (%r9)
.LBB54_3:
	movl	$20, %eax
	jmp	.LBB54_4
.LBB54_32:
	movl	4(%r12), %eax
	movl	8(%r12), %ecx
	decl	%ecx
	xorl	%esi, %esi
	cmpl	$-2, %ecx
	setb	%sil
	movl	%eax, 4(%r9)
	movl	%esi, 8(%r9)
	movl	$589836, (%r9)
	movl	$12, %eax
	jmp	.LBB54_4
.LBB54_34:
	movups	(%rsi), %xmm0
	movups	16(%rsi), %xmm1
	movups	%xmm1, 16(%rax)
	movups	%xmm0, (%rax)
.LBB54_35:
	movl	$852004, (%r9)
	movl	$36, %eax
	jmp	.LBB54_4
.LBB54_36:
	movw	$0, (%rsi,%rcx)
	movb	$0, 2(%rsi,%rcx)
	movq	8(%rsp), %rdx
	movq	%r14, %r11
	jmp	.LBB54_4
.LBB54_37:
	movaps	96(%rsp), %xmm0
	movaps	112(%rsp), %xmm1
	movups	%xmm1, 16(%rax)
	movups	%xmm0, (%rax)
.LBB54_38:
	movl	$65576, (%r9)
	movl	$40, %eax
	jmp	.LBB54_4
.LBB54_39:
	movq	%rax, %rdx
	movq	%r11, %rbp
	callq	memmove@PLT
	movq	%rbp, %r11
.LBB54_59:
	movq	40(%rsp), %rsi
	movw	%r14w, (%rsi)
	movw	%r13w, 2(%rsi)
	movq	%r11, %rcx
	subq	%r14, %rcx
	cmpq	$3, %rcx
	je	.LBB54_64
	cmpl	$2, %ecx
	movq	8(%rsp), %rdx
	je	.LBB54_63
	movq	%r11, %rax
	cmpl	$1, %ecx
	jne	.LBB54_4
	movb	$0, (%rsi,%r14)
	movq	%r11, %rax
	jmp	.LBB54_4
.LBB54_40:
	movl	$2, %eax
	jmp	.LBB54_42
.LBB54_41:
	movl	%ecx, %eax
.LBB54_42:
	movl	%eax, 8(%r9)
	movl	$327692, (%r9)
	movl	$12, %eax
	jmp	.LBB54_4
.LBB54_63:
	movw	$0, (%rsi,%r14)
	movq	%r11, %rax
	jmp	.LBB54_4
.LBB54_64:
	movw	$0, (%rsi,%r14)
	movb	$0, 2(%rsi,%r14)
	movq	%r11, %rax
.LBB54_65:
	movq	8(%rsp), %rdx
	jmp	.LBB54_4
.LBB54_44:
	cmpl	$32, %eax
	jae	.LBB54_46
	xorl	%r8d, %r8d
	jmp	.LBB54_50
.LBB54_46:
	movq	%r11, 16(%rsp)
	movq	%rax, %r8
	andq	$-32, %r8
	leaq	(%rcx,%rbp), %r9
	addq	$20, %r9
	movq	24(%rsp), %rdx
	leaq	(%rdx,%rbx), %r10
	xorl	%r11d, %r11d
	.p2align	4
.LBB54_47:
	movups	-16(%r9,%r11), %xmm0
	movups	(%r9,%r11), %xmm1
	movups	%xmm0, -16(%r10,%r11)
	movups	%xmm1, (%r10,%r11)
	addq	$32, %r11
	cmpq	%r11, %r8
	jne	.LBB54_47
	cmpl	%r8d, %eax
	movq	16(%rsp), %r11
	je	.LBB54_59
	testb	$28, %al
	je	.LBB54_53
.LBB54_50:
	movq	%r8, %r9
	movq	%rax, %r8
	andq	$-4, %r8
	.p2align	4
.LBB54_51:
	movl	(%rsi,%r9), %r10d
	movl	%r10d, (%rdi,%r9)
	addq	$4, %r9
	cmpq	%r9, %r8
	jne	.LBB54_51
	cmpl	%r8d, %eax
	je	.LBB54_59
	jmp	.LBB54_53
.LBB54_66:
	xorl	%ebx, %ebx
.LBB54_67:
	movq	%rbx, %rax
	addq	$136, %rsp
	.cfi_def_cfa_offset 56
	popq	%rbx
	.cfi_def_cfa_offset 48
	popq	%r12
	.cfi_def_cfa_offset 40
	popq	%r13
	.cfi_def_cfa_offset 32
	popq	%r14
	.cfi_def_cfa_offset 24
	popq	%r15
	.cfi_def_cfa_offset 16
	popq	%rbp
	.cfi_def_cfa_offset 8
	retq
.Lfunc_end54:
	.size	nla_wire.members.write_each.41ac5f0caeaa9df8, .Lfunc_end54-nla_wire.members.write_each.41ac5f0caeaa9df8
	.cfi_endproc
	.section	.rodata.nla_wire.members.write_each.41ac5f0caeaa9df8,"a",@progbits
	.p2align	2, 0x0
.LJTI54_0:
	.long	.LBB54_10-.LJTI54_0
	.long	.LBB54_25-.LJTI54_0
	.long	.LBB54_19-.LJTI54_0
	.long	.LBB54_20-.LJTI54_0
	.long	.LBB54_15-.LJTI54_0
	.long	.LBB54_26-.LJTI54_0
	.long	.LBB54_30-.LJTI54_0
	.long	.LBB54_21-.LJTI54_0
	.long	.LBB54_32-.LJTI54_0
	.long	.LBB54_2-.LJTI54_0
	.long	.LBB54_31-.LJTI54_0
	.long	.LBB54_12-.LJTI54_0
	.long	.LBB54_17-.LJTI54_0
.LJTI54_1:
	.long	.LBB54_42-.LJTI54_1
	.long	.LBB54_16-.LJTI54_1
	.long	.LBB54_40-.LJTI54_1
	.long	.LBB54_41-.LJTI54_1

	.section	.text.nla_wire.members.write_each.5361511d0f913a98,"ax",@progbits
	.p2align	4
	.type	nla_wire.members.write_each.5361511d0f913a98,@function
nla_wire.members.write_each.5361511d0f913a98:
	.cfi_startproc
	testq	%rsi, %rsi
	je	.LBB55_2
	pushq	%rbp
	.cfi_def_cfa_offset 16
	pushq	%r15
	.cfi_def_cfa_offset 24
	pushq	%r14
	.cfi_def_cfa_offset 32
	pushq	%r13
	.cfi_def_cfa_offset 40
	pushq	%r12
	.cfi_def_cfa_offset 48
	pushq	%rbx
	.cfi_def_cfa_offset 56
	subq	$40, %rsp
	.cfi_def_cfa_offset 96
	.cfi_offset %rbx, -56
	.cfi_offset %r12, -48
	.cfi_offset %r13, -40
	.cfi_offset %r14, -32
	.cfi_offset %r15, -24
	.cfi_offset %rbp, -16
	movq	%rdi, %r14
	leaq	20(%rdx), %rax
	movq	%rax, 16(%rsp)
	leaq	7(%rdx), %rax
	movq	%rax, 32(%rsp)
	xorl	%eax, %eax
	xorl	%r13d, %r13d
	movq	%rdx, 8(%rsp)
	.p2align	4
.LBB55_7:
	subq	%r13, %rsi
	cmpq	$4, %rsi
	jb	.LBB55_69
	movq	%r14, %r8
	movq	%r13, %r9
	addq	%r13, %r14
	movzwl	(%r14), %ebx
	cmpw	$4, %bx
	jb	.LBB55_69
	cmpq	%rbx, %rsi
	jb	.LBB55_69
	movzwl	2(%r14), %r12d
	leaq	4(%r14), %rcx
	leal	3(%rbx), %r13d
	andl	$-4, %r13d
	leaq	(%rdx,%rax), %rbp
	movl	%r12d, %r15d
	andl	$16383, %r15d
	leaq	(%rdx,%rax), %rdi
	addq	$4, %rdi
	movq	%rdi, %r10
	subq	%rcx, %r10
	cmpl	$8, %r15d
	ja	.LBB55_14
	leaq	.LJTI55_0(%rip), %r11
	movslq	(%r11,%r15,4), %r15
	addq	%r11, %r15
	jmpq	*%r15
.LBB55_12:
	cmpq	$7, %r10
	ja	.LBB55_40
	movzbl	4(%r14), %ecx
	movb	%cl, 4(%rbp)
	movzbl	5(%r14), %ecx
	movb	%cl, 5(%rbp)
	movzbl	6(%r14), %ecx
	movb	%cl, 6(%rbp)
	movzbl	7(%r14), %ecx
	movb	%cl, 7(%rbp)
	movzbl	8(%r14), %ecx
	movb	%cl, 8(%rbp)
	movzbl	9(%r14), %ecx
	movb	%cl, 9(%rbp)
	movzbl	10(%r14), %ecx
	movb	%cl, 10(%rbp)
	movzbl	11(%r14), %ecx
	movb	%cl, 11(%rbp)
	jmp	.LBB55_41
.LBB55_14:
	leaq	-4(%rbx), %r15
	cmpq	%r15, %r10
	jae	.LBB55_31
	cmpl	$4, %r15d
	jb	.LBB55_16
	movq	%rbp, %r10
	subq	%r8, %r10
	subq	%r9, %r10
	cmpq	$32, %r10
	jae	.LBB55_48
.LBB55_16:
	xorl	%r10d, %r10d
.LBB55_57:
	movq	%rbx, %r15
	movq	%r10, %r11
	andq	$3, %r15
	je	.LBB55_60
	movq	%r10, %r11
	.p2align	4
.LBB55_59:
	movzbl	(%rcx,%r11), %edx
	movb	%dl, (%rdi,%r11)
	incq	%r11
	decq	%r15
	jne	.LBB55_59
.LBB55_60:
	negq	%r10
	leaq	(%rbx,%r10), %rcx
	addq	$-5, %rcx
	cmpl	$3, %ecx
	leaq	-4(%rbx), %r10
	jb	.LBB55_63
	leaq	(%r8,%r9), %rcx
	addq	$7, %rcx
	movq	32(%rsp), %rdx
	leaq	(%rdx,%rax), %rdi
	.p2align	4
.LBB55_62:
	movzbl	-3(%rcx,%r11), %edx
	movb	%dl, -3(%rdi,%r11)
	movzbl	-2(%rcx,%r11), %edx
	movb	%dl, -2(%rdi,%r11)
	movzbl	-1(%rcx,%r11), %edx
	movb	%dl, -1(%rdi,%r11)
	movzbl	(%rcx,%r11), %edx
	movb	%dl, (%rdi,%r11)
	addq	$4, %r11
	cmpq	%r11, %r10
	jne	.LBB55_62
	jmp	.LBB55_63
.LBB55_17:
	cmpq	$7, %r10
	ja	.LBB55_3
	movzbl	4(%r14), %ecx
	movb	%cl, 4(%rbp)
	movzbl	5(%r14), %ecx
	movb	%cl, 5(%rbp)
	movzbl	6(%r14), %ecx
	movb	%cl, 6(%rbp)
	movzbl	7(%r14), %ecx
	movb	%cl, 7(%rbp)
	movzbl	8(%r14), %ecx
	movb	%cl, 8(%rbp)
	movzbl	9(%r14), %ecx
	movb	%cl, 9(%rbp)
	movzbl	10(%r14), %ecx
	movb	%cl, 10(%rbp)
	movzbl	11(%r14), %ecx
	movb	%cl, 11(%rbp)
	jmp	.LBB55_4
.LBB55_19:
	cmpq	$7, %r10
	ja	.LBB55_32
	movzbl	4(%r14), %ecx
	movb	%cl, 4(%rbp)
	movzbl	5(%r14), %ecx
	movb	%cl, 5(%rbp)
	movzbl	6(%r14), %ecx
	movb	%cl, 6(%rbp)
	movzbl	7(%r14), %ecx
	movb	%cl, 7(%rbp)
	movzbl	8(%r14), %ecx
	movb	%cl, 8(%rbp)
	movzbl	9(%r14), %ecx
	movb	%cl, 9(%rbp)
	movzbl	10(%r14), %ecx
	movb	%cl, 10(%rbp)
	movzbl	11(%r14), %ecx
	movb	%cl, 11(%rbp)
	jmp	.LBB55_33
.LBB55_21:
	cmpq	$7, %r10
	ja	.LBB55_34
	movzbl	4(%r14), %ecx
	movb	%cl, 4(%rbp)
	movzbl	5(%r14), %ecx
	movb	%cl, 5(%rbp)
	movzbl	6(%r14), %ecx
	movb	%cl, 6(%rbp)
	movzbl	7(%r14), %ecx
	movb	%cl, 7(%rbp)
	movzbl	8(%r14), %ecx
	movb	%cl, 8(%rbp)
	movzbl	9(%r14), %ecx
	movb	%cl, 9(%rbp)
	movzbl	10(%r14), %ecx
	movb	%cl, 10(%rbp)
	movzbl	11(%r14), %ecx
	movb	%cl, 11(%rbp)
	jmp	.LBB55_35
.LBB55_23:
	cmpq	$7, %r10
	ja	.LBB55_36
	movzbl	4(%r14), %ecx
	movb	%cl, 4(%rbp)
	movzbl	5(%r14), %ecx
	movb	%cl, 5(%rbp)
	movzbl	6(%r14), %ecx
	movb	%cl, 6(%rbp)
	movzbl	7(%r14), %ecx
	movb	%cl, 7(%rbp)
	movzbl	8(%r14), %ecx
	movb	%cl, 8(%rbp)
	movzbl	9(%r14), %ecx
	movb	%cl, 9(%rbp)
	movzbl	10(%r14), %ecx
	movb	%cl, 10(%rbp)
	movzbl	11(%r14), %ecx
	movb	%cl, 11(%rbp)
	jmp	.LBB55_37
.LBB55_25:
	cmpq	$7, %r10
	ja	.LBB55_38
	movzbl	4(%r14), %ecx
	movb	%cl, 4(%rbp)
	movzbl	5(%r14), %ecx
	movb	%cl, 5(%rbp)
	movzbl	6(%r14), %ecx
	movb	%cl, 6(%rbp)
	movzbl	7(%r14), %ecx
	movb	%cl, 7(%rbp)
	movzbl	8(%r14), %ecx
	movb	%cl, 8(%rbp)
	movzbl	9(%r14), %ecx
	movb	%cl, 9(%rbp)
	movzbl	10(%r14), %ecx
	movb	%cl, 10(%rbp)
	movzbl	11(%r14), %ecx
	movb	%cl, 11(%rbp)
	jmp	.LBB55_39
.LBB55_27:
	cmpq	$7, %r10
	ja	.LBB55_42
	movzbl	4(%r14), %ecx
	movb	%cl, 4(%rbp)
	movzbl	5(%r14), %ecx
	movb	%cl, 5(%rbp)
	movzbl	6(%r14), %ecx
	movb	%cl, 6(%rbp)
	movzbl	7(%r14), %ecx
	movb	%cl, 7(%rbp)
	movzbl	8(%r14), %ecx
	movb	%cl, 8(%rbp)
	movzbl	9(%r14), %ecx
	movb	%cl, 9(%rbp)
	movzbl	10(%r14), %ecx
	movb	%cl, 10(%rbp)
	movzbl	11(%r14), %ecx
	movb	%cl, 11(%rbp)
	jmp	.LBB55_43
.LBB55_29:
	cmpq	$7, %r10
	ja	.LBB55_44
	movzbl	4(%r14), %ecx
	movb	%cl, 4(%rbp)
	movzbl	5(%r14), %ecx
	movb	%cl, 5(%rbp)
	movzbl	6(%r14), %ecx
	movb	%cl, 6(%rbp)
	movzbl	7(%r14), %ecx
	movb	%cl, 7(%rbp)
	movzbl	8(%r14), %ecx
	movb	%cl, 8(%rbp)
	movzbl	9(%r14), %ecx
	movb	%cl, 9(%rbp)
	movzbl	10(%r14), %ecx
	movb	%cl, 10(%rbp)
	movzbl	11(%r14), %ecx
	movb	%cl, 11(%rbp)
	jmp	.LBB55_45
.LBB55_31:
	movq	%rsi, 24(%rsp)
	movq	%rcx, %rsi
	movq	%r15, %rdx
	movq	%rax, %r15
	callq	memmove@PLT
	movq	24(%rsp), %rsi
	movq	%r15, %rax
.LBB55_63:
	movw	%bx, (%rbp)
	movw	%r12w, 2(%rbp)
	movq	%r13, %rdi
	subq	%rbx, %rdi
	cmpq	$3, %rdi
	je	.LBB55_68
	cmpl	$2, %edi
	movq	8(%rsp), %rdx
	je	.LBB55_67
	movq	%r13, %rcx
	cmpl	$1, %edi
	jne	.LBB55_6
	movb	$0, (%rbp,%rbx)
	movq	%r13, %rcx
	jmp	.LBB55_6
.LBB55_3:
	movq	(%rcx), %rcx
	movq	%rcx, (%rdi)
.LBB55_4:
	movl	$327692, (%rbp)
	jmp	.LBB55_5
.LBB55_32:
	movq	(%rcx), %rcx
	movq	%rcx, (%rdi)
.LBB55_33:
	movl	$65548, (%rbp)
	jmp	.LBB55_5
.LBB55_34:
	movq	(%rcx), %rcx
	movq	%rcx, (%rdi)
.LBB55_35:
	movl	$458764, (%rbp)
	jmp	.LBB55_5
.LBB55_36:
	movq	(%rcx), %rcx
	movq	%rcx, (%rdi)
.LBB55_37:
	movl	$524300, (%rbp)
	jmp	.LBB55_5
.LBB55_38:
	movq	(%rcx), %rcx
	movq	%rcx, (%rdi)
.LBB55_39:
	movl	$131084, (%rbp)
	jmp	.LBB55_5
.LBB55_40:
	movq	(%rcx), %rcx
	movq	%rcx, (%rdi)
.LBB55_41:
	movl	$12, (%rbp)
	jmp	.LBB55_5
.LBB55_42:
	movq	(%rcx), %rcx
	movq	%rcx, (%rdi)
.LBB55_43:
	movl	$196620, (%rbp)
	jmp	.LBB55_5
.LBB55_44:
	movq	(%rcx), %rcx
	movq	%rcx, (%rdi)
.LBB55_45:
	movl	$262156, (%rbp)
	.p2align	4
.LBB55_5:
	movl	$12, %ecx
.LBB55_6:
	addq	%rcx, %rax
	cmpq	%r13, %rsi
	ja	.LBB55_7
	jmp	.LBB55_69
.LBB55_67:
	movw	$0, (%rbp,%rbx)
	movq	%r13, %rcx
	jmp	.LBB55_6
.LBB55_68:
	movw	$0, (%rbp,%rbx)
	movb	$0, 2(%rbp,%rbx)
	movq	%r13, %rcx
	movq	8(%rsp), %rdx
	jmp	.LBB55_6
.LBB55_48:
	cmpl	$32, %r15d
	jae	.LBB55_50
	xorl	%r10d, %r10d
	jmp	.LBB55_54
.LBB55_50:
	movq	%r15, %r10
	andq	$-32, %r10
	leaq	(%r8,%r9), %rdx
	addq	$20, %rdx
	movq	16(%rsp), %r11
	leaq	(%r11,%rax), %r15
	xorl	%r11d, %r11d
	.p2align	4
.LBB55_51:
	movups	-16(%rdx,%r11), %xmm0
	movups	(%rdx,%r11), %xmm1
	movups	%xmm0, -16(%r15,%r11)
	movups	%xmm1, (%r15,%r11)
	addq	$32, %r11
	cmpq	%r11, %r10
	jne	.LBB55_51
	leaq	-4(%rbx), %r15
	cmpl	%r10d, %r15d
	je	.LBB55_63
	testb	$28, %r15b
	je	.LBB55_57
.LBB55_54:
	movq	%r10, %rdx
	movq	%r15, %r10
	andq	$-4, %r10
	.p2align	4
.LBB55_55:
	movl	(%rcx,%rdx), %r11d
	movl	%r11d, (%rdi,%rdx)
	addq	$4, %rdx
	cmpq	%rdx, %r10
	jne	.LBB55_55
	cmpl	%r10d, %r15d
	je	.LBB55_63
	jmp	.LBB55_57
.LBB55_69:
	addq	$40, %rsp
	.cfi_def_cfa_offset 56
	popq	%rbx
	.cfi_def_cfa_offset 48
	popq	%r12
	.cfi_def_cfa_offset 40
	popq	%r13
	.cfi_def_cfa_offset 32
	popq	%r14
	.cfi_def_cfa_offset 24
	popq	%r15
	.cfi_def_cfa_offset 16
	popq	%rbp
	.cfi_def_cfa_offset 8
	.cfi_restore %rbx
	.cfi_restore %r12
	.cfi_restore %r13
	.cfi_restore %r14
	.cfi_restore %r15
	.cfi_restore %rbp
	retq
.LBB55_2:
	xorl	%eax, %eax
	retq
.Lfunc_end55:
	.size	nla_wire.members.write_each.5361511d0f913a98, .Lfunc_end55-nla_wire.members.write_each.5361511d0f913a98
	.cfi_endproc
	.section	.rodata.nla_wire.members.write_each.5361511d0f913a98,"a",@progbits
	.p2align	2, 0x0
.LJTI55_0:
	.long	.LBB55_12-.LJTI55_0
	.long	.LBB55_19-.LJTI55_0
	.long	.LBB55_25-.LJTI55_0
	.long	.LBB55_27-.LJTI55_0
	.long	.LBB55_29-.LJTI55_0
	.long	.LBB55_17-.LJTI55_0
	.long	.LBB55_14-.LJTI55_0
	.long	.LBB55_21-.LJTI55_0
	.long	.LBB55_23-.LJTI55_0

	.section	.text.nla_wire.members.write_each.9a0187163d44de3c,"ax",@progbits
	.p2align	4
	.type	nla_wire.members.write_each.9a0187163d44de3c,@function
nla_wire.members.write_each.9a0187163d44de3c:
	.cfi_startproc
	pushq	%rbp
	.cfi_def_cfa_offset 16
	pushq	%r15
	.cfi_def_cfa_offset 24
	pushq	%r14
	.cfi_def_cfa_offset 32
	pushq	%r13
	.cfi_def_cfa_offset 40
	pushq	%r12
	.cfi_def_cfa_offset 48
	pushq	%rbx
	.cfi_def_cfa_offset 56
	subq	$40, %rsp
	.cfi_def_cfa_offset 96
	.cfi_offset %rbx, -56
	.cfi_offset %r12, -48
	.cfi_offset %r13, -40
	.cfi_offset %r14, -32
	.cfi_offset %r15, -24
	.cfi_offset %rbp, -16
	testq	%rsi, %rsi
	je	.LBB56_35
	movq	%rsi, %r15
	movq	%rdi, %r12
	leaq	20(%rdx), %rax
	movq	%rax, 24(%rsp)
	leaq	7(%rdx), %rax
	movq	%rax, 32(%rsp)
	xorl	%ebx, %ebx
	xorl	%r13d, %r13d
	movq	%rdx, 16(%rsp)
	jmp	.LBB56_4
	.p2align	4
.LBB56_2:
	cmpw	$-22392, 16(%r12)
	movl	12(%r12), %eax
	movq	4(%r12), %rcx
	movq	%rcx, 4(%r11)
	movl	%eax, 12(%r11)
	movl	$43144, %eax
	movl	$129, %ecx
	cmovel	%eax, %ecx
	movw	%cx, 16(%r11)
	movw	$0, 18(%r11)
	movl	$65556, (%r11)
	movl	$20, %eax
.LBB56_3:
	addq	%rax, %rbx
	cmpq	%r13, %r15
	jbe	.LBB56_36
.LBB56_4:
	subq	%r13, %r15
	cmpq	$4, %r15
	jb	.LBB56_36
	movq	%r12, %rax
	movq	%r13, %rcx
	addq	%r13, %r12
	movzwl	(%r12), %ebp
	cmpw	$4, %bp
	jb	.LBB56_36
	cmpq	%rbp, %r15
	jb	.LBB56_36
	movzwl	2(%r12), %r14d
	leal	3(%rbp), %r13d
	andl	$-4, %r13d
	leaq	(%rdx,%rbx), %r11
	movl	%r14d, %esi
	andl	$16383, %esi
	cmpw	$1, %si
	je	.LBB56_2
	leaq	4(%r12), %rsi
	leaq	-4(%rbp), %rdx
	leaq	4(%r11), %rdi
	movq	%rdi, %r8
	subq	%rsi, %r8
	cmpq	%rdx, %r8
	jae	.LBB56_11
	cmpl	$4, %edx
	movq	%r11, 8(%rsp)
	jb	.LBB56_10
	movq	%r11, %r9
	subq	%rax, %r9
	subq	%rcx, %r9
	cmpq	$32, %r9
	jae	.LBB56_14
.LBB56_10:
	xorl	%r8d, %r8d
.LBB56_23:
	movq	%rbp, %r10
	movq	%r8, %r9
	andq	$3, %r10
	je	.LBB56_26
	movq	%r8, %r9
	.p2align	4
.LBB56_25:
	movzbl	(%rsi,%r9), %r11d
	movb	%r11b, (%rdi,%r9)
	incq	%r9
	decq	%r10
	jne	.LBB56_25
.LBB56_26:
	negq	%r8
	leaq	(%r8,%rbp), %rsi
	addq	$-5, %rsi
	cmpl	$3, %esi
	movq	8(%rsp), %r11
	jb	.LBB56_29
	addq	%rcx, %rax
	addq	$7, %rax
	movq	32(%rsp), %rcx
	addq	%rbx, %rcx
	.p2align	4
.LBB56_28:
	movzbl	-3(%rax,%r9), %esi
	movb	%sil, -3(%rcx,%r9)
	movzbl	-2(%rax,%r9), %esi
	movb	%sil, -2(%rcx,%r9)
	movzbl	-1(%rax,%r9), %esi
	movb	%sil, -1(%rcx,%r9)
	movzbl	(%rax,%r9), %esi
	movb	%sil, (%rcx,%r9)
	addq	$4, %r9
	cmpq	%r9, %rdx
	jne	.LBB56_28
	jmp	.LBB56_29
	.p2align	4
.LBB56_11:
	movl	%r14d, 4(%rsp)
	movq	%r11, %r14
	callq	memmove@PLT
	movq	%r14, %r11
	movl	4(%rsp), %r14d
.LBB56_29:
	movw	%bp, (%r11)
	movw	%r14w, 2(%r11)
	movq	%r13, %rcx
	subq	%rbp, %rcx
	cmpq	$3, %rcx
	je	.LBB56_34
	cmpl	$2, %ecx
	movq	16(%rsp), %rdx
	je	.LBB56_33
	movq	%r13, %rax
	cmpl	$1, %ecx
	jne	.LBB56_3
	movb	$0, (%r11,%rbp)
	movq	%r13, %rax
	jmp	.LBB56_3
.LBB56_33:
	movw	$0, (%r11,%rbp)
	movq	%r13, %rax
	jmp	.LBB56_3
.LBB56_34:
	movw	$0, (%r11,%rbp)
	movb	$0, 2(%r11,%rbp)
	movq	%r13, %rax
	movq	16(%rsp), %rdx
	jmp	.LBB56_3
.LBB56_14:
	cmpl	$32, %edx
	jae	.LBB56_16
	xorl	%r8d, %r8d
	jmp	.LBB56_20
.LBB56_16:
	movq	%rdx, %r8
	andq	$-32, %r8
	leaq	(%rax,%rcx), %r9
	addq	$20, %r9
	movq	24(%rsp), %r10
	addq	%rbx, %r10
	xorl	%r11d, %r11d
	.p2align	4
.LBB56_17:
	movups	-16(%r9,%r11), %xmm0
	movups	(%r9,%r11), %xmm1
	movups	%xmm0, -16(%r10,%r11)
	movups	%xmm1, (%r10,%r11)
	addq	$32, %r11
	cmpq	%r11, %r8
	jne	.LBB56_17
	cmpl	%r8d, %edx
	movq	8(%rsp), %r11
	je	.LBB56_29
	testb	$28, %dl
	je	.LBB56_23
.LBB56_20:
	movq	%r8, %r9
	movq	%rdx, %r8
	andq	$-4, %r8
	.p2align	4
.LBB56_21:
	movl	(%rsi,%r9), %r10d
	movl	%r10d, (%rdi,%r9)
	addq	$4, %r9
	cmpq	%r9, %r8
	jne	.LBB56_21
	cmpl	%r8d, %edx
	je	.LBB56_29
	jmp	.LBB56_23
.LBB56_35:
	xorl	%ebx, %ebx
.LBB56_36:
	movq	%rbx, %rax
	addq	$40, %rsp
	.cfi_def_cfa_offset 56
	popq	%rbx
	.cfi_def_cfa_offset 48
	popq	%r12
	.cfi_def_cfa_offset 40
	popq	%r13
	.cfi_def_cfa_offset 32
	popq	%r14
	.cfi_def_cfa_offset 24
	popq	%r15
	.cfi_def_cfa_offset 16
	popq	%rbp
	.cfi_def_cfa_offset 8
	retq
.Lfunc_end56:
	.size	nla_wire.members.write_each.9a0187163d44de3c, .Lfunc_end56-nla_wire.members.write_each.9a0187163d44de3c
	.cfi_endproc

	.section	.text.nla_wire.members.write_each.79503c7a397af21a,"ax",@progbits
	.p2align	4
	.type	nla_wire.members.write_each.79503c7a397af21a,@function
nla_wire.members.write_each.79503c7a397af21a:
	.cfi_startproc
	pushq	%rbp
	.cfi_def_cfa_offset 16
	pushq	%r15
	.cfi_def_cfa_offset 24
	pushq	%r14
	.cfi_def_cfa_offset 32
	pushq	%r13
	.cfi_def_cfa_offset 40
	pushq	%r12
	.cfi_def_cfa_offset 48
	pushq	%rbx
	.cfi_def_cfa_offset 56
	pushq	%rax
	.cfi_def_cfa_offset 64
	.cfi_offset %rbx, -56
	.cfi_offset %r12, -48
	.cfi_offset %r13, -40
	.cfi_offset %r14, -32
	.cfi_offset %r15, -24
	.cfi_offset %rbp, -16
	testq	%rsi, %rsi
	je	.LBB57_1
	movq	%rdx, %r14
	movq	%rsi, %r15
	movq	%rdi, %r12
	xorl	%ebx, %ebx
	xorl	%r13d, %r13d
	jmp	.LBB57_3
.LBB57_11:
	movw	$0, (%rbp,%rcx)
.LBB57_13:
	addq	%rax, %rbx
.LBB57_14:
	addl	$3, %r13d
	andl	$-4, %r13d
	cmpq	%r13, %r15
	jbe	.LBB57_15
.LBB57_3:
	subq	%r13, %r15
	cmpq	$4, %r15
	jb	.LBB57_15
	addq	%r13, %r12
	movzwl	(%r12), %r13d
	cmpw	$4, %r13w
	jb	.LBB57_15
	cmpq	%r13, %r15
	jb	.LBB57_15
	movzwl	2(%r12), %eax
	andl	$16383, %eax
	cmpw	$1, %ax
	jne	.LBB57_14
	leaq	-4(%r13), %rsi
	leaq	4(%r12), %rdi
	leaq	(%r14,%rbx), %rbp
	leaq	(%r14,%rbx), %rdx
	addq	$4, %rdx
	callq	nla_wire.members.write_each.1f0cb788f492ced5
	leaq	4(%rax), %rcx
	addq	$7, %rax
	andq	$-4, %rax
	movw	%cx, (%r14,%rbx)
	movw	$1, 2(%r14,%rbx)
	movq	%rax, %rdx
	subq	%rcx, %rdx
	cmpq	$3, %rdx
	je	.LBB57_12
	cmpq	$2, %rdx
	je	.LBB57_11
	cmpq	$1, %rdx
	jne	.LBB57_13
	movb	$0, (%rbp,%rcx)
	jmp	.LBB57_13
.LBB57_12:
	movw	$0, (%rbp,%rcx)
	movb	$0, 2(%rbp,%rcx)
	jmp	.LBB57_13
.LBB57_1:
	xorl	%ebx, %ebx
.LBB57_15:
	movq	%rbx, %rax
	addq	$8, %rsp
	.cfi_def_cfa_offset 56
	popq	%rbx
	.cfi_def_cfa_offset 48
	popq	%r12
	.cfi_def_cfa_offset 40
	popq	%r13
	.cfi_def_cfa_offset 32
	popq	%r14
	.cfi_def_cfa_offset 24
	popq	%r15
	.cfi_def_cfa_offset 16
	popq	%rbp
	.cfi_def_cfa_offset 8
	retq
.Lfunc_end57:
	.size	nla_wire.members.write_each.79503c7a397af21a, .Lfunc_end57-nla_wire.members.write_each.79503c7a397af21a
	.cfi_endproc

	.section	.text.nla_wire.members.write_each.8ba1f663fcd59a5e,"ax",@progbits
	.p2align	4
	.type	nla_wire.members.write_each.8ba1f663fcd59a5e,@function
nla_wire.members.write_each.8ba1f663fcd59a5e:
	.cfi_startproc
	testq	%rsi, %rsi
	je	.LBB58_66
	pushq	%rbp
	.cfi_def_cfa_offset 16
	pushq	%r15
	.cfi_def_cfa_offset 24
	pushq	%r14
	.cfi_def_cfa_offset 32
	pushq	%r13
	.cfi_def_cfa_offset 40
	pushq	%r12
	.cfi_def_cfa_offset 48
	pushq	%rbx
	.cfi_def_cfa_offset 56
	subq	$40, %rsp
	.cfi_def_cfa_offset 96
	.cfi_offset %rbx, -56
	.cfi_offset %r12, -48
	.cfi_offset %r13, -40
	.cfi_offset %r14, -32
	.cfi_offset %r15, -24
	.cfi_offset %rbp, -16
	movq	%rdx, %r10
	movq	%rdi, %r14
	leaq	20(%rdx), %rax
	movq	%rax, 16(%rsp)
	leaq	7(%rdx), %rax
	movq	%rax, 32(%rsp)
	xorl	%eax, %eax
	xorl	%r13d, %r13d
	movq	%rdx, 8(%rsp)
	.p2align	4
.LBB58_5:
	subq	%r13, %rsi
	cmpq	$4, %rsi
	jb	.LBB58_65
	movq	%r14, %r8
	movq	%r13, %r9
	addq	%r13, %r14
	movzwl	(%r14), %ebx
	cmpw	$4, %bx
	jb	.LBB58_65
	cmpq	%rbx, %rsi
	jb	.LBB58_65
	movzwl	2(%r14), %r12d
	leaq	4(%r14), %rcx
	leal	3(%rbx), %r13d
	andl	$-4, %r13d
	leaq	(%r10,%rax), %rbp
	movl	%r12d, %edx
	andl	$16383, %edx
	leaq	(%r10,%rax), %rdi
	addq	$4, %rdi
	decl	%edx
	cmpl	$7, %edx
	ja	.LBB58_24
	leaq	.LJTI58_0(%rip), %r8
	movslq	(%r8,%rdx,4), %rdx
	addq	%r8, %rdx
	jmpq	*%rdx
.LBB58_10:
	movq	%rdi, %rdx
	subq	%rcx, %rdx
	cmpq	$3, %rdx
	ja	.LBB58_35
	movzbl	4(%r14), %ecx
	movb	%cl, 4(%rbp)
	movzbl	5(%r14), %ecx
	movb	%cl, 5(%rbp)
	movzbl	6(%r14), %ecx
	movb	%cl, 6(%rbp)
	movzbl	7(%r14), %ecx
	movb	%cl, 7(%rbp)
	jmp	.LBB58_36
.LBB58_12:
	movq	%rdi, %rdx
	subq	%rcx, %rdx
	cmpq	$3, %rdx
	ja	.LBB58_27
	movzbl	4(%r14), %ecx
	movb	%cl, 4(%rbp)
	movzbl	5(%r14), %ecx
	movb	%cl, 5(%rbp)
	movzbl	6(%r14), %ecx
	movb	%cl, 6(%rbp)
	movzbl	7(%r14), %ecx
	movb	%cl, 7(%rbp)
	jmp	.LBB58_28
.LBB58_14:
	movq	%rdi, %rdx
	subq	%rcx, %rdx
	cmpq	$3, %rdx
	ja	.LBB58_29
	movzbl	4(%r14), %ecx
	movb	%cl, 4(%rbp)
	movzbl	5(%r14), %ecx
	movb	%cl, 5(%rbp)
	movzbl	6(%r14), %ecx
	movb	%cl, 6(%rbp)
	movzbl	7(%r14), %ecx
	movb	%cl, 7(%rbp)
	jmp	.LBB58_30
.LBB58_16:
	movq	%rdi, %rdx
	subq	%rcx, %rdx
	cmpq	$3, %rdx
	ja	.LBB58_31
	movzbl	4(%r14), %ecx
	movb	%cl, 4(%rbp)
	movzbl	5(%r14), %ecx
	movb	%cl, 5(%rbp)
	movzbl	6(%r14), %ecx
	movb	%cl, 6(%rbp)
	movzbl	7(%r14), %ecx
	movb	%cl, 7(%rbp)
	jmp	.LBB58_32
.LBB58_18:
	movq	%rdi, %rdx
	subq	%rcx, %rdx
	cmpq	$3, %rdx
	ja	.LBB58_33
	movzbl	4(%r14), %ecx
	movb	%cl, 4(%rbp)
	movzbl	5(%r14), %ecx
	movb	%cl, 5(%rbp)
	movzbl	6(%r14), %ecx
	movb	%cl, 6(%rbp)
	movzbl	7(%r14), %ecx
	movb	%cl, 7(%rbp)
	jmp	.LBB58_34
.LBB58_2:
	movzbl	(%rcx), %ecx
	movb	%cl, 4(%rbp)
	movl	$131077, (%rbp)
	movw	$0, 5(%rbp)
	movb	$0, 7(%rbp)
	jmp	.LBB58_3
.LBB58_20:
	movq	%rdi, %rdx
	subq	%rcx, %rdx
	cmpq	$3, %rdx
	ja	.LBB58_37
	movzbl	4(%r14), %ecx
	movb	%cl, 4(%rbp)
	movzbl	5(%r14), %ecx
	movb	%cl, 5(%rbp)
	movzbl	6(%r14), %ecx
	movb	%cl, 6(%rbp)
	movzbl	7(%r14), %ecx
	movb	%cl, 7(%rbp)
	jmp	.LBB58_38
.LBB58_22:
	movq	%rdi, %rdx
	subq	%rcx, %rdx
	cmpq	$3, %rdx
	ja	.LBB58_39
	movzbl	4(%r14), %ecx
	movb	%cl, 4(%rbp)
	movzbl	5(%r14), %ecx
	movb	%cl, 5(%rbp)
	movzbl	6(%r14), %ecx
	movb	%cl, 6(%rbp)
	movzbl	7(%r14), %ecx
	movb	%cl, 7(%rbp)
	jmp	.LBB58_40
.LBB58_24:
	leaq	-4(%rbx), %rdx
	movq	%rdi, %r11
	subq	%rcx, %r11
	cmpq	%rdx, %r11
	jae	.LBB58_41
	cmpl	$4, %edx
	jb	.LBB58_26
	movq	%rbp, %r10
	subq	%r8, %r10
	subq	%r9, %r10
	cmpq	$32, %r10
	jae	.LBB58_44
.LBB58_26:
	xorl	%r10d, %r10d
.LBB58_53:
	movq	%rbx, %r15
	movq	%r10, %r11
	andq	$3, %r15
	je	.LBB58_56
	movq	%r10, %r11
	.p2align	4
.LBB58_55:
	movzbl	(%rcx,%r11), %edx
	movb	%dl, (%rdi,%r11)
	incq	%r11
	decq	%r15
	jne	.LBB58_55
.LBB58_56:
	negq	%r10
	leaq	(%rbx,%r10), %rcx
	addq	$-5, %rcx
	cmpl	$3, %ecx
	leaq	-4(%rbx), %r10
	jb	.LBB58_59
	leaq	(%r8,%r9), %rcx
	addq	$7, %rcx
	movq	32(%rsp), %rdx
	leaq	(%rdx,%rax), %rdi
	.p2align	4
.LBB58_58:
	movzbl	-3(%rcx,%r11), %edx
	movb	%dl, -3(%rdi,%r11)
	movzbl	-2(%rcx,%r11), %edx
	movb	%dl, -2(%rdi,%r11)
	movzbl	-1(%rcx,%r11), %edx
	movb	%dl, -1(%rdi,%r11)
	movzbl	(%rcx,%r11), %edx
	movb	%dl, (%rdi,%r11)
	addq	$4, %r11
	cmpq	%r11, %r10
	jne	.LBB58_58
	jmp	.LBB58_59
.LBB58_27:
	movl	(%rcx), %ecx
	movl	%ecx, (%rdi)
.LBB58_28:
	movl	$327688, (%rbp)
	jmp	.LBB58_3
.LBB58_29:
	movl	(%rcx), %ecx
	movl	%ecx, (%rdi)
.LBB58_30:
	movl	$196616, (%rbp)
	jmp	.LBB58_3
.LBB58_31:
	movl	(%rcx), %ecx
	movl	%ecx, (%rdi)
.LBB58_32:
	movl	$262152, (%rbp)
	jmp	.LBB58_3
.LBB58_33:
	movl	(%rcx), %ecx
	movl	%ecx, (%rdi)
.LBB58_34:
	movl	$524296, (%rbp)
	jmp	.LBB58_3
.LBB58_35:
	movl	(%rcx), %ecx
	movl	%ecx, (%rdi)
.LBB58_36:
	movl	$65544, (%rbp)
	jmp	.LBB58_3
.LBB58_37:
	movl	(%rcx), %ecx
	movl	%ecx, (%rdi)
.LBB58_38:
	movl	$393224, (%rbp)
	jmp	.LBB58_3
.LBB58_39:
	movl	(%rcx), %ecx
	movl	%ecx, (%rdi)
.LBB58_40:
	movl	$458760, (%rbp)
	.p2align	4
.LBB58_3:
	movl	$8, %ecx
.LBB58_4:
	addq	%rcx, %rax
	cmpq	%r13, %rsi
	ja	.LBB58_5
	jmp	.LBB58_65
.LBB58_41:
	movq	%rsi, 24(%rsp)
	movq	%rcx, %rsi
	movq	%rax, %r15
	callq	memmove@PLT
	movq	24(%rsp), %rsi
	movq	%r15, %rax
.LBB58_59:
	movw	%bx, (%rbp)
	movw	%r12w, 2(%rbp)
	movq	%r13, %rdx
	subq	%rbx, %rdx
	cmpq	$3, %rdx
	je	.LBB58_64
	cmpl	$2, %edx
	movq	8(%rsp), %r10
	je	.LBB58_63
	movq	%r13, %rcx
	cmpl	$1, %edx
	jne	.LBB58_4
	movb	$0, (%rbp,%rbx)
	movq	%r13, %rcx
	jmp	.LBB58_4
.LBB58_63:
	movw	$0, (%rbp,%rbx)
	movq	%r13, %rcx
	jmp	.LBB58_4
.LBB58_64:
	movw	$0, (%rbp,%rbx)
	movb	$0, 2(%rbp,%rbx)
	movq	%r13, %rcx
	movq	8(%rsp), %r10
	jmp	.LBB58_4
.LBB58_44:
	cmpl	$32, %edx
	jae	.LBB58_46
	xorl	%r10d, %r10d
	jmp	.LBB58_50
.LBB58_46:
	movq	%rdx, %r10
	andq	$-32, %r10
	leaq	(%r8,%r9), %rdx
	addq	$20, %rdx
	movq	16(%rsp), %r11
	leaq	(%r11,%rax), %r15
	xorl	%r11d, %r11d
	.p2align	4
.LBB58_47:
	movups	-16(%rdx,%r11), %xmm0
	movups	(%rdx,%r11), %xmm1
	movups	%xmm0, -16(%r15,%r11)
	movups	%xmm1, (%r15,%r11)
	addq	$32, %r11
	cmpq	%r11, %r10
	jne	.LBB58_47
	leaq	-4(%rbx), %rdx
	cmpl	%r10d, %edx
	je	.LBB58_59
	testb	$28, %dl
	je	.LBB58_53
.LBB58_50:
	movq	%r10, %r15
	movq	%rdx, %r10
	andq	$-4, %r10
	.p2align	4
.LBB58_51:
	movl	(%rcx,%r15), %r11d
	movl	%r11d, (%rdi,%r15)
	addq	$4, %r15
	cmpq	%r15, %r10
	jne	.LBB58_51
	cmpl	%r10d, %edx
	je	.LBB58_59
	jmp	.LBB58_53
.LBB58_65:
	addq	$40, %rsp
	.cfi_def_cfa_offset 56
	popq	%rbx
	.cfi_def_cfa_offset 48
	popq	%r12
	.cfi_def_cfa_offset 40
	popq	%r13
	.cfi_def_cfa_offset 32
	popq	%r14
	.cfi_def_cfa_offset 24
	popq	%r15
	.cfi_def_cfa_offset 16
	popq	%rbp
	.cfi_def_cfa_offset 8
	.cfi_restore %rbx
	.cfi_restore %r12
	.cfi_restore %r13
	.cfi_restore %r14
	.cfi_restore %r15
	.cfi_restore %rbp
	retq
.LBB58_66:
	xorl	%eax, %eax
	retq
.Lfunc_end58:
	.size	nla_wire.members.write_each.8ba1f663fcd59a5e, .Lfunc_end58-nla_wire.members.write_each.8ba1f663fcd59a5e
	.cfi_endproc
	.section	.rodata.nla_wire.members.write_each.8ba1f663fcd59a5e,"a",@progbits
	.p2align	2, 0x0
.LJTI58_0:
	.long	.LBB58_10-.LJTI58_0
	.long	.LBB58_2-.LJTI58_0
	.long	.LBB58_14-.LJTI58_0
	.long	.LBB58_16-.LJTI58_0
	.long	.LBB58_12-.LJTI58_0
	.long	.LBB58_20-.LJTI58_0
	.long	.LBB58_22-.LJTI58_0
	.long	.LBB58_18-.LJTI58_0

	.section	.text.nla_wire.members.write_each.b30b196c481b950e,"ax",@progbits
	.p2align	4
	.type	nla_wire.members.write_each.b30b196c481b950e,@function
nla_wire.members.write_each.b30b196c481b950e:
	.cfi_startproc
	pushq	%rbp
	.cfi_def_cfa_offset 16
	pushq	%r15
	.cfi_def_cfa_offset 24
	pushq	%r14
	.cfi_def_cfa_offset 32
	pushq	%r13
	.cfi_def_cfa_offset 40
	pushq	%r12
	.cfi_def_cfa_offset 48
	pushq	%rbx
	.cfi_def_cfa_offset 56
	subq	$40, %rsp
	.cfi_def_cfa_offset 96
	.cfi_offset %rbx, -56
	.cfi_offset %r12, -48
	.cfi_offset %r13, -40
	.cfi_offset %r14, -32
	.cfi_offset %r15, -24
	.cfi_offset %rbp, -16
	testq	%rsi, %rsi
	je	.LBB59_79
	movq	%rsi, %r15
	movq	%rdi, %r12
	leaq	20(%rdx), %rax
	movq	%rax, 8(%rsp)
	leaq	7(%rdx), %rax
	movq	%rax, 16(%rsp)
	xorl	%ebx, %ebx
	xorl	%r11d, %r11d
	movq	%rdx, (%rsp)
	jmp	.LBB59_5
.LBB59_77:
	movw	$0, (%r10,%rax)
	.p2align	4
.LBB59_4:
	addq	%rbp, %rbx
	cmpq	%r11, %r15
	jbe	.LBB59_80
.LBB59_5:
	subq	%r11, %r15
	cmpq	$4, %r15
	jb	.LBB59_80
	movq	%r12, %rax
	movq	%r11, %rcx
	addq	%r11, %r12
	movzwl	(%r12), %r13d
	cmpw	$4, %r13w
	jb	.LBB59_80
	cmpq	%r13, %r15
	jb	.LBB59_80
	movzwl	2(%r12), %r14d
	leaq	4(%r12), %rsi
	leaq	-4(%r13), %rbp
	leal	3(%r13), %r11d
	andl	$-4, %r11d
	leaq	(%rdx,%rbx), %r10
	movl	%r14d, %edi
	andl	$16383, %edi
	cmpw	$53, %di
	jne	.LBB59_22
	testq	%rbp, %rbp
	je	.LBB59_11
	cmpb	$0, -5(%rsi,%r13)
	je	.LBB59_29
.LBB59_11:
	leaq	4(%r10), %rdi
	cmpl	$4, %ebp
	jae	.LBB59_30
.LBB59_12:
	movq	%rdi, %r8
	subq	%rsi, %r8
	cmpq	%rbp, %r8
	jae	.LBB59_26
	cmpl	$4, %ebp
	jb	.LBB59_15
	movq	%r10, %r8
	subq	%rax, %r8
	subq	%rcx, %r8
	cmpq	$32, %r8
	jae	.LBB59_42
.LBB59_15:
	movq	%r11, %r14
	xorl	%r11d, %r11d
.LBB59_16:
	movq	%r10, %r13
	movq	%rbp, %r9
	movq	%r11, %r8
	andq	$3, %r9
	je	.LBB59_19
	movq	%r11, %r8
	.p2align	4
.LBB59_18:
	movzbl	(%rsi,%r8), %r10d
	movb	%r10b, (%rdi,%r8)
	incq	%r8
	decq	%r9
	jne	.LBB59_18
.LBB59_19:
	subl	%ebp, %r11d
	cmpl	$-4, %r11d
	movq	%r13, %r10
	ja	.LBB59_73
	addq	%rcx, %rax
	addq	$7, %rax
	movq	16(%rsp), %rcx
	addq	%rbx, %rcx
	.p2align	4
.LBB59_21:
	movzbl	-3(%rax,%r8), %esi
	movb	%sil, -3(%rcx,%r8)
	movzbl	-2(%rax,%r8), %esi
	movb	%sil, -2(%rcx,%r8)
	movzbl	-1(%rax,%r8), %esi
	movb	%sil, -1(%rcx,%r8)
	movzbl	(%rax,%r8), %esi
	movb	%sil, (%rcx,%r8)
	addq	$4, %r8
	cmpq	%r8, %rbp
	jne	.LBB59_21
	jmp	.LBB59_73
	.p2align	4
.LBB59_22:
	leaq	4(%r10), %rdi
	movq	%rdi, %rdx
	subq	%rsi, %rdx
	cmpq	%rbp, %rdx
	movq	%r12, 32(%rsp)
	jae	.LBB59_25
	cmpl	$4, %ebp
	movq	%r10, 24(%rsp)
	jb	.LBB59_24
	movq	%r10, %r8
	subq	%rax, %r8
	subq	%rcx, %r8
	cmpq	$32, %r8
	jae	.LBB59_36
.LBB59_24:
	xorl	%edx, %edx
.LBB59_54:
	movq	%r13, %r9
	movq	%rdx, %r8
	andq	$3, %r9
	je	.LBB59_57
	movq	%rdx, %r8
	.p2align	4
.LBB59_56:
	movzbl	(%rsi,%r8), %r10d
	movb	%r10b, (%rdi,%r8)
	incq	%r8
	decq	%r9
	jne	.LBB59_56
.LBB59_57:
	negq	%rdx
	addq	%r13, %rdx
	addq	$-5, %rdx
	cmpl	$3, %edx
	movq	24(%rsp), %r10
	jb	.LBB59_60
	addq	%rcx, %rax
	addq	$7, %rax
	movq	16(%rsp), %rcx
	addq	%rbx, %rcx
	.p2align	4
.LBB59_59:
	movzbl	-3(%rax,%r8), %edx
	movb	%dl, -3(%rcx,%r8)
	movzbl	-2(%rax,%r8), %edx
	movb	%dl, -2(%rcx,%r8)
	movzbl	-1(%rax,%r8), %edx
	movb	%dl, -1(%rcx,%r8)
	movzbl	(%rax,%r8), %edx
	movb	%dl, (%rcx,%r8)
	addq	$4, %r8
	cmpq	%r8, %rbp
	jne	.LBB59_59
	jmp	.LBB59_60
	.p2align	4
.LBB59_25:
	movq	%rbp, %rdx
	movq	%r11, %rbp
	movl	%r14d, %r12d
	movq	%rbx, %r14
	movq	%r10, %rbx
	callq	memmove@PLT
	movq	%rbx, %r10
	movq	%r14, %rbx
	movl	%r12d, %r14d
	movq	%rbp, %r11
.LBB59_60:
	movw	%r13w, (%r10)
	movw	%r14w, 2(%r10)
	movq	%r11, %rax
	subq	%r13, %rax
	cmpq	$3, %rax
	je	.LBB59_64
	cmpl	$2, %eax
	movq	(%rsp), %rdx
	movq	32(%rsp), %r12
	je	.LBB59_2
	movq	%r11, %rbp
	cmpl	$1, %eax
	jne	.LBB59_4
	movb	$0, (%r10,%r13)
	jmp	.LBB59_3
.LBB59_26:
	movq	%r11, %r14
	movq	%rbp, %rdx
	movq	%r10, %r13
	callq	memmove@PLT
	movq	%r13, %r10
	movq	(%rsp), %rdx
	jmp	.LBB59_73
.LBB59_2:
	movw	$0, (%r10,%r13)
.LBB59_3:
	movq	%r11, %rbp
	jmp	.LBB59_4
.LBB59_64:
	movw	$0, (%r10,%r13)
	movb	$0, 2(%r10,%r13)
	movq	%r11, %rbp
	movq	(%rsp), %rdx
	movq	32(%rsp), %r12
	jmp	.LBB59_4
.LBB59_29:
	addq	$-5, %r13
	movq	%r13, %rbp
	leaq	4(%r10), %rdi
	cmpl	$4, %ebp
	jb	.LBB59_12
.LBB59_30:
	cmpl	$7, %ebp
	ja	.LBB59_33
	movq	%rdi, %rax
	subq	%rsi, %rax
	movq	%r11, %r14
	cmpq	$3, %rax
	ja	.LBB59_38
	movzbl	4(%r12), %eax
	movb	%al, 4(%r10)
	movzbl	5(%r12), %eax
	movb	%al, 5(%r10)
	movzbl	6(%r12), %eax
	movb	%al, 6(%r10)
	movzbl	7(%r12), %eax
	movb	%al, 7(%r10)
	jmp	.LBB59_39
.LBB59_33:
	cmpl	$16, %ebp
	ja	.LBB59_12
	movq	%rdi, %rax
	subq	%rsi, %rax
	movq	%r11, %r14
	cmpq	$7, %rax
	ja	.LBB59_44
	movzbl	4(%r12), %eax
	movb	%al, 4(%r10)
	movzbl	5(%r12), %eax
	movb	%al, 5(%r10)
	movzbl	6(%r12), %eax
	movb	%al, 6(%r10)
	movzbl	7(%r12), %eax
	movb	%al, 7(%r10)
	movzbl	8(%r12), %eax
	movb	%al, 8(%r10)
	movzbl	9(%r12), %eax
	movb	%al, 9(%r10)
	movzbl	10(%r12), %eax
	movb	%al, 10(%r10)
	movzbl	11(%r12), %eax
	movb	%al, 11(%r10)
	jmp	.LBB59_45
.LBB59_36:
	cmpl	$32, %ebp
	jae	.LBB59_47
	xorl	%edx, %edx
	jmp	.LBB59_51
.LBB59_38:
	movl	(%rsi), %eax
	movl	%eax, (%rdi)
.LBB59_39:
	leaq	(%r10,%rbp), %rax
	leaq	(%rsi,%rbp), %rcx
	addq	$-4, %rcx
	movq	%rax, %rdi
	subq	%rcx, %rdi
	cmpq	$3, %rdi
	ja	.LBB59_41
	addq	%rbp, %rsi
	movzbl	-4(%rsi), %ecx
	movb	%cl, (%rax)
	movzbl	-3(%rsi), %ecx
	movb	%cl, 1(%rax)
	movzbl	-2(%rsi), %ecx
	movb	%cl, 2(%rax)
	movzbl	-1(%rsi), %ecx
	movb	%cl, 3(%rax)
	jmp	.LBB59_73
.LBB59_41:
	movl	(%rcx), %ecx
	movl	%ecx, (%rax)
	jmp	.LBB59_73
.LBB59_42:
	movq	%r11, %r14
	cmpl	$32, %ebp
	jae	.LBB59_66
	xorl	%r11d, %r11d
	jmp	.LBB59_70
.LBB59_44:
	movq	(%rsi), %rax
	movq	%rax, (%rdi)
.LBB59_45:
	leaq	-8(%rbp), %rax
	addq	%rax, %rdi
	addq	%rax, %rsi
	movq	%rdi, %rax
	subq	%rsi, %rax
	cmpq	$7, %rax
	ja	.LBB59_65
	movzbl	(%rsi), %eax
	movb	%al, (%rdi)
	movzbl	1(%rsi), %eax
	movb	%al, 1(%rdi)
	movzbl	2(%rsi), %eax
	movb	%al, 2(%rdi)
	movzbl	3(%rsi), %eax
	movb	%al, 3(%rdi)
	movzbl	4(%rsi), %eax
	movb	%al, 4(%rdi)
	movzbl	5(%rsi), %eax
	movb	%al, 5(%rdi)
	movzbl	6(%rsi), %eax
	movb	%al, 6(%rdi)
	movzbl	7(%rsi), %eax
	movb	%al, 7(%rdi)
	jmp	.LBB59_73
.LBB59_47:
	movq	%rbp, %rdx
	andq	$-32, %rdx
	leaq	(%rax,%rcx), %r8
	addq	$20, %r8
	movq	8(%rsp), %r9
	addq	%rbx, %r9
	xorl	%r10d, %r10d
	.p2align	4
.LBB59_48:
	movups	-16(%r8,%r10), %xmm0
	movups	(%r8,%r10), %xmm1
	movups	%xmm0, -16(%r9,%r10)
	movups	%xmm1, (%r9,%r10)
	addq	$32, %r10
	cmpq	%r10, %rdx
	jne	.LBB59_48
	cmpl	%edx, %ebp
	movq	24(%rsp), %r10
	je	.LBB59_60
	testb	$28, %bpl
	je	.LBB59_54
.LBB59_51:
	movq	%rdx, %r8
	movq	%rbp, %rdx
	andq	$-4, %rdx
	.p2align	4
.LBB59_52:
	movl	(%rsi,%r8), %r9d
	movl	%r9d, (%rdi,%r8)
	addq	$4, %r8
	cmpq	%r8, %rdx
	jne	.LBB59_52
	cmpl	%edx, %ebp
	je	.LBB59_60
	jmp	.LBB59_54
.LBB59_65:
	movq	(%rsi), %rax
	movq	%rax, (%rdi)
	jmp	.LBB59_73
.LBB59_66:
	movq	%r10, %r13
	movq	%rbp, %r11
	andq	$-32, %r11
	leaq	(%rax,%rcx), %r8
	addq	$20, %r8
	movq	8(%rsp), %r9
	addq	%rbx, %r9
	xorl	%r10d, %r10d
	.p2align	4
.LBB59_67:
	movups	-16(%r8,%r10), %xmm0
	movups	(%r8,%r10), %xmm1
	movups	%xmm0, -16(%r9,%r10)
	movups	%xmm1, (%r9,%r10)
	addq	$32, %r10
	cmpq	%r10, %r11
	jne	.LBB59_67
	cmpl	%r11d, %ebp
	movq	%r13, %r10
	je	.LBB59_73
	testb	$28, %bpl
	je	.LBB59_16
.LBB59_70:
	movq	%r11, %r8
	movq	%rbp, %r11
	andq	$-4, %r11
	.p2align	4
.LBB59_71:
	movl	(%rsi,%r8), %r9d
	movl	%r9d, (%rdi,%r8)
	addq	$4, %r8
	cmpq	%r8, %r11
	jne	.LBB59_71
	cmpl	%r11d, %ebp
	jne	.LBB59_16
	.p2align	4
.LBB59_73:
	movb	$0, 4(%r10,%rbp)
	leaq	5(%rbp), %rax
	andq	$-4, %rbp
	addq	$8, %rbp
	movw	%ax, (%r10)
	movw	$53, 2(%r10)
	movq	%rbp, %rcx
	subq	%rax, %rcx
	cmpq	$3, %rcx
	je	.LBB59_78
	cmpl	$2, %ecx
	movq	%r14, %r11
	je	.LBB59_77
	cmpl	$1, %ecx
	jne	.LBB59_4
	movb	$0, (%r10,%rax)
	jmp	.LBB59_4
.LBB59_78:
	movw	$0, (%r10,%rax)
	movb	$0, 2(%r10,%rax)
	movq	%r14, %r11
	jmp	.LBB59_4
.LBB59_79:
	xorl	%ebx, %ebx
.LBB59_80:
	movq	%rbx, %rax
	addq	$40, %rsp
	.cfi_def_cfa_offset 56
	popq	%rbx
	.cfi_def_cfa_offset 48
	popq	%r12
	.cfi_def_cfa_offset 40
	popq	%r13
	.cfi_def_cfa_offset 32
	popq	%r14
	.cfi_def_cfa_offset 24
	popq	%r15
	.cfi_def_cfa_offset 16
	popq	%rbp
	.cfi_def_cfa_offset 8
	retq
.Lfunc_end59:
	.size	nla_wire.members.write_each.b30b196c481b950e, .Lfunc_end59-nla_wire.members.write_each.b30b196c481b950e
	.cfi_endproc

	.section	.text.nla_wire.members.write_each.f7f30aae703aa44d,"ax",@progbits
	.p2align	4
	.type	nla_wire.members.write_each.f7f30aae703aa44d,@function
nla_wire.members.write_each.f7f30aae703aa44d:
	.cfi_startproc
	pushq	%rbp
	.cfi_def_cfa_offset 16
	pushq	%r15
	.cfi_def_cfa_offset 24
	pushq	%r14
	.cfi_def_cfa_offset 32
	pushq	%r13
	.cfi_def_cfa_offset 40
	pushq	%r12
	.cfi_def_cfa_offset 48
	pushq	%rbx
	.cfi_def_cfa_offset 56
	subq	$40, %rsp
	.cfi_def_cfa_offset 96
	.cfi_offset %rbx, -56
	.cfi_offset %r12, -48
	.cfi_offset %r13, -40
	.cfi_offset %r14, -32
	.cfi_offset %r15, -24
	.cfi_offset %rbp, -16
	testq	%rsi, %rsi
	je	.LBB60_45
	movq	%rdx, %r11
	movq	%rsi, %r15
	movq	%rdi, %r12
	leaq	20(%rdx), %rax
	movq	%rax, 16(%rsp)
	leaq	7(%rdx), %rax
	movq	%rax, 24(%rsp)
	xorl	%ebx, %ebx
	xorl	%r13d, %r13d
	movq	%rdx, 8(%rsp)
	jmp	.LBB60_6
.LBB60_2:
	movl	(%rsi), %eax
	movl	%eax, (%rdi)
.LBB60_3:
	movl	$65544, (%r10)
.LBB60_4:
	movl	$8, %eax
.LBB60_5:
	addq	%rax, %rbx
	cmpq	%r13, %r15
	jbe	.LBB60_46
.LBB60_6:
	subq	%r13, %r15
	cmpq	$4, %r15
	jb	.LBB60_46
	movq	%r12, %rax
	movq	%r13, %rcx
	addq	%r13, %r12
	movzwl	(%r12), %r14d
	cmpw	$4, %r14w
	jb	.LBB60_46
	cmpq	%r14, %r15
	jb	.LBB60_46
	movzwl	2(%r12), %ebp
	leaq	4(%r12), %rsi
	leal	3(%r14), %r13d
	andl	$-4, %r13d
	leaq	(%r11,%rbx), %r10
	movl	%ebp, %edx
	andl	$16383, %edx
	leaq	(%r11,%rbx), %rdi
	addq	$4, %rdi
	movq	%rdi, %r8
	subq	%rsi, %r8
	cmpl	$2, %edx
	je	.LBB60_13
	cmpl	$1, %edx
	jne	.LBB60_15
	cmpq	$3, %r8
	ja	.LBB60_2
	movzbl	4(%r12), %eax
	movb	%al, 4(%r10)
	movzbl	5(%r12), %eax
	movb	%al, 5(%r10)
	movzbl	6(%r12), %eax
	movb	%al, 6(%r10)
	movzbl	7(%r12), %eax
	movb	%al, 7(%r10)
	jmp	.LBB60_3
	.p2align	4
.LBB60_13:
	cmpq	$3, %r8
	ja	.LBB60_18
	movzbl	4(%r12), %eax
	movb	%al, 4(%r10)
	movzbl	5(%r12), %eax
	movb	%al, 5(%r10)
	movzbl	6(%r12), %eax
	movb	%al, 6(%r10)
	movzbl	7(%r12), %eax
	movb	%al, 7(%r10)
	jmp	.LBB60_19
	.p2align	4
.LBB60_15:
	leaq	-4(%r14), %rdx
	cmpq	%rdx, %r8
	movq	%r10, 32(%rsp)
	jae	.LBB60_20
	cmpl	$4, %edx
	jb	.LBB60_17
	movq	%r10, %r9
	subq	%rax, %r9
	subq	%rcx, %r9
	cmpq	$32, %r9
	jae	.LBB60_23
.LBB60_17:
	xorl	%r8d, %r8d
.LBB60_32:
	movq	%r14, %r10
	movq	%r8, %r9
	andq	$3, %r10
	je	.LBB60_35
	movq	%r8, %r9
	.p2align	4
.LBB60_34:
	movzbl	(%rsi,%r9), %r11d
	movb	%r11b, (%rdi,%r9)
	incq	%r9
	decq	%r10
	jne	.LBB60_34
.LBB60_35:
	negq	%r8
	leaq	(%r14,%r8), %rsi
	addq	$-5, %rsi
	cmpl	$3, %esi
	movq	8(%rsp), %r11
	jb	.LBB60_38
	addq	%rcx, %rax
	addq	$7, %rax
	movq	24(%rsp), %rcx
	addq	%rbx, %rcx
	.p2align	4
.LBB60_37:
	movzbl	-3(%rax,%r9), %esi
	movb	%sil, -3(%rcx,%r9)
	movzbl	-2(%rax,%r9), %esi
	movb	%sil, -2(%rcx,%r9)
	movzbl	-1(%rax,%r9), %esi
	movb	%sil, -1(%rcx,%r9)
	movzbl	(%rax,%r9), %esi
	movb	%sil, (%rcx,%r9)
	addq	$4, %r9
	cmpq	%r9, %rdx
	jne	.LBB60_37
	jmp	.LBB60_38
.LBB60_18:
	movl	(%rsi), %eax
	movl	%eax, (%rdi)
.LBB60_19:
	movl	$131080, (%r10)
	jmp	.LBB60_4
.LBB60_20:
	callq	memmove@PLT
	movq	8(%rsp), %r11
.LBB60_38:
	movq	32(%rsp), %rdx
	movw	%r14w, (%rdx)
	movw	%bp, 2(%rdx)
	movq	%r13, %rcx
	subq	%r14, %rcx
	cmpq	$3, %rcx
	je	.LBB60_43
	cmpl	$2, %ecx
	je	.LBB60_42
	movq	%r13, %rax
	cmpl	$1, %ecx
	jne	.LBB60_5
	movb	$0, (%rdx,%r14)
	jmp	.LBB60_44
.LBB60_42:
	movw	$0, (%rdx,%r14)
	jmp	.LBB60_44
.LBB60_43:
	movw	$0, (%rdx,%r14)
	movb	$0, 2(%rdx,%r14)
.LBB60_44:
	movq	%r13, %rax
	jmp	.LBB60_5
.LBB60_23:
	cmpl	$32, %edx
	jae	.LBB60_25
	xorl	%r8d, %r8d
	jmp	.LBB60_29
.LBB60_25:
	movq	%rdx, %r8
	andq	$-32, %r8
	leaq	(%rax,%rcx), %r9
	addq	$20, %r9
	movq	16(%rsp), %r10
	addq	%rbx, %r10
	xorl	%r11d, %r11d
	.p2align	4
.LBB60_26:
	movups	-16(%r9,%r11), %xmm0
	movups	(%r9,%r11), %xmm1
	movups	%xmm0, -16(%r10,%r11)
	movups	%xmm1, (%r10,%r11)
	addq	$32, %r11
	cmpq	%r11, %r8
	jne	.LBB60_26
	cmpl	%r8d, %edx
	movq	8(%rsp), %r11
	je	.LBB60_38
	testb	$28, %dl
	je	.LBB60_32
.LBB60_29:
	movq	%r8, %r9
	movq	%rdx, %r8
	andq	$-4, %r8
	.p2align	4
.LBB60_30:
	movl	(%rsi,%r9), %r10d
	movl	%r10d, (%rdi,%r9)
	addq	$4, %r9
	cmpq	%r9, %r8
	jne	.LBB60_30
	cmpl	%r8d, %edx
	je	.LBB60_38
	jmp	.LBB60_32
.LBB60_45:
	xorl	%ebx, %ebx
.LBB60_46:
	movq	%rbx, %rax
	addq	$40, %rsp
	.cfi_def_cfa_offset 56
	popq	%rbx
	.cfi_def_cfa_offset 48
	popq	%r12
	.cfi_def_cfa_offset 40
	popq	%r13
	.cfi_def_cfa_offset 32
	popq	%r14
	.cfi_def_cfa_offset 24
	popq	%r15
	.cfi_def_cfa_offset 16
	popq	%rbp
	.cfi_def_cfa_offset 8
	retq
.Lfunc_end60:
	.size	nla_wire.members.write_each.f7f30aae703aa44d, .Lfunc_end60-nla_wire.members.write_each.f7f30aae703aa44d
	.cfi_endproc

	.section	.text.nla_wire.members.write_each.16a873d75d6df2a1,"ax",@progbits
	.p2align	4
	.type	nla_wire.members.write_each.16a873d75d6df2a1,@function
nla_wire.members.write_each.16a873d75d6df2a1:
	.cfi_startproc
	pushq	%rbp
	.cfi_def_cfa_offset 16
	pushq	%r15
	.cfi_def_cfa_offset 24
	pushq	%r14
	.cfi_def_cfa_offset 32
	pushq	%r13
	.cfi_def_cfa_offset 40
	pushq	%r12
	.cfi_def_cfa_offset 48
	pushq	%rbx
	.cfi_def_cfa_offset 56
	subq	$40, %rsp
	.cfi_def_cfa_offset 96
	.cfi_offset %rbx, -56
	.cfi_offset %r12, -48
	.cfi_offset %r13, -40
	.cfi_offset %r14, -32
	.cfi_offset %r15, -24
	.cfi_offset %rbp, -16
	movq	%rdx, 24(%rsp)
	testq	%rsi, %rsi
	je	.LBB61_125
	movq	%rsi, %r15
	movq	%rdi, %r12
	movq	24(%rsp), %rcx
	leaq	20(%rcx), %rax
	movq	%rax, (%rsp)
	leaq	7(%rcx), %rax
	movq	%rax, 8(%rsp)
	xorl	%ebx, %ebx
	xorl	%r10d, %r10d
	jmp	.LBB61_4
.LBB61_124:
	movw	$0, (%r11,%rax)
	.p2align	4
.LBB61_3:
	addq	%rbp, %rbx
	cmpq	%r10, %r15
	jbe	.LBB61_126
.LBB61_4:
	subq	%r10, %r15
	cmpq	$4, %r15
	jb	.LBB61_126
	movq	%r12, %rax
	movq	%r10, %rcx
	addq	%r10, %r12
	movzwl	(%r12), %r13d
	cmpw	$4, %r13w
	jb	.LBB61_126
	cmpq	%r13, %r15
	jb	.LBB61_126
	movzwl	2(%r12), %r14d
	leaq	4(%r12), %rsi
	leal	3(%r13), %r10d
	andl	$-4, %r10d
	movq	24(%rsp), %rdx
	leaq	(%rdx,%rbx), %r11
	movl	%r14d, %edx
	andl	$16383, %edx
	cmpl	$3, %edx
	je	.LBB61_22
	leaq	-4(%r13), %rbp
	cmpl	$2, %edx
	je	.LBB61_16
	cmpl	$1, %edx
	jne	.LBB61_24
	testq	%rbp, %rbp
	je	.LBB61_12
	cmpb	$0, -5(%rsi,%r13)
	je	.LBB61_42
.LBB61_12:
	leaq	4(%r11), %rdi
	cmpl	$4, %ebp
	jae	.LBB61_43
.LBB61_13:
	movq	%rdi, %rdx
	subq	%rsi, %rdx
	cmpq	%rbp, %rdx
	jae	.LBB61_31
	cmpl	$4, %ebp
	jb	.LBB61_15
	movq	%r11, %r8
	subq	%rax, %r8
	subq	%rcx, %r8
	cmpq	$32, %r8
	jae	.LBB61_53
.LBB61_15:
	xorl	%edx, %edx
.LBB61_114:
	movq	%r10, %r14
	movq	%rbp, %r9
	movq	%rdx, %r8
	andq	$3, %r9
	je	.LBB61_117
	movq	%rdx, %r8
	.p2align	4
.LBB61_116:
	movzbl	(%rsi,%r8), %r10d
	movb	%r10b, (%rdi,%r8)
	incq	%r8
	decq	%r9
	jne	.LBB61_116
.LBB61_117:
	subl	%ebp, %edx
	cmpl	$-4, %edx
	movq	%r14, %r10
	ja	.LBB61_120
	addq	%rcx, %rax
	addq	$7, %rax
	movq	8(%rsp), %rcx
	addq	%rbx, %rcx
	.p2align	4
.LBB61_119:
	movzbl	-3(%rax,%r8), %edx
	movb	%dl, -3(%rcx,%r8)
	movzbl	-2(%rax,%r8), %edx
	movb	%dl, -2(%rcx,%r8)
	movzbl	-1(%rax,%r8), %edx
	movb	%dl, -1(%rcx,%r8)
	movzbl	(%rax,%r8), %edx
	movb	%dl, (%rcx,%r8)
	addq	$4, %r8
	cmpq	%r8, %rbp
	jne	.LBB61_119
	jmp	.LBB61_120
	.p2align	4
.LBB61_16:
	testq	%rbp, %rbp
	je	.LBB61_18
	cmpb	$0, -5(%rsi,%r13)
	je	.LBB61_35
.LBB61_18:
	leaq	4(%r11), %rdi
	cmpl	$4, %ebp
	jae	.LBB61_36
.LBB61_19:
	movq	%rdi, %rdx
	subq	%rsi, %rdx
	cmpq	%rbp, %rdx
	jae	.LBB61_30
	cmpl	$4, %ebp
	jb	.LBB61_21
	movq	%r11, %r8
	subq	%rax, %r8
	subq	%rcx, %r8
	cmpq	$32, %r8
	jae	.LBB61_50
.LBB61_21:
	xorl	%edx, %edx
.LBB61_98:
	movq	%r10, %r14
	movq	%rbp, %r9
	movq	%rdx, %r8
	andq	$3, %r9
	je	.LBB61_101
	movq	%rdx, %r8
	.p2align	4
.LBB61_100:
	movzbl	(%rsi,%r8), %r10d
	movb	%r10b, (%rdi,%r8)
	incq	%r8
	decq	%r9
	jne	.LBB61_100
.LBB61_101:
	subl	%ebp, %edx
	cmpl	$-4, %edx
	movq	%r14, %r10
	ja	.LBB61_104
	addq	%rcx, %rax
	addq	$7, %rax
	movq	8(%rsp), %rcx
	addq	%rbx, %rcx
	.p2align	4
.LBB61_103:
	movzbl	-3(%rax,%r8), %edx
	movb	%dl, -3(%rcx,%r8)
	movzbl	-2(%rax,%r8), %edx
	movb	%dl, -2(%rcx,%r8)
	movzbl	-1(%rax,%r8), %edx
	movb	%dl, -1(%rcx,%r8)
	movzbl	(%rax,%r8), %edx
	movb	%dl, (%rcx,%r8)
	addq	$4, %r8
	cmpq	%r8, %rbp
	jne	.LBB61_103
	jmp	.LBB61_104
	.p2align	4
.LBB61_22:
	leaq	4(%r11), %rax
	movq	%rax, %rcx
	subq	%rsi, %rcx
	cmpq	$3, %rcx
	ja	.LBB61_27
	movzbl	4(%r12), %eax
	movb	%al, 4(%r11)
	movzbl	5(%r12), %eax
	movb	%al, 5(%r11)
	movzbl	6(%r12), %eax
	movb	%al, 6(%r11)
	movzbl	7(%r12), %eax
	movb	%al, 7(%r11)
	jmp	.LBB61_28
	.p2align	4
.LBB61_24:
	leaq	4(%r11), %rdi
	movq	%rdi, %rdx
	subq	%rsi, %rdx
	cmpq	%rbp, %rdx
	jae	.LBB61_29
	cmpl	$4, %ebp
	movq	%r11, 16(%rsp)
	jb	.LBB61_26
	movq	%r11, %r8
	subq	%rax, %r8
	subq	%rcx, %r8
	cmpq	$32, %r8
	jae	.LBB61_33
.LBB61_26:
	xorl	%edx, %edx
.LBB61_77:
	movq	%r10, %r11
	movq	%r13, %r9
	movq	%rdx, %r8
	andq	$3, %r9
	je	.LBB61_80
	movq	%rdx, %r8
	.p2align	4
.LBB61_79:
	movzbl	(%rsi,%r8), %r10d
	movb	%r10b, (%rdi,%r8)
	incq	%r8
	decq	%r9
	jne	.LBB61_79
.LBB61_80:
	negq	%rdx
	addq	%r13, %rdx
	addq	$-5, %rdx
	cmpl	$3, %edx
	movq	%r11, %r10
	movq	16(%rsp), %r11
	jb	.LBB61_83
	addq	%rcx, %rax
	addq	$7, %rax
	movq	8(%rsp), %rcx
	addq	%rbx, %rcx
	.p2align	4
.LBB61_82:
	movzbl	-3(%rax,%r8), %edx
	movb	%dl, -3(%rcx,%r8)
	movzbl	-2(%rax,%r8), %edx
	movb	%dl, -2(%rcx,%r8)
	movzbl	-1(%rax,%r8), %edx
	movb	%dl, -1(%rcx,%r8)
	movzbl	(%rax,%r8), %edx
	movb	%dl, (%rcx,%r8)
	addq	$4, %r8
	cmpq	%r8, %rbp
	jne	.LBB61_82
	jmp	.LBB61_83
.LBB61_27:
	movl	(%rsi), %ecx
	movl	%ecx, (%rax)
.LBB61_28:
	movl	$196616, (%r11)
	movl	$8, %ebp
	jmp	.LBB61_3
.LBB61_29:
	movq	%rbp, %rdx
	movq	%r10, %rbp
	movq	%r12, 32(%rsp)
	movq	%rbx, %r12
	movq	%r11, %rbx
	callq	memmove@PLT
	movq	%rbx, %r11
	movq	%r12, %rbx
	movq	32(%rsp), %r12
	movq	%rbp, %r10
.LBB61_83:
	movw	%r13w, (%r11)
	movw	%r14w, 2(%r11)
	movq	%r10, %rax
	subq	%r13, %rax
	cmpq	$3, %rax
	je	.LBB61_88
	cmpl	$2, %eax
	je	.LBB61_87
	movq	%r10, %rbp
	cmpl	$1, %eax
	jne	.LBB61_3
	movb	$0, (%r11,%r13)
	jmp	.LBB61_89
.LBB61_30:
	movq	%rbp, %rdx
	movq	%r10, %r14
	movq	%r11, %r13
	callq	memmove@PLT
	movq	%r13, %r11
	movq	%r14, %r10
	jmp	.LBB61_104
.LBB61_31:
	movq	%rbp, %rdx
	movq	%r10, %r14
	movq	%r11, %r13
	callq	memmove@PLT
	movq	%r13, %r11
	movq	%r14, %r10
	jmp	.LBB61_120
.LBB61_87:
	movw	$0, (%r11,%r13)
	jmp	.LBB61_89
.LBB61_88:
	movw	$0, (%r11,%r13)
	movb	$0, 2(%r11,%r13)
.LBB61_89:
	movq	%r10, %rbp
	jmp	.LBB61_3
.LBB61_35:
	addq	$-5, %r13
	movq	%r13, %rbp
	leaq	4(%r11), %rdi
	cmpl	$4, %ebp
	jb	.LBB61_19
.LBB61_36:
	cmpl	$7, %ebp
	ja	.LBB61_39
	movq	%rdi, %rax
	subq	%rsi, %rax
	cmpq	$3, %rax
	ja	.LBB61_55
	movzbl	4(%r12), %eax
	movb	%al, 4(%r11)
	movzbl	5(%r12), %eax
	movb	%al, 5(%r11)
	movzbl	6(%r12), %eax
	movb	%al, 6(%r11)
	movzbl	7(%r12), %eax
	movb	%al, 7(%r11)
	jmp	.LBB61_56
.LBB61_39:
	cmpl	$16, %ebp
	ja	.LBB61_19
	movq	%rdi, %rax
	subq	%rsi, %rax
	cmpq	$7, %rax
	ja	.LBB61_63
	movzbl	4(%r12), %eax
	movb	%al, 4(%r11)
	movzbl	5(%r12), %eax
	movb	%al, 5(%r11)
	movzbl	6(%r12), %eax
	movb	%al, 6(%r11)
	movzbl	7(%r12), %eax
	movb	%al, 7(%r11)
	movzbl	8(%r12), %eax
	movb	%al, 8(%r11)
	movzbl	9(%r12), %eax
	movb	%al, 9(%r11)
	movzbl	10(%r12), %eax
	movb	%al, 10(%r11)
	movzbl	11(%r12), %eax
	movb	%al, 11(%r11)
	jmp	.LBB61_64
.LBB61_42:
	addq	$-5, %r13
	movq	%r13, %rbp
	leaq	4(%r11), %rdi
	cmpl	$4, %ebp
	jb	.LBB61_13
.LBB61_43:
	cmpl	$7, %ebp
	ja	.LBB61_46
	movq	%rdi, %rax
	subq	%rsi, %rax
	cmpq	$3, %rax
	ja	.LBB61_59
	movzbl	4(%r12), %eax
	movb	%al, 4(%r11)
	movzbl	5(%r12), %eax
	movb	%al, 5(%r11)
	movzbl	6(%r12), %eax
	movb	%al, 6(%r11)
	movzbl	7(%r12), %eax
	movb	%al, 7(%r11)
	jmp	.LBB61_60
.LBB61_46:
	cmpl	$16, %ebp
	ja	.LBB61_13
	movq	%rdi, %rax
	subq	%rsi, %rax
	cmpq	$7, %rax
	ja	.LBB61_67
	movzbl	4(%r12), %eax
	movb	%al, 4(%r11)
	movzbl	5(%r12), %eax
	movb	%al, 5(%r11)
	movzbl	6(%r12), %eax
	movb	%al, 6(%r11)
	movzbl	7(%r12), %eax
	movb	%al, 7(%r11)
	movzbl	8(%r12), %eax
	movb	%al, 8(%r11)
	movzbl	9(%r12), %eax
	movb	%al, 9(%r11)
	movzbl	10(%r12), %eax
	movb	%al, 10(%r11)
	movzbl	11(%r12), %eax
	movb	%al, 11(%r11)
	jmp	.LBB61_68
.LBB61_55:
	movl	(%rsi), %eax
	movl	%eax, (%rdi)
.LBB61_56:
	leaq	(%r11,%rbp), %rax
	leaq	(%rsi,%rbp), %rcx
	addq	$-4, %rcx
	movq	%rax, %rdx
	subq	%rcx, %rdx
	cmpq	$3, %rdx
	ja	.LBB61_58
	addq	%rbp, %rsi
	movzbl	-4(%rsi), %ecx
	movb	%cl, (%rax)
	movzbl	-3(%rsi), %ecx
	movb	%cl, 1(%rax)
	movzbl	-2(%rsi), %ecx
	movb	%cl, 2(%rax)
	movzbl	-1(%rsi), %ecx
	movb	%cl, 3(%rax)
	jmp	.LBB61_104
.LBB61_58:
	movl	(%rcx), %ecx
	movl	%ecx, (%rax)
	jmp	.LBB61_104
.LBB61_33:
	cmpl	$32, %ebp
	jae	.LBB61_70
	xorl	%edx, %edx
	jmp	.LBB61_74
.LBB61_59:
	movl	(%rsi), %eax
	movl	%eax, (%rdi)
.LBB61_60:
	leaq	(%r11,%rbp), %rax
	leaq	(%rsi,%rbp), %rcx
	addq	$-4, %rcx
	movq	%rax, %rdx
	subq	%rcx, %rdx
	cmpq	$3, %rdx
	ja	.LBB61_62
	addq	%rbp, %rsi
	movzbl	-4(%rsi), %ecx
	movb	%cl, (%rax)
	movzbl	-3(%rsi), %ecx
	movb	%cl, 1(%rax)
	movzbl	-2(%rsi), %ecx
	movb	%cl, 2(%rax)
	movzbl	-1(%rsi), %ecx
	movb	%cl, 3(%rax)
	jmp	.LBB61_120
.LBB61_62:
	movl	(%rcx), %ecx
	movl	%ecx, (%rax)
	jmp	.LBB61_120
.LBB61_50:
	cmpl	$32, %ebp
	jae	.LBB61_91
	xorl	%edx, %edx
	jmp	.LBB61_95
.LBB61_53:
	cmpl	$32, %ebp
	jae	.LBB61_107
	xorl	%edx, %edx
	jmp	.LBB61_111
.LBB61_63:
	movq	(%rsi), %rax
	movq	%rax, (%rdi)
.LBB61_64:
	leaq	-8(%rbp), %rax
	addq	%rax, %rdi
	addq	%rax, %rsi
	movq	%rdi, %rax
	subq	%rsi, %rax
	cmpq	$7, %rax
	ja	.LBB61_66
	movzbl	(%rsi), %eax
	movb	%al, (%rdi)
	movzbl	1(%rsi), %eax
	movb	%al, 1(%rdi)
	movzbl	2(%rsi), %eax
	movb	%al, 2(%rdi)
	movzbl	3(%rsi), %eax
	movb	%al, 3(%rdi)
	movzbl	4(%rsi), %eax
	movb	%al, 4(%rdi)
	movzbl	5(%rsi), %eax
	movb	%al, 5(%rdi)
	movzbl	6(%rsi), %eax
	movb	%al, 6(%rdi)
	movzbl	7(%rsi), %eax
	movb	%al, 7(%rdi)
	jmp	.LBB61_104
.LBB61_66:
	movq	(%rsi), %rax
	movq	%rax, (%rdi)
	jmp	.LBB61_104
.LBB61_67:
	movq	(%rsi), %rax
	movq	%rax, (%rdi)
.LBB61_68:
	leaq	-8(%rbp), %rax
	addq	%rax, %rdi
	addq	%rax, %rsi
	movq	%rdi, %rax
	subq	%rsi, %rax
	cmpq	$7, %rax
	ja	.LBB61_90
	movzbl	(%rsi), %eax
	movb	%al, (%rdi)
	movzbl	1(%rsi), %eax
	movb	%al, 1(%rdi)
	movzbl	2(%rsi), %eax
	movb	%al, 2(%rdi)
	movzbl	3(%rsi), %eax
	movb	%al, 3(%rdi)
	movzbl	4(%rsi), %eax
	movb	%al, 4(%rdi)
	movzbl	5(%rsi), %eax
	movb	%al, 5(%rdi)
	movzbl	6(%rsi), %eax
	movb	%al, 6(%rdi)
	movzbl	7(%rsi), %eax
	movb	%al, 7(%rdi)
	jmp	.LBB61_120
.LBB61_70:
	movq	%r10, %r11
	movq	%rbp, %rdx
	andq	$-32, %rdx
	leaq	(%rax,%rcx), %r8
	addq	$20, %r8
	movq	(%rsp), %r9
	addq	%rbx, %r9
	xorl	%r10d, %r10d
	.p2align	4
.LBB61_71:
	movups	-16(%r8,%r10), %xmm0
	movups	(%r8,%r10), %xmm1
	movups	%xmm0, -16(%r9,%r10)
	movups	%xmm1, (%r9,%r10)
	addq	$32, %r10
	cmpq	%r10, %rdx
	jne	.LBB61_71
	cmpl	%edx, %ebp
	movq	%r11, %r10
	movq	16(%rsp), %r11
	je	.LBB61_83
	testb	$28, %bpl
	je	.LBB61_77
.LBB61_74:
	movq	%rdx, %r8
	movq	%rbp, %rdx
	andq	$-4, %rdx
	.p2align	4
.LBB61_75:
	movl	(%rsi,%r8), %r9d
	movl	%r9d, (%rdi,%r8)
	addq	$4, %r8
	cmpq	%r8, %rdx
	jne	.LBB61_75
	cmpl	%edx, %ebp
	je	.LBB61_83
	jmp	.LBB61_77
.LBB61_90:
	movq	(%rsi), %rax
	movq	%rax, (%rdi)
	jmp	.LBB61_120
.LBB61_91:
	movq	%r11, %r14
	movq	%r10, %r11
	movq	%rbp, %rdx
	andq	$-32, %rdx
	leaq	(%rax,%rcx), %r8
	addq	$20, %r8
	movq	(%rsp), %r9
	addq	%rbx, %r9
	xorl	%r10d, %r10d
	.p2align	4
.LBB61_92:
	movups	-16(%r8,%r10), %xmm0
	movups	(%r8,%r10), %xmm1
	movups	%xmm0, -16(%r9,%r10)
	movups	%xmm1, (%r9,%r10)
	addq	$32, %r10
	cmpq	%r10, %rdx
	jne	.LBB61_92
	cmpl	%edx, %ebp
	movq	%r11, %r10
	movq	%r14, %r11
	je	.LBB61_104
	testb	$28, %bpl
	je	.LBB61_98
.LBB61_95:
	movq	%rdx, %r8
	movq	%rbp, %rdx
	andq	$-4, %rdx
	.p2align	4
.LBB61_96:
	movl	(%rsi,%r8), %r9d
	movl	%r9d, (%rdi,%r8)
	addq	$4, %r8
	cmpq	%r8, %rdx
	jne	.LBB61_96
	cmpl	%edx, %ebp
	jne	.LBB61_98
	.p2align	4
.LBB61_104:
	movb	$0, 4(%r11,%rbp)
	leaq	5(%rbp), %rax
	andq	$-4, %rbp
	addq	$8, %rbp
	movw	%ax, (%r11)
	movw	$2, 2(%r11)
	movq	%rbp, %rcx
	subq	%rax, %rcx
	cmpq	$3, %rcx
	je	.LBB61_2
	cmpl	$2, %ecx
	jne	.LBB61_106
	jmp	.LBB61_124
.LBB61_107:
	movq	%r11, %r14
	movq	%r10, %r11
	movq	%rbp, %rdx
	andq	$-32, %rdx
	leaq	(%rax,%rcx), %r8
	addq	$20, %r8
	movq	(%rsp), %r9
	addq	%rbx, %r9
	xorl	%r10d, %r10d
	.p2align	4
.LBB61_108:
	movups	-16(%r8,%r10), %xmm0
	movups	(%r8,%r10), %xmm1
	movups	%xmm0, -16(%r9,%r10)
	movups	%xmm1, (%r9,%r10)
	addq	$32, %r10
	cmpq	%r10, %rdx
	jne	.LBB61_108
	cmpl	%edx, %ebp
	movq	%r11, %r10
	movq	%r14, %r11
	je	.LBB61_120
	testb	$28, %bpl
	je	.LBB61_114
.LBB61_111:
	movq	%rdx, %r8
	movq	%rbp, %rdx
	andq	$-4, %rdx
	.p2align	4
.LBB61_112:
	movl	(%rsi,%r8), %r9d
	movl	%r9d, (%rdi,%r8)
	addq	$4, %r8
	cmpq	%r8, %rdx
	jne	.LBB61_112
	cmpl	%edx, %ebp
	jne	.LBB61_114
	.p2align	4
.LBB61_120:
	movb	$0, 4(%r11,%rbp)
	leaq	5(%rbp), %rax
	andq	$-4, %rbp
	addq	$8, %rbp
	movw	%ax, (%r11)
	movw	$1, 2(%r11)
	movq	%rbp, %rcx
	subq	%rax, %rcx
	cmpq	$3, %rcx
	je	.LBB61_2
	cmpl	$2, %ecx
	je	.LBB61_124
.LBB61_106:
	cmpl	$1, %ecx
	jne	.LBB61_3
	movb	$0, (%r11,%rax)
	jmp	.LBB61_3
.LBB61_2:
	movw	$0, (%r11,%rax)
	movb	$0, 2(%r11,%rax)
	jmp	.LBB61_3
.LBB61_125:
	xorl	%ebx, %ebx
.LBB61_126:
	movq	%rbx, %rax
	addq	$40, %rsp
	.cfi_def_cfa_offset 56
	popq	%rbx
	.cfi_def_cfa_offset 48
	popq	%r12
	.cfi_def_cfa_offset 40
	popq	%r13
	.cfi_def_cfa_offset 32
	popq	%r14
	.cfi_def_cfa_offset 24
	popq	%r15
	.cfi_def_cfa_offset 16
	popq	%rbp
	.cfi_def_cfa_offset 8
	retq
.Lfunc_end61:
	.size	nla_wire.members.write_each.16a873d75d6df2a1, .Lfunc_end61-nla_wire.members.write_each.16a873d75d6df2a1
	.cfi_endproc

	.section	.text.nla_wire.members.write_each.5fa77b269143286c,"ax",@progbits
	.p2align	4
	.type	nla_wire.members.write_each.5fa77b269143286c,@function
nla_wire.members.write_each.5fa77b269143286c:
	.cfi_startproc
	pushq	%rbp
	.cfi_def_cfa_offset 16
	pushq	%r15
	.cfi_def_cfa_offset 24
	pushq	%r14
	.cfi_def_cfa_offset 32
	pushq	%r13
	.cfi_def_cfa_offset 40
	pushq	%r12
	.cfi_def_cfa_offset 48
	pushq	%rbx
	.cfi_def_cfa_offset 56
	subq	$40, %rsp
	.cfi_def_cfa_offset 96
	.cfi_offset %rbx, -56
	.cfi_offset %r12, -48
	.cfi_offset %r13, -40
	.cfi_offset %r14, -32
	.cfi_offset %r15, -24
	.cfi_offset %rbp, -16
	testq	%rsi, %rsi
	je	.LBB62_38
	movq	%rsi, %r15
	movq	%rdi, %r12
	leaq	20(%rdx), %rax
	movq	%rax, 24(%rsp)
	leaq	7(%rdx), %rax
	movq	%rax, 32(%rsp)
	xorl	%ebx, %ebx
	xorl	%r13d, %r13d
	movq	%rdx, 16(%rsp)
	jmp	.LBB62_5
	.p2align	4
.LBB62_2:
	movl	(%rsi), %eax
	movl	%eax, (%rdi)
.LBB62_3:
	movl	$65544, (%r11)
	movl	$8, %eax
.LBB62_4:
	addq	%rax, %rbx
	cmpq	%r13, %r15
	jbe	.LBB62_39
.LBB62_5:
	subq	%r13, %r15
	cmpq	$4, %r15
	jb	.LBB62_39
	movq	%r12, %rax
	movq	%r13, %rcx
	addq	%r13, %r12
	movzwl	(%r12), %r14d
	cmpw	$4, %r14w
	jb	.LBB62_39
	cmpq	%r14, %r15
	jb	.LBB62_39
	movzwl	2(%r12), %ebp
	leaq	4(%r12), %rsi
	leal	3(%r14), %r13d
	andl	$-4, %r13d
	leaq	(%rdx,%rbx), %r11
	movl	%ebp, %r9d
	andl	$16383, %r9d
	leaq	(%rdx,%rbx), %rdi
	addq	$4, %rdi
	movq	%rdi, %r8
	subq	%rsi, %r8
	cmpw	$1, %r9w
	jne	.LBB62_11
	cmpq	$3, %r8
	ja	.LBB62_2
	movzbl	4(%r12), %eax
	movb	%al, 4(%r11)
	movzbl	5(%r12), %eax
	movb	%al, 5(%r11)
	movzbl	6(%r12), %eax
	movb	%al, 6(%r11)
	movzbl	7(%r12), %eax
	movb	%al, 7(%r11)
	jmp	.LBB62_3
	.p2align	4
.LBB62_11:
	leaq	-4(%r14), %rdx
	cmpq	%rdx, %r8
	jae	.LBB62_14
	cmpl	$4, %edx
	movq	%r11, 8(%rsp)
	jb	.LBB62_13
	movq	%r11, %r9
	subq	%rax, %r9
	subq	%rcx, %r9
	cmpq	$32, %r9
	jae	.LBB62_17
.LBB62_13:
	xorl	%r8d, %r8d
.LBB62_26:
	movq	%r14, %r10
	movq	%r8, %r9
	andq	$3, %r10
	je	.LBB62_29
	movq	%r8, %r9
	.p2align	4
.LBB62_28:
	movzbl	(%rsi,%r9), %r11d
	movb	%r11b, (%rdi,%r9)
	incq	%r9
	decq	%r10
	jne	.LBB62_28
.LBB62_29:
	negq	%r8
	leaq	(%r14,%r8), %rsi
	addq	$-5, %rsi
	cmpl	$3, %esi
	movq	8(%rsp), %r11
	jb	.LBB62_32
	addq	%rcx, %rax
	addq	$7, %rax
	movq	32(%rsp), %rcx
	addq	%rbx, %rcx
	.p2align	4
.LBB62_31:
	movzbl	-3(%rax,%r9), %esi
	movb	%sil, -3(%rcx,%r9)
	movzbl	-2(%rax,%r9), %esi
	movb	%sil, -2(%rcx,%r9)
	movzbl	-1(%rax,%r9), %esi
	movb	%sil, -1(%rcx,%r9)
	movzbl	(%rax,%r9), %esi
	movb	%sil, (%rcx,%r9)
	addq	$4, %r9
	cmpq	%r9, %rdx
	jne	.LBB62_31
	jmp	.LBB62_32
	.p2align	4
.LBB62_14:
	movl	%ebp, 4(%rsp)
	movq	%r11, %rbp
	callq	memmove@PLT
	movq	%rbp, %r11
	movl	4(%rsp), %ebp
.LBB62_32:
	movw	%r14w, (%r11)
	movw	%bp, 2(%r11)
	movq	%r13, %rcx
	subq	%r14, %rcx
	cmpq	$3, %rcx
	je	.LBB62_37
	cmpl	$2, %ecx
	movq	16(%rsp), %rdx
	je	.LBB62_36
	movq	%r13, %rax
	cmpl	$1, %ecx
	jne	.LBB62_4
	movb	$0, (%r11,%r14)
	movq	%r13, %rax
	jmp	.LBB62_4
.LBB62_36:
	movw	$0, (%r11,%r14)
	movq	%r13, %rax
	jmp	.LBB62_4
.LBB62_37:
	movw	$0, (%r11,%r14)
	movb	$0, 2(%r11,%r14)
	movq	%r13, %rax
	movq	16(%rsp), %rdx
	jmp	.LBB62_4
.LBB62_17:
	cmpl	$32, %edx
	jae	.LBB62_19
	xorl	%r8d, %r8d
	jmp	.LBB62_23
.LBB62_19:
	movq	%rdx, %r8
	andq	$-32, %r8
	leaq	(%rax,%rcx), %r9
	addq	$20, %r9
	movq	24(%rsp), %r10
	addq	%rbx, %r10
	xorl	%r11d, %r11d
	.p2align	4
.LBB62_20:
	movups	-16(%r9,%r11), %xmm0
	movups	(%r9,%r11), %xmm1
	movups	%xmm0, -16(%r10,%r11)
	movups	%xmm1, (%r10,%r11)
	addq	$32, %r11
	cmpq	%r11, %r8
	jne	.LBB62_20
	cmpl	%r8d, %edx
	movq	8(%rsp), %r11
	je	.LBB62_32
	testb	$28, %dl
	je	.LBB62_26
.LBB62_23:
	movq	%r8, %r9
	movq	%rdx, %r8
	andq	$-4, %r8
	.p2align	4
.LBB62_24:
	movl	(%rsi,%r9), %r10d
	movl	%r10d, (%rdi,%r9)
	addq	$4, %r9
	cmpq	%r9, %r8
	jne	.LBB62_24
	cmpl	%r8d, %edx
	je	.LBB62_32
	jmp	.LBB62_26
.LBB62_38:
	xorl	%ebx, %ebx
.LBB62_39:
	movq	%rbx, %rax
	addq	$40, %rsp
	.cfi_def_cfa_offset 56
	popq	%rbx
	.cfi_def_cfa_offset 48
	popq	%r12
	.cfi_def_cfa_offset 40
	popq	%r13
	.cfi_def_cfa_offset 32
	popq	%r14
	.cfi_def_cfa_offset 24
	popq	%r15
	.cfi_def_cfa_offset 16
	popq	%rbp
	.cfi_def_cfa_offset 8
	retq
.Lfunc_end62:
	.size	nla_wire.members.write_each.5fa77b269143286c, .Lfunc_end62-nla_wire.members.write_each.5fa77b269143286c
	.cfi_endproc

	.section	.text.nla_wire.members.write_each.1f0cb788f492ced5,"ax",@progbits
	.p2align	4
	.type	nla_wire.members.write_each.1f0cb788f492ced5,@function
nla_wire.members.write_each.1f0cb788f492ced5:
	.cfi_startproc
	pushq	%rbp
	.cfi_def_cfa_offset 16
	pushq	%r15
	.cfi_def_cfa_offset 24
	pushq	%r14
	.cfi_def_cfa_offset 32
	pushq	%r13
	.cfi_def_cfa_offset 40
	pushq	%r12
	.cfi_def_cfa_offset 48
	pushq	%rbx
	.cfi_def_cfa_offset 56
	subq	$24, %rsp
	.cfi_def_cfa_offset 80
	.cfi_offset %rbx, -56
	.cfi_offset %r12, -48
	.cfi_offset %r13, -40
	.cfi_offset %r14, -32
	.cfi_offset %r15, -24
	.cfi_offset %rbp, -16
	testq	%rsi, %rsi
	je	.LBB63_33
	movq	%rdx, %r8
	movq	%rsi, %r15
	movq	%rdi, %r12
	leaq	20(%rdx), %rax
	movq	%rax, 8(%rsp)
	leaq	7(%rdx), %rax
	movq	%rax, 16(%rsp)
	xorl	%ebx, %ebx
	xorl	%eax, %eax
	movq	%rdx, (%rsp)
	jmp	.LBB63_4
	.p2align	4
.LBB63_2:
	movw	$0, (%rbp,%r13)
.LBB63_3:
	addq	%rax, %rbx
	cmpq	%rax, %r15
	jbe	.LBB63_34
.LBB63_4:
	subq	%rax, %r15
	cmpq	$4, %r15
	jb	.LBB63_34
	movq	%r12, %rcx
	addq	%rax, %r12
	movzwl	(%r12), %r13d
	cmpw	$4, %r13w
	jb	.LBB63_34
	cmpq	%r13, %r15
	jb	.LBB63_34
	movzwl	2(%r12), %r14d
	leaq	4(%r12), %rsi
	leaq	-4(%r13), %rdx
	leaq	(%r8,%rbx), %rbp
	leaq	(%r8,%rbx), %rdi
	addq	$4, %rdi
	movq	%rdi, %r8
	subq	%rsi, %r8
	cmpq	%rdx, %r8
	jae	.LBB63_10
	cmpl	$4, %edx
	jb	.LBB63_9
	movq	%rbp, %r9
	subq	%rcx, %r9
	subq	%rax, %r9
	cmpq	$32, %r9
	jae	.LBB63_13
.LBB63_9:
	xorl	%r8d, %r8d
.LBB63_22:
	movq	%r13, %r10
	movq	%r8, %r9
	andq	$3, %r10
	je	.LBB63_25
	movq	%r8, %r9
	.p2align	4
.LBB63_24:
	movzbl	(%rsi,%r9), %r11d
	movb	%r11b, (%rdi,%r9)
	incq	%r9
	decq	%r10
	jne	.LBB63_24
.LBB63_25:
	negq	%r8
	leaq	(%r8,%r13), %rsi
	addq	$-5, %rsi
	cmpl	$3, %esi
	jb	.LBB63_28
	addq	%rcx, %rax
	addq	$7, %rax
	movq	16(%rsp), %rcx
	addq	%rbx, %rcx
	.p2align	4
.LBB63_27:
	movzbl	-3(%rax,%r9), %esi
	movb	%sil, -3(%rcx,%r9)
	movzbl	-2(%rax,%r9), %esi
	movb	%sil, -2(%rcx,%r9)
	movzbl	-1(%rax,%r9), %esi
	movb	%sil, -1(%rcx,%r9)
	movzbl	(%rax,%r9), %esi
	movb	%sil, (%rcx,%r9)
	addq	$4, %r9
	cmpq	%r9, %rdx
	jne	.LBB63_27
	jmp	.LBB63_28
	.p2align	4
.LBB63_10:
	callq	memmove@PLT
.LBB63_28:
	leal	3(%r13), %eax
	andl	$-4, %eax
	movw	%r13w, (%rbp)
	movw	%r14w, 2(%rbp)
	movq	%rax, %rcx
	subq	%r13, %rcx
	cmpq	$3, %rcx
	je	.LBB63_32
	cmpl	$2, %ecx
	movq	(%rsp), %r8
	je	.LBB63_2
	cmpl	$1, %ecx
	jne	.LBB63_3
	movb	$0, (%rbp,%r13)
	jmp	.LBB63_3
	.p2align	4
.LBB63_32:
	movw	$0, (%rbp,%r13)
	movb	$0, 2(%rbp,%r13)
	movq	(%rsp), %r8
	jmp	.LBB63_3
.LBB63_13:
	cmpl	$32, %edx
	jae	.LBB63_15
	xorl	%r8d, %r8d
	jmp	.LBB63_19
.LBB63_15:
	movq	%rdx, %r8
	andq	$-32, %r8
	leaq	(%rcx,%rax), %r9
	addq	$20, %r9
	movq	8(%rsp), %r10
	addq	%rbx, %r10
	xorl	%r11d, %r11d
	.p2align	4
.LBB63_16:
	movups	-16(%r9,%r11), %xmm0
	movups	(%r9,%r11), %xmm1
	movups	%xmm0, -16(%r10,%r11)
	movups	%xmm1, (%r10,%r11)
	addq	$32, %r11
	cmpq	%r11, %r8
	jne	.LBB63_16
	cmpl	%r8d, %edx
	je	.LBB63_28
	testb	$28, %dl
	je	.LBB63_22
.LBB63_19:
	movq	%r8, %r9
	movq	%rdx, %r8
	andq	$-4, %r8
	.p2align	4
.LBB63_20:
	movl	(%rsi,%r9), %r10d
	movl	%r10d, (%rdi,%r9)
	addq	$4, %r9
	cmpq	%r9, %r8
	jne	.LBB63_20
	cmpl	%r8d, %edx
	je	.LBB63_28
	jmp	.LBB63_22
.LBB63_33:
	xorl	%ebx, %ebx
.LBB63_34:
	movq	%rbx, %rax
	addq	$24, %rsp
	.cfi_def_cfa_offset 56
	popq	%rbx
	.cfi_def_cfa_offset 48
	popq	%r12
	.cfi_def_cfa_offset 40
	popq	%r13
	.cfi_def_cfa_offset 32
	popq	%r14
	.cfi_def_cfa_offset 24
	popq	%r15
	.cfi_def_cfa_offset 16
	popq	%rbp
	.cfi_def_cfa_offset 8
	retq
.Lfunc_end63:
	.size	nla_wire.members.write_each.1f0cb788f492ced5, .Lfunc_end63-nla_wire.members.write_each.1f0cb788f492ced5
	.cfi_endproc

	.section	.text.nla_wire.members.write_each.6cf1decf0b22dc4b,"ax",@progbits
	.p2align	4
	.type	nla_wire.members.write_each.6cf1decf0b22dc4b,@function
nla_wire.members.write_each.6cf1decf0b22dc4b:
	.cfi_startproc
	pushq	%rbp
	.cfi_def_cfa_offset 16
	pushq	%r15
	.cfi_def_cfa_offset 24
	pushq	%r14
	.cfi_def_cfa_offset 32
	pushq	%r13
	.cfi_def_cfa_offset 40
	pushq	%r12
	.cfi_def_cfa_offset 48
	pushq	%rbx
	.cfi_def_cfa_offset 56
	subq	$40, %rsp
	.cfi_def_cfa_offset 96
	.cfi_offset %rbx, -56
	.cfi_offset %r12, -48
	.cfi_offset %r13, -40
	.cfi_offset %r14, -32
	.cfi_offset %r15, -24
	.cfi_offset %rbp, -16
	testq	%rsi, %rsi
	je	.LBB64_50
	movq	%rdx, %r11
	movq	%rsi, %r15
	movq	%rdi, %r12
	leaq	20(%rdx), %rax
	movq	%rax, 16(%rsp)
	leaq	7(%rdx), %rax
	movq	%rax, 24(%rsp)
	xorl	%ebx, %ebx
	xorl	%r13d, %r13d
	movq	%rdx, 8(%rsp)
	jmp	.LBB64_5
.LBB64_2:
	movw	$0, (%rsi,%rcx)
	movb	$0, 2(%rsi,%rcx)
.LBB64_3:
	movq	8(%rsp), %r11
.LBB64_4:
	addq	%rax, %rbx
	cmpq	%r13, %r15
	jbe	.LBB64_51
.LBB64_5:
	subq	%r13, %r15
	cmpq	$4, %r15
	jb	.LBB64_51
	movq	%r12, %rcx
	movq	%r13, %rdi
	addq	%r13, %r12
	movzwl	(%r12), %r14d
	cmpw	$4, %r14w
	jb	.LBB64_51
	cmpq	%r14, %r15
	jb	.LBB64_51
	movzwl	2(%r12), %ebp
	leaq	4(%r12), %rsi
	leaq	-4(%r14), %rax
	leal	3(%r14), %r13d
	andl	$-4, %r13d
	leaq	(%r11,%rbx), %r10
	movl	%ebp, %r8d
	andl	$16383, %r8d
	leaq	(%r11,%rbx), %rdx
	addq	$4, %rdx
	cmpl	$45, %r8d
	je	.LBB64_18
	cmpl	$10, %r8d
	je	.LBB64_15
	cmpl	$2, %r8d
	jne	.LBB64_21
	movq	%rsi, %rdi
	movq	%rax, %rsi
	movq	%r10, %r14
	callq	nla_wire.members.write_each.d7cac04ae1e23078
	movq	%r14, %rsi
	leaq	4(%rax), %rcx
	addq	$7, %rax
	andq	$-4, %rax
	movw	%cx, (%r14)
	movw	$2, 2(%r14)
	movq	%rax, %rdx
	subq	%rcx, %rdx
	cmpq	$3, %rdx
	je	.LBB64_2
	cmpq	$2, %rdx
	movq	8(%rsp), %r11
	je	.LBB64_26
	cmpq	$1, %rdx
	jne	.LBB64_4
	jmp	.LBB64_14
	.p2align	4
.LBB64_15:
	movq	%rsi, %rdi
	movq	%rax, %rsi
	movq	%r10, %r14
	callq	nla_wire.members.write_each.97809315b2b26985
	movq	%r14, %rsi
	leaq	4(%rax), %rcx
	addq	$7, %rax
	andq	$-4, %rax
	movw	%cx, (%r14)
	movw	$10, 2(%r14)
	movq	%rax, %rdx
	subq	%rcx, %rdx
	cmpq	$3, %rdx
	je	.LBB64_2
	cmpq	$2, %rdx
	je	.LBB64_24
.LBB64_17:
	cmpq	$1, %rdx
	movq	8(%rsp), %r11
	jne	.LBB64_4
.LBB64_14:
	movb	$0, (%rsi,%rcx)
	jmp	.LBB64_4
	.p2align	4
.LBB64_18:
	movq	%rsi, %rdi
	movq	%rax, %rsi
	movq	%r10, %r14
	callq	nla_wire.members.write_each.7562298f77a88fdb
	movq	%r14, %rsi
	leaq	4(%rax), %rcx
	addq	$7, %rax
	andq	$-4, %rax
	movw	%cx, (%r14)
	movw	$45, 2(%r14)
	movq	%rax, %rdx
	subq	%rcx, %rdx
	cmpq	$3, %rdx
	je	.LBB64_2
	cmpq	$2, %rdx
	jne	.LBB64_17
.LBB64_24:
	movw	$0, (%rsi,%rcx)
	jmp	.LBB64_3
	.p2align	4
.LBB64_21:
	movq	%rdx, %r8
	subq	%rsi, %r8
	cmpq	%rax, %r8
	movq	%r10, 32(%rsp)
	jae	.LBB64_25
	cmpl	$4, %eax
	jb	.LBB64_23
	movq	%r10, %r9
	subq	%rcx, %r9
	subq	%rdi, %r9
	cmpq	$32, %r9
	jae	.LBB64_28
.LBB64_23:
	xorl	%r8d, %r8d
.LBB64_37:
	movq	%r14, %r10
	movq	%r8, %r9
	andq	$3, %r10
	je	.LBB64_40
	movq	%r8, %r9
	.p2align	4
.LBB64_39:
	movzbl	(%rsi,%r9), %r11d
	movb	%r11b, (%rdx,%r9)
	incq	%r9
	decq	%r10
	jne	.LBB64_39
.LBB64_40:
	negq	%r8
	leaq	(%r14,%r8), %rdx
	addq	$-5, %rdx
	cmpl	$3, %edx
	movq	8(%rsp), %r11
	jb	.LBB64_43
	addq	%rdi, %rcx
	addq	$7, %rcx
	movq	24(%rsp), %rdx
	addq	%rbx, %rdx
	.p2align	4
.LBB64_42:
	movzbl	-3(%rcx,%r9), %esi
	movb	%sil, -3(%rdx,%r9)
	movzbl	-2(%rcx,%r9), %esi
	movb	%sil, -2(%rdx,%r9)
	movzbl	-1(%rcx,%r9), %esi
	movb	%sil, -1(%rdx,%r9)
	movzbl	(%rcx,%r9), %esi
	movb	%sil, (%rdx,%r9)
	addq	$4, %r9
	cmpq	%r9, %rax
	jne	.LBB64_42
	jmp	.LBB64_43
.LBB64_25:
	movq	%rdx, %rdi
	movq	%rax, %rdx
	callq	memmove@PLT
	movq	8(%rsp), %r11
.LBB64_43:
	movq	32(%rsp), %rdx
	movw	%r14w, (%rdx)
	movw	%bp, 2(%rdx)
	movq	%r13, %rcx
	subq	%r14, %rcx
	cmpq	$3, %rcx
	je	.LBB64_48
	cmpl	$2, %ecx
	je	.LBB64_47
	movq	%r13, %rax
	cmpl	$1, %ecx
	jne	.LBB64_4
	movb	$0, (%rdx,%r14)
	jmp	.LBB64_49
.LBB64_26:
	movw	$0, (%rsi,%rcx)
	jmp	.LBB64_4
.LBB64_47:
	movw	$0, (%rdx,%r14)
	jmp	.LBB64_49
.LBB64_48:
	movw	$0, (%rdx,%r14)
	movb	$0, 2(%rdx,%r14)
.LBB64_49:
	movq	%r13, %rax
	jmp	.LBB64_4
.LBB64_28:
	cmpl	$32, %eax
	jae	.LBB64_30
	xorl	%r8d, %r8d
	jmp	.LBB64_34
.LBB64_30:
	movq	%rax, %r8
	andq	$-32, %r8
	leaq	(%rcx,%rdi), %r9
	addq	$20, %r9
	movq	16(%rsp), %r10
	addq	%rbx, %r10
	xorl	%r11d, %r11d
	.p2align	4
.LBB64_31:
	movups	-16(%r9,%r11), %xmm0
	movups	(%r9,%r11), %xmm1
	movups	%xmm0, -16(%r10,%r11)
	movups	%xmm1, (%r10,%r11)
	addq	$32, %r11
	cmpq	%r11, %r8
	jne	.LBB64_31
	cmpl	%r8d, %eax
	movq	8(%rsp), %r11
	je	.LBB64_43
	testb	$28, %al
	je	.LBB64_37
.LBB64_34:
	movq	%r8, %r9
	movq	%rax, %r8
	andq	$-4, %r8
	.p2align	4
.LBB64_35:
	movl	(%rsi,%r9), %r10d
	movl	%r10d, (%rdx,%r9)
	addq	$4, %r9
	cmpq	%r9, %r8
	jne	.LBB64_35
	cmpl	%r8d, %eax
	je	.LBB64_43
	jmp	.LBB64_37
.LBB64_50:
	xorl	%ebx, %ebx
.LBB64_51:
	movq	%rbx, %rax
	addq	$40, %rsp
	.cfi_def_cfa_offset 56
	popq	%rbx
	.cfi_def_cfa_offset 48
	popq	%r12
	.cfi_def_cfa_offset 40
	popq	%r13
	.cfi_def_cfa_offset 32
	popq	%r14
	.cfi_def_cfa_offset 24
	popq	%r15
	.cfi_def_cfa_offset 16
	popq	%rbp
	.cfi_def_cfa_offset 8
	retq
.Lfunc_end64:
	.size	nla_wire.members.write_each.6cf1decf0b22dc4b, .Lfunc_end64-nla_wire.members.write_each.6cf1decf0b22dc4b
	.cfi_endproc

	.section	.text.nla_wire.members.write_each.d7cac04ae1e23078,"ax",@progbits
	.p2align	4
	.type	nla_wire.members.write_each.d7cac04ae1e23078,@function
nla_wire.members.write_each.d7cac04ae1e23078:
	.cfi_startproc
	pushq	%rbp
	.cfi_def_cfa_offset 16
	pushq	%r15
	.cfi_def_cfa_offset 24
	pushq	%r14
	.cfi_def_cfa_offset 32
	pushq	%r13
	.cfi_def_cfa_offset 40
	pushq	%r12
	.cfi_def_cfa_offset 48
	pushq	%rbx
	.cfi_def_cfa_offset 56
	subq	$40, %rsp
	.cfi_def_cfa_offset 96
	.cfi_offset %rbx, -56
	.cfi_offset %r12, -48
	.cfi_offset %r13, -40
	.cfi_offset %r14, -32
	.cfi_offset %r15, -24
	.cfi_offset %rbp, -16
	testq	%rsi, %rsi
	je	.LBB65_68
	movq	%rsi, %r15
	movq	%rdi, %r12
	leaq	20(%rdx), %rax
	movq	%rax, 16(%rsp)
	leaq	7(%rdx), %rax
	movq	%rax, 24(%rsp)
	xorl	%ebx, %ebx
	xorl	%r14d, %r14d
	movq	%rdx, 8(%rsp)
	jmp	.LBB65_5
.LBB65_24:
	movl	$136, %edx
	callq	memmove@PLT
	movq	8(%rsp), %rdx
.LBB65_28:
	movl	$65676, (%rbp)
	movl	$140, %eax
.LBB65_4:
	addq	%rax, %rbx
	cmpq	%r14, %r15
	jbe	.LBB65_69
.LBB65_5:
	subq	%r14, %r15
	cmpq	$4, %r15
	jb	.LBB65_69
	movq	%r12, %rax
	movq	%r14, %rcx
	addq	%r14, %r12
	movzwl	(%r12), %r13d
	cmpw	$4, %r13w
	jb	.LBB65_69
	cmpq	%r13, %r15
	jb	.LBB65_69
	movzwl	2(%r12), %r10d
	leaq	4(%r12), %rsi
	leaq	-4(%r13), %r11
	leal	3(%r13), %r14d
	andl	$-4, %r14d
	leaq	(%rdx,%rbx), %rbp
	movl	%r10d, %edi
	andl	$16383, %edi
	cmpw	$1, %di
	jne	.LBB65_13
	movzwl	%r13w, %r8d
	leaq	4(%rbp), %rdi
	movq	%rdi, %r9
	subq	%rsi, %r9
	cmpl	$140, %r8d
	jae	.LBB65_16
	cmpq	%r11, %r9
	jae	.LBB65_21
	cmpl	$4, %r11d
	jb	.LBB65_12
	movq	%rbp, %r8
	subq	%rax, %r8
	subq	%rcx, %r8
	cmpq	$32, %r8
	jae	.LBB65_31
.LBB65_12:
	xorl	%edx, %edx
.LBB65_58:
	movq	%r13, %r9
	movq	%rdx, %r8
	andq	$3, %r9
	je	.LBB65_61
	movq	%rdx, %r8
	.p2align	4
.LBB65_60:
	movzbl	(%rsi,%r8), %r10d
	movb	%r10b, (%rdi,%r8)
	incq	%r8
	decq	%r9
	jne	.LBB65_60
.LBB65_61:
	negq	%rdx
	addq	%r13, %rdx
	addq	$-5, %rdx
	cmpl	$3, %edx
	jb	.LBB65_64
	addq	%rcx, %rax
	addq	$7, %rax
	movq	24(%rsp), %rcx
	addq	%rbx, %rcx
	.p2align	4
.LBB65_63:
	movzbl	-3(%rax,%r8), %edx
	movb	%dl, -3(%rcx,%r8)
	movzbl	-2(%rax,%r8), %edx
	movb	%dl, -2(%rcx,%r8)
	movzbl	-1(%rax,%r8), %edx
	movb	%dl, -1(%rcx,%r8)
	movzbl	(%rax,%r8), %edx
	movb	%dl, (%rcx,%r8)
	addq	$4, %r8
	cmpq	%r8, %r11
	jne	.LBB65_63
	jmp	.LBB65_64
	.p2align	4
.LBB65_13:
	leaq	4(%rbp), %rdi
	movq	%rdi, %rdx
	subq	%rsi, %rdx
	cmpq	%r11, %rdx
	jae	.LBB65_20
	cmpl	$4, %r11d
	movl	%r10d, 4(%rsp)
	jb	.LBB65_15
	movq	%rbp, %r8
	subq	%rax, %r8
	subq	%rcx, %r8
	cmpq	$32, %r8
	jae	.LBB65_29
.LBB65_15:
	xorl	%edx, %edx
.LBB65_40:
	movq	%r13, %r9
	movq	%rdx, %r8
	andq	$3, %r9
	je	.LBB65_43
	movq	%rdx, %r8
	.p2align	4
.LBB65_42:
	movzbl	(%rsi,%r8), %r10d
	movb	%r10b, (%rdi,%r8)
	incq	%r8
	decq	%r9
	jne	.LBB65_42
.LBB65_43:
	negq	%rdx
	addq	%r13, %rdx
	addq	$-5, %rdx
	cmpl	$3, %edx
	movl	4(%rsp), %r10d
	jb	.LBB65_46
	addq	%rcx, %rax
	addq	$7, %rax
	movq	24(%rsp), %rcx
	addq	%rbx, %rcx
	.p2align	4
.LBB65_45:
	movzbl	-3(%rax,%r8), %edx
	movb	%dl, -3(%rcx,%r8)
	movzbl	-2(%rax,%r8), %edx
	movb	%dl, -2(%rcx,%r8)
	movzbl	-1(%rax,%r8), %edx
	movb	%dl, -1(%rcx,%r8)
	movzbl	(%rax,%r8), %edx
	movb	%dl, (%rcx,%r8)
	addq	$4, %r8
	cmpq	%r8, %r11
	jne	.LBB65_45
	jmp	.LBB65_46
	.p2align	4
.LBB65_16:
	cmpq	$135, %r9
	ja	.LBB65_24
	addq	%rcx, %rax
	movq	%rbp, %rcx
	subq	%rax, %rcx
	cmpq	$31, %rcx
	ja	.LBB65_27
	movl	$7, %eax
	.p2align	4
.LBB65_19:
	movzbl	-3(%r12,%rax), %ecx
	movb	%cl, -3(%rbp,%rax)
	movzbl	-2(%r12,%rax), %ecx
	movb	%cl, -2(%rbp,%rax)
	movzbl	-1(%r12,%rax), %ecx
	movb	%cl, -1(%rbp,%rax)
	movzbl	(%r12,%rax), %ecx
	movb	%cl, (%rbp,%rax)
	addq	$4, %rax
	cmpq	$143, %rax
	jne	.LBB65_19
	jmp	.LBB65_28
	.p2align	4
.LBB65_20:
	movq	%r11, %rdx
	movq	%rbp, 32(%rsp)
	movq	%rbx, %rbp
	movq	%r14, %rbx
	movl	%r10d, %r14d
	callq	memmove@PLT
	movl	%r14d, %r10d
	movq	%rbx, %r14
	movq	%rbp, %rbx
	movq	32(%rsp), %rbp
.LBB65_46:
	movw	%r13w, (%rbp)
	movw	%r10w, 2(%rbp)
	movq	%r14, %rcx
	subq	%r13, %rcx
	cmpq	$3, %rcx
	je	.LBB65_50
	cmpl	$2, %ecx
	movq	8(%rsp), %rdx
	je	.LBB65_2
	movq	%r14, %rax
	cmpl	$1, %ecx
	jne	.LBB65_4
	movb	$0, (%rbp,%r13)
	jmp	.LBB65_3
.LBB65_2:
	movw	$0, (%rbp,%r13)
.LBB65_3:
	movq	%r14, %rax
	jmp	.LBB65_4
.LBB65_21:
	movq	%r11, %rdx
	callq	memmove@PLT
	leaq	-4(%r13), %r11
.LBB65_64:
	cmpl	$135, %r11d
	je	.LBB65_66
	movl	$139, %edx
	subq	%r13, %rdx
	addq	%rbp, %r13
	movq	%r13, %rdi
	xorl	%esi, %esi
	callq	memset@PLT
.LBB65_66:
	movb	$0, 139(%rbp)
	movl	$65676, (%rbp)
	movl	$140, %eax
	jmp	.LBB65_67
.LBB65_50:
	movw	$0, (%rbp,%r13)
	movb	$0, 2(%rbp,%r13)
	movq	%r14, %rax
.LBB65_67:
	movq	8(%rsp), %rdx
	jmp	.LBB65_4
.LBB65_29:
	cmpl	$32, %r11d
	jae	.LBB65_33
	xorl	%edx, %edx
	jmp	.LBB65_37
.LBB65_27:
	movups	4(%r12), %xmm0
	movups	20(%r12), %xmm1
	movups	%xmm0, 4(%rbp)
	movups	%xmm1, 20(%rbp)
	movups	36(%r12), %xmm0
	movups	52(%r12), %xmm1
	movups	%xmm0, 36(%rbp)
	movups	%xmm1, 52(%rbp)
	movups	68(%r12), %xmm0
	movups	84(%r12), %xmm1
	movups	%xmm0, 68(%rbp)
	movups	%xmm1, 84(%rbp)
	movups	100(%r12), %xmm0
	movups	116(%r12), %xmm1
	movups	%xmm0, 100(%rbp)
	movups	%xmm1, 116(%rbp)
	movq	132(%r12), %rax
	movq	%rax, 132(%rbp)
	jmp	.LBB65_28
.LBB65_31:
	cmpl	$32, %r11d
	jae	.LBB65_51
	xorl	%edx, %edx
	jmp	.LBB65_55
.LBB65_33:
	movq	%r11, %rdx
	andq	$-32, %rdx
	leaq	(%rax,%rcx), %r8
	addq	$20, %r8
	movq	16(%rsp), %r9
	addq	%rbx, %r9
	xorl	%r10d, %r10d
	.p2align	4
.LBB65_34:
	movups	-16(%r8,%r10), %xmm0
	movups	(%r8,%r10), %xmm1
	movups	%xmm0, -16(%r9,%r10)
	movups	%xmm1, (%r9,%r10)
	addq	$32, %r10
	cmpq	%r10, %rdx
	jne	.LBB65_34
	cmpl	%edx, %r11d
	movl	4(%rsp), %r10d
	je	.LBB65_46
	testb	$28, %r11b
	je	.LBB65_40
.LBB65_37:
	movq	%rdx, %r8
	movq	%r11, %rdx
	andq	$-4, %rdx
	.p2align	4
.LBB65_38:
	movl	(%rsi,%r8), %r9d
	movl	%r9d, (%rdi,%r8)
	addq	$4, %r8
	cmpq	%r8, %rdx
	jne	.LBB65_38
	cmpl	%edx, %r11d
	je	.LBB65_46
	jmp	.LBB65_40
.LBB65_51:
	movq	%r11, %rdx
	andq	$-32, %rdx
	leaq	(%rax,%rcx), %r8
	addq	$20, %r8
	movq	16(%rsp), %r9
	addq	%rbx, %r9
	xorl	%r10d, %r10d
	.p2align	4
.LBB65_52:
	movups	-16(%r8,%r10), %xmm0
	movups	(%r8,%r10), %xmm1
	movups	%xmm0, -16(%r9,%r10)
	movups	%xmm1, (%r9,%r10)
	addq	$32, %r10
	cmpq	%r10, %rdx
	jne	.LBB65_52
	cmpl	%edx, %r11d
	je	.LBB65_64
	testb	$28, %r11b
	je	.LBB65_58
.LBB65_55:
	movq	%rdx, %r8
	movq	%r11, %rdx
	andq	$-4, %rdx
	.p2align	4
.LBB65_56:
	movl	(%rsi,%r8), %r9d
	movl	%r9d, (%rdi,%r8)
	addq	$4, %r8
	cmpq	%r8, %rdx
	jne	.LBB65_56
	cmpl	%edx, %r11d
	je	.LBB65_64
	jmp	.LBB65_58
.LBB65_68:
	xorl	%ebx, %ebx
.LBB65_69:
	movq	%rbx, %rax
	addq	$40, %rsp
	.cfi_def_cfa_offset 56
	popq	%rbx
	.cfi_def_cfa_offset 48
	popq	%r12
	.cfi_def_cfa_offset 40
	popq	%r13
	.cfi_def_cfa_offset 32
	popq	%r14
	.cfi_def_cfa_offset 24
	popq	%r15
	.cfi_def_cfa_offset 16
	popq	%rbp
	.cfi_def_cfa_offset 8
	retq
.Lfunc_end65:
	.size	nla_wire.members.write_each.d7cac04ae1e23078, .Lfunc_end65-nla_wire.members.write_each.d7cac04ae1e23078
	.cfi_endproc

	.section	.text.nla_wire.members.write_each.97809315b2b26985,"ax",@progbits
	.p2align	4
	.type	nla_wire.members.write_each.97809315b2b26985,@function
nla_wire.members.write_each.97809315b2b26985:
	.cfi_startproc
	pushq	%rbp
	.cfi_def_cfa_offset 16
	pushq	%r15
	.cfi_def_cfa_offset 24
	pushq	%r14
	.cfi_def_cfa_offset 32
	pushq	%r13
	.cfi_def_cfa_offset 40
	pushq	%r12
	.cfi_def_cfa_offset 48
	pushq	%rbx
	.cfi_def_cfa_offset 56
	subq	$40, %rsp
	.cfi_def_cfa_offset 96
	.cfi_offset %rbx, -56
	.cfi_offset %r12, -48
	.cfi_offset %r13, -40
	.cfi_offset %r14, -32
	.cfi_offset %r15, -24
	.cfi_offset %rbp, -16
	testq	%rsi, %rsi
	je	.LBB66_2
	movq	%rsi, %r15
	movq	%rdi, %r12
	leaq	20(%rdx), %rax
	movq	%rax, 24(%rsp)
	leaq	7(%rdx), %rax
	movq	%rax, 32(%rsp)
	xorl	%ebx, %ebx
	xorl	%r11d, %r11d
	movq	%rdx, 16(%rsp)
	jmp	.LBB66_7
.LBB66_2:
	xorl	%ebx, %ebx
.LBB66_3:
	movq	%rbx, %rax
	addq	$40, %rsp
	.cfi_def_cfa_offset 56
	popq	%rbx
	.cfi_def_cfa_offset 48
	popq	%r12
	.cfi_def_cfa_offset 40
	popq	%r13
	.cfi_def_cfa_offset 32
	popq	%r14
	.cfi_def_cfa_offset 24
	popq	%r15
	.cfi_def_cfa_offset 16
	popq	%rbp
	.cfi_def_cfa_offset 8
	retq
.LBB66_4:
	.cfi_def_cfa_offset 96
	movb	$0, 243(%rbp)
	movl	$131316, (%rbp)
	movl	$244, %eax
.LBB66_5:
	movq	16(%rsp), %rdx
	movq	8(%rsp), %r11
.LBB66_6:
	addq	%rax, %rbx
	cmpq	%r11, %r15
	jbe	.LBB66_3
.LBB66_7:
	subq	%r11, %r15
	cmpq	$4, %r15
	jb	.LBB66_3
	movq	%r12, %rax
	movq	%r11, %rcx
	addq	%r11, %r12
	movzwl	(%r12), %r13d
	cmpw	$4, %r13w
	jb	.LBB66_3
	cmpq	%r13, %r15
	jb	.LBB66_3
	movzwl	2(%r12), %r14d
	leaq	4(%r12), %rsi
	leaq	-4(%r13), %r10
	leal	3(%r13), %r11d
	andl	$-4, %r11d
	leaq	(%rdx,%rbx), %rbp
	movl	%r14d, %r8d
	andl	$16383, %r8d
	decl	%r8d
	cmpl	$8, %r8d
	ja	.LBB66_14
	leaq	.LJTI66_0(%rip), %rdi
	movslq	(%rdi,%r8,4), %r8
	addq	%rdi, %r8
	jmpq	*%r8
.LBB66_12:
	leaq	4(%rbp), %rax
	movq	%rax, %rcx
	subq	%rsi, %rcx
	cmpq	$3, %rcx
	ja	.LBB66_51
	movzbl	4(%r12), %eax
	movb	%al, 4(%rbp)
	movzbl	5(%r12), %eax
	movb	%al, 5(%rbp)
	movzbl	6(%r12), %eax
	movb	%al, 6(%rbp)
	movzbl	7(%r12), %eax
	movb	%al, 7(%rbp)
	jmp	.LBB66_52
.LBB66_14:
	leaq	4(%rbp), %rdi
	movq	%rdi, %rdx
	subq	%rsi, %rdx
	cmpq	%r10, %rdx
	jae	.LBB66_38
	cmpl	$4, %r10d
	jb	.LBB66_16
	movq	%rbp, %r8
	subq	%rax, %r8
	subq	%rcx, %r8
	cmpq	$32, %r8
	jae	.LBB66_69
.LBB66_16:
	xorl	%edx, %edx
.LBB66_90:
	movq	%r13, %r9
	movq	%rdx, %r8
	andq	$3, %r9
	je	.LBB66_93
	movq	%rdx, %r8
	.p2align	4
.LBB66_92:
	movzbl	(%rsi,%r8), %r10d
	movb	%r10b, (%rdi,%r8)
	incq	%r8
	decq	%r9
	jne	.LBB66_92
.LBB66_93:
	negq	%rdx
	addq	%r13, %rdx
	addq	$-5, %rdx
	cmpl	$3, %edx
	leaq	-4(%r13), %rsi
	jb	.LBB66_96
	addq	%rcx, %rax
	addq	$7, %rax
	movq	32(%rsp), %rcx
	addq	%rbx, %rcx
	.p2align	4
.LBB66_95:
	movzbl	-3(%rax,%r8), %edx
	movb	%dl, -3(%rcx,%r8)
	movzbl	-2(%rax,%r8), %edx
	movb	%dl, -2(%rcx,%r8)
	movzbl	-1(%rax,%r8), %edx
	movb	%dl, -1(%rcx,%r8)
	movzbl	(%rax,%r8), %edx
	movb	%dl, (%rcx,%r8)
	addq	$4, %r8
	cmpq	%r8, %rsi
	jne	.LBB66_95
	jmp	.LBB66_96
.LBB66_17:
	leaq	4(%rbp), %rax
	movq	%rax, %rcx
	subq	%rsi, %rcx
	cmpq	$15, %rcx
	ja	.LBB66_39
	movzbl	4(%r12), %eax
	movb	%al, 4(%rbp)
	movzbl	5(%r12), %eax
	movb	%al, 5(%rbp)
	movzbl	6(%r12), %eax
	movb	%al, 6(%rbp)
	movzbl	7(%r12), %eax
	movb	%al, 7(%rbp)
	movzbl	8(%r12), %eax
	movb	%al, 8(%rbp)
	movzbl	9(%r12), %eax
	movb	%al, 9(%rbp)
	movzbl	10(%r12), %eax
	movb	%al, 10(%rbp)
	movzbl	11(%r12), %eax
	movb	%al, 11(%rbp)
	movzbl	12(%r12), %eax
	movb	%al, 12(%rbp)
	movzbl	13(%r12), %eax
	movb	%al, 13(%rbp)
	movzbl	14(%r12), %eax
	movb	%al, 14(%rbp)
	movzbl	15(%r12), %eax
	movb	%al, 15(%rbp)
	movzbl	16(%r12), %eax
	movb	%al, 16(%rbp)
	movzbl	17(%r12), %eax
	movb	%al, 17(%rbp)
	movzbl	18(%r12), %eax
	movb	%al, 18(%rbp)
	movzbl	19(%r12), %eax
	movb	%al, 19(%rbp)
	jmp	.LBB66_40
.LBB66_19:
	movzwl	%r13w, %r8d
	leaq	4(%rbp), %rdi
	movq	%rdi, %r9
	subq	%rsi, %r9
	cmpl	$244, %r8d
	jae	.LBB66_41
	cmpq	%r10, %r9
	movq	%r11, 8(%rsp)
	jae	.LBB66_59
	cmpl	$4, %r10d
	jb	.LBB66_22
	movq	%rbp, %r8
	subq	%rax, %r8
	subq	%rcx, %r8
	cmpq	$32, %r8
	jae	.LBB66_102
.LBB66_22:
	xorl	%edx, %edx
.LBB66_117:
	movq	%r10, %r11
	movq	%r13, %r9
	movq	%rdx, %r8
	andq	$3, %r9
	je	.LBB66_120
	movq	%rdx, %r8
	.p2align	4
.LBB66_119:
	movzbl	(%rsi,%r8), %r10d
	movb	%r10b, (%rdi,%r8)
	incq	%r8
	decq	%r9
	jne	.LBB66_119
.LBB66_120:
	negq	%rdx
	addq	%r13, %rdx
	addq	$-5, %rdx
	cmpl	$3, %edx
	movq	%r11, %r10
	jb	.LBB66_123
	addq	%rcx, %rax
	addq	$7, %rax
	movq	32(%rsp), %rcx
	addq	%rbx, %rcx
	.p2align	4
.LBB66_122:
	movzbl	-3(%rax,%r8), %edx
	movb	%dl, -3(%rcx,%r8)
	movzbl	-2(%rax,%r8), %edx
	movb	%dl, -2(%rcx,%r8)
	movzbl	-1(%rax,%r8), %edx
	movb	%dl, -1(%rcx,%r8)
	movzbl	(%rax,%r8), %edx
	movb	%dl, (%rcx,%r8)
	addq	$4, %r8
	cmpq	%r8, %r10
	jne	.LBB66_122
	jmp	.LBB66_123
.LBB66_23:
	movzbl	(%rsi), %eax
	movb	%al, 4(%rbp)
	movl	$524293, (%rbp)
	movw	$0, 5(%rbp)
	movb	$0, 7(%rbp)
	movl	$8, %eax
	jmp	.LBB66_6
.LBB66_24:
	leaq	4(%rbp), %rax
	movq	%rax, %rcx
	subq	%rsi, %rcx
	cmpq	$3, %rcx
	ja	.LBB66_45
	movzbl	4(%r12), %eax
	movb	%al, 4(%rbp)
	movzbl	5(%r12), %eax
	movb	%al, 5(%rbp)
	movzbl	6(%r12), %eax
	movb	%al, 6(%rbp)
	movzbl	7(%r12), %eax
	movb	%al, 7(%rbp)
	jmp	.LBB66_46
.LBB66_26:
	movzwl	%r13w, %r8d
	leaq	4(%rbp), %rdi
	movq	%rdi, %r9
	subq	%rsi, %r9
	cmpl	$316, %r8d
	jae	.LBB66_47
	cmpq	%r10, %r9
	movq	%r11, 8(%rsp)
	jae	.LBB66_61
	cmpl	$4, %r10d
	jb	.LBB66_29
	movq	%rbp, %r8
	subq	%rax, %r8
	subq	%rcx, %r8
	cmpq	$32, %r8
	jae	.LBB66_104
.LBB66_29:
	xorl	%edx, %edx
.LBB66_132:
	movq	%r10, %r11
	movq	%r13, %r9
	movq	%rdx, %r8
	andq	$3, %r9
	je	.LBB66_135
	movq	%rdx, %r8
	.p2align	4
.LBB66_134:
	movzbl	(%rsi,%r8), %r10d
	movb	%r10b, (%rdi,%r8)
	incq	%r8
	decq	%r9
	jne	.LBB66_134
.LBB66_135:
	negq	%rdx
	addq	%r13, %rdx
	addq	$-5, %rdx
	cmpl	$3, %edx
	movq	%r11, %r10
	jb	.LBB66_138
	addq	%rcx, %rax
	addq	$7, %rax
	movq	32(%rsp), %rcx
	addq	%rbx, %rcx
	.p2align	4
.LBB66_137:
	movzbl	-3(%rax,%r8), %edx
	movb	%dl, -3(%rcx,%r8)
	movzbl	-2(%rax,%r8), %edx
	movb	%dl, -2(%rcx,%r8)
	movzbl	-1(%rax,%r8), %edx
	movb	%dl, -1(%rcx,%r8)
	movzbl	(%rax,%r8), %edx
	movb	%dl, (%rcx,%r8)
	addq	$4, %r8
	cmpq	%r8, %r10
	jne	.LBB66_137
	jmp	.LBB66_138
.LBB66_30:
	leaq	4(%rbp), %rdi
	movq	%rdi, %r8
	subq	%rsi, %r8
	cmpw	$20, %r13w
	jae	.LBB66_53
	cmpq	%r10, %r8
	movq	%r11, 8(%rsp)
	jae	.LBB66_63
	cmpl	$4, %r10d
	jb	.LBB66_33
	movq	%rbp, %r8
	subq	%rax, %r8
	subq	%rcx, %r8
	cmpq	$32, %r8
	jae	.LBB66_106
.LBB66_33:
	xorl	%edx, %edx
.LBB66_148:
	movq	%r10, %r11
	movq	%r13, %r9
	movq	%rdx, %r8
	andq	$3, %r9
	je	.LBB66_151
	movq	%rdx, %r8
	.p2align	4
.LBB66_150:
	movzbl	(%rsi,%r8), %r10d
	movb	%r10b, (%rdi,%r8)
	incq	%r8
	decq	%r9
	jne	.LBB66_150
.LBB66_151:
	negq	%rdx
	addq	%r13, %rdx
	addq	$-5, %rdx
	cmpl	$3, %edx
	movq	%r11, %r10
	jb	.LBB66_154
	addq	%rcx, %rax
	addq	$7, %rax
	movq	32(%rsp), %rcx
	addq	%rbx, %rcx
	.p2align	4
.LBB66_153:
	movzbl	-3(%rax,%r8), %edx
	movb	%dl, -3(%rcx,%r8)
	movzbl	-2(%rax,%r8), %edx
	movb	%dl, -2(%rcx,%r8)
	movzbl	-1(%rax,%r8), %edx
	movb	%dl, -1(%rcx,%r8)
	movzbl	(%rax,%r8), %edx
	movb	%dl, (%rcx,%r8)
	addq	$4, %r8
	cmpq	%r8, %r10
	jne	.LBB66_153
	jmp	.LBB66_154
.LBB66_34:
	leaq	4(%rbp), %rdi
	movq	%rdi, %r8
	subq	%rsi, %r8
	cmpw	$60, %r13w
	jae	.LBB66_55
	cmpq	%r10, %r8
	movq	%r11, 8(%rsp)
	jae	.LBB66_66
	cmpl	$4, %r10d
	jb	.LBB66_37
	movq	%rbp, %r8
	subq	%rax, %r8
	subq	%rcx, %r8
	cmpq	$32, %r8
	jae	.LBB66_108
.LBB66_37:
	xorl	%edx, %edx
.LBB66_164:
	movq	%r10, %r11
	movq	%r13, %r9
	movq	%rdx, %r8
	andq	$3, %r9
	je	.LBB66_167
	movq	%rdx, %r8
	.p2align	4
.LBB66_166:
	movzbl	(%rsi,%r8), %r10d
	movb	%r10b, (%rdi,%r8)
	incq	%r8
	decq	%r9
	jne	.LBB66_166
.LBB66_167:
	negq	%rdx
	addq	%r13, %rdx
	addq	$-5, %rdx
	cmpl	$3, %edx
	movq	%r11, %r10
	jb	.LBB66_170
	addq	%rcx, %rax
	addq	$7, %rax
	movq	32(%rsp), %rcx
	addq	%rbx, %rcx
	.p2align	4
.LBB66_169:
	movzbl	-3(%rax,%r8), %edx
	movb	%dl, -3(%rcx,%r8)
	movzbl	-2(%rax,%r8), %edx
	movb	%dl, -2(%rcx,%r8)
	movzbl	-1(%rax,%r8), %edx
	movb	%dl, -1(%rcx,%r8)
	movzbl	(%rax,%r8), %edx
	movb	%dl, (%rcx,%r8)
	addq	$4, %r8
	cmpq	%r8, %r10
	jne	.LBB66_169
	jmp	.LBB66_170
.LBB66_38:
	movq	%r10, %rdx
	movq	%r11, 8(%rsp)
	callq	memmove@PLT
	movq	8(%rsp), %r11
.LBB66_96:
	movw	%r13w, (%rbp)
	movw	%r14w, 2(%rbp)
	movq	%r11, %rcx
	subq	%r13, %rcx
	cmpq	$3, %rcx
	je	.LBB66_101
	cmpl	$2, %ecx
	movq	16(%rsp), %rdx
	je	.LBB66_100
	movq	%r11, %rax
	cmpl	$1, %ecx
	jne	.LBB66_6
	movb	$0, (%rbp,%r13)
	movq	%r11, %rax
	jmp	.LBB66_6
.LBB66_39:
	movups	(%rsi), %xmm0
	movups	%xmm0, (%rax)
.LBB66_40:
	movl	$458772, (%rbp)
	movl	$20, %eax
	jmp	.LBB66_6
.LBB66_41:
	cmpq	$239, %r9
	ja	.LBB66_60
	addq	%rcx, %rax
	movq	%rbp, %rcx
	subq	%rax, %rcx
	cmpq	$31, %rcx
	ja	.LBB66_73
	movl	$9, %eax
	.p2align	4
.LBB66_44:
	movzbl	-5(%r12,%rax), %ecx
	movb	%cl, -5(%rbp,%rax)
	movzbl	-4(%r12,%rax), %ecx
	movb	%cl, -4(%rbp,%rax)
	movzbl	-3(%r12,%rax), %ecx
	movb	%cl, -3(%rbp,%rax)
	movzbl	-2(%r12,%rax), %ecx
	movb	%cl, -2(%rbp,%rax)
	movzbl	-1(%r12,%rax), %ecx
	movb	%cl, -1(%rbp,%rax)
	movzbl	(%r12,%rax), %ecx
	movb	%cl, (%rbp,%rax)
	addq	$6, %rax
	cmpq	$249, %rax
	jne	.LBB66_44
	jmp	.LBB66_74
.LBB66_45:
	movl	(%rsi), %ecx
	movl	%ecx, (%rax)
.LBB66_46:
	movl	$589832, (%rbp)
	movl	$8, %eax
	jmp	.LBB66_6
.LBB66_47:
	cmpq	$311, %r9
	ja	.LBB66_62
	addq	%rcx, %rax
	movq	%rbp, %rcx
	subq	%rax, %rcx
	cmpq	$31, %rcx
	ja	.LBB66_77
	movl	$9, %eax
	.p2align	4
.LBB66_50:
	movzbl	-5(%r12,%rax), %ecx
	movb	%cl, -5(%rbp,%rax)
	movzbl	-4(%r12,%rax), %ecx
	movb	%cl, -4(%rbp,%rax)
	movzbl	-3(%r12,%rax), %ecx
	movb	%cl, -3(%rbp,%rax)
	movzbl	-2(%r12,%rax), %ecx
	movb	%cl, -2(%rbp,%rax)
	movzbl	-1(%r12,%rax), %ecx
	movb	%cl, -1(%rbp,%rax)
	movzbl	(%r12,%rax), %ecx
	movb	%cl, (%rbp,%rax)
	addq	$6, %rax
	cmpq	$321, %rax
	jne	.LBB66_50
	jmp	.LBB66_78
.LBB66_51:
	movl	(%rsi), %ecx
	movl	%ecx, (%rax)
.LBB66_52:
	movl	$65544, (%rbp)
	movl	$8, %eax
	jmp	.LBB66_6
.LBB66_53:
	cmpq	$15, %r8
	ja	.LBB66_64
	movzbl	4(%r12), %eax
	movb	%al, 4(%rbp)
	movzbl	5(%r12), %eax
	movb	%al, 5(%rbp)
	movzbl	6(%r12), %eax
	movb	%al, 6(%rbp)
	movzbl	7(%r12), %eax
	movb	%al, 7(%rbp)
	movzbl	8(%r12), %eax
	movb	%al, 8(%rbp)
	movzbl	9(%r12), %eax
	movb	%al, 9(%rbp)
	movzbl	10(%r12), %eax
	movb	%al, 10(%rbp)
	movzbl	11(%r12), %eax
	movb	%al, 11(%rbp)
	movzbl	12(%r12), %eax
	movb	%al, 12(%rbp)
	movzbl	13(%r12), %eax
	movb	%al, 13(%rbp)
	movzbl	14(%r12), %eax
	movb	%al, 14(%rbp)
	movzbl	15(%r12), %eax
	movb	%al, 15(%rbp)
	movzbl	16(%r12), %eax
	movb	%al, 16(%rbp)
	movzbl	17(%r12), %eax
	movb	%al, 17(%rbp)
	movzbl	18(%r12), %eax
	movb	%al, 18(%rbp)
	movzbl	19(%r12), %eax
	movb	%al, 19(%rbp)
	jmp	.LBB66_65
.LBB66_55:
	cmpq	$55, %r8
	ja	.LBB66_67
	movzbl	4(%r12), %eax
	movb	%al, 4(%rbp)
	movzbl	5(%r12), %eax
	movb	%al, 5(%rbp)
	movzbl	6(%r12), %eax
	movb	%al, 6(%rbp)
	movzbl	7(%r12), %eax
	movb	%al, 7(%rbp)
	movzbl	8(%r12), %eax
	movb	%al, 8(%rbp)
	movzbl	9(%r12), %eax
	movb	%al, 9(%rbp)
	movzbl	10(%r12), %eax
	movb	%al, 10(%rbp)
	movzbl	11(%r12), %eax
	movb	%al, 11(%rbp)
	movzbl	12(%r12), %eax
	movb	%al, 12(%rbp)
	movzbl	13(%r12), %eax
	movb	%al, 13(%rbp)
	movzbl	14(%r12), %eax
	movb	%al, 14(%rbp)
	movzbl	15(%r12), %eax
	movb	%al, 15(%rbp)
	movzbl	16(%r12), %eax
	movb	%al, 16(%rbp)
	movzbl	17(%r12), %eax
	movb	%al, 17(%rbp)
	movzbl	18(%r12), %eax
	movb	%al, 18(%rbp)
	movzbl	19(%r12), %eax
	movb	%al, 19(%rbp)
	movzbl	20(%r12), %eax
	movb	%al, 20(%rbp)
	movzbl	21(%r12), %eax
	movb	%al, 21(%rbp)
	movzbl	22(%r12), %eax
	movb	%al, 22(%rbp)
	movzbl	23(%r12), %eax
	movb	%al, 23(%rbp)
	movzbl	24(%r12), %eax
	movb	%al, 24(%rbp)
	movzbl	25(%r12), %eax
	movb	%al, 25(%rbp)
	movzbl	26(%r12), %eax
	movb	%al, 26(%rbp)
	movzbl	27(%r12), %eax
	movb	%al, 27(%rbp)
	movzbl	28(%r12), %eax
	movb	%al, 28(%rbp)
	movzbl	29(%r12), %eax
	movb	%al, 29(%rbp)
	movzbl	30(%r12), %eax
	movb	%al, 30(%rbp)
	movzbl	31(%r12), %eax
	movb	%al, 31(%rbp)
	movzbl	32(%r12), %eax
	movb	%al, 32(%rbp)
	movzbl	33(%r12), %eax
	movb	%al, 33(%rbp)
	movzbl	34(%r12), %eax
	movb	%al, 34(%rbp)
	movzbl	35(%r12), %eax
	movb	%al, 35(%rbp)
	movzbl	36(%r12), %eax
	movb	%al, 36(%rbp)
	movzbl	37(%r12), %eax
	movb	%al, 37(%rbp)
	movzbl	38(%r12), %eax
	movb	%al, 38(%rbp)
	movzbl	39(%r12), %eax
	movb	%al, 39(%rbp)
	movzbl	40(%r12), %eax
	movb	%al, 40(%rbp)
	movzbl	41(%r12), %eax
	movb	%al, 41(%rbp)
	movzbl	42(%r12), %eax
	movb	%al, 42(%rbp)
	movzbl	43(%r12), %eax
	movb	%al, 43(%rbp)
	movzbl	44(%r12), %eax
	movb	%al, 44(%rbp)
	movzbl	45(%r12), %eax
	movb	%al, 45(%rbp)
	movzbl	46(%r12), %eax
	movb	%al, 46(%rbp)
	movzbl	47(%r12), %eax
	movb	%al, 47(%rbp)
	movzbl	48(%r12), %eax
	movb	%al, 48(%rbp)
	movzbl	49(%r12), %eax
	movb	%al, 49(%rbp)
	movzbl	50(%r12), %eax
	movb	%al, 50(%rbp)
	movzbl	51(%r12), %eax
	movb	%al, 51(%rbp)
	movzbl	52(%r12), %eax
	movb	%al, 52(%rbp)
	movzbl	53(%r12), %eax
	movb	%al, 53(%rbp)
	movzbl	54(%r12), %eax
	movb	%al, 54(%rbp)
	movzbl	55(%r12), %eax
	movb	%al, 55(%rbp)
	movzbl	56(%r12), %eax
	movb	%al, 56(%rbp)
	movzbl	57(%r12), %eax
	movb	%al, 57(%rbp)
	movzbl	58(%r12), %eax
	movb	%al, 58(%rbp)
	movzbl	59(%r12), %eax
	movb	%al, 59(%rbp)
	jmp	.LBB66_68
.LBB66_100:
	movw	$0, (%rbp,%r13)
	movq	%r11, %rax
	jmp	.LBB66_6
.LBB66_101:
	movw	$0, (%rbp,%r13)
	movb	$0, 2(%rbp,%r13)
	movq	%r11, %rax
	movq	16(%rsp), %rdx
	jmp	.LBB66_6
.LBB66_59:
	movq	%r10, %rdx
	movq	%r10, %r14
	callq	memmove@PLT
	movq	%r14, %r10
.LBB66_123:
	cmpl	$239, %r10d
	je	.LBB66_4
	movl	$243, %edx
	subq	%r13, %rdx
	addq	%rbp, %r13
	movq	%r13, %rdi
	xorl	%esi, %esi
	callq	memset@PLT
	jmp	.LBB66_4
.LBB66_60:
	movl	$240, %edx
	movq	%r11, %r14
	callq	memmove@PLT
	movq	%r14, %r11
	movq	16(%rsp), %rdx
	jmp	.LBB66_74
.LBB66_61:
	movq	%r10, %rdx
	movq	%r10, %r14
	callq	memmove@PLT
	movq	%r14, %r10
.LBB66_138:
	cmpl	$311, %r10d
	je	.LBB66_140
	movl	$315, %edx
	subq	%r13, %rdx
	addq	%rbp, %r13
	movq	%r13, %rdi
	xorl	%esi, %esi
	callq	memset@PLT
.LBB66_140:
	movb	$0, 315(%rbp)
	movl	$196924, (%rbp)
	movl	$316, %eax
	jmp	.LBB66_5
.LBB66_62:
	movl	$312, %edx
	movq	%r11, %r14
	callq	memmove@PLT
	movq	%r14, %r11
	movq	16(%rsp), %rdx
	jmp	.LBB66_78
.LBB66_63:
	movq	%r10, %rdx
	movq	%r10, %r14
	callq	memmove@PLT
	movq	%r14, %r10
.LBB66_154:
	cmpl	$15, %r10d
	je	.LBB66_156
	movl	$19, %edx
	subq	%r13, %rdx
	addq	%rbp, %r13
	movq	%r13, %rdi
	xorl	%esi, %esi
	callq	memset@PLT
.LBB66_156:
	movb	$0, 19(%rbp)
	movl	$327700, (%rbp)
	movl	$20, %eax
	jmp	.LBB66_5
.LBB66_64:
	movups	(%rsi), %xmm0
	movups	%xmm0, (%rdi)
.LBB66_65:
	movl	$327700, (%rbp)
	movl	$20, %eax
	jmp	.LBB66_6
.LBB66_66:
	movq	%r10, %rdx
	movq	%r10, %r14
	callq	memmove@PLT
	movq	%r14, %r10
.LBB66_170:
	cmpl	$55, %r10d
	je	.LBB66_172
	movl	$59, %edx
	subq	%r13, %rdx
	addq	%rbp, %r13
	movq	%r13, %rdi
	xorl	%esi, %esi
	callq	memset@PLT
.LBB66_172:
	movb	$0, 59(%rbp)
	movl	$393276, (%rbp)
	movl	$60, %eax
	jmp	.LBB66_5
.LBB66_67:
	movups	(%rsi), %xmm0
	movups	16(%rsi), %xmm1
	movups	32(%rsi), %xmm2
	movq	48(%rsi), %rax
	movq	%rax, 48(%rdi)
	movups	%xmm2, 32(%rdi)
	movups	%xmm1, 16(%rdi)
	movups	%xmm0, (%rdi)
.LBB66_68:
	movl	$393276, (%rbp)
	movl	$60, %eax
	jmp	.LBB66_6
.LBB66_69:
	cmpl	$32, %r10d
	jae	.LBB66_83
	xorl	%edx, %edx
	jmp	.LBB66_87
.LBB66_73:
	movups	4(%r12), %xmm0
	movups	20(%r12), %xmm1
	movups	%xmm0, 4(%rbp)
	movups	%xmm1, 20(%rbp)
	movups	36(%r12), %xmm0
	movups	52(%r12), %xmm1
	movups	%xmm0, 36(%rbp)
	movups	%xmm1, 52(%rbp)
	movups	68(%r12), %xmm0
	movups	84(%r12), %xmm1
	movups	%xmm0, 68(%rbp)
	movups	%xmm1, 84(%rbp)
	movups	100(%r12), %xmm0
	movups	116(%r12), %xmm1
	movups	%xmm0, 100(%rbp)
	movups	%xmm1, 116(%rbp)
	movups	132(%r12), %xmm0
	movups	148(%r12), %xmm1
	movups	%xmm0, 132(%rbp)
	movups	%xmm1, 148(%rbp)
	movups	164(%r12), %xmm0
	movups	180(%r12), %xmm1
	movups	%xmm0, 164(%rbp)
	movups	%xmm1, 180(%rbp)
	movups	196(%r12), %xmm0
	movups	212(%r12), %xmm1
	movups	%xmm0, 196(%rbp)
	movups	%xmm1, 212(%rbp)
	movups	228(%r12), %xmm0
	movups	%xmm0, 228(%rbp)
.LBB66_74:
	movl	$131316, (%rbp)
	movl	$244, %eax
	jmp	.LBB66_6
.LBB66_77:
	movups	4(%r12), %xmm0
	movups	20(%r12), %xmm1
	movups	%xmm0, 4(%rbp)
	movups	%xmm1, 20(%rbp)
	movups	36(%r12), %xmm0
	movups	52(%r12), %xmm1
	movups	%xmm0, 36(%rbp)
	movups	%xmm1, 52(%rbp)
	movups	68(%r12), %xmm0
	movups	84(%r12), %xmm1
	movups	%xmm0, 68(%rbp)
	movups	%xmm1, 84(%rbp)
	movups	100(%r12), %xmm0
	movups	116(%r12), %xmm1
	movups	%xmm0, 100(%rbp)
	movups	%xmm1, 116(%rbp)
	movups	132(%r12), %xmm0
	movups	148(%r12), %xmm1
	movups	%xmm0, 132(%rbp)
	movups	%xmm1, 148(%rbp)
	movups	164(%r12), %xmm0
	movups	180(%r12), %xmm1
	movups	%xmm0, 164(%rbp)
	movups	%xmm1, 180(%rbp)
	movups	196(%r12), %xmm0
	movups	212(%r12), %xmm1
	movups	%xmm0, 196(%rbp)
	movups	%xmm1, 212(%rbp)
	movups	228(%r12), %xmm0
	movups	244(%r12), %xmm1
	movups	%xmm0, 228(%rbp)
	movups	%xmm1, 244(%rbp)
	movups	260(%r12), %xmm0
	movups	276(%r12), %xmm1
	movups	%xmm0, 260(%rbp)
	movups	%xmm1, 276(%rbp)
	movq	292(%r12), %rax
	movq	%rax, 292(%rbp)
	movq	300(%r12), %rax
	movq	%rax, 300(%rbp)
	movq	308(%r12), %rax
	movq	%rax, 308(%rbp)
.LBB66_78:
	movl	$196924, (%rbp)
	movl	$316, %eax
	jmp	.LBB66_6
.LBB66_83:
	movq	%r10, %rdx
	andq	$-32, %rdx
	leaq	(%rax,%rcx), %r8
	addq	$20, %r8
	movq	24(%rsp), %r9
	addq	%rbx, %r9
	xorl	%r10d, %r10d
	.p2align	4
.LBB66_84:
	movups	-16(%r8,%r10), %xmm0
	movups	(%r8,%r10), %xmm1
	movups	%xmm0, -16(%r9,%r10)
	movups	%xmm1, (%r9,%r10)
	addq	$32, %r10
	cmpq	%r10, %rdx
	jne	.LBB66_84
	leaq	-4(%r13), %r10
	cmpl	%edx, %r10d
	je	.LBB66_96
	testb	$28, %r10b
	je	.LBB66_90
.LBB66_87:
	movq	%rdx, %r8
	movq	%r10, %rdx
	andq	$-4, %rdx
	.p2align	4
.LBB66_88:
	movl	(%rsi,%r8), %r9d
	movl	%r9d, (%rdi,%r8)
	addq	$4, %r8
	cmpq	%r8, %rdx
	jne	.LBB66_88
	cmpl	%edx, %r10d
	je	.LBB66_96
	jmp	.LBB66_90
.LBB66_102:
	cmpl	$32, %r10d
	jae	.LBB66_110
	xorl	%edx, %edx
	jmp	.LBB66_114
.LBB66_104:
	cmpl	$32, %r10d
	jae	.LBB66_125
	xorl	%edx, %edx
	jmp	.LBB66_129
.LBB66_106:
	cmpl	$32, %r10d
	jae	.LBB66_141
	xorl	%edx, %edx
	jmp	.LBB66_145
.LBB66_108:
	cmpl	$32, %r10d
	jae	.LBB66_157
	xorl	%edx, %edx
	jmp	.LBB66_161
.LBB66_110:
	movq	%r10, %rdx
	andq	$-32, %rdx
	leaq	(%rax,%rcx), %r8
	addq	$20, %r8
	movq	24(%rsp), %r9
	addq	%rbx, %r9
	xorl	%r10d, %r10d
	.p2align	4
.LBB66_111:
	movups	-16(%r8,%r10), %xmm0
	movups	(%r8,%r10), %xmm1
	movups	%xmm0, -16(%r9,%r10)
	movups	%xmm1, (%r9,%r10)
	addq	$32, %r10
	cmpq	%r10, %rdx
	jne	.LBB66_111
	leaq	-4(%r13), %r10
	cmpl	%edx, %r10d
	je	.LBB66_123
	testb	$28, %r10b
	je	.LBB66_117
.LBB66_114:
	movq	%rdx, %r8
	movq	%r10, %rdx
	andq	$-4, %rdx
	.p2align	4
.LBB66_115:
	movl	(%rsi,%r8), %r9d
	movl	%r9d, (%rdi,%r8)
	addq	$4, %r8
	cmpq	%r8, %rdx
	jne	.LBB66_115
	cmpl	%edx, %r10d
	je	.LBB66_123
	jmp	.LBB66_117
.LBB66_125:
	movq	%r10, %rdx
	andq	$-32, %rdx
	leaq	(%rax,%rcx), %r8
	addq	$20, %r8
	movq	24(%rsp), %r9
	addq	%rbx, %r9
	xorl	%r10d, %r10d
	.p2align	4
.LBB66_126:
	movups	-16(%r8,%r10), %xmm0
	movups	(%r8,%r10), %xmm1
	movups	%xmm0, -16(%r9,%r10)
	movups	%xmm1, (%r9,%r10)
	addq	$32, %r10
	cmpq	%r10, %rdx
	jne	.LBB66_126
	leaq	-4(%r13), %r10
	cmpl	%edx, %r10d
	je	.LBB66_138
	testb	$28, %r10b
	je	.LBB66_132
.LBB66_129:
	movq	%rdx, %r8
	movq	%r10, %rdx
	andq	$-4, %rdx
	.p2align	4
.LBB66_130:
	movl	(%rsi,%r8), %r9d
	movl	%r9d, (%rdi,%r8)
	addq	$4, %r8
	cmpq	%r8, %rdx
	jne	.LBB66_130
	cmpl	%edx, %r10d
	je	.LBB66_138
	jmp	.LBB66_132
.LBB66_141:
	movq	%r10, %rdx
	andq	$-32, %rdx
	leaq	(%rax,%rcx), %r8
	addq	$20, %r8
	movq	24(%rsp), %r9
	addq	%rbx, %r9
	xorl	%r10d, %r10d
	.p2align	4
.LBB66_142:
	movups	-16(%r8,%r10), %xmm0
	movups	(%r8,%r10), %xmm1
	movups	%xmm0, -16(%r9,%r10)
	movups	%xmm1, (%r9,%r10)
	addq	$32, %r10
	cmpq	%r10, %rdx
	jne	.LBB66_142
	leaq	-4(%r13), %r10
	cmpl	%edx, %r10d
	je	.LBB66_154
	testb	$28, %r10b
	je	.LBB66_148
.LBB66_145:
	movq	%rdx, %r8
	movq	%r10, %rdx
	andq	$-4, %rdx
	.p2align	4
.LBB66_146:
	movl	(%rsi,%r8), %r9d
	movl	%r9d, (%rdi,%r8)
	addq	$4, %r8
	cmpq	%r8, %rdx
	jne	.LBB66_146
	cmpl	%edx, %r10d
	je	.LBB66_154
	jmp	.LBB66_148
.LBB66_157:
	movq	%r10, %rdx
	andq	$-32, %rdx
	leaq	(%rax,%rcx), %r8
	addq	$20, %r8
	movq	24(%rsp), %r9
	addq	%rbx, %r9
	xorl	%r10d, %r10d
	.p2align	4
.LBB66_158:
	movups	-16(%r8,%r10), %xmm0
	movups	(%r8,%r10), %xmm1
	movups	%xmm0, -16(%r9,%r10)
	movups	%xmm1, (%r9,%r10)
	addq	$32, %r10
	cmpq	%r10, %rdx
	jne	.LBB66_158
	leaq	-4(%r13), %r10
	cmpl	%edx, %r10d
	je	.LBB66_170
	testb	$28, %r10b
	je	.LBB66_164
.LBB66_161:
	movq	%rdx, %r8
	movq	%r10, %rdx
	andq	$-4, %rdx
	.p2align	4
.LBB66_162:
	movl	(%rsi,%r8), %r9d
	movl	%r9d, (%rdi,%r8)
	addq	$4, %r8
	cmpq	%r8, %rdx
	jne	.LBB66_162
	cmpl	%edx, %r10d
	je	.LBB66_170
	jmp	.LBB66_164
.Lfunc_end66:
	.size	nla_wire.members.write_each.97809315b2b26985, .Lfunc_end66-nla_wire.members.write_each.97809315b2b26985
	.cfi_endproc
	.section	.rodata.nla_wire.members.write_each.97809315b2b26985,"a",@progbits
	.p2align	2, 0x0
.LJTI66_0:
	.long	.LBB66_12-.LJTI66_0
	.long	.LBB66_19-.LJTI66_0
	.long	.LBB66_26-.LJTI66_0
	.long	.LBB66_14-.LJTI66_0
	.long	.LBB66_30-.LJTI66_0
	.long	.LBB66_34-.LJTI66_0
	.long	.LBB66_17-.LJTI66_0
	.long	.LBB66_23-.LJTI66_0
	.long	.LBB66_24-.LJTI66_0

	.section	.text.nla_wire.members.write_each.7562298f77a88fdb,"ax",@progbits
	.p2align	4
	.type	nla_wire.members.write_each.7562298f77a88fdb,@function
nla_wire.members.write_each.7562298f77a88fdb:
	.cfi_startproc
	pushq	%rbp
	.cfi_def_cfa_offset 16
	pushq	%r15
	.cfi_def_cfa_offset 24
	pushq	%r14
	.cfi_def_cfa_offset 32
	pushq	%r13
	.cfi_def_cfa_offset 40
	pushq	%r12
	.cfi_def_cfa_offset 48
	pushq	%rbx
	.cfi_def_cfa_offset 56
	subq	$40, %rsp
	.cfi_def_cfa_offset 96
	.cfi_offset %rbx, -56
	.cfi_offset %r12, -48
	.cfi_offset %r13, -40
	.cfi_offset %r14, -32
	.cfi_offset %r15, -24
	.cfi_offset %rbp, -16
	testq	%rsi, %rsi
	je	.LBB67_41
	movq	%rsi, %r15
	movq	%rdi, %r12
	leaq	20(%rdx), %rax
	movq	%rax, 24(%rsp)
	leaq	7(%rdx), %rax
	movq	%rax, 32(%rsp)
	xorl	%ebx, %ebx
	xorl	%r13d, %r13d
	movq	%rdx, 16(%rsp)
	jmp	.LBB67_5
	.p2align	4
.LBB67_2:
	movzbl	(%rsi), %eax
	movb	%al, 4(%r11)
	movl	$131077, (%r11)
	movw	$0, 5(%r11)
	movb	$0, 7(%r11)
.LBB67_3:
	movl	$8, %eax
.LBB67_4:
	addq	%rax, %rbx
	cmpq	%r13, %r15
	jbe	.LBB67_42
.LBB67_5:
	subq	%r13, %r15
	cmpq	$4, %r15
	jb	.LBB67_42
	movq	%r12, %rax
	movq	%r13, %rcx
	addq	%r13, %r12
	movzwl	(%r12), %r14d
	cmpw	$4, %r14w
	jb	.LBB67_42
	cmpq	%r14, %r15
	jb	.LBB67_42
	movzwl	2(%r12), %ebp
	leaq	4(%r12), %rsi
	leal	3(%r14), %r13d
	andl	$-4, %r13d
	leaq	(%rdx,%rbx), %r11
	movl	%ebp, %r8d
	andl	$16383, %r8d
	cmpl	$2, %r8d
	je	.LBB67_2
	leaq	(%rdx,%rbx), %rdi
	addq	$4, %rdi
	cmpl	$1, %r8d
	jne	.LBB67_12
	movq	%rdi, %rax
	subq	%rsi, %rax
	cmpq	$3, %rax
	ja	.LBB67_15
	movzbl	4(%r12), %eax
	movb	%al, 4(%r11)
	movzbl	5(%r12), %eax
	movb	%al, 5(%r11)
	movzbl	6(%r12), %eax
	movb	%al, 6(%r11)
	movzbl	7(%r12), %eax
	movb	%al, 7(%r11)
	jmp	.LBB67_16
	.p2align	4
.LBB67_12:
	leaq	-4(%r14), %rdx
	movq	%rdi, %r8
	subq	%rsi, %r8
	cmpq	%rdx, %r8
	jae	.LBB67_17
	cmpl	$4, %edx
	movq	%r11, 8(%rsp)
	jb	.LBB67_14
	movq	%r11, %r9
	subq	%rax, %r9
	subq	%rcx, %r9
	cmpq	$32, %r9
	jae	.LBB67_20
.LBB67_14:
	xorl	%r8d, %r8d
.LBB67_29:
	movq	%r14, %r10
	movq	%r8, %r9
	andq	$3, %r10
	je	.LBB67_32
	movq	%r8, %r9
	.p2align	4
.LBB67_31:
	movzbl	(%rsi,%r9), %r11d
	movb	%r11b, (%rdi,%r9)
	incq	%r9
	decq	%r10
	jne	.LBB67_31
.LBB67_32:
	negq	%r8
	leaq	(%r14,%r8), %rsi
	addq	$-5, %rsi
	cmpl	$3, %esi
	movq	8(%rsp), %r11
	jb	.LBB67_35
	addq	%rcx, %rax
	addq	$7, %rax
	movq	32(%rsp), %rcx
	addq	%rbx, %rcx
	.p2align	4
.LBB67_34:
	movzbl	-3(%rax,%r9), %esi
	movb	%sil, -3(%rcx,%r9)
	movzbl	-2(%rax,%r9), %esi
	movb	%sil, -2(%rcx,%r9)
	movzbl	-1(%rax,%r9), %esi
	movb	%sil, -1(%rcx,%r9)
	movzbl	(%rax,%r9), %esi
	movb	%sil, (%rcx,%r9)
	addq	$4, %r9
	cmpq	%r9, %rdx
	jne	.LBB67_34
	jmp	.LBB67_35
.LBB67_15:
	movl	(%rsi), %eax
	movl	%eax, (%rdi)
.LBB67_16:
	movl	$65544, (%r11)
	jmp	.LBB67_3
.LBB67_17:
	movl	%ebp, 4(%rsp)
	movq	%r11, %rbp
	callq	memmove@PLT
	movq	%rbp, %r11
	movl	4(%rsp), %ebp
.LBB67_35:
	movw	%r14w, (%r11)
	movw	%bp, 2(%r11)
	movq	%r13, %rcx
	subq	%r14, %rcx
	cmpq	$3, %rcx
	je	.LBB67_40
	cmpl	$2, %ecx
	movq	16(%rsp), %rdx
	je	.LBB67_39
	movq	%r13, %rax
	cmpl	$1, %ecx
	jne	.LBB67_4
	movb	$0, (%r11,%r14)
	movq	%r13, %rax
	jmp	.LBB67_4
.LBB67_39:
	movw	$0, (%r11,%r14)
	movq	%r13, %rax
	jmp	.LBB67_4
.LBB67_40:
	movw	$0, (%r11,%r14)
	movb	$0, 2(%r11,%r14)
	movq	%r13, %rax
	movq	16(%rsp), %rdx
	jmp	.LBB67_4
.LBB67_20:
	cmpl	$32, %edx
	jae	.LBB67_22
	xorl	%r8d, %r8d
	jmp	.LBB67_26
.LBB67_22:
	movq	%rdx, %r8
	andq	$-32, %r8
	leaq	(%rax,%rcx), %r9
	addq	$20, %r9
	movq	24(%rsp), %r10
	addq	%rbx, %r10
	xorl	%r11d, %r11d
	.p2align	4
.LBB67_23:
	movups	-16(%r9,%r11), %xmm0
	movups	(%r9,%r11), %xmm1
	movups	%xmm0, -16(%r10,%r11)
	movups	%xmm1, (%r10,%r11)
	addq	$32, %r11
	cmpq	%r11, %r8
	jne	.LBB67_23
	cmpl	%r8d, %edx
	movq	8(%rsp), %r11
	je	.LBB67_35
	testb	$28, %dl
	je	.LBB67_29
.LBB67_26:
	movq	%r8, %r9
	movq	%rdx, %r8
	andq	$-4, %r8
	.p2align	4
.LBB67_27:
	movl	(%rsi,%r9), %r10d
	movl	%r10d, (%rdi,%r9)
	addq	$4, %r9
	cmpq	%r9, %r8
	jne	.LBB67_27
	cmpl	%r8d, %edx
	je	.LBB67_35
	jmp	.LBB67_29
.LBB67_41:
	xorl	%ebx, %ebx
.LBB67_42:
	movq	%rbx, %rax
	addq	$40, %rsp
	.cfi_def_cfa_offset 56
	popq	%rbx
	.cfi_def_cfa_offset 48
	popq	%r12
	.cfi_def_cfa_offset 40
	popq	%r13
	.cfi_def_cfa_offset 32
	popq	%r14
	.cfi_def_cfa_offset 24
	popq	%r15
	.cfi_def_cfa_offset 16
	popq	%rbp
	.cfi_def_cfa_offset 8
	retq
.Lfunc_end67:
	.size	nla_wire.members.write_each.7562298f77a88fdb, .Lfunc_end67-nla_wire.members.write_each.7562298f77a88fdb
	.cfi_endproc

	.section	.text.link_state.state_encoding.clear_message,"ax",@progbits
	.p2align	4
	.type	link_state.state_encoding.clear_message,@function
link_state.state_encoding.clear_message:
	.cfi_startproc
	pushq	%rbp
	.cfi_def_cfa_offset 16
	pushq	%r15
	.cfi_def_cfa_offset 24
	pushq	%r14
	.cfi_def_cfa_offset 32
	pushq	%r13
	.cfi_def_cfa_offset 40
	pushq	%r12
	.cfi_def_cfa_offset 48
	pushq	%rbx
	.cfi_def_cfa_offset 56
	subq	$40, %rsp
	.cfi_def_cfa_offset 96
	.cfi_offset %rbx, -56
	.cfi_offset %r12, -48
	.cfi_offset %r13, -40
	.cfi_offset %r14, -32
	.cfi_offset %r15, -24
	.cfi_offset %rbp, -16
	movq	%rsi, %r14
	movq	%rdi, %r12
	movzbl	(%rdi), %eax
	cmpq	$45, %rax
	ja	.LBB68_3
	leaq	.LJTI68_0(%rip), %rcx
	movslq	(%rcx,%rax,4), %rdx
	addq	%rcx, %rdx
	jmpq	*%rdx
.LBB68_2:
	xorl	%eax, %eax
	jmp	.LBB68_8
.LBB68_3:
	movzwl	%ax, %eax
	shll	$8, %eax
	orl	$5, %eax
	jmp	.LBB68_8
.LBB68_4:
	movw	$2, %ax
	jmp	.LBB68_8
.LBB68_5:
	movw	$1, %ax
	jmp	.LBB68_8
.LBB68_6:
	movw	$3, %ax
	jmp	.LBB68_8
.LBB68_7:
	movw	$4, %ax
.LBB68_8:
	movl	$0, 12(%r12)
	movl	%eax, 20(%rsp)
	movw	%ax, 18(%rsp)
	addq	$-16, %r14
	je	.LBB68_57
	addq	$16, %r12
	xorl	%r15d, %r15d
	movq	%r14, 32(%rsp)
	movq	%r12, 24(%rsp)
	jmp	.LBB68_12
	.p2align	4
.LBB68_10:
	leaq	18(%rsp), %rcx
	movq	%r12, %rdi
	movq	%r14, %rsi
	movq	%r15, %rdx
	callq	link_state.walk.fill_last.9e3a67d5997cd6a9
	movq	%rax, %r15
.LBB68_11:
	cmpq	%r14, %r15
	jae	.LBB68_57
.LBB68_12:
	movq	%r14, %rax
	subq	%r15, %rax
	cmpq	$7, %rax
	jbe	.LBB68_10
	leaq	(%r12,%r15), %rdi
	movzwl	(%r12,%r15), %ebx
	leal	-9(%rbx), %ecx
	cmpw	$-4, %cx
	jb	.LBB68_16
	movzwl	2(%rdi), %ecx
	andl	$16383, %ecx
	cmpl	$48, %ecx
	ja	.LBB68_55
	movabsq	$439839090806912, %rdx
	btq	%rcx, %rdx
	jae	.LBB68_55
.LBB68_16:
	cmpw	$4, %bx
	jb	.LBB68_57
	cmpq	%rbx, %rax
	jb	.LBB68_57
	movzwl	2(%rdi), %eax
	leaq	-4(%rbx), %r12
	andl	$16383, %eax
	addl	$-7, %eax
	cmpl	$41, %eax
	ja	.LBB68_54
	addq	$4, %rdi
	leaq	.LJTI68_1(%rip), %rcx
	movslq	(%rcx,%rax,4), %rax
	addq	%rcx, %rax
	movq	%rdi, 8(%rsp)
	jmpq	*%rax
.LBB68_20:
	cmpw	$4, %bx
	je	.LBB68_54
	movzwl	%bx, %eax
	cmpl	$8, %eax
	jne	.LBB68_51
	movl	$0, (%rdi)
	jmp	.LBB68_54
.LBB68_51:
	movq	%rbx, %r14
	addq	$-5, %r14
	je	.LBB68_53
	movq	8(%rsp), %rdi
	xorl	%esi, %esi
	movq	%r14, %rdx
	callq	memset@PLT
	movq	8(%rsp), %rdi
.LBB68_53:
	movb	$0, (%rdi,%r14)
	jmp	.LBB68_54
.LBB68_23:
	movq	%r12, %rsi
	callq	link_state.level.info.fill_link_info.0
	jmp	.LBB68_54
.LBB68_24:
	cmpb	$0, 20(%rsp)
	jne	.LBB68_54
	testq	%r12, %r12
	je	.LBB68_54
	xorl	%ebp, %ebp
	jmp	.LBB68_28
	.p2align	4
.LBB68_27:
	movq	%r12, %rsi
	movq	%rbp, %rdx
	callq	link_state.walk.fill_last.7ca78b2c7e6ecc17
	movq	%rax, %rbp
	cmpq	%r12, %rbp
	movq	8(%rsp), %rdi
	jae	.LBB68_54
.LBB68_28:
	movq	%r12, %rax
	subq	%rbp, %rax
	cmpq	$7, %rax
	jbe	.LBB68_27
	movzwl	(%rdi,%rbp), %r13d
	cmpw	$4, %r13w
	jb	.LBB68_54
	cmpq	%r13, %rax
	jb	.LBB68_54
	addq	%rbp, %rdi
	movzwl	2(%rdi), %eax
	leaq	-4(%r13), %r14
	andl	$16383, %eax
	cmpw	$10, %ax
	jne	.LBB68_33
	addq	$4, %rdi
	movq	%r14, %rsi
	callq	link_state.walk.fill_list.3c634cd01f519dfb
.LBB68_33:
	leaq	-1(%r13), %rax
	andq	$-4, %rax
	addq	%rbp, %r13
	addq	%rax, %rbp
	addq	$4, %rbp
	subq	%r14, %rax
	movq	%r12, %rcx
	subq	%r13, %rcx
	cmpq	%rcx, %rax
	cmovaeq	%r12, %rbp
	cmpq	%r12, %rbp
	movq	8(%rsp), %rdi
	jb	.LBB68_28
	jmp	.LBB68_54
.LBB68_34:
	movzbl	20(%rsp), %eax
	movl	$51, %ecx
	btl	%eax, %ecx
	jb	.LBB68_54
	movq	%r12, %rsi
	cmpl	$2, %eax
	jne	.LBB68_56
	callq	link_state.walk.fill_list.7c7781c0b5effb6b
	jmp	.LBB68_54
.LBB68_39:
	testq	%r12, %r12
	je	.LBB68_54
	xorl	%ebp, %ebp
	jmp	.LBB68_42
	.p2align	4
.LBB68_41:
	movq	%r12, %rsi
	movq	%rbp, %rdx
	callq	link_state.walk.fill_last.ef36a0c61422138b
	movq	%rax, %rbp
	cmpq	%r12, %rbp
	movq	8(%rsp), %rdi
	jae	.LBB68_54
.LBB68_42:
	movq	%r12, %rax
	subq	%rbp, %rax
	cmpq	$7, %rax
	jbe	.LBB68_41
	movzwl	(%rdi,%rbp), %r13d
	cmpw	$4, %r13w
	jb	.LBB68_54
	cmpq	%r13, %rax
	jb	.LBB68_54
	addq	%rbp, %rdi
	movzwl	2(%rdi), %eax
	leaq	-4(%r13), %r14
	andl	$16383, %eax
	cmpw	$1, %ax
	jne	.LBB68_47
	addq	$4, %rdi
	movq	%r14, %rsi
	callq	link_state.walk.fill_list.50feb428cb3580bb
.LBB68_47:
	leaq	-1(%r13), %rax
	andq	$-4, %rax
	addq	%rbp, %r13
	addq	%rax, %rbp
	addq	$4, %rbp
	subq	%r14, %rax
	movq	%r12, %rcx
	subq	%r13, %rcx
	cmpq	%rcx, %rax
	cmovaeq	%r12, %rbp
	cmpq	%r12, %rbp
	movq	8(%rsp), %rdi
	jb	.LBB68_42
	jmp	.LBB68_54
.LBB68_55:
	addq	$8, %r15
	jmp	.LBB68_11
.LBB68_56:
	callq	link_state.walk.fill_list.3c634cd01f519dfb
	.p2align	4
.LBB68_54:
	leaq	-1(%rbx), %rax
	andq	$-4, %rax
	addq	%r15, %rbx
	addq	%rax, %r15
	addq	$4, %r15
	subq	%r12, %rax
	movq	32(%rsp), %r14
	movq	%r14, %rcx
	subq	%rbx, %rcx
	cmpq	%rcx, %rax
	cmovaeq	%r14, %r15
	movq	24(%rsp), %r12
	jmp	.LBB68_11
.LBB68_57:
	addq	$40, %rsp
	.cfi_def_cfa_offset 56
	popq	%rbx
	.cfi_def_cfa_offset 48
	popq	%r12
	.cfi_def_cfa_offset 40
	popq	%r13
	.cfi_def_cfa_offset 32
	popq	%r14
	.cfi_def_cfa_offset 24
	popq	%r15
	.cfi_def_cfa_offset 16
	popq	%rbp
	.cfi_def_cfa_offset 8
	retq
.Lfunc_end68:
	.size	link_state.state_encoding.clear_message, .Lfunc_end68-link_state.state_encoding.clear_message
	.cfi_endproc
	.section	.rodata.link_state.state_encoding.clear_message,"a",@progbits
	.p2align	2, 0x0
.LJTI68_0:
	.long	.LBB68_2-.LJTI68_0
	.long	.LBB68_3-.LJTI68_0
	.long	.LBB68_5-.LJTI68_0
	.long	.LBB68_3-.LJTI68_0
	.long	.LBB68_3-.LJTI68_0
	.long	.LBB68_3-.LJTI68_0
	.long	.LBB68_3-.LJTI68_0
	.long	.LBB68_4-.LJTI68_0
	.long	.LBB68_3-.LJTI68_0
	.long	.LBB68_3-.LJTI68_0
	.long	.LBB68_6-.LJTI68_0
	.long	.LBB68_3-.LJTI68_0
	.long	.LBB68_3-.LJTI68_0
	.long	.LBB68_3-.LJTI68_0
	.long	.LBB68_3-.LJTI68_0
	.long	.LBB68_3-.LJTI68_0
	.long	.LBB68_3-.LJTI68_0
	.long	.LBB68_3-.LJTI68_0
	.long	.LBB68_3-.LJTI68_0
	.long	.LBB68_3-.LJTI68_0
	.long	.LBB68_3-.LJTI68_0
	.long	.LBB68_3-.LJTI68_0
	.long	.LBB68_3-.LJTI68_0
	.long	.LBB68_3-.LJTI68_0
	.long	.LBB68_3-.LJTI68_0
	.long	.LBB68_3-.LJTI68_0
	.long	.LBB68_3-.LJTI68_0
	.long	.LBB68_3-.LJTI68_0
	.long	.LBB68_3-.LJTI68_0
	.long	.LBB68_3-.LJTI68_0
	.long	.LBB68_3-.LJTI68_0
	.long	.LBB68_3-.LJTI68_0
	.long	.LBB68_3-.LJTI68_0
	.long	.LBB68_3-.LJTI68_0
	.long	.LBB68_3-.LJTI68_0
	.long	.LBB68_3-.LJTI68_0
	.long	.LBB68_3-.LJTI68_0
	.long	.LBB68_3-.LJTI68_0
	.long	.LBB68_3-.LJTI68_0
	.long	.LBB68_3-.LJTI68_0
	.long	.LBB68_3-.LJTI68_0
	.long	.LBB68_3-.LJTI68_0
	.long	.LBB68_3-.LJTI68_0
	.long	.LBB68_3-.LJTI68_0
	.long	.LBB68_3-.LJTI68_0
	.long	.LBB68_7-.LJTI68_0
.LJTI68_1:
	.long	.LBB68_20-.LJTI68_1
	.long	.LBB68_54-.LJTI68_1
	.long	.LBB68_54-.LJTI68_1
	.long	.LBB68_54-.LJTI68_1
	.long	.LBB68_54-.LJTI68_1
	.long	.LBB68_34-.LJTI68_1
	.long	.LBB68_54-.LJTI68_1
	.long	.LBB68_54-.LJTI68_1
	.long	.LBB68_54-.LJTI68_1
	.long	.LBB68_54-.LJTI68_1
	.long	.LBB68_54-.LJTI68_1
	.long	.LBB68_23-.LJTI68_1
	.long	.LBB68_54-.LJTI68_1
	.long	.LBB68_54-.LJTI68_1
	.long	.LBB68_54-.LJTI68_1
	.long	.LBB68_39-.LJTI68_1
	.long	.LBB68_20-.LJTI68_1
	.long	.LBB68_54-.LJTI68_1
	.long	.LBB68_54-.LJTI68_1
	.long	.LBB68_24-.LJTI68_1
	.long	.LBB68_54-.LJTI68_1
	.long	.LBB68_54-.LJTI68_1
	.long	.LBB68_54-.LJTI68_1
	.long	.LBB68_54-.LJTI68_1
	.long	.LBB68_54-.LJTI68_1
	.long	.LBB68_54-.LJTI68_1
	.long	.LBB68_54-.LJTI68_1
	.long	.LBB68_54-.LJTI68_1
	.long	.LBB68_20-.LJTI68_1
	.long	.LBB68_54-.LJTI68_1
	.long	.LBB68_54-.LJTI68_1
	.long	.LBB68_54-.LJTI68_1
	.long	.LBB68_54-.LJTI68_1
	.long	.LBB68_54-.LJTI68_1
	.long	.LBB68_54-.LJTI68_1
	.long	.LBB68_54-.LJTI68_1
	.long	.LBB68_54-.LJTI68_1
	.long	.LBB68_20-.LJTI68_1
	.long	.LBB68_54-.LJTI68_1
	.long	.LBB68_54-.LJTI68_1
	.long	.LBB68_20-.LJTI68_1
	.long	.LBB68_20-.LJTI68_1

	.section	.text.link_state.walk.fill_last.9e3a67d5997cd6a9,"ax",@progbits
	.p2align	4
	.type	link_state.walk.fill_last.9e3a67d5997cd6a9,@function
link_state.walk.fill_last.9e3a67d5997cd6a9:
	.cfi_startproc
	pushq	%rbp
	.cfi_def_cfa_offset 16
	pushq	%r15
	.cfi_def_cfa_offset 24
	pushq	%r14
	.cfi_def_cfa_offset 32
	pushq	%r13
	.cfi_def_cfa_offset 40
	pushq	%r12
	.cfi_def_cfa_offset 48
	pushq	%rbx
	.cfi_def_cfa_offset 56
	subq	$24, %rsp
	.cfi_def_cfa_offset 80
	.cfi_offset %rbx, -56
	.cfi_offset %r12, -48
	.cfi_offset %r13, -40
	.cfi_offset %r14, -32
	.cfi_offset %r15, -24
	.cfi_offset %rbp, -16
	movq	%rsi, %rbx
	movq	%rsi, %rax
	subq	%rdx, %rax
	cmpq	$4, %rax
	jb	.LBB69_43
	movq	%rdi, %r12
	addq	%rdx, %r12
	movzwl	(%r12), %r13d
	cmpq	%r13, %rax
	setb	%al
	cmpw	$4, %r13w
	setb	%sil
	orb	%al, %sil
	jne	.LBB69_43
	movq	%rdx, 16(%rsp)
	movzwl	2(%r12), %eax
	leaq	-4(%r13), %r15
	andl	$16383, %eax
	addl	$-7, %eax
	cmpl	$41, %eax
	ja	.LBB69_42
	addq	$4, %r12
	leaq	.LJTI69_0(%rip), %rdx
	movslq	(%rdx,%rax,4), %rax
	addq	%rdx, %rax
	jmpq	*%rax
.LBB69_4:
	cmpw	$4, %r13w
	je	.LBB69_5
	movzwl	%r13w, %eax
	cmpl	$8, %eax
	jne	.LBB69_37
	movl	$0, 12(%rsp)
	leaq	12(%rsp), %rax
	movq	%r12, %rcx
	subq	%rax, %rcx
	cmpq	$3, %rcx
	ja	.LBB69_40
	movl	12(%rsp), %eax
	movl	%eax, (%r12)
	movl	$4, %r15d
	jmp	.LBB69_42
.LBB69_37:
	addq	$-5, %r13
	je	.LBB69_39
	movq	%r12, %rdi
	xorl	%esi, %esi
	movq	%r13, %rdx
	callq	memset@PLT
.LBB69_39:
	movb	$0, (%r12,%r13)
	jmp	.LBB69_42
.LBB69_6:
	movq	%r12, %rdi
	movq	%r15, %rsi
	callq	link_state.level.info.fill_link_info.0
	jmp	.LBB69_42
.LBB69_7:
	testq	%r15, %r15
	je	.LBB69_42
	cmpb	$0, (%rcx)
	jne	.LBB69_42
	xorl	%r13d, %r13d
	jmp	.LBB69_11
.LBB69_10:
	movq	%r12, %rdi
	movq	%r15, %rsi
	movq	%r13, %rdx
	callq	link_state.walk.fill_last.7ca78b2c7e6ecc17
	movq	%rax, %r13
	cmpq	%r15, %r13
	jae	.LBB69_42
.LBB69_11:
	movq	%r15, %rax
	subq	%r13, %rax
	cmpq	$7, %rax
	jbe	.LBB69_10
	movzwl	(%r12,%r13), %r14d
	cmpw	$4, %r14w
	jb	.LBB69_42
	cmpq	%r14, %rax
	jb	.LBB69_42
	leaq	(%r12,%r13), %rdi
	movzwl	2(%rdi), %eax
	leaq	-4(%r14), %rbp
	andl	$16383, %eax
	cmpw	$10, %ax
	jne	.LBB69_16
	addq	$4, %rdi
	movq	%rbp, %rsi
	callq	link_state.walk.fill_list.3c634cd01f519dfb
.LBB69_16:
	leaq	-1(%r14), %rax
	andq	$-4, %rax
	addq	%r13, %r14
	addq	%rax, %r13
	addq	$4, %r13
	subq	%rbp, %rax
	movq	%r15, %rcx
	subq	%r14, %rcx
	cmpq	%rcx, %rax
	cmovaeq	%r15, %r13
	cmpq	%r15, %r13
	jb	.LBB69_11
	jmp	.LBB69_42
.LBB69_40:
	movl	$0, (%r12)
	movl	$4, %r15d
	jmp	.LBB69_42
.LBB69_17:
	movzbl	(%rcx), %eax
	movl	$51, %ecx
	btl	%eax, %ecx
	jb	.LBB69_42
	movq	%r12, %rdi
	movq	%r15, %rsi
	cmpl	$2, %eax
	jne	.LBB69_41
	callq	link_state.walk.fill_list.7c7781c0b5effb6b
	jmp	.LBB69_42
.LBB69_22:
	testq	%r15, %r15
	je	.LBB69_5
	xorl	%r13d, %r13d
	jmp	.LBB69_25
.LBB69_24:
	movq	%r12, %rdi
	movq	%r15, %rsi
	movq	%r13, %rdx
	callq	link_state.walk.fill_last.ef36a0c61422138b
	movq	%rax, %r13
	cmpq	%r15, %r13
	jae	.LBB69_42
.LBB69_25:
	movq	%r15, %rax
	subq	%r13, %rax
	cmpq	$7, %rax
	jbe	.LBB69_24
	movzwl	(%r12,%r13), %r14d
	cmpw	$4, %r14w
	jb	.LBB69_42
	cmpq	%r14, %rax
	jb	.LBB69_42
	leaq	(%r12,%r13), %rdi
	movzwl	2(%rdi), %eax
	leaq	-4(%r14), %rbp
	andl	$16383, %eax
	cmpw	$1, %ax
	jne	.LBB69_30
	addq	$4, %rdi
	movq	%rbp, %rsi
	callq	link_state.walk.fill_list.50feb428cb3580bb
.LBB69_30:
	leaq	-1(%r14), %rax
	andq	$-4, %rax
	addq	%r13, %r14
	addq	%rax, %r13
	addq	$4, %r13
	subq	%rbp, %rax
	movq	%r15, %rcx
	subq	%r14, %rcx
	cmpq	%rcx, %rax
	cmovaeq	%r15, %r13
	cmpq	%r15, %r13
	jb	.LBB69_25
	jmp	.LBB69_42
.LBB69_5:
	xorl	%r15d, %r15d
.LBB69_42:
	leaq	3(%r15), %rax
	andq	$-4, %rax
	movq	16(%rsp), %rdx
	leaq	(%rdx,%rax), %rcx
	addq	$4, %rcx
	subq	%r15, %rax
	addq	%rdx, %r15
	negq	%r15
	leaq	(%rbx,%r15), %rdx
	addq	$-4, %rdx
	cmpq	%rdx, %rax
	cmovbq	%rcx, %rbx
.LBB69_43:
	movq	%rbx, %rax
	addq	$24, %rsp
	.cfi_def_cfa_offset 56
	popq	%rbx
	.cfi_def_cfa_offset 48
	popq	%r12
	.cfi_def_cfa_offset 40
	popq	%r13
	.cfi_def_cfa_offset 32
	popq	%r14
	.cfi_def_cfa_offset 24
	popq	%r15
	.cfi_def_cfa_offset 16
	popq	%rbp
	.cfi_def_cfa_offset 8
	retq
.LBB69_41:
	.cfi_def_cfa_offset 80
	callq	link_state.walk.fill_list.3c634cd01f519dfb
	jmp	.LBB69_42
.Lfunc_end69:
	.size	link_state.walk.fill_last.9e3a67d5997cd6a9, .Lfunc_end69-link_state.walk.fill_last.9e3a67d5997cd6a9
	.cfi_endproc
	.section	.rodata.link_state.walk.fill_last.9e3a67d5997cd6a9,"a",@progbits
	.p2align	2, 0x0
.LJTI69_0:
	.long	.LBB69_4-.LJTI69_0
	.long	.LBB69_42-.LJTI69_0
	.long	.LBB69_42-.LJTI69_0
	.long	.LBB69_42-.LJTI69_0
	.long	.LBB69_42-.LJTI69_0
	.long	.LBB69_17-.LJTI69_0
	.long	.LBB69_42-.LJTI69_0
	.long	.LBB69_42-.LJTI69_0
	.long	.LBB69_42-.LJTI69_0
	.long	.LBB69_42-.LJTI69_0
	.long	.LBB69_42-.LJTI69_0
	.long	.LBB69_6-.LJTI69_0
	.long	.LBB69_42-.LJTI69_0
	.long	.LBB69_42-.LJTI69_0
	.long	.LBB69_42-.LJTI69_0
	.long	.LBB69_22-.LJTI69_0
	.long	.LBB69_4-.LJTI69_0
	.long	.LBB69_42-.LJTI69_0
	.long	.LBB69_42-.LJTI69_0
	.long	.LBB69_7-.LJTI69_0
	.long	.LBB69_42-.LJTI69_0
	.long	.LBB69_42-.LJTI69_0
	.long	.LBB69_42-.LJTI69_0
	.long	.LBB69_42-.LJTI69_0
	.long	.LBB69_42-.LJTI69_0
	.long	.LBB69_42-.LJTI69_0
	.long	.LBB69_42-.LJTI69_0
	.long	.LBB69_42-.LJTI69_0
	.long	.LBB69_4-.LJTI69_0
	.long	.LBB69_42-.LJTI69_0
	.long	.LBB69_42-.LJTI69_0
	.long	.LBB69_42-.LJTI69_0
	.long	.LBB69_42-.LJTI69_0
	.long	.LBB69_42-.LJTI69_0
	.long	.LBB69_42-.LJTI69_0
	.long	.LBB69_42-.LJTI69_0
	.long	.LBB69_42-.LJTI69_0
	.long	.LBB69_4-.LJTI69_0
	.long	.LBB69_42-.LJTI69_0
	.long	.LBB69_42-.LJTI69_0
	.long	.LBB69_4-.LJTI69_0
	.long	.LBB69_4-.LJTI69_0

	.section	.text.link_state.level.info.fill_link_info.0,"ax",@progbits
	.p2align	4
	.type	link_state.level.info.fill_link_info.0,@function
link_state.level.info.fill_link_info.0:
	.cfi_startproc
	pushq	%rbp
	.cfi_def_cfa_offset 16
	pushq	%r15
	.cfi_def_cfa_offset 24
	pushq	%r14
	.cfi_def_cfa_offset 32
	pushq	%r13
	.cfi_def_cfa_offset 40
	pushq	%r12
	.cfi_def_cfa_offset 48
	pushq	%rbx
	.cfi_def_cfa_offset 56
	subq	$40, %rsp
	.cfi_def_cfa_offset 96
	.cfi_offset %rbx, -56
	.cfi_offset %r12, -48
	.cfi_offset %r13, -40
	.cfi_offset %r14, -32
	.cfi_offset %r15, -24
	.cfi_offset %rbp, -16
	testq	%rsi, %rsi
	je	.LBB70_1
	xorl	%r15d, %r15d
	xorl	%r13d, %r13d
	xorl	%ebp, %ebp
	xorl	%edx, %edx
	xorl	%r14d, %r14d
	movq	%rsi, 32(%rsp)
	movq	%rsi, %rbx
	movq	%rdi, 24(%rsp)
	movq	%rdi, %r12
	jmp	.LBB70_3
.LBB70_1:
	movw	$1028, %ax
	jmp	.LBB70_40
.LBB70_22:
	movb	$4, %al
	.p2align	4
.LBB70_25:
	movzbl	%bpl, %ecx
	movzbl	%al, %ebp
	testb	$1, %dl
	cmovnel	%ecx, %ebp
	movb	$1, %dl
.LBB70_38:
	addl	$3, %r14d
	andl	$-4, %r14d
	cmpq	%r14, %rbx
	jbe	.LBB70_39
.LBB70_3:
	subq	%r14, %rbx
	cmpq	$4, %rbx
	jb	.LBB70_39
	addq	%r14, %r12
	movzwl	(%r12), %r14d
	cmpw	$4, %r14w
	jb	.LBB70_39
	cmpq	%r14, %rbx
	jb	.LBB70_39
	movzwl	2(%r12), %eax
	leaq	4(%r12), %rdi
	leaq	-4(%r14), %rcx
	andl	$16383, %eax
	cmpl	$4, %eax
	je	.LBB70_26
	cmpl	$1, %eax
	jne	.LBB70_38
	testq	%rcx, %rcx
	je	.LBB70_11
	cmpb	$0, -5(%rdi,%r14)
	je	.LBB70_10
.LBB70_11:
	movb	$4, %al
	cmpl	$6, %ecx
	je	.LBB70_18
.LBB70_12:
	cmpl	$4, %ecx
	je	.LBB70_23
	cmpl	$3, %ecx
	jne	.LBB70_25
	movzbl	(%rdi), %ecx
	cmpl	$99, %ecx
	je	.LBB70_20
	cmpl	$104, %ecx
	jne	.LBB70_25
	cmpb	$115, 5(%r12)
	jne	.LBB70_25
	cmpb	$114, 6(%r12)
	sete	%cl
	subb	%cl, %al
	jmp	.LBB70_25
	.p2align	4
.LBB70_26:
	testq	%rcx, %rcx
	je	.LBB70_29
	cmpb	$0, -5(%rdi,%r14)
	je	.LBB70_28
.LBB70_29:
	cmpl	$6, %ecx
	je	.LBB70_33
.LBB70_30:
	cmpl	$4, %ecx
	jne	.LBB70_32
	cmpl	$1684959074, (%rdi)
	jne	.LBB70_32
	movq	%rdx, 8(%rsp)
	leaq	.Lstatic.145(%rip), %rdx
	movl	$4, %esi
	callq	core.cmp.slices.groups_equal.i8.31.core.cmp.numbers.U8PartialEq
	movq	8(%rsp), %rdx
	xorl	%ecx, %ecx
	testb	%al, %al
	sete	%cl
	leal	(%rcx,%rcx,2), %eax
	incl	%eax
	jmp	.LBB70_37
.LBB70_23:
	cmpl	$1851876214, (%rdi)
	jne	.LBB70_25
	movq	%rdx, 8(%rsp)
	leaq	.Lstatic.143(%rip), %rdx
	movl	$4, %esi
	callq	core.cmp.slices.groups_equal.i8.31.core.cmp.numbers.U8PartialEq
	movq	8(%rsp), %rdx
	xorb	$1, %al
	addb	%al, %al
	addb	$2, %al
	jmp	.LBB70_25
.LBB70_10:
	leaq	-5(%r14), %rcx
	movb	$4, %al
	cmpl	$6, %ecx
	jne	.LBB70_12
.LBB70_18:
	cmpl	$1684632162, (%rdi)
	jne	.LBB70_25
	movq	%rdx, 8(%rsp)
	leaq	.Lstatic.141(%rip), %rdx
	movl	$6, %esi
	callq	core.cmp.slices.groups_equal.i8.31.core.cmp.numbers.U8PartialEq
	movq	8(%rsp), %rdx
	xorb	$1, %al
	shlb	$2, %al
	jmp	.LBB70_25
.LBB70_28:
	leaq	-5(%r14), %rcx
	cmpl	$6, %ecx
	jne	.LBB70_30
.LBB70_33:
	cmpl	$1684632162, (%rdi)
	jne	.LBB70_32
	movq	%rdx, 8(%rsp)
	leaq	.Lstatic.141(%rip), %rdx
	movl	$6, %esi
	callq	core.cmp.slices.groups_equal.i8.31.core.cmp.numbers.U8PartialEq
	movq	8(%rsp), %rdx
	testb	%al, %al
	je	.LBB70_32
	xorl	%eax, %eax
	jmp	.LBB70_37
	.p2align	4
.LBB70_32:
	movb	$4, %al
.LBB70_37:
	movzbl	%r15b, %ecx
	movzbl	%al, %r15d
	testb	$1, %r13b
	cmovnel	%ecx, %r15d
	movb	$1, %r13b
	jmp	.LBB70_38
.LBB70_20:
	cmpb	$97, 5(%r12)
	jne	.LBB70_22
	movb	$2, %al
	cmpb	$110, 6(%r12)
	jne	.LBB70_22
	jmp	.LBB70_25
.LBB70_39:
	movzbl	%bpl, %eax
	testb	$1, %dl
	movl	$4, %ecx
	cmovnel	%eax, %ecx
	movzbl	%r15b, %edx
	shll	$8, %edx
	testb	$1, %r13b
	movl	$1024, %eax
	cmovnel	%edx, %eax
	orl	%ecx, %eax
	movq	32(%rsp), %rsi
	movq	24(%rsp), %rdi
.LBB70_40:
	movw	%ax, 22(%rsp)
	leaq	22(%rsp), %rdx
	callq	link_state.walk.fill_list.9d96636e1df08d27
	addq	$40, %rsp
	.cfi_def_cfa_offset 56
	popq	%rbx
	.cfi_def_cfa_offset 48
	popq	%r12
	.cfi_def_cfa_offset 40
	popq	%r13
	.cfi_def_cfa_offset 32
	popq	%r14
	.cfi_def_cfa_offset 24
	popq	%r15
	.cfi_def_cfa_offset 16
	popq	%rbp
	.cfi_def_cfa_offset 8
	retq
.Lfunc_end70:
	.size	link_state.level.info.fill_link_info.0, .Lfunc_end70-link_state.level.info.fill_link_info.0
	.cfi_endproc

	.section	.text.core.cmp.slices.groups_equal.i8.31.core.cmp.numbers.U8PartialEq,"ax",@progbits
	.p2align	4
	.type	core.cmp.slices.groups_equal.i8.31.core.cmp.numbers.U8PartialEq,@function
core.cmp.slices.groups_equal.i8.31.core.cmp.numbers.U8PartialEq:
	.cfi_startproc
	cmpq	$8, %rsi
	ja	.LBB71_2
	movd	-4(%rdi,%rsi), %xmm0
	movd	(%rdi), %xmm1
	punpckldq	%xmm0, %xmm1
	movd	-4(%rdx,%rsi), %xmm0
	movd	(%rdx), %xmm2
	punpckldq	%xmm0, %xmm2
	movq	%xmm1, %rax
	movq	%xmm2, %rcx
	cmpq	%rcx, %rax
	jmp	.LBB71_17
.LBB71_2:
	cmpq	$32, %rsi
	ja	.LBB71_4
	leaq	-8(%rsi), %rax
	cmpq	$8, %rax
	movl	$8, %ecx
	cmovbq	%rax, %rcx
	cmpq	$16, %rax
	movl	$16, %r8d
	cmovbq	%rax, %r8
	movq	(%rdi,%rcx), %xmm0
	movq	(%rdi), %xmm1
	punpcklqdq	%xmm0, %xmm1
	movq	(%rdi,%r8), %xmm0
	movq	-8(%rdi,%rsi), %xmm2
	punpcklqdq	%xmm2, %xmm0
	movq	(%rdx,%rcx), %xmm2
	movq	(%rdx), %xmm3
	punpcklqdq	%xmm2, %xmm3
	pcmpeqb	%xmm1, %xmm3
	movq	(%rdx,%r8), %xmm1
	movq	-8(%rdx,%rsi), %xmm2
	punpcklqdq	%xmm2, %xmm1
	pcmpeqb	%xmm0, %xmm1
	pand	%xmm3, %xmm1
	pmovmskb	%xmm1, %eax
	jmp	.LBB71_16
.LBB71_4:
	cmpq	$65, %rsi
	jae	.LBB71_5
	movdqu	(%rdi), %xmm0
	movdqu	16(%rdi), %xmm1
	movdqu	(%rdx), %xmm2
	pcmpeqb	%xmm0, %xmm2
	movdqu	16(%rdx), %xmm0
	pcmpeqb	%xmm1, %xmm0
	movdqu	-32(%rdi,%rsi), %xmm1
	movdqu	-16(%rdi,%rsi), %xmm3
	movdqu	-32(%rdx,%rsi), %xmm4
	pcmpeqb	%xmm1, %xmm4
	pand	%xmm2, %xmm4
	movdqu	-16(%rdx,%rsi), %xmm1
	pcmpeqb	%xmm3, %xmm1
	pand	%xmm0, %xmm1
	pand	%xmm4, %xmm1
	pmovmskb	%xmm1, %eax
	jmp	.LBB71_16
.LBB71_5:
	xorl	%eax, %eax
	movq	%rsi, %rcx
	.p2align	4
.LBB71_6:
	movdqu	(%rdi,%rax), %xmm0
	movdqu	16(%rdi,%rax), %xmm1
	movdqu	32(%rdi,%rax), %xmm2
	movdqu	48(%rdi,%rax), %xmm3
	movdqu	(%rdx,%rax), %xmm4
	pcmpeqb	%xmm0, %xmm4
	movdqu	16(%rdx,%rax), %xmm0
	pcmpeqb	%xmm1, %xmm0
	movdqu	32(%rdx,%rax), %xmm1
	pcmpeqb	%xmm2, %xmm1
	pand	%xmm4, %xmm1
	movdqu	48(%rdx,%rax), %xmm2
	pcmpeqb	%xmm3, %xmm2
	pand	%xmm0, %xmm2
	pand	%xmm1, %xmm2
	pmovmskb	%xmm2, %r8d
	cmpl	$65535, %r8d
	jne	.LBB71_8
	addq	$64, %rax
	addq	$-64, %rcx
	cmpq	$63, %rcx
	ja	.LBB71_6
.LBB71_8:
	cmpq	$32, %rcx
	jb	.LBB71_15
	movq	%rsi, %rcx
	subq	%rax, %rcx
	.p2align	4
.LBB71_10:
	movdqu	(%rdi,%rax), %xmm0
	movdqu	16(%rdi,%rax), %xmm1
	movdqu	(%rdx,%rax), %xmm2
	pcmpeqb	%xmm0, %xmm2
	movdqu	16(%rdx,%rax), %xmm0
	pcmpeqb	%xmm1, %xmm0
	pand	%xmm2, %xmm0
	pmovmskb	%xmm0, %r8d
	xorl	$65535, %r8d
	jne	.LBB71_14
	addq	$32, %rax
	addq	$-32, %rcx
	cmpq	$31, %rcx
	ja	.LBB71_10
	jmp	.LBB71_15
.LBB71_14:
	movb	$1, %al
	cmpq	$31, %rcx
	ja	.LBB71_18
.LBB71_15:
	movdqu	-32(%rdi,%rsi), %xmm0
	movdqu	-16(%rdi,%rsi), %xmm1
	movdqu	-32(%rdx,%rsi), %xmm2
	pcmpeqb	%xmm0, %xmm2
	movdqu	-16(%rdx,%rsi), %xmm0
	pcmpeqb	%xmm1, %xmm0
	pand	%xmm2, %xmm0
	pmovmskb	%xmm0, %eax
.LBB71_16:
	xorl	$65535, %eax
.LBB71_17:
	setne	%al
.LBB71_18:
	xorb	$1, %al
	retq
.Lfunc_end71:
	.size	core.cmp.slices.groups_equal.i8.31.core.cmp.numbers.U8PartialEq, .Lfunc_end71-core.cmp.slices.groups_equal.i8.31.core.cmp.numbers.U8PartialEq
	.cfi_endproc

	.section	.text.link_state.walk.fill_last.7ca78b2c7e6ecc17,"ax",@progbits
	.p2align	4
	.type	link_state.walk.fill_last.7ca78b2c7e6ecc17,@function
link_state.walk.fill_last.7ca78b2c7e6ecc17:
	.cfi_startproc
	movq	%rsi, %rax
	movq	%rsi, %rcx
	subq	%rdx, %rcx
	cmpq	$4, %rcx
	jb	.LBB72_6
	pushq	%r15
	.cfi_def_cfa_offset 16
	pushq	%r14
	.cfi_def_cfa_offset 24
	pushq	%r12
	.cfi_def_cfa_offset 32
	pushq	%rbx
	.cfi_def_cfa_offset 40
	pushq	%rax
	.cfi_def_cfa_offset 48
	.cfi_offset %rbx, -40
	.cfi_offset %r12, -32
	.cfi_offset %r14, -24
	.cfi_offset %r15, -16
	addq	%rdx, %rdi
	movzwl	(%rdi), %r14d
	cmpq	%r14, %rcx
	setb	%cl
	cmpw	$4, %r14w
	setb	%sil
	orb	%cl, %sil
	jne	.LBB72_5
	movzwl	2(%rdi), %ecx
	leaq	-4(%r14), %rbx
	andl	$16383, %ecx
	cmpw	$10, %cx
	jne	.LBB72_4
	addq	$4, %rdi
	movq	%rbx, %rsi
	movq	%rax, %r15
	movq	%rdx, %r12
	callq	link_state.walk.fill_list.3c634cd01f519dfb
	movq	%r12, %rdx
	movq	%r15, %rax
.LBB72_4:
	leaq	-1(%r14), %rcx
	andq	$-4, %rcx
	leaq	(%rdx,%rcx), %rsi
	addq	$4, %rsi
	subq	%rbx, %rcx
	addq	%rdx, %r14
	movq	%rax, %rdx
	subq	%r14, %rdx
	cmpq	%rdx, %rcx
	cmovbq	%rsi, %rax
.LBB72_5:
	addq	$8, %rsp
	.cfi_def_cfa_offset 40
	popq	%rbx
	.cfi_def_cfa_offset 32
	popq	%r12
	.cfi_def_cfa_offset 24
	popq	%r14
	.cfi_def_cfa_offset 16
	popq	%r15
	.cfi_def_cfa_offset 8
	.cfi_restore %rbx
	.cfi_restore %r12
	.cfi_restore %r14
	.cfi_restore %r15
.LBB72_6:
	retq
.Lfunc_end72:
	.size	link_state.walk.fill_last.7ca78b2c7e6ecc17, .Lfunc_end72-link_state.walk.fill_last.7ca78b2c7e6ecc17
	.cfi_endproc

	.section	.text.link_state.walk.fill_list.3c634cd01f519dfb,"ax",@progbits
	.p2align	4
	.type	link_state.walk.fill_list.3c634cd01f519dfb,@function
link_state.walk.fill_list.3c634cd01f519dfb:
	.cfi_startproc
	testq	%rsi, %rsi
	je	.LBB73_28
	pushq	%rbp
	.cfi_def_cfa_offset 16
	pushq	%r15
	.cfi_def_cfa_offset 24
	pushq	%r14
	.cfi_def_cfa_offset 32
	pushq	%r13
	.cfi_def_cfa_offset 40
	pushq	%r12
	.cfi_def_cfa_offset 48
	pushq	%rbx
	.cfi_def_cfa_offset 56
	subq	$24, %rsp
	.cfi_def_cfa_offset 80
	.cfi_offset %rbx, -56
	.cfi_offset %r12, -48
	.cfi_offset %r13, -40
	.cfi_offset %r14, -32
	.cfi_offset %r15, -24
	.cfi_offset %rbp, -16
	movq	%rsi, %rbx
	movq	%rdi, %r14
	xorl	%eax, %eax
	jmp	.LBB73_3
	.p2align	4
.LBB73_2:
	movq	%r14, %rdi
	movq	%rbx, %rsi
	movq	%rax, %rdx
	callq	link_state.walk.fill_last.3c634cd01f519dfb
	cmpq	%rbx, %rax
	jae	.LBB73_27
.LBB73_3:
	movq	%rbx, %rcx
	subq	%rax, %rcx
	cmpq	$7, %rcx
	jbe	.LBB73_2
	movzwl	(%r14,%rax), %r13d
	cmpw	$4, %r13w
	jb	.LBB73_27
	cmpq	%r13, %rcx
	jb	.LBB73_27
	leaq	(%r14,%rax), %r15
	movzwl	2(%r15), %ecx
	leaq	-4(%r13), %rbp
	andl	$16383, %ecx
	addq	$4, %r15
	cmpl	$6, %ecx
	je	.LBB73_16
	cmpl	$5, %ecx
	je	.LBB73_13
	cmpl	$3, %ecx
	jne	.LBB73_23
	cmpw	$4, %r13w
	je	.LBB73_23
	movzwl	%r13w, %ecx
	cmpl	$8, %ecx
	jne	.LBB73_20
	movl	$0, 20(%rsp)
	leaq	20(%rsp), %rcx
	movq	%r15, %rdx
	subq	%rcx, %rdx
	cmpq	$3, %rdx
	ja	.LBB73_26
	movl	20(%rsp), %ecx
	movl	%ecx, (%r15)
	jmp	.LBB73_23
.LBB73_13:
	cmpq	$12, %rbp
	movl	$12, %r12d
	cmovbq	%rbp, %r12
	cmpq	$4, %rbp
	movl	$4, %ecx
	cmovbq	%rbp, %rcx
	subq	%rcx, %r12
	je	.LBB73_23
	addq	%rcx, %r15
	cmpq	$4, %r12
	je	.LBB73_26
	decq	%r12
	jne	.LBB73_21
	jmp	.LBB73_22
.LBB73_16:
	cmpw	$4, %r13w
	je	.LBB73_23
	movzwl	%r13w, %ecx
	cmpl	$8, %ecx
	jne	.LBB73_20
	movl	$0, 16(%rsp)
	leaq	16(%rsp), %rcx
	movq	%r15, %rdx
	subq	%rcx, %rdx
	cmpq	$3, %rdx
	ja	.LBB73_26
	movl	16(%rsp), %ecx
	movl	%ecx, (%r15)
	jmp	.LBB73_23
.LBB73_26:
	movl	$0, (%r15)
	jmp	.LBB73_23
.LBB73_20:
	movq	%r13, %r12
	addq	$-5, %r12
	je	.LBB73_22
.LBB73_21:
	movq	%r15, %rdi
	xorl	%esi, %esi
	movq	%r12, %rdx
	movq	%rax, 8(%rsp)
	callq	memset@PLT
	movq	8(%rsp), %rax
.LBB73_22:
	movb	$0, (%r15,%r12)
.LBB73_23:
	leaq	-1(%r13), %rcx
	andq	$-4, %rcx
	addq	%rax, %r13
	addq	%rcx, %rax
	addq	$4, %rax
	subq	%rbp, %rcx
	movq	%rbx, %rdx
	subq	%r13, %rdx
	cmpq	%rdx, %rcx
	cmovaeq	%rbx, %rax
	cmpq	%rbx, %rax
	jb	.LBB73_3
.LBB73_27:
	addq	$24, %rsp
	.cfi_def_cfa_offset 56
	popq	%rbx
	.cfi_def_cfa_offset 48
	popq	%r12
	.cfi_def_cfa_offset 40
	popq	%r13
	.cfi_def_cfa_offset 32
	popq	%r14
	.cfi_def_cfa_offset 24
	popq	%r15
	.cfi_def_cfa_offset 16
	popq	%rbp
	.cfi_def_cfa_offset 8
	.cfi_restore %rbx
	.cfi_restore %r12
	.cfi_restore %r13
	.cfi_restore %r14
	.cfi_restore %r15
	.cfi_restore %rbp
.LBB73_28:
	retq
.Lfunc_end73:
	.size	link_state.walk.fill_list.3c634cd01f519dfb, .Lfunc_end73-link_state.walk.fill_list.3c634cd01f519dfb
	.cfi_endproc

	.section	.text.link_state.walk.fill_last.3c634cd01f519dfb,"ax",@progbits
	.p2align	4
	.type	link_state.walk.fill_last.3c634cd01f519dfb,@function
link_state.walk.fill_last.3c634cd01f519dfb:
	.cfi_startproc
	movq	%rsi, %rax
	movq	%rsi, %rcx
	subq	%rdx, %rcx
	cmpq	$4, %rcx
	jb	.LBB74_25
	pushq	%r15
	.cfi_def_cfa_offset 16
	pushq	%r14
	.cfi_def_cfa_offset 24
	pushq	%r13
	.cfi_def_cfa_offset 32
	pushq	%r12
	.cfi_def_cfa_offset 40
	pushq	%rbx
	.cfi_def_cfa_offset 48
	subq	$16, %rsp
	.cfi_def_cfa_offset 64
	.cfi_offset %rbx, -48
	.cfi_offset %r12, -40
	.cfi_offset %r13, -32
	.cfi_offset %r14, -24
	.cfi_offset %r15, -16
	addq	%rdx, %rdi
	movzwl	(%rdi), %ebx
	cmpq	%rbx, %rcx
	setb	%cl
	cmpw	$4, %bx
	setb	%sil
	orb	%cl, %sil
	jne	.LBB74_24
	movzwl	2(%rdi), %ecx
	leaq	-4(%rbx), %r15
	andl	$16383, %ecx
	addq	$4, %rdi
	cmpl	$6, %ecx
	je	.LBB74_12
	cmpl	$5, %ecx
	je	.LBB74_9
	cmpl	$3, %ecx
	jne	.LBB74_23
	cmpw	$4, %bx
	je	.LBB74_22
	movzwl	%bx, %ecx
	cmpl	$8, %ecx
	jne	.LBB74_17
	movl	$0, 12(%rsp)
	leaq	12(%rsp), %rcx
	movq	%rdi, %rsi
	subq	%rcx, %rsi
	cmpq	$3, %rsi
	ja	.LBB74_20
	movl	12(%rsp), %ecx
	jmp	.LBB74_16
.LBB74_9:
	cmpq	$12, %r15
	movl	$12, %ebx
	cmovbq	%r15, %rbx
	cmpq	$4, %r15
	movl	$4, %ecx
	cmovbq	%r15, %rcx
	subq	%rcx, %rbx
	je	.LBB74_23
	addq	%rcx, %rdi
	cmpq	$4, %rbx
	jne	.LBB74_26
	movl	$0, (%rdi)
	jmp	.LBB74_23
.LBB74_12:
	cmpw	$4, %bx
	je	.LBB74_22
	movzwl	%bx, %ecx
	cmpl	$8, %ecx
	jne	.LBB74_17
	movl	$0, 8(%rsp)
	leaq	8(%rsp), %rcx
	movq	%rdi, %rsi
	subq	%rcx, %rsi
	cmpq	$3, %rsi
	ja	.LBB74_20
	movl	8(%rsp), %ecx
.LBB74_16:
	movl	%ecx, (%rdi)
	movl	$4, %r15d
	jmp	.LBB74_23
.LBB74_22:
	xorl	%r15d, %r15d
	jmp	.LBB74_23
.LBB74_17:
	addq	$-5, %rbx
	je	.LBB74_19
.LBB74_18:
	movq	%rdi, %r14
	xorl	%esi, %esi
	movq	%rdx, %r12
	movq	%rbx, %rdx
	movq	%rax, %r13
	callq	memset@PLT
	movq	%r14, %rdi
	movq	%r12, %rdx
	movq	%r13, %rax
.LBB74_19:
	movb	$0, (%rdi,%rbx)
	jmp	.LBB74_23
.LBB74_20:
	movl	$0, (%rdi)
	movl	$4, %r15d
.LBB74_23:
	leaq	3(%r15), %rcx
	andq	$-4, %rcx
	leaq	(%rdx,%rcx), %rsi
	addq	$4, %rsi
	subq	%r15, %rcx
	addq	%rdx, %r15
	negq	%r15
	leaq	(%rax,%r15), %rdx
	addq	$-4, %rdx
	cmpq	%rdx, %rcx
	cmovbq	%rsi, %rax
.LBB74_24:
	addq	$16, %rsp
	.cfi_def_cfa_offset 48
	popq	%rbx
	.cfi_def_cfa_offset 40
	popq	%r12
	.cfi_def_cfa_offset 32
	popq	%r13
	.cfi_def_cfa_offset 24
	popq	%r14
	.cfi_def_cfa_offset 16
	popq	%r15
	.cfi_def_cfa_offset 8
	.cfi_restore %rbx
	.cfi_restore %r12
	.cfi_restore %r13
	.cfi_restore %r14
	.cfi_restore %r15
.LBB74_25:
	retq
.LBB74_26:
	.cfi_def_cfa_offset 64
	.cfi_offset %rbx, -48
	.cfi_offset %r12, -40
	.cfi_offset %r13, -32
	.cfi_offset %r14, -24
	.cfi_offset %r15, -16
	decq	%rbx
	jne	.LBB74_18
	jmp	.LBB74_19
.Lfunc_end74:
	.size	link_state.walk.fill_last.3c634cd01f519dfb, .Lfunc_end74-link_state.walk.fill_last.3c634cd01f519dfb
	.cfi_endproc

	.section	.text.link_state.walk.fill_last.ef36a0c61422138b,"ax",@progbits
	.p2align	4
	.type	link_state.walk.fill_last.ef36a0c61422138b,@function
link_state.walk.fill_last.ef36a0c61422138b:
	.cfi_startproc
	movq	%rsi, %rax
	movq	%rsi, %rcx
	subq	%rdx, %rcx
	cmpq	$4, %rcx
	jb	.LBB75_6
	pushq	%r15
	.cfi_def_cfa_offset 16
	pushq	%r14
	.cfi_def_cfa_offset 24
	pushq	%r12
	.cfi_def_cfa_offset 32
	pushq	%rbx
	.cfi_def_cfa_offset 40
	pushq	%rax
	.cfi_def_cfa_offset 48
	.cfi_offset %rbx, -40
	.cfi_offset %r12, -32
	.cfi_offset %r14, -24
	.cfi_offset %r15, -16
	addq	%rdx, %rdi
	movzwl	(%rdi), %r14d
	cmpq	%r14, %rcx
	setb	%cl
	cmpw	$4, %r14w
	setb	%sil
	orb	%cl, %sil
	jne	.LBB75_5
	movzwl	2(%rdi), %ecx
	leaq	-4(%r14), %rbx
	andl	$16383, %ecx
	cmpw	$1, %cx
	jne	.LBB75_4
	addq	$4, %rdi
	movq	%rbx, %rsi
	movq	%rax, %r15
	movq	%rdx, %r12
	callq	link_state.walk.fill_list.50feb428cb3580bb
	movq	%r12, %rdx
	movq	%r15, %rax
.LBB75_4:
	leaq	-1(%r14), %rcx
	andq	$-4, %rcx
	leaq	(%rdx,%rcx), %rsi
	addq	$4, %rsi
	subq	%rbx, %rcx
	addq	%rdx, %r14
	movq	%rax, %rdx
	subq	%r14, %rdx
	cmpq	%rdx, %rcx
	cmovbq	%rsi, %rax
.LBB75_5:
	addq	$8, %rsp
	.cfi_def_cfa_offset 40
	popq	%rbx
	.cfi_def_cfa_offset 32
	popq	%r12
	.cfi_def_cfa_offset 24
	popq	%r14
	.cfi_def_cfa_offset 16
	popq	%r15
	.cfi_def_cfa_offset 8
	.cfi_restore %rbx
	.cfi_restore %r12
	.cfi_restore %r14
	.cfi_restore %r15
.LBB75_6:
	retq
.Lfunc_end75:
	.size	link_state.walk.fill_last.ef36a0c61422138b, .Lfunc_end75-link_state.walk.fill_last.ef36a0c61422138b
	.cfi_endproc

	.section	.text.link_state.walk.fill_list.50feb428cb3580bb,"ax",@progbits
	.p2align	4
	.type	link_state.walk.fill_list.50feb428cb3580bb,@function
link_state.walk.fill_list.50feb428cb3580bb:
	.cfi_startproc
	testq	%rsi, %rsi
	je	.LBB76_20
	pushq	%rbp
	.cfi_def_cfa_offset 16
	pushq	%r15
	.cfi_def_cfa_offset 24
	pushq	%r14
	.cfi_def_cfa_offset 32
	pushq	%r13
	.cfi_def_cfa_offset 40
	pushq	%r12
	.cfi_def_cfa_offset 48
	pushq	%rbx
	.cfi_def_cfa_offset 56
	subq	$24, %rsp
	.cfi_def_cfa_offset 80
	.cfi_offset %rbx, -56
	.cfi_offset %r12, -48
	.cfi_offset %r13, -40
	.cfi_offset %r14, -32
	.cfi_offset %r15, -24
	.cfi_offset %rbp, -16
	movq	%rsi, %rbx
	movq	%rdi, %r14
	xorl	%r15d, %r15d
	jmp	.LBB76_2
	.p2align	4
.LBB76_3:
	movq	%r14, %rdi
	movq	%rbx, %rsi
	movq	%r15, %rdx
	callq	link_state.walk.fill_last.50feb428cb3580bb
	movq	%rax, %r15
	cmpq	%rbx, %r15
	jae	.LBB76_19
.LBB76_2:
	movq	%rbx, %rax
	subq	%r15, %rax
	cmpq	$7, %rax
	jbe	.LBB76_3
	movzwl	(%r14,%r15), %r13d
	cmpw	$4, %r13w
	jb	.LBB76_19
	cmpq	%r13, %rax
	jb	.LBB76_19
	leaq	(%r14,%r15), %rdi
	movzwl	2(%rdi), %eax
	leaq	-4(%r13), %r12
	andl	$16383, %eax
	addq	$4, %rdi
	cmpl	$13, %eax
	je	.LBB76_9
	cmpl	$8, %eax
	jne	.LBB76_17
	movq	%r12, %rsi
	callq	link_state.walk.fill_list.2d7ef8befde9b8dc
	jmp	.LBB76_17
.LBB76_9:
	cmpw	$4, %r13w
	je	.LBB76_17
	movzwl	%r13w, %eax
	cmpl	$8, %eax
	jne	.LBB76_14
	movl	$0, 12(%rsp)
	leaq	12(%rsp), %rax
	movq	%rdi, %rcx
	subq	%rax, %rcx
	cmpq	$3, %rcx
	ja	.LBB76_13
	movl	12(%rsp), %eax
	movl	%eax, (%rdi)
	jmp	.LBB76_17
.LBB76_14:
	movq	%r13, %rbp
	addq	$-5, %rbp
	je	.LBB76_16
	movq	%rdi, 16(%rsp)
	movq	16(%rsp), %rdi
	xorl	%esi, %esi
	movq	%rbp, %rdx
	callq	memset@PLT
	movq	16(%rsp), %rdi
.LBB76_16:
	movb	$0, (%rdi,%rbp)
	jmp	.LBB76_17
.LBB76_13:
	movl	$0, (%rdi)
	.p2align	4
.LBB76_17:
	leaq	-1(%r13), %rax
	andq	$-4, %rax
	addq	%r15, %r13
	addq	%rax, %r15
	addq	$4, %r15
	subq	%r12, %rax
	movq	%rbx, %rcx
	subq	%r13, %rcx
	cmpq	%rcx, %rax
	cmovaeq	%rbx, %r15
	cmpq	%rbx, %r15
	jb	.LBB76_2
.LBB76_19:
	addq	$24, %rsp
	.cfi_def_cfa_offset 56
	popq	%rbx
	.cfi_def_cfa_offset 48
	popq	%r12
	.cfi_def_cfa_offset 40
	popq	%r13
	.cfi_def_cfa_offset 32
	popq	%r14
	.cfi_def_cfa_offset 24
	popq	%r15
	.cfi_def_cfa_offset 16
	popq	%rbp
	.cfi_def_cfa_offset 8
	.cfi_restore %rbx
	.cfi_restore %r12
	.cfi_restore %r13
	.cfi_restore %r14
	.cfi_restore %r15
	.cfi_restore %rbp
.LBB76_20:
	retq
.Lfunc_end76:
	.size	link_state.walk.fill_list.50feb428cb3580bb, .Lfunc_end76-link_state.walk.fill_list.50feb428cb3580bb
	.cfi_endproc

	.section	.text.link_state.walk.fill_last.50feb428cb3580bb,"ax",@progbits
	.p2align	4
	.type	link_state.walk.fill_last.50feb428cb3580bb,@function
link_state.walk.fill_last.50feb428cb3580bb:
	.cfi_startproc
	movq	%rsi, %rax
	movq	%rsi, %rcx
	subq	%rdx, %rcx
	cmpq	$4, %rcx
	jb	.LBB77_17
	pushq	%r15
	.cfi_def_cfa_offset 16
	pushq	%r14
	.cfi_def_cfa_offset 24
	pushq	%r13
	.cfi_def_cfa_offset 32
	pushq	%r12
	.cfi_def_cfa_offset 40
	pushq	%rbx
	.cfi_def_cfa_offset 48
	subq	$16, %rsp
	.cfi_def_cfa_offset 64
	.cfi_offset %rbx, -48
	.cfi_offset %r12, -40
	.cfi_offset %r13, -32
	.cfi_offset %r14, -24
	.cfi_offset %r15, -16
	addq	%rdx, %rdi
	movzwl	(%rdi), %r14d
	cmpq	%r14, %rcx
	setb	%cl
	cmpw	$4, %r14w
	setb	%sil
	orb	%cl, %sil
	jne	.LBB77_16
	movzwl	2(%rdi), %ecx
	leaq	-4(%r14), %rbx
	andl	$16383, %ecx
	addq	$4, %rdi
	cmpl	$13, %ecx
	je	.LBB77_5
	cmpl	$8, %ecx
	jne	.LBB77_15
	movq	%rbx, %rsi
	movq	%rax, %r14
	movq	%rdx, %r15
	callq	link_state.walk.fill_list.2d7ef8befde9b8dc
	movq	%r15, %rdx
	movq	%r14, %rax
	jmp	.LBB77_15
.LBB77_5:
	cmpw	$4, %r14w
	je	.LBB77_9
	movzwl	%r14w, %ecx
	cmpl	$8, %ecx
	jne	.LBB77_10
	movl	$0, 12(%rsp)
	leaq	12(%rsp), %rcx
	movq	%rdi, %rsi
	subq	%rcx, %rsi
	cmpq	$3, %rsi
	ja	.LBB77_13
	movl	12(%rsp), %ecx
	movl	%ecx, (%rdi)
	jmp	.LBB77_14
.LBB77_9:
	xorl	%ebx, %ebx
	jmp	.LBB77_15
.LBB77_10:
	addq	$-5, %r14
	je	.LBB77_12
	movq	%rdi, %r15
	xorl	%esi, %esi
	movq	%rdx, %r12
	movq	%r14, %rdx
	movq	%rax, %r13
	callq	memset@PLT
	movq	%r15, %rdi
	movq	%r12, %rdx
	movq	%r13, %rax
.LBB77_12:
	movb	$0, (%rdi,%r14)
	jmp	.LBB77_15
.LBB77_13:
	movl	$0, (%rdi)
.LBB77_14:
	movl	$4, %ebx
.LBB77_15:
	leaq	3(%rbx), %rcx
	andq	$-4, %rcx
	leaq	(%rdx,%rcx), %rsi
	addq	$4, %rsi
	subq	%rbx, %rcx
	addq	%rdx, %rbx
	negq	%rbx
	leaq	(%rax,%rbx), %rdx
	addq	$-4, %rdx
	cmpq	%rdx, %rcx
	cmovbq	%rsi, %rax
.LBB77_16:
	addq	$16, %rsp
	.cfi_def_cfa_offset 48
	popq	%rbx
	.cfi_def_cfa_offset 40
	popq	%r12
	.cfi_def_cfa_offset 32
	popq	%r13
	.cfi_def_cfa_offset 24
	popq	%r14
	.cfi_def_cfa_offset 16
	popq	%r15
	.cfi_def_cfa_offset 8
	.cfi_restore %rbx
	.cfi_restore %r12
	.cfi_restore %r13
	.cfi_restore %r14
	.cfi_restore %r15
.LBB77_17:
	retq
.Lfunc_end77:
	.size	link_state.walk.fill_last.50feb428cb3580bb, .Lfunc_end77-link_state.walk.fill_last.50feb428cb3580bb
	.cfi_endproc

	.section	.text.link_state.walk.fill_list.2d7ef8befde9b8dc,"ax",@progbits
	.p2align	4
	.type	link_state.walk.fill_list.2d7ef8befde9b8dc,@function
link_state.walk.fill_list.2d7ef8befde9b8dc:
	.cfi_startproc
	testq	%rsi, %rsi
	je	.LBB78_24
	pushq	%rbp
	.cfi_def_cfa_offset 16
	pushq	%r15
	.cfi_def_cfa_offset 24
	pushq	%r14
	.cfi_def_cfa_offset 32
	pushq	%r13
	.cfi_def_cfa_offset 40
	pushq	%r12
	.cfi_def_cfa_offset 48
	pushq	%rbx
	.cfi_def_cfa_offset 56
	pushq	%rax
	.cfi_def_cfa_offset 64
	.cfi_offset %rbx, -56
	.cfi_offset %r12, -48
	.cfi_offset %r13, -40
	.cfi_offset %r14, -32
	.cfi_offset %r15, -24
	.cfi_offset %rbp, -16
	movq	%rsi, %rbx
	movq	%rdi, %r14
	xorl	%eax, %eax
	jmp	.LBB78_3
	.p2align	4
.LBB78_2:
	movq	%r14, %rdi
	movq	%rbx, %rsi
	movq	%rax, %rdx
	callq	link_state.walk.fill_last.2d7ef8befde9b8dc
	cmpq	%rbx, %rax
	jae	.LBB78_23
.LBB78_3:
	movq	%rbx, %rcx
	subq	%rax, %rcx
	cmpq	$7, %rcx
	jbe	.LBB78_2
	movzwl	(%r14,%rax), %r13d
	cmpw	$4, %r13w
	jb	.LBB78_23
	cmpq	%r13, %rcx
	jb	.LBB78_23
	leaq	(%r14,%rax), %r15
	movzwl	2(%r15), %ecx
	andl	$16383, %ecx
	cmpl	$8, %ecx
	ja	.LBB78_22
	addq	$4, %r15
	leaq	.LJTI78_0(%rip), %rdx
	movslq	(%rdx,%rcx,4), %rcx
	addq	%rdx, %rcx
	jmpq	*%rcx
.LBB78_8:
	cmpw	$4, %r13w
	je	.LBB78_22
	movzwl	%r13w, %ecx
	cmpl	$8, %ecx
	jne	.LBB78_19
	movl	$0, 4(%rsp)
	leaq	4(%rsp), %rcx
	movq	%r15, %rdx
	subq	%rcx, %rdx
	cmpq	$3, %rdx
	ja	.LBB78_11
	movl	4(%rsp), %ecx
	movl	%ecx, (%r15)
	jmp	.LBB78_22
.LBB78_19:
	movq	%r13, %r12
	addq	$-5, %r12
	je	.LBB78_21
	movq	%r15, %rdi
	xorl	%esi, %esi
	movq	%r12, %rdx
	movq	%rax, %rbp
	callq	memset@PLT
	movq	%rbp, %rax
.LBB78_21:
	movb	$0, (%r15,%r12)
	jmp	.LBB78_22
.LBB78_11:
	movl	$0, (%r15)
	.p2align	4
.LBB78_22:
	leaq	-1(%r13), %rcx
	andq	$-4, %rcx
	movq	%rcx, %rdx
	subq	%r13, %rdx
	addq	$4, %rdx
	addq	%rax, %r13
	movq	%rbx, %rsi
	subq	%r13, %rsi
	cmpq	%rsi, %rdx
	leaq	4(%rax,%rcx), %rax
	cmovaeq	%rbx, %rax
	cmpq	%rbx, %rax
	jb	.LBB78_3
.LBB78_23:
	addq	$8, %rsp
	.cfi_def_cfa_offset 56
	popq	%rbx
	.cfi_def_cfa_offset 48
	popq	%r12
	.cfi_def_cfa_offset 40
	popq	%r13
	.cfi_def_cfa_offset 32
	popq	%r14
	.cfi_def_cfa_offset 24
	popq	%r15
	.cfi_def_cfa_offset 16
	popq	%rbp
	.cfi_def_cfa_offset 8
	.cfi_restore %rbx
	.cfi_restore %r12
	.cfi_restore %r13
	.cfi_restore %r14
	.cfi_restore %r15
	.cfi_restore %rbp
.LBB78_24:
	retq
.Lfunc_end78:
	.size	link_state.walk.fill_list.2d7ef8befde9b8dc, .Lfunc_end78-link_state.walk.fill_list.2d7ef8befde9b8dc
	.cfi_endproc
	.section	.rodata.link_state.walk.fill_list.2d7ef8befde9b8dc,"a",@progbits
	.p2align	2, 0x0
.LJTI78_0:
	.long	.LBB78_8-.LJTI78_0
	.long	.LBB78_8-.LJTI78_0
	.long	.LBB78_8-.LJTI78_0
	.long	.LBB78_8-.LJTI78_0
	.long	.LBB78_8-.LJTI78_0
	.long	.LBB78_8-.LJTI78_0
	.long	.LBB78_22-.LJTI78_0
	.long	.LBB78_8-.LJTI78_0
	.long	.LBB78_8-.LJTI78_0

	.section	.text.link_state.walk.fill_last.2d7ef8befde9b8dc,"ax",@progbits
	.p2align	4
	.type	link_state.walk.fill_last.2d7ef8befde9b8dc,@function
link_state.walk.fill_last.2d7ef8befde9b8dc:
	.cfi_startproc
	movq	%rsi, %rax
	movq	%rsi, %rcx
	subq	%rdx, %rcx
	cmpq	$4, %rcx
	jb	.LBB79_23
	pushq	%r15
	.cfi_def_cfa_offset 16
	pushq	%r14
	.cfi_def_cfa_offset 24
	pushq	%r13
	.cfi_def_cfa_offset 32
	pushq	%r12
	.cfi_def_cfa_offset 40
	pushq	%rbx
	.cfi_def_cfa_offset 48
	subq	$16, %rsp
	.cfi_def_cfa_offset 64
	.cfi_offset %rbx, -48
	.cfi_offset %r12, -40
	.cfi_offset %r13, -32
	.cfi_offset %r14, -24
	.cfi_offset %r15, -16
	addq	%rdx, %rdi
	movzwl	(%rdi), %ebx
	cmpq	%rbx, %rcx
	setb	%cl
	cmpw	$4, %bx
	setb	%sil
	orb	%cl, %sil
	jne	.LBB79_22
	movzwl	2(%rdi), %ecx
	leaq	-4(%rbx), %r15
	andl	$16383, %ecx
	cmpl	$8, %ecx
	ja	.LBB79_21
	addq	$4, %rdi
	leaq	.LJTI79_0(%rip), %rsi
	movslq	(%rsi,%rcx,4), %rcx
	addq	%rsi, %rcx
	jmpq	*%rcx
.LBB79_4:
	cmpw	$4, %bx
	je	.LBB79_5
	movzwl	%bx, %ecx
	cmpl	$8, %ecx
	jne	.LBB79_16
	movl	$0, 12(%rsp)
	leaq	12(%rsp), %rcx
	movq	%rdi, %rsi
	subq	%rcx, %rsi
	cmpq	$3, %rsi
	ja	.LBB79_19
	movl	12(%rsp), %ecx
	movl	%ecx, (%rdi)
	jmp	.LBB79_20
.LBB79_5:
	xorl	%r15d, %r15d
	jmp	.LBB79_21
.LBB79_16:
	addq	$-5, %rbx
	je	.LBB79_18
	movq	%rdi, %r14
	xorl	%esi, %esi
	movq	%rdx, %r12
	movq	%rbx, %rdx
	movq	%rax, %r13
	callq	memset@PLT
	movq	%r14, %rdi
	movq	%r12, %rdx
	movq	%r13, %rax
.LBB79_18:
	movb	$0, (%rdi,%rbx)
	jmp	.LBB79_21
.LBB79_19:
	movl	$0, (%rdi)
.LBB79_20:
	movl	$4, %r15d
.LBB79_21:
	leaq	3(%r15), %rcx
	andq	$-4, %rcx
	leaq	(%rdx,%rcx), %rsi
	addq	$4, %rsi
	subq	%r15, %rcx
	addq	%rdx, %r15
	negq	%r15
	leaq	(%rax,%r15), %rdx
	addq	$-4, %rdx
	cmpq	%rdx, %rcx
	cmovbq	%rsi, %rax
.LBB79_22:
	addq	$16, %rsp
	.cfi_def_cfa_offset 48
	popq	%rbx
	.cfi_def_cfa_offset 40
	popq	%r12
	.cfi_def_cfa_offset 32
	popq	%r13
	.cfi_def_cfa_offset 24
	popq	%r14
	.cfi_def_cfa_offset 16
	popq	%r15
	.cfi_def_cfa_offset 8
	.cfi_restore %rbx
	.cfi_restore %r12
	.cfi_restore %r13
	.cfi_restore %r14
	.cfi_restore %r15
.LBB79_23:
	retq
.Lfunc_end79:
	.size	link_state.walk.fill_last.2d7ef8befde9b8dc, .Lfunc_end79-link_state.walk.fill_last.2d7ef8befde9b8dc
	.cfi_endproc
	.section	.rodata.link_state.walk.fill_last.2d7ef8befde9b8dc,"a",@progbits
	.p2align	2, 0x0
.LJTI79_0:
	.long	.LBB79_4-.LJTI79_0
	.long	.LBB79_4-.LJTI79_0
	.long	.LBB79_4-.LJTI79_0
	.long	.LBB79_4-.LJTI79_0
	.long	.LBB79_4-.LJTI79_0
	.long	.LBB79_4-.LJTI79_0
	.long	.LBB79_21-.LJTI79_0
	.long	.LBB79_4-.LJTI79_0
	.long	.LBB79_4-.LJTI79_0

	.section	.text.link_state.walk.fill_list.9d96636e1df08d27,"ax",@progbits
	.p2align	4
	.type	link_state.walk.fill_list.9d96636e1df08d27,@function
link_state.walk.fill_list.9d96636e1df08d27:
	.cfi_startproc
	testq	%rsi, %rsi
	je	.LBB80_22
	pushq	%rbp
	.cfi_def_cfa_offset 16
	pushq	%r15
	.cfi_def_cfa_offset 24
	pushq	%r14
	.cfi_def_cfa_offset 32
	pushq	%r13
	.cfi_def_cfa_offset 40
	pushq	%r12
	.cfi_def_cfa_offset 48
	pushq	%rbx
	.cfi_def_cfa_offset 56
	subq	$24, %rsp
	.cfi_def_cfa_offset 80
	.cfi_offset %rbx, -56
	.cfi_offset %r12, -48
	.cfi_offset %r13, -40
	.cfi_offset %r14, -32
	.cfi_offset %r15, -24
	.cfi_offset %rbp, -16
	movq	%rdx, %rbx
	movq	%rsi, %r14
	movq	%rdi, %r15
	xorl	%r12d, %r12d
	jmp	.LBB80_2
	.p2align	4
.LBB80_3:
	movq	%r15, %rdi
	movq	%r14, %rsi
	movq	%r12, %rdx
	movq	%rbx, %rcx
	callq	link_state.walk.fill_last.9d96636e1df08d27
	movq	%rax, %r12
	cmpq	%r14, %r12
	jae	.LBB80_21
.LBB80_2:
	movq	%r14, %rax
	subq	%r12, %rax
	cmpq	$7, %rax
	jbe	.LBB80_3
	movzwl	(%r15,%r12), %ebp
	cmpw	$4, %bp
	jb	.LBB80_21
	cmpq	%rbp, %rax
	jb	.LBB80_21
	leaq	(%r15,%r12), %rsi
	movzwl	2(%rsi), %eax
	leaq	-4(%rbp), %r13
	andl	$16383, %eax
	addq	$4, %rsi
	cmpl	$5, %eax
	je	.LBB80_18
	cmpl	$3, %eax
	je	.LBB80_10
	cmpl	$2, %eax
	jne	.LBB80_19
	movzbl	(%rbx), %edi
	movq	%r13, %rdx
	callq	link_state.level.info.fill_data.0
	jmp	.LBB80_19
.LBB80_10:
	cmpw	$4, %bp
	je	.LBB80_19
	movzwl	%bp, %eax
	cmpl	$8, %eax
	jne	.LBB80_15
	movl	$0, 4(%rsp)
	leaq	4(%rsp), %rax
	movq	%rsi, %rcx
	subq	%rax, %rcx
	cmpq	$3, %rcx
	ja	.LBB80_14
	movl	4(%rsp), %eax
	movl	%eax, (%rsi)
	jmp	.LBB80_19
.LBB80_18:
	movzbl	1(%rbx), %edi
	movq	%r13, %rdx
	callq	link_state.level.info.fill_slave_data.0
	jmp	.LBB80_19
.LBB80_15:
	movq	%rbx, 16(%rsp)
	movq	%rbp, %rbx
	addq	$-5, %rbx
	je	.LBB80_17
	movq	%rsi, %rdi
	movq	%rsi, 8(%rsp)
	xorl	%esi, %esi
	movq	%rbx, %rdx
	callq	memset@PLT
	movq	8(%rsp), %rsi
.LBB80_17:
	movb	$0, (%rsi,%rbx)
	movq	16(%rsp), %rbx
	jmp	.LBB80_19
.LBB80_14:
	movl	$0, (%rsi)
	.p2align	4
.LBB80_19:
	leaq	-1(%rbp), %rax
	andq	$-4, %rax
	addq	%r12, %rbp
	addq	%rax, %r12
	addq	$4, %r12
	subq	%r13, %rax
	movq	%r14, %rcx
	subq	%rbp, %rcx
	cmpq	%rcx, %rax
	cmovaeq	%r14, %r12
	cmpq	%r14, %r12
	jb	.LBB80_2
.LBB80_21:
	addq	$24, %rsp
	.cfi_def_cfa_offset 56
	popq	%rbx
	.cfi_def_cfa_offset 48
	popq	%r12
	.cfi_def_cfa_offset 40
	popq	%r13
	.cfi_def_cfa_offset 32
	popq	%r14
	.cfi_def_cfa_offset 24
	popq	%r15
	.cfi_def_cfa_offset 16
	popq	%rbp
	.cfi_def_cfa_offset 8
	.cfi_restore %rbx
	.cfi_restore %r12
	.cfi_restore %r13
	.cfi_restore %r14
	.cfi_restore %r15
	.cfi_restore %rbp
.LBB80_22:
	retq
.Lfunc_end80:
	.size	link_state.walk.fill_list.9d96636e1df08d27, .Lfunc_end80-link_state.walk.fill_list.9d96636e1df08d27
	.cfi_endproc

	.section	.text.link_state.walk.fill_last.9d96636e1df08d27,"ax",@progbits
	.p2align	4
	.type	link_state.walk.fill_last.9d96636e1df08d27,@function
link_state.walk.fill_last.9d96636e1df08d27:
	.cfi_startproc
	movq	%rsi, %rax
	subq	%rdx, %rsi
	cmpq	$4, %rsi
	jb	.LBB81_19
	pushq	%r15
	.cfi_def_cfa_offset 16
	pushq	%r14
	.cfi_def_cfa_offset 24
	pushq	%r13
	.cfi_def_cfa_offset 32
	pushq	%r12
	.cfi_def_cfa_offset 40
	pushq	%rbx
	.cfi_def_cfa_offset 48
	subq	$16, %rsp
	.cfi_def_cfa_offset 64
	.cfi_offset %rbx, -48
	.cfi_offset %r12, -40
	.cfi_offset %r13, -32
	.cfi_offset %r14, -24
	.cfi_offset %r15, -16
	addq	%rdx, %rdi
	movzwl	(%rdi), %r14d
	cmpq	%r14, %rsi
	setb	%sil
	cmpw	$4, %r14w
	setb	%r8b
	orb	%sil, %r8b
	jne	.LBB81_18
	movzwl	2(%rdi), %esi
	leaq	-4(%r14), %rbx
	andl	$16383, %esi
	addq	$4, %rdi
	cmpl	$5, %esi
	je	.LBB81_15
	cmpl	$3, %esi
	je	.LBB81_6
	cmpl	$2, %esi
	jne	.LBB81_17
	movzbl	(%rcx), %ecx
	movq	%rdi, %rsi
	movl	%ecx, %edi
	movq	%rdx, %r14
	movq	%rbx, %rdx
	movq	%rax, %r15
	callq	link_state.level.info.fill_data.0
	jmp	.LBB81_16
.LBB81_6:
	cmpw	$4, %r14w
	je	.LBB81_7
	movzwl	%r14w, %ecx
	cmpl	$8, %ecx
	jne	.LBB81_12
	movl	$0, 12(%rsp)
	leaq	12(%rsp), %rcx
	movq	%rdi, %rsi
	subq	%rcx, %rsi
	cmpq	$3, %rsi
	ja	.LBB81_11
	movl	12(%rsp), %ecx
	movl	%ecx, (%rdi)
	movl	$4, %ebx
	jmp	.LBB81_17
.LBB81_15:
	movzbl	1(%rcx), %ecx
	movq	%rdi, %rsi
	movl	%ecx, %edi
	movq	%rdx, %r14
	movq	%rbx, %rdx
	movq	%rax, %r15
	callq	link_state.level.info.fill_slave_data.0
.LBB81_16:
	movq	%r14, %rdx
	movq	%r15, %rax
.LBB81_17:
	leaq	3(%rbx), %rcx
	andq	$-4, %rcx
	leaq	(%rdx,%rcx), %rsi
	addq	$4, %rsi
	subq	%rbx, %rcx
	addq	%rdx, %rbx
	negq	%rbx
	leaq	(%rax,%rbx), %rdx
	addq	$-4, %rdx
	cmpq	%rdx, %rcx
	cmovbq	%rsi, %rax
.LBB81_18:
	addq	$16, %rsp
	.cfi_def_cfa_offset 48
	popq	%rbx
	.cfi_def_cfa_offset 40
	popq	%r12
	.cfi_def_cfa_offset 32
	popq	%r13
	.cfi_def_cfa_offset 24
	popq	%r14
	.cfi_def_cfa_offset 16
	popq	%r15
	.cfi_def_cfa_offset 8
	.cfi_restore %rbx
	.cfi_restore %r12
	.cfi_restore %r13
	.cfi_restore %r14
	.cfi_restore %r15
.LBB81_19:
	retq
.LBB81_7:
	.cfi_def_cfa_offset 64
	.cfi_offset %rbx, -48
	.cfi_offset %r12, -40
	.cfi_offset %r13, -32
	.cfi_offset %r14, -24
	.cfi_offset %r15, -16
	xorl	%ebx, %ebx
	jmp	.LBB81_17
.LBB81_12:
	addq	$-5, %r14
	je	.LBB81_14
	movq	%rdi, %r15
	xorl	%esi, %esi
	movq	%rdx, %r12
	movq	%r14, %rdx
	movq	%rax, %r13
	callq	memset@PLT
	movq	%r15, %rdi
	movq	%r12, %rdx
	movq	%r13, %rax
.LBB81_14:
	movb	$0, (%rdi,%r14)
	jmp	.LBB81_17
.LBB81_11:
	movl	$0, (%rdi)
	movl	$4, %ebx
	jmp	.LBB81_17
.Lfunc_end81:
	.size	link_state.walk.fill_last.9d96636e1df08d27, .Lfunc_end81-link_state.walk.fill_last.9d96636e1df08d27
	.cfi_endproc

	.section	.text.link_state.level.info.fill_data.0,"ax",@progbits
	.p2align	4
	.type	link_state.level.info.fill_data.0,@function
link_state.level.info.fill_data.0:
	.cfi_startproc
	pushq	%rbp
	.cfi_def_cfa_offset 16
	pushq	%r15
	.cfi_def_cfa_offset 24
	pushq	%r14
	.cfi_def_cfa_offset 32
	pushq	%r13
	.cfi_def_cfa_offset 40
	pushq	%r12
	.cfi_def_cfa_offset 48
	pushq	%rbx
	.cfi_def_cfa_offset 56
	pushq	%rax
	.cfi_def_cfa_offset 64
	.cfi_offset %rbx, -56
	.cfi_offset %r12, -48
	.cfi_offset %r13, -40
	.cfi_offset %r14, -32
	.cfi_offset %r15, -24
	.cfi_offset %rbp, -16
	movq	%rdx, %rbx
	movq	%rsi, %r14
	movzbl	%dil, %eax
	leaq	.LJTI82_0(%rip), %rcx
	movslq	(%rcx,%rax,4), %rax
	addq	%rcx, %rax
	jmpq	*%rax
.LBB82_32:
	addq	$8, %rsp
	.cfi_def_cfa_offset 56
	popq	%rbx
	.cfi_def_cfa_offset 48
	popq	%r12
	.cfi_def_cfa_offset 40
	popq	%r13
	.cfi_def_cfa_offset 32
	popq	%r14
	.cfi_def_cfa_offset 24
	popq	%r15
	.cfi_def_cfa_offset 16
	popq	%rbp
	.cfi_def_cfa_offset 8
	retq
.LBB82_17:
	.cfi_def_cfa_offset 64
	testq	%rbx, %rbx
	je	.LBB82_32
	xorl	%eax, %eax
	jmp	.LBB82_19
	.p2align	4
.LBB82_20:
	movq	%r14, %rdi
	movq	%rbx, %rsi
	movq	%rax, %rdx
	callq	link_state.walk.fill_last.56d093dd984761dd
	cmpq	%rbx, %rax
	jae	.LBB82_32
.LBB82_19:
	movq	%rbx, %rcx
	subq	%rax, %rcx
	cmpq	$7, %rcx
	jbe	.LBB82_20
	movzwl	(%r14,%rax), %r13d
	cmpw	$4, %r13w
	jb	.LBB82_32
	cmpq	%r13, %rcx
	jb	.LBB82_32
	leaq	(%r14,%rax), %r15
	movzwl	2(%r15), %ecx
	andl	$16383, %ecx
	cmpw	$5, %cx
	jne	.LBB82_30
	cmpw	$4, %r13w
	je	.LBB82_30
	addq	$4, %r15
	movzwl	%r13w, %ecx
	cmpl	$8, %ecx
	jne	.LBB82_27
	movl	$0, (%r15)
	jmp	.LBB82_30
.LBB82_27:
	movq	%r13, %r12
	addq	$-5, %r12
	je	.LBB82_29
	movq	%r15, %rdi
	xorl	%esi, %esi
	movq	%r12, %rdx
	movq	%rax, %rbp
	callq	memset@PLT
	movq	%rbp, %rax
.LBB82_29:
	movb	$0, (%r15,%r12)
	.p2align	4
.LBB82_30:
	leaq	-1(%r13), %rcx
	andq	$-4, %rcx
	movq	%rcx, %rdx
	subq	%r13, %rdx
	addq	$4, %rdx
	addq	%rax, %r13
	movq	%rbx, %rsi
	subq	%r13, %rsi
	cmpq	%rsi, %rdx
	leaq	4(%rax,%rcx), %rax
	cmovaeq	%rbx, %rax
	cmpq	%rbx, %rax
	jb	.LBB82_19
	jmp	.LBB82_32
.LBB82_1:
	movq	%r14, %rdi
	movq	%rbx, %rsi
	addq	$8, %rsp
	.cfi_def_cfa_offset 56
	popq	%rbx
	.cfi_def_cfa_offset 48
	popq	%r12
	.cfi_def_cfa_offset 40
	popq	%r13
	.cfi_def_cfa_offset 32
	popq	%r14
	.cfi_def_cfa_offset 24
	popq	%r15
	.cfi_def_cfa_offset 16
	popq	%rbp
	.cfi_def_cfa_offset 8
	jmp	link_state.walk.fill_list.912baa29ef1db3d8
.LBB82_2:
	.cfi_def_cfa_offset 64
	testq	%rbx, %rbx
	je	.LBB82_32
	xorl	%eax, %eax
	jmp	.LBB82_4
	.p2align	4
.LBB82_5:
	movq	%r14, %rdi
	movq	%rbx, %rsi
	movq	%rax, %rdx
	callq	link_state.walk.fill_last.d502f879263cb481
	cmpq	%rbx, %rax
	jae	.LBB82_32
.LBB82_4:
	movq	%rbx, %rcx
	subq	%rax, %rcx
	cmpq	$7, %rcx
	jbe	.LBB82_5
	movzwl	(%r14,%rax), %r13d
	cmpw	$4, %r13w
	jb	.LBB82_32
	cmpq	%r13, %rcx
	jb	.LBB82_32
	leaq	(%r14,%rax), %r15
	movzwl	2(%r15), %ecx
	andl	$16383, %ecx
	cmpw	$8, %cx
	jne	.LBB82_15
	cmpw	$4, %r13w
	je	.LBB82_15
	addq	$4, %r15
	movzwl	%r13w, %ecx
	cmpl	$8, %ecx
	jne	.LBB82_12
	movl	$0, (%r15)
	jmp	.LBB82_15
.LBB82_12:
	movq	%r13, %r12
	addq	$-5, %r12
	je	.LBB82_14
	movq	%r15, %rdi
	xorl	%esi, %esi
	movq	%r12, %rdx
	movq	%rax, %rbp
	callq	memset@PLT
	movq	%rbp, %rax
.LBB82_14:
	movb	$0, (%r15,%r12)
	.p2align	4
.LBB82_15:
	leaq	-1(%r13), %rcx
	andq	$-4, %rcx
	movq	%rcx, %rdx
	subq	%r13, %rdx
	addq	$4, %rdx
	addq	%rax, %r13
	movq	%rbx, %rsi
	subq	%r13, %rsi
	cmpq	%rsi, %rdx
	leaq	4(%rax,%rcx), %rax
	cmovaeq	%rbx, %rax
	cmpq	%rbx, %rax
	jb	.LBB82_4
	jmp	.LBB82_32
.Lfunc_end82:
	.size	link_state.level.info.fill_data.0, .Lfunc_end82-link_state.level.info.fill_data.0
	.cfi_endproc
	.section	.rodata.link_state.level.info.fill_data.0,"a",@progbits
	.p2align	2, 0x0
.LJTI82_0:
	.long	.LBB82_1-.LJTI82_0
	.long	.LBB82_32-.LJTI82_0
	.long	.LBB82_2-.LJTI82_0
	.long	.LBB82_17-.LJTI82_0
	.long	.LBB82_32-.LJTI82_0

	.section	.text.link_state.level.info.fill_slave_data.0,"ax",@progbits
	.p2align	4
	.type	link_state.level.info.fill_slave_data.0,@function
link_state.level.info.fill_slave_data.0:
	.cfi_startproc
	pushq	%rbp
	.cfi_def_cfa_offset 16
	pushq	%r15
	.cfi_def_cfa_offset 24
	pushq	%r14
	.cfi_def_cfa_offset 32
	pushq	%r13
	.cfi_def_cfa_offset 40
	pushq	%r12
	.cfi_def_cfa_offset 48
	pushq	%rbx
	.cfi_def_cfa_offset 56
	pushq	%rax
	.cfi_def_cfa_offset 64
	.cfi_offset %rbx, -56
	.cfi_offset %r12, -48
	.cfi_offset %r13, -40
	.cfi_offset %r14, -32
	.cfi_offset %r15, -24
	.cfi_offset %rbp, -16
	movzbl	%dil, %eax
	leal	-2(%rax), %ecx
	cmpl	$3, %ecx
	jae	.LBB83_1
.LBB83_17:
	addq	$8, %rsp
	.cfi_def_cfa_offset 56
	popq	%rbx
	.cfi_def_cfa_offset 48
	popq	%r12
	.cfi_def_cfa_offset 40
	popq	%r13
	.cfi_def_cfa_offset 32
	popq	%r14
	.cfi_def_cfa_offset 24
	popq	%r15
	.cfi_def_cfa_offset 16
	popq	%rbp
	.cfi_def_cfa_offset 8
	retq
.LBB83_1:
	.cfi_def_cfa_offset 64
	movq	%rdx, %rbx
	movq	%rsi, %r14
	cmpl	$1, %eax
	jne	.LBB83_18
	testq	%rbx, %rbx
	je	.LBB83_17
	xorl	%eax, %eax
	jmp	.LBB83_4
	.p2align	4
.LBB83_5:
	movq	%r14, %rdi
	movq	%rbx, %rsi
	movq	%rax, %rdx
	callq	link_state.walk.fill_last.cc05a3b9406ebc1a
	cmpq	%rbx, %rax
	jae	.LBB83_17
.LBB83_4:
	movq	%rbx, %rcx
	subq	%rax, %rcx
	cmpq	$7, %rcx
	jbe	.LBB83_5
	movzwl	(%r14,%rax), %r13d
	cmpw	$4, %r13w
	jb	.LBB83_17
	cmpq	%r13, %rcx
	jb	.LBB83_17
	leaq	(%r14,%rax), %r15
	movzwl	2(%r15), %ecx
	andl	$16383, %ecx
	cmpw	$3, %cx
	jne	.LBB83_15
	cmpw	$4, %r13w
	je	.LBB83_15
	addq	$4, %r15
	movzwl	%r13w, %ecx
	cmpl	$8, %ecx
	jne	.LBB83_12
	movl	$0, (%r15)
	jmp	.LBB83_15
.LBB83_12:
	movq	%r13, %r12
	addq	$-5, %r12
	je	.LBB83_14
	movq	%r15, %rdi
	xorl	%esi, %esi
	movq	%r12, %rdx
	movq	%rax, %rbp
	callq	memset@PLT
	movq	%rbp, %rax
.LBB83_14:
	movb	$0, (%r15,%r12)
	.p2align	4
.LBB83_15:
	leaq	-1(%r13), %rcx
	andq	$-4, %rcx
	movq	%rcx, %rdx
	subq	%r13, %rdx
	addq	$4, %rdx
	addq	%rax, %r13
	movq	%rbx, %rsi
	subq	%r13, %rsi
	cmpq	%rsi, %rdx
	leaq	4(%rax,%rcx), %rax
	cmovaeq	%rbx, %rax
	cmpq	%rbx, %rax
	jb	.LBB83_4
	jmp	.LBB83_17
.LBB83_18:
	movq	%r14, %rdi
	movq	%rbx, %rsi
	addq	$8, %rsp
	.cfi_def_cfa_offset 56
	popq	%rbx
	.cfi_def_cfa_offset 48
	popq	%r12
	.cfi_def_cfa_offset 40
	popq	%r13
	.cfi_def_cfa_offset 32
	popq	%r14
	.cfi_def_cfa_offset 24
	popq	%r15
	.cfi_def_cfa_offset 16
	popq	%rbp
	.cfi_def_cfa_offset 8
	jmp	link_state.walk.fill_list.7c7781c0b5effb6b
.Lfunc_end83:
	.size	link_state.level.info.fill_slave_data.0, .Lfunc_end83-link_state.level.info.fill_slave_data.0
	.cfi_endproc

	.section	.text.link_state.walk.fill_list.912baa29ef1db3d8,"ax",@progbits
	.p2align	4
	.type	link_state.walk.fill_list.912baa29ef1db3d8,@function
link_state.walk.fill_list.912baa29ef1db3d8:
	.cfi_startproc
	testq	%rsi, %rsi
	je	.LBB84_22
	pushq	%rbp
	.cfi_def_cfa_offset 16
	pushq	%r15
	.cfi_def_cfa_offset 24
	pushq	%r14
	.cfi_def_cfa_offset 32
	pushq	%r13
	.cfi_def_cfa_offset 40
	pushq	%r12
	.cfi_def_cfa_offset 48
	pushq	%rbx
	.cfi_def_cfa_offset 56
	subq	$24, %rsp
	.cfi_def_cfa_offset 80
	.cfi_offset %rbx, -56
	.cfi_offset %r12, -48
	.cfi_offset %r13, -40
	.cfi_offset %r14, -32
	.cfi_offset %r15, -24
	.cfi_offset %rbp, -16
	movq	%rsi, %rbx
	movq	%rdi, %r14
	xorl	%eax, %eax
	jmp	.LBB84_3
	.p2align	4
.LBB84_2:
	movq	%r14, %rdi
	movq	%rbx, %rsi
	movq	%rax, %rdx
	callq	link_state.walk.fill_last.912baa29ef1db3d8
	cmpq	%rbx, %rax
	jae	.LBB84_21
.LBB84_3:
	movq	%rbx, %rcx
	subq	%rax, %rcx
	cmpq	$7, %rcx
	jbe	.LBB84_2
	movzwl	(%r14,%rax), %ebp
	cmpw	$4, %bp
	jb	.LBB84_21
	cmpq	%rbp, %rcx
	jb	.LBB84_21
	leaq	(%r14,%rax), %r12
	movzwl	2(%r12), %ecx
	leaq	-4(%rbp), %r15
	andl	$16383, %ecx
	addl	$-16, %ecx
	cmpl	$32, %ecx
	ja	.LBB84_20
	addq	$4, %r12
	leaq	.LJTI84_0(%rip), %rdx
	movslq	(%rdx,%rcx,4), %rcx
	addq	%rdx, %rcx
	jmpq	*%rcx
.LBB84_8:
	cmpw	$4, %bp
	je	.LBB84_20
	movzwl	%bp, %ecx
	cmpl	$8, %ecx
	jne	.LBB84_16
	movl	$0, 12(%rsp)
	leaq	12(%rsp), %rcx
	movq	%r12, %rdx
	subq	%rcx, %rdx
	cmpq	$3, %rdx
	ja	.LBB84_11
	movl	12(%rsp), %ecx
	movl	%ecx, (%r12)
	jmp	.LBB84_20
.LBB84_16:
	movq	%rbp, %r13
	addq	$-5, %r13
	je	.LBB84_18
	movq	%r12, %rdi
	xorl	%esi, %esi
	movq	%r13, %rdx
	movq	%rax, 16(%rsp)
	callq	memset@PLT
	movq	16(%rsp), %rax
.LBB84_18:
	movb	$0, (%r12,%r13)
	jmp	.LBB84_20
.LBB84_19:
	movq	%r12, %rdi
	movq	%r15, %rsi
	movq	%rax, %r12
	callq	link_state.walk.fill_list.ab630e45b336543c
	movq	%r12, %rax
	jmp	.LBB84_20
.LBB84_11:
	movl	$0, (%r12)
	.p2align	4
.LBB84_20:
	leaq	-1(%rbp), %rcx
	andq	$-4, %rcx
	addq	%rax, %rbp
	addq	%rcx, %rax
	addq	$4, %rax
	subq	%r15, %rcx
	movq	%rbx, %rdx
	subq	%rbp, %rdx
	cmpq	%rdx, %rcx
	cmovaeq	%rbx, %rax
	cmpq	%rbx, %rax
	jb	.LBB84_3
.LBB84_21:
	addq	$24, %rsp
	.cfi_def_cfa_offset 56
	popq	%rbx
	.cfi_def_cfa_offset 48
	popq	%r12
	.cfi_def_cfa_offset 40
	popq	%r13
	.cfi_def_cfa_offset 32
	popq	%r14
	.cfi_def_cfa_offset 24
	popq	%r15
	.cfi_def_cfa_offset 16
	popq	%rbp
	.cfi_def_cfa_offset 8
	.cfi_restore %rbx
	.cfi_restore %r12
	.cfi_restore %r13
	.cfi_restore %r14
	.cfi_restore %r15
	.cfi_restore %rbp
.LBB84_22:
	retq
.Lfunc_end84:
	.size	link_state.walk.fill_list.912baa29ef1db3d8, .Lfunc_end84-link_state.walk.fill_list.912baa29ef1db3d8
	.cfi_endproc
	.section	.rodata.link_state.walk.fill_list.912baa29ef1db3d8,"a",@progbits
	.p2align	2, 0x0
.LJTI84_0:
	.long	.LBB84_8-.LJTI84_0
	.long	.LBB84_8-.LJTI84_0
	.long	.LBB84_8-.LJTI84_0
	.long	.LBB84_8-.LJTI84_0
	.long	.LBB84_20-.LJTI84_0
	.long	.LBB84_20-.LJTI84_0
	.long	.LBB84_20-.LJTI84_0
	.long	.LBB84_20-.LJTI84_0
	.long	.LBB84_20-.LJTI84_0
	.long	.LBB84_20-.LJTI84_0
	.long	.LBB84_20-.LJTI84_0
	.long	.LBB84_20-.LJTI84_0
	.long	.LBB84_20-.LJTI84_0
	.long	.LBB84_20-.LJTI84_0
	.long	.LBB84_20-.LJTI84_0
	.long	.LBB84_20-.LJTI84_0
	.long	.LBB84_20-.LJTI84_0
	.long	.LBB84_20-.LJTI84_0
	.long	.LBB84_20-.LJTI84_0
	.long	.LBB84_20-.LJTI84_0
	.long	.LBB84_20-.LJTI84_0
	.long	.LBB84_20-.LJTI84_0
	.long	.LBB84_20-.LJTI84_0
	.long	.LBB84_20-.LJTI84_0
	.long	.LBB84_20-.LJTI84_0
	.long	.LBB84_20-.LJTI84_0
	.long	.LBB84_20-.LJTI84_0
	.long	.LBB84_20-.LJTI84_0
	.long	.LBB84_20-.LJTI84_0
	.long	.LBB84_20-.LJTI84_0
	.long	.LBB84_20-.LJTI84_0
	.long	.LBB84_19-.LJTI84_0
	.long	.LBB84_8-.LJTI84_0

	.section	.text.link_state.walk.fill_last.912baa29ef1db3d8,"ax",@progbits
	.p2align	4
	.type	link_state.walk.fill_last.912baa29ef1db3d8,@function
link_state.walk.fill_last.912baa29ef1db3d8:
	.cfi_startproc
	movq	%rsi, %rax
	movq	%rsi, %rcx
	subq	%rdx, %rcx
	cmpq	$4, %rcx
	jb	.LBB85_21
	pushq	%r15
	.cfi_def_cfa_offset 16
	pushq	%r14
	.cfi_def_cfa_offset 24
	pushq	%r13
	.cfi_def_cfa_offset 32
	pushq	%r12
	.cfi_def_cfa_offset 40
	pushq	%rbx
	.cfi_def_cfa_offset 48
	subq	$16, %rsp
	.cfi_def_cfa_offset 64
	.cfi_offset %rbx, -48
	.cfi_offset %r12, -40
	.cfi_offset %r13, -32
	.cfi_offset %r14, -24
	.cfi_offset %r15, -16
	addq	%rdx, %rdi
	movzwl	(%rdi), %r14d
	cmpq	%r14, %rcx
	setb	%cl
	cmpw	$4, %r14w
	setb	%sil
	orb	%cl, %sil
	jne	.LBB85_20
	movzwl	2(%rdi), %ecx
	leaq	-4(%r14), %rbx
	andl	$16383, %ecx
	addl	$-16, %ecx
	cmpl	$32, %ecx
	ja	.LBB85_19
	addq	$4, %rdi
	leaq	.LJTI85_0(%rip), %rsi
	movslq	(%rsi,%rcx,4), %rcx
	addq	%rsi, %rcx
	jmpq	*%rcx
.LBB85_4:
	cmpw	$4, %r14w
	je	.LBB85_5
	movzwl	%r14w, %ecx
	cmpl	$8, %ecx
	jne	.LBB85_13
	movl	$0, 12(%rsp)
	leaq	12(%rsp), %rcx
	movq	%rdi, %rsi
	subq	%rcx, %rsi
	cmpq	$3, %rsi
	ja	.LBB85_17
	movl	12(%rsp), %ecx
	movl	%ecx, (%rdi)
	jmp	.LBB85_18
.LBB85_5:
	xorl	%ebx, %ebx
	jmp	.LBB85_19
.LBB85_13:
	addq	$-5, %r14
	je	.LBB85_15
	movq	%rdi, %r15
	xorl	%esi, %esi
	movq	%rdx, %r12
	movq	%r14, %rdx
	movq	%rax, %r13
	callq	memset@PLT
	movq	%r15, %rdi
	movq	%r12, %rdx
	movq	%r13, %rax
.LBB85_15:
	movb	$0, (%rdi,%r14)
	jmp	.LBB85_19
.LBB85_16:
	movq	%rbx, %rsi
	movq	%rax, %r14
	movq	%rdx, %r15
	callq	link_state.walk.fill_list.ab630e45b336543c
	movq	%r15, %rdx
	movq	%r14, %rax
	jmp	.LBB85_19
.LBB85_17:
	movl	$0, (%rdi)
.LBB85_18:
	movl	$4, %ebx
.LBB85_19:
	leaq	3(%rbx), %rcx
	andq	$-4, %rcx
	leaq	(%rdx,%rcx), %rsi
	addq	$4, %rsi
	subq	%rbx, %rcx
	addq	%rdx, %rbx
	negq	%rbx
	leaq	(%rax,%rbx), %rdx
	addq	$-4, %rdx
	cmpq	%rdx, %rcx
	cmovbq	%rsi, %rax
.LBB85_20:
	addq	$16, %rsp
	.cfi_def_cfa_offset 48
	popq	%rbx
	.cfi_def_cfa_offset 40
	popq	%r12
	.cfi_def_cfa_offset 32
	popq	%r13
	.cfi_def_cfa_offset 24
	popq	%r14
	.cfi_def_cfa_offset 16
	popq	%r15
	.cfi_def_cfa_offset 8
	.cfi_restore %rbx
	.cfi_restore %r12
	.cfi_restore %r13
	.cfi_restore %r14
	.cfi_restore %r15
.LBB85_21:
	retq
.Lfunc_end85:
	.size	link_state.walk.fill_last.912baa29ef1db3d8, .Lfunc_end85-link_state.walk.fill_last.912baa29ef1db3d8
	.cfi_endproc
	.section	.rodata.link_state.walk.fill_last.912baa29ef1db3d8,"a",@progbits
	.p2align	2, 0x0
.LJTI85_0:
	.long	.LBB85_4-.LJTI85_0
	.long	.LBB85_4-.LJTI85_0
	.long	.LBB85_4-.LJTI85_0
	.long	.LBB85_4-.LJTI85_0
	.long	.LBB85_19-.LJTI85_0
	.long	.LBB85_19-.LJTI85_0
	.long	.LBB85_19-.LJTI85_0
	.long	.LBB85_19-.LJTI85_0
	.long	.LBB85_19-.LJTI85_0
	.long	.LBB85_19-.LJTI85_0
	.long	.LBB85_19-.LJTI85_0
	.long	.LBB85_19-.LJTI85_0
	.long	.LBB85_19-.LJTI85_0
	.long	.LBB85_19-.LJTI85_0
	.long	.LBB85_19-.LJTI85_0
	.long	.LBB85_19-.LJTI85_0
	.long	.LBB85_19-.LJTI85_0
	.long	.LBB85_19-.LJTI85_0
	.long	.LBB85_19-.LJTI85_0
	.long	.LBB85_19-.LJTI85_0
	.long	.LBB85_19-.LJTI85_0
	.long	.LBB85_19-.LJTI85_0
	.long	.LBB85_19-.LJTI85_0
	.long	.LBB85_19-.LJTI85_0
	.long	.LBB85_19-.LJTI85_0
	.long	.LBB85_19-.LJTI85_0
	.long	.LBB85_19-.LJTI85_0
	.long	.LBB85_19-.LJTI85_0
	.long	.LBB85_19-.LJTI85_0
	.long	.LBB85_19-.LJTI85_0
	.long	.LBB85_19-.LJTI85_0
	.long	.LBB85_16-.LJTI85_0
	.long	.LBB85_4-.LJTI85_0

	.section	.text.link_state.walk.fill_list.ab630e45b336543c,"ax",@progbits
	.p2align	4
	.type	link_state.walk.fill_list.ab630e45b336543c,@function
link_state.walk.fill_list.ab630e45b336543c:
	.cfi_startproc
	testq	%rsi, %rsi
	je	.LBB86_23
	pushq	%rbp
	.cfi_def_cfa_offset 16
	pushq	%r15
	.cfi_def_cfa_offset 24
	pushq	%r14
	.cfi_def_cfa_offset 32
	pushq	%r13
	.cfi_def_cfa_offset 40
	pushq	%r12
	.cfi_def_cfa_offset 48
	pushq	%rbx
	.cfi_def_cfa_offset 56
	pushq	%rax
	.cfi_def_cfa_offset 64
	.cfi_offset %rbx, -56
	.cfi_offset %r12, -48
	.cfi_offset %r13, -40
	.cfi_offset %r14, -32
	.cfi_offset %r15, -24
	.cfi_offset %rbp, -16
	movq	%rsi, %rbx
	movq	%rdi, %r14
	xorl	%eax, %eax
	jmp	.LBB86_3
	.p2align	4
.LBB86_2:
	movq	%r14, %rdi
	movq	%rbx, %rsi
	movq	%rax, %rdx
	callq	link_state.walk.fill_last.ab630e45b336543c
	cmpq	%rbx, %rax
	jae	.LBB86_22
.LBB86_3:
	movq	%rbx, %rcx
	subq	%rax, %rcx
	cmpq	$7, %rcx
	jbe	.LBB86_2
	movzwl	(%r14,%rax), %r13d
	cmpw	$4, %r13w
	jb	.LBB86_22
	cmpq	%r13, %rcx
	jb	.LBB86_22
	leaq	(%r14,%rax), %r15
	movzwl	2(%r15), %ecx
	andl	$16383, %ecx
	addq	$4, %r15
	cmpl	$7, %ecx
	je	.LBB86_12
	cmpl	$3, %ecx
	jne	.LBB86_21
	cmpw	$4, %r13w
	je	.LBB86_21
	movzwl	%r13w, %ecx
	cmpl	$8, %ecx
	jne	.LBB86_16
	movl	$0, 4(%rsp)
	leaq	4(%rsp), %rcx
	movq	%r15, %rdx
	subq	%rcx, %rdx
	cmpq	$3, %rdx
	ja	.LBB86_20
	movl	4(%rsp), %ecx
	movl	%ecx, (%r15)
	jmp	.LBB86_21
.LBB86_12:
	cmpw	$4, %r13w
	je	.LBB86_21
	movzwl	%r13w, %ecx
	cmpl	$8, %ecx
	jne	.LBB86_16
	movl	$0, (%rsp)
	movq	%rsp, %rcx
	movq	%r15, %rdx
	subq	%rcx, %rdx
	cmpq	$3, %rdx
	ja	.LBB86_20
	movl	(%rsp), %ecx
	movl	%ecx, (%r15)
	jmp	.LBB86_21
.LBB86_16:
	movq	%r13, %r12
	addq	$-5, %r12
	je	.LBB86_18
	movq	%r15, %rdi
	xorl	%esi, %esi
	movq	%r12, %rdx
	movq	%rax, %rbp
	callq	memset@PLT
	movq	%rbp, %rax
.LBB86_18:
	movb	$0, (%r15,%r12)
	jmp	.LBB86_21
.LBB86_20:
	movl	$0, (%r15)
	.p2align	4
.LBB86_21:
	leaq	-1(%r13), %rcx
	andq	$-4, %rcx
	movq	%rcx, %rdx
	subq	%r13, %rdx
	addq	$4, %rdx
	addq	%rax, %r13
	movq	%rbx, %rsi
	subq	%r13, %rsi
	cmpq	%rsi, %rdx
	leaq	4(%rax,%rcx), %rax
	cmovaeq	%rbx, %rax
	cmpq	%rbx, %rax
	jb	.LBB86_3
.LBB86_22:
	addq	$8, %rsp
	.cfi_def_cfa_offset 56
	popq	%rbx
	.cfi_def_cfa_offset 48
	popq	%r12
	.cfi_def_cfa_offset 40
	popq	%r13
	.cfi_def_cfa_offset 32
	popq	%r14
	.cfi_def_cfa_offset 24
	popq	%r15
	.cfi_def_cfa_offset 16
	popq	%rbp
	.cfi_def_cfa_offset 8
	.cfi_restore %rbx
	.cfi_restore %r12
	.cfi_restore %r13
	.cfi_restore %r14
	.cfi_restore %r15
	.cfi_restore %rbp
.LBB86_23:
	retq
.Lfunc_end86:
	.size	link_state.walk.fill_list.ab630e45b336543c, .Lfunc_end86-link_state.walk.fill_list.ab630e45b336543c
	.cfi_endproc

	.section	.text.link_state.walk.fill_last.ab630e45b336543c,"ax",@progbits
	.p2align	4
	.type	link_state.walk.fill_last.ab630e45b336543c,@function
link_state.walk.fill_last.ab630e45b336543c:
	.cfi_startproc
	movq	%rsi, %rax
	movq	%rsi, %rcx
	subq	%rdx, %rcx
	cmpq	$4, %rcx
	jb	.LBB87_21
	pushq	%r15
	.cfi_def_cfa_offset 16
	pushq	%r14
	.cfi_def_cfa_offset 24
	pushq	%r13
	.cfi_def_cfa_offset 32
	pushq	%r12
	.cfi_def_cfa_offset 40
	pushq	%rbx
	.cfi_def_cfa_offset 48
	subq	$16, %rsp
	.cfi_def_cfa_offset 64
	.cfi_offset %rbx, -48
	.cfi_offset %r12, -40
	.cfi_offset %r13, -32
	.cfi_offset %r14, -24
	.cfi_offset %r15, -16
	addq	%rdx, %rdi
	movzwl	(%rdi), %ebx
	cmpq	%rbx, %rcx
	setb	%cl
	cmpw	$4, %bx
	setb	%sil
	orb	%cl, %sil
	jne	.LBB87_20
	movzwl	2(%rdi), %ecx
	leaq	-4(%rbx), %r15
	andl	$16383, %ecx
	addq	$4, %rdi
	cmpl	$7, %ecx
	je	.LBB87_8
	cmpl	$3, %ecx
	jne	.LBB87_19
	cmpw	$4, %bx
	je	.LBB87_18
	movzwl	%bx, %ecx
	cmpl	$8, %ecx
	jne	.LBB87_13
	movl	$0, 12(%rsp)
	leaq	12(%rsp), %rcx
	movq	%rdi, %rsi
	subq	%rcx, %rsi
	cmpq	$3, %rsi
	ja	.LBB87_16
	movl	12(%rsp), %ecx
	jmp	.LBB87_12
.LBB87_8:
	cmpw	$4, %bx
	je	.LBB87_18
	movzwl	%bx, %ecx
	cmpl	$8, %ecx
	jne	.LBB87_13
	movl	$0, 8(%rsp)
	leaq	8(%rsp), %rcx
	movq	%rdi, %rsi
	subq	%rcx, %rsi
	cmpq	$3, %rsi
	ja	.LBB87_16
	movl	8(%rsp), %ecx
.LBB87_12:
	movl	%ecx, (%rdi)
	movl	$4, %r15d
	jmp	.LBB87_19
.LBB87_18:
	xorl	%r15d, %r15d
	jmp	.LBB87_19
.LBB87_13:
	addq	$-5, %rbx
	je	.LBB87_15
	movq	%rdi, %r14
	xorl	%esi, %esi
	movq	%rdx, %r12
	movq	%rbx, %rdx
	movq	%rax, %r13
	callq	memset@PLT
	movq	%r14, %rdi
	movq	%r12, %rdx
	movq	%r13, %rax
.LBB87_15:
	movb	$0, (%rdi,%rbx)
	jmp	.LBB87_19
.LBB87_16:
	movl	$0, (%rdi)
	movl	$4, %r15d
.LBB87_19:
	leaq	3(%r15), %rcx
	andq	$-4, %rcx
	leaq	(%rdx,%rcx), %rsi
	addq	$4, %rsi
	subq	%r15, %rcx
	addq	%rdx, %r15
	negq	%r15
	leaq	(%rax,%r15), %rdx
	addq	$-4, %rdx
	cmpq	%rdx, %rcx
	cmovbq	%rsi, %rax
.LBB87_20:
	addq	$16, %rsp
	.cfi_def_cfa_offset 48
	popq	%rbx
	.cfi_def_cfa_offset 40
	popq	%r12
	.cfi_def_cfa_offset 32
	popq	%r13
	.cfi_def_cfa_offset 24
	popq	%r14
	.cfi_def_cfa_offset 16
	popq	%r15
	.cfi_def_cfa_offset 8
	.cfi_restore %rbx
	.cfi_restore %r12
	.cfi_restore %r13
	.cfi_restore %r14
	.cfi_restore %r15
.LBB87_21:
	retq
.Lfunc_end87:
	.size	link_state.walk.fill_last.ab630e45b336543c, .Lfunc_end87-link_state.walk.fill_last.ab630e45b336543c
	.cfi_endproc

	.section	.text.link_state.walk.fill_list.7c7781c0b5effb6b,"ax",@progbits
	.p2align	4
	.type	link_state.walk.fill_list.7c7781c0b5effb6b,@function
link_state.walk.fill_list.7c7781c0b5effb6b:
	.cfi_startproc
	testq	%rsi, %rsi
	je	.LBB88_23
	pushq	%rbp
	.cfi_def_cfa_offset 16
	pushq	%r15
	.cfi_def_cfa_offset 24
	pushq	%r14
	.cfi_def_cfa_offset 32
	pushq	%r13
	.cfi_def_cfa_offset 40
	pushq	%r12
	.cfi_def_cfa_offset 48
	pushq	%rbx
	.cfi_def_cfa_offset 56
	pushq	%rax
	.cfi_def_cfa_offset 64
	.cfi_offset %rbx, -56
	.cfi_offset %r12, -48
	.cfi_offset %r13, -40
	.cfi_offset %r14, -32
	.cfi_offset %r15, -24
	.cfi_offset %rbp, -16
	movq	%rsi, %rbx
	movq	%rdi, %r14
	xorl	%eax, %eax
	jmp	.LBB88_3
	.p2align	4
.LBB88_2:
	movq	%r14, %rdi
	movq	%rbx, %rsi
	movq	%rax, %rdx
	callq	link_state.walk.fill_last.7c7781c0b5effb6b
	cmpq	%rbx, %rax
	jae	.LBB88_22
.LBB88_3:
	movq	%rbx, %rcx
	subq	%rax, %rcx
	cmpq	$7, %rcx
	jbe	.LBB88_2
	movzwl	(%r14,%rax), %r13d
	cmpw	$4, %r13w
	jb	.LBB88_22
	cmpq	%r13, %rcx
	jb	.LBB88_22
	leaq	(%r14,%rax), %r15
	movzwl	2(%r15), %ecx
	andl	$16383, %ecx
	addl	$-19, %ecx
	cmpl	$22, %ecx
	ja	.LBB88_21
	addq	$4, %r15
	leaq	.LJTI88_0(%rip), %rdx
	movslq	(%rdx,%rcx,4), %rcx
	addq	%rdx, %rcx
	jmpq	*%rcx
.LBB88_8:
	cmpw	$4, %r13w
	je	.LBB88_21
	movzwl	%r13w, %ecx
	cmpl	$8, %ecx
	jne	.LBB88_18
	movl	$0, 4(%rsp)
	leaq	4(%rsp), %rcx
	movq	%r15, %rdx
	subq	%rcx, %rdx
	cmpq	$3, %rdx
	ja	.LBB88_11
	movl	4(%rsp), %ecx
	movl	%ecx, (%r15)
	jmp	.LBB88_21
.LBB88_18:
	movq	%r13, %r12
	addq	$-5, %r12
	je	.LBB88_20
	movq	%r15, %rdi
	xorl	%esi, %esi
	movq	%r12, %rdx
	movq	%rax, %rbp
	callq	memset@PLT
	movq	%rbp, %rax
.LBB88_20:
	movb	$0, (%r15,%r12)
	jmp	.LBB88_21
.LBB88_11:
	movl	$0, (%r15)
	.p2align	4
.LBB88_21:
	leaq	-1(%r13), %rcx
	andq	$-4, %rcx
	movq	%rcx, %rdx
	subq	%r13, %rdx
	addq	$4, %rdx
	addq	%rax, %r13
	movq	%rbx, %rsi
	subq	%r13, %rsi
	cmpq	%rsi, %rdx
	leaq	4(%rax,%rcx), %rax
	cmovaeq	%rbx, %rax
	cmpq	%rbx, %rax
	jb	.LBB88_3
.LBB88_22:
	addq	$8, %rsp
	.cfi_def_cfa_offset 56
	popq	%rbx
	.cfi_def_cfa_offset 48
	popq	%r12
	.cfi_def_cfa_offset 40
	popq	%r13
	.cfi_def_cfa_offset 32
	popq	%r14
	.cfi_def_cfa_offset 24
	popq	%r15
	.cfi_def_cfa_offset 16
	popq	%rbp
	.cfi_def_cfa_offset 8
	.cfi_restore %rbx
	.cfi_restore %r12
	.cfi_restore %r13
	.cfi_restore %r14
	.cfi_restore %r15
	.cfi_restore %rbp
.LBB88_23:
	retq
.Lfunc_end88:
	.size	link_state.walk.fill_list.7c7781c0b5effb6b, .Lfunc_end88-link_state.walk.fill_list.7c7781c0b5effb6b
	.cfi_endproc
	.section	.rodata.link_state.walk.fill_list.7c7781c0b5effb6b,"a",@progbits
	.p2align	2, 0x0
.LJTI88_0:
	.long	.LBB88_8-.LJTI88_0
	.long	.LBB88_8-.LJTI88_0
	.long	.LBB88_8-.LJTI88_0
	.long	.LBB88_8-.LJTI88_0
	.long	.LBB88_8-.LJTI88_0
	.long	.LBB88_21-.LJTI88_0
	.long	.LBB88_21-.LJTI88_0
	.long	.LBB88_21-.LJTI88_0
	.long	.LBB88_21-.LJTI88_0
	.long	.LBB88_21-.LJTI88_0
	.long	.LBB88_21-.LJTI88_0
	.long	.LBB88_21-.LJTI88_0
	.long	.LBB88_21-.LJTI88_0
	.long	.LBB88_21-.LJTI88_0
	.long	.LBB88_21-.LJTI88_0
	.long	.LBB88_21-.LJTI88_0
	.long	.LBB88_21-.LJTI88_0
	.long	.LBB88_21-.LJTI88_0
	.long	.LBB88_21-.LJTI88_0
	.long	.LBB88_8-.LJTI88_0
	.long	.LBB88_21-.LJTI88_0
	.long	.LBB88_21-.LJTI88_0
	.long	.LBB88_8-.LJTI88_0

	.section	.text.link_state.walk.fill_last.7c7781c0b5effb6b,"ax",@progbits
	.p2align	4
	.type	link_state.walk.fill_last.7c7781c0b5effb6b,@function
link_state.walk.fill_last.7c7781c0b5effb6b:
	.cfi_startproc
	movq	%rsi, %rax
	movq	%rsi, %rcx
	subq	%rdx, %rcx
	cmpq	$4, %rcx
	jb	.LBB89_22
	pushq	%r15
	.cfi_def_cfa_offset 16
	pushq	%r14
	.cfi_def_cfa_offset 24
	pushq	%r13
	.cfi_def_cfa_offset 32
	pushq	%r12
	.cfi_def_cfa_offset 40
	pushq	%rbx
	.cfi_def_cfa_offset 48
	subq	$16, %rsp
	.cfi_def_cfa_offset 64
	.cfi_offset %rbx, -48
	.cfi_offset %r12, -40
	.cfi_offset %r13, -32
	.cfi_offset %r14, -24
	.cfi_offset %r15, -16
	addq	%rdx, %rdi
	movzwl	(%rdi), %ebx
	cmpq	%rbx, %rcx
	setb	%cl
	cmpw	$4, %bx
	setb	%sil
	orb	%cl, %sil
	jne	.LBB89_21
	movzwl	2(%rdi), %ecx
	leaq	-4(%rbx), %r15
	andl	$16383, %ecx
	addl	$-19, %ecx
	cmpl	$22, %ecx
	ja	.LBB89_20
	addq	$4, %rdi
	leaq	.LJTI89_0(%rip), %rsi
	movslq	(%rsi,%rcx,4), %rcx
	addq	%rsi, %rcx
	jmpq	*%rcx
.LBB89_4:
	cmpw	$4, %bx
	je	.LBB89_5
	movzwl	%bx, %ecx
	cmpl	$8, %ecx
	jne	.LBB89_15
	movl	$0, 12(%rsp)
	leaq	12(%rsp), %rcx
	movq	%rdi, %rsi
	subq	%rcx, %rsi
	cmpq	$3, %rsi
	ja	.LBB89_18
	movl	12(%rsp), %ecx
	movl	%ecx, (%rdi)
	jmp	.LBB89_19
.LBB89_5:
	xorl	%r15d, %r15d
	jmp	.LBB89_20
.LBB89_15:
	addq	$-5, %rbx
	je	.LBB89_17
	movq	%rdi, %r14
	xorl	%esi, %esi
	movq	%rdx, %r12
	movq	%rbx, %rdx
	movq	%rax, %r13
	callq	memset@PLT
	movq	%r14, %rdi
	movq	%r12, %rdx
	movq	%r13, %rax
.LBB89_17:
	movb	$0, (%rdi,%rbx)
	jmp	.LBB89_20
.LBB89_18:
	movl	$0, (%rdi)
.LBB89_19:
	movl	$4, %r15d
.LBB89_20:
	leaq	3(%r15), %rcx
	andq	$-4, %rcx
	leaq	(%rdx,%rcx), %rsi
	addq	$4, %rsi
	subq	%r15, %rcx
	addq	%rdx, %r15
	negq	%r15
	leaq	(%rax,%r15), %rdx
	addq	$-4, %rdx
	cmpq	%rdx, %rcx
	cmovbq	%rsi, %rax
.LBB89_21:
	addq	$16, %rsp
	.cfi_def_cfa_offset 48
	popq	%rbx
	.cfi_def_cfa_offset 40
	popq	%r12
	.cfi_def_cfa_offset 32
	popq	%r13
	.cfi_def_cfa_offset 24
	popq	%r14
	.cfi_def_cfa_offset 16
	popq	%r15
	.cfi_def_cfa_offset 8
	.cfi_restore %rbx
	.cfi_restore %r12
	.cfi_restore %r13
	.cfi_restore %r14
	.cfi_restore %r15
.LBB89_22:
	retq
.Lfunc_end89:
	.size	link_state.walk.fill_last.7c7781c0b5effb6b, .Lfunc_end89-link_state.walk.fill_last.7c7781c0b5effb6b
	.cfi_endproc
	.section	.rodata.link_state.walk.fill_last.7c7781c0b5effb6b,"a",@progbits
	.p2align	2, 0x0
.LJTI89_0:
	.long	.LBB89_4-.LJTI89_0
	.long	.LBB89_4-.LJTI89_0
	.long	.LBB89_4-.LJTI89_0
	.long	.LBB89_4-.LJTI89_0
	.long	.LBB89_4-.LJTI89_0
	.long	.LBB89_20-.LJTI89_0
	.long	.LBB89_20-.LJTI89_0
	.long	.LBB89_20-.LJTI89_0
	.long	.LBB89_20-.LJTI89_0
	.long	.LBB89_20-.LJTI89_0
	.long	.LBB89_20-.LJTI89_0
	.long	.LBB89_20-.LJTI89_0
	.long	.LBB89_20-.LJTI89_0
	.long	.LBB89_20-.LJTI89_0
	.long	.LBB89_20-.LJTI89_0
	.long	.LBB89_20-.LJTI89_0
	.long	.LBB89_20-.LJTI89_0
	.long	.LBB89_20-.LJTI89_0
	.long	.LBB89_20-.LJTI89_0
	.long	.LBB89_4-.LJTI89_0
	.long	.LBB89_20-.LJTI89_0
	.long	.LBB89_20-.LJTI89_0
	.long	.LBB89_4-.LJTI89_0

	.section	.text.link_state.walk.fill_last.cc05a3b9406ebc1a,"ax",@progbits
	.p2align	4
	.type	link_state.walk.fill_last.cc05a3b9406ebc1a,@function
link_state.walk.fill_last.cc05a3b9406ebc1a:
	.cfi_startproc
	movq	%rsi, %rax
	movq	%rsi, %rcx
	subq	%rdx, %rcx
	cmpq	$4, %rcx
	jb	.LBB90_15
	pushq	%r15
	.cfi_def_cfa_offset 16
	pushq	%r14
	.cfi_def_cfa_offset 24
	pushq	%r13
	.cfi_def_cfa_offset 32
	pushq	%r12
	.cfi_def_cfa_offset 40
	pushq	%rbx
	.cfi_def_cfa_offset 48
	subq	$16, %rsp
	.cfi_def_cfa_offset 64
	.cfi_offset %rbx, -48
	.cfi_offset %r12, -40
	.cfi_offset %r13, -32
	.cfi_offset %r14, -24
	.cfi_offset %r15, -16
	addq	%rdx, %rdi
	movzwl	(%rdi), %ebx
	cmpq	%rbx, %rcx
	setb	%cl
	cmpw	$4, %bx
	setb	%sil
	orb	%cl, %sil
	jne	.LBB90_14
	movzwl	2(%rdi), %ecx
	leaq	-4(%rbx), %r15
	andl	$16383, %ecx
	cmpw	$3, %cx
	jne	.LBB90_13
	cmpw	$4, %bx
	je	.LBB90_7
	addq	$4, %rdi
	movzwl	%bx, %ecx
	cmpl	$8, %ecx
	jne	.LBB90_8
	movl	$0, 12(%rsp)
	leaq	12(%rsp), %rcx
	movq	%rdi, %rsi
	subq	%rcx, %rsi
	cmpq	$3, %rsi
	ja	.LBB90_11
	movl	12(%rsp), %ecx
	movl	%ecx, (%rdi)
	jmp	.LBB90_12
.LBB90_7:
	xorl	%r15d, %r15d
	jmp	.LBB90_13
.LBB90_8:
	addq	$-5, %rbx
	je	.LBB90_10
	movq	%rdi, %r14
	xorl	%esi, %esi
	movq	%rdx, %r12
	movq	%rbx, %rdx
	movq	%rax, %r13
	callq	memset@PLT
	movq	%r14, %rdi
	movq	%r12, %rdx
	movq	%r13, %rax
.LBB90_10:
	movb	$0, (%rdi,%rbx)
	jmp	.LBB90_13
.LBB90_11:
	movl	$0, (%rdi)
.LBB90_12:
	movl	$4, %r15d
.LBB90_13:
	leaq	3(%r15), %rcx
	andq	$-4, %rcx
	leaq	(%rdx,%rcx), %rsi
	addq	$4, %rsi
	subq	%r15, %rcx
	addq	%rdx, %r15
	negq	%r15
	leaq	(%rax,%r15), %rdx
	addq	$-4, %rdx
	cmpq	%rdx, %rcx
	cmovbq	%rsi, %rax
.LBB90_14:
	addq	$16, %rsp
	.cfi_def_cfa_offset 48
	popq	%rbx
	.cfi_def_cfa_offset 40
	popq	%r12
	.cfi_def_cfa_offset 32
	popq	%r13
	.cfi_def_cfa_offset 24
	popq	%r14
	.cfi_def_cfa_offset 16
	popq	%r15
	.cfi_def_cfa_offset 8
	.cfi_restore %rbx
	.cfi_restore %r12
	.cfi_restore %r13
	.cfi_restore %r14
	.cfi_restore %r15
.LBB90_15:
	retq
.Lfunc_end90:
	.size	link_state.walk.fill_last.cc05a3b9406ebc1a, .Lfunc_end90-link_state.walk.fill_last.cc05a3b9406ebc1a
	.cfi_endproc

	.section	.text.link_state.walk.fill_last.d502f879263cb481,"ax",@progbits
	.p2align	4
	.type	link_state.walk.fill_last.d502f879263cb481,@function
link_state.walk.fill_last.d502f879263cb481:
	.cfi_startproc
	movq	%rsi, %rax
	movq	%rsi, %rcx
	subq	%rdx, %rcx
	cmpq	$4, %rcx
	jb	.LBB91_15
	pushq	%r15
	.cfi_def_cfa_offset 16
	pushq	%r14
	.cfi_def_cfa_offset 24
	pushq	%r13
	.cfi_def_cfa_offset 32
	pushq	%r12
	.cfi_def_cfa_offset 40
	pushq	%rbx
	.cfi_def_cfa_offset 48
	subq	$16, %rsp
	.cfi_def_cfa_offset 64
	.cfi_offset %rbx, -48
	.cfi_offset %r12, -40
	.cfi_offset %r13, -32
	.cfi_offset %r14, -24
	.cfi_offset %r15, -16
	addq	%rdx, %rdi
	movzwl	(%rdi), %ebx
	cmpq	%rbx, %rcx
	setb	%cl
	cmpw	$4, %bx
	setb	%sil
	orb	%cl, %sil
	jne	.LBB91_14
	movzwl	2(%rdi), %ecx
	leaq	-4(%rbx), %r15
	andl	$16383, %ecx
	cmpw	$8, %cx
	jne	.LBB91_13
	cmpw	$4, %bx
	je	.LBB91_7
	addq	$4, %rdi
	movzwl	%bx, %ecx
	cmpl	$8, %ecx
	jne	.LBB91_8
	movl	$0, 12(%rsp)
	leaq	12(%rsp), %rcx
	movq	%rdi, %rsi
	subq	%rcx, %rsi
	cmpq	$3, %rsi
	ja	.LBB91_11
	movl	12(%rsp), %ecx
	movl	%ecx, (%rdi)
	jmp	.LBB91_12
.LBB91_7:
	xorl	%r15d, %r15d
	jmp	.LBB91_13
.LBB91_8:
	addq	$-5, %rbx
	je	.LBB91_10
	movq	%rdi, %r14
	xorl	%esi, %esi
	movq	%rdx, %r12
	movq	%rbx, %rdx
	movq	%rax, %r13
	callq	memset@PLT
	movq	%r14, %rdi
	movq	%r12, %rdx
	movq	%r13, %rax
.LBB91_10:
	movb	$0, (%rdi,%rbx)
	jmp	.LBB91_13
.LBB91_11:
	movl	$0, (%rdi)
.LBB91_12:
	movl	$4, %r15d
.LBB91_13:
	leaq	3(%r15), %rcx
	andq	$-4, %rcx
	leaq	(%rdx,%rcx), %rsi
	addq	$4, %rsi
	subq	%r15, %rcx
	addq	%rdx, %r15
	negq	%r15
	leaq	(%rax,%r15), %rdx
	addq	$-4, %rdx
	cmpq	%rdx, %rcx
	cmovbq	%rsi, %rax
.LBB91_14:
	addq	$16, %rsp
	.cfi_def_cfa_offset 48
	popq	%rbx
	.cfi_def_cfa_offset 40
	popq	%r12
	.cfi_def_cfa_offset 32
	popq	%r13
	.cfi_def_cfa_offset 24
	popq	%r14
	.cfi_def_cfa_offset 16
	popq	%r15
	.cfi_def_cfa_offset 8
	.cfi_restore %rbx
	.cfi_restore %r12
	.cfi_restore %r13
	.cfi_restore %r14
	.cfi_restore %r15
.LBB91_15:
	retq
.Lfunc_end91:
	.size	link_state.walk.fill_last.d502f879263cb481, .Lfunc_end91-link_state.walk.fill_last.d502f879263cb481
	.cfi_endproc

	.section	.text.link_state.walk.fill_last.56d093dd984761dd,"ax",@progbits
	.p2align	4
	.type	link_state.walk.fill_last.56d093dd984761dd,@function
link_state.walk.fill_last.56d093dd984761dd:
	.cfi_startproc
	movq	%rsi, %rax
	movq	%rsi, %rcx
	subq	%rdx, %rcx
	cmpq	$4, %rcx
	jb	.LBB92_15
	pushq	%r15
	.cfi_def_cfa_offset 16
	pushq	%r14
	.cfi_def_cfa_offset 24
	pushq	%r13
	.cfi_def_cfa_offset 32
	pushq	%r12
	.cfi_def_cfa_offset 40
	pushq	%rbx
	.cfi_def_cfa_offset 48
	subq	$16, %rsp
	.cfi_def_cfa_offset 64
	.cfi_offset %rbx, -48
	.cfi_offset %r12, -40
	.cfi_offset %r13, -32
	.cfi_offset %r14, -24
	.cfi_offset %r15, -16
	addq	%rdx, %rdi
	movzwl	(%rdi), %ebx
	cmpq	%rbx, %rcx
	setb	%cl
	cmpw	$4, %bx
	setb	%sil
	orb	%cl, %sil
	jne	.LBB92_14
	movzwl	2(%rdi), %ecx
	leaq	-4(%rbx), %r15
	andl	$16383, %ecx
	cmpw	$5, %cx
	jne	.LBB92_13
	cmpw	$4, %bx
	je	.LBB92_7
	addq	$4, %rdi
	movzwl	%bx, %ecx
	cmpl	$8, %ecx
	jne	.LBB92_8
	movl	$0, 12(%rsp)
	leaq	12(%rsp), %rcx
	movq	%rdi, %rsi
	subq	%rcx, %rsi
	cmpq	$3, %rsi
	ja	.LBB92_11
	movl	12(%rsp), %ecx
	movl	%ecx, (%rdi)
	jmp	.LBB92_12
.LBB92_7:
	xorl	%r15d, %r15d
	jmp	.LBB92_13
.LBB92_8:
	addq	$-5, %rbx
	je	.LBB92_10
	movq	%rdi, %r14
	xorl	%esi, %esi
	movq	%rdx, %r12
	movq	%rbx, %rdx
	movq	%rax, %r13
	callq	memset@PLT
	movq	%r14, %rdi
	movq	%r12, %rdx
	movq	%r13, %rax
.LBB92_10:
	movb	$0, (%rdi,%rbx)
	jmp	.LBB92_13
.LBB92_11:
	movl	$0, (%rdi)
.LBB92_12:
	movl	$4, %r15d
.LBB92_13:
	leaq	3(%r15), %rcx
	andq	$-4, %rcx
	leaq	(%rdx,%rcx), %rsi
	addq	$4, %rsi
	subq	%r15, %rcx
	addq	%rdx, %r15
	negq	%r15
	leaq	(%rax,%r15), %rdx
	addq	$-4, %rdx
	cmpq	%rdx, %rcx
	cmovbq	%rsi, %rax
.LBB92_14:
	addq	$16, %rsp
	.cfi_def_cfa_offset 48
	popq	%rbx
	.cfi_def_cfa_offset 40
	popq	%r12
	.cfi_def_cfa_offset 32
	popq	%r13
	.cfi_def_cfa_offset 24
	popq	%r14
	.cfi_def_cfa_offset 16
	popq	%r15
	.cfi_def_cfa_offset 8
	.cfi_restore %rbx
	.cfi_restore %r12
	.cfi_restore %r13
	.cfi_restore %r14
	.cfi_restore %r15
.LBB92_15:
	retq
.Lfunc_end92:
	.size	link_state.walk.fill_last.56d093dd984761dd, .Lfunc_end92-link_state.walk.fill_last.56d093dd984761dd
	.cfi_endproc

	.section	.rodata.cst16,"aM",@progbits,16
	.p2align	4, 0x0
.LCPI93_0:
	.zero	16,15
.LCPI93_1:
	.zero	16,159
.LCPI93_2:
	.zero	16,87
.LCPI93_3:
	.zero	16,48
.LCPI93_4:
	.zero	16,9
	.section	.text.message_lines.answers.push_text,"ax",@progbits
	.p2align	4
	.type	message_lines.answers.push_text,@function
message_lines.answers.push_text:
	.cfi_startproc
	pushq	%rbp
	.cfi_def_cfa_offset 16
	pushq	%r15
	.cfi_def_cfa_offset 24
	pushq	%r14
	.cfi_def_cfa_offset 32
	pushq	%r13
	.cfi_def_cfa_offset 40
	pushq	%r12
	.cfi_def_cfa_offset 48
	pushq	%rbx
	.cfi_def_cfa_offset 56
	subq	$24, %rsp
	.cfi_def_cfa_offset 80
	.cfi_offset %rbx, -56
	.cfi_offset %r12, -48
	.cfi_offset %r13, -40
	.cfi_offset %r14, -32
	.cfi_offset %r15, -24
	.cfi_offset %rbp, -16
	movq	8(%rdi), %r14
	movq	16(%rdi), %r13
	movq	%r13, %rax
	subq	%r14, %rax
	cmpq	$2, %rax
	jbe	.LBB93_1
.LBB93_3:
	leaq	3(%r14), %r15
	movq	(%rdi), %r12
	leaq	(%r12,%r14), %rax
	leaq	.Lstatic.13(%rip), %rcx
	movq	%rax, %r8
	subq	%rcx, %r8
	cmpq	$2, %r8
	ja	.LBB93_5
	movw	$27503, (%rax)
	movb	$32, 2(%rax)
	jmp	.LBB93_6
.LBB93_5:
	movb	$32, 2(%rax)
	movw	$27503, (%rax)
.LBB93_6:
	movq	%r12, (%rdi)
	movq	%r15, 8(%rdi)
	movq	%r13, 16(%rdi)
	leaq	(%rdx,%rdx), %rbx
	movq	%rbx, %rcx
	movb	$1, %al
	addq	%r15, %rcx
	jb	.LBB93_29
	cmpq	%r15, %rcx
	jbe	.LBB93_8
	movq	%r13, %rcx
	subq	%r15, %rcx
	movq	%r15, %rax
	cmpq	%rcx, %rbx
	ja	.LBB93_11
	leaq	(%rax,%rbx), %rbp
	cmpq	%rbp, %rax
	jae	.LBB93_16
.LBB93_15:
	addq	%r12, %rax
	movq	%rdi, 16(%rsp)
	movq	%rax, %rdi
	movq	%rsi, (%rsp)
	xorl	%esi, %esi
	movq	%rdx, 8(%rsp)
	movq	%rbx, %rdx
	callq	memset@PLT
	movq	(%rsp), %rsi
	movq	8(%rsp), %rdx
	movq	16(%rsp), %rdi
.LBB93_16:
	movq	%r12, (%rdi)
	movq	%rbp, 8(%rdi)
	movq	%r13, 16(%rdi)
	jmp	.LBB93_17
.LBB93_8:
	jae	.LBB93_17
	movq	%rcx, 8(%rdi)
.LBB93_17:
	cmpq	$16, %rdx
	jb	.LBB93_18
	leaq	(%r14,%r12), %rcx
	addq	$19, %rcx
	xorl	%eax, %eax
	movq	%rdx, %r8
	.p2align	4
.LBB93_31:
	movdqu	(%rsi,%rax), %xmm0
	movdqa	%xmm0, %xmm1
	psrlw	$4, %xmm1
	movdqa	.LCPI93_0(%rip), %xmm2
	pand	%xmm2, %xmm1
	movdqa	.LCPI93_1(%rip), %xmm3
	pminub	%xmm0, %xmm3
	pcmpeqb	%xmm0, %xmm3
	movdqa	.LCPI93_2(%rip), %xmm4
	movdqa	%xmm3, %xmm5
	pandn	%xmm4, %xmm5
	movdqa	.LCPI93_3(%rip), %xmm6
	pand	%xmm6, %xmm3
	por	%xmm5, %xmm3
	paddb	%xmm1, %xmm3
	pand	%xmm2, %xmm0
	movdqa	%xmm0, %xmm1
	pcmpgtb	.LCPI93_4(%rip), %xmm1
	pand	%xmm1, %xmm4
	pandn	%xmm6, %xmm1
	por	%xmm4, %xmm1
	paddb	%xmm0, %xmm1
	movdqa	%xmm3, %xmm0
	punpcklbw	%xmm1, %xmm0
	punpckhbw	%xmm1, %xmm3
	movdqu	%xmm0, -16(%rcx,%rax,2)
	movdqu	%xmm3, (%rcx,%rax,2)
	addq	$16, %rax
	addq	$-16, %r8
	cmpq	$15, %r8
	ja	.LBB93_31
	cmpq	%rax, %rdx
	ja	.LBB93_20
	jmp	.LBB93_25
.LBB93_18:
	xorl	%eax, %eax
	cmpq	%rax, %rdx
	jbe	.LBB93_25
.LBB93_20:
	movl	%edx, %r8d
	subl	%eax, %r8d
	leaq	1(%rax), %rcx
	testb	$1, %r8b
	je	.LBB93_22
	addq	%r12, %r15
	movzbl	(%rsi,%rax), %r8d
	shrl	$4, %r8d
	leaq	.Lstatic.146(%rip), %r9
	movzbl	(%r8,%r9), %r8d
	movb	%r8b, (%r15,%rax,2)
	movzbl	(%rsi,%rax), %r8d
	andl	$15, %r8d
	movzbl	(%r8,%r9), %r8d
	movb	%r8b, 1(%r15,%rax,2)
	movq	%rcx, %rax
.LBB93_22:
	cmpq	%rcx, %rdx
	je	.LBB93_25
	leaq	(%r14,%r12), %rcx
	addq	$6, %rcx
	.p2align	4
.LBB93_24:
	movzbl	(%rsi,%rax), %r8d
	shrl	$4, %r8d
	leaq	.Lstatic.146(%rip), %r9
	movzbl	(%r8,%r9), %r8d
	movb	%r8b, -3(%rcx,%rax,2)
	movzbl	(%rsi,%rax), %r8d
	andl	$15, %r8d
	movzbl	(%r8,%r9), %r8d
	movb	%r8b, -2(%rcx,%rax,2)
	movzbl	1(%rsi,%rax), %r8d
	shrl	$4, %r8d
	movzbl	(%r8,%r9), %r8d
	movb	%r8b, -1(%rcx,%rax,2)
	movzbl	1(%rsi,%rax), %r8d
	andl	$15, %r8d
	movzbl	(%r8,%r9), %r8d
	movb	%r8b, (%rcx,%rax,2)
	addq	$2, %rax
	cmpq	%rax, %rdx
	jne	.LBB93_24
.LBB93_25:
	movq	8(%rdi), %rax
	cmpq	%rax, 16(%rdi)
	je	.LBB93_26
.LBB93_28:
	movq	(%rdi), %rcx
	movb	$10, (%rcx,%rax)
	incq	%rax
	movq	%rax, 8(%rdi)
	xorl	%eax, %eax
.LBB93_29:
	addq	$24, %rsp
	.cfi_def_cfa_offset 56
	popq	%rbx
	.cfi_def_cfa_offset 48
	popq	%r12
	.cfi_def_cfa_offset 40
	popq	%r13
	.cfi_def_cfa_offset 32
	popq	%r14
	.cfi_def_cfa_offset 24
	popq	%r15
	.cfi_def_cfa_offset 16
	popq	%rbp
	.cfi_def_cfa_offset 8
	retq
.LBB93_1:
	.cfi_def_cfa_offset 80
	movq	%rsi, %rbx
	movq	%rdx, %r15
	movl	$3, %esi
	movq	%rdi, %r14
	callq	std_alloc.vec.Vec.grow_amortized.05fa32d921161499
	movl	%eax, %ecx
	movb	$1, %al
	testb	%cl, %cl
	je	.LBB93_29
	movq	%r14, %rdi
	movq	8(%r14), %r14
	movq	16(%rdi), %r13
	movq	%r15, %rdx
	movq	%rbx, %rsi
	jmp	.LBB93_3
.LBB93_26:
	movl	$1, %esi
	movq	%rdi, %rbx
	callq	std_alloc.vec.Vec.grow_amortized.05fa32d921161499
	movl	%eax, %ecx
	movb	$1, %al
	testb	%cl, %cl
	je	.LBB93_29
	movq	%rbx, %rdi
	movq	8(%rbx), %rax
	jmp	.LBB93_28
.LBB93_11:
	movq	%rsi, (%rsp)
	movq	%rdx, %rbp
	movq	%rdi, %r12
	movq	%rbx, %rsi
	callq	std_alloc.vec.Vec.grow_amortized.05fa32d921161499
	testb	%al, %al
	je	.LBB93_12
	movq	%r12, %rdi
	movq	(%r12), %r12
	movq	8(%rdi), %rax
	movq	16(%rdi), %r13
	movq	%rbp, %rdx
	movq	(%rsp), %rsi
	leaq	(%rax,%rbx), %rbp
	cmpq	%rbp, %rax
	jb	.LBB93_15
	jmp	.LBB93_16
.LBB93_12:
	movb	$1, %al
	jmp	.LBB93_29
.Lfunc_end93:
	.size	message_lines.answers.push_text, .Lfunc_end93-message_lines.answers.push_text
	.cfi_endproc

	.section	.rodata.cst16,"aM",@progbits,16
	.p2align	4, 0x0
.LCPI94_0:
	.byte	0
	.byte	1
	.byte	2
	.byte	3
	.byte	4
	.byte	5
	.byte	6
	.byte	7
	.byte	8
	.byte	9
	.byte	10
	.byte	11
	.byte	12
	.byte	13
	.byte	14
	.byte	15
.LCPI94_1:
	.byte	16
	.byte	17
	.byte	18
	.byte	19
	.byte	20
	.byte	21
	.byte	22
	.byte	23
	.byte	24
	.byte	25
	.byte	26
	.byte	27
	.byte	28
	.byte	29
	.byte	30
	.byte	31
	.section	.text.line_filter.write.write_out.df9e9f1468b30f79,"ax",@progbits
	.p2align	4
	.type	line_filter.write.write_out.df9e9f1468b30f79,@function
line_filter.write.write_out.df9e9f1468b30f79:
	.cfi_startproc
	pushq	%r15
	.cfi_def_cfa_offset 16
	pushq	%r14
	.cfi_def_cfa_offset 24
	pushq	%r12
	.cfi_def_cfa_offset 32
	pushq	%rbx
	.cfi_def_cfa_offset 40
	subq	$88, %rsp
	.cfi_def_cfa_offset 128
	.cfi_offset %rbx, -40
	.cfi_offset %r12, -32
	.cfi_offset %r14, -24
	.cfi_offset %r15, -16
	movq	%rdi, %rbx
	movq	(%rdi), %r15
	movq	8(%rdi), %r14
	movq	$-1, %r12
	jmp	.LBB94_1
	.p2align	4
.LBB94_9:
	decq	%r12
	je	.LBB94_10
.LBB94_1:
	testq	%r14, %r14
	je	.LBB94_2
	movl	$1, %edi
	movq	%r15, %rsi
	movq	%r14, %rdx
	callq	write@PLT
	testq	%rax, %rax
	js	.LBB94_6
	je	.LBB94_5
	cmpq	%r14, %rax
	cmovaeq	%r14, %rax
	addq	%rax, %r15
	subq	%rax, %r14
	jmp	.LBB94_9
	.p2align	4
.LBB94_6:
	callq	rattle_errno@PLT
	movq	%rsp, %rdi
	movl	%eax, %esi
	callq	std_io.io.error.Error.from_raw_os_error
	movq	(%rsp), %rax
	shrq	$8, %rax
	movaps	.LCPI94_0(%rip), %xmm0
	movaps	%xmm0, (%rsp)
	movaps	.LCPI94_1(%rip), %xmm0
	movaps	%xmm0, 16(%rsp)
	movabsq	$2820983053732684064, %rcx
	movq	%rcx, 32(%rsp)
	movb	$40, 40(%rsp)
	cmpb	$41, %al
	jae	.LBB94_5
	andl	$63, %eax
	cmpb	$35, (%rsp,%rax)
	je	.LBB94_9
.LBB94_5:
	movb	$1, %al
	movb	$1, %dl
	jmp	.LBB94_14
.LBB94_2:
	xorl	%eax, %eax
	jmp	.LBB94_11
.LBB94_10:
	movb	$1, %dl
	testq	%r14, %r14
	setne	%al
	jne	.LBB94_14
.LBB94_11:
	cmpq	$0, 8(%rbx)
	je	.LBB94_13
	movq	$0, 8(%rbx)
.LBB94_13:
	xorl	%edx, %edx
.LBB94_14:
	addq	$88, %rsp
	.cfi_def_cfa_offset 40
	popq	%rbx
	.cfi_def_cfa_offset 32
	popq	%r12
	.cfi_def_cfa_offset 24
	popq	%r14
	.cfi_def_cfa_offset 16
	popq	%r15
	.cfi_def_cfa_offset 8
	retq
.Lfunc_end94:
	.size	line_filter.write.write_out.df9e9f1468b30f79, .Lfunc_end94-line_filter.write.write_out.df9e9f1468b30f79
	.cfi_endproc

	.section	.text.line_filter.program.ended,"ax",@progbits
	.p2align	4
	.type	line_filter.program.ended,@function
line_filter.program.ended:
	.cfi_startproc
	testb	$1, %dil
	je	.LBB95_1
	pushq	%rbp
	.cfi_def_cfa_offset 16
	pushq	%rbx
	.cfi_def_cfa_offset 24
	subq	$2328, %rsp
	.cfi_def_cfa_offset 2352
	.cfi_offset %rbx, -24
	.cfi_offset %rbp, -16
	movl	%esi, %ebp
	movl	$2, 8(%rsp)
	leaq	12(%rsp), %rbx
	leaq	20(%rsp), %rdi
	movl	$1124, %edx
	xorl	%esi, %esi
	callq	memset@PLT
	movl	$32, 1144(%rsp)
	movq	$0, 1148(%rsp)
	movl	$0, 1156(%rsp)
	movq	$-1, 1160(%rsp)
	xorps	%xmm0, %xmm0
	movups	%xmm0, 1168(%rsp)
	movl	1144(%rsp), %eax
	movl	%eax, 1184(%rsp)
	movq	1148(%rsp), %rax
	movq	%rax, 1188(%rsp)
	movl	1156(%rsp), %eax
	movl	%eax, 1196(%rsp)
	movq	$-1, 1200(%rsp)
	movabsq	$8386112020213033324, %rax
	movq	%rax, 12(%rsp)
	movw	$14949, 20(%rsp)
	movb	$32, 22(%rsp)
	movl	$32, 1144(%rsp)
	movq	$0, 1148(%rsp)
	movl	$0, 1156(%rsp)
	cmpb	$2, %bpl
	je	.LBB95_6
	movzbl	%bpl, %eax
	cmpl	$1, %eax
	jne	.LBB95_4
	movabsq	$7018332689420350071, %rax
	movq	%rax, 23(%rsp)
	movq	$20, 1040(%rsp)
	movl	$1684368489, 31(%rsp)
	movl	$23, %eax
	jmp	.LBB95_7
.LBB95_1:
	.cfi_def_cfa_offset 8
	.cfi_restore %rbx
	.cfi_restore %rbp
	xorl	%eax, %eax
	retq
.LBB95_6:
	.cfi_def_cfa_offset 2352
	.cfi_offset %rbx, -24
	.cfi_offset %rbp, -16
	movabsq	$7863397576860792175, %rax
	movq	%rax, 23(%rsp)
	movq	$21, 1040(%rsp)
	movl	$1919905125, 31(%rsp)
	movb	$121, 35(%rsp)
	movl	$24, %eax
	jmp	.LBB95_7
.LBB95_4:
	movabsq	$7593462736032458098, %rax
	movq	%rax, 23(%rsp)
	movq	$19, 1040(%rsp)
	movw	$25964, 31(%rsp)
	movb	$100, 33(%rsp)
	movl	$22, %eax
.LBB95_7:
	movq	1200(%rsp), %rcx
	movq	%rcx, 1148(%rbx)
	movaps	1184(%rsp), %xmm0
	movups	%xmm0, 1132(%rbx)
	movq	1148(%rbx), %rcx
	movq	%rcx, 1200(%rsp)
	movups	1132(%rbx), %xmm0
	movaps	%xmm0, 1184(%rsp)
	movb	$10, 12(%rsp,%rax)
	incq	%rax
	movq	%rax, 1040(%rsp)
	movq	%rcx, 1148(%rbx)
	movups	%xmm0, 1132(%rbx)
	movl	8(%rsp), %eax
	movl	%eax, 1184(%rsp)
	leaq	1188(%rsp), %rdi
	movl	$1132, %edx
	movq	%rbx, %rsi
	callq	memcpy@PLT
	leaq	1184(%rsp), %rdi
	callq	std_io.io.buffer.Buffer.flush
	movb	$1, %al
	addq	$2328, %rsp
	.cfi_def_cfa_offset 24
	popq	%rbx
	.cfi_def_cfa_offset 16
	popq	%rbp
	.cfi_def_cfa_offset 8
	.cfi_restore %rbx
	.cfi_restore %rbp
	retq
.Lfunc_end95:
	.size	line_filter.program.ended, .Lfunc_end95-line_filter.program.ended
	.cfi_endproc

	.section	.text.line_filter.program.write_text,"ax",@progbits
	.p2align	4
	.type	line_filter.program.write_text,@function
line_filter.program.write_text:
	.cfi_startproc
	pushq	%rbp
	.cfi_def_cfa_offset 16
	pushq	%r15
	.cfi_def_cfa_offset 24
	pushq	%r14
	.cfi_def_cfa_offset 32
	pushq	%r12
	.cfi_def_cfa_offset 40
	pushq	%rbx
	.cfi_def_cfa_offset 48
	subq	$2448, %rsp
	.cfi_def_cfa_offset 2496
	.cfi_offset %rbx, -48
	.cfi_offset %r12, -40
	.cfi_offset %r14, -32
	.cfi_offset %r15, -24
	.cfi_offset %rbp, -16
	movq	%rsi, %r14
	movq	%rdi, %r15
	xorps	%xmm0, %xmm0
	movaps	%xmm0, 16(%rsp)
	movaps	%xmm0, (%rsp)
	movl	$1, 40(%rsp)
	leaq	44(%rsp), %rbx
	xorl	%r12d, %r12d
	movl	$1132, %edx
	movq	%rbx, %rdi
	xorl	%esi, %esi
	callq	memset@PLT
	movl	$32, 1176(%rsp)
	movq	$0, 1180(%rsp)
	movl	$0, 1188(%rsp)
	movq	$-1, 1192(%rsp)
	xorps	%xmm0, %xmm0
	movups	%xmm0, 1200(%rsp)
	movl	1176(%rsp), %eax
	movl	%eax, 1216(%rsp)
	movq	1180(%rsp), %rax
	movq	%rax, 1220(%rsp)
	movl	1188(%rsp), %eax
	movl	%eax, 1228(%rsp)
	movq	$-1, 1232(%rsp)
	movl	$32, 1176(%rsp)
	movl	$0, 1188(%rsp)
	movq	$0, 1180(%rsp)
	xorl	%eax, %eax
	jmp	.LBB96_1
	.p2align	4
.LBB96_4:
	movb	%bpl, 44(%rsp,%rax)
	incq	%rax
	movq	%rax, 1072(%rsp)
	incq	%r12
	cmpq	%r12, %r14
	je	.LBB96_5
.LBB96_1:
	movzbl	(%r15,%r12), %ebp
	cmpq	$1024, %rax
	jb	.LBB96_4
	leaq	40(%rsp), %rdi
	callq	std_io.io.buffer.Buffer.flush
	testb	%al, %al
	je	.LBB96_11
	movq	1072(%rsp), %rax
	cmpq	$1023, %rax
	jbe	.LBB96_4
.LBB96_11:
	movq	1232(%rsp), %rax
	movq	%rax, 1148(%rbx)
	movaps	1216(%rsp), %xmm0
	movups	%xmm0, 1132(%rbx)
	xorl	%ebp, %ebp
	jmp	.LBB96_8
.LBB96_5:
	movq	1232(%rsp), %rax
	movq	%rax, 1148(%rbx)
	movaps	1216(%rsp), %xmm0
	movups	%xmm0, 1132(%rbx)
	movq	1148(%rbx), %rax
	movq	%rax, 1232(%rsp)
	movups	1132(%rbx), %xmm0
	movaps	%xmm0, 1216(%rsp)
	movl	$32, 1176(%rsp)
	movl	$0, 1144(%rbx)
	movq	$0, 1136(%rbx)
	movq	$-1, 1192(%rsp)
	movb	$1, %bpl
	cmpq	$0, 1200(%rsp)
	jne	.LBB96_6
.LBB96_7:
	movq	1232(%rsp), %rax
	movq	%rax, 1148(%rbx)
	movaps	1216(%rsp), %xmm0
	movups	%xmm0, 1132(%rbx)
.LBB96_8:
	movl	40(%rsp), %eax
	movl	%eax, 1216(%rsp)
	leaq	1220(%rsp), %rdi
	movl	$1132, %edx
	movq	%rbx, %rsi
	callq	memcpy@PLT
	leaq	1216(%rsp), %rdi
	callq	std_io.io.buffer.Buffer.flush
	andb	%bpl, %al
	jne	.LBB96_10
	leaq	.Lstatic.0(%rip), %rcx
	movq	%rcx, (%rsp)
	movq	$9, 8(%rsp)
	leaq	.Lstatic.155(%rip), %rcx
	movq	%rcx, 16(%rsp)
	movq	$14, 24(%rsp)
	leaq	2352(%rsp), %rdi
	movq	%rsp, %rsi
	movl	%eax, %ebx
	callq	std_io.io.LibcRuntimeEprint.eprintln.27a8a20715d85f24
	movl	%ebx, %eax
.LBB96_10:
	xorb	$1, %al
	addq	$2448, %rsp
	.cfi_def_cfa_offset 48
	popq	%rbx
	.cfi_def_cfa_offset 40
	popq	%r12
	.cfi_def_cfa_offset 32
	popq	%r14
	.cfi_def_cfa_offset 24
	popq	%r15
	.cfi_def_cfa_offset 16
	popq	%rbp
	.cfi_def_cfa_offset 8
	retq
.LBB96_6:
	.cfi_def_cfa_offset 2496
	leaq	.Lstatic.3(%rip), %rsi
	leaq	40(%rsp), %rdi
	xorl	%edx, %edx
	callq	core.fmt.formatter.Formatter.write_indented.bf264aed5fa78656
	testb	%al, %al
	sete	%bpl
	jmp	.LBB96_7
.Lfunc_end96:
	.size	line_filter.program.write_text, .Lfunc_end96-line_filter.program.write_text
	.cfi_endproc

	.section	.rodata.cst16,"aM",@progbits,16
	.p2align	4, 0x0
.LCPI97_0:
	.zero	16,208
.LCPI97_1:
	.zero	16,32
.LCPI97_2:
	.zero	16,159
.LCPI97_3:
	.zero	16,6
.LCPI97_4:
	.zero	16,169
.LCPI97_5:
	.zero	16,9
.LCPI97_6:
	.zero	16,16
.LCPI97_7:
	.short	255
	.short	255
	.short	255
	.short	255
	.short	255
	.short	255
	.short	255
	.short	255
.LCPI97_8:
	.zero	16,240
	.section	.text.line_filter.answers.AnsweringTake.take.d1b9b744fe2e7f64,"ax",@progbits
	.p2align	4
	.type	line_filter.answers.AnsweringTake.take.d1b9b744fe2e7f64,@function
line_filter.answers.AnsweringTake.take.d1b9b744fe2e7f64:
	.cfi_startproc
	pushq	%rbp
	.cfi_def_cfa_offset 16
	pushq	%r15
	.cfi_def_cfa_offset 24
	pushq	%r14
	.cfi_def_cfa_offset 32
	pushq	%r13
	.cfi_def_cfa_offset 40
	pushq	%r12
	.cfi_def_cfa_offset 48
	pushq	%rbx
	.cfi_def_cfa_offset 56
	subq	$216, %rsp
	.cfi_def_cfa_offset 272
	.cfi_offset %rbx, -56
	.cfi_offset %r12, -48
	.cfi_offset %r13, -40
	.cfi_offset %r14, -32
	.cfi_offset %r15, -24
	.cfi_offset %rbp, -16
	movq	%rcx, %rbp
	movq	%rdx, %r12
	movq	%rsi, %r15
	movq	%rdi, 8(%rsp)
	movq	%rsi, %rdi
	movq	%rdx, %rsi
	callq	line_filter.words.words_len
	subq	%rax, %r12
	testq	%rax, %rax
	je	.LBB97_24
	movq	8(%rbp), %rcx
	movq	16(%rbp), %r14
	movq	%r14, %rdx
	subq	%rcx, %rdx
	cmpq	%rdx, %rax
	ja	.LBB97_59
.LBB97_2:
	leaq	8(%rbp), %rsi
	leaq	(%rcx,%rax), %rbx
	movq	(%rbp), %r11
	pxor	%xmm0, %xmm0
	movdqu	%xmm0, (%rsi)
	leaq	(%r11,%rcx), %rdi
	movq	%rdi, %rdx
	subq	%r15, %rdx
	cmpq	%rax, %rdx
	movq	%rsi, (%rsp)
	jae	.LBB97_5
	cmpq	$4, %rax
	jb	.LBB97_4
	cmpq	$32, %rdx
	jae	.LBB97_8
.LBB97_4:
	xorl	%edx, %edx
.LBB97_17:
	movq	%rax, %r8
	movq	%rdx, %rsi
	andq	$3, %r8
	je	.LBB97_20
	movq	%rdx, %rsi
	.p2align	4
.LBB97_19:
	movzbl	(%r15,%rsi), %r9d
	movb	%r9b, (%rdi,%rsi)
	incq	%rsi
	decq	%r8
	jne	.LBB97_19
.LBB97_20:
	subq	%rax, %rdx
	cmpq	$-4, %rdx
	ja	.LBB97_23
	addq	%r11, %rcx
	addq	$3, %rcx
	.p2align	4
.LBB97_22:
	movzbl	(%r15,%rsi), %edx
	movb	%dl, -3(%rcx,%rsi)
	movzbl	1(%r15,%rsi), %edx
	movb	%dl, -2(%rcx,%rsi)
	movzbl	2(%r15,%rsi), %edx
	movb	%dl, -1(%rcx,%rsi)
	movzbl	3(%r15,%rsi), %edx
	movb	%dl, (%rcx,%rsi)
	addq	$4, %rsi
	cmpq	%rsi, %rax
	jne	.LBB97_22
	jmp	.LBB97_23
.LBB97_5:
	movq	%r15, %rsi
	movq	%rax, %rdx
	movq	%rbp, %r13
	movq	%rax, %rbp
	movq	%rbx, 64(%rsp)
	movq	%r11, %rbx
	callq	memmove@PLT
	movq	%rbx, %r11
	movq	64(%rsp), %rbx
	movq	%rbp, %rax
	movq	%r13, %rbp
.LBB97_23:
	movq	%r11, (%rbp)
	movq	%rbx, 8(%rbp)
	movq	%r14, 16(%rbp)
	testq	%r12, %r12
	je	.LBB97_54
.LBB97_24:
	addq	%rax, %r15
	cmpq	$3, %r12
	jb	.LBB97_26
	movzbl	(%r15), %eax
	movzbl	1(%r15), %ecx
	xorb	$111, %al
	xorb	$107, %cl
	orb	%al, %cl
	movzbl	2(%r15), %eax
	xorb	$32, %al
	leaq	-3(%r12), %rdx
	xorl	%esi, %esi
	orb	%cl, %al
	sete	%sil
	leaq	(%rsi,%rsi,2), %rax
	cmoveq	%rdx, %r12
	addq	%rax, %r15
.LBB97_26:
	movq	8(%rsp), %rdi
	movq	%r12, %rax
	shrq	%rax
	movq	8(%rdi), %r8
	movq	%rax, %rdx
	subq	%r8, %rdx
	jbe	.LBB97_31
	movq	16(%rdi), %rbx
	movq	%rbx, %rax
	subq	%r8, %rax
	cmpq	%rax, %rdx
	ja	.LBB97_63
.LBB97_28:
	movq	%rbp, %r13
	leaq	(%r8,%rdx), %rbp
	movq	(%rdi), %r14
	cmpq	%rbp, %r8
	jae	.LBB97_30
	addq	%r14, %r8
	movq	%r8, %rdi
	xorl	%esi, %esi
	callq	memset@PLT
	movq	8(%rsp), %rdi
.LBB97_30:
	movq	%r14, (%rdi)
	movq	%rbp, 8(%rdi)
	movq	%rbx, 16(%rdi)
	movq	%rbp, %r8
	movq	%r13, %rbp
	jmp	.LBB97_33
.LBB97_31:
	jae	.LBB97_33
	movq	%rax, 8(%rdi)
	movq	%rax, %r8
.LBB97_33:
	testb	$1, %r12b
	jne	.LBB97_36
	movq	(%rdi), %r13
	leaq	.Lstatic.15(%rip), %rax
	cmpq	$2, %r12
	jb	.LBB97_39
	movzbl	(%r15), %ecx
	cmpb	$15, (%rcx,%rax)
	jbe	.LBB97_39
.LBB97_36:
	movq	8(%rbp), %rax
	movq	16(%rbp), %rcx
	movq	%rcx, %rdx
	subq	%rax, %rdx
	cmpq	$6, %rdx
	jbe	.LBB97_61
.LBB97_37:
	movq	(%rbp), %rdx
	leaq	(%rdx,%rax), %rsi
	addq	$7, %rax
	leaq	.Lstatic.14(%rip), %rdi
	movq	%rsi, %r8
	subq	%rdi, %r8
	cmpq	$6, %r8
	ja	.LBB97_52
	movl	$1752461166, (%rsi)
	movw	$30821, 4(%rsi)
	movb	$10, 6(%rsi)
	jmp	.LBB97_53
.LBB97_39:
	xorl	%ecx, %ecx
	cmpq	$16, %r8
	jb	.LBB97_43
	movq	%r8, %rdx
	.p2align	4
.LBB97_41:
	movdqu	(%r15,%rcx,2), %xmm2
	movdqu	16(%r15,%rcx,2), %xmm0
	movdqa	.LCPI97_0(%rip), %xmm1
	movdqa	%xmm0, %xmm3
	paddb	%xmm1, %xmm3
	paddb	%xmm2, %xmm1
	movdqa	.LCPI97_1(%rip), %xmm4
	por	%xmm4, %xmm2
	por	%xmm4, %xmm0
	movdqa	.LCPI97_2(%rip), %xmm4
	movdqa	%xmm0, %xmm5
	paddb	%xmm4, %xmm5
	paddb	%xmm2, %xmm4
	movdqa	.LCPI97_3(%rip), %xmm6
	movdqa	.LCPI97_4(%rip), %xmm7
	paddb	%xmm7, %xmm0
	paddb	%xmm7, %xmm2
	movdqa	%xmm4, %xmm7
	pmaxub	%xmm6, %xmm7
	pcmpeqb	%xmm4, %xmm7
	por	%xmm2, %xmm7
	pmaxub	%xmm5, %xmm6
	pcmpeqb	%xmm5, %xmm6
	por	%xmm0, %xmm6
	movdqa	.LCPI97_5(%rip), %xmm2
	movdqa	%xmm1, %xmm0
	pminub	%xmm2, %xmm0
	pcmpeqb	%xmm1, %xmm0
	pminub	%xmm3, %xmm2
	pcmpeqb	%xmm3, %xmm2
	pand	%xmm2, %xmm3
	pandn	%xmm6, %xmm2
	por	%xmm3, %xmm2
	pand	%xmm0, %xmm1
	pandn	%xmm7, %xmm0
	por	%xmm1, %xmm0
	movdqa	.LCPI97_6(%rip), %xmm1
	movdqa	%xmm0, %xmm3
	pmaxub	%xmm1, %xmm3
	pcmpeqb	%xmm0, %xmm3
	pmaxub	%xmm2, %xmm1
	pcmpeqb	%xmm2, %xmm1
	por	%xmm3, %xmm1
	pmovmskb	%xmm1, %esi
	testl	%esi, %esi
	jne	.LBB97_43
	movdqa	.LCPI97_7(%rip), %xmm1
	movdqa	%xmm0, %xmm3
	pand	%xmm1, %xmm3
	pand	%xmm2, %xmm1
	packuswb	%xmm1, %xmm3
	psrlw	$8, %xmm0
	psrlw	$8, %xmm2
	packuswb	%xmm2, %xmm0
	psllw	$4, %xmm3
	pand	.LCPI97_8(%rip), %xmm3
	por	%xmm0, %xmm3
	movdqu	%xmm3, (%r13,%rcx)
	addq	$16, %rcx
	addq	$-16, %rdx
	cmpq	$15, %rdx
	ja	.LBB97_41
.LBB97_43:
	cmpq	%r8, %rcx
	jae	.LBB97_46
	.p2align	4
.LBB97_44:
	movzbl	(%r15,%rcx,2), %edx
	movzbl	(%rdx,%rax), %edx
	movzbl	1(%r15,%rcx,2), %esi
	movzbl	(%rsi,%rax), %esi
	movl	%esi, %edi
	orb	%dl, %dil
	cmpb	$15, %dil
	ja	.LBB97_36
	shlb	$4, %dl
	orb	%dl, %sil
	movb	%sil, (%r13,%rcx)
	incq	%rcx
	cmpq	%rcx, %r8
	jne	.LBB97_44
.LBB97_46:
	pxor	%xmm0, %xmm0
	movdqa	%xmm0, 128(%rsp)
	movdqa	%xmm0, 112(%rsp)
	movdqa	%xmm0, 96(%rsp)
	movq	$0, 144(%rsp)
	leaq	96(%rsp), %rdi
	movq	%r13, %rsi
	movq	%r8, %rbx
	movq	%r8, %rdx
	callq	link_msg.encoding.canonical
	cmpb	$0, 96(%rsp)
	je	.LBB97_56
	movq	%rbp, %r14
	movzbl	104(%rsp), %eax
	leaq	.LJTI97_0(%rip), %rcx
	movslq	(%rcx,%rax,4), %rax
	addq	%rcx, %rax
	jmpq	*%rax
.LBB97_48:
	cmpq	$16, %rbx
	jb	.LBB97_206
	movzbl	(%r13), %edi
	cmpq	$45, %rdi
	ja	.LBB97_67
	leaq	.LJTI97_1(%rip), %rax
	movslq	(%rax,%rdi,4), %rcx
	addq	%rax, %rcx
	jmpq	*%rcx
.LBB97_51:
	movl	$1, %edi
	jmp	.LBB97_71
.LBB97_52:
	movl	$175662440, 3(%rsi)
	movl	$1752461166, (%rsi)
.LBB97_53:
	movq	%rdx, (%rbp)
	movq	%rax, 8(%rbp)
	movq	%rcx, 16(%rbp)
	jmp	.LBB97_209
.LBB97_54:
	cmpq	%rbx, %r14
	je	.LBB97_65
.LBB97_55:
	movb	$10, (%r11,%rbx)
	incq	%rbx
	movq	(%rsp), %rax
	movq	%rbx, (%rax)
	jmp	.LBB97_209
.LBB97_56:
	movq	104(%rsp), %r15
	movq	112(%rsp), %r13
	cmpq	$0, 120(%rsp)
	sete	%bl
.LBB97_57:
	movq	%r15, %rdi
	movq	%r13, %rsi
	callq	link_state.state_encoding.clear_message
	movq	%rbp, %rdi
	movq	%r15, %rsi
	movq	%r13, %rdx
	callq	message_lines.answers.push_text
	testb	%bl, %bl
	jne	.LBB97_210
	movq	%r15, %rdi
	movl	%eax, %ebx
	callq	rattle_dealloc@PLT
	movl	%ebx, %eax
	jmp	.LBB97_210
.LBB97_8:
	cmpq	$32, %rax
	jae	.LBB97_10
	xorl	%edx, %edx
	jmp	.LBB97_14
.LBB97_10:
	movq	%rax, %rdx
	andq	$-32, %rdx
	leaq	(%rcx,%r11), %rsi
	addq	$16, %rsi
	xorl	%r8d, %r8d
	.p2align	4
.LBB97_11:
	movdqu	(%r15,%r8), %xmm0
	movdqu	16(%r15,%r8), %xmm1
	movdqu	%xmm0, -16(%rsi,%r8)
	movdqu	%xmm1, (%rsi,%r8)
	addq	$32, %r8
	cmpq	%r8, %rdx
	jne	.LBB97_11
	cmpq	%rdx, %rax
	je	.LBB97_23
	testb	$28, %al
	je	.LBB97_17
.LBB97_14:
	movq	%rdx, %rsi
	movq	%rax, %rdx
	andq	$-4, %rdx
	.p2align	4
.LBB97_15:
	movl	(%r15,%rsi), %r8d
	movl	%r8d, (%rdi,%rsi)
	addq	$4, %rsi
	cmpq	%rsi, %rdx
	jne	.LBB97_15
	cmpq	%rdx, %rax
	je	.LBB97_23
	jmp	.LBB97_17
.LBB97_59:
	movq	%rbp, %rdi
	movq	%rax, %rbx
	movq	%rax, %rsi
	callq	std_alloc.vec.Vec.grow_amortized.05fa32d921161499
	movl	%eax, %ecx
	movb	$1, %al
	testb	%cl, %cl
	je	.LBB97_210
	movq	8(%rbp), %rcx
	movq	16(%rbp), %r14
	movq	%rbx, %rax
	jmp	.LBB97_2
.LBB97_61:
	movl	$7, %esi
	movq	%rbp, %rdi
	callq	std_alloc.vec.Vec.grow_amortized.05fa32d921161499
	movl	%eax, %ecx
	movb	$1, %al
	testb	%cl, %cl
	je	.LBB97_210
	movq	8(%rbp), %rax
	movq	16(%rbp), %rcx
	jmp	.LBB97_37
.LBB97_63:
	movq	%rdx, %r14
	movq	%rdx, %rsi
	callq	std_alloc.vec.Vec.grow_amortized.05fa32d921161499
	movl	%eax, %ecx
	movb	$1, %al
	testb	%cl, %cl
	je	.LBB97_210
	movq	8(%rsp), %rdi
	movq	8(%rdi), %r8
	movq	16(%rdi), %rbx
	movq	%r14, %rdx
	jmp	.LBB97_28
.LBB97_65:
	movl	$1, %esi
	movq	%rbp, %rdi
	callq	std_alloc.vec.Vec.grow_amortized.05fa32d921161499
	movl	%eax, %ecx
	movb	$1, %al
	testb	%cl, %cl
	je	.LBB97_210
	movq	(%rbp), %r11
	movq	8(%rbp), %rbx
	jmp	.LBB97_55
.LBB97_67:
	shll	$8, %edi
	orq	$5, %rdi
	jmp	.LBB97_71
.LBB97_68:
	movl	$2, %edi
	jmp	.LBB97_71
.LBB97_69:
	movl	$3, %edi
	jmp	.LBB97_71
.LBB97_70:
	movl	$4, %edi
.LBB97_71:
	movq	%rbx, %rdx
	leaq	16(%r13), %r12
	addq	$-16, %rdx
	movl	4(%r13), %r15d
	movzwl	2(%r13), %ebp
	cmpl	$32, %ebp
	movq	%rdx, (%rsp)
	ja	.LBB97_74
	leaq	.LJTI97_2(%rip), %rax
	movslq	(%rax,%rbp,4), %rcx
	addq	%rax, %rcx
	jmpq	*%rcx
.LBB97_73:
	movl	$1, %ebp
	jmp	.LBB97_101
.LBB97_74:
	leal	-256(%rbp), %eax
	cmpl	$34, %eax
	ja	.LBB97_90
	leaq	.LJTI97_3(%rip), %rcx
	movslq	(%rcx,%rax,4), %rax
	addq	%rcx, %rax
	jmpq	*%rax
.LBB97_76:
	movl	$15, %ebp
	jmp	.LBB97_101
.LBB97_77:
	movl	$14, %ebp
	jmp	.LBB97_101
.LBB97_78:
	movl	$11, %ebp
	jmp	.LBB97_101
.LBB97_79:
	movl	$7, %ebp
	jmp	.LBB97_101
.LBB97_80:
	movl	$13, %ebp
	jmp	.LBB97_101
.LBB97_81:
	movl	$5, %ebp
	jmp	.LBB97_101
.LBB97_82:
	movl	$3, %ebp
	jmp	.LBB97_101
.LBB97_83:
	movl	$9, %ebp
	jmp	.LBB97_101
.LBB97_84:
	movl	$10, %ebp
	jmp	.LBB97_101
.LBB97_85:
	movl	$2, %ebp
	jmp	.LBB97_101
.LBB97_86:
	movl	$4, %ebp
	jmp	.LBB97_101
.LBB97_87:
	movl	$6, %ebp
	jmp	.LBB97_101
.LBB97_88:
	movl	$8, %ebp
	jmp	.LBB97_101
.LBB97_89:
	movl	$12, %ebp
	jmp	.LBB97_101
.LBB97_90:
	movq	%rdi, %rbx
	movl	%ebp, %edi
	callq	link_vals.link_layer_type.high
	movq	%rbx, %rdi
	movq	(%rsp), %rdx
	movzbl	%al, %ebp
	jmp	.LBB97_101
.LBB97_91:
	movl	$23, %ebp
	jmp	.LBB97_101
.LBB97_92:
	movl	$22, %ebp
	jmp	.LBB97_101
.LBB97_93:
	movl	$18, %ebp
	jmp	.LBB97_101
.LBB97_94:
	movl	$20, %ebp
	jmp	.LBB97_101
.LBB97_95:
	movl	$21, %ebp
	jmp	.LBB97_101
.LBB97_96:
	movl	$16, %ebp
	jmp	.LBB97_101
.LBB97_97:
	movl	$25, %ebp
	jmp	.LBB97_101
.LBB97_98:
	movl	$17, %ebp
	jmp	.LBB97_101
.LBB97_99:
	movl	$24, %ebp
	jmp	.LBB97_101
.LBB97_100:
	movl	$19, %ebp
.LBB97_101:
	movq	8(%r13), %xmm0
	movdqa	%xmm0, 80(%rsp)
	movq	%rdi, 8(%rsp)
	movq	%r12, %rsi
	movq	%rdx, %rbx
	callq	nla_wire.members.measure_each.73a2e5797a03d2f8
	cmpb	$1, %al
	jne	.LBB97_114
	movq	%rdx, 64(%rsp)
	movl	%r15d, 76(%rsp)
	testq	%rbx, %rbx
	je	.LBB97_116
	movq	%rbx, %r15
	xorl	%ebx, %ebx
	movq	%r12, %r13
	jmp	.LBB97_105
.LBB97_104:
	addl	$3, %ebx
	andl	$-4, %ebx
	cmpq	%rbx, %r15
	jbe	.LBB97_116
.LBB97_105:
	subq	%rbx, %r15
	cmpq	$4, %r15
	jb	.LBB97_116
	addq	%rbx, %r13
	movzwl	(%r13), %ebx
	cmpw	$4, %bx
	jb	.LBB97_116
	cmpq	%rbx, %r15
	jb	.LBB97_116
	movzwl	2(%r13), %eax
	andl	$16383, %eax
	cmpw	$24, %ax
	jne	.LBB97_104
	movq	%rbx, %rsi
	addq	$-4, %rsi
	je	.LBB97_104
	leaq	4(%r13), %rdi
	callq	nla_wire.members.measure_each.79503c7a397af21a
	cmpb	$1, %al
	sete	%al
	testq	%rdx, %rdx
	sete	%cl
	testb	%cl, %al
	je	.LBB97_104
	cmpq	$-16, 64(%rsp)
	jae	.LBB97_117
.LBB97_112:
	movq	%r14, %rbx
	movq	8(%r14), %rax
	movq	16(%r14), %rcx
	movq	%rcx, %rdx
	subq	%rax, %rdx
	cmpq	$11, %rdx
	jbe	.LBB97_127
.LBB97_113:
	movq	(%rbx), %rdx
	leaq	(%rdx,%rax), %rsi
	addq	$12, %rax
	leaq	.Lstatic.18(%rip), %rdi
	movq	%rsi, %r8
	subq	%rdi, %r8
	cmpq	$11, %r8
	movabsq	$8029968135269412197, %rdi
	movq	%rdi, (%rsi)
	movl	$175338610, 8(%rsi)
	jmp	.LBB97_208
.LBB97_114:
	pxor	%xmm0, %xmm0
	movdqa	%xmm0, 192(%rsp)
	movdqa	%xmm0, 176(%rsp)
	movdqa	%xmm0, 160(%rsp)
	testq	%rbx, %rbx
	je	.LBB97_117
	movq	%rbx, %r8
	movq	8(%rsp), %rax
	movl	%eax, %ecx
	shll	$3, %ecx
	movl	$1441815, %eax
	shrq	%cl, %rax
	movq	%rax, (%rsp)
	xorl	%r15d, %r15d
	jmp	.LBB97_131
.LBB97_116:
	movq	64(%rsp), %r13
	cmpq	$-17, %r13
	jbe	.LBB97_121
.LBB97_117:
	movq	%r14, %rbx
	movq	8(%r14), %rax
	movq	16(%r14), %rcx
	movq	%rcx, %rdx
	subq	%rax, %rdx
	cmpq	$5, %rdx
	jbe	.LBB97_125
.LBB97_118:
	movq	(%rbx), %rdx
	leaq	(%rdx,%rax), %rsi
	addq	$6, %rax
	leaq	.Lstatic.17(%rip), %rdi
	movq	%rsi, %r8
	subq	%rdi, %r8
	cmpq	$5, %r8
	ja	.LBB97_120
	movl	$1768320629, (%rsi)
	movw	$2676, 4(%rsi)
	jmp	.LBB97_208
.LBB97_120:
	movw	$2676, 4(%rsi)
	movl	$1768320629, (%rsi)
	jmp	.LBB97_208
.LBB97_121:
	addq	$16, %r13
	js	.LBB97_204
	movl	$1, %esi
	movq	%r13, %rdi
	callq	rattle_alloc@PLT
	testb	$1, %al
	je	.LBB97_204
	movq	%rdx, %r15
	xorl	%ebx, %ebx
	movq	%rdx, %rdi
	xorl	%esi, %esi
	movq	%r13, %rdx
	callq	memset@PLT
	movq	8(%rsp), %rdx
	movzbl	%dl, %edi
	leaq	.LJTI97_7(%rip), %rax
	movslq	(%rax,%rdi,4), %rcx
	addq	%rax, %rcx
	jmpq	*%rcx
.LBB97_124:
	movw	$2, %bx
	jmp	.LBB97_217
.LBB97_125:
	movl	$6, %esi
	movq	%rbx, %rdi
	callq	std_alloc.vec.Vec.grow_amortized.05fa32d921161499
	movl	%eax, %ecx
	movb	$1, %al
	testb	%cl, %cl
	je	.LBB97_210
	movq	8(%rbx), %rax
	movq	16(%rbx), %rcx
	jmp	.LBB97_118
.LBB97_127:
	movl	$12, %esi
	movq	%rbx, %rdi
	callq	std_alloc.vec.Vec.grow_amortized.05fa32d921161499
	movl	%eax, %ecx
	movb	$1, %al
	testb	%cl, %cl
	je	.LBB97_210
	movq	8(%rbx), %rax
	movq	16(%rbx), %rcx
	jmp	.LBB97_113
.LBB97_129:
	movzbl	8(%rsp), %eax
	movl	$51, %ecx
	btl	%eax, %ecx
	jae	.LBB97_190
.LBB97_130:
	addl	$3, %r15d
	andl	$-4, %r15d
	cmpq	%r15, %r8
	jbe	.LBB97_117
.LBB97_131:
	subq	%r15, %r8
	cmpq	$4, %r8
	jb	.LBB97_201
	addq	%r15, %r12
	movzwl	(%r12), %r15d
	cmpq	%r15, %r8
	jb	.LBB97_202
	cmpw	$3, %r15w
	jbe	.LBB97_203
	movzwl	2(%r12), %ebx
	andl	$16383, %ebx
	leal	-3(%rbx), %eax
	cmpl	$64, %eax
	ja	.LBB97_130
	leaq	4(%r12), %r13
	leaq	-4(%r15), %rbp
	leaq	.LJTI97_4(%rip), %rcx
	movslq	(%rcx,%rax,4), %rax
	addq	%rcx, %rax
	jmpq	*%rax
.LBB97_136:
	cmpl	$4, %ebp
	je	.LBB97_130
.LBB97_137:
	pxor	%xmm0, %xmm0
	movdqa	%xmm0, 48(%rsp)
	movdqa	%xmm0, 32(%rsp)
	movdqa	%xmm0, 16(%rsp)
	movzwl	%bx, %eax
	addl	$-3, %eax
	cmpl	$61, %eax
	ja	.LBB97_141
	leaq	.LJTI97_5(%rip), %rcx
	movslq	(%rcx,%rax,4), %rax
	addq	%rcx, %rax
	jmpq	*%rax
.LBB97_139:
	movq	%r8, %rbx
	movb	$4, %al
.LBB97_140:
	movzbl	%al, %esi
	leaq	16(%rsp), %rdi
	movq	%r13, %rdx
	movq	%rbp, %rcx
	callq	link_msg.shape.Shape.check
	cmpb	$0, 16(%rsp)
	movq	%rbx, %r8
	jne	.LBB97_130
.LBB97_141:
	leaq	160(%rsp), %rdi
	movq	%r8, %rbx
	callq	nla_wire.place.check_one.73a2e5797a03d2f8
	movq	%rbx, %r8
	cmpb	$0, 160(%rsp)
	je	.LBB97_130
	jmp	.LBB97_205
.LBB97_142:
	movq	%r13, %rdi
	movq	%rbp, %rsi
	movq	%r13, %rbp
	movq	%r8, %r13
	callq	nla_wire.payload.measure_text
	movq	%r13, %r8
	movq	%rbp, %r13
	leaq	-4(%r15), %rbp
	cmpb	$1, %al
	je	.LBB97_130
	jmp	.LBB97_137
.LBB97_143:
	cmpl	$1, %ebp
	je	.LBB97_130
	jmp	.LBB97_137
.LBB97_144:
	movq	%r8, %rbx
	movb	$1, %al
	jmp	.LBB97_140
.LBB97_145:
	movq	%r8, %rbx
	movb	$2, %al
	jmp	.LBB97_140
.LBB97_146:
	movzbl	8(%rsp), %eax
	leaq	.LJTI97_6(%rip), %rcx
	movslq	(%rcx,%rax,4), %rax
	addq	%rcx, %rax
	jmpq	*%rax
.LBB97_147:
	movq	%r13, %rdi
	movq	%rbp, %rsi
	movq	%r8, %rbx
	callq	nla_wire.members.measure_each.6cf1decf0b22dc4b
	jmp	.LBB97_198
.LBB97_148:
	movq	%r13, %rdi
	movq	%rbp, %rsi
	movq	%r8, %rbx
	callq	nla_wire.members.measure_each.16a873d75d6df2a1
	movq	%rbx, %r8
	cmpb	$1, %al
	sete	%al
	cmpq	$65532, %rdx
	setb	%cl
	testb	%cl, %al
	jne	.LBB97_130
	pxor	%xmm0, %xmm0
	movdqa	%xmm0, 48(%rsp)
	movdqa	%xmm0, 32(%rsp)
	movdqa	%xmm0, 16(%rsp)
.LBB97_150:
	movq	%r8, %rbx
	movb	$18, %al
	jmp	.LBB97_140
.LBB97_151:
	testq	%rbp, %rbp
	je	.LBB97_153
	movq	%r13, %rdi
	movq	%rbp, %rsi
	movq	%r8, %rbx
	callq	nla_wire.members.measure_each.49064c0641319ce4
	movq	%rbx, %r8
	cmpb	$1, %al
	sete	%al
	cmpq	$65532, %rdx
	setb	%cl
	testb	%cl, %al
	jne	.LBB97_130
.LBB97_153:
	pxor	%xmm0, %xmm0
	movdqa	%xmm0, 48(%rsp)
	movdqa	%xmm0, 32(%rsp)
	movdqa	%xmm0, 16(%rsp)
.LBB97_154:
	movq	%r8, %rbx
	movb	$12, %al
	jmp	.LBB97_140
.LBB97_155:
	movq	%r13, %rdi
	movq	%rbp, %rsi
	movq	%r8, %rbx
	callq	nla_wire.members.measure_each.f7f30aae703aa44d
	movq	%rbx, %r8
	cmpb	$1, %al
	sete	%al
	cmpq	$65532, %rdx
	setb	%cl
	testb	%cl, %al
	jne	.LBB97_130
	pxor	%xmm0, %xmm0
	movdqa	%xmm0, 48(%rsp)
	movdqa	%xmm0, 32(%rsp)
	movdqa	%xmm0, 16(%rsp)
.LBB97_157:
	movq	%r8, %rbx
	movb	$17, %al
	jmp	.LBB97_140
.LBB97_158:
	cmpl	$1, %ebp
	je	.LBB97_130
	movq	%r8, %rbx
	pxor	%xmm0, %xmm0
	movdqa	%xmm0, 48(%rsp)
	movdqa	%xmm0, 32(%rsp)
	movdqa	%xmm0, 16(%rsp)
	movb	$5, %al
	jmp	.LBB97_140
.LBB97_160:
	movq	%r13, %rdi
	movq	%rbp, %rsi
	movq	%r8, %rbx
	callq	nla_wire.members.measure_each.b30b196c481b950e
	movq	%rbx, %r8
	cmpb	$1, %al
	sete	%al
	cmpq	$65532, %rdx
	setb	%cl
	testb	%cl, %al
	jne	.LBB97_130
	pxor	%xmm0, %xmm0
	movdqa	%xmm0, 48(%rsp)
	movdqa	%xmm0, 32(%rsp)
	movdqa	%xmm0, 16(%rsp)
.LBB97_162:
	movq	%r8, %rbx
	movb	$16, %al
	jmp	.LBB97_140
.LBB97_163:
	cmpw	$35, %r15w
	ja	.LBB97_130
	pxor	%xmm0, %xmm0
	movdqa	%xmm0, 48(%rsp)
	movdqa	%xmm0, 32(%rsp)
	movdqa	%xmm0, 16(%rsp)
.LBB97_165:
	movq	%r8, %rbx
	movb	$9, %al
	jmp	.LBB97_140
.LBB97_166:
	cmpw	$11, %r15w
	ja	.LBB97_130
	pxor	%xmm0, %xmm0
	movdqa	%xmm0, 48(%rsp)
	movdqa	%xmm0, 32(%rsp)
	movdqa	%xmm0, 16(%rsp)
.LBB97_168:
	movq	%r8, %rbx
	movb	$10, %al
	jmp	.LBB97_140
.LBB97_169:
	movq	%r13, %rdi
	movq	%rbp, %rsi
	movq	%r8, %rbx
	callq	nla_wire.members.measure_each.3bb4c8661a1029f4
	movq	%rbx, %r8
	cmpb	$1, %al
	sete	%al
	cmpq	$65532, %rdx
	setb	%cl
	testb	%cl, %al
	jne	.LBB97_130
	pxor	%xmm0, %xmm0
	movdqa	%xmm0, 48(%rsp)
	movdqa	%xmm0, 32(%rsp)
	movdqa	%xmm0, 16(%rsp)
.LBB97_171:
	movq	%r8, %rbx
	movb	$13, %al
	jmp	.LBB97_140
.LBB97_172:
	testq	%rbp, %rbp
	je	.LBB97_174
	movq	%r13, %rdi
	movq	%rbp, %rsi
	movq	%r8, %rbx
	callq	nla_wire.members.measure_each.8ba1f663fcd59a5e
	movq	%rbx, %r8
	cmpb	$1, %al
	sete	%al
	cmpq	$65532, %rdx
	setb	%cl
	testb	%cl, %al
	jne	.LBB97_130
.LBB97_174:
	pxor	%xmm0, %xmm0
	movdqa	%xmm0, 48(%rsp)
	movdqa	%xmm0, 32(%rsp)
	movdqa	%xmm0, 16(%rsp)
.LBB97_175:
	movq	%r8, %rbx
	movb	$15, %al
	jmp	.LBB97_140
.LBB97_176:
	testq	%rbp, %rbp
	je	.LBB97_178
	movq	%r13, %rdi
	movq	%rbp, %rsi
	movq	%r8, %rbx
	callq	nla_wire.members.measure_each.79503c7a397af21a
	movq	%rbx, %r8
	cmpb	$1, %al
	sete	%al
	cmpq	$65532, %rdx
	setb	%cl
	testb	%cl, %al
	jne	.LBB97_130
.LBB97_178:
	pxor	%xmm0, %xmm0
	movdqa	%xmm0, 48(%rsp)
	movdqa	%xmm0, 32(%rsp)
	movdqa	%xmm0, 16(%rsp)
.LBB97_179:
	movq	%r8, %rbx
	movb	$14, %al
	jmp	.LBB97_140
.LBB97_180:
	testq	%rbp, %rbp
	je	.LBB97_182
	movq	%r13, %rdi
	movq	%rbp, %rsi
	movq	%r8, %rbx
	callq	nla_wire.members.measure_each.1f0cb788f492ced5
	movq	%rbx, %r8
	cmpb	$1, %al
	sete	%al
	cmpq	$65532, %rdx
	setb	%cl
	testb	%cl, %al
	jne	.LBB97_130
.LBB97_182:
	pxor	%xmm0, %xmm0
	movdqa	%xmm0, 48(%rsp)
	movdqa	%xmm0, 32(%rsp)
	movdqa	%xmm0, 16(%rsp)
.LBB97_183:
	movq	%r8, %rbx
	movb	$11, %al
	jmp	.LBB97_140
.LBB97_184:
	movq	%r13, %rdi
	movq	%rbp, %rsi
	movq	%r8, %rbx
	callq	nla_wire.members.measure_each.5fa77b269143286c
	movq	%rbx, %r8
	cmpb	$1, %al
	sete	%al
	cmpq	$65532, %rdx
	setb	%cl
	testb	%cl, %al
	jne	.LBB97_130
	pxor	%xmm0, %xmm0
	movdqa	%xmm0, 48(%rsp)
	movdqa	%xmm0, 32(%rsp)
	movdqa	%xmm0, 16(%rsp)
	movb	$19, %al
	jmp	.LBB97_140
.LBB97_186:
	movq	%r8, %rbx
	movb	$6, %al
	jmp	.LBB97_140
.LBB97_187:
	movq	%r8, %rbx
	movb	$7, %al
	jmp	.LBB97_140
.LBB97_188:
	movq	%r8, %rbx
	movb	$8, %al
	jmp	.LBB97_140
.LBB97_189:
	movq	%r8, %rbx
	xorl	%eax, %eax
	jmp	.LBB97_140
.LBB97_190:
	cmpl	$2, %eax
	testq	%rbp, %rbp
	je	.LBB97_192
	movq	%r13, %rdi
	movq	%rbp, %rsi
	movq	%r8, %rbx
	callq	nla_wire.members.measure_each.1f0cb788f492ced5
	movq	%rbx, %r8
	cmpb	$1, %al
	sete	%al
	cmpq	$65532, %rdx
	setb	%cl
	testb	%cl, %al
	jne	.LBB97_130
.LBB97_192:
	pxor	%xmm0, %xmm0
	movdqa	%xmm0, 48(%rsp)
	movdqa	%xmm0, 32(%rsp)
	movdqa	%xmm0, 16(%rsp)
.LBB97_193:
	movzbl	8(%rsp), %ecx
	movb	$21, %al
	movl	$51, %edx
	btl	%ecx, %edx
	jb	.LBB97_141
	movq	%r8, %rbx
	cmpl	$2, %ecx
	jne	.LBB97_140
	movb	$20, %al
	jmp	.LBB97_140
.LBB97_196:
	testq	%rbp, %rbp
	je	.LBB97_199
	movq	%r13, %rdi
	movq	%rbp, %rsi
	movq	%r8, %rbx
	callq	nla_wire.members.measure_each.1f0cb788f492ced5
.LBB97_198:
	movq	%rbx, %r8
	cmpb	$1, %al
	sete	%al
	cmpq	$65532, %rdx
	setb	%cl
	testb	%cl, %al
	jne	.LBB97_130
.LBB97_199:
	pxor	%xmm0, %xmm0
	movdqa	%xmm0, 48(%rsp)
	movdqa	%xmm0, 32(%rsp)
	movdqa	%xmm0, 16(%rsp)
.LBB97_200:
	movq	%r8, %rbx
	movq	(%rsp), %rax
	jmp	.LBB97_140
.LBB97_201:
	movl	$1, %r15d
	cmpb	$8, %r15b
	jne	.LBB97_206
.LBB97_204:
	movb	$1, %al
	jmp	.LBB97_210
.LBB97_202:
	shll	$16, %r15d
	orq	$2, %r15
	cmpb	$8, %r15b
	je	.LBB97_204
.LBB97_206:
	movq	%r14, %rbx
	movq	8(%r14), %rax
	movq	16(%r14), %rcx
	movq	%rcx, %rdx
	subq	%rax, %rdx
	cmpq	$8, %rdx
	jb	.LBB97_211
.LBB97_207:
	movq	(%rbx), %rdx
	movabsq	$748834984615634290, %rsi
	movq	%rsi, (%rdx,%rax)
	addq	$8, %rax
.LBB97_208:
	movq	%rdx, (%rbx)
	movq	%rax, 8(%rbx)
	movq	%rcx, 16(%rbx)
.LBB97_209:
	xorl	%eax, %eax
.LBB97_210:
	addq	$216, %rsp
	.cfi_def_cfa_offset 56
	popq	%rbx
	.cfi_def_cfa_offset 48
	popq	%r12
	.cfi_def_cfa_offset 40
	popq	%r13
	.cfi_def_cfa_offset 32
	popq	%r14
	.cfi_def_cfa_offset 24
	popq	%r15
	.cfi_def_cfa_offset 16
	popq	%rbp
	.cfi_def_cfa_offset 8
	retq
.LBB97_203:
	.cfi_def_cfa_offset 272
	shll	$16, %r15d
	orq	$3, %r15
	cmpb	$8, %r15b
	jne	.LBB97_206
	jmp	.LBB97_204
.LBB97_211:
	movl	$8, %esi
	movq	%rbx, %rdi
	callq	std_alloc.vec.Vec.grow_amortized.05fa32d921161499
	movl	%eax, %ecx
	movb	$1, %al
	testb	%cl, %cl
	je	.LBB97_210
	movq	8(%rbx), %rax
	movq	16(%rbx), %rcx
	jmp	.LBB97_207
.LBB97_205:
	movzbl	184(%rsp), %r15d
	cmpb	$8, %r15b
	je	.LBB97_204
	jmp	.LBB97_206
.LBB97_213:
	movw	$45, %bx
	jmp	.LBB97_217
.LBB97_214:
	movw	$7, %bx
	jmp	.LBB97_217
.LBB97_215:
	movw	$10, %bx
	jmp	.LBB97_217
.LBB97_216:
	shrl	$8, %edx
	movl	%edx, %ebx
.LBB97_217:
	movq	(%rsp), %rdx
	movdqa	80(%rsp), %xmm0
	movw	%bx, (%r15)
	leaq	.Lswitch.table.line_filter.answers.AnsweringTake.take.d1b9b744fe2e7f64(%rip), %rax
	movzwl	(%rax,%rbp,2), %eax
	movw	%ax, 2(%r15)
	movl	76(%rsp), %eax
	movl	%eax, 4(%r15)
	movq	%xmm0, 8(%r15)
	leaq	16(%r15), %rcx
	movq	%r12, %rsi
	movq	64(%rsp), %r8
	callq	nla_wire.members.write_each.73a2e5797a03d2f8
	xorl	%ebx, %ebx
	movq	%r14, %rbp
	jmp	.LBB97_57
.Lfunc_end97:
	.size	line_filter.answers.AnsweringTake.take.d1b9b744fe2e7f64, .Lfunc_end97-line_filter.answers.AnsweringTake.take.d1b9b744fe2e7f64
	.cfi_endproc
	.section	.rodata.line_filter.answers.AnsweringTake.take.d1b9b744fe2e7f64,"a",@progbits
	.p2align	2, 0x0
.LJTI97_0:
	.long	.LBB97_48-.LJTI97_0
	.long	.LBB97_117-.LJTI97_0
	.long	.LBB97_112-.LJTI97_0
	.long	.LBB97_204-.LJTI97_0
.LJTI97_1:
	.long	.LBB97_71-.LJTI97_1
	.long	.LBB97_67-.LJTI97_1
	.long	.LBB97_51-.LJTI97_1
	.long	.LBB97_67-.LJTI97_1
	.long	.LBB97_67-.LJTI97_1
	.long	.LBB97_67-.LJTI97_1
	.long	.LBB97_67-.LJTI97_1
	.long	.LBB97_68-.LJTI97_1
	.long	.LBB97_67-.LJTI97_1
	.long	.LBB97_67-.LJTI97_1
	.long	.LBB97_69-.LJTI97_1
	.long	.LBB97_67-.LJTI97_1
	.long	.LBB97_67-.LJTI97_1
	.long	.LBB97_67-.LJTI97_1
	.long	.LBB97_67-.LJTI97_1
	.long	.LBB97_67-.LJTI97_1
	.long	.LBB97_67-.LJTI97_1
	.long	.LBB97_67-.LJTI97_1
	.long	.LBB97_67-.LJTI97_1
	.long	.LBB97_67-.LJTI97_1
	.long	.LBB97_67-.LJTI97_1
	.long	.LBB97_67-.LJTI97_1
	.long	.LBB97_67-.LJTI97_1
	.long	.LBB97_67-.LJTI97_1
	.long	.LBB97_67-.LJTI97_1
	.long	.LBB97_67-.LJTI97_1
	.long	.LBB97_67-.LJTI97_1
	.long	.LBB97_67-.LJTI97_1
	.long	.LBB97_67-.LJTI97_1
	.long	.LBB97_67-.LJTI97_1
	.long	.LBB97_67-.LJTI97_1
	.long	.LBB97_67-.LJTI97_1
	.long	.LBB97_67-.LJTI97_1
	.long	.LBB97_67-.LJTI97_1
	.long	.LBB97_67-.LJTI97_1
	.long	.LBB97_67-.LJTI97_1
	.long	.LBB97_67-.LJTI97_1
	.long	.LBB97_67-.LJTI97_1
	.long	.LBB97_67-.LJTI97_1
	.long	.LBB97_67-.LJTI97_1
	.long	.LBB97_67-.LJTI97_1
	.long	.LBB97_67-.LJTI97_1
	.long	.LBB97_67-.LJTI97_1
	.long	.LBB97_67-.LJTI97_1
	.long	.LBB97_67-.LJTI97_1
	.long	.LBB97_70-.LJTI97_1
.LJTI97_2:
	.long	.LBB97_101-.LJTI97_2
	.long	.LBB97_73-.LJTI97_2
	.long	.LBB97_85-.LJTI97_2
	.long	.LBB97_82-.LJTI97_2
	.long	.LBB97_86-.LJTI97_2
	.long	.LBB97_81-.LJTI97_2
	.long	.LBB97_87-.LJTI97_2
	.long	.LBB97_79-.LJTI97_2
	.long	.LBB97_88-.LJTI97_2
	.long	.LBB97_90-.LJTI97_2
	.long	.LBB97_90-.LJTI97_2
	.long	.LBB97_90-.LJTI97_2
	.long	.LBB97_90-.LJTI97_2
	.long	.LBB97_90-.LJTI97_2
	.long	.LBB97_90-.LJTI97_2
	.long	.LBB97_83-.LJTI97_2
	.long	.LBB97_90-.LJTI97_2
	.long	.LBB97_90-.LJTI97_2
	.long	.LBB97_90-.LJTI97_2
	.long	.LBB97_84-.LJTI97_2
	.long	.LBB97_90-.LJTI97_2
	.long	.LBB97_90-.LJTI97_2
	.long	.LBB97_90-.LJTI97_2
	.long	.LBB97_78-.LJTI97_2
	.long	.LBB97_89-.LJTI97_2
	.long	.LBB97_90-.LJTI97_2
	.long	.LBB97_90-.LJTI97_2
	.long	.LBB97_80-.LJTI97_2
	.long	.LBB97_90-.LJTI97_2
	.long	.LBB97_90-.LJTI97_2
	.long	.LBB97_90-.LJTI97_2
	.long	.LBB97_90-.LJTI97_2
	.long	.LBB97_77-.LJTI97_2
.LJTI97_3:
	.long	.LBB97_76-.LJTI97_3
	.long	.LBB97_96-.LJTI97_3
	.long	.LBB97_98-.LJTI97_3
	.long	.LBB97_93-.LJTI97_3
	.long	.LBB97_100-.LJTI97_3
	.long	.LBB97_90-.LJTI97_3
	.long	.LBB97_90-.LJTI97_3
	.long	.LBB97_90-.LJTI97_3
	.long	.LBB97_94-.LJTI97_3
	.long	.LBB97_90-.LJTI97_3
	.long	.LBB97_90-.LJTI97_3
	.long	.LBB97_90-.LJTI97_3
	.long	.LBB97_90-.LJTI97_3
	.long	.LBB97_90-.LJTI97_3
	.long	.LBB97_95-.LJTI97_3
	.long	.LBB97_92-.LJTI97_3
	.long	.LBB97_91-.LJTI97_3
	.long	.LBB97_90-.LJTI97_3
	.long	.LBB97_90-.LJTI97_3
	.long	.LBB97_90-.LJTI97_3
	.long	.LBB97_90-.LJTI97_3
	.long	.LBB97_90-.LJTI97_3
	.long	.LBB97_90-.LJTI97_3
	.long	.LBB97_90-.LJTI97_3
	.long	.LBB97_99-.LJTI97_3
	.long	.LBB97_90-.LJTI97_3
	.long	.LBB97_90-.LJTI97_3
	.long	.LBB97_90-.LJTI97_3
	.long	.LBB97_90-.LJTI97_3
	.long	.LBB97_90-.LJTI97_3
	.long	.LBB97_90-.LJTI97_3
	.long	.LBB97_90-.LJTI97_3
	.long	.LBB97_90-.LJTI97_3
	.long	.LBB97_90-.LJTI97_3
	.long	.LBB97_97-.LJTI97_3
.LJTI97_4:
	.long	.LBB97_142-.LJTI97_4
	.long	.LBB97_136-.LJTI97_4
	.long	.LBB97_136-.LJTI97_4
	.long	.LBB97_142-.LJTI97_4
	.long	.LBB97_130-.LJTI97_4
	.long	.LBB97_130-.LJTI97_4
	.long	.LBB97_130-.LJTI97_4
	.long	.LBB97_136-.LJTI97_4
	.long	.LBB97_166-.LJTI97_4
	.long	.LBB97_129-.LJTI97_4
	.long	.LBB97_136-.LJTI97_4
	.long	.LBB97_163-.LJTI97_4
	.long	.LBB97_130-.LJTI97_4
	.long	.LBB97_143-.LJTI97_4
	.long	.LBB97_143-.LJTI97_4
	.long	.LBB97_151-.LJTI97_4
	.long	.LBB97_136-.LJTI97_4
	.long	.LBB97_142-.LJTI97_4
	.long	.LBB97_136-.LJTI97_4
	.long	.LBB97_169-.LJTI97_4
	.long	.LBB97_130-.LJTI97_4
	.long	.LBB97_176-.LJTI97_4
	.long	.LBB97_180-.LJTI97_4
	.long	.LBB97_146-.LJTI97_4
	.long	.LBB97_136-.LJTI97_4
	.long	.LBB97_136-.LJTI97_4
	.long	.LBB97_136-.LJTI97_4
	.long	.LBB97_136-.LJTI97_4
	.long	.LBB97_136-.LJTI97_4
	.long	.LBB97_136-.LJTI97_4
	.long	.LBB97_143-.LJTI97_4
	.long	.LBB97_130-.LJTI97_4
	.long	.LBB97_136-.LJTI97_4
	.long	.LBB97_130-.LJTI97_4
	.long	.LBB97_136-.LJTI97_4
	.long	.LBB97_142-.LJTI97_4
	.long	.LBB97_143-.LJTI97_4
	.long	.LBB97_136-.LJTI97_4
	.long	.LBB97_136-.LJTI97_4
	.long	.LBB97_130-.LJTI97_4
	.long	.LBB97_172-.LJTI97_4
	.long	.LBB97_136-.LJTI97_4
	.long	.LBB97_136-.LJTI97_4
	.long	.LBB97_136-.LJTI97_4
	.long	.LBB97_136-.LJTI97_4
	.long	.LBB97_136-.LJTI97_4
	.long	.LBB97_136-.LJTI97_4
	.long	.LBB97_136-.LJTI97_4
	.long	.LBB97_136-.LJTI97_4
	.long	.LBB97_160-.LJTI97_4
	.long	.LBB97_130-.LJTI97_4
	.long	.LBB97_130-.LJTI97_4
	.long	.LBB97_155-.LJTI97_4
	.long	.LBB97_142-.LJTI97_4
	.long	.LBB97_142-.LJTI97_4
	.long	.LBB97_136-.LJTI97_4
	.long	.LBB97_136-.LJTI97_4
	.long	.LBB97_136-.LJTI97_4
	.long	.LBB97_136-.LJTI97_4
	.long	.LBB97_148-.LJTI97_4
	.long	.LBB97_136-.LJTI97_4
	.long	.LBB97_136-.LJTI97_4
	.long	.LBB97_184-.LJTI97_4
	.long	.LBB97_130-.LJTI97_4
	.long	.LBB97_158-.LJTI97_4
.LJTI97_5:
	.long	.LBB97_144-.LJTI97_5
	.long	.LBB97_139-.LJTI97_5
	.long	.LBB97_139-.LJTI97_5
	.long	.LBB97_144-.LJTI97_5
	.long	.LBB97_187-.LJTI97_5
	.long	.LBB97_141-.LJTI97_5
	.long	.LBB97_141-.LJTI97_5
	.long	.LBB97_139-.LJTI97_5
	.long	.LBB97_168-.LJTI97_5
	.long	.LBB97_193-.LJTI97_5
	.long	.LBB97_139-.LJTI97_5
	.long	.LBB97_165-.LJTI97_5
	.long	.LBB97_141-.LJTI97_5
	.long	.LBB97_145-.LJTI97_5
	.long	.LBB97_145-.LJTI97_5
	.long	.LBB97_154-.LJTI97_5
	.long	.LBB97_139-.LJTI97_5
	.long	.LBB97_144-.LJTI97_5
	.long	.LBB97_139-.LJTI97_5
	.long	.LBB97_171-.LJTI97_5
	.long	.LBB97_188-.LJTI97_5
	.long	.LBB97_179-.LJTI97_5
	.long	.LBB97_183-.LJTI97_5
	.long	.LBB97_200-.LJTI97_5
	.long	.LBB97_139-.LJTI97_5
	.long	.LBB97_139-.LJTI97_5
	.long	.LBB97_139-.LJTI97_5
	.long	.LBB97_139-.LJTI97_5
	.long	.LBB97_139-.LJTI97_5
	.long	.LBB97_139-.LJTI97_5
	.long	.LBB97_145-.LJTI97_5
	.long	.LBB97_186-.LJTI97_5
	.long	.LBB97_139-.LJTI97_5
	.long	.LBB97_186-.LJTI97_5
	.long	.LBB97_139-.LJTI97_5
	.long	.LBB97_144-.LJTI97_5
	.long	.LBB97_145-.LJTI97_5
	.long	.LBB97_139-.LJTI97_5
	.long	.LBB97_139-.LJTI97_5
	.long	.LBB97_141-.LJTI97_5
	.long	.LBB97_175-.LJTI97_5
	.long	.LBB97_139-.LJTI97_5
	.long	.LBB97_139-.LJTI97_5
	.long	.LBB97_139-.LJTI97_5
	.long	.LBB97_139-.LJTI97_5
	.long	.LBB97_139-.LJTI97_5
	.long	.LBB97_139-.LJTI97_5
	.long	.LBB97_139-.LJTI97_5
	.long	.LBB97_139-.LJTI97_5
	.long	.LBB97_162-.LJTI97_5
	.long	.LBB97_141-.LJTI97_5
	.long	.LBB97_189-.LJTI97_5
	.long	.LBB97_157-.LJTI97_5
	.long	.LBB97_144-.LJTI97_5
	.long	.LBB97_144-.LJTI97_5
	.long	.LBB97_139-.LJTI97_5
	.long	.LBB97_139-.LJTI97_5
	.long	.LBB97_139-.LJTI97_5
	.long	.LBB97_139-.LJTI97_5
	.long	.LBB97_150-.LJTI97_5
	.long	.LBB97_139-.LJTI97_5
	.long	.LBB97_139-.LJTI97_5
.LJTI97_6:
	.long	.LBB97_147-.LJTI97_6
	.long	.LBB97_130-.LJTI97_6
	.long	.LBB97_196-.LJTI97_6
	.long	.LBB97_130-.LJTI97_6
	.long	.LBB97_130-.LJTI97_6
	.long	.LBB97_130-.LJTI97_6
.LJTI97_7:
	.long	.LBB97_217-.LJTI97_7
	.long	.LBB97_124-.LJTI97_7
	.long	.LBB97_214-.LJTI97_7
	.long	.LBB97_215-.LJTI97_7
	.long	.LBB97_213-.LJTI97_7
	.long	.LBB97_216-.LJTI97_7

	.section	.text.nla_wire.members.measure_each.73a2e5797a03d2f8,"ax",@progbits
	.p2align	4
	.type	nla_wire.members.measure_each.73a2e5797a03d2f8,@function
nla_wire.members.measure_each.73a2e5797a03d2f8:
	.cfi_startproc
	pushq	%rbp
	.cfi_def_cfa_offset 16
	pushq	%r15
	.cfi_def_cfa_offset 24
	pushq	%r14
	.cfi_def_cfa_offset 32
	pushq	%r13
	.cfi_def_cfa_offset 40
	pushq	%r12
	.cfi_def_cfa_offset 48
	pushq	%rbx
	.cfi_def_cfa_offset 56
	subq	$72, %rsp
	.cfi_def_cfa_offset 128
	.cfi_offset %rbx, -56
	.cfi_offset %r12, -48
	.cfi_offset %r13, -40
	.cfi_offset %r14, -32
	.cfi_offset %r15, -24
	.cfi_offset %rbp, -16
	movq	%rdi, (%rsp)
	leal	(,%rdi,8), %ecx
	movl	$1441815, %eax
	shrq	%cl, %rax
	movq	%rax, 8(%rsp)
	movq	%rdx, %r14
	movq	%rsi, %r15
	xorl	%ebx, %ebx
	xorl	%ebp, %ebp
	jmp	.LBB98_4
.LBB98_1:
	movb	$4, %al
.LBB98_2:
	movzbl	%al, %esi
	leaq	16(%rsp), %rdi
	movq	%r8, %rdx
	movq	%r12, %rcx
	callq	link_msg.shape.Shape.check
	cmpb	$1, 16(%rsp)
	movq	%r12, %rdx
	jne	.LBB98_68
.LBB98_3:
	addl	$3, %ebp
	andl	$-4, %ebp
	addq	$3, %rdx
	andq	$-4, %rdx
	leaq	(%rbx,%rdx), %rax
	addq	$4, %rax
	cmpq	%rbx, %rax
	movq	%rax, %rbx
	jb	.LBB98_68
.LBB98_4:
	subq	%rbp, %r14
	jbe	.LBB98_69
	cmpq	$4, %r14
	jb	.LBB98_68
	addq	%rbp, %r15
	movzwl	(%r15), %ebp
	xorl	%edx, %edx
	movl	$0, %eax
	cmpw	$4, %bp
	jb	.LBB98_70
	cmpq	%rbp, %r14
	jb	.LBB98_70
	movzwl	2(%r15), %r13d
	leaq	-4(%rbp), %r12
	andl	$16383, %r13d
	leal	-3(%r13), %eax
	cmpl	$66, %eax
	ja	.LBB98_37
	leaq	4(%r15), %r8
	leaq	.LJTI98_0(%rip), %rcx
	movslq	(%rcx,%rax,4), %rax
	addq	%rcx, %rax
	jmpq	*%rax
.LBB98_10:
	movl	$4, %edx
	cmpl	$4, %r12d
	je	.LBB98_3
	jmp	.LBB98_42
.LBB98_11:
	movq	%r8, %rdi
	movq	%r12, %rsi
	movq	%r8, %r12
	callq	nla_wire.payload.measure_text
	movq	%r12, %r8
	leaq	-4(%rbp), %r12
	cmpb	$1, %al
	je	.LBB98_3
	jmp	.LBB98_42
.LBB98_12:
	movl	$1, %edx
	cmpl	$1, %r12d
	je	.LBB98_3
	jmp	.LBB98_42
.LBB98_13:
	movq	%r12, %rdx
	cmpl	$2, %r12d
	jne	.LBB98_3
	movl	$2, %edx
	jmp	.LBB98_3
.LBB98_15:
	cmpq	$32, %r12
	movl	$32, %edx
	cmovbq	%r12, %rdx
	jmp	.LBB98_3
.LBB98_16:
	movq	%r8, %rdi
	movq	%r12, %rsi
	movq	%r8, %r12
	callq	nla_wire.members.measure_each.5fa77b269143286c
	jmp	.LBB98_41
.LBB98_17:
	movq	%r8, %rdi
	movq	%r12, %rsi
	movq	%r8, %r12
	callq	nla_wire.members.measure_each.f7f30aae703aa44d
	jmp	.LBB98_41
.LBB98_18:
	movl	$200, %edx
	jmp	.LBB98_3
.LBB98_19:
	testq	%r12, %r12
	je	.LBB98_42
	movq	%r8, %rdi
	movq	%r12, %rsi
	movq	%r8, %r12
	callq	nla_wire.members.measure_each.49064c0641319ce4
	jmp	.LBB98_41
.LBB98_21:
	movl	$32, %edx
	cmpw	$35, %bp
	ja	.LBB98_3
	jmp	.LBB98_42
.LBB98_22:
	cmpw	$11, %bp
	jbe	.LBB98_42
	jmp	.LBB98_37
.LBB98_24:
	movq	%r8, %rdi
	movq	%r12, %rsi
	movq	%r8, %r12
	callq	nla_wire.members.measure_each.3bb4c8661a1029f4
	jmp	.LBB98_41
.LBB98_25:
	movzbl	(%rsp), %eax
	leaq	.LJTI98_1(%rip), %rcx
	movslq	(%rcx,%rax,4), %rax
	addq	%rcx, %rax
	jmpq	*%rax
.LBB98_67:
	movq	%r8, %rdi
	movq	%r12, %rsi
	movq	%r8, %r12
	callq	nla_wire.members.measure_each.6cf1decf0b22dc4b
	jmp	.LBB98_41
.LBB98_27:
	movq	%r8, %rdi
	movq	%r12, %rsi
	movq	%r8, %r12
	callq	nla_wire.members.measure_each.16a873d75d6df2a1
	jmp	.LBB98_41
.LBB98_28:
	testq	%r12, %r12
	je	.LBB98_42
	movq	%r8, %rdi
	movq	%r12, %rsi
	movq	%r8, %r12
	callq	nla_wire.members.measure_each.8ba1f663fcd59a5e
	jmp	.LBB98_41
.LBB98_30:
	testq	%r12, %r12
	je	.LBB98_42
	movq	%r8, %rdi
	movq	%r12, %rsi
	movq	%r8, %r12
	callq	nla_wire.members.measure_each.79503c7a397af21a
	jmp	.LBB98_41
.LBB98_32:
	movzbl	(%rsp), %eax
	movl	$51, %ecx
	btl	%eax, %ecx
	jae	.LBB98_38
.LBB98_37:
	movq	%r12, %rdx
	jmp	.LBB98_3
.LBB98_34:
	movl	$96, %edx
	jmp	.LBB98_3
.LBB98_35:
	movq	%r8, %rdi
	movq	%r12, %rsi
	movq	%r8, %r12
	callq	nla_wire.members.measure_each.b30b196c481b950e
	jmp	.LBB98_41
.LBB98_38:
	cmpl	$2, %eax
.LBB98_39:
	testq	%r12, %r12
	je	.LBB98_42
	movq	%r8, %rdi
	movq	%r12, %rsi
	movq	%r8, %r12
	callq	nla_wire.members.measure_each.1f0cb788f492ced5
.LBB98_41:
	movq	%r12, %r8
	leaq	-4(%rbp), %r12
	cmpb	$1, %al
	sete	%al
	cmpq	$65532, %rdx
	setb	%cl
	testb	%cl, %al
	jne	.LBB98_3
	.p2align	4
.LBB98_42:
	xorps	%xmm0, %xmm0
	movaps	%xmm0, 48(%rsp)
	movaps	%xmm0, 32(%rsp)
	movaps	%xmm0, 16(%rsp)
	movzwl	%r13w, %eax
	addl	$-3, %eax
	cmpl	$66, %eax
	ja	.LBB98_68
	leaq	.LJTI98_2(%rip), %rcx
	movslq	(%rcx,%rax,4), %rax
	addq	%rcx, %rax
	jmpq	*%rax
.LBB98_44:
	movb	$1, %al
	jmp	.LBB98_2
.LBB98_45:
	movb	$2, %al
	jmp	.LBB98_2
.LBB98_46:
	movb	$3, %al
	cmpl	$2, %r12d
	je	.LBB98_2
	jmp	.LBB98_68
.LBB98_47:
	movb	$6, %al
	jmp	.LBB98_2
.LBB98_48:
	movb	$12, %al
	jmp	.LBB98_2
.LBB98_49:
	movb	$15, %al
	jmp	.LBB98_2
.LBB98_50:
	movb	$17, %al
	jmp	.LBB98_2
.LBB98_51:
	movb	$19, %al
	jmp	.LBB98_2
.LBB98_52:
	movb	$11, %al
	jmp	.LBB98_2
.LBB98_53:
	movq	8(%rsp), %rax
	jmp	.LBB98_2
.LBB98_54:
	movb	$7, %al
	jmp	.LBB98_2
.LBB98_55:
	movb	$13, %al
	jmp	.LBB98_2
.LBB98_56:
	movb	$9, %al
	jmp	.LBB98_2
.LBB98_57:
	movb	$18, %al
	jmp	.LBB98_2
.LBB98_58:
	movb	$8, %al
	jmp	.LBB98_2
.LBB98_59:
	movb	$10, %al
	jmp	.LBB98_2
.LBB98_60:
	movb	$16, %al
	jmp	.LBB98_2
.LBB98_61:
	movzbl	(%rsp), %ecx
	movb	$21, %al
	cmpl	$2, %ecx
	je	.LBB98_66
	cmpl	$3, %ecx
	je	.LBB98_2
	jmp	.LBB98_68
.LBB98_63:
	movb	$14, %al
	jmp	.LBB98_2
.LBB98_64:
	xorl	%eax, %eax
	jmp	.LBB98_2
.LBB98_65:
	movb	$5, %al
	jmp	.LBB98_2
.LBB98_66:
	movb	$20, %al
	jmp	.LBB98_2
.LBB98_68:
	xorl	%edx, %edx
	xorl	%eax, %eax
	jmp	.LBB98_70
.LBB98_69:
	movb	$1, %al
	movq	%rbx, %rdx
.LBB98_70:
	addq	$72, %rsp
	.cfi_def_cfa_offset 56
	popq	%rbx
	.cfi_def_cfa_offset 48
	popq	%r12
	.cfi_def_cfa_offset 40
	popq	%r13
	.cfi_def_cfa_offset 32
	popq	%r14
	.cfi_def_cfa_offset 24
	popq	%r15
	.cfi_def_cfa_offset 16
	popq	%rbp
	.cfi_def_cfa_offset 8
	retq
.Lfunc_end98:
	.size	nla_wire.members.measure_each.73a2e5797a03d2f8, .Lfunc_end98-nla_wire.members.measure_each.73a2e5797a03d2f8
	.cfi_endproc
	.section	.rodata.nla_wire.members.measure_each.73a2e5797a03d2f8,"a",@progbits
	.p2align	2, 0x0
.LJTI98_0:
	.long	.LBB98_11-.LJTI98_0
	.long	.LBB98_10-.LJTI98_0
	.long	.LBB98_10-.LJTI98_0
	.long	.LBB98_11-.LJTI98_0
	.long	.LBB98_34-.LJTI98_0
	.long	.LBB98_37-.LJTI98_0
	.long	.LBB98_37-.LJTI98_0
	.long	.LBB98_10-.LJTI98_0
	.long	.LBB98_22-.LJTI98_0
	.long	.LBB98_32-.LJTI98_0
	.long	.LBB98_10-.LJTI98_0
	.long	.LBB98_21-.LJTI98_0
	.long	.LBB98_37-.LJTI98_0
	.long	.LBB98_12-.LJTI98_0
	.long	.LBB98_12-.LJTI98_0
	.long	.LBB98_19-.LJTI98_0
	.long	.LBB98_10-.LJTI98_0
	.long	.LBB98_11-.LJTI98_0
	.long	.LBB98_10-.LJTI98_0
	.long	.LBB98_24-.LJTI98_0
	.long	.LBB98_18-.LJTI98_0
	.long	.LBB98_30-.LJTI98_0
	.long	.LBB98_39-.LJTI98_0
	.long	.LBB98_25-.LJTI98_0
	.long	.LBB98_10-.LJTI98_0
	.long	.LBB98_10-.LJTI98_0
	.long	.LBB98_10-.LJTI98_0
	.long	.LBB98_10-.LJTI98_0
	.long	.LBB98_10-.LJTI98_0
	.long	.LBB98_10-.LJTI98_0
	.long	.LBB98_12-.LJTI98_0
	.long	.LBB98_15-.LJTI98_0
	.long	.LBB98_10-.LJTI98_0
	.long	.LBB98_15-.LJTI98_0
	.long	.LBB98_10-.LJTI98_0
	.long	.LBB98_11-.LJTI98_0
	.long	.LBB98_12-.LJTI98_0
	.long	.LBB98_10-.LJTI98_0
	.long	.LBB98_10-.LJTI98_0
	.long	.LBB98_37-.LJTI98_0
	.long	.LBB98_28-.LJTI98_0
	.long	.LBB98_10-.LJTI98_0
	.long	.LBB98_10-.LJTI98_0
	.long	.LBB98_10-.LJTI98_0
	.long	.LBB98_10-.LJTI98_0
	.long	.LBB98_10-.LJTI98_0
	.long	.LBB98_10-.LJTI98_0
	.long	.LBB98_10-.LJTI98_0
	.long	.LBB98_10-.LJTI98_0
	.long	.LBB98_35-.LJTI98_0
	.long	.LBB98_37-.LJTI98_0
	.long	.LBB98_37-.LJTI98_0
	.long	.LBB98_17-.LJTI98_0
	.long	.LBB98_11-.LJTI98_0
	.long	.LBB98_11-.LJTI98_0
	.long	.LBB98_10-.LJTI98_0
	.long	.LBB98_10-.LJTI98_0
	.long	.LBB98_10-.LJTI98_0
	.long	.LBB98_10-.LJTI98_0
	.long	.LBB98_27-.LJTI98_0
	.long	.LBB98_10-.LJTI98_0
	.long	.LBB98_10-.LJTI98_0
	.long	.LBB98_16-.LJTI98_0
	.long	.LBB98_37-.LJTI98_0
	.long	.LBB98_12-.LJTI98_0
	.long	.LBB98_13-.LJTI98_0
	.long	.LBB98_13-.LJTI98_0
.LJTI98_1:
	.long	.LBB98_67-.LJTI98_1
	.long	.LBB98_37-.LJTI98_1
	.long	.LBB98_39-.LJTI98_1
	.long	.LBB98_37-.LJTI98_1
	.long	.LBB98_37-.LJTI98_1
	.long	.LBB98_37-.LJTI98_1
.LJTI98_2:
	.long	.LBB98_44-.LJTI98_2
	.long	.LBB98_1-.LJTI98_2
	.long	.LBB98_1-.LJTI98_2
	.long	.LBB98_44-.LJTI98_2
	.long	.LBB98_54-.LJTI98_2
	.long	.LBB98_68-.LJTI98_2
	.long	.LBB98_68-.LJTI98_2
	.long	.LBB98_1-.LJTI98_2
	.long	.LBB98_59-.LJTI98_2
	.long	.LBB98_61-.LJTI98_2
	.long	.LBB98_1-.LJTI98_2
	.long	.LBB98_56-.LJTI98_2
	.long	.LBB98_68-.LJTI98_2
	.long	.LBB98_45-.LJTI98_2
	.long	.LBB98_45-.LJTI98_2
	.long	.LBB98_48-.LJTI98_2
	.long	.LBB98_1-.LJTI98_2
	.long	.LBB98_44-.LJTI98_2
	.long	.LBB98_1-.LJTI98_2
	.long	.LBB98_55-.LJTI98_2
	.long	.LBB98_58-.LJTI98_2
	.long	.LBB98_63-.LJTI98_2
	.long	.LBB98_52-.LJTI98_2
	.long	.LBB98_53-.LJTI98_2
	.long	.LBB98_1-.LJTI98_2
	.long	.LBB98_1-.LJTI98_2
	.long	.LBB98_1-.LJTI98_2
	.long	.LBB98_1-.LJTI98_2
	.long	.LBB98_1-.LJTI98_2
	.long	.LBB98_1-.LJTI98_2
	.long	.LBB98_45-.LJTI98_2
	.long	.LBB98_47-.LJTI98_2
	.long	.LBB98_1-.LJTI98_2
	.long	.LBB98_47-.LJTI98_2
	.long	.LBB98_1-.LJTI98_2
	.long	.LBB98_44-.LJTI98_2
	.long	.LBB98_45-.LJTI98_2
	.long	.LBB98_1-.LJTI98_2
	.long	.LBB98_1-.LJTI98_2
	.long	.LBB98_68-.LJTI98_2
	.long	.LBB98_49-.LJTI98_2
	.long	.LBB98_1-.LJTI98_2
	.long	.LBB98_1-.LJTI98_2
	.long	.LBB98_1-.LJTI98_2
	.long	.LBB98_1-.LJTI98_2
	.long	.LBB98_1-.LJTI98_2
	.long	.LBB98_1-.LJTI98_2
	.long	.LBB98_1-.LJTI98_2
	.long	.LBB98_1-.LJTI98_2
	.long	.LBB98_60-.LJTI98_2
	.long	.LBB98_68-.LJTI98_2
	.long	.LBB98_64-.LJTI98_2
	.long	.LBB98_50-.LJTI98_2
	.long	.LBB98_44-.LJTI98_2
	.long	.LBB98_44-.LJTI98_2
	.long	.LBB98_1-.LJTI98_2
	.long	.LBB98_1-.LJTI98_2
	.long	.LBB98_1-.LJTI98_2
	.long	.LBB98_1-.LJTI98_2
	.long	.LBB98_57-.LJTI98_2
	.long	.LBB98_1-.LJTI98_2
	.long	.LBB98_1-.LJTI98_2
	.long	.LBB98_51-.LJTI98_2
	.long	.LBB98_68-.LJTI98_2
	.long	.LBB98_65-.LJTI98_2
	.long	.LBB98_46-.LJTI98_2
	.long	.LBB98_46-.LJTI98_2

	.section	.text.nla_wire.place.check_one.73a2e5797a03d2f8,"ax",@progbits
	.p2align	4
	.type	nla_wire.place.check_one.73a2e5797a03d2f8,@function
nla_wire.place.check_one.73a2e5797a03d2f8:
	.cfi_startproc
	movb	$0, (%rdi)
	xorps	%xmm0, %xmm0
	movups	%xmm0, 8(%rdi)
	movups	%xmm0, 24(%rdi)
	movq	$0, 40(%rdi)
	retq
.Lfunc_end99:
	.size	nla_wire.place.check_one.73a2e5797a03d2f8, .Lfunc_end99-nla_wire.place.check_one.73a2e5797a03d2f8
	.cfi_endproc

	.section	.text.nla_wire.members.write_each.73a2e5797a03d2f8,"ax",@progbits
	.p2align	4
	.type	nla_wire.members.write_each.73a2e5797a03d2f8,@function
nla_wire.members.write_each.73a2e5797a03d2f8:
	.cfi_startproc
	pushq	%rbp
	.cfi_def_cfa_offset 16
	pushq	%r15
	.cfi_def_cfa_offset 24
	pushq	%r14
	.cfi_def_cfa_offset 32
	pushq	%r13
	.cfi_def_cfa_offset 40
	pushq	%r12
	.cfi_def_cfa_offset 48
	pushq	%rbx
	.cfi_def_cfa_offset 56
	subq	$104, %rsp
	.cfi_def_cfa_offset 160
	.cfi_offset %rbx, -56
	.cfi_offset %r12, -48
	.cfi_offset %r13, -40
	.cfi_offset %r14, -32
	.cfi_offset %r15, -24
	.cfi_offset %rbp, -16
	movq	%r8, 96(%rsp)
	movq	%rcx, 88(%rsp)
	movl	%edi, 60(%rsp)
	testq	%rdx, %rdx
	je	.LBB100_301
	movq	%rdx, %r8
	movq	%rsi, %r9
	movq	88(%rsp), %rax
	leaq	20(%rax), %rcx
	movq	%rcx, 80(%rsp)
	addq	$7, %rax
	movq	%rax, 72(%rsp)
	xorl	%r10d, %r10d
	xorl	%r12d, %r12d
	jmp	.LBB100_4
.LBB100_145:
	movw	$0, (%r14,%rax)
	.p2align	4
.LBB100_3:
	addq	%r11, %r12
	cmpq	%r10, %r8
	jbe	.LBB100_301
.LBB100_4:
	movq	%r9, 24(%rsp)
	subq	%r10, %r8
	cmpq	$4, %r8
	jb	.LBB100_301
	movq	%r10, %rsi
	movq	24(%rsp), %rax
	leaq	(%rax,%r10), %r9
	movzwl	(%r9), %eax
	cmpw	$4, %ax
	jb	.LBB100_301
	cmpq	%rax, %r8
	jb	.LBB100_301
	movzwl	2(%r9), %edi
	movl	%edi, %r11d
	leaq	4(%r9), %rbx
	leaq	-4(%rax), %r13
	movl	%eax, %r10d
	addl	$3, %r10d
	andl	$-4, %r10d
	movq	88(%rsp), %rcx
	leaq	(%rcx,%r12), %r14
	movq	96(%rsp), %r15
	subq	%r12, %r15
	andl	$16383, %edi
	leal	-3(%rdi), %ecx
	cmpl	$66, %ecx
	movw	%r11w, 48(%rsp)
	ja	.LBB100_26
	leaq	.LJTI100_0(%rip), %rdx
	movslq	(%rdx,%rcx,4), %rcx
	addq	%rdx, %rcx
	jmpq	*%rcx
.LBB100_9:
	movl	$4, %r11d
	movq	%r13, %rbp
	cmpl	$4, %r13d
	je	.LBB100_28
.LBB100_10:
	leaq	4(%r14), %rdi
	movq	%rdi, %rax
	subq	%rbx, %rax
	cmpq	%r13, %rax
	jae	.LBB100_20
	cmpl	$4, %ebp
	jb	.LBB100_13
	movq	24(%rsp), %rax
	addq	%rsi, %rax
	movq	%r14, %rcx
	subq	%rax, %rcx
	cmpq	$32, %rcx
	jae	.LBB100_34
.LBB100_13:
	movq	%rsi, %r11
	xorl	%eax, %eax
.LBB100_14:
	movq	%rbp, %rdx
	movq	%rax, %rcx
	andq	$3, %rdx
	je	.LBB100_17
	movq	%rax, %rcx
	.p2align	4
.LBB100_16:
	movzbl	(%rbx,%rcx), %esi
	movb	%sil, (%rdi,%rcx)
	incq	%rcx
	decq	%rdx
	jne	.LBB100_16
.LBB100_17:
	subl	%ebp, %eax
	cmpl	$-4, %eax
	ja	.LBB100_21
	movq	24(%rsp), %rax
	addq	%r11, %rax
	addq	$7, %rax
	movq	72(%rsp), %rdx
	addq	%r12, %rdx
	.p2align	4
.LBB100_19:
	movzbl	-3(%rax,%rcx), %esi
	movb	%sil, -3(%rdx,%rcx)
	movzbl	-2(%rax,%rcx), %esi
	movb	%sil, -2(%rdx,%rcx)
	movzbl	-1(%rax,%rcx), %esi
	movb	%sil, -1(%rdx,%rcx)
	movzbl	(%rax,%rcx), %esi
	movb	%sil, (%rdx,%rcx)
	addq	$4, %rcx
	cmpq	%rcx, %rbp
	jne	.LBB100_19
	jmp	.LBB100_21
	.p2align	4
.LBB100_20:
	movq	%rbx, %rsi
	movq	%rbp, %rdx
	movq	%r8, %rbx
	movq	%r14, %r13
	movq	%r9, %r14
	movq	%r10, %r15
	callq	memmove@PLT
	movq	%r15, %r10
	movq	%r14, %r9
	movq	%r13, %r14
	movq	%rbx, %r8
.LBB100_21:
	leaq	4(%rbp), %rax
	addq	$7, %rbp
	movq	%rbp, %r11
	andq	$-4, %r11
	movw	%ax, (%r14)
	movzwl	48(%rsp), %ecx
	movw	%cx, 2(%r14)
	movq	%r11, %rcx
	subq	%rax, %rcx
	cmpq	$3, %rcx
	je	.LBB100_2
.LBB100_22:
	cmpl	$2, %ecx
	je	.LBB100_145
	cmpl	$1, %ecx
	jne	.LBB100_3
.LBB100_24:
	movb	$0, (%r14,%rax)
	jmp	.LBB100_3
.LBB100_25:
	movq	%rdi, 32(%rsp)
	movq	%rbx, %rdi
	movq	%rsi, 16(%rsp)
	movq	%r13, %rsi
	movq	%r8, %rbp
	movq	%rbx, 40(%rsp)
	movq	%r14, %rbx
	movq	%r10, %r14
	callq	nla_wire.payload.measure_text
	movq	32(%rsp), %rdi
	movq	16(%rsp), %rsi
	movq	%r14, %r10
	movq	%rbx, %r14
	movq	40(%rsp), %rbx
	movq	24(%rsp), %rcx
	leaq	(%rcx,%rsi), %r9
	movq	%rbp, %r8
	movq	%r13, %rbp
	cmpb	$1, %al
	jne	.LBB100_10
.LBB100_26:
	movq	%r13, %r11
	jmp	.LBB100_28
.LBB100_27:
	movl	$1, %r11d
	movq	%r13, %rbp
	cmpl	$1, %r13d
	jne	.LBB100_10
	.p2align	4
.LBB100_28:
	movzwl	%di, %eax
	decl	%eax
	cmpl	$68, %eax
	ja	.LBB100_100
	leaq	.LJTI100_2(%rip), %rcx
	movslq	(%rcx,%rax,4), %rax
	addq	%rcx, %rax
	jmpq	*%rax
.LBB100_30:
	leaq	4(%r14), %rax
	movq	%rax, %rcx
	subq	%rbx, %rcx
	cmpq	$3, %rcx
	ja	.LBB100_32
	movzbl	4(%r9), %eax
	movb	%al, 4(%r14)
	movzbl	5(%r9), %eax
	movb	%al, 5(%r14)
	movzbl	6(%r9), %eax
	movb	%al, 6(%r14)
	movzbl	7(%r9), %eax
	movb	%al, 7(%r14)
	jmp	.LBB100_33
.LBB100_32:
	movl	(%rbx), %ecx
	movl	%ecx, (%rax)
.LBB100_33:
	movw	$8, (%r14)
	movw	%di, 2(%r14)
	movl	$8, %r11d
	jmp	.LBB100_3
.LBB100_34:
	cmpl	$32, %ebp
	jae	.LBB100_49
	movq	%rsi, %r11
	xorl	%eax, %eax
	jmp	.LBB100_53
.LBB100_82:
	movq	%r13, %r11
	cmpl	$2, %r13d
	jne	.LBB100_100
	jmp	.LBB100_83
.LBB100_36:
	testq	%r11, %r11
	movq	%rdi, 32(%rsp)
	je	.LBB100_38
	cmpb	$0, -1(%rbx,%r11)
	je	.LBB100_113
.LBB100_38:
	leaq	4(%r14), %rdi
	cmpl	$4, %r11d
	jae	.LBB100_114
.LBB100_39:
	movq	%rdi, %rax
	subq	%rbx, %rax
	cmpq	%r11, %rax
	jae	.LBB100_112
	cmpl	$4, %r11d
	jb	.LBB100_42
	movq	24(%rsp), %rax
	addq	%rsi, %rax
	movq	%r14, %rcx
	subq	%rax, %rcx
	cmpq	$32, %rcx
	jae	.LBB100_225
.LBB100_42:
	movq	%rsi, %r15
	xorl	%eax, %eax
.LBB100_43:
	movq	%r11, %rdx
	movq	%rax, %rcx
	andq	$3, %rdx
	je	.LBB100_46
	movq	%rax, %rcx
	.p2align	4
.LBB100_45:
	movzbl	(%rbx,%rcx), %esi
	movb	%sil, (%rdi,%rcx)
	incq	%rcx
	decq	%rdx
	jne	.LBB100_45
.LBB100_46:
	subl	%r11d, %eax
	cmpl	$-4, %eax
	ja	.LBB100_262
	movq	24(%rsp), %rax
	addq	%r15, %rax
	addq	$7, %rax
	movq	72(%rsp), %rdx
	addq	%r12, %rdx
	.p2align	4
.LBB100_48:
	movzbl	-3(%rax,%rcx), %esi
	movb	%sil, -3(%rdx,%rcx)
	movzbl	-2(%rax,%rcx), %esi
	movb	%sil, -2(%rdx,%rcx)
	movzbl	-1(%rax,%rcx), %esi
	movb	%sil, -1(%rdx,%rcx)
	movzbl	(%rax,%rcx), %esi
	movb	%sil, (%rdx,%rcx)
	addq	$4, %rcx
	cmpq	%rcx, %r11
	jne	.LBB100_48
	jmp	.LBB100_262
.LBB100_49:
	movq	%rbp, %rax
	andq	$-32, %rax
	movq	%rsi, %r11
	movq	24(%rsp), %rcx
	addq	%rsi, %rcx
	addq	$20, %rcx
	movq	80(%rsp), %rdx
	addq	%r12, %rdx
	xorl	%esi, %esi
	.p2align	4
.LBB100_50:
	movups	-16(%rcx,%rsi), %xmm0
	movups	(%rcx,%rsi), %xmm1
	movups	%xmm0, -16(%rdx,%rsi)
	movups	%xmm1, (%rdx,%rsi)
	addq	$32, %rsi
	cmpq	%rsi, %rax
	jne	.LBB100_50
	cmpl	%eax, %ebp
	je	.LBB100_21
	testb	$28, %bpl
	je	.LBB100_14
.LBB100_53:
	movq	%rax, %rcx
	movq	%rbp, %rax
	andq	$-4, %rax
	.p2align	4
.LBB100_54:
	movl	(%rbx,%rcx), %edx
	movl	%edx, (%rdi,%rcx)
	addq	$4, %rcx
	cmpq	%rcx, %rax
	jne	.LBB100_54
	cmpl	%eax, %ebp
	jne	.LBB100_14
	jmp	.LBB100_21
.LBB100_56:
	movzbl	(%rbx), %eax
	movb	%al, 4(%r14)
	jmp	.LBB100_61
.LBB100_57:
	movq	%rdi, 32(%rsp)
	movq	%rbx, %rdi
	movq	%rsi, %rbp
	movq	%r13, %rsi
	movq	%r8, %r15
	movq	%r9, 16(%rsp)
	movq	%r10, 8(%rsp)
	callq	nla_wire.members.measure_each.f7f30aae703aa44d
	movq	%rbp, %rsi
	movq	8(%rsp), %r10
	movq	24(%rsp), %rcx
	leaq	(%rcx,%rbp), %r9
	movq	%r15, %r8
	cmpb	$1, %al
	sete	%al
	cmpq	$65532, %rdx
	setb	%cl
	movq	%r13, %rbp
	testb	%cl, %al
	je	.LBB100_10
	movq	%r13, %rsi
	jmp	.LBB100_159
.LBB100_59:
	movq	%r13, %rbp
	cmpl	$1, %r13d
	jne	.LBB100_10
.LBB100_60:
	cmpb	$0, (%rbx)
	setne	4(%r14)
.LBB100_61:
	movw	$5, (%r14)
	movw	%di, 2(%r14)
	movw	$0, 5(%r14)
	movb	$0, 7(%r14)
	movl	$8, %r11d
	jmp	.LBB100_3
.LBB100_62:
	movq	%rdi, %r15
	movq	%rbx, %rdi
	movq	%rsi, %rbp
	movq	%r13, %rsi
	movq	%r8, 40(%rsp)
	movq	%r9, 16(%rsp)
	movq	%r10, 8(%rsp)
	callq	nla_wire.members.measure_each.b30b196c481b950e
	movq	%rbp, %rsi
	movq	8(%rsp), %r10
	movq	24(%rsp), %rcx
	leaq	(%rcx,%rbp), %r9
	movq	40(%rsp), %r8
	cmpb	$1, %al
	sete	%al
	cmpq	$65532, %rdx
	setb	%cl
	movq	%r13, %rbp
	testb	%cl, %al
	je	.LBB100_10
	movq	%r15, %rdi
	jmp	.LBB100_135
.LBB100_64:
	movq	%r13, %rbp
	cmpw	$35, %ax
	jbe	.LBB100_10
.LBB100_65:
	movq	20(%r9), %rax
	movl	28(%r9), %ecx
	movups	4(%r9), %xmm0
	movups	%xmm0, 4(%r14)
	movq	%rax, 20(%r14)
	movl	%ecx, 28(%r14)
	movl	$0, 32(%r14)
	movw	$36, (%r14)
	movw	%di, 2(%r14)
	movl	$36, %r11d
	jmp	.LBB100_3
.LBB100_66:
	movq	%r13, %rbp
	cmpw	$11, %ax
	jbe	.LBB100_10
	movq	%r10, 8(%rsp)
	movq	%r12, %rbp
	movq	%r9, %r12
	movq	%r8, %r15
	jmp	.LBB100_140
.LBB100_68:
	movq	%rdi, 32(%rsp)
	movq	%rbx, %rdi
	movq	%rsi, %rbp
	movq	%r13, %rsi
	movq	%r8, 40(%rsp)
	movq	%r9, 16(%rsp)
	movq	%r10, 8(%rsp)
	callq	nla_wire.members.measure_each.3bb4c8661a1029f4
	movq	%rbp, %rsi
	movq	8(%rsp), %r10
	movq	24(%rsp), %rcx
	leaq	(%rcx,%rbp), %r9
	movq	40(%rsp), %r8
	cmpb	$1, %al
	sete	%al
	cmpq	$65532, %rdx
	setb	%cl
	movq	%r13, %rbp
	testb	%cl, %al
	je	.LBB100_10
	movq	%r13, %rsi
	jmp	.LBB100_147
.LBB100_70:
	movzbl	60(%rsp), %eax
	movl	$51, %ecx
	btl	%eax, %ecx
	jae	.LBB100_120
	movzbl	60(%rsp), %eax
	movl	$51, %ecx
	btl	%eax, %ecx
	jae	.LBB100_142
.LBB100_72:
	movq	%r13, %r11
	jmp	.LBB100_100
.LBB100_73:
	testq	%r13, %r13
	je	.LBB100_204
	movq	%rdi, 32(%rsp)
	movq	%rbx, %rdi
	movq	%rsi, %rbp
	movq	%r13, %rsi
	movq	%r8, 40(%rsp)
	movq	%r9, 16(%rsp)
	movq	%r10, 8(%rsp)
	callq	nla_wire.members.measure_each.79503c7a397af21a
	movq	%rbp, %rsi
	movq	8(%rsp), %r10
	movq	24(%rsp), %rcx
	leaq	(%rcx,%rbp), %r9
	movq	40(%rsp), %r8
	cmpb	$1, %al
	sete	%al
	cmpq	$65532, %rdx
	setb	%cl
	movq	%r13, %rbp
	testb	%cl, %al
	je	.LBB100_10
	movq	%r13, %rsi
	jmp	.LBB100_194
.LBB100_76:
	testq	%r13, %r13
	je	.LBB100_204
	movq	%rdi, 32(%rsp)
	movq	%rbx, %rdi
	movq	%rsi, %rbp
	movq	%r13, %rsi
	movq	%r8, %r15
	movq	%r9, 16(%rsp)
	movq	%r10, 8(%rsp)
	callq	nla_wire.members.measure_each.8ba1f663fcd59a5e
	movq	%rbp, %rsi
	movq	8(%rsp), %r10
	movq	24(%rsp), %rcx
	leaq	(%rcx,%rbp), %r9
	movq	%r15, %r8
	cmpb	$1, %al
	sete	%al
	cmpq	$65532, %rdx
	setb	%cl
	movq	%r13, %rbp
	testb	%cl, %al
	je	.LBB100_10
	movq	%r13, %rsi
	jmp	.LBB100_152
.LBB100_79:
	testq	%r13, %r13
	je	.LBB100_204
	movq	%rdi, 32(%rsp)
	movq	%rbx, %rdi
	movq	%rsi, %rbp
	movq	%r13, %rsi
	movq	%r8, %r15
	movq	%r9, 16(%rsp)
	movq	%r10, 8(%rsp)
	callq	nla_wire.members.measure_each.1f0cb788f492ced5
	movq	%rbp, %rsi
	movq	8(%rsp), %r10
	movq	24(%rsp), %rcx
	leaq	(%rcx,%rbp), %r9
	movq	%r15, %r8
	cmpb	$1, %al
	sete	%al
	cmpq	$65532, %rdx
	setb	%cl
	movq	%r13, %rbp
	testb	%cl, %al
	je	.LBB100_10
	movq	%r13, %rsi
	jmp	.LBB100_179
.LBB100_85:
	movq	%rdi, %r15
	movq	%rbx, %rdi
	movq	%rsi, %rbp
	movq	%r13, %rsi
	movq	%r8, 40(%rsp)
	movq	%r9, 16(%rsp)
	movq	%r10, 8(%rsp)
	callq	nla_wire.members.measure_each.5fa77b269143286c
	movq	%rbp, %rsi
	movq	8(%rsp), %r10
	movq	24(%rsp), %rcx
	leaq	(%rcx,%rbp), %r9
	movq	40(%rsp), %r8
	cmpb	$1, %al
	sete	%al
	cmpq	$65532, %rdx
	setb	%cl
	movq	%r13, %rbp
	testb	%cl, %al
	je	.LBB100_10
	movq	%r15, %rdi
	jmp	.LBB100_192
.LBB100_87:
	movzbl	60(%rsp), %eax
	leaq	.LJTI100_1(%rip), %rcx
	movslq	(%rcx,%rax,4), %rax
	addq	%rcx, %rax
	jmpq	*%rax
.LBB100_88:
	movq	%r13, %r11
	jmp	.LBB100_161
.LBB100_89:
	testq	%r13, %r13
	je	.LBB100_204
	movq	%rdi, 32(%rsp)
	movq	%rbx, %rdi
	movq	%rsi, %rbp
	movq	%r13, %rsi
	movq	%r8, %r15
	movq	%r9, 16(%rsp)
	movq	%r10, 8(%rsp)
	callq	nla_wire.members.measure_each.49064c0641319ce4
	movq	%rbp, %rsi
	movq	8(%rsp), %r10
	movq	24(%rsp), %rcx
	leaq	(%rcx,%rbp), %r9
	movq	%r15, %r8
	cmpb	$1, %al
	sete	%al
	cmpq	$65532, %rdx
	setb	%cl
	movq	%r13, %rbp
	testb	%cl, %al
	je	.LBB100_10
	movq	%r13, %rsi
	jmp	.LBB100_177
.LBB100_92:
	movq	%rdi, %r15
	movq	%rbx, %rdi
	movq	%rsi, %rbp
	movq	%r13, %rsi
	movq	%r8, 40(%rsp)
	movq	%r9, 16(%rsp)
	movq	%r10, 8(%rsp)
	callq	nla_wire.members.measure_each.16a873d75d6df2a1
	movq	%rbp, %rsi
	movq	8(%rsp), %r10
	movq	24(%rsp), %rcx
	leaq	(%rcx,%rbp), %r9
	movq	40(%rsp), %r8
	cmpb	$1, %al
	sete	%al
	cmpq	$65532, %rdx
	setb	%cl
	movq	%r13, %rbp
	testb	%cl, %al
	je	.LBB100_10
	movq	%r15, %rdi
	jmp	.LBB100_157
.LBB100_162:
	movq	%rdi, 32(%rsp)
	jmp	.LBB100_163
.LBB100_96:
	movq	%rdi, 32(%rsp)
	cmpq	$32, %r11
	movl	$32, %r15d
	cmovbq	%r11, %r15
	leaq	4(%r14), %rdi
	movq	%rdi, %rax
	subq	%rbx, %rax
	cmpq	%r15, %rax
	jae	.LBB100_150
	cmpl	$4, %r11d
	jb	.LBB100_98
	movq	24(%rsp), %rax
	addq	%rsi, %rax
	movq	%r14, %rcx
	subq	%rax, %rcx
	cmpq	$16, %rcx
	jae	.LBB100_219
.LBB100_98:
	xorl	%eax, %eax
.LBB100_274:
	movq	%rsi, %r11
	movq	%r15, %rdx
	movq	%rax, %rcx
	andq	$3, %rdx
	je	.LBB100_277
	movq	%rax, %rcx
	.p2align	4
.LBB100_276:
	movzbl	(%rbx,%rcx), %esi
	movb	%sil, (%rdi,%rcx)
	incq	%rcx
	decq	%rdx
	jne	.LBB100_276
.LBB100_277:
	subl	%r15d, %eax
	cmpl	$-4, %eax
	ja	.LBB100_280
	movq	24(%rsp), %rax
	addq	%r11, %rax
	addq	$7, %rax
	movq	72(%rsp), %rdx
	addq	%r12, %rdx
	.p2align	4
.LBB100_279:
	movzbl	-3(%rax,%rcx), %esi
	movb	%sil, -3(%rdx,%rcx)
	movzbl	-2(%rax,%rcx), %esi
	movb	%sil, -2(%rdx,%rcx)
	movzbl	-1(%rax,%rcx), %esi
	movb	%sil, -1(%rdx,%rcx)
	movzbl	(%rax,%rcx), %esi
	movb	%sil, (%rdx,%rcx)
	addq	$4, %rcx
	cmpq	%rcx, %r15
	jne	.LBB100_279
	jmp	.LBB100_280
.LBB100_99:
	movq	%r11, %r13
	cmpl	$2, %r13d
	jne	.LBB100_100
.LBB100_83:
	leaq	4(%r14), %rax
	movq	%rax, %rcx
	subq	%rbx, %rcx
	cmpq	$1, %rcx
	ja	.LBB100_94
	movzbl	4(%r9), %eax
	movb	%al, 4(%r14)
	movzbl	5(%r9), %eax
	movb	%al, 5(%r14)
	jmp	.LBB100_95
.LBB100_100:
	leaq	4(%r14), %rdi
	movq	%rdi, %rax
	subq	%rbx, %rax
	cmpq	%r11, %rax
	jae	.LBB100_110
	cmpl	$4, %r11d
	movzwl	48(%rsp), %ebp
	jb	.LBB100_103
	movq	24(%rsp), %rax
	addq	%rsi, %rax
	movq	%r14, %rcx
	subq	%rax, %rcx
	cmpq	$32, %rcx
	jae	.LBB100_195
.LBB100_103:
	movq	%rsi, %r15
	xorl	%eax, %eax
.LBB100_104:
	movq	%r11, %rdx
	movq	%rax, %rcx
	andq	$3, %rdx
	je	.LBB100_107
	movq	%rax, %rcx
	.p2align	4
.LBB100_106:
	movzbl	(%rbx,%rcx), %esi
	movb	%sil, (%rdi,%rcx)
	incq	%rcx
	decq	%rdx
	jne	.LBB100_106
.LBB100_107:
	subl	%r11d, %eax
	cmpl	$-4, %eax
	ja	.LBB100_111
	movq	24(%rsp), %rax
	addq	%r15, %rax
	addq	$7, %rax
	movq	72(%rsp), %rdx
	addq	%r12, %rdx
	.p2align	4
.LBB100_109:
	movzbl	-3(%rax,%rcx), %esi
	movb	%sil, -3(%rdx,%rcx)
	movzbl	-2(%rax,%rcx), %esi
	movb	%sil, -2(%rdx,%rcx)
	movzbl	-1(%rax,%rcx), %esi
	movb	%sil, -1(%rdx,%rcx)
	movzbl	(%rax,%rcx), %esi
	movb	%sil, (%rdx,%rcx)
	addq	$4, %rcx
	cmpq	%rcx, %r11
	jne	.LBB100_109
	jmp	.LBB100_111
.LBB100_110:
	movq	%rbx, %rsi
	movq	%r11, %rdx
	movq	%r8, %rbx
	movq	%r14, %r13
	movq	%r9, %r14
	movq	%r10, %r15
	movq	%r11, %rbp
	callq	memmove@PLT
	movq	%rbp, %r11
	movq	%r15, %r10
	movq	%r14, %r9
	movq	%r13, %r14
	movq	%rbx, %r8
	movzwl	48(%rsp), %ebp
.LBB100_111:
	leaq	4(%r11), %rax
	addq	$7, %r11
	andq	$-4, %r11
	movw	%ax, (%r14)
	movw	%bp, 2(%r14)
	movq	%r11, %rcx
	subq	%rax, %rcx
	cmpq	$3, %rcx
	jne	.LBB100_22
	jmp	.LBB100_2
.LBB100_94:
	movzwl	(%rbx), %ecx
	movw	%cx, (%rax)
.LBB100_95:
	movw	$6, (%r14)
	movw	%di, 2(%r14)
	movw	$0, 6(%r14)
	movl	$8, %r11d
	jmp	.LBB100_3
.LBB100_112:
	movq	%rbx, %rsi
	movq	%r11, %rdx
	movq	%r8, %rbx
	movq	%r9, %r15
	movq	%r14, %r13
	movq	%r10, %r14
	movq	%r11, %rbp
	callq	memmove@PLT
	movq	%rbp, %r11
	movq	%r14, %r10
	movq	%r13, %r14
	movq	%r15, %r9
	movq	%rbx, %r8
	jmp	.LBB100_262
.LBB100_113:
	decq	%r11
	leaq	4(%r14), %rdi
	cmpl	$4, %r11d
	jb	.LBB100_39
.LBB100_114:
	cmpl	$7, %r11d
	ja	.LBB100_117
	movq	%rdi, %rax
	subq	%rbx, %rax
	cmpq	$3, %rax
	ja	.LBB100_197
	movzbl	4(%r9), %eax
	movb	%al, 4(%r14)
	movzbl	5(%r9), %eax
	movb	%al, 5(%r14)
	movzbl	6(%r9), %eax
	movb	%al, 6(%r14)
	movzbl	7(%r9), %eax
	movb	%al, 7(%r14)
	jmp	.LBB100_198
.LBB100_117:
	cmpl	$16, %r11d
	ja	.LBB100_39
	movq	%rdi, %rax
	subq	%rbx, %rax
	cmpq	$7, %rax
	ja	.LBB100_234
	movzbl	4(%r9), %eax
	movb	%al, 4(%r14)
	movzbl	5(%r9), %eax
	movb	%al, 5(%r14)
	movzbl	6(%r9), %eax
	movb	%al, 6(%r14)
	movzbl	7(%r9), %eax
	movb	%al, 7(%r14)
	movzbl	8(%r9), %eax
	movb	%al, 8(%r14)
	movzbl	9(%r9), %eax
	movb	%al, 9(%r14)
	movzbl	10(%r9), %eax
	movb	%al, 10(%r14)
	movzbl	11(%r9), %eax
	movb	%al, 11(%r14)
	jmp	.LBB100_235
.LBB100_120:
	cmpl	$2, %eax
	testq	%r13, %r13
	je	.LBB100_204
	movq	%rdi, 32(%rsp)
	movq	%rbx, %rdi
	movq	%rsi, %rbp
	movq	%r13, %rsi
	movq	%r8, %r15
	movq	%r9, 16(%rsp)
	movq	%r10, 8(%rsp)
	callq	nla_wire.members.measure_each.1f0cb788f492ced5
	movq	32(%rsp), %rdi
	movq	%rbp, %rsi
	movq	8(%rsp), %r10
	movq	24(%rsp), %rcx
	leaq	(%rcx,%rbp), %r9
	movq	%r15, %r8
	cmpb	$1, %al
	sete	%al
	cmpq	$65532, %rdx
	setb	%cl
	movq	%r13, %rbp
	testb	%cl, %al
	je	.LBB100_10
	jmp	.LBB100_143
.LBB100_123:
	movq	%r14, 48(%rsp)
	addq	$4, %r14
	movq	%r14, %rax
	subq	%rbx, %rax
	cmpl	$200, %r11d
	jae	.LBB100_214
	cmpq	%r11, %rax
	jae	.LBB100_245
	cmpl	$4, %r11d
	jb	.LBB100_127
	movq	24(%rsp), %rax
	addq	%rsi, %rax
	movq	48(%rsp), %rcx
	subq	%rax, %rcx
	cmpq	$32, %rcx
	jae	.LBB100_283
.LBB100_127:
	movq	%rsi, %rdi
	xorl	%eax, %eax
.LBB100_128:
	movq	%r11, %rdx
	movq	%rax, %rcx
	andq	$3, %rdx
	je	.LBB100_131
	movq	%rax, %rcx
.LBB100_130:
	movzbl	(%rbx,%rcx), %esi
	movb	%sil, (%r14,%rcx)
	incq	%rcx
	decq	%rdx
	jne	.LBB100_130
.LBB100_131:
	subl	%r11d, %eax
	cmpl	$-4, %eax
	ja	.LBB100_246
	movq	24(%rsp), %rax
	addq	%rdi, %rax
	addq	$7, %rax
	movq	72(%rsp), %rdx
	addq	%r12, %rdx
.LBB100_133:
	movzbl	-3(%rax,%rcx), %esi
	movb	%sil, -3(%rdx,%rcx)
	movzbl	-2(%rax,%rcx), %esi
	movb	%sil, -2(%rdx,%rcx)
	movzbl	-1(%rax,%rcx), %esi
	movb	%sil, -1(%rdx,%rcx)
	movzbl	(%rax,%rcx), %esi
	movb	%sil, (%rdx,%rcx)
	addq	$4, %rcx
	cmpq	%rcx, %r11
	jne	.LBB100_133
	jmp	.LBB100_246
.LBB100_134:
	movq	%r10, 8(%rsp)
	movq	%r9, 16(%rsp)
	movq	%r8, 40(%rsp)
	movq	%r11, %r13
.LBB100_135:
	movzwl	%di, %ebp
	orl	$32768, %ebp
	leaq	4(%r14), %rdx
	movq	%rbx, %rdi
	movq	%r13, %rsi
	callq	nla_wire.members.write_each.b30b196c481b950e
	jmp	.LBB100_136
.LBB100_139:
	movq	%r10, 8(%rsp)
	movq	%r12, %rbp
	movq	%r9, %r12
	movq	%r8, %r15
	movq	%r11, %r13
.LBB100_140:
	movq	%rbx, %rsi
	movq	%r13, %rdx
	movq	%r14, %rcx
	callq	link_msg.payload.write_event
	movq	%rax, %r11
	movq	%r15, %r8
	movq	%r12, %r9
	movq	%rbp, %r12
	movq	8(%rsp), %r10
	jmp	.LBB100_3
.LBB100_141:
	movq	%r11, %r13
	movzbl	60(%rsp), %eax
	movl	$51, %ecx
	btl	%eax, %ecx
	jb	.LBB100_72
.LBB100_142:
	movq	%r10, 8(%rsp)
	movq	%r9, 16(%rsp)
	movq	%r8, %r15
	cmpl	$2, %eax
.LBB100_143:
	movzwl	%di, %ebp
	orl	$32768, %ebp
	leaq	4(%r14), %rdx
	movq	%rbx, %rdi
	movq	%r13, %rsi
	callq	nla_wire.members.write_each.1f0cb788f492ced5
	movq	%rax, %r11
	addq	$4, %rax
	addq	$7, %r11
	andq	$-4, %r11
	movw	%ax, (%r14)
	movw	%bp, 2(%r14)
	movq	%r11, %rcx
	subq	%rax, %rcx
	cmpq	$3, %rcx
	jne	.LBB100_144
.LBB100_154:
	movw	$0, (%r14,%rax)
	movb	$0, 2(%r14,%rax)
	movq	%r15, %r8
	jmp	.LBB100_155
.LBB100_146:
	movq	%rdi, 32(%rsp)
	movq	%r10, 8(%rsp)
	movq	%r9, 16(%rsp)
	movq	%r8, 40(%rsp)
	movq	%r11, %rsi
.LBB100_147:
	leaq	4(%r14), %rdx
	addq	$-4, %r15
	movq	%rbx, %rdi
	movq	%r15, %rcx
	callq	nla_wire.members.write_each.3bb4c8661a1029f4
	jmp	.LBB100_148
.LBB100_150:
	movq	%rbx, %rsi
	movq	%r15, %rdx
	movq	%r8, %rbx
	movq	%r12, %r13
	movq	%r9, %r12
	movq	%r14, %rbp
	movq	%r10, %r14
	callq	memmove@PLT
	movq	%r14, %r10
	movq	%rbp, %r14
	movq	%r12, %r9
	movq	%r13, %r12
	movq	%rbx, %r8
.LBB100_280:
	leaq	4(%r15), %rax
	addl	$7, %r15d
	movl	%r15d, %r11d
	andl	$124, %r11d
	jmp	.LBB100_175
.LBB100_151:
	movq	%rdi, 32(%rsp)
	movq	%r10, 8(%rsp)
	movq	%r9, 16(%rsp)
	movq	%r8, %r15
	movq	%r11, %rsi
.LBB100_152:
	leaq	4(%r14), %rdx
	movq	%rbx, %rdi
	callq	nla_wire.members.write_each.8ba1f663fcd59a5e
	jmp	.LBB100_153
.LBB100_156:
	movq	%r10, 8(%rsp)
	movq	%r9, 16(%rsp)
	movq	%r8, 40(%rsp)
	movq	%r11, %r13
.LBB100_157:
	movzwl	%di, %ebp
	orl	$32768, %ebp
	leaq	4(%r14), %rdx
	movq	%rbx, %rdi
	movq	%r13, %rsi
	callq	nla_wire.members.write_each.16a873d75d6df2a1
	jmp	.LBB100_136
.LBB100_158:
	movq	%rdi, 32(%rsp)
	movq	%r10, 8(%rsp)
	movq	%r9, 16(%rsp)
	movq	%r8, %r15
	movq	%r11, %rsi
.LBB100_159:
	leaq	4(%r14), %rdx
	movq	%rbx, %rdi
	callq	nla_wire.members.write_each.f7f30aae703aa44d
	jmp	.LBB100_153
.LBB100_160:
	movq	%r11, %r13
.LBB100_161:
	movq	%rdi, 32(%rsp)
	movzbl	60(%rsp), %eax
	leaq	.LJTI100_3(%rip), %rcx
	movslq	(%rcx,%rax,4), %rax
	addq	%rcx, %rax
	jmpq	*%rax
.LBB100_163:
	leaq	4(%r14), %rdi
	movq	%rdi, %rax
	subq	%rbx, %rax
	cmpq	%r11, %rax
	jae	.LBB100_173
	cmpl	$4, %r11d
	jb	.LBB100_166
	movq	24(%rsp), %rax
	addq	%rsi, %rax
	movq	%r14, %rcx
	subq	%rax, %rcx
	cmpq	$32, %rcx
	jae	.LBB100_201
.LBB100_166:
	movq	%rsi, %r15
	xorl	%eax, %eax
.LBB100_167:
	movq	%r11, %rdx
	movq	%rax, %rcx
	andq	$3, %rdx
	je	.LBB100_170
	movq	%rax, %rcx
	.p2align	4
.LBB100_169:
	movzbl	(%rbx,%rcx), %esi
	movb	%sil, (%rdi,%rcx)
	incq	%rcx
	decq	%rdx
	jne	.LBB100_169
.LBB100_170:
	subl	%r11d, %eax
	cmpl	$-4, %eax
	ja	.LBB100_174
	movq	24(%rsp), %rax
	addq	%r15, %rax
	addq	$7, %rax
	movq	72(%rsp), %rdx
	addq	%r12, %rdx
	.p2align	4
.LBB100_172:
	movzbl	-3(%rax,%rcx), %esi
	movb	%sil, -3(%rdx,%rcx)
	movzbl	-2(%rax,%rcx), %esi
	movb	%sil, -2(%rdx,%rcx)
	movzbl	-1(%rax,%rcx), %esi
	movb	%sil, -1(%rdx,%rcx)
	movzbl	(%rax,%rcx), %esi
	movb	%sil, (%rdx,%rcx)
	addq	$4, %rcx
	cmpq	%rcx, %r11
	jne	.LBB100_172
	jmp	.LBB100_174
.LBB100_173:
	movq	%rbx, %rsi
	movq	%r11, %rdx
	movq	%r8, %rbx
	movq	%r9, %r15
	movq	%r14, %r13
	movq	%r10, %r14
	movq	%r11, %rbp
	callq	memmove@PLT
	movq	%rbp, %r11
	movq	%r14, %r10
	movq	%r13, %r14
	movq	%r15, %r9
	movq	%rbx, %r8
.LBB100_174:
	leaq	4(%r11), %rax
	addq	$7, %r11
	andq	$-4, %r11
	jmp	.LBB100_175
.LBB100_176:
	movq	%rdi, 32(%rsp)
	movq	%r10, 8(%rsp)
	movq	%r9, 16(%rsp)
	movq	%r8, %r15
	movq	%r11, %rsi
.LBB100_177:
	leaq	4(%r14), %rdx
	movq	%rbx, %rdi
	callq	nla_wire.members.write_each.49064c0641319ce4
	jmp	.LBB100_153
.LBB100_178:
	movq	%rdi, 32(%rsp)
	movq	%r10, 8(%rsp)
	movq	%r9, 16(%rsp)
	movq	%r8, %r15
	movq	%r11, %rsi
.LBB100_179:
	leaq	4(%r14), %rdx
	movq	%rbx, %rdi
	callq	nla_wire.members.write_each.1f0cb788f492ced5
.LBB100_153:
	movq	%rax, %r11
	addq	$4, %rax
	addq	$7, %r11
	andq	$-4, %r11
	movw	%ax, (%r14)
	movq	32(%rsp), %rcx
	movw	%cx, 2(%r14)
	movq	%r11, %rcx
	subq	%rax, %rcx
	cmpq	$3, %rcx
	je	.LBB100_154
.LBB100_144:
	cmpq	$2, %rcx
	movq	%r15, %r8
	movq	16(%rsp), %r9
	movq	8(%rsp), %r10
	jne	.LBB100_138
	jmp	.LBB100_145
.LBB100_180:
	movq	%r14, 48(%rsp)
	addq	$4, %r14
	movq	%r14, %rax
	subq	%rbx, %rax
	cmpl	$96, %r11d
	jae	.LBB100_221
	cmpq	%r11, %rax
	jae	.LBB100_250
	cmpl	$4, %r11d
	jb	.LBB100_184
	movq	24(%rsp), %rax
	addq	%rsi, %rax
	movq	48(%rsp), %rcx
	subq	%rax, %rcx
	cmpq	$32, %rcx
	jae	.LBB100_285
.LBB100_184:
	movq	%rsi, %rdi
	xorl	%eax, %eax
.LBB100_185:
	movq	%r11, %rdx
	movq	%rax, %rcx
	andq	$3, %rdx
	je	.LBB100_188
	movq	%rax, %rcx
.LBB100_187:
	movzbl	(%rbx,%rcx), %esi
	movb	%sil, (%r14,%rcx)
	incq	%rcx
	decq	%rdx
	jne	.LBB100_187
.LBB100_188:
	subl	%r11d, %eax
	cmpl	$-4, %eax
	ja	.LBB100_251
	movq	24(%rsp), %rax
	addq	%rdi, %rax
	addq	$7, %rax
	movq	72(%rsp), %rdx
	addq	%r12, %rdx
.LBB100_190:
	movzbl	-3(%rax,%rcx), %esi
	movb	%sil, -3(%rdx,%rcx)
	movzbl	-2(%rax,%rcx), %esi
	movb	%sil, -2(%rdx,%rcx)
	movzbl	-1(%rax,%rcx), %esi
	movb	%sil, -1(%rdx,%rcx)
	movzbl	(%rax,%rcx), %esi
	movb	%sil, (%rdx,%rcx)
	addq	$4, %rcx
	cmpq	%rcx, %r11
	jne	.LBB100_190
	jmp	.LBB100_251
.LBB100_191:
	movq	%r10, 8(%rsp)
	movq	%r9, 16(%rsp)
	movq	%r8, 40(%rsp)
	movq	%r11, %r13
.LBB100_192:
	movzwl	%di, %ebp
	orl	$32768, %ebp
	leaq	4(%r14), %rdx
	movq	%rbx, %rdi
	movq	%r13, %rsi
	callq	nla_wire.members.write_each.5fa77b269143286c
.LBB100_136:
	movq	%rax, %r11
	addq	$4, %rax
	addq	$7, %r11
	andq	$-4, %r11
	movw	%ax, (%r14)
	movw	%bp, 2(%r14)
	movq	%r11, %rcx
	subq	%rax, %rcx
	cmpq	$3, %rcx
	je	.LBB100_149
.LBB100_137:
	cmpq	$2, %rcx
	movq	40(%rsp), %r8
	movq	16(%rsp), %r9
	movq	8(%rsp), %r10
	je	.LBB100_145
.LBB100_138:
	cmpq	$1, %rcx
	jne	.LBB100_3
	jmp	.LBB100_24
.LBB100_193:
	movq	%rdi, 32(%rsp)
	movq	%r10, 8(%rsp)
	movq	%r9, 16(%rsp)
	movq	%r8, 40(%rsp)
	movq	%r11, %rsi
.LBB100_194:
	leaq	4(%r14), %rdx
	addq	$-4, %r15
	movq	%rbx, %rdi
	movq	%r15, %rcx
	callq	nla_wire.members.write_each.79503c7a397af21a
.LBB100_148:
	movq	%rax, %r11
	addq	$4, %rax
	addq	$7, %r11
	andq	$-4, %r11
	movw	%ax, (%r14)
	movq	32(%rsp), %rcx
	movw	%cx, 2(%r14)
	movq	%r11, %rcx
	subq	%rax, %rcx
	cmpq	$3, %rcx
	jne	.LBB100_137
.LBB100_149:
	movw	$0, (%r14,%rax)
	movb	$0, 2(%r14,%rax)
	movq	40(%rsp), %r8
.LBB100_155:
	movq	16(%rsp), %r9
	movq	8(%rsp), %r10
	jmp	.LBB100_3
.LBB100_195:
	cmpl	$32, %r11d
	jae	.LBB100_227
	movq	%rsi, %r15
	xorl	%eax, %eax
	jmp	.LBB100_231
.LBB100_197:
	movl	(%rbx), %eax
	movl	%eax, (%rdi)
.LBB100_198:
	leaq	(%r14,%r11), %rax
	leaq	(%rbx,%r11), %rcx
	addq	$-4, %rcx
	movq	%rax, %rdx
	subq	%rcx, %rdx
	cmpq	$3, %rdx
	ja	.LBB100_200
	addq	%r11, %rbx
	movzbl	-4(%rbx), %ecx
	movb	%cl, (%rax)
	movzbl	-3(%rbx), %ecx
	movb	%cl, 1(%rax)
	movzbl	-2(%rbx), %ecx
	movb	%cl, 2(%rax)
	movzbl	-1(%rbx), %ecx
	movb	%cl, 3(%rax)
	jmp	.LBB100_262
.LBB100_200:
	movl	(%rcx), %ecx
	movl	%ecx, (%rax)
	jmp	.LBB100_262
.LBB100_201:
	cmpl	$32, %r11d
	jae	.LBB100_238
	movq	%rsi, %r15
	xorl	%eax, %eax
	jmp	.LBB100_242
.LBB100_205:
	testq	%r13, %r13
	je	.LBB100_204
	movq	%rdi, 32(%rsp)
	movq	%rbx, %rdi
	movq	%rsi, 16(%rsp)
	movq	%r13, %rsi
	movq	%r8, %r15
	movq	%rbx, %rbp
	movq	%r14, %rbx
	movq	%r10, %r14
	callq	nla_wire.members.measure_each.1f0cb788f492ced5
	movq	16(%rsp), %rsi
	movq	%r14, %r10
	movq	%rbx, %r14
	movq	%rbp, %rbx
	movq	24(%rsp), %rcx
	leaq	(%rcx,%rsi), %r9
	movq	%r15, %r8
	cmpb	$1, %al
	sete	%al
	cmpq	$65532, %rdx
	setb	%cl
	movq	%r13, %rbp
	testb	%cl, %al
	je	.LBB100_10
.LBB100_207:
	movq	%r12, 64(%rsp)
	movq	%r10, %rbp
	movq	%r9, %r12
	movq	%r8, %r15
	leaq	4(%r14), %rdx
	movq	%rbx, %rdi
	movq	%r13, %rsi
	callq	nla_wire.members.write_each.1f0cb788f492ced5
	movq	%rax, %r11
	addq	$4, %rax
	addq	$7, %r11
	andq	$-4, %r11
	movw	%ax, (%r14)
	movq	32(%rsp), %rcx
	movw	%cx, 2(%r14)
	movq	%r11, %rcx
	subq	%rax, %rcx
	cmpq	$3, %rcx
	je	.LBB100_264
	cmpq	$2, %rcx
	movq	%r15, %r8
	movq	%r12, %r9
	movq	%rbp, %r10
	jne	.LBB100_209
.LBB100_213:
	movw	$0, (%r14,%rax)
	movq	64(%rsp), %r12
	jmp	.LBB100_3
.LBB100_204:
	xorl	%ebp, %ebp
	jmp	.LBB100_10
.LBB100_210:
	movq	%rdi, 32(%rsp)
	movq	%rbx, %rdi
	movq	%rsi, 16(%rsp)
	movq	%r13, %rsi
	movq	%r8, %rbp
	movq	%r10, 8(%rsp)
	callq	nla_wire.members.measure_each.6cf1decf0b22dc4b
	movq	16(%rsp), %rsi
	movq	8(%rsp), %r10
	movq	24(%rsp), %rcx
	leaq	(%rcx,%rsi), %r9
	movq	%rbp, %r8
	cmpb	$1, %al
	sete	%al
	cmpq	$65532, %rdx
	setb	%cl
	movq	%r13, %rbp
	testb	%cl, %al
	je	.LBB100_10
.LBB100_211:
	movq	%r10, 8(%rsp)
	movq	%r12, 64(%rsp)
	movq	%r9, %rbp
	movq	%r8, %r12
	leaq	4(%r14), %rdx
	addq	$-4, %r15
	movq	%rbx, %rdi
	movq	%r13, %rsi
	movq	%r15, %rcx
	callq	nla_wire.members.write_each.6cf1decf0b22dc4b
	movq	%rax, %r11
	addq	$4, %rax
	addq	$7, %r11
	andq	$-4, %r11
	movw	%ax, (%r14)
	movq	32(%rsp), %rcx
	movw	%cx, 2(%r14)
	movq	%r11, %rcx
	subq	%rax, %rcx
	cmpq	$3, %rcx
	je	.LBB100_263
	cmpq	$2, %rcx
	movq	%r12, %r8
	movq	%rbp, %r9
	movq	8(%rsp), %r10
	je	.LBB100_213
.LBB100_209:
	cmpq	$1, %rcx
	movq	64(%rsp), %r12
	jne	.LBB100_3
	jmp	.LBB100_24
.LBB100_214:
	cmpq	$199, %rax
	ja	.LBB100_249
	movq	24(%rsp), %rcx
	addq	%rsi, %rcx
	movq	48(%rsp), %rbp
	movq	%rbp, %rax
	subq	%rcx, %rax
	cmpq	$31, %rax
	ja	.LBB100_265
	movl	$8, %eax
.LBB100_217:
	movzbl	-4(%r9,%rax), %ecx
	movb	%cl, -4(%rbp,%rax)
	movzbl	-3(%r9,%rax), %ecx
	movb	%cl, -3(%rbp,%rax)
	movzbl	-2(%r9,%rax), %ecx
	movb	%cl, -2(%rbp,%rax)
	movzbl	-1(%r9,%rax), %ecx
	movb	%cl, -1(%rbp,%rax)
	movzbl	(%r9,%rax), %ecx
	movb	%cl, (%rbp,%rax)
	addq	$5, %rax
	cmpq	$208, %rax
	jne	.LBB100_217
	jmp	.LBB100_266
.LBB100_221:
	cmpq	$95, %rax
	ja	.LBB100_254
	movq	24(%rsp), %rcx
	addq	%rsi, %rcx
	movq	48(%rsp), %rbp
	movq	%rbp, %rax
	subq	%rcx, %rax
	cmpq	$31, %rax
	ja	.LBB100_281
	movl	$9, %eax
.LBB100_224:
	movzbl	-5(%r9,%rax), %ecx
	movb	%cl, -5(%rbp,%rax)
	movzbl	-4(%r9,%rax), %ecx
	movb	%cl, -4(%rbp,%rax)
	movzbl	-3(%r9,%rax), %ecx
	movb	%cl, -3(%rbp,%rax)
	movzbl	-2(%r9,%rax), %ecx
	movb	%cl, -2(%rbp,%rax)
	movzbl	-1(%r9,%rax), %ecx
	movb	%cl, -1(%rbp,%rax)
	movzbl	(%r9,%rax), %ecx
	movb	%cl, (%rbp,%rax)
	addq	$6, %rax
	cmpq	$105, %rax
	jne	.LBB100_224
	jmp	.LBB100_282
.LBB100_225:
	cmpl	$32, %r11d
	jae	.LBB100_255
	movq	%rsi, %r15
	xorl	%eax, %eax
	jmp	.LBB100_259
.LBB100_227:
	movq	%r11, %rax
	andq	$-32, %rax
	movq	%rsi, %r15
	movq	24(%rsp), %rcx
	addq	%rsi, %rcx
	addq	$20, %rcx
	movq	80(%rsp), %rdx
	addq	%r12, %rdx
	xorl	%esi, %esi
	.p2align	4
.LBB100_228:
	movups	-16(%rcx,%rsi), %xmm0
	movups	(%rcx,%rsi), %xmm1
	movups	%xmm0, -16(%rdx,%rsi)
	movups	%xmm1, (%rdx,%rsi)
	addq	$32, %rsi
	cmpq	%rsi, %rax
	jne	.LBB100_228
	cmpl	%eax, %r11d
	je	.LBB100_111
	testb	$28, %r11b
	je	.LBB100_104
.LBB100_231:
	movq	%rax, %rcx
	movq	%r11, %rax
	andq	$-4, %rax
	.p2align	4
.LBB100_232:
	movl	(%rbx,%rcx), %edx
	movl	%edx, (%rdi,%rcx)
	addq	$4, %rcx
	cmpq	%rcx, %rax
	jne	.LBB100_232
	cmpl	%eax, %r11d
	jne	.LBB100_104
	jmp	.LBB100_111
.LBB100_234:
	movq	(%rbx), %rax
	movq	%rax, (%rdi)
.LBB100_235:
	leaq	-8(%r11), %rax
	addq	%rax, %rdi
	addq	%rax, %rbx
	movq	%rdi, %rax
	subq	%rbx, %rax
	cmpq	$7, %rax
	ja	.LBB100_237
	movzbl	(%rbx), %eax
	movb	%al, (%rdi)
	movzbl	1(%rbx), %eax
	movb	%al, 1(%rdi)
	movzbl	2(%rbx), %eax
	movb	%al, 2(%rdi)
	movzbl	3(%rbx), %eax
	movb	%al, 3(%rdi)
	movzbl	4(%rbx), %eax
	movb	%al, 4(%rdi)
	movzbl	5(%rbx), %eax
	movb	%al, 5(%rdi)
	movzbl	6(%rbx), %eax
	movb	%al, 6(%rdi)
	movzbl	7(%rbx), %eax
	movb	%al, 7(%rdi)
	jmp	.LBB100_262
.LBB100_237:
	movq	(%rbx), %rax
	movq	%rax, (%rdi)
	jmp	.LBB100_262
.LBB100_238:
	movq	%r11, %rax
	andq	$-32, %rax
	movq	%rsi, %r15
	movq	24(%rsp), %rcx
	addq	%rsi, %rcx
	addq	$20, %rcx
	movq	80(%rsp), %rdx
	addq	%r12, %rdx
	xorl	%esi, %esi
	.p2align	4
.LBB100_239:
	movups	-16(%rcx,%rsi), %xmm0
	movups	(%rcx,%rsi), %xmm1
	movups	%xmm0, -16(%rdx,%rsi)
	movups	%xmm1, (%rdx,%rsi)
	addq	$32, %rsi
	cmpq	%rsi, %rax
	jne	.LBB100_239
	cmpl	%eax, %r11d
	je	.LBB100_174
	testb	$28, %r11b
	je	.LBB100_167
.LBB100_242:
	movq	%rax, %rcx
	movq	%r11, %rax
	andq	$-4, %rax
	.p2align	4
.LBB100_243:
	movl	(%rbx,%rcx), %edx
	movl	%edx, (%rdi,%rcx)
	addq	$4, %rcx
	cmpq	%rcx, %rax
	jne	.LBB100_243
	cmpl	%eax, %r11d
	jne	.LBB100_167
	jmp	.LBB100_174
.LBB100_245:
	movq	%r14, %rdi
	movq	%rbx, %rsi
	movq	%r11, %rdx
	movq	%r8, %rbx
	movq	%r9, %r15
	movq	%r10, %r13
	movq	%r11, %rbp
	callq	memmove@PLT
	movq	%rbp, %r11
	movq	%r13, %r10
	movq	%r15, %r9
	movq	%rbx, %r8
.LBB100_246:
	cmpl	$199, %r11d
	je	.LBB100_248
	movl	$199, %edx
	subq	%r11, %rdx
	addq	%r11, %r14
	movq	%r14, %rdi
	xorl	%esi, %esi
	movq	%r8, %rbx
	movq	%r9, %r14
	movq	%r10, %r15
	callq	memset@PLT
	movq	%r15, %r10
	movq	%r14, %r9
	movq	%rbx, %r8
.LBB100_248:
	movq	48(%rsp), %rbp
	movb	$0, 203(%rbp)
	jmp	.LBB100_266
.LBB100_249:
	movl	$200, %edx
	movq	%r14, %rdi
	movq	%rbx, %rsi
	movq	%r8, %rbx
	movq	%r9, %r14
	movq	%r10, %r15
	callq	memmove@PLT
	movq	%r15, %r10
	movq	%r14, %r9
	movq	%rbx, %r8
	movq	48(%rsp), %rbp
	jmp	.LBB100_266
.LBB100_219:
	cmpl	$16, %r11d
	jae	.LBB100_267
	xorl	%eax, %eax
	jmp	.LBB100_271
.LBB100_250:
	movq	%r14, %rdi
	movq	%rbx, %rsi
	movq	%r11, %rdx
	movq	%r8, %rbx
	movq	%r9, %r15
	movq	%r10, %r13
	movq	%r11, %rbp
	callq	memmove@PLT
	movq	%rbp, %r11
	movq	%r13, %r10
	movq	%r15, %r9
	movq	%rbx, %r8
.LBB100_251:
	cmpl	$95, %r11d
	je	.LBB100_253
	movl	$95, %edx
	subq	%r11, %rdx
	addq	%r11, %r14
	movq	%r14, %rdi
	xorl	%esi, %esi
	movq	%r8, %rbx
	movq	%r9, %r14
	movq	%r10, %r15
	callq	memset@PLT
	movq	%r15, %r10
	movq	%r14, %r9
	movq	%rbx, %r8
.LBB100_253:
	movq	48(%rsp), %rbp
	movb	$0, 99(%rbp)
	jmp	.LBB100_282
.LBB100_254:
	movups	(%rbx), %xmm0
	movups	16(%rbx), %xmm1
	movups	32(%rbx), %xmm2
	movups	48(%rbx), %xmm3
	movups	64(%rbx), %xmm4
	movups	80(%rbx), %xmm5
	movups	%xmm5, 80(%r14)
	movups	%xmm4, 64(%r14)
	movups	%xmm3, 48(%r14)
	movups	%xmm2, 32(%r14)
	movups	%xmm1, 16(%r14)
	movups	%xmm0, (%r14)
	movq	48(%rsp), %rbp
	jmp	.LBB100_282
.LBB100_255:
	movq	%r11, %rax
	andq	$-32, %rax
	movq	%rsi, %r15
	movq	24(%rsp), %rcx
	addq	%rsi, %rcx
	addq	$20, %rcx
	movq	80(%rsp), %rdx
	addq	%r12, %rdx
	xorl	%esi, %esi
	.p2align	4
.LBB100_256:
	movups	-16(%rcx,%rsi), %xmm0
	movups	(%rcx,%rsi), %xmm1
	movups	%xmm0, -16(%rdx,%rsi)
	movups	%xmm1, (%rdx,%rsi)
	addq	$32, %rsi
	cmpq	%rsi, %rax
	jne	.LBB100_256
	cmpl	%eax, %r11d
	je	.LBB100_262
	testb	$28, %r11b
	je	.LBB100_43
.LBB100_259:
	movq	%rax, %rcx
	movq	%r11, %rax
	andq	$-4, %rax
	.p2align	4
.LBB100_260:
	movl	(%rbx,%rcx), %edx
	movl	%edx, (%rdi,%rcx)
	addq	$4, %rcx
	cmpq	%rcx, %rax
	jne	.LBB100_260
	cmpl	%eax, %r11d
	jne	.LBB100_43
.LBB100_262:
	movb	$0, 4(%r14,%r11)
	leaq	5(%r11), %rax
	andq	$-4, %r11
	addq	$8, %r11
.LBB100_175:
	movw	%ax, (%r14)
	movq	32(%rsp), %rcx
	movw	%cx, 2(%r14)
	movq	%r11, %rcx
	subq	%rax, %rcx
	cmpq	$3, %rcx
	jne	.LBB100_22
.LBB100_2:
	movw	$0, (%r14,%rax)
	movb	$0, 2(%r14,%rax)
	jmp	.LBB100_3
.LBB100_263:
	movw	$0, (%r14,%rax)
	movb	$0, 2(%r14,%rax)
	movq	%r12, %r8
	movq	%rbp, %r9
	movq	64(%rsp), %r12
	movq	8(%rsp), %r10
	jmp	.LBB100_3
.LBB100_264:
	movw	$0, (%r14,%rax)
	movb	$0, 2(%r14,%rax)
	movq	%r15, %r8
	movq	%r12, %r9
	movq	64(%rsp), %r12
	movq	%rbp, %r10
	jmp	.LBB100_3
.LBB100_265:
	movups	4(%r9), %xmm0
	movups	20(%r9), %xmm1
	movups	%xmm0, 4(%rbp)
	movups	%xmm1, 20(%rbp)
	movups	36(%r9), %xmm0
	movups	52(%r9), %xmm1
	movups	%xmm0, 36(%rbp)
	movups	%xmm1, 52(%rbp)
	movups	68(%r9), %xmm0
	movups	84(%r9), %xmm1
	movups	%xmm0, 68(%rbp)
	movups	%xmm1, 84(%rbp)
	movups	100(%r9), %xmm0
	movups	116(%r9), %xmm1
	movups	%xmm0, 100(%rbp)
	movups	%xmm1, 116(%rbp)
	movups	132(%r9), %xmm0
	movups	148(%r9), %xmm1
	movups	%xmm0, 132(%rbp)
	movups	%xmm1, 148(%rbp)
	movups	164(%r9), %xmm0
	movups	180(%r9), %xmm1
	movups	%xmm0, 164(%rbp)
	movups	%xmm1, 180(%rbp)
	movq	196(%r9), %rax
	movq	%rax, 196(%rbp)
.LBB100_266:
	movl	$1507532, (%rbp)
	movl	$204, %r11d
	jmp	.LBB100_3
.LBB100_267:
	movl	%r15d, %eax
	andl	$48, %eax
	movups	(%rbx), %xmm0
	movups	%xmm0, (%rdi)
	cmpq	$16, %rax
	je	.LBB100_269
	movups	20(%r9), %xmm0
	movups	%xmm0, 20(%r14)
.LBB100_269:
	cmpl	%eax, %r15d
	je	.LBB100_280
	testb	$12, %r15b
	je	.LBB100_274
.LBB100_271:
	movq	%rax, %rcx
	movl	%r15d, %eax
	andl	$60, %eax
	.p2align	4
.LBB100_272:
	movl	(%rbx,%rcx), %edx
	movl	%edx, (%rdi,%rcx)
	addq	$4, %rcx
	cmpq	%rcx, %rax
	jne	.LBB100_272
	cmpl	%eax, %r15d
	je	.LBB100_280
	jmp	.LBB100_274
.LBB100_281:
	movups	4(%r9), %xmm0
	movups	20(%r9), %xmm1
	movups	%xmm0, 4(%rbp)
	movups	%xmm1, 20(%rbp)
	movups	36(%r9), %xmm0
	movups	52(%r9), %xmm1
	movups	%xmm0, 36(%rbp)
	movups	%xmm1, 52(%rbp)
	movups	68(%r9), %xmm0
	movups	84(%r9), %xmm1
	movups	%xmm0, 68(%rbp)
	movups	%xmm1, 84(%rbp)
.LBB100_282:
	movl	$458852, (%rbp)
	movl	$100, %r11d
	jmp	.LBB100_3
.LBB100_283:
	cmpl	$32, %r11d
	jae	.LBB100_287
	movq	%rsi, %rdi
	xorl	%eax, %eax
	jmp	.LBB100_291
.LBB100_285:
	cmpl	$32, %r11d
	jae	.LBB100_294
	movq	%rsi, %rdi
	xorl	%eax, %eax
	jmp	.LBB100_298
.LBB100_287:
	movl	%r11d, %eax
	andl	$224, %eax
	movq	%rsi, %rdi
	movq	24(%rsp), %rcx
	addq	%rsi, %rcx
	addq	$20, %rcx
	movq	80(%rsp), %rdx
	addq	%r12, %rdx
	xorl	%esi, %esi
.LBB100_288:
	movups	-16(%rcx,%rsi), %xmm0
	movups	(%rcx,%rsi), %xmm1
	movups	%xmm0, -16(%rdx,%rsi)
	movups	%xmm1, (%rdx,%rsi)
	addq	$32, %rsi
	cmpq	%rsi, %rax
	jne	.LBB100_288
	cmpl	%eax, %r11d
	je	.LBB100_246
	testb	$28, %r11b
	je	.LBB100_128
.LBB100_291:
	movq	%rax, %rcx
	movl	%r11d, %eax
	andl	$252, %eax
.LBB100_292:
	movl	(%rbx,%rcx), %edx
	movl	%edx, (%r14,%rcx)
	addq	$4, %rcx
	cmpq	%rcx, %rax
	jne	.LBB100_292
	cmpl	%eax, %r11d
	jne	.LBB100_128
	jmp	.LBB100_246
.LBB100_294:
	movl	%r11d, %eax
	andl	$96, %eax
	movq	%rsi, %rdi
	movq	24(%rsp), %rcx
	addq	%rsi, %rcx
	addq	$20, %rcx
	movq	80(%rsp), %rdx
	addq	%r12, %rdx
	xorl	%esi, %esi
.LBB100_295:
	movups	-16(%rcx,%rsi), %xmm0
	movups	(%rcx,%rsi), %xmm1
	movups	%xmm0, -16(%rdx,%rsi)
	movups	%xmm1, (%rdx,%rsi)
	addq	$32, %rsi
	cmpq	%rsi, %rax
	jne	.LBB100_295
	cmpl	%eax, %r11d
	je	.LBB100_251
	testb	$28, %r11b
	je	.LBB100_185
.LBB100_298:
	movq	%rax, %rcx
	movl	%r11d, %eax
	andl	$124, %eax
.LBB100_299:
	movl	(%rbx,%rcx), %edx
	movl	%edx, (%r14,%rcx)
	addq	$4, %rcx
	cmpq	%rcx, %rax
	jne	.LBB100_299
	cmpl	%eax, %r11d
	jne	.LBB100_185
	jmp	.LBB100_251
.LBB100_301:
	addq	$104, %rsp
	.cfi_def_cfa_offset 56
	popq	%rbx
	.cfi_def_cfa_offset 48
	popq	%r12
	.cfi_def_cfa_offset 40
	popq	%r13
	.cfi_def_cfa_offset 32
	popq	%r14
	.cfi_def_cfa_offset 24
	popq	%r15
	.cfi_def_cfa_offset 16
	popq	%rbp
	.cfi_def_cfa_offset 8
	retq
.Lfunc_end100:
	.size	nla_wire.members.write_each.73a2e5797a03d2f8, .Lfunc_end100-nla_wire.members.write_each.73a2e5797a03d2f8
	.cfi_endproc
	.section	.rodata.nla_wire.members.write_each.73a2e5797a03d2f8,"a",@progbits
	.p2align	2, 0x0
.LJTI100_0:
	.long	.LBB100_25-.LJTI100_0
	.long	.LBB100_9-.LJTI100_0
	.long	.LBB100_9-.LJTI100_0
	.long	.LBB100_25-.LJTI100_0
	.long	.LBB100_26-.LJTI100_0
	.long	.LBB100_26-.LJTI100_0
	.long	.LBB100_26-.LJTI100_0
	.long	.LBB100_9-.LJTI100_0
	.long	.LBB100_66-.LJTI100_0
	.long	.LBB100_70-.LJTI100_0
	.long	.LBB100_9-.LJTI100_0
	.long	.LBB100_64-.LJTI100_0
	.long	.LBB100_26-.LJTI100_0
	.long	.LBB100_27-.LJTI100_0
	.long	.LBB100_27-.LJTI100_0
	.long	.LBB100_89-.LJTI100_0
	.long	.LBB100_9-.LJTI100_0
	.long	.LBB100_25-.LJTI100_0
	.long	.LBB100_9-.LJTI100_0
	.long	.LBB100_68-.LJTI100_0
	.long	.LBB100_26-.LJTI100_0
	.long	.LBB100_73-.LJTI100_0
	.long	.LBB100_79-.LJTI100_0
	.long	.LBB100_87-.LJTI100_0
	.long	.LBB100_9-.LJTI100_0
	.long	.LBB100_9-.LJTI100_0
	.long	.LBB100_9-.LJTI100_0
	.long	.LBB100_9-.LJTI100_0
	.long	.LBB100_9-.LJTI100_0
	.long	.LBB100_9-.LJTI100_0
	.long	.LBB100_27-.LJTI100_0
	.long	.LBB100_26-.LJTI100_0
	.long	.LBB100_9-.LJTI100_0
	.long	.LBB100_26-.LJTI100_0
	.long	.LBB100_9-.LJTI100_0
	.long	.LBB100_25-.LJTI100_0
	.long	.LBB100_27-.LJTI100_0
	.long	.LBB100_9-.LJTI100_0
	.long	.LBB100_9-.LJTI100_0
	.long	.LBB100_26-.LJTI100_0
	.long	.LBB100_76-.LJTI100_0
	.long	.LBB100_9-.LJTI100_0
	.long	.LBB100_9-.LJTI100_0
	.long	.LBB100_9-.LJTI100_0
	.long	.LBB100_9-.LJTI100_0
	.long	.LBB100_9-.LJTI100_0
	.long	.LBB100_9-.LJTI100_0
	.long	.LBB100_9-.LJTI100_0
	.long	.LBB100_9-.LJTI100_0
	.long	.LBB100_62-.LJTI100_0
	.long	.LBB100_26-.LJTI100_0
	.long	.LBB100_26-.LJTI100_0
	.long	.LBB100_57-.LJTI100_0
	.long	.LBB100_25-.LJTI100_0
	.long	.LBB100_25-.LJTI100_0
	.long	.LBB100_9-.LJTI100_0
	.long	.LBB100_9-.LJTI100_0
	.long	.LBB100_9-.LJTI100_0
	.long	.LBB100_9-.LJTI100_0
	.long	.LBB100_92-.LJTI100_0
	.long	.LBB100_9-.LJTI100_0
	.long	.LBB100_9-.LJTI100_0
	.long	.LBB100_85-.LJTI100_0
	.long	.LBB100_26-.LJTI100_0
	.long	.LBB100_59-.LJTI100_0
	.long	.LBB100_82-.LJTI100_0
	.long	.LBB100_82-.LJTI100_0
.LJTI100_1:
	.long	.LBB100_210-.LJTI100_1
	.long	.LBB100_88-.LJTI100_1
	.long	.LBB100_205-.LJTI100_1
	.long	.LBB100_88-.LJTI100_1
	.long	.LBB100_88-.LJTI100_1
	.long	.LBB100_88-.LJTI100_1
.LJTI100_2:
	.long	.LBB100_162-.LJTI100_2
	.long	.LBB100_162-.LJTI100_2
	.long	.LBB100_36-.LJTI100_2
	.long	.LBB100_30-.LJTI100_2
	.long	.LBB100_30-.LJTI100_2
	.long	.LBB100_36-.LJTI100_2
	.long	.LBB100_180-.LJTI100_2
	.long	.LBB100_100-.LJTI100_2
	.long	.LBB100_100-.LJTI100_2
	.long	.LBB100_30-.LJTI100_2
	.long	.LBB100_139-.LJTI100_2
	.long	.LBB100_141-.LJTI100_2
	.long	.LBB100_30-.LJTI100_2
	.long	.LBB100_65-.LJTI100_2
	.long	.LBB100_100-.LJTI100_2
	.long	.LBB100_56-.LJTI100_2
	.long	.LBB100_56-.LJTI100_2
	.long	.LBB100_176-.LJTI100_2
	.long	.LBB100_30-.LJTI100_2
	.long	.LBB100_36-.LJTI100_2
	.long	.LBB100_30-.LJTI100_2
	.long	.LBB100_146-.LJTI100_2
	.long	.LBB100_123-.LJTI100_2
	.long	.LBB100_193-.LJTI100_2
	.long	.LBB100_178-.LJTI100_2
	.long	.LBB100_160-.LJTI100_2
	.long	.LBB100_30-.LJTI100_2
	.long	.LBB100_30-.LJTI100_2
	.long	.LBB100_30-.LJTI100_2
	.long	.LBB100_30-.LJTI100_2
	.long	.LBB100_30-.LJTI100_2
	.long	.LBB100_30-.LJTI100_2
	.long	.LBB100_56-.LJTI100_2
	.long	.LBB100_96-.LJTI100_2
	.long	.LBB100_30-.LJTI100_2
	.long	.LBB100_96-.LJTI100_2
	.long	.LBB100_30-.LJTI100_2
	.long	.LBB100_36-.LJTI100_2
	.long	.LBB100_56-.LJTI100_2
	.long	.LBB100_30-.LJTI100_2
	.long	.LBB100_30-.LJTI100_2
	.long	.LBB100_100-.LJTI100_2
	.long	.LBB100_151-.LJTI100_2
	.long	.LBB100_30-.LJTI100_2
	.long	.LBB100_30-.LJTI100_2
	.long	.LBB100_30-.LJTI100_2
	.long	.LBB100_30-.LJTI100_2
	.long	.LBB100_30-.LJTI100_2
	.long	.LBB100_30-.LJTI100_2
	.long	.LBB100_30-.LJTI100_2
	.long	.LBB100_30-.LJTI100_2
	.long	.LBB100_134-.LJTI100_2
	.long	.LBB100_100-.LJTI100_2
	.long	.LBB100_162-.LJTI100_2
	.long	.LBB100_158-.LJTI100_2
	.long	.LBB100_36-.LJTI100_2
	.long	.LBB100_36-.LJTI100_2
	.long	.LBB100_30-.LJTI100_2
	.long	.LBB100_30-.LJTI100_2
	.long	.LBB100_30-.LJTI100_2
	.long	.LBB100_30-.LJTI100_2
	.long	.LBB100_156-.LJTI100_2
	.long	.LBB100_30-.LJTI100_2
	.long	.LBB100_30-.LJTI100_2
	.long	.LBB100_191-.LJTI100_2
	.long	.LBB100_100-.LJTI100_2
	.long	.LBB100_60-.LJTI100_2
	.long	.LBB100_99-.LJTI100_2
	.long	.LBB100_99-.LJTI100_2
.LJTI100_3:
	.long	.LBB100_211-.LJTI100_3
	.long	.LBB100_163-.LJTI100_3
	.long	.LBB100_207-.LJTI100_3
	.long	.LBB100_163-.LJTI100_3
	.long	.LBB100_163-.LJTI100_3
	.long	.LBB100_163-.LJTI100_3

	.section	.rodata.cst16,"aM",@progbits,16
	.p2align	4, 0x0
.LCPI101_0:
	.long	48
	.long	48
	.long	48
	.long	48
.LCPI101_1:
	.byte	108
	.byte	105
	.byte	110
	.byte	107
	.byte	115
	.byte	116
	.byte	97
	.byte	116
	.byte	101
	.byte	58
	.byte	32
	.byte	110
	.byte	111
	.byte	116
	.byte	32
	.byte	117
	.section	.text.line_filter.program.refuse,"ax",@progbits
	.p2align	4
	.type	line_filter.program.refuse,@function
line_filter.program.refuse:
	.cfi_startproc
	pushq	%r15
	.cfi_def_cfa_offset 16
	pushq	%r14
	.cfi_def_cfa_offset 24
	pushq	%r13
	.cfi_def_cfa_offset 32
	pushq	%r12
	.cfi_def_cfa_offset 40
	pushq	%rbx
	.cfi_def_cfa_offset 48
	subq	$2544, %rsp
	.cfi_def_cfa_offset 2592
	.cfi_offset %rbx, -48
	.cfi_offset %r12, -40
	.cfi_offset %r13, -32
	.cfi_offset %r14, -24
	.cfi_offset %r15, -16
	movq	%rsi, %r14
	movq	%rdi, %r15
	movq	%rdi, 152(%rsp)
	movq	%rsi, 160(%rsp)
	leaq	168(%rsp), %r12
	movaps	.LCPI101_0(%rip), %xmm0
	movups	%xmm0, 168(%rsp)
	movups	%xmm0, 184(%rsp)
	movabsq	$206158430256, %rax
	movq	%rax, 200(%rsp)
	xorps	%xmm0, %xmm0
	movups	%xmm0, 208(%rsp)
	movw	$257, 224(%rsp)
	movl	$0, 226(%rsp)
	movw	$0, 230(%rsp)
	movl	$2, 232(%rsp)
	leaq	236(%rsp), %rbx
	leaq	260(%rsp), %rdi
	movl	$1108, %edx
	xorl	%esi, %esi
	callq	memset@PLT
	movl	$32, 1368(%rsp)
	movq	$0, 1372(%rsp)
	movl	$0, 1380(%rsp)
	movq	$-1, 1384(%rsp)
	xorps	%xmm0, %xmm0
	movups	%xmm0, 1392(%rsp)
	movl	1368(%rsp), %eax
	movl	%eax, 64(%rsp)
	movq	1372(%rsp), %rax
	movq	%rax, 68(%rsp)
	movl	1380(%rsp), %eax
	movl	%eax, 76(%rsp)
	movq	$-1, 80(%rsp)
	movaps	.LCPI101_1(%rip), %xmm0
	movups	%xmm0, 236(%rsp)
	movabsq	$8029764699814192238, %rax
	movq	%rax, 252(%rsp)
	movw	$14948, 260(%rsp)
	movb	$32, 262(%rsp)
	movq	$27, 1264(%rsp)
	movl	$32, 1368(%rsp)
	movq	$0, 1372(%rsp)
	movl	$0, 1380(%rsp)
	leaq	232(%rsp), %rsi
	movq	%r12, %rdi
	callq	core.char.escape.EscapeDisplay.fmt.bf264aed5fa78656
	testb	%al, %al
	je	.LBB101_1
.LBB101_20:
	movq	80(%rsp), %rax
	movq	%rax, 1148(%rbx)
	movaps	64(%rsp), %xmm0
.LBB101_80:
	movups	%xmm0, 1132(%rbx)
.LBB101_81:
	movl	232(%rsp), %eax
	movl	%eax, 1408(%rsp)
	leaq	1412(%rsp), %rdi
	movl	$1132, %edx
	movq	%rbx, %rsi
	callq	memcpy@PLT
	leaq	1408(%rsp), %rdi
	callq	std_io.io.buffer.Buffer.flush
	addq	$2544, %rsp
	.cfi_def_cfa_offset 48
	popq	%rbx
	.cfi_def_cfa_offset 40
	popq	%r12
	.cfi_def_cfa_offset 32
	popq	%r13
	.cfi_def_cfa_offset 24
	popq	%r14
	.cfi_def_cfa_offset 16
	popq	%r15
	.cfi_def_cfa_offset 8
	retq
.LBB101_1:
	.cfi_def_cfa_offset 2592
	leaq	1372(%rsp), %r12
	movb	$1, %cl
	.p2align	4
.LBB101_2:
	testq	%r14, %r14
	je	.LBB101_21
	movzbl	(%r15), %esi
	movl	$1, %r13d
	testb	%sil, %sil
	jns	.LBB101_9
	movzbl	1(%r15), %eax
	andl	$63, %eax
	cmpb	$-33, %sil
	ja	.LBB101_6
	andl	$31, %esi
	shll	$6, %esi
	orl	%eax, %esi
	movl	$2, %r13d
	jmp	.LBB101_9
.LBB101_6:
	movzbl	2(%r15), %edx
	andl	$63, %edx
	cmpb	$-17, %sil
	ja	.LBB101_8
	shll	$12, %esi
	movzwl	%si, %esi
	shll	$6, %eax
	orl	%esi, %eax
	orl	%edx, %eax
	movl	$3, %r13d
	movl	%eax, %esi
	jmp	.LBB101_9
.LBB101_8:
	movzbl	3(%r15), %edi
	andl	$63, %edi
	andl	$7, %esi
	shll	$18, %esi
	shll	$12, %eax
	orl	%esi, %eax
	shll	$6, %edx
	orl	%eax, %edx
	orl	%edi, %edx
	movl	$4, %r13d
	movl	%edx, %esi
	.p2align	4
.LBB101_9:
	xorps	%xmm0, %xmm0
	movaps	%xmm0, 1440(%rsp)
	movaps	%xmm0, 1424(%rsp)
	movaps	%xmm0, 1408(%rsp)
	movq	$0, 1456(%rsp)
	testb	$1, %cl
	jne	.LBB101_18
	cmpl	$128, %esi
	jb	.LBB101_18
	movl	$774, %ecx
	xorl	%eax, %eax
	jmp	.LBB101_12
	.p2align	4
.LBB101_14:
	addq	%rdx, %rax
	incq	%rax
	cmpq	%rcx, %rax
	jae	.LBB101_16
.LBB101_12:
	movq	%rcx, %rdx
	subq	%rax, %rdx
	shrq	%rdx
	leaq	(%rdx,%rax), %rdi
	leaq	(%rdi,%rdi,2), %r8
	leaq	.Lstatic.157(%rip), %r9
	movzbl	(%r9,%r8), %r10d
	shll	$16, %r10d
	movzbl	1(%r9,%r8), %r11d
	shll	$8, %r11d
	orl	%r10d, %r11d
	movzbl	2(%r9,%r8), %r8d
	orl	%r11d, %r8d
	cmpl	%esi, %r8d
	jbe	.LBB101_14
	movq	%rdi, %rcx
	cmpq	%rcx, %rax
	jb	.LBB101_12
.LBB101_16:
	testb	$1, %al
	jne	.LBB101_17
	.p2align	4
.LBB101_18:
	leaq	1408(%rsp), %rdi
	callq	core.char.escape.escape_debug
	movq	1456(%rsp), %rax
	movq	%rax, 48(%rsp)
	movaps	1408(%rsp), %xmm0
	movaps	1424(%rsp), %xmm1
	movaps	1440(%rsp), %xmm2
	movaps	%xmm2, 32(%rsp)
	movaps	%xmm1, 16(%rsp)
	movaps	%xmm0, (%rsp)
.LBB101_19:
	addq	%r13, %r15
	subq	%r13, %r14
	movaps	(%rsp), %xmm0
	movaps	16(%rsp), %xmm1
	movl	32(%rsp), %eax
	movl	36(%rsp), %ecx
	movq	40(%rsp), %rdx
	movaps	%xmm0, 96(%rsp)
	movaps	%xmm1, 112(%rsp)
	movl	%eax, 128(%rsp)
	movl	%ecx, 132(%rsp)
	movq	%rdx, 136(%rsp)
	movq	48(%rsp), %rax
	movq	%rax, 144(%rsp)
	leaq	96(%rsp), %rdi
	leaq	232(%rsp), %rsi
	callq	core.char.escape.EscapeDisplay.fmt.bf264aed5fa78656
	xorl	%ecx, %ecx
	testb	%al, %al
	je	.LBB101_2
	jmp	.LBB101_20
.LBB101_17:
	movd	%esi, %xmm0
	pshufd	$0, %xmm0, %xmm0
	movdqa	%xmm0, 1408(%rsp)
	movdqa	%xmm0, 1424(%rsp)
	movl	%esi, 1440(%rsp)
	movl	%esi, 1444(%rsp)
	movq	$1, 1456(%rsp)
	movl	1440(%rsp), %eax
	movl	%eax, 32(%rsp)
	movl	1444(%rsp), %eax
	movl	%eax, 36(%rsp)
	movq	1448(%rsp), %rax
	movq	%rax, 40(%rsp)
	movaps	1408(%rsp), %xmm0
	movaps	%xmm0, (%rsp)
	movaps	1424(%rsp), %xmm0
	movaps	%xmm0, 16(%rsp)
	movq	$1, 48(%rsp)
	jmp	.LBB101_19
.LBB101_21:
	movl	$32, 1368(%rsp)
	movl	$0, 8(%r12)
	movq	$0, (%r12)
	movq	$-1, 1384(%rsp)
	cmpq	$0, 1392(%rsp)
	jne	.LBB101_35
	movq	1264(%rsp), %rdx
	cmpq	$1024, %rdx
	jb	.LBB101_24
	leaq	232(%rsp), %rdi
	callq	std_io.io.buffer.Buffer.flush
	movq	1264(%rsp), %rdx
	cmpq	$1024, %rdx
	setb	%cl
	andb	%al, %cl
	cmpb	$1, %cl
	jne	.LBB101_20
.LBB101_24:
	movb	$59, 236(%rsp,%rdx)
	leaq	1(%rdx), %rcx
	movq	%rcx, 1264(%rsp)
	cmpq	$1023, %rdx
	jb	.LBB101_26
	leaq	232(%rsp), %rdi
	callq	std_io.io.buffer.Buffer.flush
	movq	1264(%rsp), %rcx
	cmpq	$1024, %rcx
	setb	%dl
	andb	%al, %dl
	cmpb	$1, %dl
	jne	.LBB101_20
.LBB101_26:
	movb	$32, 236(%rsp,%rcx)
	leaq	1(%rcx), %rdx
	movq	%rdx, 1264(%rsp)
	cmpq	$1023, %rcx
	jb	.LBB101_28
	leaq	232(%rsp), %rdi
	callq	std_io.io.buffer.Buffer.flush
	movq	1264(%rsp), %rdx
	cmpq	$1024, %rdx
	setb	%cl
	andb	%al, %cl
	cmpb	$1, %cl
	jne	.LBB101_20
.LBB101_28:
	movb	$115, 236(%rsp,%rdx)
	leaq	1(%rdx), %rcx
	movq	%rcx, 1264(%rsp)
	cmpq	$1023, %rdx
	jb	.LBB101_30
	leaq	232(%rsp), %rdi
	callq	std_io.io.buffer.Buffer.flush
	movq	1264(%rsp), %rcx
	cmpq	$1024, %rcx
	setb	%dl
	andb	%al, %dl
	cmpb	$1, %dl
	jne	.LBB101_20
.LBB101_30:
	movb	$101, 236(%rsp,%rcx)
	leaq	1(%rcx), %rdx
	movq	%rdx, 1264(%rsp)
	cmpq	$1023, %rcx
	jb	.LBB101_32
	leaq	232(%rsp), %rdi
	callq	std_io.io.buffer.Buffer.flush
	movq	1264(%rsp), %rdx
	cmpq	$1024, %rdx
	setb	%cl
	andb	%al, %cl
	cmpb	$1, %cl
	jne	.LBB101_20
.LBB101_32:
	movb	$101, 236(%rsp,%rdx)
	leaq	1(%rdx), %rcx
	movq	%rcx, 1264(%rsp)
	cmpq	$1023, %rdx
	jb	.LBB101_34
	leaq	232(%rsp), %rdi
	callq	std_io.io.buffer.Buffer.flush
	movq	1264(%rsp), %rcx
	cmpq	$1024, %rcx
	setb	%dl
	andb	%al, %dl
	cmpb	$1, %dl
	jne	.LBB101_20
.LBB101_34:
	movb	$32, 236(%rsp,%rcx)
	incq	%rcx
	movq	%rcx, 1264(%rsp)
.LBB101_36:
	movl	$32, 1368(%rsp)
	cmpq	$0, 1392(%rsp)
	movl	$0, 8(%r12)
	movq	$0, (%r12)
	movq	$-1, 1384(%rsp)
	jne	.LBB101_56
	movq	1264(%rsp), %rdx
	cmpq	$1024, %rdx
	jb	.LBB101_39
	leaq	232(%rsp), %rdi
	callq	std_io.io.buffer.Buffer.flush
	movq	1264(%rsp), %rdx
	cmpq	$1024, %rdx
	setb	%cl
	andb	%al, %cl
	cmpb	$1, %cl
	jne	.LBB101_20
.LBB101_39:
	movb	$108, 236(%rsp,%rdx)
	leaq	1(%rdx), %rcx
	movq	%rcx, 1264(%rsp)
	cmpq	$1023, %rdx
	jb	.LBB101_41
	leaq	232(%rsp), %rdi
	callq	std_io.io.buffer.Buffer.flush
	movq	1264(%rsp), %rcx
	cmpq	$1024, %rcx
	setb	%dl
	andb	%al, %dl
	cmpb	$1, %dl
	jne	.LBB101_20
.LBB101_41:
	movb	$105, 236(%rsp,%rcx)
	leaq	1(%rcx), %rdx
	movq	%rdx, 1264(%rsp)
	cmpq	$1023, %rcx
	jb	.LBB101_43
	leaq	232(%rsp), %rdi
	callq	std_io.io.buffer.Buffer.flush
	movq	1264(%rsp), %rdx
	cmpq	$1024, %rdx
	setb	%cl
	andb	%al, %cl
	cmpb	$1, %cl
	jne	.LBB101_20
.LBB101_43:
	movb	$110, 236(%rsp,%rdx)
	leaq	1(%rdx), %rcx
	movq	%rcx, 1264(%rsp)
	cmpq	$1023, %rdx
	jb	.LBB101_45
	leaq	232(%rsp), %rdi
	callq	std_io.io.buffer.Buffer.flush
	movq	1264(%rsp), %rcx
	cmpq	$1024, %rcx
	setb	%dl
	andb	%al, %dl
	cmpb	$1, %dl
	jne	.LBB101_20
.LBB101_45:
	movb	$107, 236(%rsp,%rcx)
	leaq	1(%rcx), %rdx
	movq	%rdx, 1264(%rsp)
	cmpq	$1023, %rcx
	jb	.LBB101_47
	leaq	232(%rsp), %rdi
	callq	std_io.io.buffer.Buffer.flush
	movq	1264(%rsp), %rdx
	cmpq	$1024, %rdx
	setb	%cl
	andb	%al, %cl
	cmpb	$1, %cl
	jne	.LBB101_20
.LBB101_47:
	movb	$115, 236(%rsp,%rdx)
	leaq	1(%rdx), %rcx
	movq	%rcx, 1264(%rsp)
	cmpq	$1023, %rdx
	jb	.LBB101_49
	leaq	232(%rsp), %rdi
	callq	std_io.io.buffer.Buffer.flush
	movq	1264(%rsp), %rcx
	cmpq	$1024, %rcx
	setb	%dl
	andb	%al, %dl
	cmpb	$1, %dl
	jne	.LBB101_20
.LBB101_49:
	movb	$116, 236(%rsp,%rcx)
	leaq	1(%rcx), %rdx
	movq	%rdx, 1264(%rsp)
	cmpq	$1023, %rcx
	jb	.LBB101_51
	leaq	232(%rsp), %rdi
	callq	std_io.io.buffer.Buffer.flush
	movq	1264(%rsp), %rdx
	cmpq	$1024, %rdx
	setb	%cl
	andb	%al, %cl
	cmpb	$1, %cl
	jne	.LBB101_20
.LBB101_51:
	movb	$97, 236(%rsp,%rdx)
	leaq	1(%rdx), %rcx
	movq	%rcx, 1264(%rsp)
	cmpq	$1023, %rdx
	jb	.LBB101_53
	leaq	232(%rsp), %rdi
	callq	std_io.io.buffer.Buffer.flush
	movq	1264(%rsp), %rcx
	cmpq	$1024, %rcx
	setb	%dl
	andb	%al, %dl
	cmpb	$1, %dl
	jne	.LBB101_20
.LBB101_53:
	movb	$116, 236(%rsp,%rcx)
	leaq	1(%rcx), %rdx
	movq	%rdx, 1264(%rsp)
	cmpq	$1023, %rcx
	jb	.LBB101_55
	leaq	232(%rsp), %rdi
	callq	std_io.io.buffer.Buffer.flush
	movq	1264(%rsp), %rdx
	cmpq	$1024, %rdx
	setb	%cl
	andb	%al, %cl
	cmpb	$1, %cl
	jne	.LBB101_20
.LBB101_55:
	movb	$101, 236(%rsp,%rdx)
	incq	%rdx
	movq	%rdx, 1264(%rsp)
	jmp	.LBB101_57
.LBB101_35:
	leaq	.Lstatic.6(%rip), %rsi
	leaq	232(%rsp), %rdi
	movl	$6, %edx
	callq	core.fmt.formatter.Formatter.write_indented.bf264aed5fa78656
	testb	%al, %al
	jne	.LBB101_20
	jmp	.LBB101_36
.LBB101_56:
	leaq	.Lstatic.0(%rip), %rsi
	leaq	232(%rsp), %rdi
	movl	$9, %edx
	callq	core.fmt.formatter.Formatter.write_indented.bf264aed5fa78656
	testb	%al, %al
	jne	.LBB101_20
.LBB101_57:
	movl	$32, 1368(%rsp)
	movl	$0, 8(%r12)
	movq	$0, (%r12)
	movq	$-1, 1384(%rsp)
	cmpq	$0, 1392(%rsp)
	jne	.LBB101_73
	movq	1264(%rsp), %rdx
	cmpq	$1024, %rdx
	jb	.LBB101_60
	leaq	232(%rsp), %rdi
	callq	std_io.io.buffer.Buffer.flush
	movq	1264(%rsp), %rdx
	cmpq	$1024, %rdx
	setb	%cl
	andb	%al, %cl
	cmpb	$1, %cl
	jne	.LBB101_20
.LBB101_60:
	movb	$32, 236(%rsp,%rdx)
	leaq	1(%rdx), %rcx
	movq	%rcx, 1264(%rsp)
	cmpq	$1023, %rdx
	jb	.LBB101_62
	leaq	232(%rsp), %rdi
	callq	std_io.io.buffer.Buffer.flush
	movq	1264(%rsp), %rcx
	cmpq	$1024, %rcx
	setb	%dl
	andb	%al, %dl
	cmpb	$1, %dl
	jne	.LBB101_20
.LBB101_62:
	movb	$45, 236(%rsp,%rcx)
	leaq	1(%rcx), %rdx
	movq	%rdx, 1264(%rsp)
	cmpq	$1023, %rcx
	jb	.LBB101_64
	leaq	232(%rsp), %rdi
	callq	std_io.io.buffer.Buffer.flush
	movq	1264(%rsp), %rdx
	cmpq	$1024, %rdx
	setb	%cl
	andb	%al, %cl
	cmpb	$1, %cl
	jne	.LBB101_20
.LBB101_64:
	movb	$45, 236(%rsp,%rdx)
	leaq	1(%rdx), %rcx
	movq	%rcx, 1264(%rsp)
	cmpq	$1023, %rdx
	jb	.LBB101_66
	leaq	232(%rsp), %rdi
	callq	std_io.io.buffer.Buffer.flush
	movq	1264(%rsp), %rcx
	cmpq	$1024, %rcx
	setb	%dl
	andb	%al, %dl
	cmpb	$1, %dl
	jne	.LBB101_20
.LBB101_66:
	movb	$104, 236(%rsp,%rcx)
	leaq	1(%rcx), %rdx
	movq	%rdx, 1264(%rsp)
	cmpq	$1023, %rcx
	jb	.LBB101_68
	leaq	232(%rsp), %rdi
	callq	std_io.io.buffer.Buffer.flush
	movq	1264(%rsp), %rdx
	cmpq	$1024, %rdx
	setb	%cl
	andb	%al, %cl
	cmpb	$1, %cl
	jne	.LBB101_20
.LBB101_68:
	movb	$101, 236(%rsp,%rdx)
	leaq	1(%rdx), %rcx
	movq	%rcx, 1264(%rsp)
	cmpq	$1023, %rdx
	jb	.LBB101_70
	leaq	232(%rsp), %rdi
	callq	std_io.io.buffer.Buffer.flush
	movq	1264(%rsp), %rcx
	cmpq	$1024, %rcx
	setb	%dl
	andb	%al, %dl
	cmpb	$1, %dl
	jne	.LBB101_20
.LBB101_70:
	movb	$108, 236(%rsp,%rcx)
	leaq	1(%rcx), %rdx
	movq	%rdx, 1264(%rsp)
	cmpq	$1023, %rcx
	jb	.LBB101_72
	leaq	232(%rsp), %rdi
	callq	std_io.io.buffer.Buffer.flush
	movq	1264(%rsp), %rdx
	cmpq	$1024, %rdx
	setb	%cl
	andb	%al, %cl
	cmpb	$1, %cl
	jne	.LBB101_20
.LBB101_72:
	movb	$112, 236(%rsp,%rdx)
	incq	%rdx
	movq	%rdx, 1264(%rsp)
	movq	80(%rsp), %rax
	movq	%rax, 1148(%rbx)
	movaps	64(%rsp), %xmm0
	movups	%xmm0, 1132(%rbx)
.LBB101_74:
	movq	1148(%rbx), %rax
	movq	%rax, 1424(%rsp)
	movups	1132(%rbx), %xmm0
	movaps	%xmm0, 1408(%rsp)
	movl	$32, 1368(%rsp)
	movl	$0, 8(%r12)
	movq	$0, (%r12)
	movq	$-1, 1384(%rsp)
	cmpq	$0, 1392(%rsp)
	jne	.LBB101_78
	movq	1264(%rsp), %rcx
	cmpq	$1024, %rcx
	jb	.LBB101_77
	leaq	232(%rsp), %rdi
	callq	std_io.io.buffer.Buffer.flush
	movq	1264(%rsp), %rcx
	cmpq	$1024, %rcx
	setb	%dl
	andb	%al, %dl
	cmpb	$1, %dl
	jne	.LBB101_79
.LBB101_77:
	movb	$10, 236(%rsp,%rcx)
	incq	%rcx
	movq	%rcx, 1264(%rsp)
.LBB101_79:
	movq	1424(%rsp), %rax
	movq	%rax, 1148(%rbx)
	movaps	1408(%rsp), %xmm0
	jmp	.LBB101_80
.LBB101_73:
	leaq	.Lstatic.7(%rip), %rsi
	leaq	232(%rsp), %rdi
	movl	$7, %edx
	callq	core.fmt.formatter.Formatter.write_indented.bf264aed5fa78656
	movaps	64(%rsp), %xmm0
	movups	%xmm0, 1132(%rbx)
	movq	80(%rsp), %rcx
	movq	%rcx, 1148(%rbx)
	testb	%al, %al
	jne	.LBB101_81
	jmp	.LBB101_74
.LBB101_78:
	leaq	.Lstatic.8(%rip), %rsi
	leaq	232(%rsp), %rdi
	movl	$1, %edx
	callq	core.fmt.formatter.Formatter.write_indented.bf264aed5fa78656
	jmp	.LBB101_79
.Lfunc_end101:
	.size	line_filter.program.refuse, .Lfunc_end101-line_filter.program.refuse
	.cfi_endproc

	.section	.rodata.cst16,"aM",@progbits,16
	.p2align	4, 0x0
.LCPI102_0:
	.long	125
	.long	125
	.long	125
	.long	125
	.section	.text.core.char.escape.escape_default,"ax",@progbits
	.p2align	4
	.type	core.char.escape.escape_default,@function
core.char.escape.escape_default:
	.cfi_startproc
	leal	-9(%rsi), %eax
	cmpl	$30, %eax
	ja	.LBB102_3
	leaq	.LJTI102_0(%rip), %rcx
	movslq	(%rcx,%rax,4), %rax
	addq	%rcx, %rax
	jmpq	*%rax
.LBB102_2:
	movl	$116, %esi
	jmp	.LBB102_8
.LBB102_3:
	cmpl	$92, %esi
	je	.LBB102_8
.LBB102_4:
	cmpl	$31, %esi
	ja	.LBB102_9
	movl	%esi, %eax
	andl	$15, %eax
	movl	%esi, %ecx
	orl	$48, %ecx
	leal	87(%rax), %edx
	cmpl	$10, %eax
	cmovbl	%ecx, %edx
	movl	%esi, %eax
	shrl	$4, %eax
	orl	$48, %eax
	cmpl	$16, %esi
	cmovbl	%edx, %eax
	movl	$125, %ecx
	cmovael	%edx, %ecx
	movl	$6, %edx
	sbbq	$0, %rdx
	movabsq	$502511173724, %rsi
	movq	%rsi, (%rdi)
	movl	$123, 8(%rdi)
	movl	%eax, 12(%rdi)
	movl	%ecx, 16(%rdi)
	movaps	.LCPI102_0(%rip), %xmm0
	movups	%xmm0, 20(%rdi)
	movl	$125, 36(%rdi)
	movq	$0, 40(%rdi)
	movq	%rdx, 48(%rdi)
	retq
.LBB102_6:
	movl	$114, %esi
	jmp	.LBB102_8
.LBB102_7:
	movl	$110, %esi
.LBB102_8:
	movl	$92, (%rdi)
	movd	%esi, %xmm0
	pshufd	$0, %xmm0, %xmm0
	movdqu	%xmm0, 4(%rdi)
	movdqu	%xmm0, 20(%rdi)
	movl	%esi, 36(%rdi)
	movq	$0, 40(%rdi)
	movq	$2, 48(%rdi)
	retq
.LBB102_9:
	cmpl	$126, %esi
	ja	.LBB102_11
	movd	%esi, %xmm0
	pshufd	$0, %xmm0, %xmm0
	movdqu	%xmm0, (%rdi)
	movdqu	%xmm0, 16(%rdi)
	movl	%esi, 32(%rdi)
	movl	%esi, 36(%rdi)
	movq	$0, 40(%rdi)
	movq	$1, 48(%rdi)
	retq
.LBB102_11:
	movl	%esi, %ecx
	andl	$15, %ecx
	leal	48(%rcx), %edx
	leal	87(%rcx), %eax
	cmpl	$10, %ecx
	cmovbl	%edx, %eax
	movl	%esi, %edx
	shrl	$4, %edx
	andl	$15, %edx
	leal	48(%rdx), %r8d
	leal	87(%rdx), %ecx
	cmpl	$10, %edx
	cmovbl	%r8d, %ecx
	movl	%esi, %r8d
	shrl	$8, %r8d
	andl	$15, %r8d
	leal	48(%r8), %r9d
	leal	87(%r8), %edx
	cmpl	$10, %r8d
	cmovbl	%r9d, %edx
	movl	%esi, %r9d
	shrl	$12, %r9d
	andl	$15, %r9d
	leal	48(%r9), %r10d
	leal	87(%r9), %r8d
	cmpl	$10, %r9d
	cmovbl	%r10d, %r8d
	movl	%esi, %r9d
	shrl	$16, %r9d
	movl	%r9d, %r11d
	andl	$15, %r11d
	orl	$48, %r9d
	leal	87(%r11), %r10d
	cmpl	$10, %r11d
	cmovbl	%r9d, %r10d
	cmpl	$1048576, %esi
	movl	$48, %r11d
	sbbl	$-1, %r11d
	movl	$6, %r9d
	cmpl	$256, %esi
	jae	.LBB102_13
	movl	%ecx, %r11d
	movl	%eax, %r10d
	movl	$125, %r8d
	jmp	.LBB102_15
.LBB102_13:
	movl	$7, %r9d
	cmpl	$4096, %esi
	jae	.LBB102_19
	movl	%edx, %r11d
	movl	%ecx, %r10d
	movl	%eax, %r8d
.LBB102_15:
	movl	$125, %edx
.LBB102_16:
	movl	$125, %ecx
.LBB102_17:
	movl	$125, %eax
.LBB102_18:
	movabsq	$502511173724, %rsi
	movq	%rsi, (%rdi)
	movl	$123, 8(%rdi)
	movl	%r11d, 12(%rdi)
	movl	%r10d, 16(%rdi)
	movl	%r8d, 20(%rdi)
	movl	%edx, 24(%rdi)
	movl	%ecx, 28(%rdi)
	movl	%eax, 32(%rdi)
	movl	$125, 36(%rdi)
	movq	$0, 40(%rdi)
	movq	%r9, 48(%rdi)
	retq
.LBB102_19:
	movl	$8, %r9d
	cmpl	$65536, %esi
	jae	.LBB102_21
	movl	%r8d, %r11d
	movl	%edx, %r10d
	movl	%ecx, %r8d
	movl	%eax, %edx
	jmp	.LBB102_16
.LBB102_21:
	movl	$9, %r9d
	cmpl	$1048576, %esi
	jae	.LBB102_23
	movl	%r10d, %r11d
	movl	%r8d, %r10d
	movl	%edx, %r8d
	movl	%ecx, %edx
	movl	%eax, %ecx
	jmp	.LBB102_17
.LBB102_23:
	movl	$10, %r9d
	jmp	.LBB102_18
.Lfunc_end102:
	.size	core.char.escape.escape_default, .Lfunc_end102-core.char.escape.escape_default
	.cfi_endproc
	.section	.rodata.core.char.escape.escape_default,"a",@progbits
	.p2align	2, 0x0
.LJTI102_0:
	.long	.LBB102_2-.LJTI102_0
	.long	.LBB102_7-.LJTI102_0
	.long	.LBB102_4-.LJTI102_0
	.long	.LBB102_4-.LJTI102_0
	.long	.LBB102_6-.LJTI102_0
	.long	.LBB102_4-.LJTI102_0
	.long	.LBB102_4-.LJTI102_0
	.long	.LBB102_4-.LJTI102_0
	.long	.LBB102_4-.LJTI102_0
	.long	.LBB102_4-.LJTI102_0
	.long	.LBB102_4-.LJTI102_0
	.long	.LBB102_4-.LJTI102_0
	.long	.LBB102_4-.LJTI102_0
	.long	.LBB102_4-.LJTI102_0
	.long	.LBB102_4-.LJTI102_0
	.long	.LBB102_4-.LJTI102_0
	.long	.LBB102_4-.LJTI102_0
	.long	.LBB102_4-.LJTI102_0
	.long	.LBB102_4-.LJTI102_0
	.long	.LBB102_4-.LJTI102_0
	.long	.LBB102_4-.LJTI102_0
	.long	.LBB102_4-.LJTI102_0
	.long	.LBB102_4-.LJTI102_0
	.long	.LBB102_4-.LJTI102_0
	.long	.LBB102_4-.LJTI102_0
	.long	.LBB102_8-.LJTI102_0
	.long	.LBB102_4-.LJTI102_0
	.long	.LBB102_4-.LJTI102_0
	.long	.LBB102_4-.LJTI102_0
	.long	.LBB102_4-.LJTI102_0
	.long	.LBB102_8-.LJTI102_0

	.section	.rodata.cst16,"aM",@progbits,16
	.p2align	4, 0x0
.LCPI103_0:
	.long	15
	.long	15
	.long	15
	.long	15
.LCPI103_1:
	.long	9
	.long	9
	.long	9
	.long	9
.LCPI103_2:
	.long	48
	.long	48
	.long	48
	.long	48
.LCPI103_3:
	.long	87
	.long	87
	.long	87
	.long	87
.LCPI103_4:
	.long	125
	.long	125
	.long	125
	.long	125
.LCPI103_5:
	.long	92
	.long	48
	.long	48
	.long	48
	.section	.text.core.char.escape.escape_debug,"ax",@progbits
	.p2align	4
	.type	core.char.escape.escape_debug,@function
core.char.escape.escape_debug:
	.cfi_startproc
	pushq	%r14
	.cfi_def_cfa_offset 16
	pushq	%rbx
	.cfi_def_cfa_offset 24
	subq	$328, %rsp
	.cfi_def_cfa_offset 352
	.cfi_offset %rbx, -24
	.cfi_offset %r14, -16
	movq	%rdi, %rbx
	pxor	%xmm0, %xmm0
	movdqa	%xmm0, 32(%rsp)
	movdqa	%xmm0, 16(%rsp)
	movdqa	%xmm0, (%rsp)
	movq	$0, 48(%rsp)
	testl	%esi, %esi
	je	.LBB103_1
	cmpl	$127, %esi
	ja	.LBB103_4
	movq	%rsp, %rdi
	callq	core.char.escape.escape_default
	movq	48(%rsp), %rax
	movq	%rax, 48(%rbx)
	movaps	(%rsp), %xmm0
	movaps	16(%rsp), %xmm1
	movaps	32(%rsp), %xmm2
	movups	%xmm2, 32(%rbx)
	movups	%xmm1, 16(%rbx)
	movups	%xmm0, (%rbx)
	addq	$328, %rsp
	.cfi_def_cfa_offset 24
	popq	%rbx
	.cfi_def_cfa_offset 16
	popq	%r14
	.cfi_def_cfa_offset 8
	retq
.LBB103_1:
	.cfi_def_cfa_offset 352
	movaps	.LCPI103_5(%rip), %xmm0
	movaps	%xmm0, (%rsp)
	movaps	.LCPI103_2(%rip), %xmm0
	movaps	%xmm0, 16(%rsp)
	movabsq	$206158430256, %rax
	movq	%rax, 32(%rsp)
	movq	$2, 48(%rsp)
	movaps	16(%rsp), %xmm0
	movups	%xmm0, 16(%rbx)
	movaps	(%rsp), %xmm0
	movups	%xmm0, (%rbx)
	movq	32(%rsp), %rax
	movq	%rax, 32(%rbx)
	movq	40(%rsp), %rax
	movq	%rax, 40(%rbx)
	movq	$2, 48(%rbx)
	addq	$328, %rsp
	.cfi_def_cfa_offset 24
	popq	%rbx
	.cfi_def_cfa_offset 16
	popq	%r14
	.cfi_def_cfa_offset 8
	retq
.LBB103_4:
	.cfi_def_cfa_offset 352
	movq	%rsi, %r14
	cmpl	$210042, %esi
	jb	.LBB103_6
	leal	-210042(%rsi), %edx
	pcmpeqd	%xmm0, %xmm0
	movdqa	%xmm0, 64(%rsp)
	movabsq	$-32370726145097729, %rax
	movq	%rax, 80(%rsp)
	movabsq	$-72340172838010881, %rax
	orq	$16777216, %rax
	movq	%rax, 88(%rsp)
	movq	$-184, 96(%rsp)
	leaq	64(%rsp), %rdi
	movl	$5, %esi
	callq	core.fmt.unicode.is_in_odd_run
	testb	%al, %al
	jne	.LBB103_17
	jmp	.LBB103_25
.LBB103_6:
	cmpl	$125279, %esi
	jbe	.LBB103_7
	leal	-125280(%rsi), %edx
	movabsq	$-4450317001428107522, %rax
	movq	%rax, 64(%rsp)
	movabsq	$144397771171102977, %rax
	leaq	1572867(%rax), %rcx
	movq	%rcx, 72(%rsp)
	movabsq	$72340185723175175, %rcx
	leaq	393210(%rcx), %rsi
	movq	%rsi, 80(%rsp)
	movabsq	$72340172838076673, %rsi
	leaq	50332928(%rsi), %rdi
	movq	%rdi, 88(%rsp)
	movq	%rax, 96(%rsp)
	movq	%rsi, 104(%rsp)
	movabsq	$73185697279901953, %rax
	movq	%rax, 112(%rsp)
	movq	%rcx, 120(%rsp)
	movabsq	$73466081403011338, %rax
	movq	%rax, 128(%rsp)
	movabsq	$7206933755192292369, %rax
	movq	%rax, 136(%rsp)
	movabsq	$2666428951601221388, %rax
	movq	%rax, 144(%rsp)
	movabsq	$649692681084579594, %rax
	movq	%rax, 152(%rsp)
	movabsq	$-72340606511349241, %rax
	movq	%rax, 160(%rsp)
	movabsq	$350158225448960736, %rax
	movq	%rax, 168(%rsp)
	movabsq	$435169350674809868, %rax
	movq	%rax, 176(%rsp)
	movabsq	$1009373716106053672, %rax
	movq	%rax, 184(%rsp)
	movabsq	$937327101495617289, %rax
	movq	%rax, 192(%rsp)
	movabsq	$937050001580836611, %rax
	movq	%rax, 200(%rsp)
	movabsq	$-72507287532139517, %rax
	movq	%rax, 208(%rsp)
	movq	$-15859970, 216(%rsp)
	movq	$-1, 224(%rsp)
	movabsq	$-72057594037927937, %rax
	movq	%rax, 232(%rsp)
	movabsq	$-62789814839214338, %rax
	movq	%rax, 240(%rsp)
	movabsq	$-72339073290600705, %rax
	movq	%rax, 248(%rsp)
	movabsq	$-278610250367234, %rax
	movq	%rax, 256(%rsp)
	movabsq	$1097751305348120319, %rax
	movq	%rax, 264(%rsp)
	movabsq	$-72439128876974338, %rax
	movq	%rax, 272(%rsp)
	movabsq	$-5349128380940766, %rax
	movq	%rax, 280(%rsp)
	movabsq	$-275625248096513, %rax
	movq	%rax, 288(%rsp)
	movabsq	$-3540058113, %rax
	movq	%rax, 296(%rsp)
	leaq	64(%rsp), %rdi
	movl	$30, %esi
	callq	core.fmt.unicode.is_in_odd_run
	testb	%al, %al
	je	.LBB103_25
.LBB103_17:
	movd	%r14d, %xmm0
	pshufd	$0, %xmm0, %xmm0
	movdqa	%xmm0, (%rsp)
	movdqa	%xmm0, 16(%rsp)
	movl	%r14d, 32(%rsp)
	movl	%r14d, 36(%rsp)
	movq	$0, 40(%rsp)
	movq	$1, 48(%rsp)
	movl	32(%rsp), %eax
	movl	%eax, 32(%rbx)
	movl	36(%rsp), %eax
	movl	%eax, 36(%rbx)
	movq	40(%rsp), %rax
	movq	%rax, 40(%rbx)
	movaps	16(%rsp), %xmm0
	movups	%xmm0, 16(%rbx)
	movaps	(%rsp), %xmm0
	movups	%xmm0, (%rbx)
	movq	$1, 48(%rbx)
	addq	$328, %rsp
	.cfi_def_cfa_offset 24
	popq	%rbx
	.cfi_def_cfa_offset 16
	popq	%r14
	.cfi_def_cfa_offset 8
	retq
.LBB103_7:
	.cfi_def_cfa_offset 352
	cmpl	$93881, %esi
	jb	.LBB103_10
	leal	-93881(%rsi), %edx
	movabsq	$939906542624053506, %rax
	movq	%rax, 64(%rsp)
	movabsq	$-1060772117440, %rax
	movq	%rax, 72(%rsp)
	movabsq	$6855082144465616638, %rax
	movq	%rax, 80(%rsp)
	movabsq	$3679046166575451507, %rax
	movq	%rax, 88(%rsp)
	movabsq	$-72340172838010881, %rax
	movq	%rax, 96(%rsp)
	movabsq	$72621673584798206, %rcx
	movq	%rcx, 104(%rsp)
	movabsq	$72623967097662462, %rcx
	movq	%rcx, 112(%rsp)
	movabsq	$504121197924386062, %rcx
	movq	%rcx, 120(%rsp)
	movabsq	$146937673130247531, %rcx
	movq	%rcx, 128(%rsp)
	addq	$66050, %rax
	movq	%rax, 136(%rsp)
	movabsq	$-5260762927698346242, %rax
	movq	%rax, 144(%rsp)
	movabsq	$8381798174783772422, %rax
	movq	%rax, 152(%rsp)
	movabsq	$217646136939968060, %rax
	movq	%rax, 160(%rsp)
	movabsq	$73064764372615702, %rax
	movq	%rax, 168(%rsp)
	movabsq	$1459201467968784397, %rax
	movq	%rax, 176(%rsp)
	movabsq	$6162922142985622540, %rax
	movq	%rax, 184(%rsp)
	movabsq	$144679246164477697, %rax
	movq	%rax, 192(%rsp)
	movabsq	$504685737250194434, %rax
	movq	%rax, 200(%rsp)
	movabsq	$504693437992354049, %rax
	movq	%rax, 208(%rsp)
	movabsq	$72344570934926337, %rax
	movq	%rax, 216(%rsp)
	movabsq	$2809684694961030915, %rax
	movq	%rax, 224(%rsp)
	movabsq	$590539136331349506, %rax
	movq	%rax, 232(%rsp)
	movabsq	$-72588159820427775, %rax
	movq	%rax, 240(%rsp)
	movabsq	$3473179141568915966, %rax
	movq	%rax, 248(%rsp)
	movabsq	$291047355177603646, %rax
	movq	%rax, 256(%rsp)
	movabsq	$721750296614862338, %rax
	movq	%rax, 264(%rsp)
	movabsq	$-3023599677980409595, %rax
	movq	%rax, 272(%rsp)
	movabsq	$80994428911288862, %rax
	movq	%rax, 280(%rsp)
	movabsq	$649927950329839875, %rax
	movq	%rax, 288(%rsp)
	movabsq	$72621660700139522, %rax
	movq	%rax, 296(%rsp)
	movabsq	$523596271941124367, %rax
	movq	%rax, 304(%rsp)
	movabsq	$-1090853927935, %rax
	jmp	.LBB103_9
.LBB103_10:
	cmpl	$71132, %esi
	jb	.LBB103_12
	leal	-71132(%rsi), %edx
	movabsq	$288794429945819940, %rax
	movq	%rax, 64(%rsp)
	movabsq	$72386429837511179, %rax
	movq	%rax, 72(%rsp)
	movabsq	$1442851751538983425, %rax
	movq	%rax, 80(%rsp)
	movabsq	$73185697279901953, %rax
	addq	$72219, %rax
	movq	%rax, 88(%rsp)
	movabsq	$72621682958341897, %rax
	movq	%rax, 96(%rsp)
	movabsq	$577024810493432676, %rax
	movq	%rax, 104(%rsp)
	movabsq	$144402165308391937, %rax
	movq	%rax, 112(%rsp)
	movabsq	$596175034494551046, %rax
	movq	%rax, 120(%rsp)
	movabsq	$79661820818237954, %rax
	movq	%rax, 128(%rsp)
	movabsq	$74599682135173130, %rax
	movq	%rax, 136(%rsp)
	movabsq	$649082452412924422, %rax
	movq	%rax, 144(%rsp)
	movabsq	$72903488031901965, %rax
	movq	%rax, 152(%rsp)
	movabsq	$650218252023628033, %rax
	movq	%rax, 160(%rsp)
	movabsq	$2092491578249455105, %rax
	movq	%rax, 168(%rsp)
	movabsq	$72621673584798206, %rax
	addq	$1373701, %rax
	movq	%rax, 176(%rsp)
	movabsq	$78010354319296331, %rax
	movq	%rax, 184(%rsp)
	movabsq	$2666414657799326217, %rax
	movq	%rax, 192(%rsp)
	movabsq	$722547369039692292, %rax
	movq	%rax, 200(%rsp)
	movabsq	$1436086460922211334, %rax
	movq	%rax, 208(%rsp)
	movabsq	$146406574855357442, %rax
	movq	%rax, 216(%rsp)
	movabsq	$-140400973350299901, %rax
	movq	%rax, 224(%rsp)
	movabsq	$-140659429897797890, %rax
	movq	%rax, 232(%rsp)
	movabsq	$-72605824937164999, %rax
	movq	%rax, 240(%rsp)
	movabsq	$-72311555165192450, %rax
	movq	%rax, 248(%rsp)
	movabsq	$408137612407013118, %rax
	movq	%rax, 256(%rsp)
	movabsq	$-72339069026435330, %rax
	movq	%rax, 264(%rsp)
	movabsq	$-72609535939043651, %rax
	movq	%rax, 272(%rsp)
	movabsq	$4467288062572822270, %rax
	movq	%rax, 280(%rsp)
	movabsq	$720946493145554695, %rax
	movq	%rax, 288(%rsp)
	movabsq	$1082887054930943494, %rax
	movq	%rax, 296(%rsp)
	movabsq	$1370524755760843274, %rax
	movq	%rax, 304(%rsp)
	movabsq	$-65014827894263042, %rax
	jmp	.LBB103_9
.LBB103_12:
	cmpl	$67641, %esi
	jb	.LBB103_14
	leal	-67641(%rsi), %edx
	movabsq	$650849315673211139, %rax
	movq	%rax, 64(%rsp)
	movabsq	$1946435769346364208, %rax
	movq	%rax, 72(%rsp)
	movabsq	$3387291878090480389, %rax
	movq	%rax, 80(%rsp)
	movabsq	$651364986291029007, %rax
	movq	%rax, 88(%rsp)
	movabsq	$866420798758783239, %rax
	movq	%rax, 96(%rsp)
	movabsq	$1874934515760313865, %rax
	movq	%rax, 104(%rsp)
	movabsq	$3690499027717850119, %rax
	movq	%rax, 112(%rsp)
	movabsq	$2739888470662525709, %rax
	movq	%rax, 120(%rsp)
	movabsq	$3026735402817427464, %rax
	movq	%rax, 128(%rsp)
	movabsq	$144403328875495683, %rax
	movq	%rax, 136(%rsp)
	movabsq	$651638795372928773, %rax
	movq	%rax, 144(%rsp)
	movabsq	$1662985112008266262, %rax
	movq	%rax, 152(%rsp)
	movabsq	$2162861482956620041, %rax
	movq	%rax, 160(%rsp)
	movabsq	$145295015608975873, %rax
	movq	%rax, 168(%rsp)
	movabsq	$722573813203665410, %rax
	movq	%rax, 176(%rsp)
	movabsq	$2524287421022282761, %rax
	movq	%rax, 184(%rsp)
	movabsq	$576743366319604481, %rax
	movq	%rax, 192(%rsp)
	movabsq	$1300154912222544388, %rax
	movq	%rax, 200(%rsp)
	movabsq	$144403277335960577, %rax
	movq	%rax, 208(%rsp)
	movabsq	$1081149787903952703, %rax
	movq	%rax, 216(%rsp)
	movabsq	$724238418695293697, %rax
	movq	%rax, 224(%rsp)
	movabsq	$1585832226535309832, %rax
	movq	%rax, 232(%rsp)
	movabsq	$72907520854787841, %rax
	movq	%rax, 240(%rsp)
	movabsq	$144680345709641985, %rax
	movq	%rax, 248(%rsp)
	movabsq	$72350184508227843, %rax
	movq	%rax, 256(%rsp)
	movabsq	$144397767496761602, %rax
	movq	%rax, 264(%rsp)
	movabsq	$216455369520644367, %rax
	movq	%rax, 272(%rsp)
	movabsq	$72904253293134337, %rax
	movq	%rax, 280(%rsp)
	movabsq	$3467212065968559361, %rax
	movq	%rax, 288(%rsp)
	movabsq	$72341272350032385, %rax
	movq	%rax, 296(%rsp)
	movabsq	$3433442795459838210, %rax
	movq	%rax, 304(%rsp)
	movabsq	$1946119097146540545, %rax
.LBB103_9:
	movq	%rax, 312(%rsp)
	leaq	64(%rsp), %rdi
	movl	$32, %esi
	callq	core.fmt.unicode.is_in_odd_run
	testb	%al, %al
	jne	.LBB103_17
.LBB103_25:
	movd	%r14d, %xmm1
	movdqa	%xmm1, %xmm0
	psrld	$4, %xmm0
	punpckldq	%xmm1, %xmm0
	movdqa	%xmm1, %xmm2
	psrld	$8, %xmm2
	psrld	$12, %xmm1
	punpckldq	%xmm2, %xmm1
	punpcklqdq	%xmm0, %xmm1
	pand	.LCPI103_0(%rip), %xmm1
	movdqa	%xmm1, %xmm0
	pcmpgtd	.LCPI103_1(%rip), %xmm0
	movdqa	.LCPI103_2(%rip), %xmm2
	por	%xmm1, %xmm2
	paddd	.LCPI103_3(%rip), %xmm1
	pand	%xmm0, %xmm1
	pandn	%xmm2, %xmm0
	por	%xmm1, %xmm0
	movl	%r14d, %ecx
	shrl	$16, %ecx
	movl	%ecx, %edx
	andl	$15, %edx
	orl	$48, %ecx
	leal	87(%rdx), %eax
	cmpl	$10, %edx
	cmovbl	%ecx, %eax
	cmpl	$1048576, %r14d
	movl	$48, %ecx
	sbbl	$-1, %ecx
	cmpl	$255, %r14d
	ja	.LBB103_27
	movabsq	$502511173724, %rax
	movq	%rax, (%rsp)
	movl	$123, 8(%rsp)
	pshufd	$238, %xmm0, %xmm1
	movd	%xmm1, 12(%rsp)
	pshufd	$255, %xmm0, %xmm0
	movd	%xmm0, 16(%rsp)
	movdqa	.LCPI103_4(%rip), %xmm0
	movdqu	%xmm0, 20(%rsp)
	movl	$125, 36(%rsp)
	movq	$0, 40(%rsp)
	movq	$6, 48(%rsp)
	jmp	.LBB103_34
.LBB103_27:
	cmpl	$4095, %r14d
	ja	.LBB103_29
	movabsq	$502511173724, %rax
	movq	%rax, (%rsp)
	movl	$123, 8(%rsp)
	pshufd	$85, %xmm0, %xmm1
	movd	%xmm1, 12(%rsp)
	pshufd	$238, %xmm0, %xmm1
	movd	%xmm1, 16(%rsp)
	pshufd	$255, %xmm0, %xmm0
	movd	%xmm0, 20(%rsp)
	movdqa	.LCPI103_4(%rip), %xmm0
	movdqu	%xmm0, 24(%rsp)
	movq	$0, 40(%rsp)
	movq	$7, 48(%rsp)
	jmp	.LBB103_34
.LBB103_29:
	cmpl	$65535, %r14d
	ja	.LBB103_31
	movabsq	$502511173724, %rax
	movq	%rax, (%rsp)
	movl	$123, 8(%rsp)
	movdqu	%xmm0, 12(%rsp)
	movabsq	$536870912125, %rax
	movq	%rax, 28(%rsp)
	movl	$125, 36(%rsp)
	movq	$0, 40(%rsp)
	movq	$8, 48(%rsp)
	jmp	.LBB103_34
.LBB103_31:
	movabsq	$502511173724, %rdx
	movq	%rdx, (%rsp)
	movl	$123, 8(%rsp)
	cmpl	$1048575, %r14d
	ja	.LBB103_33
	movl	%eax, 12(%rsp)
	movdqa	%xmm0, 16(%rsp)
	movl	$125, 32(%rsp)
	movl	$125, 36(%rsp)
	movq	$0, 40(%rsp)
	movq	$9, 48(%rsp)
	jmp	.LBB103_34
.LBB103_14:
	cmpl	$43066, %esi
	jb	.LBB103_18
	leal	-43066(%rsi), %edi
	callq	core.fmt.unicode.from_a83a
	jmp	.LBB103_16
.LBB103_33:
	movl	%ecx, 12(%rsp)
	movl	%eax, 16(%rsp)
	movdqu	%xmm0, 20(%rsp)
	movl	$125, 36(%rsp)
	movq	$0, 40(%rsp)
	movq	$10, 48(%rsp)
.LBB103_34:
	movq	48(%rsp), %rax
	movq	%rax, 48(%rbx)
	movq	(%rsp), %rax
	movl	8(%rsp), %ecx
	movl	12(%rsp), %edx
	movl	16(%rsp), %esi
	movq	20(%rsp), %rdi
	movl	28(%rsp), %r8d
	movl	32(%rsp), %r9d
	movl	%r9d, 32(%rbx)
	movl	36(%rsp), %r9d
	movl	%r9d, 36(%rbx)
	movq	40(%rsp), %r9
	movq	%r9, 40(%rbx)
	movl	%esi, 16(%rbx)
	movq	%rdi, 20(%rbx)
	movl	%r8d, 28(%rbx)
	movq	%rax, (%rbx)
	movl	%ecx, 8(%rbx)
	movl	%edx, 12(%rbx)
	addq	$328, %rsp
	.cfi_def_cfa_offset 24
	popq	%rbx
	.cfi_def_cfa_offset 16
	popq	%r14
	.cfi_def_cfa_offset 8
	retq
.LBB103_18:
	.cfi_def_cfa_offset 352
	cmpl	$6431, %esi
	jb	.LBB103_20
	leal	-6431(%rsi), %edi
	callq	core.fmt.unicode.from_191f
	jmp	.LBB103_16
.LBB103_20:
	cmpl	$3130, %esi
	jb	.LBB103_22
	leal	-3130(%rsi), %edi
	callq	core.fmt.unicode.from_c3a
	jmp	.LBB103_16
.LBB103_22:
	leal	-128(%rsi), %edi
	callq	core.fmt.unicode.from_80
.LBB103_16:
	testb	%al, %al
	je	.LBB103_17
	jmp	.LBB103_25
.Lfunc_end103:
	.size	core.char.escape.escape_debug, .Lfunc_end103-core.char.escape.escape_debug
	.cfi_endproc

	.section	.text.core.fmt.unicode.is_in_odd_run,"ax",@progbits
	.p2align	4
	.type	core.fmt.unicode.is_in_odd_run,@function
core.fmt.unicode.is_in_odd_run:
	.cfi_startproc
	pushq	%rbp
	.cfi_def_cfa_offset 16
	pushq	%rbx
	.cfi_def_cfa_offset 24
	.cfi_offset %rbx, -24
	.cfi_offset %rbp, -16
	movl	%edx, %ecx
	xorl	%eax, %eax
	xorl	%edx, %edx
.LBB104_1:
	movq	(%rdi,%rdx,8), %rbx
	movzbl	%bl, %r9d
	cmpq	$255, %r9
	movl	$2048, %r8d
	movq	%r9, %r10
	cmoveq	%r8, %r10
	subq	%r10, %rcx
	jb	.LBB104_10
	cmpl	$254, %r9d
	setb	%r9b
	xorb	%r9b, %al
	movzbl	%bh, %ebp
	cmpl	$255, %ebp
	cmovneq	%rbp, %r8
	subq	%r8, %rcx
	jb	.LBB104_10
	cmpl	$254, %ebp
	setb	%r8b
	xorb	%r8b, %al
	movl	%ebx, %r8d
	shrl	$16, %r8d
	movzbl	%r8b, %r9d
	cmpl	$255, %r9d
	movl	$2048, %r8d
	movq	%r9, %r10
	cmoveq	%r8, %r10
	subq	%r10, %rcx
	jb	.LBB104_10
	cmpl	$254, %r9d
	setb	%r9b
	xorb	%r9b, %al
	movl	%ebx, %r9d
	shrl	$24, %r9d
	cmpl	$255, %r9d
	cmovneq	%r9, %r8
	subq	%r8, %rcx
	jb	.LBB104_10
	cmpl	$254, %r9d
	setb	%r8b
	xorb	%r8b, %al
	movq	%rbx, %r8
	shrq	$32, %r8
	movzbl	%r8b, %r9d
	cmpq	$255, %r9
	movl	$2048, %r8d
	movq	%r9, %r10
	cmoveq	%r8, %r10
	subq	%r10, %rcx
	jb	.LBB104_10
	cmpl	$254, %r9d
	setb	%r9b
	xorb	%r9b, %al
	movq	%rbx, %r9
	shrq	$40, %r9
	movzbl	%r9b, %r9d
	cmpq	$255, %r9
	cmovneq	%r9, %r8
	subq	%r8, %rcx
	jb	.LBB104_10
	cmpl	$254, %r9d
	setb	%r8b
	xorb	%r8b, %al
	movq	%rbx, %r8
	shrq	$48, %r8
	movzbl	%r8b, %r9d
	cmpq	$255, %r9
	movl	$2048, %r8d
	movq	%r9, %r10
	cmoveq	%r8, %r10
	subq	%r10, %rcx
	jb	.LBB104_10
	cmpl	$254, %r9d
	setb	%r9b
	xorb	%r9b, %al
	movq	%rbx, %r9
	shrq	$56, %r9
	cmpq	$255, %r9
	cmoveq	%r8, %r9
	subq	%r9, %rcx
	jb	.LBB104_10
	shrq	$57, %rbx
	cmpl	$127, %ebx
	setb	%r8b
	xorb	%r8b, %al
	incq	%rdx
	cmpq	%rdx, %rsi
	jne	.LBB104_1
.LBB104_10:
	andb	$1, %al
	popq	%rbx
	.cfi_def_cfa_offset 16
	popq	%rbp
	.cfi_def_cfa_offset 8
	retq
.Lfunc_end104:
	.size	core.fmt.unicode.is_in_odd_run, .Lfunc_end104-core.fmt.unicode.is_in_odd_run
	.cfi_endproc

	.section	.text.core.fmt.unicode.from_a83a,"ax",@progbits
	.p2align	4
	.type	core.fmt.unicode.from_a83a,@function
core.fmt.unicode.from_a83a:
	.cfi_startproc
	subq	$264, %rsp
	.cfi_def_cfa_offset 272
	movl	%edi, %edx
	movabsq	$943517360164714502, %rax
	movq	%rax, 8(%rsp)
	movabsq	$2165106668034598401, %rax
	movq	%rax, 16(%rsp)
	movabsq	$144680354266034182, %rax
	movq	%rax, 24(%rsp)
	movabsq	$1801729039870790913, %rax
	movq	%rax, 32(%rsp)
	movabsq	$219271214504749313, %rax
	movq	%rax, 40(%rsp)
	movabsq	$2306416962890172417, %rax
	movq	%rax, 48(%rsp)
	movabsq	$360853132068074241, %rax
	movq	%rax, 56(%rsp)
	movabsq	$577042497050575106, %rax
	movq	%rax, 64(%rsp)
	movabsq	$506943038816388619, %rax
	movq	%rax, 72(%rsp)
	movabsq	$144525315543205633, %rax
	movq	%rax, 80(%rsp)
	movabsq	$-1073573854207, %rax
	movq	%rax, 88(%rsp)
	movabsq	$1660890374769410047, %rax
	movq	%rax, 96(%rsp)
	movabsq	$504121683288731908, %rax
	movq	%rax, 104(%rsp)
	movabsq	$363673531478864126, %rax
	movq	%rax, 112(%rsp)
	movabsq	$72344571270463749, %rax
	movq	%rax, 120(%rsp)
	movabsq	$-8142791795957235199, %rax
	movq	%rax, 128(%rsp)
	movabsq	$1369414339262418976, %rax
	movq	%rax, 136(%rsp)
	movabsq	$-7132427471399156735, %rax
	movq	%rax, 144(%rsp)
	movabsq	$432915119941558018, %rax
	movq	%rax, 152(%rsp)
	movabsq	$147782063767094018, %rax
	movq	%rax, 160(%rsp)
	movabsq	$144417558504737794, %rax
	movq	%rax, 168(%rsp)
	movabsq	$217715543191457537, %rax
	movq	%rax, 176(%rsp)
	movabsq	$72916318390791428, %rax
	movq	%rax, 184(%rsp)
	movabsq	$1950112528101223727, %rax
	movq	%rax, 192(%rsp)
	movabsq	$2164584374325552132, %rax
	movq	%rax, 200(%rsp)
	movabsq	$721312793793668353, %rax
	movq	%rax, 208(%rsp)
	movabsq	$3749290688035169286, %rax
	movq	%rax, 216(%rsp)
	movabsq	$144404364180654849, %rax
	leaq	266(%rax), %rcx
	movq	%rcx, 224(%rsp)
	movq	%rax, 232(%rsp)
	movabsq	$726778534546912259, %rax
	movq	%rax, 240(%rsp)
	movabsq	$4615627948018767880, %rax
	movq	%rax, 248(%rsp)
	movabsq	$-71493355577474554, %rax
	movq	%rax, 256(%rsp)
	leaq	8(%rsp), %rdi
	movl	$32, %esi
	callq	core.fmt.unicode.is_in_odd_run
	xorb	$1, %al
	addq	$264, %rsp
	.cfi_def_cfa_offset 8
	retq
.Lfunc_end105:
	.size	core.fmt.unicode.from_a83a, .Lfunc_end105-core.fmt.unicode.from_a83a
	.cfi_endproc

	.section	.text.core.fmt.unicode.from_191f,"ax",@progbits
	.p2align	4
	.type	core.fmt.unicode.from_191f,@function
core.fmt.unicode.from_191f:
	.cfi_startproc
	subq	$264, %rsp
	.cfi_def_cfa_offset 272
	movl	%edi, %edx
	movabsq	$432629255457866756, %rax
	movq	%rax, 8(%rsp)
	movabsq	$3173635869265559815, %rax
	movq	%rax, 16(%rsp)
	movabsq	$144740823261911556, %rax
	movq	%rax, 24(%rsp)
	movabsq	$144397801235757059, %rax
	movq	%rax, 32(%rsp)
	movabsq	$1010506187445962248, %rax
	movq	%rax, 40(%rsp)
	movabsq	$2089960511122321494, %rax
	movq	%rax, 48(%rsp)
	movabsq	$4036916332724358153, %rax
	movq	%rax, 56(%rsp)
	movabsq	$3462424792374837505, %rax
	movq	%rax, 64(%rsp)
	movabsq	$3099952101372264968, %rax
	movq	%rax, 72(%rsp)
	movabsq	$290201856352389890, %rax
	movq	%rax, 80(%rsp)
	movabsq	$-4610277535391873535, %rax
	movq	%rax, 88(%rsp)
	movabsq	$154813462019112512, %rax
	movq	%rax, 96(%rsp)
	movabsq	$72340172838535686, %rax
	movq	%rax, 104(%rsp)
	movabsq	$76281045869068545, %rax
	movq	%rax, 112(%rsp)
	movabsq	$72904299612865038, %rax
	movq	%rax, 120(%rsp)
	movabsq	$144697031726207241, %rax
	movq	%rax, 128(%rsp)
	movabsq	$1630020482106145617, %rax
	movq	%rax, 136(%rsp)
	movabsq	$-72340172838136565, %rax
	movq	%rax, 144(%rsp)
	movabsq	$360854751220474622, %rax
	movq	%rax, 152(%rsp)
	movabsq	$520167960363467053, %rax
	movq	%rax, 160(%rsp)
	movabsq	$74029048468537607, %rax
	leaq	135269883(%rax), %rcx
	movq	%rcx, 168(%rsp)
	movq	%rax, 176(%rsp)
	movabsq	$2018741136273113351, %rax
	movq	%rax, 184(%rsp)
	movabsq	$76590700297781530, %rax
	movq	%rax, 192(%rsp)
	movabsq	$388721710268941865, %rax
	movq	%rax, 200(%rsp)
	movabsq	$85578657914814763, %rax
	movq	%rax, 208(%rsp)
	movq	$-1, 216(%rsp)
	movabsq	$-72339069014638593, %rax
	movq	%rax, 224(%rsp)
	movabsq	$3392440864486130545, %rax
	movq	%rax, 232(%rsp)
	movabsq	$432996484238672132, %rax
	movq	%rax, 240(%rsp)
	movabsq	$216473008934805000, %rax
	movq	%rax, 248(%rsp)
	movabsq	$721707346853692417, %rax
	movq	%rax, 256(%rsp)
	leaq	8(%rsp), %rdi
	movl	$32, %esi
	callq	core.fmt.unicode.is_in_odd_run
	xorb	$1, %al
	addq	$264, %rsp
	.cfi_def_cfa_offset 8
	retq
.Lfunc_end106:
	.size	core.fmt.unicode.from_191f, .Lfunc_end106-core.fmt.unicode.from_191f
	.cfi_endproc

	.section	.text.core.fmt.unicode.from_c3a,"ax",@progbits
	.p2align	4
	.type	core.fmt.unicode.from_c3a,@function
core.fmt.unicode.from_c3a:
	.cfi_startproc
	subq	$264, %rsp
	.cfi_def_cfa_offset 272
	movl	%edi, %edx
	movabsq	$144400043259134211, %rax
	movq	%rax, 8(%rsp)
	movabsq	$792926034743001602, %rax
	movq	%rax, 16(%rsp)
	movabsq	$360580444963537665, %rax
	movq	%rax, 24(%rsp)
	movabsq	$222648909913260547, %rax
	movq	%rax, 32(%rsp)
	movabsq	$796577487089041921, %rax
	movq	%rax, 40(%rsp)
	movabsq	$144397771842061057, %rax
	movq	%rax, 48(%rsp)
	movabsq	$217300885389247237, %rax
	movq	%rax, 56(%rsp)
	movabsq	$1297320375709075969, %rax
	movq	%rax, 64(%rsp)
	movabsq	$504967212176578563, %rax
	movq	%rax, 72(%rsp)
	movabsq	$216746757366088201, %rax
	movq	%rax, 80(%rsp)
	movabsq	$939009365678043148, %rax
	movq	%rax, 88(%rsp)
	movabsq	$1729669233756930597, %rax
	movq	%rax, 96(%rsp)
	movabsq	$74593072314384641, %rax
	movq	%rax, 104(%rsp)
	movabsq	$288804359892960514, %rax
	movq	%rax, 112(%rsp)
	movabsq	$72340173274355744, %rax
	movq	%rax, 120(%rsp)
	movabsq	$73466146346569217, %rax
	movq	%rax, 128(%rsp)
	movabsq	$937036798971938050, %rax
	movq	%rax, 136(%rsp)
	movabsq	$144679263327759653, %rax
	movq	%rax, 144(%rsp)
	movabsq	$937892227538098434, %rax
	movq	%rax, 152(%rsp)
	movabsq	$2882601733564006913, %rax
	movq	%rax, 160(%rsp)
	movabsq	$106958300733833473, %rax
	movq	%rax, 168(%rsp)
	movabsq	$145242191806530052, %rax
	movq	%rax, 176(%rsp)
	movabsq	$145242329262063913, %rax
	movq	%rax, 184(%rsp)
	movabsq	$76281934908555527, %rax
	movq	%rax, 192(%rsp)
	movabsq	$224341341793157433, %rax
	movq	%rax, 200(%rsp)
	movabsq	$-72618319159097830, %rax
	movq	%rax, 208(%rsp)
	movabsq	$941823350959505796, %rax
	movq	%rax, 216(%rsp)
	movabsq	$75732239358493459, %rax
	movq	%rax, 224(%rsp)
	movabsq	$74317094764941059, %rax
	movq	%rax, 232(%rsp)
	movabsq	$435166954065038082, %rax
	movq	%rax, 240(%rsp)
	movabsq	$145530641894212875, %rax
	movq	%rax, 248(%rsp)
	movabsq	$-63320573911957214, %rax
	movq	%rax, 256(%rsp)
	leaq	8(%rsp), %rdi
	movl	$32, %esi
	callq	core.fmt.unicode.is_in_odd_run
	xorb	$1, %al
	addq	$264, %rsp
	.cfi_def_cfa_offset 8
	retq
.Lfunc_end107:
	.size	core.fmt.unicode.from_c3a, .Lfunc_end107-core.fmt.unicode.from_c3a
	.cfi_endproc

	.section	.text.core.fmt.unicode.from_80,"ax",@progbits
	.p2align	4
	.type	core.fmt.unicode.from_80,@function
core.fmt.unicode.from_80:
	.cfi_startproc
	subq	$264, %rsp
	.cfi_def_cfa_offset 272
	movl	%edi, %edx
	movabsq	$608081602878180385, %rax
	movq	%rax, 8(%rsp)
	movabsq	$1441434459659568642, %rax
	movq	%rax, 16(%rsp)
	movabsq	$4035548529623031809, %rax
	movq	%rax, 24(%rsp)
	movabsq	$72621652109754670, %rax
	movq	%rax, 32(%rsp)
	movabsq	$75164887013399305, %rax
	movq	%rax, 40(%rsp)
	movabsq	$74420449090809345, %rax
	movq	%rax, 48(%rsp)
	movabsq	$72655745560216070, %rax
	movq	%rax, 56(%rsp)
	movabsq	$3102418341556198913, %rax
	movq	%rax, 64(%rsp)
	movabsq	$74591985922672393, %rax
	movq	%rax, 72(%rsp)
	movabsq	$73492461259260163, %rax
	movq	%rax, 80(%rsp)
	movabsq	$3979257994503588609, %rax
	movq	%rax, 88(%rsp)
	movabsq	$216458689563918593, %rax
	movq	%rax, 96(%rsp)
	movabsq	$576744431085029895, %rax
	movq	%rax, 104(%rsp)
	movabsq	$72346770260230658, %rax
	movq	%rax, 112(%rsp)
	movabsq	$145806241271317507, %rax
	movq	%rax, 120(%rsp)
	movabsq	$216456511965168130, %rax
	movq	%rax, 128(%rsp)
	movabsq	$145247689364543492, %rax
	movq	%rax, 136(%rsp)
	movabsq	$144398866488301058, %rax
	movq	%rax, 144(%rsp)
	movabsq	$72343570190959105, %rax
	movq	%rax, 152(%rsp)
	movabsq	$75436397615516167, %rax
	movq	%rax, 160(%rsp)
	movabsq	$504708826843384065, %rax
	movq	%rax, 168(%rsp)
	movabsq	$74313804866978305, %rax
	movq	%rax, 176(%rsp)
	movabsq	$865819291826717185, %rax
	movq	%rax, 184(%rsp)
	movabsq	$144686938451345671, %rax
	movq	%rax, 192(%rsp)
	movabsq	$360571648602084866, %rax
	movq	%rax, 200(%rsp)
	movabsq	$144680362839245059, %rax
	movq	%rax, 208(%rsp)
	movabsq	$75173627221312015, %rax
	movq	%rax, 216(%rsp)
	movabsq	$144964015397996033, %rax
	movq	%rax, 224(%rsp)
	movabsq	$217019418985693441, %rax
	movq	%rax, 232(%rsp)
	movabsq	$217019410379246595, %rax
	movq	%rax, 240(%rsp)
	movabsq	$217884811929518849, %rax
	movq	%rax, 248(%rsp)
	movabsq	$1153228272696363009, %rax
	movq	%rax, 256(%rsp)
	leaq	8(%rsp), %rdi
	movl	$32, %esi
	callq	core.fmt.unicode.is_in_odd_run
	xorb	$1, %al
	addq	$264, %rsp
	.cfi_def_cfa_offset 8
	retq
.Lfunc_end108:
	.size	core.fmt.unicode.from_80, .Lfunc_end108-core.fmt.unicode.from_80
	.cfi_endproc

	.section	.rodata.cst16,"aM",@progbits,16
	.p2align	4, 0x0
.LCPI109_0:
	.byte	255
	.byte	63
	.byte	63
	.byte	63
	.zero	1
	.zero	1
	.zero	1
	.zero	1
	.zero	1
	.zero	1
	.zero	1
	.zero	1
	.zero	1
	.zero	1
	.zero	1
	.zero	1
.LCPI109_1:
	.byte	240
	.byte	128
	.byte	128
	.byte	128
	.zero	1
	.zero	1
	.zero	1
	.zero	1
	.zero	1
	.zero	1
	.zero	1
	.zero	1
	.zero	1
	.zero	1
	.zero	1
	.zero	1
	.section	.text.core.char.escape.EscapeDisplay.fmt.bf264aed5fa78656,"ax",@progbits
	.p2align	4
	.type	core.char.escape.EscapeDisplay.fmt.bf264aed5fa78656,@function
core.char.escape.EscapeDisplay.fmt.bf264aed5fa78656:
	.cfi_startproc
	pushq	%r15
	.cfi_def_cfa_offset 16
	pushq	%r14
	.cfi_def_cfa_offset 24
	pushq	%r13
	.cfi_def_cfa_offset 32
	pushq	%r12
	.cfi_def_cfa_offset 40
	pushq	%rbx
	.cfi_def_cfa_offset 48
	subq	$16, %rsp
	.cfi_def_cfa_offset 64
	.cfi_offset %rbx, -48
	.cfi_offset %r12, -40
	.cfi_offset %r13, -32
	.cfi_offset %r14, -24
	.cfi_offset %r15, -16
	movq	%rsi, %rbx
	movq	%rdi, %r14
	movq	40(%rdi), %rcx
	movq	48(%rdi), %r15
	testq	%rcx, %rcx
	je	.LBB109_3
	cmpq	$10, %r15
	movl	$10, %r12d
	movl	$10, %eax
	cmovbq	%r15, %rax
	leaq	-1(%rcx), %rdx
	cmpq	%rdx, %rax
	cmovbq	%rax, %rdx
	cmpq	%rdx, %rax
	je	.LBB109_2
	xorl	%eax, %eax
	subq	%rcx, %r15
	je	.LBB109_18
	cmpq	$10, %rcx
	je	.LBB109_18
	subq	%rcx, %r12
	leaq	(%r14,%rcx,4), %r14
	movl	(%r14), %eax
	movl	$0, 12(%rsp)
	cmpl	$128, %eax
	jb	.LBB109_5
.LBB109_9:
	cmpl	$2048, %eax
	jae	.LBB109_12
	movl	%eax, %ecx
	shrl	$6, %ecx
	orb	$-64, %cl
	movb	%cl, 12(%rsp)
	andb	$63, %al
	orb	$-128, %al
	movb	%al, 13(%rsp)
	movl	$2, %edx
	cmpq	$0, 1160(%rbx)
	je	.LBB109_16
.LBB109_20:
	leaq	12(%rsp), %rsi
	movq	%rbx, %rdi
	callq	core.fmt.formatter.Formatter.write_indented.bf264aed5fa78656
	testb	%al, %al
	jne	.LBB109_17
	jmp	.LBB109_21
.LBB109_3:
	movl	$10, %r12d
	testq	%r15, %r15
	je	.LBB109_2
	movl	(%r14), %eax
	movl	$0, 12(%rsp)
	cmpl	$128, %eax
	jae	.LBB109_9
.LBB109_5:
	movb	%al, 12(%rsp)
	movl	$1, %edx
	cmpq	$0, 1160(%rbx)
	jne	.LBB109_20
.LBB109_16:
	leaq	12(%rsp), %rsi
	movq	%rbx, %rdi
	callq	core.fmt.formatter.Formatter.write_raw.bf264aed5fa78656
	testb	%al, %al
	je	.LBB109_21
.LBB109_17:
	movb	$1, %al
	jmp	.LBB109_18
.LBB109_2:
	xorl	%eax, %eax
.LBB109_18:
	addq	$16, %rsp
	.cfi_def_cfa_offset 48
	popq	%rbx
	.cfi_def_cfa_offset 40
	popq	%r12
	.cfi_def_cfa_offset 32
	popq	%r13
	.cfi_def_cfa_offset 24
	popq	%r14
	.cfi_def_cfa_offset 16
	popq	%r15
	.cfi_def_cfa_offset 8
	retq
.LBB109_21:
	.cfi_def_cfa_offset 64
	movl	$1, %r13d
	jmp	.LBB109_22
	.p2align	4
.LBB109_25:
	movb	%al, 12(%rsp)
	movl	$1, %edx
	cmpq	$0, 1160(%rbx)
	jne	.LBB109_34
.LBB109_32:
	leaq	12(%rsp), %rsi
	movq	%rbx, %rdi
	callq	core.fmt.formatter.Formatter.write_raw.bf264aed5fa78656
	incq	%r13
	testb	%al, %al
	jne	.LBB109_17
.LBB109_22:
	xorl	%eax, %eax
	cmpq	%r13, %r15
	je	.LBB109_18
	cmpq	%r13, %r12
	je	.LBB109_18
	movl	(%r14,%r13,4), %eax
	movl	$0, 12(%rsp)
	cmpl	$127, %eax
	jbe	.LBB109_25
	cmpl	$2047, %eax
	ja	.LBB109_28
	movl	%eax, %ecx
	shrl	$6, %ecx
	orb	$-64, %cl
	movb	%cl, 12(%rsp)
	andb	$63, %al
	orb	$-128, %al
	movb	%al, 13(%rsp)
	movl	$2, %edx
	cmpq	$0, 1160(%rbx)
	je	.LBB109_32
	jmp	.LBB109_34
	.p2align	4
.LBB109_28:
	cmpl	$55296, %eax
	setb	%cl
	leal	-57344(%rax), %edx
	cmpl	$1056768, %edx
	setb	%dl
	orb	%cl, %dl
	je	.LBB109_31
	movl	%eax, %ecx
	cmpl	$65535, %eax
	ja	.LBB109_33
	shrl	$12, %ecx
	orb	$-32, %cl
	movb	%cl, 12(%rsp)
	movl	%eax, %ecx
	shrl	$6, %ecx
	andb	$63, %cl
	orb	$-128, %cl
	movb	%cl, 13(%rsp)
	andb	$63, %al
	orb	$-128, %al
	movb	%al, 14(%rsp)
	movl	$3, %edx
	cmpq	$0, 1160(%rbx)
	je	.LBB109_32
	jmp	.LBB109_34
.LBB109_31:
	movw	$-16401, 12(%rsp)
	movb	$-67, 14(%rsp)
	movl	$3, %edx
	cmpq	$0, 1160(%rbx)
	je	.LBB109_32
	jmp	.LBB109_34
.LBB109_33:
	shrl	$18, %ecx
	movl	%eax, %edx
	shrl	$4, %edx
	andl	$65280, %edx
	orl	%ecx, %edx
	movl	%eax, %ecx
	shll	$10, %ecx
	andl	$16711680, %ecx
	orl	%edx, %ecx
	shll	$24, %eax
	orl	%ecx, %eax
	movd	%eax, %xmm0
	pand	.LCPI109_0(%rip), %xmm0
	por	.LCPI109_1(%rip), %xmm0
	movd	%xmm0, 12(%rsp)
	movl	$4, %edx
	cmpq	$0, 1160(%rbx)
	je	.LBB109_32
.LBB109_34:
	leaq	12(%rsp), %rsi
	movq	%rbx, %rdi
	callq	core.fmt.formatter.Formatter.write_indented.bf264aed5fa78656
	incq	%r13
	testb	%al, %al
	je	.LBB109_22
	jmp	.LBB109_17
.LBB109_12:
	cmpl	$55296, %eax
	setb	%cl
	leal	-57344(%rax), %edx
	cmpl	$1056768, %edx
	setb	%dl
	orb	%cl, %dl
	je	.LBB109_15
	movl	%eax, %ecx
	cmpl	$65536, %eax
	jae	.LBB109_19
	shrl	$12, %ecx
	orb	$-32, %cl
	movb	%cl, 12(%rsp)
	movl	%eax, %ecx
	shrl	$6, %ecx
	andb	$63, %cl
	orb	$-128, %cl
	movb	%cl, 13(%rsp)
	andb	$63, %al
	orb	$-128, %al
	movb	%al, 14(%rsp)
	movl	$3, %edx
	cmpq	$0, 1160(%rbx)
	je	.LBB109_16
	jmp	.LBB109_20
.LBB109_15:
	movw	$-16401, 12(%rsp)
	movb	$-67, 14(%rsp)
	movl	$3, %edx
	cmpq	$0, 1160(%rbx)
	je	.LBB109_16
	jmp	.LBB109_20
.LBB109_19:
	shrl	$18, %ecx
	movl	%eax, %edx
	shrl	$4, %edx
	andl	$65280, %edx
	orl	%ecx, %edx
	movl	%eax, %ecx
	shll	$10, %ecx
	andl	$16711680, %ecx
	orl	%edx, %ecx
	shll	$24, %eax
	orl	%ecx, %eax
	movd	%eax, %xmm0
	pand	.LCPI109_0(%rip), %xmm0
	por	.LCPI109_1(%rip), %xmm0
	movd	%xmm0, 12(%rsp)
	movl	$4, %edx
	cmpq	$0, 1160(%rbx)
	je	.LBB109_16
	jmp	.LBB109_20
.Lfunc_end109:
	.size	core.char.escape.EscapeDisplay.fmt.bf264aed5fa78656, .Lfunc_end109-core.char.escape.EscapeDisplay.fmt.bf264aed5fa78656
	.cfi_endproc

	.section	.text.main,"ax",@progbits
	.globl	main
	.p2align	4
	.type	main,@function
main:
	.cfi_startproc
	pushq	%rbp
	.cfi_def_cfa_offset 16
	pushq	%r15
	.cfi_def_cfa_offset 24
	pushq	%r14
	.cfi_def_cfa_offset 32
	pushq	%r13
	.cfi_def_cfa_offset 40
	pushq	%r12
	.cfi_def_cfa_offset 48
	pushq	%rbx
	.cfi_def_cfa_offset 56
	subq	$2456, %rsp
	.cfi_def_cfa_offset 2512
	.cfi_offset %rbx, -56
	.cfi_offset %r12, -48
	.cfi_offset %r13, -40
	.cfi_offset %r14, -32
	.cfi_offset %r15, -24
	.cfi_offset %rbp, -16
	movl	$1, %esi
	movl	$13, %edi
	callq	__sysv_signal@PLT
	leaq	8(%rsp), %rax
	movq	%rax, 48(%rsp)
	movq	%rax, 1312(%rsp)
	xorps	%xmm0, %xmm0
	movups	%xmm0, 1320(%rsp)
	xorl	%ecx, %ecx
	xorl	%r14d, %r14d
.LBB110_1:
	movq	%rcx, 32(%rsp)
	movl	$256, %r12d
	movl	$64, %ebp
	jmp	.LBB110_3
	.p2align	4
.LBB110_2:
	movq	%r12, %rax
	addq	%r12, %rax
	movq	$-1, %r12
	cmovaeq	%rax, %r12
	decl	%ebp
	je	.LBB110_128
.LBB110_3:
	leaq	8(%rsp), %r15
	movq	%r15, 128(%rsp)
	xorps	%xmm0, %xmm0
	leaq	136(%rsp), %rax
	movups	%xmm0, (%rax)
	testq	%r12, %r12
	jne	.LBB110_10
	xorl	%r13d, %r13d
.LBB110_5:
	movq	%r14, %rdi
	movq	%r15, %rsi
	movq	%r13, %rdx
	callq	rattle_arg@PLT
	movq	%rax, %rbx
	movl	$22, %eax
	cmpq	$-1, %rbx
	je	.LBB110_7
	movl	$36, %eax
.LBB110_7:
	xorl	%edi, %edi
	testq	%rbx, %rbx
	cmovsl	%eax, %edi
	callq	rattle_set_errno@PLT
	callq	rattle_errno@PLT
	cmpl	$36, %eax
	jne	.LBB110_13
	cmpq	$0, 144(%rsp)
	je	.LBB110_2
	movq	%r15, %rdi
	callq	rattle_dealloc@PLT
	jmp	.LBB110_2
.LBB110_10:
	leaq	128(%rsp), %rdi
	movq	%r12, %rsi
	callq	std_alloc.vec.Vec.grow_amortized.05fa32d921161499
	testb	%al, %al
	je	.LBB110_126
	movq	128(%rsp), %r15
	movq	136(%rsp), %rdi
	leaq	(%rdi,%r12), %r13
	cmpq	%r13, %rdi
	jae	.LBB110_5
	addq	%r15, %rdi
	xorl	%esi, %esi
	movq	%r12, %rdx
	callq	memset@PLT
	jmp	.LBB110_5
	.p2align	4
.LBB110_13:
	testl	%eax, %eax
	jne	.LBB110_19
	cmpq	%r13, %rbx
	cmovbq	%rbx, %r13
	xorl	%ebp, %ebp
	testq	%rbx, %rbx
	cmovgq	%r13, %rbp
	movq	144(%rsp), %rbx
	xorps	%xmm0, %xmm0
	movaps	%xmm0, 128(%rsp)
	movq	$0, 144(%rsp)
	leaq	128(%rsp), %r12
	movq	%r12, %rdi
	movq	%r15, %rsi
	movq	%rbp, %rdx
	callq	core.str.utf8.from_utf8
	cmpb	$1, 128(%rsp)
	je	.LBB110_277
	movq	32(%rsp), %rcx
	cmpq	%rcx, 1328(%rsp)
	je	.LBB110_17
.LBB110_16:
	leaq	(%rcx,%rcx,2), %rax
	movq	48(%rsp), %rdx
	movq	%r15, (%rdx,%rax,8)
	movq	%rbp, 8(%rdx,%rax,8)
	movq	%rbx, 16(%rdx,%rax,8)
	incq	%rcx
	movq	%rcx, 1320(%rsp)
	incq	%r14
	cmpq	$-1, %r14
	jne	.LBB110_1
	jmp	.LBB110_22
.LBB110_17:
	leaq	1312(%rsp), %r12
	movq	%r12, %rdi
	callq	std_alloc.vec.Vec.grow_amortized.4412fee896cf261c
	testb	%al, %al
	je	.LBB110_341
	movq	1312(%rsp), %rax
	movq	%rax, 48(%rsp)
	movq	1320(%rsp), %rcx
	jmp	.LBB110_16
.LBB110_19:
	cmpq	$0, 144(%rsp)
	je	.LBB110_21
	movq	%r15, %rdi
	callq	rattle_dealloc@PLT
.LBB110_21:
	movq	32(%rsp), %rcx
.LBB110_22:
	movq	1312(%rsp), %r12
	movq	1328(%rsp), %r13
	testq	%rcx, %rcx
	movq	%rcx, 32(%rsp)
	je	.LBB110_25
	movq	(%r12), %r15
	movq	16(%r12), %rax
	movq	%rax, 48(%rsp)
	cmpq	$1, %rcx
	jne	.LBB110_99
	movq	%r15, 56(%rsp)
	movq	%r13, 104(%rsp)
	jmp	.LBB110_26
.LBB110_25:
	movq	%r13, 104(%rsp)
	movq	$0, 48(%rsp)
	movq	$0, 56(%rsp)
.LBB110_26:
	xorps	%xmm0, %xmm0
	movups	%xmm0, 72(%rsp)
	leaq	8(%rsp), %r13
	movq	%r13, 64(%rsp)
	movl	$65536, %edi
	movl	$1, %esi
	callq	rattle_alloc@PLT
	movb	$1, 96(%rsp)
	movb	$2, %bpl
	testb	$1, %al
	je	.LBB110_184
	movq	%rdx, %r15
	movq	%r12, 16(%rsp)
	xorl	%ebx, %ebx
	movl	$65536, %edx
	movq	%r15, %rdi
	xorl	%esi, %esi
	callq	memset@PLT
	movq	%r13, 128(%rsp)
	xorps	%xmm0, %xmm0
	movups	%xmm0, 136(%rsp)
	movq	%r13, 1312(%rsp)
	movups	%xmm0, 1320(%rsp)
	xorl	%r12d, %r12d
	xorl	%r14d, %r14d
	movq	%r15, 24(%rsp)
.LBB110_28:
	movl	$65536, %ebp
	movl	$65536, %edx
	xorl	%edi, %edi
	movq	%r15, %rsi
	callq	read@PLT
	testq	%rax, %rax
	js	.LBB110_284
	cmpq	$65536, %rax
	cmovbq	%rax, %rbp
	movq	%rax, 40(%rsp)
	testq	%rax, %rax
	je	.LBB110_289
	movq	%r14, 88(%rsp)
	movl	$10, %edi
	movq	%r15, %rsi
	movq	%rbp, %rdx
	callq	memchr.bytes.memchr
	cmpb	$1, %al
	jne	.LBB110_73
	movq	%rdx, %r14
	testq	%r12, %r12
	je	.LBB110_66
	movq	%r12, %rbx
	jmp	.LBB110_34
	.p2align	4
.LBB110_33:
	addq	%r14, %r15
	incq	%r15
	notq	%r14
	addq	%r14, %rbp
	movl	$10, %edi
	movq	%r15, %rsi
	movq	%rbp, %rdx
	callq	memchr.bytes.memchr
	movq	%rdx, %r14
	xorl	%ebx, %ebx
	cmpb	$1, %al
	jne	.LBB110_71
.LBB110_34:
	testq	%rbx, %rbx
	je	.LBB110_39
	movq	144(%rsp), %r12
	movq	%r12, %rax
	subq	%rbx, %rax
	cmpq	%rax, %r14
	ja	.LBB110_64
.LBB110_36:
	leaq	(%rbx,%r13), %rdi
	movq	%rdi, %rax
	subq	%r15, %rax
	cmpq	%r14, %rax
	jae	.LBB110_41
	cmpq	$4, %r14
	jb	.LBB110_38
	cmpq	$32, %rax
	jae	.LBB110_44
.LBB110_38:
	xorl	%eax, %eax
.LBB110_53:
	movq	%r14, %rdx
	movq	%rax, %rcx
	andq	$3, %rdx
	je	.LBB110_56
	movq	%rax, %rcx
	.p2align	4
.LBB110_55:
	movzbl	(%r15,%rcx), %esi
	movb	%sil, (%rdi,%rcx)
	incq	%rcx
	decq	%rdx
	jne	.LBB110_55
.LBB110_56:
	subq	%r14, %rax
	cmpq	$-4, %rax
	ja	.LBB110_59
	leaq	(%rbx,%r13), %rax
	addq	$3, %rax
	.p2align	4
.LBB110_58:
	movzbl	(%r15,%rcx), %edx
	movb	%dl, -3(%rax,%rcx)
	movzbl	1(%r15,%rcx), %edx
	movb	%dl, -2(%rax,%rcx)
	movzbl	2(%r15,%rcx), %edx
	movb	%dl, -1(%rax,%rcx)
	movzbl	3(%r15,%rcx), %edx
	movb	%dl, (%rax,%rcx)
	addq	$4, %rcx
	cmpq	%rcx, %r14
	jne	.LBB110_58
	jmp	.LBB110_59
	.p2align	4
.LBB110_39:
	leaq	64(%rsp), %rdi
	leaq	1312(%rsp), %rcx
	movq	%r15, %rsi
	movq	%r14, %rdx
	callq	line_filter.answers.AnsweringTake.take.19f4c77da892a4d9
	testb	%al, %al
	jne	.LBB110_104
	cmpq	$65536, 1320(%rsp)
	jb	.LBB110_33
	jmp	.LBB110_63
	.p2align	4
.LBB110_41:
	movq	%r15, %rsi
	movq	%r14, %rdx
	callq	memmove@PLT
.LBB110_59:
	addq	%r14, %rbx
	movq	%rbx, 136(%rsp)
	movq	%r12, 144(%rsp)
	leaq	64(%rsp), %rdi
	leaq	1312(%rsp), %rcx
	movq	%r13, %rsi
	movq	%rbx, %rdx
	callq	line_filter.answers.AnsweringTake.take.19f4c77da892a4d9
	testb	%al, %al
	jne	.LBB110_104
	testq	%rbx, %rbx
	je	.LBB110_62
	movq	$0, 136(%rsp)
.LBB110_62:
	xorl	%r12d, %r12d
	cmpq	$65536, 1320(%rsp)
	jb	.LBB110_33
.LBB110_63:
	leaq	1312(%rsp), %rdi
	callq	line_filter.write.write_out.df9e9f1468b30f79
	testb	%al, %al
	je	.LBB110_33
	jmp	.LBB110_177
.LBB110_44:
	cmpq	$32, %r14
	jae	.LBB110_46
	xorl	%eax, %eax
	jmp	.LBB110_50
.LBB110_46:
	movq	%r14, %rax
	andq	$-32, %rax
	leaq	(%rbx,%r13), %rcx
	addq	$16, %rcx
	xorl	%edx, %edx
	.p2align	4
.LBB110_47:
	movups	(%r15,%rdx), %xmm0
	movups	16(%r15,%rdx), %xmm1
	movups	%xmm0, -16(%rcx,%rdx)
	movups	%xmm1, (%rcx,%rdx)
	addq	$32, %rdx
	cmpq	%rdx, %rax
	jne	.LBB110_47
	cmpq	%rax, %r14
	je	.LBB110_59
	testb	$28, %r14b
	je	.LBB110_53
.LBB110_50:
	movq	%rax, %rcx
	movq	%r14, %rax
	andq	$-4, %rax
	.p2align	4
.LBB110_51:
	movl	(%r15,%rcx), %edx
	movl	%edx, (%rdi,%rcx)
	addq	$4, %rcx
	cmpq	%rcx, %rax
	jne	.LBB110_51
	cmpq	%rax, %r14
	je	.LBB110_59
	jmp	.LBB110_53
.LBB110_64:
	leaq	128(%rsp), %rdi
	movq	%r14, %rsi
	callq	std_alloc.vec.Vec.grow_amortized.05fa32d921161499
	testb	%al, %al
	je	.LBB110_104
	movq	128(%rsp), %r13
	movq	136(%rsp), %rbx
	movq	144(%rsp), %r12
	jmp	.LBB110_36
.LBB110_66:
	movq	16(%rsp), %r12
	jmp	.LBB110_68
	.p2align	4
.LBB110_67:
	addq	%r14, %r15
	incq	%r15
	notq	%r14
	addq	%r14, %rbp
	movl	$10, %edi
	movq	%r15, %rsi
	movq	%rbp, %rdx
	callq	memchr.bytes.memchr
	movq	%rdx, %r14
	cmpb	$1, %al
	jne	.LBB110_72
.LBB110_68:
	leaq	64(%rsp), %rdi
	leaq	1312(%rsp), %rcx
	movq	%r15, %rsi
	movq	%r14, %rdx
	callq	line_filter.answers.AnsweringTake.take.19f4c77da892a4d9
	testb	%al, %al
	jne	.LBB110_125
	cmpq	$65536, 1320(%rsp)
	jb	.LBB110_67
	leaq	1312(%rsp), %rdi
	callq	line_filter.write.write_out.df9e9f1468b30f79
	testb	%al, %al
	je	.LBB110_67
	jmp	.LBB110_178
.LBB110_71:
	movq	144(%rsp), %rbx
	jmp	.LBB110_73
.LBB110_72:
	xorl	%r12d, %r12d
	.p2align	4
.LBB110_73:
	movq	%rbx, %rax
	subq	%r12, %rax
	cmpq	%rax, %rbp
	movq	88(%rsp), %r14
	ja	.LBB110_97
.LBB110_74:
	movq	128(%rsp), %r13
	xorps	%xmm0, %xmm0
	leaq	136(%rsp), %rax
	movups	%xmm0, (%rax)
	leaq	(%r12,%r13), %rdi
	movq	%rdi, %rax
	subq	%r15, %rax
	cmpq	%rbp, %rax
	jae	.LBB110_77
	cmpq	$4, %rbp
	jb	.LBB110_76
	cmpq	$32, %rax
	jae	.LBB110_80
.LBB110_76:
	xorl	%eax, %eax
.LBB110_89:
	movq	%rbp, %rdx
	movq	%rax, %rcx
	andq	$3, %rdx
	je	.LBB110_92
	movq	%rax, %rcx
	.p2align	4
.LBB110_91:
	movzbl	(%r15,%rcx), %esi
	movb	%sil, (%rdi,%rcx)
	incq	%rcx
	decq	%rdx
	jne	.LBB110_91
.LBB110_92:
	subq	%rbp, %rax
	cmpq	$-4, %rax
	ja	.LBB110_95
	leaq	(%r12,%r13), %rax
	addq	$3, %rax
	.p2align	4
.LBB110_94:
	movzbl	(%r15,%rcx), %edx
	movb	%dl, -3(%rax,%rcx)
	movzbl	1(%r15,%rcx), %edx
	movb	%dl, -2(%rax,%rcx)
	movzbl	2(%r15,%rcx), %edx
	movb	%dl, -1(%rax,%rcx)
	movzbl	3(%r15,%rcx), %edx
	movb	%dl, (%rax,%rcx)
	addq	$4, %rcx
	cmpq	%rcx, %rbp
	jne	.LBB110_94
	jmp	.LBB110_95
.LBB110_77:
	movq	%r15, %rsi
	movq	%rbp, %rdx
	callq	memmove@PLT
.LBB110_95:
	addq	%rbp, %r12
	movq	%r12, 136(%rsp)
	movq	%rbx, 144(%rsp)
	leaq	1312(%rsp), %rdi
	callq	line_filter.write.write_out.df9e9f1468b30f79
	testb	%al, %al
	jne	.LBB110_305
	incq	%r14
	cmpq	$-1, %r14
	movq	24(%rsp), %r15
	jne	.LBB110_28
	jmp	.LBB110_296
.LBB110_80:
	cmpq	$32, %rbp
	jae	.LBB110_82
	xorl	%eax, %eax
	jmp	.LBB110_86
.LBB110_82:
	movq	%rbp, %rax
	andq	$-32, %rax
	leaq	(%r12,%r13), %rcx
	addq	$16, %rcx
	xorl	%edx, %edx
	.p2align	4
.LBB110_83:
	movups	(%r15,%rdx), %xmm0
	movups	16(%r15,%rdx), %xmm1
	movups	%xmm0, -16(%rcx,%rdx)
	movups	%xmm1, (%rcx,%rdx)
	addq	$32, %rdx
	cmpq	%rdx, %rax
	jne	.LBB110_83
	cmpq	%rax, %rbp
	je	.LBB110_95
	testb	$28, %bpl
	je	.LBB110_89
.LBB110_86:
	movq	%rax, %rcx
	movq	%rbp, %rax
	andq	$-4, %rax
	.p2align	4
.LBB110_87:
	movl	(%r15,%rcx), %edx
	movl	%edx, (%rdi,%rcx)
	addq	$4, %rcx
	cmpq	%rcx, %rax
	jne	.LBB110_87
	cmpq	%rax, %rbp
	je	.LBB110_95
	jmp	.LBB110_89
.LBB110_97:
	leaq	128(%rsp), %rdi
	movq	%rbp, %rsi
	callq	std_alloc.vec.Vec.grow_amortized.05fa32d921161499
	testb	%al, %al
	je	.LBB110_104
	movq	136(%rsp), %r12
	movq	144(%rsp), %rbx
	jmp	.LBB110_74
.LBB110_99:
	movq	24(%r12), %rbp
	movq	32(%r12), %rsi
	cmpq	$2, %rsi
	je	.LBB110_108
	cmpq	$9, %rsi
	je	.LBB110_106
	cmpq	$6, %rsi
	jne	.LBB110_110
	movl	(%rbp), %eax
	movl	2(%rbp), %ecx
	shlq	$32, %rcx
	orq	%rax, %rcx
	movabsq	$8100961328785009965, %rax
	cmpq	%rax, %rcx
	je	.LBB110_103
.LBB110_110:
	movb	$3, %al
	jmp	.LBB110_111
.LBB110_104:
	movb	$2, %bpl
.LBB110_105:
	movq	16(%rsp), %r12
	movq	24(%rsp), %r15
	cmpq	$0, 1328(%rsp)
	je	.LBB110_180
.LBB110_179:
	movq	1312(%rsp), %rdi
	callq	rattle_dealloc@PLT
.LBB110_180:
	cmpq	$0, 144(%rsp)
	je	.LBB110_183
	movq	128(%rsp), %rdi
.LBB110_182:
	callq	rattle_dealloc@PLT
.LBB110_183:
	movq	%r15, %rdi
	callq	rattle_dealloc@PLT
.LBB110_184:
	cmpq	$0, 80(%rsp)
	je	.LBB110_186
.LBB110_185:
	movq	64(%rsp), %rdi
	callq	rattle_dealloc@PLT
.LBB110_186:
	movzbl	96(%rsp), %edi
	movzbl	%bpl, %esi
	callq	line_filter.program.ended
	movl	%eax, %ebx
	cmpq	$0, 32(%rsp)
	je	.LBB110_189
	cmpq	$0, 48(%rsp)
	je	.LBB110_189
	movq	56(%rsp), %rdi
	callq	rattle_dealloc@PLT
.LBB110_189:
	cmpq	$0, 104(%rsp)
	jne	.LBB110_271
	jmp	.LBB110_304
.LBB110_106:
	movq	(%rbp), %rcx
	movq	1(%rbp), %rdx
	movabsq	$8028074745930329389, %rdi
	xorq	%rcx, %rdi
	movabsq	$7957695011148363309, %r8
	xorq	%rdx, %r8
	movb	$1, %al
	orq	%rdi, %r8
	je	.LBB110_111
	movabsq	$7954880239688756525, %rax
	xorq	%rax, %rcx
	movabsq	$8389754659335924781, %rax
	xorq	%rax, %rdx
	orq	%rcx, %rdx
	sete	%al
	xorb	$3, %al
	jmp	.LBB110_111
.LBB110_108:
	movzbl	(%rbp), %eax
	movzbl	1(%rbp), %ecx
	shll	$16, %eax
	movl	%ecx, %edx
	shll	$8, %edx
	orl	%eax, %edx
	orl	%ecx, %edx
	cmpl	$2975848, %edx
	jne	.LBB110_110
.LBB110_103:
	xorl	%eax, %eax
.LBB110_111:
	movq	40(%r12), %r14
	cmpq	$2, 32(%rsp)
	jne	.LBB110_114
	movzbl	%al, %eax
	leaq	.LJTI110_0(%rip), %rcx
	movslq	(%rcx,%rax,4), %rax
	addq	%rcx, %rax
	jmpq	*%rax
.LBB110_113:
	leaq	.Lstatic.1(%rip), %rdi
	movl	$838, %esi
	jmp	.LBB110_273
.LBB110_114:
	movq	%r15, 56(%rsp)
	movq	%r14, %r15
	movq	48(%r12), %rbx
	movq	56(%r12), %rsi
	movq	64(%r12), %r14
	movq	%rbx, %rdi
	callq	line_filter.program.refuse
	testq	%r14, %r14
	je	.LBB110_116
	movq	%rbx, %rdi
	callq	rattle_dealloc@PLT
.LBB110_116:
	testq	%r15, %r15
	je	.LBB110_118
	movq	%rbp, %rdi
	callq	rattle_dealloc@PLT
.LBB110_118:
	cmpq	$0, 48(%rsp)
	movq	56(%rsp), %rdi
	je	.LBB110_120
	callq	rattle_dealloc@PLT
.LBB110_120:
	movq	32(%rsp), %r14
	cmpq	$3, %r14
	je	.LBB110_269
	addq	$-3, %r14
	leaq	88(%r12), %rbx
	jmp	.LBB110_123
	.p2align	4
.LBB110_122:
	addq	$24, %rbx
	decq	%r14
	je	.LBB110_269
.LBB110_123:
	cmpq	$0, (%rbx)
	je	.LBB110_122
	movq	-16(%rbx), %rdi
	callq	rattle_dealloc@PLT
	jmp	.LBB110_122
.LBB110_125:
	movb	$2, %bpl
	movq	24(%rsp), %r15
	cmpq	$0, 1328(%rsp)
	jne	.LBB110_179
	jmp	.LBB110_180
.LBB110_126:
	cmpq	$0, 144(%rsp)
	je	.LBB110_128
	movq	128(%rsp), %rdi
	callq	rattle_dealloc@PLT
.LBB110_128:
	movq	1328(%rsp), %rbx
	movq	32(%rsp), %r15
	testq	%r15, %r15
	je	.LBB110_133
	movq	48(%rsp), %rax
	leaq	16(%rax), %r14
	jmp	.LBB110_131
	.p2align	4
.LBB110_130:
	addq	$24, %r14
	decq	%r15
	je	.LBB110_133
.LBB110_131:
	cmpq	$0, (%r14)
	je	.LBB110_130
	movq	-16(%r14), %rdi
	callq	rattle_dealloc@PLT
	jmp	.LBB110_130
.LBB110_133:
	leaq	1312(%rsp), %r12
	testq	%rbx, %rbx
	je	.LBB110_136
	movq	48(%rsp), %rdi
.LBB110_135:
	callq	rattle_dealloc@PLT
.LBB110_136:
	movb	$21, 128(%rsp)
	movb	$38, 1312(%rsp)
	cmpb	$21, (%r12)
	jne	.LBB110_142
	movl	$2, 128(%rsp)
	leaq	132(%rsp), %rbx
	leaq	140(%rsp), %rdi
	xorl	%r14d, %r14d
	movl	$1124, %edx
	xorl	%esi, %esi
	callq	memset@PLT
	movl	$32, 1264(%rsp)
	movq	$0, 1268(%rsp)
	movl	$0, 1276(%rsp)
	movq	$-1, 1280(%rsp)
	xorps	%xmm0, %xmm0
	movups	%xmm0, 1288(%rsp)
	movl	1264(%rsp), %eax
	movl	%eax, 1312(%rsp)
	movq	1268(%rsp), %rax
	movq	%rax, 1316(%rsp)
	movl	1276(%rsp), %eax
	movl	%eax, 1324(%rsp)
	movq	$-1, 1328(%rsp)
	movabsq	$8386112020213033324, %rax
	movq	%rax, 132(%rsp)
	movw	$14949, 140(%rsp)
	movb	$32, 142(%rsp)
	movq	$11, 1160(%rsp)
	movl	$32, 1264(%rsp)
	movq	$0, 1268(%rsp)
	movl	$0, 1276(%rsp)
	movl	$11, %ecx
	jmp	.LBB110_139
	.p2align	4
.LBB110_138:
	movb	%bpl, 132(%rsp,%rax)
	leaq	1(%rax), %rcx
	movq	%rcx, 1160(%rsp)
	incq	%r14
	cmpq	$23, %r14
	je	.LBB110_143
.LBB110_139:
	leaq	.Lstatic.4(%rip), %rax
	movzbl	(%r14,%rax), %ebp
	movq	%rcx, %rax
	cmpq	$1024, %rcx
	jb	.LBB110_138
	leaq	128(%rsp), %rdi
	callq	std_io.io.buffer.Buffer.flush
	testb	%al, %al
	je	.LBB110_302
	movq	1160(%rsp), %rax
	cmpq	$1023, %rax
	jbe	.LBB110_138
	jmp	.LBB110_302
.LBB110_142:
	leaq	.Lstatic.0(%rip), %rax
	movq	%rax, 1312(%rsp)
	movq	$9, 1320(%rsp)
	leaq	.Lstatic.12(%rip), %rax
	movq	%rax, 1328(%rsp)
	movq	$15, 1336(%rsp)
	leaq	128(%rsp), %rdi
	leaq	1312(%rsp), %rsi
	callq	std_io.io.LibcRuntimeEprint.eprintln.27a8a20715d85f24
	movb	$1, %bl
	jmp	.LBB110_304
.LBB110_143:
	movl	$32, 1264(%rsp)
	cmpq	$0, 1288(%rsp)
	movl	$0, 1144(%rbx)
	movq	$0, 1136(%rbx)
	movq	$-1, 1280(%rsp)
	jne	.LBB110_301
	cmpq	$1023, %rax
	jb	.LBB110_146
	leaq	128(%rsp), %rdi
	callq	std_io.io.buffer.Buffer.flush
	movq	1160(%rsp), %rcx
	cmpq	$1024, %rcx
	setb	%dl
	andb	%al, %dl
	cmpb	$1, %dl
	jne	.LBB110_302
.LBB110_146:
	movb	$59, 132(%rsp,%rcx)
	leaq	1(%rcx), %rdx
	movq	%rdx, 1160(%rsp)
	cmpq	$1023, %rcx
	jb	.LBB110_148
	leaq	128(%rsp), %rdi
	callq	std_io.io.buffer.Buffer.flush
	movq	1160(%rsp), %rdx
	cmpq	$1024, %rdx
	setb	%cl
	andb	%al, %cl
	cmpb	$1, %cl
	jne	.LBB110_302
.LBB110_148:
	movb	$32, 132(%rsp,%rdx)
	leaq	1(%rdx), %rcx
	movq	%rcx, 1160(%rsp)
	cmpq	$1023, %rdx
	jb	.LBB110_150
	leaq	128(%rsp), %rdi
	callq	std_io.io.buffer.Buffer.flush
	movq	1160(%rsp), %rcx
	cmpq	$1024, %rcx
	setb	%dl
	andb	%al, %dl
	cmpb	$1, %dl
	jne	.LBB110_302
.LBB110_150:
	movb	$115, 132(%rsp,%rcx)
	leaq	1(%rcx), %rdx
	movq	%rdx, 1160(%rsp)
	cmpq	$1023, %rcx
	jb	.LBB110_152
	leaq	128(%rsp), %rdi
	callq	std_io.io.buffer.Buffer.flush
	movq	1160(%rsp), %rdx
	cmpq	$1024, %rdx
	setb	%cl
	andb	%al, %cl
	cmpb	$1, %cl
	jne	.LBB110_302
.LBB110_152:
	movb	$101, 132(%rsp,%rdx)
	leaq	1(%rdx), %rcx
	movq	%rcx, 1160(%rsp)
	cmpq	$1023, %rdx
	jb	.LBB110_154
	leaq	128(%rsp), %rdi
	callq	std_io.io.buffer.Buffer.flush
	movq	1160(%rsp), %rcx
	cmpq	$1024, %rcx
	setb	%dl
	andb	%al, %dl
	cmpb	$1, %dl
	jne	.LBB110_302
.LBB110_154:
	movb	$101, 132(%rsp,%rcx)
	leaq	1(%rcx), %rdx
	movq	%rdx, 1160(%rsp)
	cmpq	$1023, %rcx
	jb	.LBB110_156
	leaq	128(%rsp), %rdi
	callq	std_io.io.buffer.Buffer.flush
	movq	1160(%rsp), %rdx
	cmpq	$1024, %rdx
	setb	%cl
	andb	%al, %cl
	cmpb	$1, %cl
	jne	.LBB110_302
.LBB110_156:
	movb	$32, 132(%rsp,%rdx)
	incq	%rdx
	movq	%rdx, 1160(%rsp)
.LBB110_157:
	movl	$32, 1264(%rsp)
	cmpq	$0, 1288(%rsp)
	movl	$0, 1144(%rbx)
	movq	$0, 1136(%rbx)
	movq	$-1, 1280(%rsp)
	jne	.LBB110_320
	movq	1160(%rsp), %rdx
	cmpq	$1024, %rdx
	jb	.LBB110_160
	leaq	128(%rsp), %rdi
	callq	std_io.io.buffer.Buffer.flush
	movq	1160(%rsp), %rdx
	cmpq	$1024, %rdx
	setb	%cl
	andb	%al, %cl
	cmpb	$1, %cl
	jne	.LBB110_302
.LBB110_160:
	movb	$108, 132(%rsp,%rdx)
	leaq	1(%rdx), %rcx
	movq	%rcx, 1160(%rsp)
	cmpq	$1023, %rdx
	jb	.LBB110_162
	leaq	128(%rsp), %rdi
	callq	std_io.io.buffer.Buffer.flush
	movq	1160(%rsp), %rcx
	cmpq	$1024, %rcx
	setb	%dl
	andb	%al, %dl
	cmpb	$1, %dl
	jne	.LBB110_302
.LBB110_162:
	movb	$105, 132(%rsp,%rcx)
	leaq	1(%rcx), %rdx
	movq	%rdx, 1160(%rsp)
	cmpq	$1023, %rcx
	jb	.LBB110_164
	leaq	128(%rsp), %rdi
	callq	std_io.io.buffer.Buffer.flush
	movq	1160(%rsp), %rdx
	cmpq	$1024, %rdx
	setb	%cl
	andb	%al, %cl
	cmpb	$1, %cl
	jne	.LBB110_302
.LBB110_164:
	movb	$110, 132(%rsp,%rdx)
	leaq	1(%rdx), %rcx
	movq	%rcx, 1160(%rsp)
	cmpq	$1023, %rdx
	jb	.LBB110_166
	leaq	128(%rsp), %rdi
	callq	std_io.io.buffer.Buffer.flush
	movq	1160(%rsp), %rcx
	cmpq	$1024, %rcx
	setb	%dl
	andb	%al, %dl
	cmpb	$1, %dl
	jne	.LBB110_302
.LBB110_166:
	movb	$107, 132(%rsp,%rcx)
	leaq	1(%rcx), %rdx
	movq	%rdx, 1160(%rsp)
	cmpq	$1023, %rcx
	jb	.LBB110_168
	leaq	128(%rsp), %rdi
	callq	std_io.io.buffer.Buffer.flush
	movq	1160(%rsp), %rdx
	cmpq	$1024, %rdx
	setb	%cl
	andb	%al, %cl
	cmpb	$1, %cl
	jne	.LBB110_302
.LBB110_168:
	movb	$115, 132(%rsp,%rdx)
	leaq	1(%rdx), %rcx
	movq	%rcx, 1160(%rsp)
	cmpq	$1023, %rdx
	jb	.LBB110_170
	leaq	128(%rsp), %rdi
	callq	std_io.io.buffer.Buffer.flush
	movq	1160(%rsp), %rcx
	cmpq	$1024, %rcx
	setb	%dl
	andb	%al, %dl
	cmpb	$1, %dl
	jne	.LBB110_302
.LBB110_170:
	movb	$116, 132(%rsp,%rcx)
	leaq	1(%rcx), %rdx
	movq	%rdx, 1160(%rsp)
	cmpq	$1023, %rcx
	jb	.LBB110_172
	leaq	128(%rsp), %rdi
	callq	std_io.io.buffer.Buffer.flush
	movq	1160(%rsp), %rdx
	cmpq	$1024, %rdx
	setb	%cl
	andb	%al, %cl
	cmpb	$1, %cl
	jne	.LBB110_302
.LBB110_172:
	movb	$97, 132(%rsp,%rdx)
	leaq	1(%rdx), %rcx
	movq	%rcx, 1160(%rsp)
	cmpq	$1023, %rdx
	jb	.LBB110_174
	leaq	128(%rsp), %rdi
	callq	std_io.io.buffer.Buffer.flush
	movq	1160(%rsp), %rcx
	cmpq	$1024, %rcx
	setb	%dl
	andb	%al, %dl
	cmpb	$1, %dl
	jne	.LBB110_302
.LBB110_174:
	movb	$116, 132(%rsp,%rcx)
	leaq	1(%rcx), %rdx
	movq	%rdx, 1160(%rsp)
	cmpq	$1023, %rcx
	jb	.LBB110_176
	leaq	128(%rsp), %rdi
	callq	std_io.io.buffer.Buffer.flush
	movq	1160(%rsp), %rdx
	cmpq	$1024, %rdx
	setb	%cl
	andb	%al, %cl
	cmpb	$1, %cl
	jne	.LBB110_302
.LBB110_176:
	movb	$101, 132(%rsp,%rdx)
	incq	%rdx
	movq	%rdx, 1160(%rsp)
	jmp	.LBB110_321
.LBB110_177:
	movq	16(%rsp), %r12
.LBB110_178:
	movq	24(%rsp), %r15
	movl	%edx, %ebp
	cmpq	$0, 1328(%rsp)
	jne	.LBB110_179
	jmp	.LBB110_180
.LBB110_190:
	movq	%rbp, 120(%rsp)
	movq	%r15, 56(%rsp)
	movq	%r13, 104(%rsp)
	xorps	%xmm0, %xmm0
	movups	%xmm0, 72(%rsp)
	leaq	8(%rsp), %r15
	movq	%r15, 64(%rsp)
	movl	$65536, %edi
	movl	$1, %esi
	callq	rattle_alloc@PLT
	movb	$1, 88(%rsp)
	movb	$2, %bpl
	testb	$1, %al
	je	.LBB110_313
	movq	%rdx, %r13
	movq	%r12, 16(%rsp)
	xorl	%ebx, %ebx
	movl	$65536, %edx
	movq	%r13, %rdi
	xorl	%esi, %esi
	callq	memset@PLT
	movq	%r15, 128(%rsp)
	xorps	%xmm0, %xmm0
	movups	%xmm0, 136(%rsp)
	movq	%r15, 32(%rsp)
	movq	%r15, 1312(%rsp)
	movups	%xmm0, 1320(%rsp)
	xorl	%ebp, %ebp
	xorl	%eax, %eax
	movq	%r14, 24(%rsp)
	movq	%r13, 40(%rsp)
.LBB110_192:
	movq	%rax, 96(%rsp)
	movl	$65536, %r12d
	movl	$65536, %edx
	xorl	%edi, %edi
	movq	%r13, %rsi
	callq	read@PLT
	testq	%rax, %rax
	js	.LBB110_350
	cmpq	$65536, %rax
	cmovbq	%rax, %r12
	movq	%rax, 112(%rsp)
	testq	%rax, %rax
	je	.LBB110_355
	movl	$10, %edi
	movq	%r13, %rsi
	movq	%r12, %rdx
	callq	memchr.bytes.memchr
	cmpb	$1, %al
	jne	.LBB110_230
	movq	%rdx, %r13
	testq	%rbp, %rbp
	je	.LBB110_231
	movq	%rbp, %rbx
	movq	40(%rsp), %r14
	jmp	.LBB110_198
.LBB110_197:
	addq	%r13, %r14
	incq	%r14
	notq	%r13
	addq	%r13, %r12
	movl	$10, %edi
	movq	%r14, %rsi
	movq	%r12, %rdx
	callq	memchr.bytes.memchr
	movq	%rdx, %r13
	xorl	%ebx, %ebx
	cmpb	$1, %al
	jne	.LBB110_236
.LBB110_198:
	testq	%rbx, %rbx
	je	.LBB110_203
	movq	144(%rsp), %rbp
	movq	%rbp, %rax
	subq	%rbx, %rax
	cmpq	%rax, %r13
	movq	32(%rsp), %r8
	ja	.LBB110_228
.LBB110_200:
	leaq	(%r8,%rbx), %rdi
	movq	%rdi, %rax
	subq	%r14, %rax
	cmpq	%r13, %rax
	jae	.LBB110_204
	cmpq	$4, %r13
	jb	.LBB110_202
	cmpq	$32, %rax
	jae	.LBB110_207
.LBB110_202:
	xorl	%eax, %eax
.LBB110_216:
	movq	%r13, %rdx
	movq	%rax, %rcx
	andq	$3, %rdx
	je	.LBB110_219
	movq	%rax, %rcx
	.p2align	4
.LBB110_218:
	movzbl	(%r14,%rcx), %esi
	movb	%sil, (%rdi,%rcx)
	incq	%rcx
	decq	%rdx
	jne	.LBB110_218
.LBB110_219:
	subq	%r13, %rax
	cmpq	$-4, %rax
	ja	.LBB110_222
	leaq	(%r8,%rbx), %rax
	addq	$3, %rax
	.p2align	4
.LBB110_221:
	movzbl	(%r14,%rcx), %edx
	movb	%dl, -3(%rax,%rcx)
	movzbl	1(%r14,%rcx), %edx
	movb	%dl, -2(%rax,%rcx)
	movzbl	2(%r14,%rcx), %edx
	movb	%dl, -1(%rax,%rcx)
	movzbl	3(%r14,%rcx), %edx
	movb	%dl, (%rax,%rcx)
	addq	$4, %rcx
	cmpq	%rcx, %r13
	jne	.LBB110_221
	jmp	.LBB110_222
.LBB110_203:
	leaq	64(%rsp), %rdi
	leaq	1312(%rsp), %rcx
	movq	%r14, %rsi
	movq	%r13, %rdx
	callq	line_filter.answers.AnsweringTake.take.d1b9b744fe2e7f64
	testb	%al, %al
	je	.LBB110_226
	jmp	.LBB110_306
.LBB110_204:
	movq	%r14, %rsi
	movq	%r13, %rdx
	movq	%r8, %r15
	callq	memmove@PLT
	movq	%r15, %r8
.LBB110_222:
	addq	%r13, %rbx
	movq	%rbx, 136(%rsp)
	movq	%rbp, 144(%rsp)
	leaq	64(%rsp), %rdi
	leaq	1312(%rsp), %rcx
	movq	%r8, 32(%rsp)
	movq	%r8, %rsi
	movq	%rbx, %rdx
	callq	line_filter.answers.AnsweringTake.take.d1b9b744fe2e7f64
	testb	%al, %al
	jne	.LBB110_306
	testq	%rbx, %rbx
	je	.LBB110_225
	movq	$0, 136(%rsp)
.LBB110_225:
	xorl	%ebp, %ebp
.LBB110_226:
	cmpq	$65536, 1320(%rsp)
	jb	.LBB110_197
	leaq	1312(%rsp), %rdi
	callq	line_filter.write.write_out.df9e9f1468b30f79
	testb	%al, %al
	je	.LBB110_197
	jmp	.LBB110_307
.LBB110_207:
	cmpq	$32, %r13
	jae	.LBB110_209
	xorl	%eax, %eax
	jmp	.LBB110_213
.LBB110_209:
	movq	%r13, %rax
	andq	$-32, %rax
	leaq	(%r8,%rbx), %rcx
	addq	$16, %rcx
	xorl	%edx, %edx
.LBB110_210:
	movups	(%r14,%rdx), %xmm0
	movups	16(%r14,%rdx), %xmm1
	movups	%xmm0, -16(%rcx,%rdx)
	movups	%xmm1, (%rcx,%rdx)
	addq	$32, %rdx
	cmpq	%rdx, %rax
	jne	.LBB110_210
	cmpq	%rax, %r13
	je	.LBB110_222
	testb	$28, %r13b
	je	.LBB110_216
.LBB110_213:
	movq	%rax, %rcx
	movq	%r13, %rax
	andq	$-4, %rax
.LBB110_214:
	movl	(%r14,%rcx), %edx
	movl	%edx, (%rdi,%rcx)
	addq	$4, %rcx
	cmpq	%rcx, %rax
	jne	.LBB110_214
	cmpq	%rax, %r13
	je	.LBB110_222
	jmp	.LBB110_216
.LBB110_228:
	leaq	128(%rsp), %rdi
	movq	%r13, %rsi
	callq	std_alloc.vec.Vec.grow_amortized.05fa32d921161499
	testb	%al, %al
	je	.LBB110_306
	movq	128(%rsp), %r8
	movq	136(%rsp), %rbx
	movq	144(%rsp), %rbp
	jmp	.LBB110_200
.LBB110_230:
	movq	%r13, %r14
	jmp	.LBB110_239
.LBB110_231:
	movq	40(%rsp), %r14
	jmp	.LBB110_233
.LBB110_232:
	addq	%r13, %r14
	incq	%r14
	notq	%r13
	addq	%r13, %r12
	movl	$10, %edi
	movq	%r14, %rsi
	movq	%r12, %rdx
	callq	memchr.bytes.memchr
	movq	%rdx, %r13
	cmpb	$1, %al
	jne	.LBB110_237
.LBB110_233:
	leaq	64(%rsp), %rdi
	leaq	1312(%rsp), %rcx
	movq	%r14, %rsi
	movq	%r13, %rdx
	callq	line_filter.answers.AnsweringTake.take.d1b9b744fe2e7f64
	testb	%al, %al
	jne	.LBB110_306
	cmpq	$65536, 1320(%rsp)
	jb	.LBB110_232
	leaq	1312(%rsp), %rdi
	callq	line_filter.write.write_out.df9e9f1468b30f79
	testb	%al, %al
	je	.LBB110_232
	jmp	.LBB110_307
.LBB110_236:
	movq	144(%rsp), %rbx
	jmp	.LBB110_238
.LBB110_237:
	xorl	%ebp, %ebp
.LBB110_238:
	movq	40(%rsp), %r13
.LBB110_239:
	movq	%rbx, %rax
	subq	%rbp, %rax
	cmpq	%rax, %r12
	ja	.LBB110_263
.LBB110_240:
	movq	128(%rsp), %r8
	xorps	%xmm0, %xmm0
	leaq	136(%rsp), %rax
	movups	%xmm0, (%rax)
	leaq	(%r8,%rbp), %rdi
	movq	%rdi, %rax
	subq	%r14, %rax
	cmpq	%r12, %rax
	movq	%r8, 32(%rsp)
	jae	.LBB110_243
	cmpq	$4, %r12
	jb	.LBB110_242
	cmpq	$32, %rax
	jae	.LBB110_246
.LBB110_242:
	xorl	%eax, %eax
.LBB110_255:
	movq	%r12, %rdx
	movq	%rax, %rcx
	andq	$3, %rdx
	je	.LBB110_258
	movq	%rax, %rcx
.LBB110_257:
	movzbl	(%r14,%rcx), %esi
	movb	%sil, (%rdi,%rcx)
	incq	%rcx
	decq	%rdx
	jne	.LBB110_257
.LBB110_258:
	subq	%r12, %rax
	cmpq	$-4, %rax
	ja	.LBB110_261
	leaq	(%r8,%rbp), %rax
	addq	$3, %rax
.LBB110_260:
	movzbl	(%r14,%rcx), %edx
	movb	%dl, -3(%rax,%rcx)
	movzbl	1(%r14,%rcx), %edx
	movb	%dl, -2(%rax,%rcx)
	movzbl	2(%r14,%rcx), %edx
	movb	%dl, -1(%rax,%rcx)
	movzbl	3(%r14,%rcx), %edx
	movb	%dl, (%rax,%rcx)
	addq	$4, %rcx
	cmpq	%rcx, %r12
	jne	.LBB110_260
	jmp	.LBB110_261
.LBB110_243:
	movq	%r14, %rsi
	movq	%r12, %rdx
	callq	memmove@PLT
.LBB110_261:
	addq	%r12, %rbp
	movq	%rbp, 136(%rsp)
	movq	%rbx, 144(%rsp)
	leaq	1312(%rsp), %rdi
	callq	line_filter.write.write_out.df9e9f1468b30f79
	testb	%al, %al
	movq	96(%rsp), %rax
	jne	.LBB110_362
	incq	%rax
	cmpq	$-1, %rax
	movq	24(%rsp), %r14
	jne	.LBB110_192
	jmp	.LBB110_364
.LBB110_246:
	cmpq	$32, %r12
	jae	.LBB110_248
	xorl	%eax, %eax
	jmp	.LBB110_252
.LBB110_248:
	movq	%r12, %rax
	andq	$-32, %rax
	leaq	(%r8,%rbp), %rcx
	addq	$16, %rcx
	xorl	%edx, %edx
.LBB110_249:
	movups	(%r14,%rdx), %xmm0
	movups	16(%r14,%rdx), %xmm1
	movups	%xmm0, -16(%rcx,%rdx)
	movups	%xmm1, (%rcx,%rdx)
	addq	$32, %rdx
	cmpq	%rdx, %rax
	jne	.LBB110_249
	cmpq	%rax, %r12
	je	.LBB110_261
	testb	$28, %r12b
	je	.LBB110_255
.LBB110_252:
	movq	%rax, %rcx
	movq	%r12, %rax
	andq	$-4, %rax
.LBB110_253:
	movl	(%r14,%rcx), %edx
	movl	%edx, (%rdi,%rcx)
	addq	$4, %rcx
	cmpq	%rcx, %rax
	jne	.LBB110_253
	cmpq	%rax, %r12
	je	.LBB110_261
	jmp	.LBB110_255
.LBB110_263:
	leaq	128(%rsp), %rdi
	movq	%r12, %rsi
	callq	std_alloc.vec.Vec.grow_amortized.05fa32d921161499
	testb	%al, %al
	je	.LBB110_373
	movq	136(%rsp), %rbp
	movq	144(%rsp), %rbx
	jmp	.LBB110_240
.LBB110_265:
	movq	%rbp, %rdi
	callq	line_filter.program.refuse
	testq	%r14, %r14
	je	.LBB110_267
	movq	%rbp, %rdi
	callq	rattle_dealloc@PLT
.LBB110_267:
	cmpq	$0, 48(%rsp)
	je	.LBB110_269
	movq	%r15, %rdi
	callq	rattle_dealloc@PLT
.LBB110_269:
	movb	$2, %bl
.LBB110_270:
	testq	%r13, %r13
	je	.LBB110_304
.LBB110_271:
	movq	%r12, %rdi
	callq	rattle_dealloc@PLT
	jmp	.LBB110_304
.LBB110_272:
	leaq	.Lstatic.2(%rip), %rdi
	movl	$16, %esi
.LBB110_273:
	callq	line_filter.program.write_text
	movl	%eax, %ebx
	testq	%r14, %r14
	je	.LBB110_275
	movq	%rbp, %rdi
	callq	rattle_dealloc@PLT
.LBB110_275:
	cmpq	$0, 48(%rsp)
	je	.LBB110_270
	movq	%r15, %rdi
	callq	rattle_dealloc@PLT
	jmp	.LBB110_270
.LBB110_277:
	testq	%rbx, %rbx
	je	.LBB110_279
	movq	%r15, %rdi
	callq	rattle_dealloc@PLT
.LBB110_279:
	movq	1312(%rsp), %rbx
	movq	1328(%rsp), %r14
	movq	32(%rsp), %r13
	testq	%r13, %r13
	je	.LBB110_348
	leaq	16(%rbx), %r15
	jmp	.LBB110_282
	.p2align	4
.LBB110_281:
	addq	$24, %r15
	decq	%r13
	je	.LBB110_348
.LBB110_282:
	cmpq	$0, (%r15)
	je	.LBB110_281
	movq	-16(%r15), %rdi
	callq	rattle_dealloc@PLT
	jmp	.LBB110_281
.LBB110_284:
	callq	rattle_errno@PLT
	cmpq	$0, 1328(%rsp)
	je	.LBB110_286
	movq	1312(%rsp), %rdi
	callq	rattle_dealloc@PLT
.LBB110_286:
	testq	%rbx, %rbx
	movq	16(%rsp), %r12
	je	.LBB110_288
	movq	%r13, %rdi
	callq	rattle_dealloc@PLT
.LBB110_288:
	xorl	%ebp, %ebp
	jmp	.LBB110_183
.LBB110_289:
	testq	%r12, %r12
	je	.LBB110_296
	leaq	64(%rsp), %rdi
	leaq	1312(%rsp), %rcx
	movq	%r13, %rsi
	movq	%r12, %rdx
	callq	line_filter.answers.AnsweringTake.take.19f4c77da892a4d9
	movb	$2, %dl
	testb	%al, %al
	jne	.LBB110_292
	leaq	1312(%rsp), %rdi
	callq	line_filter.write.write_out.df9e9f1468b30f79
	testb	%al, %al
	je	.LBB110_296
.LBB110_292:
	movl	%edx, %ebp
	cmpq	$0, 1328(%rsp)
	movq	16(%rsp), %r12
	je	.LBB110_294
	movq	1312(%rsp), %rdi
	callq	rattle_dealloc@PLT
.LBB110_294:
	testq	%rbx, %rbx
	je	.LBB110_183
	movq	%r13, %rdi
	jmp	.LBB110_182
.LBB110_296:
	cmpq	$0, 1328(%rsp)
	je	.LBB110_298
	movq	1312(%rsp), %rdi
	callq	rattle_dealloc@PLT
.LBB110_298:
	testq	%rbx, %rbx
	movq	16(%rsp), %r12
	je	.LBB110_300
	movq	%r13, %rdi
	callq	rattle_dealloc@PLT
.LBB110_300:
	cmpq	$0, 40(%rsp)
	setne	96(%rsp)
	movq	%r15, %rdi
	callq	rattle_dealloc@PLT
	xorl	%ebp, %ebp
	cmpq	$0, 80(%rsp)
	jne	.LBB110_185
	jmp	.LBB110_186
.LBB110_301:
	leaq	.Lstatic.6(%rip), %rsi
	leaq	128(%rsp), %rdi
	movl	$6, %edx
	callq	core.fmt.formatter.Formatter.write_indented.bf264aed5fa78656
	testb	%al, %al
	je	.LBB110_157
.LBB110_302:
	movq	1328(%rsp), %rax
	movq	%rax, 1148(%rbx)
	movaps	1312(%rsp), %xmm0
	movups	%xmm0, 1132(%rbx)
.LBB110_303:
	movl	128(%rsp), %eax
	movl	%eax, 1312(%rsp)
	leaq	1316(%rsp), %rdi
	movl	$1132, %edx
	movq	%rbx, %rsi
	callq	memcpy@PLT
	leaq	1312(%rsp), %rdi
	callq	std_io.io.buffer.Buffer.flush
	movb	$2, %bl
.LBB110_304:
	movzbl	%bl, %eax
	addq	$2456, %rsp
	.cfi_def_cfa_offset 56
	popq	%rbx
	.cfi_def_cfa_offset 48
	popq	%r12
	.cfi_def_cfa_offset 40
	popq	%r13
	.cfi_def_cfa_offset 32
	popq	%r14
	.cfi_def_cfa_offset 24
	popq	%r15
	.cfi_def_cfa_offset 16
	popq	%rbp
	.cfi_def_cfa_offset 8
	retq
.LBB110_305:
	.cfi_def_cfa_offset 2512
	movl	%edx, %ebp
	jmp	.LBB110_105
.LBB110_306:
	movb	$2, %bpl
	movq	16(%rsp), %r12
	movq	24(%rsp), %r14
	movq	40(%rsp), %r13
	cmpq	$0, 1328(%rsp)
	je	.LBB110_309
.LBB110_308:
	movq	1312(%rsp), %rdi
	callq	rattle_dealloc@PLT
.LBB110_309:
	cmpq	$0, 144(%rsp)
	je	.LBB110_312
	movq	128(%rsp), %rdi
.LBB110_311:
	callq	rattle_dealloc@PLT
.LBB110_312:
	movq	%r13, %rdi
	callq	rattle_dealloc@PLT
.LBB110_313:
	cmpq	$0, 80(%rsp)
	je	.LBB110_315
.LBB110_314:
	movq	64(%rsp), %rdi
	callq	rattle_dealloc@PLT
.LBB110_315:
	movzbl	88(%rsp), %edi
	movzbl	%bpl, %esi
	callq	line_filter.program.ended
	movl	%eax, %ebx
	testq	%r14, %r14
	je	.LBB110_317
	movq	120(%rsp), %rdi
	callq	rattle_dealloc@PLT
.LBB110_317:
	cmpq	$0, 48(%rsp)
	movq	104(%rsp), %r14
	movq	56(%rsp), %rdi
	je	.LBB110_319
	callq	rattle_dealloc@PLT
.LBB110_319:
	testq	%r14, %r14
	jne	.LBB110_271
	jmp	.LBB110_304
.LBB110_307:
	movq	16(%rsp), %r12
	movq	24(%rsp), %r14
	movq	40(%rsp), %r13
	movl	%edx, %ebp
	cmpq	$0, 1328(%rsp)
	jne	.LBB110_308
	jmp	.LBB110_309
.LBB110_320:
	leaq	.Lstatic.0(%rip), %rsi
	leaq	128(%rsp), %rdi
	movl	$9, %edx
	callq	core.fmt.formatter.Formatter.write_indented.bf264aed5fa78656
	testb	%al, %al
	jne	.LBB110_302
.LBB110_321:
	movl	$32, 1264(%rsp)
	movl	$0, 1144(%rbx)
	movq	$0, 1136(%rbx)
	movq	$-1, 1280(%rsp)
	cmpq	$0, 1288(%rsp)
	jne	.LBB110_372
	movq	1160(%rsp), %rdx
	cmpq	$1024, %rdx
	jb	.LBB110_324
	leaq	128(%rsp), %rdi
	callq	std_io.io.buffer.Buffer.flush
	movq	1160(%rsp), %rdx
	cmpq	$1024, %rdx
	setb	%cl
	andb	%al, %cl
	cmpb	$1, %cl
	jne	.LBB110_302
.LBB110_324:
	movb	$32, 132(%rsp,%rdx)
	leaq	1(%rdx), %rcx
	movq	%rcx, 1160(%rsp)
	cmpq	$1023, %rdx
	jb	.LBB110_326
	leaq	128(%rsp), %rdi
	callq	std_io.io.buffer.Buffer.flush
	movq	1160(%rsp), %rcx
	cmpq	$1024, %rcx
	setb	%dl
	andb	%al, %dl
	cmpb	$1, %dl
	jne	.LBB110_302
.LBB110_326:
	movb	$45, 132(%rsp,%rcx)
	leaq	1(%rcx), %rdx
	movq	%rdx, 1160(%rsp)
	cmpq	$1023, %rcx
	jb	.LBB110_328
	leaq	128(%rsp), %rdi
	callq	std_io.io.buffer.Buffer.flush
	movq	1160(%rsp), %rdx
	cmpq	$1024, %rdx
	setb	%cl
	andb	%al, %cl
	cmpb	$1, %cl
	jne	.LBB110_302
.LBB110_328:
	movb	$45, 132(%rsp,%rdx)
	leaq	1(%rdx), %rcx
	movq	%rcx, 1160(%rsp)
	cmpq	$1023, %rdx
	jb	.LBB110_330
	leaq	128(%rsp), %rdi
	callq	std_io.io.buffer.Buffer.flush
	movq	1160(%rsp), %rcx
	cmpq	$1024, %rcx
	setb	%dl
	andb	%al, %dl
	cmpb	$1, %dl
	jne	.LBB110_302
.LBB110_330:
	movb	$104, 132(%rsp,%rcx)
	leaq	1(%rcx), %rdx
	movq	%rdx, 1160(%rsp)
	cmpq	$1023, %rcx
	jb	.LBB110_332
	leaq	128(%rsp), %rdi
	callq	std_io.io.buffer.Buffer.flush
	movq	1160(%rsp), %rdx
	cmpq	$1024, %rdx
	setb	%cl
	andb	%al, %cl
	cmpb	$1, %cl
	jne	.LBB110_302
.LBB110_332:
	movb	$101, 132(%rsp,%rdx)
	leaq	1(%rdx), %rcx
	movq	%rcx, 1160(%rsp)
	cmpq	$1023, %rdx
	jb	.LBB110_334
	leaq	128(%rsp), %rdi
	callq	std_io.io.buffer.Buffer.flush
	movq	1160(%rsp), %rcx
	cmpq	$1024, %rcx
	setb	%dl
	andb	%al, %dl
	cmpb	$1, %dl
	jne	.LBB110_302
.LBB110_334:
	movb	$108, 132(%rsp,%rcx)
	leaq	1(%rcx), %rdx
	movq	%rdx, 1160(%rsp)
	cmpq	$1023, %rcx
	jb	.LBB110_336
	leaq	128(%rsp), %rdi
	callq	std_io.io.buffer.Buffer.flush
	movq	1160(%rsp), %rdx
	cmpq	$1024, %rdx
	setb	%cl
	andb	%al, %cl
	cmpb	$1, %cl
	jne	.LBB110_302
.LBB110_336:
	movb	$112, 132(%rsp,%rdx)
	incq	%rdx
	movq	%rdx, 1160(%rsp)
	movq	1328(%rsp), %rax
	movq	%rax, 1148(%rbx)
	movaps	1312(%rsp), %xmm0
	movups	%xmm0, 1132(%rbx)
.LBB110_337:
	movq	1148(%rbx), %rax
	movq	%rax, 1328(%rsp)
	movups	1132(%rbx), %xmm0
	movaps	%xmm0, 1312(%rsp)
	movl	$32, 1264(%rsp)
	movl	$0, 1144(%rbx)
	movq	$0, 1136(%rbx)
	movq	$-1, 1280(%rsp)
	cmpq	$0, 1288(%rsp)
	jne	.LBB110_374
	movq	1160(%rsp), %rcx
	cmpq	$1024, %rcx
	jb	.LBB110_340
	leaq	128(%rsp), %rdi
	callq	std_io.io.buffer.Buffer.flush
	movq	1160(%rsp), %rcx
	cmpq	$1024, %rcx
	setb	%dl
	andb	%al, %dl
	cmpb	$1, %dl
	jne	.LBB110_302
.LBB110_340:
	movb	$10, 132(%rsp,%rcx)
	incq	%rcx
	movq	%rcx, 1160(%rsp)
	jmp	.LBB110_302
.LBB110_341:
	testq	%rbx, %rbx
	je	.LBB110_343
	movq	%r15, %rdi
	callq	rattle_dealloc@PLT
.LBB110_343:
	movq	1312(%rsp), %rbx
	movq	1320(%rsp), %r15
	movq	1328(%rsp), %r14
	testq	%r15, %r15
	je	.LBB110_348
	leaq	16(%rbx), %r13
	jmp	.LBB110_346
.LBB110_345:
	addq	$24, %r13
	decq	%r15
	je	.LBB110_348
.LBB110_346:
	cmpq	$0, (%r13)
	je	.LBB110_345
	movq	-16(%r13), %rdi
	callq	rattle_dealloc@PLT
	jmp	.LBB110_345
.LBB110_348:
	testq	%r14, %r14
	je	.LBB110_136
	movq	%rbx, %rdi
	jmp	.LBB110_135
.LBB110_350:
	callq	rattle_errno@PLT
	cmpq	$0, 1328(%rsp)
	je	.LBB110_352
	movq	1312(%rsp), %rdi
	callq	rattle_dealloc@PLT
.LBB110_352:
	testq	%rbx, %rbx
	movq	16(%rsp), %r12
	je	.LBB110_354
	movq	32(%rsp), %rdi
	callq	rattle_dealloc@PLT
.LBB110_354:
	xorl	%ebp, %ebp
	jmp	.LBB110_312
.LBB110_355:
	testq	%rbp, %rbp
	movq	16(%rsp), %r12
	je	.LBB110_369
	leaq	64(%rsp), %rdi
	leaq	1312(%rsp), %rcx
	movq	32(%rsp), %rsi
	movq	%rbp, %rdx
	callq	line_filter.answers.AnsweringTake.take.d1b9b744fe2e7f64
	movb	$2, %dl
	testb	%al, %al
	jne	.LBB110_358
	leaq	1312(%rsp), %rdi
	callq	line_filter.write.write_out.df9e9f1468b30f79
	testb	%al, %al
	je	.LBB110_369
.LBB110_358:
	movl	%edx, %ebp
	cmpq	$0, 1328(%rsp)
	je	.LBB110_360
	movq	1312(%rsp), %rdi
	callq	rattle_dealloc@PLT
.LBB110_360:
	testq	%rbx, %rbx
	je	.LBB110_312
	movq	32(%rsp), %rdi
	jmp	.LBB110_311
.LBB110_362:
	movl	%edx, %ebp
.LBB110_363:
	movq	16(%rsp), %r12
	movq	24(%rsp), %r14
	cmpq	$0, 1328(%rsp)
	jne	.LBB110_308
	jmp	.LBB110_309
.LBB110_364:
	cmpq	$0, 1328(%rsp)
	je	.LBB110_366
	movq	1312(%rsp), %rdi
	callq	rattle_dealloc@PLT
.LBB110_366:
	testq	%rbx, %rbx
	movq	16(%rsp), %r12
	je	.LBB110_368
.LBB110_367:
	movq	32(%rsp), %rdi
	callq	rattle_dealloc@PLT
.LBB110_368:
	cmpq	$0, 112(%rsp)
	setne	88(%rsp)
	movq	%r13, %rdi
	callq	rattle_dealloc@PLT
	xorl	%ebp, %ebp
	cmpq	$0, 80(%rsp)
	jne	.LBB110_314
	jmp	.LBB110_315
.LBB110_369:
	cmpq	$0, 1328(%rsp)
	je	.LBB110_371
	movq	1312(%rsp), %rdi
	callq	rattle_dealloc@PLT
.LBB110_371:
	testq	%rbx, %rbx
	jne	.LBB110_367
	jmp	.LBB110_368
.LBB110_372:
	leaq	.Lstatic.7(%rip), %rsi
	leaq	128(%rsp), %rdi
	movl	$7, %edx
	callq	core.fmt.formatter.Formatter.write_indented.bf264aed5fa78656
	movaps	1312(%rsp), %xmm0
	movups	%xmm0, 1132(%rbx)
	movq	1328(%rsp), %rcx
	movq	%rcx, 1148(%rbx)
	testb	%al, %al
	jne	.LBB110_303
	jmp	.LBB110_337
.LBB110_373:
	movb	$2, %bpl
	jmp	.LBB110_363
.LBB110_374:
	leaq	.Lstatic.8(%rip), %rsi
	leaq	128(%rsp), %rdi
	movl	$1, %edx
	callq	core.fmt.formatter.Formatter.write_indented.bf264aed5fa78656
	jmp	.LBB110_302
.Lfunc_end110:
	.size	main, .Lfunc_end110-main
	.cfi_endproc
	.section	.rodata.main,"a",@progbits
	.p2align	2, 0x0
.LJTI110_0:
	.long	.LBB110_113-.LJTI110_0
	.long	.LBB110_272-.LJTI110_0
	.long	.LBB110_190-.LJTI110_0
	.long	.LBB110_265-.LJTI110_0

	.type	.Lstatic.0,@object
	.section	.rodata..Lstatic.0,"a",@progbits
.Lstatic.0:
	.ascii	"linkstate"
	.size	.Lstatic.0, 9

	.type	.Lstatic.1,@object
	.section	.rodata..Lstatic.1,"a",@progbits
.Lstatic.1:
	.ascii	"usage: linkstate [--lenient | --help | --version]\n\nReads lines of hexadecimal digits from standard input, each the bytes of a link message of route netlink, and writes\nfor each line one answer: ok and the state encoding of the message, which is its canonical encoding with all that moves\nby itself at zero; nothex for a line that is no bytes; refused for bytes that are no message; unfit for a message that\ncannot be written; empty-ports for one with an empty list of ports. Words key=value in front of the digits, with blanks\nbetween, are written in front of the answer as they stand, and alone where no digits follow them. A word ok right before\nthe digits is passed over.\n\n  --lenient   bytes are a message as far as their attributes fit: one whose payload is refused is kept as it is\n  -h, --help  this text\n  --version   the version\n"
	.size	.Lstatic.1, 838

	.type	.Lstatic.2,@object
	.section	.rodata.cst16,"aM",@progbits,16
.Lstatic.2:
	.ascii	"linkstate 0.4.0\n"
	.size	.Lstatic.2, 16

	.type	.Lstatic.3,@object
	.section	.rodata..Lstatic.3,"a",@progbits
.Lstatic.3:
	.size	.Lstatic.3, 0

	.type	.Lstatic.4,@object
	.section	.rodata..Lstatic.4,"a",@progbits
.Lstatic.4:
	.ascii	"an argument is no UTF-8"
	.size	.Lstatic.4, 23

	.type	.Lstatic.6,@object
	.section	.rodata..Lstatic.6,"a",@progbits
.Lstatic.6:
	.ascii	"; see "
	.size	.Lstatic.6, 6

	.type	.Lstatic.7,@object
	.section	.rodata..Lstatic.7,"a",@progbits
.Lstatic.7:
	.ascii	" --help"
	.size	.Lstatic.7, 7

	.type	.Lstatic.8,@object
	.section	.rodata..Lstatic.8,"a",@progbits
.Lstatic.8:
	.byte	10
	.size	.Lstatic.8, 1

	.type	.Lstatic.10,@object
	.section	.rodata.cst4,"aM",@progbits,4
.Lstatic.10:
	.zero	4,32
	.size	.Lstatic.10, 4

	.type	.Lstatic.12,@object
	.section	.rodata..Lstatic.12,"a",@progbits
.Lstatic.12:
	.ascii	": out of memory"
	.size	.Lstatic.12, 15

	.type	.Lstatic.13,@object
	.section	.rodata..Lstatic.13,"a",@progbits
.Lstatic.13:
	.ascii	"ok "
	.size	.Lstatic.13, 3

	.type	.Lstatic.14,@object
	.section	.rodata..Lstatic.14,"a",@progbits
.Lstatic.14:
	.ascii	"nothex\n"
	.size	.Lstatic.14, 7

	.type	.Lstatic.15,@object
	.section	.rodata..Lstatic.15,"a",@progbits
.Lstatic.15:
	.ascii	"\377\377\377\377\377\377\377\377\377\377\377\377\377\377\377\377\377\377\377\377\377\377\377\377\377\377\377\377\377\377\377\377\377\377\377\377\377\377\377\377\377\377\377\377\377\377\377\377\000\001\002\003\004\005\006\007\b\t\377\377\377\377\377\377\377\n\013\f\r\016\017\377\377\377\377\377\377\377\377\377\377\377\377\377\377\377\377\377\377\377\377\377\377\377\377\377\377\n\013\f\r\016\017\377\377\377\377\377\377\377\377\377\377\377\377\377\377\377\377\377\377\377\377\377\377\377\377\377\377\377\377\377\377\377\377\377\377\377\377\377\377\377\377\377\377\377\377\377\377\377\377\377\377\377\377\377\377\377\377\377\377\377\377\377\377\377\377\377\377\377\377\377\377\377\377\377\377\377\377\377\377\377\377\377\377\377\377\377\377\377\377\377\377\377\377\377\377\377\377\377\377\377\377\377\377\377\377\377\377\377\377\377\377\377\377\377\377\377\377\377\377\377\377\377\377\377\377\377\377\377\377\377\377\377\377\377\377\377\377\377\377\377\377\377\377\377\377\377\377\377\377\377\377\377\377\377"
	.size	.Lstatic.15, 256

	.type	.Lstatic.17,@object
	.section	.rodata..Lstatic.17,"a",@progbits
.Lstatic.17:
	.ascii	"unfit\n"
	.size	.Lstatic.17, 6

	.type	.Lstatic.18,@object
	.section	.rodata..Lstatic.18,"a",@progbits
.Lstatic.18:
	.ascii	"empty-ports\n"
	.size	.Lstatic.18, 12

	.type	.Lstatic.19,@object
	.section	.rodata..Lstatic.19,"a",@progbits
.Lstatic.19:
	.ascii	"header"
	.size	.Lstatic.19, 6

	.type	.Lstatic.20,@object
	.section	.rodata..Lstatic.20,"a",@progbits
.Lstatic.20:
	.ascii	"payload"
	.size	.Lstatic.20, 7

	.type	.Lstatic.21,@object
	.section	.rodata..Lstatic.21,"a",@progbits
.Lstatic.21:
	.ascii	"message"
	.size	.Lstatic.21, 7

	.type	.Lstatic.22,@object
	.section	.rodata..Lstatic.22,"a",@progbits
.Lstatic.22:
	.ascii	"IFLA_INFO_KIND"
	.size	.Lstatic.22, 14

	.type	.Lstatic.23,@object
	.section	.rodata..Lstatic.23,"a",@progbits
.Lstatic.23:
	.ascii	"IFLA_VF_STATS_RX_PACKETS"
	.size	.Lstatic.23, 24

	.type	.Lstatic.24,@object
	.section	.rodata..Lstatic.24,"a",@progbits
.Lstatic.24:
	.ascii	"IFLA_VF_STATS_TX_PACKETS"
	.size	.Lstatic.24, 24

	.type	.Lstatic.25,@object
	.section	.rodata..Lstatic.25,"a",@progbits
.Lstatic.25:
	.ascii	"IFLA_VF_STATS_RX_BYTES"
	.size	.Lstatic.25, 22

	.type	.Lstatic.26,@object
	.section	.rodata..Lstatic.26,"a",@progbits
.Lstatic.26:
	.ascii	"IFLA_VF_STATS_TX_BYTES"
	.size	.Lstatic.26, 22

	.type	.Lstatic.27,@object
	.section	.rodata..Lstatic.27,"a",@progbits
.Lstatic.27:
	.ascii	"IFLA_VF_STATS_BROADCAST"
	.size	.Lstatic.27, 23

	.type	.Lstatic.28,@object
	.section	.rodata..Lstatic.28,"a",@progbits
.Lstatic.28:
	.ascii	"IFLA_VF_STATS_MULTICAST"
	.size	.Lstatic.28, 23

	.type	.Lstatic.29,@object
	.section	.rodata..Lstatic.29,"a",@progbits
.Lstatic.29:
	.ascii	"IFLA_VF_STATS_RX_DROPPED"
	.size	.Lstatic.29, 24

	.type	.Lstatic.30,@object
	.section	.rodata..Lstatic.30,"a",@progbits
.Lstatic.30:
	.ascii	"IFLA_VF_STATS_TX_DROPPED"
	.size	.Lstatic.30, 24

	.type	.Lstatic.31,@object
	.section	.rodata..Lstatic.31,"a",@progbits
.Lstatic.31:
	.ascii	"IFLA_VF_VLAN_INFO"
	.size	.Lstatic.31, 17

	.type	.Lstatic.32,@object
	.section	.rodata..Lstatic.32,"a",@progbits
.Lstatic.32:
	.ascii	"IFLA_VF_MAC"
	.size	.Lstatic.32, 11

	.type	.Lstatic.33,@object
	.section	.rodata..Lstatic.33,"a",@progbits
.Lstatic.33:
	.ascii	"IFLA_VF_VLAN"
	.size	.Lstatic.33, 12

	.type	.Lstatic.34,@object
	.section	.rodata..Lstatic.34,"a",@progbits
.Lstatic.34:
	.ascii	"IFLA_VF_TX_RATE"
	.size	.Lstatic.34, 15

	.type	.Lstatic.35,@object
	.section	.rodata.cst16,"aM",@progbits,16
.Lstatic.35:
	.ascii	"IFLA_VF_SPOOFCHK"
	.size	.Lstatic.35, 16

	.type	.Lstatic.36,@object
	.section	.rodata..Lstatic.36,"a",@progbits
.Lstatic.36:
	.ascii	"IFLA_VF_LINK_STATE"
	.size	.Lstatic.36, 18

	.type	.Lstatic.37,@object
	.section	.rodata..Lstatic.37,"a",@progbits
.Lstatic.37:
	.ascii	"IFLA_VF_RATE"
	.size	.Lstatic.37, 12

	.type	.Lstatic.38,@object
	.section	.rodata..Lstatic.38,"a",@progbits
.Lstatic.38:
	.ascii	"IFLA_VF_RSS_QUERY_EN"
	.size	.Lstatic.38, 20

	.type	.Lstatic.39,@object
	.section	.rodata..Lstatic.39,"a",@progbits
.Lstatic.39:
	.ascii	"IFLA_VF_STATS"
	.size	.Lstatic.39, 13

	.type	.Lstatic.40,@object
	.section	.rodata..Lstatic.40,"a",@progbits
.Lstatic.40:
	.ascii	"IFLA_VF_TRUST"
	.size	.Lstatic.40, 13

	.type	.Lstatic.41,@object
	.section	.rodata..Lstatic.41,"a",@progbits
.Lstatic.41:
	.ascii	"IFLA_VF_IB_NODE_GUID"
	.size	.Lstatic.41, 20

	.type	.Lstatic.42,@object
	.section	.rodata..Lstatic.42,"a",@progbits
.Lstatic.42:
	.ascii	"IFLA_VF_IB_PORT_GUID"
	.size	.Lstatic.42, 20

	.type	.Lstatic.43,@object
	.section	.rodata..Lstatic.43,"a",@progbits
.Lstatic.43:
	.ascii	"IFLA_VF_VLAN_LIST"
	.size	.Lstatic.43, 17

	.type	.Lstatic.44,@object
	.section	.rodata..Lstatic.44,"a",@progbits
.Lstatic.44:
	.ascii	"IFLA_VF_BROADCAST"
	.size	.Lstatic.44, 17

	.type	.Lstatic.45,@object
	.section	.rodata..Lstatic.45,"a",@progbits
.Lstatic.45:
	.ascii	"IFLA_VF_INFO"
	.size	.Lstatic.45, 12

	.type	.Lstatic.46,@object
	.section	.rodata..Lstatic.46,"a",@progbits
.Lstatic.46:
	.ascii	"IFLA_VF_PORT"
	.size	.Lstatic.46, 12

	.type	.Lstatic.47,@object
	.section	.rodata..Lstatic.47,"a",@progbits
.Lstatic.47:
	.ascii	"IFLA_XDP_FD"
	.size	.Lstatic.47, 11

	.type	.Lstatic.48,@object
	.section	.rodata..Lstatic.48,"a",@progbits
.Lstatic.48:
	.ascii	"IFLA_XDP_ATTACHED"
	.size	.Lstatic.48, 17

	.type	.Lstatic.49,@object
	.section	.rodata..Lstatic.49,"a",@progbits
.Lstatic.49:
	.ascii	"IFLA_XDP_FLAGS"
	.size	.Lstatic.49, 14

	.type	.Lstatic.50,@object
	.section	.rodata.cst16,"aM",@progbits,16
.Lstatic.50:
	.ascii	"IFLA_XDP_PROG_ID"
	.size	.Lstatic.50, 16

	.type	.Lstatic.51,@object
	.section	.rodata..Lstatic.51,"a",@progbits
.Lstatic.51:
	.ascii	"IFLA_XDP_DRV_PROG_ID"
	.size	.Lstatic.51, 20

	.type	.Lstatic.52,@object
	.section	.rodata..Lstatic.52,"a",@progbits
.Lstatic.52:
	.ascii	"IFLA_XDP_SKB_PROG_ID"
	.size	.Lstatic.52, 20

	.type	.Lstatic.53,@object
	.section	.rodata..Lstatic.53,"a",@progbits
.Lstatic.53:
	.ascii	"IFLA_XDP_HW_PROG_ID"
	.size	.Lstatic.53, 19

	.type	.Lstatic.54,@object
	.section	.rodata..Lstatic.54,"a",@progbits
.Lstatic.54:
	.ascii	"IFLA_XDP_EXPECTED_FD"
	.size	.Lstatic.54, 20

	.type	.Lstatic.55,@object
	.section	.rodata..Lstatic.55,"a",@progbits
.Lstatic.55:
	.ascii	"IFLA_ALT_IFNAME"
	.size	.Lstatic.55, 15

	.type	.Lstatic.56,@object
	.section	.rodata..Lstatic.56,"a",@progbits
.Lstatic.56:
	.ascii	"IFLA_PROTO_DOWN_REASON_MASK"
	.size	.Lstatic.56, 27

	.type	.Lstatic.57,@object
	.section	.rodata..Lstatic.57,"a",@progbits
.Lstatic.57:
	.ascii	"IFLA_PROTO_DOWN_REASON_VALUE"
	.size	.Lstatic.57, 28

	.type	.Lstatic.58,@object
	.section	.rodata..Lstatic.58,"a",@progbits
.Lstatic.58:
	.ascii	"DEVLINK_ATTR_BUS_NAME"
	.size	.Lstatic.58, 21

	.type	.Lstatic.59,@object
	.section	.rodata..Lstatic.59,"a",@progbits
.Lstatic.59:
	.ascii	"DEVLINK_ATTR_DEV_NAME"
	.size	.Lstatic.59, 21

	.type	.Lstatic.60,@object
	.section	.rodata..Lstatic.60,"a",@progbits
.Lstatic.60:
	.ascii	"DEVLINK_ATTR_PORT_INDEX"
	.size	.Lstatic.60, 23

	.type	.Lstatic.61,@object
	.section	.rodata..Lstatic.61,"a",@progbits
.Lstatic.61:
	.ascii	"DPLL_A_PIN_ID"
	.size	.Lstatic.61, 13

	.type	.Lstatic.63,@object
	.section	.rodata.cst16,"aM",@progbits,16
.Lstatic.63:
	.ascii	"IFLA_INET6_FLAGS"
	.size	.Lstatic.63, 16

	.type	.Lstatic.64,@object
	.section	.rodata..Lstatic.64,"a",@progbits
.Lstatic.64:
	.ascii	"IFLA_INET6_CACHEINFO"
	.size	.Lstatic.64, 20

	.type	.Lstatic.68,@object
	.section	.rodata.cst16,"aM",@progbits,16
.Lstatic.68:
	.ascii	"IFLA_INET6_TOKEN"
	.size	.Lstatic.68, 16

	.type	.Lstatic.69,@object
	.section	.rodata..Lstatic.69,"a",@progbits
.Lstatic.69:
	.ascii	"IFLA_INET6_ADDR_GEN_MODE"
	.size	.Lstatic.69, 24

	.type	.Lstatic.70,@object
	.section	.rodata..Lstatic.70,"a",@progbits
.Lstatic.70:
	.ascii	"IFLA_INET6_RA_MTU"
	.size	.Lstatic.70, 17

	.type	.Lstatic.71,@object
	.section	.rodata..Lstatic.71,"a",@progbits
.Lstatic.71:
	.ascii	"IFLA_MCTP_NET"
	.size	.Lstatic.71, 13

	.type	.Lstatic.72,@object
	.section	.rodata..Lstatic.72,"a",@progbits
.Lstatic.72:
	.ascii	"IFLA_MCTP_PHYS_BINDING"
	.size	.Lstatic.72, 22

	.type	.Lstatic.73,@object
	.section	.rodata..Lstatic.73,"a",@progbits
.Lstatic.73:
	.ascii	"AF_INET"
	.size	.Lstatic.73, 7

	.type	.Lstatic.74,@object
	.section	.rodata.cst8,"aM",@progbits,8
.Lstatic.74:
	.ascii	"AF_INET6"
	.size	.Lstatic.74, 8

	.type	.Lstatic.75,@object
	.section	.rodata..Lstatic.75,"a",@progbits
.Lstatic.75:
	.ascii	"AF_MCTP"
	.size	.Lstatic.75, 7

	.type	.Lstatic.76,@object
	.section	.rodata..Lstatic.76,"a",@progbits
.Lstatic.76:
	.ascii	"IFLA_ADDRESS"
	.size	.Lstatic.76, 12

	.type	.Lstatic.77,@object
	.section	.rodata..Lstatic.77,"a",@progbits
.Lstatic.77:
	.ascii	"IFLA_BROADCAST"
	.size	.Lstatic.77, 14

	.type	.Lstatic.78,@object
	.section	.rodata..Lstatic.78,"a",@progbits
.Lstatic.78:
	.ascii	"IFLA_IFNAME"
	.size	.Lstatic.78, 11

	.type	.Lstatic.79,@object
	.section	.rodata.cst8,"aM",@progbits,8
.Lstatic.79:
	.ascii	"IFLA_MTU"
	.size	.Lstatic.79, 8

	.type	.Lstatic.80,@object
	.section	.rodata..Lstatic.80,"a",@progbits
.Lstatic.80:
	.ascii	"IFLA_LINK"
	.size	.Lstatic.80, 9

	.type	.Lstatic.81,@object
	.section	.rodata..Lstatic.81,"a",@progbits
.Lstatic.81:
	.ascii	"IFLA_QDISC"
	.size	.Lstatic.81, 10

	.type	.Lstatic.82,@object
	.section	.rodata..Lstatic.82,"a",@progbits
.Lstatic.82:
	.ascii	"IFLA_STATS"
	.size	.Lstatic.82, 10

	.type	.Lstatic.83,@object
	.section	.rodata..Lstatic.83,"a",@progbits
.Lstatic.83:
	.ascii	"IFLA_MASTER"
	.size	.Lstatic.83, 11

	.type	.Lstatic.84,@object
	.section	.rodata..Lstatic.84,"a",@progbits
.Lstatic.84:
	.ascii	"IFLA_WIRELESS"
	.size	.Lstatic.84, 13

	.type	.Lstatic.85,@object
	.section	.rodata..Lstatic.85,"a",@progbits
.Lstatic.85:
	.ascii	"IFLA_PROTINFO"
	.size	.Lstatic.85, 13

	.type	.Lstatic.86,@object
	.section	.rodata..Lstatic.86,"a",@progbits
.Lstatic.86:
	.ascii	"IFLA_TXQLEN"
	.size	.Lstatic.86, 11

	.type	.Lstatic.87,@object
	.section	.rodata.cst8,"aM",@progbits,8
.Lstatic.87:
	.ascii	"IFLA_MAP"
	.size	.Lstatic.87, 8

	.type	.Lstatic.88,@object
	.section	.rodata..Lstatic.88,"a",@progbits
.Lstatic.88:
	.ascii	"IFLA_OPERSTATE"
	.size	.Lstatic.88, 14

	.type	.Lstatic.89,@object
	.section	.rodata..Lstatic.89,"a",@progbits
.Lstatic.89:
	.ascii	"IFLA_LINKMODE"
	.size	.Lstatic.89, 13

	.type	.Lstatic.90,@object
	.section	.rodata..Lstatic.90,"a",@progbits
.Lstatic.90:
	.ascii	"IFLA_LINKINFO"
	.size	.Lstatic.90, 13

	.type	.Lstatic.91,@object
	.section	.rodata..Lstatic.91,"a",@progbits
.Lstatic.91:
	.ascii	"IFLA_NET_NS_PID"
	.size	.Lstatic.91, 15

	.type	.Lstatic.92,@object
	.section	.rodata..Lstatic.92,"a",@progbits
.Lstatic.92:
	.ascii	"IFLA_IFALIAS"
	.size	.Lstatic.92, 12

	.type	.Lstatic.93,@object
	.section	.rodata..Lstatic.93,"a",@progbits
.Lstatic.93:
	.ascii	"IFLA_NUM_VF"
	.size	.Lstatic.93, 11

	.type	.Lstatic.94,@object
	.section	.rodata.cst16,"aM",@progbits,16
.Lstatic.94:
	.ascii	"IFLA_VFINFO_LIST"
	.size	.Lstatic.94, 16

	.type	.Lstatic.95,@object
	.section	.rodata..Lstatic.95,"a",@progbits
.Lstatic.95:
	.ascii	"IFLA_STATS64"
	.size	.Lstatic.95, 12

	.type	.Lstatic.96,@object
	.section	.rodata..Lstatic.96,"a",@progbits
.Lstatic.96:
	.ascii	"IFLA_VF_PORTS"
	.size	.Lstatic.96, 13

	.type	.Lstatic.97,@object
	.section	.rodata..Lstatic.97,"a",@progbits
.Lstatic.97:
	.ascii	"IFLA_PORT_SELF"
	.size	.Lstatic.97, 14

	.type	.Lstatic.98,@object
	.section	.rodata..Lstatic.98,"a",@progbits
.Lstatic.98:
	.ascii	"IFLA_AF_SPEC"
	.size	.Lstatic.98, 12

	.type	.Lstatic.99,@object
	.section	.rodata..Lstatic.99,"a",@progbits
.Lstatic.99:
	.ascii	"IFLA_GROUP"
	.size	.Lstatic.99, 10

	.type	.Lstatic.100,@object
	.section	.rodata..Lstatic.100,"a",@progbits
.Lstatic.100:
	.ascii	"IFLA_NET_NS_FD"
	.size	.Lstatic.100, 14

	.type	.Lstatic.101,@object
	.section	.rodata..Lstatic.101,"a",@progbits
.Lstatic.101:
	.ascii	"IFLA_EXT_MASK"
	.size	.Lstatic.101, 13

	.type	.Lstatic.102,@object
	.section	.rodata.cst16,"aM",@progbits,16
.Lstatic.102:
	.ascii	"IFLA_PROMISCUITY"
	.size	.Lstatic.102, 16

	.type	.Lstatic.103,@object
	.section	.rodata..Lstatic.103,"a",@progbits
.Lstatic.103:
	.ascii	"IFLA_NUM_TX_QUEUES"
	.size	.Lstatic.103, 18

	.type	.Lstatic.104,@object
	.section	.rodata..Lstatic.104,"a",@progbits
.Lstatic.104:
	.ascii	"IFLA_NUM_RX_QUEUES"
	.size	.Lstatic.104, 18

	.type	.Lstatic.105,@object
	.section	.rodata..Lstatic.105,"a",@progbits
.Lstatic.105:
	.ascii	"IFLA_CARRIER"
	.size	.Lstatic.105, 12

	.type	.Lstatic.106,@object
	.section	.rodata..Lstatic.106,"a",@progbits
.Lstatic.106:
	.ascii	"IFLA_PHYS_PORT_ID"
	.size	.Lstatic.106, 17

	.type	.Lstatic.107,@object
	.section	.rodata..Lstatic.107,"a",@progbits
.Lstatic.107:
	.ascii	"IFLA_CARRIER_CHANGES"
	.size	.Lstatic.107, 20

	.type	.Lstatic.108,@object
	.section	.rodata..Lstatic.108,"a",@progbits
.Lstatic.108:
	.ascii	"IFLA_PHYS_SWITCH_ID"
	.size	.Lstatic.108, 19

	.type	.Lstatic.109,@object
	.section	.rodata..Lstatic.109,"a",@progbits
.Lstatic.109:
	.ascii	"IFLA_LINK_NETNSID"
	.size	.Lstatic.109, 17

	.type	.Lstatic.110,@object
	.section	.rodata..Lstatic.110,"a",@progbits
.Lstatic.110:
	.ascii	"IFLA_PHYS_PORT_NAME"
	.size	.Lstatic.110, 19

	.type	.Lstatic.111,@object
	.section	.rodata..Lstatic.111,"a",@progbits
.Lstatic.111:
	.ascii	"IFLA_PROTO_DOWN"
	.size	.Lstatic.111, 15

	.type	.Lstatic.112,@object
	.section	.rodata..Lstatic.112,"a",@progbits
.Lstatic.112:
	.ascii	"IFLA_GSO_MAX_SEGS"
	.size	.Lstatic.112, 17

	.type	.Lstatic.113,@object
	.section	.rodata..Lstatic.113,"a",@progbits
.Lstatic.113:
	.ascii	"IFLA_GSO_MAX_SIZE"
	.size	.Lstatic.113, 17

	.type	.Lstatic.114,@object
	.section	.rodata.cst8,"aM",@progbits,8
.Lstatic.114:
	.ascii	"IFLA_XDP"
	.size	.Lstatic.114, 8

	.type	.Lstatic.115,@object
	.section	.rodata..Lstatic.115,"a",@progbits
.Lstatic.115:
	.ascii	"IFLA_EVENT"
	.size	.Lstatic.115, 10

	.type	.Lstatic.116,@object
	.section	.rodata.cst16,"aM",@progbits,16
.Lstatic.116:
	.ascii	"IFLA_NEW_NETNSID"
	.size	.Lstatic.116, 16

	.type	.Lstatic.117,@object
	.section	.rodata..Lstatic.117,"a",@progbits
.Lstatic.117:
	.ascii	"IFLA_IF_NETNSID"
	.size	.Lstatic.117, 15

	.type	.Lstatic.118,@object
	.section	.rodata..Lstatic.118,"a",@progbits
.Lstatic.118:
	.ascii	"IFLA_CARRIER_UP_COUNT"
	.size	.Lstatic.118, 21

	.type	.Lstatic.119,@object
	.section	.rodata..Lstatic.119,"a",@progbits
.Lstatic.119:
	.ascii	"IFLA_CARRIER_DOWN_COUNT"
	.size	.Lstatic.119, 23

	.type	.Lstatic.120,@object
	.section	.rodata.cst16,"aM",@progbits,16
.Lstatic.120:
	.ascii	"IFLA_NEW_IFINDEX"
	.size	.Lstatic.120, 16

	.type	.Lstatic.121,@object
	.section	.rodata..Lstatic.121,"a",@progbits
.Lstatic.121:
	.ascii	"IFLA_MIN_MTU"
	.size	.Lstatic.121, 12

	.type	.Lstatic.122,@object
	.section	.rodata..Lstatic.122,"a",@progbits
.Lstatic.122:
	.ascii	"IFLA_MAX_MTU"
	.size	.Lstatic.122, 12

	.type	.Lstatic.123,@object
	.section	.rodata..Lstatic.123,"a",@progbits
.Lstatic.123:
	.ascii	"IFLA_PROP_LIST"
	.size	.Lstatic.123, 14

	.type	.Lstatic.124,@object
	.section	.rodata..Lstatic.124,"a",@progbits
.Lstatic.124:
	.ascii	"IFLA_PERM_ADDRESS"
	.size	.Lstatic.124, 17

	.type	.Lstatic.125,@object
	.section	.rodata..Lstatic.125,"a",@progbits
.Lstatic.125:
	.ascii	"IFLA_PROTO_DOWN_REASON"
	.size	.Lstatic.125, 22

	.type	.Lstatic.126,@object
	.section	.rodata..Lstatic.126,"a",@progbits
.Lstatic.126:
	.ascii	"IFLA_PARENT_DEV_NAME"
	.size	.Lstatic.126, 20

	.type	.Lstatic.127,@object
	.section	.rodata..Lstatic.127,"a",@progbits
.Lstatic.127:
	.ascii	"IFLA_PARENT_DEV_BUS_NAME"
	.size	.Lstatic.127, 24

	.type	.Lstatic.128,@object
	.section	.rodata..Lstatic.128,"a",@progbits
.Lstatic.128:
	.ascii	"IFLA_GRO_MAX_SIZE"
	.size	.Lstatic.128, 17

	.type	.Lstatic.129,@object
	.section	.rodata..Lstatic.129,"a",@progbits
.Lstatic.129:
	.ascii	"IFLA_TSO_MAX_SIZE"
	.size	.Lstatic.129, 17

	.type	.Lstatic.130,@object
	.section	.rodata..Lstatic.130,"a",@progbits
.Lstatic.130:
	.ascii	"IFLA_TSO_MAX_SEGS"
	.size	.Lstatic.130, 17

	.type	.Lstatic.131,@object
	.section	.rodata..Lstatic.131,"a",@progbits
.Lstatic.131:
	.ascii	"IFLA_ALLMULTI"
	.size	.Lstatic.131, 13

	.type	.Lstatic.132,@object
	.section	.rodata..Lstatic.132,"a",@progbits
.Lstatic.132:
	.ascii	"IFLA_DEVLINK_PORT"
	.size	.Lstatic.132, 17

	.type	.Lstatic.133,@object
	.section	.rodata..Lstatic.133,"a",@progbits
.Lstatic.133:
	.ascii	"IFLA_GSO_IPV4_MAX_SIZE"
	.size	.Lstatic.133, 22

	.type	.Lstatic.134,@object
	.section	.rodata..Lstatic.134,"a",@progbits
.Lstatic.134:
	.ascii	"IFLA_GRO_IPV4_MAX_SIZE"
	.size	.Lstatic.134, 22

	.type	.Lstatic.135,@object
	.section	.rodata..Lstatic.135,"a",@progbits
.Lstatic.135:
	.ascii	"IFLA_DPLL_PIN"
	.size	.Lstatic.135, 13

	.type	.Lstatic.136,@object
	.section	.rodata..Lstatic.136,"a",@progbits
.Lstatic.136:
	.ascii	"IFLA_NETNS_IMMUTABLE"
	.size	.Lstatic.136, 20

	.type	.Lstatic.137,@object
	.section	.rodata..Lstatic.137,"a",@progbits
.Lstatic.137:
	.ascii	"IFLA_HEADROOM"
	.size	.Lstatic.137, 13

	.type	.Lstatic.138,@object
	.section	.rodata..Lstatic.138,"a",@progbits
.Lstatic.138:
	.ascii	"IFLA_TAILROOM"
	.size	.Lstatic.138, 13

	.type	.Lstatic.141,@object
	.section	.rodata..Lstatic.141,"a",@progbits
.Lstatic.141:
	.ascii	"bridge"
	.size	.Lstatic.141, 6

	.type	.Lstatic.143,@object
	.section	.rodata.cst4,"aM",@progbits,4
.Lstatic.143:
	.ascii	"vcan"
	.size	.Lstatic.143, 4

	.type	.Lstatic.145,@object
.Lstatic.145:
	.ascii	"bond"
	.size	.Lstatic.145, 4

	.type	.Lstatic.146,@object
	.section	.rodata.cst16,"aM",@progbits,16
.Lstatic.146:
	.ascii	"0123456789abcdef"
	.size	.Lstatic.146, 16

	.type	.Lstatic.155,@object
	.section	.rodata..Lstatic.155,"a",@progbits
.Lstatic.155:
	.ascii	": write failed"
	.size	.Lstatic.155, 14

	.type	.Lstatic.157,@object
	.section	.rodata..Lstatic.157,"a",@progbits
.Lstatic.157:
	.ascii	"\000\003\000\000\003p\000\004\203\000\004\212\000\005\221\000\005\276\000\005\277\000\005\300\000\005\301\000\005\303\000\005\304\000\005\306\000\005\307\000\005\312\000\006\020\000\006\033\000\006K\000\006`\000\006p\000\006q\000\006\326\000\006\335\000\006\337\000\006\345\000\006\347\000\006\351\000\006\352\000\006\356\000\007\021\000\007\022\000\0070\000\007K\000\007\246\000\007\261\000\007\353\000\007\364\000\007\375\000\007\376\000\b\026\000\b\032\000\b\033\000\b$\000\b%\000\b(\000\b)\000\b.\000\bY\000\b\\\000\b\227\000\b\240\000\b\312\000\b\342\000\b\343\000\t\003\000\t:\000\t;\000\t<\000\t=\000\tA\000\tI\000\tM\000\tN\000\tQ\000\tX\000\tb\000\td\000\t\201\000\t\202\000\t\274\000\t\275\000\t\276\000\t\277\000\t\301\000\t\305\000\t\315\000\t\316\000\t\327\000\t\330\000\t\342\000\t\344\000\t\376\000\t\377\000\n\001\000\n\003\000\n<\000\n=\000\nA\000\nC\000\nG\000\nI\000\nK\000\nN\000\nQ\000\nR\000\np\000\nr\000\nu\000\nv\000\n\201\000\n\203\000\n\274\000\n\275\000\n\301\000\n\306\000\n\307\000\n\311\000\n\315\000\n\316\000\n\342\000\n\344\000\n\372\000\013\000\000\013\001\000\013\002\000\013<\000\013=\000\013>\000\013@\000\013A\000\013E\000\013M\000\013N\000\013S\000\013X\000\013b\000\013d\000\013\202\000\013\203\000\013\276\000\013\277\000\013\300\000\013\301\000\013\315\000\013\316\000\013\327\000\013\330\000\f\000\000\f\001\000\f\004\000\f\005\000\f<\000\f=\000\f>\000\fA\000\fF\000\fI\000\fJ\000\fN\000\fU\000\fW\000\fb\000\fd\000\f\201\000\f\202\000\f\274\000\f\275\000\f\277\000\f\301\000\f\302\000\f\303\000\f\306\000\f\311\000\f\312\000\f\316\000\f\325\000\f\327\000\f\342\000\f\344\000\r\000\000\r\002\000\r;\000\r=\000\r>\000\r?\000\rA\000\rE\000\rM\000\rN\000\rW\000\rX\000\rb\000\rd\000\r\201\000\r\202\000\r\312\000\r\313\000\r\317\000\r\320\000\r\322\000\r\325\000\r\326\000\r\327\000\r\337\000\r\340\000\0161\000\0162\000\0164\000\016;\000\016G\000\016O\000\016\261\000\016\262\000\016\264\000\016\275\000\016\310\000\016\317\000\017\030\000\017\032\000\0175\000\0176\000\0177\000\0178\000\0179\000\017:\000\017q\000\017\177\000\017\200\000\017\205\000\017\206\000\017\210\000\017\215\000\017\230\000\017\231\000\017\275\000\017\306\000\017\307\000\020-\000\0201\000\0202\000\0208\000\0209\000\020;\000\020=\000\020?\000\020X\000\020Z\000\020^\000\020a\000\020q\000\020u\000\020\202\000\020\203\000\020\205\000\020\207\000\020\215\000\020\216\000\020\235\000\020\236\000\023]\000\023`\000\027\022\000\027\026\000\0272\000\0275\000\027R\000\027T\000\027r\000\027t\000\027\264\000\027\266\000\027\267\000\027\276\000\027\306\000\027\307\000\027\311\000\027\324\000\027\335\000\027\336\000\030\013\000\030\016\000\030\017\000\030\020\000\030\205\000\030\207\000\030\251\000\030\252\000\031 \000\031#\000\031'\000\031)\000\0312\000\0313\000\0319\000\031<\000\032\027\000\032\031\000\032\033\000\032\034\000\032V\000\032W\000\032X\000\032_\000\032`\000\032a\000\032b\000\032c\000\032e\000\032m\000\032s\000\032}\000\032\177\000\032\200\000\032\260\000\032\361\000\033\000\000\033\004\000\0334\000\033>\000\033B\000\033E\000\033k\000\033t\000\033\200\000\033\202\000\033\242\000\033\246\000\033\250\000\033\256\000\033\346\000\033\347\000\033\350\000\033\352\000\033\355\000\033\356\000\033\357\000\033\364\000\034,\000\0344\000\0346\000\0348\000\034\320\000\034\323\000\034\324\000\034\341\000\034\342\000\034\351\000\034\355\000\034\356\000\034\364\000\034\365\000\034\370\000\034\372\000\035\300\000\036\000\000 \320\000 \361\000,\357\000,\362\000-\177\000-\200\000-\340\000.\000\0000*\00000\0000\231\0000\233\000\246o\000\246s\000\246t\000\246~\000\246\236\000\246\240\000\246\360\000\246\362\000\250\002\000\250\003\000\250\006\000\250\007\000\250\013\000\250\f\000\250%\000\250'\000\250,\000\250-\000\250\304\000\250\306\000\250\340\000\250\362\000\250\377\000\251\000\000\251&\000\251.\000\251G\000\251R\000\251S\000\251T\000\251\200\000\251\203\000\251\263\000\251\264\000\251\266\000\251\272\000\251\274\000\251\276\000\251\300\000\251\301\000\251\345\000\251\346\000\252)\000\252/\000\2521\000\2523\000\2525\000\2527\000\252C\000\252D\000\252L\000\252M\000\252|\000\252}\000\252\260\000\252\261\000\252\262\000\252\265\000\252\267\000\252\271\000\252\276\000\252\300\000\252\301\000\252\302\000\252\354\000\252\356\000\252\366\000\252\367\000\253\345\000\253\346\000\253\350\000\253\351\000\253\355\000\253\356\000\373\036\000\373\037\000\376\000\000\376\020\000\376 \000\3760\000\377\236\000\377\240\001\001\375\001\001\376\001\002\340\001\002\341\001\003v\001\003{\001\n\001\001\n\004\001\n\005\001\n\007\001\n\f\001\n\020\001\n8\001\n;\001\n?\001\n@\001\n\345\001\n\347\001\r$\001\r(\001\ri\001\rn\001\016\253\001\016\255\001\016\313\001\016\320\001\016\360\001\017\000\001\017F\001\017Q\001\017\202\001\017\206\001\020\001\001\020\002\001\0208\001\020G\001\020p\001\020q\001\020s\001\020u\001\020\177\001\020\202\001\020\263\001\020\267\001\020\271\001\020\273\001\020\302\001\020\303\001\021\000\001\021\003\001\021'\001\021,\001\021-\001\0215\001\021s\001\021t\001\021\200\001\021\202\001\021\266\001\021\277\001\021\300\001\021\301\001\021\311\001\021\315\001\021\317\001\021\320\001\022/\001\0222\001\0224\001\0228\001\022>\001\022?\001\022A\001\022B\001\022\337\001\022\340\001\022\343\001\022\353\001\023\000\001\023\002\001\023;\001\023=\001\023>\001\023?\001\023@\001\023A\001\023M\001\023N\001\023W\001\023X\001\023f\001\023m\001\023p\001\023u\001\023\270\001\023\271\001\023\273\001\023\301\001\023\302\001\023\303\001\023\305\001\023\306\001\023\307\001\023\312\001\023\316\001\023\321\001\023\322\001\023\323\001\023\341\001\023\343\001\0248\001\024@\001\024B\001\024E\001\024F\001\024G\001\024^\001\024_\001\024\260\001\024\261\001\024\263\001\024\271\001\024\272\001\024\273\001\024\275\001\024\276\001\024\277\001\024\301\001\024\302\001\024\304\001\025\257\001\025\260\001\025\262\001\025\266\001\025\274\001\025\276\001\025\277\001\025\301\001\025\334\001\025\336\001\0263\001\026;\001\026=\001\026>\001\026?\001\026A\001\026\253\001\026\254\001\026\255\001\026\256\001\026\260\001\026\270\001\027\035\001\027\036\001\027\037\001\027 \001\027\"\001\027&\001\027'\001\027,\001\030/\001\0308\001\0309\001\030;\001\0310\001\0311\001\031;\001\031?\001\031C\001\031D\001\031\324\001\031\330\001\031\332\001\031\334\001\031\340\001\031\341\001\032\001\001\032\013\001\0323\001\0329\001\032;\001\032?\001\032G\001\032H\001\032Q\001\032W\001\032Y\001\032\\\001\032\212\001\032\227\001\032\230\001\032\232\001\033`\001\033a\001\033b\001\033e\001\033f\001\033g\001\0340\001\0347\001\0348\001\034>\001\034?\001\034@\001\034\222\001\034\250\001\034\252\001\034\261\001\034\262\001\034\264\001\034\265\001\034\267\001\0351\001\0357\001\035:\001\035;\001\035<\001\035>\001\035?\001\035F\001\035G\001\035H\001\035\220\001\035\222\001\035\225\001\035\226\001\035\227\001\035\230\001\035\360\001\035\361\001\036\363\001\036\365\001\037\000\001\037\002\001\0376\001\037;\001\037@\001\037C\001\037Z\001\037[\0014@\0014A\0014G\0014V\001a\036\001a*\001a-\001a0\001j\360\001j\365\001k0\001k7\001oO\001oP\001o\217\001o\223\001o\344\001o\345\001o\360\001o\362\001\274\235\001\274\237\001\317\000\001\317.\001\3170\001\317G\001\321'\001\321)\001\321e\001\321j\001\321m\001\321s\001\321{\001\321\203\001\321\205\001\321\214\001\321\252\001\321\256\001\322B\001\322E\001\322P\001\322S\001\322[\001\322]\001\322_\001\322`\001\322\200\001\322\202\001\332\000\001\3327\001\332;\001\332m\001\332u\001\332v\001\332\204\001\332\205\001\332\233\001\332\240\001\332\241\001\332\260\001\340\000\001\340\007\001\340\b\001\340\031\001\340\033\001\340\"\001\340#\001\340%\001\340&\001\340+\001\340\217\001\340\220\001\3410\001\3417\001\342\256\001\342\257\001\342\354\001\342\360\001\344\354\001\344\360\001\345\356\001\345\360\001\346\343\001\346\344\001\346\346\001\346\347\001\346\356\001\346\360\001\346\365\001\346\366\001\350\320\001\350\327\001\351D\001\351K\016\001\000\016\001\360"
	.size	.Lstatic.157, 2322

	.type	.Lswitch.table.link_msg.numbers.kind_name,@object
	.section	.rodata..Lswitch.table.link_msg.numbers.kind_name,"a",@progbits
	.p2align	3, 0x0
.Lswitch.table.link_msg.numbers.kind_name:
	.quad	12
	.quad	14
	.quad	11
	.quad	8
	.quad	9
	.quad	10
	.quad	10
	.quad	0
	.quad	0
	.quad	11
	.quad	13
	.quad	13
	.quad	11
	.quad	8
	.quad	0
	.quad	14
	.quad	13
	.quad	13
	.quad	15
	.quad	12
	.quad	11
	.quad	16
	.quad	12
	.quad	13
	.quad	14
	.quad	12
	.quad	10
	.quad	14
	.quad	13
	.quad	16
	.quad	18
	.quad	18
	.quad	12
	.quad	17
	.quad	20
	.quad	19
	.quad	17
	.quad	19
	.quad	15
	.quad	17
	.quad	17
	.quad	0
	.quad	8
	.quad	10
	.quad	16
	.quad	15
	.quad	21
	.quad	23
	.quad	16
	.quad	12
	.quad	12
	.quad	14
	.quad	0
	.quad	17
	.quad	22
	.quad	20
	.quad	24
	.quad	17
	.quad	17
	.quad	17
	.quad	13
	.quad	17
	.quad	22
	.quad	22
	.quad	13
	.quad	0
	.quad	20
	.quad	13
	.quad	13
	.size	.Lswitch.table.link_msg.numbers.kind_name, 552

	.type	.Lswitch.table.link_msg.numbers.kind_name.390.rel,@object
	.section	.rodata..Lswitch.table.link_msg.numbers.kind_name.390.rel,"a",@progbits
	.p2align	2, 0x0
.Lswitch.table.link_msg.numbers.kind_name.390.rel:
	.long	.Lstatic.76-.Lswitch.table.link_msg.numbers.kind_name.390.rel
	.long	.Lstatic.77-.Lswitch.table.link_msg.numbers.kind_name.390.rel
	.long	.Lstatic.78-.Lswitch.table.link_msg.numbers.kind_name.390.rel
	.long	.Lstatic.79-.Lswitch.table.link_msg.numbers.kind_name.390.rel
	.long	.Lstatic.80-.Lswitch.table.link_msg.numbers.kind_name.390.rel
	.long	.Lstatic.81-.Lswitch.table.link_msg.numbers.kind_name.390.rel
	.long	.Lstatic.82-.Lswitch.table.link_msg.numbers.kind_name.390.rel
	.long	.Lstatic.3-.Lswitch.table.link_msg.numbers.kind_name.390.rel
	.long	.Lstatic.3-.Lswitch.table.link_msg.numbers.kind_name.390.rel
	.long	.Lstatic.83-.Lswitch.table.link_msg.numbers.kind_name.390.rel
	.long	.Lstatic.84-.Lswitch.table.link_msg.numbers.kind_name.390.rel
	.long	.Lstatic.85-.Lswitch.table.link_msg.numbers.kind_name.390.rel
	.long	.Lstatic.86-.Lswitch.table.link_msg.numbers.kind_name.390.rel
	.long	.Lstatic.87-.Lswitch.table.link_msg.numbers.kind_name.390.rel
	.long	.Lstatic.3-.Lswitch.table.link_msg.numbers.kind_name.390.rel
	.long	.Lstatic.88-.Lswitch.table.link_msg.numbers.kind_name.390.rel
	.long	.Lstatic.89-.Lswitch.table.link_msg.numbers.kind_name.390.rel
	.long	.Lstatic.90-.Lswitch.table.link_msg.numbers.kind_name.390.rel
	.long	.Lstatic.91-.Lswitch.table.link_msg.numbers.kind_name.390.rel
	.long	.Lstatic.92-.Lswitch.table.link_msg.numbers.kind_name.390.rel
	.long	.Lstatic.93-.Lswitch.table.link_msg.numbers.kind_name.390.rel
	.long	.Lstatic.94-.Lswitch.table.link_msg.numbers.kind_name.390.rel
	.long	.Lstatic.95-.Lswitch.table.link_msg.numbers.kind_name.390.rel
	.long	.Lstatic.96-.Lswitch.table.link_msg.numbers.kind_name.390.rel
	.long	.Lstatic.97-.Lswitch.table.link_msg.numbers.kind_name.390.rel
	.long	.Lstatic.98-.Lswitch.table.link_msg.numbers.kind_name.390.rel
	.long	.Lstatic.99-.Lswitch.table.link_msg.numbers.kind_name.390.rel
	.long	.Lstatic.100-.Lswitch.table.link_msg.numbers.kind_name.390.rel
	.long	.Lstatic.101-.Lswitch.table.link_msg.numbers.kind_name.390.rel
	.long	.Lstatic.102-.Lswitch.table.link_msg.numbers.kind_name.390.rel
	.long	.Lstatic.103-.Lswitch.table.link_msg.numbers.kind_name.390.rel
	.long	.Lstatic.104-.Lswitch.table.link_msg.numbers.kind_name.390.rel
	.long	.Lstatic.105-.Lswitch.table.link_msg.numbers.kind_name.390.rel
	.long	.Lstatic.106-.Lswitch.table.link_msg.numbers.kind_name.390.rel
	.long	.Lstatic.107-.Lswitch.table.link_msg.numbers.kind_name.390.rel
	.long	.Lstatic.108-.Lswitch.table.link_msg.numbers.kind_name.390.rel
	.long	.Lstatic.109-.Lswitch.table.link_msg.numbers.kind_name.390.rel
	.long	.Lstatic.110-.Lswitch.table.link_msg.numbers.kind_name.390.rel
	.long	.Lstatic.111-.Lswitch.table.link_msg.numbers.kind_name.390.rel
	.long	.Lstatic.112-.Lswitch.table.link_msg.numbers.kind_name.390.rel
	.long	.Lstatic.113-.Lswitch.table.link_msg.numbers.kind_name.390.rel
	.long	.Lstatic.3-.Lswitch.table.link_msg.numbers.kind_name.390.rel
	.long	.Lstatic.114-.Lswitch.table.link_msg.numbers.kind_name.390.rel
	.long	.Lstatic.115-.Lswitch.table.link_msg.numbers.kind_name.390.rel
	.long	.Lstatic.116-.Lswitch.table.link_msg.numbers.kind_name.390.rel
	.long	.Lstatic.117-.Lswitch.table.link_msg.numbers.kind_name.390.rel
	.long	.Lstatic.118-.Lswitch.table.link_msg.numbers.kind_name.390.rel
	.long	.Lstatic.119-.Lswitch.table.link_msg.numbers.kind_name.390.rel
	.long	.Lstatic.120-.Lswitch.table.link_msg.numbers.kind_name.390.rel
	.long	.Lstatic.121-.Lswitch.table.link_msg.numbers.kind_name.390.rel
	.long	.Lstatic.122-.Lswitch.table.link_msg.numbers.kind_name.390.rel
	.long	.Lstatic.123-.Lswitch.table.link_msg.numbers.kind_name.390.rel
	.long	.Lstatic.3-.Lswitch.table.link_msg.numbers.kind_name.390.rel
	.long	.Lstatic.124-.Lswitch.table.link_msg.numbers.kind_name.390.rel
	.long	.Lstatic.125-.Lswitch.table.link_msg.numbers.kind_name.390.rel
	.long	.Lstatic.126-.Lswitch.table.link_msg.numbers.kind_name.390.rel
	.long	.Lstatic.127-.Lswitch.table.link_msg.numbers.kind_name.390.rel
	.long	.Lstatic.128-.Lswitch.table.link_msg.numbers.kind_name.390.rel
	.long	.Lstatic.129-.Lswitch.table.link_msg.numbers.kind_name.390.rel
	.long	.Lstatic.130-.Lswitch.table.link_msg.numbers.kind_name.390.rel
	.long	.Lstatic.131-.Lswitch.table.link_msg.numbers.kind_name.390.rel
	.long	.Lstatic.132-.Lswitch.table.link_msg.numbers.kind_name.390.rel
	.long	.Lstatic.133-.Lswitch.table.link_msg.numbers.kind_name.390.rel
	.long	.Lstatic.134-.Lswitch.table.link_msg.numbers.kind_name.390.rel
	.long	.Lstatic.135-.Lswitch.table.link_msg.numbers.kind_name.390.rel
	.long	.Lstatic.3-.Lswitch.table.link_msg.numbers.kind_name.390.rel
	.long	.Lstatic.136-.Lswitch.table.link_msg.numbers.kind_name.390.rel
	.long	.Lstatic.137-.Lswitch.table.link_msg.numbers.kind_name.390.rel
	.long	.Lstatic.138-.Lswitch.table.link_msg.numbers.kind_name.390.rel
	.size	.Lswitch.table.link_msg.numbers.kind_name.390.rel, 276

	.type	.Lswitch.table.line_filter.answers.AnsweringTake.take.d1b9b744fe2e7f64,@object
	.section	.rodata..Lswitch.table.line_filter.answers.AnsweringTake.take.d1b9b744fe2e7f64,"a",@progbits
	.p2align	1, 0x0
.Lswitch.table.line_filter.answers.AnsweringTake.take.d1b9b744fe2e7f64:
	.short	0
	.short	1
	.short	2
	.short	3
	.short	4
	.short	5
	.short	6
	.short	7
	.short	8
	.short	15
	.short	19
	.short	23
	.short	24
	.short	27
	.short	32
	.short	256
	.short	257
	.short	258
	.short	259
	.short	260
	.short	264
	.short	270
	.short	271
	.short	272
	.short	280
	.short	290
	.short	512
	.short	513
	.short	516
	.short	517
	.short	518
	.short	519
	.short	768
	.short	769
	.short	770
	.short	771
	.short	772
	.short	773
	.short	774
	.short	775
	.short	776
	.short	777
	.short	778
	.short	779
	.short	780
	.short	781
	.short	782
	.short	783
	.short	784
	.short	785
	.short	786
	.short	787
	.short	800
	.short	801
	.short	802
	.short	803
	.short	804
	.short	805
	.short	820
	.short	821
	.short	822
	.short	823
	.short	824
	.short	825
	.short	826
	.short	65534
	.short	65535
	.size	.Lswitch.table.line_filter.answers.AnsweringTake.take.d1b9b744fe2e7f64, 134

	.ident	"rattle logic=dac8208d650f15bf3e2dc313a14fa4c783a3acf887bdfab66e1714b038d9e11b"
	.section	".note.GNU-stack","",@progbits
