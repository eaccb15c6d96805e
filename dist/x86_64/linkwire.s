	.file	"rattle"
	.section	.text.core.str.utf8.from_utf8,"ax",@progbits
	.p2align	4
	.type	core.str.utf8.from_utf8,@function
core.str.utf8.from_utf8:
	.cfi_startproc
	pushq	%r15
	.cfi_def_cfa_offset 16
	pushq	%r14
	.cfi_def_cfa_offset 24
	pushq	%r13
	.cfi_def_cfa_offset 32
	pushq	%r12
	.cfi_def_cfa_offset 40
	pushq	%rbx
	.cfi_def_cfa_offset 48
	subq	$16, %rsp
	.cfi_def_cfa_offset 64
	.cfi_offset %rbx, -48
	.cfi_offset %r12, -40
	.cfi_offset %r13, -32
	.cfi_offset %r14, -24
	.cfi_offset %r15, -16
	movq	%rdx, %r15
	movq	%rsi, %r14
	movq	%rdi, %rbx
	testq	%rdx, %rdx
	je	.LBB0_57
	movabsq	$-9187201950435737472, %r12
	leaq	-8(%r15), %r13
	xorl	%ecx, %ecx
	jmp	.LBB0_5
.LBB0_25:
	movl	$1, %edi
.LBB0_3:
	addq	%rcx, %rdi
.LBB0_4:
	movq	%rdi, %rcx
	cmpq	%r15, %rdi
	jae	.LBB0_57
.LBB0_5:
	movzbl	(%r14,%rcx), %esi
	testb	%sil, %sil
	sets	%dl
	movq	%r15, %rax
	subq	%rcx, %rax
	cmpq	$2, %rax
	setb	%dil
	orb	%dl, %dil
	jne	.LBB0_2
	cmpb	$0, 1(%r14,%rcx)
	js	.LBB0_25
	movq	%r14, (%rsp)
	movq	%r15, 8(%rsp)
	cmpq	$7, %rax
	ja	.LBB0_26
	cmpb	$0, (%r14,%rcx)
	js	.LBB0_36
	leaq	1(%rcx), %rdi
	cmpq	%r15, %rdi
	je	.LBB0_57
	cmpb	$0, (%r14,%rdi)
	js	.LBB0_4
	leaq	2(%rcx), %rdi
	cmpq	%r15, %rdi
	je	.LBB0_57
	cmpb	$0, (%r14,%rdi)
	js	.LBB0_4
	leaq	3(%rcx), %rdi
	cmpq	%r15, %rdi
	je	.LBB0_57
	cmpb	$0, (%r14,%rdi)
	js	.LBB0_4
	leaq	4(%rcx), %rdi
	cmpq	%r15, %rdi
	je	.LBB0_57
	cmpb	$0, (%r14,%rdi)
	js	.LBB0_4
	leaq	5(%rcx), %rdi
	cmpq	%r15, %rdi
	je	.LBB0_57
	cmpb	$0, (%r14,%rdi)
	js	.LBB0_4
	addq	$6, %rcx
	cmpq	%r15, %rcx
	je	.LBB0_57
	cmpb	$0, (%r14,%rcx)
	movq	%rcx, %rdi
	js	.LBB0_4
	jmp	.LBB0_57
	.p2align	4
.LBB0_2:
	movl	$1, %edi
	testb	%sil, %sil
	jns	.LBB0_3
	movl	$257, %edx
	cmpb	$-62, %sil
	jb	.LBB0_66
	cmpb	$-33, %sil
	ja	.LBB0_29
	cmpq	$2, %rax
	jb	.LBB0_58
	movzbl	1(%r14,%rcx), %r8d
	movl	$2, %edi
	cmpb	$-65, %r8b
	jle	.LBB0_3
	jmp	.LBB0_60
.LBB0_26:
	movq	(%r14,%rcx), %rax
	andq	%r12, %rax
	je	.LBB0_37
	rep		bsfq	%rax, %rax
	shrl	$3, %eax
	addq	%rcx, %rax
	addq	$8, %rcx
	movq	%rax, %rdi
	cmpq	%rcx, %rax
	jb	.LBB0_4
	movq	%r15, %rcx
	subq	%rax, %rcx
	cmpq	$32, %rcx
	jae	.LBB0_38
	jmp	.LBB0_40
.LBB0_29:
	cmpb	$-17, %sil
	ja	.LBB0_48
	cmpq	$3, %rax
	jb	.LBB0_55
	movzbl	1(%r14,%rcx), %r8d
	cmpb	$-65, %r8b
	jg	.LBB0_60
	cmpb	$-65, 2(%r14,%rcx)
	jg	.LBB0_60
	movzbl	%r8b, %edi
	movl	%esi, %r9d
	shll	$6, %r9d
	addl	%edi, %r9d
	addl	$-14464, %r9d
	cmpl	$32, %r9d
	jb	.LBB0_60
	xorl	%r8d, %r8d
	cmpl	$896, %r9d
	setae	%r10b
	movl	$3, %edi
	cmpl	$864, %r9d
	jb	.LBB0_3
	movb	%r10b, %r8b
	leaq	(%r8,%r8,2), %rdi
	testq	%rdi, %rdi
	jne	.LBB0_3
	jmp	.LBB0_54
.LBB0_36:
	movq	%rcx, %rdi
	jmp	.LBB0_4
.LBB0_37:
	addq	$8, %rcx
	movq	%rcx, %rax
	movq	%r15, %rcx
	subq	%rax, %rcx
	cmpq	$32, %rcx
	jb	.LBB0_40
	.p2align	4
.LBB0_38:
	movdqu	(%r14,%rax), %xmm0
	movdqu	16(%r14,%rax), %xmm1
	por	%xmm0, %xmm1
	pshufd	$238, %xmm1, %xmm0
	por	%xmm1, %xmm0
	movq	%xmm0, %rcx
	testq	%r12, %rcx
	jne	.LBB0_40
	addq	$32, %rax
	movq	%rsp, %rdi
	movq	%rax, %rsi
	movq	%r15, %rdx
	callq	core.slice.words.skip_far.52f9edcae2f82f51
	movq	%r15, %rcx
	subq	%rax, %rcx
	cmpq	$31, %rcx
	ja	.LBB0_38
.LBB0_40:
	movq	%r15, %rcx
	subq	%rax, %rcx
	jmp	.LBB0_43
	.p2align	4
.LBB0_41:
	rep		bsfq	%rdx, %rdi
	shrl	$3, %edi
	addq	%rax, %rdi
	addq	$8, %rax
	addq	$-8, %rcx
	cmpq	%rax, %rdi
	jb	.LBB0_4
.LBB0_43:
	cmpq	$9, %rcx
	jb	.LBB0_46
	movq	(%r14,%rax), %rdx
	andq	%r12, %rdx
	jne	.LBB0_41
	leaq	8(%rax), %rdi
	addq	$8, %rax
	addq	$-8, %rcx
	cmpq	%rax, %rdi
	jae	.LBB0_43
	jmp	.LBB0_4
.LBB0_46:
	movq	(%r14,%r13), %rax
	andq	%r12, %rax
	je	.LBB0_57
	rep		bsfq	%rax, %rdi
	shrl	$3, %edi
	addq	%r13, %rdi
	jmp	.LBB0_4
.LBB0_48:
	cmpq	$4, %rax
	jb	.LBB0_54
	movzbl	1(%r14,%rcx), %edi
	cmpb	$-65, %dil
	jg	.LBB0_54
	cmpb	$-65, 2(%r14,%rcx)
	jg	.LBB0_54
	cmpb	$-65, 3(%r14,%rcx)
	jg	.LBB0_54
	movl	%esi, %r8d
	shll	$6, %r8d
	leal	(%r8,%rdi), %r9d
	addl	$-15488, %r9d
	xorl	%edi, %edi
	cmpl	$272, %r9d
	setb	%r8b
	cmpl	$16, %r9d
	jb	.LBB0_54
	movb	%r8b, %dil
	shll	$2, %edi
	testq	%rdi, %rdi
	jne	.LBB0_3
.LBB0_54:
	cmpb	$-12, %sil
	ja	.LBB0_66
.LBB0_55:
	cmpq	$2, %rax
	jb	.LBB0_58
	movzbl	1(%r14,%rcx), %r8d
.LBB0_60:
	cmpl	$240, %esi
	sete	%dil
	shlb	$4, %dil
	orb	$-128, %dil
	cmpl	$224, %esi
	movzbl	%dil, %edi
	movl	$160, %r9d
	cmovnel	%edi, %r9d
	cmpl	$244, %esi
	movl	$143, %edi
	movl	$191, %r10d
	cmovel	%edi, %r10d
	cmpl	$237, %esi
	movl	$159, %esi
	cmovnel	%r10d, %esi
	cmpb	%r8b, %r9b
	ja	.LBB0_66
	cmpb	%sil, %r8b
	ja	.LBB0_66
	cmpq	$2, %rax
	jne	.LBB0_64
.LBB0_58:
	xorl	%edx, %edx
.LBB0_66:
	movq	$1, (%rbx)
	movq	%rcx, 8(%rbx)
	movq	%rdx, 16(%rbx)
	jmp	.LBB0_67
.LBB0_57:
	movq	$0, (%rbx)
	movq	%r14, 8(%rbx)
	movq	%r15, 16(%rbx)
.LBB0_67:
	addq	$16, %rsp
	.cfi_def_cfa_offset 48
	popq	%rbx
	.cfi_def_cfa_offset 40
	popq	%r12
	.cfi_def_cfa_offset 32
	popq	%r13
	.cfi_def_cfa_offset 24
	popq	%r14
	.cfi_def_cfa_offset 16
	popq	%r15
	.cfi_def_cfa_offset 8
	retq
.LBB0_64:
	.cfi_def_cfa_offset 64
	movl	$513, %edx
	cmpb	$-65, 2(%r14,%rcx)
	jg	.LBB0_66
	xorl	%esi, %esi
	cmpq	$4, %rax
	movl	$769, %edx
	cmovbq	%rsi, %rdx
	jmp	.LBB0_66
.Lfunc_end0:
	.size	core.str.utf8.from_utf8, .Lfunc_end0-core.str.utf8.from_utf8
	.cfi_endproc

	.section	.text.core.slice.words.skip_far.52f9edcae2f82f51,"ax",@progbits
	.p2align	4
	.type	core.slice.words.skip_far.52f9edcae2f82f51,@function
core.slice.words.skip_far.52f9edcae2f82f51:
	.cfi_startproc
	movq	%rsi, %rax
	subq	%rsi, %rdx
	cmpq	$64, %rdx
	jb	.LBB1_4
	movq	(%rdi), %rcx
	.p2align	4
.LBB1_2:
	movdqu	(%rcx,%rax), %xmm0
	movdqu	16(%rcx,%rax), %xmm1
	movdqu	32(%rcx,%rax), %xmm2
	por	%xmm0, %xmm2
	movdqu	48(%rcx,%rax), %xmm0
	por	%xmm1, %xmm0
	por	%xmm2, %xmm0
	pshufd	$238, %xmm0, %xmm1
	por	%xmm0, %xmm1
	movq	%xmm1, %rsi
	movabsq	$-9187201950435737472, %rdi
	testq	%rdi, %rsi
	jne	.LBB1_4
	addq	$64, %rax
	addq	$-64, %rdx
	cmpq	$63, %rdx
	ja	.LBB1_2
.LBB1_4:
	retq
.Lfunc_end1:
	.size	core.slice.words.skip_far.52f9edcae2f82f51, .Lfunc_end1-core.slice.words.skip_far.52f9edcae2f82f51
	.cfi_endproc

	.section	.text.unlikely.std_alloc.vec.Vec.grow_amortized.c2c24c8ca5cf7e6f,"ax",@progbits
	.p2align	4
	.type	std_alloc.vec.Vec.grow_amortized.c2c24c8ca5cf7e6f,@function
std_alloc.vec.Vec.grow_amortized.c2c24c8ca5cf7e6f:
	.cfi_startproc
	movq	8(%rdi), %rax
	cmpq	$-1, %rax
	je	.LBB2_5
	pushq	%r14
	.cfi_def_cfa_offset 16
	pushq	%rbx
	.cfi_def_cfa_offset 24
	pushq	%rax
	.cfi_def_cfa_offset 32
	.cfi_offset %rbx, -24
	.cfi_offset %r14, -16
	movq	16(%rdi), %rcx
	cmpq	$4, %rax
	movl	$3, %ebx
	cmovaeq	%rax, %rbx
	incq	%rbx
	movq	%rcx, %rsi
	shrq	$62, %rsi
	leaq	(%rcx,%rcx), %rdx
	cmpq	%rdx, %rbx
	cmovaq	%rbx, %rdx
	testq	%rsi, %rsi
	cmoveq	%rdx, %rbx
	movabsq	$384307168202282325, %rsi
	cmpq	%rsi, %rbx
	ja	.LBB2_6
	testq	%rcx, %rcx
	je	.LBB2_8
	movq	%rdi, %r14
	movq	(%rdi), %rdi
	shlq	$3, %rax
	leaq	(%rax,%rax,2), %rsi
	leaq	(,%rbx,8), %rax
	leaq	(%rax,%rax,2), %rdx
	movl	$8, %ecx
	callq	rattle_realloc@PLT
	testb	$1, %al
	je	.LBB2_6
.LBB2_9:
	movq	%rdx, (%r14)
	movq	%rbx, 16(%r14)
	movb	$1, %al
	addq	$8, %rsp
	.cfi_def_cfa_offset 24
	popq	%rbx
	.cfi_def_cfa_offset 16
	popq	%r14
	.cfi_def_cfa_offset 8
	.cfi_restore %rbx
	.cfi_restore %r14
	retq
.LBB2_5:
	xorl	%eax, %eax
	retq
.LBB2_8:
	.cfi_def_cfa_offset 32
	.cfi_offset %rbx, -24
	.cfi_offset %r14, -16
	movq	%rdi, %r14
	shlq	$3, %rdx
	leaq	(%rdx,%rdx,2), %rdi
	movl	$8, %esi
	callq	rattle_alloc@PLT
	testb	$1, %al
	jne	.LBB2_9
.LBB2_6:
	xorl	%eax, %eax
	addq	$8, %rsp
	.cfi_def_cfa_offset 24
	popq	%rbx
	.cfi_def_cfa_offset 16
	popq	%r14
	.cfi_def_cfa_offset 8
	.cfi_restore %rbx
	.cfi_restore %r14
	retq
.Lfunc_end2:
	.size	std_alloc.vec.Vec.grow_amortized.c2c24c8ca5cf7e6f, .Lfunc_end2-std_alloc.vec.Vec.grow_amortized.c2c24c8ca5cf7e6f
	.cfi_endproc

	.section	.rodata.cst16,"aM",@progbits,16
	.p2align	4, 0x0
.LCPI3_0:
	.zero	16,46
.LCPI3_1:
	.quad	7310596056926023526
	.quad	3346860010425884786
.LCPI3_2:
	.byte	2
	.byte	41
	.byte	15
	.byte	0
	.zero	1
	.zero	1
	.zero	1
	.zero	1
	.zero	1
	.zero	1
	.zero	1
	.zero	1
	.zero	1
	.zero	1
	.zero	1
	.zero	1
.LCPI3_3:
	.byte	2
	.byte	41
	.byte	15
	.byte	0
	.byte	0
	.byte	0
	.byte	0
	.byte	0
	.byte	0
	.byte	0
	.byte	0
	.byte	0
	.byte	0
	.byte	0
	.byte	0
	.byte	0
	.section	.text.std_io.io.LibcRuntimeEprint.eprintln.27a8a20715d85f24,"ax",@progbits
	.p2align	4
	.type	std_io.io.LibcRuntimeEprint.eprintln.27a8a20715d85f24,@function
std_io.io.LibcRuntimeEprint.eprintln.27a8a20715d85f24:
	.cfi_startproc
	pushq	%rbp
	.cfi_def_cfa_offset 16
	pushq	%r15
	.cfi_def_cfa_offset 24
	pushq	%r14
	.cfi_def_cfa_offset 32
	pushq	%r13
	.cfi_def_cfa_offset 40
	pushq	%r12
	.cfi_def_cfa_offset 48
	pushq	%rbx
	.cfi_def_cfa_offset 56
	subq	$2600, %rsp
	.cfi_def_cfa_offset 2656
	.cfi_offset %rbx, -56
	.cfi_offset %r12, -48
	.cfi_offset %r13, -40
	.cfi_offset %r14, -32
	.cfi_offset %r15, -24
	.cfi_offset %rbp, -16
	movq	%rdi, (%rsp)
	movq	(%rsi), %rbp
	movq	8(%rsi), %r14
	movq	16(%rsi), %rax
	movq	%rax, 8(%rsp)
	movq	24(%rsi), %r12
	xorps	%xmm0, %xmm0
	movaps	%xmm0, 128(%rsp)
	movaps	%xmm0, 112(%rsp)
	movaps	%xmm0, 96(%rsp)
	movaps	%xmm0, 80(%rsp)
	movaps	%xmm0, 256(%rsp)
	movaps	%xmm0, 240(%rsp)
	movaps	%xmm0, 224(%rsp)
	movaps	%xmm0, 208(%rsp)
	movaps	%xmm0, 16(%rsp)
	movaps	%xmm0, 32(%rsp)
	movaps	%xmm0, 48(%rsp)
	movaps	%xmm0, 64(%rsp)
	movl	$2, 280(%rsp)
	leaq	284(%rsp), %rdi
	xorl	%r13d, %r13d
	movl	$1132, %edx
	xorl	%esi, %esi
	callq	memset@PLT
	movl	$32, 1416(%rsp)
	movq	$0, 1420(%rsp)
	movl	$0, 1428(%rsp)
	movq	$-1, 1432(%rsp)
	xorps	%xmm0, %xmm0
	movups	%xmm0, 1440(%rsp)
	movl	1416(%rsp), %eax
	movl	%eax, 1456(%rsp)
	movq	1420(%rsp), %rax
	movq	%rax, 1460(%rsp)
	movl	1428(%rsp), %eax
	movl	%eax, 1468(%rsp)
	movq	$-1, 1472(%rsp)
	movl	$32, 1416(%rsp)
	movq	$0, 1420(%rsp)
	movl	$0, 1428(%rsp)
	testq	%r14, %r14
	je	.LBB3_7
	xorl	%r13d, %r13d
	xorl	%ebx, %ebx
	jmp	.LBB3_2
	.p2align	4
.LBB3_5:
	movb	%r15b, 284(%rsp,%r13)
	incq	%r13
	movq	%r13, 1312(%rsp)
	incq	%rbx
	cmpq	%rbx, %r14
	je	.LBB3_6
.LBB3_2:
	movzbl	(%rbp,%rbx), %r15d
	cmpq	$1024, %r13
	jb	.LBB3_5
	leaq	280(%rsp), %rdi
	callq	std_io.io.buffer.Buffer.flush
	testb	%al, %al
	je	.LBB3_30
	movq	1312(%rsp), %r13
	cmpq	$1023, %r13
	jbe	.LBB3_5
	jmp	.LBB3_30
.LBB3_6:
	cmpq	$0, 1440(%rsp)
	movl	$32, 1416(%rsp)
	leaq	284(%rsp), %rax
	movl	$0, 1144(%rax)
	movq	$0, 1136(%rax)
	movq	$-1, 1432(%rsp)
	jne	.LBB3_18
.LBB3_7:
	testq	%r12, %r12
	je	.LBB3_13
	xorl	%r14d, %r14d
	jmp	.LBB3_9
	.p2align	4
.LBB3_12:
	movb	%bl, 284(%rsp,%r13)
	incq	%r13
	movq	%r13, 1312(%rsp)
	incq	%r14
	cmpq	%r14, %r12
	je	.LBB3_13
.LBB3_9:
	movq	8(%rsp), %rax
	movzbl	(%rax,%r14), %ebx
	cmpq	$1024, %r13
	jb	.LBB3_12
	leaq	280(%rsp), %rdi
	callq	std_io.io.buffer.Buffer.flush
	testb	%al, %al
	je	.LBB3_30
	movq	1312(%rsp), %r13
	cmpq	$1023, %r13
	jbe	.LBB3_12
.LBB3_30:
	movq	1472(%rsp), %rax
	leaq	284(%rsp), %rsi
	movq	%rax, 1148(%rsi)
	movaps	1456(%rsp), %xmm0
	movups	%xmm0, 1132(%rsi)
.LBB3_19:
	xorl	%ebp, %ebp
	movq	(%rsp), %rbx
	jmp	.LBB3_23
.LBB3_13:
	movq	1472(%rsp), %rax
	leaq	284(%rsp), %rsi
	movq	%rax, 1148(%rsi)
	movaps	1456(%rsp), %xmm0
	movups	%xmm0, 1132(%rsi)
.LBB3_14:
	movq	1148(%rsi), %rax
	movq	%rax, 1472(%rsp)
	movups	1132(%rsi), %xmm0
	movaps	%xmm0, 1456(%rsp)
	movl	$32, 1416(%rsp)
	movl	$0, 1144(%rsi)
	movq	$0, 1136(%rsi)
	movq	$-1, 1432(%rsp)
	cmpq	$0, 1440(%rsp)
	movq	(%rsp), %rbx
	jne	.LBB3_21
	movq	1312(%rsp), %rcx
	cmpq	$1024, %rcx
	jb	.LBB3_20
	leaq	280(%rsp), %rdi
	movq	%rsi, %r14
	callq	std_io.io.buffer.Buffer.flush
	movq	%r14, %rsi
	movq	1312(%rsp), %rcx
	cmpq	$1024, %rcx
	setb	%dl
	andb	%al, %dl
	cmpb	$1, %dl
	jne	.LBB3_17
.LBB3_20:
	movb	$10, 284(%rsp,%rcx)
	incq	%rcx
	movq	%rcx, 1312(%rsp)
	movb	$1, %bpl
	jmp	.LBB3_22
.LBB3_17:
	xorl	%ebp, %ebp
.LBB3_22:
	movq	1472(%rsp), %rax
	movq	%rax, 1148(%rsi)
	movaps	1456(%rsp), %xmm0
	movups	%xmm0, 1132(%rsi)
.LBB3_23:
	movl	280(%rsp), %eax
	movl	%eax, 1456(%rsp)
	leaq	1460(%rsp), %rdi
	movl	$1132, %edx
	callq	memcpy@PLT
	leaq	1456(%rsp), %rdi
	callq	std_io.io.buffer.Buffer.flush
	andb	%bpl, %al
	cmpb	$1, %al
	jne	.LBB3_25
	xorps	%xmm0, %xmm0
	movaps	%xmm0, 64(%rsp)
	movaps	%xmm0, 48(%rsp)
	movaps	%xmm0, 32(%rsp)
	movaps	%xmm0, 16(%rsp)
	xorl	%ecx, %ecx
	xorl	%eax, %eax
	xorps	%xmm1, %xmm1
	jmp	.LBB3_29
.LBB3_25:
	cmpb	$1, 2496(%rsp)
	jne	.LBB3_27
	movsd	2504(%rsp), %xmm0
	movl	2508(%rsp), %eax
	movups	2512(%rsp), %xmm1
	movups	2528(%rsp), %xmm2
	movaps	%xmm2, 144(%rsp)
	movups	2544(%rsp), %xmm2
	movaps	%xmm2, 160(%rsp)
	movups	2560(%rsp), %xmm2
	movaps	%xmm2, 176(%rsp)
	movups	2576(%rsp), %xmm2
	movaps	%xmm2, 192(%rsp)
	jmp	.LBB3_28
.LBB3_27:
	movaps	.LCPI3_0(%rip), %xmm0
	movaps	%xmm0, 192(%rsp)
	movaps	%xmm0, 176(%rsp)
	movaps	%xmm0, 160(%rsp)
	movaps	%xmm0, 144(%rsp)
	movaps	.LCPI3_1(%rip), %xmm1
	movss	.LCPI3_3(%rip), %xmm0
	xorl	%eax, %eax
.LBB3_28:
	movaps	144(%rsp), %xmm2
	movaps	160(%rsp), %xmm3
	movaps	176(%rsp), %xmm4
	movaps	192(%rsp), %xmm5
	movaps	%xmm5, 64(%rsp)
	movaps	%xmm4, 48(%rsp)
	movaps	%xmm3, 32(%rsp)
	movaps	%xmm2, 16(%rsp)
	movb	$1, %cl
.LBB3_29:
	movaps	16(%rsp), %xmm2
	movaps	32(%rsp), %xmm3
	movaps	48(%rsp), %xmm4
	movaps	64(%rsp), %xmm5
	movaps	%xmm2, 80(%rsp)
	movaps	%xmm3, 96(%rsp)
	movaps	%xmm4, 112(%rsp)
	movaps	%xmm5, 128(%rsp)
	movb	%cl, (%rbx)
	movss	%xmm0, 8(%rbx)
	movl	%eax, 12(%rbx)
	movups	%xmm1, 16(%rbx)
	movaps	80(%rsp), %xmm0
	movaps	96(%rsp), %xmm1
	movaps	112(%rsp), %xmm2
	movaps	128(%rsp), %xmm3
	movups	%xmm0, 32(%rbx)
	movups	%xmm1, 48(%rbx)
	movups	%xmm2, 64(%rbx)
	movups	%xmm3, 80(%rbx)
	addq	$2600, %rsp
	.cfi_def_cfa_offset 56
	popq	%rbx
	.cfi_def_cfa_offset 48
	popq	%r12
	.cfi_def_cfa_offset 40
	popq	%r13
	.cfi_def_cfa_offset 32
	popq	%r14
	.cfi_def_cfa_offset 24
	popq	%r15
	.cfi_def_cfa_offset 16
	popq	%rbp
	.cfi_def_cfa_offset 8
	retq
.LBB3_21:
	.cfi_def_cfa_offset 2656
	movq	%rsi, %r14
	leaq	.Lstatic.5(%rip), %rsi
	leaq	280(%rsp), %rdi
	movl	$1, %edx
	callq	core.fmt.formatter.Formatter.write_indented.bf264aed5fa78656
	movq	%r14, %rsi
	testb	%al, %al
	sete	%bpl
	jmp	.LBB3_22
.LBB3_18:
	leaq	280(%rsp), %rdi
	movq	%rax, %rbx
	movq	8(%rsp), %rsi
	movq	%r12, %rdx
	callq	core.fmt.formatter.Formatter.write_indented.bf264aed5fa78656
	movq	%rbx, %rsi
	movaps	1456(%rsp), %xmm0
	movups	%xmm0, 1132(%rbx)
	movq	1472(%rsp), %rcx
	movq	%rcx, 1148(%rbx)
	testb	%al, %al
	jne	.LBB3_19
	jmp	.LBB3_14
.Lfunc_end3:
	.size	std_io.io.LibcRuntimeEprint.eprintln.27a8a20715d85f24, .Lfunc_end3-std_io.io.LibcRuntimeEprint.eprintln.27a8a20715d85f24
	.cfi_endproc

	.section	.rodata.cst16,"aM",@progbits,16
	.p2align	4, 0x0
.LCPI4_0:
	.zero	16,46
.LCPI4_1:
	.quad	8458358670138239095
	.quad	3327647951695996518
.LCPI4_2:
	.quad	8367798494427701606
	.quad	2334399978102268015
.LCPI4_3:
	.byte	2
	.byte	23
	.byte	28
	.byte	0
	.zero	1
	.zero	1
	.zero	1
	.zero	1
	.zero	1
	.zero	1
	.zero	1
	.zero	1
	.zero	1
	.zero	1
	.zero	1
	.zero	1
.LCPI4_4:
	.byte	0
	.byte	35
	.byte	0
	.byte	0
	.zero	1
	.zero	1
	.zero	1
	.zero	1
	.zero	1
	.zero	1
	.zero	1
	.zero	1
	.zero	1
	.zero	1
	.zero	1
	.zero	1
.LCPI4_5:
	.byte	0
	.byte	35
	.byte	0
	.byte	0
	.byte	0
	.byte	0
	.byte	0
	.byte	0
	.byte	0
	.byte	0
	.byte	0
	.byte	0
	.byte	0
	.byte	0
	.byte	0
	.byte	0
.LCPI4_6:
	.byte	2
	.byte	23
	.byte	28
	.byte	0
	.byte	0
	.byte	0
	.byte	0
	.byte	0
	.byte	0
	.byte	0
	.byte	0
	.byte	0
	.byte	0
	.byte	0
	.byte	0
	.byte	0
	.section	.text.std_io.io.buffer.Buffer.flush,"ax",@progbits
	.p2align	4
	.type	std_io.io.buffer.Buffer.flush,@function
std_io.io.buffer.Buffer.flush:
	.cfi_startproc
	pushq	%rbp
	.cfi_def_cfa_offset 16
	pushq	%r15
	.cfi_def_cfa_offset 24
	pushq	%r14
	.cfi_def_cfa_offset 32
	pushq	%r13
	.cfi_def_cfa_offset 40
	pushq	%r12
	.cfi_def_cfa_offset 48
	pushq	%rbx
	.cfi_def_cfa_offset 56
	subq	$136, %rsp
	.cfi_def_cfa_offset 192
	.cfi_offset %rbx, -56
	.cfi_offset %r12, -48
	.cfi_offset %r13, -40
	.cfi_offset %r14, -32
	.cfi_offset %r15, -24
	.cfi_offset %rbp, -16
	movq	1032(%rdi), %r15
	movq	$0, 1032(%rdi)
	cmpq	$1025, %r15
	jae	.LBB4_15
	movq	%rdi, %rbx
	movl	(%rdi), %ebp
	movq	$-64, %r12
	xorl	%r13d, %r13d
	jmp	.LBB4_4
	.p2align	4
.LBB4_2:
	callq	rattle_errno@PLT
	cmpl	$4, %eax
	jne	.LBB4_13
	incq	%r12
	cmpq	%r12, %r15
	je	.LBB4_8
.LBB4_4:
	movq	%r15, %r14
	subq	%r13, %r14
	jbe	.LBB4_10
	leaq	4(%rbx), %rax
	leaq	(%rax,%r13), %rsi
	movl	%ebp, %edi
	movq	%r14, %rdx
	callq	write@PLT
	testq	%rax, %rax
	js	.LBB4_2
	je	.LBB4_11
	cmpq	%r14, %rax
	cmovbq	%rax, %r14
	addq	%r14, %r13
	incq	%r12
	cmpq	%r12, %r15
	jne	.LBB4_4
.LBB4_8:
	cmpq	%r13, %r15
	jbe	.LBB4_10
	xorps	%xmm0, %xmm0
	movaps	%xmm0, 32(%rsp)
	movaps	%xmm0, 16(%rsp)
	movaps	%xmm0, (%rsp)
	movss	.LCPI4_5(%rip), %xmm1
	movl	$4, %eax
	xorps	%xmm2, %xmm2
	jmp	.LBB4_14
.LBB4_10:
	movb	$1, %al
	jmp	.LBB4_16
.LBB4_11:
	movaps	.LCPI4_0(%rip), %xmm0
	movaps	%xmm0, 32(%rsp)
	movaps	%xmm0, 16(%rsp)
	movaps	%xmm0, (%rsp)
	movaps	.LCPI4_1(%rip), %xmm2
	movaps	.LCPI4_2(%rip), %xmm0
	movss	.LCPI4_6(%rip), %xmm1
	xorl	%eax, %eax
	jmp	.LBB4_14
.LBB4_13:
	leaq	48(%rsp), %rdi
	movl	%eax, %esi
	callq	std_io.io.error.Error.from_raw_os_error
	movsd	48(%rsp), %xmm1
	movl	52(%rsp), %eax
	movups	56(%rsp), %xmm0
	movups	72(%rsp), %xmm2
	movups	88(%rsp), %xmm3
	movaps	%xmm3, (%rsp)
	movups	104(%rsp), %xmm3
	movaps	%xmm3, 16(%rsp)
	movups	120(%rsp), %xmm3
	movaps	%xmm3, 32(%rsp)
.LBB4_14:
	movq	$1, 1040(%rbx)
	movss	%xmm1, 1048(%rbx)
	movl	%eax, 1052(%rbx)
	movups	%xmm0, 1056(%rbx)
	movups	%xmm2, 1072(%rbx)
	movaps	(%rsp), %xmm0
	movaps	16(%rsp), %xmm1
	movaps	32(%rsp), %xmm2
	movups	%xmm0, 1088(%rbx)
	movups	%xmm1, 1104(%rbx)
	movups	%xmm2, 1120(%rbx)
.LBB4_15:
	xorl	%eax, %eax
.LBB4_16:
	addq	$136, %rsp
	.cfi_def_cfa_offset 56
	popq	%rbx
	.cfi_def_cfa_offset 48
	popq	%r12
	.cfi_def_cfa_offset 40
	popq	%r13
	.cfi_def_cfa_offset 32
	popq	%r14
	.cfi_def_cfa_offset 24
	popq	%r15
	.cfi_def_cfa_offset 16
	popq	%rbp
	.cfi_def_cfa_offset 8
	retq
.Lfunc_end4:
	.size	std_io.io.buffer.Buffer.flush, .Lfunc_end4-std_io.io.buffer.Buffer.flush
	.cfi_endproc

	.section	.text.std_io.io.error.Error.from_raw_os_error,"ax",@progbits
	.p2align	4
	.type	std_io.io.error.Error.from_raw_os_error,@function
std_io.io.error.Error.from_raw_os_error:
	.cfi_startproc
	movb	$41, %al
	testl	%esi, %esi
	js	.LBB5_40
	leal	-1(%rsi), %ecx
	cmpl	$121, %ecx
	ja	.LBB5_40
	leaq	.LJTI5_0(%rip), %rdx
	movslq	(%rdx,%rcx,4), %rcx
	addq	%rdx, %rcx
	jmpq	*%rcx
.LBB5_3:
	movb	$1, %al
	jmp	.LBB5_40
.LBB5_24:
	movb	$36, %al
	jmp	.LBB5_40
.LBB5_36:
	movb	$4, %al
	jmp	.LBB5_40
.LBB5_33:
	movb	$7, %al
	jmp	.LBB5_40
.LBB5_39:
	movb	$26, %al
	jmp	.LBB5_40
.LBB5_37:
	movb	$39, %al
	jmp	.LBB5_40
.LBB5_28:
	movb	$9, %al
	jmp	.LBB5_40
.LBB5_27:
	movb	$8, %al
	jmp	.LBB5_40
.LBB5_22:
	movb	$30, %al
	jmp	.LBB5_40
.LBB5_18:
	movb	$25, %al
	jmp	.LBB5_40
.LBB5_20:
	movb	$32, %al
	jmp	.LBB5_40
.LBB5_23:
	movb	$33, %al
	jmp	.LBB5_40
.LBB5_34:
	movb	$22, %al
	jmp	.LBB5_40
.LBB5_11:
	movb	$31, %al
	jmp	.LBB5_40
.LBB5_15:
	movb	$29, %al
	jmp	.LBB5_40
.LBB5_26:
	movb	$18, %al
	jmp	.LBB5_40
.LBB5_29:
	movb	$10, %al
	jmp	.LBB5_40
.LBB5_9:
	movb	$28, %al
	jmp	.LBB5_40
.LBB5_12:
	movb	$14, %al
	jmp	.LBB5_40
.LBB5_10:
	movb	$12, %al
	jmp	.LBB5_40
.LBB5_30:
	movb	$5, %al
	jmp	.LBB5_40
.LBB5_32:
	movb	$3, %al
	jmp	.LBB5_40
.LBB5_4:
	xorl	%eax, %eax
	jmp	.LBB5_40
.LBB5_7:
	movb	$13, %al
	jmp	.LBB5_40
.LBB5_8:
	movb	$38, %al
	jmp	.LBB5_40
.LBB5_21:
	movb	$11, %al
	jmp	.LBB5_40
.LBB5_5:
	movb	$35, %al
	jmp	.LBB5_40
.LBB5_6:
	movb	$34, %al
	jmp	.LBB5_40
.LBB5_14:
	movb	$20, %al
	jmp	.LBB5_40
.LBB5_13:
	movb	$15, %al
	jmp	.LBB5_40
.LBB5_38:
	movb	$19, %al
	jmp	.LBB5_40
.LBB5_25:
	movb	$16, %al
	jmp	.LBB5_40
.LBB5_31:
	movb	$6, %al
	jmp	.LBB5_40
.LBB5_16:
	movb	$27, %al
	jmp	.LBB5_40
.LBB5_17:
	movb	$24, %al
	jmp	.LBB5_40
.LBB5_35:
	movb	$2, %al
	jmp	.LBB5_40
.LBB5_19:
	movb	$17, %al
.LBB5_40:
	movb	$0, (%rdi)
	movb	%al, 1(%rdi)
	movw	$0, 2(%rdi)
	movl	%esi, 4(%rdi)
	xorps	%xmm0, %xmm0
	movups	%xmm0, 8(%rdi)
	movups	%xmm0, 24(%rdi)
	movups	%xmm0, 40(%rdi)
	movups	%xmm0, 56(%rdi)
	movups	%xmm0, 72(%rdi)
	retq
.Lfunc_end5:
	.size	std_io.io.error.Error.from_raw_os_error, .Lfunc_end5-std_io.io.error.Error.from_raw_os_error
	.cfi_endproc
	.section	.rodata.std_io.io.error.Error.from_raw_os_error,"a",@progbits
	.p2align	2, 0x0
.LJTI5_0:
	.long	.LBB5_3-.LJTI5_0
	.long	.LBB5_4-.LJTI5_0
	.long	.LBB5_40-.LJTI5_0
	.long	.LBB5_5-.LJTI5_0
	.long	.LBB5_40-.LJTI5_0
	.long	.LBB5_40-.LJTI5_0
	.long	.LBB5_6-.LJTI5_0
	.long	.LBB5_40-.LJTI5_0
	.long	.LBB5_40-.LJTI5_0
	.long	.LBB5_40-.LJTI5_0
	.long	.LBB5_7-.LJTI5_0
	.long	.LBB5_8-.LJTI5_0
	.long	.LBB5_3-.LJTI5_0
	.long	.LBB5_40-.LJTI5_0
	.long	.LBB5_40-.LJTI5_0
	.long	.LBB5_9-.LJTI5_0
	.long	.LBB5_10-.LJTI5_0
	.long	.LBB5_11-.LJTI5_0
	.long	.LBB5_40-.LJTI5_0
	.long	.LBB5_12-.LJTI5_0
	.long	.LBB5_13-.LJTI5_0
	.long	.LBB5_14-.LJTI5_0
	.long	.LBB5_40-.LJTI5_0
	.long	.LBB5_40-.LJTI5_0
	.long	.LBB5_40-.LJTI5_0
	.long	.LBB5_15-.LJTI5_0
	.long	.LBB5_16-.LJTI5_0
	.long	.LBB5_17-.LJTI5_0
	.long	.LBB5_18-.LJTI5_0
	.long	.LBB5_19-.LJTI5_0
	.long	.LBB5_20-.LJTI5_0
	.long	.LBB5_21-.LJTI5_0
	.long	.LBB5_40-.LJTI5_0
	.long	.LBB5_40-.LJTI5_0
	.long	.LBB5_22-.LJTI5_0
	.long	.LBB5_23-.LJTI5_0
	.long	.LBB5_40-.LJTI5_0
	.long	.LBB5_24-.LJTI5_0
	.long	.LBB5_25-.LJTI5_0
	.long	.LBB5_26-.LJTI5_0
	.long	.LBB5_40-.LJTI5_0
	.long	.LBB5_40-.LJTI5_0
	.long	.LBB5_40-.LJTI5_0
	.long	.LBB5_40-.LJTI5_0
	.long	.LBB5_40-.LJTI5_0
	.long	.LBB5_40-.LJTI5_0
	.long	.LBB5_40-.LJTI5_0
	.long	.LBB5_40-.LJTI5_0
	.long	.LBB5_40-.LJTI5_0
	.long	.LBB5_40-.LJTI5_0
	.long	.LBB5_40-.LJTI5_0
	.long	.LBB5_40-.LJTI5_0
	.long	.LBB5_40-.LJTI5_0
	.long	.LBB5_40-.LJTI5_0
	.long	.LBB5_40-.LJTI5_0
	.long	.LBB5_40-.LJTI5_0
	.long	.LBB5_40-.LJTI5_0
	.long	.LBB5_40-.LJTI5_0
	.long	.LBB5_40-.LJTI5_0
	.long	.LBB5_40-.LJTI5_0
	.long	.LBB5_40-.LJTI5_0
	.long	.LBB5_40-.LJTI5_0
	.long	.LBB5_40-.LJTI5_0
	.long	.LBB5_40-.LJTI5_0
	.long	.LBB5_40-.LJTI5_0
	.long	.LBB5_40-.LJTI5_0
	.long	.LBB5_40-.LJTI5_0
	.long	.LBB5_40-.LJTI5_0
	.long	.LBB5_40-.LJTI5_0
	.long	.LBB5_40-.LJTI5_0
	.long	.LBB5_40-.LJTI5_0
	.long	.LBB5_40-.LJTI5_0
	.long	.LBB5_40-.LJTI5_0
	.long	.LBB5_40-.LJTI5_0
	.long	.LBB5_40-.LJTI5_0
	.long	.LBB5_40-.LJTI5_0
	.long	.LBB5_40-.LJTI5_0
	.long	.LBB5_40-.LJTI5_0
	.long	.LBB5_40-.LJTI5_0
	.long	.LBB5_40-.LJTI5_0
	.long	.LBB5_40-.LJTI5_0
	.long	.LBB5_40-.LJTI5_0
	.long	.LBB5_40-.LJTI5_0
	.long	.LBB5_40-.LJTI5_0
	.long	.LBB5_40-.LJTI5_0
	.long	.LBB5_40-.LJTI5_0
	.long	.LBB5_40-.LJTI5_0
	.long	.LBB5_40-.LJTI5_0
	.long	.LBB5_40-.LJTI5_0
	.long	.LBB5_40-.LJTI5_0
	.long	.LBB5_40-.LJTI5_0
	.long	.LBB5_40-.LJTI5_0
	.long	.LBB5_40-.LJTI5_0
	.long	.LBB5_40-.LJTI5_0
	.long	.LBB5_24-.LJTI5_0
	.long	.LBB5_40-.LJTI5_0
	.long	.LBB5_40-.LJTI5_0
	.long	.LBB5_27-.LJTI5_0
	.long	.LBB5_28-.LJTI5_0
	.long	.LBB5_29-.LJTI5_0
	.long	.LBB5_30-.LJTI5_0
	.long	.LBB5_40-.LJTI5_0
	.long	.LBB5_31-.LJTI5_0
	.long	.LBB5_32-.LJTI5_0
	.long	.LBB5_40-.LJTI5_0
	.long	.LBB5_40-.LJTI5_0
	.long	.LBB5_33-.LJTI5_0
	.long	.LBB5_40-.LJTI5_0
	.long	.LBB5_40-.LJTI5_0
	.long	.LBB5_34-.LJTI5_0
	.long	.LBB5_35-.LJTI5_0
	.long	.LBB5_40-.LJTI5_0
	.long	.LBB5_36-.LJTI5_0
	.long	.LBB5_40-.LJTI5_0
	.long	.LBB5_37-.LJTI5_0
	.long	.LBB5_38-.LJTI5_0
	.long	.LBB5_40-.LJTI5_0
	.long	.LBB5_40-.LJTI5_0
	.long	.LBB5_40-.LJTI5_0
	.long	.LBB5_40-.LJTI5_0
	.long	.LBB5_40-.LJTI5_0
	.long	.LBB5_39-.LJTI5_0

	.section	.text.unlikely.core.fmt.formatter.Formatter.write_indented.bf264aed5fa78656,"ax",@progbits
	.p2align	4
	.type	core.fmt.formatter.Formatter.write_indented.bf264aed5fa78656,@function
core.fmt.formatter.Formatter.write_indented.bf264aed5fa78656:
	.cfi_startproc
	pushq	%rbp
	.cfi_def_cfa_offset 16
	pushq	%r15
	.cfi_def_cfa_offset 24
	pushq	%r14
	.cfi_def_cfa_offset 32
	pushq	%r13
	.cfi_def_cfa_offset 40
	pushq	%r12
	.cfi_def_cfa_offset 48
	pushq	%rbx
	.cfi_def_cfa_offset 56
	pushq	%rax
	.cfi_def_cfa_offset 64
	.cfi_offset %rbx, -56
	.cfi_offset %r12, -48
	.cfi_offset %r13, -40
	.cfi_offset %r14, -32
	.cfi_offset %r15, -24
	.cfi_offset %rbp, -16
	testq	%rdx, %rdx
	je	.LBB6_1
	movq	%rsi, %r14
	movq	%rdi, %r15
	xorl	%ecx, %ecx
	xorl	%ebp, %ebp
	movq	%rdx, (%rsp)
	jmp	.LBB6_3
	.p2align	4
.LBB6_7:
	addq	%r14, %r13
	movb	$1, 1168(%r15)
	movq	%r15, %rdi
	movq	%r13, %rsi
	movq	%r12, %rdx
	callq	core.fmt.formatter.Formatter.write_raw.bf264aed5fa78656
	movq	%rbp, %rcx
	testb	%al, %al
	movq	(%rsp), %rdx
	jne	.LBB6_17
.LBB6_8:
	cmpq	%rdx, %rbp
	je	.LBB6_9
.LBB6_3:
	movq	%rbp, %rax
	incq	%rbp
	cmpb	$10, (%r14,%rax)
	jne	.LBB6_8
	xorl	%r13d, %r13d
	movq	%rbp, %r12
	subq	%rcx, %r12
	cmovaeq	%rcx, %r13
	cmpq	%rax, %rcx
	movq	%rbp, %rcx
	ja	.LBB6_8
	cmpb	$1, 1168(%r15)
	jne	.LBB6_7
	movq	1160(%r15), %rbx
	testq	%rbx, %rbx
	je	.LBB6_7
	.p2align	4
.LBB6_14:
	leaq	.Lstatic.7(%rip), %rsi
	movl	$4, %edx
	movq	%r15, %rdi
	callq	core.fmt.formatter.Formatter.write_raw.bf264aed5fa78656
	testb	%al, %al
	jne	.LBB6_17
	decq	%rbx
	jne	.LBB6_14
	jmp	.LBB6_7
.LBB6_1:
	xorl	%eax, %eax
	jmp	.LBB6_18
.LBB6_9:
	xorl	%eax, %eax
	cmpq	%rdx, %rcx
	movq	%rcx, %r12
	cmovaq	%rax, %r12
	subq	%rcx, %rdx
	cmovbq	%rax, %rdx
	jbe	.LBB6_18
	movq	%rdx, %r13
	cmpb	$1, 1168(%r15)
	jne	.LBB6_12
	movq	1160(%r15), %rbx
	testq	%rbx, %rbx
	je	.LBB6_12
	.p2align	4
.LBB6_16:
	leaq	.Lstatic.7(%rip), %rsi
	movl	$4, %edx
	movq	%r15, %rdi
	callq	core.fmt.formatter.Formatter.write_raw.bf264aed5fa78656
	testb	%al, %al
	jne	.LBB6_17
	decq	%rbx
	jne	.LBB6_16
.LBB6_12:
	addq	%r12, %r14
	movb	$0, 1168(%r15)
	movq	%r15, %rdi
	movq	%r14, %rsi
	movq	%r13, %rdx
	addq	$8, %rsp
	.cfi_def_cfa_offset 56
	popq	%rbx
	.cfi_def_cfa_offset 48
	popq	%r12
	.cfi_def_cfa_offset 40
	popq	%r13
	.cfi_def_cfa_offset 32
	popq	%r14
	.cfi_def_cfa_offset 24
	popq	%r15
	.cfi_def_cfa_offset 16
	popq	%rbp
	.cfi_def_cfa_offset 8
	jmp	core.fmt.formatter.Formatter.write_raw.bf264aed5fa78656
.LBB6_17:
	.cfi_def_cfa_offset 64
	movb	$1, %al
.LBB6_18:
	addq	$8, %rsp
	.cfi_def_cfa_offset 56
	popq	%rbx
	.cfi_def_cfa_offset 48
	popq	%r12
	.cfi_def_cfa_offset 40
	popq	%r13
	.cfi_def_cfa_offset 32
	popq	%r14
	.cfi_def_cfa_offset 24
	popq	%r15
	.cfi_def_cfa_offset 16
	popq	%rbp
	.cfi_def_cfa_offset 8
	retq
.Lfunc_end6:
	.size	core.fmt.formatter.Formatter.write_indented.bf264aed5fa78656, .Lfunc_end6-core.fmt.formatter.Formatter.write_indented.bf264aed5fa78656
	.cfi_endproc

	.section	.text.core.fmt.formatter.Formatter.write_raw.bf264aed5fa78656,"ax",@progbits
	.p2align	4
	.type	core.fmt.formatter.Formatter.write_raw.bf264aed5fa78656,@function
core.fmt.formatter.Formatter.write_raw.bf264aed5fa78656:
	.cfi_startproc
	testq	%rdx, %rdx
	je	.LBB7_1
	pushq	%rbp
	.cfi_def_cfa_offset 16
	pushq	%r15
	.cfi_def_cfa_offset 24
	pushq	%r14
	.cfi_def_cfa_offset 32
	pushq	%r12
	.cfi_def_cfa_offset 40
	pushq	%rbx
	.cfi_def_cfa_offset 48
	.cfi_offset %rbx, -48
	.cfi_offset %r12, -40
	.cfi_offset %r14, -32
	.cfi_offset %r15, -24
	.cfi_offset %rbp, -16
	movq	%rdx, %rbx
	movq	%rsi, %r14
	movq	%rdi, %r15
	xorl	%ecx, %ecx
	jmp	.LBB7_4
	.p2align	4
.LBB7_19:
	addq	%rdi, %rcx
	cmpq	%rbx, %rcx
	jae	.LBB7_20
.LBB7_4:
	movzbl	(%r14,%rcx), %edx
	movl	$1, %edi
	testb	%dl, %dl
	jns	.LBB7_19
	leaq	1(%rcx), %rsi
	movb	$1, %al
	cmpq	%rsi, %rbx
	jbe	.LBB7_26
	movzbl	(%r14,%rsi), %esi
	testb	%sil, %sil
	jns	.LBB7_26
	movzbl	%sil, %edi
	cmpb	$-64, %sil
	movl	$192, %esi
	cmovbl	%edi, %esi
	cmpb	$-62, %dl
	jb	.LBB7_26
	movl	%esi, %edi
	andb	$127, %dil
	cmpb	$63, %dil
	ja	.LBB7_26
	movl	$2, %edi
	cmpb	$-32, %dl
	jb	.LBB7_19
	leaq	2(%rcx), %rdi
	cmpq	%rdi, %rbx
	jbe	.LBB7_26
	cmpb	$-65, (%r14,%rdi)
	jg	.LBB7_26
	andl	$127, %esi
	cmpb	$-17, %dl
	ja	.LBB7_16
	movl	%edx, %edi
	shll	$12, %edi
	shll	$6, %esi
	addl	%edi, %esi
	addl	$-917504, %esi
	cmpl	$2048, %esi
	jb	.LBB7_26
	movl	$3, %edi
	cmpl	$55296, %esi
	jb	.LBB7_19
	cmpb	$-18, %dl
	jae	.LBB7_19
	jmp	.LBB7_26
.LBB7_16:
	leaq	3(%rcx), %rdi
	cmpq	%rdi, %rbx
	jbe	.LBB7_26
	cmpb	$-65, (%r14,%rdi)
	jg	.LBB7_26
	shll	$18, %edx
	shll	$12, %esi
	addl	%esi, %edx
	addl	$-62980096, %edx
	movl	$4, %edi
	cmpl	$1048575, %edx
	jbe	.LBB7_19
	jmp	.LBB7_26
.LBB7_1:
	.cfi_def_cfa_offset 8
	.cfi_restore %rbx
	.cfi_restore %rbp
	.cfi_restore %r12
	.cfi_restore %r14
	.cfi_restore %r15
	xorl	%eax, %eax
	retq
.LBB7_20:
	.cfi_def_cfa_offset 48
	.cfi_offset %rbx, -48
	.cfi_offset %rbp, -16
	.cfi_offset %r12, -40
	.cfi_offset %r14, -32
	.cfi_offset %r15, -24
	movq	1032(%r15), %rcx
	xorl	%r12d, %r12d
	jmp	.LBB7_21
	.p2align	4
.LBB7_24:
	movb	%bpl, 4(%r15,%rcx)
	incq	%rcx
	movq	%rcx, 1032(%r15)
	incq	%r12
	cmpq	%r12, %rbx
	je	.LBB7_25
.LBB7_21:
	movzbl	(%r14,%r12), %ebp
	cmpq	$1024, %rcx
	jb	.LBB7_24
	movq	%r15, %rdi
	callq	std_io.io.buffer.Buffer.flush
	movl	%eax, %ecx
	movb	$1, %al
	testb	%cl, %cl
	je	.LBB7_26
	movq	1032(%r15), %rcx
	cmpq	$1023, %rcx
	jbe	.LBB7_24
	jmp	.LBB7_26
.LBB7_25:
	xorl	%eax, %eax
.LBB7_26:
	popq	%rbx
	.cfi_def_cfa_offset 40
	popq	%r12
	.cfi_def_cfa_offset 32
	popq	%r14
	.cfi_def_cfa_offset 24
	popq	%r15
	.cfi_def_cfa_offset 16
	popq	%rbp
	.cfi_def_cfa_offset 8
	.cfi_restore %rbx
	.cfi_restore %r12
	.cfi_restore %r14
	.cfi_restore %r15
	.cfi_restore %rbp
	retq
.Lfunc_end7:
	.size	core.fmt.formatter.Formatter.write_raw.bf264aed5fa78656, .Lfunc_end7-core.fmt.formatter.Formatter.write_raw.bf264aed5fa78656
	.cfi_endproc

	.section	.text.line_filter.program.write_text,"ax",@progbits
	.p2align	4
	.type	line_filter.program.write_text,@function
line_filter.program.write_text:
	.cfi_startproc
	pushq	%rbp
	.cfi_def_cfa_offset 16
	pushq	%r15
	.cfi_def_cfa_offset 24
	pushq	%r14
	.cfi_def_cfa_offset 32
	pushq	%r12
	.cfi_def_cfa_offset 40
	pushq	%rbx
	.cfi_def_cfa_offset 48
	subq	$2448, %rsp
	.cfi_def_cfa_offset 2496
	.cfi_offset %rbx, -48
	.cfi_offset %r12, -40
	.cfi_offset %r14, -32
	.cfi_offset %r15, -24
	.cfi_offset %rbp, -16
	movq	%rsi, %r14
	movq	%rdi, %r15
	xorps	%xmm0, %xmm0
	movaps	%xmm0, 16(%rsp)
	movaps	%xmm0, (%rsp)
	movl	$1, 40(%rsp)
	leaq	44(%rsp), %rbx
	xorl	%r12d, %r12d
	movl	$1132, %edx
	movq	%rbx, %rdi
	xorl	%esi, %esi
	callq	memset@PLT
	movl	$32, 1176(%rsp)
	movq	$0, 1180(%rsp)
	movl	$0, 1188(%rsp)
	movq	$-1, 1192(%rsp)
	xorps	%xmm0, %xmm0
	movups	%xmm0, 1200(%rsp)
	movl	1176(%rsp), %eax
	movl	%eax, 1216(%rsp)
	movq	1180(%rsp), %rax
	movq	%rax, 1220(%rsp)
	movl	1188(%rsp), %eax
	movl	%eax, 1228(%rsp)
	movq	$-1, 1232(%rsp)
	movl	$32, 1176(%rsp)
	movl	$0, 1188(%rsp)
	movq	$0, 1180(%rsp)
	xorl	%eax, %eax
	jmp	.LBB8_1
	.p2align	4
.LBB8_4:
	movb	%bpl, 44(%rsp,%rax)
	incq	%rax
	movq	%rax, 1072(%rsp)
	incq	%r12
	cmpq	%r12, %r14
	je	.LBB8_5
.LBB8_1:
	movzbl	(%r15,%r12), %ebp
	cmpq	$1024, %rax
	jb	.LBB8_4
	leaq	40(%rsp), %rdi
	callq	std_io.io.buffer.Buffer.flush
	testb	%al, %al
	je	.LBB8_11
	movq	1072(%rsp), %rax
	cmpq	$1023, %rax
	jbe	.LBB8_4
.LBB8_11:
	movq	1232(%rsp), %rax
	movq	%rax, 1148(%rbx)
	movaps	1216(%rsp), %xmm0
	movups	%xmm0, 1132(%rbx)
	xorl	%ebp, %ebp
	jmp	.LBB8_8
.LBB8_5:
	movq	1232(%rsp), %rax
	movq	%rax, 1148(%rbx)
	movaps	1216(%rsp), %xmm0
	movups	%xmm0, 1132(%rbx)
	movq	1148(%rbx), %rax
	movq	%rax, 1232(%rsp)
	movups	1132(%rbx), %xmm0
	movaps	%xmm0, 1216(%rsp)
	movl	$32, 1176(%rsp)
	movl	$0, 1144(%rbx)
	movq	$0, 1136(%rbx)
	movq	$-1, 1192(%rsp)
	movb	$1, %bpl
	cmpq	$0, 1200(%rsp)
	jne	.LBB8_6
.LBB8_7:
	movq	1232(%rsp), %rax
	movq	%rax, 1148(%rbx)
	movaps	1216(%rsp), %xmm0
	movups	%xmm0, 1132(%rbx)
.LBB8_8:
	movl	40(%rsp), %eax
	movl	%eax, 1216(%rsp)
	leaq	1220(%rsp), %rdi
	movl	$1132, %edx
	movq	%rbx, %rsi
	callq	memcpy@PLT
	leaq	1216(%rsp), %rdi
	callq	std_io.io.buffer.Buffer.flush
	andb	%bpl, %al
	jne	.LBB8_10
	leaq	.Lstatic.0(%rip), %rcx
	movq	%rcx, (%rsp)
	movq	$8, 8(%rsp)
	leaq	.Lstatic.12(%rip), %rcx
	movq	%rcx, 16(%rsp)
	movq	$14, 24(%rsp)
	leaq	2352(%rsp), %rdi
	movq	%rsp, %rsi
	movl	%eax, %ebx
	callq	std_io.io.LibcRuntimeEprint.eprintln.27a8a20715d85f24
	movl	%ebx, %eax
.LBB8_10:
	xorb	$1, %al
	addq	$2448, %rsp
	.cfi_def_cfa_offset 48
	popq	%rbx
	.cfi_def_cfa_offset 40
	popq	%r12
	.cfi_def_cfa_offset 32
	popq	%r14
	.cfi_def_cfa_offset 24
	popq	%r15
	.cfi_def_cfa_offset 16
	popq	%rbp
	.cfi_def_cfa_offset 8
	retq
.LBB8_6:
	.cfi_def_cfa_offset 2496
	leaq	.Lstatic.3(%rip), %rsi
	leaq	40(%rsp), %rdi
	xorl	%edx, %edx
	callq	core.fmt.formatter.Formatter.write_indented.bf264aed5fa78656
	testb	%al, %al
	sete	%bpl
	jmp	.LBB8_7
.Lfunc_end8:
	.size	line_filter.program.write_text, .Lfunc_end8-line_filter.program.write_text
	.cfi_endproc

	.section	.text.unlikely.std_alloc.vec.Vec.grow_amortized.05fa32d921161499,"ax",@progbits
	.p2align	4
	.type	std_alloc.vec.Vec.grow_amortized.05fa32d921161499,@function
std_alloc.vec.Vec.grow_amortized.05fa32d921161499:
	.cfi_startproc
	movq	%rsi, %rax
	movq	8(%rdi), %rsi
	addq	%rsi, %rax
	jae	.LBB9_2
	xorl	%eax, %eax
	retq
.LBB9_2:
	pushq	%r14
	.cfi_def_cfa_offset 16
	pushq	%rbx
	.cfi_def_cfa_offset 24
	pushq	%rax
	.cfi_def_cfa_offset 32
	.cfi_offset %rbx, -24
	.cfi_offset %r14, -16
	cmpq	$9, %rax
	movl	$8, %ebx
	cmovaeq	%rax, %rbx
	movq	16(%rdi), %rcx
	movq	%rcx, %rdx
	shrq	$62, %rdx
	leaq	(%rcx,%rcx), %rax
	cmpq	%rax, %rbx
	cmovaq	%rbx, %rax
	testq	%rdx, %rdx
	cmoveq	%rax, %rbx
	testq	%rbx, %rbx
	js	.LBB9_6
	testq	%rcx, %rcx
	je	.LBB9_8
	movq	%rdi, %r14
	movq	(%rdi), %rdi
	movl	$1, %ecx
	movq	%rbx, %rdx
	callq	rattle_realloc@PLT
	testb	$1, %al
	je	.LBB9_6
.LBB9_9:
	movq	%rdx, (%r14)
	movq	%rbx, 16(%r14)
	movb	$1, %al
	addq	$8, %rsp
	.cfi_def_cfa_offset 24
	popq	%rbx
	.cfi_def_cfa_offset 16
	popq	%r14
	.cfi_def_cfa_offset 8
	.cfi_restore %rbx
	.cfi_restore %r14
	retq
.LBB9_8:
	.cfi_def_cfa_offset 32
	.cfi_offset %rbx, -24
	.cfi_offset %r14, -16
	movq	%rdi, %r14
	movl	$1, %esi
	movq	%rax, %rdi
	callq	rattle_alloc@PLT
	testb	$1, %al
	jne	.LBB9_9
.LBB9_6:
	xorl	%eax, %eax
	addq	$8, %rsp
	.cfi_def_cfa_offset 24
	popq	%rbx
	.cfi_def_cfa_offset 16
	popq	%r14
	.cfi_def_cfa_offset 8
	.cfi_restore %rbx
	.cfi_restore %r14
	retq
.Lfunc_end9:
	.size	std_alloc.vec.Vec.grow_amortized.05fa32d921161499, .Lfunc_end9-std_alloc.vec.Vec.grow_amortized.05fa32d921161499
	.cfi_endproc

	.section	.rodata.cst16,"aM",@progbits,16
	.p2align	4, 0x0
.LCPI10_0:
	.zero	16,208
.LCPI10_1:
	.zero	16,32
.LCPI10_2:
	.zero	16,159
.LCPI10_3:
	.zero	16,6
.LCPI10_4:
	.zero	16,169
.LCPI10_5:
	.zero	16,9
.LCPI10_6:
	.zero	16,16
.LCPI10_7:
	.short	255
	.short	255
	.short	255
	.short	255
	.short	255
	.short	255
	.short	255
	.short	255
.LCPI10_8:
	.zero	16,240
.LCPI10_9:
	.zero	16,15
.LCPI10_10:
	.zero	16,87
.LCPI10_11:
	.zero	16,48
	.section	.text.line_filter.answers.AnsweringTake.take.460d80f9416d9dfa,"ax",@progbits
	.p2align	4
	.type	line_filter.answers.AnsweringTake.take.460d80f9416d9dfa,@function
line_filter.answers.AnsweringTake.take.460d80f9416d9dfa:
	.cfi_startproc
	pushq	%rbp
	.cfi_def_cfa_offset 16
	pushq	%r15
	.cfi_def_cfa_offset 24
	pushq	%r14
	.cfi_def_cfa_offset 32
	pushq	%r13
	.cfi_def_cfa_offset 40
	pushq	%r12
	.cfi_def_cfa_offset 48
	pushq	%rbx
	.cfi_def_cfa_offset 56
	subq	$184, %rsp
	.cfi_def_cfa_offset 240
	.cfi_offset %rbx, -56
	.cfi_offset %r12, -48
	.cfi_offset %r13, -40
	.cfi_offset %r14, -32
	.cfi_offset %r15, -24
	.cfi_offset %rbp, -16
	movq	%rdx, %rax
	shrq	%rax
	movq	8(%rdi), %r14
	movq	%rax, %r15
	subq	%r14, %r15
	jbe	.LBB10_5
	movq	%rcx, 40(%rsp)
	movq	16(%rdi), %rbx
	movq	%rbx, %rax
	subq	%r14, %rax
	cmpq	%rax, %r15
	ja	.LBB10_28
	leaq	(%r14,%r15), %r12
	movq	(%rdi), %r13
	cmpq	%r12, %r14
	jae	.LBB10_4
.LBB10_3:
	addq	%r13, %r14
	movq	%rdi, 16(%rsp)
	movq	%r14, %rdi
	movq	%rsi, %r14
	xorl	%esi, %esi
	movq	%rdx, %rbp
	movq	%r15, %rdx
	callq	memset@PLT
	movq	16(%rsp), %rdi
	movq	%rbp, %rdx
	movq	%r14, %rsi
.LBB10_4:
	movq	%r13, (%rdi)
	movq	%r12, 8(%rdi)
	movq	%rbx, 16(%rdi)
	movq	%r12, %r14
	movq	40(%rsp), %rcx
	jmp	.LBB10_7
.LBB10_5:
	jae	.LBB10_7
	movq	%rax, 8(%rdi)
	movq	%rax, %r14
.LBB10_7:
	testb	$1, %dl
	jne	.LBB10_10
	movq	(%rdi), %r10
	leaq	.Lstatic.14(%rip), %rax
	cmpq	$2, %rdx
	jb	.LBB10_13
	movzbl	(%rsi), %edx
	cmpb	$15, (%rdx,%rax)
	jbe	.LBB10_13
.LBB10_10:
	movq	8(%rcx), %rax
	movq	16(%rcx), %r9
	movq	%r9, %rdx
	subq	%rax, %rdx
	cmpq	$6, %rdx
	jbe	.LBB10_26
.LBB10_11:
	movq	(%rcx), %rdx
	leaq	(%rdx,%rax), %rsi
	addq	$7, %rax
	leaq	.Lstatic.13(%rip), %rdi
	movq	%rsi, %r8
	subq	%rdi, %r8
	cmpq	$6, %r8
	ja	.LBB10_24
	movl	$1752461166, (%rsi)
	movw	$30821, 4(%rsi)
	movb	$10, 6(%rsi)
	jmp	.LBB10_25
.LBB10_13:
	xorl	%r9d, %r9d
	cmpq	$16, %r14
	jb	.LBB10_17
	movq	%r14, %rdx
	.p2align	4
.LBB10_15:
	movdqu	(%rsi,%r9,2), %xmm2
	movdqu	16(%rsi,%r9,2), %xmm0
	movdqa	.LCPI10_0(%rip), %xmm1
	movdqa	%xmm0, %xmm3
	paddb	%xmm1, %xmm3
	paddb	%xmm2, %xmm1
	movdqa	.LCPI10_1(%rip), %xmm4
	por	%xmm4, %xmm2
	por	%xmm4, %xmm0
	movdqa	.LCPI10_2(%rip), %xmm4
	movdqa	%xmm0, %xmm5
	paddb	%xmm4, %xmm5
	paddb	%xmm2, %xmm4
	movdqa	.LCPI10_3(%rip), %xmm6
	movdqa	.LCPI10_4(%rip), %xmm7
	paddb	%xmm7, %xmm0
	paddb	%xmm7, %xmm2
	movdqa	%xmm4, %xmm7
	pmaxub	%xmm6, %xmm7
	pcmpeqb	%xmm4, %xmm7
	por	%xmm2, %xmm7
	pmaxub	%xmm5, %xmm6
	pcmpeqb	%xmm5, %xmm6
	por	%xmm0, %xmm6
	movdqa	.LCPI10_5(%rip), %xmm2
	movdqa	%xmm1, %xmm0
	pminub	%xmm2, %xmm0
	pcmpeqb	%xmm1, %xmm0
	pminub	%xmm3, %xmm2
	pcmpeqb	%xmm3, %xmm2
	pand	%xmm2, %xmm3
	pandn	%xmm6, %xmm2
	por	%xmm3, %xmm2
	pand	%xmm0, %xmm1
	pandn	%xmm7, %xmm0
	por	%xmm1, %xmm0
	movdqa	.LCPI10_6(%rip), %xmm1
	movdqa	%xmm0, %xmm3
	pmaxub	%xmm1, %xmm3
	pcmpeqb	%xmm0, %xmm3
	pmaxub	%xmm2, %xmm1
	pcmpeqb	%xmm2, %xmm1
	por	%xmm3, %xmm1
	pmovmskb	%xmm1, %edi
	testl	%edi, %edi
	jne	.LBB10_17
	movdqa	.LCPI10_7(%rip), %xmm1
	movdqa	%xmm0, %xmm3
	pand	%xmm1, %xmm3
	pand	%xmm2, %xmm1
	packuswb	%xmm1, %xmm3
	psrlw	$8, %xmm0
	psrlw	$8, %xmm2
	packuswb	%xmm2, %xmm0
	psllw	$4, %xmm3
	pand	.LCPI10_8(%rip), %xmm3
	por	%xmm0, %xmm3
	movdqu	%xmm3, (%r10,%r9)
	addq	$16, %r9
	addq	$-16, %rdx
	cmpq	$15, %rdx
	ja	.LBB10_15
.LBB10_17:
	cmpq	%r14, %r9
	jae	.LBB10_20
	.p2align	4
.LBB10_18:
	movzbl	(%rsi,%r9,2), %edx
	movzbl	(%rdx,%rax), %edx
	movzbl	1(%rsi,%r9,2), %edi
	movzbl	(%rdi,%rax), %edi
	movl	%edi, %r8d
	orb	%dl, %r8b
	cmpb	$15, %r8b
	ja	.LBB10_10
	shlb	$4, %dl
	orb	%dl, %dil
	movb	%dil, (%r10,%r9)
	incq	%r9
	cmpq	%r9, %r14
	jne	.LBB10_18
.LBB10_20:
	movq	%rcx, 40(%rsp)
	cmpq	$16, %r14
	jb	.LBB10_198
	movzbl	(%r10), %edx
	cmpq	$45, %rdx
	ja	.LBB10_30
	leaq	.LJTI10_0(%rip), %rax
	movslq	(%rax,%rdx,4), %rcx
	addq	%rax, %rcx
	jmpq	*%rcx
.LBB10_23:
	movl	$1, %edx
	jmp	.LBB10_34
.LBB10_24:
	movl	$175662440, 3(%rsi)
	movl	$1752461166, (%rsi)
.LBB10_25:
	movq	%rdx, (%rcx)
	movq	%rax, 8(%rcx)
	movq	%r9, 16(%rcx)
	jmp	.LBB10_201
.LBB10_26:
	movl	$7, %esi
	movq	%rcx, %rbx
	movq	%rcx, %rdi
	callq	std_alloc.vec.Vec.grow_amortized.05fa32d921161499
	movb	$1, %r14b
	testb	%al, %al
	je	.LBB10_202
	movq	%rbx, %rcx
	movq	8(%rbx), %rax
	movq	16(%rbx), %r9
	jmp	.LBB10_11
.LBB10_28:
	movq	%rdx, %r12
	movq	%rsi, %r13
	movq	%rdi, %rbx
	movq	%r15, %rsi
	callq	std_alloc.vec.Vec.grow_amortized.05fa32d921161499
	movb	$1, %r14b
	testb	%al, %al
	je	.LBB10_202
	movq	%rbx, %rdi
	movq	8(%rbx), %r14
	movq	16(%rbx), %rbx
	movq	%r13, %rsi
	movq	%r12, %rdx
	leaq	(%r14,%r15), %r12
	movq	(%rdi), %r13
	cmpq	%r12, %r14
	jb	.LBB10_3
	jmp	.LBB10_4
.LBB10_30:
	shll	$8, %edx
	orq	$5, %rdx
	jmp	.LBB10_34
.LBB10_31:
	movl	$2, %edx
	jmp	.LBB10_34
.LBB10_32:
	movl	$3, %edx
	jmp	.LBB10_34
.LBB10_33:
	movl	$4, %edx
.LBB10_34:
	addq	$-16, %r14
	movl	4(%r10), %esi
	movzwl	2(%r10), %edi
	cmpl	$32, %edi
	movl	%esi, 68(%rsp)
	ja	.LBB10_37
	leaq	.LJTI10_1(%rip), %rax
	movslq	(%rax,%rdi,4), %rcx
	addq	%rax, %rcx
	jmpq	*%rcx
.LBB10_36:
	movq	%rdi, 8(%rsp)
	jmp	.LBB10_68
.LBB10_37:
	leal	-256(%rdi), %eax
	cmpl	$34, %eax
	ja	.LBB10_54
	leaq	.LJTI10_2(%rip), %rcx
	movslq	(%rcx,%rax,4), %rax
	addq	%rcx, %rax
	jmpq	*%rax
.LBB10_39:
	movl	$15, %eax
	jmp	.LBB10_67
.LBB10_40:
	movl	$14, %eax
	jmp	.LBB10_67
.LBB10_41:
	movl	$11, %eax
	jmp	.LBB10_67
.LBB10_42:
	movl	$7, %eax
	jmp	.LBB10_67
.LBB10_43:
	movl	$13, %eax
	jmp	.LBB10_67
.LBB10_44:
	movl	$5, %eax
	jmp	.LBB10_67
.LBB10_45:
	movl	$1, %eax
	jmp	.LBB10_67
.LBB10_46:
	movl	$3, %eax
	jmp	.LBB10_67
.LBB10_47:
	movl	$9, %eax
	jmp	.LBB10_67
.LBB10_48:
	movl	$10, %eax
	jmp	.LBB10_67
.LBB10_49:
	movl	$2, %eax
	jmp	.LBB10_67
.LBB10_50:
	movl	$4, %eax
	jmp	.LBB10_67
.LBB10_51:
	movl	$6, %eax
	jmp	.LBB10_67
.LBB10_52:
	movl	$8, %eax
	jmp	.LBB10_67
.LBB10_53:
	movl	$12, %eax
	jmp	.LBB10_67
.LBB10_54:
	movzwl	%di, %ecx
	leal	-512(%rcx), %eax
	cmpl	$314, %eax
	ja	.LBB10_261
	leaq	.LJTI10_3(%rip), %rcx
	movslq	(%rcx,%rax,4), %rax
	addq	%rcx, %rax
	jmpq	*%rax
.LBB10_56:
	movl	$26, %eax
	jmp	.LBB10_67
.LBB10_57:
	movl	$23, %eax
	jmp	.LBB10_67
.LBB10_58:
	movl	$22, %eax
	jmp	.LBB10_67
.LBB10_59:
	movl	$18, %eax
	jmp	.LBB10_67
.LBB10_60:
	movl	$20, %eax
	jmp	.LBB10_67
.LBB10_61:
	movl	$21, %eax
	jmp	.LBB10_67
.LBB10_62:
	movl	$16, %eax
	jmp	.LBB10_67
.LBB10_63:
	movl	$25, %eax
	jmp	.LBB10_67
.LBB10_64:
	movl	$17, %eax
	jmp	.LBB10_67
.LBB10_65:
	movl	$24, %eax
	jmp	.LBB10_67
.LBB10_66:
	movl	$19, %eax
.LBB10_67:
	movq	%rax, 8(%rsp)
.LBB10_68:
	leaq	16(%r10), %r8
	movq	%r10, 80(%rsp)
	movq	8(%r10), %xmm0
	movdqa	%xmm0, 112(%rsp)
	movzbl	%dl, %eax
	movq	%rax, 48(%rsp)
	testq	%r14, %r14
	movq	%r8, 16(%rsp)
	movq	%rdx, 72(%rsp)
	je	.LBB10_102
	movl	%edx, %esi
	andb	$-2, %sil
	xorl	%r9d, %r9d
	xorl	%ebp, %ebp
	movq	%r14, %r15
	movq	%r8, %r13
.LBB10_70:
	subq	%rbp, %r15
	cmpq	$4, %r15
	jb	.LBB10_103
	addq	%rbp, %r13
	movzwl	(%r13), %ebx
	cmpw	$4, %bx
	jb	.LBB10_103
	cmpq	%rbx, %r15
	jb	.LBB10_103
	leal	3(%rbx), %ebp
	andl	$-4, %ebp
	movq	%r14, %rax
	subq	%r9, %rax
	cmpq	%rax, %rbp
	ja	.LBB10_103
	movzwl	2(%r13), %ecx
	leaq	(%r8,%r9), %rax
	movq	%rbp, %rdx
	subq	%rbx, %rdx
	cmpq	$3, %rdx
	je	.LBB10_80
	cmpl	$2, %edx
	je	.LBB10_78
	cmpl	$1, %edx
	jne	.LBB10_83
	cmpb	$0, (%rax,%rbx)
	je	.LBB10_83
	jmp	.LBB10_103
.LBB10_78:
	cmpb	$0, (%rax,%rbx)
	jne	.LBB10_103
	cmpb	$0, 1(%rax,%rbx)
	je	.LBB10_83
	jmp	.LBB10_103
.LBB10_80:
	cmpb	$0, (%rax,%rbx)
	jne	.LBB10_103
	cmpb	$0, 1(%rax,%rbx)
	jne	.LBB10_103
	cmpb	$0, 2(%rax,%rbx)
	jne	.LBB10_103
.LBB10_83:
	cmpl	$16383, %ecx
	ja	.LBB10_103
	leaq	-4(%rbx), %r12
	andl	$16383, %ecx
	testq	%r12, %r12
	jne	.LBB10_86
	cmpw	$24, %cx
	je	.LBB10_103
.LBB10_86:
	decl	%ecx
	cmpl	$68, %ecx
	ja	.LBB10_91
	movb	$1, %al
	leaq	.LJTI10_4(%rip), %rdx
	movslq	(%rdx,%rcx,4), %rcx
	addq	%rdx, %rcx
	jmpq	*%rcx
.LBB10_88:
	xorl	%eax, %eax
	cmpl	$4, %r12d
	sete	%al
	movl	%eax, %edx
	shll	$2, %edx
.LBB10_89:
	testb	%al, %al
	je	.LBB10_103
	cmpq	%r12, %rdx
	jne	.LBB10_103
.LBB10_91:
	decq	%rbx
	andq	$-4, %rbx
	addq	%rbx, %r9
	addq	$4, %r9
	cmpq	%rbp, %r15
	ja	.LBB10_70
	jmp	.LBB10_103
.LBB10_92:
	leaq	4(%r13), %rdi
	movb	%sil, 24(%rsp)
	movq	%r12, %rsi
	movq	%r9, 32(%rsp)
	callq	nla_wire.payload.measure_text
	movzbl	24(%rsp), %esi
	movq	32(%rsp), %r9
	movq	16(%rsp), %r8
	cmpb	$1, %al
	sete	%al
	jmp	.LBB10_89
.LBB10_93:
	xorl	%eax, %eax
	cmpl	$1, %r12d
	sete	%al
	movq	%rax, %rdx
	jmp	.LBB10_89
.LBB10_94:
	movq	%r12, %rdx
	jmp	.LBB10_89
.LBB10_95:
	movl	$2, %edx
	cmpl	$2, %r12d
	je	.LBB10_89
	jmp	.LBB10_91
.LBB10_96:
	movq	48(%rsp), %rcx
	addl	$-3, %ecx
	movq	%r12, %rdx
	cmpl	$3, %ecx
	jb	.LBB10_89
	cmpl	$1, 48(%rsp)
	je	.LBB10_89
	jmp	.LBB10_98
.LBB10_99:
	cmpb	$2, %sil
	jne	.LBB10_91
	jmp	.LBB10_103
.LBB10_100:
	movl	$200, %edx
	jmp	.LBB10_89
.LBB10_101:
	movl	$96, %edx
	jmp	.LBB10_89
.LBB10_102:
	xorl	%r9d, %r9d
.LBB10_103:
	movq	%r14, %rbp
	subq	%r9, %rbp
	movq	%r9, 32(%rsp)
	movq	%rbp, 56(%rsp)
	je	.LBB10_147
	leaq	(%r8,%r9), %r13
	xorl	%ebx, %ebx
	xorl	%esi, %esi
	xorl	%r15d, %r15d
	.p2align	4
.LBB10_105:
	subq	%r15, %rbp
	cmpq	$4, %rbp
	jb	.LBB10_149
	addq	%r15, %r13
	movzwl	(%r13), %r15d
	cmpw	$4, %r15w
	jb	.LBB10_149
	cmpq	%r15, %rbp
	jb	.LBB10_149
	movzwl	2(%r13), %r10d
	leaq	-4(%r15), %rdx
	andl	$16383, %r10d
	leal	-3(%r10), %eax
	cmpl	$66, %eax
	ja	.LBB10_111
	leaq	4(%r13), %rdi
	leaq	.LJTI10_5(%rip), %rcx
	movslq	(%rcx,%rax,4), %rax
	addq	%rcx, %rax
	jmpq	*%rax
.LBB10_110:
	cmpl	$4, %edx
	movl	$4, %edx
	je	.LBB10_111
	jmp	.LBB10_149
.LBB10_113:
	movq	%rsi, %r12
	movq	%rdx, %rsi
	movq	%r10, 24(%rsp)
	callq	nla_wire.payload.measure_text
	movq	24(%rsp), %r10
	movq	32(%rsp), %r9
	movq	16(%rsp), %r8
	cmpb	$1, %al
	je	.LBB10_142
	jmp	.LBB10_149
.LBB10_114:
	cmpl	$1, %edx
	movl	$1, %edx
	je	.LBB10_111
	jmp	.LBB10_149
.LBB10_115:
	cmpl	$2, %edx
	jne	.LBB10_111
	movl	$2, %edx
	jmp	.LBB10_111
.LBB10_117:
	cmpq	$32, %rdx
	movl	$32, %eax
	cmovaeq	%rax, %rdx
	jmp	.LBB10_111
.LBB10_118:
	movq	%rsi, %r12
	movq	%rdx, %rsi
	movq	%r10, 24(%rsp)
	callq	nla_wire.members.measure_each.5fa77b269143286c
	jmp	.LBB10_140
.LBB10_119:
	movq	%rsi, %r12
	movq	%rdx, %rsi
	movq	%r10, 24(%rsp)
	callq	nla_wire.members.measure_each.f7f30aae703aa44d
	jmp	.LBB10_140
.LBB10_120:
	testq	%rdx, %rdx
	je	.LBB10_149
	movq	%rsi, %r12
	movq	%rdx, %rsi
	movq	%r10, 24(%rsp)
	callq	nla_wire.members.measure_each.79503c7a397af21a
	jmp	.LBB10_140
.LBB10_122:
	movq	%rsi, %r12
	movq	%rdx, %rsi
	movq	%r10, 24(%rsp)
	callq	nla_wire.members.measure_each.3bb4c8661a1029f4
	jmp	.LBB10_140
.LBB10_123:
	testq	%rdx, %rdx
	je	.LBB10_149
	movq	%rsi, %r12
	movq	%rdx, %rsi
	movq	%r10, 24(%rsp)
	callq	nla_wire.members.measure_each.49064c0641319ce4
	jmp	.LBB10_140
.LBB10_125:
	cmpw	$11, %r15w
	ja	.LBB10_111
	jmp	.LBB10_149
.LBB10_126:
	movl	$200, %edx
	jmp	.LBB10_111
.LBB10_127:
	leaq	.LJTI10_6(%rip), %rax
	movq	48(%rsp), %rcx
	movslq	(%rax,%rcx,4), %rcx
	addq	%rax, %rcx
	jmpq	*%rcx
.LBB10_128:
	movq	%rsi, %r12
	movq	%rdx, %rsi
	movq	%r10, 24(%rsp)
	callq	nla_wire.members.measure_each.6cf1decf0b22dc4b
	jmp	.LBB10_140
.LBB10_132:
	testq	%rdx, %rdx
	je	.LBB10_149
	movq	%rsi, %r12
	movq	%rdx, %rsi
	movq	%r10, 24(%rsp)
	jmp	.LBB10_139
.LBB10_129:
	movq	%rsi, %r12
	movq	%rdx, %rsi
	movq	%r10, 24(%rsp)
	callq	nla_wire.members.measure_each.16a873d75d6df2a1
	jmp	.LBB10_140
.LBB10_130:
	testq	%rdx, %rdx
	je	.LBB10_149
	movq	%rsi, %r12
	movq	%rdx, %rsi
	movq	%r10, 24(%rsp)
	callq	nla_wire.members.measure_each.8ba1f663fcd59a5e
	jmp	.LBB10_140
.LBB10_134:
	movl	$32, %edx
	cmpw	$35, %r15w
	ja	.LBB10_111
	jmp	.LBB10_149
.LBB10_135:
	movl	$51, %eax
	movq	48(%rsp), %rcx
	btl	%ecx, %eax
	jb	.LBB10_111
	cmpl	$2, 48(%rsp)
	movq	%r10, 24(%rsp)
	testq	%rdx, %rdx
	je	.LBB10_149
	movq	%rsi, %r12
	movq	%rdx, %rsi
.LBB10_139:
	callq	nla_wire.members.measure_each.1f0cb788f492ced5
	jmp	.LBB10_140
.LBB10_143:
	movl	$96, %edx
	jmp	.LBB10_111
.LBB10_144:
	movq	%rsi, %r12
	movq	%rdx, %rsi
	movq	%r10, 24(%rsp)
	callq	nla_wire.members.measure_each.b30b196c481b950e
.LBB10_140:
	movq	24(%rsp), %r10
	movq	32(%rsp), %r9
	movq	16(%rsp), %r8
	cmpb	$1, %al
	jne	.LBB10_149
	cmpq	$65532, %rdx
	jae	.LBB10_149
.LBB10_142:
	movq	%r12, %rsi
.LBB10_111:
	leaq	3(%rdx), %rax
	andq	$-4, %rax
	leaq	(%rsi,%rax), %r12
	addq	$4, %r12
	cmpq	%rsi, %r12
	jb	.LBB10_149
	addl	$3, %r15d
	andl	$-4, %r15d
	testq	%rdx, %rdx
	sete	%al
	cmpw	$24, %r10w
	sete	%cl
	andb	%al, %cl
	orb	%cl, %bl
	movq	%r12, %rsi
	cmpq	%r15, %rbp
	ja	.LBB10_105
	jmp	.LBB10_148
.LBB10_147:
	xorl	%r12d, %r12d
	xorl	%ebx, %ebx
.LBB10_148:
	movq	%r12, %r15
	addq	%r9, %r15
	jae	.LBB10_181
.LBB10_149:
	pxor	%xmm0, %xmm0
	movdqa	%xmm0, 128(%rsp)
	movdqa	%xmm0, 144(%rsp)
	movdqa	%xmm0, 160(%rsp)
	testq	%r14, %r14
	je	.LBB10_182
	xorl	%ebx, %ebx
	jmp	.LBB10_154
	.p2align	4
.LBB10_152:
	movw	%bp, 88(%rsp)
	leaq	90(%rsp), %rax
	movw	$0, 4(%rax)
	movl	$0, (%rax)
	movq	%r12, 96(%rsp)
	movq	%r13, 104(%rsp)
	leaq	128(%rsp), %rdi
	leaq	88(%rsp), %rdx
	movq	48(%rsp), %rsi
	movq	%r8, %r15
	callq	nla_wire.place.check_one.c4c48bc1b6cb0726
	movq	%r15, %r8
	cmpb	$0, 128(%rsp)
	jne	.LBB10_196
.LBB10_153:
	addl	$3, %ebx
	andl	$-4, %ebx
	cmpq	%rbx, %r14
	jbe	.LBB10_182
.LBB10_154:
	subq	%rbx, %r14
	cmpq	$4, %r14
	jb	.LBB10_189
	addq	%rbx, %r8
	movzwl	(%r8), %ebx
	cmpq	%rbx, %r14
	jb	.LBB10_190
	cmpw	$3, %bx
	jbe	.LBB10_191
	movzwl	2(%r8), %ebp
	movl	%ebp, %eax
	andl	$16383, %eax
	addl	$-3, %eax
	cmpl	$64, %eax
	ja	.LBB10_153
	leaq	4(%r8), %r12
	leaq	-4(%rbx), %r13
	leaq	.LJTI10_8(%rip), %rcx
	movslq	(%rcx,%rax,4), %rax
	addq	%rcx, %rax
	jmpq	*%rax
.LBB10_151:
	cmpl	$4, %r13d
	je	.LBB10_153
	jmp	.LBB10_152
.LBB10_159:
	movq	%r12, %rdi
	movq	%r13, %rsi
	movq	%r8, %r15
	callq	nla_wire.payload.measure_text
	movq	%r15, %r8
	testb	$1, %al
	je	.LBB10_152
	jmp	.LBB10_153
.LBB10_160:
	cmpl	$1, %r13d
	jne	.LBB10_152
	jmp	.LBB10_153
.LBB10_161:
	testq	%r13, %r13
	je	.LBB10_152
	movq	%r12, %rdi
	movq	%r13, %rsi
	movq	%r8, 16(%rsp)
	callq	nla_wire.members.measure_each.79503c7a397af21a
	jmp	.LBB10_180
.LBB10_163:
	movq	%r12, %rdi
	movq	%r13, %rsi
	movq	%r8, 16(%rsp)
	callq	nla_wire.members.measure_each.f7f30aae703aa44d
	jmp	.LBB10_180
.LBB10_164:
	movq	%r12, %rdi
	movq	%r13, %rsi
	movq	%r8, 16(%rsp)
	callq	nla_wire.members.measure_each.b30b196c481b950e
	jmp	.LBB10_180
.LBB10_165:
	movq	%r12, %rdi
	movq	%r13, %rsi
	movq	%r8, 16(%rsp)
	callq	nla_wire.members.measure_each.5fa77b269143286c
	jmp	.LBB10_180
.LBB10_166:
	testq	%r13, %r13
	je	.LBB10_152
	movq	%r12, %rdi
	movq	%r13, %rsi
	movq	%r8, 16(%rsp)
	callq	nla_wire.members.measure_each.8ba1f663fcd59a5e
	jmp	.LBB10_180
.LBB10_168:
	cmpw	$35, %bx
	jbe	.LBB10_152
	jmp	.LBB10_153
.LBB10_169:
	movl	$51, %eax
	movq	48(%rsp), %rcx
	btl	%ecx, %eax
	jb	.LBB10_153
	cmpl	$2, 48(%rsp)
	jmp	.LBB10_171
.LBB10_173:
	cmpw	$11, %bx
	jbe	.LBB10_152
	jmp	.LBB10_153
.LBB10_174:
	leaq	.LJTI10_9(%rip), %rax
	movq	48(%rsp), %rcx
	movslq	(%rax,%rcx,4), %rcx
	addq	%rax, %rcx
	jmpq	*%rcx
.LBB10_175:
	movq	%r12, %rdi
	movq	%r13, %rsi
	movq	%r8, 16(%rsp)
	callq	nla_wire.members.measure_each.6cf1decf0b22dc4b
	jmp	.LBB10_180
.LBB10_171:
	testq	%r13, %r13
	je	.LBB10_152
	movq	%r12, %rdi
	movq	%r13, %rsi
	movq	%r8, 16(%rsp)
	callq	nla_wire.members.measure_each.1f0cb788f492ced5
	jmp	.LBB10_180
.LBB10_176:
	testq	%r13, %r13
	je	.LBB10_152
	movq	%r12, %rdi
	movq	%r13, %rsi
	movq	%r8, 16(%rsp)
	callq	nla_wire.members.measure_each.49064c0641319ce4
	jmp	.LBB10_180
.LBB10_178:
	movq	%r12, %rdi
	movq	%r13, %rsi
	movq	%r8, 16(%rsp)
	callq	nla_wire.members.measure_each.3bb4c8661a1029f4
	jmp	.LBB10_180
.LBB10_179:
	movq	%r12, %rdi
	movq	%r13, %rsi
	movq	%r8, 16(%rsp)
	callq	nla_wire.members.measure_each.16a873d75d6df2a1
.LBB10_180:
	movq	16(%rsp), %r8
	cmpb	$1, %al
	sete	%al
	cmpq	$65532, %rdx
	setb	%cl
	testb	%cl, %al
	je	.LBB10_152
	jmp	.LBB10_153
.LBB10_181:
	cmpq	$-17, %r15
	jbe	.LBB10_186
.LBB10_182:
	movq	40(%rsp), %rdi
	movq	8(%rdi), %rax
	movq	16(%rdi), %rcx
	movq	%rcx, %rdx
	subq	%rax, %rdx
	cmpq	$5, %rdx
	jbe	.LBB10_205
.LBB10_183:
	movq	(%rdi), %rdx
	leaq	(%rdx,%rax), %rsi
	addq	$6, %rax
	leaq	.Lstatic.16(%rip), %r9
	movq	%rsi, %r8
	subq	%r9, %r8
	cmpq	$5, %r8
	ja	.LBB10_185
	movl	$1768320629, (%rsi)
	movw	$2676, 4(%rsi)
	jmp	.LBB10_200
.LBB10_185:
	movw	$2676, 4(%rsi)
	movl	$1768320629, (%rsi)
	jmp	.LBB10_200
.LBB10_186:
	testb	$1, %bl
	je	.LBB10_192
	movq	40(%rsp), %rdi
	movq	8(%rdi), %rax
	movq	16(%rdi), %rcx
	movq	%rcx, %rdx
	subq	%rax, %rdx
	cmpq	$11, %rdx
	jbe	.LBB10_207
.LBB10_188:
	movq	(%rdi), %rdx
	leaq	(%rdx,%rax), %rsi
	addq	$12, %rax
	leaq	.Lstatic.17(%rip), %r9
	movq	%rsi, %r8
	subq	%r9, %r8
	cmpq	$11, %r8
	movabsq	$8029968135269412197, %r8
	movq	%r8, (%rsi)
	movl	$175338610, 8(%rsi)
	jmp	.LBB10_200
.LBB10_189:
	movl	$1, %ebx
	jmp	.LBB10_197
.LBB10_190:
	shll	$16, %ebx
	orq	$2, %rbx
	jmp	.LBB10_197
.LBB10_191:
	shll	$16, %ebx
	orq	$3, %rbx
	jmp	.LBB10_197
.LBB10_192:
	addq	$16, %r15
	movb	$1, %r14b
	js	.LBB10_202
	movl	$1, %esi
	movq	%r15, %rdi
	callq	rattle_alloc@PLT
	testb	$1, %al
	movq	80(%rsp), %r8
	je	.LBB10_202
	movq	%rdx, %rbp
	leaq	.LJTI10_7(%rip), %rax
	movq	48(%rsp), %rcx
	movslq	(%rax,%rcx,4), %rcx
	addq	%rax, %rcx
	jmpq	*%rcx
.LBB10_195:
	xorl	%ecx, %ecx
	jmp	.LBB10_214
.LBB10_196:
	movzbl	152(%rsp), %ebx
.LBB10_197:
	movb	$1, %r14b
	cmpb	$8, %bl
	je	.LBB10_202
.LBB10_198:
	movq	40(%rsp), %rdi
	movq	8(%rdi), %rax
	movq	16(%rdi), %rcx
	movq	%rcx, %rdx
	subq	%rax, %rdx
	cmpq	$7, %rdx
	jbe	.LBB10_203
.LBB10_199:
	movq	(%rdi), %rdx
	movabsq	$748834984615634290, %rsi
	movq	%rsi, (%rdx,%rax)
	addq	$8, %rax
.LBB10_200:
	movq	%rdx, (%rdi)
	movq	%rax, 8(%rdi)
	movq	%rcx, 16(%rdi)
.LBB10_201:
	xorl	%r14d, %r14d
.LBB10_202:
	movl	%r14d, %eax
	addq	$184, %rsp
	.cfi_def_cfa_offset 56
	popq	%rbx
	.cfi_def_cfa_offset 48
	popq	%r12
	.cfi_def_cfa_offset 40
	popq	%r13
	.cfi_def_cfa_offset 32
	popq	%r14
	.cfi_def_cfa_offset 24
	popq	%r15
	.cfi_def_cfa_offset 16
	popq	%rbp
	.cfi_def_cfa_offset 8
	retq
.LBB10_203:
	.cfi_def_cfa_offset 240
	movl	$8, %esi
	callq	std_alloc.vec.Vec.grow_amortized.05fa32d921161499
	movb	$1, %r14b
	testb	%al, %al
	je	.LBB10_202
	movq	40(%rsp), %rdi
	movq	8(%rdi), %rax
	movq	16(%rdi), %rcx
	jmp	.LBB10_199
.LBB10_205:
	movl	$6, %esi
	callq	std_alloc.vec.Vec.grow_amortized.05fa32d921161499
	movb	$1, %r14b
	testb	%al, %al
	je	.LBB10_202
	movq	40(%rsp), %rdi
	movq	8(%rdi), %rax
	movq	16(%rdi), %rcx
	jmp	.LBB10_183
.LBB10_207:
	movl	$12, %esi
	callq	std_alloc.vec.Vec.grow_amortized.05fa32d921161499
	movb	$1, %r14b
	testb	%al, %al
	je	.LBB10_202
	movq	40(%rsp), %rdi
	movq	8(%rdi), %rax
	movq	16(%rdi), %rcx
	jmp	.LBB10_188
.LBB10_209:
	movw	$45, %cx
	jmp	.LBB10_214
.LBB10_210:
	movw	$7, %cx
	jmp	.LBB10_214
.LBB10_211:
	movw	$10, %cx
	jmp	.LBB10_214
.LBB10_212:
	movw	$2, %cx
	jmp	.LBB10_214
.LBB10_213:
	movq	72(%rsp), %rcx
	shrl	$8, %ecx
.LBB10_214:
	movq	16(%rsp), %rsi
	movq	32(%rsp), %r10
	movq	56(%rsp), %r14
	leaq	.Lswitch.table.line_filter.answers.AnsweringTake.take.460d80f9416d9dfa(%rip), %rax
	movq	8(%rsp), %rdx
	movzwl	(%rax,%rdx,2), %eax
	movw	%cx, (%rbp)
	movw	%ax, 2(%rbp)
	movl	68(%rsp), %eax
	movl	%eax, 4(%rbp)
	movdqa	112(%rsp), %xmm0
	movq	%xmm0, 8(%rbp)
	leaq	16(%r10), %rbx
	leaq	16(%rbp), %rdi
	movq	%rdi, %rax
	subq	%rsi, %rax
	cmpq	%r10, %rax
	jae	.LBB10_219
	xorl	%eax, %eax
	cmpq	$4, %r10
	jb	.LBB10_227
	movq	%rbp, %rcx
	subq	%r8, %rcx
	cmpq	$32, %rcx
	jb	.LBB10_227
	cmpq	$32, %r10
	jae	.LBB10_220
	xorl	%eax, %eax
	jmp	.LBB10_224
.LBB10_219:
	movq	%r10, %rdx
	callq	memmove@PLT
	movq	32(%rsp), %r10
	movq	16(%rsp), %rsi
	jmp	.LBB10_232
.LBB10_220:
	movq	%r10, %rax
	andq	$-32, %rax
	xorl	%ecx, %ecx
.LBB10_221:
	movdqu	16(%r8,%rcx), %xmm0
	movdqu	32(%r8,%rcx), %xmm1
	movdqu	%xmm0, 16(%rbp,%rcx)
	movdqu	%xmm1, 32(%rbp,%rcx)
	addq	$32, %rcx
	cmpq	%rcx, %rax
	jne	.LBB10_221
	cmpq	%rax, %r10
	je	.LBB10_232
	testb	$28, %r10b
	je	.LBB10_227
.LBB10_224:
	movq	%rax, %rcx
	movq	%r10, %rax
	andq	$-4, %rax
.LBB10_225:
	movl	(%rsi,%rcx), %edx
	movl	%edx, (%rdi,%rcx)
	addq	$4, %rcx
	cmpq	%rcx, %rax
	jne	.LBB10_225
	cmpq	%rax, %r10
	je	.LBB10_232
.LBB10_227:
	movq	%r10, %rdx
	movq	%rax, %rcx
	andq	$3, %rdx
	je	.LBB10_230
	movq	%rax, %rcx
.LBB10_229:
	movzbl	(%rsi,%rcx), %r9d
	movb	%r9b, (%rdi,%rcx)
	incq	%rcx
	decq	%rdx
	jne	.LBB10_229
.LBB10_230:
	subq	%r10, %rax
	cmpq	$-4, %rax
	ja	.LBB10_232
.LBB10_231:
	movzbl	16(%r8,%rcx), %eax
	movb	%al, 16(%rbp,%rcx)
	movzbl	17(%r8,%rcx), %eax
	movb	%al, 17(%rbp,%rcx)
	movzbl	18(%r8,%rcx), %eax
	movb	%al, 18(%rbp,%rcx)
	movzbl	19(%r8,%rcx), %eax
	movb	%al, 19(%rbp,%rcx)
	addq	$4, %rcx
	cmpq	%rcx, %r10
	jne	.LBB10_231
.LBB10_232:
	cmpq	%rbx, %r15
	jbe	.LBB10_235
	leaq	(%r12,%rbx), %r15
	cmpq	%r15, %rbx
	jae	.LBB10_235
	leaq	(%rbx,%rbp), %rdi
	xorl	%esi, %esi
	movq	%r12, %rdx
	callq	memset@PLT
	movq	32(%rsp), %r10
	movq	16(%rsp), %rsi
.LBB10_235:
	addq	%r10, %rsi
	leaq	(%rbx,%rbp), %rcx
	movq	%r15, 16(%rsp)
	subq	%rbx, %r15
	movq	48(%rsp), %rdi
	movq	%r14, %rdx
	movq	%r15, %r8
	callq	nla_wire.members.write_each.c4c48bc1b6cb0726
	movq	40(%rsp), %r12
	movq	8(%r12), %rbx
	movq	16(%r12), %r13
	movq	%r13, %rax
	subq	%rbx, %rax
	cmpq	$2, %rax
	jbe	.LBB10_263
.LBB10_236:
	leaq	3(%rbx), %r15
	movq	(%r12), %r8
	leaq	(%r8,%rbx), %rax
	leaq	.Lstatic.140(%rip), %rcx
	movq	%rax, %rdx
	subq	%rcx, %rdx
	movq	%rbp, %r12
	cmpq	$2, %rdx
	ja	.LBB10_238
	movw	$27503, (%rax)
	movb	$32, 2(%rax)
	jmp	.LBB10_239
.LBB10_238:
	movb	$32, 2(%rax)
	movw	$27503, (%rax)
.LBB10_239:
	movq	40(%rsp), %rax
	movq	%r8, (%rax)
	movq	%r15, 8(%rax)
	movq	%r13, 16(%rax)
	movq	16(%rsp), %rax
	leaq	(%rax,%rax), %rdx
	movq	%rdx, %rbp
	movb	$1, %r14b
	addq	%r15, %rbp
	jae	.LBB10_241
.LBB10_240:
	movq	%r12, %rbp
	jmp	.LBB10_260
.LBB10_241:
	cmpq	%r15, %rbp
	jbe	.LBB10_246
	movq	%r13, %rax
	subq	%r15, %rax
	movq	%r15, %rdi
	cmpq	%rax, %rdx
	ja	.LBB10_306
	cmpq	%rbp, %rdi
	jae	.LBB10_245
.LBB10_244:
	addq	%r8, %rdi
	xorl	%esi, %esi
	movq	%r8, 48(%rsp)
	callq	memset@PLT
	movq	48(%rsp), %r8
.LBB10_245:
	movq	40(%rsp), %rax
	movq	%r8, (%rax)
	movq	%rbp, 8(%rax)
	movq	%r13, 16(%rax)
	jmp	.LBB10_248
.LBB10_246:
	jae	.LBB10_248
	movq	40(%rsp), %rax
	movq	%rbp, 8(%rax)
.LBB10_248:
	movq	%r12, %rbp
	movq	16(%rsp), %rdi
	cmpq	$16, %rdi
	jb	.LBB10_251
	leaq	(%rbx,%r8), %rcx
	addq	$19, %rcx
	xorl	%eax, %eax
	movq	%rdi, %rdx
.LBB10_250:
	movdqu	(%rbp,%rax), %xmm0
	movdqa	%xmm0, %xmm1
	psrlw	$4, %xmm1
	movdqa	.LCPI10_9(%rip), %xmm2
	pand	%xmm2, %xmm1
	movdqa	.LCPI10_2(%rip), %xmm3
	pminub	%xmm0, %xmm3
	pcmpeqb	%xmm0, %xmm3
	movdqa	.LCPI10_10(%rip), %xmm4
	movdqa	%xmm3, %xmm5
	pandn	%xmm4, %xmm5
	movdqa	.LCPI10_11(%rip), %xmm6
	pand	%xmm6, %xmm3
	por	%xmm5, %xmm3
	paddb	%xmm1, %xmm3
	pand	%xmm2, %xmm0
	movdqa	%xmm0, %xmm1
	pcmpgtb	.LCPI10_5(%rip), %xmm1
	pand	%xmm1, %xmm4
	pandn	%xmm6, %xmm1
	por	%xmm4, %xmm1
	paddb	%xmm0, %xmm1
	movdqa	%xmm3, %xmm0
	punpcklbw	%xmm1, %xmm0
	punpckhbw	%xmm1, %xmm3
	movdqu	%xmm0, -16(%rcx,%rax,2)
	movdqu	%xmm3, (%rcx,%rax,2)
	addq	$16, %rax
	addq	$-16, %rdx
	cmpq	$15, %rdx
	ja	.LBB10_250
	jmp	.LBB10_252
.LBB10_251:
	xorl	%eax, %eax
.LBB10_252:
	cmpq	%rax, %rdi
	jbe	.LBB10_258
	movl	%edi, %edx
	subl	%eax, %edx
	leaq	1(%rax), %rcx
	testb	$1, %dl
	je	.LBB10_255
	addq	%r8, %r15
	movzbl	(%rbp,%rax), %edx
	shrl	$4, %edx
	leaq	.Lstatic.141(%rip), %rsi
	movzbl	(%rdx,%rsi), %edx
	movb	%dl, (%r15,%rax,2)
	movzbl	(%rbp,%rax), %edx
	andl	$15, %edx
	movzbl	(%rdx,%rsi), %edx
	movb	%dl, 1(%r15,%rax,2)
	movq	%rcx, %rax
.LBB10_255:
	cmpq	%rcx, %rdi
	je	.LBB10_258
	leaq	(%rbx,%r8), %rcx
	addq	$6, %rcx
.LBB10_257:
	movzbl	(%rbp,%rax), %edx
	shrl	$4, %edx
	leaq	.Lstatic.141(%rip), %rsi
	movzbl	(%rdx,%rsi), %edx
	movb	%dl, -3(%rcx,%rax,2)
	movzbl	(%rbp,%rax), %edx
	andl	$15, %edx
	movzbl	(%rdx,%rsi), %edx
	movb	%dl, -2(%rcx,%rax,2)
	movzbl	1(%rbp,%rax), %edx
	shrl	$4, %edx
	movzbl	(%rdx,%rsi), %edx
	movb	%dl, -1(%rcx,%rax,2)
	movzbl	1(%rbp,%rax), %edx
	andl	$15, %edx
	movzbl	(%rdx,%rsi), %edx
	movb	%dl, (%rcx,%rax,2)
	addq	$2, %rax
	cmpq	%rax, %rdi
	jne	.LBB10_257
.LBB10_258:
	movq	40(%rsp), %rbx
	movq	8(%rbx), %rax
	cmpq	%rax, 16(%rbx)
	je	.LBB10_304
.LBB10_259:
	movq	(%rbx), %rcx
	movb	$10, (%rcx,%rax)
	incq	%rax
	movq	%rax, 8(%rbx)
	xorl	%r14d, %r14d
.LBB10_260:
	movq	%rbp, %rdi
	callq	rattle_dealloc@PLT
	jmp	.LBB10_202
.LBB10_261:
	cmpl	$65534, %ecx
	jne	.LBB10_265
	movl	$65, %eax
	jmp	.LBB10_67
.LBB10_263:
	movl	$3, %esi
	movq	%r12, %rdi
	callq	std_alloc.vec.Vec.grow_amortized.05fa32d921161499
	movb	$1, %r14b
	testb	%al, %al
	je	.LBB10_260
	movq	8(%r12), %rbx
	movq	16(%r12), %r13
	jmp	.LBB10_236
.LBB10_265:
	movl	$66, %eax
	jmp	.LBB10_67
.LBB10_266:
	movl	$61, %eax
	jmp	.LBB10_67
.LBB10_267:
	movl	$53, %eax
	jmp	.LBB10_67
.LBB10_268:
	movl	$56, %eax
	jmp	.LBB10_67
.LBB10_269:
	movl	$55, %eax
	jmp	.LBB10_67
.LBB10_270:
	movl	$48, %eax
	jmp	.LBB10_67
.LBB10_271:
	movl	$52, %eax
	jmp	.LBB10_67
.LBB10_272:
	movl	$64, %eax
	jmp	.LBB10_67
.LBB10_273:
	movl	$54, %eax
	jmp	.LBB10_67
.LBB10_274:
	movl	$51, %eax
	jmp	.LBB10_67
.LBB10_275:
	movl	$62, %eax
	jmp	.LBB10_67
.LBB10_276:
	movl	$46, %eax
	jmp	.LBB10_67
.LBB10_277:
	movl	$47, %eax
	jmp	.LBB10_67
.LBB10_278:
	movl	$39, %eax
	jmp	.LBB10_67
.LBB10_279:
	movl	$63, %eax
	jmp	.LBB10_67
.LBB10_280:
	movl	$35, %eax
	jmp	.LBB10_67
.LBB10_281:
	movl	$60, %eax
	jmp	.LBB10_67
.LBB10_282:
	movl	$36, %eax
	jmp	.LBB10_67
.LBB10_283:
	movl	$58, %eax
	jmp	.LBB10_67
.LBB10_284:
	movl	$33, %eax
	jmp	.LBB10_67
.LBB10_285:
	movl	$38, %eax
	jmp	.LBB10_67
.LBB10_286:
	movl	$37, %eax
	jmp	.LBB10_67
.LBB10_287:
	movl	$30, %eax
	jmp	.LBB10_67
.LBB10_288:
	movl	$34, %eax
	jmp	.LBB10_67
.LBB10_289:
	movl	$27, %eax
	jmp	.LBB10_67
.LBB10_290:
	movl	$29, %eax
	jmp	.LBB10_67
.LBB10_291:
	movl	$28, %eax
	jmp	.LBB10_67
.LBB10_292:
	movl	$32, %eax
	jmp	.LBB10_67
.LBB10_293:
	movl	$31, %eax
	jmp	.LBB10_67
.LBB10_294:
	movl	$41, %eax
	jmp	.LBB10_67
.LBB10_295:
	movl	$43, %eax
	jmp	.LBB10_67
.LBB10_296:
	movl	$45, %eax
	jmp	.LBB10_67
.LBB10_297:
	movl	$44, %eax
	jmp	.LBB10_67
.LBB10_298:
	movl	$40, %eax
	jmp	.LBB10_67
.LBB10_299:
	movl	$50, %eax
	jmp	.LBB10_67
.LBB10_300:
	movl	$42, %eax
	jmp	.LBB10_67
.LBB10_301:
	movl	$49, %eax
	jmp	.LBB10_67
.LBB10_302:
	movl	$57, %eax
	jmp	.LBB10_67
.LBB10_303:
	movl	$59, %eax
	jmp	.LBB10_67
.LBB10_98:
	cmpl	$0, 48(%rsp)
	jmp	.LBB10_103
.LBB10_304:
	movl	$1, %esi
	movq	%rbx, %rdi
	callq	std_alloc.vec.Vec.grow_amortized.05fa32d921161499
	testb	%al, %al
	je	.LBB10_260
	movq	8(%rbx), %rax
	jmp	.LBB10_259
.LBB10_306:
	movq	40(%rsp), %rdi
	movq	%rdx, %rbp
	movq	%rdx, %rsi
	callq	std_alloc.vec.Vec.grow_amortized.05fa32d921161499
	testb	%al, %al
	je	.LBB10_240
	movq	40(%rsp), %rax
	movq	(%rax), %r8
	movq	8(%rax), %rdi
	movq	16(%rax), %r13
	movq	%rbp, %rdx
	addq	%rdi, %rbp
	cmpq	%rbp, %rdi
	jb	.LBB10_244
	jmp	.LBB10_245
.Lfunc_end10:
	.size	line_filter.answers.AnsweringTake.take.460d80f9416d9dfa, .Lfunc_end10-line_filter.answers.AnsweringTake.take.460d80f9416d9dfa
	.cfi_endproc
	.section	.rodata.line_filter.answers.AnsweringTake.take.460d80f9416d9dfa,"a",@progbits
	.p2align	2, 0x0
.LJTI10_0:
	.long	.LBB10_34-.LJTI10_0
	.long	.LBB10_30-.LJTI10_0
	.long	.LBB10_23-.LJTI10_0
	.long	.LBB10_30-.LJTI10_0
	.long	.LBB10_30-.LJTI10_0
	.long	.LBB10_30-.LJTI10_0
	.long	.LBB10_30-.LJTI10_0
	.long	.LBB10_31-.LJTI10_0
	.long	.LBB10_30-.LJTI10_0
	.long	.LBB10_30-.LJTI10_0
	.long	.LBB10_32-.LJTI10_0
	.long	.LBB10_30-.LJTI10_0
	.long	.LBB10_30-.LJTI10_0
	.long	.LBB10_30-.LJTI10_0
	.long	.LBB10_30-.LJTI10_0
	.long	.LBB10_30-.LJTI10_0
	.long	.LBB10_30-.LJTI10_0
	.long	.LBB10_30-.LJTI10_0
	.long	.LBB10_30-.LJTI10_0
	.long	.LBB10_30-.LJTI10_0
	.long	.LBB10_30-.LJTI10_0
	.long	.LBB10_30-.LJTI10_0
	.long	.LBB10_30-.LJTI10_0
	.long	.LBB10_30-.LJTI10_0
	.long	.LBB10_30-.LJTI10_0
	.long	.LBB10_30-.LJTI10_0
	.long	.LBB10_30-.LJTI10_0
	.long	.LBB10_30-.LJTI10_0
	.long	.LBB10_30-.LJTI10_0
	.long	.LBB10_30-.LJTI10_0
	.long	.LBB10_30-.LJTI10_0
	.long	.LBB10_30-.LJTI10_0
	.long	.LBB10_30-.LJTI10_0
	.long	.LBB10_30-.LJTI10_0
	.long	.LBB10_30-.LJTI10_0
	.long	.LBB10_30-.LJTI10_0
	.long	.LBB10_30-.LJTI10_0
	.long	.LBB10_30-.LJTI10_0
	.long	.LBB10_30-.LJTI10_0
	.long	.LBB10_30-.LJTI10_0
	.long	.LBB10_30-.LJTI10_0
	.long	.LBB10_30-.LJTI10_0
	.long	.LBB10_30-.LJTI10_0
	.long	.LBB10_30-.LJTI10_0
	.long	.LBB10_30-.LJTI10_0
	.long	.LBB10_33-.LJTI10_0
.LJTI10_1:
	.long	.LBB10_36-.LJTI10_1
	.long	.LBB10_45-.LJTI10_1
	.long	.LBB10_49-.LJTI10_1
	.long	.LBB10_46-.LJTI10_1
	.long	.LBB10_50-.LJTI10_1
	.long	.LBB10_44-.LJTI10_1
	.long	.LBB10_51-.LJTI10_1
	.long	.LBB10_42-.LJTI10_1
	.long	.LBB10_52-.LJTI10_1
	.long	.LBB10_54-.LJTI10_1
	.long	.LBB10_54-.LJTI10_1
	.long	.LBB10_54-.LJTI10_1
	.long	.LBB10_54-.LJTI10_1
	.long	.LBB10_54-.LJTI10_1
	.long	.LBB10_54-.LJTI10_1
	.long	.LBB10_47-.LJTI10_1
	.long	.LBB10_54-.LJTI10_1
	.long	.LBB10_54-.LJTI10_1
	.long	.LBB10_54-.LJTI10_1
	.long	.LBB10_48-.LJTI10_1
	.long	.LBB10_54-.LJTI10_1
	.long	.LBB10_54-.LJTI10_1
	.long	.LBB10_54-.LJTI10_1
	.long	.LBB10_41-.LJTI10_1
	.long	.LBB10_53-.LJTI10_1
	.long	.LBB10_54-.LJTI10_1
	.long	.LBB10_54-.LJTI10_1
	.long	.LBB10_43-.LJTI10_1
	.long	.LBB10_54-.LJTI10_1
	.long	.LBB10_54-.LJTI10_1
	.long	.LBB10_54-.LJTI10_1
	.long	.LBB10_54-.LJTI10_1
	.long	.LBB10_40-.LJTI10_1
.LJTI10_2:
	.long	.LBB10_39-.LJTI10_2
	.long	.LBB10_62-.LJTI10_2
	.long	.LBB10_64-.LJTI10_2
	.long	.LBB10_59-.LJTI10_2
	.long	.LBB10_66-.LJTI10_2
	.long	.LBB10_54-.LJTI10_2
	.long	.LBB10_54-.LJTI10_2
	.long	.LBB10_54-.LJTI10_2
	.long	.LBB10_60-.LJTI10_2
	.long	.LBB10_54-.LJTI10_2
	.long	.LBB10_54-.LJTI10_2
	.long	.LBB10_54-.LJTI10_2
	.long	.LBB10_54-.LJTI10_2
	.long	.LBB10_54-.LJTI10_2
	.long	.LBB10_61-.LJTI10_2
	.long	.LBB10_58-.LJTI10_2
	.long	.LBB10_57-.LJTI10_2
	.long	.LBB10_54-.LJTI10_2
	.long	.LBB10_54-.LJTI10_2
	.long	.LBB10_54-.LJTI10_2
	.long	.LBB10_54-.LJTI10_2
	.long	.LBB10_54-.LJTI10_2
	.long	.LBB10_54-.LJTI10_2
	.long	.LBB10_54-.LJTI10_2
	.long	.LBB10_65-.LJTI10_2
	.long	.LBB10_54-.LJTI10_2
	.long	.LBB10_54-.LJTI10_2
	.long	.LBB10_54-.LJTI10_2
	.long	.LBB10_54-.LJTI10_2
	.long	.LBB10_54-.LJTI10_2
	.long	.LBB10_54-.LJTI10_2
	.long	.LBB10_54-.LJTI10_2
	.long	.LBB10_54-.LJTI10_2
	.long	.LBB10_54-.LJTI10_2
	.long	.LBB10_63-.LJTI10_2
.LJTI10_3:
	.long	.LBB10_56-.LJTI10_3
	.long	.LBB10_289-.LJTI10_3
	.long	.LBB10_265-.LJTI10_3
	.long	.LBB10_265-.LJTI10_3
	.long	.LBB10_291-.LJTI10_3
	.long	.LBB10_290-.LJTI10_3
	.long	.LBB10_287-.LJTI10_3
	.long	.LBB10_293-.LJTI10_3
	.long	.LBB10_265-.LJTI10_3
	.long	.LBB10_265-.LJTI10_3
	.long	.LBB10_265-.LJTI10_3
	.long	.LBB10_265-.LJTI10_3
	.long	.LBB10_265-.LJTI10_3
	.long	.LBB10_265-.LJTI10_3
	.long	.LBB10_265-.LJTI10_3
	.long	.LBB10_265-.LJTI10_3
	.long	.LBB10_265-.LJTI10_3
	.long	.LBB10_265-.LJTI10_3
	.long	.LBB10_265-.LJTI10_3
	.long	.LBB10_265-.LJTI10_3
	.long	.LBB10_265-.LJTI10_3
	.long	.LBB10_265-.LJTI10_3
	.long	.LBB10_265-.LJTI10_3
	.long	.LBB10_265-.LJTI10_3
	.long	.LBB10_265-.LJTI10_3
	.long	.LBB10_265-.LJTI10_3
	.long	.LBB10_265-.LJTI10_3
	.long	.LBB10_265-.LJTI10_3
	.long	.LBB10_265-.LJTI10_3
	.long	.LBB10_265-.LJTI10_3
	.long	.LBB10_265-.LJTI10_3
	.long	.LBB10_265-.LJTI10_3
	.long	.LBB10_265-.LJTI10_3
	.long	.LBB10_265-.LJTI10_3
	.long	.LBB10_265-.LJTI10_3
	.long	.LBB10_265-.LJTI10_3
	.long	.LBB10_265-.LJTI10_3
	.long	.LBB10_265-.LJTI10_3
	.long	.LBB10_265-.LJTI10_3
	.long	.LBB10_265-.LJTI10_3
	.long	.LBB10_265-.LJTI10_3
	.long	.LBB10_265-.LJTI10_3
	.long	.LBB10_265-.LJTI10_3
	.long	.LBB10_265-.LJTI10_3
	.long	.LBB10_265-.LJTI10_3
	.long	.LBB10_265-.LJTI10_3
	.long	.LBB10_265-.LJTI10_3
	.long	.LBB10_265-.LJTI10_3
	.long	.LBB10_265-.LJTI10_3
	.long	.LBB10_265-.LJTI10_3
	.long	.LBB10_265-.LJTI10_3
	.long	.LBB10_265-.LJTI10_3
	.long	.LBB10_265-.LJTI10_3
	.long	.LBB10_265-.LJTI10_3
	.long	.LBB10_265-.LJTI10_3
	.long	.LBB10_265-.LJTI10_3
	.long	.LBB10_265-.LJTI10_3
	.long	.LBB10_265-.LJTI10_3
	.long	.LBB10_265-.LJTI10_3
	.long	.LBB10_265-.LJTI10_3
	.long	.LBB10_265-.LJTI10_3
	.long	.LBB10_265-.LJTI10_3
	.long	.LBB10_265-.LJTI10_3
	.long	.LBB10_265-.LJTI10_3
	.long	.LBB10_265-.LJTI10_3
	.long	.LBB10_265-.LJTI10_3
	.long	.LBB10_265-.LJTI10_3
	.long	.LBB10_265-.LJTI10_3
	.long	.LBB10_265-.LJTI10_3
	.long	.LBB10_265-.LJTI10_3
	.long	.LBB10_265-.LJTI10_3
	.long	.LBB10_265-.LJTI10_3
	.long	.LBB10_265-.LJTI10_3
	.long	.LBB10_265-.LJTI10_3
	.long	.LBB10_265-.LJTI10_3
	.long	.LBB10_265-.LJTI10_3
	.long	.LBB10_265-.LJTI10_3
	.long	.LBB10_265-.LJTI10_3
	.long	.LBB10_265-.LJTI10_3
	.long	.LBB10_265-.LJTI10_3
	.long	.LBB10_265-.LJTI10_3
	.long	.LBB10_265-.LJTI10_3
	.long	.LBB10_265-.LJTI10_3
	.long	.LBB10_265-.LJTI10_3
	.long	.LBB10_265-.LJTI10_3
	.long	.LBB10_265-.LJTI10_3
	.long	.LBB10_265-.LJTI10_3
	.long	.LBB10_265-.LJTI10_3
	.long	.LBB10_265-.LJTI10_3
	.long	.LBB10_265-.LJTI10_3
	.long	.LBB10_265-.LJTI10_3
	.long	.LBB10_265-.LJTI10_3
	.long	.LBB10_265-.LJTI10_3
	.long	.LBB10_265-.LJTI10_3
	.long	.LBB10_265-.LJTI10_3
	.long	.LBB10_265-.LJTI10_3
	.long	.LBB10_265-.LJTI10_3
	.long	.LBB10_265-.LJTI10_3
	.long	.LBB10_265-.LJTI10_3
	.long	.LBB10_265-.LJTI10_3
	.long	.LBB10_265-.LJTI10_3
	.long	.LBB10_265-.LJTI10_3
	.long	.LBB10_265-.LJTI10_3
	.long	.LBB10_265-.LJTI10_3
	.long	.LBB10_265-.LJTI10_3
	.long	.LBB10_265-.LJTI10_3
	.long	.LBB10_265-.LJTI10_3
	.long	.LBB10_265-.LJTI10_3
	.long	.LBB10_265-.LJTI10_3
	.long	.LBB10_265-.LJTI10_3
	.long	.LBB10_265-.LJTI10_3
	.long	.LBB10_265-.LJTI10_3
	.long	.LBB10_265-.LJTI10_3
	.long	.LBB10_265-.LJTI10_3
	.long	.LBB10_265-.LJTI10_3
	.long	.LBB10_265-.LJTI10_3
	.long	.LBB10_265-.LJTI10_3
	.long	.LBB10_265-.LJTI10_3
	.long	.LBB10_265-.LJTI10_3
	.long	.LBB10_265-.LJTI10_3
	.long	.LBB10_265-.LJTI10_3
	.long	.LBB10_265-.LJTI10_3
	.long	.LBB10_265-.LJTI10_3
	.long	.LBB10_265-.LJTI10_3
	.long	.LBB10_265-.LJTI10_3
	.long	.LBB10_265-.LJTI10_3
	.long	.LBB10_265-.LJTI10_3
	.long	.LBB10_265-.LJTI10_3
	.long	.LBB10_265-.LJTI10_3
	.long	.LBB10_265-.LJTI10_3
	.long	.LBB10_265-.LJTI10_3
	.long	.LBB10_265-.LJTI10_3
	.long	.LBB10_265-.LJTI10_3
	.long	.LBB10_265-.LJTI10_3
	.long	.LBB10_265-.LJTI10_3
	.long	.LBB10_265-.LJTI10_3
	.long	.LBB10_265-.LJTI10_3
	.long	.LBB10_265-.LJTI10_3
	.long	.LBB10_265-.LJTI10_3
	.long	.LBB10_265-.LJTI10_3
	.long	.LBB10_265-.LJTI10_3
	.long	.LBB10_265-.LJTI10_3
	.long	.LBB10_265-.LJTI10_3
	.long	.LBB10_265-.LJTI10_3
	.long	.LBB10_265-.LJTI10_3
	.long	.LBB10_265-.LJTI10_3
	.long	.LBB10_265-.LJTI10_3
	.long	.LBB10_265-.LJTI10_3
	.long	.LBB10_265-.LJTI10_3
	.long	.LBB10_265-.LJTI10_3
	.long	.LBB10_265-.LJTI10_3
	.long	.LBB10_265-.LJTI10_3
	.long	.LBB10_265-.LJTI10_3
	.long	.LBB10_265-.LJTI10_3
	.long	.LBB10_265-.LJTI10_3
	.long	.LBB10_265-.LJTI10_3
	.long	.LBB10_265-.LJTI10_3
	.long	.LBB10_265-.LJTI10_3
	.long	.LBB10_265-.LJTI10_3
	.long	.LBB10_265-.LJTI10_3
	.long	.LBB10_265-.LJTI10_3
	.long	.LBB10_265-.LJTI10_3
	.long	.LBB10_265-.LJTI10_3
	.long	.LBB10_265-.LJTI10_3
	.long	.LBB10_265-.LJTI10_3
	.long	.LBB10_265-.LJTI10_3
	.long	.LBB10_265-.LJTI10_3
	.long	.LBB10_265-.LJTI10_3
	.long	.LBB10_265-.LJTI10_3
	.long	.LBB10_265-.LJTI10_3
	.long	.LBB10_265-.LJTI10_3
	.long	.LBB10_265-.LJTI10_3
	.long	.LBB10_265-.LJTI10_3
	.long	.LBB10_265-.LJTI10_3
	.long	.LBB10_265-.LJTI10_3
	.long	.LBB10_265-.LJTI10_3
	.long	.LBB10_265-.LJTI10_3
	.long	.LBB10_265-.LJTI10_3
	.long	.LBB10_265-.LJTI10_3
	.long	.LBB10_265-.LJTI10_3
	.long	.LBB10_265-.LJTI10_3
	.long	.LBB10_265-.LJTI10_3
	.long	.LBB10_265-.LJTI10_3
	.long	.LBB10_265-.LJTI10_3
	.long	.LBB10_265-.LJTI10_3
	.long	.LBB10_265-.LJTI10_3
	.long	.LBB10_265-.LJTI10_3
	.long	.LBB10_265-.LJTI10_3
	.long	.LBB10_265-.LJTI10_3
	.long	.LBB10_265-.LJTI10_3
	.long	.LBB10_265-.LJTI10_3
	.long	.LBB10_265-.LJTI10_3
	.long	.LBB10_265-.LJTI10_3
	.long	.LBB10_265-.LJTI10_3
	.long	.LBB10_265-.LJTI10_3
	.long	.LBB10_265-.LJTI10_3
	.long	.LBB10_265-.LJTI10_3
	.long	.LBB10_265-.LJTI10_3
	.long	.LBB10_265-.LJTI10_3
	.long	.LBB10_265-.LJTI10_3
	.long	.LBB10_265-.LJTI10_3
	.long	.LBB10_265-.LJTI10_3
	.long	.LBB10_265-.LJTI10_3
	.long	.LBB10_265-.LJTI10_3
	.long	.LBB10_265-.LJTI10_3
	.long	.LBB10_265-.LJTI10_3
	.long	.LBB10_265-.LJTI10_3
	.long	.LBB10_265-.LJTI10_3
	.long	.LBB10_265-.LJTI10_3
	.long	.LBB10_265-.LJTI10_3
	.long	.LBB10_265-.LJTI10_3
	.long	.LBB10_265-.LJTI10_3
	.long	.LBB10_265-.LJTI10_3
	.long	.LBB10_265-.LJTI10_3
	.long	.LBB10_265-.LJTI10_3
	.long	.LBB10_265-.LJTI10_3
	.long	.LBB10_265-.LJTI10_3
	.long	.LBB10_265-.LJTI10_3
	.long	.LBB10_265-.LJTI10_3
	.long	.LBB10_265-.LJTI10_3
	.long	.LBB10_265-.LJTI10_3
	.long	.LBB10_265-.LJTI10_3
	.long	.LBB10_265-.LJTI10_3
	.long	.LBB10_265-.LJTI10_3
	.long	.LBB10_265-.LJTI10_3
	.long	.LBB10_265-.LJTI10_3
	.long	.LBB10_265-.LJTI10_3
	.long	.LBB10_265-.LJTI10_3
	.long	.LBB10_265-.LJTI10_3
	.long	.LBB10_265-.LJTI10_3
	.long	.LBB10_265-.LJTI10_3
	.long	.LBB10_265-.LJTI10_3
	.long	.LBB10_265-.LJTI10_3
	.long	.LBB10_265-.LJTI10_3
	.long	.LBB10_265-.LJTI10_3
	.long	.LBB10_265-.LJTI10_3
	.long	.LBB10_265-.LJTI10_3
	.long	.LBB10_265-.LJTI10_3
	.long	.LBB10_265-.LJTI10_3
	.long	.LBB10_265-.LJTI10_3
	.long	.LBB10_265-.LJTI10_3
	.long	.LBB10_265-.LJTI10_3
	.long	.LBB10_265-.LJTI10_3
	.long	.LBB10_265-.LJTI10_3
	.long	.LBB10_265-.LJTI10_3
	.long	.LBB10_265-.LJTI10_3
	.long	.LBB10_265-.LJTI10_3
	.long	.LBB10_265-.LJTI10_3
	.long	.LBB10_265-.LJTI10_3
	.long	.LBB10_265-.LJTI10_3
	.long	.LBB10_265-.LJTI10_3
	.long	.LBB10_265-.LJTI10_3
	.long	.LBB10_265-.LJTI10_3
	.long	.LBB10_265-.LJTI10_3
	.long	.LBB10_265-.LJTI10_3
	.long	.LBB10_265-.LJTI10_3
	.long	.LBB10_292-.LJTI10_3
	.long	.LBB10_284-.LJTI10_3
	.long	.LBB10_288-.LJTI10_3
	.long	.LBB10_280-.LJTI10_3
	.long	.LBB10_282-.LJTI10_3
	.long	.LBB10_286-.LJTI10_3
	.long	.LBB10_285-.LJTI10_3
	.long	.LBB10_278-.LJTI10_3
	.long	.LBB10_298-.LJTI10_3
	.long	.LBB10_294-.LJTI10_3
	.long	.LBB10_300-.LJTI10_3
	.long	.LBB10_295-.LJTI10_3
	.long	.LBB10_297-.LJTI10_3
	.long	.LBB10_296-.LJTI10_3
	.long	.LBB10_276-.LJTI10_3
	.long	.LBB10_277-.LJTI10_3
	.long	.LBB10_270-.LJTI10_3
	.long	.LBB10_301-.LJTI10_3
	.long	.LBB10_299-.LJTI10_3
	.long	.LBB10_274-.LJTI10_3
	.long	.LBB10_265-.LJTI10_3
	.long	.LBB10_265-.LJTI10_3
	.long	.LBB10_265-.LJTI10_3
	.long	.LBB10_265-.LJTI10_3
	.long	.LBB10_265-.LJTI10_3
	.long	.LBB10_265-.LJTI10_3
	.long	.LBB10_265-.LJTI10_3
	.long	.LBB10_265-.LJTI10_3
	.long	.LBB10_265-.LJTI10_3
	.long	.LBB10_265-.LJTI10_3
	.long	.LBB10_265-.LJTI10_3
	.long	.LBB10_265-.LJTI10_3
	.long	.LBB10_271-.LJTI10_3
	.long	.LBB10_267-.LJTI10_3
	.long	.LBB10_273-.LJTI10_3
	.long	.LBB10_269-.LJTI10_3
	.long	.LBB10_268-.LJTI10_3
	.long	.LBB10_302-.LJTI10_3
	.long	.LBB10_265-.LJTI10_3
	.long	.LBB10_265-.LJTI10_3
	.long	.LBB10_265-.LJTI10_3
	.long	.LBB10_265-.LJTI10_3
	.long	.LBB10_265-.LJTI10_3
	.long	.LBB10_265-.LJTI10_3
	.long	.LBB10_265-.LJTI10_3
	.long	.LBB10_265-.LJTI10_3
	.long	.LBB10_265-.LJTI10_3
	.long	.LBB10_265-.LJTI10_3
	.long	.LBB10_265-.LJTI10_3
	.long	.LBB10_265-.LJTI10_3
	.long	.LBB10_265-.LJTI10_3
	.long	.LBB10_265-.LJTI10_3
	.long	.LBB10_283-.LJTI10_3
	.long	.LBB10_303-.LJTI10_3
	.long	.LBB10_281-.LJTI10_3
	.long	.LBB10_266-.LJTI10_3
	.long	.LBB10_275-.LJTI10_3
	.long	.LBB10_279-.LJTI10_3
	.long	.LBB10_272-.LJTI10_3
.LJTI10_4:
	.long	.LBB10_94-.LJTI10_4
	.long	.LBB10_94-.LJTI10_4
	.long	.LBB10_92-.LJTI10_4
	.long	.LBB10_88-.LJTI10_4
	.long	.LBB10_88-.LJTI10_4
	.long	.LBB10_92-.LJTI10_4
	.long	.LBB10_101-.LJTI10_4
	.long	.LBB10_91-.LJTI10_4
	.long	.LBB10_91-.LJTI10_4
	.long	.LBB10_88-.LJTI10_4
	.long	.LBB10_103-.LJTI10_4
	.long	.LBB10_99-.LJTI10_4
	.long	.LBB10_88-.LJTI10_4
	.long	.LBB10_103-.LJTI10_4
	.long	.LBB10_91-.LJTI10_4
	.long	.LBB10_93-.LJTI10_4
	.long	.LBB10_93-.LJTI10_4
	.long	.LBB10_103-.LJTI10_4
	.long	.LBB10_88-.LJTI10_4
	.long	.LBB10_92-.LJTI10_4
	.long	.LBB10_88-.LJTI10_4
	.long	.LBB10_103-.LJTI10_4
	.long	.LBB10_100-.LJTI10_4
	.long	.LBB10_103-.LJTI10_4
	.long	.LBB10_103-.LJTI10_4
	.long	.LBB10_96-.LJTI10_4
	.long	.LBB10_88-.LJTI10_4
	.long	.LBB10_88-.LJTI10_4
	.long	.LBB10_88-.LJTI10_4
	.long	.LBB10_88-.LJTI10_4
	.long	.LBB10_88-.LJTI10_4
	.long	.LBB10_88-.LJTI10_4
	.long	.LBB10_93-.LJTI10_4
	.long	.LBB10_103-.LJTI10_4
	.long	.LBB10_88-.LJTI10_4
	.long	.LBB10_103-.LJTI10_4
	.long	.LBB10_88-.LJTI10_4
	.long	.LBB10_92-.LJTI10_4
	.long	.LBB10_93-.LJTI10_4
	.long	.LBB10_88-.LJTI10_4
	.long	.LBB10_88-.LJTI10_4
	.long	.LBB10_91-.LJTI10_4
	.long	.LBB10_103-.LJTI10_4
	.long	.LBB10_88-.LJTI10_4
	.long	.LBB10_88-.LJTI10_4
	.long	.LBB10_88-.LJTI10_4
	.long	.LBB10_88-.LJTI10_4
	.long	.LBB10_88-.LJTI10_4
	.long	.LBB10_88-.LJTI10_4
	.long	.LBB10_88-.LJTI10_4
	.long	.LBB10_88-.LJTI10_4
	.long	.LBB10_103-.LJTI10_4
	.long	.LBB10_91-.LJTI10_4
	.long	.LBB10_94-.LJTI10_4
	.long	.LBB10_103-.LJTI10_4
	.long	.LBB10_92-.LJTI10_4
	.long	.LBB10_92-.LJTI10_4
	.long	.LBB10_88-.LJTI10_4
	.long	.LBB10_88-.LJTI10_4
	.long	.LBB10_88-.LJTI10_4
	.long	.LBB10_88-.LJTI10_4
	.long	.LBB10_103-.LJTI10_4
	.long	.LBB10_88-.LJTI10_4
	.long	.LBB10_88-.LJTI10_4
	.long	.LBB10_103-.LJTI10_4
	.long	.LBB10_91-.LJTI10_4
	.long	.LBB10_103-.LJTI10_4
	.long	.LBB10_95-.LJTI10_4
	.long	.LBB10_95-.LJTI10_4
.LJTI10_5:
	.long	.LBB10_113-.LJTI10_5
	.long	.LBB10_110-.LJTI10_5
	.long	.LBB10_110-.LJTI10_5
	.long	.LBB10_113-.LJTI10_5
	.long	.LBB10_143-.LJTI10_5
	.long	.LBB10_111-.LJTI10_5
	.long	.LBB10_111-.LJTI10_5
	.long	.LBB10_110-.LJTI10_5
	.long	.LBB10_125-.LJTI10_5
	.long	.LBB10_135-.LJTI10_5
	.long	.LBB10_110-.LJTI10_5
	.long	.LBB10_134-.LJTI10_5
	.long	.LBB10_111-.LJTI10_5
	.long	.LBB10_114-.LJTI10_5
	.long	.LBB10_114-.LJTI10_5
	.long	.LBB10_123-.LJTI10_5
	.long	.LBB10_110-.LJTI10_5
	.long	.LBB10_113-.LJTI10_5
	.long	.LBB10_110-.LJTI10_5
	.long	.LBB10_122-.LJTI10_5
	.long	.LBB10_126-.LJTI10_5
	.long	.LBB10_120-.LJTI10_5
	.long	.LBB10_132-.LJTI10_5
	.long	.LBB10_127-.LJTI10_5
	.long	.LBB10_110-.LJTI10_5
	.long	.LBB10_110-.LJTI10_5
	.long	.LBB10_110-.LJTI10_5
	.long	.LBB10_110-.LJTI10_5
	.long	.LBB10_110-.LJTI10_5
	.long	.LBB10_110-.LJTI10_5
	.long	.LBB10_114-.LJTI10_5
	.long	.LBB10_117-.LJTI10_5
	.long	.LBB10_110-.LJTI10_5
	.long	.LBB10_117-.LJTI10_5
	.long	.LBB10_110-.LJTI10_5
	.long	.LBB10_113-.LJTI10_5
	.long	.LBB10_114-.LJTI10_5
	.long	.LBB10_110-.LJTI10_5
	.long	.LBB10_110-.LJTI10_5
	.long	.LBB10_111-.LJTI10_5
	.long	.LBB10_130-.LJTI10_5
	.long	.LBB10_110-.LJTI10_5
	.long	.LBB10_110-.LJTI10_5
	.long	.LBB10_110-.LJTI10_5
	.long	.LBB10_110-.LJTI10_5
	.long	.LBB10_110-.LJTI10_5
	.long	.LBB10_110-.LJTI10_5
	.long	.LBB10_110-.LJTI10_5
	.long	.LBB10_110-.LJTI10_5
	.long	.LBB10_144-.LJTI10_5
	.long	.LBB10_111-.LJTI10_5
	.long	.LBB10_111-.LJTI10_5
	.long	.LBB10_119-.LJTI10_5
	.long	.LBB10_113-.LJTI10_5
	.long	.LBB10_113-.LJTI10_5
	.long	.LBB10_110-.LJTI10_5
	.long	.LBB10_110-.LJTI10_5
	.long	.LBB10_110-.LJTI10_5
	.long	.LBB10_110-.LJTI10_5
	.long	.LBB10_129-.LJTI10_5
	.long	.LBB10_110-.LJTI10_5
	.long	.LBB10_110-.LJTI10_5
	.long	.LBB10_118-.LJTI10_5
	.long	.LBB10_111-.LJTI10_5
	.long	.LBB10_114-.LJTI10_5
	.long	.LBB10_115-.LJTI10_5
	.long	.LBB10_115-.LJTI10_5
.LJTI10_6:
	.long	.LBB10_128-.LJTI10_6
	.long	.LBB10_111-.LJTI10_6
	.long	.LBB10_132-.LJTI10_6
	.long	.LBB10_111-.LJTI10_6
	.long	.LBB10_111-.LJTI10_6
	.long	.LBB10_111-.LJTI10_6
.LJTI10_7:
	.long	.LBB10_195-.LJTI10_7
	.long	.LBB10_212-.LJTI10_7
	.long	.LBB10_210-.LJTI10_7
	.long	.LBB10_211-.LJTI10_7
	.long	.LBB10_209-.LJTI10_7
	.long	.LBB10_213-.LJTI10_7
.LJTI10_8:
	.long	.LBB10_159-.LJTI10_8
	.long	.LBB10_151-.LJTI10_8
	.long	.LBB10_151-.LJTI10_8
	.long	.LBB10_159-.LJTI10_8
	.long	.LBB10_153-.LJTI10_8
	.long	.LBB10_153-.LJTI10_8
	.long	.LBB10_153-.LJTI10_8
	.long	.LBB10_151-.LJTI10_8
	.long	.LBB10_173-.LJTI10_8
	.long	.LBB10_169-.LJTI10_8
	.long	.LBB10_151-.LJTI10_8
	.long	.LBB10_168-.LJTI10_8
	.long	.LBB10_153-.LJTI10_8
	.long	.LBB10_160-.LJTI10_8
	.long	.LBB10_160-.LJTI10_8
	.long	.LBB10_176-.LJTI10_8
	.long	.LBB10_151-.LJTI10_8
	.long	.LBB10_159-.LJTI10_8
	.long	.LBB10_151-.LJTI10_8
	.long	.LBB10_178-.LJTI10_8
	.long	.LBB10_153-.LJTI10_8
	.long	.LBB10_161-.LJTI10_8
	.long	.LBB10_171-.LJTI10_8
	.long	.LBB10_174-.LJTI10_8
	.long	.LBB10_151-.LJTI10_8
	.long	.LBB10_151-.LJTI10_8
	.long	.LBB10_151-.LJTI10_8
	.long	.LBB10_151-.LJTI10_8
	.long	.LBB10_151-.LJTI10_8
	.long	.LBB10_151-.LJTI10_8
	.long	.LBB10_160-.LJTI10_8
	.long	.LBB10_153-.LJTI10_8
	.long	.LBB10_151-.LJTI10_8
	.long	.LBB10_153-.LJTI10_8
	.long	.LBB10_151-.LJTI10_8
	.long	.LBB10_159-.LJTI10_8
	.long	.LBB10_160-.LJTI10_8
	.long	.LBB10_151-.LJTI10_8
	.long	.LBB10_151-.LJTI10_8
	.long	.LBB10_153-.LJTI10_8
	.long	.LBB10_166-.LJTI10_8
	.long	.LBB10_151-.LJTI10_8
	.long	.LBB10_151-.LJTI10_8
	.long	.LBB10_151-.LJTI10_8
	.long	.LBB10_151-.LJTI10_8
	.long	.LBB10_151-.LJTI10_8
	.long	.LBB10_151-.LJTI10_8
	.long	.LBB10_151-.LJTI10_8
	.long	.LBB10_151-.LJTI10_8
	.long	.LBB10_164-.LJTI10_8
	.long	.LBB10_153-.LJTI10_8
	.long	.LBB10_153-.LJTI10_8
	.long	.LBB10_163-.LJTI10_8
	.long	.LBB10_159-.LJTI10_8
	.long	.LBB10_159-.LJTI10_8
	.long	.LBB10_151-.LJTI10_8
	.long	.LBB10_151-.LJTI10_8
	.long	.LBB10_151-.LJTI10_8
	.long	.LBB10_151-.LJTI10_8
	.long	.LBB10_179-.LJTI10_8
	.long	.LBB10_151-.LJTI10_8
	.long	.LBB10_151-.LJTI10_8
	.long	.LBB10_165-.LJTI10_8
	.long	.LBB10_153-.LJTI10_8
	.long	.LBB10_160-.LJTI10_8
.LJTI10_9:
	.long	.LBB10_175-.LJTI10_9
	.long	.LBB10_153-.LJTI10_9
	.long	.LBB10_171-.LJTI10_9
	.long	.LBB10_153-.LJTI10_9
	.long	.LBB10_153-.LJTI10_9
	.long	.LBB10_153-.LJTI10_9

	.section	.text.nla_wire.payload.measure_text,"ax",@progbits
	.p2align	4
	.type	nla_wire.payload.measure_text,@function
nla_wire.payload.measure_text:
	.cfi_startproc
	testq	%rsi, %rsi
	je	.LBB11_3
	cmpb	$0, -1(%rdi,%rsi)
	je	.LBB11_2
.LBB11_3:
	cmpq	$65530, %rsi
	jbe	.LBB11_5
.LBB11_4:
	xorl	%edx, %edx
	xorl	%eax, %eax
	retq
.LBB11_2:
	decq	%rsi
	cmpq	$65530, %rsi
	ja	.LBB11_4
.LBB11_5:
	testq	%rsi, %rsi
	je	.LBB11_18
	cmpq	$3, %rsi
	ja	.LBB11_10
	cmpb	$0, (%rdi)
	js	.LBB11_13
	movq	%rsi, %rax
	shrq	%rax
	cmpb	$0, (%rdi,%rax)
	js	.LBB11_13
	cmpb	$0, -1(%rdi,%rsi)
	jns	.LBB11_18
	jmp	.LBB11_13
.LBB11_10:
	cmpq	$7, %rsi
	ja	.LBB11_15
	testl	$-2139062144, (%rdi)
	jne	.LBB11_13
	testl	$-2139062144, -4(%rdi,%rsi)
	jne	.LBB11_13
	jmp	.LBB11_18
.LBB11_15:
	cmpq	$16, %rsi
	ja	.LBB11_19
	movabsq	$-9187201950435737472, %rax
	testq	%rax, (%rdi)
	jne	.LBB11_13
	testq	%rax, -8(%rdi,%rsi)
	jne	.LBB11_13
	jmp	.LBB11_18
.LBB11_19:
	cmpq	$31, %rsi
	ja	.LBB11_23
	movdqu	(%rdi), %xmm0
	pshufd	$238, %xmm0, %xmm1
	pmaxub	%xmm0, %xmm1
	pshufd	$85, %xmm1, %xmm0
	pmaxub	%xmm1, %xmm0
	movdqa	%xmm0, %xmm1
	psrld	$16, %xmm1
	pmaxub	%xmm0, %xmm1
	movdqa	%xmm1, %xmm0
	psrlw	$8, %xmm0
	pmaxub	%xmm1, %xmm0
	movd	%xmm0, %eax
	testb	%al, %al
	js	.LBB11_13
	movdqu	-16(%rdi,%rsi), %xmm0
	pshufd	$238, %xmm0, %xmm1
	pmaxub	%xmm0, %xmm1
	pshufd	$85, %xmm1, %xmm0
	pmaxub	%xmm1, %xmm0
	movdqa	%xmm0, %xmm1
	psrld	$16, %xmm1
	pmaxub	%xmm0, %xmm1
	movdqa	%xmm1, %xmm0
	psrlw	$8, %xmm0
	pmaxub	%xmm1, %xmm0
	movd	%xmm0, %eax
	jmp	.LBB11_22
.LBB11_23:
	movl	%esi, %eax
	andl	$65504, %eax
	pxor	%xmm0, %xmm0
	xorl	%ecx, %ecx
	pxor	%xmm1, %xmm1
	.p2align	4
.LBB11_24:
	movdqu	(%rdi,%rcx), %xmm2
	pmaxub	%xmm2, %xmm0
	movdqu	16(%rdi,%rcx), %xmm2
	pmaxub	%xmm2, %xmm1
	addq	$32, %rcx
	cmpq	%rcx, %rax
	jne	.LBB11_24
	pmaxub	%xmm1, %xmm0
	pshufd	$238, %xmm0, %xmm1
	pmaxub	%xmm0, %xmm1
	pshufd	$85, %xmm1, %xmm0
	pmaxub	%xmm1, %xmm0
	movdqa	%xmm0, %xmm1
	psrld	$16, %xmm1
	pmaxub	%xmm0, %xmm1
	movdqa	%xmm1, %xmm0
	psrlw	$8, %xmm0
	pmaxub	%xmm1, %xmm0
	movd	%xmm0, %eax
	testb	%al, %al
	js	.LBB11_13
	movdqu	-32(%rdi,%rsi), %xmm0
	movdqu	-16(%rdi,%rsi), %xmm1
	pmaxub	%xmm0, %xmm1
	pshufd	$238, %xmm1, %xmm0
	pmaxub	%xmm1, %xmm0
	pshufd	$85, %xmm0, %xmm1
	pmaxub	%xmm0, %xmm1
	movdqa	%xmm1, %xmm0
	psrld	$16, %xmm0
	pmaxub	%xmm1, %xmm0
	movdqa	%xmm0, %xmm1
	psrlw	$8, %xmm1
	pmaxub	%xmm0, %xmm1
	movd	%xmm1, %eax
.LBB11_22:
	testb	%al, %al
	js	.LBB11_13
.LBB11_18:
	incq	%rsi
	movb	$1, %al
	movq	%rsi, %rdx
	retq
.LBB11_13:
	pushq	%rbx
	.cfi_def_cfa_offset 16
	.cfi_offset %rbx, -16
	movq	%rsi, %rbx
	callq	nla_wire.text.is_decoded
	incq	%rbx
	xorl	%edx, %edx
	testb	%al, %al
	cmovneq	%rbx, %rdx
	popq	%rbx
	.cfi_def_cfa_offset 8
	.cfi_restore %rbx
	retq
.Lfunc_end11:
	.size	nla_wire.payload.measure_text, .Lfunc_end11-nla_wire.payload.measure_text
	.cfi_endproc

	.section	.text.nla_wire.text.is_decoded,"ax",@progbits
	.p2align	4
	.type	nla_wire.text.is_decoded,@function
nla_wire.text.is_decoded:
	.cfi_startproc
	subq	$24, %rsp
	.cfi_def_cfa_offset 32
	movq	%rsi, %rdx
	movq	%rdi, %rsi
	xorps	%xmm0, %xmm0
	movaps	%xmm0, (%rsp)
	movq	$0, 16(%rsp)
	movq	%rsp, %rdi
	callq	core.str.utf8.from_utf8
	cmpb	$0, (%rsp)
	sete	%al
	addq	$24, %rsp
	.cfi_def_cfa_offset 8
	retq
.Lfunc_end12:
	.size	nla_wire.text.is_decoded, .Lfunc_end12-nla_wire.text.is_decoded
	.cfi_endproc

	.section	.text.nla_wire.members.measure_each.49064c0641319ce4,"ax",@progbits
	.p2align	4
	.type	nla_wire.members.measure_each.49064c0641319ce4,@function
nla_wire.members.measure_each.49064c0641319ce4:
	.cfi_startproc
	pushq	%r15
	.cfi_def_cfa_offset 16
	pushq	%r14
	.cfi_def_cfa_offset 24
	pushq	%r12
	.cfi_def_cfa_offset 32
	pushq	%rbx
	.cfi_def_cfa_offset 40
	pushq	%rax
	.cfi_def_cfa_offset 48
	.cfi_offset %rbx, -40
	.cfi_offset %r12, -32
	.cfi_offset %r14, -24
	.cfi_offset %r15, -16
	movq	%rsi, %rbx
	movq	%rdi, %r14
	xorl	%r15d, %r15d
	xorl	%r12d, %r12d
	.p2align	4
.LBB13_1:
	subq	%r12, %rbx
	jbe	.LBB13_2
	cmpq	$4, %rbx
	jb	.LBB13_11
	addq	%r12, %r14
	movzwl	(%r14), %r12d
	xorl	%edx, %edx
	movl	$0, %eax
	cmpw	$4, %r12w
	jb	.LBB13_12
	cmpq	%r12, %rbx
	jb	.LBB13_12
	movzwl	2(%r14), %eax
	leaq	-4(%r12), %rdx
	andl	$16383, %eax
	cmpw	$1, %ax
	jne	.LBB13_8
	leaq	4(%r14), %rdi
	movq	%rdx, %rsi
	callq	nla_wire.payload.measure_text
	cmpb	$1, %al
	je	.LBB13_10
	jmp	.LBB13_11
	.p2align	4
.LBB13_8:
	movb	$1, %al
	cmpb	$1, %al
	jne	.LBB13_11
.LBB13_10:
	addl	$3, %r12d
	andl	$-4, %r12d
	addq	$3, %rdx
	andq	$-4, %rdx
	leaq	(%r15,%rdx), %rax
	addq	$4, %rax
	cmpq	%r15, %rax
	movq	%rax, %r15
	jae	.LBB13_1
.LBB13_11:
	xorl	%edx, %edx
	xorl	%eax, %eax
	jmp	.LBB13_12
.LBB13_2:
	movb	$1, %al
	movq	%r15, %rdx
.LBB13_12:
	addq	$8, %rsp
	.cfi_def_cfa_offset 40
	popq	%rbx
	.cfi_def_cfa_offset 32
	popq	%r12
	.cfi_def_cfa_offset 24
	popq	%r14
	.cfi_def_cfa_offset 16
	popq	%r15
	.cfi_def_cfa_offset 8
	retq
.Lfunc_end13:
	.size	nla_wire.members.measure_each.49064c0641319ce4, .Lfunc_end13-nla_wire.members.measure_each.49064c0641319ce4
	.cfi_endproc

	.section	.text.nla_wire.members.measure_each.3bb4c8661a1029f4,"ax",@progbits
	.p2align	4
	.type	nla_wire.members.measure_each.3bb4c8661a1029f4,@function
nla_wire.members.measure_each.3bb4c8661a1029f4:
	.cfi_startproc
	testq	%rsi, %rsi
	je	.LBB14_1
	pushq	%r15
	.cfi_def_cfa_offset 16
	pushq	%r14
	.cfi_def_cfa_offset 24
	pushq	%r12
	.cfi_def_cfa_offset 32
	pushq	%rbx
	.cfi_def_cfa_offset 40
	pushq	%rax
	.cfi_def_cfa_offset 48
	.cfi_offset %rbx, -40
	.cfi_offset %r12, -32
	.cfi_offset %r14, -24
	.cfi_offset %r15, -16
	movq	%rsi, %rbx
	movq	%rdi, %r14
	xorl	%r15d, %r15d
	xorl	%r12d, %r12d
	jmp	.LBB14_4
	.p2align	4
.LBB14_13:
	addl	$3, %r12d
	andl	$-4, %r12d
	cmpq	%r12, %rbx
	jbe	.LBB14_14
.LBB14_4:
	subq	%r12, %rbx
	cmpq	$4, %rbx
	jb	.LBB14_5
	addq	%r12, %r14
	movzwl	(%r14), %r12d
	xorl	%edx, %edx
	movl	$0, %eax
	cmpw	$4, %r12w
	jb	.LBB14_15
	cmpq	%r12, %rbx
	jb	.LBB14_15
	movzwl	2(%r14), %eax
	andl	$16383, %eax
	cmpw	$1, %ax
	jne	.LBB14_13
	movq	%r12, %rsi
	addq	$-4, %rsi
	je	.LBB14_5
	leaq	4(%r14), %rdi
	callq	nla_wire.members.measure_each.41ac5f0caeaa9df8
	movl	%eax, %esi
	movq	%rdx, %rcx
	xorl	%edx, %edx
	movl	$0, %eax
	cmpb	$1, %sil
	jne	.LBB14_15
	cmpq	$65531, %rcx
	ja	.LBB14_15
	addl	$3, %ecx
	andl	$131068, %ecx
	leaq	(%r15,%rcx), %rax
	addq	$4, %rax
	cmpq	%r15, %rax
	movq	%rax, %r15
	jae	.LBB14_13
.LBB14_5:
	xorl	%edx, %edx
	xorl	%eax, %eax
	jmp	.LBB14_15
.LBB14_1:
	.cfi_def_cfa_offset 8
	.cfi_restore %rbx
	.cfi_restore %r12
	.cfi_restore %r14
	.cfi_restore %r15
	xorl	%edx, %edx
	movb	$1, %al
	retq
.LBB14_14:
	.cfi_def_cfa_offset 48
	.cfi_offset %rbx, -40
	.cfi_offset %r12, -32
	.cfi_offset %r14, -24
	.cfi_offset %r15, -16
	movq	%r15, %rdx
	movb	$1, %al
.LBB14_15:
	addq	$8, %rsp
	.cfi_def_cfa_offset 40
	popq	%rbx
	.cfi_def_cfa_offset 32
	popq	%r12
	.cfi_def_cfa_offset 24
	popq	%r14
	.cfi_def_cfa_offset 16
	popq	%r15
	.cfi_def_cfa_offset 8
	.cfi_restore %rbx
	.cfi_restore %r12
	.cfi_restore %r14
	.cfi_restore %r15
	retq
.Lfunc_end14:
	.size	nla_wire.members.measure_each.3bb4c8661a1029f4, .Lfunc_end14-nla_wire.members.measure_each.3bb4c8661a1029f4
	.cfi_endproc

	.section	.text.nla_wire.members.measure_each.41ac5f0caeaa9df8,"ax",@progbits
	.p2align	4
	.type	nla_wire.members.measure_each.41ac5f0caeaa9df8,@function
nla_wire.members.measure_each.41ac5f0caeaa9df8:
	.cfi_startproc
	pushq	%r15
	.cfi_def_cfa_offset 16
	pushq	%r14
	.cfi_def_cfa_offset 24
	pushq	%r12
	.cfi_def_cfa_offset 32
	pushq	%rbx
	.cfi_def_cfa_offset 40
	pushq	%rax
	.cfi_def_cfa_offset 48
	.cfi_offset %rbx, -40
	.cfi_offset %r12, -32
	.cfi_offset %r14, -24
	.cfi_offset %r15, -16
	movq	%rsi, %rbx
	movq	%rdi, %r14
	xorl	%r15d, %r15d
	xorl	%r12d, %r12d
	jmp	.LBB15_1
.LBB15_8:
	movl	$12, %esi
	cmpw	$15, %r12w
	jbe	.LBB15_18
	.p2align	4
.LBB15_17:
	addl	$3, %r12d
	andl	$-4, %r12d
	addq	$3, %rsi
	andq	$-4, %rsi
	leaq	(%r15,%rsi), %rax
	addq	$4, %rax
	cmpq	%r15, %rax
	movq	%rax, %r15
	jb	.LBB15_18
.LBB15_1:
	subq	%r12, %rbx
	jbe	.LBB15_2
	cmpq	$4, %rbx
	jb	.LBB15_18
	addq	%r12, %r14
	movzwl	(%r14), %r12d
	xorl	%edx, %edx
	movl	$0, %eax
	cmpw	$4, %r12w
	jb	.LBB15_19
	cmpq	%r12, %rbx
	jb	.LBB15_19
	movzwl	2(%r14), %eax
	leaq	-4(%r12), %rsi
	andl	$16383, %eax
	decl	%eax
	cmpl	$12, %eax
	ja	.LBB15_17
	leaq	4(%r14), %rdi
	leaq	.LJTI15_0(%rip), %rcx
	movslq	(%rcx,%rax,4), %rax
	addq	%rcx, %rax
	jmpq	*%rax
.LBB15_12:
	movl	$8, %esi
	cmpw	$11, %r12w
	ja	.LBB15_17
	jmp	.LBB15_18
.LBB15_13:
	movl	$16, %esi
	cmpw	$19, %r12w
	ja	.LBB15_17
	jmp	.LBB15_18
.LBB15_14:
	callq	nla_wire.members.measure_each.9a0187163d44de3c
	jmp	.LBB15_10
.LBB15_15:
	movl	$32, %esi
	cmpw	$35, %r12w
	ja	.LBB15_17
	jmp	.LBB15_18
.LBB15_16:
	movl	$36, %esi
	cmpw	$40, %r12w
	jae	.LBB15_17
	jmp	.LBB15_18
.LBB15_9:
	callq	nla_wire.members.measure_each.5361511d0f913a98
.LBB15_10:
	movl	%eax, %ecx
	movq	%rdx, %rsi
	xorl	%edx, %edx
	movl	$0, %eax
	cmpb	$1, %cl
	jne	.LBB15_19
	cmpq	$65532, %rsi
	jb	.LBB15_17
	jmp	.LBB15_19
.LBB15_18:
	xorl	%edx, %edx
	xorl	%eax, %eax
	jmp	.LBB15_19
.LBB15_2:
	movb	$1, %al
	movq	%r15, %rdx
.LBB15_19:
	addq	$8, %rsp
	.cfi_def_cfa_offset 40
	popq	%rbx
	.cfi_def_cfa_offset 32
	popq	%r12
	.cfi_def_cfa_offset 24
	popq	%r14
	.cfi_def_cfa_offset 16
	popq	%r15
	.cfi_def_cfa_offset 8
	retq
.Lfunc_end15:
	.size	nla_wire.members.measure_each.41ac5f0caeaa9df8, .Lfunc_end15-nla_wire.members.measure_each.41ac5f0caeaa9df8
	.cfi_endproc
	.section	.rodata.nla_wire.members.measure_each.41ac5f0caeaa9df8,"a",@progbits
	.p2align	2, 0x0
.LJTI15_0:
	.long	.LBB15_16-.LJTI15_0
	.long	.LBB15_8-.LJTI15_0
	.long	.LBB15_12-.LJTI15_0
	.long	.LBB15_12-.LJTI15_0
	.long	.LBB15_12-.LJTI15_0
	.long	.LBB15_8-.LJTI15_0
	.long	.LBB15_12-.LJTI15_0
	.long	.LBB15_9-.LJTI15_0
	.long	.LBB15_12-.LJTI15_0
	.long	.LBB15_13-.LJTI15_0
	.long	.LBB15_13-.LJTI15_0
	.long	.LBB15_14-.LJTI15_0
	.long	.LBB15_15-.LJTI15_0

	.section	.text.nla_wire.members.measure_each.5361511d0f913a98,"ax",@progbits
	.p2align	4
	.type	nla_wire.members.measure_each.5361511d0f913a98,@function
nla_wire.members.measure_each.5361511d0f913a98:
	.cfi_startproc
	xorl	%ecx, %ecx
	xorl	%r8d, %r8d
	.p2align	4
.LBB16_1:
	subq	%r8, %rsi
	jbe	.LBB16_2
	cmpq	$4, %rsi
	jb	.LBB16_10
	addq	%r8, %rdi
	movzwl	(%rdi), %r8d
	xorl	%edx, %edx
	movl	$0, %eax
	cmpw	$4, %r8w
	jb	.LBB16_11
	cmpq	%r8, %rsi
	jb	.LBB16_11
	movzwl	2(%rdi), %edx
	leaq	-4(%r8), %rax
	andl	$16383, %edx
	cmpl	$8, %edx
	ja	.LBB16_9
	leaq	.LJTI16_0(%rip), %r9
	movslq	(%r9,%rdx,4), %rdx
	addq	%r9, %rdx
	jmpq	*%rdx
.LBB16_8:
	cmpl	$8, %eax
	movl	$8, %eax
	jne	.LBB16_10
.LBB16_9:
	addl	$3, %r8d
	andl	$-4, %r8d
	addq	$3, %rax
	andq	$-4, %rax
	addq	%rcx, %rax
	addq	$4, %rax
	cmpq	%rcx, %rax
	movq	%rax, %rcx
	jae	.LBB16_1
.LBB16_10:
	xorl	%edx, %edx
	xorl	%eax, %eax
.LBB16_11:
	retq
.LBB16_2:
	movb	$1, %al
	movq	%rcx, %rdx
	retq
.Lfunc_end16:
	.size	nla_wire.members.measure_each.5361511d0f913a98, .Lfunc_end16-nla_wire.members.measure_each.5361511d0f913a98
	.cfi_endproc
	.section	.rodata.nla_wire.members.measure_each.5361511d0f913a98,"a",@progbits
	.p2align	2, 0x0
.LJTI16_0:
	.long	.LBB16_8-.LJTI16_0
	.long	.LBB16_8-.LJTI16_0
	.long	.LBB16_8-.LJTI16_0
	.long	.LBB16_8-.LJTI16_0
	.long	.LBB16_8-.LJTI16_0
	.long	.LBB16_8-.LJTI16_0
	.long	.LBB16_9-.LJTI16_0
	.long	.LBB16_8-.LJTI16_0
	.long	.LBB16_8-.LJTI16_0

	.section	.text.nla_wire.members.measure_each.9a0187163d44de3c,"ax",@progbits
	.p2align	4
	.type	nla_wire.members.measure_each.9a0187163d44de3c,@function
nla_wire.members.measure_each.9a0187163d44de3c:
	.cfi_startproc
	xorl	%ecx, %ecx
	xorl	%r8d, %r8d
	jmp	.LBB17_1
	.p2align	4
.LBB17_8:
	xorl	%edx, %edx
	cmpw	$20, %r8w
	setae	%dl
	shll	$4, %edx
	leaq	-4(%r8), %r9
	cmpw	$1, %ax
	cmovneq	%r9, %rdx
	addl	$3, %r8d
	andl	$-4, %r8d
	addq	$3, %rdx
	andq	$-4, %rdx
	leaq	(%rcx,%rdx), %rax
	addq	$4, %rax
	cmpq	%rcx, %rax
	movq	%rax, %rcx
	jb	.LBB17_9
.LBB17_1:
	subq	%r8, %rsi
	jbe	.LBB17_2
	cmpq	$4, %rsi
	jb	.LBB17_9
	addq	%r8, %rdi
	movzwl	(%rdi), %r8d
	xorl	%edx, %edx
	movl	$0, %eax
	cmpw	$4, %r8w
	jb	.LBB17_10
	cmpq	%r8, %rsi
	jb	.LBB17_10
	movzwl	2(%rdi), %eax
	andl	$16383, %eax
	cmpw	$1, %ax
	jne	.LBB17_8
	cmpw	$20, %r8w
	jae	.LBB17_8
.LBB17_9:
	xorl	%edx, %edx
	xorl	%eax, %eax
.LBB17_10:
	retq
.LBB17_2:
	movb	$1, %al
	movq	%rcx, %rdx
	retq
.Lfunc_end17:
	.size	nla_wire.members.measure_each.9a0187163d44de3c, .Lfunc_end17-nla_wire.members.measure_each.9a0187163d44de3c
	.cfi_endproc

	.section	.text.nla_wire.members.measure_each.79503c7a397af21a,"ax",@progbits
	.p2align	4
	.type	nla_wire.members.measure_each.79503c7a397af21a,@function
nla_wire.members.measure_each.79503c7a397af21a:
	.cfi_startproc
	testq	%rsi, %rsi
	je	.LBB18_1
	pushq	%r15
	.cfi_def_cfa_offset 16
	pushq	%r14
	.cfi_def_cfa_offset 24
	pushq	%r12
	.cfi_def_cfa_offset 32
	pushq	%rbx
	.cfi_def_cfa_offset 40
	pushq	%rax
	.cfi_def_cfa_offset 48
	.cfi_offset %rbx, -40
	.cfi_offset %r12, -32
	.cfi_offset %r14, -24
	.cfi_offset %r15, -16
	movq	%rsi, %rbx
	movq	%rdi, %r14
	xorl	%r15d, %r15d
	xorl	%r12d, %r12d
	jmp	.LBB18_4
	.p2align	4
.LBB18_13:
	addl	$3, %r12d
	andl	$-4, %r12d
	cmpq	%r12, %rbx
	jbe	.LBB18_14
.LBB18_4:
	subq	%r12, %rbx
	cmpq	$4, %rbx
	jb	.LBB18_5
	addq	%r12, %r14
	movzwl	(%r14), %r12d
	xorl	%edx, %edx
	movl	$0, %eax
	cmpw	$4, %r12w
	jb	.LBB18_15
	cmpq	%r12, %rbx
	jb	.LBB18_15
	movzwl	2(%r14), %eax
	andl	$16383, %eax
	cmpw	$1, %ax
	jne	.LBB18_13
	movq	%r12, %rsi
	addq	$-4, %rsi
	je	.LBB18_5
	leaq	4(%r14), %rdi
	callq	nla_wire.members.measure_each.1f0cb788f492ced5
	movl	%eax, %esi
	movq	%rdx, %rcx
	xorl	%edx, %edx
	movl	$0, %eax
	cmpb	$1, %sil
	jne	.LBB18_15
	cmpq	$65531, %rcx
	ja	.LBB18_15
	addl	$3, %ecx
	andl	$131068, %ecx
	leaq	(%r15,%rcx), %rax
	addq	$4, %rax
	cmpq	%r15, %rax
	movq	%rax, %r15
	jae	.LBB18_13
.LBB18_5:
	xorl	%edx, %edx
	xorl	%eax, %eax
	jmp	.LBB18_15
.LBB18_1:
	.cfi_def_cfa_offset 8
	.cfi_restore %rbx
	.cfi_restore %r12
	.cfi_restore %r14
	.cfi_restore %r15
	xorl	%edx, %edx
	movb	$1, %al
	retq
.LBB18_14:
	.cfi_def_cfa_offset 48
	.cfi_offset %rbx, -40
	.cfi_offset %r12, -32
	.cfi_offset %r14, -24
	.cfi_offset %r15, -16
	movq	%r15, %rdx
	movb	$1, %al
.LBB18_15:
	addq	$8, %rsp
	.cfi_def_cfa_offset 40
	popq	%rbx
	.cfi_def_cfa_offset 32
	popq	%r12
	.cfi_def_cfa_offset 24
	popq	%r14
	.cfi_def_cfa_offset 16
	popq	%r15
	.cfi_def_cfa_offset 8
	.cfi_restore %rbx
	.cfi_restore %r12
	.cfi_restore %r14
	.cfi_restore %r15
	retq
.Lfunc_end18:
	.size	nla_wire.members.measure_each.79503c7a397af21a, .Lfunc_end18-nla_wire.members.measure_each.79503c7a397af21a
	.cfi_endproc

	.section	.text.nla_wire.members.measure_each.8ba1f663fcd59a5e,"ax",@progbits
	.p2align	4
	.type	nla_wire.members.measure_each.8ba1f663fcd59a5e,@function
nla_wire.members.measure_each.8ba1f663fcd59a5e:
	.cfi_startproc
	xorl	%ecx, %ecx
	xorl	%r8d, %r8d
	.p2align	4
.LBB19_1:
	subq	%r8, %rsi
	jbe	.LBB19_2
	cmpq	$4, %rsi
	jb	.LBB19_11
	addq	%r8, %rdi
	movzwl	(%rdi), %r8d
	xorl	%edx, %edx
	movl	$0, %eax
	cmpw	$4, %r8w
	jb	.LBB19_12
	cmpq	%r8, %rsi
	jb	.LBB19_12
	movzwl	2(%rdi), %edx
	leaq	-4(%r8), %rax
	andl	$16383, %edx
	decl	%edx
	cmpl	$7, %edx
	ja	.LBB19_10
	leaq	.LJTI19_0(%rip), %r9
	movslq	(%r9,%rdx,4), %rdx
	addq	%r9, %rdx
	jmpq	*%rdx
.LBB19_9:
	cmpl	$4, %eax
	movl	$4, %eax
	jne	.LBB19_11
.LBB19_10:
	addl	$3, %r8d
	andl	$-4, %r8d
	addq	$3, %rax
	andq	$-4, %rax
	addq	%rcx, %rax
	addq	$4, %rax
	cmpq	%rcx, %rax
	movq	%rax, %rcx
	jae	.LBB19_1
	jmp	.LBB19_11
.LBB19_8:
	cmpl	$1, %eax
	movl	$1, %eax
	je	.LBB19_10
.LBB19_11:
	xorl	%edx, %edx
	xorl	%eax, %eax
.LBB19_12:
	retq
.LBB19_2:
	movb	$1, %al
	movq	%rcx, %rdx
	retq
.Lfunc_end19:
	.size	nla_wire.members.measure_each.8ba1f663fcd59a5e, .Lfunc_end19-nla_wire.members.measure_each.8ba1f663fcd59a5e
	.cfi_endproc
	.section	.rodata.nla_wire.members.measure_each.8ba1f663fcd59a5e,"a",@progbits
	.p2align	2, 0x0
.LJTI19_0:
	.long	.LBB19_9-.LJTI19_0
	.long	.LBB19_8-.LJTI19_0
	.long	.LBB19_9-.LJTI19_0
	.long	.LBB19_9-.LJTI19_0
	.long	.LBB19_9-.LJTI19_0
	.long	.LBB19_9-.LJTI19_0
	.long	.LBB19_9-.LJTI19_0
	.long	.LBB19_9-.LJTI19_0

	.section	.text.nla_wire.members.measure_each.b30b196c481b950e,"ax",@progbits
	.p2align	4
	.type	nla_wire.members.measure_each.b30b196c481b950e,@function
nla_wire.members.measure_each.b30b196c481b950e:
	.cfi_startproc
	pushq	%r15
	.cfi_def_cfa_offset 16
	pushq	%r14
	.cfi_def_cfa_offset 24
	pushq	%r12
	.cfi_def_cfa_offset 32
	pushq	%rbx
	.cfi_def_cfa_offset 40
	pushq	%rax
	.cfi_def_cfa_offset 48
	.cfi_offset %rbx, -40
	.cfi_offset %r12, -32
	.cfi_offset %r14, -24
	.cfi_offset %r15, -16
	movq	%rsi, %rbx
	movq	%rdi, %r14
	xorl	%r15d, %r15d
	xorl	%r12d, %r12d
	.p2align	4
.LBB20_1:
	subq	%r12, %rbx
	jbe	.LBB20_2
	cmpq	$4, %rbx
	jb	.LBB20_11
	addq	%r12, %r14
	movzwl	(%r14), %r12d
	xorl	%edx, %edx
	movl	$0, %eax
	cmpw	$4, %r12w
	jb	.LBB20_12
	cmpq	%r12, %rbx
	jb	.LBB20_12
	movzwl	2(%r14), %eax
	leaq	-4(%r12), %rdx
	andl	$16383, %eax
	cmpw	$53, %ax
	jne	.LBB20_8
	leaq	4(%r14), %rdi
	movq	%rdx, %rsi
	callq	nla_wire.payload.measure_text
	cmpb	$1, %al
	je	.LBB20_10
	jmp	.LBB20_11
	.p2align	4
.LBB20_8:
	movb	$1, %al
	cmpb	$1, %al
	jne	.LBB20_11
.LBB20_10:
	addl	$3, %r12d
	andl	$-4, %r12d
	addq	$3, %rdx
	andq	$-4, %rdx
	leaq	(%r15,%rdx), %rax
	addq	$4, %rax
	cmpq	%r15, %rax
	movq	%rax, %r15
	jae	.LBB20_1
.LBB20_11:
	xorl	%edx, %edx
	xorl	%eax, %eax
	jmp	.LBB20_12
.LBB20_2:
	movb	$1, %al
	movq	%r15, %rdx
.LBB20_12:
	addq	$8, %rsp
	.cfi_def_cfa_offset 40
	popq	%rbx
	.cfi_def_cfa_offset 32
	popq	%r12
	.cfi_def_cfa_offset 24
	popq	%r14
	.cfi_def_cfa_offset 16
	popq	%r15
	.cfi_def_cfa_offset 8
	retq
.Lfunc_end20:
	.size	nla_wire.members.measure_each.b30b196c481b950e, .Lfunc_end20-nla_wire.members.measure_each.b30b196c481b950e
	.cfi_endproc

	.section	.text.nla_wire.members.measure_each.f7f30aae703aa44d,"ax",@progbits
	.p2align	4
	.type	nla_wire.members.measure_each.f7f30aae703aa44d,@function
nla_wire.members.measure_each.f7f30aae703aa44d:
	.cfi_startproc
	xorl	%ecx, %ecx
	xorl	%r8d, %r8d
	jmp	.LBB21_1
	.p2align	4
.LBB21_8:
	cmpl	$4, %eax
	movl	$4, %eax
	jne	.LBB21_10
.LBB21_9:
	addl	$3, %r8d
	andl	$-4, %r8d
	addq	$3, %rax
	andq	$-4, %rax
	addq	%rcx, %rax
	addq	$4, %rax
	cmpq	%rcx, %rax
	movq	%rax, %rcx
	jb	.LBB21_10
.LBB21_1:
	subq	%r8, %rsi
	jbe	.LBB21_2
	cmpq	$4, %rsi
	jb	.LBB21_10
	addq	%r8, %rdi
	movzwl	(%rdi), %r8d
	xorl	%edx, %edx
	movl	$0, %eax
	cmpw	$4, %r8w
	jb	.LBB21_11
	cmpq	%r8, %rsi
	jb	.LBB21_11
	movzwl	2(%rdi), %edx
	leaq	-4(%r8), %rax
	andl	$16383, %edx
	cmpl	$1, %edx
	je	.LBB21_8
	cmpl	$2, %edx
	je	.LBB21_8
	jmp	.LBB21_9
.LBB21_10:
	xorl	%edx, %edx
	xorl	%eax, %eax
.LBB21_11:
	retq
.LBB21_2:
	movb	$1, %al
	movq	%rcx, %rdx
	retq
.Lfunc_end21:
	.size	nla_wire.members.measure_each.f7f30aae703aa44d, .Lfunc_end21-nla_wire.members.measure_each.f7f30aae703aa44d
	.cfi_endproc

	.section	.text.nla_wire.members.measure_each.16a873d75d6df2a1,"ax",@progbits
	.p2align	4
	.type	nla_wire.members.measure_each.16a873d75d6df2a1,@function
nla_wire.members.measure_each.16a873d75d6df2a1:
	.cfi_startproc
	pushq	%r15
	.cfi_def_cfa_offset 16
	pushq	%r14
	.cfi_def_cfa_offset 24
	pushq	%r12
	.cfi_def_cfa_offset 32
	pushq	%rbx
	.cfi_def_cfa_offset 40
	pushq	%rax
	.cfi_def_cfa_offset 48
	.cfi_offset %rbx, -40
	.cfi_offset %r12, -32
	.cfi_offset %r14, -24
	.cfi_offset %r15, -16
	movq	%rsi, %rbx
	movq	%rdi, %r14
	xorl	%r15d, %r15d
	xorl	%r12d, %r12d
	.p2align	4
.LBB22_1:
	subq	%r12, %rbx
	jbe	.LBB22_2
	cmpq	$4, %rbx
	jb	.LBB22_14
	addq	%r12, %r14
	movzwl	(%r14), %r12d
	xorl	%edx, %edx
	movl	$0, %eax
	cmpw	$4, %r12w
	jb	.LBB22_15
	cmpq	%r12, %rbx
	jb	.LBB22_15
	movzwl	2(%r14), %eax
	leaq	-4(%r12), %rdx
	andl	$16383, %eax
	cmpl	$3, %eax
	je	.LBB22_10
	leaq	4(%r14), %rdi
	cmpl	$2, %eax
	je	.LBB22_9
	cmpl	$1, %eax
	jne	.LBB22_11
.LBB22_9:
	movq	%rdx, %rsi
	callq	nla_wire.payload.measure_text
	cmpb	$1, %al
	je	.LBB22_13
	jmp	.LBB22_14
	.p2align	4
.LBB22_10:
	xorl	%eax, %eax
	cmpl	$4, %edx
	sete	%al
	movl	%eax, %edx
	shll	$2, %edx
	cmpb	$1, %al
	je	.LBB22_13
	jmp	.LBB22_14
	.p2align	4
.LBB22_11:
	movb	$1, %al
	cmpb	$1, %al
	jne	.LBB22_14
.LBB22_13:
	addl	$3, %r12d
	andl	$-4, %r12d
	addq	$3, %rdx
	andq	$-4, %rdx
	leaq	(%r15,%rdx), %rax
	addq	$4, %rax
	cmpq	%r15, %rax
	movq	%rax, %r15
	jae	.LBB22_1
.LBB22_14:
	xorl	%edx, %edx
	xorl	%eax, %eax
	jmp	.LBB22_15
.LBB22_2:
	movb	$1, %al
	movq	%r15, %rdx
.LBB22_15:
	addq	$8, %rsp
	.cfi_def_cfa_offset 40
	popq	%rbx
	.cfi_def_cfa_offset 32
	popq	%r12
	.cfi_def_cfa_offset 24
	popq	%r14
	.cfi_def_cfa_offset 16
	popq	%r15
	.cfi_def_cfa_offset 8
	retq
.Lfunc_end22:
	.size	nla_wire.members.measure_each.16a873d75d6df2a1, .Lfunc_end22-nla_wire.members.measure_each.16a873d75d6df2a1
	.cfi_endproc

	.section	.text.nla_wire.members.measure_each.5fa77b269143286c,"ax",@progbits
	.p2align	4
	.type	nla_wire.members.measure_each.5fa77b269143286c,@function
nla_wire.members.measure_each.5fa77b269143286c:
	.cfi_startproc
	xorl	%ecx, %ecx
	xorl	%r8d, %r8d
	jmp	.LBB23_1
	.p2align	4
.LBB23_8:
	xorl	%r9d, %r9d
	cmpq	$4, %rax
	sete	%r9b
	shll	$2, %r9d
	cmpw	$1, %dx
	cmovneq	%rax, %r9
	addl	$3, %r8d
	andl	$-4, %r8d
	addq	$3, %r9
	andq	$-4, %r9
	leaq	(%rcx,%r9), %rax
	addq	$4, %rax
	cmpq	%rcx, %rax
	movq	%rax, %rcx
	jb	.LBB23_9
.LBB23_1:
	subq	%r8, %rsi
	jbe	.LBB23_2
	cmpq	$4, %rsi
	jb	.LBB23_9
	addq	%r8, %rdi
	movzwl	(%rdi), %r8d
	xorl	%edx, %edx
	movl	$0, %eax
	cmpw	$4, %r8w
	jb	.LBB23_10
	cmpq	%r8, %rsi
	jb	.LBB23_10
	movzwl	2(%rdi), %edx
	leaq	-4(%r8), %rax
	andl	$16383, %edx
	cmpw	$1, %dx
	jne	.LBB23_8
	cmpl	$4, %eax
	je	.LBB23_8
.LBB23_9:
	xorl	%edx, %edx
	xorl	%eax, %eax
.LBB23_10:
	retq
.LBB23_2:
	movb	$1, %al
	movq	%rcx, %rdx
	retq
.Lfunc_end23:
	.size	nla_wire.members.measure_each.5fa77b269143286c, .Lfunc_end23-nla_wire.members.measure_each.5fa77b269143286c
	.cfi_endproc

	.section	.text.nla_wire.members.measure_each.1f0cb788f492ced5,"ax",@progbits
	.p2align	4
	.type	nla_wire.members.measure_each.1f0cb788f492ced5,@function
nla_wire.members.measure_each.1f0cb788f492ced5:
	.cfi_startproc
	xorl	%ecx, %ecx
	xorl	%eax, %eax
	.p2align	4
.LBB24_1:
	subq	%rax, %rsi
	jbe	.LBB24_2
	cmpq	$4, %rsi
	jb	.LBB24_7
	addq	%rax, %rdi
	movzwl	(%rdi), %r8d
	xorl	%edx, %edx
	movl	$0, %eax
	cmpw	$4, %r8w
	jb	.LBB24_8
	cmpq	%r8, %rsi
	jb	.LBB24_8
	leal	3(%r8), %eax
	andl	$-4, %eax
	decq	%r8
	andq	$-4, %r8
	leaq	(%rcx,%r8), %rdx
	addq	$4, %rdx
	cmpq	%rcx, %rdx
	movq	%rdx, %rcx
	jae	.LBB24_1
.LBB24_7:
	xorl	%edx, %edx
	xorl	%eax, %eax
.LBB24_8:
	retq
.LBB24_2:
	movb	$1, %al
	movq	%rcx, %rdx
	retq
.Lfunc_end24:
	.size	nla_wire.members.measure_each.1f0cb788f492ced5, .Lfunc_end24-nla_wire.members.measure_each.1f0cb788f492ced5
	.cfi_endproc

	.section	.text.nla_wire.members.measure_each.6cf1decf0b22dc4b,"ax",@progbits
	.p2align	4
	.type	nla_wire.members.measure_each.6cf1decf0b22dc4b,@function
nla_wire.members.measure_each.6cf1decf0b22dc4b:
	.cfi_startproc
	pushq	%r15
	.cfi_def_cfa_offset 16
	pushq	%r14
	.cfi_def_cfa_offset 24
	pushq	%r12
	.cfi_def_cfa_offset 32
	pushq	%rbx
	.cfi_def_cfa_offset 40
	pushq	%rax
	.cfi_def_cfa_offset 48
	.cfi_offset %rbx, -40
	.cfi_offset %r12, -32
	.cfi_offset %r14, -24
	.cfi_offset %r15, -16
	movq	%rsi, %rbx
	movq	%rdi, %r14
	xorl	%r15d, %r15d
	xorl	%r12d, %r12d
	jmp	.LBB25_1
	.p2align	4
.LBB25_18:
	addl	$3, %r12d
	andl	$-4, %r12d
	addq	$3, %rsi
	andq	$-4, %rsi
	leaq	(%r15,%rsi), %rax
	addq	$4, %rax
	cmpq	%r15, %rax
	movq	%rax, %r15
	jb	.LBB25_19
.LBB25_1:
	subq	%r12, %rbx
	jbe	.LBB25_2
	cmpq	$4, %rbx
	jb	.LBB25_19
	addq	%r12, %r14
	movzwl	(%r14), %r12d
	xorl	%edx, %edx
	movl	$0, %eax
	cmpw	$4, %r12w
	jb	.LBB25_20
	cmpq	%r12, %rbx
	jb	.LBB25_20
	movzwl	2(%r14), %eax
	leaq	4(%r14), %rdi
	leaq	-4(%r12), %rsi
	andl	$16383, %eax
	cmpl	$45, %eax
	je	.LBB25_15
	cmpl	$10, %eax
	je	.LBB25_13
	cmpl	$2, %eax
	jne	.LBB25_18
	testq	%rsi, %rsi
	je	.LBB25_19
	callq	nla_wire.members.measure_each.d7cac04ae1e23078
	jmp	.LBB25_11
	.p2align	4
.LBB25_13:
	testq	%rsi, %rsi
	je	.LBB25_19
	callq	nla_wire.members.measure_each.97809315b2b26985
.LBB25_11:
	movl	%eax, %ecx
	movq	%rdx, %rsi
	xorl	%edx, %edx
	movl	$0, %eax
	cmpb	$1, %cl
	jne	.LBB25_20
	cmpq	$65532, %rsi
	jb	.LBB25_18
	jmp	.LBB25_20
	.p2align	4
.LBB25_15:
	testq	%rsi, %rsi
	je	.LBB25_19
	callq	nla_wire.members.measure_each.7562298f77a88fdb
	movl	%eax, %ecx
	movq	%rdx, %rsi
	xorl	%edx, %edx
	movl	$0, %eax
	cmpb	$1, %cl
	jne	.LBB25_20
	cmpq	$65531, %rsi
	jbe	.LBB25_18
	jmp	.LBB25_20
.LBB25_19:
	xorl	%edx, %edx
	xorl	%eax, %eax
	jmp	.LBB25_20
.LBB25_2:
	movb	$1, %al
	movq	%r15, %rdx
.LBB25_20:
	addq	$8, %rsp
	.cfi_def_cfa_offset 40
	popq	%rbx
	.cfi_def_cfa_offset 32
	popq	%r12
	.cfi_def_cfa_offset 24
	popq	%r14
	.cfi_def_cfa_offset 16
	popq	%r15
	.cfi_def_cfa_offset 8
	retq
.Lfunc_end25:
	.size	nla_wire.members.measure_each.6cf1decf0b22dc4b, .Lfunc_end25-nla_wire.members.measure_each.6cf1decf0b22dc4b
	.cfi_endproc

	.section	.text.nla_wire.members.measure_each.d7cac04ae1e23078,"ax",@progbits
	.p2align	4
	.type	nla_wire.members.measure_each.d7cac04ae1e23078,@function
nla_wire.members.measure_each.d7cac04ae1e23078:
	.cfi_startproc
	xorl	%ecx, %ecx
	xorl	%eax, %eax
	.p2align	4
.LBB26_1:
	subq	%rax, %rsi
	jbe	.LBB26_2
	cmpq	$4, %rsi
	jb	.LBB26_7
	addq	%rax, %rdi
	movzwl	(%rdi), %r8d
	xorl	%edx, %edx
	movl	$0, %eax
	cmpw	$4, %r8w
	jb	.LBB26_8
	cmpq	%r8, %rsi
	jb	.LBB26_8
	movzwl	2(%rdi), %edx
	leal	3(%r8), %eax
	andl	$-4, %eax
	andl	$16383, %edx
	decq	%r8
	andq	$-4, %r8
	addq	$4, %r8
	cmpw	$1, %dx
	movl	$140, %edx
	cmovneq	%r8, %rdx
	addq	%rdx, %rcx
	jae	.LBB26_1
.LBB26_7:
	xorl	%edx, %edx
	xorl	%eax, %eax
.LBB26_8:
	retq
.LBB26_2:
	movb	$1, %al
	movq	%rcx, %rdx
	retq
.Lfunc_end26:
	.size	nla_wire.members.measure_each.d7cac04ae1e23078, .Lfunc_end26-nla_wire.members.measure_each.d7cac04ae1e23078
	.cfi_endproc

	.section	.text.nla_wire.members.measure_each.97809315b2b26985,"ax",@progbits
	.p2align	4
	.type	nla_wire.members.measure_each.97809315b2b26985,@function
nla_wire.members.measure_each.97809315b2b26985:
	.cfi_startproc
	xorl	%ecx, %ecx
	xorl	%r8d, %r8d
	jmp	.LBB27_1
.LBB27_10:
	movl	$56, %eax
	.p2align	4
.LBB27_15:
	addl	$3, %r8d
	andl	$-4, %r8d
	addq	$3, %rax
	andq	$-4, %rax
	addq	%rcx, %rax
	addq	$4, %rax
	cmpq	%rcx, %rax
	movq	%rax, %rcx
	jb	.LBB27_16
.LBB27_1:
	subq	%r8, %rsi
	jbe	.LBB27_2
	cmpq	$4, %rsi
	jb	.LBB27_16
	addq	%r8, %rdi
	movzwl	(%rdi), %r8d
	xorl	%edx, %edx
	movl	$0, %eax
	cmpw	$4, %r8w
	jb	.LBB27_17
	cmpq	%r8, %rsi
	jb	.LBB27_17
	movzwl	2(%rdi), %edx
	leaq	-4(%r8), %rax
	andl	$16383, %edx
	decl	%edx
	cmpl	$8, %edx
	ja	.LBB27_15
	leaq	.LJTI27_0(%rip), %r9
	movslq	(%r9,%rdx,4), %rdx
	addq	%r9, %rdx
	jmpq	*%rdx
.LBB27_13:
	cmpl	$4, %eax
	movl	$4, %eax
	je	.LBB27_15
	jmp	.LBB27_16
.LBB27_11:
	cmpl	$16, %eax
	movl	$16, %eax
	je	.LBB27_15
	jmp	.LBB27_16
.LBB27_12:
	cmpl	$1, %eax
	movl	$1, %eax
	je	.LBB27_15
	jmp	.LBB27_16
.LBB27_14:
	movl	$240, %eax
	jmp	.LBB27_15
.LBB27_9:
	movl	$312, %eax
	jmp	.LBB27_15
.LBB27_8:
	movl	$16, %eax
	cmpw	$19, %r8w
	ja	.LBB27_15
.LBB27_16:
	xorl	%edx, %edx
	xorl	%eax, %eax
.LBB27_17:
	retq
.LBB27_2:
	movb	$1, %al
	movq	%rcx, %rdx
	retq
.Lfunc_end27:
	.size	nla_wire.members.measure_each.97809315b2b26985, .Lfunc_end27-nla_wire.members.measure_each.97809315b2b26985
	.cfi_endproc
	.section	.rodata.nla_wire.members.measure_each.97809315b2b26985,"a",@progbits
	.p2align	2, 0x0
.LJTI27_0:
	.long	.LBB27_13-.LJTI27_0
	.long	.LBB27_14-.LJTI27_0
	.long	.LBB27_9-.LJTI27_0
	.long	.LBB27_15-.LJTI27_0
	.long	.LBB27_8-.LJTI27_0
	.long	.LBB27_10-.LJTI27_0
	.long	.LBB27_11-.LJTI27_0
	.long	.LBB27_12-.LJTI27_0
	.long	.LBB27_13-.LJTI27_0

	.section	.text.nla_wire.members.measure_each.7562298f77a88fdb,"ax",@progbits
	.p2align	4
	.type	nla_wire.members.measure_each.7562298f77a88fdb,@function
nla_wire.members.measure_each.7562298f77a88fdb:
	.cfi_startproc
	xorl	%ecx, %ecx
	xorl	%r8d, %r8d
	jmp	.LBB28_1
	.p2align	4
.LBB28_9:
	cmpl	$4, %eax
	movl	$4, %eax
	jne	.LBB28_11
.LBB28_10:
	addl	$3, %r8d
	andl	$-4, %r8d
	addq	$3, %rax
	andq	$-4, %rax
	addq	%rcx, %rax
	addq	$4, %rax
	cmpq	%rcx, %rax
	movq	%rax, %rcx
	jb	.LBB28_11
.LBB28_1:
	subq	%r8, %rsi
	jbe	.LBB28_2
	cmpq	$4, %rsi
	jb	.LBB28_11
	addq	%r8, %rdi
	movzwl	(%rdi), %r8d
	xorl	%edx, %edx
	movl	$0, %eax
	cmpw	$4, %r8w
	jb	.LBB28_12
	cmpq	%r8, %rsi
	jb	.LBB28_12
	movzwl	2(%rdi), %edx
	leaq	-4(%r8), %rax
	andl	$16383, %edx
	cmpl	$1, %edx
	je	.LBB28_9
	cmpl	$2, %edx
	jne	.LBB28_10
	cmpl	$1, %eax
	movl	$1, %eax
	je	.LBB28_10
.LBB28_11:
	xorl	%edx, %edx
	xorl	%eax, %eax
.LBB28_12:
	retq
.LBB28_2:
	movb	$1, %al
	movq	%rcx, %rdx
	retq
.Lfunc_end28:
	.size	nla_wire.members.measure_each.7562298f77a88fdb, .Lfunc_end28-nla_wire.members.measure_each.7562298f77a88fdb
	.cfi_endproc

	.section	.text.nla_wire.place.check_one.c4c48bc1b6cb0726,"ax",@progbits
	.p2align	4
	.type	nla_wire.place.check_one.c4c48bc1b6cb0726,@function
nla_wire.place.check_one.c4c48bc1b6cb0726:
	.cfi_startproc
	pushq	%rbp
	.cfi_def_cfa_offset 16
	pushq	%r15
	.cfi_def_cfa_offset 24
	pushq	%r14
	.cfi_def_cfa_offset 32
	pushq	%r13
	.cfi_def_cfa_offset 40
	pushq	%r12
	.cfi_def_cfa_offset 48
	pushq	%rbx
	.cfi_def_cfa_offset 56
	subq	$136, %rsp
	.cfi_def_cfa_offset 192
	.cfi_offset %rbx, -56
	.cfi_offset %r12, -48
	.cfi_offset %r13, -40
	.cfi_offset %r14, -32
	.cfi_offset %r15, -24
	.cfi_offset %rbp, -16
	movq	%rdi, %rbx
	movzwl	(%rdx), %ecx
	andl	$16383, %ecx
	xorl	%r9d, %r9d
	xorl	%ebp, %ebp
	xorl	%r11d, %r11d
	xorl	%r10d, %r10d
	xorl	%eax, %eax
	decl	%ecx
	cmpl	$66, %ecx
	ja	.LBB29_217
	movq	%rdx, %r14
	movq	8(%rdx), %r12
	movq	16(%rdx), %r15
	leaq	.LJTI29_0(%rip), %rdx
	movslq	(%rdx,%rcx,4), %rcx
	addq	%rdx, %rcx
	xorl	%r8d, %r8d
	xorl	%edi, %edi
	xorl	%edx, %edx
	jmpq	*%rcx
.LBB29_2:
	xorps	%xmm0, %xmm0
	movaps	%xmm0, 32(%rsp)
	movaps	%xmm0, 16(%rsp)
	movaps	%xmm0, (%rsp)
	cmpq	$4, %r15
	jne	.LBB29_5
.LBB29_3:
	xorl	%esi, %esi
	xorl	%ecx, %ecx
	xorl	%ebp, %ebp
	xorl	%r15d, %r15d
	xorl	%edx, %edx
.LBB29_4:
	xorl	%eax, %eax
	jmp	.LBB29_7
.LBB29_5:
	movb	$1, %al
	movl	$4, %edx
.LBB29_6:
	movw	$5, %bp
	movl	$7, %ecx
	leaq	.Lstatic.19(%rip), %rsi
.LBB29_7:
	movq	%rsi, 8(%rsp)
	movq	%rcx, 16(%rsp)
	movw	%bp, 24(%rsp)
	movl	$0, 28(%rsp)
	movq	%r15, 32(%rsp)
	xorl	%r9d, %r9d
	movq	%r15, %rdi
	xorl	%r8d, %r8d
.LBB29_8:
	testb	%al, %al
	je	.LBB29_19
	movq	8(%rsp), %rsi
.LBB29_10:
	movzwl	(%r14), %r10d
	andl	$16383, %r10d
	decl	%r10d
	cmpl	$68, %r10d
	ja	.LBB29_161
	movl	$12, %r11d
	leaq	.LJTI29_3(%rip), %r14
	movslq	(%r14,%r10,4), %r10
	addq	%r14, %r10
	jmpq	*%r10
.LBB29_12:
	leaq	.Lstatic.75(%rip), %r10
	jmp	.LBB29_210
.LBB29_13:
	xorps	%xmm0, %xmm0
	movaps	%xmm0, 32(%rsp)
	movaps	%xmm0, 16(%rsp)
	movaps	%xmm0, (%rsp)
	movq	%rsp, %rdi
	movq	%r12, %rsi
	movq	%r15, %rdx
	callq	nla_wire.text.check_string
	movzbl	(%rsp), %eax
	movq	16(%rsp), %rcx
	movzwl	24(%rsp), %ebp
	movzwl	26(%rsp), %r8d
	movl	28(%rsp), %r9d
	movq	32(%rsp), %rdi
	movq	40(%rsp), %rdx
	jmp	.LBB29_8
.LBB29_14:
	xorps	%xmm0, %xmm0
	movaps	%xmm0, 32(%rsp)
	movaps	%xmm0, 16(%rsp)
	movaps	%xmm0, (%rsp)
	cmpq	$1, %r15
	je	.LBB29_3
	movb	$1, %al
	movl	$1, %edx
	jmp	.LBB29_6
.LBB29_16:
	xorps	%xmm0, %xmm0
	movaps	%xmm0, 32(%rsp)
	movaps	%xmm0, 16(%rsp)
	movaps	%xmm0, (%rsp)
	cmpq	$32, %r15
	jae	.LBB29_218
	movb	$1, %al
	movl	$32, %edx
	movl	$7, %ecx
	leaq	.Lstatic.19(%rip), %rsi
	jmp	.LBB29_220
.LBB29_18:
	movzbl	%sil, %eax
	leaq	.LJTI29_1(%rip), %rcx
	movslq	(%rcx,%rax,4), %rax
	addq	%rcx, %rax
	jmpq	*%rax
.LBB29_19:
	xorl	%eax, %eax
	xorl	%r10d, %r10d
	xorl	%r11d, %r11d
	xorl	%ebp, %ebp
	xorl	%r8d, %r8d
	xorl	%r9d, %r9d
.LBB29_20:
	xorl	%edi, %edi
	xorl	%edx, %edx
	jmp	.LBB29_216
.LBB29_21:
	xorps	%xmm0, %xmm0
	movaps	%xmm0, 32(%rsp)
	movaps	%xmm0, 16(%rsp)
	movaps	%xmm0, (%rsp)
	testq	%r15, %r15
	je	.LBB29_255
	movaps	%xmm0, 80(%rsp)
	movaps	%xmm0, 64(%rsp)
	movaps	%xmm0, 48(%rsp)
	xorl	%ebp, %ebp
	jmp	.LBB29_25
.LBB29_23:
	leaq	48(%rsp), %rdi
	callq	nla_wire.place.check_one.8ba1f663fcd59a5e
	cmpb	$0, 48(%rsp)
	jne	.LBB29_275
.LBB29_24:
	addl	$3, %ebp
	andl	$-4, %ebp
	cmpq	%rbp, %r15
	jbe	.LBB29_224
.LBB29_25:
	subq	%rbp, %r15
	cmpq	$4, %r15
	jb	.LBB29_268
	addq	%rbp, %r12
	movzwl	(%r12), %ebp
	cmpq	%rbp, %r15
	jb	.LBB29_222
	cmpw	$3, %bp
	jbe	.LBB29_223
	movzwl	2(%r12), %esi
	movl	%esi, %eax
	andl	$16383, %eax
	decl	%eax
	cmpl	$7, %eax
	ja	.LBB29_24
	leaq	-4(%rbp), %rdx
	leaq	.LJTI29_2(%rip), %rcx
	movslq	(%rcx,%rax,4), %rax
	addq	%rcx, %rax
	jmpq	*%rax
.LBB29_30:
	cmpl	$4, %edx
	je	.LBB29_24
	jmp	.LBB29_23
.LBB29_31:
	cmpl	$1, %edx
	jne	.LBB29_23
	jmp	.LBB29_24
.LBB29_32:
	xorps	%xmm0, %xmm0
	movaps	%xmm0, 32(%rsp)
	movaps	%xmm0, 16(%rsp)
	movaps	%xmm0, (%rsp)
	movaps	%xmm0, 48(%rsp)
	movaps	%xmm0, 64(%rsp)
	movaps	%xmm0, 80(%rsp)
	testq	%r15, %r15
	je	.LBB29_129
	xorl	%ebp, %ebp
	jmp	.LBB29_35
.LBB29_34:
	addl	$3, %ebp
	andl	$-4, %ebp
	cmpq	%rbp, %r15
	jbe	.LBB29_129
.LBB29_35:
	subq	%rbp, %r15
	cmpq	$4, %r15
	jb	.LBB29_264
	addq	%rbp, %r12
	movzwl	(%r12), %ebp
	cmpq	%rbp, %r15
	jb	.LBB29_130
	cmpw	$3, %bp
	jbe	.LBB29_131
	movzwl	2(%r12), %r13d
	leaq	4(%r12), %rdi
	leaq	-4(%rbp), %rsi
	movl	%r13d, %eax
	andl	$16383, %eax
	cmpl	$3, %eax
	je	.LBB29_42
	cmpl	$2, %eax
	je	.LBB29_41
	cmpl	$1, %eax
	jne	.LBB29_43
.LBB29_41:
	callq	nla_wire.payload.measure_text
	jmp	.LBB29_44
.LBB29_42:
	cmpl	$4, %esi
	sete	%al
	jmp	.LBB29_44
.LBB29_43:
	movb	$1, %al
.LBB29_44:
	testb	$1, %al
	jne	.LBB29_34
	movw	%r13w, 112(%rsp)
	leaq	114(%rsp), %rax
	movw	$0, 4(%rax)
	movl	$0, (%rax)
	leaq	4(%r12), %rax
	movq	%rax, 120(%rsp)
	leaq	-4(%rbp), %rax
	movq	%rax, 128(%rsp)
	leaq	48(%rsp), %rdi
	leaq	112(%rsp), %rsi
	callq	nla_wire.place.check_one.16a873d75d6df2a1
	cmpb	$0, 48(%rsp)
	je	.LBB29_34
	jmp	.LBB29_100
.LBB29_46:
	xorps	%xmm0, %xmm0
	movaps	%xmm0, 32(%rsp)
	movaps	%xmm0, 16(%rsp)
	movaps	%xmm0, (%rsp)
	movaps	%xmm0, 80(%rsp)
	movaps	%xmm0, 64(%rsp)
	movaps	%xmm0, 48(%rsp)
	testq	%r15, %r15
	je	.LBB29_129
	xorl	%ebp, %ebp
	jmp	.LBB29_49
.LBB29_48:
	addl	$3, %ebp
	andl	$-4, %ebp
	cmpq	%rbp, %r15
	jbe	.LBB29_129
.LBB29_49:
	subq	%rbp, %r15
	cmpq	$4, %r15
	jb	.LBB29_264
	addq	%rbp, %r12
	movzwl	(%r12), %ebp
	cmpq	%rbp, %r15
	jb	.LBB29_130
	cmpw	$3, %bp
	jbe	.LBB29_131
	movzwl	2(%r12), %esi
	movl	%esi, %eax
	andl	$16383, %eax
	addl	$-3, %eax
	cmpw	$-2, %ax
	jb	.LBB29_48
	leaq	-4(%rbp), %rdx
	cmpl	$4, %edx
	je	.LBB29_48
	leaq	48(%rsp), %rdi
	callq	nla_wire.place.check_one.f7f30aae703aa44d
	cmpb	$0, 48(%rsp)
	je	.LBB29_48
	jmp	.LBB29_100
.LBB29_55:
	xorps	%xmm0, %xmm0
	movaps	%xmm0, 32(%rsp)
	movaps	%xmm0, 16(%rsp)
	movaps	%xmm0, (%rsp)
	testq	%r15, %r15
	je	.LBB29_116
	movaps	%xmm0, 48(%rsp)
	movaps	%xmm0, 64(%rsp)
	movaps	%xmm0, 80(%rsp)
	xorl	%ebp, %ebp
	movq	%r14, 104(%rsp)
	jmp	.LBB29_59
.LBB29_57:
	movw	%r14w, 112(%rsp)
	leaq	114(%rsp), %rax
	movw	$0, 4(%rax)
	movl	$0, (%rax)
	movq	%rsi, 120(%rsp)
	movq	%r13, 128(%rsp)
	leaq	48(%rsp), %rdi
	leaq	112(%rsp), %rsi
	callq	nla_wire.place.check_one.79503c7a397af21a
	cmpb	$0, 48(%rsp)
	jne	.LBB29_90
.LBB29_58:
	addl	$3, %ebp
	andl	$-4, %ebp
	cmpq	%rbp, %r15
	movq	104(%rsp), %r14
	jbe	.LBB29_224
.LBB29_59:
	subq	%rbp, %r15
	cmpq	$4, %r15
	jb	.LBB29_268
	addq	%rbp, %r12
	movzwl	(%r12), %ebp
	cmpq	%rbp, %r15
	jb	.LBB29_222
	cmpw	$3, %bp
	jbe	.LBB29_223
	movzwl	2(%r12), %r14d
	movl	%r14d, %eax
	andl	$16383, %eax
	cmpw	$1, %ax
	jne	.LBB29_58
	leaq	4(%r12), %rsi
	movq	%rbp, %r13
	addq	$-4, %r13
	je	.LBB29_57
	leaq	4(%r12), %rdi
	movq	%r13, %rsi
	callq	nla_wire.members.measure_each.1f0cb788f492ced5
	leaq	4(%r12), %rsi
	cmpb	$1, %al
	sete	%al
	cmpq	$65532, %rdx
	setb	%cl
	testb	%cl, %al
	je	.LBB29_57
	jmp	.LBB29_58
.LBB29_65:
	xorps	%xmm0, %xmm0
	movaps	%xmm0, 32(%rsp)
	movaps	%xmm0, 16(%rsp)
	movaps	%xmm0, (%rsp)
	cmpq	$8, %r15
	jae	.LBB29_219
	movl	$8, %edx
	movl	$7, %ecx
	leaq	.Lstatic.19(%rip), %rsi
	movb	$1, %al
	jmp	.LBB29_220
.LBB29_67:
	xorps	%xmm0, %xmm0
	movaps	%xmm0, 32(%rsp)
	movaps	%xmm0, 16(%rsp)
	movaps	%xmm0, (%rsp)
	cmpq	$1, %r15
	jne	.LBB29_221
	xorl	%ecx, %ecx
	xorl	%ebp, %ebp
	xorl	%r15d, %r15d
	xorl	%edx, %edx
	xorl	%esi, %esi
	jmp	.LBB29_4
.LBB29_69:
	xorps	%xmm0, %xmm0
	movaps	%xmm0, 32(%rsp)
	movaps	%xmm0, 16(%rsp)
	movaps	%xmm0, (%rsp)
	movaps	%xmm0, 48(%rsp)
	movaps	%xmm0, 64(%rsp)
	movaps	%xmm0, 80(%rsp)
	testq	%r15, %r15
	je	.LBB29_129
	xorl	%ebp, %ebp
	movq	%r14, 104(%rsp)
	jmp	.LBB29_73
.LBB29_71:
	movw	%r14w, 112(%rsp)
	leaq	114(%rsp), %rax
	movw	$0, 4(%rax)
	movl	$0, (%rax)
	movq	%rsi, 120(%rsp)
	movq	%r13, 128(%rsp)
	leaq	48(%rsp), %rdi
	leaq	112(%rsp), %rsi
	callq	nla_wire.place.check_one.3bb4c8661a1029f4
	cmpb	$0, 48(%rsp)
	jne	.LBB29_128
.LBB29_72:
	addl	$3, %ebp
	andl	$-4, %ebp
	cmpq	%rbp, %r15
	movq	104(%rsp), %r14
	jbe	.LBB29_129
.LBB29_73:
	subq	%rbp, %r15
	cmpq	$4, %r15
	jb	.LBB29_264
	addq	%rbp, %r12
	movzwl	(%r12), %ebp
	cmpq	%rbp, %r15
	jb	.LBB29_130
	cmpw	$3, %bp
	jbe	.LBB29_131
	movzwl	2(%r12), %r14d
	movl	%r14d, %eax
	andl	$16383, %eax
	cmpw	$1, %ax
	jne	.LBB29_72
	leaq	4(%r12), %rsi
	movq	%rbp, %r13
	addq	$-4, %r13
	je	.LBB29_71
	leaq	4(%r12), %rdi
	movq	%r13, %rsi
	callq	nla_wire.members.measure_each.41ac5f0caeaa9df8
	leaq	4(%r12), %rsi
	cmpb	$1, %al
	sete	%al
	cmpq	$65532, %rdx
	setb	%cl
	testb	%cl, %al
	je	.LBB29_71
	jmp	.LBB29_72
.LBB29_79:
	xorps	%xmm0, %xmm0
	movaps	%xmm0, 32(%rsp)
	movaps	%xmm0, 16(%rsp)
	movaps	%xmm0, (%rsp)
	testq	%r15, %r15
	je	.LBB29_116
	movaps	%xmm0, 48(%rsp)
	movaps	%xmm0, 64(%rsp)
	movaps	%xmm0, 80(%rsp)
	xorl	%ebp, %ebp
	movq	%r14, 104(%rsp)
	jmp	.LBB29_82
.LBB29_81:
	addl	$3, %ebp
	andl	$-4, %ebp
	cmpq	%rbp, %r15
	movq	104(%rsp), %r14
	jbe	.LBB29_224
.LBB29_82:
	subq	%rbp, %r15
	cmpq	$4, %r15
	jb	.LBB29_268
	addq	%rbp, %r12
	movzwl	(%r12), %ebp
	cmpq	%rbp, %r15
	jb	.LBB29_222
	cmpw	$3, %bp
	jbe	.LBB29_223
	movzwl	2(%r12), %r14d
	leaq	4(%r12), %rdi
	leaq	-4(%rbp), %rsi
	movl	%r14d, %eax
	andl	$16383, %eax
	cmpw	$1, %ax
	jne	.LBB29_87
	movq	%rdi, %r13
	callq	nla_wire.payload.measure_text
	jmp	.LBB29_88
.LBB29_87:
	movq	%rdi, %r13
	movb	$1, %al
.LBB29_88:
	testb	$1, %al
	jne	.LBB29_81
	movw	%r14w, 112(%rsp)
	leaq	114(%rsp), %rax
	movw	$0, 4(%rax)
	movl	$0, (%rax)
	movq	%r13, 120(%rsp)
	leaq	-4(%rbp), %rax
	movq	%rax, 128(%rsp)
	leaq	48(%rsp), %rdi
	leaq	112(%rsp), %rsi
	callq	nla_wire.place.check_one.49064c0641319ce4
	cmpb	$0, 48(%rsp)
	je	.LBB29_81
.LBB29_90:
	movzwl	56(%rsp), %esi
	movl	58(%rsp), %eax
	movzwl	62(%rsp), %edi
	shlq	$32, %rdi
	orq	%rax, %rdi
	movq	64(%rsp), %rcx
	movq	72(%rsp), %rbp
	movq	80(%rsp), %r15
	movq	88(%rsp), %rdx
	movb	$1, %al
	movq	104(%rsp), %r14
	jmp	.LBB29_271
.LBB29_91:
	xorps	%xmm0, %xmm0
	movaps	%xmm0, 32(%rsp)
	movaps	%xmm0, 16(%rsp)
	movaps	%xmm0, (%rsp)
	movaps	%xmm0, 80(%rsp)
	movaps	%xmm0, 64(%rsp)
	movaps	%xmm0, 48(%rsp)
	testq	%r15, %r15
	je	.LBB29_129
	xorl	%ebp, %ebp
	jmp	.LBB29_94
.LBB29_93:
	addl	$3, %ebp
	andl	$-4, %ebp
	cmpq	%rbp, %r15
	jbe	.LBB29_129
.LBB29_94:
	subq	%rbp, %r15
	cmpq	$4, %r15
	jb	.LBB29_264
	addq	%rbp, %r12
	movzwl	(%r12), %ebp
	cmpq	%rbp, %r15
	jb	.LBB29_130
	cmpw	$3, %bp
	jbe	.LBB29_131
	movzwl	2(%r12), %esi
	movl	%esi, %eax
	andl	$16383, %eax
	cmpw	$1, %ax
	jne	.LBB29_93
	leaq	-4(%rbp), %rdx
	cmpl	$4, %edx
	je	.LBB29_93
	leaq	48(%rsp), %rdi
	callq	nla_wire.place.check_one.5fa77b269143286c
	cmpb	$0, 48(%rsp)
	je	.LBB29_93
.LBB29_100:
	movzwl	56(%rsp), %esi
	movl	58(%rsp), %eax
	movzwl	62(%rsp), %r8d
	shlq	$32, %r8
	orq	%rax, %r8
	movq	64(%rsp), %rcx
	movq	72(%rsp), %rbp
	movq	80(%rsp), %rdi
	movb	$1, %al
	movq	88(%rsp), %rdx
	jmp	.LBB29_133
.LBB29_101:
	movzbl	%sil, %ecx
	xorl	%r9d, %r9d
	xorl	%ebp, %ebp
	xorl	%r11d, %r11d
	xorl	%r10d, %r10d
	xorl	%eax, %eax
	movl	$51, %edx
	btl	%ecx, %edx
	movl	$0, %r8d
	movl	$0, %edi
	movl	$0, %edx
	jb	.LBB29_216
	xorps	%xmm0, %xmm0
	cmpl	$2, %ecx
	jne	.LBB29_249
	movaps	%xmm0, 32(%rsp)
	movaps	%xmm0, 16(%rsp)
	movaps	%xmm0, (%rsp)
	testq	%r15, %r15
	je	.LBB29_255
	xorl	%ebp, %ebp
.LBB29_105:
	subq	%rbp, %r15
	cmpq	$4, %r15
	jb	.LBB29_259
	addq	%rbp, %r12
	movzwl	(%r12), %ebp
	cmpq	%rbp, %r15
	jb	.LBB29_257
	cmpw	$3, %bp
	jbe	.LBB29_258
	addl	$3, %ebp
	andl	$-4, %ebp
	cmpq	%rbp, %r15
	ja	.LBB29_105
	jmp	.LBB29_115
.LBB29_109:
	xorps	%xmm0, %xmm0
	movaps	%xmm0, 32(%rsp)
	movaps	%xmm0, 16(%rsp)
	movaps	%xmm0, (%rsp)
	testq	%r15, %r15
	je	.LBB29_116
	xorl	%ebp, %ebp
.LBB29_111:
	subq	%rbp, %r15
	cmpq	$4, %r15
	jb	.LBB29_259
	addq	%rbp, %r12
	movzwl	(%r12), %ebp
	cmpq	%rbp, %r15
	jb	.LBB29_257
	cmpw	$3, %bp
	jbe	.LBB29_258
	addl	$3, %ebp
	andl	$-4, %ebp
	cmpq	%rbp, %r15
	ja	.LBB29_111
.LBB29_115:
	xorl	%eax, %eax
	xorl	%ecx, %ecx
	xorl	%ebp, %ebp
	xorl	%r15d, %r15d
	xorl	%edx, %edx
	jmp	.LBB29_261
.LBB29_116:
	leaq	.Lstatic.19(%rip), %rax
	movq	%rax, 8(%rsp)
	jmp	.LBB29_256
.LBB29_117:
	xorps	%xmm0, %xmm0
	movaps	%xmm0, 32(%rsp)
	movaps	%xmm0, 16(%rsp)
	movaps	%xmm0, (%rsp)
	movaps	%xmm0, 48(%rsp)
	movaps	%xmm0, 64(%rsp)
	movaps	%xmm0, 80(%rsp)
	testq	%r15, %r15
	je	.LBB29_129
	xorl	%ebp, %ebp
	movq	%r14, 104(%rsp)
	jmp	.LBB29_120
.LBB29_119:
	addl	$3, %ebp
	andl	$-4, %ebp
	cmpq	%rbp, %r15
	movq	104(%rsp), %r14
	jbe	.LBB29_129
.LBB29_120:
	subq	%rbp, %r15
	cmpq	$4, %r15
	jb	.LBB29_264
	addq	%rbp, %r12
	movzwl	(%r12), %ebp
	cmpq	%rbp, %r15
	jb	.LBB29_130
	cmpw	$3, %bp
	jbe	.LBB29_131
	movzwl	2(%r12), %r14d
	leaq	4(%r12), %rdi
	leaq	-4(%rbp), %rsi
	movl	%r14d, %eax
	andl	$16383, %eax
	cmpw	$53, %ax
	jne	.LBB29_125
	movq	%rdi, %r13
	callq	nla_wire.payload.measure_text
	jmp	.LBB29_126
.LBB29_125:
	movq	%rdi, %r13
	movb	$1, %al
.LBB29_126:
	testb	$1, %al
	jne	.LBB29_119
	movw	%r14w, 112(%rsp)
	leaq	114(%rsp), %rax
	movw	$0, 4(%rax)
	movl	$0, (%rax)
	movq	%r13, 120(%rsp)
	leaq	-4(%rbp), %rax
	movq	%rax, 128(%rsp)
	leaq	48(%rsp), %rdi
	leaq	112(%rsp), %rsi
	callq	nla_wire.place.check_one.b30b196c481b950e
	cmpb	$0, 48(%rsp)
	je	.LBB29_119
.LBB29_128:
	movzwl	56(%rsp), %esi
	movl	58(%rsp), %eax
	movzwl	62(%rsp), %r8d
	shlq	$32, %r8
	orq	%rax, %r8
	movq	64(%rsp), %rcx
	movq	72(%rsp), %rbp
	movq	80(%rsp), %rdi
	movb	$1, %al
	movq	88(%rsp), %rdx
	movq	104(%rsp), %r14
	jmp	.LBB29_133
.LBB29_129:
	xorl	%esi, %esi
	xorl	%eax, %eax
	xorl	%r8d, %r8d
	xorl	%ecx, %ecx
	xorl	%ebp, %ebp
	xorl	%edi, %edi
	xorl	%edx, %edx
	jmp	.LBB29_133
.LBB29_264:
	movl	$1, %ebp
	jmp	.LBB29_132
.LBB29_130:
	shll	$16, %ebp
	orq	$2, %rbp
	jmp	.LBB29_132
.LBB29_131:
	shll	$16, %ebp
	orq	$3, %rbp
	xorl	%r15d, %r15d
.LBB29_132:
	leaq	.Lstatic.19(%rip), %rsi
	movq	%rsi, %r8
	shrq	$16, %r8
	movl	$7, %ecx
	movb	$1, %al
	xorl	%edx, %edx
	movq	%r15, %rdi
.LBB29_133:
	movw	%si, 8(%rsp)
	movl	%r8d, 10(%rsp)
	shrq	$32, %r8
	movw	%r8w, 14(%rsp)
	movq	%rcx, 16(%rsp)
	movq	%rbp, 24(%rsp)
	movq	%rdi, 32(%rsp)
.LBB29_134:
	movl	%ebp, %r8d
	shrl	$16, %r8d
	movq	%rbp, %r9
	shrq	$32, %r9
	jmp	.LBB29_8
.LBB29_135:
	leaq	.Lstatic.118(%rip), %r10
	movl	$23, %r11d
	jmp	.LBB29_210
.LBB29_136:
	leaq	.Lstatic.125(%rip), %r10
	jmp	.LBB29_205
.LBB29_137:
	leaq	.Lstatic.131(%rip), %r10
	jmp	.LBB29_197
.LBB29_138:
	leaq	.Lstatic.128(%rip), %r10
	jmp	.LBB29_197
.LBB29_139:
	leaq	.Lstatic.124(%rip), %r10
	jmp	.LBB29_191
.LBB29_140:
	leaq	.Lstatic.114(%rip), %r10
	jmp	.LBB29_166
.LBB29_141:
	leaq	.Lstatic.113(%rip), %r10
	jmp	.LBB29_174
.LBB29_142:
	leaq	.Lstatic.111(%rip), %r10
	jmp	.LBB29_197
.LBB29_143:
	leaq	.Lstatic.119(%rip), %r10
	jmp	.LBB29_195
.LBB29_144:
	leaq	.Lstatic.93(%rip), %r10
	jmp	.LBB29_195
.LBB29_145:
	leaq	.Lstatic.96(%rip), %r10
	jmp	.LBB29_203
.LBB29_146:
	leaq	.Lstatic.88(%rip), %r10
	jmp	.LBB29_209
.LBB29_147:
	leaq	.Lstatic.100(%rip), %r10
	jmp	.LBB29_209
.LBB29_148:
	leaq	.Lstatic.98(%rip), %r10
	jmp	.LBB29_166
.LBB29_149:
	leaq	.Lstatic.85(%rip), %r10
	jmp	.LBB29_182
.LBB29_150:
	leaq	.Lstatic.108(%rip), %r10
	jmp	.LBB29_197
.LBB29_151:
	leaq	.Lstatic.103(%rip), %r10
	jmp	.LBB29_193
.LBB29_152:
	leaq	.Lstatic.115(%rip), %r10
	jmp	.LBB29_195
.LBB29_153:
	leaq	.Lstatic.97(%rip), %r10
	jmp	.LBB29_210
.LBB29_154:
	leaq	.Lstatic.87(%rip), %r10
	jmp	.LBB29_203
.LBB29_155:
	leaq	.Lstatic.94(%rip), %r10
	jmp	.LBB29_210
.LBB29_156:
	leaq	.Lstatic.77(%rip), %r10
	jmp	.LBB29_182
.LBB29_157:
	leaq	.Lstatic.104(%rip), %r10
	jmp	.LBB29_210
.LBB29_158:
	leaq	.Lstatic.106(%rip), %r10
	jmp	.LBB29_205
.LBB29_159:
	leaq	.Lstatic.80(%rip), %r10
	jmp	.LBB29_166
.LBB29_160:
	leaq	.Lstatic.86(%rip), %r10
	jmp	.LBB29_174
.LBB29_161:
	leaq	.Lstatic.3(%rip), %r10
	movb	$1, %r14b
	xorl	%r11d, %r11d
	jmp	.LBB29_211
.LBB29_162:
	leaq	.Lstatic.99(%rip), %r10
	jmp	.LBB29_203
.LBB29_163:
	leaq	.Lstatic.116(%rip), %r10
	jmp	.LBB29_199
.LBB29_164:
	leaq	.Lstatic.76(%rip), %r10
	jmp	.LBB29_203
.LBB29_165:
	leaq	.Lstatic.81(%rip), %r10
.LBB29_166:
	movl	$10, %r11d
	jmp	.LBB29_210
.LBB29_167:
	leaq	.Lstatic.82(%rip), %r10
	jmp	.LBB29_182
.LBB29_168:
	leaq	.Lstatic.120(%rip), %r10
	jmp	.LBB29_210
.LBB29_169:
	leaq	.Lstatic.89(%rip), %r10
	jmp	.LBB29_209
.LBB29_170:
	leaq	.Lstatic.90(%rip), %r10
	jmp	.LBB29_199
.LBB29_171:
	leaq	.Lstatic.123(%rip), %r10
	jmp	.LBB29_197
.LBB29_172:
	leaq	.Lstatic.105(%rip), %r10
	jmp	.LBB29_197
.LBB29_173:
	leaq	.Lstatic.78(%rip), %r10
.LBB29_174:
	movl	$8, %r11d
	jmp	.LBB29_210
.LBB29_175:
	leaq	.Lstatic.121(%rip), %r10
	jmp	.LBB29_210
.LBB29_176:
	leaq	.Lstatic.79(%rip), %r10
	movl	$9, %r11d
	jmp	.LBB29_210
.LBB29_177:
	leaq	.Lstatic.112(%rip), %r10
	jmp	.LBB29_197
.LBB29_178:
	leaq	.Lstatic.84(%rip), %r10
	jmp	.LBB29_209
.LBB29_179:
	leaq	.Lstatic.129(%rip), %r10
	jmp	.LBB29_197
.LBB29_180:
	leaq	.Lstatic.83(%rip), %r10
	jmp	.LBB29_209
.LBB29_181:
	leaq	.Lstatic.92(%rip), %r10
.LBB29_182:
	movl	$11, %r11d
	jmp	.LBB29_210
.LBB29_183:
	leaq	.Lstatic.109(%rip), %r10
	jmp	.LBB29_201
.LBB29_184:
	leaq	.Lstatic.91(%rip), %r10
	jmp	.LBB29_210
.LBB29_185:
	leaq	.Lstatic.130(%rip), %r10
	jmp	.LBB29_209
.LBB29_186:
	leaq	.Lstatic.117(%rip), %r10
	movl	$21, %r11d
	jmp	.LBB29_210
.LBB29_187:
	leaq	.Lstatic.95(%rip), %r10
	jmp	.LBB29_209
.LBB29_188:
	leaq	.Lstatic.133(%rip), %r10
	jmp	.LBB29_191
.LBB29_189:
	leaq	.Lstatic.137(%rip), %r10
	jmp	.LBB29_209
.LBB29_190:
	leaq	.Lstatic.132(%rip), %r10
.LBB29_191:
	movl	$22, %r11d
	jmp	.LBB29_210
.LBB29_192:
	leaq	.Lstatic.102(%rip), %r10
.LBB29_193:
	movl	$18, %r11d
	jmp	.LBB29_210
.LBB29_194:
	leaq	.Lstatic.101(%rip), %r10
.LBB29_195:
	movl	$16, %r11d
	jmp	.LBB29_210
.LBB29_196:
	leaq	.Lstatic.127(%rip), %r10
.LBB29_197:
	movl	$17, %r11d
	jmp	.LBB29_210
.LBB29_198:
	leaq	.Lstatic.110(%rip), %r10
.LBB29_199:
	movl	$15, %r11d
	jmp	.LBB29_210
.LBB29_200:
	leaq	.Lstatic.107(%rip), %r10
.LBB29_201:
	movl	$19, %r11d
	jmp	.LBB29_210
.LBB29_202:
	leaq	.Lstatic.122(%rip), %r10
.LBB29_203:
	movl	$14, %r11d
	jmp	.LBB29_210
.LBB29_204:
	leaq	.Lstatic.135(%rip), %r10
.LBB29_205:
	movl	$20, %r11d
	jmp	.LBB29_210
.LBB29_206:
	leaq	.Lstatic.126(%rip), %r10
	movl	$24, %r11d
	jmp	.LBB29_210
.LBB29_207:
	leaq	.Lstatic.136(%rip), %r10
	jmp	.LBB29_209
.LBB29_208:
	leaq	.Lstatic.134(%rip), %r10
.LBB29_209:
	movl	$13, %r11d
.LBB29_210:
	xorl	%r14d, %r14d
.LBB29_211:
	cmpq	$7, %rcx
	jne	.LBB29_214
	movl	(%rsi), %ecx
	movl	3(%rsi), %r15d
	shlq	$32, %r15
	orq	%rcx, %r15
	movabsq	$7233184988000772464, %rcx
	cmpq	%rcx, %r15
	setne	%cl
	orb	%cl, %r14b
	je	.LBB29_215
	movq	%rsi, %r10
	movl	$7, %r11d
	jmp	.LBB29_216
.LBB29_214:
	movq	%rsi, %r10
	movq	%rcx, %r11
	jmp	.LBB29_216
.LBB29_215:
	movzbl	%bpl, %ebp
	xorl	%r9d, %r9d
.LBB29_216:
	movb	%al, (%rbx)
	movq	%r10, 8(%rbx)
	movq	%r11, 16(%rbx)
	movw	%bp, 24(%rbx)
	movw	%r8w, 26(%rbx)
	movl	%r9d, 28(%rbx)
	movq	%rdi, 32(%rbx)
	movq	%rdx, 40(%rbx)
	addq	$136, %rsp
	.cfi_def_cfa_offset 56
	popq	%rbx
	.cfi_def_cfa_offset 48
	popq	%r12
	.cfi_def_cfa_offset 40
	popq	%r13
	.cfi_def_cfa_offset 32
	popq	%r14
	.cfi_def_cfa_offset 24
	popq	%r15
	.cfi_def_cfa_offset 16
	popq	%rbp
	.cfi_def_cfa_offset 8
	retq
.LBB29_217:
	.cfi_def_cfa_offset 192
	xorl	%r8d, %r8d
	jmp	.LBB29_20
.LBB29_218:
	xorl	%esi, %esi
	xorl	%ecx, %ecx
	xorl	%r15d, %r15d
	xorl	%edx, %edx
	xorl	%eax, %eax
	jmp	.LBB29_220
.LBB29_219:
	xorl	%eax, %eax
	xorl	%esi, %esi
	xorl	%ecx, %ecx
	xorl	%r15d, %r15d
	xorl	%edx, %edx
.LBB29_220:
	movq	%rsi, 8(%rsp)
	movq	%rcx, 16(%rsp)
	movq	%r15, 32(%rsp)
	xorl	%r9d, %r9d
	movq	%r15, %rdi
	xorl	%r8d, %r8d
	xorl	%ebp, %ebp
	jmp	.LBB29_8
.LBB29_221:
	movb	$1, %al
	leaq	.Lstatic.19(%rip), %rsi
	movl	$1, %edx
	movw	$5, %bp
	movl	$7, %ecx
	jmp	.LBB29_7
.LBB29_268:
	movl	$1, %ebp
	jmp	.LBB29_269
.LBB29_222:
	shll	$16, %ebp
	orq	$2, %rbp
	jmp	.LBB29_269
.LBB29_223:
	shll	$16, %ebp
	orq	$3, %rbp
	xorl	%r15d, %r15d
.LBB29_269:
	leaq	.Lstatic.19(%rip), %rsi
	movq	%rsi, %rdi
	shrq	$16, %rdi
	movl	$7, %ecx
	movb	$1, %al
	jmp	.LBB29_270
.LBB29_224:
	xorl	%esi, %esi
	xorl	%eax, %eax
	xorl	%edi, %edi
	xorl	%ecx, %ecx
	xorl	%ebp, %ebp
	xorl	%r15d, %r15d
.LBB29_270:
	xorl	%edx, %edx
.LBB29_271:
	movzwl	%si, %esi
	shlq	$16, %rdi
	orq	%rsi, %rdi
	movq	%rdi, 8(%rsp)
	movq	%rcx, 16(%rsp)
	movq	%rbp, 24(%rsp)
	movq	%r15, 32(%rsp)
	movl	%ebp, %r8d
	shrl	$16, %r8d
	movq	%rbp, %r9
	shrq	$32, %r9
	movq	%r15, %rdi
	jmp	.LBB29_8
.LBB29_225:
	xorps	%xmm0, %xmm0
	movaps	%xmm0, 32(%rsp)
	movaps	%xmm0, 16(%rsp)
	movaps	%xmm0, (%rsp)
	testq	%r15, %r15
	je	.LBB29_255
	xorl	%ebp, %ebp
.LBB29_227:
	subq	%rbp, %r15
	cmpq	$4, %r15
	jb	.LBB29_276
	addq	%rbp, %r12
	movzwl	(%r12), %ebp
	cmpq	%rbp, %r15
	jb	.LBB29_279
	cmpw	$3, %bp
	jbe	.LBB29_280
	addl	$3, %ebp
	andl	$-4, %ebp
	cmpq	%rbp, %r15
	ja	.LBB29_227
	xorl	%eax, %eax
	xorl	%ecx, %ecx
	xorl	%ebp, %ebp
	xorl	%r15d, %r15d
	xorl	%edx, %edx
	jmp	.LBB29_282
.LBB29_232:
	xorps	%xmm0, %xmm0
	movaps	%xmm0, 32(%rsp)
	movaps	%xmm0, 16(%rsp)
	movaps	%xmm0, (%rsp)
	movaps	%xmm0, 48(%rsp)
	movaps	%xmm0, 64(%rsp)
	movaps	%xmm0, 80(%rsp)
	testq	%r15, %r15
	je	.LBB29_274
	xorl	%ebp, %ebp
	jmp	.LBB29_236
.LBB29_234:
	movw	%r13w, 112(%rsp)
	leaq	114(%rsp), %rax
	movw	$0, 4(%rax)
	movl	$0, (%rax)
	movq	%rdi, 120(%rsp)
	movq	%rsi, 128(%rsp)
	leaq	48(%rsp), %rdi
	leaq	112(%rsp), %rsi
	callq	nla_wire.place.check_one.6cf1decf0b22dc4b
	cmpb	$0, 48(%rsp)
	jne	.LBB29_288
.LBB29_235:
	addl	$3, %ebp
	andl	$-4, %ebp
	cmpq	%rbp, %r15
	jbe	.LBB29_274
.LBB29_236:
	subq	%rbp, %r15
	cmpq	$4, %r15
	jb	.LBB29_283
	addq	%rbp, %r12
	movzwl	(%r12), %ebp
	cmpq	%rbp, %r15
	jb	.LBB29_284
	cmpw	$3, %bp
	jbe	.LBB29_285
	movzwl	2(%r12), %r13d
	leaq	4(%r12), %rdi
	leaq	-4(%rbp), %rsi
	movl	%r13d, %eax
	andl	$16383, %eax
	cmpl	$45, %eax
	je	.LBB29_246
	cmpl	$10, %eax
	je	.LBB29_244
	cmpl	$2, %eax
	jne	.LBB29_235
	testq	%rsi, %rsi
	je	.LBB29_234
	leaq	4(%r12), %rdi
	callq	nla_wire.members.measure_each.d7cac04ae1e23078
	jmp	.LBB29_248
.LBB29_244:
	testq	%rsi, %rsi
	je	.LBB29_234
	leaq	4(%r12), %rdi
	callq	nla_wire.members.measure_each.97809315b2b26985
	jmp	.LBB29_248
.LBB29_246:
	testq	%rsi, %rsi
	je	.LBB29_234
	leaq	4(%r12), %rdi
	callq	nla_wire.members.measure_each.7562298f77a88fdb
.LBB29_248:
	leaq	4(%r12), %rdi
	cmpb	$1, %al
	sete	%al
	cmpq	$65532, %rdx
	setb	%cl
	testb	%cl, %al
	leaq	-4(%rbp), %rsi
	je	.LBB29_234
	jmp	.LBB29_235
.LBB29_249:
	movaps	%xmm0, 32(%rsp)
	movaps	%xmm0, 16(%rsp)
	movaps	%xmm0, (%rsp)
	testq	%r15, %r15
	je	.LBB29_255
	xorl	%ebp, %ebp
.LBB29_251:
	subq	%rbp, %r15
	cmpq	$4, %r15
	jb	.LBB29_259
	addq	%rbp, %r12
	movzwl	(%r12), %ebp
	cmpq	%rbp, %r15
	jb	.LBB29_257
	cmpw	$3, %bp
	jbe	.LBB29_258
	addl	$3, %ebp
	andl	$-4, %ebp
	cmpq	%rbp, %r15
	ja	.LBB29_251
	jmp	.LBB29_115
.LBB29_255:
	leaq	.Lstatic.19(%rip), %rax
	movq	%rax, 8(%rsp)
	movq	$7, 16(%rsp)
.LBB29_256:
	movq	8(%rsp), %rsi
	xorl	%r8d, %r8d
	movw	$4, %bp
	movl	$7, %ecx
	movb	$1, %al
	xorl	%r9d, %r9d
	xorl	%edi, %edi
	xorl	%edx, %edx
	jmp	.LBB29_10
.LBB29_259:
	movl	$1, %ebp
	jmp	.LBB29_260
.LBB29_257:
	shll	$16, %ebp
	orq	$2, %rbp
	jmp	.LBB29_260
.LBB29_258:
	shll	$16, %ebp
	orq	$3, %rbp
	xorl	%r15d, %r15d
.LBB29_260:
	leaq	.Lstatic.19(%rip), %rdx
	movl	$7, %ecx
	movb	$1, %al
.LBB29_261:
	movq	%rdx, 8(%rsp)
	movq	%rcx, 16(%rsp)
	movq	%rbp, 24(%rsp)
	movq	%r15, 32(%rsp)
.LBB29_262:
	movl	%ebp, %r8d
	shrl	$16, %r8d
	xorl	%edx, %edx
	movq	%r15, %rdi
	xorl	%r9d, %r9d
	jmp	.LBB29_8
.LBB29_274:
	xorl	%esi, %esi
	xorl	%eax, %eax
	xorl	%r8d, %r8d
	xorl	%ecx, %ecx
	xorl	%ebp, %ebp
	xorl	%edi, %edi
	xorl	%edx, %edx
	jmp	.LBB29_287
.LBB29_275:
	movzwl	56(%rsp), %esi
	movl	58(%rsp), %eax
	movzwl	62(%rsp), %edi
	shlq	$32, %rdi
	orq	%rax, %rdi
	movq	64(%rsp), %rcx
	movq	72(%rsp), %rbp
	movq	80(%rsp), %r15
	movq	88(%rsp), %rdx
	movb	$1, %al
	jmp	.LBB29_271
.LBB29_276:
	movl	$1, %ebp
	jmp	.LBB29_281
.LBB29_279:
	shll	$16, %ebp
	orq	$2, %rbp
	jmp	.LBB29_281
.LBB29_280:
	shll	$16, %ebp
	orq	$3, %rbp
	xorl	%r15d, %r15d
.LBB29_281:
	leaq	.Lstatic.19(%rip), %rdx
	movl	$7, %ecx
	movb	$1, %al
.LBB29_282:
	movq	%rdx, 8(%rsp)
	movq	%rcx, 16(%rsp)
	movq	%rbp, 24(%rsp)
	movq	%r15, 32(%rsp)
	movq	$0, 40(%rsp)
	jmp	.LBB29_262
.LBB29_283:
	movl	$1, %ebp
	jmp	.LBB29_286
.LBB29_284:
	shll	$16, %ebp
	orq	$2, %rbp
	jmp	.LBB29_286
.LBB29_285:
	shll	$16, %ebp
	orq	$3, %rbp
	xorl	%r15d, %r15d
.LBB29_286:
	leaq	.Lstatic.19(%rip), %rsi
	movq	%rsi, %r8
	shrq	$16, %r8
	movl	$7, %ecx
	movb	$1, %al
	xorl	%edx, %edx
	movq	%r15, %rdi
.LBB29_287:
	movw	%si, 8(%rsp)
	movl	%r8d, 10(%rsp)
	shrq	$32, %r8
	movw	%r8w, 14(%rsp)
	movq	%rcx, 16(%rsp)
	movq	%rbp, 24(%rsp)
	movq	%rdi, 32(%rsp)
	movq	%rdx, 40(%rsp)
	jmp	.LBB29_134
.LBB29_288:
	movzwl	56(%rsp), %esi
	movl	58(%rsp), %eax
	movzwl	62(%rsp), %r8d
	shlq	$32, %r8
	orq	%rax, %r8
	movq	64(%rsp), %rcx
	movq	72(%rsp), %rbp
	movq	80(%rsp), %rdi
	movb	$1, %al
	movq	88(%rsp), %rdx
	jmp	.LBB29_287
.Lfunc_end29:
	.size	nla_wire.place.check_one.c4c48bc1b6cb0726, .Lfunc_end29-nla_wire.place.check_one.c4c48bc1b6cb0726
	.cfi_endproc
	.section	.rodata.nla_wire.place.check_one.c4c48bc1b6cb0726,"a",@progbits
	.p2align	2, 0x0
.LJTI29_0:
	.long	.LBB29_19-.LJTI29_0
	.long	.LBB29_19-.LJTI29_0
	.long	.LBB29_13-.LJTI29_0
	.long	.LBB29_2-.LJTI29_0
	.long	.LBB29_2-.LJTI29_0
	.long	.LBB29_13-.LJTI29_0
	.long	.LBB29_19-.LJTI29_0
	.long	.LBB29_216-.LJTI29_0
	.long	.LBB29_216-.LJTI29_0
	.long	.LBB29_2-.LJTI29_0
	.long	.LBB29_65-.LJTI29_0
	.long	.LBB29_101-.LJTI29_0
	.long	.LBB29_2-.LJTI29_0
	.long	.LBB29_16-.LJTI29_0
	.long	.LBB29_216-.LJTI29_0
	.long	.LBB29_14-.LJTI29_0
	.long	.LBB29_14-.LJTI29_0
	.long	.LBB29_79-.LJTI29_0
	.long	.LBB29_2-.LJTI29_0
	.long	.LBB29_13-.LJTI29_0
	.long	.LBB29_2-.LJTI29_0
	.long	.LBB29_69-.LJTI29_0
	.long	.LBB29_19-.LJTI29_0
	.long	.LBB29_55-.LJTI29_0
	.long	.LBB29_109-.LJTI29_0
	.long	.LBB29_18-.LJTI29_0
	.long	.LBB29_2-.LJTI29_0
	.long	.LBB29_2-.LJTI29_0
	.long	.LBB29_2-.LJTI29_0
	.long	.LBB29_2-.LJTI29_0
	.long	.LBB29_2-.LJTI29_0
	.long	.LBB29_2-.LJTI29_0
	.long	.LBB29_14-.LJTI29_0
	.long	.LBB29_19-.LJTI29_0
	.long	.LBB29_2-.LJTI29_0
	.long	.LBB29_19-.LJTI29_0
	.long	.LBB29_2-.LJTI29_0
	.long	.LBB29_13-.LJTI29_0
	.long	.LBB29_14-.LJTI29_0
	.long	.LBB29_2-.LJTI29_0
	.long	.LBB29_2-.LJTI29_0
	.long	.LBB29_216-.LJTI29_0
	.long	.LBB29_21-.LJTI29_0
	.long	.LBB29_2-.LJTI29_0
	.long	.LBB29_2-.LJTI29_0
	.long	.LBB29_2-.LJTI29_0
	.long	.LBB29_2-.LJTI29_0
	.long	.LBB29_2-.LJTI29_0
	.long	.LBB29_2-.LJTI29_0
	.long	.LBB29_2-.LJTI29_0
	.long	.LBB29_2-.LJTI29_0
	.long	.LBB29_117-.LJTI29_0
	.long	.LBB29_216-.LJTI29_0
	.long	.LBB29_19-.LJTI29_0
	.long	.LBB29_46-.LJTI29_0
	.long	.LBB29_13-.LJTI29_0
	.long	.LBB29_13-.LJTI29_0
	.long	.LBB29_2-.LJTI29_0
	.long	.LBB29_2-.LJTI29_0
	.long	.LBB29_2-.LJTI29_0
	.long	.LBB29_2-.LJTI29_0
	.long	.LBB29_32-.LJTI29_0
	.long	.LBB29_2-.LJTI29_0
	.long	.LBB29_2-.LJTI29_0
	.long	.LBB29_91-.LJTI29_0
	.long	.LBB29_216-.LJTI29_0
	.long	.LBB29_67-.LJTI29_0
.LJTI29_1:
	.long	.LBB29_232-.LJTI29_1
	.long	.LBB29_19-.LJTI29_1
	.long	.LBB29_225-.LJTI29_1
	.long	.LBB29_19-.LJTI29_1
	.long	.LBB29_19-.LJTI29_1
	.long	.LBB29_19-.LJTI29_1
.LJTI29_2:
	.long	.LBB29_30-.LJTI29_2
	.long	.LBB29_31-.LJTI29_2
	.long	.LBB29_30-.LJTI29_2
	.long	.LBB29_30-.LJTI29_2
	.long	.LBB29_30-.LJTI29_2
	.long	.LBB29_30-.LJTI29_2
	.long	.LBB29_30-.LJTI29_2
	.long	.LBB29_30-.LJTI29_2
.LJTI29_3:
	.long	.LBB29_12-.LJTI29_3
	.long	.LBB29_164-.LJTI29_3
	.long	.LBB29_156-.LJTI29_3
	.long	.LBB29_173-.LJTI29_3
	.long	.LBB29_176-.LJTI29_3
	.long	.LBB29_159-.LJTI29_3
	.long	.LBB29_165-.LJTI29_3
	.long	.LBB29_161-.LJTI29_3
	.long	.LBB29_161-.LJTI29_3
	.long	.LBB29_167-.LJTI29_3
	.long	.LBB29_180-.LJTI29_3
	.long	.LBB29_178-.LJTI29_3
	.long	.LBB29_149-.LJTI29_3
	.long	.LBB29_160-.LJTI29_3
	.long	.LBB29_161-.LJTI29_3
	.long	.LBB29_154-.LJTI29_3
	.long	.LBB29_146-.LJTI29_3
	.long	.LBB29_169-.LJTI29_3
	.long	.LBB29_170-.LJTI29_3
	.long	.LBB29_184-.LJTI29_3
	.long	.LBB29_181-.LJTI29_3
	.long	.LBB29_144-.LJTI29_3
	.long	.LBB29_155-.LJTI29_3
	.long	.LBB29_187-.LJTI29_3
	.long	.LBB29_145-.LJTI29_3
	.long	.LBB29_153-.LJTI29_3
	.long	.LBB29_148-.LJTI29_3
	.long	.LBB29_162-.LJTI29_3
	.long	.LBB29_147-.LJTI29_3
	.long	.LBB29_194-.LJTI29_3
	.long	.LBB29_192-.LJTI29_3
	.long	.LBB29_151-.LJTI29_3
	.long	.LBB29_157-.LJTI29_3
	.long	.LBB29_172-.LJTI29_3
	.long	.LBB29_158-.LJTI29_3
	.long	.LBB29_200-.LJTI29_3
	.long	.LBB29_150-.LJTI29_3
	.long	.LBB29_183-.LJTI29_3
	.long	.LBB29_198-.LJTI29_3
	.long	.LBB29_142-.LJTI29_3
	.long	.LBB29_177-.LJTI29_3
	.long	.LBB29_161-.LJTI29_3
	.long	.LBB29_141-.LJTI29_3
	.long	.LBB29_140-.LJTI29_3
	.long	.LBB29_152-.LJTI29_3
	.long	.LBB29_163-.LJTI29_3
	.long	.LBB29_186-.LJTI29_3
	.long	.LBB29_135-.LJTI29_3
	.long	.LBB29_143-.LJTI29_3
	.long	.LBB29_168-.LJTI29_3
	.long	.LBB29_175-.LJTI29_3
	.long	.LBB29_202-.LJTI29_3
	.long	.LBB29_161-.LJTI29_3
	.long	.LBB29_171-.LJTI29_3
	.long	.LBB29_139-.LJTI29_3
	.long	.LBB29_136-.LJTI29_3
	.long	.LBB29_206-.LJTI29_3
	.long	.LBB29_196-.LJTI29_3
	.long	.LBB29_138-.LJTI29_3
	.long	.LBB29_179-.LJTI29_3
	.long	.LBB29_185-.LJTI29_3
	.long	.LBB29_137-.LJTI29_3
	.long	.LBB29_190-.LJTI29_3
	.long	.LBB29_188-.LJTI29_3
	.long	.LBB29_208-.LJTI29_3
	.long	.LBB29_161-.LJTI29_3
	.long	.LBB29_204-.LJTI29_3
	.long	.LBB29_207-.LJTI29_3
	.long	.LBB29_189-.LJTI29_3

	.section	.text.nla_wire.text.check_string,"ax",@progbits
	.p2align	4
	.type	nla_wire.text.check_string,@function
nla_wire.text.check_string:
	.cfi_startproc
	pushq	%rbx
	.cfi_def_cfa_offset 16
	subq	$32, %rsp
	.cfi_def_cfa_offset 48
	.cfi_offset %rbx, -16
	movq	%rdi, %rbx
	testq	%rdx, %rdx
	je	.LBB30_3
	cmpb	$0, -1(%rsi,%rdx)
	je	.LBB30_2
.LBB30_3:
	testq	%rdx, %rdx
	je	.LBB30_11
.LBB30_4:
	cmpq	$3, %rdx
	ja	.LBB30_8
	cmpb	$0, (%rsi)
	js	.LBB30_15
	movq	%rdx, %rax
	shrq	%rax
	cmpb	$0, (%rsi,%rax)
	js	.LBB30_15
	cmpb	$0, -1(%rsi,%rdx)
	jns	.LBB30_11
	jmp	.LBB30_15
.LBB30_8:
	cmpq	$7, %rdx
	ja	.LBB30_12
	testl	$-2139062144, (%rsi)
	jne	.LBB30_15
	testl	$-2139062144, -4(%rsi,%rdx)
	jne	.LBB30_15
	jmp	.LBB30_11
.LBB30_2:
	decq	%rdx
	testq	%rdx, %rdx
	jne	.LBB30_4
	jmp	.LBB30_11
.LBB30_12:
	cmpq	$16, %rdx
	ja	.LBB30_18
	movabsq	$-9187201950435737472, %rax
	testq	%rax, (%rsi)
	jne	.LBB30_15
	testq	%rax, -8(%rsi,%rdx)
	jne	.LBB30_15
	jmp	.LBB30_11
.LBB30_18:
	cmpq	$31, %rdx
	ja	.LBB30_22
	movdqu	(%rsi), %xmm0
	pshufd	$238, %xmm0, %xmm1
	pmaxub	%xmm0, %xmm1
	pshufd	$85, %xmm1, %xmm0
	pmaxub	%xmm1, %xmm0
	movdqa	%xmm0, %xmm1
	psrld	$16, %xmm1
	pmaxub	%xmm0, %xmm1
	movdqa	%xmm1, %xmm0
	psrlw	$8, %xmm0
	pmaxub	%xmm1, %xmm0
	movd	%xmm0, %eax
	testb	%al, %al
	js	.LBB30_15
	movdqu	-16(%rsi,%rdx), %xmm0
	pshufd	$238, %xmm0, %xmm1
	pmaxub	%xmm0, %xmm1
	pshufd	$85, %xmm1, %xmm0
	pmaxub	%xmm1, %xmm0
	movdqa	%xmm0, %xmm1
	psrld	$16, %xmm1
	pmaxub	%xmm0, %xmm1
	movdqa	%xmm1, %xmm0
	psrlw	$8, %xmm0
	pmaxub	%xmm1, %xmm0
	movd	%xmm0, %eax
	jmp	.LBB30_21
.LBB30_22:
	movq	%rdx, %rax
	andq	$-32, %rax
	pxor	%xmm0, %xmm0
	xorl	%ecx, %ecx
	pxor	%xmm1, %xmm1
	.p2align	4
.LBB30_23:
	movdqu	(%rsi,%rcx), %xmm2
	pmaxub	%xmm2, %xmm0
	movdqu	16(%rsi,%rcx), %xmm2
	pmaxub	%xmm2, %xmm1
	addq	$32, %rcx
	cmpq	%rcx, %rax
	jne	.LBB30_23
	pmaxub	%xmm1, %xmm0
	pshufd	$238, %xmm0, %xmm1
	pmaxub	%xmm0, %xmm1
	pshufd	$85, %xmm1, %xmm0
	pmaxub	%xmm1, %xmm0
	movdqa	%xmm0, %xmm1
	psrld	$16, %xmm1
	pmaxub	%xmm0, %xmm1
	movdqa	%xmm1, %xmm0
	psrlw	$8, %xmm0
	pmaxub	%xmm1, %xmm0
	movd	%xmm0, %eax
	testb	%al, %al
	js	.LBB30_15
	movdqu	-32(%rsi,%rdx), %xmm0
	movdqu	-16(%rsi,%rdx), %xmm1
	pmaxub	%xmm0, %xmm1
	pshufd	$238, %xmm1, %xmm0
	pmaxub	%xmm1, %xmm0
	pshufd	$85, %xmm0, %xmm1
	pmaxub	%xmm0, %xmm1
	movdqa	%xmm1, %xmm0
	psrld	$16, %xmm0
	pmaxub	%xmm1, %xmm0
	movdqa	%xmm0, %xmm1
	psrlw	$8, %xmm1
	pmaxub	%xmm0, %xmm1
	movd	%xmm1, %eax
.LBB30_21:
	testb	%al, %al
	jns	.LBB30_11
.LBB30_15:
	movq	%rsi, %rdi
	movq	%rdx, %rsi
	callq	nla_wire.text.is_decoded
	testb	%al, %al
	je	.LBB30_16
.LBB30_11:
	pxor	%xmm0, %xmm0
	movdqa	%xmm0, (%rsp)
	movq	$0, 14(%rsp)
	xorl	%eax, %eax
	xorl	%esi, %esi
	xorl	%edx, %edx
	xorl	%ecx, %ecx
	jmp	.LBB30_17
.LBB30_16:
	pxor	%xmm0, %xmm0
	movdqa	%xmm0, (%rsp)
	movq	$0, 14(%rsp)
	movw	$6, %cx
	movl	$7, %edx
	leaq	.Lstatic.19(%rip), %rsi
	movb	$1, %al
.LBB30_17:
	movb	%al, (%rbx)
	movq	%rsi, 8(%rbx)
	movq	%rdx, 16(%rbx)
	movw	%cx, 24(%rbx)
	movaps	(%rsp), %xmm0
	movups	%xmm0, 26(%rbx)
	movq	14(%rsp), %rax
	movq	%rax, 40(%rbx)
	addq	$32, %rsp
	.cfi_def_cfa_offset 16
	popq	%rbx
	.cfi_def_cfa_offset 8
	retq
.Lfunc_end30:
	.size	nla_wire.text.check_string, .Lfunc_end30-nla_wire.text.check_string
	.cfi_endproc

	.section	.rodata.cst16,"aM",@progbits,16
	.p2align	4, 0x0
.LCPI31_0:
	.byte	255
	.byte	0
	.byte	255
	.byte	255
	.byte	0
	.byte	0
	.byte	0
	.byte	0
	.byte	0
	.byte	0
	.byte	0
	.byte	0
	.byte	0
	.byte	0
	.byte	0
	.byte	0
	.section	.text.nla_wire.place.check_one.49064c0641319ce4,"ax",@progbits
	.p2align	4
	.type	nla_wire.place.check_one.49064c0641319ce4,@function
nla_wire.place.check_one.49064c0641319ce4:
	.cfi_startproc
	pushq	%r14
	.cfi_def_cfa_offset 16
	pushq	%rbx
	.cfi_def_cfa_offset 24
	subq	$56, %rsp
	.cfi_def_cfa_offset 80
	.cfi_offset %rbx, -24
	.cfi_offset %r14, -16
	movq	%rdi, %rbx
	xorps	%xmm1, %xmm1
	movaps	%xmm1, 32(%rsp)
	movaps	%xmm1, 16(%rsp)
	movaps	%xmm1, (%rsp)
	movzwl	(%rsi), %eax
	andl	$16383, %eax
	cmpw	$1, %ax
	jne	.LBB31_1
	movq	%rsi, %r14
	movq	8(%rsi), %rsi
	movq	16(%r14), %rdx
	movq	%rsp, %rdi
	callq	nla_wire.text.check_string
	movzbl	(%rsp), %eax
	xorl	%ecx, %ecx
	testb	%al, %al
	je	.LBB31_3
	movq	8(%rsp), %r8
	movq	16(%rsp), %rdx
	movsd	24(%rsp), %xmm0
	movl	28(%rsp), %edi
	movaps	32(%rsp), %xmm1
	movzwl	(%r14), %r9d
	andl	$16383, %r9d
	cmpw	$1, %r9w
	leaq	.Lstatic.3(%rip), %r10
	leaq	.Lstatic.21(%rip), %rsi
	cmovneq	%r10, %rsi
	cmpq	$7, %rdx
	jne	.LBB31_5
	movl	$7, %edx
	cmpw	$1, %r9w
	jne	.LBB31_5
	movl	(%r8), %r9d
	movl	3(%r8), %r10d
	shlq	$32, %r10
	orq	%r9, %r10
	movabsq	$7233184988000772464, %r9
	cmpq	%r9, %r10
	jne	.LBB31_5
	andps	.LCPI31_0(%rip), %xmm0
	movl	$14, %edx
	jmp	.LBB31_9
.LBB31_1:
	xorps	%xmm0, %xmm0
	xorl	%eax, %eax
	xorl	%esi, %esi
	xorl	%edx, %edx
	xorl	%ecx, %ecx
	jmp	.LBB31_9
.LBB31_5:
	movq	%r8, %rsi
	movl	%edi, %ecx
	jmp	.LBB31_9
.LBB31_3:
	xorps	%xmm0, %xmm0
	xorl	%eax, %eax
	xorl	%esi, %esi
	xorl	%edx, %edx
	xorps	%xmm1, %xmm1
.LBB31_9:
	movb	%al, (%rbx)
	movq	%rsi, 8(%rbx)
	movq	%rdx, 16(%rbx)
	movss	%xmm0, 24(%rbx)
	movl	%ecx, 28(%rbx)
	movups	%xmm1, 32(%rbx)
	addq	$56, %rsp
	.cfi_def_cfa_offset 24
	popq	%rbx
	.cfi_def_cfa_offset 16
	popq	%r14
	.cfi_def_cfa_offset 8
	retq
.Lfunc_end31:
	.size	nla_wire.place.check_one.49064c0641319ce4, .Lfunc_end31-nla_wire.place.check_one.49064c0641319ce4
	.cfi_endproc

	.section	.text.nla_wire.place.check_one.3bb4c8661a1029f4,"ax",@progbits
	.p2align	4
	.type	nla_wire.place.check_one.3bb4c8661a1029f4,@function
nla_wire.place.check_one.3bb4c8661a1029f4:
	.cfi_startproc
	pushq	%rbp
	.cfi_def_cfa_offset 16
	pushq	%r15
	.cfi_def_cfa_offset 24
	pushq	%r14
	.cfi_def_cfa_offset 32
	pushq	%r13
	.cfi_def_cfa_offset 40
	pushq	%r12
	.cfi_def_cfa_offset 48
	pushq	%rbx
	.cfi_def_cfa_offset 56
	subq	$88, %rsp
	.cfi_def_cfa_offset 144
	.cfi_offset %rbx, -56
	.cfi_offset %r12, -48
	.cfi_offset %r13, -40
	.cfi_offset %r14, -32
	.cfi_offset %r15, -24
	.cfi_offset %rbp, -16
	movq	16(%rsi), %r13
	testq	%r13, %r13
	je	.LBB32_17
	movq	%rdi, (%rsp)
	movq	%rsi, 8(%rsp)
	movq	8(%rsi), %r14
	xorps	%xmm0, %xmm0
	movaps	%xmm0, 16(%rsp)
	movaps	%xmm0, 32(%rsp)
	movaps	%xmm0, 48(%rsp)
	xorl	%ebp, %ebp
	jmp	.LBB32_4
	.p2align	4
.LBB32_2:
	movw	%bx, 64(%rsp)
	leaq	66(%rsp), %rax
	movw	$0, 4(%rax)
	movl	$0, (%rax)
	movq	%r15, 72(%rsp)
	movq	%r12, 80(%rsp)
	leaq	16(%rsp), %rdi
	leaq	64(%rsp), %rsi
	callq	nla_wire.place.check_one.41ac5f0caeaa9df8
	cmpb	$0, 16(%rsp)
	jne	.LBB32_32
.LBB32_3:
	addl	$3, %ebp
	andl	$-4, %ebp
	cmpq	%rbp, %r13
	jbe	.LBB32_28
.LBB32_4:
	subq	%rbp, %r13
	cmpq	$4, %r13
	jb	.LBB32_18
	addq	%rbp, %r14
	movzwl	(%r14), %ebp
	cmpq	%rbp, %r13
	jb	.LBB32_19
	cmpw	$3, %bp
	jbe	.LBB32_20
	movzwl	2(%r14), %ebx
	movl	%ebx, %eax
	andl	$16383, %eax
	decl	%eax
	cmpl	$12, %eax
	ja	.LBB32_3
	leaq	4(%r14), %r15
	leaq	-4(%rbp), %r12
	leaq	.LJTI32_0(%rip), %rcx
	movslq	(%rcx,%rax,4), %rax
	addq	%rcx, %rax
	jmpq	*%rax
.LBB32_9:
	cmpw	$11, %bp
	ja	.LBB32_3
	jmp	.LBB32_2
.LBB32_10:
	cmpw	$15, %bp
	jbe	.LBB32_2
	jmp	.LBB32_3
.LBB32_11:
	cmpw	$19, %bp
	jbe	.LBB32_2
	jmp	.LBB32_3
.LBB32_12:
	movq	%r15, %rdi
	movq	%r12, %rsi
	callq	nla_wire.members.measure_each.9a0187163d44de3c
	jmp	.LBB32_16
.LBB32_13:
	cmpw	$35, %bp
	jbe	.LBB32_2
	jmp	.LBB32_3
.LBB32_14:
	cmpw	$39, %bp
	jbe	.LBB32_2
	jmp	.LBB32_3
.LBB32_15:
	movq	%r15, %rdi
	movq	%r12, %rsi
	callq	nla_wire.members.measure_each.5361511d0f913a98
.LBB32_16:
	cmpb	$1, %al
	sete	%al
	cmpq	$65532, %rdx
	setb	%cl
	testb	%cl, %al
	je	.LBB32_2
	jmp	.LBB32_3
.LBB32_17:
	leaq	.Lstatic.19(%rip), %rdx
	movl	$7, %ecx
	movl	$4, %ebp
	xorl	%eax, %eax
	xorl	%r13d, %r13d
	jmp	.LBB32_23
.LBB32_18:
	movl	$1, %ebp
	jmp	.LBB32_21
.LBB32_19:
	shll	$16, %ebp
	orq	$2, %rbp
	jmp	.LBB32_21
.LBB32_20:
	shll	$16, %ebp
	orq	$3, %rbp
	xorl	%r13d, %r13d
.LBB32_21:
	leaq	.Lstatic.19(%rip), %r8
	movq	%r8, %rdx
	shrq	$16, %rdx
	movl	$7, %ecx
	xorl	%eax, %eax
.LBB32_22:
	movq	(%rsp), %rdi
	movq	8(%rsp), %rsi
	movzwl	%r8w, %r8d
	shlq	$16, %rdx
	orq	%r8, %rdx
.LBB32_23:
	movl	%ebp, %r14d
	shrl	$16, %r14d
	movq	%rbp, %rbx
	shrq	$32, %rbx
	movzwl	(%rsi), %r10d
	andl	$16383, %r10d
	cmpw	$1, %r10w
	leaq	.Lstatic.3(%rip), %r8
	leaq	.Lstatic.44(%rip), %r9
	cmovneq	%r8, %r9
	movb	$1, %r8b
	cmpq	$7, %rcx
	jne	.LBB32_30
	movl	$7, %ecx
	cmpw	$1, %r10w
	jne	.LBB32_30
	movl	(%rdx), %r10d
	movl	3(%rdx), %r11d
	shlq	$32, %r11
	orq	%r10, %r11
	movabsq	$7233184988000772464, %r10
	cmpq	%r10, %r11
	jne	.LBB32_30
	movzbl	%bpl, %ebp
	xorl	%ebx, %ebx
	movl	$12, %ecx
	jmp	.LBB32_31
.LBB32_30:
	movq	%rdx, %r9
.LBB32_31:
	movb	%r8b, (%rdi)
	movq	%r9, 8(%rdi)
	movq	%rcx, 16(%rdi)
	movw	%bp, 24(%rdi)
	movw	%r14w, 26(%rdi)
	movl	%ebx, 28(%rdi)
	movq	%r13, 32(%rdi)
	movq	%rax, 40(%rdi)
	addq	$88, %rsp
	.cfi_def_cfa_offset 56
	popq	%rbx
	.cfi_def_cfa_offset 48
	popq	%r12
	.cfi_def_cfa_offset 40
	popq	%r13
	.cfi_def_cfa_offset 32
	popq	%r14
	.cfi_def_cfa_offset 24
	popq	%r15
	.cfi_def_cfa_offset 16
	popq	%rbp
	.cfi_def_cfa_offset 8
	retq
.LBB32_28:
	.cfi_def_cfa_offset 144
	xorl	%r8d, %r8d
	xorl	%r9d, %r9d
	xorl	%ecx, %ecx
	xorl	%ebp, %ebp
	xorl	%r14d, %r14d
	xorl	%ebx, %ebx
	xorl	%r13d, %r13d
	xorl	%eax, %eax
	movq	(%rsp), %rdi
	jmp	.LBB32_31
.LBB32_32:
	movzwl	24(%rsp), %r8d
	movl	26(%rsp), %eax
	movzwl	30(%rsp), %edx
	shlq	$32, %rdx
	orq	%rax, %rdx
	movq	32(%rsp), %rcx
	movq	40(%rsp), %rbp
	movq	48(%rsp), %r13
	movq	56(%rsp), %rax
	jmp	.LBB32_22
.Lfunc_end32:
	.size	nla_wire.place.check_one.3bb4c8661a1029f4, .Lfunc_end32-nla_wire.place.check_one.3bb4c8661a1029f4
	.cfi_endproc
	.section	.rodata.nla_wire.place.check_one.3bb4c8661a1029f4,"a",@progbits
	.p2align	2, 0x0
.LJTI32_0:
	.long	.LBB32_14-.LJTI32_0
	.long	.LBB32_10-.LJTI32_0
	.long	.LBB32_9-.LJTI32_0
	.long	.LBB32_9-.LJTI32_0
	.long	.LBB32_9-.LJTI32_0
	.long	.LBB32_10-.LJTI32_0
	.long	.LBB32_9-.LJTI32_0
	.long	.LBB32_15-.LJTI32_0
	.long	.LBB32_9-.LJTI32_0
	.long	.LBB32_11-.LJTI32_0
	.long	.LBB32_11-.LJTI32_0
	.long	.LBB32_12-.LJTI32_0
	.long	.LBB32_13-.LJTI32_0

	.section	.text.nla_wire.place.check_one.41ac5f0caeaa9df8,"ax",@progbits
	.p2align	4
	.type	nla_wire.place.check_one.41ac5f0caeaa9df8,@function
nla_wire.place.check_one.41ac5f0caeaa9df8:
	.cfi_startproc
	pushq	%r15
	.cfi_def_cfa_offset 16
	pushq	%r14
	.cfi_def_cfa_offset 24
	pushq	%r13
	.cfi_def_cfa_offset 32
	pushq	%r12
	.cfi_def_cfa_offset 40
	pushq	%rbx
	.cfi_def_cfa_offset 48
	subq	$48, %rsp
	.cfi_def_cfa_offset 96
	.cfi_offset %rbx, -48
	.cfi_offset %r12, -40
	.cfi_offset %r13, -32
	.cfi_offset %r14, -24
	.cfi_offset %r15, -16
	movzwl	(%rsi), %r15d
	andl	$16383, %r15d
	xorl	%r12d, %r12d
	leal	-1(%r15), %eax
	cmpl	$12, %eax
	ja	.LBB33_63
	movq	8(%rsi), %r12
	movq	16(%rsi), %rbx
	leaq	.LJTI33_0(%rip), %rcx
	movslq	(%rcx,%rax,4), %rax
	addq	%rcx, %rax
	jmpq	*%rax
.LBB33_2:
	xorl	%esi, %esi
	cmpq	$36, %rbx
	jae	.LBB33_62
	leaq	.Lstatic.19(%rip), %rax
	movl	$36, %ecx
	movl	$11, %r10d
	leaq	.Lstatic.31(%rip), %r9
	jmp	.LBB33_17
.LBB33_4:
	xorps	%xmm0, %xmm0
	movaps	%xmm0, 32(%rsp)
	movaps	%xmm0, 16(%rsp)
	movaps	%xmm0, (%rsp)
	testq	%rbx, %rbx
	je	.LBB33_35
	xorl	%r14d, %r14d
	jmp	.LBB33_7
	.p2align	4
.LBB33_6:
	addl	$3, %r14d
	andl	$-4, %r14d
	cmpq	%r14, %rbx
	jbe	.LBB33_35
.LBB33_7:
	subq	%r14, %rbx
	cmpq	$4, %rbx
	jb	.LBB33_55
	addq	%r14, %r12
	movzwl	(%r12), %r14d
	cmpq	%r14, %rbx
	jb	.LBB33_52
	cmpw	$3, %r14w
	jbe	.LBB33_53
	cmpw	$19, %r14w
	ja	.LBB33_6
	movzwl	2(%r12), %esi
	movl	%esi, %eax
	andl	$16383, %eax
	cmpw	$1, %ax
	jne	.LBB33_6
	leaq	-4(%r14), %rdx
	movq	%rsp, %rax
	movq	%rdi, %r13
	movq	%rax, %rdi
	callq	nla_wire.place.check_one.9a0187163d44de3c
	movq	%r13, %rdi
	cmpb	$0, (%rsp)
	je	.LBB33_6
	jmp	.LBB33_34
.LBB33_13:
	cmpq	$7, %rbx
	ja	.LBB33_62
	leaq	.Lstatic.19(%rip), %rax
	movl	$8, %ecx
	xorl	%r11d, %r11d
	movl	$18, %r10d
	leaq	.Lstatic.35(%rip), %r9
	jmp	.LBB33_47
.LBB33_15:
	xorl	%esi, %esi
	cmpq	$32, %rbx
	jae	.LBB33_62
	leaq	.Lstatic.19(%rip), %rax
	movl	$32, %ecx
	movl	$17, %r10d
	leaq	.Lstatic.43(%rip), %r9
.LBB33_17:
	xorl	%r11d, %r11d
	jmp	.LBB33_48
.LBB33_18:
	cmpq	$15, %rbx
	ja	.LBB33_62
	leaq	.Lstatic.19(%rip), %rax
	movl	$16, %ecx
	xorl	%r11d, %r11d
	movl	$20, %r10d
	leaq	.Lstatic.40(%rip), %r9
	jmp	.LBB33_47
.LBB33_20:
	cmpq	$7, %rbx
	ja	.LBB33_62
	leaq	.Lstatic.19(%rip), %rax
	movl	$8, %ecx
	xorl	%r11d, %r11d
	movl	$15, %r10d
	leaq	.Lstatic.33(%rip), %r9
	jmp	.LBB33_47
.LBB33_22:
	cmpq	$7, %rbx
	ja	.LBB33_62
	leaq	.Lstatic.19(%rip), %rax
	movl	$8, %ecx
	xorl	%r11d, %r11d
	movl	$16, %r10d
	leaq	.Lstatic.34(%rip), %r9
	jmp	.LBB33_47
.LBB33_24:
	xorps	%xmm0, %xmm0
	movaps	%xmm0, 32(%rsp)
	movaps	%xmm0, 16(%rsp)
	movaps	%xmm0, (%rsp)
	testq	%rbx, %rbx
	je	.LBB33_35
	xorl	%r14d, %r14d
	jmp	.LBB33_27
	.p2align	4
.LBB33_26:
	addl	$3, %r14d
	andl	$-4, %r14d
	cmpq	%r14, %rbx
	jbe	.LBB33_35
.LBB33_27:
	subq	%r14, %rbx
	cmpq	$4, %rbx
	jb	.LBB33_55
	addq	%r14, %r12
	movzwl	(%r12), %r14d
	cmpq	%r14, %rbx
	jb	.LBB33_52
	cmpw	$3, %r14w
	jbe	.LBB33_53
	movzwl	2(%r12), %esi
	movl	%esi, %eax
	andl	$16383, %eax
	cmpl	$6, %eax
	jb	.LBB33_32
	addl	$-7, %eax
	cmpl	$1, %eax
	ja	.LBB33_26
.LBB33_32:
	leaq	-4(%r14), %rdx
	cmpl	$8, %edx
	je	.LBB33_26
	movq	%rsp, %rax
	movq	%rdi, %r13
	movq	%rax, %rdi
	callq	nla_wire.place.check_one.5361511d0f913a98
	movq	%r13, %rdi
	cmpb	$0, (%rsp)
	je	.LBB33_26
.LBB33_34:
	movzwl	8(%rsp), %r8d
	movl	10(%rsp), %ecx
	movzwl	14(%rsp), %eax
	shlq	$32, %rax
	orq	%rcx, %rax
	movq	16(%rsp), %rdx
	movq	24(%rsp), %r14
	movq	32(%rsp), %rbx
	movq	40(%rsp), %rcx
	movb	$1, %sil
	jmp	.LBB33_58
.LBB33_35:
	xorl	%r8d, %r8d
	xorl	%esi, %esi
	xorl	%eax, %eax
	xorl	%edx, %edx
	xorl	%r14d, %r14d
	xorl	%ebx, %ebx
	jmp	.LBB33_57
.LBB33_36:
	xorl	%esi, %esi
	cmpq	$12, %rbx
	jae	.LBB33_62
	leaq	.Lstatic.19(%rip), %rax
	movl	$12, %r10d
	leaq	.Lstatic.32(%rip), %r9
	jmp	.LBB33_40
.LBB33_38:
	xorl	%esi, %esi
	cmpq	$12, %rbx
	jae	.LBB33_62
	leaq	.Lstatic.19(%rip), %rax
	movl	$12, %r10d
	leaq	.Lstatic.36(%rip), %r9
.LBB33_40:
	xorl	%r11d, %r11d
	xorl	%r8d, %r8d
	xorl	%r14d, %r14d
	movl	$12, %ecx
	jmp	.LBB33_49
.LBB33_41:
	cmpq	$7, %rbx
	ja	.LBB33_62
	leaq	.Lstatic.19(%rip), %rax
	movl	$8, %ecx
	xorl	%r11d, %r11d
	movl	$20, %r10d
	leaq	.Lstatic.37(%rip), %r9
	jmp	.LBB33_47
.LBB33_43:
	cmpq	$15, %rbx
	ja	.LBB33_62
	leaq	.Lstatic.19(%rip), %rax
	movl	$16, %ecx
	xorl	%r11d, %r11d
	movl	$20, %r10d
	leaq	.Lstatic.41(%rip), %r9
	jmp	.LBB33_47
.LBB33_45:
	cmpq	$7, %rbx
	ja	.LBB33_62
	leaq	.Lstatic.19(%rip), %rax
	movl	$8, %ecx
	xorl	%r11d, %r11d
	movl	$13, %r10d
	leaq	.Lstatic.39(%rip), %r9
.LBB33_47:
	xorl	%esi, %esi
.LBB33_48:
	xorl	%r8d, %r8d
	xorl	%r14d, %r14d
.LBB33_49:
	movl	$7, %edx
	movb	$1, %r12b
	testb	%r11b, %r11b
	jne	.LBB33_64
	movl	(%rax), %r11d
	movl	3(%rax), %r15d
	shlq	$32, %r15
	orq	%r11, %r15
	movabsq	$7233184988000772464, %r11
	cmpq	%r11, %r15
	jne	.LBB33_64
	movzbl	%r14b, %r14d
	movq	%r9, %rax
	movq	%r10, %rdx
	xorl	%esi, %esi
	jmp	.LBB33_64
.LBB33_55:
	movl	$1, %r14d
	jmp	.LBB33_56
.LBB33_52:
	shll	$16, %r14d
	orq	$2, %r14
	jmp	.LBB33_56
.LBB33_53:
	shll	$16, %r14d
	orq	$3, %r14
	xorl	%ebx, %ebx
.LBB33_56:
	leaq	.Lstatic.19(%rip), %r8
	movq	%r8, %rax
	shrq	$16, %rax
	movl	$7, %edx
	movb	$1, %sil
.LBB33_57:
	xorl	%ecx, %ecx
.LBB33_58:
	movzwl	%r8w, %r8d
	shlq	$16, %rax
	orq	%r8, %rax
	testb	%sil, %sil
	je	.LBB33_62
	movl	%r14d, %r8d
	shrl	$16, %r8d
	movq	%r14, %rsi
	shrq	$32, %rsi
	movzwl	%r15w, %r9d
	decl	%r9d
	cmpl	$12, %r9d
	ja	.LBB33_76
	leaq	.LJTI33_1(%rip), %r10
	movslq	(%r10,%r9,4), %r9
	addq	%r10, %r9
	jmpq	*%r9
.LBB33_61:
	leaq	.Lstatic.31(%rip), %r9
	movl	$11, %r10d
	jmp	.LBB33_82
.LBB33_62:
	xorl	%r12d, %r12d
.LBB33_63:
	xorl	%eax, %eax
	xorl	%edx, %edx
	xorl	%r14d, %r14d
	xorl	%r8d, %r8d
	xorl	%esi, %esi
	xorl	%ebx, %ebx
	xorl	%ecx, %ecx
.LBB33_64:
	movb	%r12b, (%rdi)
	movq	%rax, 8(%rdi)
	movq	%rdx, 16(%rdi)
	movw	%r14w, 24(%rdi)
	movw	%r8w, 26(%rdi)
	movl	%esi, 28(%rdi)
	movq	%rbx, 32(%rdi)
	movq	%rcx, 40(%rdi)
	addq	$48, %rsp
	.cfi_def_cfa_offset 48
	popq	%rbx
	.cfi_def_cfa_offset 40
	popq	%r12
	.cfi_def_cfa_offset 32
	popq	%r13
	.cfi_def_cfa_offset 24
	popq	%r14
	.cfi_def_cfa_offset 16
	popq	%r15
	.cfi_def_cfa_offset 8
	retq
.LBB33_65:
	.cfi_def_cfa_offset 96
	leaq	.Lstatic.42(%rip), %r9
	jmp	.LBB33_68
.LBB33_66:
	leaq	.Lstatic.35(%rip), %r9
	movl	$18, %r10d
	jmp	.LBB33_82
.LBB33_67:
	leaq	.Lstatic.43(%rip), %r9
.LBB33_68:
	movl	$17, %r10d
	jmp	.LBB33_82
.LBB33_69:
	leaq	.Lstatic.40(%rip), %r9
	jmp	.LBB33_79
.LBB33_70:
	leaq	.Lstatic.33(%rip), %r9
	movl	$15, %r10d
	jmp	.LBB33_82
.LBB33_71:
	leaq	.Lstatic.34(%rip), %r9
	movl	$16, %r10d
	jmp	.LBB33_82
.LBB33_72:
	leaq	.Lstatic.38(%rip), %r9
	jmp	.LBB33_81
.LBB33_73:
	leaq	.Lstatic.32(%rip), %r9
	jmp	.LBB33_75
.LBB33_74:
	leaq	.Lstatic.36(%rip), %r9
.LBB33_75:
	movl	$12, %r10d
	jmp	.LBB33_82
.LBB33_76:
	leaq	.Lstatic.3(%rip), %r9
	movb	$1, %r11b
	xorl	%r10d, %r10d
	jmp	.LBB33_83
.LBB33_77:
	leaq	.Lstatic.37(%rip), %r9
	jmp	.LBB33_79
.LBB33_78:
	leaq	.Lstatic.41(%rip), %r9
.LBB33_79:
	movl	$20, %r10d
	jmp	.LBB33_82
.LBB33_80:
	leaq	.Lstatic.39(%rip), %r9
.LBB33_81:
	movl	$13, %r10d
.LBB33_82:
	xorl	%r11d, %r11d
.LBB33_83:
	movb	$1, %r12b
	cmpq	$7, %rdx
	je	.LBB33_49
	jmp	.LBB33_64
.Lfunc_end33:
	.size	nla_wire.place.check_one.41ac5f0caeaa9df8, .Lfunc_end33-nla_wire.place.check_one.41ac5f0caeaa9df8
	.cfi_endproc
	.section	.rodata.nla_wire.place.check_one.41ac5f0caeaa9df8,"a",@progbits
	.p2align	2, 0x0
.LJTI33_0:
	.long	.LBB33_2-.LJTI33_0
	.long	.LBB33_36-.LJTI33_0
	.long	.LBB33_20-.LJTI33_0
	.long	.LBB33_22-.LJTI33_0
	.long	.LBB33_13-.LJTI33_0
	.long	.LBB33_38-.LJTI33_0
	.long	.LBB33_41-.LJTI33_0
	.long	.LBB33_24-.LJTI33_0
	.long	.LBB33_45-.LJTI33_0
	.long	.LBB33_18-.LJTI33_0
	.long	.LBB33_43-.LJTI33_0
	.long	.LBB33_4-.LJTI33_0
	.long	.LBB33_15-.LJTI33_0
.LJTI33_1:
	.long	.LBB33_61-.LJTI33_1
	.long	.LBB33_73-.LJTI33_1
	.long	.LBB33_70-.LJTI33_1
	.long	.LBB33_71-.LJTI33_1
	.long	.LBB33_66-.LJTI33_1
	.long	.LBB33_74-.LJTI33_1
	.long	.LBB33_77-.LJTI33_1
	.long	.LBB33_72-.LJTI33_1
	.long	.LBB33_80-.LJTI33_1
	.long	.LBB33_69-.LJTI33_1
	.long	.LBB33_78-.LJTI33_1
	.long	.LBB33_65-.LJTI33_1
	.long	.LBB33_67-.LJTI33_1

	.section	.text.nla_wire.place.check_one.5361511d0f913a98,"ax",@progbits
	.p2align	4
	.type	nla_wire.place.check_one.5361511d0f913a98,@function
nla_wire.place.check_one.5361511d0f913a98:
	.cfi_startproc
	andl	$16383, %esi
	xorl	%r8d, %r8d
	xorl	%r9d, %r9d
	xorl	%ecx, %ecx
	xorl	%eax, %eax
	cmpw	$8, %si
	ja	.LBB34_1
	leaq	.LJTI34_0(%rip), %r10
	movslq	(%r10,%rsi,4), %r11
	addq	%r10, %r11
	xorl	%esi, %esi
	xorl	%r10d, %r10d
	jmpq	*%r11
.LBB34_3:
	cmpq	$8, %rdx
	je	.LBB34_22
	leaq	.Lstatic.22(%rip), %rcx
	jmp	.LBB34_19
.LBB34_13:
	cmpq	$8, %rdx
	je	.LBB34_22
	leaq	.Lstatic.27(%rip), %rcx
	movl	$23, %r8d
	jmp	.LBB34_20
.LBB34_5:
	cmpq	$8, %rdx
	je	.LBB34_22
	leaq	.Lstatic.23(%rip), %rcx
	jmp	.LBB34_19
.LBB34_15:
	cmpq	$8, %rdx
	je	.LBB34_22
	leaq	.Lstatic.28(%rip), %rcx
	jmp	.LBB34_19
.LBB34_17:
	cmpq	$8, %rdx
	je	.LBB34_22
	leaq	.Lstatic.29(%rip), %rcx
.LBB34_19:
	movl	$24, %r8d
.LBB34_20:
	movl	$8, %r10d
	movw	$5, %r9w
	movb	$1, %al
	movq	%rdx, %rsi
	jmp	.LBB34_21
.LBB34_7:
	cmpq	$8, %rdx
	je	.LBB34_22
	leaq	.Lstatic.24(%rip), %rcx
	movl	$22, %r8d
	jmp	.LBB34_20
.LBB34_9:
	cmpq	$8, %rdx
	je	.LBB34_22
	leaq	.Lstatic.25(%rip), %rcx
	movl	$22, %r8d
	jmp	.LBB34_20
.LBB34_11:
	cmpq	$8, %rdx
	jne	.LBB34_12
.LBB34_22:
	xorl	%eax, %eax
	xorl	%ecx, %ecx
	xorl	%r8d, %r8d
	xorl	%r9d, %r9d
.LBB34_1:
	xorl	%esi, %esi
	xorl	%r10d, %r10d
.LBB34_21:
	movb	%al, (%rdi)
	movq	%rcx, 8(%rdi)
	movq	%r8, 16(%rdi)
	movw	%r9w, 24(%rdi)
	movw	$0, 26(%rdi)
	movl	$0, 28(%rdi)
	movq	%rsi, 32(%rdi)
	movq	%r10, 40(%rdi)
	retq
.LBB34_12:
	leaq	.Lstatic.26(%rip), %rcx
	movl	$23, %r8d
	jmp	.LBB34_20
.Lfunc_end34:
	.size	nla_wire.place.check_one.5361511d0f913a98, .Lfunc_end34-nla_wire.place.check_one.5361511d0f913a98
	.cfi_endproc
	.section	.rodata.nla_wire.place.check_one.5361511d0f913a98,"a",@progbits
	.p2align	2, 0x0
.LJTI34_0:
	.long	.LBB34_3-.LJTI34_0
	.long	.LBB34_5-.LJTI34_0
	.long	.LBB34_7-.LJTI34_0
	.long	.LBB34_9-.LJTI34_0
	.long	.LBB34_11-.LJTI34_0
	.long	.LBB34_13-.LJTI34_0
	.long	.LBB34_21-.LJTI34_0
	.long	.LBB34_15-.LJTI34_0
	.long	.LBB34_17-.LJTI34_0

	.section	.text.nla_wire.place.check_one.9a0187163d44de3c,"ax",@progbits
	.p2align	4
	.type	nla_wire.place.check_one.9a0187163d44de3c,@function
nla_wire.place.check_one.9a0187163d44de3c:
	.cfi_startproc
	andl	$16383, %esi
	cmpw	$1, %si
	jne	.LBB35_1
	xorl	%ecx, %ecx
	xorl	%eax, %eax
	cmpq	$16, %rdx
	leaq	.Lstatic.30(%rip), %rsi
	cmovaeq	%rcx, %rsi
	setb	%al
	movl	$17, %r8d
	cmovaeq	%rcx, %r8
	cmovbq	%rdx, %rcx
	movl	%eax, %edx
	shll	$4, %edx
	jmp	.LBB35_3
.LBB35_1:
	xorl	%eax, %eax
	xorl	%esi, %esi
	xorl	%r8d, %r8d
	xorl	%ecx, %ecx
	xorl	%edx, %edx
.LBB35_3:
	movb	%al, (%rdi)
	movq	%rsi, 8(%rdi)
	movq	%r8, 16(%rdi)
	movq	$0, 24(%rdi)
	movq	%rcx, 32(%rdi)
	movq	%rdx, 40(%rdi)
	retq
.Lfunc_end35:
	.size	nla_wire.place.check_one.9a0187163d44de3c, .Lfunc_end35-nla_wire.place.check_one.9a0187163d44de3c
	.cfi_endproc

	.section	.text.nla_wire.place.check_one.79503c7a397af21a,"ax",@progbits
	.p2align	4
	.type	nla_wire.place.check_one.79503c7a397af21a,@function
nla_wire.place.check_one.79503c7a397af21a:
	.cfi_startproc
	movq	16(%rsi), %rcx
	leaq	.Lstatic.19(%rip), %rax
	testq	%rcx, %rcx
	je	.LBB36_1
	movq	8(%rsi), %r8
	xorl	%edx, %edx
	.p2align	4
.LBB36_7:
	subq	%rdx, %rcx
	cmpq	$4, %rcx
	jb	.LBB36_8
	addq	%rdx, %r8
	movzwl	(%r8), %edx
	cmpq	%rdx, %rcx
	jb	.LBB36_10
	cmpw	$3, %dx
	jbe	.LBB36_12
	addl	$3, %edx
	andl	$-4, %edx
	cmpq	%rdx, %rcx
	ja	.LBB36_7
	xorl	%esi, %esi
	xorl	%eax, %eax
	xorl	%r9d, %r9d
	xorl	%edx, %edx
	xorl	%r8d, %r8d
	xorl	%ecx, %ecx
	jmp	.LBB36_15
.LBB36_1:
	movl	$4, %edx
	jmp	.LBB36_2
.LBB36_8:
	movl	$1, %edx
	jmp	.LBB36_3
.LBB36_10:
	shll	$16, %edx
	orq	$2, %rdx
	jmp	.LBB36_3
.LBB36_12:
	shll	$16, %edx
	orq	$3, %rdx
.LBB36_2:
	xorl	%ecx, %ecx
.LBB36_3:
	movl	%edx, %r8d
	shrl	$16, %r8d
	movzwl	(%rsi), %r10d
	andl	$16383, %r10d
	movl	$7, %r9d
	movb	$1, %sil
	cmpw	$1, %r10w
	jne	.LBB36_15
	movl	(%rax), %r10d
	movl	3(%rax), %r11d
	shlq	$32, %r11
	orq	%r10, %r11
	movabsq	$7233184988000772464, %r10
	cmpq	%r10, %r11
	jne	.LBB36_15
	movzbl	%dl, %edx
	movl	$12, %r9d
	leaq	.Lstatic.45(%rip), %rax
.LBB36_15:
	movb	%sil, (%rdi)
	movq	%rax, 8(%rdi)
	movq	%r9, 16(%rdi)
	movw	%dx, 24(%rdi)
	movw	%r8w, 26(%rdi)
	movl	$0, 28(%rdi)
	movq	%rcx, 32(%rdi)
	movq	$0, 40(%rdi)
	retq
.Lfunc_end36:
	.size	nla_wire.place.check_one.79503c7a397af21a, .Lfunc_end36-nla_wire.place.check_one.79503c7a397af21a
	.cfi_endproc

	.section	.text.nla_wire.place.check_one.8ba1f663fcd59a5e,"ax",@progbits
	.p2align	4
	.type	nla_wire.place.check_one.8ba1f663fcd59a5e,@function
nla_wire.place.check_one.8ba1f663fcd59a5e:
	.cfi_startproc
	andl	$16383, %esi
	decl	%esi
	cmpl	$7, %esi
	ja	.LBB37_1
	leaq	.LJTI37_0(%rip), %rax
	movslq	(%rax,%rsi,4), %rcx
	addq	%rax, %rcx
	jmpq	*%rcx
.LBB37_3:
	cmpq	$4, %rdx
	je	.LBB37_1
	leaq	.Lstatic.46(%rip), %rax
	movl	$11, %esi
	jmp	.LBB37_5
.LBB37_14:
	cmpq	$4, %rdx
	je	.LBB37_1
	leaq	.Lstatic.50(%rip), %rax
	movl	$20, %esi
	jmp	.LBB37_5
.LBB37_10:
	cmpq	$4, %rdx
	je	.LBB37_1
	leaq	.Lstatic.48(%rip), %rax
	movl	$14, %esi
	jmp	.LBB37_5
.LBB37_12:
	cmpq	$4, %rdx
	je	.LBB37_1
	leaq	.Lstatic.49(%rip), %rax
	movl	$16, %esi
	jmp	.LBB37_5
.LBB37_21:
	cmpq	$4, %rdx
	je	.LBB37_1
	leaq	.Lstatic.53(%rip), %rax
	movl	$20, %esi
	jmp	.LBB37_5
.LBB37_8:
	cmpq	$1, %rdx
	je	.LBB37_1
	leaq	.Lstatic.47(%rip), %rax
	movl	$17, %esi
	movl	$1, %r8d
	jmp	.LBB37_6
.LBB37_17:
	cmpq	$4, %rdx
	je	.LBB37_1
	leaq	.Lstatic.51(%rip), %rax
	movl	$20, %esi
	jmp	.LBB37_5
.LBB37_19:
	cmpq	$4, %rdx
	jne	.LBB37_20
.LBB37_1:
	xorl	%ecx, %ecx
	xorl	%eax, %eax
	xorl	%esi, %esi
	xorl	%r9d, %r9d
	xorl	%edx, %edx
	xorl	%r8d, %r8d
	jmp	.LBB37_7
.LBB37_20:
	leaq	.Lstatic.52(%rip), %rax
	movl	$19, %esi
.LBB37_5:
	movl	$4, %r8d
.LBB37_6:
	movw	$5, %r9w
	movb	$1, %cl
.LBB37_7:
	movb	%cl, (%rdi)
	movq	%rax, 8(%rdi)
	movq	%rsi, 16(%rdi)
	movw	%r9w, 24(%rdi)
	movw	$0, 26(%rdi)
	movl	$0, 28(%rdi)
	movq	%rdx, 32(%rdi)
	movq	%r8, 40(%rdi)
	retq
.Lfunc_end37:
	.size	nla_wire.place.check_one.8ba1f663fcd59a5e, .Lfunc_end37-nla_wire.place.check_one.8ba1f663fcd59a5e
	.cfi_endproc
	.section	.rodata.nla_wire.place.check_one.8ba1f663fcd59a5e,"a",@progbits
	.p2align	2, 0x0
.LJTI37_0:
	.long	.LBB37_3-.LJTI37_0
	.long	.LBB37_8-.LJTI37_0
	.long	.LBB37_10-.LJTI37_0
	.long	.LBB37_12-.LJTI37_0
	.long	.LBB37_14-.LJTI37_0
	.long	.LBB37_17-.LJTI37_0
	.long	.LBB37_19-.LJTI37_0
	.long	.LBB37_21-.LJTI37_0

	.section	.rodata.cst16,"aM",@progbits,16
	.p2align	4, 0x0
.LCPI38_0:
	.byte	255
	.byte	0
	.byte	255
	.byte	255
	.byte	0
	.byte	0
	.byte	0
	.byte	0
	.byte	0
	.byte	0
	.byte	0
	.byte	0
	.byte	0
	.byte	0
	.byte	0
	.byte	0
	.section	.text.nla_wire.place.check_one.b30b196c481b950e,"ax",@progbits
	.p2align	4
	.type	nla_wire.place.check_one.b30b196c481b950e,@function
nla_wire.place.check_one.b30b196c481b950e:
	.cfi_startproc
	pushq	%r14
	.cfi_def_cfa_offset 16
	pushq	%rbx
	.cfi_def_cfa_offset 24
	subq	$56, %rsp
	.cfi_def_cfa_offset 80
	.cfi_offset %rbx, -24
	.cfi_offset %r14, -16
	movq	%rdi, %rbx
	xorps	%xmm1, %xmm1
	movaps	%xmm1, 32(%rsp)
	movaps	%xmm1, 16(%rsp)
	movaps	%xmm1, (%rsp)
	movzwl	(%rsi), %eax
	andl	$16383, %eax
	cmpw	$53, %ax
	jne	.LBB38_1
	movq	%rsi, %r14
	movq	8(%rsi), %rsi
	movq	16(%r14), %rdx
	movq	%rsp, %rdi
	callq	nla_wire.text.check_string
	movzbl	(%rsp), %eax
	xorl	%ecx, %ecx
	testb	%al, %al
	je	.LBB38_3
	movq	8(%rsp), %r8
	movq	16(%rsp), %rdx
	movsd	24(%rsp), %xmm0
	movl	28(%rsp), %edi
	movaps	32(%rsp), %xmm1
	movzwl	(%r14), %r9d
	andl	$16383, %r9d
	cmpw	$53, %r9w
	leaq	.Lstatic.3(%rip), %r10
	leaq	.Lstatic.54(%rip), %rsi
	cmovneq	%r10, %rsi
	cmpq	$7, %rdx
	jne	.LBB38_5
	movl	$7, %edx
	cmpw	$53, %r9w
	jne	.LBB38_5
	movl	(%r8), %r9d
	movl	3(%r8), %r10d
	shlq	$32, %r10
	orq	%r9, %r10
	movabsq	$7233184988000772464, %r9
	cmpq	%r9, %r10
	jne	.LBB38_5
	andps	.LCPI38_0(%rip), %xmm0
	movl	$15, %edx
	jmp	.LBB38_9
.LBB38_1:
	xorps	%xmm0, %xmm0
	xorl	%eax, %eax
	xorl	%esi, %esi
	xorl	%edx, %edx
	xorl	%ecx, %ecx
	jmp	.LBB38_9
.LBB38_5:
	movq	%r8, %rsi
	movl	%edi, %ecx
	jmp	.LBB38_9
.LBB38_3:
	xorps	%xmm0, %xmm0
	xorl	%eax, %eax
	xorl	%esi, %esi
	xorl	%edx, %edx
	xorps	%xmm1, %xmm1
.LBB38_9:
	movb	%al, (%rbx)
	movq	%rsi, 8(%rbx)
	movq	%rdx, 16(%rbx)
	movss	%xmm0, 24(%rbx)
	movl	%ecx, 28(%rbx)
	movups	%xmm1, 32(%rbx)
	addq	$56, %rsp
	.cfi_def_cfa_offset 24
	popq	%rbx
	.cfi_def_cfa_offset 16
	popq	%r14
	.cfi_def_cfa_offset 8
	retq
.Lfunc_end38:
	.size	nla_wire.place.check_one.b30b196c481b950e, .Lfunc_end38-nla_wire.place.check_one.b30b196c481b950e
	.cfi_endproc

	.section	.text.nla_wire.place.check_one.f7f30aae703aa44d,"ax",@progbits
	.p2align	4
	.type	nla_wire.place.check_one.f7f30aae703aa44d,@function
nla_wire.place.check_one.f7f30aae703aa44d:
	.cfi_startproc
	andl	$16383, %esi
	cmpw	$2, %si
	je	.LBB39_3
	cmpl	$1, %esi
	jne	.LBB39_2
.LBB39_3:
	cmpq	$4, %rdx
	jne	.LBB39_4
.LBB39_2:
	xorl	%eax, %eax
	xorl	%esi, %esi
	xorl	%ecx, %ecx
	xorl	%r8d, %r8d
	xorl	%edx, %edx
	xorl	%r9d, %r9d
	jmp	.LBB39_5
.LBB39_4:
	xorl	%ecx, %ecx
	cmpw	$1, %si
	leaq	.Lstatic.55(%rip), %rax
	leaq	.Lstatic.56(%rip), %rsi
	cmoveq	%rax, %rsi
	setne	%cl
	addq	$27, %rcx
	movl	$4, %r9d
	movw	$5, %r8w
	movb	$1, %al
.LBB39_5:
	movb	%al, (%rdi)
	movq	%rsi, 8(%rdi)
	movq	%rcx, 16(%rdi)
	movw	%r8w, 24(%rdi)
	movw	$0, 26(%rdi)
	movl	$0, 28(%rdi)
	movq	%rdx, 32(%rdi)
	movq	%r9, 40(%rdi)
	retq
.Lfunc_end39:
	.size	nla_wire.place.check_one.f7f30aae703aa44d, .Lfunc_end39-nla_wire.place.check_one.f7f30aae703aa44d
	.cfi_endproc

	.section	.rodata.cst16,"aM",@progbits,16
	.p2align	4, 0x0
.LCPI40_0:
	.byte	255
	.byte	0
	.byte	255
	.byte	255
	.byte	0
	.byte	0
	.byte	0
	.byte	0
	.byte	0
	.byte	0
	.byte	0
	.byte	0
	.byte	0
	.byte	0
	.byte	0
	.byte	0
	.section	.text.nla_wire.place.check_one.16a873d75d6df2a1,"ax",@progbits
	.p2align	4
	.type	nla_wire.place.check_one.16a873d75d6df2a1,@function
nla_wire.place.check_one.16a873d75d6df2a1:
	.cfi_startproc
	pushq	%r14
	.cfi_def_cfa_offset 16
	pushq	%rbx
	.cfi_def_cfa_offset 24
	subq	$56, %rsp
	.cfi_def_cfa_offset 80
	.cfi_offset %rbx, -24
	.cfi_offset %r14, -16
	movq	%rsi, %r14
	movq	%rdi, %rbx
	xorps	%xmm0, %xmm0
	movaps	%xmm0, 32(%rsp)
	movaps	%xmm0, 16(%rsp)
	movaps	%xmm0, (%rsp)
	movq	16(%rsi), %rdx
	movzwl	(%rsi), %eax
	andl	$16383, %eax
	cmpl	$3, %eax
	je	.LBB40_4
	movq	8(%r14), %rsi
	cmpl	$2, %eax
	je	.LBB40_3
	cmpl	$1, %eax
	jne	.LBB40_8
.LBB40_3:
	movq	%rsp, %rdi
	callq	nla_wire.text.check_string
.LBB40_8:
	movzbl	(%rsp), %eax
	testb	%al, %al
	je	.LBB40_9
.LBB40_10:
	movq	16(%rsp), %rsi
	movzwl	(%r14), %edx
	andl	$16383, %edx
	movl	$21, %ecx
	cmpl	$1, %edx
	je	.LBB40_11
	cmpl	$3, %edx
	je	.LBB40_15
	cmpl	$2, %edx
	jne	.LBB40_16
	leaq	.Lstatic.58(%rip), %rdx
	xorl	%r8d, %r8d
	jmp	.LBB40_17
.LBB40_4:
	cmpq	$4, %rdx
	jne	.LBB40_5
	xorl	%eax, %eax
	xorl	%edi, %edi
	xorl	%esi, %esi
	xorl	%edx, %edx
	xorl	%ecx, %ecx
	xorl	%r8d, %r8d
	jmp	.LBB40_7
.LBB40_15:
	leaq	.Lstatic.59(%rip), %rdx
	movl	$23, %ecx
	xorl	%r8d, %r8d
	jmp	.LBB40_17
.LBB40_11:
	leaq	.Lstatic.57(%rip), %rdx
	xorl	%r8d, %r8d
	jmp	.LBB40_17
.LBB40_16:
	leaq	.Lstatic.3(%rip), %rdx
	movb	$1, %r8b
	xorl	%ecx, %ecx
.LBB40_17:
	movq	8(%rsp), %r9
	movsd	24(%rsp), %xmm1
	movl	28(%rsp), %edi
	movaps	32(%rsp), %xmm0
	cmpq	$7, %rsi
	jne	.LBB40_18
	movl	(%r9), %esi
	movl	3(%r9), %r10d
	shlq	$32, %r10
	orq	%rsi, %r10
	movabsq	$7233184988000772464, %rsi
	cmpq	%rsi, %r10
	setne	%sil
	orb	%sil, %r8b
	je	.LBB40_21
	movq	%r9, %rdx
	movl	$7, %ecx
	jmp	.LBB40_23
.LBB40_18:
	movq	%r9, %rdx
	movq	%rsi, %rcx
	jmp	.LBB40_23
.LBB40_21:
	andps	.LCPI40_0(%rip), %xmm1
	jmp	.LBB40_22
.LBB40_5:
	movb	$1, %r8b
	movl	$4, %ecx
	movw	$5, %si
	movl	$7, %edi
	leaq	.Lstatic.19(%rip), %rax
.LBB40_7:
	movb	%r8b, (%rsp)
	movq	%rax, 8(%rsp)
	movq	%rdi, 16(%rsp)
	movw	%si, 24(%rsp)
	movl	$0, 28(%rsp)
	movq	%rdx, 32(%rsp)
	movq	%rcx, 40(%rsp)
	movzbl	(%rsp), %eax
	testb	%al, %al
	jne	.LBB40_10
.LBB40_9:
	xorps	%xmm0, %xmm0
	xorps	%xmm1, %xmm1
	xorl	%edx, %edx
	xorl	%ecx, %ecx
.LBB40_22:
	xorl	%edi, %edi
.LBB40_23:
	movb	%al, (%rbx)
	movq	%rdx, 8(%rbx)
	movq	%rcx, 16(%rbx)
	movss	%xmm1, 24(%rbx)
	movl	%edi, 28(%rbx)
	movups	%xmm0, 32(%rbx)
	addq	$56, %rsp
	.cfi_def_cfa_offset 24
	popq	%rbx
	.cfi_def_cfa_offset 16
	popq	%r14
	.cfi_def_cfa_offset 8
	retq
.Lfunc_end40:
	.size	nla_wire.place.check_one.16a873d75d6df2a1, .Lfunc_end40-nla_wire.place.check_one.16a873d75d6df2a1
	.cfi_endproc

	.section	.text.nla_wire.place.check_one.5fa77b269143286c,"ax",@progbits
	.p2align	4
	.type	nla_wire.place.check_one.5fa77b269143286c,@function
nla_wire.place.check_one.5fa77b269143286c:
	.cfi_startproc
	andl	$16383, %esi
	cmpw	$1, %si
	jne	.LBB41_1
	xorl	%ecx, %ecx
	xorl	%eax, %eax
	cmpq	$4, %rdx
	setne	%al
	leaq	.Lstatic.60(%rip), %rsi
	cmoveq	%rcx, %rsi
	movl	$13, %r8d
	cmoveq	%rcx, %r8
	leal	(%rax,%rax,4), %r9d
	cmovneq	%rdx, %rcx
	movl	%eax, %edx
	shll	$2, %edx
	jmp	.LBB41_3
.LBB41_1:
	xorl	%eax, %eax
	xorl	%esi, %esi
	xorl	%r8d, %r8d
	xorl	%r9d, %r9d
	xorl	%ecx, %ecx
	xorl	%edx, %edx
.LBB41_3:
	movb	%al, (%rdi)
	movq	%rsi, 8(%rdi)
	movq	%r8, 16(%rdi)
	movw	%r9w, 24(%rdi)
	movw	$0, 26(%rdi)
	movl	$0, 28(%rdi)
	movq	%rcx, 32(%rdi)
	movq	%rdx, 40(%rdi)
	retq
.Lfunc_end41:
	.size	nla_wire.place.check_one.5fa77b269143286c, .Lfunc_end41-nla_wire.place.check_one.5fa77b269143286c
	.cfi_endproc

	.section	.text.nla_wire.place.check_one.6cf1decf0b22dc4b,"ax",@progbits
	.p2align	4
	.type	nla_wire.place.check_one.6cf1decf0b22dc4b,@function
nla_wire.place.check_one.6cf1decf0b22dc4b:
	.cfi_startproc
	pushq	%rbp
	.cfi_def_cfa_offset 16
	pushq	%r15
	.cfi_def_cfa_offset 24
	pushq	%r14
	.cfi_def_cfa_offset 32
	pushq	%r12
	.cfi_def_cfa_offset 40
	pushq	%rbx
	.cfi_def_cfa_offset 48
	subq	$48, %rsp
	.cfi_def_cfa_offset 96
	.cfi_offset %rbx, -48
	.cfi_offset %r12, -40
	.cfi_offset %r14, -32
	.cfi_offset %r15, -24
	.cfi_offset %rbp, -16
	movq	%rdi, %rbx
	movq	8(%rsi), %r12
	movq	16(%rsi), %r15
	movzwl	(%rsi), %ebp
	andl	$16383, %ebp
	xorl	%r9d, %r9d
	cmpl	$45, %ebp
	je	.LBB42_22
	cmpl	$10, %ebp
	je	.LBB42_9
	cmpl	$2, %ebp
	jne	.LBB42_55
	testq	%r15, %r15
	je	.LBB42_35
	xorl	%r14d, %r14d
	.p2align	4
.LBB42_5:
	subq	%r14, %r15
	cmpq	$4, %r15
	jb	.LBB42_40
	addq	%r14, %r12
	movzwl	(%r12), %r14d
	cmpq	%r14, %r15
	jb	.LBB42_41
	cmpw	$3, %r14w
	jbe	.LBB42_42
	addl	$3, %r14d
	andl	$-4, %r14d
	cmpq	%r14, %r15
	ja	.LBB42_5
	jmp	.LBB42_54
.LBB42_9:
	testq	%r15, %r15
	je	.LBB42_33
	xorps	%xmm0, %xmm0
	movaps	%xmm0, 32(%rsp)
	movaps	%xmm0, 16(%rsp)
	movaps	%xmm0, (%rsp)
	xorl	%r14d, %r14d
	jmp	.LBB42_13
	.p2align	4
.LBB42_11:
	movq	%rsp, %rdi
	callq	nla_wire.place.check_one.97809315b2b26985
	cmpb	$0, (%rsp)
	jne	.LBB42_63
.LBB42_12:
	addl	$3, %r14d
	andl	$-4, %r14d
	cmpq	%r14, %r15
	jbe	.LBB42_39
.LBB42_13:
	subq	%r14, %r15
	cmpq	$4, %r15
	jb	.LBB42_45
	addq	%r14, %r12
	movzwl	(%r12), %r14d
	cmpq	%r14, %r15
	jb	.LBB42_37
	cmpw	$3, %r14w
	jbe	.LBB42_38
	movzwl	2(%r12), %esi
	movl	%esi, %eax
	andl	$16383, %eax
	decl	%eax
	cmpl	$8, %eax
	ja	.LBB42_12
	leaq	-4(%r14), %rdx
	leaq	.LJTI42_0(%rip), %rcx
	movslq	(%rcx,%rax,4), %rax
	addq	%rcx, %rax
	jmpq	*%rax
.LBB42_18:
	cmpl	$4, %edx
	je	.LBB42_12
	jmp	.LBB42_11
.LBB42_19:
	cmpw	$19, %r14w
	jbe	.LBB42_11
	jmp	.LBB42_12
.LBB42_20:
	cmpl	$16, %edx
	jne	.LBB42_11
	jmp	.LBB42_12
.LBB42_21:
	cmpl	$1, %edx
	jne	.LBB42_11
	jmp	.LBB42_12
.LBB42_22:
	testq	%r15, %r15
	je	.LBB42_34
	xorps	%xmm0, %xmm0
	movaps	%xmm0, 32(%rsp)
	movaps	%xmm0, 16(%rsp)
	movaps	%xmm0, (%rsp)
	xorl	%r14d, %r14d
	jmp	.LBB42_26
	.p2align	4
.LBB42_24:
	movq	%rsp, %rdi
	callq	nla_wire.place.check_one.7562298f77a88fdb
	cmpb	$0, (%rsp)
	jne	.LBB42_63
.LBB42_25:
	addl	$3, %r14d
	andl	$-4, %r14d
	cmpq	%r14, %r15
	jbe	.LBB42_39
.LBB42_26:
	subq	%r14, %r15
	cmpq	$4, %r15
	jb	.LBB42_45
	addq	%r14, %r12
	movzwl	(%r12), %r14d
	cmpq	%r14, %r15
	jb	.LBB42_37
	cmpw	$3, %r14w
	jbe	.LBB42_38
	movzwl	2(%r12), %esi
	leaq	-4(%r14), %rdx
	movl	%esi, %eax
	andl	$16383, %eax
	cmpl	$1, %eax
	je	.LBB42_32
	cmpl	$2, %eax
	jne	.LBB42_25
	cmpl	$1, %edx
	jne	.LBB42_24
	jmp	.LBB42_25
	.p2align	4
.LBB42_32:
	cmpl	$4, %edx
	je	.LBB42_25
	jmp	.LBB42_24
.LBB42_33:
	movw	$4, %r14w
	leaq	.Lstatic.19(%rip), %rax
	xorl	%r11d, %r11d
	movl	$8, %r8d
	leaq	.Lstatic.73(%rip), %r10
	jmp	.LBB42_36
.LBB42_34:
	movw	$4, %r14w
	leaq	.Lstatic.19(%rip), %rax
	xorl	%r11d, %r11d
	movl	$7, %r8d
	leaq	.Lstatic.74(%rip), %r10
	jmp	.LBB42_36
.LBB42_35:
	movw	$4, %r14w
	leaq	.Lstatic.19(%rip), %rax
	xorl	%r11d, %r11d
	movl	$7, %r8d
	leaq	.Lstatic.72(%rip), %r10
.LBB42_36:
	xorl	%esi, %esi
	xorl	%ecx, %ecx
	xorl	%r15d, %r15d
	xorl	%edi, %edi
.LBB42_59:
	movl	$7, %edx
	movb	$1, %r9b
	testb	%r11b, %r11b
	jne	.LBB42_62
	movl	(%rax), %r11d
	movl	3(%rax), %r12d
	shlq	$32, %r12
	orq	%r11, %r12
	movabsq	$7233184988000772464, %r11
	cmpq	%r11, %r12
	jne	.LBB42_62
	movzbl	%r14b, %r14d
	movq	%r10, %rax
	movq	%r8, %rdx
	xorl	%esi, %esi
	jmp	.LBB42_62
.LBB42_45:
	movl	$1, %r14d
	jmp	.LBB42_46
.LBB42_37:
	shll	$16, %r14d
	orq	$2, %r14
	jmp	.LBB42_46
.LBB42_38:
	shll	$16, %r14d
	orq	$3, %r14
	xorl	%r15d, %r15d
.LBB42_46:
	leaq	.Lstatic.19(%rip), %rdi
	movq	%rdi, %rax
	shrq	$16, %rax
	movl	$7, %edx
	movb	$1, %sil
	jmp	.LBB42_47
.LBB42_39:
	xorl	%edi, %edi
	xorl	%esi, %esi
	xorl	%eax, %eax
	xorl	%edx, %edx
	xorl	%r14d, %r14d
	xorl	%r15d, %r15d
.LBB42_47:
	xorl	%ecx, %ecx
.LBB42_48:
	movzwl	%di, %edi
	shlq	$16, %rax
	orq	%rdi, %rax
	testb	%sil, %sil
	je	.LBB42_54
	movq	%r14, %rsi
	shrq	$32, %rsi
	jmp	.LBB42_50
.LBB42_54:
	xorl	%r9d, %r9d
.LBB42_55:
	xorl	%eax, %eax
	xorl	%edx, %edx
	xorl	%r14d, %r14d
	xorl	%edi, %edi
	xorl	%esi, %esi
	xorl	%r15d, %r15d
	xorl	%ecx, %ecx
.LBB42_62:
	movb	%r9b, (%rbx)
	movq	%rax, 8(%rbx)
	movq	%rdx, 16(%rbx)
	movw	%r14w, 24(%rbx)
	movw	%di, 26(%rbx)
	movl	%esi, 28(%rbx)
	movq	%r15, 32(%rbx)
	movq	%rcx, 40(%rbx)
	addq	$48, %rsp
	.cfi_def_cfa_offset 48
	popq	%rbx
	.cfi_def_cfa_offset 40
	popq	%r12
	.cfi_def_cfa_offset 32
	popq	%r14
	.cfi_def_cfa_offset 24
	popq	%r15
	.cfi_def_cfa_offset 16
	popq	%rbp
	.cfi_def_cfa_offset 8
	retq
.LBB42_40:
	.cfi_def_cfa_offset 96
	movl	$1, %r14d
	jmp	.LBB42_43
.LBB42_41:
	shll	$16, %r14d
	orq	$2, %r14
	jmp	.LBB42_43
.LBB42_42:
	shll	$16, %r14d
	orq	$3, %r14
	xorl	%r15d, %r15d
.LBB42_43:
	leaq	.Lstatic.19(%rip), %rax
	movl	$7, %edx
	xorl	%esi, %esi
	xorl	%ecx, %ecx
.LBB42_50:
	movl	%r14d, %edi
	shrl	$16, %edi
	movl	$7, %r8d
	cmpw	$2, %bp
	je	.LBB42_57
	movzwl	%bp, %r9d
	cmpl	$45, %r9d
	je	.LBB42_56
	cmpl	$10, %r9d
	jne	.LBB42_58
	leaq	.Lstatic.73(%rip), %r10
	movl	$8, %r8d
	xorl	%r11d, %r11d
	movb	$1, %r9b
	cmpq	$7, %rdx
	je	.LBB42_59
	jmp	.LBB42_62
.LBB42_56:
	leaq	.Lstatic.74(%rip), %r10
	xorl	%r11d, %r11d
	movb	$1, %r9b
	cmpq	$7, %rdx
	je	.LBB42_59
	jmp	.LBB42_62
.LBB42_57:
	leaq	.Lstatic.72(%rip), %r10
	xorl	%r11d, %r11d
	movb	$1, %r9b
	cmpq	$7, %rdx
	je	.LBB42_59
	jmp	.LBB42_62
.LBB42_58:
	leaq	.Lstatic.3(%rip), %r10
	movb	$1, %r11b
	xorl	%r8d, %r8d
	movb	$1, %r9b
	cmpq	$7, %rdx
	jne	.LBB42_62
	jmp	.LBB42_59
.LBB42_63:
	movzwl	8(%rsp), %edi
	movl	10(%rsp), %ecx
	movzwl	14(%rsp), %eax
	shlq	$32, %rax
	orq	%rcx, %rax
	movq	16(%rsp), %rdx
	movq	24(%rsp), %r14
	movq	32(%rsp), %r15
	movq	40(%rsp), %rcx
	movb	$1, %sil
	jmp	.LBB42_48
.Lfunc_end42:
	.size	nla_wire.place.check_one.6cf1decf0b22dc4b, .Lfunc_end42-nla_wire.place.check_one.6cf1decf0b22dc4b
	.cfi_endproc
	.section	.rodata.nla_wire.place.check_one.6cf1decf0b22dc4b,"a",@progbits
	.p2align	2, 0x0
.LJTI42_0:
	.long	.LBB42_18-.LJTI42_0
	.long	.LBB42_12-.LJTI42_0
	.long	.LBB42_12-.LJTI42_0
	.long	.LBB42_12-.LJTI42_0
	.long	.LBB42_19-.LJTI42_0
	.long	.LBB42_12-.LJTI42_0
	.long	.LBB42_20-.LJTI42_0
	.long	.LBB42_21-.LJTI42_0
	.long	.LBB42_18-.LJTI42_0

	.section	.text.nla_wire.place.check_one.97809315b2b26985,"ax",@progbits
	.p2align	4
	.type	nla_wire.place.check_one.97809315b2b26985,@function
nla_wire.place.check_one.97809315b2b26985:
	.cfi_startproc
	andl	$16383, %esi
	xorl	%r8d, %r8d
	xorl	%ecx, %ecx
	xorl	%eax, %eax
	xorl	%r9d, %r9d
	decl	%esi
	cmpl	$8, %esi
	ja	.LBB43_1
	leaq	.LJTI43_0(%rip), %r10
	movslq	(%r10,%rsi,4), %r11
	addq	%r10, %r11
	xorl	%r10d, %r10d
	xorl	%esi, %esi
	jmpq	*%r11
.LBB43_3:
	cmpq	$4, %rdx
	je	.LBB43_17
	leaq	.Lstatic.62(%rip), %rax
	movl	$16, %r8d
	jmp	.LBB43_5
.LBB43_11:
	cmpq	$16, %rdx
	je	.LBB43_17
	leaq	.Lstatic.67(%rip), %rax
	movw	$5, %cx
	movl	$16, %esi
	movl	$16, %r8d
	jmp	.LBB43_8
.LBB43_6:
	xorl	%ecx, %ecx
	cmpq	$16, %rdx
	jae	.LBB43_10
	leaq	.Lstatic.63(%rip), %rax
	movl	$20, %r8d
	movl	$16, %esi
	jmp	.LBB43_8
.LBB43_13:
	cmpq	$1, %rdx
	je	.LBB43_17
	leaq	.Lstatic.68(%rip), %rax
	movl	$24, %r8d
	movw	$5, %cx
	movl	$1, %esi
	jmp	.LBB43_8
.LBB43_15:
	cmpq	$4, %rdx
	jne	.LBB43_16
.LBB43_17:
	xorl	%r9d, %r9d
	xorl	%eax, %eax
	xorl	%r8d, %r8d
	xorl	%ecx, %ecx
.LBB43_1:
	xorl	%r10d, %r10d
	xorl	%esi, %esi
	jmp	.LBB43_9
.LBB43_10:
	xorl	%r9d, %r9d
	xorl	%eax, %eax
	xorl	%r8d, %r8d
	jmp	.LBB43_1
.LBB43_16:
	leaq	.Lstatic.69(%rip), %rax
	movl	$17, %r8d
.LBB43_5:
	movw	$5, %cx
	movl	$4, %esi
.LBB43_8:
	movb	$1, %r9b
	movq	%rdx, %r10
.LBB43_9:
	movb	%r9b, (%rdi)
	movq	%rax, 8(%rdi)
	movq	%r8, 16(%rdi)
	movw	%cx, 24(%rdi)
	movw	$0, 26(%rdi)
	movl	$0, 28(%rdi)
	movq	%r10, 32(%rdi)
	movq	%rsi, 40(%rdi)
	retq
.Lfunc_end43:
	.size	nla_wire.place.check_one.97809315b2b26985, .Lfunc_end43-nla_wire.place.check_one.97809315b2b26985
	.cfi_endproc
	.section	.rodata.nla_wire.place.check_one.97809315b2b26985,"a",@progbits
	.p2align	2, 0x0
.LJTI43_0:
	.long	.LBB43_3-.LJTI43_0
	.long	.LBB43_9-.LJTI43_0
	.long	.LBB43_9-.LJTI43_0
	.long	.LBB43_9-.LJTI43_0
	.long	.LBB43_6-.LJTI43_0
	.long	.LBB43_9-.LJTI43_0
	.long	.LBB43_11-.LJTI43_0
	.long	.LBB43_13-.LJTI43_0
	.long	.LBB43_15-.LJTI43_0

	.section	.text.nla_wire.place.check_one.7562298f77a88fdb,"ax",@progbits
	.p2align	4
	.type	nla_wire.place.check_one.7562298f77a88fdb,@function
nla_wire.place.check_one.7562298f77a88fdb:
	.cfi_startproc
	andl	$16383, %esi
	cmpw	$2, %si
	je	.LBB44_4
	cmpl	$1, %esi
	jne	.LBB44_2
	movl	$4, %ecx
	cmpq	$4, %rdx
	jne	.LBB44_5
.LBB44_2:
	xorl	%eax, %eax
	xorl	%esi, %esi
	xorl	%r8d, %r8d
	xorl	%r9d, %r9d
	xorl	%edx, %edx
	xorl	%ecx, %ecx
	jmp	.LBB44_6
.LBB44_4:
	movl	$1, %ecx
	cmpq	$1, %rdx
	je	.LBB44_2
.LBB44_5:
	xorl	%eax, %eax
	cmpw	$1, %si
	leaq	.Lstatic.70(%rip), %r8
	leaq	.Lstatic.71(%rip), %rsi
	cmoveq	%r8, %rsi
	setne	%al
	leaq	(%rax,%rax,8), %r8
	addq	$13, %r8
	movw	$5, %r9w
	movb	$1, %al
.LBB44_6:
	movb	%al, (%rdi)
	movq	%rsi, 8(%rdi)
	movq	%r8, 16(%rdi)
	movw	%r9w, 24(%rdi)
	movw	$0, 26(%rdi)
	movl	$0, 28(%rdi)
	movq	%rdx, 32(%rdi)
	movq	%rcx, 40(%rdi)
	retq
.Lfunc_end44:
	.size	nla_wire.place.check_one.7562298f77a88fdb, .Lfunc_end44-nla_wire.place.check_one.7562298f77a88fdb
	.cfi_endproc

	.section	.text.nla_wire.members.write_each.c4c48bc1b6cb0726,"ax",@progbits
	.p2align	4
	.type	nla_wire.members.write_each.c4c48bc1b6cb0726,@function
nla_wire.members.write_each.c4c48bc1b6cb0726:
	.cfi_startproc
	pushq	%rbp
	.cfi_def_cfa_offset 16
	pushq	%r15
	.cfi_def_cfa_offset 24
	pushq	%r14
	.cfi_def_cfa_offset 32
	pushq	%r13
	.cfi_def_cfa_offset 40
	pushq	%r12
	.cfi_def_cfa_offset 48
	pushq	%rbx
	.cfi_def_cfa_offset 56
	subq	$88, %rsp
	.cfi_def_cfa_offset 144
	.cfi_offset %rbx, -56
	.cfi_offset %r12, -48
	.cfi_offset %r13, -40
	.cfi_offset %r14, -32
	.cfi_offset %r15, -24
	.cfi_offset %rbp, -16
	movl	%edi, 60(%rsp)
	testq	%rdx, %rdx
	je	.LBB45_301
	movq	%rcx, %r11
	movq	%rdx, %r15
	movq	%rsi, %r12
	leaq	7(%rcx), %rax
	movq	%rax, 40(%rsp)
	leaq	20(%rcx), %rax
	movq	%rax, 48(%rsp)
	leaq	28(%rcx), %rax
	movq	%rax, 72(%rsp)
	leaq	15(%rcx), %rax
	movq	%rax, 80(%rsp)
	xorl	%r10d, %r10d
	xorl	%ebp, %ebp
	movq	%r8, 16(%rsp)
	movq	%rcx, 8(%rsp)
	jmp	.LBB45_6
	.p2align	4
.LBB45_2:
	movl	(%rsi), %ecx
	movl	%ecx, (%rax)
.LBB45_3:
	movw	$8, (%rdx)
	movq	32(%rsp), %rax
	movw	%ax, 2(%rdx)
.LBB45_4:
	movl	$8, %eax
.LBB45_5:
	addq	%rax, %rbp
	cmpq	%r10, %r15
	jbe	.LBB45_301
.LBB45_6:
	subq	%r10, %r15
	cmpq	$4, %r15
	jb	.LBB45_301
	movq	%r12, %r14
	movq	%r10, %r9
	addq	%r10, %r12
	movzwl	(%r12), %r13d
	cmpw	$4, %r13w
	jb	.LBB45_301
	cmpq	%r13, %r15
	jb	.LBB45_301
	movzwl	2(%r12), %ebx
	leaq	4(%r12), %rsi
	leaq	-4(%r13), %rax
	leal	3(%r13), %r10d
	andl	$-4, %r10d
	leaq	(%r11,%rbp), %rcx
	movq	%rcx, 24(%rsp)
	movl	%ebx, %ecx
	andl	$16383, %ecx
	movq	%rcx, 32(%rsp)
	leal	-1(%rcx), %edx
	cmpl	$68, %edx
	ja	.LBB45_58
	movq	%r8, %rcx
	subq	%rbp, %rcx
	leaq	.LJTI45_0(%rip), %rdi
	movslq	(%rdi,%rdx,4), %rdx
	addq	%rdi, %rdx
	jmpq	*%rdx
.LBB45_11:
	leaq	(%r11,%rbp), %rdx
	leaq	4(%rdx), %rax
	movq	%rax, %rcx
	subq	%rsi, %rcx
	cmpq	$3, %rcx
	ja	.LBB45_2
	movzbl	4(%r12), %eax
	movb	%al, 4(%rdx)
	movzbl	5(%r12), %eax
	movb	%al, 5(%rdx)
	movzbl	6(%r12), %eax
	movb	%al, 6(%rdx)
	movzbl	7(%r12), %eax
	movb	%al, 7(%rdx)
	jmp	.LBB45_3
.LBB45_13:
	testq	%rax, %rax
	je	.LBB45_15
	cmpb	$0, -5(%rsi,%r13)
	je	.LBB45_27
.LBB45_15:
	leaq	(%r11,%rbp), %r13
	leaq	4(%r13), %rdi
	cmpl	$4, %eax
	jae	.LBB45_28
.LBB45_16:
	movq	%rdi, %rcx
	subq	%rsi, %rcx
	cmpq	%rax, %rcx
	jae	.LBB45_26
	cmpl	$4, %eax
	jb	.LBB45_18
	movq	%r13, %rdx
	subq	%r14, %rdx
	subq	%r9, %rdx
	cmpq	$32, %rdx
	jae	.LBB45_108
.LBB45_18:
	xorl	%ecx, %ecx
.LBB45_171:
	movq	%r10, %rbx
	movq	%rax, %r10
	movq	%rcx, %rdx
	andq	$3, %r10
	je	.LBB45_174
	movq	%rcx, %rdx
	.p2align	4
.LBB45_173:
	movzbl	(%rsi,%rdx), %r11d
	movb	%r11b, (%rdi,%rdx)
	incq	%rdx
	decq	%r10
	jne	.LBB45_173
.LBB45_174:
	subl	%eax, %ecx
	cmpl	$-4, %ecx
	movq	16(%rsp), %r8
	movq	8(%rsp), %r11
	movq	%rbx, %r10
	ja	.LBB45_177
	leaq	(%r14,%r9), %rcx
	addq	$7, %rcx
	movq	40(%rsp), %rsi
	addq	%rbp, %rsi
	.p2align	4
.LBB45_176:
	movzbl	-3(%rcx,%rdx), %edi
	movb	%dil, -3(%rsi,%rdx)
	movzbl	-2(%rcx,%rdx), %edi
	movb	%dil, -2(%rsi,%rdx)
	movzbl	-1(%rcx,%rdx), %edi
	movb	%dil, -1(%rsi,%rdx)
	movzbl	(%rcx,%rdx), %edi
	movb	%dil, (%rsi,%rdx)
	addq	$4, %rdx
	cmpq	%rdx, %rax
	jne	.LBB45_176
	jmp	.LBB45_177
.LBB45_19:
	movzbl	(%rsi), %eax
	leaq	(%r11,%rbp), %rcx
	movb	%al, 4(%rcx)
	movw	$5, (%rcx)
	movq	32(%rsp), %rax
	movw	%ax, 2(%rcx)
	movw	$0, 5(%rcx)
	movb	$0, 7(%rcx)
	jmp	.LBB45_4
.LBB45_20:
	cmpq	$32, %rax
	movl	$32, %r13d
	cmovbq	%rax, %r13
	movq	24(%rsp), %rcx
	leaq	4(%rcx), %rdi
	movq	%rdi, %rcx
	subq	%rsi, %rcx
	cmpq	%r13, %rcx
	jae	.LBB45_67
	cmpl	$4, %eax
	jb	.LBB45_22
	movq	24(%rsp), %rdx
	subq	%r14, %rdx
	subq	%r9, %rdx
	cmpq	$16, %rdx
	jae	.LBB45_132
.LBB45_22:
	xorl	%eax, %eax
.LBB45_226:
	movq	%r10, %r8
	movq	%r13, %rdx
	movq	%rax, %rcx
	andq	$3, %rdx
	je	.LBB45_229
	movq	%rax, %rcx
	.p2align	4
.LBB45_228:
	movzbl	(%rsi,%rcx), %r10d
	movb	%r10b, (%rdi,%rcx)
	incq	%rcx
	decq	%rdx
	jne	.LBB45_228
.LBB45_229:
	subl	%r13d, %eax
	cmpl	$-4, %eax
	movq	%r8, %r10
	ja	.LBB45_232
	leaq	(%r14,%r9), %rax
	addq	$7, %rax
	movq	40(%rsp), %rdx
	addq	%rbp, %rdx
	.p2align	4
.LBB45_231:
	movzbl	-3(%rax,%rcx), %esi
	movb	%sil, -3(%rdx,%rcx)
	movzbl	-2(%rax,%rcx), %esi
	movb	%sil, -2(%rdx,%rcx)
	movzbl	-1(%rax,%rcx), %esi
	movb	%sil, -1(%rdx,%rcx)
	movzbl	(%rax,%rcx), %esi
	movb	%sil, (%rdx,%rcx)
	addq	$4, %rcx
	cmpq	%rcx, %r13
	jne	.LBB45_231
	jmp	.LBB45_232
.LBB45_23:
	cmpl	$2, %eax
	jne	.LBB45_58
	leaq	(%r11,%rbp), %rdx
	leaq	4(%rdx), %rax
	movq	%rax, %rcx
	subq	%rsi, %rcx
	cmpq	$1, %rcx
	ja	.LBB45_134
	movzbl	4(%r12), %eax
	movb	%al, 4(%rdx)
	movzbl	5(%r12), %eax
	movb	%al, 5(%rdx)
	jmp	.LBB45_135
.LBB45_26:
	movq	%rax, %rdx
	movq	%rax, %rbx
	movq	%r10, %r14
	callq	memmove@PLT
	movq	%r14, %r10
	movq	8(%rsp), %r11
	movq	16(%rsp), %r8
	movq	%rbx, %rax
	jmp	.LBB45_177
.LBB45_27:
	addq	$-5, %r13
	movq	%r13, %rax
	leaq	(%r11,%rbp), %r13
	leaq	4(%r13), %rdi
	cmpl	$4, %eax
	jb	.LBB45_16
.LBB45_28:
	cmpl	$7, %eax
	ja	.LBB45_31
	movq	%rdi, %rcx
	subq	%rsi, %rcx
	cmpq	$3, %rcx
	ja	.LBB45_110
	movzbl	4(%r12), %ecx
	movb	%cl, 4(%r13)
	movzbl	5(%r12), %ecx
	movb	%cl, 5(%r13)
	movzbl	6(%r12), %ecx
	movb	%cl, 6(%r13)
	movzbl	7(%r12), %ecx
	movb	%cl, 7(%r13)
	jmp	.LBB45_111
.LBB45_31:
	cmpl	$16, %eax
	ja	.LBB45_16
	movq	%rdi, %rcx
	subq	%rsi, %rcx
	cmpq	$7, %rcx
	ja	.LBB45_142
	movzbl	4(%r12), %ecx
	movb	%cl, 4(%r13)
	movzbl	5(%r12), %ecx
	movb	%cl, 5(%r13)
	movzbl	6(%r12), %ecx
	movb	%cl, 6(%r13)
	movzbl	7(%r12), %ecx
	movb	%cl, 7(%r13)
	movzbl	8(%r12), %ecx
	movb	%cl, 8(%r13)
	movzbl	9(%r12), %ecx
	movb	%cl, 9(%r13)
	movzbl	10(%r12), %ecx
	movb	%cl, 10(%r13)
	movzbl	11(%r12), %ecx
	movb	%cl, 11(%r13)
	jmp	.LBB45_143
.LBB45_34:
	movzwl	%r13w, %ebx
	leaq	(%r11,%rbp), %rcx
	leaq	4(%rcx), %rdi
	movq	%rdi, %rcx
	subq	%rsi, %rcx
	cmpl	$204, %ebx
	jae	.LBB45_127
	cmpq	%rax, %rcx
	movq	%r10, 64(%rsp)
	jae	.LBB45_156
	cmpl	$4, %eax
	jb	.LBB45_37
	movq	24(%rsp), %rdx
	subq	%r14, %rdx
	subq	%r9, %rdx
	cmpq	$32, %rdx
	jae	.LBB45_215
.LBB45_37:
	xorl	%ecx, %ecx
.LBB45_263:
	movq	%r13, %r10
	movq	%rcx, %rdx
	andq	$3, %r10
	je	.LBB45_266
	movq	%rcx, %rdx
	.p2align	4
.LBB45_265:
	movzbl	(%rsi,%rdx), %r11d
	movb	%r11b, (%rdi,%rdx)
	incq	%rdx
	decq	%r10
	jne	.LBB45_265
.LBB45_266:
	negq	%rcx
	addq	%r13, %rcx
	addq	$-5, %rcx
	cmpl	$3, %ecx
	jb	.LBB45_269
	leaq	(%r14,%r9), %rcx
	addq	$7, %rcx
	movq	40(%rsp), %rsi
	addq	%rbp, %rsi
	.p2align	4
.LBB45_268:
	movzbl	-3(%rcx,%rdx), %edi
	movb	%dil, -3(%rsi,%rdx)
	movzbl	-2(%rcx,%rdx), %edi
	movb	%dil, -2(%rsi,%rdx)
	movzbl	-1(%rcx,%rdx), %edi
	movb	%dil, -1(%rsi,%rdx)
	movzbl	(%rcx,%rdx), %edi
	movb	%dil, (%rsi,%rdx)
	addq	$4, %rdx
	cmpq	%rdx, %rax
	jne	.LBB45_268
	jmp	.LBB45_269
.LBB45_38:
	movq	%r10, %r14
	movzwl	32(%rsp), %ebx
	orl	$32768, %ebx
	movq	24(%rsp), %r13
	leaq	4(%r13), %rdx
	movq	%rsi, %rdi
	movq	%rax, %rsi
	callq	nla_wire.members.write_each.b30b196c481b950e
	jmp	.LBB45_39
.LBB45_42:
	cmpw	$7, %r13w
	jb	.LBB45_114
	movzbl	6(%r12), %ecx
	cmpl	$3, %eax
	je	.LBB45_45
	movzbl	7(%r12), %edx
	shll	$8, %edx
	movzwl	%cx, %ecx
	orl	%edx, %ecx
.LBB45_45:
	movzwl	%cx, %ecx
	cmpl	$35848, %ecx
	je	.LBB45_189
	cmpl	$35847, %ecx
	jne	.LBB45_114
	leaq	12(%r12), %rsi
	leaq	-12(%r13), %rdx
	movl	$2349268992, %ecx
	orq	%rcx, %rax
	leaq	(%r11,%rbp), %rcx
	movq	%rax, 4(%rcx)
	leaq	12(%rcx), %rdi
	movq	%rdi, %rax
	subq	%rsi, %rax
	cmpq	%rdx, %rax
	jae	.LBB45_241
	cmpl	$4, %edx
	jb	.LBB45_50
	leaq	(%r11,%rbp), %rcx
	subq	%r14, %rcx
	subq	%r9, %rcx
	cmpq	$32, %rcx
	jae	.LBB45_279
.LBB45_50:
	movq	%r10, %rbx
	xorl	%eax, %eax
.LBB45_51:
	movq	%r13, %r10
	movq	%rax, %rcx
	andq	$3, %r10
	je	.LBB45_54
	movq	%rax, %rcx
.LBB45_53:
	movzbl	(%rsi,%rcx), %r11d
	movb	%r11b, (%rdi,%rcx)
	incq	%rcx
	decq	%r10
	jne	.LBB45_53
.LBB45_54:
	negq	%rax
	addq	%r13, %rax
	addq	$-13, %rax
	cmpl	$3, %eax
	movq	16(%rsp), %r8
	movq	8(%rsp), %r11
	jb	.LBB45_148
	leaq	(%r14,%r9), %rax
	addq	$15, %rax
	movq	80(%rsp), %rsi
	addq	%rbp, %rsi
.LBB45_56:
	movzbl	-3(%rax,%rcx), %edi
	movb	%dil, -3(%rsi,%rcx)
	movzbl	-2(%rax,%rcx), %edi
	movb	%dil, -2(%rsi,%rcx)
	movzbl	-1(%rax,%rcx), %edi
	movb	%dil, -1(%rsi,%rcx)
	movzbl	(%rax,%rcx), %edi
	movb	%dil, (%rsi,%rcx)
	addq	$4, %rcx
	cmpq	%rcx, %rdx
	jne	.LBB45_56
	jmp	.LBB45_148
.LBB45_57:
	movzbl	60(%rsp), %ecx
	movl	$51, %edx
	btl	%ecx, %edx
	jae	.LBB45_151
.LBB45_58:
	movq	24(%rsp), %rcx
	leaq	4(%rcx), %rdi
	movq	%rdi, %rcx
	subq	%rsi, %rcx
	cmpq	%rax, %rcx
	movq	%r10, 64(%rsp)
	jae	.LBB45_61
	cmpl	$4, %eax
	jb	.LBB45_60
	movq	24(%rsp), %rdx
	subq	%r14, %rdx
	subq	%r9, %rdx
	cmpq	$32, %rdx
	jae	.LBB45_125
.LBB45_60:
	xorl	%ecx, %ecx
.LBB45_202:
	movq	%r13, %r10
	movq	%rcx, %rdx
	andq	$3, %r10
	je	.LBB45_205
	movq	%rcx, %rdx
	.p2align	4
.LBB45_204:
	movzbl	(%rsi,%rdx), %r11d
	movb	%r11b, (%rdi,%rdx)
	incq	%rdx
	decq	%r10
	jne	.LBB45_204
.LBB45_205:
	negq	%rcx
	addq	%r13, %rcx
	addq	$-5, %rcx
	cmpl	$3, %ecx
	jb	.LBB45_208
	leaq	(%r14,%r9), %rcx
	addq	$7, %rcx
	movq	40(%rsp), %rsi
	addq	%rbp, %rsi
	.p2align	4
.LBB45_207:
	movzbl	-3(%rcx,%rdx), %edi
	movb	%dil, -3(%rsi,%rdx)
	movzbl	-2(%rcx,%rdx), %edi
	movb	%dil, -2(%rsi,%rdx)
	movzbl	-1(%rcx,%rdx), %edi
	movb	%dil, -1(%rsi,%rdx)
	movzbl	(%rcx,%rdx), %edi
	movb	%dil, (%rsi,%rdx)
	addq	$4, %rdx
	cmpq	%rdx, %rax
	jne	.LBB45_207
	jmp	.LBB45_208
.LBB45_61:
	movq	%rax, %rdx
	callq	memmove@PLT
.LBB45_208:
	movq	24(%rsp), %rax
	movw	%r13w, (%rax)
	movw	%bx, 2(%rax)
	movq	64(%rsp), %r10
	movq	%r10, %rcx
	subq	%r13, %rcx
	cmpq	$3, %rcx
	jne	.LBB45_88
.LBB45_209:
	movq	24(%rsp), %rax
	movw	$0, (%rax,%r13)
	movb	$0, 2(%rax,%r13)
	movq	%r10, %rax
	jmp	.LBB45_238
.LBB45_62:
	movq	%r10, %rbx
	movq	24(%rsp), %r14
	leaq	4(%r14), %rdx
	addq	$-4, %rcx
	movq	%rsi, %rdi
	movq	%rax, %rsi
	callq	nla_wire.members.write_each.3bb4c8661a1029f4
	jmp	.LBB45_63
.LBB45_67:
	movq	%r13, %rdx
	movq	%r10, %rbx
	callq	memmove@PLT
	movq	%rbx, %r10
.LBB45_232:
	leaq	4(%r13), %rcx
	addl	$7, %r13d
	movl	%r13d, %eax
	andl	$124, %eax
	movq	24(%rsp), %rsi
	movw	%cx, (%rsi)
	movq	32(%rsp), %rdx
	movw	%dx, 2(%rsi)
	movq	%rax, %rdx
	subq	%rcx, %rdx
	cmpq	$3, %rdx
	je	.LBB45_237
	cmpl	$2, %edx
	movq	16(%rsp), %r8
	movq	8(%rsp), %r11
	je	.LBB45_236
	cmpl	$1, %edx
	jne	.LBB45_5
	movb	$0, (%rsi,%rcx)
	jmp	.LBB45_5
.LBB45_68:
	movq	20(%r12), %rax
	movl	28(%r12), %ecx
	movups	4(%r12), %xmm0
	leaq	(%r11,%rbp), %rdx
	movups	%xmm0, 4(%rdx)
	movq	%rax, 20(%rdx)
	movl	%ecx, 28(%rdx)
	movl	$0, 32(%rdx)
	movw	$36, (%rdx)
	movq	32(%rsp), %rax
	movw	%ax, 2(%rdx)
	movl	$36, %eax
	jmp	.LBB45_5
.LBB45_69:
	movq	%r10, %rbx
	movq	24(%rsp), %r14
	leaq	4(%r14), %rdx
	movq	%rsi, %rdi
	movq	%rax, %rsi
	callq	nla_wire.members.write_each.8ba1f663fcd59a5e
	jmp	.LBB45_63
.LBB45_70:
	movq	%r10, %r14
	movzwl	32(%rsp), %ebx
	orl	$32768, %ebx
	movq	24(%rsp), %r13
	leaq	4(%r13), %rdx
	movq	%rsi, %rdi
	movq	%rax, %rsi
	callq	nla_wire.members.write_each.16a873d75d6df2a1
	jmp	.LBB45_39
.LBB45_74:
	movq	%r10, %rbx
	movq	24(%rsp), %r14
	leaq	4(%r14), %rdx
	movq	%rsi, %rdi
	movq	%rax, %rsi
	callq	nla_wire.members.write_each.f7f30aae703aa44d
	jmp	.LBB45_63
.LBB45_75:
	movzbl	60(%rsp), %edx
	leaq	.LJTI45_1(%rip), %rdi
	movslq	(%rdi,%rdx,4), %rdx
	addq	%rdi, %rdx
	jmpq	*%rdx
.LBB45_76:
	movq	24(%rsp), %rcx
	leaq	4(%rcx), %rdi
	movq	%rdi, %rcx
	subq	%rsi, %rcx
	cmpq	%rax, %rcx
	jae	.LBB45_86
	cmpl	$4, %eax
	jb	.LBB45_79
	movq	24(%rsp), %rdx
	subq	%r14, %rdx
	subq	%r9, %rdx
	cmpq	$32, %rdx
	jae	.LBB45_140
.LBB45_79:
	movq	%r10, %rbx
	xorl	%ecx, %ecx
.LBB45_80:
	movq	%r13, %r10
	movq	%rcx, %rdx
	andq	$3, %r10
	je	.LBB45_83
	movq	%rcx, %rdx
	.p2align	4
.LBB45_82:
	movzbl	(%rsi,%rdx), %r11d
	movb	%r11b, (%rdi,%rdx)
	incq	%rdx
	decq	%r10
	jne	.LBB45_82
.LBB45_83:
	negq	%rcx
	addq	%r13, %rcx
	addq	$-5, %rcx
	cmpl	$3, %ecx
	jb	.LBB45_87
	leaq	(%r14,%r9), %rcx
	addq	$7, %rcx
	movq	40(%rsp), %rsi
	addq	%rbp, %rsi
	.p2align	4
.LBB45_85:
	movzbl	-3(%rcx,%rdx), %edi
	movb	%dil, -3(%rsi,%rdx)
	movzbl	-2(%rcx,%rdx), %edi
	movb	%dil, -2(%rsi,%rdx)
	movzbl	-1(%rcx,%rdx), %edi
	movb	%dil, -1(%rsi,%rdx)
	movzbl	(%rcx,%rdx), %edi
	movb	%dil, (%rsi,%rdx)
	addq	$4, %rdx
	cmpq	%rdx, %rax
	jne	.LBB45_85
	jmp	.LBB45_87
.LBB45_86:
	movq	%r10, %rbx
	movq	%rax, %rdx
	callq	memmove@PLT
.LBB45_87:
	movq	24(%rsp), %rax
	movw	%r13w, (%rax)
	movq	32(%rsp), %rcx
	movw	%cx, 2(%rax)
	movq	%rbx, %r10
	movq	%rbx, %rcx
	subq	%r13, %rcx
	cmpq	$3, %rcx
	je	.LBB45_209
.LBB45_88:
	cmpl	$2, %ecx
	movq	16(%rsp), %r8
	movq	8(%rsp), %r11
	je	.LBB45_150
.LBB45_89:
	movq	%r10, %rax
	cmpl	$1, %ecx
	jne	.LBB45_5
	movq	24(%rsp), %rax
	movb	$0, (%rax,%r13)
	movq	%r10, %rax
	jmp	.LBB45_5
.LBB45_93:
	movq	%r10, %rbx
	movq	24(%rsp), %r14
	leaq	4(%r14), %rdx
	movq	%rsi, %rdi
	movq	%rax, %rsi
	callq	nla_wire.members.write_each.1f0cb788f492ced5
	jmp	.LBB45_63
.LBB45_91:
	movq	%r10, %rbx
	movq	24(%rsp), %r14
	leaq	4(%r14), %rdx
	movq	%rsi, %rdi
	movq	%rax, %rsi
	callq	nla_wire.members.write_each.49064c0641319ce4
	jmp	.LBB45_63
.LBB45_92:
	cmpb	$0, (%rsi)
	leaq	(%r11,%rbp), %rax
	setne	4(%rax)
	movw	$5, (%rax)
	movq	32(%rsp), %rcx
	movw	%cx, 2(%rax)
	movw	$0, 5(%rax)
	movb	$0, 7(%rax)
	jmp	.LBB45_4
.LBB45_94:
	leaq	(%r11,%rbp), %rcx
	leaq	4(%rcx), %rdi
	movq	%rdi, %rcx
	subq	%rsi, %rcx
	cmpw	$100, %r13w
	jae	.LBB45_136
	cmpq	%rax, %rcx
	jae	.LBB45_159
	cmpl	$4, %eax
	jb	.LBB45_98
	movq	24(%rsp), %rdx
	subq	%r14, %rdx
	subq	%r9, %rdx
	cmpq	$32, %rdx
	jae	.LBB45_244
.LBB45_98:
	movq	%r10, %rbx
	xorl	%ecx, %ecx
.LBB45_99:
	movq	%r13, %r10
	movq	%rcx, %rdx
	andq	$3, %r10
	je	.LBB45_102
	movq	%rcx, %rdx
	.p2align	4
.LBB45_101:
	movzbl	(%rsi,%rdx), %r11d
	movb	%r11b, (%rdi,%rdx)
	incq	%rdx
	decq	%r10
	jne	.LBB45_101
.LBB45_102:
	negq	%rcx
	addq	%r13, %rcx
	addq	$-5, %rcx
	cmpl	$3, %ecx
	jb	.LBB45_160
	leaq	(%r14,%r9), %rcx
	addq	$7, %rcx
	movq	40(%rsp), %rsi
	addq	%rbp, %rsi
	.p2align	4
.LBB45_104:
	movzbl	-3(%rcx,%rdx), %edi
	movb	%dil, -3(%rsi,%rdx)
	movzbl	-2(%rcx,%rdx), %edi
	movb	%dil, -2(%rsi,%rdx)
	movzbl	-1(%rcx,%rdx), %edi
	movb	%dil, -1(%rsi,%rdx)
	movzbl	(%rcx,%rdx), %edi
	movb	%dil, (%rsi,%rdx)
	addq	$4, %rdx
	cmpq	%rdx, %rax
	jne	.LBB45_104
	jmp	.LBB45_160
.LBB45_105:
	movq	%r10, %r14
	movzwl	32(%rsp), %ebx
	orl	$32768, %ebx
	movq	24(%rsp), %r13
	leaq	4(%r13), %rdx
	movq	%rsi, %rdi
	movq	%rax, %rsi
	callq	nla_wire.members.write_each.5fa77b269143286c
.LBB45_39:
	leaq	4(%rax), %rcx
	addq	$7, %rax
	andq	$-4, %rax
	movw	%cx, (%r13)
	movw	%bx, 2(%r13)
	movq	%rax, %rdx
	subq	%rcx, %rdx
	cmpq	$3, %rdx
	je	.LBB45_71
	cmpq	$2, %rdx
	je	.LBB45_72
	cmpq	$1, %rdx
	movq	16(%rsp), %r8
	movq	8(%rsp), %r11
	movq	%r14, %r10
	jne	.LBB45_5
	jmp	.LBB45_155
.LBB45_106:
	movq	%r10, %rbx
	movq	24(%rsp), %r14
	leaq	4(%r14), %rdx
	addq	$-4, %rcx
	movq	%rsi, %rdi
	movq	%rax, %rsi
	callq	nla_wire.members.write_each.79503c7a397af21a
.LBB45_63:
	leaq	4(%rax), %rcx
	addq	$7, %rax
	andq	$-4, %rax
	movw	%cx, (%r14)
	movq	32(%rsp), %rdx
	movw	%dx, 2(%r14)
	movq	%rax, %rdx
	subq	%rcx, %rdx
	cmpq	$3, %rdx
	je	.LBB45_212
	cmpq	$2, %rdx
	je	.LBB45_302
	cmpq	$1, %rdx
	movq	16(%rsp), %r8
	movq	8(%rsp), %r11
	movq	%rbx, %r10
	jne	.LBB45_5
	movb	$0, (%r14,%rcx)
	jmp	.LBB45_5
.LBB45_302:
	movw	$0, (%r14,%rcx)
	jmp	.LBB45_213
.LBB45_212:
	movw	$0, (%r14,%rcx)
	movb	$0, 2(%r14,%rcx)
	jmp	.LBB45_213
.LBB45_110:
	movl	(%rsi), %ecx
	movl	%ecx, (%rdi)
.LBB45_111:
	leaq	(%rax,%r13), %rcx
	leaq	(%r12,%rax), %rdx
	movq	%rcx, %rsi
	subq	%rdx, %rsi
	cmpq	$3, %rsi
	ja	.LBB45_113
	movzbl	(%rdx), %esi
	movb	%sil, (%rcx)
	movzbl	1(%rdx), %esi
	movb	%sil, 1(%rcx)
	movzbl	2(%rdx), %esi
	movb	%sil, 2(%rcx)
	movzbl	3(%rdx), %edx
	movb	%dl, 3(%rcx)
	jmp	.LBB45_177
.LBB45_113:
	movl	(%rdx), %edx
	movl	%edx, (%rcx)
	jmp	.LBB45_177
.LBB45_72:
	movw	$0, (%r13,%rcx)
	jmp	.LBB45_73
.LBB45_114:
	leaq	(%r11,%rbp), %rcx
	leaq	4(%rcx), %rdi
	movq	%rdi, %rcx
	subq	%rsi, %rcx
	cmpq	%rax, %rcx
	jae	.LBB45_146
	cmpl	$4, %eax
	jb	.LBB45_117
	leaq	(%r11,%rbp), %rdx
	subq	%r14, %rdx
	subq	%r9, %rdx
	cmpq	$32, %rdx
	jae	.LBB45_242
.LBB45_117:
	movq	%r10, %rbx
	xorl	%ecx, %ecx
.LBB45_118:
	movq	%r13, %r10
	movq	%rcx, %rdx
	andq	$3, %r10
	je	.LBB45_121
	movq	%rcx, %rdx
	.p2align	4
.LBB45_120:
	movzbl	(%rsi,%rdx), %r11d
	movb	%r11b, (%rdi,%rdx)
	incq	%rdx
	decq	%r10
	jne	.LBB45_120
.LBB45_121:
	negq	%rcx
	addq	%r13, %rcx
	addq	$-5, %rcx
	cmpl	$3, %ecx
	movq	16(%rsp), %r8
	movq	8(%rsp), %r11
	jb	.LBB45_148
	leaq	(%r14,%r9), %rcx
	addq	$7, %rcx
	movq	40(%rsp), %rsi
	addq	%rbp, %rsi
	.p2align	4
.LBB45_123:
	movzbl	-3(%rcx,%rdx), %edi
	movb	%dil, -3(%rsi,%rdx)
	movzbl	-2(%rcx,%rdx), %edi
	movb	%dil, -2(%rsi,%rdx)
	movzbl	-1(%rcx,%rdx), %edi
	movb	%dil, -1(%rsi,%rdx)
	movzbl	(%rcx,%rdx), %edi
	movb	%dil, (%rsi,%rdx)
	addq	$4, %rdx
	cmpq	%rdx, %rax
	jne	.LBB45_123
	jmp	.LBB45_148
.LBB45_127:
	cmpq	$199, %rcx
	ja	.LBB45_157
	addq	%r9, %r14
	leaq	(%r11,%rbp), %rdx
	movq	%rdx, %rax
	subq	%r14, %rax
	cmpq	$31, %rax
	ja	.LBB45_217
	movl	$8, %eax
	.p2align	4
.LBB45_130:
	movzbl	-4(%r12,%rax), %ecx
	movb	%cl, -4(%rdx,%rax)
	movzbl	-3(%r12,%rax), %ecx
	movb	%cl, -3(%rdx,%rax)
	movzbl	-2(%r12,%rax), %ecx
	movb	%cl, -2(%rdx,%rax)
	movzbl	-1(%r12,%rax), %ecx
	movb	%cl, -1(%rdx,%rax)
	movzbl	(%r12,%rax), %ecx
	movb	%cl, (%rdx,%rax)
	addq	$5, %rax
	cmpq	$208, %rax
	jne	.LBB45_130
	jmp	.LBB45_218
.LBB45_236:
	movw	$0, (%rsi,%rcx)
	jmp	.LBB45_5
.LBB45_237:
	movw	$0, (%rsi,%rcx)
	movb	$0, 2(%rsi,%rcx)
.LBB45_238:
	movq	16(%rsp), %r8
	movq	8(%rsp), %r11
	jmp	.LBB45_5
.LBB45_134:
	movzwl	(%rsi), %ecx
	movw	%cx, (%rax)
.LBB45_135:
	movw	$6, (%rdx)
	movq	32(%rsp), %rax
	movw	%ax, 2(%rdx)
	movw	$0, 6(%rdx)
	jmp	.LBB45_4
.LBB45_136:
	cmpq	$95, %rcx
	ja	.LBB45_163
	addq	%r9, %r14
	leaq	(%r11,%rbp), %rdx
	movq	%rdx, %rax
	subq	%r14, %rax
	cmpq	$31, %rax
	ja	.LBB45_239
	movl	$9, %eax
	.p2align	4
.LBB45_139:
	movzbl	-5(%r12,%rax), %ecx
	movb	%cl, -5(%rdx,%rax)
	movzbl	-4(%r12,%rax), %ecx
	movb	%cl, -4(%rdx,%rax)
	movzbl	-3(%r12,%rax), %ecx
	movb	%cl, -3(%rdx,%rax)
	movzbl	-2(%r12,%rax), %ecx
	movb	%cl, -2(%rdx,%rax)
	movzbl	-1(%r12,%rax), %ecx
	movb	%cl, -1(%rdx,%rax)
	movzbl	(%r12,%rax), %ecx
	movb	%cl, (%rdx,%rax)
	addq	$6, %rax
	cmpq	$105, %rax
	jne	.LBB45_139
	jmp	.LBB45_240
.LBB45_108:
	cmpl	$32, %eax
	jae	.LBB45_164
	xorl	%ecx, %ecx
	jmp	.LBB45_168
.LBB45_140:
	movq	%r10, %rbx
	cmpl	$32, %eax
	jae	.LBB45_182
	xorl	%ecx, %ecx
	jmp	.LBB45_186
.LBB45_142:
	movq	(%rsi), %rcx
	movq	%rcx, (%rdi)
.LBB45_143:
	leaq	-8(%rax), %rcx
	addq	%rcx, %rdi
	addq	%rcx, %rsi
	movq	%rdi, %rcx
	subq	%rsi, %rcx
	cmpq	$7, %rcx
	ja	.LBB45_145
	movzbl	(%rsi), %ecx
	movb	%cl, (%rdi)
	movzbl	1(%rsi), %ecx
	movb	%cl, 1(%rdi)
	movzbl	2(%rsi), %ecx
	movb	%cl, 2(%rdi)
	movzbl	3(%rsi), %ecx
	movb	%cl, 3(%rdi)
	movzbl	4(%rsi), %ecx
	movb	%cl, 4(%rdi)
	movzbl	5(%rsi), %ecx
	movb	%cl, 5(%rdi)
	movzbl	6(%rsi), %ecx
	movb	%cl, 6(%rdi)
	movzbl	7(%rsi), %ecx
	movb	%cl, 7(%rdi)
	jmp	.LBB45_177
.LBB45_145:
	movq	(%rsi), %rcx
	movq	%rcx, (%rdi)
	jmp	.LBB45_177
.LBB45_146:
	movq	%r10, %rbx
	movq	%rax, %rdx
.LBB45_147:
	callq	memmove@PLT
	movq	8(%rsp), %r11
	movq	16(%rsp), %r8
.LBB45_148:
	movq	24(%rsp), %rax
	movw	%r13w, (%rax)
	movq	32(%rsp), %rcx
	movw	%cx, 2(%rax)
	movq	%rbx, %r10
	movq	%rbx, %rcx
	subq	%r13, %rcx
	cmpq	$3, %rcx
	je	.LBB45_158
	cmpl	$2, %ecx
	jne	.LBB45_89
.LBB45_150:
	movq	24(%rsp), %rax
	movw	$0, (%rax,%r13)
	movq	%r10, %rax
	jmp	.LBB45_5
.LBB45_151:
	movq	%r10, %r14
	cmpl	$2, %ecx
	jne	.LBB45_192
	movzwl	32(%rsp), %ebx
	orl	$32768, %ebx
	movq	24(%rsp), %r13
	leaq	4(%r13), %rdx
	movq	%rsi, %rdi
	movq	%rax, %rsi
	callq	nla_wire.members.write_each.1f0cb788f492ced5
	leaq	4(%rax), %rcx
	addq	$7, %rax
	andq	$-4, %rax
	movw	%cx, (%r13)
	movw	%bx, 2(%r13)
	movq	%rax, %rdx
	subq	%rcx, %rdx
	cmpq	$3, %rdx
	je	.LBB45_71
	cmpq	$2, %rdx
	movq	%r14, %r10
	jne	.LBB45_154
.LBB45_194:
	movw	$0, (%r13,%rcx)
	jmp	.LBB45_238
.LBB45_125:
	cmpl	$32, %eax
	jae	.LBB45_195
	xorl	%ecx, %ecx
	jmp	.LBB45_199
.LBB45_156:
	movq	%rax, %rdx
	callq	memmove@PLT
.LBB45_269:
	cmpl	$203, %ebx
	je	.LBB45_271
	movl	$203, %edx
	subq	%r13, %rdx
	addq	24(%rsp), %r13
	movq	%r13, %rdi
	xorl	%esi, %esi
	callq	memset@PLT
.LBB45_271:
	movq	24(%rsp), %rax
	movb	$0, 203(%rax)
	movw	$204, (%rax)
	movq	32(%rsp), %rcx
	movw	%cx, 2(%rax)
	movl	$204, %eax
	movq	16(%rsp), %r8
	movq	8(%rsp), %r11
	movq	64(%rsp), %r10
	jmp	.LBB45_5
.LBB45_157:
	movl	$200, %edx
	movq	%r10, %rbx
	callq	memmove@PLT
	movq	%rbx, %r10
	movq	8(%rsp), %r11
	movq	16(%rsp), %r8
	movq	24(%rsp), %rdx
	jmp	.LBB45_218
.LBB45_158:
	movq	24(%rsp), %rax
	movw	$0, (%rax,%r13)
	movb	$0, 2(%rax,%r13)
	movq	%r10, %rax
	jmp	.LBB45_5
.LBB45_132:
	cmpl	$16, %eax
	jae	.LBB45_219
	xorl	%eax, %eax
	jmp	.LBB45_223
.LBB45_159:
	movq	%r10, %rbx
	movq	%rax, %rdx
	callq	memmove@PLT
.LBB45_160:
	cmpw	$99, %r13w
	je	.LBB45_162
	movl	$99, %edx
	subq	%r13, %rdx
	addq	24(%rsp), %r13
	movq	%r13, %rdi
	xorl	%esi, %esi
	callq	memset@PLT
.LBB45_162:
	movq	24(%rsp), %rax
	movb	$0, 99(%rax)
	movw	$100, (%rax)
	movq	32(%rsp), %rcx
	movw	%cx, 2(%rax)
	movl	$100, %eax
.LBB45_213:
	movq	16(%rsp), %r8
	movq	8(%rsp), %r11
	movq	%rbx, %r10
	jmp	.LBB45_5
.LBB45_163:
	movups	(%rsi), %xmm0
	movups	16(%rsi), %xmm1
	movups	32(%rsi), %xmm2
	movups	48(%rsi), %xmm3
	movups	64(%rsi), %xmm4
	movups	80(%rsi), %xmm5
	movups	%xmm5, 80(%rdi)
	movups	%xmm4, 64(%rdi)
	movups	%xmm3, 48(%rdi)
	movups	%xmm2, 32(%rdi)
	movups	%xmm1, 16(%rdi)
	movups	%xmm0, (%rdi)
	leaq	(%r11,%rbp), %rdx
	jmp	.LBB45_240
.LBB45_164:
	movq	%r10, %rbx
	movq	%rax, %rcx
	andq	$-32, %rcx
	leaq	(%r14,%r9), %rdx
	addq	$20, %rdx
	movq	48(%rsp), %r8
	leaq	(%r8,%rbp), %r10
	xorl	%r11d, %r11d
	.p2align	4
.LBB45_165:
	movups	-16(%rdx,%r11), %xmm0
	movups	(%rdx,%r11), %xmm1
	movups	%xmm0, -16(%r10,%r11)
	movups	%xmm1, (%r10,%r11)
	addq	$32, %r11
	cmpq	%r11, %rcx
	jne	.LBB45_165
	cmpl	%ecx, %eax
	movq	16(%rsp), %r8
	movq	8(%rsp), %r11
	movq	%rbx, %r10
	je	.LBB45_177
	testb	$28, %al
	je	.LBB45_171
.LBB45_168:
	movq	%r10, %rbx
	movq	%rcx, %rdx
	movq	%rax, %rcx
	andq	$-4, %rcx
	.p2align	4
.LBB45_169:
	movl	(%rsi,%rdx), %r10d
	movl	%r10d, (%rdi,%rdx)
	addq	$4, %rdx
	cmpq	%rdx, %rcx
	jne	.LBB45_169
	cmpl	%ecx, %eax
	movq	%rbx, %r10
	jne	.LBB45_171
.LBB45_177:
	movb	$0, 4(%r13,%rax)
	leaq	5(%rax), %rcx
	andq	$-4, %rax
	addq	$8, %rax
	movw	%cx, (%r13)
	movq	32(%rsp), %rdx
	movw	%dx, 2(%r13)
	movq	%rax, %rdx
	subq	%rcx, %rdx
	cmpq	$3, %rdx
	je	.LBB45_181
	cmpl	$2, %edx
	je	.LBB45_180
	cmpl	$1, %edx
	jne	.LBB45_5
.LBB45_155:
	movb	$0, (%r13,%rcx)
	jmp	.LBB45_5
.LBB45_180:
	movw	$0, (%r13,%rcx)
	jmp	.LBB45_5
.LBB45_181:
	movw	$0, (%r13,%rcx)
	movb	$0, 2(%r13,%rcx)
	jmp	.LBB45_5
.LBB45_182:
	movq	%rax, %rcx
	andq	$-32, %rcx
	leaq	(%r14,%r9), %rdx
	addq	$20, %rdx
	movq	48(%rsp), %r8
	leaq	(%r8,%rbp), %r10
	xorl	%r11d, %r11d
	.p2align	4
.LBB45_183:
	movups	-16(%rdx,%r11), %xmm0
	movups	(%rdx,%r11), %xmm1
	movups	%xmm0, -16(%r10,%r11)
	movups	%xmm1, (%r10,%r11)
	addq	$32, %r11
	cmpq	%r11, %rcx
	jne	.LBB45_183
	cmpl	%ecx, %eax
	je	.LBB45_87
	testb	$28, %al
	je	.LBB45_80
.LBB45_186:
	movq	%rcx, %rdx
	movq	%rax, %rcx
	andq	$-4, %rcx
	.p2align	4
.LBB45_187:
	movl	(%rsi,%rdx), %r10d
	movl	%r10d, (%rdi,%rdx)
	addq	$4, %rdx
	cmpq	%rdx, %rcx
	jne	.LBB45_187
	cmpl	%ecx, %eax
	jne	.LBB45_80
	jmp	.LBB45_87
.LBB45_189:
	movq	%r10, %rbx
	leaq	12(%r12), %rsi
	leaq	-12(%r13), %rdx
	movl	$2349268992, %ecx
	addq	%rcx, %rax
	addq	$65536, %rax
	leaq	(%r11,%rbp), %rcx
	movq	%rax, 4(%rcx)
	leaq	12(%rcx), %rdi
	movq	%rdi, %rax
	subq	%rsi, %rax
	cmpq	%rdx, %rax
	jae	.LBB45_147
	cmpl	$4, %edx
	jb	.LBB45_191
	leaq	(%r11,%rbp), %rcx
	subq	%r14, %rcx
	subq	%r9, %rcx
	cmpq	$32, %rcx
	jae	.LBB45_247
.LBB45_191:
	xorl	%eax, %eax
.LBB45_295:
	movq	%r13, %r10
	movq	%rax, %rcx
	andq	$3, %r10
	je	.LBB45_298
	movq	%rax, %rcx
.LBB45_297:
	movzbl	(%rsi,%rcx), %r11d
	movb	%r11b, (%rdi,%rcx)
	incq	%rcx
	decq	%r10
	jne	.LBB45_297
.LBB45_298:
	negq	%rax
	addq	%r13, %rax
	addq	$-13, %rax
	cmpl	$3, %eax
	movq	16(%rsp), %r8
	movq	8(%rsp), %r11
	jb	.LBB45_148
	leaq	(%r14,%r9), %rax
	addq	$15, %rax
	movq	80(%rsp), %rsi
	addq	%rbp, %rsi
.LBB45_300:
	movzbl	-3(%rax,%rcx), %edi
	movb	%dil, -3(%rsi,%rcx)
	movzbl	-2(%rax,%rcx), %edi
	movb	%dil, -2(%rsi,%rcx)
	movzbl	-1(%rax,%rcx), %edi
	movb	%dil, -1(%rsi,%rcx)
	movzbl	(%rax,%rcx), %edi
	movb	%dil, (%rsi,%rcx)
	addq	$4, %rcx
	cmpq	%rcx, %rdx
	jne	.LBB45_300
	jmp	.LBB45_148
.LBB45_192:
	movzwl	32(%rsp), %ebx
	orl	$32768, %ebx
	movq	24(%rsp), %r13
	leaq	4(%r13), %rdx
	movq	%rsi, %rdi
	movq	%rax, %rsi
	callq	nla_wire.members.write_each.1f0cb788f492ced5
	leaq	4(%rax), %rcx
	addq	$7, %rax
	andq	$-4, %rax
	movw	%cx, (%r13)
	movw	%bx, 2(%r13)
	movq	%rax, %rdx
	subq	%rcx, %rdx
	cmpq	$3, %rdx
	je	.LBB45_71
	cmpq	$2, %rdx
	movq	%r14, %r10
	je	.LBB45_194
.LBB45_154:
	cmpq	$1, %rdx
	movq	16(%rsp), %r8
	movq	8(%rsp), %r11
	jne	.LBB45_5
	jmp	.LBB45_155
.LBB45_71:
	movw	$0, (%r13,%rcx)
	movb	$0, 2(%r13,%rcx)
.LBB45_73:
	movq	16(%rsp), %r8
	movq	8(%rsp), %r11
	movq	%r14, %r10
	jmp	.LBB45_5
.LBB45_195:
	movq	%rax, %rcx
	andq	$-32, %rcx
	leaq	(%r14,%r9), %rdx
	addq	$20, %rdx
	movq	48(%rsp), %r8
	leaq	(%r8,%rbp), %r10
	xorl	%r11d, %r11d
	.p2align	4
.LBB45_196:
	movups	-16(%rdx,%r11), %xmm0
	movups	(%rdx,%r11), %xmm1
	movups	%xmm0, -16(%r10,%r11)
	movups	%xmm1, (%r10,%r11)
	addq	$32, %r11
	cmpq	%r11, %rcx
	jne	.LBB45_196
	cmpl	%ecx, %eax
	je	.LBB45_208
	testb	$28, %al
	je	.LBB45_202
.LBB45_199:
	movq	%rcx, %rdx
	movq	%rax, %rcx
	andq	$-4, %rcx
	.p2align	4
.LBB45_200:
	movl	(%rsi,%rdx), %r10d
	movl	%r10d, (%rdi,%rdx)
	addq	$4, %rdx
	cmpq	%rdx, %rcx
	jne	.LBB45_200
	cmpl	%ecx, %eax
	je	.LBB45_208
	jmp	.LBB45_202
.LBB45_211:
	movq	%r10, %rbx
	movq	24(%rsp), %r14
	leaq	4(%r14), %rdx
	addq	$-4, %rcx
	movq	%rsi, %rdi
	movq	%rax, %rsi
	callq	nla_wire.members.write_each.6cf1decf0b22dc4b
	jmp	.LBB45_63
.LBB45_217:
	movups	4(%r12), %xmm0
	movups	20(%r12), %xmm1
	movups	%xmm0, 4(%rdx)
	movups	%xmm1, 20(%rdx)
	movups	36(%r12), %xmm0
	movups	52(%r12), %xmm1
	movups	%xmm0, 36(%rdx)
	movups	%xmm1, 52(%rdx)
	movups	68(%r12), %xmm0
	movups	84(%r12), %xmm1
	movups	%xmm0, 68(%rdx)
	movups	%xmm1, 84(%rdx)
	movups	100(%r12), %xmm0
	movups	116(%r12), %xmm1
	movups	%xmm0, 100(%rdx)
	movups	%xmm1, 116(%rdx)
	movups	132(%r12), %xmm0
	movups	148(%r12), %xmm1
	movups	%xmm0, 132(%rdx)
	movups	%xmm1, 148(%rdx)
	movups	164(%r12), %xmm0
	movups	180(%r12), %xmm1
	movups	%xmm0, 164(%rdx)
	movups	%xmm1, 180(%rdx)
	movq	196(%r12), %rax
	movq	%rax, 196(%rdx)
.LBB45_218:
	movw	$204, (%rdx)
	movq	32(%rsp), %rax
	movw	%ax, 2(%rdx)
	movl	$204, %eax
	jmp	.LBB45_5
.LBB45_219:
	movl	%r13d, %eax
	andl	$48, %eax
	xorl	%ecx, %ecx
	.p2align	4
.LBB45_220:
	movups	(%rsi,%rcx), %xmm0
	movups	%xmm0, (%rdi,%rcx)
	addq	$16, %rcx
	cmpq	%rcx, %rax
	jne	.LBB45_220
	cmpl	%eax, %r13d
	je	.LBB45_232
	testb	$12, %r13b
	je	.LBB45_226
.LBB45_223:
	movq	%rax, %rcx
	movl	%r13d, %eax
	andl	$60, %eax
	.p2align	4
.LBB45_224:
	movl	(%rsi,%rcx), %edx
	movl	%edx, (%rdi,%rcx)
	addq	$4, %rcx
	cmpq	%rcx, %rax
	jne	.LBB45_224
	cmpl	%eax, %r13d
	je	.LBB45_232
	jmp	.LBB45_226
.LBB45_239:
	movups	4(%r12), %xmm0
	movups	20(%r12), %xmm1
	movups	%xmm0, 4(%rdx)
	movups	%xmm1, 20(%rdx)
	movups	36(%r12), %xmm0
	movups	52(%r12), %xmm1
	movups	%xmm0, 36(%rdx)
	movups	%xmm1, 52(%rdx)
	movups	68(%r12), %xmm0
	movups	84(%r12), %xmm1
	movups	%xmm0, 68(%rdx)
	movups	%xmm1, 84(%rdx)
.LBB45_240:
	movw	$100, (%rdx)
	movq	32(%rsp), %rax
	movw	%ax, 2(%rdx)
	movl	$100, %eax
	jmp	.LBB45_5
.LBB45_241:
	movq	%r10, %rbx
	jmp	.LBB45_147
.LBB45_242:
	movq	%r10, %rbx
	cmpl	$32, %eax
	jae	.LBB45_249
	xorl	%ecx, %ecx
	jmp	.LBB45_253
.LBB45_215:
	cmpl	$32, %eax
	jae	.LBB45_256
	xorl	%ecx, %ecx
	jmp	.LBB45_260
.LBB45_244:
	movq	%r10, %rbx
	cmpl	$32, %eax
	jae	.LBB45_272
	xorl	%ecx, %ecx
	jmp	.LBB45_276
.LBB45_249:
	movq	%rax, %rcx
	andq	$-32, %rcx
	leaq	(%r14,%r9), %rdx
	addq	$20, %rdx
	movq	48(%rsp), %r8
	leaq	(%r8,%rbp), %r10
	xorl	%r11d, %r11d
.LBB45_250:
	movups	-16(%rdx,%r11), %xmm0
	movups	(%rdx,%r11), %xmm1
	movups	%xmm0, -16(%r10,%r11)
	movups	%xmm1, (%r10,%r11)
	addq	$32, %r11
	cmpq	%r11, %rcx
	jne	.LBB45_250
	cmpl	%ecx, %eax
	movq	16(%rsp), %r8
	movq	8(%rsp), %r11
	je	.LBB45_148
	testb	$28, %al
	je	.LBB45_118
.LBB45_253:
	movq	%rcx, %rdx
	movq	%rax, %rcx
	andq	$-4, %rcx
.LBB45_254:
	movl	(%rsi,%rdx), %r10d
	movl	%r10d, (%rdi,%rdx)
	addq	$4, %rdx
	cmpq	%rdx, %rcx
	jne	.LBB45_254
	cmpl	%ecx, %eax
	jne	.LBB45_118
	jmp	.LBB45_148
.LBB45_256:
	movq	%rax, %rcx
	andq	$-32, %rcx
	leaq	(%r14,%r9), %rdx
	addq	$20, %rdx
	movq	48(%rsp), %r8
	leaq	(%r8,%rbp), %r10
	xorl	%r11d, %r11d
.LBB45_257:
	movups	-16(%rdx,%r11), %xmm0
	movups	(%rdx,%r11), %xmm1
	movups	%xmm0, -16(%r10,%r11)
	movups	%xmm1, (%r10,%r11)
	addq	$32, %r11
	cmpq	%r11, %rcx
	jne	.LBB45_257
	cmpl	%ecx, %eax
	je	.LBB45_269
	testb	$28, %al
	je	.LBB45_263
.LBB45_260:
	movq	%rcx, %rdx
	movq	%rax, %rcx
	andq	$-4, %rcx
.LBB45_261:
	movl	(%rsi,%rdx), %r10d
	movl	%r10d, (%rdi,%rdx)
	addq	$4, %rdx
	cmpq	%rdx, %rcx
	jne	.LBB45_261
	cmpl	%ecx, %eax
	je	.LBB45_269
	jmp	.LBB45_263
.LBB45_272:
	movq	%rax, %rcx
	andq	$-32, %rcx
	leaq	(%r14,%r9), %rdx
	addq	$20, %rdx
	movq	48(%rsp), %r8
	leaq	(%r8,%rbp), %r10
	xorl	%r11d, %r11d
.LBB45_273:
	movups	-16(%rdx,%r11), %xmm0
	movups	(%rdx,%r11), %xmm1
	movups	%xmm0, -16(%r10,%r11)
	movups	%xmm1, (%r10,%r11)
	addq	$32, %r11
	cmpq	%r11, %rcx
	jne	.LBB45_273
	cmpl	%ecx, %eax
	je	.LBB45_160
	testb	$28, %al
	je	.LBB45_99
.LBB45_276:
	movq	%rcx, %rdx
	movq	%rax, %rcx
	andq	$-4, %rcx
.LBB45_277:
	movl	(%rsi,%rdx), %r10d
	movl	%r10d, (%rdi,%rdx)
	addq	$4, %rdx
	cmpq	%rdx, %rcx
	jne	.LBB45_277
	cmpl	%ecx, %eax
	jne	.LBB45_99
	jmp	.LBB45_160
.LBB45_279:
	movq	%r10, %rbx
	cmpl	$32, %edx
	jae	.LBB45_281
	xorl	%eax, %eax
	jmp	.LBB45_285
.LBB45_247:
	cmpl	$32, %edx
	jae	.LBB45_288
	xorl	%eax, %eax
	jmp	.LBB45_292
.LBB45_281:
	movq	%rdx, %rax
	andq	$-32, %rax
	leaq	(%r14,%r9), %rcx
	addq	$28, %rcx
	movq	72(%rsp), %r8
	leaq	(%r8,%rbp), %r10
	xorl	%r11d, %r11d
.LBB45_282:
	movups	-16(%rcx,%r11), %xmm0
	movups	(%rcx,%r11), %xmm1
	movups	%xmm0, -16(%r10,%r11)
	movups	%xmm1, (%r10,%r11)
	addq	$32, %r11
	cmpq	%r11, %rax
	jne	.LBB45_282
	cmpl	%eax, %edx
	movq	16(%rsp), %r8
	movq	8(%rsp), %r11
	je	.LBB45_148
	testb	$28, %dl
	je	.LBB45_51
.LBB45_285:
	movq	%rax, %rcx
	movq	%rdx, %rax
	andq	$-4, %rax
.LBB45_286:
	movl	(%rsi,%rcx), %r10d
	movl	%r10d, (%rdi,%rcx)
	addq	$4, %rcx
	cmpq	%rcx, %rax
	jne	.LBB45_286
	cmpl	%eax, %edx
	jne	.LBB45_51
	jmp	.LBB45_148
.LBB45_288:
	movq	%rdx, %rax
	andq	$-32, %rax
	leaq	(%r14,%r9), %rcx
	addq	$28, %rcx
	movq	72(%rsp), %r8
	leaq	(%r8,%rbp), %r10
	xorl	%r11d, %r11d
.LBB45_289:
	movups	-16(%rcx,%r11), %xmm0
	movups	(%rcx,%r11), %xmm1
	movups	%xmm0, -16(%r10,%r11)
	movups	%xmm1, (%r10,%r11)
	addq	$32, %r11
	cmpq	%r11, %rax
	jne	.LBB45_289
	cmpl	%eax, %edx
	movq	16(%rsp), %r8
	movq	8(%rsp), %r11
	je	.LBB45_148
	testb	$28, %dl
	je	.LBB45_295
.LBB45_292:
	movq	%rax, %rcx
	movq	%rdx, %rax
	andq	$-4, %rax
.LBB45_293:
	movl	(%rsi,%rcx), %r10d
	movl	%r10d, (%rdi,%rcx)
	addq	$4, %rcx
	cmpq	%rcx, %rax
	jne	.LBB45_293
	cmpl	%eax, %edx
	je	.LBB45_148
	jmp	.LBB45_295
.LBB45_301:
	addq	$88, %rsp
	.cfi_def_cfa_offset 56
	popq	%rbx
	.cfi_def_cfa_offset 48
	popq	%r12
	.cfi_def_cfa_offset 40
	popq	%r13
	.cfi_def_cfa_offset 32
	popq	%r14
	.cfi_def_cfa_offset 24
	popq	%r15
	.cfi_def_cfa_offset 16
	popq	%rbp
	.cfi_def_cfa_offset 8
	retq
.Lfunc_end45:
	.size	nla_wire.members.write_each.c4c48bc1b6cb0726, .Lfunc_end45-nla_wire.members.write_each.c4c48bc1b6cb0726
	.cfi_endproc
	.section	.rodata.nla_wire.members.write_each.c4c48bc1b6cb0726,"a",@progbits
	.p2align	2, 0x0
.LJTI45_0:
	.long	.LBB45_76-.LJTI45_0
	.long	.LBB45_76-.LJTI45_0
	.long	.LBB45_13-.LJTI45_0
	.long	.LBB45_11-.LJTI45_0
	.long	.LBB45_11-.LJTI45_0
	.long	.LBB45_13-.LJTI45_0
	.long	.LBB45_94-.LJTI45_0
	.long	.LBB45_58-.LJTI45_0
	.long	.LBB45_58-.LJTI45_0
	.long	.LBB45_11-.LJTI45_0
	.long	.LBB45_42-.LJTI45_0
	.long	.LBB45_57-.LJTI45_0
	.long	.LBB45_11-.LJTI45_0
	.long	.LBB45_68-.LJTI45_0
	.long	.LBB45_58-.LJTI45_0
	.long	.LBB45_19-.LJTI45_0
	.long	.LBB45_19-.LJTI45_0
	.long	.LBB45_91-.LJTI45_0
	.long	.LBB45_11-.LJTI45_0
	.long	.LBB45_13-.LJTI45_0
	.long	.LBB45_11-.LJTI45_0
	.long	.LBB45_62-.LJTI45_0
	.long	.LBB45_34-.LJTI45_0
	.long	.LBB45_106-.LJTI45_0
	.long	.LBB45_93-.LJTI45_0
	.long	.LBB45_75-.LJTI45_0
	.long	.LBB45_11-.LJTI45_0
	.long	.LBB45_11-.LJTI45_0
	.long	.LBB45_11-.LJTI45_0
	.long	.LBB45_11-.LJTI45_0
	.long	.LBB45_11-.LJTI45_0
	.long	.LBB45_11-.LJTI45_0
	.long	.LBB45_19-.LJTI45_0
	.long	.LBB45_20-.LJTI45_0
	.long	.LBB45_11-.LJTI45_0
	.long	.LBB45_20-.LJTI45_0
	.long	.LBB45_11-.LJTI45_0
	.long	.LBB45_13-.LJTI45_0
	.long	.LBB45_19-.LJTI45_0
	.long	.LBB45_11-.LJTI45_0
	.long	.LBB45_11-.LJTI45_0
	.long	.LBB45_58-.LJTI45_0
	.long	.LBB45_69-.LJTI45_0
	.long	.LBB45_11-.LJTI45_0
	.long	.LBB45_11-.LJTI45_0
	.long	.LBB45_11-.LJTI45_0
	.long	.LBB45_11-.LJTI45_0
	.long	.LBB45_11-.LJTI45_0
	.long	.LBB45_11-.LJTI45_0
	.long	.LBB45_11-.LJTI45_0
	.long	.LBB45_11-.LJTI45_0
	.long	.LBB45_38-.LJTI45_0
	.long	.LBB45_58-.LJTI45_0
	.long	.LBB45_76-.LJTI45_0
	.long	.LBB45_74-.LJTI45_0
	.long	.LBB45_13-.LJTI45_0
	.long	.LBB45_13-.LJTI45_0
	.long	.LBB45_11-.LJTI45_0
	.long	.LBB45_11-.LJTI45_0
	.long	.LBB45_11-.LJTI45_0
	.long	.LBB45_11-.LJTI45_0
	.long	.LBB45_70-.LJTI45_0
	.long	.LBB45_11-.LJTI45_0
	.long	.LBB45_11-.LJTI45_0
	.long	.LBB45_105-.LJTI45_0
	.long	.LBB45_58-.LJTI45_0
	.long	.LBB45_92-.LJTI45_0
	.long	.LBB45_23-.LJTI45_0
	.long	.LBB45_23-.LJTI45_0
.LJTI45_1:
	.long	.LBB45_211-.LJTI45_1
	.long	.LBB45_76-.LJTI45_1
	.long	.LBB45_93-.LJTI45_1
	.long	.LBB45_76-.LJTI45_1
	.long	.LBB45_76-.LJTI45_1
	.long	.LBB45_76-.LJTI45_1

	.section	.text.nla_wire.members.write_each.49064c0641319ce4,"ax",@progbits
	.p2align	4
	.type	nla_wire.members.write_each.49064c0641319ce4,@function
nla_wire.members.write_each.49064c0641319ce4:
	.cfi_startproc
	pushq	%rbp
	.cfi_def_cfa_offset 16
	pushq	%r15
	.cfi_def_cfa_offset 24
	pushq	%r14
	.cfi_def_cfa_offset 32
	pushq	%r13
	.cfi_def_cfa_offset 40
	pushq	%r12
	.cfi_def_cfa_offset 48
	pushq	%rbx
	.cfi_def_cfa_offset 56
	subq	$40, %rsp
	.cfi_def_cfa_offset 96
	.cfi_offset %rbx, -56
	.cfi_offset %r12, -48
	.cfi_offset %r13, -40
	.cfi_offset %r14, -32
	.cfi_offset %r15, -24
	.cfi_offset %rbp, -16
	testq	%rsi, %rsi
	je	.LBB46_79
	movq	%rsi, %r15
	movq	%rdi, %r12
	leaq	20(%rdx), %rax
	movq	%rax, 8(%rsp)
	leaq	7(%rdx), %rax
	movq	%rax, 16(%rsp)
	xorl	%ebx, %ebx
	xorl	%r11d, %r11d
	movq	%rdx, (%rsp)
	jmp	.LBB46_5
.LBB46_77:
	movw	$0, (%r10,%rax)
	.p2align	4
.LBB46_4:
	addq	%rbp, %rbx
	cmpq	%r11, %r15
	jbe	.LBB46_80
.LBB46_5:
	subq	%r11, %r15
	cmpq	$4, %r15
	jb	.LBB46_80
	movq	%r12, %rax
	movq	%r11, %rcx
	addq	%r11, %r12
	movzwl	(%r12), %r13d
	cmpw	$4, %r13w
	jb	.LBB46_80
	cmpq	%r13, %r15
	jb	.LBB46_80
	movzwl	2(%r12), %r14d
	leaq	4(%r12), %rsi
	leaq	-4(%r13), %rbp
	leal	3(%r13), %r11d
	andl	$-4, %r11d
	leaq	(%rdx,%rbx), %r10
	movl	%r14d, %edi
	andl	$16383, %edi
	cmpw	$1, %di
	jne	.LBB46_22
	testq	%rbp, %rbp
	je	.LBB46_11
	cmpb	$0, -5(%rsi,%r13)
	je	.LBB46_29
.LBB46_11:
	leaq	4(%r10), %rdi
	cmpl	$4, %ebp
	jae	.LBB46_30
.LBB46_12:
	movq	%rdi, %r8
	subq	%rsi, %r8
	cmpq	%rbp, %r8
	jae	.LBB46_26
	cmpl	$4, %ebp
	jb	.LBB46_15
	movq	%r10, %r8
	subq	%rax, %r8
	subq	%rcx, %r8
	cmpq	$32, %r8
	jae	.LBB46_42
.LBB46_15:
	movq	%r11, %r14
	xorl	%r11d, %r11d
.LBB46_16:
	movq	%r10, %r13
	movq	%rbp, %r9
	movq	%r11, %r8
	andq	$3, %r9
	je	.LBB46_19
	movq	%r11, %r8
	.p2align	4
.LBB46_18:
	movzbl	(%rsi,%r8), %r10d
	movb	%r10b, (%rdi,%r8)
	incq	%r8
	decq	%r9
	jne	.LBB46_18
.LBB46_19:
	subl	%ebp, %r11d
	cmpl	$-4, %r11d
	movq	%r13, %r10
	ja	.LBB46_73
	addq	%rcx, %rax
	addq	$7, %rax
	movq	16(%rsp), %rcx
	addq	%rbx, %rcx
	.p2align	4
.LBB46_21:
	movzbl	-3(%rax,%r8), %esi
	movb	%sil, -3(%rcx,%r8)
	movzbl	-2(%rax,%r8), %esi
	movb	%sil, -2(%rcx,%r8)
	movzbl	-1(%rax,%r8), %esi
	movb	%sil, -1(%rcx,%r8)
	movzbl	(%rax,%r8), %esi
	movb	%sil, (%rcx,%r8)
	addq	$4, %r8
	cmpq	%r8, %rbp
	jne	.LBB46_21
	jmp	.LBB46_73
	.p2align	4
.LBB46_22:
	leaq	4(%r10), %rdi
	movq	%rdi, %rdx
	subq	%rsi, %rdx
	cmpq	%rbp, %rdx
	movq	%r12, 32(%rsp)
	jae	.LBB46_25
	cmpl	$4, %ebp
	movq	%r10, 24(%rsp)
	jb	.LBB46_24
	movq	%r10, %r8
	subq	%rax, %r8
	subq	%rcx, %r8
	cmpq	$32, %r8
	jae	.LBB46_36
.LBB46_24:
	xorl	%edx, %edx
.LBB46_54:
	movq	%r13, %r9
	movq	%rdx, %r8
	andq	$3, %r9
	je	.LBB46_57
	movq	%rdx, %r8
	.p2align	4
.LBB46_56:
	movzbl	(%rsi,%r8), %r10d
	movb	%r10b, (%rdi,%r8)
	incq	%r8
	decq	%r9
	jne	.LBB46_56
.LBB46_57:
	negq	%rdx
	addq	%r13, %rdx
	addq	$-5, %rdx
	cmpl	$3, %edx
	movq	24(%rsp), %r10
	jb	.LBB46_60
	addq	%rcx, %rax
	addq	$7, %rax
	movq	16(%rsp), %rcx
	addq	%rbx, %rcx
	.p2align	4
.LBB46_59:
	movzbl	-3(%rax,%r8), %edx
	movb	%dl, -3(%rcx,%r8)
	movzbl	-2(%rax,%r8), %edx
	movb	%dl, -2(%rcx,%r8)
	movzbl	-1(%rax,%r8), %edx
	movb	%dl, -1(%rcx,%r8)
	movzbl	(%rax,%r8), %edx
	movb	%dl, (%rcx,%r8)
	addq	$4, %r8
	cmpq	%r8, %rbp
	jne	.LBB46_59
	jmp	.LBB46_60
	.p2align	4
.LBB46_25:
	movq	%rbp, %rdx
	movq	%r11, %rbp
	movl	%r14d, %r12d
	movq	%rbx, %r14
	movq	%r10, %rbx
	callq	memmove@PLT
	movq	%rbx, %r10
	movq	%r14, %rbx
	movl	%r12d, %r14d
	movq	%rbp, %r11
.LBB46_60:
	movw	%r13w, (%r10)
	movw	%r14w, 2(%r10)
	movq	%r11, %rax
	subq	%r13, %rax
	cmpq	$3, %rax
	je	.LBB46_64
	cmpl	$2, %eax
	movq	(%rsp), %rdx
	movq	32(%rsp), %r12
	je	.LBB46_2
	movq	%r11, %rbp
	cmpl	$1, %eax
	jne	.LBB46_4
	movb	$0, (%r10,%r13)
	jmp	.LBB46_3
.LBB46_26:
	movq	%r11, %r14
	movq	%rbp, %rdx
	movq	%r10, %r13
	callq	memmove@PLT
	movq	%r13, %r10
	movq	(%rsp), %rdx
	jmp	.LBB46_73
.LBB46_2:
	movw	$0, (%r10,%r13)
.LBB46_3:
	movq	%r11, %rbp
	jmp	.LBB46_4
.LBB46_64:
	movw	$0, (%r10,%r13)
	movb	$0, 2(%r10,%r13)
	movq	%r11, %rbp
	movq	(%rsp), %rdx
	movq	32(%rsp), %r12
	jmp	.LBB46_4
.LBB46_29:
	addq	$-5, %r13
	movq	%r13, %rbp
	leaq	4(%r10), %rdi
	cmpl	$4, %ebp
	jb	.LBB46_12
.LBB46_30:
	cmpl	$7, %ebp
	ja	.LBB46_33
	movq	%rdi, %rax
	subq	%rsi, %rax
	movq	%r11, %r14
	cmpq	$3, %rax
	ja	.LBB46_38
	movzbl	4(%r12), %eax
	movb	%al, 4(%r10)
	movzbl	5(%r12), %eax
	movb	%al, 5(%r10)
	movzbl	6(%r12), %eax
	movb	%al, 6(%r10)
	movzbl	7(%r12), %eax
	movb	%al, 7(%r10)
	jmp	.LBB46_39
.LBB46_33:
	cmpl	$16, %ebp
	ja	.LBB46_12
	movq	%rdi, %rax
	subq	%rsi, %rax
	movq	%r11, %r14
	cmpq	$7, %rax
	ja	.LBB46_44
	movzbl	4(%r12), %eax
	movb	%al, 4(%r10)
	movzbl	5(%r12), %eax
	movb	%al, 5(%r10)
	movzbl	6(%r12), %eax
	movb	%al, 6(%r10)
	movzbl	7(%r12), %eax
	movb	%al, 7(%r10)
	movzbl	8(%r12), %eax
	movb	%al, 8(%r10)
	movzbl	9(%r12), %eax
	movb	%al, 9(%r10)
	movzbl	10(%r12), %eax
	movb	%al, 10(%r10)
	movzbl	11(%r12), %eax
	movb	%al, 11(%r10)
	jmp	.LBB46_45
.LBB46_36:
	cmpl	$32, %ebp
	jae	.LBB46_47
	xorl	%edx, %edx
	jmp	.LBB46_51
.LBB46_38:
	movl	(%rsi), %eax
	movl	%eax, (%rdi)
.LBB46_39:
	leaq	(%r10,%rbp), %rax
	leaq	(%rsi,%rbp), %rcx
	addq	$-4, %rcx
	movq	%rax, %rdi
	subq	%rcx, %rdi
	cmpq	$3, %rdi
	ja	.LBB46_41
	addq	%rbp, %rsi
	movzbl	-4(%rsi), %ecx
	movb	%cl, (%rax)
	movzbl	-3(%rsi), %ecx
	movb	%cl, 1(%rax)
	movzbl	-2(%rsi), %ecx
	movb	%cl, 2(%rax)
	movzbl	-1(%rsi), %ecx
	movb	%cl, 3(%rax)
	jmp	.LBB46_73
.LBB46_41:
	movl	(%rcx), %ecx
	movl	%ecx, (%rax)
	jmp	.LBB46_73
.LBB46_42:
	movq	%r11, %r14
	cmpl	$32, %ebp
	jae	.LBB46_66
	xorl	%r11d, %r11d
	jmp	.LBB46_70
.LBB46_44:
	movq	(%rsi), %rax
	movq	%rax, (%rdi)
.LBB46_45:
	leaq	-8(%rbp), %rax
	addq	%rax, %rdi
	addq	%rax, %rsi
	movq	%rdi, %rax
	subq	%rsi, %rax
	cmpq	$7, %rax
	ja	.LBB46_65
	movzbl	(%rsi), %eax
	movb	%al, (%rdi)
	movzbl	1(%rsi), %eax
	movb	%al, 1(%rdi)
	movzbl	2(%rsi), %eax
	movb	%al, 2(%rdi)
	movzbl	3(%rsi), %eax
	movb	%al, 3(%rdi)
	movzbl	4(%rsi), %eax
	movb	%al, 4(%rdi)
	movzbl	5(%rsi), %eax
	movb	%al, 5(%rdi)
	movzbl	6(%rsi), %eax
	movb	%al, 6(%rdi)
	movzbl	7(%rsi), %eax
	movb	%al, 7(%rdi)
	jmp	.LBB46_73
.LBB46_47:
	movq	%rbp, %rdx
	andq	$-32, %rdx
	leaq	(%rax,%rcx), %r8
	addq	$20, %r8
	movq	8(%rsp), %r9
	addq	%rbx, %r9
	xorl	%r10d, %r10d
	.p2align	4
.LBB46_48:
	movups	-16(%r8,%r10), %xmm0
	movups	(%r8,%r10), %xmm1
	movups	%xmm0, -16(%r9,%r10)
	movups	%xmm1, (%r9,%r10)
	addq	$32, %r10
	cmpq	%r10, %rdx
	jne	.LBB46_48
	cmpl	%edx, %ebp
	movq	24(%rsp), %r10
	je	.LBB46_60
	testb	$28, %bpl
	je	.LBB46_54
.LBB46_51:
	movq	%rdx, %r8
	movq	%rbp, %rdx
	andq	$-4, %rdx
	.p2align	4
.LBB46_52:
	movl	(%rsi,%r8), %r9d
	movl	%r9d, (%rdi,%r8)
	addq	$4, %r8
	cmpq	%r8, %rdx
	jne	.LBB46_52
	cmpl	%edx, %ebp
	je	.LBB46_60
	jmp	.LBB46_54
.LBB46_65:
	movq	(%rsi), %rax
	movq	%rax, (%rdi)
	jmp	.LBB46_73
.LBB46_66:
	movq	%r10, %r13
	movq	%rbp, %r11
	andq	$-32, %r11
	leaq	(%rax,%rcx), %r8
	addq	$20, %r8
	movq	8(%rsp), %r9
	addq	%rbx, %r9
	xorl	%r10d, %r10d
	.p2align	4
.LBB46_67:
	movups	-16(%r8,%r10), %xmm0
	movups	(%r8,%r10), %xmm1
	movups	%xmm0, -16(%r9,%r10)
	movups	%xmm1, (%r9,%r10)
	addq	$32, %r10
	cmpq	%r10, %r11
	jne	.LBB46_67
	cmpl	%r11d, %ebp
	movq	%r13, %r10
	je	.LBB46_73
	testb	$28, %bpl
	je	.LBB46_16
.LBB46_70:
	movq	%r11, %r8
	movq	%rbp, %r11
	andq	$-4, %r11
	.p2align	4
.LBB46_71:
	movl	(%rsi,%r8), %r9d
	movl	%r9d, (%rdi,%r8)
	addq	$4, %r8
	cmpq	%r8, %r11
	jne	.LBB46_71
	cmpl	%r11d, %ebp
	jne	.LBB46_16
	.p2align	4
.LBB46_73:
	movb	$0, 4(%r10,%rbp)
	leaq	5(%rbp), %rax
	andq	$-4, %rbp
	addq	$8, %rbp
	movw	%ax, (%r10)
	movw	$1, 2(%r10)
	movq	%rbp, %rcx
	subq	%rax, %rcx
	cmpq	$3, %rcx
	je	.LBB46_78
	cmpl	$2, %ecx
	movq	%r14, %r11
	je	.LBB46_77
	cmpl	$1, %ecx
	jne	.LBB46_4
	movb	$0, (%r10,%rax)
	jmp	.LBB46_4
.LBB46_78:
	movw	$0, (%r10,%rax)
	movb	$0, 2(%r10,%rax)
	movq	%r14, %r11
	jmp	.LBB46_4
.LBB46_79:
	xorl	%ebx, %ebx
.LBB46_80:
	movq	%rbx, %rax
	addq	$40, %rsp
	.cfi_def_cfa_offset 56
	popq	%rbx
	.cfi_def_cfa_offset 48
	popq	%r12
	.cfi_def_cfa_offset 40
	popq	%r13
	.cfi_def_cfa_offset 32
	popq	%r14
	.cfi_def_cfa_offset 24
	popq	%r15
	.cfi_def_cfa_offset 16
	popq	%rbp
	.cfi_def_cfa_offset 8
	retq
.Lfunc_end46:
	.size	nla_wire.members.write_each.49064c0641319ce4, .Lfunc_end46-nla_wire.members.write_each.49064c0641319ce4
	.cfi_endproc

	.section	.text.nla_wire.members.write_each.3bb4c8661a1029f4,"ax",@progbits
	.p2align	4
	.type	nla_wire.members.write_each.3bb4c8661a1029f4,@function
nla_wire.members.write_each.3bb4c8661a1029f4:
	.cfi_startproc
	pushq	%rbp
	.cfi_def_cfa_offset 16
	pushq	%r15
	.cfi_def_cfa_offset 24
	pushq	%r14
	.cfi_def_cfa_offset 32
	pushq	%r13
	.cfi_def_cfa_offset 40
	pushq	%r12
	.cfi_def_cfa_offset 48
	pushq	%rbx
	.cfi_def_cfa_offset 56
	pushq	%rax
	.cfi_def_cfa_offset 64
	.cfi_offset %rbx, -56
	.cfi_offset %r12, -48
	.cfi_offset %r13, -40
	.cfi_offset %r14, -32
	.cfi_offset %r15, -24
	.cfi_offset %rbp, -16
	testq	%rsi, %rsi
	je	.LBB47_1
	movq	%rdx, %r15
	movq	%rsi, %r12
	movq	%rdi, %r13
	addq	$-4, %rcx
	xorl	%ebx, %ebx
	xorl	%ebp, %ebp
	jmp	.LBB47_3
.LBB47_11:
	leaq	(%r15,%rbx), %rdx
	movw	$0, (%rdx,%rcx)
.LBB47_13:
	addq	%rax, %rbx
	movq	%r14, %rcx
.LBB47_14:
	addl	$3, %ebp
	andl	$-4, %ebp
	cmpq	%rbp, %r12
	jbe	.LBB47_15
.LBB47_3:
	subq	%rbp, %r12
	cmpq	$4, %r12
	jb	.LBB47_15
	addq	%rbp, %r13
	movzwl	(%r13), %ebp
	cmpw	$4, %bp
	jb	.LBB47_15
	cmpq	%rbp, %r12
	jb	.LBB47_15
	movzwl	2(%r13), %eax
	andl	$16383, %eax
	cmpw	$1, %ax
	jne	.LBB47_14
	leaq	-4(%rbp), %rsi
	leaq	4(%r13), %rdi
	leaq	(%r15,%rbx), %rdx
	addq	$4, %rdx
	movq	%rcx, %r14
	subq	%rbx, %rcx
	callq	nla_wire.members.write_each.41ac5f0caeaa9df8
	leaq	4(%rax), %rcx
	addq	$7, %rax
	andq	$-4, %rax
	movw	%cx, (%r15,%rbx)
	movw	$1, 2(%r15,%rbx)
	movq	%rax, %rdx
	subq	%rcx, %rdx
	cmpq	$3, %rdx
	je	.LBB47_12
	cmpq	$2, %rdx
	je	.LBB47_11
	cmpq	$1, %rdx
	jne	.LBB47_13
	leaq	(%r15,%rbx), %rdx
	movb	$0, (%rdx,%rcx)
	jmp	.LBB47_13
.LBB47_12:
	leaq	(%r15,%rbx), %rdx
	movw	$0, (%rdx,%rcx)
	movb	$0, 2(%rdx,%rcx)
	jmp	.LBB47_13
.LBB47_1:
	xorl	%ebx, %ebx
.LBB47_15:
	movq	%rbx, %rax
	addq	$8, %rsp
	.cfi_def_cfa_offset 56
	popq	%rbx
	.cfi_def_cfa_offset 48
	popq	%r12
	.cfi_def_cfa_offset 40
	popq	%r13
	.cfi_def_cfa_offset 32
	popq	%r14
	.cfi_def_cfa_offset 24
	popq	%r15
	.cfi_def_cfa_offset 16
	popq	%rbp
	.cfi_def_cfa_offset 8
	retq
.Lfunc_end47:
	.size	nla_wire.members.write_each.3bb4c8661a1029f4, .Lfunc_end47-nla_wire.members.write_each.3bb4c8661a1029f4
	.cfi_endproc

	.section	.text.nla_wire.members.write_each.41ac5f0caeaa9df8,"ax",@progbits
	.p2align	4
	.type	nla_wire.members.write_each.41ac5f0caeaa9df8,@function
nla_wire.members.write_each.41ac5f0caeaa9df8:
	.cfi_startproc
	pushq	%rbp
	.cfi_def_cfa_offset 16
	pushq	%r15
	.cfi_def_cfa_offset 24
	pushq	%r14
	.cfi_def_cfa_offset 32
	pushq	%r13
	.cfi_def_cfa_offset 40
	pushq	%r12
	.cfi_def_cfa_offset 48
	pushq	%rbx
	.cfi_def_cfa_offset 56
	subq	$136, %rsp
	.cfi_def_cfa_offset 192
	.cfi_offset %rbx, -56
	.cfi_offset %r12, -48
	.cfi_offset %r13, -40
	.cfi_offset %r14, -32
	.cfi_offset %r15, -24
	.cfi_offset %rbp, -16
	testq	%rsi, %rsi
	je	.LBB48_66
	movq	%rsi, %r15
	movq	%rdi, %r12
	leaq	20(%rdx), %rax
	movq	%rax, 24(%rsp)
	leaq	7(%rdx), %rax
	movq	%rax, 32(%rsp)
	xorl	%ebx, %ebx
	xorl	%r11d, %r11d
	movq	%rdx, 8(%rsp)
	jmp	.LBB48_5
.LBB48_19:
	movq	(%rsi), %rax
	movq	%rax, 4(%r9)
	movl	$196620, (%r9)
	movl	$12, %eax
	.p2align	4
.LBB48_4:
	addq	%rax, %rbx
	cmpq	%r11, %r15
	jbe	.LBB48_67
.LBB48_5:
	subq	%r11, %r15
	cmpq	$4, %r15
	jb	.LBB48_67
	movq	%r12, %rcx
	movq	%r11, %rbp
	addq	%r11, %r12
	movzwl	(%r12), %r14d
	cmpw	$4, %r14w
	jb	.LBB48_67
	cmpq	%r14, %r15
	jb	.LBB48_67
	movzwl	2(%r12), %r13d
	leaq	4(%r12), %rsi
	leaq	-4(%r14), %rax
	leal	3(%r14), %r11d
	andl	$-4, %r11d
	leaq	(%rdx,%rbx), %r9
	movl	%r13d, %edi
	andl	$16383, %edi
	decl	%edi
	cmpl	$12, %edi
	ja	.LBB48_27
	leaq	.LJTI48_0(%rip), %rcx
	movslq	(%rcx,%rdi,4), %rdi
	addq	%rcx, %rdi
	jmpq	*%rdi
.LBB48_10:
	movl	4(%r12), %eax
	movups	24(%r12), %xmm0
	movaps	%xmm0, 112(%rsp)
	movups	8(%r12), %xmm0
	movaps	%xmm0, 96(%rsp)
	movups	8(%r12), %xmm0
	movups	24(%r12), %xmm1
	leaq	52(%rsp), %rsi
	movups	%xmm1, 16(%rsi)
	movups	%xmm0, (%rsi)
	movl	%eax, 4(%r9)
	leaq	8(%r9), %rax
	movq	%rax, %rcx
	subq	%rsi, %rcx
	cmpq	$31, %rcx
	ja	.LBB48_37
	movups	52(%rsp), %xmm0
	movups	%xmm0, 8(%r9)
	movups	68(%rsp), %xmm0
	movups	%xmm0, 24(%r9)
	jmp	.LBB48_38
.LBB48_12:
	movq	%r11, %r14
	leaq	4(%r9), %rdx
	movq	%rsi, %rdi
	movq	%rax, %rsi
	movq	%r9, %r13
	callq	nla_wire.members.write_each.9a0187163d44de3c
	movq	%r13, %rsi
	leaq	4(%rax), %rcx
	addq	$7, %rax
	andq	$-4, %rax
	movw	%cx, (%r13)
	movw	$12, 2(%r13)
	movq	%rax, %rdx
	subq	%rcx, %rdx
	cmpq	$3, %rdx
	je	.LBB48_36
	cmpq	$2, %rdx
	movq	%r14, %r11
	je	.LBB48_33
.LBB48_14:
	cmpq	$1, %rdx
	movq	8(%rsp), %rdx
	jne	.LBB48_4
	movb	$0, (%rsi,%rcx)
	jmp	.LBB48_4
.LBB48_15:
	movl	4(%r12), %esi
	movl	8(%r12), %ecx
	cmpl	$3, %ecx
	movl	$3, %eax
	cmovbl	%ecx, %eax
	movl	%esi, 4(%r9)
	leaq	.LJTI48_1(%rip), %rdi
	movslq	(%rdi,%rax,4), %rsi
	addq	%rdi, %rsi
	jmpq	*%rsi
.LBB48_16:
	movl	$1, %eax
	jmp	.LBB48_42
.LBB48_17:
	movups	(%rsi), %xmm0
	movups	16(%rsi), %xmm1
	movaps	%xmm1, 64(%rsp)
	movaps	%xmm0, 48(%rsp)
	leaq	4(%r9), %rax
	leaq	48(%rsp), %rcx
	movq	%rax, %rdi
	subq	%rcx, %rdi
	cmpq	$31, %rdi
	ja	.LBB48_34
	movaps	48(%rsp), %xmm0
	movups	%xmm0, 4(%r9)
	movaps	64(%rsp), %xmm0
	movups	%xmm0, 20(%r9)
	jmp	.LBB48_35
.LBB48_2:
	movl	4(%r12), %eax
	movq	12(%r12), %rcx
	movl	%eax, 4(%r9)
	movl	$0, 8(%r9)
	movq	%rcx, 12(%r9)
	movl	$655380, (%r9)
	jmp	.LBB48_3
.LBB48_20:
	movl	4(%r12), %eax
	movl	8(%r12), %ecx
	decl	%ecx
	xorl	%esi, %esi
	cmpl	$-2, %ecx
	setb	%sil
	movl	%eax, 4(%r9)
	movl	%esi, 8(%r9)
	movl	$262156, (%r9)
	movl	$12, %eax
	jmp	.LBB48_4
.LBB48_21:
	movq	%r11, %r14
	leaq	4(%r9), %rdx
	movq	%rsi, %rdi
	movq	%rax, %rsi
	movq	%r9, %r13
	callq	nla_wire.members.write_each.5361511d0f913a98
	movq	%r13, %rsi
	leaq	4(%rax), %rcx
	addq	$7, %rax
	andq	$-4, %rax
	movw	%cx, (%r13)
	movw	$8, 2(%r13)
	movq	%rax, %rdx
	subq	%rcx, %rdx
	cmpq	$3, %rdx
	je	.LBB48_36
	cmpq	$2, %rdx
	movq	%r14, %r11
	jne	.LBB48_14
.LBB48_33:
	movw	$0, (%rsi,%rcx)
	jmp	.LBB48_65
.LBB48_25:
	movl	12(%r12), %eax
	movq	4(%r12), %rcx
	movq	%rcx, 4(%r9)
	movl	%eax, 12(%r9)
	movl	$131088, (%r9)
	movl	$16, %eax
	jmp	.LBB48_4
.LBB48_26:
	movl	12(%r12), %eax
	movq	4(%r12), %rcx
	movq	%rcx, 4(%r9)
	movl	%eax, 12(%r9)
	movl	$393232, (%r9)
	movl	$16, %eax
	jmp	.LBB48_4
.LBB48_27:
	leaq	4(%r9), %rdi
	movq	%rdi, %r8
	subq	%rsi, %r8
	cmpq	%rax, %r8
	movq	%r9, 40(%rsp)
	jae	.LBB48_39
	cmpl	$4, %eax
	jb	.LBB48_29
	subq	%rcx, %r9
	subq	%rbp, %r9
	cmpq	$32, %r9
	jae	.LBB48_44
.LBB48_29:
	xorl	%r8d, %r8d
.LBB48_53:
	movq	%r11, %rdx
	movq	%r14, %r10
	movq	%r8, %r9
	andq	$3, %r10
	je	.LBB48_56
	movq	%r8, %r9
	.p2align	4
.LBB48_55:
	movzbl	(%rsi,%r9), %r11d
	movb	%r11b, (%rdi,%r9)
	incq	%r9
	decq	%r10
	jne	.LBB48_55
.LBB48_56:
	negq	%r8
	leaq	(%r14,%r8), %rsi
	addq	$-5, %rsi
	cmpl	$3, %esi
	movq	%rdx, %r11
	jb	.LBB48_59
	addq	%rbp, %rcx
	addq	$7, %rcx
	movq	32(%rsp), %rdx
	addq	%rbx, %rdx
	.p2align	4
.LBB48_58:
	movzbl	-3(%rcx,%r9), %esi
	movb	%sil, -3(%rdx,%r9)
	movzbl	-2(%rcx,%r9), %esi
	movb	%sil, -2(%rdx,%r9)
	movzbl	-1(%rcx,%r9), %esi
	movb	%sil, -1(%rdx,%r9)
	movzbl	(%rcx,%r9), %esi
	movb	%sil, (%rdx,%r9)
	addq	$4, %r9
	cmpq	%r9, %rax
	jne	.LBB48_58
	jmp	.LBB48_59
.LBB48_30:
	movl	4(%r12), %eax
	movl	8(%r12), %ecx
	decl	%ecx
	xorl	%esi, %esi
	cmpl	$-2, %ecx
	setb	%sil
	movl	%eax, 4(%r9)
	movl	%esi, 8(%r9)
	movl	$458764, (%r9)
	movl	$12, %eax
	jmp	.LBB48_4
.LBB48_31:
	movl	4(%r12), %eax
	movq	12(%r12), %rcx
	movl	%eax, 4(%r9)
	movl	$0, 8(%r9)
	movq	%rcx, 12(%r9)
	movl	$720916, (%r9)
.LBB48_3:
	movl	$20, %eax
	jmp	.LBB48_4
.LBB48_32:
	movl	4(%r12), %eax
	movl	8(%r12), %ecx
	decl	%ecx
	xorl	%esi, %esi
	cmpl	$-2, %ecx
	setb	%sil
	movl	%eax, 4(%r9)
	movl	%esi, 8(%r9)
	movl	$589836, (%r9)
	movl	$12, %eax
	jmp	.LBB48_4
.LBB48_34:
	movups	(%rsi), %xmm0
	movups	16(%rsi), %xmm1
	movups	%xmm1, 16(%rax)
	movups	%xmm0, (%rax)
.LBB48_35:
	movl	$852004, (%r9)
	movl	$36, %eax
	jmp	.LBB48_4
.LBB48_36:
	movw	$0, (%rsi,%rcx)
	movb	$0, 2(%rsi,%rcx)
	movq	8(%rsp), %rdx
	movq	%r14, %r11
	jmp	.LBB48_4
.LBB48_37:
	movaps	96(%rsp), %xmm0
	movaps	112(%rsp), %xmm1
	movups	%xmm1, 16(%rax)
	movups	%xmm0, (%rax)
.LBB48_38:
	movl	$65576, (%r9)
	movl	$40, %eax
	jmp	.LBB48_4
.LBB48_39:
	movq	%rax, %rdx
	movq	%r11, %rbp
	callq	memmove@PLT
	movq	%rbp, %r11
.LBB48_59:
	movq	40(%rsp), %rsi
	movw	%r14w, (%rsi)
	movw	%r13w, 2(%rsi)
	movq	%r11, %rcx
	subq	%r14, %rcx
	cmpq	$3, %rcx
	je	.LBB48_64
	cmpl	$2, %ecx
	movq	8(%rsp), %rdx
	je	.LBB48_63
	movq	%r11, %rax
	cmpl	$1, %ecx
	jne	.LBB48_4
	movb	$0, (%rsi,%r14)
	movq	%r11, %rax
	jmp	.LBB48_4
.LBB48_40:
	movl	$2, %eax
	jmp	.LBB48_42
.LBB48_41:
	movl	%ecx, %eax
.LBB48_42:
	movl	%eax, 8(%r9)
	movl	$327692, (%r9)
	movl	$12, %eax
	jmp	.LBB48_4
.LBB48_63:
	movw	$0, (%rsi,%r14)
	movq	%r11, %rax
	jmp	.LBB48_4
.LBB48_64:
	movw	$0, (%rsi,%r14)
	movb	$0, 2(%rsi,%r14)
	movq	%r11, %rax
.LBB48_65:
	movq	8(%rsp), %rdx
	jmp	.LBB48_4
.LBB48_44:
	cmpl	$32, %eax
	jae	.LBB48_46
	xorl	%r8d, %r8d
	jmp	.LBB48_50
.LBB48_46:
	movq	%r11, 16(%rsp)
	movq	%rax, %r8
	andq	$-32, %r8
	leaq	(%rcx,%rbp), %r9
	addq	$20, %r9
	movq	24(%rsp), %rdx
	leaq	(%rdx,%rbx), %r10
	xorl	%r11d, %r11d
	.p2align	4
.LBB48_47:
	movups	-16(%r9,%r11), %xmm0
	movups	(%r9,%r11), %xmm1
	movups	%xmm0, -16(%r10,%r11)
	movups	%xmm1, (%r10,%r11)
	addq	$32, %r11
	cmpq	%r11, %r8
	jne	.LBB48_47
	cmpl	%r8d, %eax
	movq	16(%rsp), %r11
	je	.LBB48_59
	testb	$28, %al
	je	.LBB48_53
.LBB48_50:
	movq	%r8, %r9
	movq	%rax, %r8
	andq	$-4, %r8
	.p2align	4
.LBB48_51:
	movl	(%rsi,%r9), %r10d
	movl	%r10d, (%rdi,%r9)
	addq	$4, %r9
	cmpq	%r9, %r8
	jne	.LBB48_51
	cmpl	%r8d, %eax
	je	.LBB48_59
	jmp	.LBB48_53
.LBB48_66:
	xorl	%ebx, %ebx
.LBB48_67:
	movq	%rbx, %rax
	addq	$136, %rsp
	.cfi_def_cfa_offset 56
	popq	%rbx
	.cfi_def_cfa_offset 48
	popq	%r12
	.cfi_def_cfa_offset 40
	popq	%r13
	.cfi_def_cfa_offset 32
	popq	%r14
	.cfi_def_cfa_offset 24
	popq	%r15
	.cfi_def_cfa_offset 16
	popq	%rbp
	.cfi_def_cfa_offset 8
	retq
.Lfunc_end48:
	.size	nla_wire.members.write_each.41ac5f0caeaa9df8, .Lfunc_end48-nla_wire.members.write_each.41ac5f0caeaa9df8
	.cfi_endproc
	.section	.rodata.nla_wire.members.write_each.41ac5f0caeaa9df8,"a",@progbits
	.p2align	2, 0x0
.LJTI48_0:
	.long	.LBB48_10-.LJTI48_0
	.long	.LBB48_25-.LJTI48_0
	.long	.LBB48_19-.LJTI48_0
	.long	.LBB48_20-.LJTI48_0
	.long	.LBB48_15-.LJTI48_0
	.long	.LBB48_26-.LJTI48_0
	.long	.LBB48_30-.LJTI48_0
	.long	.LBB48_21-.LJTI48_0
	.long	.LBB48_32-.LJTI48_0
	.long	.LBB48_2-.LJTI48_0
	.long	.LBB48_31-.LJTI48_0
	.long	.LBB48_12-.LJTI48_0
	.long	.LBB48_17-.LJTI48_0
.LJTI48_1:
	.long	.LBB48_42-.LJTI48_1
	.long	.LBB48_16-.LJTI48_1
	.long	.LBB48_40-.LJTI48_1
	.long	.LBB48_41-.LJTI48_1

	.section	.text.nla_wire.members.write_each.5361511d0f913a98,"ax",@progbits
	.p2align	4
	.type	nla_wire.members.write_each.5361511d0f913a98,@function
nla_wire.members.write_each.5361511d0f913a98:
	.cfi_startproc
	testq	%rsi, %rsi
	je	.LBB49_2
	pushq	%rbp
	.cfi_def_cfa_offset 16
	pushq	%r15
	.cfi_def_cfa_offset 24
	pushq	%r14
	.cfi_def_cfa_offset 32
	pushq	%r13
	.cfi_def_cfa_offset 40
	pushq	%r12
	.cfi_def_cfa_offset 48
	pushq	%rbx
	.cfi_def_cfa_offset 56
	subq	$40, %rsp
	.cfi_def_cfa_offset 96
	.cfi_offset %rbx, -56
	.cfi_offset %r12, -48
	.cfi_offset %r13, -40
	.cfi_offset %r14, -32
	.cfi_offset %r15, -24
	.cfi_offset %rbp, -16
	movq	%rdi, %r14
	leaq	20(%rdx), %rax
	movq	%rax, 16(%rsp)
	leaq	7(%rdx), %rax
	movq	%rax, 32(%rsp)
	xorl	%eax, %eax
	xorl	%r13d, %r13d
	movq	%rdx, 8(%rsp)
	.p2align	4
.LBB49_7:
	subq	%r13, %rsi
	cmpq	$4, %rsi
	jb	.LBB49_69
	movq	%r14, %r8
	movq	%r13, %r9
	addq	%r13, %r14
	movzwl	(%r14), %ebx
	cmpw	$4, %bx
	jb	.LBB49_69
	cmpq	%rbx, %rsi
	jb	.LBB49_69
	movzwl	2(%r14), %r12d
	leaq	4(%r14), %rcx
	leal	3(%rbx), %r13d
	andl	$-4, %r13d
	leaq	(%rdx,%rax), %rbp
	movl	%r12d, %r15d
	andl	$16383, %r15d
	leaq	(%rdx,%rax), %rdi
	addq	$4, %rdi
	movq	%rdi, %r10
	subq	%rcx, %r10
	cmpl	$8, %r15d
	ja	.LBB49_14
	leaq	.LJTI49_0(%rip), %r11
	movslq	(%r11,%r15,4), %r15
	addq	%r11, %r15
	jmpq	*%r15
.LBB49_12:
	cmpq	$7, %r10
	ja	.LBB49_40
	movzbl	4(%r14), %ecx
	movb	%cl, 4(%rbp)
	movzbl	5(%r14), %ecx
	movb	%cl, 5(%rbp)
	movzbl	6(%r14), %ecx
	movb	%cl, 6(%rbp)
	movzbl	7(%r14), %ecx
	movb	%cl, 7(%rbp)
	movzbl	8(%r14), %ecx
	movb	%cl, 8(%rbp)
	movzbl	9(%r14), %ecx
	movb	%cl, 9(%rbp)
	movzbl	10(%r14), %ecx
	movb	%cl, 10(%rbp)
	movzbl	11(%r14), %ecx
	movb	%cl, 11(%rbp)
	jmp	.LBB49_41
.LBB49_14:
	leaq	-4(%rbx), %r15
	cmpq	%r15, %r10
	jae	.LBB49_31
	cmpl	$4, %r15d
	jb	.LBB49_16
	movq	%rbp, %r10
	subq	%r8, %r10
	subq	%r9, %r10
	cmpq	$32, %r10
	jae	.LBB49_48
.LBB49_16:
	xorl	%r10d, %r10d
.LBB49_57:
	movq	%rbx, %r15
	movq	%r10, %r11
	andq	$3, %r15
	je	.LBB49_60
	movq	%r10, %r11
	.p2align	4
.LBB49_59:
	movzbl	(%rcx,%r11), %edx
	movb	%dl, (%rdi,%r11)
	incq	%r11
	decq	%r15
	jne	.LBB49_59
.LBB49_60:
	negq	%r10
	leaq	(%rbx,%r10), %rcx
	addq	$-5, %rcx
	cmpl	$3, %ecx
	leaq	-4(%rbx), %r10
	jb	.LBB49_63
	leaq	(%r8,%r9), %rcx
	addq	$7, %rcx
	movq	32(%rsp), %rdx
	leaq	(%rdx,%rax), %rdi
	.p2align	4
.LBB49_62:
	movzbl	-3(%rcx,%r11), %edx
	movb	%dl, -3(%rdi,%r11)
	movzbl	-2(%rcx,%r11), %edx
	movb	%dl, -2(%rdi,%r11)
	movzbl	-1(%rcx,%r11), %edx
	movb	%dl, -1(%rdi,%r11)
	movzbl	(%rcx,%r11), %edx
	movb	%dl, (%rdi,%r11)
	addq	$4, %r11
	cmpq	%r11, %r10
	jne	.LBB49_62
	jmp	.LBB49_63
.LBB49_17:
	cmpq	$7, %r10
	ja	.LBB49_3
	movzbl	4(%r14), %ecx
	movb	%cl, 4(%rbp)
	movzbl	5(%r14), %ecx
	movb	%cl, 5(%rbp)
	movzbl	6(%r14), %ecx
	movb	%cl, 6(%rbp)
	movzbl	7(%r14), %ecx
	movb	%cl, 7(%rbp)
	movzbl	8(%r14), %ecx
	movb	%cl, 8(%rbp)
	movzbl	9(%r14), %ecx
	movb	%cl, 9(%rbp)
	movzbl	10(%r14), %ecx
	movb	%cl, 10(%rbp)
	movzbl	11(%r14), %ecx
	movb	%cl, 11(%rbp)
	jmp	.LBB49_4
.LBB49_19:
	cmpq	$7, %r10
	ja	.LBB49_32
	movzbl	4(%r14), %ecx
	movb	%cl, 4(%rbp)
	movzbl	5(%r14), %ecx
	movb	%cl, 5(%rbp)
	movzbl	6(%r14), %ecx
	movb	%cl, 6(%rbp)
	movzbl	7(%r14), %ecx
	movb	%cl, 7(%rbp)
	movzbl	8(%r14), %ecx
	movb	%cl, 8(%rbp)
	movzbl	9(%r14), %ecx
	movb	%cl, 9(%rbp)
	movzbl	10(%r14), %ecx
	movb	%cl, 10(%rbp)
	movzbl	11(%r14), %ecx
	movb	%cl, 11(%rbp)
	jmp	.LBB49_33
.LBB49_21:
	cmpq	$7, %r10
	ja	.LBB49_34
	movzbl	4(%r14), %ecx
	movb	%cl, 4(%rbp)
	movzbl	5(%r14), %ecx
	movb	%cl, 5(%rbp)
	movzbl	6(%r14), %ecx
	movb	%cl, 6(%rbp)
	movzbl	7(%r14), %ecx
	movb	%cl, 7(%rbp)
	movzbl	8(%r14), %ecx
	movb	%cl, 8(%rbp)
	movzbl	9(%r14), %ecx
	movb	%cl, 9(%rbp)
	movzbl	10(%r14), %ecx
	movb	%cl, 10(%rbp)
	movzbl	11(%r14), %ecx
	movb	%cl, 11(%rbp)
	jmp	.LBB49_35
.LBB49_23:
	cmpq	$7, %r10
	ja	.LBB49_36
	movzbl	4(%r14), %ecx
	movb	%cl, 4(%rbp)
	movzbl	5(%r14), %ecx
	movb	%cl, 5(%rbp)
	movzbl	6(%r14), %ecx
	movb	%cl, 6(%rbp)
	movzbl	7(%r14), %ecx
	movb	%cl, 7(%rbp)
	movzbl	8(%r14), %ecx
	movb	%cl, 8(%rbp)
	movzbl	9(%r14), %ecx
	movb	%cl, 9(%rbp)
	movzbl	10(%r14), %ecx
	movb	%cl, 10(%rbp)
	movzbl	11(%r14), %ecx
	movb	%cl, 11(%rbp)
	jmp	.LBB49_37
.LBB49_25:
	cmpq	$7, %r10
	ja	.LBB49_38
	movzbl	4(%r14), %ecx
	movb	%cl, 4(%rbp)
	movzbl	5(%r14), %ecx
	movb	%cl, 5(%rbp)
	movzbl	6(%r14), %ecx
	movb	%cl, 6(%rbp)
	movzbl	7(%r14), %ecx
	movb	%cl, 7(%rbp)
	movzbl	8(%r14), %ecx
	movb	%cl, 8(%rbp)
	movzbl	9(%r14), %ecx
	movb	%cl, 9(%rbp)
	movzbl	10(%r14), %ecx
	movb	%cl, 10(%rbp)
	movzbl	11(%r14), %ecx
	movb	%cl, 11(%rbp)
	jmp	.LBB49_39
.LBB49_27:
	cmpq	$7, %r10
	ja	.LBB49_42
	movzbl	4(%r14), %ecx
	movb	%cl, 4(%rbp)
	movzbl	5(%r14), %ecx
	movb	%cl, 5(%rbp)
	movzbl	6(%r14), %ecx
	movb	%cl, 6(%rbp)
	movzbl	7(%r14), %ecx
	movb	%cl, 7(%rbp)
	movzbl	8(%r14), %ecx
	movb	%cl, 8(%rbp)
	movzbl	9(%r14), %ecx
	movb	%cl, 9(%rbp)
	movzbl	10(%r14), %ecx
	movb	%cl, 10(%rbp)
	movzbl	11(%r14), %ecx
	movb	%cl, 11(%rbp)
	jmp	.LBB49_43
.LBB49_29:
	cmpq	$7, %r10
	ja	.LBB49_44
	movzbl	4(%r14), %ecx
	movb	%cl, 4(%rbp)
	movzbl	5(%r14), %ecx
	movb	%cl, 5(%rbp)
	movzbl	6(%r14), %ecx
	movb	%cl, 6(%rbp)
	movzbl	7(%r14), %ecx
	movb	%cl, 7(%rbp)
	movzbl	8(%r14), %ecx
	movb	%cl, 8(%rbp)
	movzbl	9(%r14), %ecx
	movb	%cl, 9(%rbp)
	movzbl	10(%r14), %ecx
	movb	%cl, 10(%rbp)
	movzbl	11(%r14), %ecx
	movb	%cl, 11(%rbp)
	jmp	.LBB49_45
.LBB49_31:
	movq	%rsi, 24(%rsp)
	movq	%rcx, %rsi
	movq	%r15, %rdx
	movq	%rax, %r15
	callq	memmove@PLT
	movq	24(%rsp), %rsi
	movq	%r15, %rax
.LBB49_63:
	movw	%bx, (%rbp)
	movw	%r12w, 2(%rbp)
	movq	%r13, %rdi
	subq	%rbx, %rdi
	cmpq	$3, %rdi
	je	.LBB49_68
	cmpl	$2, %edi
	movq	8(%rsp), %rdx
	je	.LBB49_67
	movq	%r13, %rcx
	cmpl	$1, %edi
	jne	.LBB49_6
	movb	$0, (%rbp,%rbx)
	movq	%r13, %rcx
	jmp	.LBB49_6
.LBB49_3:
	movq	(%rcx), %rcx
	movq	%rcx, (%rdi)
.LBB49_4:
	movl	$327692, (%rbp)
	jmp	.LBB49_5
.LBB49_32:
	movq	(%rcx), %rcx
	movq	%rcx, (%rdi)
.LBB49_33:
	movl	$65548, (%rbp)
	jmp	.LBB49_5
.LBB49_34:
	movq	(%rcx), %rcx
	movq	%rcx, (%rdi)
.LBB49_35:
	movl	$458764, (%rbp)
	jmp	.LBB49_5
.LBB49_36:
	movq	(%rcx), %rcx
	movq	%rcx, (%rdi)
.LBB49_37:
	movl	$524300, (%rbp)
	jmp	.LBB49_5
.LBB49_38:
	movq	(%rcx), %rcx
	movq	%rcx, (%rdi)
.LBB49_39:
	movl	$131084, (%rbp)
	jmp	.LBB49_5
.LBB49_40:
	movq	(%rcx), %rcx
	movq	%rcx, (%rdi)
.LBB49_41:
	movl	$12, (%rbp)
	jmp	.LBB49_5
.LBB49_42:
	movq	(%rcx), %rcx
	movq	%rcx, (%rdi)
.LBB49_43:
	movl	$196620, (%rbp)
	jmp	.LBB49_5
.LBB49_44:
	movq	(%rcx), %rcx
	movq	%rcx, (%rdi)
.LBB49_45:
	movl	$262156, (%rbp)
	.p2align	4
.LBB49_5:
	movl	$12, %ecx
.LBB49_6:
	addq	%rcx, %rax
	cmpq	%r13, %rsi
	ja	.LBB49_7
	jmp	.LBB49_69
.LBB49_67:
	movw	$0, (%rbp,%rbx)
	movq	%r13, %rcx
	jmp	.LBB49_6
.LBB49_68:
	movw	$0, (%rbp,%rbx)
	movb	$0, 2(%rbp,%rbx)
	movq	%r13, %rcx
	movq	8(%rsp), %rdx
	jmp	.LBB49_6
.LBB49_48:
	cmpl	$32, %r15d
	jae	.LBB49_50
	xorl	%r10d, %r10d
	jmp	.LBB49_54
.LBB49_50:
	movq	%r15, %r10
	andq	$-32, %r10
	leaq	(%r8,%r9), %rdx
	addq	$20, %rdx
	movq	16(%rsp), %r11
	leaq	(%r11,%rax), %r15
	xorl	%r11d, %r11d
	.p2align	4
.LBB49_51:
	movups	-16(%rdx,%r11), %xmm0
	movups	(%rdx,%r11), %xmm1
	movups	%xmm0, -16(%r15,%r11)
	movups	%xmm1, (%r15,%r11)
	addq	$32, %r11
	cmpq	%r11, %r10
	jne	.LBB49_51
	leaq	-4(%rbx), %r15
	cmpl	%r10d, %r15d
	je	.LBB49_63
	testb	$28, %r15b
	je	.LBB49_57
.LBB49_54:
	movq	%r10, %rdx
	movq	%r15, %r10
	andq	$-4, %r10
	.p2align	4
.LBB49_55:
	movl	(%rcx,%rdx), %r11d
	movl	%r11d, (%rdi,%rdx)
	addq	$4, %rdx
	cmpq	%rdx, %r10
	jne	.LBB49_55
	cmpl	%r10d, %r15d
	je	.LBB49_63
	jmp	.LBB49_57
.LBB49_69:
	addq	$40, %rsp
	.cfi_def_cfa_offset 56
	popq	%rbx
	.cfi_def_cfa_offset 48
	popq	%r12
	.cfi_def_cfa_offset 40
	popq	%r13
	.cfi_def_cfa_offset 32
	popq	%r14
	.cfi_def_cfa_offset 24
	popq	%r15
	.cfi_def_cfa_offset 16
	popq	%rbp
	.cfi_def_cfa_offset 8
	.cfi_restore %rbx
	.cfi_restore %r12
	.cfi_restore %r13
	.cfi_restore %r14
	.cfi_restore %r15
	.cfi_restore %rbp
	retq
.LBB49_2:
	xorl	%eax, %eax
	retq
.Lfunc_end49:
	.size	nla_wire.members.write_each.5361511d0f913a98, .Lfunc_end49-nla_wire.members.write_each.5361511d0f913a98
	.cfi_endproc
	.section	.rodata.nla_wire.members.write_each.5361511d0f913a98,"a",@progbits
	.p2align	2, 0x0
.LJTI49_0:
	.long	.LBB49_12-.LJTI49_0
	.long	.LBB49_19-.LJTI49_0
	.long	.LBB49_25-.LJTI49_0
	.long	.LBB49_27-.LJTI49_0
	.long	.LBB49_29-.LJTI49_0
	.long	.LBB49_17-.LJTI49_0
	.long	.LBB49_14-.LJTI49_0
	.long	.LBB49_21-.LJTI49_0
	.long	.LBB49_23-.LJTI49_0

	.section	.text.nla_wire.members.write_each.9a0187163d44de3c,"ax",@progbits
	.p2align	4
	.type	nla_wire.members.write_each.9a0187163d44de3c,@function
nla_wire.members.write_each.9a0187163d44de3c:
	.cfi_startproc
	pushq	%rbp
	.cfi_def_cfa_offset 16
	pushq	%r15
	.cfi_def_cfa_offset 24
	pushq	%r14
	.cfi_def_cfa_offset 32
	pushq	%r13
	.cfi_def_cfa_offset 40
	pushq	%r12
	.cfi_def_cfa_offset 48
	pushq	%rbx
	.cfi_def_cfa_offset 56
	subq	$40, %rsp
	.cfi_def_cfa_offset 96
	.cfi_offset %rbx, -56
	.cfi_offset %r12, -48
	.cfi_offset %r13, -40
	.cfi_offset %r14, -32
	.cfi_offset %r15, -24
	.cfi_offset %rbp, -16
	testq	%rsi, %rsi
	je	.LBB50_35
	movq	%rsi, %r15
	movq	%rdi, %r12
	leaq	20(%rdx), %rax
	movq	%rax, 24(%rsp)
	leaq	7(%rdx), %rax
	movq	%rax, 32(%rsp)
	xorl	%ebx, %ebx
	xorl	%r13d, %r13d
	movq	%rdx, 16(%rsp)
	jmp	.LBB50_4
	.p2align	4
.LBB50_2:
	cmpw	$-22392, 16(%r12)
	movl	12(%r12), %eax
	movq	4(%r12), %rcx
	movq	%rcx, 4(%r11)
	movl	%eax, 12(%r11)
	movl	$43144, %eax
	movl	$129, %ecx
	cmovel	%eax, %ecx
	movw	%cx, 16(%r11)
	movw	$0, 18(%r11)
	movl	$65556, (%r11)
	movl	$20, %eax
.LBB50_3:
	addq	%rax, %rbx
	cmpq	%r13, %r15
	jbe	.LBB50_36
.LBB50_4:
	subq	%r13, %r15
	cmpq	$4, %r15
	jb	.LBB50_36
	movq	%r12, %rax
	movq	%r13, %rcx
	addq	%r13, %r12
	movzwl	(%r12), %ebp
	cmpw	$4, %bp
	jb	.LBB50_36
	cmpq	%rbp, %r15
	jb	.LBB50_36
	movzwl	2(%r12), %r14d
	leal	3(%rbp), %r13d
	andl	$-4, %r13d
	leaq	(%rdx,%rbx), %r11
	movl	%r14d, %esi
	andl	$16383, %esi
	cmpw	$1, %si
	je	.LBB50_2
	leaq	4(%r12), %rsi
	leaq	-4(%rbp), %rdx
	leaq	4(%r11), %rdi
	movq	%rdi, %r8
	subq	%rsi, %r8
	cmpq	%rdx, %r8
	jae	.LBB50_11
	cmpl	$4, %edx
	movq	%r11, 8(%rsp)
	jb	.LBB50_10
	movq	%r11, %r9
	subq	%rax, %r9
	subq	%rcx, %r9
	cmpq	$32, %r9
	jae	.LBB50_14
.LBB50_10:
	xorl	%r8d, %r8d
.LBB50_23:
	movq	%rbp, %r10
	movq	%r8, %r9
	andq	$3, %r10
	je	.LBB50_26
	movq	%r8, %r9
	.p2align	4
.LBB50_25:
	movzbl	(%rsi,%r9), %r11d
	movb	%r11b, (%rdi,%r9)
	incq	%r9
	decq	%r10
	jne	.LBB50_25
.LBB50_26:
	negq	%r8
	leaq	(%r8,%rbp), %rsi
	addq	$-5, %rsi
	cmpl	$3, %esi
	movq	8(%rsp), %r11
	jb	.LBB50_29
	addq	%rcx, %rax
	addq	$7, %rax
	movq	32(%rsp), %rcx
	addq	%rbx, %rcx
	.p2align	4
.LBB50_28:
	movzbl	-3(%rax,%r9), %esi
	movb	%sil, -3(%rcx,%r9)
	movzbl	-2(%rax,%r9), %esi
	movb	%sil, -2(%rcx,%r9)
	movzbl	-1(%rax,%r9), %esi
	movb	%sil, -1(%rcx,%r9)
	movzbl	(%rax,%r9), %esi
	movb	%sil, (%rcx,%r9)
	addq	$4, %r9
	cmpq	%r9, %rdx
	jne	.LBB50_28
	jmp	.LBB50_29
	.p2align	4
.LBB50_11:
	movl	%r14d, 4(%rsp)
	movq	%r11, %r14
	callq	memmove@PLT
	movq	%r14, %r11
	movl	4(%rsp), %r14d
.LBB50_29:
	movw	%bp, (%r11)
	movw	%r14w, 2(%r11)
	movq	%r13, %rcx
	subq	%rbp, %rcx
	cmpq	$3, %rcx
	je	.LBB50_34
	cmpl	$2, %ecx
	movq	16(%rsp), %rdx
	je	.LBB50_33
	movq	%r13, %rax
	cmpl	$1, %ecx
	jne	.LBB50_3
	movb	$0, (%r11,%rbp)
	movq	%r13, %rax
	jmp	.LBB50_3
.LBB50_33:
	movw	$0, (%r11,%rbp)
	movq	%r13, %rax
	jmp	.LBB50_3
.LBB50_34:
	movw	$0, (%r11,%rbp)
	movb	$0, 2(%r11,%rbp)
	movq	%r13, %rax
	movq	16(%rsp), %rdx
	jmp	.LBB50_3
.LBB50_14:
	cmpl	$32, %edx
	jae	.LBB50_16
	xorl	%r8d, %r8d
	jmp	.LBB50_20
.LBB50_16:
	movq	%rdx, %r8
	andq	$-32, %r8
	leaq	(%rax,%rcx), %r9
	addq	$20, %r9
	movq	24(%rsp), %r10
	addq	%rbx, %r10
	xorl	%r11d, %r11d
	.p2align	4
.LBB50_17:
	movups	-16(%r9,%r11), %xmm0
	movups	(%r9,%r11), %xmm1
	movups	%xmm0, -16(%r10,%r11)
	movups	%xmm1, (%r10,%r11)
	addq	$32, %r11
	cmpq	%r11, %r8
	jne	.LBB50_17
	cmpl	%r8d, %edx
	movq	8(%rsp), %r11
	je	.LBB50_29
	testb	$28, %dl
	je	.LBB50_23
.LBB50_20:
	movq	%r8, %r9
	movq	%rdx, %r8
	andq	$-4, %r8
	.p2align	4
.LBB50_21:
	movl	(%rsi,%r9), %r10d
	movl	%r10d, (%rdi,%r9)
	addq	$4, %r9
	cmpq	%r9, %r8
	jne	.LBB50_21
	cmpl	%r8d, %edx
	je	.LBB50_29
	jmp	.LBB50_23
.LBB50_35:
	xorl	%ebx, %ebx
.LBB50_36:
	movq	%rbx, %rax
	addq	$40, %rsp
	.cfi_def_cfa_offset 56
	popq	%rbx
	.cfi_def_cfa_offset 48
	popq	%r12
	.cfi_def_cfa_offset 40
	popq	%r13
	.cfi_def_cfa_offset 32
	popq	%r14
	.cfi_def_cfa_offset 24
	popq	%r15
	.cfi_def_cfa_offset 16
	popq	%rbp
	.cfi_def_cfa_offset 8
	retq
.Lfunc_end50:
	.size	nla_wire.members.write_each.9a0187163d44de3c, .Lfunc_end50-nla_wire.members.write_each.9a0187163d44de3c
	.cfi_endproc

	.section	.text.nla_wire.members.write_each.79503c7a397af21a,"ax",@progbits
	.p2align	4
	.type	nla_wire.members.write_each.79503c7a397af21a,@function
nla_wire.members.write_each.79503c7a397af21a:
	.cfi_startproc
	pushq	%rbp
	.cfi_def_cfa_offset 16
	pushq	%r15
	.cfi_def_cfa_offset 24
	pushq	%r14
	.cfi_def_cfa_offset 32
	pushq	%r13
	.cfi_def_cfa_offset 40
	pushq	%r12
	.cfi_def_cfa_offset 48
	pushq	%rbx
	.cfi_def_cfa_offset 56
	pushq	%rax
	.cfi_def_cfa_offset 64
	.cfi_offset %rbx, -56
	.cfi_offset %r12, -48
	.cfi_offset %r13, -40
	.cfi_offset %r14, -32
	.cfi_offset %r15, -24
	.cfi_offset %rbp, -16
	testq	%rsi, %rsi
	je	.LBB51_1
	movq	%rdx, %r14
	movq	%rsi, %r15
	movq	%rdi, %r12
	xorl	%ebx, %ebx
	xorl	%r13d, %r13d
	jmp	.LBB51_3
.LBB51_11:
	movw	$0, (%rbp,%rcx)
.LBB51_13:
	addq	%rax, %rbx
.LBB51_14:
	addl	$3, %r13d
	andl	$-4, %r13d
	cmpq	%r13, %r15
	jbe	.LBB51_15
.LBB51_3:
	subq	%r13, %r15
	cmpq	$4, %r15
	jb	.LBB51_15
	addq	%r13, %r12
	movzwl	(%r12), %r13d
	cmpw	$4, %r13w
	jb	.LBB51_15
	cmpq	%r13, %r15
	jb	.LBB51_15
	movzwl	2(%r12), %eax
	andl	$16383, %eax
	cmpw	$1, %ax
	jne	.LBB51_14
	leaq	-4(%r13), %rsi
	leaq	4(%r12), %rdi
	leaq	(%r14,%rbx), %rbp
	leaq	(%r14,%rbx), %rdx
	addq	$4, %rdx
	callq	nla_wire.members.write_each.1f0cb788f492ced5
	leaq	4(%rax), %rcx
	addq	$7, %rax
	andq	$-4, %rax
	movw	%cx, (%r14,%rbx)
	movw	$1, 2(%r14,%rbx)
	movq	%rax, %rdx
	subq	%rcx, %rdx
	cmpq	$3, %rdx
	je	.LBB51_12
	cmpq	$2, %rdx
	je	.LBB51_11
	cmpq	$1, %rdx
	jne	.LBB51_13
	movb	$0, (%rbp,%rcx)
	jmp	.LBB51_13
.LBB51_12:
	movw	$0, (%rbp,%rcx)
	movb	$0, 2(%rbp,%rcx)
	jmp	.LBB51_13
.LBB51_1:
	xorl	%ebx, %ebx
.LBB51_15:
	movq	%rbx, %rax
	addq	$8, %rsp
	.cfi_def_cfa_offset 56
	popq	%rbx
	.cfi_def_cfa_offset 48
	popq	%r12
	.cfi_def_cfa_offset 40
	popq	%r13
	.cfi_def_cfa_offset 32
	popq	%r14
	.cfi_def_cfa_offset 24
	popq	%r15
	.cfi_def_cfa_offset 16
	popq	%rbp
	.cfi_def_cfa_offset 8
	retq
.Lfunc_end51:
	.size	nla_wire.members.write_each.79503c7a397af21a, .Lfunc_end51-nla_wire.members.write_each.79503c7a397af21a
	.cfi_endproc

	.section	.text.nla_wire.members.write_each.8ba1f663fcd59a5e,"ax",@progbits
	.p2align	4
	.type	nla_wire.members.write_each.8ba1f663fcd59a5e,@function
nla_wire.members.write_each.8ba1f663fcd59a5e:
	.cfi_startproc
	testq	%rsi, %rsi
	je	.LBB52_66
	pushq	%rbp
	.cfi_def_cfa_offset 16
	pushq	%r15
	.cfi_def_cfa_offset 24
	pushq	%r14
	.cfi_def_cfa_offset 32
	pushq	%r13
	.cfi_def_cfa_offset 40
	pushq	%r12
	.cfi_def_cfa_offset 48
	pushq	%rbx
	.cfi_def_cfa_offset 56
	subq	$40, %rsp
	.cfi_def_cfa_offset 96
	.cfi_offset %rbx, -56
	.cfi_offset %r12, -48
	.cfi_offset %r13, -40
	.cfi_offset %r14, -32
	.cfi_offset %r15, -24
	.cfi_offset %rbp, -16
	movq	%rdx, %r10
	movq	%rdi, %r14
	leaq	20(%rdx), %rax
	movq	%rax, 16(%rsp)
	leaq	7(%rdx), %rax
	movq	%rax, 32(%rsp)
	xorl	%eax, %eax
	xorl	%r13d, %r13d
	movq	%rdx, 8(%rsp)
	.p2align	4
.LBB52_5:
	subq	%r13, %rsi
	cmpq	$4, %rsi
	jb	.LBB52_65
	movq	%r14, %r8
	movq	%r13, %r9
	addq	%r13, %r14
	movzwl	(%r14), %ebx
	cmpw	$4, %bx
	jb	.LBB52_65
	cmpq	%rbx, %rsi
	jb	.LBB52_65
	movzwl	2(%r14), %r12d
	leaq	4(%r14), %rcx
	leal	3(%rbx), %r13d
	andl	$-4, %r13d
	leaq	(%r10,%rax), %rbp
	movl	%r12d, %edx
	andl	$16383, %edx
	leaq	(%r10,%rax), %rdi
	addq	$4, %rdi
	decl	%edx
	cmpl	$7, %edx
	ja	.LBB52_24
	leaq	.LJTI52_0(%rip), %r8
	movslq	(%r8,%rdx,4), %rdx
	addq	%r8, %rdx
	jmpq	*%rdx
.LBB52_10:
	movq	%rdi, %rdx
	subq	%rcx, %rdx
	cmpq	$3, %rdx
	ja	.LBB52_35
	movzbl	4(%r14), %ecx
	movb	%cl, 4(%rbp)
	movzbl	5(%r14), %ecx
	movb	%cl, 5(%rbp)
	movzbl	6(%r14), %ecx
	movb	%cl, 6(%rbp)
	movzbl	7(%r14), %ecx
	movb	%cl, 7(%rbp)
	jmp	.LBB52_36
.LBB52_12:
	movq	%rdi, %rdx
	subq	%rcx, %rdx
	cmpq	$3, %rdx
	ja	.LBB52_27
	movzbl	4(%r14), %ecx
	movb	%cl, 4(%rbp)
	movzbl	5(%r14), %ecx
	movb	%cl, 5(%rbp)
	movzbl	6(%r14), %ecx
	movb	%cl, 6(%rbp)
	movzbl	7(%r14), %ecx
	movb	%cl, 7(%rbp)
	jmp	.LBB52_28
.LBB52_14:
	movq	%rdi, %rdx
	subq	%rcx, %rdx
	cmpq	$3, %rdx
	ja	.LBB52_29
	movzbl	4(%r14), %ecx
	movb	%cl, 4(%rbp)
	movzbl	5(%r14), %ecx
	movb	%cl, 5(%rbp)
	movzbl	6(%r14), %ecx
	movb	%cl, 6(%rbp)
	movzbl	7(%r14), %ecx
	movb	%cl, 7(%rbp)
	jmp	.LBB52_30
.LBB52_16:
	movq	%rdi, %rdx
	subq	%rcx, %rdx
	cmpq	$3, %rdx
	ja	.LBB52_31
	movzbl	4(%r14), %ecx
	movb	%cl, 4(%rbp)
	movzbl	5(%r14), %ecx
	movb	%cl, 5(%rbp)
	movzbl	6(%r14), %ecx
	movb	%cl, 6(%rbp)
	movzbl	7(%r14), %ecx
	movb	%cl, 7(%rbp)
	jmp	.LBB52_32
.LBB52_18:
	movq	%rdi, %rdx
	subq	%rcx, %rdx
	cmpq	$3, %rdx
	ja	.LBB52_33
	movzbl	4(%r14), %ecx
	movb	%cl, 4(%rbp)
	movzbl	5(%r14), %ecx
	movb	%cl, 5(%rbp)
	movzbl	6(%r14), %ecx
	movb	%cl, 6(%rbp)
	movzbl	7(%r14), %ecx
	movb	%cl, 7(%rbp)
	jmp	.LBB52_34
.LBB52_2:
	movzbl	(%rcx), %ecx
	movb	%cl, 4(%rbp)
	movl	$131077, (%rbp)
	movw	$0, 5(%rbp)
	movb	$0, 7(%rbp)
	jmp	.LBB52_3
.LBB52_20:
	movq	%rdi, %rdx
	subq	%rcx, %rdx
	cmpq	$3, %rdx
	ja	.LBB52_37
	movzbl	4(%r14), %ecx
	movb	%cl, 4(%rbp)
	movzbl	5(%r14), %ecx
	movb	%cl, 5(%rbp)
	movzbl	6(%r14), %ecx
	movb	%cl, 6(%rbp)
	movzbl	7(%r14), %ecx
	movb	%cl, 7(%rbp)
	jmp	.LBB52_38
.LBB52_22:
	movq	%rdi, %rdx
	subq	%rcx, %rdx
	cmpq	$3, %rdx
	ja	.LBB52_39
	movzbl	4(%r14), %ecx
	movb	%cl, 4(%rbp)
	movzbl	5(%r14), %ecx
	movb	%cl, 5(%rbp)
	movzbl	6(%r14), %ecx
	movb	%cl, 6(%rbp)
	movzbl	7(%r14), %ecx
	movb	%cl, 7(%rbp)
	jmp	.LBB52_40
.LBB52_24:
	leaq	-4(%rbx), %rdx
	movq	%rdi, %r11
	subq	%rcx, %r11
	cmpq	%rdx, %r11
	jae	.LBB52_41
	cmpl	$4, %edx
	jb	.LBB52_26
	movq	%rbp, %r10
	subq	%r8, %r10
	subq	%r9, %r10
	cmpq	$32, %r10
	jae	.LBB52_44
.LBB52_26:
	xorl	%r10d, %r10d
.LBB52_53:
	movq	%rbx, %r15
	movq	%r10, %r11
	andq	$3, %r15
	je	.LBB52_56
	movq	%r10, %r11
	.p2align	4
.LBB52_55:
	movzbl	(%rcx,%r11), %edx
	movb	%dl, (%rdi,%r11)
	incq	%r11
	decq	%r15
	jne	.LBB52_55
.LBB52_56:
	negq	%r10
	leaq	(%rbx,%r10), %rcx
	addq	$-5, %rcx
	cmpl	$3, %ecx
	leaq	-4(%rbx), %r10
	jb	.LBB52_59
	leaq	(%r8,%r9), %rcx
	addq	$7, %rcx
	movq	32(%rsp), %rdx
	leaq	(%rdx,%rax), %rdi
	.p2align	4
.LBB52_58:
	movzbl	-3(%rcx,%r11), %edx
	movb	%dl, -3(%rdi,%r11)
	movzbl	-2(%rcx,%r11), %edx
	movb	%dl, -2(%rdi,%r11)
	movzbl	-1(%rcx,%r11), %edx
	movb	%dl, -1(%rdi,%r11)
	movzbl	(%rcx,%r11), %edx
	movb	%dl, (%rdi,%r11)
	addq	$4, %r11
	cmpq	%r11, %r10
	jne	.LBB52_58
	jmp	.LBB52_59
.LBB52_27:
	movl	(%rcx), %ecx
	movl	%ecx, (%rdi)
.LBB52_28:
	movl	$327688, (%rbp)
	jmp	.LBB52_3
.LBB52_29:
	movl	(%rcx), %ecx
	movl	%ecx, (%rdi)
.LBB52_30:
	movl	$196616, (%rbp)
	jmp	.LBB52_3
.LBB52_31:
	movl	(%rcx), %ecx
	movl	%ecx, (%rdi)
.LBB52_32:
	movl	$262152, (%rbp)
	jmp	.LBB52_3
.LBB52_33:
	movl	(%rcx), %ecx
	movl	%ecx, (%rdi)
.LBB52_34:
	movl	$524296, (%rbp)
	jmp	.LBB52_3
.LBB52_35:
	movl	(%rcx), %ecx
	movl	%ecx, (%rdi)
.LBB52_36:
	movl	$65544, (%rbp)
	jmp	.LBB52_3
.LBB52_37:
	movl	(%rcx), %ecx
	movl	%ecx, (%rdi)
.LBB52_38:
	movl	$393224, (%rbp)
	jmp	.LBB52_3
.LBB52_39:
	movl	(%rcx), %ecx
	movl	%ecx, (%rdi)
.LBB52_40:
	movl	$458760, (%rbp)
	.p2align	4
.LBB52_3:
	movl	$8, %ecx
.LBB52_4:
	addq	%rcx, %rax
	cmpq	%r13, %rsi
	ja	.LBB52_5
	jmp	.LBB52_65
.LBB52_41:
	movq	%rsi, 24(%rsp)
	movq	%rcx, %rsi
	movq	%rax, %r15
	callq	memmove@PLT
	movq	24(%rsp), %rsi
	movq	%r15, %rax
.LBB52_59:
	movw	%bx, (%rbp)
	movw	%r12w, 2(%rbp)
	movq	%r13, %rdx
	subq	%rbx, %rdx
	cmpq	$3, %rdx
	je	.LBB52_64
	cmpl	$2, %edx
	movq	8(%rsp), %r10
	je	.LBB52_63
	movq	%r13, %rcx
	cmpl	$1, %edx
	jne	.LBB52_4
	movb	$0, (%rbp,%rbx)
	movq	%r13, %rcx
	jmp	.LBB52_4
.LBB52_63:
	movw	$0, (%rbp,%rbx)
	movq	%r13, %rcx
	jmp	.LBB52_4
.LBB52_64:
	movw	$0, (%rbp,%rbx)
	movb	$0, 2(%rbp,%rbx)
	movq	%r13, %rcx
	movq	8(%rsp), %r10
	jmp	.LBB52_4
.LBB52_44:
	cmpl	$32, %edx
	jae	.LBB52_46
	xorl	%r10d, %r10d
	jmp	.LBB52_50
.LBB52_46:
	movq	%rdx, %r10
	andq	$-32, %r10
	leaq	(%r8,%r9), %rdx
	addq	$20, %rdx
	movq	16(%rsp), %r11
	leaq	(%r11,%rax), %r15
	xorl	%r11d, %r11d
	.p2align	4
.LBB52_47:
	movups	-16(%rdx,%r11), %xmm0
	movups	(%rdx,%r11), %xmm1
	movups	%xmm0, -16(%r15,%r11)
	movups	%xmm1, (%r15,%r11)
	addq	$32, %r11
	cmpq	%r11, %r10
	jne	.LBB52_47
	leaq	-4(%rbx), %rdx
	cmpl	%r10d, %edx
	je	.LBB52_59
	testb	$28, %dl
	je	.LBB52_53
.LBB52_50:
	movq	%r10, %r15
	movq	%rdx, %r10
	andq	$-4, %r10
	.p2align	4
.LBB52_51:
	movl	(%rcx,%r15), %r11d
	movl	%r11d, (%rdi,%r15)
	addq	$4, %r15
	cmpq	%r15, %r10
	jne	.LBB52_51
	cmpl	%r10d, %edx
	je	.LBB52_59
	jmp	.LBB52_53
.LBB52_65:
	addq	$40, %rsp
	.cfi_def_cfa_offset 56
	popq	%rbx
	.cfi_def_cfa_offset 48
	popq	%r12
	.cfi_def_cfa_offset 40
	popq	%r13
	.cfi_def_cfa_offset 32
	popq	%r14
	.cfi_def_cfa_offset 24
	popq	%r15
	.cfi_def_cfa_offset 16
	popq	%rbp
	.cfi_def_cfa_offset 8
	.cfi_restore %rbx
	.cfi_restore %r12
	.cfi_restore %r13
	.cfi_restore %r14
	.cfi_restore %r15
	.cfi_restore %rbp
	retq
.LBB52_66:
	xorl	%eax, %eax
	retq
.Lfunc_end52:
	.size	nla_wire.members.write_each.8ba1f663fcd59a5e, .Lfunc_end52-nla_wire.members.write_each.8ba1f663fcd59a5e
	.cfi_endproc
	.section	.rodata.nla_wire.members.write_each.8ba1f663fcd59a5e,"a",@progbits
	.p2align	2, 0x0
.LJTI52_0:
	.long	.LBB52_10-.LJTI52_0
	.long	.LBB52_2-.LJTI52_0
	.long	.LBB52_14-.LJTI52_0
	.long	.LBB52_16-.LJTI52_0
	.long	.LBB52_12-.LJTI52_0
	.long	.LBB52_20-.LJTI52_0
	.long	.LBB52_22-.LJTI52_0
	.long	.LBB52_18-.LJTI52_0

	.section	.text.nla_wire.members.write_each.b30b196c481b950e,"ax",@progbits
	.p2align	4
	.type	nla_wire.members.write_each.b30b196c481b950e,@function
nla_wire.members.write_each.b30b196c481b950e:
	.cfi_startproc
	pushq	%rbp
	.cfi_def_cfa_offset 16
	pushq	%r15
	.cfi_def_cfa_offset 24
	pushq	%r14
	.cfi_def_cfa_offset 32
	pushq	%r13
	.cfi_def_cfa_offset 40
	pushq	%r12
	.cfi_def_cfa_offset 48
	pushq	%rbx
	.cfi_def_cfa_offset 56
	subq	$40, %rsp
	.cfi_def_cfa_offset 96
	.cfi_offset %rbx, -56
	.cfi_offset %r12, -48
	.cfi_offset %r13, -40
	.cfi_offset %r14, -32
	.cfi_offset %r15, -24
	.cfi_offset %rbp, -16
	testq	%rsi, %rsi
	je	.LBB53_79
	movq	%rsi, %r15
	movq	%rdi, %r12
	leaq	20(%rdx), %rax
	movq	%rax, 8(%rsp)
	leaq	7(%rdx), %rax
	movq	%rax, 16(%rsp)
	xorl	%ebx, %ebx
	xorl	%r11d, %r11d
	movq	%rdx, (%rsp)
	jmp	.LBB53_5
.LBB53_77:
	movw	$0, (%r10,%rax)
	.p2align	4
.LBB53_4:
	addq	%rbp, %rbx
	cmpq	%r11, %r15
	jbe	.LBB53_80
.LBB53_5:
	subq	%r11, %r15
	cmpq	$4, %r15
	jb	.LBB53_80
	movq	%r12, %rax
	movq	%r11, %rcx
	addq	%r11, %r12
	movzwl	(%r12), %r13d
	cmpw	$4, %r13w
	jb	.LBB53_80
	cmpq	%r13, %r15
	jb	.LBB53_80
	movzwl	2(%r12), %r14d
	leaq	4(%r12), %rsi
	leaq	-4(%r13), %rbp
	leal	3(%r13), %r11d
	andl	$-4, %r11d
	leaq	(%rdx,%rbx), %r10
	movl	%r14d, %edi
	andl	$16383, %edi
	cmpw	$53, %di
	jne	.LBB53_22
	testq	%rbp, %rbp
	je	.LBB53_11
	cmpb	$0, -5(%rsi,%r13)
	je	.LBB53_29
.LBB53_11:
	leaq	4(%r10), %rdi
	cmpl	$4, %ebp
	jae	.LBB53_30
.LBB53_12:
	movq	%rdi, %r8
	subq	%rsi, %r8
	cmpq	%rbp, %r8
	jae	.LBB53_26
	cmpl	$4, %ebp
	jb	.LBB53_15
	movq	%r10, %r8
	subq	%rax, %r8
	subq	%rcx, %r8
	cmpq	$32, %r8
	jae	.LBB53_42
.LBB53_15:
	movq	%r11, %r14
	xorl	%r11d, %r11d
.LBB53_16:
	movq	%r10, %r13
	movq	%rbp, %r9
	movq	%r11, %r8
	andq	$3, %r9
	je	.LBB53_19
	movq	%r11, %r8
	.p2align	4
.LBB53_18:
	movzbl	(%rsi,%r8), %r10d
	movb	%r10b, (%rdi,%r8)
	incq	%r8
	decq	%r9
	jne	.LBB53_18
.LBB53_19:
	subl	%ebp, %r11d
	cmpl	$-4, %r11d
	movq	%r13, %r10
	ja	.LBB53_73
	addq	%rcx, %rax
	addq	$7, %rax
	movq	16(%rsp), %rcx
	addq	%rbx, %rcx
	.p2align	4
.LBB53_21:
	movzbl	-3(%rax,%r8), %esi
	movb	%sil, -3(%rcx,%r8)
	movzbl	-2(%rax,%r8), %esi
	movb	%sil, -2(%rcx,%r8)
	movzbl	-1(%rax,%r8), %esi
	movb	%sil, -1(%rcx,%r8)
	movzbl	(%rax,%r8), %esi
	movb	%sil, (%rcx,%r8)
	addq	$4, %r8
	cmpq	%r8, %rbp
	jne	.LBB53_21
	jmp	.LBB53_73
	.p2align	4
.LBB53_22:
	leaq	4(%r10), %rdi
	movq	%rdi, %rdx
	subq	%rsi, %rdx
	cmpq	%rbp, %rdx
	movq	%r12, 32(%rsp)
	jae	.LBB53_25
	cmpl	$4, %ebp
	movq	%r10, 24(%rsp)
	jb	.LBB53_24
	movq	%r10, %r8
	subq	%rax, %r8
	subq	%rcx, %r8
	cmpq	$32, %r8
	jae	.LBB53_36
.LBB53_24:
	xorl	%edx, %edx
.LBB53_54:
	movq	%r13, %r9
	movq	%rdx, %r8
	andq	$3, %r9
	je	.LBB53_57
	movq	%rdx, %r8
	.p2align	4
.LBB53_56:
	movzbl	(%rsi,%r8), %r10d
	movb	%r10b, (%rdi,%r8)
	incq	%r8
	decq	%r9
	jne	.LBB53_56
.LBB53_57:
	negq	%rdx
	addq	%r13, %rdx
	addq	$-5, %rdx
	cmpl	$3, %edx
	movq	24(%rsp), %r10
	jb	.LBB53_60
	addq	%rcx, %rax
	addq	$7, %rax
	movq	16(%rsp), %rcx
	addq	%rbx, %rcx
	.p2align	4
.LBB53_59:
	movzbl	-3(%rax,%r8), %edx
	movb	%dl, -3(%rcx,%r8)
	movzbl	-2(%rax,%r8), %edx
	movb	%dl, -2(%rcx,%r8)
	movzbl	-1(%rax,%r8), %edx
	movb	%dl, -1(%rcx,%r8)
	movzbl	(%rax,%r8), %edx
	movb	%dl, (%rcx,%r8)
	addq	$4, %r8
	cmpq	%r8, %rbp
	jne	.LBB53_59
	jmp	.LBB53_60
	.p2align	4
.LBB53_25:
	movq	%rbp, %rdx
	movq	%r11, %rbp
	movl	%r14d, %r12d
	movq	%rbx, %r14
	movq	%r10, %rbx
	callq	memmove@PLT
	movq	%rbx, %r10
	movq	%r14, %rbx
	movl	%r12d, %r14d
	movq	%rbp, %r11
.LBB53_60:
	movw	%r13w, (%r10)
	movw	%r14w, 2(%r10)
	movq	%r11, %rax
	subq	%r13, %rax
	cmpq	$3, %rax
	je	.LBB53_64
	cmpl	$2, %eax
	movq	(%rsp), %rdx
	movq	32(%rsp), %r12
	je	.LBB53_2
	movq	%r11, %rbp
	cmpl	$1, %eax
	jne	.LBB53_4
	movb	$0, (%r10,%r13)
	jmp	.LBB53_3
.LBB53_26:
	movq	%r11, %r14
	movq	%rbp, %rdx
	movq	%r10, %r13
	callq	memmove@PLT
	movq	%r13, %r10
	movq	(%rsp), %rdx
	jmp	.LBB53_73
.LBB53_2:
	movw	$0, (%r10,%r13)
.LBB53_3:
	movq	%r11, %rbp
	jmp	.LBB53_4
.LBB53_64:
	movw	$0, (%r10,%r13)
	movb	$0, 2(%r10,%r13)
	movq	%r11, %rbp
	movq	(%rsp), %rdx
	movq	32(%rsp), %r12
	jmp	.LBB53_4
.LBB53_29:
	addq	$-5, %r13
	movq	%r13, %rbp
	leaq	4(%r10), %rdi
	cmpl	$4, %ebp
	jb	.LBB53_12
.LBB53_30:
	cmpl	$7, %ebp
	ja	.LBB53_33
	movq	%rdi, %rax
	subq	%rsi, %rax
	movq	%r11, %r14
	cmpq	$3, %rax
	ja	.LBB53_38
	movzbl	4(%r12), %eax
	movb	%al, 4(%r10)
	movzbl	5(%r12), %eax
	movb	%al, 5(%r10)
	movzbl	6(%r12), %eax
	movb	%al, 6(%r10)
	movzbl	7(%r12), %eax
	movb	%al, 7(%r10)
	jmp	.LBB53_39
.LBB53_33:
	cmpl	$16, %ebp
	ja	.LBB53_12
	movq	%rdi, %rax
	subq	%rsi, %rax
	movq	%r11, %r14
	cmpq	$7, %rax
	ja	.LBB53_44
	movzbl	4(%r12), %eax
	movb	%al, 4(%r10)
	movzbl	5(%r12), %eax
	movb	%al, 5(%r10)
	movzbl	6(%r12), %eax
	movb	%al, 6(%r10)
	movzbl	7(%r12), %eax
	movb	%al, 7(%r10)
	movzbl	8(%r12), %eax
	movb	%al, 8(%r10)
	movzbl	9(%r12), %eax
	movb	%al, 9(%r10)
	movzbl	10(%r12), %eax
	movb	%al, 10(%r10)
	movzbl	11(%r12), %eax
	movb	%al, 11(%r10)
	jmp	.LBB53_45
.LBB53_36:
	cmpl	$32, %ebp
	jae	.LBB53_47
	xorl	%edx, %edx
	jmp	.LBB53_51
.LBB53_38:
	movl	(%rsi), %eax
	movl	%eax, (%rdi)
.LBB53_39:
	leaq	(%r10,%rbp), %rax
	leaq	(%rsi,%rbp), %rcx
	addq	$-4, %rcx
	movq	%rax, %rdi
	subq	%rcx, %rdi
	cmpq	$3, %rdi
	ja	.LBB53_41
	addq	%rbp, %rsi
	movzbl	-4(%rsi), %ecx
	movb	%cl, (%rax)
	movzbl	-3(%rsi), %ecx
	movb	%cl, 1(%rax)
	movzbl	-2(%rsi), %ecx
	movb	%cl, 2(%rax)
	movzbl	-1(%rsi), %ecx
	movb	%cl, 3(%rax)
	jmp	.LBB53_73
.LBB53_41:
	movl	(%rcx), %ecx
	movl	%ecx, (%rax)
	jmp	.LBB53_73
.LBB53_42:
	movq	%r11, %r14
	cmpl	$32, %ebp
	jae	.LBB53_66
	xorl	%r11d, %r11d
	jmp	.LBB53_70
.LBB53_44:
	movq	(%rsi), %rax
	movq	%rax, (%rdi)
.LBB53_45:
	leaq	-8(%rbp), %rax
	addq	%rax, %rdi
	addq	%rax, %rsi
	movq	%rdi, %rax
	subq	%rsi, %rax
	cmpq	$7, %rax
	ja	.LBB53_65
	movzbl	(%rsi), %eax
	movb	%al, (%rdi)
	movzbl	1(%rsi), %eax
	movb	%al, 1(%rdi)
	movzbl	2(%rsi), %eax
	movb	%al, 2(%rdi)
	movzbl	3(%rsi), %eax
	movb	%al, 3(%rdi)
	movzbl	4(%rsi), %eax
	movb	%al, 4(%rdi)
	movzbl	5(%rsi), %eax
	movb	%al, 5(%rdi)
	movzbl	6(%rsi), %eax
	movb	%al, 6(%rdi)
	movzbl	7(%rsi), %eax
	movb	%al, 7(%rdi)
	jmp	.LBB53_73
.LBB53_47:
	movq	%rbp, %rdx
	andq	$-32, %rdx
	leaq	(%rax,%rcx), %r8
	addq	$20, %r8
	movq	8(%rsp), %r9
	addq	%rbx, %r9
	xorl	%r10d, %r10d
	.p2align	4
.LBB53_48:
	movups	-16(%r8,%r10), %xmm0
	movups	(%r8,%r10), %xmm1
	movups	%xmm0, -16(%r9,%r10)
	movups	%xmm1, (%r9,%r10)
	addq	$32, %r10
	cmpq	%r10, %rdx
	jne	.LBB53_48
	cmpl	%edx, %ebp
	movq	24(%rsp), %r10
	je	.LBB53_60
	testb	$28, %bpl
	je	.LBB53_54
.LBB53_51:
	movq	%rdx, %r8
	movq	%rbp, %rdx
	andq	$-4, %rdx
	.p2align	4
.LBB53_52:
	movl	(%rsi,%r8), %r9d
	movl	%r9d, (%rdi,%r8)
	addq	$4, %r8
	cmpq	%r8, %rdx
	jne	.LBB53_52
	cmpl	%edx, %ebp
	je	.LBB53_60
	jmp	.LBB53_54
.LBB53_65:
	movq	(%rsi), %rax
	movq	%rax, (%rdi)
	jmp	.LBB53_73
.LBB53_66:
	movq	%r10, %r13
	movq	%rbp, %r11
	andq	$-32, %r11
	leaq	(%rax,%rcx), %r8
	addq	$20, %r8
	movq	8(%rsp), %r9
	addq	%rbx, %r9
	xorl	%r10d, %r10d
	.p2align	4
.LBB53_67:
	movups	-16(%r8,%r10), %xmm0
	movups	(%r8,%r10), %xmm1
	movups	%xmm0, -16(%r9,%r10)
	movups	%xmm1, (%r9,%r10)
	addq	$32, %r10
	cmpq	%r10, %r11
	jne	.LBB53_67
	cmpl	%r11d, %ebp
	movq	%r13, %r10
	je	.LBB53_73
	testb	$28, %bpl
	je	.LBB53_16
.LBB53_70:
	movq	%r11, %r8
	movq	%rbp, %r11
	andq	$-4, %r11
	.p2align	4
.LBB53_71:
	movl	(%rsi,%r8), %r9d
	movl	%r9d, (%rdi,%r8)
	addq	$4, %r8
	cmpq	%r8, %r11
	jne	.LBB53_71
	cmpl	%r11d, %ebp
	jne	.LBB53_16
	.p2align	4
.LBB53_73:
	movb	$0, 4(%r10,%rbp)
	leaq	5(%rbp), %rax
	andq	$-4, %rbp
	addq	$8, %rbp
	movw	%ax, (%r10)
	movw	$53, 2(%r10)
	movq	%rbp, %rcx
	subq	%rax, %rcx
	cmpq	$3, %rcx
	je	.LBB53_78
	cmpl	$2, %ecx
	movq	%r14, %r11
	je	.LBB53_77
	cmpl	$1, %ecx
	jne	.LBB53_4
	movb	$0, (%r10,%rax)
	jmp	.LBB53_4
.LBB53_78:
	movw	$0, (%r10,%rax)
	movb	$0, 2(%r10,%rax)
	movq	%r14, %r11
	jmp	.LBB53_4
.LBB53_79:
	xorl	%ebx, %ebx
.LBB53_80:
	movq	%rbx, %rax
	addq	$40, %rsp
	.cfi_def_cfa_offset 56
	popq	%rbx
	.cfi_def_cfa_offset 48
	popq	%r12
	.cfi_def_cfa_offset 40
	popq	%r13
	.cfi_def_cfa_offset 32
	popq	%r14
	.cfi_def_cfa_offset 24
	popq	%r15
	.cfi_def_cfa_offset 16
	popq	%rbp
	.cfi_def_cfa_offset 8
	retq
.Lfunc_end53:
	.size	nla_wire.members.write_each.b30b196c481b950e, .Lfunc_end53-nla_wire.members.write_each.b30b196c481b950e
	.cfi_endproc

	.section	.text.nla_wire.members.write_each.f7f30aae703aa44d,"ax",@progbits
	.p2align	4
	.type	nla_wire.members.write_each.f7f30aae703aa44d,@function
nla_wire.members.write_each.f7f30aae703aa44d:
	.cfi_startproc
	pushq	%rbp
	.cfi_def_cfa_offset 16
	pushq	%r15
	.cfi_def_cfa_offset 24
	pushq	%r14
	.cfi_def_cfa_offset 32
	pushq	%r13
	.cfi_def_cfa_offset 40
	pushq	%r12
	.cfi_def_cfa_offset 48
	pushq	%rbx
	.cfi_def_cfa_offset 56
	subq	$40, %rsp
	.cfi_def_cfa_offset 96
	.cfi_offset %rbx, -56
	.cfi_offset %r12, -48
	.cfi_offset %r13, -40
	.cfi_offset %r14, -32
	.cfi_offset %r15, -24
	.cfi_offset %rbp, -16
	testq	%rsi, %rsi
	je	.LBB54_45
	movq	%rdx, %r11
	movq	%rsi, %r15
	movq	%rdi, %r12
	leaq	20(%rdx), %rax
	movq	%rax, 16(%rsp)
	leaq	7(%rdx), %rax
	movq	%rax, 24(%rsp)
	xorl	%ebx, %ebx
	xorl	%r13d, %r13d
	movq	%rdx, 8(%rsp)
	jmp	.LBB54_6
.LBB54_2:
	movl	(%rsi), %eax
	movl	%eax, (%rdi)
.LBB54_3:
	movl	$65544, (%r10)
.LBB54_4:
	movl	$8, %eax
.LBB54_5:
	addq	%rax, %rbx
	cmpq	%r13, %r15
	jbe	.LBB54_46
.LBB54_6:
	subq	%r13, %r15
	cmpq	$4, %r15
	jb	.LBB54_46
	movq	%r12, %rax
	movq	%r13, %rcx
	addq	%r13, %r12
	movzwl	(%r12), %r14d
	cmpw	$4, %r14w
	jb	.LBB54_46
	cmpq	%r14, %r15
	jb	.LBB54_46
	movzwl	2(%r12), %ebp
	leaq	4(%r12), %rsi
	leal	3(%r14), %r13d
	andl	$-4, %r13d
	leaq	(%r11,%rbx), %r10
	movl	%ebp, %edx
	andl	$16383, %edx
	leaq	(%r11,%rbx), %rdi
	addq	$4, %rdi
	movq	%rdi, %r8
	subq	%rsi, %r8
	cmpl	$2, %edx
	je	.LBB54_13
	cmpl	$1, %edx
	jne	.LBB54_15
	cmpq	$3, %r8
	ja	.LBB54_2
	movzbl	4(%r12), %eax
	movb	%al, 4(%r10)
	movzbl	5(%r12), %eax
	movb	%al, 5(%r10)
	movzbl	6(%r12), %eax
	movb	%al, 6(%r10)
	movzbl	7(%r12), %eax
	movb	%al, 7(%r10)
	jmp	.LBB54_3
	.p2align	4
.LBB54_13:
	cmpq	$3, %r8
	ja	.LBB54_18
	movzbl	4(%r12), %eax
	movb	%al, 4(%r10)
	movzbl	5(%r12), %eax
	movb	%al, 5(%r10)
	movzbl	6(%r12), %eax
	movb	%al, 6(%r10)
	movzbl	7(%r12), %eax
	movb	%al, 7(%r10)
	jmp	.LBB54_19
	.p2align	4
.LBB54_15:
	leaq	-4(%r14), %rdx
	cmpq	%rdx, %r8
	movq	%r10, 32(%rsp)
	jae	.LBB54_20
	cmpl	$4, %edx
	jb	.LBB54_17
	movq	%r10, %r9
	subq	%rax, %r9
	subq	%rcx, %r9
	cmpq	$32, %r9
	jae	.LBB54_23
.LBB54_17:
	xorl	%r8d, %r8d
.LBB54_32:
	movq	%r14, %r10
	movq	%r8, %r9
	andq	$3, %r10
	je	.LBB54_35
	movq	%r8, %r9
	.p2align	4
.LBB54_34:
	movzbl	(%rsi,%r9), %r11d
	movb	%r11b, (%rdi,%r9)
	incq	%r9
	decq	%r10
	jne	.LBB54_34
.LBB54_35:
	negq	%r8
	leaq	(%r14,%r8), %rsi
	addq	$-5, %rsi
	cmpl	$3, %esi
	movq	8(%rsp), %r11
	jb	.LBB54_38
	addq	%rcx, %rax
	addq	$7, %rax
	movq	24(%rsp), %rcx
	addq	%rbx, %rcx
	.p2align	4
.LBB54_37:
	movzbl	-3(%rax,%r9), %esi
	movb	%sil, -3(%rcx,%r9)
	movzbl	-2(%rax,%r9), %esi
	movb	%sil, -2(%rcx,%r9)
	movzbl	-1(%rax,%r9), %esi
	movb	%sil, -1(%rcx,%r9)
	movzbl	(%rax,%r9), %esi
	movb	%sil, (%rcx,%r9)
	addq	$4, %r9
	cmpq	%r9, %rdx
	jne	.LBB54_37
	jmp	.LBB54_38
.LBB54_18:
	movl	(%rsi), %eax
	movl	%eax, (%rdi)
.LBB54_19:
	movl	$131080, (%r10)
	jmp	.LBB54_4
.LBB54_20:
	callq	memmove@PLT
	movq	8(%rsp), %r11
.LBB54_38:
	movq	32(%rsp), %rdx
	movw	%r14w, (%rdx)
	movw	%bp, 2(%rdx)
	movq	%r13, %rcx
	subq	%r14, %rcx
	cmpq	$3, %rcx
	je	.LBB54_43
	cmpl	$2, %ecx
	je	.LBB54_42
	movq	%r13, %rax
	cmpl	$1, %ecx
	jne	.LBB54_5
	movb	$0, (%rdx,%r14)
	jmp	.LBB54_44
.LBB54_42:
	movw	$0, (%rdx,%r14)
	jmp	.LBB54_44
.LBB54_43:
	movw	$0, (%rdx,%r14)
	movb	$0, 2(%rdx,%r14)
.LBB54_44:
	movq	%r13, %rax
	jmp	.LBB54_5
.LBB54_23:
	cmpl	$32, %edx
	jae	.LBB54_25
	xorl	%r8d, %r8d
	jmp	.LBB54_29
.LBB54_25:
	movq	%rdx, %r8
	andq	$-32, %r8
	leaq	(%rax,%rcx), %r9
	addq	$20, %r9
	movq	16(%rsp), %r10
	addq	%rbx, %r10
	xorl	%r11d, %r11d
	.p2align	4
.LBB54_26:
	movups	-16(%r9,%r11), %xmm0
	movups	(%r9,%r11), %xmm1
	movups	%xmm0, -16(%r10,%r11)
	movups	%xmm1, (%r10,%r11)
	addq	$32, %r11
	cmpq	%r11, %r8
	jne	.LBB54_26
	cmpl	%r8d, %edx
	movq	8(%rsp), %r11
	je	.LBB54_38
	testb	$28, %dl
	je	.LBB54_32
.LBB54_29:
	movq	%r8, %r9
	movq	%rdx, %r8
	andq	$-4, %r8
	.p2align	4
.LBB54_30:
	movl	(%rsi,%r9), %r10d
	movl	%r10d, (%rdi,%r9)
	addq	$4, %r9
	cmpq	%r9, %r8
	jne	.LBB54_30
	cmpl	%r8d, %edx
	je	.LBB54_38
	jmp	.LBB54_32
.LBB54_45:
	xorl	%ebx, %ebx
.LBB54_46:
	movq	%rbx, %rax
	addq	$40, %rsp
	.cfi_def_cfa_offset 56
	popq	%rbx
	.cfi_def_cfa_offset 48
	popq	%r12
	.cfi_def_cfa_offset 40
	popq	%r13
	.cfi_def_cfa_offset 32
	popq	%r14
	.cfi_def_cfa_offset 24
	popq	%r15
	.cfi_def_cfa_offset 16
	popq	%rbp
	.cfi_def_cfa_offset 8
	retq
.Lfunc_end54:
	.size	nla_wire.members.write_each.f7f30aae703aa44d, .Lfunc_end54-nla_wire.members.write_each.f7f30aae703aa44d
	.cfi_endproc

	.section	.text.nla_wire.members.write_each.16a873d75d6df2a1,"ax",@progbits
	.p2align	4
	.type	nla_wire.members.write_each.16a873d75d6df2a1,@function
nla_wire.members.write_each.16a873d75d6df2a1:
	.cfi_startproc
	pushq	%rbp
	.cfi_def_cfa_offset 16
	pushq	%r15
	.cfi_def_cfa_offset 24
	pushq	%r14
	.cfi_def_cfa_offset 32
	pushq	%r13
	.cfi_def_cfa_offset 40
	pushq	%r12
	.cfi_def_cfa_offset 48
	pushq	%rbx
	.cfi_def_cfa_offset 56
	subq	$40, %rsp
	.cfi_def_cfa_offset 96
	.cfi_offset %rbx, -56
	.cfi_offset %r12, -48
	.cfi_offset %r13, -40
	.cfi_offset %r14, -32
	.cfi_offset %r15, -24
	.cfi_offset %rbp, -16
	movq	%rdx, 24(%rsp)
	testq	%rsi, %rsi
	je	.LBB55_125
	movq	%rsi, %r15
	movq	%rdi, %r12
	movq	24(%rsp), %rcx
	leaq	20(%rcx), %rax
	movq	%rax, (%rsp)
	leaq	7(%rcx), %rax
	movq	%rax, 8(%rsp)
	xorl	%ebx, %ebx
	xorl	%r10d, %r10d
	jmp	.LBB55_4
.LBB55_124:
	movw	$0, (%r11,%rax)
	.p2align	4
.LBB55_3:
	addq	%rbp, %rbx
	cmpq	%r10, %r15
	jbe	.LBB55_126
.LBB55_4:
	subq	%r10, %r15
	cmpq	$4, %r15
	jb	.LBB55_126
	movq	%r12, %rax
	movq	%r10, %rcx
	addq	%r10, %r12
	movzwl	(%r12), %r13d
	cmpw	$4, %r13w
	jb	.LBB55_126
	cmpq	%r13, %r15
	jb	.LBB55_126
	movzwl	2(%r12), %r14d
	leaq	4(%r12), %rsi
	leal	3(%r13), %r10d
	andl	$-4, %r10d
	movq	24(%rsp), %rdx
	leaq	(%rdx,%rbx), %r11
	movl	%r14d, %edx
	andl	$16383, %edx
	cmpl	$3, %edx
	je	.LBB55_22
	leaq	-4(%r13), %rbp
	cmpl	$2, %edx
	je	.LBB55_16
	cmpl	$1, %edx
	jne	.LBB55_24
	testq	%rbp, %rbp
	je	.LBB55_12
	cmpb	$0, -5(%rsi,%r13)
	je	.LBB55_42
.LBB55_12:
	leaq	4(%r11), %rdi
	cmpl	$4, %ebp
	jae	.LBB55_43
.LBB55_13:
	movq	%rdi, %rdx
	subq	%rsi, %rdx
	cmpq	%rbp, %rdx
	jae	.LBB55_31
	cmpl	$4, %ebp
	jb	.LBB55_15
	movq	%r11, %r8
	subq	%rax, %r8
	subq	%rcx, %r8
	cmpq	$32, %r8
	jae	.LBB55_53
.LBB55_15:
	xorl	%edx, %edx
.LBB55_114:
	movq	%r10, %r14
	movq	%rbp, %r9
	movq	%rdx, %r8
	andq	$3, %r9
	je	.LBB55_117
	movq	%rdx, %r8
	.p2align	4
.LBB55_116:
	movzbl	(%rsi,%r8), %r10d
	movb	%r10b, (%rdi,%r8)
	incq	%r8
	decq	%r9
	jne	.LBB55_116
.LBB55_117:
	subl	%ebp, %edx
	cmpl	$-4, %edx
	movq	%r14, %r10
	ja	.LBB55_120
	addq	%rcx, %rax
	addq	$7, %rax
	movq	8(%rsp), %rcx
	addq	%rbx, %rcx
	.p2align	4
.LBB55_119:
	movzbl	-3(%rax,%r8), %edx
	movb	%dl, -3(%rcx,%r8)
	movzbl	-2(%rax,%r8), %edx
	movb	%dl, -2(%rcx,%r8)
	movzbl	-1(%rax,%r8), %edx
	movb	%dl, -1(%rcx,%r8)
	movzbl	(%rax,%r8), %edx
	movb	%dl, (%rcx,%r8)
	addq	$4, %r8
	cmpq	%r8, %rbp
	jne	.LBB55_119
	jmp	.LBB55_120
	.p2align	4
.LBB55_16:
	testq	%rbp, %rbp
	je	.LBB55_18
	cmpb	$0, -5(%rsi,%r13)
	je	.LBB55_35
.LBB55_18:
	leaq	4(%r11), %rdi
	cmpl	$4, %ebp
	jae	.LBB55_36
.LBB55_19:
	movq	%rdi, %rdx
	subq	%rsi, %rdx
	cmpq	%rbp, %rdx
	jae	.LBB55_30
	cmpl	$4, %ebp
	jb	.LBB55_21
	movq	%r11, %r8
	subq	%rax, %r8
	subq	%rcx, %r8
	cmpq	$32, %r8
	jae	.LBB55_50
.LBB55_21:
	xorl	%edx, %edx
.LBB55_98:
	movq	%r10, %r14
	movq	%rbp, %r9
	movq	%rdx, %r8
	andq	$3, %r9
	je	.LBB55_101
	movq	%rdx, %r8
	.p2align	4
.LBB55_100:
	movzbl	(%rsi,%r8), %r10d
	movb	%r10b, (%rdi,%r8)
	incq	%r8
	decq	%r9
	jne	.LBB55_100
.LBB55_101:
	subl	%ebp, %edx
	cmpl	$-4, %edx
	movq	%r14, %r10
	ja	.LBB55_104
	addq	%rcx, %rax
	addq	$7, %rax
	movq	8(%rsp), %rcx
	addq	%rbx, %rcx
	.p2align	4
.LBB55_103:
	movzbl	-3(%rax,%r8), %edx
	movb	%dl, -3(%rcx,%r8)
	movzbl	-2(%rax,%r8), %edx
	movb	%dl, -2(%rcx,%r8)
	movzbl	-1(%rax,%r8), %edx
	movb	%dl, -1(%rcx,%r8)
	movzbl	(%rax,%r8), %edx
	movb	%dl, (%rcx,%r8)
	addq	$4, %r8
	cmpq	%r8, %rbp
	jne	.LBB55_103
	jmp	.LBB55_104
	.p2align	4
.LBB55_22:
	leaq	4(%r11), %rax
	movq	%rax, %rcx
	subq	%rsi, %rcx
	cmpq	$3, %rcx
	ja	.LBB55_27
	movzbl	4(%r12), %eax
	movb	%al, 4(%r11)
	movzbl	5(%r12), %eax
	movb	%al, 5(%r11)
	movzbl	6(%r12), %eax
	movb	%al, 6(%r11)
	movzbl	7(%r12), %eax
	movb	%al, 7(%r11)
	jmp	.LBB55_28
	.p2align	4
.LBB55_24:
	leaq	4(%r11), %rdi
	movq	%rdi, %rdx
	subq	%rsi, %rdx
	cmpq	%rbp, %rdx
	jae	.LBB55_29
	cmpl	$4, %ebp
	movq	%r11, 16(%rsp)
	jb	.LBB55_26
	movq	%r11, %r8
	subq	%rax, %r8
	subq	%rcx, %r8
	cmpq	$32, %r8
	jae	.LBB55_33
.LBB55_26:
	xorl	%edx, %edx
.LBB55_77:
	movq	%r10, %r11
	movq	%r13, %r9
	movq	%rdx, %r8
	andq	$3, %r9
	je	.LBB55_80
	movq	%rdx, %r8
	.p2align	4
.LBB55_79:
	movzbl	(%rsi,%r8), %r10d
	movb	%r10b, (%rdi,%r8)
	incq	%r8
	decq	%r9
	jne	.LBB55_79
.LBB55_80:
	negq	%rdx
	addq	%r13, %rdx
	addq	$-5, %rdx
	cmpl	$3, %edx
	movq	%r11, %r10
	movq	16(%rsp), %r11
	jb	.LBB55_83
	addq	%rcx, %rax
	addq	$7, %rax
	movq	8(%rsp), %rcx
	addq	%rbx, %rcx
	.p2align	4
.LBB55_82:
	movzbl	-3(%rax,%r8), %edx
	movb	%dl, -3(%rcx,%r8)
	movzbl	-2(%rax,%r8), %edx
	movb	%dl, -2(%rcx,%r8)
	movzbl	-1(%rax,%r8), %edx
	movb	%dl, -1(%rcx,%r8)
	movzbl	(%rax,%r8), %edx
	movb	%dl, (%rcx,%r8)
	addq	$4, %r8
	cmpq	%r8, %rbp
	jne	.LBB55_82
	jmp	.LBB55_83
.LBB55_27:
	movl	(%rsi), %ecx
	movl	%ecx, (%rax)
.LBB55_28:
	movl	$196616, (%r11)
	movl	$8, %ebp
	jmp	.LBB55_3
.LBB55_29:
	movq	%rbp, %rdx
	movq	%r10, %rbp
	movq	%r12, 32(%rsp)
	movq	%rbx, %r12
	movq	%r11, %rbx
	callq	memmove@PLT
	movq	%rbx, %r11
	movq	%r12, %rbx
	movq	32(%rsp), %r12
	movq	%rbp, %r10
.LBB55_83:
	movw	%r13w, (%r11)
	movw	%r14w, 2(%r11)
	movq	%r10, %rax
	subq	%r13, %rax
	cmpq	$3, %rax
	je	.LBB55_88
	cmpl	$2, %eax
	je	.LBB55_87
	movq	%r10, %rbp
	cmpl	$1, %eax
	jne	.LBB55_3
	movb	$0, (%r11,%r13)
	jmp	.LBB55_89
.LBB55_30:
	movq	%rbp, %rdx
	movq	%r10, %r14
	movq	%r11, %r13
	callq	memmove@PLT
	movq	%r13, %r11
	movq	%r14, %r10
	jmp	.LBB55_104
.LBB55_31:
	movq	%rbp, %rdx
	movq	%r10, %r14
	movq	%r11, %r13
	callq	memmove@PLT
	movq	%r13, %r11
	movq	%r14, %r10
	jmp	.LBB55_120
.LBB55_87:
	movw	$0, (%r11,%r13)
	jmp	.LBB55_89
.LBB55_88:
	movw	$0, (%r11,%r13)
	movb	$0, 2(%r11,%r13)
.LBB55_89:
	movq	%r10, %rbp
	jmp	.LBB55_3
.LBB55_35:
	addq	$-5, %r13
	movq	%r13, %rbp
	leaq	4(%r11), %rdi
	cmpl	$4, %ebp
	jb	.LBB55_19
.LBB55_36:
	cmpl	$7, %ebp
	ja	.LBB55_39
	movq	%rdi, %rax
	subq	%rsi, %rax
	cmpq	$3, %rax
	ja	.LBB55_55
	movzbl	4(%r12), %eax
	movb	%al, 4(%r11)
	movzbl	5(%r12), %eax
	movb	%al, 5(%r11)
	movzbl	6(%r12), %eax
	movb	%al, 6(%r11)
	movzbl	7(%r12), %eax
	movb	%al, 7(%r11)
	jmp	.LBB55_56
.LBB55_39:
	cmpl	$16, %ebp
	ja	.LBB55_19
	movq	%rdi, %rax
	subq	%rsi, %rax
	cmpq	$7, %rax
	ja	.LBB55_63
	movzbl	4(%r12), %eax
	movb	%al, 4(%r11)
	movzbl	5(%r12), %eax
	movb	%al, 5(%r11)
	movzbl	6(%r12), %eax
	movb	%al, 6(%r11)
	movzbl	7(%r12), %eax
	movb	%al, 7(%r11)
	movzbl	8(%r12), %eax
	movb	%al, 8(%r11)
	movzbl	9(%r12), %eax
	movb	%al, 9(%r11)
	movzbl	10(%r12), %eax
	movb	%al, 10(%r11)
	movzbl	11(%r12), %eax
	movb	%al, 11(%r11)
	jmp	.LBB55_64
.LBB55_42:
	addq	$-5, %r13
	movq	%r13, %rbp
	leaq	4(%r11), %rdi
	cmpl	$4, %ebp
	jb	.LBB55_13
.LBB55_43:
	cmpl	$7, %ebp
	ja	.LBB55_46
	movq	%rdi, %rax
	subq	%rsi, %rax
	cmpq	$3, %rax
	ja	.LBB55_59
	movzbl	4(%r12), %eax
	movb	%al, 4(%r11)
	movzbl	5(%r12), %eax
	movb	%al, 5(%r11)
	movzbl	6(%r12), %eax
	movb	%al, 6(%r11)
	movzbl	7(%r12), %eax
	movb	%al, 7(%r11)
	jmp	.LBB55_60
.LBB55_46:
	cmpl	$16, %ebp
	ja	.LBB55_13
	movq	%rdi, %rax
	subq	%rsi, %rax
	cmpq	$7, %rax
	ja	.LBB55_67
	movzbl	4(%r12), %eax
	movb	%al, 4(%r11)
	movzbl	5(%r12), %eax
	movb	%al, 5(%r11)
	movzbl	6(%r12), %eax
	movb	%al, 6(%r11)
	movzbl	7(%r12), %eax
	movb	%al, 7(%r11)
	movzbl	8(%r12), %eax
	movb	%al, 8(%r11)
	movzbl	9(%r12), %eax
	movb	%al, 9(%r11)
	movzbl	10(%r12), %eax
	movb	%al, 10(%r11)
	movzbl	11(%r12), %eax
	movb	%al, 11(%r11)
	jmp	.LBB55_68
.LBB55_55:
	movl	(%rsi), %eax
	movl	%eax, (%rdi)
.LBB55_56:
	leaq	(%r11,%rbp), %rax
	leaq	(%rsi,%rbp), %rcx
	addq	$-4, %rcx
	movq	%rax, %rdx
	subq	%rcx, %rdx
	cmpq	$3, %rdx
	ja	.LBB55_58
	addq	%rbp, %rsi
	movzbl	-4(%rsi), %ecx
	movb	%cl, (%rax)
	movzbl	-3(%rsi), %ecx
	movb	%cl, 1(%rax)
	movzbl	-2(%rsi), %ecx
	movb	%cl, 2(%rax)
	movzbl	-1(%rsi), %ecx
	movb	%cl, 3(%rax)
	jmp	.LBB55_104
.LBB55_58:
	movl	(%rcx), %ecx
	movl	%ecx, (%rax)
	jmp	.LBB55_104
.LBB55_33:
	cmpl	$32, %ebp
	jae	.LBB55_70
	xorl	%edx, %edx
	jmp	.LBB55_74
.LBB55_59:
	movl	(%rsi), %eax
	movl	%eax, (%rdi)
.LBB55_60:
	leaq	(%r11,%rbp), %rax
	leaq	(%rsi,%rbp), %rcx
	addq	$-4, %rcx
	movq	%rax, %rdx
	subq	%rcx, %rdx
	cmpq	$3, %rdx
	ja	.LBB55_62
	addq	%rbp, %rsi
	movzbl	-4(%rsi), %ecx
	movb	%cl, (%rax)
	movzbl	-3(%rsi), %ecx
	movb	%cl, 1(%rax)
	movzbl	-2(%rsi), %ecx
	movb	%cl, 2(%rax)
	movzbl	-1(%rsi), %ecx
	movb	%cl, 3(%rax)
	jmp	.LBB55_120
.LBB55_62:
	movl	(%rcx), %ecx
	movl	%ecx, (%rax)
	jmp	.LBB55_120
.LBB55_50:
	cmpl	$32, %ebp
	jae	.LBB55_91
	xorl	%edx, %edx
	jmp	.LBB55_95
.LBB55_53:
	cmpl	$32, %ebp
	jae	.LBB55_107
	xorl	%edx, %edx
	jmp	.LBB55_111
.LBB55_63:
	movq	(%rsi), %rax
	movq	%rax, (%rdi)
.LBB55_64:
	leaq	-8(%rbp), %rax
	addq	%rax, %rdi
	addq	%rax, %rsi
	movq	%rdi, %rax
	subq	%rsi, %rax
	cmpq	$7, %rax
	ja	.LBB55_66
	movzbl	(%rsi), %eax
	movb	%al, (%rdi)
	movzbl	1(%rsi), %eax
	movb	%al, 1(%rdi)
	movzbl	2(%rsi), %eax
	movb	%al, 2(%rdi)
	movzbl	3(%rsi), %eax
	movb	%al, 3(%rdi)
	movzbl	4(%rsi), %eax
	movb	%al, 4(%rdi)
	movzbl	5(%rsi), %eax
	movb	%al, 5(%rdi)
	movzbl	6(%rsi), %eax
	movb	%al, 6(%rdi)
	movzbl	7(%rsi), %eax
	movb	%al, 7(%rdi)
	jmp	.LBB55_104
.LBB55_66:
	movq	(%rsi), %rax
	movq	%rax, (%rdi)
	jmp	.LBB55_104
.LBB55_67:
	movq	(%rsi), %rax
	movq	%rax, (%rdi)
.LBB55_68:
	leaq	-8(%rbp), %rax
	addq	%rax, %rdi
	addq	%rax, %rsi
	movq	%rdi, %rax
	subq	%rsi, %rax
	cmpq	$7, %rax
	ja	.LBB55_90
	movzbl	(%rsi), %eax
	movb	%al, (%rdi)
	movzbl	1(%rsi), %eax
	movb	%al, 1(%rdi)
	movzbl	2(%rsi), %eax
	movb	%al, 2(%rdi)
	movzbl	3(%rsi), %eax
	movb	%al, 3(%rdi)
	movzbl	4(%rsi), %eax
	movb	%al, 4(%rdi)
	movzbl	5(%rsi), %eax
	movb	%al, 5(%rdi)
	movzbl	6(%rsi), %eax
	movb	%al, 6(%rdi)
	movzbl	7(%rsi), %eax
	movb	%al, 7(%rdi)
	jmp	.LBB55_120
.LBB55_70:
	movq	%r10, %r11
	movq	%rbp, %rdx
	andq	$-32, %rdx
	leaq	(%rax,%rcx), %r8
	addq	$20, %r8
	movq	(%rsp), %r9
	addq	%rbx, %r9
	xorl	%r10d, %r10d
	.p2align	4
.LBB55_71:
	movups	-16(%r8,%r10), %xmm0
	movups	(%r8,%r10), %xmm1
	movups	%xmm0, -16(%r9,%r10)
	movups	%xmm1, (%r9,%r10)
	addq	$32, %r10
	cmpq	%r10, %rdx
	jne	.LBB55_71
	cmpl	%edx, %ebp
	movq	%r11, %r10
	movq	16(%rsp), %r11
	je	.LBB55_83
	testb	$28, %bpl
	je	.LBB55_77
.LBB55_74:
	movq	%rdx, %r8
	movq	%rbp, %rdx
	andq	$-4, %rdx
	.p2align	4
.LBB55_75:
	movl	(%rsi,%r8), %r9d
	movl	%r9d, (%rdi,%r8)
	addq	$4, %r8
	cmpq	%r8, %rdx
	jne	.LBB55_75
	cmpl	%edx, %ebp
	je	.LBB55_83
	jmp	.LBB55_77
.LBB55_90:
	movq	(%rsi), %rax
	movq	%rax, (%rdi)
	jmp	.LBB55_120
.LBB55_91:
	movq	%r11, %r14
	movq	%r10, %r11
	movq	%rbp, %rdx
	andq	$-32, %rdx
	leaq	(%rax,%rcx), %r8
	addq	$20, %r8
	movq	(%rsp), %r9
	addq	%rbx, %r9
	xorl	%r10d, %r10d
	.p2align	4
.LBB55_92:
	movups	-16(%r8,%r10), %xmm0
	movups	(%r8,%r10), %xmm1
	movups	%xmm0, -16(%r9,%r10)
	movups	%xmm1, (%r9,%r10)
	addq	$32, %r10
	cmpq	%r10, %rdx
	jne	.LBB55_92
	cmpl	%edx, %ebp
	movq	%r11, %r10
	movq	%r14, %r11
	je	.LBB55_104
	testb	$28, %bpl
	je	.LBB55_98
.LBB55_95:
	movq	%rdx, %r8
	movq	%rbp, %rdx
	andq	$-4, %rdx
	.p2align	4
.LBB55_96:
	movl	(%rsi,%r8), %r9d
	movl	%r9d, (%rdi,%r8)
	addq	$4, %r8
	cmpq	%r8, %rdx
	jne	.LBB55_96
	cmpl	%edx, %ebp
	jne	.LBB55_98
	.p2align	4
.LBB55_104:
	movb	$0, 4(%r11,%rbp)
	leaq	5(%rbp), %rax
	andq	$-4, %rbp
	addq	$8, %rbp
	movw	%ax, (%r11)
	movw	$2, 2(%r11)
	movq	%rbp, %rcx
	subq	%rax, %rcx
	cmpq	$3, %rcx
	je	.LBB55_2
	cmpl	$2, %ecx
	jne	.LBB55_106
	jmp	.LBB55_124
.LBB55_107:
	movq	%r11, %r14
	movq	%r10, %r11
	movq	%rbp, %rdx
	andq	$-32, %rdx
	leaq	(%rax,%rcx), %r8
	addq	$20, %r8
	movq	(%rsp), %r9
	addq	%rbx, %r9
	xorl	%r10d, %r10d
	.p2align	4
.LBB55_108:
	movups	-16(%r8,%r10), %xmm0
	movups	(%r8,%r10), %xmm1
	movups	%xmm0, -16(%r9,%r10)
	movups	%xmm1, (%r9,%r10)
	addq	$32, %r10
	cmpq	%r10, %rdx
	jne	.LBB55_108
	cmpl	%edx, %ebp
	movq	%r11, %r10
	movq	%r14, %r11
	je	.LBB55_120
	testb	$28, %bpl
	je	.LBB55_114
.LBB55_111:
	movq	%rdx, %r8
	movq	%rbp, %rdx
	andq	$-4, %rdx
	.p2align	4
.LBB55_112:
	movl	(%rsi,%r8), %r9d
	movl	%r9d, (%rdi,%r8)
	addq	$4, %r8
	cmpq	%r8, %rdx
	jne	.LBB55_112
	cmpl	%edx, %ebp
	jne	.LBB55_114
	.p2align	4
.LBB55_120:
	movb	$0, 4(%r11,%rbp)
	leaq	5(%rbp), %rax
	andq	$-4, %rbp
	addq	$8, %rbp
	movw	%ax, (%r11)
	movw	$1, 2(%r11)
	movq	%rbp, %rcx
	subq	%rax, %rcx
	cmpq	$3, %rcx
	je	.LBB55_2
	cmpl	$2, %ecx
	je	.LBB55_124
.LBB55_106:
	cmpl	$1, %ecx
	jne	.LBB55_3
	movb	$0, (%r11,%rax)
	jmp	.LBB55_3
.LBB55_2:
	movw	$0, (%r11,%rax)
	movb	$0, 2(%r11,%rax)
	jmp	.LBB55_3
.LBB55_125:
	xorl	%ebx, %ebx
.LBB55_126:
	movq	%rbx, %rax
	addq	$40, %rsp
	.cfi_def_cfa_offset 56
	popq	%rbx
	.cfi_def_cfa_offset 48
	popq	%r12
	.cfi_def_cfa_offset 40
	popq	%r13
	.cfi_def_cfa_offset 32
	popq	%r14
	.cfi_def_cfa_offset 24
	popq	%r15
	.cfi_def_cfa_offset 16
	popq	%rbp
	.cfi_def_cfa_offset 8
	retq
.Lfunc_end55:
	.size	nla_wire.members.write_each.16a873d75d6df2a1, .Lfunc_end55-nla_wire.members.write_each.16a873d75d6df2a1
	.cfi_endproc

	.section	.text.nla_wire.members.write_each.5fa77b269143286c,"ax",@progbits
	.p2align	4
	.type	nla_wire.members.write_each.5fa77b269143286c,@function
nla_wire.members.write_each.5fa77b269143286c:
	.cfi_startproc
	pushq	%rbp
	.cfi_def_cfa_offset 16
	pushq	%r15
	.cfi_def_cfa_offset 24
	pushq	%r14
	.cfi_def_cfa_offset 32
	pushq	%r13
	.cfi_def_cfa_offset 40
	pushq	%r12
	.cfi_def_cfa_offset 48
	pushq	%rbx
	.cfi_def_cfa_offset 56
	subq	$40, %rsp
	.cfi_def_cfa_offset 96
	.cfi_offset %rbx, -56
	.cfi_offset %r12, -48
	.cfi_offset %r13, -40
	.cfi_offset %r14, -32
	.cfi_offset %r15, -24
	.cfi_offset %rbp, -16
	testq	%rsi, %rsi
	je	.LBB56_38
	movq	%rsi, %r15
	movq	%rdi, %r12
	leaq	20(%rdx), %rax
	movq	%rax, 24(%rsp)
	leaq	7(%rdx), %rax
	movq	%rax, 32(%rsp)
	xorl	%ebx, %ebx
	xorl	%r13d, %r13d
	movq	%rdx, 16(%rsp)
	jmp	.LBB56_5
	.p2align	4
.LBB56_2:
	movl	(%rsi), %eax
	movl	%eax, (%rdi)
.LBB56_3:
	movl	$65544, (%r11)
	movl	$8, %eax
.LBB56_4:
	addq	%rax, %rbx
	cmpq	%r13, %r15
	jbe	.LBB56_39
.LBB56_5:
	subq	%r13, %r15
	cmpq	$4, %r15
	jb	.LBB56_39
	movq	%r12, %rax
	movq	%r13, %rcx
	addq	%r13, %r12
	movzwl	(%r12), %r14d
	cmpw	$4, %r14w
	jb	.LBB56_39
	cmpq	%r14, %r15
	jb	.LBB56_39
	movzwl	2(%r12), %ebp
	leaq	4(%r12), %rsi
	leal	3(%r14), %r13d
	andl	$-4, %r13d
	leaq	(%rdx,%rbx), %r11
	movl	%ebp, %r9d
	andl	$16383, %r9d
	leaq	(%rdx,%rbx), %rdi
	addq	$4, %rdi
	movq	%rdi, %r8
	subq	%rsi, %r8
	cmpw	$1, %r9w
	jne	.LBB56_11
	cmpq	$3, %r8
	ja	.LBB56_2
	movzbl	4(%r12), %eax
	movb	%al, 4(%r11)
	movzbl	5(%r12), %eax
	movb	%al, 5(%r11)
	movzbl	6(%r12), %eax
	movb	%al, 6(%r11)
	movzbl	7(%r12), %eax
	movb	%al, 7(%r11)
	jmp	.LBB56_3
	.p2align	4
.LBB56_11:
	leaq	-4(%r14), %rdx
	cmpq	%rdx, %r8
	jae	.LBB56_14
	cmpl	$4, %edx
	movq	%r11, 8(%rsp)
	jb	.LBB56_13
	movq	%r11, %r9
	subq	%rax, %r9
	subq	%rcx, %r9
	cmpq	$32, %r9
	jae	.LBB56_17
.LBB56_13:
	xorl	%r8d, %r8d
.LBB56_26:
	movq	%r14, %r10
	movq	%r8, %r9
	andq	$3, %r10
	je	.LBB56_29
	movq	%r8, %r9
	.p2align	4
.LBB56_28:
	movzbl	(%rsi,%r9), %r11d
	movb	%r11b, (%rdi,%r9)
	incq	%r9
	decq	%r10
	jne	.LBB56_28
.LBB56_29:
	negq	%r8
	leaq	(%r14,%r8), %rsi
	addq	$-5, %rsi
	cmpl	$3, %esi
	movq	8(%rsp), %r11
	jb	.LBB56_32
	addq	%rcx, %rax
	addq	$7, %rax
	movq	32(%rsp), %rcx
	addq	%rbx, %rcx
	.p2align	4
.LBB56_31:
	movzbl	-3(%rax,%r9), %esi
	movb	%sil, -3(%rcx,%r9)
	movzbl	-2(%rax,%r9), %esi
	movb	%sil, -2(%rcx,%r9)
	movzbl	-1(%rax,%r9), %esi
	movb	%sil, -1(%rcx,%r9)
	movzbl	(%rax,%r9), %esi
	movb	%sil, (%rcx,%r9)
	addq	$4, %r9
	cmpq	%r9, %rdx
	jne	.LBB56_31
	jmp	.LBB56_32
	.p2align	4
.LBB56_14:
	movl	%ebp, 4(%rsp)
	movq	%r11, %rbp
	callq	memmove@PLT
	movq	%rbp, %r11
	movl	4(%rsp), %ebp
.LBB56_32:
	movw	%r14w, (%r11)
	movw	%bp, 2(%r11)
	movq	%r13, %rcx
	subq	%r14, %rcx
	cmpq	$3, %rcx
	je	.LBB56_37
	cmpl	$2, %ecx
	movq	16(%rsp), %rdx
	je	.LBB56_36
	movq	%r13, %rax
	cmpl	$1, %ecx
	jne	.LBB56_4
	movb	$0, (%r11,%r14)
	movq	%r13, %rax
	jmp	.LBB56_4
.LBB56_36:
	movw	$0, (%r11,%r14)
	movq	%r13, %rax
	jmp	.LBB56_4
.LBB56_37:
	movw	$0, (%r11,%r14)
	movb	$0, 2(%r11,%r14)
	movq	%r13, %rax
	movq	16(%rsp), %rdx
	jmp	.LBB56_4
.LBB56_17:
	cmpl	$32, %edx
	jae	.LBB56_19
	xorl	%r8d, %r8d
	jmp	.LBB56_23
.LBB56_19:
	movq	%rdx, %r8
	andq	$-32, %r8
	leaq	(%rax,%rcx), %r9
	addq	$20, %r9
	movq	24(%rsp), %r10
	addq	%rbx, %r10
	xorl	%r11d, %r11d
	.p2align	4
.LBB56_20:
	movups	-16(%r9,%r11), %xmm0
	movups	(%r9,%r11), %xmm1
	movups	%xmm0, -16(%r10,%r11)
	movups	%xmm1, (%r10,%r11)
	addq	$32, %r11
	cmpq	%r11, %r8
	jne	.LBB56_20
	cmpl	%r8d, %edx
	movq	8(%rsp), %r11
	je	.LBB56_32
	testb	$28, %dl
	je	.LBB56_26
.LBB56_23:
	movq	%r8, %r9
	movq	%rdx, %r8
	andq	$-4, %r8
	.p2align	4
.LBB56_24:
	movl	(%rsi,%r9), %r10d
	movl	%r10d, (%rdi,%r9)
	addq	$4, %r9
	cmpq	%r9, %r8
	jne	.LBB56_24
	cmpl	%r8d, %edx
	je	.LBB56_32
	jmp	.LBB56_26
.LBB56_38:
	xorl	%ebx, %ebx
.LBB56_39:
	movq	%rbx, %rax
	addq	$40, %rsp
	.cfi_def_cfa_offset 56
	popq	%rbx
	.cfi_def_cfa_offset 48
	popq	%r12
	.cfi_def_cfa_offset 40
	popq	%r13
	.cfi_def_cfa_offset 32
	popq	%r14
	.cfi_def_cfa_offset 24
	popq	%r15
	.cfi_def_cfa_offset 16
	popq	%rbp
	.cfi_def_cfa_offset 8
	retq
.Lfunc_end56:
	.size	nla_wire.members.write_each.5fa77b269143286c, .Lfunc_end56-nla_wire.members.write_each.5fa77b269143286c
	.cfi_endproc

	.section	.text.nla_wire.members.write_each.1f0cb788f492ced5,"ax",@progbits
	.p2align	4
	.type	nla_wire.members.write_each.1f0cb788f492ced5,@function
nla_wire.members.write_each.1f0cb788f492ced5:
	.cfi_startproc
	pushq	%rbp
	.cfi_def_cfa_offset 16
	pushq	%r15
	.cfi_def_cfa_offset 24
	pushq	%r14
	.cfi_def_cfa_offset 32
	pushq	%r13
	.cfi_def_cfa_offset 40
	pushq	%r12
	.cfi_def_cfa_offset 48
	pushq	%rbx
	.cfi_def_cfa_offset 56
	subq	$24, %rsp
	.cfi_def_cfa_offset 80
	.cfi_offset %rbx, -56
	.cfi_offset %r12, -48
	.cfi_offset %r13, -40
	.cfi_offset %r14, -32
	.cfi_offset %r15, -24
	.cfi_offset %rbp, -16
	testq	%rsi, %rsi
	je	.LBB57_33
	movq	%rdx, %r8
	movq	%rsi, %r15
	movq	%rdi, %r12
	leaq	20(%rdx), %rax
	movq	%rax, 8(%rsp)
	leaq	7(%rdx), %rax
	movq	%rax, 16(%rsp)
	xorl	%ebx, %ebx
	xorl	%eax, %eax
	movq	%rdx, (%rsp)
	jmp	.LBB57_4
	.p2align	4
.LBB57_2:
	movw	$0, (%rbp,%r13)
.LBB57_3:
	addq	%rax, %rbx
	cmpq	%rax, %r15
	jbe	.LBB57_34
.LBB57_4:
	subq	%rax, %r15
	cmpq	$4, %r15
	jb	.LBB57_34
	movq	%r12, %rcx
	addq	%rax, %r12
	movzwl	(%r12), %r13d
	cmpw	$4, %r13w
	jb	.LBB57_34
	cmpq	%r13, %r15
	jb	.LBB57_34
	movzwl	2(%r12), %r14d
	leaq	4(%r12), %rsi
	leaq	-4(%r13), %rdx
	leaq	(%r8,%rbx), %rbp
	leaq	(%r8,%rbx), %rdi
	addq	$4, %rdi
	movq	%rdi, %r8
	subq	%rsi, %r8
	cmpq	%rdx, %r8
	jae	.LBB57_10
	cmpl	$4, %edx
	jb	.LBB57_9
	movq	%rbp, %r9
	subq	%rcx, %r9
	subq	%rax, %r9
	cmpq	$32, %r9
	jae	.LBB57_13
.LBB57_9:
	xorl	%r8d, %r8d
.LBB57_22:
	movq	%r13, %r10
	movq	%r8, %r9
	andq	$3, %r10
	je	.LBB57_25
	movq	%r8, %r9
	.p2align	4
.LBB57_24:
	movzbl	(%rsi,%r9), %r11d
	movb	%r11b, (%rdi,%r9)
	incq	%r9
	decq	%r10
	jne	.LBB57_24
.LBB57_25:
	negq	%r8
	leaq	(%r8,%r13), %rsi
	addq	$-5, %rsi
	cmpl	$3, %esi
	jb	.LBB57_28
	addq	%rcx, %rax
	addq	$7, %rax
	movq	16(%rsp), %rcx
	addq	%rbx, %rcx
	.p2align	4
.LBB57_27:
	movzbl	-3(%rax,%r9), %esi
	movb	%sil, -3(%rcx,%r9)
	movzbl	-2(%rax,%r9), %esi
	movb	%sil, -2(%rcx,%r9)
	movzbl	-1(%rax,%r9), %esi
	movb	%sil, -1(%rcx,%r9)
	movzbl	(%rax,%r9), %esi
	movb	%sil, (%rcx,%r9)
	addq	$4, %r9
	cmpq	%r9, %rdx
	jne	.LBB57_27
	jmp	.LBB57_28
	.p2align	4
.LBB57_10:
	callq	memmove@PLT
.LBB57_28:
	leal	3(%r13), %eax
	andl	$-4, %eax
	movw	%r13w, (%rbp)
	movw	%r14w, 2(%rbp)
	movq	%rax, %rcx
	subq	%r13, %rcx
	cmpq	$3, %rcx
	je	.LBB57_32
	cmpl	$2, %ecx
	movq	(%rsp), %r8
	je	.LBB57_2
	cmpl	$1, %ecx
	jne	.LBB57_3
	movb	$0, (%rbp,%r13)
	jmp	.LBB57_3
	.p2align	4
.LBB57_32:
	movw	$0, (%rbp,%r13)
	movb	$0, 2(%rbp,%r13)
	movq	(%rsp), %r8
	jmp	.LBB57_3
.LBB57_13:
	cmpl	$32, %edx
	jae	.LBB57_15
	xorl	%r8d, %r8d
	jmp	.LBB57_19
.LBB57_15:
	movq	%rdx, %r8
	andq	$-32, %r8
	leaq	(%rcx,%rax), %r9
	addq	$20, %r9
	movq	8(%rsp), %r10
	addq	%rbx, %r10
	xorl	%r11d, %r11d
	.p2align	4
.LBB57_16:
	movups	-16(%r9,%r11), %xmm0
	movups	(%r9,%r11), %xmm1
	movups	%xmm0, -16(%r10,%r11)
	movups	%xmm1, (%r10,%r11)
	addq	$32, %r11
	cmpq	%r11, %r8
	jne	.LBB57_16
	cmpl	%r8d, %edx
	je	.LBB57_28
	testb	$28, %dl
	je	.LBB57_22
.LBB57_19:
	movq	%r8, %r9
	movq	%rdx, %r8
	andq	$-4, %r8
	.p2align	4
.LBB57_20:
	movl	(%rsi,%r9), %r10d
	movl	%r10d, (%rdi,%r9)
	addq	$4, %r9
	cmpq	%r9, %r8
	jne	.LBB57_20
	cmpl	%r8d, %edx
	je	.LBB57_28
	jmp	.LBB57_22
.LBB57_33:
	xorl	%ebx, %ebx
.LBB57_34:
	movq	%rbx, %rax
	addq	$24, %rsp
	.cfi_def_cfa_offset 56
	popq	%rbx
	.cfi_def_cfa_offset 48
	popq	%r12
	.cfi_def_cfa_offset 40
	popq	%r13
	.cfi_def_cfa_offset 32
	popq	%r14
	.cfi_def_cfa_offset 24
	popq	%r15
	.cfi_def_cfa_offset 16
	popq	%rbp
	.cfi_def_cfa_offset 8
	retq
.Lfunc_end57:
	.size	nla_wire.members.write_each.1f0cb788f492ced5, .Lfunc_end57-nla_wire.members.write_each.1f0cb788f492ced5
	.cfi_endproc

	.section	.text.nla_wire.members.write_each.6cf1decf0b22dc4b,"ax",@progbits
	.p2align	4
	.type	nla_wire.members.write_each.6cf1decf0b22dc4b,@function
nla_wire.members.write_each.6cf1decf0b22dc4b:
	.cfi_startproc
	pushq	%rbp
	.cfi_def_cfa_offset 16
	pushq	%r15
	.cfi_def_cfa_offset 24
	pushq	%r14
	.cfi_def_cfa_offset 32
	pushq	%r13
	.cfi_def_cfa_offset 40
	pushq	%r12
	.cfi_def_cfa_offset 48
	pushq	%rbx
	.cfi_def_cfa_offset 56
	subq	$40, %rsp
	.cfi_def_cfa_offset 96
	.cfi_offset %rbx, -56
	.cfi_offset %r12, -48
	.cfi_offset %r13, -40
	.cfi_offset %r14, -32
	.cfi_offset %r15, -24
	.cfi_offset %rbp, -16
	testq	%rsi, %rsi
	je	.LBB58_50
	movq	%rdx, %r11
	movq	%rsi, %r15
	movq	%rdi, %r12
	leaq	20(%rdx), %rax
	movq	%rax, 16(%rsp)
	leaq	7(%rdx), %rax
	movq	%rax, 24(%rsp)
	xorl	%ebx, %ebx
	xorl	%r13d, %r13d
	movq	%rdx, 8(%rsp)
	jmp	.LBB58_5
.LBB58_2:
	movw	$0, (%rsi,%rcx)
	movb	$0, 2(%rsi,%rcx)
.LBB58_3:
	movq	8(%rsp), %r11
.LBB58_4:
	addq	%rax, %rbx
	cmpq	%r13, %r15
	jbe	.LBB58_51
.LBB58_5:
	subq	%r13, %r15
	cmpq	$4, %r15
	jb	.LBB58_51
	movq	%r12, %rcx
	movq	%r13, %rdi
	addq	%r13, %r12
	movzwl	(%r12), %r14d
	cmpw	$4, %r14w
	jb	.LBB58_51
	cmpq	%r14, %r15
	jb	.LBB58_51
	movzwl	2(%r12), %ebp
	leaq	4(%r12), %rsi
	leaq	-4(%r14), %rax
	leal	3(%r14), %r13d
	andl	$-4, %r13d
	leaq	(%r11,%rbx), %r10
	movl	%ebp, %r8d
	andl	$16383, %r8d
	leaq	(%r11,%rbx), %rdx
	addq	$4, %rdx
	cmpl	$45, %r8d
	je	.LBB58_18
	cmpl	$10, %r8d
	je	.LBB58_15
	cmpl	$2, %r8d
	jne	.LBB58_21
	movq	%rsi, %rdi
	movq	%rax, %rsi
	movq	%r10, %r14
	callq	nla_wire.members.write_each.d7cac04ae1e23078
	movq	%r14, %rsi
	leaq	4(%rax), %rcx
	addq	$7, %rax
	andq	$-4, %rax
	movw	%cx, (%r14)
	movw	$2, 2(%r14)
	movq	%rax, %rdx
	subq	%rcx, %rdx
	cmpq	$3, %rdx
	je	.LBB58_2
	cmpq	$2, %rdx
	movq	8(%rsp), %r11
	je	.LBB58_26
	cmpq	$1, %rdx
	jne	.LBB58_4
	jmp	.LBB58_14
	.p2align	4
.LBB58_15:
	movq	%rsi, %rdi
	movq	%rax, %rsi
	movq	%r10, %r14
	callq	nla_wire.members.write_each.97809315b2b26985
	movq	%r14, %rsi
	leaq	4(%rax), %rcx
	addq	$7, %rax
	andq	$-4, %rax
	movw	%cx, (%r14)
	movw	$10, 2(%r14)
	movq	%rax, %rdx
	subq	%rcx, %rdx
	cmpq	$3, %rdx
	je	.LBB58_2
	cmpq	$2, %rdx
	je	.LBB58_24
.LBB58_17:
	cmpq	$1, %rdx
	movq	8(%rsp), %r11
	jne	.LBB58_4
.LBB58_14:
	movb	$0, (%rsi,%rcx)
	jmp	.LBB58_4
	.p2align	4
.LBB58_18:
	movq	%rsi, %rdi
	movq	%rax, %rsi
	movq	%r10, %r14
	callq	nla_wire.members.write_each.7562298f77a88fdb
	movq	%r14, %rsi
	leaq	4(%rax), %rcx
	addq	$7, %rax
	andq	$-4, %rax
	movw	%cx, (%r14)
	movw	$45, 2(%r14)
	movq	%rax, %rdx
	subq	%rcx, %rdx
	cmpq	$3, %rdx
	je	.LBB58_2
	cmpq	$2, %rdx
	jne	.LBB58_17
.LBB58_24:
	movw	$0, (%rsi,%rcx)
	jmp	.LBB58_3
	.p2align	4
.LBB58_21:
	movq	%rdx, %r8
	subq	%rsi, %r8
	cmpq	%rax, %r8
	movq	%r10, 32(%rsp)
	jae	.LBB58_25
	cmpl	$4, %eax
	jb	.LBB58_23
	movq	%r10, %r9
	subq	%rcx, %r9
	subq	%rdi, %r9
	cmpq	$32, %r9
	jae	.LBB58_28
.LBB58_23:
	xorl	%r8d, %r8d
.LBB58_37:
	movq	%r14, %r10
	movq	%r8, %r9
	andq	$3, %r10
	je	.LBB58_40
	movq	%r8, %r9
	.p2align	4
.LBB58_39:
	movzbl	(%rsi,%r9), %r11d
	movb	%r11b, (%rdx,%r9)
	incq	%r9
	decq	%r10
	jne	.LBB58_39
.LBB58_40:
	negq	%r8
	leaq	(%r14,%r8), %rdx
	addq	$-5, %rdx
	cmpl	$3, %edx
	movq	8(%rsp), %r11
	jb	.LBB58_43
	addq	%rdi, %rcx
	addq	$7, %rcx
	movq	24(%rsp), %rdx
	addq	%rbx, %rdx
	.p2align	4
.LBB58_42:
	movzbl	-3(%rcx,%r9), %esi
	movb	%sil, -3(%rdx,%r9)
	movzbl	-2(%rcx,%r9), %esi
	movb	%sil, -2(%rdx,%r9)
	movzbl	-1(%rcx,%r9), %esi
	movb	%sil, -1(%rdx,%r9)
	movzbl	(%rcx,%r9), %esi
	movb	%sil, (%rdx,%r9)
	addq	$4, %r9
	cmpq	%r9, %rax
	jne	.LBB58_42
	jmp	.LBB58_43
.LBB58_25:
	movq	%rdx, %rdi
	movq	%rax, %rdx
	callq	memmove@PLT
	movq	8(%rsp), %r11
.LBB58_43:
	movq	32(%rsp), %rdx
	movw	%r14w, (%rdx)
	movw	%bp, 2(%rdx)
	movq	%r13, %rcx
	subq	%r14, %rcx
	cmpq	$3, %rcx
	je	.LBB58_48
	cmpl	$2, %ecx
	je	.LBB58_47
	movq	%r13, %rax
	cmpl	$1, %ecx
	jne	.LBB58_4
	movb	$0, (%rdx,%r14)
	jmp	.LBB58_49
.LBB58_26:
	movw	$0, (%rsi,%rcx)
	jmp	.LBB58_4
.LBB58_47:
	movw	$0, (%rdx,%r14)
	jmp	.LBB58_49
.LBB58_48:
	movw	$0, (%rdx,%r14)
	movb	$0, 2(%rdx,%r14)
.LBB58_49:
	movq	%r13, %rax
	jmp	.LBB58_4
.LBB58_28:
	cmpl	$32, %eax
	jae	.LBB58_30
	xorl	%r8d, %r8d
	jmp	.LBB58_34
.LBB58_30:
	movq	%rax, %r8
	andq	$-32, %r8
	leaq	(%rcx,%rdi), %r9
	addq	$20, %r9
	movq	16(%rsp), %r10
	addq	%rbx, %r10
	xorl	%r11d, %r11d
	.p2align	4
.LBB58_31:
	movups	-16(%r9,%r11), %xmm0
	movups	(%r9,%r11), %xmm1
	movups	%xmm0, -16(%r10,%r11)
	movups	%xmm1, (%r10,%r11)
	addq	$32, %r11
	cmpq	%r11, %r8
	jne	.LBB58_31
	cmpl	%r8d, %eax
	movq	8(%rsp), %r11
	je	.LBB58_43
	testb	$28, %al
	je	.LBB58_37
.LBB58_34:
	movq	%r8, %r9
	movq	%rax, %r8
	andq	$-4, %r8
	.p2align	4
.LBB58_35:
	movl	(%rsi,%r9), %r10d
	movl	%r10d, (%rdx,%r9)
	addq	$4, %r9
	cmpq	%r9, %r8
	jne	.LBB58_35
	cmpl	%r8d, %eax
	je	.LBB58_43
	jmp	.LBB58_37
.LBB58_50:
	xorl	%ebx, %ebx
.LBB58_51:
	movq	%rbx, %rax
	addq	$40, %rsp
	.cfi_def_cfa_offset 56
	popq	%rbx
	.cfi_def_cfa_offset 48
	popq	%r12
	.cfi_def_cfa_offset 40
	popq	%r13
	.cfi_def_cfa_offset 32
	popq	%r14
	.cfi_def_cfa_offset 24
	popq	%r15
	.cfi_def_cfa_offset 16
	popq	%rbp
	.cfi_def_cfa_offset 8
	retq
.Lfunc_end58:
	.size	nla_wire.members.write_each.6cf1decf0b22dc4b, .Lfunc_end58-nla_wire.members.write_each.6cf1decf0b22dc4b
	.cfi_endproc

	.section	.text.nla_wire.members.write_each.d7cac04ae1e23078,"ax",@progbits
	.p2align	4
	.type	nla_wire.members.write_each.d7cac04ae1e23078,@function
nla_wire.members.write_each.d7cac04ae1e23078:
	.cfi_startproc
	pushq	%rbp
	.cfi_def_cfa_offset 16
	pushq	%r15
	.cfi_def_cfa_offset 24
	pushq	%r14
	.cfi_def_cfa_offset 32
	pushq	%r13
	.cfi_def_cfa_offset 40
	pushq	%r12
	.cfi_def_cfa_offset 48
	pushq	%rbx
	.cfi_def_cfa_offset 56
	subq	$40, %rsp
	.cfi_def_cfa_offset 96
	.cfi_offset %rbx, -56
	.cfi_offset %r12, -48
	.cfi_offset %r13, -40
	.cfi_offset %r14, -32
	.cfi_offset %r15, -24
	.cfi_offset %rbp, -16
	testq	%rsi, %rsi
	je	.LBB59_68
	movq	%rsi, %r15
	movq	%rdi, %r12
	leaq	20(%rdx), %rax
	movq	%rax, 16(%rsp)
	leaq	7(%rdx), %rax
	movq	%rax, 24(%rsp)
	xorl	%ebx, %ebx
	xorl	%r14d, %r14d
	movq	%rdx, 8(%rsp)
	jmp	.LBB59_5
.LBB59_24:
	movl	$136, %edx
	callq	memmove@PLT
	movq	8(%rsp), %rdx
.LBB59_28:
	movl	$65676, (%rbp)
	movl	$140, %eax
.LBB59_4:
	addq	%rax, %rbx
	cmpq	%r14, %r15
	jbe	.LBB59_69
.LBB59_5:
	subq	%r14, %r15
	cmpq	$4, %r15
	jb	.LBB59_69
	movq	%r12, %rax
	movq	%r14, %rcx
	addq	%r14, %r12
	movzwl	(%r12), %r13d
	cmpw	$4, %r13w
	jb	.LBB59_69
	cmpq	%r13, %r15
	jb	.LBB59_69
	movzwl	2(%r12), %r10d
	leaq	4(%r12), %rsi
	leaq	-4(%r13), %r11
	leal	3(%r13), %r14d
	andl	$-4, %r14d
	leaq	(%rdx,%rbx), %rbp
	movl	%r10d, %edi
	andl	$16383, %edi
	cmpw	$1, %di
	jne	.LBB59_13
	movzwl	%r13w, %r8d
	leaq	4(%rbp), %rdi
	movq	%rdi, %r9
	subq	%rsi, %r9
	cmpl	$140, %r8d
	jae	.LBB59_16
	cmpq	%r11, %r9
	jae	.LBB59_21
	cmpl	$4, %r11d
	jb	.LBB59_12
	movq	%rbp, %r8
	subq	%rax, %r8
	subq	%rcx, %r8
	cmpq	$32, %r8
	jae	.LBB59_31
.LBB59_12:
	xorl	%edx, %edx
.LBB59_58:
	movq	%r13, %r9
	movq	%rdx, %r8
	andq	$3, %r9
	je	.LBB59_61
	movq	%rdx, %r8
	.p2align	4
.LBB59_60:
	movzbl	(%rsi,%r8), %r10d
	movb	%r10b, (%rdi,%r8)
	incq	%r8
	decq	%r9
	jne	.LBB59_60
.LBB59_61:
	negq	%rdx
	addq	%r13, %rdx
	addq	$-5, %rdx
	cmpl	$3, %edx
	jb	.LBB59_64
	addq	%rcx, %rax
	addq	$7, %rax
	movq	24(%rsp), %rcx
	addq	%rbx, %rcx
	.p2align	4
.LBB59_63:
	movzbl	-3(%rax,%r8), %edx
	movb	%dl, -3(%rcx,%r8)
	movzbl	-2(%rax,%r8), %edx
	movb	%dl, -2(%rcx,%r8)
	movzbl	-1(%rax,%r8), %edx
	movb	%dl, -1(%rcx,%r8)
	movzbl	(%rax,%r8), %edx
	movb	%dl, (%rcx,%r8)
	addq	$4, %r8
	cmpq	%r8, %r11
	jne	.LBB59_63
	jmp	.LBB59_64
	.p2align	4
.LBB59_13:
	leaq	4(%rbp), %rdi
	movq	%rdi, %rdx
	subq	%rsi, %rdx
	cmpq	%r11, %rdx
	jae	.LBB59_20
	cmpl	$4, %r11d
	movl	%r10d, 4(%rsp)
	jb	.LBB59_15
	movq	%rbp, %r8
	subq	%rax, %r8
	subq	%rcx, %r8
	cmpq	$32, %r8
	jae	.LBB59_29
.LBB59_15:
	xorl	%edx, %edx
.LBB59_40:
	movq	%r13, %r9
	movq	%rdx, %r8
	andq	$3, %r9
	je	.LBB59_43
	movq	%rdx, %r8
	.p2align	4
.LBB59_42:
	movzbl	(%rsi,%r8), %r10d
	movb	%r10b, (%rdi,%r8)
	incq	%r8
	decq	%r9
	jne	.LBB59_42
.LBB59_43:
	negq	%rdx
	addq	%r13, %rdx
	addq	$-5, %rdx
	cmpl	$3, %edx
	movl	4(%rsp), %r10d
	jb	.LBB59_46
	addq	%rcx, %rax
	addq	$7, %rax
	movq	24(%rsp), %rcx
	addq	%rbx, %rcx
	.p2align	4
.LBB59_45:
	movzbl	-3(%rax,%r8), %edx
	movb	%dl, -3(%rcx,%r8)
	movzbl	-2(%rax,%r8), %edx
	movb	%dl, -2(%rcx,%r8)
	movzbl	-1(%rax,%r8), %edx
	movb	%dl, -1(%rcx,%r8)
	movzbl	(%rax,%r8), %edx
	movb	%dl, (%rcx,%r8)
	addq	$4, %r8
	cmpq	%r8, %r11
	jne	.LBB59_45
	jmp	.LBB59_46
	.p2align	4
.LBB59_16:
	cmpq	$135, %r9
	ja	.LBB59_24
	addq	%rcx, %rax
	movq	%rbp, %rcx
	subq	%rax, %rcx
	cmpq	$31, %rcx
	ja	.LBB59_27
	movl	$7, %eax
	.p2align	4
.LBB59_19:
	movzbl	-3(%r12,%rax), %ecx
	movb	%cl, -3(%rbp,%rax)
	movzbl	-2(%r12,%rax), %ecx
	movb	%cl, -2(%rbp,%rax)
	movzbl	-1(%r12,%rax), %ecx
	movb	%cl, -1(%rbp,%rax)
	movzbl	(%r12,%rax), %ecx
	movb	%cl, (%rbp,%rax)
	addq	$4, %rax
	cmpq	$143, %rax
	jne	.LBB59_19
	jmp	.LBB59_28
	.p2align	4
.LBB59_20:
	movq	%r11, %rdx
	movq	%rbp, 32(%rsp)
	movq	%rbx, %rbp
	movq	%r14, %rbx
	movl	%r10d, %r14d
	callq	memmove@PLT
	movl	%r14d, %r10d
	movq	%rbx, %r14
	movq	%rbp, %rbx
	movq	32(%rsp), %rbp
.LBB59_46:
	movw	%r13w, (%rbp)
	movw	%r10w, 2(%rbp)
	movq	%r14, %rcx
	subq	%r13, %rcx
	cmpq	$3, %rcx
	je	.LBB59_50
	cmpl	$2, %ecx
	movq	8(%rsp), %rdx
	je	.LBB59_2
	movq	%r14, %rax
	cmpl	$1, %ecx
	jne	.LBB59_4
	movb	$0, (%rbp,%r13)
	jmp	.LBB59_3
.LBB59_2:
	movw	$0, (%rbp,%r13)
.LBB59_3:
	movq	%r14, %rax
	jmp	.LBB59_4
.LBB59_21:
	movq	%r11, %rdx
	callq	memmove@PLT
	leaq	-4(%r13), %r11
.LBB59_64:
	cmpl	$135, %r11d
	je	.LBB59_66
	movl	$139, %edx
	subq	%r13, %rdx
	addq	%rbp, %r13
	movq	%r13, %rdi
	xorl	%esi, %esi
	callq	memset@PLT
.LBB59_66:
	movb	$0, 139(%rbp)
	movl	$65676, (%rbp)
	movl	$140, %eax
	jmp	.LBB59_67
.LBB59_50:
	movw	$0, (%rbp,%r13)
	movb	$0, 2(%rbp,%r13)
	movq	%r14, %rax
.LBB59_67:
	movq	8(%rsp), %rdx
	jmp	.LBB59_4
.LBB59_29:
	cmpl	$32, %r11d
	jae	.LBB59_33
	xorl	%edx, %edx
	jmp	.LBB59_37
.LBB59_27:
	movups	4(%r12), %xmm0
	movups	20(%r12), %xmm1
	movups	%xmm0, 4(%rbp)
	movups	%xmm1, 20(%rbp)
	movups	36(%r12), %xmm0
	movups	52(%r12), %xmm1
	movups	%xmm0, 36(%rbp)
	movups	%xmm1, 52(%rbp)
	movups	68(%r12), %xmm0
	movups	84(%r12), %xmm1
	movups	%xmm0, 68(%rbp)
	movups	%xmm1, 84(%rbp)
	movups	100(%r12), %xmm0
	movups	116(%r12), %xmm1
	movups	%xmm0, 100(%rbp)
	movups	%xmm1, 116(%rbp)
	movq	132(%r12), %rax
	movq	%rax, 132(%rbp)
	jmp	.LBB59_28
.LBB59_31:
	cmpl	$32, %r11d
	jae	.LBB59_51
	xorl	%edx, %edx
	jmp	.LBB59_55
.LBB59_33:
	movq	%r11, %rdx
	andq	$-32, %rdx
	leaq	(%rax,%rcx), %r8
	addq	$20, %r8
	movq	16(%rsp), %r9
	addq	%rbx, %r9
	xorl	%r10d, %r10d
	.p2align	4
.LBB59_34:
	movups	-16(%r8,%r10), %xmm0
	movups	(%r8,%r10), %xmm1
	movups	%xmm0, -16(%r9,%r10)
	movups	%xmm1, (%r9,%r10)
	addq	$32, %r10
	cmpq	%r10, %rdx
	jne	.LBB59_34
	cmpl	%edx, %r11d
	movl	4(%rsp), %r10d
	je	.LBB59_46
	testb	$28, %r11b
	je	.LBB59_40
.LBB59_37:
	movq	%rdx, %r8
	movq	%r11, %rdx
	andq	$-4, %rdx
	.p2align	4
.LBB59_38:
	movl	(%rsi,%r8), %r9d
	movl	%r9d, (%rdi,%r8)
	addq	$4, %r8
	cmpq	%r8, %rdx
	jne	.LBB59_38
	cmpl	%edx, %r11d
	je	.LBB59_46
	jmp	.LBB59_40
.LBB59_51:
	movq	%r11, %rdx
	andq	$-32, %rdx
	leaq	(%rax,%rcx), %r8
	addq	$20, %r8
	movq	16(%rsp), %r9
	addq	%rbx, %r9
	xorl	%r10d, %r10d
	.p2align	4
.LBB59_52:
	movups	-16(%r8,%r10), %xmm0
	movups	(%r8,%r10), %xmm1
	movups	%xmm0, -16(%r9,%r10)
	movups	%xmm1, (%r9,%r10)
	addq	$32, %r10
	cmpq	%r10, %rdx
	jne	.LBB59_52
	cmpl	%edx, %r11d
	je	.LBB59_64
	testb	$28, %r11b
	je	.LBB59_58
.LBB59_55:
	movq	%rdx, %r8
	movq	%r11, %rdx
	andq	$-4, %rdx
	.p2align	4
.LBB59_56:
	movl	(%rsi,%r8), %r9d
	movl	%r9d, (%rdi,%r8)
	addq	$4, %r8
	cmpq	%r8, %rdx
	jne	.LBB59_56
	cmpl	%edx, %r11d
	je	.LBB59_64
	jmp	.LBB59_58
.LBB59_68:
	xorl	%ebx, %ebx
.LBB59_69:
	movq	%rbx, %rax
	addq	$40, %rsp
	.cfi_def_cfa_offset 56
	popq	%rbx
	.cfi_def_cfa_offset 48
	popq	%r12
	.cfi_def_cfa_offset 40
	popq	%r13
	.cfi_def_cfa_offset 32
	popq	%r14
	.cfi_def_cfa_offset 24
	popq	%r15
	.cfi_def_cfa_offset 16
	popq	%rbp
	.cfi_def_cfa_offset 8
	retq
.Lfunc_end59:
	.size	nla_wire.members.write_each.d7cac04ae1e23078, .Lfunc_end59-nla_wire.members.write_each.d7cac04ae1e23078
	.cfi_endproc

	.section	.text.nla_wire.members.write_each.97809315b2b26985,"ax",@progbits
	.p2align	4
	.type	nla_wire.members.write_each.97809315b2b26985,@function
nla_wire.members.write_each.97809315b2b26985:
	.cfi_startproc
	pushq	%rbp
	.cfi_def_cfa_offset 16
	pushq	%r15
	.cfi_def_cfa_offset 24
	pushq	%r14
	.cfi_def_cfa_offset 32
	pushq	%r13
	.cfi_def_cfa_offset 40
	pushq	%r12
	.cfi_def_cfa_offset 48
	pushq	%rbx
	.cfi_def_cfa_offset 56
	subq	$40, %rsp
	.cfi_def_cfa_offset 96
	.cfi_offset %rbx, -56
	.cfi_offset %r12, -48
	.cfi_offset %r13, -40
	.cfi_offset %r14, -32
	.cfi_offset %r15, -24
	.cfi_offset %rbp, -16
	testq	%rsi, %rsi
	je	.LBB60_2
	movq	%rsi, %r15
	movq	%rdi, %r12
	leaq	20(%rdx), %rax
	movq	%rax, 24(%rsp)
	leaq	7(%rdx), %rax
	movq	%rax, 32(%rsp)
	xorl	%ebx, %ebx
	xorl	%r11d, %r11d
	movq	%rdx, 16(%rsp)
	jmp	.LBB60_7
.LBB60_2:
	xorl	%ebx, %ebx
.LBB60_3:
	movq	%rbx, %rax
	addq	$40, %rsp
	.cfi_def_cfa_offset 56
	popq	%rbx
	.cfi_def_cfa_offset 48
	popq	%r12
	.cfi_def_cfa_offset 40
	popq	%r13
	.cfi_def_cfa_offset 32
	popq	%r14
	.cfi_def_cfa_offset 24
	popq	%r15
	.cfi_def_cfa_offset 16
	popq	%rbp
	.cfi_def_cfa_offset 8
	retq
.LBB60_4:
	.cfi_def_cfa_offset 96
	movb	$0, 243(%rbp)
	movl	$131316, (%rbp)
	movl	$244, %eax
.LBB60_5:
	movq	16(%rsp), %rdx
	movq	8(%rsp), %r11
.LBB60_6:
	addq	%rax, %rbx
	cmpq	%r11, %r15
	jbe	.LBB60_3
.LBB60_7:
	subq	%r11, %r15
	cmpq	$4, %r15
	jb	.LBB60_3
	movq	%r12, %rax
	movq	%r11, %rcx
	addq	%r11, %r12
	movzwl	(%r12), %r13d
	cmpw	$4, %r13w
	jb	.LBB60_3
	cmpq	%r13, %r15
	jb	.LBB60_3
	movzwl	2(%r12), %r14d
	leaq	4(%r12), %rsi
	leaq	-4(%r13), %r10
	leal	3(%r13), %r11d
	andl	$-4, %r11d
	leaq	(%rdx,%rbx), %rbp
	movl	%r14d, %r8d
	andl	$16383, %r8d
	decl	%r8d
	cmpl	$8, %r8d
	ja	.LBB60_14
	leaq	.LJTI60_0(%rip), %rdi
	movslq	(%rdi,%r8,4), %r8
	addq	%rdi, %r8
	jmpq	*%r8
.LBB60_12:
	leaq	4(%rbp), %rax
	movq	%rax, %rcx
	subq	%rsi, %rcx
	cmpq	$3, %rcx
	ja	.LBB60_51
	movzbl	4(%r12), %eax
	movb	%al, 4(%rbp)
	movzbl	5(%r12), %eax
	movb	%al, 5(%rbp)
	movzbl	6(%r12), %eax
	movb	%al, 6(%rbp)
	movzbl	7(%r12), %eax
	movb	%al, 7(%rbp)
	jmp	.LBB60_52
.LBB60_14:
	leaq	4(%rbp), %rdi
	movq	%rdi, %rdx
	subq	%rsi, %rdx
	cmpq	%r10, %rdx
	jae	.LBB60_38
	cmpl	$4, %r10d
	jb	.LBB60_16
	movq	%rbp, %r8
	subq	%rax, %r8
	subq	%rcx, %r8
	cmpq	$32, %r8
	jae	.LBB60_69
.LBB60_16:
	xorl	%edx, %edx
.LBB60_90:
	movq	%r13, %r9
	movq	%rdx, %r8
	andq	$3, %r9
	je	.LBB60_93
	movq	%rdx, %r8
	.p2align	4
.LBB60_92:
	movzbl	(%rsi,%r8), %r10d
	movb	%r10b, (%rdi,%r8)
	incq	%r8
	decq	%r9
	jne	.LBB60_92
.LBB60_93:
	negq	%rdx
	addq	%r13, %rdx
	addq	$-5, %rdx
	cmpl	$3, %edx
	leaq	-4(%r13), %rsi
	jb	.LBB60_96
	addq	%rcx, %rax
	addq	$7, %rax
	movq	32(%rsp), %rcx
	addq	%rbx, %rcx
	.p2align	4
.LBB60_95:
	movzbl	-3(%rax,%r8), %edx
	movb	%dl, -3(%rcx,%r8)
	movzbl	-2(%rax,%r8), %edx
	movb	%dl, -2(%rcx,%r8)
	movzbl	-1(%rax,%r8), %edx
	movb	%dl, -1(%rcx,%r8)
	movzbl	(%rax,%r8), %edx
	movb	%dl, (%rcx,%r8)
	addq	$4, %r8
	cmpq	%r8, %rsi
	jne	.LBB60_95
	jmp	.LBB60_96
.LBB60_17:
	leaq	4(%rbp), %rax
	movq	%rax, %rcx
	subq	%rsi, %rcx
	cmpq	$15, %rcx
	ja	.LBB60_39
	movzbl	4(%r12), %eax
	movb	%al, 4(%rbp)
	movzbl	5(%r12), %eax
	movb	%al, 5(%rbp)
	movzbl	6(%r12), %eax
	movb	%al, 6(%rbp)
	movzbl	7(%r12), %eax
	movb	%al, 7(%rbp)
	movzbl	8(%r12), %eax
	movb	%al, 8(%rbp)
	movzbl	9(%r12), %eax
	movb	%al, 9(%rbp)
	movzbl	10(%r12), %eax
	movb	%al, 10(%rbp)
	movzbl	11(%r12), %eax
	movb	%al, 11(%rbp)
	movzbl	12(%r12), %eax
	movb	%al, 12(%rbp)
	movzbl	13(%r12), %eax
	movb	%al, 13(%rbp)
	movzbl	14(%r12), %eax
	movb	%al, 14(%rbp)
	movzbl	15(%r12), %eax
	movb	%al, 15(%rbp)
	movzbl	16(%r12), %eax
	movb	%al, 16(%rbp)
	movzbl	17(%r12), %eax
	movb	%al, 17(%rbp)
	movzbl	18(%r12), %eax
	movb	%al, 18(%rbp)
	movzbl	19(%r12), %eax
	movb	%al, 19(%rbp)
	jmp	.LBB60_40
.LBB60_19:
	movzwl	%r13w, %r8d
	leaq	4(%rbp), %rdi
	movq	%rdi, %r9
	subq	%rsi, %r9
	cmpl	$244, %r8d
	jae	.LBB60_41
	cmpq	%r10, %r9
	movq	%r11, 8(%rsp)
	jae	.LBB60_59
	cmpl	$4, %r10d
	jb	.LBB60_22
	movq	%rbp, %r8
	subq	%rax, %r8
	subq	%rcx, %r8
	cmpq	$32, %r8
	jae	.LBB60_102
.LBB60_22:
	xorl	%edx, %edx
.LBB60_117:
	movq	%r10, %r11
	movq	%r13, %r9
	movq	%rdx, %r8
	andq	$3, %r9
	je	.LBB60_120
	movq	%rdx, %r8
	.p2align	4
.LBB60_119:
	movzbl	(%rsi,%r8), %r10d
	movb	%r10b, (%rdi,%r8)
	incq	%r8
	decq	%r9
	jne	.LBB60_119
.LBB60_120:
	negq	%rdx
	addq	%r13, %rdx
	addq	$-5, %rdx
	cmpl	$3, %edx
	movq	%r11, %r10
	jb	.LBB60_123
	addq	%rcx, %rax
	addq	$7, %rax
	movq	32(%rsp), %rcx
	addq	%rbx, %rcx
	.p2align	4
.LBB60_122:
	movzbl	-3(%rax,%r8), %edx
	movb	%dl, -3(%rcx,%r8)
	movzbl	-2(%rax,%r8), %edx
	movb	%dl, -2(%rcx,%r8)
	movzbl	-1(%rax,%r8), %edx
	movb	%dl, -1(%rcx,%r8)
	movzbl	(%rax,%r8), %edx
	movb	%dl, (%rcx,%r8)
	addq	$4, %r8
	cmpq	%r8, %r10
	jne	.LBB60_122
	jmp	.LBB60_123
.LBB60_23:
	movzbl	(%rsi), %eax
	movb	%al, 4(%rbp)
	movl	$524293, (%rbp)
	movw	$0, 5(%rbp)
	movb	$0, 7(%rbp)
	movl	$8, %eax
	jmp	.LBB60_6
.LBB60_24:
	leaq	4(%rbp), %rax
	movq	%rax, %rcx
	subq	%rsi, %rcx
	cmpq	$3, %rcx
	ja	.LBB60_45
	movzbl	4(%r12), %eax
	movb	%al, 4(%rbp)
	movzbl	5(%r12), %eax
	movb	%al, 5(%rbp)
	movzbl	6(%r12), %eax
	movb	%al, 6(%rbp)
	movzbl	7(%r12), %eax
	movb	%al, 7(%rbp)
	jmp	.LBB60_46
.LBB60_26:
	movzwl	%r13w, %r8d
	leaq	4(%rbp), %rdi
	movq	%rdi, %r9
	subq	%rsi, %r9
	cmpl	$316, %r8d
	jae	.LBB60_47
	cmpq	%r10, %r9
	movq	%r11, 8(%rsp)
	jae	.LBB60_61
	cmpl	$4, %r10d
	jb	.LBB60_29
	movq	%rbp, %r8
	subq	%rax, %r8
	subq	%rcx, %r8
	cmpq	$32, %r8
	jae	.LBB60_104
.LBB60_29:
	xorl	%edx, %edx
.LBB60_132:
	movq	%r10, %r11
	movq	%r13, %r9
	movq	%rdx, %r8
	andq	$3, %r9
	je	.LBB60_135
	movq	%rdx, %r8
	.p2align	4
.LBB60_134:
	movzbl	(%rsi,%r8), %r10d
	movb	%r10b, (%rdi,%r8)
	incq	%r8
	decq	%r9
	jne	.LBB60_134
.LBB60_135:
	negq	%rdx
	addq	%r13, %rdx
	addq	$-5, %rdx
	cmpl	$3, %edx
	movq	%r11, %r10
	jb	.LBB60_138
	addq	%rcx, %rax
	addq	$7, %rax
	movq	32(%rsp), %rcx
	addq	%rbx, %rcx
	.p2align	4
.LBB60_137:
	movzbl	-3(%rax,%r8), %edx
	movb	%dl, -3(%rcx,%r8)
	movzbl	-2(%rax,%r8), %edx
	movb	%dl, -2(%rcx,%r8)
	movzbl	-1(%rax,%r8), %edx
	movb	%dl, -1(%rcx,%r8)
	movzbl	(%rax,%r8), %edx
	movb	%dl, (%rcx,%r8)
	addq	$4, %r8
	cmpq	%r8, %r10
	jne	.LBB60_137
	jmp	.LBB60_138
.LBB60_30:
	leaq	4(%rbp), %rdi
	movq	%rdi, %r8
	subq	%rsi, %r8
	cmpw	$20, %r13w
	jae	.LBB60_53
	cmpq	%r10, %r8
	movq	%r11, 8(%rsp)
	jae	.LBB60_63
	cmpl	$4, %r10d
	jb	.LBB60_33
	movq	%rbp, %r8
	subq	%rax, %r8
	subq	%rcx, %r8
	cmpq	$32, %r8
	jae	.LBB60_106
.LBB60_33:
	xorl	%edx, %edx
.LBB60_148:
	movq	%r10, %r11
	movq	%r13, %r9
	movq	%rdx, %r8
	andq	$3, %r9
	je	.LBB60_151
	movq	%rdx, %r8
	.p2align	4
.LBB60_150:
	movzbl	(%rsi,%r8), %r10d
	movb	%r10b, (%rdi,%r8)
	incq	%r8
	decq	%r9
	jne	.LBB60_150
.LBB60_151:
	negq	%rdx
	addq	%r13, %rdx
	addq	$-5, %rdx
	cmpl	$3, %edx
	movq	%r11, %r10
	jb	.LBB60_154
	addq	%rcx, %rax
	addq	$7, %rax
	movq	32(%rsp), %rcx
	addq	%rbx, %rcx
	.p2align	4
.LBB60_153:
	movzbl	-3(%rax,%r8), %edx
	movb	%dl, -3(%rcx,%r8)
	movzbl	-2(%rax,%r8), %edx
	movb	%dl, -2(%rcx,%r8)
	movzbl	-1(%rax,%r8), %edx
	movb	%dl, -1(%rcx,%r8)
	movzbl	(%rax,%r8), %edx
	movb	%dl, (%rcx,%r8)
	addq	$4, %r8
	cmpq	%r8, %r10
	jne	.LBB60_153
	jmp	.LBB60_154
.LBB60_34:
	leaq	4(%rbp), %rdi
	movq	%rdi, %r8
	subq	%rsi, %r8
	cmpw	$60, %r13w
	jae	.LBB60_55
	cmpq	%r10, %r8
	movq	%r11, 8(%rsp)
	jae	.LBB60_66
	cmpl	$4, %r10d
	jb	.LBB60_37
	movq	%rbp, %r8
	subq	%rax, %r8
	subq	%rcx, %r8
	cmpq	$32, %r8
	jae	.LBB60_108
.LBB60_37:
	xorl	%edx, %edx
.LBB60_164:
	movq	%r10, %r11
	movq	%r13, %r9
	movq	%rdx, %r8
	andq	$3, %r9
	je	.LBB60_167
	movq	%rdx, %r8
	.p2align	4
.LBB60_166:
	movzbl	(%rsi,%r8), %r10d
	movb	%r10b, (%rdi,%r8)
	incq	%r8
	decq	%r9
	jne	.LBB60_166
.LBB60_167:
	negq	%rdx
	addq	%r13, %rdx
	addq	$-5, %rdx
	cmpl	$3, %edx
	movq	%r11, %r10
	jb	.LBB60_170
	addq	%rcx, %rax
	addq	$7, %rax
	movq	32(%rsp), %rcx
	addq	%rbx, %rcx
	.p2align	4
.LBB60_169:
	movzbl	-3(%rax,%r8), %edx
	movb	%dl, -3(%rcx,%r8)
	movzbl	-2(%rax,%r8), %edx
	movb	%dl, -2(%rcx,%r8)
	movzbl	-1(%rax,%r8), %edx
	movb	%dl, -1(%rcx,%r8)
	movzbl	(%rax,%r8), %edx
	movb	%dl, (%rcx,%r8)
	addq	$4, %r8
	cmpq	%r8, %r10
	jne	.LBB60_169
	jmp	.LBB60_170
.LBB60_38:
	movq	%r10, %rdx
	movq	%r11, 8(%rsp)
	callq	memmove@PLT
	movq	8(%rsp), %r11
.LBB60_96:
	movw	%r13w, (%rbp)
	movw	%r14w, 2(%rbp)
	movq	%r11, %rcx
	subq	%r13, %rcx
	cmpq	$3, %rcx
	je	.LBB60_101
	cmpl	$2, %ecx
	movq	16(%rsp), %rdx
	je	.LBB60_100
	movq	%r11, %rax
	cmpl	$1, %ecx
	jne	.LBB60_6
	movb	$0, (%rbp,%r13)
	movq	%r11, %rax
	jmp	.LBB60_6
.LBB60_39:
	movups	(%rsi), %xmm0
	movups	%xmm0, (%rax)
.LBB60_40:
	movl	$458772, (%rbp)
	movl	$20, %eax
	jmp	.LBB60_6
.LBB60_41:
	cmpq	$239, %r9
	ja	.LBB60_60
	addq	%rcx, %rax
	movq	%rbp, %rcx
	subq	%rax, %rcx
	cmpq	$31, %rcx
	ja	.LBB60_73
	movl	$9, %eax
	.p2align	4
.LBB60_44:
	movzbl	-5(%r12,%rax), %ecx
	movb	%cl, -5(%rbp,%rax)
	movzbl	-4(%r12,%rax), %ecx
	movb	%cl, -4(%rbp,%rax)
	movzbl	-3(%r12,%rax), %ecx
	movb	%cl, -3(%rbp,%rax)
	movzbl	-2(%r12,%rax), %ecx
	movb	%cl, -2(%rbp,%rax)
	movzbl	-1(%r12,%rax), %ecx
	movb	%cl, -1(%rbp,%rax)
	movzbl	(%r12,%rax), %ecx
	movb	%cl, (%rbp,%rax)
	addq	$6, %rax
	cmpq	$249, %rax
	jne	.LBB60_44
	jmp	.LBB60_74
.LBB60_45:
	movl	(%rsi), %ecx
	movl	%ecx, (%rax)
.LBB60_46:
	movl	$589832, (%rbp)
	movl	$8, %eax
	jmp	.LBB60_6
.LBB60_47:
	cmpq	$311, %r9
	ja	.LBB60_62
	addq	%rcx, %rax
	movq	%rbp, %rcx
	subq	%rax, %rcx
	cmpq	$31, %rcx
	ja	.LBB60_77
	movl	$9, %eax
	.p2align	4
.LBB60_50:
	movzbl	-5(%r12,%rax), %ecx
	movb	%cl, -5(%rbp,%rax)
	movzbl	-4(%r12,%rax), %ecx
	movb	%cl, -4(%rbp,%rax)
	movzbl	-3(%r12,%rax), %ecx
	movb	%cl, -3(%rbp,%rax)
	movzbl	-2(%r12,%rax), %ecx
	movb	%cl, -2(%rbp,%rax)
	movzbl	-1(%r12,%rax), %ecx
	movb	%cl, -1(%rbp,%rax)
	movzbl	(%r12,%rax), %ecx
	movb	%cl, (%rbp,%rax)
	addq	$6, %rax
	cmpq	$321, %rax
	jne	.LBB60_50
	jmp	.LBB60_78
.LBB60_51:
	movl	(%rsi), %ecx
	movl	%ecx, (%rax)
.LBB60_52:
	movl	$65544, (%rbp)
	movl	$8, %eax
	jmp	.LBB60_6
.LBB60_53:
	cmpq	$15, %r8
	ja	.LBB60_64
	movzbl	4(%r12), %eax
	movb	%al, 4(%rbp)
	movzbl	5(%r12), %eax
	movb	%al, 5(%rbp)
	movzbl	6(%r12), %eax
	movb	%al, 6(%rbp)
	movzbl	7(%r12), %eax
	movb	%al, 7(%rbp)
	movzbl	8(%r12), %eax
	movb	%al, 8(%rbp)
	movzbl	9(%r12), %eax
	movb	%al, 9(%rbp)
	movzbl	10(%r12), %eax
	movb	%al, 10(%rbp)
	movzbl	11(%r12), %eax
	movb	%al, 11(%rbp)
	movzbl	12(%r12), %eax
	movb	%al, 12(%rbp)
	movzbl	13(%r12), %eax
	movb	%al, 13(%rbp)
	movzbl	14(%r12), %eax
	movb	%al, 14(%rbp)
	movzbl	15(%r12), %eax
	movb	%al, 15(%rbp)
	movzbl	16(%r12), %eax
	movb	%al, 16(%rbp)
	movzbl	17(%r12), %eax
	movb	%al, 17(%rbp)
	movzbl	18(%r12), %eax
	movb	%al, 18(%rbp)
	movzbl	19(%r12), %eax
	movb	%al, 19(%rbp)
	jmp	.LBB60_65
.LBB60_55:
	cmpq	$55, %r8
	ja	.LBB60_67
	movzbl	4(%r12), %eax
	movb	%al, 4(%rbp)
	movzbl	5(%r12), %eax
	movb	%al, 5(%rbp)
	movzbl	6(%r12), %eax
	movb	%al, 6(%rbp)
	movzbl	7(%r12), %eax
	movb	%al, 7(%rbp)
	movzbl	8(%r12), %eax
	movb	%al, 8(%rbp)
	movzbl	9(%r12), %eax
	movb	%al, 9(%rbp)
	movzbl	10(%r12), %eax
	movb	%al, 10(%rbp)
	movzbl	11(%r12), %eax
	movb	%al, 11(%rbp)
	movzbl	12(%r12), %eax
	movb	%al, 12(%rbp)
	movzbl	13(%r12), %eax
	movb	%al, 13(%rbp)
	movzbl	14(%r12), %eax
	movb	%al, 14(%rbp)
	movzbl	15(%r12), %eax
	movb	%al, 15(%rbp)
	movzbl	16(%r12), %eax
	movb	%al, 16(%rbp)
	movzbl	17(%r12), %eax
	movb	%al, 17(%rbp)
	movzbl	18(%r12), %eax
	movb	%al, 18(%rbp)
	movzbl	19(%r12), %eax
	movb	%al, 19(%rbp)
	movzbl	20(%r12), %eax
	movb	%al, 20(%rbp)
	movzbl	21(%r12), %eax
	movb	%al, 21(%rbp)
	movzbl	22(%r12), %eax
	movb	%al, 22(%rbp)
	movzbl	23(%r12), %eax
	movb	%al, 23(%rbp)
	movzbl	24(%r12), %eax
	movb	%al, 24(%rbp)
	movzbl	25(%r12), %eax
	movb	%al, 25(%rbp)
	movzbl	26(%r12), %eax
	movb	%al, 26(%rbp)
	movzbl	27(%r12), %eax
	movb	%al, 27(%rbp)
	movzbl	28(%r12), %eax
	movb	%al, 28(%rbp)
	movzbl	29(%r12), %eax
	movb	%al, 29(%rbp)
	movzbl	30(%r12), %eax
	movb	%al, 30(%rbp)
	movzbl	31(%r12), %eax
	movb	%al, 31(%rbp)
	movzbl	32(%r12), %eax
	movb	%al, 32(%rbp)
	movzbl	33(%r12), %eax
	movb	%al, 33(%rbp)
	movzbl	34(%r12), %eax
	movb	%al, 34(%rbp)
	movzbl	35(%r12), %eax
	movb	%al, 35(%rbp)
	movzbl	36(%r12), %eax
	movb	%al, 36(%rbp)
	movzbl	37(%r12), %eax
	movb	%al, 37(%rbp)
	movzbl	38(%r12), %eax
	movb	%al, 38(%rbp)
	movzbl	39(%r12), %eax
	movb	%al, 39(%rbp)
	movzbl	40(%r12), %eax
	movb	%al, 40(%rbp)
	movzbl	41(%r12), %eax
	movb	%al, 41(%rbp)
	movzbl	42(%r12), %eax
	movb	%al, 42(%rbp)
	movzbl	43(%r12), %eax
	movb	%al, 43(%rbp)
	movzbl	44(%r12), %eax
	movb	%al, 44(%rbp)
	movzbl	45(%r12), %eax
	movb	%al, 45(%rbp)
	movzbl	46(%r12), %eax
	movb	%al, 46(%rbp)
	movzbl	47(%r12), %eax
	movb	%al, 47(%rbp)
	movzbl	48(%r12), %eax
	movb	%al, 48(%rbp)
	movzbl	49(%r12), %eax
	movb	%al, 49(%rbp)
	movzbl	50(%r12), %eax
	movb	%al, 50(%rbp)
	movzbl	51(%r12), %eax
	movb	%al, 51(%rbp)
	movzbl	52(%r12), %eax
	movb	%al, 52(%rbp)
	movzbl	53(%r12), %eax
	movb	%al, 53(%rbp)
	movzbl	54(%r12), %eax
	movb	%al, 54(%rbp)
	movzbl	55(%r12), %eax
	movb	%al, 55(%rbp)
	movzbl	56(%r12), %eax
	movb	%al, 56(%rbp)
	movzbl	57(%r12), %eax
	movb	%al, 57(%rbp)
	movzbl	58(%r12), %eax
	movb	%al, 58(%rbp)
	movzbl	59(%r12), %eax
	movb	%al, 59(%rbp)
	jmp	.LBB60_68
.LBB60_100:
	movw	$0, (%rbp,%r13)
	movq	%r11, %rax
	jmp	.LBB60_6
.LBB60_101:
	movw	$0, (%rbp,%r13)
	movb	$0, 2(%rbp,%r13)
	movq	%r11, %rax
	movq	16(%rsp), %rdx
	jmp	.LBB60_6
.LBB60_59:
	movq	%r10, %rdx
	movq	%r10, %r14
	callq	memmove@PLT
	movq	%r14, %r10
.LBB60_123:
	cmpl	$239, %r10d
	je	.LBB60_4
	movl	$243, %edx
	subq	%r13, %rdx
	addq	%rbp, %r13
	movq	%r13, %rdi
	xorl	%esi, %esi
	callq	memset@PLT
	jmp	.LBB60_4
.LBB60_60:
	movl	$240, %edx
	movq	%r11, %r14
	callq	memmove@PLT
	movq	%r14, %r11
	movq	16(%rsp), %rdx
	jmp	.LBB60_74
.LBB60_61:
	movq	%r10, %rdx
	movq	%r10, %r14
	callq	memmove@PLT
	movq	%r14, %r10
.LBB60_138:
	cmpl	$311, %r10d
	je	.LBB60_140
	movl	$315, %edx
	subq	%r13, %rdx
	addq	%rbp, %r13
	movq	%r13, %rdi
	xorl	%esi, %esi
	callq	memset@PLT
.LBB60_140:
	movb	$0, 315(%rbp)
	movl	$196924, (%rbp)
	movl	$316, %eax
	jmp	.LBB60_5
.LBB60_62:
	movl	$312, %edx
	movq	%r11, %r14
	callq	memmove@PLT
	movq	%r14, %r11
	movq	16(%rsp), %rdx
	jmp	.LBB60_78
.LBB60_63:
	movq	%r10, %rdx
	movq	%r10, %r14
	callq	memmove@PLT
	movq	%r14, %r10
.LBB60_154:
	cmpl	$15, %r10d
	je	.LBB60_156
	movl	$19, %edx
	subq	%r13, %rdx
	addq	%rbp, %r13
	movq	%r13, %rdi
	xorl	%esi, %esi
	callq	memset@PLT
.LBB60_156:
	movb	$0, 19(%rbp)
	movl	$327700, (%rbp)
	movl	$20, %eax
	jmp	.LBB60_5
.LBB60_64:
	movups	(%rsi), %xmm0
	movups	%xmm0, (%rdi)
.LBB60_65:
	movl	$327700, (%rbp)
	movl	$20, %eax
	jmp	.LBB60_6
.LBB60_66:
	movq	%r10, %rdx
	movq	%r10, %r14
	callq	memmove@PLT
	movq	%r14, %r10
.LBB60_170:
	cmpl	$55, %r10d
	je	.LBB60_172
	movl	$59, %edx
	subq	%r13, %rdx
	addq	%rbp, %r13
	movq	%r13, %rdi
	xorl	%esi, %esi
	callq	memset@PLT
.LBB60_172:
	movb	$0, 59(%rbp)
	movl	$393276, (%rbp)
	movl	$60, %eax
	jmp	.LBB60_5
.LBB60_67:
	movups	(%rsi), %xmm0
	movups	16(%rsi), %xmm1
	movups	32(%rsi), %xmm2
	movq	48(%rsi), %rax
	movq	%rax, 48(%rdi)
	movups	%xmm2, 32(%rdi)
	movups	%xmm1, 16(%rdi)
	movups	%xmm0, (%rdi)
.LBB60_68:
	movl	$393276, (%rbp)
	movl	$60, %eax
	jmp	.LBB60_6
.LBB60_69:
	cmpl	$32, %r10d
	jae	.LBB60_83
	xorl	%edx, %edx
	jmp	.LBB60_87
.LBB60_73:
	movups	4(%r12), %xmm0
	movups	20(%r12), %xmm1
	movups	%xmm0, 4(%rbp)
	movups	%xmm1, 20(%rbp)
	movups	36(%r12), %xmm0
	movups	52(%r12), %xmm1
	movups	%xmm0, 36(%rbp)
	movups	%xmm1, 52(%rbp)
	movups	68(%r12), %xmm0
	movups	84(%r12), %xmm1
	movups	%xmm0, 68(%rbp)
	movups	%xmm1, 84(%rbp)
	movups	100(%r12), %xmm0
	movups	116(%r12), %xmm1
	movups	%xmm0, 100(%rbp)
	movups	%xmm1, 116(%rbp)
	movups	132(%r12), %xmm0
	movups	148(%r12), %xmm1
	movups	%xmm0, 132(%rbp)
	movups	%xmm1, 148(%rbp)
	movups	164(%r12), %xmm0
	movups	180(%r12), %xmm1
	movups	%xmm0, 164(%rbp)
	movups	%xmm1, 180(%rbp)
	movups	196(%r12), %xmm0
	movups	212(%r12), %xmm1
	movups	%xmm0, 196(%rbp)
	movups	%xmm1, 212(%rbp)
	movups	228(%r12), %xmm0
	movups	%xmm0, 228(%rbp)
.LBB60_74:
	movl	$131316, (%rbp)
	movl	$244, %eax
	jmp	.LBB60_6
.LBB60_77:
	movups	4(%r12), %xmm0
	movups	20(%r12), %xmm1
	movups	%xmm0, 4(%rbp)
	movups	%xmm1, 20(%rbp)
	movups	36(%r12), %xmm0
	movups	52(%r12), %xmm1
	movups	%xmm0, 36(%rbp)
	movups	%xmm1, 52(%rbp)
	movups	68(%r12), %xmm0
	movups	84(%r12), %xmm1
	movups	%xmm0, 68(%rbp)
	movups	%xmm1, 84(%rbp)
	movups	100(%r12), %xmm0
	movups	116(%r12), %xmm1
	movups	%xmm0, 100(%rbp)
	movups	%xmm1, 116(%rbp)
	movups	132(%r12), %xmm0
	movups	148(%r12), %xmm1
	movups	%xmm0, 132(%rbp)
	movups	%xmm1, 148(%rbp)
	movups	164(%r12), %xmm0
	movups	180(%r12), %xmm1
	movups	%xmm0, 164(%rbp)
	movups	%xmm1, 180(%rbp)
	movups	196(%r12), %xmm0
	movups	212(%r12), %xmm1
	movups	%xmm0, 196(%rbp)
	movups	%xmm1, 212(%rbp)
	movups	228(%r12), %xmm0
	movups	244(%r12), %xmm1
	movups	%xmm0, 228(%rbp)
	movups	%xmm1, 244(%rbp)
	movups	260(%r12), %xmm0
	movups	276(%r12), %xmm1
	movups	%xmm0, 260(%rbp)
	movups	%xmm1, 276(%rbp)
	movq	292(%r12), %rax
	movq	%rax, 292(%rbp)
	movq	300(%r12), %rax
	movq	%rax, 300(%rbp)
	movq	308(%r12), %rax
	movq	%rax, 308(%rbp)
.LBB60_78:
	movl	$196924, (%rbp)
	movl	$316, %eax
	jmp	.LBB60_6
.LBB60_83:
	movq	%r10, %rdx
	andq	$-32, %rdx
	leaq	(%rax,%rcx), %r8
	addq	$20, %r8
	movq	24(%rsp), %r9
	addq	%rbx, %r9
	xorl	%r10d, %r10d
	.p2align	4
.LBB60_84:
	movups	-16(%r8,%r10), %xmm0
	movups	(%r8,%r10), %xmm1
	movups	%xmm0, -16(%r9,%r10)
	movups	%xmm1, (%r9,%r10)
	addq	$32, %r10
	cmpq	%r10, %rdx
	jne	.LBB60_84
	leaq	-4(%r13), %r10
	cmpl	%edx, %r10d
	je	.LBB60_96
	testb	$28, %r10b
	je	.LBB60_90
.LBB60_87:
	movq	%rdx, %r8
	movq	%r10, %rdx
	andq	$-4, %rdx
	.p2align	4
.LBB60_88:
	movl	(%rsi,%r8), %r9d
	movl	%r9d, (%rdi,%r8)
	addq	$4, %r8
	cmpq	%r8, %rdx
	jne	.LBB60_88
	cmpl	%edx, %r10d
	je	.LBB60_96
	jmp	.LBB60_90
.LBB60_102:
	cmpl	$32, %r10d
	jae	.LBB60_110
	xorl	%edx, %edx
	jmp	.LBB60_114
.LBB60_104:
	cmpl	$32, %r10d
	jae	.LBB60_125
	xorl	%edx, %edx
	jmp	.LBB60_129
.LBB60_106:
	cmpl	$32, %r10d
	jae	.LBB60_141
	xorl	%edx, %edx
	jmp	.LBB60_145
.LBB60_108:
	cmpl	$32, %r10d
	jae	.LBB60_157
	xorl	%edx, %edx
	jmp	.LBB60_161
.LBB60_110:
	movq	%r10, %rdx
	andq	$-32, %rdx
	leaq	(%rax,%rcx), %r8
	addq	$20, %r8
	movq	24(%rsp), %r9
	addq	%rbx, %r9
	xorl	%r10d, %r10d
	.p2align	4
.LBB60_111:
	movups	-16(%r8,%r10), %xmm0
	movups	(%r8,%r10), %xmm1
	movups	%xmm0, -16(%r9,%r10)
	movups	%xmm1, (%r9,%r10)
	addq	$32, %r10
	cmpq	%r10, %rdx
	jne	.LBB60_111
	leaq	-4(%r13), %r10
	cmpl	%edx, %r10d
	je	.LBB60_123
	testb	$28, %r10b
	je	.LBB60_117
.LBB60_114:
	movq	%rdx, %r8
	movq	%r10, %rdx
	andq	$-4, %rdx
	.p2align	4
.LBB60_115:
	movl	(%rsi,%r8), %r9d
	movl	%r9d, (%rdi,%r8)
	addq	$4, %r8
	cmpq	%r8, %rdx
	jne	.LBB60_115
	cmpl	%edx, %r10d
	je	.LBB60_123
	jmp	.LBB60_117
.LBB60_125:
	movq	%r10, %rdx
	andq	$-32, %rdx
	leaq	(%rax,%rcx), %r8
	addq	$20, %r8
	movq	24(%rsp), %r9
	addq	%rbx, %r9
	xorl	%r10d, %r10d
	.p2align	4
.LBB60_126:
	movups	-16(%r8,%r10), %xmm0
	movups	(%r8,%r10), %xmm1
	movups	%xmm0, -16(%r9,%r10)
	movups	%xmm1, (%r9,%r10)
	addq	$32, %r10
	cmpq	%r10, %rdx
	jne	.LBB60_126
	leaq	-4(%r13), %r10
	cmpl	%edx, %r10d
	je	.LBB60_138
	testb	$28, %r10b
	je	.LBB60_132
.LBB60_129:
	movq	%rdx, %r8
	movq	%r10, %rdx
	andq	$-4, %rdx
	.p2align	4
.LBB60_130:
	movl	(%rsi,%r8), %r9d
	movl	%r9d, (%rdi,%r8)
	addq	$4, %r8
	cmpq	%r8, %rdx
	jne	.LBB60_130
	cmpl	%edx, %r10d
	je	.LBB60_138
	jmp	.LBB60_132
.LBB60_141:
	movq	%r10, %rdx
	andq	$-32, %rdx
	leaq	(%rax,%rcx), %r8
	addq	$20, %r8
	movq	24(%rsp), %r9
	addq	%rbx, %r9
	xorl	%r10d, %r10d
	.p2align	4
.LBB60_142:
	movups	-16(%r8,%r10), %xmm0
	movups	(%r8,%r10), %xmm1
	movups	%xmm0, -16(%r9,%r10)
	movups	%xmm1, (%r9,%r10)
	addq	$32, %r10
	cmpq	%r10, %rdx
	jne	.LBB60_142
	leaq	-4(%r13), %r10
	cmpl	%edx, %r10d
	je	.LBB60_154
	testb	$28, %r10b
	je	.LBB60_148
.LBB60_145:
	movq	%rdx, %r8
	movq	%r10, %rdx
	andq	$-4, %rdx
	.p2align	4
.LBB60_146:
	movl	(%rsi,%r8), %r9d
	movl	%r9d, (%rdi,%r8)
	addq	$4, %r8
	cmpq	%r8, %rdx
	jne	.LBB60_146
	cmpl	%edx, %r10d
	je	.LBB60_154
	jmp	.LBB60_148
.LBB60_157:
	movq	%r10, %rdx
	andq	$-32, %rdx
	leaq	(%rax,%rcx), %r8
	addq	$20, %r8
	movq	24(%rsp), %r9
	addq	%rbx, %r9
	xorl	%r10d, %r10d
	.p2align	4
.LBB60_158:
	movups	-16(%r8,%r10), %xmm0
	movups	(%r8,%r10), %xmm1
	movups	%xmm0, -16(%r9,%r10)
	movups	%xmm1, (%r9,%r10)
	addq	$32, %r10
	cmpq	%r10, %rdx
	jne	.LBB60_158
	leaq	-4(%r13), %r10
	cmpl	%edx, %r10d
	je	.LBB60_170
	testb	$28, %r10b
	je	.LBB60_164
.LBB60_161:
	movq	%rdx, %r8
	movq	%r10, %rdx
	andq	$-4, %rdx
	.p2align	4
.LBB60_162:
	movl	(%rsi,%r8), %r9d
	movl	%r9d, (%rdi,%r8)
	addq	$4, %r8
	cmpq	%r8, %rdx
	jne	.LBB60_162
	cmpl	%edx, %r10d
	je	.LBB60_170
	jmp	.LBB60_164
.Lfunc_end60:
	.size	nla_wire.members.write_each.97809315b2b26985, .Lfunc_end60-nla_wire.members.write_each.97809315b2b26985
	.cfi_endproc
	.section	.rodata.nla_wire.members.write_each.97809315b2b26985,"a",@progbits
	.p2align	2, 0x0
.LJTI60_0:
	.long	.LBB60_12-.LJTI60_0
	.long	.LBB60_19-.LJTI60_0
	.long	.LBB60_26-.LJTI60_0
	.long	.LBB60_14-.LJTI60_0
	.long	.LBB60_30-.LJTI60_0
	.long	.LBB60_34-.LJTI60_0
	.long	.LBB60_17-.LJTI60_0
	.long	.LBB60_23-.LJTI60_0
	.long	.LBB60_24-.LJTI60_0

	.section	.text.nla_wire.members.write_each.7562298f77a88fdb,"ax",@progbits
	.p2align	4
	.type	nla_wire.members.write_each.7562298f77a88fdb,@function
nla_wire.members.write_each.7562298f77a88fdb:
	.cfi_startproc
	pushq	%rbp
	.cfi_def_cfa_offset 16
	pushq	%r15
	.cfi_def_cfa_offset 24
	pushq	%r14
	.cfi_def_cfa_offset 32
	pushq	%r13
	.cfi_def_cfa_offset 40
	pushq	%r12
	.cfi_def_cfa_offset 48
	pushq	%rbx
	.cfi_def_cfa_offset 56
	subq	$40, %rsp
	.cfi_def_cfa_offset 96
	.cfi_offset %rbx, -56
	.cfi_offset %r12, -48
	.cfi_offset %r13, -40
	.cfi_offset %r14, -32
	.cfi_offset %r15, -24
	.cfi_offset %rbp, -16
	testq	%rsi, %rsi
	je	.LBB61_41
	movq	%rsi, %r15
	movq	%rdi, %r12
	leaq	20(%rdx), %rax
	movq	%rax, 24(%rsp)
	leaq	7(%rdx), %rax
	movq	%rax, 32(%rsp)
	xorl	%ebx, %ebx
	xorl	%r13d, %r13d
	movq	%rdx, 16(%rsp)
	jmp	.LBB61_5
	.p2align	4
.LBB61_2:
	movzbl	(%rsi), %eax
	movb	%al, 4(%r11)
	movl	$131077, (%r11)
	movw	$0, 5(%r11)
	movb	$0, 7(%r11)
.LBB61_3:
	movl	$8, %eax
.LBB61_4:
	addq	%rax, %rbx
	cmpq	%r13, %r15
	jbe	.LBB61_42
.LBB61_5:
	subq	%r13, %r15
	cmpq	$4, %r15
	jb	.LBB61_42
	movq	%r12, %rax
	movq	%r13, %rcx
	addq	%r13, %r12
	movzwl	(%r12), %r14d
	cmpw	$4, %r14w
	jb	.LBB61_42
	cmpq	%r14, %r15
	jb	.LBB61_42
	movzwl	2(%r12), %ebp
	leaq	4(%r12), %rsi
	leal	3(%r14), %r13d
	andl	$-4, %r13d
	leaq	(%rdx,%rbx), %r11
	movl	%ebp, %r8d
	andl	$16383, %r8d
	cmpl	$2, %r8d
	je	.LBB61_2
	leaq	(%rdx,%rbx), %rdi
	addq	$4, %rdi
	cmpl	$1, %r8d
	jne	.LBB61_12
	movq	%rdi, %rax
	subq	%rsi, %rax
	cmpq	$3, %rax
	ja	.LBB61_15
	movzbl	4(%r12), %eax
	movb	%al, 4(%r11)
	movzbl	5(%r12), %eax
	movb	%al, 5(%r11)
	movzbl	6(%r12), %eax
	movb	%al, 6(%r11)
	movzbl	7(%r12), %eax
	movb	%al, 7(%r11)
	jmp	.LBB61_16
	.p2align	4
.LBB61_12:
	leaq	-4(%r14), %rdx
	movq	%rdi, %r8
	subq	%rsi, %r8
	cmpq	%rdx, %r8
	jae	.LBB61_17
	cmpl	$4, %edx
	movq	%r11, 8(%rsp)
	jb	.LBB61_14
	movq	%r11, %r9
	subq	%rax, %r9
	subq	%rcx, %r9
	cmpq	$32, %r9
	jae	.LBB61_20
.LBB61_14:
	xorl	%r8d, %r8d
.LBB61_29:
	movq	%r14, %r10
	movq	%r8, %r9
	andq	$3, %r10
	je	.LBB61_32
	movq	%r8, %r9
	.p2align	4
.LBB61_31:
	movzbl	(%rsi,%r9), %r11d
	movb	%r11b, (%rdi,%r9)
	incq	%r9
	decq	%r10
	jne	.LBB61_31
.LBB61_32:
	negq	%r8
	leaq	(%r14,%r8), %rsi
	addq	$-5, %rsi
	cmpl	$3, %esi
	movq	8(%rsp), %r11
	jb	.LBB61_35
	addq	%rcx, %rax
	addq	$7, %rax
	movq	32(%rsp), %rcx
	addq	%rbx, %rcx
	.p2align	4
.LBB61_34:
	movzbl	-3(%rax,%r9), %esi
	movb	%sil, -3(%rcx,%r9)
	movzbl	-2(%rax,%r9), %esi
	movb	%sil, -2(%rcx,%r9)
	movzbl	-1(%rax,%r9), %esi
	movb	%sil, -1(%rcx,%r9)
	movzbl	(%rax,%r9), %esi
	movb	%sil, (%rcx,%r9)
	addq	$4, %r9
	cmpq	%r9, %rdx
	jne	.LBB61_34
	jmp	.LBB61_35
.LBB61_15:
	movl	(%rsi), %eax
	movl	%eax, (%rdi)
.LBB61_16:
	movl	$65544, (%r11)
	jmp	.LBB61_3
.LBB61_17:
	movl	%ebp, 4(%rsp)
	movq	%r11, %rbp
	callq	memmove@PLT
	movq	%rbp, %r11
	movl	4(%rsp), %ebp
.LBB61_35:
	movw	%r14w, (%r11)
	movw	%bp, 2(%r11)
	movq	%r13, %rcx
	subq	%r14, %rcx
	cmpq	$3, %rcx
	je	.LBB61_40
	cmpl	$2, %ecx
	movq	16(%rsp), %rdx
	je	.LBB61_39
	movq	%r13, %rax
	cmpl	$1, %ecx
	jne	.LBB61_4
	movb	$0, (%r11,%r14)
	movq	%r13, %rax
	jmp	.LBB61_4
.LBB61_39:
	movw	$0, (%r11,%r14)
	movq	%r13, %rax
	jmp	.LBB61_4
.LBB61_40:
	movw	$0, (%r11,%r14)
	movb	$0, 2(%r11,%r14)
	movq	%r13, %rax
	movq	16(%rsp), %rdx
	jmp	.LBB61_4
.LBB61_20:
	cmpl	$32, %edx
	jae	.LBB61_22
	xorl	%r8d, %r8d
	jmp	.LBB61_26
.LBB61_22:
	movq	%rdx, %r8
	andq	$-32, %r8
	leaq	(%rax,%rcx), %r9
	addq	$20, %r9
	movq	24(%rsp), %r10
	addq	%rbx, %r10
	xorl	%r11d, %r11d
	.p2align	4
.LBB61_23:
	movups	-16(%r9,%r11), %xmm0
	movups	(%r9,%r11), %xmm1
	movups	%xmm0, -16(%r10,%r11)
	movups	%xmm1, (%r10,%r11)
	addq	$32, %r11
	cmpq	%r11, %r8
	jne	.LBB61_23
	cmpl	%r8d, %edx
	movq	8(%rsp), %r11
	je	.LBB61_35
	testb	$28, %dl
	je	.LBB61_29
.LBB61_26:
	movq	%r8, %r9
	movq	%rdx, %r8
	andq	$-4, %r8
	.p2align	4
.LBB61_27:
	movl	(%rsi,%r9), %r10d
	movl	%r10d, (%rdi,%r9)
	addq	$4, %r9
	cmpq	%r9, %r8
	jne	.LBB61_27
	cmpl	%r8d, %edx
	je	.LBB61_35
	jmp	.LBB61_29
.LBB61_41:
	xorl	%ebx, %ebx
.LBB61_42:
	movq	%rbx, %rax
	addq	$40, %rsp
	.cfi_def_cfa_offset 56
	popq	%rbx
	.cfi_def_cfa_offset 48
	popq	%r12
	.cfi_def_cfa_offset 40
	popq	%r13
	.cfi_def_cfa_offset 32
	popq	%r14
	.cfi_def_cfa_offset 24
	popq	%r15
	.cfi_def_cfa_offset 16
	popq	%rbp
	.cfi_def_cfa_offset 8
	retq
.Lfunc_end61:
	.size	nla_wire.members.write_each.7562298f77a88fdb, .Lfunc_end61-nla_wire.members.write_each.7562298f77a88fdb
	.cfi_endproc

	.section	.rodata.cst16,"aM",@progbits,16
	.p2align	4, 0x0
.LCPI62_0:
	.byte	0
	.byte	1
	.byte	2
	.byte	3
	.byte	4
	.byte	5
	.byte	6
	.byte	7
	.byte	8
	.byte	9
	.byte	10
	.byte	11
	.byte	12
	.byte	13
	.byte	14
	.byte	15
.LCPI62_1:
	.byte	16
	.byte	17
	.byte	18
	.byte	19
	.byte	20
	.byte	21
	.byte	22
	.byte	23
	.byte	24
	.byte	25
	.byte	26
	.byte	27
	.byte	28
	.byte	29
	.byte	30
	.byte	31
	.section	.text.line_filter.write.write_out.df9e9f1468b30f79,"ax",@progbits
	.p2align	4
	.type	line_filter.write.write_out.df9e9f1468b30f79,@function
line_filter.write.write_out.df9e9f1468b30f79:
	.cfi_startproc
	pushq	%r15
	.cfi_def_cfa_offset 16
	pushq	%r14
	.cfi_def_cfa_offset 24
	pushq	%r12
	.cfi_def_cfa_offset 32
	pushq	%rbx
	.cfi_def_cfa_offset 40
	subq	$88, %rsp
	.cfi_def_cfa_offset 128
	.cfi_offset %rbx, -40
	.cfi_offset %r12, -32
	.cfi_offset %r14, -24
	.cfi_offset %r15, -16
	movq	%rdi, %rbx
	movq	(%rdi), %r15
	movq	8(%rdi), %r14
	movq	$-1, %r12
	jmp	.LBB62_1
	.p2align	4
.LBB62_9:
	decq	%r12
	je	.LBB62_10
.LBB62_1:
	testq	%r14, %r14
	je	.LBB62_2
	movl	$1, %edi
	movq	%r15, %rsi
	movq	%r14, %rdx
	callq	write@PLT
	testq	%rax, %rax
	js	.LBB62_6
	je	.LBB62_5
	cmpq	%r14, %rax
	cmovaeq	%r14, %rax
	addq	%rax, %r15
	subq	%rax, %r14
	jmp	.LBB62_9
	.p2align	4
.LBB62_6:
	callq	rattle_errno@PLT
	movq	%rsp, %rdi
	movl	%eax, %esi
	callq	std_io.io.error.Error.from_raw_os_error
	movq	(%rsp), %rax
	shrq	$8, %rax
	movaps	.LCPI62_0(%rip), %xmm0
	movaps	%xmm0, (%rsp)
	movaps	.LCPI62_1(%rip), %xmm0
	movaps	%xmm0, 16(%rsp)
	movabsq	$2820983053732684064, %rcx
	movq	%rcx, 32(%rsp)
	movb	$40, 40(%rsp)
	cmpb	$41, %al
	jae	.LBB62_5
	andl	$63, %eax
	cmpb	$35, (%rsp,%rax)
	je	.LBB62_9
.LBB62_5:
	movb	$1, %al
	movb	$1, %dl
	jmp	.LBB62_14
.LBB62_2:
	xorl	%eax, %eax
	jmp	.LBB62_11
.LBB62_10:
	movb	$1, %dl
	testq	%r14, %r14
	setne	%al
	jne	.LBB62_14
.LBB62_11:
	cmpq	$0, 8(%rbx)
	je	.LBB62_13
	movq	$0, 8(%rbx)
.LBB62_13:
	xorl	%edx, %edx
.LBB62_14:
	addq	$88, %rsp
	.cfi_def_cfa_offset 40
	popq	%rbx
	.cfi_def_cfa_offset 32
	popq	%r12
	.cfi_def_cfa_offset 24
	popq	%r14
	.cfi_def_cfa_offset 16
	popq	%r15
	.cfi_def_cfa_offset 8
	retq
.Lfunc_end62:
	.size	line_filter.write.write_out.df9e9f1468b30f79, .Lfunc_end62-line_filter.write.write_out.df9e9f1468b30f79
	.cfi_endproc

	.section	.rodata.cst16,"aM",@progbits,16
	.p2align	4, 0x0
.LCPI63_0:
	.zero	16,10
	.section	.text.main,"ax",@progbits
	.globl	main
	.p2align	4
	.type	main,@function
main:
	.cfi_startproc
	pushq	%rbp
	.cfi_def_cfa_offset 16
	pushq	%r15
	.cfi_def_cfa_offset 24
	pushq	%r14
	.cfi_def_cfa_offset 32
	pushq	%r13
	.cfi_def_cfa_offset 40
	pushq	%r12
	.cfi_def_cfa_offset 48
	pushq	%rbx
	.cfi_def_cfa_offset 56
	subq	$2376, %rsp
	.cfi_def_cfa_offset 2432
	.cfi_offset %rbx, -56
	.cfi_offset %r12, -48
	.cfi_offset %r13, -40
	.cfi_offset %r14, -32
	.cfi_offset %r15, -24
	.cfi_offset %rbp, -16
	movl	$1, %esi
	movl	$13, %edi
	callq	__sysv_signal@PLT
	leaq	8(%rsp), %rax
	movq	%rax, 24(%rsp)
	movq	%rax, 1240(%rsp)
	pxor	%xmm0, %xmm0
	movdqu	%xmm0, 1248(%rsp)
	xorl	%ebx, %ebx
	movq	$0, 16(%rsp)
.LBB63_1:
	movl	$256, %r12d
	movl	$64, %r14d
	jmp	.LBB63_3
	.p2align	4
.LBB63_2:
	movq	%r12, %rax
	addq	%r12, %rax
	movq	$-1, %r12
	cmovaeq	%rax, %r12
	decl	%r14d
	je	.LBB63_172
.LBB63_3:
	leaq	8(%rsp), %r15
	movq	%r15, 64(%rsp)
	pxor	%xmm0, %xmm0
	leaq	72(%rsp), %rax
	movdqu	%xmm0, (%rax)
	testq	%r12, %r12
	jne	.LBB63_10
	xorl	%r13d, %r13d
.LBB63_5:
	movq	16(%rsp), %rdi
	movq	%r15, %rsi
	movq	%r13, %rdx
	callq	rattle_arg@PLT
	movq	%rax, %rbp
	movl	$22, %eax
	cmpq	$-1, %rbp
	je	.LBB63_7
	movl	$36, %eax
.LBB63_7:
	xorl	%edi, %edi
	testq	%rbp, %rbp
	cmovsl	%eax, %edi
	callq	rattle_set_errno@PLT
	callq	rattle_errno@PLT
	cmpl	$36, %eax
	jne	.LBB63_13
	cmpq	$0, 80(%rsp)
	je	.LBB63_2
	movq	%r15, %rdi
	callq	rattle_dealloc@PLT
	jmp	.LBB63_2
.LBB63_10:
	leaq	64(%rsp), %rdi
	movq	%r12, %rsi
	callq	std_alloc.vec.Vec.grow_amortized.05fa32d921161499
	testb	%al, %al
	je	.LBB63_170
	movq	64(%rsp), %r15
	movq	72(%rsp), %rdi
	leaq	(%rdi,%r12), %r13
	cmpq	%r13, %rdi
	jae	.LBB63_5
	addq	%r15, %rdi
	xorl	%esi, %esi
	movq	%r12, %rdx
	callq	memset@PLT
	jmp	.LBB63_5
	.p2align	4
.LBB63_13:
	testl	%eax, %eax
	jne	.LBB63_19
	cmpq	%r13, %rbp
	cmovbq	%rbp, %r13
	xorl	%r12d, %r12d
	testq	%rbp, %rbp
	cmovgq	%r13, %r12
	movq	80(%rsp), %r14
	pxor	%xmm0, %xmm0
	movdqa	%xmm0, 64(%rsp)
	movq	$0, 80(%rsp)
	leaq	64(%rsp), %rdi
	movq	%r15, %rsi
	movq	%r12, %rdx
	callq	core.str.utf8.from_utf8
	cmpb	$1, 64(%rsp)
	je	.LBB63_212
	cmpq	%rbx, 1256(%rsp)
	je	.LBB63_17
.LBB63_16:
	leaq	(%rbx,%rbx,2), %rax
	movq	24(%rsp), %rcx
	movq	%r15, (%rcx,%rax,8)
	movq	%r12, 8(%rcx,%rax,8)
	movq	%r14, 16(%rcx,%rax,8)
	incq	%rbx
	movq	%rbx, 1248(%rsp)
	movq	16(%rsp), %rcx
	incq	%rcx
	movq	%rcx, 16(%rsp)
	cmpq	$-1, %rcx
	jne	.LBB63_1
	jmp	.LBB63_21
.LBB63_17:
	leaq	1240(%rsp), %rdi
	callq	std_alloc.vec.Vec.grow_amortized.c2c24c8ca5cf7e6f
	testb	%al, %al
	je	.LBB63_221
	movq	1240(%rsp), %rax
	movq	%rax, 24(%rsp)
	movq	1248(%rsp), %rbx
	jmp	.LBB63_16
.LBB63_19:
	cmpq	$0, 80(%rsp)
	je	.LBB63_21
	movq	%r15, %rdi
	callq	rattle_dealloc@PLT
.LBB63_21:
	movq	1240(%rsp), %r15
	movq	1256(%rsp), %r12
	testq	%rbx, %rbx
	je	.LBB63_25
	cmpq	$0, 16(%r15)
	je	.LBB63_24
	movq	(%r15), %rdi
	callq	rattle_dealloc@PLT
.LBB63_24:
	cmpq	$1, %rbx
	jne	.LBB63_136
.LBB63_25:
	testq	%r12, %r12
	je	.LBB63_27
	movq	%r15, %rdi
	callq	rattle_dealloc@PLT
.LBB63_27:
	pxor	%xmm0, %xmm0
	movdqu	%xmm0, 48(%rsp)
	leaq	8(%rsp), %r14
	movq	%r14, 40(%rsp)
	movl	$65536, %edi
	movl	$1, %esi
	callq	rattle_alloc@PLT
	movb	$1, %bpl
	movb	$2, %cl
	testb	$1, %al
	je	.LBB63_188
	movq	%rdx, %r12
	movq	$0, 16(%rsp)
	movl	$65536, %edx
	movq	%r12, %rdi
	xorl	%esi, %esi
	callq	memset@PLT
	movq	%r14, 64(%rsp)
	pxor	%xmm0, %xmm0
	movdqu	%xmm0, 72(%rsp)
	movq	%r14, 1240(%rsp)
	movdqu	%xmm0, 1248(%rsp)
	xorl	%r13d, %r13d
	xorl	%r15d, %r15d
	movq	%r12, 32(%rsp)
.LBB63_29:
	movl	$65536, %edx
	xorl	%edi, %edi
	movq	%r12, %rsi
	callq	read@PLT
	testq	%rax, %rax
	js	.LBB63_153
	setne	15(%rsp)
	je	.LBB63_158
	movq	%r15, 24(%rsp)
	cmpq	$65536, %rax
	movl	$65536, %r15d
	cmovbq	%rax, %r15
	movq	%r13, %rbp
	jmp	.LBB63_33
	.p2align	4
.LBB63_32:
	addq	%rbx, %r12
	incq	%r12
	notq	%rbx
	addq	%rbx, %r15
	xorl	%r13d, %r13d
.LBB63_33:
	cmpq	$32, %r15
	jae	.LBB63_38
	testq	%r15, %r15
	je	.LBB63_133
	xorl	%ebx, %ebx
	.p2align	4
.LBB63_36:
	cmpb	$10, (%r12,%rbx)
	je	.LBB63_75
	incq	%rbx
	cmpq	%rbx, %r15
	jne	.LBB63_36
	jmp	.LBB63_107
	.p2align	4
.LBB63_38:
	leaq	-64(%r15), %rax
	xorl	%edx, %edx
.LBB63_39:
	movq	%r15, %rcx
	subq	%rdx, %rcx
	cmpq	$191, %rcx
	jbe	.LBB63_51
	movdqa	.LCPI63_0(%rip), %xmm0
	movdqu	(%r12,%rdx), %xmm1
	movdqu	16(%r12,%rdx), %xmm2
	movdqu	32(%r12,%rdx), %xmm3
	movdqu	48(%r12,%rdx), %xmm4
	pcmpeqb	%xmm0, %xmm4
	pcmpeqb	%xmm0, %xmm3
	pcmpeqb	%xmm0, %xmm1
	pmovmskb	%xmm1, %ecx
	pcmpeqb	%xmm0, %xmm2
	pmovmskb	%xmm2, %esi
	shll	$16, %esi
	orl	%ecx, %esi
	pmovmskb	%xmm3, %ecx
	shlq	$32, %rcx
	orq	%rsi, %rcx
	pmovmskb	%xmm4, %edi
	shlq	$48, %rdi
	leaq	64(%rdx), %rsi
	orq	%rcx, %rdi
	jne	.LBB63_68
	movq	%r15, %rcx
	subq	%rsi, %rcx
	cmpq	$128, %rcx
	jb	.LBB63_46
	subq	$-128, %rdx
	movq	%rdx, %rsi
	.p2align	4
.LBB63_43:
	movdqu	-64(%r12,%rsi), %xmm8
	movdqu	-48(%r12,%rsi), %xmm7
	movdqu	-32(%r12,%rsi), %xmm6
	movdqu	-16(%r12,%rsi), %xmm3
	pcmpeqb	%xmm0, %xmm7
	pcmpeqb	%xmm0, %xmm8
	pcmpeqb	%xmm0, %xmm6
	pcmpeqb	%xmm0, %xmm3
	movdqu	(%r12,%rsi), %xmm5
	movdqu	16(%r12,%rsi), %xmm4
	pcmpeqb	%xmm0, %xmm4
	pcmpeqb	%xmm0, %xmm5
	movdqu	32(%r12,%rsi), %xmm2
	movdqu	48(%r12,%rsi), %xmm1
	pcmpeqb	%xmm0, %xmm1
	pcmpeqb	%xmm0, %xmm2
	movdqa	%xmm5, %xmm9
	por	%xmm2, %xmm9
	movdqa	%xmm4, %xmm10
	por	%xmm1, %xmm10
	movdqa	%xmm8, %xmm11
	por	%xmm6, %xmm11
	por	%xmm9, %xmm11
	movdqa	%xmm7, %xmm9
	por	%xmm3, %xmm9
	por	%xmm10, %xmm9
	por	%xmm11, %xmm9
	pmovmskb	%xmm9, %edx
	testl	%edx, %edx
	jne	.LBB63_71
	subq	$-128, %rsi
	addq	$-128, %rcx
	cmpq	$127, %rcx
	ja	.LBB63_43
	addq	$-64, %rsi
.LBB63_46:
	movq	%rsi, %rdx
	cmpq	$32, %rcx
	jb	.LBB63_50
	movq	%r15, %rcx
	subq	%rdx, %rcx
	.p2align	4
.LBB63_48:
	movdqu	(%r12,%rdx), %xmm1
	movdqu	16(%r12,%rdx), %xmm2
	pcmpeqb	%xmm0, %xmm1
	pmovmskb	%xmm1, %edi
	pcmpeqb	%xmm0, %xmm2
	pmovmskb	%xmm2, %esi
	shll	$16, %esi
	orl	%edi, %esi
	jne	.LBB63_67
	addq	$-32, %rcx
	addq	$32, %rdx
	cmpq	$31, %rcx
	ja	.LBB63_48
.LBB63_50:
	movdqu	-32(%r12,%r15), %xmm1
	movdqu	-16(%r12,%r15), %xmm2
	pcmpeqb	%xmm0, %xmm1
	pmovmskb	%xmm1, %ecx
	pcmpeqb	%xmm0, %xmm2
	pmovmskb	%xmm2, %edi
	jmp	.LBB63_65
	.p2align	4
.LBB63_51:
	cmpq	$64, %rcx
	jb	.LBB63_60
	.p2align	4
.LBB63_52:
	movdqu	(%r12,%rdx), %xmm4
	movdqu	16(%r12,%rdx), %xmm3
	movdqu	32(%r12,%rdx), %xmm2
	movdqu	48(%r12,%rdx), %xmm1
	movdqa	.LCPI63_0(%rip), %xmm0
	movdqa	%xmm3, %xmm5
	pcmpeqb	%xmm0, %xmm5
	movdqa	%xmm4, %xmm6
	pcmpeqb	%xmm0, %xmm6
	movdqa	%xmm1, %xmm7
	pcmpeqb	%xmm0, %xmm7
	por	%xmm5, %xmm7
	movdqa	%xmm2, %xmm5
	pcmpeqb	%xmm0, %xmm5
	por	%xmm6, %xmm5
	por	%xmm7, %xmm5
	pmovmskb	%xmm5, %esi
	testl	%esi, %esi
	jne	.LBB63_54
	addq	$64, %rdx
	addq	$-64, %rcx
	cmpq	$63, %rcx
	ja	.LBB63_52
	jmp	.LBB63_60
.LBB63_54:
	cmpq	$64, %rcx
	jb	.LBB63_60
.LBB63_55:
	pcmpeqb	%xmm0, %xmm1
	pcmpeqb	%xmm0, %xmm2
	pcmpeqb	%xmm0, %xmm4
	pmovmskb	%xmm4, %ecx
	pcmpeqb	%xmm0, %xmm3
	pmovmskb	%xmm3, %esi
	shll	$16, %esi
	orl	%ecx, %esi
	pmovmskb	%xmm2, %ecx
	shlq	$32, %rcx
	orq	%rsi, %rcx
	pmovmskb	%xmm1, %edi
	shlq	$48, %rdi
	orq	%rcx, %rdi
	jne	.LBB63_74
	movq	%rax, %rcx
	subq	%rdx, %rcx
	.p2align	4
.LBB63_57:
	cmpq	$64, %rcx
	jb	.LBB63_59
	movdqu	64(%r12,%rdx), %xmm4
	movdqu	80(%r12,%rdx), %xmm3
	movdqu	96(%r12,%rdx), %xmm2
	movdqu	112(%r12,%rdx), %xmm1
	movdqa	%xmm3, %xmm5
	pcmpeqb	%xmm0, %xmm5
	movdqa	%xmm4, %xmm6
	pcmpeqb	%xmm0, %xmm6
	movdqa	%xmm1, %xmm7
	pcmpeqb	%xmm0, %xmm7
	por	%xmm5, %xmm7
	movdqa	%xmm2, %xmm5
	pcmpeqb	%xmm0, %xmm5
	por	%xmm6, %xmm5
	por	%xmm7, %xmm5
	pmovmskb	%xmm5, %esi
	addq	$-64, %rcx
	addq	$64, %rdx
	testl	%esi, %esi
	je	.LBB63_57
	jmp	.LBB63_55
.LBB63_59:
	addq	$64, %rdx
	.p2align	4
.LBB63_60:
	cmpq	$32, %rcx
	jb	.LBB63_64
	movq	%r15, %rcx
	subq	%rdx, %rcx
	.p2align	4
.LBB63_62:
	movdqu	(%r12,%rdx), %xmm0
	movdqu	16(%r12,%rdx), %xmm1
	movdqa	.LCPI63_0(%rip), %xmm2
	pcmpeqb	%xmm2, %xmm0
	pmovmskb	%xmm0, %edi
	pcmpeqb	%xmm2, %xmm1
	pmovmskb	%xmm1, %esi
	shll	$16, %esi
	orl	%edi, %esi
	jne	.LBB63_67
	addq	$-32, %rcx
	addq	$32, %rdx
	cmpq	$31, %rcx
	ja	.LBB63_62
.LBB63_64:
	movdqu	-32(%r12,%r15), %xmm0
	movdqu	-16(%r12,%r15), %xmm1
	movdqa	.LCPI63_0(%rip), %xmm2
	pcmpeqb	%xmm2, %xmm0
	pmovmskb	%xmm0, %ecx
	pcmpeqb	%xmm2, %xmm1
	pmovmskb	%xmm1, %edi
.LBB63_65:
	shll	$16, %edi
	orl	%ecx, %edi
	movl	%edx, %ecx
	subl	%r15d, %ecx
	addb	$32, %cl
	shrq	%cl, %rdi
	movq	%rdx, %rsi
	movq	%r15, %rcx
.LBB63_66:
	movq	%rsi, %rdx
	movq	%rcx, %rsi
	testq	%rdi, %rdi
	jne	.LBB63_68
	jmp	.LBB63_70
.LBB63_67:
	movl	%esi, %edi
	leaq	32(%rdx), %rsi
	.p2align	4
.LBB63_68:
	rep		bsfq	%rdi, %rcx
	leaq	(%rcx,%rdx), %rbx
	cmpb	$10, (%r12,%rbx)
	je	.LBB63_75
	movq	$-2, %r8
	rolq	%cl, %r8
	andq	%r8, %rdi
	jne	.LBB63_68
.LBB63_70:
	movq	%rsi, %rdx
	cmpq	%r15, %rsi
	jb	.LBB63_39
	jmp	.LBB63_107
.LBB63_71:
	pmovmskb	%xmm8, %ecx
	pmovmskb	%xmm7, %edx
	shll	$16, %edx
	orl	%ecx, %edx
	pmovmskb	%xmm6, %ecx
	shlq	$32, %rcx
	orq	%rdx, %rcx
	pmovmskb	%xmm3, %edi
	shlq	$48, %rdi
	orq	%rcx, %rdi
	je	.LBB63_73
	leaq	-64(%rsi), %rdx
	jmp	.LBB63_68
.LBB63_73:
	leaq	64(%rsi), %rcx
	pmovmskb	%xmm5, %edx
	pmovmskb	%xmm4, %edi
	shll	$16, %edi
	orl	%edx, %edi
	pmovmskb	%xmm2, %edx
	shlq	$32, %rdx
	orq	%rdi, %rdx
	pmovmskb	%xmm1, %edi
	shlq	$48, %rdi
	orq	%rdx, %rdi
	jmp	.LBB63_66
.LBB63_74:
	leaq	64(%rdx), %rsi
	jmp	.LBB63_68
	.p2align	4
.LBB63_75:
	testq	%r13, %r13
	je	.LBB63_80
	movq	16(%rsp), %rax
	subq	%r13, %rax
	cmpq	%rax, %rbx
	ja	.LBB63_105
.LBB63_77:
	leaq	(%r14,%r13), %rdi
	movq	%rdi, %rax
	subq	%r12, %rax
	cmpq	%rbx, %rax
	jae	.LBB63_82
	cmpq	$4, %rbx
	jb	.LBB63_79
	cmpq	$32, %rax
	jae	.LBB63_85
.LBB63_79:
	xorl	%eax, %eax
.LBB63_94:
	movq	%rbx, %rdx
	movq	%rax, %rcx
	andq	$3, %rdx
	je	.LBB63_97
	movq	%rax, %rcx
	.p2align	4
.LBB63_96:
	movzbl	(%r12,%rcx), %esi
	movb	%sil, (%rdi,%rcx)
	incq	%rcx
	decq	%rdx
	jne	.LBB63_96
.LBB63_97:
	subq	%rbx, %rax
	cmpq	$-4, %rax
	ja	.LBB63_100
	leaq	(%r14,%r13), %rax
	addq	$3, %rax
	.p2align	4
.LBB63_99:
	movzbl	(%r12,%rcx), %edx
	movb	%dl, -3(%rax,%rcx)
	movzbl	1(%r12,%rcx), %edx
	movb	%dl, -2(%rax,%rcx)
	movzbl	2(%r12,%rcx), %edx
	movb	%dl, -1(%rax,%rcx)
	movzbl	3(%r12,%rcx), %edx
	movb	%dl, (%rax,%rcx)
	addq	$4, %rcx
	cmpq	%rcx, %rbx
	jne	.LBB63_99
	jmp	.LBB63_100
	.p2align	4
.LBB63_80:
	leaq	40(%rsp), %rdi
	leaq	1240(%rsp), %rcx
	movq	%r12, %rsi
	movq	%rbx, %rdx
	callq	line_filter.answers.AnsweringTake.take.460d80f9416d9dfa
	testb	%al, %al
	jne	.LBB63_151
	cmpq	$65536, 1248(%rsp)
	jb	.LBB63_32
	jmp	.LBB63_104
	.p2align	4
.LBB63_82:
	movq	%r12, %rsi
	movq	%rbx, %rdx
	callq	memmove@PLT
.LBB63_100:
	addq	%rbx, %r13
	movq	%r13, 72(%rsp)
	movq	16(%rsp), %rax
	movq	%rax, 80(%rsp)
	leaq	40(%rsp), %rdi
	leaq	1240(%rsp), %rcx
	movq	%r14, %rsi
	movq	%r13, %rdx
	callq	line_filter.answers.AnsweringTake.take.460d80f9416d9dfa
	testb	%al, %al
	jne	.LBB63_151
	testq	%r13, %r13
	je	.LBB63_103
	movq	$0, 72(%rsp)
.LBB63_103:
	xorl	%ebp, %ebp
	cmpq	$65536, 1248(%rsp)
	jb	.LBB63_32
.LBB63_104:
	leaq	1240(%rsp), %rdi
	callq	line_filter.write.write_out.df9e9f1468b30f79
	testb	%al, %al
	je	.LBB63_32
	jmp	.LBB63_152
.LBB63_85:
	cmpq	$32, %rbx
	jae	.LBB63_87
	xorl	%eax, %eax
	jmp	.LBB63_91
.LBB63_87:
	movq	%rbx, %rax
	andq	$-32, %rax
	leaq	(%r14,%r13), %rcx
	addq	$16, %rcx
	xorl	%edx, %edx
	.p2align	4
.LBB63_88:
	movdqu	(%r12,%rdx), %xmm0
	movdqu	16(%r12,%rdx), %xmm1
	movdqu	%xmm0, -16(%rcx,%rdx)
	movdqu	%xmm1, (%rcx,%rdx)
	addq	$32, %rdx
	cmpq	%rdx, %rax
	jne	.LBB63_88
	cmpq	%rax, %rbx
	je	.LBB63_100
	testb	$28, %bl
	je	.LBB63_94
.LBB63_91:
	movq	%rax, %rcx
	movq	%rbx, %rax
	andq	$-4, %rax
	.p2align	4
.LBB63_92:
	movl	(%r12,%rcx), %edx
	movl	%edx, (%rdi,%rcx)
	addq	$4, %rcx
	cmpq	%rcx, %rax
	jne	.LBB63_92
	cmpq	%rax, %rbx
	je	.LBB63_100
	jmp	.LBB63_94
.LBB63_105:
	leaq	64(%rsp), %rdi
	movq	%rbx, %rsi
	callq	std_alloc.vec.Vec.grow_amortized.05fa32d921161499
	testb	%al, %al
	je	.LBB63_151
	movq	64(%rsp), %r14
	movq	72(%rsp), %r13
	movq	80(%rsp), %rax
	movq	%rax, 16(%rsp)
	jmp	.LBB63_77
	.p2align	4
.LBB63_107:
	movq	16(%rsp), %rax
	subq	%r13, %rax
	cmpq	%rax, %r15
	ja	.LBB63_134
.LBB63_108:
	leaq	(%r15,%r13), %rbx
	leaq	(%r14,%r13), %rdi
	movq	%rdi, %rax
	subq	%r12, %rax
	cmpq	%r15, %rax
	jae	.LBB63_111
	cmpq	$4, %r15
	jb	.LBB63_110
	leaq	(%r14,%r13), %rax
	subq	%r12, %rax
	cmpq	$32, %rax
	jae	.LBB63_115
.LBB63_110:
	xorl	%eax, %eax
.LBB63_124:
	movq	%r15, %rdx
	movq	%rax, %rcx
	andq	$3, %rdx
	je	.LBB63_127
	movq	%rax, %rcx
	.p2align	4
.LBB63_126:
	movzbl	(%r12,%rcx), %esi
	movb	%sil, (%rdi,%rcx)
	incq	%rcx
	decq	%rdx
	jne	.LBB63_126
.LBB63_127:
	subq	%r15, %rax
	cmpq	$-4, %rax
	ja	.LBB63_130
	leaq	(%r14,%r13), %rax
	addq	$3, %rax
	.p2align	4
.LBB63_129:
	movzbl	(%r12,%rcx), %edx
	movb	%dl, -3(%rax,%rcx)
	movzbl	1(%r12,%rcx), %edx
	movb	%dl, -2(%rax,%rcx)
	movzbl	2(%r12,%rcx), %edx
	movb	%dl, -1(%rax,%rcx)
	movzbl	3(%r12,%rcx), %edx
	movb	%dl, (%rax,%rcx)
	addq	$4, %rcx
	cmpq	%rcx, %r15
	jne	.LBB63_129
.LBB63_130:
	movq	%rbx, %r13
	jmp	.LBB63_131
	.p2align	4
.LBB63_111:
	movq	%rbx, %r13
.LBB63_112:
	movq	%r12, %rsi
	movq	%r15, %rdx
	callq	memmove@PLT
.LBB63_131:
	movq	24(%rsp), %r15
	movq	%r14, 64(%rsp)
	movq	%r13, 72(%rsp)
	movq	16(%rsp), %rax
	movq	%rax, 80(%rsp)
	leaq	1240(%rsp), %rdi
	callq	line_filter.write.write_out.df9e9f1468b30f79
	testb	%al, %al
	movq	32(%rsp), %r12
	jne	.LBB63_181
	incq	%r15
	cmpq	$-1, %r15
	jne	.LBB63_29
	jmp	.LBB63_165
.LBB63_115:
	cmpq	$32, %r15
	jae	.LBB63_117
	xorl	%eax, %eax
	jmp	.LBB63_121
.LBB63_117:
	movq	%r15, %rax
	andq	$-32, %rax
	leaq	(%r14,%r13), %rcx
	addq	$16, %rcx
	xorl	%edx, %edx
	.p2align	4
.LBB63_118:
	movdqu	(%r12,%rdx), %xmm0
	movdqu	16(%r12,%rdx), %xmm1
	movdqu	%xmm0, -16(%rcx,%rdx)
	movdqu	%xmm1, (%rcx,%rdx)
	addq	$32, %rdx
	cmpq	%rdx, %rax
	jne	.LBB63_118
	cmpq	%rax, %r15
	je	.LBB63_130
	testb	$28, %r15b
	je	.LBB63_124
.LBB63_121:
	movq	%rax, %rcx
	movq	%r15, %rax
	andq	$-4, %rax
	.p2align	4
.LBB63_122:
	movl	(%r12,%rcx), %edx
	movl	%edx, (%rdi,%rcx)
	addq	$4, %rcx
	cmpq	%rcx, %rax
	jne	.LBB63_122
	cmpq	%rax, %r15
	je	.LBB63_130
	jmp	.LBB63_124
.LBB63_133:
	movq	64(%rsp), %r14
	movq	%rbp, %r13
	leaq	(%r14,%rbp), %rdi
	jmp	.LBB63_112
.LBB63_134:
	leaq	64(%rsp), %rdi
	movq	%r15, %rsi
	callq	std_alloc.vec.Vec.grow_amortized.05fa32d921161499
	testb	%al, %al
	je	.LBB63_151
	movq	64(%rsp), %r14
	movq	72(%rsp), %r13
	movq	80(%rsp), %rax
	movq	%rax, 16(%rsp)
	jmp	.LBB63_108
.LBB63_136:
	movq	24(%r15), %rdi
	movq	40(%r15), %rax
	cmpq	$2, %rbx
	jne	.LBB63_142
	movq	32(%r15), %rcx
	cmpq	$2, %rcx
	je	.LBB63_201
	cmpq	$9, %rcx
	je	.LBB63_200
	cmpq	$6, %rcx
	jne	.LBB63_203
	movl	(%rdi), %ecx
	movl	2(%rdi), %edx
	shlq	$32, %rdx
	orq	%rcx, %rdx
	movabsq	$8100961328785009965, %rcx
	cmpq	%rcx, %rdx
	je	.LBB63_141
.LBB63_203:
	movb	$2, %bl
	jmp	.LBB63_204
.LBB63_142:
	movq	48(%r15), %r14
	movq	64(%r15), %r13
	testq	%rax, %rax
	je	.LBB63_144
	callq	rattle_dealloc@PLT
.LBB63_144:
	testq	%r13, %r13
	je	.LBB63_146
	movq	%r14, %rdi
	callq	rattle_dealloc@PLT
.LBB63_146:
	cmpq	$3, %rbx
	je	.LBB63_25
	addq	$-3, %rbx
	leaq	88(%r15), %r14
	jmp	.LBB63_149
	.p2align	4
.LBB63_148:
	addq	$24, %r14
	decq	%rbx
	je	.LBB63_25
.LBB63_149:
	cmpq	$0, (%r14)
	je	.LBB63_148
	movq	-16(%r14), %rdi
	callq	rattle_dealloc@PLT
	jmp	.LBB63_148
.LBB63_151:
	movb	$2, %bl
	movq	32(%rsp), %r12
	jmp	.LBB63_182
.LBB63_152:
	movl	%edx, %ebx
	movq	32(%rsp), %r12
	jmp	.LBB63_182
.LBB63_153:
	callq	rattle_errno@PLT
	cmpq	$0, 1256(%rsp)
	je	.LBB63_155
	movq	1240(%rsp), %rdi
	callq	rattle_dealloc@PLT
.LBB63_155:
	cmpq	$0, 16(%rsp)
	movb	$1, %bpl
	je	.LBB63_157
	movq	%r14, %rdi
	callq	rattle_dealloc@PLT
.LBB63_157:
	xorl	%ebx, %ebx
	jmp	.LBB63_187
.LBB63_158:
	testq	%r13, %r13
	movb	$1, %bpl
	je	.LBB63_165
	leaq	40(%rsp), %rdi
	leaq	1240(%rsp), %rcx
	movq	%r14, %rsi
	movq	%r13, %rdx
	callq	line_filter.answers.AnsweringTake.take.460d80f9416d9dfa
	movb	$2, %dl
	testb	%al, %al
	jne	.LBB63_161
	movq	$0, 72(%rsp)
	leaq	1240(%rsp), %rdi
	callq	line_filter.write.write_out.df9e9f1468b30f79
	testb	%al, %al
	je	.LBB63_165
.LBB63_161:
	movl	%edx, %ebx
	cmpq	$0, 1256(%rsp)
	je	.LBB63_163
	movq	1240(%rsp), %rdi
	callq	rattle_dealloc@PLT
.LBB63_163:
	cmpq	$0, 16(%rsp)
	je	.LBB63_187
	movq	%r14, %rdi
	jmp	.LBB63_186
.LBB63_165:
	cmpq	$0, 1256(%rsp)
	je	.LBB63_167
	movq	1240(%rsp), %rdi
	callq	rattle_dealloc@PLT
.LBB63_167:
	cmpq	$0, 16(%rsp)
	je	.LBB63_169
	movq	%r14, %rdi
	callq	rattle_dealloc@PLT
.LBB63_169:
	movq	%r12, %rdi
	callq	rattle_dealloc@PLT
	xorl	%ecx, %ecx
	movzbl	15(%rsp), %ebp
	jmp	.LBB63_188
.LBB63_170:
	cmpq	$0, 80(%rsp)
	je	.LBB63_172
	movq	64(%rsp), %rdi
	callq	rattle_dealloc@PLT
.LBB63_172:
	movq	1256(%rsp), %r14
	testq	%rbx, %rbx
	je	.LBB63_177
	movq	24(%rsp), %rax
	leaq	16(%rax), %r15
	jmp	.LBB63_175
	.p2align	4
.LBB63_174:
	addq	$24, %r15
	decq	%rbx
	je	.LBB63_177
.LBB63_175:
	cmpq	$0, (%r15)
	je	.LBB63_174
	movq	-16(%r15), %rdi
	callq	rattle_dealloc@PLT
	jmp	.LBB63_174
.LBB63_177:
	testq	%r14, %r14
	je	.LBB63_180
	movq	24(%rsp), %rdi
.LBB63_179:
	callq	rattle_dealloc@PLT
.LBB63_180:
	leaq	.Lstatic.0(%rip), %rax
	movq	%rax, 1240(%rsp)
	movq	$8, 1248(%rsp)
	leaq	.Lstatic.4(%rip), %rax
	movq	%rax, 1256(%rsp)
	movq	$15, 1264(%rsp)
	leaq	64(%rsp), %rdi
	leaq	1240(%rsp), %rsi
	callq	std_io.io.LibcRuntimeEprint.eprintln.27a8a20715d85f24
	jmp	.LBB63_198
.LBB63_181:
	movl	%edx, %ebx
.LBB63_182:
	cmpq	$0, 1256(%rsp)
	movb	$1, %bpl
	je	.LBB63_184
	movq	1240(%rsp), %rdi
	callq	rattle_dealloc@PLT
.LBB63_184:
	cmpq	$0, 80(%rsp)
	je	.LBB63_187
	movq	64(%rsp), %rdi
.LBB63_186:
	callq	rattle_dealloc@PLT
.LBB63_187:
	movq	%r12, %rdi
	callq	rattle_dealloc@PLT
	movl	%ebx, %ecx
.LBB63_188:
	cmpq	$0, 56(%rsp)
	je	.LBB63_190
	movq	40(%rsp), %rdi
	movl	%ecx, %ebx
	callq	rattle_dealloc@PLT
	movl	%ebx, %ecx
.LBB63_190:
	testb	%bpl, %bpl
	je	.LBB63_194
	leaq	68(%rsp), %rbx
	leaq	76(%rsp), %rdi
	movl	%ecx, %ebp
	movl	$1124, %edx
	xorl	%esi, %esi
	callq	memset@PLT
	movl	%ebp, %eax
	movabsq	$7310021106800159084, %rcx
	movq	%rcx, 68(%rsp)
	movw	$8250, 76(%rsp)
	cmpb	$2, %al
	je	.LBB63_195
	movzbl	%al, %eax
	cmpl	$1, %eax
	jne	.LBB63_196
	movabsq	$7018332689420350071, %rax
	movq	%rax, 78(%rsp)
	movl	$1684368489, 86(%rsp)
	movl	$22, %eax
	jmp	.LBB63_197
.LBB63_194:
	xorl	%eax, %eax
	jmp	.LBB63_199
.LBB63_195:
	movabsq	$7863397576860792175, %rax
	movq	%rax, 78(%rsp)
	movl	$1919905125, 86(%rsp)
	movb	$121, 90(%rsp)
	movl	$23, %eax
	jmp	.LBB63_197
.LBB63_196:
	movabsq	$7593462736032458098, %rax
	movq	%rax, 78(%rsp)
	movw	$25964, 86(%rsp)
	movb	$100, 88(%rsp)
	movl	$21, %eax
.LBB63_197:
	movb	$10, 68(%rsp,%rax)
	incq	%rax
	movq	%rax, 1096(%rsp)
	movl	$2, 1240(%rsp)
	leaq	1244(%rsp), %rdi
	movl	$1132, %edx
	movq	%rbx, %rsi
	callq	memcpy@PLT
	leaq	1240(%rsp), %rdi
	callq	std_io.io.buffer.Buffer.flush
.LBB63_198:
	movb	$1, %al
.LBB63_199:
	movzbl	%al, %eax
	addq	$2376, %rsp
	.cfi_def_cfa_offset 56
	popq	%rbx
	.cfi_def_cfa_offset 48
	popq	%r12
	.cfi_def_cfa_offset 40
	popq	%r13
	.cfi_def_cfa_offset 32
	popq	%r14
	.cfi_def_cfa_offset 24
	popq	%r15
	.cfi_def_cfa_offset 16
	popq	%rbp
	.cfi_def_cfa_offset 8
	retq
.LBB63_200:
	.cfi_def_cfa_offset 2432
	movabsq	$8028074745930329389, %rcx
	xorq	(%rdi), %rcx
	movabsq	$7957695011148363309, %rdx
	xorq	1(%rdi), %rdx
	orq	%rcx, %rdx
	cmpq	$1, %rdx
	movb	$2, %bl
	sbbb	$0, %bl
	jmp	.LBB63_204
.LBB63_201:
	movzbl	(%rdi), %ecx
	movzbl	1(%rdi), %edx
	shll	$16, %ecx
	movl	%edx, %esi
	shll	$8, %esi
	orl	%ecx, %esi
	orl	%edx, %esi
	cmpl	$2975848, %esi
	jne	.LBB63_203
.LBB63_141:
	xorl	%ebx, %ebx
.LBB63_204:
	testq	%rax, %rax
	je	.LBB63_206
	callq	rattle_dealloc@PLT
.LBB63_206:
	testq	%r12, %r12
	je	.LBB63_208
	movq	%r15, %rdi
	callq	rattle_dealloc@PLT
.LBB63_208:
	testb	%bl, %bl
	je	.LBB63_211
	movzbl	%bl, %eax
	cmpl	$1, %eax
	jne	.LBB63_27
	leaq	.Lstatic.2(%rip), %rdi
	movl	$15, %esi
	callq	line_filter.program.write_text
	jmp	.LBB63_199
.LBB63_211:
	leaq	.Lstatic.1(%rip), %rdi
	movl	$485, %esi
	callq	line_filter.program.write_text
	jmp	.LBB63_199
.LBB63_212:
	testq	%r14, %r14
	je	.LBB63_214
	movq	%r15, %rdi
	callq	rattle_dealloc@PLT
.LBB63_214:
	movq	1240(%rsp), %r14
	movq	1256(%rsp), %r15
	testq	%rbx, %rbx
	je	.LBB63_219
	leaq	16(%r14), %r12
	jmp	.LBB63_217
	.p2align	4
.LBB63_216:
	addq	$24, %r12
	decq	%rbx
	je	.LBB63_219
.LBB63_217:
	cmpq	$0, (%r12)
	je	.LBB63_216
	movq	-16(%r12), %rdi
	callq	rattle_dealloc@PLT
	jmp	.LBB63_216
.LBB63_219:
	testq	%r15, %r15
	je	.LBB63_180
	movq	%r14, %rdi
	jmp	.LBB63_179
.LBB63_221:
	testq	%r14, %r14
	je	.LBB63_223
	movq	%r15, %rdi
	callq	rattle_dealloc@PLT
.LBB63_223:
	movq	1240(%rsp), %rbx
	movq	1248(%rsp), %r15
	movq	1256(%rsp), %r14
	testq	%r15, %r15
	je	.LBB63_228
	leaq	16(%rbx), %r12
	jmp	.LBB63_226
.LBB63_225:
	addq	$24, %r12
	decq	%r15
	je	.LBB63_228
.LBB63_226:
	cmpq	$0, (%r12)
	je	.LBB63_225
	movq	-16(%r12), %rdi
	callq	rattle_dealloc@PLT
	jmp	.LBB63_225
.LBB63_228:
	testq	%r14, %r14
	je	.LBB63_180
	movq	%rbx, %rdi
	jmp	.LBB63_179
.Lfunc_end63:
	.size	main, .Lfunc_end63-main
	.cfi_endproc

	.type	.Lstatic.0,@object
	.section	.rodata.cst8,"aM",@progbits,8
.Lstatic.0:
	.ascii	"linkwire"
	.size	.Lstatic.0, 8

	.type	.Lstatic.1,@object
	.section	.rodata..Lstatic.1,"a",@progbits
.Lstatic.1:
	.ascii	"usage: linkwire [--help | --version]\n\nReads lines of hexadecimal digits from standard input, each the bytes of a link message of route netlink, and writes\nfor each line one answer: ok and the canonical encoding of the message; nothex for a line that is no bytes; refused for\nbytes that are no message; unfit for a message that cannot be written; empty-ports for one with an empty list of ports.\nNo words stand in front of the digits.\n\n  -h, --help  this text\n  --version   the version\n"
	.size	.Lstatic.1, 485

	.type	.Lstatic.2,@object
	.section	.rodata..Lstatic.2,"a",@progbits
.Lstatic.2:
	.ascii	"linkwire 0.4.0\n"
	.size	.Lstatic.2, 15

	.type	.Lstatic.3,@object
	.section	.rodata..Lstatic.3,"a",@progbits
.Lstatic.3:
	.size	.Lstatic.3, 0

	.type	.Lstatic.4,@object
	.section	.rodata..Lstatic.4,"a",@progbits
.Lstatic.4:
	.ascii	": out of memory"
	.size	.Lstatic.4, 15

	.type	.Lstatic.5,@object
	.section	.rodata..Lstatic.5,"a",@progbits
.Lstatic.5:
	.byte	10
	.size	.Lstatic.5, 1

	.type	.Lstatic.7,@object
	.section	.rodata.cst4,"aM",@progbits,4
.Lstatic.7:
	.zero	4,32
	.size	.Lstatic.7, 4

	.type	.Lstatic.12,@object
	.section	.rodata..Lstatic.12,"a",@progbits
.Lstatic.12:
	.ascii	": write failed"
	.size	.Lstatic.12, 14

	.type	.Lstatic.13,@object
	.section	.rodata..Lstatic.13,"a",@progbits
.Lstatic.13:
	.ascii	"nothex\n"
	.size	.Lstatic.13, 7

	.type	.Lstatic.14,@object
	.section	.rodata..Lstatic.14,"a",@progbits
.Lstatic.14:
	.ascii	"\377\377\377\377\377\377\377\377\377\377\377\377\377\377\377\377\377\377\377\377\377\377\377\377\377\377\377\377\377\377\377\377\377\377\377\377\377\377\377\377\377\377\377\377\377\377\377\377\000\001\002\003\004\005\006\007\b\t\377\377\377\377\377\377\377\n\013\f\r\016\017\377\377\377\377\377\377\377\377\377\377\377\377\377\377\377\377\377\377\377\377\377\377\377\377\377\377\n\013\f\r\016\017\377\377\377\377\377\377\377\377\377\377\377\377\377\377\377\377\377\377\377\377\377\377\377\377\377\377\377\377\377\377\377\377\377\377\377\377\377\377\377\377\377\377\377\377\377\377\377\377\377\377\377\377\377\377\377\377\377\377\377\377\377\377\377\377\377\377\377\377\377\377\377\377\377\377\377\377\377\377\377\377\377\377\377\377\377\377\377\377\377\377\377\377\377\377\377\377\377\377\377\377\377\377\377\377\377\377\377\377\377\377\377\377\377\377\377\377\377\377\377\377\377\377\377\377\377\377\377\377\377\377\377\377\377\377\377\377\377\377\377\377\377\377\377\377\377\377\377\377\377\377\377\377\377"
	.size	.Lstatic.14, 256

	.type	.Lstatic.16,@object
	.section	.rodata..Lstatic.16,"a",@progbits
.Lstatic.16:
	.ascii	"unfit\n"
	.size	.Lstatic.16, 6

	.type	.Lstatic.17,@object
	.section	.rodata..Lstatic.17,"a",@progbits
.Lstatic.17:
	.ascii	"empty-ports\n"
	.size	.Lstatic.17, 12

	.type	.Lstatic.19,@object
	.section	.rodata..Lstatic.19,"a",@progbits
.Lstatic.19:
	.ascii	"payload"
	.size	.Lstatic.19, 7

	.type	.Lstatic.21,@object
	.section	.rodata..Lstatic.21,"a",@progbits
.Lstatic.21:
	.ascii	"IFLA_INFO_KIND"
	.size	.Lstatic.21, 14

	.type	.Lstatic.22,@object
	.section	.rodata..Lstatic.22,"a",@progbits
.Lstatic.22:
	.ascii	"IFLA_VF_STATS_RX_PACKETS"
	.size	.Lstatic.22, 24

	.type	.Lstatic.23,@object
	.section	.rodata..Lstatic.23,"a",@progbits
.Lstatic.23:
	.ascii	"IFLA_VF_STATS_TX_PACKETS"
	.size	.Lstatic.23, 24

	.type	.Lstatic.24,@object
	.section	.rodata..Lstatic.24,"a",@progbits
.Lstatic.24:
	.ascii	"IFLA_VF_STATS_RX_BYTES"
	.size	.Lstatic.24, 22

	.type	.Lstatic.25,@object
	.section	.rodata..Lstatic.25,"a",@progbits
.Lstatic.25:
	.ascii	"IFLA_VF_STATS_TX_BYTES"
	.size	.Lstatic.25, 22

	.type	.Lstatic.26,@object
	.section	.rodata..Lstatic.26,"a",@progbits
.Lstatic.26:
	.ascii	"IFLA_VF_STATS_BROADCAST"
	.size	.Lstatic.26, 23

	.type	.Lstatic.27,@object
	.section	.rodata..Lstatic.27,"a",@progbits
.Lstatic.27:
	.ascii	"IFLA_VF_STATS_MULTICAST"
	.size	.Lstatic.27, 23

	.type	.Lstatic.28,@object
	.section	.rodata..Lstatic.28,"a",@progbits
.Lstatic.28:
	.ascii	"IFLA_VF_STATS_RX_DROPPED"
	.size	.Lstatic.28, 24

	.type	.Lstatic.29,@object
	.section	.rodata..Lstatic.29,"a",@progbits
.Lstatic.29:
	.ascii	"IFLA_VF_STATS_TX_DROPPED"
	.size	.Lstatic.29, 24

	.type	.Lstatic.30,@object
	.section	.rodata..Lstatic.30,"a",@progbits
.Lstatic.30:
	.ascii	"IFLA_VF_VLAN_INFO"
	.size	.Lstatic.30, 17

	.type	.Lstatic.31,@object
	.section	.rodata..Lstatic.31,"a",@progbits
.Lstatic.31:
	.ascii	"IFLA_VF_MAC"
	.size	.Lstatic.31, 11

	.type	.Lstatic.32,@object
	.section	.rodata..Lstatic.32,"a",@progbits
.Lstatic.32:
	.ascii	"IFLA_VF_VLAN"
	.size	.Lstatic.32, 12

	.type	.Lstatic.33,@object
	.section	.rodata..Lstatic.33,"a",@progbits
.Lstatic.33:
	.ascii	"IFLA_VF_TX_RATE"
	.size	.Lstatic.33, 15

	.type	.Lstatic.34,@object
	.section	.rodata.cst16,"aM",@progbits,16
.Lstatic.34:
	.ascii	"IFLA_VF_SPOOFCHK"
	.size	.Lstatic.34, 16

	.type	.Lstatic.35,@object
	.section	.rodata..Lstatic.35,"a",@progbits
.Lstatic.35:
	.ascii	"IFLA_VF_LINK_STATE"
	.size	.Lstatic.35, 18

	.type	.Lstatic.36,@object
	.section	.rodata..Lstatic.36,"a",@progbits
.Lstatic.36:
	.ascii	"IFLA_VF_RATE"
	.size	.Lstatic.36, 12

	.type	.Lstatic.37,@object
	.section	.rodata..Lstatic.37,"a",@progbits
.Lstatic.37:
	.ascii	"IFLA_VF_RSS_QUERY_EN"
	.size	.Lstatic.37, 20

	.type	.Lstatic.38,@object
	.section	.rodata..Lstatic.38,"a",@progbits
.Lstatic.38:
	.ascii	"IFLA_VF_STATS"
	.size	.Lstatic.38, 13

	.type	.Lstatic.39,@object
	.section	.rodata..Lstatic.39,"a",@progbits
.Lstatic.39:
	.ascii	"IFLA_VF_TRUST"
	.size	.Lstatic.39, 13

	.type	.Lstatic.40,@object
	.section	.rodata..Lstatic.40,"a",@progbits
.Lstatic.40:
	.ascii	"IFLA_VF_IB_NODE_GUID"
	.size	.Lstatic.40, 20

	.type	.Lstatic.41,@object
	.section	.rodata..Lstatic.41,"a",@progbits
.Lstatic.41:
	.ascii	"IFLA_VF_IB_PORT_GUID"
	.size	.Lstatic.41, 20

	.type	.Lstatic.42,@object
	.section	.rodata..Lstatic.42,"a",@progbits
.Lstatic.42:
	.ascii	"IFLA_VF_VLAN_LIST"
	.size	.Lstatic.42, 17

	.type	.Lstatic.43,@object
	.section	.rodata..Lstatic.43,"a",@progbits
.Lstatic.43:
	.ascii	"IFLA_VF_BROADCAST"
	.size	.Lstatic.43, 17

	.type	.Lstatic.44,@object
	.section	.rodata..Lstatic.44,"a",@progbits
.Lstatic.44:
	.ascii	"IFLA_VF_INFO"
	.size	.Lstatic.44, 12

	.type	.Lstatic.45,@object
	.section	.rodata..Lstatic.45,"a",@progbits
.Lstatic.45:
	.ascii	"IFLA_VF_PORT"
	.size	.Lstatic.45, 12

	.type	.Lstatic.46,@object
	.section	.rodata..Lstatic.46,"a",@progbits
.Lstatic.46:
	.ascii	"IFLA_XDP_FD"
	.size	.Lstatic.46, 11

	.type	.Lstatic.47,@object
	.section	.rodata..Lstatic.47,"a",@progbits
.Lstatic.47:
	.ascii	"IFLA_XDP_ATTACHED"
	.size	.Lstatic.47, 17

	.type	.Lstatic.48,@object
	.section	.rodata..Lstatic.48,"a",@progbits
.Lstatic.48:
	.ascii	"IFLA_XDP_FLAGS"
	.size	.Lstatic.48, 14

	.type	.Lstatic.49,@object
	.section	.rodata.cst16,"aM",@progbits,16
.Lstatic.49:
	.ascii	"IFLA_XDP_PROG_ID"
	.size	.Lstatic.49, 16

	.type	.Lstatic.50,@object
	.section	.rodata..Lstatic.50,"a",@progbits
.Lstatic.50:
	.ascii	"IFLA_XDP_DRV_PROG_ID"
	.size	.Lstatic.50, 20

	.type	.Lstatic.51,@object
	.section	.rodata..Lstatic.51,"a",@progbits
.Lstatic.51:
	.ascii	"IFLA_XDP_SKB_PROG_ID"
	.size	.Lstatic.51, 20

	.type	.Lstatic.52,@object
	.section	.rodata..Lstatic.52,"a",@progbits
.Lstatic.52:
	.ascii	"IFLA_XDP_HW_PROG_ID"
	.size	.Lstatic.52, 19

	.type	.Lstatic.53,@object
	.section	.rodata..Lstatic.53,"a",@progbits
.Lstatic.53:
	.ascii	"IFLA_XDP_EXPECTED_FD"
	.size	.Lstatic.53, 20

	.type	.Lstatic.54,@object
	.section	.rodata..Lstatic.54,"a",@progbits
.Lstatic.54:
	.ascii	"IFLA_ALT_IFNAME"
	.size	.Lstatic.54, 15

	.type	.Lstatic.55,@object
	.section	.rodata..Lstatic.55,"a",@progbits
.Lstatic.55:
	.ascii	"IFLA_PROTO_DOWN_REASON_MASK"
	.size	.Lstatic.55, 27

	.type	.Lstatic.56,@object
	.section	.rodata..Lstatic.56,"a",@progbits
.Lstatic.56:
	.ascii	"IFLA_PROTO_DOWN_REASON_VALUE"
	.size	.Lstatic.56, 28

	.type	.Lstatic.57,@object
	.section	.rodata..Lstatic.57,"a",@progbits
.Lstatic.57:
	.ascii	"DEVLINK_ATTR_BUS_NAME"
	.size	.Lstatic.57, 21

	.type	.Lstatic.58,@object
	.section	.rodata..Lstatic.58,"a",@progbits
.Lstatic.58:
	.ascii	"DEVLINK_ATTR_DEV_NAME"
	.size	.Lstatic.58, 21

	.type	.Lstatic.59,@object
	.section	.rodata..Lstatic.59,"a",@progbits
.Lstatic.59:
	.ascii	"DEVLINK_ATTR_PORT_INDEX"
	.size	.Lstatic.59, 23

	.type	.Lstatic.60,@object
	.section	.rodata..Lstatic.60,"a",@progbits
.Lstatic.60:
	.ascii	"DPLL_A_PIN_ID"
	.size	.Lstatic.60, 13

	.type	.Lstatic.62,@object
	.section	.rodata.cst16,"aM",@progbits,16
.Lstatic.62:
	.ascii	"IFLA_INET6_FLAGS"
	.size	.Lstatic.62, 16

	.type	.Lstatic.63,@object
	.section	.rodata..Lstatic.63,"a",@progbits
.Lstatic.63:
	.ascii	"IFLA_INET6_CACHEINFO"
	.size	.Lstatic.63, 20

	.type	.Lstatic.67,@object
	.section	.rodata.cst16,"aM",@progbits,16
.Lstatic.67:
	.ascii	"IFLA_INET6_TOKEN"
	.size	.Lstatic.67, 16

	.type	.Lstatic.68,@object
	.section	.rodata..Lstatic.68,"a",@progbits
.Lstatic.68:
	.ascii	"IFLA_INET6_ADDR_GEN_MODE"
	.size	.Lstatic.68, 24

	.type	.Lstatic.69,@object
	.section	.rodata..Lstatic.69,"a",@progbits
.Lstatic.69:
	.ascii	"IFLA_INET6_RA_MTU"
	.size	.Lstatic.69, 17

	.type	.Lstatic.70,@object
	.section	.rodata..Lstatic.70,"a",@progbits
.Lstatic.70:
	.ascii	"IFLA_MCTP_NET"
	.size	.Lstatic.70, 13

	.type	.Lstatic.71,@object
	.section	.rodata..Lstatic.71,"a",@progbits
.Lstatic.71:
	.ascii	"IFLA_MCTP_PHYS_BINDING"
	.size	.Lstatic.71, 22

	.type	.Lstatic.72,@object
	.section	.rodata..Lstatic.72,"a",@progbits
.Lstatic.72:
	.ascii	"AF_INET"
	.size	.Lstatic.72, 7

	.type	.Lstatic.73,@object
	.section	.rodata.cst8,"aM",@progbits,8
.Lstatic.73:
	.ascii	"AF_INET6"
	.size	.Lstatic.73, 8

	.type	.Lstatic.74,@object
	.section	.rodata..Lstatic.74,"a",@progbits
.Lstatic.74:
	.ascii	"AF_MCTP"
	.size	.Lstatic.74, 7

	.type	.Lstatic.75,@object
	.section	.rodata..Lstatic.75,"a",@progbits
.Lstatic.75:
	.ascii	"IFLA_ADDRESS"
	.size	.Lstatic.75, 12

	.type	.Lstatic.76,@object
	.section	.rodata..Lstatic.76,"a",@progbits
.Lstatic.76:
	.ascii	"IFLA_BROADCAST"
	.size	.Lstatic.76, 14

	.type	.Lstatic.77,@object
	.section	.rodata..Lstatic.77,"a",@progbits
.Lstatic.77:
	.ascii	"IFLA_IFNAME"
	.size	.Lstatic.77, 11

	.type	.Lstatic.78,@object
	.section	.rodata.cst8,"aM",@progbits,8
.Lstatic.78:
	.ascii	"IFLA_MTU"
	.size	.Lstatic.78, 8

	.type	.Lstatic.79,@object
	.section	.rodata..Lstatic.79,"a",@progbits
.Lstatic.79:
	.ascii	"IFLA_LINK"
	.size	.Lstatic.79, 9

	.type	.Lstatic.80,@object
	.section	.rodata..Lstatic.80,"a",@progbits
.Lstatic.80:
	.ascii	"IFLA_QDISC"
	.size	.Lstatic.80, 10

	.type	.Lstatic.81,@object
	.section	.rodata..Lstatic.81,"a",@progbits
.Lstatic.81:
	.ascii	"IFLA_STATS"
	.size	.Lstatic.81, 10

	.type	.Lstatic.82,@object
	.section	.rodata..Lstatic.82,"a",@progbits
.Lstatic.82:
	.ascii	"IFLA_MASTER"
	.size	.Lstatic.82, 11

	.type	.Lstatic.83,@object
	.section	.rodata..Lstatic.83,"a",@progbits
.Lstatic.83:
	.ascii	"IFLA_WIRELESS"
	.size	.Lstatic.83, 13

	.type	.Lstatic.84,@object
	.section	.rodata..Lstatic.84,"a",@progbits
.Lstatic.84:
	.ascii	"IFLA_PROTINFO"
	.size	.Lstatic.84, 13

	.type	.Lstatic.85,@object
	.section	.rodata..Lstatic.85,"a",@progbits
.Lstatic.85:
	.ascii	"IFLA_TXQLEN"
	.size	.Lstatic.85, 11

	.type	.Lstatic.86,@object
	.section	.rodata.cst8,"aM",@progbits,8
.Lstatic.86:
	.ascii	"IFLA_MAP"
	.size	.Lstatic.86, 8

	.type	.Lstatic.87,@object
	.section	.rodata..Lstatic.87,"a",@progbits
.Lstatic.87:
	.ascii	"IFLA_OPERSTATE"
	.size	.Lstatic.87, 14

	.type	.Lstatic.88,@object
	.section	.rodata..Lstatic.88,"a",@progbits
.Lstatic.88:
	.ascii	"IFLA_LINKMODE"
	.size	.Lstatic.88, 13

	.type	.Lstatic.89,@object
	.section	.rodata..Lstatic.89,"a",@progbits
.Lstatic.89:
	.ascii	"IFLA_LINKINFO"
	.size	.Lstatic.89, 13

	.type	.Lstatic.90,@object
	.section	.rodata..Lstatic.90,"a",@progbits
.Lstatic.90:
	.ascii	"IFLA_NET_NS_PID"
	.size	.Lstatic.90, 15

	.type	.Lstatic.91,@object
	.section	.rodata..Lstatic.91,"a",@progbits
.Lstatic.91:
	.ascii	"IFLA_IFALIAS"
	.size	.Lstatic.91, 12

	.type	.Lstatic.92,@object
	.section	.rodata..Lstatic.92,"a",@progbits
.Lstatic.92:
	.ascii	"IFLA_NUM_VF"
	.size	.Lstatic.92, 11

	.type	.Lstatic.93,@object
	.section	.rodata.cst16,"aM",@progbits,16
.Lstatic.93:
	.ascii	"IFLA_VFINFO_LIST"
	.size	.Lstatic.93, 16

	.type	.Lstatic.94,@object
	.section	.rodata..Lstatic.94,"a",@progbits
.Lstatic.94:
	.ascii	"IFLA_STATS64"
	.size	.Lstatic.94, 12

	.type	.Lstatic.95,@object
	.section	.rodata..Lstatic.95,"a",@progbits
.Lstatic.95:
	.ascii	"IFLA_VF_PORTS"
	.size	.Lstatic.95, 13

	.type	.Lstatic.96,@object
	.section	.rodata..Lstatic.96,"a",@progbits
.Lstatic.96:
	.ascii	"IFLA_PORT_SELF"
	.size	.Lstatic.96, 14

	.type	.Lstatic.97,@object
	.section	.rodata..Lstatic.97,"a",@progbits
.Lstatic.97:
	.ascii	"IFLA_AF_SPEC"
	.size	.Lstatic.97, 12

	.type	.Lstatic.98,@object
	.section	.rodata..Lstatic.98,"a",@progbits
.Lstatic.98:
	.ascii	"IFLA_GROUP"
	.size	.Lstatic.98, 10

	.type	.Lstatic.99,@object
	.section	.rodata..Lstatic.99,"a",@progbits
.Lstatic.99:
	.ascii	"IFLA_NET_NS_FD"
	.size	.Lstatic.99, 14

	.type	.Lstatic.100,@object
	.section	.rodata..Lstatic.100,"a",@progbits
.Lstatic.100:
	.ascii	"IFLA_EXT_MASK"
	.size	.Lstatic.100, 13

	.type	.Lstatic.101,@object
	.section	.rodata.cst16,"aM",@progbits,16
.Lstatic.101:
	.ascii	"IFLA_PROMISCUITY"
	.size	.Lstatic.101, 16

	.type	.Lstatic.102,@object
	.section	.rodata..Lstatic.102,"a",@progbits
.Lstatic.102:
	.ascii	"IFLA_NUM_TX_QUEUES"
	.size	.Lstatic.102, 18

	.type	.Lstatic.103,@object
	.section	.rodata..Lstatic.103,"a",@progbits
.Lstatic.103:
	.ascii	"IFLA_NUM_RX_QUEUES"
	.size	.Lstatic.103, 18

	.type	.Lstatic.104,@object
	.section	.rodata..Lstatic.104,"a",@progbits
.Lstatic.104:
	.ascii	"IFLA_CARRIER"
	.size	.Lstatic.104, 12

	.type	.Lstatic.105,@object
	.section	.rodata..Lstatic.105,"a",@progbits
.Lstatic.105:
	.ascii	"IFLA_PHYS_PORT_ID"
	.size	.Lstatic.105, 17

	.type	.Lstatic.106,@object
	.section	.rodata..Lstatic.106,"a",@progbits
.Lstatic.106:
	.ascii	"IFLA_CARRIER_CHANGES"
	.size	.Lstatic.106, 20

	.type	.Lstatic.107,@object
	.section	.rodata..Lstatic.107,"a",@progbits
.Lstatic.107:
	.ascii	"IFLA_PHYS_SWITCH_ID"
	.size	.Lstatic.107, 19

	.type	.Lstatic.108,@object
	.section	.rodata..Lstatic.108,"a",@progbits
.Lstatic.108:
	.ascii	"IFLA_LINK_NETNSID"
	.size	.Lstatic.108, 17

	.type	.Lstatic.109,@object
	.section	.rodata..Lstatic.109,"a",@progbits
.Lstatic.109:
	.ascii	"IFLA_PHYS_PORT_NAME"
	.size	.Lstatic.109, 19

	.type	.Lstatic.110,@object
	.section	.rodata..Lstatic.110,"a",@progbits
.Lstatic.110:
	.ascii	"IFLA_PROTO_DOWN"
	.size	.Lstatic.110, 15

	.type	.Lstatic.111,@object
	.section	.rodata..Lstatic.111,"a",@progbits
.Lstatic.111:
	.ascii	"IFLA_GSO_MAX_SEGS"
	.size	.Lstatic.111, 17

	.type	.Lstatic.112,@object
	.section	.rodata..Lstatic.112,"a",@progbits
.Lstatic.112:
	.ascii	"IFLA_GSO_MAX_SIZE"
	.size	.Lstatic.112, 17

	.type	.Lstatic.113,@object
	.section	.rodata.cst8,"aM",@progbits,8
.Lstatic.113:
	.ascii	"IFLA_XDP"
	.size	.Lstatic.113, 8

	.type	.Lstatic.114,@object
	.section	.rodata..Lstatic.114,"a",@progbits
.Lstatic.114:
	.ascii	"IFLA_EVENT"
	.size	.Lstatic.114, 10

	.type	.Lstatic.115,@object
	.section	.rodata.cst16,"aM",@progbits,16
.Lstatic.115:
	.ascii	"IFLA_NEW_NETNSID"
	.size	.Lstatic.115, 16

	.type	.Lstatic.116,@object
	.section	.rodata..Lstatic.116,"a",@progbits
.Lstatic.116:
	.ascii	"IFLA_IF_NETNSID"
	.size	.Lstatic.116, 15

	.type	.Lstatic.117,@object
	.section	.rodata..Lstatic.117,"a",@progbits
.Lstatic.117:
	.ascii	"IFLA_CARRIER_UP_COUNT"
	.size	.Lstatic.117, 21

	.type	.Lstatic.118,@object
	.section	.rodata..Lstatic.118,"a",@progbits
.Lstatic.118:
	.ascii	"IFLA_CARRIER_DOWN_COUNT"
	.size	.Lstatic.118, 23

	.type	.Lstatic.119,@object
	.section	.rodata.cst16,"aM",@progbits,16
.Lstatic.119:
	.ascii	"IFLA_NEW_IFINDEX"
	.size	.Lstatic.119, 16

	.type	.Lstatic.120,@object
	.section	.rodata..Lstatic.120,"a",@progbits
.Lstatic.120:
	.ascii	"IFLA_MIN_MTU"
	.size	.Lstatic.120, 12

	.type	.Lstatic.121,@object
	.section	.rodata..Lstatic.121,"a",@progbits
.Lstatic.121:
	.ascii	"IFLA_MAX_MTU"
	.size	.Lstatic.121, 12

	.type	.Lstatic.122,@object
	.section	.rodata..Lstatic.122,"a",@progbits
.Lstatic.122:
	.ascii	"IFLA_PROP_LIST"
	.size	.Lstatic.122, 14

	.type	.Lstatic.123,@object
	.section	.rodata..Lstatic.123,"a",@progbits
.Lstatic.123:
	.ascii	"IFLA_PERM_ADDRESS"
	.size	.Lstatic.123, 17

	.type	.Lstatic.124,@object
	.section	.rodata..Lstatic.124,"a",@progbits
.Lstatic.124:
	.ascii	"IFLA_PROTO_DOWN_REASON"
	.size	.Lstatic.124, 22

	.type	.Lstatic.125,@object
	.section	.rodata..Lstatic.125,"a",@progbits
.Lstatic.125:
	.ascii	"IFLA_PARENT_DEV_NAME"
	.size	.Lstatic.125, 20

	.type	.Lstatic.126,@object
	.section	.rodata..Lstatic.126,"a",@progbits
.Lstatic.126:
	.ascii	"IFLA_PARENT_DEV_BUS_NAME"
	.size	.Lstatic.126, 24

	.type	.Lstatic.127,@object
	.section	.rodata..Lstatic.127,"a",@progbits
.Lstatic.127:
	.ascii	"IFLA_GRO_MAX_SIZE"
	.size	.Lstatic.127, 17

	.type	.Lstatic.128,@object
	.section	.rodata..Lstatic.128,"a",@progbits
.Lstatic.128:
	.ascii	"IFLA_TSO_MAX_SIZE"
	.size	.Lstatic.128, 17

	.type	.Lstatic.129,@object
	.section	.rodata..Lstatic.129,"a",@progbits
.Lstatic.129:
	.ascii	"IFLA_TSO_MAX_SEGS"
	.size	.Lstatic.129, 17

	.type	.Lstatic.130,@object
	.section	.rodata..Lstatic.130,"a",@progbits
.Lstatic.130:
	.ascii	"IFLA_ALLMULTI"
	.size	.Lstatic.130, 13

	.type	.Lstatic.131,@object
	.section	.rodata..Lstatic.131,"a",@progbits
.Lstatic.131:
	.ascii	"IFLA_DEVLINK_PORT"
	.size	.Lstatic.131, 17

	.type	.Lstatic.132,@object
	.section	.rodata..Lstatic.132,"a",@progbits
.Lstatic.132:
	.ascii	"IFLA_GSO_IPV4_MAX_SIZE"
	.size	.Lstatic.132, 22

	.type	.Lstatic.133,@object
	.section	.rodata..Lstatic.133,"a",@progbits
.Lstatic.133:
	.ascii	"IFLA_GRO_IPV4_MAX_SIZE"
	.size	.Lstatic.133, 22

	.type	.Lstatic.134,@object
	.section	.rodata..Lstatic.134,"a",@progbits
.Lstatic.134:
	.ascii	"IFLA_DPLL_PIN"
	.size	.Lstatic.134, 13

	.type	.Lstatic.135,@object
	.section	.rodata..Lstatic.135,"a",@progbits
.Lstatic.135:
	.ascii	"IFLA_NETNS_IMMUTABLE"
	.size	.Lstatic.135, 20

	.type	.Lstatic.136,@object
	.section	.rodata..Lstatic.136,"a",@progbits
.Lstatic.136:
	.ascii	"IFLA_HEADROOM"
	.size	.Lstatic.136, 13

	.type	.Lstatic.137,@object
	.section	.rodata..Lstatic.137,"a",@progbits
.Lstatic.137:
	.ascii	"IFLA_TAILROOM"
	.size	.Lstatic.137, 13

	.type	.Lstatic.140,@object
	.section	.rodata..Lstatic.140,"a",@progbits
.Lstatic.140:
	.ascii	"ok "
	.size	.Lstatic.140, 3

	.type	.Lstatic.141,@object
	.section	.rodata.cst16,"aM",@progbits,16
.Lstatic.141:
	.ascii	"0123456789abcdef"
	.size	.Lstatic.141, 16

	.type	.Lswitch.table.line_filter.answers.AnsweringTake.take.460d80f9416d9dfa,@object
	.section	.rodata..Lswitch.table.line_filter.answers.AnsweringTake.take.460d80f9416d9dfa,"a",@progbits
	.p2align	1, 0x0
.Lswitch.table.line_filter.answers.AnsweringTake.take.460d80f9416d9dfa:
	.short	0
	.short	1
	.short	2
	.short	3
	.short	4
	.short	5
	.short	6
	.short	7
	.short	8
	.short	15
	.short	19
	.short	23
	.short	24
	.short	27
	.short	32
	.short	256
	.short	257
	.short	258
	.short	259
	.short	260
	.short	264
	.short	270
	.short	271
	.short	272
	.short	280
	.short	290
	.short	512
	.short	513
	.short	516
	.short	517
	.short	518
	.short	519
	.short	768
	.short	769
	.short	770
	.short	771
	.short	772
	.short	773
	.short	774
	.short	775
	.short	776
	.short	777
	.short	778
	.short	779
	.short	780
	.short	781
	.short	782
	.short	783
	.short	784
	.short	785
	.short	786
	.short	787
	.short	800
	.short	801
	.short	802
	.short	803
	.short	804
	.short	805
	.short	820
	.short	821
	.short	822
	.short	823
	.short	824
	.short	825
	.short	826
	.short	65534
	.short	65535
	.size	.Lswitch.table.line_filter.answers.AnsweringTake.take.460d80f9416d9dfa, 134

	.ident	"rattle logic=dac8208d650f15bf3e2dc313a14fa4c783a3acf887bdfab66e1714b038d9e11b"
	.section	".note.GNU-stack","",@progbits
