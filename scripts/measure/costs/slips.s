# A function that test_costs.sh puts in the place of CALLED: it calls that, and does more, by one of the parts below.
# What it was given is in %rdi and %rsi, and what came in %rax. Without a size callgrind would not know it.
# begins
	.text
	.type	slipped,@function
slipped:
	pushq	%rdi
	pushq	%rsi
	subq	$8, %rsp
	callq	CALLED@PLT
	addq	$8, %rsp
	popq	%rsi
	popq	%rdi
# copies
	pushq	%rax
	testq	%rax, %rax
	jle	.Lended
	movq	%rax, %rdx
	leaq	room(%rip), %rdi
	callq	memcpy@PLT
.Lended:
	popq	%rax
	.local	room
	.comm	room, 1048576
# goes over it
	movq	%rax, %rcx
.Lagain:
	nop
	decq	%rcx
	jg	.Lagain
# asks twice
	jmp	rattle_alloc@PLT
# writes by another call
	jmp	writev@PLT
# ends
	retq
	.size	slipped, .-slipped
