# The sum of the words of an array, by a function with its own frame, as a compiler prints it.
	.text
	.globl	main
	.p2align	2
	.type	main,@function
main:
	cincoffset	csp, csp, -16
	csc	cra, 0(csp)
.LBB0_1:
	auipcc	ca0, %captab_pcrel_hi(numbers)
	clc	ca0, %pcrel_lo(.LBB0_1)(ca0)
	li	a1, 4
	ccall	sum
	clc	cra, 0(csp)
	cincoffset	csp, csp, 16
	cret
.Lend_of_main:
	.size	main, .Lend_of_main-main

	.globl	sum
	.p2align	2
	.type	sum,@function
sum:
	li	a2, 0
	beqz	a1, .LBB1_2
.LBB1_1:
	clw	a3, 0(ca0)
	cincoffset	ca0, ca0, 4
	addi	a1, a1, -1
	addw	a2, a2, a3
	bnez	a1, .LBB1_1
.LBB1_2:
	mv	a0, a2
	cret
.Lend_of_sum:
	.size	sum, .Lend_of_sum-sum

	.type	numbers,@object
	.data
	.globl	numbers
	.p2align	2
numbers:
	.word	3
	.word	5
	.word	7
	.word	11
	.size	numbers, 16
