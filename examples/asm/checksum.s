// Expressions, strings, local labels and constants, as people write them.
//
// A Fletcher checksum of a text: two sums of its bytes, each modulo 255. `length` is a difference
// of places, `mask` an expression, 'a' a number. `li` takes any constant of 64 bits, here in eight
// instructions, and `table` has numbers that the assembler computes.
// Look at
//   order 1  c10 is 0xd11, the sums of "cheri" (13 and 17); c11 is 0x123456789abcdef; c12 is 60,
//            the sum of `table`
	.equ	modulus, 0xff
mask = (1 << 16) - 1
	.section .rodata
text:	.ascii	"che", "ri"
	.set	length, . - text
	.balign	2
table:	.half	1 + 2 << 3, 6 & 3 + 1, 'a' - 57

	.text
	.globl	main
main:
	cllc	ca3, text
	li	a0, 0			/* the first sum */
	li	a1, 0			/* the second sum */
	li	a2, length
1:	lbu	a4, (ca3)
	cincoffset ca3, ca3, 1
	add	a0, a0, a4
	li	a5, modulus
	bltu	a0, a5, 2f
	sub	a0, a0, a5
2:	add	a1, a1, a0
	bltu	a1, a5, 3f
	sub	a1, a1, a5
3:	addi	a2, a2, -1
	bnez	a2, 1b
	slli	a0, a0, 8
	or	a0, a0, a1
	li	a5, mask
	and	a0, a0, a5
	li	a1, 0x123456789abcdef
	cllc	ca3, table
	lh	a2, 0(ca3)
	lh	a4, 2(ca3)
	add	a2, a2, a4
	lh	a4, 4(ca3)
	add	a2, a2, a4; ret
