# Requests: two harts that are given just what they need, in registers.
#
# Hart 0 has a capability of `box` and the numbers 7 and 10; hart 1 has one of the second half of
# `box`, for reading alone. Neither has a stack or an exit: each ends with ecall. No instruction
# asks for data by a symbol, so PCC reaches the code and nothing of RAM, as the listing shows.
# Look at
#   order 1  hart 0 writes 7, 8 and 9 and raises the flag after them; hart 1 waits for it and reads
#            9. Then its store traps: cause 5, Store, register 10
#@ ram 4096
#@ hart entry=giver stack=0 exit=no ca0=box a1=7 a2=10
#@ hart entry=taker stack=0 exit=no ca0=cap:0x80000010:16:0x80000010:load
	.text
giver:
	cmove	ca3, ca0
1:	sd	a1, 0(ca3)
	cincoffset ca3, ca3, 8
	addi	a1, a1, 1
	blt	a1, a2, 1b
	li	a4, 1
	sd	a4, 24(ca0)
	ecall
taker:
	ld	a1, 8(ca0)
	beqz	a1, taker
	ld	a2, (ca0)
	sd	zero, (ca0)
	ecall
	.bss
	.p2align 4
	.globl	box
box:	.space	32
	.size	box, 32
