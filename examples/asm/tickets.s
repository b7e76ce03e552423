# Two harts sell from one stock, each under a spin lock.
#
#   static void *lock;
#   long left = 2, sold[2];
#   void sell(long who) {
#     while (atomic_exchange(&lock, (void *)1)) {}
#     if (left > 0) { left--; sold[who]++; }
#     lock = 0;
#   }
#
# The requests give the program two harts; each begins at `sell` with its number in a0. The lock is
# taken by camoswap.c, the machine's one atomic instruction. Fences do nothing: each step sees all
# that was stored before it.
# Look at
#   order 1  the harts in turn: hart 1 waits at the lock while hart 0 has it. Each sells one, and
#            `left` is 0
#   order 2  hart 1 sells before hart 0 begins: the same
#@ hart entry=sell
#@ hart entry=sell
	.text
	.file	"tickets.c"
	.globl	sell                            # -- Begin function sell
	.p2align	2
	.type	sell,@function
sell:                                   # @sell
# %bb.0:                                # %entry
	clgc	ca1, lock
	cincoffset	ca2, cnull, 1
.LBB0_1:                                # %while.cond
                                        # =>This Inner Loop Header: Depth=1
	camoswap.c.aqrl	ca3, ca2, (ca1)
	bnez	a3, .LBB0_1
# %bb.2:                                # %while.end
	clgc	ca3, left
	cld	a4, 0(ca3)
	blez	a4, .LBB0_4
# %bb.3:                                # %if.then
	addi	a4, a4, -1
	csd	a4, 0(ca3)
	clgc	ca3, sold
	slli	a0, a0, 3
	cincoffset	ca0, ca3, a0
	cld	a4, 0(ca0)
	addi	a4, a4, 1
	csd	a4, 0(ca0)
.LBB0_4:                                # %if.end
	fence	rw, w
	csc	cnull, 0(ca1)
	cret
.Lfunc_end0:
	.size	sell, .Lfunc_end0-sell
                                        # -- End function
	.type	lock,@object                    # @lock
	.local	lock
	.comm	lock,16,16
	.type	left,@object                    # @left
	.section	.sdata,"aw",@progbits
	.globl	left
	.p2align	3
left:
	.quad	2                               # 0x2
	.size	left, 8

	.type	sold,@object                    # @sold
	.section	.sbss,"aw",@nobits
	.globl	sold
	.p2align	3
sold:
	.zero	16
	.size	sold, 16

	.section	".note.GNU-stack","",@progbits
