# A linked list: pointers in memory are capabilities, and null ends it.
#
#   struct link { struct link *next; long weight; };
#   static struct link c = {0, 700}, b = {&c, 50};
#   struct link a = {&b, 1};
#   long weigh(struct link *p) { long w = 0; while (p) { w += p->weight; p = p->next; } return w; }
#   int main(void) { return weigh(&a); }
#
# `.chericap b` puts a capability of b's 32 bytes into a's first granule, with its tag. Each clc
# takes the next one out, and none of them reaches the other links.
# Look at
#   order 1  c10 is 751. The last clc loads the granule of c.next, which is null: no tag, address 0
	.text
	.file	"chain.c"
	.globl	weigh                           # -- Begin function weigh
	.p2align	2
	.type	weigh,@function
weigh:                                  # @weigh
	.cfi_startproc
# %bb.0:                                # %entry
	mv	a1, zero
	beqz	a0, .LBB0_2
.LBB0_1:                                # %while.body
                                        # =>This Inner Loop Header: Depth=1
	cld	a2, 16(ca0)
	clc	ca0, 0(ca0)
	add	a1, a1, a2
	bnez	a0, .LBB0_1
.LBB0_2:                                # %while.end
	mv	a0, a1
	cret
.Lfunc_end0:
	.size	weigh, .Lfunc_end0-weigh
	.cfi_endproc
                                        # -- End function
	.globl	main                            # -- Begin function main
	.p2align	2
	.type	main,@function
main:                                   # @main
	.cfi_startproc
# %bb.0:                                # %entry
.LBB1_1:                                # %entry
                                        # Label of block must be emitted
	auipcc	ca0, %captab_pcrel_hi(a)
	clc	ca0, %pcrel_lo(.LBB1_1)(ca0)
	ctail	weigh
.Lfunc_end1:
	.size	main, .Lfunc_end1-main
	.cfi_endproc
                                        # -- End function
	.type	c,@object                       # @c
	.data
	.p2align	4
c:
	.chericap	0
	.quad	700                             # 0x2bc
	.zero	8
	.size	c, 32

	.type	b,@object                       # @b
	.p2align	4
b:
	.chericap	c
	.quad	50                              # 0x32
	.zero	8
	.size	b, 32

	.type	a,@object                       # @a
	.globl	a
	.p2align	4
a:
	.chericap	b
	.quad	1                               # 0x1
	.zero	8
	.size	a, 32

	.ident	"clang version 14.0.0"
	.section	".note.GNU-stack","",@progbits
	.addrsig
