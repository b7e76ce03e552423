# A loop that goes one step too far: the classic `<=`.
#
#   int scores[4] = {90, 72, 85, 61};
#   int total(const int *p, int n) { int s = 0; for (int i = 0; i <= n; i++) s += p[i]; return s; }
#   int main(void) { return total(scores, 4) >> 2; }
#
# Elsewhere the fifth load reads what comes after the array, here `bonus`, and nobody is told.
# Look at
#   order 1  the fifth load traps: cause 8, Length, register 13: 4 bytes at 0x80000020 are not in
#            the 16 bytes of `scores`. With the map the explanation names the line of this file
	.text
	.file	"scores.c"
	.globl	total                           # -- Begin function total
	.p2align	2
	.type	total,@function
total:                                  # @total
# %bb.0:                                # %entry
	cmove	ca2, ca0
	mv	a0, zero
	mv	a4, zero
.LBB0_1:                                # %for.body
                                        # =>This Inner Loop Header: Depth=1
	slli	a3, a4, 2
	cincoffset	ca3, ca2, a3
	clw	a3, 0(ca3)
	addw	a0, a3, a0
	addi	a4, a4, 1
	bge	a1, a4, .LBB0_1
# %bb.2:                                # %for.end
	cret
.Lfunc_end0:
	.size	total, .Lfunc_end0-total
                                        # -- End function
	.globl	main                            # -- Begin function main
	.p2align	2
	.type	main,@function
main:                                   # @main
# %bb.0:                                # %entry
	cincoffset	csp, csp, -16
	csc	cra, 0(csp)                     # 16-byte Folded Spill
	clgc	ca0, scores
	li	a1, 4
	ccall	total
	sraiw	a0, a0, 2
	clc	cra, 0(csp)                     # 16-byte Folded Reload
	cincoffset	csp, csp, 16
	cret
.Lfunc_end1:
	.size	main, .Lfunc_end1-main
                                        # -- End function
	.type	scores,@object                  # @scores
	.data
	.globl	scores
	.p2align	2
scores:
	.word	90                              # 0x5a
	.word	72                              # 0x48
	.word	85                              # 0x55
	.word	61                              # 0x3d
	.size	scores, 16

	.type	bonus,@object                   # @bonus
	.globl	bonus
	.p2align	2
bonus:
	.word	1000                            # 0x3e8
	.size	bonus, 4

	.section	".note.GNU-stack","",@progbits
