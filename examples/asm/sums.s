# A function with a frame, a global and a call: the sum of an array.
#
#   int table[5] = {3, 1, 4, 1, 5};
#   int total;
#   int sum(const int *p, long n) { int s = 0; for (; n > 0; n--) s += *p++; return s; }
#   int main(void) { total = sum(table, 5); return total; }
#
# main makes a frame of 16 bytes below csp and keeps its link there. It gets at its globals through
# the capability table: auipcc and clc load a capability that reaches `table` alone, 20 bytes.
# Look at
#   order 1  c12 in sum goes from 0x80000020 to 0x80000034, and the last load is 4 bytes before the
#            end of `table`. The sum in c10 is 14, and so is `total`
	.text
	.file	"sums.c"
	.globl	sum                             # -- Begin function sum
	.p2align	2
	.type	sum,@function
sum:                                    # @sum
# %bb.0:                                # %entry
	blez	a1, .LBB0_3
# %bb.1:                                # %for.body.preheader
	cmove	ca2, ca0
	mv	a0, zero
.LBB0_2:                                # %for.body
                                        # =>This Inner Loop Header: Depth=1
	clw	a3, 0(ca2)
	addw	a0, a3, a0
	addi	a1, a1, -1
	cincoffset	ca2, ca2, 4
	bnez	a1, .LBB0_2
	j	.LBB0_4
.LBB0_3:
	mv	a0, zero
.LBB0_4:                                # %for.end
	cret
.Lfunc_end0:
	.size	sum, .Lfunc_end0-sum
                                        # -- End function
	.globl	main                            # -- Begin function main
	.p2align	2
	.type	main,@function
main:                                   # @main
# %bb.0:                                # %entry
	cincoffset	csp, csp, -16
	csc	cra, 0(csp)                     # 16-byte Folded Spill
.LBB1_1:                                # %entry
                                        # Label of block must be emitted
	auipcc	ca0, %captab_pcrel_hi(table)
	clc	ca0, %pcrel_lo(.LBB1_1)(ca0)
	li	a1, 5
	ccall	sum
.LBB1_2:                                # %entry
                                        # Label of block must be emitted
	auipcc	ca1, %captab_pcrel_hi(total)
	clc	ca1, %pcrel_lo(.LBB1_2)(ca1)
	csw	a0, 0(ca1)
	clc	cra, 0(csp)                     # 16-byte Folded Reload
	cincoffset	csp, csp, 16
	cret
.Lfunc_end1:
	.size	main, .Lfunc_end1-main
                                        # -- End function
	.type	table,@object                   # @table
	.data
	.globl	table
	.p2align	2
table:
	.word	3                               # 0x3
	.word	1                               # 0x1
	.word	4                               # 0x4
	.word	1                               # 0x1
	.word	5                               # 0x5
	.size	table, 20

	.type	total,@object                   # @total
	.bss
	.globl	total
	.p2align	2
total:
	.word	0                               # 0x0
	.size	total, 4

	.section	".note.GNU-stack","",@progbits
	.addrsig
	.addrsig_sym table
	.addrsig_sym total
