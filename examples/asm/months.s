# A jump table: what a compiler makes of `switch`.
#
#   int days(int month) {
#     switch (month) {
#     case 4: case 6: case 9: case 11: return 30;
#     case 2: return 28;
#     default: return 31;
#     }
#   }
#   int main(void) { return days(2) + days(3) + days(11) + days(40); }
#
# The table has distances from its own beginning, 32 bits each. It is read and jumped to through
# PCC, which therefore reaches code and RAM. The distances are negative: code lies below RAM.
# Look at
#   order 1  c10 is 120. `clw` sign-extends an entry, `cincoffset` adds it, `cjr` goes there
	.text
	.file	"months.c"
	.globl	days                            # -- Begin function days
	.p2align	2
	.type	days,@function
days:                                   # @days
# %bb.0:                                # %entry
	addiw	a0, a0, -2
	li	a1, 9
	bltu	a1, a0, .LBB0_4
# %bb.1:                                # %entry
	slli	a0, a0, 2
.LBB0_5:                                # %entry
                                        # Label of block must be emitted
	auipcc	ca1, %pcrel_hi(.LJTI0_0)
	cincoffset	ca1, ca1, %pcrel_lo(.LBB0_5)
	cincoffset	ca0, ca1, a0
	clw	a0, 0(ca0)
	cincoffset	ca0, ca1, a0
	cjr	ca0
.LBB0_2:                                # %sw.bb
	li	a0, 30
	cret
.LBB0_3:                                # %sw.bb1
	li	a0, 28
	cret
.LBB0_4:                                # %sw.default
	li	a0, 31
	cret
.Lfunc_end0:
	.size	days, .Lfunc_end0-days
	.section	.rodata,"a",@progbits
	.p2align	2
.LJTI0_0:
	.word	.LBB0_3-.LJTI0_0
	.word	.LBB0_4-.LJTI0_0
	.word	.LBB0_2-.LJTI0_0
	.word	.LBB0_4-.LJTI0_0
	.word	.LBB0_2-.LJTI0_0
	.word	.LBB0_4-.LJTI0_0
	.word	.LBB0_4-.LJTI0_0
	.word	.LBB0_2-.LJTI0_0
	.word	.LBB0_4-.LJTI0_0
	.word	.LBB0_2-.LJTI0_0
                                        # -- End function
	.text
	.globl	main                            # -- Begin function main
	.p2align	2
	.type	main,@function
main:                                   # @main
# %bb.0:                                # %entry
	cincoffset	csp, csp, -32
	csc	cra, 16(csp)                    # 16-byte Folded Spill
	csc	cs0, 0(csp)                     # 16-byte Folded Spill
	li	a0, 2
	ccall	days
	mv	s0, a0
	li	a0, 3
	ccall	days
	addw	s0, s0, a0
	li	a0, 11
	ccall	days
	addw	s0, s0, a0
	li	a0, 40
	ccall	days
	addw	a0, a0, s0
	clc	cra, 16(csp)                    # 16-byte Folded Reload
	clc	cs0, 0(csp)                     # 16-byte Folded Reload
	cincoffset	csp, csp, 32
	cret
.Lfunc_end1:
	.size	main, .Lfunc_end1-main
                                        # -- End function
	.section	".note.GNU-stack","",@progbits
