# A string copied into an array that has no room for its last byte.
#
#   char *copy(char *to, const char *from) { char *p = to; while ((*p++ = *from++)) {} return to; }
#   int main(void) { char name[4]; copy(name, "Rook"); return name[0]; }
#
# `name` is an object on the stack: main narrows csp to its 4 bytes, and hands that to copy. "Rook"
# has 5 bytes with the 0 at its end. After `name` lies the frame's link, which stays as it was.
# Look at
#   order 1  the fifth store traps: cause 8, Length, register 12
	.text
	.file	"greeting.c"
	.globl	copy                            # -- Begin function copy
	.p2align	2
	.type	copy,@function
copy:                                   # @copy
# %bb.0:                                # %entry
	cmove	ca2, ca0
.LBB0_1:                                # %while.cond
                                        # =>This Inner Loop Header: Depth=1
	clbu	a4, 0(ca1)
	cincoffset	ca1, ca1, 1
	cincoffset	ca3, ca2, 1
	csb	a4, 0(ca2)
	cmove	ca2, ca3
	bnez	a4, .LBB0_1
# %bb.2:                                # %while.end
	cret
.Lfunc_end0:
	.size	copy, .Lfunc_end0-copy
                                        # -- End function
	.globl	main                            # -- Begin function main
	.p2align	2
	.type	main,@function
main:                                   # @main
# %bb.0:                                # %entry
	cincoffset	csp, csp, -32
	csc	cra, 16(csp)                    # 16-byte Folded Spill
	cincoffset	ca0, csp, 12
	csetbounds	ca0, ca0, 4
	cllc	ca1, .L.str
	csetbounds	ca1, ca1, 5
	ccall	copy
	clbu	a0, 12(csp)
	clc	cra, 16(csp)                    # 16-byte Folded Reload
	cincoffset	csp, csp, 32
	cret
.Lfunc_end1:
	.size	main, .Lfunc_end1-main
                                        # -- End function
	.type	.L.str,@object                  # @.str
	.section	.rodata.str1.1,"aMS",@progbits,1
.L.str:
	.asciz	"Rook"
	.size	.L.str, 5

	.section	".note.GNU-stack","",@progbits
