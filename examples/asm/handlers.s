# Function pointers in a table, and a call through each.
#
#   static int start(int n) { return n + 1; }
#   static int stop(int n) { return n << 4; }
#   int (*const handlers[])(int) = {start, stop};
#   int main(void) { int n = 2; for (int i = 0; i < 2; i++) n = handlers[i](n); return n; }
#
# A function's capability is a sentry: it can be jumped to and nothing else. The table is read only,
# so its capability has no `store`.
# Look at
#   order 1  cjalr unseals c11 and jumps; c1 gets the way back, a sentry too. c10 is 48
	.text
	.file	"handlers.c"
	.p2align	2                               # -- Begin function start
	.type	start,@function
start:                                  # @start
# %bb.0:                                # %entry
	addiw	a0, a0, 1
	cret
.Lfunc_end0:
	.size	start, .Lfunc_end0-start
                                        # -- End function
	.p2align	2                               # -- Begin function stop
	.type	stop,@function
stop:                                   # @stop
# %bb.0:                                # %entry
	slliw	a0, a0, 4
	cret
.Lfunc_end1:
	.size	stop, .Lfunc_end1-stop
                                        # -- End function
	.globl	main                            # -- Begin function main
	.p2align	2
	.type	main,@function
main:                                   # @main
# %bb.0:                                # %entry
	cincoffset	csp, csp, -48
	csc	cra, 32(csp)                    # 16-byte Folded Spill
	csc	cs0, 16(csp)                    # 16-byte Folded Spill
	csc	cs1, 0(csp)                     # 16-byte Folded Spill
	li	a0, 2
	li	s1, 2
.LBB2_3:                                # %entry
                                        # Label of block must be emitted
	auipcc	cs0, %captab_pcrel_hi(handlers)
	clc	cs0, %pcrel_lo(.LBB2_3)(cs0)
.LBB2_1:                                # %for.body
                                        # =>This Inner Loop Header: Depth=1
	clc	ca1, 0(cs0)
	cjalr	ca1
	addi	s1, s1, -1
	cincoffset	cs0, cs0, 16
	bnez	s1, .LBB2_1
# %bb.2:                                # %for.end
	clc	cra, 32(csp)                    # 16-byte Folded Reload
	clc	cs0, 16(csp)                    # 16-byte Folded Reload
	clc	cs1, 0(csp)                     # 16-byte Folded Reload
	cincoffset	csp, csp, 48
	cret
.Lfunc_end2:
	.size	main, .Lfunc_end2-main
                                        # -- End function
	.type	handlers,@object                # @handlers
	.section	.rodata,"a",@progbits
	.globl	handlers
	.p2align	4
handlers:
	.chericap	start
	.chericap	stop
	.size	handlers, 32

	.section	".note.GNU-stack","",@progbits
	.addrsig
	.addrsig_sym start
	.addrsig_sym stop
