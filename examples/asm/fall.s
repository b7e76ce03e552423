# A function that forgets its cret: code that runs on past its end.
#
# After the last function come two instructions that no label names: the guard, which always traps,
# and the exit, at which a hart ends when its first function returns. `double` has no cret, and
# comes to the guard; without it the hart would halt at the exit as if all were well.
# Look at
#   order 1  the jump at the guard traps: cause 1, Tag, register 0. The explanation calls its place
#            `- guard`
	.text
	.globl	main
main:
	cincoffset csp, csp, -16
	sc	cra, 0(csp)
	li	a0, 21
	ccall	double
	lc	cra, 0(csp)
	cincoffset csp, csp, 16
	cret
double:
	add	a0, a0, a0
