# A sealed handle, by hand: who has it can hand it back, and do nothing else with it.
#
# Hart 0 owns the account and has in cs2 the right to seal and unseal with type 9, which the request
# gives. It seals a capability of `account` and puts it into the first half of `window`. Hart 1, the
# client, waits for the handle, gives it back in the second half, and then tries to look inside.
# Look at
#   order 1  hart 1's load through the handle traps: cause 2, Seal, register 11. Hart 0 unseals what
#            comes back and adds 25 to the account
#@ hart entry=owner cs2=cap:9:1:9:seal+unseal
#@ hart entry=client stack=0
	.text
	.globl	owner
owner:
	clgc	ca0, account
	cseal	ca1, ca0, cs2           # the handle
	clgc	ca2, window
	csc	ca1, 0(ca2)
1:	clc	ca3, 16(ca2)            # until the client gives it back
	cgettag	a4, ca3
	beqz	a4, 1b
	cunseal	ca5, ca3, cs2
	ld	a6, 0(ca5)
	addi	a6, a6, 25
	sd	a6, 0(ca5)
	cret

	.globl	client
client:
	clgc	ca2, window
1:	clc	ca1, 0(ca2)
	cgettag	a4, ca1
	beqz	a4, 1b
	cgettype	a5, ca1         # 9: what it is may be seen
	csc	ca1, 16(ca2)
	ld	a6, 0(ca1)              # what it reaches may not
	cret

	.data
	.p2align 3
account:
	.dword	100
	.size	account, 8
	.bss
	.p2align 4
window:	.zero	32
	.size	window, 32
