# A function that calls itself, with debug information: how many moves a tower of 2 discs takes.
#
#   long moves(long discs) { return discs == 0 ? 0 : moves(discs - 1) + 1 + moves(discs - 1); }
#   long main(void) { return moves(2); }
#
# Sections that are not loaded, as .debug_info, are read over; .loc and .cfi_ lines mean nothing.
# Look at
#   order 1  csp goes down by 48 for each call and comes back to where it was. c10 is 3
	.text
	.attribute	4, 16
	.attribute	5, "rv64i2p0_xcheri0p0"
	.file	"towers.c"
	.file	1 "/src" "towers.c" md5 0x5a1bd2d9a45c0be2bb23c53c4cbb0e5a
	.globl	moves                           # -- Begin function moves
	.p2align	2
	.type	moves,@function
moves:                                  # @moves
.Lfunc_begin0:
	.loc	1 1 0                           # towers.c:1:0
	.cfi_sections .debug_frame
	.cfi_startproc
# %bb.0:                                # %entry
	#DEBUG_VALUE: moves:discs <- $x10
	cincoffset	csp, csp, -48
	.cfi_def_cfa_offset 48
	csc	cra, 32(csp)                    # 16-byte Folded Spill
	csc	cs0, 16(csp)                    # 16-byte Folded Spill
	csc	cs1, 0(csp)                     # 16-byte Folded Spill
	mv	s0, a0
.Ltmp0:
	.loc	1 1 33 prologue_end             # towers.c:1:33
	beqz	a0, .LBB0_2
.Ltmp1:
# %bb.1:                                # %cond.false
	addi	s0, s0, -1
	mv	a0, s0
	ccall	moves
	addi	s1, a0, 1
	mv	a0, s0
	ccall	moves
	add	s0, s1, a0
.LBB0_2:                                # %cond.end
	.loc	1 1 26 is_stmt 0                # towers.c:1:26
	mv	a0, s0
	clc	cra, 32(csp)                    # 16-byte Folded Reload
	clc	cs0, 16(csp)                    # 16-byte Folded Reload
	clc	cs1, 0(csp)                     # 16-byte Folded Reload
	cincoffset	csp, csp, 48
	cret
.Ltmp2:
.Lfunc_end0:
	.size	moves, .Lfunc_end0-moves
	.cfi_endproc
                                        # -- End function
	.globl	main                            # -- Begin function main
	.p2align	2
	.type	main,@function
main:                                   # @main
.Lfunc_begin1:
	.loc	1 2 0 is_stmt 1                 # towers.c:2:0
	.cfi_startproc
# %bb.0:                                # %entry
	.loc	1 2 26 prologue_end             # towers.c:2:26
	li	a0, 2
	ctail	moves
.Ltmp3:
.Lfunc_end1:
	.size	main, .Lfunc_end1-main
	.cfi_endproc
                                        # -- End function
	.section	.debug_abbrev,"",@progbits
	.byte	1                               # Abbreviation Code
	.byte	17                              # DW_TAG_compile_unit
	.byte	1                               # DW_CHILDREN_yes
	.uleb128 624485
	.byte	0                               # EOM(3)
	.section	.debug_info,"",@progbits
.Lcu_begin0:
	.word	.Ldebug_info_end0-.Ldebug_info_start0 # Length of Unit
.Ldebug_info_start0:
	.half	5                               # DWARF version number
	.word	.debug_abbrev                   # Offset Into Abbrev. Section
	.quad	.Lfunc_begin0                   # DW_AT_low_pc
	.word	.Lfunc_end1-.Lfunc_begin0       # DW_AT_high_pc
.Ldebug_info_end0:
	.section	.debug_str,"MS",@progbits,1
.Linfo_string0:
	.asciz	"towers.c"                      # string offset=0
	.ident	"clang version 14.0.0"
	.section	".note.GNU-stack","",@progbits
	.addrsig
	.section	.debug_line,"",@progbits
.Lline_table_start0:
