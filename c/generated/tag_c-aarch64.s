/*
 * The crate tag_c, proved and compiled, for every 64-bit ARM processor.
 * Made by: c/library.sh generate. Don't edit it.
 *
 * Proved: logic=proved functions=193 axioms=3 target=aarch64-unknown-linux-gnu sum=dac8208d650f15bf native=nat,char,string logic-built=trusted libraries-built=trusted statements=trusted incremental=trusted
 * With: logic dac8208d650f15bf
 * Of the crates: sums refusals tag_layout tag_model step_ledger tag_core tag_bell tag_search tag_pool tag_cache tag_c
 * Sources: 30dc1fb551845b2df9dfcd0c1215f8a0df6d068ff8d3d4707241ad8564711b21
 * Lines below: 47c8cf414d06587e944f4dcdef110e89530fc38c191d35819afe268756bffc0e
 *
 * "Sources" is the SHA-256 sum of what decides these lines and what the proof says of them: src/ and specs/ of the crates and their
 * lines of crates.txt. "Lines below" is that of all lines below this comment.
 */
	.section .text.tag_pool.pool.Pool.busy_i64_core.clone.U64Clone,"ax",@progbits
	.p2align 2
	.type tag_pool.pool.Pool.busy_i64_core.clone.U64Clone,@function
tag_pool.pool.Pool.busy_i64_core.clone.U64Clone:
	stp x29, x30, [sp, #-48]!
	stp x20, x19, [sp, #32]
	mov x19, x1
	mov x20, x0
	str x21, [sp, #16]
	mov x29, sp
	cbz x2, .LBB0_4
	subs x21, x2, #1
	b.eq .LBB0_3
	lsl x8, x2, #3
	mov x0, x19
	mov w1, wzr
	sub x2, x8, #8
	bl memset
.LBB0_3:
	str xzr, [x19, x21, lsl #3]
.LBB0_4:
	ldp w11, w10, [x20, #64]
	mov w9, #1
	lsl w12, w9, w10
	add w8, w11, w12
	sub w8, w8, #1
	lsr w13, w8, w10
	cbz w13, .LBB0_12
	mov x14, xzr
	mov w8, wzr
	b .LBB0_7
.LBB0_6:
	fmov d0, x17
	add x14, x14, #1
	cmp x14, x13
	cnt v0.8b, v0.8b
	addv b0, v0.8b
	fmov w15, s0
	add w8, w8, w15
	b.eq .LBB0_13
.LBB0_7:
	ldr x16, [x20]
	lsl x17, x14, #7
	lsl w15, w14, w10
	add x16, x16, x17
	subs w18, w11, w15
	add x16, x16, #576
	cmp w12, w18
	ldar x0, [x16]
	csel w16, w12, w18, lo
	ldr x18, [x20]
	neg w1, w16
	cmp w11, w15
	add x17, x18, x17
	lsl x18, x0, x1
	add x17, x17, #640
	ldar x17, [x17]
	lsr x18, x18, x1
	bic x17, x18, x17
	b.eq .LBB0_6
	mov x18, xzr
	b .LBB0_10
.LBB0_9:
	subs x16, x16, #1
	add x18, x18, #1
	add w15, w15, #1
	b.eq .LBB0_6
.LBB0_10:
	lsr x0, x17, x18
	tbz w0, #0, .LBB0_9
	lsr w0, w15, #3
	mov w1, #1
	lsl x1, x1, x15
	and x0, x0, #0x1ffffff8
	ldr x2, [x19, x0]
	orr x1, x2, x1
	str x1, [x19, x0]
	b .LBB0_9
.LBB0_12:
	mov w8, wzr
.LBB0_13:
	ldp w11, w10, [x20, #176]
	lsl w9, w9, w10
	add w12, w11, w9
	sub w12, w12, #1
	lsr w12, w12, w10
	cbz w12, .LBB0_21
	ldr w14, [x20, #224]
	mov x13, xzr
	mov w15, wzr
	b .LBB0_16
.LBB0_15:
	fmov d0, x17
	add x13, x13, #1
	cmp x13, x12
	cnt v0.8b, v0.8b
	addv b0, v0.8b
	fmov w16, s0
	add w15, w15, w16
	b.eq .LBB0_22
.LBB0_16:
	ldr x16, [x20, #112]
	lsl x17, x13, #7
	lsl w0, w13, w10
	add x16, x16, x17
	subs w18, w11, w0
	add x16, x16, #576
	cmp w9, w18
	ldar x1, [x16]
	csel w16, w9, w18, lo
	ldr x18, [x20, #112]
	neg w2, w16
	cmp w11, w0
	add x17, x18, x17
	lsl x18, x1, x2
	add x17, x17, #640
	ldar x17, [x17]
	lsr x18, x18, x2
	bic x17, x18, x17
	b.eq .LBB0_15
	mov x18, xzr
	add w0, w14, w0
	b .LBB0_19
.LBB0_18:
	subs x16, x16, #1
	add x18, x18, #1
	add w0, w0, #1
	b.eq .LBB0_15
.LBB0_19:
	lsr x1, x17, x18
	tbz w1, #0, .LBB0_18
	lsr w1, w0, #3
	mov w2, #1
	lsl x2, x2, x0
	and x1, x1, #0x1ffffff8
	ldr x3, [x19, x1]
	orr x2, x3, x2
	str x2, [x19, x1]
	b .LBB0_18
.LBB0_21:
	mov w15, wzr
.LBB0_22:
	ldp x20, x19, [sp, #32]
	add w0, w15, w8
	ldr x21, [sp, #16]
	ldp x29, x30, [sp], #48
	ret
.Lfunc_end0:
	.size tag_pool.pool.Pool.busy_i64_core.clone.U64Clone, .Lfunc_end0-tag_pool.pool.Pool.busy_i64_core.clone.U64Clone
	.section .text.tag_c.looks.CachedMemberLookCalls.busy,"ax",@progbits
	.p2align 2
	.type tag_c.looks.CachedMemberLookCalls.busy,@function
tag_c.looks.CachedMemberLookCalls.busy:
	ldr w8, [x0, #256]
	add x8, x8, #63
	cmp x2, x8, lsr #6
	b.hs .LBB1_2
	mov w0, #-17
	ret
.LBB1_2:
	stp x29, x30, [sp, #-16]!
	add x0, x0, #8
	mov x29, sp
	bl tag_pool.pool.Pool.busy_i64_core.clone.U64Clone
	mov w8, #10240
	cmp w0, w8
	csel w0, w0, w8, lo
	ldp x29, x30, [sp], #16
	ret
.Lfunc_end1:
	.size tag_c.looks.CachedMemberLookCalls.busy, .Lfunc_end1-tag_c.looks.CachedMemberLookCalls.busy
	.section .text.tag_c.telling.MemberTellingCalls.tell,"ax",@progbits
	.p2align 2
	.type tag_c.telling.MemberTellingCalls.tell,@function
tag_c.telling.MemberTellingCalls.tell:
	stp x29, x30, [sp, #-32]!
	tst w1, #0x1
	mov w8, #112
	str x19, [sp, #16]
	csel x8, xzr, x8, ne
	mov x19, x3
	mov x29, sp
	add x0, x0, x8
	ldr x8, [x0, #8]!
	add x8, x8, #8
	ldar x8, [x8]
	cbz x8, .LBB2_3
	mov w1, w2
	mov x2, x8
	bl tag_bell.telling.tell_each_i64
	orr x8, x0, x1
	cbz x8, .LBB2_4
	stp x0, x1, [x19]
	mov w0, #1073741824
	ldr x19, [sp, #16]
	ldp x29, x30, [sp], #32
	ret
.LBB2_3:
	mov x1, xzr
	mov x0, xzr
.LBB2_4:
	mov w0, wzr
	ldr x19, [sp, #16]
	ldp x29, x30, [sp], #32
	ret
.Lfunc_end2:
	.size tag_c.telling.MemberTellingCalls.tell, .Lfunc_end2-tag_c.telling.MemberTellingCalls.tell
	.section .text.tag_bell.telling.tell_each_i64,"ax",@progbits
	.p2align 2
	.type tag_bell.telling.tell_each_i64,@function
tag_bell.telling.tell_each_i64:
	sub sp, sp, #48
	clz x12, x2
	mov w13, #64
	mov x11, xzr
	mov x8, xzr
	mov x10, xzr
	mov x9, xzr
	sub x12, x13, x12
	stp x29, x30, [sp, #32]
	add x29, sp, #32
	stp xzr, xzr, [sp, #8]
	str xzr, [sp, #24]
	b .LBB3_3
.LBB3_1:
	mov w15, #1
	tst w15, w14, lsr #2
	csel x13, x13, xzr, eq
	orr x8, x13, x8
.LBB3_2:
	add x11, x11, #1
	cmp x12, x11
	b.eq .LBB3_9
.LBB3_3:
	mov w13, #1
	lsl x13, x13, x11
	tst x13, x2
	b.eq .LBB3_2
	ldr x14, [x0]
	add x14, x14, x11, lsl #3
	add x14, x14, #64
	ldar x14, [x14]
	and x15, x14, #0x3
	and w14, w14, #0xff
	cmp x15, #2
	b.eq .LBB3_1
	cmp x15, #1
	b.ne .LBB3_2
	tbnz w14, #2, .LBB3_8
	orr x9, x9, x13
	b .LBB3_2
.LBB3_8:
	orr x10, x10, x13
	b .LBB3_2
.LBB3_9:
	stp x9, x10, [sp, #8]
	str x8, [sp, #24]
	cbz x10, .LBB3_11
.LBB3_10:
	add x2, sp, #8
	bl tag_bell.telling.tell_listed_i64
	ldp x29, x30, [sp, #32]
	add sp, sp, #48
	ret
.LBB3_11:
	cbz x9, .LBB3_13
	fmov d0, x8
	ldr w8, [x0, #64]
	cnt v0.8b, v0.8b
	addv b0, v0.8b
	fmov w9, s0
	cmp w8, w9
	b.hi .LBB3_10
.LBB3_13:
	mov x1, xzr
	mov x0, xzr
	ldp x29, x30, [sp, #32]
	add sp, sp, #48
	ret
.Lfunc_end3:
	.size tag_bell.telling.tell_each_i64, .Lfunc_end3-tag_bell.telling.tell_each_i64
	.section .text.tag_bell.telling.tell_listed_i64,"ax",@progbits
	.p2align 2
	.type tag_bell.telling.tell_listed_i64,@function
tag_bell.telling.tell_listed_i64:
	str x30, [sp, #-16]!
	sub sp, sp, #544
	movi v0.2d, #0000000000000000
	ldp x8, x12, [x2]
	ldr x10, [x2, #16]
	add x11, sp, #8
	stp xzr, xzr, [sp, #8]
	add x9, x11, #24
	orr x8, x12, x8
	str x10, [sp, #24]
	stp q0, q0, [x9, #240]
	stp q0, q0, [x9, #272]
	stp q0, q0, [x9, #304]
	stp q0, q0, [x9, #336]
	stp q0, q0, [x9, #368]
	stp q0, q0, [x9, #400]
	stp q0, q0, [x9, #432]
	stp q0, q0, [x9, #464]
	str q0, [x9, #496]
	stp q0, q0, [sp, #32]
	stp q0, q0, [sp, #64]
	stp q0, q0, [sp, #96]
	stur q0, [sp, #128]
	stur q0, [x11, #136]
	stur q0, [x11, #152]
	stur q0, [x11, #168]
	stur q0, [x11, #184]
	stur q0, [x11, #200]
	stur q0, [x11, #216]
	stur q0, [x11, #232]
	stur q0, [x11, #248]
	cbz x8, .LBB4_13
	clz x11, x8
	mov w12, #64
	mov x10, xzr
	sub x11, x12, x11
	b .LBB4_5
.LBB4_2:
	ldr x14, [sp, #16]
	orr x12, x14, x12
	str x12, [sp, #16]
.LBB4_3:
	add x12, sp, #8
	lsr x13, x13, #3
	add x12, x12, x10, lsl #3
	str x13, [x12, #24]
.LBB4_4:
	add x10, x10, #1
	cmp x11, x10
	b.eq .LBB4_12
.LBB4_5:
	mov w12, #1
	lsl x12, x12, x10
	tst x12, x8
	b.eq .LBB4_4
	ldr x13, [x0]
	add x13, x13, x10, lsl #3
	add x13, x13, #64
	ldar x13, [x13]
	and x15, x13, #0x3
	and w14, w13, #0xff
	cmp x15, #2
	b.eq .LBB4_10
	cmp x15, #1
	b.ne .LBB4_4
	tbnz w14, #2, .LBB4_2
	ldr x14, [sp, #8]
	orr x12, x14, x12
	str x12, [sp, #8]
	b .LBB4_3
.LBB4_10:
	tbnz w14, #2, .LBB4_4
	ldr x13, [sp, #24]
	orr x12, x13, x12
	str x12, [sp, #24]
	b .LBB4_4
.LBB4_12:
	ldr x10, [sp, #24]
.LBB4_13:
	fmov d0, x10
	ldr w8, [x0, #64]
	cmp w1, #1
	csinc w10, w1, wzr, hi
	cnt v0.8b, v0.8b
	addv b0, v0.8b
	fmov w11, s0
	subs w12, w8, w11
	mov x8, xzr
	b.ls .LBB4_26
	ldr x11, [sp, #8]
	cbz x11, .LBB4_26
	cmp w12, w10
	mov x8, xzr
	csel w12, w12, w10, lo
.LBB4_16:
	rbit x13, x11
	clz x15, x11
	mov w16, #64
	mov x14, xzr
	sub x15, x16, x15
	clz x13, x13
	b .LBB4_18
.LBB4_17:
	add x14, x14, #1
	cmp x15, x14
	b.eq .LBB4_20
.LBB4_18:
	lsr x16, x11, x14
	tbz w16, #0, .LBB4_17
	ldr x16, [x9, x14, lsl #3]
	ldr x17, [x9, x13, lsl #3]
	cmp x16, x17
	mov w16, w14
	csel x13, x13, x16, hs
	b .LBB4_17
.LBB4_20:
	lsl x16, x13, #3
	mov w14, #1
	ldr x17, [x0]
	lsl x13, x14, x13
	mov w18, #2
	ldr x15, [x9, x16]
	add x16, x17, x16
	bic x11, x11, x13
	add x16, x16, #64
	bfi x14, x15, #3, #61
	orr x15, x18, x15, lsl #3
.LBB4_21:
	ldaxr x17, [x16]
	cmp x17, x14
	b.ne .LBB4_25
	stlxr w17, x15, [x16]
	cbnz w17, .LBB4_21
	mov w14, #1
	cmp w14, #0
	csel x13, x13, xzr, ne
	orr x8, x13, x8
	cbz x11, .LBB4_26
.LBB4_24:
	sub w12, w12, w14
	cbnz w12, .LBB4_16
	b .LBB4_26
.LBB4_25:
	mov w14, wzr
	clrex
	cmp w14, #0
	csel x13, x13, xzr, ne
	orr x8, x13, x8
	cbnz x11, .LBB4_24
.LBB4_26:
	ldr x11, [sp, #16]
	cbz x11, .LBB4_38
	mov x1, xzr
.LBB4_28:
	rbit x13, x11
	clz x14, x11
	mov w15, #64
	mov x12, xzr
	sub x14, x15, x14
	clz x13, x13
	b .LBB4_30
.LBB4_29:
	add x12, x12, #1
	cmp x14, x12
	b.eq .LBB4_32
.LBB4_30:
	lsr x15, x11, x12
	tbz w15, #0, .LBB4_29
	ldr x15, [x9, x12, lsl #3]
	ldr x16, [x9, x13, lsl #3]
	cmp x15, x16
	mov w15, w12
	csel x13, x13, x15, hs
	b .LBB4_29
.LBB4_32:
	lsl x15, x13, #3
	mov w12, #1
	ldr x16, [x0]
	lsl x12, x12, x13
	mov w13, #5
	mov w17, #6
	ldr x14, [x9, x15]
	add x15, x16, x15
	bic x11, x11, x12
	add x15, x15, #64
	bfi x13, x14, #3, #61
	orr x14, x17, x14, lsl #3
.LBB4_33:
	ldaxr x16, [x15]
	cmp x16, x13
	b.ne .LBB4_37
	stlxr w16, x14, [x15]
	cbnz w16, .LBB4_33
	mov w13, #1
	cmp w13, #0
	csel x12, x12, xzr, ne
	orr x1, x12, x1
	cbz x11, .LBB4_39
.LBB4_36:
	sub w10, w10, w13
	cbnz w10, .LBB4_28
	b .LBB4_39
.LBB4_37:
	mov w13, wzr
	clrex
	cmp w13, #0
	csel x12, x12, xzr, ne
	orr x1, x12, x1
	cbnz x11, .LBB4_36
	b .LBB4_39
.LBB4_38:
	mov x1, xzr
.LBB4_39:
	mov x0, x8
	add sp, sp, #544
	ldr x30, [sp], #16
	ret
.Lfunc_end4:
	.size tag_bell.telling.tell_listed_i64, .Lfunc_end4-tag_bell.telling.tell_listed_i64
	.section .text.tag_c.telling.CachedMemberTellingCalls.tell,"ax",@progbits
	.p2align 2
	.type tag_c.telling.CachedMemberTellingCalls.tell,@function
tag_c.telling.CachedMemberTellingCalls.tell:
	stp x29, x30, [sp, #-48]!
	stp x20, x19, [sp, #32]
	mov x20, x0
	mov x19, x3
	ldr x9, [x20], #8
	stp x22, x21, [sp, #16]
	mov x29, sp
	tbz w1, #0, .LBB5_3
	ldur x8, [x9, #8]
	add x8, x8, #8
	ldar x8, [x8]
	cbz x8, .LBB5_5
	mov x22, x0
	add x0, x9, #8
	mov w1, w2
	mov x2, x8
	bl tag_bell.telling.tell_each_i64
	mov x21, x0
	mov x0, x22
	mov x22, x1
	b .LBB5_6
.LBB5_3:
	ldr x8, [x9, #120]
	add x8, x8, #8
	ldar x8, [x8]
	cbz x8, .LBB5_10
	add x1, x9, #8
	mov x0, x20
	bl tag_cache.cache.Cache.give_back_and_tell_i64_core.clone.U64Clone
	mov x21, x0
	mov x22, x1
	orr x8, x1, x0
	cbnz x8, .LBB5_9
	b .LBB5_11
.LBB5_5:
	mov x21, xzr
	mov x22, xzr
.LBB5_6:
	ldr x8, [x0]
	ldr x9, [x8, #120]
	add x9, x9, #8
	ldar x9, [x9]
	cbz x9, .LBB5_8
	add x1, x8, #8
	mov x0, x20
	mov w2, wzr
	bl tag_cache.cache.Cache.give_back_and_tell_i64_core.clone.U64Clone
	orr x21, x0, x21
	orr x22, x1, x22
.LBB5_8:
	orr x8, x22, x21
	cbz x8, .LBB5_11
.LBB5_9:
	mov w0, #1073741824
	stp x21, x22, [x19]
	ldp x20, x19, [sp, #32]
	ldp x22, x21, [sp, #16]
	ldp x29, x30, [sp], #48
	ret
.LBB5_10:
	mov x21, xzr
	mov x22, xzr
.LBB5_11:
	mov w0, wzr
	ldp x20, x19, [sp, #32]
	ldp x22, x21, [sp, #16]
	ldp x29, x30, [sp], #48
	ret
.Lfunc_end5:
	.size tag_c.telling.CachedMemberTellingCalls.tell, .Lfunc_end5-tag_c.telling.CachedMemberTellingCalls.tell
	.section .text.tag_cache.cache.Cache.give_back_and_tell_i64_core.clone.U64Clone,"ax",@progbits
	.p2align 2
	.type tag_cache.cache.Cache.give_back_and_tell_i64_core.clone.U64Clone,@function
tag_cache.cache.Cache.give_back_and_tell_i64_core.clone.U64Clone:
	stp x29, x30, [sp, #-32]!
	stp x20, x19, [sp, #16]
	mov x29, sp
	mov w20, w2
	mov x19, x1
	bl tag_cache.cache.Cache.give_back_kept_i64_core.clone.U64Clone
	ldr x8, [x19, #112]!
	add x8, x8, #8
	ldar x2, [x8]
	cbz x2, .LBB6_2
	cmp w0, w20
	csel w1, w0, w20, hi
	mov x0, x19
	bl tag_bell.telling.tell_each_i64
	ldp x20, x19, [sp, #16]
	ldp x29, x30, [sp], #32
	ret
.LBB6_2:
	mov x1, xzr
	mov x0, xzr
	ldp x20, x19, [sp, #16]
	ldp x29, x30, [sp], #32
	ret
.Lfunc_end6:
	.size tag_cache.cache.Cache.give_back_and_tell_i64_core.clone.U64Clone, .Lfunc_end6-tag_cache.cache.Cache.give_back_and_tell_i64_core.clone.U64Clone
	.section .text.tag_cache.cache.Cache.give_back_kept_i64_core.clone.U64Clone,"ax",@progbits
	.p2align 2
	.type tag_cache.cache.Cache.give_back_kept_i64_core.clone.U64Clone,@function
tag_cache.cache.Cache.give_back_kept_i64_core.clone.U64Clone:
	stp x29, x30, [sp, #-48]!
	str x21, [sp, #16]
	ldr x21, [x0, #16]
	mov x29, sp
	stp x20, x19, [sp, #32]
	cbz x21, .LBB7_4
	ldp w9, w8, [x0]
	str xzr, [x0, #16]
	mov x19, x0
	str w8, [x0, #8]
	ldr w10, [x1, #224]
	subs w8, w10, w9
	b.ls .LBB7_5
	rbit x9, x21
	clz x9, x9
	cmp w8, w9
	b.hi .LBB7_13
	lsr x3, x21, x8
	mov w2, wzr
	b .LBB7_6
.LBB7_4:
	mov w0, wzr
	ldp x20, x19, [sp, #32]
	ldr x21, [sp, #16]
	ldp x29, x30, [sp], #48
	ret
.LBB7_5:
	sub w2, w9, w10
	mov x3, x21
.LBB7_6:
	clz x8, x3
	ldr w9, [x1, #180]
	sub w8, w2, w8
	add w20, w8, #63
	lsr w8, w2, w9
	lsr w10, w20, w9
	cmp w10, w8
	b.ne .LBB7_10
	mov w10, #-1
	lsl w9, w10, w9
	ldur x10, [x1, #112]
	bic w9, w2, w9
	add x10, x10, x8, lsl #7
	lsl x9, x3, x9
	add x10, x10, #576
.LBB7_8:
	ldaxr x11, [x10]
	sub x11, x11, x9
	stlxr w12, x11, [x10]
	cbnz w12, .LBB7_8
	fmov d0, x9
	ldr x10, [x19, #296]
	cnt v0.8b, v0.8b
	ldr x11, [x10, x8, lsl #3]
	bic x9, x11, x9
	str x9, [x10, x8, lsl #3]
	ldr x8, [x19, #328]
	addv b0, v0.8b
	fmov x9, d0
	add x8, x8, x9
	str x8, [x19, #328]
	ldrb w8, [x19, #260]
	tbz w8, #0, .LBB7_11
	b .LBB7_12
.LBB7_10:
	add x0, x1, #112
	add x1, x19, #272
	mov w4, w20
	bl tag_pool.clears.masks.words.give_mask_across_i64
	ldrb w8, [x19, #260]
	tbnz w8, #0, .LBB7_12
.LBB7_11:
	str w20, [x19, #256]
.LBB7_12:
	fmov d0, x21
	cnt v0.8b, v0.8b
	addv b0, v0.8b
	fmov w0, s0
	ldp x20, x19, [sp, #32]
	ldr x21, [sp, #16]
	ldp x29, x30, [sp], #48
	ret
.LBB7_13:
	brk #0x1
.Lfunc_end7:
	.size tag_cache.cache.Cache.give_back_kept_i64_core.clone.U64Clone, .Lfunc_end7-tag_cache.cache.Cache.give_back_kept_i64_core.clone.U64Clone
	.section .text.tag_pool.clears.masks.words.give_mask_across_i64,"ax",@progbits
	.p2align 2
	.type tag_pool.clears.masks.words.give_mask_across_i64,@function
tag_pool.clears.masks.words.give_mask_across_i64:
	ldr w8, [x0, #68]
	lsr w10, w4, w8
	lsr w9, w2, w8
	add w10, w10, #1
	cmp w9, w10
	b.hs .LBB8_7
	mov w11, #-1
	mov w13, #1
	lsl w11, w11, w8
	lsl w13, w13, w8
	bic w12, w2, w11
	ldr w11, [x0, #64]
	lsl x12, x3, x12
	b .LBB8_3
.LBB8_2:
	add x9, x9, #1
	cmp w10, w9
	b.eq .LBB8_7
.LBB8_3:
	lsl w14, w9, w8
	subs w15, w14, w2
	sub w14, w11, w14
	lsr x15, x3, x15
	csel x15, x12, x15, lo
	cmp w13, w14
	csel w14, w13, w14, lo
	neg w14, w14
	lsl x15, x15, x14
	lsr x14, x15, x14
	cbz x14, .LBB8_2
	ldr x15, [x0]
	add x15, x15, x9, lsl #7
	add x15, x15, #576
.LBB8_5:
	ldaxr x16, [x15]
	sub x16, x16, x14
	stlxr w17, x16, [x15]
	cbnz w17, .LBB8_5
	fmov d0, x14
	ldr x15, [x1, #24]
	cnt v0.8b, v0.8b
	ldr x16, [x15, x9, lsl #3]
	bic x14, x16, x14
	str x14, [x15, x9, lsl #3]
	ldr x14, [x1, #56]
	addv b0, v0.8b
	fmov x15, d0
	add x14, x14, x15
	str x14, [x1, #56]
	b .LBB8_2
.LBB8_7:
	ret
.Lfunc_end8:
	.size tag_pool.clears.masks.words.give_mask_across_i64, .Lfunc_end8-tag_pool.clears.masks.words.give_mask_across_i64
	.section .text.tag_c.cached.CachedMember.clear_any,"ax",@progbits
	.p2align 2
	.type tag_c.cached.CachedMember.clear_any,@function
tag_c.cached.CachedMember.clear_any:
	stp x29, x30, [sp, #-48]!
	mov x8, x0
	str x21, [sp, #16]
	mov x29, sp
	ldr x9, [x8], #8
	stp x20, x19, [sp, #32]
	ldr w10, [x9, #236]
	cmp w10, w1
	b.ls .LBB9_4
	ldr w10, [x9, #232]
	mov w19, w1
	subs w11, w1, w10
	b.lo .LBB9_5
	ldr w12, [x0, #284]
	mov w13, #-1
	ldr x14, [x0, #304]
	lsl w13, w13, w12
	lsr w12, w11, w12
	bic w11, w11, w13
	mov w13, #1
	ldr x12, [x14, w12, uxtw #3]
	lsl x11, x13, x11
	and x12, x11, x12
	cmp w19, w10
	ccmp x12, #0, #4, hs
	cset w11, ne
	cbnz x12, .LBB9_6
.LBB9_3:
	mov w0, #-3
	ldp x20, x19, [sp, #32]
	ldr x21, [sp, #16]
	ldp x29, x30, [sp], #48
	ret
.LBB9_4:
	mov w0, #-1
	ldp x20, x19, [sp, #32]
	ldr x21, [sp, #16]
	ldp x29, x30, [sp], #48
	ret
.LBB9_5:
	ldr w11, [x0, #76]
	mov w12, #-1
	ldr x13, [x0, #96]
	mov w14, #1
	lsl w12, w12, w11
	lsr w11, w19, w11
	bic w12, w19, w12
	ldr x11, [x13, w11, uxtw #3]
	lsl x12, x14, x12
	and x12, x12, x11
	cmp w19, w10
	ccmp x12, #0, #4, hs
	cset w11, ne
	cbz x12, .LBB9_3
.LBB9_6:
	ldr w10, [x8]
	sub w10, w19, w10
	cmp w10, #63
	b.hi .LBB9_9
	mov w12, #1
	ldr x13, [x0, #24]
	lsl x12, x12, x10
	tst x13, x12
	b.eq .LBB9_9
	mov w0, #-3
	ldp x20, x19, [sp, #32]
	ldr x21, [sp, #16]
	ldp x29, x30, [sp], #48
	ret
.LBB9_9:
	cbz w11, .LBB9_19
	ldrb w12, [x0, #20]
	cbz w12, .LBB9_12
	mov w11, #1
	ldr x13, [x0, #32]
	cmp w10, #63
	lsl x11, x11, x10
	mov x14, #-1
	csinv x11, x14, x11, hi
	tst x13, x11
	b.eq .LBB9_21
.LBB9_12:
	ldr w11, [x0, #12]
	cbz w11, .LBB9_20
	cmp w12, #0
	mov w11, #64
	ldrb w13, [x0, #47]
	ccmp w10, w11, #0, ne
	cset w11, lo
	cbnz x13, .LBB9_20
	cbz w11, .LBB9_20
	ldr w11, [x0, #16]
	cbz w11, .LBB9_18
	cmp w10, #64
	b.lo .LBB9_24
	ldr x13, [x0, #24]
	cbz x13, .LBB9_24
.LBB9_18:
	mov x20, x2
	add x1, x9, #8
	mov x21, x0
	mov x0, x8
	mov w2, w19
	bl tag_cache.cache.Cache.keep_instead_i64_core.clone.U64Clone
	b .LBB9_22
.LBB9_19:
	mov x20, x2
	add x1, x9, #8
	mov x21, x0
	mov x0, x8
	mov w2, w19
	bl tag_cache.cache.Cache.give_back_i64_core.clone.U64Clone
	mov x0, x21
	mov w2, wzr
	ldr x8, [x21]
	ldr w9, [x8, #232]
	cmp w19, w9
	b.lo .LBB9_23
	b .LBB9_29
.LBB9_20:
	mov x20, x2
	add x1, x9, #8
	mov x21, x0
	mov x0, x8
	mov w2, w19
	bl tag_cache.cache.Cache.give_back_i64_core.clone.U64Clone
	mov x0, x21
	mov w2, #1
	ldr x8, [x21]
	ldr w9, [x8, #232]
	cmp w19, w9
	b.lo .LBB9_23
	b .LBB9_29
.LBB9_21:
	mov x20, x2
	add x1, x9, #8
	mov x21, x0
	mov x0, x8
	mov w2, w19
	bl tag_cache.cache.Cache.give_back_all_i64_core.clone.U64Clone
.LBB9_22:
	mov w2, w0
	mov x0, x21
	ldr x8, [x21]
	ldr w9, [x8, #232]
	cmp w19, w9
	b.hs .LBB9_29
.LBB9_23:
	mov w1, #1
	mov x3, x20
	ldp x20, x19, [sp, #32]
	ldr x21, [sp, #16]
	ldp x29, x30, [sp], #48
	b tag_c.telling.CachedMemberTellingCalls.tell
.LBB9_24:
	ldr x8, [x0, #24]
	mov x20, x2
	cbnz w12, .LBB9_28
	cbnz x8, .LBB9_28
	cmp w10, #64
	b.lo .LBB9_28
	mov x8, xzr
	and w9, w19, #0xffffffc0
	and w10, w19, #0x3f
	str w9, [x0, #8]
	str xzr, [x0, #32]
.LBB9_28:
	mov w9, #1
	ldr x12, [x0, #32]
	mov w2, wzr
	lsl x9, x9, x10
	bic x10, x12, x9
	orr x8, x8, x9
	sub w9, w11, #1
	stp x8, x10, [x0, #24]
	str w9, [x0, #16]
	ldr x8, [x0]
	ldr w9, [x8, #232]
	cmp w19, w9
	b.lo .LBB9_23
.LBB9_29:
	ldr x8, [x8, #120]
	add x8, x8, #8
	ldar x8, [x8]
	cbz x8, .LBB9_31
	mov w1, wzr
	mov x3, x20
	ldp x20, x19, [sp, #32]
	ldr x21, [sp, #16]
	ldp x29, x30, [sp], #48
	b tag_c.telling.CachedMemberTellingCalls.tell
.LBB9_31:
	mov w0, wzr
	ldp x20, x19, [sp, #32]
	ldr x21, [sp, #16]
	ldp x29, x30, [sp], #48
	ret
.Lfunc_end9:
	.size tag_c.cached.CachedMember.clear_any, .Lfunc_end9-tag_c.cached.CachedMember.clear_any
	.section .text.tag_cache.cache.Cache.keep_instead_i64_core.clone.U64Clone,"ax",@progbits
	.p2align 2
	.type tag_cache.cache.Cache.keep_instead_i64_core.clone.U64Clone,@function
tag_cache.cache.Cache.keep_instead_i64_core.clone.U64Clone:
	stp x29, x30, [sp, #-32]!
	stp x20, x19, [sp, #16]
	mov x29, sp
	mov w20, w2
	mov x19, x0
	bl tag_cache.cache.Cache.give_back_kept_i64_core.clone.U64Clone
	ldrb w8, [x19, #12]
	cbz w8, .LBB10_2
	ldr w9, [x19]
	ldr x8, [x19, #16]
	b .LBB10_6
.LBB10_2:
	ldr x8, [x19, #16]
	ldr w9, [x19]
	cbnz x8, .LBB10_6
	sub w8, w20, w9
	cmp w8, #64
	b.hs .LBB10_5
	mov x8, xzr
	b .LBB10_6
.LBB10_5:
	mov x8, xzr
	and w9, w20, #0xffffffc0
	str xzr, [x19, #24]
	str w9, [x19]
.LBB10_6:
	sub w9, w20, w9
	mov w10, #1
	ldr x11, [x19, #24]
	lsl x9, x10, x9
	ldr w10, [x19, #8]
	bic x11, x11, x9
	orr x8, x8, x9
	sub w9, w10, #1
	stp x8, x11, [x19, #16]
	str w9, [x19, #8]
	ldp x20, x19, [sp, #16]
	ldp x29, x30, [sp], #32
	ret
.Lfunc_end10:
	.size tag_cache.cache.Cache.keep_instead_i64_core.clone.U64Clone, .Lfunc_end10-tag_cache.cache.Cache.keep_instead_i64_core.clone.U64Clone
	.section .text.tag_cache.cache.Cache.give_back_all_i64_core.clone.U64Clone,"ax",@progbits
	.p2align 2
	.type tag_cache.cache.Cache.give_back_all_i64_core.clone.U64Clone,@function
tag_cache.cache.Cache.give_back_all_i64_core.clone.U64Clone:
	stp x29, x30, [sp, #-48]!
	ldr x8, [x0, #16]
	stp x22, x21, [sp, #16]
	mov x29, sp
	stp x20, x19, [sp, #32]
	cbz x8, .LBB11_2
	mov x19, x0
	mov x20, x1
	mov w21, w2
	bl tag_cache.cache.Cache.give_back_kept_i64_core.clone.U64Clone
	mov w22, w0
	mov x0, x19
	mov x1, x20
	mov w2, w21
	bl tag_cache.cache.Cache.give_back_i64_core.clone.U64Clone
	add w0, w22, #1
	ldp x20, x19, [sp, #32]
	ldp x22, x21, [sp, #16]
	ldp x29, x30, [sp], #48
	ret
.LBB11_2:
	bl tag_cache.cache.Cache.give_back_i64_core.clone.U64Clone
	mov w0, #1
	ldp x20, x19, [sp, #32]
	ldp x22, x21, [sp, #16]
	ldp x29, x30, [sp], #48
	ret
.Lfunc_end11:
	.size tag_cache.cache.Cache.give_back_all_i64_core.clone.U64Clone, .Lfunc_end11-tag_cache.cache.Cache.give_back_all_i64_core.clone.U64Clone
	.section .text.tag_cache.cache.Cache.give_back_i64_core.clone.U64Clone,"ax",@progbits
	.p2align 2
	.type tag_cache.cache.Cache.give_back_i64_core.clone.U64Clone,@function
tag_cache.cache.Cache.give_back_i64_core.clone.U64Clone:
	ldr w8, [x0]
	mov w9, #1
	ldr x10, [x0, #24]
	sub w8, w2, w8
	lsl x9, x9, x8
	cmp w8, #63
	mov x8, #-1
	csinv x8, x8, x9, hi
	and x8, x10, x8
	str x8, [x0, #24]
	ldr w8, [x1, #224]
	subs w8, w2, w8
	b.hs .LBB12_5
	ldr w8, [x0, #68]
	mov w9, #-1
	ldr x10, [x1]
	mov w11, #1
	lsl w9, w9, w8
	lsr w8, w2, w8
	bic w9, w2, w9
	add x10, x10, x8, lsl #7
	lsl x9, x11, x9
	add x10, x10, #640
.LBB12_2:
	ldaxr x11, [x10]
	add x11, x11, x9
	stlxr w12, x11, [x10]
	cbnz w12, .LBB12_2
	ldr x10, [x0, #88]
	ldr x11, [x10, x8, lsl #3]
	sub x9, x11, x9
	str x9, [x10, x8, lsl #3]
	ldr x8, [x0, #120]
	ldrb w9, [x0, #52]
	add x8, x8, #1
	str x8, [x0, #120]
	tbnz w9, #0, .LBB12_9
	str w2, [x0, #48]
	ret
.LBB12_5:
	ldr w9, [x0, #276]
	mov w10, #-1
	ldr x11, [x1, #112]
	mov w12, #1
	lsl w10, w10, w9
	lsr w9, w8, w9
	bic w10, w8, w10
	add x11, x11, x9, lsl #7
	lsl x10, x12, x10
	add x11, x11, #640
.LBB12_6:
	ldaxr x12, [x11]
	add x12, x12, x10
	stlxr w13, x12, [x11]
	cbnz w13, .LBB12_6
	ldr x11, [x0, #296]
	ldr x12, [x11, x9, lsl #3]
	sub x10, x12, x10
	str x10, [x11, x9, lsl #3]
	ldr x9, [x0, #328]
	ldrb w10, [x0, #260]
	add x9, x9, #1
	str x9, [x0, #328]
	tbnz w10, #0, .LBB12_9
	str w8, [x0, #256]
.LBB12_9:
	ret
.Lfunc_end12:
	.size tag_cache.cache.Cache.give_back_i64_core.clone.U64Clone, .Lfunc_end12-tag_cache.cache.Cache.give_back_i64_core.clone.U64Clone
	.section .text.tag_pool.pool.Pool.check_batch_i64_core.clone.U64Clone,"ax",@progbits
	.p2align 2
	.type tag_pool.pool.Pool.check_batch_i64_core.clone.U64Clone,@function
tag_pool.pool.Pool.check_batch_i64_core.clone.U64Clone:
	sub x8, x3, #65
	cmn x8, #64
	b.hs .LBB13_3
	mov w0, #1
	mov w1, #3
.LBB13_2:
	ret
.LBB13_3:
	ldr w8, [x0, #224]
	mov x9, xzr
.LBB13_4:
	ldr w10, [x2, x9, lsl #2]
	cmp w10, w8
	b.lo .LBB13_16
	add x9, x9, #1
	cmp x3, x9
	b.ne .LBB13_4
	ldr w8, [x0, #228]
	mov x9, xzr
.LBB13_7:
	ldr w10, [x2, x9, lsl #2]
	cmp w8, w10
	b.ls .LBB13_16
	add x9, x9, #1
	cmp x3, x9
	b.ne .LBB13_7
	ldr w8, [x1]
	mov x9, xzr
	b .LBB13_12
.LBB13_10:
	ldr w10, [x1, #236]
	mov w12, #-1
	ldr x13, [x1, #256]
	lsl w12, w12, w10
	lsr w10, w11, w10
	bic w11, w11, w12
	mov w12, #1
	ldr x10, [x13, w10, uxtw #3]
	lsl x11, x12, x11
	and x10, x11, x10
	cbz x10, .LBB13_14
.LBB13_11:
	add x9, x9, #1
	cmp x3, x9
	b.eq .LBB13_17
.LBB13_12:
	ldr w10, [x2, x9, lsl #2]
	subs w11, w10, w8
	b.hs .LBB13_10
	ldr w11, [x1, #28]
	mov w12, #-1
	ldr x13, [x1, #48]
	lsl w12, w12, w11
	lsr w11, w10, w11
	bic w10, w10, w12
	mov w12, #1
	ldr x11, [x13, w11, uxtw #3]
	lsl x10, x12, x10
	and x10, x10, x11
	cbnz x10, .LBB13_11
.LBB13_14:
	mov w1, #1
.LBB13_15:
	mov w0, #1
	ret
.LBB13_16:
	mov w1, wzr
	mov w0, #1
	ret
.LBB13_17:
	mov x8, xzr
	b .LBB13_20
.LBB13_18:
	cmp x10, #2
	mov w9, #2
	mov w11, #4
	csel x9, x10, x9, lo
	cmp x10, #4
	ldr d4, [x2]
	csel x11, x10, x11, lo
	lsl x10, x10, #2
	lsl x9, x9, #2
	lsl x11, x11, #2
	ldr d1, [x2, x10]
	ldr w10, [x2, x8, lsl #2]
	ldr d5, [x2, x9]
	ldr d0, [x2, x11]
	dup v3.4s, w10
	mov v4.d[1], v5.d[0]
	zip1 v2.2s, v0.2s, v1.2s
	dup v1.2s, v1.s[1]
	mov v2.d[1], v1.d[0]
	dup v1.4s, v3.s[0]
	mov v1.s[3], v0.s[1]
	mov v2.s[3], w10
	cmeq v0.4s, v2.4s, v1.4s
	cmeq v1.4s, v4.4s, v3.4s
	uzp1 v0.8h, v1.8h, v0.8h
	umaxv h0, v0.8h
	fmov w9, s0
	tbnz w9, #0, .LBB13_14
.LBB13_19:
	add x8, x8, #1
	cmp x8, x3
	b.eq .LBB13_37
.LBB13_20:
	cbz x8, .LBB13_19
	add x9, x2, x8, lsl #2
	subs x10, x8, #2
	b.hi .LBB13_24
	ldr w10, [x9]
	ldr w11, [x2]
	mov w1, #1
	cmp w11, w10
	b.eq .LBB13_15
	ldur w9, [x9, #-4]
	mov w0, #1
	cmp w9, w10
	b.ne .LBB13_19
	b .LBB13_2
.LBB13_24:
	cmp x8, #8
	b.ls .LBB13_18
	ldr w11, [x9]
	cmp x8, #17
	b.hs .LBB13_27
	dup v0.4s, w11
	ldp q2, q1, [x9, #-32]
	ldp q3, q4, [x2]
	cmeq v1.4s, v1.4s, v0.4s
	cmeq v2.4s, v2.4s, v0.4s
	cmeq v4.4s, v4.4s, v0.4s
	cmeq v0.4s, v3.4s, v0.4s
	uzp1 v1.8h, v2.8h, v1.8h
	uzp1 v0.8h, v0.8h, v4.8h
	uzp1 v0.16b, v0.16b, v1.16b
	umaxv b0, v0.16b
	fmov w9, s0
	tbz w9, #0, .LBB13_19
	b .LBB13_14
.LBB13_27:
	dup v0.4s, w11
	mov x10, xzr
	mov x11, x2
	mov x12, x8
.LBB13_28:
	ldp q2, q1, [x11]
	ldp q4, q3, [x11, #32]
	cmeq v1.4s, v1.4s, v0.4s
	cmeq v2.4s, v2.4s, v0.4s
	cmeq v4.4s, v4.4s, v0.4s
	cmeq v3.4s, v3.4s, v0.4s
	uzp1 v1.8h, v2.8h, v1.8h
	uzp1 v2.8h, v4.8h, v3.8h
	uzp1 v1.16b, v1.16b, v2.16b
	umaxv b1, v1.16b
	fmov w13, s1
	tbnz w13, #0, .LBB13_31
	sub x12, x12, #16
	add x10, x10, #16
	add x11, x11, #64
	cmp x12, #15
	b.hi .LBB13_28
	and x10, x8, #0x30
.LBB13_31:
	sub x11, x8, x10
	cmp x11, #8
	b.lo .LBB13_36
	add x10, x2, x10, lsl #2
.LBB13_33:
	ldp q1, q2, [x10], #32
	cmeq v2.4s, v2.4s, v0.4s
	cmeq v1.4s, v1.4s, v0.4s
	uzp1 v1.8h, v1.8h, v2.8h
	umaxv h1, v1.8h
	fmov w12, s1
	tbnz w12, #0, .LBB13_35
	sub x11, x11, #8
	cmp x11, #8
	b.hs .LBB13_33
	b .LBB13_36
.LBB13_35:
	cmp x11, #7
	b.hi .LBB13_14
.LBB13_36:
	ldp q1, q2, [x9, #-32]
	cmeq v2.4s, v2.4s, v0.4s
	cmeq v0.4s, v1.4s, v0.4s
	uzp1 v0.8h, v0.8h, v2.8h
	umaxv h0, v0.8h
	fmov w9, s0
	tbz w9, #0, .LBB13_19
	b .LBB13_14
.LBB13_37:
	mov w1, wzr
	mov w0, wzr
	ret
.Lfunc_end13:
	.size tag_pool.pool.Pool.check_batch_i64_core.clone.U64Clone, .Lfunc_end13-tag_pool.pool.Pool.check_batch_i64_core.clone.U64Clone
	.section .text.tag_c.clears.CachedMemberClearCalls.clear_batch,"ax",@progbits
	.p2align 2
	.type tag_c.clears.CachedMemberClearCalls.clear_batch,@function
tag_c.clears.CachedMemberClearCalls.clear_batch:
	stp x29, x30, [sp, #-64]!
	mov x8, x0
	str x23, [sp, #16]
	mov x29, sp
	ldr x23, [x8], #48
	stp x22, x21, [sp, #32]
	stp x20, x19, [sp, #48]
	mov x20, x2
	mov x22, x1
	mov x19, x3
	mov x21, x0
	add x0, x23, #8
	mov x1, x8
	mov x2, x22
	mov x3, x20
	bl tag_pool.pool.Pool.check_batch_i64_core.clone.U64Clone
	tst w0, #0xff
	b.eq .LBB14_2
	and x8, x1, #0xff
	adrp x9, .Lswitch.table.tags_library_wait_on_reserved.286
	add x9, x9, :lo12:.Lswitch.table.tags_library_wait_on_reserved.286
	ldr w0, [x9, x8, lsl #2]
	ldp x20, x19, [sp, #48]
	ldr x23, [sp, #16]
	ldp x22, x21, [sp, #32]
	ldp x29, x30, [sp], #64
	ret
.LBB14_2:
	cbz x20, .LBB14_10
	ldur w8, [x21, #8]
	mov x9, xzr
	b .LBB14_5
.LBB14_4:
	add x9, x9, #1
	cmp x20, x9
	b.eq .LBB14_8
.LBB14_5:
	ldr w10, [x22, x9, lsl #2]
	sub w10, w10, w8
	cmp w10, #63
	b.hi .LBB14_4
	ldr x11, [x21, #24]
	lsr x10, x11, x10
	tbz w10, #0, .LBB14_4
	mov w0, #-3
	ldp x20, x19, [sp, #48]
	ldr x23, [sp, #16]
	ldp x22, x21, [sp, #32]
	ldp x29, x30, [sp], #64
	ret
.LBB14_8:
	ldr x10, [x21, #32]
	cmp x20, #8
	b.hs .LBB14_11
	mov x9, xzr
	b .LBB14_14
.LBB14_10:
	ldr x10, [x21, #32]
	b .LBB14_16
.LBB14_11:
	movi v0.2d, #0xffffffffffffffff
	movi v1.2d, #0xffffffffffffffff
	and x9, x20, #0xfffffffffffffff8
	movi v2.2d, #0xffffffffffffffff
	movi v3.2d, #0xffffffffffffffff
	and x11, x20, #0xfffffffffffffff8
	dup v4.4s, w8
	mov v0.d[0], x10
	add x10, x22, #16
.LBB14_12:
	ldp q5, q6, [x10, #-16]
	mov w12, #63
	dup v7.2d, x12
	mov w12, #1
	subs x11, x11, #8
	dup v17.2d, x12
	add x10, x10, #32
	sub v5.4s, v5.4s, v4.4s
	sub v6.4s, v6.4s, v4.4s
	ushll2 v16.2d, v5.4s, #0
	ushll v5.2d, v5.2s, #0
	ushll2 v18.2d, v6.4s, #0
	ushll v6.2d, v6.2s, #0
	cmhi v19.2d, v16.2d, v7.2d
	cmhi v20.2d, v5.2d, v7.2d
	cmhi v21.2d, v18.2d, v7.2d
	cmhi v7.2d, v6.2d, v7.2d
	ushl v16.2d, v17.2d, v16.2d
	ushl v5.2d, v17.2d, v5.2d
	ushl v18.2d, v17.2d, v18.2d
	ushl v6.2d, v17.2d, v6.2d
	orn v16.16b, v19.16b, v16.16b
	orn v5.16b, v20.16b, v5.16b
	orn v6.16b, v7.16b, v6.16b
	orn v7.16b, v21.16b, v18.16b
	and v2.16b, v16.16b, v2.16b
	and v0.16b, v5.16b, v0.16b
	and v3.16b, v7.16b, v3.16b
	and v1.16b, v6.16b, v1.16b
	b.ne .LBB14_12
	and v0.16b, v1.16b, v0.16b
	and v1.16b, v3.16b, v2.16b
	cmp x20, x9
	and v0.16b, v0.16b, v1.16b
	ext v1.16b, v0.16b, v0.16b, #8
	and v0.8b, v0.8b, v1.8b
	fmov x10, d0
	b.eq .LBB14_16
.LBB14_14:
	add x11, x22, x9, lsl #2
	sub x9, x20, x9
.LBB14_15:
	ldr w12, [x11], #4
	mov w13, #1
	sub w12, w12, w8
	lsl x13, x13, x12
	cmp w12, #63
	mov x12, #-1
	csinv x12, x12, x13, hi
	subs x9, x9, #1
	and x10, x12, x10
	b.ne .LBB14_15
.LBB14_16:
	ldrb w8, [x21, #20]
	cmp x10, #0
	ccmp w8, #0, #4, eq
	b.ne .LBB14_24
	str x10, [x21, #32]
	ldr w8, [x23, #232]
	ldr w9, [x22]
	ldr w10, [x23, #188]
	sub w9, w9, w8
	lsr w13, w9, w10
	cbz x20, .LBB14_25
	mov w9, #-1
	mov x14, xzr
	mov x11, xzr
	lsl w9, w9, w10
	mvn w12, w9
	b .LBB14_20
.LBB14_19:
	orr x9, x9, x14
	add x11, x11, #1
	mov x14, x9
	cmp x11, x20
	b.eq .LBB14_26
.LBB14_20:
	ldr w9, [x22, x11, lsl #2]
	mov w16, #1
	sub w9, w9, w8
	lsr w15, w9, w10
	and w9, w9, w12
	lsl x9, x16, x9
	cmp w15, w13
	b.eq .LBB14_19
	ldr x16, [x23, #120]
	mov w13, w13
	add x16, x16, x13, lsl #7
	add x16, x16, #576
.LBB14_22:
	ldaxr x17, [x16]
	sub x17, x17, x14
	stlxr w18, x17, [x16]
	cbnz w18, .LBB14_22
	fmov d0, x14
	ldr x16, [x21, #304]
	cnt v0.8b, v0.8b
	ldr x17, [x16, x13, lsl #3]
	bic x14, x17, x14
	str x14, [x16, x13, lsl #3]
	ldr x13, [x21, #336]
	addv b0, v0.8b
	fmov x14, d0
	add x13, x13, x14
	str x13, [x21, #336]
	mov w13, w15
	add x11, x11, #1
	mov x14, x9
	cmp x11, x20
	b.ne .LBB14_20
	b .LBB14_26
.LBB14_24:
	add x0, x21, #8
	add x1, x23, #8
	mov x2, xzr
	mov x3, x22
	mov x4, x20
	bl tag_cache.cache.Cache.give_back_kept_and_list_i64_core.clone.U64Clone
	mov w20, w0
	b .LBB14_30
.LBB14_25:
	mov x9, xzr
.LBB14_26:
	ldr x11, [x23, #120]
	mov w10, w13
	add x11, x11, x10, lsl #7
	add x11, x11, #576
.LBB14_27:
	ldaxr x12, [x11]
	sub x12, x12, x9
	stlxr w13, x12, [x11]
	cbnz w13, .LBB14_27
	fmov d0, x9
	ldr x11, [x21, #304]
	cnt v0.8b, v0.8b
	ldr x12, [x11, x10, lsl #3]
	bic x9, x12, x9
	str x9, [x11, x10, lsl #3]
	ldr x9, [x21, #336]
	ldrb w11, [x21, #268]
	addv b0, v0.8b
	fmov x10, d0
	add x9, x9, x10
	str x9, [x21, #336]
	tbnz w11, #0, .LBB14_30
	add x9, x22, x20, lsl #2
	ldur w9, [x9, #-4]
	sub w8, w9, w8
	str w8, [x21, #264]
.LBB14_30:
	ldr x8, [x21]
	ldr x8, [x8, #120]
	add x8, x8, #8
	ldar x8, [x8]
	cbz x8, .LBB14_32
	mov x0, x21
	mov w2, w20
	mov x3, x19
	ldp x20, x19, [sp, #48]
	ldr x23, [sp, #16]
	ldp x22, x21, [sp, #32]
	mov w1, wzr
	ldp x29, x30, [sp], #64
	b tag_c.telling.CachedMemberTellingCalls.tell
.LBB14_32:
	mov w0, wzr
	ldp x20, x19, [sp, #48]
	ldr x23, [sp, #16]
	ldp x22, x21, [sp, #32]
	ldp x29, x30, [sp], #64
	ret
.Lfunc_end14:
	.size tag_c.clears.CachedMemberClearCalls.clear_batch, .Lfunc_end14-tag_c.clears.CachedMemberClearCalls.clear_batch
	.section .text.tag_cache.cache.Cache.give_back_kept_and_list_i64_core.clone.U64Clone,"ax",@progbits
	.p2align 2
	.type tag_cache.cache.Cache.give_back_kept_and_list_i64_core.clone.U64Clone,@function
tag_cache.cache.Cache.give_back_kept_and_list_i64_core.clone.U64Clone:
	stp x29, x30, [sp, #-64]!
	str x23, [sp, #16]
	mov x29, sp
	mov x23, x2
	stp x22, x21, [sp, #32]
	mov x21, x3
	mov x22, x1
	stp x20, x19, [sp, #48]
	mov x19, x4
	mov x20, x0
	bl tag_cache.cache.Cache.give_back_kept_i64_core.clone.U64Clone
	str x23, [x20, #24]
	ldr w8, [x22, #224]
	ldr w9, [x21]
	ldr w10, [x22, #180]
	sub w9, w9, w8
	lsr w13, w9, w10
	cbz x19, .LBB15_7
	mov w9, #-1
	mov x14, xzr
	mov x11, xzr
	lsl w9, w9, w10
	mvn w12, w9
	b .LBB15_3
.LBB15_2:
	orr x9, x9, x14
	add x11, x11, #1
	mov x14, x9
	cmp x11, x19
	b.eq .LBB15_8
.LBB15_3:
	ldr w9, [x21, x11, lsl #2]
	mov w16, #1
	sub w9, w9, w8
	lsr w15, w9, w10
	and w9, w9, w12
	lsl x9, x16, x9
	cmp w15, w13
	b.eq .LBB15_2
	ldr x16, [x22, #112]
	mov w13, w13
	add x16, x16, x13, lsl #7
	add x16, x16, #576
.LBB15_5:
	ldaxr x17, [x16]
	sub x17, x17, x14
	stlxr w18, x17, [x16]
	cbnz w18, .LBB15_5
	fmov d0, x14
	ldr x16, [x20, #296]
	cnt v0.8b, v0.8b
	ldr x17, [x16, x13, lsl #3]
	bic x14, x17, x14
	str x14, [x16, x13, lsl #3]
	ldr x13, [x20, #328]
	addv b0, v0.8b
	fmov x14, d0
	add x13, x13, x14
	str x13, [x20, #328]
	mov w13, w15
	add x11, x11, #1
	mov x14, x9
	cmp x11, x19
	b.ne .LBB15_3
	b .LBB15_8
.LBB15_7:
	mov x9, xzr
.LBB15_8:
	ldr x11, [x22, #112]
	mov w10, w13
	add x11, x11, x10, lsl #7
	add x11, x11, #576
.LBB15_9:
	ldaxr x12, [x11]
	sub x12, x12, x9
	stlxr w13, x12, [x11]
	cbnz w13, .LBB15_9
	fmov d0, x9
	ldr x11, [x20, #296]
	cnt v0.8b, v0.8b
	ldr x12, [x11, x10, lsl #3]
	bic x9, x12, x9
	str x9, [x11, x10, lsl #3]
	ldr x9, [x20, #328]
	ldrb w11, [x20, #260]
	addv b0, v0.8b
	fmov x10, d0
	add x9, x9, x10
	str x9, [x20, #328]
	tbnz w11, #0, .LBB15_12
	add x9, x21, x19, lsl #2
	ldur w9, [x9, #-4]
	sub w8, w9, w8
	str w8, [x20, #256]
.LBB15_12:
	add w0, w0, w19
	ldp x20, x19, [sp, #48]
	ldp x22, x21, [sp, #32]
	ldr x23, [sp, #16]
	ldp x29, x30, [sp], #64
	ret
.Lfunc_end15:
	.size tag_cache.cache.Cache.give_back_kept_and_list_i64_core.clone.U64Clone, .Lfunc_end15-tag_cache.cache.Cache.give_back_kept_and_list_i64_core.clone.U64Clone
	.section .text.tag_pool.clears.masks.words.are_held_across_i64,"ax",@progbits
	.p2align 2
	.type tag_pool.clears.masks.words.are_held_across_i64,@function
tag_pool.clears.masks.words.are_held_across_i64:
	lsr w8, w5, w1
	lsr w9, w3, w1
	add w13, w8, #1
	mov w8, #1
	cmp w9, w13
	b.hs .LBB16_3
	mov w10, #-1
	lsl w11, w8, w1
	ldr x12, [x2, #24]
	lsl w10, w10, w1
	sub x13, x13, #1
	bic w10, w3, w10
	lsl x10, x4, x10
.LBB16_2:
	lsl w8, w9, w1
	subs w14, w8, w3
	sub w8, w0, w8
	lsr x14, x4, x14
	csel x14, x10, x14, lo
	cmp w11, w8
	csel w8, w11, w8, lo
	neg w8, w8
	lsl x14, x14, x8
	lsr x8, x14, x8
	ldr x14, [x12, x9, lsl #3]
	and x14, x14, x8
	cmp x14, x8
	cset w8, eq
	ccmp x13, x9, #4, eq
	add x9, x9, #1
	b.ne .LBB16_2
.LBB16_3:
	mov w0, w8
	ret
.Lfunc_end16:
	.size tag_pool.clears.masks.words.are_held_across_i64, .Lfunc_end16-tag_pool.clears.masks.words.are_held_across_i64
	.section .text.tag_c.masks.CachedMemberMaskCalls.clear_mask,"ax",@progbits
	.p2align 2
	.type tag_c.masks.CachedMemberMaskCalls.clear_mask,@function
tag_c.masks.CachedMemberMaskCalls.clear_mask:
	stp x29, x30, [sp, #-64]!
	stp x24, x23, [sp, #16]
	mov x29, sp
	stp x22, x21, [sp, #32]
	stp x20, x19, [sp, #48]
	cbz x2, .LBB17_4
	mov x19, x0
	ldr x21, [x19], #8
	ldr w9, [x21, #232]
	subs w8, w9, w1
	b.ls .LBB17_5
	rbit x9, x2
	clz x9, x9
	cmp w8, w9
	b.hi .LBB17_9
	lsr x4, x2, x8
	mov w8, wzr
	ldr w9, [x21, #184]
	cmp w9, wzr
	b.ls .LBB17_9
	b .LBB17_6
.LBB17_4:
	mov w0, #-5
	ldp x20, x19, [sp, #48]
	ldp x22, x21, [sp, #32]
	ldp x24, x23, [sp, #16]
	ldp x29, x30, [sp], #64
	ret
.LBB17_5:
	sub w8, w1, w9
	mov x4, x2
	ldr w9, [x21, #184]
	cmp w9, w8
	b.ls .LBB17_9
.LBB17_6:
	clz x10, x4
	sub w10, w8, w10
	add w5, w10, #63
	cmp w9, w5
	b.ls .LBB17_9
	ldr w10, [x21, #188]
	mov x20, x3
	lsr w11, w8, w10
	lsr w12, w5, w10
	cmp w12, w11
	b.ne .LBB17_10
	mov w9, #-1
	lsl w9, w9, w10
	ldr x10, [x0, #304]
	bic w8, w8, w9
	ldr x9, [x10, w11, uxtw #3]
	lsl x8, x4, x8
	bics xzr, x8, x9
	b.eq .LBB17_11
	b .LBB17_14
.LBB17_9:
	mov w0, #-1
	ldp x20, x19, [sp, #48]
	ldp x22, x21, [sp, #32]
	ldp x24, x23, [sp, #16]
	ldp x29, x30, [sp], #64
	ret
.LBB17_10:
	mov x22, x2
	add x2, x0, #280
	mov x23, x0
	mov w0, w9
	mov w24, w1
	mov w1, w10
	mov w3, w8
	bl tag_pool.clears.masks.words.are_held_across_i64
	mov w1, w24
	mov x2, x22
	mov w8, w0
	mov x0, x23
	tbz w8, #0, .LBB17_14
.LBB17_11:
	ldr w8, [x19]
	subs w9, w1, w8
	cneg w10, w9, ls
	cmp w10, #63
	b.ls .LBB17_13
	mov x8, #-1
	ldr x9, [x0, #32]
	ands x8, x9, x8
	b.eq .LBB17_16
	b .LBB17_18
.LBB17_13:
	sub w10, w8, w1
	lsl x9, x2, x9
	ldr x11, [x0, #24]
	lsr x10, x2, x10
	cmp w8, w1
	csel x8, x9, x10, lo
	tst x11, x8
	b.eq .LBB17_15
.LBB17_14:
	mov w0, #-3
	ldp x20, x19, [sp, #48]
	ldp x22, x21, [sp, #32]
	ldp x24, x23, [sp, #16]
	ldp x29, x30, [sp], #64
	ret
.LBB17_15:
	mvn x8, x8
	ldr x9, [x0, #32]
	ands x8, x9, x8
	b.ne .LBB17_18
.LBB17_16:
	ldrb w9, [x0, #20]
	cbz w9, .LBB17_18
	mov w3, w1
	add x1, x21, #8
	mov x21, x0
	mov x0, x19
	mov x4, x2
	mov x2, xzr
	bl tag_cache.cache.Cache.give_back_kept_and_mask_i64_core.clone.U64Clone
	mov w2, w0
	mov x0, x21
	mov x3, x20
	b .LBB17_30
.LBB17_18:
	str x8, [x0, #32]
	ldr w9, [x21, #232]
	subs w8, w9, w1
	b.ls .LBB17_21
	rbit x9, x2
	clz x9, x9
	cmp w8, w9
	b.hi .LBB17_33
	lsr x3, x2, x8
	mov w8, wzr
	b .LBB17_22
.LBB17_21:
	sub w8, w1, w9
	mov x3, x2
.LBB17_22:
	clz x9, x3
	ldr w10, [x21, #188]
	sub w9, w8, w9
	add w19, w9, #63
	lsr w9, w8, w10
	lsr w11, w19, w10
	cmp w11, w9
	b.ne .LBB17_26
	mov w11, #-1
	lsl w10, w11, w10
	ldur x11, [x21, #120]
	bic w8, w8, w10
	add x10, x11, x9, lsl #7
	lsl x8, x3, x8
	add x10, x10, #576
.LBB17_24:
	ldaxr x11, [x10]
	sub x11, x11, x8
	stlxr w12, x11, [x10]
	cbnz w12, .LBB17_24
	fmov d0, x8
	ldr x10, [x0, #304]
	cnt v0.8b, v0.8b
	ldr x11, [x10, x9, lsl #3]
	bic x8, x11, x8
	str x8, [x10, x9, lsl #3]
	ldr x8, [x0, #336]
	addv b0, v0.8b
	fmov x9, d0
	add x8, x8, x9
	str x8, [x0, #336]
	b .LBB17_27
.LBB17_26:
	mov x22, x0
	add x0, x21, #120
	mov x21, x2
	add x1, x22, #280
	mov w2, w8
	mov w4, w19
	bl tag_pool.clears.masks.words.give_mask_across_i64
	mov x2, x21
	mov x0, x22
.LBB17_27:
	ldrb w8, [x0, #268]
	mov x3, x20
	tbnz w8, #0, .LBB17_29
	str w19, [x0, #264]
.LBB17_29:
	fmov d0, x2
	cnt v0.8b, v0.8b
	addv b0, v0.8b
	fmov w2, s0
.LBB17_30:
	ldr x8, [x0]
	ldr x8, [x8, #120]
	add x8, x8, #8
	ldar x8, [x8]
	cbz x8, .LBB17_32
	ldp x20, x19, [sp, #48]
	mov w1, wzr
	ldp x22, x21, [sp, #32]
	ldp x24, x23, [sp, #16]
	ldp x29, x30, [sp], #64
	b tag_c.telling.CachedMemberTellingCalls.tell
.LBB17_32:
	mov w0, wzr
	ldp x20, x19, [sp, #48]
	ldp x22, x21, [sp, #32]
	ldp x24, x23, [sp, #16]
	ldp x29, x30, [sp], #64
	ret
.LBB17_33:
	brk #0x1
.Lfunc_end17:
	.size tag_c.masks.CachedMemberMaskCalls.clear_mask, .Lfunc_end17-tag_c.masks.CachedMemberMaskCalls.clear_mask
	.section .text.tag_cache.cache.Cache.give_back_kept_and_mask_i64_core.clone.U64Clone,"ax",@progbits
	.p2align 2
	.type tag_cache.cache.Cache.give_back_kept_and_mask_i64_core.clone.U64Clone,@function
tag_cache.cache.Cache.give_back_kept_and_mask_i64_core.clone.U64Clone:
	stp x29, x30, [sp, #-64]!
	str x23, [sp, #16]
	mov x29, sp
	mov x23, x1
	stp x22, x21, [sp, #32]
	mov w22, w3
	mov x21, x2
	stp x20, x19, [sp, #48]
	mov x19, x4
	mov x20, x0
	bl tag_cache.cache.Cache.give_back_kept_i64_core.clone.U64Clone
	str x21, [x20, #24]
	mov w21, w0
	ldr w9, [x23, #224]
	subs w8, w9, w22
	b.ls .LBB18_3
	rbit x9, x19
	clz x9, x9
	cmp w8, w9
	b.hi .LBB18_11
	lsr x3, x19, x8
	mov w2, wzr
	b .LBB18_4
.LBB18_3:
	sub w2, w22, w9
	mov x3, x19
.LBB18_4:
	clz x8, x3
	ldr w9, [x23, #180]
	sub w8, w2, w8
	add w22, w8, #63
	lsr w8, w2, w9
	lsr w10, w22, w9
	cmp w10, w8
	b.ne .LBB18_8
	mov w10, #-1
	lsl w9, w10, w9
	ldur x10, [x23, #112]
	bic w9, w2, w9
	add x10, x10, x8, lsl #7
	lsl x9, x3, x9
	add x10, x10, #576
.LBB18_6:
	ldaxr x11, [x10]
	sub x11, x11, x9
	stlxr w12, x11, [x10]
	cbnz w12, .LBB18_6
	fmov d0, x9
	ldr x10, [x20, #296]
	cnt v0.8b, v0.8b
	ldr x11, [x10, x8, lsl #3]
	bic x9, x11, x9
	str x9, [x10, x8, lsl #3]
	ldr x8, [x20, #328]
	addv b0, v0.8b
	fmov x9, d0
	add x8, x8, x9
	str x8, [x20, #328]
	ldrb w8, [x20, #260]
	tbz w8, #0, .LBB18_9
	b .LBB18_10
.LBB18_8:
	add x0, x23, #112
	add x1, x20, #272
	mov w4, w22
	bl tag_pool.clears.masks.words.give_mask_across_i64
	ldrb w8, [x20, #260]
	tbnz w8, #0, .LBB18_10
.LBB18_9:
	str w22, [x20, #256]
.LBB18_10:
	fmov d0, x19
	ldp x20, x19, [sp, #48]
	ldr x23, [sp, #16]
	cnt v0.8b, v0.8b
	addv b0, v0.8b
	fmov w8, s0
	add w0, w21, w8
	ldp x22, x21, [sp, #32]
	ldp x29, x30, [sp], #64
	ret
.LBB18_11:
	brk #0x1
.Lfunc_end18:
	.size tag_cache.cache.Cache.give_back_kept_and_mask_i64_core.clone.U64Clone, .Lfunc_end18-tag_cache.cache.Cache.give_back_kept_and_mask_i64_core.clone.U64Clone
	.section .text.tag_c.flush.CachedMemberFlushCalls.flush,"ax",@progbits
	.p2align 2
	.type tag_c.flush.CachedMemberFlushCalls.flush,@function
tag_c.flush.CachedMemberFlushCalls.flush:
	stp x29, x30, [sp, #-48]!
	str x21, [sp, #16]
	mov x21, x0
	mov x29, sp
	ldr x8, [x0], #8
	stp x20, x19, [sp, #32]
	mov x19, x1
	add x1, x8, #8
	bl tag_cache.cache.Cache.give_back_kept_i64_core.clone.U64Clone
	ldr x8, [x21]
	mov w20, w0
	ldr x9, [x8, #120]
	add x9, x9, #8
	ldar x9, [x9]
	cbz x9, .LBB19_4
	add x0, x21, #8
	add x1, x8, #8
	mov w2, w20
	bl tag_cache.cache.Cache.give_back_and_tell_i64_core.clone.U64Clone
	orr x8, x1, x0
	cbz x8, .LBB19_3
	orr w20, w20, #0x40000000
	stp x0, x1, [x19]
.LBB19_3:
	mov w0, w20
	ldp x20, x19, [sp, #32]
	ldr x21, [sp, #16]
	ldp x29, x30, [sp], #48
	ret
.LBB19_4:
	mov x0, xzr
	mov x1, xzr
	b .LBB19_3
.Lfunc_end19:
	.size tag_c.flush.CachedMemberFlushCalls.flush, .Lfunc_end19-tag_c.flush.CachedMemberFlushCalls.flush
	.section .text.tag_c.gets.MemberGetCalls.get,"ax",@progbits
	.p2align 2
	.type tag_c.gets.MemberGetCalls.get,@function
tag_c.gets.MemberGetCalls.get:
	ldr x8, [x0, #256]
	ldr x9, [x0, #288]
	cmp x8, x9
	b.ne .LBB20_2
.LBB20_1:
	b tag_c.member.Member.get_whole
.LBB20_2:
	ldr x12, [x0]
	ldr w9, [x0, #224]
	ldr w8, [x12, #184]
	cmp w8, w9
	b.ls .LBB20_1
	ldrb w10, [x0, #228]
	tbnz w10, #0, .LBB20_1
	ldr w10, [x12, #188]
	ldr x11, [x12, #120]
	lsr w9, w9, w10
	ubfiz x13, x9, #7, #32
	add x11, x11, x13
	add x11, x11, #576
	ldar x11, [x11]
	mvn x11, x11
	rbit x11, x11
	clz x11, x11
	lsr w14, w11, w10
	lsl w10, w9, w10
	cmp w14, #0
	add w10, w10, w11
	ccmp w8, w10, #0, eq
	b.hi .LBB20_6
	b tag_c.member.Member.get_past_full
.LBB20_6:
	ldr x14, [x12, #120]
	mov w12, #1
	lsl x12, x12, x11
	add x13, x14, x13
	add x13, x13, #576
.LBB20_7:
	ldar x3, [x13]
	orr x14, x3, x12
.LBB20_8:
	ldaxr x15, [x13]
	cmp x15, x3
	b.ne .LBB20_10
	stlxr w15, x14, [x13]
	cbz w15, .LBB20_11
	b .LBB20_8
.LBB20_10:
	clrex
	b .LBB20_7
.LBB20_11:
	tst x3, x12
	b.eq .LBB20_13
	add w2, w11, #1
	b tag_c.member.Member.get_past_lost
.LBB20_13:
	ldr x11, [x0, #264]
	ldr x13, [x11, x9, lsl #3]
	orr x12, x13, x12
	str x12, [x11, x9, lsl #3]
	ldr x9, [x0, #288]
	ldr w11, [x0, #224]
	add x9, x9, #1
	cmp w10, w11
	str x9, [x0, #288]
	b.ne .LBB20_15
	add w9, w10, #1
	sub w8, w8, #1
	cmp w9, w8
	csinc w8, wzr, w10, hs
	str w8, [x0, #224]
.LBB20_15:
	ldr w8, [x0, #8]
	add w0, w8, w10
	ret
.Lfunc_end20:
	.size tag_c.gets.MemberGetCalls.get, .Lfunc_end20-tag_c.gets.MemberGetCalls.get
	.section .text.tag_search.shared.SharedPort.claim_one_i64,"ax",@progbits
	.p2align 2
	.type tag_search.shared.SharedPort.claim_one_i64,@function
tag_search.shared.SharedPort.claim_one_i64:
	mov w9, w2
	mov w8, #1
	add x11, x0, x9, lsl #7
	lsl x10, x8, x3
	add x11, x11, #576
.LBB21_1:
	ldar x8, [x11]
	orr x12, x8, x10
.LBB21_2:
	ldaxr x13, [x11]
	cmp x13, x8
	b.ne .LBB21_4
	stlxr w13, x12, [x11]
	cbz w13, .LBB21_5
	b .LBB21_2
.LBB21_4:
	clrex
	b .LBB21_1
.LBB21_5:
	tst x8, x10
	b.eq .LBB21_7
	mov w0, #1
	mov x1, x8
	ret
.LBB21_7:
	ldr x11, [x1, #24]
	mov w0, wzr
	ldr x12, [x11, x9, lsl #3]
	orr x10, x12, x10
	str x10, [x11, x9, lsl #3]
	ldr x9, [x1, #48]
	add x9, x9, #1
	str x9, [x1, #48]
	mov x1, xzr
	ret
.Lfunc_end21:
	.size tag_search.shared.SharedPort.claim_one_i64, .Lfunc_end21-tag_search.shared.SharedPort.claim_one_i64
	.section .text.tag_c.member.Member.get_whole,"ax",@progbits
	.p2align 2
	.type tag_c.member.Member.get_whole,@function
tag_c.member.Member.get_whole:
	sub sp, sp, #80
	ldr x8, [x0, #256]
	ldr x9, [x0, #288]
	str x21, [sp, #48]
	ldr x21, [x0]
	stp x29, x30, [sp, #32]
	add x29, sp, #32
	cmp x8, x9
	stp x20, x19, [sp, #64]
	stp xzr, xzr, [sp, #16]
	stp xzr, xzr, [sp]
	b.ne .LBB22_3
	mov w0, #-7
.LBB22_2:
	ldp x20, x19, [sp, #64]
	ldr x21, [sp, #48]
	ldp x29, x30, [sp, #32]
	add sp, sp, #80
	ret
.LBB22_3:
	ldr w8, [x21, #184]
	ldr w12, [x0, #224]
	mov x19, x1
	mov x20, x0
	mov x9, xzr
	mov w11, wzr
	cmp w8, w12
	b.ls .LBB22_13
	ldrb w13, [x20, #228]
	mov w10, w11
	tbnz w13, #0, .LBB22_14
	ldr w10, [x21, #188]
	lsr w11, w12, w10
	ldur x12, [x21, #120]
	ubfiz x9, x11, #7, #32
	add x12, x12, x9
	add x12, x12, #576
	ldar x12, [x12]
	mvn x12, x12
	rbit x12, x12
	clz x12, x12
	lsr w13, w12, w10
	cbnz w13, .LBB22_12
	lsl w10, w11, w10
	add w10, w10, w12
	cmp w8, w10
	b.ls .LBB22_12
	ldur x14, [x21, #120]
	mov w13, #1
	lsl x13, x13, x12
	add x9, x14, x9
	add x14, x9, #576
.LBB22_8:
	ldar x9, [x14]
	orr x15, x9, x13
.LBB22_9:
	ldaxr x16, [x14]
	cmp x16, x9
	b.ne .LBB22_11
	stlxr w16, x15, [x14]
	cbz w16, .LBB22_21
	b .LBB22_9
.LBB22_11:
	clrex
	b .LBB22_8
.LBB22_12:
	mov w10, wzr
	mov x9, xzr
	mov w11, #1
	b .LBB22_14
.LBB22_13:
	mov w10, w11
.LBB22_14:
	add x0, sp, #16
	add x1, x21, #120
	add x2, x20, #240
	add x3, x20, #224
	mov x4, sp
	stp w11, w10, [sp]
	str x9, [sp, #8]
	bl tag_search.on_map.finish_i64
	ldrb w8, [sp, #16]
	ldr x9, [sp, #24]
	cmp w8, #1
	b.ne .LBB22_16
	ldr w10, [sp, #20]
	ldr w8, [x21, #232]
	add w0, w8, w10
	cbnz x9, .LBB22_17
	b .LBB22_2
.LBB22_16:
	mov w0, #-10
	cbz x9, .LBB22_2
.LBB22_17:
	ldr x8, [x20]
	ldr x10, [x8, #120]!
	add x10, x10, #8
	ldar x2, [x10]
	cbz x2, .LBB22_19
	cmp x9, #64
	mov w10, #64
	mov w20, w0
	csel x1, x9, x10, lo
	mov x0, x8
	bl tag_bell.telling.tell_each_i64
	mov x8, x0
	mov w0, w20
	b .LBB22_20
.LBB22_19:
	mov x1, xzr
	mov x8, xzr
.LBB22_20:
	mov w9, #1073741824
	stp x8, x1, [x19]
	add w0, w0, w9
	ldp x20, x19, [sp, #64]
	ldr x21, [sp, #48]
	ldp x29, x30, [sp, #32]
	add sp, sp, #80
	ret
.LBB22_21:
	tst x9, x13
	b.eq .LBB22_23
	add w10, w12, #1
	mov w11, #2
	b .LBB22_14
.LBB22_23:
	ldr x9, [x20, #264]
	ldr x12, [x9, x11, lsl #3]
	orr x12, x12, x13
	str x12, [x9, x11, lsl #3]
	ldr x9, [x20, #288]
	ldr w11, [x20, #224]
	add x9, x9, #1
	cmp w10, w11
	str x9, [x20, #288]
	b.ne .LBB22_25
	add w9, w10, #1
	sub w8, w8, #1
	cmp w9, w8
	csinc w8, wzr, w10, hs
	stur w8, [x20, #224]
.LBB22_25:
	mov x9, xzr
	ldr w8, [x21, #232]
	add w0, w8, w10
	b .LBB22_2
.Lfunc_end22:
	.size tag_c.member.Member.get_whole, .Lfunc_end22-tag_c.member.Member.get_whole
	.section .text.tag_search.on_map.finish_i64,"ax",@progbits
	.p2align 2
	.type tag_search.on_map.finish_i64,@function
tag_search.on_map.finish_i64:
	sub sp, sp, #144
	stp x22, x21, [sp, #112]
	ldrb w9, [x4]
	mov x8, x2
	ldp w21, w22, [x1, #64]
	ldr w2, [x4, #4]
	ldr x5, [x4, #8]
	cmp w9, #2
	stp x20, x19, [sp, #128]
	mov x20, x3
	mov x19, x0
	stp x29, x30, [sp, #48]
	add x29, sp, #48
	stp x28, x27, [sp, #64]
	stp x26, x25, [sp, #80]
	stp x24, x23, [sp, #96]
	stp xzr, xzr, [sp, #24]
	stp x1, x8, [sp]
	str xzr, [sp, #16]
	b.eq .LBB23_21
	cmp w9, #1
	b.ne .LBB23_23
	ldr w25, [x20]
	ldr x8, [x1]
	lsl w9, w9, w22
	ldrb w26, [x20, #4]
	lsr w23, w25, w22
	ubfiz x28, x23, #7, #32
	lsl w27, w23, w22
	add x8, x8, x28
	subs w10, w21, w27
	add x8, x8, #640
	cmp w9, w10
	ldar x8, [x8]
	csel w24, w9, w10, lo
	cmp w21, w27
	b.ne .LBB23_24
	cbz x8, .LBB23_7
	ldr q0, [sp]
	fmov x8, d0
	ldr x8, [x8]
	add x8, x8, x28
	add x9, x8, #640
.LBB23_5:
	ldaxr x8, [x9]
	stlxr w10, xzr, [x9]
	cbnz w10, .LBB23_5
	cbnz x8, .LBB23_117
.LBB23_7:
	ldr x8, [sp]
	ldr x8, [x8]
	add x8, x8, x28
	add x8, x8, #576
	ldar xzr, [x8]
	ldr x8, [sp]
	ldr x8, [x8]
	add x8, x8, x28
	add x8, x8, #640
	ldar x8, [x8]
	cbz x8, .LBB23_11
	ldr q0, [sp]
	fmov x8, d0
	ldr x8, [x8]
	add x8, x8, x28
	add x9, x8, #640
.LBB23_9:
	ldaxr x8, [x9]
	stlxr w10, xzr, [x9]
	cbnz w10, .LBB23_9
	cbnz x8, .LBB23_117
.LBB23_11:
	ldr x8, [sp]
	ldr x8, [x8]
	add x8, x8, x28
	add x8, x8, #576
	ldar xzr, [x8]
	ldr x8, [sp]
	ldr x8, [x8]
	add x8, x8, x28
	add x8, x8, #640
	ldar x8, [x8]
	cbz x8, .LBB23_15
	ldr q0, [sp]
	fmov x8, d0
	ldr x8, [x8]
	add x8, x8, x28
	add x9, x8, #640
.LBB23_13:
	ldaxr x8, [x9]
	stlxr w10, xzr, [x9]
	cbnz w10, .LBB23_13
	cbnz x8, .LBB23_117
.LBB23_15:
	ldr x8, [sp]
	ldr x8, [x8]
	add x8, x8, x28
	add x8, x8, #576
	ldar xzr, [x8]
	ldr x8, [sp]
	ldr x8, [x8]
	add x8, x8, x28
	add x8, x8, #640
	ldar x8, [x8]
	cbz x8, .LBB23_19
	ldr q0, [sp]
	fmov x8, d0
	ldr x8, [x8]
	add x8, x8, x28
	add x9, x8, #640
.LBB23_17:
	ldaxr x8, [x9]
	stlxr w10, xzr, [x9]
	cbnz w10, .LBB23_17
	cbnz x8, .LBB23_117
.LBB23_19:
	ldr x8, [sp]
	ldr x8, [x8]
	add x8, x8, x28
	add x8, x8, #576
	ldar xzr, [x8]
.LBB23_20:
	mov x0, sp
	mov w1, w21
	mov w2, w22
	mov w3, w23
	bl tag_search.all_places.search_others__989a3ead4d9545f0
	tbnz w0, #0, .LBB23_143
	b .LBB23_122
.LBB23_21:
	ldr w25, [x20]
	mov w8, #1
	ldrb w26, [x20, #4]
	lsl w8, w8, w22
	mov x0, sp
	mov w4, wzr
	lsr w23, w25, w22
	lsl w27, w23, w22
	mov w1, w23
	sub w9, w21, w27
	cmp w8, w9
	csel w24, w8, w9, lo
	mov w3, w24
	bl tag_search.pass.pass_on__989a3ead4d9545f0
	and w8, w0, #0xff
	cmp w8, #1
	b.ne .LBB23_34
	add w1, w1, w27
	b .LBB23_141
.LBB23_23:
	mov x0, sp
	mov x1, x20
	mov w2, w21
	mov w3, w22
	bl tag_search.search.get_by_scan__989a3ead4d9545f0
	ldr x8, [sp, #16]
	cbnz x8, .LBB23_147
	b .LBB23_149
.LBB23_24:
	cbz x8, .LBB23_28
	ldr q0, [sp]
	fmov x8, d0
	ldr x8, [x8]
	add x8, x8, x28
	add x9, x8, #640
.LBB23_26:
	ldaxr x8, [x9]
	stlxr w10, xzr, [x9]
	cbnz w10, .LBB23_26
	cbnz x8, .LBB23_117
.LBB23_28:
	ldr x8, [sp]
	ldr x8, [x8]
	add x8, x8, x28
	add x8, x8, #576
	ldar x8, [x8]
	mvn x8, x8
	rbit x8, x8
	clz x1, x8
	cmp w24, w1
	b.ls .LBB23_65
	ldp x9, x8, [sp]
	ldr x10, [x9]
	mov w9, #1
	lsl x9, x9, x1
	add x10, x10, x28
	add x10, x10, #576
.LBB23_30:
	ldar x5, [x10]
	orr x11, x5, x9
.LBB23_31:
	ldaxr x12, [x10]
	cmp x12, x5
	b.ne .LBB23_33
	stlxr w12, x11, [x10]
	cbz w12, .LBB23_63
	b .LBB23_31
.LBB23_33:
	clrex
	b .LBB23_30
.LBB23_34:
	ldr x8, [sp]
	ubfiz x28, x23, #7, #32
	cmp w21, w27
	ldr x8, [x8]
	add x8, x8, x28
	add x8, x8, #640
	ldar x8, [x8]
	b.ne .LBB23_53
	cbz x8, .LBB23_39
	ldr q0, [sp]
	fmov x8, d0
	ldr x8, [x8]
	add x8, x8, x28
	add x9, x8, #640
.LBB23_37:
	ldaxr x8, [x9]
	stlxr w10, xzr, [x9]
	cbnz w10, .LBB23_37
	cbnz x8, .LBB23_136
.LBB23_39:
	ldr x8, [sp]
	ldr x8, [x8]
	add x8, x8, x28
	add x8, x8, #576
	ldar xzr, [x8]
	ldr x8, [sp]
	ldr x8, [x8]
	add x8, x8, x28
	add x8, x8, #640
	ldar x8, [x8]
	cbz x8, .LBB23_43
	ldr q0, [sp]
	fmov x8, d0
	ldr x8, [x8]
	add x8, x8, x28
	add x9, x8, #640
.LBB23_41:
	ldaxr x8, [x9]
	stlxr w10, xzr, [x9]
	cbnz w10, .LBB23_41
	cbnz x8, .LBB23_136
.LBB23_43:
	ldr x8, [sp]
	ldr x8, [x8]
	add x8, x8, x28
	add x8, x8, #576
	ldar xzr, [x8]
	ldr x8, [sp]
	ldr x8, [x8]
	add x8, x8, x28
	add x8, x8, #640
	ldar x8, [x8]
	cbz x8, .LBB23_47
	ldr q0, [sp]
	fmov x8, d0
	ldr x8, [x8]
	add x8, x8, x28
	add x9, x8, #640
.LBB23_45:
	ldaxr x8, [x9]
	stlxr w10, xzr, [x9]
	cbnz w10, .LBB23_45
	cbnz x8, .LBB23_136
.LBB23_47:
	ldr x8, [sp]
	ldr x8, [x8]
	add x8, x8, x28
	add x8, x8, #576
	ldar xzr, [x8]
	ldr x8, [sp]
	ldr x8, [x8]
	add x8, x8, x28
	add x8, x8, #640
	ldar x8, [x8]
	cbz x8, .LBB23_51
	ldr q0, [sp]
	fmov x8, d0
	ldr x8, [x8]
	add x8, x8, x28
	add x9, x8, #640
.LBB23_49:
	ldaxr x8, [x9]
	stlxr w10, xzr, [x9]
	cbnz w10, .LBB23_49
	cbnz x8, .LBB23_136
.LBB23_51:
	ldr x8, [sp]
	ldr x8, [x8]
	add x8, x8, x28
	add x8, x8, #576
	ldar xzr, [x8]
.LBB23_52:
	mov x0, sp
	mov w1, w21
	mov w2, w22
	mov w3, w23
	bl tag_search.all_places.search_others__989a3ead4d9545f0
	b .LBB23_142
.LBB23_53:
	cbz x8, .LBB23_57
	ldr q0, [sp]
	fmov x8, d0
	ldr x8, [x8]
	add x8, x8, x28
	add x9, x8, #640
.LBB23_55:
	ldaxr x8, [x9]
	stlxr w10, xzr, [x9]
	cbnz w10, .LBB23_55
	cbnz x8, .LBB23_136
.LBB23_57:
	ldr x8, [sp]
	ldr x8, [x8]
	add x8, x8, x28
	add x8, x8, #576
	ldar x8, [x8]
	mvn x8, x8
	rbit x8, x8
	clz x1, x8
	cmp w24, w1
	b.ls .LBB23_77
	ldp x9, x8, [sp]
	ldr x10, [x9]
	mov w9, #1
	lsl x9, x9, x1
	add x10, x10, x28
	add x10, x10, #576
.LBB23_59:
	ldar x5, [x10]
	orr x11, x5, x9
.LBB23_60:
	ldaxr x12, [x10]
	cmp x12, x5
	b.ne .LBB23_62
	stlxr w12, x11, [x10]
	cbz w12, .LBB23_75
	b .LBB23_60
.LBB23_62:
	clrex
	b .LBB23_59
.LBB23_63:
	tst x5, x9
	b.eq .LBB23_153
	mov x0, sp
	add w2, w1, #1
	mov w1, w23
	mov w3, w24
	mov w4, wzr
	bl tag_search.pass.pass_on__989a3ead4d9545f0
	and w8, w0, #0xff
	cmp w8, #1
	b.eq .LBB23_121
.LBB23_65:
	ldr x8, [sp]
	ldr x8, [x8]
	add x8, x8, x28
	add x8, x8, #640
	ldar x8, [x8]
	cbz x8, .LBB23_69
	ldr q0, [sp]
	fmov x8, d0
	ldr x8, [x8]
	add x8, x8, x28
	add x9, x8, #640
.LBB23_67:
	ldaxr x8, [x9]
	stlxr w10, xzr, [x9]
	cbnz w10, .LBB23_67
	cbnz x8, .LBB23_117
.LBB23_69:
	ldr x8, [sp]
	ldr x8, [x8]
	add x8, x8, x28
	add x8, x8, #576
	ldar x8, [x8]
	mvn x8, x8
	rbit x8, x8
	clz x1, x8
	cmp w24, w1
	b.ls .LBB23_89
	ldp x9, x8, [sp]
	ldr x10, [x9]
	mov w9, #1
	lsl x9, x9, x1
	add x10, x10, x28
	add x10, x10, #576
.LBB23_71:
	ldar x5, [x10]
	orr x11, x5, x9
.LBB23_72:
	ldaxr x12, [x10]
	cmp x12, x5
	b.ne .LBB23_74
	stlxr w12, x11, [x10]
	cbz w12, .LBB23_87
	b .LBB23_72
.LBB23_74:
	clrex
	b .LBB23_71
.LBB23_75:
	tst x5, x9
	b.eq .LBB23_163
	mov x0, sp
	add w2, w1, #1
	mov w1, w23
	mov w3, w24
	mov w4, wzr
	bl tag_search.pass.pass_on__989a3ead4d9545f0
	and w8, w0, #0xff
	cmp w8, #1
	b.eq .LBB23_140
.LBB23_77:
	ldr x8, [sp]
	ldr x8, [x8]
	add x8, x8, x28
	add x8, x8, #640
	ldar x8, [x8]
	cbz x8, .LBB23_81
	ldr q0, [sp]
	fmov x8, d0
	ldr x8, [x8]
	add x8, x8, x28
	add x9, x8, #640
.LBB23_79:
	ldaxr x8, [x9]
	stlxr w10, xzr, [x9]
	cbnz w10, .LBB23_79
	cbnz x8, .LBB23_136
.LBB23_81:
	ldr x8, [sp]
	ldr x8, [x8]
	add x8, x8, x28
	add x8, x8, #576
	ldar x8, [x8]
	mvn x8, x8
	rbit x8, x8
	clz x1, x8
	cmp w24, w1
	b.ls .LBB23_101
	ldp x9, x8, [sp]
	ldr x10, [x9]
	mov w9, #1
	lsl x9, x9, x1
	add x10, x10, x28
	add x10, x10, #576
.LBB23_83:
	ldar x5, [x10]
	orr x11, x5, x9
.LBB23_84:
	ldaxr x12, [x10]
	cmp x12, x5
	b.ne .LBB23_86
	stlxr w12, x11, [x10]
	cbz w12, .LBB23_99
	b .LBB23_84
.LBB23_86:
	clrex
	b .LBB23_83
.LBB23_87:
	tst x5, x9
	b.eq .LBB23_123
	mov x0, sp
	add w2, w1, #1
	mov w1, w23
	mov w3, w24
	mov w4, wzr
	bl tag_search.pass.pass_on__989a3ead4d9545f0
	and w8, w0, #0xff
	cmp w8, #1
	b.eq .LBB23_121
.LBB23_89:
	ldr x8, [sp]
	ldr x8, [x8]
	add x8, x8, x28
	add x8, x8, #640
	ldar x8, [x8]
	cbz x8, .LBB23_93
	ldr q0, [sp]
	fmov x8, d0
	ldr x8, [x8]
	add x8, x8, x28
	add x9, x8, #640
.LBB23_91:
	ldaxr x8, [x9]
	stlxr w10, xzr, [x9]
	cbnz w10, .LBB23_91
	cbnz x8, .LBB23_117
.LBB23_93:
	ldr x8, [sp]
	ldr x8, [x8]
	add x8, x8, x28
	add x8, x8, #576
	ldar x8, [x8]
	mvn x8, x8
	rbit x8, x8
	clz x1, x8
	cmp w24, w1
	b.ls .LBB23_113
	ldp x9, x8, [sp]
	ldr x10, [x9]
	mov w9, #1
	lsl x9, x9, x1
	add x10, x10, x28
	add x10, x10, #576
.LBB23_95:
	ldar x5, [x10]
	orr x11, x5, x9
.LBB23_96:
	ldaxr x12, [x10]
	cmp x12, x5
	b.ne .LBB23_98
	stlxr w12, x11, [x10]
	cbz w12, .LBB23_111
	b .LBB23_96
.LBB23_98:
	clrex
	b .LBB23_95
.LBB23_99:
	tst x5, x9
	b.eq .LBB23_150
	mov x0, sp
	add w2, w1, #1
	mov w1, w23
	mov w3, w24
	mov w4, wzr
	bl tag_search.pass.pass_on__989a3ead4d9545f0
	and w8, w0, #0xff
	cmp w8, #1
	b.eq .LBB23_140
.LBB23_101:
	ldr x8, [sp]
	ldr x8, [x8]
	add x8, x8, x28
	add x8, x8, #640
	ldar x8, [x8]
	cbz x8, .LBB23_105
	ldr q0, [sp]
	fmov x8, d0
	ldr x8, [x8]
	add x8, x8, x28
	add x9, x8, #640
.LBB23_103:
	ldaxr x8, [x9]
	stlxr w10, xzr, [x9]
	cbnz w10, .LBB23_103
	cbnz x8, .LBB23_136
.LBB23_105:
	ldr x8, [sp]
	ldr x8, [x8]
	add x8, x8, x28
	add x8, x8, #576
	ldar x8, [x8]
	mvn x8, x8
	rbit x8, x8
	clz x1, x8
	cmp w24, w1
	b.ls .LBB23_132
	ldp x9, x8, [sp]
	ldr x10, [x9]
	mov w9, #1
	lsl x9, x9, x1
	add x10, x10, x28
	add x10, x10, #576
.LBB23_107:
	ldar x5, [x10]
	orr x11, x5, x9
.LBB23_108:
	ldaxr x12, [x10]
	cmp x12, x5
	b.ne .LBB23_110
	stlxr w12, x11, [x10]
	cbz w12, .LBB23_130
	b .LBB23_108
.LBB23_110:
	clrex
	b .LBB23_107
.LBB23_111:
	tst x5, x9
	b.eq .LBB23_153
	mov x0, sp
	add w2, w1, #1
	mov w1, w23
	mov w3, w24
	mov w4, wzr
	bl tag_search.pass.pass_on__989a3ead4d9545f0
	and w8, w0, #0xff
	cmp w8, #1
	b.eq .LBB23_121
.LBB23_113:
	ldr x8, [sp]
	ldr x8, [x8]
	add x8, x8, x28
	add x8, x8, #640
	ldar x8, [x8]
	cbz x8, .LBB23_124
	ldr q0, [sp]
	fmov x8, d0
	ldr x8, [x8]
	add x8, x8, x28
	add x9, x8, #640
.LBB23_115:
	ldaxr x8, [x9]
	stlxr w10, xzr, [x9]
	cbnz w10, .LBB23_115
	cbz x8, .LBB23_124
.LBB23_117:
	mov x9, v0.d[1]
	rbit x10, x8
	clz x1, x10
	mov w10, #1
	lsl x10, x10, x1
	ldr x11, [x9, #24]
	bics x8, x8, x10
	ldr x12, [x11, w23, uxtw #3]
	orr x12, x12, x10
	str x12, [x11, w23, uxtw #3]
	ldr x11, [x9, #48]
	add x11, x11, #1
	str x11, [x9, #48]
	b.eq .LBB23_121
	fmov x9, d0
	ldr x9, [x9]
	add x9, x9, x28
	add x9, x9, #576
.LBB23_119:
	ldaxr x10, [x9]
	sub x10, x10, x8
	stlxr w11, x10, [x9]
	cbnz w11, .LBB23_119
	fmov d0, x8
	str w23, [sp, #24]
	ldr x9, [sp, #16]
	str x8, [sp, #32]
	cnt v0.8b, v0.8b
	addv b0, v0.8b
	fmov x10, d0
	adds x9, x10, x9
	csinv x9, x9, xzr, lo
	str x9, [sp, #16]
.LBB23_121:
	add w1, w1, w27
	mov w0, #1
	tbnz w0, #0, .LBB23_143
.LBB23_122:
	str wzr, [x20]
	ldr x8, [sp, #16]
	cbnz x8, .LBB23_147
	b .LBB23_149
.LBB23_123:
	ldr x10, [x8, #24]
	b .LBB23_154
.LBB23_124:
	ldr x8, [sp]
	ldr x8, [x8]
	add x8, x8, x28
	add x8, x8, #576
	ldar x8, [x8]
	mvn x8, x8
	rbit x8, x8
	clz x1, x8
	cmp w24, w1
	b.ls .LBB23_20
	ldp x9, x8, [sp]
	ldr x10, [x9]
	mov w9, #1
	lsl x9, x9, x1
	add x10, x10, x28
	add x10, x10, #576
.LBB23_126:
	ldar x5, [x10]
	orr x11, x5, x9
.LBB23_127:
	ldaxr x12, [x10]
	cmp x12, x5
	b.ne .LBB23_129
	stlxr w12, x11, [x10]
	cbz w12, .LBB23_151
	b .LBB23_127
.LBB23_129:
	clrex
	b .LBB23_126
.LBB23_130:
	tst x5, x9
	b.eq .LBB23_163
	mov x0, sp
	add w2, w1, #1
	mov w1, w23
	mov w3, w24
	mov w4, wzr
	bl tag_search.pass.pass_on__989a3ead4d9545f0
	and w8, w0, #0xff
	cmp w8, #1
	b.eq .LBB23_140
.LBB23_132:
	ldr x8, [sp]
	ldr x8, [x8]
	add x8, x8, x28
	add x8, x8, #640
	ldar x8, [x8]
	cbz x8, .LBB23_155
	ldr q0, [sp]
	fmov x8, d0
	ldr x8, [x8]
	add x8, x8, x28
	add x9, x8, #640
.LBB23_134:
	ldaxr x8, [x9]
	stlxr w10, xzr, [x9]
	cbnz w10, .LBB23_134
	cbz x8, .LBB23_155
.LBB23_136:
	mov x9, v0.d[1]
	rbit x10, x8
	clz x1, x10
	mov w10, #1
	lsl x10, x10, x1
	ldr x11, [x9, #24]
	bics x8, x8, x10
	ldr x12, [x11, w23, uxtw #3]
	orr x12, x12, x10
	str x12, [x11, w23, uxtw #3]
	ldr x11, [x9, #48]
	add x11, x11, #1
	str x11, [x9, #48]
	b.eq .LBB23_140
	fmov x9, d0
	ldr x9, [x9]
	add x9, x9, x28
	add x9, x9, #576
.LBB23_138:
	ldaxr x10, [x9]
	sub x10, x10, x8
	stlxr w11, x10, [x9]
	cbnz w11, .LBB23_138
	fmov d0, x8
	str w23, [sp, #24]
	ldr x9, [sp, #16]
	str x8, [sp, #32]
	cnt v0.8b, v0.8b
	addv b0, v0.8b
	fmov x10, d0
	adds x9, x10, x9
	csinv x9, x9, xzr, lo
	str x9, [sp, #16]
.LBB23_140:
	add w1, w1, w27
.LBB23_141:
	mov w0, #1
.LBB23_142:
	tbz w0, #0, .LBB23_122
.LBB23_143:
	cmp w1, w25
	b.eq .LBB23_145
	tbz w26, #0, .LBB23_146
.LBB23_145:
	add w8, w1, #1
	sub w9, w21, #1
	cmp w8, w9
	csinc w25, wzr, w1, hs
.LBB23_146:
	str w25, [x20]
	ldr x8, [sp, #16]
	cbz x8, .LBB23_149
.LBB23_147:
	ldr x10, [sp, #8]
	ldr w9, [sp, #24]
	ldr x11, [x10, #32]
	cmp x11, x9
	b.ls .LBB23_149
	ldr x10, [x10, #24]
	ldr x11, [sp, #32]
	ldr x9, [x10, x9, lsl #3]
	and x9, x9, x11
	fmov d0, x9
	cnt v0.8b, v0.8b
	addv b0, v0.8b
	fmov x9, d0
	subs x8, x8, x9
	csel x8, xzr, x8, lo
.LBB23_149:
	and w9, w0, #0xff
	str x8, [x19, #8]
	stp w9, w1, [x19]
	ldp x20, x19, [sp, #128]
	ldp x22, x21, [sp, #112]
	ldp x24, x23, [sp, #96]
	ldp x26, x25, [sp, #80]
	ldp x28, x27, [sp, #64]
	ldp x29, x30, [sp, #48]
	add sp, sp, #144
	ret
.LBB23_150:
	ldr x10, [x8, #24]
	b .LBB23_164
.LBB23_151:
	tst x5, x9
	b.eq .LBB23_153
	mov x0, sp
	add w2, w1, #1
	mov w1, w23
	mov w3, w24
	mov w4, wzr
	bl tag_search.pass.pass_on__989a3ead4d9545f0
	and w8, w0, #0xff
	cmp w8, #1
	b.ne .LBB23_20
	b .LBB23_121
.LBB23_153:
	ldr x10, [x8, #24]
.LBB23_154:
	ldr x11, [x10, w23, uxtw #3]
	orr x9, x11, x9
	str x9, [x10, w23, uxtw #3]
	ldr x9, [x8, #48]
	add x9, x9, #1
	str x9, [x8, #48]
	b .LBB23_121
.LBB23_155:
	ldr x8, [sp]
	ldr x8, [x8]
	add x8, x8, x28
	add x8, x8, #576
	ldar x8, [x8]
	mvn x8, x8
	rbit x8, x8
	clz x1, x8
	cmp w24, w1
	b.ls .LBB23_52
	ldp x9, x8, [sp]
	ldr x10, [x9]
	mov w9, #1
	lsl x9, x9, x1
	add x10, x10, x28
	add x10, x10, #576
.LBB23_157:
	ldar x5, [x10]
	orr x11, x5, x9
.LBB23_158:
	ldaxr x12, [x10]
	cmp x12, x5
	b.ne .LBB23_160
	stlxr w12, x11, [x10]
	cbz w12, .LBB23_161
	b .LBB23_158
.LBB23_160:
	clrex
	b .LBB23_157
.LBB23_161:
	tst x5, x9
	b.eq .LBB23_163
	mov x0, sp
	add w2, w1, #1
	mov w1, w23
	mov w3, w24
	mov w4, wzr
	bl tag_search.pass.pass_on__989a3ead4d9545f0
	and w8, w0, #0xff
	cmp w8, #1
	b.ne .LBB23_52
	b .LBB23_140
.LBB23_163:
	ldr x10, [x8, #24]
.LBB23_164:
	ldr x11, [x10, w23, uxtw #3]
	orr x9, x11, x9
	str x9, [x10, w23, uxtw #3]
	ldr x9, [x8, #48]
	add x9, x9, #1
	str x9, [x8, #48]
	b .LBB23_140
.Lfunc_end23:
	.size tag_search.on_map.finish_i64, .Lfunc_end23-tag_search.on_map.finish_i64
	.section .text.tag_search.search.get_by_scan__989a3ead4d9545f0,"ax",@progbits
	.p2align 2
	.type tag_search.search.get_by_scan__989a3ead4d9545f0,@function
tag_search.search.get_by_scan__989a3ead4d9545f0:
	sub sp, sp, #80
	str x21, [sp, #48]
	ldr w21, [x1]
	stp x20, x19, [sp, #64]
	mov x19, x1
	mov w20, w2
	cmp w21, w2
	mov x1, x0
	stp x29, x30, [sp, #32]
	add x29, sp, #32
	b.lo .LBB24_4
	cbz w20, .LBB24_3
	udiv w8, w21, w20
	msub w21, w8, w20, w21
	b .LBB24_4
.LBB24_3:
	mov w21, wzr
.LBB24_4:
	mov w9, w3
	mov w10, w20
	mov w11, #-1
	ldrb w8, [x19, #4]
	orr x9, x10, x9, lsl #32
	lsl w10, w11, w3
	lsr w11, w21, w3
	mov x0, sp
	str xzr, [sp, #16]
	str x9, [sp]
	bic w9, w21, w10
	cmp w8, #0
	eor w12, w8, #0x1
	csel w8, w9, wzr, ne
	sturh wzr, [sp, #25]
	strb w12, [sp, #24]
	stp w11, w8, [sp, #8]
	strb wzr, [sp, #27]
	bl tag_search.scan.Scan.search__989a3ead4d9545f0
	mov w8, wzr
	tbz w0, #0, .LBB24_7
	cmp w1, w21
	b.eq .LBB24_8
	ldrb w9, [x19, #4]
	mov w8, w21
	tbnz w9, #0, .LBB24_8
.LBB24_7:
	str w8, [x19]
	ldp x20, x19, [sp, #64]
	ldp x29, x30, [sp, #32]
	ldr x21, [sp, #48]
	add sp, sp, #80
	ret
.LBB24_8:
	add w8, w1, #1
	sub w9, w20, #1
	cmp w8, w9
	csinc w8, wzr, w1, hs
	str w8, [x19]
	ldp x20, x19, [sp, #64]
	ldp x29, x30, [sp, #32]
	ldr x21, [sp, #48]
	add sp, sp, #80
	ret
.Lfunc_end24:
	.size tag_search.search.get_by_scan__989a3ead4d9545f0, .Lfunc_end24-tag_search.search.get_by_scan__989a3ead4d9545f0
	.section .text.tag_search.scan.Scan.search__989a3ead4d9545f0,"ax",@progbits
	.p2align 2
	.type tag_search.scan.Scan.search__989a3ead4d9545f0,@function
tag_search.scan.Scan.search__989a3ead4d9545f0:
	sub sp, sp, #64
	ldp w10, w9, [x0]
	mov w8, #1
	stp x22, x21, [sp, #32]
	mov x21, x1
	stp x20, x19, [sp, #48]
	ldr w20, [x0, #8]
	mov x19, x0
	lsl w8, w8, w9
	stp x29, x30, [sp, #16]
	add x29, sp, #16
	add w8, w10, w8
	sub w8, w8, #1
	lsr w22, w8, w9
	cmp w20, w22
	b.hs .LBB25_10
.LBB25_1:
	ldr w8, [x19, #8]
	cmp w20, w8
	b.ne .LBB25_3
	ldr w9, [x19, #12]
	b .LBB25_4
.LBB25_3:
	mov w9, wzr
.LBB25_4:
	ldp w10, w11, [x19]
	mov w13, #1
	ldrb w14, [x19, #16]
	lsl w12, w20, w11
	lsl w11, w13, w11
	sub w13, w10, w12
	cmp w11, w13
	csel w11, w11, w13, lo
	cbz w14, .LBB25_7
	cbz w10, .LBB25_24
	mov x13, #1099511627776
	ldr w14, [x19, #20]
	add w11, w11, w12
	udiv x13, x13, x10
	cmp w10, w14
	csel w14, w10, w14, lo
	cmp w10, w11
	csel w11, w10, w11, lo
	cmp w10, w12
	csel w10, w10, w12, lo
	madd x13, x14, x13, x14
	mul x11, x13, x11
	mul x10, x13, x10
	lsr x11, x11, #40
	sub x11, x11, x10, lsr #40
.LBB25_7:
	ldrb w10, [x19, #24]
	cmp w11, w9
	add x2, sp, #4
	csel w12, w11, w9, lo
	mov x0, x21
	mov w1, w20
	cmp w10, #0
	stp w9, w11, [sp, #4]
	csel w10, w12, wzr, ne
	cmp w20, w8
	mov w8, #4
	csinc w3, w8, wzr, eq
	str w10, [sp, #12]
	bl tag_search.pass.visit__989a3ead4d9545f0
	and w8, w0, #0xff
	cmp w8, #1
	b.eq .LBB25_21
	add w20, w20, #1
	cmp w22, w20
	b.ne .LBB25_1
	ldr w20, [x19, #8]
.LBB25_10:
	cbz w20, .LBB25_20
	mov w22, wzr
.LBB25_12:
	ldr w8, [x19, #8]
	cmp w22, w8
	b.ne .LBB25_14
	ldr w9, [x19, #12]
	b .LBB25_15
.LBB25_14:
	mov w9, wzr
.LBB25_15:
	ldp w10, w11, [x19]
	mov w13, #1
	ldrb w14, [x19, #16]
	lsl w12, w22, w11
	lsl w11, w13, w11
	sub w13, w10, w12
	cmp w11, w13
	csel w11, w11, w13, lo
	cbz w14, .LBB25_18
	cbz w10, .LBB25_24
	mov x13, #1099511627776
	ldr w14, [x19, #20]
	add w11, w11, w12
	udiv x13, x13, x10
	cmp w10, w14
	csel w14, w10, w14, lo
	cmp w10, w11
	csel w11, w10, w11, lo
	cmp w10, w12
	csel w10, w10, w12, lo
	madd x13, x14, x13, x14
	mul x11, x13, x11
	mul x10, x13, x10
	lsr x11, x11, #40
	sub x11, x11, x10, lsr #40
.LBB25_18:
	ldrb w10, [x19, #24]
	cmp w11, w9
	add x2, sp, #4
	csel w12, w11, w9, lo
	mov x0, x21
	mov w1, w22
	cmp w10, #0
	stp w9, w11, [sp, #4]
	csel w10, w12, wzr, ne
	cmp w22, w8
	mov w8, #4
	csinc w3, w8, wzr, eq
	str w10, [sp, #12]
	bl tag_search.pass.visit__989a3ead4d9545f0
	and w8, w0, #0xff
	cmp w8, #1
	b.eq .LBB25_22
	add w22, w22, #1
	cmp w20, w22
	b.ne .LBB25_12
.LBB25_20:
	mov w1, wzr
	mov w0, wzr
	ldp x20, x19, [sp, #48]
	ldp x22, x21, [sp, #32]
	ldp x29, x30, [sp, #16]
	add sp, sp, #64
	ret
.LBB25_21:
	ldr w8, [x19, #4]
	lsl w8, w20, w8
	b .LBB25_23
.LBB25_22:
	ldr w8, [x19, #4]
	lsl w8, w22, w8
.LBB25_23:
	add w1, w8, w1
	mov w0, #1
	ldp x20, x19, [sp, #48]
	ldp x22, x21, [sp, #32]
	ldp x29, x30, [sp, #16]
	add sp, sp, #64
	ret
.LBB25_24:
	brk #0x1
.Lfunc_end25:
	.size tag_search.scan.Scan.search__989a3ead4d9545f0, .Lfunc_end25-tag_search.scan.Scan.search__989a3ead4d9545f0
	.section .text.tag_search.pass.visit__989a3ead4d9545f0,"ax",@progbits
	.p2align 2
	.type tag_search.pass.visit__989a3ead4d9545f0,@function
tag_search.pass.visit__989a3ead4d9545f0:
	stp x29, x30, [sp, #-80]!
	ldr x8, [x0]
	stp x20, x19, [sp, #64]
	mov w19, w1
	stp x24, x23, [sp, #32]
	ubfiz x23, x19, #7, #32
	ldr w24, [x2, #8]
	ldr x8, [x8]
	str x25, [sp, #16]
	mov x20, x0
	stp x22, x21, [sp, #48]
	mov w22, w3
	mov x29, sp
	add x8, x8, x23
	ldp w25, w21, [x2]
	add x8, x8, #576
	ldar x8, [x8]
	cmp w21, w25
	mvn x8, x8
	b.ls .LBB26_2
	lsr x9, x8, x25
	mov w3, w21
	mov w4, w24
	rbit x9, x9
	clz x9, x9
	add w1, w25, w9
	cmp w1, w21
	b.lo .LBB26_5
.LBB26_2:
	cbz w24, .LBB26_12
	rbit x8, x8
	clz x1, x8
	cmp w24, w1
	b.ls .LBB26_12
	mov w4, wzr
	mov w3, w24
.LBB26_5:
	ldp x9, x8, [x20]
	ldr x10, [x9]
	mov w9, #1
	lsl x9, x9, x1
	add x10, x10, x23
	add x10, x10, #576
.LBB26_6:
	ldar x5, [x10]
	orr x11, x5, x9
.LBB26_7:
	ldaxr x12, [x10]
	cmp x12, x5
	b.ne .LBB26_9
	stlxr w12, x11, [x10]
	cbz w12, .LBB26_10
	b .LBB26_7
.LBB26_9:
	clrex
	b .LBB26_6
.LBB26_10:
	tst x5, x9
	b.eq .LBB26_49
	add w2, w1, #1
	mov x0, x20
	mov w1, w19
	bl tag_search.pass.pass_on__989a3ead4d9545f0
	and w8, w0, #0xff
	cmp w8, #1
	b.eq .LBB26_50
.LBB26_12:
	ldr x8, [x20]
	ldr x8, [x8]
	add x8, x8, x23
	add x8, x8, #640
	ldar x8, [x8]
	cbz x8, .LBB26_19
	ldr x9, [x20]
	ldr x8, [x9]
	add x8, x8, x23
	add x10, x8, #640
.LBB26_14:
	ldaxr x8, [x10]
	stlxr w11, xzr, [x10]
	cbnz w11, .LBB26_14
	cbz x8, .LBB26_19
	ldr x9, [x9]
	add x9, x9, x23
	add x9, x9, #576
.LBB26_17:
	ldaxr x10, [x9]
	sub x10, x10, x8
	stlxr w11, x10, [x9]
	cbnz w11, .LBB26_17
	fmov d0, x8
	str w19, [x20, #24]
	ldr x9, [x20, #16]
	str x8, [x20, #32]
	cnt v0.8b, v0.8b
	addv b0, v0.8b
	fmov x10, d0
	adds x9, x10, x9
	csinv x9, x9, xzr, lo
	str x9, [x20, #16]
.LBB26_19:
	ldr x8, [x20]
	cmp w21, w25
	ldr x8, [x8]
	add x8, x8, x23
	add x8, x8, #576
	ldar x8, [x8]
	mvn x8, x8
	b.ls .LBB26_21
	lsr x9, x8, x25
	mov w3, w21
	mov w4, w24
	rbit x9, x9
	clz x9, x9
	add w1, w25, w9
	cmp w1, w21
	b.lo .LBB26_24
.LBB26_21:
	cbz w24, .LBB26_31
	rbit x8, x8
	clz x1, x8
	cmp w24, w1
	b.ls .LBB26_31
	mov w4, wzr
	mov w3, w24
.LBB26_24:
	ldp x9, x8, [x20]
	ldr x10, [x9]
	mov w9, #1
	lsl x9, x9, x1
	add x10, x10, x23
	add x10, x10, #576
.LBB26_25:
	ldar x5, [x10]
	orr x11, x5, x9
.LBB26_26:
	ldaxr x12, [x10]
	cmp x12, x5
	b.ne .LBB26_28
	stlxr w12, x11, [x10]
	cbz w12, .LBB26_29
	b .LBB26_26
.LBB26_28:
	clrex
	b .LBB26_25
.LBB26_29:
	tst x5, x9
	b.eq .LBB26_76
	add w2, w1, #1
	mov x0, x20
	mov w1, w19
	bl tag_search.pass.pass_on__989a3ead4d9545f0
	and w8, w0, #0xff
	cmp w8, #1
	b.eq .LBB26_50
.LBB26_31:
	cmp w22, #1
	b.eq .LBB26_74
	ldr x8, [x20]
	ldr x8, [x8]
	add x8, x8, x23
	add x8, x8, #640
	ldar x8, [x8]
	cbz x8, .LBB26_39
	ldr x9, [x20]
	ldr x8, [x9]
	add x8, x8, x23
	add x10, x8, #640
.LBB26_34:
	ldaxr x8, [x10]
	stlxr w11, xzr, [x10]
	cbnz w11, .LBB26_34
	cbz x8, .LBB26_39
	ldr x9, [x9]
	add x9, x9, x23
	add x9, x9, #576
.LBB26_37:
	ldaxr x10, [x9]
	sub x10, x10, x8
	stlxr w11, x10, [x9]
	cbnz w11, .LBB26_37
	fmov d0, x8
	str w19, [x20, #24]
	ldr x9, [x20, #16]
	str x8, [x20, #32]
	cnt v0.8b, v0.8b
	addv b0, v0.8b
	fmov x10, d0
	adds x9, x10, x9
	csinv x9, x9, xzr, lo
	str x9, [x20, #16]
.LBB26_39:
	ldr x8, [x20]
	cmp w21, w25
	ldr x8, [x8]
	add x8, x8, x23
	add x8, x8, #576
	ldar x8, [x8]
	mvn x8, x8
	b.ls .LBB26_41
	lsr x9, x8, x25
	mov w3, w21
	mov w4, w24
	rbit x9, x9
	clz x9, x9
	add w1, w25, w9
	cmp w1, w21
	b.lo .LBB26_44
.LBB26_41:
	cbz w24, .LBB26_53
	rbit x8, x8
	clz x1, x8
	cmp w24, w1
	b.ls .LBB26_53
	mov w4, wzr
	mov w3, w24
.LBB26_44:
	ldp x9, x8, [x20]
	ldr x10, [x9]
	mov w9, #1
	lsl x9, x9, x1
	add x10, x10, x23
	add x10, x10, #576
.LBB26_45:
	ldar x5, [x10]
	orr x11, x5, x9
.LBB26_46:
	ldaxr x12, [x10]
	cmp x12, x5
	b.ne .LBB26_48
	stlxr w12, x11, [x10]
	cbz w12, .LBB26_51
	b .LBB26_46
.LBB26_48:
	clrex
	b .LBB26_45
.LBB26_49:
	ldr x10, [x8, #24]
	ldr x11, [x10, w19, uxtw #3]
	orr x9, x11, x9
	str x9, [x10, w19, uxtw #3]
	ldr x9, [x8, #48]
	add x9, x9, #1
	str x9, [x8, #48]
.LBB26_50:
	mov w4, #1
	b .LBB26_77
.LBB26_51:
	tst x5, x9
	b.eq .LBB26_75
	add w2, w1, #1
	mov x0, x20
	mov w1, w19
	bl tag_search.pass.pass_on__989a3ead4d9545f0
	and w8, w0, #0xff
	cmp w8, #1
	b.eq .LBB26_50
.LBB26_53:
	cmp w22, #2
	b.eq .LBB26_74
	ldr x8, [x20]
	ldr x8, [x8]
	add x8, x8, x23
	add x8, x8, #640
	ldar x8, [x8]
	cbz x8, .LBB26_61
	ldr x9, [x20]
	ldr x8, [x9]
	add x8, x8, x23
	add x10, x8, #640
.LBB26_56:
	ldaxr x8, [x10]
	stlxr w11, xzr, [x10]
	cbnz w11, .LBB26_56
	cbz x8, .LBB26_61
	ldr x9, [x9]
	add x9, x9, x23
	add x9, x9, #576
.LBB26_59:
	ldaxr x10, [x9]
	sub x10, x10, x8
	stlxr w11, x10, [x9]
	cbnz w11, .LBB26_59
	fmov d0, x8
	str w19, [x20, #24]
	ldr x9, [x20, #16]
	str x8, [x20, #32]
	cnt v0.8b, v0.8b
	addv b0, v0.8b
	fmov x10, d0
	adds x9, x10, x9
	csinv x9, x9, xzr, lo
	str x9, [x20, #16]
.LBB26_61:
	ldr x8, [x20]
	cmp w21, w25
	ldr x8, [x8]
	add x8, x8, x23
	add x8, x8, #576
	ldar x8, [x8]
	mvn x8, x8
	b.ls .LBB26_63
	lsr x9, x8, x25
	mov w3, w21
	mov w4, w24
	rbit x9, x9
	clz x9, x9
	add w1, w25, w9
	cmp w1, w21
	b.lo .LBB26_66
.LBB26_63:
	cbz w24, .LBB26_73
	rbit x8, x8
	clz x1, x8
	cmp w24, w1
	b.ls .LBB26_73
	mov w4, wzr
	mov w3, w24
.LBB26_66:
	ldp x9, x8, [x20]
	ldr x10, [x9]
	mov w9, #1
	lsl x9, x9, x1
	add x10, x10, x23
	add x10, x10, #576
.LBB26_67:
	ldar x5, [x10]
	orr x11, x5, x9
.LBB26_68:
	ldaxr x12, [x10]
	cmp x12, x5
	b.ne .LBB26_70
	stlxr w12, x11, [x10]
	cbz w12, .LBB26_71
	b .LBB26_68
.LBB26_70:
	clrex
	b .LBB26_67
.LBB26_71:
	tst x5, x9
	b.eq .LBB26_75
	add w2, w1, #1
	mov x0, x20
	mov w1, w19
	bl tag_search.pass.pass_on__989a3ead4d9545f0
	and w8, w0, #0xff
	cmp w8, #1
	b.eq .LBB26_50
.LBB26_73:
	cmp w22, #3
	b.ne .LBB26_78
.LBB26_74:
	mov w4, wzr
	mov w1, wzr
	b .LBB26_77
.LBB26_75:
.LBB26_76:
	ldr x10, [x8, #24]
	mov w4, #1
	ldr x11, [x10, w19, uxtw #3]
	orr x9, x11, x9
	str x9, [x10, w19, uxtw #3]
	ldr x9, [x8, #48]
	add x9, x9, #1
	str x9, [x8, #48]
.LBB26_77:
	ldp x20, x19, [sp, #64]
	mov w0, w4
	ldp x22, x21, [sp, #48]
	ldr x25, [sp, #16]
	ldp x24, x23, [sp, #32]
	ldp x29, x30, [sp], #80
	ret
.LBB26_78:
	ldr x8, [x20]
	ldr x8, [x8]
	add x8, x8, x23
	add x8, x8, #640
	ldar x8, [x8]
	cbz x8, .LBB26_85
	ldr x9, [x20]
	ldr x8, [x9]
	add x8, x8, x23
	add x10, x8, #640
.LBB26_80:
	ldaxr x8, [x10]
	stlxr w11, xzr, [x10]
	cbnz w11, .LBB26_80
	cbz x8, .LBB26_85
	ldr x9, [x9]
	add x9, x9, x23
	add x9, x9, #576
.LBB26_83:
	ldaxr x10, [x9]
	sub x10, x10, x8
	stlxr w11, x10, [x9]
	cbnz w11, .LBB26_83
	fmov d0, x8
	str w19, [x20, #24]
	ldr x9, [x20, #16]
	str x8, [x20, #32]
	cnt v0.8b, v0.8b
	addv b0, v0.8b
	fmov x10, d0
	adds x9, x10, x9
	csinv x9, x9, xzr, lo
	str x9, [x20, #16]
.LBB26_85:
	ldr x8, [x20]
	cmp w21, w25
	ldr x8, [x8]
	add x8, x8, x23
	add x8, x8, #576
	ldar x8, [x8]
	mvn x8, x8
	b.ls .LBB26_88
	lsr x9, x8, x25
	rbit x9, x9
	clz x9, x9
	add w10, w25, w9
	cmp w10, w21
	b.hs .LBB26_88
	mov w4, w24
	b .LBB26_90
.LBB26_88:
	mov w4, wzr
	cbz w24, .LBB26_98
	rbit x8, x8
	mov w21, w24
	mov w1, w4
	clz x10, x8
	cmp w24, w10
	b.ls .LBB26_77
.LBB26_90:
	ldp x9, x8, [x20]
	ldr x11, [x9]
	mov w9, #1
	lsl x9, x9, x10
	add x11, x11, x23
	add x11, x11, #576
.LBB26_91:
	ldar x5, [x11]
	orr x12, x5, x9
.LBB26_92:
	ldaxr x13, [x11]
	cmp x13, x5
	b.ne .LBB26_94
	stlxr w13, x12, [x11]
	cbz w13, .LBB26_95
	b .LBB26_92
.LBB26_94:
	clrex
	b .LBB26_91
.LBB26_95:
	tst x5, x9
	b.eq .LBB26_97
	add w2, w10, #1
	mov x0, x20
	mov w1, w19
	mov w3, w21
	bl tag_search.pass.pass_on__989a3ead4d9545f0
	and w8, w0, #0xff
	cmp w8, #1
	b.ne .LBB26_74
	b .LBB26_50
.LBB26_97:
	mov w1, w10
	b .LBB26_76
.LBB26_98:
	mov w1, w4
	b .LBB26_77
.Lfunc_end26:
	.size tag_search.pass.visit__989a3ead4d9545f0, .Lfunc_end26-tag_search.pass.visit__989a3ead4d9545f0
	.section .text.tag_search.pass.pass_on__989a3ead4d9545f0,"ax",@progbits
	.p2align 2
	.type tag_search.pass.pass_on__989a3ead4d9545f0,@function
tag_search.pass.pass_on__989a3ead4d9545f0:
	ubfiz x9, x1, #7, #32
	b .LBB27_6
.LBB27_1:
	ldar x5, [x13]
	orr x14, x5, x12
.LBB27_2:
	ldaxr x15, [x13]
	cmp x15, x5
	b.ne .LBB27_4
	stlxr w15, x14, [x13]
	cbz w15, .LBB27_5
	b .LBB27_2
.LBB27_4:
	clrex
	b .LBB27_1
.LBB27_5:
	tst x5, x12
	add w2, w10, #1
	mov w4, w8
	b.eq .LBB27_12
.LBB27_6:
	cmp w3, w2
	mvn x11, x5
	b.ls .LBB27_9
	lsr x8, x11, x2
	rbit x8, x8
	clz x8, x8
	add w10, w2, w8
	cmp w10, w3
	b.hs .LBB27_9
	mov w8, w4
	b .LBB27_11
.LBB27_9:
	mov w8, wzr
	cbz w4, .LBB27_14
	rbit x10, x11
	mov w3, w4
	mov w2, w8
	clz x10, x10
	cmp w4, w10
	b.ls .LBB27_13
.LBB27_11:
	ldp x12, x11, [x0]
	ldr x13, [x12]
	mov w12, #1
	lsl x12, x12, x10
	add x13, x13, x9
	add x13, x13, #576
	b .LBB27_1
.LBB27_12:
	ldr x8, [x11, #24]
	mov w2, w10
	ldr x9, [x8, w1, uxtw #3]
	orr x9, x9, x12
	str x9, [x8, w1, uxtw #3]
	ldr x8, [x11, #48]
	add x9, x8, #1
	mov w8, #1
	str x9, [x11, #48]
.LBB27_13:
	mov w0, w8
	mov w1, w2
	ret
.LBB27_14:
	mov w2, w8
	mov w0, w8
	mov w1, w2
	ret
.Lfunc_end27:
	.size tag_search.pass.pass_on__989a3ead4d9545f0, .Lfunc_end27-tag_search.pass.pass_on__989a3ead4d9545f0
	.section .text.tag_search.all_places.search_others__989a3ead4d9545f0,"ax",@progbits
	.p2align 2
	.type tag_search.all_places.search_others__989a3ead4d9545f0,@function
tag_search.all_places.search_others__989a3ead4d9545f0:
	sub sp, sp, #112
	mov w8, #1
	stp x24, x23, [sp, #64]
	add w23, w3, #1
	lsl w24, w8, w2
	stp x26, x25, [sp, #48]
	stp x22, x21, [sp, #80]
	mov w21, w1
	mov x22, x0
	add w8, w1, w24
	stp x20, x19, [sp, #96]
	mov w19, w3
	sub w8, w8, #1
	mov w20, w2
	stp x29, x30, [sp, #16]
	lsr w25, w8, w2
	str x27, [sp, #32]
	add x29, sp, #16
	cmp w23, w25
	b.hs .LBB28_4
	mov w26, #-1
.LBB28_2:
	lsl w27, w23, w20
	mov w9, #4
	add x2, sp, #4
	mov x0, x22
	mov w1, w23
	str wzr, [sp, #12]
	sub w8, w21, w27
	cmp w24, w8
	csel w8, w24, w8, lo
	cmp w26, #0
	csinc w3, w9, wzr, eq
	stp wzr, w8, [sp, #4]
	bl tag_search.pass.visit__989a3ead4d9545f0
	and w8, w0, #0xff
	cmp w8, #1
	b.eq .LBB28_9
	add w23, w23, #1
	sub w26, w26, #1
	cmp w25, w23
	b.ne .LBB28_2
.LBB28_4:
	cbz w19, .LBB28_8
	mov w23, wzr
.LBB28_6:
	lsl w25, w23, w20
	add x2, sp, #4
	mov x0, x22
	mov w1, w23
	mov w3, #1
	str wzr, [sp, #12]
	sub w8, w21, w25
	cmp w24, w8
	csel w8, w24, w8, lo
	stp wzr, w8, [sp, #4]
	bl tag_search.pass.visit__989a3ead4d9545f0
	and w8, w0, #0xff
	cmp w8, #1
	b.eq .LBB28_10
	add w23, w23, #1
	cmp w19, w23
	b.ne .LBB28_6
.LBB28_8:
	mov w1, wzr
	mov w0, wzr
	b .LBB28_12
.LBB28_9:
	add w1, w1, w27
	b .LBB28_11
.LBB28_10:
	add w1, w1, w25
.LBB28_11:
	mov w0, #1
.LBB28_12:
	ldp x20, x19, [sp, #96]
	ldr x27, [sp, #32]
	ldp x22, x21, [sp, #80]
	ldp x24, x23, [sp, #64]
	ldp x26, x25, [sp, #48]
	ldp x29, x30, [sp, #16]
	add sp, sp, #112
	ret
.Lfunc_end28:
	.size tag_search.all_places.search_others__989a3ead4d9545f0, .Lfunc_end28-tag_search.all_places.search_others__989a3ead4d9545f0
	.section .rodata.cst8,"aM",@progbits,8
	.p2align 3, 0x0
.LCPI29_0:
	.word 1
	.word 0
	.section .text.tag_c.member.Member.get_past_full,"ax",@progbits
	.p2align 2
	.type tag_c.member.Member.get_past_full,@function
tag_c.member.Member.get_past_full:
	sub sp, sp, #80
	mov x2, x0
	stp x20, x19, [sp, #64]
	adrp x8, .LCPI29_0
	ldr x20, [x2], #240
	str x21, [sp, #48]
	mov x21, x0
	ldr d0, [x8, :lo12:.LCPI29_0]
	mov x19, x1
	add x0, sp, #16
	add x1, x20, #120
	add x3, x21, #224
	mov x4, sp
	stp x29, x30, [sp, #32]
	add x29, sp, #32
	stp xzr, xzr, [sp, #16]
	str d0, [sp]
	str xzr, [sp, #8]
	bl tag_search.on_map.finish_i64
	ldrb w9, [sp, #16]
	ldr x8, [sp, #24]
	cmp w9, #1
	b.ne .LBB29_3
	ldr w9, [sp, #20]
	ldr w10, [x20, #232]
	add w20, w10, w9
	cbnz x8, .LBB29_4
.LBB29_2:
	mov w0, w20
	ldp x20, x19, [sp, #64]
	ldp x29, x30, [sp, #32]
	ldr x21, [sp, #48]
	add sp, sp, #80
	ret
.LBB29_3:
	mov w20, #-10
	cbz x8, .LBB29_2
.LBB29_4:
	ldr x0, [x21]
	ldr x9, [x0, #120]!
	add x9, x9, #8
	ldar x2, [x9]
	cbz x2, .LBB29_6
	cmp x8, #64
	mov w9, #64
	csel x1, x8, x9, lo
	bl tag_bell.telling.tell_each_i64
	b .LBB29_7
.LBB29_6:
	mov x1, xzr
	mov x0, xzr
.LBB29_7:
	mov w8, #1073741824
	stp x0, x1, [x19]
	add w20, w20, w8
	mov w0, w20
	ldp x20, x19, [sp, #64]
	ldp x29, x30, [sp, #32]
	ldr x21, [sp, #48]
	add sp, sp, #80
	ret
.Lfunc_end29:
	.size tag_c.member.Member.get_past_full, .Lfunc_end29-tag_c.member.Member.get_past_full
	.section .text.tag_c.member.Member.get_past_lost,"ax",@progbits
	.p2align 2
	.type tag_c.member.Member.get_past_lost,@function
tag_c.member.Member.get_past_lost:
	sub sp, sp, #80
	mov x8, x0
	stp x20, x19, [sp, #64]
	mov w9, #2
	ldr x20, [x8], #240
	str x21, [sp, #48]
	mov x21, x0
	mov x19, x1
	stp w9, w2, [sp]
	str x3, [sp, #8]
	add x0, sp, #16
	add x1, x20, #120
	add x3, x21, #224
	mov x4, sp
	mov x2, x8
	stp x29, x30, [sp, #32]
	add x29, sp, #32
	stp xzr, xzr, [sp, #16]
	bl tag_search.on_map.finish_i64
	ldrb w9, [sp, #16]
	ldr x8, [sp, #24]
	cmp w9, #1
	b.ne .LBB30_3
	ldr w9, [sp, #20]
	ldr w10, [x20, #232]
	add w20, w10, w9
	cbnz x8, .LBB30_4
.LBB30_2:
	mov w0, w20
	ldp x20, x19, [sp, #64]
	ldp x29, x30, [sp, #32]
	ldr x21, [sp, #48]
	add sp, sp, #80
	ret
.LBB30_3:
	mov w20, #-10
	cbz x8, .LBB30_2
.LBB30_4:
	ldr x0, [x21]
	ldr x9, [x0, #120]!
	add x9, x9, #8
	ldar x2, [x9]
	cbz x2, .LBB30_6
	cmp x8, #64
	mov w9, #64
	csel x1, x8, x9, lo
	bl tag_bell.telling.tell_each_i64
	b .LBB30_7
.LBB30_6:
	mov x1, xzr
	mov x0, xzr
.LBB30_7:
	mov w8, #1073741824
	stp x0, x1, [x19]
	add w20, w20, w8
	mov w0, w20
	ldp x20, x19, [sp, #64]
	ldp x29, x30, [sp, #32]
	ldr x21, [sp, #48]
	add sp, sp, #80
	ret
.Lfunc_end30:
	.size tag_c.member.Member.get_past_lost, .Lfunc_end30-tag_c.member.Member.get_past_lost
	.section .text.tag_c.cached.CachedMember.get_any,"ax",@progbits
	.p2align 2
	.type tag_c.cached.CachedMember.get_any,@function
tag_c.cached.CachedMember.get_any:
	sub sp, sp, #80
	ldr x8, [x0, #24]
	ldr x9, [x0]
	stp x20, x19, [sp, #64]
	mov x19, x0
	stp x29, x30, [sp, #32]
	add x29, sp, #32
	str x21, [sp, #48]
	stp xzr, xzr, [sp, #8]
	str xzr, [sp, #24]
	cbz x8, .LBB31_3
	ldr w11, [x19, #16]
	rbit x9, x8
	mov w10, #1
	add w11, w11, #1
	clz x9, x9
	str w11, [x19, #16]
	ldp x12, x11, [x19, #32]
	lsl x10, x10, x9
	bic x8, x8, x10
	orr x10, x12, x10
	add x11, x11, #1
	stp x8, x10, [x19, #24]
	ldr w8, [x19, #8]
	str x11, [x19, #40]
	add w0, w8, w9
.LBB31_2:
	ldp x20, x19, [sp, #64]
	ldr x21, [sp, #48]
	ldp x29, x30, [sp, #32]
	add sp, sp, #80
	ret
.LBB31_3:
	mov x20, x1
	add x0, sp, #8
	add x1, x19, #8
	add x2, x9, #8
	bl tag_cache.cache.Cache.win_quietly_i64_core.clone.U64Clone
	ldrb w8, [sp, #8]
	cbz w8, .LBB31_5
	ldrb w8, [sp, #9]
	adrp x9, .Lswitch.table.tags_library_wait_on_reserved.286
	add x9, x9, :lo12:.Lswitch.table.tags_library_wait_on_reserved.286
	ldr w0, [x9, x8, lsl #2]
	ldp x20, x19, [sp, #64]
	ldr x21, [sp, #48]
	ldp x29, x30, [sp, #32]
	add sp, sp, #80
	ret
.LBB31_5:
	ldrb w9, [sp, #16]
	ldr w10, [sp, #20]
	ldr x8, [sp, #24]
	cmp w9, #1
	mov w9, #-10
	csel w0, w10, w9, eq
	cbz x8, .LBB31_2
	ldr x9, [x19]
	ldr x10, [x9, #120]
	add x10, x10, #8
	ldar x10, [x10]
	cbz x10, .LBB31_8
	cmp x8, #64
	mov w10, #64
	mov w21, w0
	csel x2, x8, x10, lo
	add x0, x19, #8
	add x1, x9, #8
	bl tag_cache.cache.Cache.give_back_and_tell_i64_core.clone.U64Clone
	mov x8, x0
	mov w0, w21
	b .LBB31_9
.LBB31_8:
	mov x8, xzr
	mov x1, xzr
.LBB31_9:
	mov w9, #1073741824
	stp x8, x1, [x20]
	add w0, w0, w9
	ldp x20, x19, [sp, #64]
	ldr x21, [sp, #48]
	ldp x29, x30, [sp, #32]
	add sp, sp, #80
	ret
.Lfunc_end31:
	.size tag_c.cached.CachedMember.get_any, .Lfunc_end31-tag_c.cached.CachedMember.get_any
	.section .text.tag_cache.cache.Cache.win_quietly_i64_core.clone.U64Clone,"ax",@progbits
	.p2align 2
	.type tag_cache.cache.Cache.win_quietly_i64_core.clone.U64Clone,@function
tag_cache.cache.Cache.win_quietly_i64_core.clone.U64Clone:
	sub sp, sp, #80
	ldr x8, [x1, #288]
	ldr x9, [x1, #320]
	stp x20, x19, [sp, #64]
	mov x19, x0
	stp x29, x30, [sp, #32]
	add x29, sp, #32
	cmp x8, x9
	str x21, [sp, #48]
	stp xzr, xzr, [sp, #16]
	stp xzr, xzr, [sp]
	b.ne .LBB32_2
	mov w8, #1281
	stp xzr, xzr, [x19, #8]
	strh w8, [x19]
	ldp x20, x19, [sp, #64]
	ldr x21, [sp, #48]
	ldp x29, x30, [sp, #32]
	add sp, sp, #80
	ret
.LBB32_2:
	ldr w8, [x2, #176]
	ldr w13, [x1, #256]
	mov x20, x1
	mov x10, xzr
	mov w11, wzr
	add x9, x1, #256
	cmp w8, w13
	b.ls .LBB32_12
	ldrb w14, [x20, #260]
	mov w12, w11
	tbnz w14, #0, .LBB32_13
	ldr w11, [x2, #180]
	lsr w12, w13, w11
	ldur x13, [x2, #112]
	ubfiz x10, x12, #7, #32
	add x13, x13, x10
	add x13, x13, #576
	ldar x13, [x13]
	mvn x13, x13
	rbit x13, x13
	clz x13, x13
	lsr w14, w13, w11
	cbnz w14, .LBB32_11
	lsl w11, w12, w11
	add w11, w11, w13
	cmp w8, w11
	b.ls .LBB32_11
	ldur x15, [x2, #112]
	mov w14, #1
	lsl x14, x14, x13
	add x10, x15, x10
	add x15, x10, #576
.LBB32_7:
	ldar x10, [x15]
	orr x16, x10, x14
.LBB32_8:
	ldaxr x17, [x15]
	cmp x17, x10
	b.ne .LBB32_10
	stlxr w17, x16, [x15]
	cbz w17, .LBB32_18
	b .LBB32_8
.LBB32_10:
	clrex
	b .LBB32_7
.LBB32_11:
	mov w12, wzr
	mov x10, xzr
	mov w11, #1
	b .LBB32_13
.LBB32_12:
	mov w12, w11
.LBB32_13:
	add x0, sp, #16
	mov x21, x2
	add x1, x2, #112
	add x2, x20, #272
	add x3, x20, #256
	mov x4, sp
	stp w11, w12, [sp]
	str x10, [sp, #8]
	bl tag_search.on_map.finish_i64
	ldrb w9, [sp, #16]
	ldr x8, [sp, #24]
	cmp w9, #1
	b.ne .LBB32_17
	ldr w11, [sp, #20]
	ldr w9, [x21, #224]
	ldr w10, [x20]
	ldr x12, [x20, #16]
	add w9, w9, w11
	sub w10, w9, w10
	cbnz x12, .LBB32_23
.LBB32_15:
	cmp w10, #64
	b.lo .LBB32_23
	and w10, w9, #0xffffffc0
	str xzr, [x20, #24]
	str w10, [x20]
	and w10, w9, #0x3f
	b .LBB32_24
.LBB32_17:
	strh wzr, [x19]
	stp xzr, x8, [x19, #8]
	ldp x20, x19, [sp, #64]
	ldr x21, [sp, #48]
	ldp x29, x30, [sp, #32]
	add sp, sp, #80
	ret
.LBB32_18:
	tst x10, x14
	b.eq .LBB32_20
	add w12, w13, #1
	mov w11, #2
	b .LBB32_13
.LBB32_20:
	ldr x10, [x20, #296]
	ldr x13, [x10, x12, lsl #3]
	orr x13, x13, x14
	str x13, [x10, x12, lsl #3]
	ldr x10, [x20, #320]
	ldr w12, [x20, #256]
	add x10, x10, #1
	cmp w11, w12
	str x10, [x20, #320]
	b.ne .LBB32_22
	add w10, w11, #1
	sub w8, w8, #1
	cmp w10, w8
	csinc w8, wzr, w11, hs
	str w8, [x9]
.LBB32_22:
	mov x8, xzr
	ldr w9, [x2, #224]
	ldr w10, [x20]
	ldr x12, [x20, #16]
	add w9, w9, w11
	sub w10, w9, w10
	cbz x12, .LBB32_15
.LBB32_23:
	cmp w10, #63
	b.hi .LBB32_25
.LBB32_24:
	mov w11, #1
	lsl x10, x11, x10
	ldr x11, [x20, #24]
	orr x10, x11, x10
	str x10, [x20, #24]
.LBB32_25:
	mov w10, #1
	strh wzr, [x19]
	stp w10, w9, [x19, #8]
	str x8, [x19, #16]
	ldp x20, x19, [sp, #64]
	ldr x21, [sp, #48]
	ldp x29, x30, [sp, #32]
	add sp, sp, #80
	ret
.Lfunc_end32:
	.size tag_cache.cache.Cache.win_quietly_i64_core.clone.U64Clone, .Lfunc_end32-tag_cache.cache.Cache.win_quietly_i64_core.clone.U64Clone
	.section .text.tag_pool.pool.Pool.get_batch_quietly_i64_core.clone.U64Clone,"ax",@progbits
	.p2align 2
	.type tag_pool.pool.Pool.get_batch_quietly_i64_core.clone.U64Clone,@function
tag_pool.pool.Pool.get_batch_quietly_i64_core.clone.U64Clone:
	str x25, [sp, #-64]!
	ldr w10, [x1, #180]
	mov w8, #1
	stp x24, x23, [sp, #16]
	stp x22, x21, [sp, #32]
	lsl w11, w8, w10
	sub w8, w3, #1
	stp x20, x19, [sp, #48]
	cmp w8, w11
	b.hs .LBB33_5
	ldrb w8, [x2, #220]
	tbz w8, #0, .LBB33_7
	mov x8, xzr
	mov x11, xzr
	mov w12, wzr
.LBB33_3:
	mov x10, xzr
.LBB33_4:
	strh wzr, [x0]
	str x11, [x0, #8]
	stp w12, wzr, [x0, #16]
	stp x10, x8, [x0, #24]
	ldp x20, x19, [sp, #48]
	ldp x22, x21, [sp, #32]
	ldp x24, x23, [sp, #16]
	ldr x25, [sp], #64
	ret
.LBB33_5:
	movi v0.2d, #0000000000000000
	mov w8, #769
.LBB33_6:
	strh w8, [x0]
	stur q0, [x0, #8]
	stur q0, [x0, #24]
	ldp x20, x19, [sp, #48]
	ldp x22, x21, [sp, #32]
	ldp x24, x23, [sp, #16]
	ldr x25, [sp], #64
	ret
.LBB33_7:
	ldr x8, [x2, #248]
	ldr x9, [x2, #280]
	sub x8, x8, x9
	cmp x8, w3, uxtw
	b.hs .LBB33_9
	movi v0.2d, #0000000000000000
	mov w8, #1281
	b .LBB33_6
.LBB33_9:
	ldr w12, [x1, #176]
	ldr w9, [x2, #216]
	cmp w9, w12
	b.lo .LBB33_12
	cbz w12, .LBB33_37
	udiv w8, w9, w12
	msub w9, w8, w12, w9
.LBB33_12:
	sub w14, w12, #1
	add w8, w11, w14
	lsr w16, w8, w10
	cbz w16, .LBB33_38
.LBB33_13:
	lsr w18, w9, w10
	neg w5, w3
	mov x6, #-1
	lsr x5, x6, x5
	mov x8, xzr
	mov w15, wzr
	sub w4, w16, w18
	mov x13, xzr
	mov w17, wzr
	neg w6, w4
	b .LBB33_20
.LBB33_14:
	ldar x23, [x19]
	orr x24, x23, x22
.LBB33_15:
	ldaxr x25, [x19]
	cmp x25, x23
	b.ne .LBB33_17
	stlxr w25, x24, [x19]
	cbz w25, .LBB33_18
	b .LBB33_15
.LBB33_17:
	clrex
	b .LBB33_14
.LBB33_18:
	bic x19, x22, x23
	fmov d0, x19
	ldr x23, [x2, #256]
	cmp x19, x22
	ldr x24, [x23, w7, uxtw #3]
	cnt v0.8b, v0.8b
	orr x24, x24, x19
	str x24, [x23, w7, uxtw #3]
	ldr x22, [x2, #280]
	addv b0, v0.8b
	fmov w7, s0
	csel w7, w3, w7, eq
	add x7, x22, x7
	str x7, [x2, #280]
	cbnz x19, .LBB33_31
.LBB33_19:
	add w17, w17, #1
	cmp w17, w16
	b.eq .LBB33_30
.LBB33_20:
	cmp w17, w4
	ldr x20, [x1, #112]
	csel w7, w18, w6, lo
	add w7, w7, w17
	ubfiz x19, x7, #7, #32
	add x20, x20, x19
	add x20, x20, #640
	ldar x20, [x20]
	cbz x20, .LBB33_27
	ldr x20, [x1, #112]
	add x20, x20, x19
	add x21, x20, #640
.LBB33_22:
	ldaxr x20, [x21]
	stlxr w22, xzr, [x21]
	cbnz w22, .LBB33_22
	cbz x20, .LBB33_27
	ldr x13, [x1, #112]
	add x13, x13, x19
	add x13, x13, #576
.LBB33_25:
	ldaxr x15, [x13]
	sub x15, x15, x20
	stlxr w21, x15, [x13]
	cbnz w21, .LBB33_25
	fmov d0, x20
	mov w15, w7
	cnt v0.8b, v0.8b
	addv b0, v0.8b
	fmov x13, d0
	adds x8, x13, x8
	mov x13, x20
	csinv x8, x8, xzr, lo
.LBB33_27:
	ldr x21, [x1, #112]
	lsl w20, w7, w10
	add x21, x21, x19
	subs w22, w12, w20
	add x21, x21, #576
	cmp w11, w22
	ldar x21, [x21]
	csel w22, w11, w22, lo
	cmp w12, w20
	b.eq .LBB33_19
	mvn x21, x21
	rbit x21, x21
	clz x21, x21
	add w23, w3, w21
	cmp w22, w21
	ccmp w22, w23, #0, hi
	b.lo .LBB33_19
	ldr x23, [x1, #112]
	lsl x22, x5, x21
	add x19, x23, x19
	add x19, x19, #576
	b .LBB33_14
.LBB33_30:
	mov x10, xzr
	mov w11, wzr
	mov w12, wzr
	str w9, [x2, #216]
	cbnz x8, .LBB33_32
	b .LBB33_34
.LBB33_31:
	add w11, w20, w21
	ldrb w16, [x2, #220]
	add w12, w11, w3
	sub w10, w12, #1
	cmp w10, w9
	cset w10, eq
	cmp w12, w14
	orr w16, w10, w16
	lsr x10, x19, x21
	csel w12, w12, wzr, lo
	tst w16, #0x1
	csel w9, w12, w9, ne
	mov w12, #1
	str w9, [x2, #216]
	cbz x8, .LBB33_34
.LBB33_32:
	ldr x14, [x2, #264]
	mov w9, w15
	cmp x14, x9
	b.ls .LBB33_34
	ldr x14, [x2, #256]
	ldr x9, [x14, x9, lsl #3]
	and x9, x9, x13
	fmov d0, x9
	cnt v0.8b, v0.8b
	addv b0, v0.8b
	fmov x9, d0
	subs x8, x8, x9
	csel x8, xzr, x8, lo
.LBB33_34:
	cbz w12, .LBB33_36
	ldr w9, [x1, #224]
	add w12, w9, w11
	mov w11, #1
	b .LBB33_4
.LBB33_36:
	mov x11, xzr
	b .LBB33_3
.LBB33_37:
	mov w9, wzr
	sub w14, w12, #1
	add w8, w11, w14
	lsr w16, w8, w10
	cbnz w16, .LBB33_13
.LBB33_38:
	mov x8, xzr
	mov x11, xzr
	mov w12, wzr
	mov x10, xzr
	str w9, [x2, #216]
	b .LBB33_4
.Lfunc_end33:
	.size tag_pool.pool.Pool.get_batch_quietly_i64_core.clone.U64Clone, .Lfunc_end33-tag_pool.pool.Pool.get_batch_quietly_i64_core.clone.U64Clone
	.section .text.tag_c.gets.CachedMemberGetCalls.get_batch,"ax",@progbits
	.p2align 2
	.type tag_c.gets.CachedMemberGetCalls.get_batch,@function
tag_c.gets.CachedMemberGetCalls.get_batch:
	sub sp, sp, #96
	str x21, [sp, #64]
	mov x21, x2
	movi v0.2d, #0000000000000000
	mov x2, x0
	stp x20, x19, [sp, #80]
	mov x19, x3
	ldr x8, [x2], #48
	mov w3, w1
	mov x20, x0
	mov x0, sp
	stp x29, x30, [sp, #48]
	add x1, x8, #8
	add x29, sp, #48
	str xzr, [sp, #32]
	stp q0, q0, [sp]
	bl tag_pool.pool.Pool.get_batch_quietly_i64_core.clone.U64Clone
	ldrb w8, [sp]
	cbz w8, .LBB34_3
	ldrb w8, [sp, #1]
	adrp x9, .Lswitch.table.tags_library_wait_on_reserved.286
	add x9, x9, :lo12:.Lswitch.table.tags_library_wait_on_reserved.286
	ldr w0, [x9, x8, lsl #2]
.LBB34_2:
	ldp x20, x19, [sp, #80]
	ldr x21, [sp, #64]
	ldp x29, x30, [sp, #48]
	add sp, sp, #96
	ret
.LBB34_3:
	ldrb w9, [sp, #8]
	ldr x8, [sp, #32]
	cmp w9, #1
	b.ne .LBB34_5
	ldr x9, [sp, #24]
	ldr w0, [sp, #16]
	str x9, [x21]
	cbnz x8, .LBB34_6
	b .LBB34_2
.LBB34_5:
	mov w0, #-10
	cbz x8, .LBB34_2
.LBB34_6:
	ldr x9, [x20]
	ldr x10, [x9, #120]
	add x10, x10, #8
	ldar x10, [x10]
	cbz x10, .LBB34_8
	cmp x8, #64
	mov w10, #64
	mov w21, w0
	csel x2, x8, x10, lo
	add x0, x20, #8
	add x1, x9, #8
	bl tag_cache.cache.Cache.give_back_and_tell_i64_core.clone.U64Clone
	mov x8, x0
	mov w0, w21
	b .LBB34_9
.LBB34_8:
	mov x8, xzr
	mov x1, xzr
.LBB34_9:
	mov w9, #1073741824
	stp x8, x1, [x19]
	add w0, w0, w9
	ldp x20, x19, [sp, #80]
	ldr x21, [sp, #64]
	ldp x29, x30, [sp, #48]
	add sp, sp, #96
	ret
.Lfunc_end34:
	.size tag_c.gets.CachedMemberGetCalls.get_batch, .Lfunc_end34-tag_c.gets.CachedMemberGetCalls.get_batch
	.section .text.tag_pool.pool.Pool.get_exactly_quietly_i64_core.clone.U64Clone,"ax",@progbits
	.p2align 2
	.type tag_pool.pool.Pool.get_exactly_quietly_i64_core.clone.U64Clone,@function
tag_pool.pool.Pool.get_exactly_quietly_i64_core.clone.U64Clone:
	sub sp, sp, #112
	ldr w8, [x1, #228]
	stp x29, x30, [sp, #64]
	add x29, sp, #64
	str x21, [sp, #80]
	cmp w8, w3
	stp x20, x19, [sp, #96]
	b.ls .LBB35_7
	ldr w8, [x1, #224]
	subs w19, w3, w8
	b.hs .LBB35_8
	ldr x8, [x2, #40]
	ldr x9, [x2, #72]
	cmp x8, x9
	b.eq .LBB35_9
	ldr w8, [x1, #68]
	mov w9, #-1
	add x10, x2, #24
	stp x1, x10, [sp, #8]
	mov x20, x0
	mov w19, w3
	lsl w9, w9, w8
	lsr w1, w3, w8
	add x0, sp, #8
	sub x2, x29, #12
	stp xzr, xzr, [sp, #32]
	bic w9, w3, w9
	mov w3, #4
	str xzr, [sp, #24]
	add w10, w9, #1
	stur w9, [x29, #-12]
	stp w10, wzr, [x29, #-8]
	bl tag_search.pass.visit__989a3ead4d9545f0
	ldr x8, [sp, #24]
	cbz x8, .LBB35_6
	ldr x10, [sp, #16]
	ldr w9, [sp, #32]
	ldr x11, [x10, #32]
	cmp x11, x9
	b.ls .LBB35_6
	ldr x10, [x10, #24]
	ldr x11, [sp, #40]
	ldr x9, [x10, x9, lsl #3]
	and x9, x9, x11
	fmov d0, x9
	cnt v0.8b, v0.8b
	addv b0, v0.8b
	fmov x9, d0
	subs x8, x8, x9
	csel x8, xzr, x8, lo
.LBB35_6:
	and w9, w0, #0xff
	strh wzr, [x20]
	cmp w9, #1
	csel w10, w19, wzr, eq
	b .LBB35_18
.LBB35_7:
	mov w8, #1
	b .LBB35_10
.LBB35_8:
	ldr x8, [x2, #248]
	ldr x9, [x2, #280]
	cmp x8, x9
	b.ne .LBB35_11
.LBB35_9:
	mov w8, #1281
.LBB35_10:
	strh w8, [x0]
	stp xzr, xzr, [x0, #8]
	ldp x20, x19, [sp, #96]
	ldr x21, [sp, #80]
	ldp x29, x30, [sp, #64]
	add sp, sp, #112
	ret
.LBB35_11:
	ldr w8, [x1, #180]
	mov w9, #-1
	mov x21, x1
	add x10, x1, #112
	add x11, x2, #232
	mov x20, x0
	lsl w9, w9, w8
	lsr w1, w19, w8
	stp x10, x11, [sp, #8]
	add x0, sp, #8
	sub x2, x29, #12
	mov w3, #4
	bic w9, w19, w9
	stp xzr, xzr, [sp, #32]
	add w10, w9, #1
	stur w9, [x29, #-12]
	stp w10, wzr, [x29, #-8]
	str xzr, [sp, #24]
	bl tag_search.pass.visit__989a3ead4d9545f0
	ldr x8, [sp, #24]
	cbz x8, .LBB35_14
	ldr x10, [sp, #16]
	ldr w9, [sp, #32]
	ldr x11, [x10, #32]
	cmp x11, x9
	b.ls .LBB35_14
	ldr x10, [x10, #24]
	ldr x11, [sp, #40]
	ldr x9, [x10, x9, lsl #3]
	and x9, x9, x11
	fmov d0, x9
	cnt v0.8b, v0.8b
	addv b0, v0.8b
	fmov x9, d0
	subs x8, x8, x9
	csel x8, xzr, x8, lo
.LBB35_14:
	and w9, w0, #0xff
	cmp w9, #1
	b.ne .LBB35_16
	ldr w10, [x21, #224]
	add w10, w10, w19
	b .LBB35_17
.LBB35_16:
	mov w10, wzr
.LBB35_17:
	strh wzr, [x20]
.LBB35_18:
	stp w9, w10, [x20, #8]
	str x8, [x20, #16]
	ldp x20, x19, [sp, #96]
	ldr x21, [sp, #80]
	ldp x29, x30, [sp, #64]
	add sp, sp, #112
	ret
.Lfunc_end35:
	.size tag_pool.pool.Pool.get_exactly_quietly_i64_core.clone.U64Clone, .Lfunc_end35-tag_pool.pool.Pool.get_exactly_quietly_i64_core.clone.U64Clone
	.section .text.tag_c.gets.CachedMemberGetCalls.get_exactly,"ax",@progbits
	.p2align 2
	.type tag_c.gets.CachedMemberGetCalls.get_exactly,@function
tag_c.gets.CachedMemberGetCalls.get_exactly:
	sub sp, sp, #96
	stp x20, x19, [sp, #80]
	mov x20, x0
	mov x19, x2
	ldr w8, [x20, #8]!
	stp x22, x21, [sp, #64]
	mov w22, w1
	mov x21, x0
	stp x29, x30, [sp, #32]
	sub w9, w1, w8
	ldr x8, [x0]
	stp x24, x23, [sp, #48]
	cmp w9, #63
	add x29, sp, #32
	stp xzr, xzr, [sp, #8]
	str xzr, [sp, #24]
	b.hi .LBB36_3
	mov w11, #1
	ldr x10, [x21, #24]
	lsl x9, x11, x9
	tst x10, x9
	b.eq .LBB36_3
	ldp x8, x12, [x21, #32]
	bic x10, x10, x9
	ldr w11, [x21, #16]
	orr x8, x8, x9
	add w9, w11, #1
	stp x10, x8, [x21, #24]
	add x8, x12, #1
	str w9, [x21, #16]
	str x8, [x21, #40]
	b .LBB36_17
.LBB36_3:
	add x0, sp, #8
	add x1, x8, #8
	add x2, x21, #48
	mov w3, w22
	bl tag_pool.pool.Pool.get_exactly_quietly_i64_core.clone.U64Clone
	ldrb w8, [sp, #8]
	cbz w8, .LBB36_5
	ldrb w8, [sp, #9]
	adrp x9, .Lswitch.table.tags_library_wait_on_reserved.286
	add x9, x9, :lo12:.Lswitch.table.tags_library_wait_on_reserved.286
	ldr w22, [x9, x8, lsl #2]
	b .LBB36_17
.LBB36_5:
	ldrb w9, [sp, #16]
	ldr w10, [sp, #20]
	ldr x8, [sp, #24]
	and w9, w9, #0xff
	cmp w9, #1
	mov w9, #-10
	csel w24, w10, w9, eq
	cbz x8, .LBB36_9
	ldr x9, [x21]
	cmp x8, #64
	mov w11, #64
	csel x8, x8, x11, lo
	ldr w10, [x9, #232]
	cmp w22, w10
	b.hs .LBB36_10
	ldur x10, [x9, #8]
	add x10, x10, #8
	ldar x2, [x10]
	cbz x2, .LBB36_12
	add x0, x9, #8
	mov w1, w8
	bl tag_bell.telling.tell_each_i64
	mov x22, x0
	mov x23, x1
	b .LBB36_13
.LBB36_9:
	mov w22, w24
	b .LBB36_17
.LBB36_10:
	ldr x10, [x9, #120]
	add x10, x10, #8
	ldar x10, [x10]
	cbz x10, .LBB36_15
	add x1, x9, #8
	mov x0, x20
	mov w2, w8
	bl tag_cache.cache.Cache.give_back_and_tell_i64_core.clone.U64Clone
	mov x22, x0
	mov x23, x1
	b .LBB36_16
.LBB36_12:
	mov x22, xzr
	mov x23, xzr
.LBB36_13:
	ldr x8, [x21]
	ldr x9, [x8, #120]
	add x9, x9, #8
	ldar x9, [x9]
	cbz x9, .LBB36_16
	add x1, x8, #8
	mov x0, x20
	mov w2, wzr
	bl tag_cache.cache.Cache.give_back_and_tell_i64_core.clone.U64Clone
	orr x22, x0, x22
	orr x23, x1, x23
	b .LBB36_16
.LBB36_15:
	mov x22, xzr
	mov x23, xzr
.LBB36_16:
	mov w8, #1073741824
	stp x22, x23, [x19]
	add w22, w24, w8
.LBB36_17:
	mov w0, w22
	ldp x20, x19, [sp, #80]
	ldp x22, x21, [sp, #64]
	ldp x24, x23, [sp, #48]
	ldp x29, x30, [sp, #32]
	add sp, sp, #96
	ret
.Lfunc_end36:
	.size tag_c.gets.CachedMemberGetCalls.get_exactly, .Lfunc_end36-tag_c.gets.CachedMemberGetCalls.get_exactly
	.section .text.tag_pool.pool.Pool.get_many_quietly_i64_core.clone.U64Clone,"ax",@progbits
	.p2align 2
	.type tag_pool.pool.Pool.get_many_quietly_i64_core.clone.U64Clone,@function
tag_pool.pool.Pool.get_many_quietly_i64_core.clone.U64Clone:
	sub sp, sp, #112
	ldr w8, [x1, #176]
	stp x29, x30, [sp, #32]
	add x29, sp, #32
	stp x20, x19, [sp, #96]
	mov x19, x0
	cmp x4, x8
	str x25, [sp, #48]
	stp x24, x23, [sp, #64]
	stp x22, x21, [sp, #80]
	stur wzr, [x29, #27]
	str wzr, [x29, #24]
	b.ls .LBB37_2
	mov w8, #3
	b .LBB37_4
.LBB37_2:
	ldr x8, [x2, #248]
	ldr x9, [x2, #280]
	mov x23, x4
	mov x20, x2
	sub x8, x8, x9
	cmp x8, x4
	b.hs .LBB37_5
	mov w8, #5
.LBB37_4:
	mov w9, #1
	strb w8, [x19, #1]
	strb w9, [x19]
	stp xzr, xzr, [x19, #8]
	b .LBB37_42
.LBB37_5:
	cbz x23, .LBB37_27
	mov x21, x3
	mov x22, x1
	mov x25, xzr
	mov x24, xzr
.LBB37_7:
	ldr x8, [x20, #248]
	ldr x9, [x20, #280]
	stp xzr, xzr, [sp, #16]
	stp xzr, xzr, [sp]
	cmp x8, x9
	b.eq .LBB37_43
	ldr w8, [x22, #176]
	ldr w12, [x20, #216]
	mov x9, xzr
	mov w11, wzr
	cmp w8, w12
	b.ls .LBB37_18
	ldrb w13, [x20, #220]
	mov w10, w11
	tbnz w13, #0, .LBB37_19
	ldr w10, [x22, #180]
	lsr w11, w12, w10
	ldur x12, [x22, #112]
	ubfiz x9, x11, #7, #32
	add x12, x12, x9
	add x12, x12, #576
	ldar x12, [x12]
	mvn x12, x12
	rbit x12, x12
	clz x12, x12
	lsr w13, w12, w10
	cbnz w13, .LBB37_17
	lsl w10, w11, w10
	add w10, w10, w12
	cmp w8, w10
	b.ls .LBB37_17
	ldur x14, [x22, #112]
	mov w13, #1
	lsl x13, x13, x12
	add x9, x14, x9
	add x14, x9, #576
.LBB37_13:
	ldar x9, [x14]
	orr x15, x9, x13
.LBB37_14:
	ldaxr x16, [x14]
	cmp x16, x9
	b.ne .LBB37_16
	stlxr w16, x15, [x14]
	cbz w16, .LBB37_22
	b .LBB37_14
.LBB37_16:
	clrex
	b .LBB37_13
.LBB37_17:
	mov w10, wzr
	mov x9, xzr
	mov w11, #1
	b .LBB37_19
.LBB37_18:
	mov w10, w11
.LBB37_19:
	add x0, sp, #16
	add x1, x22, #112
	add x2, x20, #232
	add x3, x20, #216
	mov x4, sp
	stp w11, w10, [sp]
	str x9, [sp, #8]
	bl tag_search.on_map.finish_i64
	ldrb w9, [sp, #16]
	ldr x8, [sp, #24]
	cmp w9, #1
	b.ne .LBB37_29
	ldr w10, [sp, #20]
.LBB37_21:
	ldr w9, [x22, #224]
	adds x8, x8, x25
	csinv x25, x8, xzr, lo
	add w9, w9, w10
	str w9, [x21, x24, lsl #2]
	add x24, x24, #1
	cmp x24, x23
	b.ne .LBB37_7
	b .LBB37_28
.LBB37_22:
	tst x9, x13
	b.eq .LBB37_24
	add w10, w12, #1
	mov w11, #2
	b .LBB37_19
.LBB37_24:
	ldr x9, [x20, #256]
	ldr x12, [x9, x11, lsl #3]
	orr x12, x12, x13
	str x12, [x9, x11, lsl #3]
	ldr x9, [x20, #280]
	ldr w11, [x20, #216]
	add x9, x9, #1
	cmp w10, w11
	str x9, [x20, #280]
	b.ne .LBB37_26
	add w9, w10, #1
	sub w8, w8, #1
	cmp w9, w8
	csinc w8, wzr, w10, hs
	stur w8, [x20, #216]
.LBB37_26:
	mov x8, xzr
	b .LBB37_21
.LBB37_27:
	mov x25, xzr
.LBB37_28:
	mov w9, #1
	b .LBB37_41
.LBB37_29:
	adds x8, x8, x25
	csinv x8, x8, xzr, lo
	cbz x24, .LBB37_40
	ldr w9, [x22, #224]
	ldr w12, [x22, #180]
	mov w14, #-1
	ldr w13, [x21]
	mov x10, xzr
	mov x11, xzr
	lsl w14, w14, w12
	sub w13, w13, w9
	lsr w15, w13, w12
	mvn w13, w14
	b .LBB37_32
.LBB37_31:
	orr x10, x16, x10
	add x11, x11, #1
	cmp x11, x24
	b.eq .LBB37_36
.LBB37_32:
	ldr w14, [x21, x11, lsl #2]
	mov w17, #1
	sub w16, w14, w9
	lsr w14, w16, w12
	and w16, w16, w13
	lsl x16, x17, x16
	cmp w14, w15
	b.eq .LBB37_31
	ldur x17, [x22, #112]
	mov w15, w15
	add x17, x17, x15, lsl #7
	add x17, x17, #576
.LBB37_34:
	ldaxr x18, [x17]
	sub x18, x18, x10
	stlxr w0, x18, [x17]
	cbnz w0, .LBB37_34
	fmov d0, x10
	ldr x17, [x20, #256]
	cnt v0.8b, v0.8b
	ldr x18, [x17, x15, lsl #3]
	bic x10, x18, x10
	str x10, [x17, x15, lsl #3]
	ldr x10, [x20, #288]
	addv b0, v0.8b
	fmov x15, d0
	add x10, x10, x15
	mov w15, w14
	str x10, [x20, #288]
	mov x10, x16
	add x11, x11, #1
	cmp x11, x24
	b.ne .LBB37_32
.LBB37_36:
	ldur x12, [x22, #112]
	mov w11, w15
	add x12, x12, x11, lsl #7
	add x12, x12, #576
.LBB37_37:
	ldaxr x13, [x12]
	sub x13, x13, x10
	stlxr w14, x13, [x12]
	cbnz w14, .LBB37_37
	fmov d0, x10
	ldr x12, [x20, #256]
	cnt v0.8b, v0.8b
	ldr x13, [x12, x11, lsl #3]
	bic x10, x13, x10
	str x10, [x12, x11, lsl #3]
	ldr x10, [x20, #288]
	ldrb w12, [x20, #220]
	addv b0, v0.8b
	fmov x11, d0
	add x10, x10, x11
	str x10, [x20, #288]
	tbnz w12, #0, .LBB37_40
	add x10, x21, x24, lsl #2
	ldur w10, [x10, #-4]
	sub w9, w10, w9
	stur w9, [x20, #216]
.LBB37_40:
	adds x8, x24, x8
	mov w9, wzr
	csinv x25, x8, xzr, lo
.LBB37_41:
	ldr w8, [x29, #24]
	strb w9, [x19, #8]
	ldur w9, [x29, #27]
	strh wzr, [x19]
	stur w8, [x19, #9]
	str w9, [x19, #12]
	str x25, [x19, #16]
.LBB37_42:
	ldp x20, x19, [sp, #96]
	ldr x25, [sp, #48]
	ldp x22, x21, [sp, #80]
	ldp x24, x23, [sp, #64]
	ldp x29, x30, [sp, #32]
	add sp, sp, #112
	ret
.LBB37_43:
	brk #0x1
.Lfunc_end37:
	.size tag_pool.pool.Pool.get_many_quietly_i64_core.clone.U64Clone, .Lfunc_end37-tag_pool.pool.Pool.get_many_quietly_i64_core.clone.U64Clone
	.section .text.tag_c.gets.CachedMemberGetCalls.get_many,"ax",@progbits
	.p2align 2
	.type tag_c.gets.CachedMemberGetCalls.get_many,@function
tag_c.gets.CachedMemberGetCalls.get_many:
	sub sp, sp, #80
	mov x4, x2
	mov x2, x0
	stp x20, x19, [sp, #64]
	ldr x8, [x2], #48
	mov x19, x3
	mov x3, x1
	mov x20, x0
	add x0, sp, #8
	add x1, x8, #8
	stp x29, x30, [sp, #32]
	add x29, sp, #32
	str x21, [sp, #48]
	stp xzr, xzr, [sp, #8]
	str xzr, [sp, #24]
	bl tag_pool.pool.Pool.get_many_quietly_i64_core.clone.U64Clone
	ldrb w8, [sp, #8]
	cbz w8, .LBB38_3
	ldrb w8, [sp, #9]
	adrp x9, .Lswitch.table.tags_library_wait_on_reserved.286
	add x9, x9, :lo12:.Lswitch.table.tags_library_wait_on_reserved.286
	ldr w0, [x9, x8, lsl #2]
.LBB38_2:
	ldp x20, x19, [sp, #64]
	ldr x21, [sp, #48]
	ldp x29, x30, [sp, #32]
	add sp, sp, #80
	ret
.LBB38_3:
	ldrb w9, [sp, #16]
	ldr x8, [sp, #24]
	tst w9, #0x1
	mov w9, #-10
	csel w0, wzr, w9, ne
	cbz x8, .LBB38_2
	ldr x9, [x20]
	ldr x10, [x9, #120]
	add x10, x10, #8
	ldar x10, [x10]
	cbz x10, .LBB38_6
	cmp x8, #64
	mov w10, #64
	mov w21, w0
	csel x2, x8, x10, lo
	add x0, x20, #8
	add x1, x9, #8
	bl tag_cache.cache.Cache.give_back_and_tell_i64_core.clone.U64Clone
	mov x8, x0
	mov w0, w21
	b .LBB38_7
.LBB38_6:
	mov x8, xzr
	mov x1, xzr
.LBB38_7:
	mov w9, #1073741824
	stp x8, x1, [x19]
	add w0, w0, w9
	ldp x20, x19, [sp, #64]
	ldr x21, [sp, #48]
	ldp x29, x30, [sp, #32]
	add sp, sp, #80
	ret
.Lfunc_end38:
	.size tag_c.gets.CachedMemberGetCalls.get_many, .Lfunc_end38-tag_c.gets.CachedMemberGetCalls.get_many
	.section .text.tag_pool.pool.Pool.get_reserved_quietly_i64_core.clone.U64Clone,"ax",@progbits
	.p2align 2
	.type tag_pool.pool.Pool.get_reserved_quietly_i64_core.clone.U64Clone,@function
tag_pool.pool.Pool.get_reserved_quietly_i64_core.clone.U64Clone:
	sub sp, sp, #64
	ldr w8, [x1, #224]
	stp x29, x30, [sp, #32]
	add x29, sp, #32
	str x19, [sp, #48]
	cbz w8, .LBB39_3
	ldr x8, [x2, #40]
	ldr x9, [x2, #72]
	stp xzr, xzr, [sp, #16]
	stp xzr, xzr, [sp]
	cmp x8, x9
	b.ne .LBB39_4
	mov w8, #1281
	strh w8, [x0]
	stp xzr, xzr, [x0, #8]
	ldp x29, x30, [sp, #32]
	ldr x19, [sp, #48]
	add sp, sp, #64
	ret
.LBB39_3:
	mov w8, #1537
	strh w8, [x0]
	stp xzr, xzr, [x0, #8]
	ldp x29, x30, [sp, #32]
	ldr x19, [sp, #48]
	add sp, sp, #64
	ret
.LBB39_4:
	ldr w8, [x1, #64]
	ldr w12, [x2, #8]
	mov x10, xzr
	mov w11, wzr
	cmp w8, w12
	b.ls .LBB39_14
	ldrb w13, [x2, #12]
	mov w9, w11
	tbnz w13, #0, .LBB39_15
	ldr w9, [x1, #68]
	lsr w11, w12, w9
	ldr x12, [x1]
	ubfiz x10, x11, #7, #32
	add x12, x12, x10
	add x12, x12, #576
	ldar x12, [x12]
	mvn x12, x12
	rbit x12, x12
	clz x12, x12
	lsr w13, w12, w9
	cbnz w13, .LBB39_13
	lsl w9, w11, w9
	add w9, w9, w12
	cmp w8, w9
	b.ls .LBB39_13
	ldr x14, [x1]
	mov w13, #1
	lsl x13, x13, x12
	add x10, x14, x10
	add x14, x10, #576
.LBB39_9:
	ldar x10, [x14]
	orr x15, x10, x13
.LBB39_10:
	ldaxr x16, [x14]
	cmp x16, x10
	b.ne .LBB39_12
	stlxr w16, x15, [x14]
	cbz w16, .LBB39_17
	b .LBB39_10
.LBB39_12:
	clrex
	b .LBB39_9
.LBB39_13:
	mov w9, wzr
	mov x10, xzr
	mov w11, #1
	b .LBB39_15
.LBB39_14:
	mov w9, w11
.LBB39_15:
	mov x8, x2
	mov x19, x0
	add x0, sp, #16
	add x2, x2, #24
	add x3, x8, #8
	mov x4, sp
	stp w11, w9, [sp]
	str x10, [sp, #8]
	bl tag_search.on_map.finish_i64
	ldrb w8, [sp, #16]
	ldr w9, [sp, #20]
	mov x0, x19
	ldr x10, [sp, #24]
.LBB39_16:
	strh wzr, [x0]
	stp w8, w9, [x0, #8]
	str x10, [x0, #16]
	ldp x29, x30, [sp, #32]
	ldr x19, [sp, #48]
	add sp, sp, #64
	ret
.LBB39_17:
	tst x10, x13
	b.eq .LBB39_19
	add w9, w12, #1
	mov w11, #2
	b .LBB39_15
.LBB39_19:
	ldr x10, [x2, #48]
	ldr x12, [x10, x11, lsl #3]
	orr x12, x12, x13
	str x12, [x10, x11, lsl #3]
	ldr x10, [x2, #72]
	ldr w11, [x2, #8]
	add x10, x10, #1
	cmp w9, w11
	str x10, [x2, #72]
	mov x10, xzr
	b.ne .LBB39_21
	add w11, w9, #1
	sub w8, w8, #1
	cmp w11, w8
	csinc w8, wzr, w9, hs
	stur w8, [x2, #8]
.LBB39_21:
	mov w8, #1
	b .LBB39_16
.Lfunc_end39:
	.size tag_pool.pool.Pool.get_reserved_quietly_i64_core.clone.U64Clone, .Lfunc_end39-tag_pool.pool.Pool.get_reserved_quietly_i64_core.clone.U64Clone
	.section .text.tag_c.gets.CachedMemberGetCalls.get_reserved,"ax",@progbits
	.p2align 2
	.type tag_c.gets.CachedMemberGetCalls.get_reserved,@function
tag_c.gets.CachedMemberGetCalls.get_reserved:
	sub sp, sp, #96
	mov x2, x0
	stp x20, x19, [sp, #80]
	mov x19, x1
	ldr x8, [x2], #48
	mov x20, x0
	add x0, sp, #8
	stp x29, x30, [sp, #32]
	add x29, sp, #32
	add x1, x8, #8
	str x23, [sp, #48]
	stp x22, x21, [sp, #64]
	stp xzr, xzr, [sp, #8]
	str xzr, [sp, #24]
	bl tag_pool.pool.Pool.get_reserved_quietly_i64_core.clone.U64Clone
	ldrb w8, [sp, #8]
	cbz w8, .LBB40_3
	ldrb w8, [sp, #9]
	adrp x9, .Lswitch.table.tags_library_wait_on_reserved.286
	add x9, x9, :lo12:.Lswitch.table.tags_library_wait_on_reserved.286
	ldr w0, [x9, x8, lsl #2]
.LBB40_2:
	ldp x20, x19, [sp, #80]
	ldr x23, [sp, #48]
	ldp x22, x21, [sp, #64]
	ldp x29, x30, [sp, #32]
	add sp, sp, #96
	ret
.LBB40_3:
	ldrb w9, [sp, #16]
	ldr w10, [sp, #20]
	ldr x8, [sp, #24]
	cmp w9, #1
	mov w9, #-10
	csel w0, w10, w9, eq
	cbz x8, .LBB40_2
	mov w23, w0
	ldr x0, [x20]
	ldr x9, [x0, #8]!
	add x9, x9, #8
	ldar x2, [x9]
	cbz x2, .LBB40_6
	cmp x8, #64
	mov w9, #64
	csel x1, x8, x9, lo
	bl tag_bell.telling.tell_each_i64
	mov x21, x0
	mov x22, x1
	b .LBB40_7
.LBB40_6:
	mov x21, xzr
	mov x22, xzr
.LBB40_7:
	ldr x8, [x20]
	ldr x9, [x8, #120]
	add x9, x9, #8
	ldar x9, [x9]
	cbz x9, .LBB40_9
	add x0, x20, #8
	add x1, x8, #8
	mov w2, wzr
	bl tag_cache.cache.Cache.give_back_and_tell_i64_core.clone.U64Clone
	orr x21, x0, x21
	orr x22, x1, x22
.LBB40_9:
	mov w8, #1073741824
	stp x21, x22, [x19]
	add w0, w23, w8
	ldp x20, x19, [sp, #80]
	ldr x23, [sp, #48]
	ldp x22, x21, [sp, #64]
	ldp x29, x30, [sp, #32]
	add sp, sp, #96
	ret
.Lfunc_end40:
	.size tag_c.gets.CachedMemberGetCalls.get_reserved, .Lfunc_end40-tag_c.gets.CachedMemberGetCalls.get_reserved
	.section .text.tag_pool.pool.Pool.get_shallow_quietly_i64_core.clone.U64Clone,"ax",@progbits
	.p2align 2
	.type tag_pool.pool.Pool.get_shallow_quietly_i64_core.clone.U64Clone,@function
tag_pool.pool.Pool.get_shallow_quietly_i64_core.clone.U64Clone:
	sub sp, sp, #144
	ldr w8, [x1, #232]
	stp x29, x30, [sp, #80]
	add x29, sp, #80
	str x23, [sp, #96]
	cmp w3, w8
	stp x22, x21, [sp, #112]
	stp x20, x19, [sp, #128]
	b.hs .LBB41_2
	mov w8, #1025
	b .LBB41_4
.LBB41_2:
	ldr x8, [x2, #248]
	ldr x9, [x2, #280]
	add x10, x1, #112
	add x11, x2, #232
	stp xzr, xzr, [sp, #24]
	cmp x8, x9
	str xzr, [sp, #40]
	stp x10, x11, [sp, #8]
	b.ne .LBB41_5
	mov w8, #1281
.LBB41_4:
	strh w8, [x0]
	stp xzr, xzr, [x0, #8]
	ldp x20, x19, [sp, #128]
	ldr x23, [sp, #96]
	ldp x22, x21, [sp, #112]
	ldp x29, x30, [sp, #80]
	add sp, sp, #144
	ret
.LBB41_5:
	ldp w21, w8, [x1, #176]
	ldr w22, [x2, #216]
	cmp w22, w21
	b.lo .LBB41_9
	cbz w21, .LBB41_8
	udiv w9, w22, w21
	msub w22, w9, w21, w22
	b .LBB41_9
.LBB41_8:
	mov w22, wzr
.LBB41_9:
	mov w9, #-1
	lsr w10, w22, w8
	mov x19, x1
	lsl w9, w9, w8
	mov x20, x0
	stp w21, w8, [x29, #-28]
	sub x0, x29, #28
	add x1, sp, #8
	sturh wzr, [x29, #-3]
	bic w8, w22, w9
	mov w9, #1
	sturb wzr, [x29, #-1]
	stp w10, w8, [x29, #-20]
	mov x23, x2
	stp w9, w3, [x29, #-12]
	sturb w9, [x29, #-4]
	bl tag_search.scan.Scan.search__989a3ead4d9545f0
	mov x9, x23
	mov w10, wzr
	tbz w0, #0, .LBB41_13
	cmp w1, w22
	b.eq .LBB41_12
	ldrb w8, [x9, #220]
	mov w10, w22
	tbz w8, #0, .LBB41_13
.LBB41_12:
	add w8, w1, #1
	sub w10, w21, #1
	cmp w8, w10
	csinc w10, wzr, w1, hs
.LBB41_13:
	ldr x8, [sp, #24]
	str w10, [x9, #216]
	cbz x8, .LBB41_16
	ldr x10, [sp, #16]
	ldr w9, [sp, #32]
	ldr x11, [x10, #32]
	cmp x11, x9
	b.ls .LBB41_16
	ldr x10, [x10, #24]
	ldr x11, [sp, #40]
	ldr x9, [x10, x9, lsl #3]
	and x9, x9, x11
	fmov d0, x9
	cnt v0.8b, v0.8b
	addv b0, v0.8b
	fmov x9, d0
	subs x8, x8, x9
	csel x8, xzr, x8, lo
.LBB41_16:
	and w9, w0, #0xff
	cmp w9, #1
	b.ne .LBB41_18
	ldr w10, [x19, #224]
	add w10, w10, w1
	b .LBB41_19
.LBB41_18:
	mov w10, wzr
.LBB41_19:
	strh wzr, [x20]
	stp w9, w10, [x20, #8]
	str x8, [x20, #16]
	ldp x20, x19, [sp, #128]
	ldr x23, [sp, #96]
	ldp x22, x21, [sp, #112]
	ldp x29, x30, [sp, #80]
	add sp, sp, #144
	ret
.Lfunc_end41:
	.size tag_pool.pool.Pool.get_shallow_quietly_i64_core.clone.U64Clone, .Lfunc_end41-tag_pool.pool.Pool.get_shallow_quietly_i64_core.clone.U64Clone
	.section .text.tag_c.gets.CachedMemberGetCalls.get_shallow,"ax",@progbits
	.p2align 2
	.type tag_c.gets.CachedMemberGetCalls.get_shallow,@function
tag_c.gets.CachedMemberGetCalls.get_shallow:
	sub sp, sp, #80
	stp x20, x19, [sp, #64]
	mov x19, x2
	mov x2, x0
	ldr x8, [x2], #48
	mov w3, w1
	mov x20, x0
	add x0, sp, #8
	stp x29, x30, [sp, #32]
	add x1, x8, #8
	str x21, [sp, #48]
	add x29, sp, #32
	stp xzr, xzr, [sp, #8]
	str xzr, [sp, #24]
	bl tag_pool.pool.Pool.get_shallow_quietly_i64_core.clone.U64Clone
	ldrb w8, [sp, #8]
	cbz w8, .LBB42_3
	ldrb w8, [sp, #9]
	adrp x9, .Lswitch.table.tags_library_wait_on_reserved.286
	add x9, x9, :lo12:.Lswitch.table.tags_library_wait_on_reserved.286
	ldr w0, [x9, x8, lsl #2]
.LBB42_2:
	ldp x20, x19, [sp, #64]
	ldr x21, [sp, #48]
	ldp x29, x30, [sp, #32]
	add sp, sp, #80
	ret
.LBB42_3:
	ldrb w9, [sp, #16]
	ldr w10, [sp, #20]
	ldr x8, [sp, #24]
	cmp w9, #1
	mov w9, #-10
	csel w0, w10, w9, eq
	cbz x8, .LBB42_2
	ldr x9, [x20]
	ldr x10, [x9, #120]
	add x10, x10, #8
	ldar x10, [x10]
	cbz x10, .LBB42_6
	cmp x8, #64
	mov w10, #64
	mov w21, w0
	csel x2, x8, x10, lo
	add x0, x20, #8
	add x1, x9, #8
	bl tag_cache.cache.Cache.give_back_and_tell_i64_core.clone.U64Clone
	mov x8, x0
	mov w0, w21
	b .LBB42_7
.LBB42_6:
	mov x8, xzr
	mov x1, xzr
.LBB42_7:
	mov w9, #1073741824
	stp x8, x1, [x19]
	add w0, w0, w9
	ldp x20, x19, [sp, #64]
	ldr x21, [sp, #48]
	ldp x29, x30, [sp, #32]
	add sp, sp, #80
	ret
.Lfunc_end42:
	.size tag_c.gets.CachedMemberGetCalls.get_shallow, .Lfunc_end42-tag_c.gets.CachedMemberGetCalls.get_shallow
	.section .text.tag_c.pairs.CachedMemberPairCalls.get_write,"ax",@progbits
	.p2align 2
	.type tag_c.pairs.CachedMemberPairCalls.get_write,@function
tag_c.pairs.CachedMemberPairCalls.get_write:
	sub sp, sp, #96
	ldr x8, [x0, #24]
	ldr x9, [x0]
	stp x22, x21, [sp, #64]
	stp x20, x19, [sp, #80]
	mov x19, x2
	mov x22, x1
	mov x20, x0
	stp x29, x30, [sp, #32]
	add x29, sp, #32
	stp x24, x23, [sp, #48]
	stp xzr, xzr, [sp, #8]
	str xzr, [sp, #24]
	cbz x8, .LBB43_4
	ldr w11, [x20, #16]
	rbit x9, x8
	mov w10, #1
	mov x23, xzr
	add w11, w11, #1
	clz x9, x9
	str w11, [x20, #16]
	ldp x12, x11, [x20, #32]
	lsl x10, x10, x9
	bic x8, x8, x10
	orr x10, x12, x10
	ldr w12, [x20, #8]
	stp x8, x10, [x20, #24]
	add x8, x11, #1
	add w21, w12, w9
	str x8, [x20, #40]
	ldr w8, [x20, #8]
	ldr x24, [x20]
	sub w8, w21, w8
	cmp w8, #63
	b.hi .LBB43_8
.LBB43_2:
	ldr x9, [x20, #32]
	lsr x8, x9, x8
	tbz w8, #0, .LBB43_8
	ldr w8, [x24, #232]
	ldr w9, [x20, #288]
	ldr x10, [x24, #120]
	sub w8, w21, w8
	ubfiz x8, x8, #3, #32
	add x9, x8, x9
	lsl x9, x9, #3
	add x10, x10, x9
	ldar xzr, [x10]
	ldr x10, [x24, #128]
	str x22, [x10, x8]
	ldr x8, [x24, #120]
	add x8, x8, x9
	ldar xzr, [x8]
	cbnz x23, .LBB43_11
	b .LBB43_15
.LBB43_4:
	add x0, sp, #8
	add x1, x20, #8
	add x2, x9, #8
	bl tag_cache.cache.Cache.win_quietly_i64_core.clone.U64Clone
	ldrb w8, [sp, #8]
	cbz w8, .LBB43_6
	ldrb w8, [sp, #9]
	adrp x9, .Lswitch.table.tags_library_wait_on_reserved.286
	add x9, x9, :lo12:.Lswitch.table.tags_library_wait_on_reserved.286
	ldr w21, [x9, x8, lsl #2]
	b .LBB43_15
.LBB43_6:
	ldrb w8, [sp, #16]
	ldr x23, [sp, #24]
	cmp w8, #1
	b.ne .LBB43_16
	ldr w21, [sp, #20]
	ldr w8, [x20, #8]
	ldr x24, [x20]
	sub w8, w21, w8
	cmp w8, #63
	b.ls .LBB43_2
.LBB43_8:
	add x0, x20, #8
	add x1, x24, #8
	mov w2, w21
	bl tag_cache.cache.Cache.check_unknown_i64_core.clone.U64Clone
	tst w0, #0xff
	b.ne .LBB43_10
	add x0, x20, #8
	add x1, x24, #8
	mov w2, w21
	mov x3, x22
	bl tag_cache.cache.Cache.write_unknown_i64_core.clone.U64Clone
.LBB43_10:
	cbz x23, .LBB43_15
.LBB43_11:
	ldr x8, [x20]
	ldr x9, [x8, #120]
	add x9, x9, #8
	ldar x9, [x9]
	cbz x9, .LBB43_13
	cmp x23, #64
	mov w9, #64
	add x0, x20, #8
	csel x2, x23, x9, lo
	add x1, x8, #8
	bl tag_cache.cache.Cache.give_back_and_tell_i64_core.clone.U64Clone
	b .LBB43_14
.LBB43_13:
	mov x0, xzr
	mov x1, xzr
.LBB43_14:
	mov w8, #1073741824
	stp x0, x1, [x19]
	add w21, w21, w8
.LBB43_15:
	mov w0, w21
	ldp x20, x19, [sp, #80]
	ldp x22, x21, [sp, #64]
	ldp x24, x23, [sp, #48]
	ldp x29, x30, [sp, #32]
	add sp, sp, #96
	ret
.LBB43_16:
	mov w21, #-10
	cbnz x23, .LBB43_11
	b .LBB43_15
.Lfunc_end43:
	.size tag_c.pairs.CachedMemberPairCalls.get_write, .Lfunc_end43-tag_c.pairs.CachedMemberPairCalls.get_write
	.section .text.tag_cache.cache.Cache.check_unknown_i64_core.clone.U64Clone,"ax",@progbits
	.p2align 2
	.type tag_cache.cache.Cache.check_unknown_i64_core.clone.U64Clone,@function
tag_cache.cache.Cache.check_unknown_i64_core.clone.U64Clone:
	ldr w8, [x1, #228]
	cmp w8, w2
	b.ls .LBB44_5
	ldr w8, [x1, #224]
	subs w8, w2, w8
	b.hs .LBB44_6
	ldr w8, [x0, #68]
	mov w9, #-1
	ldr x10, [x0, #88]
	mov w11, #1
	lsl w9, w9, w8
	lsr w8, w2, w8
	bic w9, w2, w9
	ldr x8, [x10, w8, uxtw #3]
	lsl x9, x11, x9
	and x8, x9, x8
	cbz x8, .LBB44_7
.LBB44_3:
	ldr w8, [x0]
	sub w8, w2, w8
	cmp w8, #63
	b.ls .LBB44_8
	mov w0, wzr
	mov w1, wzr
	ret
.LBB44_5:
	mov w1, wzr
	mov w0, #1
	ret
.LBB44_6:
	ldr w9, [x0, #276]
	mov w10, #-1
	ldr x11, [x0, #296]
	lsl w10, w10, w9
	lsr w9, w8, w9
	bic w8, w8, w10
	mov w10, #1
	ldr x9, [x11, w9, uxtw #3]
	lsl x8, x10, x8
	and x8, x8, x9
	cbnz x8, .LBB44_3
.LBB44_7:
	mov w0, #1
	mov w1, #1
	ret
.LBB44_8:
	mov w9, #1
	ldr x10, [x0, #16]
	lsl x8, x9, x8
	tst x10, x8
	cset w0, ne
	mov w1, w0
	ret
.Lfunc_end44:
	.size tag_cache.cache.Cache.check_unknown_i64_core.clone.U64Clone, .Lfunc_end44-tag_cache.cache.Cache.check_unknown_i64_core.clone.U64Clone
	.section .text.tag_cache.cache.Cache.write_unknown_i64_core.clone.U64Clone,"ax",@progbits
	.p2align 2
	.type tag_cache.cache.Cache.write_unknown_i64_core.clone.U64Clone,@function
tag_cache.cache.Cache.write_unknown_i64_core.clone.U64Clone:
	ldr w8, [x1, #224]
	subs w8, w2, w8
	b.hs .LBB45_2
	ldr w8, [x0, #72]
	ubfiz x9, x2, #3, #32
	ldr x10, [x1]
	add x8, x9, x8
	lsl x8, x8, #3
	add x10, x10, x8
	ldar xzr, [x10]
	ldr x10, [x1, #8]
	ldr x0, [x10, x9]
	str x3, [x10, x9]
	ldr x9, [x1]
	add x8, x9, x8
	ldar xzr, [x8]
	ret
.LBB45_2:
	ldr w9, [x0, #280]
	ubfiz x8, x8, #3, #32
	ldr x10, [x1, #112]
	add x9, x8, x9
	lsl x9, x9, #3
	add x10, x10, x9
	ldar xzr, [x10]
	ldr x10, [x1, #120]
	ldr x0, [x10, x8]
	str x3, [x10, x8]
	ldr x8, [x1, #112]
	add x8, x8, x9
	ldar xzr, [x8]
	ret
.Lfunc_end45:
	.size tag_cache.cache.Cache.write_unknown_i64_core.clone.U64Clone, .Lfunc_end45-tag_cache.cache.Cache.write_unknown_i64_core.clone.U64Clone
	.section .text.tag_c.looks.CachedMemberLookCalls.holds,"ax",@progbits
	.p2align 2
	.type tag_c.looks.CachedMemberLookCalls.holds,@function
tag_c.looks.CachedMemberLookCalls.holds:
	ldr x8, [x0]
	ldr w8, [x8, #256]
	cmp w8, w1
	b.ls .LBB46_6
	ldr w8, [x0, #48]
	subs w8, w1, w8
	b.hs .LBB46_7
	ldr w8, [x0, #76]
	mov w9, #-1
	ldr x10, [x0, #96]
	mov w11, #1
	lsl w9, w9, w8
	lsr w8, w1, w8
	bic w9, w1, w9
	ldr x8, [x10, w8, uxtw #3]
	lsl x9, x11, x9
	and x8, x9, x8
	cbz x8, .LBB46_8
.LBB46_3:
	ldr w8, [x0, #8]
	sub w8, w1, w8
	cmp w8, #63
	b.hi .LBB46_9
	mov w9, #1
	ldr x10, [x0, #24]
	lsl x8, x9, x8
	tst x10, x8
	b.eq .LBB46_9
	mov w0, wzr
	ret
.LBB46_6:
	mov w0, #-1
	ret
.LBB46_7:
	ldr w9, [x0, #284]
	mov w10, #-1
	ldr x11, [x0, #304]
	lsl w10, w10, w9
	lsr w9, w8, w9
	bic w8, w8, w10
	mov w10, #1
	ldr x9, [x11, w9, uxtw #3]
	lsl x8, x10, x8
	and x8, x8, x9
	cbnz x8, .LBB46_3
.LBB46_8:
	mov w0, wzr
	ret
.LBB46_9:
	mov w0, #1
	ret
.Lfunc_end46:
	.size tag_c.looks.CachedMemberLookCalls.holds, .Lfunc_end46-tag_c.looks.CachedMemberLookCalls.holds
	.section .text.tag_pool.pool.Pool.post_noted_i64_core.clone.U64Clone,"ax",@progbits
	.p2align 2
	.type tag_pool.pool.Pool.post_noted_i64_core.clone.U64Clone,@function
tag_pool.pool.Pool.post_noted_i64_core.clone.U64Clone:
	ldr w8, [x0, #228]
	cmp w8, w2
	b.ls .LBB47_4
	ldr w8, [x0, #224]
	mov x9, x0
	subs w10, w2, w8
	b.hs .LBB47_6
	ldr w8, [x1, #28]
	mov w10, #-1
	ldr x13, [x1, #48]
	lsl w11, w10, w8
	lsr w12, w2, w8
	mov w8, #1
	bic w11, w2, w11
	ldr x12, [x13, w12, uxtw #3]
	lsl x11, x8, x11
	ands x11, x11, x12
	cset w0, eq
	cbz x11, .LBB47_5
	ldr x9, [x9]
	mov w11, w2
	mov w8, wzr
	add x9, x9, x11, lsl #6
	ldp w11, w12, [x1, #28]
	add x9, x9, x12, lsl #3
	mov w12, #1
	stlr x12, [x9]
	lsl w9, w10, w11
	lsr w10, w2, w11
	ldr x11, [x1, #48]
	bic w9, w2, w9
	mov w1, w8
	lsl x9, x12, x9
	ldr x12, [x11, w10, uxtw #3]
	bic x9, x12, x9
	str x9, [x11, w10, uxtw #3]
	ret
.LBB47_4:
	mov w8, wzr
	mov w0, #1
.LBB47_5:
	mov w1, w8
	ret
.LBB47_6:
	ldr w8, [x1, #236]
	mov w11, #-1
	ldr x13, [x1, #256]
	mov w14, #1
	lsl w12, w11, w8
	lsr w8, w10, w8
	bic w12, w10, w12
	ldr x8, [x13, w8, uxtw #3]
	lsl x12, x14, x12
	ands x8, x12, x8
	cset w0, eq
	cbz x8, .LBB47_8
	ldr x9, [x9, #112]
	ldr w12, [x1, #240]
	mov w13, #1
	mov w8, wzr
	add x9, x9, x10, lsl #6
	add x9, x9, x12, lsl #3
	ldr w12, [x1, #236]
	stlr x13, [x9]
	lsl w9, w11, w12
	lsr w11, w10, w12
	ldr x12, [x1, #256]
	bic w9, w10, w9
	mov w1, w8
	lsl x9, x13, x9
	ldr x10, [x12, w11, uxtw #3]
	bic x9, x10, x9
	str x9, [x12, w11, uxtw #3]
	ret
.LBB47_8:
	mov w8, w0
	mov w1, w8
	ret
.Lfunc_end47:
	.size tag_pool.pool.Pool.post_noted_i64_core.clone.U64Clone, .Lfunc_end47-tag_pool.pool.Pool.post_noted_i64_core.clone.U64Clone
	.section .text.tag_c.values.CachedMemberSlotCalls.post,"ax",@progbits
	.p2align 2
	.type tag_c.values.CachedMemberSlotCalls.post,@function
tag_c.values.CachedMemberSlotCalls.post:
	sub sp, sp, #48
	mov w3, w1
	mov x1, x0
	stp x20, x19, [sp, #32]
	ldr x8, [x1], #8
	mov x19, x2
	mov x20, x0
	add x0, sp, #8
	stp x29, x30, [sp, #16]
	add x2, x8, #8
	add x29, sp, #16
	str xzr, [sp, #8]
	bl tag_cache.cache.Cache.post_quietly_i64_core.clone.U64Clone
	ldrb w8, [sp, #8]
	cbz w8, .LBB48_2
	ldrb w8, [sp, #9]
	adrp x9, .Lswitch.table.tags_library_wait_on_reserved.286
	add x9, x9, :lo12:.Lswitch.table.tags_library_wait_on_reserved.286
	ldr w0, [x9, x8, lsl #2]
	ldp x20, x19, [sp, #32]
	ldp x29, x30, [sp, #16]
	add sp, sp, #48
	ret
.LBB48_2:
	ldr x8, [x20]
	ldr w2, [sp, #12]
	ldr x8, [x8, #120]
	add x8, x8, #8
	ldar x8, [x8]
	cbz x8, .LBB48_4
	mov x0, x20
	mov x3, x19
	mov w1, wzr
	ldp x20, x19, [sp, #32]
	ldp x29, x30, [sp, #16]
	add sp, sp, #48
	b tag_c.telling.CachedMemberTellingCalls.tell
.LBB48_4:
	mov w0, wzr
	ldp x20, x19, [sp, #32]
	ldp x29, x30, [sp, #16]
	add sp, sp, #48
	ret
.Lfunc_end48:
	.size tag_c.values.CachedMemberSlotCalls.post, .Lfunc_end48-tag_c.values.CachedMemberSlotCalls.post
	.section .text.tag_cache.cache.Cache.post_quietly_i64_core.clone.U64Clone,"ax",@progbits
	.p2align 2
	.type tag_cache.cache.Cache.post_quietly_i64_core.clone.U64Clone,@function
tag_cache.cache.Cache.post_quietly_i64_core.clone.U64Clone:
	stp x29, x30, [sp, #-64]!
	ldr w8, [x1]
	stp x20, x19, [sp, #48]
	mov x19, x0
	str x23, [sp, #16]
	mov x29, sp
	sub w8, w3, w8
	stp x22, x21, [sp, #32]
	cmp w8, #63
	b.ls .LBB49_2
.LBB49_1:
	add x1, x1, #40
	mov x0, x2
	mov w2, w3
	bl tag_pool.pool.Pool.post_noted_i64_core.clone.U64Clone
	tst w0, #0xff
	mov w20, wzr
	cset w9, ne
	csel w8, w1, wzr, ne
	b .LBB49_11
.LBB49_2:
	mov w10, #1
	ldr x9, [x1, #24]
	lsl x8, x10, x8
	tst x9, x8
	b.eq .LBB49_6
	bics x8, x9, x8
	b.ne .LBB49_8
	ldrb w9, [x1, #12]
	cbz w9, .LBB49_8
	mov x0, x1
	mov x23, x1
	mov x1, x2
	mov w21, w3
	mov x22, x2
	bl tag_cache.cache.Cache.give_back_kept_i64_core.clone.U64Clone
	ldr w8, [x23]
	mov w9, #1
	ldr x10, [x23, #24]
	mov w20, w0
	add x1, x23, #40
	mov x0, x22
	sub w8, w21, w8
	mov w2, w21
	lsl x9, x9, x8
	cmp w8, #63
	mov x8, #-1
	csinv x8, x8, x9, hi
	and x8, x8, x10
	str x8, [x23, #24]
	bl tag_pool.pool.Pool.post_noted_i64_core.clone.U64Clone
	tst w0, #0xff
	b.eq .LBB49_10
	b .LBB49_12
.LBB49_6:
	ldr x9, [x1, #16]
	tst x9, x8
	b.eq .LBB49_1
	mov w20, wzr
	mov w8, #1
	mov w9, #1
	b .LBB49_11
.LBB49_8:
	str x8, [x1, #24]
	add x1, x1, #40
	mov x0, x2
	mov w2, w3
	bl tag_pool.pool.Pool.post_noted_i64_core.clone.U64Clone
	tst w0, #0xff
	b.ne .LBB49_12
	mov w20, wzr
.LBB49_10:
	mov w8, wzr
	mov w9, wzr
.LBB49_11:
	strb w9, [x19]
	ldp x22, x21, [sp, #32]
	strb w8, [x19, #1]
	ldr x23, [sp, #16]
	str w20, [x19, #4]
	ldp x20, x19, [sp, #48]
	ldp x29, x30, [sp], #64
	ret
.LBB49_12:
	brk #0x1
.Lfunc_end49:
	.size tag_cache.cache.Cache.post_quietly_i64_core.clone.U64Clone, .Lfunc_end49-tag_cache.cache.Cache.post_quietly_i64_core.clone.U64Clone
	.section .text.tag_c.values.CachedMemberSlotCalls.post_quietly,"ax",@progbits
	.p2align 2
	.type tag_c.values.CachedMemberSlotCalls.post_quietly,@function
tag_c.values.CachedMemberSlotCalls.post_quietly:
	sub sp, sp, #32
	mov w3, w1
	mov x1, x0
	add x0, sp, #8
	ldr x8, [x1], #8
	stp x29, x30, [sp, #16]
	add x29, sp, #16
	str xzr, [sp, #8]
	add x2, x8, #8
	bl tag_cache.cache.Cache.post_quietly_i64_core.clone.U64Clone
	ldrb w8, [sp, #8]
	cbz w8, .LBB50_2
	ldrb w8, [sp, #9]
	adrp x9, .Lswitch.table.tags_library_wait_on_reserved.286
	add x9, x9, :lo12:.Lswitch.table.tags_library_wait_on_reserved.286
	ldr w0, [x9, x8, lsl #2]
	ldp x29, x30, [sp, #16]
	add sp, sp, #32
	ret
.LBB50_2:
	mov w0, wzr
	ldp x29, x30, [sp, #16]
	add sp, sp, #32
	ret
.Lfunc_end50:
	.size tag_c.values.CachedMemberSlotCalls.post_quietly, .Lfunc_end50-tag_c.values.CachedMemberSlotCalls.post_quietly
	.section .text.tag_c.values.CachedMemberSlotCalls.read,"ax",@progbits
	.p2align 2
	.type tag_c.values.CachedMemberSlotCalls.read,@function
tag_c.values.CachedMemberSlotCalls.read:
	sub sp, sp, #48
	mov w3, w1
	mov x1, x0
	str x19, [sp, #32]
	ldr x8, [x1], #8
	mov x19, x2
	mov x0, sp
	stp x29, x30, [sp, #16]
	add x29, sp, #16
	add x2, x8, #8
	stp xzr, xzr, [sp]
	bl tag_cache.cache.Cache.read_i64_core.clone.U64Clone
	ldrb w8, [sp]
	cbz w8, .LBB51_2
	ldrb w8, [sp, #1]
	adrp x9, .Lswitch.table.tags_library_wait_on_reserved.286
	add x9, x9, :lo12:.Lswitch.table.tags_library_wait_on_reserved.286
	ldr w0, [x9, x8, lsl #2]
	ldp x29, x30, [sp, #16]
	ldr x19, [sp, #32]
	add sp, sp, #48
	ret
.LBB51_2:
	ldr x8, [sp, #8]
	mov w0, wzr
	str x8, [x19]
	ldp x29, x30, [sp, #16]
	ldr x19, [sp, #32]
	add sp, sp, #48
	ret
.Lfunc_end51:
	.size tag_c.values.CachedMemberSlotCalls.read, .Lfunc_end51-tag_c.values.CachedMemberSlotCalls.read
	.section .text.tag_cache.cache.Cache.read_i64_core.clone.U64Clone,"ax",@progbits
	.p2align 2
	.type tag_cache.cache.Cache.read_i64_core.clone.U64Clone,@function
tag_cache.cache.Cache.read_i64_core.clone.U64Clone:
	ldr w8, [x1]
	sub w8, w3, w8
	cmp w8, #63
	b.ls .LBB52_5
.LBB52_1:
	ldr w8, [x2, #228]
	cmp w8, w3
	b.ls .LBB52_8
	ldr w8, [x2, #224]
	subs w9, w3, w8
	b.hs .LBB52_12
	ldr w8, [x1, #68]
	ldr x10, [x1, #88]
	mov w11, #-1
	lsr w9, w3, w8
	lsl w8, w11, w8
	ldr x9, [x10, w9, uxtw #3]
	bic w8, w3, w8
	lsr x8, x9, x8
	tbz w8, #0, .LBB52_14
	ldr w9, [x1, #72]
	ubfiz x10, x3, #3, #32
	ldr x11, [x2]
	add x9, x10, x9
	lsl x12, x9, #3
	add x9, x11, x12
	ldar xzr, [x9]
	ldp x11, x9, [x2]
	ldr x9, [x9, x10]
	add x10, x11, x12
	ldar xzr, [x10]
	strb wzr, [x0]
	strb wzr, [x0, #1]
	str x9, [x0, #8]
	ret
.LBB52_5:
	mov w9, #1
	ldr x10, [x1, #24]
	lsl x8, x9, x8
	tst x10, x8
	b.eq .LBB52_9
	ldr w8, [x2, #224]
	subs w8, w3, w8
	b.hs .LBB52_11
	ldr w8, [x1, #72]
	ubfiz x9, x3, #3, #32
	ldr x10, [x2]
	add x8, x9, x8
	lsl x11, x8, #3
	add x8, x10, x11
	ldar xzr, [x8]
	ldp x10, x8, [x2]
	ldr x8, [x8, x9]
	add x9, x10, x11
	ldar xzr, [x9]
	strh wzr, [x0]
	str x8, [x0, #8]
	ret
.LBB52_8:
	mov w8, #1
	strb w8, [x0]
	strb wzr, [x0, #1]
	str xzr, [x0, #8]
	ret
.LBB52_9:
	ldr x9, [x1, #16]
	tst x9, x8
	b.eq .LBB52_1
	mov w8, #257
	str xzr, [x0, #8]
	strh w8, [x0]
	ret
.LBB52_11:
	ldr w9, [x1, #280]
	ubfiz x8, x8, #3, #32
	ldr x10, [x2, #112]
	add x9, x8, x9
	lsl x9, x9, #3
	add x10, x10, x9
	ldar xzr, [x10]
	ldp x11, x10, [x2, #112]
	ldr x8, [x10, x8]
	add x9, x11, x9
	ldar xzr, [x9]
	strh wzr, [x0]
	str x8, [x0, #8]
	ret
.LBB52_12:
	ldr w8, [x1, #276]
	ldr x11, [x1, #296]
	mov w12, #-1
	lsr w10, w9, w8
	lsl w8, w12, w8
	ldr x10, [x11, w10, uxtw #3]
	bic w8, w9, w8
	lsr x8, x10, x8
	tbz w8, #0, .LBB52_14
	ldr w10, [x1, #280]
	ubfiz x9, x9, #3, #32
	ldr x11, [x2, #112]
	add x10, x9, x10
	lsl x10, x10, #3
	add x11, x11, x10
	ldar xzr, [x11]
	ldp x12, x11, [x2, #112]
	ldr x9, [x11, x9]
	add x10, x12, x10
	ldar xzr, [x10]
	strb wzr, [x0]
	strb wzr, [x0, #1]
	str x9, [x0, #8]
	ret
.LBB52_14:
	mov w8, #1
	mov w10, #1
	strb w8, [x0]
	strb w10, [x0, #1]
	str xzr, [x0, #8]
	ret
.Lfunc_end52:
	.size tag_cache.cache.Cache.read_i64_core.clone.U64Clone, .Lfunc_end52-tag_cache.cache.Cache.read_i64_core.clone.U64Clone
	.section .text.tag_c.pairs.CachedMemberPairCalls.read_clear,"ax",@progbits
	.p2align 2
	.type tag_c.pairs.CachedMemberPairCalls.read_clear,@function
tag_c.pairs.CachedMemberPairCalls.read_clear:
	sub sp, sp, #80
	stp x22, x21, [sp, #48]
	mov x22, x0
	mov w21, w1
	ldr x8, [x22], #8
	str x23, [sp, #32]
	stp x20, x19, [sp, #64]
	mov x19, x3
	mov x23, x2
	mov x20, x0
	mov x0, sp
	add x2, x8, #8
	mov x1, x22
	mov w3, w21
	stp x29, x30, [sp, #16]
	add x29, sp, #16
	stp xzr, xzr, [sp]
	bl tag_cache.cache.Cache.read_i64_core.clone.U64Clone
	ldrb w8, [sp]
	cbz w8, .LBB53_2
	ldrb w8, [sp, #1]
	b .LBB53_10
.LBB53_2:
	ldr x8, [sp, #8]
	str xzr, [x29, #24]
	str x8, [x23]
	ldr w8, [x20, #8]
	sub w9, w21, w8
	ldr x8, [x20]
	cmp w9, #63
	b.hi .LBB53_8
	mov w10, #1
	ldr x11, [x20, #32]
	lsl x9, x10, x9
	tst x11, x9
	b.eq .LBB53_8
	ldr w10, [x20, #16]
	cbz w10, .LBB53_8
	ldrb w12, [x20, #47]
	cbnz x12, .LBB53_8
	ldrb w12, [x20, #20]
	bic x11, x11, x9
	cbz w12, .LBB53_13
	cbnz x11, .LBB53_13
.LBB53_8:
	add x0, x29, #24
	add x2, x8, #8
	mov x1, x22
	mov w3, w21
	bl tag_cache.cache.Cache.clear_unplaced_i64_core.clone.U64Clone
	ldrb w8, [x29, #24]
	cbz w8, .LBB53_11
	ldrb w8, [x29, #25]
.LBB53_10:
	adrp x9, .Lswitch.table.tags_library_wait_on_reserved.286
	add x9, x9, :lo12:.Lswitch.table.tags_library_wait_on_reserved.286
	ldr w0, [x9, x8, lsl #2]
	ldp x20, x19, [sp, #64]
	ldr x23, [sp, #32]
	ldp x22, x21, [sp, #48]
	ldp x29, x30, [sp, #16]
	add sp, sp, #80
	ret
.LBB53_11:
	ldr w2, [x29, #28]
	ldr x8, [x20]
	ldr w9, [x8, #232]
	cmp w21, w9
	b.hs .LBB53_14
.LBB53_12:
	mov x0, x20
	mov w1, #1
	b .LBB53_16
.LBB53_13:
	ldr x12, [x20, #24]
	sub w10, w10, #1
	mov w2, wzr
	str w10, [x20, #16]
	orr x9, x12, x9
	stp x9, x11, [x20, #24]
	ldr w9, [x8, #232]
	cmp w21, w9
	b.lo .LBB53_12
.LBB53_14:
	ldr x8, [x8, #120]
	add x8, x8, #8
	ldar x8, [x8]
	cbz x8, .LBB53_17
	mov x0, x20
	mov w1, wzr
.LBB53_16:
	mov x3, x19
	ldp x20, x19, [sp, #64]
	ldp x22, x21, [sp, #48]
	ldr x23, [sp, #32]
	ldp x29, x30, [sp, #16]
	add sp, sp, #80
	b tag_c.telling.CachedMemberTellingCalls.tell
.LBB53_17:
	mov w0, wzr
	ldp x20, x19, [sp, #64]
	ldr x23, [sp, #32]
	ldp x22, x21, [sp, #48]
	ldp x29, x30, [sp, #16]
	add sp, sp, #80
	ret
.Lfunc_end53:
	.size tag_c.pairs.CachedMemberPairCalls.read_clear, .Lfunc_end53-tag_c.pairs.CachedMemberPairCalls.read_clear
	.section .text.tag_cache.cache.Cache.clear_unplaced_i64_core.clone.U64Clone,"ax",@progbits
	.p2align 2
	.type tag_cache.cache.Cache.clear_unplaced_i64_core.clone.U64Clone,@function
tag_cache.cache.Cache.clear_unplaced_i64_core.clone.U64Clone:
	ldr w8, [x2, #228]
	cmp w8, w3
	b.ls .LBB54_6
	stp x29, x30, [sp, #-32]!
	ldr w8, [x2, #224]
	str x19, [sp, #16]
	mov x29, sp
	subs w9, w3, w8
	b.hs .LBB54_7
	ldr w9, [x1, #68]
	mov w10, #-1
	ldr x11, [x1, #88]
	mov w12, #1
	lsl w10, w10, w9
	lsr w9, w3, w9
	bic w10, w3, w10
	ldr x9, [x11, w9, uxtw #3]
	lsl x10, x12, x10
	and x9, x10, x9
	cmp w3, w8
	ccmp x9, #0, #4, hs
	cset w10, eq
	cbz x9, .LBB54_8
.LBB54_3:
	ldr w8, [x1]
	sub w9, w3, w8
	cmp w9, #63
	b.hi .LBB54_9
	mov w11, #1
	ldr x8, [x1, #16]
	lsl x12, x11, x9
	tst x8, x12
	b.eq .LBB54_9
	mov w10, #1
	ldr x19, [sp, #16]
	ldp x29, x30, [sp], #32
	strb w11, [x0]
	strb w10, [x0, #1]
	str wzr, [x0, #4]
	ret
.LBB54_6:
	mov w11, #1
	strb w11, [x0]
	strb wzr, [x0, #1]
	str wzr, [x0, #4]
	ret
.LBB54_7:
	ldr w10, [x1, #276]
	mov w11, #-1
	ldr x12, [x1, #296]
	lsl w11, w11, w10
	lsr w10, w9, w10
	bic w9, w9, w11
	mov w11, #1
	ldr x10, [x12, w10, uxtw #3]
	lsl x9, x11, x9
	and x9, x9, x10
	cmp w3, w8
	ccmp x9, #0, #4, hs
	cset w10, eq
	cbnz x9, .LBB54_3
.LBB54_8:
	mov w11, #1
	ldr x19, [sp, #16]
	ldp x29, x30, [sp], #32
	strb w11, [x0]
	strb w10, [x0, #1]
	str wzr, [x0, #4]
	ret
.LBB54_9:
	tbz w10, #0, .LBB54_11
	mov x19, x0
	mov x0, x1
	mov x1, x2
	mov w2, w3
	bl tag_cache.cache.Cache.give_back_i64_core.clone.U64Clone
	mov x0, x19
	mov w8, wzr
	b .LBB54_23
.LBB54_11:
	ldrb w8, [x1, #12]
	cbz w8, .LBB54_13
	mov w10, #1
	ldr x11, [x1, #24]
	cmp w9, #63
	lsl x10, x10, x9
	mov x12, #-1
	csinv x10, x12, x10, hi
	tst x11, x10
	b.eq .LBB54_21
.LBB54_13:
	ldr w10, [x1, #4]
	cbz w10, .LBB54_20
	cmp w8, #0
	mov w10, #64
	ldrb w11, [x1, #39]
	ccmp w9, w10, #0, ne
	cset w10, lo
	cbnz x11, .LBB54_20
	cbz w10, .LBB54_20
	ldr w12, [x1, #8]
	cbz w12, .LBB54_19
	cmp w9, #64
	b.lo .LBB54_24
	ldr x10, [x1, #16]
	cbz x10, .LBB54_24
.LBB54_19:
	mov x19, x0
	mov x0, x1
	mov x1, x2
	mov w2, w3
	bl tag_cache.cache.Cache.keep_instead_i64_core.clone.U64Clone
	b .LBB54_22
.LBB54_20:
	mov x19, x0
	mov x0, x1
	mov x1, x2
	mov w2, w3
	bl tag_cache.cache.Cache.give_back_i64_core.clone.U64Clone
	mov x0, x19
	mov w11, wzr
	mov w8, #1
	ldr x19, [sp, #16]
	ldp x29, x30, [sp], #32
	strb w11, [x0]
	strb wzr, [x0, #1]
	str w8, [x0, #4]
	ret
.LBB54_21:
	mov x19, x0
	mov x0, x1
	mov x1, x2
	mov w2, w3
	bl tag_cache.cache.Cache.give_back_all_i64_core.clone.U64Clone
.LBB54_22:
	mov w8, w0
	mov x0, x19
.LBB54_23:
	mov w11, wzr
	ldr x19, [sp, #16]
	ldp x29, x30, [sp], #32
	strb w11, [x0]
	strb wzr, [x0, #1]
	str w8, [x0, #4]
	ret
.LBB54_24:
	ldr x13, [x1, #16]
	cbnz w8, .LBB54_28
	cbnz x13, .LBB54_28
	cmp w9, #64
	b.lo .LBB54_28
	mov x13, xzr
	and w8, w3, #0xffffffc0
	and w9, w3, #0x3f
	str w8, [x1]
	str xzr, [x1, #24]
.LBB54_28:
	mov w14, #1
	sub w12, w12, #1
	lsl x9, x14, x9
	ldr x14, [x1, #24]
	mov w11, wzr
	str w12, [x1, #8]
	bic x14, x14, x9
	orr x9, x13, x9
	stp x9, x14, [x1, #16]
	ldr x19, [sp, #16]
	ldp x29, x30, [sp], #32
	strb w11, [x0]
	strb wzr, [x0, #1]
	str wzr, [x0, #4]
	ret
.Lfunc_end54:
	.size tag_cache.cache.Cache.clear_unplaced_i64_core.clone.U64Clone, .Lfunc_end54-tag_cache.cache.Cache.clear_unplaced_i64_core.clone.U64Clone
	.section .text.tag_c.looks.CachedMemberLookCalls.show,"ax",@progbits
	.p2align 2
	.type tag_c.looks.CachedMemberLookCalls.show,@function
tag_c.looks.CachedMemberLookCalls.show:
	cbz w1, .LBB55_3
	cmp w1, #1
	b.ne .LBB55_8
	mov x8, xzr
	b .LBB55_4
.LBB55_3:
	mov w8, #112
.LBB55_4:
	ldr x9, [x0]
	add x11, x9, x8
	mov w8, #1
	ldp w9, w12, [x11, #72]
	lsl w8, w8, w12
	add w10, w9, w8
	sub w10, w10, #1
	lsr w10, w10, w12
	cbz w10, .LBB55_9
	mov x15, xzr
	mov w14, wzr
	mov w13, wzr
	mov w16, #640
.LBB55_6:
	ldur x17, [x11, #8]
	lsl w18, w15, w12
	mov x1, #-1
	add x15, x15, #1
	add x17, x17, x16
	sub w18, w9, w18
	sub x17, x17, #64
	cmp w8, w18
	ldar x17, [x17]
	csel w18, w8, w18, lo
	ldur x0, [x11, #8]
	neg w18, w18
	lsr x18, x1, x18
	cmp x10, x15
	add x0, x0, x16
	add x16, x16, #128
	ldar x0, [x0]
	bic x17, x17, x0
	and x17, x17, x18
	and x18, x0, x18
	fmov d0, x17
	fmov d1, x18
	cnt v0.8b, v0.8b
	cnt v1.8b, v1.8b
	addv b0, v0.8b
	addv b1, v1.8b
	fmov w17, s0
	fmov w18, s1
	add w14, w14, w17
	add w13, w13, w18
	b.ne .LBB55_6
	mov w0, wzr
	stp w9, w14, [x2]
	stp w13, w8, [x2, #8]
	str w10, [x2, #16]
	ret
.LBB55_8:
	mov w0, #-16
	ret
.LBB55_9:
	mov w0, wzr
	stp w9, wzr, [x2]
	stp wzr, w8, [x2, #8]
	str w10, [x2, #16]
	ret
.Lfunc_end55:
	.size tag_c.looks.CachedMemberLookCalls.show, .Lfunc_end55-tag_c.looks.CachedMemberLookCalls.show
	.section .text.tag_c.values.CachedMemberSlotCalls.take,"ax",@progbits
	.p2align 2
	.type tag_c.values.CachedMemberSlotCalls.take,@function
tag_c.values.CachedMemberSlotCalls.take:
	ldr x9, [x0]
	ldr w8, [x9, #236]
	cmp w8, w1
	b.ls .LBB56_6
	ldr w8, [x9, #232]
	subs w8, w1, w8
	b.hs .LBB56_7
	ldr x8, [x9, #8]
	mov w9, w1
	add x9, x8, x9, lsl #6
	ldp w8, w10, [x0, #76]
	add x10, x9, x10, lsl #3
.LBB56_3:
	ldaxr x9, [x10]
	stlxr w11, xzr, [x10]
	cbnz w11, .LBB56_3
	cbz x9, .LBB56_11
	mov w10, #-1
	ldr x11, [x0, #96]
	mov w0, wzr
	lsl w10, w10, w8
	lsr w8, w1, w8
	bic w9, w1, w10
	mov w10, #1
	lsl x9, x10, x9
	ldr x10, [x11, w8, uxtw #3]
	orr x9, x10, x9
	str x9, [x11, w8, uxtw #3]
	ret
.LBB56_6:
	mov w0, #-1
	ret
.LBB56_7:
	ldr x9, [x9, #120]
	ldr w10, [x0, #288]
	add x11, x9, x8, lsl #6
	ldr w9, [x0, #284]
	add x11, x11, x10, lsl #3
.LBB56_8:
	ldaxr x10, [x11]
	stlxr w12, xzr, [x11]
	cbnz w12, .LBB56_8
	cbz x10, .LBB56_11
	mov w11, #-1
	ldr x12, [x0, #304]
	mov w10, #1
	lsl w11, w11, w9
	lsr w9, w8, w9
	mov w0, wzr
	bic w8, w8, w11
	lsl x8, x10, x8
	ldr x10, [x12, w9, uxtw #3]
	orr x8, x10, x8
	str x8, [x12, w9, uxtw #3]
	ret
.LBB56_11:
	mov w0, #-4
	ret
.Lfunc_end56:
	.size tag_c.values.CachedMemberSlotCalls.take, .Lfunc_end56-tag_c.values.CachedMemberSlotCalls.take
	.section .text.tag_c.values.CachedMemberSlotCalls.write,"ax",@progbits
	.p2align 2
	.type tag_c.values.CachedMemberSlotCalls.write,@function
tag_c.values.CachedMemberSlotCalls.write:
	stp x29, x30, [sp, #-64]!
	stp x22, x21, [sp, #32]
	mov x22, x0
	mov w21, w1
	ldr w8, [x22, #8]!
	str x23, [sp, #16]
	ldr x23, [x0]
	stp x20, x19, [sp, #48]
	mov x19, x3
	sub w8, w1, w8
	mov x20, x2
	mov x29, sp
	cmp w8, #63
	b.hi .LBB57_3
	ldr x9, [x0, #32]
	lsr x8, x9, x8
	tbz w8, #0, .LBB57_3
	ldr w8, [x23, #232]
	ldr w9, [x0, #288]
	ldr x10, [x23, #120]
	sub w8, w21, w8
	ubfiz x8, x8, #3, #32
	add x9, x8, x9
	lsl x9, x9, #3
	add x10, x10, x9
	ldar xzr, [x10]
	ldr x10, [x23, #128]
	ldr x0, [x10, x8]
	str x20, [x10, x8]
	ldr x8, [x23, #120]
	add x8, x8, x9
	ldar xzr, [x8]
	b .LBB57_6
.LBB57_3:
	add x1, x23, #8
	mov x0, x22
	mov w2, w21
	bl tag_cache.cache.Cache.check_unknown_i64_core.clone.U64Clone
	tst w0, #0xff
	b.eq .LBB57_5
	and x8, x1, #0xff
	adrp x9, .Lswitch.table.tags_library_wait_on_reserved.286
	add x9, x9, :lo12:.Lswitch.table.tags_library_wait_on_reserved.286
	ldr w8, [x9, x8, lsl #2]
	ldp x20, x19, [sp, #48]
	mov w0, w8
	ldp x22, x21, [sp, #32]
	ldr x23, [sp, #16]
	ldp x29, x30, [sp], #64
	ret
.LBB57_5:
	add x1, x23, #8
	mov x0, x22
	mov w2, w21
	mov x3, x20
	bl tag_cache.cache.Cache.write_unknown_i64_core.clone.U64Clone
.LBB57_6:
	mov w8, wzr
	str x0, [x19]
	ldp x20, x19, [sp, #48]
	mov w0, w8
	ldp x22, x21, [sp, #32]
	ldr x23, [sp, #16]
	ldp x29, x30, [sp], #64
	ret
.Lfunc_end57:
	.size tag_c.values.CachedMemberSlotCalls.write, .Lfunc_end57-tag_c.values.CachedMemberSlotCalls.write
	.section .text.tag_c.object.Object.leave,"ax",@progbits
	.p2align 2
	.type tag_c.object.Object.leave,@function
tag_c.object.Object.leave:
	stp x29, x30, [sp, #-96]!
	str x28, [sp, #16]
	mov x29, sp
	stp x26, x25, [sp, #32]
	stp x24, x23, [sp, #48]
	stp x22, x21, [sp, #64]
	stp x20, x19, [sp, #80]
	sub sp, sp, #1792
	str xzr, [sp]
	movi v0.2d, #0000000000000000
	add x10, x0, #296
	ldp x19, x22, [x0, #8]
	ldrb w11, [x0]
	ldp x26, x25, [x0, #24]
	ldr x24, [x0, #80]
	ldp x21, x9, [x0, #64]
	ldr x23, [x0, #288]
	stp xzr, xzr, [sp, #344]
	ldp x20, x8, [x0, #272]
	str xzr, [sp, #336]
	stp q0, q0, [sp, #288]
	str q0, [sp, #320]
	stp q0, q0, [sp]
	stp q0, q0, [sp, #32]
	stp q0, q0, [sp, #64]
	stp q0, q0, [sp, #96]
	stp q0, q0, [sp, #144]
	stp q0, q0, [sp, #192]
	stp q0, q0, [sp, #224]
	stp q0, q0, [sp, #256]
	str xzr, [sp, #176]
	str q0, [sp, #128]
	cbz w11, .LBB58_3
	cmp w11, #2
	b.ne .LBB58_29
	ldur q0, [x0, #40]
	add x11, sp, #368
	ldur q1, [x0, #184]
	str x9, [sp, #424]
	ldr x9, [x0, #264]
	add x1, x19, #8
	stur q0, [x11, #24]
	ldur q0, [x0, #168]
	ldur x12, [x0, #56]
	stur q1, [x11, #168]
	ldur q1, [x0, #216]
	stur q0, [x11, #152]
	ldur q0, [x0, #200]
	stur q1, [x11, #200]
	ldur q1, [x0, #120]
	stur q0, [x11, #184]
	ldur q0, [x0, #104]
	stur q1, [x11, #104]
	ldur q1, [x0, #152]
	stur q0, [x11, #88]
	ldur q0, [x0, #136]
	stur q1, [x11, #136]
	ldur q1, [x0, #232]
	stur q0, [x11, #120]
	ldur q0, [x0, #88]
	stur q1, [x11, #216]
	stur q0, [x11, #72]
	ldur q0, [x0, #248]
	str x9, [sp, #616]
	add x9, sp, #368
	stur q0, [x11, #232]
	ldp q0, q1, [x10, #80]
	str x8, [sp, #632]
	add x8, x9, #280
	add x11, x0, #440
	stp x22, x26, [sp, #368]
	stp q0, q1, [x8, #80]
	ldp q0, q3, [x10, #112]
	ldp q1, q2, [x10, #48]
	str x25, [sp, #384]
	stp x12, x21, [sp, #408]
	stp q0, q3, [x8, #112]
	ldr q0, [x10, #32]
	str q2, [x8, #64]
	stp q0, q1, [x8, #32]
	ldp q1, q0, [x10]
	str x24, [sp, #432]
	str x20, [sp, #624]
	stp q1, q0, [x8]
	ldp q2, q0, [x11]
	add x8, x9, #424
	str x23, [sp, #640]
	stp q2, q0, [x8]
	ldr x8, [x0, #472]
	add x0, sp, #368
	str x8, [sp, #824]
	bl tag_cache.cache.Cache.give_back_kept_i64_core.clone.U64Clone
	ldr q0, [sp, #432]
	ldr q3, [sp, #544]
	ldr x20, [sp, #664]
	ldp x8, x21, [sp, #448]
	ldr x25, [sp, #424]
	str q0, [sp, #336]
	ldr x23, [sp, #680]
	str q3, [sp, #256]
	ldp q0, q1, [sp, #512]
	str x8, [sp, #352]
	ldr x8, [sp, #656]
	ldp x22, x26, [sp, #408]
	stp q0, q1, [sp, #224]
	ldp q0, q2, [sp, #592]
	str x8, [sp, #176]
	ldr x8, [sp, #672]
	ldp x9, x24, [sp, #464]
	stp q0, q2, [sp, #304]
	ldp q0, q2, [sp, #560]
	stp q0, q2, [sp, #272]
	ldp q0, q2, [sp, #480]
	stp q0, q2, [sp, #192]
	ldp q1, q0, [sp, #624]
	stp q1, q0, [sp, #144]
	ldp q0, q1, [sp, #768]
	stp q0, q1, [sp, #80]
	ldp q0, q3, [sp, #800]
	ldp q1, q2, [sp, #736]
	stp q0, q3, [sp, #112]
	ldr q0, [sp, #720]
	str q2, [sp, #64]
	stp q0, q1, [sp, #32]
	ldp q1, q0, [sp, #688]
	stp q1, q0, [sp]
	b .LBB58_4
.LBB58_3:
	ldur q0, [x0, #40]
	ldur q1, [x0, #184]
	ldur q2, [x0, #216]
	ldur x11, [x0, #56]
	stp q2, q0, [sp, #320]
	ldur q0, [x0, #200]
	ldur q2, [x0, #168]
	stp q1, q0, [sp, #288]
	ldur q0, [x0, #120]
	ldur q1, [x0, #136]
	str x11, [sp, #352]
	ldr x11, [x0, #264]
	stp q0, q1, [sp, #224]
	ldur q0, [x0, #152]
	ldur q1, [x0, #104]
	str x11, [sp, #176]
	stp q0, q2, [sp, #256]
	ldur q0, [x0, #88]
	ldur q2, [x0, #232]
	stp q0, q1, [sp, #192]
	ldur q0, [x0, #248]
	stp q2, q0, [sp, #144]
	ldp q0, q1, [x10, #96]
	ldr q2, [x10, #128]
	stp q0, q1, [sp, #96]
	ldp q0, q1, [x10, #32]
	str q2, [sp, #128]
	stp q0, q1, [sp, #32]
	ldp q0, q2, [x10, #64]
	stp q0, q2, [sp, #64]
	ldp q0, q1, [x10]
	stp q0, q1, [sp]
.LBB58_4:
	ldp q2, q0, [sp, #320]
	ldr x10, [sp, #352]
	str xzr, [sp, #1184]
	stur x10, [x29, #-240]
	ldr x10, [sp, #176]
	stur q0, [x29, #-256]
	ldp q0, q1, [sp, #288]
	str q2, [sp, #1520]
	str x10, [sp, #1376]
	ldr x10, [x19, #280]
	str q0, [sp, #1488]
	str q1, [sp, #1504]
	ldp q0, q1, [sp, #224]
	str xzr, [sp, #1168]
	str xzr, [sp, #1176]
	str q0, [sp, #1424]
	ldp q0, q2, [sp, #256]
	str q1, [sp, #1440]
	str xzr, [sp, #1008]
	str q0, [sp, #1456]
	ldp q0, q1, [sp, #192]
	str q2, [sp, #1472]
	str q0, [sp, #1392]
	ldp q2, q0, [sp, #144]
	str q1, [sp, #1408]
	str q0, [sp, #1360]
	ldp q1, q0, [sp, #96]
	str q2, [sp, #1344]
	ldr q2, [sp, #128]
	str q1, [sp, #1296]
	str q0, [sp, #1312]
	ldp q0, q1, [sp, #32]
	str q2, [sp, #1328]
	str q0, [sp, #1232]
	ldp q0, q2, [sp, #64]
	str q1, [sp, #1248]
	str q0, [sp, #1264]
	ldp q0, q1, [sp]
	str q2, [sp, #1280]
	str q0, [sp, #1200]
	movi v0.2d, #0000000000000000
	str q1, [sp, #1216]
	str q0, [sp, #1024]
	str q0, [sp, #1040]
	str q0, [sp, #1056]
	str q0, [sp, #1072]
	str q0, [sp, #1088]
	str q0, [sp, #1104]
	str q0, [sp, #1120]
	str q0, [sp, #1136]
	str q0, [sp, #1152]
	stp q0, q0, [sp, #832]
	stp q0, q0, [sp, #864]
	stp q0, q0, [sp, #896]
	stp q0, q0, [sp, #928]
	stp q0, q0, [sp, #976]
	str q0, [sp, #960]
	cbz x10, .LBB58_10
	mov x11, xzr
.LBB58_6:
	ldur q1, [x29, #-256]
	ldr q2, [sp, #1504]
	ldr q3, [sp, #1520]
	ldur x12, [x29, #-240]
	ldr q4, [sp, #1328]
	ldr x13, [x19, #272]
	stur q1, [x29, #-32]
	ldr q1, [sp, #1488]
	str q3, [sp, #496]
	ldr q3, [sp, #1472]
	stp q1, q2, [sp, #464]
	ldr q1, [sp, #1424]
	ldr q2, [sp, #1440]
	stur x12, [x29, #-16]
	ldr x12, [sp, #1376]
	stp q1, q2, [sp, #400]
	ldr q1, [sp, #1456]
	ldr q2, [sp, #1408]
	stur x12, [x29, #-48]
	mov w12, #440
	madd x12, x11, x12, x13
	stp q1, q3, [sp, #432]
	ldr q1, [sp, #1392]
	ldr q3, [sp, #1344]
	stp q1, q2, [sp, #368]
	ldr q1, [sp, #1360]
	ldr q2, [sp, #1296]
	stp q3, q1, [x29, #-80]
	ldr q1, [sp, #1280]
	ldr q3, [sp, #1264]
	stp q1, q2, [x29, #-144]
	ldr q1, [sp, #1312]
	ldr q2, [sp, #1248]
	stur q3, [x29, #-160]
	stp q1, q4, [x29, #-112]
	ldr q1, [sp, #1232]
	stp q1, q2, [x29, #-192]
	ldr q1, [sp, #1216]
	ldr q2, [sp, #1200]
	stp q2, q1, [x29, #-224]
.LBB58_7:
	ldaxr x13, [x12]
	cbnz x13, .LBB58_9
	mov w13, #3
	stlxr w14, x13, [x12]
	cbz w14, .LBB58_19
	b .LBB58_7
.LBB58_9:
	clrex
	add x11, x11, #1
	cmp x11, x10
	ldur q1, [x29, #-32]
	ldr q3, [sp, #496]
	ldur x12, [x29, #-16]
	str q1, [sp, #1168]
	ldp q1, q2, [sp, #464]
	str q3, [sp, #1152]
	str x12, [sp, #1184]
	ldur x12, [x29, #-48]
	str q1, [sp, #1120]
	str q2, [sp, #1136]
	ldp q1, q2, [sp, #400]
	str x12, [sp, #1008]
	ldr x12, [sp, #1184]
	str q1, [sp, #1056]
	ldp q1, q3, [sp, #432]
	str q2, [sp, #1072]
	stur x12, [x29, #-240]
	ldr x12, [sp, #1008]
	str q1, [sp, #1088]
	ldp q1, q2, [sp, #368]
	str q3, [sp, #1104]
	str x12, [sp, #1376]
	str q1, [sp, #1024]
	ldp q3, q1, [x29, #-80]
	str q2, [sp, #1040]
	stp q3, q1, [sp, #976]
	ldp q1, q2, [x29, #-128]
	ldur q3, [x29, #-96]
	stp q1, q2, [sp, #928]
	ldp q1, q2, [x29, #-192]
	str q3, [sp, #960]
	stp q1, q2, [sp, #864]
	ldp q1, q3, [x29, #-160]
	stp q1, q3, [sp, #896]
	ldp q1, q2, [x29, #-224]
	ldr q3, [sp, #1168]
	stp q1, q2, [sp, #832]
	ldr q1, [sp, #1120]
	ldr q2, [sp, #1136]
	stur q3, [x29, #-256]
	ldr q3, [sp, #1152]
	str q1, [sp, #1488]
	ldr q1, [sp, #1056]
	str q3, [sp, #1520]
	ldr q3, [sp, #1104]
	str q1, [sp, #1424]
	ldr q1, [sp, #1088]
	str q2, [sp, #1504]
	ldr q2, [sp, #1072]
	str q1, [sp, #1456]
	ldr q1, [sp, #1024]
	str q3, [sp, #1472]
	str q1, [sp, #1392]
	ldp q3, q1, [sp, #976]
	str q2, [sp, #1440]
	ldr q2, [sp, #1040]
	str q2, [sp, #1408]
	str q1, [sp, #1360]
	ldp q1, q2, [sp, #912]
	str q3, [sp, #1344]
	str q1, [sp, #1280]
	ldp q1, q4, [sp, #944]
	str q2, [sp, #1296]
	ldp q2, q3, [sp, #880]
	str q1, [sp, #1312]
	ldr q1, [sp, #864]
	str q2, [sp, #1248]
	str q1, [sp, #1232]
	ldp q2, q1, [sp, #832]
	str q4, [sp, #1328]
	str q3, [sp, #1264]
	str q1, [sp, #1216]
	str q2, [sp, #1200]
	b.ne .LBB58_6
.LBB58_10:
	stp q0, q0, [sp, #368]
	stp q0, q0, [sp, #400]
	stp q0, q0, [sp, #432]
	stp q0, q0, [sp, #464]
	stp q0, q0, [sp, #496]
	stp q0, q0, [sp, #528]
	stp q0, q0, [sp, #560]
	stp q0, q0, [sp, #592]
	stp q0, q0, [sp, #624]
.LBB58_11:
	ldaxr x8, [x19]
	subs x8, x8, #1
	stlxr w9, x8, [x19]
	cbnz w9, .LBB58_11
	b.ne .LBB58_14
	add x0, sp, #368
	add x1, x19, #8
	mov w2, #288
	bl memcpy
	mov x0, x19
	bl tags_library_dealloc
	add x0, sp, #368
	bl tag_c.pool_state.PoolState.drop
.LBB58_14:
	cbz x24, .LBB58_16
	mov x0, x21
	bl tags_library_dealloc
.LBB58_16:
	cbz x23, .LBB58_18
	mov x0, x20
	bl tags_library_dealloc
.LBB58_18:
	mov w0, #11
	b .LBB58_43
.LBB58_19:
	mov w11, #1
	stp x26, x25, [x12, #24]
	ldur q0, [x29, #-32]
	ldrb w10, [x12, #8]
	stp x11, x22, [x12, #8]
	ldur x11, [x29, #-16]
	ldr x0, [x12, #64]
	stur q0, [x12, #40]
	ldp q0, q2, [sp, #368]
	stp x11, x21, [x12, #56]
	cmp w10, #1
	ldr x11, [x12, #80]
	stp x9, x24, [x12, #72]
	ldur x9, [x29, #-48]
	ldr x21, [x12, #272]
	stur q0, [x12, #88]
	ldp q1, q0, [sp, #432]
	stur q2, [x12, #104]
	stp x9, x20, [x12, #264]
	mov x9, #4294967296
	ldr x20, [x12, #288]
	stur q1, [x12, #152]
	ldp q3, q1, [sp, #400]
	stur q0, [x12, #168]
	stp x8, x23, [x12, #280]
	add x8, x12, #296
	stur q1, [x12, #136]
	ldp q2, q1, [sp, #480]
	stur q3, [x12, #120]
	ldr q3, [sp, #464]
	stur q1, [x12, #216]
	ldp q1, q0, [x29, #-80]
	stur q2, [x12, #200]
	ldur q2, [x29, #-96]
	stur q3, [x12, #184]
	stur q1, [x12, #232]
	stur q0, [x12, #248]
	ldp q0, q1, [x29, #-128]
	str q2, [x8, #128]
	ldur q2, [x29, #-224]
	stp q0, q1, [x8, #96]
	ldp q0, q1, [x29, #-208]
	str q2, [x8]
	stp q0, q1, [x8, #16]
	ldur q0, [x29, #-176]
	str q0, [x8, #48]
	ldp q0, q3, [x29, #-160]
	stp q0, q3, [x8, #64]
	stlr x9, [x12]
	b.ne .LBB58_24
	cbz x11, .LBB58_22
	bl tags_library_dealloc
.LBB58_22:
	cbz x20, .LBB58_24
	mov x0, x21
	bl tags_library_dealloc
.LBB58_24:
	movi v0.2d, #0000000000000000
	stp q0, q0, [sp, #368]
	stp q0, q0, [sp, #400]
	stp q0, q0, [sp, #432]
	stp q0, q0, [sp, #464]
	stp q0, q0, [sp, #496]
	stp q0, q0, [sp, #528]
	stp q0, q0, [sp, #560]
	stp q0, q0, [sp, #592]
	stp q0, q0, [sp, #624]
.LBB58_25:
	ldaxr x8, [x19]
	subs x8, x8, #1
	stlxr w9, x8, [x19]
	cbnz w9, .LBB58_25
	b.ne .LBB58_28
	add x0, sp, #368
	add x1, x19, #8
	mov w2, #288
	bl memcpy
	mov x0, x19
	bl tags_library_dealloc
	add x0, sp, #368
	bl tag_c.pool_state.PoolState.drop
.LBB58_28:
	mov w0, wzr
	b .LBB58_43
.LBB58_29:
	stp q0, q0, [sp, #368]
	stp q0, q0, [sp, #400]
	stp q0, q0, [sp, #432]
	stp q0, q0, [sp, #464]
	stp q0, q0, [sp, #496]
	stp q0, q0, [sp, #528]
	stp q0, q0, [sp, #560]
	stp q0, q0, [sp, #592]
	stp q0, q0, [sp, #624]
.LBB58_30:
	ldaxr x8, [x19]
	subs x8, x8, #1
	stlxr w9, x8, [x19]
	cbnz w9, .LBB58_30
	b.ne .LBB58_33
	add x0, sp, #368
	add x1, x19, #8
	mov w2, #288
	bl memcpy
	mov x0, x19
	bl tags_library_dealloc
	add x0, sp, #368
	bl tag_c.pool_state.PoolState.drop
.LBB58_33:
	cbz x26, .LBB58_40
	add x20, x22, #272
	b .LBB58_36
.LBB58_35:
	subs x26, x26, #1
	add x20, x20, #424
	b.eq .LBB58_40
.LBB58_36:
	ldur x8, [x20, #-208]
	ldur x19, [x20, #-16]
	ldr x21, [x20]
	cbz x8, .LBB58_38
	ldur x0, [x20, #-224]
	bl tags_library_dealloc
.LBB58_38:
	cbz x21, .LBB58_35
	mov x0, x19
	bl tags_library_dealloc
	b .LBB58_35
.LBB58_40:
	cbz x25, .LBB58_42
	mov x0, x22
	bl tags_library_dealloc
.LBB58_42:
	mov w0, #3
.LBB58_43:
	add sp, sp, #1792
	ldp x20, x19, [sp, #80]
	ldr x28, [sp, #16]
	ldp x22, x21, [sp, #64]
	ldp x24, x23, [sp, #48]
	ldp x26, x25, [sp, #32]
	ldp x29, x30, [sp], #96
	ret
.Lfunc_end58:
	.size tag_c.object.Object.leave, .Lfunc_end58-tag_c.object.Object.leave
	.section .text.std_alloc.vec.Vec.drop__639c649e4d903d94,"ax",@progbits
	.p2align 2
	.type std_alloc.vec.Vec.drop__639c649e4d903d94,@function
std_alloc.vec.Vec.drop__639c649e4d903d94:
	stp x29, x30, [sp, #-64]!
	stp x22, x21, [sp, #32]
	ldr x22, [x0, #16]
	mov x29, sp
	stp x20, x19, [sp, #48]
	ldp x19, x21, [x0]
	stp x24, x23, [sp, #16]
	cbz x21, .LBB59_7
	add x23, x19, #272
	b .LBB59_3
.LBB59_2:
	subs x21, x21, #1
	add x23, x23, #424
	b.eq .LBB59_7
.LBB59_3:
	ldur x8, [x23, #-208]
	ldur x20, [x23, #-16]
	ldr x24, [x23]
	cbz x8, .LBB59_5
	ldur x0, [x23, #-224]
	bl tags_library_dealloc
.LBB59_5:
	cbz x24, .LBB59_2
	mov x0, x20
	bl tags_library_dealloc
	b .LBB59_2
.LBB59_7:
	cbz x22, .LBB59_9
	mov x0, x19
	ldp x20, x19, [sp, #48]
	ldp x22, x21, [sp, #32]
	ldp x24, x23, [sp, #16]
	ldp x29, x30, [sp], #64
	b tags_library_dealloc
.LBB59_9:
	ldp x20, x19, [sp, #48]
	ldp x22, x21, [sp, #32]
	ldp x24, x23, [sp, #16]
	ldp x29, x30, [sp], #64
	ret
.Lfunc_end59:
	.size std_alloc.vec.Vec.drop__639c649e4d903d94, .Lfunc_end59-std_alloc.vec.Vec.drop__639c649e4d903d94
	.section .text.std_alloc.arc.Arc.drop__f54b87734724c4e0,"ax",@progbits
	.p2align 2
	.type std_alloc.arc.Arc.drop__f54b87734724c4e0,@function
std_alloc.arc.Arc.drop__f54b87734724c4e0:
	sub sp, sp, #320
	movi v0.2d, #0000000000000000
	stp x29, x30, [sp, #288]
	add x29, sp, #288
	stp x28, x19, [sp, #304]
	stp q0, q0, [sp]
	stp q0, q0, [sp, #32]
	stp q0, q0, [sp, #64]
	stp q0, q0, [sp, #96]
	stp q0, q0, [sp, #128]
	stp q0, q0, [sp, #160]
	stp q0, q0, [sp, #192]
	stp q0, q0, [sp, #224]
	stp q0, q0, [sp, #256]
.LBB60_1:
	ldaxr x8, [x0]
	subs x8, x8, #1
	stlxr w9, x8, [x0]
	cbnz w9, .LBB60_1
	b.ne .LBB60_4
	mov x19, x0
	mov x0, sp
	mov w2, #288
	add x1, x19, #8
	bl memcpy
	mov x0, x19
	bl tags_library_dealloc
	mov x0, sp
	bl tag_c.pool_state.PoolState.drop
.LBB60_4:
	ldp x28, x19, [sp, #304]
	ldp x29, x30, [sp, #288]
	add sp, sp, #320
	ret
.Lfunc_end60:
	.size std_alloc.arc.Arc.drop__f54b87734724c4e0, .Lfunc_end60-std_alloc.arc.Arc.drop__f54b87734724c4e0
	.section .text.tag_c.pool_state.PoolState.drop,"ax",@progbits
	.p2align 2
	.type tag_c.pool_state.PoolState.drop,@function
tag_c.pool_state.PoolState.drop:
	stp x29, x30, [sp, #-96]!
	ldr x8, [x0, #32]
	stp x26, x25, [sp, #32]
	mov x29, sp
	stp x20, x19, [sp, #80]
	ldp x19, x26, [x0, #264]
	stp x28, x27, [sp, #16]
	ldr x28, [x0, #104]
	ldr x20, [x0, #200]
	stp x24, x23, [sp, #48]
	ldr x24, [x0, #48]
	ldr x23, [x0, #88]
	stp x22, x21, [sp, #64]
	ldr x22, [x0, #144]
	ldr x21, [x0, #160]
	ldr x27, [x0, #216]
	ldr x25, [x0, #280]
	mov x0, x8
	bl tags_library_dealloc
	mov x0, x24
	bl tags_library_dealloc
	cbz x28, .LBB61_2
	mov x0, x23
	bl tags_library_dealloc
.LBB61_2:
	mov x0, x22
	bl tags_library_dealloc
	mov x0, x21
	bl tags_library_dealloc
	cbz x27, .LBB61_4
	mov x0, x20
	bl tags_library_dealloc
.LBB61_4:
	cbz x26, .LBB61_12
	mov x21, x19
	b .LBB61_7
.LBB61_6:
	subs x26, x26, #1
	add x21, x21, #440
	b.eq .LBB61_12
.LBB61_7:
	ldrb w8, [x21, #8]
	cbz w8, .LBB61_6
	ldr x8, [x21, #80]
	ldr x20, [x21, #272]
	ldr x22, [x21, #288]
	cbz x8, .LBB61_10
	ldr x0, [x21, #64]
	bl tags_library_dealloc
.LBB61_10:
	cbz x22, .LBB61_6
	mov x0, x20
	bl tags_library_dealloc
	b .LBB61_6
.LBB61_12:
	cbz x25, .LBB61_14
	mov x0, x19
	ldp x20, x19, [sp, #80]
	ldp x22, x21, [sp, #64]
	ldp x24, x23, [sp, #48]
	ldp x26, x25, [sp, #32]
	ldp x28, x27, [sp, #16]
	ldp x29, x30, [sp], #96
	b tags_library_dealloc
.LBB61_14:
	ldp x20, x19, [sp, #80]
	ldp x22, x21, [sp, #64]
	ldp x24, x23, [sp, #48]
	ldp x26, x25, [sp, #32]
	ldp x28, x27, [sp, #16]
	ldp x29, x30, [sp], #96
	ret
.Lfunc_end61:
	.size tag_c.pool_state.PoolState.drop, .Lfunc_end61-tag_c.pool_state.PoolState.drop
	.section .text.atomic_table.owned.Table.drop__be83c7674c75c4c1,"ax",@progbits
	.p2align 2
	.type atomic_table.owned.Table.drop__be83c7674c75c4c1,@function
atomic_table.owned.Table.drop__be83c7674c75c4c1:
	stp x29, x30, [sp, #-32]!
	ldr x8, [x0, #32]
	str x19, [sp, #16]
	mov x29, sp
	ldr x19, [x0, #48]
	mov x0, x8
	bl tags_library_dealloc
	mov x0, x19
	ldr x19, [sp, #16]
	ldp x29, x30, [sp], #32
	b tags_library_dealloc
.Lfunc_end62:
	.size atomic_table.owned.Table.drop__be83c7674c75c4c1, .Lfunc_end62-atomic_table.owned.Table.drop__be83c7674c75c4c1
	.section .text.std_alloc.vec.Vec.drop__a45941d93199a7b0,"ax",@progbits
	.p2align 2
	.type std_alloc.vec.Vec.drop__a45941d93199a7b0,@function
std_alloc.vec.Vec.drop__a45941d93199a7b0:
	ldr x8, [x0, #16]
	cbz x8, .LBB63_2
	ldr x0, [x0]
	b tags_library_dealloc
.LBB63_2:
	ret
.Lfunc_end63:
	.size std_alloc.vec.Vec.drop__a45941d93199a7b0, .Lfunc_end63-std_alloc.vec.Vec.drop__a45941d93199a7b0
	.section .text.tag_c.pool_state.PoolState.part,"ax",@progbits
	.p2align 2
	.type tag_c.pool_state.PoolState.part,@function
tag_c.pool_state.PoolState.part:
	stp x29, x30, [sp, #-96]!
	stp x28, x27, [sp, #16]
	mov x29, sp
	stp x26, x25, [sp, #32]
	stp x24, x23, [sp, #48]
	stp x22, x21, [sp, #64]
	stp x20, x19, [sp, #80]
	sub sp, sp, #2432
	str xzr, [sp]
	mov x19, x0
	add x0, sp, #8
	ldp x20, x21, [x1, #264]
	ldr x8, [x1, #280]
	ldp x23, x24, [x2]
	add x26, sp, #272
	ldr x25, [x2, #16]
	mov w2, #264
	str x8, [sp]
	bl memcpy
	movi v0.2d, #0000000000000000
	str xzr, [sp, #688]
	stp q0, q0, [x26]
	stp q0, q0, [x26, #32]
	stp q0, q0, [x26, #64]
	stp q0, q0, [x26, #96]
	stp q0, q0, [x26, #128]
	stp q0, q0, [x26, #160]
	stp q0, q0, [x26, #192]
	stp q0, q0, [x26, #224]
	stp q0, q0, [x26, #256]
	stp q0, q0, [x26, #288]
	stp q0, q0, [x26, #320]
	stp q0, q0, [x26, #352]
	stp q0, q0, [x26, #384]
	cbz x21, .LBB64_14
	cmp x24, x25
	b.eq .LBB64_14
	mov x27, xzr
.LBB64_3:
	movi v0.2d, #0000000000000000
	mov w8, #440
	str xzr, [sp, #1984]
	madd x28, x27, x8, x20
	str xzr, [sp, #1552]
	mov x9, #4294967296
	str xzr, [sp, #1120]
	str q0, [x26, #1296]
	str q0, [x26, #1312]
	str q0, [x26, #1328]
	str q0, [x26, #1344]
	str q0, [x26, #1360]
	str q0, [x26, #1376]
	str q0, [x26, #1392]
	str q0, [x26, #1408]
	str q0, [x26, #1424]
	str q0, [x26, #1440]
	str q0, [x26, #1456]
	str q0, [x26, #1472]
	str q0, [x26, #1488]
	str q0, [x26, #1504]
	str q0, [x26, #1520]
	str q0, [x26, #1536]
	str q0, [x26, #1552]
	str q0, [x26, #1568]
	str q0, [x26, #1584]
	str q0, [x26, #1600]
	str q0, [x26, #1616]
	str q0, [x26, #1632]
	str q0, [x26, #1648]
	str q0, [x26, #1664]
	str q0, [x26, #1680]
	str q0, [x26, #1696]
	str q0, [x26, #1264]
	str q0, [x26, #1248]
	str q0, [x26, #1232]
	str q0, [x26, #1216]
	str q0, [x26, #1200]
	str q0, [x26, #1184]
	str q0, [x26, #1168]
	str q0, [x26, #1152]
	str q0, [x26, #1136]
	str q0, [x26, #1120]
	str q0, [x26, #1104]
	str q0, [x26, #1088]
	str q0, [x26, #1072]
	str q0, [x26, #1056]
	str q0, [x26, #1040]
	stp q0, q0, [x26, #880]
	stp q0, q0, [x26, #912]
	stp q0, q0, [x26, #944]
	stp q0, q0, [x26, #976]
	stp q0, q0, [x26, #1008]
	str q0, [x26, #864]
	stp q0, q0, [x26, #432]
	stp q0, q0, [x26, #464]
	stp q0, q0, [x26, #496]
	stp q0, q0, [x26, #528]
	stp q0, q0, [x26, #560]
	stp q0, q0, [x26, #592]
	stp q0, q0, [x26, #624]
	stp q0, q0, [x26, #656]
	stp q0, q0, [x26, #688]
	stp q0, q0, [x26, #720]
	stp q0, q0, [x26, #752]
	stp q0, q0, [x26, #784]
	stp q0, q0, [x26, #816]
	ldar x8, [x28]
	cmp x8, x9
	b.ne .LBB64_11
.LBB64_5:
	ldaxr x8, [x28]
	mov x9, #4294967296
	cmp x8, x9
	b.ne .LBB64_10
	mov x8, #3
	movk x8, #1, lsl #32
	stlxr w9, x8, [x28]
	cbnz w9, .LBB64_5
	add x0, sp, #1992
	add x1, x28, #16
	ldrb w22, [x28, #8]
	mov w2, #424
	bl memcpy
	add x0, x28, #16
	add x1, sp, #704
	mov w2, #424
	str xzr, [x28, #8]
	bl memcpy
	stlr xzr, [x28]
	add x0, sp, #1136
	add x1, sp, #1992
	mov w2, #424
	bl memcpy
	cmp w22, #1
	b.ne .LBB64_9
	add x0, sp, #272
	add x1, sp, #1136
	mov w2, #424
	mov w22, #424
	bl memcpy
	madd x0, x24, x22, x23
	add x1, sp, #272
	mov w2, #424
	bl memcpy
	add x24, x24, #1
	b .LBB64_12
.LBB64_9:
	movi v0.2d, #0000000000000000
	str xzr, [sp, #688]
	stp q0, q0, [x26]
	stp q0, q0, [x26, #32]
	stp q0, q0, [x26, #64]
	stp q0, q0, [x26, #96]
	stp q0, q0, [x26, #128]
	stp q0, q0, [x26, #160]
	stp q0, q0, [x26, #192]
	stp q0, q0, [x26, #224]
	stp q0, q0, [x26, #256]
	stp q0, q0, [x26, #288]
	stp q0, q0, [x26, #320]
	stp q0, q0, [x26, #352]
	stp q0, q0, [x26, #384]
	b .LBB64_12
.LBB64_10:
	clrex
.LBB64_11:
	add x0, sp, #272
	add x1, sp, #1568
	mov w2, #424
	bl memcpy
.LBB64_12:
	add x27, x27, #1
	cmp x27, x21
	b.hs .LBB64_14
	cmp x24, x25
	b.ne .LBB64_3
.LBB64_14:
	ldur q0, [sp, #200]
	ldur q1, [sp, #216]
	ldur q2, [sp, #232]
	ldr x8, [sp, #248]
	stp x24, x25, [x19, #256]
	stp q0, q1, [x19, #192]
	ldur q0, [sp, #136]
	ldur q1, [sp, #152]
	str q2, [x19, #224]
	ldur q2, [sp, #168]
	stp q0, q1, [x19, #128]
	ldur q0, [sp, #184]
	ldur q1, [sp, #72]
	stp x8, x23, [x19, #240]
	ldr x8, [sp]
	stp q2, q0, [x19, #160]
	ldur q0, [sp, #88]
	ldur q2, [sp, #104]
	stp x20, x21, [x19, #272]
	stp q1, q0, [x19, #64]
	ldur q0, [sp, #120]
	ldur q1, [sp, #8]
	str x8, [x19, #288]
	stp q2, q0, [x19, #96]
	ldur q0, [sp, #24]
	ldur q2, [sp, #40]
	stp q1, q0, [x19]
	ldur q0, [sp, #56]
	stp q2, q0, [x19, #32]
	add sp, sp, #2432
	ldp x20, x19, [sp, #80]
	ldp x22, x21, [sp, #64]
	ldp x24, x23, [sp, #48]
	ldp x26, x25, [sp, #32]
	ldp x28, x27, [sp, #16]
	ldp x29, x30, [sp], #96
	ret
.Lfunc_end64:
	.size tag_c.pool_state.PoolState.part, .Lfunc_end64-tag_c.pool_state.PoolState.part
	.section .text.tag_c.rounds.bare.make_round,"ax",@progbits
	.p2align 2
	.type tag_c.rounds.bare.make_round,@function
tag_c.rounds.bare.make_round:
	sub sp, sp, #176
	tst w3, #0x1
	mov w8, #112
	stp x20, x19, [sp, #160]
	csel x8, xzr, x8, ne
	mov x19, x0
	stp x24, x23, [sp, #128]
	add x0, x1, x8
	stp x29, x30, [sp, #80]
	add x29, sp, #80
	ldr w23, [x0, #64]
	stp x28, x27, [sp, #96]
	stp x26, x25, [sp, #112]
	stp x22, x21, [sp, #144]
	stp xzr, xzr, [sp, #24]
	str xzr, [sp, #40]
	cbz w23, .LBB65_10
	tst w3, #0x1
	mov w8, #216
	mov w9, #8
	csel x21, x9, x8, ne
	tbz w5, #0, .LBB65_22
	mov w20, wzr
	mov w22, #1
.LBB65_3:
	add x8, x2, x21
	ldr x9, [x0]
	ldr w10, [x8, #28]
	add x9, x9, x10, lsl #3
	add x9, x9, #64
.LBB65_4:
	ldaxr xzr, [x9]
	stlxr w10, xzr, [x9]
	cbnz w10, .LBB65_4
	mov w9, #1
	ldr w8, [x8, #28]
	ldr x10, [x0]
	lsl x8, x9, x8
	add x9, x10, #8
	mvn x8, x8
.LBB65_6:
	ldar x10, [x9]
	and x11, x10, x8
.LBB65_7:
	ldaxr x12, [x9]
	cmp x12, x10
	b.ne .LBB65_9
	stlxr w12, x11, [x9]
	cbz w12, .LBB65_20
	b .LBB65_7
.LBB65_9:
	clrex
	b .LBB65_6
.LBB65_10:
	tst w3, #0x1
	mov w8, #6
	mov w9, #216
	mov w10, #8
	csel w23, w8, wzr, ne
	csel x21, x10, x9, ne
.LBB65_11:
	add x8, x2, x21
	ldr x9, [x0]
	ldr w10, [x8, #28]
	add x9, x9, x10, lsl #3
	add x9, x9, #64
.LBB65_12:
	ldaxr xzr, [x9]
	stlxr w10, xzr, [x9]
	cbnz w10, .LBB65_12
	mov w9, #1
	ldr w8, [x8, #28]
	ldr x10, [x0]
	lsl x8, x9, x8
	add x9, x10, #8
	mvn x8, x8
.LBB65_14:
	ldar x10, [x9]
	and x11, x10, x8
.LBB65_15:
	ldaxr x12, [x9]
	cmp x12, x10
	b.ne .LBB65_17
	stlxr w12, x11, [x9]
	cbz w12, .LBB65_18
	b .LBB65_15
.LBB65_17:
	clrex
	b .LBB65_14
.LBB65_18:
	ldr x8, [x0]
	add x8, x8, #8
	ldar x8, [x8]
	cbz x8, .LBB65_25
	bl tag_bell.settling.look_through_i64
	mov w22, wzr
	mov w20, wzr
	b .LBB65_26
.LBB65_20:
	ldr x8, [x0]
	add x8, x8, #8
	ldar x8, [x8]
	cbz x8, .LBB65_29
	bl tag_bell.settling.look_through_i64
	mov w8, wzr
	mov w23, wzr
	b .LBB65_30
.LBB65_22:
	add x22, x2, x21
	ldr w10, [x22]
	ldrb w11, [x22, #4]
	ldr x8, [x22, #32]
	ldr x9, [x22, #64]
	cmp w10, #0
	eor w12, w11, #0x1
	csinc w12, w12, wzr, ne
	cmp x8, x9
	b.eq .LBB65_27
	tbz w12, #0, .LBB65_27
.LBB65_24:
	add x0, sp, #24
	mov w5, w6
	bl tag_pool.pool.Pool.wait_on_i64_core.clone.U64Clone
	ldp x0, x1, [sp, #32]
	mov w8, wzr
	ldrb w22, [sp, #24]
	ldr w20, [sp, #28]
	mov w23, wzr
	b .LBB65_30
.LBB65_25:
	mov w22, wzr
	mov w20, wzr
	mov x0, xzr
	mov x1, xzr
.LBB65_26:
	mov w8, #1
	b .LBB65_30
.LBB65_27:
	cmp x8, x9
	stp xzr, xzr, [x29, #-16]
	stp xzr, xzr, [x29, #-32]
	b.ne .LBB65_31
	mov w23, #5
	b .LBB65_11
.LBB65_29:
	mov w23, wzr
	mov x0, xzr
	mov x1, xzr
.LBB65_30:
	strb w8, [x19]
	ldp x26, x25, [sp, #112]
	strb w23, [x19, #1]
	ldp x24, x23, [sp, #128]
	strh wzr, [x19, #2]
	ldp x28, x27, [sp, #96]
	stp w22, w20, [x19, #4]
	ldp x22, x21, [sp, #144]
	str wzr, [x19, #12]
	ldp x29, x30, [sp, #80]
	stp x0, x1, [x19, #16]
	ldp x20, x19, [sp, #160]
	add sp, sp, #176
	ret
.LBB65_31:
	mov x8, xzr
	cmp w23, w10
	mov w12, wzr
	mov w9, wzr
	b.ls .LBB65_38
	tbnz w11, #0, .LBB65_38
	ldr w9, [x0, #68]
	lsr w8, w10, w9
	ldr x10, [x0]
	add x10, x10, x8, lsl #7
	add x10, x10, #576
	ldar x10, [x10]
	mvn x10, x10
	rbit x10, x10
	clz x20, x10
	lsr w10, w20, w9
	cbnz w10, .LBB65_37
	lsl w9, w8, w9
	add w25, w9, w20
	cmp w23, w25
	b.ls .LBB65_37
	mov x26, x0
	ldr x0, [x0]
	str x1, [sp, #16]
	mov w27, w3
	mov x24, x2
	add x1, x22, #16
	mov w2, w8
	mov w3, w20
	str w4, [sp, #12]
	mov w28, w6
	bl tag_search.shared.SharedPort.claim_one_i64
	and w8, w0, #0xff
	cmp w8, #1
	b.ne .LBB65_40
	mov x8, x1
	ldr w4, [sp, #12]
	ldr x1, [sp, #16]
	add w9, w20, #1
	mov w12, #2
	mov x0, x26
	mov x2, x24
	mov w6, w28
	mov w3, w27
	b .LBB65_38
.LBB65_37:
	mov w9, wzr
	mov x8, xzr
	mov w12, #1
.LBB65_38:
	stp w12, w9, [x29, #-32]
	mov x9, x2
	add x2, x22, #16
	stur x8, [x29, #-24]
	mov x8, x0
	sub x0, x29, #16
	mov w20, w3
	add x3, x9, x21
	mov w22, w4
	sub x4, x29, #32
	mov x23, x1
	mov x1, x8
	mov x24, x9
	mov x26, x8
	mov w25, w6
	bl tag_search.on_map.finish_i64
	mov w6, w25
	ldurb w8, [x29, #-16]
	ldur w25, [x29, #-12]
	mov x1, x23
	mov w3, w20
	mov w4, w22
	tbz w20, #0, .LBB65_43
.LBB65_39:
	mov x0, x26
	mov x2, x24
	cmp w8, #1
	csel w20, w25, wzr, eq
	cbnz w8, .LBB65_46
	b .LBB65_24
.LBB65_40:
	ldr w8, [x22]
	ldr w4, [sp, #12]
	mov w6, w28
	ldr x1, [sp, #16]
	mov w3, w27
	cmp w25, w8
	b.ne .LBB65_42
	add w8, w25, #1
	sub w9, w23, #1
	cmp w8, w9
	csinc w8, wzr, w25, hs
	str w8, [x22]
.LBB65_42:
	mov w8, #1
	tbnz w3, #0, .LBB65_39
.LBB65_43:
	cmp w8, #1
	mov x0, x26
	mov x2, x24
	b.ne .LBB65_45
	ldr w8, [x1, #224]
	mov w22, wzr
	mov w21, #216
	add w20, w8, w25
	b .LBB65_3
.LBB65_45:
	cmp w8, #1
	csel w20, wzr, wzr, eq
	cbz w8, .LBB65_24
.LBB65_46:
	mov w22, wzr
	b .LBB65_3
.Lfunc_end65:
	.size tag_c.rounds.bare.make_round, .Lfunc_end65-tag_c.rounds.bare.make_round
	.section .text.tag_pool.pool.Pool.wait_on_i64_core.clone.U64Clone,"ax",@progbits
	.p2align 2
	.type tag_pool.pool.Pool.wait_on_i64_core.clone.U64Clone,@function
tag_pool.pool.Pool.wait_on_i64_core.clone.U64Clone:
	sub sp, sp, #96
	tst w3, #0x1
	mov w8, #112
	mov w9, #216
	mov w10, #8
	csel x8, xzr, x8, ne
	stp x24, x23, [sp, #48]
	csel x9, x10, x9, ne
	stp x22, x21, [sp, #64]
	mov w23, w3
	stp x20, x19, [sp, #80]
	mov x22, x1
	mov x19, x0
	and w11, w5, #0xff
	add x20, x1, x8
	add x21, x2, x9
	stp x29, x30, [sp, #32]
	add x29, sp, #32
	cbz w11, .LBB66_5
	ldr x8, [x20]
	ldr w9, [x21, #28]
	add x8, x8, x9, lsl #3
	add x8, x8, #64
	ldar x8, [x8]
	and x9, x8, #0x3
	sub x9, x9, #1
	cmp x9, #1
	b.hi .LBB66_5
	ldr w9, [x21, #28]
	ldr x10, [x20]
	tst w4, #0xff
	mov w11, #5
	and x8, x8, #0xfffffffffffffff8
	add x9, x10, x9, lsl #3
	csinc x10, x11, xzr, ne
	orr x8, x8, x10
	add x9, x9, #64
.LBB66_3:
	ldaxr xzr, [x9]
	stlxr w10, x8, [x9]
	cbnz w10, .LBB66_3
	b .LBB66_15
.LBB66_5:
	ldr x8, [x20]
	add x9, x8, #16
.LBB66_6:
	ldaxr x8, [x9]
	add x10, x8, #8
	stlxr w11, x10, [x9]
	cbnz w11, .LBB66_6
	mov w11, #1
	ldr w9, [x21, #28]
	ldr x10, [x20]
	lsl x9, x11, x9
	add x10, x10, #8
.LBB66_8:
	ldar x11, [x10]
	orr x12, x11, x9
.LBB66_9:
	ldaxr x13, [x10]
	cmp x13, x11
	b.ne .LBB66_11
	stlxr w13, x12, [x10]
	cbz w13, .LBB66_12
	b .LBB66_9
.LBB66_11:
	clrex
	b .LBB66_8
.LBB66_12:
	tst w4, #0xff
	mov w11, #5
	ldr w9, [x21, #28]
	ldr x10, [x20]
	and x8, x8, #0xfffffffffffffff8
	add x9, x10, x9, lsl #3
	csinc x10, x11, xzr, ne
	orr x8, x8, x10
	add x9, x9, #64
.LBB66_13:
	ldaxr xzr, [x9]
	stlxr w10, x8, [x9]
	cbnz w10, .LBB66_13
.LBB66_15:
	ldr x8, [x21, #32]
	ldr x9, [x21, #64]
	stp xzr, xzr, [sp, #16]
	stp xzr, xzr, [sp]
	cmp x8, x9
	b.eq .LBB66_48
	ldr w8, [x20, #64]
	ldr w13, [x21]
	mov x9, xzr
	mov w11, wzr
	cmp w8, w13
	b.ls .LBB66_26
	ldrb w12, [x21, #4]
	mov w10, w11
	tbnz w12, #0, .LBB66_27
	ldr w12, [x20, #68]
	ldr x11, [x20]
	lsr w10, w13, w12
	ubfiz x9, x10, #7, #32
	add x11, x11, x9
	add x11, x11, #576
	ldar x11, [x11]
	mvn x11, x11
	rbit x11, x11
	clz x11, x11
	lsr w13, w11, w12
	cbnz w13, .LBB66_25
	lsl w12, w10, w12
	add w24, w12, w11
	cmp w8, w24
	b.ls .LBB66_25
	ldr x13, [x20]
	mov w12, #1
	lsl x12, x12, x11
	add x9, x13, x9
	add x13, x9, #576
.LBB66_21:
	ldar x9, [x13]
	orr x14, x9, x12
.LBB66_22:
	ldaxr x15, [x13]
	cmp x15, x9
	b.ne .LBB66_24
	stlxr w15, x14, [x13]
	cbz w15, .LBB66_29
	b .LBB66_22
.LBB66_24:
	clrex
	b .LBB66_21
.LBB66_25:
	mov w10, wzr
	mov x9, xzr
	mov w11, #1
	b .LBB66_27
.LBB66_26:
	mov w10, w11
.LBB66_27:
	add x0, sp, #16
	add x2, x21, #16
	mov x4, sp
	mov x1, x20
	mov x3, x21
	stp w11, w10, [sp]
	str x9, [sp, #8]
	bl tag_search.on_map.finish_i64
	ldrb w8, [sp, #16]
	ldr w24, [sp, #20]
	cmp w8, #1
	cset w8, eq
	tbz w23, #0, .LBB66_34
.LBB66_28:
	cbnz w8, .LBB66_36
	b .LBB66_43
.LBB66_29:
	tst x9, x12
	b.eq .LBB66_31
	add w10, w11, #1
	mov w11, #2
	b .LBB66_27
.LBB66_31:
	ldr x9, [x21, #40]
	ldr x11, [x9, x10, lsl #3]
	orr x11, x11, x12
	str x11, [x9, x10, lsl #3]
	ldr x9, [x21, #64]
	ldr w10, [x21]
	add x9, x9, #1
	cmp w24, w10
	str x9, [x21, #64]
	b.ne .LBB66_33
	add w9, w24, #1
	sub w8, w8, #1
	cmp w9, w8
	csinc w8, wzr, w24, hs
	str w8, [x21]
.LBB66_33:
	mov w8, #1
	tbnz w23, #0, .LBB66_28
.LBB66_34:
	cbz w8, .LBB66_43
	ldr w8, [x22, #224]
	add w24, w8, w24
.LBB66_36:
	ldr x8, [x20]
	ldr w9, [x21, #28]
	add x8, x8, x9, lsl #3
	add x8, x8, #64
.LBB66_37:
	ldaxr xzr, [x8]
	stlxr w9, xzr, [x8]
	cbnz w9, .LBB66_37
	mov w9, #1
	ldr w8, [x21, #28]
	ldr x10, [x20]
	lsl x8, x9, x8
	add x9, x10, #8
	mvn x8, x8
.LBB66_39:
	ldar x10, [x9]
	and x11, x10, x8
.LBB66_40:
	ldaxr x12, [x9]
	cmp x12, x10
	b.ne .LBB66_42
	stlxr w12, x11, [x9]
	cbz w12, .LBB66_44
	b .LBB66_40
.LBB66_42:
	clrex
	b .LBB66_39
.LBB66_43:
	mov x1, xzr
	mov x0, xzr
	mov w24, wzr
	mov w8, #2
	b .LBB66_47
.LBB66_44:
	ldr x8, [x20]
	add x8, x8, #8
	ldar x8, [x8]
	cbz x8, .LBB66_46
	mov x0, x20
	bl tag_bell.settling.look_through_i64
	mov w8, wzr
	b .LBB66_47
.LBB66_46:
	mov x1, xzr
	mov x0, xzr
.LBB66_47:
	stp w8, w24, [x19]
	ldp x22, x21, [sp, #64]
	stp x0, x1, [x19, #8]
	ldp x20, x19, [sp, #80]
	ldp x24, x23, [sp, #48]
	ldp x29, x30, [sp, #32]
	add sp, sp, #96
	ret
.LBB66_48:
	brk #0x1
.Lfunc_end66:
	.size tag_pool.pool.Pool.wait_on_i64_core.clone.U64Clone, .Lfunc_end66-tag_pool.pool.Pool.wait_on_i64_core.clone.U64Clone
	.section .text.tag_bell.settling.look_through_i64,"ax",@progbits
	.p2align 2
	.type tag_bell.settling.look_through_i64,@function
tag_bell.settling.look_through_i64:
	ldp w10, w9, [x0, #64]
	mov w8, #1
	lsl w8, w8, w9
	add w8, w10, w8
	sub w8, w8, #1
	lsr w8, w8, w9
	cbz w8, .LBB67_4
	stp x29, x30, [sp, #-16]!
	mov x9, xzr
	mov w10, #640
	mov x29, sp
.LBB67_2:
	ldp w13, w11, [x0, #64]
	ldr x12, [x0]
	mov w14, #1
	lsl w15, w9, w11
	add x12, x12, x10
	lsl w11, w14, w11
	sub x12, x12, #64
	sub w13, w13, w15
	ldar x12, [x12]
	cmp w11, w13
	ldr x14, [x0]
	csel w11, w11, w13, lo
	mov x13, #-1
	neg w11, w11
	add x14, x14, x10
	lsr x11, x13, x11
	ldar x13, [x14]
	and x13, x13, x11
	and x12, x11, x12
	cmp x13, #0
	ccmp x12, x11, #0, eq
	b.ne .LBB67_5
	add x9, x9, #1
	add x10, x10, #128
	cmp x8, x9
	b.ne .LBB67_2
	b .LBB67_7
.LBB67_4:
	mov x1, xzr
	mov x0, xzr
	ret
.LBB67_5:
	ldr x8, [x0]
	add x8, x8, #8
	ldar x2, [x8]
	cbz x2, .LBB67_7
	mov w1, #1
	bl tag_bell.telling.tell_each_i64
	ldp x29, x30, [sp], #16
	ret
.LBB67_7:
	mov x1, xzr
	mov x0, xzr
	ldp x29, x30, [sp], #16
	ret
.Lfunc_end67:
	.size tag_bell.settling.look_through_i64, .Lfunc_end67-tag_bell.settling.look_through_i64
	.section .text.tag_c.rounds.caching.make_round_over,"ax",@progbits
	.p2align 2
	.type tag_c.rounds.caching.make_round_over,@function
tag_c.rounds.caching.make_round_over:
	sub sp, sp, #128
	tst w3, #0x1
	mov w8, #112
	stp x20, x19, [sp, #112]
	csel x8, xzr, x8, ne
	mov x19, x0
	stp x29, x30, [sp, #32]
	add x20, x1, x8
	str x27, [sp, #48]
	add x29, sp, #32
	ldr w8, [x20, #64]
	stp x26, x25, [sp, #64]
	stp x24, x23, [sp, #80]
	stp x22, x21, [sp, #96]
	cbz w8, .LBB68_10
	cbz w5, .LBB68_14
	tst w3, #0x1
	mov w8, #216
	mov w9, #8
	mov w23, wzr
	csel x25, x9, x8, ne
	mov w21, #1
.LBB68_3:
	add x8, x2, x25
	ldr x9, [x20]
	ldr w10, [x8, #68]
	add x9, x9, x10, lsl #3
	add x9, x9, #64
.LBB68_4:
	ldaxr xzr, [x9]
	stlxr w10, xzr, [x9]
	cbnz w10, .LBB68_4
	mov w9, #1
	ldr w8, [x8, #68]
	ldr x10, [x20]
	lsl x8, x9, x8
	add x9, x10, #8
	mvn x8, x8
.LBB68_6:
	ldar x10, [x9]
	and x11, x10, x8
.LBB68_7:
	ldaxr x12, [x9]
	cmp x12, x10
	b.ne .LBB68_9
	stlxr w12, x11, [x9]
	cbz w12, .LBB68_11
	b .LBB68_7
.LBB68_9:
	clrex
	b .LBB68_6
.LBB68_10:
	tst w3, #0x1
	mov w8, #6
	mov w9, #216
	mov w10, #8
	csel w24, w8, wzr, ne
	csel x25, x10, x9, ne
	b .LBB68_43
.LBB68_11:
	ldr x8, [x20]
	add x8, x8, #8
	ldar x8, [x8]
	cbz x8, .LBB68_20
	mov x0, x20
	bl tag_bell.settling.look_through_i64
.LBB68_13:
	mov w8, wzr
	mov w24, wzr
	b .LBB68_54
.LBB68_14:
	tst w3, #0x1
	mov w8, #216
	mov w9, #8
	add x21, x2, #40
	csel x25, x9, x8, ne
	add x8, x21, x25
	ldr w9, [x8]
	ldr x10, [x8, #32]
	ldr x11, [x8, #64]
	cmp w9, #0
	cset w9, eq
	cmp x10, x11
	b.eq .LBB68_18
	ldrb w8, [x8, #4]
	eor w8, w8, #0x1
	orr w8, w9, w8
	tbz w8, #0, .LBB68_18
.LBB68_16:
	tbz w3, #0, .LBB68_22
	add x0, sp, #8
	mov x2, x21
	mov w3, #1
	mov w5, w6
	stp xzr, xzr, [sp, #8]
	str xzr, [sp, #24]
	bl tag_pool.pool.Pool.wait_on_i64_core.clone.U64Clone
	ldp x0, x1, [sp, #16]
	mov w8, wzr
	ldrb w21, [sp, #8]
	ldr w23, [sp, #12]
	mov w24, wzr
	b .LBB68_54
.LBB68_18:
	mov w26, w3
	tbz w3, #0, .LBB68_30
	add x0, sp, #8
	mov x27, x2
	add x2, x2, #40
	stp xzr, xzr, [sp, #8]
	mov x22, x1
	mov w23, w6
	str xzr, [sp, #24]
	mov w24, w4
	bl tag_pool.pool.Pool.get_reserved_quietly_i64_core.clone.U64Clone
	b .LBB68_41
.LBB68_20:
	mov w24, wzr
.LBB68_21:
	mov x0, xzr
	mov x1, xzr
	b .LBB68_54
.LBB68_22:
	ldr x9, [x2, #16]
	cbz x9, .LBB68_36
	ldr w11, [x2, #8]
	rbit x8, x9
	mov w10, #1
	add w11, w11, #1
	clz x8, x8
	str w11, [x2, #8]
	ldp x12, x11, [x2, #24]
	lsl x10, x10, x8
	bic x9, x9, x10
	orr x10, x12, x10
	stp x9, x10, [x2, #16]
	add x9, x11, #1
	ldr w11, [x2, #284]
	str x9, [x2, #32]
	ldr w9, [x2]
	ldr x10, [x1, #112]!
	add x10, x10, x11, lsl #3
	add x10, x10, #64
.LBB68_24:
	ldaxr xzr, [x10]
	stlxr w11, xzr, [x10]
	cbnz w11, .LBB68_24
	mov w11, #1
	ldr w10, [x2, #284]
	ldr x12, [x1]
	lsl x10, x11, x10
	add x11, x12, #8
	mvn x10, x10
.LBB68_26:
	ldar x12, [x11]
	and x13, x12, x10
.LBB68_27:
	ldaxr x14, [x11]
	cmp x14, x12
	b.ne .LBB68_29
	stlxr w14, x13, [x11]
	cbz w14, .LBB68_34
	b .LBB68_27
.LBB68_29:
	clrex
	b .LBB68_26
.LBB68_30:
	ldr x10, [x2, #16]
	mov x22, x1
	stp xzr, xzr, [sp, #8]
	str xzr, [sp, #24]
	cbz x10, .LBB68_40
	ldr w12, [x2, #8]
	rbit x11, x10
	mov w9, #1
	mov w24, wzr
	mov x27, x2
	add w12, w12, #1
	clz x11, x11
	str w12, [x2, #8]
	ldp x14, x12, [x2, #24]
	lsl x13, x9, x11
	bic x10, x10, x13
	orr x13, x14, x13
	ldr w14, [x2]
	add x12, x12, #1
	stp x10, x13, [x2, #16]
	add w10, w14, w11
	str x12, [x2, #32]
.LBB68_32:
	cmp w9, #1
	mov x2, x27
	mov x1, x22
	csel w23, w10, wzr, eq
	mov w3, w26
	cbz w9, .LBB68_16
	mov w21, wzr
	b .LBB68_3
.LBB68_34:
	add w23, w9, w8
	ldr x10, [x1]
	add x10, x10, #8
	ldar x10, [x10]
	cbz x10, .LBB68_55
	mov x0, x1
	bl tag_bell.settling.look_through_i64
	mov w8, wzr
	mov w24, wzr
	mov w21, wzr
	b .LBB68_54
.LBB68_36:
	add x0, sp, #8
	mov x20, x2
	add x2, x2, #40
	mov w3, wzr
	mov w5, w6
	stp xzr, xzr, [sp, #8]
	str xzr, [sp, #24]
	bl tag_pool.pool.Pool.wait_on_i64_core.clone.U64Clone
	ldrb w21, [sp, #8]
	ldr w23, [sp, #12]
	cbnz w21, .LBB68_59
	ldr w9, [x20]
	ldr x10, [x20, #16]
	mov x8, x20
	sub w9, w23, w9
	cbnz x10, .LBB68_56
	cmp w9, #64
	b.lo .LBB68_56
	and w9, w23, #0xffffffc0
	mov x10, xzr
	str w9, [x8]
	and w9, w23, #0x3f
	b .LBB68_58
.LBB68_40:
	add x0, sp, #8
	mov x27, x2
	mov x1, x2
	mov x2, x22
	mov w23, w6
	mov w24, w4
	bl tag_cache.cache.Cache.win_quietly_i64_core.clone.U64Clone
.LBB68_41:
	mov w4, w24
	ldrb w8, [sp, #8]
	ldrb w24, [sp, #9]
	ldrb w9, [sp, #16]
	ldr w10, [sp, #20]
	mov w6, w23
	cbz w8, .LBB68_32
	mov x2, x27
.LBB68_43:
	add x8, x2, x25
	ldr x9, [x20]
	ldr w10, [x8, #68]
	add x9, x9, x10, lsl #3
	add x9, x9, #64
.LBB68_44:
	ldaxr xzr, [x9]
	stlxr w10, xzr, [x9]
	cbnz w10, .LBB68_44
	mov w9, #1
	ldr w8, [x8, #68]
	ldr x10, [x20]
	lsl x8, x9, x8
	add x9, x10, #8
	mvn x8, x8
.LBB68_46:
	ldar x10, [x9]
	and x11, x10, x8
.LBB68_47:
	ldaxr x12, [x9]
	cmp x12, x10
	b.ne .LBB68_49
	stlxr w12, x11, [x9]
	cbz w12, .LBB68_50
	b .LBB68_47
.LBB68_49:
	clrex
	b .LBB68_46
.LBB68_50:
	ldr x8, [x20]
	add x8, x8, #8
	ldar x8, [x8]
	cbz x8, .LBB68_52
	mov x0, x20
	bl tag_bell.settling.look_through_i64
	mov w21, wzr
	mov w23, wzr
	b .LBB68_53
.LBB68_52:
	mov w21, wzr
	mov w23, wzr
	mov x0, xzr
	mov x1, xzr
.LBB68_53:
	mov w8, #1
.LBB68_54:
	strb w8, [x19]
	ldp x26, x25, [sp, #64]
	strb w24, [x19, #1]
	ldr x27, [sp, #48]
	strh wzr, [x19, #2]
	ldp x29, x30, [sp, #32]
	stp w21, w23, [x19, #4]
	ldp x22, x21, [sp, #96]
	str wzr, [x19, #12]
	ldp x24, x23, [sp, #80]
	stp x0, x1, [x19, #16]
	ldp x20, x19, [sp, #112]
	add sp, sp, #128
	ret
.LBB68_55:
	mov w8, wzr
	mov w24, wzr
	mov w21, wzr
	b .LBB68_21
.LBB68_56:
	cmp w9, #63
	b.hi .LBB68_59
	ldr x10, [x8, #24]
.LBB68_58:
	mov w11, #1
	lsl x9, x11, x9
	orr x9, x9, x10
	str x9, [x8, #24]
.LBB68_59:
	ldp x0, x1, [sp, #16]
	b .LBB68_13
.Lfunc_end68:
	.size tag_c.rounds.caching.make_round_over, .Lfunc_end68-tag_c.rounds.caching.make_round_over
	.section .text.tag_c.pools.open_into,"ax",@progbits
	.p2align 2
	.type tag_c.pools.open_into,@function
tag_c.pools.open_into:
	stp x29, x30, [sp, #-96]!
	stp x28, x27, [sp, #16]
	mov x29, sp
	stp x26, x25, [sp, #32]
	stp x24, x23, [sp, #48]
	stp x22, x21, [sp, #64]
	stp x20, x19, [sp, #80]
	sub sp, sp, #3072
	str xzr, [sp], #-112
	movi v0.2d, #0000000000000000
	ldr x8, [x0]
	add x23, sp, #320
	str xzr, [sp, #648]
	str xzr, [sp, #640]
	str xzr, [sp, #632]
	str xzr, [sp, #624]
	stp q0, q0, [x23, #112]
	stp q0, q0, [x23, #160]
	stp q0, q0, [x23, #192]
	stp q0, q0, [x23, #224]
	stp q0, q0, [x23, #256]
	str q0, [x23, #288]
	stp xzr, xzr, [sp, #464]
	stp q0, q0, [sp, #336]
	stp q0, q0, [sp, #368]
	stp q0, q0, [sp, #400]
	str q0, [sp, #320]
	stp xzr, xzr, [sp, #296]
	str xzr, [sp, #312]
	cbz x8, .LBB69_2
	mov w0, #-13
	b .LBB69_42
.LBB69_2:
	ldr w8, [x1, #20]
	orr w9, w8, w3
	cmp w9, #1
	b.hi .LBB69_5
	cmp w2, #64
	b.ls .LBB69_6
	mov w0, #-35
	b .LBB69_42
.LBB69_5:
	mov w0, #-18
	b .LBB69_42
.LBB69_6:
	ldp w11, w12, [x1]
	ldp w25, w20, [x1, #8]
	ldr w19, [x1, #16]
	cmp w8, #1
	mov w8, #10241
	add x24, sp, #1328
	add x22, sp, #1904
	cset w13, eq
	cmp w11, w8
	add x27, sp, #2528
	stp q0, q0, [x24, #192]
	stp q0, q0, [x24, #224]
	stp q0, q0, [x24, #256]
	stp q0, q0, [x24, #288]
	stp q0, q0, [x24, #320]
	stp q0, q0, [x24, #352]
	stp q0, q0, [x24, #384]
	stp q0, q0, [x24, #416]
	stp q0, q0, [x24, #448]
	stur xzr, [x24, #174]
	stp q0, q0, [x24, #80]
	stp q0, q0, [x24, #144]
	str xzr, [sp, #1456]
	str xzr, [sp, #1440]
	str xzr, [sp, #1448]
	str xzr, [sp, #1392]
	str xzr, [sp, #1376]
	str xzr, [sp, #1384]
	stp q0, q0, [x23, #336]
	stp q0, q0, [x23, #368]
	stp q0, q0, [x23, #400]
	stp q0, q0, [x23, #432]
	stp q0, q0, [x23, #464]
	stp q0, q0, [x23, #496]
	stp q0, q0, [x23, #528]
	stp q0, q0, [x23, #560]
	stp q0, q0, [x23, #592]
	stp q0, q0, [x23, #656]
	stp q0, q0, [x23, #688]
	stp q0, q0, [x23, #720]
	stp q0, q0, [x23, #752]
	stp q0, q0, [x23, #784]
	stp q0, q0, [x23, #816]
	stp q0, q0, [x23, #848]
	stp q0, q0, [x23, #944]
	stp q0, q0, [x23, #1008]
	stur xzr, [x24, #30]
	str xzr, [sp, #1312]
	str xzr, [sp, #1296]
	str xzr, [sp, #1304]
	str xzr, [sp, #1240]
	str xzr, [sp, #1232]
	str xzr, [sp, #1248]
	str q0, [x23, #880]
	str xzr, [sp, #1216]
	str xzr, [sp, #960]
	str xzr, [sp, #952]
	str xzr, [sp, #968]
	str xzr, [sp, #2032]
	str xzr, [sp, #2016]
	str xzr, [sp, #2024]
	stp q0, q0, [x22, #80]
	stp q0, q0, [x22, #144]
	stur xzr, [x22, #175]
	str xzr, [sp, #1968]
	str xzr, [sp, #1952]
	str xzr, [sp, #1960]
	stp q0, q0, [x24, #576]
	stur xzr, [x22, #30]
	str xzr, [sp, #1880]
	str xzr, [sp, #1872]
	str xzr, [sp, #1888]
	stp q0, q0, [x24, #512]
	str xzr, [sp, #1816]
	str xzr, [sp, #1808]
	str xzr, [sp, #1824]
	b.lo .LBB69_8
	mov x21, xzr
	mov x19, xzr
	str xzr, [sp, #288]
	mov x20, xzr
	mov x18, xzr
	mov x26, xzr
	mov x17, xzr
	mov x25, xzr
	mov x4, xzr
	mov x28, xzr
	mov x14, xzr
	mov x5, xzr
	mov x15, xzr
	mov x6, xzr
	mov x13, xzr
	mov x7, xzr
	mov x16, xzr
	mov w1, wzr
	mov w10, wzr
	mov w30, wzr
	mov w8, wzr
	stur q0, [x24, #22]
	mov w9, #-1
	b .LBB69_19
.LBB69_8:
	subs w26, w11, w12
	b.hs .LBB69_10
	mov x21, xzr
	mov x19, xzr
	str xzr, [sp, #288]
	mov x20, xzr
	mov x18, xzr
	mov x26, xzr
	mov x17, xzr
	mov x25, xzr
	mov x4, xzr
	mov x28, xzr
	mov x14, xzr
	mov x5, xzr
	mov x15, xzr
	mov x6, xzr
	mov x13, xzr
	mov x7, xzr
	mov x16, xzr
	mov w1, wzr
	mov w10, wzr
	mov w30, wzr
	mov w8, wzr
	stur q0, [x24, #22]
	mov w9, #-2
	b .LBB69_19
.LBB69_10:
	cmn w25, #1
	mov w8, #4
	csel w9, w19, w8, eq
	tbnz w25, #31, .LBB69_13
	cmp w25, #6
	mov w8, w25
	b.ls .LBB69_17
	mov x21, xzr
	mov x19, xzr
	str xzr, [sp, #288]
	mov x20, xzr
	mov x18, xzr
	mov x26, xzr
	mov x17, xzr
	mov x25, xzr
	mov x4, xzr
	mov x28, xzr
	mov x14, xzr
	mov x5, xzr
	mov x15, xzr
	mov x6, xzr
	mov x13, xzr
	mov x7, xzr
	mov x16, xzr
	mov w1, wzr
	mov w10, wzr
	mov w30, wzr
	mov w8, wzr
	stur q0, [x24, #22]
	mov w9, #-3
	b .LBB69_19
.LBB69_13:
	cmp w26, #4
	mov w25, #6
	b.lo .LBB69_15
	cmp w9, #4
	csel w8, w9, w8, hi
	udiv w8, w26, w8
	cmp w8, #1
	csinc w8, w8, wzr, hi
	clz w8, w8
	eor w8, w8, #0x1f
	cmp w8, #6
	csel w25, w8, w25, lo
.LBB69_15:
	cmp w12, #4
	mov w8, #6
	b.lo .LBB69_17
	cmp w9, #4
	mov w10, #4
	csel w9, w9, w10, hi
	udiv w9, w12, w9
	cmp w9, #1
	csinc w9, w9, wzr, hi
	clz w9, w9
	eor w9, w9, #0x1f
	cmp w9, #6
	csel w8, w9, w8, lo
.LBB69_17:
	sub w9, w19, #65
	cmn w9, #65
	b.hi .LBB69_52
	mov x21, xzr
	mov x19, xzr
	str xzr, [sp, #288]
	mov x20, xzr
	mov x18, xzr
	mov x26, xzr
	mov x17, xzr
	mov x25, xzr
	mov x4, xzr
	mov x28, xzr
	mov x14, xzr
	mov x5, xzr
	mov x15, xzr
	mov x6, xzr
	mov x13, xzr
	mov x7, xzr
	mov x16, xzr
	mov w1, wzr
	mov w10, wzr
	mov w30, wzr
	mov w8, wzr
	stur q0, [x24, #22]
	mov w9, #-4
.LBB69_19:
	stur q0, [x24, #6]
	str xzr, [sp, #1312]
	str xzr, [sp, #1296]
	str xzr, [sp, #1304]
	stp q0, q0, [x23, #944]
	str xzr, [sp, #1248]
	str xzr, [sp, #1232]
	str xzr, [sp, #1240]
.LBB69_20:
	movi v0.2d, #0000000000000000
	str xzr, [sp, #2688]
	str xzr, [sp, #2672]
	str xzr, [sp, #2680]
	str xzr, [sp, #2544]
	stp q0, q0, [x22, #192]
	stur xzr, [x22, #222]
	stp q0, q0, [x27, #448]
	str xzr, [sp, #2528]
	str xzr, [sp, #2536]
	cbz w8, .LBB69_22
	ldur q0, [x24, #6]
	ldur q1, [x24, #22]
	mov w9, wzr
	str w10, [sp, #280]
	ldr x10, [sp, #1312]
	stur q0, [x22, #198]
	ldr q0, [x23, #976]
	stur q1, [x22, #214]
	str q0, [x27, #144]
	ldp q0, q1, [x23, #944]
	str x10, [sp, #2688]
	ldr x10, [sp, #1248]
	stp q0, q1, [x27, #448]
	ldr q0, [x23, #912]
	str x10, [sp, #2544]
	str q0, [x27]
	b .LBB69_23
.LBB69_22:
	mov x17, xzr
	mov x25, xzr
	mov x4, xzr
	mov x28, xzr
	mov x14, xzr
	mov x5, xzr
	mov x15, xzr
	mov x6, xzr
	mov x13, xzr
	mov x7, xzr
	mov x16, xzr
	mov w1, wzr
	str wzr, [sp, #280]
	mov w30, wzr
	mov x21, xzr
	mov x19, xzr
	str xzr, [sp, #288]
	mov x26, xzr
	mov x18, xzr
	mov x20, xzr
.LBB69_23:
	ldur q0, [x22, #198]
	ldur q1, [x22, #214]
	ldr x10, [sp, #2688]
	stur q0, [x24, #150]
	ldr q0, [x27, #144]
	stur q1, [x24, #166]
	str q0, [x24, #112]
	ldp q0, q1, [x27, #448]
	str x10, [sp, #1456]
	ldr x10, [sp, #2544]
	stp q0, q1, [x24, #80]
	ldr q0, [x27]
	str x10, [sp, #1392]
	str q0, [x24, #48]
	cbz w8, .LBB69_41
	str w1, [sp, #248]
	str x21, [sp, #272]
	str w2, [sp, #268]
	str w3, [sp, #264]
	str x0, [sp, #256]
	cbz x19, .LBB69_43
	mov x8, #19065
	stp x16, x15, [sp, #224]
	movk x8, #42896, lsl #16
	str x14, [sp, #240]
	movk x8, #30980, lsl #32
	str x13, [sp, #216]
	movk x8, #74, lsl #48
	cmp x19, x8
	b.hi .LBB69_28
	mov w8, #440
	mov w1, #8
	mov w27, w11
	mul x0, x19, x8
	stp x20, x25, [sp, #176]
	mov w25, w12
	stp x26, x28, [sp, #192]
	mov x22, x17
	mov x20, x4
	str x18, [sp, #208]
	mov x26, x5
	mov x28, x6
	mov x24, x7
	mov w21, w30
	bl tags_library_alloc
	mov x6, x28
	mov x5, x26
	mov w12, w25
	ldp x28, x18, [sp, #200]
	mov w30, w21
	ldp x25, x26, [sp, #184]
	mov x4, x20
	ldr x20, [sp, #176]
	ldr x21, [sp, #272]
	mov x7, x24
	add x24, sp, #1328
	tbz w0, #0, .LBB69_28
	ldp x13, x16, [sp, #216]
	mov w11, w27
	ldp x15, x14, [sp, #232]
	mov x17, x22
	ldr x27, [sp, #288]
	b .LBB69_44
.LBB69_28:
	mov x0, x20
	bl tags_library_dealloc
	mov x0, x26
	bl tags_library_dealloc
	ldr x23, [sp, #288]
	cbz x28, .LBB69_30
	mov x0, x25
	bl tags_library_dealloc
.LBB69_30:
	ldr x0, [sp, #240]
	bl tags_library_dealloc
	ldr x0, [sp, #232]
	bl tags_library_dealloc
	ldr x8, [sp, #224]
	cbz x8, .LBB69_32
	ldr x0, [sp, #216]
	bl tags_library_dealloc
.LBB69_32:
	add x21, x21, #272
	b .LBB69_34
.LBB69_33:
	subs x19, x19, #1
	add x21, x21, #424
	b.eq .LBB69_38
.LBB69_34:
	ldur x8, [x21, #-208]
	ldur x20, [x21, #-16]
	ldr x22, [x21]
	cbz x8, .LBB69_36
	ldur x0, [x21, #-224]
	bl tags_library_dealloc
.LBB69_36:
	cbz x22, .LBB69_33
	mov x0, x20
	bl tags_library_dealloc
	b .LBB69_33
.LBB69_38:
	cbz x23, .LBB69_40
.LBB69_39:
	ldr x0, [sp, #272]
	bl tags_library_dealloc
.LBB69_40:
	mov w9, wzr
.LBB69_41:
	sub w0, w9, #21
.LBB69_42:
	add sp, sp, #3184
	ldp x20, x19, [sp, #80]
	ldp x22, x21, [sp, #64]
	ldp x24, x23, [sp, #48]
	ldp x26, x25, [sp, #32]
	ldp x28, x27, [sp, #16]
	ldp x29, x30, [sp], #96
	ret
.LBB69_43:
	ldr x27, [sp, #288]
	sub x1, x29, #24
.LBB69_44:
	add x8, sp, #1472
	str x4, [sp, #1072]
	ldr w4, [sp, #268]
	orr x8, x8, #0x6
	str x5, [sp, #1128]
	ldr w5, [sp, #264]
	ldp q0, q1, [x8]
	add x0, sp, #1520
	ldr x8, [sp, #1456]
	str x6, [sp, #1144]
	mov w2, w11
	str x7, [sp, #1184]
	add x7, sp, #952
	mov w3, w12
	stp q0, q1, [x23, #656]
	ldr q0, [x24, #112]
	mov x6, x19
	str x8, [sp, #1056]
	ldr x8, [sp, #1392]
	str q0, [x23, #720]
	ldp q1, q0, [x24, #80]
	str x8, [sp, #1168]
	ldr w8, [sp, #248]
	str x1, [sp, #952]
	add x1, sp, #976
	stp q1, q0, [x23, #768]
	ldr q0, [x24, #48]
	str w8, [sp, #1200]
	ldr w8, [sp, #280]
	str x20, [sp, #1008]
	str x18, [sp, #1016]
	str x26, [sp, #1024]
	str x17, [sp, #1032]
	str x25, [sp, #1064]
	str x28, [sp, #1080]
	str x14, [sp, #1120]
	str x15, [sp, #1136]
	str q0, [x23, #832]
	str x13, [sp, #1176]
	str x16, [sp, #1192]
	str w8, [sp, #1204]
	str w30, [sp, #1208]
	str wzr, [sp, #1212]
	str xzr, [sp, #1216]
	str xzr, [sp, #960]
	str x19, [sp, #968]
	bl tag_c.pool_state.PoolState.with_cells
	cmp x19, #15
	b.ls .LBB69_46
	lsr x2, x19, #1
	mov w9, #424
	mov x0, x21
	sub x8, x19, x2
	madd x1, x8, x9, x21
	bl core.slice.edits.mirror_tag_pool.hand.Hand_i64
	b .LBB69_129
.LBB69_46:
	subs x22, x19, #2
	b.lo .LBB69_129
	lsr x21, x22, #1
	subs x8, x19, #1
	b.eq .LBB69_49
	ldr x24, [sp, #272]
	mov w9, #424
	add x0, sp, #2096
	mov w2, #424
	madd x20, x8, x9, x24
	mov x1, x24
	bl memcpy
	mov x0, x24
	mov x1, x20
	mov w2, #424
	bl memmove
	add x1, sp, #2096
	mov x0, x20
	mov w2, #424
	bl memcpy
.LBB69_49:
	cbz x21, .LBB69_129
	cmp x22, #1
	b.ls .LBB69_62
	ldr x24, [sp, #272]
	mov w8, #424
	add x0, sp, #2096
	mov w2, #424
	madd x20, x22, x8, x24
	add x1, x24, #424
	bl memcpy
	add x0, x24, #424
	mov x1, x20
	mov w2, #424
	bl memmove
	add x1, sp, #2096
	mov x0, x20
	b .LBB69_64
.LBB69_52:
	str w2, [sp, #268]
	mov w1, w12
	mov w2, w8
	str w3, [sp, #264]
	mov w3, w19
	mov x4, #281474976710656
	str x0, [sp, #256]
	add x0, sp, #2672
	str w13, [sp, #288]
	str w11, [sp, #148]
	stp q0, q0, [x27, #144]
	stp q0, q0, [x27, #176]
	stp q0, q0, [x27, #208]
	stp q0, q0, [x27, #240]
	str q0, [x27, #272]
	stp q0, q0, [x22, #624]
	stp q0, q0, [x22, #656]
	stp q0, q0, [x22, #688]
	stp q0, q0, [x22, #720]
	str q0, [x22, #752]
	str w12, [sp, #272]
	bl tag_pool.opens.open_set_i64_core.clone.U64Clone
	ldrb w8, [sp, #2672]
	cbz w8, .LBB69_56
.LBB69_53:
	movi v0.2d, #0000000000000000
	str xzr, [sp, #2032]
	str xzr, [sp, #2016]
	str xzr, [sp, #2024]
	stur q0, [x22, #167]
	stur q0, [x22, #151]
	stp q0, q0, [x22, #80]
	str xzr, [sp, #1968]
.LBB69_54:
	str xzr, [sp, #1952]
	str xzr, [sp, #1960]
	ldr x0, [sp, #256]
	ldr w3, [sp, #264]
	mov w8, wzr
	ldr w2, [sp, #268]
	ldr w11, [sp, #148]
	mov x21, xzr
	ldr w12, [sp, #272]
	mov x19, xzr
	mov x20, xzr
	mov x18, xzr
	mov x26, xzr
	mov x17, xzr
	mov x25, xzr
	mov x4, xzr
	mov x28, xzr
	mov x14, xzr
	mov x5, xzr
	mov x15, xzr
	mov x6, xzr
	mov x13, xzr
	mov x7, xzr
	mov x16, xzr
	mov w1, wzr
	mov w30, wzr
	str xzr, [sp, #288]
	str wzr, [sp, #280]
.LBB69_55:
	ldur q0, [x22, #6]
	ldur q1, [x22, #22]
	mov w9, wzr
	ldr x10, [sp, #1888]
	stur q0, [x24, #6]
	ldr q0, [x24, #544]
	stur q1, [x24, #22]
	str q0, [x23, #976]
	ldp q0, q1, [x24, #512]
	str x10, [sp, #1312]
	ldr x10, [sp, #1824]
	stp q0, q1, [x23, #944]
	ldr q0, [x24, #480]
	str x10, [sp, #1248]
	ldr w10, [sp, #280]
	str q0, [x23, #912]
	b .LBB69_20
.LBB69_56:
	ldr x8, [sp, #2720]
	ldur q0, [x27, #152]
	add x0, sp, #2528
	ldur q1, [x27, #168]
	ldr x9, [sp, #2792]
	mov w1, w26
	str x8, [sp, #208]
	ldr x8, [sp, #2728]
	mov w2, w25
	stp q0, q1, [x27, #384]
	ldur q0, [x27, #216]
	mov w3, w19
	str x8, [sp, #192]
	ldr x8, [sp, #2736]
	mov x4, #281474976710656
	str x9, [sp, #280]
	ldr x9, [sp, #2808]
	ldr x21, [sp, #2776]
	str x8, [sp, #136]
	ldr x8, [sp, #2784]
	ldr x28, [sp, #2800]
	str w20, [sp, #92]
	ldr x20, [sp, #2712]
	str x8, [sp, #200]
	ldr x8, [sp, #2768]
	str x9, [sp, #96]
	str x8, [sp, #184]
	ldr x8, [sp, #2760]
	str q0, [x27, #352]
	str x8, [sp, #2896]
	bl tag_pool.opens.open_set_i64_core.clone.U64Clone
	ldrb w8, [sp, #2528]
	cbz w8, .LBB69_72
	mov x25, x20
	ldp x20, x21, [sp, #184]
	cbz x28, .LBB69_68
	ldr x8, [sp, #280]
	add x19, x8, #40
	b .LBB69_60
.LBB69_59:
	subs x28, x28, #1
	add x19, x19, #192
	b.eq .LBB69_68
.LBB69_60:
	ldr x8, [x19]
	cbz x8, .LBB69_59
	ldur x0, [x19, #-16]
	bl tags_library_dealloc
	b .LBB69_59
.LBB69_62:
	cbnz x22, .LBB69_65
	mov w8, #424
	ldr x24, [sp, #272]
	add x0, sp, #2096
	madd x20, x22, x8, x24
	mov w2, #424
	mov x1, x20
	bl memcpy
	add x1, x24, #424
	mov x0, x20
	mov w2, #424
	bl memmove
	add x0, x24, #424
	add x1, sp, #2096
.LBB69_64:
	mov w2, #424
	bl memcpy
.LBB69_65:
	cmp x21, #1
	b.eq .LBB69_129
	sub x8, x19, #3
	cmp x8, #2
	b.ls .LBB69_86
	ldr x22, [sp, #272]
	mov w9, #424
	add x0, sp, #2096
	mov w2, #424
	madd x20, x8, x9, x22
	add x1, x22, #848
	bl memcpy
	add x0, x22, #848
	mov x1, x20
	mov w2, #424
	bl memmove
	add x1, sp, #2096
	mov x0, x20
	b .LBB69_88
.LBB69_68:
	ldr x8, [sp, #96]
	cbz x8, .LBB69_70
	ldr x0, [sp, #280]
	bl tags_library_dealloc
.LBB69_70:
	mov x0, x25
	bl tags_library_dealloc
	mov x0, x21
	bl tags_library_dealloc
	ldr x8, [sp, #200]
	cbz x8, .LBB69_53
	mov x0, x20
	bl tags_library_dealloc
	b .LBB69_53
.LBB69_72:
	ldr x8, [sp, #2624]
	ldur q0, [x27, #8]
	ldur q1, [x27, #24]
	ldr x14, [sp, #2568]
	ldr x9, [sp, #2648]
	str x21, [sp, #128]
	str x8, [sp, #216]
	ldr x8, [sp, #2616]
	ldr x5, [sp, #2576]
	stp q0, q1, [x27, #320]
	ldur q0, [x27, #72]
	ldr x15, [sp, #2584]
	ldr x6, [sp, #2592]
	ldr x7, [sp, #2632]
	ldr x16, [sp, #2640]
	stp x14, x9, [sp, #240]
	ldr x9, [sp, #2656]
	ldr x21, [sp, #2664]
	ldr x0, [sp, #256]
	ldr w3, [sp, #264]
	ldr w2, [sp, #268]
	str x8, [sp, #2832]
	sub x8, x29, #24
	str x20, [sp, #176]
	str q0, [x27, #288]
	stp xzr, xzr, [x29, #-224]
	stur x8, [x29, #-232]
	stp x16, x15, [sp, #224]
	stp x6, x5, [sp, #112]
	str x7, [sp, #104]
	cbz x28, .LBB69_99
	sub x8, x9, x28
	ldr x18, [sp, #208]
	ldr x4, [sp, #128]
	mov x26, xzr
	mov x19, xzr
	mov x20, xzr
	stp x8, x21, [sp, #8]
	sub x8, x29, #24
	stp x9, x8, [sp, #160]
	b .LBB69_76
.LBB69_74:
	ldp x8, x19, [x29, #-232]
	ldr x0, [sp, #256]
	ldp x15, x14, [sp, #232]
	ldr w3, [sp, #264]
	ldr w2, [sp, #268]
	ldr x16, [sp, #224]
	ldr x18, [sp, #208]
	str x8, [sp, #168]
	ldr x4, [sp, #128]
	ldr w12, [sp, #52]
	ldr x17, [sp, #24]
	ldp x6, x8, [sp, #56]
	ldp x7, x13, [sp, #72]
	ldp x1, x30, [sp, #32]
.LBB69_75:
	mov w9, #424
	ldr x10, [sp, #168]
	ldr w5, [sp, #288]
	madd x9, x19, x9, x10
	ldr w10, [sp, #272]
	add x20, x20, #1
	add x19, x19, #1
	cmp x28, x20
	add x26, x26, #192
	stp wzr, wzr, [x9, #4]
	str w10, [x9]
	strb w5, [x9, #12]
	ldurb w10, [x29, #-26]
	ldurh w11, [x29, #-28]
	stp w25, wzr, [x9, #16]
	sturh w11, [x9, #13]
	strb w10, [x9, #15]
	ldur x10, [x29, #-40]
	ldur w11, [x29, #-32]
	stp x21, x6, [x9, #40]
	stp x17, x7, [x9, #56]
	str x10, [x9, #24]
	stp w11, w25, [x9, #32]
	ldr q0, [x22, #192]
	stur q0, [x9, #72]
	ldp q1, q0, [x22, #240]
	ldp q2, q3, [x22, #208]
	stur q0, [x9, #136]
	stur q1, [x9, #120]
	stur q3, [x9, #104]
	stur q2, [x9, #88]
	ldp q0, q1, [x22, #272]
	ldp q2, q3, [x22, #304]
	str wzr, [x9, #216]
	strb w5, [x9, #220]
	ldurb w10, [x29, #-42]
	ldurh w11, [x29, #-44]
	stp w12, wzr, [x9, #224]
	stur q3, [x9, #200]
	strb w10, [x9, #223]
	sturh w11, [x9, #221]
	ldur x10, [x29, #-56]
	ldur w11, [x29, #-48]
	stur q2, [x9, #184]
	stur q1, [x9, #168]
	stur q0, [x9, #152]
	str x10, [x9, #232]
	stp w11, w12, [x9, #240]
	stp x30, x8, [x9, #248]
	stp x1, x13, [x9, #264]
	add x9, x9, #280
	ldr q0, [x27, #448]
	str q0, [x9]
	ldp q1, q0, [x27, #496]
	stur x19, [x29, #-224]
	ldp q2, q3, [x27, #464]
	stp q1, q0, [x9, #48]
	stp q2, q3, [x9, #16]
	ldp q1, q0, [x27, #560]
	ldp q2, q3, [x27, #528]
	stp q1, q0, [x9, #112]
	stp q2, q3, [x9, #80]
	ldr x9, [sp, #160]
	b.eq .LBB69_92
.LBB69_76:
	subs x9, x9, x20
	str x9, [sp, #152]
	b.eq .LBB69_165
	ldr x9, [sp, #280]
	ldr x8, [sp, #248]
	sturh wzr, [x29, #-28]
	sturb wzr, [x29, #-26]
	add x9, x9, x26
	sturb wzr, [x29, #-42]
	ldp q0, q1, [x9, #144]
	ldr q2, [x9, #176]
	ldr x10, [x9]
	ldp w11, w25, [x9, #8]
	str q2, [x22, #320]
	ldp x21, x6, [x9, #16]
	stp q0, q1, [x22, #288]
	ldp q0, q1, [x9, #80]
	stur x10, [x29, #-40]
	add x10, x8, x26
	ldr w12, [x10, #8]
	stur w11, [x29, #-32]
	ldr x11, [x10]
	stp q0, q1, [x22, #224]
	ldp q0, q2, [x9, #112]
	stur w12, [x29, #-48]
	ldr w12, [x10, #12]
	sturh wzr, [x29, #-44]
	ldp x17, x7, [x9, #32]
	stp q0, q2, [x22, #256]
	ldr q2, [x10, #176]
	stur x11, [x29, #-56]
	ldp q0, q1, [x9, #48]
	str q2, [x27, #576]
	ldur x9, [x29, #-216]
	ldp x30, x8, [x10, #16]
	cmp x9, x19
	stp q0, q1, [x22, #192]
	ldp q0, q1, [x10, #144]
	ldp x1, x13, [x10, #32]
	stp q0, q1, [x27, #544]
	ldp q0, q1, [x10, #80]
	stp q0, q1, [x27, #480]
	ldp q1, q0, [x10, #112]
	stp q1, q0, [x27, #512]
	ldp q0, q2, [x10, #48]
	stp q0, q2, [x27, #448]
	b.ne .LBB69_75
	sub x0, x29, #232
	stp x17, x1, [sp, #24]
	stp x7, x13, [sp, #72]
	stp x6, x8, [sp, #56]
	str x30, [sp, #40]
	str w12, [sp, #52]
	bl std_alloc.vec.Vec.grow_amortized__1e708b5270e38172
	cbnz w0, .LBB69_74
	ldr x8, [sp, #72]
	cbz x8, .LBB69_81
	ldr x0, [sp, #56]
	bl tags_library_dealloc
.LBB69_81:
	ldr x8, [sp, #160]
	sub x19, x8, #1
	ldr x8, [sp, #80]
	cbz x8, .LBB69_83
	ldr x0, [sp, #64]
	bl tags_library_dealloc
.LBB69_83:
	cmp x19, x20
	add x19, x20, #1
	b.eq .LBB69_141
	ldr x8, [sp, #152]
	add x8, x8, x20
	cmp x19, x8
	b.hs .LBB69_141
	ldr x8, [sp, #248]
	add x8, x8, x26
	add x21, x8, #232
	ldr x8, [sp, #152]
	sub x25, x8, #1
	b .LBB69_112
.LBB69_86:
	b.eq .LBB69_89
	mov w9, #424
	ldr x22, [sp, #272]
	add x0, sp, #2096
	madd x20, x8, x9, x22
	mov w2, #424
	mov x1, x20
	bl memcpy
	add x1, x22, #848
	mov x0, x20
	mov w2, #424
	bl memmove
	add x0, x22, #848
	add x1, sp, #2096
.LBB69_88:
	mov w2, #424
	bl memcpy
.LBB69_89:
	cmp x21, #2
	b.eq .LBB69_129
	sub x8, x19, #4
	cmp x8, #3
	b.ls .LBB69_93
	ldr x22, [sp, #272]
	mov w9, #424
	add x0, sp, #2096
	mov w2, #424
	madd x20, x8, x9, x22
	add x1, x22, #1272
	bl memcpy
	add x0, x22, #1272
	mov x1, x20
	mov w2, #424
	bl memmove
	add x1, sp, #2096
	mov x0, x20
	b .LBB69_95
.LBB69_92:
	ldp x9, x21, [sp, #8]
	ldr x7, [sp, #104]
	ldp x6, x5, [sp, #112]
	ldr x17, [sp, #136]
	b .LBB69_100
.LBB69_93:
	b.eq .LBB69_96
	mov w9, #424
	ldr x22, [sp, #272]
	add x0, sp, #2096
	madd x20, x8, x9, x22
	mov w2, #424
	mov x1, x20
	bl memcpy
	add x1, x22, #1272
	mov x0, x20
	mov w2, #424
	bl memmove
	add x0, x22, #1272
	add x1, sp, #2096
.LBB69_95:
	mov w2, #424
	bl memcpy
.LBB69_96:
	cmp x21, #3
	b.eq .LBB69_129
	sub x8, x19, #5
	cmp x8, #4
	b.ls .LBB69_114
	ldr x22, [sp, #272]
	mov w9, #424
	add x0, sp, #2096
	mov w2, #424
	madd x20, x8, x9, x22
	add x1, x22, #1696
	bl memcpy
	add x0, x22, #1696
	mov x1, x20
	mov w2, #424
	bl memmove
	add x1, sp, #2096
	mov x0, x20
	b .LBB69_116
.LBB69_99:
	ldp x4, x17, [sp, #128]
	mov x19, xzr
	ldr x18, [sp, #208]
.LBB69_100:
	ldp x25, x26, [sp, #184]
	ldr x13, [sp, #216]
	cbz x9, .LBB69_106
	add x8, x9, x28
	cmp x28, x8
	b.hs .LBB69_106
	mov w8, #192
	ldr x10, [sp, #248]
	madd x8, x28, x8, x10
	add x20, x8, #40
	b .LBB69_104
.LBB69_103:
	subs x9, x9, #1
	add x20, x20, #192
	b.eq .LBB69_106
.LBB69_104:
	ldr x8, [x20]
	cbz x8, .LBB69_103
	ldur x0, [x20, #-16]
	mov x28, x9
	bl tags_library_dealloc
	ldp x7, x6, [sp, #104]
	mov x9, x28
	ldp x5, x4, [sp, #120]
	ldr x17, [sp, #136]
	ldp x18, x13, [sp, #208]
	ldr x14, [sp, #240]
	ldr w2, [sp, #268]
	ldr w3, [sp, #264]
	ldr x0, [sp, #256]
	ldp x16, x15, [sp, #224]
	b .LBB69_103
.LBB69_106:
	cbz x21, .LBB69_108
	ldr x0, [sp, #248]
	bl tags_library_dealloc
	ldp x7, x6, [sp, #104]
	ldr x17, [sp, #136]
	ldp x5, x4, [sp, #120]
	ldr x14, [sp, #240]
	ldr w2, [sp, #268]
	ldr w3, [sp, #264]
	ldr x0, [sp, #256]
	ldp x18, x13, [sp, #208]
	ldp x16, x15, [sp, #224]
.LBB69_108:
	ldr x28, [sp, #200]
	ldr x20, [sp, #176]
	ldr x8, [sp, #96]
	cbz x8, .LBB69_110
	ldr x0, [sp, #280]
	bl tags_library_dealloc
	ldp x7, x6, [sp, #104]
	ldr x17, [sp, #136]
	ldp x5, x4, [sp, #120]
	ldr x14, [sp, #240]
	ldr w2, [sp, #268]
	ldr w3, [sp, #264]
	ldr x0, [sp, #256]
	ldp x18, x13, [sp, #208]
	ldp x16, x15, [sp, #224]
.LBB69_110:
	ldp q0, q1, [x27, #384]
	ldr x8, [sp, #2896]
	ldr w9, [sp, #92]
	ldur x10, [x29, #-216]
	ldr w12, [sp, #272]
	str x8, [sp, #2032]
	ldr x8, [sp, #2832]
	ldr w11, [sp, #148]
	cmp w9, #1
	mov w1, w12
	stur q0, [x22, #151]
	csinc w30, w9, wzr, hi
	ldr q0, [x27, #352]
	stur q1, [x22, #167]
	str x8, [sp, #1968]
	ldr x8, [sp, #2032]
	ldur x21, [x29, #-232]
	str q0, [x22, #112]
	ldr x9, [sp, #1968]
	str x8, [sp, #1888]
	mov w8, #1
	str x10, [sp, #288]
	ldp q0, q1, [x27, #320]
	str x9, [sp, #1824]
	str w11, [sp, #280]
	stp q0, q1, [x22, #80]
	ldr q0, [x27, #288]
	ldur q1, [x22, #167]
	str q0, [x22, #48]
	ldur q0, [x22, #151]
	stur q1, [x22, #22]
	ldr q1, [x22, #112]
	stur q0, [x22, #6]
	str q1, [x24, #544]
	ldp q1, q0, [x22, #80]
	stp q1, q0, [x24, #512]
	ldr q0, [x22, #48]
	str q0, [x24, #480]
	b .LBB69_55
.LBB69_111:
	subs x25, x25, #1
	add x21, x21, #192
	b.eq .LBB69_141
.LBB69_112:
	ldr x8, [x21]
	cbz x8, .LBB69_111
	ldur x0, [x21, #-16]
	bl tags_library_dealloc
	b .LBB69_111
.LBB69_114:
	b.eq .LBB69_117
	mov w9, #424
	ldr x22, [sp, #272]
	add x0, sp, #2096
	madd x20, x8, x9, x22
	mov w2, #424
	mov x1, x20
	bl memcpy
	add x1, x22, #1696
	mov x0, x20
	mov w2, #424
	bl memmove
	add x0, x22, #1696
	add x1, sp, #2096
.LBB69_116:
	mov w2, #424
	bl memcpy
.LBB69_117:
	cmp x21, #4
	b.eq .LBB69_129
	sub x8, x19, #6
	cmp x8, #5
	b.ls .LBB69_120
	ldr x22, [sp, #272]
	mov w9, #424
	add x0, sp, #2096
	mov w2, #424
	madd x20, x8, x9, x22
	add x1, x22, #2120
	bl memcpy
	add x0, x22, #2120
	mov x1, x20
	mov w2, #424
	bl memmove
	add x1, sp, #2096
	mov x0, x20
	b .LBB69_122
.LBB69_120:
	b.eq .LBB69_123
	mov w9, #424
	ldr x22, [sp, #272]
	add x0, sp, #2096
	madd x20, x8, x9, x22
	mov w2, #424
	mov x1, x20
	bl memcpy
	add x1, x22, #2120
	mov x0, x20
	mov w2, #424
	bl memmove
	add x0, x22, #2120
	add x1, sp, #2096
.LBB69_122:
	mov w2, #424
	bl memcpy
.LBB69_123:
	cmp x21, #5
	b.eq .LBB69_129
	sub x8, x19, #7
	cmp x8, #6
	b.ls .LBB69_126
	ldr x21, [sp, #272]
	mov w9, #424
	add x0, sp, #2096
	mov w2, #424
	madd x20, x8, x9, x21
	add x1, x21, #2544
	bl memcpy
	add x0, x21, #2544
	mov x1, x20
	mov w2, #424
	bl memmove
	add x1, sp, #2096
	mov x0, x20
	b .LBB69_128
.LBB69_126:
	b.eq .LBB69_129
	mov w9, #424
	ldr x21, [sp, #272]
	add x0, sp, #2096
	madd x20, x8, x9, x21
	mov w2, #424
	mov x1, x20
	bl memcpy
	add x1, x21, #2544
	mov x0, x20
	mov w2, #424
	bl memmove
	add x0, x21, #2544
	add x1, sp, #2096
.LBB69_128:
	mov w2, #424
	bl memcpy
.LBB69_129:
	ldr x22, [sp, #1520]
	mov w0, #296
	mov w1, #8
	add x21, sp, #1520
	bl tags_library_alloc
	tbz w0, #0, .LBB69_132
	mov w8, #1
	mov x20, x1
	add x0, x1, #16
	stp x8, x22, [x1]
	orr x1, x21, #0x8
	mov w2, #280
	bl memcpy
	mov w0, #480
	mov w1, #8
	bl tags_library_alloc
	tbz w0, #0, .LBB69_140
	movi v0.2d, #0000000000000000
	ldp q2, q1, [x23, #304]
	ldr x9, [sp, #272]
	str x27, [x1, #32]
	mov w8, #1
	ldr x27, [sp, #256]
	mov w0, wzr
	stp x8, x20, [x1]
	stur q1, [x1, #40]
	stur q0, [x1, #56]
	stur q0, [x1, #72]
	ldp q1, q0, [x23, #192]
	stur q2, [x1, #88]
	stp x9, x19, [x1, #16]
	add x9, x1, #296
	stp q1, q0, [x1, #160]
	ldp q2, q0, [x23, #160]
	ldr q1, [x23, #144]
	stp xzr, xzr, [x1, #104]
	str xzr, [x1, #120]
	stp q2, q0, [x1, #128]
	ldp q2, q0, [x23, #272]
	str q1, [x9]
	stp xzr, xzr, [x1, #280]
	stp q2, q0, [x1, #240]
	ldp q3, q2, [x23, #224]
	ldr q0, [x23, #256]
	str xzr, [x1, #272]
	stp xzr, xzr, [x1, #320]
	stp q2, q0, [x1, #208]
	ldp q1, q2, [x23, #112]
	ldr q0, [sp, #416]
	str q3, [x1, #192]
	str xzr, [x1, #312]
	stp q0, q1, [x1, #432]
	ldp q0, q1, [sp, #352]
	str q2, [x1, #464]
	stp q0, q1, [x1, #368]
	ldp q0, q2, [sp, #384]
	stp q0, q2, [x1, #400]
	ldp q0, q1, [sp, #320]
	stp q0, q1, [x1, #336]
	stp x8, x1, [x27]
	b .LBB69_42
.LBB69_132:
	add x8, sp, #656
	orr x1, x21, #0x8
	mov w2, #280
	orr x0, x8, #0x8
	str x22, [sp, #656]
	bl memcpy
	add x0, sp, #656
	bl tag_c.pool_state.PoolState.drop
	cbz x19, .LBB69_139
	ldr x8, [sp, #272]
	add x21, x8, #272
	b .LBB69_135
.LBB69_134:
	subs x19, x19, #1
	add x21, x21, #424
	b.eq .LBB69_139
.LBB69_135:
	ldur x8, [x21, #-208]
	ldur x20, [x21, #-16]
	ldr x22, [x21]
	cbz x8, .LBB69_137
	ldur x0, [x21, #-224]
	bl tags_library_dealloc
.LBB69_137:
	cbz x22, .LBB69_134
	mov x0, x20
	bl tags_library_dealloc
	b .LBB69_134
.LBB69_139:
	cbnz x27, .LBB69_39
	b .LBB69_40
.LBB69_140:
	mov x0, x20
	bl std_alloc.arc.Arc.drop__f54b87734724c4e0
	ldr x8, [sp, #272]
	add x0, sp, #296
	str x27, [sp, #312]
	stp x8, x19, [sp, #296]
	bl std_alloc.vec.Vec.drop__639c649e4d903d94
	mov w0, #-21
	b .LBB69_42
.LBB69_141:
	ldr x8, [sp, #16]
	sub x21, x28, #1
	cbz x8, .LBB69_143
	ldr x0, [sp, #248]
	bl tags_library_dealloc
.LBB69_143:
	cmp x21, x20
	b.eq .LBB69_149
	sub x8, x28, x20
	add x9, x8, x20
	cmp x19, x9
	b.hs .LBB69_149
	ldr x9, [sp, #280]
	sub x20, x8, #1
	add x9, x9, x26
	add x19, x9, #232
	b .LBB69_147
.LBB69_146:
	subs x20, x20, #1
	add x19, x19, #192
	b.eq .LBB69_149
.LBB69_147:
	ldr x8, [x19]
	cbz x8, .LBB69_146
	ldur x0, [x19, #-16]
	bl tags_library_dealloc
	b .LBB69_146
.LBB69_149:
	ldr x8, [sp, #96]
	cbz x8, .LBB69_151
	ldr x0, [sp, #280]
	bl tags_library_dealloc
.LBB69_151:
	ldp x19, x20, [x29, #-232]
	ldur x25, [x29, #-216]
	cbz x20, .LBB69_158
	add x26, x19, #272
	b .LBB69_154
.LBB69_153:
	subs x20, x20, #1
	add x26, x26, #424
	b.eq .LBB69_158
.LBB69_154:
	ldur x8, [x26, #-208]
	ldur x21, [x26, #-16]
	ldr x28, [x26]
	cbz x8, .LBB69_156
	ldur x0, [x26, #-224]
	bl tags_library_dealloc
.LBB69_156:
	cbz x28, .LBB69_153
	mov x0, x21
	bl tags_library_dealloc
	b .LBB69_153
.LBB69_158:
	cbz x25, .LBB69_160
	mov x0, x19
	bl tags_library_dealloc
.LBB69_160:
	ldr x0, [sp, #240]
	bl tags_library_dealloc
	ldr x0, [sp, #232]
	bl tags_library_dealloc
	ldr x8, [sp, #224]
	cbz x8, .LBB69_162
	ldr x0, [sp, #216]
	bl tags_library_dealloc
.LBB69_162:
	ldr x0, [sp, #176]
	bl tags_library_dealloc
	ldr x0, [sp, #192]
	bl tags_library_dealloc
	ldr x8, [sp, #200]
	cbz x8, .LBB69_164
	ldr x0, [sp, #184]
	bl tags_library_dealloc
.LBB69_164:
	movi v0.2d, #0000000000000000
	add x24, sp, #1328
	str xzr, [sp, #2032]
	str xzr, [sp, #2016]
	str xzr, [sp, #2024]
	str xzr, [sp, #1968]
	stur q0, [x22, #167]
	stur q0, [x22, #151]
	stp q0, q0, [x22, #80]
	b .LBB69_54
.LBB69_165:
	brk #0x1
.Lfunc_end69:
	.size tag_c.pools.open_into, .Lfunc_end69-tag_c.pools.open_into
	.section .text.tag_pool.opens.open_set_i64_core.clone.U64Clone,"ax",@progbits
	.p2align 2
	.type tag_pool.opens.open_set_i64_core.clone.U64Clone,@function
tag_pool.opens.open_set_i64_core.clone.U64Clone:
	str d8, [sp, #-112]!
	stp x29, x30, [sp, #16]
	add x29, sp, #16
	stp x28, x27, [sp, #32]
	stp x26, x25, [sp, #48]
	stp x24, x23, [sp, #64]
	stp x22, x21, [sp, #80]
	stp x20, x19, [sp, #96]
	sub sp, sp, #528
	mov x20, x4
	mov w21, w3
	mov w22, w2
	mov w23, w1
	mov x19, x0
	mov w25, w1
	stp xzr, xzr, [sp, #168]
	str xzr, [sp, #184]
	stp xzr, xzr, [sp, #152]
	str xzr, [sp, #144]
	stp xzr, xzr, [sp, #120]
	str xzr, [sp, #112]
	stp xzr, xzr, [sp, #80]
	str xzr, [sp, #96]
	cbz w1, .LBB70_4
	lsl x24, x25, #3
	mov w1, #8
	mov x0, x24
	bl tags_library_alloc
	tbz w0, #0, .LBB70_5
	cmp w23, #1
	b.ne .LBB70_6
	mov x8, xzr
	b .LBB70_7
.LBB70_4:
	mov x8, xzr
	sub x1, x29, #8
	b .LBB70_8
.LBB70_5:
	movi v0.2d, #0000000000000000
	mov w8, #1
	str xzr, [x19, #136]
	strb w8, [x19]
	stur q0, [x19, #8]
	stur q0, [x19, #24]
	stur q0, [x19, #40]
	stur q0, [x19, #56]
	stur q0, [x19, #72]
	stur q0, [x19, #88]
	stur q0, [x19, #104]
	stur q0, [x19, #120]
	b .LBB70_19
.LBB70_6:
	sub x2, x24, #8
	mov x0, x1
	mov x24, x1
	mov w1, wzr
	bl memset
	mov x1, x24
	sub x8, x25, #1
.LBB70_7:
	str xzr, [x1, x8, lsl #3]
	add x8, x8, #1
.LBB70_8:
	sub w9, w21, #65
	stp xzr, xzr, [sp, #232]
	cmn w9, #65
	str xzr, [sp, #224]
	stp xzr, xzr, [sp, #200]
	str xzr, [sp, #192]
	b.ls .LBB70_14
	mov x9, #1
	movk x9, #1, lsl #48
	cmp x20, x9
	b.hs .LBB70_14
	cmp x8, x25
	b.ne .LBB70_14
	movi v0.2d, #0000000000000000
	orr x8, x25, x22, lsl #32
	add x9, sp, #24
	stp x1, x25, [x29, #-256]
	sub x0, x29, #208
	sub x1, x29, #232
	sub x2, x29, #256
	stur xzr, [x29, #-96]
	stp xzr, xzr, [sp, #256]
	stp q0, q0, [x29, #-208]
	stp q0, q0, [x29, #-176]
	stp q0, q0, [x29, #-144]
	stur q0, [x29, #-112]
	str xzr, [sp, #272]
	stur xzr, [x9, #255]
	stp x25, x8, [x29, #-240]
	stp w21, wzr, [x29, #-224]
	stur x20, [x29, #-216]
	bl tag_core.opens.new_map_i64_tag_pool.Destruct_none_i64
	ldurb w8, [x29, #-208]
	cbz w8, .LBB70_20
	ldur x8, [x29, #-184]
	cbz x8, .LBB70_17
	ldur x0, [x29, #-200]
	b .LBB70_16
.LBB70_14:
	cbz w23, .LBB70_17
	mov x0, x1
.LBB70_16:
	bl tags_library_dealloc
.LBB70_17:
	mov w8, #1
	ldur q0, [sp, #168]
	movi v1.2d, #0000000000000000
	strb w8, [x19]
	ldr x8, [sp, #184]
	str q0, [x19, #16]
	ldr q0, [sp, #144]
	str x8, [x19, #32]
	ldr x8, [sp, #160]
	str xzr, [x19, #8]
	stur q1, [x19, #40]
	stur q1, [x19, #56]
	stur q1, [x19, #72]
	stur q1, [x19, #88]
	stur q1, [x19, #104]
	stur q0, [x19, #120]
.LBB70_18:
	str x8, [x19, #136]
.LBB70_19:
	add sp, sp, #528
	ldp x20, x19, [sp, #96]
	ldp x22, x21, [sp, #80]
	ldp x24, x23, [sp, #64]
	ldp x26, x25, [sp, #48]
	ldp x28, x27, [sp, #32]
	ldp x29, x30, [sp, #16]
	ldr d8, [sp], #112
	ret
.LBB70_20:
	ldur x9, [x29, #-200]
	ldur q0, [x29, #-192]
	ldur d8, [x29, #-128]
	ldur w21, [x29, #-128]
	stp xzr, xzr, [x29, #-40]
	str x9, [sp, #72]
	ldp x8, x9, [x29, #-176]
	stur q0, [x29, #-80]
	stur x8, [x29, #-64]
	ldur x8, [x29, #-160]
	str x8, [sp, #24]
	ldur x8, [x29, #-152]
	stp x9, x8, [sp, #48]
	ldur x9, [x29, #-120]
	ldp x8, x28, [x29, #-144]
	str x9, [sp, #64]
	ldur x9, [x29, #-112]
	str x9, [sp, #32]
	ldur x9, [x29, #-104]
	stp x9, x8, [sp, #8]
	sub x8, x29, #8
	ldur x9, [x29, #-96]
	stur x8, [x29, #-48]
	str x9, [sp, #40]
	cbz w21, .LBB70_35
	lsr x8, x28, #32
	mov w9, #1
	mov w1, #8
	lsl w9, w9, w8
	add w9, w28, w9
	sub w9, w9, #1
	lsr w27, w9, w8
	add x8, x27, #16
	lsl x23, x8, #3
	mov x0, x23
	bl tags_library_alloc
	tbz w0, #0, .LBB70_44
	lsl w8, w27, #4
	mov x24, x1
	mov w20, wzr
	add w8, w8, #72
	stur w8, [x29, #-4]
	cbz w27, .LBB70_29
	lsl x26, x27, #3
	sub w21, w21, #1
.LBB70_24:
	mov x0, x24
	mov w1, wzr
	mov x2, x26
	bl memset
	ldr x8, [sp, #72]
	ldar xzr, [x8]
	ldp x8, x9, [x29, #-40]
	cmp x9, x8
	b.eq .LBB70_27
.LBB70_25:
	mov w9, #192
	ldur x25, [x29, #-48]
	ldur w10, [x29, #-4]
	madd x9, x8, x9, x25
	movi v0.2d, #0000000000000000
	add x22, x8, #1
	cmp w21, w20
	stur x22, [x29, #-40]
	stp w10, w20, [x9, #8]
	ldr x10, [sp, #64]
	str x28, [x9]
	stp x10, x24, [x9, #16]
	add x10, x27, #16
	stp x27, x10, [x9, #32]
	stp q0, q0, [x9, #48]
	stp q0, q0, [x9, #80]
	stp q0, q0, [x9, #112]
	stp q0, q0, [x9, #144]
	str q0, [x9, #176]
	b.eq .LBB70_35
	mov x0, x23
	mov w1, #8
	bl tags_library_alloc
	mov x24, x1
	add w20, w20, #1
	tbnz w0, #0, .LBB70_24
	b .LBB70_36
.LBB70_27:
	sub x0, x29, #48
	bl std_alloc.vec.Vec.grow_amortized__0722eb07d90de48f
	cbz w0, .LBB70_46
	ldur x8, [x29, #-40]
	b .LBB70_25
.LBB70_29:
	sub w21, w21, #1
.LBB70_30:
	ldr x8, [sp, #72]
	ldar xzr, [x8]
	ldp x8, x9, [x29, #-40]
	cmp x9, x8
	b.eq .LBB70_33
.LBB70_31:
	mov w9, #192
	ldur x25, [x29, #-48]
	ldur w10, [x29, #-4]
	madd x9, x8, x9, x25
	movi v0.2d, #0000000000000000
	add x22, x8, #1
	cmp w21, w20
	stur x22, [x29, #-40]
	stp w10, w20, [x9, #8]
	ldr x10, [sp, #64]
	str x28, [x9]
	stp x10, x24, [x9, #16]
	add x10, x27, #16
	stp x27, x10, [x9, #32]
	stp q0, q0, [x9, #48]
	stp q0, q0, [x9, #80]
	stp q0, q0, [x9, #112]
	stp q0, q0, [x9, #144]
	str q0, [x9, #176]
	b.eq .LBB70_35
	mov x0, x23
	mov w1, #8
	bl tags_library_alloc
	mov x24, x1
	add w20, w20, #1
	tbnz w0, #0, .LBB70_30
	b .LBB70_36
.LBB70_33:
	sub x0, x29, #48
	bl std_alloc.vec.Vec.grow_amortized__0722eb07d90de48f
	cbz w0, .LBB70_46
	ldur x8, [x29, #-40]
	b .LBB70_31
.LBB70_35:
	ldur x8, [x29, #-64]
	ldur x9, [x29, #-32]
	ldur q1, [x29, #-48]
	ldur q0, [x29, #-80]
	strb wzr, [x19]
	str x8, [sp, #240]
	str x8, [sp, #128]
	ldr x8, [sp, #72]
	str x9, [sp, #208]
	str x8, [x19, #8]
	ldr x8, [sp, #128]
	str x9, [sp, #96]
	str x8, [x19, #32]
	ldr x8, [sp, #48]
	str q1, [sp, #192]
	str x8, [x19, #40]
	ldr x8, [sp, #24]
	str q0, [sp, #224]
	str x8, [x19, #48]
	ldr x8, [sp, #56]
	str q0, [sp, #112]
	ldr q0, [sp, #192]
	str x8, [x19, #56]
	ldp x9, x8, [sp, #8]
	str q0, [sp, #80]
	ldr q0, [sp, #112]
	str d8, [x19, #80]
	stp x8, x28, [x19, #64]
	ldr x8, [sp, #64]
	str q0, [x19, #16]
	ldr q0, [sp, #80]
	str x8, [x19, #88]
	ldr x8, [sp, #32]
	stur q0, [x19, #120]
	stp x8, x9, [x19, #96]
	ldr x8, [sp, #96]
	ldr x9, [sp, #40]
	str x9, [x19, #112]
	b .LBB70_18
.LBB70_36:
	ldur x20, [x29, #-32]
	cbz x22, .LBB70_41
	add x21, x25, #40
	b .LBB70_39
.LBB70_38:
	subs x22, x22, #1
	add x21, x21, #192
	b.eq .LBB70_41
.LBB70_39:
	ldr x8, [x21]
	cbz x8, .LBB70_38
	ldur x0, [x21, #-16]
	bl tags_library_dealloc
	b .LBB70_38
.LBB70_41:
	cbz x20, .LBB70_44
	mov x0, x25
.LBB70_43:
	bl tags_library_dealloc
.LBB70_44:
	ldr x0, [sp, #48]
	bl tags_library_dealloc
	ldr x0, [sp, #56]
	bl tags_library_dealloc
	ldr x8, [sp, #40]
	cbz x8, .LBB70_17
	ldr x0, [sp, #32]
	b .LBB70_16
.LBB70_46:
	mov x0, x24
	bl tags_library_dealloc
	ldp x23, x20, [x29, #-48]
	ldur x21, [x29, #-32]
	cbz x20, .LBB70_51
	add x22, x23, #40
	b .LBB70_49
.LBB70_48:
	subs x20, x20, #1
	add x22, x22, #192
	b.eq .LBB70_51
.LBB70_49:
	ldr x8, [x22]
	cbz x8, .LBB70_48
	ldur x0, [x22, #-16]
	bl tags_library_dealloc
	b .LBB70_48
.LBB70_51:
	cbz x21, .LBB70_44
	mov x0, x23
	b .LBB70_43
.Lfunc_end70:
	.size tag_pool.opens.open_set_i64_core.clone.U64Clone, .Lfunc_end70-tag_pool.opens.open_set_i64_core.clone.U64Clone
	.section .text.tag_core.opens.new_map_i64_tag_pool.Destruct_none_i64,"ax",@progbits
	.p2align 2
	.type tag_core.opens.new_map_i64_tag_pool.Destruct_none_i64,@function
tag_core.opens.new_map_i64_tag_pool.Destruct_none_i64:
	sub sp, sp, #176
	stp x26, x25, [sp, #112]
	ldur q0, [x1, #8]
	ldp w26, w25, [x1]
	stp x28, x27, [sp, #96]
	stp x24, x23, [sp, #128]
	ldp x23, x28, [x2]
	stp x20, x19, [sp, #160]
	ldr x20, [x2, #16]
	mov x19, x0
	stp x29, x30, [sp, #80]
	add x29, sp, #80
	stp x22, x21, [sp, #144]
	mov w21, w26
	stp xzr, xzr, [sp, #32]
	stur q0, [x29, #-32]
	cbz w26, .LBB71_3
	lsl x22, x21, #3
	mov w1, #8
	mov x0, x22
	bl tags_library_alloc
	tbz w0, #0, .LBB71_13
	stp x21, x1, [sp]
	add x21, x22, #72
	stp x23, x20, [sp, #16]
	b .LBB71_4
.LBB71_3:
	sub x8, x29, #8
	stp x23, x20, [sp, #16]
	stp x21, x8, [sp]
	mov w21, #72
.LBB71_4:
	mov w8, #1
	mov w1, #8
	lsl w8, w8, w25
	add w8, w26, w8
	sub w8, w8, #1
	lsr w8, w8, w25
	ubfiz x20, x8, #4, #32
	add x23, x21, x20
	lsl x22, x23, #3
	mov x0, x22
	bl tags_library_alloc
	tbz w0, #0, .LBB71_10
	mov x24, x1
	sub x2, x22, #8
	mov x0, x1
	mov w1, wzr
	bl memset
	add x8, x24, x22
	mov x0, x22
	mov w1, #8
	stur xzr, [x8, #-8]
	bl tags_library_alloc
	tbz w0, #0, .LBB71_16
	lsl x0, x28, #3
	mov x27, x1
	tbnz x0, #63, .LBB71_15
	mov w1, #8
	mov x22, x0
	bl tags_library_alloc
	tbz w0, #0, .LBB71_15
	sub x8, x27, x24
	mov x13, x22
	cmp x8, #32
	b.hs .LBB71_21
	mov x8, xzr
	b .LBB71_24
.LBB71_10:
	cbz w26, .LBB71_12
	ldr x0, [sp, #8]
	bl tags_library_dealloc
.LBB71_12:
	mov w8, #1
	movi v0.2d, #0000000000000000
	str x8, [x19]
	ldp x8, x9, [sp, #16]
	stp x28, x9, [x19, #16]
	str x8, [x19, #8]
	b .LBB71_14
.LBB71_13:
	movi v0.2d, #0000000000000000
	mov w8, #1
	stp x28, x20, [x19, #16]
	stp x8, x23, [x19]
.LBB71_14:
	stp q0, q0, [x19, #32]
	stp q0, q0, [x19, #64]
	str q0, [x19, #96]
	str xzr, [x19, #112]
	b .LBB71_20
.LBB71_15:
	mov x0, x27
	bl tags_library_dealloc
.LBB71_16:
	mov x0, x24
	bl tags_library_dealloc
	ldr x24, [sp, #16]
	cbz w26, .LBB71_18
	ldr x0, [sp, #8]
	bl tags_library_dealloc
	mov w26, wzr
.LBB71_18:
	ldr x10, [sp, #24]
	mov w25, wzr
	mov x11, xzr
	mov x20, xzr
	mov x27, xzr
	mov x23, xzr
	mov x8, xzr
	mov w9, #1
	mov x12, x28
	mov x28, xzr
.LBB71_19:
	ldr q0, [sp, #32]
	stp x9, x24, [x19]
	stp x12, x10, [x19, #16]
	stp x28, x27, [x19, #32]
	stp x23, x8, [x19, #48]
	str x28, [x19, #64]
	stp w26, w25, [x19, #72]
	str q0, [x19, #80]
	stp x11, xzr, [x19, #96]
	str x20, [x19, #112]
.LBB71_20:
	ldp x20, x19, [sp, #160]
	ldp x22, x21, [sp, #144]
	ldp x24, x23, [sp, #128]
	ldp x26, x25, [sp, #112]
	ldp x28, x27, [sp, #96]
	ldp x29, x30, [sp, #80]
	add sp, sp, #176
	ret
.LBB71_21:
	and x9, x21, #0x3
	add x10, x27, #16
	add x11, x24, #16
	sub x8, x23, x9
	sub x12, x23, x9
.LBB71_22:
	ldp q0, q1, [x11, #-16]
	subs x12, x12, #4
	add x11, x11, #32
	stp q0, q1, [x10, #-16]
	add x10, x10, #32
	b.ne .LBB71_22
	cbz x9, .LBB71_26
.LBB71_24:
	lsl x10, x8, #3
	add x9, x21, x20
	sub x8, x9, x8
	add x9, x27, x10
	add x10, x24, x10
.LBB71_25:
	ldr x11, [x10], #8
	subs x8, x8, #1
	str x11, [x9], #8
	b.ne .LBB71_25
.LBB71_26:
	ldr x0, [sp, #16]
	ldr x20, [sp]
	cbz x28, .LBB71_34
	cmp x28, #4
	mov x8, x28
	b.lo .LBB71_32
	sub x8, x0, x1
	cmp x8, #32
	mov x8, x28
	b.lo .LBB71_32
	sub x11, x13, #16
	and x9, x28, #0xfffffffffffffffc
	and x8, x28, #0x3
	add x10, x1, x11
	add x11, x0, x11
	and x12, x28, #0xfffffffffffffffc
.LBB71_30:
	ldp q1, q0, [x11, #-16]
	sub x12, x12, #4
	sub x11, x11, #32
	stp q1, q0, [x10, #-16]
	sub x10, x10, #32
	cbnz x12, .LBB71_30
	cmp x28, x9
	b.eq .LBB71_34
.LBB71_32:
	sub x9, x1, #8
	sub x10, x0, #8
.LBB71_33:
	mov x11, x8
	ldr x12, [x10, x8, lsl #3]
	subs x8, x8, #1
	str x12, [x9, x11, lsl #3]
	b.ne .LBB71_33
.LBB71_34:
	ldr x8, [sp, #24]
	mov x21, x1
	cbz x8, .LBB71_36
	bl tags_library_dealloc
.LBB71_36:
	ldur q0, [x29, #-32]
	mov x0, x24
	str q0, [sp, #32]
	bl tags_library_dealloc
	ldr x11, [sp, #8]
	mov x9, xzr
	mov x10, x23
	mov x24, x27
	mov x12, x21
	mov x8, x21
	b .LBB71_19
.Lfunc_end71:
	.size tag_core.opens.new_map_i64_tag_pool.Destruct_none_i64, .Lfunc_end71-tag_core.opens.new_map_i64_tag_pool.Destruct_none_i64
	.section .text.unlikely.std_alloc.vec.Vec.grow_amortized__0722eb07d90de48f,"ax",@progbits
	.p2align 2
	.type std_alloc.vec.Vec.grow_amortized__0722eb07d90de48f,@function
std_alloc.vec.Vec.grow_amortized__0722eb07d90de48f:
	ldr x8, [x0, #8]
	cmn x8, #1
	b.eq .LBB72_5
	stp x29, x30, [sp, #-32]!
	ldr x9, [x0, #16]
	cmp x8, #3
	mov w10, #3
	csel x11, x8, x10, hi
	stp x20, x19, [sp, #16]
	mov x29, sp
	lsl x10, x9, #1
	add x12, x11, #1
	lsr x13, x9, #62
	cmp x12, x10
	csinc x10, x10, x11, ls
	cmp x13, #0
	csinc x19, x10, x11, eq
	mov x11, #-6148914691236517206
	movk x11, #170, lsl #48
	cmp x19, x11
	b.hi .LBB72_7
	cbz x9, .LBB72_6
	add x8, x8, x8, lsl #1
	add x9, x19, x19, lsl #1
	mov x20, x0
	ldr x0, [x0]
	mov w3, #8
	lsl x1, x8, #6
	lsl x2, x9, #6
	bl tags_library_realloc
	tbz w0, #0, .LBB72_7
.LBB72_4:
	mov w0, #1
	str x1, [x20]
	str x19, [x20, #16]
	ldp x20, x19, [sp, #16]
	ldp x29, x30, [sp], #32
	ret
.LBB72_5:
	mov w0, wzr
	ret
.LBB72_6:
	add x8, x10, x10, lsl #1
	mov x20, x0
	mov w1, #8
	lsl x0, x8, #6
	bl tags_library_alloc
	tbnz w0, #0, .LBB72_4
.LBB72_7:
	mov w0, wzr
	ldp x20, x19, [sp, #16]
	ldp x29, x30, [sp], #32
	ret
.Lfunc_end72:
	.size std_alloc.vec.Vec.grow_amortized__0722eb07d90de48f, .Lfunc_end72-std_alloc.vec.Vec.grow_amortized__0722eb07d90de48f
	.section .text.std_alloc.vec.Vec.drop__03ae1f740aa33a8c,"ax",@progbits
	.p2align 2
	.type std_alloc.vec.Vec.drop__03ae1f740aa33a8c,@function
std_alloc.vec.Vec.drop__03ae1f740aa33a8c:
	stp x29, x30, [sp, #-48]!
	stp x20, x19, [sp, #32]
	ldp x19, x20, [x0]
	stp x22, x21, [sp, #16]
	mov x29, sp
	ldr x21, [x0, #16]
	cbz x20, .LBB73_5
	add x22, x19, #40
	b .LBB73_3
.LBB73_2:
	subs x20, x20, #1
	add x22, x22, #192
	b.eq .LBB73_5
.LBB73_3:
	ldr x8, [x22]
	cbz x8, .LBB73_2
	ldur x0, [x22, #-16]
	bl tags_library_dealloc
	b .LBB73_2
.LBB73_5:
	cbz x21, .LBB73_7
	mov x0, x19
	ldp x20, x19, [sp, #32]
	ldp x22, x21, [sp, #16]
	ldp x29, x30, [sp], #48
	b tags_library_dealloc
.LBB73_7:
	ldp x20, x19, [sp, #32]
	ldp x22, x21, [sp, #16]
	ldp x29, x30, [sp], #48
	ret
.Lfunc_end73:
	.size std_alloc.vec.Vec.drop__03ae1f740aa33a8c, .Lfunc_end73-std_alloc.vec.Vec.drop__03ae1f740aa33a8c
	.section .text.unlikely.std_alloc.vec.Vec.grow_amortized__1e708b5270e38172,"ax",@progbits
	.p2align 2
	.type std_alloc.vec.Vec.grow_amortized__1e708b5270e38172,@function
std_alloc.vec.Vec.grow_amortized__1e708b5270e38172:
	ldr x8, [x0, #8]
	cmn x8, #1
	b.eq .LBB74_5
	stp x29, x30, [sp, #-32]!
	ldr x9, [x0, #16]
	cmp x8, #3
	mov w10, #3
	csel x11, x8, x10, hi
	stp x20, x19, [sp, #16]
	mov x29, sp
	lsl x10, x9, #1
	add x12, x11, #1
	lsr x13, x9, #62
	cmp x12, x10
	csinc x10, x10, x11, ls
	cmp x13, #0
	csinc x19, x10, x11, eq
	mov x11, #58116
	movk x11, #60589, lsl #16
	movk x11, #18547, lsl #32
	movk x11, #77, lsl #48
	cmp x19, x11
	b.hi .LBB74_7
	cbz x9, .LBB74_6
	mov w9, #424
	mov x20, x0
	ldr x0, [x0]
	mul x1, x8, x9
	mov w3, #8
	mul x2, x19, x9
	bl tags_library_realloc
	tbz w0, #0, .LBB74_7
.LBB74_4:
	mov w0, #1
	str x1, [x20]
	str x19, [x20, #16]
	ldp x20, x19, [sp, #16]
	ldp x29, x30, [sp], #32
	ret
.LBB74_5:
	mov w0, wzr
	ret
.LBB74_6:
	mov w8, #424
	mov x20, x0
	mov w1, #8
	mul x0, x10, x8
	bl tags_library_alloc
	tbnz w0, #0, .LBB74_4
.LBB74_7:
	mov w0, wzr
	ldp x20, x19, [sp, #16]
	ldp x29, x30, [sp], #32
	ret
.Lfunc_end74:
	.size std_alloc.vec.Vec.grow_amortized__1e708b5270e38172, .Lfunc_end74-std_alloc.vec.Vec.grow_amortized__1e708b5270e38172
	.section .text.tag_c.pool_state.PoolState.with_cells,"ax",@progbits
	.p2align 2
	.type tag_c.pool_state.PoolState.with_cells,@function
tag_c.pool_state.PoolState.with_cells:
	sub sp, sp, #272
	ldp q0, q1, [x1, #192]
	ldr q2, [x1, #224]
	ldr x9, [x1, #240]
	ldr x8, [x7]
	str x30, [sp, #256]
	str q2, [sp, #224]
	stp q0, q1, [sp, #192]
	ldp q0, q1, [x1, #128]
	str x9, [sp, #240]
	ldp x10, x9, [x7, #8]
	stp q0, q1, [sp, #128]
	ldp q2, q0, [x1, #160]
	stp q2, q0, [sp, #160]
	ldp q1, q0, [x1, #64]
	stp q1, q0, [sp, #64]
	ldp q2, q0, [x1, #96]
	stp q2, q0, [sp, #96]
	ldp q1, q0, [x1]
	stp q1, q0, [sp]
	ldp q2, q0, [x1, #32]
	stp q2, q0, [sp, #32]
	cbz x6, .LBB75_3
	mov w11, #440
	madd x11, x10, x11, x8
	add x10, x10, x6
.LBB75_2:
	movi v0.2d, #0000000000000000
	str xzr, [x11, #432]
	subs x6, x6, #1
	stp q0, q0, [x11, #16]
	stp q0, q0, [x11, #48]
	stp q0, q0, [x11, #80]
	stp q0, q0, [x11, #112]
	stp q0, q0, [x11, #144]
	stp q0, q0, [x11, #176]
	stp q0, q0, [x11, #208]
	stp q0, q0, [x11, #240]
	stp q0, q0, [x11, #272]
	stp q0, q0, [x11, #304]
	stp q0, q0, [x11, #336]
	stp q0, q0, [x11, #368]
	stp q0, q0, [x11, #400]
	str q0, [x11]
	add x11, x11, #440
	b.ne .LBB75_2
.LBB75_3:
	ldp q0, q1, [sp, #192]
	ldr q2, [sp, #224]
	ldr x11, [sp, #240]
	ldr x30, [sp, #256]
	stp w2, w3, [x0, #248]
	str q2, [x0, #224]
	stp q0, q1, [x0, #192]
	ldp q0, q1, [sp, #128]
	str x11, [x0, #240]
	add x11, x0, #261
	str w4, [x0, #256]
	stp q0, q1, [x0, #128]
	ldp q2, q0, [sp, #160]
	strb w5, [x0, #260]
	strh wzr, [x11]
	stp q2, q0, [x0, #160]
	ldp q1, q0, [sp, #64]
	strb wzr, [x0, #263]
	stp x8, x10, [x0, #264]
	stp q1, q0, [x0, #64]
	ldp q2, q0, [sp, #96]
	str x9, [x0, #280]
	stp q2, q0, [x0, #96]
	ldp q1, q0, [sp]
	stp q1, q0, [x0]
	ldp q2, q0, [sp, #32]
	stp q2, q0, [x0, #32]
	add sp, sp, #272
	ret
.Lfunc_end75:
	.size tag_c.pool_state.PoolState.with_cells, .Lfunc_end75-tag_c.pool_state.PoolState.with_cells
	.section .text.core.slice.edits.mirror_tag_pool.hand.Hand_i64,"ax",@progbits
	.p2align 2
	.type core.slice.edits.mirror_tag_pool.hand.Hand_i64,@function
core.slice.edits.mirror_tag_pool.hand.Hand_i64:
	sub sp, sp, #480
	mov w8, #424
	stp x28, x21, [sp, #448]
	madd x8, x2, x8, x1
	stp x20, x19, [sp, #464]
	mov x19, x2
	mov x20, x0
	stp x29, x30, [sp, #432]
	add x29, sp, #432
	sub x21, x8, #424
.LBB76_1:
	add x0, sp, #8
	mov x1, x20
	mov w2, #424
	bl memcpy
	mov x0, x20
	mov x1, x21
	mov w2, #424
	bl memmove
	add x1, sp, #8
	mov x0, x21
	mov w2, #424
	bl memcpy
	sub x19, x19, #1
	add x20, x20, #424
	sub x21, x21, #424
	cbnz x19, .LBB76_1
	ldp x20, x19, [sp, #464]
	ldp x28, x21, [sp, #448]
	ldp x29, x30, [sp, #432]
	add sp, sp, #480
	ret
.Lfunc_end76:
	.size core.slice.edits.mirror_tag_pool.hand.Hand_i64, .Lfunc_end76-core.slice.edits.mirror_tag_pool.hand.Hand_i64
	.section .text.tag_pool.usage.usage_of_rest_i64,"ax",@progbits
	.p2align 2
	.type tag_pool.usage.usage_of_rest_i64,@function
tag_pool.usage.usage_of_rest_i64:
	stp x29, x30, [sp, #-80]!
	str x28, [sp, #16]
	mov x29, sp
	stp x24, x23, [sp, #32]
	stp x22, x21, [sp, #48]
	stp x20, x19, [sp, #64]
	sub sp, sp, #1952
	str xzr, [sp]
	movi v2.2d, #0000000000000000
	mov x21, x1
	ldp q0, q1, [x2]
	ldr x8, [x3, #8]
	mov x19, x0
	str xzr, [sp, #1248]
	str xzr, [sp, #808]
	str q0, [sp, #1264]
	ldr q0, [x2, #32]
	str q2, [sp, #1232]
	str q2, [sp, #1216]
	str q2, [sp, #1200]
	str q2, [sp, #1184]
	str q2, [sp, #1168]
	str q2, [sp, #1152]
	str q2, [sp, #1136]
	str q2, [sp, #1120]
	str q2, [sp, #1104]
	str q2, [sp, #1088]
	str q2, [sp, #1072]
	str q2, [sp, #1056]
	str q2, [sp, #1040]
	stp q2, q2, [sp, #112]
	stp q2, q2, [sp, #144]
	stp q2, q2, [sp, #176]
	stp q2, q2, [sp, #208]
	stp q2, q2, [sp, #240]
	stp q2, q2, [sp, #272]
	stp q2, q2, [sp, #304]
	stp q2, q2, [sp, #336]
	stp q2, q2, [sp, #368]
	stp q2, q2, [sp, #400]
	stp q2, q2, [sp, #432]
	stp q2, q2, [sp, #464]
	stp q2, q2, [sp, #512]
	stp q2, q2, [sp, #544]
	stp q2, q2, [sp, #576]
	stp q2, q2, [sp, #608]
	stp q2, q2, [sp, #672]
	stp q2, q2, [sp, #704]
	stp q2, q2, [sp, #736]
	stp q2, q2, [sp, #768]
	stp q2, q2, [sp, #848]
	stp q2, q2, [sp, #880]
	stp q2, q2, [sp, #912]
	stp q2, q2, [sp, #944]
	stp q2, q2, [sp, #976]
	stp q2, q2, [sp, #1008]
	str q2, [sp, #832]
	str xzr, [sp, #800]
	str xzr, [sp, #816]
	str xzr, [sp, #656]
	str xzr, [sp, #640]
	str xzr, [sp, #648]
	str xzr, [sp, #496]
	stp q2, q2, [sp, #16]
	stp q2, q2, [sp, #48]
	stp q2, q2, [sp, #80]
	str q1, [sp, #1280]
	str q2, [sp]
	str q0, [sp, #1296]
	cbz x8, .LBB77_2
	sub x8, x8, #1
	mov w22, #424
	ldr x9, [x3]
	madd x1, x8, x22, x9
	add x0, sp, #80
	mov w2, #424
	add x23, sp, #832
	str x8, [x3, #8]
	mov x20, x3
	bl memcpy
	add x0, sp, #832
	add x1, sp, #1264
	add x3, sp, #80
	mov x2, x21
	bl tag_pool.gather.together.Together.lend_i64
	mov x0, sp
	add x2, sp, #1264
	mov x1, x21
	mov x3, x20
	bl tag_pool.usage.usage_of_rest_i64
	movi v1.2d, #0000000000000000
	ldr q0, [sp, #880]
	ldur q2, [x23, #184]
	add x9, x23, #296
	movi v3.2d, #0000000000000000
	ldr x8, [sp, #896]
	stur q0, [x29, #-32]
	ldur q0, [x23, #152]
	ldr x18, [sp, #904]
	stur x8, [x29, #-16]
	ldr x8, [sp, #1104]
	ldr x10, [sp, #1112]
	str q1, [sp, #1312]
	ldr w7, [sp, #832]
	ldr x5, [sp, #840]
	str q1, [sp, #1328]
	ldr w6, [sp, #848]
	ldr w3, [sp, #856]
	str q1, [sp, #1344]
	ldr w4, [sp, #860]
	ldr w2, [sp, #864]
	str q1, [sp, #1360]
	ldr x1, [sp, #872]
	ldr x0, [sp, #912]
	str q1, [sp, #1376]
	ldr x16, [sp, #1048]
	ldr w17, [sp, #1056]
	str q1, [sp, #1392]
	ldr w14, [sp, #1064]
	ldr w15, [sp, #1068]
	str q1, [sp, #1408]
	ldr w13, [sp, #1072]
	ldr x12, [sp, #1080]
	str q1, [sp, #1424]
	ldur q1, [x23, #168]
	ldr x11, [sp, #1120]
	str xzr, [sp, #1456]
	stp q0, q1, [x29, #-96]
	ldur q0, [x23, #200]
	ldur q1, [x23, #88]
	str xzr, [sp, #1440]
	stp q2, q0, [x29, #-64]
	ldur q0, [x23, #104]
	ldur q2, [x23, #120]
	str xzr, [sp, #1448]
	stp q1, q0, [x29, #-160]
	ldur q0, [x23, #136]
	ldr x23, [x21]
	str x8, [sp, #1616]
	stp q2, q0, [x29, #-128]
	ldr q0, [sp, #1088]
	stp xzr, xzr, [x29, #-192]
	ldp q2, q1, [x9, #32]
	str q0, [sp, #1600]
	stur xzr, [x29, #-176]
	str q1, [sp, #1520]
	ldp q1, q0, [x9]
	str q2, [sp, #1504]
	str q3, [sp, #1632]
	str q0, [sp, #1488]
	ldp q2, q0, [x9, #96]
	str q1, [sp, #1472]
	str q3, [sp, #1648]
	str q0, [sp, #1584]
	ldp q1, q0, [x9, #64]
	str q2, [sp, #1568]
	ldp x9, x8, [sp, #64]
	str q3, [sp, #1664]
	str q0, [sp, #1552]
	str q1, [sp, #1536]
	str q3, [sp, #1680]
	str q3, [sp, #1696]
	str q3, [sp, #1712]
	str q3, [sp, #1728]
	str q3, [sp, #1744]
	ldp q0, q2, [sp]
	ldp q1, q3, [sp, #32]
	ldar xzr, [x23]
	ldr x23, [x21]
	ldar xzr, [x23]
	ldur q4, [x29, #-32]
	ldur x23, [x29, #-16]
	stur q4, [x29, #-192]
	ldp q4, q5, [x29, #-96]
	stur x23, [x29, #-176]
	str x23, [sp, #1456]
	ldr x23, [x21, #112]
	str q4, [sp, #1696]
	ldp q6, q4, [x29, #-64]
	str q5, [sp, #1712]
	str q4, [sp, #1744]
	ldp q5, q4, [x29, #-160]
	str q6, [sp, #1728]
	str q4, [sp, #1648]
	ldp q6, q4, [x29, #-128]
	str q5, [sp, #1632]
	ldur q5, [x29, #-192]
	str q4, [sp, #1680]
	ldr q4, [sp, #1696]
	str q6, [sp, #1664]
	ldr q6, [sp, #1728]
	str q4, [sp, #1376]
	ldr q4, [sp, #1744]
	str q5, [sp, #1440]
	ldr q5, [sp, #1712]
	str q4, [sp, #1424]
	ldr q4, [sp, #1648]
	str q5, [sp, #1392]
	ldr q5, [sp, #1632]
	str q6, [sp, #1408]
	ldr q6, [sp, #1664]
	str q4, [sp, #1328]
	ldr q4, [sp, #1680]
	str q5, [sp, #1312]
	str q6, [sp, #1344]
	str q4, [sp, #1360]
	ldar xzr, [x23]
	ldr x21, [x21, #112]
	ldar xzr, [x21]
	ldr q4, [sp, #1440]
	ldr q5, [sp, #1392]
	ldr q6, [sp, #1408]
	ldr x21, [sp, #1456]
	str q4, [sp, #800]
	ldr q4, [sp, #1376]
	str x21, [sp, #816]
	ldr x21, [sp, #1616]
	stp q4, q5, [sp, #736]
	ldr q4, [sp, #1424]
	ldr q5, [sp, #1312]
	str x21, [sp, #656]
	ldp x23, x21, [x20]
	stp q6, q4, [sp, #768]
	ldr q4, [sp, #1328]
	ldr q6, [sp, #1344]
	stp q5, q4, [sp, #672]
	ldr q4, [sp, #1360]
	ldr q5, [sp, #1600]
	madd x22, x21, x22, x23
	mov w23, #1
	stp q6, q4, [sp, #704]
	ldr q4, [sp, #1536]
	ldr q6, [sp, #1568]
	str q5, [sp, #640]
	ldr q5, [sp, #1552]
	lsl w24, w23, w4
	stp q4, q5, [sp, #576]
	ldr q4, [sp, #1584]
	ldr q5, [sp, #1472]
	str x12, [x22, #248]
	ldr x12, [sp, #656]
	add w24, w3, w24
	stp q6, q4, [sp, #608]
	ldr q4, [sp, #1488]
	str x1, [x22, #40]
	ldr x1, [sp, #816]
	stp q5, q4, [sp, #512]
	ldr q5, [sp, #1504]
	ldr q4, [sp, #1520]
	stp x12, x10, [x22, #272]
	add x10, x22, #296
	stp q5, q4, [sp, #544]
	ldr q4, [sp, #800]
	stp x1, x18, [x22, #64]
	lsl w18, w23, w15
	str q4, [x22, #48]
	ldp q5, q4, [sp, #704]
	add w18, w14, w18
	stp w7, wzr, [x22]
	sub w7, w24, #1
	sub w18, w18, #1
	lsr w7, w7, w4
	str x5, [x22, #8]
	stur q4, [x22, #136]
	ldp q6, q4, [sp, #672]
	stur q5, [x22, #120]
	lsr w18, w18, w15
	lsl w5, w7, #4
	str x16, [x22, #216]
	stur q4, [x22, #104]
	ldp q5, q4, [sp, #768]
	stur q6, [x22, #88]
	lsl w16, w18, #4
	stp w3, w4, [x22, #24]
	add w3, w5, #72
	stur q4, [x22, #200]
	ldp q6, q4, [sp, #736]
	stur q5, [x22, #184]
	stp w14, w15, [x22, #232]
	add w14, w16, #72
	stur q4, [x22, #168]
	ldr q4, [sp, #640]
	stur q6, [x22, #152]
	str q4, [x22, #256]
	ldp q5, q4, [sp, #544]
	stp w6, wzr, [x22, #16]
	stp w3, w2, [x22, #32]
	stp q5, q4, [x10, #32]
	ldp q6, q4, [sp, #512]
	str x0, [x22, #80]
	stp w17, wzr, [x22, #224]
	stp q6, q4, [x10]
	ldp q5, q4, [sp, #608]
	stp w14, w13, [x22, #240]
	str x11, [x22, #288]
	stp q5, q4, [x10, #96]
	ldp q6, q4, [sp, #576]
	stp q6, q4, [x10, #64]
	add x10, x21, #1
	str x10, [x20, #8]
	stp q0, q2, [x19]
	stp q1, q3, [x19, #32]
	b .LBB77_3
.LBB77_2:
	ldr x8, [x21]
	ldr x9, [sp, #1264]
	ldr x10, [sp, #1272]
	ldr x11, [sp, #1280]
	ldr x12, [sp, #1288]
	ldr x13, [sp, #1296]
	add x8, x8, #8
	ldr x14, [sp, #1304]
	ldar x15, [x8]
	ldr x8, [x21]
	ldar xzr, [x8]
	ldr x8, [x21, #112]
	add x8, x8, #8
	ldar x8, [x8]
	ldr x16, [x21, #112]
	ldar xzr, [x16]
	add x16, x10, x11
	stp x9, x10, [x19]
	sub x9, x9, x16
	stp x11, x9, [x19, #16]
	add x9, x13, x14
	stp x15, x12, [x19, #32]
	sub x9, x12, x9
	stp x13, x14, [x19, #48]
.LBB77_3:
	stp x9, x8, [x19, #64]
	add sp, sp, #1952
	ldp x20, x19, [sp, #64]
	ldr x28, [sp, #16]
	ldp x22, x21, [sp, #48]
	ldp x24, x23, [sp, #32]
	ldp x29, x30, [sp], #80
	ret
.Lfunc_end77:
	.size tag_pool.usage.usage_of_rest_i64, .Lfunc_end77-tag_pool.usage.usage_of_rest_i64
	.section .text.tag_pool.gather.together.Together.lend_i64,"ax",@progbits
	.p2align 2
	.type tag_pool.gather.together.Together.lend_i64,@function
tag_pool.gather.together.Together.lend_i64:
	stp x30, x27, [sp, #-80]!
	stp x26, x25, [sp, #16]
	stp x24, x23, [sp, #32]
	stp x22, x21, [sp, #48]
	stp x20, x19, [sp, #64]
	sub sp, sp, #896
	ldur q1, [x3, #152]
	ldur q2, [x3, #168]
	add x8, x3, #296
	ldur q3, [x3, #184]
	movi v0.2d, #0000000000000000
	ldr x25, [x2]
	stp q1, q2, [sp, #832]
	ldur q1, [x3, #200]
	ldur q2, [x3, #88]
	ldr w23, [x3]
	ldr x5, [x3, #8]
	ldr w19, [x3, #16]
	stp q3, q1, [sp, #864]
	ldur q1, [x3, #104]
	ldr x6, [x3, #24]
	stp q0, q0, [sp]
	ldr w20, [x3, #36]
	ldr x9, [x3, #216]
	stp q0, q0, [sp, #32]
	ldr w11, [x3, #224]
	ldr x10, [x3, #232]
	stp q0, q0, [sp, #64]
	ldr w12, [x3, #244]
	stp q0, q0, [sp, #96]
	ldp x21, x7, [x3, #40]
	stp q0, q0, [sp, #128]
	ldp x22, x24, [x3, #56]
	stp q0, q0, [sp, #160]
	ldp x18, x4, [x3, #72]
	stp q0, q0, [sp, #192]
	ldp x13, x14, [x3, #248]
	stp q0, q0, [sp, #224]
	ldp x15, x16, [x3, #264]
	stp q0, q0, [sp, #384]
	stp q0, q0, [sp, #416]
	stp q0, q0, [sp, #448]
	stp q0, q0, [sp, #480]
	stp q0, q0, [sp, #512]
	stp q0, q0, [sp, #544]
	stp q0, q0, [sp, #576]
	stp q0, q0, [sp, #608]
	stp q0, q0, [sp, #640]
	stp q0, q0, [sp, #672]
	stp q0, q0, [sp, #704]
	stp q0, q0, [sp, #736]
	stp q2, q1, [sp, #768]
	ldur q2, [x3, #120]
	ldur q1, [x3, #136]
	stp q2, q1, [sp, #800]
	ldp q3, q2, [x8, #32]
	stp q3, q2, [sp, #288]
	ldp q2, q1, [x8]
	stp q2, q1, [sp, #256]
	ldp q3, q1, [x8, #96]
	stp q3, q1, [sp, #352]
	ldp q2, q1, [x8, #64]
	ldp x17, x8, [x3, #280]
	stp q2, q1, [sp, #320]
	ldar xzr, [x25]
	cbz x22, .LBB78_3
	cmp x22, #4
	b.hs .LBB78_4
	mov x3, xzr
	mov x25, xzr
	b .LBB78_7
.LBB78_3:
	mov x3, xzr
	b .LBB78_9
.LBB78_4:
	movi v1.2d, #0000000000000000
	movi v2.2d, #0000000000000000
	and x25, x22, #0xfffffffffffffffc
	add x3, x7, #16
	and x26, x22, #0xfffffffffffffffc
.LBB78_5:
	ldp q3, q4, [x3, #-16]
	subs x26, x26, #4
	add x3, x3, #32
	cnt v3.16b, v3.16b
	cnt v4.16b, v4.16b
	uaddlp v3.8h, v3.16b
	uaddlp v4.8h, v4.16b
	uaddlp v3.4s, v3.8h
	uaddlp v4.4s, v4.8h
	uadalp v1.2d, v3.4s
	uadalp v2.2d, v4.4s
	b.ne .LBB78_5
	add v1.2d, v2.2d, v1.2d
	cmp x22, x25
	addp d1, v1.2d
	fmov x3, d1
	b.eq .LBB78_9
.LBB78_7:
	add x26, x7, x25, lsl #3
	sub x25, x22, x25
.LBB78_8:
	ldr d1, [x26], #8
	subs x25, x25, #1
	cnt v1.8b, v1.8b
	addv b1, v1.8b
	fmov x27, d1
	add x3, x27, x3
	b.ne .LBB78_8
.LBB78_9:
	ldp q1, q2, [sp, #832]
	ldr x25, [x2]
	ldp q3, q4, [sp, #864]
	ldp q5, q6, [sp, #768]
	ldp q7, q16, [sp, #800]
	stp q1, q2, [sp, #576]
	stp q3, q4, [sp, #608]
	stp q5, q6, [sp, #512]
	stp q7, q16, [sp, #544]
	stp q5, q6, [sp, #640]
	stp q7, q16, [sp, #672]
	stp q1, q2, [sp, #704]
	stp q3, q4, [sp, #736]
	ldar xzr, [x25]
	ldr x25, [x2]
	ldar xzr, [x25]
	stp q0, q0, [sp, #768]
	ldp q1, q2, [sp, #704]
	ldr x27, [x1, #16]
	ldp x25, x26, [x1]
	stp q0, q0, [sp, #704]
	add x3, x27, x3
	stp q0, q0, [sp, #800]
	stp q1, q2, [sp, #448]
	ldp q3, q1, [sp, #736]
	add x25, x25, x18
	add x26, x26, x4
	str x3, [x1, #16]
	stp x25, x26, [x1]
	stp q3, q1, [sp, #480]
	ldp q2, q1, [sp, #640]
	stp q0, q0, [sp, #640]
	ldr x3, [x2, #112]
	stp q0, q0, [sp, #736]
	stp q2, q1, [sp, #384]
	ldp q3, q1, [sp, #672]
	stp q0, q0, [sp, #672]
	stp q0, q0, [sp, #832]
	stp q3, q1, [sp, #416]
	ldp q1, q2, [sp, #480]
	stp q0, q0, [sp, #864]
	stp q1, q2, [sp, #224]
	ldp q1, q3, [sp, #448]
	stp q1, q3, [sp, #192]
	ldp q1, q2, [sp, #416]
	stp q1, q2, [sp, #160]
	ldp q1, q3, [sp, #384]
	stp q1, q3, [sp, #128]
	ldar xzr, [x3]
	cbz x15, .LBB78_12
	cmp x15, #4
	b.hs .LBB78_13
	mov x3, xzr
	mov x25, xzr
	b .LBB78_16
.LBB78_12:
	mov x3, xzr
	b .LBB78_18
.LBB78_13:
	movi v0.2d, #0000000000000000
	movi v1.2d, #0000000000000000
	and x25, x15, #0xfffffffffffffffc
	add x3, x14, #16
	and x26, x15, #0xfffffffffffffffc
.LBB78_14:
	ldp q2, q3, [x3, #-16]
	subs x26, x26, #4
	add x3, x3, #32
	cnt v2.16b, v2.16b
	cnt v3.16b, v3.16b
	uaddlp v2.8h, v2.16b
	uaddlp v3.8h, v3.16b
	uaddlp v2.4s, v2.8h
	uaddlp v3.4s, v3.8h
	uadalp v0.2d, v2.4s
	uadalp v1.2d, v3.4s
	b.ne .LBB78_14
	add v0.2d, v1.2d, v0.2d
	cmp x15, x25
	addp d0, v0.2d
	fmov x3, d0
	b.eq .LBB78_18
.LBB78_16:
	add x26, x14, x25, lsl #3
	sub x25, x15, x25
.LBB78_17:
	ldr d0, [x26], #8
	subs x25, x25, #1
	cnt v0.8b, v0.8b
	addv b0, v0.8b
	fmov x27, d0
	add x3, x27, x3
	b.ne .LBB78_17
.LBB78_18:
	ldp q0, q1, [sp, #320]
	ldr x25, [x2, #112]
	stp q0, q1, [sp, #832]
	ldp q0, q2, [sp, #352]
	stp q0, q2, [sp, #864]
	ldp q1, q0, [sp, #256]
	stp q1, q0, [sp, #768]
	ldp q2, q0, [sp, #288]
	stp q2, q0, [sp, #800]
	ldar xzr, [x25]
	ldr x2, [x2, #112]
	ldar xzr, [x2]
	ldp q0, q1, [sp, #832]
	ldr x26, [x1, #40]
	ldp x2, x25, [x1, #24]
	stp q0, q1, [sp, #704]
	ldp q2, q0, [sp, #864]
	add x2, x2, x17
	add x25, x25, x8
	stp x2, x25, [x1, #24]
	add x2, x26, x3
	stp q2, q0, [sp, #736]
	ldp q1, q0, [sp, #768]
	str x2, [x1, #40]
	stp x17, x8, [x0, #280]
	add x8, x0, #296
	stp q1, q0, [sp, #640]
	ldp q2, q0, [sp, #800]
	stp w23, wzr, [x0]
	str x5, [x0, #8]
	stp q2, q0, [sp, #672]
	ldp q0, q1, [sp, #736]
	stp w19, wzr, [x0, #16]
	str x6, [x0, #24]
	stp q0, q1, [sp, #96]
	ldp q0, q2, [sp, #704]
	stp w20, wzr, [x0, #32]
	stp x21, x7, [x0, #40]
	stp q0, q2, [sp, #64]
	ldp q0, q1, [sp, #672]
	stp x22, x24, [x0, #56]
	stp x18, x4, [x0, #72]
	stp q0, q1, [sp, #32]
	ldp q0, q2, [sp, #640]
	str x9, [x0, #216]
	stp w11, wzr, [x0, #224]
	stp q0, q2, [sp]
	ldp q0, q1, [sp, #192]
	str x10, [x0, #232]
	stp w12, wzr, [x0, #240]
	stur q0, [x0, #152]
	stur q1, [x0, #168]
	ldp q0, q1, [sp, #224]
	stp x13, x14, [x0, #248]
	stp x15, x16, [x0, #264]
	stur q0, [x0, #184]
	stur q1, [x0, #200]
	ldp q0, q1, [sp, #128]
	stur q0, [x0, #88]
	stur q1, [x0, #104]
	ldp q0, q1, [sp, #160]
	stur q0, [x0, #120]
	stur q1, [x0, #136]
	ldp q1, q0, [sp, #32]
	stp q1, q0, [x8, #32]
	ldp q2, q0, [sp]
	stp q2, q0, [x8]
	ldp q1, q0, [sp, #96]
	stp q1, q0, [x8, #96]
	ldp q2, q0, [sp, #64]
	stp q2, q0, [x8, #64]
	add sp, sp, #896
	ldp x20, x19, [sp, #64]
	ldp x22, x21, [sp, #48]
	ldp x24, x23, [sp, #32]
	ldp x26, x25, [sp, #16]
	ldp x30, x27, [sp], #80
	ret
.Lfunc_end78:
	.size tag_pool.gather.together.Together.lend_i64, .Lfunc_end78-tag_pool.gather.together.Together.lend_i64
	.section .text.tag_core.settles.settle_rest_i64,"ax",@progbits
	.p2align 2
	.type tag_core.settles.settle_rest_i64,@function
tag_core.settles.settle_rest_i64:
	stp x29, x30, [sp, #-96]!
	stp x28, x27, [sp, #16]
	mov x29, sp
	stp x26, x25, [sp, #32]
	stp x24, x23, [sp, #48]
	stp x22, x21, [sp, #64]
	stp x20, x19, [sp, #80]
	sub sp, sp, #736
	movi v0.2d, #0000000000000000
	ldp x9, x10, [x2]
	ldr x11, [x3, #8]
	ldr x8, [x2, #16]
	mov x19, x0
	add x22, sp, #80
	stp xzr, xzr, [sp, #24]
	str xzr, [sp, #40]
	stp q0, q0, [sp, #80]
	stp q0, q0, [sp, #112]
	str q0, [sp, #144]
	stp q0, q0, [x22, #80]
	stp q0, q0, [x22, #112]
	stp q0, q0, [x22, #144]
	stp q0, q0, [x22, #176]
	stp q0, q0, [x22, #208]
	str q0, [x22, #240]
	stp q0, q0, [sp, #48]
	cbz x11, .LBB79_4
	sub x11, x11, #1
	mov w12, #192
	ldr x13, [x3]
	str x11, [x3, #8]
	madd x11, x11, x12, x13
	stp q0, q0, [x22, #256]
	ldr x12, [x1]
	stp q0, q0, [x22, #288]
	stp q0, q0, [x22, #320]
	stp q0, q0, [x22, #352]
	ldp q1, q2, [x11, #128]
	stp q0, q0, [x22, #384]
	stp q0, q0, [x22, #416]
	ldr x25, [x11]
	ldr w13, [x11, #12]
	stp q0, q0, [x22, #448]
	ldp x14, x27, [x11, #16]
	stp q0, q0, [x22, #480]
	ldp x28, x15, [x11, #32]
	stp q1, q2, [x22, #576]
	ldp q0, q1, [x11, #160]
	ldp x23, x24, [x11, #48]
	stp q0, q1, [x22, #608]
	ldp q0, q2, [x11, #64]
	stp q0, q2, [x22, #512]
	ldp q1, q0, [x11, #96]
	stp q1, q0, [x22, #544]
	ldar xzr, [x12]
	str w13, [sp, #20]
	stp x15, x14, [sp]
	cbz x28, .LBB79_5
	cmp x28, #4
	b.hs .LBB79_6
	mov x11, xzr
	mov x12, xzr
	b .LBB79_9
.LBB79_4:
	ldr x11, [x1]
	ldar xzr, [x11]
	add x11, x10, x8
	stp x9, x10, [x19]
	sub x9, x9, x11
	stp x8, x9, [x19, #16]
	b .LBB79_12
.LBB79_5:
	mov x11, xzr
	b .LBB79_11
.LBB79_6:
	movi v0.2d, #0000000000000000
	movi v1.2d, #0000000000000000
	and x12, x28, #0xfffffffffffffffc
	add x11, x27, #16
	and x13, x28, #0xfffffffffffffffc
.LBB79_7:
	ldp q2, q3, [x11, #-16]
	subs x13, x13, #4
	add x11, x11, #32
	cnt v2.16b, v2.16b
	cnt v3.16b, v3.16b
	uaddlp v2.8h, v2.16b
	uaddlp v3.8h, v3.16b
	uaddlp v2.4s, v2.8h
	uaddlp v3.4s, v3.8h
	uadalp v0.2d, v2.4s
	uadalp v1.2d, v3.4s
	b.ne .LBB79_7
	add v0.2d, v1.2d, v0.2d
	cmp x28, x12
	addp d0, v0.2d
	fmov x11, d0
	b.eq .LBB79_11
.LBB79_9:
	add x13, x27, x12, lsl #3
	sub x12, x28, x12
.LBB79_10:
	ldr d0, [x13], #8
	subs x12, x12, #1
	cnt v0.8b, v0.8b
	addv b0, v0.8b
	fmov x14, d0
	add x11, x14, x11
	b.ne .LBB79_10
.LBB79_11:
	ldp q0, q1, [x22, #576]
	add x9, x23, x9
	ldp q2, q3, [x22, #608]
	add x10, x24, x10
	ldp q4, q5, [x22, #512]
	add x8, x11, x8
	ldp q6, q7, [x22, #544]
	add x0, sp, #48
	stp q0, q1, [x22, #320]
	ldr x12, [x1]
	add x2, sp, #24
	stp q4, q5, [x22, #256]
	lsr x26, x25, #32
	mov x21, x1
	stp q6, q7, [x22, #288]
	mov x20, x3
	stp q2, q3, [x22, #352]
	stp q4, q5, [x22, #384]
	stp q6, q7, [x22, #416]
	stp q0, q1, [x22, #448]
	stp q2, q3, [x22, #480]
	ldar xzr, [x12]
	ldr x12, [x1]
	ldar xzr, [x12]
	stp x9, x10, [sp, #24]
	ldp q0, q1, [x22, #448]
	str x8, [sp, #40]
	stp q0, q1, [x22, #192]
	ldp q2, q0, [x22, #480]
	stp q2, q0, [x22, #224]
	ldp q1, q0, [x22, #384]
	stp q1, q0, [x22, #128]
	ldp q2, q0, [x22, #416]
	stp q2, q0, [x22, #160]
	bl tag_core.settles.settle_rest_i64
	ldp q0, q1, [x22, #192]
	mov w9, #1
	ldr x8, [x21]
	stp q0, q1, [x22, #576]
	ldp q0, q2, [x22, #224]
	stp q0, q2, [x22, #608]
	ldp q1, q0, [x22, #128]
	stp q1, q0, [x22, #512]
	ldp q2, q0, [x22, #160]
	stp q2, q0, [x22, #544]
	ldp q0, q1, [sp, #48]
	ldar xzr, [x8]
	ldr x8, [x21]
	ldar xzr, [x8]
	lsl w8, w9, w26
	ldp q2, q3, [x22, #576]
	mov w9, #192
	ldp x11, x10, [x20]
	add w8, w25, w8
	sub w8, w8, #1
	str q2, [sp, #144]
	ldp q2, q4, [x22, #608]
	madd x9, x10, x9, x11
	lsr w8, w8, w26
	stp q3, q2, [x22, #80]
	ldp q2, q3, [x22, #512]
	str q4, [x22, #112]
	lsl w8, w8, #4
	stp q2, q3, [sp, #80]
	ldp q4, q2, [x22, #544]
	add w8, w8, #72
	str x25, [x9]
	str w8, [x9, #8]
	ldr w8, [sp, #20]
	stp q4, q2, [sp, #112]
	ldp q3, q4, [x22, #80]
	ldr q2, [sp, #144]
	str w8, [x9, #12]
	ldr x8, [sp, #8]
	stp x23, x24, [x9, #48]
	stp q2, q3, [x9, #128]
	ldr q2, [x22, #112]
	stp x8, x27, [x9, #16]
	ldr x8, [sp]
	stp q4, q2, [x9, #160]
	ldp q3, q2, [sp, #80]
	stp x28, x8, [x9, #32]
	add x8, x10, #1
	stp q3, q2, [x9, #64]
	ldp q4, q2, [sp, #112]
	stp q4, q2, [x9, #96]
	str x8, [x20, #8]
	stp q0, q1, [x19]
.LBB79_12:
	add sp, sp, #736
	ldp x20, x19, [sp, #80]
	ldp x22, x21, [sp, #64]
	ldp x24, x23, [sp, #48]
	ldp x26, x25, [sp, #32]
	ldp x28, x27, [sp, #16]
	ldp x29, x30, [sp], #96
	ret
.Lfunc_end79:
	.size tag_core.settles.settle_rest_i64, .Lfunc_end79-tag_core.settles.settle_rest_i64
	.section .text.unlikely.std_alloc.vec.Vec.grow_amortized__e69b1d9fa94cf777,"ax",@progbits
	.p2align 2
	.type std_alloc.vec.Vec.grow_amortized__e69b1d9fa94cf777,@function
std_alloc.vec.Vec.grow_amortized__e69b1d9fa94cf777:
	ldr x8, [x0, #8]
	cmn x8, #1
	b.eq .LBB80_5
	stp x29, x30, [sp, #-32]!
	ldr x9, [x0, #16]
	cmp x8, #3
	mov w10, #3
	csel x11, x8, x10, hi
	stp x20, x19, [sp, #16]
	mov x29, sp
	lsl x10, x9, #1
	add x12, x11, #1
	lsr x13, x9, #62
	cmp x12, x10
	csinc x10, x10, x11, ls
	cmp x13, #0
	csinc x19, x10, x11, eq
	mov x11, #6148914691236517205
	movk x11, #1365, lsl #48
	cmp x19, x11
	b.hi .LBB80_7
	cbz x9, .LBB80_6
	add x8, x8, x8, lsl #1
	add x9, x19, x19, lsl #1
	mov x20, x0
	ldr x0, [x0]
	mov w3, #8
	lsl x1, x8, #3
	lsl x2, x9, #3
	bl tags_library_realloc
	tbz w0, #0, .LBB80_7
.LBB80_4:
	mov w0, #1
	str x1, [x20]
	str x19, [x20, #16]
	ldp x20, x19, [sp, #16]
	ldp x29, x30, [sp], #32
	ret
.LBB80_5:
	mov w0, wzr
	ret
.LBB80_6:
	add x8, x10, x10, lsl #1
	mov x20, x0
	mov w1, #8
	lsl x0, x8, #3
	bl tags_library_alloc
	tbnz w0, #0, .LBB80_4
.LBB80_7:
	mov w0, wzr
	ldp x20, x19, [sp, #16]
	ldp x29, x30, [sp], #32
	ret
.Lfunc_end80:
	.size std_alloc.vec.Vec.grow_amortized__e69b1d9fa94cf777, .Lfunc_end80-std_alloc.vec.Vec.grow_amortized__e69b1d9fa94cf777
	.section .text.tag_pool.resizes.shells.unite_i64,"ax",@progbits
	.p2align 2
	.type tag_pool.resizes.shells.unite_i64,@function
tag_pool.resizes.shells.unite_i64:
	stp x29, x30, [sp, #-96]!
	stp x28, x27, [sp, #16]
	mov x29, sp
	stp x26, x25, [sp, #32]
	stp x24, x23, [sp, #48]
	stp x22, x21, [sp, #64]
	stp x20, x19, [sp, #80]
	sub sp, sp, #416
	ldp x19, x9, [x1]
	mov x20, x0
	ldp x21, x27, [x2]
	mov x8, xzr
	ldp x22, x24, [x3]
	ldr x25, [x1, #16]
	ldr x26, [x2, #16]
	ldr x23, [x3, #16]
	cbz x9, .LBB81_5
	mov w10, #424
	mov x12, x19
	madd x11, x24, x10, x22
	add x10, x21, #224
	add x11, x11, #232
.LBB81_2:
	cmp x27, x8
	b.eq .LBB81_16
	ldp q0, q1, [x12, #128]
	add x8, x8, #1
	ldur q3, [x10, #-72]
	ldur w13, [x10, #-224]
	cmp x9, x8
	ldur x14, [x10, #-8]
	stp q0, q1, [sp, #128]
	ldp q0, q2, [x12, #160]
	stp q0, q2, [sp, #160]
	ldp q1, q0, [x12, #64]
	stp q1, q0, [sp, #64]
	ldp q2, q0, [x12, #96]
	stp q2, q0, [sp, #96]
	ldp q1, q0, [x12]
	stp q1, q0, [sp]
	ldp q2, q0, [x12, #32]
	ldur q1, [x10, #-56]
	add x12, x12, #192
	stp q2, q0, [sp, #32]
	ldur q0, [x10, #-40]
	ldur q2, [x10, #-24]
	stp q1, q0, [sp, #352]
	ldur q0, [x10, #-136]
	ldur q1, [x10, #-120]
	str q2, [sp, #384]
	ldur q2, [x10, #-152]
	stp q0, q1, [sp, #272]
	ldur q0, [x10, #-104]
	ldur q1, [x10, #-200]
	str q0, [sp, #304]
	ldur q0, [x10, #-88]
	stp q0, q3, [sp, #320]
	ldur q0, [x10, #-184]
	ldur q3, [x10, #-216]
	stp q1, q0, [sp, #208]
	ldur q1, [x10, #-168]
	str q3, [sp, #192]
	ldr w15, [x10], #232
	stp q1, q2, [sp, #240]
	ldp q1, q0, [sp, #224]
	stp w13, wzr, [x11, #-232]
	stur x14, [x11, #-16]
	stp w15, wzr, [x11, #-8]
	stp q1, q0, [x11, #-192]
	ldp q2, q0, [sp, #192]
	stp q2, q0, [x11, #-224]
	ldp q0, q1, [sp, #288]
	stp q0, q1, [x11, #-128]
	ldp q2, q0, [sp, #256]
	stp q2, q0, [x11, #-160]
	ldp q0, q1, [sp, #368]
	ldr q2, [sp, #320]
	stp q0, q1, [x11, #-48]
	ldp q0, q1, [sp, #336]
	stur q2, [x11, #-96]
	stp q0, q1, [x11, #-80]
	ldp q1, q0, [sp, #128]
	stp q1, q0, [x11, #128]
	ldp q2, q0, [sp, #160]
	stp q2, q0, [x11, #160]
	ldp q1, q0, [sp, #64]
	stp q1, q0, [x11, #64]
	ldp q2, q0, [sp, #96]
	stp q2, q0, [x11, #96]
	ldp q1, q0, [sp]
	stp q1, q0, [x11]
	ldp q2, q0, [sp, #32]
	stp q2, q0, [x11, #32]
	add x11, x11, #424
	b.ne .LBB81_2
	sub x27, x27, x8
	add x24, x24, x8
.LBB81_5:
	cbz x27, .LBB81_11
	add x9, x8, x27
	cmp x8, x9
	b.hs .LBB81_11
	mov w9, #232
	madd x8, x8, x9, x21
	add x28, x8, #64
	b .LBB81_9
.LBB81_8:
	subs x27, x27, #1
	add x28, x28, #232
	b.eq .LBB81_11
.LBB81_9:
	ldr x8, [x28]
	cbz x8, .LBB81_8
	ldur x0, [x28, #-16]
	bl tags_library_dealloc
	b .LBB81_8
.LBB81_11:
	cbz x26, .LBB81_13
	mov x0, x21
	bl tags_library_dealloc
.LBB81_13:
	cbz x25, .LBB81_15
	mov x0, x19
	bl tags_library_dealloc
.LBB81_15:
	stp x22, x24, [x20]
	str x23, [x20, #16]
	add sp, sp, #416
	ldp x20, x19, [sp, #80]
	ldp x22, x21, [sp, #64]
	ldp x24, x23, [sp, #48]
	ldp x26, x25, [sp, #32]
	ldp x28, x27, [sp, #16]
	ldp x29, x30, [sp], #96
	ret
.LBB81_16:
	brk #0x1
.Lfunc_end81:
	.size tag_pool.resizes.shells.unite_i64, .Lfunc_end81-tag_pool.resizes.shells.unite_i64
	.section .text.tags_library_busy,"ax",@progbits
	.globl tags_library_busy
	.p2align 2
	.type tags_library_busy,@function
tags_library_busy:
	ldr x9, [x0]
	mov w8, #4096
	cmp x1, #0
	csel x8, x8, xzr, eq
	cmp x9, #1
	b.ne .LBB82_3
	ldr x9, [x0, #8]
	ldrb w10, [x9]
	cmp w10, #2
	b.eq .LBB82_4
	cmp w10, #1
	b.ne .LBB82_5
.LBB82_3:
	mov w0, #-12
	ret
.LBB82_4:
	ldr x0, [x9, #8]
	add x1, x1, x8
	b tag_c.looks.CachedMemberLookCalls.busy
.LBB82_5:
	ldr x9, [x9, #8]
	ldr w10, [x9, #256]
	add x10, x10, #63
	cmp x2, x10, lsr #6
	b.hs .LBB82_7
	mov w0, #-17
	ret
.LBB82_7:
	stp x29, x30, [sp, #-16]!
	add x0, x9, #8
	add x1, x1, x8
	mov x29, sp
	bl tag_pool.pool.Pool.busy_i64_core.clone.U64Clone
	mov w8, #10240
	cmp w0, w8
	csel w0, w0, w8, lo
	ldp x29, x30, [sp], #16
	ret
.Lfunc_end82:
	.size tags_library_busy, .Lfunc_end82-tags_library_busy
	.section .text.tags_library_clear,"ax",@progbits
	.globl tags_library_clear
	.p2align 2
	.type tags_library_clear,@function
tags_library_clear:
	ldr x8, [x0]
	cmp x8, #1
	b.ne .LBB83_3
	ldr x8, [x0, #8]
	mov x3, x2
	ldrb w9, [x8]
	cmp w9, #2
	b.eq .LBB83_5
	cmp w9, #1
	b.ne .LBB83_12
.LBB83_3:
	mov w0, #-12
.LBB83_4:
	ret
.LBB83_5:
	ldr w9, [x8, #16]
	sub w9, w1, w9
	cmp w9, #63
	b.hi .LBB83_11
	mov w10, #1
	ldr x11, [x8, #40]
	lsl x9, x10, x9
	tst x11, x9
	b.eq .LBB83_11
	ldr w10, [x8, #24]
	cbz w10, .LBB83_11
	ldrb w12, [x8, #55]
	cbnz x12, .LBB83_11
	bics x11, x11, x9
	b.ne .LBB83_30
	ldrb w12, [x8, #28]
	cbz w12, .LBB83_30
.LBB83_11:
	add x0, x8, #8
	mov x2, x3
	b tag_c.cached.CachedMember.clear_any
.LBB83_12:
	ldr w10, [x8, #16]
	ldr x9, [x8, #8]
	subs w10, w1, w10
	b.hs .LBB83_21
	ldr w10, [x9, #72]
	mov w0, #-1
	cmp w10, w1
	b.ls .LBB83_4
	ldr w10, [x8, #44]
	ldr x12, [x8, #64]
	mov w13, #1
	lsl w11, w0, w10
	lsr w10, w1, w10
	bic w11, w1, w11
	ldr x12, [x12, w10, uxtw #3]
	lsl x11, x13, x11
	tst x11, x12
	b.eq .LBB83_29
	ldr x9, [x9, #8]
	add x9, x9, x10, lsl #7
	add x9, x9, #640
.LBB83_16:
	ldaxr x12, [x9]
	add x12, x12, x11
	stlxr w13, x12, [x9]
	cbnz w13, .LBB83_16
	ldr x9, [x8, #64]
	ldr x12, [x9, x10, lsl #3]
	sub x11, x12, x11
	str x11, [x9, x10, lsl #3]
	ldr x9, [x8, #96]
	ldrb w10, [x8, #28]
	add x9, x9, #1
	str x9, [x8, #96]
	tbnz w10, #0, .LBB83_19
	str w1, [x8, #24]
.LBB83_19:
	ldr x9, [x8, #8]
	ldr x9, [x9, #8]
	add x9, x9, #8
	ldar x9, [x9]
	cbz x9, .LBB83_32
	ldr x0, [x8, #8]
	mov w1, #1
	mov w2, #1
	b tag_c.telling.MemberTellingCalls.tell
.LBB83_21:
	ldr w11, [x9, #184]
	mov w0, #-1
	cmp w11, w10
	b.ls .LBB83_4
	ldr w11, [x8, #252]
	ldr x13, [x8, #272]
	mov w14, #1
	lsl w12, w0, w11
	lsr w11, w10, w11
	bic w12, w10, w12
	ldr x13, [x13, w11, uxtw #3]
	lsl x12, x14, x12
	tst x12, x13
	b.eq .LBB83_29
	ldr x9, [x9, #120]
	add x9, x9, x11, lsl #7
	add x9, x9, #640
.LBB83_24:
	ldaxr x13, [x9]
	add x13, x13, x12
	stlxr w14, x13, [x9]
	cbnz w14, .LBB83_24
	ldr x9, [x8, #272]
	ldr x13, [x9, x11, lsl #3]
	sub x12, x13, x12
	str x12, [x9, x11, lsl #3]
	ldr x9, [x8, #304]
	ldrb w11, [x8, #236]
	add x9, x9, #1
	str x9, [x8, #304]
	tbnz w11, #0, .LBB83_27
	str w10, [x8, #232]
.LBB83_27:
	ldr x9, [x8, #8]
	ldr x9, [x9, #120]
	add x9, x9, #8
	ldar x9, [x9]
	cbz x9, .LBB83_32
	ldr x0, [x8, #8]
	mov w1, wzr
	mov w2, #1
	b tag_c.telling.MemberTellingCalls.tell
.LBB83_29:
	mov w0, #-3
	ret
.LBB83_30:
	ldr x12, [x8, #32]
	sub w10, w10, #1
	str w10, [x8, #24]
	orr x9, x12, x9
	stp x9, x11, [x8, #32]
	ldr x11, [x8, #8]
	ldr x9, [x11, #120]
	add x9, x9, #8
	ldar x9, [x9]
	cbz x9, .LBB83_32
	add x0, x8, #8
	mov w1, wzr
	mov w2, wzr
	b tag_c.telling.CachedMemberTellingCalls.tell
.LBB83_32:
	mov w0, wzr
	ret
.Lfunc_end83:
	.size tags_library_clear, .Lfunc_end83-tags_library_clear
	.section .text.tags_library_clear_batch,"ax",@progbits
	.globl tags_library_clear_batch
	.p2align 2
	.type tags_library_clear_batch,@function
tags_library_clear_batch:
	stp x29, x30, [sp, #-64]!
	ldr x9, [x0]
	cmp x1, #0
	mov w8, #4096
	csel x8, x8, xzr, eq
	str x23, [sp, #16]
	mov x29, sp
	cmp x9, #1
	stp x22, x21, [sp, #32]
	stp x20, x19, [sp, #48]
	b.ne .LBB84_3
	ldr x21, [x0, #8]
	add x19, x1, x8
	ldrb w9, [x21]
	cmp w9, #2
	b.eq .LBB84_4
	cmp w9, #1
	b.ne .LBB84_5
.LBB84_3:
	mov w0, #-12
	ldp x20, x19, [sp, #48]
	ldr x23, [sp, #16]
	ldp x22, x21, [sp, #32]
	ldp x29, x30, [sp], #64
	ret
.LBB84_4:
	add x0, x21, #8
	mov x1, x19
	ldr x23, [sp, #16]
	ldp x20, x19, [sp, #48]
	ldp x22, x21, [sp, #32]
	ldp x29, x30, [sp], #64
	b tag_c.clears.CachedMemberClearCalls.clear_batch
.LBB84_5:
	ldr x22, [x21, #8]
	mov x20, x2
	mov x23, x3
	add x1, x21, #16
	mov x2, x19
	mov x3, x20
	add x0, x22, #8
	bl tag_pool.pool.Pool.check_batch_i64_core.clone.U64Clone
	tst w0, #0xff
	b.eq .LBB84_7
	and x8, x1, #0xff
	adrp x9, .Lswitch.table.tags_library_wait_on_reserved.286
	add x9, x9, :lo12:.Lswitch.table.tags_library_wait_on_reserved.286
	ldr w0, [x9, x8, lsl #2]
	ldp x20, x19, [sp, #48]
	ldr x23, [sp, #16]
	ldp x22, x21, [sp, #32]
	ldp x29, x30, [sp], #64
	ret
.LBB84_7:
	ldr w8, [x22, #232]
	ldr w9, [x19]
	ldr w10, [x22, #188]
	sub w9, w9, w8
	lsr w13, w9, w10
	cbz x20, .LBB84_14
	mov w9, #-1
	mov x14, xzr
	mov x11, xzr
	lsl w9, w9, w10
	mov x3, x23
	mvn w12, w9
	b .LBB84_10
.LBB84_9:
	orr x9, x9, x14
	add x11, x11, #1
	mov x14, x9
	cmp x11, x20
	b.eq .LBB84_15
.LBB84_10:
	ldr w9, [x19, x11, lsl #2]
	mov w16, #1
	sub w9, w9, w8
	lsr w15, w9, w10
	and w9, w9, w12
	lsl x9, x16, x9
	cmp w15, w13
	b.eq .LBB84_9
	ldr x16, [x22, #120]
	mov w13, w13
	add x16, x16, x13, lsl #7
	add x16, x16, #576
.LBB84_12:
	ldaxr x17, [x16]
	sub x17, x17, x14
	stlxr w18, x17, [x16]
	cbnz w18, .LBB84_12
	fmov d0, x14
	ldr x16, [x21, #272]
	cnt v0.8b, v0.8b
	ldr x17, [x16, x13, lsl #3]
	bic x14, x17, x14
	str x14, [x16, x13, lsl #3]
	ldr x13, [x21, #304]
	addv b0, v0.8b
	fmov x14, d0
	add x13, x13, x14
	str x13, [x21, #304]
	mov w13, w15
	add x11, x11, #1
	mov x14, x9
	cmp x11, x20
	b.ne .LBB84_10
	b .LBB84_15
.LBB84_14:
	mov x9, xzr
	mov x3, x23
.LBB84_15:
	ldr x11, [x22, #120]
	mov w10, w13
	add x11, x11, x10, lsl #7
	add x11, x11, #576
.LBB84_16:
	ldaxr x12, [x11]
	sub x12, x12, x9
	stlxr w13, x12, [x11]
	cbnz w13, .LBB84_16
	fmov d0, x9
	ldr x11, [x21, #272]
	cnt v0.8b, v0.8b
	ldr x12, [x11, x10, lsl #3]
	bic x9, x12, x9
	str x9, [x11, x10, lsl #3]
	ldr x9, [x21, #304]
	ldrb w11, [x21, #236]
	addv b0, v0.8b
	fmov x10, d0
	add x9, x9, x10
	str x9, [x21, #304]
	tbnz w11, #0, .LBB84_19
	add x9, x19, x20, lsl #2
	ldur w9, [x9, #-4]
	sub w8, w9, w8
	str w8, [x21, #232]
.LBB84_19:
	ldr x8, [x21, #8]
	ldr x8, [x8, #120]
	add x8, x8, #8
	ldar x8, [x8]
	cbz x8, .LBB84_21
	ldr x0, [x21, #8]
	mov w2, w20
	ldr x23, [sp, #16]
	ldp x20, x19, [sp, #48]
	mov w1, wzr
	ldp x22, x21, [sp, #32]
	ldp x29, x30, [sp], #64
	b tag_c.telling.MemberTellingCalls.tell
.LBB84_21:
	mov w0, wzr
	ldp x20, x19, [sp, #48]
	ldr x23, [sp, #16]
	ldp x22, x21, [sp, #32]
	ldp x29, x30, [sp], #64
	ret
.Lfunc_end84:
	.size tags_library_clear_batch, .Lfunc_end84-tags_library_clear_batch
	.section .text.tags_library_clear_mask,"ax",@progbits
	.globl tags_library_clear_mask
	.p2align 2
	.type tags_library_clear_mask,@function
tags_library_clear_mask:
	stp x29, x30, [sp, #-80]!
	ldr x8, [x0]
	str x25, [sp, #16]
	mov x29, sp
	stp x24, x23, [sp, #32]
	cmp x8, #1
	stp x22, x21, [sp, #48]
	stp x20, x19, [sp, #64]
	b.ne .LBB85_3
	ldr x21, [x0, #8]
	ldrb w8, [x21]
	cmp w8, #2
	b.eq .LBB85_4
	cmp w8, #1
	b.ne .LBB85_5
.LBB85_3:
	mov w0, #-12
	ldp x20, x19, [sp, #64]
	ldr x25, [sp, #16]
	ldp x22, x21, [sp, #48]
	ldp x24, x23, [sp, #32]
	ldp x29, x30, [sp], #80
	ret
.LBB85_4:
	add x0, x21, #8
	ldp x20, x19, [sp, #64]
	ldp x22, x21, [sp, #48]
	ldr x25, [sp, #16]
	ldp x24, x23, [sp, #32]
	ldp x29, x30, [sp], #80
	b tag_c.masks.CachedMemberMaskCalls.clear_mask
.LBB85_5:
	cbz x2, .LBB85_9
	ldr x23, [x21, #8]
	ldr w20, [x23, #232]
	subs w8, w20, w1
	b.ls .LBB85_10
	rbit x9, x2
	clz x9, x9
	cmp w8, w9
	b.hi .LBB85_15
	lsr x4, x2, x8
	mov w8, wzr
	ldr w0, [x23, #184]
	cmp w0, wzr
	b.hi .LBB85_11
	b .LBB85_15
.LBB85_9:
	mov w22, #1
	mov w8, #3
	b .LBB85_16
.LBB85_10:
	sub w8, w1, w20
	mov x4, x2
	ldr w0, [x23, #184]
	cmp w0, w8
	b.ls .LBB85_15
.LBB85_11:
	clz x9, x4
	sub w9, w8, w9
	add w5, w9, #63
	cmp w0, w5
	b.ls .LBB85_15
	ldr w19, [x23, #188]
	mov w24, w1
	lsr w9, w8, w19
	lsr w10, w5, w19
	cmp w10, w9
	b.ne .LBB85_21
	mov w10, #-1
	ldr x11, [x21, #272]
	lsl w10, w10, w19
	ldr x9, [x11, w9, uxtw #3]
	bic w8, w8, w10
	lsl x8, x4, x8
	and x9, x9, x8
	cmp x9, x8
	cset w22, ne
	b.eq .LBB85_22
	mov w8, #1
	b .LBB85_16
.LBB85_15:
	mov w8, wzr
	mov w22, #1
.LBB85_16:
	tst w22, #0xff
	b.eq .LBB85_18
	adrp x9, .Lswitch.table.tags_library_clear_mask
	add x9, x9, :lo12:.Lswitch.table.tags_library_clear_mask
	ldr w0, [x9, w8, uxtw #2]
	ldp x20, x19, [sp, #64]
	ldr x25, [sp, #16]
	ldp x22, x21, [sp, #48]
	ldp x24, x23, [sp, #32]
	ldp x29, x30, [sp], #80
	ret
.LBB85_18:
	ldr x8, [x21, #8]
	ldr x8, [x8, #120]
	add x8, x8, #8
	ldar x8, [x8]
	cbz x8, .LBB85_20
	fmov d0, x2
	ldr x0, [x21, #8]
	ldr x25, [sp, #16]
	ldp x20, x19, [sp, #64]
	mov w1, wzr
	ldp x22, x21, [sp, #48]
	cnt v0.8b, v0.8b
	ldp x24, x23, [sp, #32]
	addv b0, v0.8b
	fmov w2, s0
	ldp x29, x30, [sp], #80
	b tag_c.telling.MemberTellingCalls.tell
.LBB85_20:
	mov w0, wzr
	ldp x20, x19, [sp, #64]
	ldr x25, [sp, #16]
	ldp x22, x21, [sp, #48]
	ldp x24, x23, [sp, #32]
	ldp x29, x30, [sp], #80
	ret
.LBB85_21:
	mov x22, x2
	add x2, x21, #248
	mov w1, w19
	mov x25, x3
	mov w3, w8
	bl tag_pool.clears.masks.words.are_held_across_i64
	mov x2, x22
	mov x3, x25
	eor w22, w0, #0x1
	eor w8, w0, #0x1
	tbz w0, #0, .LBB85_16
.LBB85_22:
	subs w8, w20, w24
	b.ls .LBB85_25
	rbit x9, x2
	clz x9, x9
	cmp w8, w9
	b.hi .LBB85_35
	lsr x8, x2, x8
	mov w9, wzr
	b .LBB85_26
.LBB85_25:
	sub w9, w24, w20
	mov x8, x2
.LBB85_26:
	clz x10, x8
	mov x24, x2
	sub w10, w9, w10
	add w20, w10, #63
	lsr w10, w9, w19
	lsr w11, w20, w19
	cmp w11, w10
	b.ne .LBB85_30
	mov w11, #-1
	ldur x12, [x23, #120]
	lsl w11, w11, w19
	bic w9, w9, w11
	add x11, x12, x10, lsl #7
	lsl x8, x8, x9
	add x9, x11, #576
.LBB85_28:
	ldaxr x11, [x9]
	sub x11, x11, x8
	stlxr w12, x11, [x9]
	cbnz w12, .LBB85_28
	fmov d0, x8
	ldr x9, [x21, #272]
	cnt v0.8b, v0.8b
	ldr x11, [x9, x10, lsl #3]
	bic x8, x11, x8
	str x8, [x9, x10, lsl #3]
	ldr x8, [x21, #304]
	addv b0, v0.8b
	fmov x9, d0
	add x8, x8, x9
	str x8, [x21, #304]
	b .LBB85_31
.LBB85_30:
	add x0, x23, #120
	add x1, x21, #248
	mov w2, w9
	mov x19, x3
	mov x3, x8
	mov w4, w20
	bl tag_pool.clears.masks.words.give_mask_across_i64
	mov x3, x19
.LBB85_31:
	ldrb w8, [x21, #236]
	tbz w8, #0, .LBB85_33
	mov w8, wzr
	b .LBB85_34
.LBB85_33:
	mov w8, wzr
	str w20, [x21, #232]
.LBB85_34:
	mov x2, x24
	b .LBB85_16
.LBB85_35:
	brk #0x1
.Lfunc_end85:
	.size tags_library_clear_mask, .Lfunc_end85-tags_library_clear_mask
	.section .text.tags_library_flush,"ax",@progbits
	.globl tags_library_flush
	.p2align 2
	.type tags_library_flush,@function
tags_library_flush:
	ldr x8, [x0]
	cmp x8, #1
	b.ne .LBB86_3
	ldr x8, [x0, #8]
	ldrb w0, [x8]
	cbz w0, .LBB86_4
	cmp w0, #1
	b.ne .LBB86_5
.LBB86_3:
	mov w0, #-12
.LBB86_4:
	ret
.LBB86_5:
	add x0, x8, #8
	b tag_c.flush.CachedMemberFlushCalls.flush
.Lfunc_end86:
	.size tags_library_flush, .Lfunc_end86-tags_library_flush
	.section .text.tags_library_get,"ax",@progbits
	.globl tags_library_get
	.p2align 2
	.type tags_library_get,@function
tags_library_get:
	ldr x8, [x0]
	cmp x8, #1
	b.ne .LBB87_3
	ldr x8, [x0, #8]
	ldrb w9, [x8]
	cmp w9, #2
	b.eq .LBB87_4
	cmp w9, #1
	b.ne .LBB87_6
.LBB87_3:
	mov w0, #-12
	ret
.LBB87_4:
	ldr x9, [x8, #32]
	cbz x9, .LBB87_7
	ldr w12, [x8, #24]
	rbit x10, x9
	mov w11, #1
	add w12, w12, #1
	clz x10, x10
	str w12, [x8, #24]
	ldp x13, x12, [x8, #40]
	lsl x11, x11, x10
	bic x9, x9, x11
	orr x11, x13, x11
	add x12, x12, #1
	stp x9, x11, [x8, #32]
	ldr w9, [x8, #16]
	str x12, [x8, #48]
	add w0, w9, w10
	ret
.LBB87_6:
	add x0, x8, #8
	b tag_c.gets.MemberGetCalls.get
.LBB87_7:
	add x0, x8, #8
	b tag_c.cached.CachedMember.get_any
.Lfunc_end87:
	.size tags_library_get, .Lfunc_end87-tags_library_get
	.section .text.tags_library_get_batch,"ax",@progbits
	.globl tags_library_get_batch
	.p2align 2
	.type tags_library_get_batch,@function
tags_library_get_batch:
	sub sp, sp, #96
	ldr x8, [x0]
	stp x29, x30, [sp, #48]
	add x29, sp, #48
	str x21, [sp, #64]
	cmp x8, #1
	stp x20, x19, [sp, #80]
	b.ne .LBB88_5
	ldr x20, [x0, #8]
	ldrb w8, [x20]
	cmp w8, #2
	b.eq .LBB88_6
	cmp w8, #1
	b.ne .LBB88_7
	mov w0, #-12
.LBB88_4:
	ldp x20, x19, [sp, #80]
	ldr x21, [sp, #64]
	ldp x29, x30, [sp, #48]
	add sp, sp, #96
	ret
.LBB88_5:
	mov w0, #-12
	ldp x20, x19, [sp, #80]
	ldr x21, [sp, #64]
	ldp x29, x30, [sp, #48]
	add sp, sp, #96
	ret
.LBB88_6:
	add x0, x20, #8
	ldp x20, x19, [sp, #80]
	ldp x29, x30, [sp, #48]
	ldr x21, [sp, #64]
	add sp, sp, #96
	b tag_c.gets.CachedMemberGetCalls.get_batch
.LBB88_7:
	movi v0.2d, #0000000000000000
	ldr x9, [x20, #8]
	mov w8, w1
	mov x21, x2
	mov x19, x3
	mov x0, sp
	add x1, x9, #8
	add x2, x20, #16
	mov w3, w8
	str xzr, [sp, #32]
	stp q0, q0, [sp]
	bl tag_pool.pool.Pool.get_batch_quietly_i64_core.clone.U64Clone
	ldrb w8, [sp]
	cbz w8, .LBB88_9
	ldrb w8, [sp, #1]
	adrp x9, .Lswitch.table.tags_library_wait_on_reserved.286
	add x9, x9, :lo12:.Lswitch.table.tags_library_wait_on_reserved.286
	ldr w0, [x9, x8, lsl #2]
	ldp x20, x19, [sp, #80]
	ldr x21, [sp, #64]
	ldp x29, x30, [sp, #48]
	add sp, sp, #96
	ret
.LBB88_9:
	ldrb w8, [sp, #8]
	ldr x9, [sp, #32]
	cmp w8, #1
	b.ne .LBB88_11
	ldr x8, [sp, #24]
	ldr w0, [sp, #16]
	str x8, [x21]
	b .LBB88_12
.LBB88_11:
	mov w0, #-10
.LBB88_12:
	cbz x9, .LBB88_4
	ldr x8, [x20, #8]
	ldr x10, [x8, #120]!
	add x10, x10, #8
	ldar x2, [x10]
	cbz x2, .LBB88_15
	cmp x9, #64
	mov w10, #64
	mov w20, w0
	csel x1, x9, x10, lo
	mov x0, x8
	bl tag_bell.telling.tell_each_i64
	mov x8, x0
	mov w0, w20
	b .LBB88_16
.LBB88_15:
	mov x1, xzr
	mov x8, xzr
.LBB88_16:
	mov w9, #1073741824
	stp x8, x1, [x19]
	add w0, w0, w9
	ldp x20, x19, [sp, #80]
	ldr x21, [sp, #64]
	ldp x29, x30, [sp, #48]
	add sp, sp, #96
	ret
.Lfunc_end88:
	.size tags_library_get_batch, .Lfunc_end88-tags_library_get_batch
	.section .text.tags_library_get_exactly,"ax",@progbits
	.globl tags_library_get_exactly
	.p2align 2
	.type tags_library_get_exactly,@function
tags_library_get_exactly:
	sub sp, sp, #80
	ldr x8, [x0]
	stp x29, x30, [sp, #32]
	add x29, sp, #32
	str x21, [sp, #48]
	cmp x8, #1
	stp x20, x19, [sp, #64]
	b.ne .LBB89_5
	ldr x21, [x0, #8]
	ldrb w8, [x21]
	cmp w8, #2
	b.eq .LBB89_6
	cmp w8, #1
	b.ne .LBB89_7
	mov w0, #-12
.LBB89_4:
	ldp x20, x19, [sp, #64]
	ldr x21, [sp, #48]
	ldp x29, x30, [sp, #32]
	add sp, sp, #80
	ret
.LBB89_5:
	mov w0, #-12
	ldp x20, x19, [sp, #64]
	ldr x21, [sp, #48]
	ldp x29, x30, [sp, #32]
	add sp, sp, #80
	ret
.LBB89_6:
	ldp x20, x19, [sp, #64]
	add x0, x21, #8
	ldp x29, x30, [sp, #32]
	ldr x21, [sp, #48]
	add sp, sp, #80
	b tag_c.gets.CachedMemberGetCalls.get_exactly
.LBB89_7:
	ldr x8, [x21, #8]
	mov w19, w1
	mov x20, x2
	add x0, sp, #8
	add x2, x21, #16
	mov w3, w19
	add x1, x8, #8
	stp xzr, xzr, [sp, #8]
	str xzr, [sp, #24]
	bl tag_pool.pool.Pool.get_exactly_quietly_i64_core.clone.U64Clone
	ldrb w8, [sp, #8]
	cbz w8, .LBB89_9
	ldrb w8, [sp, #9]
	adrp x9, .Lswitch.table.tags_library_wait_on_reserved.286
	add x9, x9, :lo12:.Lswitch.table.tags_library_wait_on_reserved.286
	ldr w0, [x9, x8, lsl #2]
	ldp x20, x19, [sp, #64]
	ldr x21, [sp, #48]
	ldp x29, x30, [sp, #32]
	add sp, sp, #80
	ret
.LBB89_9:
	ldrb w8, [sp, #16]
	ldr w10, [sp, #20]
	ldr x9, [sp, #24]
	cmp w8, #1
	mov w8, #-10
	csel w0, w10, w8, eq
	cbz x9, .LBB89_4
	ldr x8, [x21, #8]
	ldr w10, [x8, #232]
	cmp w19, w10
	mov w10, #112
	csel x10, xzr, x10, lo
	add x8, x8, x10
	ldr x10, [x8, #8]!
	add x10, x10, #8
	ldar x2, [x10]
	cbz x2, .LBB89_12
	cmp x9, #64
	mov w10, #64
	mov w19, w0
	csel x1, x9, x10, lo
	mov x0, x8
	bl tag_bell.telling.tell_each_i64
	mov x8, x0
	mov w0, w19
	b .LBB89_13
.LBB89_12:
	mov x1, xzr
	mov x8, xzr
.LBB89_13:
	mov w9, #1073741824
	stp x8, x1, [x20]
	add w0, w0, w9
	ldp x20, x19, [sp, #64]
	ldr x21, [sp, #48]
	ldp x29, x30, [sp, #32]
	add sp, sp, #80
	ret
.Lfunc_end89:
	.size tags_library_get_exactly, .Lfunc_end89-tags_library_get_exactly
	.section .text.tags_library_get_many,"ax",@progbits
	.globl tags_library_get_many
	.p2align 2
	.type tags_library_get_many,@function
tags_library_get_many:
	sub sp, sp, #64
	ldr x9, [x0]
	cmp x1, #0
	mov w8, #4096
	csel x8, x8, xzr, eq
	stp x29, x30, [sp, #32]
	add x29, sp, #32
	cmp x9, #1
	stp x20, x19, [sp, #48]
	b.ne .LBB90_5
	ldr x20, [x0, #8]
	mov x4, x2
	ldrb w9, [x20]
	cmp w9, #2
	b.eq .LBB90_6
	cmp w9, #1
	b.ne .LBB90_7
	mov w0, #-12
.LBB90_4:
	ldp x20, x19, [sp, #48]
	ldp x29, x30, [sp, #32]
	add sp, sp, #64
	ret
.LBB90_5:
	mov w0, #-12
	ldp x20, x19, [sp, #48]
	ldp x29, x30, [sp, #32]
	add sp, sp, #64
	ret
.LBB90_6:
	add x0, x20, #8
	ldp x20, x19, [sp, #48]
	ldp x29, x30, [sp, #32]
	add x1, x1, x8
	mov x2, x4
	add sp, sp, #64
	b tag_c.gets.CachedMemberGetCalls.get_many
.LBB90_7:
	ldr x10, [x20, #8]
	mov x19, x3
	add x0, sp, #8
	add x2, x20, #16
	add x3, x1, x8
	add x1, x10, #8
	stp xzr, xzr, [sp, #8]
	str xzr, [sp, #24]
	bl tag_pool.pool.Pool.get_many_quietly_i64_core.clone.U64Clone
	ldrb w8, [sp, #8]
	cbz w8, .LBB90_9
	ldrb w8, [sp, #9]
	adrp x9, .Lswitch.table.tags_library_wait_on_reserved.286
	add x9, x9, :lo12:.Lswitch.table.tags_library_wait_on_reserved.286
	ldr w0, [x9, x8, lsl #2]
	ldp x20, x19, [sp, #48]
	ldp x29, x30, [sp, #32]
	add sp, sp, #64
	ret
.LBB90_9:
	ldrb w8, [sp, #16]
	ldr x9, [sp, #24]
	tst w8, #0x1
	mov w8, #-10
	csel w0, wzr, w8, ne
	cbz x9, .LBB90_4
	ldr x8, [x20, #8]
	ldr x10, [x8, #120]!
	add x10, x10, #8
	ldar x2, [x10]
	cbz x2, .LBB90_12
	cmp x9, #64
	mov w10, #64
	mov w20, w0
	csel x1, x9, x10, lo
	mov x0, x8
	bl tag_bell.telling.tell_each_i64
	mov x8, x0
	mov w0, w20
	b .LBB90_13
.LBB90_12:
	mov x1, xzr
	mov x8, xzr
.LBB90_13:
	mov w9, #1073741824
	stp x8, x1, [x19]
	add w0, w0, w9
	ldp x20, x19, [sp, #48]
	ldp x29, x30, [sp, #32]
	add sp, sp, #64
	ret
.Lfunc_end90:
	.size tags_library_get_many, .Lfunc_end90-tags_library_get_many
	.section .text.tags_library_get_reserved,"ax",@progbits
	.globl tags_library_get_reserved
	.p2align 2
	.type tags_library_get_reserved,@function
tags_library_get_reserved:
	sub sp, sp, #64
	ldr x8, [x0]
	stp x29, x30, [sp, #32]
	add x29, sp, #32
	stp x20, x19, [sp, #48]
	cmp x8, #1
	b.ne .LBB91_5
	ldr x20, [x0, #8]
	ldrb w8, [x20]
	cmp w8, #2
	b.eq .LBB91_6
	cmp w8, #1
	b.ne .LBB91_7
	mov w0, #-12
.LBB91_4:
	ldp x20, x19, [sp, #48]
	ldp x29, x30, [sp, #32]
	add sp, sp, #64
	ret
.LBB91_5:
	mov w0, #-12
	ldp x20, x19, [sp, #48]
	ldp x29, x30, [sp, #32]
	add sp, sp, #64
	ret
.LBB91_6:
	add x0, x20, #8
	ldp x20, x19, [sp, #48]
	ldp x29, x30, [sp, #32]
	add sp, sp, #64
	b tag_c.gets.CachedMemberGetCalls.get_reserved
.LBB91_7:
	ldr x8, [x20, #8]
	mov x19, x1
	add x0, sp, #8
	add x2, x20, #16
	stp xzr, xzr, [sp, #8]
	add x1, x8, #8
	str xzr, [sp, #24]
	bl tag_pool.pool.Pool.get_reserved_quietly_i64_core.clone.U64Clone
	ldrb w8, [sp, #8]
	cbz w8, .LBB91_9
	ldrb w8, [sp, #9]
	adrp x9, .Lswitch.table.tags_library_wait_on_reserved.286
	add x9, x9, :lo12:.Lswitch.table.tags_library_wait_on_reserved.286
	ldr w0, [x9, x8, lsl #2]
	ldp x20, x19, [sp, #48]
	ldp x29, x30, [sp, #32]
	add sp, sp, #64
	ret
.LBB91_9:
	ldrb w8, [sp, #16]
	ldr w10, [sp, #20]
	ldr x9, [sp, #24]
	cmp w8, #1
	mov w8, #-10
	csel w0, w10, w8, eq
	cbz x9, .LBB91_4
	ldr x8, [x20, #8]
	ldr x10, [x8, #8]!
	add x10, x10, #8
	ldar x2, [x10]
	cbz x2, .LBB91_12
	cmp x9, #64
	mov w10, #64
	mov w20, w0
	csel x1, x9, x10, lo
	mov x0, x8
	bl tag_bell.telling.tell_each_i64
	mov x8, x0
	mov w0, w20
	b .LBB91_13
.LBB91_12:
	mov x1, xzr
	mov x8, xzr
.LBB91_13:
	mov w9, #1073741824
	stp x8, x1, [x19]
	add w0, w0, w9
	ldp x20, x19, [sp, #48]
	ldp x29, x30, [sp, #32]
	add sp, sp, #64
	ret
.Lfunc_end91:
	.size tags_library_get_reserved, .Lfunc_end91-tags_library_get_reserved
	.section .text.tags_library_get_shallow,"ax",@progbits
	.globl tags_library_get_shallow
	.p2align 2
	.type tags_library_get_shallow,@function
tags_library_get_shallow:
	sub sp, sp, #64
	ldr x8, [x0]
	stp x29, x30, [sp, #32]
	add x29, sp, #32
	stp x20, x19, [sp, #48]
	cmp x8, #1
	b.ne .LBB92_5
	ldr x20, [x0, #8]
	mov w3, w1
	ldrb w8, [x20]
	cmp w8, #2
	b.eq .LBB92_6
	cmp w8, #1
	b.ne .LBB92_7
	mov w0, #-12
.LBB92_4:
	ldp x20, x19, [sp, #48]
	ldp x29, x30, [sp, #32]
	add sp, sp, #64
	ret
.LBB92_5:
	mov w0, #-12
	ldp x20, x19, [sp, #48]
	ldp x29, x30, [sp, #32]
	add sp, sp, #64
	ret
.LBB92_6:
	add x0, x20, #8
	ldp x20, x19, [sp, #48]
	ldp x29, x30, [sp, #32]
	mov w1, w3
	add sp, sp, #64
	b tag_c.gets.CachedMemberGetCalls.get_shallow
.LBB92_7:
	ldr x8, [x20, #8]
	mov x19, x2
	add x0, sp, #8
	add x2, x20, #16
	stp xzr, xzr, [sp, #8]
	add x1, x8, #8
	str xzr, [sp, #24]
	bl tag_pool.pool.Pool.get_shallow_quietly_i64_core.clone.U64Clone
	ldrb w8, [sp, #8]
	cbz w8, .LBB92_9
	ldrb w8, [sp, #9]
	adrp x9, .Lswitch.table.tags_library_wait_on_reserved.286
	add x9, x9, :lo12:.Lswitch.table.tags_library_wait_on_reserved.286
	ldr w0, [x9, x8, lsl #2]
	ldp x20, x19, [sp, #48]
	ldp x29, x30, [sp, #32]
	add sp, sp, #64
	ret
.LBB92_9:
	ldrb w8, [sp, #16]
	ldr w10, [sp, #20]
	ldr x9, [sp, #24]
	cmp w8, #1
	mov w8, #-10
	csel w0, w10, w8, eq
	cbz x9, .LBB92_4
	ldr x8, [x20, #8]
	ldr x10, [x8, #120]!
	add x10, x10, #8
	ldar x2, [x10]
	cbz x2, .LBB92_12
	cmp x9, #64
	mov w10, #64
	mov w20, w0
	csel x1, x9, x10, lo
	mov x0, x8
	bl tag_bell.telling.tell_each_i64
	mov x8, x0
	mov w0, w20
	b .LBB92_13
.LBB92_12:
	mov x1, xzr
	mov x8, xzr
.LBB92_13:
	mov w9, #1073741824
	stp x8, x1, [x19]
	add w0, w0, w9
	ldp x20, x19, [sp, #48]
	ldp x29, x30, [sp, #32]
	add sp, sp, #64
	ret
.Lfunc_end92:
	.size tags_library_get_shallow, .Lfunc_end92-tags_library_get_shallow
	.section .text.tags_library_get_write,"ax",@progbits
	.globl tags_library_get_write
	.p2align 2
	.type tags_library_get_write,@function
tags_library_get_write:
	sub sp, sp, #80
	ldr x8, [x0]
	stp x29, x30, [sp, #32]
	add x29, sp, #32
	stp x22, x21, [sp, #48]
	cmp x8, #1
	stp x20, x19, [sp, #64]
	b.ne .LBB93_5
	ldr x19, [x0, #8]
	ldrb w8, [x19]
	cmp w8, #2
	b.eq .LBB93_6
	cmp w8, #1
	b.ne .LBB93_7
	mov w0, #-12
.LBB93_4:
	ldp x20, x19, [sp, #64]
	ldp x22, x21, [sp, #48]
	ldp x29, x30, [sp, #32]
	add sp, sp, #80
	ret
.LBB93_5:
	mov w0, #-12
	ldp x20, x19, [sp, #64]
	ldp x22, x21, [sp, #48]
	ldp x29, x30, [sp, #32]
	add sp, sp, #80
	ret
.LBB93_6:
	add x0, x19, #8
	ldp x20, x19, [sp, #64]
	ldp x22, x21, [sp, #48]
	ldp x29, x30, [sp, #32]
	add sp, sp, #80
	b tag_c.pairs.CachedMemberPairCalls.get_write
.LBB93_7:
	ldr x8, [x19, #264]
	ldr x9, [x19, #296]
	ldr x20, [x19, #8]
	stp xzr, xzr, [sp, #16]
	cmp x8, x9
	stp xzr, xzr, [sp]
	b.ne .LBB93_9
	mov w0, #-7
	ldp x20, x19, [sp, #64]
	ldp x22, x21, [sp, #48]
	ldp x29, x30, [sp, #32]
	add sp, sp, #80
	ret
.LBB93_9:
	ldr w8, [x20, #184]
	ldr w12, [x19, #232]
	mov x9, xzr
	mov w11, wzr
	cmp w8, w12
	b.ls .LBB93_19
	ldrb w13, [x19, #236]
	mov w10, w11
	tbnz w13, #0, .LBB93_20
	ldr w11, [x20, #188]
	lsr w10, w12, w11
	ldur x12, [x20, #120]
	ubfiz x9, x10, #7, #32
	add x12, x12, x9
	add x12, x12, #576
	ldar x12, [x12]
	mvn x12, x12
	rbit x12, x12
	clz x12, x12
	lsr w13, w12, w11
	cbnz w13, .LBB93_18
	lsl w11, w10, w11
	add w11, w11, w12
	cmp w8, w11
	b.ls .LBB93_18
	ldur x14, [x20, #120]
	mov w13, #1
	lsl x13, x13, x12
	add x9, x14, x9
	add x14, x9, #576
.LBB93_14:
	ldar x9, [x14]
	orr x15, x9, x13
.LBB93_15:
	ldaxr x16, [x14]
	cmp x16, x9
	b.ne .LBB93_17
	stlxr w16, x15, [x14]
	cbz w16, .LBB93_33
	b .LBB93_15
.LBB93_17:
	clrex
	b .LBB93_14
.LBB93_18:
	mov w10, wzr
	mov x9, xzr
	mov w11, #1
	b .LBB93_20
.LBB93_19:
	mov w10, w11
.LBB93_20:
	mov x22, x1
	mov x21, x2
	add x0, sp, #16
	add x1, x20, #120
	add x2, x19, #248
	add x3, x19, #232
	mov x4, sp
	stp w11, w10, [sp]
	str x9, [sp, #8]
	bl tag_search.on_map.finish_i64
	ldrb w8, [sp, #16]
	ldr x10, [sp, #24]
	cmp w8, #1
	b.ne .LBB93_25
	ldr w11, [sp, #20]
	mov x2, x21
	mov x1, x22
	ldr x8, [x19, #8]
	ldr w9, [x20, #232]
	ldr w12, [x8, #236]
	add w0, w9, w11
	cmp w12, w0
	b.ls .LBB93_26
.LBB93_22:
	ldr w9, [x8, #232]
	subs w9, w0, w9
	b.hs .LBB93_31
	ldr w9, [x19, #44]
	ldr x12, [x19, #64]
	mov w13, #-1
	lsr w11, w0, w9
	lsl w9, w13, w9
	ldr x11, [x12, w11, uxtw #3]
	bic w9, w0, w9
	lsr x9, x11, x9
	tbz w9, #0, .LBB93_26
	ldr w9, [x19, #48]
	ubfiz x11, x0, #3, #32
	ldr x12, [x8, #8]
	add x9, x11, x9
	lsl x9, x9, #3
	add x12, x12, x9
	ldar xzr, [x12]
	ldr x12, [x8, #16]
	str x1, [x12, x11]
	ldr x8, [x8, #8]
	add x8, x8, x9
	ldar xzr, [x8]
	b .LBB93_26
.LBB93_25:
	mov w0, #-10
	mov x2, x21
.LBB93_26:
	cbz x10, .LBB93_4
	ldr x8, [x19, #8]
	ldr x9, [x8, #120]!
	add x9, x9, #8
	ldar x9, [x9]
	cbz x9, .LBB93_29
	cmp x10, #64
	mov w11, #64
	mov x19, x0
	csel x1, x10, x11, lo
	mov x0, x8
	mov x20, x2
	mov x2, x9
	bl tag_bell.telling.tell_each_i64
	mov x2, x20
	mov x8, x0
	mov x0, x19
	b .LBB93_30
.LBB93_29:
	mov x1, xzr
	mov x8, xzr
.LBB93_30:
	mov w9, #1073741824
	stp x8, x1, [x2]
	add w0, w0, w9
	ldp x20, x19, [sp, #64]
	ldp x22, x21, [sp, #48]
	ldp x29, x30, [sp, #32]
	add sp, sp, #80
	ret
.LBB93_31:
	ldr w11, [x19, #252]
	ldr x13, [x19, #272]
	mov w14, #-1
	lsr w12, w9, w11
	lsl w11, w14, w11
	ldr x12, [x13, w12, uxtw #3]
	bic w11, w9, w11
	lsr x11, x12, x11
	tbz w11, #0, .LBB93_26
	ldr w11, [x19, #256]
	ubfiz x9, x9, #3, #32
	ldr x12, [x8, #120]
	add x11, x9, x11
	lsl x11, x11, #3
	add x12, x12, x11
	ldar xzr, [x12]
	ldr x12, [x8, #128]
	str x1, [x12, x9]
	ldr x8, [x8, #120]
	add x8, x8, x11
	ldar xzr, [x8]
	b .LBB93_26
.LBB93_33:
	tst x9, x13
	b.eq .LBB93_35
	add w10, w12, #1
	mov w11, #2
	b .LBB93_20
.LBB93_35:
	ldr x9, [x19, #272]
	ldr x12, [x9, x10, lsl #3]
	orr x12, x12, x13
	str x12, [x9, x10, lsl #3]
	ldr x9, [x19, #296]
	ldr w10, [x19, #232]
	add x9, x9, #1
	cmp w11, w10
	str x9, [x19, #296]
	b.ne .LBB93_37
	add w9, w11, #1
	sub w8, w8, #1
	cmp w9, w8
	csinc w8, wzr, w11, hs
	stur w8, [x19, #232]
.LBB93_37:
	mov x10, xzr
	ldr x8, [x19, #8]
	ldr w9, [x20, #232]
	ldr w12, [x8, #236]
	add w0, w9, w11
	cmp w12, w0
	b.hi .LBB93_22
	b .LBB93_26
.Lfunc_end93:
	.size tags_library_get_write, .Lfunc_end93-tags_library_get_write
	.section .text.tags_library_holds,"ax",@progbits
	.globl tags_library_holds
	.p2align 2
	.type tags_library_holds,@function
tags_library_holds:
	ldr x8, [x0]
	cmp x8, #1
	b.ne .LBB94_3
	ldr x8, [x0, #8]
	ldrb w9, [x8]
	cmp w9, #2
	b.eq .LBB94_4
	cmp w9, #1
	b.ne .LBB94_5
.LBB94_3:
	mov w0, #-12
	ret
.LBB94_4:
	add x0, x8, #8
	b tag_c.looks.CachedMemberLookCalls.holds
.LBB94_5:
	ldr x9, [x8, #8]
	ldr w9, [x9, #256]
	cmp w9, w1
	b.ls .LBB94_8
	ldr w9, [x8, #16]
	subs w9, w1, w9
	b.hs .LBB94_9
	ldr w9, [x8, #44]
	mov w10, #-1
	ldr x8, [x8, #64]
	mov w11, #1
	lsl w10, w10, w9
	lsr w9, w1, w9
	bic w10, w1, w10
	ldr x8, [x8, w9, uxtw #3]
	lsl x9, x11, x10
	and x8, x9, x8
	cmp x8, #0
	cset w0, ne
	ret
.LBB94_8:
	mov w0, #-1
	ret
.LBB94_9:
	ldr w10, [x8, #252]
	mov w11, #-1
	ldr x8, [x8, #272]
	lsl w11, w11, w10
	lsr w10, w9, w10
	bic w9, w9, w11
	mov w11, #1
	ldr x8, [x8, w10, uxtw #3]
	lsl x9, x11, x9
	and x8, x9, x8
	cmp x8, #0
	cset w0, ne
	ret
.Lfunc_end94:
	.size tags_library_holds, .Lfunc_end94-tags_library_holds
	.section .text.tags_library_is_cached,"ax",@progbits
	.globl tags_library_is_cached
	.p2align 2
	.type tags_library_is_cached,@function
tags_library_is_cached:
	ldr x8, [x0]
	cmp x8, #1
	b.ne .LBB95_2
	ldr x8, [x0, #8]
	adrp x9, .Lswitch.table.tags_library_is_cached
	add x9, x9, :lo12:.Lswitch.table.tags_library_is_cached
	ldrb w8, [x8]
	ldr w0, [x9, x8, lsl #2]
	ret
.LBB95_2:
	mov w0, #-12
	ret
.Lfunc_end95:
	.size tags_library_is_cached, .Lfunc_end95-tags_library_is_cached
	.section .text.tags_library_is_told,"ax",@progbits
	.globl tags_library_is_told
	.p2align 2
	.type tags_library_is_told,@function
tags_library_is_told:
	ldr x8, [x0]
	cmp x8, #1
	b.ne .LBB96_3
	ldr x8, [x0, #8]
	ldrb w9, [x8]
	cmp w9, #2
	b.eq .LBB96_4
	cmp w9, #1
	b.ne .LBB96_5
.LBB96_3:
	mov w0, #-12
	ret
.LBB96_4:
	ldr x9, [x8, #8]
	ldr w8, [x8, #300]
	ldr x9, [x9, #120]
	add x8, x9, x8, lsl #3
	add x8, x8, #64
	ldar x8, [x8]
	and x8, x8, #0x3
	cmp x8, #1
	cset w0, ne
	ret
.LBB96_5:
	ldr x9, [x8, #8]
	ldr w8, [x8, #260]
	ldr x9, [x9, #120]
	add x8, x9, x8, lsl #3
	add x8, x8, #64
	ldar x8, [x8]
	and x8, x8, #0x3
	cmp x8, #1
	cset w0, ne
	ret
.Lfunc_end96:
	.size tags_library_is_told, .Lfunc_end96-tags_library_is_told
	.section .text.tags_library_number,"ax",@progbits
	.globl tags_library_number
	.p2align 2
	.type tags_library_number,@function
tags_library_number:
	ldr x8, [x0]
	cmp x8, #1
	b.ne .LBB97_3
	ldr x8, [x0, #8]
	ldrb w9, [x8]
	cmp w9, #2
	b.eq .LBB97_4
	cmp w9, #1
	b.ne .LBB97_5
.LBB97_3:
	mov w0, #-12
	ret
.LBB97_4:
	ldr w0, [x8, #280]
	ret
.LBB97_5:
	ldr w0, [x8, #240]
	ret
.Lfunc_end97:
	.size tags_library_number, .Lfunc_end97-tags_library_number
	.section .text.tags_library_pool_busy,"ax",@progbits
	.globl tags_library_pool_busy
	.p2align 2
	.type tags_library_pool_busy,@function
tags_library_pool_busy:
	stp x29, x30, [sp, #-48]!
	ldr x9, [x0]
	mov w8, #4096
	cmp x1, #0
	csel x8, x8, xzr, eq
	str x21, [sp, #16]
	mov x29, sp
	cmp x9, #1
	stp x20, x19, [sp, #32]
	b.ne .LBB98_4
	ldr x9, [x0, #8]
	ldrb w10, [x9]
	cmp w10, #1
	b.ne .LBB98_4
	ldr x20, [x9, #8]
	ldr w9, [x20, #256]
	add x9, x9, #63
	cmp x2, x9, lsr #6
	b.hs .LBB98_5
	mov w0, #-17
	ldp x20, x19, [sp, #32]
	ldr x21, [sp, #16]
	ldp x29, x30, [sp], #48
	ret
.LBB98_4:
	mov w0, #-12
	ldp x20, x19, [sp, #32]
	ldr x21, [sp, #16]
	ldp x29, x30, [sp], #48
	ret
.LBB98_5:
	add x19, x1, x8
	cbz x2, .LBB98_9
	subs x21, x2, #1
	b.eq .LBB98_8
	lsl x8, x2, #3
	mov x0, x19
	mov w1, wzr
	sub x2, x8, #8
	bl memset
.LBB98_8:
	str xzr, [x19, x21, lsl #3]
.LBB98_9:
	ldp w11, w10, [x20, #72]
	mov w9, #1
	lsl w12, w9, w10
	add w8, w11, w12
	sub w8, w8, #1
	lsr w13, w8, w10
	cbz w13, .LBB98_17
	mov x14, xzr
	mov w8, wzr
	b .LBB98_12
.LBB98_11:
	fmov d0, x17
	add x14, x14, #1
	cmp x14, x13
	cnt v0.8b, v0.8b
	addv b0, v0.8b
	fmov w15, s0
	add w8, w8, w15
	b.eq .LBB98_18
.LBB98_12:
	ldr x16, [x20, #8]
	lsl x17, x14, #7
	lsl w15, w14, w10
	add x16, x16, x17
	subs w18, w11, w15
	add x16, x16, #576
	cmp w12, w18
	ldar x0, [x16]
	csel w16, w12, w18, lo
	ldr x18, [x20, #8]
	neg w1, w16
	cmp w11, w15
	add x17, x18, x17
	lsl x18, x0, x1
	add x17, x17, #640
	ldar x17, [x17]
	lsr x18, x18, x1
	bic x17, x18, x17
	b.eq .LBB98_11
	mov x18, xzr
	b .LBB98_15
.LBB98_14:
	subs x16, x16, #1
	add x18, x18, #1
	add w15, w15, #1
	b.eq .LBB98_11
.LBB98_15:
	lsr x0, x17, x18
	tbz w0, #0, .LBB98_14
	lsr w0, w15, #3
	mov w1, #1
	lsl x1, x1, x15
	and x0, x0, #0x1ffffff8
	ldr x2, [x19, x0]
	orr x1, x2, x1
	str x1, [x19, x0]
	b .LBB98_14
.LBB98_17:
	mov w8, wzr
.LBB98_18:
	ldp w11, w10, [x20, #184]
	lsl w9, w9, w10
	add w12, w11, w9
	sub w12, w12, #1
	lsr w12, w12, w10
	cbz w12, .LBB98_26
	ldr w14, [x20, #232]
	mov x13, xzr
	mov w15, wzr
	b .LBB98_21
.LBB98_20:
	fmov d0, x17
	add x13, x13, #1
	cmp x13, x12
	cnt v0.8b, v0.8b
	addv b0, v0.8b
	fmov w16, s0
	add w15, w15, w16
	b.eq .LBB98_27
.LBB98_21:
	ldr x16, [x20, #120]
	lsl x17, x13, #7
	lsl w0, w13, w10
	add x16, x16, x17
	subs w18, w11, w0
	add x16, x16, #576
	cmp w9, w18
	ldar x1, [x16]
	csel w16, w9, w18, lo
	ldr x18, [x20, #120]
	neg w2, w16
	cmp w11, w0
	add x17, x18, x17
	lsl x18, x1, x2
	add x17, x17, #640
	ldar x17, [x17]
	lsr x18, x18, x2
	bic x17, x18, x17
	b.eq .LBB98_20
	mov x18, xzr
	add w0, w14, w0
	b .LBB98_24
.LBB98_23:
	subs x16, x16, #1
	add x18, x18, #1
	add w0, w0, #1
	b.eq .LBB98_20
.LBB98_24:
	lsr x1, x17, x18
	tbz w1, #0, .LBB98_23
	lsr w1, w0, #3
	mov w2, #1
	lsl x2, x2, x0
	and x1, x1, #0x1ffffff8
	ldr x3, [x19, x1]
	orr x2, x3, x2
	str x2, [x19, x1]
	b .LBB98_23
.LBB98_26:
	mov w15, wzr
.LBB98_27:
	add w8, w15, w8
	mov w9, #10240
	cmp w8, w9
	csel w0, w8, w9, lo
	ldp x20, x19, [sp, #32]
	ldr x21, [sp, #16]
	ldp x29, x30, [sp], #48
	ret
.Lfunc_end98:
	.size tags_library_pool_busy, .Lfunc_end98-tags_library_pool_busy
	.section .text.tags_library_pool_show,"ax",@progbits
	.globl tags_library_pool_show
	.p2align 2
	.type tags_library_pool_show,@function
tags_library_pool_show:
	ldr x8, [x0]
	cmp x8, #1
	b.ne .LBB99_5
	ldr x8, [x0, #8]
	ldrb w9, [x8]
	cmp w9, #1
	b.ne .LBB99_5
	cbz w1, .LBB99_6
	cmp w1, #1
	b.ne .LBB99_11
	mov x9, xzr
	b .LBB99_7
.LBB99_5:
	mov w0, #-12
	ret
.LBB99_6:
	mov w9, #112
.LBB99_7:
	ldr x8, [x8, #8]
	add x11, x8, x9
	mov w8, #1
	ldp w9, w12, [x11, #72]
	lsl w8, w8, w12
	add w10, w9, w8
	sub w10, w10, #1
	lsr w10, w10, w12
	cbz w10, .LBB99_12
	mov x15, xzr
	mov w14, wzr
	mov w13, wzr
	mov w16, #640
.LBB99_9:
	ldur x17, [x11, #8]
	lsl w18, w15, w12
	mov x1, #-1
	add x15, x15, #1
	add x17, x17, x16
	sub w18, w9, w18
	sub x17, x17, #64
	cmp w8, w18
	ldar x17, [x17]
	csel w18, w8, w18, lo
	ldur x0, [x11, #8]
	neg w18, w18
	lsr x18, x1, x18
	cmp x10, x15
	add x0, x0, x16
	add x16, x16, #128
	ldar x0, [x0]
	bic x17, x17, x0
	and x17, x17, x18
	and x18, x0, x18
	fmov d0, x17
	fmov d1, x18
	cnt v0.8b, v0.8b
	cnt v1.8b, v1.8b
	addv b0, v0.8b
	addv b1, v1.8b
	fmov w17, s0
	fmov w18, s1
	add w14, w14, w17
	add w13, w13, w18
	b.ne .LBB99_9
	mov w0, wzr
	stp w9, w14, [x2]
	stp w13, w8, [x2, #8]
	str w10, [x2, #16]
	ret
.LBB99_11:
	mov w0, #-16
	ret
.LBB99_12:
	mov w0, wzr
	stp w9, wzr, [x2]
	stp wzr, w8, [x2, #8]
	str w10, [x2, #16]
	ret
.Lfunc_end99:
	.size tags_library_pool_show, .Lfunc_end99-tags_library_pool_show
	.section .text.tags_library_post,"ax",@progbits
	.globl tags_library_post
	.p2align 2
	.type tags_library_post,@function
tags_library_post:
	ldr x8, [x0]
	cmp x8, #1
	b.ne .LBB100_3
	ldr x8, [x0, #8]
	ldrb w9, [x8]
	cmp w9, #2
	b.eq .LBB100_4
	cmp w9, #1
	b.ne .LBB100_5
.LBB100_3:
	mov w0, #-12
	ret
.LBB100_4:
	add x0, x8, #8
	b tag_c.values.CachedMemberSlotCalls.post
.LBB100_5:
	stp x29, x30, [sp, #-16]!
	ldr x9, [x8, #8]
	mov w2, w1
	add x1, x8, #16
	mov x29, sp
	add x0, x9, #8
	bl tag_pool.pool.Pool.post_noted_i64_core.clone.U64Clone
	ldp x29, x30, [sp], #16
	tbz w0, #0, .LBB100_7
	and x8, x1, #0xff
	adrp x9, .Lswitch.table.tags_library_wait_on_reserved.286
	add x9, x9, :lo12:.Lswitch.table.tags_library_wait_on_reserved.286
	ldr w0, [x9, x8, lsl #2]
	ret
.LBB100_7:
	mov w0, wzr
	ret
.Lfunc_end100:
	.size tags_library_post, .Lfunc_end100-tags_library_post
	.section .text.tags_library_post_quietly,"ax",@progbits
	.globl tags_library_post_quietly
	.p2align 2
	.type tags_library_post_quietly,@function
tags_library_post_quietly:
	ldr x8, [x0]
	cmp x8, #1
	b.ne .LBB101_3
	ldr x8, [x0, #8]
	mov w2, w1
	ldrb w9, [x8]
	cmp w9, #2
	b.eq .LBB101_4
	cmp w9, #1
	b.ne .LBB101_5
.LBB101_3:
	mov w0, #-12
	ret
.LBB101_4:
	add x0, x8, #8
	mov w1, w2
	b tag_c.values.CachedMemberSlotCalls.post_quietly
.LBB101_5:
	stp x29, x30, [sp, #-16]!
	ldr x9, [x8, #8]
	add x1, x8, #16
	mov x29, sp
	add x0, x9, #8
	bl tag_pool.pool.Pool.post_noted_i64_core.clone.U64Clone
	ldp x29, x30, [sp], #16
	tbz w0, #0, .LBB101_7
	and x8, x1, #0xff
	adrp x9, .Lswitch.table.tags_library_wait_on_reserved.286
	add x9, x9, :lo12:.Lswitch.table.tags_library_wait_on_reserved.286
	ldr w0, [x9, x8, lsl #2]
	ret
.LBB101_7:
	mov w0, wzr
	ret
.Lfunc_end101:
	.size tags_library_post_quietly, .Lfunc_end101-tags_library_post_quietly
	.section .text.tags_library_read,"ax",@progbits
	.globl tags_library_read
	.p2align 2
	.type tags_library_read,@function
tags_library_read:
	ldr x8, [x0]
	cmp x8, #1
	b.ne .LBB102_3
	ldr x9, [x0, #8]
	ldrb w8, [x9]
	cmp w8, #2
	b.eq .LBB102_4
	cmp w8, #1
	b.ne .LBB102_5
.LBB102_3:
	mov w0, #-12
	ret
.LBB102_4:
	add x0, x9, #8
	b tag_c.values.CachedMemberSlotCalls.read
.LBB102_5:
	ldr x8, [x9, #8]
	ldr w10, [x8, #236]
	cmp w10, w1
	b.ls .LBB102_9
	ldr w10, [x8, #232]
	subs w10, w1, w10
	b.hs .LBB102_10
	ldr w10, [x9, #44]
	ldr x12, [x9, #64]
	mov w13, #-1
	lsr w11, w1, w10
	lsl w10, w13, w10
	ldr x11, [x12, w11, uxtw #3]
	bic w10, w1, w10
	lsr x10, x11, x10
	tbz w10, #0, .LBB102_12
	ldr w9, [x9, #48]
	ubfiz x10, x1, #3, #32
	ldr x11, [x8, #8]
	add x9, x10, x9
	lsl x9, x9, #3
	add x11, x11, x9
	ldar xzr, [x11]
	ldp x12, x11, [x8, #8]
	ldr x8, [x11, x10]
	add x9, x12, x9
	ldar xzr, [x9]
	mov w0, wzr
	str x8, [x2]
	ret
.LBB102_9:
	mov w0, #-1
	ret
.LBB102_10:
	ldr w11, [x9, #252]
	ldr x13, [x9, #272]
	mov w14, #-1
	lsr w12, w10, w11
	lsl w11, w14, w11
	ldr x12, [x13, w12, uxtw #3]
	bic w11, w10, w11
	lsr x11, x12, x11
	tbz w11, #0, .LBB102_12
	ldr w9, [x9, #256]
	ubfiz x10, x10, #3, #32
	ldr x11, [x8, #120]
	add x9, x10, x9
	lsl x9, x9, #3
	add x11, x11, x9
	ldar xzr, [x11]
	ldp x12, x11, [x8, #120]
	ldr x8, [x11, x10]
	add x9, x12, x9
	ldar xzr, [x9]
	mov w0, wzr
	str x8, [x2]
	ret
.LBB102_12:
	mov w0, #-3
	ret
.Lfunc_end102:
	.size tags_library_read, .Lfunc_end102-tags_library_read
	.section .text.tags_library_read_clear,"ax",@progbits
	.globl tags_library_read_clear
	.p2align 2
	.type tags_library_read_clear,@function
tags_library_read_clear:
	ldr x8, [x0]
	cmp x8, #1
	b.ne .LBB103_3
	ldr x8, [x0, #8]
	ldrb w9, [x8]
	cmp w9, #2
	b.eq .LBB103_4
	cmp w9, #1
	b.ne .LBB103_5
.LBB103_3:
	mov w0, #-12
	ret
.LBB103_4:
	add x0, x8, #8
	b tag_c.pairs.CachedMemberPairCalls.read_clear
.LBB103_5:
	ldr x9, [x8, #8]
	ldr w10, [x9, #236]
	cmp w10, w1
	b.ls .LBB103_13
	ldr w10, [x9, #232]
	subs w10, w1, w10
	b.hs .LBB103_14
	ldr w10, [x8, #44]
	ldr x12, [x8, #64]
	mov w13, #-1
	lsr w11, w1, w10
	lsl w10, w13, w10
	ldr x11, [x12, w11, uxtw #3]
	bic w10, w1, w10
	lsr x10, x11, x10
	tbz w10, #0, .LBB103_23
	ldr w10, [x8, #48]
	ubfiz x11, x1, #3, #32
	ldr x12, [x9, #8]
	add x10, x11, x10
	lsl x10, x10, #3
	add x12, x12, x10
	ldar xzr, [x12]
	ldp x13, x12, [x9, #8]
	ldr x9, [x12, x11]
	add x10, x13, x10
	ldar xzr, [x10]
	str x9, [x2]
	ldr x10, [x8, #8]
	ldr w9, [x10, #232]
	subs w9, w1, w9
	b.lo .LBB103_16
.LBB103_9:
	ldr w11, [x8, #252]
	mov w12, #-1
	ldr x13, [x10, #120]
	lsl w12, w12, w11
	lsr w10, w9, w11
	bic w11, w9, w12
	mov w12, #1
	add x13, x13, x10, lsl #7
	lsl x11, x12, x11
	add x12, x13, #640
.LBB103_10:
	ldaxr x13, [x12]
	add x13, x13, x11
	stlxr w14, x13, [x12]
	cbnz w14, .LBB103_10
	ldr x12, [x8, #272]
	ldr x13, [x12, x10, lsl #3]
	sub x11, x13, x11
	str x11, [x12, x10, lsl #3]
	ldr x10, [x8, #304]
	ldrb w11, [x8, #236]
	add x10, x10, #1
	str x10, [x8, #304]
	tbnz w11, #0, .LBB103_20
	str w9, [x8, #232]
	b .LBB103_20
.LBB103_13:
	mov w0, #-1
	ret
.LBB103_14:
	ldr w11, [x8, #252]
	ldr x13, [x8, #272]
	mov w14, #-1
	lsr w12, w10, w11
	lsl w11, w14, w11
	ldr x12, [x13, w12, uxtw #3]
	bic w11, w10, w11
	lsr x11, x12, x11
	tbz w11, #0, .LBB103_23
	ldr w11, [x8, #256]
	ubfiz x10, x10, #3, #32
	ldr x12, [x9, #120]
	add x11, x10, x11
	lsl x11, x11, #3
	add x12, x12, x11
	ldar xzr, [x12]
	ldp x13, x12, [x9, #120]
	ldr x9, [x12, x10]
	add x10, x13, x11
	ldar xzr, [x10]
	str x9, [x2]
	ldr x10, [x8, #8]
	ldr w9, [x10, #232]
	subs w9, w1, w9
	b.hs .LBB103_9
.LBB103_16:
	ldr w9, [x8, #44]
	mov w11, #-1
	ldr x10, [x10, #8]
	mov w12, #1
	lsl w11, w11, w9
	lsr w9, w1, w9
	bic w11, w1, w11
	add x13, x10, x9, lsl #7
	lsl x10, x12, x11
	add x11, x13, #640
.LBB103_17:
	ldaxr x12, [x11]
	add x12, x12, x10
	stlxr w13, x12, [x11]
	cbnz w13, .LBB103_17
	ldr x11, [x8, #64]
	ldr x12, [x11, x9, lsl #3]
	sub x10, x12, x10
	str x10, [x11, x9, lsl #3]
	ldr x9, [x8, #96]
	ldrb w10, [x8, #28]
	add x9, x9, #1
	str x9, [x8, #96]
	tbnz w10, #0, .LBB103_20
	str w1, [x8, #24]
.LBB103_20:
	ldr x9, [x8, #8]
	ldr w10, [x9, #232]
	cmp w1, w10
	b.hs .LBB103_24
	ldr x9, [x9, #8]
	add x9, x9, #8
	ldar x9, [x9]
	cbz x9, .LBB103_26
	ldr x0, [x8, #8]
	mov w1, #1
	mov w2, #1
	b tag_c.telling.MemberTellingCalls.tell
.LBB103_23:
	mov w0, #-3
	ret
.LBB103_24:
	ldr x9, [x9, #120]
	add x9, x9, #8
	ldar x9, [x9]
	cbz x9, .LBB103_26
	ldr x0, [x8, #8]
	mov w1, wzr
	mov w2, #1
	b tag_c.telling.MemberTellingCalls.tell
.LBB103_26:
	mov w0, wzr
	ret
.Lfunc_end103:
	.size tags_library_read_clear, .Lfunc_end103-tags_library_read_clear
	.section .text.tags_library_see_to,"ax",@progbits
	.globl tags_library_see_to
	.p2align 2
	.type tags_library_see_to,@function
tags_library_see_to:
	ldr x8, [x0]
	cmp x8, #1
	b.ne .LBB104_4
	stp x29, x30, [sp, #-32]!
	ldr x8, [x0, #8]
	str x19, [sp, #16]
	mov x29, sp
	ldrb w9, [x8]
	cmp w9, #2
	b.eq .LBB104_5
	cmp w9, #1
	b.ne .LBB104_7
	mov w0, #-12
	ldr x19, [sp, #16]
	ldp x29, x30, [sp], #32
	ret
.LBB104_4:
	mov w0, #-12
	ret
.LBB104_5:
	ldr x9, [x8, #8]
	ldr x10, [x9, #120]
	add x10, x10, #8
	ldar x10, [x10]
	cbz x10, .LBB104_10
	add x0, x8, #16
	mov w8, w1
	add x1, x9, #8
	mov x19, x2
	mov w2, w8
	bl tag_cache.cache.Cache.give_back_and_tell_i64_core.clone.U64Clone
	b .LBB104_9
.LBB104_7:
	ldr x0, [x8, #8]
	ldr x8, [x0, #120]!
	add x8, x8, #8
	ldar x8, [x8]
	cbz x8, .LBB104_11
	mov x19, x2
	mov x2, x8
	bl tag_bell.telling.tell_each_i64
.LBB104_9:
	mov x8, x0
	mov w0, wzr
	stp x8, x1, [x19]
	ldr x19, [sp, #16]
	ldp x29, x30, [sp], #32
	ret
.LBB104_10:
	mov x8, xzr
.LBB104_11:
	mov w0, wzr
	stp x8, xzr, [x2]
	ldr x19, [sp, #16]
	ldp x29, x30, [sp], #32
	ret
.Lfunc_end104:
	.size tags_library_see_to, .Lfunc_end104-tags_library_see_to
	.section .text.tags_library_see_to_reserved,"ax",@progbits
	.globl tags_library_see_to_reserved
	.p2align 2
	.type tags_library_see_to_reserved,@function
tags_library_see_to_reserved:
	ldr x8, [x0]
	cmp x8, #1
	b.ne .LBB105_4
	stp x29, x30, [sp, #-32]!
	ldr x8, [x0, #8]
	str x19, [sp, #16]
	mov x29, sp
	ldrb w9, [x8]
	cmp w9, #2
	b.eq .LBB105_5
	cmp w9, #1
	b.ne .LBB105_7
	mov w0, #-12
	ldr x19, [sp, #16]
	ldp x29, x30, [sp], #32
	ret
.LBB105_4:
	mov w0, #-12
	ret
.LBB105_5:
	ldr x0, [x8, #8]
	ldr x8, [x0, #8]!
	add x8, x8, #8
	ldar x8, [x8]
	cbz x8, .LBB105_8
.LBB105_6:
	mov x19, x2
	mov x2, x8
	bl tag_bell.telling.tell_each_i64
	mov x8, x0
	mov w0, wzr
	stp x8, x1, [x19]
	ldr x19, [sp, #16]
	ldp x29, x30, [sp], #32
	ret
.LBB105_7:
	ldr x0, [x8, #8]
	ldr x8, [x0, #8]!
	add x8, x8, #8
	ldar x8, [x8]
	cbnz x8, .LBB105_6
.LBB105_8:
	mov w0, wzr
	stp x8, xzr, [x2]
	ldr x19, [sp, #16]
	ldp x29, x30, [sp], #32
	ret
.Lfunc_end105:
	.size tags_library_see_to_reserved, .Lfunc_end105-tags_library_see_to_reserved
	.section .text.tags_library_show,"ax",@progbits
	.globl tags_library_show
	.p2align 2
	.type tags_library_show,@function
tags_library_show:
	ldr x8, [x0]
	cmp x8, #1
	b.ne .LBB106_3
	ldr x8, [x0, #8]
	ldrb w9, [x8]
	cmp w9, #2
	b.eq .LBB106_4
	cmp w9, #1
	b.ne .LBB106_5
.LBB106_3:
	mov w0, #-12
	ret
.LBB106_4:
	add x0, x8, #8
	b tag_c.looks.CachedMemberLookCalls.show
.LBB106_5:
	cbz w1, .LBB106_8
	cmp w1, #1
	b.ne .LBB106_13
	mov x9, xzr
	b .LBB106_9
.LBB106_8:
	mov w9, #112
.LBB106_9:
	ldr x8, [x8, #8]
	add x11, x8, x9
	mov w8, #1
	ldp w9, w12, [x11, #72]
	lsl w8, w8, w12
	add w10, w9, w8
	sub w10, w10, #1
	lsr w10, w10, w12
	cbz w10, .LBB106_14
	mov x15, xzr
	mov w14, wzr
	mov w13, wzr
	mov w16, #640
.LBB106_11:
	ldur x17, [x11, #8]
	lsl w18, w15, w12
	mov x1, #-1
	add x15, x15, #1
	add x17, x17, x16
	sub w18, w9, w18
	sub x17, x17, #64
	cmp w8, w18
	ldar x17, [x17]
	csel w18, w8, w18, lo
	ldur x0, [x11, #8]
	neg w18, w18
	lsr x18, x1, x18
	cmp x10, x15
	add x0, x0, x16
	add x16, x16, #128
	ldar x0, [x0]
	bic x17, x17, x0
	and x17, x17, x18
	and x18, x0, x18
	fmov d0, x17
	fmov d1, x18
	cnt v0.8b, v0.8b
	cnt v1.8b, v1.8b
	addv b0, v0.8b
	addv b1, v1.8b
	fmov w17, s0
	fmov w18, s1
	add w14, w14, w17
	add w13, w13, w18
	b.ne .LBB106_11
	mov w0, wzr
	stp w9, w14, [x2]
	stp w13, w8, [x2, #8]
	str w10, [x2, #16]
	ret
.LBB106_13:
	mov w0, #-16
	ret
.LBB106_14:
	mov w0, wzr
	stp w9, wzr, [x2]
	stp wzr, w8, [x2, #8]
	str w10, [x2, #16]
	ret
.Lfunc_end106:
	.size tags_library_show, .Lfunc_end106-tags_library_show
	.section .text.tags_library_take,"ax",@progbits
	.globl tags_library_take
	.p2align 2
	.type tags_library_take,@function
tags_library_take:
	ldr x8, [x0]
	cmp x8, #1
	b.ne .LBB107_3
	ldr x8, [x0, #8]
	ldrb w9, [x8]
	cmp w9, #2
	b.eq .LBB107_4
	cmp w9, #1
	b.ne .LBB107_5
.LBB107_3:
	mov w0, #-12
	ret
.LBB107_4:
	add x0, x8, #8
	b tag_c.values.CachedMemberSlotCalls.take
.LBB107_5:
	ldr x10, [x8, #8]
	ldr w9, [x10, #236]
	cmp w9, w1
	b.ls .LBB107_11
	ldr w9, [x10, #232]
	subs w9, w1, w9
	b.hs .LBB107_12
	ldr x9, [x10, #8]
	mov w10, w1
	add x10, x9, x10, lsl #6
	ldp w9, w11, [x8, #44]
	add x11, x10, x11, lsl #3
.LBB107_8:
	ldaxr x10, [x11]
	stlxr w12, xzr, [x11]
	cbnz w12, .LBB107_8
	cbz x10, .LBB107_16
	mov w10, #-1
	ldr x8, [x8, #64]
	mov w11, #1
	lsl w10, w10, w9
	lsr w9, w1, w9
	mov w0, wzr
	bic w10, w1, w10
	lsl x10, x11, x10
	ldr x11, [x8, w9, uxtw #3]
	orr x10, x11, x10
	str x10, [x8, w9, uxtw #3]
	ret
.LBB107_11:
	mov w0, #-1
	ret
.LBB107_12:
	ldr x10, [x10, #120]
	add x11, x10, x9, lsl #6
	ldp w10, w12, [x8, #252]
	add x12, x11, x12, lsl #3
.LBB107_13:
	ldaxr x11, [x12]
	stlxr w13, xzr, [x12]
	cbnz w13, .LBB107_13
	cbz x11, .LBB107_16
	mov w11, #-1
	ldr x8, [x8, #272]
	mov w0, wzr
	lsl w11, w11, w10
	lsr w10, w9, w10
	bic w9, w9, w11
	mov w11, #1
	lsl x9, x11, x9
	ldr x11, [x8, w10, uxtw #3]
	orr x9, x11, x9
	str x9, [x8, w10, uxtw #3]
	ret
.LBB107_16:
	mov w0, #-4
	ret
.Lfunc_end107:
	.size tags_library_take, .Lfunc_end107-tags_library_take
	.section .text.tags_library_write,"ax",@progbits
	.globl tags_library_write
	.p2align 2
	.type tags_library_write,@function
tags_library_write:
	ldr x8, [x0]
	cmp x8, #1
	b.ne .LBB108_3
	ldr x9, [x0, #8]
	ldrb w8, [x9]
	cmp w8, #2
	b.eq .LBB108_4
	cmp w8, #1
	b.ne .LBB108_5
.LBB108_3:
	mov w0, #-12
	ret
.LBB108_4:
	add x0, x9, #8
	b tag_c.values.CachedMemberSlotCalls.write
.LBB108_5:
	ldr x8, [x9, #8]
	ldr w10, [x8, #236]
	cmp w10, w1
	b.ls .LBB108_9
	ldr w10, [x8, #232]
	subs w10, w1, w10
	b.hs .LBB108_10
	ldr w10, [x9, #44]
	ldr x12, [x9, #64]
	mov w13, #-1
	lsr w11, w1, w10
	lsl w10, w13, w10
	ldr x11, [x12, w11, uxtw #3]
	bic w10, w1, w10
	lsr x10, x11, x10
	tbz w10, #0, .LBB108_12
	ldr w9, [x9, #48]
	ubfiz x10, x1, #3, #32
	ldr x11, [x8, #8]
	add x9, x10, x9
	lsl x12, x9, #3
	add x9, x11, x12
	ldar xzr, [x9]
	ldr x11, [x8, #16]
	ldr x9, [x11, x10]
	str x2, [x11, x10]
	ldr x8, [x8, #8]
	add x8, x8, x12
	ldar xzr, [x8]
	mov w0, wzr
	str x9, [x3]
	ret
.LBB108_9:
	mov w0, #-1
	ret
.LBB108_10:
	ldr w11, [x9, #252]
	ldr x13, [x9, #272]
	mov w14, #-1
	lsr w12, w10, w11
	lsl w11, w14, w11
	ldr x12, [x13, w12, uxtw #3]
	bic w11, w10, w11
	lsr x11, x12, x11
	tbz w11, #0, .LBB108_12
	ldr w9, [x9, #256]
	ubfiz x10, x10, #3, #32
	ldr x11, [x8, #120]
	add x9, x10, x9
	lsl x12, x9, #3
	add x9, x11, x12
	ldar xzr, [x9]
	ldr x11, [x8, #128]
	ldr x9, [x11, x10]
	str x2, [x11, x10]
	ldr x8, [x8, #120]
	add x8, x8, x12
	ldar xzr, [x8]
	mov w0, wzr
	str x9, [x3]
	ret
.LBB108_12:
	mov w0, #-3
	ret
.Lfunc_end108:
	.size tags_library_write, .Lfunc_end108-tags_library_write
	.section .text.tags_library_leave,"ax",@progbits
	.globl tags_library_leave
	.p2align 2
	.type tags_library_leave,@function
tags_library_leave:
	stp x29, x30, [sp, #-48]!
	str x28, [sp, #16]
	mov x29, sp
	stp x20, x19, [sp, #32]
	sub sp, sp, #480
	ldp x8, x19, [x0]
	stp xzr, xzr, [x0]
	cmp x8, #1
	b.ne .LBB109_3
	ldrb w20, [x19]
	cmp x20, #1
	b.ne .LBB109_4
	mov w8, #1
	stp x8, x19, [x0]
.LBB109_3:
	mov w0, #-12
	add sp, sp, #480
	ldp x20, x19, [sp, #32]
	ldr x28, [sp, #16]
	ldp x29, x30, [sp], #48
	ret
.LBB109_4:
	mov x8, sp
	add x1, x19, #8
	mov w2, #472
	add x0, x8, #8
	bl memcpy
	mov x0, x19
	bl tags_library_dealloc
	mov x0, sp
	str x20, [sp]
	bl tag_c.object.Object.leave
	and x8, x0, #0xff
	adrp x9, .Lswitch.table.tags_library_leave
	add x9, x9, :lo12:.Lswitch.table.tags_library_leave
	ldr w0, [x9, x8, lsl #2]
	add sp, sp, #480
	ldp x20, x19, [sp, #32]
	ldr x28, [sp, #16]
	ldp x29, x30, [sp], #48
	ret
.Lfunc_end109:
	.size tags_library_leave, .Lfunc_end109-tags_library_leave
	.section .text.tags_library_close,"ax",@progbits
	.globl tags_library_close
	.p2align 2
	.type tags_library_close,@function
tags_library_close:
	stp x29, x30, [sp, #-96]!
	stp x28, x27, [sp, #16]
	mov x29, sp
	stp x26, x25, [sp, #32]
	stp x24, x23, [sp, #48]
	stp x22, x21, [sp, #64]
	stp x20, x19, [sp, #80]
	sub sp, sp, #1104
	str xzr, [sp]
	mov x8, x0
	ldp x9, x0, [x0]
	stp xzr, xzr, [x8]
	cmp x9, #1
	b.ne .LBB110_13
	ldrb w9, [x0]
	cmp w9, #1
	b.ne .LBB110_14
	ldr x9, [x0, #8]
	ldar x9, [x9]
	cmp x9, #1
	b.ne .LBB110_15
	ldr x8, [x0, #64]
	ldp x19, x22, [x0, #8]
	ldp x26, x23, [x0, #24]
	ldrb w21, [x0]
	str x8, [sp, #184]
	ldr x8, [x0, #272]
	ldr x25, [x0, #80]
	ldr x24, [x0, #104]
	ldr x20, [x0, #120]
	ldr x27, [x0, #288]
	str x8, [sp, #200]
	ldr x8, [x0, #312]
	ldr x28, [x0, #328]
	str x1, [sp, #136]
	str x8, [sp, #192]
	bl tags_library_dealloc
	movi v0.2d, #0000000000000000
	cmp w21, #1
	b.eq .LBB110_16
	cbnz w21, .LBB110_25
	str q0, [sp, #1072]
	str q0, [sp, #1056]
	str q0, [sp, #1040]
	stp q0, q0, [sp, #816]
	stp q0, q0, [sp, #848]
	stp q0, q0, [sp, #880]
	stp q0, q0, [sp, #912]
	stp q0, q0, [sp, #944]
	stp q0, q0, [sp, #976]
	stp q0, q0, [sp, #1008]
	str q0, [sp, #800]
.LBB110_6:
	ldaxr x8, [x19]
	subs x8, x8, #1
	stlxr w9, x8, [x19]
	cbnz w9, .LBB110_6
	b.ne .LBB110_9
	add x0, sp, #800
	add x1, x19, #8
	mov w2, #288
	bl memcpy
	mov x0, x19
	bl tags_library_dealloc
	add x0, sp, #800
	bl tag_c.pool_state.PoolState.drop
.LBB110_9:
	cbz x25, .LBB110_11
	ldr x0, [sp, #184]
	bl tags_library_dealloc
.LBB110_11:
	cbz x27, .LBB110_73
	ldr x0, [sp, #200]
	b .LBB110_72
.LBB110_13:
	mov w0, #-12
	b .LBB110_74
.LBB110_14:
	mov w9, #1
	stp x9, x0, [x8]
	mov w0, #-12
	b .LBB110_74
.LBB110_15:
	mov w9, #1
	stp x9, x0, [x8]
	mov w0, #-15
	b .LBB110_74
.LBB110_16:
	str xzr, [sp, #480]
	stp q0, q0, [sp, #224]
	stp q0, q0, [sp, #256]
	stp q0, q0, [sp, #288]
	stp q0, q0, [sp, #320]
	stp q0, q0, [sp, #352]
	stp q0, q0, [sp, #384]
	stp q0, q0, [sp, #416]
	stp q0, q0, [sp, #448]
	str q0, [sp, #208]
	str xzr, [sp, #1072]
	str q0, [sp, #1056]
	str q0, [sp, #1040]
	stp q0, q0, [sp, #816]
	stp q0, q0, [sp, #848]
	stp q0, q0, [sp, #880]
	stp q0, q0, [sp, #912]
	stp q0, q0, [sp, #944]
	stp q0, q0, [sp, #976]
	stp q0, q0, [sp, #1008]
	str q0, [sp, #800]
	ldar x8, [x19]
	cmp x8, #1
	b.ne .LBB110_33
	ldr x20, [x19, #8]
	add x0, sp, #800
	add x1, x19, #16
	mov w2, #280
	bl memcpy
	mov x0, x19
	bl tags_library_dealloc
	add x0, sp, #208
	add x1, sp, #800
	mov w2, #280
	bl memcpy
	movi v0.2d, #0000000000000000
	add x8, sp, #512
	add x1, sp, #208
	add x0, x8, #8
	mov w2, #280
	str x20, [sp, #512]
	str xzr, [sp, #1088]
	stp q0, q0, [sp, #800]
	stp q0, q0, [sp, #832]
	stp q0, q0, [sp, #864]
	stp q0, q0, [sp, #896]
	stp q0, q0, [sp, #928]
	stp q0, q0, [sp, #960]
	stp q0, q0, [sp, #992]
	str q0, [sp, #1024]
	str q0, [sp, #1040]
	str q0, [sp, #1056]
	str q0, [sp, #1072]
	bl memcpy
	add x0, sp, #800
	add x1, sp, #512
	add x2, sp, #488
	stp x22, x26, [sp, #488]
	str x23, [sp, #504]
	bl tag_c.pool_state.PoolState.part
	ldr x8, [sp, #800]
	ldr w19, [sp, #984]
	ldr x28, [sp, #1000]
	ldr x25, [sp, #1016]
	ldr x26, [sp, #1072]
	ldr x21, [sp, #1080]
	str x8, [sp, #200]
	ldr x8, [sp, #808]
	ldr x20, [sp, #1056]
	ldr x22, [sp, #1088]
	str x8, [sp, #64]
	ldr x8, [sp, #824]
	str x8, [sp, #72]
	ldr x8, [sp, #832]
	str x8, [sp, #112]
	ldr x8, [sp, #848]
	str x8, [sp, #120]
	ldr x8, [sp, #864]
	str x8, [sp, #48]
	ldr x8, [sp, #888]
	str x8, [sp, #80]
	ldr x8, [sp, #896]
	str x8, [sp, #56]
	ldr x8, [sp, #904]
	str x8, [sp, #128]
	ldr x8, [sp, #912]
	str x8, [sp, #192]
	ldr x8, [sp, #920]
	str x8, [sp, #32]
	ldr x8, [sp, #936]
	str x8, [sp, #40]
	ldr x8, [sp, #944]
	str x8, [sp, #96]
	ldr x8, [sp, #960]
	str x8, [sp, #104]
	ldr x8, [sp, #976]
	str x8, [sp, #16]
	ldr x8, [sp, #1008]
	str x8, [sp, #24]
	ldr x8, [sp, #1048]
	str x8, [sp, #144]
	ldr x8, [sp, #1064]
	str x8, [sp, #88]
	cbz x21, .LBB110_44
	mov x23, x26
	b .LBB110_20
.LBB110_19:
	subs x21, x21, #1
	add x23, x23, #440
	b.eq .LBB110_44
.LBB110_20:
	ldrb w8, [x23, #8]
	cbz w8, .LBB110_19
	ldr x8, [x23, #80]
	ldr x27, [x23, #272]
	ldr x24, [x23, #288]
	cbz x8, .LBB110_23
	ldr x0, [x23, #64]
	bl tags_library_dealloc
.LBB110_23:
	cbz x24, .LBB110_19
	mov x0, x27
	bl tags_library_dealloc
	b .LBB110_19
.LBB110_25:
	str q0, [sp, #1072]
	str q0, [sp, #1056]
	str q0, [sp, #1040]
	stp q0, q0, [sp, #816]
	stp q0, q0, [sp, #848]
	stp q0, q0, [sp, #880]
	stp q0, q0, [sp, #912]
	stp q0, q0, [sp, #944]
	stp q0, q0, [sp, #976]
	stp q0, q0, [sp, #1008]
	str q0, [sp, #800]
.LBB110_26:
	ldaxr x8, [x19]
	subs x8, x8, #1
	stlxr w9, x8, [x19]
	cbnz w9, .LBB110_26
	b.ne .LBB110_29
	add x0, sp, #800
	add x1, x19, #8
	mov w2, #288
	bl memcpy
	mov x0, x19
	bl tags_library_dealloc
	add x0, sp, #800
	bl tag_c.pool_state.PoolState.drop
.LBB110_29:
	cbz x20, .LBB110_31
	mov x0, x24
	bl tags_library_dealloc
.LBB110_31:
	cbz x28, .LBB110_73
	ldr x0, [sp, #192]
	b .LBB110_72
.LBB110_33:
	str q0, [sp, #1072]
	str q0, [sp, #1056]
	str q0, [sp, #1040]
	stp q0, q0, [sp, #816]
	stp q0, q0, [sp, #848]
	stp q0, q0, [sp, #880]
	stp q0, q0, [sp, #912]
	stp q0, q0, [sp, #944]
	stp q0, q0, [sp, #976]
	stp q0, q0, [sp, #1008]
	str q0, [sp, #800]
.LBB110_34:
	ldaxr x8, [x19]
	subs x8, x8, #1
	stlxr w9, x8, [x19]
	cbnz w9, .LBB110_34
	b.ne .LBB110_37
	add x0, sp, #800
	add x1, x19, #8
	mov w2, #288
	bl memcpy
	mov x0, x19
	bl tags_library_dealloc
	add x0, sp, #800
	bl tag_c.pool_state.PoolState.drop
.LBB110_37:
	cbz x26, .LBB110_57
	add x20, x22, #272
	b .LBB110_40
.LBB110_39:
	subs x26, x26, #1
	add x20, x20, #424
	b.eq .LBB110_57
.LBB110_40:
	ldur x8, [x20, #-208]
	ldur x19, [x20, #-16]
	ldr x21, [x20]
	cbz x8, .LBB110_42
	ldur x0, [x20, #-224]
	bl tags_library_dealloc
.LBB110_42:
	cbz x21, .LBB110_39
	mov x0, x19
	bl tags_library_dealloc
	b .LBB110_39
.LBB110_44:
	cbz x22, .LBB110_46
	mov x0, x26
	bl tags_library_dealloc
.LBB110_46:
	cbz w19, .LBB110_53
	cbz x20, .LBB110_59
	mov w8, wzr
.LBB110_49:
	ldr x9, [sp, #144]
	mov x10, x20
	add x9, x9, #224
.LBB110_50:
	ldr w11, [x9]
	cmp w11, w8
	b.eq .LBB110_52
	subs x10, x10, #1
	add x9, x9, #424
	b.ne .LBB110_50
	b .LBB110_59
.LBB110_52:
	add w8, w8, #1
	cmp w8, w19
	b.ne .LBB110_49
.LBB110_53:
	str x25, [sp, #8]
	cbz x20, .LBB110_161
	sub x21, x20, #1
	mov w8, #424
	ldr x9, [sp, #144]
	madd x10, x21, x8, x9
	ldp x8, x11, [x10, #64]
	ldp x0, x9, [x10, #48]
	ldp x26, x20, [x10, #256]
	str x11, [sp, #176]
	ldr x11, [x10, #80]
	str x11, [sp, #184]
	ldp x19, x11, [x10, #272]
	ldr x10, [x10, #288]
	stp x11, x10, [sp, #160]
	ldr x10, [sp, #200]
	ldar xzr, [x10]
	cbz x9, .LBB110_75
	cmp x9, #4
	b.hs .LBB110_76
	mov x23, xzr
	mov x10, xzr
	b .LBB110_79
.LBB110_57:
	cbz x23, .LBB110_73
	mov x0, x22
	b .LBB110_72
.LBB110_59:
	ldr x0, [sp, #112]
	bl tags_library_dealloc
	ldr x0, [sp, #120]
	bl tags_library_dealloc
	ldr x8, [sp, #128]
	cbz x8, .LBB110_61
	ldr x0, [sp, #80]
	bl tags_library_dealloc
.LBB110_61:
	ldr x0, [sp, #96]
	bl tags_library_dealloc
	ldr x0, [sp, #104]
	bl tags_library_dealloc
	cbz x25, .LBB110_63
	mov x0, x28
	bl tags_library_dealloc
.LBB110_63:
	cbz x20, .LBB110_70
	ldr x8, [sp, #144]
	add x21, x8, #272
	b .LBB110_66
.LBB110_65:
	subs x20, x20, #1
	add x21, x21, #424
	b.eq .LBB110_70
.LBB110_66:
	ldur x8, [x21, #-208]
	ldur x19, [x21, #-16]
	ldr x22, [x21]
	cbz x8, .LBB110_68
	ldur x0, [x21, #-224]
	bl tags_library_dealloc
.LBB110_68:
	cbz x22, .LBB110_65
	mov x0, x19
	bl tags_library_dealloc
	b .LBB110_65
.LBB110_70:
	ldr x8, [sp, #88]
	cbz x8, .LBB110_73
	ldr x0, [sp, #144]
.LBB110_72:
	bl tags_library_dealloc
.LBB110_73:
	mov w0, #-20
.LBB110_74:
	add sp, sp, #1104
	ldp x20, x19, [sp, #80]
	ldp x22, x21, [sp, #64]
	ldp x24, x23, [sp, #48]
	ldp x26, x25, [sp, #32]
	ldp x28, x27, [sp, #16]
	ldp x29, x30, [sp], #96
	ret
.LBB110_75:
	mov x23, xzr
	b .LBB110_81
.LBB110_76:
	movi v0.2d, #0000000000000000
	movi v1.2d, #0000000000000000
	and x10, x9, #0xfffffffffffffffc
	add x11, x0, #16
	and x12, x9, #0xfffffffffffffffc
.LBB110_77:
	ldp q2, q3, [x11, #-16]
	subs x12, x12, #4
	add x11, x11, #32
	cnt v2.16b, v2.16b
	cnt v3.16b, v3.16b
	uaddlp v2.8h, v2.16b
	uaddlp v3.8h, v3.16b
	uaddlp v2.4s, v2.8h
	uaddlp v3.4s, v3.8h
	uadalp v0.2d, v2.4s
	uadalp v1.2d, v3.4s
	b.ne .LBB110_77
	add v0.2d, v1.2d, v0.2d
	cmp x9, x10
	addp d0, v0.2d
	fmov x23, d0
	b.eq .LBB110_81
.LBB110_79:
	add x11, x0, x10, lsl #3
	sub x9, x9, x10
.LBB110_80:
	ldr d0, [x11], #8
	subs x9, x9, #1
	cnt v0.8b, v0.8b
	addv b0, v0.8b
	fmov x10, d0
	add x23, x10, x23
	b.ne .LBB110_80
.LBB110_81:
	cbz x8, .LBB110_83
	bl tags_library_dealloc
.LBB110_83:
	ldr x8, [sp, #192]
	ldar xzr, [x8]
	str x28, [sp]
	cbz x20, .LBB110_86
	cmp x20, #4
	b.hs .LBB110_87
	mov x24, xzr
	mov x8, xzr
	b .LBB110_90
.LBB110_86:
	mov x24, xzr
	b .LBB110_92
.LBB110_87:
	movi v0.2d, #0000000000000000
	movi v1.2d, #0000000000000000
	and x8, x20, #0xfffffffffffffffc
	add x9, x26, #16
	and x10, x20, #0xfffffffffffffffc
.LBB110_88:
	ldp q2, q3, [x9, #-16]
	subs x10, x10, #4
	add x9, x9, #32
	cnt v2.16b, v2.16b
	cnt v3.16b, v3.16b
	uaddlp v2.8h, v2.16b
	uaddlp v3.8h, v3.16b
	uaddlp v2.4s, v2.8h
	uaddlp v3.4s, v3.8h
	uadalp v0.2d, v2.4s
	uadalp v1.2d, v3.4s
	b.ne .LBB110_88
	add v0.2d, v1.2d, v0.2d
	cmp x20, x8
	addp d0, v0.2d
	fmov x24, d0
	b.eq .LBB110_92
.LBB110_90:
	add x9, x26, x8, lsl #3
	sub x8, x20, x8
.LBB110_91:
	ldr d0, [x9], #8
	subs x8, x8, #1
	cnt v0.8b, v0.8b
	addv b0, v0.8b
	fmov x10, d0
	add x24, x10, x24
	b.ne .LBB110_91
.LBB110_92:
	cbz x19, .LBB110_94
	mov x0, x26
	bl tags_library_dealloc
.LBB110_94:
	cbnz x21, .LBB110_101
.LBB110_95:
	ldp x26, x22, [sp, #64]
	ldr x8, [sp, #88]
	cbz x8, .LBB110_97
	ldr x0, [sp, #144]
	bl tags_library_dealloc
.LBB110_97:
	ldp x19, x27, [sp, #48]
	ldr x20, [sp]
	ldp x18, x17, [sp, #32]
	ldr x21, [sp, #80]
	ldp x10, x0, [sp, #16]
	cbz w10, .LBB110_123
	lsr x8, x10, #32
	mov w9, #1
	lsl w9, w9, w8
	add w9, w10, w9
	sub w9, w9, #1
	lsr w9, w9, w8
	mov w8, w10
	cmp x8, #2
	ubfiz x9, x9, #7, #32
	b.hs .LBB110_124
	mov x10, xzr
	mov x25, xzr
	b .LBB110_127
.LBB110_100:
	ldr x8, [sp, #176]
	add x23, x19, x23
	add x24, x20, x24
	add x8, x21, x8
	str x8, [sp, #176]
	ldr x8, [sp, #184]
	add x8, x27, x8
	str x8, [sp, #184]
	ldp x21, x8, [sp, #152]
	add x8, x25, x8
	str x8, [sp, #160]
	ldr x8, [sp, #168]
	add x8, x28, x8
	str x8, [sp, #168]
	cbz x21, .LBB110_95
.LBB110_101:
	sub x21, x21, #1
	mov w8, #424
	ldr x9, [sp, #144]
	madd x10, x21, x8, x9
	str x21, [sp, #152]
	ldp x0, x9, [x10, #48]
	ldr x27, [x10, #80]
	ldp x8, x21, [x10, #64]
	ldr x28, [x10, #288]
	ldp x26, x22, [x10, #256]
	ldp x13, x25, [x10, #272]
	ldr x10, [sp, #200]
	ldar xzr, [x10]
	cbz x9, .LBB110_104
	cmp x9, #4
	b.hs .LBB110_105
	mov x19, xzr
	mov x10, xzr
	b .LBB110_108
.LBB110_104:
	mov x19, xzr
	b .LBB110_110
.LBB110_105:
	movi v0.2d, #0000000000000000
	movi v1.2d, #0000000000000000
	and x10, x9, #0xfffffffffffffffc
	add x11, x0, #16
	and x12, x9, #0xfffffffffffffffc
.LBB110_106:
	ldp q2, q3, [x11, #-16]
	subs x12, x12, #4
	add x11, x11, #32
	cnt v2.16b, v2.16b
	cnt v3.16b, v3.16b
	uaddlp v2.8h, v2.16b
	uaddlp v3.8h, v3.16b
	uaddlp v2.4s, v2.8h
	uaddlp v3.4s, v3.8h
	uadalp v0.2d, v2.4s
	uadalp v1.2d, v3.4s
	b.ne .LBB110_106
	add v0.2d, v1.2d, v0.2d
	cmp x9, x10
	addp d0, v0.2d
	fmov x19, d0
	b.eq .LBB110_110
.LBB110_108:
	add x11, x0, x10, lsl #3
	sub x9, x9, x10
.LBB110_109:
	ldr d0, [x11], #8
	subs x9, x9, #1
	cnt v0.8b, v0.8b
	addv b0, v0.8b
	fmov x10, d0
	add x19, x10, x19
	b.ne .LBB110_109
.LBB110_110:
	ldr x9, [sp, #200]
	ldar xzr, [x9]
	ldar xzr, [x9]
	cbz x8, .LBB110_112
	mov x20, x13
	bl tags_library_dealloc
	mov x13, x20
.LBB110_112:
	ldr x8, [sp, #192]
	ldar xzr, [x8]
	cbz x22, .LBB110_115
	cmp x22, #4
	b.hs .LBB110_116
	mov x20, xzr
	mov x8, xzr
	b .LBB110_119
.LBB110_115:
	mov x20, xzr
	b .LBB110_121
.LBB110_116:
	movi v0.2d, #0000000000000000
	movi v1.2d, #0000000000000000
	and x8, x22, #0xfffffffffffffffc
	add x9, x26, #16
	and x10, x22, #0xfffffffffffffffc
.LBB110_117:
	ldp q2, q3, [x9, #-16]
	subs x10, x10, #4
	add x9, x9, #32
	cnt v2.16b, v2.16b
	cnt v3.16b, v3.16b
	uaddlp v2.8h, v2.16b
	uaddlp v3.8h, v3.16b
	uaddlp v2.4s, v2.8h
	uaddlp v3.4s, v3.8h
	uadalp v0.2d, v2.4s
	uadalp v1.2d, v3.4s
	b.ne .LBB110_117
	add v0.2d, v1.2d, v0.2d
	cmp x22, x8
	addp d0, v0.2d
	fmov x20, d0
	b.eq .LBB110_121
.LBB110_119:
	add x9, x26, x8, lsl #3
	sub x8, x22, x8
.LBB110_120:
	ldr d0, [x9], #8
	subs x8, x8, #1
	cnt v0.8b, v0.8b
	addv b0, v0.8b
	fmov x10, d0
	add x20, x10, x20
	b.ne .LBB110_120
.LBB110_121:
	ldr x8, [sp, #192]
	ldar xzr, [x8]
	ldar xzr, [x8]
	cbz x13, .LBB110_100
	mov x0, x26
	bl tags_library_dealloc
	b .LBB110_100
.LBB110_123:
	mov x25, xzr
	b .LBB110_129
.LBB110_124:
	ldr x13, [sp, #192]
	and x10, x10, #0xfffffffe
	mov x11, xzr
	mov x12, xzr
	mov x14, x10
	add x13, x9, x13
	add x13, x13, #640
.LBB110_125:
	ldur x15, [x13, #-64]
	ldr x16, [x13], #128
	cmp x15, #0
	cinc x11, x11, ne
	cmp x16, #0
	cinc x12, x12, ne
	subs x14, x14, #2
	b.ne .LBB110_125
	cmp x8, x10
	add x25, x12, x11
	b.eq .LBB110_129
.LBB110_127:
	add x9, x9, x10, lsl #6
	ldr x11, [sp, #192]
	sub x8, x8, x10
	add x9, x9, x11
	add x9, x9, #576
.LBB110_128:
	ldr x10, [x9], #64
	cmp x10, #0
	cinc x25, x25, ne
	subs x8, x8, #1
	b.ne .LBB110_128
.LBB110_129:
	cbz x17, .LBB110_135
	cmp x17, #6
	b.lo .LBB110_132
	lsl x8, x0, #3
	add x10, x8, x20
	sub x8, x10, x18
	cmp x8, #32
	b.hs .LBB110_155
.LBB110_132:
	mov x8, xzr
.LBB110_133:
	add x9, x18, x8, lsl #3
	add x10, x20, x0, lsl #3
	sub x8, x17, x8
.LBB110_134:
	ldr x11, [x9], #8
	subs x8, x8, #1
	str x11, [x10], #8
	b.ne .LBB110_134
.LBB110_135:
	ldr x0, [sp, #96]
	bl tags_library_dealloc
	ldr x0, [sp, #104]
	bl tags_library_dealloc
	cbz w19, .LBB110_138
	lsr x8, x19, #32
	mov w9, #1
	lsl w9, w9, w8
	add w9, w19, w9
	sub w9, w9, #1
	lsr w9, w9, w8
	mov w8, w19
	cmp x8, #2
	ubfiz x9, x9, #7, #32
	b.hs .LBB110_139
	mov x10, xzr
	mov x19, xzr
	b .LBB110_142
.LBB110_138:
	mov x19, xzr
	b .LBB110_144
.LBB110_139:
	ldr x13, [sp, #200]
	and x10, x19, #0xfffffffe
	mov x11, xzr
	mov x12, xzr
	mov x14, x10
	add x13, x9, x13
	add x13, x13, #640
.LBB110_140:
	ldur x15, [x13, #-64]
	ldr x16, [x13], #128
	cmp x15, #0
	cinc x11, x11, ne
	cmp x16, #0
	cinc x12, x12, ne
	subs x14, x14, #2
	b.ne .LBB110_140
	cmp x8, x10
	add x19, x12, x11
	b.eq .LBB110_144
.LBB110_142:
	add x9, x9, x10, lsl #6
	ldr x11, [sp, #200]
	sub x8, x8, x10
	add x9, x9, x11
	add x9, x9, #576
.LBB110_143:
	ldr x10, [x9], #64
	cmp x10, #0
	cinc x19, x19, ne
	subs x8, x8, #1
	b.ne .LBB110_143
.LBB110_144:
	cbz x22, .LBB110_150
	cmp x22, #6
	b.lo .LBB110_147
	lsl x8, x27, #3
	add x10, x8, x21
	sub x8, x10, x26
	cmp x8, #32
	b.hs .LBB110_158
.LBB110_147:
	mov x8, xzr
.LBB110_148:
	add x9, x26, x8, lsl #3
	add x10, x21, x27, lsl #3
	sub x8, x22, x8
.LBB110_149:
	ldr x11, [x9], #8
	subs x8, x8, #1
	str x11, [x10], #8
	b.ne .LBB110_149
.LBB110_150:
	ldr x0, [sp, #112]
	bl tags_library_dealloc
	ldr x0, [sp, #120]
	bl tags_library_dealloc
	ldr x8, [sp, #128]
	cbz x8, .LBB110_152
	mov x0, x21
	bl tags_library_dealloc
.LBB110_152:
	ldr x8, [sp, #8]
	cbz x8, .LBB110_154
	mov x0, x20
	bl tags_library_dealloc
.LBB110_154:
	ldp x10, x8, [sp, #168]
	mov w0, wzr
	ldr x9, [sp, #160]
	add x8, x9, x8
	ldr x9, [sp, #184]
	add x9, x10, x9
	ldr x10, [sp, #136]
	stp x8, x9, [x10]
	add x8, x24, x23
	add x9, x19, x25
	stp x8, x9, [x10, #16]
	b .LBB110_74
.LBB110_155:
	and x8, x17, #0xfffffffffffffffc
	add x9, x18, #16
	add x10, x10, #16
	add x0, x0, x8
	and x11, x17, #0xfffffffffffffffc
.LBB110_156:
	ldp q0, q1, [x9, #-16]
	subs x11, x11, #4
	add x9, x9, #32
	stp q0, q1, [x10, #-16]
	add x10, x10, #32
	b.ne .LBB110_156
	cmp x17, x8
	b.eq .LBB110_135
	b .LBB110_133
.LBB110_158:
	and x8, x22, #0xfffffffffffffffc
	add x9, x26, #16
	add x10, x10, #16
	add x27, x27, x8
	and x11, x22, #0xfffffffffffffffc
.LBB110_159:
	ldp q0, q1, [x9, #-16]
	subs x11, x11, #4
	add x9, x9, #32
	stp q0, q1, [x10, #-16]
	add x10, x10, #32
	b.ne .LBB110_159
	cmp x22, x8
	b.eq .LBB110_150
	b .LBB110_148
.LBB110_161:
	brk #0x1
.Lfunc_end110:
	.size tags_library_close, .Lfunc_end110-tags_library_close
	.section .text.tags_library_join,"ax",@progbits
	.globl tags_library_join
	.p2align 2
	.type tags_library_join,@function
tags_library_join:
	stp x29, x30, [sp, #-96]!
	stp x28, x27, [sp, #16]
	mov x29, sp
	stp x26, x25, [sp, #32]
	stp x24, x23, [sp, #48]
	stp x22, x21, [sp, #64]
	stp x20, x19, [sp, #80]
	sub sp, sp, #2992
	movi v0.2d, #0000000000000000
	str xzr, [sp]
	ldr x8, [x1]
	str xzr, [sp, #1040]
	str wzr, [sp, #1048]
	str xzr, [sp, #1024]
	str wzr, [sp, #1032]
	str xzr, [sp, #1008]
	str wzr, [sp, #1016]
	str xzr, [sp, #992]
	str wzr, [sp, #1000]
	str xzr, [sp, #976]
	str wzr, [sp, #984]
	str wzr, [sp, #968]
	str xzr, [sp, #960]
	str wzr, [sp, #952]
	str xzr, [sp, #944]
	str wzr, [sp, #936]
	str xzr, [sp, #928]
	str wzr, [sp, #920]
	str xzr, [sp, #912]
	str wzr, [sp, #904]
	str xzr, [sp, #896]
	str wzr, [sp, #888]
	str xzr, [sp, #880]
	stp q0, q0, [sp, #400]
	stp q0, q0, [sp, #432]
	stp q0, q0, [sp, #464]
	stp q0, q0, [sp, #496]
	stp q0, q0, [sp, #528]
	stp q0, q0, [sp, #560]
	stp q0, q0, [sp, #592]
	stp q0, q0, [sp, #624]
	stp q0, q0, [sp, #656]
	stp q0, q0, [sp, #688]
	stp q0, q0, [sp, #720]
	stp q0, q0, [sp, #752]
	stp q0, q0, [sp, #784]
	stp q0, q0, [sp, #816]
	stp q0, q0, [sp, #848]
	cbz x8, .LBB111_2
	mov w0, #-13
	b .LBB111_9
.LBB111_2:
	ldr x8, [x0]
	cmp x8, #1
	b.ne .LBB111_6
	ldr x12, [x0, #8]
	str xzr, [sp, #1216]
	str wzr, [sp, #1224]
	ldrb w8, [x12]
	str xzr, [sp, #1200]
	str wzr, [sp, #1208]
	cmp w8, #1
	str xzr, [sp, #1184]
	str wzr, [sp, #1192]
	str xzr, [sp, #1168]
	str wzr, [sp, #1176]
	str xzr, [sp, #1152]
	str wzr, [sp, #1160]
	str wzr, [sp, #1144]
	str xzr, [sp, #1136]
	str wzr, [sp, #1128]
	str xzr, [sp, #1120]
	str wzr, [sp, #1112]
	str xzr, [sp, #1104]
	str wzr, [sp, #1096]
	str xzr, [sp, #1088]
	str wzr, [sp, #1080]
	str xzr, [sp, #1072]
	str wzr, [sp, #1064]
	str xzr, [sp, #1056]
	b.ne .LBB111_7
	cmp w2, #1
	b.ls .LBB111_10
	mov w9, #9
	b .LBB111_8
.LBB111_6:
	mov w0, #-12
	b .LBB111_9
.LBB111_7:
	mov w9, #3
.LBB111_8:
	adrp x8, .Lswitch.table.tags_library_join
	add x8, x8, :lo12:.Lswitch.table.tags_library_join
	ldr w0, [x8, x9, lsl #2]
.LBB111_9:
	add sp, sp, #2992
	ldp x20, x19, [sp, #80]
	ldp x22, x21, [sp, #64]
	ldp x24, x23, [sp, #48]
	ldp x26, x25, [sp, #32]
	ldp x28, x27, [sp, #16]
	ldp x29, x30, [sp], #96
	ret
.LBB111_10:
	ldr x11, [x12, #8]
	str wzr, [sp, #1576]
	str xzr, [sp, #1568]
	str wzr, [sp, #1560]
	str xzr, [sp, #1552]
	str wzr, [sp, #1544]
	str xzr, [sp, #1536]
	str wzr, [sp, #1528]
	str xzr, [sp, #1520]
	str wzr, [sp, #1512]
	str xzr, [sp, #1504]
	str wzr, [sp, #1496]
	str xzr, [sp, #1488]
	str wzr, [sp, #1480]
	str xzr, [sp, #1472]
	str wzr, [sp, #1464]
	str xzr, [sp, #1456]
	str wzr, [sp, #1448]
	str xzr, [sp, #1440]
	str wzr, [sp, #1432]
	str xzr, [sp, #1424]
	str wzr, [sp, #1416]
	str xzr, [sp, #1408]
	str wzr, [sp, #1400]
	str xzr, [sp, #1392]
	str wzr, [sp, #1384]
	str xzr, [sp, #1376]
	str wzr, [sp, #1368]
	str xzr, [sp, #1360]
	str wzr, [sp, #1352]
	str xzr, [sp, #1344]
	str wzr, [sp, #1336]
	str xzr, [sp, #1328]
	str wzr, [sp, #1320]
	str xzr, [sp, #1312]
	str wzr, [sp, #1304]
	str xzr, [sp, #1296]
	str wzr, [sp, #1288]
	str xzr, [sp, #1280]
	str wzr, [sp, #1272]
	str xzr, [sp, #1264]
	str wzr, [sp, #1256]
	str xzr, [sp, #1248]
	str wzr, [sp, #1240]
	str xzr, [sp, #1232]
	str x1, [sp]
	mov x9, #9223372036854775806
	ldar x8, [x11]
	cmp x8, x9
	b.hi .LBB111_15
.LBB111_11:
	add x9, x8, #1
.LBB111_12:
	ldaxr x10, [x11]
	cmp x10, x8
	b.ne .LBB111_14
	stlxr w10, x9, [x11]
	cbz w10, .LBB111_16
	b .LBB111_12
.LBB111_14:
	clrex
	mov x9, #9223372036854775806
	ldar x8, [x11]
	cmp x8, x9
	b.ls .LBB111_11
.LBB111_15:
	ldr x9, [sp, #1568]
	ldr w10, [sp, #1576]
	mov w8, wzr
	mov x4, xzr
	mov w1, wzr
	mov w19, wzr
	str x9, [sp, #1216]
	ldr x9, [sp, #1552]
	mov w6, wzr
	str w10, [sp, #1224]
	ldr w10, [sp, #1560]
	mov w7, wzr
	str x9, [sp, #1200]
	ldr x9, [sp, #1536]
	mov w5, wzr
	str w10, [sp, #1208]
	ldr w10, [sp, #1544]
	mov w3, wzr
	str x9, [sp, #1184]
	ldr w9, [sp, #1528]
	mov x21, xzr
	str w10, [sp, #1192]
	ldr x10, [sp, #1520]
	mov w22, wzr
	str w9, [sp, #1176]
	ldr w9, [sp, #1512]
	mov w24, wzr
	str x10, [sp, #1168]
	ldr x10, [sp, #1504]
	mov w28, wzr
	str w9, [sp, #1160]
	ldr w9, [sp, #1496]
	mov w12, wzr
	str x10, [sp, #1152]
	ldr x10, [sp, #1488]
	mov x2, xzr
	str w9, [sp, #1144]
	ldr w9, [sp, #1480]
	mov w0, wzr
	str x10, [sp, #1136]
	ldr x10, [sp, #1472]
	mov x18, xzr
	str w9, [sp, #1128]
	ldr w9, [sp, #1464]
	mov w20, wzr
	str x10, [sp, #1120]
	ldr x10, [sp, #1456]
	mov x13, xzr
	str w9, [sp, #1112]
	ldr w9, [sp, #1448]
	mov w15, wzr
	str x10, [sp, #1104]
	ldr x10, [sp, #1440]
	mov x26, xzr
	str w9, [sp, #1096]
	ldr w9, [sp, #1432]
	mov w30, wzr
	str x10, [sp, #1088]
	ldr x10, [sp, #1424]
	mov w17, wzr
	str w9, [sp, #1080]
	ldr w9, [sp, #1416]
	mov w16, wzr
	str x10, [sp, #1072]
	ldr x10, [sp, #1408]
	mov x23, xzr
	mov w25, wzr
	mov w27, wzr
	mov w14, wzr
	str w9, [sp, #1064]
	mov w9, #10
	str xzr, [sp, #24]
	str xzr, [sp, #40]
	str xzr, [sp, #56]
	str wzr, [sp, #36]
	str wzr, [sp, #108]
	stp wzr, wzr, [sp, #84]
	str wzr, [sp, #72]
	str xzr, [sp, #304]
	str wzr, [sp, #300]
	str xzr, [sp, #368]
	stp xzr, xzr, [sp, #280]
	str xzr, [sp, #272]
	str wzr, [sp, #268]
	str wzr, [sp, #252]
	stp xzr, xzr, [sp, #232]
	stp xzr, xzr, [sp, #216]
	str xzr, [sp, #256]
	str xzr, [sp, #208]
	stp xzr, xzr, [sp, #184]
	str wzr, [sp, #204]
	stp xzr, xzr, [sp, #320]
	str wzr, [sp, #316]
	stp xzr, xzr, [sp, #336]
	stp xzr, xzr, [sp, #352]
	str wzr, [sp, #64]
	str wzr, [sp, #52]
	str x10, [sp, #1056]
	b .LBB111_43
.LBB111_16:
	str x11, [sp, #56]
	str x12, [sp, #64]
	ldr x11, [x12, #8]
	str wzr, [sp, #1896]
	str xzr, [sp, #1888]
	ldr x12, [x11, #280]
	str wzr, [sp, #1880]
	str xzr, [sp, #1872]
	str wzr, [sp, #1864]
	str xzr, [sp, #1856]
	str wzr, [sp, #1848]
	str xzr, [sp, #1840]
	str wzr, [sp, #1832]
	str xzr, [sp, #1824]
	str wzr, [sp, #1816]
	str xzr, [sp, #1808]
	str wzr, [sp, #1800]
	str xzr, [sp, #1792]
	str wzr, [sp, #1784]
	str xzr, [sp, #1776]
	str wzr, [sp, #1768]
	str xzr, [sp, #1760]
	str wzr, [sp, #1752]
	str xzr, [sp, #1744]
	str wzr, [sp, #1736]
	str xzr, [sp, #1728]
	str wzr, [sp, #1720]
	str xzr, [sp, #1712]
	str wzr, [sp, #1704]
	str xzr, [sp, #1696]
	str wzr, [sp, #1688]
	str xzr, [sp, #1680]
	str wzr, [sp, #1672]
	str xzr, [sp, #1664]
	str wzr, [sp, #1656]
	str xzr, [sp, #1648]
	str wzr, [sp, #1640]
	str xzr, [sp, #1632]
	str wzr, [sp, #1624]
	str xzr, [sp, #1616]
	str wzr, [sp, #1608]
	str xzr, [sp, #1600]
	str wzr, [sp, #1592]
	str xzr, [sp, #1584]
	str xzr, [sp, #2048]
	str wzr, [sp, #2056]
	str xzr, [sp, #2032]
	str wzr, [sp, #2040]
	str xzr, [sp, #2016]
	str wzr, [sp, #2024]
	str xzr, [sp, #2000]
	str wzr, [sp, #2008]
	str xzr, [sp, #1984]
	str wzr, [sp, #1992]
	str xzr, [sp, #1968]
	str wzr, [sp, #1976]
	str wzr, [sp, #1960]
	str xzr, [sp, #1952]
	str wzr, [sp, #1944]
	str xzr, [sp, #1936]
	str wzr, [sp, #1928]
	str xzr, [sp, #1920]
	str wzr, [sp, #1912]
	str xzr, [sp, #1904]
	cbz x12, .LBB111_26
	mov x20, xzr
	str w2, [sp, #108]
	stp x11, x12, [sp, #88]
	b .LBB111_19
.LBB111_18:
	ldur x8, [x29, #-192]
	ldur w9, [x29, #-184]
	str x8, [sp, #2048]
	ldur x8, [x29, #-208]
	str w9, [sp, #2056]
	ldur w9, [x29, #-200]
	str x8, [sp, #2032]
	ldur x8, [x29, #-224]
	str w9, [sp, #2040]
	ldur w9, [x29, #-216]
	str x8, [sp, #2016]
	ldur w8, [x29, #-232]
	str w9, [sp, #2024]
	ldur x9, [x29, #-240]
	str w8, [sp, #2008]
	ldur w8, [x29, #-248]
	str x9, [sp, #2000]
	ldur x9, [x29, #-256]
	str w8, [sp, #1992]
	ldr w8, [sp, #2728]
	str x9, [sp, #1984]
	ldr x9, [sp, #2720]
	str w8, [sp, #1976]
	ldr w8, [sp, #2712]
	str x9, [sp, #1968]
	ldr x9, [sp, #2704]
	str w8, [sp, #1960]
	ldr w8, [sp, #2696]
	str x9, [sp, #1952]
	ldr x9, [sp, #2688]
	str w8, [sp, #1944]
	ldr w8, [sp, #2680]
	str x9, [sp, #1936]
	ldr x9, [sp, #2672]
	str w8, [sp, #1928]
	ldr w8, [sp, #2664]
	str x9, [sp, #1920]
	ldr x9, [sp, #2656]
	str w8, [sp, #1912]
	str x9, [sp, #1904]
	add x20, x20, #1
	cmp x20, x12
	b.eq .LBB111_26
.LBB111_19:
	ldp x10, x8, [x11, #272]
	mvn x9, x20
	movi v0.2d, #0000000000000000
	stur wzr, [x29, #-184]
	stur xzr, [x29, #-192]
	add x8, x8, x9
	mov w9, #440
	stur wzr, [x29, #-200]
	madd x27, x8, x9, x10
	stur xzr, [x29, #-208]
	mov x9, #4294967296
	stur wzr, [x29, #-216]
	stur xzr, [x29, #-224]
	stur wzr, [x29, #-232]
	stur xzr, [x29, #-240]
	stur wzr, [x29, #-248]
	stur xzr, [x29, #-256]
	str wzr, [sp, #2728]
	str xzr, [sp, #2720]
	str wzr, [sp, #2712]
	str xzr, [sp, #2704]
	str wzr, [sp, #2696]
	str xzr, [sp, #2688]
	str wzr, [sp, #2680]
	str xzr, [sp, #2672]
	str wzr, [sp, #2664]
	str xzr, [sp, #2656]
	str wzr, [sp, #2648]
	str xzr, [sp, #2640]
	str wzr, [sp, #2632]
	str xzr, [sp, #2624]
	str wzr, [sp, #2616]
	str xzr, [sp, #2608]
	str wzr, [sp, #2600]
	str xzr, [sp, #2592]
	str wzr, [sp, #2584]
	str xzr, [sp, #2576]
	str wzr, [sp, #2568]
	str xzr, [sp, #2560]
	str wzr, [sp, #2552]
	str xzr, [sp, #2544]
	str wzr, [sp, #2536]
	str xzr, [sp, #2528]
	str wzr, [sp, #2520]
	str xzr, [sp, #2512]
	str wzr, [sp, #2504]
	str xzr, [sp, #2496]
	str xzr, [sp, #2480]
	str q0, [sp, #2464]
	str q0, [sp, #2448]
	str q0, [sp, #2432]
	str q0, [sp, #2416]
	str q0, [sp, #2400]
	str q0, [sp, #2384]
	str q0, [sp, #2368]
	str q0, [sp, #2352]
	str q0, [sp, #2336]
	str q0, [sp, #2320]
	str q0, [sp, #2304]
	str q0, [sp, #2288]
	str q0, [sp, #2272]
	str q0, [sp, #2256]
	str q0, [sp, #2240]
	str q0, [sp, #2224]
	str q0, [sp, #2208]
	str q0, [sp, #2192]
	str q0, [sp, #2176]
	str q0, [sp, #2160]
	str q0, [sp, #2144]
	str q0, [sp, #2128]
	str q0, [sp, #2112]
	str q0, [sp, #2096]
	str q0, [sp, #2080]
	str q0, [sp, #2064]
	ldar x8, [x27]
	cmp x8, x9
	b.ne .LBB111_18
.LBB111_21:
	ldaxr x8, [x27]
	mov x9, #4294967296
	cmp x8, x9
	b.ne .LBB111_25
	mov x8, #3
	movk x8, #1, lsl #32
	stlxr w9, x8, [x27]
	cbnz w9, .LBB111_21
	mov x0, x27
	add x1, sp, #2064
	ldr x8, [x0, #16]!
	ldrb w9, [x27, #8]
	ldr w10, [x27, #24]
	ldr w26, [x27, #392]
	ldr w19, [x27, #396]
	str x8, [sp, #304]
	ldur x8, [x27, #44]
	ldr w21, [x27, #400]
	str w9, [sp, #396]
	ldr w9, [x27, #52]
	mov w2, #424
	stur x8, [x29, #-32]
	ldr x28, [x27, #416]
	str x10, [sp, #72]
	ldp w10, w8, [x27, #28]
	ldr w22, [x27, #424]
	str w8, [sp, #372]
	ldr w8, [x27, #36]
	ldr w25, [x27, #428]
	stur w9, [x29, #-24]
	ldr w9, [x27, #64]
	ldr w23, [x27, #432]
	str w8, [sp, #284]
	ldr w8, [x27, #40]
	ldr w24, [x27, #436]
	str w10, [sp, #300]
	str w8, [sp, #280]
	ldr x8, [x27, #56]
	str w9, [sp, #276]
	str x8, [sp, #288]
	ldur x8, [x27, #84]
	str xzr, [x27, #8]
	stur x8, [x29, #-48]
	ldur x8, [x27, #124]
	ldp w9, w10, [x27, #68]
	stur x8, [x29, #-64]
	ldr w8, [x27, #172]
	str w9, [sp, #272]
	ldr w9, [x27, #92]
	stur w8, [x29, #-72]
	ldr w8, [x27, #212]
	stur w9, [x29, #-40]
	ldr w9, [x27, #132]
	stur w8, [x29, #-88]
	ldr w8, [x27, #252]
	stur w9, [x29, #-56]
	ldur x9, [x27, #164]
	stur w8, [x29, #-104]
	ldr w8, [x27, #292]
	stur x9, [x29, #-80]
	ldur x9, [x27, #204]
	stur w8, [x29, #-120]
	add x8, x27, #324
	stur x9, [x29, #-96]
	ldur x9, [x27, #244]
	ldr x8, [x8]
	str w10, [sp, #268]
	ldr w10, [x27, #76]
	stur x9, [x29, #-112]
	add x9, x27, #284
	ldr x9, [x9]
	stur x8, [x29, #-144]
	str w10, [sp, #84]
	ldr w10, [x27, #80]
	stur x9, [x29, #-128]
	add x9, x27, #364
	ldr x8, [x9]
	add x9, x27, #404
	str w10, [sp, #252]
	ldr x10, [x27, #96]
	stur x8, [x29, #-160]
	ldr x8, [x9]
	ldr w9, [x27, #184]
	str x10, [sp, #240]
	ldr w10, [x27, #104]
	stur x8, [x29, #-176]
	ldr w8, [x27, #200]
	str w10, [sp, #236]
	ldr w10, [x27, #108]
	str w8, [sp, #216]
	ldr x8, [x27, #216]
	str w10, [sp, #232]
	ldr w10, [x27, #112]
	str x8, [sp, #112]
	ldr w8, [x27, #224]
	str w10, [sp, #228]
	ldr w10, [x27, #116]
	str w8, [sp, #212]
	ldr w8, [x27, #228]
	str w10, [sp, #224]
	ldr w10, [x27, #120]
	str w8, [sp, #208]
	ldr w8, [x27, #232]
	str w10, [sp, #220]
	ldr x10, [x27, #136]
	str x8, [sp, #184]
	ldr w8, [x27, #236]
	str x10, [sp, #256]
	ldr w10, [x27, #144]
	str w8, [sp, #380]
	ldr w8, [x27, #240]
	str w10, [sp, #368]
	str w8, [sp, #204]
	ldr x8, [x27, #256]
	ldp w10, w11, [x27, #148]
	str x8, [sp, #192]
	ldr w8, [x27, #264]
	str w9, [sp, #156]
	ldr w9, [x27, #188]
	str w8, [sp, #332]
	ldr w8, [x27, #268]
	stp w11, w10, [sp, #176]
	ldr w10, [x27, #332]
	ldr w11, [x27, #156]
	str w8, [sp, #324]
	ldr w8, [x27, #272]
	str w11, [sp, #172]
	ldr w11, [x27, #160]
	str w8, [sp, #320]
	ldr w8, [x27, #276]
	stur w10, [x29, #-136]
	ldr w10, [x27, #372]
	str w8, [sp, #316]
	ldr w8, [x27, #280]
	str w9, [sp, #152]
	ldr w9, [x27, #192]
	str w8, [sp, #336]
	ldr x8, [x27, #296]
	str w11, [sp, #168]
	ldr x11, [x27, #176]
	str x8, [sp, #384]
	ldr w8, [x27, #304]
	stur w10, [x29, #-152]
	ldr w10, [x27, #412]
	str w8, [sp, #348]
	ldr w8, [x27, #308]
	str w9, [sp, #140]
	ldr w9, [x27, #196]
	str w8, [sp, #376]
	ldr w8, [x27, #312]
	str x11, [sp, #160]
	str w8, [sp, #340]
	ldr w8, [x27, #316]
	stur w10, [x29, #-168]
	str w8, [sp, #328]
	ldr w8, [x27, #320]
	str w8, [sp, #352]
	ldr x8, [x27, #336]
	str x8, [sp, #120]
	ldr w8, [x27, #344]
	str w8, [sp, #392]
	ldr w8, [x27, #348]
	str w8, [sp, #360]
	ldr w8, [x27, #352]
	str w8, [sp, #356]
	ldr w8, [x27, #356]
	str w8, [sp, #344]
	ldr w8, [x27, #360]
	str w8, [sp, #364]
	ldr x8, [x27, #376]
	str x8, [sp, #144]
	ldr w8, [x27, #384]
	stp w9, w8, [sp, #132]
	ldr w8, [x27, #388]
	str w8, [sp, #128]
	bl memcpy
	stlr xzr, [x27]
	ldur x8, [x29, #-32]
	ldur w9, [x29, #-24]
	ldr w10, [sp, #396]
	str x8, [sp, #2640]
	ldur x8, [x29, #-48]
	cmp w10, #1
	str w9, [sp, #2648]
	ldur w9, [x29, #-40]
	str x8, [sp, #2624]
	ldur x8, [x29, #-64]
	str w9, [sp, #2632]
	ldur w9, [x29, #-56]
	str x8, [sp, #2608]
	ldur w8, [x29, #-72]
	str w9, [sp, #2616]
	ldur x9, [x29, #-80]
	str w8, [sp, #2600]
	ldur w8, [x29, #-88]
	str x9, [sp, #2592]
	ldur x9, [x29, #-96]
	str w8, [sp, #2584]
	ldur x8, [x29, #-112]
	str x9, [sp, #2576]
	ldur w9, [x29, #-104]
	str x8, [sp, #2560]
	ldur x8, [x29, #-128]
	str w9, [sp, #2568]
	ldur w9, [x29, #-120]
	str x8, [sp, #2544]
	ldur x8, [x29, #-144]
	str w9, [sp, #2552]
	ldur w9, [x29, #-136]
	str x8, [sp, #2528]
	ldur w8, [x29, #-152]
	str w9, [sp, #2536]
	ldur x9, [x29, #-160]
	str w8, [sp, #2520]
	ldur w8, [x29, #-168]
	str x9, [sp, #2512]
	ldur x9, [x29, #-176]
	str w8, [sp, #2504]
	str x9, [sp, #2496]
	b.eq .LBB111_34
	ldr w2, [sp, #108]
	ldr x11, [sp, #88]
	str wzr, [sp, #2056]
	str xzr, [sp, #2048]
	str xzr, [sp, #2032]
	str wzr, [sp, #2040]
	str xzr, [sp, #2016]
	str wzr, [sp, #2024]
	str xzr, [sp, #2000]
	str wzr, [sp, #2008]
	str xzr, [sp, #1984]
	str wzr, [sp, #1992]
	str xzr, [sp, #1968]
	str wzr, [sp, #1976]
	str xzr, [sp, #1952]
	str wzr, [sp, #1960]
	str wzr, [sp, #1944]
	str xzr, [sp, #1936]
	str wzr, [sp, #1928]
	str xzr, [sp, #1920]
	str wzr, [sp, #1912]
	str xzr, [sp, #1904]
	ldr x12, [sp, #96]
	add x20, x20, #1
	cmp x20, x12
	b.ne .LBB111_19
	b .LBB111_26
.LBB111_25:
	clrex
	ldur x8, [x29, #-192]
	ldur w9, [x29, #-184]
	ldr w2, [sp, #108]
	str x8, [sp, #2048]
	ldur x8, [x29, #-208]
	str w9, [sp, #2056]
	ldur w9, [x29, #-200]
	str x8, [sp, #2032]
	ldur x8, [x29, #-224]
	str w9, [sp, #2040]
	ldur w9, [x29, #-216]
	str x8, [sp, #2016]
	ldur w8, [x29, #-232]
	str w9, [sp, #2024]
	ldur x9, [x29, #-240]
	str w8, [sp, #2008]
	ldur w8, [x29, #-248]
	str x9, [sp, #2000]
	ldur x9, [x29, #-256]
	str w8, [sp, #1992]
	ldr w8, [sp, #2728]
	str x9, [sp, #1984]
	ldr x9, [sp, #2720]
	str w8, [sp, #1976]
	ldr w8, [sp, #2712]
	str x9, [sp, #1968]
	ldr x9, [sp, #2704]
	str w8, [sp, #1960]
	ldr w8, [sp, #2696]
	str x9, [sp, #1952]
	ldr x9, [sp, #2688]
	str w8, [sp, #1944]
	ldr w8, [sp, #2680]
	str x9, [sp, #1936]
	ldr x9, [sp, #2672]
	str w8, [sp, #1928]
	ldr w8, [sp, #2664]
	str x9, [sp, #1920]
	ldr x9, [sp, #2656]
	str w8, [sp, #1912]
	str x9, [sp, #1904]
	ldr x12, [sp, #96]
	add x20, x20, #1
	cmp x20, x12
	b.ne .LBB111_19
.LBB111_26:
	ldr x11, [sp, #64]
	ldr x8, [x11, #24]
	cbz x8, .LBB111_29
	sub x9, x8, #1
	mov w8, #424
	ldr x10, [x11, #16]
	madd x8, x9, x8, x10
	str x9, [x11, #24]
	ldr w10, [x8, #48]
	ldr x9, [x8]
	ldr w3, [x8, #144]
	ldp w12, w6, [x8, #128]
	str w10, [sp, #276]
	ldr x21, [x8, #160]
	ldr w15, [x8, #184]
	ldp w10, w11, [x8, #52]
	str x9, [sp, #304]
	ldr x14, [x8, #200]
	ldr w0, [x8, #224]
	ldp w1, w9, [x8, #8]
	str w10, [sp, #272]
	ldr w10, [x8, #36]
	ldr x20, [x8, #240]
	str w11, [sp, #268]
	ldur x11, [x8, #68]
	ldr x13, [x8, #320]
	str w10, [sp, #1400]
	ldr x10, [x8, #80]
	ldr x26, [x8, #360]
	str w9, [sp, #300]
	ldr w9, [x8, #16]
	ldr w30, [x8, #368]
	str x10, [sp, #240]
	ldur x10, [x8, #108]
	ldr w17, [x8, #372]
	str w9, [sp, #372]
	ldr w9, [x8, #20]
	ldr x23, [x8, #400]
	str x10, [sp, #1360]
	ldr w10, [x8, #156]
	ldr w25, [x8, #408]
	str w9, [sp, #284]
	ldr w9, [x8, #24]
	ldr w27, [x8, #412]
	str w10, [sp, #1352]
	ldr w10, [x8, #196]
	str w9, [sp, #280]
	ldr x9, [x8, #40]
	str w10, [sp, #1336]
	ldr w10, [x8, #236]
	str x9, [sp, #288]
	ldur x9, [x8, #28]
	str w10, [sp, #1320]
	ldr w10, [x8, #276]
	str x9, [sp, #1392]
	str w10, [sp, #1304]
	ldr w10, [x8, #316]
	ldp w19, w9, [x8, #60]
	str w10, [sp, #1288]
	ldr w10, [x8, #356]
	str x11, [sp, #1376]
	ldr w11, [x8, #88]
	str w10, [sp, #1272]
	ldr w10, [x8, #396]
	str w11, [sp, #236]
	ldr w11, [x8, #92]
	str w10, [sp, #1256]
	ldp w4, w10, [x8, #216]
	str w9, [sp, #252]
	ldr w9, [x8, #76]
	str w11, [sp, #232]
	ldr w11, [x8, #96]
	str w10, [sp, #380]
	ldr w10, [x8, #248]
	str w9, [sp, #1384]
	ldr w9, [x8, #116]
	str w10, [sp, #332]
	ldr w10, [x8, #252]
	str w11, [sp, #228]
	ldr w11, [x8, #100]
	str w10, [sp, #324]
	ldr w10, [x8, #256]
	str w9, [sp, #1368]
	ldur x9, [x8, #148]
	str w10, [sp, #320]
	ldr w10, [x8, #260]
	str w11, [sp, #224]
	ldr w11, [x8, #104]
	str w10, [sp, #316]
	ldr w10, [x8, #264]
	str x9, [sp, #1344]
	ldur x9, [x8, #188]
	str w10, [sp, #336]
	ldr x10, [x8, #280]
	str w11, [sp, #220]
	ldr x11, [x8, #120]
	str x10, [sp, #384]
	ldr w10, [x8, #288]
	str x9, [sp, #1328]
	ldur x9, [x8, #228]
	str w10, [sp, #348]
	ldr w10, [x8, #292]
	str x11, [sp, #256]
	add x11, x8, #268
	str w10, [sp, #376]
	ldr w10, [x8, #296]
	str x9, [sp, #1312]
	ldr x9, [x11]
	add x11, x8, #308
	str w10, [sp, #340]
	ldr w10, [x8, #300]
	str x9, [sp, #1296]
	ldr x9, [x11]
	ldr w11, [x8, #416]
	str w10, [sp, #328]
	ldr w10, [x8, #304]
	str w12, [sp, #368]
	add x12, x8, #348
	str w10, [sp, #352]
	ldr w10, [x8, #328]
	str x9, [sp, #1280]
	ldr x9, [x12]
	str w10, [sp, #392]
	ldr w10, [x8, #332]
	ldp w7, w5, [x8, #136]
	str w10, [sp, #360]
	ldr w10, [x8, #336]
	str x9, [sp, #1264]
	add x9, x8, #388
	str w10, [sp, #356]
	ldr w10, [x8, #340]
	ldr x9, [x9]
	ldp w22, w24, [x8, #168]
	str w10, [sp, #344]
	ldr w10, [x8, #344]
	ldp w28, w12, [x8, #176]
	str w10, [sp, #364]
	ldr w10, [x8, #376]
	ldp w16, w18, [x8, #208]
	str w10, [sp, #64]
	ldr w10, [x8, #380]
	str x9, [sp, #1248]
	str w10, [sp, #96]
	ldr w10, [x8, #384]
	ldr w8, [x8, #420]
	str w8, [sp, #396]
	ldr x8, [sp, #56]
	cbz w2, .LBB111_37
	str w10, [sp, #88]
	mov x2, x4
	mov x4, x8
	b .LBB111_40
.LBB111_29:
	ldr x8, [sp, #1888]
	ldr w9, [sp, #1896]
	movi v0.2d, #0000000000000000
	str x8, [sp, #1392]
	ldr x8, [sp, #1872]
	str w9, [sp, #1400]
	ldr w9, [sp, #1880]
	str x8, [sp, #1376]
	ldr x8, [sp, #1856]
	str w9, [sp, #1384]
	ldr w9, [sp, #1864]
	str x8, [sp, #1360]
	ldr w8, [sp, #1848]
	str w9, [sp, #1368]
	ldr x9, [sp, #1840]
	str w8, [sp, #1352]
	ldr w8, [sp, #1832]
	str x9, [sp, #1344]
	ldr x9, [sp, #1824]
	str w8, [sp, #1336]
	ldr w8, [sp, #1816]
	str x9, [sp, #1328]
	ldr x9, [sp, #1808]
	str w8, [sp, #1320]
	ldr w8, [sp, #1800]
	str x9, [sp, #1312]
	ldr x9, [sp, #1792]
	str w8, [sp, #1304]
	ldr w8, [sp, #1784]
	str x9, [sp, #1296]
	ldr x9, [sp, #1776]
	str w8, [sp, #1288]
	ldr w8, [sp, #1768]
	str x9, [sp, #1280]
	ldr x9, [sp, #1760]
	str w8, [sp, #1272]
	ldr w8, [sp, #1752]
	str x9, [sp, #1264]
	ldr x9, [sp, #1744]
	str w8, [sp, #1256]
	str x9, [sp, #1248]
	str q0, [sp, #2336]
	str q0, [sp, #2320]
	str q0, [sp, #2304]
	str q0, [sp, #2288]
	str q0, [sp, #2272]
	str q0, [sp, #2256]
	str q0, [sp, #2240]
	str q0, [sp, #2224]
	str q0, [sp, #2208]
	str q0, [sp, #2192]
	str q0, [sp, #2176]
	str q0, [sp, #2160]
	str q0, [sp, #2144]
	str q0, [sp, #2128]
	str q0, [sp, #2112]
	str q0, [sp, #2096]
	str q0, [sp, #2080]
	str q0, [sp, #2064]
	ldr x19, [sp, #56]
.LBB111_30:
	ldaxr x8, [x19]
	subs x8, x8, #1
	stlxr w9, x8, [x19]
	cbnz w9, .LBB111_30
	b.ne .LBB111_33
	add x0, sp, #2064
	add x1, x19, #8
	mov w2, #288
	bl memcpy
	mov x0, x19
	bl tags_library_dealloc
	add x0, sp, #2064
	bl tag_c.pool_state.PoolState.drop
.LBB111_33:
	ldr x9, [sp, #1568]
	ldr w10, [sp, #1576]
	mov w8, wzr
	str xzr, [sp, #24]
	mov x4, xzr
	mov w1, wzr
	str x9, [sp, #1216]
	ldr x9, [sp, #1552]
	mov w19, wzr
	str w10, [sp, #1224]
	ldr w10, [sp, #1560]
	mov w6, wzr
	str x9, [sp, #1200]
	ldr x9, [sp, #1536]
	mov w7, wzr
	str w10, [sp, #1208]
	ldr w10, [sp, #1544]
	mov w5, wzr
	str x9, [sp, #1184]
	ldr w9, [sp, #1528]
	mov w3, wzr
	str w10, [sp, #1192]
	ldr x10, [sp, #1520]
	mov x21, xzr
	str w9, [sp, #1176]
	ldr w9, [sp, #1512]
	mov w22, wzr
	str x10, [sp, #1168]
	ldr x10, [sp, #1504]
	mov w24, wzr
	str w9, [sp, #1160]
	ldr w9, [sp, #1496]
	mov w28, wzr
	str x10, [sp, #1152]
	ldr x10, [sp, #1488]
	mov w12, wzr
	str w9, [sp, #1144]
	ldr w9, [sp, #1480]
	mov x2, xzr
	str x10, [sp, #1136]
	ldr x10, [sp, #1472]
	mov w0, wzr
	str w9, [sp, #1128]
	ldr w9, [sp, #1464]
	mov x18, xzr
	str x10, [sp, #1120]
	ldr x10, [sp, #1456]
	mov w20, wzr
	str w9, [sp, #1112]
	ldr w9, [sp, #1448]
	mov x13, xzr
	str x10, [sp, #1104]
	ldr x10, [sp, #1440]
	mov w15, wzr
	str w9, [sp, #1096]
	ldr w9, [sp, #1432]
	mov x26, xzr
	str x10, [sp, #1088]
	ldr x10, [sp, #1424]
	mov w30, wzr
	str w9, [sp, #1080]
	ldr w9, [sp, #1416]
	mov w17, wzr
	str x10, [sp, #1072]
	ldr x10, [sp, #1408]
	mov w16, wzr
	str xzr, [sp, #40]
	mov x23, xzr
	mov w25, wzr
	str xzr, [sp, #56]
	mov w27, wzr
	mov w14, wzr
	str wzr, [sp, #36]
	str wzr, [sp, #108]
	stp wzr, wzr, [sp, #84]
	str wzr, [sp, #72]
	str xzr, [sp, #304]
	str wzr, [sp, #300]
	str xzr, [sp, #368]
	stp xzr, xzr, [sp, #280]
	str xzr, [sp, #272]
	str wzr, [sp, #268]
	str wzr, [sp, #252]
	stp xzr, xzr, [sp, #232]
	stp xzr, xzr, [sp, #216]
	str xzr, [sp, #256]
	str xzr, [sp, #208]
	stp xzr, xzr, [sp, #184]
	str wzr, [sp, #204]
	stp xzr, xzr, [sp, #320]
	str wzr, [sp, #316]
	stp xzr, xzr, [sp, #336]
	stp xzr, xzr, [sp, #352]
	str wzr, [sp, #64]
	str wzr, [sp, #52]
	str w9, [sp, #1064]
	mov w9, #5
	str x10, [sp, #1056]
	b .LBB111_43
.LBB111_34:
	ldr x8, [sp, #2640]
	ldr w9, [sp, #2648]
	ldr x20, [sp, #192]
	ldp w0, w18, [sp, #204]
	str x8, [sp, #2048]
	ldr x8, [sp, #2624]
	ldr w17, [sp, #128]
	str w9, [sp, #2056]
	ldr w9, [sp, #2632]
	ldr w6, [sp, #180]
	str x8, [sp, #2032]
	ldr x8, [sp, #2608]
	str w9, [sp, #2040]
	ldr w9, [sp, #2616]
	str x8, [sp, #2016]
	ldr w8, [sp, #2600]
	str w9, [sp, #2024]
	ldr x9, [sp, #2592]
	str w8, [sp, #2008]
	ldr w8, [sp, #2584]
	str x9, [sp, #2000]
	ldr x9, [sp, #2576]
	str w8, [sp, #1992]
	ldr w8, [sp, #2568]
	str x9, [sp, #1984]
	ldr x9, [sp, #2560]
	str w8, [sp, #1976]
	ldr w8, [sp, #2552]
	str x9, [sp, #1968]
	ldr x9, [sp, #2544]
	str w8, [sp, #1960]
	ldr w8, [sp, #2536]
	str x9, [sp, #1952]
	ldr x9, [sp, #2528]
	str w8, [sp, #1944]
	ldr w8, [sp, #2520]
	str x9, [sp, #1936]
	ldr x9, [sp, #2512]
	str w8, [sp, #1928]
	ldr w8, [sp, #2504]
	str x9, [sp, #1920]
	ldr x9, [sp, #2496]
	str w8, [sp, #1912]
	ldr w8, [sp, #2056]
	str x9, [sp, #1904]
	ldr x9, [sp, #2048]
	str w8, [sp, #1736]
	ldr w8, [sp, #2040]
	str x9, [sp, #1728]
	ldr x9, [sp, #2032]
	str w8, [sp, #1720]
	ldr w8, [sp, #2024]
	str x9, [sp, #1712]
	ldr x9, [sp, #2016]
	str w8, [sp, #1704]
	ldr w8, [sp, #2008]
	str x9, [sp, #1696]
	ldr x9, [sp, #2000]
	str w8, [sp, #1688]
	ldr w8, [sp, #1992]
	str x9, [sp, #1680]
	ldr x9, [sp, #1984]
	str w8, [sp, #1672]
	ldr w8, [sp, #1976]
	str x9, [sp, #1664]
	ldr x9, [sp, #1968]
	str w8, [sp, #1656]
	ldr w8, [sp, #1960]
	str x9, [sp, #1648]
	ldr x9, [sp, #1952]
	str w8, [sp, #1640]
	ldr w8, [sp, #1944]
	str x9, [sp, #1632]
	ldr x9, [sp, #1936]
	str w8, [sp, #1624]
	ldr w8, [sp, #1928]
	str x9, [sp, #1616]
	ldr x9, [sp, #1920]
	str w8, [sp, #1608]
	ldr w8, [sp, #1912]
	str x9, [sp, #1600]
	ldr x9, [sp, #1904]
	str w8, [sp, #1592]
	ldr w8, [sp, #1736]
	str x9, [sp, #1584]
	ldr x9, [sp, #1728]
	str w8, [sp, #1400]
	ldr w8, [sp, #1720]
	str x9, [sp, #1392]
	ldr x9, [sp, #1712]
	str w8, [sp, #1384]
	ldr w8, [sp, #1704]
	str x9, [sp, #1376]
	ldr x9, [sp, #1696]
	str w8, [sp, #1368]
	ldr w8, [sp, #1688]
	str x9, [sp, #1360]
	ldr x9, [sp, #1680]
	str w8, [sp, #1352]
	ldr w8, [sp, #1672]
	str x9, [sp, #1344]
	ldr x9, [sp, #1664]
	str w8, [sp, #1336]
	ldr w8, [sp, #1656]
	str x9, [sp, #1328]
	ldr x9, [sp, #1648]
	str w8, [sp, #1320]
	ldr w8, [sp, #1640]
	str x9, [sp, #1312]
	ldr x9, [sp, #1632]
	str w8, [sp, #1304]
	ldr w8, [sp, #1624]
	str x9, [sp, #1296]
	ldr x9, [sp, #1616]
	str w8, [sp, #1288]
	ldr w8, [sp, #1608]
	str x9, [sp, #1280]
	ldr x9, [sp, #1600]
	str w8, [sp, #1272]
	ldr w8, [sp, #1592]
	str w24, [sp, #396]
	ldr w24, [sp, #84]
	str x9, [sp, #1264]
	ldr x9, [sp, #1584]
	str w8, [sp, #1256]
	ldr w8, [sp, #108]
	str w19, [sp, #96]
	ldp x14, x13, [sp, #112]
	str w26, [sp, #64]
	str w21, [sp, #88]
	str w23, [sp, #52]
	ldp w16, w15, [sp, #212]
	stp w25, w22, [sp, #8]
	str x28, [sp, #16]
	str x9, [sp, #1248]
	cbz w8, .LBB111_36
	mov w19, w24
	ldr x4, [sp, #56]
	ldr x1, [sp, #72]
	ldp w5, w7, [sp, #172]
	ldp w24, w22, [sp, #152]
	ldp w27, w25, [sp, #8]
	ldp w30, w28, [sp, #136]
	ldr w3, [sp, #168]
	ldr x21, [sp, #160]
	ldr x23, [sp, #16]
	ldr x26, [sp, #144]
	ldr w11, [sp, #52]
	ldr w12, [sp, #132]
	ldr x2, [sp, #184]
	b .LBB111_40
.LBB111_36:
	mov w19, w24
	ldr x8, [sp, #56]
	ldr w3, [sp, #168]
	ldp w5, w7, [sp, #172]
	ldp w24, w22, [sp, #152]
	ldp w27, w25, [sp, #8]
	ldp w30, w28, [sp, #136]
	ldr x21, [sp, #160]
	ldr x23, [sp, #16]
	ldr x26, [sp, #144]
	ldr w11, [sp, #52]
	ldr w10, [sp, #88]
	ldr w12, [sp, #132]
.LBB111_37:
	mov x4, x8
	ldr w8, [x8, #80]
	cbz w8, .LBB111_47
	ldr w9, [x4, #192]
	str w10, [sp, #88]
	cbz w9, .LBB111_47
	ldr w10, [x4, #72]
	ldr w1, [sp, #372]
	umull x10, w10, w1
	udiv x1, x10, x8
	ldr w8, [x4, #184]
	umull x8, w8, w0
	udiv x2, x8, x9
.LBB111_40:
	ldr w8, [x4, #264]
	cbz w8, .LBB111_42
	ldr x10, [sp, #1392]
	str w11, [sp, #52]
	cmp w8, #64
	ldr w11, [sp, #1400]
	stp x2, x20, [sp, #184]
	mov w2, w12
	str x10, [sp, #1200]
	ldr w10, [sp, #1384]
	ldr x12, [sp, #1376]
	str w11, [sp, #1208]
	mov x9, xzr
	ldr x11, [sp, #1360]
	str w10, [sp, #1192]
	ldr w10, [sp, #1368]
	ldr w20, [sp, #376]
	str x11, [sp, #1168]
	ldr w11, [sp, #1352]
	str w10, [sp, #1176]
	ldr x10, [sp, #1344]
	str w11, [sp, #1160]
	ldr w11, [sp, #1336]
	str x10, [sp, #1152]
	ldr x10, [sp, #1328]
	str w11, [sp, #1144]
	ldr w11, [sp, #1320]
	str x10, [sp, #1136]
	ldr x10, [sp, #1312]
	str w11, [sp, #1128]
	ldr w11, [sp, #1304]
	str x10, [sp, #1120]
	ldr x10, [sp, #1296]
	str x12, [sp, #1184]
	mov w12, #64
	str x10, [sp, #1104]
	csel w8, w8, w12, lo
	mov w12, w2
	ldr x10, [sp, #1280]
	str w11, [sp, #1112]
	mov x2, x14
	ldr w11, [sp, #1288]
	str x8, [sp, #56]
	lsl x8, x8, #32
	str x10, [sp, #1088]
	ldr x10, [sp, #1264]
	ldr w14, [sp, #396]
	str w11, [sp, #1096]
	ldr w11, [sp, #1272]
	str x10, [sp, #1072]
	ldr x10, [sp, #1248]
	str w11, [sp, #1080]
	ldr w11, [sp, #1256]
	str x8, [sp, #40]
	ldrb w8, [x4, #268]
	stp w0, w18, [sp, #204]
	ldr x18, [sp, #384]
	ldr w0, [sp, #380]
	stp w16, w15, [sp, #212]
	ldr w15, [sp, #392]
	ldr w16, [sp, #96]
	str x10, [sp, #1056]
	mov w10, #2
	str wzr, [sp, #108]
	str wzr, [sp, #84]
	str wzr, [sp, #72]
	str xzr, [sp, #1216]
	str w11, [sp, #1064]
	str w8, [sp, #36]
	mov w8, #1
	str x10, [sp, #24]
	str wzr, [sp, #1224]
	b .LBB111_43
.LBB111_42:
	ldr x8, [sp, #1392]
	str x1, [sp, #56]
	mov x9, xzr
	ldr w1, [sp, #276]
	ldr w10, [sp, #1400]
	str xzr, [sp, #24]
	str x8, [sp, #1216]
	ldr x8, [sp, #1376]
	str w10, [sp, #1224]
	ldr w10, [sp, #1384]
	str x8, [sp, #1200]
	ldr x8, [sp, #1360]
	str w10, [sp, #1208]
	ldr w10, [sp, #1368]
	str x8, [sp, #1184]
	ldr w8, [sp, #1352]
	str w10, [sp, #1192]
	ldr x10, [sp, #1344]
	str w8, [sp, #1176]
	ldr w8, [sp, #1336]
	str x10, [sp, #1168]
	ldr x10, [sp, #1328]
	str w8, [sp, #1160]
	ldr w8, [sp, #1320]
	str x10, [sp, #1152]
	ldr x10, [sp, #1312]
	str w8, [sp, #1144]
	ldr w8, [sp, #1304]
	str x10, [sp, #1136]
	ldr x10, [sp, #1296]
	str w8, [sp, #1128]
	ldr w8, [sp, #1288]
	str x10, [sp, #1120]
	ldr x10, [sp, #1280]
	str w8, [sp, #1112]
	ldr w8, [sp, #1272]
	str x10, [sp, #1104]
	ldr x10, [sp, #1264]
	str w8, [sp, #1096]
	ldr w8, [sp, #1256]
	str x10, [sp, #1088]
	ldr x10, [sp, #1248]
	str w8, [sp, #1080]
	ldr w8, [sp, #1240]
	str x10, [sp, #1072]
	ldr x10, [sp, #1232]
	str w8, [sp, #1064]
	ldr x8, [sp, #304]
	str x10, [sp, #1056]
	str x8, [sp, #40]
	ldr w8, [sp, #300]
	str wzr, [sp, #52]
	str w8, [sp, #36]
	ldr w8, [sp, #372]
	str w8, [sp, #108]
	ldr w8, [sp, #284]
	str w19, [sp, #284]
	str w8, [sp, #84]
	ldr w8, [sp, #280]
	str w8, [sp, #72]
	ldr x8, [sp, #288]
	str x8, [sp, #304]
	ldr w8, [sp, #272]
	str w8, [sp, #300]
	ldr w8, [sp, #268]
	str w8, [sp, #372]
	ldr w8, [sp, #252]
	str w8, [sp, #280]
	ldr x8, [sp, #240]
	str x8, [sp, #288]
	ldr w8, [sp, #236]
	str w8, [sp, #276]
	ldr w8, [sp, #232]
	str w8, [sp, #272]
	ldp w19, w8, [sp, #224]
	stp w5, w7, [sp, #224]
	mov w7, w28
	mov w5, w12
	mov w28, w2
	ldr w12, [sp, #380]
	mov x2, x20
	str w8, [sp, #268]
	ldr w8, [sp, #220]
	ldr w20, [sp, #360]
	stp w0, w3, [sp, #216]
	ldr w0, [sp, #316]
	mov w3, w15
	str w8, [sp, #252]
	ldr x8, [sp, #256]
	mov w15, w30
	str x21, [sp, #256]
	mov x21, x14
	mov w30, w25
	str x8, [sp, #240]
	ldr w8, [sp, #368]
	mov w25, wzr
	str w22, [sp, #368]
	mov w22, w16
	ldr w16, [sp, #396]
	stp w6, w8, [sp, #232]
	ldr w8, [sp, #332]
	mov w6, w24
	mov w24, w18
	mov x18, x13
	mov x13, x26
	str w8, [sp, #212]
	ldr w8, [sp, #324]
	mov x26, x23
	str w17, [sp, #360]
	mov w17, w27
	mov x23, xzr
	str w8, [sp, #208]
	ldr w8, [sp, #320]
	mov w27, wzr
	mov w14, wzr
	str x8, [sp, #184]
	ldr w8, [sp, #336]
	str w8, [sp, #204]
	ldr x8, [sp, #384]
	str x8, [sp, #192]
	ldr w8, [sp, #348]
	str w8, [sp, #332]
	ldr w8, [sp, #376]
	str w8, [sp, #324]
	ldr w8, [sp, #340]
	str w8, [sp, #320]
	ldr w8, [sp, #328]
	str w8, [sp, #316]
	ldr w8, [sp, #352]
	str w8, [sp, #336]
	ldr w8, [sp, #392]
	str w8, [sp, #348]
	ldr w8, [sp, #356]
	str w8, [sp, #340]
	ldr w8, [sp, #344]
	str w8, [sp, #328]
	ldr w8, [sp, #364]
	str w8, [sp, #352]
	ldr w8, [sp, #64]
	str w11, [sp, #64]
	str w8, [sp, #356]
	ldr w8, [sp, #96]
	str w8, [sp, #344]
	ldr w8, [sp, #88]
	str wzr, [sp, #88]
	str w8, [sp, #364]
	mov w8, #1
.LBB111_43:
	ldr w10, [sp, #1224]
	ldr x11, [sp, #1216]
	str w10, [sp, #1048]
	ldr w10, [sp, #1208]
	str x11, [sp, #1040]
	ldr x11, [sp, #1200]
	str w10, [sp, #1032]
	ldr w10, [sp, #1192]
	str x11, [sp, #1024]
	ldr x11, [sp, #1184]
	str w10, [sp, #1016]
	ldr w10, [sp, #1176]
	str x11, [sp, #1008]
	ldr x11, [sp, #1168]
	str w10, [sp, #1000]
	ldr w10, [sp, #1160]
	str x11, [sp, #992]
	ldr x11, [sp, #1152]
	str w10, [sp, #984]
	ldr w10, [sp, #1144]
	str x11, [sp, #976]
	ldr x11, [sp, #1136]
	str w10, [sp, #968]
	ldr w10, [sp, #1128]
	str x11, [sp, #960]
	ldr x11, [sp, #1120]
	str w10, [sp, #952]
	ldr w10, [sp, #1112]
	str x11, [sp, #944]
	ldr x11, [sp, #1104]
	str w10, [sp, #936]
	ldr w10, [sp, #1096]
	str x11, [sp, #928]
	ldr x11, [sp, #1088]
	str w10, [sp, #920]
	ldr w10, [sp, #1080]
	str x11, [sp, #912]
	ldr x11, [sp, #1072]
	str w10, [sp, #904]
	ldr w10, [sp, #1064]
	str x11, [sp, #896]
	ldr x11, [sp, #1056]
	str w10, [sp, #888]
	str x11, [sp, #880]
	cbz w8, .LBB111_8
	stp w27, w25, [sp, #8]
	mov w8, w19
	ldr w25, [sp, #236]
	str x26, [sp, #144]
	mov x19, x4
	stp w24, w22, [sp, #152]
	ldp w22, w27, [sp, #220]
	ldp w26, w24, [sp, #228]
	str w0, [sp, #380]
	mov w0, #480
	stp w30, w28, [sp, #136]
	mov x28, x1
	mov w1, #8
	str x23, [sp, #16]
	ldr w23, [sp, #252]
	str x21, [sp, #160]
	ldr x21, [sp, #240]
	str w20, [sp, #376]
	mov w20, w8
	str x18, [sp, #384]
	str w16, [sp, #96]
	str w15, [sp, #392]
	str w14, [sp, #396]
	stp x2, x13, [sp, #112]
	stp w17, w12, [sp, #128]
	stp w3, w5, [sp, #168]
	stp w7, w6, [sp, #176]
	bl tags_library_alloc
	tbz w0, #0, .LBB111_46
	ldr x8, [sp, #24]
	add x9, x1, #284
	add x10, x1, #324
	mov w0, wzr
	str w23, [x1, #120]
	stp x8, x19, [x1]
	ldr x8, [sp, #944]
	str x21, [x1, #136]
	str x8, [x9]
	ldr x8, [sp, #40]
	ldr w9, [sp, #72]
	stp w25, w24, [x1, #144]
	str x8, [x1, #16]
	ldr x8, [sp, #56]
	str w9, [x1, #40]
	ldr w9, [sp, #1048]
	str w8, [x1, #24]
	ldr w8, [sp, #36]
	str w9, [x1, #52]
	ldr w9, [sp, #280]
	str w8, [x1, #28]
	ldr w8, [sp, #108]
	str w9, [x1, #80]
	ldr x9, [sp, #1024]
	str w8, [x1, #32]
	ldr w8, [sp, #84]
	stur x9, [x1, #84]
	ldr x9, [sp, #1008]
	str w8, [x1, #36]
	ldr x8, [sp, #1040]
	stur x9, [x1, #124]
	ldr x9, [sp, #992]
	stur x8, [x1, #44]
	ldr x8, [sp, #304]
	stur x9, [x1, #164]
	str x8, [x1, #56]
	ldr w8, [sp, #300]
	stp w26, w27, [x1, #152]
	stp w28, w8, [x1, #64]
	ldr w8, [sp, #372]
	str w22, [x1, #160]
	str w8, [x1, #72]
	ldr w8, [sp, #284]
	str w8, [x1, #76]
	ldr w8, [sp, #1032]
	str w8, [x1, #92]
	ldr x8, [sp, #288]
	str x8, [x1, #96]
	ldr w8, [sp, #276]
	str w8, [x1, #104]
	ldr w8, [sp, #272]
	str w8, [x1, #108]
	ldr w8, [sp, #268]
	stp w8, w20, [x1, #112]
	ldr w8, [sp, #1016]
	str w8, [x1, #132]
	ldr w8, [sp, #1000]
	str w8, [x1, #172]
	ldr x8, [sp, #256]
	str x8, [x1, #176]
	ldr w8, [sp, #368]
	str w8, [x1, #184]
	ldr w8, [sp, #180]
	str w8, [x1, #188]
	ldr w8, [sp, #176]
	str w8, [x1, #192]
	ldp w9, w8, [sp, #168]
	stp w8, w9, [x1, #196]
	ldr w8, [sp, #984]
	ldr x9, [sp, #976]
	str w8, [x1, #212]
	ldr x8, [sp, #160]
	stur x9, [x1, #204]
	ldr w9, [sp, #216]
	str x8, [x1, #216]
	ldr w8, [sp, #156]
	str w9, [x1, #240]
	ldr x9, [sp, #960]
	str w8, [x1, #224]
	ldr w8, [sp, #152]
	stur x9, [x1, #244]
	str w8, [x1, #228]
	ldr w8, [sp, #140]
	str w8, [x1, #232]
	ldr w8, [sp, #132]
	str w8, [x1, #236]
	ldr w8, [sp, #968]
	str w8, [x1, #252]
	ldr x8, [sp, #112]
	str x8, [x1, #256]
	ldr w8, [sp, #212]
	str w8, [x1, #264]
	ldp w9, w8, [sp, #204]
	str w8, [x1, #268]
	ldr x8, [sp, #184]
	str w9, [x1, #280]
	ldr w9, [sp, #336]
	str w8, [x1, #272]
	ldr w8, [sp, #380]
	str w9, [x1, #320]
	ldr x9, [sp, #928]
	str w8, [x1, #276]
	ldr w8, [sp, #952]
	str x9, [x10]
	ldr w9, [sp, #352]
	add x10, x1, #364
	str w8, [x1, #292]
	ldr x8, [sp, #192]
	str w9, [x1, #360]
	ldr x9, [sp, #912]
	str x8, [x1, #296]
	ldr w8, [sp, #332]
	str x9, [x10]
	ldr w9, [sp, #364]
	add x10, x1, #404
	str w8, [x1, #304]
	ldr w8, [sp, #324]
	str w9, [x1, #400]
	ldr x9, [sp, #896]
	str w8, [x1, #308]
	ldr w8, [sp, #320]
	str x9, [x10]
	ldr w9, [sp, #88]
	add x10, x1, #444
	str w8, [x1, #312]
	ldr w8, [sp, #316]
	str w9, [x1, #440]
	ldr x9, [sp, #880]
	str w8, [x1, #316]
	ldr w8, [sp, #936]
	str x9, [x10]
	ldr x9, [sp]
	str w8, [x1, #332]
	ldr x8, [sp, #384]
	str x8, [x1, #336]
	ldr w8, [sp, #348]
	str w8, [x1, #344]
	ldr w8, [sp, #376]
	str w8, [x1, #348]
	ldr w8, [sp, #340]
	str w8, [x1, #352]
	ldr w8, [sp, #328]
	str w8, [x1, #356]
	ldr w8, [sp, #920]
	str w8, [x1, #372]
	ldr x8, [sp, #120]
	str x8, [x1, #376]
	ldr w8, [sp, #392]
	str w8, [x1, #384]
	ldr w8, [sp, #360]
	str w8, [x1, #388]
	ldr w8, [sp, #356]
	str w8, [x1, #392]
	ldr w8, [sp, #344]
	str w8, [x1, #396]
	ldr w8, [sp, #904]
	str w8, [x1, #412]
	ldr x8, [sp, #144]
	str x8, [x1, #416]
	ldr w8, [sp, #136]
	str w8, [x1, #424]
	ldr w8, [sp, #128]
	str w8, [x1, #428]
	ldr w8, [sp, #64]
	str w8, [x1, #432]
	ldr w8, [sp, #96]
	str w8, [x1, #436]
	ldr w8, [sp, #888]
	str w8, [x1, #452]
	ldr x8, [sp, #16]
	str x8, [x1, #456]
	ldr w8, [sp, #12]
	str w8, [x1, #464]
	ldr w8, [sp, #8]
	str w8, [x1, #468]
	ldr w8, [sp, #52]
	str w8, [x1, #472]
	ldr w8, [sp, #396]
	str w8, [x1, #476]
	mov w8, #1
	stp x8, x1, [x9]
	b .LBB111_9
.LBB111_46:
	ldr x8, [sp, #24]
	ldr x9, [sp, #976]
	add x11, sp, #400
	ldr x10, [sp, #960]
	add x0, sp, #400
	str w28, [sp, #464]
	stp x8, x19, [sp, #400]
	ldr x8, [sp, #992]
	stur x9, [x11, #204]
	ldr x9, [sp, #944]
	stur x8, [x11, #164]
	add x8, sp, #400
	stur x10, [x11, #244]
	add x10, x8, #284
	add x11, sp, #189
	str x9, [x10]
	ldr x9, [sp, #40]
	ldr w10, [sp, #72]
	str w20, [sp, #516]
	str x9, [sp, #416]
	ldr x9, [sp, #56]
	str w10, [sp, #440]
	ldr w10, [sp, #1048]
	str w9, [sp, #424]
	ldr w9, [sp, #36]
	str w10, [sp, #452]
	ldr w10, [sp, #280]
	str w9, [sp, #428]
	ldr w9, [sp, #108]
	str w10, [sp, #480]
	ldr x10, [sp, #1024]
	str w9, [sp, #432]
	ldr w9, [sp, #84]
	str w23, [sp, #520]
	str w9, [sp, #436]
	ldr x9, [sp, #1040]
	str x21, [sp, #536]
	stur x9, [x11, #255]
	ldr x9, [sp, #304]
	ldr w11, [sp, #936]
	str w25, [sp, #544]
	str x9, [sp, #456]
	ldr w9, [sp, #300]
	str w11, [sp, #732]
	ldr w11, [sp, #920]
	str w9, [sp, #468]
	ldr w9, [sp, #372]
	str w11, [sp, #772]
	ldr w11, [sp, #904]
	str w9, [sp, #472]
	ldr w9, [sp, #284]
	str w24, [sp, #548]
	str w9, [sp, #476]
	ldr w9, [sp, #1032]
	str w26, [sp, #552]
	str w9, [sp, #492]
	add x9, sp, #229
	stur x10, [x9, #255]
	ldr x9, [sp, #288]
	ldr x10, [sp, #1008]
	str w27, [sp, #556]
	str x9, [sp, #496]
	ldr w9, [sp, #276]
	str w22, [sp, #560]
	str w9, [sp, #504]
	ldr w9, [sp, #272]
	str w11, [sp, #812]
	str w9, [sp, #508]
	ldr w9, [sp, #268]
	str w9, [sp, #512]
	ldr w9, [sp, #1016]
	str w9, [sp, #532]
	add x9, sp, #269
	stur x10, [x9, #255]
	ldr w9, [sp, #1000]
	str w9, [sp, #572]
	ldr x9, [sp, #256]
	str x9, [sp, #576]
	ldr w9, [sp, #368]
	str w9, [sp, #584]
	ldr w9, [sp, #180]
	str w9, [sp, #588]
	ldr w9, [sp, #176]
	str w9, [sp, #592]
	ldp w10, w9, [sp, #168]
	str w9, [sp, #596]
	ldr w9, [sp, #984]
	str w10, [sp, #600]
	ldr w10, [sp, #216]
	str w9, [sp, #612]
	ldr x9, [sp, #160]
	str w10, [sp, #640]
	str x9, [sp, #616]
	ldr w9, [sp, #156]
	str w9, [sp, #624]
	ldr w9, [sp, #152]
	str w9, [sp, #628]
	ldr w9, [sp, #140]
	str w9, [sp, #632]
	ldr w9, [sp, #132]
	str w9, [sp, #636]
	ldr w9, [sp, #968]
	str w9, [sp, #652]
	ldr x9, [sp, #112]
	str x9, [sp, #656]
	ldr w9, [sp, #212]
	str w9, [sp, #664]
	ldp w10, w9, [sp, #204]
	str w9, [sp, #668]
	ldr x9, [sp, #184]
	str w10, [sp, #680]
	ldr w10, [sp, #336]
	str w9, [sp, #672]
	ldr w9, [sp, #380]
	str w10, [sp, #720]
	add x10, x8, #324
	str w9, [sp, #676]
	ldr w9, [sp, #952]
	str w9, [sp, #692]
	ldr x9, [sp, #192]
	str x9, [sp, #696]
	ldr w9, [sp, #332]
	str w9, [sp, #704]
	ldr w9, [sp, #324]
	str w9, [sp, #708]
	ldr w9, [sp, #320]
	str w9, [sp, #712]
	ldr w9, [sp, #316]
	str w9, [sp, #716]
	ldr x9, [sp, #928]
	str x9, [x10]
	ldr x9, [sp, #384]
	ldr w10, [sp, #352]
	str x9, [sp, #736]
	ldr w9, [sp, #348]
	str w10, [sp, #760]
	add x10, x8, #364
	str w9, [sp, #744]
	ldr w9, [sp, #376]
	str w9, [sp, #748]
	ldr w9, [sp, #340]
	str w9, [sp, #752]
	ldr w9, [sp, #328]
	str w9, [sp, #756]
	ldr x9, [sp, #912]
	str x9, [x10]
	ldr x9, [sp, #120]
	ldr w10, [sp, #364]
	str x9, [sp, #776]
	ldr w9, [sp, #392]
	str w10, [sp, #800]
	add x10, x8, #404
	add x8, x8, #444
	str w9, [sp, #784]
	ldr w9, [sp, #360]
	str w9, [sp, #788]
	ldr w9, [sp, #356]
	str w9, [sp, #792]
	ldr w9, [sp, #344]
	str w9, [sp, #796]
	ldr x9, [sp, #896]
	str x9, [x10]
	ldr x9, [sp, #144]
	ldr w10, [sp, #88]
	str x9, [sp, #816]
	ldr w9, [sp, #136]
	str w10, [sp, #840]
	ldr w10, [sp, #888]
	str w9, [sp, #824]
	ldr w9, [sp, #128]
	str w10, [sp, #852]
	str w9, [sp, #828]
	ldr w9, [sp, #64]
	str w9, [sp, #832]
	ldr w9, [sp, #96]
	str w9, [sp, #836]
	ldr x9, [sp, #880]
	str x9, [x8]
	ldr x8, [sp, #16]
	str x8, [sp, #856]
	ldr w8, [sp, #12]
	str w8, [sp, #864]
	ldr w8, [sp, #8]
	str w8, [sp, #868]
	ldr w8, [sp, #52]
	str w8, [sp, #872]
	ldr w8, [sp, #396]
	str w8, [sp, #876]
	bl tag_c.object.Object.leave
	mov w0, #-21
	b .LBB111_9
.LBB111_47:
	brk #0x1
.Lfunc_end111:
	.size tags_library_join, .Lfunc_end111-tags_library_join
	.section .text.tags_library_listen_on,"ax",@progbits
	.globl tags_library_listen_on
	.p2align 2
	.type tags_library_listen_on,@function
tags_library_listen_on:
	ldr x8, [x0]
	cmp w2, #0
	cset w6, ne
	cmp x8, #1
	b.ne .LBB112_5
	sub sp, sp, #64
	ldr x8, [x0, #8]
	stp x29, x30, [sp, #32]
	add x29, sp, #32
	stp x20, x19, [sp, #48]
	ldrb w9, [x8]
	cmp w9, #2
	b.eq .LBB112_6
	cmp w9, #1
	b.ne .LBB112_10
	mov w0, #-12
.LBB112_4:
	ldp x20, x19, [sp, #48]
	ldp x29, x30, [sp, #32]
	add sp, sp, #64
	ret
.LBB112_5:
	mov w0, #-12
	ret
.LBB112_6:
	movi v0.2d, #0000000000000000
	ldr x9, [x8, #8]
	cmp w1, #0
	mov w19, w1
	cset w5, ne
	mov x0, sp
	add x1, x9, #8
	add x2, x8, #16
	mov x20, x3
	mov w3, wzr
	mov w4, #1
	stp q0, q0, [sp]
	bl tag_c.rounds.caching.make_round_over
	ldrb w11, [sp]
	ldr q0, [sp, #16]
	ldrb w8, [sp, #1]
	ldrb w10, [sp, #4]
	ldr w9, [sp, #8]
	str q0, [x20]
	cbnz w11, .LBB112_11
	cbz w10, .LBB112_15
	cmp w10, #1
	mov w0, w19
	b.eq .LBB112_4
	mov w0, #-10
	ldp x20, x19, [sp, #48]
	ldp x29, x30, [sp, #32]
	add sp, sp, #64
	ret
.LBB112_10:
	movi v0.2d, #0000000000000000
	ldr x9, [x8, #8]
	cmp w1, #0
	mov x20, x3
	mov w19, w1
	cset w5, ne
	mov x0, sp
	add x1, x9, #8
	add x2, x8, #16
	mov w3, wzr
	mov w4, #1
	stp q0, q0, [sp]
	bl tag_c.rounds.bare.make_round
	ldrb w11, [sp]
	ldr q0, [sp, #16]
	ldrb w8, [sp, #1]
	ldrb w10, [sp, #4]
	ldr w9, [sp, #8]
	str q0, [x20]
	cbz w11, .LBB112_12
.LBB112_11:
	adrp x9, .Lswitch.table.tags_library_wait_on_reserved.286
	add x9, x9, :lo12:.Lswitch.table.tags_library_wait_on_reserved.286
	ldr w0, [x9, x8, lsl #2]
	ldp x20, x19, [sp, #48]
	ldp x29, x30, [sp, #32]
	add sp, sp, #64
	ret
.LBB112_12:
	cbz w10, .LBB112_15
	cmp w10, #1
	mov w0, w19
	b.eq .LBB112_4
	mov w0, #-10
	ldp x20, x19, [sp, #48]
	ldp x29, x30, [sp, #32]
	add sp, sp, #64
	ret
.LBB112_15:
	mov w0, w9
	ldp x20, x19, [sp, #48]
	ldp x29, x30, [sp, #32]
	add sp, sp, #64
	ret
.Lfunc_end112:
	.size tags_library_listen_on, .Lfunc_end112-tags_library_listen_on
	.section .text.tags_library_listen_on_reserved,"ax",@progbits
	.globl tags_library_listen_on_reserved
	.p2align 2
	.type tags_library_listen_on_reserved,@function
tags_library_listen_on_reserved:
	ldr x8, [x0]
	cmp w2, #0
	cset w6, ne
	cmp x8, #1
	b.ne .LBB113_5
	sub sp, sp, #64
	ldr x8, [x0, #8]
	stp x29, x30, [sp, #32]
	add x29, sp, #32
	stp x20, x19, [sp, #48]
	ldrb w9, [x8]
	cmp w9, #2
	b.eq .LBB113_6
	cmp w9, #1
	b.ne .LBB113_10
	mov w0, #-12
.LBB113_4:
	ldp x20, x19, [sp, #48]
	ldp x29, x30, [sp, #32]
	add sp, sp, #64
	ret
.LBB113_5:
	mov w0, #-12
	ret
.LBB113_6:
	movi v0.2d, #0000000000000000
	ldr x9, [x8, #8]
	cmp w1, #0
	mov w19, w1
	cset w5, ne
	mov x0, sp
	add x1, x9, #8
	add x2, x8, #16
	mov x20, x3
	mov w3, #1
	mov w4, #1
	stp q0, q0, [sp]
	bl tag_c.rounds.caching.make_round_over
	ldrb w11, [sp]
	ldr q0, [sp, #16]
	ldrb w8, [sp, #1]
	ldrb w10, [sp, #4]
	ldr w9, [sp, #8]
	str q0, [x20]
	cbnz w11, .LBB113_11
	cbz w10, .LBB113_15
	cmp w10, #1
	mov w0, w19
	b.eq .LBB113_4
	mov w0, #-10
	ldp x20, x19, [sp, #48]
	ldp x29, x30, [sp, #32]
	add sp, sp, #64
	ret
.LBB113_10:
	movi v0.2d, #0000000000000000
	ldr x9, [x8, #8]
	cmp w1, #0
	mov x20, x3
	mov w19, w1
	cset w5, ne
	mov x0, sp
	add x1, x9, #8
	add x2, x8, #16
	mov w3, #1
	mov w4, #1
	stp q0, q0, [sp]
	bl tag_c.rounds.bare.make_round
	ldrb w11, [sp]
	ldr q0, [sp, #16]
	ldrb w8, [sp, #1]
	ldrb w10, [sp, #4]
	ldr w9, [sp, #8]
	str q0, [x20]
	cbz w11, .LBB113_12
.LBB113_11:
	adrp x9, .Lswitch.table.tags_library_wait_on_reserved.286
	add x9, x9, :lo12:.Lswitch.table.tags_library_wait_on_reserved.286
	ldr w0, [x9, x8, lsl #2]
	ldp x20, x19, [sp, #48]
	ldp x29, x30, [sp, #32]
	add sp, sp, #64
	ret
.LBB113_12:
	cbz w10, .LBB113_15
	cmp w10, #1
	mov w0, w19
	b.eq .LBB113_4
	mov w0, #-10
	ldp x20, x19, [sp, #48]
	ldp x29, x30, [sp, #32]
	add sp, sp, #64
	ret
.LBB113_15:
	mov w0, w9
	ldp x20, x19, [sp, #48]
	ldp x29, x30, [sp, #32]
	add sp, sp, #64
	ret
.Lfunc_end113:
	.size tags_library_listen_on_reserved, .Lfunc_end113-tags_library_listen_on_reserved
	.section .text.tags_library_wait_on,"ax",@progbits
	.globl tags_library_wait_on
	.p2align 2
	.type tags_library_wait_on,@function
tags_library_wait_on:
	ldr x8, [x0]
	cmp w2, #0
	cset w6, ne
	cmp x8, #1
	b.ne .LBB114_5
	sub sp, sp, #64
	ldr x8, [x0, #8]
	stp x29, x30, [sp, #32]
	add x29, sp, #32
	stp x20, x19, [sp, #48]
	ldrb w9, [x8]
	cmp w9, #2
	b.eq .LBB114_6
	cmp w9, #1
	b.ne .LBB114_10
	mov w0, #-12
.LBB114_4:
	ldp x20, x19, [sp, #48]
	ldp x29, x30, [sp, #32]
	add sp, sp, #64
	ret
.LBB114_5:
	mov w0, #-12
	ret
.LBB114_6:
	movi v0.2d, #0000000000000000
	ldr x9, [x8, #8]
	cmp w1, #0
	mov w19, w1
	cset w5, ne
	mov x0, sp
	add x1, x9, #8
	add x2, x8, #16
	mov x20, x3
	mov w3, wzr
	mov w4, wzr
	stp q0, q0, [sp]
	bl tag_c.rounds.caching.make_round_over
	ldrb w11, [sp]
	ldr q0, [sp, #16]
	ldrb w8, [sp, #1]
	ldrb w10, [sp, #4]
	ldr w9, [sp, #8]
	str q0, [x20]
	cbnz w11, .LBB114_11
	cbz w10, .LBB114_15
	cmp w10, #1
	mov w0, w19
	b.eq .LBB114_4
	mov w0, #-10
	ldp x20, x19, [sp, #48]
	ldp x29, x30, [sp, #32]
	add sp, sp, #64
	ret
.LBB114_10:
	movi v0.2d, #0000000000000000
	ldr x9, [x8, #8]
	cmp w1, #0
	mov x20, x3
	mov w19, w1
	cset w5, ne
	mov x0, sp
	add x1, x9, #8
	add x2, x8, #16
	mov w3, wzr
	mov w4, wzr
	stp q0, q0, [sp]
	bl tag_c.rounds.bare.make_round
	ldrb w11, [sp]
	ldr q0, [sp, #16]
	ldrb w8, [sp, #1]
	ldrb w10, [sp, #4]
	ldr w9, [sp, #8]
	str q0, [x20]
	cbz w11, .LBB114_12
.LBB114_11:
	adrp x9, .Lswitch.table.tags_library_wait_on_reserved.286
	add x9, x9, :lo12:.Lswitch.table.tags_library_wait_on_reserved.286
	ldr w0, [x9, x8, lsl #2]
	ldp x20, x19, [sp, #48]
	ldp x29, x30, [sp, #32]
	add sp, sp, #64
	ret
.LBB114_12:
	cbz w10, .LBB114_15
	cmp w10, #1
	mov w0, w19
	b.eq .LBB114_4
	mov w0, #-10
	ldp x20, x19, [sp, #48]
	ldp x29, x30, [sp, #32]
	add sp, sp, #64
	ret
.LBB114_15:
	mov w0, w9
	ldp x20, x19, [sp, #48]
	ldp x29, x30, [sp, #32]
	add sp, sp, #64
	ret
.Lfunc_end114:
	.size tags_library_wait_on, .Lfunc_end114-tags_library_wait_on
	.section .text.tags_library_wait_on_reserved,"ax",@progbits
	.globl tags_library_wait_on_reserved
	.p2align 2
	.type tags_library_wait_on_reserved,@function
tags_library_wait_on_reserved:
	ldr x8, [x0]
	cmp w2, #0
	cset w6, ne
	cmp x8, #1
	b.ne .LBB115_5
	sub sp, sp, #64
	ldr x8, [x0, #8]
	stp x29, x30, [sp, #32]
	add x29, sp, #32
	stp x20, x19, [sp, #48]
	ldrb w9, [x8]
	cmp w9, #2
	b.eq .LBB115_6
	cmp w9, #1
	b.ne .LBB115_10
	mov w0, #-12
.LBB115_4:
	ldp x20, x19, [sp, #48]
	ldp x29, x30, [sp, #32]
	add sp, sp, #64
	ret
.LBB115_5:
	mov w0, #-12
	ret
.LBB115_6:
	movi v0.2d, #0000000000000000
	ldr x9, [x8, #8]
	cmp w1, #0
	mov w19, w1
	cset w5, ne
	mov x0, sp
	add x1, x9, #8
	add x2, x8, #16
	mov x20, x3
	mov w3, #1
	mov w4, wzr
	stp q0, q0, [sp]
	bl tag_c.rounds.caching.make_round_over
	ldrb w11, [sp]
	ldr q0, [sp, #16]
	ldrb w8, [sp, #1]
	ldrb w10, [sp, #4]
	ldr w9, [sp, #8]
	str q0, [x20]
	cbnz w11, .LBB115_11
	cbz w10, .LBB115_15
	cmp w10, #1
	mov w0, w19
	b.eq .LBB115_4
	mov w0, #-10
	ldp x20, x19, [sp, #48]
	ldp x29, x30, [sp, #32]
	add sp, sp, #64
	ret
.LBB115_10:
	movi v0.2d, #0000000000000000
	ldr x9, [x8, #8]
	cmp w1, #0
	mov x20, x3
	mov w19, w1
	cset w5, ne
	mov x0, sp
	add x1, x9, #8
	add x2, x8, #16
	mov w3, #1
	mov w4, wzr
	stp q0, q0, [sp]
	bl tag_c.rounds.bare.make_round
	ldrb w11, [sp]
	ldr q0, [sp, #16]
	ldrb w8, [sp, #1]
	ldrb w10, [sp, #4]
	ldr w9, [sp, #8]
	str q0, [x20]
	cbz w11, .LBB115_12
.LBB115_11:
	adrp x9, .Lswitch.table.tags_library_wait_on_reserved.286
	add x9, x9, :lo12:.Lswitch.table.tags_library_wait_on_reserved.286
	ldr w0, [x9, x8, lsl #2]
	ldp x20, x19, [sp, #48]
	ldp x29, x30, [sp, #32]
	add sp, sp, #64
	ret
.LBB115_12:
	cbz w10, .LBB115_15
	cmp w10, #1
	mov w0, w19
	b.eq .LBB115_4
	mov w0, #-10
	ldp x20, x19, [sp, #48]
	ldp x29, x30, [sp, #32]
	add sp, sp, #64
	ret
.LBB115_15:
	mov w0, w9
	ldp x20, x19, [sp, #48]
	ldp x29, x30, [sp, #32]
	add sp, sp, #64
	ret
.Lfunc_end115:
	.size tags_library_wait_on_reserved, .Lfunc_end115-tags_library_wait_on_reserved
	.section .text.tags_library_open,"ax",@progbits
	.globl tags_library_open
	.p2align 2
	.type tags_library_open,@function
tags_library_open:
	mov w2, wzr
	mov w3, wzr
	b tag_c.pools.open_into
.Lfunc_end116:
	.size tags_library_open, .Lfunc_end116-tags_library_open
	.section .text.tags_library_open_cached,"ax",@progbits
	.globl tags_library_open_cached
	.p2align 2
	.type tags_library_open_cached,@function
tags_library_open_cached:
	b tag_c.pools.open_into
.Lfunc_end117:
	.size tags_library_open_cached, .Lfunc_end117-tags_library_open_cached
	.section .text.tags_library_resize,"ax",@progbits
	.globl tags_library_resize
	.p2align 2
	.type tags_library_resize,@function
tags_library_resize:
	stp x29, x30, [sp, #-96]!
	stp x28, x27, [sp, #16]
	mov x29, sp
	stp x26, x25, [sp, #32]
	stp x24, x23, [sp, #48]
	stp x22, x21, [sp, #64]
	stp x20, x19, [sp, #80]
	sub sp, sp, #3072
	str xzr, [sp]
	sub sp, sp, #432
	ldr x8, [x0]
	cmp x8, #1
	b.ne .LBB118_4
	ldr x21, [x0, #8]
	ldrb w8, [x21]
	cmp w8, #1
	b.ne .LBB118_4
	mov w8, #10240
	cmp w1, w8
	b.ls .LBB118_6
	mov w8, #-1
	sub w0, w8, #21
	b .LBB118_5
.LBB118_4:
	mov w0, #-12
.LBB118_5:
	add sp, sp, #3504
	ldp x20, x19, [sp, #80]
	ldp x22, x21, [sp, #64]
	ldp x24, x23, [sp, #48]
	ldp x26, x25, [sp, #32]
	ldp x28, x27, [sp, #16]
	ldp x29, x30, [sp], #96
	ret
.LBB118_6:
	ldr x27, [x21, #8]
	ldr w8, [x27, #260]
	cmp w1, w8
	b.hs .LBB118_8
	mov w8, #-2
	sub w0, w8, #21
	b .LBB118_5
.LBB118_8:
	ldp x10, x9, [x21, #16]
	ldr x8, [x21, #32]
	ldar x11, [x27]
	cmp x11, #1
	b.ne .LBB118_18
	ldur q0, [x27, #200]
	ldur q1, [x27, #216]
	add x19, sp, #496
	ldur q2, [x27, #232]
	add x11, sp, #768
	ldur x12, [x27, #248]
	stp q0, q1, [x19, #464]
	ldur q0, [x27, #136]
	add x11, x11, #264
	ldur q1, [x27, #152]
	str q2, [x19, #496]
	add x22, sp, #1056
	ldur q2, [x27, #168]
	ldr x24, [x27, #264]
	add x0, sp, #1056
	stp q0, q1, [x19, #400]
	ldur q0, [x27, #184]
	add x2, sp, #744
	ldur q1, [x27, #72]
	str x10, [sp, #744]
	add x28, sp, #1680
	stp q2, q0, [x19, #432]
	ldur q0, [x27, #88]
	add x20, sp, #1360
	ldur q2, [x27, #104]
	ldr w10, [x27, #256]
	str x9, [sp, #752]
	stp q1, q0, [x19, #336]
	ldur q0, [x27, #120]
	ldur q1, [x27, #8]
	ldr w9, [x27, #260]
	stp x1, xzr, [sp, #464]
	add x1, sp, #768
	stp q2, q0, [x19, #368]
	ldur q0, [x27, #24]
	ldr q2, [x27, #272]
	str x12, [sp, #1008]
	stp q1, q0, [x19, #272]
	ldur q1, [x27, #40]
	ldur q0, [x27, #56]
	str q2, [x11]
	ldr x11, [x27, #288]
	stp q1, q0, [x19, #304]
	movi v0.2d, #0000000000000000
	str x11, [sp, #1048]
	str xzr, [sp, #1344]
	str xzr, [sp, #736]
	stp q0, q0, [x22, #304]
	stp q0, q0, [x22, #336]
	stp q0, q0, [x22, #368]
	stp q0, q0, [x22, #400]
	stp q0, q0, [x22, #432]
	stp q0, q0, [x22, #464]
	stp q0, q0, [x22, #496]
	stp q0, q0, [x22, #528]
	stp q0, q0, [x22, #560]
	stp q0, q0, [x19, #112]
	stp q0, q0, [x19, #144]
	stp q0, q0, [x19, #176]
	stp q0, q0, [x19, #208]
	stp q0, q0, [x19, #560]
	stp q0, q0, [x19, #592]
	stp q0, q0, [x19, #624]
	stp q0, q0, [x19, #656]
	stp q0, q0, [x19, #688]
	stp q0, q0, [x19, #720]
	stp q0, q0, [x19, #752]
	stp q0, q0, [x19, #784]
	stp q0, q0, [x19, #816]
	stp q0, q0, [sp, #512]
	stp q0, q0, [sp, #544]
	stp q0, q0, [sp, #576]
	str q0, [sp, #496]
	stp xzr, xzr, [sp, #480]
	str x8, [sp, #760]
	str w10, [sp, #368]
	str w10, [sp, #1016]
	str w9, [sp, #380]
	str w9, [sp, #1020]
	str x24, [sp, #1024]
	bl tag_c.pool_state.PoolState.part
	ldp q0, q1, [x19, #752]
	ldr q2, [x19, #784]
	ldr x9, [sp, #1296]
	ldr x8, [sp, #464]
	ldr x10, [sp, #1320]
	str q2, [x20, #544]
	ldr x18, [sp, #1328]
	ldr x17, [sp, #1336]
	stp q0, q1, [x20, #512]
	ldr x1, [sp, #1344]
	str x9, [sp, #1920]
	ldp q0, q1, [x19, #688]
	str x10, [sp, #1664]
	stp q0, q1, [x20, #448]
	ldp q2, q0, [x19, #720]
	stp q2, q0, [x20, #480]
	ldp q1, q0, [x19, #624]
	ldr w9, [sp, #1864]
	stp q1, q0, [x20, #384]
	ldp q2, q0, [x19, #656]
	stp q2, q0, [x20, #416]
	ldp q1, q0, [x19, #560]
	ldur q2, [x22, #248]
	stp q1, q0, [x20, #320]
	ldp q0, q1, [x19, #592]
	str q2, [x20, #288]
	ldr x23, [sp, #1648]
	ldr x22, [sp, #1656]
	stp q0, q1, [x20, #352]
	cbz w9, .LBB118_16
	cbz x22, .LBB118_19
	mov w10, wzr
.LBB118_12:
	mov w11, #224
	mov x12, x22
.LBB118_13:
	ldr w13, [x23, x11]
	cmp w13, w10
	b.eq .LBB118_15
	subs x12, x12, #1
	add x11, x11, #424
	b.ne .LBB118_13
	b .LBB118_19
.LBB118_15:
	add w10, w10, #1
	cmp w10, w9
	b.ne .LBB118_12
.LBB118_16:
	ldr w10, [sp, #1904]
	subs w12, w8, w10
	b.hs .LBB118_35
	ldr w9, [sp, #380]
	mov w8, #1
	b .LBB118_20
.LBB118_18:
	stp x27, x10, [x21, #8]
	mov w0, #-15
	stp x9, x8, [x21, #24]
	b .LBB118_5
.LBB118_19:
	ldr w9, [sp, #380]
	mov w8, wzr
.LBB118_20:
	ldr x0, [sp, #1792]
	ldr w10, [sp, #368]
	cmp w8, #1
	ldr w11, [sp, #1680]
	ldr w12, [sp, #1684]
	ldr x13, [sp, #1688]
	str x0, [sp, #424]
	ldr x0, [sp, #1824]
	ldr x14, [sp, #1696]
	ldr x19, [sp, #1704]
	ldr x20, [sp, #1712]
	ldur q1, [x28, #40]
	str x0, [sp, #440]
	ldr x0, [sp, #1832]
	ldr q0, [x28, #64]
	ldr x16, [sp, #1736]
	ldr x15, [sp, #1760]
	ldur q2, [x28, #88]
	str x0, [sp, #400]
	ldr x0, [sp, #1840]
	ldr x2, [sp, #1784]
	ldr x4, [sp, #1800]
	ldr x5, [sp, #1808]
	ldr x6, [sp, #1816]
	str x0, [sp, #448]
	ldr w0, [sp, #1860]
	ldr x7, [sp, #1848]
	ldr w30, [sp, #1856]
	ldr x25, [sp, #1864]
	ldr q3, [x28, #224]
	str w0, [sp, #384]
	ldr x0, [sp, #1872]
	ldr x28, [sp, #1896]
	ldr x3, [sp, #1920]
	ldr x26, [sp, #1664]
	str x0, [sp, #456]
	ldr x0, [sp, #1880]
	str x0, [sp, #432]
	ldr x0, [sp, #1888]
	str x0, [sp, #392]
	b.gt .LBB118_23
	cbnz w8, .LBB118_25
	mov w0, #12
	b .LBB118_27
.LBB118_23:
	cmp w8, #2
	b.ne .LBB118_26
	mov w8, wzr
	mov w0, #13
	b .LBB118_27
.LBB118_25:
	mov w8, #-1
	mov w0, #10
	b .LBB118_27
.LBB118_26:
	mov w8, wzr
	mov w0, #14
.LBB118_27:
	stp w11, w12, [x27, #8]
	ldr x11, [sp, #424]
	cmp w0, #11
	stp x13, x14, [x27, #16]
	stp x2, x11, [x27, #112]
	ldr x11, [sp, #440]
	stp x19, x20, [x27, #32]
	stp x6, x11, [x27, #144]
	ldr x11, [sp, #400]
	str q1, [x27, #48]
	str x11, [x27, #160]
	ldr x11, [sp, #448]
	str x16, [x27, #64]
	stp x11, x7, [x27, #168]
	ldr w11, [sp, #384]
	stur q0, [x27, #72]
	stp w30, w11, [x27, #184]
	ldr x11, [sp, #456]
	str x15, [x27, #88]
	stp x25, x11, [x27, #192]
	ldr x11, [sp, #432]
	str q2, [x27, #96]
	str x11, [x27, #208]
	ldr x11, [sp, #392]
	stp x4, x5, [x27, #128]
	stp x11, x28, [x27, #216]
	stur q3, [x27, #232]
	str x3, [x27, #248]
	str w10, [x27, #256]
	str w9, [x27, #260]
	stp x24, x18, [x27, #264]
	stp x17, x1, [x27, #280]
	stp x27, x23, [x21, #8]
	stp x22, x26, [x21, #24]
	b.le .LBB118_31
	cmp w0, #14
	b.eq .LBB118_33
	cmp w0, #13
	b.ne .LBB118_34
	mov w0, #-29
	b .LBB118_5
.LBB118_31:
	cbz w0, .LBB118_5
	sub w0, w8, #21
	b .LBB118_5
.LBB118_33:
	mov w0, #-30
	b .LBB118_5
.LBB118_34:
	mov w0, #-20
	b .LBB118_5
.LBB118_35:
	ldr w8, [sp, #1860]
	cmp w8, #6
	str w8, [sp, #220]
	b.hi .LBB118_189
	movi v0.2d, #0000000000000000
	str x24, [sp, #336]
	stp q0, q0, [x28, #256]
	stp q0, q0, [x28, #288]
	stp q0, q0, [x28, #320]
	stp q0, q0, [x28, #352]
	stp q0, q0, [x28, #384]
	stp q0, q0, [x28, #416]
	stp q0, q0, [x28, #448]
	stp q0, q0, [x28, #480]
	stp q0, q0, [x28, #512]
	stp q0, q0, [x28, #544]
	stp q0, q0, [x28, #576]
	stp q0, q0, [x28, #608]
	stp q0, q0, [x28, #640]
	stp q0, q0, [x28, #672]
	stp q0, q0, [x28, #704]
	stp q0, q0, [x28, #736]
	stp q0, q0, [x28, #768]
	stp q0, q0, [x28, #800]
	stp q0, q0, [x28, #832]
	stp q0, q0, [x28, #864]
	cbz x22, .LBB118_189
	sub x8, x22, #1
	mov w9, #424
	add x24, sp, #3008
	str x8, [sp, #1656]
	madd x8, x8, x9, x23
	str q0, [x28, #1040]
	str q0, [x28, #1056]
	str q0, [x28, #1072]
	str q0, [x28, #1088]
	ldur q1, [x8, #152]
	ldur q3, [x8, #184]
	ldur q2, [x8, #168]
	add x9, x8, #296
	str q0, [x28, #1104]
	ldr x23, [x8, #24]
	str q1, [x28, #1392]
	ldur q1, [x8, #200]
	ldr w6, [x8, #36]
	str q3, [x28, #1424]
	ldur q3, [x8, #104]
	ldr x0, [x8, #216]
	str q1, [x28, #1440]
	ldur q1, [x8, #120]
	ldr w2, [x8, #224]
	str q2, [x28, #1408]
	ldur q2, [x8, #88]
	ldr x13, [x8, #232]
	str q3, [x28, #1344]
	ldp x30, x26, [x8, #56]
	str q1, [x28, #1360]
	ldp q3, q1, [x9, #32]
	str q2, [x28, #1328]
	ldur q2, [x8, #136]
	ldr w11, [x8, #244]
	str q0, [x28, #1120]
	ldp x7, x22, [x8, #72]
	str q2, [x28, #1376]
	ldp x15, x14, [x8, #248]
	stp q3, q1, [x24, #240]
	ldp q2, q1, [x9]
	str q0, [x28, #1136]
	ldp x16, x3, [x8, #264]
	stp q0, q0, [x28, #896]
	ldp x5, x4, [x8, #280]
	stp q2, q1, [x24, #208]
	ldp q3, q1, [x9, #96]
	stp q0, q0, [x28, #928]
	stp q0, q0, [x28, #960]
	stp q3, q1, [x24, #304]
	ldp q2, q1, [x9, #64]
	ldr w9, [x8]
	stp q0, q0, [x28, #1008]
	str q0, [x28, #992]
	str w9, [sp, #296]
	ldr x9, [x8, #8]
	stp q2, q1, [x24, #272]
	str x9, [sp, #320]
	ldr w9, [x8, #16]
	stp q0, q0, [x24, #336]
	str w9, [sp, #312]
	ldp x9, x25, [x8, #40]
	stp q0, q0, [x24, #368]
	stp q0, q0, [x24, #400]
	stp q0, q0, [x24, #432]
	str x9, [sp, #304]
	ldr x9, [sp, #1680]
	ldar xzr, [x9]
	str w10, [sp, #224]
	str w11, [sp, #456]
	cbz x30, .LBB118_40
	cmp x30, #4
	b.hs .LBB118_41
	mov x8, xzr
	mov x9, xzr
	b .LBB118_44
.LBB118_40:
	mov x8, xzr
	b .LBB118_46
.LBB118_41:
	movi v1.2d, #0000000000000000
	and x9, x30, #0xfffffffffffffffc
	add x8, x25, #16
	and x10, x30, #0xfffffffffffffffc
.LBB118_42:
	ldp q2, q3, [x8, #-16]
	subs x10, x10, #4
	add x8, x8, #32
	cnt v2.16b, v2.16b
	cnt v3.16b, v3.16b
	uaddlp v2.8h, v2.16b
	uaddlp v3.8h, v3.16b
	uaddlp v2.4s, v2.8h
	uaddlp v3.4s, v3.8h
	uadalp v0.2d, v2.4s
	uadalp v1.2d, v3.4s
	b.ne .LBB118_42
	add v0.2d, v1.2d, v0.2d
	cmp x30, x9
	addp d0, v0.2d
	fmov x8, d0
	b.eq .LBB118_46
.LBB118_44:
	add x10, x25, x9, lsl #3
	sub x9, x30, x9
.LBB118_45:
	ldr d0, [x10], #8
	subs x9, x9, #1
	cnt v0.8b, v0.8b
	addv b0, v0.8b
	fmov x11, d0
	add x8, x11, x8
	b.ne .LBB118_45
.LBB118_46:
	ldr q2, [x28, #1424]
	ldr q3, [x28, #1440]
	ldr q6, [x28, #1360]
	ldr q0, [x28, #1392]
	ldr q1, [x28, #1408]
	ldr q4, [x28, #1328]
	stp q2, q3, [x24, #432]
	ldr q5, [x28, #1344]
	ldr x9, [sp, #1792]
	stp q2, q3, [x28, #992]
	ldr q2, [x28, #1376]
	stp q0, q1, [x24, #400]
	stp q4, q5, [x28, #896]
	stp q6, q2, [x28, #928]
	stp q0, q1, [x28, #960]
	ldp q1, q0, [x28, #928]
	stp q4, q5, [x24, #336]
	str q6, [x24, #368]
	str q0, [x28, #1072]
	ldp q2, q0, [x28, #896]
	str q1, [x28, #1056]
	str q0, [x28, #1040]
	ldp q1, q0, [x28, #992]
	str q2, [x28, #1024]
	str q0, [x28, #1136]
	ldp q2, q0, [x28, #960]
	str q1, [x28, #1120]
	str q0, [x28, #1104]
	str q2, [x28, #1088]
	ldar xzr, [x9]
	stp x18, x17, [sp, #352]
	str x1, [sp, #344]
	str x12, [sp, #232]
	stp x0, x15, [sp, #440]
	str w2, [sp, #432]
	str x3, [sp, #424]
	str w6, [sp, #400]
	stp x26, x25, [sp, #384]
	str x30, [sp, #328]
	cbz x16, .LBB118_49
	cmp x16, #4
	b.hs .LBB118_50
	mov x9, xzr
	mov x10, xzr
	b .LBB118_53
.LBB118_49:
	mov x9, xzr
	b .LBB118_55
.LBB118_50:
	movi v0.2d, #0000000000000000
	movi v1.2d, #0000000000000000
	and x10, x16, #0xfffffffffffffffc
	add x9, x14, #16
	and x11, x16, #0xfffffffffffffffc
.LBB118_51:
	ldp q2, q3, [x9, #-16]
	subs x11, x11, #4
	add x9, x9, #32
	cnt v2.16b, v2.16b
	cnt v3.16b, v3.16b
	uaddlp v2.8h, v2.16b
	uaddlp v3.8h, v3.16b
	uaddlp v2.4s, v2.8h
	uaddlp v3.4s, v3.8h
	uadalp v0.2d, v2.4s
	uadalp v1.2d, v3.4s
	b.ne .LBB118_51
	add v0.2d, v1.2d, v0.2d
	cmp x16, x10
	addp d0, v0.2d
	fmov x9, d0
	b.eq .LBB118_55
.LBB118_53:
	add x11, x14, x10, lsl #3
	sub x10, x16, x10
.LBB118_54:
	ldr d0, [x11], #8
	subs x10, x10, #1
	cnt v0.8b, v0.8b
	addv b0, v0.8b
	fmov x12, d0
	add x9, x12, x9
	b.ne .LBB118_54
.LBB118_55:
	ldr q0, [x28, #1088]
	ldr q1, [x28, #1104]
	add x0, sp, #1984
	ldr q2, [x28, #1120]
	add x1, sp, #1680
	add x2, sp, #1936
	stp q0, q1, [x28, #576]
	ldr q0, [x28, #1136]
	ldr q1, [x28, #1024]
	add x3, sp, #1648
	str x7, [sp, #1936]
	lsr x26, x13, #32
	stp q2, q0, [x28, #608]
	ldr q0, [x28, #1040]
	ldr q2, [x28, #1056]
	str x22, [sp, #1944]
	mov x25, x13
	stp q1, q0, [x28, #512]
	ldr q0, [x28, #1072]
	str x8, [sp, #1952]
	stp q2, q0, [x28, #544]
	ldp q2, q1, [x24, #240]
	str x5, [sp, #1960]
	stp x22, x14, [sp, #248]
	lsr x22, x23, #32
	stp q2, q1, [x28, #416]
	ldp q1, q0, [x24, #208]
	str x4, [sp, #1968]
	str x9, [sp, #1976]
	stp q1, q0, [x28, #384]
	ldp q2, q0, [x24, #304]
	stp x16, x5, [sp, #264]
	str x4, [sp, #288]
	stp q2, q0, [x28, #480]
	ldp q1, q0, [x24, #272]
	str x7, [sp, #240]
	stp q1, q0, [x28, #448]
	bl tag_pool.usage.usage_of_rest_i64
	ldp q1, q2, [x28, #576]
	movi v0.2d, #0000000000000000
	ldr x14, [sp, #1680]
	ldr x10, [sp, #2000]
	mov w15, #1
	ldr x11, [sp, #2008]
	ldr x8, [sp, #2016]
	lsl w16, w15, w22
	str q1, [x28, #1392]
	ldr x12, [sp, #2040]
	mov x17, x23
	str q2, [x28, #1408]
	ldp q1, q2, [x28, #608]
	str q0, [x28, #1136]
	add w16, w17, w16
	lsl w15, w15, w26
	str q0, [x28, #1120]
	ldr x13, [sp, #2048]
	sub w16, w16, #1
	str q1, [x28, #1424]
	ldr x9, [sp, #2056]
	lsr w16, w16, w22
	str q2, [x28, #1440]
	ldp q1, q2, [x28, #512]
	str q0, [x28, #1104]
	lsl w16, w16, #4
	add w15, w25, w15
	str q0, [x28, #1088]
	sub w15, w15, #1
	add x10, x12, x10
	str q1, [x28, #1328]
	add w16, w16, #72
	lsr w15, w15, w26
	str q2, [x28, #1344]
	ldp q1, q2, [x28, #544]
	str q0, [x28, #1072]
	lsl w15, w15, #4
	add x11, x13, x11
	str q0, [x28, #1056]
	orr x10, x11, x10
	str q1, [x28, #1360]
	ldp q3, q1, [x28, #416]
	str q2, [x28, #1376]
	add w15, w15, #72
	str q0, [x28, #1040]
	stp q3, q1, [x24, #240]
	ldp q2, q1, [x28, #384]
	str q0, [x28, #1024]
	stp q0, q0, [x24, #336]
	stp q2, q1, [x24, #208]
	ldp q3, q1, [x28, #480]
	stp q0, q0, [x24, #368]
	stp q0, q0, [x24, #400]
	stp q3, q1, [x24, #304]
	ldp q2, q1, [x28, #448]
	stp q0, q0, [x24, #432]
	stp q2, q1, [x24, #272]
	ldar xzr, [x14]
	ldr x14, [sp, #1680]
	ldar xzr, [x14]
	ldr q6, [x28, #1360]
	ldr q7, [x28, #1376]
	ldr q2, [x28, #1440]
	ldr q3, [x28, #1424]
	ldr q0, [x28, #1344]
	ldr q1, [x28, #1328]
	stp q6, q7, [x24, #368]
	ldr q4, [x28, #1408]
	ldr q5, [x28, #1392]
	stp q3, q2, [x24, #432]
	ldr x14, [sp, #1792]
	str q2, [x28, #1136]
	ldr q2, [x24, #384]
	stp q1, q0, [x24, #336]
	stp q5, q4, [x24, #400]
	str q3, [x28, #1120]
	str q4, [x28, #1104]
	str q5, [x28, #1088]
	str q2, [x28, #1072]
	str q6, [x28, #1056]
	str q0, [x28, #1040]
	str q1, [x28, #1024]
	ldar xzr, [x14]
	ldr x14, [sp, #1792]
	ldar xzr, [x14]
	mov w14, #424
	ldr q0, [x28, #1088]
	ldr q1, [x28, #1104]
	ldr q2, [x28, #1120]
	ldr x0, [sp, #1656]
	ldr x23, [sp, #1648]
	ldr w18, [sp, #296]
	stp q0, q1, [x28, #832]
	ldr q0, [x28, #1136]
	ldr q1, [x28, #1024]
	madd x14, x0, x14, x23
	add x22, x0, #1
	stp q2, q0, [x28, #864]
	ldr q0, [x28, #1040]
	ldr q2, [x28, #1056]
	str x22, [sp, #1656]
	stp q1, q0, [x28, #768]
	ldr q0, [x28, #1072]
	stp q2, q0, [x28, #800]
	ldp q2, q1, [x24, #240]
	str w16, [x14, #32]
	ldr w16, [sp, #400]
	str w15, [x14, #240]
	ldr w15, [sp, #456]
	stp q2, q1, [x28, #672]
	ldp q1, q0, [x24, #208]
	str w16, [x14, #36]
	ldr x16, [sp, #304]
	str w15, [x14, #244]
	ldr x15, [sp, #448]
	stp q1, q0, [x28, #640]
	ldp q2, q0, [x24, #304]
	str x16, [x14, #40]
	ldr x16, [sp, #392]
	str x15, [x14, #248]
	ldr x15, [sp, #256]
	stp q2, q0, [x28, #736]
	ldp q1, q0, [x24, #272]
	str x16, [x14, #48]
	ldr x16, [sp, #328]
	str x15, [x14, #256]
	ldr x15, [sp, #264]
	stp q1, q0, [x28, #704]
	ldp q1, q0, [x28, #800]
	str x16, [x14, #56]
	ldr x16, [sp, #384]
	str x15, [x14, #264]
	ldr x15, [sp, #424]
	stur q0, [x14, #136]
	ldp q2, q0, [x28, #768]
	str x16, [x14, #64]
	ldr x16, [sp, #240]
	stur q1, [x14, #120]
	stur q0, [x14, #104]
	ldp q1, q0, [x28, #864]
	str x16, [x14, #72]
	ldr x16, [sp, #248]
	stur q2, [x14, #88]
	stur q0, [x14, #200]
	ldp q2, q0, [x28, #832]
	stp w18, wzr, [x14]
	ldr x18, [sp, #320]
	str x16, [x14, #80]
	ldr x16, [sp, #440]
	str x15, [x14, #272]
	ldr x15, [sp, #272]
	str x18, [x14, #8]
	ldr w18, [sp, #312]
	str x16, [x14, #216]
	ldr w16, [sp, #432]
	str x15, [x14, #280]
	ldr x15, [sp, #288]
	stur q1, [x14, #184]
	stur q0, [x14, #168]
	ldp q1, q0, [x28, #672]
	stp w18, wzr, [x14, #16]
	str x17, [x14, #24]
	stp w16, wzr, [x14, #224]
	str x25, [x14, #232]
	str x15, [x14, #288]
	stur q2, [x14, #152]
	add x14, x14, #296
	stp q1, q0, [x14, #32]
	ldp q2, q0, [x28, #640]
	stp q2, q0, [x14]
	ldp q1, q0, [x28, #736]
	stp q1, q0, [x14, #96]
	ldp q2, q0, [x28, #704]
	stp q2, q0, [x14, #64]
	cbz x10, .LBB118_57
	ldp x24, x1, [sp, #336]
	mov w8, #2
	ldp x18, x17, [sp, #352]
	ldr w9, [sp, #380]
	b .LBB118_20
.LBB118_57:
	ldp x18, x17, [sp, #352]
	ldr x10, [sp, #464]
	ldr x1, [sp, #344]
	cbz x22, .LBB118_67
	orr x8, x9, x8
	mov w11, wzr
	cbz x0, .LBB118_62
	mov w12, wzr
	and x9, x22, #0xfffffffffffffffe
	and x13, x22, #0xfffffffffffffffe
	mov x14, x23
.LBB118_60:
	ldr w15, [x14, #224]
	ldr w16, [x14, #648]
	subs x13, x13, #2
	add x14, x14, #848
	lsr x15, x8, x15
	lsr x16, x8, x16
	and w15, w15, #0x1
	and w16, w16, #0x1
	add w11, w15, w11
	add w12, w16, w12
	b.ne .LBB118_60
	cmp x22, x9
	add w11, w12, w11
	b.ne .LBB118_63
	b .LBB118_65
.LBB118_62:
	mov x9, xzr
.LBB118_63:
	mov w12, #424
	madd x12, x9, x12, x23
	sub x9, x0, x9
	add x9, x9, #1
	add x12, x12, #224
.LBB118_64:
	ldr w13, [x12]
	subs x9, x9, #1
	add x12, x12, #424
	lsr x13, x8, x13
	and w13, w13, #0x1
	add w11, w13, w11
	b.ne .LBB118_64
.LBB118_65:
	cbz w11, .LBB118_67
	ldr x24, [sp, #336]
	ldr w9, [sp, #380]
	mov w8, #3
	b .LBB118_20
.LBB118_67:
	ldr x8, [sp, #1704]
	str x0, [sp, #328]
	ldr x0, [sp, #1824]
	ldr w11, [sp, #1680]
	ldr w12, [sp, #1684]
	ldr x13, [sp, #1688]
	str x8, [sp, #248]
	ldr x8, [sp, #1712]
	ldr x14, [sp, #1696]
	ldur q1, [x28, #40]
	ldr q0, [x28, #64]
	ldr x16, [sp, #1736]
	str x8, [sp, #240]
	ldr x8, [sp, #1792]
	ldr x15, [sp, #1760]
	ldur q2, [x28, #88]
	ldr x2, [sp, #1784]
	ldr x4, [sp, #1800]
	str x8, [sp, #424]
	ldr x8, [sp, #1832]
	ldr x5, [sp, #1808]
	ldr x6, [sp, #1816]
	ldr x7, [sp, #1848]
	ldr w30, [sp, #1856]
	str x8, [sp, #400]
	ldr x8, [sp, #1840]
	ldr x25, [sp, #1864]
	ldr q3, [x28, #224]
	ldr x3, [sp, #1920]
	ldr x26, [sp, #1664]
	str x8, [sp, #448]
	ldr w8, [sp, #1860]
	str xzr, [sp, #1952]
	str w8, [sp, #384]
	ldr x8, [sp, #1872]
	str xzr, [sp, #1936]
	str x8, [sp, #456]
	ldr x8, [sp, #1880]
	str xzr, [sp, #1944]
	stp x8, x0, [sp, #432]
	ldr x8, [sp, #1888]
	str xzr, [sp, #3000]
	str x8, [sp, #392]
	ldr x8, [sp, #1896]
	str xzr, [sp, #2984]
	str xzr, [sp, #2992]
	str xzr, [sp, #2960]
	str xzr, [sp, #2976]
	str xzr, [sp, #2968]
	str xzr, [sp, #2936]
	str xzr, [sp, #2952]
	str xzr, [sp, #2944]
	str xzr, [sp, #2912]
	str xzr, [sp, #2928]
	str xzr, [sp, #2920]
	str xzr, [sp, #2896]
	str xzr, [sp, #2888]
	str xzr, [sp, #2904]
	str xzr, [sp, #2872]
	str xzr, [sp, #2864]
	str xzr, [sp, #2880]
	str xzr, [sp, #2848]
	stp x4, x8, [sp, #312]
	str xzr, [sp, #2840]
	str xzr, [sp, #2856]
	stp x6, x5, [sp, #296]
	str x7, [sp, #288]
	str w30, [sp, #272]
	cbz x22, .LBB118_75
	mov x8, #-6148914691236517206
	movk x8, #170, lsl #48
	cmp x22, x8
	b.hi .LBB118_88
	add x8, x22, x22, lsl #1
	mov w1, #8
	stp w12, w11, [sp, #168]
	stp x14, x13, [sp, #152]
	lsl x0, x8, #6
	str q0, [sp, #128]
	str q1, [sp, #176]
	stp x16, x15, [sp, #112]
	str x2, [sp, #104]
	stp q3, q2, [sp, #64]
	str x3, [sp, #200]
	bl tags_library_alloc
	ldp x7, x6, [sp, #288]
	ldr w30, [sp, #272]
	ldp x5, x4, [sp, #304]
	ldr x3, [sp, #200]
	ldr x15, [sp, #120]
	ldr q1, [sp, #176]
	ldr q0, [sp, #128]
	str x1, [sp, #264]
	ldr x1, [sp, #344]
	ldp q3, q2, [sp, #64]
	ldp x2, x16, [sp, #104]
	ldp x14, x13, [sp, #152]
	ldp w12, w11, [sp, #168]
	ldp x18, x17, [sp, #352]
	tbz w0, #0, .LBB118_88
	mov x8, #56496
	movk x8, #2259, lsl #16
	movk x8, #15819, lsl #32
	movk x8, #141, lsl #48
	cmp x22, x8
	b.hi .LBB118_87
	mov w8, #232
	mov w1, #8
	mul x0, x22, x8
	bl tags_library_alloc
	str x1, [sp, #40]
	tbz w0, #0, .LBB118_87
	mov x8, #58116
	movk x8, #60589, lsl #16
	movk x8, #18547, lsl #32
	movk x8, #77, lsl #48
	cmp x22, x8
	b.hi .LBB118_86
	mov w8, #424
	mov w1, #8
	mul x0, x22, x8
	bl tags_library_alloc
	str x1, [sp, #32]
	tbz w0, #0, .LBB118_86
	ldp w12, w11, [sp, #168]
	ldp x14, x13, [sp, #152]
	ldr x10, [sp, #464]
	ldp x16, x15, [sp, #112]
	ldr q0, [sp, #128]
	ldr q1, [sp, #176]
	ldr x2, [sp, #104]
	ldr x3, [sp, #200]
	ldr w30, [sp, #272]
	ldr x0, [sp, #440]
	ldr x18, [sp, #264]
	ldp q3, q2, [sp, #64]
	ldp x5, x4, [sp, #304]
	ldp x7, x6, [sp, #288]
	b .LBB118_76
.LBB118_75:
	sub x8, x29, #24
	sub x18, x29, #24
	stp x8, x8, [sp, #32]
.LBB118_76:
	ldr w8, [sp, #224]
	stp w12, w11, [sp, #168]
	stp x14, x13, [sp, #152]
	cmp w10, w8
	str q0, [sp, #128]
	str q1, [sp, #176]
	stp x16, x15, [sp, #112]
	str x2, [sp, #104]
	stp q3, q2, [sp, #64]
	str x3, [sp, #200]
	str x18, [sp, #264]
	b.ne .LBB118_78
	sub x8, x29, #24
	str xzr, [sp, #224]
	str x8, [sp, #48]
	b .LBB118_95
.LBB118_78:
	ldr x8, [sp, #232]
	mov w1, #8
	lsl x0, x8, #3
	bl tags_library_alloc
	str x1, [sp, #48]
	tbz w0, #0, .LBB118_82
	ldr x8, [sp, #232]
	cmp w8, #1
	b.ne .LBB118_84
	mov x8, xzr
.LBB118_81:
	ldr x3, [sp, #200]
	b .LBB118_94
.LBB118_82:
	ldp x18, x17, [sp, #352]
	ldr x1, [sp, #344]
	ldp w12, w11, [sp, #168]
	ldp x14, x13, [sp, #152]
	ldr q0, [sp, #128]
	ldr q1, [sp, #176]
	ldr x2, [sp, #104]
	ldr x3, [sp, #200]
	ldr w30, [sp, #272]
	ldp x16, x15, [sp, #112]
	ldp q3, q2, [sp, #64]
	ldp x5, x4, [sp, #304]
	ldp x7, x6, [sp, #288]
	cbz x22, .LBB118_88
	ldr x0, [sp, #32]
	bl tags_library_dealloc
	ldr x0, [sp, #40]
	bl tags_library_dealloc
	ldr x0, [sp, #264]
	bl tags_library_dealloc
	ldp x7, x6, [sp, #288]
	ldr w30, [sp, #272]
	ldp x5, x4, [sp, #304]
	ldr x3, [sp, #200]
	ldr x15, [sp, #120]
	ldr q1, [sp, #176]
	ldr q0, [sp, #128]
	ldr x17, [sp, #360]
	ldp q3, q2, [sp, #64]
	ldp x2, x16, [sp, #104]
	ldp x14, x13, [sp, #152]
	ldp w12, w11, [sp, #168]
	ldp x1, x18, [sp, #344]
	b .LBB118_88
.LBB118_84:
	ldr x8, [sp, #232]
	cmp w8, #5
	sub x8, x8, #1
	b.hs .LBB118_89
	mov x9, xzr
	b .LBB118_92
.LBB118_86:
	ldr x0, [sp, #40]
	bl tags_library_dealloc
.LBB118_87:
	ldr x0, [sp, #264]
	bl tags_library_dealloc
	ldp x18, x17, [sp, #352]
	ldr x1, [sp, #344]
	ldp w12, w11, [sp, #168]
	ldp x14, x13, [sp, #152]
	ldr q0, [sp, #128]
	ldr q1, [sp, #176]
	ldr x2, [sp, #104]
	ldr x3, [sp, #200]
	ldr w30, [sp, #272]
	ldp x16, x15, [sp, #112]
	ldp q3, q2, [sp, #64]
	ldp x5, x4, [sp, #304]
	ldp x7, x6, [sp, #288]
.LBB118_88:
	ldp x20, x19, [sp, #240]
	mov w8, wzr
	ldr x24, [sp, #336]
	ldr w9, [sp, #380]
	mov w0, #10
	ldr w10, [sp, #368]
	ldr x28, [sp, #320]
	b .LBB118_27
.LBB118_89:
	ldr x9, [sp, #200]
	ldr x10, [sp, #48]
	and x11, x8, #0xfffffffffffffffc
	dup v0.2d, x9
	and x9, x8, #0xfffffffffffffffc
	add x10, x10, #16
.LBB118_90:
	subs x11, x11, #4
	stp q0, q0, [x10, #-16]
	add x10, x10, #32
	b.ne .LBB118_90
	cmp x8, x9
	b.eq .LBB118_81
.LBB118_92:
	ldr x11, [sp, #48]
	mvn x10, x9
	ldr x3, [sp, #200]
	add x9, x11, x9, lsl #3
	ldr x11, [sp, #232]
	add x10, x10, x11
.LBB118_93:
	subs x10, x10, #1
	str x3, [x9], #8
	b.ne .LBB118_93
.LBB118_94:
	ldr x9, [sp, #48]
	ldp x5, x4, [sp, #304]
	ldp x7, x6, [sp, #288]
	ldr w30, [sp, #272]
	ldr x18, [sp, #264]
	str x3, [x9, x8, lsl #3]
	add x8, x8, #1
	ldr x0, [sp, #440]
	str x8, [sp, #224]
.LBB118_95:
	cbz x22, .LBB118_98
	ldr x9, [sp, #40]
	ldr x11, [sp, #328]
	add x8, x23, #232
	mov x10, x18
	add x9, x9, #228
	add x11, x11, #1
.LBB118_97:
	ldp q0, q1, [x8, #-80]
	subs x11, x11, #1
	ldp q4, q5, [x8, #160]
	ldur w14, [x8, #-232]
	ldp q6, q7, [x8, #64]
	ldur x13, [x8, #-16]
	str q0, [x28, #1472]
	ldur w12, [x8, #-8]
	str q1, [x28, #1488]
	ldp q2, q0, [x8, #-48]
	ldp q16, q17, [x8, #96]
	ldp q18, q19, [x8, #128]
	str q0, [x28, #1520]
	ldp q1, q0, [x8, #-144]
	str q2, [x28, #1504]
	str q1, [x28, #1408]
	ldp q1, q3, [x8, #-112]
	str q0, [x28, #1424]
	str q1, [x28, #1440]
	ldp q0, q1, [x8, #-208]
	str q3, [x28, #1456]
	ldur q3, [x8, #-224]
	str q0, [x28, #1344]
	ldp q0, q2, [x8, #-176]
	str q1, [x28, #1360]
	str q3, [x28, #1328]
	str q0, [x28, #1376]
	ldp q0, q1, [x8]
	str q2, [x28, #1392]
	ldp q2, q3, [x8, #32]
	stp q6, q7, [x10, #64]
	add x8, x8, #424
	stp q16, q17, [x10, #96]
	stp q2, q3, [x10, #32]
	stp q18, q19, [x10, #128]
	stp q4, q5, [x10, #160]
	stp q0, q1, [x10], #192
	stp w14, wzr, [x9, #-228]
	ldr q0, [x28, #1328]
	stur q0, [x9, #-220]
	ldr q0, [x28, #1392]
	ldr q1, [x28, #1376]
	ldr q2, [x28, #1344]
	ldr q3, [x28, #1360]
	stur q0, [x9, #-156]
	stur q1, [x9, #-172]
	stur q3, [x9, #-188]
	stur q2, [x9, #-204]
	ldr q0, [x28, #1456]
	ldr q1, [x28, #1440]
	ldr q2, [x28, #1408]
	ldr q3, [x28, #1424]
	stur q0, [x9, #-92]
	stur q1, [x9, #-108]
	stur q3, [x9, #-124]
	stur q2, [x9, #-140]
	ldr q0, [x28, #1520]
	ldr q1, [x28, #1504]
	ldr q2, [x28, #1472]
	ldr q3, [x28, #1488]
	stur x13, [x9, #-12]
	stur q0, [x9, #-28]
	stur q1, [x9, #-44]
	stur q3, [x9, #-60]
	stur q2, [x9, #-76]
	stp w12, wzr, [x9, #-4]
	add x9, x9, #232
	b.ne .LBB118_97
.LBB118_98:
	cbz x26, .LBB118_100
	mov x0, x23
	bl tags_library_dealloc
	ldp x7, x6, [sp, #288]
	ldr x18, [sp, #264]
	ldp x5, x4, [sp, #304]
	ldr x0, [sp, #440]
	ldr w30, [sp, #272]
.LBB118_100:
	ldr w8, [sp, #384]
	movi v0.2d, #0000000000000000
	ldp x13, x23, [sp, #424]
	str w8, [sp, #2772]
	ldp x12, x8, [sp, #448]
	str xzr, [sp, #2080]
	str x8, [sp, #2784]
	ldp x8, x14, [sp, #392]
	stp q0, q0, [x28, #896]
	str x8, [sp, #2800]
	ldp x8, x17, [sp, #320]
	stp q0, q0, [x28, #928]
	str xzr, [sp, #2064]
	str xzr, [sp, #2072]
	str xzr, [sp, #2000]
	str xzr, [sp, #1984]
	str xzr, [sp, #1992]
	str x13, [sp, #2704]
	str x4, [sp, #2712]
	str x5, [sp, #2720]
	str x6, [sp, #2728]
	str x0, [sp, #2736]
	str x14, [sp, #2744]
	str x12, [sp, #2752]
	str x7, [sp, #2760]
	str w30, [sp, #2768]
	str x25, [sp, #2776]
	str x23, [sp, #2792]
	str x8, [sp, #2808]
	str x18, [sp, #2192]
	str x22, [sp, #2208]
	cbz w25, .LBB118_108
	cbz x22, .LBB118_107
	mov w8, wzr
	b .LBB118_104
.LBB118_103:
	add w8, w8, #1
	cmp w8, w25
	b.eq .LBB118_108
.LBB118_104:
	add x9, x18, #12
	add x10, x17, #1
.LBB118_105:
	ldr w11, [x9], #192
	cmp w11, w8
	b.eq .LBB118_103
	subs x10, x10, #1
	b.ne .LBB118_105
.LBB118_107:
	str x0, [sp, #2608]
	add x0, sp, #2576
	mov x19, x18
	str x13, [sp, #2576]
	str x4, [sp, #2584]
	str x5, [sp, #2592]
	str x6, [sp, #2600]
	str x14, [sp, #2616]
	str x12, [sp, #2624]
	str x7, [sp, #2632]
	bl atomic_table.owned.Table.drop__be83c7674c75c4c1
	ldr x8, [sp, #392]
	add x0, sp, #2064
	str x23, [sp, #2064]
	str x8, [sp, #2072]
	ldr x8, [sp, #320]
	str x8, [sp, #2080]
	bl std_alloc.vec.Vec.drop__a45941d93199a7b0
	add x0, sp, #1984
	str x19, [sp, #1984]
	str x22, [sp, #1992]
	str x22, [sp, #2000]
	bl std_alloc.vec.Vec.drop__03ae1f740aa33a8c
	brk #0x1
.LBB118_108:
	stp q0, q0, [x24, #208]
	stp q0, q0, [x24, #240]
	stp q0, q0, [x24, #272]
	stp q0, q0, [x24, #304]
	stp q0, q0, [x24, #336]
	stp q0, q0, [x24, #368]
	stp q0, q0, [x24, #400]
	stp q0, q0, [x24, #432]
	stp q0, q0, [x28, #768]
	str xzr, [sp, #2328]
	str xzr, [sp, #2320]
	str xzr, [sp, #2336]
	cbz x22, .LBB118_189
	mov w8, #192
	str x17, [sp, #2200]
	madd x8, x17, x8, x18
	ldp q0, q1, [x8, #128]
	ldr x23, [x8]
	ldr w11, [x8, #12]
	ldp x18, x17, [x8, #16]
	ldp x26, x0, [x8, #32]
	str q0, [x28, #1392]
	ldp x12, x14, [x8, #48]
	str q1, [x28, #1408]
	ldp q0, q1, [x8, #160]
	str q0, [x28, #1424]
	str q1, [x28, #1440]
	ldp q0, q1, [x8, #64]
	str q0, [x28, #1328]
	str q1, [x28, #1344]
	ldp q0, q1, [x8, #96]
	str q0, [x28, #1360]
	str q1, [x28, #1376]
	ldar xzr, [x13]
	str w11, [sp, #456]
	stp x0, x18, [sp, #440]
	cbz x26, .LBB118_112
	cmp x26, #4
	b.hs .LBB118_113
	mov x8, xzr
	mov x9, xzr
	b .LBB118_116
.LBB118_112:
	mov x8, xzr
	b .LBB118_118
.LBB118_113:
	movi v0.2d, #0000000000000000
	movi v1.2d, #0000000000000000
	and x9, x26, #0xfffffffffffffffc
	add x8, x17, #16
	and x10, x26, #0xfffffffffffffffc
.LBB118_114:
	ldp q2, q3, [x8, #-16]
	subs x10, x10, #4
	add x8, x8, #32
	cnt v2.16b, v2.16b
	cnt v3.16b, v3.16b
	uaddlp v2.8h, v2.16b
	uaddlp v3.8h, v3.16b
	uaddlp v2.4s, v2.8h
	uaddlp v3.4s, v3.8h
	uadalp v0.2d, v2.4s
	uadalp v1.2d, v3.4s
	b.ne .LBB118_114
	add v0.2d, v1.2d, v0.2d
	cmp x26, x9
	addp d0, v0.2d
	fmov x8, d0
	b.eq .LBB118_118
.LBB118_116:
	add x10, x17, x9, lsl #3
	sub x9, x26, x9
.LBB118_117:
	ldr d0, [x10], #8
	subs x9, x9, #1
	cnt v0.8b, v0.8b
	addv b0, v0.8b
	fmov x11, d0
	add x8, x11, x8
	b.ne .LBB118_117
.LBB118_118:
	ldr q0, [x28, #1392]
	ldr q1, [x28, #1408]
	add x0, sp, #2448
	ldr q2, [x28, #1424]
	add x1, sp, #2704
	add x2, sp, #2320
	stp q0, q1, [x24, #272]
	ldr q0, [x28, #1440]
	ldr q1, [x28, #1328]
	add x3, sp, #2192
	str x12, [sp, #2320]
	lsr x25, x23, #32
	stp q2, q0, [x24, #304]
	ldr q0, [x28, #1344]
	ldr q2, [x28, #1360]
	str x14, [sp, #2328]
	stp q1, q0, [x24, #208]
	ldr q0, [x28, #1376]
	str x8, [sp, #2336]
	stp q2, q0, [x24, #240]
	stp x12, x14, [sp, #424]
	str x17, [sp, #400]
	bl tag_core.settles.settle_rest_i64
	ldp q0, q1, [x24, #272]
	mov w10, #192
	ldr x8, [sp, #2704]
	str q0, [x28, #1392]
	ldp q0, q2, [x24, #304]
	str q1, [x28, #1408]
	str q0, [x28, #1424]
	ldp q0, q1, [x24, #208]
	str q2, [x28, #1440]
	str q0, [x28, #1328]
	str q1, [x28, #1344]
	ldp q0, q1, [x24, #240]
	str q0, [x28, #1360]
	str q1, [x28, #1376]
	ldar xzr, [x8]
	mov w8, #1
	ldr x9, [sp, #2704]
	ldar xzr, [x9]
	lsl w9, w8, w25
	ldr q0, [x28, #1392]
	ldr q1, [x28, #1408]
	ldr q2, [x28, #1424]
	add w9, w23, w9
	ldr x12, [sp, #2192]
	ldr x13, [sp, #2752]
	sub w11, w9, #1
	ldr x9, [sp, #2200]
	stp q0, q1, [x24, #400]
	ldr q0, [x28, #1440]
	lsr w11, w11, w25
	ldr q1, [x28, #1328]
	madd x10, x9, x10, x12
	ldr x14, [sp, #2784]
	str x12, [sp, #256]
	stp q2, q0, [x24, #432]
	ldr q0, [x28, #1344]
	lsl w11, w11, #4
	ldr q2, [x28, #1360]
	ldr x12, [sp, #2736]
	ldr w16, [sp, #2780]
	stp q1, q0, [x24, #336]
	ldr q0, [x28, #1376]
	add w11, w11, #72
	ldr x15, [sp, #2208]
	add x9, x9, #1
	str xzr, [sp, #3120]
	stp q2, q0, [x24, #368]
	ldp q0, q1, [x24, #400]
	str w11, [x10, #8]
	ldr w11, [sp, #456]
	str x23, [x10]
	ldr w23, [sp, #2776]
	str w11, [x10, #12]
	ldr x11, [sp, #448]
	stp q0, q1, [x10, #128]
	ldp q2, q0, [x24, #432]
	str x11, [x10, #16]
	ldr x11, [sp, #400]
	stp x13, x14, [sp, #448]
	ldr x14, [sp, #2792]
	stp x11, x26, [x10, #24]
	ldr x11, [sp, #440]
	stp q2, q0, [x10, #160]
	ldp q1, q0, [x24, #336]
	str x11, [x10, #40]
	ldr x11, [sp, #424]
	str xzr, [sp, #2720]
	stp q1, q0, [x10, #64]
	ldp q2, q0, [x24, #368]
	str x11, [x10, #48]
	ldr x11, [sp, #432]
	str xzr, [sp, #2712]
	str x11, [x10, #56]
	stp q2, q0, [x10, #96]
	ldr x10, [sp, #48]
	movi v0.2d, #0000000000000000
	stp x15, x23, [sp, #16]
	str x10, [sp, #3216]
	ldp x10, x11, [sp, #224]
	stur xzr, [x29, #-144]
	str q0, [x28, #1328]
	str x10, [sp, #3224]
	ldr x10, [sp, #2704]
	str x11, [sp, #3232]
	str x10, [sp, #424]
	ldr x10, [sp, #2744]
	str q0, [x28, #1344]
	str x10, [sp, #400]
	sub x10, x29, #24
	stp x10, xzr, [x29, #-160]
	ldr x10, [sp, #2808]
	str q0, [x28, #1360]
	str q0, [x28, #1376]
	str q0, [x28, #1392]
	str q0, [x28, #1408]
	str q0, [x28, #1424]
	str xzr, [sp, #2704]
	str x9, [sp, #264]
	stp x14, x12, [sp, #432]
	str x10, [sp, #320]
	str x16, [sp, #8]
	cbz w23, .LBB118_126
	ldr w9, [sp, #220]
	mov x25, xzr
	lsl w8, w8, w9
	add w8, w11, w8
	sub w8, w8, #1
	lsr w10, w8, w9
	add x9, x10, #16
	add x8, x10, #16
	str x8, [sp, #56]
	lsl x8, x9, #3
	str x8, [sp, #328]
	cbz w10, .LBB118_164
	lsl x8, x10, #3
	sub x26, x29, #24
	str x10, [sp, #208]
	str x8, [sp, #224]
.LBB118_121:
	ldr x0, [sp, #328]
	mov w1, #8
	bl tags_library_alloc
	tbz w0, #0, .LBB118_170
	ldr x2, [sp, #224]
	mov x28, x1
	mov x0, x1
	mov w1, wzr
	bl memset
	ldur x8, [x29, #-144]
	cmp x8, x25
	b.eq .LBB118_124
.LBB118_123:
	mov w8, #24
	ldr x9, [sp, #208]
	subs x23, x23, #1
	madd x8, x25, x8, x26
	add x25, x25, #1
	stp x28, x9, [x8]
	add x9, x9, #16
	str x9, [x8, #16]
	stur x25, [x29, #-152]
	b.ne .LBB118_121
	b .LBB118_127
.LBB118_124:
	sub x0, x29, #160
	bl std_alloc.vec.Vec.grow_amortized__e69b1d9fa94cf777
	cbz w0, .LBB118_183
	ldp x26, x25, [x29, #-160]
	b .LBB118_123
.LBB118_126:
	mov x25, xzr
.LBB118_127:
	ldr x8, [sp, #232]
	ldur x23, [x29, #-144]
	add x0, sp, #3008
	add x1, sp, #2704
	add x2, sp, #3216
	str wzr, [sp, #2716]
	str w8, [sp, #2704]
	ldr w8, [sp, #220]
	str w8, [sp, #2708]
	ldr x8, [sp, #24]
	str w8, [sp, #2712]
	ldur x8, [x29, #-160]
	str x8, [sp, #328]
	ldr x8, [sp, #456]
	str x8, [sp, #2720]
	bl tag_core.opens.new_map_i64_tag_pool.Destruct_none_i64
	ldrb w8, [sp, #3008]
	cbz w8, .LBB118_136
	ldr x24, [sp, #336]
	ldr x20, [sp, #240]
	cbz x25, .LBB118_133
	ldr x8, [sp, #328]
	add x19, x8, #16
	b .LBB118_131
.LBB118_130:
	subs x25, x25, #1
	add x19, x19, #24
	b.eq .LBB118_133
.LBB118_131:
	ldr x8, [x19]
	cbz x8, .LBB118_130
	ldur x0, [x19, #-16]
	bl tags_library_dealloc
	b .LBB118_130
.LBB118_133:
	cbz x23, .LBB118_135
	ldr x0, [sp, #328]
	bl tags_library_dealloc
.LBB118_135:
	ldr x8, [sp, #3016]
	ldr x26, [sp, #3032]
	ldr x19, [sp, #248]
	ldr x28, [sp, #320]
	str x8, [sp, #48]
	b .LBB118_180
.LBB118_136:
	ldr x9, [sp, #3096]
	ldr x8, [sp, #3064]
	ldur q0, [x24, #8]
	str x9, [sp, #368]
	ldr x9, [sp, #3104]
	str x8, [sp, #392]
	ldr x8, [sp, #3072]
	str x9, [sp, #312]
	ldr x9, [sp, #3112]
	str x8, [sp, #384]
	ldr x8, [sp, #3080]
	str x9, [sp, #304]
	ldr x9, [sp, #3120]
	str x8, [sp, #456]
	ldr x8, [sp, #3088]
	str x9, [sp, #296]
	ldr x9, [sp, #3056]
	str q0, [sp, #400]
	ldr q0, [x24, #32]
	str x9, [sp, #288]
	ldr x9, [sp, #3032]
	str q0, [sp, #272]
	stp x23, x9, [sp, #224]
	str x8, [sp, #424]
	cbz w8, .LBB118_146
	ldr x8, [sp, #264]
	cbz x8, .LBB118_189
	ldr x10, [sp, #456]
	mov w9, #1
	ldr q0, [sp, #400]
	mov w26, wzr
	lsr x8, x10, #32
	fmov x23, d0
	lsl w9, w9, w8
	add w9, w10, w9
	sub w9, w9, #1
	lsr w8, w9, w8
	lsl w8, w8, #4
	add w28, w8, #72
	b .LBB118_140
.LBB118_139:
	ldr x8, [sp, #424]
	add w26, w26, #1
	cmp w26, w8
	b.eq .LBB118_146
.LBB118_140:
	ldp x8, x9, [sp, #256]
	add x8, x8, #24
.LBB118_141:
	ldur w10, [x8, #-12]
	cmp w10, w26
	b.eq .LBB118_143
	subs x9, x9, #1
	add x8, x8, #192
	b.ne .LBB118_141
	b .LBB118_189
.LBB118_143:
	cbz x25, .LBB118_189
	sub x25, x25, #1
	mov w9, #24
	ldr x10, [sp, #328]
	madd x9, x25, x9, x10
	ldr q0, [x9]
	ldr x9, [x9, #16]
	str q0, [x24, #336]
	stur x9, [x29, #-144]
	ldar xzr, [x23]
	stur w28, [x8, #-16]
	ldr x9, [sp, #456]
	ldr q0, [x24, #336]
	ldur x10, [x29, #-144]
	ldr x0, [x8]
	stur x9, [x8, #-24]
	ldr x9, [x8, #16]
	str q0, [x8]
	str x10, [x8, #16]
	cbz x9, .LBB118_139
	bl tags_library_dealloc
	b .LBB118_139
.LBB118_146:
	cbz x25, .LBB118_151
	ldr x8, [sp, #328]
	add x23, x8, #16
	b .LBB118_149
.LBB118_148:
	subs x25, x25, #1
	add x23, x23, #24
	b.eq .LBB118_151
.LBB118_149:
	ldr x8, [x23]
	cbz x8, .LBB118_148
	ldur x0, [x23, #-16]
	bl tags_library_dealloc
	b .LBB118_148
.LBB118_151:
	ldr x8, [sp, #224]
	cbz x8, .LBB118_153
	ldr x0, [sp, #328]
	bl tags_library_dealloc
.LBB118_153:
	ldr x0, [sp, #440]
	bl tags_library_dealloc
	ldr x0, [sp, #448]
	bl tags_library_dealloc
	ldr x8, [sp, #320]
	cbz x8, .LBB118_155
	ldr x0, [sp, #432]
	bl tags_library_dealloc
.LBB118_155:
	ldr x8, [sp, #256]
	ldr q0, [sp, #64]
	add x0, sp, #1936
	add x1, sp, #2984
	add x2, sp, #2960
	add x3, sp, #2936
	str x8, [sp, #2984]
	ldr x8, [sp, #264]
	fmov w9, s0
	str x22, [sp, #2968]
	str x8, [sp, #2992]
	ldr x8, [sp, #16]
	str x22, [sp, #2976]
	str x8, [sp, #3000]
	ldr x8, [sp, #40]
	str xzr, [sp, #2944]
	str x8, [sp, #2960]
	mov w8, v0.s[2]
	ldr q0, [sp, #176]
	str x22, [sp, #2952]
	str x8, [sp, #440]
	ldr x8, [sp, #32]
	str x8, [sp, #2936]
	ldr x8, [sp, #464]
	orr x8, x9, x8, lsl #32
	str x8, [sp, #328]
	fmov x8, d0
	str x8, [sp, #320]
	bl tag_pool.resizes.shells.unite_i64
	ldr x8, [sp, #336]
	ldr x23, [sp, #1936]
	ldr x22, [sp, #1944]
	ldr x26, [sp, #1952]
	ldr x6, [sp, #360]
	lsr x8, x8, #32
	str x8, [sp, #432]
	cbz x6, .LBB118_163
	ldr x28, [sp, #352]
	mov x24, x6
	b .LBB118_158
.LBB118_157:
	subs x24, x24, #1
	add x28, x28, #440
	b.eq .LBB118_163
.LBB118_158:
	ldrb w8, [x28, #8]
	cbz w8, .LBB118_157
	ldr x8, [x28, #80]
	ldr x0, [x28, #272]
	ldr x25, [x28, #288]
	cbz x8, .LBB118_161
	str x0, [sp, #448]
	ldr x0, [x28, #64]
	bl tags_library_dealloc
	ldr x0, [sp, #448]
	ldr x6, [sp, #360]
.LBB118_161:
	cbz x25, .LBB118_157
	bl tags_library_dealloc
	ldr x6, [sp, #360]
	b .LBB118_157
.LBB118_163:
	ldr w8, [sp, #172]
	ldr q0, [sp, #176]
	add x0, sp, #1360
	ldr w3, [sp, #380]
	add x1, sp, #496
	add x7, sp, #472
	str w8, [sp, #496]
	ldr w8, [sp, #168]
	mov d0, v0.d[1]
	ldr x2, [sp, #464]
	str w8, [sp, #500]
	ldr x8, [sp, #160]
	str x8, [sp, #504]
	ldr x8, [sp, #152]
	str d0, [sp, #544]
	ldr q0, [sp, #128]
	str x8, [sp, #512]
	ldr x8, [sp, #248]
	str q0, [sp, #560]
	ldr q0, [sp, #80]
	str x8, [sp, #520]
	ldr x8, [sp, #240]
	str x8, [sp, #528]
	ldr x8, [sp, #320]
	str x8, [sp, #536]
	ldr x8, [sp, #112]
	str x8, [sp, #552]
	ldr x8, [sp, #120]
	str x8, [sp, #576]
	add x8, sp, #329
	stur q0, [x8, #255]
	ldr x8, [sp, #104]
	ldr q0, [sp, #400]
	str x8, [sp, #600]
	ldr x8, [sp, #232]
	str q0, [x19, #112]
	ldr q0, [sp, #272]
	str x8, [sp, #624]
	ldr x8, [sp, #288]
	stur q0, [x19, #136]
	str x8, [sp, #648]
	ldr x8, [sp, #392]
	str x8, [sp, #656]
	ldr x8, [sp, #384]
	str x8, [sp, #664]
	ldr x8, [sp, #456]
	str x8, [sp, #672]
	ldr x8, [sp, #424]
	str x8, [sp, #680]
	ldr x8, [sp, #368]
	str x8, [sp, #688]
	ldr x8, [sp, #312]
	str x8, [sp, #696]
	ldr x8, [sp, #304]
	str x8, [sp, #704]
	ldr x8, [sp, #296]
	str x8, [sp, #712]
	ldp x8, x4, [sp, #328]
	str x8, [sp, #720]
	ldp x5, x8, [sp, #432]
	str x8, [sp, #728]
	ldr x8, [sp, #200]
	str x8, [sp, #736]
	ldr x8, [sp, #352]
	stp x8, xzr, [sp, #472]
	ldr x8, [sp, #344]
	str x8, [sp, #488]
	bl tag_c.pool_state.PoolState.with_cells
	ldr x9, [sp, #1472]
	ldr x8, [sp, #1392]
	mov w0, wzr
	ldr w11, [sp, #1360]
	ldr w12, [sp, #1364]
	ldr x13, [sp, #1368]
	str x9, [sp, #424]
	ldr x9, [sp, #1504]
	ldr x14, [sp, #1376]
	ldr x19, [sp, #1384]
	ldur q1, [x20, #40]
	ldr q0, [x20, #64]
	str x9, [sp, #440]
	ldr x9, [sp, #1512]
	ldr x16, [sp, #1416]
	ldr x15, [sp, #1440]
	ldur q2, [x20, #88]
	ldr x2, [sp, #1464]
	str x9, [sp, #400]
	ldr x9, [sp, #1520]
	ldr x4, [sp, #1480]
	ldr x5, [sp, #1488]
	ldr x6, [sp, #1496]
	ldr x7, [sp, #1528]
	str x9, [sp, #448]
	ldr w9, [sp, #1540]
	ldr w30, [sp, #1536]
	ldr x25, [sp, #1544]
	ldr q3, [x20, #224]
	mov x20, x8
	mov w8, wzr
	str w9, [sp, #384]
	ldr x9, [sp, #1552]
	ldr x28, [sp, #1576]
	ldr x3, [sp, #1600]
	ldr w10, [sp, #1608]
	str x9, [sp, #456]
	ldr x9, [sp, #1560]
	ldr x24, [sp, #1616]
	ldr x18, [sp, #1624]
	ldr x17, [sp, #1632]
	ldr x1, [sp, #1640]
	str x9, [sp, #432]
	ldr x9, [sp, #1568]
	str x9, [sp, #392]
	ldr w9, [sp, #1612]
	b .LBB118_27
.LBB118_164:
	sub x26, x29, #24
.LBB118_165:
	ldr x0, [sp, #328]
	mov w1, #8
	bl tags_library_alloc
	tbz w0, #0, .LBB118_171
	ldur x8, [x29, #-144]
	mov x28, x1
	cmp x8, x25
	b.eq .LBB118_168
.LBB118_167:
	mov w8, #24
	ldr x9, [sp, #56]
	subs x23, x23, #1
	madd x8, x25, x8, x26
	add x25, x25, #1
	stp x28, xzr, [x8]
	str x9, [x8, #16]
	stur x25, [x29, #-152]
	b.ne .LBB118_165
	b .LBB118_127
.LBB118_168:
	sub x0, x29, #160
	bl std_alloc.vec.Vec.grow_amortized__e69b1d9fa94cf777
	cbz w0, .LBB118_183
	ldp x26, x25, [x29, #-160]
	b .LBB118_167
.LBB118_170:
	ldur x23, [x29, #-160]
	b .LBB118_172
.LBB118_171:
	mov x23, x26
.LBB118_172:
	ldr x24, [sp, #336]
	ldur x19, [x29, #-144]
	ldr x26, [sp, #232]
	ldr x28, [sp, #320]
	cbz x25, .LBB118_177
	add x20, x23, #16
	b .LBB118_175
.LBB118_174:
	subs x25, x25, #1
	add x20, x20, #24
	b.eq .LBB118_177
.LBB118_175:
	ldr x8, [x20]
	cbz x8, .LBB118_174
	ldur x0, [x20, #-16]
	bl tags_library_dealloc
	b .LBB118_174
.LBB118_177:
	cbz x19, .LBB118_179
.LBB118_178:
	mov x0, x23
	bl tags_library_dealloc
.LBB118_179:
	ldp x20, x19, [sp, #240]
.LBB118_180:
	cbz x26, .LBB118_182
	ldr x0, [sp, #48]
	bl tags_library_dealloc
.LBB118_182:
	ldr x8, [sp, #256]
	add x0, sp, #2912
	add x1, sp, #2888
	add x2, sp, #2864
	add x3, sp, #2840
	str x22, [sp, #2872]
	str x8, [sp, #2888]
	ldr x8, [sp, #264]
	str x22, [sp, #2880]
	str x8, [sp, #2896]
	ldr x8, [sp, #16]
	str xzr, [sp, #2848]
	str x8, [sp, #2904]
	ldr x8, [sp, #40]
	str x22, [sp, #2856]
	str x8, [sp, #2864]
	ldr x8, [sp, #32]
	str x8, [sp, #2840]
	bl tag_pool.resizes.shells.unite_i64
	ldr x9, [sp, #24]
	ldr x10, [sp, #8]
	mov w8, wzr
	ldp q3, q2, [sp, #64]
	ldp x18, x17, [sp, #352]
	ldp w12, w11, [sp, #168]
	ldp x14, x13, [sp, #152]
	orr x25, x9, x10, lsl #32
	ldp x16, x15, [sp, #112]
	mov v3.s[3], wzr
	ldp x5, x4, [sp, #304]
	mov w0, #10
	ldp x7, x6, [sp, #288]
	ldr x23, [sp, #2912]
	ldr x22, [sp, #2920]
	ldr x26, [sp, #2928]
	ldr w9, [sp, #380]
	ldr x1, [sp, #344]
	ldr w10, [sp, #368]
	ldr q0, [sp, #128]
	ldr q1, [sp, #176]
	ldr x2, [sp, #104]
	ldr x3, [sp, #200]
	ldr w30, [sp, #272]
	b .LBB118_27
.LBB118_183:
	mov x0, x28
	bl tags_library_dealloc
	ldp x23, x19, [x29, #-160]
	ldur x20, [x29, #-144]
	cbz x19, .LBB118_188
	add x24, x23, #16
	b .LBB118_186
.LBB118_185:
	subs x19, x19, #1
	add x24, x24, #24
	b.eq .LBB118_188
.LBB118_186:
	ldr x8, [x24]
	cbz x8, .LBB118_185
	ldur x0, [x24, #-16]
	bl tags_library_dealloc
	b .LBB118_185
.LBB118_188:
	ldr x24, [sp, #336]
	ldr x26, [sp, #232]
	ldr x28, [sp, #320]
	cbnz x20, .LBB118_178
	b .LBB118_179
.LBB118_189:
	brk #0x1
.Lfunc_end118:
	.size tags_library_resize, .Lfunc_end118-tags_library_resize
	.type .Lswitch.table.tags_library_clear_mask,@object
	.section .rodata.cst16,"aM",@progbits,16
	.p2align 2, 0x0
.Lswitch.table.tags_library_clear_mask:
	.word 4294967295
	.word 4294967293
	.word 4294967292
	.word 4294967291
	.size .Lswitch.table.tags_library_clear_mask, 16
	.type .Lswitch.table.tags_library_is_cached,@object
	.section .rodata..Lswitch.table.tags_library_is_cached,"a",@progbits
	.p2align 2, 0x0
.Lswitch.table.tags_library_is_cached:
	.word 0
	.word 4294967284
	.word 1
	.size .Lswitch.table.tags_library_is_cached, 12
	.type .Lswitch.table.tags_library_leave,@object
	.section .rodata..Lswitch.table.tags_library_leave,"a",@progbits
	.p2align 2, 0x0
.Lswitch.table.tags_library_leave:
	.word 0
	.word 4294967295
	.word 4294967286
	.word 4294967284
	.word 4294967283
	.word 4294967282
	.word 4294967281
	.word 4294967280
	.word 4294967279
	.word 4294967278
	.word 4294967275
	.word 4294967277
	.word 4294967276
	.word 4294967267
	.word 4294967266
	.word 4294967261
	.size .Lswitch.table.tags_library_leave, 64
	.type .Lswitch.table.tags_library_join,@object
	.section .rodata..Lswitch.table.tags_library_join,"a",@progbits
	.p2align 2, 0x0
.Lswitch.table.tags_library_join:
	.word 0
	.word 4294967295
	.word 4294967286
	.word 4294967284
	.word 4294967283
	.word 4294967282
	.word 4294967281
	.word 4294967280
	.word 4294967279
	.word 4294967278
	.word 4294967275
	.size .Lswitch.table.tags_library_join, 44
	.type .Lswitch.table.tags_library_wait_on_reserved.286,@object
	.section .rodata..Lswitch.table.tags_library_wait_on_reserved.286,"a",@progbits
	.p2align 2, 0x0
.Lswitch.table.tags_library_wait_on_reserved.286:
	.word 4294967295
	.word 4294967293
	.word 4294967292
	.word 4294967291
	.word 4294967290
	.word 4294967289
	.word 4294967294
	.size .Lswitch.table.tags_library_wait_on_reserved.286, 28
	.section ".note.GNU-stack","",@progbits
