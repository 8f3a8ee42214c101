/*
 * The crate tag_c, proved and compiled, for every x86-64 processor.
 * Made by: c/library.sh generate. Don't edit it.
 *
 * Proved: logic=proved functions=193 axioms=3 target=x86_64-unknown-linux-gnu sum=dac8208d650f15bf native=nat,char,string logic-built=trusted libraries-built=trusted statements=trusted incremental=trusted
 * With: logic dac8208d650f15bf
 * Of the crates: sums refusals tag_layout tag_model step_ledger tag_core tag_bell tag_search tag_pool tag_cache tag_c
 * Sources: 30dc1fb551845b2df9dfcd0c1215f8a0df6d068ff8d3d4707241ad8564711b21
 * Lines below: 81a9d5581d15f4052198294ba75e0cd14d576d8144e7eef2353726d688afaf6f
 *
 * "Sources" is the SHA-256 sum of what decides these lines and what the proof says of them: src/ and specs/ of the crates and their
 * lines of crates.txt. "Lines below" is that of all lines below this comment.
 */
	.section .text.tag_pool.pool.Pool.busy_i64_core.clone.U64Clone,"ax",@progbits
	.p2align 4
	.type tag_pool.pool.Pool.busy_i64_core.clone.U64Clone,@function
tag_pool.pool.Pool.busy_i64_core.clone.U64Clone:
	pushq %rbp
	pushq %r15
	pushq %r14
	pushq %r13
	pushq %r12
	pushq %rbx
	pushq %rax
	movq %rsi, %rbx
	movq %rdi, %r14
	testq %rdx, %rdx
	je .LBB0_4
	movq %rdx, %r15
	cmpq $1, %rdx
	je .LBB0_3
	leaq -8(,%r15,8), %rdx
	movq %rbx, %rdi
	xorl %esi, %esi
	callq memset@PLT
.LBB0_3:
	movq $0, -8(%rbx,%r15,8)
.LBB0_4:
	movl 64(%r14), %r15d
	movl 68(%r14), %ecx
	movl $1, %r12d
	shll %cl, %r12d
	leal (%r15,%r12), %edx
	decl %edx
	movl %ecx, 4(%rsp)
	shrl %cl, %edx
	movl $1, %esi
	xorl %eax, %eax
	movl $0, %r11d
	testl %edx, %edx
	je .LBB0_12
	movl %edx, %r13d
	xorl %ebp, %ebp
	xorl %r11d, %r11d
	jmp .LBB0_6
	.p2align 4
.LBB0_11:
	movq %rdi, %rcx
	shrq %rcx
	movabsq $6148914691236517205, %rdx
	andq %rdx, %rcx
	subq %rcx, %rdi
	movq %rdi, %rcx
	movabsq $3689348814741910323, %rdx
	andq %rdx, %rcx
	shrq $2, %rdi
	andq %rdx, %rdi
	addq %rcx, %rdi
	movq %rdi, %rcx
	shrq $4, %rcx
	addq %rdi, %rcx
	movabsq $1085102592571150095, %rdx
	andq %rdx, %rcx
	movabsq $72340172838076673, %rdx
	imulq %rdx, %rcx
	shrq $56, %rcx
	addl %ecx, %r11d
	incq %rbp
	cmpq %r13, %rbp
	je .LBB0_12
.LBB0_6:
	movq (%r14), %rcx
	movq %rbp, %rdx
	shlq $7, %rdx
	movq 576(%rcx,%rdx), %r9
	movq (%r14), %rdi
	movl %ebp, %r10d
	movl 4(%rsp), %ecx
	shll %cl, %r10d
	movq 640(%rdi,%rdx), %rdi
	movl %r15d, %edx
	subl %r10d, %edx
	cmpl %edx, %r12d
	cmovbl %r12d, %edx
	movl %edx, %ecx
	negb %cl
	shlq %cl, %r9
	shrq %cl, %r9
	notq %rdi
	andq %r9, %rdi
	cmpl %r10d, %r15d
	je .LBB0_11
	movl %edx, %r9d
	movl %r10d, %r10d
	xorl %edx, %edx
	jmp .LBB0_8
	.p2align 4
.LBB0_10:
	incq %rdx
	cmpq %rdx, %r9
	je .LBB0_11
.LBB0_8:
	btq %rdx, %rdi
	jae .LBB0_10
	leal (%r10,%rdx), %ecx
	movl $1, %r8d
	shlq %cl, %r8
	shrl $6, %ecx
	orq %r8, (%rbx,%rcx,8)
	jmp .LBB0_10
.LBB0_12:
	movl 180(%r14), %edx
	movl %edx, %ecx
	shll %cl, %esi
	movl 176(%r14), %r15d
	leal (%r15,%rsi), %edi
	decl %edi
	shrl %cl, %edi
	testl %edi, %edi
	je .LBB0_20
	movl 224(%r14), %eax
	movl %eax, 4(%rsp)
	movl %edi, %r12d
	xorl %r9d, %r9d
	xorl %eax, %eax
	jmp .LBB0_14
	.p2align 4
.LBB0_19:
	movq %rdi, %rcx
	shrq %rcx
	movabsq $6148914691236517205, %r8
	andq %r8, %rcx
	subq %rcx, %rdi
	movq %rdi, %rcx
	movabsq $3689348814741910323, %r8
	andq %r8, %rcx
	shrq $2, %rdi
	andq %r8, %rdi
	addq %rcx, %rdi
	movq %rdi, %rcx
	shrq $4, %rcx
	addq %rdi, %rcx
	movabsq $1085102592571150095, %rdi
	andq %rdi, %rcx
	movabsq $72340172838076673, %rdi
	imulq %rdi, %rcx
	shrq $56, %rcx
	addl %ecx, %eax
	incq %r9
	cmpq %r12, %r9
	je .LBB0_20
.LBB0_14:
	movq 112(%r14), %rcx
	movq %r9, %rdi
	shlq $7, %rdi
	movq 576(%rcx,%rdi), %r8
	movq 112(%r14), %r10
	movl %r9d, %r13d
	movl %edx, %ecx
	shll %cl, %r13d
	movq 640(%r10,%rdi), %rdi
	movl %r15d, %r10d
	subl %r13d, %r10d
	cmpl %r10d, %esi
	cmovbl %esi, %r10d
	movl %r10d, %ecx
	negb %cl
	shlq %cl, %r8
	shrq %cl, %r8
	notq %rdi
	andq %r8, %rdi
	cmpl %r13d, %r15d
	je .LBB0_19
	movl %r10d, %r10d
	addl 4(%rsp), %r13d
	xorl %ebp, %ebp
	jmp .LBB0_16
	.p2align 4
.LBB0_18:
	incq %rbp
	cmpq %rbp, %r10
	je .LBB0_19
.LBB0_16:
	btq %rbp, %rdi
	jae .LBB0_18
	leal (%r13,%rbp), %ecx
	movl $1, %r8d
	shlq %cl, %r8
	shrl $6, %ecx
	orq %r8, (%rbx,%rcx,8)
	jmp .LBB0_18
.LBB0_20:
	addl %r11d, %eax
	addq $8, %rsp
	popq %rbx
	popq %r12
	popq %r13
	popq %r14
	popq %r15
	popq %rbp
	retq
.Lfunc_end0:
	.size tag_pool.pool.Pool.busy_i64_core.clone.U64Clone, .Lfunc_end0-tag_pool.pool.Pool.busy_i64_core.clone.U64Clone
	.section .text.tag_c.looks.CachedMemberLookCalls.busy,"ax",@progbits
	.p2align 4
	.type tag_c.looks.CachedMemberLookCalls.busy,@function
tag_c.looks.CachedMemberLookCalls.busy:
	movl 256(%rdi), %eax
	addq $63, %rax
	shrq $6, %rax
	cmpq %rax, %rdx
	jae .LBB1_2
	movl $-17, %eax
	retq
.LBB1_2:
	pushq %rax
	addq $8, %rdi
	callq tag_pool.pool.Pool.busy_i64_core.clone.U64Clone
	cmpl $10240, %eax
	movl $10240, %ecx
	cmovael %ecx, %eax
	popq %rcx
	retq
.Lfunc_end1:
	.size tag_c.looks.CachedMemberLookCalls.busy, .Lfunc_end1-tag_c.looks.CachedMemberLookCalls.busy
	.section .text.tag_c.telling.MemberTellingCalls.tell,"ax",@progbits
	.p2align 4
	.type tag_c.telling.MemberTellingCalls.tell,@function
tag_c.telling.MemberTellingCalls.tell:
	pushq %r14
	pushq %rbx
	pushq %rax
	movq %rcx, %rbx
	movq %rdi, %rax
	addq $112, %rdi
	testb $1, %sil
	cmovneq %rax, %rdi
	movq 8(%rdi), %rax
	movq 8(%rax), %rax
	xorl %r14d, %r14d
	testq %rax, %rax
	je .LBB2_1
	addq $8, %rdi
	movl %edx, %esi
	movq %rax, %rdx
	callq tag_bell.telling.tell_each_i64
	movq %rax, %rcx
	orq %rdx, %rcx
	je .LBB2_5
.LBB2_4:
	movq %rax, (%rbx)
	movq %rdx, 8(%rbx)
	movl $1073741824, %r14d
.LBB2_5:
	movl %r14d, %eax
	addq $8, %rsp
	popq %rbx
	popq %r14
	retq
.LBB2_1:
	xorl %edx, %edx
	xorl %eax, %eax
	movq %rax, %rcx
	orq %rdx, %rcx
	jne .LBB2_4
	jmp .LBB2_5
.Lfunc_end2:
	.size tag_c.telling.MemberTellingCalls.tell, .Lfunc_end2-tag_c.telling.MemberTellingCalls.tell
	.section .text.tag_bell.telling.tell_each_i64,"ax",@progbits
	.p2align 4
	.type tag_bell.telling.tell_each_i64,@function
tag_bell.telling.tell_each_i64:
	pushq %r14
	pushq %rbx
	subq $24, %rsp
	xorps %xmm0, %xmm0
	movaps %xmm0, (%rsp)
	movq $0, 16(%rsp)
	bsrq %rdx, %r9
	incq %r9
	xorl %ecx, %ecx
	xorl %eax, %eax
	xorl %r10d, %r10d
	xorl %r8d, %r8d
	jmp .LBB3_1
	.p2align 4
.LBB3_7:
	xorl %r14d, %r14d
	testb $1, %bl
	cmoveq %r11, %r14
	orq %r14, %rax
.LBB3_8:
	incq %rcx
	cmpq %rcx, %r9
	je .LBB3_9
.LBB3_1:
	movl $1, %r11d
	shlq %cl, %r11
	btq %rcx, %rdx
	jae .LBB3_8
	movq (%rdi), %rbx
	movq 64(%rbx,%rcx,8), %r14
	movl %r14d, %ebx
	shrb $2, %bl
	andl $3, %r14d
	cmpq $2, %r14
	je .LBB3_7
	cmpl $1, %r14d
	jne .LBB3_8
	testb $1, %bl
	jne .LBB3_6
	orq %r11, %r8
	jmp .LBB3_8
.LBB3_6:
	orq %r11, %r10
	jmp .LBB3_8
.LBB3_9:
	movq %r8, (%rsp)
	movq %r10, 8(%rsp)
	movq %rax, 16(%rsp)
	testq %r10, %r10
	je .LBB3_10
.LBB3_13:
	movq %rsp, %rdx
	callq tag_bell.telling.tell_listed_i64
	addq $24, %rsp
	popq %rbx
	popq %r14
	retq
.LBB3_10:
	testq %r8, %r8
	je .LBB3_11
	movq %rax, %rcx
	shrq %rcx
	movabsq $6148914691236517205, %rdx
	andq %rcx, %rdx
	subq %rdx, %rax
	movabsq $3689348814741910323, %rcx
	movq %rax, %rdx
	andq %rcx, %rdx
	shrq $2, %rax
	andq %rcx, %rax
	addq %rdx, %rax
	movq %rax, %rcx
	shrq $4, %rcx
	addq %rax, %rcx
	movabsq $1085102592571150095, %rax
	andq %rcx, %rax
	movabsq $72340172838076673, %rcx
	imulq %rax, %rcx
	shrq $56, %rcx
	cmpl %ecx, 64(%rdi)
	ja .LBB3_13
.LBB3_11:
	xorl %edx, %edx
	xorl %eax, %eax
	addq $24, %rsp
	popq %rbx
	popq %r14
	retq
.Lfunc_end3:
	.size tag_bell.telling.tell_each_i64, .Lfunc_end3-tag_bell.telling.tell_each_i64
	.section .text.tag_bell.telling.tell_listed_i64,"ax",@progbits
	.p2align 4
	.type tag_bell.telling.tell_listed_i64,@function
tag_bell.telling.tell_listed_i64:
	pushq %r15
	pushq %r14
	pushq %r12
	pushq %rbx
	subq $536, %rsp
	movq %rdx, %r15
	movl %esi, %ebx
	movq %rdi, %r14
	movq 16(%rdx), %r12
	xorps %xmm0, %xmm0
	movaps %xmm0, (%rsp)
	movq %r12, 16(%rsp)
	leaq 24(%rsp), %rdi
	movl $512, %edx
	xorl %esi, %esi
	callq memset@PLT
	movq 8(%r15), %rax
	orq (%r15), %rax
	je .LBB4_13
	bsrq %rax, %rdx
	incq %rdx
	xorl %ecx, %ecx
	jmp .LBB4_2
.LBB4_9:
	orq %rsi, 8(%rsp)
.LBB4_10:
	shrq $3, %rdi
	movq %rdi, 24(%rsp,%rcx,8)
.LBB4_11:
	incq %rcx
	cmpq %rcx, %rdx
	je .LBB4_12
.LBB4_2:
	movl $1, %esi
	shlq %cl, %rsi
	btq %rcx, %rax
	jae .LBB4_11
	movq (%r14), %rdi
	movq 64(%rdi,%rcx,8), %rdi
	movl %edi, %r8d
	shrb $2, %r8b
	movl %edi, %r9d
	andl $3, %r9d
	cmpq $2, %r9
	je .LBB4_7
	cmpl $1, %r9d
	jne .LBB4_11
	testb $1, %r8b
	jne .LBB4_9
	orq %rsi, (%rsp)
	jmp .LBB4_10
	.p2align 4
.LBB4_7:
	testb $1, %r8b
	jne .LBB4_11
	orq %rsi, 16(%rsp)
	jmp .LBB4_11
.LBB4_12:
	movq 16(%rsp), %r12
.LBB4_13:
	cmpl $1, %ebx
	adcl $0, %ebx
	movl 64(%r14), %edx
	movq %r12, %rax
	shrq %rax
	movabsq $6148914691236517205, %rcx
	andq %rax, %rcx
	subq %rcx, %r12
	movabsq $3689348814741910323, %rax
	movq %r12, %rcx
	andq %rax, %rcx
	shrq $2, %r12
	andq %rax, %r12
	addq %rcx, %r12
	movq %r12, %rax
	shrq $4, %rax
	addq %r12, %rax
	movabsq $1085102592571150095, %rcx
	andq %rax, %rcx
	movabsq $72340172838076673, %rax
	imulq %rcx, %rax
	shrq $56, %rax
	subl %eax, %edx
	setbe %al
	movq (%rsp), %rdi
	testq %rdi, %rdi
	sete %cl
	orb %al, %cl
	je .LBB4_15
	xorl %esi, %esi
	jmp .LBB4_32
.LBB4_15:
	cmpl %ebx, %edx
	cmovael %ebx, %edx
	xorl %esi, %esi
	.p2align 4
.LBB4_16:
	rep  bsfq %rdi, %rax
	bsrq %rdi, %rcx
	xorq $63, %rcx
	cmpq $63, %rcx
	jne .LBB4_18
	xorl %ecx, %ecx
	jmp .LBB4_28
	.p2align 4
.LBB4_18:
	movl $64, %r8d
	subq %rcx, %r8
	movl %r8d, %r9d
	andl $-2, %r9d
	xorl %ecx, %ecx
	jmp .LBB4_19
	.p2align 4
.LBB4_26:
	addq $2, %rcx
	cmpq %rcx, %r9
	je .LBB4_27
.LBB4_19:
	btq %rcx, %rdi
	jae .LBB4_23
	movq 24(%rsp,%rcx,8), %r11
	movl %eax, %r15d
	movl %ecx, %r10d
	cmpq 24(%rsp,%r15,8), %r11
	jb .LBB4_22
	movl %eax, %r10d
.LBB4_22:
	movl %r10d, %eax
.LBB4_23:
	movq %rdi, %r10
	shrq %cl, %r10
	testb $2, %r10b
	je .LBB4_26
	movq 32(%rsp,%rcx,8), %r10
	movl %eax, %r11d
	cmpq 24(%rsp,%r11,8), %r10
	jae .LBB4_26
	leal 1(%rcx), %eax
	jmp .LBB4_26
	.p2align 4
.LBB4_27:
	testb $1, %r8b
	je .LBB4_30
.LBB4_28:
	btq %rcx, %rdi
	jae .LBB4_30
	movq 24(%rsp,%rcx,8), %r8
	movl %eax, %r9d
	cmpq 24(%rsp,%r9,8), %r8
	cmovael %eax, %ecx
	movl %ecx, %eax
.LBB4_30:
	movl $1, %r8d
	movl %eax, %ecx
	shlq %cl, %r8
	movq $-2, %r9
	rolq %cl, %r9
	movl %eax, %r10d
	movq 24(%rsp,%r10,8), %rcx
	leaq 1(,%rcx,8), %rax
	leaq 2(,%rcx,8), %r11
	movq (%r14), %r15
	xorl %r12d, %r12d
	xorl %ecx, %ecx
	lock  cmpxchgq %r11, 64(%r15,%r10,8)
	cmoveq %r8, %r12
	sete %al
	orq %r12, %rsi
	andq %r9, %rdi
	je .LBB4_32
	movb %al, %cl
	subl %ecx, %edx
	jne .LBB4_16
.LBB4_32:
	movq 8(%rsp), %rdi
	xorl %edx, %edx
	testq %rdi, %rdi
	je .LBB4_49
	.p2align 4
.LBB4_33:
	rep  bsfq %rdi, %rax
	bsrq %rdi, %rcx
	xorq $63, %rcx
	cmpq $63, %rcx
	jne .LBB4_35
	xorl %ecx, %ecx
	jmp .LBB4_45
	.p2align 4
.LBB4_35:
	movl $64, %r8d
	subq %rcx, %r8
	movl %r8d, %r9d
	andl $-2, %r9d
	xorl %ecx, %ecx
	jmp .LBB4_36
	.p2align 4
.LBB4_43:
	addq $2, %rcx
	cmpq %rcx, %r9
	je .LBB4_44
.LBB4_36:
	btq %rcx, %rdi
	jae .LBB4_40
	movq 24(%rsp,%rcx,8), %r11
	movl %eax, %r15d
	movl %ecx, %r10d
	cmpq 24(%rsp,%r15,8), %r11
	jb .LBB4_39
	movl %eax, %r10d
.LBB4_39:
	movl %r10d, %eax
.LBB4_40:
	movq %rdi, %r10
	shrq %cl, %r10
	testb $2, %r10b
	je .LBB4_43
	movq 32(%rsp,%rcx,8), %r10
	movl %eax, %r11d
	cmpq 24(%rsp,%r11,8), %r10
	jae .LBB4_43
	leal 1(%rcx), %eax
	jmp .LBB4_43
	.p2align 4
.LBB4_44:
	testb $1, %r8b
	je .LBB4_47
.LBB4_45:
	btq %rcx, %rdi
	jae .LBB4_47
	movq 24(%rsp,%rcx,8), %r8
	movl %eax, %r9d
	cmpq 24(%rsp,%r9,8), %r8
	cmovael %eax, %ecx
	movl %ecx, %eax
.LBB4_47:
	movl $1, %r8d
	movl %eax, %ecx
	shlq %cl, %r8
	movq $-2, %r9
	rolq %cl, %r9
	movl %eax, %r10d
	movq 24(%rsp,%r10,8), %rcx
	leaq 5(,%rcx,8), %rax
	leaq 6(,%rcx,8), %r11
	movq (%r14), %r15
	xorl %r12d, %r12d
	xorl %ecx, %ecx
	lock  cmpxchgq %r11, 64(%r15,%r10,8)
	cmoveq %r8, %r12
	sete %al
	orq %r12, %rdx
	andq %r9, %rdi
	je .LBB4_49
	movb %al, %cl
	subl %ecx, %ebx
	jne .LBB4_33
.LBB4_49:
	movq %rsi, %rax
	addq $536, %rsp
	popq %rbx
	popq %r12
	popq %r14
	popq %r15
	retq
.Lfunc_end4:
	.size tag_bell.telling.tell_listed_i64, .Lfunc_end4-tag_bell.telling.tell_listed_i64
	.section .text.tag_c.telling.CachedMemberTellingCalls.tell,"ax",@progbits
	.p2align 4
	.type tag_c.telling.CachedMemberTellingCalls.tell,@function
tag_c.telling.CachedMemberTellingCalls.tell:
	pushq %r15
	pushq %r14
	pushq %r12
	pushq %rbx
	pushq %rax
	movq %rcx, %rbx
	leaq 8(%rdi), %r15
	movq (%rdi), %rax
	leaq 8(%rax), %rcx
	testb $1, %sil
	je .LBB5_1
	movq (%rcx), %rax
	movq 8(%rax), %rax
	testq %rax, %rax
	je .LBB5_5
	movq %rdi, %r14
	movq %rcx, %rdi
	movl %edx, %esi
	movq %rax, %rdx
	callq tag_bell.telling.tell_each_i64
	movq %r14, %rdi
	movq %rax, %r14
	movq %rdx, %r12
	jmp .LBB5_7
.LBB5_1:
	movq 120(%rax), %rax
	movq 8(%rax), %rax
	testq %rax, %rax
	je .LBB5_2
	movq %r15, %rdi
	movq %rcx, %rsi
	callq tag_cache.cache.Cache.give_back_and_tell_i64_core.clone.U64Clone
	movq %rax, %r14
	movq %rdx, %r12
	movq %r12, %rax
	orq %r14, %rax
	jne .LBB5_11
	jmp .LBB5_10
.LBB5_5:
	xorl %r14d, %r14d
	xorl %r12d, %r12d
.LBB5_7:
	movq (%rdi), %rsi
	movq 120(%rsi), %rax
	movq 8(%rax), %rax
	testq %rax, %rax
	je .LBB5_9
	addq $8, %rsi
	movq %r15, %rdi
	xorl %edx, %edx
	callq tag_cache.cache.Cache.give_back_and_tell_i64_core.clone.U64Clone
	orq %rax, %r14
	orq %rdx, %r12
.LBB5_9:
	movq %r12, %rax
	orq %r14, %rax
	je .LBB5_10
.LBB5_11:
	movq %r14, (%rbx)
	movq %r12, 8(%rbx)
	movl $1073741824, %eax
	jmp .LBB5_12
.LBB5_2:
	xorl %r14d, %r14d
	xorl %r12d, %r12d
	movq %r12, %rax
	orq %r14, %rax
	jne .LBB5_11
.LBB5_10:
	xorl %eax, %eax
.LBB5_12:
	addq $8, %rsp
	popq %rbx
	popq %r12
	popq %r14
	popq %r15
	retq
.Lfunc_end5:
	.size tag_c.telling.CachedMemberTellingCalls.tell, .Lfunc_end5-tag_c.telling.CachedMemberTellingCalls.tell
	.section .text.tag_cache.cache.Cache.give_back_and_tell_i64_core.clone.U64Clone,"ax",@progbits
	.p2align 4
	.type tag_cache.cache.Cache.give_back_and_tell_i64_core.clone.U64Clone,@function
tag_cache.cache.Cache.give_back_and_tell_i64_core.clone.U64Clone:
	pushq %r14
	pushq %rbx
	pushq %rax
	movl %edx, %ebx
	movq %rsi, %r14
	callq tag_cache.cache.Cache.give_back_kept_i64_core.clone.U64Clone
	movq 112(%r14), %rcx
	movq 8(%rcx), %rdx
	testq %rdx, %rdx
	je .LBB6_1
	addq $112, %r14
	cmpl %ebx, %eax
	cmoval %eax, %ebx
	movq %r14, %rdi
	movl %ebx, %esi
	callq tag_bell.telling.tell_each_i64
	addq $8, %rsp
	popq %rbx
	popq %r14
	retq
.LBB6_1:
	xorl %edx, %edx
	xorl %eax, %eax
	addq $8, %rsp
	popq %rbx
	popq %r14
	retq
.Lfunc_end6:
	.size tag_cache.cache.Cache.give_back_and_tell_i64_core.clone.U64Clone, .Lfunc_end6-tag_cache.cache.Cache.give_back_and_tell_i64_core.clone.U64Clone
	.section .text.tag_cache.cache.Cache.give_back_kept_i64_core.clone.U64Clone,"ax",@progbits
	.p2align 4
	.type tag_cache.cache.Cache.give_back_kept_i64_core.clone.U64Clone,@function
tag_cache.cache.Cache.give_back_kept_i64_core.clone.U64Clone:
	pushq %rbp
	pushq %r15
	pushq %r14
	pushq %r13
	pushq %r12
	pushq %rbx
	pushq %rax
	movq 16(%rdi), %r14
	testq %r14, %r14
	je .LBB7_1
	movq $0, 16(%rdi)
	movl (%rdi), %edx
	movl 4(%rdi), %eax
	movl %eax, 8(%rdi)
	movl 224(%rsi), %eax
	movl %eax, %ecx
	subl %edx, %ecx
	jbe .LBB7_4
	rep  bsfq %r14, %rax
	cmpl %eax, %ecx
	ja .LBB7_13
	movq %r14, %rax
	shrq %cl, %rax
	xorl %edx, %edx
	jmp .LBB7_7
.LBB7_1:
	xorl %eax, %eax
	jmp .LBB7_2
.LBB7_4:
	subl %eax, %edx
	movq %r14, %rax
.LBB7_7:
	movl $127, %r9d
	bsrq %rax, %r9
	xorl $63, %r9d
	negl %r9d
	movl 180(%rsi), %ecx
	movl %edx, %r8d
	shrl %cl, %r8d
	leal (%rdx,%r9), %ebx
	addl $63, %ebx
	addq $112, %rsi
	movl %ebx, %r9d
	shrl %cl, %r9d
	movabsq $6148914691236517205, %r15
	movabsq $3689348814741910323, %r13
	movabsq $1085102592571150095, %rbp
	movabsq $72340172838076673, %r12
	cmpl %r8d, %r9d
	jne .LBB7_8
	movl $-1, %r9d
	shll %cl, %r9d
	notl %r9d
	andl %r9d, %edx
	movl %edx, %ecx
	shlq %cl, %rax
	movq (%rsi), %rcx
	movl %r8d, %edx
	movq %rdx, %rsi
	shlq $7, %rsi
	lock  subq %rax, 576(%rcx,%rsi)
	movq 296(%rdi), %rcx
	movq %rax, %rsi
	notq %rsi
	andq %rsi, (%rcx,%rdx,8)
	movq %rax, %rcx
	shrq %rcx
	andq %r15, %rcx
	subq %rcx, %rax
	movq %rax, %rcx
	andq %r13, %rcx
	shrq $2, %rax
	andq %r13, %rax
	addq %rcx, %rax
	movq %rax, %rcx
	shrq $4, %rcx
	addq %rax, %rcx
	andq %rbp, %rcx
	imulq %r12, %rcx
	shrq $56, %rcx
	addq %rcx, 328(%rdi)
	cmpb $0, 260(%rdi)
	je .LBB7_11
	jmp .LBB7_12
.LBB7_8:
	leaq 272(%rdi), %rcx
	movq %rdi, %r15
	movq %rsi, %rdi
	movq %rcx, %rsi
	movq %rax, %rcx
	movl %ebx, %r8d
	callq tag_pool.clears.masks.words.give_mask_across_i64
	movq %r15, %rdi
	movabsq $6148914691236517205, %r15
	cmpb $0, 260(%rdi)
	jne .LBB7_12
.LBB7_11:
	movl %ebx, 256(%rdi)
.LBB7_12:
	movq %r14, %rax
	shrq %rax
	andq %r15, %rax
	subq %rax, %r14
	movq %r14, %rax
	andq %r13, %rax
	shrq $2, %r14
	andq %r13, %r14
	addq %rax, %r14
	movq %r14, %rax
	shrq $4, %rax
	addq %r14, %rax
	andq %rbp, %rax
	imulq %r12, %rax
	shrq $56, %rax
.LBB7_2:
	addq $8, %rsp
	popq %rbx
	popq %r12
	popq %r13
	popq %r14
	popq %r15
	popq %rbp
	retq
.LBB7_13:
	ud2
.Lfunc_end7:
	.size tag_cache.cache.Cache.give_back_kept_i64_core.clone.U64Clone, .Lfunc_end7-tag_cache.cache.Cache.give_back_kept_i64_core.clone.U64Clone
	.section .text.tag_pool.clears.masks.words.give_mask_across_i64,"ax",@progbits
	.p2align 4
	.type tag_pool.clears.masks.words.give_mask_across_i64,@function
tag_pool.clears.masks.words.give_mask_across_i64:
	pushq %rbp
	pushq %r15
	pushq %r14
	pushq %r13
	pushq %r12
	pushq %rbx
	movq %rcx, %rax
	movl 68(%rdi), %r9d
	movl %edx, %ebp
	movl %r9d, %ecx
	shrl %cl, %ebp
	shrl %cl, %r8d
	leal 1(%r8), %ecx
	cmpl %ecx, %ebp
	jae .LBB8_5
	movl $-1, %r10d
	movl %r9d, %ecx
	shll %cl, %r10d
	notl %r10d
	andl %edx, %r10d
	movq %rax, %r11
	movl %r10d, %ecx
	shlq %cl, %r11
	movl $1, %r10d
	movl %r9d, %ecx
	shll %cl, %r10d
	movl 64(%rdi), %ebx
	movl %ebp, %r14d
	movq %r14, %r15
	shlq $4, %r15
	addq $72, %r15
	subl %ebp, %r8d
	incl %r8d
	jmp .LBB8_2
	.p2align 4
.LBB8_4:
	incq %r14
	addq $16, %r15
	decl %r8d
	je .LBB8_5
.LBB8_2:
	movl %r14d, %ebp
	movl %r9d, %ecx
	shll %cl, %ebp
	movl %ebp, %ecx
	subl %edx, %ecx
	movq %rax, %r12
	shrq %cl, %r12
	cmpl %edx, %ebp
	cmovbq %r11, %r12
	movl %ebx, %ecx
	subl %ebp, %ecx
	cmpl %ecx, %r10d
	cmovbl %r10d, %ecx
	negb %cl
	shlq %cl, %r12
	shrq %cl, %r12
	testq %r12, %r12
	je .LBB8_4
	movq (%rdi), %rcx
	lock  subq %r12, (%rcx,%r15,8)
	movq 24(%rsi), %rcx
	movq %r12, %r13
	notq %r13
	andq %r13, (%rcx,%r14,8)
	movq %r12, %rcx
	shrq %rcx
	movabsq $6148914691236517205, %r13
	andq %rcx, %r13
	subq %r13, %r12
	movabsq $3689348814741910323, %rcx
	movq %r12, %r13
	andq %rcx, %r13
	shrq $2, %r12
	andq %rcx, %r12
	addq %r13, %r12
	movq %r12, %rcx
	shrq $4, %rcx
	addq %r12, %rcx
	movabsq $1085102592571150095, %r12
	andq %rcx, %r12
	movabsq $72340172838076673, %rcx
	imulq %r12, %rcx
	shrq $56, %rcx
	addq %rcx, 56(%rsi)
	jmp .LBB8_4
.LBB8_5:
	popq %rbx
	popq %r12
	popq %r13
	popq %r14
	popq %r15
	popq %rbp
	retq
.Lfunc_end8:
	.size tag_pool.clears.masks.words.give_mask_across_i64, .Lfunc_end8-tag_pool.clears.masks.words.give_mask_across_i64
	.section .text.tag_c.cached.CachedMember.clear_any,"ax",@progbits
	.p2align 4
	.type tag_c.cached.CachedMember.clear_any,@function
tag_c.cached.CachedMember.clear_any:
	pushq %r15
	pushq %r14
	pushq %rbx
	movl %esi, %ebx
	movq (%rdi), %rsi
	movl $-1, %eax
	cmpl %ebx, 236(%rsi)
	jbe .LBB9_28
	movl 232(%rsi), %r8d
	movl %ebx, %r9d
	subl %r8d, %r9d
	jb .LBB9_2
	movzbl 284(%rdi), %ecx
	movl %r9d, %r11d
	shrl %cl, %r11d
	shll %cl, %eax
	notl %eax
	andl %r9d, %eax
	movl $1, %r10d
	movl %eax, %ecx
	shlq %cl, %r10
	movq 304(%rdi), %rax
	andq (%rax,%r11,8), %r10
	jmp .LBB9_4
.LBB9_2:
	movzbl 76(%rdi), %ecx
	movl %ebx, %r9d
	shrl %cl, %r9d
	shll %cl, %eax
	notl %eax
	andl %ebx, %eax
	movl $1, %r10d
	movl %eax, %ecx
	shlq %cl, %r10
	movq 96(%rdi), %rax
	andq (%rax,%r9,8), %r10
.LBB9_4:
	cmpl %r8d, %ebx
	setae %r9b
	movl $-3, %eax
	testq %r10, %r10
	setne %r10b
	je .LBB9_28
	leaq 8(%rdi), %r8
	movl %ebx, %ecx
	subl (%r8), %ecx
	cmpl $63, %ecx
	ja .LBB9_7
	movl $1, %r11d
	shlq %cl, %r11
	testq %r11, 24(%rdi)
	je .LBB9_7
.LBB9_28:
	popq %rbx
	popq %r14
	popq %r15
	retq
.LBB9_7:
	addq $8, %rsi
	andb %r10b, %r9b
	je .LBB9_23
	movzbl 20(%rdi), %r9d
	testb %r9b, %r9b
	je .LBB9_10
	movq $-2, %rax
	rolq %cl, %rax
	cmpl $64, %ecx
	movq $-1, %r10
	cmovbq %rax, %r10
	testq %r10, 32(%rdi)
	je .LBB9_22
.LBB9_10:
	cmpl $0, 12(%rdi)
	je .LBB9_21
	testb %r9b, %r9b
	sete %al
	cmpl $64, %ecx
	setb %r10b
	cmpb $0, 47(%rdi)
	jne .LBB9_21
	orb %r10b, %al
	je .LBB9_21
	movl 16(%rdi), %eax
	testl %eax, %eax
	je .LBB9_19
	cmpl $64, %ecx
	jb .LBB9_16
	cmpq $0, 24(%rdi)
	je .LBB9_16
.LBB9_19:
	movq %rdx, %r14
	movq %rdi, %r15
	movq %r8, %rdi
	movl %ebx, %edx
	callq tag_cache.cache.Cache.keep_instead_i64_core.clone.U64Clone
	jmp .LBB9_20
.LBB9_23:
	movq %rdx, %r14
	movq %rdi, %r15
	movq %r8, %rdi
	movl %ebx, %edx
	callq tag_cache.cache.Cache.give_back_i64_core.clone.U64Clone
	movq %r15, %rdi
.LBB9_24:
	xorl %edx, %edx
	movq (%rdi), %rax
	cmpl 232(%rax), %ebx
	jb .LBB9_31
	jmp .LBB9_26
.LBB9_21:
	movq %rdx, %r14
	movq %rdi, %r15
	movq %r8, %rdi
	movl %ebx, %edx
	callq tag_cache.cache.Cache.give_back_i64_core.clone.U64Clone
	movq %r15, %rdi
	movl $1, %edx
	movq (%rdi), %rax
	cmpl 232(%rax), %ebx
	jae .LBB9_26
.LBB9_31:
	movl $1, %esi
	jmp .LBB9_30
.LBB9_22:
	movq %rdx, %r14
	movq %rdi, %r15
	movq %r8, %rdi
	movl %ebx, %edx
	callq tag_cache.cache.Cache.give_back_all_i64_core.clone.U64Clone
.LBB9_20:
	movq %r15, %rdi
	movl %eax, %edx
	movq (%rdi), %rax
	cmpl 232(%rax), %ebx
	jb .LBB9_31
.LBB9_26:
	movq 120(%rax), %rax
	movq 8(%rax), %rax
	testq %rax, %rax
	je .LBB9_27
	xorl %esi, %esi
.LBB9_30:
	movq %r14, %rcx
	popq %rbx
	popq %r14
	popq %r15
	jmp tag_c.telling.CachedMemberTellingCalls.tell
.LBB9_27:
	xorl %eax, %eax
	popq %rbx
	popq %r14
	popq %r15
	retq
.LBB9_16:
	movq %rdx, %r14
	cmpl $64, %ecx
	setb %sil
	testb %r9b, %r9b
	setne %r8b
	movq 24(%rdi), %rdx
	testq %rdx, %rdx
	setne %r9b
	orb %r8b, %r9b
	orb %sil, %r9b
	jne .LBB9_18
	movl %ebx, %ecx
	andl $-64, %ecx
	movl %ecx, 8(%rdi)
	movq $0, 32(%rdi)
	movl %ebx, %ecx
	andl $63, %ecx
	xorl %edx, %edx
.LBB9_18:
	movq $-2, %rsi
	rolq %cl, %rsi
	andq %rsi, 32(%rdi)
	btsq %rcx, %rdx
	movq %rdx, 24(%rdi)
	decl %eax
	movl %eax, 16(%rdi)
	jmp .LBB9_24
.Lfunc_end9:
	.size tag_c.cached.CachedMember.clear_any, .Lfunc_end9-tag_c.cached.CachedMember.clear_any
	.section .text.tag_cache.cache.Cache.keep_instead_i64_core.clone.U64Clone,"ax",@progbits
	.p2align 4
	.type tag_cache.cache.Cache.keep_instead_i64_core.clone.U64Clone,@function
tag_cache.cache.Cache.keep_instead_i64_core.clone.U64Clone:
	pushq %r14
	pushq %rbx
	pushq %rax
	movl %edx, %r14d
	movq %rdi, %rbx
	callq tag_cache.cache.Cache.give_back_kept_i64_core.clone.U64Clone
	cmpb $0, 12(%rbx)
	je .LBB10_2
	movl (%rbx), %ecx
	movq 16(%rbx), %rdx
	jmp .LBB10_6
.LBB10_2:
	movq 16(%rbx), %rdx
	movl (%rbx), %ecx
	testq %rdx, %rdx
	jne .LBB10_6
	movl %r14d, %edx
	subl %ecx, %edx
	cmpl $64, %edx
	jb .LBB10_5
	movl %r14d, %ecx
	andl $-64, %ecx
	movl %ecx, (%rbx)
	movq $0, 24(%rbx)
.LBB10_5:
	xorl %edx, %edx
.LBB10_6:
	subl %ecx, %r14d
	movq $-2, %rsi
	movl %r14d, %ecx
	rolq %cl, %rsi
	andq %rsi, 24(%rbx)
	btsq %r14, %rdx
	movq %rdx, 16(%rbx)
	decl 8(%rbx)
	addq $8, %rsp
	popq %rbx
	popq %r14
	retq
.Lfunc_end10:
	.size tag_cache.cache.Cache.keep_instead_i64_core.clone.U64Clone, .Lfunc_end10-tag_cache.cache.Cache.keep_instead_i64_core.clone.U64Clone
	.section .text.tag_cache.cache.Cache.give_back_all_i64_core.clone.U64Clone,"ax",@progbits
	.p2align 4
	.type tag_cache.cache.Cache.give_back_all_i64_core.clone.U64Clone,@function
tag_cache.cache.Cache.give_back_all_i64_core.clone.U64Clone:
	pushq %rbp
	pushq %r15
	pushq %r14
	pushq %rbx
	pushq %rax
	cmpq $0, 16(%rdi)
	je .LBB11_1
	movq %rdi, %rbx
	movq %rsi, %r14
	movl %edx, %ebp
	callq tag_cache.cache.Cache.give_back_kept_i64_core.clone.U64Clone
	movl %eax, %r15d
	movq %rbx, %rdi
	movq %r14, %rsi
	movl %ebp, %edx
	callq tag_cache.cache.Cache.give_back_i64_core.clone.U64Clone
	movl %r15d, %eax
	incl %eax
	jmp .LBB11_3
.LBB11_1:
	callq tag_cache.cache.Cache.give_back_i64_core.clone.U64Clone
	movl $1, %eax
.LBB11_3:
	addq $8, %rsp
	popq %rbx
	popq %r14
	popq %r15
	popq %rbp
	retq
.Lfunc_end11:
	.size tag_cache.cache.Cache.give_back_all_i64_core.clone.U64Clone, .Lfunc_end11-tag_cache.cache.Cache.give_back_all_i64_core.clone.U64Clone
	.section .text.tag_cache.cache.Cache.give_back_i64_core.clone.U64Clone,"ax",@progbits
	.p2align 4
	.type tag_cache.cache.Cache.give_back_i64_core.clone.U64Clone,@function
tag_cache.cache.Cache.give_back_i64_core.clone.U64Clone:
	movl %edx, %ecx
	subl (%rdi), %ecx
	movq $-2, %rax
	rolq %cl, %rax
	cmpl $64, %ecx
	movq $-1, %rcx
	cmovbq %rax, %rcx
	andq %rcx, 24(%rdi)
	movl %edx, %r8d
	subl 224(%rsi), %r8d
	jae .LBB12_3
	movzbl 68(%rdi), %ecx
	movl %edx, %r8d
	shrl %cl, %r8d
	movl $-1, %eax
	shll %cl, %eax
	notl %eax
	andl %edx, %eax
	movl $1, %r9d
	movl %eax, %ecx
	shlq %cl, %r9
	movq (%rsi), %rax
	movq %r8, %rcx
	shlq $7, %rcx
	lock  addq %r9, 640(%rax,%rcx)
	movq 88(%rdi), %rax
	subq %r9, (%rax,%r8,8)
	incq 120(%rdi)
	cmpb $0, 52(%rdi)
	jne .LBB12_5
	movl %edx, 48(%rdi)
	retq
.LBB12_3:
	movzbl 276(%rdi), %ecx
	movl %r8d, %edx
	shrl %cl, %edx
	movl $-1, %eax
	shll %cl, %eax
	notl %eax
	andl %r8d, %eax
	movl $1, %r9d
	movl %eax, %ecx
	shlq %cl, %r9
	movq 112(%rsi), %rax
	movq %rdx, %rcx
	shlq $7, %rcx
	lock  addq %r9, 640(%rax,%rcx)
	movq 296(%rdi), %rax
	subq %r9, (%rax,%rdx,8)
	incq 328(%rdi)
	cmpb $0, 260(%rdi)
	jne .LBB12_5
	movl %r8d, 256(%rdi)
.LBB12_5:
	retq
.Lfunc_end12:
	.size tag_cache.cache.Cache.give_back_i64_core.clone.U64Clone, .Lfunc_end12-tag_cache.cache.Cache.give_back_i64_core.clone.U64Clone
	.section .text.tag_pool.pool.Pool.check_batch_i64_core.clone.U64Clone,"ax",@progbits
	.p2align 4
	.type tag_pool.pool.Pool.check_batch_i64_core.clone.U64Clone,@function
tag_pool.pool.Pool.check_batch_i64_core.clone.U64Clone:
	movq %rcx, %r8
	leaq -65(%rcx), %r9
	movb $1, %al
	movb $3, %cl
	cmpq $-64, %r9
	jb .LBB13_14
	movl 224(%rdi), %ecx
	xorl %r9d, %r9d
	.p2align 4
.LBB13_2:
	cmpl %ecx, (%rdx,%r9,4)
	jb .LBB13_13
	incq %r9
	cmpq %r9, %r8
	jne .LBB13_2
	movl 228(%rdi), %ecx
	xorl %edi, %edi
	.p2align 4
.LBB13_5:
	cmpl (%rdx,%rdi,4), %ecx
	jbe .LBB13_13
	incq %rdi
	cmpq %rdi, %r8
	jne .LBB13_5
	pushq %rbx
	movl (%rsi), %edi
	xorl %r9d, %r9d
	jmp .LBB13_8
	.p2align 4
.LBB13_10:
	movzbl 236(%rsi), %ecx
	movl %r11d, %ebx
	shrl %cl, %ebx
	movl $-1, %eax
	shll %cl, %eax
	notl %eax
	andl %r11d, %eax
	movl $1, %r10d
	movl %eax, %ecx
	shlq %cl, %r10
	movq 256(%rsi), %rax
	andq (%rax,%rbx,8), %r10
	movb $1, %cl
	testq %r10, %r10
	je .LBB13_38
.LBB13_11:
	incq %r9
	cmpq %r9, %r8
	je .LBB13_12
.LBB13_8:
	movl (%rdx,%r9,4), %r10d
	movl %r10d, %r11d
	subl %edi, %r11d
	jae .LBB13_10
	movzbl 28(%rsi), %ecx
	movl %r10d, %r11d
	shrl %cl, %r11d
	movl $-1, %eax
	shll %cl, %eax
	notl %eax
	andl %r10d, %eax
	movl $1, %r10d
	movl %eax, %ecx
	shlq %cl, %r10
	movq 48(%rsi), %rax
	andq (%rax,%r11,8), %r10
	movb $1, %cl
	testq %r10, %r10
	jne .LBB13_11
.LBB13_38:
	movb $1, %al
	popq %rbx
	movl %ecx, %edx
	retq
.LBB13_13:
	xorl %ecx, %ecx
.LBB13_14:
	movl %ecx, %edx
	retq
.LBB13_12:
	xorl %eax, %eax
	jmp .LBB13_17
.LBB13_15:
	leaq -2(%rax), %rsi
	cmpq $2, %rsi
	movl $2, %edi
	cmovbq %rsi, %rdi
	cmpq $4, %rsi
	movl $4, %r9d
	cmovbq %rsi, %r9
	movl %edi, %esi
	movl %r9d, %edi
	movsd (%rdx,%rdi,4), %xmm0
	movsd -8(%rdx,%rax,4), %xmm1
	movq (%rdx,%rsi,4), %xmm2
	movq (%rdx), %xmm3
	punpcklqdq %xmm2, %xmm3
	movss (%rdx,%rax,4), %xmm2
	movaps %xmm2, %xmm4
	shufps $212, %xmm1, %xmm4
	unpcklps %xmm0, %xmm1
	shufps $33, %xmm4, %xmm1
	shufps $197, %xmm2, %xmm0
	pshufd $0, %xmm2, %xmm4
	shufps $32, %xmm0, %xmm2
	pcmpeqd %xmm1, %xmm2
	pcmpeqd %xmm3, %xmm4
	packssdw %xmm2, %xmm4
	pmovmskb %xmm4, %esi
	testl %esi, %esi
	jne .LBB13_38
	.p2align 4
.LBB13_16:
	incq %rax
	cmpq %r8, %rax
	je .LBB13_35
.LBB13_17:
	testq %rax, %rax
	je .LBB13_16
	cmpq $2, %rax
	ja .LBB13_21
	movl (%rdx,%rax,4), %esi
	cmpl %esi, (%rdx)
	je .LBB13_38
	cmpl %esi, -4(%rdx,%rax,4)
	jne .LBB13_16
	jmp .LBB13_38
	.p2align 4
.LBB13_21:
	cmpq $8, %rax
	jbe .LBB13_15
	movl (%rdx,%rax,4), %esi
	cmpq $17, %rax
	jae .LBB13_24
	movdqu (%rdx), %xmm0
	movdqu 16(%rdx), %xmm1
	movdqu -32(%rdx,%rax,4), %xmm2
	movdqu -16(%rdx,%rax,4), %xmm3
	movd %esi, %xmm4
	pshufd $0, %xmm4, %xmm4
	pcmpeqd %xmm4, %xmm3
	pcmpeqd %xmm4, %xmm2
	packssdw %xmm3, %xmm2
	pcmpeqd %xmm4, %xmm1
	pcmpeqd %xmm4, %xmm0
	packssdw %xmm1, %xmm0
	packsswb %xmm2, %xmm0
	pmovmskb %xmm0, %esi
	testl %esi, %esi
	je .LBB13_16
	jmp .LBB13_38
.LBB13_24:
	movd %esi, %xmm0
	pshufd $0, %xmm0, %xmm0
	xorl %esi, %esi
	movq %rax, %rdi
	.p2align 4
.LBB13_25:
	movdqu (%rdx,%rsi,4), %xmm1
	movdqu 16(%rdx,%rsi,4), %xmm2
	movdqu 32(%rdx,%rsi,4), %xmm3
	movdqu 48(%rdx,%rsi,4), %xmm4
	pcmpeqd %xmm0, %xmm2
	pcmpeqd %xmm0, %xmm1
	packssdw %xmm2, %xmm1
	pcmpeqd %xmm0, %xmm3
	pcmpeqd %xmm0, %xmm4
	packssdw %xmm4, %xmm3
	packsswb %xmm3, %xmm1
	pmovmskb %xmm1, %r9d
	testl %r9d, %r9d
	jne .LBB13_27
	addq $16, %rsi
	addq $-16, %rdi
	cmpq $15, %rdi
	ja .LBB13_25
.LBB13_27:
	cmpq $8, %rdi
	jb .LBB13_32
	movq %rax, %rdi
	subq %rsi, %rdi
	leaq (%rdx,%rsi,4), %rsi
	.p2align 4
.LBB13_29:
	movdqu (%rsi), %xmm1
	movdqu 16(%rsi), %xmm2
	pcmpeqd %xmm0, %xmm2
	pcmpeqd %xmm0, %xmm1
	packssdw %xmm2, %xmm1
	pmovmskb %xmm1, %r9d
	testl %r9d, %r9d
	jne .LBB13_31
	addq $-8, %rdi
	addq $32, %rsi
	cmpq $8, %rdi
	jae .LBB13_29
	jmp .LBB13_32
.LBB13_31:
	cmpq $7, %rdi
	ja .LBB13_38
.LBB13_32:
	movdqu -32(%rdx,%rax,4), %xmm1
	movdqu -16(%rdx,%rax,4), %xmm2
	pcmpeqd %xmm0, %xmm2
	pcmpeqd %xmm0, %xmm1
	packssdw %xmm2, %xmm1
	pmovmskb %xmm1, %esi
	testl %esi, %esi
	je .LBB13_16
	jmp .LBB13_38
.LBB13_35:
	xorl %ecx, %ecx
	xorl %eax, %eax
	popq %rbx
	movl %ecx, %edx
	retq
.Lfunc_end13:
	.size tag_pool.pool.Pool.check_batch_i64_core.clone.U64Clone, .Lfunc_end13-tag_pool.pool.Pool.check_batch_i64_core.clone.U64Clone
	.section .rodata.cst16,"aM",@progbits,16
	.p2align 4, 0x0
.LCPI14_0:
	.zero 8
	.quad -1
.LCPI14_1:
	.long 2147483648
	.long 2147483648
	.long 2147483648
	.long 2147483648
.LCPI14_2:
	.long 2147483711
	.long 2147483711
	.long 2147483711
	.long 2147483711
.LCPI14_3:
	.quad 1
	.quad 1
	.section .text.tag_c.clears.CachedMemberClearCalls.clear_batch,"ax",@progbits
	.p2align 4
	.type tag_c.clears.CachedMemberClearCalls.clear_batch,@function
tag_c.clears.CachedMemberClearCalls.clear_batch:
	pushq %rbp
	pushq %r15
	pushq %r14
	pushq %r13
	pushq %r12
	pushq %rbx
	pushq %rax
	movq %rcx, %rbx
	movq %rdx, %r14
	movq %rsi, %r12
	movq %rdi, %r15
	movq (%rdi), %rbp
	leaq 8(%rbp), %r13
	leaq 48(%rdi), %rsi
	movq %r13, %rdi
	movq %r12, %rdx
	movq %r14, %rcx
	callq tag_pool.pool.Pool.check_batch_i64_core.clone.U64Clone
	testb %al, %al
	je .LBB14_1
	movzbl %dl, %eax
	leaq .Lswitch.table.tags_library_wait_on_reserved.286(%rip), %rcx
	movl (%rcx,%rax,4), %eax
.LBB14_32:
	addq $8, %rsp
	popq %rbx
	popq %r12
	popq %r13
	popq %r14
	popq %r15
	popq %rbp
	retq
.LBB14_1:
	leaq 8(%r15), %rdi
	testq %r14, %r14
	je .LBB14_2
	movl (%rdi), %eax
	xorl %ecx, %ecx
	jmp .LBB14_4
	.p2align 4
.LBB14_7:
	incq %rcx
	cmpq %rcx, %r14
	je .LBB14_8
.LBB14_4:
	movl (%r12,%rcx,4), %edx
	subl %eax, %edx
	cmpl $63, %edx
	ja .LBB14_7
	movq 24(%r15), %rsi
	btq %rdx, %rsi
	jae .LBB14_7
	movl $-3, %eax
	jmp .LBB14_32
.LBB14_8:
	movq 32(%r15), %rsi
	cmpq $4, %r14
	jae .LBB14_11
	xorl %edx, %edx
	jmp .LBB14_10
.LBB14_2:
	movq 32(%r15), %rsi
	jmp .LBB14_15
.LBB14_11:
	movq %r14, %rdx
	andq $-4, %rdx
	movq %rsi, %xmm1
	shufpd $2, .LCPI14_0(%rip), %xmm1
	movd %eax, %xmm0
	pshufd $0, %xmm0, %xmm0
	pcmpeqd %xmm2, %xmm2
	xorl %ecx, %ecx
	.p2align 4
.LBB14_12:
	movdqa %xmm2, %xmm3
	movapd %xmm1, %xmm5
	movq (%r12,%rcx,4), %xmm6
	movq 8(%r12,%rcx,4), %xmm4
	psubd %xmm0, %xmm6
	psubd %xmm0, %xmm4
	pshufd $80, %xmm6, %xmm1
	movdqa .LCPI14_1(%rip), %xmm7
	pxor %xmm7, %xmm1
	movdqa .LCPI14_2(%rip), %xmm8
	pcmpgtd %xmm8, %xmm1
	pshufd $80, %xmm4, %xmm2
	pxor %xmm7, %xmm2
	pcmpgtd %xmm8, %xmm2
	pxor %xmm7, %xmm7
	pxor %xmm8, %xmm8
	movss %xmm6, %xmm8
	movss %xmm4, %xmm7
	movdqa .LCPI14_3(%rip), %xmm9
	movdqa %xmm9, %xmm10
	psllq %xmm8, %xmm10
	psrlq $32, %xmm6
	movdqa %xmm9, %xmm8
	psllq %xmm6, %xmm8
	movsd %xmm10, %xmm8
	pandn %xmm8, %xmm1
	pandn %xmm5, %xmm1
	movdqa %xmm9, %xmm5
	psllq %xmm7, %xmm5
	psrlq $32, %xmm4
	psllq %xmm4, %xmm9
	movsd %xmm5, %xmm9
	pandn %xmm9, %xmm2
	pandn %xmm3, %xmm2
	addq $4, %rcx
	cmpq %rcx, %rdx
	jne .LBB14_12
	pand %xmm1, %xmm2
	pshufd $238, %xmm2, %xmm0
	pand %xmm2, %xmm0
	movq %xmm0, %rsi
	jmp .LBB14_14
.LBB14_10:
	movl (%r12,%rdx,4), %ecx
	subl %eax, %ecx
	movq $-2, %r8
	rolq %cl, %r8
	cmpl $64, %ecx
	movq $-1, %rcx
	cmovbq %r8, %rcx
	andq %rcx, %rsi
	incq %rdx
.LBB14_14:
	cmpq %rdx, %r14
	jne .LBB14_10
.LBB14_15:
	testq %rsi, %rsi
	jne .LBB14_17
	cmpb $0, 20(%r15)
	je .LBB14_17
	movq %r13, %rsi
	xorl %edx, %edx
	movq %r12, %rcx
	movq %r14, %r8
	callq tag_cache.cache.Cache.give_back_kept_and_list_i64_core.clone.U64Clone
	movl %eax, %r14d
	jmp .LBB14_28
.LBB14_17:
	movq %rbx, (%rsp)
	movq %rsi, 32(%r15)
	movl 188(%rbp), %eax
	movl 232(%rbp), %esi
	movl (%r12), %r10d
	subl %esi, %r10d
	movl %eax, %ecx
	shrl %cl, %r10d
	movabsq $3689348814741910323, %r9
	testq %r14, %r14
	je .LBB14_18
	movl $-1, %r13d
	movl %eax, %ecx
	shll %cl, %r13d
	notl %r13d
	xorl %r11d, %r11d
	xorl %ebx, %ebx
	jmp .LBB14_20
	.p2align 4
.LBB14_22:
	movq 120(%rbp), %rcx
	movl %r10d, %edx
	movq %rdx, %r10
	shlq $7, %r10
	lock  subq %r11, 576(%rcx,%r10)
	movq 304(%r15), %rcx
	movq %r11, %r10
	notq %r10
	andq %r10, (%rcx,%rdx,8)
	movq %r11, %rcx
	shrq %rcx
	movabsq $6148914691236517205, %rdx
	andq %rdx, %rcx
	subq %rcx, %r11
	movq %r11, %rcx
	andq %r9, %rcx
	shrq $2, %r11
	andq %r9, %r11
	addq %rcx, %r11
	movq %r11, %rcx
	shrq $4, %rcx
	addq %r11, %rcx
	movabsq $1085102592571150095, %rdx
	andq %rdx, %rcx
	movabsq $72340172838076673, %rdx
	imulq %rdx, %rcx
	shrq $56, %rcx
	addq %rcx, 336(%r15)
	movl %edi, %r10d
	incq %rbx
	movq %r8, %r11
	cmpq %rbx, %r14
	je .LBB14_24
.LBB14_20:
	movl (%r12,%rbx,4), %edx
	subl %esi, %edx
	movl %edx, %edi
	movl %eax, %ecx
	shrl %cl, %edi
	andl %r13d, %edx
	movl $1, %r8d
	movl %edx, %ecx
	shlq %cl, %r8
	cmpl %r10d, %edi
	jne .LBB14_22
	orq %r11, %r8
	incq %rbx
	movq %r8, %r11
	cmpq %rbx, %r14
	jne .LBB14_20
	jmp .LBB14_24
.LBB14_18:
	xorl %r8d, %r8d
.LBB14_24:
	movq 120(%rbp), %rax
	movl %r10d, %ecx
	movq %rcx, %rdx
	shlq $7, %rdx
	lock  subq %r8, 576(%rax,%rdx)
	movq 304(%r15), %rax
	movq %r8, %rdx
	notq %rdx
	andq %rdx, (%rax,%rcx,8)
	movq %r8, %rax
	shrq %rax
	movabsq $6148914691236517205, %rcx
	andq %rcx, %rax
	subq %rax, %r8
	movq %r8, %rax
	andq %r9, %rax
	shrq $2, %r8
	andq %r9, %r8
	addq %rax, %r8
	movq %r8, %rax
	shrq $4, %rax
	addq %r8, %rax
	movabsq $1085102592571150095, %rcx
	andq %rcx, %rax
	movabsq $72340172838076673, %rcx
	imulq %rcx, %rax
	shrq $56, %rax
	addq %rax, 336(%r15)
	cmpb $0, 268(%r15)
	jne .LBB14_26
	movl -4(%r12,%r14,4), %eax
	subl %esi, %eax
	movl %eax, 264(%r15)
.LBB14_26:
	movq (%rsp), %rbx
.LBB14_28:
	movq (%r15), %rax
	movq 120(%rax), %rax
	movq 8(%rax), %rax
	testq %rax, %rax
	je .LBB14_29
	movq %r15, %rdi
	xorl %esi, %esi
	movl %r14d, %edx
	movq %rbx, %rcx
	addq $8, %rsp
	popq %rbx
	popq %r12
	popq %r13
	popq %r14
	popq %r15
	popq %rbp
	jmp tag_c.telling.CachedMemberTellingCalls.tell
.LBB14_29:
	xorl %eax, %eax
	jmp .LBB14_32
.Lfunc_end14:
	.size tag_c.clears.CachedMemberClearCalls.clear_batch, .Lfunc_end14-tag_c.clears.CachedMemberClearCalls.clear_batch
	.section .text.tag_cache.cache.Cache.give_back_kept_and_list_i64_core.clone.U64Clone,"ax",@progbits
	.p2align 4
	.type tag_cache.cache.Cache.give_back_kept_and_list_i64_core.clone.U64Clone,@function
tag_cache.cache.Cache.give_back_kept_and_list_i64_core.clone.U64Clone:
	pushq %rbp
	pushq %r15
	pushq %r14
	pushq %r13
	pushq %r12
	pushq %rbx
	pushq %rax
	movq %r8, %rbx
	movq %rcx, %r15
	movq %rdx, %r13
	movq %rsi, %r12
	movq %rdi, %r14
	callq tag_cache.cache.Cache.give_back_kept_i64_core.clone.U64Clone
	movl %eax, 4(%rsp)
	movq %r13, 24(%r14)
	movl 180(%r12), %edx
	movl 224(%r12), %edi
	movl (%r15), %r11d
	subl %edi, %r11d
	movl %edx, %ecx
	shrl %cl, %r11d
	movabsq $3689348814741910323, %r10
	testq %rbx, %rbx
	je .LBB15_1
	movl $-1, %ebp
	movl %edx, %ecx
	shll %cl, %ebp
	notl %ebp
	xorl %r13d, %r13d
	xorl %r8d, %r8d
	jmp .LBB15_3
	.p2align 4
.LBB15_4:
	orq %r13, %r9
	incq %r8
	movq %r9, %r13
	cmpq %r8, %rbx
	je .LBB15_7
.LBB15_3:
	movl (%r15,%r8,4), %esi
	subl %edi, %esi
	movl %esi, %eax
	movl %edx, %ecx
	shrl %cl, %eax
	andl %ebp, %esi
	movl $1, %r9d
	movl %esi, %ecx
	shlq %cl, %r9
	cmpl %r11d, %eax
	je .LBB15_4
	movq 112(%r12), %rcx
	movl %r11d, %esi
	movq %rsi, %r11
	shlq $7, %r11
	lock  subq %r13, 576(%rcx,%r11)
	movq 296(%r14), %rcx
	movq %r13, %r11
	notq %r11
	andq %r11, (%rcx,%rsi,8)
	movq %r13, %rcx
	shrq %rcx
	movabsq $6148914691236517205, %rsi
	andq %rsi, %rcx
	subq %rcx, %r13
	movq %r13, %rcx
	andq %r10, %rcx
	shrq $2, %r13
	andq %r10, %r13
	addq %rcx, %r13
	movq %r13, %rcx
	shrq $4, %rcx
	addq %r13, %rcx
	movabsq $1085102592571150095, %rsi
	andq %rsi, %rcx
	movabsq $72340172838076673, %rsi
	imulq %rsi, %rcx
	shrq $56, %rcx
	addq %rcx, 328(%r14)
	movl %eax, %r11d
	incq %r8
	movq %r9, %r13
	cmpq %r8, %rbx
	jne .LBB15_3
	jmp .LBB15_7
.LBB15_1:
	xorl %r9d, %r9d
.LBB15_7:
	movq 112(%r12), %rax
	movl %r11d, %ecx
	movq %rcx, %rdx
	shlq $7, %rdx
	lock  subq %r9, 576(%rax,%rdx)
	movq 296(%r14), %rax
	movq %r9, %rdx
	notq %rdx
	andq %rdx, (%rax,%rcx,8)
	movq %r9, %rax
	shrq %rax
	movabsq $6148914691236517205, %rcx
	andq %rcx, %rax
	subq %rax, %r9
	movq %r9, %rax
	andq %r10, %rax
	shrq $2, %r9
	andq %r10, %r9
	addq %rax, %r9
	movq %r9, %rax
	shrq $4, %rax
	addq %r9, %rax
	movabsq $1085102592571150095, %rcx
	andq %rcx, %rax
	movabsq $72340172838076673, %rcx
	imulq %rcx, %rax
	shrq $56, %rax
	addq %rax, 328(%r14)
	cmpb $0, 260(%r14)
	jne .LBB15_9
	movl -4(%r15,%rbx,4), %eax
	subl %edi, %eax
	movl %eax, 256(%r14)
.LBB15_9:
	movl 4(%rsp), %eax
	addl %ebx, %eax
	addq $8, %rsp
	popq %rbx
	popq %r12
	popq %r13
	popq %r14
	popq %r15
	popq %rbp
	retq
.Lfunc_end15:
	.size tag_cache.cache.Cache.give_back_kept_and_list_i64_core.clone.U64Clone, .Lfunc_end15-tag_cache.cache.Cache.give_back_kept_and_list_i64_core.clone.U64Clone
	.section .text.tag_pool.clears.masks.words.are_held_across_i64,"ax",@progbits
	.p2align 4
	.type tag_pool.clears.masks.words.are_held_across_i64,@function
tag_pool.clears.masks.words.are_held_across_i64:
	pushq %rbp
	pushq %r15
	pushq %r14
	pushq %rbx
	movl %ecx, %r10d
	movl %ecx, %ebp
	movl %esi, %ecx
	shrl %cl, %ebp
	shrl %cl, %r9d
	incl %r9d
	movb $1, %al
	cmpl %r9d, %ebp
	jae .LBB16_4
	movl $-1, %eax
	movl %esi, %ecx
	shll %cl, %eax
	notl %eax
	andl %r10d, %eax
	movq %r8, %r11
	movl %eax, %ecx
	shlq %cl, %r11
	movl $1, %ebx
	movl %esi, %ecx
	shll %cl, %ebx
	movq 24(%rdx), %rdx
	movl %ebp, %r14d
	movl %r9d, %r9d
	decq %r9
	.p2align 4
.LBB16_2:
	movl %r14d, %eax
	movl %esi, %ecx
	shll %cl, %eax
	movl %eax, %ecx
	subl %r10d, %ecx
	movq %r8, %r15
	shrq %cl, %r15
	cmpl %r10d, %eax
	cmovbq %r11, %r15
	movl %edi, %ecx
	subl %eax, %ecx
	cmpl %ecx, %ebx
	cmovbl %ebx, %ecx
	negb %cl
	shlq %cl, %r15
	shrq %cl, %r15
	movq (%rdx,%r14,8), %rax
	andq %r15, %rax
	cmpq %r15, %rax
	sete %al
	jne .LBB16_4
	cmpq %r14, %r9
	leaq 1(%r14), %r14
	jne .LBB16_2
.LBB16_4:
	popq %rbx
	popq %r14
	popq %r15
	popq %rbp
	retq
.Lfunc_end16:
	.size tag_pool.clears.masks.words.are_held_across_i64, .Lfunc_end16-tag_pool.clears.masks.words.are_held_across_i64
	.section .text.tag_c.masks.CachedMemberMaskCalls.clear_mask,"ax",@progbits
	.p2align 4
	.type tag_c.masks.CachedMemberMaskCalls.clear_mask,@function
tag_c.masks.CachedMemberMaskCalls.clear_mask:
	pushq %rbp
	pushq %r15
	pushq %r14
	pushq %r13
	pushq %r12
	pushq %rbx
	pushq %rax
	testq %rdx, %rdx
	je .LBB17_1
	movq (%rdi), %rbx
	movl 232(%rbx), %eax
	movl %eax, %r9d
	subl %esi, %r9d
	jbe .LBB17_3
	rep  bsfq %rdx, %r8
	movl $-1, %eax
	cmpl %r8d, %r9d
	ja .LBB17_29
	movq %rdx, %r8
	movq %rcx, %rax
	movl %r9d, %ecx
	shrq %cl, %r8
	movq %rax, %rcx
	xorl %r11d, %r11d
	movl 184(%rbx), %r10d
	movl $-1, %eax
	cmpl %r11d, %r10d
	ja .LBB17_7
	jmp .LBB17_29
.LBB17_1:
	movl $-5, %eax
	jmp .LBB17_29
.LBB17_3:
	movl %esi, %r11d
	subl %eax, %r11d
	movq %rdx, %r8
	movl 184(%rbx), %r10d
	movl $-1, %eax
	cmpl %r11d, %r10d
	jbe .LBB17_29
.LBB17_7:
	movl $127, %r14d
	bsrq %r8, %r14
	xorl $63, %r14d
	movl %r11d, %r9d
	subl %r14d, %r9d
	addl $63, %r9d
	cmpl %r9d, %r10d
	jbe .LBB17_29
	movq %rcx, %r14
	movl 188(%rbx), %ecx
	movl %r11d, %eax
	shrl %cl, %eax
	movl %r9d, %ebp
	shrl %cl, %ebp
	cmpl %eax, %ebp
	jne .LBB17_9
	movl $-1, %r9d
	shll %cl, %r9d
	notl %r9d
	andl %r9d, %r11d
	movl %r11d, %ecx
	shlq %cl, %r8
	movq 304(%rdi), %rcx
	movl %eax, %eax
	movq (%rcx,%rax,8), %rcx
	notq %rcx
	movl $-3, %eax
	testq %rcx, %r8
	je .LBB17_11
	jmp .LBB17_29
.LBB17_9:
	leaq 280(%rdi), %rax
	movq %rdi, %r15
	movl %r10d, %edi
	movq %rsi, %r12
	movl %ecx, %esi
	movq %rdx, %r13
	movq %rax, %rdx
	movl %r11d, %ecx
	callq tag_pool.clears.masks.words.are_held_across_i64
	movq %r12, %rsi
	movq %r13, %rdx
	movq %r15, %rdi
	movl %eax, %ecx
	movl $-3, %eax
	testb %cl, %cl
	je .LBB17_29
.LBB17_11:
	leaq 8(%rdi), %r8
	movl (%r8), %r10d
	movl %esi, %eax
	subl %r10d, %eax
	movl %r10d, %ecx
	subl %esi, %ecx
	movl %ecx, %r11d
	cmovbl %eax, %r11d
	movq $-1, %r9
	cmpl $63, %r11d
	ja .LBB17_14
	movq %rdx, %r11
	shrq %cl, %r11
	movq %rdx, %r9
	movl %eax, %ecx
	shlq %cl, %r9
	cmpl %esi, %r10d
	cmovaeq %r11, %r9
	movl $-3, %eax
	testq %r9, 24(%rdi)
	jne .LBB17_29
	notq %r9
.LBB17_14:
	andq 32(%rdi), %r9
	jne .LBB17_16
	cmpb $0, 20(%rdi)
	je .LBB17_16
	addq $8, %rbx
	movq %rdi, %r15
	movq %r8, %rdi
	movq %rsi, %rcx
	movq %rbx, %rsi
	movq %rdx, %r8
	xorl %edx, %edx
	callq tag_cache.cache.Cache.give_back_kept_and_mask_i64_core.clone.U64Clone
	movq %r15, %rdi
	movq %r14, %rcx
	jmp .LBB17_27
.LBB17_16:
	movq %r9, 32(%rdi)
	movl 232(%rbx), %eax
	movl %eax, %ecx
	subl %esi, %ecx
	jbe .LBB17_17
	rep  bsfq %rdx, %rax
	cmpl %eax, %ecx
	ja .LBB17_30
	movq %rdx, %rax
	shrq %cl, %rax
	xorl %esi, %esi
	jmp .LBB17_20
.LBB17_17:
	subl %eax, %esi
	movq %rdx, %rax
.LBB17_20:
	movl $127, %r9d
	bsrq %rax, %r9
	xorl $63, %r9d
	negl %r9d
	movl 188(%rbx), %ecx
	movl %esi, %r8d
	shrl %cl, %r8d
	leal (%rsi,%r9), %ebp
	addl $63, %ebp
	addq $120, %rbx
	movl %ebp, %r9d
	shrl %cl, %r9d
	movabsq $6148914691236517205, %r12
	movabsq $3689348814741910323, %r15
	movabsq $1085102592571150095, %r13
	movabsq $72340172838076673, %r10
	cmpl %r8d, %r9d
	jne .LBB17_21
	movl $-1, %r9d
	shll %cl, %r9d
	notl %r9d
	andl %r9d, %esi
	movl %esi, %ecx
	shlq %cl, %rax
	movq (%rbx), %rcx
	movl %r8d, %esi
	movq %rsi, %r8
	shlq $7, %r8
	lock  subq %rax, 576(%rcx,%r8)
	movq 304(%rdi), %rcx
	movq %rax, %r8
	notq %r8
	andq %r8, (%rcx,%rsi,8)
	movq %rax, %rcx
	shrq %rcx
	andq %r12, %rcx
	subq %rcx, %rax
	movq %rax, %rcx
	andq %r15, %rcx
	shrq $2, %rax
	andq %r15, %rax
	addq %rcx, %rax
	movq %rax, %rcx
	shrq $4, %rcx
	addq %rax, %rcx
	andq %r13, %rcx
	imulq %r10, %rcx
	shrq $56, %rcx
	addq %rcx, 336(%rdi)
	jmp .LBB17_23
.LBB17_21:
	leaq 280(%rdi), %rcx
	movq %rdi, %r12
	movq %rbx, %rdi
	movq %rsi, %r8
	movq %rcx, %rsi
	movq %rdx, %rbx
	movl %r8d, %edx
	movq %rax, %rcx
	movl %ebp, %r8d
	movq %r10, %r15
	callq tag_pool.clears.masks.words.give_mask_across_i64
	movq %r15, %r10
	movabsq $3689348814741910323, %r15
	movq %rbx, %rdx
	movq %r12, %rdi
	movabsq $6148914691236517205, %r12
.LBB17_23:
	cmpb $0, 268(%rdi)
	movq %r14, %rcx
	jne .LBB17_25
	movl %ebp, 264(%rdi)
.LBB17_25:
	movq %rdx, %rax
	shrq %rax
	andq %r12, %rax
	subq %rax, %rdx
	movq %rdx, %rax
	andq %r15, %rax
	shrq $2, %rdx
	andq %r15, %rdx
	addq %rax, %rdx
	movq %rdx, %rax
	shrq $4, %rax
	addq %rdx, %rax
	andq %r13, %rax
	imulq %r10, %rax
	shrq $56, %rax
.LBB17_27:
	movq (%rdi), %rdx
	movq 120(%rdx), %rdx
	movq 8(%rdx), %rdx
	testq %rdx, %rdx
	je .LBB17_28
	xorl %esi, %esi
	movl %eax, %edx
	addq $8, %rsp
	popq %rbx
	popq %r12
	popq %r13
	popq %r14
	popq %r15
	popq %rbp
	jmp tag_c.telling.CachedMemberTellingCalls.tell
.LBB17_28:
	xorl %eax, %eax
.LBB17_29:
	addq $8, %rsp
	popq %rbx
	popq %r12
	popq %r13
	popq %r14
	popq %r15
	popq %rbp
	retq
.LBB17_30:
	ud2
.Lfunc_end17:
	.size tag_c.masks.CachedMemberMaskCalls.clear_mask, .Lfunc_end17-tag_c.masks.CachedMemberMaskCalls.clear_mask
	.section .text.tag_cache.cache.Cache.give_back_kept_and_mask_i64_core.clone.U64Clone,"ax",@progbits
	.p2align 4
	.type tag_cache.cache.Cache.give_back_kept_and_mask_i64_core.clone.U64Clone,@function
tag_cache.cache.Cache.give_back_kept_and_mask_i64_core.clone.U64Clone:
	pushq %rbp
	pushq %r15
	pushq %r14
	pushq %r13
	pushq %r12
	pushq %rbx
	pushq %rax
	movq %r8, %rbx
	movl %ecx, %r12d
	movq %rdx, %r13
	movq %rsi, %r15
	movq %rdi, %r14
	callq tag_cache.cache.Cache.give_back_kept_i64_core.clone.U64Clone
	movq %r13, 24(%r14)
	movl 224(%r15), %edx
	movl %edx, %ecx
	subl %r12d, %ecx
	jbe .LBB18_1
	movl $64, %edx
	rep  bsfq %rbx, %rdx
	cmpl %edx, %ecx
	ja .LBB18_10
	movq %rbx, %r8
	shrq %cl, %r8
	xorl %r12d, %r12d
	jmp .LBB18_4
.LBB18_1:
	subl %edx, %r12d
	movq %rbx, %r8
.LBB18_4:
	movl $127, %esi
	bsrq %r8, %rsi
	xorl $63, %esi
	negl %esi
	movl 180(%r15), %ecx
	movl %r12d, %edx
	shrl %cl, %edx
	leal (%r12,%rsi), %ebp
	addl $63, %ebp
	addq $112, %r15
	movl %ebp, %esi
	shrl %cl, %esi
	movabsq $6148914691236517205, %r10
	movabsq $3689348814741910323, %r13
	movabsq $1085102592571150095, %r9
	movabsq $72340172838076673, %rdi
	cmpl %edx, %esi
	jne .LBB18_5
	movl $-1, %esi
	shll %cl, %esi
	notl %esi
	andl %esi, %r12d
	movl %r12d, %ecx
	shlq %cl, %r8
	movq (%r15), %rcx
	movl %edx, %edx
	movq %rdx, %rsi
	shlq $7, %rsi
	lock  subq %r8, 576(%rcx,%rsi)
	movq 296(%r14), %rcx
	movq %r8, %rsi
	notq %rsi
	andq %rsi, (%rcx,%rdx,8)
	movq %r8, %rcx
	shrq %rcx
	andq %r10, %rcx
	subq %rcx, %r8
	movq %r8, %rcx
	andq %r13, %rcx
	shrq $2, %r8
	andq %r13, %r8
	addq %rcx, %r8
	movq %r8, %rcx
	shrq $4, %rcx
	addq %r8, %rcx
	andq %r9, %rcx
	imulq %rdi, %rcx
	shrq $56, %rcx
	addq %rcx, 328(%r14)
	cmpb $0, 260(%r14)
	je .LBB18_8
	jmp .LBB18_9
.LBB18_5:
	leaq 272(%r14), %rsi
	movq %r15, %rdi
	movl %r12d, %edx
	movq %r8, %rcx
	movl %ebp, %r8d
	movl %eax, %r15d
	movq %r9, %r12
	callq tag_pool.clears.masks.words.give_mask_across_i64
	movabsq $6148914691236517205, %r10
	movq %r12, %r9
	movabsq $72340172838076673, %rdi
	movl %r15d, %eax
	cmpb $0, 260(%r14)
	jne .LBB18_9
.LBB18_8:
	movl %ebp, 256(%r14)
.LBB18_9:
	movq %rbx, %rcx
	shrq %rcx
	andq %r10, %rcx
	subq %rcx, %rbx
	movq %rbx, %rcx
	andq %r13, %rcx
	shrq $2, %rbx
	andq %r13, %rbx
	addq %rcx, %rbx
	movq %rbx, %rcx
	shrq $4, %rcx
	addq %rbx, %rcx
	andq %r9, %rcx
	imulq %rdi, %rcx
	shrq $56, %rcx
	addl %ecx, %eax
	addq $8, %rsp
	popq %rbx
	popq %r12
	popq %r13
	popq %r14
	popq %r15
	popq %rbp
	retq
.LBB18_10:
	ud2
.Lfunc_end18:
	.size tag_cache.cache.Cache.give_back_kept_and_mask_i64_core.clone.U64Clone, .Lfunc_end18-tag_cache.cache.Cache.give_back_kept_and_mask_i64_core.clone.U64Clone
	.section .text.tag_c.flush.CachedMemberFlushCalls.flush,"ax",@progbits
	.p2align 4
	.type tag_c.flush.CachedMemberFlushCalls.flush,@function
tag_c.flush.CachedMemberFlushCalls.flush:
	pushq %rbp
	pushq %r15
	pushq %r14
	pushq %rbx
	pushq %rax
	movq %rsi, %rbx
	movq %rdi, %r15
	leaq 8(%rdi), %r14
	movq (%rdi), %rsi
	addq $8, %rsi
	movq %r14, %rdi
	callq tag_cache.cache.Cache.give_back_kept_i64_core.clone.U64Clone
	movq (%r15), %rsi
	movq 120(%rsi), %rcx
	movq 8(%rcx), %rcx
	testq %rcx, %rcx
	je .LBB19_1
	addq $8, %rsi
	movq %r14, %rdi
	movl %eax, %edx
	movl %eax, %ebp
	callq tag_cache.cache.Cache.give_back_and_tell_i64_core.clone.U64Clone
	movq %rax, %rcx
	movl %ebp, %eax
	movq %rdx, %rsi
	orq %rcx, %rsi
	je .LBB19_5
.LBB19_4:
	movq %rcx, (%rbx)
	movq %rdx, 8(%rbx)
	orl $1073741824, %eax
.LBB19_5:
	addq $8, %rsp
	popq %rbx
	popq %r14
	popq %r15
	popq %rbp
	retq
.LBB19_1:
	xorl %ecx, %ecx
	xorl %edx, %edx
	movq %rdx, %rsi
	orq %rcx, %rsi
	jne .LBB19_4
	jmp .LBB19_5
.Lfunc_end19:
	.size tag_c.flush.CachedMemberFlushCalls.flush, .Lfunc_end19-tag_c.flush.CachedMemberFlushCalls.flush
	.section .text.tag_c.gets.MemberGetCalls.get,"ax",@progbits
	.p2align 4
	.type tag_c.gets.MemberGetCalls.get,@function
tag_c.gets.MemberGetCalls.get:
	pushq %r15
	pushq %r14
	pushq %rbx
	movq 256(%rdi), %rax
	cmpq 288(%rdi), %rax
	jne .LBB20_1
.LBB20_11:
	popq %rbx
	popq %r14
	popq %r15
	jmp tag_c.member.Member.get_whole
.LBB20_1:
	movq (%rdi), %rax
	movl 184(%rax), %r9d
	movl 224(%rdi), %r10d
	cmpl %r10d, %r9d
	jbe .LBB20_11
	testb $1, 228(%rdi)
	jne .LBB20_11
	movl 188(%rax), %ecx
	shrl %cl, %r10d
	movq 120(%rax), %rdx
	movq %r10, %r11
	shlq $7, %r11
	movq 576(%rdx,%r11), %rdx
	notq %rdx
	movl $64, %r8d
	rep  bsfq %rdx, %r8
	movl %r8d, %edx
	shrl %cl, %edx
	testl %edx, %edx
	jne .LBB20_12
	movl %r10d, %edx
	shll %cl, %edx
	addl %r8d, %edx
	cmpl %edx, %r9d
	jbe .LBB20_12
	movq 120(%rax), %r14
	movl $1, %ebx
	movl %r8d, %ecx
	shlq %cl, %rbx
	.p2align 4
.LBB20_6:
	movq 576(%r14,%r11), %rcx
	movq %rcx, %r15
	orq %rbx, %r15
	movq %rcx, %rax
	lock  cmpxchgq %r15, 576(%r14,%r11)
	jne .LBB20_6
	testq %rbx, %rcx
	je .LBB20_8
	leal 1(%r8), %edx
	popq %rbx
	popq %r14
	popq %r15
	jmp tag_c.member.Member.get_past_lost
.LBB20_12:
	popq %rbx
	popq %r14
	popq %r15
	jmp tag_c.member.Member.get_past_full
.LBB20_8:
	movq 264(%rdi), %rax
	orq %rbx, (%rax,%r10,8)
	incq 288(%rdi)
	cmpl 224(%rdi), %edx
	jne .LBB20_10
	leal 1(%rdx), %eax
	decl %r9d
	xorl %ecx, %ecx
	cmpl %r9d, %eax
	cmovbl %eax, %ecx
	movl %ecx, 224(%rdi)
.LBB20_10:
	addl 8(%rdi), %edx
	movl %edx, %eax
	popq %rbx
	popq %r14
	popq %r15
	retq
.Lfunc_end20:
	.size tag_c.gets.MemberGetCalls.get, .Lfunc_end20-tag_c.gets.MemberGetCalls.get
	.section .text.tag_search.shared.SharedPort.claim_one_i64,"ax",@progbits
	.p2align 4
	.type tag_search.shared.SharedPort.claim_one_i64,@function
tag_search.shared.SharedPort.claim_one_i64:
	movl $1, %r8d
	shlq %cl, %r8
	movl %edx, %ecx
	movq %rcx, %r9
	shlq $7, %r9
	.p2align 4
.LBB21_1:
	movq 576(%rdi,%r9), %rdx
	movq %rdx, %r10
	orq %r8, %r10
	movq %rdx, %rax
	lock  cmpxchgq %r10, 576(%rdi,%r9)
	jne .LBB21_1
	movb $1, %al
	testq %r8, %rdx
	je .LBB21_3
	retq
.LBB21_3:
	movq 24(%rsi), %rax
	orq %r8, (%rax,%rcx,8)
	incq 48(%rsi)
	xorl %edx, %edx
	xorl %eax, %eax
	retq
.Lfunc_end21:
	.size tag_search.shared.SharedPort.claim_one_i64, .Lfunc_end21-tag_search.shared.SharedPort.claim_one_i64
	.section .text.tag_c.member.Member.get_whole,"ax",@progbits
	.p2align 4
	.type tag_c.member.Member.get_whole,@function
tag_c.member.Member.get_whole:
	pushq %rbp
	pushq %r15
	pushq %r14
	pushq %r13
	pushq %r12
	pushq %rbx
	subq $40, %rsp
	movq (%rdi), %r15
	xorps %xmm0, %xmm0
	movaps %xmm0, 16(%rsp)
	movaps %xmm0, (%rsp)
	movq 256(%rdi), %rax
	cmpq 288(%rdi), %rax
	jne .LBB22_1
	movl $-7, %eax
	jmp .LBB22_21
.LBB22_1:
	movq %rsi, %rbx
	movq %rdi, %r14
	leaq 224(%rdi), %r9
	leaq 120(%r15), %rsi
	movl 184(%r15), %edi
	movl 224(%r14), %r8d
	xorl %eax, %eax
	cmpl %r8d, %edi
	jbe .LBB22_4
	testb $1, 228(%r14)
	movl $0, %r10d
	movl $0, %ecx
	jne .LBB22_10
	movl 188(%r15), %ecx
	shrl %cl, %r8d
	movq (%rsi), %rax
	movq %r8, %r10
	shlq $7, %r10
	movq 576(%rax,%r10), %rax
	notq %rax
	movl $64, %edx
	rep  bsfq %rax, %rdx
	movl %edx, %r11d
	shrl %cl, %r11d
	movl $1, %eax
	testl %r11d, %r11d
	jne .LBB22_4
	movl %r8d, %r11d
	shll %cl, %r11d
	addl %edx, %r11d
	cmpl %r11d, %edi
	jbe .LBB22_4
	movq (%rsi), %r13
	movl $1, %r12d
	movl %edx, %ecx
	shlq %cl, %r12
	.p2align 4
.LBB22_7:
	movq 576(%r13,%r10), %rcx
	movq %rcx, %rbp
	orq %r12, %rbp
	movq %rcx, %rax
	lock  cmpxchgq %rbp, 576(%r13,%r10)
	jne .LBB22_7
	testq %r12, %rcx
	je .LBB22_12
	leal 1(%rdx), %r10d
	movl $2, %eax
	jmp .LBB22_10
.LBB22_4:
	xorl %r10d, %r10d
	xorl %ecx, %ecx
.LBB22_10:
	leaq 240(%r14), %rdx
	movl %eax, (%rsp)
	movl %r10d, 4(%rsp)
	movq %rcx, 8(%rsp)
	leaq 16(%rsp), %rdi
	movq %rsp, %r8
	movq %r9, %rcx
	callq tag_search.on_map.finish_i64
	movq 24(%rsp), %rcx
	movl $-10, %eax
	cmpb $1, 16(%rsp)
	jne .LBB22_16
	movl 20(%rsp), %eax
.LBB22_15:
	addl 232(%r15), %eax
.LBB22_16:
	testq %rcx, %rcx
	je .LBB22_21
	movq (%r14), %rdi
	movq 120(%rdi), %rdx
	movq 8(%rdx), %rdx
	testq %rdx, %rdx
	je .LBB22_18
	addq $120, %rdi
	cmpq $64, %rcx
	movl $64, %esi
	cmovbq %rcx, %rsi
	movq %rax, %r14
	callq tag_bell.telling.tell_each_i64
	movq %rax, %rcx
	movq %r14, %rax
	jmp .LBB22_20
.LBB22_18:
	xorl %edx, %edx
	xorl %ecx, %ecx
.LBB22_20:
	movq %rcx, (%rbx)
	movq %rdx, 8(%rbx)
	addl $1073741824, %eax
.LBB22_21:
	addq $40, %rsp
	popq %rbx
	popq %r12
	popq %r13
	popq %r14
	popq %r15
	popq %rbp
	retq
.LBB22_12:
	movq 264(%r14), %rax
	orq %r12, (%rax,%r8,8)
	incq 288(%r14)
	movq %r11, %rax
	cmpl 224(%r14), %eax
	jne .LBB22_14
	leal 1(%rax), %ecx
	decl %edi
	xorl %edx, %edx
	cmpl %edi, %ecx
	cmovbl %ecx, %edx
	movl %edx, (%r9)
.LBB22_14:
	xorl %ecx, %ecx
	jmp .LBB22_15
.Lfunc_end22:
	.size tag_c.member.Member.get_whole, .Lfunc_end22-tag_c.member.Member.get_whole
	.section .text.tag_search.on_map.finish_i64,"ax",@progbits
	.p2align 4
	.type tag_search.on_map.finish_i64,@function
tag_search.on_map.finish_i64:
	pushq %rbp
	pushq %r15
	pushq %r14
	pushq %r13
	pushq %r12
	pushq %rbx
	subq $72, %rsp
	movq %rcx, %r14
	movq %rdx, %rax
	movq %rdi, %rbx
	movzbl (%r8), %edi
	movl 4(%r8), %edx
	movq 8(%r8), %r9
	xorps %xmm0, %xmm0
	movups %xmm0, 32(%rsp)
	movq $0, 48(%rsp)
	movq %rsi, 16(%rsp)
	movq %rax, 24(%rsp)
	movl 64(%rsi), %r8d
	movl 68(%rsi), %ecx
	cmpl $2, %edi
	je .LBB23_50
	cmpl $1, %edi
	jne .LBB23_2
	movl (%r14), %r10d
	movl %r10d, %ebp
	shrl %cl, %ebp
	movl %ebp, %r12d
	shll %cl, %r12d
	movl $1, %eax
	movl %ecx, 60(%rsp)
	shll %cl, %eax
	movl %r8d, %r13d
	subl %r12d, %r13d
	cmpl %r13d, %eax
	cmovbl %eax, %r13d
	movq %rbp, %r15
	shlq $7, %r15
	movzbl 4(%r14), %r11d
	movq (%rsi), %rax
	movq 640(%rax,%r15), %rax
	cmpl %r12d, %r8d
	movl %r8d, 12(%rsp)
	jne .LBB23_4
	testq %rax, %rax
	je .LBB23_10
	movq 16(%rsp), %rax
	movq 24(%rsp), %rdx
	movq (%rax), %rcx
	xorl %esi, %esi
	xchgq %rsi, 640(%rcx,%r15)
	testq %rsi, %rsi
	jne .LBB23_6
.LBB23_10:
	movq 16(%rsp), %rax
	movq (%rax), %rax
	movq 576(%rax,%r15), %rax
	movq 16(%rsp), %rax
	movq (%rax), %rax
	movq 640(%rax,%r15), %rax
	testq %rax, %rax
	je .LBB23_12
	movq 16(%rsp), %rax
	movq 24(%rsp), %rdx
	movq (%rax), %rcx
	xorl %esi, %esi
	xchgq %rsi, 640(%rcx,%r15)
	testq %rsi, %rsi
	jne .LBB23_6
.LBB23_12:
	movq 16(%rsp), %rax
	movq (%rax), %rax
	movq 576(%rax,%r15), %rax
	movq 16(%rsp), %rax
	movq (%rax), %rax
	movq 640(%rax,%r15), %rax
	testq %rax, %rax
	je .LBB23_14
	movq 16(%rsp), %rax
	movq 24(%rsp), %rdx
	movq (%rax), %rcx
	xorl %esi, %esi
	xchgq %rsi, 640(%rcx,%r15)
	testq %rsi, %rsi
	jne .LBB23_6
.LBB23_14:
	movq 16(%rsp), %rax
	movq (%rax), %rax
	movq 576(%rax,%r15), %rax
	movq 16(%rsp), %rax
	movq (%rax), %rax
	movq 640(%rax,%r15), %rax
	testq %rax, %rax
	je .LBB23_16
	movq 16(%rsp), %rax
	movq 24(%rsp), %rdx
	movq (%rax), %rcx
	xorl %esi, %esi
	xchgq %rsi, 640(%rcx,%r15)
	testq %rsi, %rsi
	jne .LBB23_6
.LBB23_16:
	movq 16(%rsp), %rax
	movq (%rax), %rax
	movq 576(%rax,%r15), %rax
.LBB23_39:
	leaq 16(%rsp), %rdi
	movl %r8d, %esi
	movl 60(%rsp), %edx
	movl %ebp, %ecx
	movl %r10d, %ebp
	movl %r11d, %r15d
	callq tag_search.all_places.search_others__989a3ead4d9545f0
	movl %r15d, %r11d
	movl %ebp, %r10d
	movl %edx, %ecx
	jmp .LBB23_47
.LBB23_50:
	movq %rbx, %r13
	movl (%r14), %r12d
	movl %r12d, %ebp
	shrl %cl, %ebp
	movl %ebp, %r15d
	shll %cl, %r15d
	movl %r8d, %eax
	subl %r15d, %eax
	movl $1, %r10d
	movl %ecx, 60(%rsp)
	shll %cl, %r10d
	cmpl %eax, %r10d
	cmovael %eax, %r10d
	movq %r14, %rbx
	movzbl 4(%r14), %eax
	movb %al, 64(%rsp)
	leaq 16(%rsp), %rdi
	movl %ebp, %esi
	movl %r10d, 8(%rsp)
	movl %r10d, %ecx
	movl %r8d, %r14d
	xorl %r8d, %r8d
	callq tag_search.pass.pass_on__989a3ead4d9545f0
	cmpb $1, %al
	movl %r14d, 12(%rsp)
	jne .LBB23_51
	movl %edx, %ecx
	addl %r15d, %ecx
	movb $1, %al
	movq %rbx, %r14
	movq %r13, %rbx
	xorl %edx, %edx
	cmpb $1, %al
	je .LBB23_97
	jmp .LBB23_100
.LBB23_2:
	leaq 16(%rsp), %rdi
	movq %r14, %rsi
	movl %r8d, %edx
	callq tag_search.search.get_by_scan__989a3ead4d9545f0
	movl %edx, %ecx
	movq 32(%rsp), %rdx
	testq %rdx, %rdx
	jne .LBB23_103
.LBB23_102:
	xorl %edx, %edx
	jmp .LBB23_105
.LBB23_4:
	testq %rax, %rax
	je .LBB23_40
	movq 16(%rsp), %rax
	movq 24(%rsp), %rdx
	movq (%rax), %rcx
	xorl %esi, %esi
	xchgq %rsi, 640(%rcx,%r15)
	testq %rsi, %rsi
	jne .LBB23_6
.LBB23_40:
	movq 16(%rsp), %rax
	movq (%rax), %rax
	movq 576(%rax,%r15), %rax
	notq %rax
	movl $64, %ecx
	rep  bsfq %rax, %rcx
	cmpl %ecx, %r13d
	jbe .LBB23_17
	movq 16(%rsp), %rax
	movq 24(%rsp), %rdx
	movq (%rax), %rdi
	movl $1, %esi
	shlq %cl, %rsi
	.p2align 4
.LBB23_42:
	movq 576(%rdi,%r15), %r9
	movq %r9, %r8
	orq %rsi, %r8
	movq %r9, %rax
	lock  cmpxchgq %r8, 576(%rdi,%r15)
	jne .LBB23_42
	testq %rsi, %r9
	je .LBB23_23
	leal 1(%rcx), %edx
	leaq 16(%rsp), %rdi
	movl %ebp, %esi
	movl %r13d, %ecx
	xorl %r8d, %r8d
	movl %r10d, 64(%rsp)
	movb %r11b, 8(%rsp)
	callq tag_search.pass.pass_on__989a3ead4d9545f0
	movzbl 8(%rsp), %r11d
	movl 64(%rsp), %r10d
	cmpb $1, %al
	movl 12(%rsp), %r8d
	je .LBB23_45
.LBB23_17:
	movq 16(%rsp), %rax
	movq (%rax), %rax
	movq 640(%rax,%r15), %rax
	testq %rax, %rax
	je .LBB23_19
	movq 16(%rsp), %rax
	movq 24(%rsp), %rdx
	movq (%rax), %rcx
	xorl %esi, %esi
	xchgq %rsi, 640(%rcx,%r15)
	testq %rsi, %rsi
	jne .LBB23_6
.LBB23_19:
	movq 16(%rsp), %rax
	movq (%rax), %rax
	movq 576(%rax,%r15), %rax
	notq %rax
	movl $64, %ecx
	rep  bsfq %rax, %rcx
	cmpl %ecx, %r13d
	jbe .LBB23_25
	movq 16(%rsp), %rax
	movq 24(%rsp), %rdx
	movq (%rax), %rdi
	movl $1, %esi
	shlq %cl, %rsi
	.p2align 4
.LBB23_21:
	movq 576(%rdi,%r15), %r9
	movq %r9, %r8
	orq %rsi, %r8
	movq %r9, %rax
	lock  cmpxchgq %r8, 576(%rdi,%r15)
	jne .LBB23_21
	testq %rsi, %r9
	je .LBB23_23
	leal 1(%rcx), %edx
	leaq 16(%rsp), %rdi
	movl %ebp, %esi
	movl %r13d, %ecx
	xorl %r8d, %r8d
	movl %r10d, 64(%rsp)
	movb %r11b, 8(%rsp)
	callq tag_search.pass.pass_on__989a3ead4d9545f0
	movzbl 8(%rsp), %r11d
	movl 64(%rsp), %r10d
	cmpb $1, %al
	movl 12(%rsp), %r8d
	je .LBB23_45
.LBB23_25:
	movq 16(%rsp), %rax
	movq (%rax), %rax
	movq 640(%rax,%r15), %rax
	testq %rax, %rax
	je .LBB23_27
	movq 16(%rsp), %rax
	movq 24(%rsp), %rdx
	movq (%rax), %rcx
	xorl %esi, %esi
	xchgq %rsi, 640(%rcx,%r15)
	testq %rsi, %rsi
	jne .LBB23_6
.LBB23_27:
	movq 16(%rsp), %rax
	movq (%rax), %rax
	movq 576(%rax,%r15), %rax
	notq %rax
	movl $64, %ecx
	rep  bsfq %rax, %rcx
	cmpl %ecx, %r13d
	jbe .LBB23_32
	movq 16(%rsp), %rax
	movq 24(%rsp), %rdx
	movq (%rax), %rdi
	movl $1, %esi
	shlq %cl, %rsi
	.p2align 4
.LBB23_29:
	movq 576(%rdi,%r15), %r9
	movq %r9, %r8
	orq %rsi, %r8
	movq %r9, %rax
	lock  cmpxchgq %r8, 576(%rdi,%r15)
	jne .LBB23_29
	testq %rsi, %r9
	je .LBB23_23
	leal 1(%rcx), %edx
	leaq 16(%rsp), %rdi
	movl %ebp, %esi
	movl %r13d, %ecx
	xorl %r8d, %r8d
	movl %r10d, 64(%rsp)
	movb %r11b, 8(%rsp)
	callq tag_search.pass.pass_on__989a3ead4d9545f0
	movzbl 8(%rsp), %r11d
	movl 64(%rsp), %r10d
	cmpb $1, %al
	movl 12(%rsp), %r8d
	je .LBB23_45
.LBB23_32:
	movq 16(%rsp), %rax
	movq (%rax), %rax
	movq 640(%rax,%r15), %rax
	testq %rax, %rax
	je .LBB23_34
	movq 16(%rsp), %rax
	movq 24(%rsp), %rdx
	movq (%rax), %rcx
	xorl %esi, %esi
	xchgq %rsi, 640(%rcx,%r15)
	testq %rsi, %rsi
	je .LBB23_34
.LBB23_6:
	rep  bsfq %rsi, %rcx
	movl $1, %edi
	shlq %cl, %rdi
	movq 24(%rdx), %r8
	orq %rdi, (%r8,%rbp,8)
	incq 48(%rdx)
	movq $-2, %rdx
	rolq %cl, %rdx
	andq %rsi, %rdx
	je .LBB23_46
	movq (%rax), %rax
	lock  subq %rdx, 576(%rax,%r15)
	movq %rdx, %rax
	shrq %rax
	movabsq $6148914691236517205, %rsi
	andq %rax, %rsi
	movq %rdx, %rax
	subq %rsi, %rax
	movabsq $3689348814741910323, %rsi
	movq %rax, %rdi
	andq %rsi, %rdi
	shrq $2, %rax
	andq %rsi, %rax
	addq %rdi, %rax
	movq %rax, %rsi
	shrq $4, %rsi
	addq %rax, %rsi
	movabsq $1085102592571150095, %rax
	andq %rsi, %rax
	movabsq $72340172838076673, %rsi
	imulq %rax, %rsi
	shrq $56, %rsi
	addq 32(%rsp), %rsi
	movq $-1, %rax
	cmovaeq %rsi, %rax
	movq %rax, 32(%rsp)
	movl %ebp, 40(%rsp)
	movq %rdx, 48(%rsp)
.LBB23_46:
	addl %r12d, %ecx
	movb $1, %al
.LBB23_47:
	xorl %edx, %edx
	cmpb $1, %al
	jne .LBB23_100
	cmpl %r10d, %ecx
	je .LBB23_99
	movl %r10d, %edx
	testb $1, %r11b
	je .LBB23_100
	jmp .LBB23_99
.LBB23_51:
	movl %r12d, 68(%rsp)
	movl %ebp, %r11d
	movq %r11, %r12
	shlq $7, %r12
	movq 16(%rsp), %rax
	movq (%rax), %rax
	movq 640(%rax,%r12), %rax
	cmpl %r15d, %r14d
	movl %r14d, %esi
	jne .LBB23_52
	testq %rax, %rax
	movl 60(%rsp), %edx
	movq %rbx, %r14
	movq %r13, %rbx
	je .LBB23_58
	movq 16(%rsp), %rax
	movq 24(%rsp), %r9
	movq (%rax), %rcx
	xorl %edi, %edi
	xchgq %rdi, 640(%rcx,%r12)
	testq %rdi, %rdi
	jne .LBB23_54
.LBB23_58:
	movq 16(%rsp), %rax
	movq (%rax), %rax
	movq 576(%rax,%r12), %rax
	movq 16(%rsp), %rax
	movq (%rax), %rax
	movq 640(%rax,%r12), %rax
	testq %rax, %rax
	je .LBB23_60
	movq 16(%rsp), %rax
	movq 24(%rsp), %r9
	movq (%rax), %rcx
	xorl %edi, %edi
	xchgq %rdi, 640(%rcx,%r12)
	testq %rdi, %rdi
	jne .LBB23_54
.LBB23_60:
	movq 16(%rsp), %rax
	movq (%rax), %rax
	movq 576(%rax,%r12), %rax
	movq 16(%rsp), %rax
	movq (%rax), %rax
	movq 640(%rax,%r12), %rax
	testq %rax, %rax
	je .LBB23_62
	movq 16(%rsp), %rax
	movq 24(%rsp), %r9
	movq (%rax), %rcx
	xorl %edi, %edi
	xchgq %rdi, 640(%rcx,%r12)
	testq %rdi, %rdi
	jne .LBB23_54
.LBB23_62:
	movq 16(%rsp), %rax
	movq (%rax), %rax
	movq 576(%rax,%r12), %rax
	movq 16(%rsp), %rax
	movq (%rax), %rax
	movq 640(%rax,%r12), %rax
	testq %rax, %rax
	je .LBB23_64
	movq 16(%rsp), %rax
	movq 24(%rsp), %r9
	movq (%rax), %rcx
	xorl %edi, %edi
	xchgq %rdi, 640(%rcx,%r12)
	testq %rdi, %rdi
	jne .LBB23_54
.LBB23_64:
	movq 16(%rsp), %rax
	movq (%rax), %rax
	movq 576(%rax,%r12), %rax
.LBB23_88:
	leaq 16(%rsp), %rdi
	movl %ebp, %ecx
	callq tag_search.all_places.search_others__989a3ead4d9545f0
	movl %edx, %ecx
	jmp .LBB23_95
.LBB23_52:
	testq %rax, %rax
	movl 60(%rsp), %edx
	movq %rbx, %r14
	movq %r13, %rbx
	je .LBB23_89
	movq 16(%rsp), %rax
	movq 24(%rsp), %r9
	movq (%rax), %rcx
	xorl %edi, %edi
	xchgq %rdi, 640(%rcx,%r12)
	testq %rdi, %rdi
	jne .LBB23_54
.LBB23_89:
	movq 16(%rsp), %rax
	movq (%rax), %rax
	movq 576(%rax,%r12), %rax
	notq %rax
	movl $64, %ecx
	rep  bsfq %rax, %rcx
	cmpl %ecx, 8(%rsp)
	jbe .LBB23_66
	movq 16(%rsp), %rax
	movq 24(%rsp), %rdx
	movq (%rax), %rdi
	movl $1, %esi
	shlq %cl, %rsi
	.p2align 4
.LBB23_91:
	movq 576(%rdi,%r12), %r9
	movq %r9, %r8
	orq %rsi, %r8
	movq %r9, %rax
	lock  cmpxchgq %r8, 576(%rdi,%r12)
	jne .LBB23_91
	testq %rsi, %r9
	je .LBB23_72
	leal 1(%rcx), %edx
	leaq 16(%rsp), %rdi
	movl %ebp, %esi
	movl 8(%rsp), %ecx
	xorl %r8d, %r8d
	movq %r11, %r13
	callq tag_search.pass.pass_on__989a3ead4d9545f0
	movq %r13, %r11
	movl %edx, %ecx
	cmpb $1, %al
	movl 60(%rsp), %edx
	movl 12(%rsp), %esi
	je .LBB23_94
.LBB23_66:
	movq 16(%rsp), %rax
	movq (%rax), %rax
	movq 640(%rax,%r12), %rax
	testq %rax, %rax
	je .LBB23_68
	movq 16(%rsp), %rax
	movq 24(%rsp), %r9
	movq (%rax), %rcx
	xorl %edi, %edi
	xchgq %rdi, 640(%rcx,%r12)
	testq %rdi, %rdi
	jne .LBB23_54
.LBB23_68:
	movq 16(%rsp), %rax
	movq (%rax), %rax
	movq 576(%rax,%r12), %rax
	notq %rax
	movl $64, %ecx
	rep  bsfq %rax, %rcx
	cmpl %ecx, 8(%rsp)
	jbe .LBB23_74
	movq 16(%rsp), %rax
	movq 24(%rsp), %rdx
	movq (%rax), %rdi
	movl $1, %esi
	shlq %cl, %rsi
	.p2align 4
.LBB23_70:
	movq 576(%rdi,%r12), %r9
	movq %r9, %r8
	orq %rsi, %r8
	movq %r9, %rax
	lock  cmpxchgq %r8, 576(%rdi,%r12)
	jne .LBB23_70
	testq %rsi, %r9
	je .LBB23_72
	leal 1(%rcx), %edx
	leaq 16(%rsp), %rdi
	movl %ebp, %esi
	movl 8(%rsp), %ecx
	xorl %r8d, %r8d
	movq %r11, %r13
	callq tag_search.pass.pass_on__989a3ead4d9545f0
	movq %r13, %r11
	movl %edx, %ecx
	cmpb $1, %al
	movl 60(%rsp), %edx
	movl 12(%rsp), %esi
	je .LBB23_94
.LBB23_74:
	movq 16(%rsp), %rax
	movq (%rax), %rax
	movq 640(%rax,%r12), %rax
	testq %rax, %rax
	je .LBB23_76
	movq 16(%rsp), %rax
	movq 24(%rsp), %r9
	movq (%rax), %rcx
	xorl %edi, %edi
	xchgq %rdi, 640(%rcx,%r12)
	testq %rdi, %rdi
	jne .LBB23_54
.LBB23_76:
	movq 16(%rsp), %rax
	movq (%rax), %rax
	movq 576(%rax,%r12), %rax
	notq %rax
	movl $64, %ecx
	rep  bsfq %rax, %rcx
	cmpl %ecx, 8(%rsp)
	jbe .LBB23_81
	movq 16(%rsp), %rax
	movq 24(%rsp), %rdx
	movq (%rax), %rdi
	movl $1, %esi
	shlq %cl, %rsi
.LBB23_78:
	movq 576(%rdi,%r12), %r9
	movq %r9, %r8
	orq %rsi, %r8
	movq %r9, %rax
	lock  cmpxchgq %r8, 576(%rdi,%r12)
	jne .LBB23_78
	testq %rsi, %r9
	je .LBB23_72
	leal 1(%rcx), %edx
	leaq 16(%rsp), %rdi
	movl %ebp, %esi
	movl 8(%rsp), %ecx
	xorl %r8d, %r8d
	movq %r11, %r13
	callq tag_search.pass.pass_on__989a3ead4d9545f0
	movq %r13, %r11
	movl %edx, %ecx
	cmpb $1, %al
	movl 60(%rsp), %edx
	movl 12(%rsp), %esi
	je .LBB23_94
.LBB23_81:
	movq 16(%rsp), %rax
	movq (%rax), %rax
	movq 640(%rax,%r12), %rax
	testq %rax, %rax
	je .LBB23_83
	movq 16(%rsp), %rax
	movq 24(%rsp), %r9
	movq (%rax), %rcx
	xorl %edi, %edi
	xchgq %rdi, 640(%rcx,%r12)
	testq %rdi, %rdi
	je .LBB23_83
.LBB23_54:
	rep  bsfq %rdi, %rcx
	movl $1, %edx
	shlq %cl, %rdx
	movq 24(%r9), %r8
	orq %rdx, (%r8,%r11,8)
	incq 48(%r9)
	movq $-2, %rdx
	rolq %cl, %rdx
	andq %rdi, %rdx
	je .LBB23_94
	movq (%rax), %rax
	lock  subq %rdx, 576(%rax,%r12)
	movq %rdx, %rax
	shrq %rax
	movabsq $6148914691236517205, %rsi
	andq %rax, %rsi
	movq %rdx, %rax
	subq %rsi, %rax
	movabsq $3689348814741910323, %rsi
	movq %rax, %rdi
	andq %rsi, %rdi
	shrq $2, %rax
	andq %rsi, %rax
	addq %rdi, %rax
	movq %rax, %rsi
	shrq $4, %rsi
	addq %rax, %rsi
	movabsq $1085102592571150095, %rax
	andq %rsi, %rax
	movabsq $72340172838076673, %rsi
	imulq %rax, %rsi
	shrq $56, %rsi
	addq 32(%rsp), %rsi
	movq $-1, %rax
	cmovaeq %rsi, %rax
	movq %rax, 32(%rsp)
	movl %ebp, 40(%rsp)
	movq %rdx, 48(%rsp)
.LBB23_94:
	addl %r15d, %ecx
	movb $1, %al
.LBB23_95:
	movl 68(%rsp), %r12d
	xorl %edx, %edx
	cmpb $1, %al
	jne .LBB23_100
.LBB23_97:
	cmpl %r12d, %ecx
	je .LBB23_99
	movl %r12d, %edx
	testb $1, 64(%rsp)
	je .LBB23_100
.LBB23_99:
	leal 1(%rcx), %esi
	movl 12(%rsp), %edi
	decl %edi
	xorl %edx, %edx
	cmpl %edi, %esi
	cmovbl %esi, %edx
.LBB23_100:
	movl %edx, (%r14)
	movq 32(%rsp), %rdx
	testq %rdx, %rdx
	je .LBB23_102
.LBB23_103:
	movq 24(%rsp), %rsi
	movl 40(%rsp), %edi
	cmpq %rdi, 32(%rsi)
	jbe .LBB23_105
	movq 24(%rsi), %rsi
	movq (%rsi,%rdi,8), %rsi
	andq 48(%rsp), %rsi
	movq %rsi, %rdi
	shrq %rdi
	movabsq $6148914691236517205, %r8
	andq %rdi, %r8
	subq %r8, %rsi
	movabsq $3689348814741910323, %rdi
	movq %rsi, %r8
	andq %rdi, %r8
	shrq $2, %rsi
	andq %rdi, %rsi
	addq %r8, %rsi
	movq %rsi, %rdi
	shrq $4, %rdi
	addq %rsi, %rdi
	movabsq $1085102592571150095, %rsi
	andq %rdi, %rsi
	movabsq $72340172838076673, %rdi
	imulq %rsi, %rdi
	shrq $56, %rdi
	xorl %esi, %esi
	subq %rdi, %rdx
	cmovbq %rsi, %rdx
.LBB23_105:
	movzbl %al, %eax
	movl %eax, (%rbx)
	movl %ecx, 4(%rbx)
	movq %rdx, 8(%rbx)
	addq $72, %rsp
	popq %rbx
	popq %r12
	popq %r13
	popq %r14
	popq %r15
	popq %rbp
	retq
.LBB23_34:
	movq 16(%rsp), %rax
	movq (%rax), %rax
	movq 576(%rax,%r15), %rax
	notq %rax
	movl $64, %ecx
	rep  bsfq %rax, %rcx
	cmpl %ecx, %r13d
	jbe .LBB23_39
	movq 16(%rsp), %rax
	movq 24(%rsp), %rdx
	movq (%rax), %rdi
	movl $1, %esi
	shlq %cl, %rsi
.LBB23_36:
	movq 576(%rdi,%r15), %r9
	movq %r9, %r8
	orq %rsi, %r8
	movq %r9, %rax
	lock  cmpxchgq %r8, 576(%rdi,%r15)
	jne .LBB23_36
	testq %rsi, %r9
	je .LBB23_23
	leal 1(%rcx), %edx
	leaq 16(%rsp), %rdi
	movl %ebp, %esi
	movl %r13d, %ecx
	xorl %r8d, %r8d
	movl %r10d, %r15d
	movl %r11d, %r13d
	callq tag_search.pass.pass_on__989a3ead4d9545f0
	movl %r13d, %r11d
	movl %r15d, %r10d
	cmpb $1, %al
	movl 12(%rsp), %r8d
	jne .LBB23_39
.LBB23_45:
	movl %edx, %ecx
	jmp .LBB23_46
.LBB23_23:
	movq 24(%rdx), %rax
	orq %rsi, (%rax,%rbp,8)
	incq 48(%rdx)
	jmp .LBB23_46
.LBB23_83:
	movq 16(%rsp), %rax
	movq (%rax), %rax
	movq 576(%rax,%r12), %rax
	notq %rax
	movl $64, %ecx
	rep  bsfq %rax, %rcx
	cmpl %ecx, 8(%rsp)
	jbe .LBB23_88
	movq 16(%rsp), %rax
	movq 24(%rsp), %rdx
	movq (%rax), %rdi
	movl $1, %esi
	shlq %cl, %rsi
.LBB23_85:
	movq 576(%rdi,%r12), %r9
	movq %r9, %r8
	orq %rsi, %r8
	movq %r9, %rax
	lock  cmpxchgq %r8, 576(%rdi,%r12)
	jne .LBB23_85
	testq %rsi, %r9
	je .LBB23_72
	leal 1(%rcx), %edx
	leaq 16(%rsp), %rdi
	movl %ebp, %esi
	movl 8(%rsp), %ecx
	xorl %r8d, %r8d
	callq tag_search.pass.pass_on__989a3ead4d9545f0
	movl %edx, %ecx
	cmpb $1, %al
	movl 60(%rsp), %edx
	movl 12(%rsp), %esi
	jne .LBB23_88
	jmp .LBB23_94
.LBB23_72:
	movq 24(%rdx), %rax
	orq %rsi, (%rax,%r11,8)
	incq 48(%rdx)
	jmp .LBB23_94
.Lfunc_end23:
	.size tag_search.on_map.finish_i64, .Lfunc_end23-tag_search.on_map.finish_i64
	.section .text.tag_search.search.get_by_scan__989a3ead4d9545f0,"ax",@progbits
	.p2align 4
	.type tag_search.search.get_by_scan__989a3ead4d9545f0,@function
tag_search.search.get_by_scan__989a3ead4d9545f0:
	pushq %rbp
	pushq %r15
	pushq %r14
	pushq %rbx
	subq $40, %rsp
	movl %edx, %ebp
	movq %rsi, %rbx
	movq %rdi, %rsi
	movl (%rbx), %r14d
	cmpl %edx, %r14d
	jb .LBB24_4
	testl %ebp, %ebp
	je .LBB24_2
	movl %r14d, %eax
	xorl %edx, %edx
	divl %ebp
	movl %edx, %r14d
	jmp .LBB24_4
.LBB24_2:
	xorl %r14d, %r14d
.LBB24_4:
	movl $-1, %eax
	shll %cl, %eax
	movzbl 4(%rbx), %edx
	notl %eax
	andl %r14d, %eax
	xorl %r15d, %r15d
	testb %dl, %dl
	cmovel %r15d, %eax
	movl %r14d, %edi
	shrl %cl, %edi
	shlq $32, %rcx
	movl %ebp, %r8d
	orq %rcx, %r8
	xorb $1, %dl
	movq %r8, 8(%rsp)
	movl %edi, 16(%rsp)
	movl %eax, 20(%rsp)
	movq $0, 24(%rsp)
	movb %dl, 32(%rsp)
	movw $0, 33(%rsp)
	movb $0, 35(%rsp)
	leaq 8(%rsp), %rdi
	callq tag_search.scan.Scan.search__989a3ead4d9545f0
	cmpb $1, %al
	jne .LBB24_8
	cmpl %r14d, %edx
	je .LBB24_7
	testb $1, 4(%rbx)
	movl %r14d, %r15d
	je .LBB24_8
.LBB24_7:
	movl %edx, %ecx
	incl %ecx
	decl %ebp
	xorl %r15d, %r15d
	cmpl %ebp, %ecx
	cmovbl %ecx, %r15d
.LBB24_8:
	movl %r15d, (%rbx)
	addq $40, %rsp
	popq %rbx
	popq %r14
	popq %r15
	popq %rbp
	retq
.Lfunc_end24:
	.size tag_search.search.get_by_scan__989a3ead4d9545f0, .Lfunc_end24-tag_search.search.get_by_scan__989a3ead4d9545f0
	.section .text.tag_search.scan.Scan.search__989a3ead4d9545f0,"ax",@progbits
	.p2align 4
	.type tag_search.scan.Scan.search__989a3ead4d9545f0,@function
tag_search.scan.Scan.search__989a3ead4d9545f0:
	pushq %rbp
	pushq %r15
	pushq %r14
	pushq %r12
	pushq %rbx
	subq $16, %rsp
	movq %rsi, %r14
	movq %rdi, %rbx
	movzbl 4(%rdi), %ecx
	movl $1, %eax
	shll %cl, %eax
	movl 8(%rdi), %ebp
	movl (%rdi), %edx
	leal (%rdx,%rax), %r15d
	decl %r15d
	shrl %cl, %r15d
	cmpl %r15d, %ebp
	jae .LBB25_9
	.p2align 4
.LBB25_1:
	movl 8(%rbx), %edi
	xorl %esi, %esi
	cmpl %edi, %ebp
	jne .LBB25_3
	movl 12(%rbx), %esi
.LBB25_3:
	movl (%rbx), %r10d
	movzbl 4(%rbx), %ecx
	movl %ebp, %r9d
	shll %cl, %r9d
	movl %r10d, %eax
	subl %r9d, %eax
	movl $1, %r8d
	shll %cl, %r8d
	cmpl %eax, %r8d
	cmovael %eax, %r8d
	cmpb $0, 16(%rbx)
	je .LBB25_6
	testq %r10, %r10
	je .LBB25_22
	movl 20(%rbx), %ecx
	cmpl %ecx, %r10d
	cmovbl %r10d, %ecx
	addl %r9d, %r8d
	movabsq $1099511627776, %rax
	xorl %edx, %edx
	divq %r10
	incq %rax
	cmpl %r8d, %r10d
	cmovbl %r10d, %r8d
	imulq %rax, %rcx
	imulq %rcx, %r8
	shrq $40, %r8
	cmpl %r9d, %r10d
	cmovbl %r10d, %r9d
	imulq %rcx, %r9
	shrq $40, %r9
	subl %r9d, %r8d
.LBB25_6:
	xorl %eax, %eax
	cmpl %edi, %ebp
	sete %al
	cmpl %esi, %r8d
	movl %esi, %ecx
	cmovbl %r8d, %ecx
	xorl %edx, %edx
	cmpb $0, 24(%rbx)
	cmovnel %ecx, %edx
	movl %esi, 4(%rsp)
	movl %r8d, 8(%rsp)
	movl %edx, 12(%rsp)
	leal 1(%rax,%rax,2), %ecx
	leaq 4(%rsp), %rdx
	movq %r14, %rdi
	movl %ebp, %esi
	callq tag_search.pass.visit__989a3ead4d9545f0
	cmpb $1, %al
	je .LBB25_23
	incl %ebp
	cmpl %ebp, %r15d
	jne .LBB25_1
	movl 8(%rbx), %ebp
.LBB25_9:
	testl %ebp, %ebp
	je .LBB25_10
	xorl %r15d, %r15d
	.p2align 4
.LBB25_12:
	movl 8(%rbx), %edi
	movl $0, %esi
	cmpl %edi, %r15d
	jne .LBB25_14
	movl 12(%rbx), %esi
.LBB25_14:
	movl (%rbx), %r10d
	movzbl 4(%rbx), %ecx
	movl %r15d, %r9d
	shll %cl, %r9d
	movl %r10d, %eax
	subl %r9d, %eax
	movl $1, %r8d
	shll %cl, %r8d
	cmpl %eax, %r8d
	cmovael %eax, %r8d
	cmpb $0, 16(%rbx)
	je .LBB25_17
	testq %r10, %r10
	je .LBB25_22
	movl 20(%rbx), %ecx
	cmpl %ecx, %r10d
	cmovbl %r10d, %ecx
	addl %r9d, %r8d
	movabsq $1099511627776, %rax
	xorl %edx, %edx
	divq %r10
	incq %rax
	cmpl %r8d, %r10d
	cmovbl %r10d, %r8d
	imulq %rax, %rcx
	imulq %rcx, %r8
	shrq $40, %r8
	cmpl %r9d, %r10d
	cmovbl %r10d, %r9d
	imulq %rcx, %r9
	shrq $40, %r9
	subl %r9d, %r8d
.LBB25_17:
	xorl %eax, %eax
	cmpl %edi, %r15d
	sete %al
	cmpl %esi, %r8d
	movl %esi, %ecx
	cmovbl %r8d, %ecx
	xorl %r12d, %r12d
	cmpb $0, 24(%rbx)
	cmovel %r12d, %ecx
	movl %esi, 4(%rsp)
	movl %r8d, 8(%rsp)
	movl %ecx, 12(%rsp)
	leal 1(%rax,%rax,2), %ecx
	leaq 4(%rsp), %rdx
	movq %r14, %rdi
	movl %r15d, %esi
	callq tag_search.pass.visit__989a3ead4d9545f0
	cmpb $1, %al
	je .LBB25_18
	incl %r15d
	cmpl %r15d, %ebp
	jne .LBB25_12
	jmp .LBB25_20
.LBB25_10:
	xorl %r12d, %r12d
.LBB25_20:
	xorl %eax, %eax
	jmp .LBB25_21
.LBB25_23:
	movzbl 4(%rbx), %ecx
	shll %cl, %ebp
	addl %edx, %ebp
	movb $1, %al
	movl %ebp, %r12d
	jmp .LBB25_21
.LBB25_18:
	movzbl 4(%rbx), %ecx
	shll %cl, %r15d
	addl %edx, %r15d
	movb $1, %al
	movl %r15d, %r12d
.LBB25_21:
	movl %r12d, %edx
	addq $16, %rsp
	popq %rbx
	popq %r12
	popq %r14
	popq %r15
	popq %rbp
	retq
.LBB25_22:
	ud2
.Lfunc_end25:
	.size tag_search.scan.Scan.search__989a3ead4d9545f0, .Lfunc_end25-tag_search.scan.Scan.search__989a3ead4d9545f0
	.section .text.tag_search.pass.visit__989a3ead4d9545f0,"ax",@progbits
	.p2align 4
	.type tag_search.pass.visit__989a3ead4d9545f0,@function
tag_search.pass.visit__989a3ead4d9545f0:
	pushq %rbp
	pushq %r15
	pushq %r14
	pushq %r13
	pushq %r12
	pushq %rbx
	subq $24, %rsp
	movl %ecx, %r10d
	movq %rdi, %r14
	movl (%rdx), %r15d
	movl 4(%rdx), %r12d
	movl 8(%rdx), %r13d
	movq (%rdi), %rax
	movq (%rax), %rax
	movl %esi, 8(%rsp)
	movl %esi, %ebp
	movq %rbp, %rbx
	shlq $7, %rbx
	movq 576(%rax,%rbx), %rax
	cmpl %r15d, %r12d
	movl %ecx, 12(%rsp)
	jbe .LBB26_2
	movq %rax, %rsi
	notq %rsi
	movl %r15d, %ecx
	shrq %cl, %rsi
	movl $64, %edx
	rep  bsfq %rsi, %rdx
	addl %r15d, %edx
	movl %r12d, %r9d
	movl %r13d, %r8d
	cmpl %r12d, %edx
	jb .LBB26_4
.LBB26_2:
	testl %r13d, %r13d
	je .LBB26_8
	notq %rax
	movl $64, %edx
	rep  bsfq %rax, %rdx
	xorl %r8d, %r8d
	movl %r13d, %r9d
	cmpl %edx, %r13d
	jbe .LBB26_8
.LBB26_4:
	movq (%r14), %rax
	movq 8(%r14), %rsi
	movq (%rax), %r11
	movl $1, %edi
	movl %edx, %ecx
	shlq %cl, %rdi
	.p2align 4
.LBB26_5:
	movq 576(%r11,%rbx), %r10
	movq %r10, %rcx
	orq %rdi, %rcx
	movq %r10, %rax
	lock  cmpxchgq %rcx, 576(%r11,%rbx)
	jne .LBB26_5
	testq %rdi, %r10
	je .LBB26_22
	incl %edx
	movq %r14, %rdi
	movl 8(%rsp), %esi
	movl %r9d, %ecx
	movq %r10, %r9
	callq tag_search.pass.pass_on__989a3ead4d9545f0
	cmpb $1, %al
	movl 12(%rsp), %r10d
	je .LBB26_25
.LBB26_8:
	movq %rbp, 16(%rsp)
	xorl %ebp, %ebp
	jmp .LBB26_10
	.p2align 4
.LBB26_9:
	incl %ebp
	cmpl %r10d, %ebp
	je .LBB26_21
.LBB26_10:
	movq (%r14), %rax
	movq (%rax), %rax
	movq 640(%rax,%rbx), %rax
	testq %rax, %rax
	je .LBB26_13
	movq (%r14), %rcx
	movq (%rcx), %rdx
	xorl %eax, %eax
	xchgq %rax, 640(%rdx,%rbx)
	testq %rax, %rax
	je .LBB26_13
	movq (%rcx), %rcx
	lock  subq %rax, 576(%rcx,%rbx)
	movq %rax, %rcx
	shrq %rcx
	movabsq $6148914691236517205, %rdx
	andq %rcx, %rdx
	movq %rax, %rcx
	subq %rdx, %rcx
	movabsq $3689348814741910323, %rdx
	movq %rcx, %rsi
	andq %rdx, %rsi
	shrq $2, %rcx
	andq %rdx, %rcx
	addq %rsi, %rcx
	movq %rcx, %rdx
	shrq $4, %rdx
	addq %rcx, %rdx
	movabsq $1085102592571150095, %rcx
	andq %rdx, %rcx
	movabsq $72340172838076673, %rdx
	imulq %rcx, %rdx
	shrq $56, %rdx
	addq 16(%r14), %rdx
	movq $-1, %rcx
	cmovaeq %rdx, %rcx
	movq %rcx, 16(%r14)
	movl 8(%rsp), %ecx
	movl %ecx, 24(%r14)
	movq %rax, 32(%r14)
.LBB26_13:
	movq (%r14), %rax
	movq (%rax), %rax
	movq 576(%rax,%rbx), %rax
	cmpl %r15d, %r12d
	jbe .LBB26_15
	movq %rax, %rsi
	notq %rsi
	movl %r15d, %ecx
	shrq %cl, %rsi
	movl $64, %edx
	rep  bsfq %rsi, %rdx
	addl %r15d, %edx
	movl %r12d, %r9d
	movl %r13d, %r8d
	cmpl %r12d, %edx
	jb .LBB26_17
.LBB26_15:
	testl %r13d, %r13d
	je .LBB26_9
	notq %rax
	movl $64, %edx
	rep  bsfq %rax, %rdx
	xorl %r8d, %r8d
	movl %r13d, %r9d
	cmpl %edx, %r13d
	jbe .LBB26_9
.LBB26_17:
	movq (%r14), %rax
	movq 8(%r14), %rsi
	movq (%rax), %r11
	movl $1, %edi
	movl %edx, %ecx
	shlq %cl, %rdi
	.p2align 4
.LBB26_18:
	movq 576(%r11,%rbx), %r10
	movq %r10, %rcx
	orq %rdi, %rcx
	movq %r10, %rax
	lock  cmpxchgq %rcx, 576(%r11,%rbx)
	jne .LBB26_18
	testq %rdi, %r10
	je .LBB26_23
	incl %edx
	movq %r14, %rdi
	movl 8(%rsp), %esi
	movl %r9d, %ecx
	movq %r10, %r9
	callq tag_search.pass.pass_on__989a3ead4d9545f0
	cmpb $1, %al
	movl 12(%rsp), %r10d
	jne .LBB26_9
	jmp .LBB26_25
.LBB26_21:
	xorl %eax, %eax
	xorl %edx, %edx
	jmp .LBB26_26
.LBB26_22:
	movq 24(%rsi), %rax
	orq %rdi, (%rax,%rbp,8)
	jmp .LBB26_24
.LBB26_23:
	movq 24(%rsi), %rax
	movq 16(%rsp), %rcx
	orq %rdi, (%rax,%rcx,8)
.LBB26_24:
	incq 48(%rsi)
.LBB26_25:
	movb $1, %al
.LBB26_26:
	addq $24, %rsp
	popq %rbx
	popq %r12
	popq %r13
	popq %r14
	popq %r15
	popq %rbp
	retq
.Lfunc_end26:
	.size tag_search.pass.visit__989a3ead4d9545f0, .Lfunc_end26-tag_search.pass.visit__989a3ead4d9545f0
	.section .text.tag_search.pass.pass_on__989a3ead4d9545f0,"ax",@progbits
	.p2align 4
	.type tag_search.pass.pass_on__989a3ead4d9545f0,@function
tag_search.pass.pass_on__989a3ead4d9545f0:
	pushq %r15
	pushq %r14
	pushq %rbx
	movq %r9, %r10
	movl %ecx, %r9d
	movl %esi, %esi
	movq %rsi, %r11
	shlq $7, %r11
	.p2align 4
.LBB27_1:
	notq %r10
	cmpl %edx, %r9d
	jbe .LBB27_3
	movq %r10, %rax
	movl %edx, %ecx
	shrq %cl, %rax
	movl $64, %ecx
	rep  bsfq %rax, %rcx
	addl %edx, %ecx
	cmpl %r9d, %ecx
	jb .LBB27_6
.LBB27_3:
	testl %r8d, %r8d
	je .LBB27_10
	movl $64, %ecx
	rep  bsfq %r10, %rcx
	xorl %edx, %edx
	cmpl %ecx, %r8d
	jbe .LBB27_11
	movl %r8d, %r9d
	xorl %r8d, %r8d
.LBB27_6:
	movq (%rdi), %rax
	movq 8(%rdi), %rbx
	movq (%rax), %rdx
	movl $1, %r14d
	shlq %cl, %r14
	.p2align 4
.LBB27_7:
	movq 576(%rdx,%r11), %r10
	movq %r10, %r15
	orq %r14, %r15
	movq %r10, %rax
	lock  cmpxchgq %r15, 576(%rdx,%r11)
	jne .LBB27_7
	leal 1(%rcx), %edx
	testq %r14, %r10
	jne .LBB27_1
	movb $1, %al
	movq 24(%rbx), %rdx
	orq %r14, (%rdx,%rsi,8)
	incq 48(%rbx)
	movl %ecx, %edx
	popq %rbx
	popq %r14
	popq %r15
	retq
.LBB27_10:
	xorl %eax, %eax
	xorl %edx, %edx
	popq %rbx
	popq %r14
	popq %r15
	retq
.LBB27_11:
	xorl %eax, %eax
	popq %rbx
	popq %r14
	popq %r15
	retq
.Lfunc_end27:
	.size tag_search.pass.pass_on__989a3ead4d9545f0, .Lfunc_end27-tag_search.pass.pass_on__989a3ead4d9545f0
	.section .text.tag_search.all_places.search_others__989a3ead4d9545f0,"ax",@progbits
	.p2align 4
	.type tag_search.all_places.search_others__989a3ead4d9545f0,@function
tag_search.all_places.search_others__989a3ead4d9545f0:
	pushq %rbp
	pushq %r15
	pushq %r14
	pushq %r13
	pushq %r12
	pushq %rbx
	subq $40, %rsp
	movl %ecx, %ebx
	movl %edx, %ebp
	movq %rdi, 24(%rsp)
	movl $1, %r13d
	movl %ebp, %ecx
	shll %cl, %r13d
	leal 1(%rbx), %eax
	movl $1, %r12d
	movq %rsi, 32(%rsp)
	leal (%rsi,%r13), %r15d
	decl %r15d
	shrl %cl, %r15d
	cmpl %r15d, %eax
	jae .LBB28_4
	subl %ebx, %r15d
	.p2align 4
.LBB28_2:
	leal (%rbx,%r12), %esi
	xorl %eax, %eax
	testl %r12d, %r12d
	sete %al
	movl %esi, %r14d
	movl %ebp, %ecx
	shll %cl, %r14d
	movq 32(%rsp), %rcx
	subl %r14d, %ecx
	cmpl %ecx, %r13d
	cmovbl %r13d, %ecx
	movl $0, 12(%rsp)
	movl %ecx, 16(%rsp)
	movl $0, 20(%rsp)
	leal (%rax,%rax,2), %ecx
	incl %ecx
	leaq 12(%rsp), %rdx
	movq 24(%rsp), %rdi
	callq tag_search.pass.visit__989a3ead4d9545f0
	cmpb $1, %al
	je .LBB28_10
	incl %r12d
	cmpl %r12d, %r15d
	jne .LBB28_2
.LBB28_4:
	testl %ebx, %ebx
	je .LBB28_8
	xorl %r12d, %r12d
	.p2align 4
.LBB28_6:
	movl %r12d, %r14d
	movl %ebp, %ecx
	shll %cl, %r14d
	movq 32(%rsp), %rax
	subl %r14d, %eax
	cmpl %eax, %r13d
	cmovbl %r13d, %eax
	movl $0, 12(%rsp)
	movl %eax, 16(%rsp)
	movl $0, 20(%rsp)
	leaq 12(%rsp), %rdx
	movq 24(%rsp), %rdi
	movl %r12d, %esi
	movl $1, %ecx
	callq tag_search.pass.visit__989a3ead4d9545f0
	cmpb $1, %al
	je .LBB28_10
	incl %r12d
	cmpl %r12d, %ebx
	jne .LBB28_6
.LBB28_8:
	xorl %edx, %edx
	xorl %eax, %eax
	jmp .LBB28_9
.LBB28_10:
	addl %r14d, %edx
	movb $1, %al
.LBB28_9:
	addq $40, %rsp
	popq %rbx
	popq %r12
	popq %r13
	popq %r14
	popq %r15
	popq %rbp
	retq
.Lfunc_end28:
	.size tag_search.all_places.search_others__989a3ead4d9545f0, .Lfunc_end28-tag_search.all_places.search_others__989a3ead4d9545f0
	.section .text.tag_c.member.Member.get_past_full,"ax",@progbits
	.p2align 4
	.type tag_c.member.Member.get_past_full,@function
tag_c.member.Member.get_past_full:
	pushq %rbp
	pushq %r15
	pushq %r14
	pushq %rbx
	subq $40, %rsp
	movq %rsi, %rbx
	movq %rdi, %r14
	movq (%rdi), %r15
	xorps %xmm0, %xmm0
	movaps %xmm0, (%rsp)
	leaq 224(%rdi), %rcx
	leaq 120(%r15), %rsi
	leaq 240(%rdi), %rdx
	movq $1, 24(%rsp)
	movq $0, 32(%rsp)
	movq %rsp, %rdi
	leaq 24(%rsp), %r8
	callq tag_search.on_map.finish_i64
	movq 8(%rsp), %rax
	movl $-10, %ebp
	cmpb $1, (%rsp)
	jne .LBB29_2
	movl 232(%r15), %ebp
	addl 4(%rsp), %ebp
.LBB29_2:
	testq %rax, %rax
	je .LBB29_7
	movq (%r14), %rdi
	movq 120(%rdi), %rcx
	movq 8(%rcx), %rdx
	testq %rdx, %rdx
	je .LBB29_4
	addq $120, %rdi
	cmpq $64, %rax
	movl $64, %esi
	cmovbq %rax, %rsi
	callq tag_bell.telling.tell_each_i64
	jmp .LBB29_6
.LBB29_4:
	xorl %edx, %edx
	xorl %eax, %eax
.LBB29_6:
	movq %rax, (%rbx)
	movq %rdx, 8(%rbx)
	addl $1073741824, %ebp
.LBB29_7:
	movl %ebp, %eax
	addq $40, %rsp
	popq %rbx
	popq %r14
	popq %r15
	popq %rbp
	retq
.Lfunc_end29:
	.size tag_c.member.Member.get_past_full, .Lfunc_end29-tag_c.member.Member.get_past_full
	.section .text.tag_c.member.Member.get_past_lost,"ax",@progbits
	.p2align 4
	.type tag_c.member.Member.get_past_lost,@function
tag_c.member.Member.get_past_lost:
	pushq %rbp
	pushq %r15
	pushq %r14
	pushq %rbx
	subq $40, %rsp
	movq %rsi, %rbx
	movq %rdi, %r14
	movq (%rdi), %r15
	xorps %xmm0, %xmm0
	movaps %xmm0, (%rsp)
	leaq 224(%rdi), %rax
	leaq 120(%r15), %rsi
	leaq 240(%rdi), %r9
	movl $2, 24(%rsp)
	movl %edx, 28(%rsp)
	movq %rcx, 32(%rsp)
	movq %rsp, %rdi
	leaq 24(%rsp), %r8
	movq %r9, %rdx
	movq %rax, %rcx
	callq tag_search.on_map.finish_i64
	movq 8(%rsp), %rax
	movl $-10, %ebp
	cmpb $1, (%rsp)
	jne .LBB30_2
	movl 232(%r15), %ebp
	addl 4(%rsp), %ebp
.LBB30_2:
	testq %rax, %rax
	je .LBB30_7
	movq (%r14), %rdi
	movq 120(%rdi), %rcx
	movq 8(%rcx), %rdx
	testq %rdx, %rdx
	je .LBB30_4
	addq $120, %rdi
	cmpq $64, %rax
	movl $64, %esi
	cmovbq %rax, %rsi
	callq tag_bell.telling.tell_each_i64
	jmp .LBB30_6
.LBB30_4:
	xorl %edx, %edx
	xorl %eax, %eax
.LBB30_6:
	movq %rax, (%rbx)
	movq %rdx, 8(%rbx)
	addl $1073741824, %ebp
.LBB30_7:
	movl %ebp, %eax
	addq $40, %rsp
	popq %rbx
	popq %r14
	popq %r15
	popq %rbp
	retq
.Lfunc_end30:
	.size tag_c.member.Member.get_past_lost, .Lfunc_end30-tag_c.member.Member.get_past_lost
	.section .text.tag_c.cached.CachedMember.get_any,"ax",@progbits
	.p2align 4
	.type tag_c.cached.CachedMember.get_any,@function
tag_c.cached.CachedMember.get_any:
	pushq %r15
	pushq %r14
	pushq %rbx
	subq $32, %rsp
	movq (%rdi), %rdx
	xorps %xmm0, %xmm0
	movaps %xmm0, (%rsp)
	movq $0, 16(%rsp)
	movq 24(%rdi), %r8
	testq %r8, %r8
	je .LBB31_2
	rep  bsfq %r8, %rcx
	movl 8(%rdi), %eax
	movl $1, %edx
	shlq %cl, %rdx
	btrq %rcx, %r8
	movq %r8, 24(%rdi)
	orq %rdx, 32(%rdi)
	incl 16(%rdi)
	addl %ecx, %eax
	incq 40(%rdi)
	jmp .LBB31_9
.LBB31_2:
	movq %rsi, %r14
	movq %rdi, %r15
	leaq 8(%rdi), %rbx
	addq $8, %rdx
	movq %rsp, %rdi
	movq %rbx, %rsi
	callq tag_cache.cache.Cache.win_quietly_i64_core.clone.U64Clone
	cmpb $0, (%rsp)
	je .LBB31_3
	movzbl 1(%rsp), %eax
	leaq .Lswitch.table.tags_library_wait_on_reserved.286(%rip), %rcx
	movl (%rcx,%rax,4), %eax
	jmp .LBB31_9
.LBB31_3:
	movq 16(%rsp), %rcx
	cmpb $1, 8(%rsp)
	movl $-10, %eax
	cmovel 12(%rsp), %eax
	testq %rcx, %rcx
	je .LBB31_9
	movq (%r15), %rsi
	movq 120(%rsi), %rdx
	movq 8(%rdx), %rdx
	testq %rdx, %rdx
	je .LBB31_5
	addq $8, %rsi
	cmpq $64, %rcx
	movl $64, %edx
	cmovbq %rcx, %rdx
	movq %rbx, %rdi
	movl %eax, %ebx
	callq tag_cache.cache.Cache.give_back_and_tell_i64_core.clone.U64Clone
	movq %rax, %rcx
	movl %ebx, %eax
	jmp .LBB31_7
.LBB31_5:
	xorl %ecx, %ecx
	xorl %edx, %edx
.LBB31_7:
	movq %rcx, (%r14)
	movq %rdx, 8(%r14)
	addl $1073741824, %eax
.LBB31_9:
	addq $32, %rsp
	popq %rbx
	popq %r14
	popq %r15
	retq
.Lfunc_end31:
	.size tag_c.cached.CachedMember.get_any, .Lfunc_end31-tag_c.cached.CachedMember.get_any
	.section .text.tag_cache.cache.Cache.win_quietly_i64_core.clone.U64Clone,"ax",@progbits
	.p2align 4
	.type tag_cache.cache.Cache.win_quietly_i64_core.clone.U64Clone,@function
tag_cache.cache.Cache.win_quietly_i64_core.clone.U64Clone:
	pushq %rbp
	pushq %r15
	pushq %r14
	pushq %r13
	pushq %r12
	pushq %rbx
	subq $40, %rsp
	movq %rdi, %rbx
	xorps %xmm0, %xmm0
	movaps %xmm0, 16(%rsp)
	movaps %xmm0, (%rsp)
	movq 288(%rsi), %rax
	cmpq 320(%rsi), %rax
	jne .LBB32_1
	movw $1281, (%rbx)
	movups %xmm0, 8(%rbx)
	jmp .LBB32_23
.LBB32_1:
	leaq 256(%rsi), %r10
	leaq 112(%rdx), %r9
	movl 176(%rdx), %r11d
	movl 256(%rsi), %r14d
	xorl %eax, %eax
	cmpl %r14d, %r11d
	jbe .LBB32_4
	testb $1, 260(%rsi)
	movl $0, %edi
	movl $0, %ecx
	jne .LBB32_10
	movl 180(%rdx), %ecx
	shrl %cl, %r14d
	movq (%r9), %rax
	movq %r14, %r15
	shlq $7, %r15
	movq 576(%rax,%r15), %rax
	notq %rax
	movl $64, %edi
	rep  bsfq %rax, %rdi
	movl %edi, %r8d
	shrl %cl, %r8d
	movl $1, %eax
	testl %r8d, %r8d
	jne .LBB32_4
	movl %r14d, %r8d
	shll %cl, %r8d
	addl %edi, %r8d
	cmpl %r8d, %r11d
	jbe .LBB32_4
	movq (%r9), %r13
	movl $1, %r12d
	movl %edi, %ecx
	shlq %cl, %r12
	.p2align 4
.LBB32_7:
	movq 576(%r13,%r15), %rcx
	movq %rcx, %rbp
	orq %r12, %rbp
	movq %rcx, %rax
	lock  cmpxchgq %rbp, 576(%r13,%r15)
	jne .LBB32_7
	testq %r12, %rcx
	je .LBB32_12
	incl %edi
	movl $2, %eax
	jmp .LBB32_10
.LBB32_4:
	xorl %edi, %edi
	xorl %ecx, %ecx
.LBB32_10:
	movq %rdx, %r14
	movq %rsi, %r15
	leaq 272(%rsi), %rdx
	movl %eax, (%rsp)
	movl %edi, 4(%rsp)
	movq %rcx, 8(%rsp)
	leaq 16(%rsp), %rdi
	movq %rsp, %r8
	movq %r9, %rsi
	movq %r10, %rcx
	callq tag_search.on_map.finish_i64
	movq 24(%rsp), %rax
	cmpb $1, 16(%rsp)
	jne .LBB32_21
	movl 20(%rsp), %r8d
	movq %r15, %rsi
	movq %r14, %rdx
.LBB32_15:
	addl 224(%rdx), %r8d
	movl %r8d, %ecx
	subl (%rsi), %ecx
	cmpq $0, 16(%rsi)
	jne .LBB32_18
	cmpl $64, %ecx
	jb .LBB32_18
	movl %r8d, %ecx
	andl $-64, %ecx
	movl %ecx, (%rsi)
	movq $0, 24(%rsi)
	movl %r8d, %ecx
	andl $63, %ecx
	jmp .LBB32_19
.LBB32_21:
	movw $0, (%rbx)
	movq $0, 8(%rbx)
	jmp .LBB32_22
.LBB32_18:
	cmpl $63, %ecx
	ja .LBB32_20
.LBB32_19:
	movl $1, %edx
	shlq %cl, %rdx
	orq %rdx, 24(%rsi)
.LBB32_20:
	movw $0, (%rbx)
	movl $1, 8(%rbx)
	movl %r8d, 12(%rbx)
.LBB32_22:
	movq %rax, 16(%rbx)
.LBB32_23:
	addq $40, %rsp
	popq %rbx
	popq %r12
	popq %r13
	popq %r14
	popq %r15
	popq %rbp
	retq
.LBB32_12:
	movq 296(%rsi), %rax
	orq %r12, (%rax,%r14,8)
	incq 320(%rsi)
	cmpl 256(%rsi), %r8d
	jne .LBB32_14
	leal 1(%r8), %eax
	decl %r11d
	xorl %ecx, %ecx
	cmpl %r11d, %eax
	cmovbl %eax, %ecx
	movl %ecx, (%r10)
.LBB32_14:
	xorl %eax, %eax
	jmp .LBB32_15
.Lfunc_end32:
	.size tag_cache.cache.Cache.win_quietly_i64_core.clone.U64Clone, .Lfunc_end32-tag_cache.cache.Cache.win_quietly_i64_core.clone.U64Clone
	.section .text.tag_pool.pool.Pool.get_batch_quietly_i64_core.clone.U64Clone,"ax",@progbits
	.p2align 4
	.type tag_pool.pool.Pool.get_batch_quietly_i64_core.clone.U64Clone,@function
tag_pool.pool.Pool.get_batch_quietly_i64_core.clone.U64Clone:
	pushq %rbp
	pushq %r15
	pushq %r14
	pushq %r13
	pushq %r12
	pushq %rbx
	movl %ecx, %ebp
	movl 180(%rsi), %ecx
	movl $1, %r15d
	movl %ecx, -64(%rsp)
	shll %cl, %r15d
	movq %rdx, -80(%rsp)
	leal -1(%rbp), %eax
	cmpl %r15d, %eax
	jae .LBB33_5
	movq -80(%rsp), %rax
	cmpb $0, 220(%rax)
	je .LBB33_8
	xorl %ebx, %ebx
	xorl %ecx, %ecx
	xorl %eax, %eax
.LBB33_3:
	xorl %edx, %edx
.LBB33_4:
	movw $0, (%rdi)
	movq %rcx, 8(%rdi)
	movl %eax, 16(%rdi)
	movl $0, 20(%rdi)
	movq %rdx, 24(%rdi)
	movq %rbx, 32(%rdi)
	jmp .LBB33_7
.LBB33_5:
	movw $769, (%rdi)
.LBB33_6:
	xorps %xmm0, %xmm0
	movups %xmm0, 8(%rdi)
	movups %xmm0, 24(%rdi)
.LBB33_7:
	popq %rbx
	popq %r12
	popq %r13
	popq %r14
	popq %r15
	popq %rbp
	retq
.LBB33_8:
	movq -80(%rsp), %rax
	movq 248(%rax), %rcx
	movl %ebp, %edx
	subq 280(%rax), %rcx
	movq %rdx, -16(%rsp)
	cmpq %rdx, %rcx
	jae .LBB33_10
	movw $1281, (%rdi)
	jmp .LBB33_6
.LBB33_10:
	movl 176(%rsi), %r12d
	movq -80(%rsp), %rax
	movl 216(%rax), %edx
	movq %rdi, %r9
	cmpl %r12d, %edx
	jb .LBB33_14
	testl %r12d, %r12d
	je .LBB33_13
	movl %edx, %eax
	xorl %edx, %edx
	divl %r12d
	jmp .LBB33_14
.LBB33_13:
	xorl %edx, %edx
.LBB33_14:
	movl %edx, %r8d
	movl -64(%rsp), %ecx
	shrl %cl, %r8d
	leal (%r15,%r12), %edi
	decl %edi
	shrl %cl, %edi
	testl %edi, %edi
	je .LBB33_29
	movq %r9, -32(%rsp)
	movl %edx, -72(%rsp)
	leal -1(%r12), %eax
	movl %eax, -60(%rsp)
	movl %edi, %eax
	subl %r8d, %eax
	movl %eax, -52(%rsp)
	negl %eax
	movl %eax, -56(%rsp)
	movl %ebp, %ecx
	negb %cl
	movq $-1, %rax
	shrq %cl, %rax
	movq %rax, -24(%rsp)
	xorl %ebx, %ebx
	movl $0, -68(%rsp)
	movq $0, -48(%rsp)
	xorl %r13d, %r13d
	movq %r12, -40(%rsp)
	jmp .LBB33_18
	.p2align 4
.LBB33_16:
	movq -80(%rsp), %r8
	addq %rax, 280(%r8)
	testq %rdx, %rdx
	movq %rbx, %rbp
	movq -8(%rsp), %rbx
	movq -40(%rsp), %r12
	jne .LBB33_30
.LBB33_17:
	incl %r13d
	cmpl %edi, %r13d
	movl %r10d, %r8d
	je .LBB33_28
.LBB33_18:
	cmpl -52(%rsp), %r13d
	movl -56(%rsp), %eax
	movl %eax, %r14d
	movl %r8d, %r10d
	cmovbl %r8d, %r14d
	addl %r13d, %r14d
	movq 112(%rsi), %rax
	movl %r14d, %r9d
	movq %r9, %r8
	shlq $7, %r8
	movq 640(%rax,%r8), %rax
	testq %rax, %rax
	je .LBB33_21
	movq 112(%rsi), %rcx
	xorl %eax, %eax
	xchgq %rax, 640(%rcx,%r8)
	testq %rax, %rax
	je .LBB33_21
	movq 112(%rsi), %rcx
	lock  subq %rax, 576(%rcx,%r8)
	movq %rax, %rcx
	shrq %rcx
	movabsq $6148914691236517205, %r11
	andq %rcx, %r11
	movq %rax, %rcx
	subq %r11, %rcx
	movabsq $3689348814741910323, %r11
	movq %rcx, %r12
	andq %r11, %r12
	shrq $2, %rcx
	andq %r11, %rcx
	addq %r12, %rcx
	movq -40(%rsp), %r12
	movq %rcx, %r11
	shrq $4, %r11
	addq %rcx, %r11
	movabsq $1085102592571150095, %rcx
	andq %r11, %rcx
	movabsq $72340172838076673, %r11
	imulq %rcx, %r11
	shrq $56, %r11
	addq %rbx, %r11
	movq $-1, %rbx
	cmovaeq %r11, %rbx
	movl %r14d, -68(%rsp)
	movq %rax, -48(%rsp)
.LBB33_21:
	movq 112(%rsi), %rax
	movl -64(%rsp), %ecx
	shll %cl, %r14d
	movq 576(%rax,%r8), %r11
	movl %r12d, %eax
	subl %r14d, %eax
	je .LBB33_17
	cmpl %eax, %r15d
	cmovbl %r15d, %eax
	notq %r11
	movl $64, %ecx
	rep  bsfq %r11, %rcx
	cmpl %ecx, %eax
	jbe .LBB33_17
	leal (%rcx,%rbp), %r11d
	cmpl %r11d, %eax
	jb .LBB33_17
	movq %rbx, -8(%rsp)
	movq %rbp, %rbx
	movq 112(%rsi), %r12
	movq -24(%rsp), %rbp
	shlq %cl, %rbp
	.p2align 4
.LBB33_25:
	movq 576(%r12,%r8), %rdx
	movq %rdx, %r11
	orq %rbp, %r11
	movq %rdx, %rax
	lock  cmpxchgq %r11, 576(%r12,%r8)
	jne .LBB33_25
	notq %rdx
	andq %rbp, %rdx
	movq -80(%rsp), %rax
	movq 256(%rax), %rax
	orq %rdx, (%rax,%r9,8)
	movq -16(%rsp), %rax
	cmpq %rbp, %rdx
	je .LBB33_16
	movq %rdx, %rax
	shrq %rax
	movabsq $6148914691236517205, %r8
	andq %rax, %r8
	movq %rdx, %rax
	subq %r8, %rax
	movabsq $3689348814741910323, %r8
	movq %rax, %r9
	andq %r8, %r9
	shrq $2, %rax
	andq %r8, %rax
	addq %r9, %rax
	movq %rax, %r8
	shrq $4, %r8
	addq %rax, %r8
	movabsq $1085102592571150095, %r9
	andq %r8, %r9
	movabsq $72340172838076673, %rax
	imulq %r9, %rax
	shrq $56, %rax
	jmp .LBB33_16
.LBB33_28:
	xorl %edx, %edx
	xorl %r14d, %r14d
	xorl %ecx, %ecx
	movl -72(%rsp), %r8d
	jmp .LBB33_31
.LBB33_29:
	movq -80(%rsp), %rax
	movl %edx, 216(%rax)
	xorl %ebx, %ebx
	xorl %ecx, %ecx
	xorl %eax, %eax
	xorl %edx, %edx
	movq %r9, %rdi
	jmp .LBB33_4
.LBB33_30:
	shrq %cl, %rdx
	addl %ecx, %r14d
	leal (%r14,%rbp), %eax
	leal (%r14,%rbp), %ecx
	decl %ecx
	xorl %r8d, %r8d
	cmpl -60(%rsp), %eax
	cmovbl %eax, %r8d
	movq -80(%rsp), %rax
	testb $1, 220(%rax)
	movl -72(%rsp), %r9d
	movl %r9d, %eax
	cmovnel %r8d, %eax
	cmpl %r9d, %ecx
	cmovel %r8d, %eax
	movb $1, %cl
	movl %eax, %r8d
.LBB33_31:
	movq -80(%rsp), %rax
	movl %r8d, 216(%rax)
	xorl %eax, %eax
	testq %rbx, %rbx
	je .LBB33_36
	movl -68(%rsp), %r9d
	movq -80(%rsp), %r8
	cmpq %r9, 264(%r8)
	jbe .LBB33_34
	movq -80(%rsp), %r8
	movq 256(%r8), %r8
	movq -48(%rsp), %r10
	andq (%r8,%r9,8), %r10
	movq %r10, %r8
	shrq %r8
	movabsq $6148914691236517205, %r9
	andq %r8, %r9
	subq %r9, %r10
	movabsq $3689348814741910323, %r8
	movq %r10, %r9
	andq %r8, %r9
	shrq $2, %r10
	andq %r8, %r10
	addq %r9, %r10
	movq %r10, %r8
	shrq $4, %r8
	addq %r10, %r8
	movabsq $1085102592571150095, %r9
	andq %r8, %r9
	movabsq $72340172838076673, %r8
	imulq %r9, %r8
	shrq $56, %r8
	xorl %r9d, %r9d
	subq %r8, %rbx
	cmovbq %r9, %rbx
.LBB33_34:
	testb %cl, %cl
	movq -32(%rsp), %rdi
	je .LBB33_37
.LBB33_35:
	addl 224(%rsi), %r14d
	movl $1, %ecx
	movl %r14d, %eax
	jmp .LBB33_4
.LBB33_36:
	xorl %ebx, %ebx
	testb %cl, %cl
	movq -32(%rsp), %rdi
	jne .LBB33_35
.LBB33_37:
	xorl %ecx, %ecx
	jmp .LBB33_3
.Lfunc_end33:
	.size tag_pool.pool.Pool.get_batch_quietly_i64_core.clone.U64Clone, .Lfunc_end33-tag_pool.pool.Pool.get_batch_quietly_i64_core.clone.U64Clone
	.section .text.tag_c.gets.CachedMemberGetCalls.get_batch,"ax",@progbits
	.p2align 4
	.type tag_c.gets.CachedMemberGetCalls.get_batch,@function
tag_c.gets.CachedMemberGetCalls.get_batch:
	pushq %rbp
	pushq %r15
	pushq %r14
	pushq %rbx
	subq $40, %rsp
	movq %rcx, %rbx
	movq %rdx, %r15
	movl %esi, %ecx
	movq %rdi, %r14
	movq (%rdi), %rsi
	addq $8, %rsi
	xorps %xmm0, %xmm0
	movaps %xmm0, 16(%rsp)
	movaps %xmm0, (%rsp)
	movq $0, 32(%rsp)
	leaq 48(%rdi), %rdx
	movq %rsp, %rdi
	callq tag_pool.pool.Pool.get_batch_quietly_i64_core.clone.U64Clone
	cmpb $0, (%rsp)
	je .LBB34_1
	movzbl 1(%rsp), %eax
	leaq .Lswitch.table.tags_library_wait_on_reserved.286(%rip), %rcx
	movl (%rcx,%rax,4), %eax
	jmp .LBB34_9
.LBB34_1:
	movq 32(%rsp), %rcx
	movl $-10, %eax
	cmpb $1, 8(%rsp)
	jne .LBB34_3
	movl 16(%rsp), %eax
	movq 24(%rsp), %rdx
	movq %rdx, (%r15)
.LBB34_3:
	testq %rcx, %rcx
	je .LBB34_9
	movq (%r14), %rsi
	movq 120(%rsi), %rdx
	movq 8(%rdx), %rdx
	testq %rdx, %rdx
	je .LBB34_5
	addq $8, %r14
	addq $8, %rsi
	cmpq $64, %rcx
	movl $64, %edx
	cmovbq %rcx, %rdx
	movq %r14, %rdi
	movl %eax, %ebp
	callq tag_cache.cache.Cache.give_back_and_tell_i64_core.clone.U64Clone
	movq %rax, %rcx
	movl %ebp, %eax
	jmp .LBB34_7
.LBB34_5:
	xorl %ecx, %ecx
	xorl %edx, %edx
.LBB34_7:
	movq %rcx, (%rbx)
	movq %rdx, 8(%rbx)
	addl $1073741824, %eax
.LBB34_9:
	addq $40, %rsp
	popq %rbx
	popq %r14
	popq %r15
	popq %rbp
	retq
.Lfunc_end34:
	.size tag_c.gets.CachedMemberGetCalls.get_batch, .Lfunc_end34-tag_c.gets.CachedMemberGetCalls.get_batch
	.section .text.tag_pool.pool.Pool.get_exactly_quietly_i64_core.clone.U64Clone,"ax",@progbits
	.p2align 4
	.type tag_pool.pool.Pool.get_exactly_quietly_i64_core.clone.U64Clone,@function
tag_pool.pool.Pool.get_exactly_quietly_i64_core.clone.U64Clone:
	pushq %rbp
	pushq %r15
	pushq %r14
	pushq %rbx
	subq $56, %rsp
	cmpl %ecx, 228(%rsi)
	jbe .LBB35_5
	movl %ecx, %ebx
	subl 224(%rsi), %ebx
	jae .LBB35_10
	movq 40(%rdx), %rax
	cmpq 72(%rdx), %rax
	je .LBB35_19
	movq %rdi, %rbx
	addq $24, %rdx
	movzbl 68(%rsi), %eax
	movl $-1, %edi
	movl %ecx, %r8d
	movl %eax, %ecx
	shll %cl, %edi
	notl %edi
	andl %r8d, %edi
	movl %edi, 4(%rsp)
	incl %edi
	movl %edi, 8(%rsp)
	movl $0, 12(%rsp)
	movq %rsi, 16(%rsp)
	movq %rdx, 24(%rsp)
	xorps %xmm0, %xmm0
	movups %xmm0, 32(%rsp)
	movq $0, 48(%rsp)
	movl %r8d, %ebp
	movl %r8d, %esi
	shrl %cl, %esi
	leaq 16(%rsp), %rdi
	leaq 4(%rsp), %rdx
	movl $4, %ecx
	callq tag_search.pass.visit__989a3ead4d9545f0
	movq 32(%rsp), %rdx
	xorl %ecx, %ecx
	testq %rdx, %rdx
	je .LBB35_4
	movq 24(%rsp), %rsi
	movl 40(%rsp), %edi
	cmpq %rdi, 32(%rsi)
	jbe .LBB35_9
	movq 24(%rsi), %rsi
	movq (%rsi,%rdi,8), %rsi
	andq 48(%rsp), %rsi
	movq %rsi, %rdi
	shrq %rdi
	movabsq $6148914691236517205, %r8
	andq %rdi, %r8
	subq %r8, %rsi
	movabsq $3689348814741910323, %rdi
	movq %rsi, %r8
	andq %rdi, %r8
	shrq $2, %rsi
	andq %rdi, %rsi
	addq %r8, %rsi
	movq %rsi, %rdi
	shrq $4, %rdi
	addq %rsi, %rdi
	movabsq $1085102592571150095, %rsi
	andq %rdi, %rsi
	movabsq $72340172838076673, %rdi
	imulq %rsi, %rdi
	shrq $56, %rdi
	xorl %esi, %esi
	subq %rdi, %rdx
	cmovbq %rsi, %rdx
	jmp .LBB35_9
.LBB35_5:
	movw $1, (%rdi)
	jmp .LBB35_6
.LBB35_10:
	movq 248(%rdx), %rax
	cmpq 280(%rdx), %rax
	jne .LBB35_11
.LBB35_19:
	movw $1281, (%rdi)
.LBB35_6:
	xorps %xmm0, %xmm0
	movups %xmm0, 8(%rdi)
.LBB35_18:
	addq $56, %rsp
	popq %rbx
	popq %r14
	popq %r15
	popq %rbp
	retq
.LBB35_11:
	movq %rdi, %r14
	addq $232, %rdx
	leaq 112(%rsi), %rax
	movq %rsi, %r15
	movzbl 180(%rsi), %ecx
	movl $-1, %esi
	shll %cl, %esi
	notl %esi
	andl %ebx, %esi
	movl %esi, 4(%rsp)
	incl %esi
	movl %esi, 8(%rsp)
	movl $0, 12(%rsp)
	movq %rax, 16(%rsp)
	movq %rdx, 24(%rsp)
	xorps %xmm0, %xmm0
	movups %xmm0, 32(%rsp)
	movq $0, 48(%rsp)
	movl %ebx, %esi
	shrl %cl, %esi
	leaq 16(%rsp), %rdi
	leaq 4(%rsp), %rdx
	movl $4, %ecx
	callq tag_search.pass.visit__989a3ead4d9545f0
	movq 32(%rsp), %rcx
	xorl %edx, %edx
	testq %rcx, %rcx
	je .LBB35_12
	movq 24(%rsp), %rsi
	movl 40(%rsp), %edi
	cmpq %rdi, 32(%rsi)
	jbe .LBB35_15
	movq 24(%rsi), %rsi
	movq (%rsi,%rdi,8), %rsi
	andq 48(%rsp), %rsi
	movq %rsi, %rdi
	shrq %rdi
	movabsq $6148914691236517205, %r8
	andq %rdi, %r8
	subq %r8, %rsi
	movabsq $3689348814741910323, %rdi
	movq %rsi, %r8
	andq %rdi, %r8
	shrq $2, %rsi
	andq %rdi, %rsi
	addq %r8, %rsi
	movq %rsi, %rdi
	shrq $4, %rdi
	addq %rsi, %rdi
	movabsq $1085102592571150095, %rsi
	andq %rdi, %rsi
	movabsq $72340172838076673, %rdi
	imulq %rsi, %rdi
	shrq $56, %rdi
	xorl %esi, %esi
	subq %rdi, %rcx
	cmovbq %rsi, %rcx
	jmp .LBB35_15
.LBB35_4:
	xorl %edx, %edx
.LBB35_9:
	cmpb $1, %al
	cmovel %ebp, %ecx
	movzbl %al, %eax
	movw $0, (%rbx)
	movl %eax, 8(%rbx)
	movl %ecx, 12(%rbx)
	movq %rdx, 16(%rbx)
	jmp .LBB35_18
.LBB35_12:
	xorl %ecx, %ecx
.LBB35_15:
	movzbl %al, %eax
	cmpb $1, %al
	jne .LBB35_17
	addl 224(%r15), %ebx
	movl %ebx, %edx
.LBB35_17:
	movw $0, (%r14)
	movl %eax, 8(%r14)
	movl %edx, 12(%r14)
	movq %rcx, 16(%r14)
	jmp .LBB35_18
.Lfunc_end35:
	.size tag_pool.pool.Pool.get_exactly_quietly_i64_core.clone.U64Clone, .Lfunc_end35-tag_pool.pool.Pool.get_exactly_quietly_i64_core.clone.U64Clone
	.section .text.tag_c.gets.CachedMemberGetCalls.get_exactly,"ax",@progbits
	.p2align 4
	.type tag_c.gets.CachedMemberGetCalls.get_exactly,@function
tag_c.gets.CachedMemberGetCalls.get_exactly:
	pushq %rbp
	pushq %r15
	pushq %r14
	pushq %r13
	pushq %r12
	pushq %rbx
	subq $24, %rsp
	movq %rdx, %rbx
	movl %esi, %ebp
	movq %rdi, %r14
	movq (%rdi), %rsi
	xorps %xmm0, %xmm0
	movaps %xmm0, (%rsp)
	movq $0, 16(%rsp)
	movl %ebp, %ecx
	subl 8(%rdi), %ecx
	cmpl $63, %ecx
	ja .LBB36_3
	movq 24(%r14), %rax
	movl $1, %edx
	shlq %cl, %rdx
	btq %rcx, %rax
	jae .LBB36_3
	movq %rdx, %rcx
	notq %rcx
	andq %rcx, %rax
	movq %rax, 24(%r14)
	orq %rdx, 32(%r14)
	incl 16(%r14)
	incq 40(%r14)
	jmp .LBB36_18
.LBB36_3:
	addq $8, %rsi
	leaq 48(%r14), %rdx
	movq %rsp, %rdi
	movl %ebp, %ecx
	callq tag_pool.pool.Pool.get_exactly_quietly_i64_core.clone.U64Clone
	cmpb $0, (%rsp)
	je .LBB36_5
	movzbl 1(%rsp), %eax
	leaq .Lswitch.table.tags_library_wait_on_reserved.286(%rip), %rcx
	movl (%rcx,%rax,4), %ebp
	jmp .LBB36_18
.LBB36_5:
	movq 16(%rsp), %rax
	cmpb $1, 8(%rsp)
	movl $-10, %r15d
	cmovel 12(%rsp), %r15d
	testq %rax, %rax
	je .LBB36_17
	leaq 8(%r14), %rdi
	movq (%r14), %rcx
	leaq 8(%rcx), %rsi
	cmpq $64, %rax
	movl $64, %edx
	cmovbq %rax, %rdx
	cmpl 232(%rcx), %ebp
	jae .LBB36_10
	movq (%rsi), %rax
	movq 8(%rax), %rax
	testq %rax, %rax
	je .LBB36_12
	movq %rdi, %r12
	movq %rsi, %rdi
	movl %edx, %esi
	movq %rax, %rdx
	callq tag_bell.telling.tell_each_i64
	movq %r12, %rdi
	movq %rax, %r12
	movq %rdx, %r13
	jmp .LBB36_13
.LBB36_10:
	movq 120(%rcx), %rax
	movq 8(%rax), %rax
	testq %rax, %rax
	je .LBB36_15
	callq tag_cache.cache.Cache.give_back_and_tell_i64_core.clone.U64Clone
	movq %rax, %r12
	movq %rdx, %r13
	jmp .LBB36_16
.LBB36_12:
	xorl %r12d, %r12d
	xorl %r13d, %r13d
.LBB36_13:
	movq (%r14), %rsi
	movq 120(%rsi), %rax
	movq 8(%rax), %rax
	testq %rax, %rax
	je .LBB36_16
	addq $8, %rsi
	xorl %edx, %edx
	callq tag_cache.cache.Cache.give_back_and_tell_i64_core.clone.U64Clone
	orq %rax, %r12
	orq %rdx, %r13
	jmp .LBB36_16
.LBB36_15:
	xorl %r12d, %r12d
	xorl %r13d, %r13d
.LBB36_16:
	movq %r12, (%rbx)
	movq %r13, 8(%rbx)
	addl $1073741824, %r15d
.LBB36_17:
	movl %r15d, %ebp
.LBB36_18:
	movl %ebp, %eax
	addq $24, %rsp
	popq %rbx
	popq %r12
	popq %r13
	popq %r14
	popq %r15
	popq %rbp
	retq
.Lfunc_end36:
	.size tag_c.gets.CachedMemberGetCalls.get_exactly, .Lfunc_end36-tag_c.gets.CachedMemberGetCalls.get_exactly
	.section .text.tag_pool.pool.Pool.get_many_quietly_i64_core.clone.U64Clone,"ax",@progbits
	.p2align 4
	.type tag_pool.pool.Pool.get_many_quietly_i64_core.clone.U64Clone,@function
tag_pool.pool.Pool.get_many_quietly_i64_core.clone.U64Clone:
	pushq %rbp
	pushq %r15
	pushq %r14
	pushq %r13
	pushq %r12
	pushq %rbx
	subq $72, %rsp
	movq %rcx, (%rsp)
	movl $0, 11(%rsp)
	movl $0, 8(%rsp)
	movl 176(%rsi), %ecx
	movb $3, %al
	cmpq %rcx, %r8
	ja .LBB37_32
	movq %r8, %r12
	movq %rdx, %r15
	movq 248(%rdx), %rcx
	subq 280(%rdx), %rcx
	movb $5, %al
	cmpq %r8, %rcx
	jae .LBB37_2
.LBB37_32:
	movb $1, (%rdi)
	movb %al, 1(%rdi)
	xorps %xmm0, %xmm0
	movups %xmm0, 8(%rdi)
	jmp .LBB37_33
.LBB37_2:
	movb $1, %al
	testq %r12, %r12
	je .LBB37_3
	movq %rsi, %rbp
	movq %rdi, 16(%rsp)
	leaq 216(%r15), %rax
	movq %rax, 64(%rsp)
	leaq 112(%rsi), %rax
	movq %rax, 24(%rsp)
	xorl %ebx, %ebx
	xorl %r14d, %r14d
	.p2align 4
.LBB37_5:
	xorps %xmm0, %xmm0
	movaps %xmm0, 48(%rsp)
	movaps %xmm0, 32(%rsp)
	movq 248(%r15), %rax
	cmpq 280(%r15), %rax
	je .LBB37_34
	movl 176(%rbp), %esi
	movl 216(%r15), %edi
	xorl %eax, %eax
	cmpl %edi, %esi
	jbe .LBB37_9
	testb $1, 220(%r15)
	movl $0, %edx
	movl $0, %r13d
	jne .LBB37_15
	movl 180(%rbp), %ecx
	shrl %cl, %edi
	leaq 112(%rbp), %rax
	movq (%rax), %rax
	movq %rdi, %r9
	shlq $7, %r9
	movq 576(%rax,%r9), %rax
	notq %rax
	movl $64, %edx
	rep  bsfq %rax, %rdx
	movl %edx, %r8d
	shrl %cl, %r8d
	movl $1, %eax
	testl %r8d, %r8d
	jne .LBB37_9
	movl %edi, %r8d
	shll %cl, %r8d
	addl %edx, %r8d
	cmpl %r8d, %esi
	jbe .LBB37_9
	leaq 112(%rbp), %rax
	movq (%rax), %r11
	movl $1, %r10d
	movl %edx, %ecx
	shlq %cl, %r10
	.p2align 4
.LBB37_12:
	movq 576(%r11,%r9), %r13
	movq %r13, %rcx
	orq %r10, %rcx
	movq %r13, %rax
	lock  cmpxchgq %rcx, 576(%r11,%r9)
	jne .LBB37_12
	testq %r10, %r13
	je .LBB37_17
	incl %edx
	movl $2, %eax
	jmp .LBB37_15
	.p2align 4
.LBB37_9:
	xorl %edx, %edx
	xorl %r13d, %r13d
.LBB37_15:
	movl %eax, 32(%rsp)
	movl %edx, 36(%rsp)
	movq %r13, 40(%rsp)
	leaq 48(%rsp), %rdi
	leaq 32(%rsp), %r8
	leaq 112(%rbp), %rsi
	leaq 232(%r15), %rdx
	leaq 216(%r15), %rcx
	callq tag_search.on_map.finish_i64
	movq 56(%rsp), %rsi
	cmpb $1, 48(%rsp)
	jne .LBB37_22
	movl 52(%rsp), %r8d
.LBB37_20:
	addl 224(%rbp), %r8d
	addq %rbx, %rsi
	movq $-1, %rbx
	cmovaeq %rsi, %rbx
	movq (%rsp), %rax
	movl %r8d, (%rax,%r14,4)
	incq %r14
	cmpq %r12, %r14
	jne .LBB37_5
	jmp .LBB37_21
.LBB37_17:
	movq 256(%r15), %rax
	orq %r10, (%rax,%rdi,8)
	incq 280(%r15)
	cmpl 216(%r15), %r8d
	jne .LBB37_19
	leal 1(%r8), %eax
	decl %esi
	xorl %ecx, %ecx
	cmpl %esi, %eax
	cmovbl %eax, %ecx
	leaq 216(%r15), %rax
	movl %ecx, (%rax)
.LBB37_19:
	xorl %esi, %esi
	jmp .LBB37_20
.LBB37_3:
	xorl %ebx, %ebx
	jmp .LBB37_31
.LBB37_21:
	movq 16(%rsp), %rdi
	movb $1, %al
	jmp .LBB37_31
.LBB37_22:
	addq %rbx, %rsi
	movq $-1, %rdi
	cmovbq %rdi, %rsi
	testq %r14, %r14
	je .LBB37_30
	movl 180(%rbp), %eax
	movl 224(%rbp), %r8d
	movq (%rsp), %rcx
	movl (%rcx), %ebx
	subl %r8d, %ebx
	movl %eax, %ecx
	shrl %cl, %ebx
	movl $-1, %r10d
	shll %cl, %r10d
	notl %r10d
	xorl %r9d, %r9d
	xorl %r11d, %r11d
	jmp .LBB37_24
	.p2align 4
.LBB37_26:
	movq 24(%rsp), %rcx
	movq (%rcx), %rcx
	movl %ebx, %edx
	movq %rdx, %rbx
	shlq $7, %rbx
	lock  subq %r9, 576(%rcx,%rbx)
	movq 256(%r15), %rcx
	movq %r9, %rbx
	notq %rbx
	andq %rbx, (%rcx,%rdx,8)
	movq %r9, %rcx
	shrq %rcx
	movabsq $6148914691236517205, %rdx
	andq %rcx, %rdx
	subq %rdx, %r9
	movabsq $3689348814741910323, %rcx
	movq %r9, %rdx
	andq %rcx, %rdx
	shrq $2, %r9
	andq %rcx, %r9
	addq %rdx, %r9
	movq %r9, %rcx
	shrq $4, %rcx
	addq %r9, %rcx
	movabsq $1085102592571150095, %rdx
	andq %rcx, %rdx
	movabsq $72340172838076673, %rcx
	imulq %rdx, %rcx
	shrq $56, %rcx
	addq %rcx, 288(%r15)
	movq %r12, %r9
	movl %ebp, %ebx
	incq %r11
	cmpq %r11, %r14
	je .LBB37_28
.LBB37_24:
	movq (%rsp), %rcx
	movl (%rcx,%r11,4), %edx
	subl %r8d, %edx
	movl %edx, %ebp
	movl %eax, %ecx
	shrl %cl, %ebp
	andl %r10d, %edx
	movl $1, %r12d
	movl %edx, %ecx
	shlq %cl, %r12
	cmpl %ebx, %ebp
	jne .LBB37_26
	orq %r12, %r9
	incq %r11
	cmpq %r11, %r14
	jne .LBB37_24
.LBB37_28:
	movq 24(%rsp), %rax
	movq (%rax), %rax
	movl %ebx, %ecx
	movq %rcx, %rdx
	shlq $7, %rdx
	lock  subq %r9, 576(%rax,%rdx)
	movq 256(%r15), %rax
	movq %r9, %rdx
	notq %rdx
	andq %rdx, (%rax,%rcx,8)
	movq %r9, %rax
	shrq %rax
	movabsq $6148914691236517205, %rcx
	andq %rax, %rcx
	subq %rcx, %r9
	movabsq $3689348814741910323, %rax
	movq %r9, %rcx
	andq %rax, %rcx
	shrq $2, %r9
	andq %rax, %r9
	addq %rcx, %r9
	movq %r9, %rax
	shrq $4, %rax
	addq %r9, %rax
	movabsq $1085102592571150095, %rcx
	andq %rax, %rcx
	movabsq $72340172838076673, %rax
	imulq %rcx, %rax
	shrq $56, %rax
	addq %rax, 288(%r15)
	cmpb $0, 220(%r15)
	jne .LBB37_30
	movq (%rsp), %rax
	movl -4(%rax,%r14,4), %eax
	subl %r8d, %eax
	movq 64(%rsp), %rcx
	movl %eax, (%rcx)
.LBB37_30:
	addq %rsi, %r14
	cmovbq %rdi, %r14
	xorl %eax, %eax
	movq %r14, %rbx
	movq 16(%rsp), %rdi
.LBB37_31:
	movw $0, (%rdi)
	movb %al, 8(%rdi)
	movl 8(%rsp), %eax
	movl 11(%rsp), %ecx
	movl %eax, 9(%rdi)
	movl %ecx, 12(%rdi)
	movq %rbx, 16(%rdi)
.LBB37_33:
	addq $72, %rsp
	popq %rbx
	popq %r12
	popq %r13
	popq %r14
	popq %r15
	popq %rbp
	retq
.LBB37_34:
	ud2
.Lfunc_end37:
	.size tag_pool.pool.Pool.get_many_quietly_i64_core.clone.U64Clone, .Lfunc_end37-tag_pool.pool.Pool.get_many_quietly_i64_core.clone.U64Clone
	.section .text.tag_c.gets.CachedMemberGetCalls.get_many,"ax",@progbits
	.p2align 4
	.type tag_c.gets.CachedMemberGetCalls.get_many,@function
tag_c.gets.CachedMemberGetCalls.get_many:
	pushq %rbp
	pushq %r14
	pushq %rbx
	subq $32, %rsp
	movq %rcx, %rbx
	movq %rdx, %r8
	movq %rsi, %rcx
	movq %rdi, %r14
	movq (%rdi), %rsi
	addq $8, %rsi
	xorps %xmm0, %xmm0
	movaps %xmm0, (%rsp)
	movq $0, 16(%rsp)
	leaq 48(%rdi), %rdx
	movq %rsp, %rdi
	callq tag_pool.pool.Pool.get_many_quietly_i64_core.clone.U64Clone
	cmpb $0, (%rsp)
	je .LBB38_1
	movzbl 1(%rsp), %eax
	leaq .Lswitch.table.tags_library_wait_on_reserved.286(%rip), %rcx
	movl (%rcx,%rax,4), %eax
	jmp .LBB38_7
.LBB38_1:
	movq 16(%rsp), %rcx
	xorl %edx, %edx
	testb $1, 8(%rsp)
	movl $-10, %eax
	cmovnel %edx, %eax
	testq %rcx, %rcx
	je .LBB38_7
	movq (%r14), %rsi
	movq 120(%rsi), %rdx
	movq 8(%rdx), %rdx
	testq %rdx, %rdx
	je .LBB38_3
	addq $8, %r14
	addq $8, %rsi
	cmpq $64, %rcx
	movl $64, %edx
	cmovbq %rcx, %rdx
	movq %r14, %rdi
	movl %eax, %ebp
	callq tag_cache.cache.Cache.give_back_and_tell_i64_core.clone.U64Clone
	movq %rax, %rcx
	movl %ebp, %eax
	jmp .LBB38_5
.LBB38_3:
	xorl %ecx, %ecx
	xorl %edx, %edx
.LBB38_5:
	movq %rcx, (%rbx)
	movq %rdx, 8(%rbx)
	addl $1073741824, %eax
.LBB38_7:
	addq $32, %rsp
	popq %rbx
	popq %r14
	popq %rbp
	retq
.Lfunc_end38:
	.size tag_c.gets.CachedMemberGetCalls.get_many, .Lfunc_end38-tag_c.gets.CachedMemberGetCalls.get_many
	.section .text.tag_pool.pool.Pool.get_reserved_quietly_i64_core.clone.U64Clone,"ax",@progbits
	.p2align 4
	.type tag_pool.pool.Pool.get_reserved_quietly_i64_core.clone.U64Clone,@function
tag_pool.pool.Pool.get_reserved_quietly_i64_core.clone.U64Clone:
	pushq %r15
	pushq %r14
	pushq %r13
	pushq %r12
	pushq %rbx
	subq $32, %rsp
	cmpl $0, 224(%rsi)
	je .LBB39_1
	xorps %xmm0, %xmm0
	movaps %xmm0, 16(%rsp)
	movaps %xmm0, (%rsp)
	movq 40(%rdx), %rax
	cmpq 72(%rdx), %rax
	jne .LBB39_3
	movw $1281, (%rdi)
	jmp .LBB39_17
.LBB39_1:
	movw $1537, (%rdi)
	xorps %xmm0, %xmm0
.LBB39_17:
	movups %xmm0, 8(%rdi)
	jmp .LBB39_18
.LBB39_3:
	leaq 8(%rdx), %r10
	movl 64(%rsi), %r8d
	movl 8(%rdx), %r11d
	xorl %eax, %eax
	cmpl %r11d, %r8d
	jbe .LBB39_6
	testb $1, 12(%rdx)
	movl $0, %r9d
	movl $0, %ecx
	jne .LBB39_12
	movl 68(%rsi), %ecx
	shrl %cl, %r11d
	movq (%rsi), %rax
	movq %r11, %r14
	shlq $7, %r14
	movq 576(%rax,%r14), %rax
	notq %rax
	movl $64, %r9d
	rep  bsfq %rax, %r9
	movl %r9d, %ebx
	shrl %cl, %ebx
	movl $1, %eax
	testl %ebx, %ebx
	jne .LBB39_6
	movl %r11d, %ebx
	shll %cl, %ebx
	addl %r9d, %ebx
	cmpl %ebx, %r8d
	jbe .LBB39_6
	movq (%rsi), %r12
	movl $1, %r15d
	movl %r9d, %ecx
	shlq %cl, %r15
	.p2align 4
.LBB39_9:
	movq 576(%r12,%r14), %rcx
	movq %rcx, %r13
	orq %r15, %r13
	movq %rcx, %rax
	lock  cmpxchgq %r13, 576(%r12,%r14)
	jne .LBB39_9
	testq %r15, %rcx
	je .LBB39_13
	incl %r9d
	movl $2, %eax
	jmp .LBB39_12
.LBB39_6:
	xorl %r9d, %r9d
	xorl %ecx, %ecx
.LBB39_12:
	addq $24, %rdx
	movl %eax, (%rsp)
	movl %r9d, 4(%rsp)
	movq %rcx, 8(%rsp)
	leaq 16(%rsp), %rax
	movq %rsp, %r8
	movq %rdi, %rbx
	movq %rax, %rdi
	movq %r10, %rcx
	callq tag_search.on_map.finish_i64
	movq %rbx, %rdi
	movzbl 16(%rsp), %eax
	movl 20(%rsp), %ebx
	movq 24(%rsp), %rcx
.LBB39_15:
	movw $0, (%rdi)
	movl %eax, 8(%rdi)
	movl %ebx, 12(%rdi)
	movq %rcx, 16(%rdi)
.LBB39_18:
	addq $32, %rsp
	popq %rbx
	popq %r12
	popq %r13
	popq %r14
	popq %r15
	retq
.LBB39_13:
	movq 48(%rdx), %rax
	orq %r15, (%rax,%r11,8)
	incq 72(%rdx)
	movl $1, %eax
	xorl %ecx, %ecx
	cmpl 8(%rdx), %ebx
	jne .LBB39_15
	leal 1(%rbx), %edx
	decl %r8d
	cmpl %r8d, %edx
	cmovael %ecx, %edx
	movl %edx, (%r10)
	jmp .LBB39_15
.Lfunc_end39:
	.size tag_pool.pool.Pool.get_reserved_quietly_i64_core.clone.U64Clone, .Lfunc_end39-tag_pool.pool.Pool.get_reserved_quietly_i64_core.clone.U64Clone
	.section .text.tag_c.gets.CachedMemberGetCalls.get_reserved,"ax",@progbits
	.p2align 4
	.type tag_c.gets.CachedMemberGetCalls.get_reserved,@function
tag_c.gets.CachedMemberGetCalls.get_reserved:
	pushq %rbp
	pushq %r15
	pushq %r14
	pushq %r12
	pushq %rbx
	subq $32, %rsp
	movq %rsi, %rbx
	movq %rdi, %r14
	movq (%rdi), %rsi
	addq $8, %rsi
	xorps %xmm0, %xmm0
	movaps %xmm0, (%rsp)
	movq $0, 16(%rsp)
	leaq 48(%rdi), %rdx
	movq %rsp, %rdi
	callq tag_pool.pool.Pool.get_reserved_quietly_i64_core.clone.U64Clone
	cmpb $0, (%rsp)
	je .LBB40_1
	movzbl 1(%rsp), %eax
	leaq .Lswitch.table.tags_library_wait_on_reserved.286(%rip), %rcx
	movl (%rcx,%rax,4), %eax
	jmp .LBB40_9
.LBB40_1:
	movq 16(%rsp), %rcx
	cmpb $1, 8(%rsp)
	movl $-10, %eax
	cmovel 12(%rsp), %eax
	testq %rcx, %rcx
	je .LBB40_9
	movl %eax, %ebp
	movq (%r14), %rdi
	movq 8(%rdi), %rax
	movq 8(%rax), %rdx
	testq %rdx, %rdx
	je .LBB40_3
	addq $8, %rdi
	cmpq $64, %rcx
	movl $64, %esi
	cmovbq %rcx, %rsi
	callq tag_bell.telling.tell_each_i64
	movq %rax, %r15
	movq %rdx, %r12
	jmp .LBB40_5
.LBB40_3:
	xorl %r15d, %r15d
	xorl %r12d, %r12d
.LBB40_5:
	movq (%r14), %rsi
	movq 120(%rsi), %rax
	movq 8(%rax), %rax
	testq %rax, %rax
	je .LBB40_7
	addq $8, %r14
	addq $8, %rsi
	movq %r14, %rdi
	xorl %edx, %edx
	callq tag_cache.cache.Cache.give_back_and_tell_i64_core.clone.U64Clone
	orq %rax, %r15
	orq %rdx, %r12
.LBB40_7:
	movq %r15, (%rbx)
	movq %r12, 8(%rbx)
	movl %ebp, %eax
	addl $1073741824, %eax
.LBB40_9:
	addq $32, %rsp
	popq %rbx
	popq %r12
	popq %r14
	popq %r15
	popq %rbp
	retq
.Lfunc_end40:
	.size tag_c.gets.CachedMemberGetCalls.get_reserved, .Lfunc_end40-tag_c.gets.CachedMemberGetCalls.get_reserved
	.section .text.tag_pool.pool.Pool.get_shallow_quietly_i64_core.clone.U64Clone,"ax",@progbits
	.p2align 4
	.type tag_pool.pool.Pool.get_shallow_quietly_i64_core.clone.U64Clone,@function
tag_pool.pool.Pool.get_shallow_quietly_i64_core.clone.U64Clone:
	pushq %rbp
	pushq %r15
	pushq %r14
	pushq %r12
	pushq %rbx
	subq $80, %rsp
	cmpl 232(%rsi), %ecx
	jae .LBB41_2
	movw $1025, (%rdi)
	xorps %xmm0, %xmm0
	jmp .LBB41_19
.LBB41_2:
	leaq 112(%rsi), %rax
	leaq 232(%rdx), %r8
	xorps %xmm0, %xmm0
	movups %xmm0, 56(%rsp)
	movq $0, 72(%rsp)
	movq %rax, 40(%rsp)
	movq %r8, 48(%rsp)
	movq 248(%rdx), %rax
	cmpq 280(%rdx), %rax
	jne .LBB41_3
	movw $1281, (%rdi)
.LBB41_19:
	movups %xmm0, 8(%rdi)
	jmp .LBB41_20
.LBB41_3:
	movl %ecx, %r8d
	movl 176(%rsi), %ebp
	movl 180(%rsi), %ecx
	movl 216(%rdx), %ebx
	movq %rdx, %r12
	movq %rsi, %r14
	movq %rdi, %r15
	cmpl %ebp, %ebx
	jb .LBB41_7
	testl %ebp, %ebp
	je .LBB41_5
	movl %ebx, %eax
	xorl %edx, %edx
	divl %ebp
	movl %edx, %ebx
	jmp .LBB41_7
.LBB41_5:
	xorl %ebx, %ebx
.LBB41_7:
	movl %ebx, %eax
	shrl %cl, %eax
	movl $-1, %edx
	shll %cl, %edx
	notl %edx
	andl %ebx, %edx
	movl %ebp, 12(%rsp)
	movl %ecx, 16(%rsp)
	movl %eax, 20(%rsp)
	movl %edx, 24(%rsp)
	movl $1, 28(%rsp)
	movl %r8d, 32(%rsp)
	movb $1, 36(%rsp)
	movw $0, 37(%rsp)
	movb $0, 39(%rsp)
	leaq 12(%rsp), %rdi
	leaq 40(%rsp), %rsi
	callq tag_search.scan.Scan.search__989a3ead4d9545f0
	xorl %ecx, %ecx
	cmpb $1, %al
	jne .LBB41_11
	cmpl %ebx, %edx
	je .LBB41_10
	testb $1, 220(%r12)
	movl %ebx, %ecx
	je .LBB41_11
.LBB41_10:
	leal 1(%rdx), %esi
	decl %ebp
	xorl %ecx, %ecx
	cmpl %ebp, %esi
	cmovbl %esi, %ecx
.LBB41_11:
	movl %ecx, 216(%r12)
	movq 56(%rsp), %rcx
	xorl %esi, %esi
	testq %rcx, %rcx
	je .LBB41_12
	movq 48(%rsp), %rdi
	movl 64(%rsp), %r8d
	cmpq %r8, 32(%rdi)
	jbe .LBB41_15
	movq 24(%rdi), %rdi
	movq (%rdi,%r8,8), %rdi
	andq 72(%rsp), %rdi
	movq %rdi, %r8
	shrq %r8
	movabsq $6148914691236517205, %r9
	andq %r8, %r9
	subq %r9, %rdi
	movabsq $3689348814741910323, %r8
	movq %rdi, %r9
	andq %r8, %r9
	shrq $2, %rdi
	andq %r8, %rdi
	addq %r9, %rdi
	movq %rdi, %r8
	shrq $4, %r8
	addq %rdi, %r8
	movabsq $1085102592571150095, %rdi
	andq %r8, %rdi
	movabsq $72340172838076673, %r8
	imulq %rdi, %r8
	shrq $56, %r8
	xorl %edi, %edi
	subq %r8, %rcx
	cmovbq %rdi, %rcx
.LBB41_15:
	movzbl %al, %edi
	cmpb $1, %al
	jne .LBB41_17
.LBB41_16:
	addl 224(%r14), %edx
	movl %edx, %esi
.LBB41_17:
	movw $0, (%r15)
	movl %edi, 8(%r15)
	movl %esi, 12(%r15)
	movq %rcx, 16(%r15)
.LBB41_20:
	addq $80, %rsp
	popq %rbx
	popq %r12
	popq %r14
	popq %r15
	popq %rbp
	retq
.LBB41_12:
	xorl %ecx, %ecx
	movzbl %al, %edi
	cmpb $1, %al
	je .LBB41_16
	jmp .LBB41_17
.Lfunc_end41:
	.size tag_pool.pool.Pool.get_shallow_quietly_i64_core.clone.U64Clone, .Lfunc_end41-tag_pool.pool.Pool.get_shallow_quietly_i64_core.clone.U64Clone
	.section .text.tag_c.gets.CachedMemberGetCalls.get_shallow,"ax",@progbits
	.p2align 4
	.type tag_c.gets.CachedMemberGetCalls.get_shallow,@function
tag_c.gets.CachedMemberGetCalls.get_shallow:
	pushq %rbp
	pushq %r14
	pushq %rbx
	subq $32, %rsp
	movq %rdx, %rbx
	movl %esi, %ecx
	movq %rdi, %r14
	movq (%rdi), %rsi
	addq $8, %rsi
	xorps %xmm0, %xmm0
	movaps %xmm0, (%rsp)
	movq $0, 16(%rsp)
	leaq 48(%rdi), %rdx
	movq %rsp, %rdi
	callq tag_pool.pool.Pool.get_shallow_quietly_i64_core.clone.U64Clone
	cmpb $0, (%rsp)
	je .LBB42_1
	movzbl 1(%rsp), %eax
	leaq .Lswitch.table.tags_library_wait_on_reserved.286(%rip), %rcx
	movl (%rcx,%rax,4), %eax
	jmp .LBB42_7
.LBB42_1:
	movq 16(%rsp), %rcx
	cmpb $1, 8(%rsp)
	movl $-10, %eax
	cmovel 12(%rsp), %eax
	testq %rcx, %rcx
	je .LBB42_7
	movq (%r14), %rsi
	movq 120(%rsi), %rdx
	movq 8(%rdx), %rdx
	testq %rdx, %rdx
	je .LBB42_3
	addq $8, %r14
	addq $8, %rsi
	cmpq $64, %rcx
	movl $64, %edx
	cmovbq %rcx, %rdx
	movq %r14, %rdi
	movl %eax, %ebp
	callq tag_cache.cache.Cache.give_back_and_tell_i64_core.clone.U64Clone
	movq %rax, %rcx
	movl %ebp, %eax
	jmp .LBB42_5
.LBB42_3:
	xorl %ecx, %ecx
	xorl %edx, %edx
.LBB42_5:
	movq %rcx, (%rbx)
	movq %rdx, 8(%rbx)
	addl $1073741824, %eax
.LBB42_7:
	addq $32, %rsp
	popq %rbx
	popq %r14
	popq %rbp
	retq
.Lfunc_end42:
	.size tag_c.gets.CachedMemberGetCalls.get_shallow, .Lfunc_end42-tag_c.gets.CachedMemberGetCalls.get_shallow
	.section .text.tag_c.pairs.CachedMemberPairCalls.get_write,"ax",@progbits
	.p2align 4
	.type tag_c.pairs.CachedMemberPairCalls.get_write,@function
tag_c.pairs.CachedMemberPairCalls.get_write:
	pushq %rbp
	pushq %r15
	pushq %r14
	pushq %r13
	pushq %r12
	pushq %rbx
	subq $40, %rsp
	movq %rdx, %rbx
	movq %rsi, %r12
	movq %rdi, %r15
	leaq 8(%rdi), %r14
	movq (%rdi), %rdx
	xorps %xmm0, %xmm0
	movaps %xmm0, 16(%rsp)
	movq $0, 32(%rsp)
	movq 24(%rdi), %rax
	testq %rax, %rax
	je .LBB43_2
	movq %rbx, 8(%rsp)
	rep  bsfq %rax, %rcx
	movl 8(%r15), %ebp
	movl $1, %edx
	shlq %cl, %rdx
	btrq %rcx, %rax
	movq %rax, 24(%r15)
	orq %rdx, 32(%r15)
	addl %ecx, %ebp
	incl 16(%r15)
	incq 40(%r15)
	xorl %ebx, %ebx
.LBB43_5:
	movq (%r15), %r13
	movl %ebp, %eax
	subl 8(%r15), %eax
	cmpl $63, %eax
	ja .LBB43_8
	movq 32(%r15), %rcx
	btq %rax, %rcx
	jae .LBB43_8
	movl %ebp, %eax
	subl 232(%r13), %eax
	movl 288(%r15), %ecx
	leaq (%rcx,%rax,8), %rcx
	movq 120(%r13), %rdx
	movq (%rdx,%rcx,8), %rdx
	movq 128(%r13), %rdx
	movq %r12, (%rdx,%rax,8)
	movq 120(%r13), %rax
	movq (%rax,%rcx,8), %rax
	jmp .LBB43_10
.LBB43_8:
	addq $8, %r13
	movq %r14, %rdi
	movq %r13, %rsi
	movl %ebp, %edx
	callq tag_cache.cache.Cache.check_unknown_i64_core.clone.U64Clone
	testb %al, %al
	jne .LBB43_10
	movq %r14, %rdi
	movq %r13, %rsi
	movl %ebp, %edx
	movq %r12, %rcx
	callq tag_cache.cache.Cache.write_unknown_i64_core.clone.U64Clone
	jmp .LBB43_10
.LBB43_2:
	addq $8, %rdx
	leaq 16(%rsp), %rdi
	movq %r14, %rsi
	callq tag_cache.cache.Cache.win_quietly_i64_core.clone.U64Clone
	cmpb $0, 16(%rsp)
	je .LBB43_3
	movzbl 17(%rsp), %eax
	leaq .Lswitch.table.tags_library_wait_on_reserved.286(%rip), %rcx
	movl (%rcx,%rax,4), %ebp
	jmp .LBB43_16
.LBB43_3:
	movq %rbx, 8(%rsp)
	movq 32(%rsp), %rbx
	movl $-10, %ebp
	cmpb $1, 24(%rsp)
	jne .LBB43_10
	movl 28(%rsp), %ebp
	jmp .LBB43_5
.LBB43_10:
	testq %rbx, %rbx
	je .LBB43_16
	movq (%r15), %rsi
	movq 120(%rsi), %rax
	movq 8(%rax), %rax
	testq %rax, %rax
	je .LBB43_12
	addq $8, %rsi
	cmpq $64, %rbx
	movl $64, %edx
	cmovbq %rbx, %rdx
	movq %r14, %rdi
	callq tag_cache.cache.Cache.give_back_and_tell_i64_core.clone.U64Clone
	jmp .LBB43_14
.LBB43_12:
	xorl %eax, %eax
	xorl %edx, %edx
.LBB43_14:
	movq 8(%rsp), %rcx
	movq %rax, (%rcx)
	movq %rdx, 8(%rcx)
	addl $1073741824, %ebp
.LBB43_16:
	movl %ebp, %eax
	addq $40, %rsp
	popq %rbx
	popq %r12
	popq %r13
	popq %r14
	popq %r15
	popq %rbp
	retq
.Lfunc_end43:
	.size tag_c.pairs.CachedMemberPairCalls.get_write, .Lfunc_end43-tag_c.pairs.CachedMemberPairCalls.get_write
	.section .text.tag_cache.cache.Cache.check_unknown_i64_core.clone.U64Clone,"ax",@progbits
	.p2align 4
	.type tag_cache.cache.Cache.check_unknown_i64_core.clone.U64Clone,@function
tag_cache.cache.Cache.check_unknown_i64_core.clone.U64Clone:
	cmpl %edx, 228(%rsi)
	jbe .LBB44_1
	movl %edx, %r8d
	subl 224(%rsi), %r8d
	jae .LBB44_5
	movzbl 68(%rdi), %ecx
	movl %edx, %r8d
	shrl %cl, %r8d
	movl $-1, %eax
	shll %cl, %eax
	notl %eax
	andl %edx, %eax
	movl $1, %esi
	movl %eax, %ecx
	shlq %cl, %rsi
	movq 88(%rdi), %rax
	andq (%rax,%r8,8), %rsi
	testq %rsi, %rsi
	je .LBB44_7
.LBB44_8:
	subl (%rdi), %edx
	xorl %eax, %eax
	movl $0, %ecx
	cmpl $63, %edx
	ja .LBB44_2
	movl $1, %eax
	movl %edx, %ecx
	shlq %cl, %rax
	testq %rax, 16(%rdi)
	setne %al
	movl %eax, %ecx
	movl %ecx, %edx
	retq
.LBB44_1:
	movb $1, %al
	xorl %ecx, %ecx
.LBB44_2:
	movl %ecx, %edx
	retq
.LBB44_5:
	movzbl 276(%rdi), %ecx
	movl %r8d, %r9d
	shrl %cl, %r9d
	movl $-1, %eax
	shll %cl, %eax
	notl %eax
	andl %r8d, %eax
	movl $1, %esi
	movl %eax, %ecx
	shlq %cl, %rsi
	movq 296(%rdi), %rax
	andq (%rax,%r9,8), %rsi
	testq %rsi, %rsi
	jne .LBB44_8
.LBB44_7:
	movb $1, %al
	movb $1, %cl
	movl %ecx, %edx
	retq
.Lfunc_end44:
	.size tag_cache.cache.Cache.check_unknown_i64_core.clone.U64Clone, .Lfunc_end44-tag_cache.cache.Cache.check_unknown_i64_core.clone.U64Clone
	.section .text.tag_cache.cache.Cache.write_unknown_i64_core.clone.U64Clone,"ax",@progbits
	.p2align 4
	.type tag_cache.cache.Cache.write_unknown_i64_core.clone.U64Clone,@function
tag_cache.cache.Cache.write_unknown_i64_core.clone.U64Clone:
	movl %edx, %r8d
	subl 224(%rsi), %r8d
	jae .LBB45_2
	movl 72(%rdi), %eax
	movl %edx, %edx
	leaq (%rax,%rdx,8), %rdi
	movq (%rsi), %rax
	movq (%rax,%rdi,8), %rax
	movq 8(%rsi), %r8
	movq (%r8,%rdx,8), %rax
	movq %rcx, (%r8,%rdx,8)
	movq (%rsi), %rcx
	movq (%rcx,%rdi,8), %rcx
	retq
.LBB45_2:
	movl 280(%rdi), %eax
	leaq (%rax,%r8,8), %rdx
	movq 112(%rsi), %rax
	movq (%rax,%rdx,8), %rax
	movq 120(%rsi), %rdi
	movq (%rdi,%r8,8), %rax
	movq %rcx, (%rdi,%r8,8)
	movq 112(%rsi), %rcx
	movq (%rcx,%rdx,8), %rcx
	retq
.Lfunc_end45:
	.size tag_cache.cache.Cache.write_unknown_i64_core.clone.U64Clone, .Lfunc_end45-tag_cache.cache.Cache.write_unknown_i64_core.clone.U64Clone
	.section .text.tag_c.looks.CachedMemberLookCalls.holds,"ax",@progbits
	.p2align 4
	.type tag_c.looks.CachedMemberLookCalls.holds,@function
tag_c.looks.CachedMemberLookCalls.holds:
	movq (%rdi), %rcx
	movl $-1, %eax
	cmpl %esi, 256(%rcx)
	jbe .LBB46_8
	movl %esi, %edx
	subl 48(%rdi), %edx
	jae .LBB46_3
	movzbl 76(%rdi), %ecx
	movl %esi, %r8d
	shrl %cl, %r8d
	shll %cl, %eax
	notl %eax
	andl %esi, %eax
	movl $1, %edx
	movl %eax, %ecx
	shlq %cl, %rdx
	movq 96(%rdi), %rax
	andq (%rax,%r8,8), %rdx
	xorl %eax, %eax
	testq %rdx, %rdx
	jne .LBB46_5
.LBB46_8:
	retq
.LBB46_3:
	movzbl 284(%rdi), %ecx
	movl %edx, %r8d
	shrl %cl, %r8d
	shll %cl, %eax
	notl %eax
	andl %edx, %eax
	movl $1, %edx
	movl %eax, %ecx
	shlq %cl, %rdx
	movq 304(%rdi), %rax
	andq (%rax,%r8,8), %rdx
	xorl %eax, %eax
	testq %rdx, %rdx
	je .LBB46_8
.LBB46_5:
	subl 8(%rdi), %esi
	cmpl $63, %esi
	ja .LBB46_7
	movl $1, %edx
	movl %esi, %ecx
	shlq %cl, %rdx
	testq %rdx, 24(%rdi)
	jne .LBB46_8
.LBB46_7:
	movl $1, %eax
	retq
.Lfunc_end46:
	.size tag_c.looks.CachedMemberLookCalls.holds, .Lfunc_end46-tag_c.looks.CachedMemberLookCalls.holds
	.section .text.tag_pool.pool.Pool.post_noted_i64_core.clone.U64Clone,"ax",@progbits
	.p2align 4
	.type tag_pool.pool.Pool.post_noted_i64_core.clone.U64Clone,@function
tag_pool.pool.Pool.post_noted_i64_core.clone.U64Clone:
	cmpl %edx, 228(%rdi)
	jbe .LBB47_1
	movl %edx, %r8d
	subl 224(%rdi), %r8d
	jae .LBB47_7
	movzbl 28(%rsi), %ecx
	movl %edx, %eax
	shrl %cl, %eax
	movq 48(%rsi), %r8
	movq (%r8,%rax,8), %rax
	movl $-1, %r8d
	movl $-1, %r9d
	shll %cl, %r9d
	notl %r9d
	andl %edx, %r9d
	btq %r9, %rax
	setae %al
	jae .LBB47_6
	movzbl 28(%rsi), %ecx
	movl 32(%rsi), %r9d
	movl %edx, %r10d
	shlq $6, %r10
	addq (%rdi), %r10
	movl $1, %edi
	xchgq %rdi, (%r10,%r9,8)
	movl %edx, %edi
	shrl %cl, %edi
	shll %cl, %r8d
	notl %r8d
	andl %edx, %r8d
	movq 48(%rsi), %rdx
	movq $-2, %rsi
	movl %r8d, %ecx
	rolq %cl, %rsi
	andq %rsi, (%rdx,%rdi,8)
	xorl %edx, %edx
	retq
.LBB47_1:
	movb $1, %al
	xorl %edx, %edx
	retq
.LBB47_7:
	movzbl 236(%rsi), %ecx
	movl %r8d, %eax
	shrl %cl, %eax
	movq 256(%rsi), %rdx
	movq (%rdx,%rax,8), %rax
	movl $-1, %edx
	movl $-1, %r9d
	shll %cl, %r9d
	notl %r9d
	andl %r8d, %r9d
	btq %r9, %rax
	setae %al
	jae .LBB47_8
	movzbl 236(%rsi), %ecx
	movl %r8d, %r9d
	shrl %cl, %r9d
	shll %cl, %edx
	notl %edx
	andl %r8d, %edx
	movl 240(%rsi), %ecx
	shlq $6, %r8
	addq 112(%rdi), %r8
	movl $1, %edi
	xchgq %rdi, (%r8,%rcx,8)
	movq 256(%rsi), %rsi
	movq $-2, %rdi
	movl %edx, %ecx
	rolq %cl, %rdi
	andq %rdi, (%rsi,%r9,8)
	xorl %edx, %edx
	retq
.LBB47_6:
	movb $1, %dl
	retq
.LBB47_8:
	movl %eax, %edx
	retq
.Lfunc_end47:
	.size tag_pool.pool.Pool.post_noted_i64_core.clone.U64Clone, .Lfunc_end47-tag_pool.pool.Pool.post_noted_i64_core.clone.U64Clone
	.section .text.tag_c.values.CachedMemberSlotCalls.post,"ax",@progbits
	.p2align 4
	.type tag_c.values.CachedMemberSlotCalls.post,@function
tag_c.values.CachedMemberSlotCalls.post:
	pushq %r14
	pushq %rbx
	pushq %rax
	movq %rdx, %rbx
	movl %esi, %ecx
	movq %rdi, %r14
	movq $0, (%rsp)
	leaq 8(%rdi), %rsi
	movq (%rdi), %rdx
	addq $8, %rdx
	movq %rsp, %rdi
	callq tag_cache.cache.Cache.post_quietly_i64_core.clone.U64Clone
	cmpb $0, (%rsp)
	je .LBB48_1
	movzbl 1(%rsp), %eax
	leaq .Lswitch.table.tags_library_wait_on_reserved.286(%rip), %rcx
	movl (%rcx,%rax,4), %eax
	addq $8, %rsp
	popq %rbx
	popq %r14
	retq
.LBB48_1:
	movl 4(%rsp), %edx
	movq (%r14), %rax
	movq 120(%rax), %rax
	movq 8(%rax), %rax
	testq %rax, %rax
	je .LBB48_2
	movq %r14, %rdi
	xorl %esi, %esi
	movq %rbx, %rcx
	addq $8, %rsp
	popq %rbx
	popq %r14
	jmp tag_c.telling.CachedMemberTellingCalls.tell
.LBB48_2:
	xorl %eax, %eax
	addq $8, %rsp
	popq %rbx
	popq %r14
	retq
.Lfunc_end48:
	.size tag_c.values.CachedMemberSlotCalls.post, .Lfunc_end48-tag_c.values.CachedMemberSlotCalls.post
	.section .text.tag_cache.cache.Cache.post_quietly_i64_core.clone.U64Clone,"ax",@progbits
	.p2align 4
	.type tag_cache.cache.Cache.post_quietly_i64_core.clone.U64Clone,@function
tag_cache.cache.Cache.post_quietly_i64_core.clone.U64Clone:
	pushq %rbp
	pushq %r15
	pushq %r14
	pushq %r12
	pushq %rbx
	movl %ecx, %ebp
	movq %rdi, %rbx
	subl (%rsi), %ecx
	cmpl $63, %ecx
	jbe .LBB49_1
.LBB49_10:
	addq $40, %rsi
	movq %rdx, %rdi
	movl %ebp, %edx
	callq tag_pool.pool.Pool.post_noted_i64_core.clone.U64Clone
	xorl %r14d, %r14d
	testb %al, %al
	setne %sil
	movzbl %dl, %ecx
	cmovel %r14d, %ecx
	jmp .LBB49_11
.LBB49_1:
	movq 24(%rsi), %rax
	movl $1, %edi
	shlq %cl, %rdi
	btq %rcx, %rax
	jae .LBB49_8
	notq %rdi
	andq %rdi, %rax
	jne .LBB49_6
	cmpb $0, 12(%rsi)
	je .LBB49_6
	movq %rsi, %rdi
	movq %rsi, %r15
	movq %rdx, %rsi
	movq %rdx, %r12
	callq tag_cache.cache.Cache.give_back_kept_i64_core.clone.U64Clone
	movl %eax, %r14d
	movl %ebp, %ecx
	subl (%r15), %ecx
	movq $-2, %rax
	rolq %cl, %rax
	cmpl $64, %ecx
	movq $-1, %rcx
	cmovbq %rax, %rcx
	andq %rcx, 24(%r15)
	addq $40, %r15
	movq %r12, %rdi
	movq %r15, %rsi
	movl %ebp, %edx
	callq tag_pool.pool.Pool.post_noted_i64_core.clone.U64Clone
	testb %al, %al
	jne .LBB49_7
	xorl %ecx, %ecx
	xorl %esi, %esi
	jmp .LBB49_11
.LBB49_8:
	testq %rdi, 16(%rsi)
	je .LBB49_10
	movb $1, %cl
	xorl %r14d, %r14d
	movb $1, %sil
	jmp .LBB49_11
.LBB49_6:
	movq %rax, 24(%rsi)
	addq $40, %rsi
	movq %rdx, %rdi
	movl %ebp, %edx
	callq tag_pool.pool.Pool.post_noted_i64_core.clone.U64Clone
	xorl %r14d, %r14d
	movl $0, %ecx
	movl $0, %esi
	testb %al, %al
	jne .LBB49_7
.LBB49_11:
	movb %sil, (%rbx)
	movb %cl, 1(%rbx)
	movl %r14d, 4(%rbx)
	popq %rbx
	popq %r12
	popq %r14
	popq %r15
	popq %rbp
	retq
.LBB49_7:
	ud2
.Lfunc_end49:
	.size tag_cache.cache.Cache.post_quietly_i64_core.clone.U64Clone, .Lfunc_end49-tag_cache.cache.Cache.post_quietly_i64_core.clone.U64Clone
	.section .text.tag_c.values.CachedMemberSlotCalls.post_quietly,"ax",@progbits
	.p2align 4
	.type tag_c.values.CachedMemberSlotCalls.post_quietly,@function
tag_c.values.CachedMemberSlotCalls.post_quietly:
	pushq %rax
	movl %esi, %ecx
	movq $0, (%rsp)
	movq (%rdi), %rdx
	leaq 8(%rdi), %rsi
	addq $8, %rdx
	movq %rsp, %rdi
	callq tag_cache.cache.Cache.post_quietly_i64_core.clone.U64Clone
	cmpb $0, (%rsp)
	je .LBB50_1
	movzbl 1(%rsp), %eax
	leaq .Lswitch.table.tags_library_wait_on_reserved.286(%rip), %rcx
	movl (%rcx,%rax,4), %eax
	popq %rcx
	retq
.LBB50_1:
	xorl %eax, %eax
	popq %rcx
	retq
.Lfunc_end50:
	.size tag_c.values.CachedMemberSlotCalls.post_quietly, .Lfunc_end50-tag_c.values.CachedMemberSlotCalls.post_quietly
	.section .text.tag_c.values.CachedMemberSlotCalls.read,"ax",@progbits
	.p2align 4
	.type tag_c.values.CachedMemberSlotCalls.read,@function
tag_c.values.CachedMemberSlotCalls.read:
	pushq %rbx
	subq $16, %rsp
	movq %rdx, %rbx
	movl %esi, %ecx
	xorps %xmm0, %xmm0
	movaps %xmm0, (%rsp)
	movq (%rdi), %rdx
	leaq 8(%rdi), %rsi
	addq $8, %rdx
	movq %rsp, %rdi
	callq tag_cache.cache.Cache.read_i64_core.clone.U64Clone
	cmpb $0, (%rsp)
	je .LBB51_1
	movzbl 1(%rsp), %eax
	leaq .Lswitch.table.tags_library_wait_on_reserved.286(%rip), %rcx
	movl (%rcx,%rax,4), %eax
	addq $16, %rsp
	popq %rbx
	retq
.LBB51_1:
	movq 8(%rsp), %rax
	movq %rax, (%rbx)
	xorl %eax, %eax
	addq $16, %rsp
	popq %rbx
	retq
.Lfunc_end51:
	.size tag_c.values.CachedMemberSlotCalls.read, .Lfunc_end51-tag_c.values.CachedMemberSlotCalls.read
	.section .text.tag_cache.cache.Cache.read_i64_core.clone.U64Clone,"ax",@progbits
	.p2align 4
	.type tag_cache.cache.Cache.read_i64_core.clone.U64Clone,@function
tag_cache.cache.Cache.read_i64_core.clone.U64Clone:
	movl %ecx, %eax
	subl (%rsi), %ecx
	cmpl $63, %ecx
	jbe .LBB52_1
.LBB52_10:
	cmpl %eax, 228(%rdx)
	jbe .LBB52_11
	movl %eax, %r8d
	subl 224(%rdx), %r8d
	jae .LBB52_15
	movzbl 68(%rsi), %ecx
	movl %eax, %r8d
	shrl %cl, %r8d
	movq 88(%rsi), %r9
	movl $-1, %r10d
	shll %cl, %r10d
	movq (%r9,%r8,8), %rcx
	notl %r10d
	andl %eax, %r10d
	btq %r10, %rcx
	jae .LBB52_14
	movl 72(%rsi), %ecx
	movl %eax, %eax
	leaq (%rcx,%rax,8), %rcx
	movq (%rdx), %rsi
	movq (%rsi,%rcx,8), %rsi
	movq (%rdx), %rsi
	movq 8(%rdx), %rdx
	movq (%rdx,%rax,8), %rax
	movq (%rsi,%rcx,8), %rcx
	jmp .LBB52_17
.LBB52_1:
	movq 24(%rsi), %r9
	movl $1, %r8d
	shlq %cl, %r8
	btq %rcx, %r9
	jae .LBB52_8
	movl %eax, %ecx
	subl 224(%rdx), %ecx
	jae .LBB52_4
	movl 72(%rsi), %ecx
	movl %eax, %eax
	leaq (%rcx,%rax,8), %rcx
	movq (%rdx), %rsi
	movq (%rsi,%rcx,8), %rsi
	movq (%rdx), %rsi
	movq 8(%rdx), %rdx
	movq (%rdx,%rax,8), %rax
	movq (%rsi,%rcx,8), %rcx
	movw $0, (%rdi)
	movq %rax, 8(%rdi)
	retq
.LBB52_11:
	movb $1, %cl
	xorl %edx, %edx
	xorl %eax, %eax
	movb %cl, (%rdi)
	movb %dl, 1(%rdi)
	movq %rax, 8(%rdi)
	retq
.LBB52_8:
	testq %r8, 16(%rsi)
	je .LBB52_10
	movw $257, (%rdi)
	movq $0, 8(%rdi)
	retq
.LBB52_4:
	movl 280(%rsi), %eax
	leaq (%rax,%rcx,8), %rsi
	movq 112(%rdx), %rax
	movq (%rax,%rsi,8), %rax
	movq 112(%rdx), %r8
	movq 120(%rdx), %rax
	movq (%rax,%rcx,8), %rax
	movq (%r8,%rsi,8), %rcx
	movw $0, (%rdi)
	movq %rax, 8(%rdi)
	retq
.LBB52_15:
	movzbl 276(%rsi), %ecx
	movl %r8d, %eax
	shrl %cl, %eax
	movq 296(%rsi), %r9
	movl $-1, %r10d
	shll %cl, %r10d
	movq (%r9,%rax,8), %rax
	notl %r10d
	andl %r8d, %r10d
	btq %r10, %rax
	jae .LBB52_14
	movl 280(%rsi), %eax
	movl %r8d, %ecx
	leaq (%rax,%rcx,8), %rsi
	movq 112(%rdx), %rax
	movq (%rax,%rsi,8), %rax
	movq 112(%rdx), %r8
	movq 120(%rdx), %rax
	movq (%rax,%rcx,8), %rax
	movq (%r8,%rsi,8), %rcx
.LBB52_17:
	xorl %ecx, %ecx
	xorl %edx, %edx
	movb %cl, (%rdi)
	movb %dl, 1(%rdi)
	movq %rax, 8(%rdi)
	retq
.LBB52_14:
	movb $1, %cl
	xorl %eax, %eax
	movb $1, %dl
	movb %cl, (%rdi)
	movb %dl, 1(%rdi)
	movq %rax, 8(%rdi)
	retq
.Lfunc_end52:
	.size tag_cache.cache.Cache.read_i64_core.clone.U64Clone, .Lfunc_end52-tag_cache.cache.Cache.read_i64_core.clone.U64Clone
	.section .text.tag_c.pairs.CachedMemberPairCalls.read_clear,"ax",@progbits
	.p2align 4
	.type tag_c.pairs.CachedMemberPairCalls.read_clear,@function
tag_c.pairs.CachedMemberPairCalls.read_clear:
	pushq %rbp
	pushq %r15
	pushq %r14
	pushq %r12
	pushq %rbx
	subq $32, %rsp
	movq %rcx, %rbx
	movq %rdx, %r12
	movl %esi, %ebp
	movq %rdi, %r14
	xorps %xmm0, %xmm0
	movaps %xmm0, 16(%rsp)
	leaq 8(%rdi), %r15
	movq (%rdi), %rdx
	addq $8, %rdx
	leaq 16(%rsp), %rdi
	movq %r15, %rsi
	movl %ebp, %ecx
	callq tag_cache.cache.Cache.read_i64_core.clone.U64Clone
	cmpb $0, 16(%rsp)
	je .LBB53_1
	movzbl 17(%rsp), %eax
	jmp .LBB53_17
.LBB53_1:
	movq 24(%rsp), %rax
	movq %rax, (%r12)
	movq (%r14), %rdx
	movq $0, 8(%rsp)
	movl %ebp, %ecx
	subl 8(%r14), %ecx
	cmpl $63, %ecx
	ja .LBB53_8
	movq 32(%r14), %rax
	movl $1, %esi
	shlq %cl, %rsi
	btq %rcx, %rax
	jae .LBB53_8
	movl 16(%r14), %ecx
	testl %ecx, %ecx
	je .LBB53_8
	cmpb $0, 47(%r14)
	jne .LBB53_8
	movq %rsi, %rdi
	notq %rdi
	andq %rdi, %rax
	cmpb $0, 20(%r14)
	je .LBB53_7
	testq %rax, %rax
	jne .LBB53_7
.LBB53_8:
	addq $8, %rdx
	leaq 8(%rsp), %rdi
	movq %r15, %rsi
	movl %ebp, %ecx
	callq tag_cache.cache.Cache.clear_unplaced_i64_core.clone.U64Clone
	cmpb $0, 8(%rsp)
	je .LBB53_9
	movzbl 9(%rsp), %eax
.LBB53_17:
	leaq .Lswitch.table.tags_library_wait_on_reserved.286(%rip), %rcx
	movl (%rcx,%rax,4), %eax
.LBB53_18:
	addq $32, %rsp
	popq %rbx
	popq %r12
	popq %r14
	popq %r15
	popq %rbp
	retq
.LBB53_9:
	movl 12(%rsp), %eax
	movq (%r14), %rdx
	cmpl 232(%rdx), %ebp
	jae .LBB53_11
.LBB53_15:
	movq %r14, %rdi
	movl $1, %esi
	jmp .LBB53_14
.LBB53_7:
	movq %rax, 32(%r14)
	orq %rsi, 24(%r14)
	decl %ecx
	movl %ecx, 16(%r14)
	xorl %eax, %eax
	cmpl 232(%rdx), %ebp
	jb .LBB53_15
.LBB53_11:
	movq 120(%rdx), %rcx
	movq 8(%rcx), %rcx
	testq %rcx, %rcx
	je .LBB53_12
	movq %r14, %rdi
	xorl %esi, %esi
.LBB53_14:
	movl %eax, %edx
	movq %rbx, %rcx
	addq $32, %rsp
	popq %rbx
	popq %r12
	popq %r14
	popq %r15
	popq %rbp
	jmp tag_c.telling.CachedMemberTellingCalls.tell
.LBB53_12:
	xorl %eax, %eax
	jmp .LBB53_18
.Lfunc_end53:
	.size tag_c.pairs.CachedMemberPairCalls.read_clear, .Lfunc_end53-tag_c.pairs.CachedMemberPairCalls.read_clear
	.section .text.tag_cache.cache.Cache.clear_unplaced_i64_core.clone.U64Clone,"ax",@progbits
	.p2align 4
	.type tag_cache.cache.Cache.clear_unplaced_i64_core.clone.U64Clone,@function
tag_cache.cache.Cache.clear_unplaced_i64_core.clone.U64Clone:
	movb $1, %r10b
	xorl %eax, %eax
	cmpl %ecx, 228(%rdx)
	jbe .LBB54_3
	pushq %r14
	pushq %rbx
	pushq %rax
	movl %ecx, %r8d
	movl 224(%rdx), %r11d
	movl %ecx, %ebx
	subl %r11d, %ebx
	jae .LBB54_4
	movzbl 68(%rsi), %ecx
	movl %r8d, %r14d
	shrl %cl, %r14d
	movl $-1, %r9d
	shll %cl, %r9d
	notl %r9d
	andl %r8d, %r9d
	movl $1, %ebx
	movl %r9d, %ecx
	shlq %cl, %rbx
	movq 88(%rsi), %rcx
	jmp .LBB54_5
.LBB54_3:
	xorl %r9d, %r9d
	movb %r10b, (%rdi)
	movb %r9b, 1(%rdi)
	movl %eax, 4(%rdi)
	retq
.LBB54_4:
	movzbl 276(%rsi), %ecx
	movl %ebx, %r14d
	shrl %cl, %r14d
	movl $-1, %r9d
	shll %cl, %r9d
	notl %r9d
	andl %ebx, %r9d
	movl $1, %ebx
	movl %r9d, %ecx
	shlq %cl, %rbx
	movq 296(%rsi), %rcx
.LBB54_5:
	andq (%rcx,%r14,8), %rbx
	cmpl %r11d, %r8d
	setb %cl
	testq %rbx, %rbx
	sete %r11b
	orb %cl, %r11b
	testq %rbx, %rbx
	je .LBB54_11
	movl %r8d, %ecx
	subl (%rsi), %ecx
	cmpl $63, %ecx
	ja .LBB54_8
	movl $1, %ebx
	shlq %cl, %rbx
	movb $1, %r9b
	movb $1, %r10b
	testq %rbx, 16(%rsi)
	jne .LBB54_25
.LBB54_8:
	testb %r11b, %r11b
	je .LBB54_12
	movq %rdi, %rbx
	movq %rsi, %rdi
	movq %rdx, %rsi
	movl %r8d, %edx
	callq tag_cache.cache.Cache.give_back_i64_core.clone.U64Clone
	movq %rbx, %rdi
.LBB54_10:
	xorl %eax, %eax
	jmp .LBB54_24
.LBB54_11:
	movl %r11d, %r9d
	jmp .LBB54_25
.LBB54_12:
	movzbl 12(%rsi), %r9d
	testb %r9b, %r9b
	je .LBB54_14
	movq $-2, %rax
	rolq %cl, %rax
	cmpl $64, %ecx
	movq $-1, %r10
	cmovbq %rax, %r10
	testq %r10, 24(%rsi)
	je .LBB54_22
.LBB54_14:
	cmpl $0, 4(%rsi)
	je .LBB54_21
	testb %r9b, %r9b
	sete %al
	cmpl $64, %ecx
	setb %r10b
	cmpb $0, 39(%rsi)
	jne .LBB54_21
	orb %r10b, %al
	je .LBB54_21
	movl 8(%rsi), %eax
	testl %eax, %eax
	je .LBB54_20
	cmpl $64, %ecx
	jb .LBB54_26
	cmpq $0, 16(%rsi)
	je .LBB54_26
.LBB54_20:
	movq %rdi, %rbx
	movq %rsi, %rdi
	movq %rdx, %rsi
	movl %r8d, %edx
	callq tag_cache.cache.Cache.keep_instead_i64_core.clone.U64Clone
	jmp .LBB54_23
.LBB54_21:
	movq %rdi, %rbx
	movq %rsi, %rdi
	movq %rdx, %rsi
	movl %r8d, %edx
	callq tag_cache.cache.Cache.give_back_i64_core.clone.U64Clone
	movq %rbx, %rdi
	movl $1, %eax
	jmp .LBB54_24
.LBB54_22:
	movq %rdi, %rbx
	movq %rsi, %rdi
	movq %rdx, %rsi
	movl %r8d, %edx
	callq tag_cache.cache.Cache.give_back_all_i64_core.clone.U64Clone
.LBB54_23:
	movq %rbx, %rdi
.LBB54_24:
	xorl %r9d, %r9d
	xorl %r10d, %r10d
.LBB54_25:
	addq $8, %rsp
	popq %rbx
	popq %r14
	movb %r10b, (%rdi)
	movb %r9b, 1(%rdi)
	movl %eax, 4(%rdi)
	retq
.LBB54_26:
	cmpl $64, %ecx
	setb %r10b
	testb %r9b, %r9b
	setne %r9b
	movq 16(%rsi), %rdx
	testq %rdx, %rdx
	setne %r11b
	orb %r9b, %r11b
	orb %r10b, %r11b
	jne .LBB54_28
	movl %r8d, %ecx
	andl $-64, %ecx
	movl %ecx, (%rsi)
	movq $0, 24(%rsi)
	andl $63, %r8d
	xorl %edx, %edx
	movl %r8d, %ecx
.LBB54_28:
	movq $-2, %r8
	rolq %cl, %r8
	andq %r8, 24(%rsi)
	btsq %rcx, %rdx
	movq %rdx, 16(%rsi)
	decl %eax
	movl %eax, 8(%rsi)
	jmp .LBB54_10
.Lfunc_end54:
	.size tag_cache.cache.Cache.clear_unplaced_i64_core.clone.U64Clone, .Lfunc_end54-tag_cache.cache.Cache.clear_unplaced_i64_core.clone.U64Clone
	.section .rodata.cst16,"aM",@progbits,16
	.p2align 4, 0x0
.LCPI55_0:
	.zero 16,85
.LCPI55_1:
	.zero 16,51
.LCPI55_2:
	.zero 16,15
	.section .text.tag_c.looks.CachedMemberLookCalls.show,"ax",@progbits
	.p2align 4
	.type tag_c.looks.CachedMemberLookCalls.show,@function
tag_c.looks.CachedMemberLookCalls.show:
	testl %esi, %esi
	je .LBB55_1
	movl $-16, %eax
	cmpl $1, %esi
	jne .LBB55_9
	xorl %esi, %esi
	jmp .LBB55_4
.LBB55_1:
	movl $112, %esi
.LBB55_4:
	pushq %rbp
	pushq %r15
	pushq %r14
	pushq %r13
	pushq %r12
	pushq %rbx
	movq (%rdi), %r8
	movl 76(%r8,%rsi), %eax
	movl $1, %edi
	movl %eax, %ecx
	shll %cl, %edi
	movl 72(%r8,%rsi), %r10d
	leal (%r10,%rdi), %r9d
	decl %r9d
	shrl %cl, %r9d
	testl %r9d, %r9d
	je .LBB55_5
	movl %r9d, %r11d
	pxor %xmm1, %xmm1
	xorl %ebx, %ebx
	xorl %r14d, %r14d
	pxor %xmm0, %xmm0
	.p2align 4
.LBB55_7:
	movq 8(%r8,%rsi), %rcx
	movq 576(%rcx,%r14), %r15
	movq 8(%r8,%rsi), %r12
	movl %ebx, %ebp
	movl %eax, %ecx
	shll %cl, %ebp
	movl %r10d, %ecx
	subl %ebp, %ecx
	cmpl %ecx, %edi
	movq 640(%r12,%r14), %r12
	cmovbl %edi, %ecx
	negb %cl
	movq $-1, %r13
	shrq %cl, %r13
	movq %r12, %rcx
	notq %rcx
	andq %r15, %rcx
	andq %r13, %r12
	andq %r13, %rcx
	movq %rcx, %xmm2
	movq %r12, %xmm3
	punpcklqdq %xmm3, %xmm2
	movdqa %xmm2, %xmm3
	psrlw $1, %xmm3
	pand .LCPI55_0(%rip), %xmm3
	psubb %xmm3, %xmm2
	movdqa .LCPI55_1(%rip), %xmm3
	movdqa %xmm2, %xmm4
	pand %xmm3, %xmm4
	psrlw $2, %xmm2
	pand %xmm3, %xmm2
	paddb %xmm4, %xmm2
	movdqa %xmm2, %xmm3
	psrlw $4, %xmm3
	paddb %xmm2, %xmm3
	pand .LCPI55_2(%rip), %xmm3
	psadbw %xmm1, %xmm3
	pshufd $232, %xmm3, %xmm2
	paddd %xmm2, %xmm0
	incq %rbx
	subq $-128, %r14
	cmpq %rbx, %r11
	jne .LBB55_7
	jmp .LBB55_8
.LBB55_5:
	pxor %xmm0, %xmm0
.LBB55_8:
	movl %r10d, (%rdx)
	movq %xmm0, 4(%rdx)
	movl %edi, 12(%rdx)
	movl %r9d, 16(%rdx)
	xorl %eax, %eax
	popq %rbx
	popq %r12
	popq %r13
	popq %r14
	popq %r15
	popq %rbp
.LBB55_9:
	retq
.Lfunc_end55:
	.size tag_c.looks.CachedMemberLookCalls.show, .Lfunc_end55-tag_c.looks.CachedMemberLookCalls.show
	.section .text.tag_c.values.CachedMemberSlotCalls.take,"ax",@progbits
	.p2align 4
	.type tag_c.values.CachedMemberSlotCalls.take,@function
tag_c.values.CachedMemberSlotCalls.take:
	movq (%rdi), %rdx
	movl $-1, %eax
	cmpl %esi, 236(%rdx)
	jbe .LBB56_6
	movl %esi, %r8d
	subl 232(%rdx), %r8d
	jae .LBB56_4
	movl 76(%rdi), %ecx
	movl 80(%rdi), %eax
	movl %esi, %r8d
	shlq $6, %r8
	addq 8(%rdx), %r8
	xorl %edx, %edx
	xchgq %rdx, (%r8,%rax,8)
	xorl %eax, %eax
	testq %rdx, %rdx
	je .LBB56_8
	movl $-1, %edx
	shll %cl, %edx
	notl %edx
	andl %esi, %edx
	shrl %cl, %esi
	movl $1, %r8d
	movl %edx, %ecx
	shlq %cl, %r8
	movq 96(%rdi), %rcx
	orq %r8, (%rcx,%rsi,8)
	retq
.LBB56_4:
	movl 284(%rdi), %ecx
	movl 288(%rdi), %eax
	movq %r8, %rsi
	shlq $6, %rsi
	addq 120(%rdx), %rsi
	xorl %edx, %edx
	xchgq %rdx, (%rsi,%rax,8)
	xorl %eax, %eax
	testq %rdx, %rdx
	je .LBB56_8
	movl $-1, %edx
	shll %cl, %edx
	notl %edx
	andl %r8d, %edx
	shrl %cl, %r8d
	movl $1, %esi
	movl %edx, %ecx
	shlq %cl, %rsi
	movq 304(%rdi), %rcx
	orq %rsi, (%rcx,%r8,8)
.LBB56_6:
	retq
.LBB56_8:
	movl $-4, %eax
	retq
.Lfunc_end56:
	.size tag_c.values.CachedMemberSlotCalls.take, .Lfunc_end56-tag_c.values.CachedMemberSlotCalls.take
	.section .text.tag_c.values.CachedMemberSlotCalls.write,"ax",@progbits
	.p2align 4
	.type tag_c.values.CachedMemberSlotCalls.write,@function
tag_c.values.CachedMemberSlotCalls.write:
	pushq %r15
	pushq %r14
	pushq %r13
	pushq %r12
	pushq %rbx
	movq %rcx, %rbx
	movq %rdx, %r14
	movl %esi, %r15d
	movq %rdi, %r13
	movq (%rdi), %r12
	movl %esi, %eax
	subl 8(%rdi), %eax
	cmpl $63, %eax
	ja .LBB57_3
	movq 32(%r13), %rcx
	btq %rax, %rcx
	jae .LBB57_3
	movl 288(%r13), %eax
	subl 232(%r12), %r15d
	leaq (%rax,%r15,8), %rcx
	movq 120(%r12), %rax
	movq (%rax,%rcx,8), %rax
	movq 128(%r12), %rdx
	movq (%rdx,%r15,8), %rax
	movq %r14, (%rdx,%r15,8)
	movq 120(%r12), %rdx
	movq (%rdx,%rcx,8), %rcx
	jmp .LBB57_5
.LBB57_3:
	addq $8, %r13
	addq $8, %r12
	movq %r13, %rdi
	movq %r12, %rsi
	movl %r15d, %edx
	callq tag_cache.cache.Cache.check_unknown_i64_core.clone.U64Clone
	testb %al, %al
	je .LBB57_4
	movzbl %dl, %eax
	leaq .Lswitch.table.tags_library_wait_on_reserved.286(%rip), %rcx
	movl (%rcx,%rax,4), %eax
	jmp .LBB57_7
.LBB57_4:
	movq %r13, %rdi
	movq %r12, %rsi
	movl %r15d, %edx
	movq %r14, %rcx
	callq tag_cache.cache.Cache.write_unknown_i64_core.clone.U64Clone
.LBB57_5:
	movq %rax, (%rbx)
	xorl %eax, %eax
.LBB57_7:
	popq %rbx
	popq %r12
	popq %r13
	popq %r14
	popq %r15
	retq
.Lfunc_end57:
	.size tag_c.values.CachedMemberSlotCalls.write, .Lfunc_end57-tag_c.values.CachedMemberSlotCalls.write
	.section .text.tag_c.object.Object.leave,"ax",@progbits
	.p2align 4
	.type tag_c.object.Object.leave,@function
tag_c.object.Object.leave:
	pushq %rbp
	pushq %r15
	pushq %r14
	pushq %r13
	pushq %r12
	pushq %rbx
	subq $1896, %rsp
	movzbl (%rdi), %ecx
	leaq 40(%rdi), %rax
	leaq 88(%rdi), %rsi
	leaq 232(%rdi), %r15
	movq 8(%rdi), %rbx
	movq 16(%rdi), %r12
	movq 24(%rdi), %r14
	movq 32(%rdi), %rdx
	movq 64(%rdi), %r9
	movq 72(%rdi), %r13
	movq 80(%rdi), %r10
	movq 272(%rdi), %r8
	movq %r8, 16(%rsp)
	movq 280(%rdi), %r11
	movq 288(%rdi), %r8
	xorps %xmm0, %xmm0
	movaps %xmm0, 80(%rsp)
	movq $0, 96(%rsp)
	movaps %xmm0, 1024(%rsp)
	movaps %xmm0, 1040(%rsp)
	movaps %xmm0, 1056(%rsp)
	movaps %xmm0, 1072(%rsp)
	movaps %xmm0, 1088(%rsp)
	movaps %xmm0, 1104(%rsp)
	movaps %xmm0, 1120(%rsp)
	movaps %xmm0, 1136(%rsp)
	movaps %xmm0, 1152(%rsp)
	movaps %xmm0, 112(%rsp)
	movaps %xmm0, 128(%rsp)
	movq $0, 144(%rsp)
	movaps %xmm0, 880(%rsp)
	movaps %xmm0, 896(%rsp)
	movaps %xmm0, 912(%rsp)
	movaps %xmm0, 928(%rsp)
	movaps %xmm0, 944(%rsp)
	movaps %xmm0, 960(%rsp)
	movaps %xmm0, 976(%rsp)
	movaps %xmm0, 992(%rsp)
	movaps %xmm0, 1008(%rsp)
	leaq 296(%rdi), %rbp
	movq %rbp, 8(%rsp)
	testl %ecx, %ecx
	je .LBB58_13
	cmpl $2, %ecx
	jne .LBB58_2
	movq %r12, 416(%rsp)
	movq %r14, 424(%rsp)
	movq %rdx, 432(%rsp)
	movups (%rax), %xmm0
	movups %xmm0, 440(%rsp)
	movq 16(%rax), %rax
	movq %rax, 456(%rsp)
	movq %r9, 464(%rsp)
	movq %r13, 472(%rsp)
	movq %r10, 480(%rsp)
	leaq 488(%rsp), %rax
	movl $144, %edx
	movq %rdi, %r14
	movq %rax, %rdi
	movq %r8, %rbp
	movq %r11, %r13
	callq memcpy@PLT
	movups (%r15), %xmm0
	movups 16(%r15), %xmm1
	movups %xmm0, 632(%rsp)
	movups %xmm1, 648(%rsp)
	movq 32(%r15), %rax
	movq %rax, 664(%rsp)
	movq 16(%rsp), %rax
	movq %rax, 672(%rsp)
	movq %r13, 680(%rsp)
	movq %rbp, 688(%rsp)
	leaq 696(%rsp), %rdi
	movl $144, %edx
	movq 8(%rsp), %rsi
	callq memcpy@PLT
	movups 440(%r14), %xmm0
	movups 456(%r14), %xmm1
	movups %xmm0, 840(%rsp)
	movups %xmm1, 856(%rsp)
	movq 472(%r14), %rax
	movq %rax, 872(%rsp)
	leaq 8(%rbx), %rsi
	leaq 416(%rsp), %rdi
	callq tag_cache.cache.Cache.give_back_kept_i64_core.clone.U64Clone
	movq 456(%rsp), %rax
	movq %rax, 72(%rsp)
	movq 464(%rsp), %r14
	movq 472(%rsp), %rax
	movq %rax, 64(%rsp)
	movups 480(%rsp), %xmm0
	movaps %xmm0, 80(%rsp)
	movq 496(%rsp), %rax
	movq %rax, 96(%rsp)
	movq 504(%rsp), %rax
	movq %rax, 24(%rsp)
	movq 512(%rsp), %rax
	movq %rax, 48(%rsp)
	movq 520(%rsp), %rax
	movq %rax, 32(%rsp)
	leaq 528(%rsp), %rsi
	leaq 1024(%rsp), %rdi
	movl $144, %edx
	callq memcpy@PLT
	movups 672(%rsp), %xmm0
	movups 688(%rsp), %xmm1
	movaps %xmm0, 112(%rsp)
	movaps %xmm1, 128(%rsp)
	movq 704(%rsp), %rax
	movq %rax, 144(%rsp)
	movq 712(%rsp), %rax
	movq %rax, 16(%rsp)
	movq 720(%rsp), %rax
	movq %rax, 56(%rsp)
	movq 728(%rsp), %rax
	movq %rax, 40(%rsp)
	leaq 736(%rsp), %rsi
	leaq 880(%rsp), %rdi
	movl $144, %edx
	jmp .LBB58_15
.LBB58_13:
	movq %r13, 48(%rsp)
	movq %r11, 56(%rsp)
	movq %r10, 32(%rsp)
	movq %r9, 24(%rsp)
	movq %r8, 40(%rsp)
	movq %rdx, 64(%rsp)
	movq %r12, 72(%rsp)
	movq 16(%rax), %rcx
	movq %rcx, 96(%rsp)
	movups (%rax), %xmm0
	movaps %xmm0, 80(%rsp)
	leaq 1024(%rsp), %rdi
	movl $144, %edx
	callq memcpy@PLT
	movups (%r15), %xmm0
	movups 16(%r15), %xmm1
	movaps %xmm0, 112(%rsp)
	movaps %xmm1, 128(%rsp)
	movq 32(%r15), %rax
	movq %rax, 144(%rsp)
	leaq 880(%rsp), %rdi
	movl $144, %edx
	movq 8(%rsp), %rsi
.LBB58_15:
	callq memcpy@PLT
	movaps 80(%rsp), %xmm0
	movaps %xmm0, 192(%rsp)
	movq 96(%rsp), %rax
	movq %rax, 208(%rsp)
	leaq 1608(%rsp), %rdi
	leaq 1024(%rsp), %rsi
	movl $144, %edx
	callq memcpy@PLT
	movaps 112(%rsp), %xmm0
	movaps 128(%rsp), %xmm1
	movaps %xmm0, 320(%rsp)
	movaps %xmm1, 336(%rsp)
	movq 144(%rsp), %rax
	movq %rax, 352(%rsp)
	leaq 1464(%rsp), %rdi
	leaq 880(%rsp), %rsi
	movl $144, %edx
	callq memcpy@PLT
	xorps %xmm0, %xmm0
	movaps %xmm0, 160(%rsp)
	movq $0, 176(%rsp)
	movaps %xmm0, 1312(%rsp)
	movaps %xmm0, 1328(%rsp)
	movaps %xmm0, 1344(%rsp)
	movaps %xmm0, 1360(%rsp)
	movaps %xmm0, 1376(%rsp)
	movaps %xmm0, 1392(%rsp)
	movaps %xmm0, 1408(%rsp)
	movaps %xmm0, 1424(%rsp)
	movaps %xmm0, 1440(%rsp)
	movaps %xmm0, 272(%rsp)
	movaps %xmm0, 288(%rsp)
	movq $0, 304(%rsp)
	movaps %xmm0, 1168(%rsp)
	movaps %xmm0, 1184(%rsp)
	movaps %xmm0, 1200(%rsp)
	movaps %xmm0, 1216(%rsp)
	movaps %xmm0, 1232(%rsp)
	movaps %xmm0, 1248(%rsp)
	movaps %xmm0, 1264(%rsp)
	movaps %xmm0, 1280(%rsp)
	movaps %xmm0, 1296(%rsp)
	movq 280(%rbx), %r12
	testq %r12, %r12
	je .LBB58_27
	xorl %r15d, %r15d
	.p2align 4
.LBB58_17:
	movq 272(%rbx), %rbp
	movaps 192(%rsp), %xmm0
	movaps %xmm0, 224(%rsp)
	movq 208(%rsp), %rax
	movq %rax, 240(%rsp)
	leaq 416(%rsp), %rdi
	leaq 1608(%rsp), %rsi
	movl $144, %edx
	callq memcpy@PLT
	movaps 320(%rsp), %xmm0
	movaps 336(%rsp), %xmm1
	movaps %xmm0, 368(%rsp)
	movaps %xmm1, 384(%rsp)
	movq 352(%rsp), %rax
	movq %rax, 400(%rsp)
	leaq 1752(%rsp), %rdi
	leaq 1464(%rsp), %rsi
	movl $144, %edx
	callq memcpy@PLT
	movl $3, %ecx
	xorl %eax, %eax
	lock  cmpxchgq %rcx, (%rbp,%r15)
	je .LBB58_18
	movq 240(%rsp), %rax
	movq %rax, 176(%rsp)
	movaps 224(%rsp), %xmm0
	movaps %xmm0, 160(%rsp)
	leaq 1312(%rsp), %r13
	leaq 416(%rsp), %rsi
	movl $144, %edx
	movq %r13, %rdi
	callq memcpy@PLT
	movaps 368(%rsp), %xmm0
	movaps 384(%rsp), %xmm1
	movaps %xmm0, 272(%rsp)
	movaps %xmm1, 288(%rsp)
	movq 400(%rsp), %rax
	movq %rax, 304(%rsp)
	leaq 1168(%rsp), %rbp
	leaq 1752(%rsp), %rsi
	movl $144, %edx
	movq %rbp, %rdi
	callq memcpy@PLT
	movaps 160(%rsp), %xmm0
	movaps %xmm0, 192(%rsp)
	movq 176(%rsp), %rax
	movq %rax, 208(%rsp)
	leaq 1608(%rsp), %rdi
	movl $144, %edx
	movq %r13, %rsi
	callq memcpy@PLT
	movaps 272(%rsp), %xmm0
	movaps 288(%rsp), %xmm1
	movaps %xmm0, 320(%rsp)
	movaps %xmm1, 336(%rsp)
	movq 304(%rsp), %rax
	movq %rax, 352(%rsp)
	leaq 1464(%rsp), %rdi
	movl $144, %edx
	movq %rbp, %rsi
	callq memcpy@PLT
	addq $440, %r15
	decq %r12
	jne .LBB58_17
.LBB58_27:
	leaq 416(%rsp), %rdi
	movl $288, %edx
	xorl %esi, %esi
	callq memset@PLT
	lock  decq (%rbx)
	jne .LBB58_29
	leaq 416(%rsp), %r14
	movl $288, %edx
	movq %r14, %rdi
	leaq 8(%rbx), %rsi
	callq memcpy@PLT
	movq %rbx, %rdi
	callq tags_library_dealloc@PLT
	movq %r14, %rdi
	callq tag_c.pool_state.PoolState.drop
.LBB58_29:
	cmpq $0, 32(%rsp)
	movq 16(%rsp), %r14
	je .LBB58_31
	movq 24(%rsp), %rdi
	callq tags_library_dealloc@PLT
.LBB58_31:
	movb $11, %bl
	cmpq $0, 40(%rsp)
	je .LBB58_34
	movq %r14, %rdi
	jmp .LBB58_33
.LBB58_2:
	movq %r12, %rbp
	movq %rdx, %r13
	leaq 416(%rsp), %rdi
	movl $288, %edx
	xorl %esi, %esi
	callq memset@PLT
	lock  decq (%rbx)
	jne .LBB58_4
	leaq 8(%rbx), %rsi
	leaq 416(%rsp), %r15
	movl $288, %edx
	movq %r15, %rdi
	callq memcpy@PLT
	movq %rbx, %rdi
	callq tags_library_dealloc@PLT
	movq %r15, %rdi
	callq tag_c.pool_state.PoolState.drop
.LBB58_4:
	testq %r14, %r14
	je .LBB58_11
	leaq 272(%rbp), %r15
	jmp .LBB58_6
	.p2align 4
.LBB58_10:
	addq $424, %r15
	decq %r14
	je .LBB58_11
.LBB58_6:
	movq -16(%r15), %rbx
	movq (%r15), %r12
	cmpq $0, -208(%r15)
	je .LBB58_8
	movq -224(%r15), %rdi
	callq tags_library_dealloc@PLT
.LBB58_8:
	testq %r12, %r12
	je .LBB58_10
	movq %rbx, %rdi
	callq tags_library_dealloc@PLT
	jmp .LBB58_10
.LBB58_11:
	movb $3, %bl
	testq %r13, %r13
	je .LBB58_34
	movq %rbp, %rdi
.LBB58_33:
	callq tags_library_dealloc@PLT
	jmp .LBB58_34
.LBB58_18:
	movzbl 8(%rbp,%r15), %r12d
	movq 64(%rbp,%r15), %rax
	movq %rax, 256(%rsp)
	movq 80(%rbp,%r15), %r13
	movq 272(%rbp,%r15), %rax
	movq %rax, 264(%rsp)
	movq 288(%rbp,%r15), %rax
	movq %rax, 8(%rsp)
	movq $1, 8(%rbp,%r15)
	movq 72(%rsp), %rax
	movq %rax, 16(%rbp,%r15)
	movq %r14, 24(%rbp,%r15)
	movq 64(%rsp), %rax
	movq %rax, 32(%rbp,%r15)
	movaps 224(%rsp), %xmm0
	movups %xmm0, 40(%rbp,%r15)
	movq 240(%rsp), %rax
	movq %rax, 56(%rbp,%r15)
	movq 24(%rsp), %rax
	movq %rax, 64(%rbp,%r15)
	movq 48(%rsp), %rax
	movq %rax, 72(%rbp,%r15)
	movq 32(%rsp), %rax
	movq %rax, 80(%rbp,%r15)
	leaq (%r15,%rbp), %rdi
	addq $88, %rdi
	leaq 416(%rsp), %rsi
	movl $144, %edx
	callq memcpy@PLT
	movaps 368(%rsp), %xmm0
	movaps 384(%rsp), %xmm1
	movups %xmm0, 232(%rbp,%r15)
	movups %xmm1, 248(%rbp,%r15)
	movq 400(%rsp), %rax
	movq %rax, 264(%rbp,%r15)
	movq 16(%rsp), %rax
	movq %rax, 272(%rbp,%r15)
	movq 56(%rsp), %rax
	movq %rax, 280(%rbp,%r15)
	movq 40(%rsp), %rax
	movq %rax, 288(%rbp,%r15)
	leaq (%r15,%rbp), %rdi
	addq $296, %rdi
	leaq 1752(%rsp), %rsi
	movl $144, %edx
	callq memcpy@PLT
	movabsq $4294967296, %rax
	xchgq %rax, (%rbp,%r15)
	cmpb $1, %r12b
	jne .LBB58_23
	testq %r13, %r13
	je .LBB58_21
	movq 256(%rsp), %rdi
	callq tags_library_dealloc@PLT
.LBB58_21:
	cmpq $0, 8(%rsp)
	je .LBB58_23
	movq 264(%rsp), %rdi
	callq tags_library_dealloc@PLT
.LBB58_23:
	leaq 416(%rsp), %rdi
	movl $288, %edx
	xorl %esi, %esi
	callq memset@PLT
	lock  decq (%rbx)
	jne .LBB58_25
	leaq 416(%rsp), %r14
	movl $288, %edx
	movq %r14, %rdi
	leaq 8(%rbx), %rsi
	callq memcpy@PLT
	movq %rbx, %rdi
	callq tags_library_dealloc@PLT
	movq %r14, %rdi
	callq tag_c.pool_state.PoolState.drop
.LBB58_25:
	xorl %ebx, %ebx
.LBB58_34:
	movl %ebx, %eax
	addq $1896, %rsp
	popq %rbx
	popq %r12
	popq %r13
	popq %r14
	popq %r15
	popq %rbp
	retq
.Lfunc_end58:
	.size tag_c.object.Object.leave, .Lfunc_end58-tag_c.object.Object.leave
	.section .text.std_alloc.vec.Vec.drop__639c649e4d903d94,"ax",@progbits
	.p2align 4
	.type std_alloc.vec.Vec.drop__639c649e4d903d94,@function
std_alloc.vec.Vec.drop__639c649e4d903d94:
	pushq %rbp
	pushq %r15
	pushq %r14
	pushq %r13
	pushq %r12
	pushq %rbx
	pushq %rax
	movq (%rdi), %rbx
	movq 8(%rdi), %r12
	movq 16(%rdi), %r15
	testq %r12, %r12
	je .LBB59_7
	leaq 272(%rbx), %r13
	jmp .LBB59_2
	.p2align 4
.LBB59_6:
	addq $424, %r13
	decq %r12
	je .LBB59_7
.LBB59_2:
	movq -16(%r13), %r14
	movq (%r13), %rbp
	cmpq $0, -208(%r13)
	je .LBB59_4
	movq -224(%r13), %rdi
	callq tags_library_dealloc@PLT
.LBB59_4:
	testq %rbp, %rbp
	je .LBB59_6
	movq %r14, %rdi
	callq tags_library_dealloc@PLT
	jmp .LBB59_6
.LBB59_7:
	testq %r15, %r15
	je .LBB59_8
	movq %rbx, %rdi
	addq $8, %rsp
	popq %rbx
	popq %r12
	popq %r13
	popq %r14
	popq %r15
	popq %rbp
	jmp tags_library_dealloc@PLT
.LBB59_8:
	addq $8, %rsp
	popq %rbx
	popq %r12
	popq %r13
	popq %r14
	popq %r15
	popq %rbp
	retq
.Lfunc_end59:
	.size std_alloc.vec.Vec.drop__639c649e4d903d94, .Lfunc_end59-std_alloc.vec.Vec.drop__639c649e4d903d94
	.section .text.std_alloc.arc.Arc.drop__f54b87734724c4e0,"ax",@progbits
	.p2align 4
	.type std_alloc.arc.Arc.drop__f54b87734724c4e0,@function
std_alloc.arc.Arc.drop__f54b87734724c4e0:
	pushq %r14
	pushq %rbx
	subq $296, %rsp
	movq %rdi, %rbx
	leaq 8(%rsp), %rdi
	movl $288, %edx
	xorl %esi, %esi
	callq memset@PLT
	lock  decq (%rbx)
	jne .LBB60_2
	leaq 8(%rbx), %rsi
	leaq 8(%rsp), %r14
	movl $288, %edx
	movq %r14, %rdi
	callq memcpy@PLT
	movq %rbx, %rdi
	callq tags_library_dealloc@PLT
	movq %r14, %rdi
	callq tag_c.pool_state.PoolState.drop
.LBB60_2:
	addq $296, %rsp
	popq %rbx
	popq %r14
	retq
.Lfunc_end60:
	.size std_alloc.arc.Arc.drop__f54b87734724c4e0, .Lfunc_end60-std_alloc.arc.Arc.drop__f54b87734724c4e0
	.section .text.tag_c.pool_state.PoolState.drop,"ax",@progbits
	.p2align 4
	.type tag_c.pool_state.PoolState.drop,@function
tag_c.pool_state.PoolState.drop:
	pushq %rbp
	pushq %r15
	pushq %r14
	pushq %r13
	pushq %r12
	pushq %rbx
	subq $40, %rsp
	movq 32(%rdi), %rax
	movq 48(%rdi), %rbp
	movq 88(%rdi), %rcx
	movq %rcx, 8(%rsp)
	movq 144(%rdi), %r12
	movq 160(%rdi), %r15
	movq 200(%rdi), %rcx
	movq %rcx, 16(%rsp)
	movq 216(%rdi), %r14
	movq 264(%rdi), %rcx
	movq %rcx, 32(%rsp)
	movq 272(%rdi), %rbx
	movq 280(%rdi), %rcx
	movq %rcx, 24(%rsp)
	movq 104(%rdi), %r13
	movq %rax, %rdi
	callq tags_library_dealloc@PLT
	movq %rbp, %rdi
	callq tags_library_dealloc@PLT
	testq %r13, %r13
	je .LBB61_2
	movq 8(%rsp), %rdi
	callq tags_library_dealloc@PLT
.LBB61_2:
	movq %r12, %rdi
	callq tags_library_dealloc@PLT
	movq %r15, %rdi
	callq tags_library_dealloc@PLT
	testq %r14, %r14
	je .LBB61_4
	movq 16(%rsp), %rdi
	callq tags_library_dealloc@PLT
.LBB61_4:
	testq %rbx, %rbx
	movq 32(%rsp), %r13
	je .LBB61_12
	leaq 288(%r13), %r15
	jmp .LBB61_6
	.p2align 4
.LBB61_11:
	addq $440, %r15
	decq %rbx
	je .LBB61_12
.LBB61_6:
	cmpb $0, -280(%r15)
	je .LBB61_11
	movq -16(%r15), %r14
	movq (%r15), %r12
	cmpq $0, -208(%r15)
	je .LBB61_9
	movq -224(%r15), %rdi
	callq tags_library_dealloc@PLT
.LBB61_9:
	testq %r12, %r12
	je .LBB61_11
	movq %r14, %rdi
	callq tags_library_dealloc@PLT
	jmp .LBB61_11
.LBB61_12:
	cmpq $0, 24(%rsp)
	je .LBB61_13
	movq %r13, %rdi
	addq $40, %rsp
	popq %rbx
	popq %r12
	popq %r13
	popq %r14
	popq %r15
	popq %rbp
	jmp tags_library_dealloc@PLT
.LBB61_13:
	addq $40, %rsp
	popq %rbx
	popq %r12
	popq %r13
	popq %r14
	popq %r15
	popq %rbp
	retq
.Lfunc_end61:
	.size tag_c.pool_state.PoolState.drop, .Lfunc_end61-tag_c.pool_state.PoolState.drop
	.section .text.atomic_table.owned.Table.drop__be83c7674c75c4c1,"ax",@progbits
	.p2align 4
	.type atomic_table.owned.Table.drop__be83c7674c75c4c1,@function
atomic_table.owned.Table.drop__be83c7674c75c4c1:
	pushq %rbx
	movq 32(%rdi), %rax
	movq 48(%rdi), %rbx
	movq %rax, %rdi
	callq tags_library_dealloc@PLT
	movq %rbx, %rdi
	popq %rbx
	jmp tags_library_dealloc@PLT
.Lfunc_end62:
	.size atomic_table.owned.Table.drop__be83c7674c75c4c1, .Lfunc_end62-atomic_table.owned.Table.drop__be83c7674c75c4c1
	.section .text.std_alloc.vec.Vec.drop__a45941d93199a7b0,"ax",@progbits
	.p2align 4
	.type std_alloc.vec.Vec.drop__a45941d93199a7b0,@function
std_alloc.vec.Vec.drop__a45941d93199a7b0:
	cmpq $0, 16(%rdi)
	je .LBB63_1
	movq (%rdi), %rdi
	jmp tags_library_dealloc@PLT
.LBB63_1:
	retq
.Lfunc_end63:
	.size std_alloc.vec.Vec.drop__a45941d93199a7b0, .Lfunc_end63-std_alloc.vec.Vec.drop__a45941d93199a7b0
	.section .text.tag_c.pool_state.PoolState.part,"ax",@progbits
	.p2align 4
	.type tag_c.pool_state.PoolState.part,@function
tag_c.pool_state.PoolState.part:
	pushq %rbp
	pushq %r15
	pushq %r14
	pushq %r13
	pushq %r12
	pushq %rbx
	subq $2456, %rsp
	movq %rdi, 40(%rsp)
	movq 264(%rsi), %rbp
	movq 272(%rsi), %r15
	movups 272(%rsi), %xmm0
	movaps %xmm0, 48(%rsp)
	movq (%rdx), %rax
	movq %rax, 8(%rsp)
	movq 8(%rdx), %r12
	movq 16(%rdx), %r14
	leaq 496(%rsp), %rdi
	movl $264, %edx
	callq memcpy@PLT
	leaq 72(%rsp), %rdi
	movl $424, %edx
	xorl %esi, %esi
	callq memset@PLT
	testq %r15, %r15
	movq %rbp, 32(%rsp)
	je .LBB64_12
	cmpq %r14, %r12
	je .LBB64_12
	movl $1, %ebx
	movq %r14, 24(%rsp)
	movq %r15, 16(%rsp)
	.p2align 4
.LBB64_3:
	leaq 1184(%rsp), %rdi
	movl $424, %edx
	xorl %esi, %esi
	callq memset@PLT
	leaq 760(%rsp), %rdi
	movl $424, %edx
	xorl %esi, %esi
	callq memset@PLT
	leaq 1608(%rsp), %rdi
	movl $424, %edx
	xorl %esi, %esi
	callq memset@PLT
	movq (%rbp), %rax
	movabsq $4294967296, %rcx
	cmpq %rcx, %rax
	jne .LBB64_4
	movabsq $4294967296, %rax
	movabsq $4294967299, %rcx
	lock  cmpxchgq %rcx, (%rbp)
	jne .LBB64_4
	movzbl 8(%rbp), %r13d
	leaq 16(%rbp), %r14
	leaq 2032(%rsp), %r15
	movl $424, %edx
	movq %r15, %rdi
	movq %r14, %rsi
	callq memcpy@PLT
	movq $0, 8(%rbp)
	leaq 1608(%rsp), %rsi
	movl $424, %edx
	movq %r14, %rdi
	callq memcpy@PLT
	xorl %eax, %eax
	xchgq %rax, (%rbp)
	leaq 760(%rsp), %rdi
	movl $424, %edx
	movq %r15, %rsi
	callq memcpy@PLT
	cmpb $1, %r13b
	jne .LBB64_7
	leaq 72(%rsp), %r14
	leaq 760(%rsp), %rsi
	movl $424, %edx
	movq %r14, %rdi
	callq memcpy@PLT
	imulq $424, %r12, %rdi
	addq 8(%rsp), %rdi
	movl $424, %edx
	movq %r14, %rsi
	callq memcpy@PLT
	incq %r12
	jmp .LBB64_9
	.p2align 4
.LBB64_4:
	leaq 72(%rsp), %rdi
	leaq 1184(%rsp), %rsi
	movl $424, %edx
	callq memcpy@PLT
	cmpq %r15, %rbx
	jb .LBB64_11
	jmp .LBB64_12
.LBB64_7:
	leaq 72(%rsp), %rdi
	movl $424, %edx
	xorl %esi, %esi
	callq memset@PLT
.LBB64_9:
	movq 24(%rsp), %r14
	movq 16(%rsp), %r15
	cmpq %r15, %rbx
	jae .LBB64_12
.LBB64_11:
	incq %rbx
	addq $440, %rbp
	cmpq %r14, %r12
	jne .LBB64_3
.LBB64_12:
	leaq 496(%rsp), %rsi
	movl $248, %edx
	movq 40(%rsp), %rbx
	movq %rbx, %rdi
	callq memcpy@PLT
	movq 8(%rsp), %rax
	movq %rax, 248(%rbx)
	movq %r12, 256(%rbx)
	movq %r14, 264(%rbx)
	movq 32(%rsp), %rax
	movq %rax, 272(%rbx)
	movaps 48(%rsp), %xmm0
	movups %xmm0, 280(%rbx)
	addq $2456, %rsp
	popq %rbx
	popq %r12
	popq %r13
	popq %r14
	popq %r15
	popq %rbp
	retq
.Lfunc_end64:
	.size tag_c.pool_state.PoolState.part, .Lfunc_end64-tag_c.pool_state.PoolState.part
	.section .text.tag_c.rounds.bare.make_round,"ax",@progbits
	.p2align 4
	.type tag_c.rounds.bare.make_round,@function
tag_c.rounds.bare.make_round:
	pushq %rbp
	pushq %r15
	pushq %r14
	pushq %r13
	pushq %r12
	pushq %rbx
	subq $120, %rsp
	movq %rdi, %rbx
	xorps %xmm0, %xmm0
	movaps %xmm0, 64(%rsp)
	movq $0, 80(%rsp)
	leaq 112(%rsi), %rdi
	testb $1, %cl
	cmovneq %rsi, %rdi
	movl 64(%rdi), %r15d
	testl %r15d, %r15d
	je .LBB65_1
	testb $1, %cl
	movl $8, %eax
	movl $216, %r13d
	cmovneq %rax, %r13
	testb %r9b, %r9b
	je .LBB65_4
	movb $1, %r14b
	xorl %ebp, %ebp
.LBB65_23:
	movq (%rdi), %rax
	movl 28(%rdx,%r13), %ecx
	xorl %esi, %esi
	xchgq %rsi, 64(%rax,%rcx,8)
	movq (%rdi), %rsi
	movzbl 28(%rdx,%r13), %ecx
	movq $-2, %rdx
	rolq %cl, %rdx
	.p2align 4
.LBB65_24:
	movq 8(%rsi), %rax
	movq %rax, %rcx
	andq %rdx, %rcx
	lock  cmpxchgq %rcx, 8(%rsi)
	jne .LBB65_24
	movq (%rdi), %rax
	movq 8(%rax), %rax
	testq %rax, %rax
	je .LBB65_26
	callq tag_bell.settling.look_through_i64
	xorl %r12d, %r12d
	xorl %r15d, %r15d
	jmp .LBB65_35
.LBB65_1:
	xorl %eax, %eax
	testb $1, %cl
	movl $6, %r15d
	cmovel %eax, %r15d
	movl $8, %eax
	movl $216, %r13d
	cmovneq %rax, %r13
.LBB65_30:
	movq (%rdi), %rax
	movl 28(%rdx,%r13), %ecx
	xorl %esi, %esi
	xchgq %rsi, 64(%rax,%rcx,8)
	movq (%rdi), %rsi
	movzbl 28(%rdx,%r13), %ecx
	movq $-2, %rdx
	rolq %cl, %rdx
	.p2align 4
.LBB65_31:
	movq 8(%rsi), %rax
	movq %rax, %rcx
	andq %rdx, %rcx
	lock  cmpxchgq %rcx, 8(%rsi)
	jne .LBB65_31
	movq (%rdi), %rax
	movq 8(%rax), %rax
	movb $1, %r12b
	testq %rax, %rax
	je .LBB65_33
	callq tag_bell.settling.look_through_i64
	xorl %r14d, %r14d
	xorl %ebp, %ebp
	jmp .LBB65_35
.LBB65_4:
	movl (%rdx,%r13), %eax
	movzbl 4(%rdx,%r13), %r10d
	movq 32(%rdx,%r13), %r9
	movq 64(%rdx,%r13), %r11
	testl %eax, %eax
	sete %bpl
	cmpq %r11, %r9
	je .LBB65_6
	movl %r10d, %r14d
	xorb $1, %r14b
	orb %r14b, %bpl
	je .LBB65_6
.LBB65_20:
	movzbl %cl, %ecx
	movzbl %r8b, %r8d
	movzbl 176(%rsp), %r9d
	leaq 64(%rsp), %rdi
	callq tag_pool.pool.Pool.wait_on_i64_core.clone.U64Clone
	movzbl 64(%rsp), %r14d
	movl 68(%rsp), %ebp
	movq 72(%rsp), %rax
	xorl %r12d, %r12d
	movq 80(%rsp), %rdx
	xorl %r15d, %r15d
	jmp .LBB65_35
.LBB65_33:
	xorl %r14d, %r14d
	xorl %ebp, %ebp
	jmp .LBB65_27
.LBB65_6:
	movaps %xmm0, 96(%rsp)
	movaps %xmm0, 48(%rsp)
	cmpq %r11, %r9
	jne .LBB65_7
	movb $5, %r15b
	jmp .LBB65_30
.LBB65_26:
	xorl %r12d, %r12d
	xorl %r15d, %r15d
.LBB65_27:
	xorl %eax, %eax
	xorl %edx, %edx
.LBB65_35:
	movzbl %r14b, %ecx
	movb %r12b, (%rbx)
	movb %r15b, 1(%rbx)
	movw $0, 2(%rbx)
	movl %ecx, 4(%rbx)
	movl %ebp, 8(%rbx)
	movl $0, 12(%rbx)
	movq %rax, 16(%rbx)
	movq %rdx, 24(%rbx)
	addq $120, %rsp
	popq %rbx
	popq %r12
	popq %r13
	popq %r14
	popq %r15
	popq %rbp
	retq
.LBB65_7:
	movl %ecx, %ebp
	leaq (%rdx,%r13), %r11
	leaq 16(%r11), %rcx
	movq %rcx, 40(%rsp)
	xorl %r9d, %r9d
	cmpl %eax, %r15d
	movq %rdx, 32(%rsp)
	jbe .LBB65_10
	movl $0, %r12d
	movl $0, %ecx
	testb %r10b, %r10b
	jne .LBB65_14
	movl 68(%rdi), %ecx
	shrl %cl, %eax
	movq (%rdi), %r9
	movq %rax, %r10
	shlq $7, %r10
	movq 576(%r9,%r10), %r9
	notq %r9
	movl $64, %r12d
	rep  bsfq %r9, %r12
	movl %r12d, %r10d
	shrl %cl, %r10d
	movl $1, %r9d
	testl %r10d, %r10d
	jne .LBB65_10
	movl %eax, %r10d
	shll %cl, %r10d
	addl %r12d, %r10d
	cmpl %r10d, %r15d
	jbe .LBB65_10
	movq %r10, 112(%rsp)
	movq %r11, 16(%rsp)
	movl %r8d, 12(%rsp)
	movq %rsi, 24(%rsp)
	movq %rdi, %r14
	movq (%rdi), %rdi
	movq 40(%rsp), %rsi
	movl %eax, %edx
	movl %r12d, %ecx
	callq tag_search.shared.SharedPort.claim_one_i64
	cmpb $1, %al
	jne .LBB65_15
	movq %rdx, %rcx
	incl %r12d
	movl $2, %r9d
	movq %r14, %rdi
	movq 24(%rsp), %rsi
	movl 12(%rsp), %r8d
	movq 16(%rsp), %r11
	jmp .LBB65_14
.LBB65_10:
	xorl %r12d, %r12d
	xorl %ecx, %ecx
.LBB65_14:
	movl %r9d, 48(%rsp)
	movl %r12d, 52(%rsp)
	movq %rcx, 56(%rsp)
	leaq 96(%rsp), %rax
	leaq 48(%rsp), %r9
	movq %rdi, %rcx
	movq %rax, %rdi
	movq %rcx, %r14
	movq %rsi, %r15
	movq %rcx, %rsi
	movq 40(%rsp), %rdx
	movq %r11, %rcx
	movl %r8d, %r12d
	movq %r9, %r8
	callq tag_search.on_map.finish_i64
	movl %r12d, %r8d
	movq %r15, %rsi
	movzbl 96(%rsp), %eax
	movl 100(%rsp), %r10d
	movl %ebp, %ecx
.LBB65_17:
	testb $1, %cl
	je .LBB65_21
	movl %r10d, %ebp
	movq %r14, %rdi
	movq 32(%rsp), %rdx
	jmp .LBB65_19
.LBB65_21:
	xorl %ebp, %ebp
	cmpb $1, %al
	movq %r14, %rdi
	movq 32(%rsp), %rdx
	jne .LBB65_19
	addl 224(%rsi), %r10d
	movl $216, %r13d
	xorl %r14d, %r14d
	movl %r10d, %ebp
	jmp .LBB65_23
.LBB65_19:
	xorl %r14d, %r14d
	cmpb $1, %al
	cmovnel %r14d, %ebp
	testb %al, %al
	jne .LBB65_23
	jmp .LBB65_20
.LBB65_15:
	movb $1, %al
	movq 16(%rsp), %r9
	movq 112(%rsp), %r10
	cmpl (%r9), %r10d
	movq 24(%rsp), %rsi
	movl %ebp, %ecx
	movl 12(%rsp), %r8d
	jne .LBB65_17
	leal 1(%r10), %edx
	decl %r15d
	xorl %edi, %edi
	cmpl %r15d, %edx
	cmovbl %edx, %edi
	movl %edi, (%r9)
	jmp .LBB65_17
.Lfunc_end65:
	.size tag_c.rounds.bare.make_round, .Lfunc_end65-tag_c.rounds.bare.make_round
	.section .text.tag_pool.pool.Pool.wait_on_i64_core.clone.U64Clone,"ax",@progbits
	.p2align 4
	.type tag_pool.pool.Pool.wait_on_i64_core.clone.U64Clone,@function
tag_pool.pool.Pool.wait_on_i64_core.clone.U64Clone:
	pushq %rbp
	pushq %r15
	pushq %r14
	pushq %r13
	pushq %r12
	pushq %rbx
	subq $40, %rsp
	movl %ecx, %ebp
	movq %rdx, %r15
	movq %rsi, %r12
	leaq 112(%rsi), %r14
	leaq 216(%rdx), %rax
	addq $8, %r15
	testb $1, %bpl
	cmovneq %rsi, %r14
	movq %rdi, %rbx
	cmoveq %rax, %r15
	testb %r9b, %r9b
	je .LBB66_3
	movq (%r14), %rax
	movl 28(%r15), %ecx
	movq 64(%rax,%rcx,8), %rax
	movl %eax, %ecx
	andl $3, %ecx
	decl %ecx
	cmpl $1, %ecx
	ja .LBB66_3
	andq $-8, %rax
	xorl %ecx, %ecx
	testb %r8b, %r8b
	setne %cl
	leaq (%rax,%rcx,4), %rax
	incq %rax
	movl 28(%r15), %ecx
	movq (%r14), %rdx
	xchgq %rax, 64(%rdx,%rcx,8)
	jmp .LBB66_6
.LBB66_3:
	movq (%r14), %rax
	movl $8, %edx
	lock  xaddq %rdx, 16(%rax)
	movq (%r14), %rsi
	movzbl 28(%r15), %ecx
	movl $1, %edi
	shlq %cl, %rdi
	.p2align 4
.LBB66_4:
	movq 8(%rsi), %rax
	movq %rax, %rcx
	orq %rdi, %rcx
	lock  cmpxchgq %rcx, 8(%rsi)
	jne .LBB66_4
	andq $-8, %rdx
	xorl %eax, %eax
	testb %r8b, %r8b
	setne %al
	leaq (%rdx,%rax,4), %rax
	incq %rax
	movl 28(%r15), %ecx
	movq (%r14), %rdx
	xchgq %rax, 64(%rdx,%rcx,8)
.LBB66_6:
	xorps %xmm0, %xmm0
	movaps %xmm0, 16(%rsp)
	movaps %xmm0, (%rsp)
	movq 32(%r15), %rax
	cmpq 64(%r15), %rax
	je .LBB66_22
	movl 64(%r14), %esi
	movl (%r15), %edi
	xorl %eax, %eax
	cmpl %edi, %esi
	jbe .LBB66_10
	testb $1, 4(%r15)
	movl $0, %r8d
	movl $0, %ecx
	jne .LBB66_16
	movl 68(%r14), %ecx
	shrl %cl, %edi
	movq (%r14), %rax
	movq %rdi, %r8
	shlq $7, %r8
	movq 576(%rax,%r8), %rax
	notq %rax
	movl $64, %edx
	rep  bsfq %rax, %rdx
	movl %edx, %r9d
	shrl %cl, %r9d
	movl $1, %eax
	testl %r9d, %r9d
	jne .LBB66_10
	movl %edi, %r13d
	shll %cl, %r13d
	addl %edx, %r13d
	cmpl %r13d, %esi
	jbe .LBB66_10
	movq (%r14), %r10
	movl $1, %r9d
	movl %edx, %ecx
	shlq %cl, %r9
	.p2align 4
.LBB66_13:
	movq 576(%r10,%r8), %rcx
	movq %rcx, %r11
	orq %r9, %r11
	movq %rcx, %rax
	lock  cmpxchgq %r11, 576(%r10,%r8)
	jne .LBB66_13
	testq %r9, %rcx
	je .LBB66_17
	leal 1(%rdx), %r8d
	movl $2, %eax
	jmp .LBB66_16
.LBB66_10:
	xorl %r8d, %r8d
	xorl %ecx, %ecx
.LBB66_16:
	leaq 16(%r15), %rdx
	movl %eax, (%rsp)
	movl %r8d, 4(%rsp)
	movq %rcx, 8(%rsp)
	leaq 16(%rsp), %rdi
	movq %rsp, %r8
	movq %r14, %rsi
	movq %r15, %rcx
	callq tag_search.on_map.finish_i64
	movl 20(%rsp), %r13d
	cmpb $1, 16(%rsp)
	sete %al
.LBB66_19:
	testb $1, %bpl
	je .LBB66_20
	testb %al, %al
	jne .LBB66_25
	jmp .LBB66_21
.LBB66_20:
	testb %al, %al
	je .LBB66_21
	addl 224(%r12), %r13d
.LBB66_25:
	movq (%r14), %rax
	movl 28(%r15), %ecx
	xorl %edx, %edx
	xchgq %rdx, 64(%rax,%rcx,8)
	movq (%r14), %rdx
	movzbl 28(%r15), %ecx
	movq $-2, %rsi
	rolq %cl, %rsi
	.p2align 4
.LBB66_26:
	movq 8(%rdx), %rax
	movq %rax, %rcx
	andq %rsi, %rcx
	lock  cmpxchgq %rcx, 8(%rdx)
	jne .LBB66_26
	movq (%r14), %rax
	movq 8(%rax), %rax
	xorl %r15d, %r15d
	testq %rax, %rax
	je .LBB66_28
	movq %r14, %rdi
	callq tag_bell.settling.look_through_i64
	jmp .LBB66_30
.LBB66_21:
	xorl %edx, %edx
	movl $2, %r15d
	xorl %eax, %eax
	xorl %r13d, %r13d
	jmp .LBB66_30
.LBB66_28:
	xorl %edx, %edx
	xorl %eax, %eax
.LBB66_30:
	movl %r15d, (%rbx)
	movl %r13d, 4(%rbx)
	movq %rax, 8(%rbx)
	movq %rdx, 16(%rbx)
	addq $40, %rsp
	popq %rbx
	popq %r12
	popq %r13
	popq %r14
	popq %r15
	popq %rbp
	retq
.LBB66_17:
	movq 40(%r15), %rax
	orq %r9, (%rax,%rdi,8)
	incq 64(%r15)
	movb $1, %al
	cmpl (%r15), %r13d
	jne .LBB66_19
	leal 1(%r13), %ecx
	decl %esi
	xorl %edx, %edx
	cmpl %esi, %ecx
	cmovbl %ecx, %edx
	movl %edx, (%r15)
	jmp .LBB66_19
.LBB66_22:
	ud2
.Lfunc_end66:
	.size tag_pool.pool.Pool.wait_on_i64_core.clone.U64Clone, .Lfunc_end66-tag_pool.pool.Pool.wait_on_i64_core.clone.U64Clone
	.section .text.tag_bell.settling.look_through_i64,"ax",@progbits
	.p2align 4
	.type tag_bell.settling.look_through_i64,@function
tag_bell.settling.look_through_i64:
	movl 64(%rdi), %eax
	movzbl 68(%rdi), %ecx
	movl $1, %edx
	shll %cl, %edx
	addl %edx, %eax
	decl %eax
	shrl %cl, %eax
	xorl %edx, %edx
	testl %eax, %eax
	je .LBB67_1
	pushq %rax
	movl %eax, %esi
	shlq $7, %rsi
	xorl %r8d, %r8d
	.p2align 4
.LBB67_6:
	movl 64(%rdi), %r9d
	movzbl 68(%rdi), %ecx
	movl %edx, %r10d
	shll %cl, %r10d
	movl $1, %eax
	shll %cl, %eax
	subl %r10d, %r9d
	cmpl %r9d, %eax
	cmovael %r9d, %eax
	negb %al
	movq $-1, %r9
	movl %eax, %ecx
	shrq %cl, %r9
	movq (%rdi), %rax
	movq 576(%rax,%r8), %rax
	movq (%rdi), %rcx
	movq 640(%rcx,%r8), %rcx
	testq %r9, %rcx
	jne .LBB67_8
	andq %r9, %rax
	cmpq %r9, %rax
	jne .LBB67_8
	incl %edx
	subq $-128, %r8
	cmpq %r8, %rsi
	jne .LBB67_6
	jmp .LBB67_4
.LBB67_1:
	xorl %eax, %eax
	retq
.LBB67_8:
	movq (%rdi), %rax
	movq 8(%rax), %rdx
	testq %rdx, %rdx
	je .LBB67_4
	movl $1, %esi
	callq tag_bell.telling.tell_each_i64
	addq $8, %rsp
	retq
.LBB67_4:
	xorl %edx, %edx
	xorl %eax, %eax
	addq $8, %rsp
	retq
.Lfunc_end67:
	.size tag_bell.settling.look_through_i64, .Lfunc_end67-tag_bell.settling.look_through_i64
	.section .text.tag_c.rounds.caching.make_round_over,"ax",@progbits
	.p2align 4
	.type tag_c.rounds.caching.make_round_over,@function
tag_c.rounds.caching.make_round_over:
	pushq %rbp
	pushq %r15
	pushq %r14
	pushq %r13
	pushq %r12
	pushq %rbx
	subq $56, %rsp
	movq %rdi, %rbx
	leaq 112(%rsi), %r14
	testb $1, %cl
	movq %r14, %rdi
	cmovneq %rsi, %rdi
	cmpl $0, 64(%rdi)
	je .LBB68_1
	testb %r9b, %r9b
	je .LBB68_13
	testb $1, %cl
	movl $8, %eax
	movl $216, %r12d
	cmovneq %rax, %r12
	movb $1, %r13b
	xorl %ebp, %ebp
.LBB68_8:
	movq (%rdi), %rax
	movl 68(%rdx,%r12), %ecx
	xorl %esi, %esi
	xchgq %rsi, 64(%rax,%rcx,8)
	movq (%rdi), %rsi
	movzbl 68(%rdx,%r12), %ecx
	movq $-2, %rdx
	rolq %cl, %rdx
	.p2align 4
.LBB68_9:
	movq 8(%rsi), %rax
	movq %rax, %rcx
	andq %rdx, %rcx
	lock  cmpxchgq %rcx, 8(%rsi)
	jne .LBB68_9
	movq (%rdi), %rax
	movq 8(%rax), %rax
	testq %rax, %rax
	je .LBB68_11
	callq tag_bell.settling.look_through_i64
	jmp .LBB68_32
.LBB68_1:
	xorl %eax, %eax
	testb $1, %cl
	movl $6, %r15d
	cmovel %eax, %r15d
	movl $8, %eax
	movl $216, %r12d
	cmovneq %rax, %r12
	jmp .LBB68_2
.LBB68_13:
	leaq 40(%rdx), %r10
	testb $1, %cl
	movl $8, %eax
	movl $216, %r12d
	cmovneq %rax, %r12
	cmpl $0, 40(%rdx,%r12)
	movq 72(%rdx,%r12), %r9
	sete %al
	cmpq 104(%rdx,%r12), %r9
	je .LBB68_15
	movzbl 44(%rdx,%r12), %r9d
	xorb $1, %r9b
	orb %r9b, %al
	je .LBB68_15
.LBB68_23:
	movzbl 112(%rsp), %eax
	testb $1, %cl
	je .LBB68_24
	xorps %xmm0, %xmm0
	movaps %xmm0, (%rsp)
	movq $0, 16(%rsp)
	movzbl %r8b, %r8d
	movzbl %al, %r9d
	movq %rsp, %rdi
	movq %r10, %rdx
	movl $1, %ecx
	callq tag_pool.pool.Pool.wait_on_i64_core.clone.U64Clone
	movzbl (%rsp), %r13d
	movl 4(%rsp), %ebp
.LBB68_31:
	movq 8(%rsp), %rax
	movq 16(%rsp), %rdx
.LBB68_32:
	xorl %r14d, %r14d
	xorl %r15d, %r15d
	jmp .LBB68_41
.LBB68_15:
	testb $1, %cl
	movq %rsi, 40(%rsp)
	movl %ecx, 36(%rsp)
	movq %r10, 48(%rsp)
	xorps %xmm0, %xmm0
	je .LBB68_16
	movaps %xmm0, (%rsp)
	movq $0, 16(%rsp)
	movq %rsp, %rax
	movq %rdi, %r15
	movq %rax, %rdi
	movq %rdx, %r13
	movq %r10, %rdx
	movl %r8d, %ebp
	callq tag_pool.pool.Pool.get_reserved_quietly_i64_core.clone.U64Clone
	jmp .LBB68_20
.LBB68_11:
	xorl %r14d, %r14d
	xorl %r15d, %r15d
	jmp .LBB68_12
.LBB68_24:
	movq 16(%rdx), %r9
	testq %r9, %r9
	je .LBB68_25
	rep  bsfq %r9, %rdi
	movl (%rdx), %ebp
	movl 284(%rdx), %eax
	movl $1, %r8d
	movl %edi, %ecx
	shlq %cl, %r8
	btrq %rdi, %r9
	movq %r9, 16(%rdx)
	orq %r8, 24(%rdx)
	incl 8(%rdx)
	incq 32(%rdx)
	movq 112(%rsi), %rcx
	xorl %r8d, %r8d
	xchgq %r8, 64(%rcx,%rax,8)
	movq 112(%rsi), %rsi
	movzbl 284(%rdx), %ecx
	movq $-2, %rdx
	rolq %cl, %rdx
	.p2align 4
.LBB68_34:
	movq 8(%rsi), %rax
	movq %rax, %rcx
	andq %rdx, %rcx
	lock  cmpxchgq %rcx, 8(%rsi)
	jne .LBB68_34
	addl %edi, %ebp
	movq (%r14), %rax
	movq 8(%rax), %rax
	testq %rax, %rax
	je .LBB68_36
	movq %r14, %rdi
	callq tag_bell.settling.look_through_i64
	xorl %r14d, %r14d
	xorl %r15d, %r15d
	xorl %r13d, %r13d
	jmp .LBB68_41
.LBB68_16:
	movaps %xmm0, (%rsp)
	movq $0, 16(%rsp)
	movq 16(%rdx), %rax
	testq %rax, %rax
	je .LBB68_17
	rep  bsfq %rax, %rcx
	movl (%rdx), %ebp
	movl $1, %esi
	shlq %cl, %rsi
	btrq %rcx, %rax
	movq %rax, 16(%rdx)
	orq %rsi, 24(%rdx)
	incl 8(%rdx)
	incq 32(%rdx)
	addl %ecx, %ebp
	movb $1, %al
	xorl %ecx, %ecx
	xorl %r15d, %r15d
	testb %cl, %cl
	jne .LBB68_2
.LBB68_22:
	xorl %r13d, %r13d
	cmpb $1, %al
	cmovnel %r13d, %ebp
	testb %al, %al
	movq 40(%rsp), %rsi
	movl 36(%rsp), %ecx
	movq 48(%rsp), %r10
	jne .LBB68_8
	jmp .LBB68_23
.LBB68_25:
	movq %rdx, %r14
	xorps %xmm0, %xmm0
	movaps %xmm0, (%rsp)
	movq $0, 16(%rsp)
	movzbl %r8b, %r8d
	movzbl %al, %r9d
	movq %rsp, %rdi
	movq %r10, %rdx
	xorl %ecx, %ecx
	callq tag_pool.pool.Pool.wait_on_i64_core.clone.U64Clone
	movzbl (%rsp), %r13d
	movl 4(%rsp), %ebp
	testb %r13b, %r13b
	jne .LBB68_31
	movq %r14, %rax
	cmpq $0, 16(%r14)
	setne %dl
	movl %ebp, %ecx
	subl (%r14), %ecx
	cmpl $64, %ecx
	setb %sil
	orb %dl, %sil
	je .LBB68_27
	cmpl $63, %ecx
	ja .LBB68_31
	movq 24(%rax), %rdx
	jmp .LBB68_30
.LBB68_17:
	movq %rsp, %rax
	movq %rdi, %r15
	movq %rax, %rdi
	movq %rdx, %rsi
	movq %rdx, %r13
	movq 40(%rsp), %rdx
	movl %r8d, %ebp
	callq tag_cache.cache.Cache.win_quietly_i64_core.clone.U64Clone
.LBB68_20:
	movl %ebp, %r8d
	movq %r15, %rdi
	movq %r13, %rdx
	movzbl (%rsp), %ecx
	movzbl 1(%rsp), %r15d
	movzbl 8(%rsp), %eax
	movl 12(%rsp), %ebp
	testb %cl, %cl
	je .LBB68_22
.LBB68_2:
	movq (%rdi), %rax
	movl 68(%rdx,%r12), %ecx
	xorl %esi, %esi
	xchgq %rsi, 64(%rax,%rcx,8)
	movq (%rdi), %rsi
	movzbl 68(%rdx,%r12), %ecx
	movq $-2, %rdx
	rolq %cl, %rdx
	.p2align 4
.LBB68_3:
	movq 8(%rsi), %rax
	movq %rax, %rcx
	andq %rdx, %rcx
	lock  cmpxchgq %rcx, 8(%rsi)
	jne .LBB68_3
	movq (%rdi), %rax
	movq 8(%rax), %rax
	movb $1, %r14b
	testq %rax, %rax
	je .LBB68_5
	callq tag_bell.settling.look_through_i64
	xorl %r13d, %r13d
	xorl %ebp, %ebp
	jmp .LBB68_41
.LBB68_5:
	xorl %r13d, %r13d
	xorl %ebp, %ebp
.LBB68_12:
	xorl %eax, %eax
	xorl %edx, %edx
.LBB68_41:
	movzbl %r13b, %ecx
	movb %r14b, (%rbx)
	movb %r15b, 1(%rbx)
	movw $0, 2(%rbx)
	movl %ecx, 4(%rbx)
	movl %ebp, 8(%rbx)
	movl $0, 12(%rbx)
	movq %rax, 16(%rbx)
	movq %rdx, 24(%rbx)
	addq $56, %rsp
	popq %rbx
	popq %r12
	popq %r13
	popq %r14
	popq %r15
	popq %rbp
	retq
.LBB68_36:
	xorl %r14d, %r14d
	xorl %r15d, %r15d
	xorl %r13d, %r13d
	jmp .LBB68_12
.LBB68_27:
	movl %ebp, %ecx
	andl $-64, %ecx
	movl %ecx, (%rax)
	movl %ebp, %ecx
	andl $63, %ecx
	xorl %edx, %edx
.LBB68_30:
	btsq %rcx, %rdx
	movq %rdx, 24(%rax)
	jmp .LBB68_31
.Lfunc_end68:
	.size tag_c.rounds.caching.make_round_over, .Lfunc_end68-tag_c.rounds.caching.make_round_over
	.section .text.tag_c.pools.open_into,"ax",@progbits
	.p2align 4
	.type tag_c.pools.open_into,@function
tag_c.pools.open_into:
	pushq %rbp
	pushq %r15
	pushq %r14
	pushq %r13
	pushq %r12
	pushq %rbx
	subq $3072, %rsp
	movq $0, (%rsp)
	subq $120, %rsp
	xorps %xmm0, %xmm0
	movaps %xmm0, 1680(%rsp)
	movaps %xmm0, 1664(%rsp)
	movaps %xmm0, 1904(%rsp)
	movaps %xmm0, 1920(%rsp)
	movaps %xmm0, 1936(%rsp)
	movaps %xmm0, 1952(%rsp)
	movaps %xmm0, 1968(%rsp)
	movaps %xmm0, 1984(%rsp)
	movaps %xmm0, 2000(%rsp)
	movaps %xmm0, 2016(%rsp)
	movaps %xmm0, 2032(%rsp)
	movaps %xmm0, 1648(%rsp)
	movaps %xmm0, 1760(%rsp)
	movaps %xmm0, 1776(%rsp)
	movaps %xmm0, 1792(%rsp)
	movaps %xmm0, 1808(%rsp)
	movaps %xmm0, 1824(%rsp)
	movaps %xmm0, 1840(%rsp)
	movaps %xmm0, 1856(%rsp)
	movaps %xmm0, 1872(%rsp)
	movaps %xmm0, 1888(%rsp)
	movaps %xmm0, 656(%rsp)
	movq $0, 672(%rsp)
	movl $-13, %ebx
	cmpq $0, (%rdi)
	jne .LBB69_159
	movl 20(%rsi), %eax
	movl %eax, %r8d
	orl %ecx, %r8d
	movl $-18, %ebx
	cmpl $1, %r8d
	ja .LBB69_159
	movl $-35, %ebx
	cmpl $64, %edx
	ja .LBB69_159
	movl %ecx, 228(%rsp)
	movl %edx, 412(%rsp)
	movq %rdi, 872(%rsp)
	movl 8(%rsi), %r14d
	movl 12(%rsi), %r15d
	movl (%rsi), %r13d
	movl 4(%rsi), %r12d
	movl 16(%rsi), %ebx
	cmpl $1, %eax
	sete %bpl
	leaq 2904(%rsp), %rdi
	movq $0, 104(%rsp)
	movl $288, %edx
	xorl %esi, %esi
	callq memset@PLT
	xorps %xmm0, %xmm0
	movaps %xmm0, 1600(%rsp)
	movaps %xmm0, 1616(%rsp)
	movq $0, 1630(%rsp)
	movaps %xmm0, 752(%rsp)
	movq $0, 768(%rsp)
	movaps %xmm0, 1168(%rsp)
	movaps %xmm0, 1184(%rsp)
	movaps %xmm0, 720(%rsp)
	movq $0, 736(%rsp)
	movaps %xmm0, 448(%rsp)
	movaps %xmm0, 464(%rsp)
	movq $0, 478(%rsp)
	movaps %xmm0, 288(%rsp)
	movq $0, 304(%rsp)
	movaps %xmm0, 416(%rsp)
	movaps %xmm0, 432(%rsp)
	movaps %xmm0, 256(%rsp)
	movq $0, 272(%rsp)
	movaps %xmm0, 1504(%rsp)
	movaps %xmm0, 1488(%rsp)
	movaps %xmm0, 1472(%rsp)
	movaps %xmm0, 1456(%rsp)
	movaps %xmm0, 1440(%rsp)
	movaps %xmm0, 1424(%rsp)
	movaps %xmm0, 1408(%rsp)
	movaps %xmm0, 1392(%rsp)
	movaps %xmm0, 1376(%rsp)
	movaps %xmm0, 1360(%rsp)
	movaps %xmm0, 1344(%rsp)
	movaps %xmm0, 1328(%rsp)
	movaps %xmm0, 1312(%rsp)
	movaps %xmm0, 1296(%rsp)
	movaps %xmm0, 1280(%rsp)
	movq $0, 1520(%rsp)
	movaps %xmm0, 688(%rsp)
	movq $0, 704(%rsp)
	leaq 2616(%rsp), %rdi
	movl $288, %edx
	xorl %esi, %esi
	callq memset@PLT
	xorps %xmm0, %xmm0
	movaps %xmm0, 560(%rsp)
	movaps %xmm0, 576(%rsp)
	movq $0, 591(%rsp)
	movaps %xmm0, 352(%rsp)
	movq $0, 368(%rsp)
	movaps %xmm0, 512(%rsp)
	movaps %xmm0, 528(%rsp)
	movaps %xmm0, 320(%rsp)
	movq $0, 336(%rsp)
	movaps %xmm0, 1232(%rsp)
	movaps %xmm0, 1248(%rsp)
	movq $0, 1262(%rsp)
	movaps %xmm0, 816(%rsp)
	movq $0, 832(%rsp)
	movaps %xmm0, 1216(%rsp)
	movaps %xmm0, 1200(%rsp)
	movaps %xmm0, 784(%rsp)
	movq $0, 800(%rsp)
	cmpl $10241, %r13d
	movl %r13d, 224(%rsp)
	movl %r12d, 156(%rsp)
	jb .LBB69_5
	movups %xmm0, 470(%rsp)
	movups %xmm0, 454(%rsp)
	movaps %xmm0, 288(%rsp)
	movq $0, 304(%rsp)
	movaps %xmm0, 416(%rsp)
	movaps %xmm0, 432(%rsp)
	movaps %xmm0, 256(%rsp)
	movq $0, 272(%rsp)
	movl $-1, %ebx
	movq $0, 24(%rsp)
	movq $0, 112(%rsp)
	movq $0, 40(%rsp)
	movq $0, 48(%rsp)
	xorl %r9d, %r9d
	movq $0, 88(%rsp)
	xorl %eax, %eax
	xorl %ecx, %ecx
	xorl %r10d, %r10d
	movq $0, 80(%rsp)
	movq $0, 144(%rsp)
	movq $0, 176(%rsp)
	movq $0, 136(%rsp)
	movq $0, 168(%rsp)
	movq $0, 120(%rsp)
	movq $0, 160(%rsp)
	movq $0, 128(%rsp)
	jmp .LBB69_8
.LBB69_5:
	movb %bpl, 200(%rsp)
	movl %r13d, %ebp
	subl %r12d, %ebp
	jae .LBB69_9
	movups %xmm0, 470(%rsp)
	movups %xmm0, 454(%rsp)
	movaps %xmm0, 288(%rsp)
	movq $0, 304(%rsp)
	movaps %xmm0, 416(%rsp)
	movaps %xmm0, 432(%rsp)
	movaps %xmm0, 256(%rsp)
	movq $0, 272(%rsp)
	movl $-2, %ebx
	jmp .LBB69_7
.LBB69_9:
	cmpl $-1, %r14d
	movl $4, %edi
	cmovel %ebx, %edi
	testl %r14d, %r14d
	js .LBB69_10
	movl %r14d, %ecx
	cmpl $6, %r14d
	jbe .LBB69_16
	movups %xmm0, 470(%rsp)
	movups %xmm0, 454(%rsp)
	movaps %xmm0, 288(%rsp)
	movq $0, 304(%rsp)
	movaps %xmm0, 416(%rsp)
	movaps %xmm0, 432(%rsp)
	movaps %xmm0, 256(%rsp)
	movq $0, 272(%rsp)
	movl $-3, %ebx
	jmp .LBB69_7
.LBB69_10:
	movl $6, %ecx
	movl $6, %r14d
	cmpl $4, %ebp
	jb .LBB69_12
	cmpl $5, %edi
	movl $4, %esi
	cmovael %edi, %esi
	movl %ebp, %eax
	xorl %edx, %edx
	divl %esi
	cmpl $1, %eax
	adcl $0, %eax
	bsrl %eax, %eax
	cmpl $6, %eax
	cmovbl %eax, %r14d
.LBB69_12:
	cmpl $4, %r12d
	jb .LBB69_16
	cmpl $5, %edi
	movl $4, %ecx
	cmovael %edi, %ecx
	movl %r12d, %eax
	xorl %edx, %edx
	divl %ecx
	cmpl $1, %eax
	adcl $0, %eax
	bsrl %eax, %eax
	cmpl $6, %eax
	movl $6, %ecx
	cmovbl %eax, %ecx
.LBB69_16:
	leal -65(%rbx), %eax
	cmpl $-65, %eax
	ja .LBB69_18
	movups %xmm0, 470(%rsp)
	movups %xmm0, 454(%rsp)
	movaps %xmm0, 288(%rsp)
	movq $0, 304(%rsp)
	movaps %xmm0, 416(%rsp)
	movaps %xmm0, 432(%rsp)
	movaps %xmm0, 256(%rsp)
	movq $0, 272(%rsp)
	movl $-4, %ebx
.LBB69_7:
	movq $0, 24(%rsp)
	movq $0, 112(%rsp)
	movq $0, 40(%rsp)
	movq $0, 48(%rsp)
	xorl %r9d, %r9d
	movq $0, 88(%rsp)
	xorl %eax, %eax
	xorl %ecx, %ecx
	xorl %r10d, %r10d
	movq $0, 80(%rsp)
	movq $0, 144(%rsp)
	movq $0, 176(%rsp)
	movq $0, 136(%rsp)
	movq $0, 168(%rsp)
	movq $0, 120(%rsp)
	movq $0, 160(%rsp)
	movq $0, 128(%rsp)
	movq $0, 104(%rsp)
.LBB69_8:
	xorl %edi, %edi
	xorl %esi, %esi
	xorl %edx, %edx
.LBB69_85:
	xorps %xmm0, %xmm0
	movaps %xmm0, 2192(%rsp)
	movaps %xmm0, 2208(%rsp)
	movq $0, 2222(%rsp)
	movaps %xmm0, 1024(%rsp)
	movq $0, 1040(%rsp)
	movaps %xmm0, 2048(%rsp)
	movaps %xmm0, 2064(%rsp)
	movaps %xmm0, 880(%rsp)
	movq $0, 896(%rsp)
	movq $0, 240(%rsp)
	movl $0, %r8d
	movq %r8, 208(%rsp)
	movl $0, %r8d
	movq %r8, 232(%rsp)
	movl $0, %r14d
	movl $0, %r8d
	movq %r8, 216(%rsp)
	movl $0, %r8d
	movq %r8, 640(%rsp)
	movl $0, %r8d
	movq %r8, 192(%rsp)
	movl $0, %r8d
	movq %r8, 64(%rsp)
	movl $0, %r8d
	movq %r8, 496(%rsp)
	movl $0, %r8d
	movq %r8, 248(%rsp)
	movl $0, %r11d
	movl $0, 96(%rsp)
	movl $0, 184(%rsp)
	movl $0, 76(%rsp)
	movl $0, %r8d
	movq %r8, 200(%rsp)
	movl $0, %ebp
	movl $0, %r8d
	movq %r8, 32(%rsp)
	movl $0, %r12d
	movl $0, %r15d
	movl $0, %r13d
	testb %dl, %dl
	je .LBB69_87
	movq 304(%rsp), %r8
	movq %r8, 1040(%rsp)
	movq 272(%rsp), %r8
	movq %r8, 896(%rsp)
	movups 454(%rsp), %xmm0
	movups 470(%rsp), %xmm1
	movups %xmm1, 2214(%rsp)
	movups %xmm0, 2198(%rsp)
	movaps 288(%rsp), %xmm0
	movaps %xmm0, 1024(%rsp)
	movaps 416(%rsp), %xmm0
	movaps 432(%rsp), %xmm1
	movaps %xmm0, 2048(%rsp)
	movaps %xmm1, 2064(%rsp)
	movaps 256(%rsp), %xmm0
	movaps %xmm0, 880(%rsp)
	movq %rax, 240(%rsp)
	movq %rcx, 208(%rsp)
	movq %r10, 232(%rsp)
	movq 80(%rsp), %r14
	movq 144(%rsp), %rax
	movq %rax, 216(%rsp)
	movq 176(%rsp), %rax
	movq %rax, 640(%rsp)
	movq 136(%rsp), %rax
	movq %rax, 192(%rsp)
	movq 168(%rsp), %rax
	movq %rax, 64(%rsp)
	movq 120(%rsp), %rax
	movq %rax, 496(%rsp)
	movq 160(%rsp), %rax
	movq %rax, 248(%rsp)
	movq 128(%rsp), %r11
	movq 104(%rsp), %rax
	movl %eax, 96(%rsp)
	movl %edi, 184(%rsp)
	movl %esi, 76(%rsp)
	movq 24(%rsp), %rax
	movq %rax, 200(%rsp)
	movq 112(%rsp), %rbp
	movq 40(%rsp), %rax
	movq %rax, 32(%rsp)
	movq 88(%rsp), %r12
	movq %r9, %r15
	movq 48(%rsp), %r13
	xorl %ebx, %ebx
.LBB69_87:
	movups 2198(%rsp), %xmm0
	movups 2214(%rsp), %xmm1
	movups %xmm1, 1622(%rsp)
	movups %xmm0, 1606(%rsp)
	movaps 1024(%rsp), %xmm0
	movaps %xmm0, 752(%rsp)
	movq 1040(%rsp), %rax
	movq %rax, 768(%rsp)
	movaps 2048(%rsp), %xmm0
	movaps 2064(%rsp), %xmm1
	movaps %xmm0, 1168(%rsp)
	movaps %xmm1, 1184(%rsp)
	movaps 880(%rsp), %xmm0
	movaps %xmm0, 720(%rsp)
	movq 896(%rsp), %rax
	movq %rax, 736(%rsp)
	testb %dl, %dl
	je .LBB69_155
	testq %rbp, %rbp
	je .LBB69_89
	movabsq $20962209174669945, %rax
	cmpq %rax, %rbp
	movq %r11, %rbx
	ja .LBB69_142
	imulq $440, %rbp, %rdi
	movl $8, %esi
	callq tags_library_alloc@PLT
	movl 228(%rsp), %ecx
	testb $1, %al
	jne .LBB69_92
.LBB69_142:
	movq %r13, %rdi
	callq tags_library_dealloc@PLT
	movq %r12, %rdi
	callq tags_library_dealloc@PLT
	testq %r14, %r14
	je .LBB69_144
	movq 208(%rsp), %rdi
	callq tags_library_dealloc@PLT
.LBB69_144:
	movq 216(%rsp), %rdi
	callq tags_library_dealloc@PLT
	movq 192(%rsp), %rdi
	callq tags_library_dealloc@PLT
	testq %rbx, %rbx
	movq 200(%rsp), %r12
	je .LBB69_146
	movq 496(%rsp), %rdi
	callq tags_library_dealloc@PLT
.LBB69_146:
	leaq 272(%r12), %r14
	jmp .LBB69_147
	.p2align 4
.LBB69_151:
	addq $424, %r14
	decq %rbp
	je .LBB69_152
.LBB69_147:
	movq -16(%r14), %rbx
	movq (%r14), %r15
	cmpq $0, -208(%r14)
	je .LBB69_149
	movq -224(%r14), %rdi
	callq tags_library_dealloc@PLT
.LBB69_149:
	testq %r15, %r15
	je .LBB69_151
	movq %rbx, %rdi
	callq tags_library_dealloc@PLT
	jmp .LBB69_151
.LBB69_152:
	xorl %ebx, %ebx
	cmpq $0, 32(%rsp)
	je .LBB69_155
	movq %r12, %rdi
	jmp .LBB69_154
.LBB69_89:
	leaq 16(%rsp), %rdx
	movl 228(%rsp), %ecx
	movq %r11, %rbx
.LBB69_92:
	leaq 1606(%rsp), %rax
	movups (%rax), %xmm0
	movups 16(%rax), %xmm1
	movaps %xmm1, 1296(%rsp)
	movaps %xmm0, 1280(%rsp)
	movq %r13, 1312(%rsp)
	movq %r15, 1320(%rsp)
	movq %r12, 1328(%rsp)
	movq 240(%rsp), %rax
	movq %rax, 1336(%rsp)
	movq 768(%rsp), %rax
	movq %rax, 1360(%rsp)
	movaps 752(%rsp), %xmm0
	movaps %xmm0, 1344(%rsp)
	movq 208(%rsp), %rax
	movq %rax, 1368(%rsp)
	movq 232(%rsp), %rax
	movq %rax, 1376(%rsp)
	movq %r14, 1384(%rsp)
	movaps 1168(%rsp), %xmm0
	movaps 1184(%rsp), %xmm1
	movaps %xmm0, 1392(%rsp)
	movaps %xmm1, 1408(%rsp)
	movq 216(%rsp), %rax
	movq %rax, 1424(%rsp)
	movq 640(%rsp), %rax
	movq %rax, 1432(%rsp)
	movq 192(%rsp), %rax
	movq %rax, 1440(%rsp)
	movq 64(%rsp), %rax
	movq %rax, 1448(%rsp)
	movq 736(%rsp), %rax
	movq %rax, 1472(%rsp)
	movaps 720(%rsp), %xmm0
	movaps %xmm0, 1456(%rsp)
	movq 496(%rsp), %rax
	movq %rax, 1480(%rsp)
	movq 248(%rsp), %rax
	movq %rax, 1488(%rsp)
	movq %rbx, 1496(%rsp)
	movl 96(%rsp), %eax
	movl %eax, 1504(%rsp)
	movl 184(%rsp), %eax
	movl %eax, 1508(%rsp)
	movl 76(%rsp), %eax
	movl %eax, 1512(%rsp)
	movq %rdx, 688(%rsp)
	movl $0, 1516(%rsp)
	movq $0, 1520(%rsp)
	movq $0, 696(%rsp)
	movq %rbp, 704(%rsp)
	leaq 688(%rsp), %rax
	movq %rax, 8(%rsp)
	movq %rbp, (%rsp)
	movzbl %cl, %r9d
	leaq 2904(%rsp), %rdi
	leaq 1280(%rsp), %rsi
	movl 224(%rsp), %edx
	movl 156(%rsp), %ecx
	movl 412(%rsp), %r8d
	callq tag_c.pool_state.PoolState.with_cells
	cmpq $15, %rbp
	jbe .LBB69_93
	movq %rbp, %rdx
	shrq %rdx
	movq %rbp, %rax
	subq %rdx, %rax
	imulq $424, %rax, %rsi
	movq 200(%rsp), %r13
	addq %r13, %rsi
	movq %r13, %rdi
	callq core.slice.edits.mirror_tag_pool.hand.Hand_i64
	jmp .LBB69_132
.LBB69_93:
	cmpq $2, %rbp
	movq 200(%rsp), %r13
	jb .LBB69_132
	leaq -2(%rbp), %r15
	movq %r15, %r12
	shrq %r12
	movq %rbp, %rax
	decq %rax
	je .LBB69_96
	imulq $424, %rax, %rbx
	addq %r13, %rbx
	leaq 2192(%rsp), %r14
	movl $424, %edx
	movq %r14, %rdi
	movq %r13, %rsi
	callq memcpy@PLT
	movl $424, %edx
	movq %r13, %rdi
	movq %rbx, %rsi
	callq memmove@PLT
	movl $424, %edx
	movq %rbx, %rdi
	movq %r14, %rsi
	callq memcpy@PLT
.LBB69_96:
	testq %r12, %r12
	je .LBB69_132
	cmpq $1, %r15
	jbe .LBB69_98
	leaq 424(%r13), %rbx
	imulq $424, %r15, %r14
	addq %r13, %r14
	jmp .LBB69_101
.LBB69_18:
	movl %r15d, 76(%rsp)
	movabsq $281474976710656, %r15
	movaps %xmm0, 1024(%rsp)
	movaps %xmm0, 1040(%rsp)
	movaps %xmm0, 1056(%rsp)
	movaps %xmm0, 1072(%rsp)
	movaps %xmm0, 1088(%rsp)
	movaps %xmm0, 1104(%rsp)
	movaps %xmm0, 1120(%rsp)
	movaps %xmm0, 1136(%rsp)
	movaps %xmm0, 1152(%rsp)
	movaps %xmm0, 880(%rsp)
	movaps %xmm0, 896(%rsp)
	movaps %xmm0, 912(%rsp)
	movaps %xmm0, 928(%rsp)
	movaps %xmm0, 944(%rsp)
	movaps %xmm0, 960(%rsp)
	movaps %xmm0, 976(%rsp)
	movaps %xmm0, 992(%rsp)
	movaps %xmm0, 1008(%rsp)
	leaq 1024(%rsp), %rdi
	movl %r12d, %esi
	movl %ecx, %edx
	movl %ebx, %ecx
	movq %r15, %r8
	callq tag_pool.opens.open_set_i64_core.clone.U64Clone
	cmpb $0, 1024(%rsp)
	je .LBB69_19
.LBB69_83:
	xorps %xmm0, %xmm0
	movups %xmm0, 583(%rsp)
	movups %xmm0, 567(%rsp)
	movaps %xmm0, 352(%rsp)
	movq $0, 368(%rsp)
	movaps %xmm0, 512(%rsp)
	movaps %xmm0, 528(%rsp)
	movaps %xmm0, 320(%rsp)
	movq $0, 336(%rsp)
	xorl %edx, %edx
	movq $0, 24(%rsp)
	movq $0, 112(%rsp)
	movq $0, 40(%rsp)
	movq $0, 48(%rsp)
	xorl %r14d, %r14d
	movq $0, 88(%rsp)
	xorl %r15d, %r15d
	xorl %ecx, %ecx
	xorl %r10d, %r10d
	movq $0, 80(%rsp)
	movq $0, 144(%rsp)
	movq $0, 176(%rsp)
	movq $0, 136(%rsp)
	movq $0, 168(%rsp)
	movq $0, 120(%rsp)
	movq $0, 160(%rsp)
	movq $0, 128(%rsp)
	movq $0, 104(%rsp)
	xorl %edi, %edi
	xorl %ebp, %ebp
.LBB69_84:
	movq %r15, %rax
	movq %r14, %r9
	movl %ebp, %esi
	movups 1238(%rsp), %xmm0
	movups 1254(%rsp), %xmm1
	movups %xmm1, 470(%rsp)
	movups %xmm0, 454(%rsp)
	movaps 816(%rsp), %xmm0
	movaps %xmm0, 288(%rsp)
	movq 832(%rsp), %r8
	movq %r8, 304(%rsp)
	movaps 1200(%rsp), %xmm0
	movaps 1216(%rsp), %xmm1
	movaps %xmm0, 416(%rsp)
	movaps %xmm1, 432(%rsp)
	movaps 784(%rsp), %xmm0
	movaps %xmm0, 256(%rsp)
	movq 800(%rsp), %r8
	movq %r8, 272(%rsp)
	xorl %ebx, %ebx
	jmp .LBB69_85
.LBB69_19:
	movq 1064(%rsp), %rax
	movq %rax, 48(%rsp)
	movq 1072(%rsp), %rax
	movq %rax, 864(%rsp)
	movq 1080(%rsp), %rax
	movq %rax, 88(%rsp)
	movq 1088(%rsp), %rax
	movq %rax, 856(%rsp)
	movq 1120(%rsp), %rax
	movq %rax, 64(%rsp)
	movq 1128(%rsp), %rax
	movq %rax, 848(%rsp)
	movq 1136(%rsp), %rax
	movq %rax, 80(%rsp)
	movq 1144(%rsp), %rax
	movq %rax, 24(%rsp)
	movq 1152(%rsp), %r12
	movq 1160(%rsp), %rax
	movq %rax, 40(%rsp)
	movups 1032(%rsp), %xmm0
	movups 1048(%rsp), %xmm1
	movaps %xmm0, 1728(%rsp)
	movaps %xmm1, 1744(%rsp)
	movups 1096(%rsp), %xmm0
	movaps %xmm0, 1568(%rsp)
	movq 1112(%rsp), %rax
	movq %rax, 1584(%rsp)
	leaq 880(%rsp), %rdi
	movl %ebp, %esi
	movl %r14d, %edx
	movl %ebx, %ecx
	movq %r15, %r8
	callq tag_pool.opens.open_set_i64_core.clone.U64Clone
	cmpb $0, 880(%rsp)
	je .LBB69_20
	testq %r12, %r12
	movq 48(%rsp), %rdi
	movq 24(%rsp), %r14
	je .LBB69_77
	leaq 40(%r14), %rbx
	jmp .LBB69_74
.LBB69_76:
	addq $192, %rbx
	decq %r12
	je .LBB69_77
.LBB69_74:
	cmpq $0, (%rbx)
	je .LBB69_76
	movq -16(%rbx), %rdi
	callq tags_library_dealloc@PLT
	movq 48(%rsp), %rdi
	jmp .LBB69_76
.LBB69_98:
	testq %r15, %r15
	jne .LBB69_102
	imulq $424, %r15, %rbx
	addq %r13, %rbx
	leaq 424(%r13), %r14
.LBB69_101:
	leaq 2192(%rsp), %r15
	movl $424, %edx
	movq %r15, %rdi
	movq %rbx, %rsi
	callq memcpy@PLT
	movl $424, %edx
	movq %rbx, %rdi
	movq %r14, %rsi
	callq memmove@PLT
	movl $424, %edx
	movq %r14, %rdi
	movq %r15, %rsi
	callq memcpy@PLT
.LBB69_102:
	cmpq $1, %r12
	je .LBB69_132
	leaq -3(%rbp), %rax
	cmpq $2, %rax
	jbe .LBB69_104
	leaq 848(%r13), %rbx
	imulq $424, %rax, %r14
	addq %r13, %r14
	jmp .LBB69_107
.LBB69_77:
	cmpq $0, 40(%rsp)
	je .LBB69_81
	movq %r14, %rdi
.LBB69_79:
	callq tags_library_dealloc@PLT
.LBB69_80:
	movq 48(%rsp), %rdi
.LBB69_81:
	callq tags_library_dealloc@PLT
	movq 88(%rsp), %rdi
	callq tags_library_dealloc@PLT
	cmpq $0, 80(%rsp)
	je .LBB69_83
	movq 64(%rsp), %rdi
	callq tags_library_dealloc@PLT
	jmp .LBB69_83
.LBB69_20:
	movq 920(%rsp), %rax
	movq %rax, 144(%rsp)
	movq 928(%rsp), %rax
	movq %rax, 176(%rsp)
	movq 936(%rsp), %rax
	movq %rax, 136(%rsp)
	movq 944(%rsp), %rax
	movq %rax, 168(%rsp)
	movq 976(%rsp), %rax
	movq %rax, 120(%rsp)
	movq 984(%rsp), %rax
	movq %rax, 160(%rsp)
	movq 992(%rsp), %rax
	movq %rax, 128(%rsp)
	movq 1000(%rsp), %rcx
	movq 1008(%rsp), %rdx
	movq 1016(%rsp), %rax
	movq %rax, 552(%rsp)
	movups 888(%rsp), %xmm0
	movups 904(%rsp), %xmm1
	movaps %xmm0, 1696(%rsp)
	movaps %xmm1, 1712(%rsp)
	movups 952(%rsp), %xmm0
	movaps %xmm0, 1536(%rsp)
	movq 968(%rsp), %rax
	movq %rax, 1552(%rsp)
	leaq 16(%rsp), %r14
	movq %r14, 384(%rsp)
	xorps %xmm0, %xmm0
	movups %xmm0, 392(%rsp)
	testq %r12, %r12
	movq %r12, 96(%rsp)
	movq %rcx, 376(%rsp)
	je .LBB69_21
	movq %rdx, 184(%rsp)
	subq %r12, %rdx
	movq %rdx, 840(%rsp)
	movq 24(%rsp), %rax
	leaq 232(%rax), %rbp
	leaq 232(%rcx), %rbx
	xorl %r12d, %r12d
	xorl %r13d, %r13d
	jmp .LBB69_34
.LBB69_37:
	movq 384(%rsp), %r14
	movq 392(%rsp), %r12
	movq 32(%rsp), %rdx
.LBB69_38:
	incq %r13
	movq %r13, 32(%rsp)
	imulq $424, %r12, %r15
	movl 156(%rsp), %eax
	movl %eax, (%r14,%r15)
	movq $0, 4(%r14,%r15)
	movzbl 200(%rsp), %r13d
	movb %r13b, 12(%r14,%r15)
	movzwl 60(%rsp), %eax
	movw %ax, 13(%r14,%r15)
	movzbl 62(%rsp), %eax
	movb %al, 15(%r14,%r15)
	movl 208(%rsp), %ecx
	movl %ecx, 16(%r14,%r15)
	movl $0, 20(%r14,%r15)
	movq 624(%rsp), %rax
	movq %rax, 24(%r14,%r15)
	movl 632(%rsp), %eax
	movl %eax, 32(%r14,%r15)
	movl %ecx, 36(%r14,%r15)
	movq 248(%rsp), %rax
	movq %rax, 40(%r14,%r15)
	movq %rdx, 48(%r14,%r15)
	movaps 640(%rsp), %xmm0
	movups %xmm0, 56(%r14,%r15)
	leaq (%r14,%r15), %rdi
	addq $72, %rdi
	leaq 2192(%rsp), %rsi
	movl $144, %edx
	callq memcpy@PLT
	movl $0, 216(%r14,%r15)
	movb %r13b, 220(%r14,%r15)
	movq 32(%rsp), %r13
	movzwl 56(%rsp), %eax
	movw %ax, 221(%r14,%r15)
	movzbl 58(%rsp), %eax
	movb %al, 223(%r14,%r15)
	movl 216(%rsp), %ecx
	movl %ecx, 224(%r14,%r15)
	movl $0, 228(%r14,%r15)
	movq 608(%rsp), %rax
	movq %rax, 232(%r14,%r15)
	movl 616(%rsp), %eax
	movl %eax, 240(%r14,%r15)
	movl %ecx, 244(%r14,%r15)
	movq 104(%rsp), %rax
	movq %rax, 248(%r14,%r15)
	movq 192(%rsp), %rax
	movq %rax, 256(%r14,%r15)
	movaps 496(%rsp), %xmm0
	movups %xmm0, 264(%r14,%r15)
	leaq (%r14,%r15), %rdi
	addq $280, %rdi
	leaq 2048(%rsp), %rsi
	movl $144, %edx
	callq memcpy@PLT
	incq %r12
	movq %r12, 392(%rsp)
	addq $192, %rbp
	addq $192, %rbx
	cmpq %r13, 96(%rsp)
	je .LBB69_39
.LBB69_34:
	movq 184(%rsp), %r15
	subq %r13, %r15
	je .LBB69_40
	leaq -232(%rbp), %rax
	movl -220(%rbp), %ecx
	movl %ecx, 208(%rsp)
	movq -216(%rbp), %rcx
	movq %rcx, 248(%rsp)
	movq -208(%rbp), %rcx
	movq %rcx, 32(%rsp)
	movq -192(%rbp), %rcx
	movq %rcx, 240(%rsp)
	movups -200(%rbp), %xmm0
	movaps %xmm0, 640(%rsp)
	leaq -184(%rbp), %rsi
	movl -220(%rbx), %ecx
	movl %ecx, 216(%rsp)
	movq -216(%rbx), %rcx
	movq %rcx, 104(%rsp)
	movq -208(%rbx), %rcx
	movq %rcx, 192(%rsp)
	movq -192(%rbx), %rcx
	movq %rcx, 232(%rsp)
	movups -200(%rbx), %xmm0
	movaps %xmm0, 496(%rsp)
	movw $0, 60(%rsp)
	movb $0, 62(%rsp)
	movq (%rax), %rcx
	movq %rcx, 624(%rsp)
	movl 8(%rax), %eax
	movl %eax, 632(%rsp)
	leaq 2192(%rsp), %rdi
	movl $144, %edx
	callq memcpy@PLT
	movw $0, 56(%rsp)
	movb $0, 58(%rsp)
	movq -232(%rbx), %rax
	movq %rax, 608(%rsp)
	movl -224(%rbx), %eax
	movl %eax, 616(%rsp)
	leaq 2048(%rsp), %rdi
	movl $144, %edx
	leaq -184(%rbx), %rsi
	callq memcpy@PLT
	movq 32(%rsp), %rdx
	cmpq %r12, 400(%rsp)
	jne .LBB69_38
	movq 240(%rsp), %r12
	movq 232(%rsp), %r14
	leaq 384(%rsp), %rdi
	callq std_alloc.vec.Vec.grow_amortized__1e708b5270e38172
	testb %al, %al
	jne .LBB69_37
	testq %r12, %r12
	je .LBB69_43
	movq 32(%rsp), %rdi
	callq tags_library_dealloc@PLT
.LBB69_43:
	decq 184(%rsp)
	testq %r14, %r14
	je .LBB69_45
	movq 192(%rsp), %rdi
	callq tags_library_dealloc@PLT
.LBB69_45:
	leaq 1(%r13), %r12
	cmpq %r13, 184(%rsp)
	je .LBB69_51
	leaq (%r15,%r13), %rax
	cmpq %rax, %r12
	jae .LBB69_51
	movl $1, %r14d
	jmp .LBB69_48
.LBB69_104:
	je .LBB69_108
	imulq $424, %rax, %rbx
	addq %r13, %rbx
	leaq 848(%r13), %r14
.LBB69_107:
	leaq 2192(%rsp), %r15
	movl $424, %edx
	movq %r15, %rdi
	movq %rbx, %rsi
	callq memcpy@PLT
	movl $424, %edx
	movq %rbx, %rdi
	movq %r14, %rsi
	callq memmove@PLT
	movl $424, %edx
	movq %r14, %rdi
	movq %r15, %rsi
	callq memcpy@PLT
.LBB69_108:
	cmpq $2, %r12
	je .LBB69_132
	leaq -4(%rbp), %rax
	cmpq $3, %rax
	jbe .LBB69_110
	leaq 1272(%r13), %rbx
	imulq $424, %rax, %r14
	addq %r13, %r14
	jmp .LBB69_113
.LBB69_39:
	movq %r12, 112(%rsp)
	movq 840(%rsp), %r12
	movl 224(%rsp), %r13d
	jmp .LBB69_22
.LBB69_110:
	je .LBB69_114
	imulq $424, %rax, %rbx
	addq %r13, %rbx
	leaq 1272(%r13), %r14
.LBB69_113:
	leaq 2192(%rsp), %r15
	movl $424, %edx
	movq %r15, %rdi
	movq %rbx, %rsi
	callq memcpy@PLT
	movl $424, %edx
	movq %rbx, %rdi
	movq %r14, %rsi
	callq memmove@PLT
	movl $424, %edx
	movq %r14, %rdi
	movq %r15, %rsi
	callq memcpy@PLT
.LBB69_114:
	cmpq $3, %r12
	je .LBB69_132
	leaq -5(%rbp), %rax
	cmpq $4, %rax
	jbe .LBB69_116
	leaq 1696(%r13), %rbx
	imulq $424, %rax, %r14
	addq %r13, %r14
	jmp .LBB69_119
.LBB69_21:
	movq $0, 112(%rsp)
	movq %rdx, %r12
.LBB69_22:
	testq %r12, %r12
	movq 64(%rsp), %rcx
	movl 76(%rsp), %ebp
	movq 864(%rsp), %r14
	movq 856(%rsp), %r15
	je .LBB69_28
	movq 96(%rsp), %rsi
	leaq (%r12,%rsi), %rax
	cmpq %rax, %rsi
	jae .LBB69_28
	movq 96(%rsp), %rax
	leaq (%rax,%rax,2), %rax
	shlq $6, %rax
	movq 376(%rsp), %rsi
	leaq (%rax,%rsi), %rbx
	addq $40, %rbx
	jmp .LBB69_25
.LBB69_27:
	addq $192, %rbx
	decq %r12
	je .LBB69_28
.LBB69_25:
	cmpq $0, (%rbx)
	je .LBB69_27
	movq -16(%rbx), %rdi
	callq tags_library_dealloc@PLT
	movq 64(%rsp), %rcx
	jmp .LBB69_27
.LBB69_28:
	movq 24(%rsp), %rbx
	cmpq $0, 552(%rsp)
	je .LBB69_30
	movq 376(%rsp), %rdi
	callq tags_library_dealloc@PLT
	movq 64(%rsp), %rcx
.LBB69_30:
	cmpq $0, 40(%rsp)
	movl 156(%rsp), %r12d
	je .LBB69_32
	movq %rbx, %rdi
	callq tags_library_dealloc@PLT
	movq 64(%rsp), %rcx
.LBB69_32:
	movq 384(%rsp), %rax
	movq %rax, 24(%rsp)
	cmpl $1, %ebp
	adcl $0, %ebp
	movq 400(%rsp), %rax
	movq %rax, 40(%rsp)
	movaps 1728(%rsp), %xmm0
	movaps 1744(%rsp), %xmm1
	movups %xmm0, 567(%rsp)
	movups %xmm1, 583(%rsp)
	movaps 1568(%rsp), %xmm0
	movaps %xmm0, 352(%rsp)
	movq 1584(%rsp), %rdx
	movq %rdx, 368(%rsp)
	movaps 1696(%rsp), %xmm0
	movaps 1712(%rsp), %xmm1
	movaps %xmm0, 512(%rsp)
	movaps %xmm1, 528(%rsp)
	movq 1552(%rsp), %rdx
	movq %rdx, 336(%rsp)
	movaps 1536(%rsp), %xmm0
	movaps %xmm0, 320(%rsp)
	movups 567(%rsp), %xmm0
	movups 583(%rsp), %xmm1
	movups %xmm0, 1238(%rsp)
	movups %xmm1, 1254(%rsp)
	movaps 352(%rsp), %xmm0
	movaps %xmm0, 816(%rsp)
	movq 368(%rsp), %rdx
	movq %rdx, 832(%rsp)
	movaps 512(%rsp), %xmm0
	movaps 528(%rsp), %xmm1
	movaps %xmm0, 1200(%rsp)
	movaps %xmm1, 1216(%rsp)
	movaps 320(%rsp), %xmm0
	movaps %xmm0, 784(%rsp)
	movq 336(%rsp), %rdx
	movq %rdx, 800(%rsp)
	movb $1, %dl
	movl %r12d, %eax
	movq %rax, 104(%rsp)
	movl %r13d, %edi
	movq 848(%rsp), %r10
	jmp .LBB69_84
.LBB69_50:
	incq %r14
	addq $192, %rbx
	cmpq %r14, %r15
	je .LBB69_51
.LBB69_48:
	cmpq $0, (%rbx)
	je .LBB69_50
	movq -16(%rbx), %rdi
	callq tags_library_dealloc@PLT
	jmp .LBB69_50
.LBB69_116:
	je .LBB69_120
	imulq $424, %rax, %rbx
	addq %r13, %rbx
	leaq 1696(%r13), %r14
.LBB69_119:
	leaq 2192(%rsp), %r15
	movl $424, %edx
	movq %r15, %rdi
	movq %rbx, %rsi
	callq memcpy@PLT
	movl $424, %edx
	movq %rbx, %rdi
	movq %r14, %rsi
	callq memmove@PLT
	movl $424, %edx
	movq %r14, %rdi
	movq %r15, %rsi
	callq memcpy@PLT
.LBB69_120:
	cmpq $4, %r12
	je .LBB69_132
	leaq -6(%rbp), %rax
	cmpq $5, %rax
	jbe .LBB69_122
	leaq 2120(%r13), %rbx
	imulq $424, %rax, %r14
	addq %r13, %r14
	jmp .LBB69_125
.LBB69_122:
	je .LBB69_126
	imulq $424, %rax, %rbx
	addq %r13, %rbx
	leaq 2120(%r13), %r14
.LBB69_125:
	leaq 2192(%rsp), %r15
	movl $424, %edx
	movq %r15, %rdi
	movq %rbx, %rsi
	callq memcpy@PLT
	movl $424, %edx
	movq %rbx, %rdi
	movq %r14, %rsi
	callq memmove@PLT
	movl $424, %edx
	movq %r14, %rdi
	movq %r15, %rsi
	callq memcpy@PLT
.LBB69_126:
	cmpq $5, %r12
	je .LBB69_132
	leaq -7(%rbp), %rax
	cmpq $6, %rax
	jbe .LBB69_128
	leaq 2544(%r13), %rbx
	imulq $424, %rax, %r14
	addq %r13, %r14
	jmp .LBB69_131
.LBB69_128:
	je .LBB69_132
	imulq $424, %rax, %rbx
	addq %r13, %rbx
	leaq 2544(%r13), %r14
.LBB69_131:
	leaq 2192(%rsp), %r15
	movl $424, %edx
	movq %r15, %rdi
	movq %rbx, %rsi
	callq memcpy@PLT
	movl $424, %edx
	movq %rbx, %rdi
	movq %r14, %rsi
	callq memmove@PLT
	movl $424, %edx
	movq %r14, %rdi
	movq %r15, %rsi
	callq memcpy@PLT
.LBB69_132:
	movq 2904(%rsp), %r15
	leaq 2912(%rsp), %r14
	movl $296, %edi
	movl $8, %esi
	callq tags_library_alloc@PLT
	testb $1, %al
	je .LBB69_133
	movq %rdx, %rbx
	movq $1, (%rdx)
	movq %r15, 8(%rdx)
	movq %rdx, %rdi
	addq $16, %rdi
	movl $280, %edx
	movq %r14, %rsi
	callq memcpy@PLT
	movl $480, %edi
	movl $8, %esi
	callq tags_library_alloc@PLT
	testb $1, %al
	je .LBB69_158
	movq %rdx, %r14
	movq $1, (%rdx)
	movq %rbx, 8(%rdx)
	movq %r13, 16(%rdx)
	movq %rbp, 24(%rdx)
	movq 32(%rsp), %rax
	movq %rax, 32(%rdx)
	movaps 1680(%rsp), %xmm0
	movups %xmm0, 40(%rdx)
	xorps %xmm1, %xmm1
	movups %xmm1, 56(%rdx)
	movups %xmm1, 72(%rdx)
	movaps 1664(%rsp), %xmm0
	movups %xmm0, 88(%rdx)
	leaq 128(%rdx), %rdi
	movups %xmm1, 104(%rdx)
	movq $0, 120(%rdx)
	leaq 1904(%rsp), %rsi
	movq %rdx, %rbx
	movl $144, %edx
	callq memcpy@PLT
	xorps %xmm1, %xmm1
	movups %xmm1, 272(%r14)
	movq $0, 288(%r14)
	movaps 1648(%rsp), %xmm0
	movups %xmm0, 296(%r14)
	addq $336, %rbx
	movups %xmm1, 312(%r14)
	movq $0, 328(%r14)
	leaq 1760(%rsp), %rsi
	movl $144, %edx
	movq %rbx, %rdi
	callq memcpy@PLT
	movq 872(%rsp), %rax
	movq $1, (%rax)
	movq %r14, 8(%rax)
	xorl %ebx, %ebx
	jmp .LBB69_159
.LBB69_133:
	movq %r15, 2616(%rsp)
	leaq 2624(%rsp), %rdi
	movl $280, %edx
	movq %r14, %rsi
	callq memcpy@PLT
	leaq 2616(%rsp), %rdi
	callq tag_c.pool_state.PoolState.drop
	testq %rbp, %rbp
	je .LBB69_140
	leaq 272(%r13), %r14
	jmp .LBB69_135
	.p2align 4
.LBB69_139:
	addq $424, %r14
	decq %rbp
	je .LBB69_140
.LBB69_135:
	movq -16(%r14), %rbx
	movq (%r14), %r15
	cmpq $0, -208(%r14)
	je .LBB69_137
	movq -224(%r14), %rdi
	callq tags_library_dealloc@PLT
.LBB69_137:
	testq %r15, %r15
	je .LBB69_139
	movq %rbx, %rdi
	callq tags_library_dealloc@PLT
	jmp .LBB69_139
.LBB69_140:
	xorl %ebx, %ebx
	cmpq $0, 32(%rsp)
	je .LBB69_155
	movq %r13, %rdi
.LBB69_154:
	callq tags_library_dealloc@PLT
.LBB69_155:
	addl $-21, %ebx
.LBB69_159:
	movl %ebx, %eax
	addq $3192, %rsp
	popq %rbx
	popq %r12
	popq %r13
	popq %r14
	popq %r15
	popq %rbp
	retq
.LBB69_158:
	movq %rbx, %rdi
	callq std_alloc.arc.Arc.drop__f54b87734724c4e0
	movq %r13, 656(%rsp)
	movq %rbp, 664(%rsp)
	movq 32(%rsp), %rax
	movq %rax, 672(%rsp)
	leaq 656(%rsp), %rdi
	callq std_alloc.vec.Vec.drop__639c649e4d903d94
	movl $-21, %ebx
	jmp .LBB69_159
.LBB69_51:
	movq 96(%rsp), %rax
	leaq -1(%rax), %rbx
	cmpq $0, 552(%rsp)
	je .LBB69_53
	movq 376(%rsp), %rdi
	callq tags_library_dealloc@PLT
.LBB69_53:
	cmpq %r13, %rbx
	movq 96(%rsp), %r14
	je .LBB69_59
	subq %r13, %r14
	addq %r14, %r13
	cmpq %r13, %r12
	jae .LBB69_59
	movl $1, %ebx
	jmp .LBB69_56
.LBB69_58:
	incq %rbx
	addq $192, %rbp
	cmpq %rbx, %r14
	je .LBB69_59
.LBB69_56:
	cmpq $0, (%rbp)
	je .LBB69_58
	movq -16(%rbp), %rdi
	callq tags_library_dealloc@PLT
	jmp .LBB69_58
.LBB69_59:
	cmpq $0, 40(%rsp)
	je .LBB69_61
	movq 24(%rsp), %rdi
	callq tags_library_dealloc@PLT
.LBB69_61:
	movq 384(%rsp), %rbx
	movq 392(%rsp), %r12
	movq 400(%rsp), %r15
	testq %r12, %r12
	je .LBB69_68
	leaq 272(%rbx), %r13
	jmp .LBB69_63
.LBB69_67:
	addq $424, %r13
	decq %r12
	je .LBB69_68
.LBB69_63:
	movq -16(%r13), %r14
	movq (%r13), %rbp
	cmpq $0, -208(%r13)
	je .LBB69_65
	movq -224(%r13), %rdi
	callq tags_library_dealloc@PLT
.LBB69_65:
	testq %rbp, %rbp
	je .LBB69_67
	movq %r14, %rdi
	callq tags_library_dealloc@PLT
	jmp .LBB69_67
.LBB69_68:
	testq %r15, %r15
	je .LBB69_70
	movq %rbx, %rdi
	callq tags_library_dealloc@PLT
.LBB69_70:
	movq 144(%rsp), %rdi
	callq tags_library_dealloc@PLT
	movq 136(%rsp), %rdi
	callq tags_library_dealloc@PLT
	cmpq $0, 128(%rsp)
	je .LBB69_80
	movq 120(%rsp), %rdi
	jmp .LBB69_79
.LBB69_40:
	ud2
.Lfunc_end69:
	.size tag_c.pools.open_into, .Lfunc_end69-tag_c.pools.open_into
	.section .text.tag_pool.opens.open_set_i64_core.clone.U64Clone,"ax",@progbits
	.p2align 4
	.type tag_pool.opens.open_set_i64_core.clone.U64Clone,@function
tag_pool.opens.open_set_i64_core.clone.U64Clone:
	pushq %rbp
	pushq %r15
	pushq %r14
	pushq %r13
	pushq %r12
	pushq %rbx
	subq $584, %rsp
	movq %r8, 16(%rsp)
	movl %ecx, %r15d
	movl %edx, %r12d
	movl %esi, %ebp
	movq %rdi, %rbx
	xorps %xmm0, %xmm0
	movaps %xmm0, 384(%rsp)
	movq $0, 400(%rsp)
	movaps %xmm0, 352(%rsp)
	movq $0, 368(%rsp)
	movaps %xmm0, 160(%rsp)
	movq $0, 176(%rsp)
	movaps %xmm0, 96(%rsp)
	movq $0, 112(%rsp)
	movl %esi, %r14d
	testl %esi, %esi
	je .LBB70_4
	leaq (,%r14,8), %r13
	movl $8, %esi
	movq %r13, %rdi
	callq tags_library_alloc@PLT
	testb $1, %al
	je .LBB70_5
	cmpl $1, %ebp
	jne .LBB70_6
	xorl %eax, %eax
	jmp .LBB70_7
.LBB70_4:
	leaq 8(%rsp), %rdx
	xorl %eax, %eax
	jmp .LBB70_8
.LBB70_5:
	movb $1, (%rbx)
	xorps %xmm0, %xmm0
	movups %xmm0, 8(%rbx)
	movups %xmm0, 24(%rbx)
	movups %xmm0, 40(%rbx)
	movups %xmm0, 56(%rbx)
	movups %xmm0, 72(%rbx)
	movups %xmm0, 88(%rbx)
	movups %xmm0, 104(%rbx)
	movups %xmm0, 120(%rbx)
	movq $0, 136(%rbx)
	jmp .LBB70_19
.LBB70_6:
	addq $-8, %r13
	movq %rdx, %rdi
	xorl %esi, %esi
	movq %rdx, 48(%rsp)
	movq %r13, %rdx
	callq memset@PLT
	movq 48(%rsp), %rdx
	leaq -1(%r14), %rax
.LBB70_7:
	xorps %xmm0, %xmm0
	movq $0, (%rdx,%rax,8)
	incq %rax
.LBB70_8:
	movaps %xmm0, 416(%rsp)
	movq $0, 432(%rsp)
	movaps %xmm0, 128(%rsp)
	movq $0, 144(%rsp)
	leal -65(%r15), %ecx
	cmpl $-65, %ecx
	jbe .LBB70_14
	movabsq $281474976710657, %rcx
	cmpq %rcx, 16(%rsp)
	jae .LBB70_14
	cmpq %r14, %rax
	jne .LBB70_14
	shlq $32, %r12
	orq %r14, %r12
	movaps %xmm0, 208(%rsp)
	movaps %xmm0, 224(%rsp)
	movaps %xmm0, 240(%rsp)
	movaps %xmm0, 256(%rsp)
	movaps %xmm0, 272(%rsp)
	movaps %xmm0, 288(%rsp)
	movaps %xmm0, 304(%rsp)
	movq $0, 320(%rsp)
	movaps %xmm0, 544(%rsp)
	movups %xmm0, 559(%rsp)
	movq %r12, 328(%rsp)
	movl %r15d, 336(%rsp)
	movl $0, 340(%rsp)
	movq 16(%rsp), %rax
	movq %rax, 344(%rsp)
	movq %rdx, 472(%rsp)
	movq %r14, 480(%rsp)
	movq %r14, 488(%rsp)
	leaq 208(%rsp), %rdi
	leaq 328(%rsp), %rsi
	leaq 472(%rsp), %rdx
	callq tag_core.opens.new_map_i64_tag_pool.Destruct_none_i64
	cmpb $0, 208(%rsp)
	je .LBB70_20
	cmpq $0, 232(%rsp)
	je .LBB70_17
	movq 216(%rsp), %rdi
	jmp .LBB70_16
.LBB70_14:
	testl %ebp, %ebp
	je .LBB70_17
	movq %rdx, %rdi
.LBB70_16:
	callq tags_library_dealloc@PLT
.LBB70_17:
	movb $1, (%rbx)
	movq $0, 8(%rbx)
	movaps 384(%rsp), %xmm0
	movups %xmm0, 16(%rbx)
	movq 400(%rsp), %rax
	movq %rax, 32(%rbx)
	xorps %xmm0, %xmm0
	movups %xmm0, 40(%rbx)
	movups %xmm0, 56(%rbx)
	movups %xmm0, 72(%rbx)
	movups %xmm0, 88(%rbx)
	movups %xmm0, 104(%rbx)
	movaps 352(%rsp), %xmm0
	movups %xmm0, 120(%rbx)
	movq 368(%rsp), %rax
.LBB70_18:
	movq %rax, 136(%rbx)
.LBB70_19:
	addq $584, %rsp
	popq %rbx
	popq %r12
	popq %r13
	popq %r14
	popq %r15
	popq %rbp
	retq
.LBB70_20:
	movq 216(%rsp), %rax
	movq %rax, 48(%rsp)
	movaps 224(%rsp), %xmm0
	movaps %xmm0, 448(%rsp)
	movq 240(%rsp), %rax
	movq %rax, 464(%rsp)
	movq 248(%rsp), %rax
	movq %rax, 80(%rsp)
	movq 256(%rsp), %rax
	movq %rax, 200(%rsp)
	movq 264(%rsp), %rax
	movq %rax, 88(%rsp)
	movq 280(%rsp), %rax
	movq %rax, 16(%rsp)
	movaps 272(%rsp), %xmm0
	movaps %xmm0, 528(%rsp)
	movsd 288(%rsp), %xmm0
	movaps %xmm0, 512(%rsp)
	movl 288(%rsp), %ecx
	movq 296(%rsp), %rax
	movq %rax, 64(%rsp)
	movq 304(%rsp), %rax
	movq %rax, 72(%rsp)
	movq 320(%rsp), %rax
	movq %rax, 192(%rsp)
	movups 312(%rsp), %xmm0
	movaps %xmm0, 496(%rsp)
	leaq 8(%rsp), %rax
	movq %rax, 24(%rsp)
	xorps %xmm0, %xmm0
	movups %xmm0, 32(%rsp)
	movl %ecx, 12(%rsp)
	testl %ecx, %ecx
	je .LBB70_35
	movq 16(%rsp), %rdx
	movq %rdx, %rcx
	shrq $32, %rcx
	movl $1, %eax
	shll %cl, %eax
	leal (%rdx,%rax), %r13d
	decl %r13d
	shrl %cl, %r13d
	leaq 128(,%r13,8), %rdi
	movl $8, %esi
	callq tags_library_alloc@PLT
	testb $1, %al
	je .LBB70_48
	movq %rdx, %rbp
	movl %r13d, %eax
	shll $4, %eax
	addl $72, %eax
	movl %eax, 60(%rsp)
	testq %r13, %r13
	je .LBB70_29
	decl 12(%rsp)
	xorl %r15d, %r15d
.LBB70_24:
	movq %rbp, %rdi
	xorl %esi, %esi
	leaq (,%r13,8), %rdx
	callq memset@PLT
	movq 48(%rsp), %rax
	movq (%rax), %rax
	movq 32(%rsp), %r12
	cmpq %r12, 40(%rsp)
	je .LBB70_27
.LBB70_25:
	movq 24(%rsp), %r14
	leaq (%r12,%r12,2), %rax
	shlq $6, %rax
	movq 16(%rsp), %rcx
	movq %rcx, (%r14,%rax)
	movl 60(%rsp), %ecx
	movl %ecx, 8(%r14,%rax)
	movl %r15d, 12(%r14,%rax)
	movq 64(%rsp), %rcx
	movq %rcx, 16(%r14,%rax)
	movq %rbp, 24(%r14,%rax)
	movq %r13, 32(%r14,%rax)
	leaq 16(%r13), %rcx
	movq %rcx, 40(%r14,%rax)
	xorps %xmm0, %xmm0
	movups %xmm0, 48(%r14,%rax)
	movups %xmm0, 64(%r14,%rax)
	movups %xmm0, 80(%r14,%rax)
	movups %xmm0, 96(%r14,%rax)
	movups %xmm0, 112(%r14,%rax)
	movups %xmm0, 128(%r14,%rax)
	movups %xmm0, 144(%r14,%rax)
	movups %xmm0, 160(%r14,%rax)
	movups %xmm0, 176(%r14,%rax)
	incq %r12
	movq %r12, 32(%rsp)
	cmpl %r15d, 12(%rsp)
	je .LBB70_35
	movl $8, %esi
	leaq 128(,%r13,8), %rdi
	callq tags_library_alloc@PLT
	movq %rdx, %rbp
	incl %r15d
	testb $1, %al
	jne .LBB70_24
	jmp .LBB70_36
.LBB70_27:
	leaq 24(%rsp), %rdi
	callq std_alloc.vec.Vec.grow_amortized__0722eb07d90de48f
	testb %al, %al
	je .LBB70_41
	movq 32(%rsp), %r12
	jmp .LBB70_25
.LBB70_29:
	decl 12(%rsp)
	xorl %r15d, %r15d
.LBB70_30:
	movq 48(%rsp), %rax
	movq (%rax), %rax
	movq 32(%rsp), %r12
	cmpq %r12, 40(%rsp)
	je .LBB70_33
.LBB70_31:
	movq 24(%rsp), %r14
	leaq (%r12,%r12,2), %rax
	shlq $6, %rax
	movq 16(%rsp), %rcx
	movq %rcx, (%r14,%rax)
	movl 60(%rsp), %ecx
	movl %ecx, 8(%r14,%rax)
	movl %r15d, 12(%r14,%rax)
	movq 64(%rsp), %rcx
	movq %rcx, 16(%r14,%rax)
	movq %rbp, 24(%r14,%rax)
	movq %r13, 32(%r14,%rax)
	leaq 16(%r13), %rcx
	movq %rcx, 40(%r14,%rax)
	xorps %xmm0, %xmm0
	movups %xmm0, 48(%r14,%rax)
	movups %xmm0, 64(%r14,%rax)
	movups %xmm0, 80(%r14,%rax)
	movups %xmm0, 96(%r14,%rax)
	movups %xmm0, 112(%r14,%rax)
	movups %xmm0, 128(%r14,%rax)
	movups %xmm0, 144(%r14,%rax)
	movups %xmm0, 160(%r14,%rax)
	movups %xmm0, 176(%r14,%rax)
	incq %r12
	movq %r12, 32(%rsp)
	cmpl %r15d, 12(%rsp)
	je .LBB70_35
	movl $8, %esi
	leaq 128(,%r13,8), %rdi
	callq tags_library_alloc@PLT
	movq %rdx, %rbp
	incl %r15d
	testb $1, %al
	jne .LBB70_30
	jmp .LBB70_36
.LBB70_33:
	leaq 24(%rsp), %rdi
	callq std_alloc.vec.Vec.grow_amortized__0722eb07d90de48f
	testb %al, %al
	je .LBB70_41
	movq 32(%rsp), %r12
	jmp .LBB70_31
.LBB70_35:
	movq 40(%rsp), %rax
	movq 24(%rsp), %rcx
	movq 32(%rsp), %rdx
	movaps 448(%rsp), %xmm0
	movaps %xmm0, 416(%rsp)
	movq 464(%rsp), %rsi
	movq %rsi, 432(%rsp)
	movq %rcx, 128(%rsp)
	movq %rdx, 136(%rsp)
	movq %rax, 144(%rsp)
	movaps %xmm0, 160(%rsp)
	movq %rsi, 176(%rsp)
	movq 144(%rsp), %rax
	movq %rax, 112(%rsp)
	movq 128(%rsp), %rax
	movq %rax, 96(%rsp)
	movq 136(%rsp), %rax
	movq %rax, 104(%rsp)
	movb $0, (%rbx)
	movq 48(%rsp), %rax
	movq %rax, 8(%rbx)
	movaps 160(%rsp), %xmm0
	movups %xmm0, 16(%rbx)
	movq 176(%rsp), %rax
	movq %rax, 32(%rbx)
	movq 80(%rsp), %rax
	movq %rax, 40(%rbx)
	movq 200(%rsp), %rax
	movq %rax, 48(%rbx)
	movq 88(%rsp), %rax
	movq %rax, 56(%rbx)
	movaps 528(%rsp), %xmm0
	movups %xmm0, 64(%rbx)
	movaps 512(%rsp), %xmm0
	movlps %xmm0, 80(%rbx)
	movq 64(%rsp), %rax
	movq %rax, 88(%rbx)
	movq 72(%rsp), %rax
	movq %rax, 96(%rbx)
	movaps 496(%rsp), %xmm0
	movups %xmm0, 104(%rbx)
	movq 96(%rsp), %rax
	movq %rax, 120(%rbx)
	movq 104(%rsp), %rax
	movq %rax, 128(%rbx)
	movq 112(%rsp), %rax
	jmp .LBB70_18
.LBB70_36:
	movq 40(%rsp), %r15
	testq %r12, %r12
	je .LBB70_46
	leaq 40(%r14), %r13
	jmp .LBB70_39
.LBB70_38:
	addq $192, %r13
	decq %r12
	je .LBB70_46
.LBB70_39:
	cmpq $0, (%r13)
	je .LBB70_38
	movq -16(%r13), %rdi
	callq tags_library_dealloc@PLT
	jmp .LBB70_38
.LBB70_41:
	movq %rbp, %rdi
	callq tags_library_dealloc@PLT
	movq 24(%rsp), %r14
	movq 32(%rsp), %r12
	movq 40(%rsp), %r15
	testq %r12, %r12
	je .LBB70_46
	leaq 40(%r14), %r13
	jmp .LBB70_44
.LBB70_43:
	addq $192, %r13
	decq %r12
	je .LBB70_46
.LBB70_44:
	cmpq $0, (%r13)
	je .LBB70_43
	movq -16(%r13), %rdi
	callq tags_library_dealloc@PLT
	jmp .LBB70_43
.LBB70_46:
	testq %r15, %r15
	je .LBB70_48
	movq %r14, %rdi
	callq tags_library_dealloc@PLT
.LBB70_48:
	movq 80(%rsp), %rdi
	callq tags_library_dealloc@PLT
	movq 88(%rsp), %rdi
	callq tags_library_dealloc@PLT
	cmpq $0, 192(%rsp)
	je .LBB70_17
	movq 72(%rsp), %rdi
	jmp .LBB70_16
.Lfunc_end70:
	.size tag_pool.opens.open_set_i64_core.clone.U64Clone, .Lfunc_end70-tag_pool.opens.open_set_i64_core.clone.U64Clone
	.section .text.tag_core.opens.new_map_i64_tag_pool.Destruct_none_i64,"ax",@progbits
	.p2align 4
	.type tag_core.opens.new_map_i64_tag_pool.Destruct_none_i64,@function
tag_core.opens.new_map_i64_tag_pool.Destruct_none_i64:
	pushq %rbp
	pushq %r15
	pushq %r14
	pushq %r13
	pushq %r12
	pushq %rbx
	subq $104, %rsp
	movq %rdi, %rbx
	movl (%rsi), %r13d
	movl 4(%rsi), %r15d
	movq (%rdx), %rax
	movq %rax, 24(%rsp)
	movq 8(%rdx), %r14
	movq 16(%rdx), %r12
	xorps %xmm0, %xmm0
	movaps %xmm0, 64(%rsp)
	movups 8(%rsi), %xmm0
	movaps %xmm0, 80(%rsp)
	testq %r13, %r13
	je .LBB71_1
	leaq (,%r13,8), %rbp
	movl $8, %esi
	movq %rbp, %rdi
	callq tags_library_alloc@PLT
	testb $1, %al
	je .LBB71_10
	movq %r12, 32(%rsp)
	movq %rdx, 40(%rsp)
	movq %r14, 8(%rsp)
	addq $72, %rbp
	jmp .LBB71_4
.LBB71_1:
	movq %r12, 32(%rsp)
	movq %r14, 8(%rsp)
	leaq 16(%rsp), %rax
	movq %rax, 40(%rsp)
	movl $72, %ebp
.LBB71_4:
	movl $1, %eax
	movl %r15d, %ecx
	shll %cl, %eax
	leal (%rax,%r13), %r14d
	decl %r14d
	movl %r15d, 52(%rsp)
	shrl %cl, %r14d
	shlq $4, %r14
	leaq (%r14,%rbp), %rax
	movq %rax, 56(%rsp)
	leaq (,%rax,8), %r12
	movl $8, %esi
	movq %r12, %rdi
	callq tags_library_alloc@PLT
	testb $1, %al
	je .LBB71_33
	movq %rdx, %r15
	leaq -8(%r12), %rdx
	movq %r15, %rdi
	xorl %esi, %esi
	callq memset@PLT
	movq $0, -8(%r15,%r12)
	movl $8, %esi
	movq %r12, %rdi
	callq tags_library_alloc@PLT
	testb $1, %al
	je .LBB71_37
	movq %rdx, %r12
	movq 8(%rsp), %rax
	leaq (,%rax,8), %rdi
	testq %rdi, %rdi
	js .LBB71_36
	movl $8, %esi
	callq tags_library_alloc@PLT
	testb $1, %al
	je .LBB71_36
	movq %r12, %rax
	subq %r15, %rax
	cmpq $32, %rax
	jae .LBB71_12
	xorl %eax, %eax
	movq 24(%rsp), %rdi
	leaq (%r14,%rbp), %r8
	jmp .LBB71_15
.LBB71_33:
	testl %r13d, %r13d
	je .LBB71_35
	movq 40(%rsp), %rdi
	callq tags_library_dealloc@PLT
.LBB71_35:
	movq $1, (%rbx)
	movq 24(%rsp), %rax
	movq %rax, 8(%rbx)
	movq 8(%rsp), %rax
	movq %rax, 16(%rbx)
	movq 32(%rsp), %rax
	movq %rax, 24(%rbx)
	jmp .LBB71_11
.LBB71_10:
	movq $1, (%rbx)
	movq 24(%rsp), %rax
	movq %rax, 8(%rbx)
	movq %r14, 16(%rbx)
	movq %r12, 24(%rbx)
.LBB71_11:
	xorps %xmm0, %xmm0
	movups %xmm0, 32(%rbx)
	movups %xmm0, 48(%rbx)
	movups %xmm0, 64(%rbx)
	movups %xmm0, 80(%rbx)
	movups %xmm0, 96(%rbx)
	movq $0, 112(%rbx)
	jmp .LBB71_41
.LBB71_36:
	movq %r12, %rdi
	callq tags_library_dealloc@PLT
.LBB71_37:
	movq %r15, %rdi
	callq tags_library_dealloc@PLT
	movl $1, %r14d
	testl %r13d, %r13d
	je .LBB71_38
	movq 40(%rsp), %rdi
	callq tags_library_dealloc@PLT
	xorl %r13d, %r13d
	movq 32(%rsp), %r9
	movq 8(%rsp), %r10
	xorl %r8d, %r8d
	xorl %edi, %edi
	xorl %r11d, %r11d
	xorl %edx, %edx
	xorl %r12d, %r12d
	xorl %eax, %eax
	xorl %ecx, %ecx
	movq 24(%rsp), %rsi
	jmp .LBB71_40
.LBB71_38:
	movq 32(%rsp), %r9
	movq 8(%rsp), %r10
	xorl %r13d, %r13d
	xorl %r8d, %r8d
	xorl %edi, %edi
	xorl %edx, %edx
	xorl %r12d, %r12d
	xorl %eax, %eax
	xorl %ecx, %ecx
	movq 24(%rsp), %rsi
	xorl %r11d, %r11d
	jmp .LBB71_40
.LBB71_12:
	movl %ebp, %ecx
	andl $3, %ecx
	leaq (%r14,%rbp), %r8
	movq %r8, %rax
	subq %rcx, %rax
	movq %rbp, %r9
	andq $-4, %r9
	addq %r14, %r9
	xorl %esi, %esi
	movq 24(%rsp), %rdi
	.p2align 4
.LBB71_13:
	movups (%r15,%rsi,8), %xmm0
	movups 16(%r15,%rsi,8), %xmm1
	movups %xmm0, (%r12,%rsi,8)
	movups %xmm1, 16(%r12,%rsi,8)
	addq $4, %rsi
	cmpq %rsi, %r9
	jne .LBB71_13
	testq %rcx, %rcx
	je .LBB71_20
.LBB71_15:
	addq %rbp, %r14
	subl %eax, %ebp
	movq %rax, %rcx
	andl $3, %ebp
	je .LBB71_18
	movq %rax, %rcx
	.p2align 4
.LBB71_17:
	movq (%r15,%rcx,8), %rsi
	movq %rsi, (%r12,%rcx,8)
	incq %rcx
	decq %rbp
	jne .LBB71_17
.LBB71_18:
	subq %r14, %rax
	cmpq $-4, %rax
	ja .LBB71_20
	.p2align 4
.LBB71_19:
	movq (%r15,%rcx,8), %rax
	movq %rax, (%r12,%rcx,8)
	movq 8(%r15,%rcx,8), %rax
	movq %rax, 8(%r12,%rcx,8)
	movq 16(%r15,%rcx,8), %rax
	movq %rax, 16(%r12,%rcx,8)
	movq 24(%r15,%rcx,8), %rax
	movq %rax, 24(%r12,%rcx,8)
	addq $4, %rcx
	cmpq %rcx, %r8
	jne .LBB71_19
.LBB71_20:
	cmpq $0, 8(%rsp)
	je .LBB71_30
	movq 8(%rsp), %rsi
	cmpq $4, %rsi
	setb %al
	movq %rdi, %rcx
	subq %rdx, %rcx
	cmpq $32, %rcx
	setb %cl
	orb %al, %cl
	movq %rsi, %rax
	jne .LBB71_25
	movq 8(%rsp), %rsi
	movq %rsi, %rcx
	andq $-4, %rcx
	movl %esi, %eax
	andl $3, %eax
	leaq (%rdx,%rsi,8), %r10
	addq $-16, %r10
	leaq (%rdi,%rsi,8), %rsi
	addq $-16, %rsi
	movq %rcx, %r9
	negq %r9
	xorl %r8d, %r8d
	.p2align 4
.LBB71_23:
	movups -16(%rsi,%r8,8), %xmm0
	movups (%rsi,%r8,8), %xmm1
	movups %xmm1, (%r10,%r8,8)
	movups %xmm0, -16(%r10,%r8,8)
	addq $-4, %r8
	cmpq %r8, %r9
	jne .LBB71_23
	cmpq %rcx, 8(%rsp)
	je .LBB71_30
.LBB71_25:
	leaq -1(%rax), %rcx
	movq %rax, %r8
	andq $3, %r8
	je .LBB71_27
	.p2align 4
.LBB71_26:
	movq -8(%rdi,%rax,8), %rsi
	movq %rsi, -8(%rdx,%rax,8)
	decq %rax
	decq %r8
	jne .LBB71_26
.LBB71_27:
	cmpq $3, %rcx
	jb .LBB71_30
	movq %rax, %rcx
	.p2align 4
.LBB71_29:
	movq -8(%rdi,%rax,8), %rsi
	movq %rsi, -8(%rdx,%rax,8)
	movq -16(%rdi,%rax,8), %rsi
	movq %rsi, -16(%rdx,%rax,8)
	movq -24(%rdi,%rax,8), %rsi
	movq %rsi, -24(%rdx,%rax,8)
	addq $-4, %rcx
	movq -32(%rdi,%rax,8), %rsi
	movq %rsi, -32(%rdx,%rax,8)
	movq %rcx, %rax
	jne .LBB71_29
.LBB71_30:
	movq %rdx, %rbp
	cmpq $0, 32(%rsp)
	je .LBB71_32
	callq tags_library_dealloc@PLT
.LBB71_32:
	movaps 80(%rsp), %xmm0
	movaps %xmm0, 64(%rsp)
	movq %r15, %rdi
	callq tags_library_dealloc@PLT
	xorl %r14d, %r14d
	movq %r12, %rsi
	movq %r13, %r11
	movq 56(%rsp), %r9
	movq %r9, %rax
	movq %rbp, %r10
	movq %rbp, %rcx
	movq 8(%rsp), %rdx
	movq 40(%rsp), %rdi
	movl 52(%rsp), %r8d
.LBB71_40:
	movq %r14, (%rbx)
	movq %rsi, 8(%rbx)
	movq %r10, 16(%rbx)
	movq %r9, 24(%rbx)
	movq %rdx, 32(%rbx)
	movq %r12, 40(%rbx)
	movq %rax, 48(%rbx)
	movq %rcx, 56(%rbx)
	movq %rdx, 64(%rbx)
	movl %r13d, 72(%rbx)
	movl %r8d, 76(%rbx)
	movaps 64(%rsp), %xmm0
	movups %xmm0, 80(%rbx)
	movq %rdi, 96(%rbx)
	movq $0, 104(%rbx)
	movq %r11, 112(%rbx)
.LBB71_41:
	addq $104, %rsp
	popq %rbx
	popq %r12
	popq %r13
	popq %r14
	popq %r15
	popq %rbp
	retq
.Lfunc_end71:
	.size tag_core.opens.new_map_i64_tag_pool.Destruct_none_i64, .Lfunc_end71-tag_core.opens.new_map_i64_tag_pool.Destruct_none_i64
	.section .text.unlikely.std_alloc.vec.Vec.grow_amortized__0722eb07d90de48f,"ax",@progbits
	.p2align 4
	.type std_alloc.vec.Vec.grow_amortized__0722eb07d90de48f,@function
std_alloc.vec.Vec.grow_amortized__0722eb07d90de48f:
	movq 8(%rdi), %rax
	cmpq $-1, %rax
	je .LBB72_5
	pushq %r14
	pushq %rbx
	pushq %rax
	movq 16(%rdi), %rcx
	cmpq $4, %rax
	movl $3, %ebx
	cmovaeq %rax, %rbx
	incq %rbx
	movq %rcx, %rsi
	shrq $62, %rsi
	leaq (%rcx,%rcx), %rdx
	cmpq %rdx, %rbx
	cmovaq %rbx, %rdx
	testq %rsi, %rsi
	cmoveq %rdx, %rbx
	movabsq $48038396025285290, %rsi
	cmpq %rsi, %rbx
	ja .LBB72_6
	testq %rcx, %rcx
	je .LBB72_8
	movq %rdi, %r14
	movq (%rdi), %rdi
	shlq $6, %rax
	leaq (%rax,%rax,2), %rsi
	movq %rbx, %rax
	shlq $6, %rax
	leaq (%rax,%rax,2), %rdx
	movl $8, %ecx
	callq tags_library_realloc@PLT
	testb $1, %al
	je .LBB72_6
.LBB72_9:
	movq %rdx, (%r14)
	movq %rbx, 16(%r14)
	movb $1, %al
	addq $8, %rsp
	popq %rbx
	popq %r14
	retq
.LBB72_5:
	xorl %eax, %eax
	retq
.LBB72_8:
	movq %rdi, %r14
	shlq $6, %rdx
	leaq (%rdx,%rdx,2), %rdi
	movl $8, %esi
	callq tags_library_alloc@PLT
	testb $1, %al
	jne .LBB72_9
.LBB72_6:
	xorl %eax, %eax
	addq $8, %rsp
	popq %rbx
	popq %r14
	retq
.Lfunc_end72:
	.size std_alloc.vec.Vec.grow_amortized__0722eb07d90de48f, .Lfunc_end72-std_alloc.vec.Vec.grow_amortized__0722eb07d90de48f
	.section .text.std_alloc.vec.Vec.drop__03ae1f740aa33a8c,"ax",@progbits
	.p2align 4
	.type std_alloc.vec.Vec.drop__03ae1f740aa33a8c,@function
std_alloc.vec.Vec.drop__03ae1f740aa33a8c:
	pushq %r15
	pushq %r14
	pushq %r12
	pushq %rbx
	pushq %rax
	movq (%rdi), %rbx
	movq 8(%rdi), %r15
	movq 16(%rdi), %r14
	testq %r15, %r15
	je .LBB73_5
	leaq 40(%rbx), %r12
	jmp .LBB73_2
	.p2align 4
.LBB73_4:
	addq $192, %r12
	decq %r15
	je .LBB73_5
.LBB73_2:
	cmpq $0, (%r12)
	je .LBB73_4
	movq -16(%r12), %rdi
	callq tags_library_dealloc@PLT
	jmp .LBB73_4
.LBB73_5:
	testq %r14, %r14
	je .LBB73_6
	movq %rbx, %rdi
	addq $8, %rsp
	popq %rbx
	popq %r12
	popq %r14
	popq %r15
	jmp tags_library_dealloc@PLT
.LBB73_6:
	addq $8, %rsp
	popq %rbx
	popq %r12
	popq %r14
	popq %r15
	retq
.Lfunc_end73:
	.size std_alloc.vec.Vec.drop__03ae1f740aa33a8c, .Lfunc_end73-std_alloc.vec.Vec.drop__03ae1f740aa33a8c
	.section .text.unlikely.std_alloc.vec.Vec.grow_amortized__1e708b5270e38172,"ax",@progbits
	.p2align 4
	.type std_alloc.vec.Vec.grow_amortized__1e708b5270e38172,@function
std_alloc.vec.Vec.grow_amortized__1e708b5270e38172:
	movq 8(%rdi), %rax
	cmpq $-1, %rax
	je .LBB74_5
	pushq %r14
	pushq %rbx
	pushq %rax
	movq 16(%rdi), %rcx
	cmpq $4, %rax
	movl $3, %ebx
	cmovaeq %rax, %rbx
	incq %rbx
	movq %rcx, %rsi
	shrq $62, %rsi
	leaq (%rcx,%rcx), %rdx
	cmpq %rdx, %rbx
	cmovaq %rbx, %rdx
	testq %rsi, %rsi
	cmoveq %rdx, %rbx
	movabsq $21753235935978244, %rsi
	cmpq %rsi, %rbx
	ja .LBB74_6
	testq %rcx, %rcx
	je .LBB74_8
	movq %rdi, %r14
	movq (%rdi), %rdi
	imulq $424, %rax, %rsi
	imulq $424, %rbx, %rdx
	movl $8, %ecx
	callq tags_library_realloc@PLT
	testb $1, %al
	je .LBB74_6
.LBB74_9:
	movq %rdx, (%r14)
	movq %rbx, 16(%r14)
	movb $1, %al
	addq $8, %rsp
	popq %rbx
	popq %r14
	retq
.LBB74_5:
	xorl %eax, %eax
	retq
.LBB74_8:
	movq %rdi, %r14
	imulq $424, %rdx, %rdi
	movl $8, %esi
	callq tags_library_alloc@PLT
	testb $1, %al
	jne .LBB74_9
.LBB74_6:
	xorl %eax, %eax
	addq $8, %rsp
	popq %rbx
	popq %r14
	retq
.Lfunc_end74:
	.size std_alloc.vec.Vec.grow_amortized__1e708b5270e38172, .Lfunc_end74-std_alloc.vec.Vec.grow_amortized__1e708b5270e38172
	.section .text.tag_c.pool_state.PoolState.with_cells,"ax",@progbits
	.p2align 4
	.type tag_c.pool_state.PoolState.with_cells,@function
tag_c.pool_state.PoolState.with_cells:
	pushq %rbp
	pushq %r15
	pushq %r14
	pushq %r13
	pushq %r12
	pushq %rbx
	subq $296, %rsp
	movl %r9d, %ebp
	movl %r8d, %r13d
	movl %ecx, 36(%rsp)
	movl %edx, 32(%rsp)
	movq %rdi, %rbx
	movq 352(%rsp), %r14
	movq 360(%rsp), %r12
	leaq 48(%rsp), %rdi
	movl $248, %edx
	callq memcpy@PLT
	movq (%r12), %rax
	movq %rax, 16(%rsp)
	movq 8(%r12), %r15
	movq 16(%r12), %rax
	movq %rax, 40(%rsp)
	testq %r14, %r14
	je .LBB75_8
	movl %r14d, %r12d
	andl $3, %r12d
	cmpq $4, %r14
	movl %r13d, 12(%rsp)
	jb .LBB75_5
	movl %ebp, 28(%rsp)
	imulq $440, %r15, %r13
	addq 16(%rsp), %r13
	andq $-4, %r14
	negq %r14
	xorl %ebp, %ebp
	.p2align 4
.LBB75_3:
	movl $440, %edx
	movq %r13, %rdi
	xorl %esi, %esi
	callq memset@PLT
	leaq 440(%r13), %rdi
	movl $440, %edx
	xorl %esi, %esi
	callq memset@PLT
	leaq 880(%r13), %rdi
	movl $440, %edx
	xorl %esi, %esi
	callq memset@PLT
	leaq 1320(%r13), %rdi
	movl $440, %edx
	xorl %esi, %esi
	callq memset@PLT
	addq $1760, %r13
	addq $-4, %rbp
	cmpq %rbp, %r14
	jne .LBB75_3
	subq %rbp, %r15
	testq %r12, %r12
	movl 28(%rsp), %ebp
	movl 12(%rsp), %r13d
	je .LBB75_8
.LBB75_5:
	imulq $440, %r15, %r13
	addq 16(%rsp), %r13
	negq %r12
	xorl %r14d, %r14d
	.p2align 4
.LBB75_6:
	movl $440, %edx
	movq %r13, %rdi
	xorl %esi, %esi
	callq memset@PLT
	decq %r14
	addq $440, %r13
	cmpq %r14, %r12
	jne .LBB75_6
	subq %r14, %r15
	movl 12(%rsp), %r13d
.LBB75_8:
	leaq 48(%rsp), %rsi
	movl $248, %edx
	movq %rbx, %rdi
	callq memcpy@PLT
	movl 32(%rsp), %eax
	movl %eax, 248(%rbx)
	movl 36(%rsp), %eax
	movl %eax, 252(%rbx)
	movl %r13d, 256(%rbx)
	movb %bpl, 260(%rbx)
	movw $0, 261(%rbx)
	movb $0, 263(%rbx)
	movq 16(%rsp), %rax
	movq %rax, 264(%rbx)
	movq %r15, 272(%rbx)
	movq 40(%rsp), %rax
	movq %rax, 280(%rbx)
	addq $296, %rsp
	popq %rbx
	popq %r12
	popq %r13
	popq %r14
	popq %r15
	popq %rbp
	retq
.Lfunc_end75:
	.size tag_c.pool_state.PoolState.with_cells, .Lfunc_end75-tag_c.pool_state.PoolState.with_cells
	.section .text.core.slice.edits.mirror_tag_pool.hand.Hand_i64,"ax",@progbits
	.p2align 4
	.type core.slice.edits.mirror_tag_pool.hand.Hand_i64,@function
core.slice.edits.mirror_tag_pool.hand.Hand_i64:
	pushq %r15
	pushq %r14
	pushq %r12
	pushq %rbx
	subq $424, %rsp
	movq %rdx, %rbx
	movq %rdi, %r14
	imulq $424, %rdx, %rax
	leaq (%rax,%rsi), %r15
	addq $-424, %r15
	.p2align 4
.LBB76_1:
	movq %rsp, %r12
	movl $424, %edx
	movq %r12, %rdi
	movq %r14, %rsi
	callq memcpy@PLT
	movl $424, %edx
	movq %r14, %rdi
	movq %r15, %rsi
	callq memmove@PLT
	movl $424, %edx
	movq %r15, %rdi
	movq %r12, %rsi
	callq memcpy@PLT
	addq $424, %r14
	addq $-424, %r15
	decq %rbx
	jne .LBB76_1
	addq $424, %rsp
	popq %rbx
	popq %r12
	popq %r14
	popq %r15
	retq
.Lfunc_end76:
	.size core.slice.edits.mirror_tag_pool.hand.Hand_i64, .Lfunc_end76-core.slice.edits.mirror_tag_pool.hand.Hand_i64
	.section .text.tag_pool.usage.usage_of_rest_i64,"ax",@progbits
	.p2align 4
	.type tag_pool.usage.usage_of_rest_i64,@function
tag_pool.usage.usage_of_rest_i64:
	pushq %rbp
	pushq %r15
	pushq %r14
	pushq %r13
	pushq %r12
	pushq %rbx
	subq $1976, %rsp
	movq %rcx, %r14
	movq %rdx, %r12
	movq %rsi, %r15
	movq %rdi, %rbx
	leaq 1128(%rsp), %rdi
	movl $424, %edx
	xorl %esi, %esi
	callq memset@PLT
	xorps %xmm0, %xmm0
	movaps %xmm0, 48(%rsp)
	movq $0, 64(%rsp)
	movaps %xmm0, 336(%rsp)
	movaps %xmm0, 352(%rsp)
	movaps %xmm0, 368(%rsp)
	movaps %xmm0, 384(%rsp)
	movaps %xmm0, 400(%rsp)
	movaps %xmm0, 416(%rsp)
	movaps %xmm0, 432(%rsp)
	movaps %xmm0, 448(%rsp)
	movaps %xmm0, 16(%rsp)
	movq $0, 32(%rsp)
	movaps %xmm0, 208(%rsp)
	movaps %xmm0, 224(%rsp)
	movaps %xmm0, 240(%rsp)
	movaps %xmm0, 256(%rsp)
	movaps %xmm0, 272(%rsp)
	movaps %xmm0, 288(%rsp)
	movaps %xmm0, 304(%rsp)
	movaps %xmm0, 320(%rsp)
	leaq 1552(%rsp), %rdi
	movl $424, %edx
	xorl %esi, %esi
	callq memset@PLT
	xorps %xmm0, %xmm0
	movaps %xmm0, 784(%rsp)
	movaps %xmm0, 800(%rsp)
	movaps %xmm0, 816(%rsp)
	movaps %xmm0, 832(%rsp)
	movaps %xmm0, 848(%rsp)
	movups (%r12), %xmm0
	movups 16(%r12), %xmm1
	movups 32(%r12), %xmm2
	movaps %xmm2, 192(%rsp)
	movaps %xmm1, 176(%rsp)
	movaps %xmm0, 160(%rsp)
	movq 8(%r14), %rax
	testq %rax, %rax
	je .LBB77_3
	decq %rax
	movq %rax, 8(%r14)
	imulq $424, %rax, %rsi
	addq (%r14), %rsi
	leaq 1552(%rsp), %r12
	movl $424, %edx
	movq %r12, %rdi
	callq memcpy@PLT
	leaq 1128(%rsp), %rdi
	leaq 160(%rsp), %r13
	movq %r13, %rsi
	movq %r15, %rdx
	movq %r12, %rcx
	callq tag_pool.gather.together.Together.lend_i64
	leaq 784(%rsp), %rdi
	movq %r15, %rsi
	movq %r13, %rdx
	movq %r14, %rcx
	callq tag_pool.usage.usage_of_rest_i64
	movq 848(%rsp), %rax
	movq %rax, 152(%rsp)
	movq 856(%rsp), %r11
	movl 1128(%rsp), %r9d
	movq 1136(%rsp), %r13
	movl 1144(%rsp), %ebp
	movl 1152(%rsp), %r12d
	movl 1156(%rsp), %ecx
	movl 1160(%rsp), %eax
	movl %eax, 8(%rsp)
	movq 1168(%rsp), %rax
	movq %rax, 136(%rsp)
	movq 1344(%rsp), %rax
	movq %rax, 144(%rsp)
	movl 1352(%rsp), %eax
	movl %eax, 12(%rsp)
	movl 1360(%rsp), %edi
	movq 1192(%rsp), %rax
	movq %rax, 768(%rsp)
	movq 1400(%rsp), %rax
	movq %rax, 736(%rsp)
	movl 1364(%rsp), %eax
	xorps %xmm4, %xmm4
	movaps %xmm4, 80(%rsp)
	movq $0, 96(%rsp)
	movaps %xmm4, 464(%rsp)
	movaps %xmm4, 480(%rsp)
	movaps %xmm4, 496(%rsp)
	movaps %xmm4, 512(%rsp)
	movaps %xmm4, 528(%rsp)
	movaps %xmm4, 544(%rsp)
	movaps %xmm4, 560(%rsp)
	movaps %xmm4, 576(%rsp)
	movups 1176(%rsp), %xmm0
	movaps %xmm0, 752(%rsp)
	movups 1328(%rsp), %xmm0
	movaps %xmm0, 1104(%rsp)
	movups 1312(%rsp), %xmm0
	movaps %xmm0, 1088(%rsp)
	movups 1296(%rsp), %xmm0
	movaps %xmm0, 1072(%rsp)
	movups 1280(%rsp), %xmm0
	movaps %xmm0, 1056(%rsp)
	movups 1216(%rsp), %xmm0
	movups 1232(%rsp), %xmm1
	movups 1248(%rsp), %xmm2
	movups 1264(%rsp), %xmm3
	movaps %xmm3, 1040(%rsp)
	movaps %xmm2, 1024(%rsp)
	movaps %xmm1, 1008(%rsp)
	movaps %xmm0, 992(%rsp)
	movups 1384(%rsp), %xmm0
	movaps %xmm0, 720(%rsp)
	movups 1536(%rsp), %xmm0
	movaps %xmm0, 976(%rsp)
	movups 1520(%rsp), %xmm0
	movaps %xmm0, 960(%rsp)
	movups 1504(%rsp), %xmm0
	movaps %xmm0, 944(%rsp)
	movups 1488(%rsp), %xmm0
	movaps %xmm0, 928(%rsp)
	movups 1424(%rsp), %xmm0
	movups 1440(%rsp), %xmm1
	movups 1456(%rsp), %xmm2
	movups 1472(%rsp), %xmm3
	movaps %xmm3, 912(%rsp)
	movaps %xmm2, 896(%rsp)
	movaps %xmm1, 880(%rsp)
	movaps %xmm0, 864(%rsp)
	movaps %xmm4, 112(%rsp)
	movq $0, 128(%rsp)
	movaps %xmm4, 592(%rsp)
	movaps %xmm4, 608(%rsp)
	movaps %xmm4, 624(%rsp)
	movaps %xmm4, 640(%rsp)
	movaps %xmm4, 656(%rsp)
	movaps %xmm4, 672(%rsp)
	movaps %xmm4, 688(%rsp)
	movaps %xmm4, 704(%rsp)
	movl 1368(%rsp), %edx
	movq 1376(%rsp), %rsi
	movq (%r15), %r8
	movups 1200(%rsp), %xmm5
	movups 1408(%rsp), %xmm4
	movaps 784(%rsp), %xmm0
	movaps 800(%rsp), %xmm1
	movaps 816(%rsp), %xmm2
	movaps 832(%rsp), %xmm3
	movq (%r8), %r8
	movq (%r15), %r8
	movq (%r8), %r8
	movq 768(%rsp), %r8
	movq %r8, 128(%rsp)
	movq 128(%rsp), %r8
	movq %r8, 96(%rsp)
	movaps 752(%rsp), %xmm6
	movaps %xmm6, 112(%rsp)
	movaps 992(%rsp), %xmm6
	movaps 1008(%rsp), %xmm7
	movaps 1024(%rsp), %xmm8
	movaps 1040(%rsp), %xmm9
	movaps %xmm6, 592(%rsp)
	movaps %xmm7, 608(%rsp)
	movaps %xmm8, 624(%rsp)
	movaps %xmm9, 640(%rsp)
	movaps 1056(%rsp), %xmm6
	movaps %xmm6, 656(%rsp)
	movaps 1072(%rsp), %xmm6
	movaps %xmm6, 672(%rsp)
	movaps 1088(%rsp), %xmm6
	movaps %xmm6, 688(%rsp)
	movaps 1104(%rsp), %xmm6
	movaps %xmm6, 704(%rsp)
	movaps 112(%rsp), %xmm6
	movaps %xmm6, 80(%rsp)
	movaps 704(%rsp), %xmm6
	movaps %xmm6, 576(%rsp)
	movaps 688(%rsp), %xmm6
	movaps %xmm6, 560(%rsp)
	movaps 672(%rsp), %xmm6
	movaps %xmm6, 544(%rsp)
	movaps 656(%rsp), %xmm6
	movaps %xmm6, 528(%rsp)
	movaps 592(%rsp), %xmm6
	movaps 608(%rsp), %xmm7
	movaps 624(%rsp), %xmm8
	movaps 640(%rsp), %xmm9
	movaps %xmm9, 512(%rsp)
	movaps %xmm8, 496(%rsp)
	movaps %xmm7, 480(%rsp)
	movaps %xmm6, 464(%rsp)
	movq 112(%r15), %r8
	movq (%r8), %r8
	movq 112(%r15), %r8
	movq (%r8), %r8
	movq 96(%rsp), %r8
	movq %r8, 64(%rsp)
	movq 736(%rsp), %r8
	movq %r8, 32(%rsp)
	movaps 80(%rsp), %xmm6
	movaps %xmm6, 48(%rsp)
	movaps 464(%rsp), %xmm6
	movaps 480(%rsp), %xmm7
	movaps 496(%rsp), %xmm8
	movaps 512(%rsp), %xmm9
	movaps %xmm6, 336(%rsp)
	movaps %xmm7, 352(%rsp)
	movaps %xmm8, 368(%rsp)
	movaps %xmm9, 384(%rsp)
	movaps 528(%rsp), %xmm6
	movaps %xmm6, 400(%rsp)
	movaps 544(%rsp), %xmm6
	movaps %xmm6, 416(%rsp)
	movaps 560(%rsp), %xmm6
	movaps %xmm6, 432(%rsp)
	movaps 576(%rsp), %xmm6
	movaps %xmm6, 448(%rsp)
	movaps 720(%rsp), %xmm6
	movaps %xmm6, 16(%rsp)
	movaps 976(%rsp), %xmm6
	movaps %xmm6, 320(%rsp)
	movaps 960(%rsp), %xmm6
	movaps %xmm6, 304(%rsp)
	movaps 944(%rsp), %xmm6
	movaps %xmm6, 288(%rsp)
	movaps 928(%rsp), %xmm6
	movaps %xmm6, 272(%rsp)
	movaps 864(%rsp), %xmm6
	movaps 880(%rsp), %xmm7
	movaps 896(%rsp), %xmm8
	movaps 912(%rsp), %xmm9
	movaps %xmm9, 256(%rsp)
	movaps %xmm8, 240(%rsp)
	movaps %xmm7, 224(%rsp)
	movaps %xmm6, 208(%rsp)
	movq (%r14), %r8
	movq 8(%r14), %r15
	imulq $424, %r15, %r10
	movl %r9d, (%r8,%r10)
	movl $1, %r9d
	shll %cl, %r9d
	movl $0, 4(%r8,%r10)
	movq %r13, 8(%r8,%r10)
	movl %ebp, 16(%r8,%r10)
	addl %r12d, %r9d
	decl %r9d
	shrl %cl, %r9d
	movl $0, 20(%r8,%r10)
	movl %r12d, 24(%r8,%r10)
	movl %ecx, 28(%r8,%r10)
	shll $4, %r9d
	addl $72, %r9d
	movl %r9d, 32(%r8,%r10)
	movl 8(%rsp), %ecx
	movl %ecx, 36(%r8,%r10)
	movq 136(%rsp), %rcx
	movq %rcx, 40(%r8,%r10)
	movaps 48(%rsp), %xmm6
	movups %xmm6, 48(%r8,%r10)
	movq 64(%rsp), %rcx
	movq %rcx, 64(%r8,%r10)
	movups %xmm5, 72(%r8,%r10)
	movaps 336(%rsp), %xmm5
	movaps 352(%rsp), %xmm6
	movaps 368(%rsp), %xmm7
	movaps 384(%rsp), %xmm8
	movups %xmm5, 88(%r8,%r10)
	movups %xmm6, 104(%r8,%r10)
	movups %xmm7, 120(%r8,%r10)
	movups %xmm8, 136(%r8,%r10)
	movaps 400(%rsp), %xmm5
	movups %xmm5, 152(%r8,%r10)
	movaps 416(%rsp), %xmm5
	movups %xmm5, 168(%r8,%r10)
	movaps 432(%rsp), %xmm5
	movups %xmm5, 184(%r8,%r10)
	movaps 448(%rsp), %xmm5
	movups %xmm5, 200(%r8,%r10)
	movq 144(%rsp), %rcx
	movq %rcx, 216(%r8,%r10)
	movl 12(%rsp), %ecx
	movl %ecx, 224(%r8,%r10)
	movl $1, %r9d
	movl %eax, %ecx
	shll %cl, %r9d
	addl %edi, %r9d
	decl %r9d
	movl $0, 228(%r8,%r10)
	movl %edi, 232(%r8,%r10)
	movl %eax, 236(%r8,%r10)
	shrl %cl, %r9d
	shll $4, %r9d
	addl $72, %r9d
	movl %r9d, 240(%r8,%r10)
	movl %edx, 244(%r8,%r10)
	movq %rsi, 248(%r8,%r10)
	movaps 16(%rsp), %xmm5
	movups %xmm5, 256(%r8,%r10)
	movq 32(%rsp), %rax
	movq %rax, 272(%r8,%r10)
	movups %xmm4, 280(%r8,%r10)
	movaps 320(%rsp), %xmm4
	movups %xmm4, 408(%r8,%r10)
	movaps 304(%rsp), %xmm4
	movups %xmm4, 392(%r8,%r10)
	movaps 288(%rsp), %xmm4
	movups %xmm4, 376(%r8,%r10)
	movaps 272(%rsp), %xmm4
	movups %xmm4, 360(%r8,%r10)
	movaps 208(%rsp), %xmm4
	movaps 224(%rsp), %xmm5
	movaps 240(%rsp), %xmm6
	movaps 256(%rsp), %xmm7
	movups %xmm7, 344(%r8,%r10)
	movups %xmm6, 328(%r8,%r10)
	movups %xmm5, 312(%r8,%r10)
	movups %xmm4, 296(%r8,%r10)
	incq %r15
	movq %r15, 8(%r14)
	movups %xmm0, (%rbx)
	movups %xmm1, 16(%rbx)
	movups %xmm2, 32(%rbx)
	movups %xmm3, 48(%rbx)
	movq 152(%rsp), %rax
	jmp .LBB77_2
.LBB77_3:
	movq 160(%rsp), %rsi
	movq 168(%rsp), %rdi
	movq 176(%rsp), %r8
	movq 184(%rsp), %rax
	movq 192(%rsp), %rcx
	movq 200(%rsp), %rdx
	movq (%r15), %r9
	movq 8(%r9), %r9
	movq (%r15), %r10
	movq (%r10), %r10
	leaq (%rdi,%r8), %r10
	movq 112(%r15), %r11
	movq 8(%r11), %r11
	movq 112(%r15), %r14
	movq (%r14), %r14
	movq %rsi, (%rbx)
	subq %r10, %rsi
	leaq (%rcx,%rdx), %r10
	movq %rdi, 8(%rbx)
	movq %r8, 16(%rbx)
	movq %rsi, 24(%rbx)
	movq %r9, 32(%rbx)
	movq %rax, 40(%rbx)
	subq %r10, %rax
	movq %rcx, 48(%rbx)
	movq %rdx, 56(%rbx)
.LBB77_2:
	movq %rax, 64(%rbx)
	movq %r11, 72(%rbx)
	addq $1976, %rsp
	popq %rbx
	popq %r12
	popq %r13
	popq %r14
	popq %r15
	popq %rbp
	retq
.Lfunc_end77:
	.size tag_pool.usage.usage_of_rest_i64, .Lfunc_end77-tag_pool.usage.usage_of_rest_i64
	.section .rodata.cst16,"aM",@progbits,16
	.p2align 4, 0x0
.LCPI78_0:
	.zero 16,85
.LCPI78_1:
	.zero 16,51
.LCPI78_2:
	.zero 16,15
	.section .text.tag_pool.gather.together.Together.lend_i64,"ax",@progbits
	.p2align 4
	.type tag_pool.gather.together.Together.lend_i64,@function
tag_pool.gather.together.Together.lend_i64:
	pushq %rbp
	pushq %r15
	pushq %r14
	pushq %r13
	pushq %r12
	pushq %rbx
	subq $856, %rsp
	movl (%rcx), %eax
	movl %eax, -112(%rsp)
	movq 8(%rcx), %rax
	movq %rax, 160(%rsp)
	movl 16(%rcx), %eax
	movl %eax, -108(%rsp)
	movq 24(%rcx), %rax
	movq %rax, 168(%rsp)
	movl 36(%rcx), %eax
	movl %eax, -104(%rsp)
	movq 40(%rcx), %rax
	movq %rax, 176(%rsp)
	movq 48(%rcx), %r15
	movups 56(%rcx), %xmm2
	movq 56(%rcx), %rbp
	movdqu 72(%rcx), %xmm3
	movq 216(%rcx), %r12
	movl 224(%rcx), %eax
	movl %eax, -116(%rsp)
	movq 232(%rcx), %r8
	movups 264(%rcx), %xmm0
	movdqu 280(%rcx), %xmm1
	pxor %xmm4, %xmm4
	movl 244(%rcx), %eax
	movl %eax, -100(%rsp)
	movq 248(%rcx), %r13
	movq 256(%rcx), %r11
	movq 264(%rcx), %r9
	movdqa %xmm4, 448(%rsp)
	movdqa %xmm4, 432(%rsp)
	movdqa %xmm4, 416(%rsp)
	movdqa %xmm4, 400(%rsp)
	movdqa %xmm4, 384(%rsp)
	movdqa %xmm4, 368(%rsp)
	movdqa %xmm4, 352(%rsp)
	movdqa %xmm4, 336(%rsp)
	movdqa %xmm4, 208(%rsp)
	movdqa %xmm4, 224(%rsp)
	movdqa %xmm4, 240(%rsp)
	movdqa %xmm4, 256(%rsp)
	movdqa %xmm4, 272(%rsp)
	movdqa %xmm4, 288(%rsp)
	movdqa %xmm4, 304(%rsp)
	movdqa %xmm4, 320(%rsp)
	movups 200(%rcx), %xmm5
	movaps %xmm5, 16(%rsp)
	movups 184(%rcx), %xmm5
	movaps %xmm5, (%rsp)
	movups 168(%rcx), %xmm5
	movaps %xmm5, -16(%rsp)
	movups 152(%rcx), %xmm5
	movaps %xmm5, -32(%rsp)
	movups 88(%rcx), %xmm5
	movups 104(%rcx), %xmm6
	movups 120(%rcx), %xmm7
	movups 136(%rcx), %xmm8
	movaps %xmm8, -48(%rsp)
	movaps %xmm7, -64(%rsp)
	movaps %xmm6, -80(%rsp)
	movaps %xmm5, -96(%rsp)
	movups 408(%rcx), %xmm5
	movaps %xmm5, 576(%rsp)
	movups 392(%rcx), %xmm5
	movaps %xmm5, 560(%rsp)
	movups 376(%rcx), %xmm5
	movaps %xmm5, 544(%rsp)
	movups 360(%rcx), %xmm5
	movaps %xmm5, 528(%rsp)
	movdqu 296(%rcx), %xmm5
	movdqu 312(%rcx), %xmm6
	movdqu 328(%rcx), %xmm7
	movdqu 344(%rcx), %xmm8
	movdqa %xmm8, 512(%rsp)
	movdqa %xmm7, 496(%rsp)
	movdqa %xmm6, 480(%rsp)
	movdqa %xmm5, 464(%rsp)
	movdqa %xmm4, 832(%rsp)
	movdqa %xmm4, 816(%rsp)
	movdqa %xmm4, 800(%rsp)
	movdqa %xmm4, 784(%rsp)
	movdqa %xmm4, 768(%rsp)
	movdqa %xmm4, 752(%rsp)
	movdqa %xmm4, 736(%rsp)
	movdqa %xmm4, 720(%rsp)
	movdqa %xmm4, 32(%rsp)
	movdqa %xmm4, 48(%rsp)
	movdqa %xmm4, 64(%rsp)
	movdqa %xmm4, 80(%rsp)
	movdqa %xmm4, 96(%rsp)
	movdqa %xmm4, 112(%rsp)
	movdqa %xmm4, 128(%rsp)
	movdqa %xmm4, 144(%rsp)
	movdqa %xmm4, 592(%rsp)
	movdqa %xmm4, 608(%rsp)
	movdqa %xmm4, 624(%rsp)
	movdqa %xmm4, 640(%rsp)
	movdqa %xmm4, 656(%rsp)
	movdqa %xmm4, 672(%rsp)
	movdqa %xmm4, 688(%rsp)
	movdqa %xmm4, 704(%rsp)
	movq (%rdx), %rax
	movq (%rax), %rax
	movabsq $6148914691236517205, %rcx
	movabsq $3689348814741910323, %r10
	movabsq $1085102592571150095, %rbx
	movabsq $72340172838076673, %r14
	testq %rbp, %rbp
	movq %r8, 200(%rsp)
	movq %r12, 192(%rsp)
	movq %r13, 184(%rsp)
	je .LBB78_1
	cmpq $4, %rbp
	jae .LBB78_5
	xorl %eax, %eax
	xorl %r12d, %r12d
	jmp .LBB78_4
.LBB78_1:
	xorl %eax, %eax
	jmp .LBB78_9
.LBB78_5:
	movq %rbp, %r12
	andq $-4, %r12
	pxor %xmm6, %xmm6
	xorl %eax, %eax
	pxor %xmm7, %xmm7
	pxor %xmm5, %xmm5
	.p2align 4
.LBB78_6:
	movdqu (%r15,%rax,8), %xmm9
	movdqu 16(%r15,%rax,8), %xmm8
	movdqa %xmm9, %xmm10
	psrlw $1, %xmm10
	movdqa .LCPI78_0(%rip), %xmm11
	pand %xmm11, %xmm10
	psubb %xmm10, %xmm9
	movdqa .LCPI78_1(%rip), %xmm10
	movdqa %xmm9, %xmm12
	pand %xmm10, %xmm12
	psrlw $2, %xmm9
	pand %xmm10, %xmm9
	paddb %xmm12, %xmm9
	movdqa %xmm9, %xmm12
	psrlw $4, %xmm12
	paddb %xmm9, %xmm12
	movdqa .LCPI78_2(%rip), %xmm9
	pand %xmm9, %xmm12
	psadbw %xmm6, %xmm12
	paddq %xmm12, %xmm7
	movdqa %xmm8, %xmm12
	psrlw $1, %xmm12
	pand %xmm11, %xmm12
	psubb %xmm12, %xmm8
	movdqa %xmm8, %xmm11
	pand %xmm10, %xmm11
	psrlw $2, %xmm8
	pand %xmm10, %xmm8
	paddb %xmm11, %xmm8
	movdqa %xmm8, %xmm10
	psrlw $4, %xmm10
	paddb %xmm8, %xmm10
	pand %xmm9, %xmm10
	psadbw %xmm6, %xmm10
	paddq %xmm10, %xmm5
	addq $4, %rax
	cmpq %rax, %r12
	jne .LBB78_6
	paddq %xmm7, %xmm5
	pshufd $238, %xmm5, %xmm6
	paddq %xmm5, %xmm6
	movq %xmm6, %rax
	jmp .LBB78_8
.LBB78_4:
	movq (%r15,%r12,8), %r8
	movq %r8, %r13
	shrq %r13
	andq %rcx, %r13
	subq %r13, %r8
	movq %r8, %r13
	andq %r10, %r13
	shrq $2, %r8
	andq %r10, %r8
	addq %r13, %r8
	movq %r8, %r13
	shrq $4, %r13
	addq %r8, %r13
	andq %rbx, %r13
	imulq %r14, %r13
	shrq $56, %r13
	addq %r13, %rax
	incq %r12
.LBB78_8:
	cmpq %r12, %rbp
	jne .LBB78_4
.LBB78_9:
	movaps 16(%rsp), %xmm5
	movaps %xmm5, 704(%rsp)
	movaps (%rsp), %xmm6
	movaps %xmm6, 688(%rsp)
	movaps -16(%rsp), %xmm7
	movaps %xmm7, 672(%rsp)
	movaps -32(%rsp), %xmm8
	movaps %xmm8, 656(%rsp)
	movaps -96(%rsp), %xmm9
	movaps -80(%rsp), %xmm10
	movaps -64(%rsp), %xmm11
	movaps -48(%rsp), %xmm12
	movaps %xmm12, 640(%rsp)
	movaps %xmm11, 624(%rsp)
	movaps %xmm10, 608(%rsp)
	movaps %xmm9, 592(%rsp)
	movaps %xmm9, 32(%rsp)
	movaps %xmm10, 48(%rsp)
	movaps %xmm11, 64(%rsp)
	movaps %xmm12, 80(%rsp)
	movaps %xmm8, 96(%rsp)
	movaps %xmm7, 112(%rsp)
	movaps %xmm6, 128(%rsp)
	movaps %xmm5, 144(%rsp)
	movq (%rdx), %r8
	movq (%r8), %r8
	movq (%rdx), %r8
	movq (%r8), %r8
	movdqu (%rsi), %xmm5
	paddq %xmm3, %xmm5
	movdqu %xmm5, (%rsi)
	addq %rax, 16(%rsi)
	movdqa 144(%rsp), %xmm5
	movdqa %xmm5, 832(%rsp)
	movdqa 128(%rsp), %xmm6
	movdqa %xmm6, 816(%rsp)
	movdqa 112(%rsp), %xmm7
	movdqa %xmm7, 800(%rsp)
	movdqa 96(%rsp), %xmm8
	movdqa %xmm8, 784(%rsp)
	movdqa 32(%rsp), %xmm9
	movdqa 48(%rsp), %xmm10
	movdqa 64(%rsp), %xmm11
	movaps 80(%rsp), %xmm12
	movdqa %xmm9, 336(%rsp)
	movdqa %xmm10, 352(%rsp)
	movdqa %xmm11, 368(%rsp)
	movaps %xmm12, 384(%rsp)
	movdqa %xmm8, 400(%rsp)
	movdqa %xmm7, 416(%rsp)
	movdqa %xmm6, 432(%rsp)
	movdqa %xmm5, 448(%rsp)
	movdqa %xmm4, 144(%rsp)
	movdqa %xmm4, 128(%rsp)
	movdqa %xmm4, 112(%rsp)
	movdqa %xmm4, 96(%rsp)
	movdqa %xmm4, 80(%rsp)
	movdqa %xmm4, 64(%rsp)
	movdqa %xmm4, 48(%rsp)
	movdqa %xmm4, 32(%rsp)
	movdqa %xmm4, 16(%rsp)
	movdqa %xmm4, (%rsp)
	movdqa %xmm4, -16(%rsp)
	movdqa %xmm4, -32(%rsp)
	movdqa %xmm4, -48(%rsp)
	movdqa %xmm4, -64(%rsp)
	movdqa %xmm4, -80(%rsp)
	movdqa %xmm4, -96(%rsp)
	movq 112(%rdx), %rax
	movq (%rax), %rax
	testq %r9, %r9
	je .LBB78_10
	cmpq $4, %r9
	movl -116(%rsp), %ebp
	jae .LBB78_14
	xorl %eax, %eax
	xorl %r12d, %r12d
	jmp .LBB78_13
.LBB78_10:
	xorl %eax, %eax
	movl -116(%rsp), %ebp
	jmp .LBB78_18
.LBB78_14:
	movq %r9, %r12
	andq $-4, %r12
	pxor %xmm5, %xmm5
	xorl %eax, %eax
	pxor %xmm6, %xmm6
	pxor %xmm4, %xmm4
	.p2align 4
.LBB78_15:
	movdqu (%r11,%rax,8), %xmm8
	movdqu 16(%r11,%rax,8), %xmm7
	movdqa %xmm8, %xmm9
	psrlw $1, %xmm9
	movdqa .LCPI78_0(%rip), %xmm10
	pand %xmm10, %xmm9
	psubb %xmm9, %xmm8
	movdqa .LCPI78_1(%rip), %xmm9
	movdqa %xmm8, %xmm11
	pand %xmm9, %xmm11
	psrlw $2, %xmm8
	pand %xmm9, %xmm8
	paddb %xmm11, %xmm8
	movdqa %xmm8, %xmm11
	psrlw $4, %xmm11
	paddb %xmm8, %xmm11
	movdqa .LCPI78_2(%rip), %xmm8
	pand %xmm8, %xmm11
	psadbw %xmm5, %xmm11
	paddq %xmm11, %xmm6
	movdqa %xmm7, %xmm11
	psrlw $1, %xmm11
	pand %xmm10, %xmm11
	psubb %xmm11, %xmm7
	movdqa %xmm7, %xmm10
	pand %xmm9, %xmm10
	psrlw $2, %xmm7
	pand %xmm9, %xmm7
	paddb %xmm10, %xmm7
	movdqa %xmm7, %xmm9
	psrlw $4, %xmm9
	paddb %xmm7, %xmm9
	pand %xmm8, %xmm9
	psadbw %xmm5, %xmm9
	paddq %xmm9, %xmm4
	addq $4, %rax
	cmpq %rax, %r12
	jne .LBB78_15
	paddq %xmm6, %xmm4
	pshufd $238, %xmm4, %xmm5
	paddq %xmm4, %xmm5
	movq %xmm5, %rax
	jmp .LBB78_17
.LBB78_13:
	movq (%r11,%r12,8), %r8
	movq %r8, %r13
	shrq %r13
	andq %rcx, %r13
	subq %r13, %r8
	movq %r8, %r13
	andq %r10, %r13
	shrq $2, %r8
	andq %r10, %r8
	addq %r13, %r8
	movq %r8, %r13
	shrq $4, %r13
	addq %r8, %r13
	andq %rbx, %r13
	imulq %r14, %r13
	shrq $56, %r13
	addq %r13, %rax
	incq %r12
.LBB78_17:
	cmpq %r12, %r9
	jne .LBB78_13
.LBB78_18:
	movaps 576(%rsp), %xmm4
	movaps %xmm4, 16(%rsp)
	movaps 560(%rsp), %xmm4
	movaps %xmm4, (%rsp)
	movaps 544(%rsp), %xmm4
	movaps %xmm4, -16(%rsp)
	movaps 528(%rsp), %xmm4
	movaps %xmm4, -32(%rsp)
	movaps 464(%rsp), %xmm4
	movaps 480(%rsp), %xmm5
	movaps 496(%rsp), %xmm6
	movaps 512(%rsp), %xmm7
	movaps %xmm7, -48(%rsp)
	movaps %xmm6, -64(%rsp)
	movaps %xmm5, -80(%rsp)
	movaps %xmm4, -96(%rsp)
	movq 112(%rdx), %rcx
	movq (%rcx), %rcx
	movq 112(%rdx), %rcx
	movq (%rcx), %rcx
	movdqu 24(%rsi), %xmm4
	paddq %xmm1, %xmm4
	movdqu %xmm4, 24(%rsi)
	addq %rax, 40(%rsi)
	movaps 16(%rsp), %xmm4
	movaps %xmm4, 144(%rsp)
	movaps (%rsp), %xmm5
	movaps %xmm5, 128(%rsp)
	movaps -16(%rsp), %xmm6
	movaps %xmm6, 112(%rsp)
	movaps -32(%rsp), %xmm7
	movaps %xmm7, 96(%rsp)
	movaps -96(%rsp), %xmm8
	movaps -80(%rsp), %xmm9
	movaps -64(%rsp), %xmm10
	movaps -48(%rsp), %xmm11
	movaps %xmm11, 80(%rsp)
	movaps %xmm8, 208(%rsp)
	movaps %xmm9, 224(%rsp)
	movaps %xmm10, 240(%rsp)
	movaps %xmm11, 256(%rsp)
	movaps %xmm7, 272(%rsp)
	movaps %xmm6, 288(%rsp)
	movaps %xmm5, 304(%rsp)
	movaps %xmm4, 320(%rsp)
	movl -112(%rsp), %eax
	movl %eax, (%rdi)
	movl $0, 4(%rdi)
	movq 160(%rsp), %rax
	movq %rax, 8(%rdi)
	movl -108(%rsp), %eax
	movl %eax, 16(%rdi)
	movl $0, 20(%rdi)
	movq 168(%rsp), %rax
	movq %rax, 24(%rdi)
	movl -104(%rsp), %eax
	movl %eax, 32(%rdi)
	movl $0, 36(%rdi)
	movq 176(%rsp), %rax
	movq %rax, 40(%rdi)
	movq %r15, 48(%rdi)
	movups %xmm2, 56(%rdi)
	movdqu %xmm3, 72(%rdi)
	movaps 336(%rsp), %xmm2
	movaps 352(%rsp), %xmm3
	movaps 368(%rsp), %xmm4
	movaps 384(%rsp), %xmm5
	movups %xmm2, 88(%rdi)
	movups %xmm3, 104(%rdi)
	movups %xmm4, 120(%rdi)
	movups %xmm5, 136(%rdi)
	movaps 400(%rsp), %xmm2
	movups %xmm2, 152(%rdi)
	movaps 416(%rsp), %xmm2
	movups %xmm2, 168(%rdi)
	movaps 432(%rsp), %xmm2
	movups %xmm2, 184(%rdi)
	movaps 448(%rsp), %xmm2
	movups %xmm2, 200(%rdi)
	movq 192(%rsp), %rax
	movq %rax, 216(%rdi)
	movl %ebp, 224(%rdi)
	movl $0, 228(%rdi)
	movq 200(%rsp), %rax
	movq %rax, 232(%rdi)
	movl -100(%rsp), %eax
	movl %eax, 240(%rdi)
	movl $0, 244(%rdi)
	movq 184(%rsp), %rax
	movq %rax, 248(%rdi)
	movq %r11, 256(%rdi)
	movups %xmm0, 264(%rdi)
	movdqu %xmm1, 280(%rdi)
	movaps 320(%rsp), %xmm0
	movups %xmm0, 408(%rdi)
	movaps 304(%rsp), %xmm0
	movups %xmm0, 392(%rdi)
	movaps 288(%rsp), %xmm0
	movups %xmm0, 376(%rdi)
	movaps 272(%rsp), %xmm0
	movups %xmm0, 360(%rdi)
	movaps 208(%rsp), %xmm0
	movaps 224(%rsp), %xmm1
	movaps 240(%rsp), %xmm2
	movaps 256(%rsp), %xmm3
	movups %xmm3, 344(%rdi)
	movups %xmm2, 328(%rdi)
	movups %xmm1, 312(%rdi)
	movups %xmm0, 296(%rdi)
	addq $856, %rsp
	popq %rbx
	popq %r12
	popq %r13
	popq %r14
	popq %r15
	popq %rbp
	retq
.Lfunc_end78:
	.size tag_pool.gather.together.Together.lend_i64, .Lfunc_end78-tag_pool.gather.together.Together.lend_i64
	.section .rodata.cst16,"aM",@progbits,16
	.p2align 4, 0x0
.LCPI79_0:
	.zero 16,85
.LCPI79_1:
	.zero 16,51
.LCPI79_2:
	.zero 16,15
	.section .text.tag_core.settles.settle_rest_i64,"ax",@progbits
	.p2align 4
	.type tag_core.settles.settle_rest_i64,@function
tag_core.settles.settle_rest_i64:
	pushq %rbp
	pushq %r15
	pushq %r14
	pushq %r13
	pushq %r12
	pushq %rbx
	subq $776, %rsp
	movq (%rdx), %rax
	movq 8(%rdx), %r12
	movq 16(%rdx), %rdx
	xorps %xmm0, %xmm0
	movaps %xmm0, 448(%rsp)
	movaps %xmm0, 432(%rsp)
	movaps %xmm0, 416(%rsp)
	movaps %xmm0, 400(%rsp)
	movaps %xmm0, 384(%rsp)
	movaps %xmm0, 368(%rsp)
	movaps %xmm0, 352(%rsp)
	movaps %xmm0, 336(%rsp)
	movaps %xmm0, 208(%rsp)
	movaps %xmm0, 224(%rsp)
	movaps %xmm0, 240(%rsp)
	movaps %xmm0, 256(%rsp)
	movaps %xmm0, 272(%rsp)
	movaps %xmm0, 288(%rsp)
	movaps %xmm0, 304(%rsp)
	movaps %xmm0, 320(%rsp)
	movaps %xmm0, 592(%rsp)
	movaps %xmm0, 608(%rsp)
	movaps %xmm0, 16(%rsp)
	movq $0, 32(%rsp)
	movq 8(%rcx), %r8
	testq %r8, %r8
	je .LBB79_12
	decq %r8
	movq %r8, 8(%rcx)
	movq (%rcx), %r9
	leaq (%r8,%r8,2), %r10
	shlq $6, %r10
	movq (%r9,%r10), %r8
	movq %r8, 184(%rsp)
	movl 12(%r9,%r10), %r11d
	movq 16(%r9,%r10), %r14
	movq 24(%r9,%r10), %r13
	movdqu 32(%r9,%r10), %xmm4
	movq 32(%r9,%r10), %r8
	movq 48(%r9,%r10), %rbx
	movq 56(%r9,%r10), %rbp
	movaps %xmm0, 464(%rsp)
	movaps %xmm0, 480(%rsp)
	movaps %xmm0, 496(%rsp)
	movaps %xmm0, 512(%rsp)
	movaps %xmm0, 528(%rsp)
	movaps %xmm0, 544(%rsp)
	movaps %xmm0, 560(%rsp)
	movaps %xmm0, 576(%rsp)
	movaps %xmm0, 640(%rsp)
	movaps %xmm0, 656(%rsp)
	movaps %xmm0, 672(%rsp)
	movaps %xmm0, 688(%rsp)
	movaps %xmm0, 704(%rsp)
	movaps %xmm0, 720(%rsp)
	movaps %xmm0, 736(%rsp)
	movaps %xmm0, 752(%rsp)
	movups 176(%r9,%r10), %xmm0
	movaps %xmm0, 160(%rsp)
	movups 160(%r9,%r10), %xmm0
	movaps %xmm0, 144(%rsp)
	movups 144(%r9,%r10), %xmm0
	movaps %xmm0, 128(%rsp)
	movups 128(%r9,%r10), %xmm0
	movaps %xmm0, 112(%rsp)
	movdqu 64(%r9,%r10), %xmm0
	movdqu 80(%r9,%r10), %xmm1
	movdqu 96(%r9,%r10), %xmm2
	movdqu 112(%r9,%r10), %xmm3
	movdqa %xmm3, 96(%rsp)
	movdqa %xmm2, 80(%rsp)
	movdqa %xmm1, 64(%rsp)
	movdqa %xmm0, 48(%rsp)
	movq (%rsi), %r9
	movq (%r9), %r9
	testq %r8, %r8
	movl %r11d, 12(%rsp)
	movq %r14, 200(%rsp)
	movdqa %xmm4, 624(%rsp)
	movq %rdi, 192(%rsp)
	je .LBB79_2
	cmpq $4, %r8
	jae .LBB79_6
	xorl %r10d, %r10d
	xorl %r9d, %r9d
	jmp .LBB79_5
.LBB79_12:
	movq (%rsi), %rcx
	movq (%rcx), %rcx
	movq %rax, (%rdi)
	subq %r12, %rax
	subq %rdx, %rax
	movq %r12, 8(%rdi)
	movq %rdx, 16(%rdi)
	movq %rax, 24(%rdi)
	jmp .LBB79_11
.LBB79_2:
	xorl %r10d, %r10d
	jmp .LBB79_10
.LBB79_6:
	movq %r8, %r9
	andq $-4, %r9
	pxor %xmm1, %xmm1
	xorl %r10d, %r10d
	pxor %xmm2, %xmm2
	pxor %xmm0, %xmm0
	.p2align 4
.LBB79_7:
	movdqu (%r13,%r10,8), %xmm4
	movdqu 16(%r13,%r10,8), %xmm3
	movdqa %xmm4, %xmm5
	psrlw $1, %xmm5
	movdqa .LCPI79_0(%rip), %xmm6
	pand %xmm6, %xmm5
	psubb %xmm5, %xmm4
	movdqa .LCPI79_1(%rip), %xmm5
	movdqa %xmm4, %xmm7
	pand %xmm5, %xmm7
	psrlw $2, %xmm4
	pand %xmm5, %xmm4
	paddb %xmm7, %xmm4
	movdqa %xmm4, %xmm7
	psrlw $4, %xmm7
	paddb %xmm4, %xmm7
	movdqa .LCPI79_2(%rip), %xmm4
	pand %xmm4, %xmm7
	psadbw %xmm1, %xmm7
	paddq %xmm7, %xmm2
	movdqa %xmm3, %xmm7
	psrlw $1, %xmm7
	pand %xmm6, %xmm7
	psubb %xmm7, %xmm3
	movdqa %xmm3, %xmm6
	pand %xmm5, %xmm6
	psrlw $2, %xmm3
	pand %xmm5, %xmm3
	paddb %xmm6, %xmm3
	movdqa %xmm3, %xmm5
	psrlw $4, %xmm5
	paddb %xmm3, %xmm5
	pand %xmm4, %xmm5
	psadbw %xmm1, %xmm5
	paddq %xmm5, %xmm0
	addq $4, %r10
	cmpq %r10, %r9
	jne .LBB79_7
	paddq %xmm2, %xmm0
	pshufd $238, %xmm0, %xmm1
	paddq %xmm0, %xmm1
	movq %xmm1, %r10
	jmp .LBB79_9
.LBB79_5:
	movq (%r13,%r9,8), %r11
	movq %r11, %r14
	shrq %r14
	movabsq $6148914691236517205, %r15
	andq %r14, %r15
	subq %r15, %r11
	movabsq $3689348814741910323, %r14
	movq %r11, %r15
	andq %r14, %r15
	shrq $2, %r11
	andq %r14, %r11
	addq %r15, %r11
	movq %r11, %r14
	shrq $4, %r14
	addq %r11, %r14
	movabsq $1085102592571150095, %r11
	andq %r14, %r11
	movabsq $72340172838076673, %r14
	imulq %r11, %r14
	shrq $56, %r14
	addq %r14, %r10
	incq %r9
.LBB79_9:
	cmpq %r9, %r8
	jne .LBB79_5
.LBB79_10:
	movaps 160(%rsp), %xmm0
	movaps %xmm0, 752(%rsp)
	movaps 144(%rsp), %xmm1
	movaps %xmm1, 736(%rsp)
	movaps 128(%rsp), %xmm2
	movaps %xmm2, 720(%rsp)
	movaps 112(%rsp), %xmm3
	movaps %xmm3, 704(%rsp)
	movaps 48(%rsp), %xmm4
	movaps 64(%rsp), %xmm5
	movaps 80(%rsp), %xmm6
	movaps 96(%rsp), %xmm7
	movaps %xmm7, 688(%rsp)
	movaps %xmm6, 672(%rsp)
	movaps %xmm5, 656(%rsp)
	movaps %xmm4, 640(%rsp)
	movaps %xmm4, 464(%rsp)
	movaps %xmm5, 480(%rsp)
	movaps %xmm6, 496(%rsp)
	movaps %xmm7, 512(%rsp)
	movaps %xmm3, 528(%rsp)
	movaps %xmm2, 544(%rsp)
	movaps %xmm1, 560(%rsp)
	movaps %xmm0, 576(%rsp)
	movq (%rsi), %r8
	movq (%r8), %r8
	movq (%rsi), %r8
	movq (%r8), %r8
	movq %rbx, %r8
	addq %rbx, %rax
	addq %rbp, %r12
	addq %rdx, %r10
	movq 184(%rsp), %rbx
	movq %rbx, %r15
	shrq $32, %r15
	movaps 576(%rsp), %xmm0
	movaps %xmm0, 448(%rsp)
	movaps 560(%rsp), %xmm0
	movaps %xmm0, 432(%rsp)
	movaps 544(%rsp), %xmm0
	movaps %xmm0, 416(%rsp)
	movaps 528(%rsp), %xmm0
	movaps %xmm0, 400(%rsp)
	movaps 464(%rsp), %xmm0
	movaps 480(%rsp), %xmm1
	movaps 496(%rsp), %xmm2
	movaps 512(%rsp), %xmm3
	movaps %xmm3, 384(%rsp)
	movaps %xmm2, 368(%rsp)
	movaps %xmm1, 352(%rsp)
	movaps %xmm0, 336(%rsp)
	movq %rax, 16(%rsp)
	movq %r12, 24(%rsp)
	movq %r10, 32(%rsp)
	leaq 592(%rsp), %rdi
	leaq 16(%rsp), %rdx
	movq %rbp, 176(%rsp)
	movq %r8, %rbp
	movq %rsi, %r12
	movq %rcx, %r14
	callq tag_core.settles.settle_rest_i64
	movaps 448(%rsp), %xmm0
	movaps %xmm0, 160(%rsp)
	movaps 432(%rsp), %xmm0
	movaps %xmm0, 144(%rsp)
	movaps 416(%rsp), %xmm0
	movaps %xmm0, 128(%rsp)
	movaps 400(%rsp), %xmm0
	movaps %xmm0, 112(%rsp)
	movaps 336(%rsp), %xmm0
	movaps 352(%rsp), %xmm1
	movaps 368(%rsp), %xmm2
	movaps 384(%rsp), %xmm3
	movaps %xmm3, 96(%rsp)
	movaps %xmm2, 80(%rsp)
	movaps %xmm1, 64(%rsp)
	movaps %xmm0, 48(%rsp)
	movl $1, %eax
	movl %r15d, %ecx
	shll %cl, %eax
	addl %ebx, %eax
	decl %eax
	shrl %cl, %eax
	movq (%r12), %rcx
	shll $4, %eax
	addl $72, %eax
	movaps 592(%rsp), %xmm0
	movaps 608(%rsp), %xmm1
	movq (%rcx), %rcx
	movq (%r12), %rcx
	movq (%rcx), %rcx
	movaps 160(%rsp), %xmm2
	movaps %xmm2, 320(%rsp)
	movaps 144(%rsp), %xmm2
	movaps %xmm2, 304(%rsp)
	movaps 128(%rsp), %xmm2
	movaps %xmm2, 288(%rsp)
	movaps 112(%rsp), %xmm2
	movaps %xmm2, 272(%rsp)
	movaps 48(%rsp), %xmm2
	movaps 64(%rsp), %xmm3
	movaps 80(%rsp), %xmm4
	movaps 96(%rsp), %xmm5
	movaps %xmm5, 256(%rsp)
	movaps %xmm4, 240(%rsp)
	movaps %xmm3, 224(%rsp)
	movaps %xmm2, 208(%rsp)
	movq (%r14), %rcx
	movq 8(%r14), %rdx
	leaq (%rdx,%rdx,2), %rsi
	shlq $6, %rsi
	movq %rbx, (%rcx,%rsi)
	movl %eax, 8(%rcx,%rsi)
	movl 12(%rsp), %eax
	movl %eax, 12(%rcx,%rsi)
	movq 200(%rsp), %rax
	movq %rax, 16(%rcx,%rsi)
	movq %r13, 24(%rcx,%rsi)
	movaps 624(%rsp), %xmm2
	movups %xmm2, 32(%rcx,%rsi)
	movq %rbp, 48(%rcx,%rsi)
	movq 176(%rsp), %rax
	movq %rax, 56(%rcx,%rsi)
	movaps 208(%rsp), %xmm2
	movaps 224(%rsp), %xmm3
	movaps 240(%rsp), %xmm4
	movaps 256(%rsp), %xmm5
	movups %xmm2, 64(%rcx,%rsi)
	movups %xmm3, 80(%rcx,%rsi)
	movups %xmm4, 96(%rcx,%rsi)
	movups %xmm5, 112(%rcx,%rsi)
	movaps 272(%rsp), %xmm2
	movups %xmm2, 128(%rcx,%rsi)
	movaps 288(%rsp), %xmm2
	movups %xmm2, 144(%rcx,%rsi)
	movaps 304(%rsp), %xmm2
	movups %xmm2, 160(%rcx,%rsi)
	movaps 320(%rsp), %xmm2
	movups %xmm2, 176(%rcx,%rsi)
	incq %rdx
	movq %rdx, 8(%r14)
	movq 192(%rsp), %rax
	movups %xmm0, (%rax)
	movups %xmm1, 16(%rax)
.LBB79_11:
	addq $776, %rsp
	popq %rbx
	popq %r12
	popq %r13
	popq %r14
	popq %r15
	popq %rbp
	retq
.Lfunc_end79:
	.size tag_core.settles.settle_rest_i64, .Lfunc_end79-tag_core.settles.settle_rest_i64
	.section .text.unlikely.std_alloc.vec.Vec.grow_amortized__e69b1d9fa94cf777,"ax",@progbits
	.p2align 4
	.type std_alloc.vec.Vec.grow_amortized__e69b1d9fa94cf777,@function
std_alloc.vec.Vec.grow_amortized__e69b1d9fa94cf777:
	movq 8(%rdi), %rax
	cmpq $-1, %rax
	je .LBB80_5
	pushq %r14
	pushq %rbx
	pushq %rax
	movq 16(%rdi), %rcx
	cmpq $4, %rax
	movl $3, %ebx
	cmovaeq %rax, %rbx
	incq %rbx
	movq %rcx, %rsi
	shrq $62, %rsi
	leaq (%rcx,%rcx), %rdx
	cmpq %rdx, %rbx
	cmovaq %rbx, %rdx
	testq %rsi, %rsi
	cmoveq %rdx, %rbx
	movabsq $384307168202282325, %rsi
	cmpq %rsi, %rbx
	ja .LBB80_6
	testq %rcx, %rcx
	je .LBB80_8
	movq %rdi, %r14
	movq (%rdi), %rdi
	shlq $3, %rax
	leaq (%rax,%rax,2), %rsi
	leaq (,%rbx,8), %rax
	leaq (%rax,%rax,2), %rdx
	movl $8, %ecx
	callq tags_library_realloc@PLT
	testb $1, %al
	je .LBB80_6
.LBB80_9:
	movq %rdx, (%r14)
	movq %rbx, 16(%r14)
	movb $1, %al
	addq $8, %rsp
	popq %rbx
	popq %r14
	retq
.LBB80_5:
	xorl %eax, %eax
	retq
.LBB80_8:
	movq %rdi, %r14
	shlq $3, %rdx
	leaq (%rdx,%rdx,2), %rdi
	movl $8, %esi
	callq tags_library_alloc@PLT
	testb $1, %al
	jne .LBB80_9
.LBB80_6:
	xorl %eax, %eax
	addq $8, %rsp
	popq %rbx
	popq %r14
	retq
.Lfunc_end80:
	.size std_alloc.vec.Vec.grow_amortized__e69b1d9fa94cf777, .Lfunc_end80-std_alloc.vec.Vec.grow_amortized__e69b1d9fa94cf777
	.section .text.tag_pool.resizes.shells.unite_i64,"ax",@progbits
	.p2align 4
	.type tag_pool.resizes.shells.unite_i64,@function
tag_pool.resizes.shells.unite_i64:
	pushq %rbp
	pushq %r15
	pushq %r14
	pushq %r13
	pushq %r12
	pushq %rbx
	subq $504, %rsp
	movq %rdi, %r14
	movq (%rsi), %r13
	movq 8(%rsi), %rdi
	movq 16(%rsi), %rbp
	movq (%rdx), %rsi
	movq 8(%rdx), %rax
	movq %rax, 8(%rsp)
	movq 16(%rdx), %rax
	movq %rax, 64(%rsp)
	movq (%rcx), %rdx
	movq 8(%rcx), %r12
	movq 16(%rcx), %rax
	movq %rax, 72(%rsp)
	movq %rdi, 88(%rsp)
	testq %rdi, %rdi
	movq %r13, 56(%rsp)
	movq %rdx, 80(%rsp)
	movq %rsi, 24(%rsp)
	je .LBB81_1
	movq %rbp, 32(%rsp)
	movq %r14, 48(%rsp)
	leaq 224(%rsi), %rbp
	movq %r12, 40(%rsp)
	imulq $424, %r12, %rax
	leaq (%rax,%rdx), %r12
	addq $232, %r12
	xorl %r15d, %r15d
	.p2align 4
.LBB81_3:
	cmpq %r15, 8(%rsp)
	je .LBB81_17
	incq %r15
	movl -224(%rbp), %ebx
	movq -8(%rbp), %rax
	movq %rax, 96(%rsp)
	movl (%rbp), %eax
	movl %eax, 20(%rsp)
	leaq 104(%rsp), %rdi
	movl $192, %edx
	movq %r13, %rsi
	callq memcpy@PLT
	leaq -216(%rbp), %rsi
	leaq 296(%rsp), %r14
	movl $208, %edx
	movq %r14, %rdi
	callq memcpy@PLT
	movl %ebx, -232(%r12)
	movl $0, -228(%r12)
	leaq -224(%r12), %rdi
	movl $208, %edx
	movq %r14, %rsi
	callq memcpy@PLT
	movq 96(%rsp), %rax
	movq %rax, -16(%r12)
	movl 20(%rsp), %eax
	movl %eax, -8(%r12)
	movl $0, -4(%r12)
	movl $192, %edx
	movq %r12, %rdi
	leaq 104(%rsp), %rsi
	callq memcpy@PLT
	addq $192, %r13
	addq $232, %rbp
	addq $424, %r12
	cmpq %r15, 88(%rsp)
	jne .LBB81_3
	movq 8(%rsp), %r13
	subq %r15, %r13
	movq 40(%rsp), %r12
	addq %r15, %r12
	movq 48(%rsp), %r14
	movq 32(%rsp), %rbp
	testq %r13, %r13
	jne .LBB81_7
	jmp .LBB81_12
.LBB81_1:
	xorl %r15d, %r15d
	movq 8(%rsp), %r13
	testq %r13, %r13
	je .LBB81_12
.LBB81_7:
	leaq (%r15,%r13), %rax
	cmpq %rax, %r15
	jae .LBB81_12
	imulq $232, %r15, %rax
	movq 24(%rsp), %rcx
	leaq (%rax,%rcx), %rbx
	addq $64, %rbx
	jmp .LBB81_9
	.p2align 4
.LBB81_11:
	addq $232, %rbx
	decq %r13
	je .LBB81_12
.LBB81_9:
	cmpq $0, (%rbx)
	je .LBB81_11
	movq -16(%rbx), %rdi
	callq tags_library_dealloc@PLT
	jmp .LBB81_11
.LBB81_12:
	cmpq $0, 64(%rsp)
	je .LBB81_14
	movq 24(%rsp), %rdi
	callq tags_library_dealloc@PLT
.LBB81_14:
	testq %rbp, %rbp
	je .LBB81_16
	movq 56(%rsp), %rdi
	callq tags_library_dealloc@PLT
.LBB81_16:
	movq 80(%rsp), %rax
	movq %rax, (%r14)
	movq %r12, 8(%r14)
	movq 72(%rsp), %rax
	movq %rax, 16(%r14)
	addq $504, %rsp
	popq %rbx
	popq %r12
	popq %r13
	popq %r14
	popq %r15
	popq %rbp
	retq
.LBB81_17:
	ud2
.Lfunc_end81:
	.size tag_pool.resizes.shells.unite_i64, .Lfunc_end81-tag_pool.resizes.shells.unite_i64
	.section .text.tags_library_busy,"ax",@progbits
	.globl tags_library_busy
	.p2align 4
	.type tags_library_busy,@function
tags_library_busy:
	xorl %ecx, %ecx
	testq %rsi, %rsi
	sete %r8b
	movl $-12, %eax
	cmpq $1, (%rdi)
	jne .LBB82_6
	movb %r8b, %cl
	shll $12, %ecx
	addq %rcx, %rsi
	movq 8(%rdi), %rcx
	movzbl (%rcx), %edi
	cmpl $2, %edi
	je .LBB82_5
	cmpl $1, %edi
	je .LBB82_6
	movq 8(%rcx), %rdi
	movl 256(%rdi), %ecx
	addq $63, %rcx
	shrq $6, %rcx
	movl $-17, %eax
	cmpq %rcx, %rdx
	jae .LBB82_4
.LBB82_6:
	retq
.LBB82_5:
	movq 8(%rcx), %rdi
	jmp tag_c.looks.CachedMemberLookCalls.busy
.LBB82_4:
	pushq %rax
	addq $8, %rdi
	callq tag_pool.pool.Pool.busy_i64_core.clone.U64Clone
	cmpl $10240, %eax
	movl $10240, %ecx
	cmovael %ecx, %eax
	popq %rcx
	retq
.Lfunc_end82:
	.size tags_library_busy, .Lfunc_end82-tags_library_busy
	.section .text.tags_library_clear,"ax",@progbits
	.globl tags_library_clear
	.p2align 4
	.type tags_library_clear,@function
tags_library_clear:
	movl $-12, %eax
	cmpq $1, (%rdi)
	jne .LBB83_3
	movq 8(%rdi), %r8
	movzbl (%r8), %ecx
	cmpl $2, %ecx
	je .LBB83_4
	cmpl $1, %ecx
	jne .LBB83_12
.LBB83_3:
	retq
.LBB83_4:
	leaq 8(%r8), %rdi
	movl %esi, %ecx
	subl 16(%r8), %ecx
	cmpl $63, %ecx
	ja tag_c.cached.CachedMember.clear_any
	movq 40(%r8), %rax
	movl $1, %r9d
	shlq %cl, %r9
	btq %rcx, %rax
	jae tag_c.cached.CachedMember.clear_any
	movl 24(%r8), %ecx
	testl %ecx, %ecx
	je tag_c.cached.CachedMember.clear_any
	cmpb $0, 55(%r8)
	jne tag_c.cached.CachedMember.clear_any
	movq %r9, %r10
	notq %r10
	andq %r10, %rax
	jne .LBB83_10
	cmpb $0, 28(%r8)
	jne tag_c.cached.CachedMember.clear_any
.LBB83_10:
	movq 8(%r8), %rsi
	movq %rax, 40(%r8)
	orq %r9, 32(%r8)
	decl %ecx
	movl %ecx, 24(%r8)
	movq 120(%rsi), %rax
	movq 8(%rax), %rax
	testq %rax, %rax
	je .LBB83_27
	xorl %esi, %esi
	movq %rdx, %rcx
	xorl %edx, %edx
	jmp tag_c.telling.CachedMemberTellingCalls.tell
.LBB83_12:
	movq 8(%r8), %rdi
	movl %esi, %r9d
	subl 16(%r8), %r9d
	jae .LBB83_19
	movl $-1, %eax
	cmpl %esi, 72(%rdi)
	jbe .LBB83_3
	movzbl 44(%r8), %ecx
	movl %esi, %r9d
	shrl %cl, %r9d
	movq 64(%r8), %rax
	movq (%rax,%r9,8), %r11
	movl $-1, %eax
	shll %cl, %eax
	notl %eax
	andl %esi, %eax
	movl $1, %r10d
	movl %eax, %ecx
	shlq %cl, %r10
	btq %rax, %r11
	jae .LBB83_26
	movq 8(%rdi), %rax
	movq %r9, %rcx
	shlq $7, %rcx
	lock  addq %r10, 640(%rax,%rcx)
	movq 64(%r8), %rax
	subq %r10, (%rax,%r9,8)
	incq 96(%r8)
	cmpb $0, 28(%r8)
	jne .LBB83_17
	movl %esi, 24(%r8)
.LBB83_17:
	movq 8(%r8), %rax
	movq 8(%rax), %rax
	movq 8(%rax), %rax
	testq %rax, %rax
	je .LBB83_27
	movq 8(%r8), %rdi
	movl $1, %esi
	movq %rdx, %rcx
	movl $1, %edx
	jmp tag_c.telling.MemberTellingCalls.tell
.LBB83_19:
	movl $-1, %eax
	cmpl %r9d, 184(%rdi)
	jbe .LBB83_3
	movzbl 252(%r8), %ecx
	movl %r9d, %esi
	shrl %cl, %esi
	movq 272(%r8), %rax
	movq (%rax,%rsi,8), %r11
	movl $-1, %eax
	shll %cl, %eax
	notl %eax
	andl %r9d, %eax
	movl $1, %r10d
	movl %eax, %ecx
	shlq %cl, %r10
	btq %rax, %r11
	jae .LBB83_26
	movq 120(%rdi), %rax
	movq %rsi, %rcx
	shlq $7, %rcx
	lock  addq %r10, 640(%rax,%rcx)
	movq 272(%r8), %rax
	subq %r10, (%rax,%rsi,8)
	incq 304(%r8)
	cmpb $0, 236(%r8)
	jne .LBB83_23
	movl %r9d, 232(%r8)
.LBB83_23:
	movq 8(%r8), %rax
	movq 120(%rax), %rax
	movq 8(%rax), %rax
	testq %rax, %rax
	je .LBB83_27
	movq 8(%r8), %rdi
	xorl %esi, %esi
	movq %rdx, %rcx
	movl $1, %edx
	jmp tag_c.telling.MemberTellingCalls.tell
.LBB83_27:
	xorl %eax, %eax
	retq
.LBB83_26:
	movl $-3, %eax
	retq
.Lfunc_end83:
	.size tags_library_clear, .Lfunc_end83-tags_library_clear
	.section .text.tags_library_clear_batch,"ax",@progbits
	.globl tags_library_clear_batch
	.p2align 4
	.type tags_library_clear_batch,@function
tags_library_clear_batch:
	pushq %rbp
	pushq %r15
	pushq %r14
	pushq %r13
	pushq %r12
	pushq %rbx
	pushq %rax
	xorl %r8d, %r8d
	testq %rsi, %rsi
	sete %r9b
	movl $-12, %eax
	cmpq $1, (%rdi)
	jne .LBB84_18
	movb %r9b, %r8b
	shll $12, %r8d
	addq %r8, %rsi
	movq 8(%rdi), %rbx
	movzbl (%rbx), %edi
	cmpl $2, %edi
	je .LBB84_16
	cmpl $1, %edi
	je .LBB84_18
	movq %rcx, (%rsp)
	movq %rsi, %r15
	movq %rdx, %r14
	movq 8(%rbx), %r13
	leaq 8(%r13), %rdi
	leaq 16(%rbx), %rsi
	movq %r15, %rdx
	movq %r14, %rcx
	callq tag_pool.pool.Pool.check_batch_i64_core.clone.U64Clone
	testb %al, %al
	je .LBB84_4
	movzbl %dl, %eax
	leaq .Lswitch.table.tags_library_wait_on_reserved.286(%rip), %rcx
	movl (%rcx,%rax,4), %eax
.LBB84_18:
	addq $8, %rsp
	popq %rbx
	popq %r12
	popq %r13
	popq %r14
	popq %r15
	popq %rbp
	retq
.LBB84_16:
	addq $8, %rbx
	movq %rbx, %rdi
	addq $8, %rsp
	popq %rbx
	popq %r12
	popq %r13
	popq %r14
	popq %r15
	popq %rbp
	jmp tag_c.clears.CachedMemberClearCalls.clear_batch
.LBB84_4:
	movl 188(%r13), %eax
	movl 232(%r13), %edi
	movl (%r15), %r11d
	subl %edi, %r11d
	movl %eax, %ecx
	shrl %cl, %r11d
	movabsq $3689348814741910323, %r10
	movq %r14, %rdx
	testq %r14, %r14
	je .LBB84_5
	movl $-1, %ebp
	movl %eax, %ecx
	shll %cl, %ebp
	notl %ebp
	xorl %r14d, %r14d
	xorl %r12d, %r12d
	jmp .LBB84_7
	.p2align 4
.LBB84_9:
	movq 120(%r13), %rcx
	movl %r11d, %esi
	movq %rsi, %r11
	shlq $7, %r11
	lock  subq %r14, 576(%rcx,%r11)
	movq 272(%rbx), %rcx
	movq %r14, %r11
	notq %r11
	andq %r11, (%rcx,%rsi,8)
	movq %r14, %rcx
	shrq %rcx
	movabsq $6148914691236517205, %rsi
	andq %rsi, %rcx
	subq %rcx, %r14
	movq %r14, %rcx
	andq %r10, %rcx
	shrq $2, %r14
	andq %r10, %r14
	addq %rcx, %r14
	movq %r14, %rcx
	shrq $4, %rcx
	addq %r14, %rcx
	movabsq $1085102592571150095, %rsi
	andq %rsi, %rcx
	movabsq $72340172838076673, %rsi
	imulq %rsi, %rcx
	shrq $56, %rcx
	addq %rcx, 304(%rbx)
	movl %r8d, %r11d
	incq %r12
	movq %r9, %r14
	cmpq %r12, %rdx
	je .LBB84_11
.LBB84_7:
	movl (%r15,%r12,4), %esi
	subl %edi, %esi
	movl %esi, %r8d
	movl %eax, %ecx
	shrl %cl, %r8d
	andl %ebp, %esi
	movl $1, %r9d
	movl %esi, %ecx
	shlq %cl, %r9
	cmpl %r11d, %r8d
	jne .LBB84_9
	orq %r14, %r9
	incq %r12
	movq %r9, %r14
	cmpq %r12, %rdx
	jne .LBB84_7
	jmp .LBB84_11
.LBB84_5:
	xorl %r9d, %r9d
.LBB84_11:
	movq 120(%r13), %rax
	movl %r11d, %ecx
	movq %rcx, %rsi
	shlq $7, %rsi
	lock  subq %r9, 576(%rax,%rsi)
	movq 272(%rbx), %rax
	movq %r9, %rsi
	notq %rsi
	andq %rsi, (%rax,%rcx,8)
	movq %r9, %rax
	shrq %rax
	movabsq $6148914691236517205, %rcx
	andq %rcx, %rax
	subq %rax, %r9
	movq %r9, %rax
	andq %r10, %rax
	shrq $2, %r9
	andq %r10, %r9
	addq %rax, %r9
	movq %r9, %rax
	shrq $4, %rax
	addq %r9, %rax
	movabsq $1085102592571150095, %rcx
	andq %rcx, %rax
	movabsq $72340172838076673, %rcx
	imulq %rcx, %rax
	shrq $56, %rax
	addq %rax, 304(%rbx)
	cmpb $0, 236(%rbx)
	jne .LBB84_13
	movl -4(%r15,%rdx,4), %eax
	subl %edi, %eax
	movl %eax, 232(%rbx)
.LBB84_13:
	movq 8(%rbx), %rax
	movq 120(%rax), %rax
	movq 8(%rax), %rax
	testq %rax, %rax
	movq (%rsp), %rcx
	je .LBB84_14
	movq 8(%rbx), %rdi
	xorl %esi, %esi
	addq $8, %rsp
	popq %rbx
	popq %r12
	popq %r13
	popq %r14
	popq %r15
	popq %rbp
	jmp tag_c.telling.MemberTellingCalls.tell
.LBB84_14:
	xorl %eax, %eax
	jmp .LBB84_18
.Lfunc_end84:
	.size tags_library_clear_batch, .Lfunc_end84-tags_library_clear_batch
	.section .text.tags_library_clear_mask,"ax",@progbits
	.globl tags_library_clear_mask
	.p2align 4
	.type tags_library_clear_mask,@function
tags_library_clear_mask:
	pushq %rbp
	pushq %r15
	pushq %r14
	pushq %r13
	pushq %r12
	pushq %rbx
	pushq %rax
	movl $-12, %eax
	cmpq $1, (%rdi)
	jne .LBB85_30
	movq 8(%rdi), %rdi
	movzbl (%rdi), %r8d
	cmpl $2, %r8d
	je .LBB85_28
	cmpl $1, %r8d
	je .LBB85_30
	movb $1, %r15b
	testq %rdx, %rdx
	je .LBB85_4
	movq 8(%rdi), %rbx
	movl 232(%rbx), %r14d
	movl %r14d, %r9d
	subl %esi, %r9d
	jbe .LBB85_6
	rep  bsfq %rdx, %rax
	xorl %r11d, %r11d
	cmpl %eax, %r9d
	ja .LBB85_24
	movq %rdx, %r8
	movq %rcx, %rax
	movl %r9d, %ecx
	shrq %cl, %r8
	movq %rax, %rcx
	movl 184(%rbx), %r10d
	cmpl %r11d, %r10d
	ja .LBB85_10
	jmp .LBB85_23
.LBB85_28:
	addq $8, %rdi
	addq $8, %rsp
	popq %rbx
	popq %r12
	popq %r13
	popq %r14
	popq %r15
	popq %rbp
	jmp tag_c.masks.CachedMemberMaskCalls.clear_mask
.LBB85_4:
	movb $3, %r11b
	jmp .LBB85_24
.LBB85_6:
	movl %esi, %r11d
	subl %r14d, %r11d
	movq %rdx, %r8
	movl 184(%rbx), %r10d
	cmpl %r11d, %r10d
	jbe .LBB85_23
.LBB85_10:
	movl $127, %eax
	bsrq %r8, %rax
	xorl $63, %eax
	movl %r11d, %r9d
	subl %eax, %r9d
	addl $63, %r9d
	cmpl %r9d, %r10d
	jbe .LBB85_23
	movq %rcx, (%rsp)
	movl 188(%rbx), %ebp
	movl %r11d, %eax
	movl %ebp, %ecx
	shrl %cl, %eax
	movl %r9d, %r15d
	shrl %cl, %r15d
	cmpl %eax, %r15d
	jne .LBB85_12
	movl $-1, %r9d
	movl %ebp, %ecx
	shll %cl, %r9d
	notl %r9d
	andl %r9d, %r11d
	movl %r11d, %ecx
	shlq %cl, %r8
	movq 272(%rdi), %rcx
	movl %eax, %eax
	movq (%rcx,%rax,8), %rax
	notq %rax
	movb $1, %r11b
	testq %rax, %r8
	setne %r15b
	movq (%rsp), %rcx
	je .LBB85_14
	jmp .LBB85_24
.LBB85_12:
	leaq 248(%rdi), %rcx
	movq %rdi, %r15
	movl %r10d, %edi
	movq %rsi, %r13
	movl %ebp, %esi
	movq %rdx, %r12
	movq %rcx, %rdx
	movl %r11d, %ecx
	callq tag_pool.clears.masks.words.are_held_across_i64
	movq %r13, %rsi
	movq %r12, %rdx
	movq %r15, %rdi
	movl %eax, %r15d
	xorb $1, %r15b
	movl %r15d, %r11d
	testb %al, %al
	movq (%rsp), %rcx
	je .LBB85_24
.LBB85_14:
	movl %r14d, %ecx
	subl %esi, %ecx
	jbe .LBB85_15
	rep  bsfq %rdx, %rax
	cmpl %eax, %ecx
	ja .LBB85_31
	movq %rdx, %rax
	shrq %cl, %rax
	xorl %esi, %esi
	jmp .LBB85_18
.LBB85_15:
	subl %r14d, %esi
	movq %rdx, %rax
.LBB85_18:
	addq $120, %rbx
	movl $127, %r9d
	bsrq %rax, %r9
	xorl $63, %r9d
	movl %esi, %r8d
	movl %ebp, %ecx
	shrl %cl, %r8d
	negl %r9d
	leal (%rsi,%r9), %r14d
	addl $63, %r14d
	movl %r14d, %r9d
	shrl %cl, %r9d
	cmpl %r8d, %r9d
	jne .LBB85_19
	movl $-1, %r9d
	movl %ebp, %ecx
	shll %cl, %r9d
	notl %r9d
	andl %r9d, %esi
	movl %esi, %ecx
	shlq %cl, %rax
	movq (%rbx), %rcx
	movl %r8d, %esi
	movq %rsi, %r8
	shlq $7, %r8
	lock  subq %rax, 576(%rcx,%r8)
	movq 272(%rdi), %rcx
	movq %rax, %r8
	notq %r8
	andq %r8, (%rcx,%rsi,8)
	movq %rax, %rcx
	shrq %rcx
	movabsq $6148914691236517205, %rsi
	andq %rcx, %rsi
	subq %rsi, %rax
	movabsq $3689348814741910323, %rcx
	movq %rax, %rsi
	andq %rcx, %rsi
	shrq $2, %rax
	andq %rcx, %rax
	addq %rsi, %rax
	movq %rax, %rcx
	shrq $4, %rcx
	addq %rax, %rcx
	movabsq $1085102592571150095, %rax
	andq %rcx, %rax
	movabsq $72340172838076673, %rcx
	imulq %rax, %rcx
	shrq $56, %rcx
	addq %rcx, 304(%rdi)
	jmp .LBB85_21
.LBB85_19:
	leaq 248(%rdi), %rcx
	movq %rdi, %r13
	movq %rbx, %rdi
	movq %rsi, %r8
	movq %rcx, %rsi
	movq %rdx, %rbx
	movl %r8d, %edx
	movq %rax, %rcx
	movl %r14d, %r8d
	callq tag_pool.clears.masks.words.give_mask_across_i64
	movq %rbx, %rdx
	movq %r13, %rdi
.LBB85_21:
	cmpb $0, 236(%rdi)
	movq (%rsp), %rcx
	jne .LBB85_23
	movl %r14d, 232(%rdi)
.LBB85_23:
	xorl %r11d, %r11d
.LBB85_24:
	testb %r15b, %r15b
	je .LBB85_25
	movzbl %r11b, %eax
	leaq .Lswitch.table.tags_library_clear_mask(%rip), %rcx
	movl (%rcx,%rax,4), %eax
.LBB85_30:
	addq $8, %rsp
	popq %rbx
	popq %r12
	popq %r13
	popq %r14
	popq %r15
	popq %rbp
	retq
.LBB85_25:
	movq 8(%rdi), %rax
	movq 120(%rax), %rax
	movq 8(%rax), %rax
	testq %rax, %rax
	je .LBB85_26
	movq %rdx, %rax
	shrq %rax
	movabsq $6148914691236517205, %rsi
	andq %rax, %rsi
	subq %rsi, %rdx
	movabsq $3689348814741910323, %rax
	movq %rdx, %rsi
	andq %rax, %rsi
	shrq $2, %rdx
	andq %rax, %rdx
	addq %rsi, %rdx
	movq %rdx, %rax
	shrq $4, %rax
	addq %rdx, %rax
	movabsq $1085102592571150095, %rsi
	andq %rax, %rsi
	movabsq $72340172838076673, %rdx
	imulq %rsi, %rdx
	shrq $56, %rdx
	movq 8(%rdi), %rdi
	xorl %esi, %esi
	addq $8, %rsp
	popq %rbx
	popq %r12
	popq %r13
	popq %r14
	popq %r15
	popq %rbp
	jmp tag_c.telling.MemberTellingCalls.tell
.LBB85_26:
	xorl %eax, %eax
	jmp .LBB85_30
.LBB85_31:
	ud2
.Lfunc_end85:
	.size tags_library_clear_mask, .Lfunc_end85-tags_library_clear_mask
	.section .text.tags_library_flush,"ax",@progbits
	.globl tags_library_flush
	.p2align 4
	.type tags_library_flush,@function
tags_library_flush:
	movl $-12, %eax
	cmpq $1, (%rdi)
	jne .LBB86_4
	movq 8(%rdi), %rdi
	movzbl (%rdi), %ecx
	testl %ecx, %ecx
	je .LBB86_2
	cmpl $1, %ecx
	jne .LBB86_5
.LBB86_4:
	retq
.LBB86_2:
	movl %ecx, %eax
	retq
.LBB86_5:
	addq $8, %rdi
	jmp tag_c.flush.CachedMemberFlushCalls.flush
.Lfunc_end86:
	.size tags_library_flush, .Lfunc_end86-tags_library_flush
	.section .text.tags_library_get,"ax",@progbits
	.globl tags_library_get
	.p2align 4
	.type tags_library_get,@function
tags_library_get:
	movl $-12, %eax
	cmpq $1, (%rdi)
	jne .LBB87_6
	movq 8(%rdi), %rdi
	movzbl (%rdi), %ecx
	cmpl $2, %ecx
	je .LBB87_4
	cmpl $1, %ecx
	je .LBB87_6
	addq $8, %rdi
	jmp tag_c.gets.MemberGetCalls.get
.LBB87_4:
	movq 32(%rdi), %rdx
	testq %rdx, %rdx
	je .LBB87_7
	rep  bsfq %rdx, %rcx
	movl 16(%rdi), %eax
	movl $1, %esi
	shlq %cl, %rsi
	btrq %rcx, %rdx
	movq %rdx, 32(%rdi)
	orq %rsi, 40(%rdi)
	incl 24(%rdi)
	addl %ecx, %eax
	incq 48(%rdi)
.LBB87_6:
	retq
.LBB87_7:
	addq $8, %rdi
	jmp tag_c.cached.CachedMember.get_any
.Lfunc_end87:
	.size tags_library_get, .Lfunc_end87-tags_library_get
	.section .text.tags_library_get_batch,"ax",@progbits
	.globl tags_library_get_batch
	.p2align 4
	.type tags_library_get_batch,@function
tags_library_get_batch:
	pushq %r15
	pushq %r14
	pushq %rbx
	subq $48, %rsp
	movl $-12, %eax
	cmpq $1, (%rdi)
	jne .LBB88_11
	movq 8(%rdi), %rbx
	movzbl (%rbx), %edi
	cmpl $2, %edi
	je .LBB88_13
	cmpl $1, %edi
	je .LBB88_11
	movl %esi, %eax
	movq %rdx, %r15
	movq %rcx, %r14
	xorps %xmm0, %xmm0
	movaps %xmm0, 16(%rsp)
	movaps %xmm0, (%rsp)
	movq $0, 32(%rsp)
	movq 8(%rbx), %rsi
	addq $8, %rsi
	leaq 16(%rbx), %rdx
	movq %rsp, %rdi
	movl %eax, %ecx
	callq tag_pool.pool.Pool.get_batch_quietly_i64_core.clone.U64Clone
	cmpb $0, (%rsp)
	je .LBB88_4
	movzbl 1(%rsp), %eax
	leaq .Lswitch.table.tags_library_wait_on_reserved.286(%rip), %rcx
	movl (%rcx,%rax,4), %eax
	jmp .LBB88_11
.LBB88_13:
	addq $8, %rbx
	movq %rbx, %rdi
	addq $48, %rsp
	popq %rbx
	popq %r14
	popq %r15
	jmp tag_c.gets.CachedMemberGetCalls.get_batch
.LBB88_4:
	movq 32(%rsp), %rcx
	movl $-10, %eax
	cmpb $1, 8(%rsp)
	jne .LBB88_6
	movq 24(%rsp), %rdx
	movl 16(%rsp), %eax
	movq %rdx, (%r15)
.LBB88_6:
	testq %rcx, %rcx
	je .LBB88_11
	movq 8(%rbx), %rdi
	movq 120(%rdi), %rdx
	movq 8(%rdx), %rdx
	testq %rdx, %rdx
	je .LBB88_8
	addq $120, %rdi
	cmpq $64, %rcx
	movl $64, %esi
	cmovbq %rcx, %rsi
	movl %eax, %ebx
	callq tag_bell.telling.tell_each_i64
	movq %rax, %rcx
	movl %ebx, %eax
	jmp .LBB88_10
.LBB88_8:
	xorl %edx, %edx
	xorl %ecx, %ecx
.LBB88_10:
	movq %rcx, (%r14)
	movq %rdx, 8(%r14)
	addl $1073741824, %eax
.LBB88_11:
	addq $48, %rsp
	popq %rbx
	popq %r14
	popq %r15
	retq
.Lfunc_end88:
	.size tags_library_get_batch, .Lfunc_end88-tags_library_get_batch
	.section .text.tags_library_get_exactly,"ax",@progbits
	.globl tags_library_get_exactly
	.p2align 4
	.type tags_library_get_exactly,@function
tags_library_get_exactly:
	pushq %rbp
	pushq %r14
	pushq %rbx
	subq $32, %rsp
	movl $-12, %eax
	cmpq $1, (%rdi)
	jne .LBB89_12
	movq 8(%rdi), %rbx
	movzbl (%rbx), %ecx
	cmpl $2, %ecx
	je .LBB89_13
	cmpl $1, %ecx
	je .LBB89_12
	movl %esi, %ebp
	movq %rdx, %r14
	xorps %xmm0, %xmm0
	movaps %xmm0, (%rsp)
	movq $0, 16(%rsp)
	movq 8(%rbx), %rsi
	addq $8, %rsi
	leaq 16(%rbx), %rdx
	movq %rsp, %rdi
	movl %ebp, %ecx
	callq tag_pool.pool.Pool.get_exactly_quietly_i64_core.clone.U64Clone
	cmpb $0, (%rsp)
	je .LBB89_5
	movzbl 1(%rsp), %eax
	leaq .Lswitch.table.tags_library_wait_on_reserved.286(%rip), %rcx
	movl (%rcx,%rax,4), %eax
	jmp .LBB89_12
.LBB89_13:
	addq $8, %rbx
	movq %rbx, %rdi
	addq $32, %rsp
	popq %rbx
	popq %r14
	popq %rbp
	jmp tag_c.gets.CachedMemberGetCalls.get_exactly
.LBB89_5:
	movq 16(%rsp), %rcx
	cmpb $1, 8(%rsp)
	movl $-10, %eax
	jne .LBB89_7
	movl 12(%rsp), %eax
.LBB89_7:
	testq %rcx, %rcx
	je .LBB89_12
	movq 8(%rbx), %rdx
	cmpl 232(%rdx), %ebp
	leaq 112(%rdx), %rdi
	cmovbq %rdx, %rdi
	movq 8(%rdi), %rdx
	movq 8(%rdx), %rdx
	testq %rdx, %rdx
	je .LBB89_9
	addq $8, %rdi
	cmpq $64, %rcx
	movl $64, %esi
	cmovbq %rcx, %rsi
	movl %eax, %ebx
	callq tag_bell.telling.tell_each_i64
	movq %rax, %rcx
	movl %ebx, %eax
	jmp .LBB89_11
.LBB89_9:
	xorl %edx, %edx
	xorl %ecx, %ecx
.LBB89_11:
	movq %rcx, (%r14)
	movq %rdx, 8(%r14)
	addl $1073741824, %eax
.LBB89_12:
	addq $32, %rsp
	popq %rbx
	popq %r14
	popq %rbp
	retq
.Lfunc_end89:
	.size tags_library_get_exactly, .Lfunc_end89-tags_library_get_exactly
	.section .text.tags_library_get_many,"ax",@progbits
	.globl tags_library_get_many
	.p2align 4
	.type tags_library_get_many,@function
tags_library_get_many:
	pushq %r14
	pushq %rbx
	subq $24, %rsp
	movq %rdx, %r8
	xorl %edx, %edx
	testq %rsi, %rsi
	sete %r9b
	movl $-12, %eax
	cmpq $1, (%rdi)
	jne .LBB90_10
	movb %r9b, %dl
	shll $12, %edx
	addq %rdx, %rsi
	movq 8(%rdi), %rbx
	movzbl (%rbx), %edx
	cmpl $2, %edx
	je .LBB90_11
	cmpl $1, %edx
	je .LBB90_10
	movq %rsi, %rax
	movq %rcx, %r14
	xorps %xmm0, %xmm0
	movaps %xmm0, (%rsp)
	movq $0, 16(%rsp)
	movq 8(%rbx), %rsi
	addq $8, %rsi
	leaq 16(%rbx), %rdx
	movq %rsp, %rdi
	movq %rax, %rcx
	callq tag_pool.pool.Pool.get_many_quietly_i64_core.clone.U64Clone
	cmpb $0, (%rsp)
	je .LBB90_5
	movzbl 1(%rsp), %eax
	leaq .Lswitch.table.tags_library_wait_on_reserved.286(%rip), %rcx
	movl (%rcx,%rax,4), %eax
.LBB90_10:
	addq $24, %rsp
	popq %rbx
	popq %r14
	retq
.LBB90_11:
	addq $8, %rbx
	movq %rbx, %rdi
	movq %r8, %rdx
	addq $24, %rsp
	popq %rbx
	popq %r14
	jmp tag_c.gets.CachedMemberGetCalls.get_many
.LBB90_5:
	movq 16(%rsp), %rcx
	xorl %edx, %edx
	testb $1, 8(%rsp)
	movl $-10, %eax
	cmovnel %edx, %eax
	testq %rcx, %rcx
	je .LBB90_10
	movq 8(%rbx), %rdi
	movq 120(%rdi), %rdx
	movq 8(%rdx), %rdx
	testq %rdx, %rdx
	je .LBB90_7
	addq $120, %rdi
	cmpq $64, %rcx
	movl $64, %esi
	cmovbq %rcx, %rsi
	movl %eax, %ebx
	callq tag_bell.telling.tell_each_i64
	movq %rax, %rcx
	movl %ebx, %eax
	jmp .LBB90_9
.LBB90_7:
	xorl %edx, %edx
	xorl %ecx, %ecx
.LBB90_9:
	movq %rcx, (%r14)
	movq %rdx, 8(%r14)
	addl $1073741824, %eax
	addq $24, %rsp
	popq %rbx
	popq %r14
	retq
.Lfunc_end90:
	.size tags_library_get_many, .Lfunc_end90-tags_library_get_many
	.section .text.tags_library_get_reserved,"ax",@progbits
	.globl tags_library_get_reserved
	.p2align 4
	.type tags_library_get_reserved,@function
tags_library_get_reserved:
	pushq %r14
	pushq %rbx
	subq $24, %rsp
	movl $-12, %eax
	cmpq $1, (%rdi)
	jne .LBB91_12
	movq 8(%rdi), %rbx
	movzbl (%rbx), %ecx
	cmpl $2, %ecx
	je .LBB91_13
	cmpl $1, %ecx
	je .LBB91_12
	movq %rsi, %r14
	xorps %xmm0, %xmm0
	movaps %xmm0, (%rsp)
	movq $0, 16(%rsp)
	movq 8(%rbx), %rsi
	addq $8, %rsi
	leaq 16(%rbx), %rdx
	movq %rsp, %rdi
	callq tag_pool.pool.Pool.get_reserved_quietly_i64_core.clone.U64Clone
	cmpb $0, (%rsp)
	je .LBB91_5
	movzbl 1(%rsp), %eax
	leaq .Lswitch.table.tags_library_wait_on_reserved.286(%rip), %rcx
	movl (%rcx,%rax,4), %eax
.LBB91_12:
	addq $24, %rsp
	popq %rbx
	popq %r14
	retq
.LBB91_13:
	addq $8, %rbx
	movq %rbx, %rdi
	addq $24, %rsp
	popq %rbx
	popq %r14
	jmp tag_c.gets.CachedMemberGetCalls.get_reserved
.LBB91_5:
	movq 16(%rsp), %rcx
	cmpb $1, 8(%rsp)
	movl $-10, %eax
	jne .LBB91_7
	movl 12(%rsp), %eax
.LBB91_7:
	testq %rcx, %rcx
	je .LBB91_12
	movq 8(%rbx), %rdi
	movq 8(%rdi), %rdx
	movq 8(%rdx), %rdx
	testq %rdx, %rdx
	je .LBB91_9
	addq $8, %rdi
	cmpq $64, %rcx
	movl $64, %esi
	cmovbq %rcx, %rsi
	movl %eax, %ebx
	callq tag_bell.telling.tell_each_i64
	movq %rax, %rcx
	movl %ebx, %eax
	jmp .LBB91_11
.LBB91_9:
	xorl %edx, %edx
	xorl %ecx, %ecx
.LBB91_11:
	movq %rcx, (%r14)
	movq %rdx, 8(%r14)
	addl $1073741824, %eax
	addq $24, %rsp
	popq %rbx
	popq %r14
	retq
.Lfunc_end91:
	.size tags_library_get_reserved, .Lfunc_end91-tags_library_get_reserved
	.section .text.tags_library_get_shallow,"ax",@progbits
	.globl tags_library_get_shallow
	.p2align 4
	.type tags_library_get_shallow,@function
tags_library_get_shallow:
	pushq %r14
	pushq %rbx
	subq $24, %rsp
	movl $-12, %eax
	cmpq $1, (%rdi)
	jne .LBB92_12
	movl %esi, %ecx
	movq 8(%rdi), %rbx
	movzbl (%rbx), %esi
	cmpl $2, %esi
	je .LBB92_13
	cmpl $1, %esi
	je .LBB92_12
	movq %rdx, %r14
	xorps %xmm0, %xmm0
	movaps %xmm0, (%rsp)
	movq $0, 16(%rsp)
	movq 8(%rbx), %rsi
	addq $8, %rsi
	leaq 16(%rbx), %rdx
	movq %rsp, %rdi
	callq tag_pool.pool.Pool.get_shallow_quietly_i64_core.clone.U64Clone
	cmpb $0, (%rsp)
	je .LBB92_5
	movzbl 1(%rsp), %eax
	leaq .Lswitch.table.tags_library_wait_on_reserved.286(%rip), %rcx
	movl (%rcx,%rax,4), %eax
.LBB92_12:
	addq $24, %rsp
	popq %rbx
	popq %r14
	retq
.LBB92_13:
	addq $8, %rbx
	movq %rbx, %rdi
	movl %ecx, %esi
	addq $24, %rsp
	popq %rbx
	popq %r14
	jmp tag_c.gets.CachedMemberGetCalls.get_shallow
.LBB92_5:
	movq 16(%rsp), %rcx
	cmpb $1, 8(%rsp)
	movl $-10, %eax
	jne .LBB92_7
	movl 12(%rsp), %eax
.LBB92_7:
	testq %rcx, %rcx
	je .LBB92_12
	movq 8(%rbx), %rdi
	movq 120(%rdi), %rdx
	movq 8(%rdx), %rdx
	testq %rdx, %rdx
	je .LBB92_9
	addq $120, %rdi
	cmpq $64, %rcx
	movl $64, %esi
	cmovbq %rcx, %rsi
	movl %eax, %ebx
	callq tag_bell.telling.tell_each_i64
	movq %rax, %rcx
	movl %ebx, %eax
	jmp .LBB92_11
.LBB92_9:
	xorl %edx, %edx
	xorl %ecx, %ecx
.LBB92_11:
	movq %rcx, (%r14)
	movq %rdx, 8(%r14)
	addl $1073741824, %eax
	addq $24, %rsp
	popq %rbx
	popq %r14
	retq
.Lfunc_end92:
	.size tags_library_get_shallow, .Lfunc_end92-tags_library_get_shallow
	.section .text.tags_library_get_write,"ax",@progbits
	.globl tags_library_get_write
	.p2align 4
	.type tags_library_get_write,@function
tags_library_get_write:
	pushq %rbp
	pushq %r15
	pushq %r14
	pushq %r13
	pushq %r12
	pushq %rbx
	subq $40, %rsp
	movl $-12, %eax
	cmpq $1, (%rdi)
	jne .LBB93_32
	movq 8(%rdi), %rbx
	movzbl (%rbx), %ecx
	cmpl $2, %ecx
	je .LBB93_30
	cmpl $1, %ecx
	je .LBB93_32
	movq 8(%rbx), %r14
	xorps %xmm0, %xmm0
	movaps %xmm0, 16(%rsp)
	movaps %xmm0, (%rsp)
	movq 264(%rbx), %rax
	cmpq 296(%rbx), %rax
	jne .LBB93_4
	movl $-7, %eax
	jmp .LBB93_32
.LBB93_30:
	addq $8, %rbx
	movq %rbx, %rdi
	addq $40, %rsp
	popq %rbx
	popq %r12
	popq %r13
	popq %r14
	popq %r15
	popq %rbp
	jmp tag_c.pairs.CachedMemberPairCalls.get_write
.LBB93_4:
	leaq 232(%rbx), %r13
	leaq 120(%r14), %r9
	movl 184(%r14), %r8d
	movl 232(%rbx), %r11d
	xorl %eax, %eax
	cmpl %r11d, %r8d
	jbe .LBB93_7
	testb $1, 236(%rbx)
	movl $0, %edi
	movl $0, %r10d
	jne .LBB93_13
	movl 188(%r14), %ecx
	shrl %cl, %r11d
	movq (%r9), %rax
	movq %r11, %r15
	shlq $7, %r15
	movq 576(%rax,%r15), %rax
	notq %rax
	movl $64, %edi
	rep  bsfq %rax, %rdi
	movl %edi, %ebp
	shrl %cl, %ebp
	movl $1, %eax
	testl %ebp, %ebp
	jne .LBB93_7
	movl %r11d, %r12d
	shll %cl, %r12d
	addl %edi, %r12d
	cmpl %r12d, %r8d
	jbe .LBB93_7
	movq (%r9), %rbp
	movl $1, %r13d
	movl %edi, %ecx
	shlq %cl, %r13
	.p2align 4
.LBB93_10:
	movq 576(%rbp,%r15), %r10
	movq %r10, %rcx
	orq %r13, %rcx
	movq %r10, %rax
	lock  cmpxchgq %rcx, 576(%rbp,%r15)
	jne .LBB93_10
	testq %r13, %r10
	je .LBB93_15
	incl %edi
	movl $2, %eax
	leaq 232(%rbx), %r13
	jmp .LBB93_13
.LBB93_7:
	xorl %edi, %edi
	xorl %r10d, %r10d
.LBB93_13:
	movq %rsi, %r12
	movq %rdx, %r15
	leaq 248(%rbx), %rdx
	movl %eax, (%rsp)
	movl %edi, 4(%rsp)
	movq %r10, 8(%rsp)
	leaq 16(%rsp), %rdi
	movq %rsp, %r8
	movq %r9, %rsi
	movq %r13, %rcx
	callq tag_search.on_map.finish_i64
	movq 24(%rsp), %r8
	movl $-10, %eax
	cmpb $1, 16(%rsp)
	jne .LBB93_14
	movl 20(%rsp), %eax
	movq %r15, %rdx
	movq %r12, %rsi
	addl 232(%r14), %eax
	movq 8(%rbx), %rdi
	cmpl %eax, 236(%rdi)
	jbe .LBB93_25
.LBB93_20:
	movl %eax, %r9d
	subl 232(%rdi), %r9d
	jae .LBB93_23
	movzbl 44(%rbx), %ecx
	movl %eax, %r9d
	shrl %cl, %r9d
	movq 64(%rbx), %r10
	movl $-1, %r11d
	shll %cl, %r11d
	movq (%r10,%r9,8), %rcx
	notl %r11d
	andl %eax, %r11d
	btq %r11, %rcx
	jae .LBB93_25
	movl 48(%rbx), %ecx
	movl %eax, %r9d
	leaq (%rcx,%r9,8), %rcx
	movq 8(%rdi), %r10
	movq (%r10,%rcx,8), %r10
	movq 16(%rdi), %r10
	movq %rsi, (%r10,%r9,8)
	movq 8(%rdi), %rsi
	movq (%rsi,%rcx,8), %rcx
	jmp .LBB93_25
.LBB93_14:
	movq %r15, %rdx
.LBB93_25:
	testq %r8, %r8
	je .LBB93_32
	movq 8(%rbx), %rdi
	movq 120(%rdi), %rcx
	movq 8(%rcx), %rcx
	testq %rcx, %rcx
	je .LBB93_27
	addq $120, %rdi
	cmpq $64, %r8
	movl $64, %esi
	cmovbq %r8, %rsi
	movq %rdx, %rbx
	movq %rcx, %rdx
	movq %rax, %r14
	callq tag_bell.telling.tell_each_i64
	movq %rax, %rsi
	movq %r14, %rax
	movq %rdx, %rcx
	movq %rbx, %rdx
	jmp .LBB93_29
.LBB93_27:
	xorl %ecx, %ecx
	xorl %esi, %esi
.LBB93_29:
	movq %rsi, (%rdx)
	movq %rcx, 8(%rdx)
	addl $1073741824, %eax
.LBB93_32:
	addq $40, %rsp
	popq %rbx
	popq %r12
	popq %r13
	popq %r14
	popq %r15
	popq %rbp
	retq
.LBB93_23:
	movzbl 252(%rbx), %ecx
	movl %r9d, %r10d
	shrl %cl, %r10d
	movq 272(%rbx), %r11
	movl $-1, %r14d
	shll %cl, %r14d
	movq (%r11,%r10,8), %rcx
	notl %r14d
	andl %r9d, %r14d
	btq %r14, %rcx
	jae .LBB93_25
	movl 256(%rbx), %ecx
	movl %r9d, %r9d
	leaq (%rcx,%r9,8), %rcx
	movq 120(%rdi), %r10
	movq (%r10,%rcx,8), %r10
	movq 128(%rdi), %r10
	movq %rsi, (%r10,%r9,8)
	movq 120(%rdi), %rsi
	movq (%rsi,%rcx,8), %rcx
	jmp .LBB93_25
.LBB93_15:
	movq 272(%rbx), %rax
	orq %r13, (%rax,%r11,8)
	incq 296(%rbx)
	movq %r12, %rax
	cmpl 232(%rbx), %eax
	jne .LBB93_17
	leal 1(%rax), %ecx
	decl %r8d
	xorl %edi, %edi
	cmpl %r8d, %ecx
	cmovbl %ecx, %edi
	leaq 232(%rbx), %rcx
	movl %edi, (%rcx)
.LBB93_17:
	xorl %r8d, %r8d
	addl 232(%r14), %eax
	movq 8(%rbx), %rdi
	cmpl %eax, 236(%rdi)
	ja .LBB93_20
	jmp .LBB93_25
.Lfunc_end93:
	.size tags_library_get_write, .Lfunc_end93-tags_library_get_write
	.section .text.tags_library_holds,"ax",@progbits
	.globl tags_library_holds
	.p2align 4
	.type tags_library_holds,@function
tags_library_holds:
	movl $-12, %eax
	cmpq $1, (%rdi)
	jne .LBB94_8
	movq 8(%rdi), %rdi
	movzbl (%rdi), %ecx
	cmpl $2, %ecx
	je .LBB94_9
	cmpl $1, %ecx
	je .LBB94_8
	movq 8(%rdi), %rcx
	movl $-1, %eax
	cmpl %esi, 256(%rcx)
	jbe .LBB94_8
	movl %esi, %edx
	subl 16(%rdi), %edx
	jae .LBB94_6
	movzbl 44(%rdi), %ecx
	movl %esi, %r8d
	shrl %cl, %r8d
	shll %cl, %eax
	notl %eax
	andl %esi, %eax
	movl $1, %edx
	movl %eax, %ecx
	shlq %cl, %rdx
	movq 64(%rdi), %rax
	andq (%rax,%r8,8), %rdx
	jmp .LBB94_7
.LBB94_9:
	addq $8, %rdi
	jmp tag_c.looks.CachedMemberLookCalls.holds
.LBB94_6:
	movzbl 252(%rdi), %ecx
	movl %edx, %esi
	shrl %cl, %esi
	shll %cl, %eax
	notl %eax
	andl %edx, %eax
	movl $1, %edx
	movl %eax, %ecx
	shlq %cl, %rdx
	movq 272(%rdi), %rax
	andq (%rax,%rsi,8), %rdx
.LBB94_7:
	xorl %eax, %eax
	testq %rdx, %rdx
	setne %al
.LBB94_8:
	retq
.Lfunc_end94:
	.size tags_library_holds, .Lfunc_end94-tags_library_holds
	.section .text.tags_library_is_cached,"ax",@progbits
	.globl tags_library_is_cached
	.p2align 4
	.type tags_library_is_cached,@function
tags_library_is_cached:
	movl $-12, %eax
	cmpq $1, (%rdi)
	jne .LBB95_2
	movq 8(%rdi), %rax
	movzbl (%rax), %eax
	leaq .Lswitch.table.tags_library_is_cached(%rip), %rcx
	movl (%rcx,%rax,4), %eax
.LBB95_2:
	retq
.Lfunc_end95:
	.size tags_library_is_cached, .Lfunc_end95-tags_library_is_cached
	.section .text.tags_library_is_told,"ax",@progbits
	.globl tags_library_is_told
	.p2align 4
	.type tags_library_is_told,@function
tags_library_is_told:
	movl $-12, %eax
	cmpq $1, (%rdi)
	jne .LBB96_5
	movq 8(%rdi), %rcx
	movzbl (%rcx), %edx
	cmpl $2, %edx
	je .LBB96_6
	cmpl $1, %edx
	je .LBB96_5
	movq 8(%rcx), %rax
	movq 120(%rax), %rax
	movl 260(%rcx), %ecx
	movq 64(%rax,%rcx,8), %rcx
	jmp .LBB96_4
.LBB96_6:
	movq 8(%rcx), %rax
	movl 300(%rcx), %ecx
	movq 120(%rax), %rax
	movq 64(%rax,%rcx,8), %rcx
.LBB96_4:
	andl $3, %ecx
	xorl %eax, %eax
	cmpl $1, %ecx
	setne %al
.LBB96_5:
	retq
.Lfunc_end96:
	.size tags_library_is_told, .Lfunc_end96-tags_library_is_told
	.section .text.tags_library_number,"ax",@progbits
	.globl tags_library_number
	.p2align 4
	.type tags_library_number,@function
tags_library_number:
	movl $-12, %eax
	cmpq $1, (%rdi)
	jne .LBB97_5
	movq 8(%rdi), %rcx
	movzbl (%rcx), %edx
	cmpl $2, %edx
	je .LBB97_4
	cmpl $1, %edx
	je .LBB97_5
	movl 240(%rcx), %eax
	retq
.LBB97_4:
	movl 280(%rcx), %eax
.LBB97_5:
	retq
.Lfunc_end97:
	.size tags_library_number, .Lfunc_end97-tags_library_number
	.section .text.tags_library_pool_busy,"ax",@progbits
	.globl tags_library_pool_busy
	.p2align 4
	.type tags_library_pool_busy,@function
tags_library_pool_busy:
	pushq %rbp
	pushq %r15
	pushq %r14
	pushq %r13
	pushq %r12
	pushq %rbx
	pushq %rax
	xorl %ecx, %ecx
	testq %rsi, %rsi
	sete %r8b
	movl $-12, %eax
	cmpq $1, (%rdi)
	jne .LBB98_24
	movq 8(%rdi), %rdi
	cmpb $1, (%rdi)
	jne .LBB98_24
	movq 8(%rdi), %rbx
	movl 256(%rbx), %edi
	addq $63, %rdi
	shrq $6, %rdi
	movl $-17, %eax
	cmpq %rdi, %rdx
	jb .LBB98_24
	movb %r8b, %cl
	shll $12, %ecx
	addq %rcx, %rsi
	testq %rdx, %rdx
	je .LBB98_7
	cmpq $1, %rdx
	je .LBB98_6
	leaq -8(,%rdx,8), %rax
	movq %rsi, %rdi
	movq %rsi, %r14
	xorl %esi, %esi
	movq %rdx, %r15
	movq %rax, %rdx
	callq memset@PLT
	movq %r15, %rdx
	movq %r14, %rsi
.LBB98_6:
	movq $0, -8(%rsi,%rdx,8)
.LBB98_7:
	movl 72(%rbx), %r14d
	movl 76(%rbx), %ecx
	movl $1, %r15d
	shll %cl, %r15d
	leal (%r14,%r15), %eax
	decl %eax
	movl %ecx, 4(%rsp)
	shrl %cl, %eax
	movl $1, %edx
	xorl %edi, %edi
	movl $0, %ebp
	testl %eax, %eax
	je .LBB98_15
	movl %eax, %r12d
	xorl %r13d, %r13d
	xorl %ebp, %ebp
	jmp .LBB98_9
	.p2align 4
.LBB98_14:
	movq %r8, %rax
	shrq %rax
	movabsq $6148914691236517205, %rcx
	andq %rcx, %rax
	subq %rax, %r8
	movq %r8, %rax
	movabsq $3689348814741910323, %rcx
	andq %rcx, %rax
	shrq $2, %r8
	andq %rcx, %r8
	addq %rax, %r8
	movq %r8, %rax
	shrq $4, %rax
	addq %r8, %rax
	movabsq $1085102592571150095, %rcx
	andq %rcx, %rax
	movabsq $72340172838076673, %rcx
	imulq %rcx, %rax
	shrq $56, %rax
	addl %eax, %ebp
	incq %r13
	cmpq %r12, %r13
	je .LBB98_15
.LBB98_9:
	movq 8(%rbx), %rax
	movq %r13, %r8
	shlq $7, %r8
	movq 576(%rax,%r8), %r10
	movq 8(%rbx), %rax
	movl %r13d, %r11d
	movl 4(%rsp), %ecx
	shll %cl, %r11d
	movq 640(%rax,%r8), %r8
	movl %r14d, %eax
	subl %r11d, %eax
	cmpl %eax, %r15d
	cmovbl %r15d, %eax
	movl %eax, %ecx
	negb %cl
	shlq %cl, %r10
	shrq %cl, %r10
	notq %r8
	andq %r10, %r8
	cmpl %r11d, %r14d
	je .LBB98_14
	movl %eax, %r10d
	movl %r11d, %r11d
	xorl %eax, %eax
	jmp .LBB98_11
	.p2align 4
.LBB98_13:
	incq %rax
	cmpq %rax, %r10
	je .LBB98_14
.LBB98_11:
	btq %rax, %r8
	jae .LBB98_13
	leal (%r11,%rax), %ecx
	movl $1, %r9d
	shlq %cl, %r9
	shrl $6, %ecx
	orq %r9, (%rsi,%rcx,8)
	jmp .LBB98_13
.LBB98_15:
	movl 188(%rbx), %eax
	movl %eax, %ecx
	shll %cl, %edx
	movl 184(%rbx), %r14d
	leal (%r14,%rdx), %r8d
	decl %r8d
	shrl %cl, %r8d
	testl %r8d, %r8d
	je .LBB98_23
	movl 232(%rbx), %ecx
	movl %ecx, 4(%rsp)
	movl %r8d, %r12d
	xorl %r10d, %r10d
	xorl %edi, %edi
	jmp .LBB98_17
	.p2align 4
.LBB98_22:
	movq %r8, %rcx
	shrq %rcx
	movabsq $6148914691236517205, %r9
	andq %r9, %rcx
	subq %rcx, %r8
	movq %r8, %rcx
	movabsq $3689348814741910323, %r9
	andq %r9, %rcx
	shrq $2, %r8
	andq %r9, %r8
	addq %rcx, %r8
	movq %r8, %rcx
	shrq $4, %rcx
	addq %r8, %rcx
	movabsq $1085102592571150095, %r8
	andq %r8, %rcx
	movabsq $72340172838076673, %r8
	imulq %r8, %rcx
	shrq $56, %rcx
	addl %ecx, %edi
	incq %r10
	cmpq %r12, %r10
	je .LBB98_23
.LBB98_17:
	movq 120(%rbx), %rcx
	movq %r10, %r8
	shlq $7, %r8
	movq 576(%rcx,%r8), %r9
	movq 120(%rbx), %r11
	movl %r10d, %r13d
	movl %eax, %ecx
	shll %cl, %r13d
	movq 640(%r11,%r8), %r8
	movl %r14d, %r11d
	subl %r13d, %r11d
	cmpl %r11d, %edx
	cmovbl %edx, %r11d
	movl %r11d, %ecx
	negb %cl
	shlq %cl, %r9
	shrq %cl, %r9
	notq %r8
	andq %r9, %r8
	cmpl %r13d, %r14d
	je .LBB98_22
	movl %r11d, %r11d
	addl 4(%rsp), %r13d
	xorl %r15d, %r15d
	jmp .LBB98_19
	.p2align 4
.LBB98_21:
	incq %r15
	cmpq %r15, %r11
	je .LBB98_22
.LBB98_19:
	btq %r15, %r8
	jae .LBB98_21
	leal (%r15,%r13), %ecx
	movl $1, %r9d
	shlq %cl, %r9
	shrl $6, %ecx
	orq %r9, (%rsi,%rcx,8)
	jmp .LBB98_21
.LBB98_23:
	addl %ebp, %edi
	cmpl $10240, %edi
	movl $10240, %eax
	cmovbl %edi, %eax
.LBB98_24:
	addq $8, %rsp
	popq %rbx
	popq %r12
	popq %r13
	popq %r14
	popq %r15
	popq %rbp
	retq
.Lfunc_end98:
	.size tags_library_pool_busy, .Lfunc_end98-tags_library_pool_busy
	.section .rodata.cst16,"aM",@progbits,16
	.p2align 4, 0x0
.LCPI99_0:
	.zero 16,85
.LCPI99_1:
	.zero 16,51
.LCPI99_2:
	.zero 16,15
	.section .text.tags_library_pool_show,"ax",@progbits
	.globl tags_library_pool_show
	.p2align 4
	.type tags_library_pool_show,@function
tags_library_pool_show:
	movl $-12, %eax
	cmpq $1, (%rdi)
	jne .LBB99_11
	movq 8(%rdi), %rcx
	cmpb $1, (%rcx)
	jne .LBB99_11
	testl %esi, %esi
	je .LBB99_3
	movl $-16, %eax
	cmpl $1, %esi
	jne .LBB99_11
	xorl %esi, %esi
	jmp .LBB99_6
.LBB99_3:
	movl $112, %esi
.LBB99_6:
	pushq %rbp
	pushq %r15
	pushq %r14
	pushq %r13
	pushq %r12
	pushq %rbx
	movq 8(%rcx), %r8
	movl 76(%r8,%rsi), %eax
	movl $1, %edi
	movl %eax, %ecx
	shll %cl, %edi
	movl 72(%r8,%rsi), %r10d
	leal (%r10,%rdi), %r9d
	decl %r9d
	shrl %cl, %r9d
	testl %r9d, %r9d
	je .LBB99_7
	movl %r9d, %r11d
	pxor %xmm1, %xmm1
	xorl %ebx, %ebx
	xorl %r14d, %r14d
	pxor %xmm0, %xmm0
	.p2align 4
.LBB99_9:
	movq 8(%r8,%rsi), %rcx
	movq 576(%rcx,%r14), %r15
	movq 8(%r8,%rsi), %r12
	movl %ebx, %ebp
	movl %eax, %ecx
	shll %cl, %ebp
	movl %r10d, %ecx
	subl %ebp, %ecx
	cmpl %ecx, %edi
	movq 640(%r12,%r14), %r12
	cmovbl %edi, %ecx
	negb %cl
	movq $-1, %r13
	shrq %cl, %r13
	movq %r12, %rcx
	notq %rcx
	andq %r15, %rcx
	andq %r13, %r12
	andq %r13, %rcx
	movq %rcx, %xmm2
	movq %r12, %xmm3
	punpcklqdq %xmm3, %xmm2
	movdqa %xmm2, %xmm3
	psrlw $1, %xmm3
	pand .LCPI99_0(%rip), %xmm3
	psubb %xmm3, %xmm2
	movdqa .LCPI99_1(%rip), %xmm3
	movdqa %xmm2, %xmm4
	pand %xmm3, %xmm4
	psrlw $2, %xmm2
	pand %xmm3, %xmm2
	paddb %xmm4, %xmm2
	movdqa %xmm2, %xmm3
	psrlw $4, %xmm3
	paddb %xmm2, %xmm3
	pand .LCPI99_2(%rip), %xmm3
	psadbw %xmm1, %xmm3
	pshufd $232, %xmm3, %xmm2
	paddd %xmm2, %xmm0
	incq %rbx
	subq $-128, %r14
	cmpq %rbx, %r11
	jne .LBB99_9
	jmp .LBB99_10
.LBB99_7:
	pxor %xmm0, %xmm0
.LBB99_10:
	movl %r10d, (%rdx)
	movq %xmm0, 4(%rdx)
	movl %edi, 12(%rdx)
	movl %r9d, 16(%rdx)
	xorl %eax, %eax
	popq %rbx
	popq %r12
	popq %r13
	popq %r14
	popq %r15
	popq %rbp
.LBB99_11:
	retq
.Lfunc_end99:
	.size tags_library_pool_show, .Lfunc_end99-tags_library_pool_show
	.section .text.tags_library_post,"ax",@progbits
	.globl tags_library_post
	.p2align 4
	.type tags_library_post,@function
tags_library_post:
	movl $-12, %eax
	cmpq $1, (%rdi)
	jne .LBB100_5
	movl %esi, %ecx
	movq 8(%rdi), %rsi
	movzbl (%rsi), %edi
	cmpl $2, %edi
	je .LBB100_6
	cmpl $1, %edi
	je .LBB100_5
	pushq %rax
	movq 8(%rsi), %rdi
	addq $8, %rdi
	addq $16, %rsi
	movl %ecx, %edx
	callq tag_pool.pool.Pool.post_noted_i64_core.clone.U64Clone
	movl %eax, %ecx
	xorl %eax, %eax
	cmpb $1, %cl
	leaq 8(%rsp), %rsp
	jne .LBB100_5
	movzbl %dl, %eax
	leaq .Lswitch.table.tags_library_wait_on_reserved.286(%rip), %rcx
	movl (%rcx,%rax,4), %eax
.LBB100_5:
	retq
.LBB100_6:
	addq $8, %rsi
	movq %rsi, %rdi
	movl %ecx, %esi
	jmp tag_c.values.CachedMemberSlotCalls.post
.Lfunc_end100:
	.size tags_library_post, .Lfunc_end100-tags_library_post
	.section .text.tags_library_post_quietly,"ax",@progbits
	.globl tags_library_post_quietly
	.p2align 4
	.type tags_library_post_quietly,@function
tags_library_post_quietly:
	movl $-12, %eax
	cmpq $1, (%rdi)
	jne .LBB101_5
	movl %esi, %edx
	movq 8(%rdi), %rsi
	movzbl (%rsi), %ecx
	cmpl $2, %ecx
	je .LBB101_6
	cmpl $1, %ecx
	je .LBB101_5
	pushq %rax
	movq 8(%rsi), %rdi
	addq $8, %rdi
	addq $16, %rsi
	callq tag_pool.pool.Pool.post_noted_i64_core.clone.U64Clone
	movl %eax, %ecx
	xorl %eax, %eax
	cmpb $1, %cl
	leaq 8(%rsp), %rsp
	jne .LBB101_5
	movzbl %dl, %eax
	leaq .Lswitch.table.tags_library_wait_on_reserved.286(%rip), %rcx
	movl (%rcx,%rax,4), %eax
.LBB101_5:
	retq
.LBB101_6:
	addq $8, %rsi
	movq %rsi, %rdi
	movl %edx, %esi
	jmp tag_c.values.CachedMemberSlotCalls.post_quietly
.Lfunc_end101:
	.size tags_library_post_quietly, .Lfunc_end101-tags_library_post_quietly
	.section .text.tags_library_read,"ax",@progbits
	.globl tags_library_read
	.p2align 4
	.type tags_library_read,@function
tags_library_read:
	movl $-12, %eax
	cmpq $1, (%rdi)
	jne .LBB102_11
	movq 8(%rdi), %rdi
	movzbl (%rdi), %ecx
	cmpl $2, %ecx
	je .LBB102_7
	cmpl $1, %ecx
	je .LBB102_11
	movq 8(%rdi), %r8
	movl $-1, %eax
	cmpl %esi, 236(%r8)
	jbe .LBB102_11
	movl %esi, %eax
	subl 232(%r8), %eax
	jae .LBB102_8
	movzbl 44(%rdi), %ecx
	movl %esi, %eax
	shrl %cl, %eax
	movq 64(%rdi), %r9
	movl $-1, %r10d
	shll %cl, %r10d
	movq (%r9,%rax,8), %rax
	notl %r10d
	andl %esi, %r10d
	btq %r10, %rax
	jae .LBB102_13
	movl 48(%rdi), %eax
	movl %esi, %ecx
	leaq (%rax,%rcx,8), %rsi
	movq 8(%r8), %rax
	movq (%rax,%rsi,8), %rax
	movq 8(%r8), %rdi
	movq 16(%r8), %rax
	movq (%rax,%rcx,8), %rax
	movq (%rdi,%rsi,8), %rcx
	jmp .LBB102_10
.LBB102_7:
	addq $8, %rdi
	jmp tag_c.values.CachedMemberSlotCalls.read
.LBB102_8:
	movzbl 252(%rdi), %ecx
	movl %eax, %esi
	shrl %cl, %esi
	movq 272(%rdi), %r9
	movl $-1, %r10d
	shll %cl, %r10d
	movq (%r9,%rsi,8), %rcx
	notl %r10d
	andl %eax, %r10d
	btq %r10, %rcx
	jae .LBB102_13
	movl 256(%rdi), %ecx
	movl %eax, %eax
	leaq (%rcx,%rax,8), %rcx
	movq 120(%r8), %rsi
	movq (%rsi,%rcx,8), %rsi
	movq 120(%r8), %rsi
	movq 128(%r8), %rdi
	movq (%rdi,%rax,8), %rax
	movq (%rsi,%rcx,8), %rcx
.LBB102_10:
	movq %rax, (%rdx)
	xorl %eax, %eax
.LBB102_11:
	retq
.LBB102_13:
	movl $-3, %eax
	retq
.Lfunc_end102:
	.size tags_library_read, .Lfunc_end102-tags_library_read
	.section .text.tags_library_read_clear,"ax",@progbits
	.globl tags_library_read_clear
	.p2align 4
	.type tags_library_read_clear,@function
tags_library_read_clear:
	pushq %rbx
	movl $-12, %eax
	cmpq $1, (%rdi)
	jne .LBB103_14
	movq 8(%rdi), %rdi
	movzbl (%rdi), %r8d
	cmpl $2, %r8d
	je .LBB103_7
	cmpl $1, %r8d
	je .LBB103_14
	movq 8(%rdi), %r9
	movl $-1, %eax
	cmpl %esi, 236(%r9)
	jbe .LBB103_14
	movq %rcx, %r8
	movl %esi, %eax
	subl 232(%r9), %eax
	jae .LBB103_8
	movzbl 44(%rdi), %ecx
	movl %esi, %eax
	shrl %cl, %eax
	movq 64(%rdi), %r10
	movl $-1, %r11d
	shll %cl, %r11d
	movq (%r10,%rax,8), %rax
	notl %r11d
	andl %esi, %r11d
	btq %r11, %rax
	jae .LBB103_13
	movl 48(%rdi), %eax
	movl %esi, %ecx
	leaq (%rax,%rcx,8), %r10
	movq 8(%r9), %rax
	movq (%rax,%r10,8), %rax
	movq 8(%r9), %r11
	movq 16(%r9), %rax
	movq (%rax,%rcx,8), %rax
	movq (%r11,%r10,8), %rcx
	jmp .LBB103_10
.LBB103_7:
	addq $8, %rdi
	popq %rbx
	jmp tag_c.pairs.CachedMemberPairCalls.read_clear
.LBB103_8:
	movzbl 252(%rdi), %ecx
	movl %eax, %r10d
	shrl %cl, %r10d
	movq 272(%rdi), %r11
	movl $-1, %ebx
	shll %cl, %ebx
	movq (%r11,%r10,8), %rcx
	notl %ebx
	andl %eax, %ebx
	btq %rbx, %rcx
	jae .LBB103_13
	movl 256(%rdi), %ecx
	movl %eax, %eax
	leaq (%rcx,%rax,8), %rcx
	movq 120(%r9), %r10
	movq (%r10,%rcx,8), %r10
	movq 120(%r9), %r10
	movq 128(%r9), %r9
	movq (%r9,%rax,8), %rax
	movq (%r10,%rcx,8), %rcx
.LBB103_10:
	movq %rax, (%rdx)
	movq 8(%rdi), %rdx
	movl %esi, %r9d
	subl 232(%rdx), %r9d
	jae .LBB103_15
	movzbl 44(%rdi), %ecx
	movl %esi, %r9d
	shrl %cl, %r9d
	movl $-1, %eax
	shll %cl, %eax
	notl %eax
	andl %esi, %eax
	movl $1, %r10d
	movl %eax, %ecx
	shlq %cl, %r10
	movq 8(%rdx), %rax
	movq %r9, %rcx
	shlq $7, %rcx
	lock  addq %r10, 640(%rax,%rcx)
	movq 64(%rdi), %rax
	subq %r10, (%rax,%r9,8)
	incq 96(%rdi)
	cmpb $0, 28(%rdi)
	jne .LBB103_17
	movl %esi, 24(%rdi)
	jmp .LBB103_17
.LBB103_13:
	movl $-3, %eax
.LBB103_14:
	popq %rbx
	retq
.LBB103_15:
	movzbl 252(%rdi), %ecx
	movl %r9d, %r10d
	shrl %cl, %r10d
	movl $-1, %eax
	shll %cl, %eax
	notl %eax
	andl %r9d, %eax
	movl $1, %r11d
	movl %eax, %ecx
	shlq %cl, %r11
	movq 120(%rdx), %rax
	movq %r10, %rcx
	shlq $7, %rcx
	lock  addq %r11, 640(%rax,%rcx)
	movq 272(%rdi), %rax
	subq %r11, (%rax,%r10,8)
	incq 304(%rdi)
	cmpb $0, 236(%rdi)
	jne .LBB103_17
	movl %r9d, 232(%rdi)
.LBB103_17:
	movq 8(%rdi), %rax
	cmpl 232(%rax), %esi
	movq %r8, %rcx
	jae .LBB103_20
	movq 8(%rax), %rax
	movq 8(%rax), %rax
	testq %rax, %rax
	je .LBB103_23
	movq 8(%rdi), %rdi
	movl $1, %esi
	movl $1, %edx
	popq %rbx
	jmp tag_c.telling.MemberTellingCalls.tell
.LBB103_20:
	movq 120(%rax), %rax
	movq 8(%rax), %rax
	testq %rax, %rax
	je .LBB103_23
	movq 8(%rdi), %rdi
	xorl %esi, %esi
	movl $1, %edx
	popq %rbx
	jmp tag_c.telling.MemberTellingCalls.tell
.LBB103_23:
	xorl %eax, %eax
	popq %rbx
	retq
.Lfunc_end103:
	.size tags_library_read_clear, .Lfunc_end103-tags_library_read_clear
	.section .text.tags_library_see_to,"ax",@progbits
	.globl tags_library_see_to
	.p2align 4
	.type tags_library_see_to,@function
tags_library_see_to:
	movl $-12, %eax
	cmpq $1, (%rdi)
	jne .LBB104_12
	pushq %rbx
	movq 8(%rdi), %rdi
	movzbl (%rdi), %ecx
	cmpl $2, %ecx
	je .LBB104_7
	cmpl $1, %ecx
	je .LBB104_11
	movq 8(%rdi), %rdi
	movq 120(%rdi), %rax
	movq 8(%rax), %rcx
	xorl %eax, %eax
	testq %rcx, %rcx
	je .LBB104_4
	addq $120, %rdi
	movq %rdx, %rbx
	movq %rcx, %rdx
	callq tag_bell.telling.tell_each_i64
	movq %rax, %rsi
	xorl %eax, %eax
	movq %rdx, %rcx
	movq %rbx, %rdx
	jmp .LBB104_6
.LBB104_7:
	movq 8(%rdi), %rcx
	movq 120(%rcx), %rax
	movq 8(%rax), %r8
	xorl %eax, %eax
	testq %r8, %r8
	je .LBB104_8
	addq $8, %rcx
	addq $16, %rdi
	movl %esi, %eax
	movq %rcx, %rsi
	movq %rdx, %rbx
	movl %eax, %edx
	callq tag_cache.cache.Cache.give_back_and_tell_i64_core.clone.U64Clone
	movq %rax, %rcx
	xorl %eax, %eax
	movq %rdx, %rsi
	movq %rbx, %rdx
	jmp .LBB104_10
.LBB104_8:
	xorl %ecx, %ecx
	xorl %esi, %esi
.LBB104_10:
	movq %rcx, (%rdx)
	movq %rsi, 8(%rdx)
	jmp .LBB104_11
.LBB104_4:
	xorl %ecx, %ecx
	xorl %esi, %esi
.LBB104_6:
	movq %rsi, (%rdx)
	movq %rcx, 8(%rdx)
.LBB104_11:
	popq %rbx
.LBB104_12:
	retq
.Lfunc_end104:
	.size tags_library_see_to, .Lfunc_end104-tags_library_see_to
	.section .text.tags_library_see_to_reserved,"ax",@progbits
	.globl tags_library_see_to_reserved
	.p2align 4
	.type tags_library_see_to_reserved,@function
tags_library_see_to_reserved:
	movl $-12, %eax
	cmpq $1, (%rdi)
	jne .LBB105_12
	pushq %rbx
	movq 8(%rdi), %rcx
	movzbl (%rcx), %edi
	cmpl $2, %edi
	je .LBB105_7
	cmpl $1, %edi
	je .LBB105_11
	movq 8(%rcx), %rdi
	movq 8(%rdi), %rax
	movq 8(%rax), %rcx
	xorl %eax, %eax
	testq %rcx, %rcx
	je .LBB105_4
	addq $8, %rdi
	movq %rdx, %rbx
	movq %rcx, %rdx
	callq tag_bell.telling.tell_each_i64
	movq %rax, %rsi
	xorl %eax, %eax
	movq %rdx, %rcx
	movq %rbx, %rdx
	jmp .LBB105_6
.LBB105_7:
	movq 8(%rcx), %rdi
	movq 8(%rdi), %rax
	movq 8(%rax), %rcx
	xorl %eax, %eax
	testq %rcx, %rcx
	je .LBB105_8
	addq $8, %rdi
	movq %rdx, %rbx
	movq %rcx, %rdx
	callq tag_bell.telling.tell_each_i64
	movq %rax, %rcx
	xorl %eax, %eax
	movq %rdx, %rsi
	movq %rbx, %rdx
	jmp .LBB105_10
.LBB105_8:
	xorl %ecx, %ecx
	xorl %esi, %esi
.LBB105_10:
	movq %rcx, (%rdx)
	movq %rsi, 8(%rdx)
	jmp .LBB105_11
.LBB105_4:
	xorl %ecx, %ecx
	xorl %esi, %esi
.LBB105_6:
	movq %rsi, (%rdx)
	movq %rcx, 8(%rdx)
.LBB105_11:
	popq %rbx
.LBB105_12:
	retq
.Lfunc_end105:
	.size tags_library_see_to_reserved, .Lfunc_end105-tags_library_see_to_reserved
	.section .rodata.cst16,"aM",@progbits,16
	.p2align 4, 0x0
.LCPI106_0:
	.zero 16,85
.LCPI106_1:
	.zero 16,51
.LCPI106_2:
	.zero 16,15
	.section .text.tags_library_show,"ax",@progbits
	.globl tags_library_show
	.p2align 4
	.type tags_library_show,@function
tags_library_show:
	movl $-12, %eax
	cmpq $1, (%rdi)
	jne .LBB106_12
	movq 8(%rdi), %rdi
	movzbl (%rdi), %ecx
	cmpl $2, %ecx
	je .LBB106_13
	cmpl $1, %ecx
	je .LBB106_12
	testl %esi, %esi
	je .LBB106_4
	movl $-16, %eax
	cmpl $1, %esi
	jne .LBB106_12
	xorl %esi, %esi
	jmp .LBB106_7
.LBB106_13:
	addq $8, %rdi
	jmp tag_c.looks.CachedMemberLookCalls.show
.LBB106_4:
	movl $112, %esi
.LBB106_7:
	pushq %rbp
	pushq %r15
	pushq %r14
	pushq %r13
	pushq %r12
	pushq %rbx
	movq 8(%rdi), %r8
	movl 76(%r8,%rsi), %eax
	movl $1, %edi
	movl %eax, %ecx
	shll %cl, %edi
	movl 72(%r8,%rsi), %r10d
	leal (%r10,%rdi), %r9d
	decl %r9d
	shrl %cl, %r9d
	testl %r9d, %r9d
	je .LBB106_8
	movl %r9d, %r11d
	pxor %xmm1, %xmm1
	xorl %ebx, %ebx
	xorl %r14d, %r14d
	pxor %xmm0, %xmm0
	.p2align 4
.LBB106_10:
	movq 8(%r8,%rsi), %rcx
	movq 576(%rcx,%r14), %r15
	movq 8(%r8,%rsi), %r12
	movl %ebx, %ebp
	movl %eax, %ecx
	shll %cl, %ebp
	movl %r10d, %ecx
	subl %ebp, %ecx
	cmpl %ecx, %edi
	movq 640(%r12,%r14), %r12
	cmovbl %edi, %ecx
	negb %cl
	movq $-1, %r13
	shrq %cl, %r13
	movq %r12, %rcx
	notq %rcx
	andq %r15, %rcx
	andq %r13, %r12
	andq %r13, %rcx
	movq %rcx, %xmm2
	movq %r12, %xmm3
	punpcklqdq %xmm3, %xmm2
	movdqa %xmm2, %xmm3
	psrlw $1, %xmm3
	pand .LCPI106_0(%rip), %xmm3
	psubb %xmm3, %xmm2
	movdqa .LCPI106_1(%rip), %xmm3
	movdqa %xmm2, %xmm4
	pand %xmm3, %xmm4
	psrlw $2, %xmm2
	pand %xmm3, %xmm2
	paddb %xmm4, %xmm2
	movdqa %xmm2, %xmm3
	psrlw $4, %xmm3
	paddb %xmm2, %xmm3
	pand .LCPI106_2(%rip), %xmm3
	psadbw %xmm1, %xmm3
	pshufd $232, %xmm3, %xmm2
	paddd %xmm2, %xmm0
	incq %rbx
	subq $-128, %r14
	cmpq %rbx, %r11
	jne .LBB106_10
	jmp .LBB106_11
.LBB106_8:
	pxor %xmm0, %xmm0
.LBB106_11:
	movl %r10d, (%rdx)
	movq %xmm0, 4(%rdx)
	movl %edi, 12(%rdx)
	movl %r9d, 16(%rdx)
	xorl %eax, %eax
	popq %rbx
	popq %r12
	popq %r13
	popq %r14
	popq %r15
	popq %rbp
.LBB106_12:
	retq
.Lfunc_end106:
	.size tags_library_show, .Lfunc_end106-tags_library_show
	.section .text.tags_library_take,"ax",@progbits
	.globl tags_library_take
	.p2align 4
	.type tags_library_take,@function
tags_library_take:
	movl $-12, %eax
	cmpq $1, (%rdi)
	jne .LBB107_7
	movq 8(%rdi), %rdi
	movzbl (%rdi), %ecx
	cmpl $2, %ecx
	je .LBB107_8
	cmpl $1, %ecx
	je .LBB107_7
	movq 8(%rdi), %rdx
	movl $-1, %eax
	cmpl %esi, 236(%rdx)
	jbe .LBB107_7
	movl %esi, %r8d
	subl 232(%rdx), %r8d
	jae .LBB107_9
	movl 44(%rdi), %ecx
	movl 48(%rdi), %eax
	movl %esi, %r8d
	shlq $6, %r8
	addq 8(%rdx), %r8
	xorl %edx, %edx
	xchgq %rdx, (%r8,%rax,8)
	xorl %eax, %eax
	testq %rdx, %rdx
	je .LBB107_12
	movl $-1, %edx
	shll %cl, %edx
	notl %edx
	andl %esi, %edx
	shrl %cl, %esi
	movl $1, %r8d
	movl %edx, %ecx
	shlq %cl, %r8
	movq 64(%rdi), %rcx
	orq %r8, (%rcx,%rsi,8)
.LBB107_7:
	retq
.LBB107_8:
	addq $8, %rdi
	jmp tag_c.values.CachedMemberSlotCalls.take
.LBB107_9:
	movl 252(%rdi), %ecx
	movl 256(%rdi), %eax
	movq %r8, %rsi
	shlq $6, %rsi
	addq 120(%rdx), %rsi
	xorl %edx, %edx
	xchgq %rdx, (%rsi,%rax,8)
	xorl %eax, %eax
	testq %rdx, %rdx
	je .LBB107_12
	movl $-1, %edx
	shll %cl, %edx
	notl %edx
	andl %r8d, %edx
	shrl %cl, %r8d
	movl $1, %esi
	movl %edx, %ecx
	shlq %cl, %rsi
	movq 272(%rdi), %rcx
	orq %rsi, (%rcx,%r8,8)
	retq
.LBB107_12:
	movl $-4, %eax
	retq
.Lfunc_end107:
	.size tags_library_take, .Lfunc_end107-tags_library_take
	.section .text.tags_library_write,"ax",@progbits
	.globl tags_library_write
	.p2align 4
	.type tags_library_write,@function
tags_library_write:
	movl $-12, %eax
	cmpq $1, (%rdi)
	jne .LBB108_11
	movq 8(%rdi), %rdi
	movzbl (%rdi), %r8d
	cmpl $2, %r8d
	je .LBB108_7
	cmpl $1, %r8d
	je .LBB108_11
	movq 8(%rdi), %r8
	movl $-1, %eax
	cmpl %esi, 236(%r8)
	jbe .LBB108_11
	movq %rcx, %rax
	movl %esi, %r9d
	subl 232(%r8), %r9d
	jae .LBB108_8
	movzbl 44(%rdi), %ecx
	movl %esi, %r9d
	shrl %cl, %r9d
	movq 64(%rdi), %r10
	movl $-1, %r11d
	shll %cl, %r11d
	movq (%r10,%r9,8), %rcx
	notl %r11d
	andl %esi, %r11d
	btq %r11, %rcx
	jae .LBB108_13
	movl 48(%rdi), %ecx
	movl %esi, %esi
	leaq (%rcx,%rsi,8), %rdi
	movq 8(%r8), %rcx
	movq (%rcx,%rdi,8), %rcx
	movq 16(%r8), %r9
	movq (%r9,%rsi,8), %rcx
	movq %rdx, (%r9,%rsi,8)
	movq 8(%r8), %rdx
	movq (%rdx,%rdi,8), %rdx
	jmp .LBB108_10
.LBB108_7:
	addq $8, %rdi
	jmp tag_c.values.CachedMemberSlotCalls.write
.LBB108_8:
	movzbl 252(%rdi), %ecx
	movl %r9d, %esi
	shrl %cl, %esi
	movq 272(%rdi), %r10
	movl $-1, %r11d
	shll %cl, %r11d
	movq (%r10,%rsi,8), %rcx
	notl %r11d
	andl %r9d, %r11d
	btq %r11, %rcx
	jae .LBB108_13
	movl 256(%rdi), %ecx
	movl %r9d, %esi
	leaq (%rcx,%rsi,8), %rdi
	movq 120(%r8), %rcx
	movq (%rcx,%rdi,8), %rcx
	movq 128(%r8), %r9
	movq (%r9,%rsi,8), %rcx
	movq %rdx, (%r9,%rsi,8)
	movq 120(%r8), %rdx
	movq (%rdx,%rdi,8), %rdx
.LBB108_10:
	movq %rcx, (%rax)
	xorl %eax, %eax
.LBB108_11:
	retq
.LBB108_13:
	movl $-3, %eax
	retq
.Lfunc_end108:
	.size tags_library_write, .Lfunc_end108-tags_library_write
	.section .text.tags_library_leave,"ax",@progbits
	.globl tags_library_leave
	.p2align 4
	.type tags_library_leave,@function
tags_library_leave:
	pushq %r14
	pushq %rbx
	subq $488, %rsp
	movq (%rdi), %rcx
	movq 8(%rdi), %rbx
	xorps %xmm0, %xmm0
	movups %xmm0, (%rdi)
	movl $-12, %eax
	cmpq $1, %rcx
	jne .LBB109_4
	movzbl (%rbx), %r14d
	cmpq $1, %r14
	jne .LBB109_3
	movq $1, (%rdi)
	movq %rbx, 8(%rdi)
.LBB109_4:
	addq $488, %rsp
	popq %rbx
	popq %r14
	retq
.LBB109_3:
	leaq 8(%rbx), %rsi
	leaq 16(%rsp), %rdi
	movl $472, %edx
	callq memcpy@PLT
	movq %rbx, %rdi
	callq tags_library_dealloc@PLT
	movq %r14, 8(%rsp)
	leaq 8(%rsp), %rdi
	callq tag_c.object.Object.leave
	movzbl %al, %eax
	leaq .Lswitch.table.tags_library_leave(%rip), %rcx
	movl (%rcx,%rax,4), %eax
	addq $488, %rsp
	popq %rbx
	popq %r14
	retq
.Lfunc_end109:
	.size tags_library_leave, .Lfunc_end109-tags_library_leave
	.section .rodata.cst16,"aM",@progbits,16
	.p2align 4, 0x0
.LCPI110_0:
	.zero 16,85
.LCPI110_1:
	.zero 16,51
.LCPI110_2:
	.zero 16,15
	.section .text.tags_library_close,"ax",@progbits
	.globl tags_library_close
	.p2align 4
	.type tags_library_close,@function
tags_library_close:
	pushq %rbp
	pushq %r15
	pushq %r14
	pushq %r13
	pushq %r12
	pushq %rbx
	subq $1160, %rsp
	movq %rdi, %rcx
	movq (%rdi), %rdx
	movq 8(%rdi), %rdi
	pxor %xmm0, %xmm0
	movdqu %xmm0, (%rcx)
	movl $-12, %eax
	cmpq $1, %rdx
	jne .LBB110_67
	cmpb $1, (%rdi)
	jne .LBB110_11
	movq 8(%rdi), %rax
	movq (%rax), %rax
	cmpq $1, %rax
	jne .LBB110_12
	movq %rsi, 224(%rsp)
	movzbl (%rdi), %r15d
	movq 8(%rdi), %r14
	movq 16(%rdi), %r13
	movq 24(%rdi), %rbx
	movq 32(%rdi), %rbp
	movq 64(%rdi), %rax
	movq %rax, 64(%rsp)
	movq 80(%rdi), %rax
	movq %rax, (%rsp)
	movq 104(%rdi), %rax
	movq %rax, 56(%rsp)
	movq 120(%rdi), %r12
	movq 272(%rdi), %rax
	movq %rax, 80(%rsp)
	movq 288(%rdi), %rax
	movq %rax, 16(%rsp)
	movq 312(%rdi), %rax
	movq %rax, 96(%rsp)
	movq 328(%rdi), %rax
	movq %rax, 8(%rsp)
	callq tags_library_dealloc@PLT
	cmpl $1, %r15d
	je .LBB110_13
	leaq 296(%rsp), %rdi
	movl $288, %edx
	xorl %esi, %esi
	testl %r15d, %r15d
	jne .LBB110_22
	callq memset@PLT
	lock  decq (%r14)
	jne .LBB110_7
	leaq 8(%r14), %rsi
	leaq 296(%rsp), %rbx
	movl $288, %edx
	movq %rbx, %rdi
	callq memcpy@PLT
	movq %r14, %rdi
	callq tags_library_dealloc@PLT
	movq %rbx, %rdi
	callq tag_c.pool_state.PoolState.drop
.LBB110_7:
	cmpq $0, (%rsp)
	je .LBB110_9
	movq 64(%rsp), %rdi
	callq tags_library_dealloc@PLT
.LBB110_9:
	movl $-20, %eax
	cmpq $0, 16(%rsp)
	je .LBB110_67
	movq 80(%rsp), %rdi
	jmp .LBB110_65
.LBB110_11:
	movq $1, (%rcx)
	movq %rdi, 8(%rcx)
	jmp .LBB110_67
.LBB110_12:
	movq $1, (%rcx)
	movq %rdi, 8(%rcx)
	movl $-15, %eax
	jmp .LBB110_67
.LBB110_13:
	leaq 880(%rsp), %rdi
	movl $280, %edx
	xorl %esi, %esi
	callq memset@PLT
	leaq 296(%rsp), %rdi
	movl $280, %edx
	xorl %esi, %esi
	callq memset@PLT
	movq (%r14), %rax
	cmpq $1, %rax
	jne .LBB110_28
	movq 8(%r14), %r12
	leaq 16(%r14), %rsi
	leaq 296(%rsp), %r15
	movl $280, %edx
	movq %r15, %rdi
	callq memcpy@PLT
	movq %r14, %rdi
	callq tags_library_dealloc@PLT
	leaq 880(%rsp), %r14
	movl $280, %edx
	movq %r14, %rdi
	movq %r15, %rsi
	callq memcpy@PLT
	leaq 296(%rsp), %r15
	movl $296, %edx
	movq %r15, %rdi
	xorl %esi, %esi
	callq memset@PLT
	movq %r12, 592(%rsp)
	leaq 600(%rsp), %rdi
	movl $280, %edx
	movq %r14, %rsi
	callq memcpy@PLT
	movq %r13, 232(%rsp)
	movq %rbx, 240(%rsp)
	movq %rbp, 248(%rsp)
	leaq 592(%rsp), %rsi
	leaq 232(%rsp), %rdx
	movq %r15, %rdi
	callq tag_c.pool_state.PoolState.part
	movq 296(%rsp), %rax
	movq %rax, 8(%rsp)
	movq 304(%rsp), %rax
	movq %rax, 208(%rsp)
	movq 320(%rsp), %rax
	movq %rax, 216(%rsp)
	movq 328(%rsp), %rax
	movq %rax, 144(%rsp)
	movq 344(%rsp), %rax
	movq %rax, 152(%rsp)
	movq 360(%rsp), %rax
	movq %rax, 200(%rsp)
	movq 384(%rsp), %rax
	movq %rax, 176(%rsp)
	movq 392(%rsp), %rax
	movq %rax, 48(%rsp)
	movq 400(%rsp), %rax
	movq %rax, 160(%rsp)
	movq 408(%rsp), %rax
	movq %rax, (%rsp)
	movq 416(%rsp), %rax
	movq %rax, 72(%rsp)
	movq 432(%rsp), %rax
	movq %rax, 24(%rsp)
	movq 440(%rsp), %rax
	movq %rax, 128(%rsp)
	movq 456(%rsp), %rax
	movq %rax, 136(%rsp)
	movq 472(%rsp), %rax
	movq %rax, 192(%rsp)
	movl 480(%rsp), %eax
	movl %eax, 80(%rsp)
	movq 496(%rsp), %rax
	movq %rax, 184(%rsp)
	movq 504(%rsp), %rax
	movq %rax, 40(%rsp)
	movq 512(%rsp), %rax
	movq %rax, 168(%rsp)
	movq 544(%rsp), %rax
	movq %rax, 32(%rsp)
	movq 552(%rsp), %rax
	movq %rax, 16(%rsp)
	movq 560(%rsp), %rax
	movq %rax, 120(%rsp)
	movq 568(%rsp), %r14
	movq 576(%rsp), %r13
	movq 584(%rsp), %r12
	testq %r13, %r13
	je .LBB110_37
	leaq 288(%r14), %rbp
	jmp .LBB110_17
	.p2align 4
.LBB110_16:
	addq $440, %rbp
	decq %r13
	je .LBB110_37
.LBB110_17:
	cmpb $0, -280(%rbp)
	je .LBB110_16
	movq -16(%rbp), %r15
	movq (%rbp), %rbx
	cmpq $0, -208(%rbp)
	je .LBB110_20
	movq -224(%rbp), %rdi
	callq tags_library_dealloc@PLT
.LBB110_20:
	testq %rbx, %rbx
	je .LBB110_16
	movq %r15, %rdi
	callq tags_library_dealloc@PLT
	jmp .LBB110_16
.LBB110_22:
	callq memset@PLT
	lock  decq (%r14)
	jne .LBB110_24
	leaq 8(%r14), %rsi
	leaq 296(%rsp), %rbx
	movl $288, %edx
	movq %rbx, %rdi
	callq memcpy@PLT
	movq %r14, %rdi
	callq tags_library_dealloc@PLT
	movq %rbx, %rdi
	callq tag_c.pool_state.PoolState.drop
.LBB110_24:
	testq %r12, %r12
	je .LBB110_26
	movq 56(%rsp), %rdi
	callq tags_library_dealloc@PLT
.LBB110_26:
	movl $-20, %eax
	cmpq $0, 8(%rsp)
	je .LBB110_67
	movq 96(%rsp), %rdi
	jmp .LBB110_65
.LBB110_28:
	leaq 296(%rsp), %rdi
	movl $288, %edx
	xorl %esi, %esi
	callq memset@PLT
	lock  decq (%r14)
	jne .LBB110_30
	leaq 8(%r14), %rsi
	leaq 296(%rsp), %r15
	movl $288, %edx
	movq %r15, %rdi
	callq memcpy@PLT
	movq %r14, %rdi
	callq tags_library_dealloc@PLT
	movq %r15, %rdi
	callq tag_c.pool_state.PoolState.drop
.LBB110_30:
	testq %rbx, %rbx
	je .LBB110_50
	leaq 272(%r13), %r15
	jmp .LBB110_33
	.p2align 4
.LBB110_32:
	addq $424, %r15
	decq %rbx
	je .LBB110_50
.LBB110_33:
	movq -16(%r15), %r14
	movq (%r15), %r12
	cmpq $0, -208(%r15)
	je .LBB110_35
	movq -224(%r15), %rdi
	callq tags_library_dealloc@PLT
.LBB110_35:
	testq %r12, %r12
	je .LBB110_32
	movq %r14, %rdi
	callq tags_library_dealloc@PLT
	jmp .LBB110_32
.LBB110_37:
	testq %r12, %r12
	je .LBB110_39
	movq %r14, %rdi
	callq tags_library_dealloc@PLT
.LBB110_39:
	movl 80(%rsp), %edi
	testl %edi, %edi
	movq 184(%rsp), %rbx
	movq 176(%rsp), %r14
	movq 16(%rsp), %r12
	je .LBB110_46
	testq %r12, %r12
	je .LBB110_52
	movq 32(%rsp), %rax
	addq $224, %rax
	xorl %ecx, %ecx
.LBB110_42:
	movq %rax, %rdx
	movq %r12, %rsi
	.p2align 4
.LBB110_43:
	cmpl %ecx, (%rdx)
	je .LBB110_45
	addq $424, %rdx
	decq %rsi
	jne .LBB110_43
	jmp .LBB110_52
.LBB110_45:
	incl %ecx
	cmpl %edi, %ecx
	jne .LBB110_42
.LBB110_46:
	testq %r12, %r12
	je .LBB110_72
	decq %r12
	movq %r12, 16(%rsp)
	imulq $424, %r12, %rdx
	movq 32(%rsp), %rsi
	movq 48(%rsi,%rdx), %rdi
	movq 56(%rsi,%rdx), %rcx
	movq 64(%rsi,%rdx), %rax
	movq 256(%rsi,%rdx), %r14
	movq 264(%rsi,%rdx), %rbp
	movq 272(%rsi,%rdx), %r15
	movups 72(%rsi,%rdx), %xmm0
	movaps %xmm0, 96(%rsp)
	movdqu 280(%rsi,%rdx), %xmm0
	movdqa %xmm0, 80(%rsp)
	movq 8(%rsp), %rdx
	movq (%rdx), %rdx
	movabsq $6148914691236517205, %r9
	movabsq $3689348814741910323, %rbx
	movabsq $1085102592571150095, %r10
	movabsq $72340172838076673, %r12
	testq %rcx, %rcx
	je .LBB110_68
	cmpq $4, %rcx
	jae .LBB110_69
	xorl %r13d, %r13d
	xorl %edx, %edx
	jmp .LBB110_73
.LBB110_50:
	movl $-20, %eax
	testq %rbp, %rbp
	je .LBB110_67
	movq %r13, %rdi
	jmp .LBB110_65
.LBB110_52:
	movq 144(%rsp), %rdi
	callq tags_library_dealloc@PLT
	movq 152(%rsp), %rdi
	callq tags_library_dealloc@PLT
	cmpq $0, 160(%rsp)
	je .LBB110_54
	movq %r14, %rdi
	callq tags_library_dealloc@PLT
.LBB110_54:
	movq 128(%rsp), %rdi
	callq tags_library_dealloc@PLT
	movq 136(%rsp), %rdi
	callq tags_library_dealloc@PLT
	cmpq $0, 168(%rsp)
	je .LBB110_56
	movq %rbx, %rdi
	callq tags_library_dealloc@PLT
.LBB110_56:
	testq %r12, %r12
	je .LBB110_63
	movq 32(%rsp), %rax
	leaq 272(%rax), %rbx
	jmp .LBB110_59
	.p2align 4
.LBB110_58:
	addq $424, %rbx
	decq %r12
	je .LBB110_63
.LBB110_59:
	movq -16(%rbx), %r14
	movq (%rbx), %r15
	cmpq $0, -208(%rbx)
	je .LBB110_61
	movq -224(%rbx), %rdi
	callq tags_library_dealloc@PLT
.LBB110_61:
	testq %r15, %r15
	je .LBB110_58
	movq %r14, %rdi
	callq tags_library_dealloc@PLT
	jmp .LBB110_58
.LBB110_63:
	cmpq $0, 120(%rsp)
	je .LBB110_66
	movq 32(%rsp), %rdi
.LBB110_65:
	callq tags_library_dealloc@PLT
.LBB110_66:
	movl $-20, %eax
.LBB110_67:
	addq $1160, %rsp
	popq %rbx
	popq %r12
	popq %r13
	popq %r14
	popq %r15
	popq %rbp
	retq
.LBB110_68:
	xorl %r13d, %r13d
	jmp .LBB110_75
.LBB110_69:
	movq %rcx, %rdx
	andq $-4, %rdx
	pxor %xmm1, %xmm1
	xorl %esi, %esi
	pxor %xmm2, %xmm2
	pxor %xmm0, %xmm0
.LBB110_70:
	movdqu (%rdi,%rsi,8), %xmm4
	movdqu 16(%rdi,%rsi,8), %xmm3
	movdqa %xmm4, %xmm5
	psrlw $1, %xmm5
	movdqa .LCPI110_0(%rip), %xmm6
	pand %xmm6, %xmm5
	psubb %xmm5, %xmm4
	movdqa .LCPI110_1(%rip), %xmm5
	movdqa %xmm4, %xmm7
	pand %xmm5, %xmm7
	psrlw $2, %xmm4
	pand %xmm5, %xmm4
	paddb %xmm7, %xmm4
	movdqa %xmm4, %xmm7
	psrlw $4, %xmm7
	paddb %xmm4, %xmm7
	movdqa .LCPI110_2(%rip), %xmm4
	pand %xmm4, %xmm7
	psadbw %xmm1, %xmm7
	paddq %xmm7, %xmm2
	movdqa %xmm3, %xmm7
	psrlw $1, %xmm7
	pand %xmm6, %xmm7
	psubb %xmm7, %xmm3
	movdqa %xmm3, %xmm6
	pand %xmm5, %xmm6
	psrlw $2, %xmm3
	pand %xmm5, %xmm3
	paddb %xmm6, %xmm3
	movdqa %xmm3, %xmm5
	psrlw $4, %xmm5
	paddb %xmm3, %xmm5
	pand %xmm4, %xmm5
	psadbw %xmm1, %xmm5
	paddq %xmm5, %xmm0
	addq $4, %rsi
	cmpq %rsi, %rdx
	jne .LBB110_70
	paddq %xmm2, %xmm0
	pshufd $238, %xmm0, %xmm1
	paddq %xmm0, %xmm1
	movq %xmm1, %r13
	jmp .LBB110_74
.LBB110_72:
	ud2
.LBB110_73:
	movq (%rdi,%rdx,8), %rsi
	movq %rsi, %r8
	shrq %r8
	andq %r9, %r8
	subq %r8, %rsi
	movq %rsi, %r8
	andq %rbx, %r8
	shrq $2, %rsi
	andq %rbx, %rsi
	addq %r8, %rsi
	movq %rsi, %r8
	shrq $4, %r8
	addq %rsi, %r8
	andq %r10, %r8
	imulq %r12, %r8
	shrq $56, %r8
	addq %r8, %r13
	incq %rdx
.LBB110_74:
	cmpq %rdx, %rcx
	jne .LBB110_73
.LBB110_75:
	testq %rax, %rax
	je .LBB110_77
	callq tags_library_dealloc@PLT
	movabsq $1085102592571150095, %r10
	movabsq $6148914691236517205, %r9
.LBB110_77:
	movq (%rsp), %rax
	movq (%rax), %rax
	testq %rbp, %rbp
	je .LBB110_80
	cmpq $4, %rbp
	jae .LBB110_81
	xorl %r8d, %r8d
	xorl %eax, %eax
	jmp .LBB110_84
.LBB110_80:
	xorl %r8d, %r8d
	jmp .LBB110_86
.LBB110_81:
	movq %rbp, %rax
	andq $-4, %rax
	pxor %xmm1, %xmm1
	xorl %ecx, %ecx
	pxor %xmm2, %xmm2
	pxor %xmm0, %xmm0
.LBB110_82:
	movdqu (%r14,%rcx,8), %xmm4
	movdqu 16(%r14,%rcx,8), %xmm3
	movdqa %xmm4, %xmm5
	psrlw $1, %xmm5
	movdqa .LCPI110_0(%rip), %xmm6
	pand %xmm6, %xmm5
	psubb %xmm5, %xmm4
	movdqa .LCPI110_1(%rip), %xmm5
	movdqa %xmm4, %xmm7
	pand %xmm5, %xmm7
	psrlw $2, %xmm4
	pand %xmm5, %xmm4
	paddb %xmm7, %xmm4
	movdqa %xmm4, %xmm7
	psrlw $4, %xmm7
	paddb %xmm4, %xmm7
	movdqa .LCPI110_2(%rip), %xmm4
	pand %xmm4, %xmm7
	psadbw %xmm1, %xmm7
	paddq %xmm7, %xmm2
	movdqa %xmm3, %xmm7
	psrlw $1, %xmm7
	pand %xmm6, %xmm7
	psubb %xmm7, %xmm3
	movdqa %xmm3, %xmm6
	pand %xmm5, %xmm6
	psrlw $2, %xmm3
	pand %xmm5, %xmm3
	paddb %xmm6, %xmm3
	movdqa %xmm3, %xmm5
	psrlw $4, %xmm5
	paddb %xmm3, %xmm5
	pand %xmm4, %xmm5
	psadbw %xmm1, %xmm5
	paddq %xmm5, %xmm0
	addq $4, %rcx
	cmpq %rcx, %rax
	jne .LBB110_82
	paddq %xmm2, %xmm0
	pshufd $238, %xmm0, %xmm1
	paddq %xmm0, %xmm1
	movq %xmm1, %r8
	jmp .LBB110_85
.LBB110_84:
	movq (%r14,%rax,8), %rcx
	movq %rcx, %rdx
	shrq %rdx
	andq %r9, %rdx
	subq %rdx, %rcx
	movq %rcx, %rdx
	andq %rbx, %rdx
	shrq $2, %rcx
	andq %rbx, %rcx
	addq %rdx, %rcx
	movq %rcx, %rdx
	shrq $4, %rdx
	addq %rcx, %rdx
	andq %r10, %rdx
	imulq %r12, %rdx
	shrq $56, %rdx
	addq %rdx, %r8
	incq %rax
.LBB110_85:
	cmpq %rax, %rbp
	jne .LBB110_84
.LBB110_86:
	testq %r15, %r15
	je .LBB110_89
	movq %r14, %rdi
	movq %r8, %r14
	callq tags_library_dealloc@PLT
	movq %r14, %r8
	movabsq $1085102592571150095, %r10
	movabsq $6148914691236517205, %r9
	jmp .LBB110_89
.LBB110_88:
	movdqa 96(%rsp), %xmm0
	paddq 256(%rsp), %xmm0
	movdqa %xmm0, 96(%rsp)
	movq 64(%rsp), %rax
	addq %r13, %rax
	movq %rax, %r13
	movdqa 80(%rsp), %xmm0
	paddq 272(%rsp), %xmm0
	movdqa %xmm0, 80(%rsp)
	movq 56(%rsp), %rax
	addq %r15, %rax
	movq %rax, %r8
.LBB110_89:
	movq 16(%rsp), %rax
	testq %rax, %rax
	je .LBB110_112
	decq %rax
	movq %rax, 16(%rsp)
	imulq $424, %rax, %rdx
	movq 32(%rsp), %rsi
	movq 48(%rsi,%rdx), %rdi
	movq 56(%rsi,%rdx), %rcx
	movq 64(%rsi,%rdx), %rax
	movq 256(%rsi,%rdx), %r14
	movq 264(%rsi,%rdx), %rbp
	movq 272(%rsi,%rdx), %r11
	movups 72(%rsi,%rdx), %xmm0
	movaps %xmm0, 256(%rsp)
	movdqu 280(%rsi,%rdx), %xmm0
	movdqa %xmm0, 272(%rsp)
	movq 8(%rsp), %rdx
	movq (%rdx), %rdx
	testq %rcx, %rcx
	movq %r13, 64(%rsp)
	movq %r8, 56(%rsp)
	je .LBB110_93
	cmpq $4, %rcx
	jae .LBB110_94
	xorl %r13d, %r13d
	xorl %edx, %edx
	jmp .LBB110_97
.LBB110_93:
	xorl %r13d, %r13d
	jmp .LBB110_99
.LBB110_94:
	movq %rcx, %rdx
	andq $-4, %rdx
	pxor %xmm1, %xmm1
	xorl %esi, %esi
	pxor %xmm2, %xmm2
	pxor %xmm0, %xmm0
	.p2align 4
.LBB110_95:
	movdqu (%rdi,%rsi,8), %xmm4
	movdqu 16(%rdi,%rsi,8), %xmm3
	movdqa %xmm4, %xmm5
	psrlw $1, %xmm5
	movdqa .LCPI110_0(%rip), %xmm6
	pand %xmm6, %xmm5
	psubb %xmm5, %xmm4
	movdqa .LCPI110_1(%rip), %xmm5
	movdqa %xmm4, %xmm7
	pand %xmm5, %xmm7
	psrlw $2, %xmm4
	pand %xmm5, %xmm4
	paddb %xmm7, %xmm4
	movdqa %xmm4, %xmm7
	psrlw $4, %xmm7
	paddb %xmm4, %xmm7
	movdqa .LCPI110_2(%rip), %xmm4
	pand %xmm4, %xmm7
	psadbw %xmm1, %xmm7
	paddq %xmm7, %xmm2
	movdqa %xmm3, %xmm7
	psrlw $1, %xmm7
	pand %xmm6, %xmm7
	psubb %xmm7, %xmm3
	movdqa %xmm3, %xmm6
	pand %xmm5, %xmm6
	psrlw $2, %xmm3
	pand %xmm5, %xmm3
	paddb %xmm6, %xmm3
	movdqa %xmm3, %xmm5
	psrlw $4, %xmm5
	paddb %xmm3, %xmm5
	pand %xmm4, %xmm5
	psadbw %xmm1, %xmm5
	paddq %xmm5, %xmm0
	addq $4, %rsi
	cmpq %rsi, %rdx
	jne .LBB110_95
	paddq %xmm2, %xmm0
	pshufd $238, %xmm0, %xmm1
	paddq %xmm0, %xmm1
	movq %xmm1, %r13
	jmp .LBB110_98
	.p2align 4
.LBB110_97:
	movq (%rdi,%rdx,8), %rsi
	movq %rsi, %r8
	shrq %r8
	andq %r9, %r8
	subq %r8, %rsi
	movq %rsi, %r8
	andq %rbx, %r8
	shrq $2, %rsi
	andq %rbx, %rsi
	addq %r8, %rsi
	movq %rsi, %r8
	shrq $4, %r8
	addq %rsi, %r8
	andq %r10, %r8
	imulq %r12, %r8
	shrq $56, %r8
	addq %r8, %r13
	incq %rdx
.LBB110_98:
	cmpq %rdx, %rcx
	jne .LBB110_97
.LBB110_99:
	movq 8(%rsp), %rdx
	movq (%rdx), %rcx
	movq (%rdx), %rcx
	testq %rax, %rax
	je .LBB110_101
	movq %r12, %r15
	movq %r11, %r12
	callq tags_library_dealloc@PLT
	movq %r12, %r11
	movq %r15, %r12
	movabsq $1085102592571150095, %r10
	movabsq $6148914691236517205, %r9
.LBB110_101:
	movq (%rsp), %rax
	movq (%rax), %rax
	testq %rbp, %rbp
	je .LBB110_104
	cmpq $4, %rbp
	jae .LBB110_105
	xorl %r15d, %r15d
	xorl %eax, %eax
	jmp .LBB110_108
.LBB110_104:
	xorl %r15d, %r15d
	jmp .LBB110_110
.LBB110_105:
	movq %rbp, %rax
	andq $-4, %rax
	pxor %xmm1, %xmm1
	xorl %ecx, %ecx
	pxor %xmm2, %xmm2
	pxor %xmm0, %xmm0
	.p2align 4
.LBB110_106:
	movdqu (%r14,%rcx,8), %xmm4
	movdqu 16(%r14,%rcx,8), %xmm3
	movdqa %xmm4, %xmm5
	psrlw $1, %xmm5
	movdqa .LCPI110_0(%rip), %xmm6
	pand %xmm6, %xmm5
	psubb %xmm5, %xmm4
	movdqa .LCPI110_1(%rip), %xmm5
	movdqa %xmm4, %xmm7
	pand %xmm5, %xmm7
	psrlw $2, %xmm4
	pand %xmm5, %xmm4
	paddb %xmm7, %xmm4
	movdqa %xmm4, %xmm7
	psrlw $4, %xmm7
	paddb %xmm4, %xmm7
	movdqa .LCPI110_2(%rip), %xmm4
	pand %xmm4, %xmm7
	psadbw %xmm1, %xmm7
	paddq %xmm7, %xmm2
	movdqa %xmm3, %xmm7
	psrlw $1, %xmm7
	pand %xmm6, %xmm7
	psubb %xmm7, %xmm3
	movdqa %xmm3, %xmm6
	pand %xmm5, %xmm6
	psrlw $2, %xmm3
	pand %xmm5, %xmm3
	paddb %xmm6, %xmm3
	movdqa %xmm3, %xmm5
	psrlw $4, %xmm5
	paddb %xmm3, %xmm5
	pand %xmm4, %xmm5
	psadbw %xmm1, %xmm5
	paddq %xmm5, %xmm0
	addq $4, %rcx
	cmpq %rcx, %rax
	jne .LBB110_106
	paddq %xmm2, %xmm0
	pshufd $238, %xmm0, %xmm1
	paddq %xmm0, %xmm1
	movq %xmm1, %r15
	jmp .LBB110_109
	.p2align 4
.LBB110_108:
	movq (%r14,%rax,8), %rcx
	movq %rcx, %rdx
	shrq %rdx
	andq %r9, %rdx
	subq %rdx, %rcx
	movq %rcx, %rdx
	andq %rbx, %rdx
	shrq $2, %rcx
	andq %rbx, %rcx
	addq %rdx, %rcx
	movq %rcx, %rdx
	shrq $4, %rdx
	addq %rcx, %rdx
	andq %r10, %rdx
	imulq %r12, %rdx
	shrq $56, %rdx
	addq %rdx, %r15
	incq %rax
.LBB110_109:
	cmpq %rax, %rbp
	jne .LBB110_108
.LBB110_110:
	movq (%rsp), %rcx
	movq (%rcx), %rax
	movq (%rcx), %rax
	testq %r11, %r11
	je .LBB110_88
	movq %r14, %rdi
	callq tags_library_dealloc@PLT
	movabsq $1085102592571150095, %r10
	movabsq $6148914691236517205, %r9
	jmp .LBB110_88
.LBB110_112:
	movq %r8, 56(%rsp)
	movq %r13, 64(%rsp)
	cmpq $0, 120(%rsp)
	movq 200(%rsp), %r14
	je .LBB110_114
	movq 32(%rsp), %rdi
	callq tags_library_dealloc@PLT
.LBB110_114:
	movq 192(%rsp), %rdi
	testl %edi, %edi
	movq 184(%rsp), %r15
	movq 176(%rsp), %r12
	movq 216(%rsp), %r13
	movq 208(%rsp), %rbp
	je .LBB110_117
	movq %rdi, %rcx
	shrq $32, %rcx
	movl $1, %eax
	shll %cl, %eax
	leal (%rdi,%rax), %edx
	decl %edx
	shrl %cl, %edx
	shlq $7, %rdx
	movl %edi, %ecx
	decq %rcx
	movl %edi, %eax
	andl $3, %eax
	cmpq $3, %rcx
	jae .LBB110_118
	xorl %ecx, %ecx
	xorl %ebx, %ebx
	jmp .LBB110_121
.LBB110_117:
	xorl %ebx, %ebx
	jmp .LBB110_123
.LBB110_118:
	andl $-4, %edi
	movq (%rsp), %rcx
	leaq (%rdx,%rcx), %rsi
	addq $768, %rsi
	xorl %ecx, %ecx
	xorl %ebx, %ebx
.LBB110_119:
	cmpq $1, -192(%rsi)
	sbbq $-1, %rbx
	cmpq $1, -128(%rsi)
	sbbq $-1, %rbx
	cmpq $1, -64(%rsi)
	sbbq $-1, %rbx
	cmpq $1, (%rsi)
	sbbq $-1, %rbx
	addq $4, %rcx
	addq $256, %rsi
	cmpq %rcx, %rdi
	jne .LBB110_119
	testq %rax, %rax
	je .LBB110_123
.LBB110_121:
	shlq $6, %rcx
	addq %rcx, %rdx
	movq (%rsp), %rcx
	addq %rdx, %rcx
	addq $576, %rcx
	shll $6, %eax
	xorl %edx, %edx
.LBB110_122:
	cmpq $1, (%rcx,%rdx)
	sbbq $-1, %rbx
	addq $64, %rdx
	cmpq %rdx, %rax
	jne .LBB110_122
.LBB110_123:
	movq 24(%rsp), %rax
	testq %rax, %rax
	je .LBB110_135
	cmpq $6, %rax
	jb .LBB110_126
	movq 40(%rsp), %rdx
	leaq (%r15,%rdx,8), %rax
	subq 72(%rsp), %rax
	cmpq $32, %rax
	jae .LBB110_132
.LBB110_126:
	xorl %eax, %eax
	movq 24(%rsp), %rdx
.LBB110_127:
	movq %rax, %rcx
	orq $1, %rcx
	testb $1, %dl
	je .LBB110_129
	movq 72(%rsp), %rdx
	movq (%rdx,%rax,8), %rax
	movq 40(%rsp), %rdx
	movq %rax, (%r15,%rdx,8)
	incq %rdx
	movq %rdx, 40(%rsp)
	movq %rcx, %rax
.LBB110_129:
	movq 24(%rsp), %rdi
	cmpq %rcx, %rdi
	je .LBB110_135
	movq 72(%rsp), %rcx
	leaq (%rcx,%rax,8), %rcx
	addq $8, %rcx
	subq %rax, %rdi
	movq 40(%rsp), %rax
	leaq (%r15,%rax,8), %rax
	addq $8, %rax
	xorl %edx, %edx
.LBB110_131:
	movq -8(%rcx,%rdx,8), %rsi
	movq %rsi, -8(%rax,%rdx,8)
	movq (%rcx,%rdx,8), %rsi
	movq %rsi, (%rax,%rdx,8)
	addq $2, %rdx
	cmpq %rdx, %rdi
	jne .LBB110_131
	jmp .LBB110_135
.LBB110_132:
	leaq (,%rdx,8), %rcx
	movq 24(%rsp), %rax
	andq $-4, %rax
	addq %rax, %rdx
	movq %rdx, 40(%rsp)
	addq %r15, %rcx
	addq $16, %rcx
	xorl %edx, %edx
	movq 72(%rsp), %rsi
.LBB110_133:
	movdqu (%rsi,%rdx,8), %xmm0
	movdqu 16(%rsi,%rdx,8), %xmm1
	movdqu %xmm0, -16(%rcx,%rdx,8)
	movdqu %xmm1, (%rcx,%rdx,8)
	addq $4, %rdx
	cmpq %rdx, %rax
	jne .LBB110_133
	movq 24(%rsp), %rdx
	cmpq %rax, %rdx
	jne .LBB110_127
.LBB110_135:
	movq 128(%rsp), %rdi
	callq tags_library_dealloc@PLT
	movq 136(%rsp), %rdi
	callq tags_library_dealloc@PLT
	testl %r14d, %r14d
	je .LBB110_138
	movq %r14, %rcx
	shrq $32, %rcx
	movl $1, %eax
	shll %cl, %eax
	leal (%r14,%rax), %edx
	decl %edx
	shrl %cl, %edx
	shlq $7, %rdx
	movl %r14d, %ecx
	decq %rcx
	movl %r14d, %eax
	andl $3, %eax
	cmpq $3, %rcx
	jae .LBB110_139
	xorl %ecx, %ecx
	xorl %r14d, %r14d
	jmp .LBB110_142
.LBB110_138:
	xorl %r14d, %r14d
	jmp .LBB110_144
.LBB110_139:
	andl $-4, %r14d
	movq 8(%rsp), %rcx
	leaq (%rdx,%rcx), %rsi
	addq $768, %rsi
	xorl %ecx, %ecx
	movq %r14, %rdi
	xorl %r14d, %r14d
.LBB110_140:
	cmpq $1, -192(%rsi)
	sbbq $-1, %r14
	cmpq $1, -128(%rsi)
	sbbq $-1, %r14
	cmpq $1, -64(%rsi)
	sbbq $-1, %r14
	cmpq $1, (%rsi)
	sbbq $-1, %r14
	addq $4, %rcx
	addq $256, %rsi
	cmpq %rcx, %rdi
	jne .LBB110_140
	testq %rax, %rax
	je .LBB110_144
.LBB110_142:
	shlq $6, %rcx
	addq %rcx, %rdx
	movq 8(%rsp), %rcx
	addq %rdx, %rcx
	addq $576, %rcx
	shll $6, %eax
	xorl %edx, %edx
.LBB110_143:
	cmpq $1, (%rcx,%rdx)
	sbbq $-1, %r14
	addq $64, %rdx
	cmpq %rdx, %rax
	jne .LBB110_143
.LBB110_144:
	testq %r13, %r13
	je .LBB110_157
	cmpq $6, %r13
	jb .LBB110_146
	movq 48(%rsp), %rdx
	leaq (%r12,%rdx,8), %rax
	subq %rbp, %rax
	cmpq $32, %rax
	jae .LBB110_149
.LBB110_146:
	xorl %eax, %eax
.LBB110_152:
	movq %rax, %rcx
	orq $1, %rcx
	testb $1, %r13b
	je .LBB110_154
	movq (%rbp,%rax,8), %rax
	movq 48(%rsp), %rdx
	movq %rax, (%r12,%rdx,8)
	incq %rdx
	movq %rdx, 48(%rsp)
	movq %rcx, %rax
.LBB110_154:
	cmpq %rcx, %r13
	je .LBB110_157
	leaq 8(,%rax,8), %rcx
	addq %rbp, %rcx
	subq %rax, %r13
	movq 48(%rsp), %rax
	leaq (%r12,%rax,8), %rax
	addq $8, %rax
	xorl %edx, %edx
.LBB110_156:
	movq -8(%rcx,%rdx,8), %rsi
	movq %rsi, -8(%rax,%rdx,8)
	movq (%rcx,%rdx,8), %rsi
	movq %rsi, (%rax,%rdx,8)
	addq $2, %rdx
	cmpq %rdx, %r13
	jne .LBB110_156
	jmp .LBB110_157
.LBB110_149:
	leaq (,%rdx,8), %rcx
	movq %r13, %rax
	andq $-4, %rax
	addq %rax, %rdx
	movq %rdx, 48(%rsp)
	addq %r12, %rcx
	addq $16, %rcx
	xorl %edx, %edx
.LBB110_150:
	movdqu (%rbp,%rdx,8), %xmm0
	movdqu 16(%rbp,%rdx,8), %xmm1
	movdqu %xmm0, -16(%rcx,%rdx,8)
	movdqu %xmm1, (%rcx,%rdx,8)
	addq $4, %rdx
	cmpq %rdx, %rax
	jne .LBB110_150
	cmpq %rax, %r13
	jne .LBB110_152
.LBB110_157:
	movq 144(%rsp), %rdi
	callq tags_library_dealloc@PLT
	movq 152(%rsp), %rdi
	callq tags_library_dealloc@PLT
	cmpq $0, 160(%rsp)
	je .LBB110_159
	movq %r12, %rdi
	callq tags_library_dealloc@PLT
.LBB110_159:
	cmpq $0, 168(%rsp)
	movq 64(%rsp), %r12
	je .LBB110_161
	movq %r15, %rdi
	callq tags_library_dealloc@PLT
.LBB110_161:
	addq %rbx, %r14
	movq 56(%rsp), %rcx
	addq %r12, %rcx
	movdqa 80(%rsp), %xmm0
	paddq 96(%rsp), %xmm0
	movq 224(%rsp), %rax
	movdqu %xmm0, (%rax)
	movq %rcx, 16(%rax)
	movq %r14, 24(%rax)
	xorl %eax, %eax
	jmp .LBB110_67
.Lfunc_end110:
	.size tags_library_close, .Lfunc_end110-tags_library_close
	.section .text.tags_library_join,"ax",@progbits
	.globl tags_library_join
	.p2align 4
	.type tags_library_join,@function
tags_library_join:
	pushq %rbp
	pushq %r15
	pushq %r14
	pushq %r13
	pushq %r12
	pushq %rbx
	subq $3048, %rsp
	movl %edx, %ebp
	movq %rsi, %rbx
	movq %rdi, %r14
	movq $0, 848(%rsp)
	movl $0, 856(%rsp)
	movq $0, 832(%rsp)
	movl $0, 840(%rsp)
	movq $0, 816(%rsp)
	movl $0, 824(%rsp)
	movq $0, 800(%rsp)
	movl $0, 808(%rsp)
	movq $0, 784(%rsp)
	movl $0, 792(%rsp)
	movl $0, 776(%rsp)
	movq $0, 768(%rsp)
	movl $0, 760(%rsp)
	movq $0, 752(%rsp)
	movl $0, 744(%rsp)
	movq $0, 736(%rsp)
	movl $0, 728(%rsp)
	movq $0, 720(%rsp)
	movl $0, 712(%rsp)
	movq $0, 704(%rsp)
	movl $0, 696(%rsp)
	movq $0, 688(%rsp)
	leaq 2112(%rsp), %rdi
	movl $480, %edx
	xorl %esi, %esi
	callq memset@PLT
	movl $-13, %eax
	cmpq $0, (%rbx)
	jne .LBB111_42
	movl $-12, %eax
	cmpq $1, (%r14)
	jne .LBB111_42
	movq 8(%r14), %rsi
	movq $0, 336(%rsp)
	movl $0, 344(%rsp)
	movq $0, 320(%rsp)
	movl $0, 328(%rsp)
	movq $0, 304(%rsp)
	movl $0, 312(%rsp)
	movq $0, 288(%rsp)
	movl $0, 296(%rsp)
	movq $0, 272(%rsp)
	movl $0, 280(%rsp)
	movl $0, 264(%rsp)
	movq $0, 256(%rsp)
	movl $0, 248(%rsp)
	movq $0, 240(%rsp)
	movl $0, 232(%rsp)
	movq $0, 224(%rsp)
	movl $0, 216(%rsp)
	movq $0, 208(%rsp)
	movl $0, 200(%rsp)
	movq $0, 192(%rsp)
	movl $0, 184(%rsp)
	movq $0, 176(%rsp)
	movl $3, %eax
	cmpb $1, (%rsi)
	jne .LBB111_41
	movl $9, %eax
	cmpl $1, %ebp
	ja .LBB111_41
	movl $0, 1080(%rsp)
	movq $0, 1072(%rsp)
	movl $0, 1064(%rsp)
	movq $0, 1056(%rsp)
	movl $0, 1048(%rsp)
	movq $0, 1040(%rsp)
	movl $0, 1032(%rsp)
	movq $0, 1024(%rsp)
	movl $0, 1016(%rsp)
	movq $0, 1008(%rsp)
	movl $0, 1000(%rsp)
	movq $0, 992(%rsp)
	movl $0, 984(%rsp)
	movq $0, 976(%rsp)
	movl $0, 968(%rsp)
	movq $0, 960(%rsp)
	movl $0, 952(%rsp)
	movq $0, 944(%rsp)
	movl $0, 936(%rsp)
	movq $0, 928(%rsp)
	movl $0, 920(%rsp)
	movq $0, 912(%rsp)
	movl $0, 504(%rsp)
	movq $0, 496(%rsp)
	movl $0, 488(%rsp)
	movq $0, 480(%rsp)
	movl $0, 472(%rsp)
	movq $0, 464(%rsp)
	movl $0, 456(%rsp)
	movq $0, 448(%rsp)
	movl $0, 440(%rsp)
	movq $0, 432(%rsp)
	movl $0, 424(%rsp)
	movq $0, 416(%rsp)
	movl $0, 408(%rsp)
	movq $0, 400(%rsp)
	movl $0, 392(%rsp)
	movq $0, 384(%rsp)
	movl $0, 376(%rsp)
	movq $0, 368(%rsp)
	movl $0, 360(%rsp)
	movq $0, 352(%rsp)
	movl $0, 1672(%rsp)
	movq $0, 1664(%rsp)
	movq 8(%rsi), %rdx
	movq %rbx, 2104(%rsp)
	.p2align 4
.LBB111_5:
	movq (%rdx), %rax
	movabsq $9223372036854775806, %rcx
	cmpq %rcx, %rax
	ja .LBB111_36
	leaq 1(%rax), %rcx
	lock  cmpxchgq %rcx, (%rdx)
	jne .LBB111_5
	movl %ebp, 112(%rsp)
	movq %rdx, 144(%rsp)
	movl $0, 1832(%rsp)
	movq $0, 1824(%rsp)
	movl $0, 1816(%rsp)
	movq $0, 1808(%rsp)
	movl $0, 1800(%rsp)
	movq $0, 1792(%rsp)
	movl $0, 1784(%rsp)
	movq $0, 1776(%rsp)
	movl $0, 1768(%rsp)
	movq $0, 1760(%rsp)
	movl $0, 1752(%rsp)
	movq $0, 1744(%rsp)
	movl $0, 1736(%rsp)
	movq $0, 1728(%rsp)
	movl $0, 1720(%rsp)
	movq $0, 1712(%rsp)
	movl $0, 1704(%rsp)
	movq $0, 1696(%rsp)
	movl $0, 1688(%rsp)
	movq $0, 1680(%rsp)
	movl $0, 1240(%rsp)
	movq $0, 1232(%rsp)
	movl $0, 1224(%rsp)
	movq $0, 1216(%rsp)
	movl $0, 1208(%rsp)
	movq $0, 1200(%rsp)
	movl $0, 1192(%rsp)
	movq $0, 1184(%rsp)
	movl $0, 1176(%rsp)
	movq $0, 1168(%rsp)
	movl $0, 1160(%rsp)
	movq $0, 1152(%rsp)
	movl $0, 1144(%rsp)
	movq $0, 1136(%rsp)
	movl $0, 1128(%rsp)
	movq $0, 1120(%rsp)
	movl $0, 1112(%rsp)
	movq $0, 1104(%rsp)
	movl $0, 1096(%rsp)
	movq $0, 1088(%rsp)
	movq %rsi, 40(%rsp)
	movq 8(%rsi), %r12
	movq $0, 656(%rsp)
	movl $0, 664(%rsp)
	movq $0, 640(%rsp)
	movl $0, 648(%rsp)
	movq $0, 624(%rsp)
	movl $0, 632(%rsp)
	movq $0, 608(%rsp)
	movl $0, 616(%rsp)
	movq $0, 592(%rsp)
	movl $0, 600(%rsp)
	movq $0, 576(%rsp)
	movl $0, 584(%rsp)
	movl $0, 568(%rsp)
	movq $0, 560(%rsp)
	movl $0, 552(%rsp)
	movq $0, 544(%rsp)
	movl $0, 536(%rsp)
	movq $0, 528(%rsp)
	movl $0, 520(%rsp)
	movq $0, 512(%rsp)
	movq 280(%r12), %r13
	testq %r13, %r13
	je .LBB111_15
	movq $-1, %r15
	movq %r12, 56(%rsp)
	movq %r13, 48(%rsp)
	jmp .LBB111_9
	.p2align 4
.LBB111_10:
	movl 1560(%rsp), %eax
	movl %eax, 664(%rsp)
	movq 1552(%rsp), %rax
	movq %rax, 656(%rsp)
	movq 1536(%rsp), %rax
	movq %rax, 640(%rsp)
	movl 1544(%rsp), %eax
	movl %eax, 648(%rsp)
	movq 1520(%rsp), %rax
	movq %rax, 624(%rsp)
	movl 1528(%rsp), %eax
	movl %eax, 632(%rsp)
	movq 1504(%rsp), %rax
	movq %rax, 608(%rsp)
	movl 1512(%rsp), %eax
	movl %eax, 616(%rsp)
	movl 1496(%rsp), %eax
	movl %eax, 600(%rsp)
	movq 1488(%rsp), %rax
	movq %rax, 592(%rsp)
	movl 1480(%rsp), %eax
	movl %eax, 584(%rsp)
	movq 1472(%rsp), %rax
	movq %rax, 576(%rsp)
	movl 1464(%rsp), %eax
	movl %eax, 568(%rsp)
	movq 1456(%rsp), %rax
	movq %rax, 560(%rsp)
	movl 1448(%rsp), %eax
	movl %eax, 552(%rsp)
	movq 1440(%rsp), %rax
	movq %rax, 544(%rsp)
	movl 1432(%rsp), %eax
	movl %eax, 536(%rsp)
	movq 1424(%rsp), %rax
	movq %rax, 528(%rsp)
	movl 1416(%rsp), %eax
	movl %eax, 520(%rsp)
	movq 1408(%rsp), %rax
	movq %rax, 512(%rsp)
	leaq (%r15,%r13), %rax
	decq %rax
	decq %r15
	cmpq $-1, %rax
	je .LBB111_15
.LBB111_9:
	movq 280(%r12), %rax
	addq %r15, %rax
	movq 272(%r12), %rbx
	imulq $440, %rax, %r14
	movl $0, 1560(%rsp)
	movq $0, 1552(%rsp)
	movl $0, 1544(%rsp)
	movq $0, 1536(%rsp)
	movl $0, 1528(%rsp)
	movq $0, 1520(%rsp)
	movl $0, 1512(%rsp)
	movq $0, 1504(%rsp)
	movl $0, 1496(%rsp)
	movq $0, 1488(%rsp)
	movl $0, 1480(%rsp)
	movq $0, 1472(%rsp)
	movl $0, 1464(%rsp)
	movq $0, 1456(%rsp)
	movl $0, 1448(%rsp)
	movq $0, 1440(%rsp)
	movl $0, 1432(%rsp)
	movq $0, 1424(%rsp)
	movl $0, 1416(%rsp)
	movq $0, 1408(%rsp)
	movl $0, 1400(%rsp)
	movq $0, 1392(%rsp)
	movl $0, 1384(%rsp)
	movq $0, 1376(%rsp)
	movl $0, 1368(%rsp)
	movq $0, 1360(%rsp)
	movl $0, 1352(%rsp)
	movq $0, 1344(%rsp)
	movl $0, 1336(%rsp)
	movq $0, 1328(%rsp)
	movl $0, 1320(%rsp)
	movq $0, 1312(%rsp)
	movl $0, 1304(%rsp)
	movq $0, 1296(%rsp)
	movl $0, 1288(%rsp)
	movq $0, 1280(%rsp)
	movl $0, 1272(%rsp)
	movq $0, 1264(%rsp)
	movl $0, 1256(%rsp)
	movq $0, 1248(%rsp)
	leaq 2624(%rsp), %rdi
	movl $424, %edx
	xorl %esi, %esi
	callq memset@PLT
	movq (%rbx,%r14), %rax
	movabsq $4294967296, %rcx
	cmpq %rcx, %rax
	jne .LBB111_10
	addq %r14, %rbx
	movabsq $4294967296, %rax
	movabsq $4294967299, %rcx
	lock  cmpxchgq %rcx, (%rbx)
	jne .LBB111_10
	movzbl 8(%rbx), %eax
	movb %al, 32(%rsp)
	movq 16(%rbx), %rax
	movq %rax, 152(%rsp)
	movl 24(%rbx), %eax
	movq %rax, 136(%rsp)
	movl 52(%rbx), %eax
	movl %eax, 1992(%rsp)
	movq 44(%rbx), %rax
	movq %rax, 1984(%rsp)
	movq 56(%rbx), %rax
	movq %rax, 160(%rsp)
	movl 64(%rbx), %eax
	movl %eax, 128(%rsp)
	movups 28(%rbx), %xmm0
	movaps %xmm0, 864(%rsp)
	movups 68(%rbx), %xmm0
	movaps %xmm0, 2032(%rsp)
	movl 92(%rbx), %eax
	movl %eax, 1976(%rsp)
	movq 84(%rbx), %rax
	movq %rax, 1968(%rsp)
	movq 96(%rbx), %rax
	movq %rax, 1600(%rsp)
	movl 104(%rbx), %eax
	movl %eax, 20(%rsp)
	movups 108(%rbx), %xmm0
	movaps %xmm0, 2080(%rsp)
	movl 132(%rbx), %eax
	movl %eax, 1960(%rsp)
	movq 124(%rbx), %rax
	movq %rax, 1952(%rsp)
	movq 136(%rbx), %rax
	movq %rax, 1568(%rsp)
	movl 144(%rbx), %eax
	movl %eax, 16(%rsp)
	movups 148(%rbx), %xmm0
	movaps %xmm0, 896(%rsp)
	movl 172(%rbx), %eax
	movl %eax, 1944(%rsp)
	movq 164(%rbx), %rax
	movq %rax, 1936(%rsp)
	movq 176(%rbx), %rax
	movq %rax, 1584(%rsp)
	movl 184(%rbx), %eax
	movl %eax, 12(%rsp)
	movups 188(%rbx), %xmm0
	movaps %xmm0, 2064(%rsp)
	movl 212(%rbx), %eax
	movl %eax, 1928(%rsp)
	movq 204(%rbx), %rax
	movq %rax, 1920(%rsp)
	movq 216(%rbx), %rax
	movq %rax, 888(%rsp)
	movl 224(%rbx), %eax
	movl %eax, 104(%rsp)
	movl 228(%rbx), %eax
	movl %eax, 108(%rsp)
	movl 232(%rbx), %eax
	movq %rax, 64(%rsp)
	movsd 236(%rbx), %xmm0
	movaps %xmm0, 2000(%rsp)
	movl 252(%rbx), %eax
	movl %eax, 1912(%rsp)
	movq 244(%rbx), %rax
	movq %rax, 1904(%rsp)
	movq 256(%rbx), %rax
	movq %rax, 168(%rsp)
	movl 280(%rbx), %eax
	movl %eax, 100(%rsp)
	movl 292(%rbx), %eax
	movl %eax, 1896(%rsp)
	movq 284(%rbx), %rax
	movq %rax, 1888(%rsp)
	movups 264(%rbx), %xmm0
	movaps %xmm0, 2016(%rsp)
	movups 304(%rbx), %xmm0
	movaps %xmm0, 2048(%rsp)
	movq 296(%rbx), %rax
	movq %rax, 672(%rsp)
	movl 320(%rbx), %eax
	movl %eax, 8(%rsp)
	movl 332(%rbx), %eax
	movl %eax, 1880(%rsp)
	movq 324(%rbx), %rax
	movq %rax, 1872(%rsp)
	movups 344(%rbx), %xmm0
	movaps %xmm0, 1648(%rsp)
	movq 336(%rbx), %rax
	movq %rax, 680(%rsp)
	movl 360(%rbx), %r14d
	movl 372(%rbx), %eax
	movl %eax, 1864(%rsp)
	movq 364(%rbx), %rax
	movq %rax, 1856(%rsp)
	movups 384(%rbx), %xmm0
	movaps %xmm0, 1616(%rsp)
	movq 376(%rbx), %rbp
	movl 400(%rbx), %r13d
	movl 412(%rbx), %eax
	movl %eax, 1848(%rsp)
	movq 404(%rbx), %rax
	movq %rax, 1840(%rsp)
	movdqu 424(%rbx), %xmm0
	movdqa %xmm0, 1632(%rsp)
	movq 416(%rbx), %r12
	movq $0, 8(%rbx)
	leaq 16(%rbx), %rdi
	leaq 2624(%rsp), %rsi
	movl $424, %edx
	callq memcpy@PLT
	xorl %eax, %eax
	xchgq %rax, (%rbx)
	movl 1992(%rsp), %eax
	movl %eax, 1400(%rsp)
	movq 1984(%rsp), %rax
	movq %rax, 1392(%rsp)
	movq 1968(%rsp), %rax
	movq %rax, 1376(%rsp)
	movl 1976(%rsp), %eax
	movl %eax, 1384(%rsp)
	movq 1952(%rsp), %rax
	movq %rax, 1360(%rsp)
	movl 1960(%rsp), %eax
	movl %eax, 1368(%rsp)
	movq 1936(%rsp), %rax
	movq %rax, 1344(%rsp)
	movl 1944(%rsp), %eax
	movl %eax, 1352(%rsp)
	movl 1928(%rsp), %eax
	movl %eax, 1336(%rsp)
	movq 1920(%rsp), %rax
	movq %rax, 1328(%rsp)
	movl 1912(%rsp), %eax
	movl %eax, 1320(%rsp)
	movq 1904(%rsp), %rax
	movq %rax, 1312(%rsp)
	movq 1888(%rsp), %rax
	movq %rax, 1296(%rsp)
	movl 1896(%rsp), %eax
	movl %eax, 1304(%rsp)
	movq 1872(%rsp), %rax
	movq %rax, 1280(%rsp)
	movl 1880(%rsp), %eax
	movl %eax, 1288(%rsp)
	movq 1856(%rsp), %rax
	movq %rax, 1264(%rsp)
	movl 1864(%rsp), %eax
	movl %eax, 1272(%rsp)
	movl 1848(%rsp), %eax
	movl %eax, 1256(%rsp)
	movq 1840(%rsp), %rax
	movq %rax, 1248(%rsp)
	cmpb $1, 32(%rsp)
	je .LBB111_17
	movl $0, 664(%rsp)
	movq $0, 656(%rsp)
	movq $0, 640(%rsp)
	movl $0, 648(%rsp)
	movq $0, 624(%rsp)
	movl $0, 632(%rsp)
	movq $0, 608(%rsp)
	movl $0, 616(%rsp)
	movq $0, 592(%rsp)
	movl $0, 600(%rsp)
	movq $0, 576(%rsp)
	movl $0, 584(%rsp)
	movq $0, 560(%rsp)
	movl $0, 568(%rsp)
	movl $0, 552(%rsp)
	movq $0, 544(%rsp)
	movl $0, 536(%rsp)
	movq $0, 528(%rsp)
	movl $0, 520(%rsp)
	movq $0, 512(%rsp)
	movq 56(%rsp), %r12
	movq 48(%rsp), %r13
	leaq (%r15,%r13), %rax
	decq %rax
	decq %r15
	cmpq $-1, %rax
	jne .LBB111_9
.LBB111_15:
	movq 40(%rsp), %rax
	movq 24(%rax), %rcx
	testq %rcx, %rcx
	je .LBB111_21
	decq %rcx
	movq %rcx, 24(%rax)
	movq 16(%rax), %rax
	imulq $424, %rcx, %rcx
	movq (%rax,%rcx), %rdx
	movq %rdx, 152(%rsp)
	movl 8(%rax,%rcx), %esi
	movq 40(%rax,%rcx), %rdx
	movq %rdx, 160(%rsp)
	movl 48(%rax,%rcx), %r8d
	movdqu 12(%rax,%rcx), %xmm2
	movdqu 52(%rax,%rcx), %xmm9
	movq 80(%rax,%rcx), %r9
	movl 88(%rax,%rcx), %edx
	movl %edx, 20(%rsp)
	movdqu 92(%rax,%rcx), %xmm1
	movq 120(%rax,%rcx), %r10
	movl 128(%rax,%rcx), %edx
	movl %edx, 16(%rsp)
	movdqu 132(%rax,%rcx), %xmm14
	movq 160(%rax,%rcx), %r11
	movl 168(%rax,%rcx), %r14d
	movdqu 172(%rax,%rcx), %xmm8
	movq 200(%rax,%rcx), %rbx
	movl 208(%rax,%rcx), %r12d
	movl 212(%rax,%rcx), %r15d
	movq 220(%rax,%rcx), %xmm12
	movdqu 248(%rax,%rcx), %xmm11
	movdqu 288(%rax,%rcx), %xmm3
	movdqu 328(%rax,%rcx), %xmm7
	movdqu 368(%rax,%rcx), %xmm6
	movdqu 408(%rax,%rcx), %xmm5
	movl 216(%rax,%rcx), %edx
	movq %rdx, 64(%rsp)
	movq 240(%rax,%rcx), %rdx
	movq %rdx, 168(%rsp)
	movl 264(%rax,%rcx), %r13d
	movq 280(%rax,%rcx), %rdx
	movq %rdx, 672(%rsp)
	movl 304(%rax,%rcx), %edx
	movl %edx, 8(%rsp)
	movq 320(%rax,%rcx), %rdx
	movq %rdx, 680(%rsp)
	movl 344(%rax,%rcx), %edx
	movl %edx, 48(%rsp)
	movq 360(%rax,%rcx), %rdx
	movq %rdx, 32(%rsp)
	movl 384(%rax,%rcx), %edx
	movl %edx, 40(%rsp)
	movq 400(%rax,%rcx), %rdx
	movq %rdx, 120(%rsp)
	movl 36(%rax,%rcx), %edx
	movl %edx, 504(%rsp)
	movq 28(%rax,%rcx), %rdx
	movq %rdx, 496(%rsp)
	movl 76(%rax,%rcx), %edx
	movl %edx, 488(%rsp)
	movq 68(%rax,%rcx), %rdx
	movq %rdx, 480(%rsp)
	movl 116(%rax,%rcx), %edx
	movl %edx, 472(%rsp)
	movq 108(%rax,%rcx), %rdx
	movq %rdx, 464(%rsp)
	movl 156(%rax,%rcx), %edx
	movl %edx, 456(%rsp)
	movq 148(%rax,%rcx), %rdx
	movq %rdx, 448(%rsp)
	movl 196(%rax,%rcx), %edx
	movl %edx, 440(%rsp)
	movq 188(%rax,%rcx), %rdx
	movq %rdx, 432(%rsp)
	movq 228(%rax,%rcx), %rdx
	movq %rdx, 416(%rsp)
	movl 236(%rax,%rcx), %edx
	movl %edx, 424(%rsp)
	movq 268(%rax,%rcx), %rdx
	movq %rdx, 400(%rsp)
	movl 276(%rax,%rcx), %edx
	movl %edx, 408(%rsp)
	movq 308(%rax,%rcx), %rdx
	movq %rdx, 384(%rsp)
	movl 316(%rax,%rcx), %edx
	movl %edx, 392(%rsp)
	movq 348(%rax,%rcx), %rdx
	movq %rdx, 368(%rsp)
	movl 356(%rax,%rcx), %edx
	movl %edx, 376(%rsp)
	movl 396(%rax,%rcx), %edx
	movl %edx, 360(%rsp)
	movq 388(%rax,%rcx), %rax
	movq %rax, 352(%rsp)
	movq 144(%rsp), %rdi
.LBB111_18:
	pshufd $85, %xmm12, %xmm0
	movd %xmm0, 56(%rsp)
	cmpl $0, 112(%rsp)
	movq 680(%rsp), %rbp
	movq 32(%rsp), %rcx
	movl 8(%rsp), %edx
	jne .LBB111_33
	movl 80(%rdi), %esi
	testq %rsi, %rsi
	je .LBB111_20
	movl 192(%rdi), %ecx
	testq %rcx, %rcx
	je .LBB111_20
	movl 72(%rdi), %edx
	pshufd $85, %xmm2, %xmm0
	movd %xmm0, %eax
	imulq %rdx, %rax
	movq %rax, %rdx
	shrq $32, %rdx
	je .LBB111_27
	xorl %edx, %edx
	divq %rsi
	movq %rax, %rsi
	jmp .LBB111_29
.LBB111_36:
	movl 1080(%rsp), %eax
	movl %eax, 344(%rsp)
	movq 1072(%rsp), %rax
	movq %rax, 336(%rsp)
	movq 1056(%rsp), %rax
	movq %rax, 320(%rsp)
	movl 1064(%rsp), %eax
	movl %eax, 328(%rsp)
	movq 1040(%rsp), %rax
	movq %rax, 304(%rsp)
	movl 1048(%rsp), %eax
	movl %eax, 312(%rsp)
	movq 1024(%rsp), %rax
	movq %rax, 288(%rsp)
	movl 1032(%rsp), %eax
	movl %eax, 296(%rsp)
	movl 1016(%rsp), %eax
	movl %eax, 280(%rsp)
	movq 1008(%rsp), %rax
	movq %rax, 272(%rsp)
	movl 1000(%rsp), %eax
	movl %eax, 264(%rsp)
	movq 992(%rsp), %rax
	movq %rax, 256(%rsp)
	movl 984(%rsp), %eax
	movl %eax, 248(%rsp)
	movq 976(%rsp), %rax
	movq %rax, 240(%rsp)
	movl 968(%rsp), %eax
	movl %eax, 232(%rsp)
	movq 960(%rsp), %rax
	movq %rax, 224(%rsp)
	movl 952(%rsp), %eax
	movl %eax, 216(%rsp)
	movq 944(%rsp), %rax
	movq %rax, 208(%rsp)
	movl 936(%rsp), %eax
	movl %eax, 200(%rsp)
	movq 928(%rsp), %rax
	movq %rax, 192(%rsp)
	movl 920(%rsp), %eax
	movl %eax, 184(%rsp)
	movq 912(%rsp), %rax
	movq %rax, 176(%rsp)
	pxor %xmm2, %xmm2
	xorl %ecx, %ecx
	movl $10, %eax
	movq $0, 112(%rsp)
	movq $0, 144(%rsp)
	movq $0, 128(%rsp)
	movq $0, 136(%rsp)
	movl $0, 864(%rsp)
	movl $0, 28(%rsp)
	movl $0, 80(%rsp)
	movl $0, 76(%rsp)
	movq $0, 152(%rsp)
	xorl %esi, %esi
	movq $0, 160(%rsp)
	xorl %r8d, %r8d
	movl $0, 84(%rsp)
	pxor %xmm1, %xmm1
	pxor %xmm8, %xmm8
	pxor %xmm4, %xmm4
	pxor %xmm9, %xmm9
	xorps %xmm10, %xmm10
	xorps %xmm15, %xmm15
	xorps %xmm13, %xmm13
	pxor %xmm12, %xmm12
	pxor %xmm11, %xmm11
	pxor %xmm3, %xmm3
	pxor %xmm7, %xmm7
	pxor %xmm6, %xmm6
	pxor %xmm5, %xmm5
	xorl %r9d, %r9d
	movl $0, 20(%rsp)
	movl $0, 88(%rsp)
	xorl %r10d, %r10d
	movl $0, 16(%rsp)
	movl $0, 96(%rsp)
	xorl %r11d, %r11d
	xorl %r14d, %r14d
	movl $0, 896(%rsp)
	movl $0, 12(%rsp)
	movl $0, 92(%rsp)
	xorl %ebx, %ebx
	xorl %r12d, %r12d
	xorl %r15d, %r15d
	movq $0, 64(%rsp)
	movl $0, 24(%rsp)
	movl $0, 56(%rsp)
	movq $0, 168(%rsp)
	xorl %r13d, %r13d
	xorl %edi, %edi
	movl $0, 8(%rsp)
	xorl %ebp, %ebp
	movl $0, 48(%rsp)
	movq $0, 32(%rsp)
	movl $0, 40(%rsp)
	movq $0, 120(%rsp)
	jmp .LBB111_37
.LBB111_21:
	movl 1832(%rsp), %eax
	movl %eax, 504(%rsp)
	movq 1824(%rsp), %rax
	movq %rax, 496(%rsp)
	movq 1808(%rsp), %rax
	movq %rax, 480(%rsp)
	movl 1816(%rsp), %eax
	movl %eax, 488(%rsp)
	movq 1792(%rsp), %rax
	movq %rax, 464(%rsp)
	movl 1800(%rsp), %eax
	movl %eax, 472(%rsp)
	movq 1776(%rsp), %rax
	movq %rax, 448(%rsp)
	movl 1784(%rsp), %eax
	movl %eax, 456(%rsp)
	movl 1768(%rsp), %eax
	movl %eax, 440(%rsp)
	movq 1760(%rsp), %rax
	movq %rax, 432(%rsp)
	movl 1752(%rsp), %eax
	movl %eax, 424(%rsp)
	movq 1744(%rsp), %rax
	movq %rax, 416(%rsp)
	movq 1728(%rsp), %rax
	movq %rax, 400(%rsp)
	movl 1736(%rsp), %eax
	movl %eax, 408(%rsp)
	movq 1712(%rsp), %rax
	movq %rax, 384(%rsp)
	movl 1720(%rsp), %eax
	movl %eax, 392(%rsp)
	movq 1696(%rsp), %rax
	movq %rax, 368(%rsp)
	movl 1704(%rsp), %eax
	movl %eax, 376(%rsp)
	movl 1688(%rsp), %eax
	movl %eax, 360(%rsp)
	movq 1680(%rsp), %rax
	movq %rax, 352(%rsp)
	leaq 2624(%rsp), %rdi
	movq $0, 136(%rsp)
	movl $288, %edx
	xorl %esi, %esi
	callq memset@PLT
	movq 144(%rsp), %rbx
	lock  decq (%rbx)
	jne .LBB111_23
	leaq 8(%rbx), %rsi
	leaq 2624(%rsp), %r12
	movl $288, %edx
	movq %r12, %rdi
	callq memcpy@PLT
	movq %rbx, %rdi
	callq tags_library_dealloc@PLT
	movq %r12, %rdi
	callq tag_c.pool_state.PoolState.drop
.LBB111_23:
	movq 1072(%rsp), %rax
	movq %rax, 336(%rsp)
	movl 1080(%rsp), %eax
	movl %eax, 344(%rsp)
	movq 1056(%rsp), %rax
	movq %rax, 320(%rsp)
	movl 1064(%rsp), %eax
	movl %eax, 328(%rsp)
	movq 1040(%rsp), %rax
	movq %rax, 304(%rsp)
	movl 1048(%rsp), %eax
	movl %eax, 312(%rsp)
	movq 1024(%rsp), %rax
	movq %rax, 288(%rsp)
	movl 1032(%rsp), %eax
	movl %eax, 296(%rsp)
	movl 1016(%rsp), %eax
	movl %eax, 280(%rsp)
	movq 1008(%rsp), %rax
	movq %rax, 272(%rsp)
	movl 1000(%rsp), %eax
	movl %eax, 264(%rsp)
	movq 992(%rsp), %rax
	movq %rax, 256(%rsp)
	movl 984(%rsp), %eax
	movl %eax, 248(%rsp)
	movq 976(%rsp), %rax
	movq %rax, 240(%rsp)
	movl 968(%rsp), %eax
	movl %eax, 232(%rsp)
	movq 960(%rsp), %rax
	movq %rax, 224(%rsp)
	movl 952(%rsp), %eax
	movl %eax, 216(%rsp)
	movq 944(%rsp), %rax
	movq %rax, 208(%rsp)
	movl 936(%rsp), %eax
	movl %eax, 200(%rsp)
	movq 928(%rsp), %rax
	movq %rax, 192(%rsp)
	movl 920(%rsp), %eax
	movl %eax, 184(%rsp)
	movq 912(%rsp), %rax
	movq %rax, 176(%rsp)
	pxor %xmm2, %xmm2
	movl $5, %eax
	movl $0, %ecx
	movl $0, %edx
	movq %rdx, 112(%rsp)
	movl $0, %edx
	movq %rdx, 144(%rsp)
	movl $0, %edx
	movq %rdx, 128(%rsp)
	movl $0, 864(%rsp)
	movl $0, 28(%rsp)
	movl $0, 80(%rsp)
	movl $0, 76(%rsp)
	movl $0, %edx
	movq %rdx, 152(%rsp)
	movl $0, %esi
	movl $0, %edx
	movq %rdx, 160(%rsp)
	movl $0, %r8d
	movl $0, 84(%rsp)
	movl $0, %r9d
	pxor %xmm1, %xmm1
	pxor %xmm8, %xmm8
	pxor %xmm4, %xmm4
	pxor %xmm9, %xmm9
	xorps %xmm10, %xmm10
	xorps %xmm15, %xmm15
	xorps %xmm13, %xmm13
	pxor %xmm12, %xmm12
	pxor %xmm11, %xmm11
	pxor %xmm3, %xmm3
	pxor %xmm7, %xmm7
	pxor %xmm6, %xmm6
	pxor %xmm5, %xmm5
	movl $0, 20(%rsp)
	movl $0, 88(%rsp)
	movl $0, %r10d
	movl $0, 16(%rsp)
	movl $0, 96(%rsp)
	movl $0, %r11d
	movl $0, %r14d
	movl $0, 896(%rsp)
	movl $0, 12(%rsp)
	movl $0, 92(%rsp)
	movl $0, %ebx
	movl $0, %r12d
	movl $0, %r15d
	movl $0, %edx
	movq %rdx, 64(%rsp)
	movl $0, 24(%rsp)
	movl $0, 56(%rsp)
	movl $0, %edx
	movq %rdx, 168(%rsp)
	movl $0, %r13d
	movl $0, %edi
	movl $0, 8(%rsp)
	movl $0, %ebp
	movl $0, 48(%rsp)
	movl $0, %edx
	movq %rdx, 32(%rsp)
	jmp .LBB111_24
.LBB111_17:
	movq %r12, 120(%rsp)
	movl %r13d, 40(%rsp)
	movl %r14d, 48(%rsp)
	movq %rbp, 32(%rsp)
	movl 1400(%rsp), %eax
	movl %eax, 664(%rsp)
	movq 1392(%rsp), %rax
	movq %rax, 656(%rsp)
	movq 1376(%rsp), %rax
	movq %rax, 640(%rsp)
	movl 1384(%rsp), %eax
	movl %eax, 648(%rsp)
	movq 1360(%rsp), %rax
	movq %rax, 624(%rsp)
	movl 1368(%rsp), %eax
	movl %eax, 632(%rsp)
	movq 1344(%rsp), %rax
	movq %rax, 608(%rsp)
	movl 1352(%rsp), %eax
	movl %eax, 616(%rsp)
	movl 1336(%rsp), %eax
	movl %eax, 600(%rsp)
	movq 1328(%rsp), %rax
	movq %rax, 592(%rsp)
	movl 1320(%rsp), %eax
	movl %eax, 584(%rsp)
	movq 1312(%rsp), %rax
	movq %rax, 576(%rsp)
	movl 1304(%rsp), %eax
	movl %eax, 568(%rsp)
	movq 1296(%rsp), %rax
	movq %rax, 560(%rsp)
	movl 1288(%rsp), %eax
	movl %eax, 552(%rsp)
	movq 1280(%rsp), %rax
	movq %rax, 544(%rsp)
	movl 1272(%rsp), %eax
	movl %eax, 536(%rsp)
	movq 1264(%rsp), %rax
	movq %rax, 528(%rsp)
	movl 1256(%rsp), %eax
	movl %eax, 520(%rsp)
	movq 1248(%rsp), %rax
	movq %rax, 512(%rsp)
	movl 664(%rsp), %eax
	movl %eax, 1240(%rsp)
	movq 656(%rsp), %rax
	movq %rax, 1232(%rsp)
	movl 648(%rsp), %eax
	movl %eax, 1224(%rsp)
	movq 640(%rsp), %rax
	movq %rax, 1216(%rsp)
	movl 632(%rsp), %eax
	movl %eax, 1208(%rsp)
	movq 624(%rsp), %rax
	movq %rax, 1200(%rsp)
	movl 616(%rsp), %eax
	movl %eax, 1192(%rsp)
	movq 608(%rsp), %rax
	movq %rax, 1184(%rsp)
	movl 600(%rsp), %eax
	movl %eax, 1176(%rsp)
	movq 592(%rsp), %rax
	movq %rax, 1168(%rsp)
	movl 584(%rsp), %eax
	movl %eax, 1160(%rsp)
	movq 576(%rsp), %rax
	movq %rax, 1152(%rsp)
	movl 568(%rsp), %eax
	movl %eax, 1144(%rsp)
	movq 560(%rsp), %rax
	movq %rax, 1136(%rsp)
	movl 552(%rsp), %eax
	movl %eax, 1128(%rsp)
	movq 544(%rsp), %rax
	movq %rax, 1120(%rsp)
	movl 536(%rsp), %eax
	movl %eax, 1112(%rsp)
	movq 528(%rsp), %rax
	movq %rax, 1104(%rsp)
	movl 520(%rsp), %eax
	movl %eax, 1096(%rsp)
	movq 512(%rsp), %rax
	movq %rax, 1088(%rsp)
	movl 1240(%rsp), %eax
	movl %eax, 504(%rsp)
	movq 1232(%rsp), %rax
	movq %rax, 496(%rsp)
	movl 1224(%rsp), %eax
	movl %eax, 488(%rsp)
	movq 1216(%rsp), %rax
	movq %rax, 480(%rsp)
	movl 1208(%rsp), %eax
	movl %eax, 472(%rsp)
	movq 1200(%rsp), %rax
	movq %rax, 464(%rsp)
	movl 1192(%rsp), %eax
	movl %eax, 456(%rsp)
	movq 1184(%rsp), %rax
	movq %rax, 448(%rsp)
	movl 1176(%rsp), %eax
	movl %eax, 440(%rsp)
	movq 1168(%rsp), %rax
	movq %rax, 432(%rsp)
	movl 1160(%rsp), %eax
	movl %eax, 424(%rsp)
	movq 1152(%rsp), %rax
	movq %rax, 416(%rsp)
	movl 1144(%rsp), %eax
	movl %eax, 408(%rsp)
	movq 1136(%rsp), %rax
	movq %rax, 400(%rsp)
	movl 1128(%rsp), %eax
	movl %eax, 392(%rsp)
	movq 1120(%rsp), %rax
	movq %rax, 384(%rsp)
	movl 1112(%rsp), %eax
	movl %eax, 376(%rsp)
	movq 1104(%rsp), %rax
	movq %rax, 368(%rsp)
	movl 1096(%rsp), %eax
	movl %eax, 360(%rsp)
	movq 1088(%rsp), %rax
	movq %rax, 352(%rsp)
	movq 144(%rsp), %rdi
	movl 128(%rsp), %r8d
	movdqa 1632(%rsp), %xmm5
	movq 1600(%rsp), %r9
	movdqa 1616(%rsp), %xmm6
	movdqa 1648(%rsp), %xmm7
	movq 136(%rsp), %rsi
	movdqa 2048(%rsp), %xmm3
	movq 1568(%rsp), %r10
	movq 1584(%rsp), %r11
	movdqa 2032(%rsp), %xmm9
	movdqa 2080(%rsp), %xmm1
	movq 888(%rsp), %rbx
	movl 12(%rsp), %r14d
	movl 108(%rsp), %r15d
	movdqa 2016(%rsp), %xmm11
	movl 104(%rsp), %r12d
	movl 100(%rsp), %r13d
	movdqa 2000(%rsp), %xmm12
	movdqa 2064(%rsp), %xmm8
	movdqa 864(%rsp), %xmm2
	movdqa 896(%rsp), %xmm14
	jmp .LBB111_18
.LBB111_27:
	xorl %edx, %edx
	divl %esi
	movl %eax, %esi
.LBB111_29:
	movl 56(%rsp), %edx
	movl 184(%rdi), %eax
	imulq %rdx, %rax
	movq %rax, %rdx
	shrq $32, %rdx
	je .LBB111_30
	xorl %edx, %edx
	divq %rcx
	jmp .LBB111_32
.LBB111_30:
	xorl %edx, %edx
	divl %ecx
.LBB111_32:
	movq %rax, 64(%rsp)
	movq 32(%rsp), %rcx
	movl 8(%rsp), %edx
.LBB111_33:
	movq %r10, 1568(%rsp)
	movq %r11, 1584(%rsp)
	movq %r9, 1600(%rsp)
	pshufd $255, %xmm8, %xmm0
	movd %xmm0, %r11d
	pshufd $255, %xmm14, %xmm0
	movd %xmm0, %r9d
	pshufd $255, %xmm1, %xmm0
	movd %xmm0, %r10d
	movl 264(%rdi), %eax
	testl %eax, %eax
	je .LBB111_34
	movl %r10d, 88(%rsp)
	movl %r11d, 92(%rsp)
	movl %r9d, 96(%rsp)
	pshufd $85, %xmm8, %xmm0
	movd %xmm0, 12(%rsp)
	movd %xmm8, 896(%rsp)
	cmpl $64, %eax
	movl $64, %ecx
	cmovbl %eax, %ecx
	movzbl 268(%rdi), %eax
	movl %eax, 864(%rsp)
	movq %rcx, 136(%rsp)
	shlq $32, %rcx
	movq %rcx, 128(%rsp)
	movl $0, 344(%rsp)
	movq $0, 336(%rsp)
	movq 496(%rsp), %rax
	movq %rax, 320(%rsp)
	movl 504(%rsp), %eax
	movl %eax, 328(%rsp)
	movq 480(%rsp), %rax
	movq %rax, 304(%rsp)
	movl 488(%rsp), %eax
	movl %eax, 312(%rsp)
	movq 464(%rsp), %rax
	movq %rax, 288(%rsp)
	movl 472(%rsp), %eax
	movl %eax, 296(%rsp)
	movq 448(%rsp), %rax
	movq %rax, 272(%rsp)
	movl 456(%rsp), %eax
	movl %eax, 280(%rsp)
	movl 440(%rsp), %eax
	movl %eax, 264(%rsp)
	movq 432(%rsp), %rax
	movq %rax, 256(%rsp)
	movq 416(%rsp), %rax
	movq %rax, 240(%rsp)
	movl 424(%rsp), %eax
	movl %eax, 248(%rsp)
	movq 400(%rsp), %rax
	movq %rax, 224(%rsp)
	movl 408(%rsp), %eax
	movl %eax, 232(%rsp)
	movq 384(%rsp), %rax
	movq %rax, 208(%rsp)
	movl 392(%rsp), %eax
	movl %eax, 216(%rsp)
	movl 376(%rsp), %eax
	movl %eax, 200(%rsp)
	movq 368(%rsp), %rax
	movq %rax, 192(%rsp)
	movl 360(%rsp), %eax
	movl %eax, 184(%rsp)
	movq 352(%rsp), %rax
	movq %rax, 176(%rsp)
	pshufd $255, %xmm9, %xmm0
	movd %xmm0, 84(%rsp)
	movd %r8d, %xmm0
	shufps $228, %xmm9, %xmm0
	movdqa %xmm9, %xmm10
	shufps $36, %xmm0, %xmm10
	movss 20(%rsp), %xmm0
	shufps $228, %xmm1, %xmm0
	movdqa %xmm1, %xmm15
	shufps $36, %xmm0, %xmm15
	movss 16(%rsp), %xmm0
	shufps $228, %xmm14, %xmm0
	movdqa %xmm14, %xmm13
	shufps $36, %xmm0, %xmm13
	movd %xmm12, 24(%rsp)
	pshufd $238, %xmm8, %xmm0
	pxor %xmm4, %xmm4
	xorl %eax, %eax
	movl $2, %ecx
	movq %rcx, 112(%rsp)
	movb $1, %cl
	movl $0, 28(%rsp)
	movl $0, 80(%rsp)
	movl $0, 76(%rsp)
	movdqa %xmm9, %xmm12
	movdqa %xmm14, %xmm8
	movdqa %xmm2, %xmm9
	movdqa %xmm12, %xmm2
	movdqa %xmm0, %xmm12
	movq 672(%rsp), %rdi
	movq 1600(%rsp), %r9
	movq 1584(%rsp), %r11
	movq 1568(%rsp), %r10
	jmp .LBB111_37
.LBB111_34:
	movl 504(%rsp), %eax
	movl %eax, 344(%rsp)
	movq 496(%rsp), %rax
	movq %rax, 336(%rsp)
	movq 480(%rsp), %rax
	movq %rax, 320(%rsp)
	movl 488(%rsp), %eax
	movl %eax, 328(%rsp)
	movq 464(%rsp), %rax
	movq %rax, 304(%rsp)
	movl 472(%rsp), %eax
	movl %eax, 312(%rsp)
	movq 448(%rsp), %rax
	movq %rax, 288(%rsp)
	movl 456(%rsp), %eax
	movl %eax, 296(%rsp)
	movl 440(%rsp), %eax
	movl %eax, 280(%rsp)
	movq 432(%rsp), %rax
	movq %rax, 272(%rsp)
	movl 424(%rsp), %eax
	movl %eax, 264(%rsp)
	movq 416(%rsp), %rax
	movq %rax, 256(%rsp)
	movl 408(%rsp), %eax
	movl %eax, 248(%rsp)
	movq 400(%rsp), %rax
	movq %rax, 240(%rsp)
	movl 392(%rsp), %eax
	movl %eax, 232(%rsp)
	movq 384(%rsp), %rax
	movq %rax, 224(%rsp)
	movl 376(%rsp), %eax
	movl %eax, 216(%rsp)
	movq 368(%rsp), %rax
	movq %rax, 208(%rsp)
	movl 360(%rsp), %eax
	movl %eax, 200(%rsp)
	movq 352(%rsp), %rax
	movq %rax, 192(%rsp)
	movl 1672(%rsp), %eax
	movl %eax, 184(%rsp)
	movq 1664(%rsp), %rax
	movq %rax, 176(%rsp)
	movdqa %xmm7, 1648(%rsp)
	pshufd $238, %xmm2, %xmm7
	pshufd $85, %xmm2, %xmm0
	movdqa %xmm0, 1632(%rsp)
	pshufd $255, %xmm2, %xmm0
	movdqa %xmm0, 1616(%rsp)
	movl 20(%rsp), %eax
	movdqa %xmm2, 864(%rsp)
	movd %eax, %xmm2
	shufps $228, %xmm1, %xmm2
	movdqa %xmm1, %xmm10
	shufps $36, %xmm2, %xmm10
	movl 16(%rsp), %edi
	movd %edi, %xmm2
	shufps $228, %xmm14, %xmm2
	movdqa %xmm14, %xmm15
	shufps $36, %xmm2, %xmm15
	movd %r14d, %xmm2
	shufps $228, %xmm8, %xmm2
	movdqa %xmm8, %xmm13
	shufps $36, %xmm2, %xmm13
	pshufd $85, %xmm11, %xmm2
	movdqa %xmm3, %xmm0
	pshufd $238, %xmm11, %xmm3
	movq %rsi, 136(%rsp)
	movl %r8d, %esi
	movl %eax, %r8d
	movl %edi, 20(%rsp)
	movl %r14d, 16(%rsp)
	movl %r12d, %r14d
	movd %xmm11, %r12d
	pshufd $255, %xmm11, %xmm4
	movq 152(%rsp), %rdi
	movq %rdi, 128(%rsp)
	movq 160(%rsp), %rdi
	movq %rdi, 152(%rsp)
	movq 1600(%rsp), %rdi
	movq %rdi, 160(%rsp)
	movl %r10d, 84(%rsp)
	movq 1568(%rsp), %r10
	movl %r9d, 88(%rsp)
	movq %r10, %r9
	movq 1584(%rsp), %r10
	movl %r11d, 96(%rsp)
	movq %rbx, %r11
	movl %r15d, 896(%rsp)
	movq 64(%rsp), %rdi
	movl %edi, 12(%rsp)
	movl 56(%rsp), %edi
	movl %edi, 92(%rsp)
	movq 168(%rsp), %rbx
	movd %xmm2, %r15d
	movd %xmm3, %eax
	movq %rax, 64(%rsp)
	movl %r13d, 56(%rsp)
	movq 672(%rsp), %rax
	movq %rax, 168(%rsp)
	movl %edx, %r13d
	movq %rbp, %rdi
	movl 48(%rsp), %eax
	movl %eax, 8(%rsp)
	movq %rcx, %rbp
	movl 40(%rsp), %eax
	movl %eax, 48(%rsp)
	movq 120(%rsp), %rax
	movq %rax, 32(%rsp)
	movdqa %xmm1, %xmm2
	movdqa %xmm14, %xmm1
	movdqa %xmm0, %xmm11
	movdqa 1648(%rsp), %xmm3
	movdqa %xmm6, %xmm0
	movdqa %xmm5, %xmm6
	pxor %xmm5, %xmm5
	movaps 864(%rsp), %xmm14
	movss %xmm14, 864(%rsp)
	movaps 1632(%rsp), %xmm14
	movss %xmm14, 28(%rsp)
	movdqa 1616(%rsp), %xmm14
	movd %xmm14, 76(%rsp)
	movd %xmm7, 80(%rsp)
	movd %xmm4, 24(%rsp)
	movdqa %xmm7, %xmm4
	movdqa %xmm0, %xmm7
	xorl %eax, %eax
	movb $1, %cl
	movq $0, 112(%rsp)
.LBB111_24:
	movl $0, 40(%rsp)
	movl $0, %edx
	movq %rdx, 120(%rsp)
.LBB111_37:
	movl 344(%rsp), %edx
	movl %edx, 856(%rsp)
	movq 336(%rsp), %rdx
	movq %rdx, 848(%rsp)
	movl 328(%rsp), %edx
	movl %edx, 840(%rsp)
	movq 320(%rsp), %rdx
	movq %rdx, 832(%rsp)
	movl 312(%rsp), %edx
	movl %edx, 824(%rsp)
	movq 304(%rsp), %rdx
	movq %rdx, 816(%rsp)
	movl 296(%rsp), %edx
	movl %edx, 808(%rsp)
	movq 288(%rsp), %rdx
	movq %rdx, 800(%rsp)
	movl 280(%rsp), %edx
	movl %edx, 792(%rsp)
	movq 272(%rsp), %rdx
	movq %rdx, 784(%rsp)
	movl 264(%rsp), %edx
	movl %edx, 776(%rsp)
	movq 256(%rsp), %rdx
	movq %rdx, 768(%rsp)
	movl 248(%rsp), %edx
	movl %edx, 760(%rsp)
	movq 240(%rsp), %rdx
	movq %rdx, 752(%rsp)
	movl 232(%rsp), %edx
	movl %edx, 744(%rsp)
	movq 224(%rsp), %rdx
	movq %rdx, 736(%rsp)
	movl 216(%rsp), %edx
	movl %edx, 728(%rsp)
	movq 208(%rsp), %rdx
	movq %rdx, 720(%rsp)
	movl 200(%rsp), %edx
	movl %edx, 712(%rsp)
	movq 192(%rsp), %rdx
	movq %rdx, 704(%rsp)
	movl 184(%rsp), %edx
	movl %edx, 696(%rsp)
	movq 176(%rsp), %rdx
	movq %rdx, 688(%rsp)
	testb %cl, %cl
	je .LBB111_41
	movdqa %xmm2, 2592(%rsp)
	movdqa %xmm4, 2608(%rsp)
	movaps %xmm13, 1568(%rsp)
	movaps %xmm15, 1584(%rsp)
	movaps %xmm10, 1600(%rsp)
	movdqa %xmm8, 2064(%rsp)
	movdqa %xmm12, 2000(%rsp)
	movq %rbp, 680(%rsp)
	movq %rdi, 672(%rsp)
	movl %r13d, 100(%rsp)
	movl %r12d, 104(%rsp)
	movdqa %xmm11, 2016(%rsp)
	movl %r15d, 108(%rsp)
	movl %r14d, %r12d
	movq %rbx, 888(%rsp)
	movdqa %xmm1, 2080(%rsp)
	movdqa %xmm9, 2032(%rsp)
	movq %r11, %r15
	movq %r10, %r13
	movdqa %xmm3, 2048(%rsp)
	movq %rsi, %rbp
	movdqa %xmm7, 1648(%rsp)
	movdqa %xmm6, 1616(%rsp)
	movq %r9, %r14
	movdqa %xmm5, 1632(%rsp)
	movl %r8d, %ebx
	movl $480, %edi
	movl $8, %esi
	callq tags_library_alloc@PLT
	testb $1, %al
	je .LBB111_40
	movq 112(%rsp), %rax
	movq %rax, (%rdx)
	movq 144(%rsp), %rax
	movq %rax, 8(%rdx)
	movq 128(%rsp), %rax
	movq %rax, 16(%rdx)
	movq 136(%rsp), %rax
	movl %eax, 24(%rdx)
	movl 864(%rsp), %eax
	movl %eax, 28(%rdx)
	movl 28(%rsp), %eax
	movl %eax, 32(%rdx)
	movl 80(%rsp), %eax
	movl %eax, 36(%rdx)
	movl 76(%rsp), %eax
	movl %eax, 40(%rdx)
	movq 848(%rsp), %rax
	movq %rax, 44(%rdx)
	movl 856(%rsp), %eax
	movl %eax, 52(%rdx)
	movq 152(%rsp), %rax
	movq %rax, 56(%rdx)
	movl %ebp, 64(%rdx)
	movaps 2032(%rsp), %xmm0
	movups %xmm0, 68(%rdx)
	movq 832(%rsp), %rax
	movq %rax, 84(%rdx)
	movl 840(%rsp), %eax
	movl %eax, 92(%rdx)
	movq 160(%rsp), %rax
	movq %rax, 96(%rdx)
	movl %ebx, 104(%rdx)
	movaps 2592(%rsp), %xmm0
	movups %xmm0, 108(%rdx)
	movl 824(%rsp), %eax
	movl %eax, 132(%rdx)
	movq 816(%rsp), %rax
	movq %rax, 124(%rdx)
	movq %r14, 136(%rdx)
	movl 20(%rsp), %eax
	movl %eax, 144(%rdx)
	movaps 2080(%rsp), %xmm0
	movups %xmm0, 148(%rdx)
	movl 808(%rsp), %eax
	movl %eax, 172(%rdx)
	movq 800(%rsp), %rax
	movq %rax, 164(%rdx)
	movq %r13, 176(%rdx)
	movl 16(%rsp), %eax
	movl %eax, 184(%rdx)
	movaps 2064(%rsp), %xmm0
	movups %xmm0, 188(%rdx)
	movl 792(%rsp), %eax
	movl %eax, 212(%rdx)
	movq 784(%rsp), %rax
	movq %rax, 204(%rdx)
	movq %r15, 216(%rdx)
	movl %r12d, 224(%rdx)
	movl 896(%rsp), %eax
	movl %eax, 228(%rdx)
	movl 12(%rsp), %eax
	movl %eax, 232(%rdx)
	movaps 2000(%rsp), %xmm0
	movss %xmm0, 236(%rdx)
	movl 92(%rsp), %eax
	movl %eax, 240(%rdx)
	movl 776(%rsp), %eax
	movl %eax, 252(%rdx)
	movq 768(%rsp), %rax
	movq %rax, 244(%rdx)
	movq 888(%rsp), %rax
	movq %rax, 256(%rdx)
	movl 104(%rsp), %eax
	movl %eax, 264(%rdx)
	movl 108(%rsp), %eax
	movl %eax, 268(%rdx)
	movq 64(%rsp), %rax
	movl %eax, 272(%rdx)
	movl 24(%rsp), %eax
	movl %eax, 276(%rdx)
	movl 56(%rsp), %eax
	movl %eax, 280(%rdx)
	movl 760(%rsp), %eax
	movl %eax, 292(%rdx)
	movq 752(%rsp), %rax
	movq %rax, 284(%rdx)
	movq 168(%rsp), %rax
	movq %rax, 296(%rdx)
	movaps 2016(%rsp), %xmm0
	movups %xmm0, 304(%rdx)
	movl 100(%rsp), %eax
	movl %eax, 320(%rdx)
	movq 736(%rsp), %rax
	movq %rax, 324(%rdx)
	movl 744(%rsp), %eax
	movl %eax, 332(%rdx)
	movq 672(%rsp), %rax
	movq %rax, 336(%rdx)
	movaps 2048(%rsp), %xmm0
	movups %xmm0, 344(%rdx)
	movl 8(%rsp), %eax
	movl %eax, 360(%rdx)
	movl 728(%rsp), %eax
	movl %eax, 372(%rdx)
	movq 720(%rsp), %rax
	movq %rax, 364(%rdx)
	movq 680(%rsp), %rax
	movq %rax, 376(%rdx)
	movaps 1648(%rsp), %xmm0
	movups %xmm0, 384(%rdx)
	movl 48(%rsp), %eax
	movl %eax, 400(%rdx)
	movl 712(%rsp), %eax
	movl %eax, 412(%rdx)
	movq 704(%rsp), %rax
	movq %rax, 404(%rdx)
	movq 32(%rsp), %rax
	movq %rax, 416(%rdx)
	movaps 1616(%rsp), %xmm0
	movups %xmm0, 424(%rdx)
	movl 40(%rsp), %eax
	movl %eax, 440(%rdx)
	movl 696(%rsp), %eax
	movl %eax, 452(%rdx)
	movq 688(%rsp), %rax
	movq %rax, 444(%rdx)
	movq 120(%rsp), %rax
	movq %rax, 456(%rdx)
	movdqa 1632(%rsp), %xmm0
	movdqu %xmm0, 464(%rdx)
	movq 2104(%rsp), %rax
	movq $1, (%rax)
	movq %rdx, 8(%rax)
	xorl %eax, %eax
	jmp .LBB111_42
.LBB111_41:
	leaq .Lswitch.table.tags_library_join(%rip), %rcx
	movl (%rcx,%rax,4), %eax
.LBB111_42:
	addq $3048, %rsp
	popq %rbx
	popq %r12
	popq %r13
	popq %r14
	popq %r15
	popq %rbp
	retq
.LBB111_40:
	movq 112(%rsp), %rax
	movq %rax, 2112(%rsp)
	movq 144(%rsp), %rax
	movq %rax, 2120(%rsp)
	movq 128(%rsp), %rax
	movq %rax, 2128(%rsp)
	movq 136(%rsp), %rax
	movl %eax, 2136(%rsp)
	movl 864(%rsp), %eax
	movl %eax, 2140(%rsp)
	movl 28(%rsp), %eax
	movl %eax, 2144(%rsp)
	movaps 2608(%rsp), %xmm0
	movlps %xmm0, 2148(%rsp)
	movq 848(%rsp), %rax
	movq %rax, 2156(%rsp)
	movl 856(%rsp), %eax
	movl %eax, 2164(%rsp)
	movq 152(%rsp), %rax
	movq %rax, 2168(%rsp)
	movl %ebp, 2176(%rsp)
	movaps 2032(%rsp), %xmm0
	movups %xmm0, 2180(%rsp)
	movq 832(%rsp), %rax
	movq %rax, 2196(%rsp)
	movl 840(%rsp), %eax
	movl %eax, 2204(%rsp)
	movq 160(%rsp), %rax
	movq %rax, 2208(%rsp)
	pshufd $147, 1600(%rsp), %xmm0
	movdqu %xmm0, 2216(%rsp)
	movl 84(%rsp), %eax
	movl %eax, 2232(%rsp)
	movq 816(%rsp), %rax
	movq %rax, 2236(%rsp)
	movl 824(%rsp), %eax
	movl %eax, 2244(%rsp)
	movq %r14, 2248(%rsp)
	pshufd $147, 1584(%rsp), %xmm0
	movdqu %xmm0, 2256(%rsp)
	movl 88(%rsp), %eax
	movl %eax, 2272(%rsp)
	movq 800(%rsp), %rax
	movq %rax, 2276(%rsp)
	movl 808(%rsp), %eax
	movl %eax, 2284(%rsp)
	movq %r13, 2288(%rsp)
	pshufd $147, 1568(%rsp), %xmm0
	movdqu %xmm0, 2296(%rsp)
	movl 96(%rsp), %eax
	movl %eax, 2312(%rsp)
	movl 792(%rsp), %eax
	movl %eax, 2324(%rsp)
	movq 784(%rsp), %rax
	movq %rax, 2316(%rsp)
	movq %r15, 2328(%rsp)
	movl %r12d, 2336(%rsp)
	movl 896(%rsp), %eax
	movl %eax, 2340(%rsp)
	movl 12(%rsp), %eax
	movl %eax, 2344(%rsp)
	movaps 2000(%rsp), %xmm0
	movlps %xmm0, 2348(%rsp)
	movq 768(%rsp), %rax
	movq %rax, 2356(%rsp)
	movl 776(%rsp), %eax
	movl %eax, 2364(%rsp)
	movq 888(%rsp), %rax
	movq %rax, 2368(%rsp)
	movl 104(%rsp), %eax
	movl %eax, 2376(%rsp)
	movl 108(%rsp), %eax
	movl %eax, 2380(%rsp)
	movq 64(%rsp), %rax
	movl %eax, 2384(%rsp)
	movl 24(%rsp), %eax
	movl %eax, 2388(%rsp)
	movl 56(%rsp), %eax
	movl %eax, 2392(%rsp)
	movq 752(%rsp), %rax
	movq %rax, 2396(%rsp)
	movl 760(%rsp), %eax
	movl %eax, 2404(%rsp)
	movq 168(%rsp), %rax
	movq %rax, 2408(%rsp)
	movaps 2016(%rsp), %xmm0
	movups %xmm0, 2416(%rsp)
	movl 100(%rsp), %eax
	movl %eax, 2432(%rsp)
	movl 744(%rsp), %eax
	movl %eax, 2444(%rsp)
	movq 736(%rsp), %rax
	movq %rax, 2436(%rsp)
	movq 672(%rsp), %rax
	movq %rax, 2448(%rsp)
	movaps 2048(%rsp), %xmm0
	movups %xmm0, 2456(%rsp)
	movl 8(%rsp), %eax
	movl %eax, 2472(%rsp)
	movl 728(%rsp), %eax
	movl %eax, 2484(%rsp)
	movq 720(%rsp), %rax
	movq %rax, 2476(%rsp)
	movq 680(%rsp), %rax
	movq %rax, 2488(%rsp)
	movaps 1648(%rsp), %xmm0
	movups %xmm0, 2496(%rsp)
	movl 48(%rsp), %eax
	movl %eax, 2512(%rsp)
	movl 712(%rsp), %eax
	movl %eax, 2524(%rsp)
	movq 704(%rsp), %rax
	movq %rax, 2516(%rsp)
	movq 32(%rsp), %rax
	movq %rax, 2528(%rsp)
	movaps 1616(%rsp), %xmm0
	movups %xmm0, 2536(%rsp)
	movl 40(%rsp), %eax
	movl %eax, 2552(%rsp)
	movl 696(%rsp), %eax
	movl %eax, 2564(%rsp)
	movq 688(%rsp), %rax
	movq %rax, 2556(%rsp)
	movq 120(%rsp), %rax
	movq %rax, 2568(%rsp)
	movdqa 1632(%rsp), %xmm0
	movdqu %xmm0, 2576(%rsp)
	leaq 2112(%rsp), %rdi
	callq tag_c.object.Object.leave
	movl $-21, %eax
	jmp .LBB111_42
.LBB111_20:
	ud2
.Lfunc_end111:
	.size tags_library_join, .Lfunc_end111-tags_library_join
	.section .text.tags_library_listen_on,"ax",@progbits
	.globl tags_library_listen_on
	.p2align 4
	.type tags_library_listen_on,@function
tags_library_listen_on:
	xorl %r10d, %r10d
	testl %edx, %edx
	setne %r8b
	movl $-12, %eax
	cmpq $1, (%rdi)
	jne .LBB112_11
	pushq %r14
	pushq %rbx
	subq $56, %rsp
	movq 8(%rdi), %rdx
	movzbl (%rdx), %edi
	cmpl $2, %edi
	je .LBB112_8
	cmpl $1, %edi
	je .LBB112_10
	movq %rcx, %r14
	xorps %xmm0, %xmm0
	movaps %xmm0, 32(%rsp)
	movaps %xmm0, 16(%rsp)
	movq 8(%rdx), %rax
	addq $8, %rax
	addq $16, %rdx
	xorl %r9d, %r9d
	movl %esi, %ebx
	testl %esi, %esi
	setne %r9b
	movb %r8b, %r10b
	movl %r10d, (%rsp)
	leaq 16(%rsp), %rdi
	movq %rax, %rsi
	xorl %ecx, %ecx
	movl $1, %r8d
	callq tag_c.rounds.bare.make_round
	jmp .LBB112_4
.LBB112_8:
	xorps %xmm0, %xmm0
	movaps %xmm0, 32(%rsp)
	movaps %xmm0, 16(%rsp)
	movq 8(%rdx), %rax
	addq $8, %rax
	addq $16, %rdx
	xorl %r9d, %r9d
	movl %esi, %ebx
	testl %esi, %esi
	setne %r9b
	movzbl %r8b, %esi
	movl %esi, (%rsp)
	leaq 16(%rsp), %rdi
	movq %rax, %rsi
	movq %rcx, %r14
	xorl %ecx, %ecx
	movl $1, %r8d
	callq tag_c.rounds.caching.make_round_over
.LBB112_4:
	movzbl 17(%rsp), %edx
	movzbl 20(%rsp), %ecx
	movl 24(%rsp), %eax
	movaps 32(%rsp), %xmm0
	cmpb $0, 16(%rsp)
	movups %xmm0, (%r14)
	je .LBB112_5
	leaq .Lswitch.table.tags_library_wait_on_reserved.286(%rip), %rax
	movl (%rax,%rdx,4), %eax
.LBB112_10:
	addq $56, %rsp
	popq %rbx
	popq %r14
.LBB112_11:
	retq
.LBB112_5:
	testl %ecx, %ecx
	je .LBB112_10
	movl %ebx, %eax
	cmpl $1, %ecx
	je .LBB112_10
	movl $-10, %eax
	jmp .LBB112_10
.Lfunc_end112:
	.size tags_library_listen_on, .Lfunc_end112-tags_library_listen_on
	.section .text.tags_library_listen_on_reserved,"ax",@progbits
	.globl tags_library_listen_on_reserved
	.p2align 4
	.type tags_library_listen_on_reserved,@function
tags_library_listen_on_reserved:
	xorl %r10d, %r10d
	testl %edx, %edx
	setne %r8b
	movl $-12, %eax
	cmpq $1, (%rdi)
	jne .LBB113_11
	pushq %r14
	pushq %rbx
	subq $56, %rsp
	movq 8(%rdi), %rdx
	movzbl (%rdx), %edi
	cmpl $2, %edi
	je .LBB113_8
	cmpl $1, %edi
	je .LBB113_10
	movq %rcx, %r14
	xorps %xmm0, %xmm0
	movaps %xmm0, 32(%rsp)
	movaps %xmm0, 16(%rsp)
	movq 8(%rdx), %rax
	addq $8, %rax
	addq $16, %rdx
	xorl %r9d, %r9d
	movl %esi, %ebx
	testl %esi, %esi
	setne %r9b
	movb %r8b, %r10b
	movl %r10d, (%rsp)
	leaq 16(%rsp), %rdi
	movq %rax, %rsi
	movl $1, %ecx
	movl $1, %r8d
	callq tag_c.rounds.bare.make_round
	jmp .LBB113_4
.LBB113_8:
	xorps %xmm0, %xmm0
	movaps %xmm0, 32(%rsp)
	movaps %xmm0, 16(%rsp)
	movq 8(%rdx), %rax
	addq $8, %rax
	addq $16, %rdx
	xorl %r9d, %r9d
	movl %esi, %ebx
	testl %esi, %esi
	setne %r9b
	movzbl %r8b, %esi
	movl %esi, (%rsp)
	leaq 16(%rsp), %rdi
	movq %rax, %rsi
	movq %rcx, %r14
	movl $1, %ecx
	movl $1, %r8d
	callq tag_c.rounds.caching.make_round_over
.LBB113_4:
	movzbl 17(%rsp), %edx
	movzbl 20(%rsp), %ecx
	movl 24(%rsp), %eax
	movaps 32(%rsp), %xmm0
	cmpb $0, 16(%rsp)
	movups %xmm0, (%r14)
	je .LBB113_5
	leaq .Lswitch.table.tags_library_wait_on_reserved.286(%rip), %rax
	movl (%rax,%rdx,4), %eax
.LBB113_10:
	addq $56, %rsp
	popq %rbx
	popq %r14
.LBB113_11:
	retq
.LBB113_5:
	testl %ecx, %ecx
	je .LBB113_10
	movl %ebx, %eax
	cmpl $1, %ecx
	je .LBB113_10
	movl $-10, %eax
	jmp .LBB113_10
.Lfunc_end113:
	.size tags_library_listen_on_reserved, .Lfunc_end113-tags_library_listen_on_reserved
	.section .text.tags_library_wait_on,"ax",@progbits
	.globl tags_library_wait_on
	.p2align 4
	.type tags_library_wait_on,@function
tags_library_wait_on:
	xorl %r10d, %r10d
	testl %edx, %edx
	setne %r8b
	movl $-12, %eax
	cmpq $1, (%rdi)
	jne .LBB114_11
	pushq %r14
	pushq %rbx
	subq $56, %rsp
	movq 8(%rdi), %rdx
	movzbl (%rdx), %edi
	cmpl $2, %edi
	je .LBB114_8
	cmpl $1, %edi
	je .LBB114_10
	movq %rcx, %r14
	xorps %xmm0, %xmm0
	movaps %xmm0, 32(%rsp)
	movaps %xmm0, 16(%rsp)
	movq 8(%rdx), %rax
	addq $8, %rax
	addq $16, %rdx
	xorl %r9d, %r9d
	movl %esi, %ebx
	testl %esi, %esi
	setne %r9b
	movb %r8b, %r10b
	movl %r10d, (%rsp)
	leaq 16(%rsp), %rdi
	movq %rax, %rsi
	xorl %ecx, %ecx
	xorl %r8d, %r8d
	callq tag_c.rounds.bare.make_round
	jmp .LBB114_4
.LBB114_8:
	xorps %xmm0, %xmm0
	movaps %xmm0, 32(%rsp)
	movaps %xmm0, 16(%rsp)
	movq 8(%rdx), %rax
	addq $8, %rax
	addq $16, %rdx
	xorl %r9d, %r9d
	movl %esi, %ebx
	testl %esi, %esi
	setne %r9b
	movzbl %r8b, %esi
	movl %esi, (%rsp)
	leaq 16(%rsp), %rdi
	movq %rax, %rsi
	movq %rcx, %r14
	xorl %ecx, %ecx
	xorl %r8d, %r8d
	callq tag_c.rounds.caching.make_round_over
.LBB114_4:
	movzbl 17(%rsp), %edx
	movzbl 20(%rsp), %ecx
	movl 24(%rsp), %eax
	movaps 32(%rsp), %xmm0
	cmpb $0, 16(%rsp)
	movups %xmm0, (%r14)
	je .LBB114_5
	leaq .Lswitch.table.tags_library_wait_on_reserved.286(%rip), %rax
	movl (%rax,%rdx,4), %eax
.LBB114_10:
	addq $56, %rsp
	popq %rbx
	popq %r14
.LBB114_11:
	retq
.LBB114_5:
	testl %ecx, %ecx
	je .LBB114_10
	movl %ebx, %eax
	cmpl $1, %ecx
	je .LBB114_10
	movl $-10, %eax
	jmp .LBB114_10
.Lfunc_end114:
	.size tags_library_wait_on, .Lfunc_end114-tags_library_wait_on
	.section .text.tags_library_wait_on_reserved,"ax",@progbits
	.globl tags_library_wait_on_reserved
	.p2align 4
	.type tags_library_wait_on_reserved,@function
tags_library_wait_on_reserved:
	xorl %r10d, %r10d
	testl %edx, %edx
	setne %r8b
	movl $-12, %eax
	cmpq $1, (%rdi)
	jne .LBB115_11
	pushq %r14
	pushq %rbx
	subq $56, %rsp
	movq 8(%rdi), %rdx
	movzbl (%rdx), %edi
	cmpl $2, %edi
	je .LBB115_8
	cmpl $1, %edi
	je .LBB115_10
	movq %rcx, %r14
	xorps %xmm0, %xmm0
	movaps %xmm0, 32(%rsp)
	movaps %xmm0, 16(%rsp)
	movq 8(%rdx), %rax
	addq $8, %rax
	addq $16, %rdx
	xorl %r9d, %r9d
	movl %esi, %ebx
	testl %esi, %esi
	setne %r9b
	movb %r8b, %r10b
	movl %r10d, (%rsp)
	leaq 16(%rsp), %rdi
	movq %rax, %rsi
	movl $1, %ecx
	xorl %r8d, %r8d
	callq tag_c.rounds.bare.make_round
	jmp .LBB115_4
.LBB115_8:
	xorps %xmm0, %xmm0
	movaps %xmm0, 32(%rsp)
	movaps %xmm0, 16(%rsp)
	movq 8(%rdx), %rax
	addq $8, %rax
	addq $16, %rdx
	xorl %r9d, %r9d
	movl %esi, %ebx
	testl %esi, %esi
	setne %r9b
	movzbl %r8b, %esi
	movl %esi, (%rsp)
	leaq 16(%rsp), %rdi
	movq %rax, %rsi
	movq %rcx, %r14
	movl $1, %ecx
	xorl %r8d, %r8d
	callq tag_c.rounds.caching.make_round_over
.LBB115_4:
	movzbl 17(%rsp), %edx
	movzbl 20(%rsp), %ecx
	movl 24(%rsp), %eax
	movaps 32(%rsp), %xmm0
	cmpb $0, 16(%rsp)
	movups %xmm0, (%r14)
	je .LBB115_5
	leaq .Lswitch.table.tags_library_wait_on_reserved.286(%rip), %rax
	movl (%rax,%rdx,4), %eax
.LBB115_10:
	addq $56, %rsp
	popq %rbx
	popq %r14
.LBB115_11:
	retq
.LBB115_5:
	testl %ecx, %ecx
	je .LBB115_10
	movl %ebx, %eax
	cmpl $1, %ecx
	je .LBB115_10
	movl $-10, %eax
	jmp .LBB115_10
.Lfunc_end115:
	.size tags_library_wait_on_reserved, .Lfunc_end115-tags_library_wait_on_reserved
	.section .text.tags_library_open,"ax",@progbits
	.globl tags_library_open
	.p2align 4
	.type tags_library_open,@function
tags_library_open:
	xorl %edx, %edx
	xorl %ecx, %ecx
	jmp tag_c.pools.open_into
.Lfunc_end116:
	.size tags_library_open, .Lfunc_end116-tags_library_open
	.section .text.tags_library_open_cached,"ax",@progbits
	.globl tags_library_open_cached
	.p2align 4
	.type tags_library_open_cached,@function
tags_library_open_cached:
	jmp tag_c.pools.open_into
.Lfunc_end117:
	.size tags_library_open_cached, .Lfunc_end117-tags_library_open_cached
	.section .rodata.cst16,"aM",@progbits,16
	.p2align 4, 0x0
.LCPI118_0:
	.zero 16,85
.LCPI118_1:
	.zero 16,51
.LCPI118_2:
	.zero 16,15
	.section .text.tags_library_resize,"ax",@progbits
	.globl tags_library_resize
	.p2align 4
	.type tags_library_resize,@function
tags_library_resize:
	pushq %rbp
	pushq %r15
	pushq %r14
	pushq %r13
	pushq %r12
	pushq %rbx
	subq $3072, %rsp
	movq $0, (%rsp)
	subq $520, %rsp
	movl $-12, %eax
	cmpq $1, (%rdi)
	jne .LBB118_182
	movq 8(%rdi), %rdx
	cmpb $1, (%rdx)
	jne .LBB118_182
	movl $-1, %ecx
	cmpl $10240, %esi
	ja .LBB118_180
	movq 8(%rdx), %r14
	movl $-2, %ecx
	cmpl 260(%r14), %esi
	jae .LBB118_4
.LBB118_180:
	addl $-21, %ecx
	movl %ecx, %eax
.LBB118_182:
	addq $3592, %rsp
	popq %rbx
	popq %r12
	popq %r13
	popq %r14
	popq %r15
	popq %rbp
	retq
.LBB118_4:
	movq 16(%rdx), %rbp
	movq 24(%rdx), %r13
	movq 32(%rdx), %r12
	movq (%r14), %rax
	cmpq $1, %rax
	jne .LBB118_5
	movq %rdx, 168(%rsp)
	leaq 8(%r14), %rax
	leaq 3008(%rsp), %rdi
	movl $248, %edx
	movq %rsi, 248(%rsp)
	movq %rax, %rsi
	callq memcpy@PLT
	movl 256(%r14), %r15d
	movl 260(%r14), %ebx
	movq 264(%r14), %rax
	movq %rax, 256(%rsp)
	movups 272(%r14), %xmm0
	movups %xmm0, 3272(%rsp)
	movq %r14, 96(%rsp)
	movq 288(%r14), %rax
	movq %rax, 3288(%rsp)
	leaq 2720(%rsp), %rdi
	movl $288, %edx
	xorl %esi, %esi
	callq memset@PLT
	leaq 3296(%rsp), %r14
	movl $296, %edx
	movq %r14, %rdi
	xorl %esi, %esi
	callq memset@PLT
	xorps %xmm0, %xmm0
	movaps %xmm0, 2448(%rsp)
	movaps %xmm0, 2464(%rsp)
	movaps %xmm0, 2480(%rsp)
	movaps %xmm0, 2496(%rsp)
	movaps %xmm0, 2512(%rsp)
	movaps %xmm0, 2528(%rsp)
	movaps %xmm0, 2544(%rsp)
	movaps %xmm0, 2560(%rsp)
	movaps %xmm0, 2576(%rsp)
	movaps %xmm0, 2592(%rsp)
	movaps %xmm0, 2608(%rsp)
	movaps %xmm0, 2624(%rsp)
	movaps %xmm0, 2640(%rsp)
	movaps %xmm0, 2656(%rsp)
	movaps %xmm0, 2672(%rsp)
	movq $0, 2688(%rsp)
	movaps %xmm0, 1600(%rsp)
	movq $0, 1616(%rsp)
	movq %rbp, 2696(%rsp)
	movl %ebx, %ebp
	movq %r13, 2704(%rsp)
	movq %r12, 2712(%rsp)
	movl %r15d, 464(%rsp)
	movl %r15d, 3256(%rsp)
	movl %ebx, 3260(%rsp)
	movq 256(%rsp), %rax
	movq %rax, 3264(%rsp)
	leaq 2696(%rsp), %rdx
	movq %r14, %rdi
	leaq 3008(%rsp), %rsi
	callq tag_c.pool_state.PoolState.part
	leaq 1352(%rsp), %rdi
	movl $248, %edx
	movq %r14, %rsi
	callq memcpy@PLT
	movq 248(%rsp), %rax
	movdqu 3544(%rsp), %xmm0
	movdqa %xmm0, 912(%rsp)
	movq 3560(%rsp), %rcx
	movq %rcx, 928(%rsp)
	movq 3568(%rsp), %rbx
	movq 3576(%rsp), %r11
	movq 3584(%rsp), %r10
	movl 1536(%rsp), %ecx
	movq 912(%rsp), %r12
	movq 920(%rsp), %r9
	testl %ecx, %ecx
	movl %ebp, 36(%rsp)
	je .LBB118_15
	xorl %edx, %edx
	testq %r9, %r9
	je .LBB118_8
	leaq 224(%r12), %rsi
.LBB118_10:
	movq %rsi, %rdi
	movq %r9, %r8
	movq 96(%rsp), %r14
	.p2align 4
.LBB118_11:
	cmpl %edx, (%rdi)
	je .LBB118_14
	addq $424, %rdi
	decq %r8
	jne .LBB118_11
	jmp .LBB118_13
.LBB118_14:
	incl %edx
	cmpl %ecx, %edx
	jne .LBB118_10
.LBB118_15:
	movl 1576(%rsp), %edi
	movb $1, %dl
	movl %eax, %esi
	subl %edi, %esi
	jb .LBB118_16
	movl 1532(%rsp), %eax
	movl %eax, 268(%rsp)
	cmpl $6, %eax
	ja .LBB118_115
	movq %rbx, 128(%rsp)
	pxor %xmm0, %xmm0
	movdqa %xmm0, 2320(%rsp)
	movdqa %xmm0, 2336(%rsp)
	movdqa %xmm0, 2352(%rsp)
	movdqa %xmm0, 2368(%rsp)
	movdqa %xmm0, 2384(%rsp)
	movdqa %xmm0, 2400(%rsp)
	movdqa %xmm0, 2416(%rsp)
	movdqa %xmm0, 2432(%rsp)
	movdqa %xmm0, 2112(%rsp)
	movdqa %xmm0, 2128(%rsp)
	movdqa %xmm0, 2144(%rsp)
	movdqa %xmm0, 2160(%rsp)
	movdqa %xmm0, 2176(%rsp)
	movdqa %xmm0, 2192(%rsp)
	movdqa %xmm0, 2208(%rsp)
	movdqa %xmm0, 2224(%rsp)
	movdqa %xmm0, 1968(%rsp)
	movdqa %xmm0, 1952(%rsp)
	movdqa %xmm0, 1936(%rsp)
	movdqa %xmm0, 1920(%rsp)
	movdqa %xmm0, 1904(%rsp)
	movdqa %xmm0, 1888(%rsp)
	movdqa %xmm0, 1872(%rsp)
	movdqa %xmm0, 1856(%rsp)
	movdqa %xmm0, 1984(%rsp)
	movdqa %xmm0, 2000(%rsp)
	movdqa %xmm0, 2016(%rsp)
	movdqa %xmm0, 2032(%rsp)
	movdqa %xmm0, 2048(%rsp)
	movdqa %xmm0, 2064(%rsp)
	movdqa %xmm0, 2080(%rsp)
	movdqa %xmm0, 2096(%rsp)
	movdqa %xmm0, 2240(%rsp)
	movdqa %xmm0, 2256(%rsp)
	movdqa %xmm0, 2272(%rsp)
	movdqa %xmm0, 2288(%rsp)
	movdqa %xmm0, 2304(%rsp)
	movdqa %xmm0, 1200(%rsp)
	movdqa %xmm0, 1184(%rsp)
	movdqa %xmm0, 1168(%rsp)
	testq %r9, %r9
	je .LBB118_115
	decq %r9
	movq %r9, 920(%rsp)
	imulq $424, %r9, %rcx
	movl (%r12,%rcx), %eax
	movl %eax, 232(%rsp)
	movq 8(%r12,%rcx), %rax
	movq %rax, 240(%rsp)
	movl 16(%r12,%rcx), %eax
	movl %eax, 184(%rsp)
	movq 24(%r12,%rcx), %rax
	movq %rax, 136(%rsp)
	movl 36(%r12,%rcx), %eax
	movl %eax, 144(%rsp)
	movq 40(%r12,%rcx), %rax
	movq %rax, 496(%rsp)
	movq 48(%r12,%rcx), %rbx
	movups 56(%r12,%rcx), %xmm9
	movq 56(%r12,%rcx), %rdx
	movq 72(%r12,%rcx), %rax
	movq %rax, 80(%rsp)
	movq 80(%r12,%rcx), %rax
	movq %rax, 160(%rsp)
	movq 216(%r12,%rcx), %rax
	movq %rax, 56(%rsp)
	movl 224(%r12,%rcx), %eax
	movl %eax, 512(%rsp)
	movq 232(%r12,%rcx), %rax
	movq %rax, 40(%rsp)
	movups 264(%r12,%rcx), %xmm8
	movl 244(%r12,%rcx), %r8d
	movq 248(%r12,%rcx), %r15
	movq 256(%r12,%rcx), %r14
	movq 264(%r12,%rcx), %rax
	movq 280(%r12,%rcx), %r9
	movq %r9, 24(%rsp)
	movq 288(%r12,%rcx), %r9
	movq %r9, 192(%rsp)
	movdqa %xmm0, 272(%rsp)
	movdqa %xmm0, 288(%rsp)
	movdqa %xmm0, 304(%rsp)
	movdqa %xmm0, 320(%rsp)
	movdqa %xmm0, 336(%rsp)
	movdqa %xmm0, 352(%rsp)
	movdqa %xmm0, 368(%rsp)
	movdqa %xmm0, 384(%rsp)
	movdqa %xmm0, 1216(%rsp)
	movdqa %xmm0, 1232(%rsp)
	movdqa %xmm0, 1248(%rsp)
	movdqa %xmm0, 1264(%rsp)
	movdqa %xmm0, 1280(%rsp)
	movdqa %xmm0, 1296(%rsp)
	movdqa %xmm0, 1312(%rsp)
	movdqa %xmm0, 1328(%rsp)
	movups 200(%r12,%rcx), %xmm1
	movaps %xmm1, 1056(%rsp)
	movups 184(%r12,%rcx), %xmm1
	movaps %xmm1, 1040(%rsp)
	movups 168(%r12,%rcx), %xmm1
	movaps %xmm1, 1024(%rsp)
	movups 152(%r12,%rcx), %xmm1
	movaps %xmm1, 1008(%rsp)
	movups 88(%r12,%rcx), %xmm1
	movups 104(%r12,%rcx), %xmm2
	movups 120(%r12,%rcx), %xmm3
	movups 136(%r12,%rcx), %xmm4
	movaps %xmm4, 992(%rsp)
	movaps %xmm3, 976(%rsp)
	movaps %xmm2, 960(%rsp)
	movaps %xmm1, 944(%rsp)
	movups 408(%r12,%rcx), %xmm1
	movaps %xmm1, 896(%rsp)
	movups 392(%r12,%rcx), %xmm1
	movaps %xmm1, 880(%rsp)
	movups 376(%r12,%rcx), %xmm1
	movaps %xmm1, 864(%rsp)
	movups 360(%r12,%rcx), %xmm1
	movaps %xmm1, 848(%rsp)
	movdqu 296(%r12,%rcx), %xmm1
	movdqu 312(%r12,%rcx), %xmm2
	movdqu 328(%r12,%rcx), %xmm3
	movdqu 344(%r12,%rcx), %xmm4
	movdqa %xmm4, 832(%rsp)
	movdqa %xmm3, 816(%rsp)
	movdqa %xmm2, 800(%rsp)
	movdqa %xmm1, 784(%rsp)
	movdqa %xmm0, 736(%rsp)
	movdqa %xmm0, 720(%rsp)
	movdqa %xmm0, 704(%rsp)
	movdqa %xmm0, 688(%rsp)
	movdqa %xmm0, 672(%rsp)
	movdqa %xmm0, 656(%rsp)
	movdqa %xmm0, 640(%rsp)
	movdqa %xmm0, 624(%rsp)
	movq 1352(%rsp), %rcx
	movq (%rcx), %rcx
	movabsq $6148914691236517205, %r9
	movabsq $3689348814741910323, %r12
	movabsq $1085102592571150095, %r13
	testq %rdx, %rdx
	movq %rsi, 568(%rsp)
	movl %edi, 176(%rsp)
	movl %r8d, 152(%rsp)
	movq %r15, 528(%rsp)
	je .LBB118_22
	cmpq $4, %rdx
	jae .LBB118_25
	xorl %ecx, %ecx
	xorl %esi, %esi
	movabsq $72340172838076673, %r15
	jmp .LBB118_28
.LBB118_5:
	movq %r14, 8(%rdx)
	movq %rbp, 16(%rdx)
	movq %r13, 24(%rdx)
	movq %r12, 32(%rdx)
	movl $-15, %eax
	jmp .LBB118_182
.LBB118_13:
	xorl %edx, %edx
	movq 168(%rsp), %rsi
	jmp .LBB118_17
.LBB118_8:
	xorl %r9d, %r9d
.LBB118_16:
	movq 168(%rsp), %rsi
	movq 96(%rsp), %r14
.LBB118_17:
	movl 464(%rsp), %r15d
.LBB118_18:
	movsd 1352(%rsp), %xmm1
	movups 1360(%rsp), %xmm2
	movq 1376(%rsp), %rdi
	movq 1384(%rsp), %r8
	movq 1392(%rsp), %rbp
	movq 1400(%rsp), %r13
	movq 1408(%rsp), %rax
	movq %rax, 240(%rsp)
	movq 1416(%rsp), %rax
	movq %rax, 232(%rsp)
	movq 1424(%rsp), %rax
	movq %rax, 224(%rsp)
	movq 1432(%rsp), %rax
	movq %rax, 600(%rsp)
	movq 1440(%rsp), %rax
	movq %rax, 592(%rsp)
	movq 1448(%rsp), %rax
	movq %rax, 584(%rsp)
	movq 1456(%rsp), %rax
	movq %rax, 576(%rsp)
	movq 1464(%rsp), %rax
	movq %rax, 152(%rsp)
	movzbl %dl, %ecx
	leaq .LJTI118_0(%rip), %rax
	movslq (%rax,%rcx,4), %rdx
	addq %rax, %rdx
	movq 1472(%rsp), %rax
	movq %rax, 512(%rsp)
	movq 1528(%rsp), %xmm4
	movups 1576(%rsp), %xmm3
	movq 1480(%rsp), %rax
	movq %rax, 144(%rsp)
	movq 1488(%rsp), %rax
	movq %rax, 496(%rsp)
	movq 1496(%rsp), %rax
	movq %rax, 40(%rsp)
	movq 1504(%rsp), %rax
	movq %rax, 528(%rsp)
	movq 1512(%rsp), %rax
	movq %rax, 80(%rsp)
	movq 1520(%rsp), %rax
	movq %rax, 480(%rsp)
	movq 1536(%rsp), %rax
	movq %rax, 24(%rsp)
	movq 1544(%rsp), %rax
	movq %rax, 192(%rsp)
	movq 1552(%rsp), %rax
	movq %rax, 608(%rsp)
	movq 1560(%rsp), %rax
	movq %rax, 136(%rsp)
	movq 1568(%rsp), %rax
	movq %rax, 160(%rsp)
	movq 1592(%rsp), %rax
	movq %rax, 184(%rsp)
	movq 928(%rsp), %rax
	movq %rax, 56(%rsp)
	jmpq *%rdx
.LBB118_172:
	movb $12, %al
	jmp .LBB118_176
.LBB118_174:
	xorl %ecx, %ecx
	movb $13, %al
	jmp .LBB118_176
.LBB118_175:
	xorl %ecx, %ecx
	movb $14, %al
	jmp .LBB118_176
.LBB118_173:
	movl $-1, %ecx
	movb $10, %al
.LBB118_176:
	movq %rbp, %rdx
	movl 36(%rsp), %ebp
.LBB118_177:
	movlps %xmm1, 8(%r14)
	movups %xmm2, 16(%r14)
	movq %rdi, 32(%r14)
	movq %r8, 40(%r14)
	movq %rdx, 48(%r14)
	movq %r13, 56(%r14)
	movq 240(%rsp), %rdx
	movq %rdx, 64(%r14)
	movq 232(%rsp), %rdx
	movq %rdx, 72(%r14)
	movq 224(%rsp), %rdx
	movq %rdx, 80(%r14)
	movq 600(%rsp), %rdx
	movq %rdx, 88(%r14)
	movq 592(%rsp), %rdx
	movq %rdx, 96(%r14)
	movq 584(%rsp), %rdx
	movq %rdx, 104(%r14)
	movq 576(%rsp), %rdx
	movq %rdx, 112(%r14)
	movq 152(%rsp), %rdx
	movq %rdx, 120(%r14)
	movq 512(%rsp), %rdx
	movq %rdx, 128(%r14)
	movq 144(%rsp), %rdx
	movq %rdx, 136(%r14)
	movq 496(%rsp), %rdx
	movq %rdx, 144(%r14)
	movq 40(%rsp), %rdx
	movq %rdx, 152(%r14)
	movq 528(%rsp), %rdx
	movq %rdx, 160(%r14)
	movq 80(%rsp), %rdx
	movq %rdx, 168(%r14)
	movq 480(%rsp), %rdx
	movq %rdx, 176(%r14)
	movq %xmm4, 184(%r14)
	movq 24(%rsp), %rdx
	movq %rdx, 192(%r14)
	movq 192(%rsp), %rdx
	movq %rdx, 200(%r14)
	movq 608(%rsp), %rdx
	movq %rdx, 208(%r14)
	movq 136(%rsp), %rdx
	movq %rdx, 216(%r14)
	movq 160(%rsp), %rdx
	movq %rdx, 224(%r14)
	movups %xmm3, 232(%r14)
	movq 184(%rsp), %rdx
	movq %rdx, 248(%r14)
	movl %r15d, 256(%r14)
	movl %ebp, 260(%r14)
	movq 256(%rsp), %rdx
	movq %rdx, 264(%r14)
	movq %rbx, 272(%r14)
	movq %r11, 280(%r14)
	movq %r10, 288(%r14)
	movq %r14, 8(%rsi)
	movq %r12, 16(%rsi)
	movq %r9, 24(%rsi)
	movq 56(%rsp), %rdx
	movq %rdx, 32(%rsi)
	movzbl %al, %eax
	leaq .LJTI118_1(%rip), %rdx
	movslq (%rdx,%rax,4), %rsi
	addq %rdx, %rsi
	jmpq *%rsi
.LBB118_181:
	movl $-20, %eax
	jmp .LBB118_182
.LBB118_178:
	movl $-29, %eax
	jmp .LBB118_182
.LBB118_179:
	movl $-30, %eax
	jmp .LBB118_182
.LBB118_22:
	xorl %ecx, %ecx
	jmp .LBB118_29
.LBB118_25:
	movq %rdx, %rsi
	andq $-4, %rsi
	pxor %xmm1, %xmm1
	xorl %ecx, %ecx
	pxor %xmm2, %xmm2
.LBB118_26:
	movdqu (%rbx,%rcx,8), %xmm4
	movdqu 16(%rbx,%rcx,8), %xmm3
	movdqa %xmm4, %xmm5
	psrlw $1, %xmm5
	movdqa .LCPI118_0(%rip), %xmm6
	pand %xmm6, %xmm5
	psubb %xmm5, %xmm4
	movdqa .LCPI118_1(%rip), %xmm5
	movdqa %xmm4, %xmm7
	pand %xmm5, %xmm7
	psrlw $2, %xmm4
	pand %xmm5, %xmm4
	paddb %xmm7, %xmm4
	movdqa %xmm4, %xmm7
	psrlw $4, %xmm7
	paddb %xmm4, %xmm7
	movdqa .LCPI118_2(%rip), %xmm4
	pand %xmm4, %xmm7
	psadbw %xmm1, %xmm7
	paddq %xmm7, %xmm2
	movdqa %xmm3, %xmm7
	psrlw $1, %xmm7
	pand %xmm6, %xmm7
	psubb %xmm7, %xmm3
	movdqa %xmm3, %xmm6
	pand %xmm5, %xmm6
	psrlw $2, %xmm3
	pand %xmm5, %xmm3
	paddb %xmm6, %xmm3
	movdqa %xmm3, %xmm5
	psrlw $4, %xmm5
	paddb %xmm3, %xmm5
	pand %xmm4, %xmm5
	psadbw %xmm1, %xmm5
	paddq %xmm5, %xmm0
	addq $4, %rcx
	cmpq %rcx, %rsi
	jne .LBB118_26
	paddq %xmm2, %xmm0
	pshufd $238, %xmm0, %xmm1
	paddq %xmm0, %xmm1
	movq %xmm1, %rcx
	cmpq %rsi, %rdx
	movabsq $72340172838076673, %r15
	je .LBB118_29
.LBB118_28:
	movq (%rbx,%rsi,8), %rdi
	movq %rdi, %r8
	shrq %r8
	andq %r9, %r8
	subq %r8, %rdi
	movq %rdi, %r8
	andq %r12, %r8
	shrq $2, %rdi
	andq %r12, %rdi
	addq %r8, %rdi
	movq %rdi, %r8
	shrq $4, %r8
	addq %rdi, %r8
	andq %r13, %r8
	imulq %r15, %r8
	shrq $56, %r8
	addq %r8, %rcx
	incq %rsi
	cmpq %rsi, %rdx
	jne .LBB118_28
.LBB118_29:
	movaps 1056(%rsp), %xmm0
	movaps %xmm0, 736(%rsp)
	movaps 1040(%rsp), %xmm1
	movaps %xmm1, 720(%rsp)
	movaps 1024(%rsp), %xmm2
	movaps %xmm2, 704(%rsp)
	movaps 1008(%rsp), %xmm3
	movaps %xmm3, 688(%rsp)
	movdqa 944(%rsp), %xmm4
	movdqa 960(%rsp), %xmm5
	movdqa 976(%rsp), %xmm6
	movdqa 992(%rsp), %xmm7
	movdqa %xmm4, 1216(%rsp)
	movdqa %xmm5, 1232(%rsp)
	movdqa %xmm6, 1248(%rsp)
	movdqa %xmm7, 1264(%rsp)
	movaps %xmm3, 1280(%rsp)
	movaps %xmm2, 1296(%rsp)
	movaps %xmm1, 1312(%rsp)
	movaps %xmm0, 1328(%rsp)
	movaps 1328(%rsp), %xmm0
	movaps %xmm0, 384(%rsp)
	movaps 1312(%rsp), %xmm0
	movaps %xmm0, 368(%rsp)
	movaps 1296(%rsp), %xmm0
	movaps %xmm0, 352(%rsp)
	movaps 1280(%rsp), %xmm0
	movaps %xmm0, 336(%rsp)
	movdqa 1216(%rsp), %xmm0
	movdqa 1232(%rsp), %xmm1
	movdqa 1248(%rsp), %xmm2
	movdqa 1264(%rsp), %xmm3
	movdqa %xmm3, 320(%rsp)
	movdqa %xmm2, 304(%rsp)
	movdqa %xmm1, 288(%rsp)
	movdqa %xmm0, 272(%rsp)
	movq 1464(%rsp), %rdx
	movq (%rdx), %rdx
	testq %rax, %rax
	movq %r10, 88(%rsp)
	movq %r11, 48(%rsp)
	movaps %xmm8, 608(%rsp)
	movaps %xmm9, 480(%rsp)
	je .LBB118_30
	cmpq $4, %rax
	movabsq $72340172838076673, %r10
	jae .LBB118_34
	xorl %esi, %esi
	xorl %edx, %edx
	jmp .LBB118_33
.LBB118_30:
	xorl %esi, %esi
	jmp .LBB118_38
.LBB118_34:
	movq %rax, %rdx
	andq $-4, %rdx
	pxor %xmm1, %xmm1
	xorl %esi, %esi
	pxor %xmm2, %xmm2
	pxor %xmm0, %xmm0
.LBB118_35:
	movdqu (%r14,%rsi,8), %xmm4
	movdqu 16(%r14,%rsi,8), %xmm3
	movdqa %xmm4, %xmm5
	psrlw $1, %xmm5
	movdqa .LCPI118_0(%rip), %xmm6
	pand %xmm6, %xmm5
	psubb %xmm5, %xmm4
	movdqa .LCPI118_1(%rip), %xmm5
	movdqa %xmm4, %xmm7
	pand %xmm5, %xmm7
	psrlw $2, %xmm4
	pand %xmm5, %xmm4
	paddb %xmm7, %xmm4
	movdqa %xmm4, %xmm7
	psrlw $4, %xmm7
	paddb %xmm4, %xmm7
	movdqa .LCPI118_2(%rip), %xmm4
	pand %xmm4, %xmm7
	psadbw %xmm1, %xmm7
	paddq %xmm7, %xmm2
	movdqa %xmm3, %xmm7
	psrlw $1, %xmm7
	pand %xmm6, %xmm7
	psubb %xmm7, %xmm3
	movdqa %xmm3, %xmm6
	pand %xmm5, %xmm6
	psrlw $2, %xmm3
	pand %xmm5, %xmm3
	paddb %xmm6, %xmm3
	movdqa %xmm3, %xmm5
	psrlw $4, %xmm5
	paddb %xmm3, %xmm5
	pand %xmm4, %xmm5
	psadbw %xmm1, %xmm5
	paddq %xmm5, %xmm0
	addq $4, %rsi
	cmpq %rsi, %rdx
	jne .LBB118_35
	paddq %xmm2, %xmm0
	pshufd $238, %xmm0, %xmm1
	paddq %xmm0, %xmm1
	movq %xmm1, %rsi
	jmp .LBB118_37
.LBB118_33:
	movq (%r14,%rdx,8), %rdi
	movq %rdi, %r8
	shrq %r8
	andq %r9, %r8
	subq %r8, %rdi
	movq %rdi, %r8
	andq %r12, %r8
	shrq $2, %rdi
	andq %r12, %rdi
	addq %r8, %rdi
	movq %rdi, %r8
	shrq $4, %r8
	addq %rdi, %r8
	andq %r13, %r8
	imulq %r10, %r8
	shrq $56, %r8
	addq %r8, %rsi
	incq %rdx
.LBB118_37:
	cmpq %rdx, %rax
	jne .LBB118_33
.LBB118_38:
	movaps 384(%rsp), %xmm0
	movaps %xmm0, 1968(%rsp)
	movaps 368(%rsp), %xmm0
	movaps %xmm0, 1952(%rsp)
	movaps 352(%rsp), %xmm0
	movaps %xmm0, 1936(%rsp)
	movaps 336(%rsp), %xmm0
	movaps %xmm0, 1920(%rsp)
	movaps 272(%rsp), %xmm0
	movaps 288(%rsp), %xmm1
	movaps 304(%rsp), %xmm2
	movaps 320(%rsp), %xmm3
	movaps %xmm3, 1904(%rsp)
	movaps %xmm2, 1888(%rsp)
	movaps %xmm1, 1872(%rsp)
	movaps %xmm0, 1856(%rsp)
	movaps 784(%rsp), %xmm0
	movaps 800(%rsp), %xmm1
	movaps 816(%rsp), %xmm2
	movaps 832(%rsp), %xmm3
	movaps %xmm0, 1984(%rsp)
	movaps %xmm1, 2000(%rsp)
	movaps %xmm2, 2016(%rsp)
	movaps %xmm3, 2032(%rsp)
	movaps 848(%rsp), %xmm0
	movaps %xmm0, 2048(%rsp)
	movaps 864(%rsp), %xmm0
	movaps %xmm0, 2064(%rsp)
	movaps 880(%rsp), %xmm0
	movaps %xmm0, 2080(%rsp)
	movaps 896(%rsp), %xmm0
	movaps %xmm0, 2096(%rsp)
	movq 136(%rsp), %r15
	movq %r15, %r13
	shrq $32, %r13
	movq 40(%rsp), %rax
	shrq $32, %rax
	movq %rax, 224(%rsp)
	movq 80(%rsp), %rax
	movq %rax, 1168(%rsp)
	movq 160(%rsp), %rax
	movq %rax, 1176(%rsp)
	movq %rcx, 1184(%rsp)
	movq 24(%rsp), %rax
	movq %rax, 1192(%rsp)
	movq 192(%rsp), %rax
	movq %rax, 1200(%rsp)
	movq %rsi, 1208(%rsp)
	leaq 2240(%rsp), %rdi
	leaq 1352(%rsp), %rsi
	leaq 1168(%rsp), %rdx
	leaq 912(%rsp), %rcx
	callq tag_pool.usage.usage_of_rest_i64
	movq 2296(%rsp), %rdx
	addq 2256(%rsp), %rdx
	movq 2304(%rsp), %rsi
	addq 2264(%rsp), %rsi
	xorps %xmm0, %xmm0
	movaps %xmm0, 384(%rsp)
	movaps %xmm0, 368(%rsp)
	movaps %xmm0, 352(%rsp)
	movaps %xmm0, 336(%rsp)
	movaps %xmm0, 320(%rsp)
	movaps %xmm0, 304(%rsp)
	movaps %xmm0, 288(%rsp)
	movaps %xmm0, 272(%rsp)
	movaps 1968(%rsp), %xmm1
	movaps %xmm1, 1056(%rsp)
	movaps 1952(%rsp), %xmm1
	movaps %xmm1, 1040(%rsp)
	movaps 1936(%rsp), %xmm1
	movaps %xmm1, 1024(%rsp)
	movaps 1920(%rsp), %xmm1
	movaps %xmm1, 1008(%rsp)
	movaps 1856(%rsp), %xmm1
	movaps 1872(%rsp), %xmm2
	movaps 1888(%rsp), %xmm3
	movaps 1904(%rsp), %xmm4
	movaps %xmm4, 992(%rsp)
	movaps %xmm3, 976(%rsp)
	movaps %xmm2, 960(%rsp)
	movaps %xmm1, 944(%rsp)
	movaps 2096(%rsp), %xmm1
	movaps %xmm1, 896(%rsp)
	movaps 2080(%rsp), %xmm1
	movaps %xmm1, 880(%rsp)
	movaps 2064(%rsp), %xmm1
	movaps %xmm1, 864(%rsp)
	movaps 2048(%rsp), %xmm1
	movaps %xmm1, 848(%rsp)
	movaps 1984(%rsp), %xmm1
	movaps 2000(%rsp), %xmm2
	movaps 2016(%rsp), %xmm3
	movaps 2032(%rsp), %xmm4
	movaps %xmm4, 832(%rsp)
	movaps %xmm3, 816(%rsp)
	movaps %xmm2, 800(%rsp)
	movaps %xmm1, 784(%rsp)
	movaps %xmm0, 736(%rsp)
	movaps %xmm0, 720(%rsp)
	movaps %xmm0, 704(%rsp)
	movaps %xmm0, 688(%rsp)
	movaps %xmm0, 672(%rsp)
	movaps %xmm0, 656(%rsp)
	movaps %xmm0, 640(%rsp)
	movaps %xmm0, 624(%rsp)
	movq 2272(%rsp), %rdi
	movq 2312(%rsp), %rax
	movq 1352(%rsp), %rcx
	movq (%rcx), %rcx
	movq 1352(%rsp), %rcx
	movq (%rcx), %rcx
	movaps 1056(%rsp), %xmm0
	movaps %xmm0, 736(%rsp)
	movaps 1040(%rsp), %xmm1
	movaps %xmm1, 720(%rsp)
	movaps 1024(%rsp), %xmm2
	movaps %xmm2, 704(%rsp)
	movaps 1008(%rsp), %xmm3
	movaps %xmm3, 688(%rsp)
	movaps 944(%rsp), %xmm4
	movdqa 960(%rsp), %xmm5
	movdqa 976(%rsp), %xmm6
	movdqa 992(%rsp), %xmm7
	movaps %xmm4, 624(%rsp)
	movaps %xmm4, 272(%rsp)
	movdqa %xmm5, 288(%rsp)
	movdqa %xmm6, 304(%rsp)
	movdqa %xmm7, 320(%rsp)
	movaps %xmm3, 336(%rsp)
	movaps %xmm2, 352(%rsp)
	movaps %xmm1, 368(%rsp)
	movaps %xmm0, 384(%rsp)
	movq 1464(%rsp), %rcx
	movq (%rcx), %rcx
	movq 1464(%rsp), %rcx
	movq (%rcx), %rcx
	movaps 384(%rsp), %xmm0
	movaps %xmm0, 2432(%rsp)
	movaps 368(%rsp), %xmm0
	movaps %xmm0, 2416(%rsp)
	movaps 352(%rsp), %xmm0
	movaps %xmm0, 2400(%rsp)
	movaps 336(%rsp), %xmm0
	movaps %xmm0, 2384(%rsp)
	movaps 272(%rsp), %xmm0
	movaps 288(%rsp), %xmm1
	movaps 304(%rsp), %xmm2
	movaps 320(%rsp), %xmm3
	movaps %xmm3, 2368(%rsp)
	movaps %xmm2, 2352(%rsp)
	movaps %xmm1, 2336(%rsp)
	movaps %xmm0, 2320(%rsp)
	movaps 784(%rsp), %xmm0
	movaps 800(%rsp), %xmm1
	movaps 816(%rsp), %xmm2
	movaps 832(%rsp), %xmm3
	movaps %xmm0, 2112(%rsp)
	movaps %xmm1, 2128(%rsp)
	movaps %xmm2, 2144(%rsp)
	movaps %xmm3, 2160(%rsp)
	movaps 848(%rsp), %xmm0
	movaps %xmm0, 2176(%rsp)
	movaps 864(%rsp), %xmm0
	movaps %xmm0, 2192(%rsp)
	movaps 880(%rsp), %xmm0
	movaps %xmm0, 2208(%rsp)
	movaps 896(%rsp), %xmm0
	movaps %xmm0, 2224(%rsp)
	movq 912(%rsp), %r12
	movq 920(%rsp), %r10
	imulq $424, %r10, %r8
	movl 232(%rsp), %ecx
	movl %ecx, (%r12,%r8)
	movl $0, 4(%r12,%r8)
	movq 240(%rsp), %rcx
	movq %rcx, 8(%r12,%r8)
	movl $1, %r9d
	movl %r13d, %ecx
	shll %cl, %r9d
	movl 184(%rsp), %ecx
	movl %ecx, 16(%r12,%r8)
	addl %r15d, %r9d
	decl %r9d
	movl $0, 20(%r12,%r8)
	movq %r15, 24(%r12,%r8)
	movq %r10, %r15
	movl %r13d, %ecx
	shrl %cl, %r9d
	shll $4, %r9d
	addl $72, %r9d
	movl %r9d, 32(%r12,%r8)
	movl 144(%rsp), %ecx
	movl %ecx, 36(%r12,%r8)
	movq 496(%rsp), %rcx
	movq %rcx, 40(%r12,%r8)
	movq %rbx, 48(%r12,%r8)
	movaps 480(%rsp), %xmm0
	movups %xmm0, 56(%r12,%r8)
	movq 80(%rsp), %rcx
	movq %rcx, 72(%r12,%r8)
	movq 160(%rsp), %rcx
	movq %rcx, 80(%r12,%r8)
	movaps 2320(%rsp), %xmm0
	movaps 2336(%rsp), %xmm1
	movaps 2352(%rsp), %xmm2
	movaps 2368(%rsp), %xmm3
	movups %xmm0, 88(%r12,%r8)
	movups %xmm1, 104(%r12,%r8)
	movups %xmm2, 120(%r12,%r8)
	movups %xmm3, 136(%r12,%r8)
	movaps 2384(%rsp), %xmm0
	movups %xmm0, 152(%r12,%r8)
	movaps 2400(%rsp), %xmm0
	movups %xmm0, 168(%r12,%r8)
	movaps 2416(%rsp), %xmm0
	movups %xmm0, 184(%r12,%r8)
	movaps 2432(%rsp), %xmm0
	movups %xmm0, 200(%r12,%r8)
	movq 56(%rsp), %rcx
	movq %rcx, 216(%r12,%r8)
	movl 512(%rsp), %ecx
	movl %ecx, 224(%r12,%r8)
	movl $1, %r9d
	movq 224(%rsp), %rcx
	shll %cl, %r9d
	movq 40(%rsp), %r10
	addl %r10d, %r9d
	decl %r9d
	movl $0, 228(%r12,%r8)
	movq %r10, 232(%r12,%r8)
	shrl %cl, %r9d
	shll $4, %r9d
	addl $72, %r9d
	movl %r9d, 240(%r12,%r8)
	movl 152(%rsp), %ecx
	movl %ecx, 244(%r12,%r8)
	movq 528(%rsp), %rcx
	movq %rcx, 248(%r12,%r8)
	movq %r14, 256(%r12,%r8)
	movaps 608(%rsp), %xmm0
	movups %xmm0, 264(%r12,%r8)
	movq 24(%rsp), %rcx
	movq %rcx, 280(%r12,%r8)
	movq 192(%rsp), %rcx
	movq %rcx, 288(%r12,%r8)
	movaps 2224(%rsp), %xmm0
	movups %xmm0, 408(%r12,%r8)
	movaps 2208(%rsp), %xmm0
	movups %xmm0, 392(%r12,%r8)
	movaps 2192(%rsp), %xmm0
	movups %xmm0, 376(%r12,%r8)
	movaps 2176(%rsp), %xmm0
	movups %xmm0, 360(%r12,%r8)
	movdqa 2112(%rsp), %xmm0
	movaps 2128(%rsp), %xmm1
	movaps 2144(%rsp), %xmm2
	movaps 2160(%rsp), %xmm3
	movups %xmm3, 344(%r12,%r8)
	movups %xmm2, 328(%r12,%r8)
	movups %xmm1, 312(%r12,%r8)
	movdqu %xmm0, 296(%r12,%r8)
	orq %rdx, %rsi
	leaq 1(%r15), %r9
	movq %r9, 920(%rsp)
	movb $2, %dl
	je .LBB118_40
	movq 168(%rsp), %rsi
	movq 96(%rsp), %r14
	movq 128(%rsp), %rbx
	movq 88(%rsp), %r10
	movl 464(%rsp), %r15d
	movq 48(%rsp), %r11
	jmp .LBB118_18
.LBB118_40:
	testq %r9, %r9
	movq 248(%rsp), %rcx
	movq 96(%rsp), %r14
	movq 128(%rsp), %rbx
	movq 88(%rsp), %r10
	movq 48(%rsp), %r11
	movq %r9, 120(%rsp)
	je .LBB118_50
	orq %rdi, %rax
	movl %r9d, %edx
	andl $3, %edx
	cmpq $3, %r15
	jae .LBB118_43
	xorl %esi, %esi
	xorl %edi, %edi
	jmp .LBB118_46
.LBB118_43:
	movq %r9, %r8
	andq $-4, %r8
	leaq 1496(%r12), %r9
	xorl %esi, %esi
	xorl %edi, %edi
.LBB118_44:
	movl -1272(%r9), %r10d
	movl -848(%r9), %r11d
	xorl %ebx, %ebx
	btq %r10, %rax
	setb %bl
	btq %r11, %rax
	adcl %esi, %ebx
	movl -424(%r9), %r10d
	xorl %esi, %esi
	btq %r10, %rax
	setb %sil
	movl (%r9), %r10d
	btq %r10, %rax
	adcl %ebx, %esi
	addq $4, %rdi
	addq $1696, %r9
	cmpq %rdi, %r8
	jne .LBB118_44
	testq %rdx, %rdx
	movq 128(%rsp), %rbx
	movq 88(%rsp), %r10
	movq 48(%rsp), %r11
	je .LBB118_48
.LBB118_46:
	imulq $424, %rdi, %rdi
	addq %r12, %rdi
	addq $224, %rdi
	imulq $424, %rdx, %rdx
	xorl %r8d, %r8d
.LBB118_47:
	movl (%rdi,%r8), %r9d
	btq %r9, %rax
	adcl $0, %esi
	addq $424, %r8
	cmpq %r8, %rdx
	jne .LBB118_47
.LBB118_48:
	movb $3, %dl
	testl %esi, %esi
	leaq 1(%r15), %r9
	je .LBB118_50
	movq 168(%rsp), %rsi
	jmp .LBB118_17
.LBB118_50:
	movq %r15, 72(%rsp)
	movsd 1352(%rsp), %xmm1
	movups 1360(%rsp), %xmm2
	movq 1376(%rsp), %rdi
	movq 1384(%rsp), %r8
	movq 1392(%rsp), %rdx
	movq 1400(%rsp), %rax
	movq %rax, 560(%rsp)
	movq 1408(%rsp), %rax
	movq %rax, 240(%rsp)
	movq 1416(%rsp), %rax
	movq %rax, 232(%rsp)
	movq 1424(%rsp), %rax
	movq %rax, 224(%rsp)
	movq 1432(%rsp), %rax
	movq %rax, 600(%rsp)
	movq 1440(%rsp), %rax
	movq %rax, 592(%rsp)
	movq 1448(%rsp), %rax
	movq %rax, 584(%rsp)
	movq 1456(%rsp), %rax
	movq %rax, 576(%rsp)
	movq 1464(%rsp), %rax
	movq %rax, 152(%rsp)
	movq 1472(%rsp), %rax
	movq %rax, 512(%rsp)
	movq 1480(%rsp), %rax
	movq %rax, 144(%rsp)
	movq 1488(%rsp), %rax
	movq %rax, 496(%rsp)
	movq 1528(%rsp), %xmm4
	movups 1576(%rsp), %xmm3
	pxor %xmm0, %xmm0
	movdqa %xmm0, 1168(%rsp)
	movq $0, 1184(%rsp)
	movdqa %xmm0, 1824(%rsp)
	movq $0, 1840(%rsp)
	movdqa %xmm0, 1792(%rsp)
	movq $0, 1808(%rsp)
	movdqa %xmm0, 1760(%rsp)
	movq $0, 1776(%rsp)
	movdqa %xmm0, 1728(%rsp)
	movq $0, 1744(%rsp)
	movdqa %xmm0, 1696(%rsp)
	movq $0, 1712(%rsp)
	movdqa %xmm0, 1664(%rsp)
	movq $0, 1680(%rsp)
	movdqa %xmm0, 1632(%rsp)
	movq $0, 1648(%rsp)
	movq 1496(%rsp), %rax
	movq %rax, 40(%rsp)
	movq 1504(%rsp), %rax
	movq %rax, 528(%rsp)
	movq 1512(%rsp), %rax
	movq %rax, 80(%rsp)
	movq 1520(%rsp), %rax
	movq %rax, 480(%rsp)
	movq 1536(%rsp), %rax
	movq %rax, 24(%rsp)
	movq 1544(%rsp), %rax
	movq %rax, 192(%rsp)
	movq 1552(%rsp), %r15
	movq 1560(%rsp), %rax
	movq %rax, 136(%rsp)
	movq 1568(%rsp), %rax
	movq %rax, 160(%rsp)
	movq 1592(%rsp), %r13
	movq 928(%rsp), %rax
	movq %rax, 56(%rsp)
	leaq 16(%rsp), %rax
	testq %r9, %r9
	movq %r13, 184(%rsp)
	movq %r15, 608(%rsp)
	je .LBB118_51
	movabsq $48038396025285290, %rax
	cmpq %rax, %r9
	ja .LBB118_88
	movq %r9, %rax
	shlq $6, %rax
	movq %rdi, 112(%rsp)
	leaq (%rax,%rax,2), %rdi
	movl $8, %esi
	movaps %xmm1, 432(%rsp)
	movaps %xmm2, 416(%rsp)
	movq %r8, 104(%rsp)
	movq %rdx, %rbp
	movaps %xmm3, 400(%rsp)
	movdqa %xmm4, 448(%rsp)
	callq tags_library_alloc@PLT
	movdqa 448(%rsp), %xmm4
	movaps 400(%rsp), %xmm3
	movq 104(%rsp), %r8
	movq 112(%rsp), %rdi
	movaps 416(%rsp), %xmm2
	movaps 432(%rsp), %xmm1
	movq 72(%rsp), %rcx
	leaq 1(%rcx), %r9
	movq 48(%rsp), %r11
	movq 88(%rsp), %r10
	movq %rdx, 64(%rsp)
	movq %rbp, %rdx
	testb $1, %al
	je .LBB118_88
	movabsq $39755913951960240, %rax
	cmpq %rax, %r9
	movq %r9, %r15
	ja .LBB118_73
	imulq $232, %r15, %rdi
	movl $8, %esi
	callq tags_library_alloc@PLT
	movq %rdx, 208(%rsp)
	testb $1, %al
	je .LBB118_73
	movabsq $21753235935978244, %rax
	cmpq %rax, %r15
	ja .LBB118_85
	movq 72(%rsp), %rax
	incq %rax
	imulq $424, %rax, %rdi
	movl $8, %esi
	callq tags_library_alloc@PLT
	movq %rdx, 544(%rsp)
	testb $1, %al
	je .LBB118_85
	movq 248(%rsp), %rcx
	movq 96(%rsp), %r14
	movq 128(%rsp), %rbx
	movq 72(%rsp), %rdx
	leaq 1(%rdx), %r9
	movaps 432(%rsp), %xmm1
	movaps 416(%rsp), %xmm2
	movq 112(%rsp), %rdi
	movq 104(%rsp), %r8
	movq %rbp, %rdx
	movq 184(%rsp), %r13
	movaps 400(%rsp), %xmm3
	movdqa 448(%rsp), %xmm4
	leaq 16(%rsp), %rax
	jmp .LBB118_59
.LBB118_51:
	movq %rax, 208(%rsp)
	movq %rax, 64(%rsp)
	movq %rax, 544(%rsp)
.LBB118_59:
	movdqa %xmm4, 448(%rsp)
	movl 568(%rsp), %esi
	cmpl 176(%rsp), %ecx
	movaps %xmm1, 432(%rsp)
	movaps %xmm2, 416(%rsp)
	movq %rdi, 112(%rsp)
	movq %r8, 104(%rsp)
	movq %rdx, 552(%rsp)
	movaps %xmm3, 400(%rsp)
	movq %rsi, 768(%rsp)
	jne .LBB118_75
	movq %rax, 760(%rsp)
	movq $0, 1160(%rsp)
	jmp .LBB118_61
.LBB118_75:
	leaq (,%rsi,8), %rdi
	movl $8, %esi
	callq tags_library_alloc@PLT
	testb $1, %al
	je .LBB118_86
	movq 568(%rsp), %rax
	cmpl $1, %eax
	jne .LBB118_78
	xorl %edi, %edi
	jmp .LBB118_84
.LBB118_73:
	movq 64(%rsp), %rdi
	callq tags_library_dealloc@PLT
	movq 88(%rsp), %r10
	movq 48(%rsp), %r11
	movq %r15, %r9
.LBB118_74:
	movaps 432(%rsp), %xmm1
	movaps 416(%rsp), %xmm2
	movq 112(%rsp), %rdi
	movq 104(%rsp), %r8
	movq %rbp, %rdx
	movaps 400(%rsp), %xmm3
	movdqa 448(%rsp), %xmm4
	jmp .LBB118_88
.LBB118_86:
	movq 120(%rsp), %r9
	testq %r9, %r9
	movq 88(%rsp), %r10
	movq 48(%rsp), %r11
	movaps 432(%rsp), %xmm1
	movaps 416(%rsp), %xmm2
	movq 112(%rsp), %rdi
	movq 104(%rsp), %r8
	movq 552(%rsp), %rdx
	movaps 400(%rsp), %xmm3
	movdqa 448(%rsp), %xmm4
	je .LBB118_88
	movq 544(%rsp), %rdi
	callq tags_library_dealloc@PLT
	movq 208(%rsp), %rdi
	callq tags_library_dealloc@PLT
	movq 64(%rsp), %rdi
	callq tags_library_dealloc@PLT
	movdqa 448(%rsp), %xmm4
	movaps 400(%rsp), %xmm3
	movq 552(%rsp), %rdx
	movq 104(%rsp), %r8
	movq 112(%rsp), %rdi
	movaps 416(%rsp), %xmm2
	movaps 432(%rsp), %xmm1
	movq 120(%rsp), %r9
	movq 48(%rsp), %r11
	movq 88(%rsp), %r10
.LBB118_88:
	xorl %ecx, %ecx
	movb $10, %al
	movq 168(%rsp), %rsi
	movl 464(%rsp), %r15d
	movl 36(%rsp), %ebp
	movq 560(%rsp), %r13
	jmp .LBB118_177
.LBB118_78:
	movq 768(%rsp), %rcx
	leaq -1(%rcx), %rdi
	cmpl $5, %eax
	jae .LBB118_81
	xorl %eax, %eax
	jmp .LBB118_80
.LBB118_85:
	movq 208(%rsp), %rdi
	callq tags_library_dealloc@PLT
	movq 64(%rsp), %rdi
	callq tags_library_dealloc@PLT
	movq 96(%rsp), %r14
	movq 128(%rsp), %rbx
	movq 88(%rsp), %r10
	movq 48(%rsp), %r11
	movq 120(%rsp), %r9
	jmp .LBB118_74
.LBB118_81:
	movq %rdi, %rax
	andq $-4, %rax
	movq %r13, %xmm0
	pshufd $68, %xmm0, %xmm0
	xorl %ecx, %ecx
	movq %rdx, %rsi
.LBB118_82:
	movdqu %xmm0, (%rsi,%rcx,8)
	movdqu %xmm0, 16(%rsi,%rcx,8)
	addq $4, %rcx
	cmpq %rcx, %rax
	jne .LBB118_82
	jmp .LBB118_83
.LBB118_61:
	testq %r9, %r9
	je .LBB118_64
	movq 208(%rsp), %rax
	leaq 228(%rax), %rbp
	leaq 232(%r12), %rbx
	movq 64(%rsp), %r14
	movq 72(%rsp), %rax
	leaq 1(%rax), %r13
.LBB118_63:
	movl -232(%rbx), %eax
	movl %eax, 776(%rsp)
	movq -16(%rbx), %rax
	movq %rax, 176(%rsp)
	movl -8(%rbx), %eax
	movl %eax, 216(%rsp)
	leaq -224(%rbx), %rsi
	leaq 944(%rsp), %r15
	movl $208, %edx
	movq %r15, %rdi
	callq memcpy@PLT
	movl $192, %edx
	movq %r14, %rdi
	movq %rbx, %rsi
	callq memmove@PLT
	movl 776(%rsp), %eax
	movl %eax, -228(%rbp)
	movl $0, -224(%rbp)
	leaq -220(%rbp), %rdi
	movl $208, %edx
	movq %r15, %rsi
	callq memcpy@PLT
	movq 176(%rsp), %rax
	movq %rax, -12(%rbp)
	movl 216(%rsp), %eax
	movl %eax, -4(%rbp)
	movl $0, (%rbp)
	addq $232, %rbp
	addq $192, %r14
	addq $424, %rbx
	decq %r13
	jne .LBB118_63
.LBB118_64:
	cmpq $0, 56(%rsp)
	je .LBB118_66
	movq %r12, %rdi
	callq tags_library_dealloc@PLT
.LBB118_66:
	pxor %xmm0, %xmm0
	movdqa %xmm0, 1216(%rsp)
	movdqa %xmm0, 1232(%rsp)
	movdqa %xmm0, 1248(%rsp)
	movdqa %xmm0, 1264(%rsp)
	movdqa %xmm0, 1984(%rsp)
	movq $0, 2000(%rsp)
	movdqa %xmm0, 2240(%rsp)
	movq $0, 2256(%rsp)
	movq 152(%rsp), %rbx
	movq %rbx, 272(%rsp)
	movq 512(%rsp), %rax
	movq %rax, 280(%rsp)
	movq 144(%rsp), %rax
	movq %rax, 288(%rsp)
	movq 496(%rsp), %rax
	movq %rax, 296(%rsp)
	movq 40(%rsp), %rdi
	movq %rdi, 304(%rsp)
	movq 528(%rsp), %r12
	movq %r12, 312(%rsp)
	movq 80(%rsp), %r9
	movq %r9, 320(%rsp)
	movq 480(%rsp), %rax
	movq %rax, 328(%rsp)
	movaps 448(%rsp), %xmm1
	movlps %xmm1, 336(%rsp)
	movq 24(%rsp), %r13
	movq %r13, 344(%rsp)
	movq 192(%rsp), %rax
	movq %rax, 352(%rsp)
	movq 608(%rsp), %r15
	movq %r15, 360(%rsp)
	movq 136(%rsp), %rax
	movq %rax, 368(%rsp)
	movq 160(%rsp), %r14
	movq %r14, 376(%rsp)
	movq 64(%rsp), %rbp
	movq %rbp, 1856(%rsp)
	movq 72(%rsp), %rax
	leaq 1(%rax), %r8
	movq %r8, 1872(%rsp)
	testl %r13d, %r13d
	movabsq $3689348814741910323, %r10
	movabsq $1085102592571150095, %r11
	je .LBB118_90
	testq %r8, %r8
	je .LBB118_72
	leaq 12(%rbp), %rax
	xorl %ecx, %ecx
	jmp .LBB118_69
.LBB118_89:
	incl %ecx
	cmpl %r13d, %ecx
	je .LBB118_90
.LBB118_69:
	movq %rax, %rdx
	movq %r8, %rsi
	.p2align 4
.LBB118_70:
	cmpl %ecx, (%rdx)
	je .LBB118_89
	addq $192, %rdx
	decq %rsi
	jne .LBB118_70
.LBB118_72:
	movq %rbx, 1216(%rsp)
	movq 512(%rsp), %rax
	movq %rax, 1224(%rsp)
	movq 144(%rsp), %rax
	movq %rax, 1232(%rsp)
	movq 496(%rsp), %rax
	movq %rax, 1240(%rsp)
	movq %rdi, 1248(%rsp)
	movq %r12, 1256(%rsp)
	movq %r9, 1264(%rsp)
	movq 480(%rsp), %rax
	movq %rax, 1272(%rsp)
	leaq 1216(%rsp), %rdi
	movq %r8, %rbx
	callq atomic_table.owned.Table.drop__be83c7674c75c4c1
	movq %r15, 1984(%rsp)
	movq 136(%rsp), %rax
	movq %rax, 1992(%rsp)
	movq %r14, 2000(%rsp)
	leaq 1984(%rsp), %rdi
	callq std_alloc.vec.Vec.drop__a45941d93199a7b0
	movq %rbp, 2240(%rsp)
	movq %rbx, 2248(%rsp)
	movq %rbx, 2256(%rsp)
	leaq 2240(%rsp), %rdi
	callq std_alloc.vec.Vec.drop__03ae1f740aa33a8c
	ud2
.LBB118_90:
	movdqa %xmm0, 624(%rsp)
	movdqa %xmm0, 640(%rsp)
	movdqa %xmm0, 656(%rsp)
	movdqa %xmm0, 672(%rsp)
	movdqa %xmm0, 688(%rsp)
	movdqa %xmm0, 704(%rsp)
	movdqa %xmm0, 720(%rsp)
	movdqa %xmm0, 736(%rsp)
	movdqa %xmm0, 784(%rsp)
	movdqa %xmm0, 800(%rsp)
	movdqa %xmm0, 816(%rsp)
	movdqa %xmm0, 832(%rsp)
	movdqa %xmm0, 848(%rsp)
	movdqa %xmm0, 864(%rsp)
	movdqa %xmm0, 880(%rsp)
	movdqa %xmm0, 896(%rsp)
	movdqa %xmm0, 2320(%rsp)
	movdqa %xmm0, 2336(%rsp)
	movdqa %xmm0, 2112(%rsp)
	movq $0, 2128(%rsp)
	testq %r8, %r8
	je .LBB118_115
	movq 72(%rsp), %rax
	movq %rax, 1864(%rsp)
	leaq (%rax,%rax,2), %rcx
	shlq $6, %rcx
	movq (%rbp,%rcx), %r12
	movl 12(%rbp,%rcx), %esi
	movq 16(%rbp,%rcx), %r13
	movq 24(%rbp,%rcx), %r14
	movups 32(%rbp,%rcx), %xmm8
	movq 32(%rbp,%rcx), %rax
	movq 48(%rbp,%rcx), %r15
	movq 56(%rbp,%rcx), %rdx
	movq %rdx, 40(%rsp)
	movups 176(%rbp,%rcx), %xmm0
	movaps %xmm0, 1056(%rsp)
	movups 160(%rbp,%rcx), %xmm0
	movaps %xmm0, 1040(%rsp)
	movups 144(%rbp,%rcx), %xmm0
	movaps %xmm0, 1024(%rsp)
	movups 128(%rbp,%rcx), %xmm0
	movaps %xmm0, 1008(%rsp)
	movdqu 64(%rbp,%rcx), %xmm0
	movdqu 80(%rbp,%rcx), %xmm1
	movdqu 96(%rbp,%rcx), %xmm2
	movdqu 112(%rbp,%rcx), %xmm3
	movdqa %xmm3, 992(%rsp)
	movdqa %xmm2, 976(%rsp)
	movdqa %xmm1, 960(%rsp)
	movdqa %xmm0, 944(%rsp)
	movq (%rbx), %rcx
	testq %rax, %rax
	movl 36(%rsp), %ebp
	movabsq $6148914691236517205, %r8
	movl %esi, 24(%rsp)
	movaps %xmm8, 192(%rsp)
	movq %r13, 80(%rsp)
	je .LBB118_92
	cmpq $4, %rax
	jae .LBB118_95
	xorl %edx, %edx
	xorl %ecx, %ecx
	movabsq $72340172838076673, %r9
	jmp .LBB118_98
.LBB118_92:
	xorl %edx, %edx
	jmp .LBB118_99
.LBB118_95:
	movq %rax, %rcx
	andq $-4, %rcx
	pxor %xmm1, %xmm1
	xorl %edx, %edx
	pxor %xmm2, %xmm2
	pxor %xmm0, %xmm0
.LBB118_96:
	movdqu (%r14,%rdx,8), %xmm4
	movdqu 16(%r14,%rdx,8), %xmm3
	movdqa %xmm4, %xmm5
	psrlw $1, %xmm5
	movdqa .LCPI118_0(%rip), %xmm6
	pand %xmm6, %xmm5
	psubb %xmm5, %xmm4
	movdqa .LCPI118_1(%rip), %xmm5
	movdqa %xmm4, %xmm7
	pand %xmm5, %xmm7
	psrlw $2, %xmm4
	pand %xmm5, %xmm4
	paddb %xmm7, %xmm4
	movdqa %xmm4, %xmm7
	psrlw $4, %xmm7
	paddb %xmm4, %xmm7
	movdqa .LCPI118_2(%rip), %xmm4
	pand %xmm4, %xmm7
	psadbw %xmm1, %xmm7
	paddq %xmm7, %xmm2
	movdqa %xmm3, %xmm7
	psrlw $1, %xmm7
	pand %xmm6, %xmm7
	psubb %xmm7, %xmm3
	movdqa %xmm3, %xmm6
	pand %xmm5, %xmm6
	psrlw $2, %xmm3
	pand %xmm5, %xmm3
	paddb %xmm6, %xmm3
	movdqa %xmm3, %xmm5
	psrlw $4, %xmm5
	paddb %xmm3, %xmm5
	pand %xmm4, %xmm5
	psadbw %xmm1, %xmm5
	paddq %xmm5, %xmm0
	addq $4, %rdx
	cmpq %rdx, %rcx
	jne .LBB118_96
	paddq %xmm2, %xmm0
	pshufd $238, %xmm0, %xmm1
	paddq %xmm0, %xmm1
	movq %xmm1, %rdx
	cmpq %rcx, %rax
	movabsq $72340172838076673, %r9
	je .LBB118_99
.LBB118_98:
	movq (%r14,%rcx,8), %rsi
	movq %rsi, %rdi
	shrq %rdi
	andq %r8, %rdi
	subq %rdi, %rsi
	movq %rsi, %rdi
	andq %r10, %rdi
	shrq $2, %rsi
	andq %r10, %rsi
	addq %rdi, %rsi
	movq %rsi, %rdi
	shrq $4, %rdi
	addq %rsi, %rdi
	andq %r11, %rdi
	imulq %r9, %rdi
	shrq $56, %rdi
	addq %rdi, %rdx
	incq %rcx
	cmpq %rcx, %rax
	jne .LBB118_98
.LBB118_99:
	movaps 1056(%rsp), %xmm0
	movaps %xmm0, 896(%rsp)
	movaps 1040(%rsp), %xmm0
	movaps %xmm0, 880(%rsp)
	movaps 1024(%rsp), %xmm0
	movaps %xmm0, 864(%rsp)
	movaps 1008(%rsp), %xmm0
	movaps %xmm0, 848(%rsp)
	movaps 944(%rsp), %xmm0
	movaps 960(%rsp), %xmm1
	movaps 976(%rsp), %xmm2
	movaps 992(%rsp), %xmm3
	movaps %xmm3, 832(%rsp)
	movaps %xmm2, 816(%rsp)
	movaps %xmm1, 800(%rsp)
	movaps %xmm0, 784(%rsp)
	movq %r12, %rbx
	shrq $32, %rbx
	movq %r15, 2112(%rsp)
	movq 40(%rsp), %r13
	movq %r13, 2120(%rsp)
	movq %rdx, 2128(%rsp)
	leaq 2320(%rsp), %rdi
	leaq 272(%rsp), %rsi
	leaq 2112(%rsp), %rdx
	leaq 1856(%rsp), %rcx
	callq tag_core.settles.settle_rest_i64
	movaps 896(%rsp), %xmm0
	movaps %xmm0, 1056(%rsp)
	movaps 880(%rsp), %xmm0
	movaps %xmm0, 1040(%rsp)
	movaps 864(%rsp), %xmm0
	movaps %xmm0, 1024(%rsp)
	movaps 848(%rsp), %xmm0
	movaps %xmm0, 1008(%rsp)
	movaps 784(%rsp), %xmm0
	movaps 800(%rsp), %xmm1
	movaps 816(%rsp), %xmm2
	movaps 832(%rsp), %xmm3
	movaps %xmm3, 992(%rsp)
	movaps %xmm2, 976(%rsp)
	movaps %xmm1, 960(%rsp)
	movaps %xmm0, 944(%rsp)
	movq 272(%rsp), %rax
	movq (%rax), %rax
	movq 272(%rsp), %rax
	movq (%rax), %rax
	movl $1, %eax
	movl $1, %edx
	movl %ebx, %ecx
	shll %cl, %edx
	addl %r12d, %edx
	decl %edx
	shrl %cl, %edx
	shll $4, %edx
	addl $72, %edx
	movaps 1056(%rsp), %xmm0
	movaps %xmm0, 736(%rsp)
	movaps 1040(%rsp), %xmm0
	movaps %xmm0, 720(%rsp)
	movaps 1024(%rsp), %xmm0
	movaps %xmm0, 704(%rsp)
	movaps 1008(%rsp), %xmm0
	movaps %xmm0, 688(%rsp)
	movaps 944(%rsp), %xmm0
	movaps 960(%rsp), %xmm1
	movaps 976(%rsp), %xmm2
	movaps 992(%rsp), %xmm3
	movaps %xmm3, 672(%rsp)
	movaps %xmm2, 656(%rsp)
	movaps %xmm1, 640(%rsp)
	movaps %xmm0, 624(%rsp)
	movq 1856(%rsp), %rsi
	movq 1864(%rsp), %r8
	leaq (%r8,%r8,2), %rcx
	shlq $6, %rcx
	movq %r12, (%rsi,%rcx)
	movl %edx, 8(%rsi,%rcx)
	movl 24(%rsp), %edx
	movl %edx, 12(%rsi,%rcx)
	movq 80(%rsp), %rdx
	movq %rdx, 16(%rsi,%rcx)
	movq %r14, 24(%rsi,%rcx)
	movaps 192(%rsp), %xmm0
	movups %xmm0, 32(%rsi,%rcx)
	movq %r15, 48(%rsi,%rcx)
	movq %r13, 56(%rsi,%rcx)
	movaps 736(%rsp), %xmm0
	movups %xmm0, 176(%rsi,%rcx)
	movaps 720(%rsp), %xmm0
	movups %xmm0, 160(%rsi,%rcx)
	movaps 704(%rsp), %xmm0
	movups %xmm0, 144(%rsi,%rcx)
	movaps 688(%rsp), %xmm0
	movups %xmm0, 128(%rsi,%rcx)
	movaps 624(%rsp), %xmm0
	movaps 640(%rsp), %xmm1
	movaps 656(%rsp), %xmm2
	movaps 672(%rsp), %xmm3
	movups %xmm3, 112(%rsi,%rcx)
	movups %xmm2, 96(%rsi,%rcx)
	movups %xmm1, 80(%rsi,%rcx)
	movq %rsi, 176(%rsp)
	movups %xmm0, 64(%rsi,%rcx)
	incq %r8
	movq %r8, 56(%rsp)
	movq 272(%rsp), %rcx
	movq %rcx, 152(%rsp)
	movq 304(%rsp), %rdx
	movq 312(%rsp), %r8
	movq 320(%rsp), %rsi
	movl 268(%rsp), %ecx
	shll %cl, %eax
	movq 568(%rsp), %rdi
	leal (%rdi,%rax), %r10d
	decl %r10d
	shrl %cl, %r10d
	movl 344(%rsp), %r9d
	movl 348(%rsp), %eax
	movq %rax, 24(%rsp)
	movq 352(%rsp), %rax
	movq %rax, 192(%rsp)
	movq 360(%rsp), %rax
	movq %rax, 608(%rsp)
	movq 376(%rsp), %rax
	movq 1872(%rsp), %rdi
	movq 760(%rsp), %rcx
	movq %rcx, 784(%rsp)
	movq 1160(%rsp), %rcx
	movq %rcx, 792(%rsp)
	movq 768(%rsp), %rcx
	movq %rcx, 800(%rsp)
	xorps %xmm0, %xmm0
	movaps %xmm0, 944(%rsp)
	movaps %xmm0, 960(%rsp)
	movaps %xmm0, 976(%rsp)
	movaps %xmm0, 992(%rsp)
	movaps %xmm0, 1008(%rsp)
	movaps %xmm0, 1024(%rsp)
	movaps %xmm0, 1040(%rsp)
	movq $0, 1056(%rsp)
	movaps %xmm0, 272(%rsp)
	movq $0, 288(%rsp)
	leaq 16(%rsp), %r13
	movq %r13, 624(%rsp)
	movups %xmm0, 632(%rsp)
	movq %r9, 64(%rsp)
	testq %r9, %r9
	movq %rdx, 40(%rsp)
	movq %rsi, 80(%rsp)
	movq %rax, 160(%rsp)
	movq %r8, 528(%rsp)
	movq %rdi, 1152(%rsp)
	je .LBB118_100
	leaq 16(%r10), %rax
	movq %rax, 72(%rsp)
	leaq 128(,%r10,8), %rax
	movq %rax, 776(%rsp)
	testq %r10, %r10
	je .LBB118_116
	leaq (,%r10,8), %rax
	movq %rax, 216(%rsp)
	xorl %r14d, %r14d
	movq 64(%rsp), %r12
.LBB118_103:
	movl $8, %esi
	movq %r10, %r15
	leaq 128(,%r10,8), %rdi
	callq tags_library_alloc@PLT
	testb $1, %al
	je .LBB118_122
	movq %rdx, %rbx
	movq %rdx, %rdi
	xorl %esi, %esi
	movq 216(%rsp), %rdx
	callq memset@PLT
	cmpq %r14, 640(%rsp)
	je .LBB118_105
.LBB118_107:
	leaq (%r14,%r14,2), %rax
	movq %rbx, (%r13,%rax,8)
	movq %r15, %r10
	movq %r15, 8(%r13,%rax,8)
	leaq 16(%r15), %rcx
	movq %rcx, 16(%r13,%rax,8)
	incq %r14
	movq %r14, 632(%rsp)
	decq %r12
	jne .LBB118_103
	jmp .LBB118_108
.LBB118_105:
	leaq 624(%rsp), %rdi
	callq std_alloc.vec.Vec.grow_amortized__e69b1d9fa94cf777
	testb %al, %al
	je .LBB118_130
	movq 624(%rsp), %r13
	movq 632(%rsp), %r14
	jmp .LBB118_107
.LBB118_100:
	xorl %r14d, %r14d
.LBB118_108:
	movq 624(%rsp), %r12
	movq 640(%rsp), %rax
	movq %rax, 216(%rsp)
	movq 568(%rsp), %rax
	movl %eax, 272(%rsp)
	movl 268(%rsp), %eax
	movl %eax, 276(%rsp)
	movq 64(%rsp), %rax
	movl %eax, 280(%rsp)
	movl $0, 284(%rsp)
	movq 192(%rsp), %rax
	movq %rax, 288(%rsp)
	leaq 944(%rsp), %rdi
	leaq 272(%rsp), %rsi
	leaq 784(%rsp), %rdx
	callq tag_core.opens.new_map_i64_tag_pool.Destruct_none_i64
	cmpb $0, 944(%rsp)
	je .LBB118_109
	testq %r14, %r14
	movq 560(%rsp), %r13
	je .LBB118_166
	leaq 16(%r12), %rbx
	jmp .LBB118_163
.LBB118_165:
	addq $24, %rbx
	decq %r14
	je .LBB118_166
.LBB118_163:
	cmpq $0, (%rbx)
	je .LBB118_165
	movq -16(%rbx), %rdi
	callq tags_library_dealloc@PLT
	jmp .LBB118_165
.LBB118_166:
	cmpq $0, 216(%rsp)
	je .LBB118_168
	movq %r12, %rdi
	callq tags_library_dealloc@PLT
.LBB118_168:
	movq 952(%rsp), %rdi
	movq 968(%rsp), %rcx
	movq 96(%rsp), %r14
	movq 128(%rsp), %rbx
	movq 120(%rsp), %rax
	jmp .LBB118_169
.LBB118_109:
	movq 992(%rsp), %rax
	movq %rax, 192(%rsp)
	movq 1000(%rsp), %rax
	movq %rax, 152(%rsp)
	movaps 1008(%rsp), %xmm0
	movaps %xmm0, 528(%rsp)
	movaps 1024(%rsp), %xmm0
	movaps %xmm0, 512(%rsp)
	movl 1024(%rsp), %ecx
	movq 1040(%rsp), %rax
	movq %rax, 144(%rsp)
	movups 1048(%rsp), %xmm0
	movaps %xmm0, 496(%rsp)
	movups 952(%rsp), %xmm0
	movaps %xmm0, 480(%rsp)
	movq 968(%rsp), %rax
	movq %rax, 136(%rsp)
	movdqa 976(%rsp), %xmm0
	movdqa %xmm0, 464(%rsp)
	movl %ecx, 24(%rsp)
	testl %ecx, %ecx
	je .LBB118_143
	cmpq $0, 56(%rsp)
	je .LBB118_115
	movq 1016(%rsp), %rdx
	movq %rdx, %rcx
	shrq $32, %rcx
	movl $1, %eax
	shll %cl, %eax
	movq %rdx, %r15
	leal (%rdx,%rax), %r13d
	decl %r13d
	shrl %cl, %r13d
	movq 952(%rsp), %rbx
	shll $4, %r13d
	addl $72, %r13d
	xorl %ebp, %ebp
	jmp .LBB118_112
.LBB118_142:
	incl %ebp
	cmpl 24(%rsp), %ebp
	je .LBB118_143
.LBB118_112:
	movq 176(%rsp), %rax
	movq 56(%rsp), %rcx
.LBB118_113:
	cmpl %ebp, 12(%rax)
	je .LBB118_139
	addq $192, %rax
	decq %rcx
	jne .LBB118_113
	jmp .LBB118_115
.LBB118_139:
	testq %r14, %r14
	je .LBB118_115
	decq %r14
	leaq (%r14,%r14,2), %rcx
	movq 16(%r12,%rcx,8), %rdx
	movq %rdx, 640(%rsp)
	movups (%r12,%rcx,8), %xmm0
	movaps %xmm0, 624(%rsp)
	movq (%rbx), %rcx
	movq %r15, (%rax)
	movl %r13d, 8(%rax)
	movq 24(%rax), %rdi
	movdqa 624(%rsp), %xmm0
	movdqu %xmm0, 24(%rax)
	movq 640(%rsp), %rcx
	cmpq $0, 40(%rax)
	movq %rcx, 40(%rax)
	je .LBB118_142
	callq tags_library_dealloc@PLT
	jmp .LBB118_142
.LBB118_143:
	testq %r14, %r14
	je .LBB118_148
	leaq 16(%r12), %rbx
	jmp .LBB118_145
.LBB118_147:
	addq $24, %rbx
	decq %r14
	je .LBB118_148
.LBB118_145:
	cmpq $0, (%rbx)
	je .LBB118_147
	movq -16(%rbx), %rdi
	callq tags_library_dealloc@PLT
	jmp .LBB118_147
.LBB118_148:
	cmpq $0, 216(%rsp)
	je .LBB118_150
	movq %r12, %rdi
	callq tags_library_dealloc@PLT
.LBB118_150:
	movq 40(%rsp), %rdi
	callq tags_library_dealloc@PLT
	movq 80(%rsp), %rdi
	callq tags_library_dealloc@PLT
	cmpq $0, 160(%rsp)
	je .LBB118_152
	movq 608(%rsp), %rdi
	callq tags_library_dealloc@PLT
.LBB118_152:
	movdqa 400(%rsp), %xmm0
	movd %xmm0, %eax
	movq 248(%rsp), %r15
	shlq $32, %r15
	orq %rax, %r15
	pshufd $238, %xmm0, %xmm0
	movd %xmm0, %eax
	movq %rax, 24(%rsp)
	movq 176(%rsp), %rax
	movq %rax, 1824(%rsp)
	movq 56(%rsp), %rax
	movq %rax, 1832(%rsp)
	movq 1152(%rsp), %rax
	movq %rax, 1840(%rsp)
	movq 208(%rsp), %rax
	movq %rax, 1792(%rsp)
	movq 120(%rsp), %rax
	movq %rax, 1800(%rsp)
	movq %rax, 1808(%rsp)
	movq 544(%rsp), %rcx
	movq %rcx, 1760(%rsp)
	movq $0, 1768(%rsp)
	movq %rax, 1776(%rsp)
	leaq 1168(%rsp), %rdi
	leaq 1824(%rsp), %rsi
	leaq 1792(%rsp), %rdx
	leaq 1760(%rsp), %rcx
	callq tag_pool.resizes.shells.unite_i64
	movq 1168(%rsp), %r12
	movq 1176(%rsp), %rax
	movq %rax, 120(%rsp)
	movq 1184(%rsp), %rax
	movq %rax, 56(%rsp)
	movq 256(%rsp), %rax
	shrq $32, %rax
	movq %rax, 40(%rsp)
	movq 48(%rsp), %rcx
	testq %rcx, %rcx
	je .LBB118_160
	movq 128(%rsp), %rax
	leaq 288(%rax), %rbp
	movq %rcx, %r13
	jmp .LBB118_154
.LBB118_159:
	addq $440, %rbp
	decq %r13
	je .LBB118_160
.LBB118_154:
	cmpb $0, -280(%rbp)
	je .LBB118_159
	movq -16(%rbp), %rbx
	movq (%rbp), %r14
	cmpq $0, -208(%rbp)
	je .LBB118_157
	movq -224(%rbp), %rdi
	callq tags_library_dealloc@PLT
	movq 48(%rsp), %rcx
.LBB118_157:
	testq %r14, %r14
	je .LBB118_159
	movq %rbx, %rdi
	callq tags_library_dealloc@PLT
	movq 48(%rsp), %rcx
	jmp .LBB118_159
.LBB118_160:
	movaps 432(%rsp), %xmm0
	movlps %xmm0, 2448(%rsp)
	movaps 416(%rsp), %xmm0
	movups %xmm0, 2456(%rsp)
	movq 112(%rsp), %rax
	movq %rax, 2472(%rsp)
	movq 104(%rsp), %rax
	movq %rax, 2480(%rsp)
	movq 552(%rsp), %rax
	movq %rax, 2488(%rsp)
	movq 560(%rsp), %rax
	movq %rax, 2496(%rsp)
	movq 240(%rsp), %rax
	movq %rax, 2504(%rsp)
	movq 232(%rsp), %rax
	movq %rax, 2512(%rsp)
	movq 224(%rsp), %rax
	movq %rax, 2520(%rsp)
	movq 600(%rsp), %rax
	movq %rax, 2528(%rsp)
	movq 592(%rsp), %rax
	movq %rax, 2536(%rsp)
	movq 584(%rsp), %rax
	movq %rax, 2544(%rsp)
	movq 576(%rsp), %rax
	movq %rax, 2552(%rsp)
	movaps 480(%rsp), %xmm0
	movaps %xmm0, 2560(%rsp)
	movq 136(%rsp), %rax
	movq %rax, 2576(%rsp)
	movaps 464(%rsp), %xmm0
	movups %xmm0, 2584(%rsp)
	movq 192(%rsp), %rax
	movq %rax, 2600(%rsp)
	movq 152(%rsp), %rax
	movq %rax, 2608(%rsp)
	movaps 528(%rsp), %xmm0
	movups %xmm0, 2616(%rsp)
	movaps 512(%rsp), %xmm0
	movups %xmm0, 2632(%rsp)
	movq 144(%rsp), %rax
	movq %rax, 2648(%rsp)
	movdqa 496(%rsp), %xmm0
	movdqa %xmm0, 2656(%rsp)
	movq %r15, 2672(%rsp)
	movq 24(%rsp), %rax
	movq %rax, 2680(%rsp)
	movq 184(%rsp), %rax
	movq %rax, 2688(%rsp)
	movq 128(%rsp), %rax
	movq %rax, 1600(%rsp)
	movq $0, 1608(%rsp)
	movq 88(%rsp), %rax
	movq %rax, 1616(%rsp)
	leaq 1600(%rsp), %rax
	movq %rax, 8(%rsp)
	movq %rcx, (%rsp)
	movzbl 40(%rsp), %r9d
	leaq 2720(%rsp), %rdi
	leaq 2448(%rsp), %rsi
	movq 248(%rsp), %rdx
	movl 36(%rsp), %ecx
	movq 256(%rsp), %r8
	callq tag_c.pool_state.PoolState.with_cells
	movsd 2720(%rsp), %xmm1
	movups 2728(%rsp), %xmm2
	movq 2744(%rsp), %rdi
	movq 2752(%rsp), %r8
	movq 2760(%rsp), %rdx
	movq 2768(%rsp), %r13
	movq 2776(%rsp), %rax
	movq %rax, 240(%rsp)
	movq 2784(%rsp), %rax
	movq %rax, 232(%rsp)
	movq 2792(%rsp), %rax
	movq %rax, 224(%rsp)
	movq 2800(%rsp), %rax
	movq %rax, 600(%rsp)
	movq 2808(%rsp), %rax
	movq %rax, 592(%rsp)
	movq 2816(%rsp), %rax
	movq %rax, 584(%rsp)
	movq 2824(%rsp), %rax
	movq %rax, 576(%rsp)
	movq 2832(%rsp), %rax
	movq %rax, 152(%rsp)
	movq 2840(%rsp), %rax
	movq %rax, 512(%rsp)
	movq 2848(%rsp), %rax
	movq %rax, 144(%rsp)
	movq 2856(%rsp), %rax
	movq %rax, 496(%rsp)
	movq 2896(%rsp), %xmm4
	movups 2944(%rsp), %xmm3
	movq 2864(%rsp), %rax
	movq %rax, 40(%rsp)
	movq 2872(%rsp), %rax
	movq %rax, 528(%rsp)
	movq 2880(%rsp), %rax
	movq %rax, 80(%rsp)
	movq 2888(%rsp), %rax
	movq %rax, 480(%rsp)
	movq 2904(%rsp), %rax
	movq %rax, 24(%rsp)
	movq 2912(%rsp), %rax
	movq %rax, 192(%rsp)
	movq 2920(%rsp), %rax
	movq %rax, 608(%rsp)
	movq 2928(%rsp), %rax
	movq %rax, 136(%rsp)
	movq 2936(%rsp), %rax
	movq %rax, 160(%rsp)
	movq 2960(%rsp), %rax
	movq %rax, 184(%rsp)
	movl 2968(%rsp), %r15d
	movl 2972(%rsp), %ebp
	movq 2976(%rsp), %rax
	movq %rax, 256(%rsp)
	movq 2984(%rsp), %rbx
	movq 2992(%rsp), %r11
	xorl %eax, %eax
	movq 3000(%rsp), %r10
	xorl %ecx, %ecx
	movq 168(%rsp), %rsi
	movq 96(%rsp), %r14
	movq 120(%rsp), %r9
	jmp .LBB118_177
.LBB118_116:
	leaq 16(%rsp), %r12
	xorl %r14d, %r14d
	movq 64(%rsp), %r13
.LBB118_117:
	movl $8, %esi
	movq 776(%rsp), %rdi
	callq tags_library_alloc@PLT
	testb $1, %al
	je .LBB118_123
	movq %rdx, %rbx
	cmpq %r14, 640(%rsp)
	je .LBB118_119
.LBB118_121:
	leaq (%r14,%r14,2), %rax
	movq %rbx, (%r12,%rax,8)
	movq $0, 8(%r12,%rax,8)
	movq 72(%rsp), %rcx
	movq %rcx, 16(%r12,%rax,8)
	incq %r14
	movq %r14, 632(%rsp)
	decq %r13
	jne .LBB118_117
	jmp .LBB118_108
.LBB118_119:
	leaq 624(%rsp), %rdi
	callq std_alloc.vec.Vec.grow_amortized__e69b1d9fa94cf777
	testb %al, %al
	je .LBB118_130
	movq 624(%rsp), %r12
	movq 632(%rsp), %r14
	jmp .LBB118_121
.LBB118_122:
	movq 624(%rsp), %r12
.LBB118_123:
	movq 640(%rsp), %rbx
	testq %r14, %r14
	je .LBB118_128
	leaq 16(%r12), %r13
	jmp .LBB118_125
.LBB118_127:
	addq $24, %r13
	decq %r14
	je .LBB118_128
.LBB118_125:
	cmpq $0, (%r13)
	je .LBB118_127
	movq -16(%r13), %rdi
	callq tags_library_dealloc@PLT
	jmp .LBB118_127
.LBB118_128:
	testq %rbx, %rbx
	je .LBB118_138
	movq %r12, %rdi
.LBB118_137:
	callq tags_library_dealloc@PLT
.LBB118_138:
	movq 96(%rsp), %r14
	movq 128(%rsp), %rbx
	movq 120(%rsp), %rax
	movq 560(%rsp), %r13
	movq 760(%rsp), %rdi
	movq 768(%rsp), %rcx
.LBB118_169:
	testq %rcx, %rcx
	je .LBB118_171
	callq tags_library_dealloc@PLT
	movq 120(%rsp), %rax
.LBB118_171:
	movq 176(%rsp), %rcx
	movq %rcx, 1696(%rsp)
	movq 56(%rsp), %rcx
	movq %rcx, 1704(%rsp)
	movq 1152(%rsp), %rcx
	movq %rcx, 1712(%rsp)
	movq 208(%rsp), %rcx
	movq %rcx, 1664(%rsp)
	movq %rax, 1672(%rsp)
	movq %rax, 1680(%rsp)
	movq 544(%rsp), %rcx
	movq %rcx, 1632(%rsp)
	movq $0, 1640(%rsp)
	movq %rax, 1648(%rsp)
	leaq 1728(%rsp), %rdi
	leaq 1696(%rsp), %rsi
	leaq 1664(%rsp), %rdx
	leaq 1632(%rsp), %rcx
	callq tag_pool.resizes.shells.unite_i64
	movq 1728(%rsp), %r12
	movq 1736(%rsp), %r9
	movq 1744(%rsp), %rax
	movq %rax, 56(%rsp)
	movq 24(%rsp), %rax
	shlq $32, %rax
	addq 64(%rsp), %rax
	movq %rax, 24(%rsp)
	xorps %xmm0, %xmm0
	movaps 400(%rsp), %xmm3
	shufps $32, %xmm3, %xmm0
	shufps $36, %xmm0, %xmm3
	xorl %ecx, %ecx
	movb $10, %al
	movq 168(%rsp), %rsi
	movq 88(%rsp), %r10
	movl 464(%rsp), %r15d
	movq 48(%rsp), %r11
	movaps 432(%rsp), %xmm1
	movaps 416(%rsp), %xmm2
	movq 112(%rsp), %rdi
	movq 104(%rsp), %r8
	movq 552(%rsp), %rdx
	movdqa 448(%rsp), %xmm4
	jmp .LBB118_177
.LBB118_130:
	movq %rbx, %rdi
	callq tags_library_dealloc@PLT
	movq 624(%rsp), %rbx
	movq 632(%rsp), %r12
	movq 640(%rsp), %r14
	testq %r12, %r12
	je .LBB118_135
	leaq 16(%rbx), %r13
	jmp .LBB118_132
.LBB118_134:
	addq $24, %r13
	decq %r12
	je .LBB118_135
.LBB118_132:
	cmpq $0, (%r13)
	je .LBB118_134
	movq -16(%r13), %rdi
	callq tags_library_dealloc@PLT
	jmp .LBB118_134
.LBB118_135:
	testq %r14, %r14
	je .LBB118_138
	movq %rbx, %rdi
	jmp .LBB118_137
.LBB118_115:
	ud2
.LBB118_80:
	movq %r13, (%rdx,%rax,8)
	incq %rax
.LBB118_83:
	cmpq %rax, %rdi
	jne .LBB118_80
.LBB118_84:
	movq 72(%rsp), %rax
	leaq 1(%rax), %r9
	movq %rdx, 760(%rsp)
	movq %r13, (%rdx,%rdi,8)
	incq %rdi
	movq %rdi, 1160(%rsp)
	jmp .LBB118_61
.Lfunc_end118:
	.size tags_library_resize, .Lfunc_end118-tags_library_resize
	.section .rodata.tags_library_resize,"a",@progbits
	.p2align 2, 0x0
.LJTI118_0:
	.long .LBB118_172-.LJTI118_0
	.long .LBB118_173-.LJTI118_0
	.long .LBB118_174-.LJTI118_0
	.long .LBB118_175-.LJTI118_0
.LJTI118_1:
	.long .LBB118_182-.LJTI118_1
	.long .LBB118_115-.LJTI118_1
	.long .LBB118_115-.LJTI118_1
	.long .LBB118_115-.LJTI118_1
	.long .LBB118_115-.LJTI118_1
	.long .LBB118_115-.LJTI118_1
	.long .LBB118_115-.LJTI118_1
	.long .LBB118_115-.LJTI118_1
	.long .LBB118_115-.LJTI118_1
	.long .LBB118_115-.LJTI118_1
	.long .LBB118_180-.LJTI118_1
	.long .LBB118_115-.LJTI118_1
	.long .LBB118_181-.LJTI118_1
	.long .LBB118_178-.LJTI118_1
	.long .LBB118_179-.LJTI118_1
	.type .Lswitch.table.tags_library_clear_mask,@object
	.section .rodata.cst16,"aM",@progbits,16
	.p2align 2, 0x0
.Lswitch.table.tags_library_clear_mask:
	.long 4294967295
	.long 4294967293
	.long 4294967292
	.long 4294967291
	.size .Lswitch.table.tags_library_clear_mask, 16
	.type .Lswitch.table.tags_library_is_cached,@object
	.section .rodata..Lswitch.table.tags_library_is_cached,"a",@progbits
	.p2align 2, 0x0
.Lswitch.table.tags_library_is_cached:
	.long 0
	.long 4294967284
	.long 1
	.size .Lswitch.table.tags_library_is_cached, 12
	.type .Lswitch.table.tags_library_leave,@object
	.section .rodata..Lswitch.table.tags_library_leave,"a",@progbits
	.p2align 2, 0x0
.Lswitch.table.tags_library_leave:
	.long 0
	.long 4294967295
	.long 4294967286
	.long 4294967284
	.long 4294967283
	.long 4294967282
	.long 4294967281
	.long 4294967280
	.long 4294967279
	.long 4294967278
	.long 4294967275
	.long 4294967277
	.long 4294967276
	.long 4294967267
	.long 4294967266
	.long 4294967261
	.size .Lswitch.table.tags_library_leave, 64
	.type .Lswitch.table.tags_library_join,@object
	.section .rodata..Lswitch.table.tags_library_join,"a",@progbits
	.p2align 2, 0x0
.Lswitch.table.tags_library_join:
	.long 0
	.long 4294967295
	.long 4294967286
	.long 4294967284
	.long 4294967283
	.long 4294967282
	.long 4294967281
	.long 4294967280
	.long 4294967279
	.long 4294967278
	.long 4294967275
	.size .Lswitch.table.tags_library_join, 44
	.type .Lswitch.table.tags_library_wait_on_reserved.286,@object
	.section .rodata..Lswitch.table.tags_library_wait_on_reserved.286,"a",@progbits
	.p2align 2, 0x0
.Lswitch.table.tags_library_wait_on_reserved.286:
	.long 4294967295
	.long 4294967293
	.long 4294967292
	.long 4294967291
	.long 4294967290
	.long 4294967289
	.long 4294967294
	.size .Lswitch.table.tags_library_wait_on_reserved.286, 28
	.section ".note.GNU-stack","",@progbits
	.section .note.gnu.property,"a",@note
	.p2align 3
	.long 4
	.long 16
	.long 5
	.asciz "GNU"
	.long 0xc0000002
	.long 4
	.long 2
	.long 0
