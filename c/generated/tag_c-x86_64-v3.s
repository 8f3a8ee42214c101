/*
 * The crate tag_c, proved and compiled, for each x86-64 processor that has all of x86-64-v3.
 * Made by: c/library.sh generate. Don't edit it.
 *
 * Proved: logic=proved functions=193 axioms=3 target=x86_64-unknown-linux-gnu sum=dac8208d650f15bf native=nat,char,string logic-built=trusted libraries-built=trusted statements=trusted incremental=trusted
 * With: logic dac8208d650f15bf
 * Of the crates: sums refusals tag_layout tag_model step_ledger tag_core tag_bell tag_search tag_pool tag_cache tag_c
 * Sources: 30dc1fb551845b2df9dfcd0c1215f8a0df6d068ff8d3d4707241ad8564711b21
 * Lines below: c6475c0fdf884344189dcfa1ed8ae033d20113a22fefa99fd970be5f1c78a1c5
 *
 * "Sources" is the SHA-256 sum of what decides these lines and what the proof says of them: src/ and specs/ of the crates and their
 * lines of crates.txt. "Lines below" is that of all lines below this comment.
 */
	.section .text.tag_pool.pool.Pool.busy_i64_core.clone.U64Clone,"ax",@progbits
	.p2align 4
	.type tag_pool.pool.Pool.busy_i64_core.clone.U64Clone,@function
tag_pool.pool.Pool.busy_i64_core.clone.U64Clone:
	pushq %rbp
	pushq %r15
	pushq %r14
	pushq %r13
	pushq %r12
	pushq %rbx
	pushq %rax
	movq %rsi, %rbx
	movq %rdi, %r14
	testq %rdx, %rdx
	je .LBB0_4
	movq %rdx, %r15
	cmpq $1, %rdx
	je .LBB0_3
	leaq -8(,%r15,8), %rdx
	movq %rbx, %rdi
	xorl %esi, %esi
	callq memset@PLT
.LBB0_3:
	movq $0, -8(%rbx,%r15,8)
.LBB0_4:
	movl 64(%r14), %esi
	movl 68(%r14), %edi
	movl $1, %eax
	shlxl %edi, %eax, %r8d
	leal (%rsi,%r8), %eax
	decl %eax
	shrxl %edi, %eax, %r9d
	xorl %eax, %eax
	movl $0, %ecx
	testl %r9d, %r9d
	je .LBB0_12
	movl %r9d, %r9d
	xorl %r10d, %r10d
	xorl %ecx, %ecx
	jmp .LBB0_6
	.p2align 4
.LBB0_11:
	popcntq %r11, %rdx
	addl %edx, %ecx
	incq %r10
	cmpq %r9, %r10
	je .LBB0_12
.LBB0_6:
	movq (%r14), %r11
	movq %r10, %r15
	shlq $7, %r15
	movq 576(%r11,%r15), %r11
	movq (%r14), %r12
	movq 640(%r12,%r15), %r12
	shlxl %edi, %r10d, %ebp
	movl %esi, %r15d
	subl %ebp, %r15d
	cmpl %r15d, %r8d
	cmovbl %r8d, %r15d
	bzhiq %r15, %r11, %r11
	andnq %r11, %r12, %r11
	cmpl %ebp, %esi
	je .LBB0_11
	movl %r15d, %r15d
	movl %ebp, %r12d
	xorl %r13d, %r13d
	jmp .LBB0_8
	.p2align 4
.LBB0_10:
	incq %r13
	cmpq %r13, %r15
	je .LBB0_11
.LBB0_8:
	btq %r13, %r11
	jae .LBB0_10
	leal (%r12,%r13), %ebp
	movl $1, %edx
	shlxq %rbp, %rdx, %rdx
	shrl $6, %ebp
	orq %rdx, (%rbx,%rbp,8)
	jmp .LBB0_10
.LBB0_12:
	movl 176(%r14), %esi
	movl 180(%r14), %edi
	movl $1, %edx
	shlxl %edi, %edx, %edx
	leal (%rsi,%rdx), %r8d
	decl %r8d
	shrxl %edi, %r8d, %r9d
	testl %r9d, %r9d
	je .LBB0_20
	movl 224(%r14), %eax
	movl %eax, 4(%rsp)
	movl %r9d, %r9d
	xorl %r10d, %r10d
	xorl %eax, %eax
	jmp .LBB0_14
	.p2align 4
.LBB0_19:
	popcntq %r15, %r8
	addl %r8d, %eax
	incq %r10
	cmpq %r9, %r10
	je .LBB0_20
.LBB0_14:
	movq 112(%r14), %r11
	movq %r10, %r15
	shlq $7, %r15
	movq 576(%r11,%r15), %r13
	movq 112(%r14), %r11
	movq 640(%r11,%r15), %r15
	shlxl %edi, %r10d, %r11d
	movl %esi, %r12d
	subl %r11d, %r12d
	cmpl %r12d, %edx
	cmovbl %edx, %r12d
	bzhiq %r12, %r13, %r13
	andnq %r13, %r15, %r15
	cmpl %r11d, %esi
	je .LBB0_19
	movl %r12d, %r12d
	addl 4(%rsp), %r11d
	xorl %r13d, %r13d
	jmp .LBB0_16
	.p2align 4
.LBB0_18:
	incq %r13
	cmpq %r13, %r12
	je .LBB0_19
.LBB0_16:
	btq %r13, %r15
	jae .LBB0_18
	leal (%r11,%r13), %ebp
	movl $1, %r8d
	shlxq %rbp, %r8, %r8
	shrl $6, %ebp
	orq %r8, (%rbx,%rbp,8)
	jmp .LBB0_18
.LBB0_20:
	addl %ecx, %eax
	addq $8, %rsp
	popq %rbx
	popq %r12
	popq %r13
	popq %r14
	popq %r15
	popq %rbp
	retq
.Lfunc_end0:
	.size tag_pool.pool.Pool.busy_i64_core.clone.U64Clone, .Lfunc_end0-tag_pool.pool.Pool.busy_i64_core.clone.U64Clone
	.section .text.tag_c.looks.CachedMemberLookCalls.busy,"ax",@progbits
	.p2align 4
	.type tag_c.looks.CachedMemberLookCalls.busy,@function
tag_c.looks.CachedMemberLookCalls.busy:
	movl 256(%rdi), %eax
	addq $63, %rax
	shrq $6, %rax
	cmpq %rax, %rdx
	jae .LBB1_2
	movl $-17, %eax
	retq
.LBB1_2:
	pushq %rax
	addq $8, %rdi
	callq tag_pool.pool.Pool.busy_i64_core.clone.U64Clone
	cmpl $10240, %eax
	movl $10240, %ecx
	cmovael %ecx, %eax
	popq %rcx
	retq
.Lfunc_end1:
	.size tag_c.looks.CachedMemberLookCalls.busy, .Lfunc_end1-tag_c.looks.CachedMemberLookCalls.busy
	.section .text.tag_c.telling.MemberTellingCalls.tell,"ax",@progbits
	.p2align 4
	.type tag_c.telling.MemberTellingCalls.tell,@function
tag_c.telling.MemberTellingCalls.tell:
	pushq %r14
	pushq %rbx
	pushq %rax
	movq %rcx, %rbx
	movq %rdi, %rax
	addq $112, %rdi
	testb $1, %sil
	cmovneq %rax, %rdi
	movq 8(%rdi), %rax
	movq 8(%rax), %rax
	xorl %r14d, %r14d
	testq %rax, %rax
	je .LBB2_1
	addq $8, %rdi
	movl %edx, %esi
	movq %rax, %rdx
	callq tag_bell.telling.tell_each_i64
	movq %rax, %rcx
	orq %rdx, %rcx
	je .LBB2_5
.LBB2_4:
	movq %rax, (%rbx)
	movq %rdx, 8(%rbx)
	movl $1073741824, %r14d
.LBB2_5:
	movl %r14d, %eax
	addq $8, %rsp
	popq %rbx
	popq %r14
	retq
.LBB2_1:
	xorl %edx, %edx
	xorl %eax, %eax
	movq %rax, %rcx
	orq %rdx, %rcx
	jne .LBB2_4
	jmp .LBB2_5
.Lfunc_end2:
	.size tag_c.telling.MemberTellingCalls.tell, .Lfunc_end2-tag_c.telling.MemberTellingCalls.tell
	.section .text.tag_bell.telling.tell_each_i64,"ax",@progbits
	.p2align 4
	.type tag_bell.telling.tell_each_i64,@function
tag_bell.telling.tell_each_i64:
	pushq %r14
	pushq %rbx
	subq $24, %rsp
	vxorps %xmm0, %xmm0, %xmm0
	vmovaps %xmm0, (%rsp)
	movq $0, 16(%rsp)
	lzcntq %rdx, %rax
	movl $64, %r8d
	subq %rax, %r8
	xorl %r10d, %r10d
	xorl %eax, %eax
	xorl %r9d, %r9d
	xorl %ecx, %ecx
	jmp .LBB3_1
	.p2align 4
.LBB3_7:
	xorl %r14d, %r14d
	testb $1, %bl
	cmoveq %r11, %r14
	orq %r14, %rax
.LBB3_8:
	incq %r10
	cmpq %r10, %r8
	je .LBB3_9
.LBB3_1:
	btq %r10, %rdx
	jae .LBB3_8
	movl $1, %r11d
	shlxq %r10, %r11, %r11
	movq (%rdi), %rbx
	movq 64(%rbx,%r10,8), %r14
	movl %r14d, %ebx
	shrb $2, %bl
	andl $3, %r14d
	cmpq $2, %r14
	je .LBB3_7
	cmpl $1, %r14d
	jne .LBB3_8
	testb $1, %bl
	jne .LBB3_6
	orq %r11, %rcx
	jmp .LBB3_8
.LBB3_6:
	orq %r11, %r9
	jmp .LBB3_8
.LBB3_9:
	movq %rcx, (%rsp)
	movq %r9, 8(%rsp)
	movq %rax, 16(%rsp)
	testq %r9, %r9
	je .LBB3_10
.LBB3_13:
	movq %rsp, %rdx
	callq tag_bell.telling.tell_listed_i64
	addq $24, %rsp
	popq %rbx
	popq %r14
	retq
.LBB3_10:
	testq %rcx, %rcx
	je .LBB3_11
	popcntq %rax, %rax
	cmpl %eax, 64(%rdi)
	ja .LBB3_13
.LBB3_11:
	xorl %edx, %edx
	xorl %eax, %eax
	addq $24, %rsp
	popq %rbx
	popq %r14
	retq
.Lfunc_end3:
	.size tag_bell.telling.tell_each_i64, .Lfunc_end3-tag_bell.telling.tell_each_i64
	.section .text.tag_bell.telling.tell_listed_i64,"ax",@progbits
	.p2align 4
	.type tag_bell.telling.tell_listed_i64,@function
tag_bell.telling.tell_listed_i64:
	pushq %r15
	pushq %r14
	pushq %r12
	pushq %rbx
	subq $408, %rsp
	movq 16(%rdx), %rcx
	vxorps %xmm0, %xmm0, %xmm0
	vmovaps %xmm0, -128(%rsp)
	movq %rcx, -112(%rsp)
	vxorps %xmm0, %xmm0, %xmm0
	vmovups %ymm0, -104(%rsp)
	vmovups %ymm0, -72(%rsp)
	vmovups %ymm0, -40(%rsp)
	vmovups %ymm0, -8(%rsp)
	vmovups %ymm0, 24(%rsp)
	vmovups %ymm0, 56(%rsp)
	vmovups %ymm0, 88(%rsp)
	vmovups %ymm0, 120(%rsp)
	vmovups %ymm0, 152(%rsp)
	vmovups %ymm0, 184(%rsp)
	vmovups %ymm0, 216(%rsp)
	vmovups %ymm0, 248(%rsp)
	vmovups %ymm0, 280(%rsp)
	vmovups %ymm0, 312(%rsp)
	vmovups %ymm0, 344(%rsp)
	vmovups %ymm0, 376(%rsp)
	movq 8(%rdx), %rax
	orq (%rdx), %rax
	je .LBB4_13
	lzcntq %rax, %rdx
	movl $64, %ecx
	subq %rdx, %rcx
	xorl %edx, %edx
	jmp .LBB4_2
.LBB4_9:
	orq %r8, -120(%rsp)
.LBB4_10:
	shrq $3, %r9
	movq %r9, -104(%rsp,%rdx,8)
.LBB4_11:
	incq %rdx
	cmpq %rdx, %rcx
	je .LBB4_12
.LBB4_2:
	btq %rdx, %rax
	jae .LBB4_11
	movl $1, %r8d
	shlxq %rdx, %r8, %r8
	movq (%rdi), %r9
	movq 64(%r9,%rdx,8), %r9
	movl %r9d, %r10d
	shrb $2, %r10b
	movl %r9d, %r11d
	andl $3, %r11d
	cmpq $2, %r11
	je .LBB4_7
	cmpl $1, %r11d
	jne .LBB4_11
	testb $1, %r10b
	jne .LBB4_9
	orq %r8, -128(%rsp)
	jmp .LBB4_10
	.p2align 4
.LBB4_7:
	testb $1, %r10b
	jne .LBB4_11
	orq %r8, -112(%rsp)
	jmp .LBB4_11
.LBB4_12:
	movq -112(%rsp), %rcx
.LBB4_13:
	cmpl $1, %esi
	adcl $0, %esi
	movl 64(%rdi), %edx
	popcntq %rcx, %rax
	subl %eax, %edx
	setbe %al
	movq -128(%rsp), %r9
	testq %r9, %r9
	sete %cl
	orb %al, %cl
	je .LBB4_15
	xorl %r8d, %r8d
	jmp .LBB4_32
.LBB4_15:
	cmpl %esi, %edx
	cmovael %esi, %edx
	xorl %r8d, %r8d
	.p2align 4
.LBB4_16:
	tzcntq %r9, %rcx
	lzcntq %r9, %rax
	cmpq $63, %rax
	jne .LBB4_18
	xorl %eax, %eax
	jmp .LBB4_28
	.p2align 4
.LBB4_18:
	movl $64, %r10d
	subq %rax, %r10
	movl %r10d, %r11d
	andl $126, %r11d
	xorl %eax, %eax
	jmp .LBB4_19
	.p2align 4
.LBB4_26:
	addq $2, %rax
	cmpq %rax, %r11
	je .LBB4_27
.LBB4_19:
	btq %rax, %r9
	jae .LBB4_23
	movq -104(%rsp,%rax,8), %r14
	movl %ecx, %r15d
	movl %eax, %ebx
	cmpq -104(%rsp,%r15,8), %r14
	jb .LBB4_22
	movl %ecx, %ebx
.LBB4_22:
	movl %ebx, %ecx
.LBB4_23:
	shrxq %rax, %r9, %rbx
	testb $2, %bl
	je .LBB4_26
	movq -96(%rsp,%rax,8), %rbx
	movl %ecx, %r14d
	cmpq -104(%rsp,%r14,8), %rbx
	jae .LBB4_26
	leal 1(%rax), %ecx
	jmp .LBB4_26
	.p2align 4
.LBB4_27:
	testb $1, %r10b
	je .LBB4_30
.LBB4_28:
	btq %rax, %r9
	jae .LBB4_30
	movq -104(%rsp,%rax,8), %r10
	movl %ecx, %r11d
	cmpq -104(%rsp,%r11,8), %r10
	cmovael %ecx, %eax
	movl %eax, %ecx
.LBB4_30:
	movq $-2, %r11
	rolq %cl, %r11
	movl %ecx, %ebx
	movq -104(%rsp,%rbx,8), %r10
	leaq 1(,%r10,8), %rax
	leaq 2(,%r10,8), %r14
	movq (%rdi), %r15
	xorl %r12d, %r12d
	xorl %r10d, %r10d
	lock  cmpxchgq %r14, 64(%r15,%rbx,8)
	movl $1, %eax
	shlxq %rcx, %rax, %rax
	cmoveq %rax, %r12
	sete %al
	orq %r12, %r8
	andq %r11, %r9
	je .LBB4_32
	movb %al, %r10b
	subl %r10d, %edx
	jne .LBB4_16
.LBB4_32:
	movq -120(%rsp), %r9
	xorl %edx, %edx
	testq %r9, %r9
	je .LBB4_49
	.p2align 4
.LBB4_33:
	tzcntq %r9, %rcx
	lzcntq %r9, %rax
	cmpq $63, %rax
	jne .LBB4_35
	xorl %eax, %eax
	jmp .LBB4_45
	.p2align 4
.LBB4_35:
	movl $64, %r10d
	subq %rax, %r10
	movl %r10d, %r11d
	andl $126, %r11d
	xorl %eax, %eax
	jmp .LBB4_36
	.p2align 4
.LBB4_43:
	addq $2, %rax
	cmpq %rax, %r11
	je .LBB4_44
.LBB4_36:
	btq %rax, %r9
	jae .LBB4_40
	movq -104(%rsp,%rax,8), %r14
	movl %ecx, %r15d
	movl %eax, %ebx
	cmpq -104(%rsp,%r15,8), %r14
	jb .LBB4_39
	movl %ecx, %ebx
.LBB4_39:
	movl %ebx, %ecx
.LBB4_40:
	shrxq %rax, %r9, %rbx
	testb $2, %bl
	je .LBB4_43
	movq -96(%rsp,%rax,8), %rbx
	movl %ecx, %r14d
	cmpq -104(%rsp,%r14,8), %rbx
	jae .LBB4_43
	leal 1(%rax), %ecx
	jmp .LBB4_43
	.p2align 4
.LBB4_44:
	testb $1, %r10b
	je .LBB4_47
.LBB4_45:
	btq %rax, %r9
	jae .LBB4_47
	movq -104(%rsp,%rax,8), %r10
	movl %ecx, %r11d
	cmpq -104(%rsp,%r11,8), %r10
	cmovael %ecx, %eax
	movl %eax, %ecx
.LBB4_47:
	movq $-2, %r11
	rolq %cl, %r11
	movl %ecx, %ebx
	movq -104(%rsp,%rbx,8), %r10
	leaq 5(,%r10,8), %rax
	leaq 6(,%r10,8), %r14
	movq (%rdi), %r15
	xorl %r12d, %r12d
	xorl %r10d, %r10d
	lock  cmpxchgq %r14, 64(%r15,%rbx,8)
	movl $1, %eax
	shlxq %rcx, %rax, %rax
	cmoveq %rax, %r12
	sete %al
	orq %r12, %rdx
	andq %r11, %r9
	je .LBB4_49
	movb %al, %r10b
	subl %r10d, %esi
	jne .LBB4_33
.LBB4_49:
	movq %r8, %rax
	addq $408, %rsp
	popq %rbx
	popq %r12
	popq %r14
	popq %r15
	vzeroupper
	retq
.Lfunc_end4:
	.size tag_bell.telling.tell_listed_i64, .Lfunc_end4-tag_bell.telling.tell_listed_i64
	.section .text.tag_c.telling.CachedMemberTellingCalls.tell,"ax",@progbits
	.p2align 4
	.type tag_c.telling.CachedMemberTellingCalls.tell,@function
tag_c.telling.CachedMemberTellingCalls.tell:
	pushq %r15
	pushq %r14
	pushq %r12
	pushq %rbx
	pushq %rax
	movq %rcx, %rbx
	leaq 8(%rdi), %r15
	movq (%rdi), %rax
	leaq 8(%rax), %rcx
	testb $1, %sil
	je .LBB5_1
	movq (%rcx), %rax
	movq 8(%rax), %rax
	testq %rax, %rax
	je .LBB5_5
	movq %rdi, %r14
	movq %rcx, %rdi
	movl %edx, %esi
	movq %rax, %rdx
	callq tag_bell.telling.tell_each_i64
	movq %r14, %rdi
	movq %rax, %r14
	movq %rdx, %r12
	jmp .LBB5_7
.LBB5_1:
	movq 120(%rax), %rax
	movq 8(%rax), %rax
	testq %rax, %rax
	je .LBB5_2
	movq %r15, %rdi
	movq %rcx, %rsi
	callq tag_cache.cache.Cache.give_back_and_tell_i64_core.clone.U64Clone
	movq %rax, %r14
	movq %rdx, %r12
	movq %r12, %rax
	orq %r14, %rax
	jne .LBB5_11
	jmp .LBB5_10
.LBB5_5:
	xorl %r14d, %r14d
	xorl %r12d, %r12d
.LBB5_7:
	movq (%rdi), %rsi
	movq 120(%rsi), %rax
	movq 8(%rax), %rax
	testq %rax, %rax
	je .LBB5_9
	addq $8, %rsi
	movq %r15, %rdi
	xorl %edx, %edx
	callq tag_cache.cache.Cache.give_back_and_tell_i64_core.clone.U64Clone
	orq %rax, %r14
	orq %rdx, %r12
.LBB5_9:
	movq %r12, %rax
	orq %r14, %rax
	je .LBB5_10
.LBB5_11:
	movq %r14, (%rbx)
	movq %r12, 8(%rbx)
	movl $1073741824, %eax
	jmp .LBB5_12
.LBB5_2:
	xorl %r14d, %r14d
	xorl %r12d, %r12d
	movq %r12, %rax
	orq %r14, %rax
	jne .LBB5_11
.LBB5_10:
	xorl %eax, %eax
.LBB5_12:
	addq $8, %rsp
	popq %rbx
	popq %r12
	popq %r14
	popq %r15
	retq
.Lfunc_end5:
	.size tag_c.telling.CachedMemberTellingCalls.tell, .Lfunc_end5-tag_c.telling.CachedMemberTellingCalls.tell
	.section .text.tag_cache.cache.Cache.give_back_and_tell_i64_core.clone.U64Clone,"ax",@progbits
	.p2align 4
	.type tag_cache.cache.Cache.give_back_and_tell_i64_core.clone.U64Clone,@function
tag_cache.cache.Cache.give_back_and_tell_i64_core.clone.U64Clone:
	pushq %r14
	pushq %rbx
	pushq %rax
	movl %edx, %ebx
	movq %rsi, %r14
	callq tag_cache.cache.Cache.give_back_kept_i64_core.clone.U64Clone
	movq 112(%r14), %rcx
	movq 8(%rcx), %rdx
	testq %rdx, %rdx
	je .LBB6_1
	addq $112, %r14
	cmpl %ebx, %eax
	cmoval %eax, %ebx
	movq %r14, %rdi
	movl %ebx, %esi
	callq tag_bell.telling.tell_each_i64
	addq $8, %rsp
	popq %rbx
	popq %r14
	retq
.LBB6_1:
	xorl %edx, %edx
	xorl %eax, %eax
	addq $8, %rsp
	popq %rbx
	popq %r14
	retq
.Lfunc_end6:
	.size tag_cache.cache.Cache.give_back_and_tell_i64_core.clone.U64Clone, .Lfunc_end6-tag_cache.cache.Cache.give_back_and_tell_i64_core.clone.U64Clone
	.section .text.tag_cache.cache.Cache.give_back_kept_i64_core.clone.U64Clone,"ax",@progbits
	.p2align 4
	.type tag_cache.cache.Cache.give_back_kept_i64_core.clone.U64Clone,@function
tag_cache.cache.Cache.give_back_kept_i64_core.clone.U64Clone:
	pushq %r15
	pushq %r14
	pushq %rbx
	movq 16(%rdi), %r14
	testq %r14, %r14
	je .LBB7_4
	movq $0, 16(%rdi)
	movl (%rdi), %edx
	movl 4(%rdi), %eax
	movl %eax, 8(%rdi)
	movl 224(%rsi), %ecx
	movl %ecx, %eax
	subl %edx, %eax
	jbe .LBB7_6
	tzcntq %r14, %rcx
	cmpl %ecx, %eax
	ja .LBB7_12
	shrxq %rax, %r14, %rcx
	xorl %edx, %edx
	jmp .LBB7_7
.LBB7_4:
	xorl %eax, %eax
	popq %rbx
	popq %r14
	popq %r15
	retq
.LBB7_6:
	subl %ecx, %edx
	movq %r14, %rcx
.LBB7_7:
	lzcntq %rcx, %rax
	movl %edx, %ebx
	subl %eax, %ebx
	addl $63, %ebx
	movl 180(%rsi), %r8d
	addq $112, %rsi
	shrxl %r8d, %edx, %eax
	shrxl %r8d, %ebx, %r9d
	cmpl %eax, %r9d
	jne .LBB7_9
	bzhil %r8d, %edx, %edx
	shlxq %rdx, %rcx, %rcx
	movq (%rsi), %rdx
	movl %eax, %eax
	movq %rax, %rsi
	shlq $7, %rsi
	lock  subq %rcx, 576(%rdx,%rsi)
	movq 296(%rdi), %rdx
	popcntq %rcx, %rsi
	notq %rcx
	andq %rcx, (%rdx,%rax,8)
	addq %rsi, 328(%rdi)
	cmpb $0, 260(%rdi)
	je .LBB7_10
	jmp .LBB7_11
.LBB7_9:
	leaq 272(%rdi), %rax
	movq %rdi, %r15
	movq %rsi, %rdi
	movq %rax, %rsi
	movl %ebx, %r8d
	callq tag_pool.clears.masks.words.give_mask_across_i64
	movq %r15, %rdi
	cmpb $0, 260(%rdi)
	jne .LBB7_11
.LBB7_10:
	movl %ebx, 256(%rdi)
.LBB7_11:
	popcntq %r14, %rax
	popq %rbx
	popq %r14
	popq %r15
	retq
.LBB7_12:
	ud2
.Lfunc_end7:
	.size tag_cache.cache.Cache.give_back_kept_i64_core.clone.U64Clone, .Lfunc_end7-tag_cache.cache.Cache.give_back_kept_i64_core.clone.U64Clone
	.section .text.tag_pool.clears.masks.words.give_mask_across_i64,"ax",@progbits
	.p2align 4
	.type tag_pool.clears.masks.words.give_mask_across_i64,@function
tag_pool.clears.masks.words.give_mask_across_i64:
	pushq %rbp
	pushq %r15
	pushq %r14
	pushq %r13
	pushq %r12
	pushq %rbx
	movl 68(%rdi), %eax
	shrxl %eax, %edx, %ebp
	shrxl %eax, %r8d, %r8d
	leal 1(%r8), %r9d
	cmpl %r9d, %ebp
	jae .LBB8_5
	movl 64(%rdi), %r9d
	bzhil %eax, %edx, %r10d
	shlxq %r10, %rcx, %r10
	movl $1, %r11d
	shlxl %eax, %r11d, %r11d
	movl %ebp, %ebx
	movq %rbx, %r14
	shlq $4, %r14
	addq $72, %r14
	subl %ebp, %r8d
	incl %r8d
	jmp .LBB8_2
	.p2align 4
.LBB8_4:
	incq %rbx
	addq $16, %r14
	decl %r8d
	je .LBB8_5
.LBB8_2:
	shlxl %eax, %ebx, %r15d
	movl %r9d, %r12d
	subl %r15d, %r12d
	subl %edx, %r15d
	shrxq %r15, %rcx, %r15
	cmovbq %r10, %r15
	cmpl %r12d, %r11d
	cmovbl %r11d, %r12d
	bzhiq %r12, %r15, %r15
	je .LBB8_4
	movq (%rdi), %r12
	lock  subq %r15, (%r12,%r14,8)
	movq 24(%rsi), %r12
	popcntq %r15, %r13
	notq %r15
	andq %r15, (%r12,%rbx,8)
	addq %r13, 56(%rsi)
	jmp .LBB8_4
.LBB8_5:
	popq %rbx
	popq %r12
	popq %r13
	popq %r14
	popq %r15
	popq %rbp
	retq
.Lfunc_end8:
	.size tag_pool.clears.masks.words.give_mask_across_i64, .Lfunc_end8-tag_pool.clears.masks.words.give_mask_across_i64
	.section .text.tag_c.cached.CachedMember.clear_any,"ax",@progbits
	.p2align 4
	.type tag_c.cached.CachedMember.clear_any,@function
tag_c.cached.CachedMember.clear_any:
	pushq %r15
	pushq %r14
	pushq %rbx
	movl %esi, %ebx
	movq (%rdi), %rsi
	movl $-1, %eax
	cmpl %ebx, 236(%rsi)
	jbe .LBB9_28
	movl 232(%rsi), %eax
	movl %ebx, %ecx
	subl %eax, %ecx
	jb .LBB9_2
	movzbl 284(%rdi), %r8d
	shrxl %r8d, %ecx, %r9d
	movq 304(%rdi), %r10
	bzhil %r8d, %ecx, %ecx
	movl $1, %r8d
	shlxq %rcx, %r8, %rcx
	andq (%r10,%r9,8), %rcx
	jmp .LBB9_4
.LBB9_2:
	movzbl 76(%rdi), %ecx
	shrxl %ecx, %ebx, %r8d
	movq 96(%rdi), %r9
	bzhil %ecx, %ebx, %ecx
	movl $1, %r10d
	shlxq %rcx, %r10, %rcx
	andq (%r9,%r8,8), %rcx
.LBB9_4:
	cmpl %eax, %ebx
	setae %r9b
	movl $-3, %eax
	testq %rcx, %rcx
	setne %r10b
	je .LBB9_28
	leaq 8(%rdi), %r8
	movl %ebx, %ecx
	subl (%r8), %ecx
	cmpl $63, %ecx
	ja .LBB9_7
	movl $1, %r11d
	shlxq %rcx, %r11, %r11
	testq %r11, 24(%rdi)
	je .LBB9_7
.LBB9_28:
	popq %rbx
	popq %r14
	popq %r15
	retq
.LBB9_7:
	addq $8, %rsi
	andb %r10b, %r9b
	je .LBB9_23
	movzbl 20(%rdi), %r9d
	testb %r9b, %r9b
	je .LBB9_10
	movq $-2, %rax
	rolq %cl, %rax
	cmpl $64, %ecx
	movq $-1, %r10
	cmovbq %rax, %r10
	testq %r10, 32(%rdi)
	je .LBB9_22
.LBB9_10:
	cmpl $0, 12(%rdi)
	je .LBB9_21
	testb %r9b, %r9b
	sete %al
	cmpl $64, %ecx
	setb %r10b
	cmpb $0, 47(%rdi)
	jne .LBB9_21
	orb %r10b, %al
	je .LBB9_21
	movl 16(%rdi), %eax
	testl %eax, %eax
	je .LBB9_19
	cmpl $64, %ecx
	jb .LBB9_16
	cmpq $0, 24(%rdi)
	je .LBB9_16
.LBB9_19:
	movq %rdx, %r14
	movq %rdi, %r15
	movq %r8, %rdi
	movl %ebx, %edx
	callq tag_cache.cache.Cache.keep_instead_i64_core.clone.U64Clone
	jmp .LBB9_20
.LBB9_23:
	movq %rdx, %r14
	movq %rdi, %r15
	movq %r8, %rdi
	movl %ebx, %edx
	callq tag_cache.cache.Cache.give_back_i64_core.clone.U64Clone
	movq %r15, %rdi
.LBB9_24:
	xorl %edx, %edx
	movq (%rdi), %rax
	cmpl 232(%rax), %ebx
	jb .LBB9_31
	jmp .LBB9_26
.LBB9_21:
	movq %rdx, %r14
	movq %rdi, %r15
	movq %r8, %rdi
	movl %ebx, %edx
	callq tag_cache.cache.Cache.give_back_i64_core.clone.U64Clone
	movq %r15, %rdi
	movl $1, %edx
	movq (%rdi), %rax
	cmpl 232(%rax), %ebx
	jae .LBB9_26
.LBB9_31:
	movl $1, %esi
	jmp .LBB9_30
.LBB9_22:
	movq %rdx, %r14
	movq %rdi, %r15
	movq %r8, %rdi
	movl %ebx, %edx
	callq tag_cache.cache.Cache.give_back_all_i64_core.clone.U64Clone
.LBB9_20:
	movq %r15, %rdi
	movl %eax, %edx
	movq (%rdi), %rax
	cmpl 232(%rax), %ebx
	jb .LBB9_31
.LBB9_26:
	movq 120(%rax), %rax
	movq 8(%rax), %rax
	testq %rax, %rax
	je .LBB9_27
	xorl %esi, %esi
.LBB9_30:
	movq %r14, %rcx
	popq %rbx
	popq %r14
	popq %r15
	jmp tag_c.telling.CachedMemberTellingCalls.tell
.LBB9_27:
	xorl %eax, %eax
	popq %rbx
	popq %r14
	popq %r15
	retq
.LBB9_16:
	movq %rdx, %r14
	cmpl $64, %ecx
	setb %sil
	testb %r9b, %r9b
	setne %r8b
	movq 24(%rdi), %rdx
	testq %rdx, %rdx
	setne %r9b
	orb %r8b, %r9b
	orb %sil, %r9b
	jne .LBB9_18
	movl %ebx, %ecx
	andl $-64, %ecx
	movl %ecx, 8(%rdi)
	movq $0, 32(%rdi)
	movl %ebx, %ecx
	andl $63, %ecx
	xorl %edx, %edx
.LBB9_18:
	movq $-2, %rsi
	rolq %cl, %rsi
	andq %rsi, 32(%rdi)
	btsq %rcx, %rdx
	movq %rdx, 24(%rdi)
	decl %eax
	movl %eax, 16(%rdi)
	jmp .LBB9_24
.Lfunc_end9:
	.size tag_c.cached.CachedMember.clear_any, .Lfunc_end9-tag_c.cached.CachedMember.clear_any
	.section .text.tag_cache.cache.Cache.keep_instead_i64_core.clone.U64Clone,"ax",@progbits
	.p2align 4
	.type tag_cache.cache.Cache.keep_instead_i64_core.clone.U64Clone,@function
tag_cache.cache.Cache.keep_instead_i64_core.clone.U64Clone:
	pushq %r14
	pushq %rbx
	pushq %rax
	movl %edx, %r14d
	movq %rdi, %rbx
	callq tag_cache.cache.Cache.give_back_kept_i64_core.clone.U64Clone
	cmpb $0, 12(%rbx)
	je .LBB10_2
	movl (%rbx), %ecx
	movq 16(%rbx), %rdx
	jmp .LBB10_6
.LBB10_2:
	movq 16(%rbx), %rdx
	movl (%rbx), %ecx
	testq %rdx, %rdx
	jne .LBB10_6
	movl %r14d, %edx
	subl %ecx, %edx
	cmpl $64, %edx
	jb .LBB10_5
	movl %r14d, %ecx
	andl $-64, %ecx
	movl %ecx, (%rbx)
	movq $0, 24(%rbx)
.LBB10_5:
	xorl %edx, %edx
.LBB10_6:
	subl %ecx, %r14d
	movq $-2, %rsi
	movl %r14d, %ecx
	rolq %cl, %rsi
	andq %rsi, 24(%rbx)
	btsq %r14, %rdx
	movq %rdx, 16(%rbx)
	decl 8(%rbx)
	addq $8, %rsp
	popq %rbx
	popq %r14
	retq
.Lfunc_end10:
	.size tag_cache.cache.Cache.keep_instead_i64_core.clone.U64Clone, .Lfunc_end10-tag_cache.cache.Cache.keep_instead_i64_core.clone.U64Clone
	.section .text.tag_cache.cache.Cache.give_back_all_i64_core.clone.U64Clone,"ax",@progbits
	.p2align 4
	.type tag_cache.cache.Cache.give_back_all_i64_core.clone.U64Clone,@function
tag_cache.cache.Cache.give_back_all_i64_core.clone.U64Clone:
	pushq %rbp
	pushq %r15
	pushq %r14
	pushq %rbx
	pushq %rax
	cmpq $0, 16(%rdi)
	je .LBB11_1
	movq %rdi, %rbx
	movq %rsi, %r14
	movl %edx, %ebp
	callq tag_cache.cache.Cache.give_back_kept_i64_core.clone.U64Clone
	movl %eax, %r15d
	movq %rbx, %rdi
	movq %r14, %rsi
	movl %ebp, %edx
	callq tag_cache.cache.Cache.give_back_i64_core.clone.U64Clone
	movl %r15d, %eax
	incl %eax
	jmp .LBB11_3
.LBB11_1:
	callq tag_cache.cache.Cache.give_back_i64_core.clone.U64Clone
	movl $1, %eax
.LBB11_3:
	addq $8, %rsp
	popq %rbx
	popq %r14
	popq %r15
	popq %rbp
	retq
.Lfunc_end11:
	.size tag_cache.cache.Cache.give_back_all_i64_core.clone.U64Clone, .Lfunc_end11-tag_cache.cache.Cache.give_back_all_i64_core.clone.U64Clone
	.section .text.tag_cache.cache.Cache.give_back_i64_core.clone.U64Clone,"ax",@progbits
	.p2align 4
	.type tag_cache.cache.Cache.give_back_i64_core.clone.U64Clone,@function
tag_cache.cache.Cache.give_back_i64_core.clone.U64Clone:
	movl %edx, %ecx
	subl (%rdi), %ecx
	movq $-2, %rax
	rolq %cl, %rax
	cmpl $64, %ecx
	movq $-1, %rcx
	cmovbq %rax, %rcx
	andq %rcx, 24(%rdi)
	movl %edx, %eax
	subl 224(%rsi), %eax
	jae .LBB12_3
	movq (%rsi), %rax
	movzbl 68(%rdi), %ecx
	shrxl %ecx, %edx, %esi
	bzhil %ecx, %edx, %ecx
	movl $1, %r8d
	shlxq %rcx, %r8, %rcx
	movq %rsi, %r8
	shlq $7, %r8
	lock  addq %rcx, 640(%rax,%r8)
	movq 88(%rdi), %rax
	subq %rcx, (%rax,%rsi,8)
	incq 120(%rdi)
	cmpb $0, 52(%rdi)
	jne .LBB12_5
	movl %edx, 48(%rdi)
	retq
.LBB12_3:
	movq 112(%rsi), %rcx
	movzbl 276(%rdi), %edx
	shrxl %edx, %eax, %esi
	bzhil %edx, %eax, %edx
	movl $1, %r8d
	shlxq %rdx, %r8, %rdx
	movq %rsi, %r8
	shlq $7, %r8
	lock  addq %rdx, 640(%rcx,%r8)
	movq 296(%rdi), %rcx
	subq %rdx, (%rcx,%rsi,8)
	incq 328(%rdi)
	cmpb $0, 260(%rdi)
	jne .LBB12_5
	movl %eax, 256(%rdi)
.LBB12_5:
	retq
.Lfunc_end12:
	.size tag_cache.cache.Cache.give_back_i64_core.clone.U64Clone, .Lfunc_end12-tag_cache.cache.Cache.give_back_i64_core.clone.U64Clone
	.section .text.tag_pool.pool.Pool.check_batch_i64_core.clone.U64Clone,"ax",@progbits
	.p2align 4
	.type tag_pool.pool.Pool.check_batch_i64_core.clone.U64Clone,@function
tag_pool.pool.Pool.check_batch_i64_core.clone.U64Clone:
	leaq -65(%rcx), %r9
	movb $1, %al
	movb $3, %r8b
	cmpq $-64, %r9
	jb .LBB13_15
	movl 224(%rdi), %r8d
	xorl %r9d, %r9d
	.p2align 4
.LBB13_2:
	cmpl %r8d, (%rdx,%r9,4)
	jb .LBB13_14
	incq %r9
	cmpq %r9, %rcx
	jne .LBB13_2
	movl 228(%rdi), %edi
	xorl %r8d, %r8d
	.p2align 4
.LBB13_5:
	cmpl (%rdx,%r8,4), %edi
	jbe .LBB13_14
	incq %r8
	cmpq %r8, %rcx
	jne .LBB13_5
	movl (%rsi), %eax
	xorl %edi, %edi
	.p2align 4
.LBB13_8:
	movl (%rdx,%rdi,4), %r8d
	movl %r8d, %r9d
	subl %eax, %r9d
	jae .LBB13_10
	movzbl 28(%rsi), %r9d
	shrxl %r9d, %r8d, %r10d
	movq 48(%rsi), %r11
	bzhil %r9d, %r8d, %r8d
	jmp .LBB13_11
	.p2align 4
.LBB13_10:
	movzbl 236(%rsi), %r8d
	shrxl %r8d, %r9d, %r10d
	movq 256(%rsi), %r11
	bzhil %r8d, %r9d, %r8d
.LBB13_11:
	movl $1, %r9d
	shlxq %r8, %r9, %r9
	andq (%r11,%r10,8), %r9
	movb $1, %r8b
	testq %r9, %r9
	je .LBB13_39
	incq %rdi
	cmpq %rdi, %rcx
	jne .LBB13_8
	xorl %eax, %eax
	jmp .LBB13_18
.LBB13_14:
	xorl %r8d, %r8d
.LBB13_15:
	movl %r8d, %edx
	retq
.LBB13_16:
	leaq -2(%rax), %rsi
	cmpq $2, %rsi
	movl $2, %edi
	cmovbq %rsi, %rdi
	cmpq $4, %rsi
	movl $4, %r9d
	cmovbq %rsi, %r9
	movl (%rdx,%rax,4), %esi
	movl %r9d, %r9d
	vmovq (%rdx,%r9,4), %xmm0
	vmovq -8(%rdx,%rax,4), %xmm1
	vpshufd $80, %xmm1, %xmm1
	vpblendd $1, %xmm0, %xmm1, %xmm1
	vpinsrd $3, %esi, %xmm1, %xmm1
	movl %edi, %edi
	vpblendd $12, %xmm1, %xmm0, %xmm0
	vpshufd $127, %xmm0, %xmm0
	vpcmpeqd %xmm0, %xmm1, %xmm0
	vmovq (%rdx,%rdi,4), %xmm1
	vmovq (%rdx), %xmm2
	vpunpcklqdq %xmm1, %xmm2, %xmm1
	vmovd %esi, %xmm2
	vpbroadcastd %xmm2, %xmm2
	vpcmpeqd %xmm2, %xmm1, %xmm1
	vpor %xmm0, %xmm1, %xmm0
	vtestps %xmm0, %xmm0
	jne .LBB13_39
	.p2align 4
.LBB13_17:
	incq %rax
	cmpq %rcx, %rax
	je .LBB13_36
.LBB13_18:
	testq %rax, %rax
	je .LBB13_17
	cmpq $2, %rax
	ja .LBB13_22
	movl (%rdx,%rax,4), %esi
	cmpl %esi, (%rdx)
	je .LBB13_39
	cmpl %esi, -4(%rdx,%rax,4)
	jne .LBB13_17
	jmp .LBB13_39
	.p2align 4
.LBB13_22:
	cmpq $8, %rax
	jbe .LBB13_16
	movl (%rdx,%rax,4), %esi
	vmovd %esi, %xmm0
	vpbroadcastd %xmm0, %ymm0
	cmpq $17, %rax
	jae .LBB13_25
	vpcmpeqd -32(%rdx,%rax,4), %ymm0, %ymm1
	vpcmpeqd (%rdx), %ymm0, %ymm0
	vpackssdw %ymm1, %ymm0, %ymm0
	vpmovmskb %ymm0, %esi
	testl %esi, %esi
	je .LBB13_17
	jmp .LBB13_39
.LBB13_25:
	xorl %esi, %esi
	movq %rax, %rdi
	.p2align 4
.LBB13_26:
	vpcmpeqd (%rdx,%rsi,4), %ymm0, %ymm1
	vpcmpeqd 32(%rdx,%rsi,4), %ymm0, %ymm2
	vpackssdw %ymm2, %ymm1, %ymm1
	vpmovmskb %ymm1, %r9d
	testl %r9d, %r9d
	jne .LBB13_28
	addq $16, %rsi
	addq $-16, %rdi
	cmpq $15, %rdi
	ja .LBB13_26
.LBB13_28:
	cmpq $8, %rdi
	jb .LBB13_33
	movq %rax, %rdi
	subq %rsi, %rdi
	leaq (%rdx,%rsi,4), %rsi
	.p2align 4
.LBB13_30:
	vpcmpeqd (%rsi), %ymm0, %ymm1
	vtestps %ymm1, %ymm1
	jne .LBB13_32
	addq $-8, %rdi
	addq $32, %rsi
	cmpq $8, %rdi
	jae .LBB13_30
	jmp .LBB13_33
.LBB13_32:
	cmpq $7, %rdi
	ja .LBB13_39
.LBB13_33:
	vpcmpeqd -32(%rdx,%rax,4), %ymm0, %ymm0
	vtestps %ymm0, %ymm0
	je .LBB13_17
.LBB13_39:
	movb $1, %al
	movl %r8d, %edx
	vzeroupper
	retq
.LBB13_36:
	xorl %r8d, %r8d
	xorl %eax, %eax
	movl %r8d, %edx
	vzeroupper
	retq
.Lfunc_end13:
	.size tag_pool.pool.Pool.check_batch_i64_core.clone.U64Clone, .Lfunc_end13-tag_pool.pool.Pool.check_batch_i64_core.clone.U64Clone
	.section .rodata.cst32,"aM",@progbits,32
	.p2align 5, 0x0
.LCPI14_0:
	.zero 8
	.quad -1
	.quad -1
	.quad -1
	.section .rodata.cst4,"aM",@progbits,4
	.p2align 2, 0x0
.LCPI14_1:
	.long 64
	.section .rodata.cst8,"aM",@progbits,8
	.p2align 3, 0x0
.LCPI14_2:
	.quad 1
	.section .text.tag_c.clears.CachedMemberClearCalls.clear_batch,"ax",@progbits
	.p2align 4
	.type tag_c.clears.CachedMemberClearCalls.clear_batch,@function
tag_c.clears.CachedMemberClearCalls.clear_batch:
	pushq %rbp
	pushq %r15
	pushq %r14
	pushq %r13
	pushq %r12
	pushq %rbx
	pushq %rax
	movq %rcx, %rbx
	movq %rdx, %r14
	movq %rsi, %r12
	movq %rdi, %r15
	movq (%rdi), %rbp
	leaq 8(%rbp), %r13
	leaq 48(%rdi), %rsi
	movq %r13, %rdi
	movq %r12, %rdx
	movq %r14, %rcx
	callq tag_pool.pool.Pool.check_batch_i64_core.clone.U64Clone
	testb %al, %al
	je .LBB14_1
	movzbl %dl, %eax
	leaq .Lswitch.table.tags_library_wait_on_reserved.286(%rip), %rcx
	movl (%rcx,%rax,4), %eax
.LBB14_37:
	addq $8, %rsp
	popq %rbx
	popq %r12
	popq %r13
	popq %r14
	popq %r15
	popq %rbp
	vzeroupper
	retq
.LBB14_1:
	leaq 8(%r15), %rdi
	testq %r14, %r14
	je .LBB14_2
	movl (%rdi), %eax
	xorl %ecx, %ecx
	jmp .LBB14_4
	.p2align 4
.LBB14_7:
	incq %rcx
	cmpq %rcx, %r14
	je .LBB14_8
.LBB14_4:
	movl (%r12,%rcx,4), %edx
	subl %eax, %edx
	cmpl $63, %edx
	ja .LBB14_7
	movq 24(%r15), %rsi
	btq %rdx, %rsi
	jae .LBB14_7
	movl $-3, %eax
	jmp .LBB14_37
.LBB14_8:
	movq 32(%r15), %rsi
	cmpq $4, %r14
	jae .LBB14_11
	xorl %edx, %edx
	jmp .LBB14_10
.LBB14_2:
	movq 32(%r15), %rsi
	jmp .LBB14_21
.LBB14_11:
	vmovd %eax, %xmm0
	cmpq $16, %r14
	jae .LBB14_13
	xorl %edx, %edx
	jmp .LBB14_17
.LBB14_13:
	movq %r14, %rdx
	andq $-16, %rdx
	vmovq %rsi, %xmm1
	vpblendd $252, .LCPI14_0(%rip), %ymm1, %ymm1
	vpbroadcastd %xmm0, %xmm3
	vpcmpeqd %ymm2, %ymm2, %ymm2
	xorl %ecx, %ecx
	vpcmpeqd %ymm4, %ymm4, %ymm4
	vpcmpeqd %ymm5, %ymm5, %ymm5
	.p2align 4
.LBB14_14:
	vmovdqu (%r12,%rcx,4), %xmm6
	vmovdqu 16(%r12,%rcx,4), %xmm7
	vmovdqu 32(%r12,%rcx,4), %xmm8
	vmovdqu 48(%r12,%rcx,4), %xmm9
	vpsubd %xmm3, %xmm6, %xmm6
	vpsubd %xmm3, %xmm7, %xmm7
	vpsubd %xmm3, %xmm8, %xmm8
	vpsubd %xmm3, %xmm9, %xmm9
	vpbroadcastd .LCPI14_1(%rip), %xmm10
	vpmaxud %xmm10, %xmm6, %xmm11
	vpcmpeqd %xmm6, %xmm11, %xmm11
	vpmovsxdq %xmm11, %ymm11
	vpmaxud %xmm10, %xmm7, %xmm12
	vpcmpeqd %xmm7, %xmm12, %xmm12
	vpmovsxdq %xmm12, %ymm12
	vpmaxud %xmm10, %xmm8, %xmm13
	vpcmpeqd %xmm13, %xmm8, %xmm13
	vpmovsxdq %xmm13, %ymm13
	vpmaxud %xmm10, %xmm9, %xmm10
	vpcmpeqd %xmm10, %xmm9, %xmm10
	vpmovsxdq %xmm10, %ymm10
	vpmovzxdq %xmm6, %ymm6
	vpmovzxdq %xmm7, %ymm7
	vpmovzxdq %xmm8, %ymm8
	vpmovzxdq %xmm9, %ymm9
	vpbroadcastq .LCPI14_2(%rip), %ymm14
	vpsllvq %ymm6, %ymm14, %ymm6
	vpandn %ymm6, %ymm11, %ymm6
	vpandn %ymm1, %ymm6, %ymm1
	vpsllvq %ymm7, %ymm14, %ymm6
	vpandn %ymm6, %ymm12, %ymm6
	vpandn %ymm2, %ymm6, %ymm2
	vpsllvq %ymm8, %ymm14, %ymm6
	vpandn %ymm6, %ymm13, %ymm6
	vpandn %ymm4, %ymm6, %ymm4
	vpsllvq %ymm9, %ymm14, %ymm6
	vpandn %ymm6, %ymm10, %ymm6
	vpandn %ymm5, %ymm6, %ymm5
	addq $16, %rcx
	cmpq %rcx, %rdx
	jne .LBB14_14
	vpand %ymm1, %ymm2, %ymm1
	vpand %ymm4, %ymm5, %ymm2
	vpand %ymm1, %ymm2, %ymm1
	vextracti128 $1, %ymm1, %xmm2
	vpand %xmm2, %xmm1, %xmm1
	vpshufd $238, %xmm1, %xmm2
	vpand %xmm2, %xmm1, %xmm1
	vmovq %xmm1, %rsi
	cmpq %rdx, %r14
	je .LBB14_21
	testb $12, %r14b
	je .LBB14_10
.LBB14_17:
	movq %rdx, %rcx
	movq %r14, %rdx
	andq $-4, %rdx
	vmovq %rsi, %xmm1
	vpblendd $252, .LCPI14_0(%rip), %ymm1, %ymm1
	vpbroadcastd %xmm0, %xmm0
	.p2align 4
.LBB14_18:
	vmovdqu (%r12,%rcx,4), %xmm2
	vpbroadcastd .LCPI14_1(%rip), %xmm3
	vpsubd %xmm0, %xmm2, %xmm2
	vpmaxud %xmm3, %xmm2, %xmm3
	vpcmpeqd %xmm3, %xmm2, %xmm3
	vpmovsxdq %xmm3, %ymm3
	vpmovzxdq %xmm2, %ymm2
	vpbroadcastq .LCPI14_2(%rip), %ymm4
	vpsllvq %ymm2, %ymm4, %ymm2
	vpandn %ymm2, %ymm3, %ymm2
	vpandn %ymm1, %ymm2, %ymm1
	addq $4, %rcx
	cmpq %rcx, %rdx
	jne .LBB14_18
	vextracti128 $1, %ymm1, %xmm0
	vpand %xmm0, %xmm1, %xmm0
	vpshufd $238, %xmm0, %xmm1
	vpand %xmm1, %xmm0, %xmm0
	vmovq %xmm0, %rsi
	jmp .LBB14_20
.LBB14_10:
	movl (%r12,%rdx,4), %ecx
	subl %eax, %ecx
	movq $-2, %r8
	rolq %cl, %r8
	cmpl $64, %ecx
	movq $-1, %rcx
	cmovbq %r8, %rcx
	andq %rcx, %rsi
	incq %rdx
.LBB14_20:
	cmpq %rdx, %r14
	jne .LBB14_10
.LBB14_21:
	testq %rsi, %rsi
	jne .LBB14_23
	cmpb $0, 20(%r15)
	je .LBB14_23
	movq %r13, %rsi
	xorl %edx, %edx
	movq %r12, %rcx
	movq %r14, %r8
	vzeroupper
	callq tag_cache.cache.Cache.give_back_kept_and_list_i64_core.clone.U64Clone
	movl %eax, %r14d
	jmp .LBB14_33
.LBB14_23:
	movq %rsi, 32(%r15)
	movl 188(%rbp), %ecx
	movl 232(%rbp), %eax
	movl (%r12), %edx
	subl %eax, %edx
	shrxl %ecx, %edx, %edx
	testq %r14, %r14
	je .LBB14_24
	movl $-1, %esi
	shlxl %ecx, %esi, %esi
	notl %esi
	xorl %r9d, %r9d
	xorl %r8d, %r8d
	jmp .LBB14_26
	.p2align 4
.LBB14_28:
	movq 120(%rbp), %r11
	movl %edx, %edx
	movq %rdx, %r13
	shlq $7, %r13
	lock  subq %r9, 576(%r11,%r13)
	movq 304(%r15), %r11
	popcntq %r9, %r13
	notq %r9
	andq %r9, (%r11,%rdx,8)
	addq %r13, 336(%r15)
	movl %r10d, %edx
	incq %r8
	movq %rdi, %r9
	cmpq %r8, %r14
	je .LBB14_30
.LBB14_26:
	movl (%r12,%r8,4), %edi
	subl %eax, %edi
	shrxl %ecx, %edi, %r10d
	andl %esi, %edi
	movl $1, %r11d
	shlxq %rdi, %r11, %rdi
	cmpl %edx, %r10d
	jne .LBB14_28
	orq %r9, %rdi
	incq %r8
	movq %rdi, %r9
	cmpq %r8, %r14
	jne .LBB14_26
	jmp .LBB14_30
.LBB14_24:
	xorl %edi, %edi
.LBB14_30:
	movq 120(%rbp), %rcx
	movl %edx, %edx
	movq %rdx, %rsi
	shlq $7, %rsi
	lock  subq %rdi, 576(%rcx,%rsi)
	movq 304(%r15), %rcx
	popcntq %rdi, %rsi
	notq %rdi
	andq %rdi, (%rcx,%rdx,8)
	addq %rsi, 336(%r15)
	cmpb $0, 268(%r15)
	jne .LBB14_33
	movl -4(%r12,%r14,4), %ecx
	subl %eax, %ecx
	movl %ecx, 264(%r15)
.LBB14_33:
	movq (%r15), %rax
	movq 120(%rax), %rax
	movq 8(%rax), %rax
	testq %rax, %rax
	je .LBB14_34
	movq %r15, %rdi
	xorl %esi, %esi
	movl %r14d, %edx
	movq %rbx, %rcx
	addq $8, %rsp
	popq %rbx
	popq %r12
	popq %r13
	popq %r14
	popq %r15
	popq %rbp
	vzeroupper
	jmp tag_c.telling.CachedMemberTellingCalls.tell
.LBB14_34:
	xorl %eax, %eax
	jmp .LBB14_37
.Lfunc_end14:
	.size tag_c.clears.CachedMemberClearCalls.clear_batch, .Lfunc_end14-tag_c.clears.CachedMemberClearCalls.clear_batch
	.section .text.tag_cache.cache.Cache.give_back_kept_and_list_i64_core.clone.U64Clone,"ax",@progbits
	.p2align 4
	.type tag_cache.cache.Cache.give_back_kept_and_list_i64_core.clone.U64Clone,@function
tag_cache.cache.Cache.give_back_kept_and_list_i64_core.clone.U64Clone:
	pushq %rbp
	pushq %r15
	pushq %r14
	pushq %r13
	pushq %r12
	pushq %rbx
	pushq %rax
	movq %r8, %rbx
	movq %rcx, %r15
	movq %rdx, %r13
	movq %rsi, %r12
	movq %rdi, %r14
	callq tag_cache.cache.Cache.give_back_kept_i64_core.clone.U64Clone
	movq %r13, 24(%r14)
	movl 180(%r12), %edx
	movl 224(%r12), %ecx
	movl (%r15), %esi
	subl %ecx, %esi
	shrxl %edx, %esi, %esi
	testq %rbx, %rbx
	je .LBB15_1
	movl $-1, %edi
	shlxl %edx, %edi, %edi
	notl %edi
	xorl %r10d, %r10d
	xorl %r9d, %r9d
	jmp .LBB15_3
	.p2align 4
.LBB15_4:
	orq %r10, %r8
	incq %r9
	movq %r8, %r10
	cmpq %r9, %rbx
	je .LBB15_7
.LBB15_3:
	movl (%r15,%r9,4), %r8d
	subl %ecx, %r8d
	shrxl %edx, %r8d, %r11d
	andl %edi, %r8d
	movl $1, %r13d
	shlxq %r8, %r13, %r8
	cmpl %esi, %r11d
	je .LBB15_4
	movq 112(%r12), %r13
	movl %esi, %esi
	movq %rsi, %rbp
	shlq $7, %rbp
	lock  subq %r10, 576(%r13,%rbp)
	movq 296(%r14), %r13
	popcntq %r10, %rbp
	notq %r10
	andq %r10, (%r13,%rsi,8)
	addq %rbp, 328(%r14)
	movl %r11d, %esi
	incq %r9
	movq %r8, %r10
	cmpq %r9, %rbx
	jne .LBB15_3
	jmp .LBB15_7
.LBB15_1:
	xorl %r8d, %r8d
.LBB15_7:
	movq 112(%r12), %rdx
	movl %esi, %esi
	movq %rsi, %rdi
	shlq $7, %rdi
	lock  subq %r8, 576(%rdx,%rdi)
	movq 296(%r14), %rdx
	popcntq %r8, %rdi
	notq %r8
	andq %r8, (%rdx,%rsi,8)
	addq %rdi, 328(%r14)
	cmpb $0, 260(%r14)
	jne .LBB15_9
	movl -4(%r15,%rbx,4), %edx
	subl %ecx, %edx
	movl %edx, 256(%r14)
.LBB15_9:
	addl %ebx, %eax
	addq $8, %rsp
	popq %rbx
	popq %r12
	popq %r13
	popq %r14
	popq %r15
	popq %rbp
	retq
.Lfunc_end15:
	.size tag_cache.cache.Cache.give_back_kept_and_list_i64_core.clone.U64Clone, .Lfunc_end15-tag_cache.cache.Cache.give_back_kept_and_list_i64_core.clone.U64Clone
	.section .text.tag_pool.clears.masks.words.are_held_across_i64,"ax",@progbits
	.p2align 4
	.type tag_pool.clears.masks.words.are_held_across_i64,@function
tag_pool.clears.masks.words.are_held_across_i64:
	pushq %r14
	pushq %rbx
	shrxl %esi, %ecx, %r11d
	shrxl %esi, %r9d, %ebx
	incl %ebx
	movb $1, %al
	cmpl %ebx, %r11d
	jae .LBB16_4
	bzhil %esi, %ecx, %eax
	shlxq %rax, %r8, %r9
	movl $1, %eax
	shlxl %esi, %eax, %r10d
	movq 24(%rdx), %rdx
	movl %r11d, %r11d
	movl %ebx, %ebx
	decq %rbx
	.p2align 4
.LBB16_2:
	shlxl %esi, %r11d, %eax
	movl %edi, %r14d
	subl %eax, %r14d
	subl %ecx, %eax
	shrxq %rax, %r8, %rax
	cmovbq %r9, %rax
	cmpl %r14d, %r10d
	cmovbl %r10d, %r14d
	bzhiq %r14, %rax, %rax
	movq (%rdx,%r11,8), %r14
	andq %rax, %r14
	cmpq %rax, %r14
	sete %al
	jne .LBB16_4
	cmpq %r11, %rbx
	leaq 1(%r11), %r11
	jne .LBB16_2
.LBB16_4:
	popq %rbx
	popq %r14
	retq
.Lfunc_end16:
	.size tag_pool.clears.masks.words.are_held_across_i64, .Lfunc_end16-tag_pool.clears.masks.words.are_held_across_i64
	.section .text.tag_c.masks.CachedMemberMaskCalls.clear_mask,"ax",@progbits
	.p2align 4
	.type tag_c.masks.CachedMemberMaskCalls.clear_mask,@function
tag_c.masks.CachedMemberMaskCalls.clear_mask:
	pushq %rbp
	pushq %r15
	pushq %r14
	pushq %r12
	pushq %rbx
	testq %rdx, %rdx
	je .LBB17_1
	movq (%rdi), %rbx
	movl 232(%rbx), %eax
	movl %eax, %r8d
	subl %esi, %r8d
	jbe .LBB17_3
	tzcntq %rdx, %r9
	movl $-1, %eax
	cmpl %r9d, %r8d
	ja .LBB17_29
	shrxq %r8, %rdx, %r8
	xorl %r11d, %r11d
	movl 184(%rbx), %r10d
	movl $-1, %eax
	cmpl %r11d, %r10d
	ja .LBB17_7
	jmp .LBB17_29
.LBB17_1:
	movl $-5, %eax
	jmp .LBB17_29
.LBB17_3:
	movl %esi, %r11d
	subl %eax, %r11d
	movq %rdx, %r8
	movl 184(%rbx), %r10d
	movl $-1, %eax
	cmpl %r11d, %r10d
	jbe .LBB17_29
.LBB17_7:
	lzcntq %r8, %r14
	movl %r11d, %r9d
	subl %r14d, %r9d
	addl $63, %r9d
	cmpl %r9d, %r10d
	jbe .LBB17_29
	movl 188(%rbx), %eax
	shrxl %eax, %r11d, %ebp
	shrxl %eax, %r9d, %r14d
	cmpl %ebp, %r14d
	jne .LBB17_9
	bzhil %eax, %r11d, %eax
	shlxq %rax, %r8, %rax
	movq 304(%rdi), %r8
	movl %ebp, %r9d
	movq (%r8,%r9,8), %r8
	andnq %rax, %r8, %rax
	movl $-3, %eax
	je .LBB17_11
	jmp .LBB17_29
.LBB17_9:
	leaq 280(%rdi), %r14
	movq %rdi, %r15
	movl %r10d, %edi
	movl %esi, %ebp
	movl %eax, %esi
	movq %rdx, %r12
	movq %r14, %rdx
	movq %rcx, %r14
	movl %r11d, %ecx
	callq tag_pool.clears.masks.words.are_held_across_i64
	movl %ebp, %esi
	movq %r12, %rdx
	movq %r15, %rdi
	movq %r14, %rcx
	movl %eax, %r8d
	movl $-3, %eax
	testb %r8b, %r8b
	je .LBB17_29
.LBB17_11:
	leaq 8(%rdi), %r8
	movl (%r8), %r10d
	movl %esi, %eax
	subl %r10d, %eax
	movl %r10d, %r11d
	subl %esi, %r11d
	movl %r11d, %ebp
	cmovbl %eax, %ebp
	movq $-1, %r9
	cmpl $63, %ebp
	ja .LBB17_14
	cmpl %esi, %r10d
	shrxq %r11, %rdx, %r10
	shlxq %rax, %rdx, %r9
	cmovaeq %r10, %r9
	movl $-3, %eax
	testq %r9, 24(%rdi)
	jne .LBB17_29
	notq %r9
.LBB17_14:
	andq 32(%rdi), %r9
	jne .LBB17_16
	cmpb $0, 20(%rdi)
	je .LBB17_16
	addq $8, %rbx
	movq %rdi, %r14
	movq %r8, %rdi
	movl %esi, %eax
	movq %rbx, %rsi
	movq %rdx, %r8
	xorl %edx, %edx
	movq %rcx, %rbx
	movl %eax, %ecx
	callq tag_cache.cache.Cache.give_back_kept_and_mask_i64_core.clone.U64Clone
	movq %r14, %rdi
	movq %rbx, %rcx
	movl %eax, %edx
	jmp .LBB17_27
.LBB17_16:
	movq %r9, 32(%rdi)
	movl 232(%rbx), %r8d
	movl %r8d, %eax
	subl %esi, %eax
	jbe .LBB17_17
	tzcntq %rdx, %rsi
	cmpl %esi, %eax
	ja .LBB17_30
	shrxq %rax, %rdx, %rax
	xorl %esi, %esi
	jmp .LBB17_20
.LBB17_17:
	subl %r8d, %esi
	movq %rdx, %rax
.LBB17_20:
	lzcntq %rax, %r8
	movl %esi, %ebp
	subl %r8d, %ebp
	addl $63, %ebp
	movl 188(%rbx), %r9d
	addq $120, %rbx
	shrxl %r9d, %esi, %r8d
	shrxl %r9d, %ebp, %r10d
	cmpl %r8d, %r10d
	jne .LBB17_21
	bzhil %r9d, %esi, %esi
	shlxq %rsi, %rax, %rax
	movq (%rbx), %rsi
	movl %r8d, %r8d
	movq %r8, %r9
	shlq $7, %r9
	lock  subq %rax, 576(%rsi,%r9)
	movq 304(%rdi), %rsi
	popcntq %rax, %r9
	notq %rax
	andq %rax, (%rsi,%r8,8)
	addq %r9, 336(%rdi)
	jmp .LBB17_23
.LBB17_21:
	leaq 280(%rdi), %r8
	movq %rdi, %r14
	movq %rbx, %rdi
	movl %esi, %r9d
	movq %r8, %rsi
	movq %rdx, %rbx
	movl %r9d, %edx
	movq %rcx, %r15
	movq %rax, %rcx
	movl %ebp, %r8d
	callq tag_pool.clears.masks.words.give_mask_across_i64
	movq %rbx, %rdx
	movq %r14, %rdi
	movq %r15, %rcx
.LBB17_23:
	cmpb $0, 268(%rdi)
	jne .LBB17_25
	movl %ebp, 264(%rdi)
.LBB17_25:
	popcntq %rdx, %rdx
.LBB17_27:
	movq (%rdi), %rax
	movq 120(%rax), %rax
	movq 8(%rax), %rax
	testq %rax, %rax
	je .LBB17_28
	xorl %esi, %esi
	popq %rbx
	popq %r12
	popq %r14
	popq %r15
	popq %rbp
	jmp tag_c.telling.CachedMemberTellingCalls.tell
.LBB17_28:
	xorl %eax, %eax
.LBB17_29:
	popq %rbx
	popq %r12
	popq %r14
	popq %r15
	popq %rbp
	retq
.LBB17_30:
	ud2
.Lfunc_end17:
	.size tag_c.masks.CachedMemberMaskCalls.clear_mask, .Lfunc_end17-tag_c.masks.CachedMemberMaskCalls.clear_mask
	.section .text.tag_cache.cache.Cache.give_back_kept_and_mask_i64_core.clone.U64Clone,"ax",@progbits
	.p2align 4
	.type tag_cache.cache.Cache.give_back_kept_and_mask_i64_core.clone.U64Clone,@function
tag_cache.cache.Cache.give_back_kept_and_mask_i64_core.clone.U64Clone:
	pushq %rbp
	pushq %r15
	pushq %r14
	pushq %r12
	pushq %rbx
	movq %r8, %rbx
	movl %ecx, %ebp
	movq %rdx, %r12
	movq %rsi, %r15
	movq %rdi, %r14
	callq tag_cache.cache.Cache.give_back_kept_i64_core.clone.U64Clone
	movq %r12, 24(%r14)
	movl 224(%r15), %edx
	movl %edx, %ecx
	subl %ebp, %ecx
	jbe .LBB18_1
	tzcntq %rbx, %rdx
	cmpl %edx, %ecx
	ja .LBB18_10
	shrxq %rcx, %rbx, %rcx
	xorl %ebp, %ebp
	jmp .LBB18_4
.LBB18_1:
	subl %edx, %ebp
	movq %rbx, %rcx
.LBB18_4:
	lzcntq %rcx, %rdx
	movl %ebp, %r12d
	subl %edx, %r12d
	addl $63, %r12d
	movl 180(%r15), %esi
	addq $112, %r15
	shrxl %esi, %ebp, %edx
	shrxl %esi, %r12d, %edi
	cmpl %edx, %edi
	jne .LBB18_5
	bzhil %esi, %ebp, %esi
	shlxq %rsi, %rcx, %rcx
	movq (%r15), %rsi
	movl %edx, %edx
	movq %rdx, %rdi
	shlq $7, %rdi
	lock  subq %rcx, 576(%rsi,%rdi)
	movq 296(%r14), %rsi
	popcntq %rcx, %rdi
	notq %rcx
	andq %rcx, (%rsi,%rdx,8)
	addq %rdi, 328(%r14)
	cmpb $0, 260(%r14)
	je .LBB18_8
	jmp .LBB18_9
.LBB18_5:
	leaq 272(%r14), %rsi
	movq %r15, %rdi
	movl %ebp, %edx
	movl %r12d, %r8d
	movl %eax, %ebp
	callq tag_pool.clears.masks.words.give_mask_across_i64
	movl %ebp, %eax
	cmpb $0, 260(%r14)
	jne .LBB18_9
.LBB18_8:
	movl %r12d, 256(%r14)
.LBB18_9:
	popcntq %rbx, %rcx
	addl %ecx, %eax
	popq %rbx
	popq %r12
	popq %r14
	popq %r15
	popq %rbp
	retq
.LBB18_10:
	ud2
.Lfunc_end18:
	.size tag_cache.cache.Cache.give_back_kept_and_mask_i64_core.clone.U64Clone, .Lfunc_end18-tag_cache.cache.Cache.give_back_kept_and_mask_i64_core.clone.U64Clone
	.section .text.tag_c.flush.CachedMemberFlushCalls.flush,"ax",@progbits
	.p2align 4
	.type tag_c.flush.CachedMemberFlushCalls.flush,@function
tag_c.flush.CachedMemberFlushCalls.flush:
	pushq %rbp
	pushq %r15
	pushq %r14
	pushq %rbx
	pushq %rax
	movq %rsi, %rbx
	movq %rdi, %r15
	leaq 8(%rdi), %r14
	movq (%rdi), %rsi
	addq $8, %rsi
	movq %r14, %rdi
	callq tag_cache.cache.Cache.give_back_kept_i64_core.clone.U64Clone
	movq (%r15), %rsi
	movq 120(%rsi), %rcx
	movq 8(%rcx), %rcx
	testq %rcx, %rcx
	je .LBB19_1
	addq $8, %rsi
	movq %r14, %rdi
	movl %eax, %edx
	movl %eax, %ebp
	callq tag_cache.cache.Cache.give_back_and_tell_i64_core.clone.U64Clone
	movq %rax, %rcx
	movl %ebp, %eax
	movq %rdx, %rsi
	orq %rcx, %rsi
	je .LBB19_5
.LBB19_4:
	movq %rcx, (%rbx)
	movq %rdx, 8(%rbx)
	orl $1073741824, %eax
.LBB19_5:
	addq $8, %rsp
	popq %rbx
	popq %r14
	popq %r15
	popq %rbp
	retq
.LBB19_1:
	xorl %ecx, %ecx
	xorl %edx, %edx
	movq %rdx, %rsi
	orq %rcx, %rsi
	jne .LBB19_4
	jmp .LBB19_5
.Lfunc_end19:
	.size tag_c.flush.CachedMemberFlushCalls.flush, .Lfunc_end19-tag_c.flush.CachedMemberFlushCalls.flush
	.section .text.tag_c.gets.MemberGetCalls.get,"ax",@progbits
	.p2align 4
	.type tag_c.gets.MemberGetCalls.get,@function
tag_c.gets.MemberGetCalls.get:
	pushq %r15
	pushq %r14
	pushq %rbx
	movq 256(%rdi), %rax
	cmpq 288(%rdi), %rax
	jne .LBB20_1
.LBB20_11:
	popq %rbx
	popq %r14
	popq %r15
	jmp tag_c.member.Member.get_whole
.LBB20_1:
	movq (%rdi), %rax
	movl 184(%rax), %edx
	movl 224(%rdi), %r8d
	cmpl %r8d, %edx
	jbe .LBB20_11
	testb $1, 228(%rdi)
	jne .LBB20_11
	movl 188(%rax), %ecx
	shrxl %ecx, %r8d, %r9d
	movq 120(%rax), %r8
	movq %r9, %r10
	shlq $7, %r10
	movq 576(%r8,%r10), %r8
	notq %r8
	tzcntq %r8, %r11
	shrxl %ecx, %r11d, %r8d
	testl %r8d, %r8d
	jne .LBB20_12
	shlxl %ecx, %r9d, %ecx
	addl %r11d, %ecx
	cmpl %ecx, %edx
	jbe .LBB20_12
	movq 120(%rax), %r14
	movl $1, %eax
	shlxq %r11, %rax, %rbx
	.p2align 4
.LBB20_6:
	movq 576(%r14,%r10), %r8
	movq %r8, %r15
	orq %rbx, %r15
	movq %r8, %rax
	lock  cmpxchgq %r15, 576(%r14,%r10)
	jne .LBB20_6
	testq %rbx, %r8
	je .LBB20_8
	leal 1(%r11), %edx
	movq %r8, %rcx
	popq %rbx
	popq %r14
	popq %r15
	jmp tag_c.member.Member.get_past_lost
.LBB20_12:
	popq %rbx
	popq %r14
	popq %r15
	jmp tag_c.member.Member.get_past_full
.LBB20_8:
	movq 264(%rdi), %rax
	orq %rbx, (%rax,%r9,8)
	incq 288(%rdi)
	cmpl 224(%rdi), %ecx
	jne .LBB20_10
	leal 1(%rcx), %eax
	decl %edx
	xorl %esi, %esi
	cmpl %edx, %eax
	cmovbl %eax, %esi
	movl %esi, 224(%rdi)
.LBB20_10:
	addl 8(%rdi), %ecx
	movl %ecx, %eax
	popq %rbx
	popq %r14
	popq %r15
	retq
.Lfunc_end20:
	.size tag_c.gets.MemberGetCalls.get, .Lfunc_end20-tag_c.gets.MemberGetCalls.get
	.section .text.tag_search.shared.SharedPort.claim_one_i64,"ax",@progbits
	.p2align 4
	.type tag_search.shared.SharedPort.claim_one_i64,@function
tag_search.shared.SharedPort.claim_one_i64:
	movl $1, %eax
	shlxq %rcx, %rax, %rcx
	movl %edx, %r8d
	movq %r8, %r9
	shlq $7, %r9
	.p2align 4
.LBB21_1:
	movq 576(%rdi,%r9), %rdx
	movq %rdx, %r10
	orq %rcx, %r10
	movq %rdx, %rax
	lock  cmpxchgq %r10, 576(%rdi,%r9)
	jne .LBB21_1
	movb $1, %al
	testq %rcx, %rdx
	je .LBB21_3
	retq
.LBB21_3:
	movq 24(%rsi), %rax
	orq %rcx, (%rax,%r8,8)
	incq 48(%rsi)
	xorl %edx, %edx
	xorl %eax, %eax
	retq
.Lfunc_end21:
	.size tag_search.shared.SharedPort.claim_one_i64, .Lfunc_end21-tag_search.shared.SharedPort.claim_one_i64
	.section .text.tag_c.member.Member.get_whole,"ax",@progbits
	.p2align 4
	.type tag_c.member.Member.get_whole,@function
tag_c.member.Member.get_whole:
	pushq %rbp
	pushq %r15
	pushq %r14
	pushq %r13
	pushq %r12
	pushq %rbx
	subq $40, %rsp
	movq (%rdi), %r15
	vxorps %xmm0, %xmm0, %xmm0
	vmovaps %xmm0, 16(%rsp)
	vmovaps %xmm0, (%rsp)
	movq 256(%rdi), %rax
	cmpq 288(%rdi), %rax
	jne .LBB22_1
	movl $-7, %eax
	jmp .LBB22_21
.LBB22_1:
	movq %rsi, %rbx
	movq %rdi, %r14
	leaq 224(%rdi), %rcx
	leaq 120(%r15), %rsi
	movl 184(%r15), %edx
	movl 224(%rdi), %r9d
	xorl %eax, %eax
	cmpl %r9d, %edx
	jbe .LBB22_4
	testb $1, 228(%r14)
	movl $0, %r8d
	movl $0, %edi
	jne .LBB22_10
	movl 188(%r15), %edi
	shrxl %edi, %r9d, %r8d
	movq (%rsi), %rax
	movq %r8, %r9
	shlq $7, %r9
	movq 576(%rax,%r9), %rax
	notq %rax
	tzcntq %rax, %r10
	shrxl %edi, %r10d, %r11d
	movl $1, %eax
	testl %r11d, %r11d
	jne .LBB22_4
	shlxl %edi, %r8d, %r11d
	addl %r10d, %r11d
	cmpl %r11d, %edx
	jbe .LBB22_4
	movq (%rsi), %r13
	movl $1, %eax
	shlxq %r10, %rax, %r12
	.p2align 4
.LBB22_7:
	movq 576(%r13,%r9), %rdi
	movq %rdi, %rbp
	orq %r12, %rbp
	movq %rdi, %rax
	lock  cmpxchgq %rbp, 576(%r13,%r9)
	jne .LBB22_7
	testq %r12, %rdi
	je .LBB22_12
	leal 1(%r10), %r8d
	movl $2, %eax
	jmp .LBB22_10
.LBB22_4:
	xorl %r8d, %r8d
	xorl %edi, %edi
.LBB22_10:
	leaq 240(%r14), %rdx
	movl %eax, (%rsp)
	movl %r8d, 4(%rsp)
	movq %rdi, 8(%rsp)
	leaq 16(%rsp), %rdi
	movq %rsp, %r8
	callq tag_search.on_map.finish_i64
	movq 24(%rsp), %rcx
	movl $-10, %eax
	cmpb $1, 16(%rsp)
	jne .LBB22_16
	movl 20(%rsp), %eax
.LBB22_15:
	addl 232(%r15), %eax
.LBB22_16:
	testq %rcx, %rcx
	je .LBB22_21
	movq (%r14), %rdi
	movq 120(%rdi), %rdx
	movq 8(%rdx), %rdx
	testq %rdx, %rdx
	je .LBB22_18
	addq $120, %rdi
	cmpq $64, %rcx
	movl $64, %esi
	cmovbq %rcx, %rsi
	movq %rax, %r14
	callq tag_bell.telling.tell_each_i64
	movq %rax, %rcx
	movq %r14, %rax
	jmp .LBB22_20
.LBB22_18:
	xorl %edx, %edx
	xorl %ecx, %ecx
.LBB22_20:
	movq %rcx, (%rbx)
	movq %rdx, 8(%rbx)
	addl $1073741824, %eax
.LBB22_21:
	addq $40, %rsp
	popq %rbx
	popq %r12
	popq %r13
	popq %r14
	popq %r15
	popq %rbp
	retq
.LBB22_12:
	movq 264(%r14), %rax
	orq %r12, (%rax,%r8,8)
	incq 288(%r14)
	movq %r11, %rax
	cmpl 224(%r14), %eax
	jne .LBB22_14
	leal 1(%rax), %esi
	decl %edx
	xorl %edi, %edi
	cmpl %edx, %esi
	cmovbl %esi, %edi
	movl %edi, (%rcx)
.LBB22_14:
	xorl %ecx, %ecx
	jmp .LBB22_15
.Lfunc_end22:
	.size tag_c.member.Member.get_whole, .Lfunc_end22-tag_c.member.Member.get_whole
	.section .text.tag_search.on_map.finish_i64,"ax",@progbits
	.p2align 4
	.type tag_search.on_map.finish_i64,@function
tag_search.on_map.finish_i64:
	pushq %rbp
	pushq %r15
	pushq %r14
	pushq %r13
	pushq %r12
	pushq %rbx
	subq $72, %rsp
	movq %rcx, %r14
	movq %rdx, %rax
	movq %rdi, %rbx
	movzbl (%r8), %edi
	movl 4(%r8), %edx
	movq 8(%r8), %r9
	vxorps %xmm0, %xmm0, %xmm0
	vmovups %xmm0, 24(%rsp)
	movq $0, 40(%rsp)
	movq %rsi, 8(%rsp)
	movq %rax, 16(%rsp)
	movl 64(%rsi), %r8d
	movl 68(%rsi), %ecx
	cmpl $2, %edi
	je .LBB23_50
	cmpl $1, %edi
	jne .LBB23_2
	movl (%r14), %r10d
	shrxl %ecx, %r10d, %ebp
	shlxl %ecx, %ebp, %r15d
	movl $1, %eax
	movl %ecx, 52(%rsp)
	shlxl %ecx, %eax, %eax
	movl %r8d, %r13d
	subl %r15d, %r13d
	cmpl %r13d, %eax
	cmovbl %eax, %r13d
	movq %rbp, %r12
	shlq $7, %r12
	movzbl 4(%r14), %r11d
	movq (%rsi), %rax
	movq 640(%rax,%r12), %rax
	cmpl %r15d, %r8d
	movl %r8d, 4(%rsp)
	jne .LBB23_4
	testq %rax, %rax
	je .LBB23_10
	movq 8(%rsp), %rax
	movq 16(%rsp), %rcx
	movq (%rax), %rdx
	xorl %esi, %esi
	xchgq %rsi, 640(%rdx,%r12)
	testq %rsi, %rsi
	jne .LBB23_6
.LBB23_10:
	movq 8(%rsp), %rax
	movq (%rax), %rax
	movq 576(%rax,%r12), %rax
	movq 8(%rsp), %rax
	movq (%rax), %rax
	movq 640(%rax,%r12), %rax
	testq %rax, %rax
	je .LBB23_12
	movq 8(%rsp), %rax
	movq 16(%rsp), %rcx
	movq (%rax), %rdx
	xorl %esi, %esi
	xchgq %rsi, 640(%rdx,%r12)
	testq %rsi, %rsi
	jne .LBB23_6
.LBB23_12:
	movq 8(%rsp), %rax
	movq (%rax), %rax
	movq 576(%rax,%r12), %rax
	movq 8(%rsp), %rax
	movq (%rax), %rax
	movq 640(%rax,%r12), %rax
	testq %rax, %rax
	je .LBB23_14
	movq 8(%rsp), %rax
	movq 16(%rsp), %rcx
	movq (%rax), %rdx
	xorl %esi, %esi
	xchgq %rsi, 640(%rdx,%r12)
	testq %rsi, %rsi
	jne .LBB23_6
.LBB23_14:
	movq 8(%rsp), %rax
	movq (%rax), %rax
	movq 576(%rax,%r12), %rax
	movq 8(%rsp), %rax
	movq (%rax), %rax
	movq 640(%rax,%r12), %rax
	testq %rax, %rax
	je .LBB23_16
	movq 8(%rsp), %rax
	movq 16(%rsp), %rcx
	movq (%rax), %rdx
	xorl %esi, %esi
	xchgq %rsi, 640(%rdx,%r12)
	testq %rsi, %rsi
	jne .LBB23_6
.LBB23_16:
	movq 8(%rsp), %rax
	movq (%rax), %rax
	movq 576(%rax,%r12), %rax
.LBB23_39:
	leaq 8(%rsp), %rdi
	movl %r8d, %esi
	movl 52(%rsp), %edx
	movl %ebp, %ecx
	movl %r10d, %ebp
	movl %r11d, %r15d
	callq tag_search.all_places.search_others__989a3ead4d9545f0
	movl %r15d, %r11d
	movl %ebp, %r10d
	jmp .LBB23_47
.LBB23_50:
	movq %rbx, %r15
	movl (%r14), %ebp
	shrxl %ecx, %ebp, %r13d
	movq %r14, %rsi
	shlxl %ecx, %r13d, %r14d
	movl %r8d, %r10d
	subl %r14d, %r10d
	movl $1, %eax
	movl %ecx, 52(%rsp)
	shlxl %ecx, %eax, %eax
	cmpl %r10d, %eax
	cmovbl %eax, %r10d
	movq %rsi, %rbx
	movzbl 4(%rsi), %eax
	movb %al, 60(%rsp)
	leaq 8(%rsp), %rdi
	movl %r13d, %esi
	movl %r10d, 56(%rsp)
	movl %r10d, %ecx
	movl %r8d, %r12d
	xorl %r8d, %r8d
	callq tag_search.pass.pass_on__989a3ead4d9545f0
	cmpb $1, %al
	movl %r12d, 4(%rsp)
	jne .LBB23_51
	addl %r14d, %edx
	movb $1, %al
	movq %rbx, %r14
	movq %r15, %rbx
	xorl %ecx, %ecx
	cmpb $1, %al
	je .LBB23_98
	jmp .LBB23_101
.LBB23_2:
	leaq 8(%rsp), %rdi
	movq %r14, %rsi
	movl %r8d, %edx
	callq tag_search.search.get_by_scan__989a3ead4d9545f0
	movq 24(%rsp), %rcx
	testq %rcx, %rcx
	jne .LBB23_104
.LBB23_103:
	xorl %ecx, %ecx
	jmp .LBB23_106
.LBB23_4:
	testq %rax, %rax
	je .LBB23_40
	movq 8(%rsp), %rax
	movq 16(%rsp), %rcx
	movq (%rax), %rdx
	xorl %esi, %esi
	xchgq %rsi, 640(%rdx,%r12)
	testq %rsi, %rsi
	jne .LBB23_6
.LBB23_40:
	movq 8(%rsp), %rax
	movq (%rax), %rax
	movq 576(%rax,%r12), %rax
	notq %rax
	tzcntq %rax, %rdx
	cmpl %edx, %r13d
	jbe .LBB23_17
	movq 8(%rsp), %rax
	movq 16(%rsp), %rcx
	movq (%rax), %rdi
	movl $1, %eax
	shlxq %rdx, %rax, %rsi
	.p2align 4
.LBB23_42:
	movq 576(%rdi,%r12), %r9
	movq %r9, %r8
	orq %rsi, %r8
	movq %r9, %rax
	lock  cmpxchgq %r8, 576(%rdi,%r12)
	jne .LBB23_42
	testq %rsi, %r9
	je .LBB23_44
	incl %edx
	leaq 8(%rsp), %rdi
	movl %ebp, %esi
	movl %r13d, %ecx
	xorl %r8d, %r8d
	movl %r10d, 60(%rsp)
	movb %r11b, 56(%rsp)
	callq tag_search.pass.pass_on__989a3ead4d9545f0
	movzbl 56(%rsp), %r11d
	movl 60(%rsp), %r10d
	cmpb $1, %al
	movl 4(%rsp), %r8d
	je .LBB23_46
.LBB23_17:
	movq 8(%rsp), %rax
	movq (%rax), %rax
	movq 640(%rax,%r12), %rax
	testq %rax, %rax
	je .LBB23_19
	movq 8(%rsp), %rax
	movq 16(%rsp), %rcx
	movq (%rax), %rdx
	xorl %esi, %esi
	xchgq %rsi, 640(%rdx,%r12)
	testq %rsi, %rsi
	jne .LBB23_6
.LBB23_19:
	movq 8(%rsp), %rax
	movq (%rax), %rax
	movq 576(%rax,%r12), %rax
	notq %rax
	tzcntq %rax, %rdx
	cmpl %edx, %r13d
	jbe .LBB23_25
	movl %r15d, (%rsp)
	movq 8(%rsp), %rax
	movq 16(%rsp), %rcx
	movq (%rax), %rdi
	movl $1, %eax
	shlxq %rdx, %rax, %rsi
	.p2align 4
.LBB23_21:
	movq 576(%rdi,%r12), %r9
	movq %r9, %r8
	orq %rsi, %r8
	movq %r9, %rax
	lock  cmpxchgq %r8, 576(%rdi,%r12)
	jne .LBB23_21
	testq %rsi, %r9
	je .LBB23_23
	incl %edx
	leaq 8(%rsp), %rdi
	movl %ebp, %esi
	movl %r13d, %ecx
	xorl %r8d, %r8d
	movl %r10d, 60(%rsp)
	movb %r11b, 56(%rsp)
	callq tag_search.pass.pass_on__989a3ead4d9545f0
	movzbl 56(%rsp), %r11d
	movl 60(%rsp), %r10d
	cmpb $1, %al
	movl 4(%rsp), %r8d
	movl (%rsp), %r15d
	je .LBB23_46
.LBB23_25:
	movq 8(%rsp), %rax
	movq (%rax), %rax
	movq 640(%rax,%r12), %rax
	testq %rax, %rax
	je .LBB23_27
	movq 8(%rsp), %rax
	movq 16(%rsp), %rcx
	movq (%rax), %rdx
	xorl %esi, %esi
	xchgq %rsi, 640(%rdx,%r12)
	testq %rsi, %rsi
	jne .LBB23_6
.LBB23_27:
	movq 8(%rsp), %rax
	movq (%rax), %rax
	movq 576(%rax,%r12), %rax
	notq %rax
	tzcntq %rax, %rdx
	cmpl %edx, %r13d
	jbe .LBB23_32
	movl %r15d, (%rsp)
	movq 8(%rsp), %rax
	movq 16(%rsp), %rcx
	movq (%rax), %rdi
	movl $1, %eax
	shlxq %rdx, %rax, %rsi
	.p2align 4
.LBB23_29:
	movq 576(%rdi,%r12), %r9
	movq %r9, %r8
	orq %rsi, %r8
	movq %r9, %rax
	lock  cmpxchgq %r8, 576(%rdi,%r12)
	jne .LBB23_29
	testq %rsi, %r9
	je .LBB23_23
	incl %edx
	leaq 8(%rsp), %rdi
	movl %ebp, %esi
	movl %r13d, %ecx
	xorl %r8d, %r8d
	movl %r10d, 60(%rsp)
	movb %r11b, 56(%rsp)
	callq tag_search.pass.pass_on__989a3ead4d9545f0
	movzbl 56(%rsp), %r11d
	movl 60(%rsp), %r10d
	cmpb $1, %al
	movl 4(%rsp), %r8d
	movl (%rsp), %r15d
	je .LBB23_46
.LBB23_32:
	movq 8(%rsp), %rax
	movq (%rax), %rax
	movq 640(%rax,%r12), %rax
	testq %rax, %rax
	je .LBB23_34
	movq 8(%rsp), %rax
	movq 16(%rsp), %rcx
	movq (%rax), %rdx
	xorl %esi, %esi
	xchgq %rsi, 640(%rdx,%r12)
	testq %rsi, %rsi
	je .LBB23_34
.LBB23_6:
	tzcntq %rsi, %rdx
	movl $1, %edi
	shlxq %rdx, %rdi, %rdi
	movq 24(%rcx), %r8
	orq %rdi, (%r8,%rbp,8)
	incq 48(%rcx)
	movq $-2, %rdi
	movl %edx, %ecx
	rolq %cl, %rdi
	andq %rsi, %rdi
	je .LBB23_46
	movq (%rax), %rax
	lock  subq %rdi, 576(%rax,%r12)
	popcntq %rdi, %rax
	addq 24(%rsp), %rax
	movq $-1, %rcx
	cmovaeq %rax, %rcx
	movq %rcx, 24(%rsp)
	movl %ebp, 32(%rsp)
	movq %rdi, 40(%rsp)
.LBB23_46:
	addl %r15d, %edx
	movb $1, %al
.LBB23_47:
	xorl %ecx, %ecx
	cmpb $1, %al
	jne .LBB23_101
	cmpl %r10d, %edx
	je .LBB23_100
	movl %r10d, %ecx
	testb $1, %r11b
	je .LBB23_101
	jmp .LBB23_100
.LBB23_51:
	movl %ebp, (%rsp)
	movl %r13d, %ebp
	movq %rbp, 64(%rsp)
	shlq $7, %rbp
	movq 8(%rsp), %rax
	movq (%rax), %rax
	movq 640(%rax,%rbp), %rax
	cmpl %r14d, %r12d
	movl %r12d, %esi
	movl %r14d, %r10d
	movl %r13d, %r11d
	jne .LBB23_52
	testq %rax, %rax
	movq %rbx, %r14
	movq %r15, %rbx
	movl 52(%rsp), %r8d
	je .LBB23_58
	movq 8(%rsp), %rax
	movq 16(%rsp), %rcx
	movq (%rax), %rdx
	xorl %r9d, %r9d
	xchgq %r9, 640(%rdx,%rbp)
	testq %r9, %r9
	jne .LBB23_54
.LBB23_58:
	movq 8(%rsp), %rax
	movq (%rax), %rax
	movq 576(%rax,%rbp), %rax
	movq 8(%rsp), %rax
	movq (%rax), %rax
	movq 640(%rax,%rbp), %rax
	testq %rax, %rax
	je .LBB23_60
	movq 8(%rsp), %rax
	movq 16(%rsp), %rcx
	movq (%rax), %rdx
	xorl %r9d, %r9d
	xchgq %r9, 640(%rdx,%rbp)
	testq %r9, %r9
	jne .LBB23_54
.LBB23_60:
	movq 8(%rsp), %rax
	movq (%rax), %rax
	movq 576(%rax,%rbp), %rax
	movq 8(%rsp), %rax
	movq (%rax), %rax
	movq 640(%rax,%rbp), %rax
	testq %rax, %rax
	je .LBB23_62
	movq 8(%rsp), %rax
	movq 16(%rsp), %rcx
	movq (%rax), %rdx
	xorl %r9d, %r9d
	xchgq %r9, 640(%rdx,%rbp)
	testq %r9, %r9
	jne .LBB23_54
.LBB23_62:
	movq 8(%rsp), %rax
	movq (%rax), %rax
	movq 576(%rax,%rbp), %rax
	movq 8(%rsp), %rax
	movq (%rax), %rax
	movq 640(%rax,%rbp), %rax
	testq %rax, %rax
	je .LBB23_64
	movq 8(%rsp), %rax
	movq 16(%rsp), %rcx
	movq (%rax), %rdx
	xorl %r9d, %r9d
	xchgq %r9, 640(%rdx,%rbp)
	testq %r9, %r9
	jne .LBB23_54
.LBB23_64:
	movq 8(%rsp), %rax
	movq (%rax), %rax
	movq 576(%rax,%rbp), %rax
.LBB23_65:
	leaq 8(%rsp), %rdi
	movl %r8d, %edx
	movl %r11d, %ecx
	callq tag_search.all_places.search_others__989a3ead4d9545f0
	jmp .LBB23_96
.LBB23_52:
	testq %rax, %rax
	movq %rbx, %r14
	movq %r15, %rbx
	movl 52(%rsp), %r8d
	movl 56(%rsp), %r13d
	je .LBB23_90
	movq 8(%rsp), %rax
	movq 16(%rsp), %rcx
	movq (%rax), %rdx
	xorl %r9d, %r9d
	xchgq %r9, 640(%rdx,%rbp)
	testq %r9, %r9
	jne .LBB23_54
.LBB23_90:
	movq 8(%rsp), %rax
	movq (%rax), %rax
	movq 576(%rax,%rbp), %rax
	notq %rax
	tzcntq %rax, %rdx
	cmpl %edx, %r13d
	jbe .LBB23_67
	movl %r10d, %r12d
	movq 8(%rsp), %rax
	movq 16(%rsp), %rcx
	movq (%rax), %rdi
	movl $1, %eax
	shlxq %rdx, %rax, %rsi
	.p2align 4
.LBB23_92:
	movq 576(%rdi,%rbp), %r9
	movq %r9, %r8
	orq %rsi, %r8
	movq %r9, %rax
	lock  cmpxchgq %r8, 576(%rdi,%rbp)
	jne .LBB23_92
	testq %rsi, %r9
	je .LBB23_73
	incl %edx
	leaq 8(%rsp), %rdi
	movl %r11d, %esi
	movl %r13d, %ecx
	xorl %r8d, %r8d
	movl %r11d, %r15d
	callq tag_search.pass.pass_on__989a3ead4d9545f0
	movl %r15d, %r11d
	movl 52(%rsp), %r8d
	cmpb $1, %al
	movl 4(%rsp), %esi
	movl %r12d, %r10d
	je .LBB23_95
.LBB23_67:
	movq 8(%rsp), %rax
	movq (%rax), %rax
	movq 640(%rax,%rbp), %rax
	testq %rax, %rax
	je .LBB23_69
	movq 8(%rsp), %rax
	movq 16(%rsp), %rcx
	movq (%rax), %rdx
	xorl %r9d, %r9d
	xchgq %r9, 640(%rdx,%rbp)
	testq %r9, %r9
	jne .LBB23_54
.LBB23_69:
	movq 8(%rsp), %rax
	movq (%rax), %rax
	movq 576(%rax,%rbp), %rax
	notq %rax
	tzcntq %rax, %rdx
	cmpl %edx, %r13d
	jbe .LBB23_75
	movl %r10d, %r12d
	movq 8(%rsp), %rax
	movq 16(%rsp), %rcx
	movq (%rax), %rdi
	movl $1, %eax
	shlxq %rdx, %rax, %rsi
	.p2align 4
.LBB23_71:
	movq 576(%rdi,%rbp), %r9
	movq %r9, %r8
	orq %rsi, %r8
	movq %r9, %rax
	lock  cmpxchgq %r8, 576(%rdi,%rbp)
	jne .LBB23_71
	testq %rsi, %r9
	je .LBB23_73
	incl %edx
	leaq 8(%rsp), %rdi
	movl %r11d, %esi
	movl %r13d, %ecx
	xorl %r8d, %r8d
	movl %r11d, %r15d
	callq tag_search.pass.pass_on__989a3ead4d9545f0
	movl %r15d, %r11d
	movl 52(%rsp), %r8d
	cmpb $1, %al
	movl 4(%rsp), %esi
	movl %r12d, %r10d
	je .LBB23_95
.LBB23_75:
	movq 8(%rsp), %rax
	movq (%rax), %rax
	movq 640(%rax,%rbp), %rax
	testq %rax, %rax
	je .LBB23_77
	movq 8(%rsp), %rax
	movq 16(%rsp), %rcx
	movq (%rax), %rdx
	xorl %r9d, %r9d
	xchgq %r9, 640(%rdx,%rbp)
	testq %r9, %r9
	jne .LBB23_54
.LBB23_77:
	movq 8(%rsp), %rax
	movq (%rax), %rax
	movq 576(%rax,%rbp), %rax
	notq %rax
	tzcntq %rax, %rdx
	cmpl %edx, %r13d
	jbe .LBB23_82
	movl %r10d, %r12d
	movq 8(%rsp), %rax
	movq 16(%rsp), %rcx
	movq (%rax), %rdi
	movl $1, %eax
	shlxq %rdx, %rax, %rsi
.LBB23_79:
	movq 576(%rdi,%rbp), %r9
	movq %r9, %r8
	orq %rsi, %r8
	movq %r9, %rax
	lock  cmpxchgq %r8, 576(%rdi,%rbp)
	jne .LBB23_79
	testq %rsi, %r9
	je .LBB23_73
	incl %edx
	leaq 8(%rsp), %rdi
	movl %r11d, %esi
	movl %r13d, %ecx
	xorl %r8d, %r8d
	movl %r11d, %r15d
	callq tag_search.pass.pass_on__989a3ead4d9545f0
	movl %r15d, %r11d
	movl 52(%rsp), %r8d
	cmpb $1, %al
	movl 4(%rsp), %esi
	movl %r12d, %r10d
	je .LBB23_95
.LBB23_82:
	movq 8(%rsp), %rax
	movq (%rax), %rax
	movq 640(%rax,%rbp), %rax
	testq %rax, %rax
	je .LBB23_84
	movq 8(%rsp), %rax
	movq 16(%rsp), %rcx
	movq (%rax), %rdx
	xorl %r9d, %r9d
	xchgq %r9, 640(%rdx,%rbp)
	testq %r9, %r9
	je .LBB23_84
.LBB23_54:
	tzcntq %r9, %rdx
	movl $1, %edi
	shlxq %rdx, %rdi, %rdi
	movq 24(%rcx), %r8
	movq 64(%rsp), %rsi
	orq %rdi, (%r8,%rsi,8)
	incq 48(%rcx)
	movq $-2, %rdi
	movl %edx, %ecx
	rolq %cl, %rdi
	andq %r9, %rdi
	je .LBB23_95
	movq (%rax), %rax
	lock  subq %rdi, 576(%rax,%rbp)
	popcntq %rdi, %rax
	addq 24(%rsp), %rax
	movq $-1, %rcx
	cmovaeq %rax, %rcx
	movq %rcx, 24(%rsp)
	movl %r11d, 32(%rsp)
	movq %rdi, 40(%rsp)
.LBB23_95:
	addl %r10d, %edx
	movb $1, %al
.LBB23_96:
	movl (%rsp), %ebp
	xorl %ecx, %ecx
	cmpb $1, %al
	jne .LBB23_101
.LBB23_98:
	cmpl %ebp, %edx
	je .LBB23_100
	movl %ebp, %ecx
	testb $1, 60(%rsp)
	je .LBB23_101
.LBB23_100:
	leal 1(%rdx), %esi
	movl 4(%rsp), %edi
	decl %edi
	xorl %ecx, %ecx
	cmpl %edi, %esi
	cmovbl %esi, %ecx
.LBB23_101:
	movl %ecx, (%r14)
	movq 24(%rsp), %rcx
	testq %rcx, %rcx
	je .LBB23_103
.LBB23_104:
	movq 16(%rsp), %rsi
	movl 32(%rsp), %edi
	cmpq %rdi, 32(%rsi)
	jbe .LBB23_106
	movq 24(%rsi), %rsi
	movq (%rsi,%rdi,8), %rsi
	andq 40(%rsp), %rsi
	popcntq %rsi, %rsi
	xorl %edi, %edi
	subq %rsi, %rcx
	cmovbq %rdi, %rcx
.LBB23_106:
	movzbl %al, %eax
	movl %eax, (%rbx)
	movl %edx, 4(%rbx)
	movq %rcx, 8(%rbx)
	addq $72, %rsp
	popq %rbx
	popq %r12
	popq %r13
	popq %r14
	popq %r15
	popq %rbp
	retq
.LBB23_44:
	movq 24(%rcx), %rax
	orq %rsi, (%rax,%rbp,8)
	incq 48(%rcx)
	jmp .LBB23_46
.LBB23_34:
	movq 8(%rsp), %rax
	movq (%rax), %rax
	movq 576(%rax,%r12), %rax
	notq %rax
	tzcntq %rax, %rdx
	cmpl %edx, %r13d
	jbe .LBB23_39
	movl %r15d, (%rsp)
	movq 8(%rsp), %rax
	movq 16(%rsp), %rcx
	movq (%rax), %rdi
	movl $1, %eax
	shlxq %rdx, %rax, %rsi
.LBB23_36:
	movq 576(%rdi,%r12), %r9
	movq %r9, %r8
	orq %rsi, %r8
	movq %r9, %rax
	lock  cmpxchgq %r8, 576(%rdi,%r12)
	jne .LBB23_36
	testq %rsi, %r9
	je .LBB23_23
	incl %edx
	leaq 8(%rsp), %rdi
	movl %ebp, %esi
	movl %r13d, %ecx
	xorl %r8d, %r8d
	movl %r10d, %r12d
	movl %r11d, %r13d
	callq tag_search.pass.pass_on__989a3ead4d9545f0
	movl %r13d, %r11d
	movl %r12d, %r10d
	cmpb $1, %al
	movl 4(%rsp), %r8d
	movl (%rsp), %r15d
	jne .LBB23_39
	jmp .LBB23_46
.LBB23_23:
	movq 24(%rcx), %rax
	orq %rsi, (%rax,%rbp,8)
	incq 48(%rcx)
	movl (%rsp), %r15d
	jmp .LBB23_46
.LBB23_84:
	movq 8(%rsp), %rax
	movq (%rax), %rax
	movq 576(%rax,%rbp), %rax
	notq %rax
	tzcntq %rax, %rdx
	cmpl %edx, %r13d
	jbe .LBB23_65
	movl %r10d, %r12d
	movq 8(%rsp), %rax
	movq 16(%rsp), %rcx
	movq (%rax), %rdi
	movl $1, %eax
	shlxq %rdx, %rax, %rsi
.LBB23_86:
	movq 576(%rdi,%rbp), %r9
	movq %r9, %r8
	orq %rsi, %r8
	movq %r9, %rax
	lock  cmpxchgq %r8, 576(%rdi,%rbp)
	jne .LBB23_86
	testq %rsi, %r9
	je .LBB23_73
	incl %edx
	leaq 8(%rsp), %rdi
	movl %r11d, %esi
	movl %r13d, %ecx
	xorl %r8d, %r8d
	movl %r11d, %ebp
	callq tag_search.pass.pass_on__989a3ead4d9545f0
	movl %ebp, %r11d
	movl 52(%rsp), %r8d
	cmpb $1, %al
	movl 4(%rsp), %esi
	jne .LBB23_65
	movl %r12d, %r10d
	jmp .LBB23_95
.LBB23_73:
	movq 24(%rcx), %rax
	movq 64(%rsp), %rdi
	orq %rsi, (%rax,%rdi,8)
	incq 48(%rcx)
	movl %r12d, %r10d
	jmp .LBB23_95
.Lfunc_end23:
	.size tag_search.on_map.finish_i64, .Lfunc_end23-tag_search.on_map.finish_i64
	.section .text.tag_search.search.get_by_scan__989a3ead4d9545f0,"ax",@progbits
	.p2align 4
	.type tag_search.search.get_by_scan__989a3ead4d9545f0,@function
tag_search.search.get_by_scan__989a3ead4d9545f0:
	pushq %rbp
	pushq %r15
	pushq %r14
	pushq %rbx
	subq $40, %rsp
	movl %edx, %ebp
	movq %rsi, %rbx
	movq %rdi, %rsi
	movl (%rbx), %r14d
	cmpl %edx, %r14d
	jb .LBB24_4
	testl %ebp, %ebp
	je .LBB24_2
	movl %r14d, %eax
	xorl %edx, %edx
	divl %ebp
	movl %edx, %r14d
	jmp .LBB24_4
.LBB24_2:
	xorl %r14d, %r14d
.LBB24_4:
	movzbl 4(%rbx), %eax
	bzhil %ecx, %r14d, %edx
	xorl %r15d, %r15d
	testb %al, %al
	cmovel %r15d, %edx
	shrxl %ecx, %r14d, %edi
	shlq $32, %rcx
	movl %ebp, %r8d
	orq %rcx, %r8
	xorb $1, %al
	movq %r8, 8(%rsp)
	movl %edi, 16(%rsp)
	movl %edx, 20(%rsp)
	movq $0, 24(%rsp)
	movb %al, 32(%rsp)
	movw $0, 33(%rsp)
	movb $0, 35(%rsp)
	leaq 8(%rsp), %rdi
	callq tag_search.scan.Scan.search__989a3ead4d9545f0
	cmpb $1, %al
	jne .LBB24_8
	cmpl %r14d, %edx
	je .LBB24_7
	testb $1, 4(%rbx)
	movl %r14d, %r15d
	je .LBB24_8
.LBB24_7:
	movl %edx, %ecx
	incl %ecx
	decl %ebp
	xorl %r15d, %r15d
	cmpl %ebp, %ecx
	cmovbl %ecx, %r15d
.LBB24_8:
	movl %r15d, (%rbx)
	addq $40, %rsp
	popq %rbx
	popq %r14
	popq %r15
	popq %rbp
	retq
.Lfunc_end24:
	.size tag_search.search.get_by_scan__989a3ead4d9545f0, .Lfunc_end24-tag_search.search.get_by_scan__989a3ead4d9545f0
	.section .text.tag_search.scan.Scan.search__989a3ead4d9545f0,"ax",@progbits
	.p2align 4
	.type tag_search.scan.Scan.search__989a3ead4d9545f0,@function
tag_search.scan.Scan.search__989a3ead4d9545f0:
	pushq %rbp
	pushq %r15
	pushq %r14
	pushq %r12
	pushq %rbx
	subq $16, %rsp
	movq %rsi, %r14
	movq %rdi, %rbx
	movl 8(%rdi), %ebp
	movl (%rdi), %eax
	movzbl 4(%rdi), %ecx
	movl $1, %edx
	shlxl %ecx, %edx, %edx
	addl %edx, %eax
	decl %eax
	shrxl %ecx, %eax, %r15d
	cmpl %r15d, %ebp
	jae .LBB25_9
	.p2align 4
.LBB25_1:
	movl 8(%rbx), %esi
	xorl %ecx, %ecx
	cmpl %esi, %ebp
	jne .LBB25_3
	movl 12(%rbx), %ecx
.LBB25_3:
	movl (%rbx), %r9d
	movzbl 4(%rbx), %eax
	shlxl %eax, %ebp, %r8d
	movl %r9d, %edi
	subl %r8d, %edi
	movl $1, %edx
	shlxl %eax, %edx, %eax
	cmpl %edi, %eax
	cmovbl %eax, %edi
	cmpb $0, 16(%rbx)
	je .LBB25_6
	testq %r9, %r9
	je .LBB25_22
	movl 20(%rbx), %r10d
	cmpl %r10d, %r9d
	cmovbl %r9d, %r10d
	addl %r8d, %edi
	movabsq $1099511627776, %rax
	xorl %edx, %edx
	divq %r9
	incq %rax
	cmpl %edi, %r9d
	cmovbl %r9d, %edi
	imulq %rax, %r10
	imulq %r10, %rdi
	shrq $40, %rdi
	cmpl %r8d, %r9d
	cmovbl %r9d, %r8d
	imulq %r10, %r8
	shrq $40, %r8
	subl %r8d, %edi
.LBB25_6:
	xorl %eax, %eax
	cmpl %esi, %ebp
	sete %al
	cmpl %ecx, %edi
	movl %ecx, %edx
	cmovbl %edi, %edx
	xorl %esi, %esi
	cmpb $0, 24(%rbx)
	cmovnel %edx, %esi
	movl %ecx, 4(%rsp)
	movl %edi, 8(%rsp)
	movl %esi, 12(%rsp)
	leal 1(%rax,%rax,2), %ecx
	leaq 4(%rsp), %rdx
	movq %r14, %rdi
	movl %ebp, %esi
	callq tag_search.pass.visit__989a3ead4d9545f0
	cmpb $1, %al
	je .LBB25_23
	incl %ebp
	cmpl %ebp, %r15d
	jne .LBB25_1
	movl 8(%rbx), %ebp
.LBB25_9:
	testl %ebp, %ebp
	je .LBB25_10
	xorl %r15d, %r15d
	.p2align 4
.LBB25_12:
	movl 8(%rbx), %esi
	movl $0, %ecx
	cmpl %esi, %r15d
	jne .LBB25_14
	movl 12(%rbx), %ecx
.LBB25_14:
	movl (%rbx), %r9d
	movzbl 4(%rbx), %eax
	shlxl %eax, %r15d, %r8d
	movl %r9d, %edi
	subl %r8d, %edi
	movl $1, %edx
	shlxl %eax, %edx, %eax
	cmpl %edi, %eax
	cmovbl %eax, %edi
	cmpb $0, 16(%rbx)
	je .LBB25_17
	testq %r9, %r9
	je .LBB25_22
	movl 20(%rbx), %r10d
	cmpl %r10d, %r9d
	cmovbl %r9d, %r10d
	addl %r8d, %edi
	movabsq $1099511627776, %rax
	xorl %edx, %edx
	divq %r9
	incq %rax
	cmpl %edi, %r9d
	cmovbl %r9d, %edi
	imulq %rax, %r10
	imulq %r10, %rdi
	shrq $40, %rdi
	cmpl %r8d, %r9d
	cmovbl %r9d, %r8d
	imulq %r10, %r8
	shrq $40, %r8
	subl %r8d, %edi
.LBB25_17:
	xorl %eax, %eax
	cmpl %esi, %r15d
	sete %al
	cmpl %ecx, %edi
	movl %ecx, %edx
	cmovbl %edi, %edx
	xorl %r12d, %r12d
	cmpb $0, 24(%rbx)
	cmovel %r12d, %edx
	movl %ecx, 4(%rsp)
	movl %edi, 8(%rsp)
	movl %edx, 12(%rsp)
	leal 1(%rax,%rax,2), %ecx
	leaq 4(%rsp), %rdx
	movq %r14, %rdi
	movl %r15d, %esi
	callq tag_search.pass.visit__989a3ead4d9545f0
	cmpb $1, %al
	je .LBB25_18
	incl %r15d
	cmpl %r15d, %ebp
	jne .LBB25_12
	jmp .LBB25_20
.LBB25_10:
	xorl %r12d, %r12d
.LBB25_20:
	xorl %eax, %eax
	jmp .LBB25_21
.LBB25_23:
	movzbl 4(%rbx), %eax
	shlxl %eax, %ebp, %r12d
	jmp .LBB25_24
.LBB25_18:
	movzbl 4(%rbx), %eax
	shlxl %eax, %r15d, %r12d
.LBB25_24:
	addl %edx, %r12d
	movb $1, %al
.LBB25_21:
	movl %r12d, %edx
	addq $16, %rsp
	popq %rbx
	popq %r12
	popq %r14
	popq %r15
	popq %rbp
	retq
.LBB25_22:
	ud2
.Lfunc_end25:
	.size tag_search.scan.Scan.search__989a3ead4d9545f0, .Lfunc_end25-tag_search.scan.Scan.search__989a3ead4d9545f0
	.section .text.tag_search.pass.visit__989a3ead4d9545f0,"ax",@progbits
	.p2align 4
	.type tag_search.pass.visit__989a3ead4d9545f0,@function
tag_search.pass.visit__989a3ead4d9545f0:
	pushq %rbp
	pushq %r15
	pushq %r14
	pushq %r13
	pushq %r12
	pushq %rbx
	subq $24, %rsp
	movl %ecx, %r9d
	movq %rdi, %r14
	movl (%rdx), %r15d
	movl 4(%rdx), %r12d
	movl 8(%rdx), %r13d
	movq (%rdi), %rax
	movq (%rax), %rax
	movl %esi, 8(%rsp)
	movl %esi, %ebp
	movq %rbp, %rbx
	shlq $7, %rbx
	movq 576(%rax,%rbx), %rax
	cmpl %r15d, %r12d
	movl %ecx, 12(%rsp)
	jbe .LBB26_2
	movq %rax, %rcx
	notq %rcx
	shrxq %r15, %rcx, %rcx
	tzcntq %rcx, %rdx
	addl %r15d, %edx
	movl %r12d, %ecx
	movl %r13d, %r8d
	cmpl %r12d, %edx
	jb .LBB26_4
.LBB26_2:
	testl %r13d, %r13d
	je .LBB26_8
	notq %rax
	tzcntq %rax, %rdx
	xorl %r8d, %r8d
	movl %r13d, %ecx
	cmpl %edx, %r13d
	jbe .LBB26_8
.LBB26_4:
	movq (%r14), %rax
	movq 8(%r14), %rsi
	movq (%rax), %r10
	movl $1, %eax
	shlxq %rdx, %rax, %rdi
	.p2align 4
.LBB26_5:
	movq 576(%r10,%rbx), %r9
	movq %r9, %r11
	orq %rdi, %r11
	movq %r9, %rax
	lock  cmpxchgq %r11, 576(%r10,%rbx)
	jne .LBB26_5
	testq %rdi, %r9
	je .LBB26_22
	incl %edx
	movq %r14, %rdi
	movl 8(%rsp), %esi
	callq tag_search.pass.pass_on__989a3ead4d9545f0
	cmpb $1, %al
	movl 12(%rsp), %r9d
	je .LBB26_25
.LBB26_8:
	movq %rbp, 16(%rsp)
	xorl %ebp, %ebp
	jmp .LBB26_10
	.p2align 4
.LBB26_9:
	incl %ebp
	cmpl %r9d, %ebp
	je .LBB26_21
.LBB26_10:
	movq (%r14), %rax
	movq (%rax), %rax
	movq 640(%rax,%rbx), %rax
	testq %rax, %rax
	je .LBB26_13
	movq (%r14), %rcx
	movq (%rcx), %rdx
	xorl %eax, %eax
	xchgq %rax, 640(%rdx,%rbx)
	testq %rax, %rax
	je .LBB26_13
	movq (%rcx), %rcx
	lock  subq %rax, 576(%rcx,%rbx)
	popcntq %rax, %rcx
	addq 16(%r14), %rcx
	movq $-1, %rdx
	cmovaeq %rcx, %rdx
	movq %rdx, 16(%r14)
	movl 8(%rsp), %ecx
	movl %ecx, 24(%r14)
	movq %rax, 32(%r14)
.LBB26_13:
	movq (%r14), %rax
	movq (%rax), %rax
	movq 576(%rax,%rbx), %rax
	cmpl %r15d, %r12d
	jbe .LBB26_15
	movq %rax, %rcx
	notq %rcx
	shrxq %r15, %rcx, %rcx
	tzcntq %rcx, %rdx
	addl %r15d, %edx
	movl %r12d, %ecx
	movl %r13d, %r8d
	cmpl %r12d, %edx
	jb .LBB26_17
.LBB26_15:
	testl %r13d, %r13d
	je .LBB26_9
	notq %rax
	tzcntq %rax, %rdx
	xorl %r8d, %r8d
	movl %r13d, %ecx
	cmpl %edx, %r13d
	jbe .LBB26_9
.LBB26_17:
	movq (%r14), %rax
	movq 8(%r14), %rsi
	movq (%rax), %r10
	movl $1, %eax
	shlxq %rdx, %rax, %rdi
	.p2align 4
.LBB26_18:
	movq 576(%r10,%rbx), %r9
	movq %r9, %r11
	orq %rdi, %r11
	movq %r9, %rax
	lock  cmpxchgq %r11, 576(%r10,%rbx)
	jne .LBB26_18
	testq %rdi, %r9
	je .LBB26_23
	incl %edx
	movq %r14, %rdi
	movl 8(%rsp), %esi
	callq tag_search.pass.pass_on__989a3ead4d9545f0
	cmpb $1, %al
	movl 12(%rsp), %r9d
	jne .LBB26_9
	jmp .LBB26_25
.LBB26_21:
	xorl %eax, %eax
	xorl %edx, %edx
	jmp .LBB26_26
.LBB26_22:
	movq 24(%rsi), %rax
	orq %rdi, (%rax,%rbp,8)
	jmp .LBB26_24
.LBB26_23:
	movq 24(%rsi), %rax
	movq 16(%rsp), %rcx
	orq %rdi, (%rax,%rcx,8)
.LBB26_24:
	incq 48(%rsi)
.LBB26_25:
	movb $1, %al
.LBB26_26:
	addq $24, %rsp
	popq %rbx
	popq %r12
	popq %r13
	popq %r14
	popq %r15
	popq %rbp
	retq
.Lfunc_end26:
	.size tag_search.pass.visit__989a3ead4d9545f0, .Lfunc_end26-tag_search.pass.visit__989a3ead4d9545f0
	.section .text.tag_search.pass.pass_on__989a3ead4d9545f0,"ax",@progbits
	.p2align 4
	.type tag_search.pass.pass_on__989a3ead4d9545f0,@function
tag_search.pass.pass_on__989a3ead4d9545f0:
	pushq %r15
	pushq %r14
	pushq %rbx
	movl %esi, %esi
	movq %rsi, %r10
	shlq $7, %r10
	.p2align 4
.LBB27_1:
	notq %r9
	cmpl %edx, %ecx
	jbe .LBB27_3
	shrxq %rdx, %r9, %rax
	tzcntq %rax, %r11
	addl %edx, %r11d
	cmpl %ecx, %r11d
	jb .LBB27_6
.LBB27_3:
	testl %r8d, %r8d
	je .LBB27_10
	tzcntq %r9, %r11
	xorl %edx, %edx
	cmpl %r11d, %r8d
	jbe .LBB27_11
	movl %r8d, %ecx
	xorl %r8d, %r8d
.LBB27_6:
	movq (%rdi), %rax
	movq 8(%rdi), %rbx
	movq (%rax), %rdx
	movl $1, %eax
	shlxq %r11, %rax, %r14
	.p2align 4
.LBB27_7:
	movq 576(%rdx,%r10), %r9
	movq %r9, %r15
	orq %r14, %r15
	movq %r9, %rax
	lock  cmpxchgq %r15, 576(%rdx,%r10)
	jne .LBB27_7
	leal 1(%r11), %edx
	testq %r14, %r9
	jne .LBB27_1
	movb $1, %al
	movq 24(%rbx), %rcx
	orq %r14, (%rcx,%rsi,8)
	incq 48(%rbx)
	movl %r11d, %edx
	popq %rbx
	popq %r14
	popq %r15
	retq
.LBB27_10:
	xorl %eax, %eax
	xorl %edx, %edx
	popq %rbx
	popq %r14
	popq %r15
	retq
.LBB27_11:
	xorl %eax, %eax
	popq %rbx
	popq %r14
	popq %r15
	retq
.Lfunc_end27:
	.size tag_search.pass.pass_on__989a3ead4d9545f0, .Lfunc_end27-tag_search.pass.pass_on__989a3ead4d9545f0
	.section .text.tag_search.all_places.search_others__989a3ead4d9545f0,"ax",@progbits
	.p2align 4
	.type tag_search.all_places.search_others__989a3ead4d9545f0,@function
tag_search.all_places.search_others__989a3ead4d9545f0:
	pushq %rbp
	pushq %r15
	pushq %r14
	pushq %r13
	pushq %r12
	pushq %rbx
	subq $24, %rsp
	movl %ecx, %ebx
	movl %edx, %ebp
	movl %esi, %r14d
	movq %rdi, 16(%rsp)
	leal 1(%rbx), %eax
	movl $1, %r12d
	shlxl %edx, %r12d, %r13d
	leal (%r14,%r13), %ecx
	decl %ecx
	shrxl %edx, %ecx, %ecx
	movl %ecx, (%rsp)
	cmpl %ecx, %eax
	jae .LBB28_4
	subl %ebx, (%rsp)
	.p2align 4
.LBB28_2:
	leal (%rbx,%r12), %esi
	xorl %eax, %eax
	testl %r12d, %r12d
	sete %al
	shlxl %ebp, %esi, %r15d
	movl %r14d, %ecx
	subl %r15d, %ecx
	cmpl %ecx, %r13d
	cmovbl %r13d, %ecx
	movl $0, 4(%rsp)
	movl %ecx, 8(%rsp)
	movl $0, 12(%rsp)
	leal (%rax,%rax,2), %ecx
	incl %ecx
	leaq 4(%rsp), %rdx
	movq 16(%rsp), %rdi
	callq tag_search.pass.visit__989a3ead4d9545f0
	cmpb $1, %al
	je .LBB28_10
	incl %r12d
	cmpl %r12d, (%rsp)
	jne .LBB28_2
.LBB28_4:
	testl %ebx, %ebx
	je .LBB28_8
	xorl %r12d, %r12d
	.p2align 4
.LBB28_6:
	shlxl %ebp, %r12d, %r15d
	movl %r14d, %eax
	subl %r15d, %eax
	cmpl %eax, %r13d
	cmovbl %r13d, %eax
	movl $0, 4(%rsp)
	movl %eax, 8(%rsp)
	movl $0, 12(%rsp)
	leaq 4(%rsp), %rdx
	movq 16(%rsp), %rdi
	movl %r12d, %esi
	movl $1, %ecx
	callq tag_search.pass.visit__989a3ead4d9545f0
	cmpb $1, %al
	je .LBB28_10
	incl %r12d
	cmpl %r12d, %ebx
	jne .LBB28_6
.LBB28_8:
	xorl %edx, %edx
	xorl %eax, %eax
	jmp .LBB28_9
.LBB28_10:
	addl %r15d, %edx
	movb $1, %al
.LBB28_9:
	addq $24, %rsp
	popq %rbx
	popq %r12
	popq %r13
	popq %r14
	popq %r15
	popq %rbp
	retq
.Lfunc_end28:
	.size tag_search.all_places.search_others__989a3ead4d9545f0, .Lfunc_end28-tag_search.all_places.search_others__989a3ead4d9545f0
	.section .text.tag_c.member.Member.get_past_full,"ax",@progbits
	.p2align 4
	.type tag_c.member.Member.get_past_full,@function
tag_c.member.Member.get_past_full:
	pushq %rbp
	pushq %r15
	pushq %r14
	pushq %rbx
	subq $40, %rsp
	movq %rsi, %rbx
	movq %rdi, %r14
	movq (%rdi), %r15
	vxorps %xmm0, %xmm0, %xmm0
	vmovaps %xmm0, (%rsp)
	leaq 224(%rdi), %rcx
	leaq 120(%r15), %rsi
	leaq 240(%rdi), %rdx
	movq $1, 24(%rsp)
	movq $0, 32(%rsp)
	movq %rsp, %rdi
	leaq 24(%rsp), %r8
	callq tag_search.on_map.finish_i64
	movq 8(%rsp), %rax
	movl $-10, %ebp
	cmpb $1, (%rsp)
	jne .LBB29_2
	movl 232(%r15), %ebp
	addl 4(%rsp), %ebp
.LBB29_2:
	testq %rax, %rax
	je .LBB29_7
	movq (%r14), %rdi
	movq 120(%rdi), %rcx
	movq 8(%rcx), %rdx
	testq %rdx, %rdx
	je .LBB29_4
	addq $120, %rdi
	cmpq $64, %rax
	movl $64, %esi
	cmovbq %rax, %rsi
	callq tag_bell.telling.tell_each_i64
	jmp .LBB29_6
.LBB29_4:
	xorl %edx, %edx
	xorl %eax, %eax
.LBB29_6:
	movq %rax, (%rbx)
	movq %rdx, 8(%rbx)
	addl $1073741824, %ebp
.LBB29_7:
	movl %ebp, %eax
	addq $40, %rsp
	popq %rbx
	popq %r14
	popq %r15
	popq %rbp
	retq
.Lfunc_end29:
	.size tag_c.member.Member.get_past_full, .Lfunc_end29-tag_c.member.Member.get_past_full
	.section .text.tag_c.member.Member.get_past_lost,"ax",@progbits
	.p2align 4
	.type tag_c.member.Member.get_past_lost,@function
tag_c.member.Member.get_past_lost:
	pushq %rbp
	pushq %r15
	pushq %r14
	pushq %rbx
	subq $40, %rsp
	movq %rsi, %rbx
	movq %rdi, %r14
	movq (%rdi), %r15
	vxorps %xmm0, %xmm0, %xmm0
	vmovaps %xmm0, (%rsp)
	leaq 224(%rdi), %rax
	leaq 120(%r15), %rsi
	leaq 240(%rdi), %r9
	movl $2, 24(%rsp)
	movl %edx, 28(%rsp)
	movq %rcx, 32(%rsp)
	movq %rsp, %rdi
	leaq 24(%rsp), %r8
	movq %r9, %rdx
	movq %rax, %rcx
	callq tag_search.on_map.finish_i64
	movq 8(%rsp), %rax
	movl $-10, %ebp
	cmpb $1, (%rsp)
	jne .LBB30_2
	movl 232(%r15), %ebp
	addl 4(%rsp), %ebp
.LBB30_2:
	testq %rax, %rax
	je .LBB30_7
	movq (%r14), %rdi
	movq 120(%rdi), %rcx
	movq 8(%rcx), %rdx
	testq %rdx, %rdx
	je .LBB30_4
	addq $120, %rdi
	cmpq $64, %rax
	movl $64, %esi
	cmovbq %rax, %rsi
	callq tag_bell.telling.tell_each_i64
	jmp .LBB30_6
.LBB30_4:
	xorl %edx, %edx
	xorl %eax, %eax
.LBB30_6:
	movq %rax, (%rbx)
	movq %rdx, 8(%rbx)
	addl $1073741824, %ebp
.LBB30_7:
	movl %ebp, %eax
	addq $40, %rsp
	popq %rbx
	popq %r14
	popq %r15
	popq %rbp
	retq
.Lfunc_end30:
	.size tag_c.member.Member.get_past_lost, .Lfunc_end30-tag_c.member.Member.get_past_lost
	.section .text.tag_c.cached.CachedMember.get_any,"ax",@progbits
	.p2align 4
	.type tag_c.cached.CachedMember.get_any,@function
tag_c.cached.CachedMember.get_any:
	pushq %r15
	pushq %r14
	pushq %rbx
	subq $32, %rsp
	movq (%rdi), %rdx
	vxorps %xmm0, %xmm0, %xmm0
	vmovaps %xmm0, (%rsp)
	movq $0, 16(%rsp)
	movq 24(%rdi), %rcx
	testq %rcx, %rcx
	je .LBB31_2
	tzcntq %rcx, %rdx
	movl 8(%rdi), %eax
	movl $1, %esi
	shlxq %rdx, %rsi, %rsi
	btrq %rdx, %rcx
	movq %rcx, 24(%rdi)
	orq %rsi, 32(%rdi)
	incl 16(%rdi)
	addl %edx, %eax
	incq 40(%rdi)
	jmp .LBB31_9
.LBB31_2:
	movq %rsi, %r14
	movq %rdi, %r15
	leaq 8(%rdi), %rbx
	addq $8, %rdx
	movq %rsp, %rdi
	movq %rbx, %rsi
	callq tag_cache.cache.Cache.win_quietly_i64_core.clone.U64Clone
	cmpb $0, (%rsp)
	je .LBB31_3
	movzbl 1(%rsp), %eax
	leaq .Lswitch.table.tags_library_wait_on_reserved.286(%rip), %rcx
	movl (%rcx,%rax,4), %eax
	jmp .LBB31_9
.LBB31_3:
	movq 16(%rsp), %rcx
	cmpb $1, 8(%rsp)
	movl $-10, %eax
	cmovel 12(%rsp), %eax
	testq %rcx, %rcx
	je .LBB31_9
	movq (%r15), %rsi
	movq 120(%rsi), %rdx
	movq 8(%rdx), %rdx
	testq %rdx, %rdx
	je .LBB31_5
	addq $8, %rsi
	cmpq $64, %rcx
	movl $64, %edx
	cmovbq %rcx, %rdx
	movq %rbx, %rdi
	movl %eax, %ebx
	callq tag_cache.cache.Cache.give_back_and_tell_i64_core.clone.U64Clone
	movq %rax, %rcx
	movl %ebx, %eax
	jmp .LBB31_7
.LBB31_5:
	xorl %ecx, %ecx
	xorl %edx, %edx
.LBB31_7:
	movq %rcx, (%r14)
	movq %rdx, 8(%r14)
	addl $1073741824, %eax
.LBB31_9:
	addq $32, %rsp
	popq %rbx
	popq %r14
	popq %r15
	retq
.Lfunc_end31:
	.size tag_c.cached.CachedMember.get_any, .Lfunc_end31-tag_c.cached.CachedMember.get_any
	.section .text.tag_cache.cache.Cache.win_quietly_i64_core.clone.U64Clone,"ax",@progbits
	.p2align 4
	.type tag_cache.cache.Cache.win_quietly_i64_core.clone.U64Clone,@function
tag_cache.cache.Cache.win_quietly_i64_core.clone.U64Clone:
	pushq %rbp
	pushq %r15
	pushq %r14
	pushq %r13
	pushq %r12
	pushq %rbx
	subq $40, %rsp
	movq %rdi, %rbx
	vxorps %xmm0, %xmm0, %xmm0
	vmovaps %xmm0, 16(%rsp)
	vmovaps %xmm0, (%rsp)
	movq 288(%rsi), %rax
	cmpq 320(%rsi), %rax
	jne .LBB32_1
	movw $1281, (%rbx)
	vmovups %xmm0, 8(%rbx)
	jmp .LBB32_23
.LBB32_1:
	leaq 256(%rsi), %rcx
	leaq 112(%rdx), %r9
	movl 176(%rdx), %r10d
	movl 256(%rsi), %r11d
	xorl %eax, %eax
	cmpl %r11d, %r10d
	jbe .LBB32_4
	testb $1, 260(%rsi)
	movl $0, %r8d
	movl $0, %edi
	jne .LBB32_10
	movl 180(%rdx), %edi
	shrxl %edi, %r11d, %r11d
	movq (%r9), %rax
	movq %r11, %r14
	shlq $7, %r14
	movq 576(%rax,%r14), %rax
	notq %rax
	tzcntq %rax, %r15
	shrxl %edi, %r15d, %r8d
	movl $1, %eax
	testl %r8d, %r8d
	jne .LBB32_4
	shlxl %edi, %r11d, %r8d
	addl %r15d, %r8d
	cmpl %r8d, %r10d
	jbe .LBB32_4
	movq (%r9), %r13
	movl $1, %eax
	shlxq %r15, %rax, %r12
	.p2align 4
.LBB32_7:
	movq 576(%r13,%r14), %rdi
	movq %rdi, %rbp
	orq %r12, %rbp
	movq %rdi, %rax
	lock  cmpxchgq %rbp, 576(%r13,%r14)
	jne .LBB32_7
	testq %r12, %rdi
	je .LBB32_12
	leal 1(%r15), %r8d
	movl $2, %eax
	jmp .LBB32_10
.LBB32_4:
	xorl %r8d, %r8d
	xorl %edi, %edi
.LBB32_10:
	movq %rdx, %r14
	movq %rsi, %r15
	leaq 272(%rsi), %rdx
	movl %eax, (%rsp)
	movl %r8d, 4(%rsp)
	movq %rdi, 8(%rsp)
	leaq 16(%rsp), %rdi
	movq %rsp, %r8
	movq %r9, %rsi
	callq tag_search.on_map.finish_i64
	movq 24(%rsp), %rax
	cmpb $1, 16(%rsp)
	jne .LBB32_21
	movl 20(%rsp), %r8d
	movq %r15, %rsi
	movq %r14, %rdx
.LBB32_15:
	addl 224(%rdx), %r8d
	movl %r8d, %ecx
	subl (%rsi), %ecx
	cmpq $0, 16(%rsi)
	jne .LBB32_18
	cmpl $64, %ecx
	jb .LBB32_18
	movl %r8d, %ecx
	andl $-64, %ecx
	movl %ecx, (%rsi)
	movq $0, 24(%rsi)
	movl %r8d, %ecx
	andl $63, %ecx
	jmp .LBB32_19
.LBB32_21:
	movw $0, (%rbx)
	movq $0, 8(%rbx)
	jmp .LBB32_22
.LBB32_18:
	cmpl $63, %ecx
	ja .LBB32_20
.LBB32_19:
	movl $1, %edx
	shlxq %rcx, %rdx, %rcx
	orq %rcx, 24(%rsi)
.LBB32_20:
	movw $0, (%rbx)
	movl $1, 8(%rbx)
	movl %r8d, 12(%rbx)
.LBB32_22:
	movq %rax, 16(%rbx)
.LBB32_23:
	addq $40, %rsp
	popq %rbx
	popq %r12
	popq %r13
	popq %r14
	popq %r15
	popq %rbp
	retq
.LBB32_12:
	movq 296(%rsi), %rax
	orq %r12, (%rax,%r11,8)
	incq 320(%rsi)
	cmpl 256(%rsi), %r8d
	jne .LBB32_14
	leal 1(%r8), %eax
	decl %r10d
	xorl %edi, %edi
	cmpl %r10d, %eax
	cmovbl %eax, %edi
	movl %edi, (%rcx)
.LBB32_14:
	xorl %eax, %eax
	jmp .LBB32_15
.Lfunc_end32:
	.size tag_cache.cache.Cache.win_quietly_i64_core.clone.U64Clone, .Lfunc_end32-tag_cache.cache.Cache.win_quietly_i64_core.clone.U64Clone
	.section .text.tag_pool.pool.Pool.get_batch_quietly_i64_core.clone.U64Clone,"ax",@progbits
	.p2align 4
	.type tag_pool.pool.Pool.get_batch_quietly_i64_core.clone.U64Clone,@function
tag_pool.pool.Pool.get_batch_quietly_i64_core.clone.U64Clone:
	pushq %rbp
	pushq %r15
	pushq %r14
	pushq %r13
	pushq %r12
	pushq %rbx
	movq %rdx, -64(%rsp)
	movl 180(%rsi), %r11d
	movl $1, %eax
	shlxl %r11d, %eax, %ebx
	leal -1(%rcx), %eax
	cmpl %ebx, %eax
	jae .LBB33_5
	movq -64(%rsp), %rax
	cmpb $0, 220(%rax)
	je .LBB33_8
.LBB33_2:
	xorl %r10d, %r10d
	xorl %edx, %edx
	xorl %ecx, %ecx
.LBB33_3:
	xorl %eax, %eax
.LBB33_4:
	movw $0, (%rdi)
	movq %rdx, 8(%rdi)
	movl %ecx, 16(%rdi)
	movl $0, 20(%rdi)
	movq %rax, 24(%rdi)
	movq %r10, 32(%rdi)
	jmp .LBB33_7
.LBB33_5:
	movw $769, (%rdi)
.LBB33_6:
	vxorps %xmm0, %xmm0, %xmm0
	vmovups %ymm0, 8(%rdi)
.LBB33_7:
	popq %rbx
	popq %r12
	popq %r13
	popq %r14
	popq %r15
	popq %rbp
	vzeroupper
	retq
.LBB33_8:
	movq -64(%rsp), %rax
	movq 248(%rax), %rdx
	movl %ecx, %r8d
	subq 280(%rax), %rdx
	cmpq %r8, %rdx
	jae .LBB33_10
	movw $1281, (%rdi)
	jmp .LBB33_6
.LBB33_10:
	movl 176(%rsi), %r9d
	movq -64(%rsp), %rax
	movl 216(%rax), %edx
	cmpl %r9d, %edx
	jb .LBB33_13
	testl %r9d, %r9d
	je .LBB33_34
	movl %edx, %eax
	xorl %edx, %edx
	divl %r9d
.LBB33_13:
	leal (%rbx,%r9), %eax
	decl %eax
	shrxl %r11d, %eax, %ebp
	testl %ebp, %ebp
	je .LBB33_35
.LBB33_14:
	movq %rdi, -16(%rsp)
	movl %edx, -56(%rsp)
	shrxl %r11d, %edx, %r13d
	leal -1(%r9), %eax
	movl %eax, -48(%rsp)
	movl %ebp, %eax
	subl %r13d, %eax
	movl %eax, -28(%rsp)
	negl %eax
	movl %eax, -32(%rsp)
	movq $-1, %rax
	bzhiq %rcx, %rax, %rax
	movq %rax, -8(%rsp)
	xorl %r10d, %r10d
	movl $0, -52(%rsp)
	movq $0, -24(%rsp)
	xorl %r14d, %r14d
	movl %r11d, -36(%rsp)
	movl %ebp, -40(%rsp)
	movl %r13d, -44(%rsp)
	jmp .LBB33_16
	.p2align 4
.LBB33_15:
	incl %r14d
	cmpl %ebp, %r14d
	je .LBB33_26
.LBB33_16:
	cmpl -28(%rsp), %r14d
	movl -32(%rsp), %eax
	movl %eax, %edx
	cmovbl %r13d, %edx
	addl %r14d, %edx
	movq 112(%rsi), %rax
	movq %rdx, %r12
	shlq $7, %r12
	movq 640(%rax,%r12), %rax
	testq %rax, %rax
	je .LBB33_19
	movq 112(%rsi), %rdi
	xorl %eax, %eax
	xchgq %rax, 640(%rdi,%r12)
	testq %rax, %rax
	je .LBB33_19
	movq 112(%rsi), %rdi
	lock  subq %rax, 576(%rdi,%r12)
	popcntq %rax, %rdi
	addq %r10, %rdi
	movq $-1, %r10
	cmovaeq %rdi, %r10
	movl %edx, -52(%rsp)
	movq %rax, -24(%rsp)
.LBB33_19:
	movq 112(%rsi), %rax
	movq 576(%rax,%r12), %rdi
	shlxl %r11d, %edx, %r15d
	movl %r9d, %eax
	subl %r15d, %eax
	je .LBB33_15
	cmpl %eax, %ebx
	cmovbl %ebx, %eax
	notq %rdi
	tzcntq %rdi, %r8
	cmpl %r8d, %eax
	jbe .LBB33_15
	leal (%rcx,%r8), %edi
	cmpl %edi, %eax
	jb .LBB33_15
	movq %rbx, %r11
	movq %r10, %rbx
	movq %r9, %r10
	movq 112(%rsi), %rbp
	shlxq %r8, -8(%rsp), %rdi
	.p2align 4
.LBB33_23:
	movq 576(%rbp,%r12), %r9
	movq %r9, %r13
	orq %rdi, %r13
	movq %r9, %rax
	lock  cmpxchgq %r13, 576(%rbp,%r12)
	jne .LBB33_23
	andnq %rdi, %r9, %rax
	movq -64(%rsp), %r9
	movq 256(%r9), %r12
	orq %rax, (%r12,%rdx,8)
	popcntq %rax, %rdx
	cmpq %rdi, %rax
	cmovel %ecx, %edx
	addq %rdx, 280(%r9)
	testq %rax, %rax
	movq %r10, %r9
	movq %rbx, %r10
	movq %r11, %rbx
	movl -36(%rsp), %r11d
	movl -40(%rsp), %ebp
	movl -44(%rsp), %r13d
	je .LBB33_15
	shrxq %r8, %rax, %rax
	addl %r8d, %r15d
	leal (%r15,%rcx), %edx
	leal (%rcx,%r15), %edi
	decl %edi
	xorl %r8d, %r8d
	cmpl -48(%rsp), %edx
	cmovbl %edx, %r8d
	movq -64(%rsp), %rcx
	testb $1, 220(%rcx)
	movl -56(%rsp), %edx
	movl %edx, %ecx
	cmovnel %r8d, %ecx
	cmpl %edx, %edi
	cmovel %r8d, %ecx
	movb $1, %dl
	movl %ecx, %edi
	jmp .LBB33_27
.LBB33_26:
	xorl %eax, %eax
	xorl %r15d, %r15d
	xorl %edx, %edx
	movl -56(%rsp), %edi
.LBB33_27:
	movq -64(%rsp), %rcx
	movl %edi, 216(%rcx)
	xorl %ecx, %ecx
	testq %r10, %r10
	movq -16(%rsp), %rdi
	je .LBB33_32
	movl -52(%rsp), %r9d
	movq -64(%rsp), %r8
	cmpq %r9, 264(%r8)
	jbe .LBB33_30
	movq -64(%rsp), %r8
	movq 256(%r8), %r8
	movq -24(%rsp), %r11
	andq (%r8,%r9,8), %r11
	popcntq %r11, %r9
	xorl %r8d, %r8d
	subq %r9, %r10
	cmovbq %r8, %r10
.LBB33_30:
	testb %dl, %dl
	je .LBB33_33
.LBB33_31:
	addl 224(%rsi), %r15d
	movl $1, %edx
	movl %r15d, %ecx
	jmp .LBB33_4
.LBB33_32:
	xorl %r10d, %r10d
	testb %dl, %dl
	jne .LBB33_31
.LBB33_33:
	xorl %edx, %edx
	jmp .LBB33_3
.LBB33_34:
	xorl %edx, %edx
	leal (%rbx,%r9), %eax
	decl %eax
	shrxl %r11d, %eax, %ebp
	testl %ebp, %ebp
	jne .LBB33_14
.LBB33_35:
	movq -64(%rsp), %rax
	movl %edx, 216(%rax)
	jmp .LBB33_2
.Lfunc_end33:
	.size tag_pool.pool.Pool.get_batch_quietly_i64_core.clone.U64Clone, .Lfunc_end33-tag_pool.pool.Pool.get_batch_quietly_i64_core.clone.U64Clone
	.section .text.tag_c.gets.CachedMemberGetCalls.get_batch,"ax",@progbits
	.p2align 4
	.type tag_c.gets.CachedMemberGetCalls.get_batch,@function
tag_c.gets.CachedMemberGetCalls.get_batch:
	pushq %rbp
	pushq %r15
	pushq %r14
	pushq %rbx
	subq $40, %rsp
	movq %rcx, %rbx
	movq %rdx, %r15
	movl %esi, %ecx
	movq %rdi, %r14
	movq (%rdi), %rsi
	addq $8, %rsi
	vxorps %xmm0, %xmm0, %xmm0
	vmovups %ymm0, (%rsp)
	movq $0, 32(%rsp)
	leaq 48(%rdi), %rdx
	movq %rsp, %rdi
	vzeroupper
	callq tag_pool.pool.Pool.get_batch_quietly_i64_core.clone.U64Clone
	cmpb $0, (%rsp)
	je .LBB34_1
	movzbl 1(%rsp), %eax
	leaq .Lswitch.table.tags_library_wait_on_reserved.286(%rip), %rcx
	movl (%rcx,%rax,4), %eax
	jmp .LBB34_9
.LBB34_1:
	movq 32(%rsp), %rcx
	movl $-10, %eax
	cmpb $1, 8(%rsp)
	jne .LBB34_3
	movl 16(%rsp), %eax
	movq 24(%rsp), %rdx
	movq %rdx, (%r15)
.LBB34_3:
	testq %rcx, %rcx
	je .LBB34_9
	movq (%r14), %rsi
	movq 120(%rsi), %rdx
	movq 8(%rdx), %rdx
	testq %rdx, %rdx
	je .LBB34_5
	addq $8, %r14
	addq $8, %rsi
	cmpq $64, %rcx
	movl $64, %edx
	cmovbq %rcx, %rdx
	movq %r14, %rdi
	movl %eax, %ebp
	callq tag_cache.cache.Cache.give_back_and_tell_i64_core.clone.U64Clone
	movq %rax, %rcx
	movl %ebp, %eax
	jmp .LBB34_7
.LBB34_5:
	xorl %ecx, %ecx
	xorl %edx, %edx
.LBB34_7:
	movq %rcx, (%rbx)
	movq %rdx, 8(%rbx)
	addl $1073741824, %eax
.LBB34_9:
	addq $40, %rsp
	popq %rbx
	popq %r14
	popq %r15
	popq %rbp
	retq
.Lfunc_end34:
	.size tag_c.gets.CachedMemberGetCalls.get_batch, .Lfunc_end34-tag_c.gets.CachedMemberGetCalls.get_batch
	.section .text.tag_pool.pool.Pool.get_exactly_quietly_i64_core.clone.U64Clone,"ax",@progbits
	.p2align 4
	.type tag_pool.pool.Pool.get_exactly_quietly_i64_core.clone.U64Clone,@function
tag_pool.pool.Pool.get_exactly_quietly_i64_core.clone.U64Clone:
	pushq %rbp
	pushq %r15
	pushq %r14
	pushq %rbx
	subq $56, %rsp
	cmpl %ecx, 228(%rsi)
	jbe .LBB35_5
	movl %ecx, %ebx
	subl 224(%rsi), %ebx
	jae .LBB35_10
	movq 40(%rdx), %rax
	cmpq 72(%rdx), %rax
	je .LBB35_19
	movq %rdi, %rbx
	addq $24, %rdx
	movzbl 68(%rsi), %eax
	bzhil %eax, %ecx, %edi
	movl %edi, 4(%rsp)
	incl %edi
	movl %edi, 8(%rsp)
	movl $0, 12(%rsp)
	movq %rsi, 16(%rsp)
	movq %rdx, 24(%rsp)
	vxorps %xmm0, %xmm0, %xmm0
	vmovups %xmm0, 32(%rsp)
	movq $0, 48(%rsp)
	movl %ecx, %ebp
	shrxl %eax, %ecx, %esi
	leaq 16(%rsp), %rdi
	leaq 4(%rsp), %rdx
	movl $4, %ecx
	callq tag_search.pass.visit__989a3ead4d9545f0
	movq 32(%rsp), %rdx
	xorl %ecx, %ecx
	testq %rdx, %rdx
	je .LBB35_4
	movq 24(%rsp), %rsi
	movl 40(%rsp), %edi
	cmpq %rdi, 32(%rsi)
	jbe .LBB35_9
	movq 24(%rsi), %rsi
	movq (%rsi,%rdi,8), %rsi
	andq 48(%rsp), %rsi
	popcntq %rsi, %rsi
	xorl %edi, %edi
	subq %rsi, %rdx
	cmovbq %rdi, %rdx
	jmp .LBB35_9
.LBB35_5:
	movw $1, (%rdi)
	jmp .LBB35_6
.LBB35_10:
	movq 248(%rdx), %rax
	cmpq 280(%rdx), %rax
	jne .LBB35_11
.LBB35_19:
	movw $1281, (%rdi)
.LBB35_6:
	vxorps %xmm0, %xmm0, %xmm0
	vmovups %xmm0, 8(%rdi)
.LBB35_18:
	addq $56, %rsp
	popq %rbx
	popq %r14
	popq %r15
	popq %rbp
	retq
.LBB35_11:
	movq %rdi, %r14
	addq $232, %rdx
	leaq 112(%rsi), %rax
	movq %rsi, %r15
	movzbl 180(%rsi), %ecx
	bzhil %ecx, %ebx, %esi
	movl %esi, 4(%rsp)
	incl %esi
	movl %esi, 8(%rsp)
	movl $0, 12(%rsp)
	movq %rax, 16(%rsp)
	movq %rdx, 24(%rsp)
	vxorps %xmm0, %xmm0, %xmm0
	vmovups %xmm0, 32(%rsp)
	movq $0, 48(%rsp)
	shrxl %ecx, %ebx, %esi
	leaq 16(%rsp), %rdi
	leaq 4(%rsp), %rdx
	movl $4, %ecx
	callq tag_search.pass.visit__989a3ead4d9545f0
	movq 32(%rsp), %rcx
	xorl %edx, %edx
	testq %rcx, %rcx
	je .LBB35_12
	movq 24(%rsp), %rsi
	movl 40(%rsp), %edi
	cmpq %rdi, 32(%rsi)
	jbe .LBB35_15
	movq 24(%rsi), %rsi
	movq (%rsi,%rdi,8), %rsi
	andq 48(%rsp), %rsi
	popcntq %rsi, %rsi
	xorl %edi, %edi
	subq %rsi, %rcx
	cmovbq %rdi, %rcx
	jmp .LBB35_15
.LBB35_4:
	xorl %edx, %edx
.LBB35_9:
	cmpb $1, %al
	cmovel %ebp, %ecx
	movzbl %al, %eax
	movw $0, (%rbx)
	movl %eax, 8(%rbx)
	movl %ecx, 12(%rbx)
	movq %rdx, 16(%rbx)
	jmp .LBB35_18
.LBB35_12:
	xorl %ecx, %ecx
.LBB35_15:
	movzbl %al, %eax
	cmpb $1, %al
	jne .LBB35_17
	addl 224(%r15), %ebx
	movl %ebx, %edx
.LBB35_17:
	movw $0, (%r14)
	movl %eax, 8(%r14)
	movl %edx, 12(%r14)
	movq %rcx, 16(%r14)
	jmp .LBB35_18
.Lfunc_end35:
	.size tag_pool.pool.Pool.get_exactly_quietly_i64_core.clone.U64Clone, .Lfunc_end35-tag_pool.pool.Pool.get_exactly_quietly_i64_core.clone.U64Clone
	.section .text.tag_c.gets.CachedMemberGetCalls.get_exactly,"ax",@progbits
	.p2align 4
	.type tag_c.gets.CachedMemberGetCalls.get_exactly,@function
tag_c.gets.CachedMemberGetCalls.get_exactly:
	pushq %rbp
	pushq %r15
	pushq %r14
	pushq %r13
	pushq %r12
	pushq %rbx
	subq $24, %rsp
	movq %rdx, %rbx
	movl %esi, %ebp
	movq %rdi, %r14
	movq (%rdi), %rsi
	vxorps %xmm0, %xmm0, %xmm0
	vmovaps %xmm0, (%rsp)
	movq $0, 16(%rsp)
	movl %ebp, %eax
	subl 8(%rdi), %eax
	cmpl $63, %eax
	ja .LBB36_3
	movq 24(%r14), %rcx
	btq %rax, %rcx
	jae .LBB36_3
	movl $1, %edx
	shlxq %rax, %rdx, %rax
	andnq %rcx, %rax, %rcx
	movq %rcx, 24(%r14)
	orq %rax, 32(%r14)
	incl 16(%r14)
	incq 40(%r14)
	jmp .LBB36_18
.LBB36_3:
	addq $8, %rsi
	leaq 48(%r14), %rdx
	movq %rsp, %rdi
	movl %ebp, %ecx
	callq tag_pool.pool.Pool.get_exactly_quietly_i64_core.clone.U64Clone
	cmpb $0, (%rsp)
	je .LBB36_5
	movzbl 1(%rsp), %eax
	leaq .Lswitch.table.tags_library_wait_on_reserved.286(%rip), %rcx
	movl (%rcx,%rax,4), %ebp
	jmp .LBB36_18
.LBB36_5:
	movq 16(%rsp), %rax
	cmpb $1, 8(%rsp)
	movl $-10, %r15d
	cmovel 12(%rsp), %r15d
	testq %rax, %rax
	je .LBB36_17
	leaq 8(%r14), %rdi
	movq (%r14), %rcx
	leaq 8(%rcx), %rsi
	cmpq $64, %rax
	movl $64, %edx
	cmovbq %rax, %rdx
	cmpl 232(%rcx), %ebp
	jae .LBB36_10
	movq (%rsi), %rax
	movq 8(%rax), %rax
	testq %rax, %rax
	je .LBB36_12
	movq %rdi, %r12
	movq %rsi, %rdi
	movl %edx, %esi
	movq %rax, %rdx
	callq tag_bell.telling.tell_each_i64
	movq %r12, %rdi
	movq %rax, %r12
	movq %rdx, %r13
	jmp .LBB36_13
.LBB36_10:
	movq 120(%rcx), %rax
	movq 8(%rax), %rax
	testq %rax, %rax
	je .LBB36_15
	callq tag_cache.cache.Cache.give_back_and_tell_i64_core.clone.U64Clone
	movq %rax, %r12
	movq %rdx, %r13
	jmp .LBB36_16
.LBB36_12:
	xorl %r12d, %r12d
	xorl %r13d, %r13d
.LBB36_13:
	movq (%r14), %rsi
	movq 120(%rsi), %rax
	movq 8(%rax), %rax
	testq %rax, %rax
	je .LBB36_16
	addq $8, %rsi
	xorl %edx, %edx
	callq tag_cache.cache.Cache.give_back_and_tell_i64_core.clone.U64Clone
	orq %rax, %r12
	orq %rdx, %r13
	jmp .LBB36_16
.LBB36_15:
	xorl %r12d, %r12d
	xorl %r13d, %r13d
.LBB36_16:
	movq %r12, (%rbx)
	movq %r13, 8(%rbx)
	addl $1073741824, %r15d
.LBB36_17:
	movl %r15d, %ebp
.LBB36_18:
	movl %ebp, %eax
	addq $24, %rsp
	popq %rbx
	popq %r12
	popq %r13
	popq %r14
	popq %r15
	popq %rbp
	retq
.Lfunc_end36:
	.size tag_c.gets.CachedMemberGetCalls.get_exactly, .Lfunc_end36-tag_c.gets.CachedMemberGetCalls.get_exactly
	.section .text.tag_pool.pool.Pool.get_many_quietly_i64_core.clone.U64Clone,"ax",@progbits
	.p2align 4
	.type tag_pool.pool.Pool.get_many_quietly_i64_core.clone.U64Clone,@function
tag_pool.pool.Pool.get_many_quietly_i64_core.clone.U64Clone:
	pushq %rbp
	pushq %r15
	pushq %r14
	pushq %r13
	pushq %r12
	pushq %rbx
	subq $72, %rsp
	movq %rcx, (%rsp)
	movl $0, 11(%rsp)
	movl $0, 8(%rsp)
	movl 176(%rsi), %ecx
	movb $3, %al
	cmpq %rcx, %r8
	ja .LBB37_32
	movq %r8, %r12
	movq %rdx, %r15
	movq 248(%rdx), %rcx
	subq 280(%rdx), %rcx
	movb $5, %al
	cmpq %r8, %rcx
	jae .LBB37_2
.LBB37_32:
	movb $1, (%rdi)
	movb %al, 1(%rdi)
	vxorps %xmm0, %xmm0, %xmm0
	vmovups %xmm0, 8(%rdi)
	jmp .LBB37_33
.LBB37_2:
	movb $1, %al
	testq %r12, %r12
	je .LBB37_3
	movq %rsi, %rbp
	movq %rdi, 16(%rsp)
	leaq 216(%r15), %rax
	movq %rax, 64(%rsp)
	leaq 112(%rsi), %rax
	movq %rax, 24(%rsp)
	xorl %ebx, %ebx
	xorl %r14d, %r14d
	.p2align 4
.LBB37_5:
	vxorps %xmm0, %xmm0, %xmm0
	vmovaps %xmm0, 48(%rsp)
	vmovaps %xmm0, 32(%rsp)
	movq 248(%r15), %rax
	cmpq 280(%r15), %rax
	je .LBB37_34
	movl 176(%rbp), %edx
	movl 216(%r15), %edi
	xorl %eax, %eax
	cmpl %edi, %edx
	jbe .LBB37_9
	testb $1, 220(%r15)
	movl $0, %esi
	movl $0, %r13d
	jne .LBB37_15
	movl 180(%rbp), %ecx
	shrxl %ecx, %edi, %edi
	leaq 112(%rbp), %rax
	movq (%rax), %rax
	movq %rdi, %r8
	shlq $7, %r8
	movq 576(%rax,%r8), %rax
	notq %rax
	tzcntq %rax, %r9
	shrxl %ecx, %r9d, %esi
	movl $1, %eax
	testl %esi, %esi
	jne .LBB37_9
	shlxl %ecx, %edi, %esi
	addl %r9d, %esi
	cmpl %esi, %edx
	jbe .LBB37_9
	leaq 112(%rbp), %rax
	movq (%rax), %r11
	movl $1, %eax
	shlxq %r9, %rax, %r10
	.p2align 4
.LBB37_12:
	movq 576(%r11,%r8), %r13
	movq %r13, %rcx
	orq %r10, %rcx
	movq %r13, %rax
	lock  cmpxchgq %rcx, 576(%r11,%r8)
	jne .LBB37_12
	testq %r10, %r13
	je .LBB37_17
	leal 1(%r9), %esi
	movl $2, %eax
	jmp .LBB37_15
	.p2align 4
.LBB37_9:
	xorl %esi, %esi
	xorl %r13d, %r13d
.LBB37_15:
	movl %eax, 32(%rsp)
	movl %esi, 36(%rsp)
	movq %r13, 40(%rsp)
	leaq 48(%rsp), %rdi
	leaq 32(%rsp), %r8
	leaq 112(%rbp), %rsi
	leaq 232(%r15), %rdx
	leaq 216(%r15), %rcx
	callq tag_search.on_map.finish_i64
	movq 56(%rsp), %rax
	cmpb $1, 48(%rsp)
	jne .LBB37_22
	movl 52(%rsp), %esi
.LBB37_20:
	addl 224(%rbp), %esi
	addq %rbx, %rax
	movq $-1, %rbx
	cmovaeq %rax, %rbx
	movq (%rsp), %rax
	movl %esi, (%rax,%r14,4)
	incq %r14
	cmpq %r12, %r14
	jne .LBB37_5
	jmp .LBB37_21
.LBB37_17:
	movq 256(%r15), %rax
	orq %r10, (%rax,%rdi,8)
	incq 280(%r15)
	cmpl 216(%r15), %esi
	jne .LBB37_19
	leal 1(%rsi), %eax
	decl %edx
	xorl %ecx, %ecx
	cmpl %edx, %eax
	cmovbl %eax, %ecx
	leaq 216(%r15), %rax
	movl %ecx, (%rax)
.LBB37_19:
	xorl %eax, %eax
	jmp .LBB37_20
.LBB37_3:
	xorl %ebx, %ebx
	jmp .LBB37_31
.LBB37_21:
	movq 16(%rsp), %rdi
	movb $1, %al
	jmp .LBB37_31
.LBB37_22:
	addq %rbx, %rax
	movq $-1, %rcx
	cmovbq %rcx, %rax
	testq %r14, %r14
	je .LBB37_30
	movl 180(%rbp), %edi
	movl 224(%rbp), %edx
	movq (%rsp), %rsi
	movl (%rsi), %esi
	subl %edx, %esi
	shrxl %edi, %esi, %r10d
	movl $-1, %esi
	shlxl %edi, %esi, %r8d
	notl %r8d
	xorl %esi, %esi
	xorl %r9d, %r9d
	jmp .LBB37_24
	.p2align 4
.LBB37_26:
	movq 24(%rsp), %r12
	movq (%r12), %r12
	movl %r10d, %r10d
	movq %r10, %r13
	shlq $7, %r13
	lock  subq %rsi, 576(%r12,%r13)
	movq 256(%r15), %r12
	popcntq %rsi, %r13
	notq %rsi
	andq %rsi, (%r12,%r10,8)
	addq %r13, 288(%r15)
	movq %rbx, %rsi
	movl %r11d, %r10d
	incq %r9
	cmpq %r9, %r14
	je .LBB37_28
.LBB37_24:
	movq (%rsp), %r11
	movl (%r11,%r9,4), %ebx
	subl %edx, %ebx
	shrxl %edi, %ebx, %r11d
	andl %r8d, %ebx
	movl $1, %r12d
	shlxq %rbx, %r12, %rbx
	cmpl %r10d, %r11d
	jne .LBB37_26
	orq %rbx, %rsi
	incq %r9
	cmpq %r9, %r14
	jne .LBB37_24
.LBB37_28:
	movq 24(%rsp), %rdi
	movq (%rdi), %rdi
	movl %r10d, %r8d
	movq %r8, %r9
	shlq $7, %r9
	lock  subq %rsi, 576(%rdi,%r9)
	movq 256(%r15), %rdi
	popcntq %rsi, %r9
	notq %rsi
	andq %rsi, (%rdi,%r8,8)
	addq %r9, 288(%r15)
	cmpb $0, 220(%r15)
	jne .LBB37_30
	movq (%rsp), %rsi
	movl -4(%rsi,%r14,4), %esi
	subl %edx, %esi
	movq 64(%rsp), %rdx
	movl %esi, (%rdx)
.LBB37_30:
	addq %rax, %r14
	cmovbq %rcx, %r14
	xorl %eax, %eax
	movq %r14, %rbx
	movq 16(%rsp), %rdi
.LBB37_31:
	movw $0, (%rdi)
	movb %al, 8(%rdi)
	movl 8(%rsp), %eax
	movl 11(%rsp), %ecx
	movl %eax, 9(%rdi)
	movl %ecx, 12(%rdi)
	movq %rbx, 16(%rdi)
.LBB37_33:
	addq $72, %rsp
	popq %rbx
	popq %r12
	popq %r13
	popq %r14
	popq %r15
	popq %rbp
	retq
.LBB37_34:
	ud2
.Lfunc_end37:
	.size tag_pool.pool.Pool.get_many_quietly_i64_core.clone.U64Clone, .Lfunc_end37-tag_pool.pool.Pool.get_many_quietly_i64_core.clone.U64Clone
	.section .text.tag_c.gets.CachedMemberGetCalls.get_many,"ax",@progbits
	.p2align 4
	.type tag_c.gets.CachedMemberGetCalls.get_many,@function
tag_c.gets.CachedMemberGetCalls.get_many:
	pushq %rbp
	pushq %r14
	pushq %rbx
	subq $32, %rsp
	movq %rcx, %rbx
	movq %rdx, %r8
	movq %rsi, %rcx
	movq %rdi, %r14
	movq (%rdi), %rsi
	addq $8, %rsi
	vxorps %xmm0, %xmm0, %xmm0
	vmovaps %xmm0, (%rsp)
	movq $0, 16(%rsp)
	leaq 48(%rdi), %rdx
	movq %rsp, %rdi
	callq tag_pool.pool.Pool.get_many_quietly_i64_core.clone.U64Clone
	cmpb $0, (%rsp)
	je .LBB38_1
	movzbl 1(%rsp), %eax
	leaq .Lswitch.table.tags_library_wait_on_reserved.286(%rip), %rcx
	movl (%rcx,%rax,4), %eax
	jmp .LBB38_7
.LBB38_1:
	movq 16(%rsp), %rcx
	xorl %edx, %edx
	testb $1, 8(%rsp)
	movl $-10, %eax
	cmovnel %edx, %eax
	testq %rcx, %rcx
	je .LBB38_7
	movq (%r14), %rsi
	movq 120(%rsi), %rdx
	movq 8(%rdx), %rdx
	testq %rdx, %rdx
	je .LBB38_3
	addq $8, %r14
	addq $8, %rsi
	cmpq $64, %rcx
	movl $64, %edx
	cmovbq %rcx, %rdx
	movq %r14, %rdi
	movl %eax, %ebp
	callq tag_cache.cache.Cache.give_back_and_tell_i64_core.clone.U64Clone
	movq %rax, %rcx
	movl %ebp, %eax
	jmp .LBB38_5
.LBB38_3:
	xorl %ecx, %ecx
	xorl %edx, %edx
.LBB38_5:
	movq %rcx, (%rbx)
	movq %rdx, 8(%rbx)
	addl $1073741824, %eax
.LBB38_7:
	addq $32, %rsp
	popq %rbx
	popq %r14
	popq %rbp
	retq
.Lfunc_end38:
	.size tag_c.gets.CachedMemberGetCalls.get_many, .Lfunc_end38-tag_c.gets.CachedMemberGetCalls.get_many
	.section .text.tag_pool.pool.Pool.get_reserved_quietly_i64_core.clone.U64Clone,"ax",@progbits
	.p2align 4
	.type tag_pool.pool.Pool.get_reserved_quietly_i64_core.clone.U64Clone,@function
tag_pool.pool.Pool.get_reserved_quietly_i64_core.clone.U64Clone:
	pushq %r15
	pushq %r14
	pushq %r13
	pushq %r12
	pushq %rbx
	subq $32, %rsp
	cmpl $0, 224(%rsi)
	je .LBB39_1
	vxorps %xmm0, %xmm0, %xmm0
	vmovaps %xmm0, 16(%rsp)
	vmovaps %xmm0, (%rsp)
	movq 40(%rdx), %rax
	cmpq 72(%rdx), %rax
	jne .LBB39_3
	movw $1281, (%rdi)
	jmp .LBB39_17
.LBB39_1:
	movw $1537, (%rdi)
	vxorps %xmm0, %xmm0, %xmm0
.LBB39_17:
	vmovups %xmm0, 8(%rdi)
	jmp .LBB39_18
.LBB39_3:
	leaq 8(%rdx), %rcx
	movl 64(%rsi), %r9d
	movl 8(%rdx), %r11d
	xorl %eax, %eax
	cmpl %r11d, %r9d
	jbe .LBB39_6
	testb $1, 12(%rdx)
	movl $0, %r10d
	movl $0, %r8d
	jne .LBB39_12
	movl 68(%rsi), %r8d
	shrxl %r8d, %r11d, %r11d
	movq (%rsi), %rax
	movq %r11, %rbx
	shlq $7, %rbx
	movq 576(%rax,%rbx), %rax
	notq %rax
	tzcntq %rax, %r14
	shrxl %r8d, %r14d, %r10d
	movl $1, %eax
	testl %r10d, %r10d
	jne .LBB39_6
	shlxl %r8d, %r11d, %r10d
	addl %r14d, %r10d
	cmpl %r10d, %r9d
	jbe .LBB39_6
	movq (%rsi), %r12
	movl $1, %eax
	shlxq %r14, %rax, %r15
	.p2align 4
.LBB39_9:
	movq 576(%r12,%rbx), %r8
	movq %r8, %r13
	orq %r15, %r13
	movq %r8, %rax
	lock  cmpxchgq %r13, 576(%r12,%rbx)
	jne .LBB39_9
	testq %r15, %r8
	je .LBB39_13
	leal 1(%r14), %r10d
	movl $2, %eax
	jmp .LBB39_12
.LBB39_6:
	xorl %r10d, %r10d
	xorl %r8d, %r8d
.LBB39_12:
	addq $24, %rdx
	movl %eax, (%rsp)
	movl %r10d, 4(%rsp)
	movq %r8, 8(%rsp)
	leaq 16(%rsp), %rax
	movq %rsp, %r8
	movq %rdi, %rbx
	movq %rax, %rdi
	callq tag_search.on_map.finish_i64
	movq %rbx, %rdi
	movzbl 16(%rsp), %eax
	movl 20(%rsp), %r10d
	movq 24(%rsp), %rsi
.LBB39_15:
	movw $0, (%rdi)
	movl %eax, 8(%rdi)
	movl %r10d, 12(%rdi)
	movq %rsi, 16(%rdi)
.LBB39_18:
	addq $32, %rsp
	popq %rbx
	popq %r12
	popq %r13
	popq %r14
	popq %r15
	retq
.LBB39_13:
	movq 48(%rdx), %rax
	orq %r15, (%rax,%r11,8)
	incq 72(%rdx)
	movl $1, %eax
	xorl %esi, %esi
	cmpl 8(%rdx), %r10d
	jne .LBB39_15
	leal 1(%r10), %edx
	decl %r9d
	cmpl %r9d, %edx
	cmovael %esi, %edx
	movl %edx, (%rcx)
	jmp .LBB39_15
.Lfunc_end39:
	.size tag_pool.pool.Pool.get_reserved_quietly_i64_core.clone.U64Clone, .Lfunc_end39-tag_pool.pool.Pool.get_reserved_quietly_i64_core.clone.U64Clone
	.section .text.tag_c.gets.CachedMemberGetCalls.get_reserved,"ax",@progbits
	.p2align 4
	.type tag_c.gets.CachedMemberGetCalls.get_reserved,@function
tag_c.gets.CachedMemberGetCalls.get_reserved:
	pushq %rbp
	pushq %r15
	pushq %r14
	pushq %r12
	pushq %rbx
	subq $32, %rsp
	movq %rsi, %rbx
	movq %rdi, %r14
	movq (%rdi), %rsi
	addq $8, %rsi
	vxorps %xmm0, %xmm0, %xmm0
	vmovaps %xmm0, (%rsp)
	movq $0, 16(%rsp)
	leaq 48(%rdi), %rdx
	movq %rsp, %rdi
	callq tag_pool.pool.Pool.get_reserved_quietly_i64_core.clone.U64Clone
	cmpb $0, (%rsp)
	je .LBB40_1
	movzbl 1(%rsp), %eax
	leaq .Lswitch.table.tags_library_wait_on_reserved.286(%rip), %rcx
	movl (%rcx,%rax,4), %eax
	jmp .LBB40_9
.LBB40_1:
	movq 16(%rsp), %rcx
	cmpb $1, 8(%rsp)
	movl $-10, %eax
	cmovel 12(%rsp), %eax
	testq %rcx, %rcx
	je .LBB40_9
	movl %eax, %ebp
	movq (%r14), %rdi
	movq 8(%rdi), %rax
	movq 8(%rax), %rdx
	testq %rdx, %rdx
	je .LBB40_3
	addq $8, %rdi
	cmpq $64, %rcx
	movl $64, %esi
	cmovbq %rcx, %rsi
	callq tag_bell.telling.tell_each_i64
	movq %rax, %r15
	movq %rdx, %r12
	jmp .LBB40_5
.LBB40_3:
	xorl %r15d, %r15d
	xorl %r12d, %r12d
.LBB40_5:
	movq (%r14), %rsi
	movq 120(%rsi), %rax
	movq 8(%rax), %rax
	testq %rax, %rax
	je .LBB40_7
	addq $8, %r14
	addq $8, %rsi
	movq %r14, %rdi
	xorl %edx, %edx
	callq tag_cache.cache.Cache.give_back_and_tell_i64_core.clone.U64Clone
	orq %rax, %r15
	orq %rdx, %r12
.LBB40_7:
	movq %r15, (%rbx)
	movq %r12, 8(%rbx)
	movl %ebp, %eax
	addl $1073741824, %eax
.LBB40_9:
	addq $32, %rsp
	popq %rbx
	popq %r12
	popq %r14
	popq %r15
	popq %rbp
	retq
.Lfunc_end40:
	.size tag_c.gets.CachedMemberGetCalls.get_reserved, .Lfunc_end40-tag_c.gets.CachedMemberGetCalls.get_reserved
	.section .text.tag_pool.pool.Pool.get_shallow_quietly_i64_core.clone.U64Clone,"ax",@progbits
	.p2align 4
	.type tag_pool.pool.Pool.get_shallow_quietly_i64_core.clone.U64Clone,@function
tag_pool.pool.Pool.get_shallow_quietly_i64_core.clone.U64Clone:
	pushq %rbp
	pushq %r15
	pushq %r14
	pushq %r12
	pushq %rbx
	subq $80, %rsp
	cmpl 232(%rsi), %ecx
	jae .LBB41_2
	movw $1025, (%rdi)
	vxorps %xmm0, %xmm0, %xmm0
	jmp .LBB41_19
.LBB41_2:
	leaq 112(%rsi), %rax
	leaq 232(%rdx), %r8
	vxorps %xmm0, %xmm0, %xmm0
	vmovups %xmm0, 56(%rsp)
	movq $0, 72(%rsp)
	movq %rax, 40(%rsp)
	movq %r8, 48(%rsp)
	movq 248(%rdx), %rax
	cmpq 280(%rdx), %rax
	jne .LBB41_3
	movw $1281, (%rdi)
.LBB41_19:
	vmovups %xmm0, 8(%rdi)
	jmp .LBB41_20
.LBB41_3:
	movl 176(%rsi), %ebp
	movl 180(%rsi), %r8d
	movl 216(%rdx), %ebx
	movq %rdx, %r12
	movq %rsi, %r14
	movq %rdi, %r15
	cmpl %ebp, %ebx
	jb .LBB41_7
	testl %ebp, %ebp
	je .LBB41_5
	movl %ebx, %eax
	xorl %edx, %edx
	divl %ebp
	movl %edx, %ebx
	jmp .LBB41_7
.LBB41_5:
	xorl %ebx, %ebx
.LBB41_7:
	shrxl %r8d, %ebx, %eax
	bzhil %r8d, %ebx, %edx
	movl %ebp, 12(%rsp)
	movl %r8d, 16(%rsp)
	movl %eax, 20(%rsp)
	movl %edx, 24(%rsp)
	movl $1, 28(%rsp)
	movl %ecx, 32(%rsp)
	movb $1, 36(%rsp)
	movw $0, 37(%rsp)
	movb $0, 39(%rsp)
	leaq 12(%rsp), %rdi
	leaq 40(%rsp), %rsi
	callq tag_search.scan.Scan.search__989a3ead4d9545f0
	xorl %ecx, %ecx
	cmpb $1, %al
	jne .LBB41_11
	cmpl %ebx, %edx
	je .LBB41_10
	testb $1, 220(%r12)
	movl %ebx, %ecx
	je .LBB41_11
.LBB41_10:
	leal 1(%rdx), %esi
	decl %ebp
	xorl %ecx, %ecx
	cmpl %ebp, %esi
	cmovbl %esi, %ecx
.LBB41_11:
	movl %ecx, 216(%r12)
	movq 56(%rsp), %rcx
	xorl %esi, %esi
	testq %rcx, %rcx
	je .LBB41_12
	movq 48(%rsp), %rdi
	movl 64(%rsp), %r8d
	cmpq %r8, 32(%rdi)
	jbe .LBB41_15
	movq 24(%rdi), %rdi
	movq (%rdi,%r8,8), %rdi
	andq 72(%rsp), %rdi
	popcntq %rdi, %rdi
	xorl %r8d, %r8d
	subq %rdi, %rcx
	cmovbq %r8, %rcx
.LBB41_15:
	movzbl %al, %edi
	cmpb $1, %al
	jne .LBB41_17
.LBB41_16:
	addl 224(%r14), %edx
	movl %edx, %esi
.LBB41_17:
	movw $0, (%r15)
	movl %edi, 8(%r15)
	movl %esi, 12(%r15)
	movq %rcx, 16(%r15)
.LBB41_20:
	addq $80, %rsp
	popq %rbx
	popq %r12
	popq %r14
	popq %r15
	popq %rbp
	retq
.LBB41_12:
	xorl %ecx, %ecx
	movzbl %al, %edi
	cmpb $1, %al
	je .LBB41_16
	jmp .LBB41_17
.Lfunc_end41:
	.size tag_pool.pool.Pool.get_shallow_quietly_i64_core.clone.U64Clone, .Lfunc_end41-tag_pool.pool.Pool.get_shallow_quietly_i64_core.clone.U64Clone
	.section .text.tag_c.gets.CachedMemberGetCalls.get_shallow,"ax",@progbits
	.p2align 4
	.type tag_c.gets.CachedMemberGetCalls.get_shallow,@function
tag_c.gets.CachedMemberGetCalls.get_shallow:
	pushq %rbp
	pushq %r14
	pushq %rbx
	subq $32, %rsp
	movq %rdx, %rbx
	movl %esi, %ecx
	movq %rdi, %r14
	movq (%rdi), %rsi
	addq $8, %rsi
	vxorps %xmm0, %xmm0, %xmm0
	vmovaps %xmm0, (%rsp)
	movq $0, 16(%rsp)
	leaq 48(%rdi), %rdx
	movq %rsp, %rdi
	callq tag_pool.pool.Pool.get_shallow_quietly_i64_core.clone.U64Clone
	cmpb $0, (%rsp)
	je .LBB42_1
	movzbl 1(%rsp), %eax
	leaq .Lswitch.table.tags_library_wait_on_reserved.286(%rip), %rcx
	movl (%rcx,%rax,4), %eax
	jmp .LBB42_7
.LBB42_1:
	movq 16(%rsp), %rcx
	cmpb $1, 8(%rsp)
	movl $-10, %eax
	cmovel 12(%rsp), %eax
	testq %rcx, %rcx
	je .LBB42_7
	movq (%r14), %rsi
	movq 120(%rsi), %rdx
	movq 8(%rdx), %rdx
	testq %rdx, %rdx
	je .LBB42_3
	addq $8, %r14
	addq $8, %rsi
	cmpq $64, %rcx
	movl $64, %edx
	cmovbq %rcx, %rdx
	movq %r14, %rdi
	movl %eax, %ebp
	callq tag_cache.cache.Cache.give_back_and_tell_i64_core.clone.U64Clone
	movq %rax, %rcx
	movl %ebp, %eax
	jmp .LBB42_5
.LBB42_3:
	xorl %ecx, %ecx
	xorl %edx, %edx
.LBB42_5:
	movq %rcx, (%rbx)
	movq %rdx, 8(%rbx)
	addl $1073741824, %eax
.LBB42_7:
	addq $32, %rsp
	popq %rbx
	popq %r14
	popq %rbp
	retq
.Lfunc_end42:
	.size tag_c.gets.CachedMemberGetCalls.get_shallow, .Lfunc_end42-tag_c.gets.CachedMemberGetCalls.get_shallow
	.section .text.tag_c.pairs.CachedMemberPairCalls.get_write,"ax",@progbits
	.p2align 4
	.type tag_c.pairs.CachedMemberPairCalls.get_write,@function
tag_c.pairs.CachedMemberPairCalls.get_write:
	pushq %rbp
	pushq %r15
	pushq %r14
	pushq %r13
	pushq %r12
	pushq %rbx
	subq $40, %rsp
	movq %rdx, %rbx
	movq %rsi, %r12
	movq %rdi, %r15
	leaq 8(%rdi), %r14
	movq (%rdi), %rdx
	vxorps %xmm0, %xmm0, %xmm0
	vmovaps %xmm0, 16(%rsp)
	movq $0, 32(%rsp)
	movq 24(%rdi), %rax
	testq %rax, %rax
	je .LBB43_2
	movq %rbx, 8(%rsp)
	tzcntq %rax, %rcx
	movl 8(%r15), %ebp
	movl $1, %edx
	shlxq %rcx, %rdx, %rdx
	btrq %rcx, %rax
	movq %rax, 24(%r15)
	orq %rdx, 32(%r15)
	addl %ecx, %ebp
	incl 16(%r15)
	incq 40(%r15)
	xorl %ebx, %ebx
.LBB43_5:
	movq (%r15), %r13
	movl %ebp, %eax
	subl 8(%r15), %eax
	cmpl $63, %eax
	ja .LBB43_8
	movq 32(%r15), %rcx
	btq %rax, %rcx
	jae .LBB43_8
	movl %ebp, %eax
	subl 232(%r13), %eax
	movl 288(%r15), %ecx
	leaq (%rcx,%rax,8), %rcx
	movq 120(%r13), %rdx
	movq (%rdx,%rcx,8), %rdx
	movq 128(%r13), %rdx
	movq %r12, (%rdx,%rax,8)
	movq 120(%r13), %rax
	movq (%rax,%rcx,8), %rax
	jmp .LBB43_10
.LBB43_8:
	addq $8, %r13
	movq %r14, %rdi
	movq %r13, %rsi
	movl %ebp, %edx
	callq tag_cache.cache.Cache.check_unknown_i64_core.clone.U64Clone
	testb %al, %al
	jne .LBB43_10
	movq %r14, %rdi
	movq %r13, %rsi
	movl %ebp, %edx
	movq %r12, %rcx
	callq tag_cache.cache.Cache.write_unknown_i64_core.clone.U64Clone
	jmp .LBB43_10
.LBB43_2:
	addq $8, %rdx
	leaq 16(%rsp), %rdi
	movq %r14, %rsi
	callq tag_cache.cache.Cache.win_quietly_i64_core.clone.U64Clone
	cmpb $0, 16(%rsp)
	je .LBB43_3
	movzbl 17(%rsp), %eax
	leaq .Lswitch.table.tags_library_wait_on_reserved.286(%rip), %rcx
	movl (%rcx,%rax,4), %ebp
	jmp .LBB43_16
.LBB43_3:
	movq %rbx, 8(%rsp)
	movq 32(%rsp), %rbx
	movl $-10, %ebp
	cmpb $1, 24(%rsp)
	jne .LBB43_10
	movl 28(%rsp), %ebp
	jmp .LBB43_5
.LBB43_10:
	testq %rbx, %rbx
	je .LBB43_16
	movq (%r15), %rsi
	movq 120(%rsi), %rax
	movq 8(%rax), %rax
	testq %rax, %rax
	je .LBB43_12
	addq $8, %rsi
	cmpq $64, %rbx
	movl $64, %edx
	cmovbq %rbx, %rdx
	movq %r14, %rdi
	callq tag_cache.cache.Cache.give_back_and_tell_i64_core.clone.U64Clone
	jmp .LBB43_14
.LBB43_12:
	xorl %eax, %eax
	xorl %edx, %edx
.LBB43_14:
	movq 8(%rsp), %rcx
	movq %rax, (%rcx)
	movq %rdx, 8(%rcx)
	addl $1073741824, %ebp
.LBB43_16:
	movl %ebp, %eax
	addq $40, %rsp
	popq %rbx
	popq %r12
	popq %r13
	popq %r14
	popq %r15
	popq %rbp
	retq
.Lfunc_end43:
	.size tag_c.pairs.CachedMemberPairCalls.get_write, .Lfunc_end43-tag_c.pairs.CachedMemberPairCalls.get_write
	.section .text.tag_cache.cache.Cache.check_unknown_i64_core.clone.U64Clone,"ax",@progbits
	.p2align 4
	.type tag_cache.cache.Cache.check_unknown_i64_core.clone.U64Clone,@function
tag_cache.cache.Cache.check_unknown_i64_core.clone.U64Clone:
	cmpl %edx, 228(%rsi)
	jbe .LBB44_1
	movl %edx, %eax
	subl 224(%rsi), %eax
	jae .LBB44_5
	movzbl 68(%rdi), %eax
	shrxl %eax, %edx, %ecx
	movq 88(%rdi), %rsi
	bzhil %eax, %edx, %eax
	movl $1, %r8d
	shlxq %rax, %r8, %rax
	andq (%rsi,%rcx,8), %rax
	testq %rax, %rax
	je .LBB44_7
.LBB44_8:
	subl (%rdi), %edx
	xorl %eax, %eax
	movl $0, %ecx
	cmpl $63, %edx
	ja .LBB44_2
	movl $1, %eax
	shlxq %rdx, %rax, %rax
	testq %rax, 16(%rdi)
	setne %al
	movl %eax, %ecx
	movl %ecx, %edx
	retq
.LBB44_1:
	movb $1, %al
	xorl %ecx, %ecx
.LBB44_2:
	movl %ecx, %edx
	retq
.LBB44_5:
	movzbl 276(%rdi), %ecx
	shrxl %ecx, %eax, %esi
	movq 296(%rdi), %r8
	bzhil %ecx, %eax, %eax
	movl $1, %ecx
	shlxq %rax, %rcx, %rax
	andq (%r8,%rsi,8), %rax
	testq %rax, %rax
	jne .LBB44_8
.LBB44_7:
	movb $1, %al
	movb $1, %cl
	movl %ecx, %edx
	retq
.Lfunc_end44:
	.size tag_cache.cache.Cache.check_unknown_i64_core.clone.U64Clone, .Lfunc_end44-tag_cache.cache.Cache.check_unknown_i64_core.clone.U64Clone
	.section .text.tag_cache.cache.Cache.write_unknown_i64_core.clone.U64Clone,"ax",@progbits
	.p2align 4
	.type tag_cache.cache.Cache.write_unknown_i64_core.clone.U64Clone,@function
tag_cache.cache.Cache.write_unknown_i64_core.clone.U64Clone:
	movl %edx, %r8d
	subl 224(%rsi), %r8d
	jae .LBB45_2
	movl 72(%rdi), %eax
	movl %edx, %edx
	leaq (%rax,%rdx,8), %rdi
	movq (%rsi), %rax
	movq (%rax,%rdi,8), %rax
	movq 8(%rsi), %r8
	movq (%r8,%rdx,8), %rax
	movq %rcx, (%r8,%rdx,8)
	movq (%rsi), %rcx
	movq (%rcx,%rdi,8), %rcx
	retq
.LBB45_2:
	movl 280(%rdi), %eax
	leaq (%rax,%r8,8), %rdx
	movq 112(%rsi), %rax
	movq (%rax,%rdx,8), %rax
	movq 120(%rsi), %rdi
	movq (%rdi,%r8,8), %rax
	movq %rcx, (%rdi,%r8,8)
	movq 112(%rsi), %rcx
	movq (%rcx,%rdx,8), %rcx
	retq
.Lfunc_end45:
	.size tag_cache.cache.Cache.write_unknown_i64_core.clone.U64Clone, .Lfunc_end45-tag_cache.cache.Cache.write_unknown_i64_core.clone.U64Clone
	.section .text.tag_c.looks.CachedMemberLookCalls.holds,"ax",@progbits
	.p2align 4
	.type tag_c.looks.CachedMemberLookCalls.holds,@function
tag_c.looks.CachedMemberLookCalls.holds:
	movq (%rdi), %rcx
	movl $-1, %eax
	cmpl %esi, 256(%rcx)
	jbe .LBB46_8
	movl %esi, %eax
	subl 48(%rdi), %eax
	jae .LBB46_3
	movzbl 76(%rdi), %eax
	shrxl %eax, %esi, %edx
	movq 96(%rdi), %r8
	bzhil %eax, %esi, %eax
	jmp .LBB46_4
.LBB46_3:
	movzbl 284(%rdi), %ecx
	shrxl %ecx, %eax, %edx
	movq 304(%rdi), %r8
	bzhil %ecx, %eax, %eax
.LBB46_4:
	movl $1, %ecx
	shlxq %rax, %rcx, %rcx
	andq (%r8,%rdx,8), %rcx
	xorl %eax, %eax
	testq %rcx, %rcx
	je .LBB46_8
	subl 8(%rdi), %esi
	cmpl $63, %esi
	ja .LBB46_7
	movl $1, %ecx
	shlxq %rsi, %rcx, %rcx
	testq %rcx, 24(%rdi)
	je .LBB46_7
.LBB46_8:
	retq
.LBB46_7:
	movl $1, %eax
	retq
.Lfunc_end46:
	.size tag_c.looks.CachedMemberLookCalls.holds, .Lfunc_end46-tag_c.looks.CachedMemberLookCalls.holds
	.section .text.tag_pool.pool.Pool.post_noted_i64_core.clone.U64Clone,"ax",@progbits
	.p2align 4
	.type tag_pool.pool.Pool.post_noted_i64_core.clone.U64Clone,@function
tag_pool.pool.Pool.post_noted_i64_core.clone.U64Clone:
	cmpl %edx, 228(%rdi)
	jbe .LBB47_1
	movl %edx, %r8d
	subl 224(%rdi), %r8d
	jae .LBB47_7
	movzbl 28(%rsi), %eax
	shrxl %eax, %edx, %ecx
	movq 48(%rsi), %r8
	movq (%r8,%rcx,8), %rcx
	bzhil %eax, %edx, %eax
	btq %rax, %rcx
	setae %al
	jae .LBB47_6
	movzbl 28(%rsi), %ecx
	movl 32(%rsi), %r8d
	movl %edx, %r9d
	shlq $6, %r9
	addq (%rdi), %r9
	movl $1, %edi
	xchgq %rdi, (%r9,%r8,8)
	shrxl %ecx, %edx, %edi
	bzhil %ecx, %edx, %ecx
	movq 48(%rsi), %rdx
	movq $-2, %rsi
	rolq %cl, %rsi
	andq %rsi, (%rdx,%rdi,8)
	xorl %edx, %edx
	retq
.LBB47_1:
	movb $1, %al
	xorl %edx, %edx
	retq
.LBB47_7:
	movzbl 236(%rsi), %eax
	shrxl %eax, %r8d, %ecx
	movq 256(%rsi), %rdx
	movq (%rdx,%rcx,8), %rcx
	bzhil %eax, %r8d, %eax
	btq %rax, %rcx
	setae %al
	jae .LBB47_8
	movzbl 236(%rsi), %ecx
	shrxl %ecx, %r8d, %edx
	bzhil %ecx, %r8d, %ecx
	movl 240(%rsi), %r9d
	shlq $6, %r8
	addq 112(%rdi), %r8
	movl $1, %edi
	xchgq %rdi, (%r8,%r9,8)
	movq 256(%rsi), %rsi
	movq $-2, %rdi
	rolq %cl, %rdi
	andq %rdi, (%rsi,%rdx,8)
	xorl %edx, %edx
	retq
.LBB47_6:
	movb $1, %dl
	retq
.LBB47_8:
	movl %eax, %edx
	retq
.Lfunc_end47:
	.size tag_pool.pool.Pool.post_noted_i64_core.clone.U64Clone, .Lfunc_end47-tag_pool.pool.Pool.post_noted_i64_core.clone.U64Clone
	.section .text.tag_c.values.CachedMemberSlotCalls.post,"ax",@progbits
	.p2align 4
	.type tag_c.values.CachedMemberSlotCalls.post,@function
tag_c.values.CachedMemberSlotCalls.post:
	pushq %r14
	pushq %rbx
	pushq %rax
	movq %rdx, %rbx
	movl %esi, %ecx
	movq %rdi, %r14
	movq $0, (%rsp)
	leaq 8(%rdi), %rsi
	movq (%rdi), %rdx
	addq $8, %rdx
	movq %rsp, %rdi
	callq tag_cache.cache.Cache.post_quietly_i64_core.clone.U64Clone
	cmpb $0, (%rsp)
	je .LBB48_1
	movzbl 1(%rsp), %eax
	leaq .Lswitch.table.tags_library_wait_on_reserved.286(%rip), %rcx
	movl (%rcx,%rax,4), %eax
	addq $8, %rsp
	popq %rbx
	popq %r14
	retq
.LBB48_1:
	movl 4(%rsp), %edx
	movq (%r14), %rax
	movq 120(%rax), %rax
	movq 8(%rax), %rax
	testq %rax, %rax
	je .LBB48_2
	movq %r14, %rdi
	xorl %esi, %esi
	movq %rbx, %rcx
	addq $8, %rsp
	popq %rbx
	popq %r14
	jmp tag_c.telling.CachedMemberTellingCalls.tell
.LBB48_2:
	xorl %eax, %eax
	addq $8, %rsp
	popq %rbx
	popq %r14
	retq
.Lfunc_end48:
	.size tag_c.values.CachedMemberSlotCalls.post, .Lfunc_end48-tag_c.values.CachedMemberSlotCalls.post
	.section .text.tag_cache.cache.Cache.post_quietly_i64_core.clone.U64Clone,"ax",@progbits
	.p2align 4
	.type tag_cache.cache.Cache.post_quietly_i64_core.clone.U64Clone,@function
tag_cache.cache.Cache.post_quietly_i64_core.clone.U64Clone:
	pushq %rbp
	pushq %r15
	pushq %r14
	pushq %r12
	pushq %rbx
	movq %rdi, %rbx
	movl %ecx, %eax
	subl (%rsi), %eax
	cmpl $63, %eax
	jbe .LBB49_1
.LBB49_10:
	addq $40, %rsi
	movq %rdx, %rdi
	movl %ecx, %edx
	callq tag_pool.pool.Pool.post_noted_i64_core.clone.U64Clone
	xorl %ebp, %ebp
	testb %al, %al
	setne %sil
	movzbl %dl, %ecx
	cmovel %ebp, %ecx
	jmp .LBB49_11
.LBB49_1:
	movq 24(%rsi), %rdi
	movl $1, %r8d
	shlxq %rax, %r8, %r8
	btq %rax, %rdi
	jae .LBB49_8
	andnq %rdi, %r8, %rax
	jne .LBB49_6
	cmpb $0, 12(%rsi)
	je .LBB49_6
	movq %rsi, %rdi
	movq %rsi, %r14
	movq %rdx, %rsi
	movl %ecx, %r15d
	movq %rdx, %r12
	callq tag_cache.cache.Cache.give_back_kept_i64_core.clone.U64Clone
	movl %eax, %ebp
	movl %r15d, %ecx
	subl (%r14), %ecx
	movq $-2, %rax
	rolq %cl, %rax
	cmpl $64, %ecx
	movq $-1, %rcx
	cmovbq %rax, %rcx
	andq %rcx, 24(%r14)
	addq $40, %r14
	movq %r12, %rdi
	movq %r14, %rsi
	movl %r15d, %edx
	callq tag_pool.pool.Pool.post_noted_i64_core.clone.U64Clone
	testb %al, %al
	jne .LBB49_7
	xorl %ecx, %ecx
	xorl %esi, %esi
	jmp .LBB49_11
.LBB49_8:
	testq %r8, 16(%rsi)
	je .LBB49_10
	movb $1, %cl
	xorl %ebp, %ebp
	movb $1, %sil
	jmp .LBB49_11
.LBB49_6:
	movq %rax, 24(%rsi)
	addq $40, %rsi
	movq %rdx, %rdi
	movl %ecx, %edx
	callq tag_pool.pool.Pool.post_noted_i64_core.clone.U64Clone
	xorl %ebp, %ebp
	movl $0, %ecx
	movl $0, %esi
	testb %al, %al
	jne .LBB49_7
.LBB49_11:
	movb %sil, (%rbx)
	movb %cl, 1(%rbx)
	movl %ebp, 4(%rbx)
	popq %rbx
	popq %r12
	popq %r14
	popq %r15
	popq %rbp
	retq
.LBB49_7:
	ud2
.Lfunc_end49:
	.size tag_cache.cache.Cache.post_quietly_i64_core.clone.U64Clone, .Lfunc_end49-tag_cache.cache.Cache.post_quietly_i64_core.clone.U64Clone
	.section .text.tag_c.values.CachedMemberSlotCalls.post_quietly,"ax",@progbits
	.p2align 4
	.type tag_c.values.CachedMemberSlotCalls.post_quietly,@function
tag_c.values.CachedMemberSlotCalls.post_quietly:
	pushq %rax
	movl %esi, %ecx
	movq $0, (%rsp)
	movq (%rdi), %rdx
	leaq 8(%rdi), %rsi
	addq $8, %rdx
	movq %rsp, %rdi
	callq tag_cache.cache.Cache.post_quietly_i64_core.clone.U64Clone
	cmpb $0, (%rsp)
	je .LBB50_1
	movzbl 1(%rsp), %eax
	leaq .Lswitch.table.tags_library_wait_on_reserved.286(%rip), %rcx
	movl (%rcx,%rax,4), %eax
	popq %rcx
	retq
.LBB50_1:
	xorl %eax, %eax
	popq %rcx
	retq
.Lfunc_end50:
	.size tag_c.values.CachedMemberSlotCalls.post_quietly, .Lfunc_end50-tag_c.values.CachedMemberSlotCalls.post_quietly
	.section .text.tag_c.values.CachedMemberSlotCalls.read,"ax",@progbits
	.p2align 4
	.type tag_c.values.CachedMemberSlotCalls.read,@function
tag_c.values.CachedMemberSlotCalls.read:
	pushq %rbx
	subq $16, %rsp
	movq %rdx, %rbx
	movl %esi, %ecx
	vxorps %xmm0, %xmm0, %xmm0
	vmovaps %xmm0, (%rsp)
	movq (%rdi), %rdx
	leaq 8(%rdi), %rsi
	addq $8, %rdx
	movq %rsp, %rdi
	callq tag_cache.cache.Cache.read_i64_core.clone.U64Clone
	cmpb $0, (%rsp)
	je .LBB51_1
	movzbl 1(%rsp), %eax
	leaq .Lswitch.table.tags_library_wait_on_reserved.286(%rip), %rcx
	movl (%rcx,%rax,4), %eax
	addq $16, %rsp
	popq %rbx
	retq
.LBB51_1:
	movq 8(%rsp), %rax
	movq %rax, (%rbx)
	xorl %eax, %eax
	addq $16, %rsp
	popq %rbx
	retq
.Lfunc_end51:
	.size tag_c.values.CachedMemberSlotCalls.read, .Lfunc_end51-tag_c.values.CachedMemberSlotCalls.read
	.section .text.tag_cache.cache.Cache.read_i64_core.clone.U64Clone,"ax",@progbits
	.p2align 4
	.type tag_cache.cache.Cache.read_i64_core.clone.U64Clone,@function
tag_cache.cache.Cache.read_i64_core.clone.U64Clone:
	movl %ecx, %eax
	subl (%rsi), %eax
	cmpl $63, %eax
	jbe .LBB52_1
.LBB52_10:
	cmpl %ecx, 228(%rdx)
	jbe .LBB52_11
	movl %ecx, %eax
	subl 224(%rdx), %eax
	jae .LBB52_15
	movzbl 68(%rsi), %eax
	shrxl %eax, %ecx, %r8d
	movq 88(%rsi), %r9
	movq (%r9,%r8,8), %r8
	bzhil %eax, %ecx, %eax
	btq %rax, %r8
	jae .LBB52_14
	movl 72(%rsi), %eax
	movl %ecx, %ecx
	leaq (%rax,%rcx,8), %rsi
	movq (%rdx), %rax
	movq (%rax,%rsi,8), %rax
	movq (%rdx), %r8
	movq 8(%rdx), %rax
	movq (%rax,%rcx,8), %rax
	movq (%r8,%rsi,8), %rcx
	jmp .LBB52_17
.LBB52_1:
	movq 24(%rsi), %r8
	btq %rax, %r8
	jae .LBB52_8
	movl %ecx, %eax
	subl 224(%rdx), %eax
	jae .LBB52_4
	movl 72(%rsi), %eax
	movl %ecx, %ecx
	leaq (%rax,%rcx,8), %rsi
	movq (%rdx), %rax
	movq (%rax,%rsi,8), %rax
	movq (%rdx), %r8
	movq 8(%rdx), %rax
	movq (%rax,%rcx,8), %rax
	movq (%r8,%rsi,8), %rcx
	movw $0, (%rdi)
	movq %rax, 8(%rdi)
	retq
.LBB52_11:
	movb $1, %cl
	xorl %edx, %edx
	xorl %eax, %eax
	movb %cl, (%rdi)
	movb %dl, 1(%rdi)
	movq %rax, 8(%rdi)
	retq
.LBB52_8:
	movl $1, %r8d
	shlxq %rax, %r8, %rax
	testq %rax, 16(%rsi)
	je .LBB52_10
	movw $257, (%rdi)
	movq $0, 8(%rdi)
	retq
.LBB52_4:
	movl 280(%rsi), %ecx
	leaq (%rcx,%rax,8), %rcx
	movq 112(%rdx), %rsi
	movq (%rsi,%rcx,8), %rsi
	movq 112(%rdx), %rsi
	movq 120(%rdx), %rdx
	movq (%rdx,%rax,8), %rax
	movq (%rsi,%rcx,8), %rcx
	movw $0, (%rdi)
	movq %rax, 8(%rdi)
	retq
.LBB52_15:
	movzbl 276(%rsi), %ecx
	shrxl %ecx, %eax, %r8d
	movq 296(%rsi), %r9
	movq (%r9,%r8,8), %r8
	bzhil %ecx, %eax, %ecx
	btq %rcx, %r8
	jae .LBB52_14
	movl 280(%rsi), %ecx
	movl %eax, %eax
	leaq (%rcx,%rax,8), %rcx
	movq 112(%rdx), %rsi
	movq (%rsi,%rcx,8), %rsi
	movq 112(%rdx), %rsi
	movq 120(%rdx), %rdx
	movq (%rdx,%rax,8), %rax
	movq (%rsi,%rcx,8), %rcx
.LBB52_17:
	xorl %ecx, %ecx
	xorl %edx, %edx
	movb %cl, (%rdi)
	movb %dl, 1(%rdi)
	movq %rax, 8(%rdi)
	retq
.LBB52_14:
	movb $1, %cl
	xorl %eax, %eax
	movb $1, %dl
	movb %cl, (%rdi)
	movb %dl, 1(%rdi)
	movq %rax, 8(%rdi)
	retq
.Lfunc_end52:
	.size tag_cache.cache.Cache.read_i64_core.clone.U64Clone, .Lfunc_end52-tag_cache.cache.Cache.read_i64_core.clone.U64Clone
	.section .text.tag_c.pairs.CachedMemberPairCalls.read_clear,"ax",@progbits
	.p2align 4
	.type tag_c.pairs.CachedMemberPairCalls.read_clear,@function
tag_c.pairs.CachedMemberPairCalls.read_clear:
	pushq %rbp
	pushq %r15
	pushq %r14
	pushq %r12
	pushq %rbx
	subq $32, %rsp
	movq %rcx, %rbx
	movq %rdx, %r12
	movl %esi, %ebp
	movq %rdi, %r14
	vxorps %xmm0, %xmm0, %xmm0
	vmovaps %xmm0, 16(%rsp)
	leaq 8(%rdi), %r15
	movq (%rdi), %rdx
	addq $8, %rdx
	leaq 16(%rsp), %rdi
	movq %r15, %rsi
	movl %ebp, %ecx
	callq tag_cache.cache.Cache.read_i64_core.clone.U64Clone
	cmpb $0, 16(%rsp)
	je .LBB53_1
	movzbl 17(%rsp), %eax
	jmp .LBB53_17
.LBB53_1:
	movq 24(%rsp), %rax
	movq %rax, (%r12)
	movq (%r14), %rdx
	movq $0, 8(%rsp)
	movl %ebp, %ecx
	subl 8(%r14), %ecx
	cmpl $63, %ecx
	ja .LBB53_8
	movq 32(%r14), %rsi
	btq %rcx, %rsi
	jae .LBB53_8
	movl 16(%r14), %eax
	testl %eax, %eax
	je .LBB53_8
	cmpb $0, 47(%r14)
	jne .LBB53_8
	movl $1, %edi
	shlxq %rcx, %rdi, %rcx
	andnq %rsi, %rcx, %rsi
	cmpb $0, 20(%r14)
	je .LBB53_7
	testq %rsi, %rsi
	jne .LBB53_7
.LBB53_8:
	addq $8, %rdx
	leaq 8(%rsp), %rdi
	movq %r15, %rsi
	movl %ebp, %ecx
	callq tag_cache.cache.Cache.clear_unplaced_i64_core.clone.U64Clone
	cmpb $0, 8(%rsp)
	je .LBB53_9
	movzbl 9(%rsp), %eax
.LBB53_17:
	leaq .Lswitch.table.tags_library_wait_on_reserved.286(%rip), %rcx
	movl (%rcx,%rax,4), %eax
.LBB53_18:
	addq $32, %rsp
	popq %rbx
	popq %r12
	popq %r14
	popq %r15
	popq %rbp
	retq
.LBB53_9:
	movl 12(%rsp), %eax
	movq (%r14), %rdx
	cmpl 232(%rdx), %ebp
	jae .LBB53_11
.LBB53_15:
	movq %r14, %rdi
	movl $1, %esi
	jmp .LBB53_14
.LBB53_7:
	movq %rsi, 32(%r14)
	orq %rcx, 24(%r14)
	decl %eax
	movl %eax, 16(%r14)
	xorl %eax, %eax
	cmpl 232(%rdx), %ebp
	jb .LBB53_15
.LBB53_11:
	movq 120(%rdx), %rcx
	movq 8(%rcx), %rcx
	testq %rcx, %rcx
	je .LBB53_12
	movq %r14, %rdi
	xorl %esi, %esi
.LBB53_14:
	movl %eax, %edx
	movq %rbx, %rcx
	addq $32, %rsp
	popq %rbx
	popq %r12
	popq %r14
	popq %r15
	popq %rbp
	jmp tag_c.telling.CachedMemberTellingCalls.tell
.LBB53_12:
	xorl %eax, %eax
	jmp .LBB53_18
.Lfunc_end53:
	.size tag_c.pairs.CachedMemberPairCalls.read_clear, .Lfunc_end53-tag_c.pairs.CachedMemberPairCalls.read_clear
	.section .text.tag_cache.cache.Cache.clear_unplaced_i64_core.clone.U64Clone,"ax",@progbits
	.p2align 4
	.type tag_cache.cache.Cache.clear_unplaced_i64_core.clone.U64Clone,@function
tag_cache.cache.Cache.clear_unplaced_i64_core.clone.U64Clone:
	movb $1, %r9b
	xorl %eax, %eax
	cmpl %ecx, 228(%rdx)
	jbe .LBB54_3
	pushq %r14
	pushq %rbx
	pushq %rax
	movl 224(%rdx), %r8d
	movl %ecx, %r10d
	subl %r8d, %r10d
	jae .LBB54_4
	movzbl 68(%rsi), %r10d
	shrxl %r10d, %ecx, %r11d
	movq 88(%rsi), %rbx
	bzhil %r10d, %ecx, %r10d
	movl $1, %r14d
	shlxq %r10, %r14, %r10
	andq (%rbx,%r11,8), %r10
	jmp .LBB54_5
.LBB54_3:
	xorl %r10d, %r10d
	movb %r9b, (%rdi)
	movb %r10b, 1(%rdi)
	movl %eax, 4(%rdi)
	retq
.LBB54_4:
	movzbl 276(%rsi), %r11d
	shrxl %r11d, %r10d, %ebx
	movq 296(%rsi), %r14
	bzhil %r11d, %r10d, %r10d
	movl $1, %r11d
	shlxq %r10, %r11, %r10
	andq (%r14,%rbx,8), %r10
.LBB54_5:
	cmpl %r8d, %ecx
	setb %r8b
	testq %r10, %r10
	sete %r11b
	orb %r8b, %r11b
	testq %r10, %r10
	je .LBB54_11
	movl %ecx, %r8d
	subl (%rsi), %r8d
	cmpl $63, %r8d
	ja .LBB54_8
	movl $1, %r9d
	shlxq %r8, %r9, %rbx
	movb $1, %r10b
	movb $1, %r9b
	testq %rbx, 16(%rsi)
	jne .LBB54_25
.LBB54_8:
	testb %r11b, %r11b
	je .LBB54_12
	movq %rdi, %rbx
	movq %rsi, %rdi
	movq %rdx, %rsi
	movl %ecx, %edx
	callq tag_cache.cache.Cache.give_back_i64_core.clone.U64Clone
	movq %rbx, %rdi
.LBB54_10:
	xorl %eax, %eax
	jmp .LBB54_24
.LBB54_11:
	movl %r11d, %r10d
	jmp .LBB54_25
.LBB54_12:
	movzbl 12(%rsi), %r9d
	testb %r9b, %r9b
	je .LBB54_14
	movq $-2, %r10
	movl %ecx, %eax
	movl %r8d, %ecx
	rolq %cl, %r10
	movl %eax, %ecx
	cmpl $64, %r8d
	movq $-1, %rax
	cmovbq %r10, %rax
	testq %rax, 24(%rsi)
	je .LBB54_22
.LBB54_14:
	cmpl $0, 4(%rsi)
	je .LBB54_21
	testb %r9b, %r9b
	sete %al
	cmpl $64, %r8d
	setb %r10b
	cmpb $0, 39(%rsi)
	jne .LBB54_21
	orb %r10b, %al
	je .LBB54_21
	movl 8(%rsi), %eax
	testl %eax, %eax
	je .LBB54_20
	cmpl $64, %r8d
	jb .LBB54_26
	cmpq $0, 16(%rsi)
	je .LBB54_26
.LBB54_20:
	movq %rdi, %rbx
	movq %rsi, %rdi
	movq %rdx, %rsi
	movl %ecx, %edx
	callq tag_cache.cache.Cache.keep_instead_i64_core.clone.U64Clone
	jmp .LBB54_23
.LBB54_21:
	movq %rdi, %rbx
	movq %rsi, %rdi
	movq %rdx, %rsi
	movl %ecx, %edx
	callq tag_cache.cache.Cache.give_back_i64_core.clone.U64Clone
	movq %rbx, %rdi
	movl $1, %eax
	jmp .LBB54_24
.LBB54_22:
	movq %rdi, %rbx
	movq %rsi, %rdi
	movq %rdx, %rsi
	movl %ecx, %edx
	callq tag_cache.cache.Cache.give_back_all_i64_core.clone.U64Clone
.LBB54_23:
	movq %rbx, %rdi
.LBB54_24:
	xorl %r10d, %r10d
	xorl %r9d, %r9d
.LBB54_25:
	addq $8, %rsp
	popq %rbx
	popq %r14
	movb %r9b, (%rdi)
	movb %r10b, 1(%rdi)
	movl %eax, 4(%rdi)
	retq
.LBB54_26:
	cmpl $64, %r8d
	setb %r10b
	testb %r9b, %r9b
	setne %r9b
	movq 16(%rsi), %rdx
	testq %rdx, %rdx
	setne %r11b
	orb %r9b, %r11b
	orb %r10b, %r11b
	jne .LBB54_28
	movl %ecx, %edx
	andl $-64, %edx
	movl %edx, (%rsi)
	movq $0, 24(%rsi)
	andl $63, %ecx
	xorl %edx, %edx
	movl %ecx, %r8d
.LBB54_28:
	movq $-2, %r9
	movl %r8d, %ecx
	rolq %cl, %r9
	andq %r9, 24(%rsi)
	btsq %r8, %rdx
	movq %rdx, 16(%rsi)
	decl %eax
	movl %eax, 8(%rsi)
	jmp .LBB54_10
.Lfunc_end54:
	.size tag_cache.cache.Cache.clear_unplaced_i64_core.clone.U64Clone, .Lfunc_end54-tag_cache.cache.Cache.clear_unplaced_i64_core.clone.U64Clone
	.section .text.tag_c.looks.CachedMemberLookCalls.show,"ax",@progbits
	.p2align 4
	.type tag_c.looks.CachedMemberLookCalls.show,@function
tag_c.looks.CachedMemberLookCalls.show:
	pushq %rbp
	pushq %r15
	pushq %r14
	pushq %r13
	pushq %r12
	pushq %rbx
	testl %esi, %esi
	je .LBB55_1
	movl $-16, %eax
	cmpl $1, %esi
	jne .LBB55_8
	movq %rdx, -8(%rsp)
	xorl %ecx, %ecx
	jmp .LBB55_4
.LBB55_1:
	movq %rdx, -8(%rsp)
	movl $112, %ecx
.LBB55_4:
	movq (%rdi), %r8
	movl 72(%r8,%rcx), %edx
	movl 76(%r8,%rcx), %r10d
	movl $1, %eax
	shlxl %r10d, %eax, %edi
	leal -1(%rdx,%rdi), %eax
	shrxl %r10d, %eax, %eax
	movl $0, %ebx
	movl $0, %r11d
	testl %eax, %eax
	je .LBB55_7
	movl %eax, %r14d
	xorl %r11d, %r11d
	xorl %r15d, %r15d
	xorl %r12d, %r12d
	xorl %ebx, %ebx
	.p2align 4
.LBB55_6:
	movq 8(%r8,%rcx), %r13
	movq 576(%r13,%r15), %r13
	movq 8(%r8,%rcx), %rbp
	movq 640(%rbp,%r15), %rbp
	shlxl %r10d, %r12d, %r9d
	movl %edx, %esi
	subl %r9d, %esi
	cmpl %esi, %edi
	cmovbl %edi, %esi
	andnq %r13, %rbp, %r9
	bzhiq %rsi, %r9, %r9
	popcntq %r9, %r9
	addl %r9d, %r11d
	bzhiq %rsi, %rbp, %rsi
	popcntq %rsi, %rsi
	addl %esi, %ebx
	incq %r12
	subq $-128, %r15
	cmpq %r12, %r14
	jne .LBB55_6
.LBB55_7:
	movq -8(%rsp), %rcx
	movl %edx, (%rcx)
	movl %r11d, 4(%rcx)
	movl %ebx, 8(%rcx)
	movl %edi, 12(%rcx)
	movl %eax, 16(%rcx)
	xorl %eax, %eax
.LBB55_8:
	popq %rbx
	popq %r12
	popq %r13
	popq %r14
	popq %r15
	popq %rbp
	retq
.Lfunc_end55:
	.size tag_c.looks.CachedMemberLookCalls.show, .Lfunc_end55-tag_c.looks.CachedMemberLookCalls.show
	.section .text.tag_c.values.CachedMemberSlotCalls.take,"ax",@progbits
	.p2align 4
	.type tag_c.values.CachedMemberSlotCalls.take,@function
tag_c.values.CachedMemberSlotCalls.take:
	movq (%rdi), %rcx
	movl $-1, %eax
	cmpl %esi, 236(%rcx)
	jbe .LBB56_7
	movl %esi, %edx
	subl 232(%rcx), %edx
	jae .LBB56_4
	movl 76(%rdi), %edx
	movl 80(%rdi), %eax
	movl %esi, %r8d
	shlq $6, %r8
	addq 8(%rcx), %r8
	xorl %ecx, %ecx
	xchgq %rcx, (%r8,%rax,8)
	xorl %eax, %eax
	testq %rcx, %rcx
	je .LBB56_9
	bzhil %edx, %esi, %ecx
	shrxl %edx, %esi, %edx
	movl $1, %esi
	shlxq %rcx, %rsi, %rcx
	movq 96(%rdi), %rsi
	jmp .LBB56_6
.LBB56_4:
	movl 284(%rdi), %esi
	movl 288(%rdi), %eax
	movq %rdx, %r8
	shlq $6, %r8
	addq 120(%rcx), %r8
	xorl %ecx, %ecx
	xchgq %rcx, (%r8,%rax,8)
	xorl %eax, %eax
	testq %rcx, %rcx
	je .LBB56_9
	bzhil %esi, %edx, %ecx
	shrxl %esi, %edx, %edx
	movl $1, %esi
	shlxq %rcx, %rsi, %rcx
	movq 304(%rdi), %rsi
.LBB56_6:
	orq %rcx, (%rsi,%rdx,8)
.LBB56_7:
	retq
.LBB56_9:
	movl $-4, %eax
	retq
.Lfunc_end56:
	.size tag_c.values.CachedMemberSlotCalls.take, .Lfunc_end56-tag_c.values.CachedMemberSlotCalls.take
	.section .text.tag_c.values.CachedMemberSlotCalls.write,"ax",@progbits
	.p2align 4
	.type tag_c.values.CachedMemberSlotCalls.write,@function
tag_c.values.CachedMemberSlotCalls.write:
	pushq %r15
	pushq %r14
	pushq %r13
	pushq %r12
	pushq %rbx
	movq %rcx, %rbx
	movq %rdx, %r14
	movl %esi, %r15d
	movq %rdi, %r13
	movq (%rdi), %r12
	movl %esi, %eax
	subl 8(%rdi), %eax
	cmpl $63, %eax
	ja .LBB57_3
	movq 32(%r13), %rcx
	btq %rax, %rcx
	jae .LBB57_3
	movl 288(%r13), %eax
	subl 232(%r12), %r15d
	leaq (%rax,%r15,8), %rcx
	movq 120(%r12), %rax
	movq (%rax,%rcx,8), %rax
	movq 128(%r12), %rdx
	movq (%rdx,%r15,8), %rax
	movq %r14, (%rdx,%r15,8)
	movq 120(%r12), %rdx
	movq (%rdx,%rcx,8), %rcx
	jmp .LBB57_5
.LBB57_3:
	addq $8, %r13
	addq $8, %r12
	movq %r13, %rdi
	movq %r12, %rsi
	movl %r15d, %edx
	callq tag_cache.cache.Cache.check_unknown_i64_core.clone.U64Clone
	testb %al, %al
	je .LBB57_4
	movzbl %dl, %eax
	leaq .Lswitch.table.tags_library_wait_on_reserved.286(%rip), %rcx
	movl (%rcx,%rax,4), %eax
	jmp .LBB57_7
.LBB57_4:
	movq %r13, %rdi
	movq %r12, %rsi
	movl %r15d, %edx
	movq %r14, %rcx
	callq tag_cache.cache.Cache.write_unknown_i64_core.clone.U64Clone
.LBB57_5:
	movq %rax, (%rbx)
	xorl %eax, %eax
.LBB57_7:
	popq %rbx
	popq %r12
	popq %r13
	popq %r14
	popq %r15
	retq
.Lfunc_end57:
	.size tag_c.values.CachedMemberSlotCalls.write, .Lfunc_end57-tag_c.values.CachedMemberSlotCalls.write
	.section .text.tag_c.object.Object.leave,"ax",@progbits
	.p2align 4
	.type tag_c.object.Object.leave,@function
tag_c.object.Object.leave:
	pushq %rbp
	pushq %r15
	pushq %r14
	pushq %r13
	pushq %r12
	pushq %rbx
	subq $1832, %rsp
	movzbl (%rdi), %r10d
	leaq 40(%rdi), %r9
	leaq 88(%rdi), %r8
	leaq 232(%rdi), %rsi
	leaq 296(%rdi), %rax
	movq 8(%rdi), %rbx
	movq 16(%rdi), %r14
	vmovups 24(%rdi), %xmm0
	vmovaps %xmm0, (%rsp)
	movq 64(%rdi), %r12
	movq 72(%rdi), %rdx
	movq 80(%rdi), %rbp
	movq 272(%rdi), %r15
	movq 280(%rdi), %rcx
	movq 288(%rdi), %r13
	vxorps %xmm0, %xmm0, %xmm0
	vmovaps %xmm0, 16(%rsp)
	movq $0, 32(%rsp)
	vxorps %xmm0, %xmm0, %xmm0
	vmovups %ymm0, 960(%rsp)
	vmovups %ymm0, 992(%rsp)
	vmovups %ymm0, 1024(%rsp)
	vmovups %ymm0, 1056(%rsp)
	vmovups %ymm0, 1072(%rsp)
	vmovups %ymm0, 160(%rsp)
	movq $0, 192(%rsp)
	vmovups %ymm0, 816(%rsp)
	vmovups %ymm0, 848(%rsp)
	vmovups %ymm0, 880(%rsp)
	vmovups %ymm0, 912(%rsp)
	vmovups %ymm0, 928(%rsp)
	testl %r10d, %r10d
	je .LBB58_13
	cmpl $2, %r10d
	jne .LBB58_2
	movq %r14, 208(%rsp)
	vmovaps (%rsp), %xmm0
	vmovups %xmm0, 216(%rsp)
	vmovups (%r9), %xmm0
	vmovups %xmm0, 232(%rsp)
	movq 16(%r9), %r9
	movq %r9, 248(%rsp)
	movq %r12, 256(%rsp)
	movq %rdx, 264(%rsp)
	movq %rbp, 272(%rsp)
	vmovups (%r8), %ymm0
	vmovups 32(%r8), %ymm1
	vmovups 64(%r8), %ymm2
	vmovups 96(%r8), %ymm3
	vmovups %ymm0, 280(%rsp)
	vmovups %ymm1, 312(%rsp)
	vmovups %ymm2, 344(%rsp)
	vmovups %ymm3, 376(%rsp)
	vmovups 112(%r8), %ymm0
	vmovups %ymm0, 392(%rsp)
	vmovups (%rsi), %ymm0
	vmovups %ymm0, 424(%rsp)
	movq 32(%rsi), %rdx
	movq %rdx, 456(%rsp)
	movq %r15, 464(%rsp)
	movq %rcx, 472(%rsp)
	movq %r13, 480(%rsp)
	vmovups 112(%rax), %ymm0
	vmovups %ymm0, 600(%rsp)
	vmovups (%rax), %ymm0
	vmovups 32(%rax), %ymm1
	vmovups 64(%rax), %ymm2
	vmovups 96(%rax), %ymm3
	vmovups %ymm3, 584(%rsp)
	vmovups %ymm2, 552(%rsp)
	vmovups %ymm1, 520(%rsp)
	vmovups %ymm0, 488(%rsp)
	vmovups 440(%rdi), %ymm0
	vmovups %ymm0, 632(%rsp)
	movq 472(%rdi), %rax
	movq %rax, 664(%rsp)
	leaq 8(%rbx), %rsi
	leaq 208(%rsp), %rdi
	vzeroupper
	callq tag_cache.cache.Cache.give_back_kept_i64_core.clone.U64Clone
	movq 248(%rsp), %r14
	vmovups 256(%rsp), %xmm0
	vmovaps %xmm0, (%rsp)
	vmovups 272(%rsp), %xmm0
	vmovaps %xmm0, 16(%rsp)
	movq 288(%rsp), %rax
	movq %rax, 32(%rsp)
	movq 296(%rsp), %r12
	movq 304(%rsp), %rdx
	movq 312(%rsp), %rbp
	vmovups 320(%rsp), %ymm0
	vmovups %ymm0, 960(%rsp)
	vmovups 352(%rsp), %ymm0
	vmovups %ymm0, 992(%rsp)
	vmovups 384(%rsp), %ymm0
	vmovups %ymm0, 1024(%rsp)
	vmovups 416(%rsp), %ymm0
	vmovups %ymm0, 1056(%rsp)
	vmovups 432(%rsp), %ymm0
	vmovups %ymm0, 1072(%rsp)
	movq 496(%rsp), %rax
	movq %rax, 192(%rsp)
	vmovups 464(%rsp), %ymm0
	vmovups %ymm0, 160(%rsp)
	movq 504(%rsp), %r15
	movq 512(%rsp), %rcx
	movq 520(%rsp), %r13
	vmovups 528(%rsp), %ymm0
	vmovups %ymm0, 816(%rsp)
	vmovups 560(%rsp), %ymm0
	vmovups %ymm0, 848(%rsp)
	vmovups 592(%rsp), %ymm0
	vmovups %ymm0, 880(%rsp)
	vmovups 624(%rsp), %ymm0
	vmovups %ymm0, 912(%rsp)
	vmovups 640(%rsp), %ymm0
	jmp .LBB58_15
.LBB58_13:
	movq 16(%r9), %rdi
	movq %rdi, 32(%rsp)
	vmovups (%r9), %xmm0
	vmovaps %xmm0, 16(%rsp)
	vmovups 112(%r8), %ymm0
	vmovups %ymm0, 1072(%rsp)
	vmovups (%r8), %ymm0
	vmovups 32(%r8), %ymm1
	vmovups 64(%r8), %ymm2
	vmovups 96(%r8), %ymm3
	vmovups %ymm3, 1056(%rsp)
	vmovups %ymm2, 1024(%rsp)
	vmovups %ymm1, 992(%rsp)
	vmovups %ymm0, 960(%rsp)
	vmovups (%rsi), %ymm0
	vmovups %ymm0, 160(%rsp)
	movq 32(%rsi), %rsi
	movq %rsi, 192(%rsp)
	vmovups (%rax), %ymm0
	vmovups 32(%rax), %ymm1
	vmovups 64(%rax), %ymm2
	vmovups 96(%rax), %ymm3
	vmovups %ymm0, 816(%rsp)
	vmovups %ymm1, 848(%rsp)
	vmovups %ymm2, 880(%rsp)
	vmovups %ymm3, 912(%rsp)
	vmovups 112(%rax), %ymm0
.LBB58_15:
	vmovups %ymm0, 928(%rsp)
	vmovaps 16(%rsp), %xmm0
	vmovaps %xmm0, 80(%rsp)
	movq 32(%rsp), %rax
	movq %rax, 96(%rsp)
	vmovups 960(%rsp), %ymm0
	vmovups 992(%rsp), %ymm1
	vmovups 1024(%rsp), %ymm2
	vmovups 1056(%rsp), %ymm3
	vmovups %ymm0, 1536(%rsp)
	vmovups %ymm1, 1568(%rsp)
	vmovups %ymm2, 1600(%rsp)
	vmovups %ymm3, 1632(%rsp)
	vmovups 1072(%rsp), %ymm0
	vmovups %ymm0, 1648(%rsp)
	vmovups 160(%rsp), %ymm0
	vmovups %ymm0, 720(%rsp)
	movq 192(%rsp), %rax
	movq %rax, 752(%rsp)
	vmovups 928(%rsp), %ymm0
	vmovups %ymm0, 1504(%rsp)
	vmovdqu 816(%rsp), %ymm0
	vmovups 848(%rsp), %ymm1
	vmovups 880(%rsp), %ymm2
	vmovups 912(%rsp), %ymm3
	vmovups %ymm3, 1488(%rsp)
	vmovups %ymm2, 1456(%rsp)
	vmovups %ymm1, 1424(%rsp)
	vmovdqu %ymm0, 1392(%rsp)
	leaq 8(%rbx), %rsi
	vpxor %xmm0, %xmm0, %xmm0
	vmovdqa %xmm0, 48(%rsp)
	movq $0, 64(%rsp)
	vpxor %xmm0, %xmm0, %xmm0
	vmovdqu %ymm0, 1248(%rsp)
	vmovdqu %ymm0, 1280(%rsp)
	vmovdqu %ymm0, 1312(%rsp)
	vmovdqu %ymm0, 1344(%rsp)
	vmovdqu %ymm0, 1360(%rsp)
	vmovdqu %ymm0, 672(%rsp)
	movq $0, 704(%rsp)
	vmovdqu %ymm0, 1104(%rsp)
	vmovdqu %ymm0, 1136(%rsp)
	vmovdqu %ymm0, 1168(%rsp)
	vmovdqu %ymm0, 1200(%rsp)
	vmovdqu %ymm0, 1216(%rsp)
	movq 280(%rbx), %rdi
	testq %rdi, %rdi
	je .LBB58_27
	xorl %r11d, %r11d
	.p2align 4
.LBB58_17:
	movq 272(%rbx), %r8
	vmovaps 80(%rsp), %xmm1
	vmovaps %xmm1, 112(%rsp)
	movq 96(%rsp), %rax
	movq %rax, 128(%rsp)
	vmovups 1536(%rsp), %ymm1
	vmovups 1568(%rsp), %ymm2
	vmovups 1600(%rsp), %ymm3
	vmovups 1632(%rsp), %ymm4
	vmovups %ymm1, 208(%rsp)
	vmovups %ymm2, 240(%rsp)
	vmovups %ymm3, 272(%rsp)
	vmovups %ymm4, 304(%rsp)
	vmovups 1648(%rsp), %ymm1
	vmovups %ymm1, 320(%rsp)
	vmovups 720(%rsp), %ymm1
	vmovups %ymm1, 768(%rsp)
	movq 752(%rsp), %rax
	movq %rax, 800(%rsp)
	vmovups 1504(%rsp), %ymm1
	vmovups %ymm1, 1792(%rsp)
	vmovups 1392(%rsp), %ymm1
	vmovups 1424(%rsp), %ymm2
	vmovups 1456(%rsp), %ymm3
	vmovups 1488(%rsp), %ymm4
	vmovups %ymm4, 1776(%rsp)
	vmovups %ymm3, 1744(%rsp)
	vmovups %ymm2, 1712(%rsp)
	vmovups %ymm1, 1680(%rsp)
	movl $3, %r9d
	xorl %eax, %eax
	lock  cmpxchgq %r9, (%r8,%r11)
	je .LBB58_18
	movq 128(%rsp), %rax
	movq %rax, 64(%rsp)
	vmovaps 112(%rsp), %xmm1
	vmovaps %xmm1, 48(%rsp)
	vmovups 208(%rsp), %ymm1
	vmovups 240(%rsp), %ymm2
	vmovups 272(%rsp), %ymm3
	vmovups 304(%rsp), %ymm4
	vmovups %ymm1, 1248(%rsp)
	vmovups %ymm2, 1280(%rsp)
	vmovups %ymm3, 1312(%rsp)
	vmovups %ymm4, 1344(%rsp)
	vmovups 320(%rsp), %ymm1
	vmovups %ymm1, 1360(%rsp)
	vmovups 768(%rsp), %ymm1
	vmovups %ymm1, 672(%rsp)
	movq 800(%rsp), %rax
	movq %rax, 704(%rsp)
	vmovups 1792(%rsp), %ymm1
	vmovups %ymm1, 1216(%rsp)
	vmovups 1680(%rsp), %ymm1
	vmovups 1712(%rsp), %ymm2
	vmovups 1744(%rsp), %ymm3
	vmovups 1776(%rsp), %ymm4
	vmovups %ymm4, 1200(%rsp)
	vmovups %ymm3, 1168(%rsp)
	vmovups %ymm2, 1136(%rsp)
	vmovups %ymm1, 1104(%rsp)
	vmovaps 48(%rsp), %xmm1
	vmovaps %xmm1, 80(%rsp)
	movq 64(%rsp), %rax
	movq %rax, 96(%rsp)
	vmovups 1360(%rsp), %ymm1
	vmovups %ymm1, 1648(%rsp)
	vmovups 1248(%rsp), %ymm1
	vmovups 1280(%rsp), %ymm2
	vmovups 1312(%rsp), %ymm3
	vmovups 1344(%rsp), %ymm4
	vmovups %ymm4, 1632(%rsp)
	vmovups %ymm3, 1600(%rsp)
	vmovups %ymm2, 1568(%rsp)
	vmovups %ymm1, 1536(%rsp)
	movq 704(%rsp), %rax
	movq %rax, 752(%rsp)
	vmovups 672(%rsp), %ymm1
	vmovups %ymm1, 720(%rsp)
	vmovups 1216(%rsp), %ymm1
	vmovups %ymm1, 1504(%rsp)
	vmovups 1104(%rsp), %ymm1
	vmovups 1136(%rsp), %ymm2
	vmovups 1168(%rsp), %ymm3
	vmovups 1200(%rsp), %ymm4
	vmovups %ymm4, 1488(%rsp)
	vmovups %ymm3, 1456(%rsp)
	vmovups %ymm2, 1424(%rsp)
	vmovups %ymm1, 1392(%rsp)
	addq $440, %r11
	decq %rdi
	jne .LBB58_17
.LBB58_27:
	vmovdqu %ymm0, 464(%rsp)
	vmovdqu %ymm0, 432(%rsp)
	vmovdqu %ymm0, 400(%rsp)
	vmovdqu %ymm0, 368(%rsp)
	vmovdqu %ymm0, 336(%rsp)
	vmovdqu %ymm0, 304(%rsp)
	vmovdqu %ymm0, 272(%rsp)
	vmovdqu %ymm0, 240(%rsp)
	vmovdqu %ymm0, 208(%rsp)
	lock  decq (%rbx)
	jne .LBB58_29
	leaq 208(%rsp), %r14
	movl $288, %edx
	movq %r14, %rdi
	vzeroupper
	callq memcpy@PLT
	movq %rbx, %rdi
	callq tags_library_dealloc@PLT
	movq %r14, %rdi
	callq tag_c.pool_state.PoolState.drop
.LBB58_29:
	testq %rbp, %rbp
	je .LBB58_31
	movq %r12, %rdi
	vzeroupper
	callq tags_library_dealloc@PLT
.LBB58_31:
	movb $11, %bl
	testq %r13, %r13
	je .LBB58_34
	movq %r15, %rdi
	jmp .LBB58_33
.LBB58_2:
	vmovups %ymm0, 464(%rsp)
	vmovups %ymm0, 432(%rsp)
	vmovups %ymm0, 400(%rsp)
	vmovups %ymm0, 368(%rsp)
	vmovups %ymm0, 336(%rsp)
	vmovups %ymm0, 304(%rsp)
	vmovups %ymm0, 272(%rsp)
	vmovups %ymm0, 240(%rsp)
	vmovups %ymm0, 208(%rsp)
	lock  decq (%rbx)
	jne .LBB58_4
	leaq 8(%rbx), %rsi
	leaq 208(%rsp), %r15
	movl $288, %edx
	movq %r15, %rdi
	vzeroupper
	callq memcpy@PLT
	movq %rbx, %rdi
	callq tags_library_dealloc@PLT
	movq %r15, %rdi
	callq tag_c.pool_state.PoolState.drop
.LBB58_4:
	vmovdqa (%rsp), %xmm0
	vmovq %xmm0, %r15
	testq %r15, %r15
	je .LBB58_11
	leaq 272(%r14), %r12
	jmp .LBB58_6
	.p2align 4
.LBB58_10:
	addq $424, %r12
	decq %r15
	je .LBB58_11
.LBB58_6:
	movq -16(%r12), %rbx
	movq (%r12), %r13
	cmpq $0, -208(%r12)
	je .LBB58_8
	movq -224(%r12), %rdi
	vzeroupper
	callq tags_library_dealloc@PLT
.LBB58_8:
	testq %r13, %r13
	je .LBB58_10
	movq %rbx, %rdi
	vzeroupper
	callq tags_library_dealloc@PLT
	jmp .LBB58_10
.LBB58_11:
	vmovdqa (%rsp), %xmm0
	vpextrq $1, %xmm0, %rax
	movb $3, %bl
	testq %rax, %rax
	je .LBB58_34
	movq %r14, %rdi
.LBB58_33:
	vzeroupper
	callq tags_library_dealloc@PLT
	jmp .LBB58_34
.LBB58_18:
	movzbl 8(%r8,%r11), %r9d
	movq 64(%r8,%r11), %rdi
	movq 80(%r8,%r11), %rax
	movq 272(%r8,%r11), %r10
	movq %r10, 144(%rsp)
	movq 288(%r8,%r11), %r10
	movq %r10, 152(%rsp)
	movq $1, 8(%r8,%r11)
	movq %r14, 16(%r8,%r11)
	vmovaps (%rsp), %xmm0
	vmovups %xmm0, 24(%r8,%r11)
	vmovaps 112(%rsp), %xmm0
	vmovups %xmm0, 40(%r8,%r11)
	movq 128(%rsp), %r10
	movq %r10, 56(%r8,%r11)
	movq %r12, 64(%r8,%r11)
	movq %rdx, 72(%r8,%r11)
	movq %rbp, 80(%r8,%r11)
	vmovups 320(%rsp), %ymm0
	vmovups %ymm0, 200(%r8,%r11)
	vmovups 208(%rsp), %ymm0
	vmovups 240(%rsp), %ymm1
	vmovups 272(%rsp), %ymm2
	vmovups 304(%rsp), %ymm3
	vmovups %ymm3, 184(%r8,%r11)
	vmovups %ymm2, 152(%r8,%r11)
	vmovups %ymm1, 120(%r8,%r11)
	vmovups %ymm0, 88(%r8,%r11)
	vmovups 768(%rsp), %ymm0
	vmovups %ymm0, 232(%r8,%r11)
	movq 800(%rsp), %rdx
	movq %rdx, 264(%r8,%r11)
	movq %r15, 272(%r8,%r11)
	movq %rcx, 280(%r8,%r11)
	movq %r13, 288(%r8,%r11)
	vmovups 1680(%rsp), %ymm0
	vmovups 1712(%rsp), %ymm1
	vmovups 1744(%rsp), %ymm2
	vmovups 1776(%rsp), %ymm3
	vmovups %ymm0, 296(%r8,%r11)
	vmovups %ymm1, 328(%r8,%r11)
	vmovups %ymm2, 360(%r8,%r11)
	vmovups %ymm3, 392(%r8,%r11)
	vmovdqu 1792(%rsp), %ymm0
	vmovdqu %ymm0, 408(%r8,%r11)
	movabsq $4294967296, %rcx
	xchgq %rcx, (%r8,%r11)
	cmpb $1, %r9b
	jne .LBB58_23
	testq %rax, %rax
	je .LBB58_21
	movq %rsi, %r14
	vzeroupper
	callq tags_library_dealloc@PLT
	movq %r14, %rsi
.LBB58_21:
	cmpq $0, 152(%rsp)
	je .LBB58_23
	movq 144(%rsp), %rdi
	movq %rsi, %r14
	vzeroupper
	callq tags_library_dealloc@PLT
	movq %r14, %rsi
.LBB58_23:
	vpxor %xmm0, %xmm0, %xmm0
	vmovdqu %ymm0, 464(%rsp)
	vmovdqu %ymm0, 432(%rsp)
	vmovdqu %ymm0, 400(%rsp)
	vmovdqu %ymm0, 368(%rsp)
	vmovdqu %ymm0, 336(%rsp)
	vmovdqu %ymm0, 304(%rsp)
	vmovdqu %ymm0, 272(%rsp)
	vmovdqu %ymm0, 240(%rsp)
	vmovdqu %ymm0, 208(%rsp)
	lock  decq (%rbx)
	jne .LBB58_25
	leaq 208(%rsp), %r14
	movl $288, %edx
	movq %r14, %rdi
	vzeroupper
	callq memcpy@PLT
	movq %rbx, %rdi
	callq tags_library_dealloc@PLT
	movq %r14, %rdi
	callq tag_c.pool_state.PoolState.drop
.LBB58_25:
	xorl %ebx, %ebx
.LBB58_34:
	movl %ebx, %eax
	addq $1832, %rsp
	popq %rbx
	popq %r12
	popq %r13
	popq %r14
	popq %r15
	popq %rbp
	vzeroupper
	retq
.Lfunc_end58:
	.size tag_c.object.Object.leave, .Lfunc_end58-tag_c.object.Object.leave
	.section .text.std_alloc.vec.Vec.drop__639c649e4d903d94,"ax",@progbits
	.p2align 4
	.type std_alloc.vec.Vec.drop__639c649e4d903d94,@function
std_alloc.vec.Vec.drop__639c649e4d903d94:
	pushq %rbp
	pushq %r15
	pushq %r14
	pushq %r13
	pushq %r12
	pushq %rbx
	pushq %rax
	movq (%rdi), %rbx
	movq 8(%rdi), %r12
	movq 16(%rdi), %r15
	testq %r12, %r12
	je .LBB59_7
	leaq 272(%rbx), %r13
	jmp .LBB59_2
	.p2align 4
.LBB59_6:
	addq $424, %r13
	decq %r12
	je .LBB59_7
.LBB59_2:
	movq -16(%r13), %r14
	movq (%r13), %rbp
	cmpq $0, -208(%r13)
	je .LBB59_4
	movq -224(%r13), %rdi
	callq tags_library_dealloc@PLT
.LBB59_4:
	testq %rbp, %rbp
	je .LBB59_6
	movq %r14, %rdi
	callq tags_library_dealloc@PLT
	jmp .LBB59_6
.LBB59_7:
	testq %r15, %r15
	je .LBB59_8
	movq %rbx, %rdi
	addq $8, %rsp
	popq %rbx
	popq %r12
	popq %r13
	popq %r14
	popq %r15
	popq %rbp
	jmp tags_library_dealloc@PLT
.LBB59_8:
	addq $8, %rsp
	popq %rbx
	popq %r12
	popq %r13
	popq %r14
	popq %r15
	popq %rbp
	retq
.Lfunc_end59:
	.size std_alloc.vec.Vec.drop__639c649e4d903d94, .Lfunc_end59-std_alloc.vec.Vec.drop__639c649e4d903d94
	.section .text.std_alloc.arc.Arc.drop__f54b87734724c4e0,"ax",@progbits
	.p2align 4
	.type std_alloc.arc.Arc.drop__f54b87734724c4e0,@function
std_alloc.arc.Arc.drop__f54b87734724c4e0:
	pushq %r14
	pushq %rbx
	subq $296, %rsp
	vxorps %xmm0, %xmm0, %xmm0
	vmovups %ymm0, 256(%rsp)
	vmovups %ymm0, 224(%rsp)
	vmovups %ymm0, 192(%rsp)
	vmovups %ymm0, 160(%rsp)
	vmovups %ymm0, 128(%rsp)
	vmovups %ymm0, 96(%rsp)
	vmovups %ymm0, 64(%rsp)
	vmovups %ymm0, 32(%rsp)
	vmovups %ymm0, (%rsp)
	lock  decq (%rdi)
	jne .LBB60_2
	leaq 8(%rdi), %rsi
	movq %rsp, %rbx
	movl $288, %edx
	movq %rdi, %r14
	movq %rbx, %rdi
	vzeroupper
	callq memcpy@PLT
	movq %r14, %rdi
	callq tags_library_dealloc@PLT
	movq %rbx, %rdi
	callq tag_c.pool_state.PoolState.drop
.LBB60_2:
	addq $296, %rsp
	popq %rbx
	popq %r14
	vzeroupper
	retq
.Lfunc_end60:
	.size std_alloc.arc.Arc.drop__f54b87734724c4e0, .Lfunc_end60-std_alloc.arc.Arc.drop__f54b87734724c4e0
	.section .text.tag_c.pool_state.PoolState.drop,"ax",@progbits
	.p2align 4
	.type tag_c.pool_state.PoolState.drop,@function
tag_c.pool_state.PoolState.drop:
	pushq %rbp
	pushq %r15
	pushq %r14
	pushq %r13
	pushq %r12
	pushq %rbx
	subq $40, %rsp
	movq 32(%rdi), %rax
	movq 48(%rdi), %rbp
	movq 88(%rdi), %rcx
	movq %rcx, 8(%rsp)
	movq 144(%rdi), %r12
	movq 160(%rdi), %r15
	movq 200(%rdi), %rcx
	movq %rcx, 16(%rsp)
	movq 216(%rdi), %r14
	movq 264(%rdi), %rcx
	movq %rcx, 32(%rsp)
	movq 272(%rdi), %rbx
	movq 280(%rdi), %rcx
	movq %rcx, 24(%rsp)
	movq 104(%rdi), %r13
	movq %rax, %rdi
	callq tags_library_dealloc@PLT
	movq %rbp, %rdi
	callq tags_library_dealloc@PLT
	testq %r13, %r13
	je .LBB61_2
	movq 8(%rsp), %rdi
	callq tags_library_dealloc@PLT
.LBB61_2:
	movq %r12, %rdi
	callq tags_library_dealloc@PLT
	movq %r15, %rdi
	callq tags_library_dealloc@PLT
	testq %r14, %r14
	je .LBB61_4
	movq 16(%rsp), %rdi
	callq tags_library_dealloc@PLT
.LBB61_4:
	testq %rbx, %rbx
	movq 32(%rsp), %r13
	je .LBB61_12
	leaq 288(%r13), %r15
	jmp .LBB61_6
	.p2align 4
.LBB61_11:
	addq $440, %r15
	decq %rbx
	je .LBB61_12
.LBB61_6:
	cmpb $0, -280(%r15)
	je .LBB61_11
	movq -16(%r15), %r14
	movq (%r15), %r12
	cmpq $0, -208(%r15)
	je .LBB61_9
	movq -224(%r15), %rdi
	callq tags_library_dealloc@PLT
.LBB61_9:
	testq %r12, %r12
	je .LBB61_11
	movq %r14, %rdi
	callq tags_library_dealloc@PLT
	jmp .LBB61_11
.LBB61_12:
	cmpq $0, 24(%rsp)
	je .LBB61_13
	movq %r13, %rdi
	addq $40, %rsp
	popq %rbx
	popq %r12
	popq %r13
	popq %r14
	popq %r15
	popq %rbp
	jmp tags_library_dealloc@PLT
.LBB61_13:
	addq $40, %rsp
	popq %rbx
	popq %r12
	popq %r13
	popq %r14
	popq %r15
	popq %rbp
	retq
.Lfunc_end61:
	.size tag_c.pool_state.PoolState.drop, .Lfunc_end61-tag_c.pool_state.PoolState.drop
	.section .text.atomic_table.owned.Table.drop__be83c7674c75c4c1,"ax",@progbits
	.p2align 4
	.type atomic_table.owned.Table.drop__be83c7674c75c4c1,@function
atomic_table.owned.Table.drop__be83c7674c75c4c1:
	pushq %rbx
	movq 32(%rdi), %rax
	movq 48(%rdi), %rbx
	movq %rax, %rdi
	callq tags_library_dealloc@PLT
	movq %rbx, %rdi
	popq %rbx
	jmp tags_library_dealloc@PLT
.Lfunc_end62:
	.size atomic_table.owned.Table.drop__be83c7674c75c4c1, .Lfunc_end62-atomic_table.owned.Table.drop__be83c7674c75c4c1
	.section .text.std_alloc.vec.Vec.drop__a45941d93199a7b0,"ax",@progbits
	.p2align 4
	.type std_alloc.vec.Vec.drop__a45941d93199a7b0,@function
std_alloc.vec.Vec.drop__a45941d93199a7b0:
	cmpq $0, 16(%rdi)
	je .LBB63_1
	movq (%rdi), %rdi
	jmp tags_library_dealloc@PLT
.LBB63_1:
	retq
.Lfunc_end63:
	.size std_alloc.vec.Vec.drop__a45941d93199a7b0, .Lfunc_end63-std_alloc.vec.Vec.drop__a45941d93199a7b0
	.section .text.tag_c.pool_state.PoolState.part,"ax",@progbits
	.p2align 4
	.type tag_c.pool_state.PoolState.part,@function
tag_c.pool_state.PoolState.part:
	pushq %rbp
	pushq %r15
	pushq %r14
	pushq %r13
	pushq %r12
	pushq %rbx
	subq $2472, %rsp
	movq %rdi, 40(%rsp)
	movq 264(%rsi), %rbp
	movq 272(%rsi), %r15
	vmovups 272(%rsi), %xmm0
	vmovaps %xmm0, 48(%rsp)
	movq (%rdx), %rax
	movq %rax, 8(%rsp)
	movq 8(%rdx), %r12
	movq 16(%rdx), %r14
	leaq 1784(%rsp), %rdi
	movl $264, %edx
	callq memcpy@PLT
	vxorps %xmm0, %xmm0, %xmm0
	vmovups %ymm0, 448(%rsp)
	vmovups %ymm0, 416(%rsp)
	vmovups %ymm0, 384(%rsp)
	vmovups %ymm0, 352(%rsp)
	vmovups %ymm0, 320(%rsp)
	vmovups %ymm0, 288(%rsp)
	vmovups %ymm0, 256(%rsp)
	vmovups %ymm0, 224(%rsp)
	vmovups %ymm0, 192(%rsp)
	vmovups %ymm0, 160(%rsp)
	vmovups %ymm0, 128(%rsp)
	vmovups %ymm0, 96(%rsp)
	vmovups %ymm0, 64(%rsp)
	movq $0, 480(%rsp)
	testq %r15, %r15
	movq %rbp, 32(%rsp)
	je .LBB64_12
	cmpq %r14, %r12
	je .LBB64_12
	movl $1, %ebx
	movq %r14, 24(%rsp)
	movq %r15, 16(%rsp)
	.p2align 4
.LBB64_3:
	vxorps %xmm0, %xmm0, %xmm0
	vmovups %ymm0, 928(%rsp)
	vmovups %ymm0, 960(%rsp)
	vmovups %ymm0, 992(%rsp)
	vmovups %ymm0, 1024(%rsp)
	vmovups %ymm0, 1056(%rsp)
	vmovups %ymm0, 1088(%rsp)
	vmovups %ymm0, 1120(%rsp)
	vmovups %ymm0, 1152(%rsp)
	vmovups %ymm0, 1184(%rsp)
	vmovups %ymm0, 1216(%rsp)
	vmovups %ymm0, 1248(%rsp)
	vmovups %ymm0, 1280(%rsp)
	vmovups %ymm0, 1312(%rsp)
	movq $0, 1344(%rsp)
	vmovups %ymm0, 496(%rsp)
	vmovups %ymm0, 528(%rsp)
	vmovups %ymm0, 560(%rsp)
	vmovups %ymm0, 592(%rsp)
	vmovups %ymm0, 624(%rsp)
	vmovups %ymm0, 656(%rsp)
	vmovups %ymm0, 688(%rsp)
	vmovups %ymm0, 720(%rsp)
	vmovups %ymm0, 752(%rsp)
	vmovups %ymm0, 784(%rsp)
	vmovups %ymm0, 816(%rsp)
	vmovups %ymm0, 848(%rsp)
	vmovups %ymm0, 880(%rsp)
	movq $0, 912(%rsp)
	vmovups %ymm0, 1744(%rsp)
	vmovups %ymm0, 1712(%rsp)
	vmovups %ymm0, 1680(%rsp)
	vmovups %ymm0, 1648(%rsp)
	vmovups %ymm0, 1616(%rsp)
	vmovups %ymm0, 1584(%rsp)
	vmovups %ymm0, 1552(%rsp)
	vmovups %ymm0, 1520(%rsp)
	vmovups %ymm0, 1488(%rsp)
	vmovups %ymm0, 1456(%rsp)
	vmovups %ymm0, 1424(%rsp)
	vmovups %ymm0, 1392(%rsp)
	vmovups %ymm0, 1360(%rsp)
	movq $0, 1776(%rsp)
	movq (%rbp), %rax
	movabsq $4294967296, %rcx
	cmpq %rcx, %rax
	jne .LBB64_4
	movabsq $4294967296, %rax
	movabsq $4294967299, %rcx
	lock  cmpxchgq %rcx, (%rbp)
	jne .LBB64_4
	movzbl 8(%rbp), %r13d
	leaq 16(%rbp), %r14
	leaq 2048(%rsp), %r15
	movl $424, %edx
	movq %r15, %rdi
	movq %r14, %rsi
	vzeroupper
	callq memcpy@PLT
	movq $0, 8(%rbp)
	leaq 1360(%rsp), %rsi
	movl $424, %edx
	movq %r14, %rdi
	callq memcpy@PLT
	xorl %eax, %eax
	xchgq %rax, (%rbp)
	leaq 496(%rsp), %rdi
	movl $424, %edx
	movq %r15, %rsi
	callq memcpy@PLT
	cmpb $1, %r13b
	jne .LBB64_7
	leaq 64(%rsp), %r14
	leaq 496(%rsp), %rsi
	movl $424, %edx
	movq %r14, %rdi
	callq memcpy@PLT
	imulq $424, %r12, %rdi
	addq 8(%rsp), %rdi
	movl $424, %edx
	movq %r14, %rsi
	callq memcpy@PLT
	incq %r12
	jmp .LBB64_9
	.p2align 4
.LBB64_4:
	leaq 64(%rsp), %rdi
	leaq 928(%rsp), %rsi
	movl $424, %edx
	vzeroupper
	callq memcpy@PLT
	cmpq %r15, %rbx
	jb .LBB64_11
	jmp .LBB64_12
.LBB64_7:
	vxorps %xmm0, %xmm0, %xmm0
	vmovups %ymm0, 448(%rsp)
	vmovups %ymm0, 416(%rsp)
	vmovups %ymm0, 384(%rsp)
	vmovups %ymm0, 352(%rsp)
	vmovups %ymm0, 320(%rsp)
	vmovups %ymm0, 288(%rsp)
	vmovups %ymm0, 256(%rsp)
	vmovups %ymm0, 224(%rsp)
	vmovups %ymm0, 192(%rsp)
	vmovups %ymm0, 160(%rsp)
	vmovups %ymm0, 128(%rsp)
	vmovups %ymm0, 96(%rsp)
	vmovups %ymm0, 64(%rsp)
	movq $0, 480(%rsp)
.LBB64_9:
	movq 24(%rsp), %r14
	movq 16(%rsp), %r15
	cmpq %r15, %rbx
	jae .LBB64_12
.LBB64_11:
	incq %rbx
	addq $440, %rbp
	cmpq %r14, %r12
	jne .LBB64_3
.LBB64_12:
	vmovups 2000(%rsp), %ymm0
	movq 40(%rsp), %rax
	vmovups %ymm0, 216(%rax)
	vmovups 1976(%rsp), %ymm0
	vmovups %ymm0, 192(%rax)
	vmovups 1944(%rsp), %ymm0
	vmovups %ymm0, 160(%rax)
	vmovups 1912(%rsp), %ymm0
	vmovups %ymm0, 128(%rax)
	vmovups 1784(%rsp), %ymm0
	vmovups 1816(%rsp), %ymm1
	vmovups 1848(%rsp), %ymm2
	vmovups 1880(%rsp), %ymm3
	vmovups %ymm3, 96(%rax)
	vmovups %ymm2, 64(%rax)
	vmovups %ymm1, 32(%rax)
	vmovups %ymm0, (%rax)
	movq 8(%rsp), %rcx
	movq %rcx, 248(%rax)
	movq %r12, 256(%rax)
	movq %r14, 264(%rax)
	movq 32(%rsp), %rcx
	movq %rcx, 272(%rax)
	vmovaps 48(%rsp), %xmm0
	vmovups %xmm0, 280(%rax)
	addq $2472, %rsp
	popq %rbx
	popq %r12
	popq %r13
	popq %r14
	popq %r15
	popq %rbp
	vzeroupper
	retq
.Lfunc_end64:
	.size tag_c.pool_state.PoolState.part, .Lfunc_end64-tag_c.pool_state.PoolState.part
	.section .text.tag_c.rounds.bare.make_round,"ax",@progbits
	.p2align 4
	.type tag_c.rounds.bare.make_round,@function
tag_c.rounds.bare.make_round:
	pushq %rbp
	pushq %r15
	pushq %r14
	pushq %r13
	pushq %r12
	pushq %rbx
	subq $120, %rsp
	movq %rdi, %rbx
	vxorps %xmm0, %xmm0, %xmm0
	vmovaps %xmm0, 64(%rsp)
	movq $0, 80(%rsp)
	leaq 112(%rsi), %rdi
	testb $1, %cl
	cmovneq %rsi, %rdi
	movl 64(%rdi), %ebp
	testl %ebp, %ebp
	je .LBB65_1
	testb $1, %cl
	movl $8, %eax
	movl $216, %r13d
	cmovneq %rax, %r13
	testb %r9b, %r9b
	je .LBB65_4
	movb $1, %r14b
	xorl %ebp, %ebp
.LBB65_23:
	movq (%rdi), %rax
	movl 28(%rdx,%r13), %ecx
	xorl %esi, %esi
	xchgq %rsi, 64(%rax,%rcx,8)
	movq (%rdi), %rsi
	movzbl 28(%rdx,%r13), %ecx
	movq $-2, %rdx
	rolq %cl, %rdx
	.p2align 4
.LBB65_24:
	movq 8(%rsi), %rax
	movq %rax, %rcx
	andq %rdx, %rcx
	lock  cmpxchgq %rcx, 8(%rsi)
	jne .LBB65_24
	movq (%rdi), %rax
	movq 8(%rax), %rax
	testq %rax, %rax
	je .LBB65_26
	callq tag_bell.settling.look_through_i64
	xorl %r12d, %r12d
	xorl %r15d, %r15d
	jmp .LBB65_35
.LBB65_1:
	xorl %eax, %eax
	testb $1, %cl
	movl $6, %r15d
	cmovel %eax, %r15d
	movl $8, %eax
	movl $216, %r13d
	cmovneq %rax, %r13
.LBB65_30:
	movq (%rdi), %rax
	movl 28(%rdx,%r13), %ecx
	xorl %esi, %esi
	xchgq %rsi, 64(%rax,%rcx,8)
	movq (%rdi), %rsi
	movzbl 28(%rdx,%r13), %ecx
	movq $-2, %rdx
	rolq %cl, %rdx
	.p2align 4
.LBB65_31:
	movq 8(%rsi), %rax
	movq %rax, %rcx
	andq %rdx, %rcx
	lock  cmpxchgq %rcx, 8(%rsi)
	jne .LBB65_31
	movq (%rdi), %rax
	movq 8(%rax), %rax
	movb $1, %r12b
	testq %rax, %rax
	je .LBB65_33
	callq tag_bell.settling.look_through_i64
	xorl %r14d, %r14d
	xorl %ebp, %ebp
	jmp .LBB65_35
.LBB65_4:
	movl (%rdx,%r13), %eax
	movzbl 4(%rdx,%r13), %r11d
	movq 32(%rdx,%r13), %r9
	movq 64(%rdx,%r13), %r10
	testl %eax, %eax
	sete %r14b
	cmpq %r10, %r9
	je .LBB65_6
	movl %r11d, %r15d
	xorb $1, %r15b
	orb %r15b, %r14b
	je .LBB65_6
.LBB65_20:
	movzbl %cl, %ecx
	movzbl %r8b, %r8d
	movzbl 176(%rsp), %r9d
	leaq 64(%rsp), %rdi
	callq tag_pool.pool.Pool.wait_on_i64_core.clone.U64Clone
	movzbl 64(%rsp), %r14d
	movl 68(%rsp), %ebp
	movq 72(%rsp), %rax
	xorl %r12d, %r12d
	movq 80(%rsp), %rdx
	xorl %r15d, %r15d
	jmp .LBB65_35
.LBB65_33:
	xorl %r14d, %r14d
	xorl %ebp, %ebp
	jmp .LBB65_27
.LBB65_6:
	vmovaps %xmm0, 96(%rsp)
	vmovaps %xmm0, 48(%rsp)
	cmpq %r10, %r9
	jne .LBB65_7
	movb $5, %r15b
	jmp .LBB65_30
.LBB65_26:
	xorl %r12d, %r12d
	xorl %r15d, %r15d
.LBB65_27:
	xorl %eax, %eax
	xorl %edx, %edx
.LBB65_35:
	movzbl %r14b, %ecx
	movb %r12b, (%rbx)
	movb %r15b, 1(%rbx)
	movw $0, 2(%rbx)
	movl %ecx, 4(%rbx)
	movl %ebp, 8(%rbx)
	movl $0, 12(%rbx)
	movq %rax, 16(%rbx)
	movq %rdx, 24(%rbx)
	addq $120, %rsp
	popq %rbx
	popq %r12
	popq %r13
	popq %r14
	popq %r15
	popq %rbp
	retq
.LBB65_7:
	leaq (%rdx,%r13), %r9
	movq %r9, 24(%rsp)
	addq $16, %r9
	movq %r9, 40(%rsp)
	xorl %r10d, %r10d
	cmpl %eax, %ebp
	movq %rdx, 32(%rsp)
	jbe .LBB65_10
	movl $0, %r12d
	movl $0, %r9d
	testb %r11b, %r11b
	jne .LBB65_14
	movl 68(%rdi), %r9d
	shrxl %r9d, %eax, %eax
	movq (%rdi), %r10
	movq %rax, %r11
	shlq $7, %r11
	movq 576(%r10,%r11), %r10
	notq %r10
	tzcntq %r10, %r12
	shrxl %r9d, %r12d, %r11d
	movl $1, %r10d
	testl %r11d, %r11d
	jne .LBB65_10
	shlxl %r9d, %eax, %r15d
	addl %r12d, %r15d
	cmpl %r15d, %ebp
	jbe .LBB65_10
	movl %r8d, 8(%rsp)
	movl %ecx, 12(%rsp)
	movq %rsi, 16(%rsp)
	movq %rdi, %r14
	movq (%rdi), %rdi
	movq 40(%rsp), %rsi
	movl %eax, %edx
	movl %r12d, %ecx
	callq tag_search.shared.SharedPort.claim_one_i64
	cmpb $1, %al
	jne .LBB65_15
	movq %rdx, %r9
	incl %r12d
	movl $2, %r10d
	movq %r14, %rdi
	movq 16(%rsp), %rsi
	movl 12(%rsp), %ecx
	movl 8(%rsp), %r8d
	jmp .LBB65_14
.LBB65_10:
	xorl %r12d, %r12d
	xorl %r9d, %r9d
.LBB65_14:
	movl %r10d, 48(%rsp)
	movl %r12d, 52(%rsp)
	movq %r9, 56(%rsp)
	leaq 96(%rsp), %rax
	leaq 48(%rsp), %r9
	movq %rdi, %rdx
	movq %rax, %rdi
	movq %rdx, %r14
	movq %rsi, %r15
	movq %rdx, %rsi
	movq 40(%rsp), %rdx
	movl %ecx, %ebp
	movq 24(%rsp), %rcx
	movl %r8d, %r12d
	movq %r9, %r8
	callq tag_search.on_map.finish_i64
	movl %r12d, %r8d
	movl %ebp, %ecx
	movq %r15, %rsi
	movzbl 96(%rsp), %eax
	movl 100(%rsp), %r15d
.LBB65_17:
	testb $1, %cl
	je .LBB65_21
	movl %r15d, %ebp
	movq %r14, %rdi
	movq 32(%rsp), %rdx
	jmp .LBB65_19
.LBB65_21:
	xorl %ebp, %ebp
	cmpb $1, %al
	movq %r14, %rdi
	movq 32(%rsp), %rdx
	jne .LBB65_19
	addl 224(%rsi), %r15d
	movl $216, %r13d
	xorl %r14d, %r14d
	movl %r15d, %ebp
	jmp .LBB65_23
.LBB65_19:
	xorl %r14d, %r14d
	cmpb $1, %al
	cmovnel %r14d, %ebp
	testb %al, %al
	jne .LBB65_23
	jmp .LBB65_20
.LBB65_15:
	movb $1, %al
	movq 24(%rsp), %r9
	cmpl (%r9), %r15d
	movq 16(%rsp), %rsi
	movl 12(%rsp), %ecx
	movl 8(%rsp), %r8d
	jne .LBB65_17
	leal 1(%r15), %edx
	decl %ebp
	xorl %edi, %edi
	cmpl %ebp, %edx
	cmovbl %edx, %edi
	movl %edi, (%r9)
	jmp .LBB65_17
.Lfunc_end65:
	.size tag_c.rounds.bare.make_round, .Lfunc_end65-tag_c.rounds.bare.make_round
	.section .text.tag_pool.pool.Pool.wait_on_i64_core.clone.U64Clone,"ax",@progbits
	.p2align 4
	.type tag_pool.pool.Pool.wait_on_i64_core.clone.U64Clone,@function
tag_pool.pool.Pool.wait_on_i64_core.clone.U64Clone:
	pushq %rbp
	pushq %r15
	pushq %r14
	pushq %r13
	pushq %r12
	pushq %rbx
	subq $40, %rsp
	movl %ecx, %ebp
	movq %rdx, %r15
	movq %rsi, %r12
	leaq 112(%rsi), %r14
	leaq 216(%rdx), %rax
	addq $8, %r15
	testb $1, %bpl
	cmovneq %rsi, %r14
	movq %rdi, %rbx
	cmoveq %rax, %r15
	testb %r9b, %r9b
	je .LBB66_3
	movq (%r14), %rax
	movl 28(%r15), %ecx
	movq 64(%rax,%rcx,8), %rax
	movl %eax, %ecx
	andl $3, %ecx
	decl %ecx
	cmpl $1, %ecx
	ja .LBB66_3
	andq $-8, %rax
	xorl %ecx, %ecx
	testb %r8b, %r8b
	setne %cl
	leaq (%rax,%rcx,4), %rax
	incq %rax
	movl 28(%r15), %ecx
	movq (%r14), %rdx
	xchgq %rax, 64(%rdx,%rcx,8)
	jmp .LBB66_6
.LBB66_3:
	movq (%r14), %rax
	movl $8, %ecx
	lock  xaddq %rcx, 16(%rax)
	movq (%r14), %rdx
	movzbl 28(%r15), %eax
	movl $1, %esi
	shlxq %rax, %rsi, %rsi
	.p2align 4
.LBB66_4:
	movq 8(%rdx), %rax
	movq %rax, %rdi
	orq %rsi, %rdi
	lock  cmpxchgq %rdi, 8(%rdx)
	jne .LBB66_4
	andq $-8, %rcx
	xorl %eax, %eax
	testb %r8b, %r8b
	setne %al
	leaq (%rcx,%rax,4), %rax
	incq %rax
	movl 28(%r15), %ecx
	movq (%r14), %rdx
	xchgq %rax, 64(%rdx,%rcx,8)
.LBB66_6:
	vxorps %xmm0, %xmm0, %xmm0
	vmovaps %xmm0, 16(%rsp)
	vmovaps %xmm0, (%rsp)
	movq 32(%r15), %rax
	cmpq 64(%r15), %rax
	je .LBB66_22
	movl 64(%r14), %edx
	movl (%r15), %edi
	xorl %eax, %eax
	cmpl %edi, %edx
	jbe .LBB66_10
	testb $1, 4(%r15)
	movl $0, %esi
	movl $0, %ecx
	jne .LBB66_16
	movl 68(%r14), %ecx
	shrxl %ecx, %edi, %esi
	movq (%r14), %rax
	movq %rsi, %rdi
	shlq $7, %rdi
	movq 576(%rax,%rdi), %rax
	notq %rax
	tzcntq %rax, %r8
	shrxl %ecx, %r8d, %r9d
	movl $1, %eax
	testl %r9d, %r9d
	jne .LBB66_10
	shlxl %ecx, %esi, %r13d
	addl %r8d, %r13d
	cmpl %r13d, %edx
	jbe .LBB66_10
	movq (%r14), %r10
	movl $1, %eax
	shlxq %r8, %rax, %r9
	.p2align 4
.LBB66_13:
	movq 576(%r10,%rdi), %rcx
	movq %rcx, %r11
	orq %r9, %r11
	movq %rcx, %rax
	lock  cmpxchgq %r11, 576(%r10,%rdi)
	jne .LBB66_13
	testq %r9, %rcx
	je .LBB66_17
	leal 1(%r8), %esi
	movl $2, %eax
	jmp .LBB66_16
.LBB66_10:
	xorl %esi, %esi
	xorl %ecx, %ecx
.LBB66_16:
	leaq 16(%r15), %rdx
	movl %eax, (%rsp)
	movl %esi, 4(%rsp)
	movq %rcx, 8(%rsp)
	leaq 16(%rsp), %rdi
	movq %rsp, %r8
	movq %r14, %rsi
	movq %r15, %rcx
	callq tag_search.on_map.finish_i64
	movl 20(%rsp), %r13d
	cmpb $1, 16(%rsp)
	sete %al
.LBB66_19:
	testb $1, %bpl
	je .LBB66_20
	testb %al, %al
	jne .LBB66_25
	jmp .LBB66_21
.LBB66_20:
	testb %al, %al
	je .LBB66_21
	addl 224(%r12), %r13d
.LBB66_25:
	movq (%r14), %rax
	movl 28(%r15), %ecx
	xorl %edx, %edx
	xchgq %rdx, 64(%rax,%rcx,8)
	movq (%r14), %rdx
	movzbl 28(%r15), %ecx
	movq $-2, %rsi
	rolq %cl, %rsi
	.p2align 4
.LBB66_26:
	movq 8(%rdx), %rax
	movq %rax, %rcx
	andq %rsi, %rcx
	lock  cmpxchgq %rcx, 8(%rdx)
	jne .LBB66_26
	movq (%r14), %rax
	movq 8(%rax), %rax
	xorl %r15d, %r15d
	testq %rax, %rax
	je .LBB66_28
	movq %r14, %rdi
	callq tag_bell.settling.look_through_i64
	jmp .LBB66_30
.LBB66_21:
	xorl %edx, %edx
	movl $2, %r15d
	xorl %eax, %eax
	xorl %r13d, %r13d
	jmp .LBB66_30
.LBB66_28:
	xorl %edx, %edx
	xorl %eax, %eax
.LBB66_30:
	movl %r15d, (%rbx)
	movl %r13d, 4(%rbx)
	movq %rax, 8(%rbx)
	movq %rdx, 16(%rbx)
	addq $40, %rsp
	popq %rbx
	popq %r12
	popq %r13
	popq %r14
	popq %r15
	popq %rbp
	retq
.LBB66_17:
	movq 40(%r15), %rax
	orq %r9, (%rax,%rsi,8)
	incq 64(%r15)
	movb $1, %al
	cmpl (%r15), %r13d
	jne .LBB66_19
	leal 1(%r13), %ecx
	decl %edx
	xorl %esi, %esi
	cmpl %edx, %ecx
	cmovbl %ecx, %esi
	movl %esi, (%r15)
	jmp .LBB66_19
.LBB66_22:
	ud2
.Lfunc_end66:
	.size tag_pool.pool.Pool.wait_on_i64_core.clone.U64Clone, .Lfunc_end66-tag_pool.pool.Pool.wait_on_i64_core.clone.U64Clone
	.section .text.tag_bell.settling.look_through_i64,"ax",@progbits
	.p2align 4
	.type tag_bell.settling.look_through_i64,@function
tag_bell.settling.look_through_i64:
	movl 64(%rdi), %eax
	movzbl 68(%rdi), %ecx
	movl $1, %edx
	shlxl %ecx, %edx, %edx
	addl %edx, %eax
	decl %eax
	shrxl %ecx, %eax, %eax
	xorl %edx, %edx
	testl %eax, %eax
	je .LBB67_1
	pushq %rax
	movl %eax, %eax
	shlq $7, %rax
	xorl %ecx, %ecx
	.p2align 4
.LBB67_6:
	movl 64(%rdi), %esi
	movzbl 68(%rdi), %r8d
	shlxl %r8d, %edx, %r9d
	subl %r9d, %esi
	movl $1, %r9d
	shlxl %r8d, %r9d, %r8d
	cmpl %esi, %r8d
	cmovbl %r8d, %esi
	movq (%rdi), %r8
	movq 576(%r8,%rcx), %r8
	movq (%rdi), %r9
	movq 640(%r9,%rcx), %r9
	bzhiq %rsi, %r9, %r9
	jne .LBB67_8
	movq $-1, %r9
	bzhiq %rsi, %r9, %r9
	bzhiq %rsi, %r8, %rsi
	cmpq %r9, %rsi
	jne .LBB67_8
	incl %edx
	subq $-128, %rcx
	cmpq %rcx, %rax
	jne .LBB67_6
	jmp .LBB67_4
.LBB67_1:
	xorl %eax, %eax
	retq
.LBB67_8:
	movq (%rdi), %rax
	movq 8(%rax), %rdx
	testq %rdx, %rdx
	je .LBB67_4
	movl $1, %esi
	callq tag_bell.telling.tell_each_i64
	addq $8, %rsp
	retq
.LBB67_4:
	xorl %edx, %edx
	xorl %eax, %eax
	addq $8, %rsp
	retq
.Lfunc_end67:
	.size tag_bell.settling.look_through_i64, .Lfunc_end67-tag_bell.settling.look_through_i64
	.section .text.tag_c.rounds.caching.make_round_over,"ax",@progbits
	.p2align 4
	.type tag_c.rounds.caching.make_round_over,@function
tag_c.rounds.caching.make_round_over:
	pushq %rbp
	pushq %r15
	pushq %r14
	pushq %r13
	pushq %r12
	pushq %rbx
	subq $56, %rsp
	movq %rdi, %rbx
	leaq 112(%rsi), %r14
	testb $1, %cl
	movq %r14, %rdi
	cmovneq %rsi, %rdi
	cmpl $0, 64(%rdi)
	je .LBB68_1
	testb %r9b, %r9b
	je .LBB68_13
	testb $1, %cl
	movl $8, %eax
	movl $216, %r12d
	cmovneq %rax, %r12
	movb $1, %r13b
	xorl %ebp, %ebp
.LBB68_8:
	movq (%rdi), %rax
	movl 68(%rdx,%r12), %ecx
	xorl %esi, %esi
	xchgq %rsi, 64(%rax,%rcx,8)
	movq (%rdi), %rsi
	movzbl 68(%rdx,%r12), %ecx
	movq $-2, %rdx
	rolq %cl, %rdx
	.p2align 4
.LBB68_9:
	movq 8(%rsi), %rax
	movq %rax, %rcx
	andq %rdx, %rcx
	lock  cmpxchgq %rcx, 8(%rsi)
	jne .LBB68_9
	movq (%rdi), %rax
	movq 8(%rax), %rax
	testq %rax, %rax
	je .LBB68_11
	callq tag_bell.settling.look_through_i64
	jmp .LBB68_32
.LBB68_1:
	xorl %eax, %eax
	testb $1, %cl
	movl $6, %r15d
	cmovel %eax, %r15d
	movl $8, %eax
	movl $216, %r12d
	cmovneq %rax, %r12
	jmp .LBB68_2
.LBB68_13:
	leaq 40(%rdx), %r10
	testb $1, %cl
	movl $8, %eax
	movl $216, %r12d
	cmovneq %rax, %r12
	cmpl $0, 40(%rdx,%r12)
	movq 72(%rdx,%r12), %r9
	sete %al
	cmpq 104(%rdx,%r12), %r9
	je .LBB68_15
	movzbl 44(%rdx,%r12), %r9d
	xorb $1, %r9b
	orb %r9b, %al
	je .LBB68_15
.LBB68_23:
	movzbl 112(%rsp), %eax
	testb $1, %cl
	je .LBB68_24
	vxorps %xmm0, %xmm0, %xmm0
	vmovaps %xmm0, (%rsp)
	movq $0, 16(%rsp)
	movzbl %r8b, %r8d
	movzbl %al, %r9d
	movq %rsp, %rdi
	movq %r10, %rdx
	movl $1, %ecx
	callq tag_pool.pool.Pool.wait_on_i64_core.clone.U64Clone
	movzbl (%rsp), %r13d
	movl 4(%rsp), %ebp
.LBB68_31:
	movq 8(%rsp), %rax
	movq 16(%rsp), %rdx
.LBB68_32:
	xorl %r14d, %r14d
	xorl %r15d, %r15d
	jmp .LBB68_41
.LBB68_15:
	testb $1, %cl
	movq %rsi, 40(%rsp)
	movl %ecx, 36(%rsp)
	movq %r10, 48(%rsp)
	vxorps %xmm0, %xmm0, %xmm0
	je .LBB68_16
	vmovaps %xmm0, (%rsp)
	movq $0, 16(%rsp)
	movq %rsp, %rax
	movq %rdi, %r15
	movq %rax, %rdi
	movq %rdx, %r13
	movq %r10, %rdx
	movl %r8d, %ebp
	callq tag_pool.pool.Pool.get_reserved_quietly_i64_core.clone.U64Clone
	jmp .LBB68_20
.LBB68_11:
	xorl %r14d, %r14d
	xorl %r15d, %r15d
	jmp .LBB68_12
.LBB68_24:
	movq 16(%rdx), %rcx
	testq %rcx, %rcx
	je .LBB68_25
	tzcntq %rcx, %rdi
	movl (%rdx), %ebp
	movl 284(%rdx), %eax
	movl $1, %r8d
	shlxq %rdi, %r8, %r8
	btrq %rdi, %rcx
	movq %rcx, 16(%rdx)
	orq %r8, 24(%rdx)
	incl 8(%rdx)
	incq 32(%rdx)
	movq 112(%rsi), %rcx
	xorl %r8d, %r8d
	xchgq %r8, 64(%rcx,%rax,8)
	movq 112(%rsi), %rsi
	movzbl 284(%rdx), %ecx
	movq $-2, %rdx
	rolq %cl, %rdx
	.p2align 4
.LBB68_34:
	movq 8(%rsi), %rax
	movq %rax, %rcx
	andq %rdx, %rcx
	lock  cmpxchgq %rcx, 8(%rsi)
	jne .LBB68_34
	addl %edi, %ebp
	movq (%r14), %rax
	movq 8(%rax), %rax
	testq %rax, %rax
	je .LBB68_36
	movq %r14, %rdi
	callq tag_bell.settling.look_through_i64
	xorl %r14d, %r14d
	xorl %r15d, %r15d
	xorl %r13d, %r13d
	jmp .LBB68_41
.LBB68_16:
	vmovaps %xmm0, (%rsp)
	movq $0, 16(%rsp)
	movq 16(%rdx), %rax
	testq %rax, %rax
	je .LBB68_17
	tzcntq %rax, %rcx
	movl (%rdx), %ebp
	movl $1, %esi
	shlxq %rcx, %rsi, %rsi
	btrq %rcx, %rax
	movq %rax, 16(%rdx)
	orq %rsi, 24(%rdx)
	incl 8(%rdx)
	incq 32(%rdx)
	addl %ecx, %ebp
	movb $1, %al
	xorl %ecx, %ecx
	xorl %r15d, %r15d
	testb %cl, %cl
	jne .LBB68_2
.LBB68_22:
	xorl %r13d, %r13d
	cmpb $1, %al
	cmovnel %r13d, %ebp
	testb %al, %al
	movq 40(%rsp), %rsi
	movl 36(%rsp), %ecx
	movq 48(%rsp), %r10
	jne .LBB68_8
	jmp .LBB68_23
.LBB68_25:
	movq %rdx, %r14
	vxorps %xmm0, %xmm0, %xmm0
	vmovaps %xmm0, (%rsp)
	movq $0, 16(%rsp)
	movzbl %r8b, %r8d
	movzbl %al, %r9d
	movq %rsp, %rdi
	movq %r10, %rdx
	xorl %ecx, %ecx
	callq tag_pool.pool.Pool.wait_on_i64_core.clone.U64Clone
	movzbl (%rsp), %r13d
	movl 4(%rsp), %ebp
	testb %r13b, %r13b
	jne .LBB68_31
	movq %r14, %rax
	cmpq $0, 16(%r14)
	setne %dl
	movl %ebp, %ecx
	subl (%r14), %ecx
	cmpl $64, %ecx
	setb %sil
	orb %dl, %sil
	je .LBB68_27
	cmpl $63, %ecx
	ja .LBB68_31
	movq 24(%rax), %rdx
	jmp .LBB68_30
.LBB68_17:
	movq %rsp, %rax
	movq %rdi, %r15
	movq %rax, %rdi
	movq %rdx, %rsi
	movq %rdx, %r13
	movq 40(%rsp), %rdx
	movl %r8d, %ebp
	callq tag_cache.cache.Cache.win_quietly_i64_core.clone.U64Clone
.LBB68_20:
	movl %ebp, %r8d
	movq %r15, %rdi
	movq %r13, %rdx
	movzbl (%rsp), %ecx
	movzbl 1(%rsp), %r15d
	movzbl 8(%rsp), %eax
	movl 12(%rsp), %ebp
	testb %cl, %cl
	je .LBB68_22
.LBB68_2:
	movq (%rdi), %rax
	movl 68(%rdx,%r12), %ecx
	xorl %esi, %esi
	xchgq %rsi, 64(%rax,%rcx,8)
	movq (%rdi), %rsi
	movzbl 68(%rdx,%r12), %ecx
	movq $-2, %rdx
	rolq %cl, %rdx
	.p2align 4
.LBB68_3:
	movq 8(%rsi), %rax
	movq %rax, %rcx
	andq %rdx, %rcx
	lock  cmpxchgq %rcx, 8(%rsi)
	jne .LBB68_3
	movq (%rdi), %rax
	movq 8(%rax), %rax
	movb $1, %r14b
	testq %rax, %rax
	je .LBB68_5
	callq tag_bell.settling.look_through_i64
	xorl %r13d, %r13d
	xorl %ebp, %ebp
	jmp .LBB68_41
.LBB68_5:
	xorl %r13d, %r13d
	xorl %ebp, %ebp
.LBB68_12:
	xorl %eax, %eax
	xorl %edx, %edx
.LBB68_41:
	movzbl %r13b, %ecx
	movb %r14b, (%rbx)
	movb %r15b, 1(%rbx)
	movw $0, 2(%rbx)
	movl %ecx, 4(%rbx)
	movl %ebp, 8(%rbx)
	movl $0, 12(%rbx)
	movq %rax, 16(%rbx)
	movq %rdx, 24(%rbx)
	addq $56, %rsp
	popq %rbx
	popq %r12
	popq %r13
	popq %r14
	popq %r15
	popq %rbp
	retq
.LBB68_36:
	xorl %r14d, %r14d
	xorl %r15d, %r15d
	xorl %r13d, %r13d
	jmp .LBB68_12
.LBB68_27:
	movl %ebp, %ecx
	andl $-64, %ecx
	movl %ecx, (%rax)
	movl %ebp, %ecx
	andl $63, %ecx
	xorl %edx, %edx
.LBB68_30:
	btsq %rcx, %rdx
	movq %rdx, 24(%rax)
	jmp .LBB68_31
.Lfunc_end68:
	.size tag_c.rounds.caching.make_round_over, .Lfunc_end68-tag_c.rounds.caching.make_round_over
	.section .text.tag_c.pools.open_into,"ax",@progbits
	.p2align 4
	.type tag_c.pools.open_into,@function
tag_c.pools.open_into:
	pushq %rbp
	pushq %r15
	pushq %r14
	pushq %r13
	pushq %r12
	pushq %rbx
	subq $3072, %rsp
	movq $0, (%rsp)
	subq $104, %rsp
	vxorps %xmm0, %xmm0, %xmm0
	vmovaps %xmm0, 1488(%rsp)
	vmovaps %xmm0, 1472(%rsp)
	vxorps %xmm1, %xmm1, %xmm1
	vmovups %ymm1, 1952(%rsp)
	vmovups %ymm1, 1984(%rsp)
	vmovups %ymm1, 2016(%rsp)
	vmovups %ymm1, 2048(%rsp)
	vmovups %ymm1, 2064(%rsp)
	vmovaps %xmm0, 1456(%rsp)
	vmovups %ymm1, 1808(%rsp)
	vmovups %ymm1, 1840(%rsp)
	vmovups %ymm1, 1872(%rsp)
	vmovups %ymm1, 1904(%rsp)
	vmovups %ymm1, 1920(%rsp)
	vmovaps %xmm0, 496(%rsp)
	movq $0, 512(%rsp)
	movl $-13, %r13d
	cmpq $0, (%rdi)
	jne .LBB69_156
	movl 20(%rsi), %eax
	movl %eax, %r8d
	orl %ecx, %r8d
	movl $-18, %r13d
	cmpl $1, %r8d
	ja .LBB69_156
	movl $-35, %r13d
	cmpl $64, %edx
	ja .LBB69_156
	movl 8(%rsi), %ebp
	movl 12(%rsi), %r13d
	movl (%rsi), %r14d
	movl 4(%rsi), %r11d
	movl 16(%rsi), %r15d
	cmpl $1, %eax
	sete %r12b
	vxorps %xmm0, %xmm0, %xmm0
	vmovups %ymm0, 2880(%rsp)
	vmovups %ymm0, 2912(%rsp)
	vmovups %ymm0, 2944(%rsp)
	vmovups %ymm0, 2976(%rsp)
	vmovups %ymm0, 3008(%rsp)
	vmovups %ymm0, 3040(%rsp)
	vmovups %ymm0, 3072(%rsp)
	vmovups %ymm0, 3104(%rsp)
	vmovups %ymm0, 3136(%rsp)
	vmovups %ymm0, 1504(%rsp)
	movq $0, 1534(%rsp)
	vxorps %xmm1, %xmm1, %xmm1
	vmovaps %xmm1, 592(%rsp)
	movq $0, 608(%rsp)
	vmovups %ymm0, 1600(%rsp)
	vmovaps %xmm1, 560(%rsp)
	movq $0, 576(%rsp)
	vmovups %ymm0, 720(%rsp)
	movq $0, 750(%rsp)
	vmovaps %xmm1, 320(%rsp)
	movq $0, 336(%rsp)
	vmovups %ymm0, 688(%rsp)
	vmovaps %xmm1, 288(%rsp)
	movq $0, 304(%rsp)
	vmovups %ymm0, 1416(%rsp)
	vmovups %ymm0, 1392(%rsp)
	vmovups %ymm0, 1360(%rsp)
	vmovups %ymm0, 1328(%rsp)
	vmovups %ymm0, 1296(%rsp)
	vmovups %ymm0, 1264(%rsp)
	vmovups %ymm0, 1232(%rsp)
	vmovups %ymm0, 1200(%rsp)
	vmovaps %xmm1, 528(%rsp)
	movq $0, 544(%rsp)
	vmovups %ymm0, 2848(%rsp)
	vmovups %ymm0, 2816(%rsp)
	vmovups %ymm0, 2784(%rsp)
	vmovups %ymm0, 2752(%rsp)
	vmovups %ymm0, 2720(%rsp)
	vmovups %ymm0, 2688(%rsp)
	vmovups %ymm0, 2656(%rsp)
	vmovups %ymm0, 2624(%rsp)
	vmovups %ymm0, 2592(%rsp)
	vmovups %ymm0, 1088(%rsp)
	movq $0, 1119(%rsp)
	vmovaps %xmm1, 400(%rsp)
	movq $0, 416(%rsp)
	vmovups %ymm0, 768(%rsp)
	vmovaps %xmm1, 368(%rsp)
	movq $0, 384(%rsp)
	vmovups %ymm0, 1552(%rsp)
	movq $0, 1582(%rsp)
	vmovaps %xmm1, 656(%rsp)
	movq $0, 672(%rsp)
	vmovups %ymm0, 1632(%rsp)
	vmovaps %xmm1, 624(%rsp)
	movq $0, 640(%rsp)
	cmpl $10241, %r14d
	movl %r14d, 260(%rsp)
	jb .LBB69_6
	vmovups %ymm0, 726(%rsp)
	vmovaps %xmm1, 320(%rsp)
	movq $0, 336(%rsp)
	vmovups %ymm0, 688(%rsp)
	vmovaps %xmm1, 288(%rsp)
	movq $0, 304(%rsp)
	movl $-1, %r13d
	jmp .LBB69_5
.LBB69_6:
	movl %r14d, %ebx
	subl %r11d, %ebx
	jae .LBB69_8
	vmovups %ymm0, 726(%rsp)
	vmovaps %xmm1, 320(%rsp)
	movq $0, 336(%rsp)
	vmovups %ymm0, 688(%rsp)
	vmovaps %xmm1, 288(%rsp)
	movq $0, 304(%rsp)
	movl $-2, %r13d
	jmp .LBB69_5
.LBB69_8:
	cmpl $-1, %ebp
	movl $4, %esi
	cmovel %r15d, %esi
	testl %ebp, %ebp
	js .LBB69_9
	movl %ebp, %r8d
	cmpl $6, %ebp
	jbe .LBB69_15
	vmovups %ymm0, 726(%rsp)
	vmovaps %xmm1, 320(%rsp)
	movq $0, 336(%rsp)
	vmovups %ymm0, 688(%rsp)
	vmovaps %xmm1, 288(%rsp)
	movq $0, 304(%rsp)
	movl $-3, %r13d
	jmp .LBB69_5
.LBB69_9:
	movl $6, %r8d
	movl $6, %ebp
	cmpl $4, %ebx
	jb .LBB69_11
	cmpl $5, %esi
	movl $4, %r10d
	cmovael %esi, %r10d
	movl %ebx, %eax
	movl %edx, %r9d
	xorl %edx, %edx
	divl %r10d
	movl %r9d, %edx
	cmpl $1, %eax
	adcl $0, %eax
	bsrl %eax, %eax
	cmpl $6, %eax
	cmovbl %eax, %ebp
.LBB69_11:
	cmpl $4, %r11d
	jb .LBB69_15
	cmpl $5, %esi
	movl $4, %r8d
	cmovael %esi, %r8d
	movl %r11d, %eax
	movl %edx, %esi
	xorl %edx, %edx
	divl %r8d
	movl %esi, %edx
	cmpl $1, %eax
	adcl $0, %eax
	bsrl %eax, %eax
	cmpl $6, %eax
	movl $6, %r8d
	cmovbl %eax, %r8d
.LBB69_15:
	leal -65(%r15), %eax
	cmpl $-65, %eax
	ja .LBB69_17
	vmovups %ymm0, 726(%rsp)
	vmovaps %xmm1, 320(%rsp)
	movq $0, 336(%rsp)
	vmovups %ymm0, 688(%rsp)
	vmovaps %xmm1, 288(%rsp)
	movq $0, 304(%rsp)
	movl $-4, %r13d
.LBB69_5:
	movq $0, 64(%rsp)
	movq $0, 352(%rsp)
	movq $0, 56(%rsp)
	movq $0, 112(%rsp)
	movq $0, 168(%rsp)
	movq $0, 104(%rsp)
	xorl %eax, %eax
	movq $0, 88(%rsp)
	xorl %esi, %esi
	movq $0, 96(%rsp)
	movq $0, 160(%rsp)
	movq $0, 208(%rsp)
	movq $0, 152(%rsp)
	movq $0, 200(%rsp)
	movq $0, 136(%rsp)
	movq $0, 192(%rsp)
	movq $0, 144(%rsp)
	xorl %r9d, %r9d
	xorl %r10d, %r10d
	movl $0, 36(%rsp)
	xorl %r8d, %r8d
.LBB69_84:
	vxorps %xmm0, %xmm0, %xmm0
	vmovups %ymm0, 2096(%rsp)
	movq $0, 2126(%rsp)
	vxorps %xmm1, %xmm1, %xmm1
	vmovaps %xmm1, 944(%rsp)
	movq $0, 960(%rsp)
	vmovups %ymm0, 1664(%rsp)
	vmovaps %xmm1, 800(%rsp)
	movq $0, 816(%rsp)
	movq $0, 280(%rsp)
	movl $0, %ebx
	movq %rbx, 248(%rsp)
	movl $0, %ebx
	movq %rbx, 120(%rsp)
	movl $0, %ebx
	movq %rbx, 224(%rsp)
	movl $0, %ebx
	movq %rbx, 128(%rsp)
	movl $0, %ebx
	movq %rbx, 216(%rsp)
	movl $0, %ebx
	movq %rbx, 232(%rsp)
	movl $0, %ebx
	movq %rbx, 264(%rsp)
	movl $0, %ebx
	movq %rbx, 176(%rsp)
	movl $0, %ebx
	movq %rbx, 272(%rsp)
	movl $0, %r15d
	movl $0, 240(%rsp)
	movl $0, 76(%rsp)
	movl $0, 480(%rsp)
	movl $0, %ebx
	movq %rbx, 16(%rsp)
	movl $0, %ebp
	movl $0, %ebx
	movq %rbx, 184(%rsp)
	movl $0, %r14d
	movl $0, %ebx
	movl $0, %r12d
	testb %r8b, %r8b
	je .LBB69_86
	movl %r11d, %ebx
	movq 336(%rsp), %r11
	movq %r11, 960(%rsp)
	movq 304(%rsp), %r11
	movq %r11, 816(%rsp)
	movl %ebx, %r11d
	vmovups 726(%rsp), %ymm0
	vmovups %ymm0, 2102(%rsp)
	vmovaps 320(%rsp), %xmm0
	vmovaps %xmm0, 944(%rsp)
	vmovups 688(%rsp), %ymm0
	vmovups %ymm0, 1664(%rsp)
	vmovaps 288(%rsp), %xmm0
	vmovaps %xmm0, 800(%rsp)
	movq %rax, 280(%rsp)
	movq 88(%rsp), %rax
	movq %rax, 248(%rsp)
	movq %rsi, 120(%rsp)
	movq 96(%rsp), %rax
	movq %rax, 224(%rsp)
	movq 160(%rsp), %rax
	movq %rax, 128(%rsp)
	movq 208(%rsp), %rax
	movq %rax, 216(%rsp)
	movq 152(%rsp), %rax
	movq %rax, 232(%rsp)
	movq 200(%rsp), %rax
	movq %rax, 264(%rsp)
	movq 136(%rsp), %rax
	movq %rax, 176(%rsp)
	movq 192(%rsp), %rax
	movq %rax, 272(%rsp)
	movq 144(%rsp), %r15
	movl %r9d, 240(%rsp)
	movl %r10d, 76(%rsp)
	movl 36(%rsp), %eax
	movl %eax, 480(%rsp)
	movq 64(%rsp), %rax
	movq %rax, 16(%rsp)
	movq 352(%rsp), %rbp
	movq 56(%rsp), %rax
	movq %rax, 184(%rsp)
	movq 104(%rsp), %r14
	movq 168(%rsp), %rbx
	movq 112(%rsp), %r12
	xorl %r13d, %r13d
.LBB69_86:
	vmovups 2102(%rsp), %ymm0
	vmovups %ymm0, 1510(%rsp)
	vmovaps 944(%rsp), %xmm0
	vmovaps %xmm0, 592(%rsp)
	movq 960(%rsp), %rax
	movq %rax, 608(%rsp)
	vmovups 1664(%rsp), %ymm0
	vmovups %ymm0, 1600(%rsp)
	vmovaps 800(%rsp), %xmm0
	vmovaps %xmm0, 560(%rsp)
	movq 816(%rsp), %rax
	movq %rax, 576(%rsp)
	testb %r8b, %r8b
	je .LBB69_152
	testq %rbp, %rbp
	movq %rdi, 80(%rsp)
	movl %edx, 32(%rsp)
	je .LBB69_88
	movabsq $20962209174669945, %rax
	cmpq %rax, %rbp
	ja .LBB69_140
	imulq $440, %rbp, %rdi
	movl $8, %esi
	movl %ecx, 28(%rsp)
	movl %r11d, %r13d
	vzeroupper
	callq tags_library_alloc@PLT
	movl 28(%rsp), %ecx
	testb $1, %al
	je .LBB69_140
	movl %r13d, %r11d
	jmp .LBB69_92
.LBB69_140:
	movq %r12, %rdi
	vzeroupper
	callq tags_library_dealloc@PLT
	movq %r14, %rdi
	callq tags_library_dealloc@PLT
	cmpq $0, 224(%rsp)
	movq 232(%rsp), %rbx
	movq 128(%rsp), %r14
	je .LBB69_142
	movq 248(%rsp), %rdi
	callq tags_library_dealloc@PLT
.LBB69_142:
	movq %r14, %rdi
	callq tags_library_dealloc@PLT
	movq %rbx, %rdi
	callq tags_library_dealloc@PLT
	testq %r15, %r15
	je .LBB69_144
	movq 176(%rsp), %rdi
	callq tags_library_dealloc@PLT
.LBB69_144:
	movq 16(%rsp), %rax
	leaq 272(%rax), %r14
	jmp .LBB69_145
	.p2align 4
.LBB69_149:
	addq $424, %r14
	decq %rbp
	je .LBB69_150
.LBB69_145:
	movq -16(%r14), %rbx
	movq (%r14), %r15
	cmpq $0, -208(%r14)
	je .LBB69_147
	movq -224(%r14), %rdi
	callq tags_library_dealloc@PLT
.LBB69_147:
	testq %r15, %r15
	je .LBB69_149
	movq %rbx, %rdi
	callq tags_library_dealloc@PLT
	jmp .LBB69_149
.LBB69_88:
	leaq 40(%rsp), %rdx
.LBB69_92:
	movq 232(%rsp), %rsi
	movq 128(%rsp), %rdi
	movq 224(%rsp), %r8
	leaq 1510(%rsp), %rax
	vmovups (%rax), %ymm0
	vmovups %ymm0, 1200(%rsp)
	movq %r12, 1232(%rsp)
	movq %rbx, 1240(%rsp)
	movq %r14, 1248(%rsp)
	movq 280(%rsp), %rax
	movq %rax, 1256(%rsp)
	movq 608(%rsp), %rax
	movq %rax, 1280(%rsp)
	vmovaps 592(%rsp), %xmm0
	vmovaps %xmm0, 1264(%rsp)
	movq 248(%rsp), %rax
	movq %rax, 1288(%rsp)
	movq 120(%rsp), %rax
	movq %rax, 1296(%rsp)
	movq %r8, 1304(%rsp)
	vmovups 1600(%rsp), %ymm0
	vmovups %ymm0, 1312(%rsp)
	movq %rdi, 1344(%rsp)
	movq 216(%rsp), %rax
	movq %rax, 1352(%rsp)
	movq %rsi, 1360(%rsp)
	movq 264(%rsp), %rax
	movq %rax, 1368(%rsp)
	movq 576(%rsp), %rax
	movq %rax, 1392(%rsp)
	vmovaps 560(%rsp), %xmm0
	vmovaps %xmm0, 1376(%rsp)
	movq 176(%rsp), %rax
	movq %rax, 1400(%rsp)
	movq 272(%rsp), %rax
	movq %rax, 1408(%rsp)
	movq %r15, 1416(%rsp)
	movl 240(%rsp), %eax
	movl %eax, 1424(%rsp)
	movl 76(%rsp), %eax
	movl %eax, 1428(%rsp)
	movl 480(%rsp), %eax
	movl %eax, 1432(%rsp)
	movq %rdx, 528(%rsp)
	movl $0, 1436(%rsp)
	movq $0, 1440(%rsp)
	movq $0, 536(%rsp)
	movq %rbp, 544(%rsp)
	leaq 528(%rsp), %rax
	movq %rax, 8(%rsp)
	movq %rbp, (%rsp)
	movzbl %cl, %r9d
	leaq 2880(%rsp), %rdi
	leaq 1200(%rsp), %rsi
	movl 260(%rsp), %edx
	movl %r11d, %ecx
	movl 32(%rsp), %r8d
	vzeroupper
	callq tag_c.pool_state.PoolState.with_cells
	cmpq $15, %rbp
	jbe .LBB69_93
	movq %rbp, %rdx
	shrq %rdx
	movq %rbp, %rax
	subq %rdx, %rax
	imulq $424, %rax, %rsi
	movq 16(%rsp), %rdi
	addq %rdi, %rsi
	callq core.slice.edits.mirror_tag_pool.hand.Hand_i64
	jmp .LBB69_132
.LBB69_93:
	cmpq $2, %rbp
	jb .LBB69_132
	leaq -2(%rbp), %r15
	movq %r15, %r12
	shrq %r12
	movq %rbp, %rax
	decq %rax
	je .LBB69_96
	imulq $424, %rax, %rbx
	movq 16(%rsp), %r13
	addq %r13, %rbx
	leaq 2096(%rsp), %r14
	movl $424, %edx
	movq %r14, %rdi
	movq %r13, %rsi
	callq memcpy@PLT
	movl $424, %edx
	movq %r13, %rdi
	movq %rbx, %rsi
	callq memmove@PLT
	movl $424, %edx
	movq %rbx, %rdi
	movq %r14, %rsi
	callq memcpy@PLT
.LBB69_96:
	testq %r12, %r12
	je .LBB69_132
	cmpq $1, %r15
	jbe .LBB69_98
	movq 16(%rsp), %rax
	leaq 424(%rax), %rbx
	imulq $424, %r15, %r14
	addq %rax, %r14
	jmp .LBB69_101
.LBB69_17:
	movb %r12b, 224(%rsp)
	movl %ecx, 28(%rsp)
	movl %edx, 32(%rsp)
	movq %rdi, 80(%rsp)
	movabsq $281474976710656, %r12
	vmovups %ymm0, 944(%rsp)
	vmovups %ymm0, 976(%rsp)
	vmovups %ymm0, 1008(%rsp)
	vmovups %ymm0, 1040(%rsp)
	vmovups %ymm0, 1056(%rsp)
	vmovups %ymm0, 800(%rsp)
	vmovups %ymm0, 832(%rsp)
	vmovups %ymm0, 864(%rsp)
	vmovups %ymm0, 896(%rsp)
	vmovups %ymm0, 912(%rsp)
	leaq 944(%rsp), %rdi
	movl %r11d, 128(%rsp)
	movl %r11d, %esi
	movl %r8d, %edx
	movl %r15d, %ecx
	movq %r12, %r8
	vzeroupper
	callq tag_pool.opens.open_set_i64_core.clone.U64Clone
	cmpb $0, 944(%rsp)
	je .LBB69_18
	vxorps %xmm1, %xmm1, %xmm1
	vmovups %ymm1, 1095(%rsp)
	vxorps %xmm0, %xmm0, %xmm0
	vmovaps %xmm0, 400(%rsp)
	movq $0, 416(%rsp)
	vmovups %ymm1, 768(%rsp)
	vmovaps %xmm0, 368(%rsp)
	jmp .LBB69_82
.LBB69_18:
	movl %r13d, 36(%rsp)
	movq 984(%rsp), %rax
	movq %rax, 112(%rsp)
	movq 992(%rsp), %rax
	movq %rax, 168(%rsp)
	movq 1000(%rsp), %rax
	movq %rax, 104(%rsp)
	movq 1008(%rsp), %rax
	movq %rax, 272(%rsp)
	movq 1040(%rsp), %rax
	movq %rax, 88(%rsp)
	movq 1048(%rsp), %rax
	movq %rax, 264(%rsp)
	movq 1056(%rsp), %rax
	movq %rax, 96(%rsp)
	movq 1064(%rsp), %rax
	movq %rax, 120(%rsp)
	movq 1072(%rsp), %r13
	movq 1080(%rsp), %rax
	movq %rax, 216(%rsp)
	vmovups 952(%rsp), %ymm0
	vmovups %ymm0, 2560(%rsp)
	vmovups 1016(%rsp), %xmm0
	vmovaps %xmm0, 1168(%rsp)
	movq 1032(%rsp), %rax
	movq %rax, 1184(%rsp)
	leaq 800(%rsp), %rdi
	movl %ebx, %esi
	movl %ebp, %edx
	movl %r15d, %ecx
	movq %r12, %r8
	vzeroupper
	callq tag_pool.opens.open_set_i64_core.clone.U64Clone
	cmpb $0, 800(%rsp)
	je .LBB69_19
	testq %r13, %r13
	je .LBB69_76
	movq 120(%rsp), %rax
	leaq 40(%rax), %rbx
	jmp .LBB69_73
.LBB69_75:
	addq $192, %rbx
	decq %r13
	je .LBB69_76
.LBB69_73:
	cmpq $0, (%rbx)
	je .LBB69_75
	movq -16(%rbx), %rdi
	callq tags_library_dealloc@PLT
	jmp .LBB69_75
.LBB69_98:
	testq %r15, %r15
	jne .LBB69_102
	imulq $424, %r15, %rbx
	movq 16(%rsp), %rax
	addq %rax, %rbx
	leaq 424(%rax), %r14
.LBB69_101:
	leaq 2096(%rsp), %r15
	movl $424, %edx
	movq %r15, %rdi
	movq %rbx, %rsi
	callq memcpy@PLT
	movl $424, %edx
	movq %rbx, %rdi
	movq %r14, %rsi
	callq memmove@PLT
	movl $424, %edx
	movq %r14, %rdi
	movq %r15, %rsi
	callq memcpy@PLT
.LBB69_102:
	cmpq $1, %r12
	je .LBB69_132
	leaq -3(%rbp), %rax
	cmpq $2, %rax
	jbe .LBB69_104
	movq 16(%rsp), %rcx
	leaq 848(%rcx), %rbx
	imulq $424, %rax, %r14
	addq %rcx, %r14
	jmp .LBB69_107
.LBB69_76:
	cmpq $0, 216(%rsp)
	je .LBB69_79
	movq 120(%rsp), %rdi
.LBB69_78:
	callq tags_library_dealloc@PLT
.LBB69_79:
	movq 112(%rsp), %rdi
	callq tags_library_dealloc@PLT
	movq 104(%rsp), %rdi
	callq tags_library_dealloc@PLT
	cmpq $0, 96(%rsp)
	je .LBB69_81
	movq 88(%rsp), %rdi
	callq tags_library_dealloc@PLT
.LBB69_81:
	vxorps %xmm0, %xmm0, %xmm0
	vmovups %ymm0, 1095(%rsp)
	vxorps %xmm1, %xmm1, %xmm1
	vmovaps %xmm1, 400(%rsp)
	movq $0, 416(%rsp)
	vmovups %ymm0, 768(%rsp)
	vmovaps %xmm1, 368(%rsp)
.LBB69_82:
	movq $0, 384(%rsp)
	xorl %r8d, %r8d
	movq $0, 64(%rsp)
	movq $0, 352(%rsp)
	movq $0, 56(%rsp)
	movq $0, 112(%rsp)
	xorl %eax, %eax
	movq $0, 104(%rsp)
	xorl %r11d, %r11d
	movq $0, 88(%rsp)
	xorl %esi, %esi
	movq $0, 96(%rsp)
	movq $0, 160(%rsp)
	movq $0, 208(%rsp)
	movq $0, 152(%rsp)
	movq $0, 200(%rsp)
	movq $0, 136(%rsp)
	movq $0, 192(%rsp)
	movq $0, 144(%rsp)
	xorl %r9d, %r9d
	xorl %r10d, %r10d
	movl $0, 36(%rsp)
	movq 80(%rsp), %rdi
	movl 32(%rsp), %edx
	movl 28(%rsp), %ecx
.LBB69_83:
	movq %rax, 168(%rsp)
	movq %r11, %rax
	vmovups 1558(%rsp), %ymm0
	vmovups %ymm0, 726(%rsp)
	vmovaps 656(%rsp), %xmm0
	vmovaps %xmm0, 320(%rsp)
	movq 672(%rsp), %r11
	movq %r11, 336(%rsp)
	vmovups 1632(%rsp), %ymm0
	vmovups %ymm0, 688(%rsp)
	vmovaps 624(%rsp), %xmm0
	vmovaps %xmm0, 288(%rsp)
	movq 640(%rsp), %r11
	movq %r11, 304(%rsp)
	xorl %r13d, %r13d
	movl 128(%rsp), %r11d
	jmp .LBB69_84
.LBB69_19:
	movq 840(%rsp), %rax
	movq %rax, 160(%rsp)
	movq 848(%rsp), %rax
	movq %rax, 208(%rsp)
	movq 856(%rsp), %rax
	movq %rax, 152(%rsp)
	movq 864(%rsp), %rax
	movq %rax, 200(%rsp)
	movq 896(%rsp), %rax
	movq %rax, 136(%rsp)
	movq 904(%rsp), %rax
	movq %rax, 192(%rsp)
	movq 912(%rsp), %rax
	movq %rax, 144(%rsp)
	movq 920(%rsp), %r15
	movq 928(%rsp), %rbp
	movq 936(%rsp), %r12
	vmovups 808(%rsp), %ymm0
	vmovups %ymm0, 2528(%rsp)
	vmovups 872(%rsp), %xmm0
	vmovaps %xmm0, 1136(%rsp)
	movq 888(%rsp), %rax
	movq %rax, 1152(%rsp)
	leaq 40(%rsp), %rax
	movq %rax, 424(%rsp)
	vxorps %xmm0, %xmm0, %xmm0
	vmovups %xmm0, 432(%rsp)
	testq %r13, %r13
	movq 80(%rsp), %rdi
	movl 32(%rsp), %edx
	movl 28(%rsp), %ecx
	je .LBB69_20
	movq %r12, 64(%rsp)
	movq %rbp, 176(%rsp)
	subq %r13, %rbp
	movq %rbp, 680(%rsp)
	movq 120(%rsp), %rsi
	leaq 232(%rsi), %rbp
	movq %r15, 56(%rsp)
	leaq 232(%r15), %r14
	xorl %r10d, %r10d
	xorl %ebx, %ebx
	jmp .LBB69_33
.LBB69_36:
	movq 424(%rsp), %rax
	movq 432(%rsp), %r10
	movq 80(%rsp), %rdi
	movl 32(%rsp), %edx
	movl 28(%rsp), %ecx
	movq 240(%rsp), %r11
	movl 76(%rsp), %r9d
	vmovaps 480(%rsp), %xmm4
	vmovaps 352(%rsp), %xmm5
.LBB69_37:
	imulq $424, %r10, %rsi
	movl 128(%rsp), %r8d
	movl %r8d, (%rax,%rsi)
	movq $0, 4(%rax,%rsi)
	movq %r11, %r12
	movzbl 224(%rsp), %r11d
	movb %r11b, 12(%rax,%rsi)
	movzwl 52(%rsp), %r8d
	movw %r8w, 13(%rax,%rsi)
	movzbl 54(%rsp), %r8d
	movb %r8b, 15(%rax,%rsi)
	movl %r15d, 16(%rax,%rsi)
	movl $0, 20(%rax,%rsi)
	movq 464(%rsp), %r8
	movq %r8, 24(%rax,%rsi)
	movl 472(%rsp), %r8d
	movl %r8d, 32(%rax,%rsi)
	movl %r15d, 36(%rax,%rsi)
	movq 232(%rsp), %r8
	movq %r8, 40(%rax,%rsi)
	movq 16(%rsp), %r8
	movq %r8, 48(%rax,%rsi)
	vmovups %xmm5, 56(%rax,%rsi)
	vmovups 2096(%rsp), %ymm0
	vmovups 2128(%rsp), %ymm1
	vmovups 2160(%rsp), %ymm2
	vmovups 2192(%rsp), %ymm3
	vmovups %ymm0, 72(%rax,%rsi)
	vmovups %ymm1, 104(%rax,%rsi)
	vmovups %ymm2, 136(%rax,%rsi)
	vmovups %ymm3, 168(%rax,%rsi)
	vmovups 2208(%rsp), %ymm0
	vmovups %ymm0, 184(%rax,%rsi)
	movl $0, 216(%rax,%rsi)
	movb %r11b, 220(%rax,%rsi)
	movzbl 50(%rsp), %r8d
	movb %r8b, 223(%rax,%rsi)
	movzwl 48(%rsp), %r8d
	movw %r8w, 221(%rax,%rsi)
	movl %r9d, 224(%rax,%rsi)
	movl $0, 228(%rax,%rsi)
	movl 456(%rsp), %r8d
	movl %r8d, 240(%rax,%rsi)
	movq 448(%rsp), %r8
	movq %r8, 232(%rax,%rsi)
	movl %r9d, 244(%rax,%rsi)
	movq 184(%rsp), %r8
	movq %r8, 248(%rax,%rsi)
	movq %r12, 256(%rax,%rsi)
	vmovups %xmm4, 264(%rax,%rsi)
	vmovups 1776(%rsp), %ymm0
	vmovups %ymm0, 392(%rax,%rsi)
	vmovups 1664(%rsp), %ymm0
	vmovups 1696(%rsp), %ymm1
	vmovups 1728(%rsp), %ymm2
	vmovups 1760(%rsp), %ymm3
	vmovups %ymm3, 376(%rax,%rsi)
	vmovups %ymm2, 344(%rax,%rsi)
	vmovups %ymm1, 312(%rax,%rsi)
	vmovups %ymm0, 280(%rax,%rsi)
	incq %rbx
	incq %r10
	movq %r10, 432(%rsp)
	addq $192, %rbp
	addq $192, %r14
	cmpq %rbx, %r13
	je .LBB69_38
.LBB69_33:
	movq 176(%rsp), %r12
	subq %rbx, %r12
	je .LBB69_39
	leaq -232(%rbp), %rsi
	movl -220(%rbp), %r15d
	movq -216(%rbp), %r8
	movq %r8, 232(%rsp)
	movq -208(%rbp), %r8
	movq %r8, 16(%rsp)
	movq -192(%rbp), %r8
	movq %r8, 280(%rsp)
	vmovups -200(%rbp), %xmm5
	movl -220(%r14), %r9d
	movq -216(%r14), %r8
	movq %r8, 184(%rsp)
	movq -208(%r14), %r11
	movq -192(%r14), %r8
	movq %r8, 248(%rsp)
	vmovups -200(%r14), %xmm4
	movw $0, 52(%rsp)
	movb $0, 54(%rsp)
	movl 8(%rsi), %r8d
	movl %r8d, 472(%rsp)
	movq (%rsi), %rsi
	movq %rsi, 464(%rsp)
	vmovups -184(%rbp), %ymm0
	vmovups -152(%rbp), %ymm1
	vmovups -120(%rbp), %ymm2
	vmovups -88(%rbp), %ymm3
	vmovups %ymm0, 2096(%rsp)
	vmovups %ymm1, 2128(%rsp)
	vmovups %ymm2, 2160(%rsp)
	vmovups %ymm3, 2192(%rsp)
	vmovups -72(%rbp), %ymm0
	vmovups %ymm0, 2208(%rsp)
	movb $0, 50(%rsp)
	movw $0, 48(%rsp)
	movq -232(%r14), %rsi
	movq %rsi, 448(%rsp)
	movl -224(%r14), %esi
	movl %esi, 456(%rsp)
	vmovups -184(%r14), %ymm0
	vmovups -152(%r14), %ymm1
	vmovups -120(%r14), %ymm2
	vmovups -88(%r14), %ymm3
	vmovups %ymm0, 1664(%rsp)
	vmovups %ymm1, 1696(%rsp)
	vmovups %ymm2, 1728(%rsp)
	vmovups %ymm3, 1760(%rsp)
	vmovups -72(%r14), %ymm0
	vmovups %ymm0, 1776(%rsp)
	cmpq %r10, 440(%rsp)
	jne .LBB69_37
	vmovaps %xmm5, 352(%rsp)
	vmovaps %xmm4, 480(%rsp)
	movl %r9d, 76(%rsp)
	movq %r11, 240(%rsp)
	leaq 424(%rsp), %rdi
	vzeroupper
	callq std_alloc.vec.Vec.grow_amortized__1e708b5270e38172
	testb %al, %al
	jne .LBB69_36
	cmpq $0, 280(%rsp)
	je .LBB69_42
	movq 16(%rsp), %rdi
	callq tags_library_dealloc@PLT
.LBB69_42:
	decq 176(%rsp)
	cmpq $0, 248(%rsp)
	je .LBB69_44
	movq 240(%rsp), %rdi
	callq tags_library_dealloc@PLT
.LBB69_44:
	leaq 1(%rbx), %rax
	movq %rax, 16(%rsp)
	cmpq %rbx, 176(%rsp)
	je .LBB69_50
	leaq (%r12,%rbx), %rax
	leaq 1(%rbx), %rcx
	cmpq %rax, %rcx
	jae .LBB69_50
	movl $1, %r15d
	jmp .LBB69_47
.LBB69_104:
	je .LBB69_108
	imulq $424, %rax, %rbx
	movq 16(%rsp), %rax
	addq %rax, %rbx
	leaq 848(%rax), %r14
.LBB69_107:
	leaq 2096(%rsp), %r15
	movl $424, %edx
	movq %r15, %rdi
	movq %rbx, %rsi
	callq memcpy@PLT
	movl $424, %edx
	movq %rbx, %rdi
	movq %r14, %rsi
	callq memmove@PLT
	movl $424, %edx
	movq %r14, %rdi
	movq %r15, %rsi
	callq memcpy@PLT
.LBB69_108:
	cmpq $2, %r12
	je .LBB69_132
	leaq -4(%rbp), %rax
	cmpq $3, %rax
	jbe .LBB69_110
	movq 16(%rsp), %rcx
	leaq 1272(%rcx), %rbx
	imulq $424, %rax, %r14
	addq %rcx, %r14
	jmp .LBB69_113
.LBB69_38:
	movq 680(%rsp), %rbp
	movl 260(%rsp), %r14d
	movq 56(%rsp), %r15
	movq 64(%rsp), %r12
	jmp .LBB69_21
.LBB69_110:
	je .LBB69_114
	imulq $424, %rax, %rbx
	movq 16(%rsp), %rax
	addq %rax, %rbx
	leaq 1272(%rax), %r14
.LBB69_113:
	leaq 2096(%rsp), %r15
	movl $424, %edx
	movq %r15, %rdi
	movq %rbx, %rsi
	callq memcpy@PLT
	movl $424, %edx
	movq %rbx, %rdi
	movq %r14, %rsi
	callq memmove@PLT
	movl $424, %edx
	movq %r14, %rdi
	movq %r15, %rsi
	callq memcpy@PLT
.LBB69_114:
	cmpq $3, %r12
	je .LBB69_132
	leaq -5(%rbp), %rax
	cmpq $4, %rax
	jbe .LBB69_116
	movq 16(%rsp), %rcx
	leaq 1696(%rcx), %rbx
	imulq $424, %rax, %r14
	addq %rcx, %r14
	jmp .LBB69_119
.LBB69_20:
	xorl %r10d, %r10d
.LBB69_21:
	movq %r10, 352(%rsp)
	testq %rbp, %rbp
	je .LBB69_27
	movq %rbp, %rax
	addq %r13, %rax
	cmpq %rax, %r13
	jae .LBB69_27
	leaq (,%r13,2), %rax
	addq %r13, %rax
	shlq $6, %rax
	leaq (%rax,%r15), %rbx
	addq $40, %rbx
	jmp .LBB69_24
.LBB69_26:
	addq $192, %rbx
	decq %rbp
	je .LBB69_27
.LBB69_24:
	cmpq $0, (%rbx)
	je .LBB69_26
	movq -16(%rbx), %rdi
	vzeroupper
	callq tags_library_dealloc@PLT
	movl 28(%rsp), %ecx
	movl 32(%rsp), %edx
	movq 80(%rsp), %rdi
	jmp .LBB69_26
.LBB69_27:
	testq %r12, %r12
	je .LBB69_29
	movq %r15, %rdi
	vzeroupper
	callq tags_library_dealloc@PLT
	movl 28(%rsp), %ecx
	movl 32(%rsp), %edx
	movq 80(%rsp), %rdi
.LBB69_29:
	cmpq $0, 216(%rsp)
	movl 36(%rsp), %ebx
	je .LBB69_31
	movq 120(%rsp), %rdi
	vzeroupper
	callq tags_library_dealloc@PLT
	movl 28(%rsp), %ecx
	movl 32(%rsp), %edx
	movq 80(%rsp), %rdi
.LBB69_31:
	movq 424(%rsp), %rax
	movq %rax, 64(%rsp)
	cmpl $1, %ebx
	adcl $0, %ebx
	movl %ebx, 36(%rsp)
	movq 440(%rsp), %rax
	movq %rax, 56(%rsp)
	vmovups 2560(%rsp), %ymm0
	vmovups %ymm0, 1095(%rsp)
	vmovaps 1168(%rsp), %xmm0
	vmovaps %xmm0, 400(%rsp)
	movq 1184(%rsp), %r8
	movq %r8, 416(%rsp)
	vmovups 2528(%rsp), %ymm0
	vmovups %ymm0, 768(%rsp)
	vmovaps 1136(%rsp), %xmm0
	vmovaps %xmm0, 368(%rsp)
	movq 1152(%rsp), %r8
	movq %r8, 384(%rsp)
	vmovups 1095(%rsp), %ymm0
	vmovups %ymm0, 1558(%rsp)
	movq 416(%rsp), %r8
	movq %r8, 672(%rsp)
	vmovaps 400(%rsp), %xmm0
	vmovaps %xmm0, 656(%rsp)
	vmovups 768(%rsp), %ymm0
	vmovups %ymm0, 1632(%rsp)
	movq 384(%rsp), %r8
	movq %r8, 640(%rsp)
	vmovaps 368(%rsp), %xmm0
	vmovaps %xmm0, 624(%rsp)
	movb $1, %r8b
	movl 128(%rsp), %r9d
	movl %r14d, %r10d
	movq 168(%rsp), %rax
	movq 272(%rsp), %r11
	movq 264(%rsp), %rsi
	jmp .LBB69_83
.LBB69_49:
	incq %r15
	addq $192, %r14
	cmpq %r15, %r12
	je .LBB69_50
.LBB69_47:
	cmpq $0, (%r14)
	je .LBB69_49
	movq -16(%r14), %rdi
	callq tags_library_dealloc@PLT
	jmp .LBB69_49
.LBB69_116:
	je .LBB69_120
	imulq $424, %rax, %rbx
	movq 16(%rsp), %rax
	addq %rax, %rbx
	leaq 1696(%rax), %r14
.LBB69_119:
	leaq 2096(%rsp), %r15
	movl $424, %edx
	movq %r15, %rdi
	movq %rbx, %rsi
	callq memcpy@PLT
	movl $424, %edx
	movq %rbx, %rdi
	movq %r14, %rsi
	callq memmove@PLT
	movl $424, %edx
	movq %r14, %rdi
	movq %r15, %rsi
	callq memcpy@PLT
.LBB69_120:
	cmpq $4, %r12
	je .LBB69_132
	leaq -6(%rbp), %rax
	cmpq $5, %rax
	jbe .LBB69_122
	movq 16(%rsp), %rcx
	leaq 2120(%rcx), %rbx
	imulq $424, %rax, %r14
	addq %rcx, %r14
	jmp .LBB69_125
.LBB69_122:
	je .LBB69_126
	imulq $424, %rax, %rbx
	movq 16(%rsp), %rax
	addq %rax, %rbx
	leaq 2120(%rax), %r14
.LBB69_125:
	leaq 2096(%rsp), %r15
	movl $424, %edx
	movq %r15, %rdi
	movq %rbx, %rsi
	callq memcpy@PLT
	movl $424, %edx
	movq %rbx, %rdi
	movq %r14, %rsi
	callq memmove@PLT
	movl $424, %edx
	movq %r14, %rdi
	movq %r15, %rsi
	callq memcpy@PLT
.LBB69_126:
	cmpq $5, %r12
	je .LBB69_132
	leaq -7(%rbp), %rax
	cmpq $6, %rax
	jbe .LBB69_128
	movq 16(%rsp), %rcx
	leaq 2544(%rcx), %rbx
	imulq $424, %rax, %r14
	addq %rcx, %r14
	jmp .LBB69_131
.LBB69_128:
	je .LBB69_132
	imulq $424, %rax, %rbx
	movq 16(%rsp), %rax
	addq %rax, %rbx
	leaq 2544(%rax), %r14
.LBB69_131:
	leaq 2096(%rsp), %r15
	movl $424, %edx
	movq %r15, %rdi
	movq %rbx, %rsi
	callq memcpy@PLT
	movl $424, %edx
	movq %rbx, %rdi
	movq %r14, %rsi
	callq memmove@PLT
	movl $424, %edx
	movq %r14, %rdi
	movq %r15, %rsi
	callq memcpy@PLT
.LBB69_132:
	movq 2880(%rsp), %r15
	leaq 2888(%rsp), %r14
	movl $296, %edi
	movl $8, %esi
	callq tags_library_alloc@PLT
	testb $1, %al
	je .LBB69_133
	movq %rdx, %rbx
	movq $1, (%rdx)
	movq %r15, 8(%rdx)
	movq %rdx, %rdi
	addq $16, %rdi
	movl $280, %edx
	movq %r14, %rsi
	callq memcpy@PLT
	movl $480, %edi
	movl $8, %esi
	callq tags_library_alloc@PLT
	testb $1, %al
	je .LBB69_155
	movq $1, (%rdx)
	movq %rbx, 8(%rdx)
	movq 16(%rsp), %rax
	movq %rax, 16(%rdx)
	movq %rbp, 24(%rdx)
	movq 184(%rsp), %rax
	movq %rax, 32(%rdx)
	vmovaps 1488(%rsp), %xmm0
	vmovups %xmm0, 40(%rdx)
	vxorps %xmm0, %xmm0, %xmm0
	vmovups %ymm0, 56(%rdx)
	vmovaps 1472(%rsp), %xmm0
	vmovups %xmm0, 88(%rdx)
	vxorps %xmm0, %xmm0, %xmm0
	vmovups %xmm0, 104(%rdx)
	movq $0, 120(%rdx)
	vmovups 1952(%rsp), %ymm1
	vmovups 1984(%rsp), %ymm2
	vmovups 2016(%rsp), %ymm3
	vmovups 2048(%rsp), %ymm4
	vmovups %ymm1, 128(%rdx)
	vmovups %ymm2, 160(%rdx)
	vmovups %ymm3, 192(%rdx)
	vmovups %ymm4, 224(%rdx)
	vmovups 2064(%rsp), %ymm1
	vmovups %ymm1, 240(%rdx)
	vmovups %xmm0, 272(%rdx)
	movq $0, 288(%rdx)
	vmovaps 1456(%rsp), %xmm1
	vmovups %xmm1, 296(%rdx)
	vmovups %xmm0, 312(%rdx)
	movq $0, 328(%rdx)
	vmovups 1808(%rsp), %ymm0
	vmovups 1840(%rsp), %ymm1
	vmovups 1872(%rsp), %ymm2
	vmovups 1904(%rsp), %ymm3
	vmovups %ymm0, 336(%rdx)
	vmovups %ymm1, 368(%rdx)
	vmovups %ymm2, 400(%rdx)
	vmovups %ymm3, 432(%rdx)
	vmovups 1920(%rsp), %ymm0
	vmovups %ymm0, 448(%rdx)
	movq 80(%rsp), %rax
	movq $1, (%rax)
	movq %rdx, 8(%rax)
	xorl %r13d, %r13d
	jmp .LBB69_156
.LBB69_133:
	movq %r15, 2592(%rsp)
	leaq 2600(%rsp), %rdi
	movl $280, %edx
	movq %r14, %rsi
	callq memcpy@PLT
	leaq 2592(%rsp), %rdi
	callq tag_c.pool_state.PoolState.drop
	testq %rbp, %rbp
	je .LBB69_150
	movq 16(%rsp), %rax
	leaq 272(%rax), %r14
	jmp .LBB69_135
	.p2align 4
.LBB69_139:
	addq $424, %r14
	decq %rbp
	je .LBB69_150
.LBB69_135:
	movq -16(%r14), %rbx
	movq (%r14), %r15
	cmpq $0, -208(%r14)
	je .LBB69_137
	movq -224(%r14), %rdi
	callq tags_library_dealloc@PLT
.LBB69_137:
	testq %r15, %r15
	je .LBB69_139
	movq %rbx, %rdi
	callq tags_library_dealloc@PLT
	jmp .LBB69_139
.LBB69_150:
	xorl %r13d, %r13d
	cmpq $0, 184(%rsp)
	je .LBB69_152
	movq 16(%rsp), %rdi
	callq tags_library_dealloc@PLT
.LBB69_152:
	addl $-21, %r13d
.LBB69_156:
	movl %r13d, %eax
	addq $3176, %rsp
	popq %rbx
	popq %r12
	popq %r13
	popq %r14
	popq %r15
	popq %rbp
	vzeroupper
	retq
.LBB69_155:
	movq %rbx, %rdi
	callq std_alloc.arc.Arc.drop__f54b87734724c4e0
	movq 16(%rsp), %rax
	movq %rax, 496(%rsp)
	movq %rbp, 504(%rsp)
	movq 184(%rsp), %rax
	movq %rax, 512(%rsp)
	leaq 496(%rsp), %rdi
	callq std_alloc.vec.Vec.drop__639c649e4d903d94
	movl $-21, %r13d
	jmp .LBB69_156
.LBB69_50:
	leaq -1(%r13), %r14
	cmpq $0, 64(%rsp)
	je .LBB69_52
	movq 56(%rsp), %rdi
	callq tags_library_dealloc@PLT
.LBB69_52:
	cmpq %rbx, %r14
	je .LBB69_58
	subq %rbx, %r13
	addq %r13, %rbx
	cmpq %rbx, 16(%rsp)
	jae .LBB69_58
	movl $1, %ebx
	jmp .LBB69_55
.LBB69_57:
	incq %rbx
	addq $192, %rbp
	cmpq %rbx, %r13
	je .LBB69_58
.LBB69_55:
	cmpq $0, (%rbp)
	je .LBB69_57
	movq -16(%rbp), %rdi
	callq tags_library_dealloc@PLT
	jmp .LBB69_57
.LBB69_58:
	cmpq $0, 216(%rsp)
	je .LBB69_60
	movq 120(%rsp), %rdi
	callq tags_library_dealloc@PLT
.LBB69_60:
	movq 424(%rsp), %rbx
	movq 432(%rsp), %r12
	movq 440(%rsp), %r14
	testq %r12, %r12
	je .LBB69_67
	leaq 272(%rbx), %r13
	jmp .LBB69_62
.LBB69_66:
	addq $424, %r13
	decq %r12
	je .LBB69_67
.LBB69_62:
	movq -16(%r13), %r15
	movq (%r13), %rbp
	cmpq $0, -208(%r13)
	je .LBB69_64
	movq -224(%r13), %rdi
	callq tags_library_dealloc@PLT
.LBB69_64:
	testq %rbp, %rbp
	je .LBB69_66
	movq %r15, %rdi
	callq tags_library_dealloc@PLT
	jmp .LBB69_66
.LBB69_67:
	testq %r14, %r14
	je .LBB69_69
	movq %rbx, %rdi
	callq tags_library_dealloc@PLT
.LBB69_69:
	movq 160(%rsp), %rdi
	callq tags_library_dealloc@PLT
	movq 152(%rsp), %rdi
	callq tags_library_dealloc@PLT
	cmpq $0, 144(%rsp)
	je .LBB69_79
	movq 136(%rsp), %rdi
	jmp .LBB69_78
.LBB69_39:
	ud2
.Lfunc_end69:
	.size tag_c.pools.open_into, .Lfunc_end69-tag_c.pools.open_into
	.section .text.tag_pool.opens.open_set_i64_core.clone.U64Clone,"ax",@progbits
	.p2align 4
	.type tag_pool.opens.open_set_i64_core.clone.U64Clone,@function
tag_pool.opens.open_set_i64_core.clone.U64Clone:
	pushq %rbp
	pushq %r15
	pushq %r14
	pushq %r13
	pushq %r12
	pushq %rbx
	subq $584, %rsp
	movq %r8, 16(%rsp)
	movl %ecx, %r15d
	movl %edx, %r12d
	movl %esi, %ebp
	movq %rdi, %rbx
	vxorps %xmm0, %xmm0, %xmm0
	vmovaps %xmm0, 384(%rsp)
	movq $0, 400(%rsp)
	vmovaps %xmm0, 352(%rsp)
	movq $0, 368(%rsp)
	vmovaps %xmm0, 160(%rsp)
	movq $0, 176(%rsp)
	vmovaps %xmm0, 96(%rsp)
	movq $0, 112(%rsp)
	movl %esi, %r14d
	testl %esi, %esi
	je .LBB70_4
	leaq (,%r14,8), %r13
	movl $8, %esi
	movq %r13, %rdi
	callq tags_library_alloc@PLT
	testb $1, %al
	je .LBB70_5
	cmpl $1, %ebp
	jne .LBB70_6
	xorl %eax, %eax
	jmp .LBB70_7
.LBB70_4:
	leaq 8(%rsp), %rdx
	xorl %eax, %eax
	jmp .LBB70_8
.LBB70_5:
	movb $1, (%rbx)
	vxorps %xmm0, %xmm0, %xmm0
	vmovups %ymm0, 8(%rbx)
	vmovups %ymm0, 40(%rbx)
	vmovups %ymm0, 72(%rbx)
	vmovups %ymm0, 104(%rbx)
	movq $0, 136(%rbx)
	jmp .LBB70_19
.LBB70_6:
	addq $-8, %r13
	movq %rdx, %rdi
	xorl %esi, %esi
	movq %rdx, 48(%rsp)
	movq %r13, %rdx
	callq memset@PLT
	movq 48(%rsp), %rdx
	leaq -1(%r14), %rax
.LBB70_7:
	vxorps %xmm0, %xmm0, %xmm0
	movq $0, (%rdx,%rax,8)
	incq %rax
.LBB70_8:
	vmovaps %xmm0, 416(%rsp)
	movq $0, 432(%rsp)
	vmovaps %xmm0, 128(%rsp)
	movq $0, 144(%rsp)
	leal -65(%r15), %ecx
	cmpl $-65, %ecx
	jbe .LBB70_14
	movabsq $281474976710657, %rcx
	cmpq %rcx, 16(%rsp)
	jae .LBB70_14
	cmpq %r14, %rax
	jne .LBB70_14
	shlq $32, %r12
	orq %r14, %r12
	vxorps %xmm0, %xmm0, %xmm0
	vmovups %ymm0, 224(%rsp)
	vmovups %ymm0, 256(%rsp)
	vmovups %ymm0, 288(%rsp)
	vmovups %ymm0, 312(%rsp)
	vxorps %xmm0, %xmm0, %xmm0
	vmovaps %xmm0, 544(%rsp)
	vmovups %xmm0, 559(%rsp)
	movq %r12, 200(%rsp)
	movl %r15d, 208(%rsp)
	movl $0, 212(%rsp)
	movq 16(%rsp), %rax
	movq %rax, 216(%rsp)
	movq %rdx, 472(%rsp)
	movq %r14, 480(%rsp)
	movq %r14, 488(%rsp)
	leaq 224(%rsp), %rdi
	leaq 200(%rsp), %rsi
	leaq 472(%rsp), %rdx
	vzeroupper
	callq tag_core.opens.new_map_i64_tag_pool.Destruct_none_i64
	cmpb $0, 224(%rsp)
	je .LBB70_20
	cmpq $0, 248(%rsp)
	je .LBB70_17
	movq 232(%rsp), %rdi
	jmp .LBB70_16
.LBB70_14:
	testl %ebp, %ebp
	je .LBB70_17
	movq %rdx, %rdi
.LBB70_16:
	callq tags_library_dealloc@PLT
.LBB70_17:
	movb $1, (%rbx)
	movq $0, 8(%rbx)
	vmovaps 384(%rsp), %xmm0
	vmovups %xmm0, 16(%rbx)
	movq 400(%rsp), %rax
	movq %rax, 32(%rbx)
	vxorps %xmm0, %xmm0, %xmm0
	vmovups %ymm0, 40(%rbx)
	vmovups %ymm0, 72(%rbx)
	vmovups %ymm0, 88(%rbx)
	vmovaps 352(%rsp), %xmm0
	vmovups %xmm0, 120(%rbx)
	movq 368(%rsp), %rax
.LBB70_18:
	movq %rax, 136(%rbx)
.LBB70_19:
	addq $584, %rsp
	popq %rbx
	popq %r12
	popq %r13
	popq %r14
	popq %r15
	popq %rbp
	vzeroupper
	retq
.LBB70_20:
	movq 232(%rsp), %rax
	movq %rax, 48(%rsp)
	vmovaps 240(%rsp), %xmm0
	vmovaps %xmm0, 448(%rsp)
	movq 256(%rsp), %rax
	movq %rax, 464(%rsp)
	movq 264(%rsp), %rax
	movq %rax, 80(%rsp)
	movq 272(%rsp), %rax
	movq %rax, 192(%rsp)
	movq 280(%rsp), %rax
	movq %rax, 88(%rsp)
	movq 296(%rsp), %rax
	movq %rax, 16(%rsp)
	vmovaps 288(%rsp), %xmm0
	vmovaps %xmm0, 528(%rsp)
	vmovsd 304(%rsp), %xmm0
	vmovaps %xmm0, 512(%rsp)
	movl 304(%rsp), %ecx
	movq 312(%rsp), %rax
	movq %rax, 64(%rsp)
	movq 320(%rsp), %rax
	movq %rax, 72(%rsp)
	movq 336(%rsp), %rax
	movq %rax, 184(%rsp)
	vmovups 328(%rsp), %xmm0
	vmovaps %xmm0, 496(%rsp)
	leaq 8(%rsp), %rax
	movq %rax, 24(%rsp)
	vxorps %xmm0, %xmm0, %xmm0
	vmovups %xmm0, 32(%rsp)
	movl %ecx, 12(%rsp)
	testl %ecx, %ecx
	je .LBB70_35
	movq 16(%rsp), %rdx
	movq %rdx, %rax
	shrq $32, %rax
	movl $1, %ecx
	shlxl %eax, %ecx, %ecx
	addl %edx, %ecx
	decl %ecx
	shrxl %eax, %ecx, %r13d
	leaq 128(,%r13,8), %rdi
	movl $8, %esi
	callq tags_library_alloc@PLT
	testb $1, %al
	je .LBB70_48
	movq %rdx, %rbp
	movl %r13d, %eax
	shll $4, %eax
	addl $72, %eax
	movl %eax, 60(%rsp)
	testq %r13, %r13
	je .LBB70_29
	decl 12(%rsp)
	xorl %r15d, %r15d
.LBB70_24:
	movq %rbp, %rdi
	xorl %esi, %esi
	leaq (,%r13,8), %rdx
	callq memset@PLT
	movq 48(%rsp), %rax
	movq (%rax), %rax
	movq 32(%rsp), %r12
	cmpq %r12, 40(%rsp)
	je .LBB70_27
.LBB70_25:
	movq 24(%rsp), %r14
	leaq (%r12,%r12,2), %rax
	shlq $6, %rax
	movq 16(%rsp), %rcx
	movq %rcx, (%r14,%rax)
	movl 60(%rsp), %ecx
	movl %ecx, 8(%r14,%rax)
	movl %r15d, 12(%r14,%rax)
	movq 64(%rsp), %rcx
	movq %rcx, 16(%r14,%rax)
	movq %rbp, 24(%r14,%rax)
	movq %r13, 32(%r14,%rax)
	leaq 16(%r13), %rcx
	movq %rcx, 40(%r14,%rax)
	vxorps %xmm0, %xmm0, %xmm0
	vmovups %ymm0, 48(%r14,%rax)
	vmovups %ymm0, 80(%r14,%rax)
	vmovups %ymm0, 112(%r14,%rax)
	vmovups %ymm0, 144(%r14,%rax)
	vmovups %ymm0, 160(%r14,%rax)
	incq %r12
	movq %r12, 32(%rsp)
	cmpl %r15d, 12(%rsp)
	je .LBB70_35
	movl $8, %esi
	leaq 128(,%r13,8), %rdi
	vzeroupper
	callq tags_library_alloc@PLT
	movq %rdx, %rbp
	incl %r15d
	testb $1, %al
	jne .LBB70_24
	jmp .LBB70_36
.LBB70_27:
	leaq 24(%rsp), %rdi
	callq std_alloc.vec.Vec.grow_amortized__0722eb07d90de48f
	testb %al, %al
	je .LBB70_41
	movq 32(%rsp), %r12
	jmp .LBB70_25
.LBB70_29:
	decl 12(%rsp)
	xorl %r15d, %r15d
.LBB70_30:
	movq 48(%rsp), %rax
	movq (%rax), %rax
	movq 32(%rsp), %r12
	cmpq %r12, 40(%rsp)
	je .LBB70_33
.LBB70_31:
	movq 24(%rsp), %r14
	leaq (%r12,%r12,2), %rax
	shlq $6, %rax
	movq 16(%rsp), %rcx
	movq %rcx, (%r14,%rax)
	movl 60(%rsp), %ecx
	movl %ecx, 8(%r14,%rax)
	movl %r15d, 12(%r14,%rax)
	movq 64(%rsp), %rcx
	movq %rcx, 16(%r14,%rax)
	movq %rbp, 24(%r14,%rax)
	movq %r13, 32(%r14,%rax)
	leaq 16(%r13), %rcx
	movq %rcx, 40(%r14,%rax)
	vxorps %xmm0, %xmm0, %xmm0
	vmovups %ymm0, 48(%r14,%rax)
	vmovups %ymm0, 80(%r14,%rax)
	vmovups %ymm0, 112(%r14,%rax)
	vmovups %ymm0, 144(%r14,%rax)
	vmovups %ymm0, 160(%r14,%rax)
	incq %r12
	movq %r12, 32(%rsp)
	cmpl %r15d, 12(%rsp)
	je .LBB70_35
	movl $8, %esi
	leaq 128(,%r13,8), %rdi
	vzeroupper
	callq tags_library_alloc@PLT
	movq %rdx, %rbp
	incl %r15d
	testb $1, %al
	jne .LBB70_30
	jmp .LBB70_36
.LBB70_33:
	leaq 24(%rsp), %rdi
	callq std_alloc.vec.Vec.grow_amortized__0722eb07d90de48f
	testb %al, %al
	je .LBB70_41
	movq 32(%rsp), %r12
	jmp .LBB70_31
.LBB70_35:
	movq 40(%rsp), %rax
	movq 24(%rsp), %rcx
	movq 32(%rsp), %rdx
	vmovaps 448(%rsp), %xmm0
	vmovaps %xmm0, 416(%rsp)
	movq 464(%rsp), %rsi
	movq %rsi, 432(%rsp)
	movq %rcx, 128(%rsp)
	movq %rdx, 136(%rsp)
	movq %rax, 144(%rsp)
	vmovaps %xmm0, 160(%rsp)
	movq %rsi, 176(%rsp)
	movq 144(%rsp), %rax
	movq %rax, 112(%rsp)
	movq 128(%rsp), %rax
	movq %rax, 96(%rsp)
	movq 136(%rsp), %rax
	movq %rax, 104(%rsp)
	movb $0, (%rbx)
	movq 48(%rsp), %rax
	movq %rax, 8(%rbx)
	vmovaps 160(%rsp), %xmm0
	vmovups %xmm0, 16(%rbx)
	movq 176(%rsp), %rax
	movq %rax, 32(%rbx)
	movq 80(%rsp), %rax
	movq %rax, 40(%rbx)
	movq 192(%rsp), %rax
	movq %rax, 48(%rbx)
	movq 88(%rsp), %rax
	movq %rax, 56(%rbx)
	vmovaps 528(%rsp), %xmm0
	vmovups %xmm0, 64(%rbx)
	vmovaps 512(%rsp), %xmm0
	vmovlps %xmm0, 80(%rbx)
	movq 64(%rsp), %rax
	movq %rax, 88(%rbx)
	movq 72(%rsp), %rax
	movq %rax, 96(%rbx)
	vmovaps 496(%rsp), %xmm0
	vmovups %xmm0, 104(%rbx)
	movq 96(%rsp), %rax
	movq %rax, 120(%rbx)
	movq 104(%rsp), %rax
	movq %rax, 128(%rbx)
	movq 112(%rsp), %rax
	jmp .LBB70_18
.LBB70_36:
	movq 40(%rsp), %r15
	testq %r12, %r12
	je .LBB70_46
	leaq 40(%r14), %r13
	jmp .LBB70_39
.LBB70_38:
	addq $192, %r13
	decq %r12
	je .LBB70_46
.LBB70_39:
	cmpq $0, (%r13)
	je .LBB70_38
	movq -16(%r13), %rdi
	callq tags_library_dealloc@PLT
	jmp .LBB70_38
.LBB70_41:
	movq %rbp, %rdi
	callq tags_library_dealloc@PLT
	movq 24(%rsp), %r14
	movq 32(%rsp), %r12
	movq 40(%rsp), %r15
	testq %r12, %r12
	je .LBB70_46
	leaq 40(%r14), %r13
	jmp .LBB70_44
.LBB70_43:
	addq $192, %r13
	decq %r12
	je .LBB70_46
.LBB70_44:
	cmpq $0, (%r13)
	je .LBB70_43
	movq -16(%r13), %rdi
	callq tags_library_dealloc@PLT
	jmp .LBB70_43
.LBB70_46:
	testq %r15, %r15
	je .LBB70_48
	movq %r14, %rdi
	callq tags_library_dealloc@PLT
.LBB70_48:
	movq 80(%rsp), %rdi
	callq tags_library_dealloc@PLT
	movq 88(%rsp), %rdi
	callq tags_library_dealloc@PLT
	cmpq $0, 184(%rsp)
	je .LBB70_17
	movq 72(%rsp), %rdi
	jmp .LBB70_16
.Lfunc_end70:
	.size tag_pool.opens.open_set_i64_core.clone.U64Clone, .Lfunc_end70-tag_pool.opens.open_set_i64_core.clone.U64Clone
	.section .text.tag_core.opens.new_map_i64_tag_pool.Destruct_none_i64,"ax",@progbits
	.p2align 4
	.type tag_core.opens.new_map_i64_tag_pool.Destruct_none_i64,@function
tag_core.opens.new_map_i64_tag_pool.Destruct_none_i64:
	pushq %rbp
	pushq %r15
	pushq %r14
	pushq %r13
	pushq %r12
	pushq %rbx
	subq $120, %rsp
	movq %rdi, %rbx
	movl (%rsi), %r12d
	movl 4(%rsi), %ebp
	movq (%rdx), %rax
	movq %rax, 8(%rsp)
	movq 8(%rdx), %r14
	movq 16(%rdx), %r13
	vxorps %xmm0, %xmm0, %xmm0
	vmovaps %xmm0, 80(%rsp)
	vmovups 8(%rsi), %xmm0
	vmovaps %xmm0, 96(%rsp)
	testq %r12, %r12
	je .LBB71_1
	leaq (,%r12,8), %r15
	movl $8, %esi
	movq %r15, %rdi
	callq tags_library_alloc@PLT
	testb $1, %al
	je .LBB71_10
	movq %r13, 32(%rsp)
	movq %rdx, 40(%rsp)
	movq %r14, 24(%rsp)
	addq $72, %r15
	jmp .LBB71_4
.LBB71_1:
	movq %r13, 32(%rsp)
	movq %r14, 24(%rsp)
	leaq 16(%rsp), %rax
	movq %rax, 40(%rsp)
	movl $72, %r15d
.LBB71_4:
	movl $1, %eax
	shlxl %ebp, %eax, %eax
	addl %r12d, %eax
	decl %eax
	movl %ebp, 52(%rsp)
	shrxl %ebp, %eax, %r14d
	movq %r14, 64(%rsp)
	shlq $4, %r14
	leaq (%r15,%r14), %rax
	movq %rax, 72(%rsp)
	leaq (,%rax,8), %r13
	movl $8, %esi
	movq %r13, %rdi
	callq tags_library_alloc@PLT
	testb $1, %al
	je .LBB71_44
	movq %rdx, %rbp
	movq %r12, 56(%rsp)
	leaq -8(%r13), %rdx
	movq %rbp, %rdi
	xorl %esi, %esi
	callq memset@PLT
	movq $0, -8(%rbp,%r13)
	movl $8, %esi
	movq %r13, %rdi
	callq tags_library_alloc@PLT
	testb $1, %al
	je .LBB71_48
	movq %rdx, %r12
	movq 24(%rsp), %rax
	leaq (,%rax,8), %rdi
	testq %rdi, %rdi
	js .LBB71_47
	movl $8, %esi
	callq tags_library_alloc@PLT
	testb $1, %al
	je .LBB71_47
	movq %rdx, %r11
	movq %r12, %rax
	subq %rbp, %rax
	cmpq $128, %rax
	jae .LBB71_12
	xorl %eax, %eax
	movq 8(%rsp), %rdi
	leaq (%r15,%r14), %r10
	jmp .LBB71_19
.LBB71_44:
	testl %r12d, %r12d
	je .LBB71_46
	movq 40(%rsp), %rdi
	callq tags_library_dealloc@PLT
.LBB71_46:
	movq $1, (%rbx)
	movq 8(%rsp), %rax
	movq %rax, 8(%rbx)
	movq 24(%rsp), %rax
	movq %rax, 16(%rbx)
	movq 32(%rsp), %rax
	movq %rax, 24(%rbx)
	jmp .LBB71_11
.LBB71_10:
	movq $1, (%rbx)
	movq 8(%rsp), %rax
	movq %rax, 8(%rbx)
	movq %r14, 16(%rbx)
	movq %r13, 24(%rbx)
.LBB71_11:
	vxorps %xmm0, %xmm0, %xmm0
	vmovups %ymm0, 32(%rbx)
	vmovups %ymm0, 64(%rbx)
	vmovups %ymm0, 88(%rbx)
	jmp .LBB71_52
.LBB71_47:
	movq %r12, %rdi
	callq tags_library_dealloc@PLT
.LBB71_48:
	movq %rbp, %rdi
	callq tags_library_dealloc@PLT
	movl $1, %r14d
	cmpl $0, 56(%rsp)
	je .LBB71_49
	movq 40(%rsp), %rdi
	callq tags_library_dealloc@PLT
	xorl %r13d, %r13d
	movq 32(%rsp), %r8
	movq 24(%rsp), %r9
	xorl %edi, %edi
	xorl %esi, %esi
	xorl %r10d, %r10d
	xorl %r15d, %r15d
	xorl %r12d, %r12d
	xorl %eax, %eax
	xorl %ecx, %ecx
	movq 8(%rsp), %rdx
	jmp .LBB71_51
.LBB71_49:
	movq 32(%rsp), %r8
	movq 24(%rsp), %r9
	xorl %r13d, %r13d
	xorl %edi, %edi
	xorl %esi, %esi
	xorl %r15d, %r15d
	xorl %r12d, %r12d
	xorl %eax, %eax
	xorl %ecx, %ecx
	movq 8(%rsp), %rdx
	xorl %r10d, %r10d
	jmp .LBB71_51
.LBB71_12:
	movl %r15d, %ecx
	andl $15, %ecx
	leaq (%r15,%r14), %r10
	movq %r10, %rax
	subq %rcx, %rax
	movq %r15, %rdx
	andq $-16, %rdx
	addq %r14, %rdx
	xorl %esi, %esi
	movq 8(%rsp), %rdi
	.p2align 4
.LBB71_13:
	vmovups (%rbp,%rsi,8), %ymm0
	vmovups 32(%rbp,%rsi,8), %ymm1
	vmovups 64(%rbp,%rsi,8), %ymm2
	vmovups 96(%rbp,%rsi,8), %ymm3
	vmovups %ymm0, (%r12,%rsi,8)
	vmovups %ymm1, 32(%r12,%rsi,8)
	vmovups %ymm2, 64(%r12,%rsi,8)
	vmovups %ymm3, 96(%r12,%rsi,8)
	addq $16, %rsi
	cmpq %rsi, %rdx
	jne .LBB71_13
	testq %rcx, %rcx
	je .LBB71_24
	cmpl $4, %ecx
	jb .LBB71_19
	movl %r15d, %edx
	andl $3, %edx
	movq %r10, %rax
	subq %rdx, %rax
	movq %rdx, %rsi
	negq %rsi
	negq %rcx
	movq 64(%rsp), %r8
	shlq $7, %r8
	leaq (%r8,%r15,8), %r9
	leaq (%r12,%r9), %r8
	addq %rbp, %r9
	.p2align 4
.LBB71_17:
	vmovups (%r9,%rcx,8), %ymm0
	vmovups %ymm0, (%r8,%rcx,8)
	addq $4, %rcx
	cmpq %rcx, %rsi
	jne .LBB71_17
	testq %rdx, %rdx
	je .LBB71_24
.LBB71_19:
	addq %r15, %r14
	subl %eax, %r15d
	movq %rax, %rcx
	andl $3, %r15d
	je .LBB71_22
	movq %rax, %rcx
	.p2align 4
.LBB71_21:
	movq (%rbp,%rcx,8), %rdx
	movq %rdx, (%r12,%rcx,8)
	incq %rcx
	decq %r15
	jne .LBB71_21
.LBB71_22:
	subq %r14, %rax
	cmpq $-4, %rax
	ja .LBB71_24
	.p2align 4
.LBB71_23:
	movq (%rbp,%rcx,8), %rax
	movq %rax, (%r12,%rcx,8)
	movq 8(%rbp,%rcx,8), %rax
	movq %rax, 8(%r12,%rcx,8)
	movq 16(%rbp,%rcx,8), %rax
	movq %rax, 16(%r12,%rcx,8)
	movq 24(%rbp,%rcx,8), %rax
	movq %rax, 24(%r12,%rcx,8)
	addq $4, %rcx
	cmpq %rcx, %r10
	jne .LBB71_23
.LBB71_24:
	movq 24(%rsp), %r15
	testq %r15, %r15
	movq 56(%rsp), %r13
	je .LBB71_41
	cmpq $4, %r15
	setb %al
	movq %rdi, %rcx
	subq %r11, %rcx
	cmpq $128, %rcx
	setb %cl
	orb %al, %cl
	movq %r15, %rax
	jne .LBB71_36
	cmpq $16, %r15
	jae .LBB71_31
	xorl %ecx, %ecx
	jmp .LBB71_28
.LBB71_31:
	movq %r15, %rcx
	andq $-16, %rcx
	leaq (%r11,%r15,8), %rax
	addq $-32, %rax
	leaq (%rdi,%r15,8), %rdx
	addq $-32, %rdx
	movq %rcx, %rsi
	negq %rsi
	xorl %r8d, %r8d
	.p2align 4
.LBB71_32:
	vmovups -96(%rdx,%r8,8), %ymm0
	vmovups -64(%rdx,%r8,8), %ymm1
	vmovups -32(%rdx,%r8,8), %ymm2
	vmovups (%rdx,%r8,8), %ymm3
	vmovups %ymm3, (%rax,%r8,8)
	vmovups %ymm2, -32(%rax,%r8,8)
	vmovups %ymm1, -64(%rax,%r8,8)
	vmovups %ymm0, -96(%rax,%r8,8)
	addq $-16, %r8
	cmpq %r8, %rsi
	jne .LBB71_32
	cmpq %rcx, %r15
	je .LBB71_41
	testb $12, %r15b
	je .LBB71_35
.LBB71_28:
	movq %r15, %rdx
	andq $-4, %rdx
	movl %r15d, %eax
	andl $3, %eax
	leaq (%r11,%r15,8), %rsi
	addq $-32, %rsi
	negq %rcx
	leaq (%rdi,%r15,8), %r9
	addq $-32, %r9
	movq %rdx, %r8
	negq %r8
	.p2align 4
.LBB71_29:
	vmovups (%r9,%rcx,8), %ymm0
	vmovups %ymm0, (%rsi,%rcx,8)
	addq $-4, %rcx
	cmpq %rcx, %r8
	jne .LBB71_29
	cmpq %rdx, %r15
	je .LBB71_41
.LBB71_36:
	leaq -1(%rax), %rcx
	movq %rax, %rdx
	andq $3, %rdx
	je .LBB71_38
	.p2align 4
.LBB71_37:
	movq -8(%rdi,%rax,8), %rsi
	movq %rsi, -8(%r11,%rax,8)
	decq %rax
	decq %rdx
	jne .LBB71_37
.LBB71_38:
	cmpq $3, %rcx
	jb .LBB71_41
	movq %rax, %rcx
	.p2align 4
.LBB71_40:
	movq -8(%rdi,%rax,8), %rdx
	movq %rdx, -8(%r11,%rax,8)
	movq -16(%rdi,%rax,8), %rdx
	movq %rdx, -16(%r11,%rax,8)
	movq -24(%rdi,%rax,8), %rdx
	movq %rdx, -24(%r11,%rax,8)
	addq $-4, %rcx
	movq -32(%rdi,%rax,8), %rdx
	movq %rdx, -32(%r11,%rax,8)
	movq %rcx, %rax
	jne .LBB71_40
.LBB71_41:
	movq %r11, 8(%rsp)
	cmpq $0, 32(%rsp)
	je .LBB71_43
	vzeroupper
	callq tags_library_dealloc@PLT
.LBB71_43:
	vmovaps 96(%rsp), %xmm0
	vmovaps %xmm0, 80(%rsp)
	movq %rbp, %rdi
	vzeroupper
	callq tags_library_dealloc@PLT
	xorl %r14d, %r14d
	movq %r12, %rdx
	movq %r13, %r10
	movq 72(%rsp), %r8
	movq %r8, %rax
	movq 8(%rsp), %r9
	movq %r9, %rcx
	movq 40(%rsp), %rsi
	movl 52(%rsp), %edi
.LBB71_51:
	movq %r14, (%rbx)
	movq %rdx, 8(%rbx)
	movq %r9, 16(%rbx)
	movq %r8, 24(%rbx)
	movq %r15, 32(%rbx)
	movq %r12, 40(%rbx)
	movq %rax, 48(%rbx)
	movq %rcx, 56(%rbx)
	movq %r15, 64(%rbx)
	movl %r13d, 72(%rbx)
	movl %edi, 76(%rbx)
	vmovaps 80(%rsp), %xmm0
	vmovups %xmm0, 80(%rbx)
	movq %rsi, 96(%rbx)
	movq $0, 104(%rbx)
	movq %r10, 112(%rbx)
.LBB71_52:
	addq $120, %rsp
	popq %rbx
	popq %r12
	popq %r13
	popq %r14
	popq %r15
	popq %rbp
	vzeroupper
	retq
.LBB71_35:
	movl %r15d, %eax
	andl $15, %eax
	leaq -1(%rax), %rcx
	movq %rax, %rdx
	andq $3, %rdx
	jne .LBB71_37
	jmp .LBB71_38
.Lfunc_end71:
	.size tag_core.opens.new_map_i64_tag_pool.Destruct_none_i64, .Lfunc_end71-tag_core.opens.new_map_i64_tag_pool.Destruct_none_i64
	.section .text.unlikely.std_alloc.vec.Vec.grow_amortized__0722eb07d90de48f,"ax",@progbits
	.p2align 4
	.type std_alloc.vec.Vec.grow_amortized__0722eb07d90de48f,@function
std_alloc.vec.Vec.grow_amortized__0722eb07d90de48f:
	movq 8(%rdi), %rax
	cmpq $-1, %rax
	je .LBB72_5
	pushq %r14
	pushq %rbx
	pushq %rax
	movq 16(%rdi), %rcx
	cmpq $4, %rax
	movl $3, %ebx
	cmovaeq %rax, %rbx
	incq %rbx
	movq %rcx, %rsi
	shrq $62, %rsi
	leaq (%rcx,%rcx), %rdx
	cmpq %rdx, %rbx
	cmovaq %rbx, %rdx
	testq %rsi, %rsi
	cmoveq %rdx, %rbx
	movabsq $48038396025285290, %rsi
	cmpq %rsi, %rbx
	ja .LBB72_6
	testq %rcx, %rcx
	je .LBB72_8
	movq %rdi, %r14
	movq (%rdi), %rdi
	shlq $6, %rax
	leaq (%rax,%rax,2), %rsi
	movq %rbx, %rax
	shlq $6, %rax
	leaq (%rax,%rax,2), %rdx
	movl $8, %ecx
	callq tags_library_realloc@PLT
	testb $1, %al
	je .LBB72_6
.LBB72_9:
	movq %rdx, (%r14)
	movq %rbx, 16(%r14)
	movb $1, %al
	addq $8, %rsp
	popq %rbx
	popq %r14
	retq
.LBB72_5:
	xorl %eax, %eax
	retq
.LBB72_8:
	movq %rdi, %r14
	shlq $6, %rdx
	leaq (%rdx,%rdx,2), %rdi
	movl $8, %esi
	callq tags_library_alloc@PLT
	testb $1, %al
	jne .LBB72_9
.LBB72_6:
	xorl %eax, %eax
	addq $8, %rsp
	popq %rbx
	popq %r14
	retq
.Lfunc_end72:
	.size std_alloc.vec.Vec.grow_amortized__0722eb07d90de48f, .Lfunc_end72-std_alloc.vec.Vec.grow_amortized__0722eb07d90de48f
	.section .text.std_alloc.vec.Vec.drop__03ae1f740aa33a8c,"ax",@progbits
	.p2align 4
	.type std_alloc.vec.Vec.drop__03ae1f740aa33a8c,@function
std_alloc.vec.Vec.drop__03ae1f740aa33a8c:
	pushq %r15
	pushq %r14
	pushq %r12
	pushq %rbx
	pushq %rax
	movq (%rdi), %rbx
	movq 8(%rdi), %r15
	movq 16(%rdi), %r14
	testq %r15, %r15
	je .LBB73_5
	leaq 40(%rbx), %r12
	jmp .LBB73_2
	.p2align 4
.LBB73_4:
	addq $192, %r12
	decq %r15
	je .LBB73_5
.LBB73_2:
	cmpq $0, (%r12)
	je .LBB73_4
	movq -16(%r12), %rdi
	callq tags_library_dealloc@PLT
	jmp .LBB73_4
.LBB73_5:
	testq %r14, %r14
	je .LBB73_6
	movq %rbx, %rdi
	addq $8, %rsp
	popq %rbx
	popq %r12
	popq %r14
	popq %r15
	jmp tags_library_dealloc@PLT
.LBB73_6:
	addq $8, %rsp
	popq %rbx
	popq %r12
	popq %r14
	popq %r15
	retq
.Lfunc_end73:
	.size std_alloc.vec.Vec.drop__03ae1f740aa33a8c, .Lfunc_end73-std_alloc.vec.Vec.drop__03ae1f740aa33a8c
	.section .text.unlikely.std_alloc.vec.Vec.grow_amortized__1e708b5270e38172,"ax",@progbits
	.p2align 4
	.type std_alloc.vec.Vec.grow_amortized__1e708b5270e38172,@function
std_alloc.vec.Vec.grow_amortized__1e708b5270e38172:
	movq 8(%rdi), %rax
	cmpq $-1, %rax
	je .LBB74_5
	pushq %r14
	pushq %rbx
	pushq %rax
	movq 16(%rdi), %rcx
	cmpq $4, %rax
	movl $3, %ebx
	cmovaeq %rax, %rbx
	incq %rbx
	movq %rcx, %rsi
	shrq $62, %rsi
	leaq (%rcx,%rcx), %rdx
	cmpq %rdx, %rbx
	cmovaq %rbx, %rdx
	testq %rsi, %rsi
	cmoveq %rdx, %rbx
	movabsq $21753235935978244, %rsi
	cmpq %rsi, %rbx
	ja .LBB74_6
	testq %rcx, %rcx
	je .LBB74_8
	movq %rdi, %r14
	movq (%rdi), %rdi
	imulq $424, %rax, %rsi
	imulq $424, %rbx, %rdx
	movl $8, %ecx
	callq tags_library_realloc@PLT
	testb $1, %al
	je .LBB74_6
.LBB74_9:
	movq %rdx, (%r14)
	movq %rbx, 16(%r14)
	movb $1, %al
	addq $8, %rsp
	popq %rbx
	popq %r14
	retq
.LBB74_5:
	xorl %eax, %eax
	retq
.LBB74_8:
	movq %rdi, %r14
	imulq $424, %rdx, %rdi
	movl $8, %esi
	callq tags_library_alloc@PLT
	testb $1, %al
	jne .LBB74_9
.LBB74_6:
	xorl %eax, %eax
	addq $8, %rsp
	popq %rbx
	popq %r14
	retq
.Lfunc_end74:
	.size std_alloc.vec.Vec.grow_amortized__1e708b5270e38172, .Lfunc_end74-std_alloc.vec.Vec.grow_amortized__1e708b5270e38172
	.section .text.tag_c.pool_state.PoolState.with_cells,"ax",@progbits
	.p2align 4
	.type tag_c.pool_state.PoolState.with_cells,@function
tag_c.pool_state.PoolState.with_cells:
	pushq %r15
	pushq %r14
	pushq %rbx
	subq $128, %rsp
	movq 160(%rsp), %rbx
	movq 168(%rsp), %r11
	vmovups 216(%rsi), %ymm0
	vmovups %ymm0, 88(%rsp)
	vmovups 192(%rsi), %ymm0
	vmovups %ymm0, 64(%rsp)
	vmovups 160(%rsi), %ymm0
	vmovups %ymm0, 32(%rsp)
	vmovups 128(%rsi), %ymm0
	vmovups %ymm0, (%rsp)
	vmovups (%rsi), %ymm0
	vmovups 32(%rsi), %ymm1
	vmovups 64(%rsi), %ymm2
	vmovups 96(%rsi), %ymm3
	vmovups %ymm3, -32(%rsp)
	vmovups %ymm2, -64(%rsp)
	vmovups %ymm1, -96(%rsp)
	vmovups %ymm0, -128(%rsp)
	movq (%r11), %rax
	movq 8(%r11), %r10
	movq 16(%r11), %rsi
	testq %rbx, %rbx
	je .LBB75_8
	movl %ebx, %r11d
	andl $3, %r11d
	cmpq $4, %rbx
	jb .LBB75_5
	imulq $440, %r10, %r14
	addq %rax, %r14
	andq $-4, %rbx
	negq %rbx
	xorl %r15d, %r15d
	.p2align 4
.LBB75_3:
	vxorps %xmm0, %xmm0, %xmm0
	vmovups %ymm0, 408(%r14)
	vmovups %ymm0, 384(%r14)
	vmovups %ymm0, 352(%r14)
	vmovups %ymm0, 320(%r14)
	vmovups %ymm0, 288(%r14)
	vmovups %ymm0, 256(%r14)
	vmovups %ymm0, 224(%r14)
	vmovups %ymm0, 192(%r14)
	vmovups %ymm0, 160(%r14)
	vmovups %ymm0, 128(%r14)
	vmovups %ymm0, 96(%r14)
	vmovups %ymm0, 64(%r14)
	vmovups %ymm0, 32(%r14)
	vmovups %ymm0, (%r14)
	vmovups %ymm0, 440(%r14)
	vmovups %ymm0, 472(%r14)
	vmovups %ymm0, 504(%r14)
	vmovups %ymm0, 536(%r14)
	vmovups %ymm0, 568(%r14)
	vmovups %ymm0, 600(%r14)
	vmovups %ymm0, 632(%r14)
	vmovups %ymm0, 664(%r14)
	vmovups %ymm0, 696(%r14)
	vmovups %ymm0, 728(%r14)
	vmovups %ymm0, 760(%r14)
	vmovups %ymm0, 792(%r14)
	vmovups %ymm0, 824(%r14)
	vmovups %ymm0, 848(%r14)
	vmovups %ymm0, 1288(%r14)
	vmovups %ymm0, 1264(%r14)
	vmovups %ymm0, 1232(%r14)
	vmovups %ymm0, 1200(%r14)
	vmovups %ymm0, 1168(%r14)
	vmovups %ymm0, 1136(%r14)
	vmovups %ymm0, 1104(%r14)
	vmovups %ymm0, 1072(%r14)
	vmovups %ymm0, 1040(%r14)
	vmovups %ymm0, 1008(%r14)
	vmovups %ymm0, 976(%r14)
	vmovups %ymm0, 944(%r14)
	vmovups %ymm0, 912(%r14)
	vmovups %ymm0, 880(%r14)
	vmovups %ymm0, 1320(%r14)
	vmovups %ymm0, 1352(%r14)
	vmovups %ymm0, 1384(%r14)
	vmovups %ymm0, 1416(%r14)
	vmovups %ymm0, 1448(%r14)
	vmovups %ymm0, 1480(%r14)
	vmovups %ymm0, 1512(%r14)
	vmovups %ymm0, 1544(%r14)
	vmovups %ymm0, 1576(%r14)
	vmovups %ymm0, 1608(%r14)
	vmovups %ymm0, 1640(%r14)
	vmovups %ymm0, 1672(%r14)
	vmovups %ymm0, 1704(%r14)
	vmovups %ymm0, 1728(%r14)
	addq $1760, %r14
	addq $-4, %r15
	cmpq %r15, %rbx
	jne .LBB75_3
	subq %r15, %r10
	testq %r11, %r11
	je .LBB75_8
.LBB75_5:
	imulq $440, %r10, %rbx
	addq %rax, %rbx
	negq %r11
	xorl %r14d, %r14d
	.p2align 4
.LBB75_6:
	vxorps %xmm0, %xmm0, %xmm0
	vmovups %ymm0, 408(%rbx)
	vmovups %ymm0, 384(%rbx)
	vmovups %ymm0, 352(%rbx)
	vmovups %ymm0, 320(%rbx)
	vmovups %ymm0, 288(%rbx)
	vmovups %ymm0, 256(%rbx)
	vmovups %ymm0, 224(%rbx)
	vmovups %ymm0, 192(%rbx)
	vmovups %ymm0, 160(%rbx)
	vmovups %ymm0, 128(%rbx)
	vmovups %ymm0, 96(%rbx)
	vmovups %ymm0, 64(%rbx)
	vmovups %ymm0, 32(%rbx)
	vmovups %ymm0, (%rbx)
	decq %r14
	addq $440, %rbx
	cmpq %r14, %r11
	jne .LBB75_6
	subq %r14, %r10
.LBB75_8:
	vmovups 88(%rsp), %ymm0
	vmovups %ymm0, 216(%rdi)
	vmovups 64(%rsp), %ymm0
	vmovups %ymm0, 192(%rdi)
	vmovups 32(%rsp), %ymm0
	vmovups %ymm0, 160(%rdi)
	vmovups (%rsp), %ymm0
	vmovups %ymm0, 128(%rdi)
	vmovups -128(%rsp), %ymm0
	vmovups -96(%rsp), %ymm1
	vmovups -64(%rsp), %ymm2
	vmovups -32(%rsp), %ymm3
	vmovups %ymm3, 96(%rdi)
	vmovups %ymm2, 64(%rdi)
	vmovups %ymm1, 32(%rdi)
	vmovups %ymm0, (%rdi)
	movl %edx, 248(%rdi)
	movl %ecx, 252(%rdi)
	movl %r8d, 256(%rdi)
	movb %r9b, 260(%rdi)
	movw $0, 261(%rdi)
	movb $0, 263(%rdi)
	movq %rax, 264(%rdi)
	movq %r10, 272(%rdi)
	movq %rsi, 280(%rdi)
	addq $128, %rsp
	popq %rbx
	popq %r14
	popq %r15
	vzeroupper
	retq
.Lfunc_end75:
	.size tag_c.pool_state.PoolState.with_cells, .Lfunc_end75-tag_c.pool_state.PoolState.with_cells
	.section .text.core.slice.edits.mirror_tag_pool.hand.Hand_i64,"ax",@progbits
	.p2align 4
	.type core.slice.edits.mirror_tag_pool.hand.Hand_i64,@function
core.slice.edits.mirror_tag_pool.hand.Hand_i64:
	pushq %r15
	pushq %r14
	pushq %r12
	pushq %rbx
	subq $424, %rsp
	movq %rdx, %rbx
	movq %rdi, %r14
	imulq $424, %rdx, %rax
	leaq (%rax,%rsi), %r15
	addq $-424, %r15
	.p2align 4
.LBB76_1:
	movq %rsp, %r12
	movl $424, %edx
	movq %r12, %rdi
	movq %r14, %rsi
	callq memcpy@PLT
	movl $424, %edx
	movq %r14, %rdi
	movq %r15, %rsi
	callq memmove@PLT
	movl $424, %edx
	movq %r15, %rdi
	movq %r12, %rsi
	callq memcpy@PLT
	addq $424, %r14
	addq $-424, %r15
	decq %rbx
	jne .LBB76_1
	addq $424, %rsp
	popq %rbx
	popq %r12
	popq %r14
	popq %r15
	retq
.Lfunc_end76:
	.size core.slice.edits.mirror_tag_pool.hand.Hand_i64, .Lfunc_end76-core.slice.edits.mirror_tag_pool.hand.Hand_i64
	.section .text.tag_pool.usage.usage_of_rest_i64,"ax",@progbits
	.p2align 4
	.type tag_pool.usage.usage_of_rest_i64,@function
tag_pool.usage.usage_of_rest_i64:
	pushq %rbp
	pushq %r15
	pushq %r14
	pushq %r13
	pushq %r12
	pushq %rbx
	subq $1976, %rsp
	movq %rsi, %r15
	movq %rdi, %rbx
	vxorps %xmm0, %xmm0, %xmm0
	vmovups %ymm0, 736(%rsp)
	vmovups %ymm0, 704(%rsp)
	vmovups %ymm0, 672(%rsp)
	vmovups %ymm0, 640(%rsp)
	vmovups %ymm0, 608(%rsp)
	vmovups %ymm0, 576(%rsp)
	vmovups %ymm0, 544(%rsp)
	vmovups %ymm0, 512(%rsp)
	vmovups %ymm0, 480(%rsp)
	vmovups %ymm0, 448(%rsp)
	vmovups %ymm0, 416(%rsp)
	vmovups %ymm0, 384(%rsp)
	vmovups %ymm0, 352(%rsp)
	movq $0, 768(%rsp)
	vxorps %xmm1, %xmm1, %xmm1
	vmovaps %xmm1, 48(%rsp)
	movq $0, 64(%rsp)
	vmovups %ymm0, 912(%rsp)
	vmovups %ymm0, 944(%rsp)
	vmovups %ymm0, 976(%rsp)
	vmovups %ymm0, 1008(%rsp)
	vmovaps %xmm1, 16(%rsp)
	movq $0, 32(%rsp)
	vmovups %ymm0, 784(%rsp)
	vmovups %ymm0, 816(%rsp)
	vmovups %ymm0, 848(%rsp)
	vmovups %ymm0, 880(%rsp)
	vmovups %ymm0, 1552(%rsp)
	vmovups %ymm0, 1584(%rsp)
	vmovups %ymm0, 1616(%rsp)
	vmovups %ymm0, 1648(%rsp)
	vmovups %ymm0, 1680(%rsp)
	vmovups %ymm0, 1712(%rsp)
	vmovups %ymm0, 1744(%rsp)
	vmovups %ymm0, 1776(%rsp)
	vmovups %ymm0, 1808(%rsp)
	vmovups %ymm0, 1840(%rsp)
	vmovups %ymm0, 1872(%rsp)
	vmovups %ymm0, 1904(%rsp)
	vmovups %ymm0, 1936(%rsp)
	movq $0, 1968(%rsp)
	vmovups %ymm0, 320(%rsp)
	vmovups %ymm0, 304(%rsp)
	vmovups %ymm0, 272(%rsp)
	vmovups (%rdx), %ymm0
	vmovups 16(%rdx), %ymm1
	vmovups %ymm1, 144(%rsp)
	vmovups %ymm0, 128(%rsp)
	movq 8(%rcx), %rax
	testq %rax, %rax
	je .LBB77_3
	decq %rax
	movq %rax, 8(%rcx)
	imulq $424, %rax, %rsi
	addq (%rcx), %rsi
	leaq 1552(%rsp), %r12
	movl $424, %edx
	movq %r12, %rdi
	movq %rcx, %r14
	vzeroupper
	callq memcpy@PLT
	leaq 352(%rsp), %rdi
	leaq 128(%rsp), %r13
	movq %r13, %rsi
	movq %r15, %rdx
	movq %r12, %rcx
	callq tag_pool.gather.together.Together.lend_i64
	leaq 272(%rsp), %rdi
	movq %r15, %rsi
	movq %r13, %rdx
	movq %r14, %rcx
	callq tag_pool.usage.usage_of_rest_i64
	movq 336(%rsp), %rax
	movq %rax, 120(%rsp)
	movq 344(%rsp), %r9
	movl 352(%rsp), %edi
	movq 360(%rsp), %r12
	movl 368(%rsp), %r13d
	movl 376(%rsp), %r11d
	movl 380(%rsp), %r10d
	movl 384(%rsp), %eax
	movl %eax, 8(%rsp)
	movq 392(%rsp), %rax
	movq %rax, 104(%rsp)
	movq 568(%rsp), %rax
	movq %rax, 112(%rsp)
	movl 576(%rsp), %eax
	movl %eax, 12(%rsp)
	movl 584(%rsp), %edx
	movq 416(%rsp), %rax
	movq %rax, 256(%rsp)
	movq 624(%rsp), %rax
	movq %rax, 192(%rsp)
	movl 588(%rsp), %ebp
	vxorps %xmm5, %xmm5, %xmm5
	vmovaps %xmm5, 80(%rsp)
	movq $0, 96(%rsp)
	vxorps %xmm0, %xmm0, %xmm0
	vmovups %ymm0, 1040(%rsp)
	vmovups %ymm0, 1072(%rsp)
	vmovups %ymm0, 1104(%rsp)
	vmovups %ymm0, 1136(%rsp)
	vxorps %xmm4, %xmm4, %xmm4
	vmovaps 400(%rsp), %xmm0
	vmovaps %xmm0, 240(%rsp)
	vmovups 440(%rsp), %ymm0
	vmovups 472(%rsp), %ymm1
	vmovups 504(%rsp), %ymm2
	vmovups 536(%rsp), %ymm3
	vmovups %ymm3, 1520(%rsp)
	vmovups %ymm2, 1488(%rsp)
	vmovups %ymm1, 1456(%rsp)
	vmovups %ymm0, 1424(%rsp)
	vmovaps 608(%rsp), %xmm0
	vmovaps %xmm0, 176(%rsp)
	vmovups 648(%rsp), %ymm0
	vmovups 680(%rsp), %ymm1
	vmovups 712(%rsp), %ymm2
	vmovups 744(%rsp), %ymm3
	vmovups %ymm3, 1264(%rsp)
	vmovups %ymm2, 1232(%rsp)
	vmovups %ymm1, 1200(%rsp)
	vmovups %ymm0, 1168(%rsp)
	vmovaps %xmm5, 208(%rsp)
	movq $0, 224(%rsp)
	vmovups %ymm4, 1296(%rsp)
	vmovups %ymm4, 1328(%rsp)
	vmovups %ymm4, 1360(%rsp)
	vmovups %ymm4, 1392(%rsp)
	movl 592(%rsp), %eax
	movq 600(%rsp), %rcx
	movq (%r15), %rsi
	vmovups 424(%rsp), %xmm3
	vmovups 632(%rsp), %xmm2
	vmovups 272(%rsp), %ymm0
	vmovups 304(%rsp), %ymm1
	movq (%rsi), %rsi
	movq (%r15), %rsi
	movq (%rsi), %rsi
	movq 256(%rsp), %rsi
	movq %rsi, 224(%rsp)
	movq %rsi, 96(%rsp)
	vmovaps 240(%rsp), %xmm4
	vmovaps %xmm4, 208(%rsp)
	vmovups 1424(%rsp), %ymm5
	vmovups 1456(%rsp), %ymm6
	vmovups 1488(%rsp), %ymm7
	vmovups 1520(%rsp), %ymm8
	vmovups %ymm8, 1392(%rsp)
	vmovups %ymm7, 1360(%rsp)
	vmovups %ymm6, 1328(%rsp)
	vmovups %ymm5, 1296(%rsp)
	vmovaps %xmm4, 80(%rsp)
	vmovups %ymm8, 1136(%rsp)
	vmovups %ymm7, 1104(%rsp)
	vmovups %ymm6, 1072(%rsp)
	vmovups %ymm5, 1040(%rsp)
	movq 112(%r15), %rsi
	movq (%rsi), %rsi
	movq 112(%r15), %rsi
	movq (%rsi), %rsi
	movq 96(%rsp), %rsi
	movq %rsi, 64(%rsp)
	movq 192(%rsp), %rsi
	movq %rsi, 32(%rsp)
	vmovaps 80(%rsp), %xmm4
	vmovaps %xmm4, 48(%rsp)
	vmovups 1040(%rsp), %ymm4
	vmovups 1072(%rsp), %ymm5
	vmovups 1104(%rsp), %ymm6
	vmovups 1136(%rsp), %ymm7
	vmovups %ymm4, 912(%rsp)
	vmovups %ymm5, 944(%rsp)
	vmovups %ymm6, 976(%rsp)
	vmovups %ymm7, 1008(%rsp)
	vmovaps 176(%rsp), %xmm4
	vmovaps %xmm4, 16(%rsp)
	vmovups 1168(%rsp), %ymm4
	vmovups 1200(%rsp), %ymm5
	vmovups 1232(%rsp), %ymm6
	vmovups 1264(%rsp), %ymm7
	vmovups %ymm4, 784(%rsp)
	vmovups %ymm5, 816(%rsp)
	vmovups %ymm6, 848(%rsp)
	vmovups %ymm7, 880(%rsp)
	movq (%r14), %rsi
	movq 8(%r14), %r15
	imulq $424, %r15, %r8
	movl %edi, (%rsi,%r8)
	movl $0, 4(%rsi,%r8)
	movq %r12, 8(%rsi,%r8)
	movl %r13d, 16(%rsi,%r8)
	movl $1, %edi
	shlxl %r10d, %edi, %r12d
	leal -1(%r11,%r12), %r12d
	movl $0, 20(%rsi,%r8)
	movl %r11d, 24(%rsi,%r8)
	shrxl %r10d, %r12d, %r11d
	movl %r10d, 28(%rsi,%r8)
	shll $4, %r11d
	addl $72, %r11d
	movl %r11d, 32(%rsi,%r8)
	movl 8(%rsp), %r10d
	movl %r10d, 36(%rsi,%r8)
	movq 104(%rsp), %r10
	movq %r10, 40(%rsi,%r8)
	vmovaps 48(%rsp), %xmm4
	vmovups %xmm4, 48(%rsi,%r8)
	movq 64(%rsp), %r10
	movq %r10, 64(%rsi,%r8)
	vmovups %xmm3, 72(%rsi,%r8)
	vmovups 912(%rsp), %ymm3
	vmovups 944(%rsp), %ymm4
	vmovups 976(%rsp), %ymm5
	vmovups 1008(%rsp), %ymm6
	vmovups %ymm3, 88(%rsi,%r8)
	vmovups %ymm4, 120(%rsi,%r8)
	vmovups %ymm5, 152(%rsi,%r8)
	vmovups %ymm6, 184(%rsi,%r8)
	movq 112(%rsp), %r10
	movq %r10, 216(%rsi,%r8)
	movl 12(%rsp), %r10d
	movl %r10d, 224(%rsi,%r8)
	shlxl %ebp, %edi, %edi
	leal -1(%rdx,%rdi), %edi
	movl $0, 228(%rsi,%r8)
	movl %edx, 232(%rsi,%r8)
	shrxl %ebp, %edi, %edx
	movl %ebp, 236(%rsi,%r8)
	shll $4, %edx
	addl $72, %edx
	movl %edx, 240(%rsi,%r8)
	movl %eax, 244(%rsi,%r8)
	movq %rcx, 248(%rsi,%r8)
	movq 32(%rsp), %rax
	movq %rax, 272(%rsi,%r8)
	vmovaps 16(%rsp), %xmm3
	vmovups %xmm3, 256(%rsi,%r8)
	vmovups %xmm2, 280(%rsi,%r8)
	vmovups 784(%rsp), %ymm2
	vmovups 816(%rsp), %ymm3
	vmovups 848(%rsp), %ymm4
	vmovups 880(%rsp), %ymm5
	vmovups %ymm5, 392(%rsi,%r8)
	vmovups %ymm4, 360(%rsi,%r8)
	vmovups %ymm3, 328(%rsi,%r8)
	vmovups %ymm2, 296(%rsi,%r8)
	incq %r15
	movq %r15, 8(%r14)
	vmovups %ymm0, (%rbx)
	vmovups %ymm1, 32(%rbx)
	movq 120(%rsp), %rax
	jmp .LBB77_2
.LBB77_3:
	movq 128(%rsp), %rsi
	movq 136(%rsp), %rdi
	movq 144(%rsp), %r8
	movq 152(%rsp), %rax
	movq 160(%rsp), %rcx
	movq 168(%rsp), %rdx
	movq (%r15), %r9
	movq 8(%r9), %r10
	movq (%r15), %r9
	movq (%r9), %r9
	leaq (%rdi,%r8), %r11
	movq 112(%r15), %r9
	movq 8(%r9), %r9
	movq 112(%r15), %r14
	movq (%r14), %r14
	movq %rsi, (%rbx)
	subq %r11, %rsi
	leaq (%rcx,%rdx), %r11
	movq %rdi, 8(%rbx)
	movq %r8, 16(%rbx)
	movq %rsi, 24(%rbx)
	movq %r10, 32(%rbx)
	movq %rax, 40(%rbx)
	subq %r11, %rax
	movq %rcx, 48(%rbx)
	movq %rdx, 56(%rbx)
.LBB77_2:
	movq %rax, 64(%rbx)
	movq %r9, 72(%rbx)
	addq $1976, %rsp
	popq %rbx
	popq %r12
	popq %r13
	popq %r14
	popq %r15
	popq %rbp
	vzeroupper
	retq
.Lfunc_end77:
	.size tag_pool.usage.usage_of_rest_i64, .Lfunc_end77-tag_pool.usage.usage_of_rest_i64
	.section .rodata.cst32,"aM",@progbits,32
	.p2align 5, 0x0
.LCPI78_0:
	.zero 32,15
.LCPI78_1:
	.byte 0
	.byte 1
	.byte 1
	.byte 2
	.byte 1
	.byte 2
	.byte 2
	.byte 3
	.byte 1
	.byte 2
	.byte 2
	.byte 3
	.byte 2
	.byte 3
	.byte 3
	.byte 4
	.byte 0
	.byte 1
	.byte 1
	.byte 2
	.byte 1
	.byte 2
	.byte 2
	.byte 3
	.byte 1
	.byte 2
	.byte 2
	.byte 3
	.byte 2
	.byte 3
	.byte 3
	.byte 4
	.section .rodata,"a",@progbits
.LCPI78_2:
	.byte 15
	.section .text.tag_pool.gather.together.Together.lend_i64,"ax",@progbits
	.p2align 4
	.type tag_pool.gather.together.Together.lend_i64,@function
tag_pool.gather.together.Together.lend_i64:
	pushq %rbp
	pushq %r15
	pushq %r14
	pushq %r13
	pushq %r12
	pushq %rbx
	subq $824, %rsp
	movl (%rcx), %eax
	movl %eax, -112(%rsp)
	movq 8(%rcx), %rax
	movq %rax, -104(%rsp)
	movl 16(%rcx), %eax
	movl %eax, -108(%rsp)
	movq 24(%rcx), %rbx
	movl 36(%rcx), %eax
	movl %eax, -116(%rsp)
	movq 40(%rcx), %r10
	movq 48(%rcx), %r15
	vmovdqu 56(%rcx), %ymm2
	movq 56(%rcx), %r14
	movq 216(%rcx), %rbp
	movl 224(%rcx), %eax
	movq 232(%rcx), %r12
	vmovups 264(%rcx), %xmm0
	vmovdqu 280(%rcx), %xmm1
	vpxor %xmm3, %xmm3, %xmm3
	movl 244(%rcx), %r8d
	movq 248(%rcx), %r13
	movq 256(%rcx), %r11
	movq 264(%rcx), %r9
	vmovdqu %ymm3, 400(%rsp)
	vmovdqu %ymm3, 368(%rsp)
	vmovdqu %ymm3, 336(%rsp)
	vmovdqu %ymm3, 304(%rsp)
	vmovdqu %ymm3, 176(%rsp)
	vmovdqu %ymm3, 208(%rsp)
	vmovdqu %ymm3, 240(%rsp)
	vmovdqu %ymm3, 272(%rsp)
	vmovups 88(%rcx), %ymm4
	vmovups 120(%rcx), %ymm5
	vmovups 152(%rcx), %ymm6
	vmovups 184(%rcx), %ymm7
	vmovups %ymm7, 16(%rsp)
	vmovups %ymm6, -16(%rsp)
	vmovups %ymm5, -48(%rsp)
	vmovups %ymm4, -80(%rsp)
	vmovdqu 296(%rcx), %ymm4
	vmovdqu 328(%rcx), %ymm5
	vmovdqu 360(%rcx), %ymm6
	vmovdqu 392(%rcx), %ymm7
	vmovdqu %ymm4, 432(%rsp)
	vmovdqu %ymm5, 464(%rsp)
	vmovdqu %ymm6, 496(%rsp)
	vmovdqu %ymm7, 528(%rsp)
	vmovdqu %ymm3, 784(%rsp)
	vmovdqu %ymm3, 752(%rsp)
	vmovdqu %ymm3, 720(%rsp)
	vmovdqu %ymm3, 688(%rsp)
	vmovdqu %ymm3, 48(%rsp)
	vmovdqu %ymm3, 80(%rsp)
	vmovdqu %ymm3, 112(%rsp)
	vmovdqu %ymm3, 144(%rsp)
	vmovdqu %ymm3, 560(%rsp)
	vmovdqu %ymm3, 592(%rsp)
	vmovdqu %ymm3, 624(%rsp)
	vmovdqu %ymm3, 656(%rsp)
	movq (%rdx), %rcx
	movq (%rcx), %rcx
	testq %r14, %r14
	movq %r10, -88(%rsp)
	movq %rbx, -96(%rsp)
	je .LBB78_1
	cmpq $4, %r14
	jae .LBB78_5
	xorl %ebx, %ebx
	xorl %r10d, %r10d
	jmp .LBB78_4
.LBB78_1:
	xorl %ebx, %ebx
	jmp .LBB78_15
.LBB78_5:
	cmpq $16, %r14
	jae .LBB78_7
	xorl %r10d, %r10d
	xorl %ebx, %ebx
	jmp .LBB78_11
.LBB78_7:
	movq %r14, %r10
	andq $-16, %r10
	vpxor %xmm4, %xmm4, %xmm4
	xorl %ebx, %ebx
	vpxor %xmm5, %xmm5, %xmm5
	vpxor %xmm6, %xmm6, %xmm6
	vpxor %xmm7, %xmm7, %xmm7
	vpxor %xmm8, %xmm8, %xmm8
	.p2align 4
.LBB78_8:
	vmovdqu (%r15,%rbx,8), %ymm9
	vmovdqu 32(%r15,%rbx,8), %ymm10
	vmovdqu 64(%r15,%rbx,8), %ymm11
	vmovdqu 96(%r15,%rbx,8), %ymm12
	vpbroadcastb .LCPI78_2(%rip), %ymm13
	vpand %ymm13, %ymm9, %ymm14
	vmovdqa .LCPI78_1(%rip), %ymm15
	vpshufb %ymm14, %ymm15, %ymm14
	vpsrlw $4, %ymm9, %ymm9
	vpand %ymm13, %ymm9, %ymm9
	vpshufb %ymm9, %ymm15, %ymm9
	vpaddb %ymm14, %ymm9, %ymm9
	vpsadbw %ymm4, %ymm9, %ymm9
	vpaddq %ymm5, %ymm9, %ymm5
	vpand %ymm13, %ymm10, %ymm9
	vpshufb %ymm9, %ymm15, %ymm9
	vpsrlw $4, %ymm10, %ymm10
	vpand %ymm13, %ymm10, %ymm10
	vpshufb %ymm10, %ymm15, %ymm10
	vpaddb %ymm9, %ymm10, %ymm9
	vpsadbw %ymm4, %ymm9, %ymm9
	vpaddq %ymm6, %ymm9, %ymm6
	vpand %ymm13, %ymm11, %ymm9
	vpshufb %ymm9, %ymm15, %ymm9
	vpsrlw $4, %ymm11, %ymm10
	vpand %ymm13, %ymm10, %ymm10
	vpshufb %ymm10, %ymm15, %ymm10
	vpaddb %ymm9, %ymm10, %ymm9
	vpsadbw %ymm4, %ymm9, %ymm9
	vpaddq %ymm7, %ymm9, %ymm7
	vpand %ymm13, %ymm12, %ymm9
	vpshufb %ymm9, %ymm15, %ymm9
	vpsrlw $4, %ymm12, %ymm10
	vpand %ymm13, %ymm10, %ymm10
	vpshufb %ymm10, %ymm15, %ymm10
	vpaddb %ymm9, %ymm10, %ymm9
	vpsadbw %ymm4, %ymm9, %ymm9
	vpaddq %ymm8, %ymm9, %ymm8
	addq $16, %rbx
	cmpq %rbx, %r10
	jne .LBB78_8
	vpaddq %ymm5, %ymm6, %ymm4
	vpaddq %ymm4, %ymm7, %ymm4
	vpaddq %ymm4, %ymm8, %ymm4
	vextracti128 $1, %ymm4, %xmm5
	vpaddq %xmm5, %xmm4, %xmm4
	vpshufd $238, %xmm4, %xmm5
	vpaddq %xmm5, %xmm4, %xmm4
	vmovq %xmm4, %rbx
	cmpq %r10, %r14
	je .LBB78_15
	testb $12, %r14b
	je .LBB78_4
.LBB78_11:
	movq %r10, %rcx
	movq %r14, %r10
	andq $-4, %r10
	vmovq %rbx, %xmm4
	.p2align 4
.LBB78_12:
	vmovdqu (%r15,%rcx,8), %ymm5
	vpbroadcastb .LCPI78_2(%rip), %ymm6
	vpand %ymm6, %ymm5, %ymm7
	vmovdqa .LCPI78_1(%rip), %ymm8
	vpshufb %ymm7, %ymm8, %ymm7
	vpsrlw $4, %ymm5, %ymm5
	vpand %ymm6, %ymm5, %ymm5
	vpshufb %ymm5, %ymm8, %ymm5
	vpaddb %ymm7, %ymm5, %ymm5
	vpxor %xmm6, %xmm6, %xmm6
	vpsadbw %ymm6, %ymm5, %ymm5
	vpaddq %ymm4, %ymm5, %ymm4
	addq $4, %rcx
	cmpq %rcx, %r10
	jne .LBB78_12
	vextracti128 $1, %ymm4, %xmm5
	vpaddq %xmm5, %xmm4, %xmm4
	vpshufd $238, %xmm4, %xmm5
	vpaddq %xmm5, %xmm4, %xmm4
	vmovq %xmm4, %rbx
	jmp .LBB78_14
.LBB78_4:
	popcntq (%r15,%r10,8), %rcx
	addq %rcx, %rbx
	incq %r10
.LBB78_14:
	cmpq %r10, %r14
	jne .LBB78_4
.LBB78_15:
	vmovups -80(%rsp), %ymm4
	vmovups -48(%rsp), %ymm5
	vmovups -16(%rsp), %ymm6
	vmovups 16(%rsp), %ymm7
	vmovups %ymm7, 656(%rsp)
	vmovups %ymm6, 624(%rsp)
	vmovups %ymm5, 592(%rsp)
	vmovups %ymm4, 560(%rsp)
	vmovups %ymm4, 48(%rsp)
	vmovups %ymm5, 80(%rsp)
	vmovups %ymm6, 112(%rsp)
	vmovups %ymm7, 144(%rsp)
	movq (%rdx), %rcx
	movq (%rcx), %rcx
	movq (%rdx), %rcx
	movq (%rcx), %rcx
	vextracti128 $1, %ymm2, %xmm4
	vpaddq (%rsi), %xmm4, %xmm4
	vmovdqu %xmm4, (%rsi)
	addq %rbx, 16(%rsi)
	vmovdqu 48(%rsp), %ymm4
	vmovdqu 80(%rsp), %ymm5
	vmovdqu 112(%rsp), %ymm6
	vmovdqu 144(%rsp), %ymm7
	vmovdqu %ymm4, 304(%rsp)
	vmovdqu %ymm5, 336(%rsp)
	vmovdqu %ymm6, 368(%rsp)
	vmovdqu %ymm7, 400(%rsp)
	vmovdqu %ymm3, 144(%rsp)
	vmovdqu %ymm3, 112(%rsp)
	vmovdqu %ymm3, 80(%rsp)
	vmovdqu %ymm3, 48(%rsp)
	vmovdqu %ymm3, 16(%rsp)
	vmovdqu %ymm3, -16(%rsp)
	vmovdqu %ymm3, -48(%rsp)
	vmovdqu %ymm3, -80(%rsp)
	movq 112(%rdx), %rcx
	movq (%rcx), %rcx
	testq %r9, %r9
	je .LBB78_16
	cmpq $4, %r9
	movl -116(%rsp), %r14d
	jae .LBB78_20
	xorl %r10d, %r10d
	xorl %ecx, %ecx
	jmp .LBB78_19
.LBB78_16:
	xorl %r10d, %r10d
	movl -116(%rsp), %r14d
	jmp .LBB78_30
.LBB78_20:
	cmpq $16, %r9
	jae .LBB78_22
	xorl %ecx, %ecx
	xorl %r10d, %r10d
	jmp .LBB78_26
.LBB78_22:
	movq %r9, %rcx
	andq $-16, %rcx
	vpxor %xmm3, %xmm3, %xmm3
	xorl %r10d, %r10d
	vpxor %xmm4, %xmm4, %xmm4
	vpxor %xmm5, %xmm5, %xmm5
	vpxor %xmm6, %xmm6, %xmm6
	vpxor %xmm7, %xmm7, %xmm7
	.p2align 4
.LBB78_23:
	vmovdqu (%r11,%r10,8), %ymm8
	vmovdqu 32(%r11,%r10,8), %ymm9
	vmovdqu 64(%r11,%r10,8), %ymm10
	vmovdqu 96(%r11,%r10,8), %ymm11
	vpbroadcastb .LCPI78_2(%rip), %ymm12
	vpand %ymm12, %ymm8, %ymm13
	vmovdqa .LCPI78_1(%rip), %ymm14
	vpshufb %ymm13, %ymm14, %ymm13
	vpsrlw $4, %ymm8, %ymm8
	vpand %ymm12, %ymm8, %ymm8
	vpshufb %ymm8, %ymm14, %ymm8
	vpaddb %ymm13, %ymm8, %ymm8
	vpsadbw %ymm3, %ymm8, %ymm8
	vpaddq %ymm4, %ymm8, %ymm4
	vpand %ymm12, %ymm9, %ymm8
	vpshufb %ymm8, %ymm14, %ymm8
	vpsrlw $4, %ymm9, %ymm9
	vpand %ymm12, %ymm9, %ymm9
	vpshufb %ymm9, %ymm14, %ymm9
	vpaddb %ymm8, %ymm9, %ymm8
	vpsadbw %ymm3, %ymm8, %ymm8
	vpaddq %ymm5, %ymm8, %ymm5
	vpand %ymm12, %ymm10, %ymm8
	vpshufb %ymm8, %ymm14, %ymm8
	vpsrlw $4, %ymm10, %ymm9
	vpand %ymm12, %ymm9, %ymm9
	vpshufb %ymm9, %ymm14, %ymm9
	vpaddb %ymm8, %ymm9, %ymm8
	vpsadbw %ymm3, %ymm8, %ymm8
	vpaddq %ymm6, %ymm8, %ymm6
	vpand %ymm12, %ymm11, %ymm8
	vpshufb %ymm8, %ymm14, %ymm8
	vpsrlw $4, %ymm11, %ymm9
	vpand %ymm12, %ymm9, %ymm9
	vpshufb %ymm9, %ymm14, %ymm9
	vpaddb %ymm8, %ymm9, %ymm8
	vpsadbw %ymm3, %ymm8, %ymm8
	vpaddq %ymm7, %ymm8, %ymm7
	addq $16, %r10
	cmpq %r10, %rcx
	jne .LBB78_23
	vpaddq %ymm4, %ymm5, %ymm3
	vpaddq %ymm3, %ymm6, %ymm3
	vpaddq %ymm3, %ymm7, %ymm3
	vextracti128 $1, %ymm3, %xmm4
	vpaddq %xmm4, %xmm3, %xmm3
	vpshufd $238, %xmm3, %xmm4
	vpaddq %xmm4, %xmm3, %xmm3
	vmovq %xmm3, %r10
	cmpq %rcx, %r9
	je .LBB78_30
	testb $12, %r9b
	je .LBB78_19
.LBB78_26:
	movq %rcx, %rbx
	movq %r9, %rcx
	andq $-4, %rcx
	vmovq %r10, %xmm3
	.p2align 4
.LBB78_27:
	vmovdqu (%r11,%rbx,8), %ymm4
	vpbroadcastb .LCPI78_2(%rip), %ymm5
	vpand %ymm5, %ymm4, %ymm6
	vmovdqa .LCPI78_1(%rip), %ymm7
	vpshufb %ymm6, %ymm7, %ymm6
	vpsrlw $4, %ymm4, %ymm4
	vpand %ymm5, %ymm4, %ymm4
	vpshufb %ymm4, %ymm7, %ymm4
	vpaddb %ymm6, %ymm4, %ymm4
	vpxor %xmm5, %xmm5, %xmm5
	vpsadbw %ymm5, %ymm4, %ymm4
	vpaddq %ymm3, %ymm4, %ymm3
	addq $4, %rbx
	cmpq %rbx, %rcx
	jne .LBB78_27
	vextracti128 $1, %ymm3, %xmm4
	vpaddq %xmm4, %xmm3, %xmm3
	vpshufd $238, %xmm3, %xmm4
	vpaddq %xmm4, %xmm3, %xmm3
	vmovq %xmm3, %r10
	jmp .LBB78_29
.LBB78_19:
	popcntq (%r11,%rcx,8), %rbx
	addq %rbx, %r10
	incq %rcx
.LBB78_29:
	cmpq %rcx, %r9
	jne .LBB78_19
.LBB78_30:
	vmovups 432(%rsp), %ymm3
	vmovups 464(%rsp), %ymm4
	vmovups 496(%rsp), %ymm5
	vmovups 528(%rsp), %ymm6
	vmovups %ymm6, 16(%rsp)
	vmovups %ymm5, -16(%rsp)
	vmovups %ymm4, -48(%rsp)
	vmovups %ymm3, -80(%rsp)
	movq 112(%rdx), %rcx
	movq (%rcx), %rcx
	movq 112(%rdx), %rcx
	movq (%rcx), %rcx
	vpaddq 24(%rsi), %xmm1, %xmm3
	vmovdqu %xmm3, 24(%rsi)
	addq %r10, 40(%rsi)
	vmovups -80(%rsp), %ymm3
	vmovups -48(%rsp), %ymm4
	vmovups -16(%rsp), %ymm5
	vmovups 16(%rsp), %ymm6
	vmovups %ymm6, 144(%rsp)
	vmovups %ymm3, 176(%rsp)
	vmovups %ymm4, 208(%rsp)
	vmovups %ymm5, 240(%rsp)
	vmovups %ymm6, 272(%rsp)
	movl -112(%rsp), %ecx
	movl %ecx, (%rdi)
	movl $0, 4(%rdi)
	movq -104(%rsp), %rcx
	movq %rcx, 8(%rdi)
	movl -108(%rsp), %ecx
	movl %ecx, 16(%rdi)
	movl $0, 20(%rdi)
	movq -96(%rsp), %rcx
	movq %rcx, 24(%rdi)
	movl %r14d, 32(%rdi)
	movl $0, 36(%rdi)
	movq -88(%rsp), %rcx
	movq %rcx, 40(%rdi)
	movq %r15, 48(%rdi)
	vmovdqu %ymm2, 56(%rdi)
	vmovups 304(%rsp), %ymm2
	vmovups 336(%rsp), %ymm3
	vmovups 368(%rsp), %ymm4
	vmovups 400(%rsp), %ymm5
	vmovups %ymm2, 88(%rdi)
	vmovups %ymm3, 120(%rdi)
	vmovups %ymm4, 152(%rdi)
	vmovups %ymm5, 184(%rdi)
	movq %rbp, 216(%rdi)
	movl %eax, 224(%rdi)
	movl $0, 228(%rdi)
	movq %r12, 232(%rdi)
	movl %r8d, 240(%rdi)
	movl $0, 244(%rdi)
	movq %r13, 248(%rdi)
	movq %r11, 256(%rdi)
	vmovups %xmm0, 264(%rdi)
	vmovdqu %xmm1, 280(%rdi)
	vmovups 176(%rsp), %ymm0
	vmovups 208(%rsp), %ymm1
	vmovups 240(%rsp), %ymm2
	vmovups 272(%rsp), %ymm3
	vmovups %ymm3, 392(%rdi)
	vmovups %ymm2, 360(%rdi)
	vmovups %ymm1, 328(%rdi)
	vmovups %ymm0, 296(%rdi)
	addq $824, %rsp
	popq %rbx
	popq %r12
	popq %r13
	popq %r14
	popq %r15
	popq %rbp
	vzeroupper
	retq
.Lfunc_end78:
	.size tag_pool.gather.together.Together.lend_i64, .Lfunc_end78-tag_pool.gather.together.Together.lend_i64
	.section .rodata.cst32,"aM",@progbits,32
	.p2align 5, 0x0
.LCPI79_0:
	.zero 32,15
.LCPI79_1:
	.byte 0
	.byte 1
	.byte 1
	.byte 2
	.byte 1
	.byte 2
	.byte 2
	.byte 3
	.byte 1
	.byte 2
	.byte 2
	.byte 3
	.byte 2
	.byte 3
	.byte 3
	.byte 4
	.byte 0
	.byte 1
	.byte 1
	.byte 2
	.byte 1
	.byte 2
	.byte 2
	.byte 3
	.byte 1
	.byte 2
	.byte 2
	.byte 3
	.byte 2
	.byte 3
	.byte 3
	.byte 4
	.section .rodata,"a",@progbits
.LCPI79_2:
	.byte 15
	.section .text.tag_core.settles.settle_rest_i64,"ax",@progbits
	.p2align 4
	.type tag_core.settles.settle_rest_i64,@function
tag_core.settles.settle_rest_i64:
	pushq %rbp
	pushq %r15
	pushq %r14
	pushq %r13
	pushq %r12
	pushq %rbx
	subq $760, %rsp
	movq %rdi, %rbx
	movq (%rdx), %r8
	movq 8(%rdx), %rdi
	movq 16(%rdx), %rax
	vxorps %xmm0, %xmm0, %xmm0
	vmovups %ymm0, 432(%rsp)
	vmovups %ymm0, 400(%rsp)
	vmovups %ymm0, 368(%rsp)
	vmovups %ymm0, 336(%rsp)
	vmovups %ymm0, 208(%rsp)
	vmovups %ymm0, 240(%rsp)
	vmovups %ymm0, 272(%rsp)
	vmovups %ymm0, 304(%rsp)
	vmovups %ymm0, 176(%rsp)
	vxorps %xmm1, %xmm1, %xmm1
	vmovaps %xmm1, 16(%rsp)
	movq $0, 32(%rsp)
	movq 8(%rcx), %rdx
	testq %rdx, %rdx
	je .LBB79_18
	decq %rdx
	movq %rdx, 8(%rcx)
	movq (%rcx), %r9
	leaq (%rdx,%rdx,2), %r10
	shlq $6, %r10
	movq (%r9,%r10), %rbp
	movl 12(%r9,%r10), %r11d
	movq 16(%r9,%r10), %r14
	movq 24(%r9,%r10), %r13
	vmovdqu 32(%r9,%r10), %ymm12
	movq 32(%r9,%r10), %rdx
	vmovups %ymm0, 464(%rsp)
	vmovups %ymm0, 496(%rsp)
	vmovups %ymm0, 528(%rsp)
	vmovups %ymm0, 560(%rsp)
	vmovups %ymm0, 624(%rsp)
	vmovups %ymm0, 656(%rsp)
	vmovups %ymm0, 688(%rsp)
	vmovups %ymm0, 720(%rsp)
	vmovdqu 64(%r9,%r10), %ymm0
	vmovdqu 96(%r9,%r10), %ymm1
	vmovdqu 128(%r9,%r10), %ymm2
	vmovdqu 160(%r9,%r10), %ymm3
	vmovdqu %ymm3, 144(%rsp)
	vmovdqu %ymm2, 112(%rsp)
	vmovdqu %ymm1, 80(%rsp)
	vmovdqu %ymm0, 48(%rsp)
	movq (%rsi), %r9
	movq (%r9), %r9
	testq %rdx, %rdx
	movl %r11d, 12(%rsp)
	movq %r14, 40(%rsp)
	je .LBB79_2
	cmpq $4, %rdx
	jae .LBB79_6
	xorl %r10d, %r10d
	xorl %r9d, %r9d
	jmp .LBB79_5
.LBB79_18:
	movq (%rsi), %rcx
	movq (%rcx), %rcx
	movq %r8, (%rbx)
	subq %rdi, %r8
	subq %rax, %r8
	movq %rdi, 8(%rbx)
	movq %rax, 16(%rbx)
	movq %r8, 24(%rbx)
	jmp .LBB79_17
.LBB79_2:
	xorl %r10d, %r10d
	jmp .LBB79_16
.LBB79_6:
	cmpq $16, %rdx
	jae .LBB79_8
	xorl %r9d, %r9d
	xorl %r10d, %r10d
	jmp .LBB79_12
.LBB79_8:
	movq %rdx, %r9
	andq $-16, %r9
	vpxor %xmm0, %xmm0, %xmm0
	xorl %r10d, %r10d
	vpxor %xmm1, %xmm1, %xmm1
	vpxor %xmm2, %xmm2, %xmm2
	vpxor %xmm3, %xmm3, %xmm3
	vpxor %xmm4, %xmm4, %xmm4
	.p2align 4
.LBB79_9:
	vmovdqu (%r13,%r10,8), %ymm5
	vmovdqu 32(%r13,%r10,8), %ymm6
	vmovdqu 64(%r13,%r10,8), %ymm7
	vmovdqu 96(%r13,%r10,8), %ymm8
	vpbroadcastb .LCPI79_2(%rip), %ymm9
	vpand %ymm5, %ymm9, %ymm10
	vmovdqa .LCPI79_1(%rip), %ymm11
	vpshufb %ymm10, %ymm11, %ymm10
	vpsrlw $4, %ymm5, %ymm5
	vpand %ymm5, %ymm9, %ymm5
	vpshufb %ymm5, %ymm11, %ymm5
	vpaddb %ymm5, %ymm10, %ymm5
	vpsadbw %ymm0, %ymm5, %ymm5
	vpaddq %ymm1, %ymm5, %ymm1
	vpand %ymm6, %ymm9, %ymm5
	vpshufb %ymm5, %ymm11, %ymm5
	vpsrlw $4, %ymm6, %ymm6
	vpand %ymm6, %ymm9, %ymm6
	vpshufb %ymm6, %ymm11, %ymm6
	vpaddb %ymm5, %ymm6, %ymm5
	vpsadbw %ymm0, %ymm5, %ymm5
	vpaddq %ymm2, %ymm5, %ymm2
	vpand %ymm7, %ymm9, %ymm5
	vpshufb %ymm5, %ymm11, %ymm5
	vpsrlw $4, %ymm7, %ymm6
	vpand %ymm6, %ymm9, %ymm6
	vpshufb %ymm6, %ymm11, %ymm6
	vpaddb %ymm5, %ymm6, %ymm5
	vpsadbw %ymm0, %ymm5, %ymm5
	vpaddq %ymm3, %ymm5, %ymm3
	vpand %ymm9, %ymm8, %ymm5
	vpshufb %ymm5, %ymm11, %ymm5
	vpsrlw $4, %ymm8, %ymm6
	vpand %ymm6, %ymm9, %ymm6
	vpshufb %ymm6, %ymm11, %ymm6
	vpaddb %ymm5, %ymm6, %ymm5
	vpsadbw %ymm0, %ymm5, %ymm5
	vpaddq %ymm4, %ymm5, %ymm4
	addq $16, %r10
	cmpq %r10, %r9
	jne .LBB79_9
	vpaddq %ymm1, %ymm2, %ymm0
	vpaddq %ymm0, %ymm3, %ymm0
	vpaddq %ymm0, %ymm4, %ymm0
	vextracti128 $1, %ymm0, %xmm1
	vpaddq %xmm1, %xmm0, %xmm0
	vpshufd $238, %xmm0, %xmm1
	vpaddq %xmm1, %xmm0, %xmm0
	vmovq %xmm0, %r10
	cmpq %r9, %rdx
	je .LBB79_16
	testb $12, %dl
	je .LBB79_5
.LBB79_12:
	movq %r9, %r11
	movq %rdx, %r9
	andq $-4, %r9
	vmovq %r10, %xmm0
	.p2align 4
.LBB79_13:
	vmovdqu (%r13,%r11,8), %ymm1
	vpbroadcastb .LCPI79_2(%rip), %ymm2
	vpand %ymm2, %ymm1, %ymm3
	vmovdqa .LCPI79_1(%rip), %ymm4
	vpshufb %ymm3, %ymm4, %ymm3
	vpsrlw $4, %ymm1, %ymm1
	vpand %ymm2, %ymm1, %ymm1
	vpshufb %ymm1, %ymm4, %ymm1
	vpaddb %ymm3, %ymm1, %ymm1
	vpxor %xmm2, %xmm2, %xmm2
	vpsadbw %ymm2, %ymm1, %ymm1
	vpaddq %ymm0, %ymm1, %ymm0
	addq $4, %r11
	cmpq %r11, %r9
	jne .LBB79_13
	vextracti128 $1, %ymm0, %xmm1
	vpaddq %xmm1, %xmm0, %xmm0
	vpshufd $238, %xmm0, %xmm1
	vpaddq %xmm1, %xmm0, %xmm0
	vmovq %xmm0, %r10
	jmp .LBB79_15
.LBB79_5:
	popcntq (%r13,%r9,8), %r11
	addq %r11, %r10
	incq %r9
.LBB79_15:
	cmpq %r9, %rdx
	jne .LBB79_5
.LBB79_16:
	vmovups 48(%rsp), %ymm0
	vmovups 80(%rsp), %ymm1
	vmovups 112(%rsp), %ymm2
	vmovups 144(%rsp), %ymm3
	vmovups %ymm3, 720(%rsp)
	vmovups %ymm2, 688(%rsp)
	vmovups %ymm1, 656(%rsp)
	vmovups %ymm0, 624(%rsp)
	vmovups %ymm0, 464(%rsp)
	vmovups %ymm1, 496(%rsp)
	vmovups %ymm2, 528(%rsp)
	vmovups %ymm3, 560(%rsp)
	movq (%rsi), %rdx
	movq (%rdx), %rdx
	movq (%rsi), %rdx
	movq (%rdx), %rdx
	vextracti128 $1, %ymm12, %xmm0
	vmovq %xmm0, %rdx
	addq %r8, %rdx
	vpextrq $1, %xmm0, %r8
	addq %rdi, %r8
	addq %rax, %r10
	movq %rbp, %r12
	shrq $32, %r12
	vmovups 464(%rsp), %ymm0
	vmovups 496(%rsp), %ymm1
	vmovups 528(%rsp), %ymm2
	vmovups 560(%rsp), %ymm3
	vmovups %ymm3, 432(%rsp)
	vmovups %ymm2, 400(%rsp)
	vmovups %ymm1, 368(%rsp)
	vmovups %ymm0, 336(%rsp)
	movq %rdx, 16(%rsp)
	movq %r8, 24(%rsp)
	movq %r10, 32(%rsp)
	leaq 176(%rsp), %rdi
	leaq 16(%rsp), %rdx
	movq %rsi, %r15
	movq %rcx, %r14
	vmovdqu %ymm12, 592(%rsp)
	vzeroupper
	callq tag_core.settles.settle_rest_i64
	vmovups 336(%rsp), %ymm0
	vmovups 368(%rsp), %ymm1
	vmovups 400(%rsp), %ymm2
	vmovups 432(%rsp), %ymm3
	vmovups %ymm3, 144(%rsp)
	vmovups %ymm2, 112(%rsp)
	vmovups %ymm1, 80(%rsp)
	vmovups %ymm0, 48(%rsp)
	movq (%r15), %rax
	movl $1, %ecx
	shlxl %r12d, %ecx, %ecx
	addl %ebp, %ecx
	decl %ecx
	shrxl %r12d, %ecx, %ecx
	shll $4, %ecx
	addl $72, %ecx
	vmovups 176(%rsp), %ymm0
	movq (%rax), %rax
	movq (%r15), %rax
	movq (%rax), %rax
	vmovups 48(%rsp), %ymm1
	vmovups 80(%rsp), %ymm2
	vmovups 112(%rsp), %ymm3
	vmovups 144(%rsp), %ymm4
	vmovups %ymm4, 304(%rsp)
	vmovups %ymm3, 272(%rsp)
	vmovups %ymm2, 240(%rsp)
	vmovups %ymm1, 208(%rsp)
	movq (%r14), %rax
	movq 8(%r14), %rdx
	leaq (%rdx,%rdx,2), %rsi
	shlq $6, %rsi
	movq %rbp, (%rax,%rsi)
	movl %ecx, 8(%rax,%rsi)
	movl 12(%rsp), %ecx
	movl %ecx, 12(%rax,%rsi)
	movq 40(%rsp), %rcx
	movq %rcx, 16(%rax,%rsi)
	movq %r13, 24(%rax,%rsi)
	vmovups 592(%rsp), %ymm1
	vmovups %ymm1, 32(%rax,%rsi)
	vmovups 208(%rsp), %ymm1
	vmovups 240(%rsp), %ymm2
	vmovups 272(%rsp), %ymm3
	vmovups 304(%rsp), %ymm4
	vmovups %ymm1, 64(%rax,%rsi)
	vmovups %ymm2, 96(%rax,%rsi)
	vmovups %ymm3, 128(%rax,%rsi)
	vmovups %ymm4, 160(%rax,%rsi)
	incq %rdx
	movq %rdx, 8(%r14)
	vmovups %ymm0, (%rbx)
.LBB79_17:
	addq $760, %rsp
	popq %rbx
	popq %r12
	popq %r13
	popq %r14
	popq %r15
	popq %rbp
	vzeroupper
	retq
.Lfunc_end79:
	.size tag_core.settles.settle_rest_i64, .Lfunc_end79-tag_core.settles.settle_rest_i64
	.section .text.unlikely.std_alloc.vec.Vec.grow_amortized__e69b1d9fa94cf777,"ax",@progbits
	.p2align 4
	.type std_alloc.vec.Vec.grow_amortized__e69b1d9fa94cf777,@function
std_alloc.vec.Vec.grow_amortized__e69b1d9fa94cf777:
	movq 8(%rdi), %rax
	cmpq $-1, %rax
	je .LBB80_5
	pushq %r14
	pushq %rbx
	pushq %rax
	movq 16(%rdi), %rcx
	cmpq $4, %rax
	movl $3, %ebx
	cmovaeq %rax, %rbx
	incq %rbx
	movq %rcx, %rsi
	shrq $62, %rsi
	leaq (%rcx,%rcx), %rdx
	cmpq %rdx, %rbx
	cmovaq %rbx, %rdx
	testq %rsi, %rsi
	cmoveq %rdx, %rbx
	movabsq $384307168202282325, %rsi
	cmpq %rsi, %rbx
	ja .LBB80_6
	testq %rcx, %rcx
	je .LBB80_8
	movq %rdi, %r14
	movq (%rdi), %rdi
	shlq $3, %rax
	leaq (%rax,%rax,2), %rsi
	leaq (,%rbx,8), %rax
	leaq (%rax,%rax,2), %rdx
	movl $8, %ecx
	callq tags_library_realloc@PLT
	testb $1, %al
	je .LBB80_6
.LBB80_9:
	movq %rdx, (%r14)
	movq %rbx, 16(%r14)
	movb $1, %al
	addq $8, %rsp
	popq %rbx
	popq %r14
	retq
.LBB80_5:
	xorl %eax, %eax
	retq
.LBB80_8:
	movq %rdi, %r14
	shlq $3, %rdx
	leaq (%rdx,%rdx,2), %rdi
	movl $8, %esi
	callq tags_library_alloc@PLT
	testb $1, %al
	jne .LBB80_9
.LBB80_6:
	xorl %eax, %eax
	addq $8, %rsp
	popq %rbx
	popq %r14
	retq
.Lfunc_end80:
	.size std_alloc.vec.Vec.grow_amortized__e69b1d9fa94cf777, .Lfunc_end80-std_alloc.vec.Vec.grow_amortized__e69b1d9fa94cf777
	.section .text.tag_pool.resizes.shells.unite_i64,"ax",@progbits
	.p2align 4
	.type tag_pool.resizes.shells.unite_i64,@function
tag_pool.resizes.shells.unite_i64:
	pushq %rbp
	pushq %r15
	pushq %r14
	pushq %r13
	pushq %r12
	pushq %rbx
	subq $440, %rsp
	movq (%rsi), %r8
	movq 8(%rsi), %rbx
	movq 16(%rsi), %r15
	movq (%rdx), %rbp
	movq 8(%rdx), %r13
	movq 16(%rdx), %r12
	movq (%rcx), %r14
	movq 8(%rcx), %rax
	movq 16(%rcx), %r11
	testq %rbx, %rbx
	movq %r8, 8(%rsp)
	movq %rax, (%rsp)
	movq %rdi, 24(%rsp)
	movq %r14, 16(%rsp)
	je .LBB81_1
	leaq 224(%rbp), %rcx
	imulq $424, %rax, %rax
	leaq (%rax,%r14), %rdx
	addq $232, %rdx
	xorl %eax, %eax
	movq %r8, %rsi
	.p2align 4
.LBB81_3:
	cmpq %rax, %r13
	je .LBB81_17
	incq %rax
	movl -224(%rcx), %r10d
	movq -8(%rcx), %r8
	movl (%rcx), %r9d
	vmovups 160(%rsi), %ymm0
	vmovups %ymm0, 400(%rsp)
	vmovups 128(%rsi), %ymm0
	vmovups %ymm0, 368(%rsp)
	vmovups (%rsi), %ymm0
	vmovups 32(%rsi), %ymm1
	vmovups 64(%rsi), %ymm2
	vmovups 96(%rsi), %ymm3
	vmovups %ymm3, 336(%rsp)
	vmovups %ymm2, 304(%rsp)
	vmovups %ymm1, 272(%rsp)
	vmovups %ymm0, 240(%rsp)
	vmovups -216(%rcx), %ymm0
	vmovups -184(%rcx), %ymm1
	vmovups -152(%rcx), %ymm2
	vmovups -120(%rcx), %ymm3
	vmovups %ymm0, 32(%rsp)
	vmovups %ymm1, 64(%rsp)
	vmovups %ymm2, 96(%rsp)
	vmovups %ymm3, 128(%rsp)
	vmovups -88(%rcx), %ymm0
	vmovups %ymm0, 160(%rsp)
	vmovups -56(%rcx), %ymm0
	vmovups %ymm0, 192(%rsp)
	vmovups -40(%rcx), %ymm0
	vmovups %ymm0, 208(%rsp)
	movl %r10d, -232(%rdx)
	movl $0, -228(%rdx)
	vmovups 32(%rsp), %ymm0
	vmovups 64(%rsp), %ymm1
	vmovups 96(%rsp), %ymm2
	vmovups 128(%rsp), %ymm3
	vmovups %ymm0, -224(%rdx)
	vmovups %ymm1, -192(%rdx)
	vmovups %ymm2, -160(%rdx)
	vmovups %ymm3, -128(%rdx)
	vmovups 160(%rsp), %ymm0
	vmovups %ymm0, -96(%rdx)
	vmovups 192(%rsp), %ymm0
	vmovups %ymm0, -64(%rdx)
	vmovups 208(%rsp), %ymm0
	vmovups %ymm0, -48(%rdx)
	movq %r8, -16(%rdx)
	movl %r9d, -8(%rdx)
	movl $0, -4(%rdx)
	vmovups 240(%rsp), %ymm0
	vmovups 272(%rsp), %ymm1
	vmovups 304(%rsp), %ymm2
	vmovups 336(%rsp), %ymm3
	vmovups %ymm0, (%rdx)
	vmovups %ymm1, 32(%rdx)
	vmovups %ymm2, 64(%rdx)
	vmovups %ymm3, 96(%rdx)
	vmovups 368(%rsp), %ymm0
	vmovups %ymm0, 128(%rdx)
	vmovups 400(%rsp), %ymm0
	vmovups %ymm0, 160(%rdx)
	addq $192, %rsi
	addq $232, %rcx
	addq $424, %rdx
	cmpq %rax, %rbx
	jne .LBB81_3
	movq %r11, %rbx
	subq %rax, %r13
	addq %rax, (%rsp)
	testq %r13, %r13
	jne .LBB81_7
	jmp .LBB81_12
.LBB81_1:
	movq %r11, %rbx
	xorl %eax, %eax
	testq %r13, %r13
	je .LBB81_12
.LBB81_7:
	leaq (%rax,%r13), %rcx
	cmpq %rcx, %rax
	jae .LBB81_12
	imulq $232, %rax, %rax
	leaq (%rax,%rbp), %r14
	addq $64, %r14
	jmp .LBB81_9
	.p2align 4
.LBB81_11:
	addq $232, %r14
	decq %r13
	je .LBB81_12
.LBB81_9:
	cmpq $0, (%r14)
	je .LBB81_11
	movq -16(%r14), %rdi
	vzeroupper
	callq tags_library_dealloc@PLT
	jmp .LBB81_11
.LBB81_12:
	testq %r12, %r12
	je .LBB81_14
	movq %rbp, %rdi
	vzeroupper
	callq tags_library_dealloc@PLT
.LBB81_14:
	testq %r15, %r15
	movq 16(%rsp), %r15
	je .LBB81_16
	movq 8(%rsp), %rdi
	vzeroupper
	callq tags_library_dealloc@PLT
.LBB81_16:
	movq 24(%rsp), %rbp
	movq %r15, (%rbp)
	movq (%rsp), %rax
	movq %rax, 8(%rbp)
	movq %rbx, 16(%rbp)
	addq $440, %rsp
	popq %rbx
	popq %r12
	popq %r13
	popq %r14
	popq %r15
	popq %rbp
	vzeroupper
	retq
.LBB81_17:
	ud2
.Lfunc_end81:
	.size tag_pool.resizes.shells.unite_i64, .Lfunc_end81-tag_pool.resizes.shells.unite_i64
	.section .text.tags_library_busy,"ax",@progbits
	.globl tags_library_busy
	.p2align 4
	.type tags_library_busy,@function
tags_library_busy:
	xorl %ecx, %ecx
	testq %rsi, %rsi
	sete %r8b
	movl $-12, %eax
	cmpq $1, (%rdi)
	jne .LBB82_6
	movb %r8b, %cl
	shll $12, %ecx
	addq %rcx, %rsi
	movq 8(%rdi), %rcx
	movzbl (%rcx), %edi
	cmpl $2, %edi
	je .LBB82_5
	cmpl $1, %edi
	je .LBB82_6
	movq 8(%rcx), %rdi
	movl 256(%rdi), %ecx
	addq $63, %rcx
	shrq $6, %rcx
	movl $-17, %eax
	cmpq %rcx, %rdx
	jae .LBB82_4
.LBB82_6:
	retq
.LBB82_5:
	movq 8(%rcx), %rdi
	jmp tag_c.looks.CachedMemberLookCalls.busy
.LBB82_4:
	pushq %rax
	addq $8, %rdi
	callq tag_pool.pool.Pool.busy_i64_core.clone.U64Clone
	cmpl $10240, %eax
	movl $10240, %ecx
	cmovael %ecx, %eax
	popq %rcx
	retq
.Lfunc_end82:
	.size tags_library_busy, .Lfunc_end82-tags_library_busy
	.section .text.tags_library_clear,"ax",@progbits
	.globl tags_library_clear
	.p2align 4
	.type tags_library_clear,@function
tags_library_clear:
	movl $-12, %eax
	cmpq $1, (%rdi)
	jne .LBB83_3
	movq %rdx, %rcx
	movq 8(%rdi), %rdx
	movzbl (%rdx), %edi
	cmpl $2, %edi
	je .LBB83_4
	cmpl $1, %edi
	jne .LBB83_11
.LBB83_3:
	retq
.LBB83_4:
	leaq 8(%rdx), %rdi
	movl %esi, %r8d
	subl 16(%rdx), %r8d
	cmpl $63, %r8d
	ja .LBB83_10
	movq 40(%rdx), %r9
	btq %r8, %r9
	jae .LBB83_10
	movl 24(%rdx), %eax
	testl %eax, %eax
	je .LBB83_10
	cmpb $0, 55(%rdx)
	jne .LBB83_10
	movl $1, %r10d
	shlxq %r8, %r10, %r8
	andnq %r9, %r8, %r9
	jne .LBB83_27
	cmpb $0, 28(%rdx)
	je .LBB83_27
.LBB83_10:
	movq %rcx, %rdx
	jmp tag_c.cached.CachedMember.clear_any
.LBB83_11:
	movq 8(%rdx), %rdi
	movl %esi, %r8d
	subl 16(%rdx), %r8d
	jae .LBB83_18
	movl $-1, %eax
	cmpl %esi, 72(%rdi)
	jbe .LBB83_3
	movzbl 44(%rdx), %r8d
	shrxl %r8d, %esi, %eax
	movq 64(%rdx), %r9
	movq (%r9,%rax,8), %r9
	bzhil %r8d, %esi, %r8d
	btq %r8, %r9
	jae .LBB83_24
	movl $1, %r9d
	shlxq %r8, %r9, %r8
	movq 8(%rdi), %rdi
	movq %rax, %r9
	shlq $7, %r9
	lock  addq %r8, 640(%rdi,%r9)
	movq 64(%rdx), %rdi
	subq %r8, (%rdi,%rax,8)
	incq 96(%rdx)
	cmpb $0, 28(%rdx)
	jne .LBB83_16
	movl %esi, 24(%rdx)
.LBB83_16:
	movq 8(%rdx), %rax
	movq 8(%rax), %rax
	movq 8(%rax), %rax
	testq %rax, %rax
	je .LBB83_25
	movq 8(%rdx), %rdi
	movl $1, %esi
	movl $1, %edx
	jmp tag_c.telling.MemberTellingCalls.tell
.LBB83_18:
	movl $-1, %eax
	cmpl %r8d, 184(%rdi)
	jbe .LBB83_3
	movzbl 252(%rdx), %esi
	shrxl %esi, %r8d, %eax
	movq 272(%rdx), %r9
	movq (%r9,%rax,8), %r9
	bzhil %esi, %r8d, %esi
	btq %rsi, %r9
	jae .LBB83_24
	movl $1, %r9d
	shlxq %rsi, %r9, %rsi
	movq 120(%rdi), %rdi
	movq %rax, %r9
	shlq $7, %r9
	lock  addq %rsi, 640(%rdi,%r9)
	movq 272(%rdx), %rdi
	subq %rsi, (%rdi,%rax,8)
	incq 304(%rdx)
	cmpb $0, 236(%rdx)
	jne .LBB83_22
	movl %r8d, 232(%rdx)
.LBB83_22:
	movq 8(%rdx), %rax
	movq 120(%rax), %rax
	movq 8(%rax), %rax
	testq %rax, %rax
	je .LBB83_25
	movq 8(%rdx), %rdi
	xorl %esi, %esi
	movl $1, %edx
	jmp tag_c.telling.MemberTellingCalls.tell
.LBB83_24:
	movl $-3, %eax
	retq
.LBB83_27:
	movq 8(%rdx), %rsi
	movq %r9, 40(%rdx)
	orq %r8, 32(%rdx)
	decl %eax
	movl %eax, 24(%rdx)
	movq 120(%rsi), %rax
	movq 8(%rax), %rax
	testq %rax, %rax
	je .LBB83_25
	xorl %esi, %esi
	xorl %edx, %edx
	jmp tag_c.telling.CachedMemberTellingCalls.tell
.LBB83_25:
	xorl %eax, %eax
	retq
.Lfunc_end83:
	.size tags_library_clear, .Lfunc_end83-tags_library_clear
	.section .text.tags_library_clear_batch,"ax",@progbits
	.globl tags_library_clear_batch
	.p2align 4
	.type tags_library_clear_batch,@function
tags_library_clear_batch:
	pushq %rbp
	pushq %r15
	pushq %r14
	pushq %r13
	pushq %r12
	pushq %rbx
	pushq %rax
	xorl %r8d, %r8d
	testq %rsi, %rsi
	sete %r9b
	movl $-12, %eax
	cmpq $1, (%rdi)
	jne .LBB84_18
	movb %r9b, %r8b
	shll $12, %r8d
	addq %r8, %rsi
	movq 8(%rdi), %rbx
	movzbl (%rbx), %edi
	cmpl $2, %edi
	je .LBB84_16
	cmpl $1, %edi
	je .LBB84_18
	movq %rsi, %r15
	movq %rdx, %r14
	movq %rcx, %r13
	movq 8(%rbx), %r12
	leaq 8(%r12), %rdi
	leaq 16(%rbx), %rsi
	movq %r15, %rdx
	movq %r14, %rcx
	callq tag_pool.pool.Pool.check_batch_i64_core.clone.U64Clone
	testb %al, %al
	je .LBB84_4
	movzbl %dl, %eax
	leaq .Lswitch.table.tags_library_wait_on_reserved.286(%rip), %rcx
	movl (%rcx,%rax,4), %eax
.LBB84_18:
	addq $8, %rsp
	popq %rbx
	popq %r12
	popq %r13
	popq %r14
	popq %r15
	popq %rbp
	retq
.LBB84_16:
	addq $8, %rbx
	movq %rbx, %rdi
	addq $8, %rsp
	popq %rbx
	popq %r12
	popq %r13
	popq %r14
	popq %r15
	popq %rbp
	jmp tag_c.clears.CachedMemberClearCalls.clear_batch
.LBB84_4:
	movl 188(%r12), %esi
	movl 232(%r12), %eax
	movl (%r15), %ecx
	subl %eax, %ecx
	shrxl %esi, %ecx, %edi
	movq %r14, %rdx
	testq %r14, %r14
	je .LBB84_5
	movl $-1, %ecx
	shlxl %esi, %ecx, %r8d
	notl %r8d
	xorl %r11d, %r11d
	xorl %r10d, %r10d
	movq %r13, %rcx
	jmp .LBB84_7
	.p2align 4
.LBB84_9:
	movq 120(%r12), %r14
	movl %edi, %edi
	movq %rdi, %r13
	shlq $7, %r13
	lock  subq %r11, 576(%r14,%r13)
	movq 272(%rbx), %r14
	popcntq %r11, %r13
	notq %r11
	andq %r11, (%r14,%rdi,8)
	addq %r13, 304(%rbx)
	movl %ebp, %edi
	incq %r10
	movq %r9, %r11
	cmpq %r10, %rdx
	je .LBB84_11
.LBB84_7:
	movl (%r15,%r10,4), %r9d
	subl %eax, %r9d
	shrxl %esi, %r9d, %ebp
	andl %r8d, %r9d
	movl $1, %r14d
	shlxq %r9, %r14, %r9
	cmpl %edi, %ebp
	jne .LBB84_9
	orq %r11, %r9
	incq %r10
	movq %r9, %r11
	cmpq %r10, %rdx
	jne .LBB84_7
	jmp .LBB84_11
.LBB84_5:
	xorl %r9d, %r9d
	movq %r13, %rcx
.LBB84_11:
	movq 120(%r12), %rsi
	movl %edi, %edi
	movq %rdi, %r8
	shlq $7, %r8
	lock  subq %r9, 576(%rsi,%r8)
	movq 272(%rbx), %rsi
	popcntq %r9, %r8
	notq %r9
	andq %r9, (%rsi,%rdi,8)
	addq %r8, 304(%rbx)
	cmpb $0, 236(%rbx)
	jne .LBB84_13
	movl -4(%r15,%rdx,4), %esi
	subl %eax, %esi
	movl %esi, 232(%rbx)
.LBB84_13:
	movq 8(%rbx), %rax
	movq 120(%rax), %rax
	movq 8(%rax), %rax
	testq %rax, %rax
	je .LBB84_14
	movq 8(%rbx), %rdi
	xorl %esi, %esi
	addq $8, %rsp
	popq %rbx
	popq %r12
	popq %r13
	popq %r14
	popq %r15
	popq %rbp
	jmp tag_c.telling.MemberTellingCalls.tell
.LBB84_14:
	xorl %eax, %eax
	jmp .LBB84_18
.Lfunc_end84:
	.size tags_library_clear_batch, .Lfunc_end84-tags_library_clear_batch
	.section .text.tags_library_clear_mask,"ax",@progbits
	.globl tags_library_clear_mask
	.p2align 4
	.type tags_library_clear_mask,@function
tags_library_clear_mask:
	pushq %rbp
	pushq %r15
	pushq %r14
	pushq %r13
	pushq %r12
	pushq %rbx
	subq $24, %rsp
	movl $-12, %eax
	cmpq $1, (%rdi)
	jne .LBB85_30
	movq 8(%rdi), %rdi
	movzbl (%rdi), %r8d
	cmpl $2, %r8d
	je .LBB85_28
	cmpl $1, %r8d
	je .LBB85_30
	movb $1, %r15b
	testq %rdx, %rdx
	je .LBB85_4
	movq 8(%rdi), %rbx
	movl 232(%rbx), %r12d
	movl %r12d, %eax
	subl %esi, %eax
	jbe .LBB85_6
	tzcntq %rdx, %r8
	xorl %r14d, %r14d
	cmpl %r8d, %eax
	ja .LBB85_24
	shrxq %rax, %rdx, %r8
	movl 184(%rbx), %r10d
	cmpl %r14d, %r10d
	ja .LBB85_10
	jmp .LBB85_23
.LBB85_28:
	addq $8, %rdi
	addq $24, %rsp
	popq %rbx
	popq %r12
	popq %r13
	popq %r14
	popq %r15
	popq %rbp
	jmp tag_c.masks.CachedMemberMaskCalls.clear_mask
.LBB85_4:
	movb $3, %r14b
	jmp .LBB85_24
.LBB85_6:
	movl %esi, %r14d
	subl %r12d, %r14d
	movq %rdx, %r8
	movl 184(%rbx), %r10d
	cmpl %r14d, %r10d
	jbe .LBB85_23
.LBB85_10:
	lzcntq %r8, %rax
	movl %r14d, %r9d
	subl %eax, %r9d
	addl $63, %r9d
	cmpl %r9d, %r10d
	jbe .LBB85_23
	movl 188(%rbx), %ebp
	shrxl %ebp, %r14d, %eax
	shrxl %ebp, %r9d, %r11d
	cmpl %eax, %r11d
	jne .LBB85_12
	bzhil %ebp, %r14d, %r9d
	shlxq %r9, %r8, %r8
	movq 272(%rdi), %r9
	movl %eax, %eax
	movq (%r9,%rax,8), %rax
	andnq %r8, %rax, %rax
	setne %r15b
	movb $1, %r14b
	je .LBB85_14
	jmp .LBB85_24
.LBB85_12:
	leaq 248(%rdi), %r11
	movq %rdi, 16(%rsp)
	movl %r10d, %edi
	movl %esi, 12(%rsp)
	movl %ebp, %esi
	movq %rdx, %r15
	movq %r11, %rdx
	movq %rcx, %r13
	movl %r14d, %ecx
	callq tag_pool.clears.masks.words.are_held_across_i64
	movl 12(%rsp), %esi
	movq 16(%rsp), %rdi
	movq %r15, %rdx
	movq %r13, %rcx
	movl %eax, %r15d
	xorb $1, %r15b
	movl %r15d, %r14d
	testb %al, %al
	je .LBB85_24
.LBB85_14:
	movl %r12d, %eax
	subl %esi, %eax
	jbe .LBB85_15
	tzcntq %rdx, %rsi
	cmpl %esi, %eax
	ja .LBB85_31
	shrxq %rax, %rdx, %rax
	xorl %esi, %esi
	jmp .LBB85_18
.LBB85_15:
	subl %r12d, %esi
	movq %rdx, %rax
.LBB85_18:
	addq $120, %rbx
	lzcntq %rax, %r8
	movl %esi, %r14d
	subl %r8d, %r14d
	addl $63, %r14d
	shrxl %ebp, %esi, %r8d
	shrxl %ebp, %r14d, %r9d
	cmpl %r8d, %r9d
	jne .LBB85_19
	bzhil %ebp, %esi, %esi
	shlxq %rsi, %rax, %rax
	movq (%rbx), %rsi
	movl %r8d, %r8d
	movq %r8, %r9
	shlq $7, %r9
	lock  subq %rax, 576(%rsi,%r9)
	movq 272(%rdi), %rsi
	popcntq %rax, %r9
	notq %rax
	andq %rax, (%rsi,%r8,8)
	addq %r9, 304(%rdi)
	jmp .LBB85_21
.LBB85_19:
	leaq 248(%rdi), %r8
	movq %rdi, %r12
	movq %rbx, %rdi
	movl %esi, %r9d
	movq %r8, %rsi
	movq %rdx, %rbx
	movl %r9d, %edx
	movq %rcx, %r13
	movq %rax, %rcx
	movl %r14d, %r8d
	callq tag_pool.clears.masks.words.give_mask_across_i64
	movq %r12, %rdi
	movq %rbx, %rdx
	movq %r13, %rcx
.LBB85_21:
	cmpb $0, 236(%rdi)
	jne .LBB85_23
	movl %r14d, 232(%rdi)
.LBB85_23:
	xorl %r14d, %r14d
.LBB85_24:
	testb %r15b, %r15b
	je .LBB85_25
	movzbl %r14b, %eax
	leaq .Lswitch.table.tags_library_clear_mask(%rip), %rcx
	movl (%rcx,%rax,4), %eax
.LBB85_30:
	addq $24, %rsp
	popq %rbx
	popq %r12
	popq %r13
	popq %r14
	popq %r15
	popq %rbp
	retq
.LBB85_25:
	movq 8(%rdi), %rax
	movq 120(%rax), %rax
	movq 8(%rax), %rax
	testq %rax, %rax
	je .LBB85_26
	popcntq %rdx, %rdx
	movq 8(%rdi), %rdi
	xorl %esi, %esi
	addq $24, %rsp
	popq %rbx
	popq %r12
	popq %r13
	popq %r14
	popq %r15
	popq %rbp
	jmp tag_c.telling.MemberTellingCalls.tell
.LBB85_26:
	xorl %eax, %eax
	jmp .LBB85_30
.LBB85_31:
	ud2
.Lfunc_end85:
	.size tags_library_clear_mask, .Lfunc_end85-tags_library_clear_mask
	.section .text.tags_library_flush,"ax",@progbits
	.globl tags_library_flush
	.p2align 4
	.type tags_library_flush,@function
tags_library_flush:
	movl $-12, %eax
	cmpq $1, (%rdi)
	jne .LBB86_4
	movq 8(%rdi), %rdi
	movzbl (%rdi), %ecx
	testl %ecx, %ecx
	je .LBB86_2
	cmpl $1, %ecx
	jne .LBB86_5
.LBB86_4:
	retq
.LBB86_2:
	movl %ecx, %eax
	retq
.LBB86_5:
	addq $8, %rdi
	jmp tag_c.flush.CachedMemberFlushCalls.flush
.Lfunc_end86:
	.size tags_library_flush, .Lfunc_end86-tags_library_flush
	.section .text.tags_library_get,"ax",@progbits
	.globl tags_library_get
	.p2align 4
	.type tags_library_get,@function
tags_library_get:
	movl $-12, %eax
	cmpq $1, (%rdi)
	jne .LBB87_6
	movq 8(%rdi), %rdi
	movzbl (%rdi), %ecx
	cmpl $2, %ecx
	je .LBB87_4
	cmpl $1, %ecx
	je .LBB87_6
	addq $8, %rdi
	jmp tag_c.gets.MemberGetCalls.get
.LBB87_4:
	movq 32(%rdi), %rcx
	testq %rcx, %rcx
	je .LBB87_7
	tzcntq %rcx, %rdx
	movl 16(%rdi), %eax
	movl $1, %esi
	shlxq %rdx, %rsi, %rsi
	btrq %rdx, %rcx
	movq %rcx, 32(%rdi)
	orq %rsi, 40(%rdi)
	incl 24(%rdi)
	addl %edx, %eax
	incq 48(%rdi)
.LBB87_6:
	retq
.LBB87_7:
	addq $8, %rdi
	jmp tag_c.cached.CachedMember.get_any
.Lfunc_end87:
	.size tags_library_get, .Lfunc_end87-tags_library_get
	.section .text.tags_library_get_batch,"ax",@progbits
	.globl tags_library_get_batch
	.p2align 4
	.type tags_library_get_batch,@function
tags_library_get_batch:
	pushq %r15
	pushq %r14
	pushq %rbx
	subq $48, %rsp
	movl $-12, %eax
	cmpq $1, (%rdi)
	jne .LBB88_11
	movq 8(%rdi), %rbx
	movzbl (%rbx), %edi
	cmpl $2, %edi
	je .LBB88_13
	cmpl $1, %edi
	je .LBB88_11
	movl %esi, %eax
	movq %rdx, %r15
	movq %rcx, %r14
	vxorps %xmm0, %xmm0, %xmm0
	vmovups %ymm0, (%rsp)
	movq $0, 32(%rsp)
	movq 8(%rbx), %rsi
	addq $8, %rsi
	leaq 16(%rbx), %rdx
	movq %rsp, %rdi
	movl %eax, %ecx
	vzeroupper
	callq tag_pool.pool.Pool.get_batch_quietly_i64_core.clone.U64Clone
	cmpb $0, (%rsp)
	je .LBB88_4
	movzbl 1(%rsp), %eax
	leaq .Lswitch.table.tags_library_wait_on_reserved.286(%rip), %rcx
	movl (%rcx,%rax,4), %eax
	jmp .LBB88_11
.LBB88_13:
	addq $8, %rbx
	movq %rbx, %rdi
	addq $48, %rsp
	popq %rbx
	popq %r14
	popq %r15
	jmp tag_c.gets.CachedMemberGetCalls.get_batch
.LBB88_4:
	movq 32(%rsp), %rcx
	movl $-10, %eax
	cmpb $1, 8(%rsp)
	jne .LBB88_6
	movq 24(%rsp), %rdx
	movl 16(%rsp), %eax
	movq %rdx, (%r15)
.LBB88_6:
	testq %rcx, %rcx
	je .LBB88_11
	movq 8(%rbx), %rdi
	movq 120(%rdi), %rdx
	movq 8(%rdx), %rdx
	testq %rdx, %rdx
	je .LBB88_8
	addq $120, %rdi
	cmpq $64, %rcx
	movl $64, %esi
	cmovbq %rcx, %rsi
	movl %eax, %ebx
	callq tag_bell.telling.tell_each_i64
	movq %rax, %rcx
	movl %ebx, %eax
	jmp .LBB88_10
.LBB88_8:
	xorl %edx, %edx
	xorl %ecx, %ecx
.LBB88_10:
	movq %rcx, (%r14)
	movq %rdx, 8(%r14)
	addl $1073741824, %eax
.LBB88_11:
	addq $48, %rsp
	popq %rbx
	popq %r14
	popq %r15
	retq
.Lfunc_end88:
	.size tags_library_get_batch, .Lfunc_end88-tags_library_get_batch
	.section .text.tags_library_get_exactly,"ax",@progbits
	.globl tags_library_get_exactly
	.p2align 4
	.type tags_library_get_exactly,@function
tags_library_get_exactly:
	pushq %rbp
	pushq %r14
	pushq %rbx
	subq $32, %rsp
	movl $-12, %eax
	cmpq $1, (%rdi)
	jne .LBB89_12
	movq 8(%rdi), %rbx
	movzbl (%rbx), %ecx
	cmpl $2, %ecx
	je .LBB89_13
	cmpl $1, %ecx
	je .LBB89_12
	movl %esi, %ebp
	movq %rdx, %r14
	vxorps %xmm0, %xmm0, %xmm0
	vmovaps %xmm0, (%rsp)
	movq $0, 16(%rsp)
	movq 8(%rbx), %rsi
	addq $8, %rsi
	leaq 16(%rbx), %rdx
	movq %rsp, %rdi
	movl %ebp, %ecx
	callq tag_pool.pool.Pool.get_exactly_quietly_i64_core.clone.U64Clone
	cmpb $0, (%rsp)
	je .LBB89_5
	movzbl 1(%rsp), %eax
	leaq .Lswitch.table.tags_library_wait_on_reserved.286(%rip), %rcx
	movl (%rcx,%rax,4), %eax
	jmp .LBB89_12
.LBB89_13:
	addq $8, %rbx
	movq %rbx, %rdi
	addq $32, %rsp
	popq %rbx
	popq %r14
	popq %rbp
	jmp tag_c.gets.CachedMemberGetCalls.get_exactly
.LBB89_5:
	movq 16(%rsp), %rcx
	cmpb $1, 8(%rsp)
	movl $-10, %eax
	jne .LBB89_7
	movl 12(%rsp), %eax
.LBB89_7:
	testq %rcx, %rcx
	je .LBB89_12
	movq 8(%rbx), %rdx
	cmpl 232(%rdx), %ebp
	leaq 112(%rdx), %rdi
	cmovbq %rdx, %rdi
	movq 8(%rdi), %rdx
	movq 8(%rdx), %rdx
	testq %rdx, %rdx
	je .LBB89_9
	addq $8, %rdi
	cmpq $64, %rcx
	movl $64, %esi
	cmovbq %rcx, %rsi
	movl %eax, %ebx
	callq tag_bell.telling.tell_each_i64
	movq %rax, %rcx
	movl %ebx, %eax
	jmp .LBB89_11
.LBB89_9:
	xorl %edx, %edx
	xorl %ecx, %ecx
.LBB89_11:
	movq %rcx, (%r14)
	movq %rdx, 8(%r14)
	addl $1073741824, %eax
.LBB89_12:
	addq $32, %rsp
	popq %rbx
	popq %r14
	popq %rbp
	retq
.Lfunc_end89:
	.size tags_library_get_exactly, .Lfunc_end89-tags_library_get_exactly
	.section .text.tags_library_get_many,"ax",@progbits
	.globl tags_library_get_many
	.p2align 4
	.type tags_library_get_many,@function
tags_library_get_many:
	pushq %r14
	pushq %rbx
	subq $24, %rsp
	movq %rdx, %r8
	xorl %edx, %edx
	testq %rsi, %rsi
	sete %r9b
	movl $-12, %eax
	cmpq $1, (%rdi)
	jne .LBB90_10
	movb %r9b, %dl
	shll $12, %edx
	addq %rdx, %rsi
	movq 8(%rdi), %rbx
	movzbl (%rbx), %edx
	cmpl $2, %edx
	je .LBB90_11
	cmpl $1, %edx
	je .LBB90_10
	movq %rsi, %rax
	movq %rcx, %r14
	vxorps %xmm0, %xmm0, %xmm0
	vmovaps %xmm0, (%rsp)
	movq $0, 16(%rsp)
	movq 8(%rbx), %rsi
	addq $8, %rsi
	leaq 16(%rbx), %rdx
	movq %rsp, %rdi
	movq %rax, %rcx
	callq tag_pool.pool.Pool.get_many_quietly_i64_core.clone.U64Clone
	cmpb $0, (%rsp)
	je .LBB90_5
	movzbl 1(%rsp), %eax
	leaq .Lswitch.table.tags_library_wait_on_reserved.286(%rip), %rcx
	movl (%rcx,%rax,4), %eax
.LBB90_10:
	addq $24, %rsp
	popq %rbx
	popq %r14
	retq
.LBB90_11:
	addq $8, %rbx
	movq %rbx, %rdi
	movq %r8, %rdx
	addq $24, %rsp
	popq %rbx
	popq %r14
	jmp tag_c.gets.CachedMemberGetCalls.get_many
.LBB90_5:
	movq 16(%rsp), %rcx
	xorl %edx, %edx
	testb $1, 8(%rsp)
	movl $-10, %eax
	cmovnel %edx, %eax
	testq %rcx, %rcx
	je .LBB90_10
	movq 8(%rbx), %rdi
	movq 120(%rdi), %rdx
	movq 8(%rdx), %rdx
	testq %rdx, %rdx
	je .LBB90_7
	addq $120, %rdi
	cmpq $64, %rcx
	movl $64, %esi
	cmovbq %rcx, %rsi
	movl %eax, %ebx
	callq tag_bell.telling.tell_each_i64
	movq %rax, %rcx
	movl %ebx, %eax
	jmp .LBB90_9
.LBB90_7:
	xorl %edx, %edx
	xorl %ecx, %ecx
.LBB90_9:
	movq %rcx, (%r14)
	movq %rdx, 8(%r14)
	addl $1073741824, %eax
	addq $24, %rsp
	popq %rbx
	popq %r14
	retq
.Lfunc_end90:
	.size tags_library_get_many, .Lfunc_end90-tags_library_get_many
	.section .text.tags_library_get_reserved,"ax",@progbits
	.globl tags_library_get_reserved
	.p2align 4
	.type tags_library_get_reserved,@function
tags_library_get_reserved:
	pushq %r14
	pushq %rbx
	subq $24, %rsp
	movl $-12, %eax
	cmpq $1, (%rdi)
	jne .LBB91_12
	movq 8(%rdi), %rbx
	movzbl (%rbx), %ecx
	cmpl $2, %ecx
	je .LBB91_13
	cmpl $1, %ecx
	je .LBB91_12
	movq %rsi, %r14
	vxorps %xmm0, %xmm0, %xmm0
	vmovaps %xmm0, (%rsp)
	movq $0, 16(%rsp)
	movq 8(%rbx), %rsi
	addq $8, %rsi
	leaq 16(%rbx), %rdx
	movq %rsp, %rdi
	callq tag_pool.pool.Pool.get_reserved_quietly_i64_core.clone.U64Clone
	cmpb $0, (%rsp)
	je .LBB91_5
	movzbl 1(%rsp), %eax
	leaq .Lswitch.table.tags_library_wait_on_reserved.286(%rip), %rcx
	movl (%rcx,%rax,4), %eax
.LBB91_12:
	addq $24, %rsp
	popq %rbx
	popq %r14
	retq
.LBB91_13:
	addq $8, %rbx
	movq %rbx, %rdi
	addq $24, %rsp
	popq %rbx
	popq %r14
	jmp tag_c.gets.CachedMemberGetCalls.get_reserved
.LBB91_5:
	movq 16(%rsp), %rcx
	cmpb $1, 8(%rsp)
	movl $-10, %eax
	jne .LBB91_7
	movl 12(%rsp), %eax
.LBB91_7:
	testq %rcx, %rcx
	je .LBB91_12
	movq 8(%rbx), %rdi
	movq 8(%rdi), %rdx
	movq 8(%rdx), %rdx
	testq %rdx, %rdx
	je .LBB91_9
	addq $8, %rdi
	cmpq $64, %rcx
	movl $64, %esi
	cmovbq %rcx, %rsi
	movl %eax, %ebx
	callq tag_bell.telling.tell_each_i64
	movq %rax, %rcx
	movl %ebx, %eax
	jmp .LBB91_11
.LBB91_9:
	xorl %edx, %edx
	xorl %ecx, %ecx
.LBB91_11:
	movq %rcx, (%r14)
	movq %rdx, 8(%r14)
	addl $1073741824, %eax
	addq $24, %rsp
	popq %rbx
	popq %r14
	retq
.Lfunc_end91:
	.size tags_library_get_reserved, .Lfunc_end91-tags_library_get_reserved
	.section .text.tags_library_get_shallow,"ax",@progbits
	.globl tags_library_get_shallow
	.p2align 4
	.type tags_library_get_shallow,@function
tags_library_get_shallow:
	pushq %r14
	pushq %rbx
	subq $24, %rsp
	movl $-12, %eax
	cmpq $1, (%rdi)
	jne .LBB92_12
	movl %esi, %ecx
	movq 8(%rdi), %rbx
	movzbl (%rbx), %esi
	cmpl $2, %esi
	je .LBB92_13
	cmpl $1, %esi
	je .LBB92_12
	movq %rdx, %r14
	vxorps %xmm0, %xmm0, %xmm0
	vmovaps %xmm0, (%rsp)
	movq $0, 16(%rsp)
	movq 8(%rbx), %rsi
	addq $8, %rsi
	leaq 16(%rbx), %rdx
	movq %rsp, %rdi
	callq tag_pool.pool.Pool.get_shallow_quietly_i64_core.clone.U64Clone
	cmpb $0, (%rsp)
	je .LBB92_5
	movzbl 1(%rsp), %eax
	leaq .Lswitch.table.tags_library_wait_on_reserved.286(%rip), %rcx
	movl (%rcx,%rax,4), %eax
.LBB92_12:
	addq $24, %rsp
	popq %rbx
	popq %r14
	retq
.LBB92_13:
	addq $8, %rbx
	movq %rbx, %rdi
	movl %ecx, %esi
	addq $24, %rsp
	popq %rbx
	popq %r14
	jmp tag_c.gets.CachedMemberGetCalls.get_shallow
.LBB92_5:
	movq 16(%rsp), %rcx
	cmpb $1, 8(%rsp)
	movl $-10, %eax
	jne .LBB92_7
	movl 12(%rsp), %eax
.LBB92_7:
	testq %rcx, %rcx
	je .LBB92_12
	movq 8(%rbx), %rdi
	movq 120(%rdi), %rdx
	movq 8(%rdx), %rdx
	testq %rdx, %rdx
	je .LBB92_9
	addq $120, %rdi
	cmpq $64, %rcx
	movl $64, %esi
	cmovbq %rcx, %rsi
	movl %eax, %ebx
	callq tag_bell.telling.tell_each_i64
	movq %rax, %rcx
	movl %ebx, %eax
	jmp .LBB92_11
.LBB92_9:
	xorl %edx, %edx
	xorl %ecx, %ecx
.LBB92_11:
	movq %rcx, (%r14)
	movq %rdx, 8(%r14)
	addl $1073741824, %eax
	addq $24, %rsp
	popq %rbx
	popq %r14
	retq
.Lfunc_end92:
	.size tags_library_get_shallow, .Lfunc_end92-tags_library_get_shallow
	.section .text.tags_library_get_write,"ax",@progbits
	.globl tags_library_get_write
	.p2align 4
	.type tags_library_get_write,@function
tags_library_get_write:
	pushq %rbp
	pushq %r15
	pushq %r14
	pushq %r13
	pushq %r12
	pushq %rbx
	subq $40, %rsp
	movl $-12, %eax
	cmpq $1, (%rdi)
	jne .LBB93_32
	movq 8(%rdi), %rbx
	movzbl (%rbx), %ecx
	cmpl $2, %ecx
	je .LBB93_30
	cmpl $1, %ecx
	je .LBB93_32
	movq 8(%rbx), %r14
	vxorps %xmm0, %xmm0, %xmm0
	vmovaps %xmm0, 16(%rsp)
	vmovaps %xmm0, (%rsp)
	movq 264(%rbx), %rax
	cmpq 296(%rbx), %rax
	jne .LBB93_4
	movl $-7, %eax
	jmp .LBB93_32
.LBB93_30:
	addq $8, %rbx
	movq %rbx, %rdi
	addq $40, %rsp
	popq %rbx
	popq %r12
	popq %r13
	popq %r14
	popq %r15
	popq %rbp
	jmp tag_c.pairs.CachedMemberPairCalls.get_write
.LBB93_4:
	leaq 232(%rbx), %rcx
	leaq 120(%r14), %r13
	movl 184(%r14), %r8d
	movl 232(%rbx), %r11d
	xorl %eax, %eax
	cmpl %r11d, %r8d
	jbe .LBB93_7
	testb $1, 236(%rbx)
	movl $0, %r10d
	movl $0, %r9d
	jne .LBB93_13
	movl 188(%r14), %edi
	shrxl %edi, %r11d, %r10d
	movq (%r13), %rax
	movq %r10, %r11
	shlq $7, %r11
	movq 576(%rax,%r11), %rax
	notq %rax
	tzcntq %rax, %r15
	shrxl %edi, %r15d, %ebp
	movl $1, %eax
	testl %ebp, %ebp
	jne .LBB93_7
	shlxl %edi, %r10d, %r12d
	addl %r15d, %r12d
	cmpl %r12d, %r8d
	jbe .LBB93_7
	movq (%r13), %rbp
	movl $1, %eax
	shlxq %r15, %rax, %r13
	.p2align 4
.LBB93_10:
	movq 576(%rbp,%r11), %r9
	movq %r9, %rdi
	orq %r13, %rdi
	movq %r9, %rax
	lock  cmpxchgq %rdi, 576(%rbp,%r11)
	jne .LBB93_10
	testq %r13, %r9
	je .LBB93_15
	leal 1(%r15), %r10d
	movl $2, %eax
	leaq 232(%rbx), %rcx
	leaq 120(%r14), %r13
	jmp .LBB93_13
.LBB93_7:
	xorl %r10d, %r10d
	xorl %r9d, %r9d
.LBB93_13:
	movq %rsi, %r12
	movq %rdx, %r15
	leaq 248(%rbx), %rdx
	movl %eax, (%rsp)
	movl %r10d, 4(%rsp)
	movq %r9, 8(%rsp)
	leaq 16(%rsp), %rdi
	movq %rsp, %r8
	movq %r13, %rsi
	callq tag_search.on_map.finish_i64
	movq 24(%rsp), %r8
	movl $-10, %eax
	cmpb $1, 16(%rsp)
	jne .LBB93_14
	movl 20(%rsp), %eax
	movq %r15, %rdx
	movq %r12, %rsi
	addl 232(%r14), %eax
	movq 8(%rbx), %rcx
	cmpl %eax, 236(%rcx)
	jbe .LBB93_25
.LBB93_20:
	movl %eax, %edi
	subl 232(%rcx), %edi
	jae .LBB93_23
	movzbl 44(%rbx), %edi
	shrxl %edi, %eax, %r9d
	movq 64(%rbx), %r10
	movq (%r10,%r9,8), %r9
	bzhil %edi, %eax, %edi
	btq %rdi, %r9
	jae .LBB93_25
	movl 48(%rbx), %edi
	movl %eax, %r9d
	leaq (%rdi,%r9,8), %rdi
	movq 8(%rcx), %r10
	movq (%r10,%rdi,8), %r10
	movq 16(%rcx), %r10
	movq %rsi, (%r10,%r9,8)
	movq 8(%rcx), %rcx
	movq (%rcx,%rdi,8), %rcx
	jmp .LBB93_25
.LBB93_14:
	movq %r15, %rdx
.LBB93_25:
	testq %r8, %r8
	je .LBB93_32
	movq 8(%rbx), %rdi
	movq 120(%rdi), %rcx
	movq 8(%rcx), %rcx
	testq %rcx, %rcx
	je .LBB93_27
	addq $120, %rdi
	cmpq $64, %r8
	movl $64, %esi
	cmovbq %r8, %rsi
	movq %rdx, %rbx
	movq %rcx, %rdx
	movq %rax, %r14
	callq tag_bell.telling.tell_each_i64
	movq %rax, %rsi
	movq %r14, %rax
	movq %rdx, %rcx
	movq %rbx, %rdx
	jmp .LBB93_29
.LBB93_27:
	xorl %ecx, %ecx
	xorl %esi, %esi
.LBB93_29:
	movq %rsi, (%rdx)
	movq %rcx, 8(%rdx)
	addl $1073741824, %eax
.LBB93_32:
	addq $40, %rsp
	popq %rbx
	popq %r12
	popq %r13
	popq %r14
	popq %r15
	popq %rbp
	retq
.LBB93_23:
	movzbl 252(%rbx), %r9d
	shrxl %r9d, %edi, %r10d
	movq 272(%rbx), %r11
	movq (%r11,%r10,8), %r10
	bzhil %r9d, %edi, %r9d
	btq %r9, %r10
	jae .LBB93_25
	movl 256(%rbx), %r9d
	movl %edi, %edi
	leaq (%r9,%rdi,8), %r9
	movq 120(%rcx), %r10
	movq (%r10,%r9,8), %r10
	movq 128(%rcx), %r10
	movq %rsi, (%r10,%rdi,8)
	movq 120(%rcx), %rcx
	movq (%rcx,%r9,8), %rcx
	jmp .LBB93_25
.LBB93_15:
	movq 272(%rbx), %rax
	orq %r13, (%rax,%r10,8)
	incq 296(%rbx)
	movq %r12, %rax
	cmpl 232(%rbx), %eax
	jne .LBB93_17
	leal 1(%rax), %ecx
	decl %r8d
	xorl %edi, %edi
	cmpl %r8d, %ecx
	cmovbl %ecx, %edi
	leaq 232(%rbx), %rcx
	movl %edi, (%rcx)
.LBB93_17:
	xorl %r8d, %r8d
	addl 232(%r14), %eax
	movq 8(%rbx), %rcx
	cmpl %eax, 236(%rcx)
	ja .LBB93_20
	jmp .LBB93_25
.Lfunc_end93:
	.size tags_library_get_write, .Lfunc_end93-tags_library_get_write
	.section .text.tags_library_holds,"ax",@progbits
	.globl tags_library_holds
	.p2align 4
	.type tags_library_holds,@function
tags_library_holds:
	movl $-12, %eax
	cmpq $1, (%rdi)
	jne .LBB94_8
	movq 8(%rdi), %rdi
	movzbl (%rdi), %ecx
	cmpl $2, %ecx
	je .LBB94_9
	cmpl $1, %ecx
	je .LBB94_8
	movq 8(%rdi), %rcx
	movl $-1, %eax
	cmpl %esi, 256(%rcx)
	jbe .LBB94_8
	movl %esi, %eax
	subl 16(%rdi), %eax
	jae .LBB94_6
	movzbl 44(%rdi), %eax
	shrxl %eax, %esi, %edx
	movq 64(%rdi), %rdi
	bzhil %eax, %esi, %eax
	movl $1, %ecx
	shlxq %rax, %rcx, %rcx
	andq (%rdi,%rdx,8), %rcx
	jmp .LBB94_7
.LBB94_9:
	addq $8, %rdi
	jmp tag_c.looks.CachedMemberLookCalls.holds
.LBB94_6:
	movzbl 252(%rdi), %ecx
	shrxl %ecx, %eax, %edx
	movq 272(%rdi), %rsi
	bzhil %ecx, %eax, %eax
	movl $1, %ecx
	shlxq %rax, %rcx, %rcx
	andq (%rsi,%rdx,8), %rcx
.LBB94_7:
	xorl %eax, %eax
	testq %rcx, %rcx
	setne %al
.LBB94_8:
	retq
.Lfunc_end94:
	.size tags_library_holds, .Lfunc_end94-tags_library_holds
	.section .text.tags_library_is_cached,"ax",@progbits
	.globl tags_library_is_cached
	.p2align 4
	.type tags_library_is_cached,@function
tags_library_is_cached:
	movl $-12, %eax
	cmpq $1, (%rdi)
	jne .LBB95_2
	movq 8(%rdi), %rax
	movzbl (%rax), %eax
	leaq .Lswitch.table.tags_library_is_cached(%rip), %rcx
	movl (%rcx,%rax,4), %eax
.LBB95_2:
	retq
.Lfunc_end95:
	.size tags_library_is_cached, .Lfunc_end95-tags_library_is_cached
	.section .text.tags_library_is_told,"ax",@progbits
	.globl tags_library_is_told
	.p2align 4
	.type tags_library_is_told,@function
tags_library_is_told:
	movl $-12, %eax
	cmpq $1, (%rdi)
	jne .LBB96_5
	movq 8(%rdi), %rcx
	movzbl (%rcx), %edx
	cmpl $2, %edx
	je .LBB96_6
	cmpl $1, %edx
	je .LBB96_5
	movq 8(%rcx), %rax
	movq 120(%rax), %rax
	movl 260(%rcx), %ecx
	movq 64(%rax,%rcx,8), %rcx
	jmp .LBB96_4
.LBB96_6:
	movq 8(%rcx), %rax
	movl 300(%rcx), %ecx
	movq 120(%rax), %rax
	movq 64(%rax,%rcx,8), %rcx
.LBB96_4:
	andl $3, %ecx
	xorl %eax, %eax
	cmpl $1, %ecx
	setne %al
.LBB96_5:
	retq
.Lfunc_end96:
	.size tags_library_is_told, .Lfunc_end96-tags_library_is_told
	.section .text.tags_library_number,"ax",@progbits
	.globl tags_library_number
	.p2align 4
	.type tags_library_number,@function
tags_library_number:
	movl $-12, %eax
	cmpq $1, (%rdi)
	jne .LBB97_5
	movq 8(%rdi), %rcx
	movzbl (%rcx), %edx
	cmpl $2, %edx
	je .LBB97_4
	cmpl $1, %edx
	je .LBB97_5
	movl 240(%rcx), %eax
	retq
.LBB97_4:
	movl 280(%rcx), %eax
.LBB97_5:
	retq
.Lfunc_end97:
	.size tags_library_number, .Lfunc_end97-tags_library_number
	.section .text.tags_library_pool_busy,"ax",@progbits
	.globl tags_library_pool_busy
	.p2align 4
	.type tags_library_pool_busy,@function
tags_library_pool_busy:
	pushq %rbp
	pushq %r15
	pushq %r14
	pushq %r13
	pushq %r12
	pushq %rbx
	pushq %rax
	xorl %ecx, %ecx
	testq %rsi, %rsi
	sete %r8b
	movl $-12, %eax
	cmpq $1, (%rdi)
	jne .LBB98_24
	movq 8(%rdi), %rdi
	cmpb $1, (%rdi)
	jne .LBB98_24
	movq 8(%rdi), %rbx
	movl 256(%rbx), %edi
	addq $63, %rdi
	shrq $6, %rdi
	movl $-17, %eax
	cmpq %rdi, %rdx
	jb .LBB98_24
	movb %r8b, %cl
	shll $12, %ecx
	addq %rcx, %rsi
	testq %rdx, %rdx
	je .LBB98_7
	cmpq $1, %rdx
	je .LBB98_6
	leaq -8(,%rdx,8), %rax
	movq %rsi, %rdi
	movq %rsi, %r14
	xorl %esi, %esi
	movq %rdx, %r15
	movq %rax, %rdx
	callq memset@PLT
	movq %r15, %rdx
	movq %r14, %rsi
.LBB98_6:
	movq $0, -8(%rsi,%rdx,8)
.LBB98_7:
	movl 72(%rbx), %edi
	movl 76(%rbx), %r8d
	movl $1, %eax
	shlxl %r8d, %eax, %r9d
	leal (%rdi,%r9), %eax
	decl %eax
	shrxl %r8d, %eax, %r10d
	xorl %ecx, %ecx
	movl $0, %eax
	testl %r10d, %r10d
	je .LBB98_15
	movl %r10d, %r10d
	xorl %r11d, %r11d
	xorl %eax, %eax
	jmp .LBB98_9
	.p2align 4
.LBB98_14:
	popcntq %r14, %rdx
	addl %edx, %eax
	incq %r11
	cmpq %r10, %r11
	je .LBB98_15
.LBB98_9:
	movq 8(%rbx), %r14
	movq %r11, %r15
	shlq $7, %r15
	movq 576(%r14,%r15), %r14
	movq 8(%rbx), %r12
	movq 640(%r12,%r15), %r12
	shlxl %r8d, %r11d, %ebp
	movl %edi, %r15d
	subl %ebp, %r15d
	cmpl %r15d, %r9d
	cmovbl %r9d, %r15d
	bzhiq %r15, %r14, %r14
	andnq %r14, %r12, %r14
	cmpl %ebp, %edi
	je .LBB98_14
	movl %r15d, %r15d
	movl %ebp, %r12d
	xorl %r13d, %r13d
	jmp .LBB98_11
	.p2align 4
.LBB98_13:
	incq %r13
	cmpq %r13, %r15
	je .LBB98_14
.LBB98_11:
	btq %r13, %r14
	jae .LBB98_13
	leal (%r12,%r13), %ebp
	movl $1, %edx
	shlxq %rbp, %rdx, %rdx
	shrl $6, %ebp
	orq %rdx, (%rsi,%rbp,8)
	jmp .LBB98_13
.LBB98_15:
	movl 184(%rbx), %edi
	movl 188(%rbx), %r8d
	movl $1, %edx
	shlxl %r8d, %edx, %edx
	leal (%rdi,%rdx), %r9d
	decl %r9d
	shrxl %r8d, %r9d, %r10d
	testl %r10d, %r10d
	je .LBB98_23
	movl 232(%rbx), %ecx
	movl %ecx, 4(%rsp)
	movl %r10d, %r10d
	xorl %r11d, %r11d
	xorl %ecx, %ecx
	jmp .LBB98_17
	.p2align 4
.LBB98_22:
	popcntq %r15, %r9
	addl %r9d, %ecx
	incq %r11
	cmpq %r10, %r11
	je .LBB98_23
.LBB98_17:
	movq 120(%rbx), %r14
	movq %r11, %r15
	shlq $7, %r15
	movq 576(%r14,%r15), %r13
	movq 120(%rbx), %r14
	movq 640(%r14,%r15), %r15
	shlxl %r8d, %r11d, %r14d
	movl %edi, %r12d
	subl %r14d, %r12d
	cmpl %r12d, %edx
	cmovbl %edx, %r12d
	bzhiq %r12, %r13, %r13
	andnq %r13, %r15, %r15
	cmpl %r14d, %edi
	je .LBB98_22
	movl %r12d, %r12d
	addl 4(%rsp), %r14d
	xorl %r13d, %r13d
	jmp .LBB98_19
	.p2align 4
.LBB98_21:
	incq %r13
	cmpq %r13, %r12
	je .LBB98_22
.LBB98_19:
	btq %r13, %r15
	jae .LBB98_21
	leal (%r14,%r13), %ebp
	movl $1, %r9d
	shlxq %rbp, %r9, %r9
	shrl $6, %ebp
	orq %r9, (%rsi,%rbp,8)
	jmp .LBB98_21
.LBB98_23:
	addl %eax, %ecx
	cmpl $10240, %ecx
	movl $10240, %eax
	cmovbl %ecx, %eax
.LBB98_24:
	addq $8, %rsp
	popq %rbx
	popq %r12
	popq %r13
	popq %r14
	popq %r15
	popq %rbp
	retq
.Lfunc_end98:
	.size tags_library_pool_busy, .Lfunc_end98-tags_library_pool_busy
	.section .text.tags_library_pool_show,"ax",@progbits
	.globl tags_library_pool_show
	.p2align 4
	.type tags_library_pool_show,@function
tags_library_pool_show:
	movl $-12, %eax
	cmpq $1, (%rdi)
	jne .LBB99_11
	pushq %rbp
	pushq %r15
	pushq %r14
	pushq %r13
	pushq %r12
	pushq %rbx
	movq 8(%rdi), %rdi
	cmpb $1, (%rdi)
	jne .LBB99_10
	testl %esi, %esi
	je .LBB99_3
	movl $-16, %eax
	cmpl $1, %esi
	jne .LBB99_10
	movq %rdx, -8(%rsp)
	xorl %ecx, %ecx
	jmp .LBB99_6
.LBB99_3:
	movq %rdx, -8(%rsp)
	movl $112, %ecx
.LBB99_6:
	movq 8(%rdi), %r8
	movl 72(%r8,%rcx), %edx
	movl 76(%r8,%rcx), %r10d
	movl $1, %eax
	shlxl %r10d, %eax, %edi
	leal (%rdx,%rdi), %eax
	decl %eax
	shrxl %r10d, %eax, %esi
	xorl %eax, %eax
	movl $0, %ebx
	movl $0, %r11d
	movl %esi, -12(%rsp)
	testl %esi, %esi
	je .LBB99_9
	movl -12(%rsp), %r14d
	xorl %r11d, %r11d
	xorl %r15d, %r15d
	xorl %r12d, %r12d
	xorl %ebx, %ebx
	.p2align 4
.LBB99_8:
	movq 8(%r8,%rcx), %r13
	movq 576(%r13,%r15), %r13
	movq 8(%r8,%rcx), %rbp
	movq 640(%rbp,%r15), %rbp
	shlxl %r10d, %r12d, %r9d
	movl %edx, %esi
	subl %r9d, %esi
	cmpl %esi, %edi
	cmovbl %edi, %esi
	andnq %r13, %rbp, %r9
	bzhiq %rsi, %r9, %r9
	popcntq %r9, %r9
	addl %r9d, %r11d
	bzhiq %rsi, %rbp, %rsi
	popcntq %rsi, %rsi
	addl %esi, %ebx
	incq %r12
	subq $-128, %r15
	cmpq %r12, %r14
	jne .LBB99_8
.LBB99_9:
	movq -8(%rsp), %rcx
	movl %edx, (%rcx)
	movl %r11d, 4(%rcx)
	movl %ebx, 8(%rcx)
	movl %edi, 12(%rcx)
	movl -12(%rsp), %edx
	movl %edx, 16(%rcx)
.LBB99_10:
	popq %rbx
	popq %r12
	popq %r13
	popq %r14
	popq %r15
	popq %rbp
.LBB99_11:
	retq
.Lfunc_end99:
	.size tags_library_pool_show, .Lfunc_end99-tags_library_pool_show
	.section .text.tags_library_post,"ax",@progbits
	.globl tags_library_post
	.p2align 4
	.type tags_library_post,@function
tags_library_post:
	movl $-12, %eax
	cmpq $1, (%rdi)
	jne .LBB100_5
	movl %esi, %ecx
	movq 8(%rdi), %rsi
	movzbl (%rsi), %edi
	cmpl $2, %edi
	je .LBB100_6
	cmpl $1, %edi
	je .LBB100_5
	pushq %rax
	movq 8(%rsi), %rdi
	addq $8, %rdi
	addq $16, %rsi
	movl %ecx, %edx
	callq tag_pool.pool.Pool.post_noted_i64_core.clone.U64Clone
	movl %eax, %ecx
	xorl %eax, %eax
	cmpb $1, %cl
	leaq 8(%rsp), %rsp
	jne .LBB100_5
	movzbl %dl, %eax
	leaq .Lswitch.table.tags_library_wait_on_reserved.286(%rip), %rcx
	movl (%rcx,%rax,4), %eax
.LBB100_5:
	retq
.LBB100_6:
	addq $8, %rsi
	movq %rsi, %rdi
	movl %ecx, %esi
	jmp tag_c.values.CachedMemberSlotCalls.post
.Lfunc_end100:
	.size tags_library_post, .Lfunc_end100-tags_library_post
	.section .text.tags_library_post_quietly,"ax",@progbits
	.globl tags_library_post_quietly
	.p2align 4
	.type tags_library_post_quietly,@function
tags_library_post_quietly:
	movl $-12, %eax
	cmpq $1, (%rdi)
	jne .LBB101_5
	movl %esi, %edx
	movq 8(%rdi), %rsi
	movzbl (%rsi), %ecx
	cmpl $2, %ecx
	je .LBB101_6
	cmpl $1, %ecx
	je .LBB101_5
	pushq %rax
	movq 8(%rsi), %rdi
	addq $8, %rdi
	addq $16, %rsi
	callq tag_pool.pool.Pool.post_noted_i64_core.clone.U64Clone
	movl %eax, %ecx
	xorl %eax, %eax
	cmpb $1, %cl
	leaq 8(%rsp), %rsp
	jne .LBB101_5
	movzbl %dl, %eax
	leaq .Lswitch.table.tags_library_wait_on_reserved.286(%rip), %rcx
	movl (%rcx,%rax,4), %eax
.LBB101_5:
	retq
.LBB101_6:
	addq $8, %rsi
	movq %rsi, %rdi
	movl %edx, %esi
	jmp tag_c.values.CachedMemberSlotCalls.post_quietly
.Lfunc_end101:
	.size tags_library_post_quietly, .Lfunc_end101-tags_library_post_quietly
	.section .text.tags_library_read,"ax",@progbits
	.globl tags_library_read
	.p2align 4
	.type tags_library_read,@function
tags_library_read:
	movl $-12, %eax
	cmpq $1, (%rdi)
	jne .LBB102_11
	movq 8(%rdi), %rdi
	movzbl (%rdi), %ecx
	cmpl $2, %ecx
	je .LBB102_7
	cmpl $1, %ecx
	je .LBB102_11
	movq 8(%rdi), %rcx
	movl $-1, %eax
	cmpl %esi, 236(%rcx)
	jbe .LBB102_11
	movl %esi, %eax
	subl 232(%rcx), %eax
	jae .LBB102_8
	movzbl 44(%rdi), %eax
	shrxl %eax, %esi, %r8d
	movq 64(%rdi), %r9
	movq (%r9,%r8,8), %r8
	bzhil %eax, %esi, %eax
	btq %rax, %r8
	jae .LBB102_13
	movl 48(%rdi), %eax
	movl %esi, %esi
	leaq (%rax,%rsi,8), %rdi
	movq 8(%rcx), %rax
	movq (%rax,%rdi,8), %rax
	movq 8(%rcx), %r8
	movq 16(%rcx), %rax
	movq (%rax,%rsi,8), %rax
	movq (%r8,%rdi,8), %rcx
	jmp .LBB102_10
.LBB102_7:
	addq $8, %rdi
	jmp tag_c.values.CachedMemberSlotCalls.read
.LBB102_8:
	movzbl 252(%rdi), %esi
	shrxl %esi, %eax, %r8d
	movq 272(%rdi), %r9
	movq (%r9,%r8,8), %r8
	bzhil %esi, %eax, %esi
	btq %rsi, %r8
	jae .LBB102_13
	movl 256(%rdi), %esi
	movl %eax, %eax
	leaq (%rsi,%rax,8), %rsi
	movq 120(%rcx), %rdi
	movq (%rdi,%rsi,8), %rdi
	movq 120(%rcx), %rdi
	movq 128(%rcx), %rcx
	movq (%rcx,%rax,8), %rax
	movq (%rdi,%rsi,8), %rcx
.LBB102_10:
	movq %rax, (%rdx)
	xorl %eax, %eax
.LBB102_11:
	retq
.LBB102_13:
	movl $-3, %eax
	retq
.Lfunc_end102:
	.size tags_library_read, .Lfunc_end102-tags_library_read
	.section .text.tags_library_read_clear,"ax",@progbits
	.globl tags_library_read_clear
	.p2align 4
	.type tags_library_read_clear,@function
tags_library_read_clear:
	movl $-12, %eax
	cmpq $1, (%rdi)
	jne .LBB103_14
	movq 8(%rdi), %rdi
	movzbl (%rdi), %r8d
	cmpl $2, %r8d
	je .LBB103_7
	cmpl $1, %r8d
	je .LBB103_14
	movq 8(%rdi), %r8
	movl $-1, %eax
	cmpl %esi, 236(%r8)
	jbe .LBB103_14
	movl %esi, %eax
	subl 232(%r8), %eax
	jae .LBB103_8
	movzbl 44(%rdi), %eax
	shrxl %eax, %esi, %r9d
	movq 64(%rdi), %r10
	movq (%r10,%r9,8), %r9
	bzhil %eax, %esi, %eax
	btq %rax, %r9
	jae .LBB103_13
	movl 48(%rdi), %eax
	movl %esi, %r9d
	leaq (%rax,%r9,8), %r10
	movq 8(%r8), %rax
	movq (%rax,%r10,8), %rax
	movq 8(%r8), %r11
	movq 16(%r8), %rax
	movq (%rax,%r9,8), %rax
	movq (%r11,%r10,8), %r8
	jmp .LBB103_10
.LBB103_7:
	addq $8, %rdi
	jmp tag_c.pairs.CachedMemberPairCalls.read_clear
.LBB103_8:
	movzbl 252(%rdi), %r9d
	shrxl %r9d, %eax, %r10d
	movq 272(%rdi), %r11
	movq (%r11,%r10,8), %r10
	bzhil %r9d, %eax, %r9d
	btq %r9, %r10
	jae .LBB103_13
	movl 256(%rdi), %r9d
	movl %eax, %eax
	leaq (%r9,%rax,8), %r9
	movq 120(%r8), %r10
	movq (%r10,%r9,8), %r10
	movq 120(%r8), %r10
	movq 128(%r8), %r8
	movq (%r8,%rax,8), %rax
	movq (%r10,%r9,8), %r8
.LBB103_10:
	movq %rax, (%rdx)
	movq 8(%rdi), %rdx
	movl %esi, %eax
	subl 232(%rdx), %eax
	jae .LBB103_15
	movq 8(%rdx), %rax
	movzbl 44(%rdi), %edx
	shrxl %edx, %esi, %r8d
	bzhil %edx, %esi, %edx
	movl $1, %r9d
	shlxq %rdx, %r9, %rdx
	movq %r8, %r9
	shlq $7, %r9
	lock  addq %rdx, 640(%rax,%r9)
	movq 64(%rdi), %rax
	subq %rdx, (%rax,%r8,8)
	incq 96(%rdi)
	cmpb $0, 28(%rdi)
	jne .LBB103_17
	movl %esi, 24(%rdi)
	jmp .LBB103_17
.LBB103_13:
	movl $-3, %eax
.LBB103_14:
	retq
.LBB103_15:
	movq 120(%rdx), %rdx
	movzbl 252(%rdi), %r8d
	shrxl %r8d, %eax, %r9d
	bzhil %r8d, %eax, %r8d
	movl $1, %r10d
	shlxq %r8, %r10, %r8
	movq %r9, %r10
	shlq $7, %r10
	lock  addq %r8, 640(%rdx,%r10)
	movq 272(%rdi), %rdx
	subq %r8, (%rdx,%r9,8)
	incq 304(%rdi)
	cmpb $0, 236(%rdi)
	jne .LBB103_17
	movl %eax, 232(%rdi)
.LBB103_17:
	movq 8(%rdi), %rax
	cmpl 232(%rax), %esi
	jae .LBB103_20
	movq 8(%rax), %rax
	movq 8(%rax), %rax
	testq %rax, %rax
	je .LBB103_23
	movq 8(%rdi), %rdi
	movl $1, %esi
	movl $1, %edx
	jmp tag_c.telling.MemberTellingCalls.tell
.LBB103_20:
	movq 120(%rax), %rax
	movq 8(%rax), %rax
	testq %rax, %rax
	je .LBB103_23
	movq 8(%rdi), %rdi
	xorl %esi, %esi
	movl $1, %edx
	jmp tag_c.telling.MemberTellingCalls.tell
.LBB103_23:
	xorl %eax, %eax
	retq
.Lfunc_end103:
	.size tags_library_read_clear, .Lfunc_end103-tags_library_read_clear
	.section .text.tags_library_see_to,"ax",@progbits
	.globl tags_library_see_to
	.p2align 4
	.type tags_library_see_to,@function
tags_library_see_to:
	movl $-12, %eax
	cmpq $1, (%rdi)
	jne .LBB104_12
	pushq %rbx
	movq 8(%rdi), %rdi
	movzbl (%rdi), %ecx
	cmpl $2, %ecx
	je .LBB104_7
	cmpl $1, %ecx
	je .LBB104_11
	movq 8(%rdi), %rdi
	movq 120(%rdi), %rax
	movq 8(%rax), %rcx
	xorl %eax, %eax
	testq %rcx, %rcx
	je .LBB104_4
	addq $120, %rdi
	movq %rdx, %rbx
	movq %rcx, %rdx
	callq tag_bell.telling.tell_each_i64
	movq %rax, %rsi
	xorl %eax, %eax
	movq %rdx, %rcx
	movq %rbx, %rdx
	jmp .LBB104_6
.LBB104_7:
	movq 8(%rdi), %rcx
	movq 120(%rcx), %rax
	movq 8(%rax), %r8
	xorl %eax, %eax
	testq %r8, %r8
	je .LBB104_8
	addq $8, %rcx
	addq $16, %rdi
	movl %esi, %eax
	movq %rcx, %rsi
	movq %rdx, %rbx
	movl %eax, %edx
	callq tag_cache.cache.Cache.give_back_and_tell_i64_core.clone.U64Clone
	movq %rax, %rcx
	xorl %eax, %eax
	movq %rdx, %rsi
	movq %rbx, %rdx
	jmp .LBB104_10
.LBB104_8:
	xorl %ecx, %ecx
	xorl %esi, %esi
.LBB104_10:
	movq %rcx, (%rdx)
	movq %rsi, 8(%rdx)
	jmp .LBB104_11
.LBB104_4:
	xorl %ecx, %ecx
	xorl %esi, %esi
.LBB104_6:
	movq %rsi, (%rdx)
	movq %rcx, 8(%rdx)
.LBB104_11:
	popq %rbx
.LBB104_12:
	retq
.Lfunc_end104:
	.size tags_library_see_to, .Lfunc_end104-tags_library_see_to
	.section .text.tags_library_see_to_reserved,"ax",@progbits
	.globl tags_library_see_to_reserved
	.p2align 4
	.type tags_library_see_to_reserved,@function
tags_library_see_to_reserved:
	movl $-12, %eax
	cmpq $1, (%rdi)
	jne .LBB105_12
	pushq %rbx
	movq 8(%rdi), %rcx
	movzbl (%rcx), %edi
	cmpl $2, %edi
	je .LBB105_7
	cmpl $1, %edi
	je .LBB105_11
	movq 8(%rcx), %rdi
	movq 8(%rdi), %rax
	movq 8(%rax), %rcx
	xorl %eax, %eax
	testq %rcx, %rcx
	je .LBB105_4
	addq $8, %rdi
	movq %rdx, %rbx
	movq %rcx, %rdx
	callq tag_bell.telling.tell_each_i64
	movq %rax, %rsi
	xorl %eax, %eax
	movq %rdx, %rcx
	movq %rbx, %rdx
	jmp .LBB105_6
.LBB105_7:
	movq 8(%rcx), %rdi
	movq 8(%rdi), %rax
	movq 8(%rax), %rcx
	xorl %eax, %eax
	testq %rcx, %rcx
	je .LBB105_8
	addq $8, %rdi
	movq %rdx, %rbx
	movq %rcx, %rdx
	callq tag_bell.telling.tell_each_i64
	movq %rax, %rcx
	xorl %eax, %eax
	movq %rdx, %rsi
	movq %rbx, %rdx
	jmp .LBB105_10
.LBB105_8:
	xorl %ecx, %ecx
	xorl %esi, %esi
.LBB105_10:
	movq %rcx, (%rdx)
	movq %rsi, 8(%rdx)
	jmp .LBB105_11
.LBB105_4:
	xorl %ecx, %ecx
	xorl %esi, %esi
.LBB105_6:
	movq %rsi, (%rdx)
	movq %rcx, 8(%rdx)
.LBB105_11:
	popq %rbx
.LBB105_12:
	retq
.Lfunc_end105:
	.size tags_library_see_to_reserved, .Lfunc_end105-tags_library_see_to_reserved
	.section .text.tags_library_show,"ax",@progbits
	.globl tags_library_show
	.p2align 4
	.type tags_library_show,@function
tags_library_show:
	pushq %rbp
	pushq %r15
	pushq %r14
	pushq %r13
	pushq %r12
	pushq %rbx
	movl $-12, %eax
	cmpq $1, (%rdi)
	jne .LBB106_11
	movq 8(%rdi), %rdi
	movzbl (%rdi), %ecx
	cmpl $2, %ecx
	je .LBB106_12
	cmpl $1, %ecx
	je .LBB106_11
	testl %esi, %esi
	je .LBB106_4
	movl $-16, %eax
	cmpl $1, %esi
	jne .LBB106_11
	movq %rdx, -8(%rsp)
	xorl %ecx, %ecx
	jmp .LBB106_7
.LBB106_12:
	addq $8, %rdi
	popq %rbx
	popq %r12
	popq %r13
	popq %r14
	popq %r15
	popq %rbp
	jmp tag_c.looks.CachedMemberLookCalls.show
.LBB106_4:
	movq %rdx, -8(%rsp)
	movl $112, %ecx
.LBB106_7:
	movq 8(%rdi), %r8
	movl 72(%r8,%rcx), %edx
	movl 76(%r8,%rcx), %r10d
	movl $1, %eax
	shlxl %r10d, %eax, %edi
	leal (%rdx,%rdi), %eax
	decl %eax
	shrxl %r10d, %eax, %esi
	xorl %eax, %eax
	movl $0, %ebx
	movl $0, %r11d
	movl %esi, -12(%rsp)
	testl %esi, %esi
	je .LBB106_10
	movl -12(%rsp), %r14d
	xorl %r11d, %r11d
	xorl %r15d, %r15d
	xorl %r12d, %r12d
	xorl %ebx, %ebx
	.p2align 4
.LBB106_9:
	movq 8(%r8,%rcx), %r13
	movq 576(%r13,%r15), %r13
	movq 8(%r8,%rcx), %rbp
	movq 640(%rbp,%r15), %rbp
	shlxl %r10d, %r12d, %r9d
	movl %edx, %esi
	subl %r9d, %esi
	cmpl %esi, %edi
	cmovbl %edi, %esi
	andnq %r13, %rbp, %r9
	bzhiq %rsi, %r9, %r9
	popcntq %r9, %r9
	addl %r9d, %r11d
	bzhiq %rsi, %rbp, %rsi
	popcntq %rsi, %rsi
	addl %esi, %ebx
	incq %r12
	subq $-128, %r15
	cmpq %r12, %r14
	jne .LBB106_9
.LBB106_10:
	movq -8(%rsp), %rcx
	movl %edx, (%rcx)
	movl %r11d, 4(%rcx)
	movl %ebx, 8(%rcx)
	movl %edi, 12(%rcx)
	movl -12(%rsp), %edx
	movl %edx, 16(%rcx)
.LBB106_11:
	popq %rbx
	popq %r12
	popq %r13
	popq %r14
	popq %r15
	popq %rbp
	retq
.Lfunc_end106:
	.size tags_library_show, .Lfunc_end106-tags_library_show
	.section .text.tags_library_take,"ax",@progbits
	.globl tags_library_take
	.p2align 4
	.type tags_library_take,@function
tags_library_take:
	movl $-12, %eax
	cmpq $1, (%rdi)
	jne .LBB107_11
	movq 8(%rdi), %rdi
	movzbl (%rdi), %ecx
	cmpl $2, %ecx
	je .LBB107_7
	cmpl $1, %ecx
	je .LBB107_11
	movq 8(%rdi), %rcx
	movl $-1, %eax
	cmpl %esi, 236(%rcx)
	jbe .LBB107_11
	movl %esi, %edx
	subl 232(%rcx), %edx
	jae .LBB107_8
	movl 44(%rdi), %edx
	movl 48(%rdi), %eax
	movl %esi, %r8d
	shlq $6, %r8
	addq 8(%rcx), %r8
	xorl %ecx, %ecx
	xchgq %rcx, (%r8,%rax,8)
	xorl %eax, %eax
	testq %rcx, %rcx
	je .LBB107_13
	bzhil %edx, %esi, %ecx
	shrxl %edx, %esi, %edx
	movl $1, %esi
	shlxq %rcx, %rsi, %rcx
	movq 64(%rdi), %rsi
	jmp .LBB107_10
.LBB107_7:
	addq $8, %rdi
	jmp tag_c.values.CachedMemberSlotCalls.take
.LBB107_8:
	movl 252(%rdi), %esi
	movl 256(%rdi), %eax
	movq %rdx, %r8
	shlq $6, %r8
	addq 120(%rcx), %r8
	xorl %ecx, %ecx
	xchgq %rcx, (%r8,%rax,8)
	xorl %eax, %eax
	testq %rcx, %rcx
	je .LBB107_13
	bzhil %esi, %edx, %ecx
	shrxl %esi, %edx, %edx
	movl $1, %esi
	shlxq %rcx, %rsi, %rcx
	movq 272(%rdi), %rsi
.LBB107_10:
	orq %rcx, (%rsi,%rdx,8)
.LBB107_11:
	retq
.LBB107_13:
	movl $-4, %eax
	retq
.Lfunc_end107:
	.size tags_library_take, .Lfunc_end107-tags_library_take
	.section .text.tags_library_write,"ax",@progbits
	.globl tags_library_write
	.p2align 4
	.type tags_library_write,@function
tags_library_write:
	movl $-12, %eax
	cmpq $1, (%rdi)
	jne .LBB108_11
	movq 8(%rdi), %rdi
	movzbl (%rdi), %r8d
	cmpl $2, %r8d
	je .LBB108_7
	cmpl $1, %r8d
	je .LBB108_11
	movq 8(%rdi), %r8
	movl $-1, %eax
	cmpl %esi, 236(%r8)
	jbe .LBB108_11
	movl %esi, %eax
	subl 232(%r8), %eax
	jae .LBB108_8
	movzbl 44(%rdi), %eax
	shrxl %eax, %esi, %r9d
	movq 64(%rdi), %r10
	movq (%r10,%r9,8), %r9
	bzhil %eax, %esi, %eax
	btq %rax, %r9
	jae .LBB108_13
	movl 48(%rdi), %eax
	movl %esi, %esi
	leaq (%rax,%rsi,8), %rdi
	movq 8(%r8), %rax
	movq (%rax,%rdi,8), %rax
	movq 16(%r8), %r9
	movq (%r9,%rsi,8), %rax
	movq %rdx, (%r9,%rsi,8)
	movq 8(%r8), %rdx
	movq (%rdx,%rdi,8), %rdx
	jmp .LBB108_10
.LBB108_7:
	addq $8, %rdi
	jmp tag_c.values.CachedMemberSlotCalls.write
.LBB108_8:
	movzbl 252(%rdi), %esi
	shrxl %esi, %eax, %r9d
	movq 272(%rdi), %r10
	movq (%r10,%r9,8), %r9
	bzhil %esi, %eax, %esi
	btq %rsi, %r9
	jae .LBB108_13
	movl 256(%rdi), %esi
	movl %eax, %edi
	leaq (%rsi,%rdi,8), %rsi
	movq 120(%r8), %rax
	movq (%rax,%rsi,8), %rax
	movq 128(%r8), %r9
	movq (%r9,%rdi,8), %rax
	movq %rdx, (%r9,%rdi,8)
	movq 120(%r8), %rdx
	movq (%rdx,%rsi,8), %rdx
.LBB108_10:
	movq %rax, (%rcx)
	xorl %eax, %eax
.LBB108_11:
	retq
.LBB108_13:
	movl $-3, %eax
	retq
.Lfunc_end108:
	.size tags_library_write, .Lfunc_end108-tags_library_write
	.section .text.tags_library_leave,"ax",@progbits
	.globl tags_library_leave
	.p2align 4
	.type tags_library_leave,@function
tags_library_leave:
	pushq %r14
	pushq %rbx
	subq $488, %rsp
	movq (%rdi), %rcx
	movq 8(%rdi), %rbx
	vxorps %xmm0, %xmm0, %xmm0
	vmovups %xmm0, (%rdi)
	movl $-12, %eax
	cmpq $1, %rcx
	jne .LBB109_4
	movzbl (%rbx), %r14d
	cmpq $1, %r14
	jne .LBB109_3
	movq $1, (%rdi)
	movq %rbx, 8(%rdi)
.LBB109_4:
	addq $488, %rsp
	popq %rbx
	popq %r14
	retq
.LBB109_3:
	leaq 8(%rbx), %rsi
	leaq 16(%rsp), %rdi
	movl $472, %edx
	callq memcpy@PLT
	movq %rbx, %rdi
	callq tags_library_dealloc@PLT
	movq %r14, 8(%rsp)
	leaq 8(%rsp), %rdi
	callq tag_c.object.Object.leave
	movzbl %al, %eax
	leaq .Lswitch.table.tags_library_leave(%rip), %rcx
	movl (%rcx,%rax,4), %eax
	addq $488, %rsp
	popq %rbx
	popq %r14
	retq
.Lfunc_end109:
	.size tags_library_leave, .Lfunc_end109-tags_library_leave
	.section .rodata.cst32,"aM",@progbits,32
	.p2align 5, 0x0
.LCPI110_0:
	.zero 32,15
.LCPI110_1:
	.byte 0
	.byte 1
	.byte 1
	.byte 2
	.byte 1
	.byte 2
	.byte 2
	.byte 3
	.byte 1
	.byte 2
	.byte 2
	.byte 3
	.byte 2
	.byte 3
	.byte 3
	.byte 4
	.byte 0
	.byte 1
	.byte 1
	.byte 2
	.byte 1
	.byte 2
	.byte 2
	.byte 3
	.byte 1
	.byte 2
	.byte 2
	.byte 3
	.byte 2
	.byte 3
	.byte 3
	.byte 4
	.section .rodata,"a",@progbits
.LCPI110_2:
	.byte 15
	.section .text.tags_library_close,"ax",@progbits
	.globl tags_library_close
	.p2align 4
	.type tags_library_close,@function
tags_library_close:
	pushq %rbp
	pushq %r15
	pushq %r14
	pushq %r13
	pushq %r12
	pushq %rbx
	subq $1192, %rsp
	movq %rdi, %rcx
	movq (%rdi), %rdx
	movq 8(%rdi), %rdi
	vpxor %xmm0, %xmm0, %xmm0
	vmovdqu %xmm0, (%rcx)
	movl $-12, %eax
	cmpq $1, %rdx
	jne .LBB110_67
	cmpb $1, (%rdi)
	jne .LBB110_11
	movq 8(%rdi), %rax
	movq (%rax), %rax
	cmpq $1, %rax
	jne .LBB110_12
	movq %rsi, 592(%rsp)
	movzbl (%rdi), %r15d
	movq 8(%rdi), %r14
	movq 16(%rdi), %r13
	movq 24(%rdi), %rbx
	movq 32(%rdi), %rbp
	movq 64(%rdi), %rax
	movq %rax, 80(%rsp)
	movq 80(%rdi), %rax
	movq %rax, 176(%rsp)
	movq 104(%rdi), %rax
	movq %rax, 512(%rsp)
	movq 120(%rdi), %r12
	movq 272(%rdi), %rax
	movq %rax, 528(%rsp)
	movq 288(%rdi), %rax
	movq %rax, 24(%rsp)
	movq 312(%rdi), %rax
	movq %rax, 48(%rsp)
	movq 328(%rdi), %rax
	movq %rax, 16(%rsp)
	callq tags_library_dealloc@PLT
	vpxor %xmm0, %xmm0, %xmm0
	cmpl $1, %r15d
	je .LBB110_13
	testl %r15d, %r15d
	jne .LBB110_22
	vmovdqu %ymm0, 464(%rsp)
	vmovdqu %ymm0, 432(%rsp)
	vmovdqu %ymm0, 400(%rsp)
	vmovdqu %ymm0, 368(%rsp)
	vmovdqu %ymm0, 336(%rsp)
	vmovdqu %ymm0, 304(%rsp)
	vmovdqu %ymm0, 272(%rsp)
	vmovdqu %ymm0, 240(%rsp)
	vmovdqu %ymm0, 208(%rsp)
	lock  decq (%r14)
	jne .LBB110_7
	leaq 8(%r14), %rsi
	leaq 208(%rsp), %rbx
	movl $288, %edx
	movq %rbx, %rdi
	vzeroupper
	callq memcpy@PLT
	movq %r14, %rdi
	callq tags_library_dealloc@PLT
	movq %rbx, %rdi
	callq tag_c.pool_state.PoolState.drop
.LBB110_7:
	cmpq $0, 176(%rsp)
	je .LBB110_9
	movq 80(%rsp), %rdi
	vzeroupper
	callq tags_library_dealloc@PLT
.LBB110_9:
	movl $-20, %eax
	cmpq $0, 24(%rsp)
	je .LBB110_67
	movq 528(%rsp), %rdi
	jmp .LBB110_65
.LBB110_11:
	movq $1, (%rcx)
	movq %rdi, 8(%rcx)
	jmp .LBB110_67
.LBB110_12:
	movq $1, (%rcx)
	movq %rdi, 8(%rcx)
	movl $-15, %eax
	jmp .LBB110_67
.LBB110_13:
	vmovdqu %ymm0, 872(%rsp)
	vmovdqu %ymm0, 848(%rsp)
	vmovdqu %ymm0, 816(%rsp)
	vmovdqu %ymm0, 784(%rsp)
	vmovdqu %ymm0, 752(%rsp)
	vmovdqu %ymm0, 720(%rsp)
	vmovdqu %ymm0, 688(%rsp)
	vmovdqu %ymm0, 656(%rsp)
	vmovdqu %ymm0, 624(%rsp)
	vmovdqu %ymm0, 456(%rsp)
	vmovdqu %ymm0, 432(%rsp)
	vmovdqu %ymm0, 400(%rsp)
	vmovdqu %ymm0, 368(%rsp)
	vmovdqu %ymm0, 336(%rsp)
	vmovdqu %ymm0, 304(%rsp)
	vmovdqu %ymm0, 272(%rsp)
	vmovdqu %ymm0, 240(%rsp)
	vmovdqu %ymm0, 208(%rsp)
	movq (%r14), %rax
	cmpq $1, %rax
	jne .LBB110_28
	movq 8(%r14), %r12
	leaq 16(%r14), %rsi
	leaq 208(%rsp), %r15
	movl $280, %edx
	movq %r15, %rdi
	vzeroupper
	callq memcpy@PLT
	movq %r14, %rdi
	callq tags_library_dealloc@PLT
	leaq 624(%rsp), %r14
	movl $280, %edx
	movq %r14, %rdi
	movq %r15, %rsi
	callq memcpy@PLT
	vpxor %xmm0, %xmm0, %xmm0
	vmovdqu %ymm0, 208(%rsp)
	vmovdqu %ymm0, 240(%rsp)
	vmovdqu %ymm0, 272(%rsp)
	vmovdqu %ymm0, 304(%rsp)
	vmovdqu %ymm0, 336(%rsp)
	vmovdqu %ymm0, 368(%rsp)
	vmovdqu %ymm0, 400(%rsp)
	vmovdqu %ymm0, 432(%rsp)
	vmovdqu %ymm0, 464(%rsp)
	movq $0, 496(%rsp)
	movq %r12, 904(%rsp)
	leaq 912(%rsp), %rdi
	movl $280, %edx
	movq %r14, %rsi
	vzeroupper
	callq memcpy@PLT
	movq %r13, 600(%rsp)
	movq %rbx, 608(%rsp)
	movq %rbp, 616(%rsp)
	leaq 208(%rsp), %rdi
	leaq 904(%rsp), %rsi
	leaq 600(%rsp), %rdx
	callq tag_c.pool_state.PoolState.part
	movq 208(%rsp), %rax
	movq %rax, 24(%rsp)
	movq 216(%rsp), %rax
	movq %rax, 576(%rsp)
	movq 232(%rsp), %rax
	movq %rax, 584(%rsp)
	movq 240(%rsp), %rax
	movq %rax, 144(%rsp)
	movq 256(%rsp), %rax
	movq %rax, 152(%rsp)
	movq 272(%rsp), %rax
	movq %rax, 72(%rsp)
	movq 296(%rsp), %rax
	movq %rax, 104(%rsp)
	movq 304(%rsp), %rax
	movq %rax, 40(%rsp)
	movq 312(%rsp), %rax
	movq %rax, 160(%rsp)
	movq 320(%rsp), %rax
	movq %rax, 16(%rsp)
	movq 328(%rsp), %rbx
	movq 344(%rsp), %rax
	movq %rax, 8(%rsp)
	movq 352(%rsp), %rax
	movq %rax, 128(%rsp)
	movq 368(%rsp), %rax
	movq %rax, 136(%rsp)
	movq 384(%rsp), %rax
	movq %rax, 64(%rsp)
	movl 392(%rsp), %eax
	movl %eax, 528(%rsp)
	movq 408(%rsp), %rax
	movq %rax, 112(%rsp)
	movq 416(%rsp), %rax
	movq %rax, 32(%rsp)
	movq 424(%rsp), %rax
	movq %rax, 168(%rsp)
	movq 456(%rsp), %rax
	movq %rax, 56(%rsp)
	movq 464(%rsp), %rbp
	movq 472(%rsp), %rax
	movq %rax, 120(%rsp)
	movq 480(%rsp), %rax
	movq %rax, 176(%rsp)
	movq 488(%rsp), %r12
	movq 496(%rsp), %rax
	movq %rax, 48(%rsp)
	testq %r12, %r12
	je .LBB110_37
	movq 176(%rsp), %rax
	leaq 288(%rax), %r13
	jmp .LBB110_17
	.p2align 4
.LBB110_16:
	addq $440, %r13
	decq %r12
	je .LBB110_37
.LBB110_17:
	cmpb $0, -280(%r13)
	je .LBB110_16
	movq -16(%r13), %r15
	movq (%r13), %r14
	cmpq $0, -208(%r13)
	je .LBB110_20
	movq -224(%r13), %rdi
	callq tags_library_dealloc@PLT
.LBB110_20:
	testq %r14, %r14
	je .LBB110_16
	movq %r15, %rdi
	callq tags_library_dealloc@PLT
	jmp .LBB110_16
.LBB110_22:
	vmovdqu %ymm0, 464(%rsp)
	vmovdqu %ymm0, 432(%rsp)
	vmovdqu %ymm0, 400(%rsp)
	vmovdqu %ymm0, 368(%rsp)
	vmovdqu %ymm0, 336(%rsp)
	vmovdqu %ymm0, 304(%rsp)
	vmovdqu %ymm0, 272(%rsp)
	vmovdqu %ymm0, 240(%rsp)
	vmovdqu %ymm0, 208(%rsp)
	lock  decq (%r14)
	jne .LBB110_24
	leaq 8(%r14), %rsi
	leaq 208(%rsp), %rbx
	movl $288, %edx
	movq %rbx, %rdi
	vzeroupper
	callq memcpy@PLT
	movq %r14, %rdi
	callq tags_library_dealloc@PLT
	movq %rbx, %rdi
	callq tag_c.pool_state.PoolState.drop
.LBB110_24:
	testq %r12, %r12
	je .LBB110_26
	movq 512(%rsp), %rdi
	vzeroupper
	callq tags_library_dealloc@PLT
.LBB110_26:
	movl $-20, %eax
	cmpq $0, 16(%rsp)
	je .LBB110_67
	movq 48(%rsp), %rdi
	jmp .LBB110_65
.LBB110_28:
	vmovdqu %ymm0, 464(%rsp)
	vmovdqu %ymm0, 432(%rsp)
	vmovdqu %ymm0, 400(%rsp)
	vmovdqu %ymm0, 368(%rsp)
	vmovdqu %ymm0, 336(%rsp)
	vmovdqu %ymm0, 304(%rsp)
	vmovdqu %ymm0, 272(%rsp)
	vmovdqu %ymm0, 240(%rsp)
	vmovdqu %ymm0, 208(%rsp)
	lock  decq (%r14)
	jne .LBB110_30
	leaq 8(%r14), %rsi
	leaq 208(%rsp), %r15
	movl $288, %edx
	movq %r15, %rdi
	vzeroupper
	callq memcpy@PLT
	movq %r14, %rdi
	callq tags_library_dealloc@PLT
	movq %r15, %rdi
	callq tag_c.pool_state.PoolState.drop
.LBB110_30:
	testq %rbx, %rbx
	je .LBB110_50
	leaq 272(%r13), %r15
	jmp .LBB110_33
	.p2align 4
.LBB110_32:
	addq $424, %r15
	decq %rbx
	je .LBB110_50
.LBB110_33:
	movq -16(%r15), %r14
	movq (%r15), %r12
	cmpq $0, -208(%r15)
	je .LBB110_35
	movq -224(%r15), %rdi
	vzeroupper
	callq tags_library_dealloc@PLT
.LBB110_35:
	testq %r12, %r12
	je .LBB110_32
	movq %r14, %rdi
	vzeroupper
	callq tags_library_dealloc@PLT
	jmp .LBB110_32
.LBB110_37:
	cmpq $0, 48(%rsp)
	je .LBB110_39
	movq 176(%rsp), %rdi
	callq tags_library_dealloc@PLT
.LBB110_39:
	movl 528(%rsp), %edi
	testl %edi, %edi
	je .LBB110_46
	testq %rbp, %rbp
	je .LBB110_52
	movq 56(%rsp), %rax
	addq $224, %rax
	xorl %ecx, %ecx
.LBB110_42:
	movq %rax, %rdx
	movq %rbp, %rsi
	.p2align 4
.LBB110_43:
	cmpl %ecx, (%rdx)
	je .LBB110_45
	addq $424, %rdx
	decq %rsi
	jne .LBB110_43
	jmp .LBB110_52
.LBB110_45:
	incl %ecx
	cmpl %edi, %ecx
	jne .LBB110_42
.LBB110_46:
	movq %rbx, 568(%rsp)
	testq %rbp, %rbp
	je .LBB110_78
	decq %rbp
	imulq $424, %rbp, %rdx
	movq 56(%rsp), %rsi
	movq 48(%rsi,%rdx), %rdi
	movq 56(%rsi,%rdx), %rcx
	movq 64(%rsi,%rdx), %rax
	movq 256(%rsi,%rdx), %r14
	movq 264(%rsi,%rdx), %r13
	movq 272(%rsi,%rdx), %r12
	vmovups 72(%rsi,%rdx), %xmm0
	vmovups %ymm0, 176(%rsp)
	vmovdqu 280(%rsi,%rdx), %xmm0
	vmovdqu %ymm0, 528(%rsp)
	movq 24(%rsp), %rdx
	movq (%rdx), %rdx
	testq %rcx, %rcx
	je .LBB110_68
	cmpq $4, %rcx
	jae .LBB110_69
	xorl %r15d, %r15d
	xorl %edx, %edx
	jmp .LBB110_79
.LBB110_50:
	movl $-20, %eax
	testq %rbp, %rbp
	je .LBB110_67
	movq %r13, %rdi
	jmp .LBB110_65
.LBB110_52:
	movq 144(%rsp), %rdi
	callq tags_library_dealloc@PLT
	movq 152(%rsp), %rdi
	callq tags_library_dealloc@PLT
	cmpq $0, 160(%rsp)
	je .LBB110_54
	movq 104(%rsp), %rdi
	callq tags_library_dealloc@PLT
.LBB110_54:
	movq 128(%rsp), %rdi
	callq tags_library_dealloc@PLT
	movq 136(%rsp), %rdi
	callq tags_library_dealloc@PLT
	cmpq $0, 168(%rsp)
	je .LBB110_56
	movq 112(%rsp), %rdi
	callq tags_library_dealloc@PLT
.LBB110_56:
	testq %rbp, %rbp
	je .LBB110_63
	movq 56(%rsp), %rax
	leaq 272(%rax), %r15
	jmp .LBB110_59
	.p2align 4
.LBB110_58:
	addq $424, %r15
	decq %rbp
	je .LBB110_63
.LBB110_59:
	movq -16(%r15), %r14
	movq (%r15), %r12
	cmpq $0, -208(%r15)
	je .LBB110_61
	movq -224(%r15), %rdi
	callq tags_library_dealloc@PLT
.LBB110_61:
	testq %r12, %r12
	je .LBB110_58
	movq %r14, %rdi
	callq tags_library_dealloc@PLT
	jmp .LBB110_58
.LBB110_63:
	cmpq $0, 120(%rsp)
	je .LBB110_66
	movq 56(%rsp), %rdi
.LBB110_65:
	vzeroupper
	callq tags_library_dealloc@PLT
.LBB110_66:
	movl $-20, %eax
.LBB110_67:
	addq $1192, %rsp
	popq %rbx
	popq %r12
	popq %r13
	popq %r14
	popq %r15
	popq %rbp
	vzeroupper
	retq
.LBB110_68:
	xorl %r15d, %r15d
	jmp .LBB110_81
.LBB110_69:
	cmpq $16, %rcx
	jae .LBB110_71
	xorl %edx, %edx
	xorl %r15d, %r15d
	jmp .LBB110_75
.LBB110_71:
	movq %rcx, %rdx
	andq $-16, %rdx
	vpxor %xmm0, %xmm0, %xmm0
	xorl %esi, %esi
	vpxor %xmm1, %xmm1, %xmm1
	vpxor %xmm2, %xmm2, %xmm2
	vpxor %xmm3, %xmm3, %xmm3
	vpxor %xmm4, %xmm4, %xmm4
.LBB110_72:
	vmovdqu (%rdi,%rsi,8), %ymm5
	vmovdqu 32(%rdi,%rsi,8), %ymm6
	vmovdqu 64(%rdi,%rsi,8), %ymm7
	vmovdqu 96(%rdi,%rsi,8), %ymm8
	vpbroadcastb .LCPI110_2(%rip), %ymm9
	vpand %ymm5, %ymm9, %ymm10
	vmovdqa .LCPI110_1(%rip), %ymm11
	vpshufb %ymm10, %ymm11, %ymm10
	vpsrlw $4, %ymm5, %ymm5
	vpand %ymm5, %ymm9, %ymm5
	vpshufb %ymm5, %ymm11, %ymm5
	vpaddb %ymm5, %ymm10, %ymm5
	vpsadbw %ymm0, %ymm5, %ymm5
	vpaddq %ymm1, %ymm5, %ymm1
	vpand %ymm6, %ymm9, %ymm5
	vpshufb %ymm5, %ymm11, %ymm5
	vpsrlw $4, %ymm6, %ymm6
	vpand %ymm6, %ymm9, %ymm6
	vpshufb %ymm6, %ymm11, %ymm6
	vpaddb %ymm5, %ymm6, %ymm5
	vpsadbw %ymm0, %ymm5, %ymm5
	vpaddq %ymm2, %ymm5, %ymm2
	vpand %ymm7, %ymm9, %ymm5
	vpshufb %ymm5, %ymm11, %ymm5
	vpsrlw $4, %ymm7, %ymm6
	vpand %ymm6, %ymm9, %ymm6
	vpshufb %ymm6, %ymm11, %ymm6
	vpaddb %ymm5, %ymm6, %ymm5
	vpsadbw %ymm0, %ymm5, %ymm5
	vpaddq %ymm3, %ymm5, %ymm3
	vpand %ymm9, %ymm8, %ymm5
	vpshufb %ymm5, %ymm11, %ymm5
	vpsrlw $4, %ymm8, %ymm6
	vpand %ymm6, %ymm9, %ymm6
	vpshufb %ymm6, %ymm11, %ymm6
	vpaddb %ymm5, %ymm6, %ymm5
	vpsadbw %ymm0, %ymm5, %ymm5
	vpaddq %ymm4, %ymm5, %ymm4
	addq $16, %rsi
	cmpq %rsi, %rdx
	jne .LBB110_72
	vpaddq %ymm1, %ymm2, %ymm0
	vpaddq %ymm0, %ymm3, %ymm0
	vpaddq %ymm0, %ymm4, %ymm0
	vextracti128 $1, %ymm0, %xmm1
	vpaddq %xmm1, %xmm0, %xmm0
	vpshufd $238, %xmm0, %xmm1
	vpaddq %xmm1, %xmm0, %xmm0
	vmovq %xmm0, %r15
	cmpq %rdx, %rcx
	je .LBB110_81
	testb $12, %cl
	je .LBB110_79
.LBB110_75:
	movq %rdx, %rsi
	movq %rcx, %rdx
	andq $-4, %rdx
	vmovq %r15, %xmm0
.LBB110_76:
	vmovdqu (%rdi,%rsi,8), %ymm1
	vpbroadcastb .LCPI110_2(%rip), %ymm2
	vpand %ymm2, %ymm1, %ymm3
	vmovdqa .LCPI110_1(%rip), %ymm4
	vpshufb %ymm3, %ymm4, %ymm3
	vpsrlw $4, %ymm1, %ymm1
	vpand %ymm2, %ymm1, %ymm1
	vpshufb %ymm1, %ymm4, %ymm1
	vpaddb %ymm3, %ymm1, %ymm1
	vpxor %xmm2, %xmm2, %xmm2
	vpsadbw %ymm2, %ymm1, %ymm1
	vpaddq %ymm0, %ymm1, %ymm0
	addq $4, %rsi
	cmpq %rsi, %rdx
	jne .LBB110_76
	vextracti128 $1, %ymm0, %xmm1
	vpaddq %xmm1, %xmm0, %xmm0
	vpshufd $238, %xmm0, %xmm1
	vpaddq %xmm1, %xmm0, %xmm0
	vmovq %xmm0, %r15
	jmp .LBB110_80
.LBB110_78:
	ud2
.LBB110_79:
	popcntq (%rdi,%rdx,8), %rsi
	addq %rsi, %r15
	incq %rdx
.LBB110_80:
	cmpq %rdx, %rcx
	jne .LBB110_79
.LBB110_81:
	testq %rax, %rax
	je .LBB110_83
	vzeroupper
	callq tags_library_dealloc@PLT
.LBB110_83:
	movq 16(%rsp), %rax
	movq (%rax), %rax
	testq %r13, %r13
	je .LBB110_86
	cmpq $4, %r13
	jae .LBB110_87
	xorl %ebx, %ebx
	xorl %eax, %eax
	jmp .LBB110_96
.LBB110_86:
	xorl %ebx, %ebx
	jmp .LBB110_98
.LBB110_87:
	cmpq $16, %r13
	jae .LBB110_89
	xorl %eax, %eax
	xorl %ebx, %ebx
	jmp .LBB110_93
.LBB110_89:
	movq %r13, %rax
	andq $-16, %rax
	vpxor %xmm0, %xmm0, %xmm0
	xorl %ecx, %ecx
	vpxor %xmm1, %xmm1, %xmm1
	vpxor %xmm2, %xmm2, %xmm2
	vpxor %xmm3, %xmm3, %xmm3
	vpxor %xmm4, %xmm4, %xmm4
.LBB110_90:
	vmovdqu (%r14,%rcx,8), %ymm5
	vmovdqu 32(%r14,%rcx,8), %ymm6
	vmovdqu 64(%r14,%rcx,8), %ymm7
	vmovdqu 96(%r14,%rcx,8), %ymm8
	vpbroadcastb .LCPI110_2(%rip), %ymm9
	vpand %ymm5, %ymm9, %ymm10
	vmovdqa .LCPI110_1(%rip), %ymm11
	vpshufb %ymm10, %ymm11, %ymm10
	vpsrlw $4, %ymm5, %ymm5
	vpand %ymm5, %ymm9, %ymm5
	vpshufb %ymm5, %ymm11, %ymm5
	vpaddb %ymm5, %ymm10, %ymm5
	vpsadbw %ymm0, %ymm5, %ymm5
	vpaddq %ymm1, %ymm5, %ymm1
	vpand %ymm6, %ymm9, %ymm5
	vpshufb %ymm5, %ymm11, %ymm5
	vpsrlw $4, %ymm6, %ymm6
	vpand %ymm6, %ymm9, %ymm6
	vpshufb %ymm6, %ymm11, %ymm6
	vpaddb %ymm5, %ymm6, %ymm5
	vpsadbw %ymm0, %ymm5, %ymm5
	vpaddq %ymm2, %ymm5, %ymm2
	vpand %ymm7, %ymm9, %ymm5
	vpshufb %ymm5, %ymm11, %ymm5
	vpsrlw $4, %ymm7, %ymm6
	vpand %ymm6, %ymm9, %ymm6
	vpshufb %ymm6, %ymm11, %ymm6
	vpaddb %ymm5, %ymm6, %ymm5
	vpsadbw %ymm0, %ymm5, %ymm5
	vpaddq %ymm3, %ymm5, %ymm3
	vpand %ymm9, %ymm8, %ymm5
	vpshufb %ymm5, %ymm11, %ymm5
	vpsrlw $4, %ymm8, %ymm6
	vpand %ymm6, %ymm9, %ymm6
	vpshufb %ymm6, %ymm11, %ymm6
	vpaddb %ymm5, %ymm6, %ymm5
	vpsadbw %ymm0, %ymm5, %ymm5
	vpaddq %ymm4, %ymm5, %ymm4
	addq $16, %rcx
	cmpq %rcx, %rax
	jne .LBB110_90
	vpaddq %ymm1, %ymm2, %ymm0
	vpaddq %ymm0, %ymm3, %ymm0
	vpaddq %ymm0, %ymm4, %ymm0
	vextracti128 $1, %ymm0, %xmm1
	vpaddq %xmm1, %xmm0, %xmm0
	vpshufd $238, %xmm0, %xmm1
	vpaddq %xmm1, %xmm0, %xmm0
	vmovq %xmm0, %rbx
	cmpq %rax, %r13
	je .LBB110_98
	testb $12, %r13b
	je .LBB110_96
.LBB110_93:
	movq %rax, %rcx
	movq %r13, %rax
	andq $-4, %rax
	vmovq %rbx, %xmm0
.LBB110_94:
	vmovdqu (%r14,%rcx,8), %ymm1
	vpbroadcastb .LCPI110_2(%rip), %ymm2
	vpand %ymm2, %ymm1, %ymm3
	vmovdqa .LCPI110_1(%rip), %ymm4
	vpshufb %ymm3, %ymm4, %ymm3
	vpsrlw $4, %ymm1, %ymm1
	vpand %ymm2, %ymm1, %ymm1
	vpshufb %ymm1, %ymm4, %ymm1
	vpaddb %ymm3, %ymm1, %ymm1
	vpxor %xmm2, %xmm2, %xmm2
	vpsadbw %ymm2, %ymm1, %ymm1
	vpaddq %ymm0, %ymm1, %ymm0
	addq $4, %rcx
	cmpq %rcx, %rax
	jne .LBB110_94
	vextracti128 $1, %ymm0, %xmm1
	vpaddq %xmm1, %xmm0, %xmm0
	vpshufd $238, %xmm0, %xmm1
	vpaddq %xmm1, %xmm0, %xmm0
	vmovq %xmm0, %rbx
	jmp .LBB110_97
.LBB110_96:
	popcntq (%r14,%rax,8), %rcx
	addq %rcx, %rbx
	incq %rax
.LBB110_97:
	cmpq %rax, %r13
	jne .LBB110_96
.LBB110_98:
	testq %r12, %r12
	je .LBB110_101
	movq %r14, %rdi
	vzeroupper
	callq tags_library_dealloc@PLT
	jmp .LBB110_101
.LBB110_100:
	vmovdqu 176(%rsp), %ymm0
	vpaddq 512(%rsp), %xmm0, %xmm0
	vmovdqu %ymm0, 176(%rsp)
	movq 48(%rsp), %rax
	addq %r15, %rax
	movq %rax, %r15
	vmovdqu 528(%rsp), %ymm0
	vpaddq 80(%rsp), %xmm0, %xmm0
	vmovdqu %ymm0, 528(%rsp)
	addq %r12, %rbx
.LBB110_101:
	testq %rbp, %rbp
	je .LBB110_136
	decq %rbp
	imulq $424, %rbp, %rdx
	movq 56(%rsp), %rsi
	movq 48(%rsi,%rdx), %rdi
	movq 56(%rsi,%rdx), %rcx
	movq 64(%rsi,%rdx), %rax
	movq 256(%rsi,%rdx), %r14
	movq 264(%rsi,%rdx), %r13
	movq 272(%rsi,%rdx), %r8
	vmovups 72(%rsi,%rdx), %xmm0
	vmovaps %xmm0, 512(%rsp)
	vmovdqu 280(%rsi,%rdx), %xmm0
	vmovdqa %xmm0, 80(%rsp)
	movq 24(%rsp), %rdx
	movq (%rdx), %rdx
	testq %rcx, %rcx
	movq %r15, 48(%rsp)
	je .LBB110_105
	cmpq $4, %rcx
	jae .LBB110_106
	xorl %r15d, %r15d
	xorl %edx, %edx
	jmp .LBB110_115
.LBB110_105:
	xorl %r15d, %r15d
	jmp .LBB110_117
.LBB110_106:
	cmpq $16, %rcx
	jae .LBB110_108
	xorl %edx, %edx
	xorl %r15d, %r15d
	jmp .LBB110_112
.LBB110_108:
	movq %rcx, %rdx
	andq $-16, %rdx
	vpxor %xmm0, %xmm0, %xmm0
	xorl %esi, %esi
	vpxor %xmm1, %xmm1, %xmm1
	vpxor %xmm2, %xmm2, %xmm2
	vpxor %xmm3, %xmm3, %xmm3
	vpxor %xmm4, %xmm4, %xmm4
	.p2align 4
.LBB110_109:
	vmovdqu (%rdi,%rsi,8), %ymm5
	vmovdqu 32(%rdi,%rsi,8), %ymm6
	vmovdqu 64(%rdi,%rsi,8), %ymm7
	vmovdqu 96(%rdi,%rsi,8), %ymm8
	vpbroadcastb .LCPI110_2(%rip), %ymm9
	vpand %ymm5, %ymm9, %ymm10
	vmovdqa .LCPI110_1(%rip), %ymm11
	vpshufb %ymm10, %ymm11, %ymm10
	vpsrlw $4, %ymm5, %ymm5
	vpand %ymm5, %ymm9, %ymm5
	vpshufb %ymm5, %ymm11, %ymm5
	vpaddb %ymm5, %ymm10, %ymm5
	vpsadbw %ymm0, %ymm5, %ymm5
	vpaddq %ymm1, %ymm5, %ymm1
	vpand %ymm6, %ymm9, %ymm5
	vpshufb %ymm5, %ymm11, %ymm5
	vpsrlw $4, %ymm6, %ymm6
	vpand %ymm6, %ymm9, %ymm6
	vpshufb %ymm6, %ymm11, %ymm6
	vpaddb %ymm5, %ymm6, %ymm5
	vpsadbw %ymm0, %ymm5, %ymm5
	vpaddq %ymm2, %ymm5, %ymm2
	vpand %ymm7, %ymm9, %ymm5
	vpshufb %ymm5, %ymm11, %ymm5
	vpsrlw $4, %ymm7, %ymm6
	vpand %ymm6, %ymm9, %ymm6
	vpshufb %ymm6, %ymm11, %ymm6
	vpaddb %ymm5, %ymm6, %ymm5
	vpsadbw %ymm0, %ymm5, %ymm5
	vpaddq %ymm3, %ymm5, %ymm3
	vpand %ymm9, %ymm8, %ymm5
	vpshufb %ymm5, %ymm11, %ymm5
	vpsrlw $4, %ymm8, %ymm6
	vpand %ymm6, %ymm9, %ymm6
	vpshufb %ymm6, %ymm11, %ymm6
	vpaddb %ymm5, %ymm6, %ymm5
	vpsadbw %ymm0, %ymm5, %ymm5
	vpaddq %ymm4, %ymm5, %ymm4
	addq $16, %rsi
	cmpq %rsi, %rdx
	jne .LBB110_109
	vpaddq %ymm1, %ymm2, %ymm0
	vpaddq %ymm0, %ymm3, %ymm0
	vpaddq %ymm0, %ymm4, %ymm0
	vextracti128 $1, %ymm0, %xmm1
	vpaddq %xmm1, %xmm0, %xmm0
	vpshufd $238, %xmm0, %xmm1
	vpaddq %xmm1, %xmm0, %xmm0
	vmovq %xmm0, %r15
	cmpq %rdx, %rcx
	je .LBB110_117
	testb $12, %cl
	je .LBB110_115
.LBB110_112:
	movq %rdx, %rsi
	movq %rcx, %rdx
	andq $-4, %rdx
	vmovq %r15, %xmm0
	.p2align 4
.LBB110_113:
	vmovdqu (%rdi,%rsi,8), %ymm1
	vpbroadcastb .LCPI110_2(%rip), %ymm2
	vpand %ymm2, %ymm1, %ymm3
	vmovdqa .LCPI110_1(%rip), %ymm4
	vpshufb %ymm3, %ymm4, %ymm3
	vpsrlw $4, %ymm1, %ymm1
	vpand %ymm2, %ymm1, %ymm1
	vpshufb %ymm1, %ymm4, %ymm1
	vpaddb %ymm3, %ymm1, %ymm1
	vpxor %xmm2, %xmm2, %xmm2
	vpsadbw %ymm2, %ymm1, %ymm1
	vpaddq %ymm0, %ymm1, %ymm0
	addq $4, %rsi
	cmpq %rsi, %rdx
	jne .LBB110_113
	vextracti128 $1, %ymm0, %xmm1
	vpaddq %xmm1, %xmm0, %xmm0
	vpshufd $238, %xmm0, %xmm1
	vpaddq %xmm1, %xmm0, %xmm0
	vmovq %xmm0, %r15
	jmp .LBB110_116
	.p2align 4
.LBB110_115:
	popcntq (%rdi,%rdx,8), %rsi
	addq %rsi, %r15
	incq %rdx
.LBB110_116:
	cmpq %rdx, %rcx
	jne .LBB110_115
.LBB110_117:
	movq 24(%rsp), %rdx
	movq (%rdx), %rcx
	movq (%rdx), %rcx
	testq %rax, %rax
	je .LBB110_119
	movq %r8, %r12
	vzeroupper
	callq tags_library_dealloc@PLT
	movq %r12, %r8
.LBB110_119:
	movq 16(%rsp), %rax
	movq (%rax), %rax
	testq %r13, %r13
	je .LBB110_122
	cmpq $4, %r13
	jae .LBB110_123
	xorl %r12d, %r12d
	xorl %eax, %eax
	jmp .LBB110_132
.LBB110_122:
	xorl %r12d, %r12d
	jmp .LBB110_134
.LBB110_123:
	cmpq $16, %r13
	jae .LBB110_125
	xorl %eax, %eax
	xorl %r12d, %r12d
	jmp .LBB110_129
.LBB110_125:
	movq %r13, %rax
	andq $-16, %rax
	vpxor %xmm0, %xmm0, %xmm0
	xorl %ecx, %ecx
	vpxor %xmm1, %xmm1, %xmm1
	vpxor %xmm2, %xmm2, %xmm2
	vpxor %xmm3, %xmm3, %xmm3
	vpxor %xmm4, %xmm4, %xmm4
	.p2align 4
.LBB110_126:
	vmovdqu (%r14,%rcx,8), %ymm5
	vmovdqu 32(%r14,%rcx,8), %ymm6
	vmovdqu 64(%r14,%rcx,8), %ymm7
	vmovdqu 96(%r14,%rcx,8), %ymm8
	vpbroadcastb .LCPI110_2(%rip), %ymm9
	vpand %ymm5, %ymm9, %ymm10
	vmovdqa .LCPI110_1(%rip), %ymm11
	vpshufb %ymm10, %ymm11, %ymm10
	vpsrlw $4, %ymm5, %ymm5
	vpand %ymm5, %ymm9, %ymm5
	vpshufb %ymm5, %ymm11, %ymm5
	vpaddb %ymm5, %ymm10, %ymm5
	vpsadbw %ymm0, %ymm5, %ymm5
	vpaddq %ymm1, %ymm5, %ymm1
	vpand %ymm6, %ymm9, %ymm5
	vpshufb %ymm5, %ymm11, %ymm5
	vpsrlw $4, %ymm6, %ymm6
	vpand %ymm6, %ymm9, %ymm6
	vpshufb %ymm6, %ymm11, %ymm6
	vpaddb %ymm5, %ymm6, %ymm5
	vpsadbw %ymm0, %ymm5, %ymm5
	vpaddq %ymm2, %ymm5, %ymm2
	vpand %ymm7, %ymm9, %ymm5
	vpshufb %ymm5, %ymm11, %ymm5
	vpsrlw $4, %ymm7, %ymm6
	vpand %ymm6, %ymm9, %ymm6
	vpshufb %ymm6, %ymm11, %ymm6
	vpaddb %ymm5, %ymm6, %ymm5
	vpsadbw %ymm0, %ymm5, %ymm5
	vpaddq %ymm3, %ymm5, %ymm3
	vpand %ymm9, %ymm8, %ymm5
	vpshufb %ymm5, %ymm11, %ymm5
	vpsrlw $4, %ymm8, %ymm6
	vpand %ymm6, %ymm9, %ymm6
	vpshufb %ymm6, %ymm11, %ymm6
	vpaddb %ymm5, %ymm6, %ymm5
	vpsadbw %ymm0, %ymm5, %ymm5
	vpaddq %ymm4, %ymm5, %ymm4
	addq $16, %rcx
	cmpq %rcx, %rax
	jne .LBB110_126
	vpaddq %ymm1, %ymm2, %ymm0
	vpaddq %ymm0, %ymm3, %ymm0
	vpaddq %ymm0, %ymm4, %ymm0
	vextracti128 $1, %ymm0, %xmm1
	vpaddq %xmm1, %xmm0, %xmm0
	vpshufd $238, %xmm0, %xmm1
	vpaddq %xmm1, %xmm0, %xmm0
	vmovq %xmm0, %r12
	cmpq %rax, %r13
	je .LBB110_134
	testb $12, %r13b
	je .LBB110_132
.LBB110_129:
	movq %rax, %rcx
	movq %r13, %rax
	andq $-4, %rax
	vmovq %r12, %xmm0
	.p2align 4
.LBB110_130:
	vmovdqu (%r14,%rcx,8), %ymm1
	vpbroadcastb .LCPI110_2(%rip), %ymm2
	vpand %ymm2, %ymm1, %ymm3
	vmovdqa .LCPI110_1(%rip), %ymm4
	vpshufb %ymm3, %ymm4, %ymm3
	vpsrlw $4, %ymm1, %ymm1
	vpand %ymm2, %ymm1, %ymm1
	vpshufb %ymm1, %ymm4, %ymm1
	vpaddb %ymm3, %ymm1, %ymm1
	vpxor %xmm2, %xmm2, %xmm2
	vpsadbw %ymm2, %ymm1, %ymm1
	vpaddq %ymm0, %ymm1, %ymm0
	addq $4, %rcx
	cmpq %rcx, %rax
	jne .LBB110_130
	vextracti128 $1, %ymm0, %xmm1
	vpaddq %xmm1, %xmm0, %xmm0
	vpshufd $238, %xmm0, %xmm1
	vpaddq %xmm1, %xmm0, %xmm0
	vmovq %xmm0, %r12
	jmp .LBB110_133
	.p2align 4
.LBB110_132:
	popcntq (%r14,%rax,8), %rcx
	addq %rcx, %r12
	incq %rax
.LBB110_133:
	cmpq %rax, %r13
	jne .LBB110_132
.LBB110_134:
	movq 16(%rsp), %rcx
	movq (%rcx), %rax
	movq (%rcx), %rax
	testq %r8, %r8
	je .LBB110_100
	movq %r14, %rdi
	vzeroupper
	callq tags_library_dealloc@PLT
	jmp .LBB110_100
.LBB110_136:
	movq %r15, 48(%rsp)
	cmpq $0, 120(%rsp)
	movq 568(%rsp), %r14
	je .LBB110_138
	movq 56(%rsp), %rdi
	vzeroupper
	callq tags_library_dealloc@PLT
.LBB110_138:
	movq 64(%rsp), %rdx
	testl %edx, %edx
	movq 112(%rsp), %r15
	movq 104(%rsp), %r12
	movq 584(%rsp), %r13
	movq 576(%rsp), %rbp
	movq %rbx, 80(%rsp)
	je .LBB110_141
	movq %rdx, %rax
	shrq $32, %rax
	movl $1, %ecx
	shlxl %eax, %ecx, %ecx
	addl %edx, %ecx
	decl %ecx
	shrxl %eax, %ecx, %ecx
	shlq $7, %rcx
	movl %edx, %eax
	cmpq $5, %rax
	jae .LBB110_142
	xorl %edx, %edx
	xorl %ebx, %ebx
	jmp .LBB110_150
.LBB110_141:
	xorl %ebx, %ebx
	jmp .LBB110_152
.LBB110_142:
	cmpl $17, %eax
	jae .LBB110_144
	xorl %edx, %edx
	xorl %ebx, %ebx
	jmp .LBB110_147
.LBB110_144:
	movq 64(%rsp), %rdx
	andl $15, %edx
	movl $16, %esi
	cmovneq %rdx, %rsi
	movq %rax, %rdx
	subq %rsi, %rdx
	movq 16(%rsp), %rdi
	addq %rcx, %rdi
	addq $1536, %rdi
	vpxor %xmm0, %xmm0, %xmm0
	movq %rax, %r8
	vpxor %xmm3, %xmm3, %xmm3
	vpxor %xmm4, %xmm4, %xmm4
	vpxor %xmm1, %xmm1, %xmm1
	vpxor %xmm2, %xmm2, %xmm2
.LBB110_145:
	vmovq -768(%rdi), %xmm5
	vmovq -832(%rdi), %xmm6
	vpunpcklqdq %xmm5, %xmm6, %xmm5
	vmovq -896(%rdi), %xmm6
	vmovq -960(%rdi), %xmm7
	vpunpcklqdq %xmm6, %xmm7, %xmm6
	vinserti128 $1, %xmm5, %ymm6, %ymm5
	vmovq -512(%rdi), %xmm6
	vmovq -576(%rdi), %xmm7
	vpunpcklqdq %xmm6, %xmm7, %xmm6
	vmovq -640(%rdi), %xmm7
	vmovq -704(%rdi), %xmm8
	vpunpcklqdq %xmm7, %xmm8, %xmm7
	vinserti128 $1, %xmm6, %ymm7, %ymm6
	vmovq -256(%rdi), %xmm7
	vmovq -320(%rdi), %xmm8
	vpunpcklqdq %xmm7, %xmm8, %xmm7
	vmovq -384(%rdi), %xmm8
	vmovq -448(%rdi), %xmm9
	vpunpcklqdq %xmm8, %xmm9, %xmm8
	vinserti128 $1, %xmm7, %ymm8, %ymm7
	vmovq (%rdi), %xmm8
	vmovq -64(%rdi), %xmm9
	vpunpcklqdq %xmm8, %xmm9, %xmm8
	vmovq -128(%rdi), %xmm9
	vmovq -192(%rdi), %xmm10
	vpunpcklqdq %xmm9, %xmm10, %xmm9
	vinserti128 $1, %xmm8, %ymm9, %ymm8
	vpcmpeqq %ymm0, %ymm5, %ymm5
	vpaddq %ymm5, %ymm3, %ymm3
	vpcmpeqq %ymm0, %ymm6, %ymm5
	vpaddq %ymm5, %ymm4, %ymm4
	vpcmpeqq %ymm0, %ymm7, %ymm5
	vpaddq %ymm5, %ymm1, %ymm1
	vpcmpeqq %ymm0, %ymm8, %ymm5
	vpaddq %ymm5, %ymm2, %ymm2
	vpcmpeqd %ymm5, %ymm5, %ymm5
	vpsubq %ymm5, %ymm3, %ymm3
	vpsubq %ymm5, %ymm4, %ymm4
	vpsubq %ymm5, %ymm1, %ymm1
	vpsubq %ymm5, %ymm2, %ymm2
	addq $1024, %rdi
	addq $-16, %r8
	cmpq %r8, %rsi
	jne .LBB110_145
	vpaddq %ymm3, %ymm4, %ymm0
	vpaddq %ymm1, %ymm2, %ymm1
	vpaddq %ymm0, %ymm1, %ymm0
	vextracti128 $1, %ymm0, %xmm1
	vpaddq %xmm1, %xmm0, %xmm0
	vpshufd $238, %xmm0, %xmm1
	vpaddq %xmm1, %xmm0, %xmm0
	vmovq %xmm0, %rbx
	cmpl $5, %esi
	jb .LBB110_150
.LBB110_147:
	movq %rdx, %rdi
	movq 64(%rsp), %rdx
	andl $3, %edx
	movl $4, %esi
	cmovneq %rdx, %rsi
	movq %rax, %rdx
	subq %rsi, %rdx
	vmovq %rbx, %xmm0
	addq %rdi, %rsi
	shlq $6, %rdi
	addq %rcx, %rdi
	movq 16(%rsp), %r8
	addq %r8, %rdi
	addq $768, %rdi
	subq %rax, %rsi
.LBB110_148:
	vmovq (%rdi), %xmm1
	vmovq -64(%rdi), %xmm2
	vpunpcklqdq %xmm1, %xmm2, %xmm1
	vmovq -128(%rdi), %xmm2
	vmovq -192(%rdi), %xmm3
	vpunpcklqdq %xmm2, %xmm3, %xmm2
	vinserti128 $1, %xmm1, %ymm2, %ymm1
	vpxor %xmm2, %xmm2, %xmm2
	vpcmpeqq %ymm2, %ymm1, %ymm1
	vpaddq %ymm1, %ymm0, %ymm0
	vpcmpeqd %ymm1, %ymm1, %ymm1
	vpsubq %ymm1, %ymm0, %ymm0
	addq $256, %rdi
	addq $4, %rsi
	jne .LBB110_148
	vextracti128 $1, %ymm0, %xmm1
	vpaddq %xmm1, %xmm0, %xmm0
	vpshufd $238, %xmm0, %xmm1
	vpaddq %xmm1, %xmm0, %xmm0
	vmovq %xmm0, %rbx
.LBB110_150:
	subq %rdx, %rax
	shlq $6, %rdx
	addq %rdx, %rcx
	movq 16(%rsp), %rdx
	addq %rdx, %rcx
	addq $576, %rcx
.LBB110_151:
	cmpq $1, (%rcx)
	sbbq $-1, %rbx
	addq $64, %rcx
	decq %rax
	jne .LBB110_151
.LBB110_152:
	movq 8(%rsp), %rax
	testq %rax, %rax
	je .LBB110_162
	cmpq $4, %rax
	jb .LBB110_155
	movq 32(%rsp), %rax
	leaq (%r15,%rax,8), %rcx
	movq %rcx, %rax
	subq %r14, %rax
	cmpq $128, %rax
	jae .LBB110_168
.LBB110_155:
	xorl %eax, %eax
.LBB110_156:
	movq 8(%rsp), %rdx
.LBB110_157:
	movq %rax, %rcx
	orq $1, %rcx
	testb $1, %dl
	je .LBB110_159
	movq (%r14,%rax,8), %rax
	movq 32(%rsp), %rdx
	movq %rax, (%r15,%rdx,8)
	incq %rdx
	movq %rdx, 32(%rsp)
	movq %rcx, %rax
.LBB110_159:
	movq 8(%rsp), %rdi
	cmpq %rcx, %rdi
	je .LBB110_162
	leaq (%r14,%rax,8), %rcx
	addq $8, %rcx
	subq %rax, %rdi
	movq 32(%rsp), %rax
	leaq (%r15,%rax,8), %rax
	addq $8, %rax
	xorl %edx, %edx
.LBB110_161:
	movq -8(%rcx,%rdx,8), %rsi
	movq %rsi, -8(%rax,%rdx,8)
	movq (%rcx,%rdx,8), %rsi
	movq %rsi, (%rax,%rdx,8)
	addq $2, %rdx
	cmpq %rdx, %rdi
	jne .LBB110_161
.LBB110_162:
	movq 128(%rsp), %rdi
	vzeroupper
	callq tags_library_dealloc@PLT
	movq 136(%rsp), %rdi
	callq tags_library_dealloc@PLT
	movq 72(%rsp), %rdx
	testl %edx, %edx
	je .LBB110_165
	movq %rdx, %rax
	shrq $32, %rax
	movl $1, %ecx
	shlxl %eax, %ecx, %ecx
	addl %edx, %ecx
	decl %ecx
	shrxl %eax, %ecx, %ecx
	shlq $7, %rcx
	movl %edx, %eax
	cmpq $5, %rax
	jae .LBB110_166
	xorl %edx, %edx
	xorl %r14d, %r14d
	jmp .LBB110_176
.LBB110_165:
	xorl %r14d, %r14d
	jmp .LBB110_178
.LBB110_166:
	cmpl $17, %eax
	jae .LBB110_170
	xorl %edx, %edx
	xorl %r14d, %r14d
	jmp .LBB110_173
.LBB110_168:
	movq 8(%rsp), %rax
	cmpq $16, %rax
	jae .LBB110_185
	xorl %eax, %eax
	jmp .LBB110_189
.LBB110_170:
	movq 72(%rsp), %rdx
	andl $15, %edx
	movl $16, %esi
	cmovneq %rdx, %rsi
	movq %rax, %rdx
	subq %rsi, %rdx
	movq 24(%rsp), %rdi
	addq %rcx, %rdi
	addq $1536, %rdi
	vpxor %xmm0, %xmm0, %xmm0
	movq %rax, %r8
	vpxor %xmm3, %xmm3, %xmm3
	vpxor %xmm4, %xmm4, %xmm4
	vpxor %xmm1, %xmm1, %xmm1
	vpxor %xmm2, %xmm2, %xmm2
.LBB110_171:
	vmovq -768(%rdi), %xmm5
	vmovq -832(%rdi), %xmm6
	vpunpcklqdq %xmm5, %xmm6, %xmm5
	vmovq -896(%rdi), %xmm6
	vmovq -960(%rdi), %xmm7
	vpunpcklqdq %xmm6, %xmm7, %xmm6
	vinserti128 $1, %xmm5, %ymm6, %ymm5
	vmovq -512(%rdi), %xmm6
	vmovq -576(%rdi), %xmm7
	vpunpcklqdq %xmm6, %xmm7, %xmm6
	vmovq -640(%rdi), %xmm7
	vmovq -704(%rdi), %xmm8
	vpunpcklqdq %xmm7, %xmm8, %xmm7
	vinserti128 $1, %xmm6, %ymm7, %ymm6
	vmovq -256(%rdi), %xmm7
	vmovq -320(%rdi), %xmm8
	vpunpcklqdq %xmm7, %xmm8, %xmm7
	vmovq -384(%rdi), %xmm8
	vmovq -448(%rdi), %xmm9
	vpunpcklqdq %xmm8, %xmm9, %xmm8
	vinserti128 $1, %xmm7, %ymm8, %ymm7
	vmovq (%rdi), %xmm8
	vmovq -64(%rdi), %xmm9
	vpunpcklqdq %xmm8, %xmm9, %xmm8
	vmovq -128(%rdi), %xmm9
	vmovq -192(%rdi), %xmm10
	vpunpcklqdq %xmm9, %xmm10, %xmm9
	vinserti128 $1, %xmm8, %ymm9, %ymm8
	vpcmpeqq %ymm0, %ymm5, %ymm5
	vpaddq %ymm5, %ymm3, %ymm3
	vpcmpeqq %ymm0, %ymm6, %ymm5
	vpaddq %ymm5, %ymm4, %ymm4
	vpcmpeqq %ymm0, %ymm7, %ymm5
	vpaddq %ymm5, %ymm1, %ymm1
	vpcmpeqq %ymm0, %ymm8, %ymm5
	vpaddq %ymm5, %ymm2, %ymm2
	vpcmpeqd %ymm5, %ymm5, %ymm5
	vpsubq %ymm5, %ymm3, %ymm3
	vpsubq %ymm5, %ymm4, %ymm4
	vpsubq %ymm5, %ymm1, %ymm1
	vpsubq %ymm5, %ymm2, %ymm2
	addq $1024, %rdi
	addq $-16, %r8
	cmpq %r8, %rsi
	jne .LBB110_171
	vpaddq %ymm3, %ymm4, %ymm0
	vpaddq %ymm1, %ymm2, %ymm1
	vpaddq %ymm0, %ymm1, %ymm0
	vextracti128 $1, %ymm0, %xmm1
	vpaddq %xmm1, %xmm0, %xmm0
	vpshufd $238, %xmm0, %xmm1
	vpaddq %xmm1, %xmm0, %xmm0
	vmovq %xmm0, %r14
	cmpl $5, %esi
	jb .LBB110_176
.LBB110_173:
	movq %rdx, %rdi
	movq 72(%rsp), %rdx
	andl $3, %edx
	movl $4, %esi
	cmovneq %rdx, %rsi
	movq %rax, %rdx
	subq %rsi, %rdx
	vmovq %r14, %xmm0
	addq %rdi, %rsi
	shlq $6, %rdi
	addq %rcx, %rdi
	movq 24(%rsp), %r8
	addq %r8, %rdi
	addq $768, %rdi
	subq %rax, %rsi
.LBB110_174:
	vmovq (%rdi), %xmm1
	vmovq -64(%rdi), %xmm2
	vpunpcklqdq %xmm1, %xmm2, %xmm1
	vmovq -128(%rdi), %xmm2
	vmovq -192(%rdi), %xmm3
	vpunpcklqdq %xmm2, %xmm3, %xmm2
	vinserti128 $1, %xmm1, %ymm2, %ymm1
	vpxor %xmm2, %xmm2, %xmm2
	vpcmpeqq %ymm2, %ymm1, %ymm1
	vpaddq %ymm1, %ymm0, %ymm0
	vpcmpeqd %ymm1, %ymm1, %ymm1
	vpsubq %ymm1, %ymm0, %ymm0
	addq $256, %rdi
	addq $4, %rsi
	jne .LBB110_174
	vextracti128 $1, %ymm0, %xmm1
	vpaddq %xmm1, %xmm0, %xmm0
	vpshufd $238, %xmm0, %xmm1
	vpaddq %xmm1, %xmm0, %xmm0
	vmovq %xmm0, %r14
.LBB110_176:
	subq %rdx, %rax
	shlq $6, %rdx
	addq %rdx, %rcx
	movq 24(%rsp), %rdx
	addq %rdx, %rcx
	addq $576, %rcx
.LBB110_177:
	cmpq $1, (%rcx)
	sbbq $-1, %r14
	addq $64, %rcx
	decq %rax
	jne .LBB110_177
.LBB110_178:
	testq %r13, %r13
	je .LBB110_204
	cmpq $4, %r13
	jb .LBB110_180
	movq 40(%rsp), %rax
	leaq (%r12,%rax,8), %rcx
	movq %rcx, %rax
	subq %rbp, %rax
	cmpq $128, %rax
	jae .LBB110_183
.LBB110_180:
	xorl %eax, %eax
	movq %rax, %rcx
	orq $1, %rcx
	testb $1, %r13b
	jne .LBB110_200
	jmp .LBB110_201
.LBB110_183:
	cmpq $16, %r13
	jae .LBB110_192
	xorl %eax, %eax
	jmp .LBB110_196
.LBB110_185:
	movq 32(%rsp), %rdx
	leaq (,%rdx,8), %rdx
	andq $-16, %rax
	addq %r15, %rdx
	addq $96, %rdx
	xorl %esi, %esi
.LBB110_186:
	vmovdqu (%r14,%rsi,8), %ymm0
	vmovdqu 32(%r14,%rsi,8), %ymm1
	vmovdqu 64(%r14,%rsi,8), %ymm2
	vmovdqu 96(%r14,%rsi,8), %ymm3
	vmovdqu %ymm0, -96(%rdx,%rsi,8)
	vmovdqu %ymm1, -64(%rdx,%rsi,8)
	vmovdqu %ymm2, -32(%rdx,%rsi,8)
	vmovdqu %ymm3, (%rdx,%rsi,8)
	addq $16, %rsi
	cmpq %rsi, %rax
	jne .LBB110_186
	movq 8(%rsp), %rdx
	cmpq %rax, %rdx
	je .LBB110_162
	testb $12, %dl
	je .LBB110_209
.LBB110_189:
	movq %rax, %rdx
	movq 8(%rsp), %rax
	andq $-4, %rax
	addq %rax, 32(%rsp)
.LBB110_190:
	vmovdqu (%r14,%rdx,8), %ymm0
	vmovdqu %ymm0, (%rcx,%rdx,8)
	addq $4, %rdx
	cmpq %rdx, %rax
	jne .LBB110_190
	movq 8(%rsp), %rdx
	cmpq %rax, %rdx
	jne .LBB110_157
	jmp .LBB110_162
.LBB110_192:
	movq 40(%rsp), %rax
	leaq (,%rax,8), %rdx
	movq %r13, %rax
	andq $-16, %rax
	addq %r12, %rdx
	addq $96, %rdx
	xorl %esi, %esi
.LBB110_193:
	vmovdqu (%rbp,%rsi,8), %ymm0
	vmovdqu 32(%rbp,%rsi,8), %ymm1
	vmovdqu 64(%rbp,%rsi,8), %ymm2
	vmovdqu 96(%rbp,%rsi,8), %ymm3
	vmovdqu %ymm0, -96(%rdx,%rsi,8)
	vmovdqu %ymm1, -64(%rdx,%rsi,8)
	vmovdqu %ymm2, -32(%rdx,%rsi,8)
	vmovdqu %ymm3, (%rdx,%rsi,8)
	addq $16, %rsi
	cmpq %rsi, %rax
	jne .LBB110_193
	cmpq %rax, %r13
	je .LBB110_204
	testb $12, %r13b
	je .LBB110_210
.LBB110_196:
	movq %rax, %rdx
	movq %r13, %rax
	andq $-4, %rax
	addq %rax, 40(%rsp)
.LBB110_197:
	vmovdqu (%rbp,%rdx,8), %ymm0
	vmovdqu %ymm0, (%rcx,%rdx,8)
	addq $4, %rdx
	cmpq %rdx, %rax
	jne .LBB110_197
	cmpq %rax, %r13
	je .LBB110_204
	movq %rax, %rcx
	orq $1, %rcx
	testb $1, %r13b
	je .LBB110_201
.LBB110_200:
	movq (%rbp,%rax,8), %rax
	movq 40(%rsp), %rdx
	movq %rax, (%r12,%rdx,8)
	incq %rdx
	movq %rdx, 40(%rsp)
	movq %rcx, %rax
.LBB110_201:
	cmpq %rcx, %r13
	je .LBB110_204
	leaq 8(,%rax,8), %rcx
	addq %rbp, %rcx
	subq %rax, %r13
	movq 40(%rsp), %rax
	leaq (%r12,%rax,8), %rax
	addq $8, %rax
	xorl %edx, %edx
.LBB110_203:
	movq -8(%rcx,%rdx,8), %rsi
	movq %rsi, -8(%rax,%rdx,8)
	movq (%rcx,%rdx,8), %rsi
	movq %rsi, (%rax,%rdx,8)
	addq $2, %rdx
	cmpq %rdx, %r13
	jne .LBB110_203
.LBB110_204:
	movq 144(%rsp), %rdi
	vzeroupper
	callq tags_library_dealloc@PLT
	movq 152(%rsp), %rdi
	callq tags_library_dealloc@PLT
	cmpq $0, 160(%rsp)
	je .LBB110_206
	movq %r12, %rdi
	callq tags_library_dealloc@PLT
.LBB110_206:
	cmpq $0, 168(%rsp)
	je .LBB110_208
	movq %r15, %rdi
	callq tags_library_dealloc@PLT
.LBB110_208:
	vmovq %r14, %xmm0
	vmovq 80(%rsp), %xmm1
	vpunpcklqdq %xmm0, %xmm1, %xmm0
	vmovdqu 528(%rsp), %ymm1
	vinserti128 $1, %xmm0, %ymm1, %ymm0
	vmovq %rbx, %xmm1
	vmovq 48(%rsp), %xmm2
	vpunpcklqdq %xmm1, %xmm2, %xmm1
	vmovdqu 176(%rsp), %ymm2
	vinserti128 $1, %xmm1, %ymm2, %ymm1
	vpaddq %ymm1, %ymm0, %ymm0
	movq 592(%rsp), %rax
	vmovdqu %ymm0, (%rax)
	xorl %eax, %eax
	jmp .LBB110_67
.LBB110_209:
	addq %rax, 32(%rsp)
	jmp .LBB110_156
.LBB110_210:
	addq %rax, 40(%rsp)
	movq %rax, %rcx
	orq $1, %rcx
	testb $1, %r13b
	jne .LBB110_200
	jmp .LBB110_201
.Lfunc_end110:
	.size tags_library_close, .Lfunc_end110-tags_library_close
	.section .text.tags_library_join,"ax",@progbits
	.globl tags_library_join
	.p2align 4
	.type tags_library_join,@function
tags_library_join:
	pushq %rbp
	pushq %r15
	pushq %r14
	pushq %r13
	pushq %r12
	pushq %rbx
	subq $2952, %rsp
	movq $0, 768(%rsp)
	movl $0, 776(%rsp)
	movq $0, 752(%rsp)
	movl $0, 760(%rsp)
	movq $0, 736(%rsp)
	movl $0, 744(%rsp)
	movq $0, 720(%rsp)
	movl $0, 728(%rsp)
	movq $0, 704(%rsp)
	movl $0, 712(%rsp)
	movl $0, 696(%rsp)
	movq $0, 688(%rsp)
	movl $0, 680(%rsp)
	movq $0, 672(%rsp)
	movl $0, 664(%rsp)
	movq $0, 656(%rsp)
	movl $0, 648(%rsp)
	movq $0, 640(%rsp)
	movl $0, 632(%rsp)
	movq $0, 624(%rsp)
	movl $0, 616(%rsp)
	movq $0, 608(%rsp)
	vpxor %xmm0, %xmm0, %xmm0
	vmovdqu %ymm0, 2496(%rsp)
	vmovdqu %ymm0, 2464(%rsp)
	vmovdqu %ymm0, 2432(%rsp)
	vmovdqu %ymm0, 2400(%rsp)
	vmovdqu %ymm0, 2368(%rsp)
	vmovdqu %ymm0, 2336(%rsp)
	vmovdqu %ymm0, 2304(%rsp)
	vmovdqu %ymm0, 2272(%rsp)
	vmovdqu %ymm0, 2240(%rsp)
	vmovdqu %ymm0, 2208(%rsp)
	vmovdqu %ymm0, 2176(%rsp)
	vmovdqu %ymm0, 2144(%rsp)
	vmovdqu %ymm0, 2112(%rsp)
	vmovdqu %ymm0, 2080(%rsp)
	vmovdqu %ymm0, 2048(%rsp)
	movl $-13, %eax
	cmpq $0, (%rsi)
	jne .LBB111_42
	movl $-12, %eax
	cmpq $1, (%rdi)
	jne .LBB111_42
	movq 8(%rdi), %r8
	movq $0, 264(%rsp)
	movl $0, 272(%rsp)
	movq $0, 248(%rsp)
	movl $0, 256(%rsp)
	movq $0, 232(%rsp)
	movl $0, 240(%rsp)
	movq $0, 216(%rsp)
	movl $0, 224(%rsp)
	movq $0, 200(%rsp)
	movl $0, 208(%rsp)
	movl $0, 192(%rsp)
	movq $0, 184(%rsp)
	movl $0, 176(%rsp)
	movq $0, 168(%rsp)
	movl $0, 160(%rsp)
	movq $0, 152(%rsp)
	movl $0, 144(%rsp)
	movq $0, 136(%rsp)
	movl $0, 128(%rsp)
	movq $0, 120(%rsp)
	movl $0, 112(%rsp)
	movq $0, 104(%rsp)
	movl $3, %eax
	cmpb $1, (%r8)
	jne .LBB111_41
	movl $9, %eax
	cmpl $1, %edx
	ja .LBB111_41
	movl $0, 976(%rsp)
	movq $0, 968(%rsp)
	movl $0, 960(%rsp)
	movq $0, 952(%rsp)
	movl $0, 944(%rsp)
	movq $0, 936(%rsp)
	movl $0, 928(%rsp)
	movq $0, 920(%rsp)
	movl $0, 912(%rsp)
	movq $0, 904(%rsp)
	movl $0, 896(%rsp)
	movq $0, 888(%rsp)
	movl $0, 880(%rsp)
	movq $0, 872(%rsp)
	movl $0, 864(%rsp)
	movq $0, 856(%rsp)
	movl $0, 848(%rsp)
	movq $0, 840(%rsp)
	movl $0, 832(%rsp)
	movq $0, 824(%rsp)
	movl $0, 816(%rsp)
	movq $0, 808(%rsp)
	movl $0, 432(%rsp)
	movq $0, 424(%rsp)
	movl $0, 416(%rsp)
	movq $0, 408(%rsp)
	movl $0, 400(%rsp)
	movq $0, 392(%rsp)
	movl $0, 384(%rsp)
	movq $0, 376(%rsp)
	movl $0, 368(%rsp)
	movq $0, 360(%rsp)
	movl $0, 352(%rsp)
	movq $0, 344(%rsp)
	movl $0, 336(%rsp)
	movq $0, 328(%rsp)
	movl $0, 320(%rsp)
	movq $0, 312(%rsp)
	movl $0, 304(%rsp)
	movq $0, 296(%rsp)
	movl $0, 288(%rsp)
	movq $0, 280(%rsp)
	movl $0, 1496(%rsp)
	movq $0, 1488(%rsp)
	movq 8(%r8), %rdi
	movq %rsi, 2024(%rsp)
	.p2align 4
.LBB111_5:
	movq (%rdi), %rax
	movabsq $9223372036854775806, %rcx
	cmpq %rcx, %rax
	ja .LBB111_17
	leaq 1(%rax), %rcx
	lock  cmpxchgq %rcx, (%rdi)
	jne .LBB111_5
	movq %rdi, 72(%rsp)
	movl $0, 1656(%rsp)
	movq $0, 1648(%rsp)
	movl $0, 1640(%rsp)
	movq $0, 1632(%rsp)
	movl $0, 1624(%rsp)
	movq $0, 1616(%rsp)
	movl $0, 1608(%rsp)
	movq $0, 1600(%rsp)
	movl $0, 1592(%rsp)
	movq $0, 1584(%rsp)
	movl $0, 1576(%rsp)
	movq $0, 1568(%rsp)
	movl $0, 1560(%rsp)
	movq $0, 1552(%rsp)
	movl $0, 1544(%rsp)
	movq $0, 1536(%rsp)
	movl $0, 1528(%rsp)
	movq $0, 1520(%rsp)
	movl $0, 1512(%rsp)
	movq $0, 1504(%rsp)
	movl $0, 1136(%rsp)
	movq $0, 1128(%rsp)
	movl $0, 1120(%rsp)
	movq $0, 1112(%rsp)
	movl $0, 1104(%rsp)
	movq $0, 1096(%rsp)
	movl $0, 1088(%rsp)
	movq $0, 1080(%rsp)
	movl $0, 1072(%rsp)
	movq $0, 1064(%rsp)
	movl $0, 1056(%rsp)
	movq $0, 1048(%rsp)
	movl $0, 1040(%rsp)
	movq $0, 1032(%rsp)
	movl $0, 1024(%rsp)
	movq $0, 1016(%rsp)
	movl $0, 1008(%rsp)
	movq $0, 1000(%rsp)
	movl $0, 992(%rsp)
	movq $0, 984(%rsp)
	movq %r8, 32(%rsp)
	movq 8(%r8), %rdi
	movq $0, 584(%rsp)
	movl $0, 592(%rsp)
	movq $0, 568(%rsp)
	movl $0, 576(%rsp)
	movq $0, 552(%rsp)
	movl $0, 560(%rsp)
	movq $0, 536(%rsp)
	movl $0, 544(%rsp)
	movq $0, 520(%rsp)
	movl $0, 528(%rsp)
	movq $0, 504(%rsp)
	movl $0, 512(%rsp)
	movl $0, 496(%rsp)
	movq $0, 488(%rsp)
	movl $0, 480(%rsp)
	movq $0, 472(%rsp)
	movl $0, 464(%rsp)
	movq $0, 456(%rsp)
	movl $0, 448(%rsp)
	movq $0, 440(%rsp)
	movq 280(%rdi), %r8
	testq %r8, %r8
	je .LBB111_15
	movq $-1, %r12
	movl %edx, 1472(%rsp)
	movq %rdi, 48(%rsp)
	movq %r8, 40(%rsp)
	jmp .LBB111_9
	.p2align 4
.LBB111_10:
	movl 1456(%rsp), %eax
	movl %eax, 592(%rsp)
	movq 1448(%rsp), %rax
	movq %rax, 584(%rsp)
	movq 1432(%rsp), %rax
	movq %rax, 568(%rsp)
	movl 1440(%rsp), %eax
	movl %eax, 576(%rsp)
	movq 1416(%rsp), %rax
	movq %rax, 552(%rsp)
	movl 1424(%rsp), %eax
	movl %eax, 560(%rsp)
	movq 1400(%rsp), %rax
	movq %rax, 536(%rsp)
	movl 1408(%rsp), %eax
	movl %eax, 544(%rsp)
	movl 1392(%rsp), %eax
	movl %eax, 528(%rsp)
	movq 1384(%rsp), %rax
	movq %rax, 520(%rsp)
	movl 1376(%rsp), %eax
	movl %eax, 512(%rsp)
	movq 1368(%rsp), %rax
	movq %rax, 504(%rsp)
	movl 1360(%rsp), %eax
	movl %eax, 496(%rsp)
	movq 1352(%rsp), %rax
	movq %rax, 488(%rsp)
	movl 1344(%rsp), %eax
	movl %eax, 480(%rsp)
	movq 1336(%rsp), %rax
	movq %rax, 472(%rsp)
	movl 1328(%rsp), %eax
	movl %eax, 464(%rsp)
	movq 1320(%rsp), %rax
	movq %rax, 456(%rsp)
	movl 1312(%rsp), %eax
	movl %eax, 448(%rsp)
	movq 1304(%rsp), %rax
	movq %rax, 440(%rsp)
	leaq (%r8,%r12), %rax
	decq %rax
	decq %r12
	cmpq $-1, %rax
	je .LBB111_15
.LBB111_9:
	movq 280(%rdi), %rax
	addq %r12, %rax
	movq 272(%rdi), %r13
	imulq $440, %rax, %rax
	movl $0, 1456(%rsp)
	movq $0, 1448(%rsp)
	movl $0, 1440(%rsp)
	movq $0, 1432(%rsp)
	movl $0, 1424(%rsp)
	movq $0, 1416(%rsp)
	movl $0, 1408(%rsp)
	movq $0, 1400(%rsp)
	movl $0, 1392(%rsp)
	movq $0, 1384(%rsp)
	movl $0, 1376(%rsp)
	movq $0, 1368(%rsp)
	movl $0, 1360(%rsp)
	movq $0, 1352(%rsp)
	movl $0, 1344(%rsp)
	movq $0, 1336(%rsp)
	movl $0, 1328(%rsp)
	movq $0, 1320(%rsp)
	movl $0, 1312(%rsp)
	movq $0, 1304(%rsp)
	movl $0, 1296(%rsp)
	movq $0, 1288(%rsp)
	movl $0, 1280(%rsp)
	movq $0, 1272(%rsp)
	movl $0, 1264(%rsp)
	movq $0, 1256(%rsp)
	movl $0, 1248(%rsp)
	movq $0, 1240(%rsp)
	movl $0, 1232(%rsp)
	movq $0, 1224(%rsp)
	movl $0, 1216(%rsp)
	movq $0, 1208(%rsp)
	movl $0, 1200(%rsp)
	movq $0, 1192(%rsp)
	movl $0, 1184(%rsp)
	movq $0, 1176(%rsp)
	movl $0, 1168(%rsp)
	movq $0, 1160(%rsp)
	movl $0, 1152(%rsp)
	movq $0, 1144(%rsp)
	vpxor %xmm0, %xmm0, %xmm0
	vmovdqu %ymm0, 2912(%rsp)
	vmovdqu %ymm0, 2880(%rsp)
	vmovdqu %ymm0, 2848(%rsp)
	vmovdqu %ymm0, 2816(%rsp)
	vmovdqu %ymm0, 2784(%rsp)
	vmovdqu %ymm0, 2752(%rsp)
	vmovdqu %ymm0, 2720(%rsp)
	vmovdqu %ymm0, 2688(%rsp)
	vmovdqu %ymm0, 2656(%rsp)
	vmovdqu %ymm0, 2624(%rsp)
	vmovdqu %ymm0, 2592(%rsp)
	vmovdqu %ymm0, 2560(%rsp)
	vmovdqu %ymm0, 2528(%rsp)
	movq $0, 2944(%rsp)
	movq (%r13,%rax), %rcx
	movabsq $4294967296, %rsi
	cmpq %rsi, %rcx
	jne .LBB111_10
	addq %rax, %r13
	movabsq $4294967296, %rax
	movabsq $4294967299, %rcx
	lock  cmpxchgq %rcx, (%r13)
	jne .LBB111_10
	movzbl 8(%r13), %eax
	movb %al, 24(%rsp)
	movq 16(%r13), %rax
	movq %rax, 88(%rsp)
	movl 24(%r13), %eax
	movq %rax, 1824(%rsp)
	vmovups 28(%r13), %xmm0
	vmovaps %xmm0, 1840(%rsp)
	movl 52(%r13), %eax
	movl %eax, 1816(%rsp)
	movq 44(%r13), %rax
	movq %rax, 1808(%rsp)
	movq 56(%r13), %rax
	movq %rax, 2040(%rsp)
	vmovups 64(%r13), %xmm0
	vmovaps %xmm0, 1872(%rsp)
	movl 80(%r13), %eax
	movl %eax, 1468(%rsp)
	movl 92(%r13), %eax
	movl %eax, 1800(%rsp)
	movq 84(%r13), %rax
	movq %rax, 1792(%rsp)
	movq 96(%r13), %rax
	movq %rax, 2032(%rsp)
	vmovups 104(%r13), %xmm0
	vmovaps %xmm0, 1888(%rsp)
	movl 120(%r13), %eax
	movl %eax, 1464(%rsp)
	movl 132(%r13), %eax
	movl %eax, 1784(%rsp)
	movq 124(%r13), %rax
	movq %rax, 1776(%rsp)
	movq 136(%r13), %rax
	movq %rax, 792(%rsp)
	vmovups 144(%r13), %xmm0
	vmovaps %xmm0, 1904(%rsp)
	movl 160(%r13), %eax
	movl %eax, 68(%rsp)
	movl 172(%r13), %eax
	movl %eax, 1768(%rsp)
	movq 164(%r13), %rax
	movq %rax, 1760(%rsp)
	movq 176(%r13), %rax
	movq %rax, 96(%rsp)
	vmovups 184(%r13), %xmm0
	vmovaps %xmm0, 1856(%rsp)
	movl 200(%r13), %eax
	movl %eax, 64(%rsp)
	movl 212(%r13), %eax
	movl %eax, 1752(%rsp)
	movq 204(%r13), %rax
	movq %rax, 1744(%rsp)
	movq 216(%r13), %rax
	movq %rax, 800(%rsp)
	vmovsd 224(%r13), %xmm0
	vmovaps %xmm0, 2000(%rsp)
	movl 232(%r13), %eax
	movq %rax, 16(%rsp)
	movl 236(%r13), %eax
	movl %eax, 56(%rsp)
	movl 240(%r13), %eax
	movl %eax, 8(%rsp)
	movl 252(%r13), %eax
	movl %eax, 1736(%rsp)
	movq 244(%r13), %rax
	movq %rax, 1728(%rsp)
	vmovups 264(%r13), %xmm0
	vmovaps %xmm0, 1920(%rsp)
	movq 256(%r13), %rax
	movq %rax, 600(%rsp)
	movl 280(%r13), %eax
	movl %eax, 4(%rsp)
	movl 292(%r13), %eax
	movl %eax, 1720(%rsp)
	movq 284(%r13), %rax
	movq %rax, 1712(%rsp)
	vmovups 304(%r13), %xmm0
	vmovaps %xmm0, 1936(%rsp)
	movq 296(%r13), %rax
	movq %rax, 784(%rsp)
	movl 320(%r13), %eax
	movl %eax, 12(%rsp)
	movl 332(%r13), %eax
	movl %eax, 1704(%rsp)
	movq 324(%r13), %rax
	movq %rax, 1696(%rsp)
	vmovups 344(%r13), %xmm0
	vmovaps %xmm0, 1952(%rsp)
	movq 336(%r13), %rax
	movq %rax, 80(%rsp)
	movl 360(%r13), %r14d
	movl 372(%r13), %eax
	movl %eax, 1688(%rsp)
	movq 364(%r13), %rax
	movq %rax, 1680(%rsp)
	vmovups 384(%r13), %xmm0
	vmovaps %xmm0, 1968(%rsp)
	movq 376(%r13), %rbx
	movl 400(%r13), %ebp
	movl 412(%r13), %eax
	movl %eax, 1672(%rsp)
	movq 404(%r13), %rax
	movq %rax, 1664(%rsp)
	vmovdqu 424(%r13), %xmm0
	vmovdqa %xmm0, 1984(%rsp)
	movq 416(%r13), %r15
	movq $0, 8(%r13)
	leaq 16(%r13), %rdi
	leaq 2528(%rsp), %rsi
	movl $424, %edx
	vzeroupper
	callq memcpy@PLT
	xorl %eax, %eax
	xchgq %rax, (%r13)
	movl 1816(%rsp), %eax
	movl %eax, 1296(%rsp)
	movq 1808(%rsp), %rax
	movq %rax, 1288(%rsp)
	movq 1792(%rsp), %rax
	movq %rax, 1272(%rsp)
	movl 1800(%rsp), %eax
	movl %eax, 1280(%rsp)
	movq 1776(%rsp), %rax
	movq %rax, 1256(%rsp)
	movl 1784(%rsp), %eax
	movl %eax, 1264(%rsp)
	movq 1760(%rsp), %rax
	movq %rax, 1240(%rsp)
	movl 1768(%rsp), %eax
	movl %eax, 1248(%rsp)
	movl 1752(%rsp), %eax
	movl %eax, 1232(%rsp)
	movq 1744(%rsp), %rax
	movq %rax, 1224(%rsp)
	movl 1736(%rsp), %eax
	movl %eax, 1216(%rsp)
	movq 1728(%rsp), %rax
	movq %rax, 1208(%rsp)
	movq 1712(%rsp), %rax
	movq %rax, 1192(%rsp)
	movl 1720(%rsp), %eax
	movl %eax, 1200(%rsp)
	movq 1696(%rsp), %rax
	movq %rax, 1176(%rsp)
	movl 1704(%rsp), %eax
	movl %eax, 1184(%rsp)
	movq 1680(%rsp), %rax
	movq %rax, 1160(%rsp)
	movl 1688(%rsp), %eax
	movl %eax, 1168(%rsp)
	movl 1672(%rsp), %eax
	movl %eax, 1152(%rsp)
	movq 1664(%rsp), %rax
	movq %rax, 1144(%rsp)
	cmpb $1, 24(%rsp)
	je .LBB111_19
	movl $0, 592(%rsp)
	movq $0, 584(%rsp)
	movq $0, 568(%rsp)
	movl $0, 576(%rsp)
	movq $0, 552(%rsp)
	movl $0, 560(%rsp)
	movq $0, 536(%rsp)
	movl $0, 544(%rsp)
	movq $0, 520(%rsp)
	movl $0, 528(%rsp)
	movq $0, 504(%rsp)
	movl $0, 512(%rsp)
	movq $0, 488(%rsp)
	movl $0, 496(%rsp)
	movl $0, 480(%rsp)
	movq $0, 472(%rsp)
	movl $0, 464(%rsp)
	movq $0, 456(%rsp)
	movl $0, 448(%rsp)
	movq $0, 440(%rsp)
	movl 1472(%rsp), %edx
	movq 48(%rsp), %rdi
	movq 40(%rsp), %r8
	leaq (%r8,%r12), %rax
	decq %rax
	decq %r12
	cmpq $-1, %rax
	jne .LBB111_9
.LBB111_15:
	movq 32(%rsp), %rax
	movq 24(%rax), %rcx
	testq %rcx, %rcx
	je .LBB111_23
	decq %rcx
	movq %rcx, 24(%rax)
	movq 16(%rax), %rax
	imulq $424, %rcx, %rcx
	movq (%rax,%rcx), %rsi
	movq %rsi, 88(%rsp)
	movl 8(%rax,%rcx), %r13d
	vmovdqu 12(%rax,%rcx), %xmm1
	movq 40(%rax,%rcx), %r9
	vmovdqu 48(%rax,%rcx), %xmm10
	movl 64(%rax,%rcx), %r10d
	movq 80(%rax,%rcx), %r8
	vmovdqu 88(%rax,%rcx), %xmm9
	movl 104(%rax,%rcx), %r11d
	movq 120(%rax,%rcx), %rdi
	vmovdqu 128(%rax,%rcx), %xmm8
	movl 144(%rax,%rcx), %ebp
	movq 160(%rax,%rcx), %rsi
	movq %rsi, 96(%rsp)
	vmovdqu 168(%rax,%rcx), %xmm11
	movl 184(%rax,%rcx), %r12d
	movq 200(%rax,%rcx), %r15
	vmovq 208(%rax,%rcx), %xmm7
	movl 216(%rax,%rcx), %esi
	movq %rsi, 16(%rsp)
	movl 220(%rax,%rcx), %esi
	movl %esi, 56(%rsp)
	vmovdqu 248(%rax,%rcx), %xmm6
	vmovdqu 288(%rax,%rcx), %xmm5
	vmovdqu 328(%rax,%rcx), %xmm4
	vmovdqu 368(%rax,%rcx), %xmm3
	vmovdqu 408(%rax,%rcx), %xmm2
	movl 224(%rax,%rcx), %esi
	movl %esi, 8(%rsp)
	movq 240(%rax,%rcx), %rsi
	movq %rsi, 600(%rsp)
	movl 264(%rax,%rcx), %ebx
	movq 280(%rax,%rcx), %r14
	movl 304(%rax,%rcx), %esi
	movl %esi, 12(%rsp)
	movq 320(%rax,%rcx), %rsi
	movq %rsi, 80(%rsp)
	movl 344(%rax,%rcx), %esi
	movl %esi, 48(%rsp)
	movq 360(%rax,%rcx), %rsi
	movq %rsi, 24(%rsp)
	movl 384(%rax,%rcx), %esi
	movl %esi, 40(%rsp)
	movq 400(%rax,%rcx), %rsi
	movq %rsi, 32(%rsp)
	movl 36(%rax,%rcx), %esi
	movl %esi, 432(%rsp)
	movq 28(%rax,%rcx), %rsi
	movq %rsi, 424(%rsp)
	movl 76(%rax,%rcx), %esi
	movl %esi, 416(%rsp)
	movq 68(%rax,%rcx), %rsi
	movq %rsi, 408(%rsp)
	movl 116(%rax,%rcx), %esi
	movl %esi, 400(%rsp)
	movq 108(%rax,%rcx), %rsi
	movq %rsi, 392(%rsp)
	movl 156(%rax,%rcx), %esi
	movl %esi, 384(%rsp)
	movq 148(%rax,%rcx), %rsi
	movq %rsi, 376(%rsp)
	movl 196(%rax,%rcx), %esi
	movl %esi, 368(%rsp)
	movq 188(%rax,%rcx), %rsi
	movq %rsi, 360(%rsp)
	movq 228(%rax,%rcx), %rsi
	movq %rsi, 344(%rsp)
	movl 236(%rax,%rcx), %esi
	movl %esi, 352(%rsp)
	movq 268(%rax,%rcx), %rsi
	movq %rsi, 328(%rsp)
	movl 276(%rax,%rcx), %esi
	movl %esi, 336(%rsp)
	movq 308(%rax,%rcx), %rsi
	movq %rsi, 312(%rsp)
	movl 316(%rax,%rcx), %esi
	movl %esi, 320(%rsp)
	movq 348(%rax,%rcx), %rsi
	movq %rsi, 296(%rsp)
	movl 356(%rax,%rcx), %esi
	movl %esi, 304(%rsp)
	movl 396(%rax,%rcx), %esi
	movl %esi, 288(%rsp)
	movq 388(%rax,%rcx), %rax
	movq %rax, 280(%rsp)
	testl %edx, %edx
	movq 80(%rsp), %rsi
	movq 24(%rsp), %rdx
	jne .LBB111_34
.LBB111_21:
	movq 72(%rsp), %rdx
	movl 80(%rdx), %esi
	testq %rsi, %rsi
	je .LBB111_22
	movl 192(%rdx), %ecx
	testq %rcx, %rcx
	je .LBB111_22
	vpextrd $1, %xmm1, %eax
	movl 72(%rdx), %edx
	imulq %rdx, %rax
	movq %rax, %rdx
	shrq $32, %rdx
	je .LBB111_28
	xorl %edx, %edx
	divq %rsi
	movq %rax, %r13
	jmp .LBB111_30
.LBB111_17:
	movl 976(%rsp), %eax
	movl %eax, 272(%rsp)
	movq 968(%rsp), %rax
	movq %rax, 264(%rsp)
	movq 952(%rsp), %rax
	movq %rax, 248(%rsp)
	movl 960(%rsp), %eax
	movl %eax, 256(%rsp)
	movq 936(%rsp), %rax
	movq %rax, 232(%rsp)
	movl 944(%rsp), %eax
	movl %eax, 240(%rsp)
	movq 920(%rsp), %rax
	movq %rax, 216(%rsp)
	movl 928(%rsp), %eax
	movl %eax, 224(%rsp)
	movl 912(%rsp), %eax
	movl %eax, 208(%rsp)
	movq 904(%rsp), %rax
	movq %rax, 200(%rsp)
	movl 896(%rsp), %eax
	movl %eax, 192(%rsp)
	movq 888(%rsp), %rax
	movq %rax, 184(%rsp)
	movl 880(%rsp), %eax
	movl %eax, 176(%rsp)
	movq 872(%rsp), %rax
	movq %rax, 168(%rsp)
	movl 864(%rsp), %eax
	movl %eax, 160(%rsp)
	movq 856(%rsp), %rax
	movq %rax, 152(%rsp)
	movl 848(%rsp), %eax
	movl %eax, 144(%rsp)
	movq 840(%rsp), %rax
	movq %rax, 136(%rsp)
	movl 832(%rsp), %eax
	movl %eax, 128(%rsp)
	movq 824(%rsp), %rax
	movq %rax, 120(%rsp)
	movl 816(%rsp), %eax
	movl %eax, 112(%rsp)
	movq 808(%rsp), %rax
	movq %rax, 104(%rsp)
	vpxor %xmm7, %xmm7, %xmm7
	xorl %ecx, %ecx
	movl $10, %eax
	jmp .LBB111_18
.LBB111_23:
	movl 1656(%rsp), %eax
	movl %eax, 432(%rsp)
	movq 1648(%rsp), %rax
	movq %rax, 424(%rsp)
	movq 1632(%rsp), %rax
	movq %rax, 408(%rsp)
	movl 1640(%rsp), %eax
	movl %eax, 416(%rsp)
	movq 1616(%rsp), %rax
	movq %rax, 392(%rsp)
	movl 1624(%rsp), %eax
	movl %eax, 400(%rsp)
	movq 1600(%rsp), %rax
	movq %rax, 376(%rsp)
	movl 1608(%rsp), %eax
	movl %eax, 384(%rsp)
	movl 1592(%rsp), %eax
	movl %eax, 368(%rsp)
	movq 1584(%rsp), %rax
	movq %rax, 360(%rsp)
	movl 1576(%rsp), %eax
	movl %eax, 352(%rsp)
	movq 1568(%rsp), %rax
	movq %rax, 344(%rsp)
	movq 1552(%rsp), %rax
	movq %rax, 328(%rsp)
	movl 1560(%rsp), %eax
	movl %eax, 336(%rsp)
	movq 1536(%rsp), %rax
	movq %rax, 312(%rsp)
	movl 1544(%rsp), %eax
	movl %eax, 320(%rsp)
	movq 1520(%rsp), %rax
	movq %rax, 296(%rsp)
	movl 1528(%rsp), %eax
	movl %eax, 304(%rsp)
	movl 1512(%rsp), %eax
	movl %eax, 288(%rsp)
	movq 1504(%rsp), %rax
	movq %rax, 280(%rsp)
	vpxor %xmm0, %xmm0, %xmm0
	vmovdqu %ymm0, 2784(%rsp)
	vmovdqu %ymm0, 2752(%rsp)
	vmovdqu %ymm0, 2720(%rsp)
	vmovdqu %ymm0, 2688(%rsp)
	vmovdqu %ymm0, 2656(%rsp)
	vmovdqu %ymm0, 2624(%rsp)
	vmovdqu %ymm0, 2592(%rsp)
	vmovdqu %ymm0, 2560(%rsp)
	vmovdqu %ymm0, 2528(%rsp)
	movq 72(%rsp), %rbx
	lock  decq (%rbx)
	jne .LBB111_25
	leaq 8(%rbx), %rsi
	leaq 2528(%rsp), %r14
	movl $288, %edx
	movq %r14, %rdi
	vzeroupper
	callq memcpy@PLT
	movq %rbx, %rdi
	callq tags_library_dealloc@PLT
	movq %r14, %rdi
	callq tag_c.pool_state.PoolState.drop
.LBB111_25:
	movq 968(%rsp), %rax
	movq %rax, 264(%rsp)
	movl 976(%rsp), %eax
	movl %eax, 272(%rsp)
	movq 952(%rsp), %rax
	movq %rax, 248(%rsp)
	movl 960(%rsp), %eax
	movl %eax, 256(%rsp)
	movq 936(%rsp), %rax
	movq %rax, 232(%rsp)
	movl 944(%rsp), %eax
	movl %eax, 240(%rsp)
	movq 920(%rsp), %rax
	movq %rax, 216(%rsp)
	movl 928(%rsp), %eax
	movl %eax, 224(%rsp)
	movl 912(%rsp), %eax
	movl %eax, 208(%rsp)
	movq 904(%rsp), %rax
	movq %rax, 200(%rsp)
	movl 896(%rsp), %eax
	movl %eax, 192(%rsp)
	movq 888(%rsp), %rax
	movq %rax, 184(%rsp)
	movl 880(%rsp), %eax
	movl %eax, 176(%rsp)
	movq 872(%rsp), %rax
	movq %rax, 168(%rsp)
	movl 864(%rsp), %eax
	movl %eax, 160(%rsp)
	movq 856(%rsp), %rax
	movq %rax, 152(%rsp)
	movl 848(%rsp), %eax
	movl %eax, 144(%rsp)
	movq 840(%rsp), %rax
	movq %rax, 136(%rsp)
	movl 832(%rsp), %eax
	movl %eax, 128(%rsp)
	movq 824(%rsp), %rax
	movq %rax, 120(%rsp)
	movl 816(%rsp), %eax
	movl %eax, 112(%rsp)
	movq 808(%rsp), %rax
	movq %rax, 104(%rsp)
	vpxor %xmm7, %xmm7, %xmm7
	xorl %ecx, %ecx
	movl $5, %eax
.LBB111_18:
	movq $0, 56(%rsp)
	movq $0, 72(%rsp)
	xorl %ebx, %ebx
	xorl %r13d, %r13d
	movq $0, 88(%rsp)
	movl $0, 16(%rsp)
	xorl %r9d, %r9d
	xorl %r10d, %r10d
	xorl %r8d, %r8d
	xorl %r11d, %r11d
	xorl %edi, %edi
	xorl %ebp, %ebp
	movq $0, 96(%rsp)
	vpxor %xmm1, %xmm1, %xmm1
	vpxor %xmm12, %xmm12, %xmm12
	vpxor %xmm10, %xmm10, %xmm10
	vpxor %xmm9, %xmm9, %xmm9
	vpxor %xmm8, %xmm8, %xmm8
	vpxor %xmm11, %xmm11, %xmm11
	vpxor %xmm0, %xmm0, %xmm0
	vpxor %xmm6, %xmm6, %xmm6
	vpxor %xmm5, %xmm5, %xmm5
	vpxor %xmm4, %xmm4, %xmm4
	vpxor %xmm3, %xmm3, %xmm3
	vpxor %xmm2, %xmm2, %xmm2
	xorl %r12d, %r12d
	xorl %r15d, %r15d
	movl $0, 8(%rsp)
	xorl %r14d, %r14d
	movl $0, 4(%rsp)
	xorl %esi, %esi
	movl $0, 12(%rsp)
	movq $0, 80(%rsp)
	movl $0, 48(%rsp)
	movq $0, 24(%rsp)
	movl $0, 40(%rsp)
	movq $0, 32(%rsp)
	jmp .LBB111_37
.LBB111_19:
	movq %r15, 32(%rsp)
	movl %ebp, 40(%rsp)
	movl %r14d, 48(%rsp)
	movq %rbx, 24(%rsp)
	movl 1296(%rsp), %eax
	movl %eax, 592(%rsp)
	movq 1288(%rsp), %rax
	movq %rax, 584(%rsp)
	movq 1272(%rsp), %rax
	movq %rax, 568(%rsp)
	movl 1280(%rsp), %eax
	movl %eax, 576(%rsp)
	movq 1256(%rsp), %rax
	movq %rax, 552(%rsp)
	movl 1264(%rsp), %eax
	movl %eax, 560(%rsp)
	movq 1240(%rsp), %rax
	movq %rax, 536(%rsp)
	movl 1248(%rsp), %eax
	movl %eax, 544(%rsp)
	movl 1232(%rsp), %eax
	movl %eax, 528(%rsp)
	movq 1224(%rsp), %rax
	movq %rax, 520(%rsp)
	movl 1216(%rsp), %eax
	movl %eax, 512(%rsp)
	movq 1208(%rsp), %rax
	movq %rax, 504(%rsp)
	movl 1200(%rsp), %eax
	movl %eax, 496(%rsp)
	movq 1192(%rsp), %rax
	movq %rax, 488(%rsp)
	movl 1184(%rsp), %eax
	movl %eax, 480(%rsp)
	movq 1176(%rsp), %rax
	movq %rax, 472(%rsp)
	movl 1168(%rsp), %eax
	movl %eax, 464(%rsp)
	movq 1160(%rsp), %rax
	movq %rax, 456(%rsp)
	movl 1152(%rsp), %eax
	movl %eax, 448(%rsp)
	movq 1144(%rsp), %rax
	movq %rax, 440(%rsp)
	movl 592(%rsp), %eax
	movl %eax, 1136(%rsp)
	movq 584(%rsp), %rax
	movq %rax, 1128(%rsp)
	movl 576(%rsp), %eax
	movl %eax, 1120(%rsp)
	movq 568(%rsp), %rax
	movq %rax, 1112(%rsp)
	movl 560(%rsp), %eax
	movl %eax, 1104(%rsp)
	movq 552(%rsp), %rax
	movq %rax, 1096(%rsp)
	movl 544(%rsp), %eax
	movl %eax, 1088(%rsp)
	movq 536(%rsp), %rax
	movq %rax, 1080(%rsp)
	movl 528(%rsp), %eax
	movl %eax, 1072(%rsp)
	movq 520(%rsp), %rax
	movq %rax, 1064(%rsp)
	movl 512(%rsp), %eax
	movl %eax, 1056(%rsp)
	movq 504(%rsp), %rax
	movq %rax, 1048(%rsp)
	movl 496(%rsp), %eax
	movl %eax, 1040(%rsp)
	movq 488(%rsp), %rax
	movq %rax, 1032(%rsp)
	movl 480(%rsp), %eax
	movl %eax, 1024(%rsp)
	movq 472(%rsp), %rax
	movq %rax, 1016(%rsp)
	movl 464(%rsp), %eax
	movl %eax, 1008(%rsp)
	movq 456(%rsp), %rax
	movq %rax, 1000(%rsp)
	movl 448(%rsp), %eax
	movl %eax, 992(%rsp)
	movq 440(%rsp), %rax
	movq %rax, 984(%rsp)
	movl 1136(%rsp), %eax
	movl %eax, 432(%rsp)
	movq 1128(%rsp), %rax
	movq %rax, 424(%rsp)
	movl 1120(%rsp), %eax
	movl %eax, 416(%rsp)
	movq 1112(%rsp), %rax
	movq %rax, 408(%rsp)
	movl 1104(%rsp), %eax
	movl %eax, 400(%rsp)
	movq 1096(%rsp), %rax
	movq %rax, 392(%rsp)
	movl 1088(%rsp), %eax
	movl %eax, 384(%rsp)
	movq 1080(%rsp), %rax
	movq %rax, 376(%rsp)
	movl 1072(%rsp), %eax
	movl %eax, 368(%rsp)
	movq 1064(%rsp), %rax
	movq %rax, 360(%rsp)
	movl 1056(%rsp), %eax
	movl %eax, 352(%rsp)
	movq 1048(%rsp), %rax
	movq %rax, 344(%rsp)
	movl 1040(%rsp), %eax
	movl %eax, 336(%rsp)
	movq 1032(%rsp), %rax
	movq %rax, 328(%rsp)
	movl 1024(%rsp), %eax
	movl %eax, 320(%rsp)
	movq 1016(%rsp), %rax
	movq %rax, 312(%rsp)
	movl 1008(%rsp), %eax
	movl %eax, 304(%rsp)
	movq 1000(%rsp), %rax
	movq %rax, 296(%rsp)
	movl 992(%rsp), %eax
	movl %eax, 288(%rsp)
	movq 984(%rsp), %rax
	movq %rax, 280(%rsp)
	movl 1472(%rsp), %edx
	movq 792(%rsp), %rdi
	movq 2032(%rsp), %r8
	movq 2040(%rsp), %r9
	movl 1468(%rsp), %r10d
	movl 1464(%rsp), %r11d
	movl 68(%rsp), %ebp
	vmovdqa 1984(%rsp), %xmm2
	vmovdqa 1968(%rsp), %xmm3
	vmovdqa 1952(%rsp), %xmm4
	vmovdqa 1936(%rsp), %xmm5
	vmovdqa 1920(%rsp), %xmm6
	vmovdqa 2000(%rsp), %xmm7
	vmovdqa 1904(%rsp), %xmm8
	vmovdqa 1888(%rsp), %xmm9
	vmovdqa 1872(%rsp), %xmm10
	movq 800(%rsp), %r15
	movl 64(%rsp), %r12d
	vmovdqa 1856(%rsp), %xmm11
	movq 1824(%rsp), %r13
	movq 784(%rsp), %r14
	movl 4(%rsp), %ebx
	vmovdqa 1840(%rsp), %xmm1
	testl %edx, %edx
	movq 80(%rsp), %rsi
	movq 24(%rsp), %rdx
	jne .LBB111_34
	jmp .LBB111_21
.LBB111_28:
	xorl %edx, %edx
	divl %esi
	movl %eax, %r13d
.LBB111_30:
	movl 8(%rsp), %edx
	movq 72(%rsp), %rax
	movl 184(%rax), %eax
	imulq %rdx, %rax
	movq %rax, %rdx
	shrq $32, %rdx
	je .LBB111_31
	xorl %edx, %edx
	divq %rcx
	jmp .LBB111_33
.LBB111_31:
	xorl %edx, %edx
	divl %ecx
.LBB111_33:
	movq %rax, 16(%rsp)
	movq 80(%rsp), %rsi
	movq 24(%rsp), %rdx
.LBB111_34:
	movl %ebx, 4(%rsp)
	movq 72(%rsp), %rax
	movl 264(%rax), %ecx
	testl %ecx, %ecx
	je .LBB111_35
	movzbl 268(%rax), %eax
	cmpl $64, %ecx
	movq %r14, %rsi
	movl $64, %ebx
	cmovbl %ecx, %ebx
	vpshufd $144, %xmm1, %xmm0
	vpinsrd $0, %r13d, %xmm0, %xmm12
	movl %ebx, %r13d
	shlq $32, %rbx
	movl $0, 272(%rsp)
	movq $0, 264(%rsp)
	movq 424(%rsp), %rcx
	movq %rcx, 248(%rsp)
	movl 432(%rsp), %ecx
	movl %ecx, 256(%rsp)
	movq 408(%rsp), %rcx
	movq %rcx, 232(%rsp)
	movl 416(%rsp), %ecx
	movl %ecx, 240(%rsp)
	movq 392(%rsp), %rcx
	movq %rcx, 216(%rsp)
	movl 400(%rsp), %ecx
	movl %ecx, 224(%rsp)
	movq 376(%rsp), %rcx
	movq %rcx, 200(%rsp)
	movl 384(%rsp), %ecx
	movl %ecx, 208(%rsp)
	movl 368(%rsp), %ecx
	movl %ecx, 192(%rsp)
	movq 360(%rsp), %rcx
	movq %rcx, 184(%rsp)
	movl 352(%rsp), %ecx
	movl %ecx, 176(%rsp)
	movq 344(%rsp), %rcx
	movq %rcx, 168(%rsp)
	movl 336(%rsp), %ecx
	movl %ecx, 160(%rsp)
	movq 328(%rsp), %rcx
	movq %rcx, 152(%rsp)
	movl 320(%rsp), %ecx
	movl %ecx, 144(%rsp)
	movq 312(%rsp), %rcx
	movq %rcx, 136(%rsp)
	movl 304(%rsp), %ecx
	movl %ecx, 128(%rsp)
	movq 296(%rsp), %rcx
	movq %rcx, 120(%rsp)
	movl 288(%rsp), %ecx
	movl %ecx, 112(%rsp)
	movq 280(%rsp), %rcx
	movq %rcx, 104(%rsp)
	vpinsrd $2, 16(%rsp), %xmm7, %xmm0
	vpextrd $3, %xmm1, 16(%rsp)
	vmovd %eax, %xmm1
	vpinsrd $3, 56(%rsp), %xmm0, %xmm0
	movl $2, %eax
	movq %rax, 56(%rsp)
	movb $1, %cl
	xorl %eax, %eax
	vmovdqa %xmm11, %xmm7
	movq 600(%rsp), %r14
	jmp .LBB111_37
.LBB111_35:
	movl 432(%rsp), %eax
	movl %eax, 272(%rsp)
	movq 424(%rsp), %rax
	movq %rax, 264(%rsp)
	movq 408(%rsp), %rax
	movq %rax, 248(%rsp)
	movl 416(%rsp), %eax
	movl %eax, 256(%rsp)
	movq 392(%rsp), %rax
	movq %rax, 232(%rsp)
	movl 400(%rsp), %eax
	movl %eax, 240(%rsp)
	movq 376(%rsp), %rax
	movq %rax, 216(%rsp)
	movl 384(%rsp), %eax
	movl %eax, 224(%rsp)
	movl 368(%rsp), %eax
	movl %eax, 208(%rsp)
	movq 360(%rsp), %rax
	movq %rax, 200(%rsp)
	movl 352(%rsp), %eax
	movl %eax, 192(%rsp)
	movq 344(%rsp), %rax
	movq %rax, 184(%rsp)
	movl 336(%rsp), %eax
	movl %eax, 176(%rsp)
	movq 328(%rsp), %rax
	movq %rax, 168(%rsp)
	movl 320(%rsp), %eax
	movl %eax, 160(%rsp)
	movq 312(%rsp), %rax
	movq %rax, 152(%rsp)
	movl 304(%rsp), %eax
	movl %eax, 144(%rsp)
	movq 296(%rsp), %rax
	movq %rax, 136(%rsp)
	movl 288(%rsp), %eax
	movl %eax, 128(%rsp)
	movq 280(%rsp), %rax
	movq %rax, 120(%rsp)
	movl 1496(%rsp), %eax
	movl %eax, 112(%rsp)
	movq 1488(%rsp), %rax
	movq %rax, 104(%rsp)
	vpinsrd $2, 16(%rsp), %xmm7, %xmm0
	vpinsrd $3, 56(%rsp), %xmm0, %xmm0
	vmovdqa %xmm10, %xmm12
	vmovdqa %xmm9, %xmm10
	vmovdqa %xmm8, %xmm9
	vmovdqa %xmm11, %xmm8
	movq 88(%rsp), %rbx
	movq %r9, 88(%rsp)
	movl %r10d, 16(%rsp)
	movq %r8, %r9
	movl %r11d, %r10d
	movq %rdi, %r8
	movl %ebp, %r11d
	movq 96(%rsp), %rdi
	movl %r12d, %ebp
	movq %r15, 96(%rsp)
	movl 8(%rsp), %r12d
	movq 600(%rsp), %r15
	movl 4(%rsp), %eax
	movl %eax, 8(%rsp)
	movl 12(%rsp), %eax
	movl %eax, 4(%rsp)
	movl 48(%rsp), %eax
	movl %eax, 12(%rsp)
	movq %rdx, 80(%rsp)
	movl 40(%rsp), %eax
	movl %eax, 48(%rsp)
	movq 32(%rsp), %rax
	movq %rax, 24(%rsp)
	vmovdqa %xmm0, %xmm11
	vmovdqa %xmm6, %xmm0
	vmovdqa %xmm5, %xmm6
	vmovdqa %xmm4, %xmm5
	vmovdqa %xmm3, %xmm4
	vmovdqa %xmm2, %xmm3
	vpxor %xmm2, %xmm2, %xmm2
	xorl %eax, %eax
	movb $1, %cl
	movq $0, 56(%rsp)
	movl $0, 40(%rsp)
	movl $0, %edx
	movq %rdx, 32(%rsp)
.LBB111_37:
	movl 272(%rsp), %edx
	movl %edx, 776(%rsp)
	movq 264(%rsp), %rdx
	movq %rdx, 768(%rsp)
	movl 256(%rsp), %edx
	movl %edx, 760(%rsp)
	movq 248(%rsp), %rdx
	movq %rdx, 752(%rsp)
	movl 240(%rsp), %edx
	movl %edx, 744(%rsp)
	movq 232(%rsp), %rdx
	movq %rdx, 736(%rsp)
	movl 224(%rsp), %edx
	movl %edx, 728(%rsp)
	movq 216(%rsp), %rdx
	movq %rdx, 720(%rsp)
	movl 208(%rsp), %edx
	movl %edx, 712(%rsp)
	movq 200(%rsp), %rdx
	movq %rdx, 704(%rsp)
	movl 192(%rsp), %edx
	movl %edx, 696(%rsp)
	movq 184(%rsp), %rdx
	movq %rdx, 688(%rsp)
	movl 176(%rsp), %edx
	movl %edx, 680(%rsp)
	movq 168(%rsp), %rdx
	movq %rdx, 672(%rsp)
	movl 160(%rsp), %edx
	movl %edx, 664(%rsp)
	movq 152(%rsp), %rdx
	movq %rdx, 656(%rsp)
	movl 144(%rsp), %edx
	movl %edx, 648(%rsp)
	movq 136(%rsp), %rdx
	movq %rdx, 640(%rsp)
	movl 128(%rsp), %edx
	movl %edx, 632(%rsp)
	movq 120(%rsp), %rdx
	movq %rdx, 624(%rsp)
	movl 112(%rsp), %edx
	movl %edx, 616(%rsp)
	movq 104(%rsp), %rdx
	movq %rdx, 608(%rsp)
	testb %cl, %cl
	je .LBB111_41
	vmovdqa %xmm0, 1824(%rsp)
	vmovdqa %xmm12, 1472(%rsp)
	vmovdqa %xmm1, 1840(%rsp)
	movq %r14, 600(%rsp)
	movq %rsi, 784(%rsp)
	vmovdqa %xmm11, 1856(%rsp)
	movl %r12d, 64(%rsp)
	movq %r15, 800(%rsp)
	vmovdqa %xmm10, 1872(%rsp)
	vmovdqa %xmm9, 1888(%rsp)
	vmovdqa %xmm8, 1904(%rsp)
	vmovdqa %xmm7, 2000(%rsp)
	vmovdqa %xmm6, 1920(%rsp)
	vmovdqa %xmm5, 1936(%rsp)
	vmovdqa %xmm4, 1952(%rsp)
	vmovdqa %xmm3, 1968(%rsp)
	vmovdqa %xmm2, 1984(%rsp)
	movl %ebp, 68(%rsp)
	movl %r11d, %r14d
	movl %r10d, %r15d
	movq %r9, %rbp
	movq %r8, %r12
	movq %rdi, 792(%rsp)
	movl $480, %edi
	movl $8, %esi
	vzeroupper
	callq tags_library_alloc@PLT
	testb $1, %al
	je .LBB111_40
	movq 56(%rsp), %rax
	movq %rax, (%rdx)
	movq 72(%rsp), %rax
	movq %rax, 8(%rdx)
	movq %rbx, 16(%rdx)
	movl %r13d, 24(%rdx)
	vmovaps 1840(%rsp), %xmm0
	vmovups %xmm0, 28(%rdx)
	movq 768(%rsp), %rax
	movq %rax, 44(%rdx)
	movl 776(%rsp), %eax
	movl %eax, 52(%rdx)
	movq 88(%rsp), %rax
	movq %rax, 56(%rdx)
	vmovaps 1472(%rsp), %xmm0
	vmovups %xmm0, 64(%rdx)
	movl 16(%rsp), %eax
	movl %eax, 80(%rdx)
	movq 752(%rsp), %rax
	movq %rax, 84(%rdx)
	movl 760(%rsp), %eax
	movl %eax, 92(%rdx)
	movq %rbp, 96(%rdx)
	vmovaps 1872(%rsp), %xmm0
	vmovups %xmm0, 104(%rdx)
	movl %r15d, 120(%rdx)
	movq 736(%rsp), %rax
	movq %rax, 124(%rdx)
	movl 744(%rsp), %eax
	movl %eax, 132(%rdx)
	movq %r12, 136(%rdx)
	vmovaps 1888(%rsp), %xmm0
	vmovups %xmm0, 144(%rdx)
	movl %r14d, 160(%rdx)
	movl 728(%rsp), %eax
	movl %eax, 172(%rdx)
	movq 720(%rsp), %rax
	movq %rax, 164(%rdx)
	movq 792(%rsp), %rax
	movq %rax, 176(%rdx)
	vmovaps 1904(%rsp), %xmm0
	vmovups %xmm0, 184(%rdx)
	movl 68(%rsp), %eax
	movl %eax, 200(%rdx)
	movl 712(%rsp), %eax
	movl %eax, 212(%rdx)
	movq 704(%rsp), %rax
	movq %rax, 204(%rdx)
	movq 96(%rsp), %rax
	movq %rax, 216(%rdx)
	vmovaps 2000(%rsp), %xmm0
	vmovlps %xmm0, 224(%rdx)
	vmovaps 1856(%rsp), %xmm0
	vextractps $2, %xmm0, 232(%rdx)
	vextractps $3, %xmm0, 236(%rdx)
	movl 64(%rsp), %eax
	movl %eax, 240(%rdx)
	movl 696(%rsp), %eax
	movl %eax, 252(%rdx)
	movq 688(%rsp), %rax
	movq %rax, 244(%rdx)
	movq 800(%rsp), %rax
	movq %rax, 256(%rdx)
	vmovaps 1824(%rsp), %xmm0
	vmovups %xmm0, 264(%rdx)
	movl 8(%rsp), %eax
	movl %eax, 280(%rdx)
	movq 672(%rsp), %rax
	movq %rax, 284(%rdx)
	movl 680(%rsp), %eax
	movl %eax, 292(%rdx)
	movq 600(%rsp), %rax
	movq %rax, 296(%rdx)
	vmovaps 1920(%rsp), %xmm0
	vmovups %xmm0, 304(%rdx)
	movl 4(%rsp), %eax
	movl %eax, 320(%rdx)
	movl 664(%rsp), %eax
	movl %eax, 332(%rdx)
	movq 656(%rsp), %rax
	movq %rax, 324(%rdx)
	movq 784(%rsp), %rax
	movq %rax, 336(%rdx)
	vmovaps 1936(%rsp), %xmm0
	vmovups %xmm0, 344(%rdx)
	movl 12(%rsp), %eax
	movl %eax, 360(%rdx)
	movl 648(%rsp), %eax
	movl %eax, 372(%rdx)
	movq 640(%rsp), %rax
	movq %rax, 364(%rdx)
	movq 80(%rsp), %rax
	movq %rax, 376(%rdx)
	vmovaps 1952(%rsp), %xmm0
	vmovups %xmm0, 384(%rdx)
	movl 48(%rsp), %eax
	movl %eax, 400(%rdx)
	movl 632(%rsp), %eax
	movl %eax, 412(%rdx)
	movq 624(%rsp), %rax
	movq %rax, 404(%rdx)
	movq 24(%rsp), %rax
	movq %rax, 416(%rdx)
	vmovaps 1968(%rsp), %xmm0
	vmovups %xmm0, 424(%rdx)
	movl 40(%rsp), %eax
	movl %eax, 440(%rdx)
	movl 616(%rsp), %eax
	movl %eax, 452(%rdx)
	movq 608(%rsp), %rax
	movq %rax, 444(%rdx)
	movq 32(%rsp), %rax
	movq %rax, 456(%rdx)
	vmovdqa 1984(%rsp), %xmm0
	vmovdqu %xmm0, 464(%rdx)
	movq 2024(%rsp), %rax
	movq $1, (%rax)
	movq %rdx, 8(%rax)
	xorl %eax, %eax
	jmp .LBB111_42
.LBB111_41:
	leaq .Lswitch.table.tags_library_join(%rip), %rcx
	movl (%rcx,%rax,4), %eax
.LBB111_42:
	addq $2952, %rsp
	popq %rbx
	popq %r12
	popq %r13
	popq %r14
	popq %r15
	popq %rbp
	vzeroupper
	retq
.LBB111_40:
	movq 56(%rsp), %rax
	movq %rax, 2048(%rsp)
	movq 72(%rsp), %rax
	movq %rax, 2056(%rsp)
	movq %rbx, 2064(%rsp)
	movl %r13d, 2072(%rsp)
	vmovaps 1840(%rsp), %xmm0
	vmovups %xmm0, 2076(%rsp)
	movq 768(%rsp), %rax
	movq %rax, 2092(%rsp)
	movl 776(%rsp), %eax
	movl %eax, 2100(%rsp)
	movq 88(%rsp), %rax
	movq %rax, 2104(%rsp)
	vmovaps 1472(%rsp), %xmm0
	vmovaps %xmm0, 2112(%rsp)
	movl 16(%rsp), %eax
	movl %eax, 2128(%rsp)
	movq 752(%rsp), %rax
	movq %rax, 2132(%rsp)
	movl 760(%rsp), %eax
	movl %eax, 2140(%rsp)
	movq %rbp, 2144(%rsp)
	vmovaps 1872(%rsp), %xmm0
	vmovups %xmm0, 2152(%rsp)
	movl %r15d, 2168(%rsp)
	movl 744(%rsp), %eax
	movl %eax, 2180(%rsp)
	movq 736(%rsp), %rax
	movq %rax, 2172(%rsp)
	movq %r12, 2184(%rsp)
	vmovaps 1888(%rsp), %xmm0
	vmovaps %xmm0, 2192(%rsp)
	movl %r14d, 2208(%rsp)
	movq 720(%rsp), %rax
	movq %rax, 2212(%rsp)
	movl 728(%rsp), %eax
	movl %eax, 2220(%rsp)
	movq 792(%rsp), %rax
	movq %rax, 2224(%rsp)
	vmovaps 1904(%rsp), %xmm0
	vmovups %xmm0, 2232(%rsp)
	movl 68(%rsp), %eax
	movl %eax, 2248(%rsp)
	movq 704(%rsp), %rax
	movq %rax, 2252(%rsp)
	movl 712(%rsp), %eax
	movl %eax, 2260(%rsp)
	movq 96(%rsp), %rax
	movq %rax, 2264(%rsp)
	vmovaps 1856(%rsp), %xmm0
	vmovaps %xmm0, 2272(%rsp)
	movl 64(%rsp), %eax
	movl %eax, 2288(%rsp)
	movl 696(%rsp), %eax
	movl %eax, 2300(%rsp)
	movq 688(%rsp), %rax
	movq %rax, 2292(%rsp)
	movq 800(%rsp), %rax
	movq %rax, 2304(%rsp)
	vmovaps 1824(%rsp), %xmm0
	vmovups %xmm0, 2312(%rsp)
	movl 8(%rsp), %eax
	movl %eax, 2328(%rsp)
	movl 680(%rsp), %eax
	movl %eax, 2340(%rsp)
	movq 672(%rsp), %rax
	movq %rax, 2332(%rsp)
	movq 600(%rsp), %rax
	movq %rax, 2344(%rsp)
	vmovaps 1920(%rsp), %xmm0
	vmovaps %xmm0, 2352(%rsp)
	movl 4(%rsp), %eax
	movl %eax, 2368(%rsp)
	movl 664(%rsp), %eax
	movl %eax, 2380(%rsp)
	movq 656(%rsp), %rax
	movq %rax, 2372(%rsp)
	movq 784(%rsp), %rax
	movq %rax, 2384(%rsp)
	vmovaps 1936(%rsp), %xmm0
	vmovups %xmm0, 2392(%rsp)
	movl 12(%rsp), %eax
	movl %eax, 2408(%rsp)
	movl 648(%rsp), %eax
	movl %eax, 2420(%rsp)
	movq 640(%rsp), %rax
	movq %rax, 2412(%rsp)
	movq 80(%rsp), %rax
	movq %rax, 2424(%rsp)
	vmovaps 1952(%rsp), %xmm0
	vmovaps %xmm0, 2432(%rsp)
	movl 48(%rsp), %eax
	movl %eax, 2448(%rsp)
	movl 632(%rsp), %eax
	movl %eax, 2460(%rsp)
	movq 624(%rsp), %rax
	movq %rax, 2452(%rsp)
	movq 24(%rsp), %rax
	movq %rax, 2464(%rsp)
	vmovaps 1968(%rsp), %xmm0
	vmovups %xmm0, 2472(%rsp)
	movl 40(%rsp), %eax
	movl %eax, 2488(%rsp)
	movl 616(%rsp), %eax
	movl %eax, 2500(%rsp)
	movq 608(%rsp), %rax
	movq %rax, 2492(%rsp)
	movq 32(%rsp), %rax
	movq %rax, 2504(%rsp)
	vmovdqa 1984(%rsp), %xmm0
	vmovdqa %xmm0, 2512(%rsp)
	leaq 2048(%rsp), %rdi
	callq tag_c.object.Object.leave
	movl $-21, %eax
	jmp .LBB111_42
.LBB111_22:
	ud2
.Lfunc_end111:
	.size tags_library_join, .Lfunc_end111-tags_library_join
	.section .text.tags_library_listen_on,"ax",@progbits
	.globl tags_library_listen_on
	.p2align 4
	.type tags_library_listen_on,@function
tags_library_listen_on:
	xorl %r10d, %r10d
	testl %edx, %edx
	setne %r8b
	movl $-12, %eax
	cmpq $1, (%rdi)
	jne .LBB112_11
	pushq %r14
	pushq %rbx
	subq $56, %rsp
	movq 8(%rdi), %rdx
	movzbl (%rdx), %edi
	cmpl $2, %edi
	je .LBB112_8
	cmpl $1, %edi
	je .LBB112_10
	movq %rcx, %r14
	vxorps %xmm0, %xmm0, %xmm0
	vmovups %ymm0, 16(%rsp)
	movq 8(%rdx), %rax
	addq $8, %rax
	addq $16, %rdx
	xorl %r9d, %r9d
	movl %esi, %ebx
	testl %esi, %esi
	setne %r9b
	movb %r8b, %r10b
	movl %r10d, (%rsp)
	leaq 16(%rsp), %rdi
	movq %rax, %rsi
	xorl %ecx, %ecx
	movl $1, %r8d
	vzeroupper
	callq tag_c.rounds.bare.make_round
	jmp .LBB112_4
.LBB112_8:
	vxorps %xmm0, %xmm0, %xmm0
	vmovups %ymm0, 16(%rsp)
	movq 8(%rdx), %rax
	addq $8, %rax
	addq $16, %rdx
	xorl %r9d, %r9d
	movl %esi, %ebx
	testl %esi, %esi
	setne %r9b
	movzbl %r8b, %esi
	movl %esi, (%rsp)
	leaq 16(%rsp), %rdi
	movq %rax, %rsi
	movq %rcx, %r14
	xorl %ecx, %ecx
	movl $1, %r8d
	vzeroupper
	callq tag_c.rounds.caching.make_round_over
.LBB112_4:
	movzbl 17(%rsp), %edx
	movzbl 20(%rsp), %ecx
	movl 24(%rsp), %eax
	vmovaps 32(%rsp), %xmm0
	cmpb $0, 16(%rsp)
	vmovups %xmm0, (%r14)
	je .LBB112_5
	leaq .Lswitch.table.tags_library_wait_on_reserved.286(%rip), %rax
	movl (%rax,%rdx,4), %eax
.LBB112_10:
	addq $56, %rsp
	popq %rbx
	popq %r14
.LBB112_11:
	retq
.LBB112_5:
	testl %ecx, %ecx
	je .LBB112_10
	movl %ebx, %eax
	cmpl $1, %ecx
	je .LBB112_10
	movl $-10, %eax
	jmp .LBB112_10
.Lfunc_end112:
	.size tags_library_listen_on, .Lfunc_end112-tags_library_listen_on
	.section .text.tags_library_listen_on_reserved,"ax",@progbits
	.globl tags_library_listen_on_reserved
	.p2align 4
	.type tags_library_listen_on_reserved,@function
tags_library_listen_on_reserved:
	xorl %r10d, %r10d
	testl %edx, %edx
	setne %r8b
	movl $-12, %eax
	cmpq $1, (%rdi)
	jne .LBB113_11
	pushq %r14
	pushq %rbx
	subq $56, %rsp
	movq 8(%rdi), %rdx
	movzbl (%rdx), %edi
	cmpl $2, %edi
	je .LBB113_8
	cmpl $1, %edi
	je .LBB113_10
	movq %rcx, %r14
	vxorps %xmm0, %xmm0, %xmm0
	vmovups %ymm0, 16(%rsp)
	movq 8(%rdx), %rax
	addq $8, %rax
	addq $16, %rdx
	xorl %r9d, %r9d
	movl %esi, %ebx
	testl %esi, %esi
	setne %r9b
	movb %r8b, %r10b
	movl %r10d, (%rsp)
	leaq 16(%rsp), %rdi
	movq %rax, %rsi
	movl $1, %ecx
	movl $1, %r8d
	vzeroupper
	callq tag_c.rounds.bare.make_round
	jmp .LBB113_4
.LBB113_8:
	vxorps %xmm0, %xmm0, %xmm0
	vmovups %ymm0, 16(%rsp)
	movq 8(%rdx), %rax
	addq $8, %rax
	addq $16, %rdx
	xorl %r9d, %r9d
	movl %esi, %ebx
	testl %esi, %esi
	setne %r9b
	movzbl %r8b, %esi
	movl %esi, (%rsp)
	leaq 16(%rsp), %rdi
	movq %rax, %rsi
	movq %rcx, %r14
	movl $1, %ecx
	movl $1, %r8d
	vzeroupper
	callq tag_c.rounds.caching.make_round_over
.LBB113_4:
	movzbl 17(%rsp), %edx
	movzbl 20(%rsp), %ecx
	movl 24(%rsp), %eax
	vmovaps 32(%rsp), %xmm0
	cmpb $0, 16(%rsp)
	vmovups %xmm0, (%r14)
	je .LBB113_5
	leaq .Lswitch.table.tags_library_wait_on_reserved.286(%rip), %rax
	movl (%rax,%rdx,4), %eax
.LBB113_10:
	addq $56, %rsp
	popq %rbx
	popq %r14
.LBB113_11:
	retq
.LBB113_5:
	testl %ecx, %ecx
	je .LBB113_10
	movl %ebx, %eax
	cmpl $1, %ecx
	je .LBB113_10
	movl $-10, %eax
	jmp .LBB113_10
.Lfunc_end113:
	.size tags_library_listen_on_reserved, .Lfunc_end113-tags_library_listen_on_reserved
	.section .text.tags_library_wait_on,"ax",@progbits
	.globl tags_library_wait_on
	.p2align 4
	.type tags_library_wait_on,@function
tags_library_wait_on:
	xorl %r10d, %r10d
	testl %edx, %edx
	setne %r8b
	movl $-12, %eax
	cmpq $1, (%rdi)
	jne .LBB114_11
	pushq %r14
	pushq %rbx
	subq $56, %rsp
	movq 8(%rdi), %rdx
	movzbl (%rdx), %edi
	cmpl $2, %edi
	je .LBB114_8
	cmpl $1, %edi
	je .LBB114_10
	movq %rcx, %r14
	vxorps %xmm0, %xmm0, %xmm0
	vmovups %ymm0, 16(%rsp)
	movq 8(%rdx), %rax
	addq $8, %rax
	addq $16, %rdx
	xorl %r9d, %r9d
	movl %esi, %ebx
	testl %esi, %esi
	setne %r9b
	movb %r8b, %r10b
	movl %r10d, (%rsp)
	leaq 16(%rsp), %rdi
	movq %rax, %rsi
	xorl %ecx, %ecx
	xorl %r8d, %r8d
	vzeroupper
	callq tag_c.rounds.bare.make_round
	jmp .LBB114_4
.LBB114_8:
	vxorps %xmm0, %xmm0, %xmm0
	vmovups %ymm0, 16(%rsp)
	movq 8(%rdx), %rax
	addq $8, %rax
	addq $16, %rdx
	xorl %r9d, %r9d
	movl %esi, %ebx
	testl %esi, %esi
	setne %r9b
	movzbl %r8b, %esi
	movl %esi, (%rsp)
	leaq 16(%rsp), %rdi
	movq %rax, %rsi
	movq %rcx, %r14
	xorl %ecx, %ecx
	xorl %r8d, %r8d
	vzeroupper
	callq tag_c.rounds.caching.make_round_over
.LBB114_4:
	movzbl 17(%rsp), %edx
	movzbl 20(%rsp), %ecx
	movl 24(%rsp), %eax
	vmovaps 32(%rsp), %xmm0
	cmpb $0, 16(%rsp)
	vmovups %xmm0, (%r14)
	je .LBB114_5
	leaq .Lswitch.table.tags_library_wait_on_reserved.286(%rip), %rax
	movl (%rax,%rdx,4), %eax
.LBB114_10:
	addq $56, %rsp
	popq %rbx
	popq %r14
.LBB114_11:
	retq
.LBB114_5:
	testl %ecx, %ecx
	je .LBB114_10
	movl %ebx, %eax
	cmpl $1, %ecx
	je .LBB114_10
	movl $-10, %eax
	jmp .LBB114_10
.Lfunc_end114:
	.size tags_library_wait_on, .Lfunc_end114-tags_library_wait_on
	.section .text.tags_library_wait_on_reserved,"ax",@progbits
	.globl tags_library_wait_on_reserved
	.p2align 4
	.type tags_library_wait_on_reserved,@function
tags_library_wait_on_reserved:
	xorl %r10d, %r10d
	testl %edx, %edx
	setne %r8b
	movl $-12, %eax
	cmpq $1, (%rdi)
	jne .LBB115_11
	pushq %r14
	pushq %rbx
	subq $56, %rsp
	movq 8(%rdi), %rdx
	movzbl (%rdx), %edi
	cmpl $2, %edi
	je .LBB115_8
	cmpl $1, %edi
	je .LBB115_10
	movq %rcx, %r14
	vxorps %xmm0, %xmm0, %xmm0
	vmovups %ymm0, 16(%rsp)
	movq 8(%rdx), %rax
	addq $8, %rax
	addq $16, %rdx
	xorl %r9d, %r9d
	movl %esi, %ebx
	testl %esi, %esi
	setne %r9b
	movb %r8b, %r10b
	movl %r10d, (%rsp)
	leaq 16(%rsp), %rdi
	movq %rax, %rsi
	movl $1, %ecx
	xorl %r8d, %r8d
	vzeroupper
	callq tag_c.rounds.bare.make_round
	jmp .LBB115_4
.LBB115_8:
	vxorps %xmm0, %xmm0, %xmm0
	vmovups %ymm0, 16(%rsp)
	movq 8(%rdx), %rax
	addq $8, %rax
	addq $16, %rdx
	xorl %r9d, %r9d
	movl %esi, %ebx
	testl %esi, %esi
	setne %r9b
	movzbl %r8b, %esi
	movl %esi, (%rsp)
	leaq 16(%rsp), %rdi
	movq %rax, %rsi
	movq %rcx, %r14
	movl $1, %ecx
	xorl %r8d, %r8d
	vzeroupper
	callq tag_c.rounds.caching.make_round_over
.LBB115_4:
	movzbl 17(%rsp), %edx
	movzbl 20(%rsp), %ecx
	movl 24(%rsp), %eax
	vmovaps 32(%rsp), %xmm0
	cmpb $0, 16(%rsp)
	vmovups %xmm0, (%r14)
	je .LBB115_5
	leaq .Lswitch.table.tags_library_wait_on_reserved.286(%rip), %rax
	movl (%rax,%rdx,4), %eax
.LBB115_10:
	addq $56, %rsp
	popq %rbx
	popq %r14
.LBB115_11:
	retq
.LBB115_5:
	testl %ecx, %ecx
	je .LBB115_10
	movl %ebx, %eax
	cmpl $1, %ecx
	je .LBB115_10
	movl $-10, %eax
	jmp .LBB115_10
.Lfunc_end115:
	.size tags_library_wait_on_reserved, .Lfunc_end115-tags_library_wait_on_reserved
	.section .text.tags_library_open,"ax",@progbits
	.globl tags_library_open
	.p2align 4
	.type tags_library_open,@function
tags_library_open:
	xorl %edx, %edx
	xorl %ecx, %ecx
	jmp tag_c.pools.open_into
.Lfunc_end116:
	.size tags_library_open, .Lfunc_end116-tags_library_open
	.section .text.tags_library_open_cached,"ax",@progbits
	.globl tags_library_open_cached
	.p2align 4
	.type tags_library_open_cached,@function
tags_library_open_cached:
	jmp tag_c.pools.open_into
.Lfunc_end117:
	.size tags_library_open_cached, .Lfunc_end117-tags_library_open_cached
	.section .rodata.cst32,"aM",@progbits,32
	.p2align 5, 0x0
.LCPI118_0:
	.zero 32,15
.LCPI118_1:
	.byte 0
	.byte 1
	.byte 1
	.byte 2
	.byte 1
	.byte 2
	.byte 2
	.byte 3
	.byte 1
	.byte 2
	.byte 2
	.byte 3
	.byte 2
	.byte 3
	.byte 3
	.byte 4
	.byte 0
	.byte 1
	.byte 1
	.byte 2
	.byte 1
	.byte 2
	.byte 2
	.byte 3
	.byte 1
	.byte 2
	.byte 2
	.byte 3
	.byte 2
	.byte 3
	.byte 3
	.byte 4
	.section .rodata.cst4,"aM",@progbits,4
	.p2align 2, 0x0
.LCPI118_2:
	.long 1
	.section .rodata,"a",@progbits
.LCPI118_3:
	.byte 15
	.section .text.tags_library_resize,"ax",@progbits
	.globl tags_library_resize
	.p2align 4
	.type tags_library_resize,@function
tags_library_resize:
	pushq %rbp
	pushq %r15
	pushq %r14
	pushq %r13
	pushq %r12
	pushq %rbx
	subq $3072, %rsp
	movq $0, (%rsp)
	subq $648, %rsp
	movl $-12, %eax
	cmpq $1, (%rdi)
	jne .LBB118_216
	movq 8(%rdi), %r14
	cmpb $1, (%r14)
	jne .LBB118_216
	movl $-1, %ecx
	cmpl $10240, %esi
	ja .LBB118_214
	movq 8(%r14), %rbx
	movl $-2, %ecx
	cmpl 260(%rbx), %esi
	jae .LBB118_4
.LBB118_214:
	addl $-21, %ecx
	movl %ecx, %eax
.LBB118_216:
	addq $3720, %rsp
	popq %rbx
	popq %r12
	popq %r13
	popq %r14
	popq %r15
	popq %rbp
	vzeroupper
	retq
.LBB118_4:
	movq 16(%r14), %rdx
	movq 24(%r14), %rcx
	movq 32(%r14), %rax
	movq (%rbx), %rdi
	cmpq $1, %rdi
	jne .LBB118_5
	leaq 8(%rbx), %rdi
	vmovups 216(%rdi), %ymm0
	vmovups %ymm0, 3640(%rsp)
	vmovups 192(%rdi), %ymm0
	vmovups %ymm0, 3616(%rsp)
	vmovups 160(%rdi), %ymm0
	vmovups %ymm0, 3584(%rsp)
	vmovups 128(%rdi), %ymm0
	vmovups %ymm0, 3552(%rsp)
	vmovups (%rdi), %ymm0
	vmovups 32(%rdi), %ymm1
	vmovups 64(%rdi), %ymm2
	vmovups 96(%rdi), %ymm3
	vmovups %ymm3, 3520(%rsp)
	vmovups %ymm2, 3488(%rsp)
	vmovups %ymm1, 3456(%rsp)
	vmovups %ymm0, 3424(%rsp)
	movq 256(%rbx), %rdi
	movq 264(%rbx), %r12
	vmovq %rdi, %xmm0
	vmovdqa %xmm0, 1392(%rsp)
	movq 288(%rbx), %r8
	movq %r8, 3704(%rsp)
	vmovups 272(%rbx), %xmm0
	vmovups %xmm0, 3688(%rsp)
	vxorps %xmm0, %xmm0, %xmm0
	vmovups %ymm0, 2448(%rsp)
	vmovups %ymm0, 2480(%rsp)
	vmovups %ymm0, 2512(%rsp)
	vmovups %ymm0, 2544(%rsp)
	vmovups %ymm0, 2576(%rsp)
	vmovups %ymm0, 2608(%rsp)
	vmovups %ymm0, 2640(%rsp)
	vmovups %ymm0, 2672(%rsp)
	vmovups %ymm0, 2704(%rsp)
	vmovups %ymm0, 3120(%rsp)
	vmovups %ymm0, 3152(%rsp)
	vmovups %ymm0, 3184(%rsp)
	vmovups %ymm0, 3216(%rsp)
	vmovups %ymm0, 3248(%rsp)
	vmovups %ymm0, 3280(%rsp)
	vmovups %ymm0, 3312(%rsp)
	vmovups %ymm0, 3344(%rsp)
	vmovups %ymm0, 3376(%rsp)
	movq $0, 3408(%rsp)
	vmovups %ymm0, 2952(%rsp)
	vmovups %ymm0, 2928(%rsp)
	vmovups %ymm0, 2896(%rsp)
	vmovups %ymm0, 2864(%rsp)
	vmovups %ymm0, 2832(%rsp)
	vmovups %ymm0, 2800(%rsp)
	vmovups %ymm0, 2768(%rsp)
	vmovups %ymm0, 2736(%rsp)
	vxorps %xmm0, %xmm0, %xmm0
	vmovaps %xmm0, 1792(%rsp)
	movq $0, 1808(%rsp)
	movq %rdx, 1912(%rsp)
	movq %rcx, 1920(%rsp)
	movq %rax, 1928(%rsp)
	movq %rdi, 3672(%rsp)
	movq %r12, 3680(%rsp)
	leaq 3120(%rsp), %rdi
	leaq 3424(%rsp), %rax
	leaq 1912(%rsp), %rdx
	movq %rsi, 200(%rsp)
	movq %rax, %rsi
	vzeroupper
	callq tag_c.pool_state.PoolState.part
	movq 200(%rsp), %rax
	vmovups 3336(%rsp), %ymm0
	vmovups %ymm0, 1304(%rsp)
	vmovups 3312(%rsp), %ymm0
	vmovups %ymm0, 1280(%rsp)
	vmovups 3280(%rsp), %ymm0
	vmovups %ymm0, 1248(%rsp)
	vmovups 3248(%rsp), %ymm0
	vmovups %ymm0, 1216(%rsp)
	vmovups 3120(%rsp), %ymm0
	vmovdqu 3152(%rsp), %ymm1
	vmovdqu 3184(%rsp), %ymm2
	vmovdqu 3216(%rsp), %ymm3
	vmovdqu %ymm3, 1184(%rsp)
	vmovdqu %ymm2, 1152(%rsp)
	vmovdqu %ymm1, 1120(%rsp)
	vmovups %ymm0, 1088(%rsp)
	movq 3384(%rsp), %rcx
	movq %rcx, 528(%rsp)
	vmovdqu 3368(%rsp), %xmm0
	vmovdqa %xmm0, 512(%rsp)
	movq 3392(%rsp), %r11
	movq 3400(%rsp), %r9
	vmovdqu 3400(%rsp), %xmm4
	movl 1272(%rsp), %ecx
	movq 512(%rsp), %r15
	movq 520(%rsp), %r10
	testl %ecx, %ecx
	movq %r12, 440(%rsp)
	movq %r11, 432(%rsp)
	je .LBB118_16
	xorl %esi, %esi
	testq %r10, %r10
	je .LBB118_8
	leaq 224(%r15), %rdx
.LBB118_11:
	movq %rdx, %rdi
	movq %r10, %r8
	.p2align 4
.LBB118_12:
	cmpl %esi, (%rdi)
	je .LBB118_15
	addq $424, %rdi
	decq %r8
	jne .LBB118_12
	jmp .LBB118_14
.LBB118_15:
	incl %esi
	cmpl %ecx, %esi
	jne .LBB118_11
.LBB118_16:
	movl 1312(%rsp), %edi
	movb $1, %sil
	movl %eax, %r8d
	subl %edi, %r8d
	jae .LBB118_18
	movq %r10, 40(%rsp)
	jmp .LBB118_9
.LBB118_5:
	movq %rbx, 8(%r14)
	movq %rdx, 16(%r14)
	movq %rcx, 24(%r14)
	movq %rax, 32(%r14)
	movl $-15, %eax
	jmp .LBB118_216
.LBB118_14:
	movq %r10, 40(%rsp)
	xorl %esi, %esi
	jmp .LBB118_9
.LBB118_8:
	movq $0, 40(%rsp)
	jmp .LBB118_9
.LBB118_18:
	movl 1268(%rsp), %eax
	movl %eax, 424(%rsp)
	cmpl $6, %eax
	ja .LBB118_148
	vmovdqa %xmm4, 224(%rsp)
	vpxor %xmm0, %xmm0, %xmm0
	vmovdqu %ymm0, 2992(%rsp)
	vmovdqu %ymm0, 3024(%rsp)
	vmovdqu %ymm0, 3056(%rsp)
	vmovdqu %ymm0, 3088(%rsp)
	vmovdqu %ymm0, 2192(%rsp)
	vmovdqu %ymm0, 2224(%rsp)
	vmovdqu %ymm0, 2256(%rsp)
	vmovdqu %ymm0, 2288(%rsp)
	vmovdqu %ymm0, 1936(%rsp)
	vmovdqu %ymm0, 1968(%rsp)
	vmovdqu %ymm0, 2000(%rsp)
	vmovdqu %ymm0, 2032(%rsp)
	vmovdqu %ymm0, 2064(%rsp)
	vmovdqu %ymm0, 2096(%rsp)
	vmovdqu %ymm0, 2128(%rsp)
	vmovdqu %ymm0, 2160(%rsp)
	vmovdqu %ymm0, 1872(%rsp)
	vmovdqu %ymm0, 1856(%rsp)
	vmovdqu %ymm0, 1824(%rsp)
	vmovdqu %ymm0, 1040(%rsp)
	vmovdqu %ymm0, 1056(%rsp)
	testq %r10, %r10
	je .LBB118_148
	decq %r10
	movq %r10, 520(%rsp)
	imulq $424, %r10, %rcx
	movl (%r15,%rcx), %eax
	movl %eax, 272(%rsp)
	movq 8(%r15,%rcx), %rax
	movq %rax, 56(%rsp)
	movl 16(%r15,%rcx), %eax
	movl %eax, 32(%rsp)
	movq 24(%r15,%rcx), %rax
	movq %rax, 72(%rsp)
	movl 36(%r15,%rcx), %eax
	movl %eax, 88(%rsp)
	movq 40(%r15,%rcx), %rax
	movq %rax, 40(%rsp)
	movq 48(%r15,%rcx), %rbp
	vmovdqu 56(%r15,%rcx), %ymm13
	movq 56(%r15,%rcx), %rdx
	movq 216(%r15,%rcx), %rax
	movq %rax, 176(%rsp)
	movl 224(%r15,%rcx), %eax
	movl %eax, 168(%rsp)
	movq 232(%r15,%rcx), %rsi
	movl 244(%r15,%rcx), %r10d
	movq 248(%r15,%rcx), %r11
	vmovdqu 264(%r15,%rcx), %ymm12
	movq 256(%r15,%rcx), %r13
	movq 264(%r15,%rcx), %rax
	vmovdqu %ymm0, 544(%rsp)
	vmovdqu %ymm0, 576(%rsp)
	vmovdqu %ymm0, 608(%rsp)
	vmovdqu %ymm0, 640(%rsp)
	vmovdqu %ymm0, 2320(%rsp)
	vmovdqu %ymm0, 2352(%rsp)
	vmovdqu %ymm0, 2384(%rsp)
	vmovdqu %ymm0, 2416(%rsp)
	vmovups 88(%r15,%rcx), %ymm1
	vmovups 120(%r15,%rcx), %ymm2
	vmovups 152(%r15,%rcx), %ymm3
	vmovups 184(%r15,%rcx), %ymm4
	vmovups %ymm4, 928(%rsp)
	vmovups %ymm3, 896(%rsp)
	vmovups %ymm2, 864(%rsp)
	vmovups %ymm1, 832(%rsp)
	vmovdqu 296(%r15,%rcx), %ymm1
	vmovdqu 328(%r15,%rcx), %ymm2
	vmovdqu 360(%r15,%rcx), %ymm3
	vmovdqu 392(%r15,%rcx), %ymm4
	vmovdqu %ymm1, 1632(%rsp)
	vmovdqu %ymm2, 1664(%rsp)
	vmovdqu %ymm3, 1696(%rsp)
	vmovdqu %ymm4, 1728(%rsp)
	vmovdqu %ymm0, 800(%rsp)
	vmovdqu %ymm0, 768(%rsp)
	vmovdqu %ymm0, 736(%rsp)
	vmovdqu %ymm0, 704(%rsp)
	movq 1088(%rsp), %rcx
	movq (%rcx), %rcx
	testq %rdx, %rdx
	movl %edi, 24(%rsp)
	movq %rsi, %r15
	je .LBB118_21
	cmpq $4, %rdx
	jae .LBB118_25
	xorl %ecx, %ecx
	xorl %esi, %esi
	jmp .LBB118_24
.LBB118_21:
	xorl %ecx, %ecx
	jmp .LBB118_35
.LBB118_25:
	cmpq $16, %rdx
	jae .LBB118_27
	xorl %esi, %esi
	xorl %ecx, %ecx
	jmp .LBB118_31
.LBB118_27:
	movq %rdx, %rsi
	andq $-16, %rsi
	xorl %ecx, %ecx
	vpxor %xmm1, %xmm1, %xmm1
	vpxor %xmm2, %xmm2, %xmm2
	vpxor %xmm3, %xmm3, %xmm3
	vpxor %xmm4, %xmm4, %xmm4
.LBB118_28:
	vmovdqu (%rbp,%rcx,8), %ymm5
	vmovdqu 32(%rbp,%rcx,8), %ymm6
	vmovdqu 64(%rbp,%rcx,8), %ymm7
	vmovdqu 96(%rbp,%rcx,8), %ymm8
	vpbroadcastb .LCPI118_3(%rip), %ymm9
	vpand %ymm5, %ymm9, %ymm10
	vmovdqa .LCPI118_1(%rip), %ymm11
	vpshufb %ymm10, %ymm11, %ymm10
	vpsrlw $4, %ymm5, %ymm5
	vpand %ymm5, %ymm9, %ymm5
	vpshufb %ymm5, %ymm11, %ymm5
	vpaddb %ymm5, %ymm10, %ymm5
	vpsadbw %ymm0, %ymm5, %ymm5
	vpaddq %ymm1, %ymm5, %ymm1
	vpand %ymm6, %ymm9, %ymm5
	vpshufb %ymm5, %ymm11, %ymm5
	vpsrlw $4, %ymm6, %ymm6
	vpand %ymm6, %ymm9, %ymm6
	vpshufb %ymm6, %ymm11, %ymm6
	vpaddb %ymm5, %ymm6, %ymm5
	vpsadbw %ymm0, %ymm5, %ymm5
	vpaddq %ymm2, %ymm5, %ymm2
	vpand %ymm7, %ymm9, %ymm5
	vpshufb %ymm5, %ymm11, %ymm5
	vpsrlw $4, %ymm7, %ymm6
	vpand %ymm6, %ymm9, %ymm6
	vpshufb %ymm6, %ymm11, %ymm6
	vpaddb %ymm5, %ymm6, %ymm5
	vpsadbw %ymm0, %ymm5, %ymm5
	vpaddq %ymm3, %ymm5, %ymm3
	vpand %ymm9, %ymm8, %ymm5
	vpshufb %ymm5, %ymm11, %ymm5
	vpsrlw $4, %ymm8, %ymm6
	vpand %ymm6, %ymm9, %ymm6
	vpshufb %ymm6, %ymm11, %ymm6
	vpaddb %ymm5, %ymm6, %ymm5
	vpsadbw %ymm0, %ymm5, %ymm5
	vpaddq %ymm4, %ymm5, %ymm4
	addq $16, %rcx
	cmpq %rcx, %rsi
	jne .LBB118_28
	vpaddq %ymm1, %ymm2, %ymm0
	vpaddq %ymm0, %ymm3, %ymm0
	vpaddq %ymm0, %ymm4, %ymm0
	vextracti128 $1, %ymm0, %xmm1
	vpaddq %xmm1, %xmm0, %xmm0
	vpshufd $238, %xmm0, %xmm1
	vpaddq %xmm1, %xmm0, %xmm0
	vmovq %xmm0, %rcx
	cmpq %rsi, %rdx
	je .LBB118_35
	testb $12, %dl
	je .LBB118_24
.LBB118_31:
	movq %rsi, %rdi
	movq %rdx, %rsi
	andq $-4, %rsi
	vmovq %rcx, %xmm0
.LBB118_32:
	vmovdqu (%rbp,%rdi,8), %ymm1
	vpbroadcastb .LCPI118_3(%rip), %ymm2
	vpand %ymm2, %ymm1, %ymm3
	vmovdqa .LCPI118_1(%rip), %ymm4
	vpshufb %ymm3, %ymm4, %ymm3
	vpsrlw $4, %ymm1, %ymm1
	vpand %ymm2, %ymm1, %ymm1
	vpshufb %ymm1, %ymm4, %ymm1
	vpaddb %ymm3, %ymm1, %ymm1
	vpxor %xmm2, %xmm2, %xmm2
	vpsadbw %ymm2, %ymm1, %ymm1
	vpaddq %ymm0, %ymm1, %ymm0
	addq $4, %rdi
	cmpq %rdi, %rsi
	jne .LBB118_32
	vextracti128 $1, %ymm0, %xmm1
	vpaddq %xmm1, %xmm0, %xmm0
	vpshufd $238, %xmm0, %xmm1
	vpaddq %xmm1, %xmm0, %xmm0
	vmovq %xmm0, %rcx
	jmp .LBB118_34
.LBB118_9:
	vmovq 1088(%rsp), %xmm1
	vmovdqu 1096(%rsp), %xmm2
	movq 1112(%rsp), %rax
	movq %rax, 88(%rsp)
	movq 1120(%rsp), %rax
	movq %rax, 192(%rsp)
	vmovdqu 1128(%rsp), %xmm3
	movq 1144(%rsp), %rax
	movq %rax, 184(%rsp)
	vmovdqa 1152(%rsp), %xmm5
	movq 1168(%rsp), %rax
	movq %rax, 176(%rsp)
	vmovups 1176(%rsp), %xmm0
	movq 1192(%rsp), %rax
	movq %rax, 168(%rsp)
	vmovdqa 1200(%rsp), %xmm7
	movq 1216(%rsp), %r13
	movq 1224(%rsp), %rbp
	movq 1232(%rsp), %r10
	movq 1240(%rsp), %r11
	vmovdqa 1248(%rsp), %xmm8
	vmovq 1264(%rsp), %xmm10
	movq 1272(%rsp), %r8
	movq 1280(%rsp), %rdi
	vmovdqu 1288(%rsp), %xmm9
	movq 1304(%rsp), %r12
	vmovdqa 1312(%rsp), %xmm6
	movzbl %sil, %ecx
	leaq .LJTI118_0(%rip), %rax
	movslq (%rax,%rcx,4), %rdx
	addq %rax, %rdx
	movq 1328(%rsp), %rax
	movq %rax, 72(%rsp)
	movq 528(%rsp), %r9
	jmpq *%rdx
.LBB118_205:
	movb $12, %al
	jmp .LBB118_209
.LBB118_207:
	xorl %ecx, %ecx
	movb $13, %al
	jmp .LBB118_209
.LBB118_208:
	xorl %ecx, %ecx
	movb $14, %al
	jmp .LBB118_209
.LBB118_206:
	movl $-1, %ecx
	movb $10, %al
.LBB118_209:
	movq %r13, %rdx
	movq %rbp, %r13
	movq 40(%rsp), %rsi
.LBB118_210:
	movq 88(%rsp), %rbp
.LBB118_211:
	vmovq %xmm1, 8(%rbx)
	vmovdqu %xmm2, 16(%rbx)
	movq %rbp, 32(%rbx)
	movq 192(%rsp), %rbp
	movq %rbp, 40(%rbx)
	vmovdqu %xmm3, 48(%rbx)
	movq 184(%rsp), %rbp
	movq %rbp, 64(%rbx)
	vmovdqu %xmm5, 72(%rbx)
	movq 176(%rsp), %rbp
	movq %rbp, 88(%rbx)
	vmovups %xmm0, 96(%rbx)
	movq 168(%rsp), %rbp
	movq %rbp, 112(%rbx)
	vmovdqu %xmm7, 120(%rbx)
	movq %rdx, 136(%rbx)
	movq %r13, 144(%rbx)
	movq %r10, 152(%rbx)
	movq %r11, 160(%rbx)
	vmovdqu %xmm8, 168(%rbx)
	vmovq %xmm10, 184(%rbx)
	movq %r8, 192(%rbx)
	movq %rdi, 200(%rbx)
	vmovdqu %xmm9, 208(%rbx)
	movq %r12, 224(%rbx)
	vmovdqu %xmm6, 232(%rbx)
	movq 72(%rsp), %rdx
	movq %rdx, 248(%rbx)
	vmovdqa 1392(%rsp), %xmm0
	vmovq %xmm0, 256(%rbx)
	movq 440(%rsp), %rdx
	movq %rdx, 264(%rbx)
	movq 432(%rsp), %rdx
	movq %rdx, 272(%rbx)
	vmovdqu %xmm4, 280(%rbx)
	movq %rbx, 8(%r14)
	movq %r15, 16(%r14)
	movq %rsi, 24(%r14)
	movq %r9, 32(%r14)
	movzbl %al, %eax
	leaq .LJTI118_1(%rip), %rdx
	movslq (%rdx,%rax,4), %rsi
	addq %rdx, %rsi
	jmpq *%rsi
.LBB118_215:
	movl $-20, %eax
	jmp .LBB118_216
.LBB118_212:
	movl $-29, %eax
	jmp .LBB118_216
.LBB118_213:
	movl $-30, %eax
	jmp .LBB118_216
.LBB118_24:
	popcntq (%rbp,%rsi,8), %rdi
	addq %rdi, %rcx
	incq %rsi
.LBB118_34:
	cmpq %rsi, %rdx
	jne .LBB118_24
.LBB118_35:
	vmovdqu 832(%rsp), %ymm0
	vmovdqu 864(%rsp), %ymm1
	vmovdqu 896(%rsp), %ymm2
	vmovdqu 928(%rsp), %ymm3
	vmovdqu %ymm0, 2320(%rsp)
	vmovdqu %ymm1, 2352(%rsp)
	vmovdqu %ymm2, 2384(%rsp)
	vmovdqu %ymm3, 2416(%rsp)
	vmovdqu %ymm0, 544(%rsp)
	vmovdqu %ymm1, 576(%rsp)
	vmovdqu %ymm2, 608(%rsp)
	vmovdqu %ymm3, 640(%rsp)
	movq 1200(%rsp), %rdx
	movq (%rdx), %rdx
	testq %rax, %rax
	movq %r8, 1360(%rsp)
	movl %r10d, 192(%rsp)
	movq %r11, 184(%rsp)
	je .LBB118_36
	cmpq $4, %rax
	jae .LBB118_40
	xorl %esi, %esi
	xorl %edx, %edx
	jmp .LBB118_39
.LBB118_36:
	xorl %esi, %esi
	jmp .LBB118_50
.LBB118_40:
	cmpq $16, %rax
	jae .LBB118_42
	xorl %edx, %edx
	xorl %esi, %esi
	jmp .LBB118_46
.LBB118_42:
	movq %rax, %rdx
	andq $-16, %rdx
	vpxor %xmm0, %xmm0, %xmm0
	xorl %esi, %esi
	vpxor %xmm1, %xmm1, %xmm1
	vpxor %xmm2, %xmm2, %xmm2
	vpxor %xmm3, %xmm3, %xmm3
	vpxor %xmm4, %xmm4, %xmm4
.LBB118_43:
	vmovdqu (%r13,%rsi,8), %ymm5
	vmovdqu 32(%r13,%rsi,8), %ymm6
	vmovdqu 64(%r13,%rsi,8), %ymm7
	vmovdqu 96(%r13,%rsi,8), %ymm8
	vpbroadcastb .LCPI118_3(%rip), %ymm9
	vpand %ymm5, %ymm9, %ymm10
	vmovdqa .LCPI118_1(%rip), %ymm11
	vpshufb %ymm10, %ymm11, %ymm10
	vpsrlw $4, %ymm5, %ymm5
	vpand %ymm5, %ymm9, %ymm5
	vpshufb %ymm5, %ymm11, %ymm5
	vpaddb %ymm5, %ymm10, %ymm5
	vpsadbw %ymm0, %ymm5, %ymm5
	vpaddq %ymm1, %ymm5, %ymm1
	vpand %ymm6, %ymm9, %ymm5
	vpshufb %ymm5, %ymm11, %ymm5
	vpsrlw $4, %ymm6, %ymm6
	vpand %ymm6, %ymm9, %ymm6
	vpshufb %ymm6, %ymm11, %ymm6
	vpaddb %ymm5, %ymm6, %ymm5
	vpsadbw %ymm0, %ymm5, %ymm5
	vpaddq %ymm2, %ymm5, %ymm2
	vpand %ymm7, %ymm9, %ymm5
	vpshufb %ymm5, %ymm11, %ymm5
	vpsrlw $4, %ymm7, %ymm6
	vpand %ymm6, %ymm9, %ymm6
	vpshufb %ymm6, %ymm11, %ymm6
	vpaddb %ymm5, %ymm6, %ymm5
	vpsadbw %ymm0, %ymm5, %ymm5
	vpaddq %ymm3, %ymm5, %ymm3
	vpand %ymm9, %ymm8, %ymm5
	vpshufb %ymm5, %ymm11, %ymm5
	vpsrlw $4, %ymm8, %ymm6
	vpand %ymm6, %ymm9, %ymm6
	vpshufb %ymm6, %ymm11, %ymm6
	vpaddb %ymm5, %ymm6, %ymm5
	vpsadbw %ymm0, %ymm5, %ymm5
	vpaddq %ymm4, %ymm5, %ymm4
	addq $16, %rsi
	cmpq %rsi, %rdx
	jne .LBB118_43
	vpaddq %ymm1, %ymm2, %ymm0
	vpaddq %ymm0, %ymm3, %ymm0
	vpaddq %ymm0, %ymm4, %ymm0
	vextracti128 $1, %ymm0, %xmm1
	vpaddq %xmm1, %xmm0, %xmm0
	vpshufd $238, %xmm0, %xmm1
	vpaddq %xmm1, %xmm0, %xmm0
	vmovq %xmm0, %rsi
	cmpq %rdx, %rax
	je .LBB118_50
	testb $12, %al
	je .LBB118_39
.LBB118_46:
	movq %rdx, %rdi
	movq %rax, %rdx
	andq $-4, %rdx
	vmovq %rsi, %xmm0
.LBB118_47:
	vmovdqu (%r13,%rdi,8), %ymm1
	vpbroadcastb .LCPI118_3(%rip), %ymm2
	vpand %ymm2, %ymm1, %ymm3
	vmovdqa .LCPI118_1(%rip), %ymm4
	vpshufb %ymm3, %ymm4, %ymm3
	vpsrlw $4, %ymm1, %ymm1
	vpand %ymm2, %ymm1, %ymm1
	vpshufb %ymm1, %ymm4, %ymm1
	vpaddb %ymm3, %ymm1, %ymm1
	vpxor %xmm2, %xmm2, %xmm2
	vpsadbw %ymm2, %ymm1, %ymm1
	vpaddq %ymm0, %ymm1, %ymm0
	addq $4, %rdi
	cmpq %rdi, %rdx
	jne .LBB118_47
	vextracti128 $1, %ymm0, %xmm1
	vpaddq %xmm1, %xmm0, %xmm0
	vpshufd $238, %xmm0, %xmm1
	vpaddq %xmm1, %xmm0, %xmm0
	vmovq %xmm0, %rsi
	jmp .LBB118_49
.LBB118_39:
	popcntq (%r13,%rdx,8), %rdi
	addq %rdi, %rsi
	incq %rdx
.LBB118_49:
	cmpq %rdx, %rax
	jne .LBB118_39
.LBB118_50:
	movq %r9, 504(%rsp)
	vmovups 544(%rsp), %ymm0
	vmovups 576(%rsp), %ymm1
	vmovups 608(%rsp), %ymm2
	vmovups 640(%rsp), %ymm3
	vmovups %ymm3, 2032(%rsp)
	vmovups %ymm2, 2000(%rsp)
	vmovups %ymm1, 1968(%rsp)
	vmovups %ymm0, 1936(%rsp)
	vmovups 1632(%rsp), %ymm0
	vmovups 1664(%rsp), %ymm1
	vmovups 1696(%rsp), %ymm2
	vmovups 1728(%rsp), %ymm3
	vmovups %ymm0, 2064(%rsp)
	vmovups %ymm1, 2096(%rsp)
	vmovups %ymm2, 2128(%rsp)
	vmovups %ymm3, 2160(%rsp)
	movq 72(%rsp), %r12
	shrq $32, %r12
	movq %r15, 96(%rsp)
	shrq $32, %r15
	vextracti128 $1, %ymm13, 1040(%rsp)
	movq %rcx, 1056(%rsp)
	vextracti128 $1, %ymm12, 1064(%rsp)
	movq %rsi, 1080(%rsp)
	leaq 1824(%rsp), %rdi
	leaq 1088(%rsp), %rsi
	leaq 1040(%rsp), %rdx
	leaq 512(%rsp), %rcx
	vmovdqu %ymm12, 368(%rsp)
	vmovdqu %ymm13, 448(%rsp)
	vzeroupper
	callq tag_pool.usage.usage_of_rest_i64
	movl $1, %esi
	shlxl %r12d, %esi, %eax
	movq 72(%rsp), %r11
	addl %r11d, %eax
	decl %eax
	shrxl %r12d, %eax, %ecx
	vxorps %xmm0, %xmm0, %xmm0
	vmovups %ymm0, 640(%rsp)
	vmovups %ymm0, 608(%rsp)
	vmovups %ymm0, 576(%rsp)
	vmovups %ymm0, 544(%rsp)
	vmovups 1936(%rsp), %ymm1
	vmovups 1968(%rsp), %ymm2
	vmovups 2000(%rsp), %ymm3
	vmovups 2032(%rsp), %ymm4
	vmovups %ymm4, 928(%rsp)
	vmovups %ymm3, 896(%rsp)
	vmovups %ymm2, 864(%rsp)
	vmovups %ymm1, 832(%rsp)
	vmovups 2064(%rsp), %ymm1
	vmovups 2096(%rsp), %ymm2
	vmovups 2128(%rsp), %ymm3
	vmovups 2160(%rsp), %ymm4
	vmovups %ymm1, 1632(%rsp)
	vmovups %ymm2, 1664(%rsp)
	vmovups %ymm3, 1696(%rsp)
	vmovups %ymm4, 1728(%rsp)
	vmovups %ymm0, 800(%rsp)
	vmovups %ymm0, 768(%rsp)
	vmovups %ymm0, 736(%rsp)
	vmovups %ymm0, 704(%rsp)
	movq 1856(%rsp), %rdx
	movq 1896(%rsp), %rax
	movq 1088(%rsp), %rdi
	shlxl %r15d, %esi, %esi
	movq 96(%rsp), %r9
	leal -1(%r9,%rsi), %esi
	vmovdqu 1880(%rsp), %xmm0
	vpaddq 1840(%rsp), %xmm0, %xmm0
	shrxl %r15d, %esi, %esi
	movq (%rdi), %rdi
	movq 1088(%rsp), %rdi
	movq (%rdi), %rdi
	vmovups 832(%rsp), %ymm1
	vmovups 864(%rsp), %ymm2
	vmovups 896(%rsp), %ymm3
	vmovups 928(%rsp), %ymm4
	vmovups %ymm1, 704(%rsp)
	vmovups %ymm1, 544(%rsp)
	vmovups %ymm2, 576(%rsp)
	vmovups %ymm3, 608(%rsp)
	vmovups %ymm4, 640(%rsp)
	movq 1200(%rsp), %rdi
	movq (%rdi), %rdi
	movq 1200(%rsp), %rdi
	movq (%rdi), %rdi
	vmovups 544(%rsp), %ymm1
	vmovups 576(%rsp), %ymm2
	vmovups 608(%rsp), %ymm3
	vmovups 640(%rsp), %ymm4
	vmovups %ymm4, 3088(%rsp)
	vmovups %ymm3, 3056(%rsp)
	vmovups %ymm2, 3024(%rsp)
	vmovups %ymm1, 2992(%rsp)
	vmovups 1632(%rsp), %ymm1
	vmovups 1664(%rsp), %ymm2
	vmovups 1696(%rsp), %ymm3
	vmovups 1728(%rsp), %ymm4
	vmovups %ymm1, 2192(%rsp)
	vmovups %ymm2, 2224(%rsp)
	vmovups %ymm3, 2256(%rsp)
	vmovups %ymm4, 2288(%rsp)
	movq 512(%rsp), %r15
	movq 520(%rsp), %r10
	imulq $424, %r10, %rdi
	movl 272(%rsp), %r8d
	movl %r8d, (%r15,%rdi)
	movl $0, 4(%r15,%rdi)
	movq 56(%rsp), %r8
	movq %r8, 8(%r15,%rdi)
	movl 32(%rsp), %r8d
	movl %r8d, 16(%r15,%rdi)
	movl $0, 20(%r15,%rdi)
	movq %r11, 24(%r15,%rdi)
	shll $4, %ecx
	addl $72, %ecx
	movl %ecx, 32(%r15,%rdi)
	movl 88(%rsp), %ecx
	movl %ecx, 36(%r15,%rdi)
	movq 40(%rsp), %rcx
	movq %rcx, 40(%r15,%rdi)
	movq %rbp, 48(%r15,%rdi)
	vmovups 448(%rsp), %ymm1
	vmovups %ymm1, 56(%r15,%rdi)
	vmovups 2992(%rsp), %ymm1
	vmovups 3024(%rsp), %ymm2
	vmovups 3056(%rsp), %ymm3
	vmovups 3088(%rsp), %ymm4
	vmovups %ymm1, 88(%r15,%rdi)
	vmovups %ymm2, 120(%r15,%rdi)
	vmovups %ymm3, 152(%r15,%rdi)
	vmovups %ymm4, 184(%r15,%rdi)
	movq 176(%rsp), %rcx
	movq %rcx, 216(%r15,%rdi)
	movl 168(%rsp), %ecx
	movl %ecx, 224(%r15,%rdi)
	movl $0, 228(%r15,%rdi)
	movq %r9, 232(%r15,%rdi)
	shll $4, %esi
	addl $72, %esi
	movl %esi, 240(%r15,%rdi)
	movl 192(%rsp), %ecx
	movl %ecx, 244(%r15,%rdi)
	movq 184(%rsp), %rcx
	movq %rcx, 248(%r15,%rdi)
	movq %r13, 256(%r15,%rdi)
	vmovups 368(%rsp), %ymm1
	vmovups %ymm1, 264(%r15,%rdi)
	vmovdqu 2192(%rsp), %ymm1
	vmovdqu 2224(%rsp), %ymm2
	vmovdqu 2256(%rsp), %ymm3
	vmovups 2288(%rsp), %ymm4
	vmovups %ymm4, 392(%r15,%rdi)
	vmovdqu %ymm3, 360(%r15,%rdi)
	vmovdqu %ymm2, 328(%r15,%rdi)
	vmovdqu %ymm1, 296(%r15,%rdi)
	leaq 1(%r10), %rbp
	movq %rbp, 520(%rsp)
	movb $2, %sil
	vptest %xmm0, %xmm0
	je .LBB118_52
	movq %rbp, 40(%rsp)
	vmovdqa 224(%rsp), %xmm4
	jmp .LBB118_9
.LBB118_52:
	testq %rbp, %rbp
	vmovdqa 224(%rsp), %xmm4
	je .LBB118_69
	orq %rdx, %rax
	cmpq $8, %rbp
	jae .LBB118_55
	xorl %edi, %edi
	xorl %edx, %edx
	jmp .LBB118_65
.LBB118_55:
	vmovq %rax, %xmm0
	cmpq $32, %rbp
	jae .LBB118_57
	xorl %edx, %edx
	xorl %edi, %edi
	jmp .LBB118_62
.LBB118_57:
	movq %rbp, %rdx
	andq $-32, %rdx
	vpbroadcastq %xmm0, %ymm1
	leaq 13368(%r15), %rsi
	vpxor %xmm2, %xmm2, %xmm2
	movq %rdx, %rdi
	vpxor %xmm3, %xmm3, %xmm3
	vpxor %xmm4, %xmm4, %xmm4
	vpxor %xmm5, %xmm5, %xmm5
.LBB118_58:
	vmovd -13144(%rsi), %xmm6
	vpinsrd $1, -12720(%rsi), %xmm6, %xmm6
	vpinsrd $2, -12296(%rsi), %xmm6, %xmm6
	vpinsrd $3, -11872(%rsi), %xmm6, %xmm6
	vmovd -11448(%rsi), %xmm7
	vpinsrd $1, -11024(%rsi), %xmm7, %xmm7
	vpinsrd $2, -10600(%rsi), %xmm7, %xmm7
	vpmovzxdq %xmm6, %ymm6
	vpinsrd $3, -10176(%rsi), %xmm7, %xmm7
	vmovd -9752(%rsi), %xmm8
	vpinsrd $1, -9328(%rsi), %xmm8, %xmm8
	vpinsrd $2, -8904(%rsi), %xmm8, %xmm8
	vpmovzxdq %xmm7, %ymm7
	vpinsrd $3, -8480(%rsi), %xmm8, %xmm8
	vmovd -8056(%rsi), %xmm9
	vpinsrd $1, -7632(%rsi), %xmm9, %xmm9
	vpinsrd $2, -7208(%rsi), %xmm9, %xmm9
	vpmovzxdq %xmm8, %ymm8
	vpinsrd $3, -6784(%rsi), %xmm9, %xmm9
	vmovd -6360(%rsi), %xmm10
	vpinsrd $1, -5936(%rsi), %xmm10, %xmm10
	vpinsrd $2, -5512(%rsi), %xmm10, %xmm10
	vpmovzxdq %xmm9, %ymm9
	vpinsrd $3, -5088(%rsi), %xmm10, %xmm10
	vmovd -4664(%rsi), %xmm11
	vpinsrd $1, -4240(%rsi), %xmm11, %xmm11
	vpinsrd $2, -3816(%rsi), %xmm11, %xmm11
	vpmovzxdq %xmm10, %ymm10
	vpinsrd $3, -3392(%rsi), %xmm11, %xmm11
	vmovd -2968(%rsi), %xmm12
	vpinsrd $1, -2544(%rsi), %xmm12, %xmm12
	vpinsrd $2, -2120(%rsi), %xmm12, %xmm12
	vpmovzxdq %xmm11, %ymm11
	vpinsrd $3, -1696(%rsi), %xmm12, %xmm12
	vmovd -1272(%rsi), %xmm13
	vpinsrd $1, -848(%rsi), %xmm13, %xmm13
	vpinsrd $2, -424(%rsi), %xmm13, %xmm13
	vpmovzxdq %xmm12, %ymm12
	vpinsrd $3, (%rsi), %xmm13, %xmm13
	vpmovzxdq %xmm13, %ymm13
	vpsrlvq %ymm7, %ymm1, %ymm7
	vpsrlvq %ymm6, %ymm1, %ymm6
	vshufps $136, %ymm7, %ymm6, %ymm6
	vpsrlvq %ymm9, %ymm1, %ymm7
	vpsrlvq %ymm8, %ymm1, %ymm8
	vshufps $136, %ymm7, %ymm8, %ymm7
	vpsrlvq %ymm11, %ymm1, %ymm8
	vpsrlvq %ymm10, %ymm1, %ymm9
	vshufps $136, %ymm8, %ymm9, %ymm8
	vpsrlvq %ymm13, %ymm1, %ymm9
	vpsrlvq %ymm12, %ymm1, %ymm10
	vshufps $136, %ymm9, %ymm10, %ymm9
	vpermpd $216, %ymm6, %ymm6
	vpermpd $216, %ymm7, %ymm7
	vpermpd $216, %ymm8, %ymm8
	vpermpd $216, %ymm9, %ymm9
	vbroadcastss .LCPI118_2(%rip), %ymm10
	vandps %ymm6, %ymm10, %ymm6
	vpaddd %ymm2, %ymm6, %ymm2
	vandps %ymm7, %ymm10, %ymm6
	vpaddd %ymm3, %ymm6, %ymm3
	vandps %ymm10, %ymm8, %ymm6
	vpaddd %ymm4, %ymm6, %ymm4
	vandps %ymm10, %ymm9, %ymm6
	vpaddd %ymm5, %ymm6, %ymm5
	addq $13568, %rsi
	addq $-32, %rdi
	jne .LBB118_58
	vpaddd %ymm2, %ymm3, %ymm1
	vpaddd %ymm1, %ymm4, %ymm1
	vpaddd %ymm1, %ymm5, %ymm1
	vextracti128 $1, %ymm1, %xmm2
	vpaddd %xmm2, %xmm1, %xmm1
	vpshufd $238, %xmm1, %xmm2
	vpaddd %xmm2, %xmm1, %xmm1
	vpshufd $85, %xmm1, %xmm2
	vpaddd %xmm2, %xmm1, %xmm1
	vmovd %xmm1, %edi
	cmpq %rdx, %rbp
	jne .LBB118_61
	vmovdqa 224(%rsp), %xmm4
	jmp .LBB118_67
.LBB118_61:
	testb $24, %bpl
	vmovdqa 224(%rsp), %xmm4
	je .LBB118_65
.LBB118_62:
	movq %rdx, %rsi
	movq %rbp, %rdx
	andq $-8, %rdx
	vmovd %edi, %xmm1
	vpbroadcastq %xmm0, %ymm0
	imulq $424, %rsi, %rdi
	addq %r15, %rdi
	addq $3192, %rdi
	subq %rdx, %rsi
.LBB118_63:
	vmovd -2968(%rdi), %xmm2
	vpinsrd $1, -2544(%rdi), %xmm2, %xmm2
	vpinsrd $2, -2120(%rdi), %xmm2, %xmm2
	vpinsrd $3, -1696(%rdi), %xmm2, %xmm2
	vmovd -1272(%rdi), %xmm3
	vpinsrd $1, -848(%rdi), %xmm3, %xmm3
	vpinsrd $2, -424(%rdi), %xmm3, %xmm3
	vpinsrd $3, (%rdi), %xmm3, %xmm3
	vpmovzxdq %xmm2, %ymm2
	vpmovzxdq %xmm3, %ymm3
	vpsrlvq %ymm3, %ymm0, %ymm3
	vpsrlvq %ymm2, %ymm0, %ymm2
	vshufps $136, %ymm3, %ymm2, %ymm2
	vpermpd $216, %ymm2, %ymm2
	vbroadcastss .LCPI118_2(%rip), %ymm3
	vandps %ymm3, %ymm2, %ymm2
	vpaddd %ymm1, %ymm2, %ymm1
	addq $3392, %rdi
	addq $8, %rsi
	jne .LBB118_63
	vextracti128 $1, %ymm1, %xmm0
	vpaddd %xmm0, %xmm1, %xmm0
	vpshufd $238, %xmm0, %xmm1
	vpaddd %xmm1, %xmm0, %xmm0
	vpshufd $85, %xmm0, %xmm1
	vpaddd %xmm1, %xmm0, %xmm0
	vmovd %xmm0, %edi
	cmpq %rdx, %rbp
	je .LBB118_67
.LBB118_65:
	movq %r10, %rsi
	subq %rdx, %rsi
	incq %rsi
	imulq $424, %rdx, %rdx
	addq %r15, %rdx
	addq $224, %rdx
.LBB118_66:
	movl (%rdx), %r8d
	btq %r8, %rax
	adcl $0, %edi
	addq $424, %rdx
	decq %rsi
	jne .LBB118_66
.LBB118_67:
	movb $3, %sil
	testl %edi, %edi
	je .LBB118_69
	movq %rbp, 40(%rsp)
	jmp .LBB118_9
.LBB118_69:
	movq %r10, 160(%rsp)
	vmovq 1088(%rsp), %xmm1
	vmovdqu 1096(%rsp), %xmm2
	movq 1112(%rsp), %rax
	movq %rax, 88(%rsp)
	movq 1120(%rsp), %rax
	movq %rax, 192(%rsp)
	vmovdqu 1128(%rsp), %xmm3
	movq 1144(%rsp), %rax
	movq %rax, 184(%rsp)
	vmovdqa 1152(%rsp), %xmm5
	movq 1168(%rsp), %rax
	movq %rax, 176(%rsp)
	vmovdqu 1176(%rsp), %xmm0
	vmovdqa %xmm0, 1344(%rsp)
	movq 1192(%rsp), %rsi
	vmovdqa 1200(%rsp), %xmm7
	movq 1216(%rsp), %rdx
	movq 1224(%rsp), %r13
	movq 1232(%rsp), %r10
	movq 1240(%rsp), %r11
	vmovdqa 1248(%rsp), %xmm8
	vmovq 1264(%rsp), %xmm10
	movq 1272(%rsp), %r8
	movq 1280(%rsp), %rdi
	vmovdqu 1288(%rsp), %xmm9
	movq 1304(%rsp), %rcx
	vmovdqa 1312(%rsp), %xmm6
	movq 1328(%rsp), %rax
	movq %rax, 72(%rsp)
	movq 528(%rsp), %r9
	vpxor %xmm0, %xmm0, %xmm0
	vmovdqa %xmm0, 1040(%rsp)
	movq $0, 1056(%rsp)
	vmovdqa %xmm0, 1600(%rsp)
	movq $0, 1616(%rsp)
	vmovdqa %xmm0, 1568(%rsp)
	movq $0, 1584(%rsp)
	vmovdqa %xmm0, 1536(%rsp)
	movq $0, 1552(%rsp)
	vmovdqa %xmm0, 1504(%rsp)
	movq $0, 1520(%rsp)
	vmovdqa %xmm0, 1472(%rsp)
	movq $0, 1488(%rsp)
	vmovdqa %xmm0, 1440(%rsp)
	movq $0, 1456(%rsp)
	vmovdqa %xmm0, 1408(%rsp)
	movq $0, 1424(%rsp)
	leaq 16(%rsp), %rax
	testq %rbp, %rbp
	vmovdqa %xmm7, 448(%rsp)
	vmovdqa %xmm8, 96(%rsp)
	vmovdqa %xmm9, 368(%rsp)
	vmovdqa %xmm10, 128(%rsp)
	movq %rsi, 168(%rsp)
	movq %rcx, 56(%rsp)
	je .LBB118_70
	movabsq $48038396025285290, %rax
	cmpq %rax, %rbp
	ja .LBB118_112
	movq %rbp, %rax
	shlq $6, %rax
	movq %rdi, 32(%rsp)
	leaq (%rax,%rax,2), %rdi
	movl $8, %esi
	vmovdqa %xmm1, 352(%rsp)
	vmovdqa %xmm2, 336(%rsp)
	vmovdqa %xmm3, 256(%rsp)
	vmovdqa %xmm5, 320(%rsp)
	vmovdqa %xmm6, 304(%rsp)
	movq %rdx, 64(%rsp)
	movq %r10, 272(%rsp)
	movq %r11, 112(%rsp)
	movq %r8, 208(%rsp)
	movq %r9, 48(%rsp)
	vzeroupper
	callq tags_library_alloc@PLT
	movq 48(%rsp), %r9
	movq 32(%rsp), %rdi
	movq 208(%rsp), %r8
	movq 112(%rsp), %r11
	movq 272(%rsp), %r10
	vmovdqa 128(%rsp), %xmm10
	vmovdqa 368(%rsp), %xmm9
	vmovdqa 96(%rsp), %xmm8
	vmovdqa 448(%rsp), %xmm7
	vmovdqa 304(%rsp), %xmm6
	vmovdqa 320(%rsp), %xmm5
	vmovdqa 256(%rsp), %xmm3
	vmovdqa 336(%rsp), %xmm2
	vmovdqa 352(%rsp), %xmm1
	vmovdqa 224(%rsp), %xmm4
	movq %rdx, 80(%rsp)
	movq 64(%rsp), %rdx
	testb $1, %al
	je .LBB118_112
	movabsq $39755913951960240, %rax
	cmpq %rax, %rbp
	ja .LBB118_111
	imulq $232, %rbp, %rdi
	movl $8, %esi
	callq tags_library_alloc@PLT
	movq %rdx, 152(%rsp)
	testb $1, %al
	je .LBB118_111
	movabsq $21753235935978244, %rax
	cmpq %rax, %rbp
	ja .LBB118_110
	imulq $424, %rbp, %rdi
	movl $8, %esi
	callq tags_library_alloc@PLT
	movq %rdx, 408(%rsp)
	testb $1, %al
	je .LBB118_110
	vmovdqa 352(%rsp), %xmm1
	vmovdqa 336(%rsp), %xmm2
	vmovdqa 256(%rsp), %xmm3
	vmovdqa 320(%rsp), %xmm5
	vmovdqa 304(%rsp), %xmm6
	vmovdqa 448(%rsp), %xmm7
	movq 64(%rsp), %rdx
	movq %r13, 248(%rsp)
	vmovdqa 96(%rsp), %xmm8
	vmovdqa 368(%rsp), %xmm9
	vmovdqa 128(%rsp), %xmm10
	movq 272(%rsp), %r10
	movq 56(%rsp), %rcx
	movq 112(%rsp), %r11
	movq 208(%rsp), %r8
	movq 32(%rsp), %rdi
	leaq 16(%rsp), %rax
	movq 48(%rsp), %r9
	jmp .LBB118_78
.LBB118_70:
	movq %r13, 248(%rsp)
	movq %rax, 152(%rsp)
	movq %rax, 80(%rsp)
	movq %rax, 408(%rsp)
.LBB118_78:
	movq %r9, 48(%rsp)
	movq %r8, 208(%rsp)
	movq %rdx, 64(%rsp)
	movl 1360(%rsp), %edx
	movq 200(%rsp), %r8
	cmpl 24(%rsp), %r8d
	vmovdqa %xmm1, 352(%rsp)
	vmovdqa %xmm2, 336(%rsp)
	vmovdqa %xmm3, 256(%rsp)
	vmovdqa %xmm5, 320(%rsp)
	vmovdqa %xmm6, 304(%rsp)
	movq %r10, 272(%rsp)
	movq %rdi, 32(%rsp)
	movq %rdx, 496(%rsp)
	jne .LBB118_92
	movq %rax, 488(%rsp)
	movq $0, 24(%rsp)
	movq %rcx, %r12
	jmp .LBB118_80
.LBB118_92:
	movq %r11, 112(%rsp)
	leaq (,%rdx,8), %rdi
	movl $8, %esi
	vzeroupper
	callq tags_library_alloc@PLT
	testb $1, %al
	je .LBB118_113
	movq 1360(%rsp), %rax
	cmpl $1, %eax
	jne .LBB118_95
	xorl %edi, %edi
	movq 72(%rsp), %rcx
	jmp .LBB118_109
.LBB118_113:
	movq 248(%rsp), %r13
	testq %rbp, %rbp
	vmovdqa 224(%rsp), %xmm4
	vmovdqa 352(%rsp), %xmm1
	vmovdqa 336(%rsp), %xmm2
	vmovdqa 256(%rsp), %xmm3
	vmovdqa 320(%rsp), %xmm5
	vmovdqa 304(%rsp), %xmm6
	vmovdqa 448(%rsp), %xmm7
	movq 64(%rsp), %rdx
	vmovdqa 96(%rsp), %xmm8
	vmovdqa 368(%rsp), %xmm9
	vmovdqa 128(%rsp), %xmm10
	movq 272(%rsp), %r10
	movq 112(%rsp), %r11
	movq 208(%rsp), %r8
	movq 32(%rsp), %rdi
	movq 48(%rsp), %r9
	je .LBB118_112
	movq 408(%rsp), %rdi
	callq tags_library_dealloc@PLT
	movq 152(%rsp), %rdi
	callq tags_library_dealloc@PLT
	movq 80(%rsp), %rdi
	callq tags_library_dealloc@PLT
	movq 48(%rsp), %r9
	movq 32(%rsp), %rdi
	movq 208(%rsp), %r8
	movq 112(%rsp), %r11
	movq 272(%rsp), %r10
	vmovdqa 128(%rsp), %xmm10
	vmovdqa 368(%rsp), %xmm9
	vmovdqa 96(%rsp), %xmm8
	movq 64(%rsp), %rdx
	vmovdqa 448(%rsp), %xmm7
	vmovdqa 304(%rsp), %xmm6
	vmovdqa 320(%rsp), %xmm5
	vmovdqa 256(%rsp), %xmm3
	vmovdqa 336(%rsp), %xmm2
	vmovdqa 352(%rsp), %xmm1
	vmovdqa 224(%rsp), %xmm4
	jmp .LBB118_112
.LBB118_95:
	movq 496(%rsp), %rcx
	leaq -1(%rcx), %rdi
	cmpl $5, %eax
	jae .LBB118_97
	xorl %eax, %eax
	jmp .LBB118_107
.LBB118_110:
	movq 152(%rsp), %rdi
	callq tags_library_dealloc@PLT
.LBB118_111:
	movq 80(%rsp), %rdi
	callq tags_library_dealloc@PLT
	vmovdqa 224(%rsp), %xmm4
	vmovdqa 352(%rsp), %xmm1
	vmovdqa 336(%rsp), %xmm2
	vmovdqa 256(%rsp), %xmm3
	vmovdqa 320(%rsp), %xmm5
	vmovdqa 304(%rsp), %xmm6
	vmovdqa 448(%rsp), %xmm7
	movq 64(%rsp), %rdx
	vmovdqa 96(%rsp), %xmm8
	vmovdqa 368(%rsp), %xmm9
	vmovdqa 128(%rsp), %xmm10
	movq 272(%rsp), %r10
	movq 112(%rsp), %r11
	movq 208(%rsp), %r8
	movq 32(%rsp), %rdi
	movq 48(%rsp), %r9
.LBB118_112:
	xorl %ecx, %ecx
	movb $10, %al
	vmovaps 1344(%rsp), %xmm0
	movq 56(%rsp), %r12
	movq %rbp, %rsi
	jmp .LBB118_210
.LBB118_97:
	vmovq 72(%rsp), %xmm0
	cmpl $17, 1360(%rsp)
	jae .LBB118_99
	xorl %eax, %eax
	jmp .LBB118_104
.LBB118_99:
	movq %rdi, %rax
	andq $-16, %rax
	vpbroadcastq %xmm0, %ymm1
	xorl %ecx, %ecx
	movq %rdx, %rsi
.LBB118_100:
	vmovdqu %ymm1, (%rsi,%rcx,8)
	vmovdqu %ymm1, 32(%rsi,%rcx,8)
	vmovdqu %ymm1, 64(%rsi,%rcx,8)
	vmovdqu %ymm1, 96(%rsi,%rcx,8)
	addq $16, %rcx
	cmpq %rcx, %rax
	jne .LBB118_100
	cmpq %rax, %rdi
	je .LBB118_102
	testb $12, %dil
	je .LBB118_107
.LBB118_104:
	movq %rax, %rcx
	movq %rdi, %rax
	andq $-4, %rax
	vpbroadcastq %xmm0, %ymm0
	movq %rdx, %rsi
.LBB118_105:
	vmovdqu %ymm0, (%rsi,%rcx,8)
	addq $4, %rcx
	cmpq %rcx, %rax
	jne .LBB118_105
	cmpq %rax, %rdi
	jne .LBB118_107
.LBB118_102:
	movq 72(%rsp), %rcx
	jmp .LBB118_109
.LBB118_107:
	movq 72(%rsp), %rcx
.LBB118_108:
	movq %rcx, (%rdx,%rax,8)
	incq %rax
	cmpq %rax, %rdi
	jne .LBB118_108
.LBB118_109:
	vmovdqa 448(%rsp), %xmm7
	vmovdqa 96(%rsp), %xmm8
	vmovdqa 368(%rsp), %xmm9
	vmovdqa 128(%rsp), %xmm10
	movq 272(%rsp), %r10
	movq 112(%rsp), %r11
	movq %rdx, 488(%rsp)
	movq %rcx, (%rdx,%rdi,8)
	incq %rdi
	movq %rdi, 24(%rsp)
	movq 56(%rsp), %r12
.LBB118_80:
	testq %rbp, %rbp
	je .LBB118_83
	movq 152(%rsp), %rax
	leaq 228(%rax), %rcx
	leaq 232(%r15), %rax
	movq 80(%rsp), %rsi
	movq %rbp, %rdx
.LBB118_82:
	movl -232(%rax), %r9d
	movq -16(%rax), %rdi
	movl -8(%rax), %r8d
	vmovups -48(%rax), %ymm0
	vmovups %ymm0, 1008(%rsp)
	vmovups -64(%rax), %ymm0
	vmovups %ymm0, 992(%rsp)
	vmovups -96(%rax), %ymm0
	vmovups %ymm0, 960(%rsp)
	vmovups -128(%rax), %ymm0
	vmovups %ymm0, 928(%rsp)
	vmovups -160(%rax), %ymm0
	vmovups %ymm0, 896(%rsp)
	vmovups -192(%rax), %ymm0
	vmovups %ymm0, 864(%rsp)
	vmovups -224(%rax), %ymm0
	vmovups %ymm0, 832(%rsp)
	vmovups (%rax), %ymm0
	vmovups 32(%rax), %ymm1
	vmovups 64(%rax), %ymm2
	vmovups 96(%rax), %ymm3
	vmovdqu 128(%rax), %ymm4
	vmovdqu 160(%rax), %ymm5
	vmovdqu %ymm5, 160(%rsi)
	vmovdqu %ymm4, 128(%rsi)
	vmovups %ymm3, 96(%rsi)
	vmovups %ymm2, 64(%rsi)
	vmovups %ymm1, 32(%rsi)
	vmovups %ymm0, (%rsi)
	movl %r9d, -228(%rcx)
	movl $0, -224(%rcx)
	vmovups 832(%rsp), %ymm0
	vmovdqu 864(%rsp), %ymm1
	vmovdqu 896(%rsp), %ymm2
	vmovdqu 928(%rsp), %ymm3
	vmovups %ymm0, -220(%rcx)
	vmovdqu %ymm1, -188(%rcx)
	vmovdqu %ymm2, -156(%rcx)
	vmovdqu %ymm3, -124(%rcx)
	vmovups 960(%rsp), %ymm0
	vmovups %ymm0, -92(%rcx)
	vmovups 992(%rsp), %ymm0
	vmovups %ymm0, -60(%rcx)
	vmovdqu 1008(%rsp), %ymm0
	vmovdqu %ymm0, -44(%rcx)
	movq %rdi, -12(%rcx)
	movl %r8d, -4(%rcx)
	movl $0, (%rcx)
	addq $232, %rcx
	addq $192, %rsi
	addq $424, %rax
	decq %rdx
	jne .LBB118_82
.LBB118_83:
	cmpq $0, 48(%rsp)
	je .LBB118_85
	movq %r15, %rdi
	movq %r11, %r13
	vzeroupper
	callq tags_library_dealloc@PLT
	movq %r13, %r11
	movq 272(%rsp), %r10
	vmovdqa 128(%rsp), %xmm10
	vmovdqa 368(%rsp), %xmm9
	vmovdqa 96(%rsp), %xmm8
	vmovdqa 448(%rsp), %xmm7
	movq 56(%rsp), %r12
.LBB118_85:
	vpxor %xmm0, %xmm0, %xmm0
	vmovdqu %ymm0, 2320(%rsp)
	vmovdqu %ymm0, 2352(%rsp)
	vpxor %xmm1, %xmm1, %xmm1
	vmovdqa %xmm1, 2064(%rsp)
	movq $0, 2080(%rsp)
	vmovdqa %xmm1, 1824(%rsp)
	movq $0, 1840(%rsp)
	vmovdqa %xmm7, 544(%rsp)
	movq 64(%rsp), %rax
	movq %rax, 560(%rsp)
	movq 248(%rsp), %r9
	movq %r9, 568(%rsp)
	movq %r10, 576(%rsp)
	movq %r11, 584(%rsp)
	vmovdqa %xmm8, 592(%rsp)
	vmovq %xmm10, 608(%rsp)
	movq 208(%rsp), %rdi
	movq %rdi, 616(%rsp)
	movq 32(%rsp), %rax
	movq %rax, 624(%rsp)
	vmovdqu %xmm9, 632(%rsp)
	movq %r12, 648(%rsp)
	movq 80(%rsp), %r15
	movq %r15, 1936(%rsp)
	movq %rbp, 1952(%rsp)
	testl %edi, %edi
	je .LBB118_116
	testq %rbp, %rbp
	je .LBB118_91
	leaq 12(%r15), %rax
	xorl %ecx, %ecx
	jmp .LBB118_88
.LBB118_115:
	incl %ecx
	cmpl %edi, %ecx
	je .LBB118_116
.LBB118_88:
	movq %rax, %rdx
	movq %rbp, %rsi
	.p2align 4
.LBB118_89:
	cmpl %ecx, (%rdx)
	je .LBB118_115
	addq $192, %rdx
	decq %rsi
	jne .LBB118_89
.LBB118_91:
	vmovdqa %xmm7, 2320(%rsp)
	movq 64(%rsp), %rax
	movq %rax, 2336(%rsp)
	movq %r9, 2344(%rsp)
	movq %r10, 2352(%rsp)
	movq %r11, 2360(%rsp)
	vmovdqa %xmm8, 2368(%rsp)
	leaq 2320(%rsp), %rdi
	vzeroupper
	callq atomic_table.owned.Table.drop__be83c7674c75c4c1
	vmovaps 368(%rsp), %xmm0
	vmovaps %xmm0, 2064(%rsp)
	movq %r12, 2080(%rsp)
	leaq 2064(%rsp), %rdi
	callq std_alloc.vec.Vec.drop__a45941d93199a7b0
	movq %r15, 1824(%rsp)
	movq %rbp, 1832(%rsp)
	movq %rbp, 1840(%rsp)
	leaq 1824(%rsp), %rdi
	callq std_alloc.vec.Vec.drop__03ae1f740aa33a8c
	ud2
.LBB118_116:
	vmovdqu %ymm0, 704(%rsp)
	vmovdqu %ymm0, 736(%rsp)
	vmovdqu %ymm0, 768(%rsp)
	vmovdqu %ymm0, 800(%rsp)
	vmovdqu %ymm0, 1632(%rsp)
	vmovdqu %ymm0, 1664(%rsp)
	vmovdqu %ymm0, 1696(%rsp)
	vmovdqu %ymm0, 1728(%rsp)
	vmovdqu %ymm0, 2992(%rsp)
	vmovdqa %xmm1, 2192(%rsp)
	movq $0, 2208(%rsp)
	testq %rbp, %rbp
	je .LBB118_148
	movq 160(%rsp), %rax
	movq %rax, 1944(%rsp)
	leaq (%rax,%rax,2), %rcx
	shlq $6, %rcx
	movq (%r15,%rcx), %rdi
	movl 12(%r15,%rcx), %edx
	movq 16(%r15,%rcx), %r12
	movq 24(%r15,%rcx), %r13
	vmovdqu 32(%r15,%rcx), %ymm12
	movq 32(%r15,%rcx), %rax
	vmovdqu 64(%r15,%rcx), %ymm0
	vmovdqu 96(%r15,%rcx), %ymm1
	vmovdqu 128(%r15,%rcx), %ymm2
	vmovdqu 160(%r15,%rcx), %ymm3
	vmovdqu %ymm3, 928(%rsp)
	vmovdqu %ymm2, 896(%rsp)
	vmovdqu %ymm1, 864(%rsp)
	vmovdqu %ymm0, 832(%rsp)
	vmovq %xmm7, %rcx
	movq (%rcx), %rcx
	testq %rax, %rax
	movl %edx, 56(%rsp)
	movq %r12, 32(%rsp)
	je .LBB118_118
	cmpq $4, %rax
	jae .LBB118_122
	xorl %edx, %edx
	xorl %ecx, %ecx
	jmp .LBB118_121
.LBB118_118:
	xorl %edx, %edx
	jmp .LBB118_132
.LBB118_122:
	cmpq $16, %rax
	jae .LBB118_124
	xorl %ecx, %ecx
	xorl %edx, %edx
	jmp .LBB118_128
.LBB118_124:
	movq %rax, %rcx
	andq $-16, %rcx
	vpxor %xmm0, %xmm0, %xmm0
	xorl %edx, %edx
	vpxor %xmm1, %xmm1, %xmm1
	vpxor %xmm2, %xmm2, %xmm2
	vpxor %xmm3, %xmm3, %xmm3
	vpxor %xmm4, %xmm4, %xmm4
.LBB118_125:
	vmovdqu (%r13,%rdx,8), %ymm5
	vmovdqu 32(%r13,%rdx,8), %ymm6
	vmovdqu 64(%r13,%rdx,8), %ymm7
	vmovdqu 96(%r13,%rdx,8), %ymm8
	vpbroadcastb .LCPI118_3(%rip), %ymm9
	vpand %ymm5, %ymm9, %ymm10
	vmovdqa .LCPI118_1(%rip), %ymm11
	vpshufb %ymm10, %ymm11, %ymm10
	vpsrlw $4, %ymm5, %ymm5
	vpand %ymm5, %ymm9, %ymm5
	vpshufb %ymm5, %ymm11, %ymm5
	vpaddb %ymm5, %ymm10, %ymm5
	vpsadbw %ymm0, %ymm5, %ymm5
	vpaddq %ymm1, %ymm5, %ymm1
	vpand %ymm6, %ymm9, %ymm5
	vpshufb %ymm5, %ymm11, %ymm5
	vpsrlw $4, %ymm6, %ymm6
	vpand %ymm6, %ymm9, %ymm6
	vpshufb %ymm6, %ymm11, %ymm6
	vpaddb %ymm5, %ymm6, %ymm5
	vpsadbw %ymm0, %ymm5, %ymm5
	vpaddq %ymm2, %ymm5, %ymm2
	vpand %ymm7, %ymm9, %ymm5
	vpshufb %ymm5, %ymm11, %ymm5
	vpsrlw $4, %ymm7, %ymm6
	vpand %ymm6, %ymm9, %ymm6
	vpshufb %ymm6, %ymm11, %ymm6
	vpaddb %ymm5, %ymm6, %ymm5
	vpsadbw %ymm0, %ymm5, %ymm5
	vpaddq %ymm3, %ymm5, %ymm3
	vpand %ymm9, %ymm8, %ymm5
	vpshufb %ymm5, %ymm11, %ymm5
	vpsrlw $4, %ymm8, %ymm6
	vpand %ymm6, %ymm9, %ymm6
	vpshufb %ymm6, %ymm11, %ymm6
	vpaddb %ymm5, %ymm6, %ymm5
	vpsadbw %ymm0, %ymm5, %ymm5
	vpaddq %ymm4, %ymm5, %ymm4
	addq $16, %rdx
	cmpq %rdx, %rcx
	jne .LBB118_125
	vpaddq %ymm1, %ymm2, %ymm0
	vpaddq %ymm0, %ymm3, %ymm0
	vpaddq %ymm0, %ymm4, %ymm0
	vextracti128 $1, %ymm0, %xmm1
	vpaddq %xmm1, %xmm0, %xmm0
	vpshufd $238, %xmm0, %xmm1
	vpaddq %xmm1, %xmm0, %xmm0
	vmovq %xmm0, %rdx
	cmpq %rcx, %rax
	je .LBB118_132
	testb $12, %al
	je .LBB118_121
.LBB118_128:
	movq %rcx, %rsi
	movq %rax, %rcx
	andq $-4, %rcx
	vmovq %rdx, %xmm0
.LBB118_129:
	vmovdqu (%r13,%rsi,8), %ymm1
	vpbroadcastb .LCPI118_3(%rip), %ymm2
	vpand %ymm2, %ymm1, %ymm3
	vmovdqa .LCPI118_1(%rip), %ymm4
	vpshufb %ymm3, %ymm4, %ymm3
	vpsrlw $4, %ymm1, %ymm1
	vpand %ymm2, %ymm1, %ymm1
	vpshufb %ymm1, %ymm4, %ymm1
	vpaddb %ymm3, %ymm1, %ymm1
	vpxor %xmm2, %xmm2, %xmm2
	vpsadbw %ymm2, %ymm1, %ymm1
	vpaddq %ymm0, %ymm1, %ymm0
	addq $4, %rsi
	cmpq %rsi, %rcx
	jne .LBB118_129
	vextracti128 $1, %ymm0, %xmm1
	vpaddq %xmm1, %xmm0, %xmm0
	vpshufd $238, %xmm0, %xmm1
	vpaddq %xmm1, %xmm0, %xmm0
	vmovq %xmm0, %rdx
	jmp .LBB118_131
.LBB118_121:
	popcntq (%r13,%rcx,8), %rsi
	addq %rsi, %rdx
	incq %rcx
.LBB118_131:
	cmpq %rcx, %rax
	jne .LBB118_121
.LBB118_132:
	vmovdqu %ymm12, 272(%rsp)
	vmovups 832(%rsp), %ymm0
	vmovups 864(%rsp), %ymm1
	vmovups 896(%rsp), %ymm2
	vmovups 928(%rsp), %ymm3
	vmovups %ymm3, 1728(%rsp)
	vmovups %ymm2, 1696(%rsp)
	vmovups %ymm1, 1664(%rsp)
	vmovups %ymm0, 1632(%rsp)
	movq %rdi, %r15
	shrq $32, %r15
	vextracti128 $1, %ymm12, 2192(%rsp)
	movq %rdx, 2208(%rsp)
	movq %rdi, %r12
	leaq 2992(%rsp), %rdi
	leaq 544(%rsp), %rsi
	leaq 2192(%rsp), %rdx
	leaq 1936(%rsp), %rcx
	vzeroupper
	callq tag_core.settles.settle_rest_i64
	vmovups 1632(%rsp), %ymm0
	vmovups 1664(%rsp), %ymm1
	vmovups 1696(%rsp), %ymm2
	vmovups 1728(%rsp), %ymm3
	vmovups %ymm3, 928(%rsp)
	vmovups %ymm2, 896(%rsp)
	vmovups %ymm1, 864(%rsp)
	vmovups %ymm0, 832(%rsp)
	movq 544(%rsp), %rax
	movq (%rax), %rax
	movq 544(%rsp), %rax
	movq (%rax), %rax
	movl $1, %eax
	shlxl %r15d, %eax, %ecx
	addl %r12d, %ecx
	decl %ecx
	shrxl %r15d, %ecx, %ecx
	shll $4, %ecx
	addl $72, %ecx
	vmovups 832(%rsp), %ymm0
	vmovups 864(%rsp), %ymm1
	vmovups 896(%rsp), %ymm2
	vmovups 928(%rsp), %ymm3
	vmovups %ymm3, 800(%rsp)
	vmovups %ymm2, 768(%rsp)
	vmovups %ymm1, 736(%rsp)
	vmovups %ymm0, 704(%rsp)
	movq 1936(%rsp), %rdi
	movq 1944(%rsp), %rsi
	leaq (%rsi,%rsi,2), %rdx
	shlq $6, %rdx
	movq %r12, (%rdi,%rdx)
	movl %ecx, 8(%rdi,%rdx)
	movl 56(%rsp), %ecx
	movl %ecx, 12(%rdi,%rdx)
	movq 32(%rsp), %rcx
	movq %rcx, 16(%rdi,%rdx)
	movq %r13, 24(%rdi,%rdx)
	vmovups 272(%rsp), %ymm0
	vmovups %ymm0, 32(%rdi,%rdx)
	vmovdqu 704(%rsp), %ymm0
	vmovdqu 736(%rsp), %ymm1
	vmovdqu 768(%rsp), %ymm2
	vmovdqu 800(%rsp), %ymm3
	vmovdqu %ymm3, 160(%rdi,%rdx)
	vmovdqu %ymm2, 128(%rdi,%rdx)
	vmovdqu %ymm1, 96(%rdi,%rdx)
	movq %rdi, 80(%rsp)
	vmovdqu %ymm0, 64(%rdi,%rdx)
	incq %rsi
	movq %rsi, 48(%rsp)
	movq 544(%rsp), %r11
	movq 576(%rsp), %rsi
	movq 584(%rsp), %rdi
	movq 592(%rsp), %r10
	movl 616(%rsp), %r15d
	movl 620(%rsp), %r8d
	movq 624(%rsp), %rcx
	movq %rcx, 32(%rsp)
	movq 632(%rsp), %r9
	movq 648(%rsp), %rcx
	movq 1952(%rsp), %rdx
	movq %rdx, 688(%rsp)
	movq 488(%rsp), %rdx
	movq %rdx, 1632(%rsp)
	movq 24(%rsp), %rdx
	movq %rdx, 1640(%rsp)
	movq 496(%rsp), %rdx
	movq %rdx, 1648(%rsp)
	vpxor %xmm0, %xmm0, %xmm0
	vmovdqu %ymm0, 832(%rsp)
	vmovdqu %ymm0, 864(%rsp)
	vmovdqu %ymm0, 896(%rsp)
	vmovdqu %ymm0, 920(%rsp)
	vpxor %xmm0, %xmm0, %xmm0
	vmovdqa %xmm0, 544(%rsp)
	movq $0, 560(%rsp)
	leaq 16(%rsp), %r12
	movq %r12, 24(%rsp)
	movq %r12, 704(%rsp)
	vmovdqu %xmm0, 712(%rsp)
	movq %r15, 416(%rsp)
	testq %r15, %r15
	movq %rsi, 272(%rsp)
	movq %rcx, 56(%rsp)
	movq %rdi, 112(%rsp)
	movq %r8, 208(%rsp)
	movq %rbp, 40(%rsp)
	movq %r9, 680(%rsp)
	movq %r10, 696(%rsp)
	movq %r11, 1768(%rsp)
	je .LBB118_133
	movl 424(%rsp), %edx
	shlxl %edx, %eax, %eax
	movq 1360(%rsp), %rcx
	addl %ecx, %eax
	decl %eax
	shrxl %edx, %eax, %r13d
	leaq 16(%r13), %rax
	movq %rax, 1776(%rsp)
	leaq 128(,%r13,8), %rax
	movq %rax, 1784(%rsp)
	testq %r13, %r13
	je .LBB118_149
	leaq (,%r13,8), %rax
	movq %rax, 160(%rsp)
	xorl %r15d, %r15d
	movq 416(%rsp), %r12
.LBB118_136:
	movl $8, %esi
	movq %r13, %rbp
	leaq 128(,%r13,8), %rdi
	vzeroupper
	callq tags_library_alloc@PLT
	testb $1, %al
	je .LBB118_162
	movq %rdx, %r13
	movq %rdx, %rdi
	xorl %esi, %esi
	movq 160(%rsp), %rdx
	callq memset@PLT
	cmpq %r15, 720(%rsp)
	je .LBB118_138
.LBB118_140:
	leaq (%r15,%r15,2), %rax
	movq 24(%rsp), %rdx
	movq %r13, (%rdx,%rax,8)
	movq %rbp, %r13
	movq %rbp, 8(%rdx,%rax,8)
	leaq 16(%rbp), %rcx
	movq %rcx, 16(%rdx,%rax,8)
	incq %r15
	movq %r15, 712(%rsp)
	decq %r12
	jne .LBB118_136
	jmp .LBB118_141
.LBB118_138:
	leaq 704(%rsp), %rdi
	callq std_alloc.vec.Vec.grow_amortized__e69b1d9fa94cf777
	testb %al, %al
	je .LBB118_153
	movq 704(%rsp), %rax
	movq %rax, 24(%rsp)
	movq 712(%rsp), %r15
	jmp .LBB118_140
.LBB118_133:
	xorl %r15d, %r15d
.LBB118_141:
	movq 704(%rsp), %rax
	movq %rax, 24(%rsp)
	movq 720(%rsp), %rax
	movq %rax, 160(%rsp)
	movq 1360(%rsp), %rax
	movl %eax, 544(%rsp)
	movl 424(%rsp), %eax
	movl %eax, 548(%rsp)
	movq 416(%rsp), %rax
	movl %eax, 552(%rsp)
	movl $0, 556(%rsp)
	movq 32(%rsp), %rax
	movq %rax, 560(%rsp)
	leaq 832(%rsp), %rdi
	leaq 544(%rsp), %rsi
	leaq 1632(%rsp), %rdx
	vzeroupper
	callq tag_core.opens.new_map_i64_tag_pool.Destruct_none_i64
	cmpb $0, 832(%rsp)
	je .LBB118_142
	testq %r15, %r15
	movq 248(%rsp), %r13
	movq 40(%rsp), %rbp
	je .LBB118_199
	movq 24(%rsp), %rax
	leaq 16(%rax), %r12
	jmp .LBB118_196
.LBB118_198:
	addq $24, %r12
	decq %r15
	je .LBB118_199
.LBB118_196:
	cmpq $0, (%r12)
	je .LBB118_198
	movq -16(%r12), %rdi
	callq tags_library_dealloc@PLT
	jmp .LBB118_198
.LBB118_199:
	cmpq $0, 160(%rsp)
	je .LBB118_201
	movq 24(%rsp), %rdi
	callq tags_library_dealloc@PLT
.LBB118_201:
	movq 840(%rsp), %rdi
	movq 856(%rsp), %rax
	movq 56(%rsp), %r12
	jmp .LBB118_202
.LBB118_142:
	movq 880(%rsp), %rax
	movq %rax, 448(%rsp)
	movq 888(%rsp), %rax
	movq %rax, 96(%rsp)
	vmovups 896(%rsp), %ymm0
	vmovups %ymm0, 1360(%rsp)
	movl 912(%rsp), %ecx
	movq 928(%rsp), %rax
	movq %rax, 424(%rsp)
	vmovups 936(%rsp), %xmm0
	vmovaps %xmm0, 128(%rsp)
	vmovups 840(%rsp), %xmm0
	vmovaps %xmm0, 208(%rsp)
	movq 856(%rsp), %rax
	movq %rax, 64(%rsp)
	vmovdqa 864(%rsp), %xmm0
	vmovdqa %xmm0, 112(%rsp)
	movl %ecx, 32(%rsp)
	testl %ecx, %ecx
	je .LBB118_176
	cmpq $0, 48(%rsp)
	je .LBB118_148
	movq 904(%rsp), %rdx
	movl 908(%rsp), %eax
	movq 840(%rsp), %rcx
	movq %rcx, 368(%rsp)
	movl $1, %ecx
	shlxl %eax, %ecx, %ecx
	movq %rdx, %rbp
	addl %edx, %ecx
	decl %ecx
	shrxl %eax, %ecx, %r12d
	shll $4, %r12d
	addl $72, %r12d
	xorl %r13d, %r13d
	jmp .LBB118_145
.LBB118_175:
	incl %r13d
	cmpl 32(%rsp), %r13d
	je .LBB118_176
.LBB118_145:
	movq 80(%rsp), %rax
	movq 48(%rsp), %rcx
.LBB118_146:
	cmpl %r13d, 12(%rax)
	je .LBB118_172
	addq $192, %rax
	decq %rcx
	jne .LBB118_146
	jmp .LBB118_148
.LBB118_172:
	testq %r15, %r15
	je .LBB118_148
	decq %r15
	leaq (%r15,%r15,2), %rcx
	movq 24(%rsp), %rsi
	movq 16(%rsi,%rcx,8), %rdx
	movq %rdx, 720(%rsp)
	vmovups (%rsi,%rcx,8), %xmm0
	vmovaps %xmm0, 704(%rsp)
	movq 368(%rsp), %rcx
	movq (%rcx), %rcx
	movq %rbp, (%rax)
	movl %r12d, 8(%rax)
	movq 24(%rax), %rdi
	vmovdqa 704(%rsp), %xmm0
	vmovdqu %xmm0, 24(%rax)
	movq 720(%rsp), %rcx
	cmpq $0, 40(%rax)
	movq %rcx, 40(%rax)
	je .LBB118_175
	vzeroupper
	callq tags_library_dealloc@PLT
	jmp .LBB118_175
.LBB118_176:
	testq %r15, %r15
	je .LBB118_181
	movq 24(%rsp), %rax
	leaq 16(%rax), %r12
	jmp .LBB118_178
.LBB118_180:
	addq $24, %r12
	decq %r15
	je .LBB118_181
.LBB118_178:
	cmpq $0, (%r12)
	je .LBB118_180
	movq -16(%r12), %rdi
	vzeroupper
	callq tags_library_dealloc@PLT
	jmp .LBB118_180
.LBB118_181:
	cmpq $0, 160(%rsp)
	je .LBB118_183
	movq 24(%rsp), %rdi
	vzeroupper
	callq tags_library_dealloc@PLT
.LBB118_183:
	movq 272(%rsp), %rdi
	vzeroupper
	callq tags_library_dealloc@PLT
	movq 696(%rsp), %rdi
	callq tags_library_dealloc@PLT
	cmpq $0, 56(%rsp)
	je .LBB118_185
	movq 680(%rsp), %rdi
	callq tags_library_dealloc@PLT
.LBB118_185:
	vmovaps 256(%rsp), %xmm0
	vmovlps %xmm0, 368(%rsp)
	vmovdqa 304(%rsp), %xmm0
	vmovd %xmm0, %eax
	movq 200(%rsp), %rcx
	shlq $32, %rcx
	orq %rax, %rcx
	movq %rcx, 32(%rsp)
	vpextrd $2, %xmm0, %eax
	movq %rax, 272(%rsp)
	movq 80(%rsp), %rax
	movq %rax, 1600(%rsp)
	movq 48(%rsp), %rax
	movq %rax, 1608(%rsp)
	movq 688(%rsp), %rax
	movq %rax, 1616(%rsp)
	movq 152(%rsp), %rax
	movq %rax, 1568(%rsp)
	movq 40(%rsp), %rbp
	movq %rbp, 1576(%rsp)
	movq %rbp, 1584(%rsp)
	movq 408(%rsp), %rax
	movq %rax, 1536(%rsp)
	movq $0, 1544(%rsp)
	movq %rbp, 1552(%rsp)
	leaq 1040(%rsp), %rdi
	leaq 1600(%rsp), %rsi
	leaq 1568(%rsp), %rdx
	leaq 1536(%rsp), %rcx
	callq tag_pool.resizes.shells.unite_i64
	movq 1040(%rsp), %r15
	movq 1048(%rsp), %rax
	movq %rax, 40(%rsp)
	movq 1056(%rsp), %rax
	movq %rax, 48(%rsp)
	movq 440(%rsp), %rax
	shrq $32, %rax
	movq %rax, 24(%rsp)
	movq 504(%rsp), %rdx
	testq %rdx, %rdx
	je .LBB118_193
	movq 432(%rsp), %rax
	leaq 288(%rax), %r12
	movq %rdx, %r13
	jmp .LBB118_187
.LBB118_192:
	addq $440, %r12
	decq %r13
	je .LBB118_193
.LBB118_187:
	cmpb $0, -280(%r12)
	je .LBB118_192
	movq -16(%r12), %rdi
	movq (%r12), %rbp
	cmpq $0, -208(%r12)
	je .LBB118_190
	movq %rdi, 56(%rsp)
	movq -224(%r12), %rdi
	callq tags_library_dealloc@PLT
	movq 56(%rsp), %rdi
	movq 504(%rsp), %rdx
.LBB118_190:
	testq %rbp, %rbp
	je .LBB118_192
	callq tags_library_dealloc@PLT
	movq 504(%rsp), %rdx
	jmp .LBB118_192
.LBB118_193:
	vmovaps 352(%rsp), %xmm0
	vmovlps %xmm0, 2736(%rsp)
	vmovaps 336(%rsp), %xmm0
	vmovups %xmm0, 2744(%rsp)
	movq 88(%rsp), %rax
	movq %rax, 2760(%rsp)
	movq 192(%rsp), %rax
	movq %rax, 2768(%rsp)
	movq 368(%rsp), %rax
	movq %rax, 2776(%rsp)
	vmovdqa 256(%rsp), %xmm0
	vpextrq $1, %xmm0, 2784(%rsp)
	movq 184(%rsp), %rax
	movq %rax, 2792(%rsp)
	vmovaps 320(%rsp), %xmm0
	vmovaps %xmm0, 2800(%rsp)
	movq 176(%rsp), %rax
	movq %rax, 2816(%rsp)
	vmovaps 1344(%rsp), %xmm0
	vmovups %xmm0, 2824(%rsp)
	movq 168(%rsp), %rax
	movq %rax, 2840(%rsp)
	vmovaps 208(%rsp), %xmm0
	vmovaps %xmm0, 2848(%rsp)
	movq 64(%rsp), %rax
	movq %rax, 2864(%rsp)
	vmovaps 112(%rsp), %xmm0
	vmovups %xmm0, 2872(%rsp)
	movq 448(%rsp), %rax
	movq %rax, 2888(%rsp)
	movq 96(%rsp), %rax
	movq %rax, 2896(%rsp)
	vmovups 1360(%rsp), %ymm0
	vmovups %ymm0, 2904(%rsp)
	movq 424(%rsp), %rax
	movq %rax, 2936(%rsp)
	vmovaps 128(%rsp), %xmm0
	vmovaps %xmm0, 2944(%rsp)
	movq 32(%rsp), %rax
	movq %rax, 2960(%rsp)
	movq 272(%rsp), %rax
	movq %rax, 2968(%rsp)
	movq 72(%rsp), %rax
	movq %rax, 2976(%rsp)
	movq 432(%rsp), %rax
	movq %rax, 1792(%rsp)
	vxorps %xmm0, %xmm0, %xmm0
	vblendps $12, 224(%rsp), %xmm0, %xmm0
	vmovups %xmm0, 1800(%rsp)
	vmovaps 1392(%rsp), %xmm0
	vextractps $1, %xmm0, %ecx
	leaq 1792(%rsp), %rax
	movq %rax, 8(%rsp)
	movq %rdx, (%rsp)
	movzbl 24(%rsp), %r9d
	leaq 2448(%rsp), %rdi
	leaq 2736(%rsp), %rsi
	movq 200(%rsp), %rdx
	movq 440(%rsp), %r8
	vzeroupper
	callq tag_c.pool_state.PoolState.with_cells
	vmovq 2448(%rsp), %xmm1
	vmovdqu 2456(%rsp), %xmm2
	movq 2472(%rsp), %rbp
	movq 2480(%rsp), %rax
	movq %rax, 192(%rsp)
	vmovdqu 2488(%rsp), %xmm3
	movq 2504(%rsp), %rax
	movq %rax, 184(%rsp)
	vmovdqa 2512(%rsp), %xmm5
	movq 2528(%rsp), %rax
	movq %rax, 176(%rsp)
	vmovups 2536(%rsp), %xmm4
	movq 2552(%rsp), %rax
	movq %rax, 168(%rsp)
	vmovdqa 2560(%rsp), %xmm7
	movq 2576(%rsp), %rdx
	movq 2584(%rsp), %r13
	movq 2592(%rsp), %r10
	movq 2600(%rsp), %r11
	vmovdqa 2608(%rsp), %xmm8
	vmovq 2624(%rsp), %xmm10
	movq 2632(%rsp), %r8
	movq 2640(%rsp), %rdi
	vmovdqu 2648(%rsp), %xmm9
	movq 2664(%rsp), %r12
	vmovdqa 2672(%rsp), %xmm6
	movq 2688(%rsp), %rax
	movq %rax, 72(%rsp)
	vmovsd 2696(%rsp), %xmm0
	vmovaps %xmm0, 1392(%rsp)
	vmovaps %xmm4, %xmm0
	movq 2704(%rsp), %rax
	movq %rax, 440(%rsp)
	movq 2712(%rsp), %rax
	movq %rax, 432(%rsp)
	vmovdqa 2720(%rsp), %xmm4
	xorl %eax, %eax
	xorl %ecx, %ecx
	movq 48(%rsp), %r9
	movq 40(%rsp), %rsi
	jmp .LBB118_211
.LBB118_149:
	leaq 16(%rsp), %rax
	movq %rax, 24(%rsp)
	xorl %r15d, %r15d
	movq 416(%rsp), %r12
.LBB118_150:
	movl $8, %esi
	movq 1784(%rsp), %rdi
	vzeroupper
	callq tags_library_alloc@PLT
	testb $1, %al
	je .LBB118_163
	movq %rdx, %r13
	cmpq %r15, 720(%rsp)
	je .LBB118_152
.LBB118_161:
	leaq (%r15,%r15,2), %rax
	movq 24(%rsp), %rdx
	movq %r13, (%rdx,%rax,8)
	movq $0, 8(%rdx,%rax,8)
	movq 1776(%rsp), %rcx
	movq %rcx, 16(%rdx,%rax,8)
	incq %r15
	movq %r15, 712(%rsp)
	decq %r12
	jne .LBB118_150
	jmp .LBB118_141
.LBB118_152:
	leaq 704(%rsp), %rdi
	callq std_alloc.vec.Vec.grow_amortized__e69b1d9fa94cf777
	testb %al, %al
	je .LBB118_153
	movq 704(%rsp), %rax
	movq %rax, 24(%rsp)
	movq 712(%rsp), %r15
	jmp .LBB118_161
.LBB118_162:
	movq 704(%rsp), %rax
	movq %rax, 24(%rsp)
.LBB118_163:
	movq 720(%rsp), %r12
	testq %r15, %r15
	movq 40(%rsp), %rbp
	je .LBB118_168
	movq 24(%rsp), %rax
	leaq 16(%rax), %r13
	jmp .LBB118_165
.LBB118_167:
	addq $24, %r13
	decq %r15
	je .LBB118_168
.LBB118_165:
	cmpq $0, (%r13)
	je .LBB118_167
	movq -16(%r13), %rdi
	callq tags_library_dealloc@PLT
	jmp .LBB118_167
.LBB118_168:
	testq %r12, %r12
	je .LBB118_171
	movq 24(%rsp), %rdi
.LBB118_170:
	callq tags_library_dealloc@PLT
.LBB118_171:
	movq 248(%rsp), %r13
	movq 56(%rsp), %r12
	movq 488(%rsp), %rdi
	movq 496(%rsp), %rax
.LBB118_202:
	testq %rax, %rax
	je .LBB118_204
	callq tags_library_dealloc@PLT
.LBB118_204:
	movq 80(%rsp), %rax
	movq %rax, 1472(%rsp)
	movq 48(%rsp), %rax
	movq %rax, 1480(%rsp)
	movq 688(%rsp), %rax
	movq %rax, 1488(%rsp)
	movq 152(%rsp), %rax
	movq %rax, 1440(%rsp)
	movq %rbp, 1448(%rsp)
	movq %rbp, 1456(%rsp)
	movq 408(%rsp), %rax
	movq %rax, 1408(%rsp)
	movq $0, 1416(%rsp)
	movq %rbp, 1424(%rsp)
	leaq 1504(%rsp), %rdi
	leaq 1472(%rsp), %rsi
	leaq 1440(%rsp), %rdx
	leaq 1408(%rsp), %rcx
	callq tag_pool.resizes.shells.unite_i64
	movq 1504(%rsp), %r15
	movq 1512(%rsp), %rsi
	movq 1520(%rsp), %r9
	movq 208(%rsp), %r8
	shlq $32, %r8
	addq 416(%rsp), %r8
	vpxor %xmm0, %xmm0, %xmm0
	vmovdqa 304(%rsp), %xmm6
	vpblendd $8, %xmm0, %xmm6, %xmm6
	vmovdqa 96(%rsp), %xmm8
	vpinsrq $0, 696(%rsp), %xmm8, %xmm8
	vmovdqa 368(%rsp), %xmm9
	vpinsrq $0, 680(%rsp), %xmm9, %xmm9
	vmovdqa 448(%rsp), %xmm7
	vpinsrq $0, 1768(%rsp), %xmm7, %xmm7
	xorl %ecx, %ecx
	movb $10, %al
	vmovdqa 224(%rsp), %xmm4
	vmovdqa 352(%rsp), %xmm1
	vmovdqa 336(%rsp), %xmm2
	movq 88(%rsp), %rbp
	vmovdqa 256(%rsp), %xmm3
	vmovdqa 320(%rsp), %xmm5
	vmovaps 1344(%rsp), %xmm0
	movq 64(%rsp), %rdx
	vmovdqa 128(%rsp), %xmm10
	movq 272(%rsp), %r10
	movq 112(%rsp), %r11
	movq 32(%rsp), %rdi
	jmp .LBB118_211
.LBB118_153:
	movq 40(%rsp), %rbp
	movq %r13, %rdi
	callq tags_library_dealloc@PLT
	movq 704(%rsp), %r15
	movq 712(%rsp), %r13
	movq 720(%rsp), %rax
	movq %rax, 200(%rsp)
	testq %r13, %r13
	je .LBB118_158
	leaq 16(%r15), %r12
	jmp .LBB118_155
.LBB118_157:
	addq $24, %r12
	decq %r13
	je .LBB118_158
.LBB118_155:
	cmpq $0, (%r12)
	je .LBB118_157
	movq -16(%r12), %rdi
	callq tags_library_dealloc@PLT
	jmp .LBB118_157
.LBB118_158:
	cmpq $0, 200(%rsp)
	je .LBB118_171
	movq %r15, %rdi
	jmp .LBB118_170
.LBB118_148:
	ud2
.Lfunc_end118:
	.size tags_library_resize, .Lfunc_end118-tags_library_resize
	.section .rodata.tags_library_resize,"a",@progbits
	.p2align 2, 0x0
.LJTI118_0:
	.long .LBB118_205-.LJTI118_0
	.long .LBB118_206-.LJTI118_0
	.long .LBB118_207-.LJTI118_0
	.long .LBB118_208-.LJTI118_0
.LJTI118_1:
	.long .LBB118_216-.LJTI118_1
	.long .LBB118_148-.LJTI118_1
	.long .LBB118_148-.LJTI118_1
	.long .LBB118_148-.LJTI118_1
	.long .LBB118_148-.LJTI118_1
	.long .LBB118_148-.LJTI118_1
	.long .LBB118_148-.LJTI118_1
	.long .LBB118_148-.LJTI118_1
	.long .LBB118_148-.LJTI118_1
	.long .LBB118_148-.LJTI118_1
	.long .LBB118_214-.LJTI118_1
	.long .LBB118_148-.LJTI118_1
	.long .LBB118_215-.LJTI118_1
	.long .LBB118_212-.LJTI118_1
	.long .LBB118_213-.LJTI118_1
	.type .Lswitch.table.tags_library_clear_mask,@object
	.section .rodata.cst16,"aM",@progbits,16
	.p2align 2, 0x0
.Lswitch.table.tags_library_clear_mask:
	.long 4294967295
	.long 4294967293
	.long 4294967292
	.long 4294967291
	.size .Lswitch.table.tags_library_clear_mask, 16
	.type .Lswitch.table.tags_library_is_cached,@object
	.section .rodata..Lswitch.table.tags_library_is_cached,"a",@progbits
	.p2align 2, 0x0
.Lswitch.table.tags_library_is_cached:
	.long 0
	.long 4294967284
	.long 1
	.size .Lswitch.table.tags_library_is_cached, 12
	.type .Lswitch.table.tags_library_leave,@object
	.section .rodata..Lswitch.table.tags_library_leave,"a",@progbits
	.p2align 2, 0x0
.Lswitch.table.tags_library_leave:
	.long 0
	.long 4294967295
	.long 4294967286
	.long 4294967284
	.long 4294967283
	.long 4294967282
	.long 4294967281
	.long 4294967280
	.long 4294967279
	.long 4294967278
	.long 4294967275
	.long 4294967277
	.long 4294967276
	.long 4294967267
	.long 4294967266
	.long 4294967261
	.size .Lswitch.table.tags_library_leave, 64
	.type .Lswitch.table.tags_library_join,@object
	.section .rodata..Lswitch.table.tags_library_join,"a",@progbits
	.p2align 2, 0x0
.Lswitch.table.tags_library_join:
	.long 0
	.long 4294967295
	.long 4294967286
	.long 4294967284
	.long 4294967283
	.long 4294967282
	.long 4294967281
	.long 4294967280
	.long 4294967279
	.long 4294967278
	.long 4294967275
	.size .Lswitch.table.tags_library_join, 44
	.type .Lswitch.table.tags_library_wait_on_reserved.286,@object
	.section .rodata..Lswitch.table.tags_library_wait_on_reserved.286,"a",@progbits
	.p2align 2, 0x0
.Lswitch.table.tags_library_wait_on_reserved.286:
	.long 4294967295
	.long 4294967293
	.long 4294967292
	.long 4294967291
	.long 4294967290
	.long 4294967289
	.long 4294967294
	.size .Lswitch.table.tags_library_wait_on_reserved.286, 28
	.section ".note.GNU-stack","",@progbits
	.section .note.gnu.property,"a",@note
	.p2align 3
	.long 4
	.long 16
	.long 5
	.asciz "GNU"
	.long 0xc0000002
	.long 4
	.long 2
	.long 0
