# touch_load, touch_store, touch_atomic: call line_touched() of lines.c with the address that is in %rdi, whose own value the
# caller has saved, and the kind of the access. All other registers and the flags are as they were.
.macro touch name, kind
	.globl \name
\name:
	pushfq
	.irp register, rax, rcx, rdx, rsi, r8, r9, r10, r11, rbp
	pushq %\register
	.endr
	movq %rsp, %rbp
	andq $-16, %rsp
	subq $512, %rsp
	fxsave64 (%rsp)
	movl $\kind, %esi
	cld
	callq line_touched
	fxrstor64 (%rsp)
	movq %rbp, %rsp
	.irp register, rbp, r11, r10, r9, r8, rsi, rdx, rcx, rax
	popq %\register
	.endr
	popfq
	ret
.endm

.text
touch touch_load, 0
touch touch_store, 1
touch touch_atomic, 2
.section .note.GNU-stack, "", @progbits
