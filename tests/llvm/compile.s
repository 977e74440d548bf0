# Written by scripts/llvm_compile.py.

# worked example
	.text
	.seh_proc f0
f0:
	pushq %rbp
	.seh_pushreg %rbp
	pushq %rbx
	.seh_pushreg %rbx
	subq $56, %rsp
	.seh_stackalloc 56
	leaq 32(%rsp), %rbp
	.seh_setframe %rbp, 32
	movq %rsi, 40(%rsp)
	.seh_savereg %rsi, 40
	.seh_endprologue
	nop
	movq 8(%rbp), %rsi
	leaq 24(%rbp), %rsp
	popq %rbx
	popq %rbp
	retq
	.seh_endproc

# no step and no operation
	.text
	.seh_proc f0
f0:
	.seh_endprologue
	retq
	.seh_endproc

# nops
	.text
	.seh_proc f0
f0:
	.seh_endprologue
	nop
	retq
	.seh_endproc
	.p2align 4, 0xCC
	.seh_proc f1
f1:
	.seh_endprologue
	nop
	nop
	retq
	.seh_endproc
	.p2align 4, 0xCC
	.seh_proc f2
f2:
	.seh_endprologue
	nop
	nop
	nop
	nop
	nop
	nop
	nop
	nop
	nop
	nop
	nop
	nop
	nop
	nop
	retq
	.seh_endproc
	.p2align 4, 0xCC
	.seh_proc f3
f3:
	.seh_endprologue
	nop
	nop
	nop
	nop
	nop
	nop
	nop
	nop
	nop
	nop
	nop
	nop
	nop
	nop
	nop
	retq
	.seh_endproc
	.p2align 4, 0xCC
	.seh_proc f4
f4:
	.seh_endprologue
	nop
	nop
	nop
	nop
	nop
	nop
	nop
	nop
	nop
	nop
	nop
	nop
	nop
	nop
	nop
	nop
	retq
	.seh_endproc

# each push
	.text
	.seh_proc f0
f0:
	pushq %rbx
	.seh_pushreg %rbx
	.seh_endprologue
	popq %rbx
	retq
	.seh_endproc
	.p2align 4, 0xCC
	.seh_proc f1
f1:
	pushq %rbp
	.seh_pushreg %rbp
	.seh_endprologue
	popq %rbp
	retq
	.seh_endproc
	.p2align 4, 0xCC
	.seh_proc f2
f2:
	pushq %rsi
	.seh_pushreg %rsi
	.seh_endprologue
	popq %rsi
	retq
	.seh_endproc
	.p2align 4, 0xCC
	.seh_proc f3
f3:
	pushq %rdi
	.seh_pushreg %rdi
	.seh_endprologue
	popq %rdi
	retq
	.seh_endproc
	.p2align 4, 0xCC
	.seh_proc f4
f4:
	pushq %r12
	.seh_pushreg %r12
	.seh_endprologue
	popq %r12
	retq
	.seh_endproc
	.p2align 4, 0xCC
	.seh_proc f5
f5:
	pushq %r13
	.seh_pushreg %r13
	.seh_endprologue
	popq %r13
	retq
	.seh_endproc
	.p2align 4, 0xCC
	.seh_proc f6
f6:
	pushq %r14
	.seh_pushreg %r14
	.seh_endprologue
	popq %r14
	retq
	.seh_endproc
	.p2align 4, 0xCC
	.seh_proc f7
f7:
	pushq %r15
	.seh_pushreg %r15
	.seh_endprologue
	popq %r15
	retq
	.seh_endproc

# all pushes, both ways
	.text
	.seh_proc f0
f0:
	pushq %rbx
	.seh_pushreg %rbx
	pushq %rbp
	.seh_pushreg %rbp
	pushq %rsi
	.seh_pushreg %rsi
	pushq %rdi
	.seh_pushreg %rdi
	pushq %r12
	.seh_pushreg %r12
	pushq %r13
	.seh_pushreg %r13
	pushq %r14
	.seh_pushreg %r14
	pushq %r15
	.seh_pushreg %r15
	.seh_endprologue
	popq %r15
	popq %r14
	popq %r13
	popq %r12
	popq %rdi
	popq %rsi
	popq %rbp
	popq %rbx
	retq
	.seh_endproc
	.p2align 4, 0xCC
	.seh_proc f1
f1:
	pushq %r15
	.seh_pushreg %r15
	pushq %r14
	.seh_pushreg %r14
	pushq %r13
	.seh_pushreg %r13
	pushq %r12
	.seh_pushreg %r12
	pushq %rdi
	.seh_pushreg %rdi
	pushq %rsi
	.seh_pushreg %rsi
	pushq %rbp
	.seh_pushreg %rbp
	pushq %rbx
	.seh_pushreg %rbx
	.seh_endprologue
	popq %rbx
	popq %rbp
	popq %rsi
	popq %rdi
	popq %r12
	popq %r13
	popq %r14
	popq %r15
	retq
	.seh_endproc

# allocates
	.text
	.seh_proc f0
f0:
	subq $8, %rsp
	.seh_stackalloc 8
	.seh_endprologue
	addq $8, %rsp
	retq
	.seh_endproc
	.p2align 4, 0xCC
	.seh_proc f1
f1:
	subq $16, %rsp
	.seh_stackalloc 16
	.seh_endprologue
	addq $16, %rsp
	retq
	.seh_endproc
	.p2align 4, 0xCC
	.seh_proc f2
f2:
	subq $112, %rsp
	.seh_stackalloc 112
	.seh_endprologue
	addq $112, %rsp
	retq
	.seh_endproc
	.p2align 4, 0xCC
	.seh_proc f3
f3:
	subq $120, %rsp
	.seh_stackalloc 120
	.seh_endprologue
	addq $120, %rsp
	retq
	.seh_endproc
	.p2align 4, 0xCC
	.seh_proc f4
f4:
	subq $128, %rsp
	.seh_stackalloc 128
	.seh_endprologue
	addq $128, %rsp
	retq
	.seh_endproc
	.p2align 4, 0xCC
	.seh_proc f5
f5:
	subq $136, %rsp
	.seh_stackalloc 136
	.seh_endprologue
	addq $136, %rsp
	retq
	.seh_endproc
	.p2align 4, 0xCC
	.seh_proc f6
f6:
	subq $524272, %rsp
	.seh_stackalloc 524272
	.seh_endprologue
	addq $524272, %rsp
	retq
	.seh_endproc
	.p2align 4, 0xCC
	.seh_proc f7
f7:
	subq $524280, %rsp
	.seh_stackalloc 524280
	.seh_endprologue
	addq $524280, %rsp
	retq
	.seh_endproc
	.p2align 4, 0xCC
	.seh_proc f8
f8:
	subq $524288, %rsp
	.seh_stackalloc 524288
	.seh_endprologue
	addq $524288, %rsp
	retq
	.seh_endproc
	.p2align 4, 0xCC
	.seh_proc f9
f9:
	subq $524296, %rsp
	.seh_stackalloc 524296
	.seh_endprologue
	addq $524296, %rsp
	retq
	.seh_endproc
	.p2align 4, 0xCC
	.seh_proc f10
f10:
	subq $2097144, %rsp
	.seh_stackalloc 2097144
	.seh_endprologue
	addq $2097144, %rsp
	retq
	.seh_endproc
	.p2align 4, 0xCC
	.seh_proc f11
f11:
	subq $2097152, %rsp
	.seh_stackalloc 2097152
	.seh_endprologue
	addq $2097152, %rsp
	retq
	.seh_endproc

# allocates after pushes
	.text
	.seh_proc f0
f0:
	pushq %r12
	.seh_pushreg %r12
	pushq %rsi
	.seh_pushreg %rsi
	subq $8, %rsp
	.seh_stackalloc 8
	.seh_endprologue
	nop
	addq $8, %rsp
	popq %rsi
	popq %r12
	retq
	.seh_endproc
	.p2align 4, 0xCC
	.seh_proc f1
f1:
	pushq %r12
	.seh_pushreg %r12
	pushq %rsi
	.seh_pushreg %rsi
	subq $16, %rsp
	.seh_stackalloc 16
	.seh_endprologue
	nop
	addq $16, %rsp
	popq %rsi
	popq %r12
	retq
	.seh_endproc
	.p2align 4, 0xCC
	.seh_proc f2
f2:
	pushq %r12
	.seh_pushreg %r12
	pushq %rsi
	.seh_pushreg %rsi
	subq $112, %rsp
	.seh_stackalloc 112
	.seh_endprologue
	nop
	addq $112, %rsp
	popq %rsi
	popq %r12
	retq
	.seh_endproc
	.p2align 4, 0xCC
	.seh_proc f3
f3:
	pushq %r12
	.seh_pushreg %r12
	pushq %rsi
	.seh_pushreg %rsi
	subq $120, %rsp
	.seh_stackalloc 120
	.seh_endprologue
	nop
	addq $120, %rsp
	popq %rsi
	popq %r12
	retq
	.seh_endproc
	.p2align 4, 0xCC
	.seh_proc f4
f4:
	pushq %r12
	.seh_pushreg %r12
	pushq %rsi
	.seh_pushreg %rsi
	subq $128, %rsp
	.seh_stackalloc 128
	.seh_endprologue
	nop
	addq $128, %rsp
	popq %rsi
	popq %r12
	retq
	.seh_endproc
	.p2align 4, 0xCC
	.seh_proc f5
f5:
	pushq %r12
	.seh_pushreg %r12
	pushq %rsi
	.seh_pushreg %rsi
	subq $136, %rsp
	.seh_stackalloc 136
	.seh_endprologue
	nop
	addq $136, %rsp
	popq %rsi
	popq %r12
	retq
	.seh_endproc
	.p2align 4, 0xCC
	.seh_proc f6
f6:
	pushq %r12
	.seh_pushreg %r12
	pushq %rsi
	.seh_pushreg %rsi
	subq $524272, %rsp
	.seh_stackalloc 524272
	.seh_endprologue
	nop
	addq $524272, %rsp
	popq %rsi
	popq %r12
	retq
	.seh_endproc
	.p2align 4, 0xCC
	.seh_proc f7
f7:
	pushq %r12
	.seh_pushreg %r12
	pushq %rsi
	.seh_pushreg %rsi
	subq $524280, %rsp
	.seh_stackalloc 524280
	.seh_endprologue
	nop
	addq $524280, %rsp
	popq %rsi
	popq %r12
	retq
	.seh_endproc
	.p2align 4, 0xCC
	.seh_proc f8
f8:
	pushq %r12
	.seh_pushreg %r12
	pushq %rsi
	.seh_pushreg %rsi
	subq $524288, %rsp
	.seh_stackalloc 524288
	.seh_endprologue
	nop
	addq $524288, %rsp
	popq %rsi
	popq %r12
	retq
	.seh_endproc
	.p2align 4, 0xCC
	.seh_proc f9
f9:
	pushq %r12
	.seh_pushreg %r12
	pushq %rsi
	.seh_pushreg %rsi
	subq $524296, %rsp
	.seh_stackalloc 524296
	.seh_endprologue
	nop
	addq $524296, %rsp
	popq %rsi
	popq %r12
	retq
	.seh_endproc
	.p2align 4, 0xCC
	.seh_proc f10
f10:
	pushq %r12
	.seh_pushreg %r12
	pushq %rsi
	.seh_pushreg %rsi
	subq $2097144, %rsp
	.seh_stackalloc 2097144
	.seh_endprologue
	nop
	addq $2097144, %rsp
	popq %rsi
	popq %r12
	retq
	.seh_endproc
	.p2align 4, 0xCC
	.seh_proc f11
f11:
	pushq %r12
	.seh_pushreg %r12
	pushq %rsi
	.seh_pushreg %rsi
	subq $2097152, %rsp
	.seh_stackalloc 2097152
	.seh_endprologue
	nop
	addq $2097152, %rsp
	popq %rsi
	popq %r12
	retq
	.seh_endproc

# each save near
	.text
	.seh_proc f0
f0:
	subq $64, %rsp
	.seh_stackalloc 64
	movq %rbx, 40(%rsp)
	.seh_savereg %rbx, 40
	.seh_endprologue
	movq 40(%rsp), %rbx
	addq $64, %rsp
	retq
	.seh_endproc
	.p2align 4, 0xCC
	.seh_proc f1
f1:
	subq $64, %rsp
	.seh_stackalloc 64
	movq %rbp, 40(%rsp)
	.seh_savereg %rbp, 40
	.seh_endprologue
	movq 40(%rsp), %rbp
	addq $64, %rsp
	retq
	.seh_endproc
	.p2align 4, 0xCC
	.seh_proc f2
f2:
	subq $64, %rsp
	.seh_stackalloc 64
	movq %rsi, 40(%rsp)
	.seh_savereg %rsi, 40
	.seh_endprologue
	movq 40(%rsp), %rsi
	addq $64, %rsp
	retq
	.seh_endproc
	.p2align 4, 0xCC
	.seh_proc f3
f3:
	subq $64, %rsp
	.seh_stackalloc 64
	movq %rdi, 40(%rsp)
	.seh_savereg %rdi, 40
	.seh_endprologue
	movq 40(%rsp), %rdi
	addq $64, %rsp
	retq
	.seh_endproc
	.p2align 4, 0xCC
	.seh_proc f4
f4:
	subq $64, %rsp
	.seh_stackalloc 64
	movq %r12, 40(%rsp)
	.seh_savereg %r12, 40
	.seh_endprologue
	movq 40(%rsp), %r12
	addq $64, %rsp
	retq
	.seh_endproc
	.p2align 4, 0xCC
	.seh_proc f5
f5:
	subq $64, %rsp
	.seh_stackalloc 64
	movq %r13, 40(%rsp)
	.seh_savereg %r13, 40
	.seh_endprologue
	movq 40(%rsp), %r13
	addq $64, %rsp
	retq
	.seh_endproc
	.p2align 4, 0xCC
	.seh_proc f6
f6:
	subq $64, %rsp
	.seh_stackalloc 64
	movq %r14, 40(%rsp)
	.seh_savereg %r14, 40
	.seh_endprologue
	movq 40(%rsp), %r14
	addq $64, %rsp
	retq
	.seh_endproc
	.p2align 4, 0xCC
	.seh_proc f7
f7:
	subq $64, %rsp
	.seh_stackalloc 64
	movq %r15, 40(%rsp)
	.seh_savereg %r15, 40
	.seh_endprologue
	movq 40(%rsp), %r15
	addq $64, %rsp
	retq
	.seh_endproc

# each save at four bytes
	.text
	.seh_proc f0
f0:
	subq $256, %rsp
	.seh_stackalloc 256
	movq %rbx, 128(%rsp)
	.seh_savereg %rbx, 128
	.seh_endprologue
	movq 128(%rsp), %rbx
	addq $256, %rsp
	retq
	.seh_endproc
	.p2align 4, 0xCC
	.seh_proc f1
f1:
	subq $256, %rsp
	.seh_stackalloc 256
	movq %rbp, 128(%rsp)
	.seh_savereg %rbp, 128
	.seh_endprologue
	movq 128(%rsp), %rbp
	addq $256, %rsp
	retq
	.seh_endproc
	.p2align 4, 0xCC
	.seh_proc f2
f2:
	subq $256, %rsp
	.seh_stackalloc 256
	movq %rsi, 128(%rsp)
	.seh_savereg %rsi, 128
	.seh_endprologue
	movq 128(%rsp), %rsi
	addq $256, %rsp
	retq
	.seh_endproc
	.p2align 4, 0xCC
	.seh_proc f3
f3:
	subq $256, %rsp
	.seh_stackalloc 256
	movq %rdi, 128(%rsp)
	.seh_savereg %rdi, 128
	.seh_endprologue
	movq 128(%rsp), %rdi
	addq $256, %rsp
	retq
	.seh_endproc
	.p2align 4, 0xCC
	.seh_proc f4
f4:
	subq $256, %rsp
	.seh_stackalloc 256
	movq %r12, 128(%rsp)
	.seh_savereg %r12, 128
	.seh_endprologue
	movq 128(%rsp), %r12
	addq $256, %rsp
	retq
	.seh_endproc
	.p2align 4, 0xCC
	.seh_proc f5
f5:
	subq $256, %rsp
	.seh_stackalloc 256
	movq %r13, 128(%rsp)
	.seh_savereg %r13, 128
	.seh_endprologue
	movq 128(%rsp), %r13
	addq $256, %rsp
	retq
	.seh_endproc
	.p2align 4, 0xCC
	.seh_proc f6
f6:
	subq $256, %rsp
	.seh_stackalloc 256
	movq %r14, 128(%rsp)
	.seh_savereg %r14, 128
	.seh_endprologue
	movq 128(%rsp), %r14
	addq $256, %rsp
	retq
	.seh_endproc
	.p2align 4, 0xCC
	.seh_proc f7
f7:
	subq $256, %rsp
	.seh_stackalloc 256
	movq %r15, 128(%rsp)
	.seh_savereg %r15, 128
	.seh_endprologue
	movq 128(%rsp), %r15
	addq $256, %rsp
	retq
	.seh_endproc

# each save far
	.text
	.seh_proc f0
f0:
	subq $2097152, %rsp
	.seh_stackalloc 2097152
	movq %rbx, 524288(%rsp)
	.seh_savereg %rbx, 524288
	.seh_endprologue
	movq 524288(%rsp), %rbx
	addq $2097152, %rsp
	retq
	.seh_endproc
	.p2align 4, 0xCC
	.seh_proc f1
f1:
	subq $2097152, %rsp
	.seh_stackalloc 2097152
	movq %rbp, 524288(%rsp)
	.seh_savereg %rbp, 524288
	.seh_endprologue
	movq 524288(%rsp), %rbp
	addq $2097152, %rsp
	retq
	.seh_endproc
	.p2align 4, 0xCC
	.seh_proc f2
f2:
	subq $2097152, %rsp
	.seh_stackalloc 2097152
	movq %rsi, 524288(%rsp)
	.seh_savereg %rsi, 524288
	.seh_endprologue
	movq 524288(%rsp), %rsi
	addq $2097152, %rsp
	retq
	.seh_endproc
	.p2align 4, 0xCC
	.seh_proc f3
f3:
	subq $2097152, %rsp
	.seh_stackalloc 2097152
	movq %rdi, 524288(%rsp)
	.seh_savereg %rdi, 524288
	.seh_endprologue
	movq 524288(%rsp), %rdi
	addq $2097152, %rsp
	retq
	.seh_endproc
	.p2align 4, 0xCC
	.seh_proc f4
f4:
	subq $2097152, %rsp
	.seh_stackalloc 2097152
	movq %r12, 524288(%rsp)
	.seh_savereg %r12, 524288
	.seh_endprologue
	movq 524288(%rsp), %r12
	addq $2097152, %rsp
	retq
	.seh_endproc
	.p2align 4, 0xCC
	.seh_proc f5
f5:
	subq $2097152, %rsp
	.seh_stackalloc 2097152
	movq %r13, 524288(%rsp)
	.seh_savereg %r13, 524288
	.seh_endprologue
	movq 524288(%rsp), %r13
	addq $2097152, %rsp
	retq
	.seh_endproc
	.p2align 4, 0xCC
	.seh_proc f6
f6:
	subq $2097152, %rsp
	.seh_stackalloc 2097152
	movq %r14, 524288(%rsp)
	.seh_savereg %r14, 524288
	.seh_endprologue
	movq 524288(%rsp), %r14
	addq $2097152, %rsp
	retq
	.seh_endproc
	.p2align 4, 0xCC
	.seh_proc f7
f7:
	subq $2097152, %rsp
	.seh_stackalloc 2097152
	movq %r15, 524288(%rsp)
	.seh_savereg %r15, 524288
	.seh_endprologue
	movq 524288(%rsp), %r15
	addq $2097152, %rsp
	retq
	.seh_endproc

# eight saves
	.text
	.seh_proc f0
f0:
	subq $64, %rsp
	.seh_stackalloc 64
	{disp8} movq %rbx, 0(%rsp)
	.seh_savereg %rbx, 0
	movq %rbp, 8(%rsp)
	.seh_savereg %rbp, 8
	movq %rsi, 16(%rsp)
	.seh_savereg %rsi, 16
	movq %rdi, 24(%rsp)
	.seh_savereg %rdi, 24
	movq %r12, 32(%rsp)
	.seh_savereg %r12, 32
	movq %r13, 40(%rsp)
	.seh_savereg %r13, 40
	movq %r14, 48(%rsp)
	.seh_savereg %r14, 48
	movq %r15, 56(%rsp)
	.seh_savereg %r15, 56
	.seh_endprologue
	movq 56(%rsp), %r15
	movq 48(%rsp), %r14
	movq 40(%rsp), %r13
	movq 32(%rsp), %r12
	movq 24(%rsp), %rdi
	movq 16(%rsp), %rsi
	movq 8(%rsp), %rbp
	{disp8} movq 0(%rsp), %rbx
	addq $64, %rsp
	retq
	.seh_endproc
	.p2align 4, 0xCC
	.seh_proc f1
f1:
	subq $2097152, %rsp
	.seh_stackalloc 2097152
	movq %rbx, 524288(%rsp)
	.seh_savereg %rbx, 524288
	movq %rbp, 524296(%rsp)
	.seh_savereg %rbp, 524296
	movq %rsi, 524304(%rsp)
	.seh_savereg %rsi, 524304
	movq %rdi, 524312(%rsp)
	.seh_savereg %rdi, 524312
	movq %r12, 524320(%rsp)
	.seh_savereg %r12, 524320
	movq %r13, 524328(%rsp)
	.seh_savereg %r13, 524328
	movq %r14, 524336(%rsp)
	.seh_savereg %r14, 524336
	movq %r15, 524344(%rsp)
	.seh_savereg %r15, 524344
	.seh_endprologue
	movq 524344(%rsp), %r15
	movq 524336(%rsp), %r14
	movq 524328(%rsp), %r13
	movq 524320(%rsp), %r12
	movq 524312(%rsp), %rdi
	movq 524304(%rsp), %rsi
	movq 524296(%rsp), %rbp
	movq 524288(%rsp), %rbx
	addq $2097152, %rsp
	retq
	.seh_endproc

# save offsets
	.text
	.seh_proc f0
f0:
	subq $2097152, %rsp
	.seh_stackalloc 2097152
	{disp8} movq %rbx, 0(%rsp)
	.seh_savereg %rbx, 0
	.seh_endprologue
	{disp8} movq 0(%rsp), %rbx
	addq $2097152, %rsp
	retq
	.seh_endproc
	.p2align 4, 0xCC
	.seh_proc f1
f1:
	subq $2097152, %rsp
	.seh_stackalloc 2097152
	movq %rbx, 8(%rsp)
	.seh_savereg %rbx, 8
	.seh_endprologue
	movq 8(%rsp), %rbx
	addq $2097152, %rsp
	retq
	.seh_endproc
	.p2align 4, 0xCC
	.seh_proc f2
f2:
	subq $2097152, %rsp
	.seh_stackalloc 2097152
	movq %rbx, 112(%rsp)
	.seh_savereg %rbx, 112
	.seh_endprologue
	movq 112(%rsp), %rbx
	addq $2097152, %rsp
	retq
	.seh_endproc
	.p2align 4, 0xCC
	.seh_proc f3
f3:
	subq $2097152, %rsp
	.seh_stackalloc 2097152
	movq %rbx, 120(%rsp)
	.seh_savereg %rbx, 120
	.seh_endprologue
	movq 120(%rsp), %rbx
	addq $2097152, %rsp
	retq
	.seh_endproc
	.p2align 4, 0xCC
	.seh_proc f4
f4:
	subq $2097152, %rsp
	.seh_stackalloc 2097152
	movq %rbx, 128(%rsp)
	.seh_savereg %rbx, 128
	.seh_endprologue
	movq 128(%rsp), %rbx
	addq $2097152, %rsp
	retq
	.seh_endproc
	.p2align 4, 0xCC
	.seh_proc f5
f5:
	subq $2097152, %rsp
	.seh_stackalloc 2097152
	movq %rbx, 136(%rsp)
	.seh_savereg %rbx, 136
	.seh_endprologue
	movq 136(%rsp), %rbx
	addq $2097152, %rsp
	retq
	.seh_endproc
	.p2align 4, 0xCC
	.seh_proc f6
f6:
	subq $2097152, %rsp
	.seh_stackalloc 2097152
	movq %rbx, 524264(%rsp)
	.seh_savereg %rbx, 524264
	.seh_endprologue
	movq 524264(%rsp), %rbx
	addq $2097152, %rsp
	retq
	.seh_endproc
	.p2align 4, 0xCC
	.seh_proc f7
f7:
	subq $2097152, %rsp
	.seh_stackalloc 2097152
	movq %rbx, 524272(%rsp)
	.seh_savereg %rbx, 524272
	.seh_endprologue
	movq 524272(%rsp), %rbx
	addq $2097152, %rsp
	retq
	.seh_endproc
	.p2align 4, 0xCC
	.seh_proc f8
f8:
	subq $2097152, %rsp
	.seh_stackalloc 2097152
	movq %rbx, 524280(%rsp)
	.seh_savereg %rbx, 524280
	.seh_endprologue
	movq 524280(%rsp), %rbx
	addq $2097152, %rsp
	retq
	.seh_endproc
	.p2align 4, 0xCC
	.seh_proc f9
f9:
	subq $2097152, %rsp
	.seh_stackalloc 2097152
	movq %rbx, 524288(%rsp)
	.seh_savereg %rbx, 524288
	.seh_endprologue
	movq 524288(%rsp), %rbx
	addq $2097152, %rsp
	retq
	.seh_endproc
	.p2align 4, 0xCC
	.seh_proc f10
f10:
	subq $2097152, %rsp
	.seh_stackalloc 2097152
	movq %rbx, 524296(%rsp)
	.seh_savereg %rbx, 524296
	.seh_endprologue
	movq 524296(%rsp), %rbx
	addq $2097152, %rsp
	retq
	.seh_endproc
	.p2align 4, 0xCC
	.seh_proc f11
f11:
	subq $2097152, %rsp
	.seh_stackalloc 2097152
	movq %rbx, 2097136(%rsp)
	.seh_savereg %rbx, 2097136
	.seh_endprologue
	movq 2097136(%rsp), %rbx
	addq $2097152, %rsp
	retq
	.seh_endproc
	.p2align 4, 0xCC
	.seh_proc f12
f12:
	subq $2097152, %rsp
	.seh_stackalloc 2097152
	movq %rbx, 2097144(%rsp)
	.seh_savereg %rbx, 2097144
	.seh_endprologue
	movq 2097144(%rsp), %rbx
	addq $2097152, %rsp
	retq
	.seh_endproc

# save offsets, high register
	.text
	.seh_proc f0
f0:
	subq $2097152, %rsp
	.seh_stackalloc 2097152
	{disp8} movq %r15, 0(%rsp)
	.seh_savereg %r15, 0
	.seh_endprologue
	{disp8} movq 0(%rsp), %r15
	addq $2097152, %rsp
	retq
	.seh_endproc
	.p2align 4, 0xCC
	.seh_proc f1
f1:
	subq $2097152, %rsp
	.seh_stackalloc 2097152
	movq %r15, 8(%rsp)
	.seh_savereg %r15, 8
	.seh_endprologue
	movq 8(%rsp), %r15
	addq $2097152, %rsp
	retq
	.seh_endproc
	.p2align 4, 0xCC
	.seh_proc f2
f2:
	subq $2097152, %rsp
	.seh_stackalloc 2097152
	movq %r15, 112(%rsp)
	.seh_savereg %r15, 112
	.seh_endprologue
	movq 112(%rsp), %r15
	addq $2097152, %rsp
	retq
	.seh_endproc
	.p2align 4, 0xCC
	.seh_proc f3
f3:
	subq $2097152, %rsp
	.seh_stackalloc 2097152
	movq %r15, 120(%rsp)
	.seh_savereg %r15, 120
	.seh_endprologue
	movq 120(%rsp), %r15
	addq $2097152, %rsp
	retq
	.seh_endproc
	.p2align 4, 0xCC
	.seh_proc f4
f4:
	subq $2097152, %rsp
	.seh_stackalloc 2097152
	movq %r15, 128(%rsp)
	.seh_savereg %r15, 128
	.seh_endprologue
	movq 128(%rsp), %r15
	addq $2097152, %rsp
	retq
	.seh_endproc
	.p2align 4, 0xCC
	.seh_proc f5
f5:
	subq $2097152, %rsp
	.seh_stackalloc 2097152
	movq %r15, 136(%rsp)
	.seh_savereg %r15, 136
	.seh_endprologue
	movq 136(%rsp), %r15
	addq $2097152, %rsp
	retq
	.seh_endproc
	.p2align 4, 0xCC
	.seh_proc f6
f6:
	subq $2097152, %rsp
	.seh_stackalloc 2097152
	movq %r15, 524264(%rsp)
	.seh_savereg %r15, 524264
	.seh_endprologue
	movq 524264(%rsp), %r15
	addq $2097152, %rsp
	retq
	.seh_endproc
	.p2align 4, 0xCC
	.seh_proc f7
f7:
	subq $2097152, %rsp
	.seh_stackalloc 2097152
	movq %r15, 524272(%rsp)
	.seh_savereg %r15, 524272
	.seh_endprologue
	movq 524272(%rsp), %r15
	addq $2097152, %rsp
	retq
	.seh_endproc
	.p2align 4, 0xCC
	.seh_proc f8
f8:
	subq $2097152, %rsp
	.seh_stackalloc 2097152
	movq %r15, 524280(%rsp)
	.seh_savereg %r15, 524280
	.seh_endprologue
	movq 524280(%rsp), %r15
	addq $2097152, %rsp
	retq
	.seh_endproc
	.p2align 4, 0xCC
	.seh_proc f9
f9:
	subq $2097152, %rsp
	.seh_stackalloc 2097152
	movq %r15, 524288(%rsp)
	.seh_savereg %r15, 524288
	.seh_endprologue
	movq 524288(%rsp), %r15
	addq $2097152, %rsp
	retq
	.seh_endproc
	.p2align 4, 0xCC
	.seh_proc f10
f10:
	subq $2097152, %rsp
	.seh_stackalloc 2097152
	movq %r15, 524296(%rsp)
	.seh_savereg %r15, 524296
	.seh_endprologue
	movq 524296(%rsp), %r15
	addq $2097152, %rsp
	retq
	.seh_endproc
	.p2align 4, 0xCC
	.seh_proc f11
f11:
	subq $2097152, %rsp
	.seh_stackalloc 2097152
	movq %r15, 2097136(%rsp)
	.seh_savereg %r15, 2097136
	.seh_endprologue
	movq 2097136(%rsp), %r15
	addq $2097152, %rsp
	retq
	.seh_endproc
	.p2align 4, 0xCC
	.seh_proc f12
f12:
	subq $2097152, %rsp
	.seh_stackalloc 2097152
	movq %r15, 2097144(%rsp)
	.seh_savereg %r15, 2097144
	.seh_endprologue
	movq 2097144(%rsp), %r15
	addq $2097152, %rsp
	retq
	.seh_endproc

# smallest blocks for a save
	.text
	.seh_proc f0
f0:
	subq $8, %rsp
	.seh_stackalloc 8
	{disp8} movq %r12, 0(%rsp)
	.seh_savereg %r12, 0
	.seh_endprologue
	{disp8} movq 0(%rsp), %r12
	addq $8, %rsp
	retq
	.seh_endproc
	.p2align 4, 0xCC
	.seh_proc f1
f1:
	subq $16, %rsp
	.seh_stackalloc 16
	movq %r12, 8(%rsp)
	.seh_savereg %r12, 8
	.seh_endprologue
	movq 8(%rsp), %r12
	addq $16, %rsp
	retq
	.seh_endproc
	.p2align 4, 0xCC
	.seh_proc f2
f2:
	subq $120, %rsp
	.seh_stackalloc 120
	movq %r12, 112(%rsp)
	.seh_savereg %r12, 112
	.seh_endprologue
	movq 112(%rsp), %r12
	addq $120, %rsp
	retq
	.seh_endproc
	.p2align 4, 0xCC
	.seh_proc f3
f3:
	subq $128, %rsp
	.seh_stackalloc 128
	movq %r12, 120(%rsp)
	.seh_savereg %r12, 120
	.seh_endprologue
	movq 120(%rsp), %r12
	addq $128, %rsp
	retq
	.seh_endproc
	.p2align 4, 0xCC
	.seh_proc f4
f4:
	subq $136, %rsp
	.seh_stackalloc 136
	movq %r12, 128(%rsp)
	.seh_savereg %r12, 128
	.seh_endprologue
	movq 128(%rsp), %r12
	addq $136, %rsp
	retq
	.seh_endproc
	.p2align 4, 0xCC
	.seh_proc f5
f5:
	subq $144, %rsp
	.seh_stackalloc 144
	movq %r12, 136(%rsp)
	.seh_savereg %r12, 136
	.seh_endprologue
	movq 136(%rsp), %r12
	addq $144, %rsp
	retq
	.seh_endproc
	.p2align 4, 0xCC
	.seh_proc f6
f6:
	subq $524272, %rsp
	.seh_stackalloc 524272
	movq %r12, 524264(%rsp)
	.seh_savereg %r12, 524264
	.seh_endprologue
	movq 524264(%rsp), %r12
	addq $524272, %rsp
	retq
	.seh_endproc
	.p2align 4, 0xCC
	.seh_proc f7
f7:
	subq $524280, %rsp
	.seh_stackalloc 524280
	movq %r12, 524272(%rsp)
	.seh_savereg %r12, 524272
	.seh_endprologue
	movq 524272(%rsp), %r12
	addq $524280, %rsp
	retq
	.seh_endproc
	.p2align 4, 0xCC
	.seh_proc f8
f8:
	subq $524288, %rsp
	.seh_stackalloc 524288
	movq %r12, 524280(%rsp)
	.seh_savereg %r12, 524280
	.seh_endprologue
	movq 524280(%rsp), %r12
	addq $524288, %rsp
	retq
	.seh_endproc
	.p2align 4, 0xCC
	.seh_proc f9
f9:
	subq $524296, %rsp
	.seh_stackalloc 524296
	movq %r12, 524288(%rsp)
	.seh_savereg %r12, 524288
	.seh_endprologue
	movq 524288(%rsp), %r12
	addq $524296, %rsp
	retq
	.seh_endproc
	.p2align 4, 0xCC
	.seh_proc f10
f10:
	subq $524304, %rsp
	.seh_stackalloc 524304
	movq %r12, 524296(%rsp)
	.seh_savereg %r12, 524296
	.seh_endprologue
	movq 524296(%rsp), %r12
	addq $524304, %rsp
	retq
	.seh_endproc
	.p2align 4, 0xCC
	.seh_proc f11
f11:
	subq $2097144, %rsp
	.seh_stackalloc 2097144
	movq %r12, 2097136(%rsp)
	.seh_savereg %r12, 2097136
	.seh_endprologue
	movq 2097136(%rsp), %r12
	addq $2097144, %rsp
	retq
	.seh_endproc
	.p2align 4, 0xCC
	.seh_proc f12
f12:
	subq $2097152, %rsp
	.seh_stackalloc 2097152
	movq %r12, 2097144(%rsp)
	.seh_savereg %r12, 2097144
	.seh_endprologue
	movq 2097144(%rsp), %r12
	addq $2097152, %rsp
	retq
	.seh_endproc

# frame register 3
	.text
	.seh_proc f0
f0:
	pushq %rbx
	.seh_pushreg %rbx
	{disp8} leaq 0(%rsp), %rbx
	.seh_setframe %rbx, 0
	.seh_endprologue
	{disp8} leaq 0(%rbx), %rsp
	popq %rbx
	retq
	.seh_endproc
	.p2align 4, 0xCC
	.seh_proc f1
f1:
	pushq %rbx
	.seh_pushreg %rbx
	subq $64, %rsp
	.seh_stackalloc 64
	leaq 32(%rsp), %rbx
	.seh_setframe %rbx, 32
	movq %rbp, 32(%rsp)
	.seh_savereg %rbp, 32
	movq %r15, 40(%rsp)
	.seh_savereg %r15, 40
	.seh_endprologue
	subq $16, %rsp
	movq 8(%rbx), %r15
	{disp8} movq 0(%rbx), %rbp
	leaq 32(%rbx), %rsp
	popq %rbx
	retq
	.seh_endproc
	.p2align 4, 0xCC
	.seh_proc f2
f2:
	pushq %rbx
	.seh_pushreg %rbx
	subq $2097152, %rsp
	.seh_stackalloc 2097152
	leaq 240(%rsp), %rbx
	.seh_setframe %rbx, 240
	{disp8} movq %rsi, 0(%rsp)
	.seh_savereg %rsi, 0
	movq %r14, 2097144(%rsp)
	.seh_savereg %r14, 2097144
	.seh_endprologue
	movq 2096904(%rbx), %r14
	movq -240(%rbx), %rsi
	leaq 2096912(%rbx), %rsp
	popq %rbx
	retq
	.seh_endproc

# frame register 5
	.text
	.seh_proc f0
f0:
	pushq %rbp
	.seh_pushreg %rbp
	{disp8} leaq 0(%rsp), %rbp
	.seh_setframe %rbp, 0
	.seh_endprologue
	{disp8} leaq 0(%rbp), %rsp
	popq %rbp
	retq
	.seh_endproc
	.p2align 4, 0xCC
	.seh_proc f1
f1:
	pushq %rbp
	.seh_pushreg %rbp
	subq $64, %rsp
	.seh_stackalloc 64
	leaq 32(%rsp), %rbp
	.seh_setframe %rbp, 32
	movq %rbx, 32(%rsp)
	.seh_savereg %rbx, 32
	movq %r15, 40(%rsp)
	.seh_savereg %r15, 40
	.seh_endprologue
	subq $16, %rsp
	movq 8(%rbp), %r15
	{disp8} movq 0(%rbp), %rbx
	leaq 32(%rbp), %rsp
	popq %rbp
	retq
	.seh_endproc
	.p2align 4, 0xCC
	.seh_proc f2
f2:
	pushq %rbp
	.seh_pushreg %rbp
	subq $2097152, %rsp
	.seh_stackalloc 2097152
	leaq 240(%rsp), %rbp
	.seh_setframe %rbp, 240
	{disp8} movq %rsi, 0(%rsp)
	.seh_savereg %rsi, 0
	movq %r14, 2097144(%rsp)
	.seh_savereg %r14, 2097144
	.seh_endprologue
	movq 2096904(%rbp), %r14
	movq -240(%rbp), %rsi
	leaq 2096912(%rbp), %rsp
	popq %rbp
	retq
	.seh_endproc

# frame register 6
	.text
	.seh_proc f0
f0:
	pushq %rsi
	.seh_pushreg %rsi
	{disp8} leaq 0(%rsp), %rsi
	.seh_setframe %rsi, 0
	.seh_endprologue
	{disp8} leaq 0(%rsi), %rsp
	popq %rsi
	retq
	.seh_endproc
	.p2align 4, 0xCC
	.seh_proc f1
f1:
	pushq %rsi
	.seh_pushreg %rsi
	subq $64, %rsp
	.seh_stackalloc 64
	leaq 32(%rsp), %rsi
	.seh_setframe %rsi, 32
	movq %rbx, 32(%rsp)
	.seh_savereg %rbx, 32
	movq %r15, 40(%rsp)
	.seh_savereg %r15, 40
	.seh_endprologue
	subq $16, %rsp
	movq 8(%rsi), %r15
	{disp8} movq 0(%rsi), %rbx
	leaq 32(%rsi), %rsp
	popq %rsi
	retq
	.seh_endproc
	.p2align 4, 0xCC
	.seh_proc f2
f2:
	pushq %rsi
	.seh_pushreg %rsi
	subq $2097152, %rsp
	.seh_stackalloc 2097152
	leaq 240(%rsp), %rsi
	.seh_setframe %rsi, 240
	{disp8} movq %rbp, 0(%rsp)
	.seh_savereg %rbp, 0
	movq %r14, 2097144(%rsp)
	.seh_savereg %r14, 2097144
	.seh_endprologue
	movq 2096904(%rsi), %r14
	movq -240(%rsi), %rbp
	leaq 2096912(%rsi), %rsp
	popq %rsi
	retq
	.seh_endproc

# frame register 7
	.text
	.seh_proc f0
f0:
	pushq %rdi
	.seh_pushreg %rdi
	{disp8} leaq 0(%rsp), %rdi
	.seh_setframe %rdi, 0
	.seh_endprologue
	{disp8} leaq 0(%rdi), %rsp
	popq %rdi
	retq
	.seh_endproc
	.p2align 4, 0xCC
	.seh_proc f1
f1:
	pushq %rdi
	.seh_pushreg %rdi
	subq $64, %rsp
	.seh_stackalloc 64
	leaq 32(%rsp), %rdi
	.seh_setframe %rdi, 32
	movq %rbx, 32(%rsp)
	.seh_savereg %rbx, 32
	movq %r15, 40(%rsp)
	.seh_savereg %r15, 40
	.seh_endprologue
	subq $16, %rsp
	movq 8(%rdi), %r15
	{disp8} movq 0(%rdi), %rbx
	leaq 32(%rdi), %rsp
	popq %rdi
	retq
	.seh_endproc
	.p2align 4, 0xCC
	.seh_proc f2
f2:
	pushq %rdi
	.seh_pushreg %rdi
	subq $2097152, %rsp
	.seh_stackalloc 2097152
	leaq 240(%rsp), %rdi
	.seh_setframe %rdi, 240
	{disp8} movq %rbp, 0(%rsp)
	.seh_savereg %rbp, 0
	movq %r14, 2097144(%rsp)
	.seh_savereg %r14, 2097144
	.seh_endprologue
	movq 2096904(%rdi), %r14
	movq -240(%rdi), %rbp
	leaq 2096912(%rdi), %rsp
	popq %rdi
	retq
	.seh_endproc

# frame register 13
	.text
	.seh_proc f0
f0:
	pushq %r13
	.seh_pushreg %r13
	{disp8} leaq 0(%rsp), %r13
	.seh_setframe %r13, 0
	.seh_endprologue
	{disp8} leaq 0(%r13), %rsp
	popq %r13
	retq
	.seh_endproc
	.p2align 4, 0xCC
	.seh_proc f1
f1:
	pushq %r13
	.seh_pushreg %r13
	subq $64, %rsp
	.seh_stackalloc 64
	leaq 32(%rsp), %r13
	.seh_setframe %r13, 32
	movq %rbx, 32(%rsp)
	.seh_savereg %rbx, 32
	movq %r15, 40(%rsp)
	.seh_savereg %r15, 40
	.seh_endprologue
	subq $16, %rsp
	movq 8(%r13), %r15
	{disp8} movq 0(%r13), %rbx
	leaq 32(%r13), %rsp
	popq %r13
	retq
	.seh_endproc
	.p2align 4, 0xCC
	.seh_proc f2
f2:
	pushq %r13
	.seh_pushreg %r13
	subq $2097152, %rsp
	.seh_stackalloc 2097152
	leaq 240(%rsp), %r13
	.seh_setframe %r13, 240
	{disp8} movq %rbp, 0(%rsp)
	.seh_savereg %rbp, 0
	movq %r14, 2097144(%rsp)
	.seh_savereg %r14, 2097144
	.seh_endprologue
	movq 2096904(%r13), %r14
	movq -240(%r13), %rbp
	leaq 2096912(%r13), %rsp
	popq %r13
	retq
	.seh_endproc

# frame register 14
	.text
	.seh_proc f0
f0:
	pushq %r14
	.seh_pushreg %r14
	{disp8} leaq 0(%rsp), %r14
	.seh_setframe %r14, 0
	.seh_endprologue
	{disp8} leaq 0(%r14), %rsp
	popq %r14
	retq
	.seh_endproc
	.p2align 4, 0xCC
	.seh_proc f1
f1:
	pushq %r14
	.seh_pushreg %r14
	subq $64, %rsp
	.seh_stackalloc 64
	leaq 32(%rsp), %r14
	.seh_setframe %r14, 32
	movq %rbx, 32(%rsp)
	.seh_savereg %rbx, 32
	movq %r15, 40(%rsp)
	.seh_savereg %r15, 40
	.seh_endprologue
	subq $16, %rsp
	movq 8(%r14), %r15
	{disp8} movq 0(%r14), %rbx
	leaq 32(%r14), %rsp
	popq %r14
	retq
	.seh_endproc
	.p2align 4, 0xCC
	.seh_proc f2
f2:
	pushq %r14
	.seh_pushreg %r14
	subq $2097152, %rsp
	.seh_stackalloc 2097152
	leaq 240(%rsp), %r14
	.seh_setframe %r14, 240
	{disp8} movq %rbp, 0(%rsp)
	.seh_savereg %rbp, 0
	movq %r13, 2097144(%rsp)
	.seh_savereg %r13, 2097144
	.seh_endprologue
	movq 2096904(%r14), %r13
	movq -240(%r14), %rbp
	leaq 2096912(%r14), %rsp
	popq %r14
	retq
	.seh_endproc

# frame register 15
	.text
	.seh_proc f0
f0:
	pushq %r15
	.seh_pushreg %r15
	{disp8} leaq 0(%rsp), %r15
	.seh_setframe %r15, 0
	.seh_endprologue
	{disp8} leaq 0(%r15), %rsp
	popq %r15
	retq
	.seh_endproc
	.p2align 4, 0xCC
	.seh_proc f1
f1:
	pushq %r15
	.seh_pushreg %r15
	subq $64, %rsp
	.seh_stackalloc 64
	leaq 32(%rsp), %r15
	.seh_setframe %r15, 32
	movq %rbx, 32(%rsp)
	.seh_savereg %rbx, 32
	movq %r14, 40(%rsp)
	.seh_savereg %r14, 40
	.seh_endprologue
	subq $16, %rsp
	movq 8(%r15), %r14
	{disp8} movq 0(%r15), %rbx
	leaq 32(%r15), %rsp
	popq %r15
	retq
	.seh_endproc
	.p2align 4, 0xCC
	.seh_proc f2
f2:
	pushq %r15
	.seh_pushreg %r15
	subq $2097152, %rsp
	.seh_stackalloc 2097152
	leaq 240(%rsp), %r15
	.seh_setframe %r15, 240
	{disp8} movq %rbp, 0(%rsp)
	.seh_savereg %rbp, 0
	movq %r13, 2097144(%rsp)
	.seh_savereg %r13, 2097144
	.seh_endprologue
	movq 2096904(%r15), %r13
	movq -240(%r15), %rbp
	leaq 2096912(%r15), %rsp
	popq %r15
	retq
	.seh_endproc

# frame offsets without a block
	.text
	.seh_proc f0
f0:
	pushq %rbx
	.seh_pushreg %rbx
	{disp8} leaq 0(%rsp), %rbx
	.seh_setframe %rbx, 0
	.seh_endprologue
	{disp8} leaq 0(%rbx), %rsp
	popq %rbx
	retq
	.seh_endproc
	.p2align 4, 0xCC
	.seh_proc f1
f1:
	pushq %rbp
	.seh_pushreg %rbp
	leaq 16(%rsp), %rbp
	.seh_setframe %rbp, 16
	.seh_endprologue
	leaq -16(%rbp), %rsp
	popq %rbp
	retq
	.seh_endproc
	.p2align 4, 0xCC
	.seh_proc f2
f2:
	pushq %rsi
	.seh_pushreg %rsi
	leaq 32(%rsp), %rsi
	.seh_setframe %rsi, 32
	.seh_endprologue
	leaq -32(%rsi), %rsp
	popq %rsi
	retq
	.seh_endproc
	.p2align 4, 0xCC
	.seh_proc f3
f3:
	pushq %rdi
	.seh_pushreg %rdi
	leaq 48(%rsp), %rdi
	.seh_setframe %rdi, 48
	.seh_endprologue
	leaq -48(%rdi), %rsp
	popq %rdi
	retq
	.seh_endproc
	.p2align 4, 0xCC
	.seh_proc f4
f4:
	pushq %r13
	.seh_pushreg %r13
	leaq 64(%rsp), %r13
	.seh_setframe %r13, 64
	.seh_endprologue
	leaq -64(%r13), %rsp
	popq %r13
	retq
	.seh_endproc
	.p2align 4, 0xCC
	.seh_proc f5
f5:
	pushq %r14
	.seh_pushreg %r14
	leaq 80(%rsp), %r14
	.seh_setframe %r14, 80
	.seh_endprologue
	leaq -80(%r14), %rsp
	popq %r14
	retq
	.seh_endproc
	.p2align 4, 0xCC
	.seh_proc f6
f6:
	pushq %r15
	.seh_pushreg %r15
	leaq 96(%rsp), %r15
	.seh_setframe %r15, 96
	.seh_endprologue
	leaq -96(%r15), %rsp
	popq %r15
	retq
	.seh_endproc
	.p2align 4, 0xCC
	.seh_proc f7
f7:
	pushq %rbx
	.seh_pushreg %rbx
	leaq 112(%rsp), %rbx
	.seh_setframe %rbx, 112
	.seh_endprologue
	leaq -112(%rbx), %rsp
	popq %rbx
	retq
	.seh_endproc
	.p2align 4, 0xCC
	.seh_proc f8
f8:
	pushq %rbp
	.seh_pushreg %rbp
	leaq 128(%rsp), %rbp
	.seh_setframe %rbp, 128
	.seh_endprologue
	leaq -128(%rbp), %rsp
	popq %rbp
	retq
	.seh_endproc
	.p2align 4, 0xCC
	.seh_proc f9
f9:
	pushq %rsi
	.seh_pushreg %rsi
	leaq 144(%rsp), %rsi
	.seh_setframe %rsi, 144
	.seh_endprologue
	leaq -144(%rsi), %rsp
	popq %rsi
	retq
	.seh_endproc
	.p2align 4, 0xCC
	.seh_proc f10
f10:
	pushq %rdi
	.seh_pushreg %rdi
	leaq 160(%rsp), %rdi
	.seh_setframe %rdi, 160
	.seh_endprologue
	leaq -160(%rdi), %rsp
	popq %rdi
	retq
	.seh_endproc
	.p2align 4, 0xCC
	.seh_proc f11
f11:
	pushq %r13
	.seh_pushreg %r13
	leaq 176(%rsp), %r13
	.seh_setframe %r13, 176
	.seh_endprologue
	leaq -176(%r13), %rsp
	popq %r13
	retq
	.seh_endproc
	.p2align 4, 0xCC
	.seh_proc f12
f12:
	pushq %r14
	.seh_pushreg %r14
	leaq 192(%rsp), %r14
	.seh_setframe %r14, 192
	.seh_endprologue
	leaq -192(%r14), %rsp
	popq %r14
	retq
	.seh_endproc
	.p2align 4, 0xCC
	.seh_proc f13
f13:
	pushq %r15
	.seh_pushreg %r15
	leaq 208(%rsp), %r15
	.seh_setframe %r15, 208
	.seh_endprologue
	leaq -208(%r15), %rsp
	popq %r15
	retq
	.seh_endproc
	.p2align 4, 0xCC
	.seh_proc f14
f14:
	pushq %rbx
	.seh_pushreg %rbx
	leaq 224(%rsp), %rbx
	.seh_setframe %rbx, 224
	.seh_endprologue
	leaq -224(%rbx), %rsp
	popq %rbx
	retq
	.seh_endproc
	.p2align 4, 0xCC
	.seh_proc f15
f15:
	pushq %rbp
	.seh_pushreg %rbp
	leaq 240(%rsp), %rbp
	.seh_setframe %rbp, 240
	.seh_endprologue
	leaq -240(%rbp), %rsp
	popq %rbp
	retq
	.seh_endproc

# frame offsets in a block of their size
	.text
	.seh_proc f0
f0:
	pushq %rbp
	.seh_pushreg %rbp
	subq $16, %rsp
	.seh_stackalloc 16
	leaq 16(%rsp), %rbp
	.seh_setframe %rbp, 16
	.seh_endprologue
	{disp8} leaq 0(%rbp), %rsp
	popq %rbp
	retq
	.seh_endproc
	.p2align 4, 0xCC
	.seh_proc f1
f1:
	pushq %rsi
	.seh_pushreg %rsi
	subq $32, %rsp
	.seh_stackalloc 32
	leaq 32(%rsp), %rsi
	.seh_setframe %rsi, 32
	.seh_endprologue
	{disp8} leaq 0(%rsi), %rsp
	popq %rsi
	retq
	.seh_endproc
	.p2align 4, 0xCC
	.seh_proc f2
f2:
	pushq %rdi
	.seh_pushreg %rdi
	subq $48, %rsp
	.seh_stackalloc 48
	leaq 48(%rsp), %rdi
	.seh_setframe %rdi, 48
	.seh_endprologue
	{disp8} leaq 0(%rdi), %rsp
	popq %rdi
	retq
	.seh_endproc
	.p2align 4, 0xCC
	.seh_proc f3
f3:
	pushq %r13
	.seh_pushreg %r13
	subq $64, %rsp
	.seh_stackalloc 64
	leaq 64(%rsp), %r13
	.seh_setframe %r13, 64
	.seh_endprologue
	{disp8} leaq 0(%r13), %rsp
	popq %r13
	retq
	.seh_endproc
	.p2align 4, 0xCC
	.seh_proc f4
f4:
	pushq %r14
	.seh_pushreg %r14
	subq $80, %rsp
	.seh_stackalloc 80
	leaq 80(%rsp), %r14
	.seh_setframe %r14, 80
	.seh_endprologue
	{disp8} leaq 0(%r14), %rsp
	popq %r14
	retq
	.seh_endproc
	.p2align 4, 0xCC
	.seh_proc f5
f5:
	pushq %r15
	.seh_pushreg %r15
	subq $96, %rsp
	.seh_stackalloc 96
	leaq 96(%rsp), %r15
	.seh_setframe %r15, 96
	.seh_endprologue
	{disp8} leaq 0(%r15), %rsp
	popq %r15
	retq
	.seh_endproc
	.p2align 4, 0xCC
	.seh_proc f6
f6:
	pushq %rbx
	.seh_pushreg %rbx
	subq $112, %rsp
	.seh_stackalloc 112
	leaq 112(%rsp), %rbx
	.seh_setframe %rbx, 112
	.seh_endprologue
	{disp8} leaq 0(%rbx), %rsp
	popq %rbx
	retq
	.seh_endproc
	.p2align 4, 0xCC
	.seh_proc f7
f7:
	pushq %rbp
	.seh_pushreg %rbp
	subq $128, %rsp
	.seh_stackalloc 128
	leaq 128(%rsp), %rbp
	.seh_setframe %rbp, 128
	.seh_endprologue
	{disp8} leaq 0(%rbp), %rsp
	popq %rbp
	retq
	.seh_endproc
	.p2align 4, 0xCC
	.seh_proc f8
f8:
	pushq %rsi
	.seh_pushreg %rsi
	subq $144, %rsp
	.seh_stackalloc 144
	leaq 144(%rsp), %rsi
	.seh_setframe %rsi, 144
	.seh_endprologue
	{disp8} leaq 0(%rsi), %rsp
	popq %rsi
	retq
	.seh_endproc
	.p2align 4, 0xCC
	.seh_proc f9
f9:
	pushq %rdi
	.seh_pushreg %rdi
	subq $160, %rsp
	.seh_stackalloc 160
	leaq 160(%rsp), %rdi
	.seh_setframe %rdi, 160
	.seh_endprologue
	{disp8} leaq 0(%rdi), %rsp
	popq %rdi
	retq
	.seh_endproc
	.p2align 4, 0xCC
	.seh_proc f10
f10:
	pushq %r13
	.seh_pushreg %r13
	subq $176, %rsp
	.seh_stackalloc 176
	leaq 176(%rsp), %r13
	.seh_setframe %r13, 176
	.seh_endprologue
	{disp8} leaq 0(%r13), %rsp
	popq %r13
	retq
	.seh_endproc
	.p2align 4, 0xCC
	.seh_proc f11
f11:
	pushq %r14
	.seh_pushreg %r14
	subq $192, %rsp
	.seh_stackalloc 192
	leaq 192(%rsp), %r14
	.seh_setframe %r14, 192
	.seh_endprologue
	{disp8} leaq 0(%r14), %rsp
	popq %r14
	retq
	.seh_endproc
	.p2align 4, 0xCC
	.seh_proc f12
f12:
	pushq %r15
	.seh_pushreg %r15
	subq $208, %rsp
	.seh_stackalloc 208
	leaq 208(%rsp), %r15
	.seh_setframe %r15, 208
	.seh_endprologue
	{disp8} leaq 0(%r15), %rsp
	popq %r15
	retq
	.seh_endproc
	.p2align 4, 0xCC
	.seh_proc f13
f13:
	pushq %rbx
	.seh_pushreg %rbx
	subq $224, %rsp
	.seh_stackalloc 224
	leaq 224(%rsp), %rbx
	.seh_setframe %rbx, 224
	.seh_endprologue
	{disp8} leaq 0(%rbx), %rsp
	popq %rbx
	retq
	.seh_endproc
	.p2align 4, 0xCC
	.seh_proc f14
f14:
	pushq %rbp
	.seh_pushreg %rbp
	subq $240, %rsp
	.seh_stackalloc 240
	leaq 240(%rsp), %rbp
	.seh_setframe %rbp, 240
	.seh_endprologue
	{disp8} leaq 0(%rbp), %rsp
	popq %rbp
	retq
	.seh_endproc

# loads at the frame register
	.text
	.seh_proc f0
f0:
	pushq %rbp
	.seh_pushreg %rbp
	subq $256, %rsp
	.seh_stackalloc 256
	leaq 240(%rsp), %rbp
	.seh_setframe %rbp, 240
	movq %rsi, 104(%rsp)
	.seh_savereg %rsi, 104
	.seh_endprologue
	movq -136(%rbp), %rsi
	leaq 16(%rbp), %rsp
	popq %rbp
	retq
	.seh_endproc
	.p2align 4, 0xCC
	.seh_proc f1
f1:
	pushq %rbp
	.seh_pushreg %rbp
	subq $256, %rsp
	.seh_stackalloc 256
	leaq 240(%rsp), %rbp
	.seh_setframe %rbp, 240
	movq %rsi, 112(%rsp)
	.seh_savereg %rsi, 112
	.seh_endprologue
	movq -128(%rbp), %rsi
	leaq 16(%rbp), %rsp
	popq %rbp
	retq
	.seh_endproc
	.p2align 4, 0xCC
	.seh_proc f2
f2:
	pushq %rbp
	.seh_pushreg %rbp
	subq $256, %rsp
	.seh_stackalloc 256
	leaq 240(%rsp), %rbp
	.seh_setframe %rbp, 240
	movq %rsi, 120(%rsp)
	.seh_savereg %rsi, 120
	.seh_endprologue
	movq -120(%rbp), %rsi
	leaq 16(%rbp), %rsp
	popq %rbp
	retq
	.seh_endproc
	.p2align 4, 0xCC
	.seh_proc f3
f3:
	pushq %rbp
	.seh_pushreg %rbp
	subq $256, %rsp
	.seh_stackalloc 256
	leaq 16(%rsp), %rbp
	.seh_setframe %rbp, 16
	movq %rsi, 8(%rsp)
	.seh_savereg %rsi, 8
	.seh_endprologue
	movq -8(%rbp), %rsi
	leaq 240(%rbp), %rsp
	popq %rbp
	retq
	.seh_endproc
	.p2align 4, 0xCC
	.seh_proc f4
f4:
	pushq %rbp
	.seh_pushreg %rbp
	subq $256, %rsp
	.seh_stackalloc 256
	leaq 16(%rsp), %rbp
	.seh_setframe %rbp, 16
	movq %rsi, 16(%rsp)
	.seh_savereg %rsi, 16
	.seh_endprologue
	{disp8} movq 0(%rbp), %rsi
	leaq 240(%rbp), %rsp
	popq %rbp
	retq
	.seh_endproc
	.p2align 4, 0xCC
	.seh_proc f5
f5:
	pushq %rbp
	.seh_pushreg %rbp
	subq $256, %rsp
	.seh_stackalloc 256
	leaq 16(%rsp), %rbp
	.seh_setframe %rbp, 16
	movq %rsi, 24(%rsp)
	.seh_savereg %rsi, 24
	.seh_endprologue
	movq 8(%rbp), %rsi
	leaq 240(%rbp), %rsp
	popq %rbp
	retq
	.seh_endproc
	.p2align 4, 0xCC
	.seh_proc f6
f6:
	pushq %rbp
	.seh_pushreg %rbp
	subq $256, %rsp
	.seh_stackalloc 256
	leaq 16(%rsp), %rbp
	.seh_setframe %rbp, 16
	movq %rsi, 128(%rsp)
	.seh_savereg %rsi, 128
	.seh_endprologue
	movq 112(%rbp), %rsi
	leaq 240(%rbp), %rsp
	popq %rbp
	retq
	.seh_endproc
	.p2align 4, 0xCC
	.seh_proc f7
f7:
	pushq %rbp
	.seh_pushreg %rbp
	subq $256, %rsp
	.seh_stackalloc 256
	leaq 16(%rsp), %rbp
	.seh_setframe %rbp, 16
	movq %rsi, 136(%rsp)
	.seh_savereg %rsi, 136
	.seh_endprologue
	movq 120(%rbp), %rsi
	leaq 240(%rbp), %rsp
	popq %rbp
	retq
	.seh_endproc
	.p2align 4, 0xCC
	.seh_proc f8
f8:
	pushq %rbp
	.seh_pushreg %rbp
	subq $256, %rsp
	.seh_stackalloc 256
	leaq 16(%rsp), %rbp
	.seh_setframe %rbp, 16
	movq %rsi, 144(%rsp)
	.seh_savereg %rsi, 144
	.seh_endprologue
	movq 128(%rbp), %rsi
	leaq 240(%rbp), %rsp
	popq %rbp
	retq
	.seh_endproc
	.p2align 4, 0xCC
	.seh_proc f9
f9:
	pushq %rbp
	.seh_pushreg %rbp
	subq $256, %rsp
	.seh_stackalloc 256
	{disp8} leaq 0(%rsp), %rbp
	.seh_setframe %rbp, 0
	{disp8} movq %rsi, 0(%rsp)
	.seh_savereg %rsi, 0
	.seh_endprologue
	{disp8} movq 0(%rbp), %rsi
	leaq 256(%rbp), %rsp
	popq %rbp
	retq
	.seh_endproc
	.p2align 4, 0xCC
	.seh_proc f10
f10:
	pushq %r14
	.seh_pushreg %r14
	subq $256, %rsp
	.seh_stackalloc 256
	leaq 240(%rsp), %r14
	.seh_setframe %r14, 240
	movq %r15, 104(%rsp)
	.seh_savereg %r15, 104
	.seh_endprologue
	movq -136(%r14), %r15
	leaq 16(%r14), %rsp
	popq %r14
	retq
	.seh_endproc
	.p2align 4, 0xCC
	.seh_proc f11
f11:
	pushq %r14
	.seh_pushreg %r14
	subq $256, %rsp
	.seh_stackalloc 256
	leaq 240(%rsp), %r14
	.seh_setframe %r14, 240
	movq %r15, 112(%rsp)
	.seh_savereg %r15, 112
	.seh_endprologue
	movq -128(%r14), %r15
	leaq 16(%r14), %rsp
	popq %r14
	retq
	.seh_endproc
	.p2align 4, 0xCC
	.seh_proc f12
f12:
	pushq %r14
	.seh_pushreg %r14
	subq $256, %rsp
	.seh_stackalloc 256
	leaq 240(%rsp), %r14
	.seh_setframe %r14, 240
	movq %r15, 120(%rsp)
	.seh_savereg %r15, 120
	.seh_endprologue
	movq -120(%r14), %r15
	leaq 16(%r14), %rsp
	popq %r14
	retq
	.seh_endproc
	.p2align 4, 0xCC
	.seh_proc f13
f13:
	pushq %r14
	.seh_pushreg %r14
	subq $256, %rsp
	.seh_stackalloc 256
	leaq 16(%rsp), %r14
	.seh_setframe %r14, 16
	movq %r15, 8(%rsp)
	.seh_savereg %r15, 8
	.seh_endprologue
	movq -8(%r14), %r15
	leaq 240(%r14), %rsp
	popq %r14
	retq
	.seh_endproc
	.p2align 4, 0xCC
	.seh_proc f14
f14:
	pushq %r14
	.seh_pushreg %r14
	subq $256, %rsp
	.seh_stackalloc 256
	leaq 16(%rsp), %r14
	.seh_setframe %r14, 16
	movq %r15, 16(%rsp)
	.seh_savereg %r15, 16
	.seh_endprologue
	{disp8} movq 0(%r14), %r15
	leaq 240(%r14), %rsp
	popq %r14
	retq
	.seh_endproc
	.p2align 4, 0xCC
	.seh_proc f15
f15:
	pushq %r14
	.seh_pushreg %r14
	subq $256, %rsp
	.seh_stackalloc 256
	leaq 16(%rsp), %r14
	.seh_setframe %r14, 16
	movq %r15, 24(%rsp)
	.seh_savereg %r15, 24
	.seh_endprologue
	movq 8(%r14), %r15
	leaq 240(%r14), %rsp
	popq %r14
	retq
	.seh_endproc
	.p2align 4, 0xCC
	.seh_proc f16
f16:
	pushq %r14
	.seh_pushreg %r14
	subq $256, %rsp
	.seh_stackalloc 256
	leaq 16(%rsp), %r14
	.seh_setframe %r14, 16
	movq %r15, 128(%rsp)
	.seh_savereg %r15, 128
	.seh_endprologue
	movq 112(%r14), %r15
	leaq 240(%r14), %rsp
	popq %r14
	retq
	.seh_endproc
	.p2align 4, 0xCC
	.seh_proc f17
f17:
	pushq %r14
	.seh_pushreg %r14
	subq $256, %rsp
	.seh_stackalloc 256
	leaq 16(%rsp), %r14
	.seh_setframe %r14, 16
	movq %r15, 136(%rsp)
	.seh_savereg %r15, 136
	.seh_endprologue
	movq 120(%r14), %r15
	leaq 240(%r14), %rsp
	popq %r14
	retq
	.seh_endproc
	.p2align 4, 0xCC
	.seh_proc f18
f18:
	pushq %r14
	.seh_pushreg %r14
	subq $256, %rsp
	.seh_stackalloc 256
	leaq 16(%rsp), %r14
	.seh_setframe %r14, 16
	movq %r15, 144(%rsp)
	.seh_savereg %r15, 144
	.seh_endprologue
	movq 128(%r14), %r15
	leaq 240(%r14), %rsp
	popq %r14
	retq
	.seh_endproc
	.p2align 4, 0xCC
	.seh_proc f19
f19:
	pushq %r14
	.seh_pushreg %r14
	subq $256, %rsp
	.seh_stackalloc 256
	{disp8} leaq 0(%rsp), %r14
	.seh_setframe %r14, 0
	{disp8} movq %r15, 0(%rsp)
	.seh_savereg %r15, 0
	.seh_endprologue
	{disp8} movq 0(%r14), %r15
	leaq 256(%r14), %rsp
	popq %r14
	retq
	.seh_endproc

# the epilogue's lea
	.text
	.seh_proc f0
f0:
	pushq %rdi
	.seh_pushreg %rdi
	subq $128, %rsp
	.seh_stackalloc 128
	leaq 16(%rsp), %rdi
	.seh_setframe %rdi, 16
	.seh_endprologue
	leaq 112(%rdi), %rsp
	popq %rdi
	retq
	.seh_endproc
	.p2align 4, 0xCC
	.seh_proc f1
f1:
	pushq %rdi
	.seh_pushreg %rdi
	subq $136, %rsp
	.seh_stackalloc 136
	leaq 16(%rsp), %rdi
	.seh_setframe %rdi, 16
	.seh_endprologue
	leaq 120(%rdi), %rsp
	popq %rdi
	retq
	.seh_endproc
	.p2align 4, 0xCC
	.seh_proc f2
f2:
	pushq %rdi
	.seh_pushreg %rdi
	subq $144, %rsp
	.seh_stackalloc 144
	leaq 16(%rsp), %rdi
	.seh_setframe %rdi, 16
	.seh_endprologue
	leaq 128(%rdi), %rsp
	popq %rdi
	retq
	.seh_endproc
	.p2align 4, 0xCC
	.seh_proc f3
f3:
	pushq %rdi
	.seh_pushreg %rdi
	subq $152, %rsp
	.seh_stackalloc 152
	leaq 16(%rsp), %rdi
	.seh_setframe %rdi, 16
	.seh_endprologue
	leaq 136(%rdi), %rsp
	popq %rdi
	retq
	.seh_endproc
	.p2align 4, 0xCC
	.seh_proc f4
f4:
	pushq %rdi
	.seh_pushreg %rdi
	subq $240, %rsp
	.seh_stackalloc 240
	leaq 240(%rsp), %rdi
	.seh_setframe %rdi, 240
	.seh_endprologue
	{disp8} leaq 0(%rdi), %rsp
	popq %rdi
	retq
	.seh_endproc
	.p2align 4, 0xCC
	.seh_proc f5
f5:
	pushq %rdi
	.seh_pushreg %rdi
	subq $112, %rsp
	.seh_stackalloc 112
	leaq 240(%rsp), %rdi
	.seh_setframe %rdi, 240
	.seh_endprologue
	leaq -128(%rdi), %rsp
	popq %rdi
	retq
	.seh_endproc
	.p2align 4, 0xCC
	.seh_proc f6
f6:
	pushq %rdi
	.seh_pushreg %rdi
	subq $104, %rsp
	.seh_stackalloc 104
	leaq 240(%rsp), %rdi
	.seh_setframe %rdi, 240
	.seh_endprologue
	leaq -136(%rdi), %rsp
	popq %rdi
	retq
	.seh_endproc
	.p2align 4, 0xCC
	.seh_proc f7
f7:
	pushq %rdi
	.seh_pushreg %rdi
	subq $8, %rsp
	.seh_stackalloc 8
	leaq 240(%rsp), %rdi
	.seh_setframe %rdi, 240
	.seh_endprologue
	leaq -232(%rdi), %rsp
	popq %rdi
	retq
	.seh_endproc
	.p2align 4, 0xCC
	.seh_proc f8
f8:
	pushq %rdi
	.seh_pushreg %rdi
	subq $8, %rsp
	.seh_stackalloc 8
	{disp8} leaq 0(%rsp), %rdi
	.seh_setframe %rdi, 0
	.seh_endprologue
	leaq 8(%rdi), %rsp
	popq %rdi
	retq
	.seh_endproc
	.p2align 4, 0xCC
	.seh_proc f9
f9:
	pushq %rdi
	.seh_pushreg %rdi
	subq $2097152, %rsp
	.seh_stackalloc 2097152
	{disp8} leaq 0(%rsp), %rdi
	.seh_setframe %rdi, 0
	.seh_endprologue
	leaq 2097152(%rdi), %rsp
	popq %rdi
	retq
	.seh_endproc
	.p2align 4, 0xCC
	.seh_proc f10
f10:
	pushq %r13
	.seh_pushreg %r13
	subq $128, %rsp
	.seh_stackalloc 128
	leaq 16(%rsp), %r13
	.seh_setframe %r13, 16
	.seh_endprologue
	leaq 112(%r13), %rsp
	popq %r13
	retq
	.seh_endproc
	.p2align 4, 0xCC
	.seh_proc f11
f11:
	pushq %r13
	.seh_pushreg %r13
	subq $136, %rsp
	.seh_stackalloc 136
	leaq 16(%rsp), %r13
	.seh_setframe %r13, 16
	.seh_endprologue
	leaq 120(%r13), %rsp
	popq %r13
	retq
	.seh_endproc
	.p2align 4, 0xCC
	.seh_proc f12
f12:
	pushq %r13
	.seh_pushreg %r13
	subq $144, %rsp
	.seh_stackalloc 144
	leaq 16(%rsp), %r13
	.seh_setframe %r13, 16
	.seh_endprologue
	leaq 128(%r13), %rsp
	popq %r13
	retq
	.seh_endproc
	.p2align 4, 0xCC
	.seh_proc f13
f13:
	pushq %r13
	.seh_pushreg %r13
	subq $152, %rsp
	.seh_stackalloc 152
	leaq 16(%rsp), %r13
	.seh_setframe %r13, 16
	.seh_endprologue
	leaq 136(%r13), %rsp
	popq %r13
	retq
	.seh_endproc
	.p2align 4, 0xCC
	.seh_proc f14
f14:
	pushq %r13
	.seh_pushreg %r13
	subq $240, %rsp
	.seh_stackalloc 240
	leaq 240(%rsp), %r13
	.seh_setframe %r13, 240
	.seh_endprologue
	{disp8} leaq 0(%r13), %rsp
	popq %r13
	retq
	.seh_endproc
	.p2align 4, 0xCC
	.seh_proc f15
f15:
	pushq %r13
	.seh_pushreg %r13
	subq $112, %rsp
	.seh_stackalloc 112
	leaq 240(%rsp), %r13
	.seh_setframe %r13, 240
	.seh_endprologue
	leaq -128(%r13), %rsp
	popq %r13
	retq
	.seh_endproc
	.p2align 4, 0xCC
	.seh_proc f16
f16:
	pushq %r13
	.seh_pushreg %r13
	subq $104, %rsp
	.seh_stackalloc 104
	leaq 240(%rsp), %r13
	.seh_setframe %r13, 240
	.seh_endprologue
	leaq -136(%r13), %rsp
	popq %r13
	retq
	.seh_endproc
	.p2align 4, 0xCC
	.seh_proc f17
f17:
	pushq %r13
	.seh_pushreg %r13
	subq $8, %rsp
	.seh_stackalloc 8
	leaq 240(%rsp), %r13
	.seh_setframe %r13, 240
	.seh_endprologue
	leaq -232(%r13), %rsp
	popq %r13
	retq
	.seh_endproc
	.p2align 4, 0xCC
	.seh_proc f18
f18:
	pushq %r13
	.seh_pushreg %r13
	subq $8, %rsp
	.seh_stackalloc 8
	{disp8} leaq 0(%rsp), %r13
	.seh_setframe %r13, 0
	.seh_endprologue
	leaq 8(%r13), %rsp
	popq %r13
	retq
	.seh_endproc
	.p2align 4, 0xCC
	.seh_proc f19
f19:
	pushq %r13
	.seh_pushreg %r13
	subq $2097152, %rsp
	.seh_stackalloc 2097152
	{disp8} leaq 0(%rsp), %r13
	.seh_setframe %r13, 0
	.seh_endprologue
	leaq 2097152(%r13), %rsp
	popq %r13
	retq
	.seh_endproc

# set-frame before, between and after saves
	.text
	.seh_proc f0
f0:
	pushq %r13
	.seh_pushreg %r13
	subq $64, %rsp
	.seh_stackalloc 64
	leaq 16(%rsp), %r13
	.seh_setframe %r13, 16
	movq %r12, 40(%rsp)
	.seh_savereg %r12, 40
	{disp8} movq %rbx, 0(%rsp)
	.seh_savereg %rbx, 0
	.seh_endprologue
	subq $128, %rsp
	nop
	movq -16(%r13), %rbx
	movq 24(%r13), %r12
	leaq 48(%r13), %rsp
	popq %r13
	retq
	.seh_endproc
	.p2align 4, 0xCC
	.seh_proc f1
f1:
	pushq %r13
	.seh_pushreg %r13
	subq $64, %rsp
	.seh_stackalloc 64
	movq %r12, 40(%rsp)
	.seh_savereg %r12, 40
	leaq 16(%rsp), %r13
	.seh_setframe %r13, 16
	{disp8} movq %rbx, 0(%rsp)
	.seh_savereg %rbx, 0
	.seh_endprologue
	subq $128, %rsp
	nop
	movq -16(%r13), %rbx
	movq 24(%r13), %r12
	leaq 48(%r13), %rsp
	popq %r13
	retq
	.seh_endproc
	.p2align 4, 0xCC
	.seh_proc f2
f2:
	pushq %r13
	.seh_pushreg %r13
	subq $64, %rsp
	.seh_stackalloc 64
	movq %r12, 40(%rsp)
	.seh_savereg %r12, 40
	{disp8} movq %rbx, 0(%rsp)
	.seh_savereg %rbx, 0
	leaq 16(%rsp), %r13
	.seh_setframe %r13, 16
	.seh_endprologue
	subq $128, %rsp
	nop
	movq -16(%r13), %rbx
	movq 24(%r13), %r12
	leaq 48(%r13), %rsp
	popq %r13
	retq
	.seh_endproc

# ten steps
	.text
	.seh_proc f0
f0:
	pushq %rbx
	.seh_pushreg %rbx
	pushq %rbp
	.seh_pushreg %rbp
	pushq %rsi
	.seh_pushreg %rsi
	pushq %r14
	.seh_pushreg %r14
	subq $1048600, %rsp
	.seh_stackalloc 1048600
	movq %rdi, 524280(%rsp)
	.seh_savereg %rdi, 524280
	leaq 208(%rsp), %r14
	.seh_setframe %r14, 208
	movq %r12, 524288(%rsp)
	.seh_savereg %r12, 524288
	{disp8} movq %r13, 0(%rsp)
	.seh_savereg %r13, 0
	movq %r15, 120(%rsp)
	.seh_savereg %r15, 120
	.seh_endprologue
	movq $5, %r15
	subq $65520, %rsp
	movq -88(%r14), %r15
	movq -208(%r14), %r13
	movq 524080(%r14), %r12
	movq 524072(%r14), %rdi
	leaq 1048392(%r14), %rsp
	popq %r14
	popq %rsi
	popq %rbp
	popq %rbx
	retq
	.seh_endproc

# set of volatile registers
	.text
	.seh_proc f0
f0:
	.seh_endprologue
	movq $-2147483648, %rax
	movq $-2147483647, %rax
	movq $-129, %rax
	movq $-128, %rax
	movq $-1, %rax
	movq $0, %rax
	movq $1, %rax
	movq $127, %rax
	movq $128, %rax
	movq $2147483647, %rax
	retq
	.seh_endproc
	.p2align 4, 0xCC
	.seh_proc f1
f1:
	.seh_endprologue
	movq $-2147483648, %rcx
	movq $-2147483647, %rcx
	movq $-129, %rcx
	movq $-128, %rcx
	movq $-1, %rcx
	movq $0, %rcx
	movq $1, %rcx
	movq $127, %rcx
	movq $128, %rcx
	movq $2147483647, %rcx
	retq
	.seh_endproc
	.p2align 4, 0xCC
	.seh_proc f2
f2:
	.seh_endprologue
	movq $-2147483648, %rdx
	movq $-2147483647, %rdx
	movq $-129, %rdx
	movq $-128, %rdx
	movq $-1, %rdx
	movq $0, %rdx
	movq $1, %rdx
	movq $127, %rdx
	movq $128, %rdx
	movq $2147483647, %rdx
	retq
	.seh_endproc
	.p2align 4, 0xCC
	.seh_proc f3
f3:
	.seh_endprologue
	movq $-2147483648, %r8
	movq $-2147483647, %r8
	movq $-129, %r8
	movq $-128, %r8
	movq $-1, %r8
	movq $0, %r8
	movq $1, %r8
	movq $127, %r8
	movq $128, %r8
	movq $2147483647, %r8
	retq
	.seh_endproc
	.p2align 4, 0xCC
	.seh_proc f4
f4:
	.seh_endprologue
	movq $-2147483648, %r9
	movq $-2147483647, %r9
	movq $-129, %r9
	movq $-128, %r9
	movq $-1, %r9
	movq $0, %r9
	movq $1, %r9
	movq $127, %r9
	movq $128, %r9
	movq $2147483647, %r9
	retq
	.seh_endproc
	.p2align 4, 0xCC
	.seh_proc f5
f5:
	.seh_endprologue
	movq $-2147483648, %r10
	movq $-2147483647, %r10
	movq $-129, %r10
	movq $-128, %r10
	movq $-1, %r10
	movq $0, %r10
	movq $1, %r10
	movq $127, %r10
	movq $128, %r10
	movq $2147483647, %r10
	retq
	.seh_endproc
	.p2align 4, 0xCC
	.seh_proc f6
f6:
	.seh_endprologue
	movq $-2147483648, %r11
	movq $-2147483647, %r11
	movq $-129, %r11
	movq $-128, %r11
	movq $-1, %r11
	movq $0, %r11
	movq $1, %r11
	movq $127, %r11
	movq $128, %r11
	movq $2147483647, %r11
	retq
	.seh_endproc

# set of pushed registers
	.text
	.seh_proc f0
f0:
	pushq %rbx
	.seh_pushreg %rbx
	.seh_endprologue
	movq $-2147483648, %rbx
	movq $-128, %rbx
	movq $1, %rbx
	movq $2147483647, %rbx
	popq %rbx
	retq
	.seh_endproc
	.p2align 4, 0xCC
	.seh_proc f1
f1:
	pushq %rbp
	.seh_pushreg %rbp
	.seh_endprologue
	movq $-2147483648, %rbp
	movq $-128, %rbp
	movq $1, %rbp
	movq $2147483647, %rbp
	popq %rbp
	retq
	.seh_endproc
	.p2align 4, 0xCC
	.seh_proc f2
f2:
	pushq %rsi
	.seh_pushreg %rsi
	.seh_endprologue
	movq $-2147483648, %rsi
	movq $-128, %rsi
	movq $1, %rsi
	movq $2147483647, %rsi
	popq %rsi
	retq
	.seh_endproc
	.p2align 4, 0xCC
	.seh_proc f3
f3:
	pushq %rdi
	.seh_pushreg %rdi
	.seh_endprologue
	movq $-2147483648, %rdi
	movq $-128, %rdi
	movq $1, %rdi
	movq $2147483647, %rdi
	popq %rdi
	retq
	.seh_endproc
	.p2align 4, 0xCC
	.seh_proc f4
f4:
	pushq %r12
	.seh_pushreg %r12
	.seh_endprologue
	movq $-2147483648, %r12
	movq $-128, %r12
	movq $1, %r12
	movq $2147483647, %r12
	popq %r12
	retq
	.seh_endproc
	.p2align 4, 0xCC
	.seh_proc f5
f5:
	pushq %r13
	.seh_pushreg %r13
	.seh_endprologue
	movq $-2147483648, %r13
	movq $-128, %r13
	movq $1, %r13
	movq $2147483647, %r13
	popq %r13
	retq
	.seh_endproc
	.p2align 4, 0xCC
	.seh_proc f6
f6:
	pushq %r14
	.seh_pushreg %r14
	.seh_endprologue
	movq $-2147483648, %r14
	movq $-128, %r14
	movq $1, %r14
	movq $2147483647, %r14
	popq %r14
	retq
	.seh_endproc
	.p2align 4, 0xCC
	.seh_proc f7
f7:
	pushq %r15
	.seh_pushreg %r15
	.seh_endprologue
	movq $-2147483648, %r15
	movq $-128, %r15
	movq $1, %r15
	movq $2147483647, %r15
	popq %r15
	retq
	.seh_endproc

# set of saved registers
	.text
	.seh_proc f0
f0:
	subq $8, %rsp
	.seh_stackalloc 8
	{disp8} movq %rbx, 0(%rsp)
	.seh_savereg %rbx, 0
	.seh_endprologue
	movq $-2147483647, %rbx
	movq $-1, %rbx
	movq $127, %rbx
	{disp8} movq 0(%rsp), %rbx
	addq $8, %rsp
	retq
	.seh_endproc
	.p2align 4, 0xCC
	.seh_proc f1
f1:
	subq $8, %rsp
	.seh_stackalloc 8
	{disp8} movq %rbp, 0(%rsp)
	.seh_savereg %rbp, 0
	.seh_endprologue
	movq $-2147483647, %rbp
	movq $-1, %rbp
	movq $127, %rbp
	{disp8} movq 0(%rsp), %rbp
	addq $8, %rsp
	retq
	.seh_endproc
	.p2align 4, 0xCC
	.seh_proc f2
f2:
	subq $8, %rsp
	.seh_stackalloc 8
	{disp8} movq %rsi, 0(%rsp)
	.seh_savereg %rsi, 0
	.seh_endprologue
	movq $-2147483647, %rsi
	movq $-1, %rsi
	movq $127, %rsi
	{disp8} movq 0(%rsp), %rsi
	addq $8, %rsp
	retq
	.seh_endproc
	.p2align 4, 0xCC
	.seh_proc f3
f3:
	subq $8, %rsp
	.seh_stackalloc 8
	{disp8} movq %rdi, 0(%rsp)
	.seh_savereg %rdi, 0
	.seh_endprologue
	movq $-2147483647, %rdi
	movq $-1, %rdi
	movq $127, %rdi
	{disp8} movq 0(%rsp), %rdi
	addq $8, %rsp
	retq
	.seh_endproc
	.p2align 4, 0xCC
	.seh_proc f4
f4:
	subq $8, %rsp
	.seh_stackalloc 8
	{disp8} movq %r12, 0(%rsp)
	.seh_savereg %r12, 0
	.seh_endprologue
	movq $-2147483647, %r12
	movq $-1, %r12
	movq $127, %r12
	{disp8} movq 0(%rsp), %r12
	addq $8, %rsp
	retq
	.seh_endproc
	.p2align 4, 0xCC
	.seh_proc f5
f5:
	subq $8, %rsp
	.seh_stackalloc 8
	{disp8} movq %r13, 0(%rsp)
	.seh_savereg %r13, 0
	.seh_endprologue
	movq $-2147483647, %r13
	movq $-1, %r13
	movq $127, %r13
	{disp8} movq 0(%rsp), %r13
	addq $8, %rsp
	retq
	.seh_endproc
	.p2align 4, 0xCC
	.seh_proc f6
f6:
	subq $8, %rsp
	.seh_stackalloc 8
	{disp8} movq %r14, 0(%rsp)
	.seh_savereg %r14, 0
	.seh_endprologue
	movq $-2147483647, %r14
	movq $-1, %r14
	movq $127, %r14
	{disp8} movq 0(%rsp), %r14
	addq $8, %rsp
	retq
	.seh_endproc
	.p2align 4, 0xCC
	.seh_proc f7
f7:
	subq $8, %rsp
	.seh_stackalloc 8
	{disp8} movq %r15, 0(%rsp)
	.seh_savereg %r15, 0
	.seh_endprologue
	movq $-2147483647, %r15
	movq $-1, %r15
	movq $127, %r15
	{disp8} movq 0(%rsp), %r15
	addq $8, %rsp
	retq
	.seh_endproc

# reserves
	.text
	.seh_proc f0
f0:
	pushq %rbp
	.seh_pushreg %rbp
	subq $32, %rsp
	.seh_stackalloc 32
	{disp8} leaq 0(%rsp), %rbp
	.seh_setframe %rbp, 0
	.seh_endprologue
	subq $16, %rsp
	leaq 32(%rbp), %rsp
	popq %rbp
	retq
	.seh_endproc
	.p2align 4, 0xCC
	.seh_proc f1
f1:
	pushq %rbp
	.seh_pushreg %rbp
	subq $32, %rsp
	.seh_stackalloc 32
	{disp8} leaq 0(%rsp), %rbp
	.seh_setframe %rbp, 0
	.seh_endprologue
	subq $32, %rsp
	leaq 32(%rbp), %rsp
	popq %rbp
	retq
	.seh_endproc
	.p2align 4, 0xCC
	.seh_proc f2
f2:
	pushq %rbp
	.seh_pushreg %rbp
	subq $32, %rsp
	.seh_stackalloc 32
	{disp8} leaq 0(%rsp), %rbp
	.seh_setframe %rbp, 0
	.seh_endprologue
	subq $112, %rsp
	leaq 32(%rbp), %rsp
	popq %rbp
	retq
	.seh_endproc
	.p2align 4, 0xCC
	.seh_proc f3
f3:
	pushq %rbp
	.seh_pushreg %rbp
	subq $32, %rsp
	.seh_stackalloc 32
	{disp8} leaq 0(%rsp), %rbp
	.seh_setframe %rbp, 0
	.seh_endprologue
	subq $128, %rsp
	leaq 32(%rbp), %rsp
	popq %rbp
	retq
	.seh_endproc
	.p2align 4, 0xCC
	.seh_proc f4
f4:
	pushq %rbp
	.seh_pushreg %rbp
	subq $32, %rsp
	.seh_stackalloc 32
	{disp8} leaq 0(%rsp), %rbp
	.seh_setframe %rbp, 0
	.seh_endprologue
	subq $144, %rsp
	leaq 32(%rbp), %rsp
	popq %rbp
	retq
	.seh_endproc
	.p2align 4, 0xCC
	.seh_proc f5
f5:
	pushq %rbp
	.seh_pushreg %rbp
	subq $32, %rsp
	.seh_stackalloc 32
	{disp8} leaq 0(%rsp), %rbp
	.seh_setframe %rbp, 0
	.seh_endprologue
	subq $65504, %rsp
	leaq 32(%rbp), %rsp
	popq %rbp
	retq
	.seh_endproc
	.p2align 4, 0xCC
	.seh_proc f6
f6:
	pushq %rbp
	.seh_pushreg %rbp
	subq $32, %rsp
	.seh_stackalloc 32
	{disp8} leaq 0(%rsp), %rbp
	.seh_setframe %rbp, 0
	.seh_endprologue
	subq $65520, %rsp
	leaq 32(%rbp), %rsp
	popq %rbp
	retq
	.seh_endproc

# many reserves
	.text
	.seh_proc f0
f0:
	pushq %r15
	.seh_pushreg %r15
	subq $40, %rsp
	.seh_stackalloc 40
	leaq 32(%rsp), %r15
	.seh_setframe %r15, 32
	movq %r14, 32(%rsp)
	.seh_savereg %r14, 32
	.seh_endprologue
	subq $16, %rsp
	subq $128, %rsp
	subq $65520, %rsp
	subq $112, %rsp
	{disp8} movq 0(%r15), %r14
	leaq 8(%r15), %rsp
	popq %r15
	retq
	.seh_endproc

# a call to itself
	.text
	.seh_proc f0
f0:
	subq $40, %rsp
	.seh_stackalloc 40
	.seh_endprologue
	callq f0
	addq $40, %rsp
	retq
	.seh_endproc

# calls forward, backward and to itself
	.text
	.seh_proc f0
f0:
	subq $40, %rsp
	.seh_stackalloc 40
	.seh_endprologue
	callq f0
	callq f1
	callq f2
	addq $40, %rsp
	retq
	.seh_endproc
	.p2align 4, 0xCC
	.seh_proc f1
f1:
	subq $40, %rsp
	.seh_stackalloc 40
	.seh_endprologue
	callq f2
	callq f0
	callq f1
	addq $40, %rsp
	retq
	.seh_endproc
	.p2align 4, 0xCC
	.seh_proc f2
f2:
	subq $40, %rsp
	.seh_stackalloc 40
	.seh_endprologue
	callq f1
	callq f2
	callq f0
	callq f0
	addq $40, %rsp
	retq
	.seh_endproc

# the least blocks for calls
	.text
	.seh_proc f0
f0:
	subq $40, %rsp
	.seh_stackalloc 40
	.seh_endprologue
	callq f0
	addq $40, %rsp
	retq
	.seh_endproc
	.p2align 4, 0xCC
	.seh_proc f1
f1:
	pushq %rbx
	.seh_pushreg %rbx
	subq $32, %rsp
	.seh_stackalloc 32
	.seh_endprologue
	callq f1
	addq $32, %rsp
	popq %rbx
	retq
	.seh_endproc
	.p2align 4, 0xCC
	.seh_proc f2
f2:
	pushq %rbx
	.seh_pushreg %rbx
	pushq %rbp
	.seh_pushreg %rbp
	subq $40, %rsp
	.seh_stackalloc 40
	.seh_endprologue
	callq f2
	addq $40, %rsp
	popq %rbp
	popq %rbx
	retq
	.seh_endproc
	.p2align 4, 0xCC
	.seh_proc f3
f3:
	pushq %rbx
	.seh_pushreg %rbx
	pushq %rbp
	.seh_pushreg %rbp
	pushq %rsi
	.seh_pushreg %rsi
	subq $32, %rsp
	.seh_stackalloc 32
	.seh_endprologue
	callq f3
	addq $32, %rsp
	popq %rsi
	popq %rbp
	popq %rbx
	retq
	.seh_endproc
	.p2align 4, 0xCC
	.seh_proc f4
f4:
	pushq %rbx
	.seh_pushreg %rbx
	pushq %rbp
	.seh_pushreg %rbp
	pushq %rsi
	.seh_pushreg %rsi
	pushq %rdi
	.seh_pushreg %rdi
	subq $40, %rsp
	.seh_stackalloc 40
	.seh_endprologue
	callq f4
	addq $40, %rsp
	popq %rdi
	popq %rsi
	popq %rbp
	popq %rbx
	retq
	.seh_endproc
	.p2align 4, 0xCC
	.seh_proc f5
f5:
	pushq %rbx
	.seh_pushreg %rbx
	pushq %rbp
	.seh_pushreg %rbp
	pushq %rsi
	.seh_pushreg %rsi
	pushq %rdi
	.seh_pushreg %rdi
	pushq %r12
	.seh_pushreg %r12
	subq $32, %rsp
	.seh_stackalloc 32
	.seh_endprologue
	callq f5
	addq $32, %rsp
	popq %r12
	popq %rdi
	popq %rsi
	popq %rbp
	popq %rbx
	retq
	.seh_endproc
	.p2align 4, 0xCC
	.seh_proc f6
f6:
	pushq %rbx
	.seh_pushreg %rbx
	pushq %rbp
	.seh_pushreg %rbp
	pushq %rsi
	.seh_pushreg %rsi
	pushq %rdi
	.seh_pushreg %rdi
	pushq %r12
	.seh_pushreg %r12
	pushq %r13
	.seh_pushreg %r13
	subq $40, %rsp
	.seh_stackalloc 40
	.seh_endprologue
	callq f6
	addq $40, %rsp
	popq %r13
	popq %r12
	popq %rdi
	popq %rsi
	popq %rbp
	popq %rbx
	retq
	.seh_endproc
	.p2align 4, 0xCC
	.seh_proc f7
f7:
	pushq %rbx
	.seh_pushreg %rbx
	pushq %rbp
	.seh_pushreg %rbp
	pushq %rsi
	.seh_pushreg %rsi
	pushq %rdi
	.seh_pushreg %rdi
	pushq %r12
	.seh_pushreg %r12
	pushq %r13
	.seh_pushreg %r13
	pushq %r14
	.seh_pushreg %r14
	subq $32, %rsp
	.seh_stackalloc 32
	.seh_endprologue
	callq f7
	addq $32, %rsp
	popq %r14
	popq %r13
	popq %r12
	popq %rdi
	popq %rsi
	popq %rbp
	popq %rbx
	retq
	.seh_endproc

# a call and saves from 32 up
	.text
	.seh_proc f0
f0:
	pushq %rbp
	.seh_pushreg %rbp
	subq $64, %rsp
	.seh_stackalloc 64
	{disp8} leaq 0(%rsp), %rbp
	.seh_setframe %rbp, 0
	movq %rbx, 32(%rsp)
	.seh_savereg %rbx, 32
	movq %r15, 56(%rsp)
	.seh_savereg %r15, 56
	.seh_endprologue
	callq f0
	subq $16, %rsp
	movq 56(%rbp), %r15
	movq 32(%rbp), %rbx
	leaq 64(%rbp), %rsp
	popq %rbp
	retq
	.seh_endproc

# ends around a multiple of 16
	.text
	.seh_proc f0
f0:
	.seh_endprologue
	nop
	nop
	nop
	nop
	nop
	nop
	nop
	nop
	nop
	nop
	nop
	nop
	nop
	retq
	.seh_endproc
	.p2align 4, 0xCC
	.seh_proc f1
f1:
	.seh_endprologue
	nop
	nop
	nop
	nop
	nop
	nop
	nop
	nop
	nop
	nop
	nop
	nop
	nop
	nop
	retq
	.seh_endproc
	.p2align 4, 0xCC
	.seh_proc f2
f2:
	.seh_endprologue
	nop
	nop
	nop
	nop
	nop
	nop
	nop
	nop
	nop
	nop
	nop
	nop
	nop
	nop
	nop
	retq
	.seh_endproc
	.p2align 4, 0xCC
	.seh_proc f3
f3:
	.seh_endprologue
	nop
	nop
	nop
	nop
	nop
	nop
	nop
	nop
	nop
	nop
	nop
	nop
	nop
	nop
	nop
	nop
	retq
	.seh_endproc
	.p2align 4, 0xCC
	.seh_proc f4
f4:
	.seh_endprologue
	nop
	nop
	nop
	nop
	nop
	nop
	nop
	nop
	nop
	nop
	nop
	nop
	nop
	nop
	nop
	nop
	nop
	nop
	nop
	nop
	nop
	nop
	nop
	nop
	nop
	nop
	nop
	nop
	nop
	nop
	retq
	.seh_endproc
	.p2align 4, 0xCC
	.seh_proc f5
f5:
	.seh_endprologue
	nop
	nop
	nop
	nop
	nop
	nop
	nop
	nop
	nop
	nop
	nop
	nop
	nop
	nop
	nop
	nop
	nop
	nop
	nop
	nop
	nop
	nop
	nop
	nop
	nop
	nop
	nop
	nop
	nop
	nop
	nop
	retq
	.seh_endproc
	.p2align 4, 0xCC
	.seh_proc f6
f6:
	.seh_endprologue
	nop
	nop
	nop
	nop
	nop
	nop
	nop
	nop
	nop
	nop
	nop
	nop
	nop
	nop
	nop
	nop
	nop
	nop
	nop
	nop
	nop
	nop
	nop
	nop
	nop
	nop
	nop
	nop
	nop
	nop
	nop
	nop
	retq
	.seh_endproc

# a call across long functions
	.text
	.seh_proc f0
f0:
	subq $40, %rsp
	.seh_stackalloc 40
	.seh_endprologue
	callq f2
	addq $40, %rsp
	retq
	.seh_endproc
	.p2align 4, 0xCC
	.seh_proc f1
f1:
	.seh_endprologue
	movq $0, %rax
	movq $1, %rax
	movq $2, %rax
	movq $3, %rax
	movq $4, %rax
	movq $5, %rax
	movq $6, %rax
	movq $7, %rax
	movq $8, %rax
	movq $9, %rax
	movq $10, %rax
	movq $11, %rax
	movq $12, %rax
	movq $13, %rax
	movq $14, %rax
	movq $15, %rax
	movq $16, %rax
	movq $17, %rax
	movq $18, %rax
	movq $19, %rax
	movq $20, %rax
	movq $21, %rax
	movq $22, %rax
	movq $23, %rax
	movq $24, %rax
	movq $25, %rax
	movq $26, %rax
	movq $27, %rax
	movq $28, %rax
	movq $29, %rax
	movq $30, %rax
	movq $31, %rax
	movq $32, %rax
	movq $33, %rax
	movq $34, %rax
	movq $35, %rax
	movq $36, %rax
	movq $37, %rax
	movq $38, %rax
	movq $39, %rax
	movq $40, %rax
	movq $41, %rax
	movq $42, %rax
	movq $43, %rax
	movq $44, %rax
	movq $45, %rax
	movq $46, %rax
	movq $47, %rax
	movq $48, %rax
	movq $49, %rax
	movq $50, %rax
	movq $51, %rax
	movq $52, %rax
	movq $53, %rax
	movq $54, %rax
	movq $55, %rax
	movq $56, %rax
	movq $57, %rax
	movq $58, %rax
	movq $59, %rax
	movq $60, %rax
	movq $61, %rax
	movq $62, %rax
	movq $63, %rax
	movq $64, %rax
	movq $65, %rax
	movq $66, %rax
	movq $67, %rax
	movq $68, %rax
	movq $69, %rax
	movq $70, %rax
	movq $71, %rax
	movq $72, %rax
	movq $73, %rax
	movq $74, %rax
	movq $75, %rax
	movq $76, %rax
	movq $77, %rax
	movq $78, %rax
	movq $79, %rax
	movq $80, %rax
	movq $81, %rax
	movq $82, %rax
	movq $83, %rax
	movq $84, %rax
	movq $85, %rax
	movq $86, %rax
	movq $87, %rax
	movq $88, %rax
	movq $89, %rax
	movq $90, %rax
	movq $91, %rax
	movq $92, %rax
	movq $93, %rax
	movq $94, %rax
	movq $95, %rax
	movq $96, %rax
	movq $97, %rax
	movq $98, %rax
	movq $99, %rax
	movq $100, %rax
	movq $101, %rax
	movq $102, %rax
	movq $103, %rax
	movq $104, %rax
	movq $105, %rax
	movq $106, %rax
	movq $107, %rax
	movq $108, %rax
	movq $109, %rax
	movq $110, %rax
	movq $111, %rax
	movq $112, %rax
	movq $113, %rax
	movq $114, %rax
	movq $115, %rax
	movq $116, %rax
	movq $117, %rax
	movq $118, %rax
	movq $119, %rax
	movq $120, %rax
	movq $121, %rax
	movq $122, %rax
	movq $123, %rax
	movq $124, %rax
	movq $125, %rax
	movq $126, %rax
	movq $127, %rax
	movq $128, %rax
	movq $129, %rax
	movq $130, %rax
	movq $131, %rax
	movq $132, %rax
	movq $133, %rax
	movq $134, %rax
	movq $135, %rax
	movq $136, %rax
	movq $137, %rax
	movq $138, %rax
	movq $139, %rax
	movq $140, %rax
	movq $141, %rax
	movq $142, %rax
	movq $143, %rax
	movq $144, %rax
	movq $145, %rax
	movq $146, %rax
	movq $147, %rax
	movq $148, %rax
	movq $149, %rax
	movq $150, %rax
	movq $151, %rax
	movq $152, %rax
	movq $153, %rax
	movq $154, %rax
	movq $155, %rax
	movq $156, %rax
	movq $157, %rax
	movq $158, %rax
	movq $159, %rax
	movq $160, %rax
	movq $161, %rax
	movq $162, %rax
	movq $163, %rax
	movq $164, %rax
	movq $165, %rax
	movq $166, %rax
	movq $167, %rax
	movq $168, %rax
	movq $169, %rax
	movq $170, %rax
	movq $171, %rax
	movq $172, %rax
	movq $173, %rax
	movq $174, %rax
	movq $175, %rax
	movq $176, %rax
	movq $177, %rax
	movq $178, %rax
	movq $179, %rax
	movq $180, %rax
	movq $181, %rax
	movq $182, %rax
	movq $183, %rax
	movq $184, %rax
	movq $185, %rax
	movq $186, %rax
	movq $187, %rax
	movq $188, %rax
	movq $189, %rax
	movq $190, %rax
	movq $191, %rax
	movq $192, %rax
	movq $193, %rax
	movq $194, %rax
	movq $195, %rax
	movq $196, %rax
	movq $197, %rax
	movq $198, %rax
	movq $199, %rax
	movq $200, %rax
	movq $201, %rax
	movq $202, %rax
	movq $203, %rax
	movq $204, %rax
	movq $205, %rax
	movq $206, %rax
	movq $207, %rax
	movq $208, %rax
	movq $209, %rax
	movq $210, %rax
	movq $211, %rax
	movq $212, %rax
	movq $213, %rax
	movq $214, %rax
	movq $215, %rax
	movq $216, %rax
	movq $217, %rax
	movq $218, %rax
	movq $219, %rax
	movq $220, %rax
	movq $221, %rax
	movq $222, %rax
	movq $223, %rax
	movq $224, %rax
	movq $225, %rax
	movq $226, %rax
	movq $227, %rax
	movq $228, %rax
	movq $229, %rax
	movq $230, %rax
	movq $231, %rax
	movq $232, %rax
	movq $233, %rax
	movq $234, %rax
	movq $235, %rax
	movq $236, %rax
	movq $237, %rax
	movq $238, %rax
	movq $239, %rax
	movq $240, %rax
	movq $241, %rax
	movq $242, %rax
	movq $243, %rax
	movq $244, %rax
	movq $245, %rax
	movq $246, %rax
	movq $247, %rax
	movq $248, %rax
	movq $249, %rax
	movq $250, %rax
	movq $251, %rax
	movq $252, %rax
	movq $253, %rax
	movq $254, %rax
	retq
	.seh_endproc
	.p2align 4, 0xCC
	.seh_proc f2
f2:
	subq $40, %rsp
	.seh_stackalloc 40
	.seh_endprologue
	callq f0
	callq f1
	addq $40, %rsp
	retq
	.seh_endproc

# code of 4095 bytes
	.text
	.seh_proc f0
f0:
	.seh_endprologue
	movq $0, %rax
	movq $1, %rax
	movq $2, %rax
	movq $3, %rax
	movq $4, %rax
	movq $5, %rax
	movq $6, %rax
	movq $7, %rax
	movq $8, %rax
	movq $9, %rax
	movq $10, %rax
	movq $11, %rax
	movq $12, %rax
	movq $13, %rax
	movq $14, %rax
	movq $15, %rax
	movq $16, %rax
	movq $17, %rax
	movq $18, %rax
	movq $19, %rax
	movq $20, %rax
	movq $21, %rax
	movq $22, %rax
	movq $23, %rax
	movq $24, %rax
	movq $25, %rax
	movq $26, %rax
	movq $27, %rax
	movq $28, %rax
	movq $29, %rax
	movq $30, %rax
	movq $31, %rax
	movq $32, %rax
	movq $33, %rax
	movq $34, %rax
	movq $35, %rax
	movq $36, %rax
	movq $37, %rax
	movq $38, %rax
	movq $39, %rax
	movq $40, %rax
	movq $41, %rax
	movq $42, %rax
	movq $43, %rax
	movq $44, %rax
	movq $45, %rax
	movq $46, %rax
	movq $47, %rax
	movq $48, %rax
	movq $49, %rax
	movq $50, %rax
	movq $51, %rax
	movq $52, %rax
	movq $53, %rax
	movq $54, %rax
	movq $55, %rax
	movq $56, %rax
	movq $57, %rax
	movq $58, %rax
	movq $59, %rax
	movq $60, %rax
	movq $61, %rax
	movq $62, %rax
	movq $63, %rax
	movq $64, %rax
	movq $65, %rax
	movq $66, %rax
	movq $67, %rax
	movq $68, %rax
	movq $69, %rax
	movq $70, %rax
	movq $71, %rax
	movq $72, %rax
	movq $73, %rax
	movq $74, %rax
	movq $75, %rax
	movq $76, %rax
	movq $77, %rax
	movq $78, %rax
	movq $79, %rax
	movq $80, %rax
	movq $81, %rax
	movq $82, %rax
	movq $83, %rax
	movq $84, %rax
	movq $85, %rax
	movq $86, %rax
	movq $87, %rax
	movq $88, %rax
	movq $89, %rax
	movq $90, %rax
	movq $91, %rax
	movq $92, %rax
	movq $93, %rax
	movq $94, %rax
	movq $95, %rax
	movq $96, %rax
	movq $97, %rax
	movq $98, %rax
	movq $99, %rax
	movq $100, %rax
	movq $101, %rax
	movq $102, %rax
	movq $103, %rax
	movq $104, %rax
	movq $105, %rax
	movq $106, %rax
	movq $107, %rax
	movq $108, %rax
	movq $109, %rax
	movq $110, %rax
	movq $111, %rax
	movq $112, %rax
	movq $113, %rax
	movq $114, %rax
	movq $115, %rax
	movq $116, %rax
	movq $117, %rax
	movq $118, %rax
	movq $119, %rax
	movq $120, %rax
	movq $121, %rax
	movq $122, %rax
	movq $123, %rax
	movq $124, %rax
	movq $125, %rax
	movq $126, %rax
	movq $127, %rax
	movq $128, %rax
	movq $129, %rax
	movq $130, %rax
	movq $131, %rax
	movq $132, %rax
	movq $133, %rax
	movq $134, %rax
	movq $135, %rax
	movq $136, %rax
	movq $137, %rax
	movq $138, %rax
	movq $139, %rax
	movq $140, %rax
	movq $141, %rax
	movq $142, %rax
	movq $143, %rax
	movq $144, %rax
	movq $145, %rax
	movq $146, %rax
	movq $147, %rax
	movq $148, %rax
	movq $149, %rax
	movq $150, %rax
	movq $151, %rax
	movq $152, %rax
	movq $153, %rax
	movq $154, %rax
	movq $155, %rax
	movq $156, %rax
	movq $157, %rax
	movq $158, %rax
	movq $159, %rax
	movq $160, %rax
	movq $161, %rax
	movq $162, %rax
	movq $163, %rax
	movq $164, %rax
	movq $165, %rax
	movq $166, %rax
	movq $167, %rax
	movq $168, %rax
	movq $169, %rax
	movq $170, %rax
	movq $171, %rax
	movq $172, %rax
	movq $173, %rax
	movq $174, %rax
	movq $175, %rax
	movq $176, %rax
	movq $177, %rax
	movq $178, %rax
	movq $179, %rax
	movq $180, %rax
	movq $181, %rax
	movq $182, %rax
	movq $183, %rax
	movq $184, %rax
	movq $185, %rax
	movq $186, %rax
	movq $187, %rax
	movq $188, %rax
	movq $189, %rax
	movq $190, %rax
	movq $191, %rax
	movq $192, %rax
	movq $193, %rax
	movq $194, %rax
	movq $195, %rax
	movq $196, %rax
	movq $197, %rax
	movq $198, %rax
	movq $199, %rax
	movq $200, %rax
	movq $201, %rax
	movq $202, %rax
	movq $203, %rax
	movq $204, %rax
	movq $205, %rax
	movq $206, %rax
	movq $207, %rax
	movq $208, %rax
	movq $209, %rax
	movq $210, %rax
	movq $211, %rax
	movq $212, %rax
	movq $213, %rax
	movq $214, %rax
	movq $215, %rax
	movq $216, %rax
	movq $217, %rax
	movq $218, %rax
	movq $219, %rax
	movq $220, %rax
	movq $221, %rax
	movq $222, %rax
	movq $223, %rax
	movq $224, %rax
	movq $225, %rax
	movq $226, %rax
	movq $227, %rax
	movq $228, %rax
	movq $229, %rax
	movq $230, %rax
	movq $231, %rax
	movq $232, %rax
	movq $233, %rax
	movq $234, %rax
	movq $235, %rax
	movq $236, %rax
	movq $237, %rax
	movq $238, %rax
	movq $239, %rax
	movq $240, %rax
	movq $241, %rax
	movq $242, %rax
	movq $243, %rax
	movq $244, %rax
	movq $245, %rax
	movq $246, %rax
	movq $247, %rax
	movq $248, %rax
	movq $249, %rax
	movq $250, %rax
	movq $251, %rax
	movq $252, %rax
	movq $253, %rax
	movq $254, %rax
	retq
	.seh_endproc
	.p2align 4, 0xCC
	.seh_proc f1
f1:
	.seh_endprologue
	movq $0, %rax
	movq $1, %rax
	movq $2, %rax
	movq $3, %rax
	movq $4, %rax
	movq $5, %rax
	movq $6, %rax
	movq $7, %rax
	movq $8, %rax
	movq $9, %rax
	movq $10, %rax
	movq $11, %rax
	movq $12, %rax
	movq $13, %rax
	movq $14, %rax
	movq $15, %rax
	movq $16, %rax
	movq $17, %rax
	movq $18, %rax
	movq $19, %rax
	movq $20, %rax
	movq $21, %rax
	movq $22, %rax
	movq $23, %rax
	movq $24, %rax
	movq $25, %rax
	movq $26, %rax
	movq $27, %rax
	movq $28, %rax
	movq $29, %rax
	movq $30, %rax
	movq $31, %rax
	movq $32, %rax
	movq $33, %rax
	movq $34, %rax
	movq $35, %rax
	movq $36, %rax
	movq $37, %rax
	movq $38, %rax
	movq $39, %rax
	movq $40, %rax
	movq $41, %rax
	movq $42, %rax
	movq $43, %rax
	movq $44, %rax
	movq $45, %rax
	movq $46, %rax
	movq $47, %rax
	movq $48, %rax
	movq $49, %rax
	movq $50, %rax
	movq $51, %rax
	movq $52, %rax
	movq $53, %rax
	movq $54, %rax
	movq $55, %rax
	movq $56, %rax
	movq $57, %rax
	movq $58, %rax
	movq $59, %rax
	movq $60, %rax
	movq $61, %rax
	movq $62, %rax
	movq $63, %rax
	movq $64, %rax
	movq $65, %rax
	movq $66, %rax
	movq $67, %rax
	movq $68, %rax
	movq $69, %rax
	movq $70, %rax
	movq $71, %rax
	movq $72, %rax
	movq $73, %rax
	movq $74, %rax
	movq $75, %rax
	movq $76, %rax
	movq $77, %rax
	movq $78, %rax
	movq $79, %rax
	movq $80, %rax
	movq $81, %rax
	movq $82, %rax
	movq $83, %rax
	movq $84, %rax
	movq $85, %rax
	movq $86, %rax
	movq $87, %rax
	movq $88, %rax
	movq $89, %rax
	movq $90, %rax
	movq $91, %rax
	movq $92, %rax
	movq $93, %rax
	movq $94, %rax
	movq $95, %rax
	movq $96, %rax
	movq $97, %rax
	movq $98, %rax
	movq $99, %rax
	movq $100, %rax
	movq $101, %rax
	movq $102, %rax
	movq $103, %rax
	movq $104, %rax
	movq $105, %rax
	movq $106, %rax
	movq $107, %rax
	movq $108, %rax
	movq $109, %rax
	movq $110, %rax
	movq $111, %rax
	movq $112, %rax
	movq $113, %rax
	movq $114, %rax
	movq $115, %rax
	movq $116, %rax
	movq $117, %rax
	movq $118, %rax
	movq $119, %rax
	movq $120, %rax
	movq $121, %rax
	movq $122, %rax
	movq $123, %rax
	movq $124, %rax
	movq $125, %rax
	movq $126, %rax
	movq $127, %rax
	movq $128, %rax
	movq $129, %rax
	movq $130, %rax
	movq $131, %rax
	movq $132, %rax
	movq $133, %rax
	movq $134, %rax
	movq $135, %rax
	movq $136, %rax
	movq $137, %rax
	movq $138, %rax
	movq $139, %rax
	movq $140, %rax
	movq $141, %rax
	movq $142, %rax
	movq $143, %rax
	movq $144, %rax
	movq $145, %rax
	movq $146, %rax
	movq $147, %rax
	movq $148, %rax
	movq $149, %rax
	movq $150, %rax
	movq $151, %rax
	movq $152, %rax
	movq $153, %rax
	movq $154, %rax
	movq $155, %rax
	movq $156, %rax
	movq $157, %rax
	movq $158, %rax
	movq $159, %rax
	movq $160, %rax
	movq $161, %rax
	movq $162, %rax
	movq $163, %rax
	movq $164, %rax
	movq $165, %rax
	movq $166, %rax
	movq $167, %rax
	movq $168, %rax
	movq $169, %rax
	movq $170, %rax
	movq $171, %rax
	movq $172, %rax
	movq $173, %rax
	movq $174, %rax
	movq $175, %rax
	movq $176, %rax
	movq $177, %rax
	movq $178, %rax
	movq $179, %rax
	movq $180, %rax
	movq $181, %rax
	movq $182, %rax
	movq $183, %rax
	movq $184, %rax
	movq $185, %rax
	movq $186, %rax
	movq $187, %rax
	movq $188, %rax
	movq $189, %rax
	movq $190, %rax
	movq $191, %rax
	movq $192, %rax
	movq $193, %rax
	movq $194, %rax
	movq $195, %rax
	movq $196, %rax
	movq $197, %rax
	movq $198, %rax
	movq $199, %rax
	movq $200, %rax
	movq $201, %rax
	movq $202, %rax
	movq $203, %rax
	movq $204, %rax
	movq $205, %rax
	movq $206, %rax
	movq $207, %rax
	movq $208, %rax
	movq $209, %rax
	movq $210, %rax
	movq $211, %rax
	movq $212, %rax
	movq $213, %rax
	movq $214, %rax
	movq $215, %rax
	movq $216, %rax
	movq $217, %rax
	movq $218, %rax
	movq $219, %rax
	movq $220, %rax
	movq $221, %rax
	movq $222, %rax
	movq $223, %rax
	movq $224, %rax
	movq $225, %rax
	movq $226, %rax
	movq $227, %rax
	movq $228, %rax
	movq $229, %rax
	movq $230, %rax
	movq $231, %rax
	movq $232, %rax
	movq $233, %rax
	movq $234, %rax
	movq $235, %rax
	movq $236, %rax
	movq $237, %rax
	movq $238, %rax
	movq $239, %rax
	movq $240, %rax
	movq $241, %rax
	movq $242, %rax
	movq $243, %rax
	movq $244, %rax
	movq $245, %rax
	movq $246, %rax
	movq $247, %rax
	movq $248, %rax
	movq $249, %rax
	movq $250, %rax
	movq $251, %rax
	movq $252, %rax
	movq $253, %rax
	movq $254, %rax
	retq
	.seh_endproc
	.p2align 4, 0xCC
	.seh_proc f2
f2:
	.seh_endprologue
	movq $0, %rax
	movq $1, %rax
	movq $2, %rax
	movq $3, %rax
	movq $4, %rax
	movq $5, %rax
	movq $6, %rax
	movq $7, %rax
	movq $8, %rax
	movq $9, %rax
	movq $10, %rax
	movq $11, %rax
	movq $12, %rax
	movq $13, %rax
	movq $14, %rax
	movq $15, %rax
	movq $16, %rax
	movq $17, %rax
	movq $18, %rax
	movq $19, %rax
	movq $20, %rax
	movq $21, %rax
	movq $22, %rax
	movq $23, %rax
	movq $24, %rax
	movq $25, %rax
	movq $26, %rax
	movq $27, %rax
	movq $28, %rax
	movq $29, %rax
	movq $30, %rax
	movq $31, %rax
	movq $32, %rax
	movq $33, %rax
	movq $34, %rax
	movq $35, %rax
	movq $36, %rax
	movq $37, %rax
	movq $38, %rax
	movq $39, %rax
	movq $40, %rax
	movq $41, %rax
	movq $42, %rax
	movq $43, %rax
	movq $44, %rax
	movq $45, %rax
	movq $46, %rax
	movq $47, %rax
	movq $48, %rax
	movq $49, %rax
	movq $50, %rax
	movq $51, %rax
	movq $52, %rax
	movq $53, %rax
	movq $54, %rax
	movq $55, %rax
	movq $56, %rax
	movq $57, %rax
	movq $58, %rax
	movq $59, %rax
	movq $60, %rax
	movq $61, %rax
	movq $62, %rax
	movq $63, %rax
	movq $64, %rax
	movq $65, %rax
	movq $66, %rax
	movq $67, %rax
	movq $68, %rax
	movq $69, %rax
	movq $70, %rax
	movq $71, %rax
	nop
	nop
	nop
	nop
	nop
	nop
	retq
	.seh_endproc

# code of 4096 bytes
	.text
	.seh_proc f0
f0:
	.seh_endprologue
	movq $0, %rax
	movq $1, %rax
	movq $2, %rax
	movq $3, %rax
	movq $4, %rax
	movq $5, %rax
	movq $6, %rax
	movq $7, %rax
	movq $8, %rax
	movq $9, %rax
	movq $10, %rax
	movq $11, %rax
	movq $12, %rax
	movq $13, %rax
	movq $14, %rax
	movq $15, %rax
	movq $16, %rax
	movq $17, %rax
	movq $18, %rax
	movq $19, %rax
	movq $20, %rax
	movq $21, %rax
	movq $22, %rax
	movq $23, %rax
	movq $24, %rax
	movq $25, %rax
	movq $26, %rax
	movq $27, %rax
	movq $28, %rax
	movq $29, %rax
	movq $30, %rax
	movq $31, %rax
	movq $32, %rax
	movq $33, %rax
	movq $34, %rax
	movq $35, %rax
	movq $36, %rax
	movq $37, %rax
	movq $38, %rax
	movq $39, %rax
	movq $40, %rax
	movq $41, %rax
	movq $42, %rax
	movq $43, %rax
	movq $44, %rax
	movq $45, %rax
	movq $46, %rax
	movq $47, %rax
	movq $48, %rax
	movq $49, %rax
	movq $50, %rax
	movq $51, %rax
	movq $52, %rax
	movq $53, %rax
	movq $54, %rax
	movq $55, %rax
	movq $56, %rax
	movq $57, %rax
	movq $58, %rax
	movq $59, %rax
	movq $60, %rax
	movq $61, %rax
	movq $62, %rax
	movq $63, %rax
	movq $64, %rax
	movq $65, %rax
	movq $66, %rax
	movq $67, %rax
	movq $68, %rax
	movq $69, %rax
	movq $70, %rax
	movq $71, %rax
	movq $72, %rax
	movq $73, %rax
	movq $74, %rax
	movq $75, %rax
	movq $76, %rax
	movq $77, %rax
	movq $78, %rax
	movq $79, %rax
	movq $80, %rax
	movq $81, %rax
	movq $82, %rax
	movq $83, %rax
	movq $84, %rax
	movq $85, %rax
	movq $86, %rax
	movq $87, %rax
	movq $88, %rax
	movq $89, %rax
	movq $90, %rax
	movq $91, %rax
	movq $92, %rax
	movq $93, %rax
	movq $94, %rax
	movq $95, %rax
	movq $96, %rax
	movq $97, %rax
	movq $98, %rax
	movq $99, %rax
	movq $100, %rax
	movq $101, %rax
	movq $102, %rax
	movq $103, %rax
	movq $104, %rax
	movq $105, %rax
	movq $106, %rax
	movq $107, %rax
	movq $108, %rax
	movq $109, %rax
	movq $110, %rax
	movq $111, %rax
	movq $112, %rax
	movq $113, %rax
	movq $114, %rax
	movq $115, %rax
	movq $116, %rax
	movq $117, %rax
	movq $118, %rax
	movq $119, %rax
	movq $120, %rax
	movq $121, %rax
	movq $122, %rax
	movq $123, %rax
	movq $124, %rax
	movq $125, %rax
	movq $126, %rax
	movq $127, %rax
	movq $128, %rax
	movq $129, %rax
	movq $130, %rax
	movq $131, %rax
	movq $132, %rax
	movq $133, %rax
	movq $134, %rax
	movq $135, %rax
	movq $136, %rax
	movq $137, %rax
	movq $138, %rax
	movq $139, %rax
	movq $140, %rax
	movq $141, %rax
	movq $142, %rax
	movq $143, %rax
	movq $144, %rax
	movq $145, %rax
	movq $146, %rax
	movq $147, %rax
	movq $148, %rax
	movq $149, %rax
	movq $150, %rax
	movq $151, %rax
	movq $152, %rax
	movq $153, %rax
	movq $154, %rax
	movq $155, %rax
	movq $156, %rax
	movq $157, %rax
	movq $158, %rax
	movq $159, %rax
	movq $160, %rax
	movq $161, %rax
	movq $162, %rax
	movq $163, %rax
	movq $164, %rax
	movq $165, %rax
	movq $166, %rax
	movq $167, %rax
	movq $168, %rax
	movq $169, %rax
	movq $170, %rax
	movq $171, %rax
	movq $172, %rax
	movq $173, %rax
	movq $174, %rax
	movq $175, %rax
	movq $176, %rax
	movq $177, %rax
	movq $178, %rax
	movq $179, %rax
	movq $180, %rax
	movq $181, %rax
	movq $182, %rax
	movq $183, %rax
	movq $184, %rax
	movq $185, %rax
	movq $186, %rax
	movq $187, %rax
	movq $188, %rax
	movq $189, %rax
	movq $190, %rax
	movq $191, %rax
	movq $192, %rax
	movq $193, %rax
	movq $194, %rax
	movq $195, %rax
	movq $196, %rax
	movq $197, %rax
	movq $198, %rax
	movq $199, %rax
	movq $200, %rax
	movq $201, %rax
	movq $202, %rax
	movq $203, %rax
	movq $204, %rax
	movq $205, %rax
	movq $206, %rax
	movq $207, %rax
	movq $208, %rax
	movq $209, %rax
	movq $210, %rax
	movq $211, %rax
	movq $212, %rax
	movq $213, %rax
	movq $214, %rax
	movq $215, %rax
	movq $216, %rax
	movq $217, %rax
	movq $218, %rax
	movq $219, %rax
	movq $220, %rax
	movq $221, %rax
	movq $222, %rax
	movq $223, %rax
	movq $224, %rax
	movq $225, %rax
	movq $226, %rax
	movq $227, %rax
	movq $228, %rax
	movq $229, %rax
	movq $230, %rax
	movq $231, %rax
	movq $232, %rax
	movq $233, %rax
	movq $234, %rax
	movq $235, %rax
	movq $236, %rax
	movq $237, %rax
	movq $238, %rax
	movq $239, %rax
	movq $240, %rax
	movq $241, %rax
	movq $242, %rax
	movq $243, %rax
	movq $244, %rax
	movq $245, %rax
	movq $246, %rax
	movq $247, %rax
	movq $248, %rax
	movq $249, %rax
	movq $250, %rax
	movq $251, %rax
	movq $252, %rax
	movq $253, %rax
	movq $254, %rax
	retq
	.seh_endproc
	.p2align 4, 0xCC
	.seh_proc f1
f1:
	.seh_endprologue
	movq $0, %rax
	movq $1, %rax
	movq $2, %rax
	movq $3, %rax
	movq $4, %rax
	movq $5, %rax
	movq $6, %rax
	movq $7, %rax
	movq $8, %rax
	movq $9, %rax
	movq $10, %rax
	movq $11, %rax
	movq $12, %rax
	movq $13, %rax
	movq $14, %rax
	movq $15, %rax
	movq $16, %rax
	movq $17, %rax
	movq $18, %rax
	movq $19, %rax
	movq $20, %rax
	movq $21, %rax
	movq $22, %rax
	movq $23, %rax
	movq $24, %rax
	movq $25, %rax
	movq $26, %rax
	movq $27, %rax
	movq $28, %rax
	movq $29, %rax
	movq $30, %rax
	movq $31, %rax
	movq $32, %rax
	movq $33, %rax
	movq $34, %rax
	movq $35, %rax
	movq $36, %rax
	movq $37, %rax
	movq $38, %rax
	movq $39, %rax
	movq $40, %rax
	movq $41, %rax
	movq $42, %rax
	movq $43, %rax
	movq $44, %rax
	movq $45, %rax
	movq $46, %rax
	movq $47, %rax
	movq $48, %rax
	movq $49, %rax
	movq $50, %rax
	movq $51, %rax
	movq $52, %rax
	movq $53, %rax
	movq $54, %rax
	movq $55, %rax
	movq $56, %rax
	movq $57, %rax
	movq $58, %rax
	movq $59, %rax
	movq $60, %rax
	movq $61, %rax
	movq $62, %rax
	movq $63, %rax
	movq $64, %rax
	movq $65, %rax
	movq $66, %rax
	movq $67, %rax
	movq $68, %rax
	movq $69, %rax
	movq $70, %rax
	movq $71, %rax
	movq $72, %rax
	movq $73, %rax
	movq $74, %rax
	movq $75, %rax
	movq $76, %rax
	movq $77, %rax
	movq $78, %rax
	movq $79, %rax
	movq $80, %rax
	movq $81, %rax
	movq $82, %rax
	movq $83, %rax
	movq $84, %rax
	movq $85, %rax
	movq $86, %rax
	movq $87, %rax
	movq $88, %rax
	movq $89, %rax
	movq $90, %rax
	movq $91, %rax
	movq $92, %rax
	movq $93, %rax
	movq $94, %rax
	movq $95, %rax
	movq $96, %rax
	movq $97, %rax
	movq $98, %rax
	movq $99, %rax
	movq $100, %rax
	movq $101, %rax
	movq $102, %rax
	movq $103, %rax
	movq $104, %rax
	movq $105, %rax
	movq $106, %rax
	movq $107, %rax
	movq $108, %rax
	movq $109, %rax
	movq $110, %rax
	movq $111, %rax
	movq $112, %rax
	movq $113, %rax
	movq $114, %rax
	movq $115, %rax
	movq $116, %rax
	movq $117, %rax
	movq $118, %rax
	movq $119, %rax
	movq $120, %rax
	movq $121, %rax
	movq $122, %rax
	movq $123, %rax
	movq $124, %rax
	movq $125, %rax
	movq $126, %rax
	movq $127, %rax
	movq $128, %rax
	movq $129, %rax
	movq $130, %rax
	movq $131, %rax
	movq $132, %rax
	movq $133, %rax
	movq $134, %rax
	movq $135, %rax
	movq $136, %rax
	movq $137, %rax
	movq $138, %rax
	movq $139, %rax
	movq $140, %rax
	movq $141, %rax
	movq $142, %rax
	movq $143, %rax
	movq $144, %rax
	movq $145, %rax
	movq $146, %rax
	movq $147, %rax
	movq $148, %rax
	movq $149, %rax
	movq $150, %rax
	movq $151, %rax
	movq $152, %rax
	movq $153, %rax
	movq $154, %rax
	movq $155, %rax
	movq $156, %rax
	movq $157, %rax
	movq $158, %rax
	movq $159, %rax
	movq $160, %rax
	movq $161, %rax
	movq $162, %rax
	movq $163, %rax
	movq $164, %rax
	movq $165, %rax
	movq $166, %rax
	movq $167, %rax
	movq $168, %rax
	movq $169, %rax
	movq $170, %rax
	movq $171, %rax
	movq $172, %rax
	movq $173, %rax
	movq $174, %rax
	movq $175, %rax
	movq $176, %rax
	movq $177, %rax
	movq $178, %rax
	movq $179, %rax
	movq $180, %rax
	movq $181, %rax
	movq $182, %rax
	movq $183, %rax
	movq $184, %rax
	movq $185, %rax
	movq $186, %rax
	movq $187, %rax
	movq $188, %rax
	movq $189, %rax
	movq $190, %rax
	movq $191, %rax
	movq $192, %rax
	movq $193, %rax
	movq $194, %rax
	movq $195, %rax
	movq $196, %rax
	movq $197, %rax
	movq $198, %rax
	movq $199, %rax
	movq $200, %rax
	movq $201, %rax
	movq $202, %rax
	movq $203, %rax
	movq $204, %rax
	movq $205, %rax
	movq $206, %rax
	movq $207, %rax
	movq $208, %rax
	movq $209, %rax
	movq $210, %rax
	movq $211, %rax
	movq $212, %rax
	movq $213, %rax
	movq $214, %rax
	movq $215, %rax
	movq $216, %rax
	movq $217, %rax
	movq $218, %rax
	movq $219, %rax
	movq $220, %rax
	movq $221, %rax
	movq $222, %rax
	movq $223, %rax
	movq $224, %rax
	movq $225, %rax
	movq $226, %rax
	movq $227, %rax
	movq $228, %rax
	movq $229, %rax
	movq $230, %rax
	movq $231, %rax
	movq $232, %rax
	movq $233, %rax
	movq $234, %rax
	movq $235, %rax
	movq $236, %rax
	movq $237, %rax
	movq $238, %rax
	movq $239, %rax
	movq $240, %rax
	movq $241, %rax
	movq $242, %rax
	movq $243, %rax
	movq $244, %rax
	movq $245, %rax
	movq $246, %rax
	movq $247, %rax
	movq $248, %rax
	movq $249, %rax
	movq $250, %rax
	movq $251, %rax
	movq $252, %rax
	movq $253, %rax
	movq $254, %rax
	retq
	.seh_endproc
	.p2align 4, 0xCC
	.seh_proc f2
f2:
	.seh_endprologue
	movq $0, %rax
	movq $1, %rax
	movq $2, %rax
	movq $3, %rax
	movq $4, %rax
	movq $5, %rax
	movq $6, %rax
	movq $7, %rax
	movq $8, %rax
	movq $9, %rax
	movq $10, %rax
	movq $11, %rax
	movq $12, %rax
	movq $13, %rax
	movq $14, %rax
	movq $15, %rax
	movq $16, %rax
	movq $17, %rax
	movq $18, %rax
	movq $19, %rax
	movq $20, %rax
	movq $21, %rax
	movq $22, %rax
	movq $23, %rax
	movq $24, %rax
	movq $25, %rax
	movq $26, %rax
	movq $27, %rax
	movq $28, %rax
	movq $29, %rax
	movq $30, %rax
	movq $31, %rax
	movq $32, %rax
	movq $33, %rax
	movq $34, %rax
	movq $35, %rax
	movq $36, %rax
	movq $37, %rax
	movq $38, %rax
	movq $39, %rax
	movq $40, %rax
	movq $41, %rax
	movq $42, %rax
	movq $43, %rax
	movq $44, %rax
	movq $45, %rax
	movq $46, %rax
	movq $47, %rax
	movq $48, %rax
	movq $49, %rax
	movq $50, %rax
	movq $51, %rax
	movq $52, %rax
	movq $53, %rax
	movq $54, %rax
	movq $55, %rax
	movq $56, %rax
	movq $57, %rax
	movq $58, %rax
	movq $59, %rax
	movq $60, %rax
	movq $61, %rax
	movq $62, %rax
	movq $63, %rax
	movq $64, %rax
	movq $65, %rax
	movq $66, %rax
	movq $67, %rax
	movq $68, %rax
	movq $69, %rax
	movq $70, %rax
	movq $71, %rax
	movq $72, %rax
	retq
	.seh_endproc

# code of 4097 bytes
	.text
	.seh_proc f0
f0:
	.seh_endprologue
	movq $0, %rax
	movq $1, %rax
	movq $2, %rax
	movq $3, %rax
	movq $4, %rax
	movq $5, %rax
	movq $6, %rax
	movq $7, %rax
	movq $8, %rax
	movq $9, %rax
	movq $10, %rax
	movq $11, %rax
	movq $12, %rax
	movq $13, %rax
	movq $14, %rax
	movq $15, %rax
	movq $16, %rax
	movq $17, %rax
	movq $18, %rax
	movq $19, %rax
	movq $20, %rax
	movq $21, %rax
	movq $22, %rax
	movq $23, %rax
	movq $24, %rax
	movq $25, %rax
	movq $26, %rax
	movq $27, %rax
	movq $28, %rax
	movq $29, %rax
	movq $30, %rax
	movq $31, %rax
	movq $32, %rax
	movq $33, %rax
	movq $34, %rax
	movq $35, %rax
	movq $36, %rax
	movq $37, %rax
	movq $38, %rax
	movq $39, %rax
	movq $40, %rax
	movq $41, %rax
	movq $42, %rax
	movq $43, %rax
	movq $44, %rax
	movq $45, %rax
	movq $46, %rax
	movq $47, %rax
	movq $48, %rax
	movq $49, %rax
	movq $50, %rax
	movq $51, %rax
	movq $52, %rax
	movq $53, %rax
	movq $54, %rax
	movq $55, %rax
	movq $56, %rax
	movq $57, %rax
	movq $58, %rax
	movq $59, %rax
	movq $60, %rax
	movq $61, %rax
	movq $62, %rax
	movq $63, %rax
	movq $64, %rax
	movq $65, %rax
	movq $66, %rax
	movq $67, %rax
	movq $68, %rax
	movq $69, %rax
	movq $70, %rax
	movq $71, %rax
	movq $72, %rax
	movq $73, %rax
	movq $74, %rax
	movq $75, %rax
	movq $76, %rax
	movq $77, %rax
	movq $78, %rax
	movq $79, %rax
	movq $80, %rax
	movq $81, %rax
	movq $82, %rax
	movq $83, %rax
	movq $84, %rax
	movq $85, %rax
	movq $86, %rax
	movq $87, %rax
	movq $88, %rax
	movq $89, %rax
	movq $90, %rax
	movq $91, %rax
	movq $92, %rax
	movq $93, %rax
	movq $94, %rax
	movq $95, %rax
	movq $96, %rax
	movq $97, %rax
	movq $98, %rax
	movq $99, %rax
	movq $100, %rax
	movq $101, %rax
	movq $102, %rax
	movq $103, %rax
	movq $104, %rax
	movq $105, %rax
	movq $106, %rax
	movq $107, %rax
	movq $108, %rax
	movq $109, %rax
	movq $110, %rax
	movq $111, %rax
	movq $112, %rax
	movq $113, %rax
	movq $114, %rax
	movq $115, %rax
	movq $116, %rax
	movq $117, %rax
	movq $118, %rax
	movq $119, %rax
	movq $120, %rax
	movq $121, %rax
	movq $122, %rax
	movq $123, %rax
	movq $124, %rax
	movq $125, %rax
	movq $126, %rax
	movq $127, %rax
	movq $128, %rax
	movq $129, %rax
	movq $130, %rax
	movq $131, %rax
	movq $132, %rax
	movq $133, %rax
	movq $134, %rax
	movq $135, %rax
	movq $136, %rax
	movq $137, %rax
	movq $138, %rax
	movq $139, %rax
	movq $140, %rax
	movq $141, %rax
	movq $142, %rax
	movq $143, %rax
	movq $144, %rax
	movq $145, %rax
	movq $146, %rax
	movq $147, %rax
	movq $148, %rax
	movq $149, %rax
	movq $150, %rax
	movq $151, %rax
	movq $152, %rax
	movq $153, %rax
	movq $154, %rax
	movq $155, %rax
	movq $156, %rax
	movq $157, %rax
	movq $158, %rax
	movq $159, %rax
	movq $160, %rax
	movq $161, %rax
	movq $162, %rax
	movq $163, %rax
	movq $164, %rax
	movq $165, %rax
	movq $166, %rax
	movq $167, %rax
	movq $168, %rax
	movq $169, %rax
	movq $170, %rax
	movq $171, %rax
	movq $172, %rax
	movq $173, %rax
	movq $174, %rax
	movq $175, %rax
	movq $176, %rax
	movq $177, %rax
	movq $178, %rax
	movq $179, %rax
	movq $180, %rax
	movq $181, %rax
	movq $182, %rax
	movq $183, %rax
	movq $184, %rax
	movq $185, %rax
	movq $186, %rax
	movq $187, %rax
	movq $188, %rax
	movq $189, %rax
	movq $190, %rax
	movq $191, %rax
	movq $192, %rax
	movq $193, %rax
	movq $194, %rax
	movq $195, %rax
	movq $196, %rax
	movq $197, %rax
	movq $198, %rax
	movq $199, %rax
	movq $200, %rax
	movq $201, %rax
	movq $202, %rax
	movq $203, %rax
	movq $204, %rax
	movq $205, %rax
	movq $206, %rax
	movq $207, %rax
	movq $208, %rax
	movq $209, %rax
	movq $210, %rax
	movq $211, %rax
	movq $212, %rax
	movq $213, %rax
	movq $214, %rax
	movq $215, %rax
	movq $216, %rax
	movq $217, %rax
	movq $218, %rax
	movq $219, %rax
	movq $220, %rax
	movq $221, %rax
	movq $222, %rax
	movq $223, %rax
	movq $224, %rax
	movq $225, %rax
	movq $226, %rax
	movq $227, %rax
	movq $228, %rax
	movq $229, %rax
	movq $230, %rax
	movq $231, %rax
	movq $232, %rax
	movq $233, %rax
	movq $234, %rax
	movq $235, %rax
	movq $236, %rax
	movq $237, %rax
	movq $238, %rax
	movq $239, %rax
	movq $240, %rax
	movq $241, %rax
	movq $242, %rax
	movq $243, %rax
	movq $244, %rax
	movq $245, %rax
	movq $246, %rax
	movq $247, %rax
	movq $248, %rax
	movq $249, %rax
	movq $250, %rax
	movq $251, %rax
	movq $252, %rax
	movq $253, %rax
	movq $254, %rax
	retq
	.seh_endproc
	.p2align 4, 0xCC
	.seh_proc f1
f1:
	.seh_endprologue
	movq $0, %rax
	movq $1, %rax
	movq $2, %rax
	movq $3, %rax
	movq $4, %rax
	movq $5, %rax
	movq $6, %rax
	movq $7, %rax
	movq $8, %rax
	movq $9, %rax
	movq $10, %rax
	movq $11, %rax
	movq $12, %rax
	movq $13, %rax
	movq $14, %rax
	movq $15, %rax
	movq $16, %rax
	movq $17, %rax
	movq $18, %rax
	movq $19, %rax
	movq $20, %rax
	movq $21, %rax
	movq $22, %rax
	movq $23, %rax
	movq $24, %rax
	movq $25, %rax
	movq $26, %rax
	movq $27, %rax
	movq $28, %rax
	movq $29, %rax
	movq $30, %rax
	movq $31, %rax
	movq $32, %rax
	movq $33, %rax
	movq $34, %rax
	movq $35, %rax
	movq $36, %rax
	movq $37, %rax
	movq $38, %rax
	movq $39, %rax
	movq $40, %rax
	movq $41, %rax
	movq $42, %rax
	movq $43, %rax
	movq $44, %rax
	movq $45, %rax
	movq $46, %rax
	movq $47, %rax
	movq $48, %rax
	movq $49, %rax
	movq $50, %rax
	movq $51, %rax
	movq $52, %rax
	movq $53, %rax
	movq $54, %rax
	movq $55, %rax
	movq $56, %rax
	movq $57, %rax
	movq $58, %rax
	movq $59, %rax
	movq $60, %rax
	movq $61, %rax
	movq $62, %rax
	movq $63, %rax
	movq $64, %rax
	movq $65, %rax
	movq $66, %rax
	movq $67, %rax
	movq $68, %rax
	movq $69, %rax
	movq $70, %rax
	movq $71, %rax
	movq $72, %rax
	movq $73, %rax
	movq $74, %rax
	movq $75, %rax
	movq $76, %rax
	movq $77, %rax
	movq $78, %rax
	movq $79, %rax
	movq $80, %rax
	movq $81, %rax
	movq $82, %rax
	movq $83, %rax
	movq $84, %rax
	movq $85, %rax
	movq $86, %rax
	movq $87, %rax
	movq $88, %rax
	movq $89, %rax
	movq $90, %rax
	movq $91, %rax
	movq $92, %rax
	movq $93, %rax
	movq $94, %rax
	movq $95, %rax
	movq $96, %rax
	movq $97, %rax
	movq $98, %rax
	movq $99, %rax
	movq $100, %rax
	movq $101, %rax
	movq $102, %rax
	movq $103, %rax
	movq $104, %rax
	movq $105, %rax
	movq $106, %rax
	movq $107, %rax
	movq $108, %rax
	movq $109, %rax
	movq $110, %rax
	movq $111, %rax
	movq $112, %rax
	movq $113, %rax
	movq $114, %rax
	movq $115, %rax
	movq $116, %rax
	movq $117, %rax
	movq $118, %rax
	movq $119, %rax
	movq $120, %rax
	movq $121, %rax
	movq $122, %rax
	movq $123, %rax
	movq $124, %rax
	movq $125, %rax
	movq $126, %rax
	movq $127, %rax
	movq $128, %rax
	movq $129, %rax
	movq $130, %rax
	movq $131, %rax
	movq $132, %rax
	movq $133, %rax
	movq $134, %rax
	movq $135, %rax
	movq $136, %rax
	movq $137, %rax
	movq $138, %rax
	movq $139, %rax
	movq $140, %rax
	movq $141, %rax
	movq $142, %rax
	movq $143, %rax
	movq $144, %rax
	movq $145, %rax
	movq $146, %rax
	movq $147, %rax
	movq $148, %rax
	movq $149, %rax
	movq $150, %rax
	movq $151, %rax
	movq $152, %rax
	movq $153, %rax
	movq $154, %rax
	movq $155, %rax
	movq $156, %rax
	movq $157, %rax
	movq $158, %rax
	movq $159, %rax
	movq $160, %rax
	movq $161, %rax
	movq $162, %rax
	movq $163, %rax
	movq $164, %rax
	movq $165, %rax
	movq $166, %rax
	movq $167, %rax
	movq $168, %rax
	movq $169, %rax
	movq $170, %rax
	movq $171, %rax
	movq $172, %rax
	movq $173, %rax
	movq $174, %rax
	movq $175, %rax
	movq $176, %rax
	movq $177, %rax
	movq $178, %rax
	movq $179, %rax
	movq $180, %rax
	movq $181, %rax
	movq $182, %rax
	movq $183, %rax
	movq $184, %rax
	movq $185, %rax
	movq $186, %rax
	movq $187, %rax
	movq $188, %rax
	movq $189, %rax
	movq $190, %rax
	movq $191, %rax
	movq $192, %rax
	movq $193, %rax
	movq $194, %rax
	movq $195, %rax
	movq $196, %rax
	movq $197, %rax
	movq $198, %rax
	movq $199, %rax
	movq $200, %rax
	movq $201, %rax
	movq $202, %rax
	movq $203, %rax
	movq $204, %rax
	movq $205, %rax
	movq $206, %rax
	movq $207, %rax
	movq $208, %rax
	movq $209, %rax
	movq $210, %rax
	movq $211, %rax
	movq $212, %rax
	movq $213, %rax
	movq $214, %rax
	movq $215, %rax
	movq $216, %rax
	movq $217, %rax
	movq $218, %rax
	movq $219, %rax
	movq $220, %rax
	movq $221, %rax
	movq $222, %rax
	movq $223, %rax
	movq $224, %rax
	movq $225, %rax
	movq $226, %rax
	movq $227, %rax
	movq $228, %rax
	movq $229, %rax
	movq $230, %rax
	movq $231, %rax
	movq $232, %rax
	movq $233, %rax
	movq $234, %rax
	movq $235, %rax
	movq $236, %rax
	movq $237, %rax
	movq $238, %rax
	movq $239, %rax
	movq $240, %rax
	movq $241, %rax
	movq $242, %rax
	movq $243, %rax
	movq $244, %rax
	movq $245, %rax
	movq $246, %rax
	movq $247, %rax
	movq $248, %rax
	movq $249, %rax
	movq $250, %rax
	movq $251, %rax
	movq $252, %rax
	movq $253, %rax
	movq $254, %rax
	retq
	.seh_endproc
	.p2align 4, 0xCC
	.seh_proc f2
f2:
	.seh_endprologue
	movq $0, %rax
	movq $1, %rax
	movq $2, %rax
	movq $3, %rax
	movq $4, %rax
	movq $5, %rax
	movq $6, %rax
	movq $7, %rax
	movq $8, %rax
	movq $9, %rax
	movq $10, %rax
	movq $11, %rax
	movq $12, %rax
	movq $13, %rax
	movq $14, %rax
	movq $15, %rax
	movq $16, %rax
	movq $17, %rax
	movq $18, %rax
	movq $19, %rax
	movq $20, %rax
	movq $21, %rax
	movq $22, %rax
	movq $23, %rax
	movq $24, %rax
	movq $25, %rax
	movq $26, %rax
	movq $27, %rax
	movq $28, %rax
	movq $29, %rax
	movq $30, %rax
	movq $31, %rax
	movq $32, %rax
	movq $33, %rax
	movq $34, %rax
	movq $35, %rax
	movq $36, %rax
	movq $37, %rax
	movq $38, %rax
	movq $39, %rax
	movq $40, %rax
	movq $41, %rax
	movq $42, %rax
	movq $43, %rax
	movq $44, %rax
	movq $45, %rax
	movq $46, %rax
	movq $47, %rax
	movq $48, %rax
	movq $49, %rax
	movq $50, %rax
	movq $51, %rax
	movq $52, %rax
	movq $53, %rax
	movq $54, %rax
	movq $55, %rax
	movq $56, %rax
	movq $57, %rax
	movq $58, %rax
	movq $59, %rax
	movq $60, %rax
	movq $61, %rax
	movq $62, %rax
	movq $63, %rax
	movq $64, %rax
	movq $65, %rax
	movq $66, %rax
	movq $67, %rax
	movq $68, %rax
	movq $69, %rax
	movq $70, %rax
	movq $71, %rax
	movq $72, %rax
	nop
	retq
	.seh_endproc

# 255 operations
	.text
	.seh_proc f0
f0:
	.seh_endprologue
	nop
	nop
	nop
	nop
	nop
	nop
	nop
	nop
	nop
	nop
	nop
	nop
	nop
	nop
	nop
	nop
	nop
	nop
	nop
	nop
	nop
	nop
	nop
	nop
	nop
	nop
	nop
	nop
	nop
	nop
	nop
	nop
	nop
	nop
	nop
	nop
	nop
	nop
	nop
	nop
	nop
	nop
	nop
	nop
	nop
	nop
	nop
	nop
	nop
	nop
	nop
	nop
	nop
	nop
	nop
	nop
	nop
	nop
	nop
	nop
	nop
	nop
	nop
	nop
	nop
	nop
	nop
	nop
	nop
	nop
	nop
	nop
	nop
	nop
	nop
	nop
	nop
	nop
	nop
	nop
	nop
	nop
	nop
	nop
	nop
	nop
	nop
	nop
	nop
	nop
	nop
	nop
	nop
	nop
	nop
	nop
	nop
	nop
	nop
	nop
	nop
	nop
	nop
	nop
	nop
	nop
	nop
	nop
	nop
	nop
	nop
	nop
	nop
	nop
	nop
	nop
	nop
	nop
	nop
	nop
	nop
	nop
	nop
	nop
	nop
	nop
	nop
	nop
	nop
	nop
	nop
	nop
	nop
	nop
	nop
	nop
	nop
	nop
	nop
	nop
	nop
	nop
	nop
	nop
	nop
	nop
	nop
	nop
	nop
	nop
	nop
	nop
	nop
	nop
	nop
	nop
	nop
	nop
	nop
	nop
	nop
	nop
	nop
	nop
	nop
	nop
	nop
	nop
	nop
	nop
	nop
	nop
	nop
	nop
	nop
	nop
	nop
	nop
	nop
	nop
	nop
	nop
	nop
	nop
	nop
	nop
	nop
	nop
	nop
	nop
	nop
	nop
	nop
	nop
	nop
	nop
	nop
	nop
	nop
	nop
	nop
	nop
	nop
	nop
	nop
	nop
	nop
	nop
	nop
	nop
	nop
	nop
	nop
	nop
	nop
	nop
	nop
	nop
	nop
	nop
	nop
	nop
	nop
	nop
	nop
	nop
	nop
	nop
	nop
	nop
	nop
	nop
	nop
	nop
	nop
	nop
	nop
	nop
	nop
	nop
	nop
	nop
	nop
	nop
	nop
	nop
	nop
	nop
	nop
	nop
	nop
	nop
	nop
	nop
	nop
	retq
	.seh_endproc

# 64 functions without steps
	.text
	.seh_proc f0
f0:
	.seh_endprologue
	retq
	.seh_endproc
	.p2align 4, 0xCC
	.seh_proc f1
f1:
	.seh_endprologue
	retq
	.seh_endproc
	.p2align 4, 0xCC
	.seh_proc f2
f2:
	.seh_endprologue
	retq
	.seh_endproc
	.p2align 4, 0xCC
	.seh_proc f3
f3:
	.seh_endprologue
	retq
	.seh_endproc
	.p2align 4, 0xCC
	.seh_proc f4
f4:
	.seh_endprologue
	retq
	.seh_endproc
	.p2align 4, 0xCC
	.seh_proc f5
f5:
	.seh_endprologue
	retq
	.seh_endproc
	.p2align 4, 0xCC
	.seh_proc f6
f6:
	.seh_endprologue
	retq
	.seh_endproc
	.p2align 4, 0xCC
	.seh_proc f7
f7:
	.seh_endprologue
	retq
	.seh_endproc
	.p2align 4, 0xCC
	.seh_proc f8
f8:
	.seh_endprologue
	retq
	.seh_endproc
	.p2align 4, 0xCC
	.seh_proc f9
f9:
	.seh_endprologue
	retq
	.seh_endproc
	.p2align 4, 0xCC
	.seh_proc f10
f10:
	.seh_endprologue
	retq
	.seh_endproc
	.p2align 4, 0xCC
	.seh_proc f11
f11:
	.seh_endprologue
	retq
	.seh_endproc
	.p2align 4, 0xCC
	.seh_proc f12
f12:
	.seh_endprologue
	retq
	.seh_endproc
	.p2align 4, 0xCC
	.seh_proc f13
f13:
	.seh_endprologue
	retq
	.seh_endproc
	.p2align 4, 0xCC
	.seh_proc f14
f14:
	.seh_endprologue
	retq
	.seh_endproc
	.p2align 4, 0xCC
	.seh_proc f15
f15:
	.seh_endprologue
	retq
	.seh_endproc
	.p2align 4, 0xCC
	.seh_proc f16
f16:
	.seh_endprologue
	retq
	.seh_endproc
	.p2align 4, 0xCC
	.seh_proc f17
f17:
	.seh_endprologue
	retq
	.seh_endproc
	.p2align 4, 0xCC
	.seh_proc f18
f18:
	.seh_endprologue
	retq
	.seh_endproc
	.p2align 4, 0xCC
	.seh_proc f19
f19:
	.seh_endprologue
	retq
	.seh_endproc
	.p2align 4, 0xCC
	.seh_proc f20
f20:
	.seh_endprologue
	retq
	.seh_endproc
	.p2align 4, 0xCC
	.seh_proc f21
f21:
	.seh_endprologue
	retq
	.seh_endproc
	.p2align 4, 0xCC
	.seh_proc f22
f22:
	.seh_endprologue
	retq
	.seh_endproc
	.p2align 4, 0xCC
	.seh_proc f23
f23:
	.seh_endprologue
	retq
	.seh_endproc
	.p2align 4, 0xCC
	.seh_proc f24
f24:
	.seh_endprologue
	retq
	.seh_endproc
	.p2align 4, 0xCC
	.seh_proc f25
f25:
	.seh_endprologue
	retq
	.seh_endproc
	.p2align 4, 0xCC
	.seh_proc f26
f26:
	.seh_endprologue
	retq
	.seh_endproc
	.p2align 4, 0xCC
	.seh_proc f27
f27:
	.seh_endprologue
	retq
	.seh_endproc
	.p2align 4, 0xCC
	.seh_proc f28
f28:
	.seh_endprologue
	retq
	.seh_endproc
	.p2align 4, 0xCC
	.seh_proc f29
f29:
	.seh_endprologue
	retq
	.seh_endproc
	.p2align 4, 0xCC
	.seh_proc f30
f30:
	.seh_endprologue
	retq
	.seh_endproc
	.p2align 4, 0xCC
	.seh_proc f31
f31:
	.seh_endprologue
	retq
	.seh_endproc
	.p2align 4, 0xCC
	.seh_proc f32
f32:
	.seh_endprologue
	retq
	.seh_endproc
	.p2align 4, 0xCC
	.seh_proc f33
f33:
	.seh_endprologue
	retq
	.seh_endproc
	.p2align 4, 0xCC
	.seh_proc f34
f34:
	.seh_endprologue
	retq
	.seh_endproc
	.p2align 4, 0xCC
	.seh_proc f35
f35:
	.seh_endprologue
	retq
	.seh_endproc
	.p2align 4, 0xCC
	.seh_proc f36
f36:
	.seh_endprologue
	retq
	.seh_endproc
	.p2align 4, 0xCC
	.seh_proc f37
f37:
	.seh_endprologue
	retq
	.seh_endproc
	.p2align 4, 0xCC
	.seh_proc f38
f38:
	.seh_endprologue
	retq
	.seh_endproc
	.p2align 4, 0xCC
	.seh_proc f39
f39:
	.seh_endprologue
	retq
	.seh_endproc
	.p2align 4, 0xCC
	.seh_proc f40
f40:
	.seh_endprologue
	retq
	.seh_endproc
	.p2align 4, 0xCC
	.seh_proc f41
f41:
	.seh_endprologue
	retq
	.seh_endproc
	.p2align 4, 0xCC
	.seh_proc f42
f42:
	.seh_endprologue
	retq
	.seh_endproc
	.p2align 4, 0xCC
	.seh_proc f43
f43:
	.seh_endprologue
	retq
	.seh_endproc
	.p2align 4, 0xCC
	.seh_proc f44
f44:
	.seh_endprologue
	retq
	.seh_endproc
	.p2align 4, 0xCC
	.seh_proc f45
f45:
	.seh_endprologue
	retq
	.seh_endproc
	.p2align 4, 0xCC
	.seh_proc f46
f46:
	.seh_endprologue
	retq
	.seh_endproc
	.p2align 4, 0xCC
	.seh_proc f47
f47:
	.seh_endprologue
	retq
	.seh_endproc
	.p2align 4, 0xCC
	.seh_proc f48
f48:
	.seh_endprologue
	retq
	.seh_endproc
	.p2align 4, 0xCC
	.seh_proc f49
f49:
	.seh_endprologue
	retq
	.seh_endproc
	.p2align 4, 0xCC
	.seh_proc f50
f50:
	.seh_endprologue
	retq
	.seh_endproc
	.p2align 4, 0xCC
	.seh_proc f51
f51:
	.seh_endprologue
	retq
	.seh_endproc
	.p2align 4, 0xCC
	.seh_proc f52
f52:
	.seh_endprologue
	retq
	.seh_endproc
	.p2align 4, 0xCC
	.seh_proc f53
f53:
	.seh_endprologue
	retq
	.seh_endproc
	.p2align 4, 0xCC
	.seh_proc f54
f54:
	.seh_endprologue
	retq
	.seh_endproc
	.p2align 4, 0xCC
	.seh_proc f55
f55:
	.seh_endprologue
	retq
	.seh_endproc
	.p2align 4, 0xCC
	.seh_proc f56
f56:
	.seh_endprologue
	retq
	.seh_endproc
	.p2align 4, 0xCC
	.seh_proc f57
f57:
	.seh_endprologue
	retq
	.seh_endproc
	.p2align 4, 0xCC
	.seh_proc f58
f58:
	.seh_endprologue
	retq
	.seh_endproc
	.p2align 4, 0xCC
	.seh_proc f59
f59:
	.seh_endprologue
	retq
	.seh_endproc
	.p2align 4, 0xCC
	.seh_proc f60
f60:
	.seh_endprologue
	retq
	.seh_endproc
	.p2align 4, 0xCC
	.seh_proc f61
f61:
	.seh_endprologue
	retq
	.seh_endproc
	.p2align 4, 0xCC
	.seh_proc f62
f62:
	.seh_endprologue
	retq
	.seh_endproc
	.p2align 4, 0xCC
	.seh_proc f63
f63:
	.seh_endprologue
	retq
	.seh_endproc

# 64 functions, each of which calls the next
	.text
	.seh_proc f0
f0:
	subq $40, %rsp
	.seh_stackalloc 40
	.seh_endprologue
	callq f1
	addq $40, %rsp
	retq
	.seh_endproc
	.p2align 4, 0xCC
	.seh_proc f1
f1:
	subq $40, %rsp
	.seh_stackalloc 40
	.seh_endprologue
	callq f2
	addq $40, %rsp
	retq
	.seh_endproc
	.p2align 4, 0xCC
	.seh_proc f2
f2:
	subq $40, %rsp
	.seh_stackalloc 40
	.seh_endprologue
	callq f3
	addq $40, %rsp
	retq
	.seh_endproc
	.p2align 4, 0xCC
	.seh_proc f3
f3:
	subq $40, %rsp
	.seh_stackalloc 40
	.seh_endprologue
	callq f4
	addq $40, %rsp
	retq
	.seh_endproc
	.p2align 4, 0xCC
	.seh_proc f4
f4:
	subq $40, %rsp
	.seh_stackalloc 40
	.seh_endprologue
	callq f5
	addq $40, %rsp
	retq
	.seh_endproc
	.p2align 4, 0xCC
	.seh_proc f5
f5:
	subq $40, %rsp
	.seh_stackalloc 40
	.seh_endprologue
	callq f6
	addq $40, %rsp
	retq
	.seh_endproc
	.p2align 4, 0xCC
	.seh_proc f6
f6:
	subq $40, %rsp
	.seh_stackalloc 40
	.seh_endprologue
	callq f7
	addq $40, %rsp
	retq
	.seh_endproc
	.p2align 4, 0xCC
	.seh_proc f7
f7:
	subq $40, %rsp
	.seh_stackalloc 40
	.seh_endprologue
	callq f8
	addq $40, %rsp
	retq
	.seh_endproc
	.p2align 4, 0xCC
	.seh_proc f8
f8:
	subq $40, %rsp
	.seh_stackalloc 40
	.seh_endprologue
	callq f9
	addq $40, %rsp
	retq
	.seh_endproc
	.p2align 4, 0xCC
	.seh_proc f9
f9:
	subq $40, %rsp
	.seh_stackalloc 40
	.seh_endprologue
	callq f10
	addq $40, %rsp
	retq
	.seh_endproc
	.p2align 4, 0xCC
	.seh_proc f10
f10:
	subq $40, %rsp
	.seh_stackalloc 40
	.seh_endprologue
	callq f11
	addq $40, %rsp
	retq
	.seh_endproc
	.p2align 4, 0xCC
	.seh_proc f11
f11:
	subq $40, %rsp
	.seh_stackalloc 40
	.seh_endprologue
	callq f12
	addq $40, %rsp
	retq
	.seh_endproc
	.p2align 4, 0xCC
	.seh_proc f12
f12:
	subq $40, %rsp
	.seh_stackalloc 40
	.seh_endprologue
	callq f13
	addq $40, %rsp
	retq
	.seh_endproc
	.p2align 4, 0xCC
	.seh_proc f13
f13:
	subq $40, %rsp
	.seh_stackalloc 40
	.seh_endprologue
	callq f14
	addq $40, %rsp
	retq
	.seh_endproc
	.p2align 4, 0xCC
	.seh_proc f14
f14:
	subq $40, %rsp
	.seh_stackalloc 40
	.seh_endprologue
	callq f15
	addq $40, %rsp
	retq
	.seh_endproc
	.p2align 4, 0xCC
	.seh_proc f15
f15:
	subq $40, %rsp
	.seh_stackalloc 40
	.seh_endprologue
	callq f16
	addq $40, %rsp
	retq
	.seh_endproc
	.p2align 4, 0xCC
	.seh_proc f16
f16:
	subq $40, %rsp
	.seh_stackalloc 40
	.seh_endprologue
	callq f17
	addq $40, %rsp
	retq
	.seh_endproc
	.p2align 4, 0xCC
	.seh_proc f17
f17:
	subq $40, %rsp
	.seh_stackalloc 40
	.seh_endprologue
	callq f18
	addq $40, %rsp
	retq
	.seh_endproc
	.p2align 4, 0xCC
	.seh_proc f18
f18:
	subq $40, %rsp
	.seh_stackalloc 40
	.seh_endprologue
	callq f19
	addq $40, %rsp
	retq
	.seh_endproc
	.p2align 4, 0xCC
	.seh_proc f19
f19:
	subq $40, %rsp
	.seh_stackalloc 40
	.seh_endprologue
	callq f20
	addq $40, %rsp
	retq
	.seh_endproc
	.p2align 4, 0xCC
	.seh_proc f20
f20:
	subq $40, %rsp
	.seh_stackalloc 40
	.seh_endprologue
	callq f21
	addq $40, %rsp
	retq
	.seh_endproc
	.p2align 4, 0xCC
	.seh_proc f21
f21:
	subq $40, %rsp
	.seh_stackalloc 40
	.seh_endprologue
	callq f22
	addq $40, %rsp
	retq
	.seh_endproc
	.p2align 4, 0xCC
	.seh_proc f22
f22:
	subq $40, %rsp
	.seh_stackalloc 40
	.seh_endprologue
	callq f23
	addq $40, %rsp
	retq
	.seh_endproc
	.p2align 4, 0xCC
	.seh_proc f23
f23:
	subq $40, %rsp
	.seh_stackalloc 40
	.seh_endprologue
	callq f24
	addq $40, %rsp
	retq
	.seh_endproc
	.p2align 4, 0xCC
	.seh_proc f24
f24:
	subq $40, %rsp
	.seh_stackalloc 40
	.seh_endprologue
	callq f25
	addq $40, %rsp
	retq
	.seh_endproc
	.p2align 4, 0xCC
	.seh_proc f25
f25:
	subq $40, %rsp
	.seh_stackalloc 40
	.seh_endprologue
	callq f26
	addq $40, %rsp
	retq
	.seh_endproc
	.p2align 4, 0xCC
	.seh_proc f26
f26:
	subq $40, %rsp
	.seh_stackalloc 40
	.seh_endprologue
	callq f27
	addq $40, %rsp
	retq
	.seh_endproc
	.p2align 4, 0xCC
	.seh_proc f27
f27:
	subq $40, %rsp
	.seh_stackalloc 40
	.seh_endprologue
	callq f28
	addq $40, %rsp
	retq
	.seh_endproc
	.p2align 4, 0xCC
	.seh_proc f28
f28:
	subq $40, %rsp
	.seh_stackalloc 40
	.seh_endprologue
	callq f29
	addq $40, %rsp
	retq
	.seh_endproc
	.p2align 4, 0xCC
	.seh_proc f29
f29:
	subq $40, %rsp
	.seh_stackalloc 40
	.seh_endprologue
	callq f30
	addq $40, %rsp
	retq
	.seh_endproc
	.p2align 4, 0xCC
	.seh_proc f30
f30:
	subq $40, %rsp
	.seh_stackalloc 40
	.seh_endprologue
	callq f31
	addq $40, %rsp
	retq
	.seh_endproc
	.p2align 4, 0xCC
	.seh_proc f31
f31:
	subq $40, %rsp
	.seh_stackalloc 40
	.seh_endprologue
	callq f32
	addq $40, %rsp
	retq
	.seh_endproc
	.p2align 4, 0xCC
	.seh_proc f32
f32:
	subq $40, %rsp
	.seh_stackalloc 40
	.seh_endprologue
	callq f33
	addq $40, %rsp
	retq
	.seh_endproc
	.p2align 4, 0xCC
	.seh_proc f33
f33:
	subq $40, %rsp
	.seh_stackalloc 40
	.seh_endprologue
	callq f34
	addq $40, %rsp
	retq
	.seh_endproc
	.p2align 4, 0xCC
	.seh_proc f34
f34:
	subq $40, %rsp
	.seh_stackalloc 40
	.seh_endprologue
	callq f35
	addq $40, %rsp
	retq
	.seh_endproc
	.p2align 4, 0xCC
	.seh_proc f35
f35:
	subq $40, %rsp
	.seh_stackalloc 40
	.seh_endprologue
	callq f36
	addq $40, %rsp
	retq
	.seh_endproc
	.p2align 4, 0xCC
	.seh_proc f36
f36:
	subq $40, %rsp
	.seh_stackalloc 40
	.seh_endprologue
	callq f37
	addq $40, %rsp
	retq
	.seh_endproc
	.p2align 4, 0xCC
	.seh_proc f37
f37:
	subq $40, %rsp
	.seh_stackalloc 40
	.seh_endprologue
	callq f38
	addq $40, %rsp
	retq
	.seh_endproc
	.p2align 4, 0xCC
	.seh_proc f38
f38:
	subq $40, %rsp
	.seh_stackalloc 40
	.seh_endprologue
	callq f39
	addq $40, %rsp
	retq
	.seh_endproc
	.p2align 4, 0xCC
	.seh_proc f39
f39:
	subq $40, %rsp
	.seh_stackalloc 40
	.seh_endprologue
	callq f40
	addq $40, %rsp
	retq
	.seh_endproc
	.p2align 4, 0xCC
	.seh_proc f40
f40:
	subq $40, %rsp
	.seh_stackalloc 40
	.seh_endprologue
	callq f41
	addq $40, %rsp
	retq
	.seh_endproc
	.p2align 4, 0xCC
	.seh_proc f41
f41:
	subq $40, %rsp
	.seh_stackalloc 40
	.seh_endprologue
	callq f42
	addq $40, %rsp
	retq
	.seh_endproc
	.p2align 4, 0xCC
	.seh_proc f42
f42:
	subq $40, %rsp
	.seh_stackalloc 40
	.seh_endprologue
	callq f43
	addq $40, %rsp
	retq
	.seh_endproc
	.p2align 4, 0xCC
	.seh_proc f43
f43:
	subq $40, %rsp
	.seh_stackalloc 40
	.seh_endprologue
	callq f44
	addq $40, %rsp
	retq
	.seh_endproc
	.p2align 4, 0xCC
	.seh_proc f44
f44:
	subq $40, %rsp
	.seh_stackalloc 40
	.seh_endprologue
	callq f45
	addq $40, %rsp
	retq
	.seh_endproc
	.p2align 4, 0xCC
	.seh_proc f45
f45:
	subq $40, %rsp
	.seh_stackalloc 40
	.seh_endprologue
	callq f46
	addq $40, %rsp
	retq
	.seh_endproc
	.p2align 4, 0xCC
	.seh_proc f46
f46:
	subq $40, %rsp
	.seh_stackalloc 40
	.seh_endprologue
	callq f47
	addq $40, %rsp
	retq
	.seh_endproc
	.p2align 4, 0xCC
	.seh_proc f47
f47:
	subq $40, %rsp
	.seh_stackalloc 40
	.seh_endprologue
	callq f48
	addq $40, %rsp
	retq
	.seh_endproc
	.p2align 4, 0xCC
	.seh_proc f48
f48:
	subq $40, %rsp
	.seh_stackalloc 40
	.seh_endprologue
	callq f49
	addq $40, %rsp
	retq
	.seh_endproc
	.p2align 4, 0xCC
	.seh_proc f49
f49:
	subq $40, %rsp
	.seh_stackalloc 40
	.seh_endprologue
	callq f50
	addq $40, %rsp
	retq
	.seh_endproc
	.p2align 4, 0xCC
	.seh_proc f50
f50:
	subq $40, %rsp
	.seh_stackalloc 40
	.seh_endprologue
	callq f51
	addq $40, %rsp
	retq
	.seh_endproc
	.p2align 4, 0xCC
	.seh_proc f51
f51:
	subq $40, %rsp
	.seh_stackalloc 40
	.seh_endprologue
	callq f52
	addq $40, %rsp
	retq
	.seh_endproc
	.p2align 4, 0xCC
	.seh_proc f52
f52:
	subq $40, %rsp
	.seh_stackalloc 40
	.seh_endprologue
	callq f53
	addq $40, %rsp
	retq
	.seh_endproc
	.p2align 4, 0xCC
	.seh_proc f53
f53:
	subq $40, %rsp
	.seh_stackalloc 40
	.seh_endprologue
	callq f54
	addq $40, %rsp
	retq
	.seh_endproc
	.p2align 4, 0xCC
	.seh_proc f54
f54:
	subq $40, %rsp
	.seh_stackalloc 40
	.seh_endprologue
	callq f55
	addq $40, %rsp
	retq
	.seh_endproc
	.p2align 4, 0xCC
	.seh_proc f55
f55:
	subq $40, %rsp
	.seh_stackalloc 40
	.seh_endprologue
	callq f56
	addq $40, %rsp
	retq
	.seh_endproc
	.p2align 4, 0xCC
	.seh_proc f56
f56:
	subq $40, %rsp
	.seh_stackalloc 40
	.seh_endprologue
	callq f57
	addq $40, %rsp
	retq
	.seh_endproc
	.p2align 4, 0xCC
	.seh_proc f57
f57:
	subq $40, %rsp
	.seh_stackalloc 40
	.seh_endprologue
	callq f58
	addq $40, %rsp
	retq
	.seh_endproc
	.p2align 4, 0xCC
	.seh_proc f58
f58:
	subq $40, %rsp
	.seh_stackalloc 40
	.seh_endprologue
	callq f59
	addq $40, %rsp
	retq
	.seh_endproc
	.p2align 4, 0xCC
	.seh_proc f59
f59:
	subq $40, %rsp
	.seh_stackalloc 40
	.seh_endprologue
	callq f60
	addq $40, %rsp
	retq
	.seh_endproc
	.p2align 4, 0xCC
	.seh_proc f60
f60:
	subq $40, %rsp
	.seh_stackalloc 40
	.seh_endprologue
	callq f61
	addq $40, %rsp
	retq
	.seh_endproc
	.p2align 4, 0xCC
	.seh_proc f61
f61:
	subq $40, %rsp
	.seh_stackalloc 40
	.seh_endprologue
	callq f62
	addq $40, %rsp
	retq
	.seh_endproc
	.p2align 4, 0xCC
	.seh_proc f62
f62:
	subq $40, %rsp
	.seh_stackalloc 40
	.seh_endprologue
	callq f63
	addq $40, %rsp
	retq
	.seh_endproc
	.p2align 4, 0xCC
	.seh_proc f63
f63:
	subq $40, %rsp
	.seh_stackalloc 40
	.seh_endprologue
	callq f0
	addq $40, %rsp
	retq
	.seh_endproc

# random modules
	.text
	.seh_proc f0
f0:
	subq $24, %rsp
	.seh_stackalloc 24
	.seh_endprologue
	movq $127, %r8
	addq $24, %rsp
	retq
	.seh_endproc

	.text
	.seh_proc f0
f0:
	pushq %r14
	.seh_pushreg %r14
	pushq %r12
	.seh_pushreg %r12
	subq $40, %rsp
	.seh_stackalloc 40
	leaq 32(%rsp), %r14
	.seh_setframe %r14, 32
	.seh_endprologue
	callq f0
	movq $-2147483647, %r9
	movq $0, %r8
	leaq 8(%r14), %rsp
	popq %r12
	popq %r14
	retq
	.seh_endproc

	.text
	.seh_proc f0
f0:
	pushq %r15
	.seh_pushreg %r15
	pushq %r13
	.seh_pushreg %r13
	pushq %rbx
	.seh_pushreg %rbx
	pushq %rdi
	.seh_pushreg %rdi
	subq $2097144, %rsp
	.seh_stackalloc 2097144
	movq %r14, 120(%rsp)
	.seh_savereg %r14, 120
	movq %rbp, 108728(%rsp)
	.seh_savereg %rbp, 108728
	leaq 208(%rsp), %rbx
	.seh_setframe %rbx, 208
	.seh_endprologue
	nop
	movq 108520(%rbx), %rbp
	movq -88(%rbx), %r14
	leaq 2096936(%rbx), %rsp
	popq %rdi
	popq %rbx
	popq %r13
	popq %r15
	retq
	.seh_endproc

	.text
	.seh_proc f0
f0:
	pushq %r15
	.seh_pushreg %r15
	subq $120, %rsp
	.seh_stackalloc 120
	movq %rbp, 24(%rsp)
	.seh_savereg %rbp, 24
	leaq 32(%rsp), %r15
	.seh_setframe %r15, 32
	movq %r14, 8(%rsp)
	.seh_savereg %r14, 8
	.seh_endprologue
	nop
	nop
	movq $-1, %r8
	movq -24(%r15), %r14
	movq -8(%r15), %rbp
	leaq 88(%r15), %rsp
	popq %r15
	retq
	.seh_endproc

	.text
	.seh_proc f0
f0:
	pushq %r12
	.seh_pushreg %r12
	subq $144, %rsp
	.seh_stackalloc 144
	movq %rbp, 32(%rsp)
	.seh_savereg %rbp, 32
	movq %rbx, 40(%rsp)
	.seh_savereg %rbx, 40
	movq %r13, 136(%rsp)
	.seh_savereg %r13, 136
	movq %rdi, 120(%rsp)
	.seh_savereg %rdi, 120
	movq %r14, 112(%rsp)
	.seh_savereg %r14, 112
	movq %r15, 128(%rsp)
	.seh_savereg %r15, 128
	movq %rsi, 80(%rsp)
	.seh_savereg %rsi, 80
	.seh_endprologue
	movq $-2147483648, %rbx
	nop
	movq 80(%rsp), %rsi
	movq 128(%rsp), %r15
	movq 112(%rsp), %r14
	movq 120(%rsp), %rdi
	movq 136(%rsp), %r13
	movq 40(%rsp), %rbx
	movq 32(%rsp), %rbp
	addq $144, %rsp
	popq %r12
	retq
	.seh_endproc

	.text
	.seh_proc f0
f0:
	pushq %r12
	.seh_pushreg %r12
	subq $144, %rsp
	.seh_stackalloc 144
	.seh_endprologue
	callq f0
	addq $144, %rsp
	popq %r12
	retq
	.seh_endproc

	.text
	.seh_proc f0
f0:
	pushq %rbp
	.seh_pushreg %rbp
	pushq %r13
	.seh_pushreg %r13
	subq $240, %rsp
	.seh_stackalloc 240
	movq %rdi, 136(%rsp)
	.seh_savereg %rdi, 136
	movq %rbx, 120(%rsp)
	.seh_savereg %rbx, 120
	leaq 32(%rsp), %r13
	.seh_setframe %r13, 32
	.seh_endprologue
	subq $144, %rsp
	nop
	subq $65520, %rsp
	movq $128, %r8
	subq $4096, %rsp
	movq 88(%r13), %rbx
	movq 104(%r13), %rdi
	leaq 208(%r13), %rsp
	popq %r13
	popq %rbp
	retq
	.seh_endproc

	.text
	.seh_proc f0
f0:
	pushq %r13
	.seh_pushreg %r13
	pushq %rdi
	.seh_pushreg %rdi
	pushq %r12
	.seh_pushreg %r12
	pushq %r14
	.seh_pushreg %r14
	pushq %r15
	.seh_pushreg %r15
	pushq %rbp
	.seh_pushreg %rbp
	pushq %rsi
	.seh_pushreg %rsi
	pushq %rbx
	.seh_pushreg %rbx
	subq $524264, %rsp
	.seh_stackalloc 524264
	leaq 176(%rsp), %rdi
	.seh_setframe %rdi, 176
	.seh_endprologue
	callq f0
	callq f0
	callq f0
	leaq 524088(%rdi), %rsp
	popq %rbx
	popq %rsi
	popq %rbp
	popq %r15
	popq %r14
	popq %r12
	popq %rdi
	popq %r13
	retq
	.seh_endproc

	.text
	.seh_proc f0
f0:
	pushq %r15
	.seh_pushreg %r15
	pushq %r12
	.seh_pushreg %r12
	pushq %rbx
	.seh_pushreg %rbx
	subq $256, %rsp
	.seh_stackalloc 256
	movq %r13, 224(%rsp)
	.seh_savereg %r13, 224
	movq %rbp, 32(%rsp)
	.seh_savereg %rbp, 32
	movq %r14, 120(%rsp)
	.seh_savereg %r14, 120
	.seh_endprologue
	movq $-1, %r12
	movq $1761949536, %rax
	movq $-968011554, %r10
	movq $128, %rcx
	nop
	movq 120(%rsp), %r14
	movq 32(%rsp), %rbp
	movq 224(%rsp), %r13
	addq $256, %rsp
	popq %rbx
	popq %r12
	popq %r15
	retq
	.seh_endproc

	.text
	.seh_proc f0
f0:
	pushq %r14
	.seh_pushreg %r14
	pushq %rsi
	.seh_pushreg %rsi
	pushq %r15
	.seh_pushreg %r15
	pushq %r13
	.seh_pushreg %r13
	subq $264, %rsp
	.seh_stackalloc 264
	leaq 208(%rsp), %r15
	.seh_setframe %r15, 208
	.seh_endprologue
	subq $44928, %rsp
	subq $112, %rsp
	movq $1, %r8
	movq $1, %r14
	movq $-2147483647, %rsi
	movq $-129, %r8
	subq $4096, %rsp
	callq f0
	callq f0
	leaq 56(%r15), %rsp
	popq %r13
	popq %r15
	popq %rsi
	popq %r14
	retq
	.seh_endproc

	.text
	.seh_proc f0
f0:
	pushq %rdi
	.seh_pushreg %rdi
	subq $56, %rsp
	.seh_stackalloc 56
	leaq 16(%rsp), %rdi
	.seh_setframe %rdi, 16
	.seh_endprologue
	subq $32, %rsp
	movq $65536, %r9
	subq $16, %rsp
	leaq 40(%rdi), %rsp
	popq %rdi
	retq
	.seh_endproc

	.text
	.seh_proc f0
f0:
	pushq %r12
	.seh_pushreg %r12
	subq $240, %rsp
	.seh_stackalloc 240
	.seh_endprologue
	movq $-293357797, %r12
	addq $240, %rsp
	popq %r12
	retq
	.seh_endproc

	.text
	.seh_proc f0
f0:
	pushq %rbp
	.seh_pushreg %rbp
	pushq %r14
	.seh_pushreg %r14
	subq $2097144, %rsp
	.seh_stackalloc 2097144
	leaq 144(%rsp), %rbp
	.seh_setframe %rbp, 144
	movq %r15, 112(%rsp)
	.seh_savereg %r15, 112
	.seh_endprologue
	movq -32(%rbp), %r15
	leaq 2097000(%rbp), %rsp
	popq %r14
	popq %rbp
	retq
	.seh_endproc

	.text
	.seh_proc f0
f0:
	subq $2097144, %rsp
	.seh_stackalloc 2097144
	movq %r15, 524280(%rsp)
	.seh_savereg %r15, 524280
	movq %r12, 1991568(%rsp)
	.seh_savereg %r12, 1991568
	.seh_endprologue
	movq $-128, %r15
	movq 1991568(%rsp), %r12
	movq 524280(%rsp), %r15
	addq $2097144, %rsp
	retq
	.seh_endproc

	.text
	.seh_proc f0
f0:
	pushq %rsi
	.seh_pushreg %rsi
	pushq %r15
	.seh_pushreg %r15
	subq $524264, %rsp
	.seh_stackalloc 524264
	leaq 16(%rsp), %rsi
	.seh_setframe %rsi, 16
	movq %r14, 524248(%rsp)
	.seh_savereg %r14, 524248
	.seh_endprologue
	callq f0
	callq f0
	movq $-1, %rax
	movq 524232(%rsi), %r14
	leaq 524248(%rsi), %rsp
	popq %r15
	popq %rsi
	retq
	.seh_endproc

	.text
	.seh_proc f0
f0:
	pushq %r12
	.seh_pushreg %r12
	pushq %r15
	.seh_pushreg %r15
	pushq %rdi
	.seh_pushreg %rdi
	pushq %rbx
	.seh_pushreg %rbx
	pushq %rsi
	.seh_pushreg %rsi
	pushq %r14
	.seh_pushreg %r14
	pushq %rbp
	.seh_pushreg %rbp
	pushq %r13
	.seh_pushreg %r13
	subq $56, %rsp
	.seh_stackalloc 56
	leaq 64(%rsp), %r15
	.seh_setframe %r15, 64
	.seh_endprologue
	subq $144, %rsp
	nop
	nop
	nop
	nop
	nop
	callq f0
	subq $65520, %rsp
	callq f0
	leaq -8(%r15), %rsp
	popq %r13
	popq %rbp
	popq %r14
	popq %rsi
	popq %rbx
	popq %rdi
	popq %r15
	popq %r12
	retq
	.seh_endproc

	.text
	.seh_proc f0
f0:
	pushq %rsi
	.seh_pushreg %rsi
	pushq %rdi
	.seh_pushreg %rdi
	subq $2097144, %rsp
	.seh_stackalloc 2097144
	movq %r12, 120(%rsp)
	.seh_savereg %r12, 120
	movq %rbp, 524264(%rsp)
	.seh_savereg %rbp, 524264
	leaq 32(%rsp), %rdi
	.seh_setframe %rdi, 32
	movq %rbx, 1715704(%rsp)
	.seh_savereg %rbx, 1715704
	.seh_endprologue
	movq 1715672(%rdi), %rbx
	movq 524232(%rdi), %rbp
	movq 88(%rdi), %r12
	leaq 2097112(%rdi), %rsp
	popq %rdi
	popq %rsi
	retq
	.seh_endproc

	.text
	.seh_proc f0
f0:
	pushq %rsi
	.seh_pushreg %rsi
	pushq %r14
	.seh_pushreg %r14
	pushq %rdi
	.seh_pushreg %rdi
	subq $524280, %rsp
	.seh_stackalloc 524280
	movq %r15, 439384(%rsp)
	.seh_savereg %r15, 439384
	movq %rbx, 524264(%rsp)
	.seh_savereg %rbx, 524264
	leaq 48(%rsp), %rsi
	.seh_setframe %rsi, 48
	.seh_endprologue
	nop
	movq $2147483647, %rdx
	movq $0, %r8
	movq $-2147483647, %r10
	movq $128, %r14
	nop
	movq $1519399836, %r8
	movq $-1382696617, %r15
	movq $-2147483648, %r9
	movq 524216(%rsi), %rbx
	movq 439336(%rsi), %r15
	leaq 524232(%rsi), %rsp
	popq %rdi
	popq %r14
	popq %rsi
	retq
	.seh_endproc

	.text
	.seh_proc f0
f0:
	pushq %rbp
	.seh_pushreg %rbp
	pushq %r12
	.seh_pushreg %r12
	pushq %r14
	.seh_pushreg %r14
	pushq %rsi
	.seh_pushreg %rsi
	subq $2097152, %rsp
	.seh_stackalloc 2097152
	movq %rbx, 524272(%rsp)
	.seh_savereg %rbx, 524272
	movq %r13, 120(%rsp)
	.seh_savereg %r13, 120
	leaq 112(%rsp), %r14
	.seh_setframe %r14, 112
	movq %r15, 524280(%rsp)
	.seh_savereg %r15, 524280
	.seh_endprologue
	nop
	nop
	movq $65536, %rbp
	movq $127, %rax
	nop
	movq 524168(%r14), %r15
	movq 8(%r14), %r13
	movq 524160(%r14), %rbx
	leaq 2097040(%r14), %rsp
	popq %rsi
	popq %r14
	popq %r12
	popq %rbp
	retq
	.seh_endproc

	.text
	.seh_proc f0
f0:
	pushq %r12
	.seh_pushreg %r12
	pushq %r13
	.seh_pushreg %r13
	pushq %rsi
	.seh_pushreg %rsi
	subq $256, %rsp
	.seh_stackalloc 256
	movq %rdi, 248(%rsp)
	.seh_savereg %rdi, 248
	.seh_endprologue
	movq $-129, %rax
	movq $-1, %r10
	movq 248(%rsp), %rdi
	addq $256, %rsp
	popq %rsi
	popq %r13
	popq %r12
	retq
	.seh_endproc

	.text
	.seh_proc f0
f0:
	pushq %rdi
	.seh_pushreg %rdi
	subq $144, %rsp
	.seh_stackalloc 144
	leaq 112(%rsp), %rdi
	.seh_setframe %rdi, 112
	.seh_endprologue
	movq $65536, %rcx
	movq $0, %r11
	movq $65536, %r8
	subq $27296, %rsp
	nop
	callq f0
	callq f0
	movq $127, %rax
	nop
	leaq 32(%rdi), %rsp
	popq %rdi
	retq
	.seh_endproc

	.text
	.seh_proc f0
f0:
	pushq %r13
	.seh_pushreg %r13
	subq $32, %rsp
	.seh_stackalloc 32
	leaq 144(%rsp), %r13
	.seh_setframe %r13, 144
	.seh_endprologue
	nop
	movq $2147483646, %r10
	movq $-129, %rdx
	leaq -112(%r13), %rsp
	popq %r13
	retq
	.seh_endproc

	.text
	.seh_proc f0
f0:
	pushq %r13
	.seh_pushreg %r13
	pushq %rsi
	.seh_pushreg %rsi
	subq $64, %rsp
	.seh_stackalloc 64
	movq %r12, 24(%rsp)
	.seh_savereg %r12, 24
	leaq 16(%rsp), %rsi
	.seh_setframe %rsi, 16
	movq %r14, 8(%rsp)
	.seh_savereg %r14, 8
	.seh_endprologue
	movq $0, %rdx
	movq -8(%rsi), %r14
	movq 8(%rsi), %r12
	leaq 48(%rsi), %rsp
	popq %rsi
	popq %r13
	retq
	.seh_endproc

	.text
	.seh_proc f0
f0:
	pushq %r13
	.seh_pushreg %r13
	pushq %rdi
	.seh_pushreg %rdi
	subq $2097136, %rsp
	.seh_stackalloc 2097136
	leaq 64(%rsp), %r13
	.seh_setframe %r13, 64
	.seh_endprologue
	nop
	movq $-128, %rdi
	leaq 2097072(%r13), %rsp
	popq %rdi
	popq %r13
	retq
	.seh_endproc

	.text
	.seh_proc f0
f0:
	pushq %r13
	.seh_pushreg %r13
	subq $120, %rsp
	.seh_stackalloc 120
	movq %rbp, 88(%rsp)
	.seh_savereg %rbp, 88
	leaq 160(%rsp), %r13
	.seh_setframe %r13, 160
	movq %r12, 32(%rsp)
	.seh_savereg %r12, 32
	.seh_endprologue
	nop
	movq $-2147483647, %r9
	movq $65536, %rcx
	movq -128(%r13), %r12
	movq -72(%r13), %rbp
	leaq -40(%r13), %rsp
	popq %r13
	retq
	.seh_endproc

	.text
	.seh_proc f0
f0:
	pushq %rbp
	.seh_pushreg %rbp
	pushq %r14
	.seh_pushreg %r14
	pushq %r12
	.seh_pushreg %r12
	pushq %rsi
	.seh_pushreg %rsi
	subq $524280, %rsp
	.seh_stackalloc 524280
	leaq 96(%rsp), %rbp
	.seh_setframe %rbp, 96
	.seh_endprologue
	callq f0
	leaq 524184(%rbp), %rsp
	popq %rsi
	popq %r12
	popq %r14
	popq %rbp
	retq
	.seh_endproc

	.text
	.seh_proc f0
f0:
	pushq %rbx
	.seh_pushreg %rbx
	pushq %r12
	.seh_pushreg %r12
	pushq %rdi
	.seh_pushreg %rdi
	subq $8, %rsp
	.seh_stackalloc 8
	leaq 128(%rsp), %rbx
	.seh_setframe %rbx, 128
	.seh_endprologue
	nop
	nop
	movq $65536, %r12
	leaq -120(%rbx), %rsp
	popq %rdi
	popq %r12
	popq %rbx
	retq
	.seh_endproc

	.text
	.seh_proc f0
f0:
	pushq %rbx
	.seh_pushreg %rbx
	pushq %rdi
	.seh_pushreg %rdi
	subq $256, %rsp
	.seh_stackalloc 256
	movq %r14, 120(%rsp)
	.seh_savereg %r14, 120
	leaq 32(%rsp), %rbx
	.seh_setframe %rbx, 32
	.seh_endprologue
	subq $65504, %rsp
	nop
	nop
	movq 88(%rbx), %r14
	leaq 224(%rbx), %rsp
	popq %rdi
	popq %rbx
	retq
	.seh_endproc

	.text
	.seh_proc f0
f0:
	pushq %r14
	.seh_pushreg %r14
	pushq %r15
	.seh_pushreg %r15
	subq $264, %rsp
	.seh_stackalloc 264
	leaq 240(%rsp), %r14
	.seh_setframe %r14, 240
	.seh_endprologue
	leaq 24(%r14), %rsp
	popq %r15
	popq %r14
	retq
	.seh_endproc

	.text
	.seh_proc f0
f0:
	pushq %rdi
	.seh_pushreg %rdi
	subq $120, %rsp
	.seh_stackalloc 120
	leaq 128(%rsp), %rdi
	.seh_setframe %rdi, 128
	movq %r15, 8(%rsp)
	.seh_savereg %r15, 8
	.seh_endprologue
	nop
	movq $-2147483647, %rcx
	nop
	subq $65504, %rsp
	nop
	movq -120(%rdi), %r15
	leaq -8(%rdi), %rsp
	popq %rdi
	retq
	.seh_endproc

	.text
	.seh_proc f0
f0:
	pushq %r13
	.seh_pushreg %r13
	pushq %rbx
	.seh_pushreg %rbx
	subq $524272, %rsp
	.seh_stackalloc 524272
	movq %r14, 112(%rsp)
	.seh_savereg %r14, 112
	movq %rsi, 88(%rsp)
	.seh_savereg %rsi, 88
	movq %rdi, 512376(%rsp)
	.seh_savereg %rdi, 512376
	movq %rbp, 32(%rsp)
	.seh_savereg %rbp, 32
	movq %r12, 104(%rsp)
	.seh_savereg %r12, 104
	movq %r15, 325480(%rsp)
	.seh_savereg %r15, 325480
	leaq 224(%rsp), %r13
	.seh_setframe %r13, 224
	.seh_endprologue
	movq $128, %rcx
	nop
	movq $1, %r12
	movq 325256(%r13), %r15
	movq -120(%r13), %r12
	movq -192(%r13), %rbp
	movq 512152(%r13), %rdi
	movq -136(%r13), %rsi
	movq -112(%r13), %r14
	leaq 524048(%r13), %rsp
	popq %rbx
	popq %r13
	retq
	.seh_endproc
	.p2align 4, 0xCC
	.seh_proc f1
f1:
	pushq %rsi
	.seh_pushreg %rsi
	pushq %r12
	.seh_pushreg %r12
	subq $524280, %rsp
	.seh_stackalloc 524280
	leaq 96(%rsp), %rsi
	.seh_setframe %rsi, 96
	movq %r15, 524264(%rsp)
	.seh_savereg %r15, 524264
	.seh_endprologue
	subq $4096, %rsp
	callq f1
	movq $65536, %r10
	movq 524168(%rsi), %r15
	leaq 524184(%rsi), %rsp
	popq %r12
	popq %rsi
	retq
	.seh_endproc

	.text
	.seh_proc f0
f0:
	.seh_endprologue
	movq $-1, %r10
	movq $-1, %r8
	movq $-2147483648, %rax
	movq $-1, %rdx
	nop
	movq $2147483646, %r8
	nop
	movq $0, %r8
	movq $128, %r10
	retq
	.seh_endproc
	.p2align 4, 0xCC
	.seh_proc f1
f1:
	pushq %rsi
	.seh_pushreg %rsi
	pushq %r12
	.seh_pushreg %r12
	subq $136, %rsp
	.seh_stackalloc 136
	movq %rbp, 8(%rsp)
	.seh_savereg %rbp, 8
	movq %r15, 40(%rsp)
	.seh_savereg %r15, 40
	leaq 16(%rsp), %rsi
	.seh_setframe %rsi, 16
	.seh_endprologue
	movq $0, %rax
	nop
	movq $-2147483647, %r12
	movq 24(%rsi), %r15
	movq -8(%rsi), %rbp
	leaq 120(%rsi), %rsp
	popq %r12
	popq %rsi
	retq
	.seh_endproc

	.text
	.seh_proc f0
f0:
	pushq %r14
	.seh_pushreg %r14
	pushq %rdi
	.seh_pushreg %rdi
	pushq %rbp
	.seh_pushreg %rbp
	pushq %r12
	.seh_pushreg %r12
	subq $1911864, %rsp
	.seh_stackalloc 1911864
	leaq 176(%rsp), %r14
	.seh_setframe %r14, 176
	movq %r13, 48(%rsp)
	.seh_savereg %r13, 48
	.seh_endprologue
	callq f1
	movq $-129, %r13
	movq $-2012449087, %r9
	nop
	callq f1
	movq -128(%r14), %r13
	leaq 1911688(%r14), %rsp
	popq %r12
	popq %rbp
	popq %rdi
	popq %r14
	retq
	.seh_endproc
	.p2align 4, 0xCC
	.seh_proc f1
f1:
	pushq %rdi
	.seh_pushreg %rdi
	pushq %r15
	.seh_pushreg %r15
	pushq %r12
	.seh_pushreg %r12
	pushq %rbp
	.seh_pushreg %rbp
	pushq %rbx
	.seh_pushreg %rbx
	pushq %r13
	.seh_pushreg %r13
	pushq %r14
	.seh_pushreg %r14
	pushq %rsi
	.seh_pushreg %rsi
	subq $64, %rsp
	.seh_stackalloc 64
	leaq 80(%rsp), %r15
	.seh_setframe %r15, 80
	.seh_endprologue
	subq $4096, %rsp
	leaq -16(%r15), %rsp
	popq %rsi
	popq %r14
	popq %r13
	popq %rbx
	popq %rbp
	popq %r12
	popq %r15
	popq %rdi
	retq
	.seh_endproc

	.text
	.seh_proc f0
f0:
	pushq %r14
	.seh_pushreg %r14
	pushq %rdi
	.seh_pushreg %rdi
	subq $2045272, %rsp
	.seh_stackalloc 2045272
	movq %rbp, 524296(%rsp)
	.seh_savereg %rbp, 524296
	.seh_endprologue
	nop
	nop
	nop
	movq 524296(%rsp), %rbp
	addq $2045272, %rsp
	popq %rdi
	popq %r14
	retq
	.seh_endproc
	.p2align 4, 0xCC
	.seh_proc f1
f1:
	pushq %r15
	.seh_pushreg %r15
	pushq %r13
	.seh_pushreg %r13
	subq $120, %rsp
	.seh_stackalloc 120
	movq %rbx, 8(%rsp)
	.seh_savereg %rbx, 8
	leaq 48(%rsp), %r15
	.seh_setframe %r15, 48
	.seh_endprologue
	movq $2147483647, %rbx
	subq $65520, %rsp
	subq $65504, %rsp
	movq -40(%r15), %rbx
	leaq 72(%r15), %rsp
	popq %r13
	popq %r15
	retq
	.seh_endproc

	.text
	.seh_proc f0
f0:
	pushq %r14
	.seh_pushreg %r14
	pushq %rsi
	.seh_pushreg %rsi
	subq $256, %rsp
	.seh_stackalloc 256
	leaq 80(%rsp), %r14
	.seh_setframe %r14, 80
	.seh_endprologue
	nop
	movq $1, %r9
	movq $-2147483647, %rsi
	movq $2147483646, %r11
	nop
	leaq 176(%r14), %rsp
	popq %rsi
	popq %r14
	retq
	.seh_endproc
	.p2align 4, 0xCC
	.seh_proc f1
f1:
	subq $2097144, %rsp
	.seh_stackalloc 2097144
	movq %r12, 120(%rsp)
	.seh_savereg %r12, 120
	movq %rsi, 32(%rsp)
	.seh_savereg %rsi, 32
	movq %rbx, 1526752(%rsp)
	.seh_savereg %rbx, 1526752
	movq %r15, 2097136(%rsp)
	.seh_savereg %r15, 2097136
	movq %rdi, 2097128(%rsp)
	.seh_savereg %rdi, 2097128
	movq %rbp, 40(%rsp)
	.seh_savereg %rbp, 40
	movq %r14, 524280(%rsp)
	.seh_savereg %r14, 524280
	movq %r13, 139920(%rsp)
	.seh_savereg %r13, 139920
	.seh_endprologue
	callq f1
	movq $128, %r11
	movq 139920(%rsp), %r13
	movq 524280(%rsp), %r14
	movq 40(%rsp), %rbp
	movq 2097128(%rsp), %rdi
	movq 2097136(%rsp), %r15
	movq 1526752(%rsp), %rbx
	movq 32(%rsp), %rsi
	movq 120(%rsp), %r12
	addq $2097144, %rsp
	retq
	.seh_endproc

	.text
	.seh_proc f0
f0:
	pushq %r15
	.seh_pushreg %r15
	subq $524272, %rsp
	.seh_stackalloc 524272
	movq %rdi, 352(%rsp)
	.seh_savereg %rdi, 352
	movq %rbx, 104(%rsp)
	.seh_savereg %rbx, 104
	leaq 240(%rsp), %r15
	.seh_setframe %r15, 240
	.seh_endprologue
	callq f0
	movq -136(%r15), %rbx
	movq 112(%r15), %rdi
	leaq 524032(%r15), %rsp
	popq %r15
	retq
	.seh_endproc
	.p2align 4, 0xCC
	.seh_proc f1
f1:
	subq $256, %rsp
	.seh_stackalloc 256
	movq %rbp, 248(%rsp)
	.seh_savereg %rbp, 248
	movq %rbx, 128(%rsp)
	.seh_savereg %rbx, 128
	{disp8} movq %r12, 0(%rsp)
	.seh_savereg %r12, 0
	.seh_endprologue
	nop
	movq $0, %r10
	{disp8} movq 0(%rsp), %r12
	movq 128(%rsp), %rbx
	movq 248(%rsp), %rbp
	addq $256, %rsp
	retq
	.seh_endproc

	.text
	.seh_proc f0
f0:
	pushq %r12
	.seh_pushreg %r12
	subq $4096, %rsp
	.seh_stackalloc 4096
	.seh_endprologue
	movq $2147483647, %r12
	movq $-2147483648, %r8
	callq f1
	movq $-2147483647, %rcx
	callq f0
	movq $1, %rdx
	callq f0
	movq $-128, %r9
	nop
	addq $4096, %rsp
	popq %r12
	retq
	.seh_endproc
	.p2align 4, 0xCC
	.seh_proc f1
f1:
	pushq %r12
	.seh_pushreg %r12
	pushq %r15
	.seh_pushreg %r15
	subq $524280, %rsp
	.seh_stackalloc 524280
	leaq 160(%rsp), %r15
	.seh_setframe %r15, 160
	movq %rbx, 8(%rsp)
	.seh_savereg %rbx, 8
	movq %r14, 280(%rsp)
	.seh_savereg %r14, 280
	movq %rbp, 112(%rsp)
	.seh_savereg %rbp, 112
	.seh_endprologue
	movq $-2147483648, %r14
	movq $128, %rbp
	movq -48(%r15), %rbp
	movq 120(%r15), %r14
	movq -152(%r15), %rbx
	leaq 524120(%r15), %rsp
	popq %r15
	popq %r12
	retq
	.seh_endproc

	.text
	.seh_proc f0
f0:
	pushq %rsi
	.seh_pushreg %rsi
	pushq %rbp
	.seh_pushreg %rbp
	pushq %r13
	.seh_pushreg %r13
	pushq %r12
	.seh_pushreg %r12
	subq $120, %rsp
	.seh_stackalloc 120
	leaq 208(%rsp), %rsi
	.seh_setframe %rsi, 208
	movq %rbx, 112(%rsp)
	.seh_savereg %rbx, 112
	.seh_endprologue
	movq $128, %rcx
	subq $16, %rsp
	movq -96(%rsi), %rbx
	leaq -88(%rsi), %rsp
	popq %r12
	popq %r13
	popq %rbp
	popq %rsi
	retq
	.seh_endproc
	.p2align 4, 0xCC
	.seh_proc f1
f1:
	.seh_endprologue
	nop
	movq $-128, %r10
	nop
	nop
	nop
	movq $128, %r9
	nop
	nop
	nop
	retq
	.seh_endproc

	.text
	.seh_proc f0
f0:
	pushq %rsi
	.seh_pushreg %rsi
	pushq %r15
	.seh_pushreg %r15
	pushq %rdi
	.seh_pushreg %rdi
	pushq %r13
	.seh_pushreg %r13
	subq $40, %rsp
	.seh_stackalloc 40
	movq %r14, 32(%rsp)
	.seh_savereg %r14, 32
	leaq 32(%rsp), %rsi
	.seh_setframe %rsi, 32
	.seh_endprologue
	movq $65536, %rdi
	subq $4096, %rsp
	subq $112, %rsp
	callq f0
	callq f1
	movq $127, %r10
	callq f0
	callq f1
	movq $2147483647, %rax
	{disp8} movq 0(%rsi), %r14
	leaq 8(%rsi), %rsp
	popq %r13
	popq %rdi
	popq %r15
	popq %rsi
	retq
	.seh_endproc
	.p2align 4, 0xCC
	.seh_proc f1
f1:
	subq $40, %rsp
	.seh_stackalloc 40
	movq %rdi, 16(%rsp)
	.seh_savereg %rdi, 16
	movq %r15, 32(%rsp)
	.seh_savereg %r15, 32
	movq %r13, 8(%rsp)
	.seh_savereg %r13, 8
	movq %rbp, 24(%rsp)
	.seh_savereg %rbp, 24
	{disp8} movq %r12, 0(%rsp)
	.seh_savereg %r12, 0
	.seh_endprologue
	nop
	{disp8} movq 0(%rsp), %r12
	movq 24(%rsp), %rbp
	movq 8(%rsp), %r13
	movq 32(%rsp), %r15
	movq 16(%rsp), %rdi
	addq $40, %rsp
	retq
	.seh_endproc

	.text
	.seh_proc f0
f0:
	subq $256, %rsp
	.seh_stackalloc 256
	.seh_endprologue
	nop
	addq $256, %rsp
	retq
	.seh_endproc
	.p2align 4, 0xCC
	.seh_proc f1
f1:
	pushq %r12
	.seh_pushreg %r12
	subq $2097144, %rsp
	.seh_stackalloc 2097144
	movq %rbp, 524264(%rsp)
	.seh_savereg %rbp, 524264
	movq %rbx, 524296(%rsp)
	.seh_savereg %rbx, 524296
	movq %r14, 869312(%rsp)
	.seh_savereg %r14, 869312
	.seh_endprologue
	movq $-2061485870, %rbx
	nop
	movq 869312(%rsp), %r14
	movq 524296(%rsp), %rbx
	movq 524264(%rsp), %rbp
	addq $2097144, %rsp
	popq %r12
	retq
	.seh_endproc

	.text
	.seh_proc f0
f0:
	pushq %r14
	.seh_pushreg %r14
	subq $2097152, %rsp
	.seh_stackalloc 2097152
	leaq 64(%rsp), %r14
	.seh_setframe %r14, 64
	.seh_endprologue
	subq $65504, %rsp
	subq $65520, %rsp
	leaq 2097088(%r14), %rsp
	popq %r14
	retq
	.seh_endproc
	.p2align 4, 0xCC
	.seh_proc f1
f1:
	pushq %r15
	.seh_pushreg %r15
	pushq %r12
	.seh_pushreg %r12
	pushq %rbp
	.seh_pushreg %rbp
	pushq %rdi
	.seh_pushreg %rdi
	pushq %r13
	.seh_pushreg %r13
	pushq %rbx
	.seh_pushreg %rbx
	pushq %r14
	.seh_pushreg %r14
	pushq %rsi
	.seh_pushreg %rsi
	subq $40, %rsp
	.seh_stackalloc 40
	leaq 80(%rsp), %r15
	.seh_setframe %r15, 80
	.seh_endprologue
	subq $32, %rsp
	leaq -40(%r15), %rsp
	popq %rsi
	popq %r14
	popq %rbx
	popq %r13
	popq %rdi
	popq %rbp
	popq %r12
	popq %r15
	retq
	.seh_endproc

	.text
	.seh_proc f0
f0:
	pushq %r13
	.seh_pushreg %r13
	leaq 80(%rsp), %r13
	.seh_setframe %r13, 80
	.seh_endprologue
	movq $-2147483648, %rdx
	nop
	movq $-1, %r11
	leaq -80(%r13), %rsp
	popq %r13
	retq
	.seh_endproc
	.p2align 4, 0xCC
	.seh_proc f1
f1:
	pushq %rbp
	.seh_pushreg %rbp
	subq $524296, %rsp
	.seh_stackalloc 524296
	movq %rsi, 32(%rsp)
	.seh_savereg %rsi, 32
	movq %r15, 524272(%rsp)
	.seh_savereg %r15, 524272
	.seh_endprologue
	movq $0, %r15
	movq $2147483647, %rcx
	nop
	movq 524272(%rsp), %r15
	movq 32(%rsp), %rsi
	addq $524296, %rsp
	popq %rbp
	retq
	.seh_endproc

	.text
	.seh_proc f0
f0:
	pushq %rdi
	.seh_pushreg %rdi
	pushq %r15
	.seh_pushreg %r15
	pushq %rbx
	.seh_pushreg %rbx
	pushq %r13
	.seh_pushreg %r13
	pushq %r14
	.seh_pushreg %r14
	pushq %rbp
	.seh_pushreg %rbp
	pushq %rsi
	.seh_pushreg %rsi
	pushq %r12
	.seh_pushreg %r12
	subq $40, %rsp
	.seh_stackalloc 40
	leaq 160(%rsp), %rdi
	.seh_setframe %rdi, 160
	.seh_endprologue
	movq $-1, %rdx
	leaq -120(%rdi), %rsp
	popq %r12
	popq %rsi
	popq %rbp
	popq %r14
	popq %r13
	popq %rbx
	popq %r15
	popq %rdi
	retq
	.seh_endproc
	.p2align 4, 0xCC
	.seh_proc f1
f1:
	pushq %rbx
	.seh_pushreg %rbx
	pushq %r15
	.seh_pushreg %r15
	subq $40, %rsp
	.seh_stackalloc 40
	leaq 192(%rsp), %rbx
	.seh_setframe %rbx, 192
	.seh_endprologue
	movq $-128, %rdx
	leaq -152(%rbx), %rsp
	popq %r15
	popq %rbx
	retq
	.seh_endproc

	.text
	.seh_proc f0
f0:
	pushq %rsi
	.seh_pushreg %rsi
	pushq %r13
	.seh_pushreg %r13
	pushq %r15
	.seh_pushreg %r15
	pushq %r12
	.seh_pushreg %r12
	subq $152, %rsp
	.seh_stackalloc 152
	leaq 48(%rsp), %rsi
	.seh_setframe %rsi, 48
	.seh_endprologue
	callq f1
	callq f1
	nop
	movq $-128, %r9
	callq f1
	leaq 104(%rsi), %rsp
	popq %r12
	popq %r15
	popq %r13
	popq %rsi
	retq
	.seh_endproc
	.p2align 4, 0xCC
	.seh_proc f1
f1:
	pushq %r13
	.seh_pushreg %r13
	pushq %rbp
	.seh_pushreg %rbp
	pushq %r14
	.seh_pushreg %r14
	pushq %rsi
	.seh_pushreg %rsi
	pushq %rdi
	.seh_pushreg %rdi
	pushq %r15
	.seh_pushreg %r15
	pushq %rbx
	.seh_pushreg %rbx
	pushq %r12
	.seh_pushreg %r12
	subq $524272, %rsp
	.seh_stackalloc 524272
	leaq 240(%rsp), %r13
	.seh_setframe %r13, 240
	.seh_endprologue
	subq $65520, %rsp
	movq $127, %rbx
	movq $128801052, %rax
	movq $-2147483647, %r11
	subq $32, %rsp
	subq $128, %rsp
	nop
	movq $-2147483647, %rax
	nop
	leaq 524032(%r13), %rsp
	popq %r12
	popq %rbx
	popq %r15
	popq %rdi
	popq %rsi
	popq %r14
	popq %rbp
	popq %r13
	retq
	.seh_endproc

	.text
	.seh_proc f0
f0:
	pushq %r13
	.seh_pushreg %r13
	subq $128, %rsp
	.seh_stackalloc 128
	movq %r14, 64(%rsp)
	.seh_savereg %r14, 64
	leaq 64(%rsp), %r13
	.seh_setframe %r13, 64
	.seh_endprologue
	nop
	subq $4096, %rsp
	movq $65536, %rdx
	nop
	nop
	{disp8} movq 0(%r13), %r14
	leaq 64(%r13), %rsp
	popq %r13
	retq
	.seh_endproc
	.p2align 4, 0xCC
	.seh_proc f1
f1:
	pushq %r12
	.seh_pushreg %r12
	pushq %rbp
	.seh_pushreg %rbp
	pushq %rbx
	.seh_pushreg %rbx
	pushq %r14
	.seh_pushreg %r14
	pushq %r13
	.seh_pushreg %r13
	pushq %rdi
	.seh_pushreg %rdi
	pushq %r15
	.seh_pushreg %r15
	pushq %rsi
	.seh_pushreg %rsi
	subq $524280, %rsp
	.seh_stackalloc 524280
	leaq 112(%rsp), %rbp
	.seh_setframe %rbp, 112
	.seh_endprologue
	movq $-819662462, %rdx
	movq $-1, %rsi
	nop
	movq $-128, %r8
	nop
	subq $16, %rsp
	nop
	movq $2147483647, %r9
	callq f1
	leaq 524168(%rbp), %rsp
	popq %rsi
	popq %r15
	popq %rdi
	popq %r13
	popq %r14
	popq %rbx
	popq %rbp
	popq %r12
	retq
	.seh_endproc
	.p2align 4, 0xCC
	.seh_proc f2
f2:
	pushq %r15
	.seh_pushreg %r15
	pushq %r12
	.seh_pushreg %r12
	subq $40, %rsp
	.seh_stackalloc 40
	leaq 176(%rsp), %r15
	.seh_setframe %r15, 176
	movq %rbx, 32(%rsp)
	.seh_savereg %rbx, 32
	.seh_endprologue
	movq $0, %rdx
	movq -144(%r15), %rbx
	leaq -136(%r15), %rsp
	popq %r12
	popq %r15
	retq
	.seh_endproc

	.text
	.seh_proc f0
f0:
	pushq %r12
	.seh_pushreg %r12
	pushq %rsi
	.seh_pushreg %rsi
	pushq %rbp
	.seh_pushreg %rbp
	pushq %rdi
	.seh_pushreg %rdi
	pushq %r14
	.seh_pushreg %r14
	pushq %r15
	.seh_pushreg %r15
	pushq %r13
	.seh_pushreg %r13
	pushq %rbx
	.seh_pushreg %rbx
	subq $248, %rsp
	.seh_stackalloc 248
	leaq 112(%rsp), %rsi
	.seh_setframe %rsi, 112
	.seh_endprologue
	movq $-2147483648, %rbx
	callq f1
	movq $65536, %r10
	callq f1
	movq $-2147483647, %rbp
	callq f0
	callq f0
	movq $127, %r9
	movq $-326766020, %rcx
	leaq 136(%rsi), %rsp
	popq %rbx
	popq %r13
	popq %r15
	popq %r14
	popq %rdi
	popq %rbp
	popq %rsi
	popq %r12
	retq
	.seh_endproc
	.p2align 4, 0xCC
	.seh_proc f1
f1:
	pushq %rsi
	.seh_pushreg %rsi
	subq $524264, %rsp
	.seh_stackalloc 524264
	leaq 144(%rsp), %rsi
	.seh_setframe %rsi, 144
	movq %r14, 40(%rsp)
	.seh_savereg %r14, 40
	.seh_endprologue
	movq $-129, %r9
	movq $-2147483648, %r11
	movq $1, %rax
	subq $144, %rsp
	movq $-936304515, %rcx
	movq $65536, %rcx
	movq $0, %rdx
	subq $4096, %rsp
	movq $2147483647, %rcx
	movq -104(%rsi), %r14
	leaq 524120(%rsi), %rsp
	popq %rsi
	retq
	.seh_endproc
	.p2align 4, 0xCC
	.seh_proc f2
f2:
	pushq %rsi
	.seh_pushreg %rsi
	pushq %rbp
	.seh_pushreg %rbp
	subq $1048584, %rsp
	.seh_stackalloc 1048584
	movq %r15, 264(%rsp)
	.seh_savereg %r15, 264
	movq %r13, 32(%rsp)
	.seh_savereg %r13, 32
	movq %rbx, 1048568(%rsp)
	.seh_savereg %rbx, 1048568
	movq %r14, 128(%rsp)
	.seh_savereg %r14, 128
	movq %rdi, 1048576(%rsp)
	.seh_savereg %rdi, 1048576
	movq %r12, 888168(%rsp)
	.seh_savereg %r12, 888168
	leaq 144(%rsp), %rsi
	.seh_setframe %rsi, 144
	.seh_endprologue
	callq f1
	callq f0
	movq $2147483647, %rdi
	movq 888024(%rsi), %r12
	movq 1048432(%rsi), %rdi
	movq -16(%rsi), %r14
	movq 1048424(%rsi), %rbx
	movq -112(%rsi), %r13
	movq 120(%rsi), %r15
	leaq 1048440(%rsi), %rsp
	popq %rbp
	popq %rsi
	retq
	.seh_endproc

	.text
	.seh_proc f0
f0:
	pushq %rbp
	.seh_pushreg %rbp
	pushq %r15
	.seh_pushreg %r15
	pushq %rbx
	.seh_pushreg %rbx
	pushq %rsi
	.seh_pushreg %rsi
	pushq %rdi
	.seh_pushreg %rdi
	pushq %r12
	.seh_pushreg %r12
	pushq %r13
	.seh_pushreg %r13
	pushq %r14
	.seh_pushreg %r14
	subq $256, %rsp
	.seh_stackalloc 256
	leaq 64(%rsp), %rbp
	.seh_setframe %rbp, 64
	.seh_endprologue
	movq $-128, %r14
	movq $-2147483648, %rdx
	movq $65536, %r14
	leaq 192(%rbp), %rsp
	popq %r14
	popq %r13
	popq %r12
	popq %rdi
	popq %rsi
	popq %rbx
	popq %r15
	popq %rbp
	retq
	.seh_endproc
	.p2align 4, 0xCC
	.seh_proc f1
f1:
	subq $112, %rsp
	.seh_stackalloc 112
	.seh_endprologue
	addq $112, %rsp
	retq
	.seh_endproc
	.p2align 4, 0xCC
	.seh_proc f2
f2:
	pushq %rbp
	.seh_pushreg %rbp
	pushq %r13
	.seh_pushreg %r13
	pushq %r12
	.seh_pushreg %r12
	subq $64, %rsp
	.seh_stackalloc 64
	movq %r15, 32(%rsp)
	.seh_savereg %r15, 32
	leaq 32(%rsp), %rbp
	.seh_setframe %rbp, 32
	.seh_endprologue
	movq $0, %rdx
	callq f2
	movq $-2147483647, %r15
	nop
	movq $2147483646, %rcx
	{disp8} movq 0(%rbp), %r15
	leaq 32(%rbp), %rsp
	popq %r12
	popq %r13
	popq %rbp
	retq
	.seh_endproc

	.text
	.seh_proc f0
f0:
	pushq %rbp
	.seh_pushreg %rbp
	pushq %r15
	.seh_pushreg %r15
	pushq %rbx
	.seh_pushreg %rbx
	pushq %r12
	.seh_pushreg %r12
	subq $256, %rsp
	.seh_stackalloc 256
	leaq 176(%rsp), %rbp
	.seh_setframe %rbp, 176
	.seh_endprologue
	movq $0, %r9
	subq $128, %rsp
	nop
	nop
	subq $32, %rsp
	leaq 80(%rbp), %rsp
	popq %r12
	popq %rbx
	popq %r15
	popq %rbp
	retq
	.seh_endproc
	.p2align 4, 0xCC
	.seh_proc f1
f1:
	pushq %r14
	.seh_pushreg %r14
	leaq 224(%rsp), %r14
	.seh_setframe %r14, 224
	.seh_endprologue
	nop
	leaq -224(%r14), %rsp
	popq %r14
	retq
	.seh_endproc
	.p2align 4, 0xCC
	.seh_proc f2
f2:
	pushq %r14
	.seh_pushreg %r14
	pushq %r13
	.seh_pushreg %r13
	subq $248, %rsp
	.seh_stackalloc 248
	{disp8} leaq 0(%rsp), %r14
	.seh_setframe %r14, 0
	movq %rsi, 120(%rsp)
	.seh_savereg %rsi, 120
	.seh_endprologue
	callq f2
	movq $-2147483647, %r9
	movq $65536, %rsi
	nop
	movq $0, %rdx
	movq 120(%r14), %rsi
	leaq 248(%r14), %rsp
	popq %r13
	popq %r14
	retq
	.seh_endproc

	.text
	.seh_proc f0
f0:
	pushq %r15
	.seh_pushreg %r15
	subq $64, %rsp
	.seh_stackalloc 64
	.seh_endprologue
	movq $65536, %rax
	addq $64, %rsp
	popq %r15
	retq
	.seh_endproc
	.p2align 4, 0xCC
	.seh_proc f1
f1:
	pushq %r14
	.seh_pushreg %r14
	pushq %rbx
	.seh_pushreg %rbx
	subq $112, %rsp
	.seh_stackalloc 112
	leaq 128(%rsp), %r14
	.seh_setframe %r14, 128
	.seh_endprologue
	leaq -16(%r14), %rsp
	popq %rbx
	popq %r14
	retq
	.seh_endproc
	.p2align 4, 0xCC
	.seh_proc f2
f2:
	pushq %rbp
	.seh_pushreg %rbp
	pushq %r12
	.seh_pushreg %r12
	pushq %rdi
	.seh_pushreg %rdi
	pushq %r13
	.seh_pushreg %r13
	pushq %r14
	.seh_pushreg %r14
	pushq %rbx
	.seh_pushreg %rbx
	pushq %r15
	.seh_pushreg %r15
	pushq %rsi
	.seh_pushreg %rsi
	subq $24, %rsp
	.seh_stackalloc 24
	leaq 96(%rsp), %rbp
	.seh_setframe %rbp, 96
	.seh_endprologue
	movq $-129, %rcx
	subq $144, %rsp
	subq $32, %rsp
	movq $2147483646, %r12
	subq $144, %rsp
	leaq -72(%rbp), %rsp
	popq %rsi
	popq %r15
	popq %rbx
	popq %r14
	popq %r13
	popq %rdi
	popq %r12
	popq %rbp
	retq
	.seh_endproc

	.text
	.seh_proc f0
f0:
	pushq %rbp
	.seh_pushreg %rbp
	pushq %rdi
	.seh_pushreg %rdi
	pushq %r15
	.seh_pushreg %r15
	pushq %rbx
	.seh_pushreg %rbx
	subq $136, %rsp
	.seh_stackalloc 136
	leaq 144(%rsp), %rbp
	.seh_setframe %rbp, 144
	.seh_endprologue
	nop
	movq $1430087793, %rax
	nop
	leaq -8(%rbp), %rsp
	popq %rbx
	popq %r15
	popq %rdi
	popq %rbp
	retq
	.seh_endproc
	.p2align 4, 0xCC
	.seh_proc f1
f1:
	pushq %rsi
	.seh_pushreg %rsi
	pushq %r14
	.seh_pushreg %r14
	subq $128, %rsp
	.seh_stackalloc 128
	leaq 192(%rsp), %r14
	.seh_setframe %r14, 192
	.seh_endprologue
	nop
	movq $-1, %rdx
	movq $0, %rdx
	leaq -64(%r14), %rsp
	popq %r14
	popq %rsi
	retq
	.seh_endproc
	.p2align 4, 0xCC
	.seh_proc f2
f2:
	pushq %rsi
	.seh_pushreg %rsi
	pushq %r15
	.seh_pushreg %r15
	pushq %rdi
	.seh_pushreg %rdi
	pushq %rbp
	.seh_pushreg %rbp
	subq $2097144, %rsp
	.seh_stackalloc 2097144
	movq %r14, 32(%rsp)
	.seh_savereg %r14, 32
	movq %r12, 524296(%rsp)
	.seh_savereg %r12, 524296
	leaq 144(%rsp), %rdi
	.seh_setframe %rdi, 144
	.seh_endprologue
	movq $127, %r11
	nop
	subq $65520, %rsp
	movq 524152(%rdi), %r12
	movq -112(%rdi), %r14
	leaq 2097000(%rdi), %rsp
	popq %rbp
	popq %rdi
	popq %r15
	popq %rsi
	retq
	.seh_endproc

	.text
	.seh_proc f0
f0:
	pushq %rdi
	.seh_pushreg %rdi
	pushq %r12
	.seh_pushreg %r12
	pushq %r15
	.seh_pushreg %r15
	subq $240, %rsp
	.seh_stackalloc 240
	movq %rbx, 192(%rsp)
	.seh_savereg %rbx, 192
	leaq 160(%rsp), %r15
	.seh_setframe %r15, 160
	.seh_endprologue
	nop
	movq $-128, %rcx
	movq 32(%r15), %rbx
	leaq 80(%r15), %rsp
	popq %r15
	popq %r12
	popq %rdi
	retq
	.seh_endproc
	.p2align 4, 0xCC
	.seh_proc f1
f1:
	subq $40, %rsp
	.seh_stackalloc 40
	movq %rbp, 32(%rsp)
	.seh_savereg %rbp, 32
	.seh_endprologue
	movq $0, %r11
	nop
	nop
	movq 32(%rsp), %rbp
	addq $40, %rsp
	retq
	.seh_endproc
	.p2align 4, 0xCC
	.seh_proc f2
f2:
	pushq %rbx
	.seh_pushreg %rbx
	pushq %r15
	.seh_pushreg %r15
	pushq %rsi
	.seh_pushreg %rsi
	pushq %r14
	.seh_pushreg %r14
	subq $4104, %rsp
	.seh_stackalloc 4104
	leaq 224(%rsp), %rbx
	.seh_setframe %rbx, 224
	.seh_endprologue
	movq $1, %r8
	leaq 3880(%rbx), %rsp
	popq %r14
	popq %rsi
	popq %r15
	popq %rbx
	retq
	.seh_endproc

	.text
	.seh_proc f0
f0:
	pushq %rbp
	.seh_pushreg %rbp
	subq $1048576, %rsp
	.seh_stackalloc 1048576
	leaq 48(%rsp), %rbp
	.seh_setframe %rbp, 48
	.seh_endprologue
	subq $16, %rsp
	leaq 1048528(%rbp), %rsp
	popq %rbp
	retq
	.seh_endproc
	.p2align 4, 0xCC
	.seh_proc f1
f1:
	subq $152, %rsp
	.seh_stackalloc 152
	movq %r12, 144(%rsp)
	.seh_savereg %r12, 144
	.seh_endprologue
	movq $0, %r12
	movq $2068977891, %r12
	callq f0
	callq f2
	movq $0, %rax
	callq f0
	nop
	movq $127, %r11
	movq $1, %r9
	movq 144(%rsp), %r12
	addq $152, %rsp
	retq
	.seh_endproc
	.p2align 4, 0xCC
	.seh_proc f2
f2:
	pushq %rbp
	.seh_pushreg %rbp
	subq $144, %rsp
	.seh_stackalloc 144
	movq %r12, 136(%rsp)
	.seh_savereg %r12, 136
	movq %rdi, 120(%rsp)
	.seh_savereg %rdi, 120
	.seh_endprologue
	movq 120(%rsp), %rdi
	movq 136(%rsp), %r12
	addq $144, %rsp
	popq %rbp
	retq
	.seh_endproc

	.text
	.seh_proc f0
f0:
	pushq %r15
	.seh_pushreg %r15
	pushq %r13
	.seh_pushreg %r13
	pushq %rdi
	.seh_pushreg %rdi
	subq $24, %rsp
	.seh_stackalloc 24
	leaq 112(%rsp), %r15
	.seh_setframe %r15, 112
	movq %r12, 8(%rsp)
	.seh_savereg %r12, 8
	.seh_endprologue
	movq $1, %r13
	subq $112, %rsp
	subq $65520, %rsp
	movq $2147483647, %r12
	movq $2147483647, %r9
	movq -104(%r15), %r12
	leaq -88(%r15), %rsp
	popq %rdi
	popq %r13
	popq %r15
	retq
	.seh_endproc
	.p2align 4, 0xCC
	.seh_proc f1
f1:
	pushq %r13
	.seh_pushreg %r13
	pushq %r14
	.seh_pushreg %r14
	subq $524280, %rsp
	.seh_stackalloc 524280
	leaq 176(%rsp), %r13
	.seh_setframe %r13, 176
	movq %rbx, 296(%rsp)
	.seh_savereg %rbx, 296
	movq %r15, 128(%rsp)
	.seh_savereg %r15, 128
	.seh_endprologue
	movq -48(%r13), %r15
	movq 120(%r13), %rbx
	leaq 524104(%r13), %rsp
	popq %r14
	popq %r13
	retq
	.seh_endproc
	.p2align 4, 0xCC
	.seh_proc f2
f2:
	subq $256, %rsp
	.seh_stackalloc 256
	movq %r14, 128(%rsp)
	.seh_savereg %r14, 128
	.seh_endprologue
	movq $-128, %r14
	movq $-1, %r11
	movq $-1888213912, %rcx
	movq 128(%rsp), %r14
	addq $256, %rsp
	retq
	.seh_endproc

	.text
	.seh_proc f0
f0:
	pushq %rbp
	.seh_pushreg %rbp
	subq $1048576, %rsp
	.seh_stackalloc 1048576
	movq %rsi, 524272(%rsp)
	.seh_savereg %rsi, 524272
	leaq 144(%rsp), %rbp
	.seh_setframe %rbp, 144
	movq %r13, 272(%rsp)
	.seh_savereg %r13, 272
	movq %r12, 524264(%rsp)
	.seh_savereg %r12, 524264
	.seh_endprologue
	nop
	movq 524120(%rbp), %r12
	movq 128(%rbp), %r13
	movq 524128(%rbp), %rsi
	leaq 1048432(%rbp), %rsp
	popq %rbp
	retq
	.seh_endproc
	.p2align 4, 0xCC
	.seh_proc f1
f1:
	pushq %rsi
	.seh_pushreg %rsi
	pushq %rbx
	.seh_pushreg %rbx
	pushq %r12
	.seh_pushreg %r12
	subq $256, %rsp
	.seh_stackalloc 256
	leaq 176(%rsp), %rbx
	.seh_setframe %rbx, 176
	movq %r14, 120(%rsp)
	.seh_savereg %r14, 120
	.seh_endprologue
	movq -56(%rbx), %r14
	leaq 80(%rbx), %rsp
	popq %r12
	popq %rbx
	popq %rsi
	retq
	.seh_endproc
	.p2align 4, 0xCC
	.seh_proc f2
f2:
	subq $524280, %rsp
	.seh_stackalloc 524280
	movq %r12, 247120(%rsp)
	.seh_savereg %r12, 247120
	movq %r15, 120(%rsp)
	.seh_savereg %r15, 120
	movq %rsi, 112(%rsp)
	.seh_savereg %rsi, 112
	.seh_endprologue
	callq f1
	movq $2147483647, %r11
	callq f1
	movq 112(%rsp), %rsi
	movq 120(%rsp), %r15
	movq 247120(%rsp), %r12
	addq $524280, %rsp
	retq
	.seh_endproc

	.text
	.seh_proc f0
f0:
	pushq %r13
	.seh_pushreg %r13
	pushq %rbx
	.seh_pushreg %rbx
	pushq %rsi
	.seh_pushreg %rsi
	subq $524272, %rsp
	.seh_stackalloc 524272
	movq %rbp, 264(%rsp)
	.seh_savereg %rbp, 264
	leaq 144(%rsp), %r13
	.seh_setframe %r13, 144
	.seh_endprologue
	movq 120(%r13), %rbp
	leaq 524128(%r13), %rsp
	popq %rsi
	popq %rbx
	popq %r13
	retq
	.seh_endproc
	.p2align 4, 0xCC
	.seh_proc f1
f1:
	pushq %rbx
	.seh_pushreg %rbx
	pushq %rsi
	.seh_pushreg %rsi
	subq $524296, %rsp
	.seh_stackalloc 524296
	movq %rbp, 32(%rsp)
	.seh_savereg %rbp, 32
	leaq 240(%rsp), %rbx
	.seh_setframe %rbx, 240
	movq %r15, 524280(%rsp)
	.seh_savereg %r15, 524280
	movq %r14, 24(%rsp)
	.seh_savereg %r14, 24
	.seh_endprologue
	movq $0, %rsi
	movq $65536, %r14
	movq $2147483646, %r11
	nop
	movq $-129, %r14
	movq -216(%rbx), %r14
	movq 524040(%rbx), %r15
	movq -208(%rbx), %rbp
	leaq 524056(%rbx), %rsp
	popq %rsi
	popq %rbx
	retq
	.seh_endproc
	.p2align 4, 0xCC
	.seh_proc f2
f2:
	pushq %rsi
	.seh_pushreg %rsi
	pushq %r14
	.seh_pushreg %r14
	subq $24, %rsp
	.seh_stackalloc 24
	{disp8} movq %rbx, 0(%rsp)
	.seh_savereg %rbx, 0
	movq %r12, 8(%rsp)
	.seh_savereg %r12, 8
	leaq 144(%rsp), %rsi
	.seh_setframe %rsi, 144
	movq %rdi, 16(%rsp)
	.seh_savereg %rdi, 16
	.seh_endprologue
	movq $-2147483647, %rbx
	movq $-129, %rcx
	nop
	movq -128(%rsi), %rdi
	movq -136(%rsi), %r12
	movq -144(%rsi), %rbx
	leaq -120(%rsi), %rsp
	popq %r14
	popq %rsi
	retq
	.seh_endproc

	.text
	.seh_proc f0
f0:
	pushq %rsi
	.seh_pushreg %rsi
	pushq %r15
	.seh_pushreg %r15
	pushq %r14
	.seh_pushreg %r14
	subq $4096, %rsp
	.seh_stackalloc 4096
	leaq 176(%rsp), %r14
	.seh_setframe %r14, 176
	.seh_endprologue
	nop
	nop
	movq $-2147483648, %r8
	nop
	nop
	movq $0, %rax
	nop
	movq $-1, %r15
	nop
	leaq 3920(%r14), %rsp
	popq %r14
	popq %r15
	popq %rsi
	retq
	.seh_endproc
	.p2align 4, 0xCC
	.seh_proc f1
f1:
	pushq %r14
	.seh_pushreg %r14
	pushq %rbp
	.seh_pushreg %rbp
	pushq %r13
	.seh_pushreg %r13
	subq $56, %rsp
	.seh_stackalloc 56
	leaq 176(%rsp), %r14
	.seh_setframe %r14, 176
	.seh_endprologue
	movq $0, %r13
	nop
	movq $128, %r8
	leaq -120(%r14), %rsp
	popq %r13
	popq %rbp
	popq %r14
	retq
	.seh_endproc
	.p2align 4, 0xCC
	.seh_proc f2
f2:
	pushq %r15
	.seh_pushreg %r15
	pushq %rsi
	.seh_pushreg %rsi
	subq $240, %rsp
	.seh_stackalloc 240
	movq %r14, 120(%rsp)
	.seh_savereg %r14, 120
	movq %rbx, 152(%rsp)
	.seh_savereg %rbx, 152
	leaq 32(%rsp), %r15
	.seh_setframe %r15, 32
	.seh_endprologue
	movq $65536, %r11
	movq 120(%r15), %rbx
	movq 88(%r15), %r14
	leaq 208(%r15), %rsp
	popq %rsi
	popq %r15
	retq
	.seh_endproc

	.text
	.seh_proc f0
f0:
	pushq %r12
	.seh_pushreg %r12
	pushq %r14
	.seh_pushreg %r14
	subq $2097144, %rsp
	.seh_stackalloc 2097144
	movq %rsi, 1732736(%rsp)
	.seh_savereg %rsi, 1732736
	movq %rbx, 982328(%rsp)
	.seh_savereg %rbx, 982328
	movq %rbp, 112(%rsp)
	.seh_savereg %rbp, 112
	movq %r15, 264(%rsp)
	.seh_savereg %r15, 264
	leaq 144(%rsp), %r14
	.seh_setframe %r14, 144
	movq %r13, 524288(%rsp)
	.seh_savereg %r13, 524288
	movq %rdi, 40(%rsp)
	.seh_savereg %rdi, 40
	.seh_endprologue
	movq $-2147483648, %r13
	subq $32, %rsp
	subq $16, %rsp
	nop
	nop
	movq $65536, %rsi
	movq $-2147483647, %rdi
	nop
	subq $144, %rsp
	movq -104(%r14), %rdi
	movq 524144(%r14), %r13
	movq 120(%r14), %r15
	movq -32(%r14), %rbp
	movq 982184(%r14), %rbx
	movq 1732592(%r14), %rsi
	leaq 2097000(%r14), %rsp
	popq %r14
	popq %r12
	retq
	.seh_endproc
	.p2align 4, 0xCC
	.seh_proc f1
f1:
	pushq %r13
	.seh_pushreg %r13
	pushq %rbp
	.seh_pushreg %rbp
	pushq %rsi
	.seh_pushreg %rsi
	pushq %r12
	.seh_pushreg %r12
	pushq %rdi
	.seh_pushreg %rdi
	pushq %r14
	.seh_pushreg %r14
	pushq %rbx
	.seh_pushreg %rbx
	pushq %r15
	.seh_pushreg %r15
	subq $40, %rsp
	.seh_stackalloc 40
	leaq 224(%rsp), %r13
	.seh_setframe %r13, 224
	.seh_endprologue
	callq f1
	subq $32, %rsp
	subq $44144, %rsp
	nop
	callq f0
	nop
	callq f3
	callq f2
	movq $128, %r11
	leaq -184(%r13), %rsp
	popq %r15
	popq %rbx
	popq %r14
	popq %rdi
	popq %r12
	popq %rsi
	popq %rbp
	popq %r13
	retq
	.seh_endproc
	.p2align 4, 0xCC
	.seh_proc f2
f2:
	pushq %r13
	.seh_pushreg %r13
	subq $24, %rsp
	.seh_stackalloc 24
	leaq 224(%rsp), %r13
	.seh_setframe %r13, 224
	.seh_endprologue
	movq $-2089959987, %r8
	movq $-790898815, %r10
	movq $-129, %r11
	movq $65536, %r10
	movq $1, %r9
	movq $1, %rax
	subq $32, %rsp
	subq $16, %rsp
	nop
	leaq -200(%r13), %rsp
	popq %r13
	retq
	.seh_endproc
	.p2align 4, 0xCC
	.seh_proc f3
f3:
	subq $40, %rsp
	.seh_stackalloc 40
	.seh_endprologue
	callq f1
	callq f3
	callq f1
	addq $40, %rsp
	retq
	.seh_endproc

	.text
	.seh_proc f0
f0:
	pushq %rsi
	.seh_pushreg %rsi
	pushq %r13
	.seh_pushreg %r13
	pushq %rbp
	.seh_pushreg %rbp
	subq $40, %rsp
	.seh_stackalloc 40
	{disp8} movq %r12, 0(%rsp)
	.seh_savereg %r12, 0
	movq %rbx, 24(%rsp)
	.seh_savereg %rbx, 24
	leaq 224(%rsp), %rsi
	.seh_setframe %rsi, 224
	movq %rdi, 32(%rsp)
	.seh_savereg %rdi, 32
	.seh_endprologue
	movq $0, %r8
	nop
	subq $16, %rsp
	nop
	movq $2147483647, %rbp
	movq -192(%rsi), %rdi
	movq -200(%rsi), %rbx
	movq -224(%rsi), %r12
	leaq -184(%rsi), %rsp
	popq %rbp
	popq %r13
	popq %rsi
	retq
	.seh_endproc
	.p2align 4, 0xCC
	.seh_proc f1
f1:
	pushq %rbx
	.seh_pushreg %rbx
	pushq %r15
	.seh_pushreg %r15
	pushq %rsi
	.seh_pushreg %rsi
	pushq %r14
	.seh_pushreg %r14
	subq $56, %rsp
	.seh_stackalloc 56
	leaq 32(%rsp), %rsi
	.seh_setframe %rsi, 32
	.seh_endprologue
	movq $2147483647, %rdx
	movq $0, %r15
	leaq 24(%rsi), %rsp
	popq %r14
	popq %rsi
	popq %r15
	popq %rbx
	retq
	.seh_endproc
	.p2align 4, 0xCC
	.seh_proc f2
f2:
	pushq %r14
	.seh_pushreg %r14
	pushq %r12
	.seh_pushreg %r12
	pushq %r15
	.seh_pushreg %r15
	pushq %rbx
	.seh_pushreg %rbx
	subq $524296, %rsp
	.seh_stackalloc 524296
	movq %rbp, 288(%rsp)
	.seh_savereg %rbp, 288
	movq %rdi, 136(%rsp)
	.seh_savereg %rdi, 136
	movq %r13, 296(%rsp)
	.seh_savereg %r13, 296
	leaq 176(%rsp), %r14
	.seh_setframe %r14, 176
	.seh_endprologue
	movq 120(%r14), %r13
	movq -40(%r14), %rdi
	movq 112(%r14), %rbp
	leaq 524120(%r14), %rsp
	popq %rbx
	popq %r15
	popq %r12
	popq %r14
	retq
	.seh_endproc
	.p2align 4, 0xCC
	.seh_proc f3
f3:
	pushq %rsi
	.seh_pushreg %rsi
	subq $524280, %rsp
	.seh_stackalloc 524280
	leaq 80(%rsp), %rsi
	.seh_setframe %rsi, 80
	movq %r14, 524272(%rsp)
	.seh_savereg %r14, 524272
	movq %r13, 524264(%rsp)
	.seh_savereg %r13, 524264
	.seh_endprologue
	nop
	subq $112, %rsp
	movq $-129, %r9
	subq $4096, %rsp
	subq $65504, %rsp
	movq 524184(%rsi), %r13
	movq 524192(%rsi), %r14
	leaq 524200(%rsi), %rsp
	popq %rsi
	retq
	.seh_endproc
	.p2align 4, 0xCC
	.seh_proc f4
f4:
	pushq %r14
	.seh_pushreg %r14
	subq $524296, %rsp
	.seh_stackalloc 524296
	movq %r13, 24(%rsp)
	.seh_savereg %r13, 24
	.seh_endprologue
	movq $-128, %r8
	movq $127, %rcx
	movq $-129, %rcx
	movq $1, %r8
	nop
	movq $-2147483648, %r13
	nop
	movq $-2147483647, %r9
	movq $65536, %r10
	movq 24(%rsp), %r13
	addq $524296, %rsp
	popq %r14
	retq
	.seh_endproc

	.text
	.seh_proc f0
f0:
	pushq %r13
	.seh_pushreg %r13
	subq $524272, %rsp
	.seh_stackalloc 524272
	movq %rbp, 40(%rsp)
	.seh_savereg %rbp, 40
	movq %rsi, 112(%rsp)
	.seh_savereg %rsi, 112
	leaq 192(%rsp), %r13
	.seh_setframe %r13, 192
	.seh_endprologue
	subq $65504, %rsp
	movq $-2147483647, %r8
	nop
	subq $144, %rsp
	movq $127, %rax
	movq -80(%r13), %rsi
	movq -152(%r13), %rbp
	leaq 524080(%r13), %rsp
	popq %r13
	retq
	.seh_endproc
	.p2align 4, 0xCC
	.seh_proc f1
f1:
	pushq %rbx
	.seh_pushreg %rbx
	pushq %r14
	.seh_pushreg %r14
	subq $40, %rsp
	.seh_stackalloc 40
	movq %rsi, 24(%rsp)
	.seh_savereg %rsi, 24
	movq %rbp, 32(%rsp)
	.seh_savereg %rbp, 32
	leaq 64(%rsp), %rbx
	.seh_setframe %rbx, 64
	movq %r12, 8(%rsp)
	.seh_savereg %r12, 8
	.seh_endprologue
	subq $4096, %rsp
	movq $2147483646, %rax
	subq $65504, %rsp
	movq -56(%rbx), %r12
	movq -32(%rbx), %rbp
	movq -40(%rbx), %rsi
	leaq -24(%rbx), %rsp
	popq %r14
	popq %rbx
	retq
	.seh_endproc
	.p2align 4, 0xCC
	.seh_proc f2
f2:
	pushq %rbp
	.seh_pushreg %rbp
	pushq %r13
	.seh_pushreg %r13
	pushq %r14
	.seh_pushreg %r14
	pushq %r12
	.seh_pushreg %r12
	subq $56, %rsp
	.seh_stackalloc 56
	movq %rbx, 32(%rsp)
	.seh_savereg %rbx, 32
	leaq 48(%rsp), %r14
	.seh_setframe %r14, 48
	.seh_endprologue
	subq $128, %rsp
	subq $65504, %rsp
	movq $2147483647, %r9
	nop
	subq $32, %rsp
	nop
	movq $-2147483648, %rbp
	movq $-2147483647, %r12
	movq $128, %r8
	movq -16(%r14), %rbx
	leaq 8(%r14), %rsp
	popq %r12
	popq %r14
	popq %r13
	popq %rbp
	retq
	.seh_endproc
	.p2align 4, 0xCC
	.seh_proc f3
f3:
	pushq %rdi
	.seh_pushreg %rdi
	pushq %r12
	.seh_pushreg %r12
	subq $2097136, %rsp
	.seh_stackalloc 2097136
	{disp8} leaq 0(%rsp), %rdi
	.seh_setframe %rdi, 0
	.seh_endprologue
	movq $65536, %r8
	leaq 2097136(%rdi), %rsp
	popq %r12
	popq %rdi
	retq
	.seh_endproc
	.p2align 4, 0xCC
	.seh_proc f4
f4:
	pushq %rdi
	.seh_pushreg %rdi
	pushq %r14
	.seh_pushreg %r14
	pushq %rsi
	.seh_pushreg %rsi
	subq $136, %rsp
	.seh_stackalloc 136
	movq %r13, 80(%rsp)
	.seh_savereg %r13, 80
	leaq 208(%rsp), %r14
	.seh_setframe %r14, 208
	.seh_endprologue
	movq $-128, %r10
	movq $128, %rcx
	nop
	movq -128(%r14), %r13
	leaq -72(%r14), %rsp
	popq %rsi
	popq %r14
	popq %rdi
	retq
	.seh_endproc
	.p2align 4, 0xCC
	.seh_proc f5
f5:
	subq $524280, %rsp
	.seh_stackalloc 524280
	movq %r12, 168904(%rsp)
	.seh_savereg %r12, 168904
	movq %rbx, 190392(%rsp)
	.seh_savereg %rbx, 190392
	movq %r14, 136(%rsp)
	.seh_savereg %r14, 136
	movq %r15, 104656(%rsp)
	.seh_savereg %r15, 104656
	movq %rbp, 128(%rsp)
	.seh_savereg %rbp, 128
	movq %rdi, 32(%rsp)
	.seh_savereg %rdi, 32
	movq %r13, 333976(%rsp)
	.seh_savereg %r13, 333976
	movq %rsi, 3984(%rsp)
	.seh_savereg %rsi, 3984
	.seh_endprologue
	callq f4
	callq f4
	callq f3
	movq 3984(%rsp), %rsi
	movq 333976(%rsp), %r13
	movq 32(%rsp), %rdi
	movq 128(%rsp), %rbp
	movq 104656(%rsp), %r15
	movq 136(%rsp), %r14
	movq 190392(%rsp), %rbx
	movq 168904(%rsp), %r12
	addq $524280, %rsp
	retq
	.seh_endproc

	.text
	.seh_proc f0
f0:
	pushq %r14
	.seh_pushreg %r14
	pushq %r15
	.seh_pushreg %r15
	pushq %rbp
	.seh_pushreg %rbp
	pushq %r12
	.seh_pushreg %r12
	pushq %rbx
	.seh_pushreg %rbx
	pushq %r13
	.seh_pushreg %r13
	pushq %rdi
	.seh_pushreg %rdi
	pushq %rsi
	.seh_pushreg %rsi
	subq $524288, %rsp
	.seh_stackalloc 524288
	leaq 16(%rsp), %rbp
	.seh_setframe %rbp, 16
	.seh_endprologue
	movq $65536, %r12
	movq $65536, %r11
	subq $128, %rsp
	movq $-1, %rdx
	nop
	movq $127, %r8
	movq $2147483647, %r15
	nop
	subq $4096, %rsp
	leaq 524272(%rbp), %rsp
	popq %rsi
	popq %rdi
	popq %r13
	popq %rbx
	popq %r12
	popq %rbp
	popq %r15
	popq %r14
	retq
	.seh_endproc
	.p2align 4, 0xCC
	.seh_proc f1
f1:
	pushq %rdi
	.seh_pushreg %rdi
	pushq %r12
	.seh_pushreg %r12
	pushq %r15
	.seh_pushreg %r15
	pushq %r14
	.seh_pushreg %r14
	subq $32, %rsp
	.seh_stackalloc 32
	leaq 160(%rsp), %rdi
	.seh_setframe %rdi, 160
	movq %rbp, 24(%rsp)
	.seh_savereg %rbp, 24
	{disp8} movq %r13, 0(%rsp)
	.seh_savereg %r13, 0
	movq %rbx, 8(%rsp)
	.seh_savereg %rbx, 8
	.seh_endprologue
	movq $65536, %r15
	movq $127, %r14
	movq $1, %rdx
	movq -152(%rdi), %rbx
	movq -160(%rdi), %r13
	movq -136(%rdi), %rbp
	leaq -128(%rdi), %rsp
	popq %r14
	popq %r15
	popq %r12
	popq %rdi
	retq
	.seh_endproc
	.p2align 4, 0xCC
	.seh_proc f2
f2:
	pushq %r13
	.seh_pushreg %r13
	pushq %r12
	.seh_pushreg %r12
	pushq %rsi
	.seh_pushreg %rsi
	subq $56, %rsp
	.seh_stackalloc 56
	movq %rdi, 48(%rsp)
	.seh_savereg %rdi, 48
	movq %r15, 8(%rsp)
	.seh_savereg %r15, 8
	leaq 208(%rsp), %r13
	.seh_setframe %r13, 208
	movq %rbp, 32(%rsp)
	.seh_savereg %rbp, 32
	movq %r14, 40(%rsp)
	.seh_savereg %r14, 40
	{disp8} movq %rbx, 0(%rsp)
	.seh_savereg %rbx, 0
	.seh_endprologue
	movq -208(%r13), %rbx
	movq -168(%r13), %r14
	movq -176(%r13), %rbp
	movq -200(%r13), %r15
	movq -160(%r13), %rdi
	leaq -152(%r13), %rsp
	popq %rsi
	popq %r12
	popq %r13
	retq
	.seh_endproc
	.p2align 4, 0xCC
	.seh_proc f3
f3:
	pushq %rbp
	.seh_pushreg %rbp
	pushq %r12
	.seh_pushreg %r12
	pushq %r15
	.seh_pushreg %r15
	pushq %r13
	.seh_pushreg %r13
	subq $56, %rsp
	.seh_stackalloc 56
	leaq 176(%rsp), %rbp
	.seh_setframe %rbp, 176
	.seh_endprologue
	nop
	nop
	movq $-2147483647, %r8
	leaq -120(%rbp), %rsp
	popq %r13
	popq %r15
	popq %r12
	popq %rbp
	retq
	.seh_endproc
	.p2align 4, 0xCC
	.seh_proc f4
f4:
	pushq %r12
	.seh_pushreg %r12
	pushq %rdi
	.seh_pushreg %rdi
	subq $40, %rsp
	.seh_stackalloc 40
	leaq 144(%rsp), %rdi
	.seh_setframe %rdi, 144
	movq %r15, 32(%rsp)
	.seh_savereg %r15, 32
	.seh_endprologue
	callq f5
	movq $0, %r12
	callq f2
	nop
	callq f4
	movq -112(%rdi), %r15
	leaq -104(%rdi), %rsp
	popq %rdi
	popq %r12
	retq
	.seh_endproc
	.p2align 4, 0xCC
	.seh_proc f5
f5:
	pushq %r14
	.seh_pushreg %r14
	pushq %r13
	.seh_pushreg %r13
	subq $64, %rsp
	.seh_stackalloc 64
	movq %rbp, 32(%rsp)
	.seh_savereg %rbp, 32
	{disp8} movq %rdi, 0(%rsp)
	.seh_savereg %rdi, 0
	leaq 48(%rsp), %r14
	.seh_setframe %r14, 48
	.seh_endprologue
	movq $-129, %r9
	movq $128, %r8
	movq $-2147483647, %r10
	movq -48(%r14), %rdi
	movq -16(%r14), %rbp
	leaq 16(%r14), %rsp
	popq %r13
	popq %r14
	retq
	.seh_endproc
	.p2align 4, 0xCC
	.seh_proc f6
f6:
	pushq %r15
	.seh_pushreg %r15
	pushq %rbp
	.seh_pushreg %rbp
	pushq %rdi
	.seh_pushreg %rdi
	subq $2097152, %rsp
	.seh_stackalloc 2097152
	leaq 48(%rsp), %r15
	.seh_setframe %r15, 48
	.seh_endprologue
	callq f2
	leaq 2097104(%r15), %rsp
	popq %rdi
	popq %rbp
	popq %r15
	retq
	.seh_endproc

	.text
	.seh_proc f0
f0:
	pushq %r12
	.seh_pushreg %r12
	subq $112, %rsp
	.seh_stackalloc 112
	{disp8} movq %rsi, 0(%rsp)
	.seh_savereg %rsi, 0
	.seh_endprologue
	nop
	movq $-2147483648, %r11
	{disp8} movq 0(%rsp), %rsi
	addq $112, %rsp
	popq %r12
	retq
	.seh_endproc
	.p2align 4, 0xCC
	.seh_proc f1
f1:
	subq $248, %rsp
	.seh_stackalloc 248
	.seh_endprologue
	callq f7
	movq $27918423, %rcx
	movq $-129, %r11
	nop
	callq f2
	movq $127, %r11
	callq f7
	movq $-2147483648, %rdx
	callq f0
	addq $248, %rsp
	retq
	.seh_endproc
	.p2align 4, 0xCC
	.seh_proc f2
f2:
	pushq %r14
	.seh_pushreg %r14
	pushq %r12
	.seh_pushreg %r12
	pushq %r13
	.seh_pushreg %r13
	subq $240, %rsp
	.seh_stackalloc 240
	movq %r15, 8(%rsp)
	.seh_savereg %r15, 8
	leaq 160(%rsp), %r14
	.seh_setframe %r14, 160
	.seh_endprologue
	subq $65520, %rsp
	movq -152(%r14), %r15
	leaq 80(%r14), %rsp
	popq %r13
	popq %r12
	popq %r14
	retq
	.seh_endproc
	.p2align 4, 0xCC
	.seh_proc f3
f3:
	pushq %r12
	.seh_pushreg %r12
	pushq %r13
	.seh_pushreg %r13
	pushq %rbp
	.seh_pushreg %rbp
	pushq %rbx
	.seh_pushreg %rbx
	subq $524296, %rsp
	.seh_stackalloc 524296
	leaq 240(%rsp), %r13
	.seh_setframe %r13, 240
	movq %rdi, 104(%rsp)
	.seh_savereg %rdi, 104
	.seh_endprologue
	movq $128, %rcx
	movq -136(%r13), %rdi
	leaq 524056(%r13), %rsp
	popq %rbx
	popq %rbp
	popq %r13
	popq %r12
	retq
	.seh_endproc
	.p2align 4, 0xCC
	.seh_proc f4
f4:
	pushq %rbp
	.seh_pushreg %rbp
	pushq %r12
	.seh_pushreg %r12
	pushq %r14
	.seh_pushreg %r14
	subq $56, %rsp
	.seh_stackalloc 56
	movq %r15, 48(%rsp)
	.seh_savereg %r15, 48
	movq %rdi, 24(%rsp)
	.seh_savereg %rdi, 24
	leaq 176(%rsp), %rbp
	.seh_setframe %rbp, 176
	movq %r13, 8(%rsp)
	.seh_savereg %r13, 8
	.seh_endprologue
	movq $2147483647, %r11
	nop
	movq -168(%rbp), %r13
	movq -152(%rbp), %rdi
	movq -128(%rbp), %r15
	leaq -120(%rbp), %rsp
	popq %r14
	popq %r12
	popq %rbp
	retq
	.seh_endproc
	.p2align 4, 0xCC
	.seh_proc f5
f5:
	pushq %rbx
	.seh_pushreg %rbx
	pushq %rsi
	.seh_pushreg %rsi
	subq $8, %rsp
	.seh_stackalloc 8
	.seh_endprologue
	nop
	movq $0, %r11
	nop
	movq $-2147483648, %r9
	nop
	nop
	movq $-2147483647, %r8
	nop
	movq $-2147483648, %r10
	addq $8, %rsp
	popq %rsi
	popq %rbx
	retq
	.seh_endproc
	.p2align 4, 0xCC
	.seh_proc f6
f6:
	pushq %r13
	.seh_pushreg %r13
	pushq %rbp
	.seh_pushreg %rbp
	subq $264, %rsp
	.seh_stackalloc 264
	movq %r15, 72(%rsp)
	.seh_savereg %r15, 72
	leaq 208(%rsp), %rbp
	.seh_setframe %rbp, 208
	movq %rdi, 248(%rsp)
	.seh_savereg %rdi, 248
	.seh_endprologue
	subq $144, %rsp
	movq $-128, %r13
	movq $65536, %rdi
	nop
	movq $2147483646, %r10
	movq 40(%rbp), %rdi
	movq -136(%rbp), %r15
	leaq 56(%rbp), %rsp
	popq %rbp
	popq %r13
	retq
	.seh_endproc
	.p2align 4, 0xCC
	.seh_proc f7
f7:
	pushq %r12
	.seh_pushreg %r12
	pushq %rbp
	.seh_pushreg %rbp
	pushq %r14
	.seh_pushreg %r14
	pushq %rdi
	.seh_pushreg %rdi
	subq $524272, %rsp
	.seh_stackalloc 524272
	movq %r13, 200(%rsp)
	.seh_savereg %r13, 200
	leaq 80(%rsp), %rbp
	.seh_setframe %rbp, 80
	movq %rsi, 192(%rsp)
	.seh_savereg %rsi, 192
	movq %r15, 8144(%rsp)
	.seh_savereg %r15, 8144
	movq %rbx, 8(%rsp)
	.seh_savereg %rbx, 8
	.seh_endprologue
	movq -72(%rbp), %rbx
	movq 8064(%rbp), %r15
	movq 112(%rbp), %rsi
	movq 120(%rbp), %r13
	leaq 524192(%rbp), %rsp
	popq %rdi
	popq %r14
	popq %rbp
	popq %r12
	retq
	.seh_endproc

	.text
	.seh_proc f0
f0:
	pushq %rbp
	.seh_pushreg %rbp
	subq $64, %rsp
	.seh_stackalloc 64
	{disp8} movq %rdi, 0(%rsp)
	.seh_savereg %rdi, 0
	.seh_endprologue
	{disp8} movq 0(%rsp), %rdi
	addq $64, %rsp
	popq %rbp
	retq
	.seh_endproc
	.p2align 4, 0xCC
	.seh_proc f1
f1:
	pushq %rbx
	.seh_pushreg %rbx
	pushq %r12
	.seh_pushreg %r12
	subq $1048584, %rsp
	.seh_stackalloc 1048584
	leaq 192(%rsp), %rbx
	.seh_setframe %rbx, 192
	.seh_endprologue
	movq $1, %r10
	callq f1
	nop
	movq $127, %rcx
	movq $128, %r11
	leaq 1048392(%rbx), %rsp
	popq %r12
	popq %rbx
	retq
	.seh_endproc
	.p2align 4, 0xCC
	.seh_proc f2
f2:
	pushq %r12
	.seh_pushreg %r12
	subq $240, %rsp
	.seh_stackalloc 240
	{disp8} movq %r14, 0(%rsp)
	.seh_savereg %r14, 0
	movq %r13, 8(%rsp)
	.seh_savereg %r13, 8
	movq %rdi, 32(%rsp)
	.seh_savereg %rdi, 32
	.seh_endprologue
	movq $65536, %rcx
	movq 32(%rsp), %rdi
	movq 8(%rsp), %r13
	{disp8} movq 0(%rsp), %r14
	addq $240, %rsp
	popq %r12
	retq
	.seh_endproc
	.p2align 4, 0xCC
	.seh_proc f3
f3:
	pushq %r12
	.seh_pushreg %r12
	pushq %r15
	.seh_pushreg %r15
	pushq %rdi
	.seh_pushreg %rdi
	pushq %rbx
	.seh_pushreg %rbx
	pushq %r14
	.seh_pushreg %r14
	pushq %r13
	.seh_pushreg %r13
	pushq %rbp
	.seh_pushreg %rbp
	pushq %rsi
	.seh_pushreg %rsi
	subq $240, %rsp
	.seh_stackalloc 240
	leaq 224(%rsp), %r15
	.seh_setframe %r15, 224
	.seh_endprologue
	leaq 16(%r15), %rsp
	popq %rsi
	popq %rbp
	popq %r13
	popq %r14
	popq %rbx
	popq %rdi
	popq %r15
	popq %r12
	retq
	.seh_endproc

	.text
	.seh_proc f0
f0:
	pushq %r15
	.seh_pushreg %r15
	pushq %rdi
	.seh_pushreg %rdi
	subq $524272, %rsp
	.seh_stackalloc 524272
	leaq 176(%rsp), %r15
	.seh_setframe %r15, 176
	movq %rbp, 136(%rsp)
	.seh_savereg %rbp, 136
	.seh_endprologue
	movq -40(%r15), %rbp
	leaq 524096(%r15), %rsp
	popq %rdi
	popq %r15
	retq
	.seh_endproc
	.p2align 4, 0xCC
	.seh_proc f1
f1:
	subq $56, %rsp
	.seh_stackalloc 56
	.seh_endprologue
	addq $56, %rsp
	retq
	.seh_endproc
	.p2align 4, 0xCC
	.seh_proc f2
f2:
	pushq %rbp
	.seh_pushreg %rbp
	subq $240, %rsp
	.seh_stackalloc 240
	movq %r15, 40(%rsp)
	.seh_savereg %r15, 40
	leaq 160(%rsp), %rbp
	.seh_setframe %rbp, 160
	movq %r12, 8(%rsp)
	.seh_savereg %r12, 8
	movq %rbx, 32(%rsp)
	.seh_savereg %rbx, 32
	movq %rsi, 136(%rsp)
	.seh_savereg %rsi, 136
	movq %r14, 232(%rsp)
	.seh_savereg %r14, 232
	movq %r13, 160(%rsp)
	.seh_savereg %r13, 160
	movq %rdi, 224(%rsp)
	.seh_savereg %rdi, 224
	.seh_endprologue
	movq $2147483646, %rbx
	movq $-1, %rsi
	subq $33408, %rsp
	movq 64(%rbp), %rdi
	{disp8} movq 0(%rbp), %r13
	movq 72(%rbp), %r14
	movq -24(%rbp), %rsi
	movq -128(%rbp), %rbx
	movq -152(%rbp), %r12
	movq -120(%rbp), %r15
	leaq 80(%rbp), %rsp
	popq %rbp
	retq
	.seh_endproc
	.p2align 4, 0xCC
	.seh_proc f3
f3:
	subq $136, %rsp
	.seh_stackalloc 136
	movq %rbx, 120(%rsp)
	.seh_savereg %rbx, 120
	movq %r14, 56(%rsp)
	.seh_savereg %r14, 56
	movq %r15, 32(%rsp)
	.seh_savereg %r15, 32
	movq %rbp, 96(%rsp)
	.seh_savereg %rbp, 96
	movq %r12, 40(%rsp)
	.seh_savereg %r12, 40
	movq %rdi, 72(%rsp)
	.seh_savereg %rdi, 72
	movq %r13, 112(%rsp)
	.seh_savereg %r13, 112
	movq %rsi, 128(%rsp)
	.seh_savereg %rsi, 128
	.seh_endprologue
	movq $-129, %r9
	callq f3
	movq 128(%rsp), %rsi
	movq 112(%rsp), %r13
	movq 72(%rsp), %rdi
	movq 40(%rsp), %r12
	movq 96(%rsp), %rbp
	movq 32(%rsp), %r15
	movq 56(%rsp), %r14
	movq 120(%rsp), %rbx
	addq $136, %rsp
	retq
	.seh_endproc
	.p2align 4, 0xCC
	.seh_proc f4
f4:
	subq $2097152, %rsp
	.seh_stackalloc 2097152
	movq %r12, 524296(%rsp)
	.seh_savereg %r12, 524296
	.seh_endprologue
	movq 524296(%rsp), %r12
	addq $2097152, %rsp
	retq
	.seh_endproc

	.text
	.seh_proc f0
f0:
	pushq %r12
	.seh_pushreg %r12
	subq $56, %rsp
	.seh_stackalloc 56
	movq %rsi, 40(%rsp)
	.seh_savereg %rsi, 40
	movq %rdi, 8(%rsp)
	.seh_savereg %rdi, 8
	.seh_endprologue
	movq $-2147483647, %rdi
	movq 8(%rsp), %rdi
	movq 40(%rsp), %rsi
	addq $56, %rsp
	popq %r12
	retq
	.seh_endproc
	.p2align 4, 0xCC
	.seh_proc f1
f1:
	pushq %rbx
	.seh_pushreg %rbx
	pushq %rsi
	.seh_pushreg %rsi
	pushq %r14
	.seh_pushreg %r14
	pushq %rbp
	.seh_pushreg %rbp
	pushq %r12
	.seh_pushreg %r12
	pushq %r13
	.seh_pushreg %r13
	pushq %r15
	.seh_pushreg %r15
	pushq %rdi
	.seh_pushreg %rdi
	subq $120, %rsp
	.seh_stackalloc 120
	leaq 64(%rsp), %rbx
	.seh_setframe %rbx, 64
	.seh_endprologue
	leaq 56(%rbx), %rsp
	popq %rdi
	popq %r15
	popq %r13
	popq %r12
	popq %rbp
	popq %r14
	popq %rsi
	popq %rbx
	retq
	.seh_endproc
	.p2align 4, 0xCC
	.seh_proc f2
f2:
	pushq %r15
	.seh_pushreg %r15
	subq $40, %rsp
	.seh_stackalloc 40
	leaq 32(%rsp), %r15
	.seh_setframe %r15, 32
	movq %rbp, 8(%rsp)
	.seh_savereg %rbp, 8
	{disp8} movq %rbx, 0(%rsp)
	.seh_savereg %rbx, 0
	movq %r13, 24(%rsp)
	.seh_savereg %r13, 24
	movq %rsi, 32(%rsp)
	.seh_savereg %rsi, 32
	.seh_endprologue
	{disp8} movq 0(%r15), %rsi
	movq -8(%r15), %r13
	movq -32(%r15), %rbx
	movq -24(%r15), %rbp
	leaq 8(%r15), %rsp
	popq %r15
	retq
	.seh_endproc
	.p2align 4, 0xCC
	.seh_proc f3
f3:
	pushq %r14
	.seh_pushreg %r14
	subq $524288, %rsp
	.seh_stackalloc 524288
	.seh_endprologue
	movq $2147483647, %r10
	nop
	callq f0
	addq $524288, %rsp
	popq %r14
	retq
	.seh_endproc
	.p2align 4, 0xCC
	.seh_proc f4
f4:
	pushq %rbx
	.seh_pushreg %rbx
	pushq %r14
	.seh_pushreg %r14
	subq $120, %rsp
	.seh_stackalloc 120
	movq %rsi, 24(%rsp)
	.seh_savereg %rsi, 24
	leaq 176(%rsp), %rbx
	.seh_setframe %rbx, 176
	.seh_endprologue
	subq $65232, %rsp
	movq $-129, %rcx
	subq $16, %rsp
	movq -152(%rbx), %rsi
	leaq -56(%rbx), %rsp
	popq %r14
	popq %rbx
	retq
	.seh_endproc
	.p2align 4, 0xCC
	.seh_proc f5
f5:
	pushq %rbp
	.seh_pushreg %rbp
	leaq 144(%rsp), %rbp
	.seh_setframe %rbp, 144
	.seh_endprologue
	movq $-2147483647, %r8
	leaq -144(%rbp), %rsp
	popq %rbp
	retq
	.seh_endproc

	.text
	.seh_proc f0
f0:
	pushq %rsi
	.seh_pushreg %rsi
	pushq %r15
	.seh_pushreg %r15
	subq $524272, %rsp
	.seh_stackalloc 524272
	leaq 64(%rsp), %r15
	.seh_setframe %r15, 64
	.seh_endprologue
	movq $2147483646, %rdx
	movq $128, %rdx
	movq $-129, %rsi
	leaq 524208(%r15), %rsp
	popq %r15
	popq %rsi
	retq
	.seh_endproc
	.p2align 4, 0xCC
	.seh_proc f1
f1:
	pushq %rsi
	.seh_pushreg %rsi
	subq $524288, %rsp
	.seh_stackalloc 524288
	movq %rbx, 524272(%rsp)
	.seh_savereg %rbx, 524272
	{disp8} leaq 0(%rsp), %rsi
	.seh_setframe %rsi, 0
	.seh_endprologue
	movq $-1, %r8
	nop
	nop
	movq 524272(%rsi), %rbx
	leaq 524288(%rsi), %rsp
	popq %rsi
	retq
	.seh_endproc
	.p2align 4, 0xCC
	.seh_proc f2
f2:
	pushq %rsi
	.seh_pushreg %rsi
	subq $128, %rsp
	.seh_stackalloc 128
	movq %r14, 8(%rsp)
	.seh_savereg %r14, 8
	.seh_endprologue
	nop
	movq 8(%rsp), %r14
	addq $128, %rsp
	popq %rsi
	retq
	.seh_endproc
	.p2align 4, 0xCC
	.seh_proc f3
f3:
	subq $56, %rsp
	.seh_stackalloc 56
	{disp8} movq %rbx, 0(%rsp)
	.seh_savereg %rbx, 0
	.seh_endprologue
	nop
	movq $-2147483648, %r10
	movq $-128, %r9
	movq $-128, %r9
	nop
	movq $2147483647, %r10
	movq $2147483647, %r9
	movq $-1, %r11
	movq $2147483647, %r9
	{disp8} movq 0(%rsp), %rbx
	addq $56, %rsp
	retq
	.seh_endproc
	.p2align 4, 0xCC
	.seh_proc f4
f4:
	pushq %r13
	.seh_pushreg %r13
	pushq %r15
	.seh_pushreg %r15
	pushq %rbx
	.seh_pushreg %rbx
	pushq %r12
	.seh_pushreg %r12
	subq $40, %rsp
	.seh_stackalloc 40
	movq %rdi, 32(%rsp)
	.seh_savereg %rdi, 32
	leaq 160(%rsp), %r15
	.seh_setframe %r15, 160
	.seh_endprologue
	callq f0
	movq $-2147483648, %rdi
	movq -128(%r15), %rdi
	leaq -120(%r15), %rsp
	popq %r12
	popq %rbx
	popq %r15
	popq %r13
	retq
	.seh_endproc
	.p2align 4, 0xCC
	.seh_proc f5
f5:
	pushq %rdi
	.seh_pushreg %rdi
	subq $256, %rsp
	.seh_stackalloc 256
	leaq 16(%rsp), %rdi
	.seh_setframe %rdi, 16
	.seh_endprologue
	callq f1
	callq f3
	movq $1, %rax
	nop
	movq $-128, %r10
	leaq 240(%rdi), %rsp
	popq %rdi
	retq
	.seh_endproc
	.p2align 4, 0xCC
	.seh_proc f6
f6:
	pushq %r14
	.seh_pushreg %r14
	subq $2097136, %rsp
	.seh_stackalloc 2097136
	{disp8} leaq 0(%rsp), %r14
	.seh_setframe %r14, 0
	.seh_endprologue
	movq $-129, %rax
	callq f1
	movq $128, %rax
	nop
	movq $127, %r8
	leaq 2097136(%r14), %rsp
	popq %r14
	retq
	.seh_endproc

	.text
	.seh_proc f0
f0:
	pushq %rdi
	.seh_pushreg %rdi
	subq $524280, %rsp
	.seh_stackalloc 524280
	movq %r13, 524272(%rsp)
	.seh_savereg %r13, 524272
	leaq 48(%rsp), %rdi
	.seh_setframe %rdi, 48
	.seh_endprologue
	movq $-2147483648, %rax
	movq $2147483647, %r8
	movq $-1, %rdx
	movq $-2147483648, %r8
	subq $112, %rsp
	movq $1, %r8
	nop
	movq $128, %r10
	movq $-2147483648, %r9
	movq 524224(%rdi), %r13
	leaq 524232(%rdi), %rsp
	popq %rdi
	retq
	.seh_endproc
	.p2align 4, 0xCC
	.seh_proc f1
f1:
	pushq %rdi
	.seh_pushreg %rdi
	pushq %r12
	.seh_pushreg %r12
	pushq %r13
	.seh_pushreg %r13
	pushq %rbp
	.seh_pushreg %rbp
	pushq %rbx
	.seh_pushreg %rbx
	pushq %r15
	.seh_pushreg %r15
	pushq %r14
	.seh_pushreg %r14
	pushq %rsi
	.seh_pushreg %rsi
	subq $112, %rsp
	.seh_stackalloc 112
	leaq 224(%rsp), %rdi
	.seh_setframe %rdi, 224
	.seh_endprologue
	movq $-2147483647, %rsi
	leaq -112(%rdi), %rsp
	popq %rsi
	popq %r14
	popq %r15
	popq %rbx
	popq %rbp
	popq %r13
	popq %r12
	popq %rdi
	retq
	.seh_endproc
	.p2align 4, 0xCC
	.seh_proc f2
f2:
	pushq %r12
	.seh_pushreg %r12
	pushq %rbx
	.seh_pushreg %rbx
	subq $136, %rsp
	.seh_stackalloc 136
	movq %r13, 32(%rsp)
	.seh_savereg %r13, 32
	.seh_endprologue
	movq 32(%rsp), %r13
	addq $136, %rsp
	popq %rbx
	popq %r12
	retq
	.seh_endproc
	.p2align 4, 0xCC
	.seh_proc f3
f3:
	pushq %r12
	.seh_pushreg %r12
	subq $112, %rsp
	.seh_stackalloc 112
	.seh_endprologue
	movq $128, %rcx
	nop
	movq $128, %r8
	movq $1, %rax
	movq $0, %rax
	nop
	nop
	movq $-128, %rdx
	nop
	addq $112, %rsp
	popq %r12
	retq
	.seh_endproc
	.p2align 4, 0xCC
	.seh_proc f4
f4:
	pushq %rdi
	.seh_pushreg %rdi
	pushq %r12
	.seh_pushreg %r12
	pushq %r13
	.seh_pushreg %r13
	pushq %rsi
	.seh_pushreg %rsi
	pushq %rbx
	.seh_pushreg %rbx
	pushq %r15
	.seh_pushreg %r15
	pushq %rbp
	.seh_pushreg %rbp
	pushq %r14
	.seh_pushreg %r14
	subq $120, %rsp
	.seh_stackalloc 120
	leaq 80(%rsp), %rdi
	.seh_setframe %rdi, 80
	.seh_endprologue
	callq f6
	subq $16, %rsp
	callq f1
	nop
	callq f5
	leaq 40(%rdi), %rsp
	popq %r14
	popq %rbp
	popq %r15
	popq %rbx
	popq %rsi
	popq %r13
	popq %r12
	popq %rdi
	retq
	.seh_endproc
	.p2align 4, 0xCC
	.seh_proc f5
f5:
	pushq %rdi
	.seh_pushreg %rdi
	subq $144, %rsp
	.seh_stackalloc 144
	movq %rbx, 32(%rsp)
	.seh_savereg %rbx, 32
	leaq 112(%rsp), %rdi
	.seh_setframe %rdi, 112
	movq %r14, 128(%rsp)
	.seh_savereg %r14, 128
	movq %r15, 40(%rsp)
	.seh_savereg %r15, 40
	{disp8} movq %r12, 0(%rsp)
	.seh_savereg %r12, 0
	movq %rsi, 104(%rsp)
	.seh_savereg %rsi, 104
	movq %rbp, 120(%rsp)
	.seh_savereg %rbp, 120
	movq %r13, 112(%rsp)
	.seh_savereg %r13, 112
	.seh_endprologue
	movq $0, %r8
	subq $128, %rsp
	subq $128, %rsp
	movq $2147483646, %rbp
	movq $-2147483647, %rcx
	{disp8} movq 0(%rdi), %r13
	movq 8(%rdi), %rbp
	movq -8(%rdi), %rsi
	movq -112(%rdi), %r12
	movq -72(%rdi), %r15
	movq 16(%rdi), %r14
	movq -80(%rdi), %rbx
	leaq 32(%rdi), %rsp
	popq %rdi
	retq
	.seh_endproc
	.p2align 4, 0xCC
	.seh_proc f6
f6:
	pushq %r12
	.seh_pushreg %r12
	pushq %rsi
	.seh_pushreg %rsi
	subq $524296, %rsp
	.seh_stackalloc 524296
	movq %rbx, 524264(%rsp)
	.seh_savereg %rbx, 524264
	movq %r13, 120(%rsp)
	.seh_savereg %r13, 120
	movq %r14, 283592(%rsp)
	.seh_savereg %r14, 283592
	.seh_endprologue
	nop
	movq $1, %rsi
	movq $128, %rdx
	nop
	nop
	movq $2147483647, %rdx
	nop
	movq $-2147483648, %r11
	nop
	movq 283592(%rsp), %r14
	movq 120(%rsp), %r13
	movq 524264(%rsp), %rbx
	addq $524296, %rsp
	popq %rsi
	popq %r12
	retq
	.seh_endproc
	.p2align 4, 0xCC
	.seh_proc f7
f7:
	pushq %rbp
	.seh_pushreg %rbp
	pushq %r14
	.seh_pushreg %r14
	subq $1048584, %rsp
	.seh_stackalloc 1048584
	movq %rsi, 296(%rsp)
	.seh_savereg %rsi, 296
	leaq 176(%rsp), %r14
	.seh_setframe %r14, 176
	movq %r15, 48(%rsp)
	.seh_savereg %r15, 48
	movq %rbx, 589512(%rsp)
	.seh_savereg %rbx, 589512
	.seh_endprologue
	movq $127, %r8
	callq f2
	callq f3
	movq 589336(%r14), %rbx
	movq -128(%r14), %r15
	movq 120(%r14), %rsi
	leaq 1048408(%r14), %rsp
	popq %r14
	popq %rbp
	retq
	.seh_endproc

	.text
	.seh_proc f0
f0:
	subq $524296, %rsp
	.seh_stackalloc 524296
	movq %rdi, 524272(%rsp)
	.seh_savereg %rdi, 524272
	.seh_endprologue
	movq 524272(%rsp), %rdi
	addq $524296, %rsp
	retq
	.seh_endproc
	.p2align 4, 0xCC
	.seh_proc f1
f1:
	pushq %r15
	.seh_pushreg %r15
	pushq %rsi
	.seh_pushreg %rsi
	pushq %rdi
	.seh_pushreg %rdi
	pushq %rbx
	.seh_pushreg %rbx
	pushq %r12
	.seh_pushreg %r12
	pushq %r14
	.seh_pushreg %r14
	pushq %r13
	.seh_pushreg %r13
	pushq %rbp
	.seh_pushreg %rbp
	subq $40, %rsp
	.seh_stackalloc 40
	leaq 96(%rsp), %r15
	.seh_setframe %r15, 96
	.seh_endprologue
	nop
	leaq -56(%r15), %rsp
	popq %rbp
	popq %r13
	popq %r14
	popq %r12
	popq %rbx
	popq %rdi
	popq %rsi
	popq %r15
	retq
	.seh_endproc
	.p2align 4, 0xCC
	.seh_proc f2
f2:
	subq $1048584, %rsp
	.seh_stackalloc 1048584
	movq %rbx, 1048576(%rsp)
	.seh_savereg %rbx, 1048576
	.seh_endprologue
	movq 1048576(%rsp), %rbx
	addq $1048584, %rsp
	retq
	.seh_endproc
	.p2align 4, 0xCC
	.seh_proc f3
f3:
	pushq %r14
	.seh_pushreg %r14
	pushq %r15
	.seh_pushreg %r15
	pushq %rdi
	.seh_pushreg %rdi
	pushq %rbp
	.seh_pushreg %rbp
	subq $40, %rsp
	.seh_stackalloc 40
	leaq 112(%rsp), %r14
	.seh_setframe %r14, 112
	movq %r13, 32(%rsp)
	.seh_savereg %r13, 32
	.seh_endprologue
	callq f2
	movq -80(%r14), %r13
	leaq -72(%r14), %rsp
	popq %rbp
	popq %rdi
	popq %r15
	popq %r14
	retq
	.seh_endproc

	.text
	.seh_proc f0
f0:
	pushq %rbx
	.seh_pushreg %rbx
	pushq %r15
	.seh_pushreg %r15
	pushq %r12
	.seh_pushreg %r12
	pushq %rdi
	.seh_pushreg %rdi
	subq $24, %rsp
	.seh_stackalloc 24
	leaq 176(%rsp), %rbx
	.seh_setframe %rbx, 176
	.seh_endprologue
	movq $-1, %r12
	movq $0, %r9
	movq $128, %rdi
	leaq -152(%rbx), %rsp
	popq %rdi
	popq %r12
	popq %r15
	popq %rbx
	retq
	.seh_endproc
	.p2align 4, 0xCC
	.seh_proc f1
f1:
	pushq %rbp
	.seh_pushreg %rbp
	pushq %r12
	.seh_pushreg %r12
	pushq %rsi
	.seh_pushreg %rsi
	pushq %r14
	.seh_pushreg %r14
	subq $4104, %rsp
	.seh_stackalloc 4104
	movq %rbx, 32(%rsp)
	.seh_savereg %rbx, 32
	movq %r13, 3488(%rsp)
	.seh_savereg %r13, 3488
	movq %r15, 136(%rsp)
	.seh_savereg %r15, 136
	movq %rdi, 120(%rsp)
	.seh_savereg %rdi, 120
	leaq 16(%rsp), %rbp
	.seh_setframe %rbp, 16
	.seh_endprologue
	movq $-128, %rdi
	nop
	movq $65536, %r9
	nop
	callq f3
	callq f3
	nop
	subq $16, %rsp
	nop
	movq 104(%rbp), %rdi
	movq 120(%rbp), %r15
	movq 3472(%rbp), %r13
	movq 16(%rbp), %rbx
	leaq 4088(%rbp), %rsp
	popq %r14
	popq %rsi
	popq %r12
	popq %rbp
	retq
	.seh_endproc
	.p2align 4, 0xCC
	.seh_proc f2
f2:
	subq $8, %rsp
	.seh_stackalloc 8
	{disp8} movq %rsi, 0(%rsp)
	.seh_savereg %rsi, 0
	.seh_endprologue
	movq $1, %rsi
	{disp8} movq 0(%rsp), %rsi
	addq $8, %rsp
	retq
	.seh_endproc
	.p2align 4, 0xCC
	.seh_proc f3
f3:
	pushq %rbp
	.seh_pushreg %rbp
	pushq %r15
	.seh_pushreg %r15
	pushq %r13
	.seh_pushreg %r13
	pushq %r14
	.seh_pushreg %r14
	subq $40, %rsp
	.seh_stackalloc 40
	movq %rdi, 32(%rsp)
	.seh_savereg %rdi, 32
	leaq 80(%rsp), %rbp
	.seh_setframe %rbp, 80
	.seh_endprologue
	movq $1, %r15
	callq f0
	subq $19488, %rsp
	callq f0
	movq $1605469289, %r10
	subq $65504, %rsp
	movq $0, %rdx
	movq $0, %rdi
	movq $682648426, %r11
	movq -48(%rbp), %rdi
	leaq -40(%rbp), %rsp
	popq %r14
	popq %r13
	popq %r15
	popq %rbp
	retq
	.seh_endproc
	.p2align 4, 0xCC
	.seh_proc f4
f4:
	pushq %rdi
	.seh_pushreg %rdi
	pushq %rbp
	.seh_pushreg %rbp
	pushq %rsi
	.seh_pushreg %rsi
	subq $128, %rsp
	.seh_stackalloc 128
	movq %r12, 64(%rsp)
	.seh_savereg %r12, 64
	movq %r13, 56(%rsp)
	.seh_savereg %r13, 56
	leaq 192(%rsp), %rbp
	.seh_setframe %rbp, 192
	.seh_endprologue
	subq $32, %rsp
	subq $65520, %rsp
	callq f3
	movq -136(%rbp), %r13
	movq -128(%rbp), %r12
	leaq -64(%rbp), %rsp
	popq %rsi
	popq %rbp
	popq %rdi
	retq
	.seh_endproc

	.text
	.seh_proc f0
f0:
	subq $524296, %rsp
	.seh_stackalloc 524296
	movq %rdi, 487352(%rsp)
	.seh_savereg %rdi, 487352
	movq %r15, 120(%rsp)
	.seh_savereg %r15, 120
	movq %rbp, 524288(%rsp)
	.seh_savereg %rbp, 524288
	.seh_endprologue
	movq $127, %r10
	movq $2147483646, %r15
	movq 524288(%rsp), %rbp
	movq 120(%rsp), %r15
	movq 487352(%rsp), %rdi
	addq $524296, %rsp
	retq
	.seh_endproc
	.p2align 4, 0xCC
	.seh_proc f1
f1:
	pushq %rsi
	.seh_pushreg %rsi
	pushq %rbp
	.seh_pushreg %rbp
	subq $524296, %rsp
	.seh_stackalloc 524296
	movq %r13, 302912(%rsp)
	.seh_savereg %r13, 302912
	leaq 112(%rsp), %rsi
	.seh_setframe %rsi, 112
	.seh_endprologue
	subq $52672, %rsp
	movq $-2147483648, %rdx
	movq $1, %rdx
	movq 302800(%rsi), %r13
	leaq 524184(%rsi), %rsp
	popq %rbp
	popq %rsi
	retq
	.seh_endproc
	.p2align 4, 0xCC
	.seh_proc f2
f2:
	pushq %rdi
	.seh_pushreg %rdi
	pushq %r15
	.seh_pushreg %r15
	pushq %rbp
	.seh_pushreg %rbp
	subq $524288, %rsp
	.seh_stackalloc 524288
	leaq 224(%rsp), %rdi
	.seh_setframe %rdi, 224
	movq %rbx, 112(%rsp)
	.seh_savereg %rbx, 112
	movq %r13, 524264(%rsp)
	.seh_savereg %r13, 524264
	.seh_endprologue
	movq 524040(%rdi), %r13
	movq -112(%rdi), %rbx
	leaq 524064(%rdi), %rsp
	popq %rbp
	popq %r15
	popq %rdi
	retq
	.seh_endproc
	.p2align 4, 0xCC
	.seh_proc f3
f3:
	pushq %rbp
	.seh_pushreg %rbp
	pushq %r14
	.seh_pushreg %r14
	subq $112, %rsp
	.seh_stackalloc 112
	movq %rsi, 104(%rsp)
	.seh_savereg %rsi, 104
	leaq 112(%rsp), %rbp
	.seh_setframe %rbp, 112
	movq %r12, 24(%rsp)
	.seh_savereg %r12, 24
	movq %rbx, 40(%rsp)
	.seh_savereg %rbx, 40
	.seh_endprologue
	subq $65520, %rsp
	subq $32, %rsp
	subq $144, %rsp
	movq -72(%rbp), %rbx
	movq -88(%rbp), %r12
	movq -8(%rbp), %rsi
	{disp8} leaq 0(%rbp), %rsp
	popq %r14
	popq %rbp
	retq
	.seh_endproc
	.p2align 4, 0xCC
	.seh_proc f4
f4:
	pushq %rdi
	.seh_pushreg %rdi
	pushq %r14
	.seh_pushreg %r14
	subq $112, %rsp
	.seh_stackalloc 112
	leaq 144(%rsp), %rdi
	.seh_setframe %rdi, 144
	.seh_endprologue
	movq $2147483646, %r10
	leaq -32(%rdi), %rsp
	popq %r14
	popq %rdi
	retq
	.seh_endproc
	.p2align 4, 0xCC
	.seh_proc f5
f5:
	subq $2097144, %rsp
	.seh_stackalloc 2097144
	movq %r12, 40(%rsp)
	.seh_savereg %r12, 40
	movq %rsi, 136(%rsp)
	.seh_savereg %rsi, 136
	movq %rbp, 178096(%rsp)
	.seh_savereg %rbp, 178096
	.seh_endprologue
	movq $1, %r11
	movq $-96536572, %r9
	nop
	callq f1
	callq f5
	callq f3
	nop
	movq $127, %rcx
	movq $-2147483647, %rcx
	movq 178096(%rsp), %rbp
	movq 136(%rsp), %rsi
	movq 40(%rsp), %r12
	addq $2097144, %rsp
	retq
	.seh_endproc

	.text
	.seh_proc f0
f0:
	pushq %rsi
	.seh_pushreg %rsi
	pushq %r12
	.seh_pushreg %r12
	pushq %rdi
	.seh_pushreg %rdi
	pushq %rbx
	.seh_pushreg %rbx
	subq $4096, %rsp
	.seh_stackalloc 4096
	leaq 16(%rsp), %rdi
	.seh_setframe %rdi, 16
	.seh_endprologue
	nop
	nop
	movq $0, %r12
	subq $65504, %rsp
	movq $0, %r8
	leaq 4080(%rdi), %rsp
	popq %rbx
	popq %rdi
	popq %r12
	popq %rsi
	retq
	.seh_endproc
	.p2align 4, 0xCC
	.seh_proc f1
f1:
	pushq %rbx
	.seh_pushreg %rbx
	subq $32, %rsp
	.seh_stackalloc 32
	{disp8} leaq 0(%rsp), %rbx
	.seh_setframe %rbx, 0
	.seh_endprologue
	leaq 32(%rbx), %rsp
	popq %rbx
	retq
	.seh_endproc
	.p2align 4, 0xCC
	.seh_proc f2
f2:
	pushq %r13
	.seh_pushreg %r13
	pushq %r14
	.seh_pushreg %r14
	pushq %r15
	.seh_pushreg %r15
	subq $2097144, %rsp
	.seh_stackalloc 2097144
	movq %rbx, 40(%rsp)
	.seh_savereg %rbx, 40
	movq %rbp, 1939680(%rsp)
	.seh_savereg %rbp, 1939680
	movq %r12, 73496(%rsp)
	.seh_savereg %r12, 73496
	.seh_endprologue
	nop
	movq $2147483646, %rbx
	nop
	movq 73496(%rsp), %r12
	movq 1939680(%rsp), %rbp
	movq 40(%rsp), %rbx
	addq $2097144, %rsp
	popq %r15
	popq %r14
	popq %r13
	retq
	.seh_endproc
	.p2align 4, 0xCC
	.seh_proc f3
f3:
	pushq %r13
	.seh_pushreg %r13
	subq $128, %rsp
	.seh_stackalloc 128
	leaq 32(%rsp), %r13
	.seh_setframe %r13, 32
	movq %rdi, 8(%rsp)
	.seh_savereg %rdi, 8
	movq %r14, 64(%rsp)
	.seh_savereg %r14, 64
	.seh_endprologue
	movq $-2147483648, %r10
	movq $-128, %r8
	subq $128, %rsp
	movq 32(%r13), %r14
	movq -24(%r13), %rdi
	leaq 96(%r13), %rsp
	popq %r13
	retq
	.seh_endproc
	.p2align 4, 0xCC
	.seh_proc f4
f4:
	pushq %rbx
	.seh_pushreg %rbx
	pushq %r15
	.seh_pushreg %r15
	pushq %rsi
	.seh_pushreg %rsi
	subq $524280, %rsp
	.seh_stackalloc 524280
	leaq 224(%rsp), %r15
	.seh_setframe %r15, 224
	movq %rdi, 136(%rsp)
	.seh_savereg %rdi, 136
	.seh_endprologue
	nop
	movq -88(%r15), %rdi
	leaq 524056(%r15), %rsp
	popq %rsi
	popq %r15
	popq %rbx
	retq
	.seh_endproc
	.p2align 4, 0xCC
	.seh_proc f5
f5:
	pushq %rbp
	.seh_pushreg %rbp
	pushq %rbx
	.seh_pushreg %rbx
	subq $2097144, %rsp
	.seh_stackalloc 2097144
	movq %r15, 524264(%rsp)
	.seh_savereg %r15, 524264
	movq %r12, 524296(%rsp)
	.seh_savereg %r12, 524296
	leaq 128(%rsp), %rbp
	.seh_setframe %rbp, 128
	movq %r13, 136(%rsp)
	.seh_savereg %r13, 136
	.seh_endprologue
	subq $32, %rsp
	movq 8(%rbp), %r13
	movq 524168(%rbp), %r12
	movq 524136(%rbp), %r15
	leaq 2097016(%rbp), %rsp
	popq %rbx
	popq %rbp
	retq
	.seh_endproc
	.p2align 4, 0xCC
	.seh_proc f6
f6:
	pushq %rdi
	.seh_pushreg %rdi
	subq $64, %rsp
	.seh_stackalloc 64
	leaq 128(%rsp), %rdi
	.seh_setframe %rdi, 128
	movq %r14, 48(%rsp)
	.seh_savereg %r14, 48
	.seh_endprologue
	subq $4096, %rsp
	subq $17520, %rsp
	callq f0
	callq f4
	movq $2147483646, %r9
	movq -80(%rdi), %r14
	leaq -64(%rdi), %rsp
	popq %rdi
	retq
	.seh_endproc

	.text
	.seh_proc f0
f0:
	pushq %rdi
	.seh_pushreg %rdi
	pushq %r14
	.seh_pushreg %r14
	pushq %r15
	.seh_pushreg %r15
	pushq %rbx
	.seh_pushreg %rbx
	subq $2097152, %rsp
	.seh_stackalloc 2097152
	leaq 128(%rsp), %rdi
	.seh_setframe %rdi, 128
	movq %r13, 2097144(%rsp)
	.seh_savereg %r13, 2097144
	movq %r12, 240(%rsp)
	.seh_savereg %r12, 240
	.seh_endprologue
	subq $65520, %rsp
	movq 112(%rdi), %r12
	movq 2097016(%rdi), %r13
	leaq 2097024(%rdi), %rsp
	popq %rbx
	popq %r15
	popq %r14
	popq %rdi
	retq
	.seh_endproc
	.p2align 4, 0xCC
	.seh_proc f1
f1:
	pushq %r13
	.seh_pushreg %r13
	pushq %rsi
	.seh_pushreg %rsi
	pushq %r15
	.seh_pushreg %r15
	pushq %rdi
	.seh_pushreg %rdi
	pushq %rbp
	.seh_pushreg %rbp
	pushq %r12
	.seh_pushreg %r12
	pushq %rbx
	.seh_pushreg %rbx
	pushq %r14
	.seh_pushreg %r14
	subq $24, %rsp
	.seh_stackalloc 24
	leaq 176(%rsp), %r13
	.seh_setframe %r13, 176
	.seh_endprologue
	subq $65520, %rsp
	movq $2147483646, %rdx
	subq $65520, %rsp
	leaq -152(%r13), %rsp
	popq %r14
	popq %rbx
	popq %r12
	popq %rbp
	popq %rdi
	popq %r15
	popq %rsi
	popq %r13
	retq
	.seh_endproc
	.p2align 4, 0xCC
	.seh_proc f2
f2:
	pushq %rbx
	.seh_pushreg %rbx
	pushq %rdi
	.seh_pushreg %rdi
	subq $524280, %rsp
	.seh_stackalloc 524280
	movq %r13, 128(%rsp)
	.seh_savereg %r13, 128
	movq %rbp, 42424(%rsp)
	.seh_savereg %rbp, 42424
	movq %rsi, 8(%rsp)
	.seh_savereg %rsi, 8
	leaq 96(%rsp), %rbx
	.seh_setframe %rbx, 96
	.seh_endprologue
	nop
	subq $16, %rsp
	nop
	movq $65536, %r10
	subq $51600, %rsp
	movq -88(%rbx), %rsi
	movq 42328(%rbx), %rbp
	movq 32(%rbx), %r13
	leaq 524184(%rbx), %rsp
	popq %rdi
	popq %rbx
	retq
	.seh_endproc
	.p2align 4, 0xCC
	.seh_proc f3
f3:
	pushq %rdi
	.seh_pushreg %rdi
	pushq %r15
	.seh_pushreg %r15
	pushq %rbx
	.seh_pushreg %rbx
	subq $128, %rsp
	.seh_stackalloc 128
	{disp8} movq %rbp, 0(%rsp)
	.seh_savereg %rbp, 0
	movq %rsi, 24(%rsp)
	.seh_savereg %rsi, 24
	{disp8} leaq 0(%rsp), %r15
	.seh_setframe %r15, 0
	.seh_endprologue
	movq $-2147483648, %r8
	movq 24(%r15), %rsi
	{disp8} movq 0(%r15), %rbp
	leaq 128(%r15), %rsp
	popq %rbx
	popq %r15
	popq %rdi
	retq
	.seh_endproc
	.p2align 4, 0xCC
	.seh_proc f4
f4:
	pushq %r13
	.seh_pushreg %r13
	pushq %r14
	.seh_pushreg %r14
	subq $592224, %rsp
	.seh_stackalloc 592224
	movq %rbp, 112(%rsp)
	.seh_savereg %rbp, 112
	leaq 64(%rsp), %r14
	.seh_setframe %r14, 64
	movq %rdi, 64(%rsp)
	.seh_savereg %rdi, 64
	.seh_endprologue
	nop
	movq $0, %r13
	nop
	nop
	movq $-2147483647, %r13
	movq $-2147483647, %r11
	subq $4096, %rsp
	movq $1, %rdi
	subq $32, %rsp
	{disp8} movq 0(%r14), %rdi
	movq 48(%r14), %rbp
	leaq 592160(%r14), %rsp
	popq %r14
	popq %r13
	retq
	.seh_endproc
	.p2align 4, 0xCC
	.seh_proc f5
f5:
	pushq %rbp
	.seh_pushreg %rbp
	subq $524272, %rsp
	.seh_stackalloc 524272
	leaq 208(%rsp), %rbp
	.seh_setframe %rbp, 208
	.seh_endprologue
	leaq 524064(%rbp), %rsp
	popq %rbp
	retq
	.seh_endproc
	.p2align 4, 0xCC
	.seh_proc f6
f6:
	subq $524272, %rsp
	.seh_stackalloc 524272
	.seh_endprologue
	movq $65536, %rdx
	movq $1, %r10
	nop
	addq $524272, %rsp
	retq
	.seh_endproc
	.p2align 4, 0xCC
	.seh_proc f7
f7:
	pushq %r13
	.seh_pushreg %r13
	pushq %r15
	.seh_pushreg %r15
	pushq %rdi
	.seh_pushreg %rdi
	pushq %r14
	.seh_pushreg %r14
	pushq %rbp
	.seh_pushreg %rbp
	pushq %rbx
	.seh_pushreg %rbx
	pushq %r12
	.seh_pushreg %r12
	pushq %rsi
	.seh_pushreg %rsi
	subq $56, %rsp
	.seh_stackalloc 56
	leaq 208(%rsp), %r15
	.seh_setframe %r15, 208
	.seh_endprologue
	nop
	movq $128, %rbp
	nop
	leaq -152(%r15), %rsp
	popq %rsi
	popq %r12
	popq %rbx
	popq %rbp
	popq %r14
	popq %rdi
	popq %r15
	popq %r13
	retq
	.seh_endproc

	.text
	.seh_proc f0
f0:
	pushq %r14
	.seh_pushreg %r14
	pushq %rdi
	.seh_pushreg %rdi
	subq $240, %rsp
	.seh_stackalloc 240
	movq %rbp, 8(%rsp)
	.seh_savereg %rbp, 8
	{disp8} movq %r15, 0(%rsp)
	.seh_savereg %r15, 0
	.seh_endprologue
	movq $1, %rbp
	movq $-2147483647, %rax
	{disp8} movq 0(%rsp), %r15
	movq 8(%rsp), %rbp
	addq $240, %rsp
	popq %rdi
	popq %r14
	retq
	.seh_endproc
	.p2align 4, 0xCC
	.seh_proc f1
f1:
	pushq %rsi
	.seh_pushreg %rsi
	subq $144, %rsp
	.seh_stackalloc 144
	leaq 32(%rsp), %rsi
	.seh_setframe %rsi, 32
	movq %r15, 32(%rsp)
	.seh_savereg %r15, 32
	movq %r12, 40(%rsp)
	.seh_savereg %r12, 40
	movq %rbx, 136(%rsp)
	.seh_savereg %rbx, 136
	.seh_endprologue
	subq $4096, %rsp
	callq f1
	subq $16, %rsp
	movq $-129, %r9
	nop
	movq 104(%rsi), %rbx
	movq 8(%rsi), %r12
	{disp8} movq 0(%rsi), %r15
	leaq 112(%rsi), %rsp
	popq %rsi
	retq
	.seh_endproc
	.p2align 4, 0xCC
	.seh_proc f2
f2:
	subq $2097152, %rsp
	.seh_stackalloc 2097152
	.seh_endprologue
	movq $-129, %r11
	nop
	nop
	addq $2097152, %rsp
	retq
	.seh_endproc
	.p2align 4, 0xCC
	.seh_proc f3
f3:
	pushq %r12
	.seh_pushreg %r12
	pushq %r15
	.seh_pushreg %r15
	pushq %r13
	.seh_pushreg %r13
	pushq %rsi
	.seh_pushreg %rsi
	pushq %rbx
	.seh_pushreg %rbx
	pushq %rbp
	.seh_pushreg %rbp
	pushq %r14
	.seh_pushreg %r14
	pushq %rdi
	.seh_pushreg %rdi
	subq $40, %rsp
	.seh_stackalloc 40
	leaq 160(%rsp), %r13
	.seh_setframe %r13, 160
	.seh_endprologue
	movq $-1, %rsi
	callq f1
	callq f3
	callq f3
	nop
	subq $59296, %rsp
	callq f1
	movq $2044169353, %r11
	nop
	leaq -120(%r13), %rsp
	popq %rdi
	popq %r14
	popq %rbp
	popq %rbx
	popq %rsi
	popq %r13
	popq %r15
	popq %r12
	retq
	.seh_endproc

	.text
	.seh_proc f0
f0:
	pushq %r12
	.seh_pushreg %r12
	pushq %rbx
	.seh_pushreg %rbx
	pushq %r15
	.seh_pushreg %r15
	pushq %rbp
	.seh_pushreg %rbp
	subq $524264, %rsp
	.seh_stackalloc 524264
	leaq 240(%rsp), %r15
	.seh_setframe %r15, 240
	.seh_endprologue
	nop
	leaq 524024(%r15), %rsp
	popq %rbp
	popq %r15
	popq %rbx
	popq %r12
	retq
	.seh_endproc
	.p2align 4, 0xCC
	.seh_proc f1
f1:
	pushq %r15
	.seh_pushreg %r15
	pushq %rsi
	.seh_pushreg %rsi
	pushq %rdi
	.seh_pushreg %rdi
	pushq %r13
	.seh_pushreg %r13
	subq $240, %rsp
	.seh_stackalloc 240
	leaq 192(%rsp), %rsi
	.seh_setframe %rsi, 192
	movq %rbp, 32(%rsp)
	.seh_savereg %rbp, 32
	.seh_endprologue
	movq $-128, %r8
	movq $-129, %rdx
	movq -160(%rsi), %rbp
	leaq 48(%rsi), %rsp
	popq %r13
	popq %rdi
	popq %rsi
	popq %r15
	retq
	.seh_endproc
	.p2align 4, 0xCC
	.seh_proc f2
f2:
	pushq %r12
	.seh_pushreg %r12
	subq $56, %rsp
	.seh_stackalloc 56
	.seh_endprologue
	movq $1, %r10
	movq $65536, %rdx
	movq $2147483647, %r12
	addq $56, %rsp
	popq %r12
	retq
	.seh_endproc
	.p2align 4, 0xCC
	.seh_proc f3
f3:
	pushq %r15
	.seh_pushreg %r15
	subq $248, %rsp
	.seh_stackalloc 248
	movq %rdi, 240(%rsp)
	.seh_savereg %rdi, 240
	.seh_endprologue
	movq $-1, %r10
	movq 240(%rsp), %rdi
	addq $248, %rsp
	popq %r15
	retq
	.seh_endproc
	.p2align 4, 0xCC
	.seh_proc f4
f4:
	pushq %rbx
	.seh_pushreg %rbx
	pushq %rdi
	.seh_pushreg %rdi
	pushq %rsi
	.seh_pushreg %rsi
	subq $4096, %rsp
	.seh_stackalloc 4096
	movq %r12, 200(%rsp)
	.seh_savereg %r12, 200
	leaq 80(%rsp), %rbx
	.seh_setframe %rbx, 80
	.seh_endprologue
	nop
	movq $1, %rdi
	nop
	movq $-2147483647, %rdi
	movq $2147483647, %r10
	movq 120(%rbx), %r12
	leaq 4016(%rbx), %rsp
	popq %rsi
	popq %rdi
	popq %rbx
	retq
	.seh_endproc

	.text
	.seh_proc f0
f0:
	pushq %r12
	.seh_pushreg %r12
	subq $256, %rsp
	.seh_stackalloc 256
	.seh_endprologue
	callq f5
	nop
	callq f2
	movq $2147483647, %r9
	nop
	movq $2147483646, %rdx
	callq f4
	movq $2147483647, %r9
	callq f4
	addq $256, %rsp
	popq %r12
	retq
	.seh_endproc
	.p2align 4, 0xCC
	.seh_proc f1
f1:
	pushq %r15
	.seh_pushreg %r15
	subq $144, %rsp
	.seh_stackalloc 144
	movq %r14, 136(%rsp)
	.seh_savereg %r14, 136
	.seh_endprologue
	nop
	movq 136(%rsp), %r14
	addq $144, %rsp
	popq %r15
	retq
	.seh_endproc
	.p2align 4, 0xCC
	.seh_proc f2
f2:
	pushq %rbx
	.seh_pushreg %rbx
	subq $524272, %rsp
	.seh_stackalloc 524272
	leaq 64(%rsp), %rbx
	.seh_setframe %rbx, 64
	.seh_endprologue
	leaq 524208(%rbx), %rsp
	popq %rbx
	retq
	.seh_endproc
	.p2align 4, 0xCC
	.seh_proc f3
f3:
	pushq %rbx
	.seh_pushreg %rbx
	pushq %rsi
	.seh_pushreg %rsi
	pushq %r13
	.seh_pushreg %r13
	{disp8} leaq 0(%rsp), %rsi
	.seh_setframe %rsi, 0
	.seh_endprologue
	subq $65520, %rsp
	movq $0, %r9
	{disp8} leaq 0(%rsi), %rsp
	popq %r13
	popq %rsi
	popq %rbx
	retq
	.seh_endproc
	.p2align 4, 0xCC
	.seh_proc f4
f4:
	pushq %r15
	.seh_pushreg %r15
	subq $240, %rsp
	.seh_stackalloc 240
	movq %r12, 128(%rsp)
	.seh_savereg %r12, 128
	.seh_endprologue
	movq $-2147483647, %r12
	movq 128(%rsp), %r12
	addq $240, %rsp
	popq %r15
	retq
	.seh_endproc
	.p2align 4, 0xCC
	.seh_proc f5
f5:
	pushq %rsi
	.seh_pushreg %rsi
	pushq %rbx
	.seh_pushreg %rbx
	subq $40, %rsp
	.seh_stackalloc 40
	movq %rdi, 32(%rsp)
	.seh_savereg %rdi, 32
	leaq 208(%rsp), %rsi
	.seh_setframe %rsi, 208
	.seh_endprologue
	movq -176(%rsi), %rdi
	leaq -168(%rsi), %rsp
	popq %rbx
	popq %rsi
	retq
	.seh_endproc

	.text
	.seh_proc f0
f0:
	subq $524296, %rsp
	.seh_stackalloc 524296
	.seh_endprologue
	addq $524296, %rsp
	retq
	.seh_endproc
	.p2align 4, 0xCC
	.seh_proc f1
f1:
	pushq %r13
	.seh_pushreg %r13
	pushq %rdi
	.seh_pushreg %rdi
	pushq %rsi
	.seh_pushreg %rsi
	subq $128, %rsp
	.seh_stackalloc 128
	leaq 160(%rsp), %r13
	.seh_setframe %r13, 160
	.seh_endprologue
	callq f0
	leaq -32(%r13), %rsp
	popq %rsi
	popq %rdi
	popq %r13
	retq
	.seh_endproc
	.p2align 4, 0xCC
	.seh_proc f2
f2:
	pushq %r13
	.seh_pushreg %r13
	subq $524272, %rsp
	.seh_stackalloc 524272
	movq %r15, 32(%rsp)
	.seh_savereg %r15, 32
	movq %rdi, 348240(%rsp)
	.seh_savereg %rdi, 348240
	movq %r14, 112(%rsp)
	.seh_savereg %r14, 112
	movq %rsi, 321672(%rsp)
	.seh_savereg %rsi, 321672
	movq %rbx, 40(%rsp)
	.seh_savereg %rbx, 40
	movq %r12, 273568(%rsp)
	.seh_savereg %r12, 273568
	movq %rbp, 524256(%rsp)
	.seh_savereg %rbp, 524256
	leaq 16(%rsp), %r13
	.seh_setframe %r13, 16
	.seh_endprologue
	movq $-2147483647, %r10
	subq $65520, %rsp
	movq 524240(%r13), %rbp
	movq 273552(%r13), %r12
	movq 24(%r13), %rbx
	movq 321656(%r13), %rsi
	movq 96(%r13), %r14
	movq 348224(%r13), %rdi
	movq 16(%r13), %r15
	leaq 524256(%r13), %rsp
	popq %r13
	retq
	.seh_endproc
	.p2align 4, 0xCC
	.seh_proc f3
f3:
	subq $264, %rsp
	.seh_stackalloc 264
	movq %r14, 248(%rsp)
	.seh_savereg %r14, 248
	.seh_endprologue
	movq $-128, %rcx
	movq 248(%rsp), %r14
	addq $264, %rsp
	retq
	.seh_endproc
	.p2align 4, 0xCC
	.seh_proc f4
f4:
	pushq %r15
	.seh_pushreg %r15
	pushq %rsi
	.seh_pushreg %rsi
	subq $56, %rsp
	.seh_stackalloc 56
	leaq 96(%rsp), %r15
	.seh_setframe %r15, 96
	.seh_endprologue
	callq f0
	movq $1, %r11
	callq f0
	leaq -40(%r15), %rsp
	popq %rsi
	popq %r15
	retq
	.seh_endproc
	.p2align 4, 0xCC
	.seh_proc f5
f5:
	subq $224, %rsp
	.seh_stackalloc 224
	movq %r13, 24(%rsp)
	.seh_savereg %r13, 24
	movq %r12, 128(%rsp)
	.seh_savereg %r12, 128
	movq %rdi, 32(%rsp)
	.seh_savereg %rdi, 32
	movq %rsi, 120(%rsp)
	.seh_savereg %rsi, 120
	movq %rbx, 136(%rsp)
	.seh_savereg %rbx, 136
	movq %r15, 112(%rsp)
	.seh_savereg %r15, 112
	{disp8} movq %r14, 0(%rsp)
	.seh_savereg %r14, 0
	movq %rbp, 200(%rsp)
	.seh_savereg %rbp, 200
	.seh_endprologue
	movq $65536, %r9
	movq $2147483646, %rsi
	movq 200(%rsp), %rbp
	{disp8} movq 0(%rsp), %r14
	movq 112(%rsp), %r15
	movq 136(%rsp), %rbx
	movq 120(%rsp), %rsi
	movq 32(%rsp), %rdi
	movq 128(%rsp), %r12
	movq 24(%rsp), %r13
	addq $224, %rsp
	retq
	.seh_endproc
	.p2align 4, 0xCC
	.seh_proc f6
f6:
	pushq %rbx
	.seh_pushreg %rbx
	subq $240, %rsp
	.seh_stackalloc 240
	movq %r12, 128(%rsp)
	.seh_savereg %r12, 128
	leaq 128(%rsp), %rbx
	.seh_setframe %rbx, 128
	movq %r14, 8(%rsp)
	.seh_savereg %r14, 8
	movq %rsi, 192(%rsp)
	.seh_savereg %rsi, 192
	.seh_endprologue
	nop
	subq $36960, %rsp
	movq $2147483647, %rcx
	movq 64(%rbx), %rsi
	movq -120(%rbx), %r14
	{disp8} movq 0(%rbx), %r12
	leaq 112(%rbx), %rsp
	popq %rbx
	retq
	.seh_endproc

	.text
	.seh_proc f0
f0:
	pushq %r15
	.seh_pushreg %r15
	pushq %r13
	.seh_pushreg %r13
	pushq %rsi
	.seh_pushreg %rsi
	pushq %rbp
	.seh_pushreg %rbp
	subq $524296, %rsp
	.seh_stackalloc 524296
	movq %rdi, 16(%rsp)
	.seh_savereg %rdi, 16
	leaq 16(%rsp), %r15
	.seh_setframe %r15, 16
	.seh_endprologue
	{disp8} movq 0(%r15), %rdi
	leaq 524280(%r15), %rsp
	popq %rbp
	popq %rsi
	popq %r13
	popq %r15
	retq
	.seh_endproc
	.p2align 4, 0xCC
	.seh_proc f1
f1:
	pushq %rsi
	.seh_pushreg %rsi
	pushq %r14
	.seh_pushreg %r14
	pushq %r15
	.seh_pushreg %r15
	subq $144, %rsp
	.seh_stackalloc 144
	movq %rbx, 120(%rsp)
	.seh_savereg %rbx, 120
	movq %rbp, 64(%rsp)
	.seh_savereg %rbp, 64
	leaq 112(%rsp), %rsi
	.seh_setframe %rsi, 112
	.seh_endprologue
	movq $2147483646, %rdx
	movq -48(%rsi), %rbp
	movq 8(%rsi), %rbx
	leaq 32(%rsi), %rsp
	popq %r15
	popq %r14
	popq %rsi
	retq
	.seh_endproc
	.p2align 4, 0xCC
	.seh_proc f2
f2:
	subq $524272, %rsp
	.seh_stackalloc 524272
	.seh_endprologue
	movq $2147483647, %r11
	nop
	movq $1, %r9
	addq $524272, %rsp
	retq
	.seh_endproc
	.p2align 4, 0xCC
	.seh_proc f3
f3:
	pushq %r13
	.seh_pushreg %r13
	pushq %rbx
	.seh_pushreg %rbx
	subq $1048576, %rsp
	.seh_stackalloc 1048576
	.seh_endprologue
	nop
	movq $-2147483647, %rcx
	movq $127, %r11
	nop
	nop
	addq $1048576, %rsp
	popq %rbx
	popq %r13
	retq
	.seh_endproc
	.p2align 4, 0xCC
	.seh_proc f4
f4:
	pushq %rbp
	.seh_pushreg %rbp
	pushq %r12
	.seh_pushreg %r12
	pushq %rdi
	.seh_pushreg %rdi
	.seh_endprologue
	movq $-2147483648, %rax
	movq $127, %rax
	popq %rdi
	popq %r12
	popq %rbp
	retq
	.seh_endproc
	.p2align 4, 0xCC
	.seh_proc f5
f5:
	pushq %r14
	.seh_pushreg %r14
	subq $144, %rsp
	.seh_stackalloc 144
	movq %rdi, 32(%rsp)
	.seh_savereg %rdi, 32
	leaq 128(%rsp), %r14
	.seh_setframe %r14, 128
	.seh_endprologue
	movq $-129, %rdx
	subq $16, %rsp
	callq f1
	callq f6
	movq $0, %r11
	movq -96(%r14), %rdi
	leaq 16(%r14), %rsp
	popq %r14
	retq
	.seh_endproc
	.p2align 4, 0xCC
	.seh_proc f6
f6:
	pushq %rdi
	.seh_pushreg %rdi
	subq $120, %rsp
	.seh_stackalloc 120
	leaq 80(%rsp), %rdi
	.seh_setframe %rdi, 80
	.seh_endprologue
	nop
	nop
	nop
	movq $-128, %r10
	nop
	movq $-2147483647, %r10
	subq $65520, %rsp
	subq $65520, %rsp
	nop
	leaq 40(%rdi), %rsp
	popq %rdi
	retq
	.seh_endproc
	.p2align 4, 0xCC
	.seh_proc f7
f7:
	pushq %r12
	.seh_pushreg %r12
	pushq %rsi
	.seh_pushreg %rsi
	pushq %r13
	.seh_pushreg %r13
	pushq %rbx
	.seh_pushreg %rbx
	pushq %rdi
	.seh_pushreg %rdi
	pushq %r14
	.seh_pushreg %r14
	pushq %r15
	.seh_pushreg %r15
	pushq %rbp
	.seh_pushreg %rbp
	subq $120, %rsp
	.seh_stackalloc 120
	leaq 80(%rsp), %rsi
	.seh_setframe %rsi, 80
	.seh_endprologue
	nop
	callq f6
	movq $-1713748486, %r12
	movq $127, %r8
	subq $32, %rsp
	leaq 40(%rsi), %rsp
	popq %rbp
	popq %r15
	popq %r14
	popq %rdi
	popq %rbx
	popq %r13
	popq %rsi
	popq %r12
	retq
	.seh_endproc

	.text
	.seh_proc f0
f0:
	pushq %r15
	.seh_pushreg %r15
	pushq %r13
	.seh_pushreg %r13
	pushq %r12
	.seh_pushreg %r12
	pushq %r14
	.seh_pushreg %r14
	pushq %rbp
	.seh_pushreg %rbp
	pushq %rsi
	.seh_pushreg %rsi
	pushq %rbx
	.seh_pushreg %rbx
	pushq %rdi
	.seh_pushreg %rdi
	subq $248, %rsp
	.seh_stackalloc 248
	leaq 48(%rsp), %r13
	.seh_setframe %r13, 48
	.seh_endprologue
	callq f6
	leaq 200(%r13), %rsp
	popq %rdi
	popq %rbx
	popq %rsi
	popq %rbp
	popq %r14
	popq %r12
	popq %r13
	popq %r15
	retq
	.seh_endproc
	.p2align 4, 0xCC
	.seh_proc f1
f1:
	pushq %r13
	.seh_pushreg %r13
	pushq %rdi
	.seh_pushreg %rdi
	pushq %rbp
	.seh_pushreg %rbp
	subq $48, %rsp
	.seh_stackalloc 48
	movq %r12, 40(%rsp)
	.seh_savereg %r12, 40
	leaq 128(%rsp), %r13
	.seh_setframe %r13, 128
	movq %rsi, 32(%rsp)
	.seh_savereg %rsi, 32
	.seh_endprologue
	movq $-129, %rax
	movq -96(%r13), %rsi
	movq -88(%r13), %r12
	leaq -80(%r13), %rsp
	popq %rbp
	popq %rdi
	popq %r13
	retq
	.seh_endproc
	.p2align 4, 0xCC
	.seh_proc f2
f2:
	pushq %rbx
	.seh_pushreg %rbx
	pushq %r14
	.seh_pushreg %r14
	pushq %r13
	.seh_pushreg %r13
	pushq %rsi
	.seh_pushreg %rsi
	subq $524280, %rsp
	.seh_stackalloc 524280
	{disp8} leaq 0(%rsp), %r13
	.seh_setframe %r13, 0
	.seh_endprologue
	nop
	leaq 524280(%r13), %rsp
	popq %rsi
	popq %r13
	popq %r14
	popq %rbx
	retq
	.seh_endproc
	.p2align 4, 0xCC
	.seh_proc f3
f3:
	pushq %rdi
	.seh_pushreg %rdi
	pushq %rbp
	.seh_pushreg %rbp
	pushq %r15
	.seh_pushreg %r15
	pushq %r14
	.seh_pushreg %r14
	subq $40, %rsp
	.seh_stackalloc 40
	movq %r13, 32(%rsp)
	.seh_savereg %r13, 32
	leaq 160(%rsp), %rdi
	.seh_setframe %rdi, 160
	.seh_endprologue
	subq $16, %rsp
	movq -128(%rdi), %r13
	leaq -120(%rdi), %rsp
	popq %r14
	popq %r15
	popq %rbp
	popq %rdi
	retq
	.seh_endproc
	.p2align 4, 0xCC
	.seh_proc f4
f4:
	subq $112, %rsp
	.seh_stackalloc 112
	movq %rsi, 88(%rsp)
	.seh_savereg %rsi, 88
	movq %r12, 24(%rsp)
	.seh_savereg %r12, 24
	.seh_endprologue
	nop
	movq $0, %r10
	nop
	movq $902526115, %r12
	movq $0, %r10
	movq $2147483647, %r12
	nop
	movq $-129, %r11
	nop
	movq 24(%rsp), %r12
	movq 88(%rsp), %rsi
	addq $112, %rsp
	retq
	.seh_endproc
	.p2align 4, 0xCC
	.seh_proc f5
f5:
	pushq %rdi
	.seh_pushreg %rdi
	pushq %rbx
	.seh_pushreg %rbx
	subq $4104, %rsp
	.seh_stackalloc 4104
	leaq 16(%rsp), %rdi
	.seh_setframe %rdi, 16
	movq %r12, 32(%rsp)
	.seh_savereg %r12, 32
	.seh_endprologue
	nop
	callq f7
	subq $112, %rsp
	movq $127, %r11
	movq $-1, %rdx
	nop
	movq $-2147483647, %r9
	movq $127, %r11
	callq f6
	movq 16(%rdi), %r12
	leaq 4088(%rdi), %rsp
	popq %rbx
	popq %rdi
	retq
	.seh_endproc
	.p2align 4, 0xCC
	.seh_proc f6
f6:
	pushq %r13
	.seh_pushreg %r13
	pushq %rdi
	.seh_pushreg %rdi
	pushq %rbp
	.seh_pushreg %rbp
	pushq %rsi
	.seh_pushreg %rsi
	subq $112, %rsp
	.seh_stackalloc 112
	movq %r15, 8(%rsp)
	.seh_savereg %r15, 8
	movq %rbx, 104(%rsp)
	.seh_savereg %rbx, 104
	movq %r14, 88(%rsp)
	.seh_savereg %r14, 88
	leaq 240(%rsp), %r13
	.seh_setframe %r13, 240
	.seh_endprologue
	movq $-1, %r10
	movq $-129, %r9
	nop
	subq $112, %rsp
	nop
	movq $-129, %r15
	nop
	movq $127, %r11
	movq $-1217413350, %r8
	movq -152(%r13), %r14
	movq -136(%r13), %rbx
	movq -232(%r13), %r15
	leaq -128(%r13), %rsp
	popq %rsi
	popq %rbp
	popq %rdi
	popq %r13
	retq
	.seh_endproc
	.p2align 4, 0xCC
	.seh_proc f7
f7:
	pushq %r13
	.seh_pushreg %r13
	pushq %rsi
	.seh_pushreg %rsi
	pushq %rdi
	.seh_pushreg %rdi
	pushq %r12
	.seh_pushreg %r12
	subq $264, %rsp
	.seh_stackalloc 264
	movq %rbx, 112(%rsp)
	.seh_savereg %rbx, 112
	leaq 208(%rsp), %r13
	.seh_setframe %r13, 208
	.seh_endprologue
	callq f8
	movq -96(%r13), %rbx
	leaq 56(%r13), %rsp
	popq %r12
	popq %rdi
	popq %rsi
	popq %r13
	retq
	.seh_endproc
	.p2align 4, 0xCC
	.seh_proc f8
f8:
	pushq %rbp
	.seh_pushreg %rbp
	subq $524264, %rsp
	.seh_stackalloc 524264
	movq %r14, 524256(%rsp)
	.seh_savereg %r14, 524256
	movq %rbx, 32(%rsp)
	.seh_savereg %rbx, 32
	.seh_endprologue
	movq $-129, %rdx
	nop
	movq 32(%rsp), %rbx
	movq 524256(%rsp), %r14
	addq $524264, %rsp
	popq %rbp
	retq
	.seh_endproc

	.text
	.seh_proc f0
f0:
	pushq %r12
	.seh_pushreg %r12
	subq $524272, %rsp
	.seh_stackalloc 524272
	movq %r14, 8(%rsp)
	.seh_savereg %r14, 8
	movq %rbx, 96776(%rsp)
	.seh_savereg %rbx, 96776
	movq %r15, 136(%rsp)
	.seh_savereg %r15, 136
	.seh_endprologue
	movq $2147483647, %rbx
	nop
	movq $-2147483647, %rcx
	movq 136(%rsp), %r15
	movq 96776(%rsp), %rbx
	movq 8(%rsp), %r14
	addq $524272, %rsp
	popq %r12
	retq
	.seh_endproc
	.p2align 4, 0xCC
	.seh_proc f1
f1:
	pushq %r13
	.seh_pushreg %r13
	pushq %rbp
	.seh_pushreg %rbp
	subq $24, %rsp
	.seh_stackalloc 24
	movq %rbx, 8(%rsp)
	.seh_savereg %rbx, 8
	leaq 64(%rsp), %rbp
	.seh_setframe %rbp, 64
	.seh_endprologue
	movq $2147483647, %rax
	movq -56(%rbp), %rbx
	leaq -40(%rbp), %rsp
	popq %rbp
	popq %r13
	retq
	.seh_endproc
	.p2align 4, 0xCC
	.seh_proc f2
f2:
	pushq %r12
	.seh_pushreg %r12
	pushq %rbx
	.seh_pushreg %rbx
	pushq %rbp
	.seh_pushreg %rbp
	pushq %r13
	.seh_pushreg %r13
	pushq %r14
	.seh_pushreg %r14
	pushq %r15
	.seh_pushreg %r15
	pushq %rdi
	.seh_pushreg %rdi
	pushq %rsi
	.seh_pushreg %rsi
	subq $248, %rsp
	.seh_stackalloc 248
	leaq 192(%rsp), %rbx
	.seh_setframe %rbx, 192
	.seh_endprologue
	leaq 56(%rbx), %rsp
	popq %rsi
	popq %rdi
	popq %r15
	popq %r14
	popq %r13
	popq %rbp
	popq %rbx
	popq %r12
	retq
	.seh_endproc
	.p2align 4, 0xCC
	.seh_proc f3
f3:
	pushq %rsi
	.seh_pushreg %rsi
	subq $524280, %rsp
	.seh_stackalloc 524280
	movq %r14, 220056(%rsp)
	.seh_savereg %r14, 220056
	movq %rdi, 456280(%rsp)
	.seh_savereg %rdi, 456280
	movq %r13, 112(%rsp)
	.seh_savereg %r13, 112
	.seh_endprologue
	movq $-129, %rcx
	movq $-1, %rsi
	nop
	nop
	movq $-128, %r9
	movq $2147483646, %r9
	movq $-875799297, %rdi
	movq $-2147483648, %r13
	nop
	movq 112(%rsp), %r13
	movq 456280(%rsp), %rdi
	movq 220056(%rsp), %r14
	addq $524280, %rsp
	popq %rsi
	retq
	.seh_endproc
	.p2align 4, 0xCC
	.seh_proc f4
f4:
	pushq %rdi
	.seh_pushreg %rdi
	pushq %r15
	.seh_pushreg %r15
	subq $1048576, %rsp
	.seh_stackalloc 1048576
	movq %rsi, 24(%rsp)
	.seh_savereg %rsi, 24
	.seh_endprologue
	movq $-128, %r10
	movq $65536, %rax
	movq $128, %r8
	movq 24(%rsp), %rsi
	addq $1048576, %rsp
	popq %r15
	popq %rdi
	retq
	.seh_endproc
	.p2align 4, 0xCC
	.seh_proc f5
f5:
	pushq %r13
	.seh_pushreg %r13
	pushq %rbx
	.seh_pushreg %rbx
	pushq %rsi
	.seh_pushreg %rsi
	leaq 80(%rsp), %r13
	.seh_setframe %r13, 80
	.seh_endprologue
	nop
	nop
	subq $32, %rsp
	movq $128, %r11
	subq $144, %rsp
	leaq -80(%r13), %rsp
	popq %rsi
	popq %rbx
	popq %r13
	retq
	.seh_endproc
	.p2align 4, 0xCC
	.seh_proc f6
f6:
	pushq %r12
	.seh_pushreg %r12
	pushq %r13
	.seh_pushreg %r13
	subq $524280, %rsp
	.seh_stackalloc 524280
	movq %rbp, 524264(%rsp)
	.seh_savereg %rbp, 524264
	.seh_endprologue
	callq f7
	movq $859643494, %r12
	movq $-2147483647, %r10
	movq 524264(%rsp), %rbp
	addq $524280, %rsp
	popq %r13
	popq %r12
	retq
	.seh_endproc
	.p2align 4, 0xCC
	.seh_proc f7
f7:
	subq $40, %rsp
	.seh_stackalloc 40
	movq %rbp, 32(%rsp)
	.seh_savereg %rbp, 32
	.seh_endprologue
	movq $-129, %r11
	callq f9
	callq f2
	movq 32(%rsp), %rbp
	addq $40, %rsp
	retq
	.seh_endproc
	.p2align 4, 0xCC
	.seh_proc f8
f8:
	pushq %rbx
	.seh_pushreg %rbx
	pushq %rdi
	.seh_pushreg %rdi
	pushq %r15
	.seh_pushreg %r15
	pushq %r14
	.seh_pushreg %r14
	subq $524280, %rsp
	.seh_stackalloc 524280
	movq %rbp, 24(%rsp)
	.seh_savereg %rbp, 24
	leaq 160(%rsp), %rdi
	.seh_setframe %rdi, 160
	movq %r12, 120(%rsp)
	.seh_savereg %r12, 120
	.seh_endprologue
	movq $127, %r10
	movq -40(%rdi), %r12
	movq -136(%rdi), %rbp
	leaq 524120(%rdi), %rsp
	popq %r14
	popq %r15
	popq %rdi
	popq %rbx
	retq
	.seh_endproc
	.p2align 4, 0xCC
	.seh_proc f9
f9:
	pushq %rsi
	.seh_pushreg %rsi
	subq $2097152, %rsp
	.seh_stackalloc 2097152
	movq %rbp, 524288(%rsp)
	.seh_savereg %rbp, 524288
	.seh_endprologue
	movq 524288(%rsp), %rbp
	addq $2097152, %rsp
	popq %rsi
	retq
	.seh_endproc
	.p2align 4, 0xCC
	.seh_proc f10
f10:
	pushq %rsi
	.seh_pushreg %rsi
	subq $524280, %rsp
	.seh_stackalloc 524280
	movq %r13, 524272(%rsp)
	.seh_savereg %r13, 524272
	movq %r14, 80(%rsp)
	.seh_savereg %r14, 80
	{disp8} movq %rbx, 0(%rsp)
	.seh_savereg %rbx, 0
	leaq 208(%rsp), %rsi
	.seh_setframe %rsi, 208
	.seh_endprologue
	nop
	nop
	subq $4096, %rsp
	nop
	movq $65536, %rcx
	movq $-2147483648, %r13
	movq $-2147483648, %r14
	subq $17136, %rsp
	movq $2147483647, %r13
	movq -208(%rsi), %rbx
	movq -128(%rsi), %r14
	movq 524064(%rsi), %r13
	leaq 524072(%rsi), %rsp
	popq %rsi
	retq
	.seh_endproc
	.p2align 4, 0xCC
	.seh_proc f11
f11:
	pushq %r12
	.seh_pushreg %r12
	pushq %rbx
	.seh_pushreg %rbx
	pushq %rdi
	.seh_pushreg %rdi
	subq $24, %rsp
	.seh_stackalloc 24
	movq %r15, 16(%rsp)
	.seh_savereg %r15, 16
	{disp8} movq %rsi, 0(%rsp)
	.seh_savereg %rsi, 0
	movq %rbp, 8(%rsp)
	.seh_savereg %rbp, 8
	leaq 176(%rsp), %rdi
	.seh_setframe %rdi, 176
	.seh_endprologue
	nop
	movq $0, %rax
	nop
	nop
	subq $16, %rsp
	nop
	nop
	nop
	movq $127, %rsi
	movq -168(%rdi), %rbp
	movq -176(%rdi), %rsi
	movq -160(%rdi), %r15
	leaq -152(%rdi), %rsp
	popq %rdi
	popq %rbx
	popq %r12
	retq
	.seh_endproc

	.text
	.seh_proc f0
f0:
	pushq %rsi
	.seh_pushreg %rsi
	pushq %rbx
	.seh_pushreg %rbx
	subq $240, %rsp
	.seh_stackalloc 240
	{disp8} movq %r15, 0(%rsp)
	.seh_savereg %r15, 0
	leaq 48(%rsp), %rbx
	.seh_setframe %rbx, 48
	.seh_endprologue
	movq $127, %r9
	movq $127, %rax
	movq $0, %r8
	movq -48(%rbx), %r15
	leaq 192(%rbx), %rsp
	popq %rbx
	popq %rsi
	retq
	.seh_endproc
	.p2align 4, 0xCC
	.seh_proc f1
f1:
	pushq %r13
	.seh_pushreg %r13
	pushq %r14
	.seh_pushreg %r14
	subq $524264, %rsp
	.seh_stackalloc 524264
	movq %r15, 192(%rsp)
	.seh_savereg %r15, 192
	leaq 192(%rsp), %r13
	.seh_setframe %r13, 192
	.seh_endprologue
	movq $-2147483647, %r8
	movq $-129, %r10
	{disp8} movq 0(%r13), %r15
	leaq 524072(%r13), %rsp
	popq %r14
	popq %r13
	retq
	.seh_endproc
	.p2align 4, 0xCC
	.seh_proc f2
f2:
	subq $2097152, %rsp
	.seh_stackalloc 2097152
	movq %r12, 524264(%rsp)
	.seh_savereg %r12, 524264
	.seh_endprologue
	movq 524264(%rsp), %r12
	addq $2097152, %rsp
	retq
	.seh_endproc
	.p2align 4, 0xCC
	.seh_proc f3
f3:
	subq $24, %rsp
	.seh_stackalloc 24
	movq %rsi, 16(%rsp)
	.seh_savereg %rsi, 16
	{disp8} movq %r14, 0(%rsp)
	.seh_savereg %r14, 0
	movq %r15, 8(%rsp)
	.seh_savereg %r15, 8
	.seh_endprologue
	movq $128, %r8
	nop
	movq $1, %r8
	movq $0, %r9
	movq $-1, %rax
	movq 8(%rsp), %r15
	{disp8} movq 0(%rsp), %r14
	movq 16(%rsp), %rsi
	addq $24, %rsp
	retq
	.seh_endproc
	.p2align 4, 0xCC
	.seh_proc f4
f4:
	pushq %rbp
	.seh_pushreg %rbp
	subq $128, %rsp
	.seh_stackalloc 128
	leaq 64(%rsp), %rbp
	.seh_setframe %rbp, 64
	.seh_endprologue
	nop
	movq $-129, %rax
	movq $2147483647, %r9
	leaq 64(%rbp), %rsp
	popq %rbp
	retq
	.seh_endproc
	.p2align 4, 0xCC
	.seh_proc f5
f5:
	pushq %r12
	.seh_pushreg %r12
	pushq %r13
	.seh_pushreg %r13
	subq $128, %rsp
	.seh_stackalloc 128
	leaq 128(%rsp), %r13
	.seh_setframe %r13, 128
	.seh_endprologue
	subq $60704, %rsp
	nop
	movq $127, %r8
	movq $65536, %r11
	movq $128, %r11
	{disp8} leaq 0(%r13), %rsp
	popq %r13
	popq %r12
	retq
	.seh_endproc
	.p2align 4, 0xCC
	.seh_proc f6
f6:
	pushq %r15
	.seh_pushreg %r15
	pushq %r12
	.seh_pushreg %r12
	subq $40, %rsp
	.seh_stackalloc 40
	leaq 64(%rsp), %r15
	.seh_setframe %r15, 64
	.seh_endprologue
	leaq -24(%r15), %rsp
	popq %r12
	popq %r15
	retq
	.seh_endproc
	.p2align 4, 0xCC
	.seh_proc f7
f7:
	subq $4096, %rsp
	.seh_stackalloc 4096
	movq %rbx, 128(%rsp)
	.seh_savereg %rbx, 128
	movq %r14, 24(%rsp)
	.seh_savereg %r14, 24
	{disp8} movq %r15, 0(%rsp)
	.seh_savereg %r15, 0
	.seh_endprologue
	movq $1, %rdx
	nop
	nop
	nop
	nop
	{disp8} movq 0(%rsp), %r15
	movq 24(%rsp), %r14
	movq 128(%rsp), %rbx
	addq $4096, %rsp
	retq
	.seh_endproc
	.p2align 4, 0xCC
	.seh_proc f8
f8:
	pushq %rbp
	.seh_pushreg %rbp
	pushq %r12
	.seh_pushreg %r12
	subq $248, %rsp
	.seh_stackalloc 248
	leaq 160(%rsp), %rbp
	.seh_setframe %rbp, 160
	movq %rsi, 40(%rsp)
	.seh_savereg %rsi, 40
	movq %r14, 128(%rsp)
	.seh_savereg %r14, 128
	movq %rbx, 184(%rsp)
	.seh_savereg %rbx, 184
	.seh_endprologue
	movq $-2147483648, %r14
	callq f5
	nop
	movq $1, %rcx
	callq f16
	movq 24(%rbp), %rbx
	movq -32(%rbp), %r14
	movq -120(%rbp), %rsi
	leaq 88(%rbp), %rsp
	popq %r12
	popq %rbp
	retq
	.seh_endproc
	.p2align 4, 0xCC
	.seh_proc f9
f9:
	pushq %rbx
	.seh_pushreg %rbx
	subq $1048576, %rsp
	.seh_stackalloc 1048576
	.seh_endprologue
	callq f0
	callq f4
	nop
	movq $-2147483648, %r11
	callq f0
	addq $1048576, %rsp
	popq %rbx
	retq
	.seh_endproc
	.p2align 4, 0xCC
	.seh_proc f10
f10:
	pushq %rbp
	.seh_pushreg %rbp
	pushq %r13
	.seh_pushreg %r13
	pushq %rbx
	.seh_pushreg %rbx
	subq $524272, %rsp
	.seh_stackalloc 524272
	movq %r14, 336(%rsp)
	.seh_savereg %r14, 336
	leaq 208(%rsp), %rbp
	.seh_setframe %rbp, 208
	.seh_endprologue
	movq $128, %r9
	movq 128(%rbp), %r14
	leaq 524064(%rbp), %rsp
	popq %rbx
	popq %r13
	popq %rbp
	retq
	.seh_endproc
	.p2align 4, 0xCC
	.seh_proc f11
f11:
	pushq %rsi
	.seh_pushreg %rsi
	subq $432, %rsp
	.seh_stackalloc 432
	leaq 240(%rsp), %rsi
	.seh_setframe %rsi, 240
	.seh_endprologue
	callq f5
	leaq 192(%rsi), %rsp
	popq %rsi
	retq
	.seh_endproc
	.p2align 4, 0xCC
	.seh_proc f12
f12:
	pushq %rdi
	.seh_pushreg %rdi
	subq $24, %rsp
	.seh_stackalloc 24
	{disp8} movq %r12, 0(%rsp)
	.seh_savereg %r12, 0
	.seh_endprologue
	movq $2147483647, %rcx
	nop
	nop
	{disp8} movq 0(%rsp), %r12
	addq $24, %rsp
	popq %rdi
	retq
	.seh_endproc
	.p2align 4, 0xCC
	.seh_proc f13
f13:
	pushq %r12
	.seh_pushreg %r12
	pushq %r13
	.seh_pushreg %r13
	pushq %r14
	.seh_pushreg %r14
	pushq %rbx
	.seh_pushreg %rbx
	subq $120, %rsp
	.seh_stackalloc 120
	leaq 240(%rsp), %r14
	.seh_setframe %r14, 240
	.seh_endprologue
	nop
	nop
	nop
	leaq -120(%r14), %rsp
	popq %rbx
	popq %r14
	popq %r13
	popq %r12
	retq
	.seh_endproc
	.p2align 4, 0xCC
	.seh_proc f14
f14:
	subq $2097144, %rsp
	.seh_stackalloc 2097144
	movq %r13, 2016368(%rsp)
	.seh_savereg %r13, 2016368
	movq %rsi, 136(%rsp)
	.seh_savereg %rsi, 136
	movq %r15, 40(%rsp)
	.seh_savereg %r15, 40
	.seh_endprologue
	movq $-1901068655, %rax
	callq f12
	callq f16
	movq 40(%rsp), %r15
	movq 136(%rsp), %rsi
	movq 2016368(%rsp), %r13
	addq $2097144, %rsp
	retq
	.seh_endproc
	.p2align 4, 0xCC
	.seh_proc f15
f15:
	subq $2097152, %rsp
	.seh_stackalloc 2097152
	movq %r15, 118736(%rsp)
	.seh_savereg %r15, 118736
	movq %r13, 524280(%rsp)
	.seh_savereg %r13, 524280
	{disp8} movq %rsi, 0(%rsp)
	.seh_savereg %rsi, 0
	movq %r12, 32(%rsp)
	.seh_savereg %r12, 32
	movq %rdi, 1299136(%rsp)
	.seh_savereg %rdi, 1299136
	movq %rbp, 545632(%rsp)
	.seh_savereg %rbp, 545632
	movq %r14, 2097136(%rsp)
	.seh_savereg %r14, 2097136
	movq %rbx, 112(%rsp)
	.seh_savereg %rbx, 112
	.seh_endprologue
	movq $-2147483647, %r14
	movq 112(%rsp), %rbx
	movq 2097136(%rsp), %r14
	movq 545632(%rsp), %rbp
	movq 1299136(%rsp), %rdi
	movq 32(%rsp), %r12
	{disp8} movq 0(%rsp), %rsi
	movq 524280(%rsp), %r13
	movq 118736(%rsp), %r15
	addq $2097152, %rsp
	retq
	.seh_endproc
	.p2align 4, 0xCC
	.seh_proc f16
f16:
	pushq %r12
	.seh_pushreg %r12
	subq $256, %rsp
	.seh_stackalloc 256
	movq %rsi, 128(%rsp)
	.seh_savereg %rsi, 128
	.seh_endprologue
	callq f15
	nop
	nop
	nop
	callq f14
	movq $128, %rcx
	movq $2147483647, %rdx
	nop
	movq $0, %r8
	movq 128(%rsp), %rsi
	addq $256, %rsp
	popq %r12
	retq
	.seh_endproc

	.text
	.seh_proc f0
f0:
	subq $524296, %rsp
	.seh_stackalloc 524296
	.seh_endprologue
	movq $-153859987, %rcx
	nop
	movq $-1, %rcx
	nop
	movq $128, %rdx
	movq $127, %rax
	movq $2147483646, %rax
	movq $2147483647, %r11
	nop
	addq $524296, %rsp
	retq
	.seh_endproc
	.p2align 4, 0xCC
	.seh_proc f1
f1:
	pushq %rsi
	.seh_pushreg %rsi
	pushq %r14
	.seh_pushreg %r14
	subq $56, %rsp
	.seh_stackalloc 56
	leaq 240(%rsp), %r14
	.seh_setframe %r14, 240
	movq %rdi, 48(%rsp)
	.seh_savereg %rdi, 48
	.seh_endprologue
	movq -192(%r14), %rdi
	leaq -184(%r14), %rsp
	popq %r14
	popq %rsi
	retq
	.seh_endproc
	.p2align 4, 0xCC
	.seh_proc f2
f2:
	pushq %rbp
	.seh_pushreg %rbp
	pushq %rbx
	.seh_pushreg %rbx
	subq $440, %rsp
	.seh_stackalloc 440
	movq %r14, 112(%rsp)
	.seh_savereg %r14, 112
	movq %rsi, 208(%rsp)
	.seh_savereg %rsi, 208
	movq %r12, 136(%rsp)
	.seh_savereg %r12, 136
	movq %r13, 328(%rsp)
	.seh_savereg %r13, 328
	movq %r15, 72(%rsp)
	.seh_savereg %r15, 72
	movq %rdi, 432(%rsp)
	.seh_savereg %rdi, 432
	.seh_endprologue
	movq 432(%rsp), %rdi
	movq 72(%rsp), %r15
	movq 328(%rsp), %r13
	movq 136(%rsp), %r12
	movq 208(%rsp), %rsi
	movq 112(%rsp), %r14
	addq $440, %rsp
	popq %rbx
	popq %rbp
	retq
	.seh_endproc
	.p2align 4, 0xCC
	.seh_proc f3
f3:
	subq $136, %rsp
	.seh_stackalloc 136
	.seh_endprologue
	addq $136, %rsp
	retq
	.seh_endproc
	.p2align 4, 0xCC
	.seh_proc f4
f4:
	pushq %r14
	.seh_pushreg %r14
	subq $48, %rsp
	.seh_stackalloc 48
	movq %r13, 32(%rsp)
	.seh_savereg %r13, 32
	leaq 176(%rsp), %r14
	.seh_setframe %r14, 176
	.seh_endprologue
	movq $-2147483647, %r9
	callq f25
	callq f27
	movq -144(%r14), %r13
	leaq -128(%r14), %rsp
	popq %r14
	retq
	.seh_endproc
	.p2align 4, 0xCC
	.seh_proc f5
f5:
	pushq %rdi
	.seh_pushreg %rdi
	subq $144, %rsp
	.seh_stackalloc 144
	movq %r14, 128(%rsp)
	.seh_savereg %r14, 128
	leaq 192(%rsp), %rdi
	.seh_setframe %rdi, 192
	.seh_endprologue
	callq f7
	nop
	nop
	movq $2147483646, %r11
	movq $1, %r10
	movq -64(%rdi), %r14
	leaq -48(%rdi), %rsp
	popq %rdi
	retq
	.seh_endproc
	.p2align 4, 0xCC
	.seh_proc f6
f6:
	pushq %rbp
	.seh_pushreg %rbp
	pushq %rsi
	.seh_pushreg %rsi
	pushq %r14
	.seh_pushreg %r14
	pushq %rdi
	.seh_pushreg %rdi
	pushq %rbx
	.seh_pushreg %rbx
	pushq %r12
	.seh_pushreg %r12
	pushq %r13
	.seh_pushreg %r13
	pushq %r15
	.seh_pushreg %r15
	subq $524280, %rsp
	.seh_stackalloc 524280
	leaq 176(%rsp), %rsi
	.seh_setframe %rsi, 176
	.seh_endprologue
	callq f4
	movq $-2147483648, %rcx
	callq f13
	movq $1, %rcx
	nop
	subq $128, %rsp
	movq $576012813, %r8
	callq f27
	callq f6
	leaq 524104(%rsi), %rsp
	popq %r15
	popq %r13
	popq %r12
	popq %rbx
	popq %rdi
	popq %r14
	popq %rsi
	popq %rbp
	retq
	.seh_endproc
	.p2align 4, 0xCC
	.seh_proc f7
f7:
	pushq %r12
	.seh_pushreg %r12
	pushq %r14
	.seh_pushreg %r14
	subq $120, %rsp
	.seh_stackalloc 120
	leaq 112(%rsp), %r14
	.seh_setframe %r14, 112
	.seh_endprologue
	nop
	callq f23
	callq f12
	leaq 8(%r14), %rsp
	popq %r14
	popq %r12
	retq
	.seh_endproc
	.p2align 4, 0xCC
	.seh_proc f8
f8:
	pushq %r14
	.seh_pushreg %r14
	pushq %r15
	.seh_pushreg %r15
	pushq %r12
	.seh_pushreg %r12
	subq $4096, %rsp
	.seh_stackalloc 4096
	leaq 80(%rsp), %r14
	.seh_setframe %r14, 80
	movq %r13, 136(%rsp)
	.seh_savereg %r13, 136
	movq %rsi, 40(%rsp)
	.seh_savereg %rsi, 40
	.seh_endprologue
	movq $999620489, %r12
	movq $-1, %rdx
	movq $-129, %r8
	movq $2147483646, %rcx
	nop
	subq $65520, %rsp
	movq $-129, %rcx
	subq $4096, %rsp
	subq $4096, %rsp
	movq -40(%r14), %rsi
	movq 56(%r14), %r13
	leaq 4016(%r14), %rsp
	popq %r12
	popq %r15
	popq %r14
	retq
	.seh_endproc
	.p2align 4, 0xCC
	.seh_proc f9
f9:
	pushq %r13
	.seh_pushreg %r13
	pushq %r14
	.seh_pushreg %r14
	pushq %rbx
	.seh_pushreg %rbx
	pushq %rdi
	.seh_pushreg %rdi
	pushq %rsi
	.seh_pushreg %rsi
	pushq %rbp
	.seh_pushreg %rbp
	pushq %r12
	.seh_pushreg %r12
	pushq %r15
	.seh_pushreg %r15
	subq $524280, %rsp
	.seh_stackalloc 524280
	leaq 224(%rsp), %r14
	.seh_setframe %r14, 224
	.seh_endprologue
	leaq 524056(%r14), %rsp
	popq %r15
	popq %r12
	popq %rbp
	popq %rsi
	popq %rdi
	popq %rbx
	popq %r14
	popq %r13
	retq
	.seh_endproc
	.p2align 4, 0xCC
	.seh_proc f10
f10:
	pushq %r12
	.seh_pushreg %r12
	subq $40, %rsp
	.seh_stackalloc 40
	.seh_endprologue
	nop
	movq $-128, %r10
	addq $40, %rsp
	popq %r12
	retq
	.seh_endproc
	.p2align 4, 0xCC
	.seh_proc f11
f11:
	pushq %rbx
	.seh_pushreg %rbx
	pushq %rdi
	.seh_pushreg %rdi
	pushq %r15
	.seh_pushreg %r15
	subq $240, %rsp
	.seh_stackalloc 240
	movq %rsi, 232(%rsp)
	.seh_savereg %rsi, 232
	leaq 112(%rsp), %r15
	.seh_setframe %r15, 112
	movq %rbp, 32(%rsp)
	.seh_savereg %rbp, 32
	.seh_endprologue
	movq $-2147483648, %r11
	subq $112, %rsp
	movq $-1, %r8
	subq $144, %rsp
	subq $112, %rsp
	movq -80(%r15), %rbp
	movq 120(%r15), %rsi
	leaq 128(%r15), %rsp
	popq %r15
	popq %rdi
	popq %rbx
	retq
	.seh_endproc
	.p2align 4, 0xCC
	.seh_proc f12
f12:
	pushq %r15
	.seh_pushreg %r15
	pushq %rdi
	.seh_pushreg %rdi
	subq $2097144, %rsp
	.seh_stackalloc 2097144
	leaq 112(%rsp), %r15
	.seh_setframe %r15, 112
	movq %rsi, 690856(%rsp)
	.seh_savereg %rsi, 690856
	.seh_endprologue
	subq $32, %rsp
	subq $4096, %rsp
	callq f16
	callq f11
	callq f9
	movq 690744(%r15), %rsi
	leaq 2097032(%r15), %rsp
	popq %rdi
	popq %r15
	retq
	.seh_endproc
	.p2align 4, 0xCC
	.seh_proc f13
f13:
	pushq %r14
	.seh_pushreg %r14
	pushq %r12
	.seh_pushreg %r12
	subq $40, %rsp
	.seh_stackalloc 40
	{disp8} leaq 0(%rsp), %r14
	.seh_setframe %r14, 0
	movq %rdi, 32(%rsp)
	.seh_savereg %rdi, 32
	.seh_endprologue
	callq f15
	movq 32(%r14), %rdi
	leaq 40(%r14), %rsp
	popq %r12
	popq %r14
	retq
	.seh_endproc
	.p2align 4, 0xCC
	.seh_proc f14
f14:
	pushq %rsi
	.seh_pushreg %rsi
	subq $256, %rsp
	.seh_stackalloc 256
	movq %r13, 192(%rsp)
	.seh_savereg %r13, 192
	leaq 64(%rsp), %rsi
	.seh_setframe %rsi, 64
	movq %r14, 24(%rsp)
	.seh_savereg %r14, 24
	movq %rdi, 240(%rsp)
	.seh_savereg %rdi, 240
	.seh_endprologue
	movq $-2147483648, %r14
	movq 176(%rsi), %rdi
	movq -40(%rsi), %r14
	movq 128(%rsi), %r13
	leaq 192(%rsi), %rsp
	popq %rsi
	retq
	.seh_endproc
	.p2align 4, 0xCC
	.seh_proc f15
f15:
	pushq %rsi
	.seh_pushreg %rsi
	pushq %r14
	.seh_pushreg %r14
	subq $524280, %rsp
	.seh_stackalloc 524280
	{disp8} movq %r13, 0(%rsp)
	.seh_savereg %r13, 0
	movq %r15, 266400(%rsp)
	.seh_savereg %r15, 266400
	.seh_endprologue
	movq $1, %rax
	nop
	movq $127, %r9
	movq 266400(%rsp), %r15
	{disp8} movq 0(%rsp), %r13
	addq $524280, %rsp
	popq %r14
	popq %rsi
	retq
	.seh_endproc
	.p2align 4, 0xCC
	.seh_proc f16
f16:
	pushq %r14
	.seh_pushreg %r14
	subq $32, %rsp
	.seh_stackalloc 32
	leaq 176(%rsp), %r14
	.seh_setframe %r14, 176
	.seh_endprologue
	movq $128, %rcx
	callq f22
	leaq -144(%r14), %rsp
	popq %r14
	retq
	.seh_endproc
	.p2align 4, 0xCC
	.seh_proc f17
f17:
	pushq %r14
	.seh_pushreg %r14
	pushq %rdi
	.seh_pushreg %rdi
	subq $40, %rsp
	.seh_stackalloc 40
	movq %rbx, 32(%rsp)
	.seh_savereg %rbx, 32
	leaq 224(%rsp), %r14
	.seh_setframe %r14, 224
	.seh_endprologue
	movq $-129, %r9
	movq $-858160294, %r10
	callq f26
	movq -192(%r14), %rbx
	leaq -184(%r14), %rsp
	popq %rdi
	popq %r14
	retq
	.seh_endproc
	.p2align 4, 0xCC
	.seh_proc f18
f18:
	pushq %r13
	.seh_pushreg %r13
	subq $240, %rsp
	.seh_stackalloc 240
	leaq 128(%rsp), %r13
	.seh_setframe %r13, 128
	.seh_endprologue
	leaq 112(%r13), %rsp
	popq %r13
	retq
	.seh_endproc
	.p2align 4, 0xCC
	.seh_proc f19
f19:
	pushq %rbp
	.seh_pushreg %rbp
	pushq %r15
	.seh_pushreg %r15
	pushq %r14
	.seh_pushreg %r14
	pushq %r12
	.seh_pushreg %r12
	pushq %r13
	.seh_pushreg %r13
	pushq %rdi
	.seh_pushreg %rdi
	pushq %rsi
	.seh_pushreg %rsi
	pushq %rbx
	.seh_pushreg %rbx
	subq $2097136, %rsp
	.seh_stackalloc 2097136
	leaq 96(%rsp), %rbp
	.seh_setframe %rbp, 96
	.seh_endprologue
	subq $36592, %rsp
	leaq 2097040(%rbp), %rsp
	popq %rbx
	popq %rsi
	popq %rdi
	popq %r13
	popq %r12
	popq %r14
	popq %r15
	popq %rbp
	retq
	.seh_endproc
	.p2align 4, 0xCC
	.seh_proc f20
f20:
	pushq %rbx
	.seh_pushreg %rbx
	pushq %r12
	.seh_pushreg %r12
	pushq %rsi
	.seh_pushreg %rsi
	pushq %r15
	.seh_pushreg %r15
	subq $8, %rsp
	.seh_stackalloc 8
	{disp8} movq %r14, 0(%rsp)
	.seh_savereg %r14, 0
	leaq 176(%rsp), %rsi
	.seh_setframe %rsi, 176
	.seh_endprologue
	movq $1, %rcx
	nop
	movq $65536, %r11
	nop
	subq $16, %rsp
	movq $2147483647, %r12
	movq $127, %rax
	movq $2147483646, %rcx
	nop
	movq -176(%rsi), %r14
	leaq -168(%rsi), %rsp
	popq %r15
	popq %rsi
	popq %r12
	popq %rbx
	retq
	.seh_endproc
	.p2align 4, 0xCC
	.seh_proc f21
f21:
	pushq %r12
	.seh_pushreg %r12
	pushq %rdi
	.seh_pushreg %rdi
	subq $524280, %rsp
	.seh_stackalloc 524280
	leaq 80(%rsp), %rdi
	.seh_setframe %rdi, 80
	.seh_endprologue
	movq $1, %rcx
	subq $65504, %rsp
	movq $1, %r10
	leaq 524200(%rdi), %rsp
	popq %rdi
	popq %r12
	retq
	.seh_endproc
	.p2align 4, 0xCC
	.seh_proc f22
f22:
	pushq %rsi
	.seh_pushreg %rsi
	subq $248, %rsp
	.seh_stackalloc 248
	movq %r12, 136(%rsp)
	.seh_savereg %r12, 136
	leaq 176(%rsp), %rsi
	.seh_setframe %rsi, 176
	.seh_endprologue
	movq $-2147483648, %rax
	nop
	subq $16, %rsp
	subq $32, %rsp
	movq $127, %r12
	movq -40(%rsi), %r12
	leaq 72(%rsi), %rsp
	popq %rsi
	retq
	.seh_endproc
	.p2align 4, 0xCC
	.seh_proc f23
f23:
	pushq %rsi
	.seh_pushreg %rsi
	pushq %r14
	.seh_pushreg %r14
	pushq %rbp
	.seh_pushreg %rbp
	pushq %r12
	.seh_pushreg %r12
	pushq %r15
	.seh_pushreg %r15
	pushq %r13
	.seh_pushreg %r13
	pushq %rdi
	.seh_pushreg %rdi
	pushq %rbx
	.seh_pushreg %rbx
	subq $56, %rsp
	.seh_stackalloc 56
	leaq 112(%rsp), %r14
	.seh_setframe %r14, 112
	.seh_endprologue
	movq $-128, %r9
	movq $-129, %rcx
	subq $112, %rsp
	leaq -56(%r14), %rsp
	popq %rbx
	popq %rdi
	popq %r13
	popq %r15
	popq %r12
	popq %rbp
	popq %r14
	popq %rsi
	retq
	.seh_endproc
	.p2align 4, 0xCC
	.seh_proc f24
f24:
	pushq %r13
	.seh_pushreg %r13
	pushq %rbp
	.seh_pushreg %rbp
	pushq %rsi
	.seh_pushreg %rsi
	pushq %rdi
	.seh_pushreg %rdi
	pushq %r15
	.seh_pushreg %r15
	pushq %rbx
	.seh_pushreg %rbx
	pushq %r14
	.seh_pushreg %r14
	pushq %r12
	.seh_pushreg %r12
	subq $32, %rsp
	.seh_stackalloc 32
	leaq 112(%rsp), %r13
	.seh_setframe %r13, 112
	.seh_endprologue
	nop
	nop
	subq $4096, %rsp
	leaq -80(%r13), %rsp
	popq %r12
	popq %r14
	popq %rbx
	popq %r15
	popq %rdi
	popq %rsi
	popq %rbp
	popq %r13
	retq
	.seh_endproc
	.p2align 4, 0xCC
	.seh_proc f25
f25:
	pushq %rbp
	.seh_pushreg %rbp
	subq $128, %rsp
	.seh_stackalloc 128
	leaq 96(%rsp), %rbp
	.seh_setframe %rbp, 96
	.seh_endprologue
	subq $4096, %rsp
	leaq 32(%rbp), %rsp
	popq %rbp
	retq
	.seh_endproc
	.p2align 4, 0xCC
	.seh_proc f26
f26:
	pushq %rsi
	.seh_pushreg %rsi
	subq $112, %rsp
	.seh_stackalloc 112
	movq %rdi, 32(%rsp)
	.seh_savereg %rdi, 32
	movq %r13, 104(%rsp)
	.seh_savereg %r13, 104
	movq %r15, 40(%rsp)
	.seh_savereg %r15, 40
	.seh_endprologue
	movq $127, %r13
	movq $127, %rcx
	movq $2147483646, %rdx
	movq 40(%rsp), %r15
	movq 104(%rsp), %r13
	movq 32(%rsp), %rdi
	addq $112, %rsp
	popq %rsi
	retq
	.seh_endproc
	.p2align 4, 0xCC
	.seh_proc f27
f27:
	pushq %rbx
	.seh_pushreg %rbx
	pushq %r12
	.seh_pushreg %r12
	pushq %rdi
	.seh_pushreg %rdi
	pushq %r13
	.seh_pushreg %r13
	subq $136, %rsp
	.seh_stackalloc 136
	leaq 160(%rsp), %rbx
	.seh_setframe %rbx, 160
	movq %r15, 112(%rsp)
	.seh_savereg %r15, 112
	.seh_endprologue
	nop
	movq -48(%rbx), %r15
	leaq -24(%rbx), %rsp
	popq %r13
	popq %rdi
	popq %r12
	popq %rbx
	retq
	.seh_endproc
	.p2align 4, 0xCC
	.seh_proc f28
f28:
	pushq %r12
	.seh_pushreg %r12
	subq $524288, %rsp
	.seh_stackalloc 524288
	movq %rbx, 524280(%rsp)
	.seh_savereg %rbx, 524280
	.seh_endprologue
	nop
	movq $127, %rax
	movq $2147483646, %rax
	movq 524280(%rsp), %rbx
	addq $524288, %rsp
	popq %r12
	retq
	.seh_endproc
	.p2align 4, 0xCC
	.seh_proc f29
f29:
	pushq %rsi
	.seh_pushreg %rsi
	pushq %rbp
	.seh_pushreg %rbp
	subq $120, %rsp
	.seh_stackalloc 120
	leaq 160(%rsp), %rsi
	.seh_setframe %rsi, 160
	.seh_endprologue
	callq f29
	leaq -40(%rsi), %rsp
	popq %rbp
	popq %rsi
	retq
	.seh_endproc
	.p2align 4, 0xCC
	.seh_proc f30
f30:
	pushq %rdi
	.seh_pushreg %rdi
	pushq %rsi
	.seh_pushreg %rsi
	pushq %r12
	.seh_pushreg %r12
	subq $524272, %rsp
	.seh_stackalloc 524272
	leaq 240(%rsp), %rdi
	.seh_setframe %rdi, 240
	.seh_endprologue
	nop
	leaq 524032(%rdi), %rsp
	popq %r12
	popq %rsi
	popq %rdi
	retq
	.seh_endproc
	.p2align 4, 0xCC
	.seh_proc f31
f31:
	subq $56, %rsp
	.seh_stackalloc 56
	.seh_endprologue
	callq f12
	callq f21
	callq f25
	addq $56, %rsp
	retq
	.seh_endproc
	.p2align 4, 0xCC
	.seh_proc f32
f32:
	pushq %rbp
	.seh_pushreg %rbp
	subq $4096, %rsp
	.seh_stackalloc 4096
	leaq 80(%rsp), %rbp
	.seh_setframe %rbp, 80
	.seh_endprologue
	movq $-1, %r10
	movq $128, %r9
	nop
	subq $65520, %rsp
	subq $60048, %rsp
	movq $-1, %rax
	movq $-2147483647, %rdx
	subq $32, %rsp
	movq $-2147483648, %rcx
	leaq 4016(%rbp), %rsp
	popq %rbp
	retq
	.seh_endproc

	.text
	.seh_proc f0
f0:
	pushq %r13
	.seh_pushreg %r13
	subq $2097136, %rsp
	.seh_stackalloc 2097136
	leaq 96(%rsp), %r13
	.seh_setframe %r13, 96
	movq %rdi, 224(%rsp)
	.seh_savereg %rdi, 224
	.seh_endprologue
	callq f8
	callq f35
	callq f49
	callq f0
	callq f39
	nop
	nop
	callq f14
	movq $-129, %rdx
	movq 128(%r13), %rdi
	leaq 2097040(%r13), %rsp
	popq %r13
	retq
	.seh_endproc
	.p2align 4, 0xCC
	.seh_proc f1
f1:
	subq $524264, %rsp
	.seh_stackalloc 524264
	.seh_endprologue
	movq $964098237, %rcx
	nop
	addq $524264, %rsp
	retq
	.seh_endproc
	.p2align 4, 0xCC
	.seh_proc f2
f2:
	pushq %r15
	.seh_pushreg %r15
	pushq %rsi
	.seh_pushreg %rsi
	subq $24, %rsp
	.seh_stackalloc 24
	movq %r14, 16(%rsp)
	.seh_savereg %r14, 16
	movq %r13, 8(%rsp)
	.seh_savereg %r13, 8
	{disp8} movq %rbx, 0(%rsp)
	.seh_savereg %rbx, 0
	leaq 144(%rsp), %r15
	.seh_setframe %r15, 144
	.seh_endprologue
	movq $127, %rcx
	movq -144(%r15), %rbx
	movq -136(%r15), %r13
	movq -128(%r15), %r14
	leaq -120(%r15), %rsp
	popq %rsi
	popq %r15
	retq
	.seh_endproc
	.p2align 4, 0xCC
	.seh_proc f3
f3:
	subq $16, %rsp
	.seh_stackalloc 16
	.seh_endprologue
	nop
	nop
	movq $-128, %r10
	movq $2147483647, %r10
	nop
	addq $16, %rsp
	retq
	.seh_endproc
	.p2align 4, 0xCC
	.seh_proc f4
f4:
	pushq %r14
	.seh_pushreg %r14
	pushq %r12
	.seh_pushreg %r12
	pushq %rbp
	.seh_pushreg %rbp
	subq $248, %rsp
	.seh_stackalloc 248
	{disp8} movq %r13, 0(%rsp)
	.seh_savereg %r13, 0
	leaq 160(%rsp), %r14
	.seh_setframe %r14, 160
	.seh_endprologue
	movq $65536, %r11
	subq $55024, %rsp
	subq $65504, %rsp
	movq -160(%r14), %r13
	leaq 88(%r14), %rsp
	popq %rbp
	popq %r12
	popq %r14
	retq
	.seh_endproc
	.p2align 4, 0xCC
	.seh_proc f5
f5:
	pushq %r15
	.seh_pushreg %r15
	pushq %r12
	.seh_pushreg %r12
	subq $524264, %rsp
	.seh_stackalloc 524264
	movq %r14, 481944(%rsp)
	.seh_savereg %r14, 481944
	.seh_endprologue
	movq $65536, %r15
	movq 481944(%rsp), %r14
	addq $524264, %rsp
	popq %r12
	popq %r15
	retq
	.seh_endproc
	.p2align 4, 0xCC
	.seh_proc f6
f6:
	pushq %r15
	.seh_pushreg %r15
	pushq %rbp
	.seh_pushreg %rbp
	subq $264, %rsp
	.seh_stackalloc 264
	movq %rdi, 128(%rsp)
	.seh_savereg %rdi, 128
	leaq 128(%rsp), %rbp
	.seh_setframe %rbp, 128
	movq %r14, 40(%rsp)
	.seh_savereg %r14, 40
	.seh_endprologue
	movq -88(%rbp), %r14
	{disp8} movq 0(%rbp), %rdi
	leaq 136(%rbp), %rsp
	popq %rbp
	popq %r15
	retq
	.seh_endproc
	.p2align 4, 0xCC
	.seh_proc f7
f7:
	subq $4096, %rsp
	.seh_stackalloc 4096
	.seh_endprologue
	nop
	nop
	movq $0, %r10
	movq $2147483647, %r10
	nop
	addq $4096, %rsp
	retq
	.seh_endproc
	.p2align 4, 0xCC
	.seh_proc f8
f8:
	pushq %rbp
	.seh_pushreg %rbp
	pushq %r13
	.seh_pushreg %r13
	subq $8, %rsp
	.seh_stackalloc 8
	leaq 224(%rsp), %rbp
	.seh_setframe %rbp, 224
	.seh_endprologue
	movq $-2147483648, %r11
	nop
	movq $127, %r8
	leaq -216(%rbp), %rsp
	popq %r13
	popq %rbp
	retq
	.seh_endproc
	.p2align 4, 0xCC
	.seh_proc f9
f9:
	pushq %r14
	.seh_pushreg %r14
	pushq %rdi
	.seh_pushreg %rdi
	pushq %r15
	.seh_pushreg %r15
	subq $248, %rsp
	.seh_stackalloc 248
	movq %rbp, 240(%rsp)
	.seh_savereg %rbp, 240
	{disp8} movq %r13, 0(%rsp)
	.seh_savereg %r13, 0
	movq %rbx, 24(%rsp)
	.seh_savereg %rbx, 24
	leaq 96(%rsp), %r14
	.seh_setframe %r14, 96
	movq %rsi, 112(%rsp)
	.seh_savereg %rsi, 112
	movq %r12, 232(%rsp)
	.seh_savereg %r12, 232
	.seh_endprologue
	movq $1041840561, %r8
	nop
	movq $127, %r15
	movq $1, %r11
	movq $0, %rdx
	movq 136(%r14), %r12
	movq 16(%r14), %rsi
	movq -72(%r14), %rbx
	movq -96(%r14), %r13
	movq 144(%r14), %rbp
	leaq 152(%r14), %rsp
	popq %r15
	popq %rdi
	popq %r14
	retq
	.seh_endproc
	.p2align 4, 0xCC
	.seh_proc f10
f10:
	pushq %rsi
	.seh_pushreg %rsi
	pushq %rdi
	.seh_pushreg %rdi
	pushq %rbp
	.seh_pushreg %rbp
	pushq %r12
	.seh_pushreg %r12
	pushq %rbx
	.seh_pushreg %rbx
	pushq %r14
	.seh_pushreg %r14
	pushq %r13
	.seh_pushreg %r13
	pushq %r15
	.seh_pushreg %r15
	subq $64, %rsp
	.seh_stackalloc 64
	leaq 64(%rsp), %rdi
	.seh_setframe %rdi, 64
	.seh_endprologue
	nop
	{disp8} leaq 0(%rdi), %rsp
	popq %r15
	popq %r13
	popq %r14
	popq %rbx
	popq %r12
	popq %rbp
	popq %rdi
	popq %rsi
	retq
	.seh_endproc
	.p2align 4, 0xCC
	.seh_proc f11
f11:
	pushq %rsi
	.seh_pushreg %rsi
	subq $32, %rsp
	.seh_stackalloc 32
	leaq 240(%rsp), %rsi
	.seh_setframe %rsi, 240
	.seh_endprologue
	movq $2147483646, %rcx
	movq $65536, %rcx
	nop
	leaq -208(%rsi), %rsp
	popq %rsi
	retq
	.seh_endproc
	.p2align 4, 0xCC
	.seh_proc f12
f12:
	pushq %r15
	.seh_pushreg %r15
	pushq %r13
	.seh_pushreg %r13
	pushq %rbp
	.seh_pushreg %rbp
	pushq %rdi
	.seh_pushreg %rdi
	pushq %r14
	.seh_pushreg %r14
	pushq %rbx
	.seh_pushreg %rbx
	pushq %rsi
	.seh_pushreg %rsi
	pushq %r12
	.seh_pushreg %r12
	subq $128, %rsp
	.seh_stackalloc 128
	leaq 16(%rsp), %r15
	.seh_setframe %r15, 16
	.seh_endprologue
	subq $112, %rsp
	movq $65536, %rsi
	movq $-1, %r8
	leaq 112(%r15), %rsp
	popq %r12
	popq %rsi
	popq %rbx
	popq %r14
	popq %rdi
	popq %rbp
	popq %r13
	popq %r15
	retq
	.seh_endproc
	.p2align 4, 0xCC
	.seh_proc f13
f13:
	pushq %r14
	.seh_pushreg %r14
	pushq %r13
	.seh_pushreg %r13
	pushq %rdi
	.seh_pushreg %rdi
	subq $32, %rsp
	.seh_stackalloc 32
	leaq 160(%rsp), %r13
	.seh_setframe %r13, 160
	.seh_endprologue
	nop
	leaq -128(%r13), %rsp
	popq %rdi
	popq %r13
	popq %r14
	retq
	.seh_endproc
	.p2align 4, 0xCC
	.seh_proc f14
f14:
	pushq %r14
	.seh_pushreg %r14
	pushq %rdi
	.seh_pushreg %rdi
	pushq %rbx
	.seh_pushreg %rbx
	subq $144, %rsp
	.seh_stackalloc 144
	movq %rsi, 40(%rsp)
	.seh_savereg %rsi, 40
	leaq 144(%rsp), %r14
	.seh_setframe %r14, 144
	.seh_endprologue
	nop
	movq $0, %rbx
	movq $-128, %r11
	movq $-2147483647, %r9
	movq $0, %rdx
	movq -104(%r14), %rsi
	{disp8} leaq 0(%r14), %rsp
	popq %rbx
	popq %rdi
	popq %r14
	retq
	.seh_endproc
	.p2align 4, 0xCC
	.seh_proc f15
f15:
	pushq %r14
	.seh_pushreg %r14
	pushq %r12
	.seh_pushreg %r12
	subq $524272, %rsp
	.seh_stackalloc 524272
	movq %rbx, 524264(%rsp)
	.seh_savereg %rbx, 524264
	.seh_endprologue
	nop
	movq 524264(%rsp), %rbx
	addq $524272, %rsp
	popq %r12
	popq %r14
	retq
	.seh_endproc
	.p2align 4, 0xCC
	.seh_proc f16
f16:
	pushq %rdi
	.seh_pushreg %rdi
	pushq %r13
	.seh_pushreg %r13
	pushq %r12
	.seh_pushreg %r12
	pushq %rbx
	.seh_pushreg %rbx
	subq $524272, %rsp
	.seh_stackalloc 524272
	{disp8} movq %rbp, 0(%rsp)
	.seh_savereg %rbp, 0
	leaq 208(%rsp), %rbx
	.seh_setframe %rbx, 208
	.seh_endprologue
	movq $-128, %r8
	movq -208(%rbx), %rbp
	leaq 524064(%rbx), %rsp
	popq %rbx
	popq %r12
	popq %r13
	popq %rdi
	retq
	.seh_endproc
	.p2align 4, 0xCC
	.seh_proc f17
f17:
	pushq %rbp
	.seh_pushreg %rbp
	pushq %r15
	.seh_pushreg %r15
	subq $24, %rsp
	.seh_stackalloc 24
	movq %rsi, 16(%rsp)
	.seh_savereg %rsi, 16
	movq %rbx, 8(%rsp)
	.seh_savereg %rbx, 8
	leaq 208(%rsp), %rbp
	.seh_setframe %rbp, 208
	{disp8} movq %rdi, 0(%rsp)
	.seh_savereg %rdi, 0
	.seh_endprologue
	movq $127, %r11
	subq $144, %rsp
	movq $1, %rdx
	movq $-128, %rdx
	movq $2147483646, %r11
	movq -208(%rbp), %rdi
	movq -200(%rbp), %rbx
	movq -192(%rbp), %rsi
	leaq -184(%rbp), %rsp
	popq %r15
	popq %rbp
	retq
	.seh_endproc
	.p2align 4, 0xCC
	.seh_proc f18
f18:
	pushq %r14
	.seh_pushreg %r14
	subq $24, %rsp
	.seh_stackalloc 24
	{disp8} movq %r13, 0(%rsp)
	.seh_savereg %r13, 0
	.seh_endprologue
	movq $2147483646, %rdx
	movq $2147483646, %rax
	{disp8} movq 0(%rsp), %r13
	addq $24, %rsp
	popq %r14
	retq
	.seh_endproc
	.p2align 4, 0xCC
	.seh_proc f19
f19:
	pushq %r12
	.seh_pushreg %r12
	pushq %r13
	.seh_pushreg %r13
	subq $136, %rsp
	.seh_stackalloc 136
	movq %r15, 80(%rsp)
	.seh_savereg %r15, 80
	leaq 80(%rsp), %r13
	.seh_setframe %r13, 80
	movq %rdi, 32(%rsp)
	.seh_savereg %rdi, 32
	movq %rsi, 128(%rsp)
	.seh_savereg %rsi, 128
	movq %rbp, 104(%rsp)
	.seh_savereg %rbp, 104
	movq %rbx, 24(%rsp)
	.seh_savereg %rbx, 24
	movq %r14, 72(%rsp)
	.seh_savereg %r14, 72
	.seh_endprologue
	nop
	movq -8(%r13), %r14
	movq -56(%r13), %rbx
	movq 24(%r13), %rbp
	movq 48(%r13), %rsi
	movq -48(%r13), %rdi
	{disp8} movq 0(%r13), %r15
	leaq 56(%r13), %rsp
	popq %r13
	popq %r12
	retq
	.seh_endproc
	.p2align 4, 0xCC
	.seh_proc f20
f20:
	pushq %r14
	.seh_pushreg %r14
	pushq %rsi
	.seh_pushreg %rsi
	subq $56, %rsp
	.seh_stackalloc 56
	leaq 208(%rsp), %rsi
	.seh_setframe %rsi, 208
	{disp8} movq %r13, 0(%rsp)
	.seh_savereg %r13, 0
	.seh_endprologue
	nop
	subq $128, %rsp
	movq $-2147483647, %r8
	movq $2147483647, %r9
	subq $58592, %rsp
	movq $-2147483647, %r14
	subq $112, %rsp
	movq $-129, %r13
	movq $0, %rdx
	movq -208(%rsi), %r13
	leaq -152(%rsi), %rsp
	popq %rsi
	popq %r14
	retq
	.seh_endproc
	.p2align 4, 0xCC
	.seh_proc f21
f21:
	pushq %rbp
	.seh_pushreg %rbp
	pushq %rbx
	.seh_pushreg %rbx
	pushq %r13
	.seh_pushreg %r13
	pushq %rsi
	.seh_pushreg %rsi
	pushq %r12
	.seh_pushreg %r12
	pushq %rdi
	.seh_pushreg %rdi
	pushq %r15
	.seh_pushreg %r15
	pushq %r14
	.seh_pushreg %r14
	subq $136, %rsp
	.seh_stackalloc 136
	leaq 240(%rsp), %rbp
	.seh_setframe %rbp, 240
	.seh_endprologue
	nop
	nop
	leaq -104(%rbp), %rsp
	popq %r14
	popq %r15
	popq %rdi
	popq %r12
	popq %rsi
	popq %r13
	popq %rbx
	popq %rbp
	retq
	.seh_endproc
	.p2align 4, 0xCC
	.seh_proc f22
f22:
	pushq %rdi
	.seh_pushreg %rdi
	leaq 48(%rsp), %rdi
	.seh_setframe %rdi, 48
	.seh_endprologue
	nop
	subq $4096, %rsp
	leaq -48(%rdi), %rsp
	popq %rdi
	retq
	.seh_endproc
	.p2align 4, 0xCC
	.seh_proc f23
f23:
	subq $2097152, %rsp
	.seh_stackalloc 2097152
	movq %r15, 1181064(%rsp)
	.seh_savereg %r15, 1181064
	movq %r12, 128(%rsp)
	.seh_savereg %r12, 128
	movq %rbx, 165424(%rsp)
	.seh_savereg %rbx, 165424
	movq %rdi, 40(%rsp)
	.seh_savereg %rdi, 40
	movq %rbp, 62840(%rsp)
	.seh_savereg %rbp, 62840
	movq %r13, 24(%rsp)
	.seh_savereg %r13, 24
	movq %rsi, 1119216(%rsp)
	.seh_savereg %rsi, 1119216
	movq %r14, 524272(%rsp)
	.seh_savereg %r14, 524272
	.seh_endprologue
	movq $-2147483648, %rcx
	movq 524272(%rsp), %r14
	movq 1119216(%rsp), %rsi
	movq 24(%rsp), %r13
	movq 62840(%rsp), %rbp
	movq 40(%rsp), %rdi
	movq 165424(%rsp), %rbx
	movq 128(%rsp), %r12
	movq 1181064(%rsp), %r15
	addq $2097152, %rsp
	retq
	.seh_endproc
	.p2align 4, 0xCC
	.seh_proc f24
f24:
	pushq %rdi
	.seh_pushreg %rdi
	subq $32, %rsp
	.seh_stackalloc 32
	.seh_endprologue
	addq $32, %rsp
	popq %rdi
	retq
	.seh_endproc
	.p2align 4, 0xCC
	.seh_proc f25
f25:
	pushq %rdi
	.seh_pushreg %rdi
	subq $128, %rsp
	.seh_stackalloc 128
	leaq 48(%rsp), %rdi
	.seh_setframe %rdi, 48
	movq %r12, 48(%rsp)
	.seh_savereg %r12, 48
	movq %r14, 112(%rsp)
	.seh_savereg %r14, 112
	movq %rsi, 56(%rsp)
	.seh_savereg %rsi, 56
	.seh_endprologue
	movq $65536, %rcx
	movq 8(%rdi), %rsi
	movq 64(%rdi), %r14
	{disp8} movq 0(%rdi), %r12
	leaq 80(%rdi), %rsp
	popq %rdi
	retq
	.seh_endproc
	.p2align 4, 0xCC
	.seh_proc f26
f26:
	pushq %r15
	.seh_pushreg %r15
	pushq %r14
	.seh_pushreg %r14
	subq $2097144, %rsp
	.seh_stackalloc 2097144
	{disp8} leaq 0(%rsp), %r15
	.seh_setframe %r15, 0
	movq %r13, 524280(%rsp)
	.seh_savereg %r13, 524280
	movq %rbx, 524296(%rsp)
	.seh_savereg %rbx, 524296
	movq %rsi, 128(%rsp)
	.seh_savereg %rsi, 128
	.seh_endprologue
	callq f31
	movq 128(%r15), %rsi
	movq 524296(%r15), %rbx
	movq 524280(%r15), %r13
	leaq 2097144(%r15), %rsp
	popq %r14
	popq %r15
	retq
	.seh_endproc
	.p2align 4, 0xCC
	.seh_proc f27
f27:
	subq $2097144, %rsp
	.seh_stackalloc 2097144
	.seh_endprologue
	movq $817561303, %rax
	addq $2097144, %rsp
	retq
	.seh_endproc
	.p2align 4, 0xCC
	.seh_proc f28
f28:
	pushq %r12
	.seh_pushreg %r12
	subq $248, %rsp
	.seh_stackalloc 248
	.seh_endprologue
	nop
	movq $-128, %rdx
	nop
	movq $127, %r10
	nop
	nop
	nop
	movq $2147483647, %r11
	nop
	addq $248, %rsp
	popq %r12
	retq
	.seh_endproc
	.p2align 4, 0xCC
	.seh_proc f29
f29:
	pushq %r13
	.seh_pushreg %r13
	pushq %rbp
	.seh_pushreg %rbp
	subq $2097144, %rsp
	.seh_stackalloc 2097144
	leaq 128(%rsp), %r13
	.seh_setframe %r13, 128
	movq %r12, 525640(%rsp)
	.seh_savereg %r12, 525640
	.seh_endprologue
	subq $4096, %rsp
	callq f60
	movq 525512(%r13), %r12
	leaq 2097016(%r13), %rsp
	popq %rbp
	popq %r13
	retq
	.seh_endproc
	.p2align 4, 0xCC
	.seh_proc f30
f30:
	pushq %rsi
	.seh_pushreg %rsi
	subq $128, %rsp
	.seh_stackalloc 128
	movq %rdi, 120(%rsp)
	.seh_savereg %rdi, 120
	movq %rbx, 112(%rsp)
	.seh_savereg %rbx, 112
	movq %r14, 88(%rsp)
	.seh_savereg %r14, 88
	leaq 32(%rsp), %rsi
	.seh_setframe %rsi, 32
	.seh_endprologue
	nop
	movq 56(%rsi), %r14
	movq 80(%rsi), %rbx
	movq 88(%rsi), %rdi
	leaq 96(%rsi), %rsp
	popq %rsi
	retq
	.seh_endproc
	.p2align 4, 0xCC
	.seh_proc f31
f31:
	pushq %r15
	.seh_pushreg %r15
	subq $1048576, %rsp
	.seh_stackalloc 1048576
	movq %r14, 524296(%rsp)
	.seh_savereg %r14, 524296
	.seh_endprologue
	nop
	movq $2147483646, %rax
	nop
	nop
	callq f39
	callq f43
	nop
	nop
	callq f41
	movq 524296(%rsp), %r14
	addq $1048576, %rsp
	popq %r15
	retq
	.seh_endproc
	.p2align 4, 0xCC
	.seh_proc f32
f32:
	pushq %r12
	.seh_pushreg %r12
	pushq %r14
	.seh_pushreg %r14
	pushq %r15
	.seh_pushreg %r15
	subq $2097152, %rsp
	.seh_stackalloc 2097152
	leaq 128(%rsp), %r14
	.seh_setframe %r14, 128
	.seh_endprologue
	nop
	subq $25632, %rsp
	callq f56
	subq $32, %rsp
	callq f52
	leaq 2097024(%r14), %rsp
	popq %r15
	popq %r14
	popq %r12
	retq
	.seh_endproc
	.p2align 4, 0xCC
	.seh_proc f33
f33:
	pushq %r15
	.seh_pushreg %r15
	pushq %rbx
	.seh_pushreg %rbx
	subq $8, %rsp
	.seh_stackalloc 8
	leaq 16(%rsp), %r15
	.seh_setframe %r15, 16
	.seh_endprologue
	movq $2147483646, %r11
	leaq -8(%r15), %rsp
	popq %rbx
	popq %r15
	retq
	.seh_endproc
	.p2align 4, 0xCC
	.seh_proc f34
f34:
	subq $2097152, %rsp
	.seh_stackalloc 2097152
	movq %rsi, 1522392(%rsp)
	.seh_savereg %rsi, 1522392
	movq %r15, 1317264(%rsp)
	.seh_savereg %r15, 1317264
	movq %rbx, 8(%rsp)
	.seh_savereg %rbx, 8
	movq %rdi, 136(%rsp)
	.seh_savereg %rdi, 136
	movq %rbp, 120(%rsp)
	.seh_savereg %rbp, 120
	movq %r14, 157272(%rsp)
	.seh_savereg %r14, 157272
	movq %r12, 1236176(%rsp)
	.seh_savereg %r12, 1236176
	movq %r13, 524296(%rsp)
	.seh_savereg %r13, 524296
	.seh_endprologue
	movq $65536, %r11
	movq $-1, %rsi
	movq $2147483646, %rcx
	movq 524296(%rsp), %r13
	movq 1236176(%rsp), %r12
	movq 157272(%rsp), %r14
	movq 120(%rsp), %rbp
	movq 136(%rsp), %rdi
	movq 8(%rsp), %rbx
	movq 1317264(%rsp), %r15
	movq 1522392(%rsp), %rsi
	addq $2097152, %rsp
	retq
	.seh_endproc
	.p2align 4, 0xCC
	.seh_proc f35
f35:
	subq $40, %rsp
	.seh_stackalloc 40
	.seh_endprologue
	movq $-128, %rdx
	nop
	addq $40, %rsp
	retq
	.seh_endproc
	.p2align 4, 0xCC
	.seh_proc f36
f36:
	subq $264, %rsp
	.seh_stackalloc 264
	.seh_endprologue
	callq f19
	movq $-129, %r8
	addq $264, %rsp
	retq
	.seh_endproc
	.p2align 4, 0xCC
	.seh_proc f37
f37:
	pushq %r15
	.seh_pushreg %r15
	subq $524272, %rsp
	.seh_stackalloc 524272
	leaq 32(%rsp), %r15
	.seh_setframe %r15, 32
	.seh_endprologue
	leaq 524240(%r15), %rsp
	popq %r15
	retq
	.seh_endproc
	.p2align 4, 0xCC
	.seh_proc f38
f38:
	pushq %rdi
	.seh_pushreg %rdi
	subq $32, %rsp
	.seh_stackalloc 32
	leaq 64(%rsp), %rdi
	.seh_setframe %rdi, 64
	.seh_endprologue
	subq $128, %rsp
	movq $-1, %r10
	leaq -32(%rdi), %rsp
	popq %rdi
	retq
	.seh_endproc
	.p2align 4, 0xCC
	.seh_proc f39
f39:
	pushq %r13
	.seh_pushreg %r13
	pushq %rbp
	.seh_pushreg %rbp
	subq $120, %rsp
	.seh_stackalloc 120
	leaq 64(%rsp), %r13
	.seh_setframe %r13, 64
	.seh_endprologue
	nop
	nop
	nop
	leaq 56(%r13), %rsp
	popq %rbp
	popq %r13
	retq
	.seh_endproc
	.p2align 4, 0xCC
	.seh_proc f40
f40:
	pushq %r14
	.seh_pushreg %r14
	pushq %rsi
	.seh_pushreg %rsi
	subq $120, %rsp
	.seh_stackalloc 120
	movq %rbx, 40(%rsp)
	.seh_savereg %rbx, 40
	leaq 96(%rsp), %r14
	.seh_setframe %r14, 96
	movq %rbp, 32(%rsp)
	.seh_savereg %rbp, 32
	.seh_endprologue
	nop
	subq $128, %rsp
	subq $128, %rsp
	movq $65536, %r10
	subq $65520, %rsp
	movq -64(%r14), %rbp
	movq -56(%r14), %rbx
	leaq 24(%r14), %rsp
	popq %rsi
	popq %r14
	retq
	.seh_endproc
	.p2align 4, 0xCC
	.seh_proc f41
f41:
	subq $1048576, %rsp
	.seh_stackalloc 1048576
	movq %rsi, 128(%rsp)
	.seh_savereg %rsi, 128
	movq %rbp, 40(%rsp)
	.seh_savereg %rbp, 40
	{disp8} movq %r14, 0(%rsp)
	.seh_savereg %r14, 0
	movq %rdi, 524296(%rsp)
	.seh_savereg %rdi, 524296
	movq %rbx, 199872(%rsp)
	.seh_savereg %rbx, 199872
	movq %r15, 120(%rsp)
	.seh_savereg %r15, 120
	movq %r13, 524272(%rsp)
	.seh_savereg %r13, 524272
	movq %r12, 524288(%rsp)
	.seh_savereg %r12, 524288
	.seh_endprologue
	movq 524288(%rsp), %r12
	movq 524272(%rsp), %r13
	movq 120(%rsp), %r15
	movq 199872(%rsp), %rbx
	movq 524296(%rsp), %rdi
	{disp8} movq 0(%rsp), %r14
	movq 40(%rsp), %rbp
	movq 128(%rsp), %rsi
	addq $1048576, %rsp
	retq
	.seh_endproc
	.p2align 4, 0xCC
	.seh_proc f42
f42:
	pushq %rdi
	.seh_pushreg %rdi
	pushq %rsi
	.seh_pushreg %rsi
	subq $56, %rsp
	.seh_stackalloc 56
	movq %r13, 40(%rsp)
	.seh_savereg %r13, 40
	movq %rbp, 32(%rsp)
	.seh_savereg %rbp, 32
	{disp8} movq %r12, 0(%rsp)
	.seh_savereg %r12, 0
	leaq 208(%rsp), %rdi
	.seh_setframe %rdi, 208
	movq %r14, 48(%rsp)
	.seh_savereg %r14, 48
	movq %rbx, 24(%rsp)
	.seh_savereg %rbx, 24
	movq %r15, 8(%rsp)
	.seh_savereg %r15, 8
	.seh_endprologue
	movq $-2147483647, %rbp
	movq $732633544, %r10
	movq -200(%rdi), %r15
	movq -184(%rdi), %rbx
	movq -160(%rdi), %r14
	movq -208(%rdi), %r12
	movq -176(%rdi), %rbp
	movq -168(%rdi), %r13
	leaq -152(%rdi), %rsp
	popq %rsi
	popq %rdi
	retq
	.seh_endproc
	.p2align 4, 0xCC
	.seh_proc f43
f43:
	pushq %r12
	.seh_pushreg %r12
	pushq %rbx
	.seh_pushreg %rbx
	subq $112, %rsp
	.seh_stackalloc 112
	movq %r14, 8(%rsp)
	.seh_savereg %r14, 8
	movq %rbp, 96(%rsp)
	.seh_savereg %rbp, 96
	{disp8} leaq 0(%rsp), %rbx
	.seh_setframe %rbx, 0
	movq %r15, 40(%rsp)
	.seh_savereg %r15, 40
	.seh_endprologue
	nop
	nop
	subq $144, %rsp
	subq $128, %rsp
	nop
	movq 40(%rbx), %r15
	movq 96(%rbx), %rbp
	movq 8(%rbx), %r14
	leaq 112(%rbx), %rsp
	popq %rbx
	popq %r12
	retq
	.seh_endproc
	.p2align 4, 0xCC
	.seh_proc f44
f44:
	pushq %r12
	.seh_pushreg %r12
	pushq %rbx
	.seh_pushreg %rbx
	pushq %r14
	.seh_pushreg %r14
	pushq %rdi
	.seh_pushreg %rdi
	subq $40, %rsp
	.seh_stackalloc 40
	leaq 160(%rsp), %rbx
	.seh_setframe %rbx, 160
	.seh_endprologue
	callq f43
	callq f38
	callq f8
	leaq -120(%rbx), %rsp
	popq %rdi
	popq %r14
	popq %rbx
	popq %r12
	retq
	.seh_endproc
	.p2align 4, 0xCC
	.seh_proc f45
f45:
	pushq %r13
	.seh_pushreg %r13
	pushq %rdi
	.seh_pushreg %rdi
	pushq %rbp
	.seh_pushreg %rbp
	pushq %r14
	.seh_pushreg %r14
	subq $136, %rsp
	.seh_stackalloc 136
	movq %r15, 40(%rsp)
	.seh_savereg %r15, 40
	movq %rbx, 32(%rsp)
	.seh_savereg %rbx, 32
	{disp8} leaq 0(%rsp), %r13
	.seh_setframe %r13, 0
	.seh_endprologue
	callq f14
	subq $16, %rsp
	nop
	subq $144, %rsp
	callq f2
	movq 32(%r13), %rbx
	movq 40(%r13), %r15
	leaq 136(%r13), %rsp
	popq %r14
	popq %rbp
	popq %rdi
	popq %r13
	retq
	.seh_endproc
	.p2align 4, 0xCC
	.seh_proc f46
f46:
	pushq %r14
	.seh_pushreg %r14
	pushq %r13
	.seh_pushreg %r13
	subq $524280, %rsp
	.seh_stackalloc 524280
	movq %r12, 8(%rsp)
	.seh_savereg %r12, 8
	movq %rsi, 65072(%rsp)
	.seh_savereg %rsi, 65072
	movq %rbx, 40(%rsp)
	.seh_savereg %rbx, 40
	movq %rbp, 376520(%rsp)
	.seh_savereg %rbp, 376520
	movq %rdi, 184(%rsp)
	.seh_savereg %rdi, 184
	leaq 64(%rsp), %r13
	.seh_setframe %r13, 64
	movq %r15, 461376(%rsp)
	.seh_savereg %r15, 461376
	.seh_endprologue
	movq 461312(%r13), %r15
	movq 120(%r13), %rdi
	movq 376456(%r13), %rbp
	movq -24(%r13), %rbx
	movq 65008(%r13), %rsi
	movq -56(%r13), %r12
	leaq 524216(%r13), %rsp
	popq %r13
	popq %r14
	retq
	.seh_endproc
	.p2align 4, 0xCC
	.seh_proc f47
f47:
	pushq %rsi
	.seh_pushreg %rsi
	subq $256, %rsp
	.seh_stackalloc 256
	movq %rbx, 224(%rsp)
	.seh_savereg %rbx, 224
	leaq 96(%rsp), %rsi
	.seh_setframe %rsi, 96
	movq %r13, 40(%rsp)
	.seh_savereg %r13, 40
	movq %r14, 208(%rsp)
	.seh_savereg %r14, 208
	movq %rbp, 128(%rsp)
	.seh_savereg %rbp, 128
	movq %rdi, 24(%rsp)
	.seh_savereg %rdi, 24
	movq %r12, 56(%rsp)
	.seh_savereg %r12, 56
	movq %r15, 216(%rsp)
	.seh_savereg %r15, 216
	.seh_endprologue
	movq $0, %r12
	subq $65520, %rsp
	nop
	movq $686822555, %rbx
	movq $-128, %rbx
	movq $-129, %rcx
	nop
	subq $32, %rsp
	nop
	movq 120(%rsi), %r15
	movq -40(%rsi), %r12
	movq -72(%rsi), %rdi
	movq 32(%rsi), %rbp
	movq 112(%rsi), %r14
	movq -56(%rsi), %r13
	movq 128(%rsi), %rbx
	leaq 160(%rsi), %rsp
	popq %rsi
	retq
	.seh_endproc
	.p2align 4, 0xCC
	.seh_proc f48
f48:
	pushq %rsi
	.seh_pushreg %rsi
	pushq %r14
	.seh_pushreg %r14
	pushq %r12
	.seh_pushreg %r12
	subq $64, %rsp
	.seh_stackalloc 64
	leaq 128(%rsp), %r14
	.seh_setframe %r14, 128
	movq %r13, 48(%rsp)
	.seh_savereg %r13, 48
	.seh_endprologue
	nop
	callq f13
	movq $2147483647, %rcx
	movq -80(%r14), %r13
	leaq -64(%r14), %rsp
	popq %r12
	popq %r14
	popq %rsi
	retq
	.seh_endproc
	.p2align 4, 0xCC
	.seh_proc f49
f49:
	pushq %r12
	.seh_pushreg %r12
	pushq %rbp
	.seh_pushreg %rbp
	pushq %r13
	.seh_pushreg %r13
	subq $64, %rsp
	.seh_stackalloc 64
	movq %r14, 40(%rsp)
	.seh_savereg %r14, 40
	leaq 208(%rsp), %rbp
	.seh_setframe %rbp, 208
	movq %rsi, 56(%rsp)
	.seh_savereg %rsi, 56
	.seh_endprologue
	movq $2147483647, %rdx
	callq f46
	subq $30608, %rsp
	movq -152(%rbp), %rsi
	movq -168(%rbp), %r14
	leaq -144(%rbp), %rsp
	popq %r13
	popq %rbp
	popq %r12
	retq
	.seh_endproc
	.p2align 4, 0xCC
	.seh_proc f50
f50:
	pushq %r15
	.seh_pushreg %r15
	subq $32, %rsp
	.seh_stackalloc 32
	movq %rbp, 8(%rsp)
	.seh_savereg %rbp, 8
	{disp8} movq %r14, 0(%rsp)
	.seh_savereg %r14, 0
	.seh_endprologue
	nop
	nop
	nop
	{disp8} movq 0(%rsp), %r14
	movq 8(%rsp), %rbp
	addq $32, %rsp
	popq %r15
	retq
	.seh_endproc
	.p2align 4, 0xCC
	.seh_proc f51
f51:
	pushq %rdi
	.seh_pushreg %rdi
	subq $256, %rsp
	.seh_stackalloc 256
	movq %r15, 96(%rsp)
	.seh_savereg %r15, 96
	leaq 64(%rsp), %rdi
	.seh_setframe %rdi, 64
	.seh_endprologue
	movq $-194726441, %r8
	subq $16, %rsp
	subq $16, %rsp
	movq 32(%rdi), %r15
	leaq 192(%rdi), %rsp
	popq %rdi
	retq
	.seh_endproc
	.p2align 4, 0xCC
	.seh_proc f52
f52:
	pushq %rdi
	.seh_pushreg %rdi
	pushq %r14
	.seh_pushreg %r14
	pushq %r13
	.seh_pushreg %r13
	subq $1048576, %rsp
	.seh_stackalloc 1048576
	movq %rbx, 192(%rsp)
	.seh_savereg %rbx, 192
	movq %r15, 176(%rsp)
	.seh_savereg %r15, 176
	movq %rsi, 524264(%rsp)
	.seh_savereg %rsi, 524264
	movq %rbp, 355088(%rsp)
	.seh_savereg %rbp, 355088
	{disp8} movq %r12, 0(%rsp)
	.seh_savereg %r12, 0
	leaq 64(%rsp), %r14
	.seh_setframe %r14, 64
	.seh_endprologue
	movq -64(%r14), %r12
	movq 355024(%r14), %rbp
	movq 524200(%r14), %rsi
	movq 112(%r14), %r15
	movq 128(%r14), %rbx
	leaq 1048512(%r14), %rsp
	popq %r13
	popq %r14
	popq %rdi
	retq
	.seh_endproc
	.p2align 4, 0xCC
	.seh_proc f53
f53:
	pushq %r14
	.seh_pushreg %r14
	pushq %r15
	.seh_pushreg %r15
	subq $264, %rsp
	.seh_stackalloc 264
	movq %rbp, 256(%rsp)
	.seh_savereg %rbp, 256
	leaq 16(%rsp), %r14
	.seh_setframe %r14, 16
	movq %r12, 240(%rsp)
	.seh_savereg %r12, 240
	movq %rbx, 32(%rsp)
	.seh_savereg %rbx, 32
	.seh_endprologue
	callq f18
	movq 16(%r14), %rbx
	movq 224(%r14), %r12
	movq 240(%r14), %rbp
	leaq 248(%r14), %rsp
	popq %r15
	popq %r14
	retq
	.seh_endproc
	.p2align 4, 0xCC
	.seh_proc f54
f54:
	pushq %rsi
	.seh_pushreg %rsi
	pushq %r15
	.seh_pushreg %r15
	subq $32, %rsp
	.seh_stackalloc 32
	movq %rbp, 24(%rsp)
	.seh_savereg %rbp, 24
	movq %r12, 8(%rsp)
	.seh_savereg %r12, 8
	leaq 96(%rsp), %r15
	.seh_setframe %r15, 96
	.seh_endprologue
	subq $32, %rsp
	movq $-1885645774, %r10
	movq -88(%r15), %r12
	movq -72(%r15), %rbp
	leaq -64(%r15), %rsp
	popq %r15
	popq %rsi
	retq
	.seh_endproc
	.p2align 4, 0xCC
	.seh_proc f55
f55:
	subq $120, %rsp
	.seh_stackalloc 120
	.seh_endprologue
	callq f61
	addq $120, %rsp
	retq
	.seh_endproc
	.p2align 4, 0xCC
	.seh_proc f56
f56:
	pushq %r14
	.seh_pushreg %r14
	pushq %r13
	.seh_pushreg %r13
	pushq %r12
	.seh_pushreg %r12
	pushq %rsi
	.seh_pushreg %rsi
	pushq %rdi
	.seh_pushreg %rdi
	pushq %rbp
	.seh_pushreg %rbp
	pushq %r15
	.seh_pushreg %r15
	pushq %rbx
	.seh_pushreg %rbx
	subq $200, %rsp
	.seh_stackalloc 200
	leaq 240(%rsp), %r14
	.seh_setframe %r14, 240
	.seh_endprologue
	nop
	subq $4096, %rsp
	leaq -40(%r14), %rsp
	popq %rbx
	popq %r15
	popq %rbp
	popq %rdi
	popq %rsi
	popq %r12
	popq %r13
	popq %r14
	retq
	.seh_endproc
	.p2align 4, 0xCC
	.seh_proc f57
f57:
	pushq %rbx
	.seh_pushreg %rbx
	pushq %rbp
	.seh_pushreg %rbp
	subq $524280, %rsp
	.seh_stackalloc 524280
	leaq 160(%rsp), %rbx
	.seh_setframe %rbx, 160
	movq %r12, 112(%rsp)
	.seh_savereg %r12, 112
	.seh_endprologue
	callq f60
	movq -48(%rbx), %r12
	leaq 524120(%rbx), %rsp
	popq %rbp
	popq %rbx
	retq
	.seh_endproc
	.p2align 4, 0xCC
	.seh_proc f58
f58:
	.seh_endprologue
	nop
	nop
	retq
	.seh_endproc
	.p2align 4, 0xCC
	.seh_proc f59
f59:
	pushq %rbp
	.seh_pushreg %rbp
	pushq %r13
	.seh_pushreg %r13
	pushq %r15
	.seh_pushreg %r15
	pushq %rbx
	.seh_pushreg %rbx
	pushq %r12
	.seh_pushreg %r12
	pushq %rdi
	.seh_pushreg %rdi
	pushq %r14
	.seh_pushreg %r14
	pushq %rsi
	.seh_pushreg %rsi
	subq $2097144, %rsp
	.seh_stackalloc 2097144
	leaq 176(%rsp), %rbp
	.seh_setframe %rbp, 176
	.seh_endprologue
	movq $1, %r12
	nop
	callq f20
	movq $128, %rcx
	nop
	leaq 2096968(%rbp), %rsp
	popq %rsi
	popq %r14
	popq %rdi
	popq %r12
	popq %rbx
	popq %r15
	popq %r13
	popq %rbp
	retq
	.seh_endproc
	.p2align 4, 0xCC
	.seh_proc f60
f60:
	pushq %rsi
	.seh_pushreg %rsi
	subq $524288, %rsp
	.seh_stackalloc 524288
	leaq 144(%rsp), %rsi
	.seh_setframe %rsi, 144
	movq %r12, 128(%rsp)
	.seh_savereg %r12, 128
	.seh_endprologue
	movq $2066052935, %r12
	movq -16(%rsi), %r12
	leaq 524144(%rsi), %rsp
	popq %rsi
	retq
	.seh_endproc
	.p2align 4, 0xCC
	.seh_proc f61
f61:
	pushq %rbx
	.seh_pushreg %rbx
	pushq %rbp
	.seh_pushreg %rbp
	pushq %rsi
	.seh_pushreg %rsi
	pushq %r13
	.seh_pushreg %r13
	subq $524264, %rsp
	.seh_stackalloc 524264
	{disp8} leaq 0(%rsp), %rbp
	.seh_setframe %rbp, 0
	.seh_endprologue
	movq $-2147483647, %r8
	nop
	movq $1478676736, %rsi
	movq $-128, %r9
	subq $32, %rsp
	leaq 524264(%rbp), %rsp
	popq %r13
	popq %rsi
	popq %rbp
	popq %rbx
	retq
	.seh_endproc
	.p2align 4, 0xCC
	.seh_proc f62
f62:
	pushq %rbx
	.seh_pushreg %rbx
	pushq %r13
	.seh_pushreg %r13
	subq $40, %rsp
	.seh_stackalloc 40
	leaq 48(%rsp), %rbx
	.seh_setframe %rbx, 48
	movq %rdi, 32(%rsp)
	.seh_savereg %rdi, 32
	.seh_endprologue
	subq $128, %rsp
	nop
	movq -16(%rbx), %rdi
	leaq -8(%rbx), %rsp
	popq %r13
	popq %rbx
	retq
	.seh_endproc
	.p2align 4, 0xCC
	.seh_proc f63
f63:
	pushq %r14
	.seh_pushreg %r14
	pushq %rbx
	.seh_pushreg %rbx
	subq $24, %rsp
	.seh_stackalloc 24
	{disp8} leaq 0(%rsp), %r14
	.seh_setframe %r14, 0
	{disp8} movq %rdi, 0(%rsp)
	.seh_savereg %rdi, 0
	.seh_endprologue
	nop
	movq $2147483647, %r9
	movq $2147483646, %r9
	{disp8} movq 0(%r14), %rdi
	leaq 24(%r14), %rsp
	popq %rbx
	popq %r14
	retq
	.seh_endproc
