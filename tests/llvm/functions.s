# Written by scripts/llvm_unwind.py.
	.text

	.globl empty
	.seh_proc empty
empty:
	.seh_endprologue
	nop
	ret
	.seh_endproc

	.globl push_rbx
	.seh_proc push_rbx
push_rbx:
	pushq %rbx
	.seh_pushreg %rbx
	.seh_endprologue
	nop
	ret
	.seh_endproc

	.globl push_rbp
	.seh_proc push_rbp
push_rbp:
	pushq %rbp
	.seh_pushreg %rbp
	.seh_endprologue
	nop
	ret
	.seh_endproc

	.globl push_rsi
	.seh_proc push_rsi
push_rsi:
	pushq %rsi
	.seh_pushreg %rsi
	.seh_endprologue
	nop
	ret
	.seh_endproc

	.globl push_rdi
	.seh_proc push_rdi
push_rdi:
	pushq %rdi
	.seh_pushreg %rdi
	.seh_endprologue
	nop
	ret
	.seh_endproc

	.globl push_r12
	.seh_proc push_r12
push_r12:
	pushq %r12
	.seh_pushreg %r12
	.seh_endprologue
	nop
	ret
	.seh_endproc

	.globl push_r13
	.seh_proc push_r13
push_r13:
	pushq %r13
	.seh_pushreg %r13
	.seh_endprologue
	nop
	ret
	.seh_endproc

	.globl push_r14
	.seh_proc push_r14
push_r14:
	pushq %r14
	.seh_pushreg %r14
	.seh_endprologue
	nop
	ret
	.seh_endproc

	.globl push_r15
	.seh_proc push_r15
push_r15:
	pushq %r15
	.seh_pushreg %r15
	.seh_endprologue
	nop
	ret
	.seh_endproc

	.globl push_all
	.seh_proc push_all
push_all:
	pushq %rbx
	.seh_pushreg %rbx
	pushq %rbp
	.seh_pushreg %rbp
	pushq %rsi
	.seh_pushreg %rsi
	pushq %rdi
	.seh_pushreg %rdi
	pushq %r12
	.seh_pushreg %r12
	pushq %r13
	.seh_pushreg %r13
	pushq %r14
	.seh_pushreg %r14
	pushq %r15
	.seh_pushreg %r15
	.seh_endprologue
	nop
	ret
	.seh_endproc

	.globl push_volatile
	.seh_proc push_volatile
push_volatile:
	pushq %rax
	.seh_pushreg %rax
	pushq %rcx
	.seh_pushreg %rcx
	pushq %rdx
	.seh_pushreg %rdx
	pushq %r8
	.seh_pushreg %r8
	pushq %r9
	.seh_pushreg %r9
	pushq %r10
	.seh_pushreg %r10
	pushq %r11
	.seh_pushreg %r11
	.seh_endprologue
	nop
	ret
	.seh_endproc

	.globl alloc_8
	.seh_proc alloc_8
alloc_8:
	subq $8, %rsp
	.seh_stackalloc 8
	.seh_endprologue
	nop
	ret
	.seh_endproc

	.globl alloc_16
	.seh_proc alloc_16
alloc_16:
	subq $16, %rsp
	.seh_stackalloc 16
	.seh_endprologue
	nop
	ret
	.seh_endproc

	.globl alloc_120
	.seh_proc alloc_120
alloc_120:
	subq $120, %rsp
	.seh_stackalloc 120
	.seh_endprologue
	nop
	ret
	.seh_endproc

	.globl alloc_128
	.seh_proc alloc_128
alloc_128:
	subq $128, %rsp
	.seh_stackalloc 128
	.seh_endprologue
	nop
	ret
	.seh_endproc

	.globl alloc_136
	.seh_proc alloc_136
alloc_136:
	subq $136, %rsp
	.seh_stackalloc 136
	.seh_endprologue
	nop
	ret
	.seh_endproc

	.globl alloc_4096
	.seh_proc alloc_4096
alloc_4096:
	subq $4096, %rsp
	.seh_stackalloc 4096
	.seh_endprologue
	nop
	ret
	.seh_endproc

	.globl alloc_524272
	.seh_proc alloc_524272
alloc_524272:
	subq $524272, %rsp
	.seh_stackalloc 524272
	.seh_endprologue
	nop
	ret
	.seh_endproc

	.globl alloc_524280
	.seh_proc alloc_524280
alloc_524280:
	subq $524280, %rsp
	.seh_stackalloc 524280
	.seh_endprologue
	nop
	ret
	.seh_endproc

	.globl alloc_524288
	.seh_proc alloc_524288
alloc_524288:
	subq $524288, %rsp
	.seh_stackalloc 524288
	.seh_endprologue
	nop
	ret
	.seh_endproc

	.globl alloc_524296
	.seh_proc alloc_524296
alloc_524296:
	subq $524296, %rsp
	.seh_stackalloc 524296
	.seh_endprologue
	nop
	ret
	.seh_endproc

	.globl alloc_2097152
	.seh_proc alloc_2097152
alloc_2097152:
	subq $2097152, %rsp
	.seh_stackalloc 2097152
	.seh_endprologue
	nop
	ret
	.seh_endproc

	.globl alloc_2147483640
	.seh_proc alloc_2147483640
alloc_2147483640:
	subq $2147483640, %rsp
	.seh_stackalloc 2147483640
	.seh_endprologue
	nop
	ret
	.seh_endproc

	.globl alloc_4294967288
	.seh_proc alloc_4294967288
alloc_4294967288:
	movl $4294967288, %eax
	subq %rax, %rsp
	.seh_stackalloc 4294967288
	.seh_endprologue
	nop
	ret
	.seh_endproc

	.globl alloc_three
	.seh_proc alloc_three
alloc_three:
	subq $8, %rsp
	.seh_stackalloc 8
	subq $136, %rsp
	.seh_stackalloc 136
	subq $524288, %rsp
	.seh_stackalloc 524288
	.seh_endprologue
	nop
	ret
	.seh_endproc

	.globl frame_rbp_0
	.seh_proc frame_rbp_0
frame_rbp_0:
	pushq %rbp
	.seh_pushreg %rbp
	leaq 0(%rsp), %rbp
	.seh_setframe %rbp, 0
	.seh_endprologue
	nop
	ret
	.seh_endproc

	.globl frame_rbp_16
	.seh_proc frame_rbp_16
frame_rbp_16:
	pushq %rbp
	.seh_pushreg %rbp
	subq $64, %rsp
	.seh_stackalloc 64
	leaq 16(%rsp), %rbp
	.seh_setframe %rbp, 16
	.seh_endprologue
	nop
	ret
	.seh_endproc

	.globl frame_rbp_128
	.seh_proc frame_rbp_128
frame_rbp_128:
	pushq %rbp
	.seh_pushreg %rbp
	subq $512, %rsp
	.seh_stackalloc 512
	leaq 128(%rsp), %rbp
	.seh_setframe %rbp, 128
	.seh_endprologue
	nop
	ret
	.seh_endproc

	.globl frame_rbp_240
	.seh_proc frame_rbp_240
frame_rbp_240:
	pushq %rbp
	.seh_pushreg %rbp
	subq $512, %rsp
	.seh_stackalloc 512
	leaq 240(%rsp), %rbp
	.seh_setframe %rbp, 240
	.seh_endprologue
	nop
	ret
	.seh_endproc

	.globl frame_rbx_48
	.seh_proc frame_rbx_48
frame_rbx_48:
	pushq %rbx
	.seh_pushreg %rbx
	subq $96, %rsp
	.seh_stackalloc 96
	leaq 48(%rsp), %rbx
	.seh_setframe %rbx, 48
	.seh_endprologue
	nop
	ret
	.seh_endproc

	.globl frame_rsi_224
	.seh_proc frame_rsi_224
frame_rsi_224:
	pushq %rsi
	.seh_pushreg %rsi
	subq $512, %rsp
	.seh_stackalloc 512
	leaq 224(%rsp), %rsi
	.seh_setframe %rsi, 224
	.seh_endprologue
	nop
	ret
	.seh_endproc

	.globl frame_rdi_0
	.seh_proc frame_rdi_0
frame_rdi_0:
	pushq %rdi
	.seh_pushreg %rdi
	subq $32, %rsp
	.seh_stackalloc 32
	leaq 0(%rsp), %rdi
	.seh_setframe %rdi, 0
	.seh_endprologue
	nop
	ret
	.seh_endproc

	.globl frame_r12_32
	.seh_proc frame_r12_32
frame_r12_32:
	pushq %r12
	.seh_pushreg %r12
	subq $64, %rsp
	.seh_stackalloc 64
	leaq 32(%rsp), %r12
	.seh_setframe %r12, 32
	.seh_endprologue
	nop
	ret
	.seh_endproc

	.globl frame_r13_64
	.seh_proc frame_r13_64
frame_r13_64:
	pushq %r13
	.seh_pushreg %r13
	subq $96, %rsp
	.seh_stackalloc 96
	leaq 64(%rsp), %r13
	.seh_setframe %r13, 64
	.seh_endprologue
	nop
	ret
	.seh_endproc

	.globl frame_r15_240
	.seh_proc frame_r15_240
frame_r15_240:
	pushq %r15
	.seh_pushreg %r15
	subq $524288, %rsp
	.seh_stackalloc 524288
	leaq 240(%rsp), %r15
	.seh_setframe %r15, 240
	.seh_endprologue
	nop
	ret
	.seh_endproc

	.globl frame_rcx_16
	.seh_proc frame_rcx_16
frame_rcx_16:
	subq $40, %rsp
	.seh_stackalloc 40
	leaq 16(%rsp), %rcx
	.seh_setframe %rcx, 16
	.seh_endprologue
	nop
	ret
	.seh_endproc

	.globl frame_first
	.seh_proc frame_first
frame_first:
	leaq 0(%rsp), %rbp
	.seh_setframe %rbp, 0
	pushq %rbx
	.seh_pushreg %rbx
	subq $32, %rsp
	.seh_stackalloc 32
	.seh_endprologue
	nop
	ret
	.seh_endproc

	.globl save_near
	.seh_proc save_near
save_near:
	subq $104, %rsp
	.seh_stackalloc 104
	movq %rbx, 32(%rsp)
	.seh_savereg %rbx, 32
	movq %rbp, 40(%rsp)
	.seh_savereg %rbp, 40
	movq %rsi, 48(%rsp)
	.seh_savereg %rsi, 48
	movq %rdi, 56(%rsp)
	.seh_savereg %rdi, 56
	movq %r12, 64(%rsp)
	.seh_savereg %r12, 64
	movq %r13, 72(%rsp)
	.seh_savereg %r13, 72
	movq %r14, 80(%rsp)
	.seh_savereg %r14, 80
	movq %r15, 88(%rsp)
	.seh_savereg %r15, 88
	.seh_endprologue
	nop
	ret
	.seh_endproc

	.globl save_0
	.seh_proc save_0
save_0:
	subq $40, %rsp
	.seh_stackalloc 40
	movq %rbx, 0(%rsp)
	.seh_savereg %rbx, 0
	.seh_endprologue
	nop
	ret
	.seh_endproc

	.globl save_524280
	.seh_proc save_524280
save_524280:
	subq $1048576, %rsp
	.seh_stackalloc 1048576
	movq %rsi, 524280(%rsp)
	.seh_savereg %rsi, 524280
	.seh_endprologue
	nop
	ret
	.seh_endproc

	.globl save_524288
	.seh_proc save_524288
save_524288:
	subq $1048576, %rsp
	.seh_stackalloc 1048576
	movq %rdi, 524288(%rsp)
	.seh_savereg %rdi, 524288
	.seh_endprologue
	nop
	ret
	.seh_endproc

	.globl save_far
	.seh_proc save_far
save_far:
	subq $2097152, %rsp
	.seh_stackalloc 2097152
	movq %r14, 2097144(%rsp)
	.seh_savereg %r14, 2097144
	movq %r15, 1048584(%rsp)
	.seh_savereg %r15, 1048584
	movq %rbp, 524296(%rsp)
	.seh_savereg %rbp, 524296
	.seh_endprologue
	nop
	ret
	.seh_endproc

	.globl save_rax
	.seh_proc save_rax
save_rax:
	subq $40, %rsp
	.seh_stackalloc 40
	movq %rax, 32(%rsp)
	.seh_savereg %rax, 32
	.seh_endprologue
	nop
	ret
	.seh_endproc

	.globl xmm_0
	.seh_proc xmm_0
xmm_0:
	subq $40, %rsp
	.seh_stackalloc 40
	movaps %xmm6, 0(%rsp)
	.seh_savexmm %xmm6, 0
	.seh_endprologue
	nop
	ret
	.seh_endproc

	.globl xmm_near
	.seh_proc xmm_near
xmm_near:
	subq $184, %rsp
	.seh_stackalloc 184
	movaps %xmm6, 16(%rsp)
	.seh_savexmm %xmm6, 16
	movaps %xmm7, 32(%rsp)
	.seh_savexmm %xmm7, 32
	movaps %xmm8, 48(%rsp)
	.seh_savexmm %xmm8, 48
	movaps %xmm9, 64(%rsp)
	.seh_savexmm %xmm9, 64
	movaps %xmm10, 80(%rsp)
	.seh_savexmm %xmm10, 80
	movaps %xmm11, 96(%rsp)
	.seh_savexmm %xmm11, 96
	movaps %xmm12, 112(%rsp)
	.seh_savexmm %xmm12, 112
	movaps %xmm13, 128(%rsp)
	.seh_savexmm %xmm13, 128
	movaps %xmm14, 144(%rsp)
	.seh_savexmm %xmm14, 144
	movaps %xmm15, 160(%rsp)
	.seh_savexmm %xmm15, 160
	.seh_endprologue
	nop
	ret
	.seh_endproc

	.globl xmm_4
	.seh_proc xmm_4
xmm_4:
	subq $40, %rsp
	.seh_stackalloc 40
	movaps %xmm4, 16(%rsp)
	.seh_savexmm %xmm4, 16
	.seh_endprologue
	nop
	ret
	.seh_endproc

	.globl xmm_524272
	.seh_proc xmm_524272
xmm_524272:
	subq $1048576, %rsp
	.seh_stackalloc 1048576
	movaps %xmm7, 524272(%rsp)
	.seh_savexmm %xmm7, 524272
	.seh_endprologue
	nop
	ret
	.seh_endproc

	.globl xmm_524288
	.seh_proc xmm_524288
xmm_524288:
	subq $1048576, %rsp
	.seh_stackalloc 1048576
	movaps %xmm15, 524288(%rsp)
	.seh_savexmm %xmm15, 524288
	.seh_endprologue
	nop
	ret
	.seh_endproc

	.globl xmm_far
	.seh_proc xmm_far
xmm_far:
	subq $2097152, %rsp
	.seh_stackalloc 2097152
	movaps %xmm8, 1048560(%rsp)
	.seh_savexmm %xmm8, 1048560
	movaps %xmm9, 1048576(%rsp)
	.seh_savexmm %xmm9, 1048576
	movaps %xmm10, 2097136(%rsp)
	.seh_savexmm %xmm10, 2097136
	.seh_endprologue
	nop
	ret
	.seh_endproc

	.globl worked_example
	.seh_proc worked_example
worked_example:
	pushq %rbp
	.seh_pushreg %rbp
	pushq %rbx
	.seh_pushreg %rbx
	subq $56, %rsp
	.seh_stackalloc 56
	leaq 32(%rsp), %rbp
	.seh_setframe %rbp, 32
	movq %rsi, 40(%rsp)
	.seh_savereg %rsi, 40
	.seh_endprologue
	nop
	ret
	.seh_endproc

	.globl all_kinds
	.seh_proc all_kinds
all_kinds:
	pushq %rbp
	.seh_pushreg %rbp
	pushq %r12
	.seh_pushreg %r12
	subq $1048568, %rsp
	.seh_stackalloc 1048568
	leaq 128(%rsp), %rbp
	.seh_setframe %rbp, 128
	movq %rbx, 40(%rsp)
	.seh_savereg %rbx, 40
	movq %rsi, 524288(%rsp)
	.seh_savereg %rsi, 524288
	movaps %xmm6, 64(%rsp)
	.seh_savexmm %xmm6, 64
	movaps %xmm7, 524304(%rsp)
	.seh_savexmm %xmm7, 524304
	.seh_endprologue
	nop
	ret
	.seh_endproc

	.globl except_no_data
	.seh_proc except_no_data
except_no_data:
	.seh_handler handle, @except
	subq $40, %rsp
	.seh_stackalloc 40
	.seh_endprologue
	nop
	ret
	.seh_endproc

	.globl except_data
	.seh_proc except_data
except_data:
	.seh_handler handle, @except
	subq $40, %rsp
	.seh_stackalloc 40
	.seh_endprologue
	.seh_handlerdata
	.long 0x11223344
	.text
	nop
	ret
	.seh_endproc

	.globl unwind_data
	.seh_proc unwind_data
unwind_data:
	.seh_handler handle, @unwind
	pushq %rbx
	.seh_pushreg %rbx
	subq $32, %rsp
	.seh_stackalloc 32
	.seh_endprologue
	.seh_handlerdata
	.long 2
	.long empty@IMGREL
	.long worked_example@IMGREL
	.text
	nop
	ret
	.seh_endproc

	.globl both_data
	.seh_proc both_data
both_data:
	.seh_handler handle, @except, @unwind
	pushq %rbp
	.seh_pushreg %rbp
	pushq %rdi
	.seh_pushreg %rdi
	subq $40, %rsp
	.seh_stackalloc 40
	leaq 32(%rsp), %rbp
	.seh_setframe %rbp, 32
	.seh_endprologue
	.seh_handlerdata
	.long 1
	.long both_data@IMGREL
	.long 0
	.text
	nop
	ret
	.seh_endproc

	.globl both_no_codes
	.seh_proc both_no_codes
both_no_codes:
	.seh_handler handle, @except, @unwind
	.seh_endprologue
	.seh_handlerdata
	.long 0xffffffff
	.text
	nop
	ret
	.seh_endproc

	.globl unwind_save_far
	.seh_proc unwind_save_far
unwind_save_far:
	.seh_handler handle, @unwind
	subq $1048576, %rsp
	.seh_stackalloc 1048576
	movq %rbx, 524288(%rsp)
	.seh_savereg %rbx, 524288
	.seh_endprologue
	nop
	ret
	.seh_endproc

	.globl chained
	.seh_proc chained
chained:
	pushq %rbx
	.seh_pushreg %rbx
	subq $32, %rsp
	.seh_stackalloc 32
	.seh_endprologue
	nop
	.seh_startchained
	movq %rsi, 48(%rsp)
	.seh_savereg %rsi, 48
	.seh_endprologue
	nop
	.seh_endchained
	nop
	ret
	.seh_endproc

	.globl chained_frame
	.seh_proc chained_frame
chained_frame:
	pushq %rbp
	.seh_pushreg %rbp
	subq $64, %rsp
	.seh_stackalloc 64
	leaq 32(%rsp), %rbp
	.seh_setframe %rbp, 32
	.seh_endprologue
	.seh_startchained
	movaps %xmm6, 16(%rsp)
	.seh_savexmm %xmm6, 16
	movq %rdi, 40(%rsp)
	.seh_savereg %rdi, 40
	.seh_endprologue
	nop
	.seh_endchained
	nop
	ret
	.seh_endproc

	.globl chained_twice
	.seh_proc chained_twice
chained_twice:
	subq $40, %rsp
	.seh_stackalloc 40
	.seh_endprologue
	.seh_startchained
	movq %rbx, 48(%rsp)
	.seh_savereg %rbx, 48
	.seh_endprologue
	nop
	.seh_endchained
	nop
	.seh_startchained
	movq %rbp, 56(%rsp)
	.seh_savereg %rbp, 56
	.seh_endprologue
	.seh_endchained
	nop
	ret
	.seh_endproc

	.globl chained_in_chained
	.seh_proc chained_in_chained
chained_in_chained:
	pushq %rbx
	.seh_pushreg %rbx
	.seh_endprologue
	.seh_startchained
	subq $32, %rsp
	.seh_stackalloc 32
	.seh_endprologue
	nop
	.seh_startchained
	movq %rsi, 48(%rsp)
	.seh_savereg %rsi, 48
	.seh_endprologue
	nop
	.seh_endchained
	.seh_endchained
	nop
	ret
	.seh_endproc

	.globl chained_no_codes
	.seh_proc chained_no_codes
chained_no_codes:
	subq $40, %rsp
	.seh_stackalloc 40
	.seh_endprologue
	.seh_startchained
	.seh_endprologue
	nop
	.seh_endchained
	nop
	ret
	.seh_endproc

	.globl chained_handler
	.seh_proc chained_handler
chained_handler:
	.seh_handler handle, @except
	subq $40, %rsp
	.seh_stackalloc 40
	.seh_endprologue
	.seh_handlerdata
	.long 7
	.text
	.seh_startchained
	pushq %rdi
	.seh_pushreg %rdi
	subq $524288, %rsp
	.seh_stackalloc 524288
	.seh_endprologue
	nop
	.seh_endchained
	nop
	ret
	.seh_endproc

	.globl machine_frame
	.seh_proc machine_frame
machine_frame:
	.seh_pushframe
	pushq %rbx
	.seh_pushreg %rbx
	subq $40, %rsp
	.seh_stackalloc 40
	.seh_endprologue
	nop
	ret
	.seh_endproc

	.globl machine_frame_code
	.seh_proc machine_frame_code
machine_frame_code:
	.seh_pushframe @code
	subq $136, %rsp
	.seh_stackalloc 136
	.seh_endprologue
	nop
	ret
	.seh_endproc

	.globl push_rsp
	.seh_proc push_rsp
push_rsp:
	pushq %rbx
	.seh_pushreg %rbx
	pushq %rsp
	.seh_pushreg %rsp
	subq $524288, %rsp
	.seh_stackalloc 524288
	.seh_endprologue
	nop
	ret
	.seh_endproc

	.globl save_rsp
	.seh_proc save_rsp
save_rsp:
	subq $136, %rsp
	.seh_stackalloc 136
	movq %rsp, 40(%rsp)
	.seh_savereg %rsp, 40
	.seh_endprologue
	nop
	ret
	.seh_endproc

	.globl save_rsp_far
	.seh_proc save_rsp_far
save_rsp_far:
	subq $8, %rsp
	.seh_stackalloc 8
	movq %rsp, 524288(%rsp)
	.seh_savereg %rsp, 524288
	.seh_endprologue
	nop
	ret
	.seh_endproc

	.globl frame_rax
	.seh_proc frame_rax
frame_rax:
	pushq %rbp
	.seh_pushreg %rbp
	leaq 0(%rsp), %rax
	.seh_setframe %rax, 0
	subq $40, %rsp
	.seh_stackalloc 40
	.seh_endprologue
	nop
	ret
	.seh_endproc

	.globl frame_rsp
	.seh_proc frame_rsp
frame_rsp:
	pushq %rbp
	.seh_pushreg %rbp
	leaq 0(%rsp), %rsp
	.seh_setframe %rsp, 0
	.seh_endprologue
	nop
	ret
	.seh_endproc

	.globl prologue_without_end
	.seh_proc prologue_without_end
prologue_without_end:
	pushq %rbx
	.seh_pushreg %rbx
	subq $40, %rsp
	.seh_stackalloc 40
	nop
	ret
	.seh_endproc

	.globl prologue_ends_early
	.seh_proc prologue_ends_early
prologue_ends_early:
	pushq %rbx
	.seh_pushreg %rbx
	.seh_endprologue
	subq $40, %rsp
	.seh_stackalloc 40
	nop
	ret
	.seh_endproc

	.globl except_last
	.seh_proc except_last
except_last:
	.seh_handler handle, @except
	pushq %rsi
	.seh_pushreg %rsi
	subq $32, %rsp
	.seh_stackalloc 32
	.seh_endprologue
	nop
	ret
	.seh_endproc

	.globl handle
handle:
	ret
