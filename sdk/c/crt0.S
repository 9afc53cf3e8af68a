# A domain begins with every register zero, and bytes that no file gives are zero, too:
# so what is left to do is the stack and the global pointer.
    .section .text.start, "ax"
    .globl _start
_start:
    .option push
    .option norelax
    la gp, __global_pointer$
    .option pop
    la sp, __stack_top
    call main
    li a7, 0                # EXIT with what main answers
    ecall

# A thread begins with its stack's end alone, in x10: there tp_start_thread has put
# the function and its argument.
    .globl tp_thread_entry
tp_thread_entry:
    .option push
    .option norelax
    la gp, __global_pointer$
    .option pop
    mv sp, a0
    lw t0, 0(sp)
    lw a0, 4(sp)
    jalr t0
    li a7, 14               # ENDTHREAD
    ecall
