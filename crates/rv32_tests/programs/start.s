# The stack grows down from the end of memory; what main returns is in a0 at the end.
    .globl _start
    .section .start, "ax", @progbits
_start:
    li sp, 4096
    call main
    ebreak
