# One stub for each function of the library. A call to a symbol of this name is carried out by the recompiler, so the bodies
# never run; each needs an address of its own, and nothing else. Each has a section of its own, too, so that the linker leaves
# out those that a program doesn't call: one with `read` has its input read to the end before it begins.
        .macro  stub name
        .section .stubs.\name, "ax", @progbits
        .globl  \name
        .type   \name, @function
\name:
        ud2
        .endm

        stub    pthread_create
        stub    pthread_join
        stub    pthread_self
        stub    pthread_mutex_init
        stub    pthread_mutex_lock
        stub    pthread_mutex_trylock
        stub    pthread_mutex_unlock
        stub    pthread_mutex_destroy
        stub    pthread_cond_init
        stub    pthread_cond_destroy
        stub    pthread_cond_wait
        stub    pthread_cond_signal
        stub    pthread_cond_broadcast
        stub    pthread_barrier_init
        stub    pthread_barrier_wait
        stub    pthread_barrier_destroy
        stub    pthread_once
        stub    bsearch
        stub    read
        stub    write
        stub    exit

        .section .note.GNU-stack, "", @progbits
