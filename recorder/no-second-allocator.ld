/* Given to the linker with a static program: the C library's allocator must not come in beside the recorder's, since a
   block of the one would then be freed by the other. Only the library's malloc.o defines this name. */
ASSERT(!DEFINED(__malloc_fork_lock_parent), "asancol-cc: the C library's allocator (malloc.o of libc.a) came into this static program beside the recorder's: link it without -static, or without what asks for malloc.o (-Wl,-y,__malloc_fork_lock_parent names it)")
