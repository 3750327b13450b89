// The most memory that is taken from the heap at one time, by counting what `malloc` and its kin hand out.
#pragma once
#include <malloc.h>

#include <cstddef>

extern "C" {
void* __libc_malloc(size_t);
void* __libc_calloc(size_t, size_t);
void* __libc_realloc(void*, size_t);
void __libc_free(void*);
}

namespace memory {
inline size_t taken = 0, highest = 0, before = 0;

inline void* note(void* block) {
  if (block) taken += malloc_usable_size(block);
  if (taken > highest) highest = taken;
  return block;
}

inline void forget(void* block) {
  if (block) taken -= malloc_usable_size(block);
}

// Begins to count anew.
inline void begin() { before = highest = taken; }

// The most that was taken at one time since, above what was taken then.
inline size_t most() { return highest - before; }
}  // namespace memory

extern "C" void* malloc(size_t size) { return memory::note(__libc_malloc(size)); }
extern "C" void* calloc(size_t count, size_t size) { return memory::note(__libc_calloc(count, size)); }
extern "C" void* realloc(void* block, size_t size) {
  memory::forget(block);
  return memory::note(__libc_realloc(block, size));
}
extern "C" void free(void* block) {
  memory::forget(block);
  __libc_free(block);
}
