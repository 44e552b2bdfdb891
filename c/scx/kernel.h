/* The kernel's half, as bpftool writes it down for C. */
#ifndef SCX_KERNEL_H
#define SCX_KERNEL_H
#include <stdint.h>
typedef uint32_t u32;
typedef uint64_t u64;
typedef int32_t s32;
typedef int64_t s64;
#include "apa_scx.skel.h"
#endif
