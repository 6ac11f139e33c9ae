/* What the tests need of this header and of <unistd.h>, on Windows. That of windows.h is declared
 * here, since some of its other names are names of the tests. */
#ifndef MMAN_H
#define MMAN_H

#include <stddef.h>

__declspec(dllimport) void *__stdcall VirtualAlloc(void *, size_t, unsigned long, unsigned long);
__declspec(dllimport) int __stdcall VirtualProtect(void *, size_t, unsigned long, unsigned long *);
__declspec(dllimport) int __stdcall VirtualFree(void *, size_t, unsigned long);

enum { PROT_NONE = 0, PROT_READ = 1, PROT_WRITE = 2 };
enum { MAP_PRIVATE = 1, MAP_ANONYMOUS = 2, MAP_NORESERVE = 4 };
enum { _SC_PAGESIZE = 1 };
#define MAP_FAILED ((void *)-1)

/* PAGE_READWRITE, PAGE_READONLY or PAGE_NOACCESS. */
static inline unsigned long page_protection(int protection)
{
    return protection & PROT_WRITE ? 4 : protection & PROT_READ ? 2 : 1;
}

static inline void *mmap(void *at, size_t len, int protection, int flags, int file, long long offset)
{
    /* MEM_COMMIT and MEM_RESERVE */
    void *pages = VirtualAlloc(at, len, 0x3000, page_protection(protection));
    (void)flags, (void)file, (void)offset;
    return pages ? pages : MAP_FAILED;
}

static inline int mprotect(void *pages, size_t len, int protection)
{
    unsigned long before;
    return VirtualProtect(pages, len, page_protection(protection), &before) ? 0 : -1;
}

static inline int munmap(void *pages, size_t len)
{
    (void)len;
    /* MEM_RELEASE */
    return VirtualFree(pages, 0, 0x8000) ? 0 : -1;
}

static inline long sysconf(int name)
{
    (void)name;
    return 4096;
}

#endif
