/* Preprocessed by the Makefile, to learn what CC compiles for: where the proved functions are for
 * that system, and which format its objects have. */
#include "../sec1.h"

#if defined __linux__ && !defined __ANDROID__ && defined __x86_64__
SYSTEM proved_in_x86_64
#elif defined __linux__ && !defined __ANDROID__ && defined __AARCH64EL__
SYSTEM proved_in_aarch64
#else
SYSTEM proved_in_c
#endif
#ifdef _WIN32
SYSTEM is_windows
#elif defined __ELF__ || defined __linux__
SYSTEM is_elf
#endif
