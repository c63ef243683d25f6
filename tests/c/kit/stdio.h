/* What the tests need of this header: the kit's clang comes without headers. */
#ifndef KIT_STDIO_H
#define KIT_STDIO_H

int printf(const char *format, ...);

#endif
