// What replay.h uses of the C compiler's own <stddef.h>: the kit's clang comes without headers.
#ifndef STDDEF_H
#define STDDEF_H

typedef __SIZE_TYPE__ size_t;

#endif
