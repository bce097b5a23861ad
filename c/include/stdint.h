// What replay.h uses of the C compiler's own <stdint.h>: the kit's clang comes without headers.
#ifndef STDINT_H
#define STDINT_H

typedef __UINT32_TYPE__ uint32_t;

#endif
