#include <stdio.h>

#ifdef __has_include
#if __has_include("sub/out.h")
#include "sub/out.h"
#endif
#endif
#ifndef WORD
#define WORD "nothing"
#endif

int main(void)
{
    return puts(WORD) < 0;
}
