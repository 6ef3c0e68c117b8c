#include <stdio.h>

static const char *words[] = {
#include "table.h"
};

int count(void);

int main(void)
{
    printf("%d words, the first is %s\n", count(), words[0]);
    return 0;
}
