static const char *words[] = {
#include "table.h"
};

int count(void)
{
    return sizeof words / sizeof words[0];
}
