// The header as a C++ program includes it: it compiles, and its functions link by the names that C gives them.
#include "sorundappa.h"

int main()
{
    return sorundappa_size(SORUNDAPPA_SIZE_RECORD) == SORUNDAPPA_RECORD ? 0 : 1;
}
