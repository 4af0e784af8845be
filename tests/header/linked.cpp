// The header as C++ and a program that links the archive: an empty sheet is refused.
#include "zankurbe.h"

int main()
{
    const uint8_t sheet[1] = {0};
    return zankurbe_sheet_refusal(sheet, 0) == ZANKURBE_REFUSED_SHEET_LENGTH ? 0 : 1;
}
