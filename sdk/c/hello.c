/* Says hello, and ends with code 0. */
#include "tp.h"

int main(void)
{
    return tp_print("hello\n") == TP_OK ? 0 : 1;
}
