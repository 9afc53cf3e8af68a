/* Prints what comes of a call that calls.toml leaves out: it is refused as if there were
   no such call. That is also the domain's exit code. */
#include "tp.h"

int main(void)
{
    enum tp_error error = tp_alloc(0, TP_PAGE);

    tp_print(error == TP_BAD_CALL ? "left out\n" : "done\n");
    return error;
}
