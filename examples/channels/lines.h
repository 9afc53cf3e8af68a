/* The lines by which a secret is told: line FIRST + secret of a page. Their sets, of the
   first-level data cache and of a second level that is not shared out, are such as
   neither program nor kernel uses otherwise. */
#include "channel.h"

#define FIRST 40
#define SECRETS 8
