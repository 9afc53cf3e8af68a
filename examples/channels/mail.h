/* What the spy that fills a box and the sender that empties it share. */
#ifndef MAIL_H
#define MAIL_H

#include "channel.h"

#define BOX 0
/* Each rests until its slot is over, and somewhat longer: its calls take the rest of 4,000 cycles. */
#define TURNS_OF_SENDER 700
#define TURNS_OF_SPY 580

#endif
