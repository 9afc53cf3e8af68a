"""The guards, which keep domains apart in time: one of them can be off. Their order is that of libtp's numbers."""

GUARDS = ("flush", "prefetch", "pad", "colour", "clone", "irq")
