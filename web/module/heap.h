// The module's heap, as its exports use it.

typedef unsigned char u8;
typedef unsigned int u32;
typedef unsigned long long u64;

// Room for so many bytes, or null.
u8 *heap_take(u64 bytes);

// From now on the whole memory is at most so many bytes.
void heap_limit(u64 bytes);
