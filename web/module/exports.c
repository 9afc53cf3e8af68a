// What the page calls: each export of the library, with addresses and lengths of 32
// bits, and the heap. A text's length is put where `taken` says, as 64 bits.

#include "heap.h"

#define EXPORT(name) __attribute__((export_name(#name)))
#define IMAGE const u8 *image, u64 image_len
#define TEXT u8 *text, u64 text_len, u64 *taken

u32 tp_check(IMAGE, TEXT);
u32 tp_bound(IMAGE, TEXT);
u32 tp_run(IMAGE, u32 slots, TEXT);
u32 tp_harts(IMAGE, u32 slots, u32 seed, TEXT);
u32 tp_alone(IMAGE, u32 domain, u32 slots, TEXT);
u32 tp_ablate(IMAGE, u32 off, u32 slots, TEXT);
u32 tp_redact(IMAGE, u32 domain, TEXT);
u32 tp_gen(u32 seed, TEXT);
u32 tp_demo(u32 seed, TEXT);

// The same parameters as the page has them, and as the library does.
#define GIVEN u32 image, u32 image_len
#define WANTED u32 text, u32 text_len, u32 taken
#define AS_IMAGE (const u8 *)(u64)image, image_len
#define AS_TEXT (u8 *)(u64)text, text_len, (u64 *)(u64)taken

EXPORT(check) u32 page_check(GIVEN, WANTED) { return tp_check(AS_IMAGE, AS_TEXT); }
EXPORT(bound) u32 page_bound(GIVEN, WANTED) { return tp_bound(AS_IMAGE, AS_TEXT); }
EXPORT(run) u32 page_run(GIVEN, u32 slots, WANTED) { return tp_run(AS_IMAGE, slots, AS_TEXT); }
EXPORT(harts) u32 page_harts(GIVEN, u32 slots, u32 seed, WANTED) { return tp_harts(AS_IMAGE, slots, seed, AS_TEXT); }
EXPORT(alone) u32 page_alone(GIVEN, u32 domain, u32 slots, WANTED) { return tp_alone(AS_IMAGE, domain, slots, AS_TEXT); }
EXPORT(ablate) u32 page_ablate(GIVEN, u32 off, u32 slots, WANTED) { return tp_ablate(AS_IMAGE, off, slots, AS_TEXT); }
EXPORT(redact) u32 page_redact(GIVEN, u32 domain, WANTED) { return tp_redact(AS_IMAGE, domain, AS_TEXT); }
EXPORT(gen) u32 page_gen(u32 seed, WANTED) { return tp_gen(seed, AS_TEXT); }
EXPORT(demo) u32 page_demo(u32 seed, WANTED) { return tp_demo(seed, AS_TEXT); }

// Room for so many bytes in the module's memory; 0 where there is none.
EXPORT(take) u32 page_take(u32 bytes) { return (u32)(u64)heap_take(bytes); }
EXPORT(limit) void page_limit(u32 bytes) { heap_limit(bytes); }
