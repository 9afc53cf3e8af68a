/* assert(it): where it is false, prints `FILE:LINE: FUNCTION: it is false` and stops the
   domain by an EBREAK. With NDEBUG defined before, nothing is looked at. (No guard: each
   time it is included the macro goes by NDEBUG anew.) */
#undef assert
#ifdef NDEBUG
#define assert(it) ((void)0)
#else
#define assert(it) ((it) ? (void)0 : tp_assert_failed(#it, __FILE__, __LINE__, __func__))
#endif

#ifndef static_assert
#define static_assert _Static_assert
#endif

void tp_assert_failed(const char *it, const char *file, int line, const char *function)
    __attribute__((noreturn));
