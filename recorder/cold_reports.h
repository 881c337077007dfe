/* Included by asancol-cc before what Clang compiles: the calls after checks that find an access bad are seldom made.
   Clang then keeps what they need out of the way of the others. It emits nothing of this: the section llvm.metadata is
   for the compiler alone. */
#if !defined(ASANCOL_COLD_REPORTS) && !defined(__ASSEMBLER__)
#define ASANCOL_COLD_REPORTS
#pragma GCC system_header

#define ASANCOL_REPORTS(apply)                                                                                         \
    apply(load1) apply(load2) apply(load4) apply(load8) apply(load16)                                                  \
    apply(store1) apply(store2) apply(store4) apply(store8) apply(store16)
#define ASANCOL_DECLARE(name) void __asan_report_exp_##name##_noabort(unsigned long, int) __attribute__((cold));
#define ASANCOL_NAME(name) __asan_report_exp_##name##_noabort,
#define ASANCOL_METADATA __attribute__((used, nodebug, section("llvm.metadata")))

#ifdef __cplusplus
extern "C" {
#endif

ASANCOL_REPORTS(ASANCOL_DECLARE)
void __asan_report_exp_load_n_noabort(unsigned long, unsigned long, int) __attribute__((cold));
void __asan_report_exp_store_n_noabort(unsigned long, unsigned long, int) __attribute__((cold));

#ifdef __cplusplus
}
#endif

static void (*const asancol_cold_reports[])(unsigned long, int) ASANCOL_METADATA = {ASANCOL_REPORTS(ASANCOL_NAME)};
static void (*const asancol_cold_range_reports[])(unsigned long, unsigned long, int) ASANCOL_METADATA = {
    __asan_report_exp_load_n_noabort, __asan_report_exp_store_n_noabort};

#undef ASANCOL_REPORTS
#undef ASANCOL_DECLARE
#undef ASANCOL_NAME
#undef ASANCOL_METADATA
#endif
