/* Includes the library's own header of the name ASANCOL_HEADER, with its templates for each object to compile: strings
   and streams then have the compiler's checks. The library says of these that they are compiled in libstdc++.so. It is
   left to say so of the facets of locales, whose identities there may be only once; and of what the object can have of
   the recorder's archive (instances.cpp): asancol-cc then has instances.h found, which says for which library. */
#pragma GCC system_header
#pragma push_macro("_GLIBCXX_EXTERN_TEMPLATE")
#pragma push_macro("_GLIBCXX_USE_WCHAR_T")
#ifdef __has_include
#if __has_include(<asancol/instances.h>)
#include <asancol/instances.h>
#endif
#endif
#if defined ASANCOL_INSTANCES && __GLIBCXX__ == ASANCOL_INSTANCES && __cplusplus >= 201103L && __cplusplus <= 201703L  \
    && _GLIBCXX_USE_CXX11_ABI
#undef _GLIBCXX_USE_WCHAR_T /* there are those of char alone */
#else
#undef _GLIBCXX_EXTERN_TEMPLATE
#define _GLIBCXX_EXTERN_TEMPLATE 0
#endif
#if defined ASANCOL_INSTANTIATES && ASANCOL_INSTANTIATES == ASANCOL_NUMBER
#define extern /* it makes what it would declare */
#endif
#include_next ASANCOL_HEADER
#undef extern
#undef ASANCOL_HEADER
#undef ASANCOL_NUMBER
#pragma pop_macro("_GLIBCXX_USE_WCHAR_T")
#pragma pop_macro("_GLIBCXX_EXTERN_TEMPLATE")
