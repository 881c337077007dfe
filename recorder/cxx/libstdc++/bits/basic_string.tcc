#define ASANCOL_HEADER <bits/basic_string.tcc>
#define ASANCOL_NUMBER 1
#include <asancol/compiled_here.h>

#if !_GLIBCXX_USE_CXX11_ABI
/* The former kind of string knows the empty one by its address. */
namespace std
{
extern template basic_string<char>::size_type basic_string<char>::_Rep::_S_empty_rep_storage[];
extern template basic_string<wchar_t>::size_type basic_string<wchar_t>::_Rep::_S_empty_rep_storage[];
}
#endif
