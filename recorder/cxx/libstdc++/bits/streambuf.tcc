#define ASANCOL_HEADER <bits/streambuf.tcc>
#define ASANCOL_NUMBER 4
#include <asancol/compiled_here.h>
