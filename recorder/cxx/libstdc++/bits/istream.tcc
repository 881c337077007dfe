#define ASANCOL_HEADER <bits/istream.tcc>
#define ASANCOL_NUMBER 6
#include <asancol/compiled_here.h>
