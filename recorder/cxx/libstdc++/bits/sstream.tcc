#define ASANCOL_HEADER <bits/sstream.tcc>
#define ASANCOL_NUMBER 7
#include <asancol/compiled_here.h>
