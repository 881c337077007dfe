#define ASANCOL_HEADER <bits/ostream.tcc>
#define ASANCOL_NUMBER 5
#include <asancol/compiled_here.h>
