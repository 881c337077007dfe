#define ASANCOL_HEADER <bits/fstream.tcc>
#define ASANCOL_NUMBER 8
#include <asancol/compiled_here.h>
