#define ASANCOL_HEADER <bits/basic_ios.tcc>
#define ASANCOL_NUMBER 3
#include <asancol/compiled_here.h>
