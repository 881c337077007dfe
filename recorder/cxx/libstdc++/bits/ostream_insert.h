#define ASANCOL_HEADER <bits/ostream_insert.h>
#define ASANCOL_NUMBER 2
#include <asancol/compiled_here.h>
