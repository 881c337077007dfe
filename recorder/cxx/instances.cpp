// The strings and streams of libstdc++, compiled with checks, for all programs. The library's headers declare them by
// `extern template` wherever they are included; here the header with the number ASANCOL_INSTANTIATES makes what it
// declares (compiled_here.h). Each becomes a member of the archive, under names that only this has (checked_names.awk).
#include <fstream>
#include <istream>
#include <ostream>
#include <sstream>
#include <string>
