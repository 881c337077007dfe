/* In a program that was linked with -fsanitize=address: asancol-cc asks for this. */
__attribute__((visibility("default"))) const char asancol_by_flag[1] = "";
