/* In a program that was linked with --asancol-no-run: asancol-cc asks for this. */
__attribute__((visibility("default"))) const char asancol_by_option[1] = "";
