/* The functions of a small project that has jobs for AddressSanitizer. */
#ifndef TEXT_H
#define TEXT_H

#ifdef __cplusplus
extern "C" {
#endif

/* A copy, which the caller frees. */
char *copy(const char *word);

/* The same, and no byte is allocated for its end. */
char *copy_short(const char *word);

/* What a copy began with, after it was freed. */
char first_of_freed(const char *word);

/* Some copies are lost. Those of the second are known. */
void lose(const char *word);
void lose_known(const char *word);

#ifdef __cplusplus
}
#endif

#endif
