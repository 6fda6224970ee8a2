// A text that grows in memory, and numbers as a model of mj has them.
#ifndef TEXT_H
#define TEXT_H
#include <stddef.h>

typedef struct {
  char* bytes;  // ends with a zero byte
  size_t size, room;
} Text;

void text_add(Text* text, const char* form, ...) __attribute__((format(printf, 2, 3)));
void text_string(Text* text, const char* value);                 // a TOML string, in quotes
void text_number(Text* text, double value);                      // a numeral that reads back as value
void text_numbers(Text* text, const double* values, int count);  // an array of them
void* room_for(size_t count, size_t size);                       // zeroed memory, or the program ends
#endif
