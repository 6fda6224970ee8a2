#include "text.h"

#include <math.h>
#include <stdarg.h>
#include <stdio.h>
#include <stdlib.h>
#include <string.h>

static void* owned(void* memory) {
  if (!memory) {
    fputs("mjcf2mj: no memory\n", stderr);
    exit(1);
  }
  return memory;
}

void* room_for(size_t count, size_t size) { return owned(calloc(count ? count : 1, size)); }

void text_add(Text* text, const char* form, ...) {
  va_list words;
  va_start(words, form);
  int more = vsnprintf(NULL, 0, form, words);
  va_end(words);
  if (text->size + (size_t)more + 1 > text->room) {
    text->room = 2 * (text->size + (size_t)more + 1);
    text->bytes = owned(realloc(text->bytes, text->room));
  }
  va_start(words, form);
  vsnprintf(text->bytes + text->size, (size_t)more + 1, form, words);
  va_end(words);
  text->size += (size_t)more;
}

void text_string(Text* text, const char* value) {
  text_add(text, "\"");
  for (const unsigned char* at = (const unsigned char*)value; *at; at++) {
    if (*at == '"' || *at == '\\')
      text_add(text, "\\%c", *at);
    else if (*at < 0x20 || *at == 0x7f)
      text_add(text, "\\u%04x", *at);
    else
      text_add(text, "%c", *at);
  }
  text_add(text, "\"");
}

// An integer stands bare; any other number is the shortest decimal that reads back the same, as text in quotes. An
// exponent has two digits at most, and what is smaller than 1e-99 is 0.
void text_number(Text* text, double value) {
  if (fabs(value) < 1e-99) value = 0;
  if (value == floor(value) && fabs(value) < 1e15) {
    text_add(text, "%.0f", value + 0.0);
    return;
  }
  char digits[40];
  for (int places = 6; places <= 17; places++) {
    snprintf(digits, sizeof digits, "%.*g", places, value);
    if (strtod(digits, NULL) == value) break;
  }
  text_add(text, "\"%s\"", digits);
}

void text_numbers(Text* text, const double* values, int count) {
  text_add(text, "[");
  for (int i = 0; i < count; i++) {
    if (i) text_add(text, ", ");
    text_number(text, values[i]);
  }
  text_add(text, "]");
}
