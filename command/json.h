/* Reports for programs: values of JSON, written one after another onto the end of a text. */
#ifndef JSON_H
#define JSON_H

#include "bytes.h"

#include <stdbool.h>
#include <stdio.h>

struct json {
    struct bytes text;
    int depth;
    bool after; /* a value stands before the next one in the same object or list */
};

/* Each takes the name of the value, which is null in a list and outside of all. An opening bracket is '{' or '['. */
void json_open(struct json *j, const char *name, char bracket);
void json_close(struct json *j, char bracket);
void json_text(struct json *j, const char *name, const char *text);
void json_number(struct json *j, const char *name, uint64_t number);
void json_truth(struct json *j, const char *name, bool truth);
void json_null(struct json *j, const char *name);

/* A text of bytes as hexadecimal digits, without blanks; and one of small numbers, a digit each. */
void json_bytes(struct json *j, const char *name, const uint8_t *bytes, size_t count);
void json_digits(struct json *j, const char *name, const uint8_t *numbers, size_t count);

/* A text of a printf format that needs no escape. */
void json_print(struct json *j, const char *name, const char *format, ...) __attribute__((format(printf, 3, 4)));

/* Opens the object of a whole report, which says what it is a report of and by which version. */
void json_start(struct json *j, const char *command);

/* Closes it and writes it. Returns DONE, or says why not. */
int json_end(struct json *j, FILE *out);

#endif
