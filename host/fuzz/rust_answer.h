/* The answer lines of the judge, from the library that host/fuzz/rust-library builds of rust_answer.rs. Each line is `length` bytes at the pointer
 * that is given back, with no closing zero; rust_answer_done takes it back. */
#ifndef RUST_ANSWER_H
#define RUST_ANSWER_H

#include <calls.h>

/* The Rust's, to a request of any kind but a move or a conversion. */
uint8_t *rust_answer(const Request *request, size_t *length);

/* The oracle's, to a request line of so many bytes. */
uint8_t *model_answer(const uint8_t *request, size_t request_length, size_t *length);

void rust_answer_done(uint8_t *line, size_t length);

#endif
