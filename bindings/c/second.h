/* A second writer and reader of saved files, which the library's are held against. Files, words and checks are from
 * docs/SAVED.md; where the state's memory has what, and what its unused places hold, is from crates/state/specs. */
#ifndef SECOND_H
#define SECOND_H

#include <emkhurtov.h>

DeFile second_save(const DeState *state, uint8_t *file, size_t room);
DeFile second_restore(DeState *state, const uint8_t *file, size_t length);

#endif
