/* What the shared library has beside the functions of ambiguity.h; the archive has none of these. They are plain C, and not proved. */
#ifndef AMBIGUITY_SHARED_H
#define AMBIGUITY_SHARED_H

#include "ambiguity.h"

#ifdef __cplusplus
extern "C" {
#endif

/* The version of the library that is loaded, as AMBIGUITY_VERSION is that of the header. */
const char *ambiguity_version(void);

/* The words of ambiguity_cause_text, for languages that do not read headers. */
const char *ambiguity_cause_words(uint64_t cause);

#ifdef __cplusplus
}
#endif

#endif
