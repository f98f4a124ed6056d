/* The functions of ambiguity_shared.h; bindings/shared.sh links them with the archive. */
#include "ambiguity_shared.h"

const char *ambiguity_version(void)
{
    return AMBIGUITY_VERSION;
}

const char *ambiguity_cause_words(uint64_t cause)
{
    return ambiguity_cause_text(cause);
}
