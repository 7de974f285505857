/* The calls that give C strings, which no export of the proved archive can return. */
#include <stdlib.h>

#include "pipapo.h"

const char *pipapo_strerror(uint32_t error) {
    switch (error) {
    case PIPAPO_OK: return "success";
    case PIPAPO_MEMORY: return "out of memory";
    case PIPAPO_NOTHING: return "the handle is empty";
    case PIPAPO_HANDLE: return "the handle is of another kind";
    case PIPAPO_SCHEMA: return "a set needs 1 to 16 fields of known kinds, and a known family";
    case PIPAPO_READERS: return "1 to 16 readers are needed";
    case PIPAPO_SET: return "there is no set of this number";
    case PIPAPO_LENGTH: return "the number of bytes isn't that of the set's fields";
    case PIPAPO_INTERVAL: return "an interval's low value is above its high value";
    case PIPAPO_TURN: return "the reader holds a generation already, or holds none";
    case PIPAPO_NUMBERS: return "there are no numbers for further generations";
    case PIPAPO_SCRIPT: return "the text isn't a script";
    case PIPAPO_CHANGE: return "a change of the script is refused";
    case PIPAPO_ROOM: return "there isn't enough room for the result";
    case PIPAPO_PLACE: return "there is no element at this place";
    case PIPAPO_NOTE: return "the note's generation isn't there";
    case PIPAPO_OVERLAP: return "a live element is in the way";
    case PIPAPO_EXISTS: return "a live element has the same intervals";
    case PIPAPO_FULL: return "the set is full";
    case PIPAPO_RULES_FULL: return "a field has too many rules";
    case PIPAPO_MISSING: return "no live element has these intervals";
    default: return "unknown error";
    }
}

const char *pipapo_strreason(uint32_t reason) {
    switch (reason) {
    case PIPAPO_REASON_CHARACTER: return "this begins no token";
    case PIPAPO_REASON_END: return "the text ends too early";
    case PIPAPO_REASON_LEFT_OUT: return "this part of nft's language is left out";
    case PIPAPO_REASON_TYPE: return "a field's type is wanted here";
    case PIPAPO_REASON_VALUE: return "a value or an interval is wanted here";
    case PIPAPO_REASON_TIME: return "a time is wanted here";
    case PIPAPO_REASON_MOMENT: return "a moment is wanted here";
    case PIPAPO_REASON_SET: return "the name of a declared set is wanted here";
    case PIPAPO_REASON_NUMBER: return "a size is wanted here";
    case PIPAPO_REASON_STATEMENT: return "another word or mark is wanted here";
    default: return "unknown reason";
    }
}

uint32_t pipapo_list(pipapo_control *control, uint64_t now, char **text, size_t *length) {
    char none = 0;
    uint64_t wanted = 0;
    uint32_t error = pipapo_list_into(control, now, &none, 0, &wanted);
    if (error != PIPAPO_OK && error != PIPAPO_ROOM) return error;
    char *made = wanted < SIZE_MAX ? malloc((size_t)wanted + 1) : NULL;
    if (!made) return PIPAPO_MEMORY;
    error = pipapo_list_into(control, now, made, (size_t)wanted, &wanted);
    if (error != PIPAPO_OK) {
        free(made);
        return error;
    }
    made[wanted] = 0;
    *text = made;
    *length = (size_t)wanted;
    return PIPAPO_OK;
}

void pipapo_free_text(char *text) {
    free(text);
}

uint32_t pipapo_version(void) {
    return PIPAPO_VERSION;
}
