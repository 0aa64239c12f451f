/* What the bench's hosts know of a state when the plain C calls stand behind the header: its room and its alignment. */

#include "../../include/houghbreeze.h"

enum {
    PLAIN_STATE = 704,
    PLAIN_ALIGNMENT = 2,
};
