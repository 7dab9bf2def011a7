/* Never frees the text with which an image exits. */
#define KEEPS
#include "takes-exit-data.c"
