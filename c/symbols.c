/* A symbol for each call that tags.h defines in line, for dlsym() and for other languages. */
#define TAGS_LIBRARY
#define TAGS_DETAIL_CALL extern
#define TAGS_DETAIL_CHECKED extern
#include "tags.h"
