/* Compiled as C11 and as C++17: the header needs nothing before it. */
#include "chirpsteeple.h"

/* And nothing is declared twice. */
#include "chirpsteeple.h"
