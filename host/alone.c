/* The header stands alone and may be included twice: host/build compiles this as C and as C++. */
#include "pirrozketa.h"
#include "pirrozketa.h"
