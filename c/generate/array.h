#ifndef GENERATE_ARRAY_H
#define GENERATE_ARRAY_H

/* How many elements an array has. */
#define LENGTH_OF(array) (sizeof(array) / sizeof((array)[0]))

#endif
