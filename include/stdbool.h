/*
 * bool is int here, so that what isn't 0 is true in it. It keeps other values than 1, which _Bool doesn't: where 1 is
 * wanted of a value that may be another one, as of `flags & 4`, write `(flags & 4) != 0`.
 */
#ifndef WCC_STDBOOL_H
#define WCC_STDBOOL_H

#define bool int
#define true 1
#define false 0
#define __bool_true_false_are_defined 1

#endif
