/*
 * The annotations of the language as macros. Here macros are replaced within them, as they aren't in #pragma, and
 * `./wcc prepare` computes what is a constant expression of the preprocessor's kind: whole numbers and characters, their
 * operators, `? :` and brackets, without sizeof, casts and names of objects. Whoever preprocesses in another way has to
 * end with decimal numbers.
 *
 *     LOOPBOUND(0, SAMPLES * 2)
 *     for (i = 0; i < n; i++) { .. }
 *
 *     RESTRICTION(1*taken <= (TASKS + 1)*main)
 *
 * No semicolon stands behind them. Another compiler passes over all of them, but for a warning of unknown pragmas. A
 * marker is a statement, and none to another compiler: put it between braces with what it counts.
 */
#ifndef WCC_H
#define WCC_H

#define WCC_PRAGMA(...) _Pragma(#__VA_ARGS__)

/* Right before a loop: its body starts from `least` to `most` times each time that the loop is entered. */
#define LOOPBOUND(least, most) WCC_PRAGMA(loopbound min least max most)

/* A statement that is counted by this name. */
#define MARKER(name) WCC_PRAGMA(marker name)

/*
 * What counts of markers and functions keep in a whole run, as 1*inner <= 10*main. Each name has a number before it. With
 * NO_RESTRICTIONS, as by `prepare -D NO_RESTRICTIONS`, there are none, to see what they are worth.
 */
#ifdef NO_RESTRICTIONS
#define RESTRICTION(...)
#else
#define RESTRICTION(...) WCC_PRAGMA(flowrestriction __VA_ARGS__)
#endif

#endif
