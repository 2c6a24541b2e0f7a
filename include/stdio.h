/*
 * getchar and putchar are declared beforehand, and are the program's whole input and output. Of what else <stdio.h> has
 * there is nothing but EOF.
 */
#ifndef WCC_STDIO_H
#define WCC_STDIO_H

#include <stddef.h>

#define EOF (-1)

#define printf(...) _Pragma("GCC error \"printf takes strings, and there are none: docs/PORTING.md says how to write with putchar\"") 0
#define fprintf(...) _Pragma("GCC error \"fprintf takes strings, and there are none: docs/PORTING.md says how to write with putchar\"") 0
#define sprintf(...) _Pragma("GCC error \"sprintf takes strings, and there are none: docs/PORTING.md says how to write with putchar\"") 0
#define snprintf(...) _Pragma("GCC error \"snprintf takes strings, and there are none: docs/PORTING.md says how to write with putchar\"") 0
#define scanf(...) _Pragma("GCC error \"scanf takes strings, and there are none: docs/PORTING.md says how to write with putchar\"") 0
#define sscanf(...) _Pragma("GCC error \"sscanf takes strings, and there are none: docs/PORTING.md says how to write with putchar\"") 0
#define puts(text) _Pragma("GCC error \"puts takes strings, and there are none: docs/PORTING.md says how to write with putchar\"") 0
#define fputs(text, stream) _Pragma("GCC error \"fputs takes strings, and there are none: docs/PORTING.md says how to write with putchar\"") 0
#define fgets(text, size, stream) _Pragma("GCC error \"fgets takes strings, and there are none: docs/PORTING.md says how to write with putchar\"") 0
#define putc(byte, stream) _Pragma("GCC error \"putc takes a stream, and there are none: write putchar, as docs/PORTING.md says\"") 0
#define fputc(byte, stream) _Pragma("GCC error \"fputc takes a stream, and there are none: write putchar, as docs/PORTING.md says\"") 0
#define getc(stream) _Pragma("GCC error \"getc takes a stream, and there are none: write getchar, as docs/PORTING.md says\"") 0
#define fgetc(stream) _Pragma("GCC error \"fgetc takes a stream, and there are none: write getchar, as docs/PORTING.md says\"") 0
#define FILE _Pragma("GCC error \"FILE is a stream, and there are none: docs/PORTING.md says how to write with putchar\"") FILE

#endif
