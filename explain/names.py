"""Names that sources use and the language lacks: those of C's headers, and the words of compilers. `prepare` tells them by this table
too."""
import re
from pathlib import Path

INCLUDE = Path(__file__).resolve().parent.parent / "include"
DEFINED = re.compile(r"^(?:#define|static inline \w+) (\w+)(.*)", re.M)

TYPES = {
    "stdint.h": [f"{sign}int{kind}{bits}_t" for sign in ("", "u") for kind in ("", "_least", "_fast") for bits in (8, 16, 32, 64)]
    + "intptr_t uintptr_t intmax_t uintmax_t".split(),
    "stddef.h": "size_t ptrdiff_t wchar_t max_align_t".split(),
    "stdbool.h": ["bool"],
    "stdio.h": "FILE fpos_t".split(),
    "stdarg.h": ["va_list"],
    "time.h": "time_t clock_t".split(),
    "setjmp.h": ["jmp_buf"],
}
# The functions of <math.h>: each has a form for `float` and one for `long double` too.
MATH = """acos asin atan atan2 cos sin tan acosh asinh atanh cosh sinh tanh exp exp2 expm1 frexp ilogb ldexp log log10 log1p log2 logb modf scalbn
    scalbln cbrt fabs hypot pow sqrt erf erfc lgamma tgamma ceil floor nearbyint rint lrint llrint round lround llround trunc fmod remainder
    remquo copysign nan nextafter nexttoward fdim fmax fmin fma""".split()
OTHERS = {
    "stdint.h": [f"{sign}INT{bits}_{end}" for sign in ("", "U") for bits in (8, 16, 32, 64) for end in ("MIN", "MAX", "C")
                 if sign + end != "UMIN"] + "SIZE_MAX INTPTR_MAX UINTPTR_MAX INTMAX_MAX UINTMAX_MAX".split(),
    "stddef.h": "NULL offsetof".split(),
    "stdbool.h": "true false".split(),
    "limits.h": """CHAR_BIT CHAR_MIN CHAR_MAX SCHAR_MIN SCHAR_MAX UCHAR_MAX SHRT_MIN SHRT_MAX USHRT_MAX INT_MIN INT_MAX UINT_MAX
        LONG_MIN LONG_MAX ULONG_MAX LLONG_MIN LLONG_MAX ULLONG_MAX""".split(),
    "stdio.h": """printf fprintf sprintf snprintf vprintf vfprintf vsprintf vsnprintf scanf fscanf sscanf vscanf vfscanf vsscanf puts fputs
        gets fgets fgetc fputc getc putc ungetc fopen freopen fclose fread fwrite fflush fseek ftell rewind fgetpos fsetpos perror feof
        ferror clearerr remove rename tmpfile tmpnam setbuf setvbuf EOF BUFSIZ stdin stdout stderr""".split(),
    "stdlib.h": """malloc calloc realloc aligned_alloc free exit _Exit quick_exit abort atexit at_quick_exit getenv system atoi atol atoll
        atof strtol strtoul strtoll strtoull strtod strtof strtold rand srand qsort bsearch abs labs llabs div ldiv lldiv EXIT_SUCCESS
        EXIT_FAILURE RAND_MAX""".split(),
    "string.h": """memcpy memmove memset memcmp memchr strlen strcpy strncpy strcat strncat strcmp strncmp strcoll strxfrm strchr strrchr
        strspn strcspn strpbrk strstr strtok strerror""".split(),
    "ctype.h": "isalnum isalpha isblank iscntrl isdigit isgraph islower isprint ispunct isspace isupper isxdigit tolower toupper".split(),
    "assert.h": "assert static_assert".split(),
    "math.h": [f"{name}{kind}" for name in MATH for kind in ("", "f", "l")] + "isfinite isinf isnan isnormal signbit M_PI".split(),
    "time.h": "time clock difftime mktime gmtime localtime asctime ctime strftime".split(),
    "stdarg.h": "va_start va_arg va_end va_copy".split(),
    "errno.h": ["errno"],
    "setjmp.h": "setjmp longjmp".split(),
}


def at_hand() -> dict[str, str]:
    """The names that the headers of include/ have, each with its header. Those that they refuse are none of them."""
    found = {}
    for header in sorted(INCLUDE.glob("*.h")):
        for name, value in DEFINED.findall(header.read_text(encoding="utf-8")):
            if "GCC error" not in value:
                found.setdefault(name, header.name)
    return found


AT_HAND = at_hand()
# What `./wcc prepare` tells as a call of C's library: what no header of include/ has. Lists of arguments are told by their `...`.
LIBRARY = {name for header, names in OTHERS.items() for name in names if header != "stdarg.h"} - set(AT_HAND)
ANNOTATIONS = {"LOOPBOUND", "MARKER", "RESTRICTION"}
HEADERS_OF_TYPES = {name: header for header, names in TYPES.items() for name in names}
HEADERS_OF_OTHERS = {name: header for header, names in OTHERS.items() for name in names}

ASSEMBLY = {"asm", "__asm", "__asm__"}
ATTRIBUTES = {"__attribute__", "__attribute", "__declspec"}
# What compilers take before a type or a statement, beside C's own words.
COMPILER_WORDS = set("""__extension__ __inline __inline__ __const __const__ __restrict __restrict__ __volatile __volatile__ __signed
    __signed__ __typeof __typeof__ __alignof __alignof__ __label__ __thread __auto_type __int128 __int128_t __uint128_t __func__
    __FUNCTION__ __PRETTY_FUNCTION__ __float128 __complex__ __real__ __imag__ __forceinline __int64 __cdecl __packed""".split())


def is_compiler_word(name: str) -> bool:
    return name in COMPILER_WORDS or name.startswith(("__builtin_", "__sync_", "__atomic_"))
