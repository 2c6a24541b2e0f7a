/*
 * An assertion that fails makes the run undefined, since nothing could stop it: `eval` shows it as the division by zero
 * of an `assert`. A compiled program may do anything then, so it is for trying a source on inputs. With NDEBUG, as by
 * `prepare -D NDEBUG`, it costs no cycles.
 *
 * A static_assert that fails is an array parameter without elements, which is refused as `type-5`.
 */
#undef assert
#ifdef NDEBUG
#define assert(holds) ((void)0)
#else
#define assert(holds) ((holds) ? (void)0 : (void)(1 / 0))
#endif

#undef static_assert
#define static_assert(holds, text) void wcc_static_assert(int one[(holds) ? 1 : 0])
#undef _Static_assert
#define _Static_assert(holds, text) static_assert(holds, text)
