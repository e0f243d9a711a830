/* spav: PipeWire's pods checked, rewritten, read, fixated, negotiated, filtered and built by proved code. docs/CAPI.md,
 * which libspav-dev has, too, has an example of each, and a table of every answer. The libraries are for Linux on
 * x86-64-v2 processors. What is proved is proved of bytes that stay as they are until the call has answered: bytes that
 * another process can write, as those of buffers, are copied first, and the copy is passed.
 *
 * Answers. A call answers 0 where it is done, and else a number of Linux's <errno.h>, negated. What was asked is put
 * where a pointer says: of a question, whether it is so.
 *
 * Regions. A region is a pointer and how many bytes, or elements, it has. It may be NULL where it is empty; NULL with
 * another length is answered by -EFAULT. `in` is only read. `out` is written from its front on, only where the answer
 * is 0 or the call says so, and behind what is written it stays as it is, but for what rewriting says below. One that
 * overlaps a region that is read is answered by -EINVAL, with `written`, `at` and the like as they were.
 *
 * What a caller keeps to, which nothing checks. A region's bytes are there, and are PTRDIFF_MAX at most. No other
 * thread or process changes them during the call. What an answer is put into (`written`, `at`, a value) isn't NULL, and
 * overlaps nothing else. A list of calls or of items is aligned. malloc, realloc and free come from one allocator. No
 * call is made from a signal handler, or in the forked child of a process with threads.
 *
 * What a call keeps to. It reads and writes no other bytes than those. It ends, whatever the bytes are. It keeps no
 * pointer and no state, takes no lock, prints nothing and never ends the process, so threads may call on different
 * memory at once. It asks for memory only where that is said, and gives it back before it answers. It takes 32 KiB of
 * stack at most, however deep pods nest; so it was measured, and isn't proved.
 *
 * Fields named `reserved` are for later versions: a call writes 0 into them, and refuses one that isn't 0. */
#ifndef SPAV_H
#define SPAV_H

#include <stdbool.h>
#include <stddef.h>
#include <stdint.h>
#include <string.h>

#ifdef __cplusplus
extern "C" {
#endif

#if defined(__GNUC__)
#define SPAV_MUST_USE __attribute__((__warn_unused_result__))
#define SPAV_NONNULL(...) __attribute__((__nonnull__(__VA_ARGS__)))
#else
#define SPAV_MUST_USE
#define SPAV_NONNULL(...)
#endif

/* What stands before functions that this header defines. The library exports them, too, for languages that can't read
 * C: of its sources, capi/exports.c defines this word as nothing. */
#ifndef SPAV_INLINE
#define SPAV_INLINE static inline
#endif

/* The release that this header is of, and whether it is this one or a later one. */
#define SPAV_MAJOR 0
#define SPAV_MINOR 2
#define SPAV_MICRO 0
#define SPAV_CHECK_VERSION(major, minor, micro) \
	(SPAV_MAJOR > (major) || (SPAV_MAJOR == (major) && \
	 (SPAV_MINOR > (minor) || (SPAV_MINOR == (minor) && SPAV_MICRO >= (micro)))))

/* The number of the interface, in which the shared library's name ends: it grows where a call changes or goes. And how
 * often calls were added under this number. */
#define SPAV_ABI 1
#define SPAV_ABI_ADDED 0

/* The version of the library that is called: its SPAV_ABI in the upper 16 bits, its SPAV_ABI_ADDED in the lower. It has
 * the calls of this header where the upper are SPAV_ABI, and the lower SPAV_ABI_ADDED at least. */
uint32_t spav_abi(void);

/* Types of pods. */
enum spav_type {
	SPAV_TYPE_None = 1,
	SPAV_TYPE_Bool,
	SPAV_TYPE_Id,
	SPAV_TYPE_Int,
	SPAV_TYPE_Long,
	SPAV_TYPE_Float,
	SPAV_TYPE_Double,
	SPAV_TYPE_String,
	SPAV_TYPE_Bytes,
	SPAV_TYPE_Rectangle,
	SPAV_TYPE_Fraction,
	SPAV_TYPE_Bitmap,
	SPAV_TYPE_Array,
	SPAV_TYPE_Struct,
	SPAV_TYPE_Object,
	SPAV_TYPE_Sequence,
	SPAV_TYPE_Pointer,
	SPAV_TYPE_Fd,
	SPAV_TYPE_Choice,
	SPAV_TYPE_Pod
};

/* Shapes of choices. */
enum spav_shape { SPAV_SHAPE_None, SPAV_SHAPE_Range, SPAV_SHAPE_Step, SPAV_SHAPE_Enum, SPAV_SHAPE_Flags };

/* Flags of properties. */
enum spav_flag {
	SPAV_FLAG_READONLY = 1 << 0,
	SPAV_FLAG_HARDWARE = 1 << 1,
	SPAV_FLAG_HINT_DICT = 1 << 2,
	SPAV_FLAG_MANDATORY = 1 << 3,
	SPAV_FLAG_DONT_FIXATE = 1 << 4
};

/* Checking and rewriting. The rewriting of a pod is the one encoding of its value: padding is zeros, true is 1, and
 * nothing stands in it that the value doesn't say. No rewriting is longer than its pod. A pod whose rewriting is the
 * same bytes is canonical. */

/* Writes the rewritings of the pods of which `in` consists, one after another. `cap` = n is room enough.
 *   0        *written bytes were written. Where `cap` is n or more, the others of the first n bytes of `out` may have
 *            changed, too
 *   -EINVAL  `in` isn't pods one after another: the first that isn't accepted begins at the byte *at
 *   -ENOSPC  `cap` is less than *written, their length
 *   -ENOMEM  memory was asked for and refused. None is asked for where structs and objects stand at most 1000 deep in
 *            one another, and `in` is canonical or `cap` is n or more */
int32_t spav_rewrite(const void *in, size_t n, void *out, size_t cap, size_t *written, size_t *at)
	SPAV_MUST_USE SPAV_NONNULL(5, 6);

/* Writes the encodings of the values that `in` conveys in the lenient reading of docs/FORMAT.md, one after another:
 * PipeWire's programs send bytes that aren't pods of a value, and in which PipeWire's readers find one all the same, as
 * a None choice over an array, or a string with several NULs. Of pods they are their rewritings, made as spav_rewrite
 * makes them. `cap` = n is room enough.
 *   0        *written bytes were written. Where `cap` is n or more, the others of the first n bytes of `out` may have
 *            changed, too
 *   -EINVAL  `in` doesn't convey values one after another: nothing is conveyed at the byte *at
 *   -ENOSPC  `cap` is less than *written, their length
 *   -ENOMEM  memory was asked for and refused. None is asked for where `in` is pods, structs and objects stand at most
 *            1000 deep in one another, and `cap` is n or more */
int32_t spav_rewrite_leniently(const void *in, size_t n, void *out, size_t cap, size_t *written, size_t *at)
	SPAV_MUST_USE SPAV_NONNULL(5, 6);

/* Puts the rewritings of the pods of which `bytes` consists at its front.
 *   0        *written bytes were written, n at most. The others may have changed, too
 *   -EINVAL  `bytes` isn't pods one after another: the first that isn't accepted begins at the byte *at
 *   -ENOMEM  memory was asked for and refused. None is asked for where structs and objects stand at most 1000 deep in
 *            one another */
int32_t spav_rewrite_in_place(void *bytes, size_t n, size_t *written, size_t *at) SPAV_MUST_USE SPAV_NONNULL(3, 4);

/* Puts the encodings that spav_rewrite_leniently writes at the front of `bytes`.
 *   0        *written bytes were written, n at most. The others may have changed, too
 *   -EINVAL  `bytes` doesn't convey values one after another: nothing is conveyed at the byte *at
 *   -ENOMEM  memory was asked for and refused. None is asked for where `bytes` is pods, and structs and objects stand
 *            at most 1000 deep in one another */
int32_t spav_rewrite_in_place_leniently(void *bytes, size_t n, size_t *written, size_t *at)
	SPAV_MUST_USE SPAV_NONNULL(3, 4);

/* Whether spav_rewrite accepts `in`.
 *   0        it does
 *   -EINVAL  `in` isn't pods one after another: the first that isn't accepted begins at the byte *at
 *   -ENOMEM  memory was asked for and refused. None is asked for where structs and objects stand at most 1000 deep in
 *            one another */
int32_t spav_check(const void *in, size_t n, size_t *at) SPAV_MUST_USE SPAV_NONNULL(3);

/* Whether spav_rewrite_leniently accepts `in`.
 *   0        it does
 *   -EINVAL  `in` doesn't convey values one after another: nothing is conveyed at the byte *at
 *   -ENOMEM  memory was asked for and refused. None is asked for where `in` is pods, and structs and objects stand at
 *            most 1000 deep in one another */
int32_t spav_check_leniently(const void *in, size_t n, size_t *at) SPAV_MUST_USE SPAV_NONNULL(3);

/* What is wrong with bytes. */
enum spav_fault_kind {
	SPAV_FAULT_NONE,
	/* a pod, or a property's key and flags, goes past the end of the input, or of the struct or object around it */
	SPAV_FAULT_SHORT,
	/* a string is empty, doesn't end in NUL, holds another NUL, or isn't UTF-8 */
	SPAV_FAULT_TEXT,
	/* a type that no value has, such as Sequence and Pod, or one that an array or a choice can't hold */
	SPAV_FAULT_TYPE,
	/* a choice has no such shape */
	SPAV_FAULT_SHAPE,
	/* a choice has fewer values than its shape takes */
	SPAV_FAULT_VALUES,
	/* a body, or the child size of an array or a choice, has the wrong length for its type */
	SPAV_FAULT_SIZE
};

/* Which fault stands first in `in`. No memory is asked for.
 *   0       *kind is its kind; it stands at the byte *at, in the pod that begins at the byte *top. At *at that pod
 *           should begin (*at is *top then), or one inside it, or a key that is cut short. *at may be n. Or *kind is
 *           SPAV_FAULT_NONE: `in` is pods one after another, and *top and *at are as they were
 *   -ELOOP  a pod nests more than 1000 deep, and no fault was found before
 * After a lenient call was refused, the fault may be one that the lenient reading accepts. */
int32_t spav_fault(const void *in, size_t n, uint32_t *kind, size_t *top, size_t *at)
	SPAV_MUST_USE SPAV_NONNULL(3, 4, 5);

/* Which fault keeps the lenient calls from accepting `in`.
 *   0        *kind is its kind; it stands in what begins at the byte *top, where nothing is conveyed. At which byte of
 *            that isn't said. Or *kind is SPAV_FAULT_NONE: `in` conveys values one after another, and *top is as it was
 *   -ENOMEM  memory was asked for and refused. None is asked for where `in` is pods, and structs and objects stand at
 *            most 1000 deep in one another */
int32_t spav_fault_leniently(const void *in, size_t n, uint32_t *kind, size_t *top) SPAV_MUST_USE SPAV_NONNULL(3, 4);

/* The kind of a fault in words, for people; of a number that is none, "no fault". */
const char *spav_fault_text(uint32_t kind);

/* What an answer means in words, for people; of a number that no call answers, "no answer". */
const char *spav_answer_text(int32_t answer);

/* Whether the pod at the front of `in` is canonical.
 *   0        *canonical is whether it is: false where no pod is at the front
 *   -ENOMEM  memory was asked for and refused. None is asked for where structs and objects stand at most 1000 deep in
 *            one another */
int32_t spav_is_canonical(const void *in, size_t n, bool *canonical) SPAV_MUST_USE SPAV_NONNULL(3);

/* Whether structs and objects stand at most `levels` deep in one another in the pod at the front of `in`: an Int is 0
 * deep, a struct of Ints 1. It goes by types and sizes alone, so the pod may be malformed. What stands in a choice
 * isn't counted, though the lenient calls may write it outside of it: ask again of what they wrote. No memory is asked
 * for.
 *   0       *within is whether they do: true where no whole pod is at the front
 *   -ELOOP  `levels` is more than 1000, and they stand more than 1000 deep */
int32_t spav_nests_within(const void *in, size_t n, uint32_t levels, bool *within) SPAV_MUST_USE SPAV_NONNULL(4);

/* Whether `a` and `b` are pods of the same values: whether their rewritings are the same bytes.
 *   0        *same is whether they are
 *   -EINVAL  `a` isn't pods one after another (*side is 0), or `b` isn't (1)
 *   -ENOMEM  memory was asked for and refused */
int32_t spav_same(const void *a, size_t n, const void *b, size_t m, bool *same, uint32_t *side)
	SPAV_MUST_USE SPAV_NONNULL(5, 6);

/* Sets each choice among the properties of the object at the front to its default, in place, unless the property has
 * SPAV_FLAG_DONT_FIXATE. No memory is asked for. It goes by types and sizes alone. An accepted object is still
 * accepted; one with a choice of no known shape may be accepted only now.
 *   0        done
 *   -EINVAL  no whole pod of the type Object is at the front */
int32_t spav_fixate(void *pod, size_t n) SPAV_MUST_USE;

/* Reading. But for spav_read_leniently none of these calls asks for memory. But for this one and spav_read, which goes
 * by the exact reading, they look at types and sizes alone, so the bytes may be anything, and write a value only where
 * the answer says that there is one. */

/* The pod at the front of `in`.
 *   0        *type is its type, *size the size of its body, which begins at the byte 8, *whole its length with header
 *            and padding
 *   -EINVAL  no whole pod is at the front */
int32_t spav_front(const void *in, size_t n, uint32_t *type, uint32_t *size, size_t *whole)
	SPAV_MUST_USE SPAV_NONNULL(3, 4, 5);

/* The type and the id of the object at the front of `in`.
 *   0        *type and *id are they
 *   -EINVAL  no object is at the front */
int32_t spav_object(const void *in, size_t n, uint32_t *type, uint32_t *id) SPAV_MUST_USE SPAV_NONNULL(3, 4);

/* The value of the first property with the key in the object at the front of `in`, which may stand in a None choice, as
 * fixation leaves it.
 *   0        *value, or the pair, is it
 *   -EINVAL  no object is at the front
 *   -ENOENT  no property has the key
 *   -EPROTO  the value is of another type, isn't as long as that type's values, or is a choice other than None: see
 *            spav_find and spav_front_elements */
int32_t spav_bool(const void *in, size_t n, uint32_t key, bool *value) SPAV_MUST_USE SPAV_NONNULL(4);
int32_t spav_id(const void *in, size_t n, uint32_t key, uint32_t *value) SPAV_MUST_USE SPAV_NONNULL(4);
int32_t spav_int(const void *in, size_t n, uint32_t key, int32_t *value) SPAV_MUST_USE SPAV_NONNULL(4);
int32_t spav_long(const void *in, size_t n, uint32_t key, int64_t *value) SPAV_MUST_USE SPAV_NONNULL(4);
int32_t spav_float(const void *in, size_t n, uint32_t key, float *value) SPAV_MUST_USE SPAV_NONNULL(4);
int32_t spav_double(const void *in, size_t n, uint32_t key, double *value) SPAV_MUST_USE SPAV_NONNULL(4);
int32_t spav_fd(const void *in, size_t n, uint32_t key, int64_t *value) SPAV_MUST_USE SPAV_NONNULL(4);
int32_t spav_rectangle(const void *in, size_t n, uint32_t key, uint32_t *width, uint32_t *height)
	SPAV_MUST_USE SPAV_NONNULL(4, 5);
int32_t spav_fraction(const void *in, size_t n, uint32_t key, uint32_t *num, uint32_t *denom)
	SPAV_MUST_USE SPAV_NONNULL(4, 5);

/* The text under the key: the bytes before its first NUL go to `out`, then one NUL. They need not be UTF-8; of an
 * accepted pod they are.
 *   0        *len bytes and the NUL were written
 *   -ENOSPC  `cap` isn't more than *len
 *   -EPROTO  the value is no string, or one whose last byte isn't NUL
 *   -EINVAL, -ENOENT  as above */
int32_t spav_string(const void *in, size_t n, uint32_t key, char *out, size_t cap, size_t *len)
	SPAV_MUST_USE SPAV_NONNULL(6);

/* What was read of a pod, of an element of an array, or of a value of a choice. */
struct spav_item {
	uint32_t type;         /* its type */
	uint32_t key, flags;   /* by spav_read, those of the property whose value it is, else 0 */
	uint32_t child;        /* the type of an array's elements, or of a choice's values, else 0 */
	uint32_t choice_flags; /* those of a choice, else 0 */
	uint32_t reserved;     /* 0 */
	size_t depth;          /* how many structs, objects, arrays and choices it stands in */
	size_t at;             /* the byte of `in` at which it begins, a pod with its header */
	/* The two numbers of a pod of the type
	 *   Bool, Id, Int, Float       0 or 1, the Id, the Int's 32 bits, the Float's bits; 0
	 *   Long, Double, Fd           its 64 bits; 0
	 *   Rectangle, Fraction        width and height, numerator and denominator
	 *   String, Bytes, Bitmap      the byte of `in` at which they begin, and how many they are, without a text's NUL
	 *   Pointer                    its type, the address
	 *   Array                      the byte of `in` at which its elements begin, and how many they are
	 *   Choice                     its shape, and how many values that takes
	 *   Object                     its type, its id
	 *   None, Struct               0; 0 */
	uint64_t first, second;
};

/* Reads all that the pods of which `in` consists hold: an item for each pod, for each inside it, and for each element
 * of an array and each value of a choice. An item comes before those inside it, and these before what follows it. No
 * memory is asked for.
 *   0        *count items were written
 *   -ENOSPC  there are *count, more than `room`: `out` is full of the first of them
 *   -EINVAL  `in` isn't pods one after another: the first fault is of the kind *kind, at the byte *at, as of spav_fault
 *   -ELOOP   structs and objects stand more than 1000 deep in one another */
int32_t spav_read(const void *in, size_t n, struct spav_item *out, size_t room, size_t *count, uint32_t *kind,
	size_t *at) SPAV_MUST_USE SPAV_NONNULL(5, 6, 7);

/* Reads all that `in` conveys in the lenient reading: writes to `out` what spav_rewrite_leniently writes, and to
 * `items` what spav_read reads of that. So the bytes of which items say the number are bytes of `out`, and not of `in`.
 * `cap` = n is room enough. `out` and `items` that overlap are answered by -EINVAL, too.
 *   0        *written bytes and *count items were written. Where `cap` is n or more, the others of the first n bytes of
 *            `out` may have changed, too
 *   -ENOSPC  `cap` is less than *written: no byte and no item was written, and *count is as it was. Or it isn't: the
 *            bytes were written, and there are *count items, more than `room`: `items` is full of the first of them
 *   -EINVAL  `in` doesn't convey values one after another: nothing is conveyed at the byte *at
 *   -ELOOP   *written bytes were written, and no items: structs and objects stand more than 1000 deep in one another
 *   -ENOMEM  memory was asked for and refused. None is asked for where `in` is pods, structs and objects stand at most
 *            1000 deep in one another, and `cap` is n or more */
int32_t spav_read_leniently(const void *in, size_t n, void *out, size_t cap, struct spav_item *items, size_t room,
	size_t *written, size_t *count, size_t *at) SPAV_MUST_USE SPAV_NONNULL(7, 8, 9);

/* The item of the pod at the front of `in`, of a choice with its shape and its flags; and where that is a None choice,
 * by spav_settled_item that of its value. The pod may be malformed: a number that goes past its body is 0, and a text
 * has its body's length less 1, whatever its last byte is.
 *   0        *item is it
 *   -EINVAL  no whole pod is at the front */
int32_t spav_front_item(const void *in, size_t n, struct spav_item *item) SPAV_MUST_USE SPAV_NONNULL(3);
int32_t spav_settled_item(const void *in, size_t n, struct spav_item *item) SPAV_MUST_USE SPAV_NONNULL(3);

/* The item of the element of this number of the array at the front of `in`, or of that value of the choice there. The
 * first has the number 0; of a choice it is the default.
 *   0        *item is it
 *   -EINVAL  neither is at the front
 *   -ENOENT  there are no more elements, or the choice takes no more values */
int32_t spav_element(const void *in, size_t n, size_t number, struct spav_item *item) SPAV_MUST_USE SPAV_NONNULL(4);

/* Where a value begins in `in`, for the calls that read the pod at the front of what they are given: that of the first
 * property with the key in the object at the front, that of the member of this number in the struct at the front, the
 * first of which is 0.
 *   0        *at is the byte
 *   -EINVAL  no object, or no struct, is at the front
 *   -ENOENT  no property has the key, or the struct has no such member */
int32_t spav_find(const void *in, size_t n, uint32_t key, size_t *at) SPAV_MUST_USE SPAV_NONNULL(4);
int32_t spav_member(const void *in, size_t n, size_t number, size_t *at) SPAV_MUST_USE SPAV_NONNULL(4);

/* The elements of an array, or the values that a choice takes, the default first. */
struct spav_elements {
	uint32_t type;         /* SPAV_TYPE_Array or SPAV_TYPE_Choice */
	uint32_t shape, flags; /* those of a choice, else 0 */
	uint32_t element_type;
	uint32_t element_size; /* in bytes */
	uint32_t reserved;     /* 0 */
	size_t count;
	size_t at; /* the byte of `in` at which the first begins; the others follow it without padding */
};

/* The elements of the array at the front of `in`, or the values of the choice there.
 *   0        *elements are they
 *   -EINVAL  neither is at the front */
int32_t spav_front_elements(const void *in, size_t n, struct spav_elements *elements) SPAV_MUST_USE SPAV_NONNULL(3);

/* Setting. The value under a key is replaced in place, by one of its type: that of the first property with the key in
 * the object at the front, or, where that is a None choice, the choice's value. No other byte changes, so an accepted
 * object is still accepted. No memory is asked for.
 *   0        done
 *   -EINVAL  no object is at the front
 *   -ENOENT  no property has the key
 *   -EPROTO  the value is of another type, isn't as long as that type's values, or is a choice other than None */
int32_t spav_set_bool(void *pod, size_t n, uint32_t key, bool value) SPAV_MUST_USE;
int32_t spav_set_id(void *pod, size_t n, uint32_t key, uint32_t value) SPAV_MUST_USE;
int32_t spav_set_int(void *pod, size_t n, uint32_t key, int32_t value) SPAV_MUST_USE;
int32_t spav_set_long(void *pod, size_t n, uint32_t key, int64_t value) SPAV_MUST_USE;
int32_t spav_set_float(void *pod, size_t n, uint32_t key, float value) SPAV_MUST_USE;
int32_t spav_set_double(void *pod, size_t n, uint32_t key, double value) SPAV_MUST_USE;
int32_t spav_set_fd(void *pod, size_t n, uint32_t key, int64_t value) SPAV_MUST_USE;
int32_t spav_set_rectangle(void *pod, size_t n, uint32_t key, uint32_t width, uint32_t height) SPAV_MUST_USE;
int32_t spav_set_fraction(void *pod, size_t n, uint32_t key, uint32_t num, uint32_t denom) SPAV_MUST_USE;

/* Names and text. These four calls are in a shared library of their own, libspav-text, for which a program is linked
 * with -lspav-text; libspav.a has them, too. The names are PipeWire's short ones, of the tables of PipeWire 0.3.65:
 * docs/TEXT.md, "Names". */

/* Of which numbers names are. */
enum spav_names {
	SPAV_NAMES_TYPES,    /* types of pods and of objects: "Int", "Format" */
	SPAV_NAMES_SHAPES,   /* shapes of choices: "Range" */
	SPAV_NAMES_CONTROLS, /* types of the controls of a sequence: "Midi" */
	SPAV_NAMES_KEYS,     /* keys of objects of the type `type`: "rate" */
	SPAV_NAMES_IDS,      /* ids of objects of the type `type`: "EnumFormat" */
	SPAV_NAMES_VALUES    /* Ids under the key `key` of objects of the type `type`, also in arrays: "S16LE" */
};

/* The name of a number among `names`, which is one of enum spav_names: it and one NUL go to `out`. `type` and `key` are
 * looked at only where that says so. No name has more than 32 bytes.
 *   0        *len bytes and the NUL were written
 *   -ENOSPC  `cap` isn't more than *len
 *   -ENOENT  the number has no name there */
int32_t spav_name(uint32_t names, uint32_t type, uint32_t key, uint32_t number, char *out, size_t cap, size_t *len)
	SPAV_MUST_USE SPAV_NONNULL(7);

/* The number of the name of n bytes, without a NUL, among `names`. Several names may have one number: spav_name gives
 * one of them.
 *   0        *number is it
 *   -EINVAL  the name isn't UTF-8
 *   -ENOENT  no number has the name there */
int32_t spav_number(uint32_t names, uint32_t type, uint32_t key, const char *name, size_t n, uint32_t *number)
	SPAV_MUST_USE SPAV_NONNULL(6);

/* The text of the pod at the front of `in`, as docs/TEXT.md has it: one line of JSON, in UTF-8, with names where there
 * are any. The text and one NUL go to `out`. spav_from_json makes a pod of the same value of it.
 *   0        *len bytes and the NUL were written
 *   -ENOSPC  `cap` isn't more than *len
 *   -EINVAL  no pod is at the front
 *   -ENOMEM  memory was asked for and refused */
int32_t spav_json(const void *in, size_t n, char *out, size_t cap, size_t *len) SPAV_MUST_USE SPAV_NONNULL(5);

/* Writes the pod of the value whose text the n bytes `text`, without a NUL, are.
 *   0           *written bytes were written
 *   -ENOSPC     `cap` is less than *written, its length
 *   -EINVAL     `text` isn't UTF-8, or isn't the text of a value: it was read up to the byte *at. Or a string in that
 *               value holds NUL: *at is 0
 *   -EOVERFLOW  a size in the pod is 2^32 or more
 *   -ENOMEM     memory was asked for and refused */
int32_t spav_from_json(const char *text, size_t n, void *out, size_t cap, size_t *written, size_t *at)
	SPAV_MUST_USE SPAV_NONNULL(5, 6);

/* Negotiation. The rules are those of docs/NEGOTIATION.md. What follows the two objects at the fronts of `a` and `b`
 * doesn't count. */

/* Writes the object in which the two meet: under each key of either, one value that both admit.
 *   0           *written bytes were written
 *   -ENOSPC     `cap` is less than *written, its length
 *   -EINVAL     no object is at the front of `a` (*key_or_side is 0) or of `b` (1)
 *   -EPROTO     they are of two types
 *   -ENOTSUP    under the key *key_or_side stands a choice for which no common value is sought
 *   -ENODATA    under the key *key_or_side no value is admitted by both
 *   -EOVERFLOW  a size in that object is 2^32 or more
 *   -ENOMEM     memory was asked for and refused */
int32_t spav_negotiate(const void *a, size_t n, const void *b, size_t m, void *out, size_t cap, size_t *written,
	uint32_t *key_or_side) SPAV_MUST_USE SPAV_NONNULL(7, 8);

/* Writes the object to which the two are filtered: under each key of both, exactly what both admit; under a key of one,
 * what stands there. It may hold choices, so that a third may be filtered with it; spav_fixate settles them.
 *   -ENOENT  one has the key *key_or_side with SPAV_FLAG_MANDATORY, and the other lacks it
 *   The other answers are those of spav_negotiate. */
int32_t spav_filter(const void *a, size_t n, const void *b, size_t m, void *out, size_t cap, size_t *written,
	uint32_t *key_or_side) SPAV_MUST_USE SPAV_NONNULL(7, 8);

/* Building. The calls of a builder stand in an array, which the functions below fill; docs/FORMAT.md, "Making pods call
 * by call", says which can follow which. */

/* What a call is that is no type's. */
enum spav_word { SPAV_WORD_Prop = 256, SPAV_WORD_Pop = 257, SPAV_WORD_Array = 258, SPAV_WORD_Pod = 259 };

struct spav_call {
	uint32_t what;  /* the type of the value that is added, or of the pod that is begun; else one of enum spav_word */
	uint32_t first; /* an Id, a truth value, a Float's bits, a width, a numerator; the type of a pointer, an object or
	                 * elements, a choice's shape, a key */
	uint32_t second; /* a height, a denominator, an object's id, the flags of a choice or a property */
	int32_t number;  /* an Int */
	int64_t wide;    /* a Long, the number of a file descriptor */
	uint64_t bits;   /* a Double's bits, an address, where in `texts` a text, elements or a pod begin, a frame or 0 */
	uint64_t len;    /* how many bytes a text or a pod has, or elements an array */
	uint64_t reserved; /* 0 */
};

/* Writes the pods that `count` calls build. Strings, bytes, the elements of whole arrays, and whole pods are parts of
 * the n bytes `texts`.
 *   0           *written bytes were written
 *   -ENOSPC     `cap` is less than *written, their length
 *   -EINVAL     calls[*at] can't come there or is no call: a string isn't UTF-8 or holds NUL, a part runs past `texts`,
 *               elements have no fixed size, a whole pod isn't canonical, .. Where *at is `count`, a pod is begun and
 *               not closed
 *   -EOVERFLOW  by calls[*at] the size of a pod is 2^32 or more
 *   -ENOMEM     memory was asked for and refused */
int32_t spav_build(const struct spav_call *calls, size_t count, const void *texts, size_t n, void *out, size_t cap,
	size_t *written, size_t *at) SPAV_MUST_USE SPAV_NONNULL(7, 8);

SPAV_INLINE struct spav_call spav_call_of(uint32_t what, uint32_t first, uint32_t second) {
	struct spav_call call = { what, first, second, 0, 0, 0, 0, 0 };
	return call;
}
SPAV_INLINE struct spav_call spav_call_with(uint32_t what, int32_t number, int64_t wide, uint64_t bits) {
	struct spav_call call = { what, 0, 0, number, wide, bits, 0, 0 };
	return call;
}
/* A call of a part of `texts`: `len` bytes, or elements of a type, from the byte `from` on. */
SPAV_INLINE struct spav_call spav_call_at(uint32_t what, uint32_t type, size_t from, size_t len) {
	struct spav_call call = { what, type, 0, 0, 0, from, len, 0 };
	return call;
}
SPAV_INLINE struct spav_call spav_add_none(void) { return spav_call_of(SPAV_TYPE_None, 0, 0); }
SPAV_INLINE struct spav_call spav_add_bool(bool value) { return spav_call_of(SPAV_TYPE_Bool, value, 0); }
SPAV_INLINE struct spav_call spav_add_id(uint32_t value) { return spav_call_of(SPAV_TYPE_Id, value, 0); }
SPAV_INLINE struct spav_call spav_add_int(int32_t value) { return spav_call_with(SPAV_TYPE_Int, value, 0, 0); }
SPAV_INLINE struct spav_call spav_add_long(int64_t value) { return spav_call_with(SPAV_TYPE_Long, 0, value, 0); }
SPAV_INLINE struct spav_call spav_add_float(float value) {
	uint32_t bits;
	memcpy(&bits, &value, sizeof bits);
	return spav_call_of(SPAV_TYPE_Float, bits, 0);
}
SPAV_INLINE struct spav_call spav_add_double(double value) {
	uint64_t bits;
	memcpy(&bits, &value, sizeof bits);
	return spav_call_with(SPAV_TYPE_Double, 0, 0, bits);
}
/* The `len` bytes of `texts` from the byte `from` on, without a NUL at the end. */
SPAV_INLINE struct spav_call spav_add_string(size_t from, size_t len) {
	return spav_call_at(SPAV_TYPE_String, 0, from, len);
}
SPAV_INLINE struct spav_call spav_add_bytes(size_t from, size_t len) {
	return spav_call_at(SPAV_TYPE_Bytes, 0, from, len);
}
SPAV_INLINE struct spav_call spav_add_rectangle(uint32_t width, uint32_t height) {
	return spav_call_of(SPAV_TYPE_Rectangle, width, height);
}
SPAV_INLINE struct spav_call spav_add_fraction(uint32_t num, uint32_t denom) {
	return spav_call_of(SPAV_TYPE_Fraction, num, denom);
}
SPAV_INLINE struct spav_call spav_add_pointer(uint32_t type, uint64_t address) {
	struct spav_call call = { SPAV_TYPE_Pointer, type, 0, 0, 0, address, 0, 0 };
	return call;
}
SPAV_INLINE struct spav_call spav_add_fd(int64_t value) { return spav_call_with(SPAV_TYPE_Fd, 0, value, 0); }
SPAV_INLINE struct spav_call spav_push_array(void) { return spav_call_of(SPAV_TYPE_Array, 0, 0); }
SPAV_INLINE struct spav_call spav_push_struct(void) { return spav_call_of(SPAV_TYPE_Struct, 0, 0); }
SPAV_INLINE struct spav_call spav_push_object(uint32_t type, uint32_t id) {
	return spav_call_of(SPAV_TYPE_Object, type, id);
}
/* What is added next are its values: the default, then of a Range least and greatest, of a Step also the step, of an
 * Enum the alternatives, among which PipeWire's readers expect the default again. They aren't compared. */
SPAV_INLINE struct spav_call spav_push_choice(uint32_t shape, uint32_t flags) {
	return spav_call_of(SPAV_TYPE_Choice, shape, flags);
}
/* The key and the flags of a property, whose value the next call adds or begins. */
SPAV_INLINE struct spav_call spav_add_prop(uint32_t key, uint32_t flags) {
	return spav_call_of(SPAV_WORD_Prop, key, flags);
}
/* Adds an array of `count` elements of one type of fixed size, or of none. They are as C has them in an array, without
 * padding, from the byte `from` of `texts` on: a Bool is an int32_t, a Rectangle or a Fraction two uint32_t. An array
 * of None has none, whatever `count` is. */
SPAV_INLINE struct spav_call spav_add_array(uint32_t element_type, size_t from, size_t count) {
	return spav_call_at(SPAV_WORD_Array, element_type, from, count);
}
/* Adds the value of a pod: the `len` bytes of `texts` from the byte `from` on, which are one canonical pod, as
 * spav_rewrite and spav_build write it, in which structs and objects nest at most 1000 deep. */
SPAV_INLINE struct spav_call spav_add_pod(size_t from, size_t len) {
	return spav_call_at(SPAV_WORD_Pod, 0, from, len);
}
/* Closes the innermost pod that is begun. */
SPAV_INLINE struct spav_call spav_pop(void) { return spav_call_of(SPAV_WORD_Pop, 0, 0); }
/* Closes the innermost pod that is begun, if `frame` pods are begun; else the answer is -EINVAL. */
SPAV_INLINE struct spav_call spav_pop_frame(uint64_t frame) { return spav_call_with(SPAV_WORD_Pop, 0, 0, frame); }

/* How many bytes the pod takes whose first 8 bytes these are: header, body and padding, 8 to 4294967304. Of a stream,
 * so many have to be there before the pod can be looked at. */
SPAV_INLINE uint64_t spav_extent(const void *header) {
	uint32_t size;
	memcpy(&size, header, sizeof size);
	return 8 + (((uint64_t)size + 7) & ~(uint64_t)7);
}

/* Walking. An iterator without memory over pods one after another, or over properties, which ends at the first that
 * isn't whole. It points into the caller's bytes. */
struct spav_walk {
	const uint8_t *left;
	size_t count;      /* how many bytes are left */
	uint32_t keyed;    /* 1 where a key and flags stand before each pod, else 0 */
	uint32_t reserved; /* 0 */
};

/* A pod that a walk came to. */
struct spav_pod {
	uint32_t type;
	uint32_t key, flags; /* those before it, or 0 */
	uint32_t size;       /* how many bytes its body has */
	const uint8_t *body;
	const uint8_t *bytes; /* header, body and padding */
	size_t whole;         /* how many bytes these are */
	uint64_t reserved;    /* 0 */
};

/* The walk over the pods of which `in` consists. */
SPAV_INLINE struct spav_walk spav_walk_pods(const void *in, size_t n) {
	struct spav_walk walk = { (const uint8_t *)in, in ? n : 0, 0, 0 };
	return walk;
}

/* The walk over what is inside a pod: the members of a struct, the properties of an object, the controls of a sequence,
 * whose keys are their offsets and whose flags their types, of any other nothing. */
SPAV_INLINE struct spav_walk spav_walk_inside(const struct spav_pod *pod) {
	struct spav_walk walk = { pod->body, 0, 0, 0 };
	if (pod->type == SPAV_TYPE_Struct)
		walk.count = pod->size;
	else if ((pod->type == SPAV_TYPE_Object || pod->type == SPAV_TYPE_Sequence) && pod->size >= 8) {
		walk.left = pod->body + 8;
		walk.count = pod->size - 8;
		walk.keyed = 1;
	}
	return walk;
}

/* Goes on to the next pod, and says whether there is one. Where there is none, `left` and `count` are what remains:
 * nothing, or bytes that are no whole pod. */
SPAV_INLINE bool spav_next(struct spav_walk *walk, struct spav_pod *pod) {
	size_t before = walk->keyed ? 8 : 0;
	if (walk->count <= before)
		return false;
	if (spav_front(walk->left + before, walk->count - before, &pod->type, &pod->size, &pod->whole))
		return false;
	pod->key = pod->flags = 0;
	pod->reserved = 0;
	if (walk->keyed) {
		memcpy(&pod->key, walk->left, 4);
		memcpy(&pod->flags, walk->left + 4, 4);
	}
	pod->bytes = walk->left + before;
	pod->body = pod->bytes + 8;
	walk->left = pod->bytes + pod->whole;
	walk->count -= before + pod->whole;
	return true;
}

/* The walk over the entries of a dictionary: a struct of an Int, how many entries it has, and of two Strings for each,
 * as PipeWire's protocol writes properties. Of another pod nothing. */
SPAV_INLINE struct spav_walk spav_walk_entries(const struct spav_pod *pod) {
	struct spav_walk walk = spav_walk_inside(pod);
	struct spav_pod count;
	if (pod->type != SPAV_TYPE_Struct || !spav_next(&walk, &count) || count.type != SPAV_TYPE_Int)
		walk.count = 0;
	return walk;
}

/* Goes on to the next entry, and says whether there is one: two Strings. */
SPAV_INLINE bool spav_next_entry(struct spav_walk *walk, struct spav_pod *key, struct spav_pod *value) {
	return spav_next(walk, key) && key->type == SPAV_TYPE_String && spav_next(walk, value)
		&& value->type == SPAV_TYPE_String;
}

/* Whether a pod is a String with this text before its first NUL. */
SPAV_INLINE bool spav_is_text(const struct spav_pod *pod, const char *text) {
	size_t len = strlen(text);
	return pod->type == SPAV_TYPE_String && pod->size > len && !memcmp(pod->body, text, len + 1);
}

#ifdef __cplusplus
}
#endif
#endif
