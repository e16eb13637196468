/* The functions of target/staticlib/libxalevinda.a for C and C++. scripts/library proves and builds it, for the calling convention of
 * x86-64 Linux. Their contracts are in crates/xalevinda_c/src/lib.rt.
 *
 * Any lengths, bytes and numbers may be given. A pointer is never null, also where its length is 0, and what a function writes (`out`,
 * `machine`, `shown`) overlaps nothing else that it is handed. The library has no data of its own that changes, so several threads may call
 * it at once.
 *
 * What a freestanding program has to bring: memcpy and memset of the C library, and nothing else of it. The functions allocate nothing and
 * call nothing of the system. The code is position-independent. As the calling convention allows, it uses SSE2 registers and the 128
 * bytes below the stack pointer (the red zone), so a handler that interrupts it must leave both as they are. The deepest call,
 * xalevinda_save, takes 214 KB of stack, so 256 KB are enough; for xalevinda_open and xalevinda_step 16 KB are (counted in the machine
 * code that the older kit, rattle-kit-5, made; not proved). */
#ifndef XALEVINDA_H
#define XALEVINDA_H

#include <stddef.h>
#include <stdint.h>

/* No record of a listing is longer, its line feed included. */
#define XALEVINDA_LONGEST_RECORD 84
/* Room for the records of any state: they have fewer bytes than this. */
#define XALEVINDA_RECORDS_ROOM 65536
/* No line of xalevinda_why is longer, its line feed included. */
#define XALEVINDA_LONGEST_REASONED 255
/* No sheet or verdict of xalevinda_explain is longer, its line feeds included. */
#define XALEVINDA_LONGEST_EXPLANATION 261
/* How many words of 64 bits a machine takes, and how many xalevinda_step shows. */
#define XALEVINDA_MACHINE_WORDS 884
#define XALEVINDA_SHOWN_WORDS 3

#ifdef __cplusplus
extern "C" {
#endif

/* The answers: the second field of a record of a listing (01, "Answer numbers"). */
enum xalevinda_answer {
    XALEVINDA_DONE = 0,                /* the third field is the event's value, else 0 */
    XALEVINDA_MALFORMED = 1,           /* malformed line, field out of range, state not well formed */
    XALEVINDA_UNDEFINED_OPCODE = 2,    /* #UD: user mode, or a call or return that the rules fault */
    XALEVINDA_WRONG_TARGET = 3,        /* target level above the maximum, or 0 where a level above 0 is needed */
    XALEVINDA_NO_RIGHT = 4,            /* the acting level has no right to it */
    XALEVINDA_ALREADY_ENABLED = 5,     /* already enabled */
    XALEVINDA_NOT_ENABLED = 6,         /* target not enabled, protections not on, or MBEC not on */
    XALEVINDA_WRITE_ONCE = 7,          /* write-once field changed */
    XALEVINDA_KMX_WITHOUT_UMX = 8,     /* KMX without UMX where the partition has MBEC for the level */
    XALEVINDA_INTERCEPT = 9,           /* intercept; the third field is the receiving level */
    XALEVINDA_NO_RECEIVER = 10,        /* a level denies, but no denying level is enabled on this processor */
    XALEVINDA_HOST_DENIES = 11,        /* no level denies, the host mask does */
    XALEVINDA_FLUSH_HELD = 12,         /* flush held by a TLB lock */
    XALEVINDA_NO_READY_VECTOR = 13     /* ack with no vector ready or RFLAGS bit 9 clear */
};

/* The reasons: one for each condition of the rules. A number once given stays, and a condition that is added later gets the next one. So a
 * number that is not listed here is a reason newer than this header. Below 16 stands what is no refusal of a rule. */
enum xalevinda_reason {
    XALEVINDA_REASON_NONE = 0,                        /* the event took place, or the machine was opened */
    XALEVINDA_REASON_INTERCEPTED = 1,                 /* an intercept; the value is the receiving level */
    XALEVINDA_REASON_SHORT_SLICE = 2,                 /* fewer than XALEVINDA_MACHINE_WORDS or XALEVINDA_SHOWN_WORDS words */
    XALEVINDA_REASON_NOT_ADMISSIBLE = 3,              /* the numbers of a first line are not admissible */
    XALEVINDA_REASON_LINE_TOO_LONG = 16,              /* a line above 256 bytes */
    XALEVINDA_REASON_UNKNOWN_WORD = 17,               /* a line whose first field is no event's word */
    XALEVINDA_REASON_WRONG_FIELD_COUNT = 18,          /* a line with another number of fields than its event has */
    XALEVINDA_REASON_NOT_A_NUMBER = 19,               /* a field that is no decimal number from 0 to 2^64-1 */
    XALEVINDA_REASON_NOT_WELL_FORMED = 20,            /* the state is not well formed */
    XALEVINDA_REASON_NO_SUCH_PROCESSOR = 21,          /* v is not one of the processors */
    XALEVINDA_REASON_NO_SUCH_TARGET = 22,             /* w is not one of the processors */
    XALEVINDA_REASON_NO_SUCH_MODE = 23,               /* the mode is neither 0 nor 1 */
    XALEVINDA_REASON_LEVEL_OUT_OF_RANGE = 24,         /* a level above 15 */
    XALEVINDA_REASON_MBEC_OUT_OF_RANGE = 25,          /* an MBEC flag that is neither 0 nor 1 */
    XALEVINDA_REASON_LENGTH_OUT_OF_RANGE = 26,        /* an instruction's length that is not one of 1 to 15 */
    XALEVINDA_REASON_CLASS_OUT_OF_RANGE = 27,         /* a TPR class above 15 */
    XALEVINDA_REASON_VECTOR_OUT_OF_RANGE = 28,        /* a vector that is not one of 16 to 255 */
    XALEVINDA_REASON_NO_SUCH_REGISTER = 29,           /* a register above 31 */
    XALEVINDA_REASON_NO_SUCH_PAGE = 30,               /* p is not one of the pages */
    XALEVINDA_REASON_INVALID_MASK = 31,               /* a mask that is neither 0 nor has Read */
    XALEVINDA_REASON_RESERVED_BITS = 32,              /* a reserved bit of a configuration or intercept control word is set */
    XALEVINDA_REASON_CR0_IN_REAL_MODE = 33,           /* a value for CR0 with bit 0 clear, for a level above 0 */
    XALEVINDA_REASON_USER_MODE = 34,                  /* user mode for anything but read, write, fetch */
    XALEVINDA_REASON_CALL_IN_REAL_MODE = 35,          /* call: the actor is in real mode, its CR0 bit 0 is clear */
    XALEVINDA_REASON_RCX_NOT_ZERO = 36,               /* call: RCX is not 0 */
    XALEVINDA_REASON_NO_HIGHER_LEVEL = 37,            /* call: no higher level is enabled on the processor */
    XALEVINDA_REASON_RETURN_AT_LEVEL_ZERO = 38,       /* ret: level 0 is active */
    XALEVINDA_REASON_RCX_ABOVE_ONE = 39,              /* ret: RCX is above 1 */
    XALEVINDA_REASON_LEVEL_ZERO = 40,                 /* level 0 where a level above 0 is needed */
    XALEVINDA_REASON_ABOVE_MAXIMUM = 41,              /* a level above M */
    XALEVINDA_REASON_TARGET_NOT_ABOVE = 42,           /* enpart, envp: the target is not above the actor */
    XALEVINDA_REASON_TARGET_ABOVE = 43,               /* config, rreg, wreg: the target is above the actor */
    XALEVINDA_REASON_TARGET_NOT_BELOW = 44,           /* secure: the target is not below the actor */
    XALEVINDA_REASON_PROTECT_AT_LEVEL_ZERO = 45,      /* protect: level 0 is active */
    XALEVINDA_REASON_ENABLED_FOR_PARTITION = 46,      /* enpart: the target is enabled for the partition */
    XALEVINDA_REASON_ENABLED_ON_PROCESSOR = 47,       /* envp: the target is enabled on the processor */
    XALEVINDA_REASON_NOT_ENABLED_FOR_PARTITION = 48,  /* the target is not enabled for the partition */
    XALEVINDA_REASON_NOT_ENABLED_ON_PROCESSOR = 49,   /* the target is not enabled on the processor */
    XALEVINDA_REASON_PROTECTIONS_OFF = 50,            /* protect: the actor's protections are off */
    XALEVINDA_REASON_NO_MBEC = 51,                    /* secure: the partition has no MBEC for the actor */
    XALEVINDA_REASON_PROTECTIONS_CLEARED = 52,        /* config: protections cannot be turned off */
    XALEVINDA_REASON_DEFAULT_MASK_CHANGED = 53,       /* config: the default mask cannot be changed */
    XALEVINDA_REASON_KERNEL_ONLY_EXECUTE = 54,        /* KMX without UMX where the partition has MBEC for the level */
    XALEVINDA_REASON_NO_RECEIVER = 55,                /* a level denies, but no denying level is enabled on this processor */
    XALEVINDA_REASON_HOST_DENIES = 56,                /* no level denies, the host mask does */
    XALEVINDA_REASON_TLB_LOCKED = 57,                 /* flush: a level above the actor holds a TLB lock on it */
    XALEVINDA_REASON_NO_READY_VECTOR = 58,            /* ack: no vector is ready */
    XALEVINDA_REASON_INTERRUPT_FLAG_CLEAR = 59,       /* ack: RFLAGS bit 9 is clear */
    XALEVINDA_REASON_TARGET_GUARDED = 60,             /* envp: the target is enabled on a processor, and the actor is below it */
    XALEVINDA_REASON_NO_SUCH_MASK = 61,               /* crm: a mask for neither CR0 nor CR4 */
    XALEVINDA_REASON_WATCH_AT_LEVEL_ZERO = 62         /* cri, crm: level 0 is active */
};

/* The words that xalevinda_step shows. */
enum xalevinda_shown {
    XALEVINDA_SHOWN_VALUE = 0,         /* the event's value, or the receiving level of an intercept */
    XALEVINDA_SHOWN_LEVEL = 1,         /* the level now active on the processor that the line names, and 0 for answer 1 */
    XALEVINDA_SHOWN_REASON = 2         /* why: one of xalevinda_reason */
};

/* The registers of document 001 whose words have fields. The fields that are not reserved are numbered from 0 in this order. */
enum xalevinda_register {
    XALEVINDA_CAPABILITIES = 0,        /* DenyLowerVtlStartup, MbecVtlMask, Dr6Shared */
    XALEVINDA_PARTITION_STATUS = 1,    /* EnabledVtlSet, MaximumVtl, MbecEnabledVtlSet */
    XALEVINDA_VP_STATUS = 2,           /* ActiveVtl, ActiveMbecEnabled, EnabledVtlSet */
    XALEVINDA_PARTITION_CONFIG = 3,    /* EnableVtlProtection, DefaultVtlProtectionMask, ZeroMemoryOnReset, DenyLowerVtlStartup,
                                          InterceptVpStartup */
    XALEVINDA_SECURE_CONFIG = 4,       /* MbecEnabled, TlbLocked */
    XALEVINDA_CODE_PAGE_OFFSETS = 5,   /* VtlCallOffset, VtlReturnOffset */
    XALEVINDA_CR_INTERCEPT_CONTROL = 6 /* 25 fields of one bit each, from Cr0Write to MsrSgxLaunchControlWrite: field n is bit n */
};

/* Writes the listing of a script at the start of `out`: all of it, or nothing where `out_length` is too short. Returns how many bytes
 * the listing has, or SIZE_MAX where it has more. The script is run twice, to count and to write; once only where `out` has
 * XALEVINDA_LONGEST_RECORD bytes for every line feed of the script and as many more. */
size_t xalevinda_listing(const uint8_t *script, size_t script_length, uint8_t *out, size_t out_length);

/* Writes the records of the state after a script at the start of `out`, or the refusal line where its first line is bad: all of it, or
 * nothing where `out_length` is too short. Returns how many bytes that has: fewer than XALEVINDA_RECORDS_ROOM. The script is run once. */
size_t xalevinda_save(const uint8_t *script, size_t script_length, uint8_t *out, size_t out_length);

/* Reads the records at the start of an input, answers them as line 0, and goes on from line 1 with the script without first line that
 * follows them. Writes that listing, returns its size and runs as often as xalevinda_listing does. */
size_t xalevinda_resume(const uint8_t *input, size_t input_length, uint8_t *out, size_t out_length);

/* Reads the records at the start of an input and the access line that follows them, and writes the sheet that says why the access is
 * allowed or denied, or the verdict on the sheet that follows as the last line: all of it, or nothing where `out_length` is too short.
 * Returns how many bytes that has: at most XALEVINDA_LONGEST_EXPLANATION. */
size_t xalevinda_explain(const uint8_t *input, size_t input_length, uint8_t *out, size_t out_length);

/* Writes the listing of a script with the reason for every answer at the start of `out`: all of it, or nothing where `out_length` is too
 * short. Behind the four fields of a line stands nothing at answer 0, else the name of the condition that gave the answer, or the fields of
 * the sheet of a denied access. Returns how many bytes that has, or SIZE_MAX where it has more. The script is run twice. */
size_t xalevinda_why(const uint8_t *script, size_t script_length, uint8_t *out, size_t out_length);

/* Lockstep: a machine in words that the caller owns, so that a hypervisor's own tests can run beside the model event by event. The words
 * need no closing and may be copied. Which word is which is no part of this interface: only hand them back. A line has no line feed.
 *
 * xalevinda_open makes the fresh machine of a first line (vsm ..) in `machine` and returns XALEVINDA_REASON_NONE. Or it returns why there
 * is none, and all words stay as they were.
 *
 * xalevinda_step answers one line after the first, as the listing of a script does, and returns the answer. Where the event is done or
 * intercepted `machine` holds the next state; at any other answer it stays as it was. `shown` gets the words of xalevinda_shown. Words that
 * stand for no well-formed state are answered XALEVINDA_MALFORMED. So is a call with too few words in `machine` or `shown`; where `shown` has
 * too few it stays as it was too. */
uint64_t xalevinda_open(const uint8_t *line, size_t line_length, uint64_t *machine, size_t machine_words);
uint64_t xalevinda_step(uint64_t *machine, size_t machine_words, const uint8_t *line, size_t line_length, uint64_t *shown,
                        size_t shown_words);

/* The value of a field of a register's word, and the word with that field replaced by the low bits of `value`; its other bits stay. For
 * any other number of a register or a field the value is 0, and the word stays as it is. */
uint64_t xalevinda_field(uint64_t register_number, uint64_t field, uint64_t word);
uint64_t xalevinda_with_field(uint64_t register_number, uint64_t field, uint64_t word, uint64_t value);

#ifdef __cplusplus
}
#endif

#endif
