/* A program over the library, in what C and C++ have in common. With one example it lists a script, passes the machine on in the middle
 * of it, asks why an access was denied, and reads and replaces a field of a word. Then it runs all that is stored for the programs
 * `bench`, `save`, `resume`, `explain` and `why`. What is written is held to what is stored; a difference ends the program with status 1. The
 * argument is the repository. */
#include "xalevinda.h"

#include <inttypes.h>
#include <stdio.h>
#include <stdlib.h>
#include <string.h>

/* Bytes of a buffer, or a part of them. */
typedef struct {
    uint8_t *bytes;
    size_t length;
} Text;

/* A function of the library that writes a text, and the program that writes the same. */
typedef struct {
    const char *program;
    size_t (*into)(const uint8_t *input, size_t input_length, uint8_t *out, size_t out_length);
} Function;

static const Function LISTING = {"bench", xalevinda_listing};
static const Function SAVE = {"save", xalevinda_save};
static const Function RESUME = {"resume", xalevinda_resume};
static const Function EXPLAIN = {"explain", xalevinda_explain};
static const Function WHY = {"why", xalevinda_why};

/* What a buffer is filled with before a function writes. */
enum { FILL = 170 };

static void fail(const char *where, const char *what) {
    fprintf(stderr, "%s: %s\n", where, what);
    exit(1);
}

/* A buffer that is never null. */
static Text buffer(size_t length) {
    Text text;
    text.bytes = (uint8_t *)malloc(length + 1);
    text.length = length;
    if (text.bytes == NULL) {
        fail("malloc", "no memory");
    }
    memset(text.bytes, FILL, length + 1);
    return text;
}

static Text from(Text text, size_t start) {
    text.bytes += start;
    text.length -= start;
    return text;
}

static Text first(Text text, size_t length) {
    text.length = length;
    return text;
}

static int same(Text one, Text two) {
    return one.length == two.length && memcmp(one.bytes, two.bytes, one.length) == 0;
}

static int begins(Text text, const char *start) {
    return strlen(start) <= text.length && memcmp(text.bytes, start, strlen(start)) == 0;
}

static Text joined(Text one, Text two) {
    Text text = buffer(one.length + two.length);
    memcpy(text.bytes, one.bytes, one.length);
    memcpy(text.bytes + one.length, two.bytes, two.length);
    return text;
}

/* How many bytes the first line has, with its line feed where it has one. */
static size_t line_length(Text text) {
    const uint8_t *feed = (const uint8_t *)memchr(text.bytes, '\n', text.length);
    return feed == NULL ? text.length : (size_t)(feed - text.bytes) + 1;
}

/* The text from a line on; lines are counted from 0. */
static Text from_line(Text text, size_t line) {
    for (; line > 0; line--) {
        text = from(text, line_length(text));
    }
    return text;
}

static Text line_of(Text text, size_t line) {
    Text rest = from_line(text, line);
    return first(rest, line_length(rest));
}

/* A file of the repository: a folder of it, a name there and the name's ending. */
static Text read_file(const char *root, const char *folder, const char *name, const char *ending) {
    char path[4096];
    int size = snprintf(path, sizeof path, "%s/%s/%s%s", root, folder, name, ending);
    FILE *file = size < 0 || (size_t)size >= sizeof path ? NULL : fopen(path, "rb");
    if (file == NULL || fseek(file, 0, SEEK_END) != 0) {
        fail(path, "not opened");
    }
    long length = ftell(file);
    if (length < 0 || fseek(file, 0, SEEK_SET) != 0) {
        fail(path, "not read");
    }
    Text text = buffer((size_t)length);
    if (fread(text.bytes, 1, text.length, file) != text.length) {
        fail(path, "not read");
    }
    fclose(file);
    return text;
}

/* What a function writes: it is asked for the size, and then given a buffer of that size. */
static Text written(Function function, Text input) {
    uint8_t none;
    Text out = buffer(function.into(input.bytes, input.length, &none, 0));
    if (function.into(input.bytes, input.length, out.bytes, out.length) != out.length) {
        fail(function.program, "two sizes of one text");
    }
    return out;
}

/* Room for any listing of an input: with so much of it the input is run once only. */
static size_t listing_room(Text input) {
    size_t feeds = 0;
    for (size_t i = 0; i < input.length; i++) {
        feeds += input.bytes[i] == '\n';
    }
    return XALEVINDA_LONGEST_RECORD * (feeds + 1);
}

/* Room for whatever a function writes of an input. */
static size_t room_of(Function function, Text input) {
    if (function.into == xalevinda_save) {
        return XALEVINDA_RECORDS_ROOM;
    }
    if (function.into == xalevinda_why) {
        return listing_room(input) / XALEVINDA_LONGEST_RECORD * XALEVINDA_LONGEST_REASONED;
    }
    return function.into == xalevinda_explain ? (size_t)XALEVINDA_LONGEST_EXPLANATION : listing_room(input);
}

/* A buffer of some length holds the whole text where it has room, and is else untouched. Nothing is written behind the text. */
static void check_buffer(Function function, const char *name, Text input, Text stored, size_t length) {
    Text out = buffer(length);
    if (function.into(input.bytes, input.length, out.bytes, length) != stored.length) {
        fail(name, "another size than what is stored");
    }
    size_t start = stored.length <= length ? stored.length : 0;
    if (memcmp(out.bytes, stored.bytes, start) != 0) {
        fail(name, "what is written differs from what is stored");
    }
    for (size_t i = start; i <= length; i++) {
        if (out.bytes[i] != FILL) {
            fail(name, "a byte behind the text was changed");
        }
    }
    free(out.bytes);
}

static void check_text(Function function, const char *name, Text input, Text stored) {
    check_buffer(function, name, input, stored, room_of(function, input));
    check_buffer(function, name, input, stored, stored.length);
    check_buffer(function, name, input, stored, stored.length - 1);
}

/* Where the text ends that is stored before the next name: at a line that is that name, or at the end. */
static size_t stored_length(Text rest, const char *next) {
    size_t length = 0;
    while (length < rest.length) {
        Text line = from(rest, length);
        if (*next != 0 && length > 0 && line_length(line) == strlen(next) + 1 && begins(line, next)) {
            return length;
        }
        length += line_length(line);
    }
    if (*next != 0) {
        fail(next, "nothing is stored");
    }
    return length;
}

/* A line without its line feed, as a string; the empty string where there is none. */
static void name_of(Text line, char *name, size_t room) {
    size_t length = line.length > 0 && line.bytes[line.length - 1] == '\n' ? line.length - 1 : line.length;
    if (length >= room) {
        fail("args", "a name is too long");
    }
    memcpy(name, line.bytes, length);
    name[length] = 0;
}

/* The inputs that a program is held to in the gate: `args` names them, `-` for `stdin`. `stdout` has each name and what is written. */
static void check_cases(const char *root, Function function) {
    char folder[64], data[80], name[256], next[256];
    snprintf(folder, sizeof folder, "crates/%s", function.program);
    snprintf(data, sizeof data, "%s/data", folder);
    Text args = read_file(root, folder, "args", ""), all = read_file(root, folder, "stdout", "");
    Text names = args, rest = all;
    size_t count = 0;
    for (; names.length > 0; names = from_line(names, 1), count++) {
        name_of(line_of(names, 0), name, sizeof name);
        name_of(line_of(names, 1), next, sizeof next);
        if (line_length(rest) != strlen(name) + 1 || !begins(rest, name)) {
            fail(name, "nothing is stored");
        }
        rest = from_line(rest, 1);
        size_t length = stored_length(rest, next);
        if (length == 0) {
            fail(name, "nothing is stored");
        }
        int standard = strcmp(name, "-") == 0;
        Text input = standard ? read_file(root, folder, "stdin", "") : read_file(root, data, name, "");
        check_text(function, name, input, first(rest, length));
        free(input.bytes);
        rest = from(rest, length);
    }
    if (count == 0 || rest.length > 0) {
        fail(folder, "not all that is stored was compared");
    }
    free(args.bytes);
    free(all.bytes);
    printf("%zu inputs of the program %s give what is stored\n", count, function.program);
}

/* A record of a listing. */
typedef struct {
    uint64_t line, answer, value, level;
} Record;

static Record record_of(Text listing, size_t line) {
    char text[XALEVINDA_LONGEST_RECORD + 1];
    Record record;
    name_of(line_of(listing, line), text, sizeof text);
    if (sscanf(text, "%" SCNu64 "\t%" SCNu64 "\t%" SCNu64 "\t%" SCNu64, &record.line, &record.answer, &record.value,
            &record.level) != 4) {
        fail(text, "no record of a listing");
    }
    return record;
}

/* The example, and two lines of it: a fetch that level 1 denies, and a read of the VP status. */
static const char *const EXAMPLE = "execute-by-mode";
enum { DENIED_FETCH = 10, STATUS_READ = 17 };

/* The sheet of that fetch ("Why was it denied?" of the README), and how the verdict on a right sheet begins. */
static const char *const SHEET = "1\t1\t9\t4\tplain\n";
static const char *const RIGHT = "0\t1\n";

/* The machine is saved before the denied fetch and resumed with the rest of the script: the answers are those that are stored for the
 * script in one. The records are line 0 of the second listing. */
static void pass_on(Text script, Text records, Text stored) {
    Text input = joined(records, from_line(script, DENIED_FETCH));
    Text listing = written(RESUME, input);
    Text before = from_line(stored, DENIED_FETCH), after = from_line(listing, 1);
    size_t line = 0;
    for (; before.length > 0 && after.length > 0; before = from_line(before, 1), after = from_line(after, 1), line++) {
        Record one = record_of(before, 0), two = record_of(after, 0);
        if (one.line != DENIED_FETCH + line || two.line != 1 + line || one.answer != two.answer || one.value != two.value
            || one.level != two.level) {
            fail(EXAMPLE, "resumed with other answers");
        }
    }
    if (before.length > 0 || after.length > 0 || record_of(listing, 0).answer != XALEVINDA_DONE) {
        fail(EXAMPLE, "resumed with another number of lines");
    }
    printf("%s: saved before line %d and resumed, the other %zu lines have the same answers\n", EXAMPLE, DENIED_FETCH, line);
    free(input.bytes);
    free(listing.bytes);
}

/* The sheet of the denied fetch names the level that the stored listing gives as the receiver, and, handed back, is right. */
static void explain(Text script, Text records, Text stored) {
    char receiver[32];
    Record record = record_of(stored, DENIED_FETCH);
    Text input = joined(records, line_of(script, DENIED_FETCH));
    Text sheet = written(EXPLAIN, input);
    Text handed_back = joined(input, sheet);
    Text verdict = written(EXPLAIN, handed_back);
    snprintf(receiver, sizeof receiver, "%" PRIu64 "\t", record.value);
    if (record.answer != XALEVINDA_INTERCEPT || !begins(sheet, receiver)) {
        fail(EXAMPLE, "another reason than that of the stored answer");
    }
    if (sheet.length != strlen(SHEET) || !begins(sheet, SHEET) || !begins(verdict, RIGHT)) {
        fail(EXAMPLE, "another sheet, or not the verdict that it is right");
    }
    printf("%s: line %d is denied, and the sheet is %.*s", EXAMPLE, DENIED_FETCH, (int)sheet.length, (const char *)sheet.bytes);
    free(input.bytes);
    free(sheet.bytes);
    free(handed_back.bytes);
    free(verdict.bytes);
}

/* The stored VP status has level 0 active with MBEC on, and levels 0 and 1 enabled. MBEC off is one field replaced, by its low bit. */
static void fields(Text stored) {
    enum { ACTIVE, MBEC, ENABLED, NO_FIELD };
    uint64_t word = record_of(stored, STATUS_READ).value;
    uint64_t off = xalevinda_with_field(XALEVINDA_VP_STATUS, MBEC, word, 2);
    if (xalevinda_field(XALEVINDA_VP_STATUS, ACTIVE, word) != 0 || xalevinda_field(XALEVINDA_VP_STATUS, MBEC, word) != 1
        || xalevinda_field(XALEVINDA_VP_STATUS, ENABLED, word) != 3 || xalevinda_field(XALEVINDA_VP_STATUS, NO_FIELD, word) != 0) {
        fail(EXAMPLE, "other fields of the VP status");
    }
    if (xalevinda_field(XALEVINDA_VP_STATUS, MBEC, off) != 0 || xalevinda_field(XALEVINDA_VP_STATUS, ENABLED, off) != 3
        || xalevinda_with_field(XALEVINDA_VP_STATUS, MBEC, off, 1) != word
        || xalevinda_with_field(XALEVINDA_VP_STATUS, NO_FIELD, word, 1) != word) {
        fail(EXAMPLE, "a field replaced by something else");
    }
    printf("%s: VP status %" PRIu64 " has MBEC on; with MBEC off it is %" PRIu64 "\n", EXAMPLE, word, off);
}

static void check_example(const char *root) {
    Text script = read_file(root, "examples", EXAMPLE, "-script.tsv");
    Text stored = read_file(root, "examples", EXAMPLE, "-listing.tsv");
    Text listing = written(LISTING, script);
    if (!same(listing, stored)) {
        fail(EXAMPLE, "another listing than the stored one");
    }
    printf("%s: the listing is the stored one\n", EXAMPLE);
    Text records = written(SAVE, first(script, (size_t)(from_line(script, DENIED_FETCH).bytes - script.bytes)));
    pass_on(script, records, stored);
    explain(script, records, stored);
    fields(stored);
    free(script.bytes);
    free(stored.bytes);
    free(listing.bytes);
    free(records.bytes);
}

int main(int count, char **arguments) {
    if (count != 2) {
        fail("usage", "xalevinda REPOSITORY");
    }
    check_example(arguments[1]);
    check_cases(arguments[1], LISTING);
    check_cases(arguments[1], SAVE);
    check_cases(arguments[1], RESUME);
    check_cases(arguments[1], EXPLAIN);
    check_cases(arguments[1], WHY);
    return 0;
}
