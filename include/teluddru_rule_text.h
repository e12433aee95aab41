/*
 * The part of teluddru_tables.h that reads rule text and JSON. Rule text is LEFT = RIGHT, LEFT := RIGHT,
 * some VALUE in XS, some KEY, VALUE in XS, or one expression:
 *
 *     name  _  12  -3  "text"  `raw text`  true  false  null  [a, b]  {a, b}  set()  {"k": v}  {}
 *
 * Numbers are whole; strings have JSON's escapes, and other bytes of theirs are taken as they stand. All other
 * expressions of Rego (calls, references, operators, comprehensions, what stands in parentheses) are taken whole, as one
 * node: text in their brackets need only be balanced. Line ends are blanks, and # starts a comment, up to the line's
 * end. So JSON is an expression, if its numbers are whole.
 *
 * The text goes behind that of the tables, and behind a line feed if there is any. If it can't be read, the tables stay
 * as they were.
 */
#ifndef TELUDDRU_RULE_TEXT_H
#define TELUDDRU_RULE_TEXT_H

#include "teluddru_tables.h"

/* What was read: operation and roots; or zeros, with the place in the text, in bytes from 0, and why. */
struct teluddru_reading {
    uint32_t operation;
    uint32_t first, second, key;
    size_t place;
    const char *why; /* null where the text was read */
};

static inline struct teluddru_reading teluddru_read_rule(struct teluddru_tables *t, const char *text, size_t length);
/* One expression alone, as a value is: its node is `first`. */
static inline struct teluddru_reading teluddru_read_value(struct teluddru_tables *t, const char *text, size_t length);

/* Tokens. */

enum teluddru_token_kind {
    TELUDDRU_TOKEN_END,
    TELUDDRU_TOKEN_NAME,
    TELUDDRU_TOKEN_NUMBER,
    TELUDDRU_TOKEN_STRING,
    TELUDDRU_TOKEN_RAW_STRING,
    TELUDDRU_TOKEN_SYMBOL
};

/* A token and its bytes in the text. One that is wrong is a symbol without an end: 0. */
struct teluddru_token {
    enum teluddru_token_kind kind;
    size_t start, end;
};

/* The byte at a place of the text; -1 behind the last. */
static inline int teluddru_byte(const struct teluddru_tables *t, size_t place) {
    return place < t->used.text ? t->text[place] : -1;
}

static inline int teluddru_is_one_of(int byte, const char *bytes) {
    return byte > 0 && strchr(bytes, byte) != NULL;
}

static inline int teluddru_is_digit(int byte) {
    return byte >= '0' && byte <= '9';
}

static inline int teluddru_is_letter(int byte) {
    return (byte >= 'a' && byte <= 'z') || (byte >= 'A' && byte <= 'Z') || byte == '_';
}

static inline size_t teluddru_after_digits(const struct teluddru_tables *t, size_t place) {
    while (teluddru_is_digit(teluddru_byte(t, place))) {
        place++;
    }
    return place;
}

static inline size_t teluddru_after_word(const struct teluddru_tables *t, size_t place) {
    while (teluddru_is_letter(teluddru_byte(t, place)) || teluddru_is_digit(teluddru_byte(t, place))) {
        place++;
    }
    return place;
}

/* A point and an exponent belong to a number where a digit follows them. */
static inline size_t teluddru_after_number(const struct teluddru_tables *t, size_t place) {
    size_t end = teluddru_after_digits(t, place), digits;
    if (teluddru_byte(t, end) == '.' && teluddru_is_digit(teluddru_byte(t, end + 1))) {
        end = teluddru_after_digits(t, end + 1);
    }
    if (teluddru_is_one_of(teluddru_byte(t, end), "eE")) {
        digits = end + 1 + (size_t)teluddru_is_one_of(teluddru_byte(t, end + 1), "-+");
        if (teluddru_is_digit(teluddru_byte(t, digits))) {
            end = teluddru_after_digits(t, digits);
        }
    }
    return end;
}

/* Behind the quote that closes a string, or 0. */
static inline size_t teluddru_after_string(const struct teluddru_tables *t, size_t place) {
    int quote = teluddru_byte(t, place);
    for (place++; place < t->used.text; place++) {
        if (t->text[place] == quote) {
            return place + 1;
        }
        place += quote == '"' && t->text[place] == '\\';
    }
    return 0;
}

static inline size_t teluddru_after_symbol(const struct teluddru_tables *t, size_t place) {
    int byte = teluddru_byte(t, place);
    if (teluddru_is_one_of(byte, ":=!<>") && teluddru_byte(t, place + 1) == '=') {
        return place + 2;
    }
    return teluddru_is_one_of(byte, "-+*/%&|<>=:;,.()[]{}") ? place + 1 : 0;
}

/* Behind blanks and comments. */
static inline size_t teluddru_after_blanks(const struct teluddru_tables *t, size_t place) {
    int in_comment = 0;
    for (; place < t->used.text; place++) {
        in_comment = t->text[place] == '#' || (in_comment && t->text[place] != '\n');
        if (!in_comment && !teluddru_is_one_of(t->text[place], " \t\r\n")) {
            return place;
        }
    }
    return place;
}

/* The first token behind a place. */
static inline struct teluddru_token teluddru_token_after(const struct teluddru_tables *t, size_t place) {
    struct teluddru_token token;
    int byte;
    token.start = teluddru_after_blanks(t, place);
    byte = teluddru_byte(t, token.start);
    if (byte < 0) {
        token.kind = TELUDDRU_TOKEN_END;
        token.end = token.start;
    } else if (teluddru_is_letter(byte)) {
        token.kind = TELUDDRU_TOKEN_NAME;
        token.end = teluddru_after_word(t, token.start);
    } else if (teluddru_is_digit(byte)) {
        token.kind = TELUDDRU_TOKEN_NUMBER;
        token.end = teluddru_after_number(t, token.start);
    } else if (teluddru_is_one_of(byte, "\"`")) {
        token.kind = byte == '"' ? TELUDDRU_TOKEN_STRING : TELUDDRU_TOKEN_RAW_STRING;
        token.end = teluddru_after_string(t, token.start);
    } else {
        token.kind = TELUDDRU_TOKEN_SYMBOL;
        token.end = teluddru_after_symbol(t, token.start);
    }
    return token;
}

/*
 * The reader. Where a leaf can't be put, it goes on, since an expression that is taken whole needs none of its leaves;
 * what was wrong is then forgotten. Where the text itself is wrong, it stops: there are no more tokens.
 */
struct teluddru_reader {
    struct teluddru_tables *t;
    struct teluddru_token next;
    size_t behind;   /* where the token before the next one ends */
    size_t place;    /* of the first that is wrong */
    const char *why; /* null as long as nothing is */
    int stopped;
    int depth;
    uint32_t items[TELUDDRU_MOST_CHILDREN]; /* of the lists that are being read */
    size_t items_length;
};

/* More levels than the calls take, so that it is they who say so. */
#define TELUDDRU_MOST_READ_DEPTH (2 * TELUDDRU_MOST_DEPTH)

static inline void teluddru_note(struct teluddru_reader *r, size_t place, const char *why) {
    if (r->why == NULL) {
        r->place = place;
        r->why = why;
    }
}

static inline void teluddru_stop(struct teluddru_reader *r, size_t place, const char *why) {
    if (!r->stopped) {
        r->stopped = 1;
        r->place = place;
        r->why = why;
        r->next.kind = TELUDDRU_TOKEN_END;
        r->next.start = r->next.end = r->t->used.text;
    }
}

/* Goes to the token behind a place. */
static inline void teluddru_go_to(struct teluddru_reader *r, size_t place) {
    r->next = teluddru_token_after(r->t, place);
    if (r->next.end == 0 && r->next.kind != TELUDDRU_TOKEN_END) {
        int quote = r->next.kind != TELUDDRU_TOKEN_SYMBOL;
        teluddru_stop(r, r->next.start, quote ? "this string has no end" : "no token starts here");
    }
}

static inline void teluddru_advance(struct teluddru_reader *r) {
    r->behind = r->next.end;
    teluddru_go_to(r, r->next.end);
}

static inline int teluddru_at(const struct teluddru_reader *r, const char *token) {
    size_t length = r->next.end - r->next.start;
    return length == strlen(token) && memcmp(r->t->text + r->next.start, token, length) == 0;
}

/* At one of these tokens, which end with null. */
static inline int teluddru_at_one_of(const struct teluddru_reader *r, const char *const *tokens) {
    for (; *tokens != NULL; tokens++) {
        if (teluddru_at(r, *tokens)) {
            return 1;
        }
    }
    return 0;
}

static inline int teluddru_skip(struct teluddru_reader *r, const char *token) {
    int found = teluddru_at(r, token);
    if (found) {
        teluddru_advance(r);
    }
    return found;
}

/* A node that was put for the text from `start` to the last token, or 0 where there was no space for it. */
static inline uint32_t teluddru_read_node(struct teluddru_reader *r, uint32_t node, size_t start) {
    if (node == 0) {
        teluddru_note(r, start, "the tables have no space for this");
    }
    return teluddru_written(r->t, node, start, r->behind);
}

/* Literals. */

static inline void teluddru_read_byte(struct teluddru_reader *r, size_t place, uint32_t byte) {
    struct teluddru_tables *t = r->t;
    if (t->used.strings == sizeof t->strings) {
        teluddru_note(r, place, "the tables have no space for this string");
        return;
    }
    t->strings[t->used.strings++] = (uint8_t)byte;
}

/* A character's bytes in UTF-8. */
static inline void teluddru_read_character(struct teluddru_reader *r, size_t place, uint32_t code) {
    uint32_t more = code < 0x80 ? 0 : code < 0x800 ? 1 : code < 0x10000 ? 2 : 3;
    static const uint32_t firsts[] = {0, 0xC0, 0xE0, 0xF0};
    teluddru_read_byte(r, place, firsts[more] | (code >> (6 * more)));
    while (more-- > 0) {
        teluddru_read_byte(r, place, 0x80 | ((code >> (6 * more)) & 0x3F));
    }
}

/* The number of four hexadecimal digits; no character's where they are none. */
static inline uint32_t teluddru_hexadecimal(const struct teluddru_tables *t, size_t place) {
    static const char digits[] = "0123456789abcdef0123456789ABCDEF";
    uint32_t code = 0;
    size_t end = place + 4;
    for (; place < end; place++) {
        int byte = teluddru_byte(t, place);
        if (!teluddru_is_one_of(byte, digits)) {
            return UINT32_MAX;
        }
        code = (code << 4) | ((uint32_t)(strchr(digits, byte) - digits) & 15);
    }
    return code;
}

/* An escape by four digits, or two of them for a character above 65535. Returns the place behind. */
static inline size_t teluddru_read_code(struct teluddru_reader *r, size_t place) {
    const struct teluddru_tables *t = r->t;
    uint32_t code = teluddru_hexadecimal(t, place + 2), low;
    size_t behind = place + 6;
    if (code >= 0xD800 && code < 0xDC00 && teluddru_byte(t, behind) == '\\' && teluddru_byte(t, behind + 1) == 'u') {
        low = teluddru_hexadecimal(t, behind + 2);
        if (low >= 0xDC00 && low < 0xE000) {
            code = 0x10000 + ((code - 0xD800) << 10) + (low - 0xDC00);
            behind += 6;
        }
    }
    if (code > 0x10FFFF || (code >= 0xD800 && code < 0xE000)) {
        teluddru_note(r, place, "\\u asks for four hexadecimal digits, and half of a pair for the other half");
        return behind;
    }
    teluddru_read_character(r, place, code);
    return behind;
}

/* A character of a string, as it stands or by an escape. Returns the place behind. */
static inline size_t teluddru_read_in_string(struct teluddru_reader *r, size_t place) {
    static const char escapes[] = "\"\\/bfnrt", bytes[] = "\"\\/\b\f\n\r\t";
    uint8_t byte = r->t->text[place], escape;
    if (byte < 32) {
        teluddru_note(r, place, "a control character: a string has it as an escape");
    }
    if (byte != '\\') {
        teluddru_read_byte(r, place, byte);
        return place + 1;
    }
    escape = r->t->text[place + 1];
    if (escape == 'u') {
        return teluddru_read_code(r, place);
    }
    if (!teluddru_is_one_of(escape, escapes)) {
        teluddru_note(r, place, "no such escape");
        return place + 2;
    }
    teluddru_read_byte(r, place, (uint8_t)bytes[strchr(escapes, escape) - escapes]);
    return place + 2;
}

static inline uint32_t teluddru_read_string(struct teluddru_reader *r) {
    size_t start = r->next.start, place = start + 1, first = r->t->used.strings;
    uint32_t node;
    while (place < r->next.end - 1) {
        place = teluddru_read_in_string(r, place);
    }
    teluddru_advance(r);
    node = teluddru_put_node(r->t, TELUDDRU_NODE_STRING, first, r->t->used.strings - first);
    return teluddru_read_node(r, node, start);
}

static inline uint32_t teluddru_read_raw_string(struct teluddru_reader *r) {
    size_t start = r->next.start, length = r->next.end - start - 2;
    teluddru_advance(r);
    return teluddru_read_node(r, teluddru_put_node(r->t, TELUDDRU_NODE_RAW_STRING, start + 1, length), start);
}

/* The size that the digits of a number say. */
static inline uint64_t teluddru_read_size(struct teluddru_reader *r) {
    const uint8_t *text = r->t->text;
    size_t place = r->next.start;
    uint64_t size = 0;
    if (teluddru_after_digits(r->t, place) != r->next.end) {
        teluddru_note(r, place, "numbers are whole, without point and exponent");
        return 0;
    }
    if (text[place] == '0' && r->next.end > place + 1) {
        teluddru_note(r, place, "a number has no leading zeros");
    }
    for (; place < r->next.end; place++) {
        uint64_t digit = (uint64_t)(text[place] - '0');
        if (size > (UINT64_MAX - digit) / 10) {
            teluddru_note(r, r->next.start, "numbers go from -9223372036854775808 to 18446744073709551615");
            return 0;
        }
        size = size * 10 + digit;
    }
    return size;
}

static inline uint32_t teluddru_read_number(struct teluddru_reader *r) {
    size_t start = r->next.start;
    int below_zero = teluddru_skip(r, "-");
    uint64_t size = teluddru_read_size(r);
    if (below_zero && size == 0) {
        teluddru_note(r, start, "there is no minus zero: write 0");
    }
    if (below_zero && size > (uint64_t)1 << 63) {
        teluddru_note(r, start, "numbers go from -9223372036854775808 to 18446744073709551615");
    }
    teluddru_advance(r);
    return teluddru_read_node(r, teluddru_put_number(r->t, below_zero, size), start);
}

/* true, false or null. */
static inline uint32_t teluddru_read_word(struct teluddru_reader *r) {
    size_t start = r->next.start;
    int is_null = teluddru_at(r, "null"), value = teluddru_at(r, "true");
    teluddru_advance(r);
    return teluddru_read_node(r, is_null ? teluddru_put_null(r->t) : teluddru_put_bool(r->t, value), start);
}

static inline uint32_t teluddru_read_literal(struct teluddru_reader *r) {
    switch (r->next.kind) {
    case TELUDDRU_TOKEN_STRING:
        return teluddru_read_string(r);
    case TELUDDRU_TOKEN_RAW_STRING:
        return teluddru_read_raw_string(r);
    case TELUDDRU_TOKEN_NAME:
        return teluddru_read_word(r);
    default:
        return teluddru_read_number(r);
    }
}

static inline int teluddru_at_literal(const struct teluddru_reader *r) {
    static const char *const words[] = {"true", "false", "null", NULL};
    struct teluddru_token second;
    if (teluddru_at(r, "-")) {
        second = teluddru_token_after(r->t, r->next.end);
        return second.kind == TELUDDRU_TOKEN_NUMBER && second.start == r->next.end;
    }
    return teluddru_at_one_of(r, words) || r->next.kind == TELUDDRU_TOKEN_NUMBER ||
           r->next.kind == TELUDDRU_TOKEN_STRING || r->next.kind == TELUDDRU_TOKEN_RAW_STRING;
}

/* Expressions. */

static inline uint32_t teluddru_read_expression(struct teluddru_reader *r, const char *stop);
static inline uint32_t teluddru_read_operand(struct teluddru_reader *r);

/* What stood before an expression, to go back to. */
struct teluddru_before {
    struct teluddru_token next;
    struct teluddru_lengths used;
    size_t items_length, place;
    const char *why;
};

static inline struct teluddru_before teluddru_before_this(const struct teluddru_reader *r) {
    struct teluddru_before before;
    before.next = r->next;
    before.used = r->t->used;
    before.items_length = r->items_length;
    before.place = r->place;
    before.why = r->why;
    return before;
}

/* Takes an expression whole: one node stands for all that was read of it. */
static inline uint32_t teluddru_take_whole(struct teluddru_reader *r, const struct teluddru_before *before) {
    r->t->used = before->used;
    r->items_length = before->items_length;
    if (!r->stopped) {
        r->place = before->place;
        r->why = before->why;
    }
    return teluddru_read_node(r, teluddru_put_other(r->t), before->next.start);
}

/* Goes over a bracket and all up to the one that closes it. */
static inline void teluddru_skip_brackets(struct teluddru_reader *r) {
    static const char *const openings[] = {"(", "[", "{", NULL}, *const closings[] = {")", "]", "}", NULL};
    size_t start = r->next.start;
    const char *closing = teluddru_at(r, "(") ? ")" : teluddru_at(r, "[") ? "]" : "}";
    if (r->depth++ == TELUDDRU_MOST_READ_DEPTH) {
        teluddru_stop(r, start, "more levels than are read");
    }
    teluddru_advance(r);
    while (!teluddru_at(r, closing)) {
        if (r->next.kind == TELUDDRU_TOKEN_END || teluddru_at_one_of(r, closings)) {
            teluddru_stop(r, start, "this bracket is not closed");
            return;
        }
        if (teluddru_at_one_of(r, openings)) {
            teluddru_skip_brackets(r);
        } else {
            teluddru_advance(r);
        }
    }
    teluddru_advance(r);
    r->depth--;
}

/* From the opening bracket, or where an array or braces turned out to be a comprehension. */
static inline uint32_t teluddru_read_brackets(struct teluddru_reader *r, const struct teluddru_before *before) {
    r->next = before->next;
    teluddru_skip_brackets(r);
    return teluddru_take_whole(r, before);
}

static inline void teluddru_read_item(struct teluddru_reader *r, const char *stop) {
    size_t start = r->next.start;
    uint32_t node = teluddru_read_expression(r, stop);
    if (r->items_length == TELUDDRU_LENGTH(r->items)) {
        teluddru_note(r, start, "the tables have no space for this");
        return;
    }
    r->items[r->items_length++] = node;
}

static inline void teluddru_read_field(struct teluddru_reader *r) {
    teluddru_read_item(r, "");
    if (!teluddru_skip(r, ":")) {
        teluddru_stop(r, r->next.start, "`:` has to stand here");
    }
    teluddru_read_item(r, "");
}

/* The items of an array, a set or an object behind the first, and the bracket that closes it. */
static inline uint32_t teluddru_read_list(struct teluddru_reader *r, uint32_t kind,
                                          const struct teluddru_before *before) {
    const char *closing = kind == TELUDDRU_NODE_ARRAY ? "]" : "}";
    const uint32_t *items = r->items + before->items_length;
    uint32_t node;
    while (teluddru_skip(r, ",") && !teluddru_at(r, closing)) {
        if (kind == TELUDDRU_NODE_OBJECT) {
            teluddru_read_field(r);
        } else {
            teluddru_read_item(r, "");
        }
    }
    if (!teluddru_skip(r, closing)) {
        int is_array = kind == TELUDDRU_NODE_ARRAY;
        teluddru_stop(r, r->next.start, is_array ? "`,` or `]` has to stand here" : "`,` or `}` has to stand here");
    }
    node = teluddru_put_list(r->t, kind, items, r->items_length - before->items_length);
    r->items_length = before->items_length;
    return teluddru_read_node(r, node, before->next.start);
}

/* An array or a comprehension. */
static inline uint32_t teluddru_read_array(struct teluddru_reader *r, const struct teluddru_before *before) {
    teluddru_advance(r);
    if (teluddru_at(r, "]")) {
        return teluddru_read_list(r, TELUDDRU_NODE_ARRAY, before);
    }
    teluddru_read_item(r, "|");
    return teluddru_at(r, "|") ? teluddru_read_brackets(r, before) : teluddru_read_list(r, TELUDDRU_NODE_ARRAY, before);
}

/* An object, a set or a comprehension. */
static inline uint32_t teluddru_read_braces(struct teluddru_reader *r, const struct teluddru_before *before) {
    uint32_t kind = TELUDDRU_NODE_OBJECT;
    teluddru_advance(r);
    if (teluddru_at(r, "}")) {
        return teluddru_read_list(r, kind, before);
    }
    teluddru_read_item(r, "|");
    if (teluddru_skip(r, ":")) {
        teluddru_read_item(r, "|");
    } else {
        kind = TELUDDRU_NODE_SET;
    }
    return teluddru_at(r, "|") ? teluddru_read_brackets(r, before) : teluddru_read_list(r, kind, before);
}

static inline uint32_t teluddru_read_name(struct teluddru_reader *r) {
    static const char *const reserved[] = {"as",  "default", "else", "import", "in",
                                           "not", "package", "some", "with",   NULL};
    size_t start = r->next.start, length = r->next.end - start;
    uint32_t number;
    if (r->next.kind != TELUDDRU_TOKEN_NAME || teluddru_at_one_of(r, reserved)) {
        int is_name = r->next.kind == TELUDDRU_TOKEN_NAME;
        teluddru_stop(r, start, is_name ? "a reserved word is no name" : "an expression has to stand here");
        return 0;
    }
    teluddru_advance(r);
    if (length > TELUDDRU_MOST_NAME_BYTES) {
        teluddru_note(r, start, "a name has at most 255 bytes");
    }
    number = teluddru_name_at(r->t, start, length);
    return teluddru_read_node(r, number > 0 ? teluddru_put_node(r->t, TELUDDRU_NODE_NAME, number, 0) : 0, start);
}

/* At `set()`. */
static inline int teluddru_at_empty_set(const struct teluddru_reader *r) {
    const struct teluddru_tables *t = r->t;
    struct teluddru_token opening = teluddru_token_after(t, r->next.end);
    struct teluddru_token closing = teluddru_token_after(t, opening.end);
    return teluddru_at(r, "set") && teluddru_byte(t, opening.start) == '(' && teluddru_byte(t, closing.start) == ')';
}

/* What is no literal, without references behind it. */
static inline uint32_t teluddru_read_term(struct teluddru_reader *r, const struct teluddru_before *before) {
    if (teluddru_at(r, "[")) {
        return teluddru_read_array(r, before);
    }
    if (teluddru_at(r, "{")) {
        return teluddru_read_braces(r, before);
    }
    if (teluddru_at(r, "(")) {
        return teluddru_read_brackets(r, before);
    }
    if (teluddru_skip(r, "-")) {
        teluddru_read_operand(r);
        return teluddru_take_whole(r, before);
    }
    if (teluddru_at_empty_set(r)) {
        teluddru_advance(r);
        teluddru_skip_brackets(r);
        return teluddru_read_node(r, teluddru_put_list(r->t, TELUDDRU_NODE_SET, NULL, 0), before->next.start);
    }
    return teluddru_read_name(r);
}

/* At a call, a bracket or a field, written without a blank. */
static inline int teluddru_at_reference(const struct teluddru_reader *r) {
    static const char *const signs[] = {"(", "[", ".", NULL};
    return r->behind == r->next.start && teluddru_at_one_of(r, signs);
}

static inline void teluddru_skip_reference(struct teluddru_reader *r) {
    if (!teluddru_skip(r, ".")) {
        teluddru_skip_brackets(r);
    } else if (r->next.kind == TELUDDRU_TOKEN_NAME) {
        teluddru_advance(r);
    } else {
        teluddru_stop(r, r->next.start, "a field's name has to stand here");
    }
}

static inline uint32_t teluddru_read_operand(struct teluddru_reader *r) {
    struct teluddru_before before = teluddru_before_this(r);
    uint32_t node;
    if (r->depth++ == TELUDDRU_MOST_READ_DEPTH) {
        teluddru_stop(r, r->next.start, "more levels than are read");
    }
    if (teluddru_at_literal(r)) {
        node = teluddru_read_literal(r);
    } else {
        node = teluddru_read_term(r, &before);
        while (teluddru_at_reference(r)) {
            teluddru_skip_reference(r);
            node = teluddru_take_whole(r, &before);
        }
    }
    r->depth--;
    return node;
}

/* At an operator other than this one. */
static inline int teluddru_at_operator(const struct teluddru_reader *r, const char *stop) {
    static const char *const signs[] = {"+",  "-", "*",  "/", "%",  "&",  "|", "==",
                                        "!=", "<", "<=", ">", ">=", "in", NULL};
    return teluddru_at_one_of(r, signs) && !teluddru_at(r, stop);
}

/* Operands and the operators between them. */
static inline uint32_t teluddru_read_expression(struct teluddru_reader *r, const char *stop) {
    struct teluddru_before before = teluddru_before_this(r);
    uint32_t node = teluddru_read_operand(r);
    while (teluddru_at_operator(r, stop)) {
        teluddru_advance(r);
        teluddru_read_operand(r);
        node = teluddru_take_whole(r, &before);
    }
    return node;
}

/* Rules. */

/* Appends the text to that of the tables, and returns where it starts. */
static inline size_t teluddru_begin(struct teluddru_reader *r, struct teluddru_tables *t,
                                    const char *text, size_t length) {
    size_t start = t->used.text + (t->used.text > 0);
    memset(r, 0, sizeof *r);
    r->t = t;
    if (start > sizeof t->text || length > sizeof t->text - start) {
        teluddru_stop(r, start, "the tables have no space for the text");
        return start;
    }
    if (start > 0) {
        t->text[start - 1] = '\n';
    }
    teluddru_copy(t->text + start, text, length);
    t->used.text = start + length;
    teluddru_go_to(r, start);
    return start;
}

/* What was read, if it was the whole text; else the tables go back. */
static inline void teluddru_end(struct teluddru_reader *r, struct teluddru_reading *reading, size_t start,
                                const struct teluddru_lengths *used) {
    if (r->next.kind != TELUDDRU_TOKEN_END) {
        teluddru_stop(r, r->next.start, "the end of the text has to stand here");
    }
    if (r->why != NULL) {
        memset(reading, 0, sizeof *reading);
        reading->place = r->place - start;
        reading->why = r->why;
        r->t->used = *used;
    }
}

/* Behind `some`. */
static inline void teluddru_read_some_in(struct teluddru_reader *r, struct teluddru_reading *reading) {
    reading->operation = TELUDDRU_SOME_IN;
    reading->first = teluddru_read_expression(r, "in");
    if (teluddru_skip(r, ",")) {
        reading->key = reading->first;
        reading->first = teluddru_read_expression(r, "in");
    }
    if (!teluddru_skip(r, "in")) {
        teluddru_stop(r, r->next.start, "`in` has to stand here");
    }
    reading->second = teluddru_read_expression(r, "");
}

static inline struct teluddru_reading teluddru_read_rule(struct teluddru_tables *t, const char *text, size_t length) {
    struct teluddru_lengths used = t->used;
    struct teluddru_reading reading = {TELUDDRU_PATTERN, 0, 0, 0, 0, NULL};
    struct teluddru_reader r;
    size_t start = teluddru_begin(&r, t, text, length);
    if (teluddru_skip(&r, "some")) {
        teluddru_read_some_in(&r, &reading);
    } else {
        reading.first = teluddru_read_expression(&r, "");
        if (teluddru_at(&r, "=") || teluddru_at(&r, ":=")) {
            reading.operation = teluddru_at(&r, "=") ? TELUDDRU_EQUALS : TELUDDRU_COLON_EQUALS;
            teluddru_advance(&r);
            reading.second = teluddru_read_expression(&r, "");
        }
    }
    teluddru_end(&r, &reading, start, &used);
    return reading;
}

static inline struct teluddru_reading teluddru_read_value(struct teluddru_tables *t, const char *text, size_t length) {
    struct teluddru_lengths used = t->used;
    struct teluddru_reading reading = {TELUDDRU_PATTERN, 0, 0, 0, 0, NULL};
    struct teluddru_reader r;
    size_t start = teluddru_begin(&r, t, text, length);
    reading.first = teluddru_read_expression(&r, "");
    teluddru_end(&r, &reading, start, &used);
    return reading;
}

#endif
