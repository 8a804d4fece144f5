/* Sycamoot: a reader for TriG and Turtle (RDF 1.1) that is proved to give the answers below, on every input.
 *
 * All memory is lent by the caller. No pointer may be null: an empty slice has any aligned pointer and the length 0. A slice
 * that a call writes must overlap no other of that call. Nothing is kept between calls, so any number of threads may call. */
#ifndef SYCAMOOT_H
#define SYCAMOOT_H

#include <stddef.h>
#include <stdint.h>

#ifdef __cplusplus
extern "C" {
#endif

/* The answers, with the position that each speaks of. */
enum sycamoot_number {
    SYCAMOOT_ACCEPTED = 0,          /* all was read, or written: the document's length, or the length written */
    SYCAMOOT_DOCUMENT_LENGTH = 1,   /* the document has over 1,048,576 bytes: 0 */
    SYCAMOOT_MODE = 2,              /* the mode is neither 0 nor 1: 0 */
    SYCAMOOT_BASE = 3,              /* the base is not empty, and no IRI of at most 1,024 bytes with a scheme: 0 */
    SYCAMOOT_WORK = 4,              /* the work slice has under 35,840 bytes: 0 */
    SYCAMOOT_UTF8 = 5,              /* bad UTF-8: its first byte */
    SYCAMOOT_TOKEN = 6,             /* no token can be read: where it would begin */
    SYCAMOOT_ESCAPE = 7,            /* a numeric escape names no character: the token */
    SYCAMOOT_GRAMMAR = 8,           /* no document goes on like this: the token, or the document's length */
    SYCAMOOT_PREFIX = 9,            /* a prefix that is not declared before: the token */
    SYCAMOOT_NO_BASE = 10,          /* a relative reference, and no base in force: the token */
    SYCAMOOT_IRI_LENGTH = 11,       /* an IRI over 1,024 bytes, or a declared prefix over 64: the token */
    SYCAMOOT_PREFIXES = 12,         /* a 33rd distinct prefix: its IRIREF */
    SYCAMOOT_DEPTH = 13,            /* a 65th [ or ( open at once: the token */
    SYCAMOOT_ROWS = 14,             /* too few rows for what this token writes: the token */
    SYCAMOOT_TERMS = 15,            /* too few terms for what this token writes: the token */
    SYCAMOOT_STORE = 16,            /* too small a store for what this token writes: the token */
    SYCAMOOT_OUTPUT = 17,           /* the long form does not fit its buffer: 0 */
    SYCAMOOT_TABLES = 18,           /* the tables, or a term's number, are not usable: 0 */
    SYCAMOOT_INDEX_OUTPUT = 22,     /* the index of subjects does not fit its output: 0 */
    SYCAMOOT_INDEX = 23,            /* a record up to the stopping one has no mark, is cut short, over 1,024 bytes or does not rise: none */
    SYCAMOOT_PAIRING = 25,          /* the pairing has an odd word, or a blank number that is not in its table or is paired twice: none */
    SYCAMOOT_LIST = 26              /* a list is too small for the statements of its side: none */
};

/* The languages. */
enum sycamoot_mode { SYCAMOOT_TRIG = 0, SYCAMOOT_TURTLE = 1 };

/* The kinds of a term: the first of its five words. */
enum sycamoot_kind { SYCAMOOT_IRI = 1, SYCAMOOT_BLANK = 2, SYCAMOOT_LITERAL = 3, SYCAMOOT_TAGGED = 4 };

/* Sizes. */
#define SYCAMOOT_DOCUMENT_BYTES 1048576 /* the longest document */
#define SYCAMOOT_WORK_BYTES 35840       /* the shortest work slice; more is used as an index of the terms, */
#define SYCAMOOT_INDEX_BYTES 12         /* of which each takes so many bytes */
#define SYCAMOOT_ROW_WORDS 5            /* graph, subject, predicate, object, position of the object's first byte */
#define SYCAMOOT_TERM_WORDS 5           /* kind, start, length, and by its kind: 0, 0; blank number, 0; datatype, 0; tag's start, length */
#define SYCAMOOT_COMPARE_WORDS 4        /* the words of a comparison's index for a row or a pair: two, and as many for its buckets */
#define SYCAMOOT_IRI_BYTES 1024
#define SYCAMOOT_PREFIX_BYTES 64
#define SYCAMOOT_PREFIX_COUNT 32
#define SYCAMOOT_DEPTH_LEVELS 64

typedef struct {
    uint64_t position;
    uint32_t number; /* enum sycamoot_number */
    uint32_t rows;   /* how many rows, terms and store bytes there are; 0 after a refusal */
    uint32_t terms;
    uint32_t store;
} sycamoot_answer;

typedef struct {
    uint64_t start; /* the text is length bytes of the store from start on */
    uint64_t length;
    uint32_t number; /* SYCAMOOT_ACCEPTED or SYCAMOOT_TABLES */
} sycamoot_text;

typedef struct {
    uint64_t position;
    uint32_t number; /* SYCAMOOT_ACCEPTED, SYCAMOOT_TABLES, and of the long form SYCAMOOT_OUTPUT, of the index SYCAMOOT_INDEX_OUTPUT */
} sycamoot_written;

typedef struct {
    uint32_t number; /* SYCAMOOT_ACCEPTED or SYCAMOOT_TABLES */
    uint32_t yes;    /* 1 where the bytes are the index, else 0 */
} sycamoot_checked;

typedef struct {
    uint32_t number; /* SYCAMOOT_ACCEPTED or SYCAMOOT_INDEX */
    uint32_t rows;   /* how many rows the subject has, */
    uint32_t first;  /* and the number of the first, from 0; both 0 for a subject that is not there, and after a refusal */
} sycamoot_found;

typedef struct {
    uint32_t number; /* SYCAMOOT_ACCEPTED, SYCAMOOT_TABLES, SYCAMOOT_PAIRING or SYCAMOOT_LIST */
    uint32_t same;   /* 1 where both lists are empty, so that the editions hold the same statements; else 0 */
    uint32_t left;   /* how many statements are only in the left, */
    uint32_t right;  /* and only in the right; all three are 0 after a refusal */
} sycamoot_compared;

/* Reads a document. 1 to 4 leave all memory as it was. 5 to 16 leave zeros in all four slices. After 0 the rows, terms and
 * bytes that are counted stand in front, what lies past them is as it was, and the work slice is zeros. */
sycamoot_answer sycamoot_read(const uint8_t *document, size_t document_length, const uint8_t *base, size_t base_length,
                              uint32_t mode, uint8_t *work, size_t work_length, uint32_t *rows, size_t row_words,
                              uint32_t *terms, size_t term_words, uint8_t *store, size_t store_length);

/* Where the text of a term lies: an IRI, a blank node's label or a literal's string. Any number and any tables may be given. */
sycamoot_text sycamoot_term_text(const uint32_t *terms, size_t term_words, uint32_t term_count, const uint8_t *store,
                                 size_t store_length, uint32_t store_count, uint32_t term);

/* Writes the statements of the tables, one a line, over the front of out. 17 and 18 leave it as it was. */
sycamoot_written sycamoot_write(const uint32_t *rows, size_t row_words, uint32_t row_count, const uint32_t *terms,
                                size_t term_words, uint32_t term_count, const uint8_t *store, size_t store_length,
                                uint32_t store_count, uint8_t *out, size_t out_length);

/* Writes the index of the tables' subjects over the front of out: for each IRI that is a subject of a row, in byte order of
 * its text, the bytes 47 58 hex, the text's length in two bytes, the number of its rows in four and of its first row (from 0) in
 * four, low byte first, then the text. Terms with one text are one subject. 18 and 22 leave out as it was. The time grows with
 * the number of rows times the number of records. */
sycamoot_written sycamoot_write_index(const uint32_t *rows, size_t row_words, uint32_t row_count, const uint32_t *terms,
                                      size_t term_words, uint32_t term_count, const uint8_t *store, size_t store_length,
                                      uint32_t store_count, uint8_t *out, size_t out_length);

/* Whether the bytes are the index of the tables' subjects, no byte more or less. Any bytes and any tables may be given. */
sycamoot_checked sycamoot_check_index(const uint32_t *rows, size_t row_words, uint32_t row_count, const uint32_t *terms,
                                      size_t term_words, uint32_t term_count, const uint8_t *store, size_t store_length,
                                      uint32_t store_count, const uint8_t *index, size_t index_length);

/* Looks a subject up by its address, in an index of subjects: how many rows it has, and the number of the first. Any bytes may
 * be given as either. The records are read from the front, and no further than the stopping one: the first whose text is not
 * smaller than the address, byte by byte, a beginning being smaller than what goes on. Where that text is the address, the
 * record's two numbers are given as they stand; else, and where the bytes end before it, the subject is not there. 23 where a
 * record that was read, the stopping one too, lacks its mark 47 58 hex, is cut short by the end of the bytes, has a length over
 * 1,024, or a text that is not greater than the one before. What is behind the stopping record is not looked at, so that 0 does
 * not say that the bytes are an index; in those that sycamoot_check_index accepts, the answer is that of a walk over all rows.
 * The time grows with the bytes before the stopping record. No memory is needed but the index's bytes: there need be no tables. */
sycamoot_found sycamoot_look_up(const uint8_t *address, size_t address_length, const uint8_t *index, size_t index_length);

/* What two editions of a file do not have in common: over the front of left_list the statements that are only in the left, over
 * that of right_list those only in the right, each once, as the number of its first row (from 0), in row order. Any tables and any
 * words may be given. Statements are compared by what they say, not by numbers: IRIs by text, literals by text and the datatype's
 * text, tagged ones by text and tag, the graph too; repeats, order, positions and graphs without rows make no difference. A blank
 * node is the same as one of the other side only where the pairing says so, whatever their labels: its words are a left and a right
 * blank number in turn (the fourth word of a blank node's term, not the term's number), each at most once on its side; a node in no
 * pair is in one edition alone. An empty pairing may be given.
 *
 * 18 where the tables of either side are not usable, as for the long form; then 25; then 26 where either list is too short: one word
 * for each row of its side is always enough. These leave both lists as they were. After 0 what lies past the counts is as it was.
 * The time grows with the square of the number of rows; sycamoot_compare_indexed is for more than some thousands. */
sycamoot_compared sycamoot_compare(const uint32_t *left_rows, size_t left_row_words, uint32_t left_row_count,
                                   const uint32_t *left_terms, size_t left_term_words, uint32_t left_term_count,
                                   const uint8_t *left_store, size_t left_store_length, uint32_t left_store_count,
                                   const uint32_t *right_rows, size_t right_row_words, uint32_t right_row_count,
                                   const uint32_t *right_terms, size_t right_term_words, uint32_t right_term_count,
                                   const uint8_t *right_store, size_t right_store_length, uint32_t right_store_count,
                                   const uint32_t *pairing, size_t pairing_words, uint32_t *left_list, size_t left_list_length,
                                   uint32_t *right_list, size_t right_list_length);

/* The same answers and lists, with memory for an index of the rows and the pairs: any number of words, which may hold anything and
 * are zeros after every answer. Only the time depends on them: with SYCAMOOT_COMPARE_WORDS for every row of either side and for
 * every pair it grows with the size of the tables, unless texts were made to be taken for each other; with two or fewer it is as
 * without an index. */
sycamoot_compared sycamoot_compare_indexed(const uint32_t *left_rows, size_t left_row_words, uint32_t left_row_count,
                                           const uint32_t *left_terms, size_t left_term_words, uint32_t left_term_count,
                                           const uint8_t *left_store, size_t left_store_length, uint32_t left_store_count,
                                           const uint32_t *right_rows, size_t right_row_words, uint32_t right_row_count,
                                           const uint32_t *right_terms, size_t right_term_words, uint32_t right_term_count,
                                           const uint8_t *right_store, size_t right_store_length, uint32_t right_store_count,
                                           const uint32_t *pairing, size_t pairing_words, uint32_t *left_list,
                                           size_t left_list_length, uint32_t *right_list, size_t right_list_length,
                                           uint32_t *index, size_t index_words);

#ifdef __cplusplus
}
#endif
#endif
